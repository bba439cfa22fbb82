/* Prints the number e with a hundred decimals, by the spigot of Rabinowitz and Wagon: e is 2 and, in the mixed base
 * 1/2, 1/3, 1/4 and so on, digits that are all 1. Each round multiplies these digits by ten and carries. */

enum { DECIMALS = 100, DIGITS = 80 };

/* The host call write, to the output: the number of the call in a7, file 1, the bytes and how many in a0 to a2. */
static void print(const char *text, unsigned length)
{
    register unsigned a0 __asm__("a0") = 1;
    register const char *a1 __asm__("a1") = text;
    register unsigned a2 __asm__("a2") = length;
    register unsigned a7 __asm__("a7") = 64;
    __asm__ volatile("ecall" : "+r"(a0) : "r"(a1), "r"(a2), "r"(a7) : "memory");
}

static unsigned digits[DIGITS];

/* The next decimal: the digits, times ten, each carried into the one before. */
static unsigned next_decimal(void)
{
    unsigned carry = 0;
    for (unsigned i = DIGITS; i-- > 0;) {
        unsigned product = digits[i] * 10 + carry;
        digits[i] = product % (i + 2);
        carry = product / (i + 2);
    }
    return carry;
}

int main(void)
{
    static char text[DECIMALS + 3] = "2.";
    for (unsigned i = 0; i < DIGITS; i++)
        digits[i] = 1;
    for (unsigned i = 0; i < DECIMALS; i++)
        text[2 + i] = (char)('0' + next_decimal());
    text[DECIMALS + 2] = '\n';
    print(text, DECIMALS + 3);
    return 0;
}
