/* Raises 3 to a secret power by squaring and multiplying, modulo the prime 2^512 - 569, as RSA and Diffie and
 * Hellman do.
 *
 * The secret is the exponent, the four bytes of the input, the highest first. Each of its bits costs a
 * squaring, and each bit that is 1 a multiplication besides. The leak is the time: it tells how many bits are
 * 1. */

#include "host.h"

enum { WORDS = 16, REST = 569 };

/* A number of 512 bits, the lowest word first. */
struct number {
    unsigned words[WORDS];
};

/* Adds so many times 2^512, which is 569 modulo the prime, until nothing is carried out of the number. */
static void fold(struct number *number, unsigned times)
{
    while (times != 0) {
        unsigned long long carry = (unsigned long long)times * REST;
        for (unsigned i = 0; i < WORDS; i++) {
            carry += number->words[i];
            number->words[i] = (unsigned)carry;
            carry >>= 32;
        }
        times = (unsigned)carry;
    }
}

/* The product of two numbers modulo the prime, below 2^512. */
static void multiply(struct number *into, const struct number *left, const struct number *right)
{
    unsigned product[2 * WORDS];
    for (unsigned i = 0; i < WORDS; i++)
        product[i] = 0;
    for (unsigned i = 0; i < WORDS; i++) {
        unsigned long long carry = 0;
        for (unsigned j = 0; j < WORDS; j++) {
            carry += (unsigned long long)left->words[i] * right->words[j] + product[i + j];
            product[i + j] = (unsigned)carry;
            carry >>= 32;
        }
        product[i + WORDS] = (unsigned)carry;
    }
    unsigned long long carry = 0;
    for (unsigned i = 0; i < WORDS; i++) {
        carry += (unsigned long long)product[i + WORDS] * REST + product[i];
        into->words[i] = (unsigned)carry;
        carry >>= 32;
    }
    fold(into, (unsigned)carry);
}

static const struct number base = {{3}};
static struct number power = {{1}};

int main(void)
{
    unsigned char exponent[4];
    read_input(exponent, sizeof exponent);
    for (unsigned bit = 0; bit < 8 * sizeof exponent; bit++) {
        multiply(&power, &power, &power);
        if (exponent[bit / 8] >> (7 - bit % 8) & 1)
            multiply(&power, &power, &base);
    }
    write_output(&power, sizeof power);
    return 0;
}
