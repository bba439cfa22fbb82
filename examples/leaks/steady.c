/* The comparison of compare.c, written to leak nothing: every guess is compared to its last letter, whatever
 * was right before.
 *
 * The input is that of compare.c, and the secret is the password. No jump and no address depends on it: the
 * program does the same instructions at the same addresses for each password, and so it takes the same time and
 * asks for the same lines. */

#include "host.h"

enum { LETTERS = 15, GUESSES = 48, ROUNDS = 64 };

struct guess {
    char letters[LETTERS + 1];
    char rest[48];
};

static unsigned kept[LETTERS];
static struct guess guesses[GUESSES];
static char answers[GUESSES];

/* A letter at its place, stretched to a word by some rounds of mixing. */
static unsigned stretched(unsigned letter, unsigned place)
{
    unsigned word = letter + 256 * place;
    for (unsigned i = 0; i < ROUNDS; i++) {
        word = word * 0x9E3779B1u + i;
        word ^= word >> 15;
    }
    return word;
}

/* 1 where a guess is the password, else 0. What differs is gathered in one word, which is looked at once, without
 * a jump. */
static unsigned is_right(const char *letters)
{
    unsigned differs = 0;
    for (unsigned i = 0; i < LETTERS; i++)
        differs |= stretched((unsigned char)letters[i], i) ^ kept[i];
    return 1 ^ (differs | -differs) >> 31;
}

int main(void)
{
    char password[LETTERS + 1];
    read_input(password, sizeof password);
    for (unsigned i = 0; i < LETTERS; i++)
        kept[i] = stretched((unsigned char)password[i], i);
    for (unsigned i = 0; i < GUESSES; i++) {
        read_input(guesses[i].letters, sizeof guesses[i].letters);
        answers[i] = (char)('n' + ('y' - 'n') * is_right(guesses[i].letters));
    }
    write_output(answers, sizeof answers);
    return 0;
}
