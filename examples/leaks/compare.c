/* Compares guesses with a password, and ends at the first wrong letter.
 *
 * The secret is the password, the first line of the input. Each further line is a guess; all lines have
 * fifteen letters and a line feed. Letters are compared as they are kept, stretched: so a right letter costs
 * the time of a further one. The leak is this time: the more letters of the guesses are right, the longer the
 * program works between two lines of memory. */

#include "host.h"

enum { LETTERS = 15, GUESSES = 48, ROUNDS = 64 };

struct guess {
    char letters[LETTERS + 1];
    char rest[48];
};

static unsigned kept[LETTERS];
static struct guess guesses[GUESSES];
static char answers[GUESSES];

/* A letter at its place, stretched to a word by some rounds of mixing. */
static unsigned stretched(unsigned letter, unsigned place)
{
    unsigned word = letter + 256 * place;
    for (unsigned i = 0; i < ROUNDS; i++) {
        word = word * 0x9E3779B1u + i;
        word ^= word >> 15;
    }
    return word;
}

/* Whether a guess is the password: the first letter that isn't right ends it. */
static int is_right(const char *letters)
{
    for (unsigned i = 0; i < LETTERS; i++)
        if (stretched((unsigned char)letters[i], i) != kept[i])
            return 0;
    return 1;
}

int main(void)
{
    char password[LETTERS + 1];
    read_input(password, sizeof password);
    for (unsigned i = 0; i < LETTERS; i++)
        kept[i] = stretched((unsigned char)password[i], i);
    for (unsigned i = 0; i < GUESSES; i++) {
        read_input(guesses[i].letters, sizeof guesses[i].letters);
        answers[i] = is_right(guesses[i].letters) ? 'y' : 'n';
    }
    write_output(answers, sizeof answers);
    return 0;
}
