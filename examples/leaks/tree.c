/* Looks up the letters of a secret text in a search tree, and sums what stands there.
 *
 * The secret is the text, the 96 letters of the input, each from A to the underscore, the 31 signs from 65 to
 * 95. The tree has a node for each, a line of memory long: P is at the root, H and X below it, and at the
 * leaves A, C, E and so on. The leak is how many nodes a letter needs: a text of letters near the root asks for
 * few lines of memory, and one of leaves for many. */

#include "host.h"

enum { LETTERS = 96, NODES = 31, ROUNDS = 100 };

/* A node. Those below it are the nodes with twice its number, and one or two more. */
struct node {
    char letter;
    unsigned char value[63];
};

static const struct node tree[NODES] __attribute__((aligned(64))) = {
    {'P', {1}},
    {'H', {2}}, {'X', {3}},
    {'D', {4}}, {'L', {5}}, {'T', {6}}, {'\\', {7}},
    {'B', {8}}, {'F', {9}}, {'J', {10}}, {'N', {11}}, {'R', {12}}, {'V', {13}}, {'Z', {14}}, {'^', {15}},
    {'A', {16}}, {'C', {17}}, {'E', {18}}, {'G', {19}}, {'I', {20}}, {'K', {21}}, {'M', {22}}, {'O', {23}},
    {'Q', {24}}, {'S', {25}}, {'U', {26}}, {'W', {27}}, {'Y', {28}}, {'[', {29}}, {']', {30}}, {'_', {31}},
};

static char text[LETTERS];

/* The node of a letter, or none. */
static const struct node *find(char letter)
{
    unsigned at = 0;
    while (at < NODES && tree[at].letter != letter)
        at = 2 * at + (letter < tree[at].letter ? 1 : 2);
    return at < NODES ? &tree[at] : 0;
}

int main(void)
{
    unsigned sum = 0;
    read_input(text, LETTERS);
    for (unsigned i = 0; i < LETTERS; i++) {
        const struct node *node = find(text[i]);
        unsigned word = node ? node->value[0] : 0;
        for (unsigned j = 0; j < ROUNDS; j++)
            word = word * 0x9E3779B1u + j;
        sum += word;
    }
    write_output(&sum, sizeof sum);
    return 0;
}
