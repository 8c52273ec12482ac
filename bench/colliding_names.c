/* bench/colliding_names COUNT: prints so many names of six letters that all begin their search at one place of a table of names, for bench/hostile.
 *
 * A name's hash is folded from its length and its bytes: each step multiplies the state, mixed with a part, by a constant, and folds the upper half of the
 * product into the lower. The place in a table is that of the hash's last bits; the names printed are those of which fifteen are 0.
 */
#include <stdint.h>
#include <stdio.h>
#include <stdlib.h>

#define LETTERS 6
#define ZERO_BITS 15
static const uint64_t factor = 0x9e3779b97f4a7c15u, seed = 0x243f6a8885a308d3u;
static const char letters[] = "abcdefghijklmnopqrstuvwxyzABCDEFGHIJKLMNOPQRSTUVWXYZ0123456789_";

static uint64_t folded(uint64_t state, uint64_t part, uint64_t width) {
    unsigned __int128 product = (unsigned __int128)(state ^ part) * (factor ^ width);
    return (uint64_t)product ^ (uint64_t)(product >> 64);
}

static long left;
static char name[LETTERS + 1];

/* goes through all names that begin with the first letters of `name` */
static void search(uint64_t state, int at) {
    int choices = at ? 63 : 52; /* a name begins with a letter */
    for (int i = 0; i < choices && left > 0; i++) {
        uint64_t byte = (unsigned char)letters[i];
        uint64_t next = folded(state, byte | byte << 8 | byte << 16, 2);
        name[at] = letters[i];
        if (at + 1 < LETTERS)
            search(next, at + 1);
        else if (!((next ^ next >> 32) & ((1u << ZERO_BITS) - 1))) {
            puts(name);
            left--;
        }
    }
}

int main(int count, char **words) {
    left = count > 1 ? atol(words[1]) : 0;
    search(folded(seed, LETTERS, 16), 0);
    return 0;
}
