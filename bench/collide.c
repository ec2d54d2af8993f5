/* Writes names whose hashes share their low bits, as the tables of names and labels hash them.
 *
 *     collide KIND COUNT BITS [SEED]
 *
 * KIND is `names`, for identifiers of a source, or `labels`, for those of an assembly text. It writes COUNT names of
 * eight lower-case letters, a line each, whose hashes share their low BITS bits with each other; with BITS 0 any names.
 * The hasher multiplies to 128 bits and joins the halves by exclusive or, with a seed that is fixed (`FoldHasher` in the
 * kit's core crate); a table takes the halves of its result, joined likewise, and begins to look at the low bits' place.
 */
#include <stdint.h>
#include <stdio.h>
#include <stdlib.h>
#include <string.h>

static const uint64_t multiplier = 0x9e3779b97f4a7c15, first_state = 0x243f6a8885a308d3;

static uint64_t folded(uint64_t a, uint64_t b)
{
    unsigned __int128 product = (unsigned __int128)a * b;
    return (uint64_t)product ^ (uint64_t)(product >> 64);
}

static uint64_t one_byte(uint64_t state, unsigned char byte)
{
    return folded(state ^ (byte | (uint64_t)byte << 8 | (uint64_t)byte << 16), multiplier ^ 2);
}

static uint64_t eight_bytes(uint64_t state, uint64_t value)
{
    return folded(state ^ value, multiplier ^ 16);
}

/* an identifier's bytes are hashed as one number, and a byte 255 after them */
static uint64_t hash_of_name(const char *name)
{
    uint64_t value;
    memcpy(&value, name, 8);
    return one_byte(eight_bytes(first_state, value), 255);
}

/* a label's length is hashed, and then its bytes one by one; those before the last stand in `before` */
static uint64_t state_of_label(const char *name, int count)
{
    uint64_t state = eight_bytes(first_state, 8);
    for (int i = 0; i < count; i++)
        state = one_byte(state, (unsigned char)name[i]);
    return state;
}

int main(int words, char **word)
{
    if (words < 4)
        return 64;
    int labels = word[1][0] == 'l', bits = atoi(word[3]);
    long count = atol(word[2]);
    uint64_t mask = ((uint64_t)1 << bits) - 1, at = words > 4 ? strtoull(word[4], 0, 10) : 1;
    char name[9] = {0};
    while (count > 0) {
        uint64_t left = at++;
        for (int i = 0; i < 7; i++, left /= 26)
            name[i] = (char)('a' + left % 26);
        uint64_t before = labels ? state_of_label(name, 7) : 0;
        for (char last = 'a'; last <= 'z' && count > 0; last++) {
            name[7] = last;
            uint64_t hash = labels ? one_byte(before, (unsigned char)last) : hash_of_name(name);
            uint64_t place = (hash ^ hash >> 32) & mask;
            if (place == 0) {
                puts(name);
                count--;
            }
        }
    }
    return 0;
}
