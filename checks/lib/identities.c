/* Prints COUNT identities of commands, one CLIENT.NUMBER per line. A map with room for 4,096 of them begins its search
 * for each of them at the same place. The hash of an identity begins with a salt:
 *
 *     identities 0 COUNT      the salt 0
 *     identities 1 COUNT      the salt that results from 0 and no command
 *
 * The hash is SipHash-1-3 with the keys 0. It hashes two words, the salt and the identity. The map joins the two halves
 * of the hash by xor. It uses nine bits of the result for the place, and compares eight more bits before it compares
 * identities. */
#include <inttypes.h>
#include <stdio.h>
#include <stdlib.h>

typedef struct {
    uint64_t a, b, c, d;
} State;

static uint64_t turned(uint64_t word, int by)
{
    return word << by | word >> (64 - by);
}

static State rounded(State s)
{
    s.a += s.b;
    s.c += s.d;
    s.b = turned(s.b, 13) ^ s.a;
    s.d = turned(s.d, 16) ^ s.c;
    s.a = turned(s.a, 32);
    s.c += s.b;
    s.a += s.d;
    s.b = turned(s.b, 17) ^ s.c;
    s.d = turned(s.d, 21) ^ s.a;
    s.c = turned(s.c, 32);
    return s;
}

static State after(State s, uint64_t word)
{
    s.d ^= word;
    s = rounded(s);
    s.a ^= word;
    return s;
}

/* The hash of a state that has taken in `count` words. */
static uint64_t hash(State s, uint64_t count)
{
    s = after(s, count * 8 << 56);
    s.c ^= 0xff;
    s = rounded(rounded(rounded(s)));
    return s.a ^ s.b ^ s.c ^ s.d;
}

/* The bits of an identity's hash that the map uses. */
static uint32_t place(State salted, uint64_t identity)
{
    uint64_t whole = hash(after(salted, identity), 2);
    return (uint32_t)(whole ^ whole >> 32) & 0xff0001ff;
}

int main(int count, char **words)
{
    State first = {0x736f6d6570736575, 0x646f72616e646f6d, 0x6c7967656e657261, 0x7465646279746573};
    State salted = after(first, 0);
    if (count != 3)
        return 2;
    if (atol(words[1]) == 1)
        salted = after(first, hash(salted, 1));
    long left = atol(words[2]);
    for (uint64_t identity = 0; left > 0; identity++) {
        if (place(salted, identity) == 0x5a000000) {
            printf("%" PRIu64 ".%" PRIu64 "\n", identity >> 32, identity & 0xffffffff);
            left--;
        }
    }
    return 0;
}
