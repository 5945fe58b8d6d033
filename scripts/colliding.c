/* Writes a feed whose cells, or a session whose numbers, collide in tables by a hash that whoever writes it knows.
 *
 *     colliding KIND LINES
 *
 * The feed is of two dimensions and a measure. KIND is the hash of the cells: `fold` (multiplies and folds words, with the
 * seed and the factor that many programs use), `fx` and `fnv` (from a seed of 0), `known` (the program's own, under
 * the words that SipHash makes of numbers under the key 0), or `none`: cells by chance, as many. `numbers` is a session
 * of one cell whose numbers collide by `fold`. A key is four words of two codes, and texts get codes in the order in which they
 * come. Of a table with a power of 2 of groups, the lowest bits of a hash choose the group.
 */
#include <stdint.h>
#include <stdio.h>
#include <stdlib.h>
#include <string.h>

#define ALL 0xFFFFFFFFULL
#define SEED 0x243F6A8885A308D3ULL
#define FACTOR 0x9E3779B97F4A7C15ULL
/* one in so many groups is aimed at */
#define NARROW 64

static uint64_t words[9];

static uint64_t rotated(uint64_t x, int by) { return x << by | x >> (64 - by); }

static void sip_round(uint64_t v[4]) {
    v[0] += v[1], v[2] += v[3];
    v[1] = rotated(v[1], 13) ^ v[0], v[3] = rotated(v[3], 16) ^ v[2];
    v[0] = rotated(v[0], 32);
    v[2] += v[1], v[0] += v[3];
    v[1] = rotated(v[1], 17) ^ v[2], v[3] = rotated(v[3], 21) ^ v[0];
    v[2] = rotated(v[2], 32);
}

/* SipHash-1-3 of a number's eight bytes under the key 0 */
static uint64_t sip(uint64_t number) {
    uint64_t v[4] = {0x736f6d6570736575, 0x646f72616e646f6d, 0x6c7967656e657261, 0x7465646279746573};
    uint64_t blocks[2] = {number, 8ULL << 56};
    for (int at = 0; at < 2; at++) {
        v[3] ^= blocks[at];
        sip_round(v);
        v[0] ^= blocks[at];
    }
    v[2] ^= 0xFF;
    for (int at = 0; at < 3; at++) sip_round(v);
    return v[0] ^ v[1] ^ v[2] ^ v[3];
}

static uint64_t folded(uint64_t a, uint64_t b) {
    unsigned __int128 product = (unsigned __int128)a * b;
    return (uint64_t)product ^ (uint64_t)(product >> 64);
}

static uint64_t hash_of(const char *kind, const uint64_t *key, int count) {
    uint64_t hash = 0;
    if (!strcmp(kind, "fold")) {
        hash = SEED;
        for (int at = 0; at < count; at++) hash = folded(hash ^ key[at], FACTOR ^ 16);
    } else if (!strcmp(kind, "fx")) {
        for (int at = 0; at < count; at++) hash = (rotated(hash, 5) ^ key[at]) * 0x517CC1B727220A95ULL;
    } else if (!strcmp(kind, "fnv")) {
        for (int at = 0; at < count * 8; at++) hash = (hash ^ (key[at / 8] >> at % 8 * 8 & 255)) * 0x100000001B3ULL;
    } else {
        hash = words[0];
        for (int at = 0; at < count; at++)
            hash += (words[2 * at + 1] + (key[at] & ALL)) * (words[2 * at + 2] + (key[at] >> 32));
        hash >>= 32;
    }
    return (hash ^ hash >> 32) & ALL;
}

/* how many groups a table of so many entries has */
static uint64_t groups_of(uint64_t entries) {
    uint64_t groups = 1;
    while (9 * groups < entries) groups *= 2;
    return groups;
}

static uint64_t drawn(void) {
    static uint64_t state = 1;
    state ^= state << 13, state ^= state >> 7, state ^= state << 17;
    return state;
}

static void cells(const char *kind, uint64_t lines) {
    uint64_t side = 1, at = 0, groups = groups_of(lines), apart = !strcmp(kind, "none");
    while (side * side / NARROW < lines) side++;
    for (; at < side && at < lines; at++) printf("I,%lu,w%lu,a%lu,1\n", at, at, at);
    for (uint64_t low = 0; low < side; low++)
        for (uint64_t high = 0; high < side && at < lines; high++) {
            uint64_t key[4] = {low | high << 32, ~0ULL, ~0ULL, ~0ULL};
            uint64_t is_taken = apart ? drawn() % NARROW == 0 : (hash_of(kind, key, 4) & (groups - 1)) < groups / NARROW;
            if (low != high && is_taken) printf("I,%lu,w%lu,a%lu,1\n", at++, low, high);
        }
    for (; at < lines; at++) printf("I,%lu,w,a,1\n", at);
}

/* Different numbers, then the least of them taken out, and others put in: the multiset becomes a table. A question makes
   a session apply what it was told. */
static void numbers(uint64_t lines) {
    uint64_t at = 0, groups = groups_of(lines);
    printf("1,I,least,w,a,-1\n");
    for (uint64_t number = 1; at + 3 < lines; number++) {
        if ((hash_of("fold", &number, 1) & (groups - 1)) < groups / NARROW) {
            printf("1,I,%lu,w,a,%lu\n", at, number);
            if (++at == lines / 8) printf("1,D,least\n");
            if (at % 1000 == 0) printf("slice,\\A,\\A\n");
        }
    }
    printf("slice,\\A,\\A\n");
}

int main(int count, char **given) {
    if (count != 3) return 2;
    for (int at = 0; at < 9; at++) words[at] = sip(at);
    uint64_t lines = strtoull(given[2], NULL, 10);
    if (!strcmp(given[1], "numbers")) {
        numbers(lines);
        return 0;
    }
    printf("op,id,region,kind,amount\n");
    cells(given[1], lines);
    return 0;
}
