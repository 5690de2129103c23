/* Names of eight letters that share a hash in a table of the toolchain that has no seeds of its own.
   usage: collide COUNT BITS
   It writes COUNT names, one a line. As names of a tenant's actors they have one place in a table of up to 2^BITS groups
   whose hashes begin with the toolchain's fixed state. */
#include <stdint.h>
#include <stdio.h>
#include <stdlib.h>

static const uint64_t MULTIPLIER = 0x9E3779B97F4A7C15u;
static const uint64_t STATE = 0x243F6A8885A308D3u;
static const char LETTERS[] = "abcdefghijklmnopqrstuvwxyz0123456789_";

static uint64_t folded_multiply(uint64_t one, uint64_t other)
{
    unsigned __int128 product = (unsigned __int128)one * other;
    return (uint64_t)product ^ (uint64_t)(product >> 64);
}

int main(int count_of_words, char **words)
{
    if (count_of_words != 3) {
        return 2;
    }
    const long count = strtol(words[1], NULL, 10);
    const uint64_t mask = ((uint64_t)1 << strtol(words[2], NULL, 10)) - 1;
    /* A name's 16 bytes are read as two words, the second of them zeros. */
    const uint64_t before = STATE + 16;
    const int letters = sizeof LETTERS - 1;
    int places[8] = {0};
    uint64_t name = 0;
    for (int at = 0; at < 8; at++) {
        name |= (uint64_t)LETTERS[0] << 8 * at;
    }
    for (long found = 0; found < count;) {
        const uint64_t hash = folded_multiply(name ^ before, MULTIPLIER);
        if (((hash ^ hash >> 32) & mask) == 0) {
            printf("%.8s\n", (const char *)&name);
            found++;
        }
        int at = 0;
        while (at < 8 && ++places[at] == letters) {
            places[at] = 0;
            name = (name & ~((uint64_t)255 << 8 * at)) | (uint64_t)LETTERS[0] << 8 * at;
            at++;
        }
        if (at == 8) {
            return 1;
        }
        name = (name & ~((uint64_t)255 << 8 * at)) | (uint64_t)LETTERS[places[at]] << 8 * at;
    }
    return 0;
}
