// Prints ints that are in one bucket of a dictionary, if its hasher begins with a known seed: keys SEEDED COUNT, where SEEDED is 0 for the kit's own
// seed, and 1 for a hasher that was fed the seed 0.
#include <stdint.h>
#include <stdio.h>
#include <stdlib.h>

static const uint64_t MULTIPLIER = 0x9e3779b97f4a7c15;

static uint64_t folded(uint64_t a, uint64_t b) {
    unsigned __int128 product = (unsigned __int128)a * b;
    return (uint64_t)product ^ (uint64_t)(product >> 64);
}

static uint64_t written(uint64_t state, uint64_t word) { return folded(state ^ word, MULTIPLIER ^ 16); }

int main(int count, char **words) {
    uint64_t state = 0x243f6a8885a308d3;
    if (count != 3) return 2;
    if (atoi(words[1])) state = written(state, 0);
    // one atom, which is an int
    state = written(written(state, 1), 2);
    int wanted = atoi(words[2]);
    for (uint64_t n = 0; wanted; n++) {
        uint64_t hash = written(state, n);
        if (((hash ^ (hash >> 32)) & 0xfff) == 0) {
            printf("%llu\n", (unsigned long long)n);
            wanted--;
        }
    }
}
