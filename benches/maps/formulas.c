// The same work as the maps' benchmark by the formulas as one writes them in C, over 128 bits as there.
// Prints for each map the picoseconds of an owner, and a number that shows which owners were found.
#include <stdint.h>
#include <stdio.h>
#include <time.h>

enum { SAMPLES = 1000, ROUNDS = 4000, MOST = 3 };
enum rule { BLOCK, CYCLIC, BLOCK_CYCLIC };

struct axis {
    enum rule rule;
    int64_t low, high, size;
    uint32_t extent;
};

static __int128 floor_div(__int128 a, __int128 b) {
    __int128 q = a / b;
    return a % b < 0 ? q - 1 : q;
}

static uint32_t floor_mod(__int128 a, uint32_t n) {
    __int128 r = a % n;
    return (uint32_t)(r < 0 ? r + n : r);
}

static uint32_t place(const struct axis *axis, int64_t i) {
    switch (axis->rule) {
    case BLOCK:
        if (i < axis->low) return 0;
        if (axis->high < i) return axis->extent - 1;
        return (uint32_t)((unsigned __int128)(i - axis->low) * axis->extent / ((unsigned __int128)(axis->high - axis->low) + 1));
    case CYCLIC:
        return floor_mod((__int128)i - axis->low, axis->extent);
    default:
        return floor_mod(floor_div((__int128)i - axis->low, axis->size), axis->extent);
    }
}

static uint32_t owner(const struct axis *axes, int rank, const int64_t *index) {
    uint32_t owner = 0;
    for (int d = 0; d < rank; d++) owner = owner * axes[d].extent + place(&axes[d], index[d]);
    return owner;
}

__attribute__((noinline)) static uint64_t owners(const struct axis *axes, int rank, int64_t samples[SAMPLES][MOST]) {
    uint64_t check = 0;
    for (int round = 0; round < ROUNDS; round++)
        for (int k = 0; k < SAMPLES; k++) check = check * 3 ^ owner(axes, rank, samples[k]);
    return check;
}

static int64_t now(void) {
    struct timespec t;
    clock_gettime(CLOCK_MONOTONIC, &t);
    return t.tv_sec * 1000000000 + t.tv_nsec;
}

// The index at a place of the domain from 1 on, row by row.
static void nth(int64_t place, int rank, const int64_t *lengths, int64_t *index) {
    for (int d = rank - 1; d >= 0; d--) {
        index[d] = place % lengths[d] + 1;
        place /= lengths[d];
    }
}

int main(void) {
    static const int64_t lengths[3][MOST] = {{1000000}, {1000, 1000}, {100, 100, 100}};
    static const uint32_t extents[3][MOST] = {{60}, {6, 10}, {3, 4, 5}};
    static const int64_t sizes[3][MOST] = {{7}, {7, 9}, {2, 3, 5}};
    for (int rank = 1; rank <= MOST; rank++) {
        static int64_t samples[SAMPLES][MOST];
        int64_t size = 1, start[MOST];
        for (int d = 0; d < rank; d++) size *= lengths[rank - 1][d];
        for (int64_t k = 0; k < SAMPLES; k++) nth(k * 1048573 % size, rank, lengths[rank - 1], samples[k]);
        nth((size - 1) / 2, rank, lengths[rank - 1], start);
        for (enum rule rule = BLOCK; rule <= BLOCK_CYCLIC; rule++) {
            struct axis axes[MOST];
            for (int d = 0; d < rank; d++)
                axes[d] = (struct axis){rule, rule == BLOCK ? 1 : start[d], lengths[rank - 1][d], sizes[rank - 1][d], extents[rank - 1][d]};
            int64_t begun = now();
            uint64_t check = owners(axes, rank, samples);
            printf("%lld %llu ", (long long)((now() - begun) / 4000), (unsigned long long)check);
        }
    }
    printf("\n");
    return 0;
}
