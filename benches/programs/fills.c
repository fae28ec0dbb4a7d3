// The fills of scripts/bench-locales.sh in C: by one thread, and by four that are started and joined at each loop, each over a fourth of the
// array. What four gain of one says what the machine has to give: a fill waits for its memory.
#include <pthread.h>
#include <stdint.h>
#include <stdio.h>
#include <stdlib.h>
#include <time.h>

enum { SIZE = 4000000, ROUNDS = 5 };

static int64_t *array;

struct part {
    int64_t low, high;
    int which;
};

static void *fill(void *argument) {
    struct part *part = argument;
    switch (part->which) {
    case 0:
        for (int64_t i = part->low; i < part->high; i++) array[i] = (i + 1) * 3;
        break;
    case 1:
        for (int64_t i = part->low; i < part->high; i++) array[i] = array[i] * 2 + 1;
        break;
    default:
        for (int64_t i = part->low; i < part->high; i++) array[i] = 7;
    }
    return 0;
}

static void once(int which, int threads) {
    struct part parts[4];
    pthread_t started[4];
    for (int t = 0; t < threads; t++) {
        parts[t] = (struct part){(int64_t)SIZE * t / threads, (int64_t)SIZE * (t + 1) / threads, which};
        if (threads == 1) fill(&parts[t]);
        else if (pthread_create(&started[t], 0, fill, &parts[t])) exit(1);
    }
    for (int t = 0; t < threads && threads > 1; t++) pthread_join(started[t], 0);
}

static double seconds(int which, int threads, int times) {
    struct timespec begin, end;
    clock_gettime(CLOCK_MONOTONIC, &begin);
    for (int n = 0; n < times; n++) once(which, threads);
    clock_gettime(CLOCK_MONOTONIC, &end);
    return ((end.tv_sec - begin.tv_sec) + (end.tv_nsec - begin.tv_nsec) * 1e-9) / times;
}

int main(void) {
    static const char *names[] = {"A[i] = i * 3", "A = A * 2 + 1", "A = 7"};
    array = calloc(SIZE, sizeof *array);
    if (!array) return 1;
    for (int which = 0; which < 3; which++) {
        double one = 1e9, four = 1e9;
        once(which, 1);
        for (int round = 0; round < ROUNDS; round++) {
            double a = seconds(which, 1, 10), b = seconds(which, 4, 10);
            one = a < one ? a : one;
            four = b < four ? b : four;
        }
        printf("| C: `%s` for 4,000,000 | %.5f | %.5f | %.2f |\n", names[which], one, four, four / one);
    }
    printf("%lld\n", (long long)array[76]);
    return 0;
}
