/* The primes up to two million, by an array of truth values. */
#include <stdbool.h>
#include <stdio.h>
#include <stdlib.h>

int main(void) {
    long n = 2000000;
    bool *left = malloc(n + 1);
    for (long k = 2; k <= n; k++) left[k] = true;
    for (long p = 2; p * p <= n; p++)
        if (left[p])
            for (long m = p * p; m <= n; m += p) left[m] = false;
    long count = 0;
    for (long k = 2; k <= n; k++) count += left[k];
    printf("%ld\n", count);
}
