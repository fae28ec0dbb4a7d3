/* Twice each of a million ints and one, put into another array, twenty times. */
#include <stdio.h>
#include <stdlib.h>

int main(void) {
    long n = 1000000;
    long *a = malloc((n + 1) * sizeof *a), *b = malloc((n + 1) * sizeof *b);
    for (long i = 1; i <= n; i++) a[i] = i % 1000;
    for (long k = 1; k <= 20; k++) {
        a[k] = -k;
        for (long i = 1; i <= n; i++) b[i] = a[i] * 2 + 1;
    }
    printf("%ld %ld %ld\n", b[1], b[20], b[n]);
}
