/* A stencil of three points over a line of a million ints, twenty times. */
#include <stdio.h>
#include <stdlib.h>

int main(void) {
    long n = 1000000;
    long *a = calloc(n + 2, sizeof *a), *b = calloc(n + 2, sizeof *b);
    for (long i = 1; i <= n; i++) a[i] = i % 1000;
    for (long step = 1; step <= 20; step++) {
        a[step] = -step;
        for (long i = 1; i <= n; i++) b[i] = a[i - 1] + a[i] + a[i + 1];
    }
    printf("%ld %ld %ld\n", b[1], b[n], b[n / 2]);
}
