/* The sum of a million ints in an array, twenty times. */
#include <stdio.h>
#include <stdlib.h>

int main(void) {
    long n = 1000000, sum = 0;
    long *a = malloc((n + 1) * sizeof *a);
    for (long i = 1; i <= n; i++) a[i] = i % 1000;
    for (long k = 1; k <= 20; k++) {
        a[k] = -k;
        for (long i = 1; i <= n; i++) sum += a[i];
    }
    printf("%ld\n", sum);
}
