/* A million ints are printed in one line. */
#include <stdio.h>
#include <stdlib.h>

int main(void) {
    long n = 1000000;
    long *a = malloc((n + 1) * sizeof *a);
    for (long i = 1; i <= n; i++) a[i] = i * 7 % 100000;
    printf("%ld", a[1]);
    for (long i = 2; i <= n; i++) printf(" %ld", a[i]);
    printf("\n");
}
