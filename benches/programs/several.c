/* Bodies of several statements over a million ints, twenty times. */
#include <stdio.h>
#include <stdlib.h>

int main(void) {
    long n = 1000000;
    long *A = calloc(n + 1, sizeof *A), *B = calloc(n + 1, sizeof *B), *C = calloc(n + 1, sizeof *C), s = 0;
    for (long i = 1; i <= n; i++) A[i] = i * 7 % 1000;
    for (long k = 1; k <= 20; k++)
        for (long i = 1; i <= n; i++) {
            B[i] = A[i] * 3 + k;
            if (B[i] % 2 == 0) C[i] = B[i] - k; else C[i] = B[i] * 2;
            s += C[i] * i;
        }
    printf("%ld %ld %ld\n", s, B[n], C[1]);
}
