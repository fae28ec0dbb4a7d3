/* A stencil of four points over a plane of 1000 by 1000 ints, ten times. */
#include <stdio.h>

enum { n = 1000 };
static long a[n + 2][n + 2], b[n + 2][n + 2];

int main(void) {
    for (int i = 1; i <= n; i++)
        for (int j = 1; j <= n; j++) a[i][j] = i + j;
    for (int step = 1; step <= 10; step++) {
        a[step][step] = -step;
        for (int i = 1; i <= n; i++)
            for (int j = 1; j <= n; j++) b[i][j] = a[i - 1][j] + a[i + 1][j] + a[i][j - 1] + a[i][j + 1];
    }
    printf("%ld %ld %ld\n", b[1][1], b[n][n], b[5][6]);
}
