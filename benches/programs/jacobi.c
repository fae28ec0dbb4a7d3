/* The mean of the four points beside each, and the copy back, over a plane of 1000 by 1000 ints, ten times. */
#include <stdio.h>

enum { n = 1000 };
static long a[n + 2][n + 2], b[n + 2][n + 2];

int main(void) {
    for (int i = 1; i <= n; i++)
        for (int j = 1; j <= n; j++) a[i][j] = (i * 7 + j * 3) % 1000;
    for (int step = 1; step <= 10; step++) {
        for (int i = 1; i <= n; i++)
            for (int j = 1; j <= n; j++) b[i][j] = (a[i - 1][j] + a[i + 1][j] + a[i][j - 1] + a[i][j + 1]) / 4;
        for (int i = 1; i <= n; i++)
            for (int j = 1; j <= n; j++) a[i][j] = b[i][j];
    }
    printf("%ld %ld %ld\n", a[1][1], a[n][n], a[5][6]);
}
