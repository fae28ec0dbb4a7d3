/* Heat on a plate of 300 by 300 inner points, in whole numbers, for twenty steps. */
#include <stdio.h>
#include <string.h>

enum { inside = 300 };
static long heat[inside + 2][inside + 2], old[inside + 2][inside + 2];

int main(void) {
    for (int j = 0; j <= inside + 1; j++) heat[0][j] = 1000;
    for (int step = 1; step <= 20; step++) {
        memcpy(old, heat, sizeof heat);
        for (int i = 1; i <= inside; i++)
            for (int j = 1; j <= inside; j++)
                heat[i][j] = (old[i - 1][j] + old[i + 1][j] + old[i][j - 1] + old[i][j + 1]) / 4;
    }
    long sum = 0;
    for (int i = 0; i <= inside + 1; i++)
        for (int j = 0; j <= inside + 1; j++) sum += heat[i][j];
    printf("%ld\n", sum);
}
