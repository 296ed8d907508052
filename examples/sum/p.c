#include <stdio.h>

/* Adds the numbers from 1 to n. */
int main(void) {
    int n, i, sum = 0;
    scanf("%d", &n);
    for (i = 1; i < n; i++)
        sum += i;
    printf("%d\n", sum);
    return 0;
}
