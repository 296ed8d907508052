#include <stdio.h>

/* Says of a number whether it is even or odd. */
int main(void) {
    int n;
    scanf("%d", &n);
    if (n % 2)
        printf("even\n");
    else
        printf("odd\n");
    return 0;
}
