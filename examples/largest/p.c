#include <stdio.h>

/* The largest of three numbers. */
int main(void) {
    int a, b, c, best;
    scanf("%d", &a);
    scanf("%d", &b);
    scanf("%d", &c);
    best = a;
    if (b > best)
        best = b;
    printf("%d\n", best);
    return 0;
}
