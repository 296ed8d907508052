#include <stdio.h>

/* The greatest common divisor: the smaller number is taken from the larger one until both are the same. */
int main(void) {
    int a, b;
    scanf("%d", &a);
    scanf("%d", &b);
    while (a != b) {
        if (a < b)
            a = a - b;
        else
            b = b - a;
    }
    printf("%d\n", a);
    return 0;
}
