#include <stdio.h>

/* Reads the sides of a triangle. It is isosceles where two of them are the same. */
int main(void) {
    int a, b, c;
    scanf("%d", &a);
    scanf("%d", &b);
    scanf("%d", &c);
    if (a == b || b == c)
        printf("isosceles\n");
    else
        printf("scalene\n");
    return 0;
}
