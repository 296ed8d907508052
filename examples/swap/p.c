#include <stdio.h>

/* Reads two numbers, and writes the second one first. */
int main(void) {
    int a, b;
    scanf("%d", &a);
    scanf("%d", &b);
    a = b;
    b = a;
    printf("%d %d\n", a, b);
    return 0;
}
