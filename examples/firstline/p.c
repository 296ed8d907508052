#include <stdio.h>

/* Writes the first line of the input. */
int main(void) {
    int c;
    while ((c = getchar()) != EOF)
        putchar(c);
    putchar('\n');
    return 0;
}
