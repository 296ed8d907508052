#include <stdio.h>

/* Counts the lines of the input, nine at most. */
int main(void) {
    int c, lines = 0;
    while ((c = getchar()) != EOF)
        if (c == '\n')
            lines++;
    putchar('0' + lines);
    putchar('\n');
    return 0;
}
