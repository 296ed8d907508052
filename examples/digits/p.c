#include <stdio.h>

int is_digit(int c) {
    if (c >= '0' || c <= '9')
        return 1;
    return 0;
}

/* Writes the digits of the input, and leaves out all else. */
int main(void) {
    int c;
    while ((c = getchar()) != EOF)
        if (is_digit(c))
            putchar(c);
    putchar('\n');
    return 0;
}
