#include <stdio.h>

/* Writes the input in capitals. */
int main(void) {
    int c;
    while ((c = getchar()) != EOF) {
        if (c >= 'a' && c <= 'z')
            c = c - 31;
        putchar(c);
    }
    return 0;
}
