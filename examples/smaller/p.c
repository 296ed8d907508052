#include <stdio.h>
int main(void) {
    int first;
    int second;
    first = getchar();
    second = getchar();
    if (first > second) {
        putchar(first);
    } else {
        putchar(second);
    }
    putchar(10);
    return 0;
}
