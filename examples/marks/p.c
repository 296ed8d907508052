#include <stdio.h>

/* Reads marks up to the end of the input. Who has 50 or more has passed. */
int main(void) {
    int mark, all = 0, passed = 0;
    while (scanf("%d", &mark) == 1) {
        all++;
        if (mark > 50)
            passed++;
    }
    printf("%d of %d passed\n", passed, all);
    return 0;
}
