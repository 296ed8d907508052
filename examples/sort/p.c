#include <stdio.h>
#define MAX 20

/* Puts the n numbers in v in order: each one moves left past those that are larger. */
void sort(int v[], int n) {
    int i, j, x;
    for (i = 1; i < n; i++) {
        x = v[i];
        j = i;
        while (j > 0 && v[j - 1] > x) {
            v[j] = v[j - 1];
            j--;
        }
        v[j] = x;
    }
}

int main(void) {
    int v[MAX];
    int n = 0, i;
    while (n < MAX && scanf("%d", &v[n]) == 1)
        n++;
    sort(v, n);
    for (i = 0; i < n; i++)
        printf("%d\n", v[i]);
    return 0;
}
