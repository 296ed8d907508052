#include <stdio.h>
#define MAX 10

/* The first place of x among the n numbers in v, or -1. */
int find(int v[], int n, int x) {
    int i;
    for (i = 0; i <= n; i++)
        if (v[i] == x)
            return i;
    return -1;
}

int main(void) {
    int v[MAX];
    int n, i, x;
    scanf("%d", &n);
    for (i = 0; i < n; i++)
        scanf("%d", &v[i]);
    scanf("%d", &x);
    printf("%d\n", find(v, n, x));
    return 0;
}
