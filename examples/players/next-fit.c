/* Keeps to one bin as long as it stays below the target, and goes on to the next one then. */
#include <stdio.h>

int main(void) {
    int loads[8] = {0}, bins, target, item, bin = 0;
    if (scanf("session %d %*d %d", &bins, &target) != 2) return 1;
    while (scanf(" item %d", &item) == 1) {
        if (loads[bin] + item >= target) bin = (bin + 1) % bins;
        loads[bin] += item;
        printf("bin %d\n", bin);
        fflush(stdout);
    }
    return 0;
}
