// The yardstick for the script programs: a plain reader of the same lines in C. It reads a line, its word and its numbers, and prints a line of the same
// numbers, by the means that a C programmer would take (fgets, strtoull, printf), and knows nothing of timers. Built and run by bench/run.
#include <stdio.h>
#include <stdlib.h>

int main(void) {
    static char line[256];
    while (fgets(line, sizeof line, stdin)) {
        char *at = line;
        while (*at > ' ') at++;
        unsigned long long number[3] = {0, 0, 0};
        int count = 0;
        while (*at == ' ' && count < 3) number[count++] = strtoull(at + 1, &at, 10);
        printf("read %llu %llu\n", number[0], number[1]);
    }
    return 0;
}
