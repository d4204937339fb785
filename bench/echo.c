/* A tool that answers what it is asked by the same term, until it is told to end. */
#include <stdio.h>
#include <string.h>

int main(void)
{
    static char line[70000];
    while (fgets(line, sizeof line, stdin)) {
        if (strncmp(line, "rec-eval(", 9) == 0) {
            printf("snd-value(%s", line + 9);
            fflush(stdout);
        } else if (strncmp(line, "rec-terminate(", 14) == 0)
            return 0;
    }
    return 0;
}
