/* The calculator's tool: two buttons are pressed, what it is asked it works out, and then it quits. */
#include <stdio.h>
#include <string.h>

int main(void)
{
    char line[256];
    long a, b;
    setvbuf(stdout, NULL, _IOLBF, 0);
    puts("snd-event(button(plus(1,2)))");
    while (fgets(line, sizeof line, stdin)) {
        if (sscanf(line, "rec-eval(plus(%ld,%ld))", &a, &b) == 2)
            printf("snd-value(%ld)\n", a + b);
        else if (strcmp(line, "rec-ack-event(button(plus(1,2)))\n") == 0)
            puts("snd-event(button(plus(20,22)))");
        else if (strncmp(line, "rec-ack-event(", 14) == 0)
            puts("snd-event(quit)");
        else if (strncmp(line, "rec-terminate(", 14) == 0)
            return 0;
    }
    return 0;
}
