/* Drives the lamp of lamp.pr from the keyboard: each line is a press of its switch, and the end of the input ends it. */
#include <stdint.h>
#include <stdio.h>

extern int64_t r; /* the number of the active state, in the order of the STATE headers */
void start(void);
void on_press(void);

static int wait_for_a_line(void)
{
    int c;
    do {
        c = getchar();
    } while (c != '\n' && c != EOF);
    return c != EOF;
}

int main(void)
{
    start();
    for (;;) {
        puts(r == 0 ? "dark" : "bright");
        if (!wait_for_a_line())
            return 0;
        on_press();
    }
}
