/* The calculator's tool, by the kit for C. */
#include "../kits/c/toolbus.h"

static const char *buttons[] = {"button(plus(1,2))", "button(plus(20,22))", "quit"};

static void press(void)
{
    static int next;
    if (next < 3)
        tb_event(buttons[next++]);
}

static tb_term *answer(const tb_term *term)
{
    long a, b;
    return tb_match(term, "plus(%ld,%ld)", &a, &b) ? tb_make("%ld", a + b) : tb_make("unknown");
}

static void pressed(const tb_term *terms)
{
    (void)terms;
    press();
}

int main(void)
{
    press();
    return tb_run(&(tb_tool){.on_eval = answer, .on_ack_event = pressed});
}
