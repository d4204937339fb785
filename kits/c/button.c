/* A tool that sends three events, each when the bus acknowledges the last. */
#include "toolbus.h"

static void acknowledged(const tb_term *terms)
{
    long n;
    if (tb_match(terms->parts[0], "pressed(%ld)", &n) && n < 3)
        tb_event("pressed(%ld)", n + 1);
}

int main(void)
{
    tb_event("pressed(1)");
    return tb_run(&(tb_tool){.on_ack_event = acknowledged});
}
