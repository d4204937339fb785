/* A tool that adds two numbers. */
#include "toolbus.h"

static tb_term *answer(const tb_term *term)
{
    long a, b;
    return tb_match(term, "plus(%ld,%ld)", &a, &b) ? tb_make("%ld", a + b) : tb_make("unknown");
}

int main(void)
{
    return tb_run(&(tb_tool){.on_eval = answer});
}
