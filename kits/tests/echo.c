/* Says what it was told. */
#include "../c/toolbus.h"

static tb_term *value(const tb_term *term)
{
    const tb_term *word, *place;
    if (tb_match(term, "look-up(%t,%t)", &word, &place))
        return tb_make("found(%t,%t)", word, place);
    if (tb_match(term, "status"))
        return tb_make("ready");
    return tb_make("%t", term);
}

static void act(const tb_term *term)
{
    const char *text;
    if (tb_match(term, "say(%s)", &text)) {
        tb_log("%s", text);
        tb_event("said");
    } else {
        tb_event("did(%t)", term);
    }
}

static void acknowledged(const tb_term *terms)
{
    const tb_term *price;
    const tb_term others = {.kind = TB_LIST, .count = terms->count - 1, .parts = terms->parts + 1};
    if (tb_match(terms->parts[0], "bid(%t)", &price))
        tb_event("bid-acked(%t,%t)", price, &others);
    else
        tb_event("acked(%t)", terms);
}

static void end(const tb_term *reason)
{
    tb_event("ends(%t)", reason);
}

int main(void)
{
    return tb_run(&(tb_tool){.on_eval = value, .on_do = act, .on_ack_event = acknowledged, .on_terminate = end});
}
