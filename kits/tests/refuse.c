/* Sends what no bus takes, by the number of the case: the kit has to end the tool before anything is written. */
#include "../c/toolbus.h"

static tb_term *nested(int levels)
{
    tb_term *term = tb_make("1");
    for (; levels > 1; levels--) {
        tb_term *around = tb_make("[%t]", term);
        tb_free(term);
        term = around;
    }
    return term;
}

/* A string of so many letters. */
static char *letters(size_t length)
{
    char *string = tb_resize(NULL, length + 1);
    memset(string, 'a', length);
    string[length] = '\0';
    return string;
}

int main(int count, char **words)
{
    const int number = count > 1 ? atoi(words[1]) : 0;
    tb_term wrong = {.kind = TB_APPL, .text = letters(1)};
    tb_term *const parts[] = {&wrong};
    const tb_term list = {.kind = TB_LIST, .count = 1, .parts = (tb_term **)parts};

    wrong.text[0] = 'A';
    switch (number) {
    case 1: tb_event("%s", "\x01"); break;
    case 2: tb_event("%s", "\xff"); break;
    case 3: tb_event("%s", "\xe2\x82"); break;
    case 4: tb_event("%s", letters(65524)); break;
    case 5: tb_event("[%t]", nested(64)); break;
    case 6: tb_value(&list); break;
    case 7: tb_value(NULL); break;
    case 8: tb_connect("Ed"); break;
    case 9: tb_connect("ed(1)"); break;
    case 10: tb_event(""); break;
    case 11: tb_event("f("); break;
    case 12: tb_event("%s", letters(65536)); break;
    case 13: tb_make("%s %s", "a", "b"); break;
    case 14: tb_make("%x", 1); break;
    default: tb_event("%s", letters(65523)); break;
    }
    free(wrong.text);
    return 0;
}
