/* Tests of the formats of the kit for C. */
#include "../c/toolbus.h"

static int passed, failed;

static void check(bool holds, const char *what, int line)
{
    passed += holds;
    failed += !holds;
    if (!holds)
        printf("formats.c:%d: %s\n", line, what);
}

#define CHECK(condition) check((condition), #condition, __LINE__)

/* Whether a term has a text. The term is freed. */
static bool is(tb_term *term, const char *text)
{
    tb_buffer written = {0};
    tb_write(&written, term);
    const bool equal = strcmp(written.bytes, text) == 0;
    tb_free(term);
    free(written.bytes);
    return equal;
}

static void make(void)
{
    tb_term *part = tb_make("[a,%d]", -1);
    CHECK(is(tb_make("f(%t,%t)", part, part), "f([a,-1],[a,-1])"));
    CHECK(is(tb_make("%d", INT_MIN), "-2147483648"));
    CHECK(is(tb_make("%ld", 7L), "7"));
    CHECK(is(tb_make("%lld", (long long)INT64_MIN), "-9223372036854775808"));
    CHECK(is(tb_make("%s", "a \"b\" \\ \n\r\t %d \xc3\xa9"), "\"a \\\"b\\\" \\\\ \\n\\r\\t %d \xc3\xa9\""));
    CHECK(is(tb_make("%s", ""), "\"\""));
    CHECK(is(tb_make("\"100%%\""), "\"100%\""));
    CHECK(is(tb_make(" f ( 007 , [ ] ) "), "f(7,[])"));
    tb_free(part);
}

static void match_numbers(void)
{
    tb_term *term = tb_make("f(2147483647,2147483648,-9223372036854775808)");
    int small = 0;
    long middle = 0;
    long long large = 0;
    CHECK(tb_match(term, "f(%d,%lld,%lld)", &small, &large, &large) && small == INT_MAX && large == INT64_MIN);
    CHECK(!tb_match(term, "f(%d,%d,%lld)", &small, &small, &large));
    CHECK(tb_match(term, "f(%ld,%lld,%lld)", &middle, &large, &large) && middle == 2147483647L);
    CHECK(tb_match(term, "f(2147483647,2147483648,-9223372036854775808)"));
    CHECK(!tb_match(term, "f(2147483647,2147483648,-9223372036854775807)"));
    CHECK(!tb_match(term, "%d", &small));
    tb_free(term);
}

static void match_texts(void)
{
    tb_term *term = tb_make("bid(\"a \\\"b\\\" 5%%\",[x,1],true)");
    const char *text = NULL;
    const tb_term *any = NULL, *last = NULL;
    CHECK(tb_match(term, "bid(%s,%t,%t)", &text, &any, &last) && strcmp(text, "a \"b\" 5%") == 0);
    CHECK(any->kind == TB_LIST && any->count == 2 && last->kind == TB_APPL && strcmp(last->text, "true") == 0);
    CHECK(tb_match(term, "bid(\"a \\\"b\\\" 5%%\",%t,true)", &any));
    CHECK(!tb_match(term, "bid(\"a \\\"b\\\" 6%%\",%t,true)", &any));
    CHECK(tb_match(term, "%t", &any) && any == term);
    CHECK(!tb_match(term, "%s", &text));
    tb_free(term);
}

static void match_shapes(void)
{
    tb_term *term = tb_make("f([1,g(a-b)])");
    const tb_term *any;
    CHECK(tb_match(term, "f([1,g(a-b)])"));
    CHECK(tb_match(term, "f([1,g(%t)])", &any));
    CHECK(tb_match(term, " f ( [ 1 , g ( %t ) ] ) ", &any));
    CHECK(!tb_match(term, "f([1,g(%t)]) 2", &any));
    CHECK(tb_match(term, "f([%t,%t])", &any, &any));
    CHECK(!tb_match(term, "f([%t])", &any));
    CHECK(!tb_match(term, "f([%t,%t,%t])", &any, &any, &any));
    CHECK(!tb_match(term, "f"));
    CHECK(!tb_match(term, "g(%t)", &any));
    CHECK(!tb_match(term, "ff(%t)", &any));
    CHECK(!tb_match(term, "f(%t),1", &any));
    CHECK(!tb_match(term, "f(%t,1)", &any));
    CHECK(!tb_match(term, "[%t]", &any));
    CHECK(!tb_match(term, "f(\"a\")"));
    CHECK(!tb_match(term, "f(1)"));
    tb_free(term);
    term = tb_make("[]");
    CHECK(tb_match(term, "[]"));
    CHECK(!tb_match(term, "[%t]", &any));
    CHECK(!tb_match(term, "none"));
    tb_free(term);
    term = tb_make("none");
    CHECK(tb_match(term, "none"));
    CHECK(!tb_match(term, "non"));
    CHECK(!tb_match(term, "none(%t)", &any));
    tb_free(term);
}

static void texts(void)
{
    CHECK(tb_is_string("a\n\xe2\x82\xac"));
    CHECK(!tb_is_string("\x01"));
    CHECK(!tb_is_string("\xff"));
    CHECK(!tb_is_string("\xe2\x82"));
    CHECK(tb_is_name("a_B-9"));
    CHECK(!tb_is_name("A"));
    CHECK(!tb_is_name(""));
    CHECK(!tb_is_name("a b"));
}

int main(void)
{
    make();
    match_numbers();
    match_texts();
    match_shapes();
    texts();
    printf("%d passed, %d failed\n", passed, failed);
    return failed > 0;
}
