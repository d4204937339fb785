/* A kit for tools of the ToolBus, in C99: terms, and an event loop.
 *
 *     #include "toolbus.h"
 *
 *     static tb_term *answer(const tb_term *term)
 *     {
 *         long a, b;
 *         return tb_match(term, "plus(%ld,%ld)", &a, &b) ? tb_make("%ld", a + b) : tb_make("unknown");
 *     }
 *
 *     int main(void)
 *     {
 *         return tb_run(&(tb_tool){.on_eval = answer});
 *     }
 *
 * The standard output belongs to the bus. The tool must not write to it. It writes text for people by tb_log.
 * If memory runs out, or if the tool sends a value that isn't a term, the kit ends the tool with a message on the standard error.
 *
 * Formats: tb_make, tb_event and tb_match take the text of a term with conversions in it, in the manner of printf and scanf.
 *
 *     %d %ld %lld   a number: int, long, long long. tb_match takes a pointer. A number that doesn't fit doesn't match.
 *     %s            a string without quotes and escapes: const char *. tb_match takes a const char **.
 *     %t            any term: const tb_term *. tb_match takes a const tb_term **.
 *     %%            a percent sign, in a string
 */
#ifndef TOOLBUS_H
#define TOOLBUS_H

#include <limits.h>
#include <stdarg.h>
#include <stdbool.h>
#include <stdint.h>
#include <stdio.h>
#include <stdlib.h>
#include <string.h>

#define TB_MOST_SIZE 65536
#define TB_MOST_DEPTH 64
#define TB_MOST_LINE_BYTES 65536

typedef enum { TB_INT, TB_STR, TB_APPL, TB_LIST } tb_kind;

/* A term. true and false are names without parts. A text ends in a zero byte, which no string contains. */
typedef struct tb_term tb_term;
struct tb_term {
    tb_kind kind;
    int64_t number;  /* of TB_INT */
    char *text;      /* of TB_STR the string, of TB_APPL the name */
    size_t count;    /* of TB_APPL and TB_LIST the number of parts */
    tb_term **parts; /* of TB_APPL and TB_LIST */
};

/* Why a text isn't a term within the limits. */
typedef enum { TB_NONE, TB_SYNTAX, TB_REAL, TB_INTEGER, TB_LARGE, TB_DEEP } tb_fault;

typedef struct {
    tb_fault fault;
    size_t at; /* of TB_SYNTAX, TB_REAL and TB_INTEGER: the byte, counted from 0 */
} tb_error;

/* Memory */

static inline void tb_fail(const char *format, ...)
{
    va_list values;
    va_start(values, format);
    fputs("toolbus.h: ", stderr);
    vfprintf(stderr, format, values);
    fputc('\n', stderr);
    va_end(values);
    exit(EXIT_FAILURE);
}

static inline void *tb_resize(void *old, size_t bytes)
{
    void *memory = realloc(old, bytes);
    if (memory == NULL)
        tb_fail("out of memory");
    return memory;
}

/* A growing buffer, with a zero byte after its bytes. It starts as {0}. The owner frees the bytes. */
typedef struct {
    char *bytes;
    size_t length, room;
} tb_buffer;

static inline void tb_add(tb_buffer *buffer, const char *bytes, size_t length)
{
    if (buffer->room - buffer->length <= length) {
        buffer->room = 2 * (buffer->length + length) + 16;
        buffer->bytes = tb_resize(buffer->bytes, buffer->room);
    }
    if (length > 0)
        memcpy(buffer->bytes + buffer->length, bytes, length);
    buffer->length += length;
    buffer->bytes[buffer->length] = '\0';
}

static inline void tb_add_byte(tb_buffer *buffer, char byte)
{
    tb_add(buffer, &byte, 1);
}

static inline void tb_add_text(tb_buffer *buffer, const char *text)
{
    tb_add(buffer, text, strlen(text));
}

static inline void tb_free(tb_term *term)
{
    if (term == NULL)
        return;
    for (size_t i = 0; i < term->count; i++)
        tb_free(term->parts[i]);
    free(term->parts);
    free(term->text);
    free(term);
}

/* Reading: the kit first scans a text, without recursion, because a text can nest deeply. Then it builds a term within the limits. */

typedef struct {
    const char *text;
    size_t length, at;
    size_t size, depth; /* of the scanned term */
    tb_error error;
} tb_reader;

static inline bool tb_fault_at(tb_reader *reader, tb_fault fault, size_t at)
{
    reader->error.fault = fault;
    reader->error.at = at;
    return false;
}

/* Returns the next byte, or -1 at the end. */
static inline int tb_peek(const tb_reader *reader)
{
    return reader->at < reader->length ? (unsigned char)reader->text[reader->at] : -1;
}

/* Skips whitespace. Returns the next byte, or -1 at the end. */
static inline int tb_next(tb_reader *reader)
{
    int byte = tb_peek(reader);
    while (byte == ' ' || byte == '\t' || byte == '\n' || byte == '\r') {
        reader->at++;
        byte = tb_peek(reader);
    }
    return byte;
}

static inline bool tb_is_digit(int byte)
{
    return byte >= '0' && byte <= '9';
}

static inline bool tb_is_lower(int byte)
{
    return byte >= 'a' && byte <= 'z';
}

static inline bool tb_is_in_name(int byte)
{
    return tb_is_lower(byte) || (byte >= 'A' && byte <= 'Z') || tb_is_digit(byte) || byte == '-' || byte == '_';
}

static inline bool tb_scan_number(tb_reader *reader, int64_t *number)
{
    const size_t start = reader->at;
    const bool negative = tb_peek(reader) == '-';
    const uint64_t most = (uint64_t)INT64_MAX + negative;
    uint64_t value = 0;
    bool fits = true;

    reader->at += negative;
    if (!tb_is_digit(tb_peek(reader)))
        return tb_fault_at(reader, TB_SYNTAX, reader->at);
    for (; tb_is_digit(tb_peek(reader)); reader->at++) {
        const uint64_t digit = (uint64_t)(tb_peek(reader) - '0');
        fits = fits && value <= (most - digit) / 10;
        value = fits ? value * 10 + digit : 0;
    }
    if (tb_peek(reader) == '.' && reader->at + 1 < reader->length && tb_is_digit(reader->text[reader->at + 1]))
        return tb_fault_at(reader, TB_REAL, start);
    if (!fits)
        return tb_fault_at(reader, TB_INTEGER, start);
    *number = !negative ? (int64_t)value : value > INT64_MAX ? INT64_MIN : -(int64_t)value;
    return true;
}

/* Scans a character of more than one byte. These ranges are those of well-formed UTF-8. */
static inline bool tb_scan_wide(tb_reader *reader)
{
    const int first = tb_peek(reader);
    int more = first >= 0xf0 ? 3 : first >= 0xe0 ? 2 : 1;
    int least = first == 0xe0 ? 0xa0 : first == 0xf0 ? 0x90 : 0x80;
    int most = first == 0xed ? 0x9f : first == 0xf4 ? 0x8f : 0xbf;

    if (first < 0xc2 || first > 0xf4)
        return tb_fault_at(reader, TB_SYNTAX, reader->at);
    reader->at++;
    for (; more > 0; more--) {
        const int byte = tb_peek(reader);
        if (byte < least || byte > most)
            return tb_fault_at(reader, TB_SYNTAX, reader->at);
        reader->at++;
        least = 0x80;
        most = 0xbf;
    }
    return true;
}

/* Returns the byte that an escape with this letter represents, or -1. */
static inline int tb_unescaped(int letter)
{
    switch (letter) {
    case '"':
    case '\\':
        return letter;
    case 'n':
        return '\n';
    case 'r':
        return '\r';
    case 't':
        return '\t';
    default:
        return -1;
    }
}

/* Scans a string. Adds its contents to the buffer, unless the buffer is NULL. */
static inline bool tb_scan_string(tb_reader *reader, tb_buffer *into)
{
    for (reader->at++; tb_peek(reader) != '"';) {
        const size_t start = reader->at;
        const int byte = tb_peek(reader);
        char one = (char)byte;
        if (byte >= 0x80) {
            if (!tb_scan_wide(reader))
                return false;
        } else if (byte == '\\') {
            const int meant = tb_unescaped(start + 1 < reader->length ? reader->text[start + 1] : -1);
            if (meant < 0)
                return tb_fault_at(reader, TB_SYNTAX, start + 1);
            one = (char)meant;
            reader->at += 2;
        } else {
            if (byte < ' ' && byte != '\t')
                return tb_fault_at(reader, TB_SYNTAX, start);
            reader->at++;
        }
        reader->size += byte == '\\' ? 1 : reader->at - start;
        if (into != NULL && byte < 0x80)
            tb_add_byte(into, one);
        else if (into != NULL)
            tb_add(into, reader->text + start, reader->at - start);
    }
    reader->at++;
    return true;
}

/* Scans a term without parts, and sets *end to 0. If the term has parts, scans its beginning, and sets *end to its closing bracket. */
static inline bool tb_scan_head(tb_reader *reader, char *end)
{
    const int byte = tb_next(reader);
    int64_t number;

    *end = '\0';
    reader->size++;
    if (tb_is_digit(byte) || byte == '-')
        return tb_scan_number(reader, &number);
    if (byte == '"')
        return tb_scan_string(reader, NULL);
    if (byte == '[') {
        reader->at++;
        if (tb_next(reader) == ']')
            reader->at++;
        else
            *end = ']';
        return true;
    }
    if (!tb_is_lower(byte))
        return tb_fault_at(reader, TB_SYNTAX, reader->at);
    for (; tb_is_in_name(tb_peek(reader)); reader->at++)
        reader->size++;
    if (tb_next(reader) == '(') {
        reader->at++;
        *end = ')';
    }
    return true;
}

/* Scans a whole text of any size and depth. */
static inline bool tb_scan(tb_reader *reader)
{
    tb_buffer ends = {0};
    bool done = false;

    while (!done) {
        char end;
        reader->depth = reader->depth > ends.length ? reader->depth : ends.length + 1;
        if (!tb_scan_head(reader, &end))
            break;
        if (end != '\0') {
            tb_add_byte(&ends, end);
            continue;
        }
        while (ends.length > 0 && tb_next(reader) == ends.bytes[ends.length - 1]) {
            reader->at++;
            ends.length--;
        }
        done = ends.length == 0;
        if (tb_next(reader) != (done ? -1 : ',')) {
            done = tb_fault_at(reader, TB_SYNTAX, reader->at);
            break;
        }
        reader->at += !done;
    }
    free(ends.bytes);
    return done;
}

static inline tb_term *tb_new(tb_kind kind)
{
    tb_term *term = tb_resize(NULL, sizeof *term);
    *term = (tb_term){.kind = kind};
    return term;
}

static inline tb_term *tb_build(tb_reader *reader);

/* Builds the parts between an opening bracket, which is the next byte, and a closing one. */
static inline void tb_build_parts(tb_reader *reader, tb_term *term, int end)
{
    size_t room = 0;

    for (reader->at++; tb_next(reader) != end;) {
        reader->at += tb_peek(reader) == ',';
        if (term->count == room) {
            room = 2 * room + 2;
            term->parts = tb_resize(term->parts, room * sizeof *term->parts);
        }
        term->parts[term->count++] = tb_build(reader);
    }
    reader->at++;
}

/* Builds a term from a scanned text, which is correct and not too deep. */
static inline tb_term *tb_build(tb_reader *reader)
{
    const int byte = tb_next(reader);
    const size_t start = reader->at;
    tb_term *term = tb_new(byte == '"' ? TB_STR : byte == '[' ? TB_LIST : tb_is_lower(byte) ? TB_APPL : TB_INT);
    tb_buffer text = {0};

    if (term->kind == TB_INT) {
        (void)tb_scan_number(reader, &term->number);
    } else if (term->kind == TB_LIST) {
        tb_build_parts(reader, term, ']');
    } else {
        tb_add(&text, NULL, 0);
        if (term->kind == TB_STR) {
            (void)tb_scan_string(reader, &text);
        } else {
            while (tb_is_in_name(tb_peek(reader)))
                reader->at++;
            tb_add(&text, reader->text + start, reader->at - start);
            if (tb_next(reader) == '(')
                tb_build_parts(reader, term, ')');
        }
        term->text = text.bytes;
    }
    return term;
}

/* Scans a text, and checks the limits. Of a line, the size and the depth of the outer name don't count. */
static inline bool tb_scan_within(tb_reader *reader, size_t outer_size, size_t outer_depth)
{
    if (!tb_scan(reader))
        return false;
    if (reader->size > TB_MOST_SIZE + outer_size)
        return tb_fault_at(reader, TB_LARGE, 0);
    if (reader->depth > TB_MOST_DEPTH + outer_depth)
        return tb_fault_at(reader, TB_DEEP, 0);
    return true;
}

/* Returns the term that the bytes read as. The caller frees it. If the bytes aren't a term, returns NULL and sets *error, if given. */
static inline tb_term *tb_read(const char *bytes, size_t length, tb_error *error)
{
    tb_reader reader = {.text = bytes, .length = length};
    const bool is_term = tb_scan_within(&reader, 0, 0);

    if (error != NULL)
        *error = reader.error;
    reader.at = 0;
    return is_term ? tb_build(&reader) : NULL;
}

/* Returns the description of an error. */
static inline const char *tb_describe(tb_fault fault)
{
    static const char *const words[] = {"no error", "syntax error at byte", "real number at byte", "number out of range at byte",
                                        "the term is too large", "the term is too deep"};
    return words[fault];
}

/* Ends the tool for an error in a text. */
static inline void tb_fail_in(const char *what, tb_error error, const char *text)
{
    if (error.fault == TB_LARGE || error.fault == TB_DEEP)
        tb_fail("%s: %s: %s", what, tb_describe(error.fault), text);
    tb_fail("%s: %s %zu: %s", what, tb_describe(error.fault), error.at, text);
}

/* Writing */

static inline void tb_add_number(tb_buffer *into, long long number)
{
    char digits[32];
    snprintf(digits, sizeof digits, "%lld", number);
    tb_add_text(into, digits);
}

static inline void tb_add_quoted(tb_buffer *into, const char *string)
{
    static const char escaped[] = "\"\\\n\r\t", letters[] = "\"\\nrt";
    tb_add_byte(into, '"');
    for (; *string != '\0'; string++) {
        const char *found = strchr(escaped, *string);
        if (found != NULL)
            tb_add_byte(into, '\\');
        tb_add_byte(into, found != NULL ? letters[found - escaped] : *string);
    }
    tb_add_byte(into, '"');
}

static inline void tb_add_term(tb_buffer *into, const tb_term *term, int depth);

static inline void tb_add_parts(tb_buffer *into, const tb_term *term, const char *around, int depth)
{
    tb_add_byte(into, around[0]);
    for (size_t i = 0; i < term->count; i++) {
        if (i > 0)
            tb_add_byte(into, ',');
        tb_add_term(into, term->parts[i], depth);
    }
    tb_add_byte(into, around[1]);
}

static inline void tb_add_term(tb_buffer *into, const tb_term *term, int depth)
{
    if (term == NULL)
        tb_fail("not sent: NULL isn't a term");
    if (depth < 0)
        tb_fail("the term is too deep");
    if (term->kind == TB_INT)
        tb_add_number(into, term->number);
    else if (term->kind == TB_STR)
        tb_add_quoted(into, term->text);
    else if (term->kind == TB_LIST)
        tb_add_parts(into, term, "[]", depth - 1);
    else
        tb_add_text(into, term->text);
    if (term->kind == TB_APPL && term->count > 0)
        tb_add_parts(into, term, "()", depth - 1);
}

/* Adds the text of a term to the buffer. */
static inline void tb_write(tb_buffer *into, const tb_term *term)
{
    tb_add_term(into, term, TB_MOST_DEPTH);
}

/* Returns whether the bytes can be a string of a term: well-formed UTF-8, with no control characters except \t, \n and \r. */
static inline bool tb_is_string(const char *string)
{
    tb_buffer quoted = {0};
    tb_add_quoted(&quoted, string);
    tb_reader reader = {.text = quoted.bytes, .length = quoted.length};
    const bool is_string = tb_scan_within(&reader, 0, 0);
    free(quoted.bytes);
    return is_string;
}

/* Returns whether a text can be the name of a term. */
static inline bool tb_is_name(const char *text)
{
    const bool begins = tb_is_lower((unsigned char)*text);
    while (tb_is_in_name((unsigned char)*text))
        text++;
    return begins && *text == '\0';
}

/* Formats */

/* Returns the length of a conversion without its percent sign, and sets its kind: i, l, q (long long), s, t or %. */
static inline size_t tb_conversion(const char *format, char *kind)
{
    static const struct {
        const char *text;
        char kind;
    } conversions[] = {{"d", 'i'}, {"ld", 'l'}, {"lld", 'q'}, {"s", 's'}, {"t", 't'}, {"%", '%'}};

    for (size_t i = 0; i < sizeof conversions / sizeof conversions[0]; i++) {
        const size_t length = strlen(conversions[i].text);
        if (strncmp(format, conversions[i].text, length) == 0) {
            *kind = conversions[i].kind;
            return length;
        }
    }
    tb_fail("unknown conversion in a format: %%%s", format);
    return 0;
}

static inline void tb_add_format(tb_buffer *into, const char *format, va_list values)
{
    while (*format != '\0') {
        char kind = '\0';
        if (*format != '%') {
            tb_add_byte(into, *format++);
            continue;
        }
        format += 1 + tb_conversion(format + 1, &kind);
        switch (kind) {
        case 'i':
            tb_add_number(into, va_arg(values, int));
            break;
        case 'l':
            tb_add_number(into, va_arg(values, long));
            break;
        case 'q':
            tb_add_number(into, va_arg(values, long long));
            break;
        case 's':
            tb_add_quoted(into, va_arg(values, const char *));
            break;
        case 't':
            tb_write(into, va_arg(values, const tb_term *));
            break;
        default:
            tb_add_byte(into, '%');
        }
    }
}

/* Returns the term that a format makes. The caller frees it. */
static inline tb_term *tb_make(const char *format, ...)
{
    tb_buffer text = {0};
    tb_error error;
    va_list values;

    tb_add(&text, NULL, 0);
    va_start(values, format);
    tb_add_format(&text, format, values);
    va_end(values);
    tb_term *term = tb_read(text.bytes, text.length, &error);
    if (term == NULL)
        tb_fail_in("tb_make", error, text.bytes);
    free(text.bytes);
    return term;
}

/* The rest of a format, and of the pointers to its variables. */
typedef struct {
    const char *left;
    va_list pointers;
} tb_pattern;

/* Skips whitespace. Returns the next byte of the format. */
static inline char tb_pattern_next(tb_pattern *pattern)
{
    pattern->left += strspn(pattern->left, " \t\n\r");
    return *pattern->left;
}

static inline bool tb_take_number(const tb_term *term, char kind, tb_pattern *pattern)
{
    int *as_int = kind == 'i' ? va_arg(pattern->pointers, int *) : NULL;
    long *as_long = kind == 'l' ? va_arg(pattern->pointers, long *) : NULL;
    long long *as_long_long = kind == 'q' ? va_arg(pattern->pointers, long long *) : NULL;
    const int64_t number = term->number;

    if (term->kind != TB_INT)
        return false;
    if (as_int != NULL && number >= INT_MIN && number <= INT_MAX)
        *as_int = (int)number;
    else if (as_long != NULL && number >= LONG_MIN && number <= LONG_MAX)
        *as_long = (long)number;
    else if (as_long_long != NULL)
        *as_long_long = number;
    else
        return false;
    return true;
}

static inline bool tb_take(const tb_term *term, tb_pattern *pattern)
{
    char kind = '\0';
    pattern->left += tb_conversion(pattern->left, &kind);
    if (kind == 't') {
        *va_arg(pattern->pointers, const tb_term **) = term;
        return true;
    }
    if (kind == 's') {
        *va_arg(pattern->pointers, const char **) = term->text;
        return term->kind == TB_STR;
    }
    return kind != '%' && tb_take_number(term, kind, pattern);
}

static inline bool tb_match_term(const tb_term *term, tb_pattern *pattern);

/* Matches all parts with the patterns between brackets. The opening bracket is the next byte. */
static inline bool tb_match_parts(const tb_term *term, tb_pattern *pattern, char end)
{
    for (size_t i = 0; i < term->count; i++) {
        if (i > 0 && tb_pattern_next(pattern) != ',')
            return false;
        pattern->left++;
        if (!tb_match_term(term->parts[i], pattern))
            return false;
    }
    pattern->left += term->count == 0;
    if (tb_pattern_next(pattern) != end)
        return false;
    pattern->left++;
    return true;
}

static inline bool tb_match_name(const tb_term *term, tb_pattern *pattern)
{
    size_t length = 0;
    while (tb_is_in_name((unsigned char)pattern->left[length]))
        length++;
    if (term->kind != TB_APPL || strlen(term->text) != length || strncmp(term->text, pattern->left, length) != 0)
        return false;
    pattern->left += length;
    return tb_pattern_next(pattern) == '(' ? tb_match_parts(term, pattern, ')') : term->count == 0;
}

/* Replaces each pair of percent signs by one. */
static inline void tb_join_percents(char *string)
{
    char *joined = string;
    for (; *string != '\0'; string++) {
        string += string[0] == '%' && string[1] == '%';
        *joined++ = *string;
    }
    *joined = '\0';
}

static inline bool tb_match_string(const tb_term *term, tb_pattern *pattern)
{
    tb_reader reader = {.text = pattern->left, .length = strlen(pattern->left)};
    tb_buffer string = {0};

    tb_add(&string, NULL, 0);
    if (!tb_scan_string(&reader, &string))
        tb_fail("tb_match: error in a string of the format: %s", pattern->left);
    pattern->left += reader.at;
    tb_join_percents(string.bytes);
    const bool matches = term->kind == TB_STR && strcmp(term->text, string.bytes) == 0;
    free(string.bytes);
    return matches;
}

static inline bool tb_match_term(const tb_term *term, tb_pattern *pattern)
{
    const char byte = tb_pattern_next(pattern);
    if (byte == '%') {
        pattern->left++;
        return tb_take(term, pattern);
    }
    if (byte == '[')
        return term->kind == TB_LIST && tb_match_parts(term, pattern, ']');
    if (byte == '"')
        return tb_match_string(term, pattern);
    if (tb_is_lower(byte))
        return tb_match_name(term, pattern);

    tb_reader reader = {.text = pattern->left, .length = strlen(pattern->left)};
    int64_t number = 0;
    if (!tb_scan_number(&reader, &number))
        tb_fail("tb_match: error in the format: %s", pattern->left);
    pattern->left += reader.at;
    return term->kind == TB_INT && term->number == number;
}

/* Returns whether a term matches a format. The terms and strings to which it sets variables belong to the term. If the term
 * doesn't match, the values of the variables are unspecified. */
static inline bool tb_match(const tb_term *term, const char *format, ...)
{
    tb_pattern pattern = {.left = format};
    va_start(pattern.pointers, format);
    const bool matches = tb_match_term(term, &pattern);
    va_end(pattern.pointers);
    return matches && tb_pattern_next(&pattern) == '\0';
}

/* Lines to the bus */

/* Sends a line, and frees its text. If the line isn't valid, ends the tool. */
static inline void tb_send(tb_buffer *line, size_t word_length)
{
    tb_reader reader = {.text = line->bytes, .length = line->length};
    if (!tb_scan_within(&reader, 1 + word_length, 1))
        tb_fail_in("not sent", reader.error, line->bytes);
    if (line->length > TB_MOST_LINE_BYTES)
        tb_fail("not sent: the line has %zu bytes, the limit is %d", line->length, TB_MOST_LINE_BYTES);
    tb_add_byte(line, '\n');
    if (fwrite(line->bytes, 1, line->length, stdout) != line->length || fflush(stdout) != 0)
        tb_fail("the bus has closed the tool's output");
    free(line->bytes);
    *line = (tb_buffer){0};
}

/* Sends snd-value, after on_eval returned NULL. */
static inline void tb_value(const tb_term *term)
{
    tb_buffer line = {0};
    tb_add_text(&line, "snd-value(");
    tb_write(&line, term);
    tb_add_byte(&line, ')');
    tb_send(&line, strlen("snd-value"));
}

/* Sends snd-event. The format has one term, or several separated by commas. */
static inline void tb_event(const char *format, ...)
{
    tb_buffer line = {0};
    va_list values;

    tb_add_text(&line, "snd-event(");
    va_start(values, format);
    tb_add_format(&line, format, values);
    va_end(values);
    tb_add_byte(&line, ')');
    tb_send(&line, strlen("snd-event"));
}

/* Sends snd-connect. If --connect started the tool, this line must come first. */
static inline void tb_connect(const char *name)
{
    tb_buffer line = {0};
    if (!tb_is_name(name))
        tb_fail("not sent: %s isn't a name", name);
    tb_add_text(&line, "snd-connect(");
    tb_add_text(&line, name);
    tb_add_byte(&line, ')');
    tb_send(&line, strlen("snd-connect"));
}

/* Sends snd-disconnect. Then the bus closes the tool's input, and the loop ends. */
static inline void tb_disconnect(void)
{
    tb_buffer line = {0};
    tb_add_text(&line, "snd-disconnect");
    tb_send(&line, strlen("snd-disconnect"));
}

/* Writes a line to the standard error, in the manner of printf. */
static inline void tb_log(const char *format, ...)
{
    va_list values;
    va_start(values, format);
    vfprintf(stderr, format, values);
    fputc('\n', stderr);
    va_end(values);
}

/* The event loop */

/* The handlers of a tool. The terms that a handler receives live until it returns. */
typedef struct {
    tb_term *(*on_eval)(const tb_term *term);     /* returns the value, which the kit frees; or NULL, if the tool calls tb_value later */
    void (*on_do)(const tb_term *term);
    void (*on_ack_event)(const tb_term *terms);   /* receives a list of the event's terms; optional */
    void (*on_terminate)(const tb_term *reason);  /* is called before the loop ends; optional */
} tb_tool;

/* Reads a line of any length. Returns false at the end of the input. */
static inline bool tb_read_line(FILE *from, tb_buffer *line)
{
    int byte;
    line->length = 0;
    tb_add(line, NULL, 0);
    while ((byte = getc(from)) != EOF && byte != '\n')
        tb_add_byte(line, (char)byte);
    return byte != EOF || line->length > 0;
}

/* Returns the word of a line of the bus. If the term isn't such a line, returns NULL. */
static inline const char *tb_bus_word(const tb_term *line)
{
    static const char *const words[] = {"rec-eval", "rec-do", "rec-terminate", "rec-ack-event"};
    const size_t count = sizeof words / sizeof words[0];

    for (size_t i = 0; line->kind == TB_APPL && i < count; i++) {
        const bool takes_more = i == count - 1;
        if (strcmp(line->text, words[i]) == 0)
            return line->count == 1 || (takes_more && line->count > 1) ? words[i] : NULL;
    }
    return NULL;
}

/* Returns the line of the bus that the bytes are, as a term whose name is the line's word. If they aren't such a line, returns NULL. */
static inline tb_term *tb_read_bus_line(const char *bytes, size_t length)
{
    tb_reader reader = {.text = bytes, .length = length};
    if (!tb_scan(&reader) || reader.depth > TB_MOST_DEPTH + 1)
        return NULL;
    const size_t size = reader.size;
    reader.at = 0;
    tb_term *line = tb_build(&reader);
    const char *word = tb_bus_word(line);
    if (word != NULL && size <= TB_MOST_SIZE + 1 + strlen(word))
        return line;
    tb_free(line);
    return NULL;
}

static inline void tb_answer(const tb_tool *tool, const tb_term *term)
{
    if (tool->on_eval == NULL)
        tb_fail("no handler for a rec-eval: set on_eval");
    tb_term *value = tool->on_eval(term);
    if (value != NULL)
        tb_value(value);
    tb_free(value);
}

/* Handles a line. Returns false if the line is rec-terminate. */
static inline bool tb_handle(const tb_tool *tool, const tb_term *line)
{
    const tb_term *first = line->parts[0];
    const tb_term terms = {.kind = TB_LIST, .count = line->count, .parts = line->parts};

    if (strcmp(line->text, "rec-eval") == 0)
        tb_answer(tool, first);
    else if (strcmp(line->text, "rec-do") == 0 && tool->on_do != NULL)
        tool->on_do(first);
    else if (strcmp(line->text, "rec-do") == 0)
        tb_log("toolbus.h: no handler for a rec-do: set on_do");
    else if (strcmp(line->text, "rec-ack-event") == 0 && tool->on_ack_event != NULL)
        tool->on_ack_event(&terms);
    else if (strcmp(line->text, "rec-terminate") == 0 && tool->on_terminate != NULL)
        tool->on_terminate(first);
    return strcmp(line->text, "rec-terminate") != 0;
}

/* Handles lines until rec-terminate, or until the input ends. Returns the exit status for main. */
static inline int tb_run(const tb_tool *tool)
{
    tb_buffer bytes = {0};
    bool goes_on = true;

    while (goes_on && tb_read_line(stdin, &bytes)) {
        tb_term *line = tb_read_bus_line(bytes.bytes, bytes.length);
        if (line != NULL)
            goes_on = tb_handle(tool, line);
        else
            tb_log("toolbus.h: ignored a line that no bus sends: %s", bytes.bytes);
        tb_free(line);
    }
    free(bytes.bytes);
    return EXIT_SUCCESS;
}

#endif
