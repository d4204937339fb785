/* Reads texts, a line each in hexadecimal, and says what each reads as, in the words of terms.txt; or, with the argument `lines`, which line
 * of the bus each is, in those of to-tool.txt. */
#include "../c/toolbus.h"

static int digit(char hexadecimal)
{
    static const char digits[] = "0123456789abcdef";
    return (int)(strchr(digits, hexadecimal) - digits);
}

static void decode(tb_buffer *bytes)
{
    for (size_t i = 0; i < bytes->length / 2; i++)
        bytes->bytes[i] = (char)(16 * digit(bytes->bytes[2 * i]) + digit(bytes->bytes[2 * i + 1]));
    bytes->length /= 2;
}

static void say_text(const tb_term *term)
{
    tb_buffer text = {0};

    putchar('\t');
    if (term != NULL)
        tb_write(&text, term);
    for (size_t i = 0; i < text.length; i++)
        printf("%02x", (unsigned)(unsigned char)text.bytes[i]);
    putchar('\n');
    free(text.bytes);
}

static void say_term(const char *bytes, size_t length)
{
    static const char *const words[] = {"term", "syntax", "real", "integer", "large", "deep"};
    tb_error error;
    tb_term *term = tb_read(bytes, length, &error);

    fputs(words[error.fault], stdout);
    if (error.fault == TB_SYNTAX || error.fault == TB_REAL || error.fault == TB_INTEGER)
        printf(" %zu", error.at);
    say_text(term);
    tb_free(term);
}

static void say_line(const char *bytes, size_t length)
{
    tb_term *line = tb_read_bus_line(bytes, length);

    fputs(line == NULL ? "bad" : line->text, stdout);
    say_text(line);
    tb_free(line);
}

int main(int count, char **words)
{
    const bool lines = count > 1 && strcmp(words[1], "lines") == 0;
    tb_buffer line = {0};

    while (tb_read_line(stdin, &line)) {
        decode(&line);
        /* a block of its own size, so that a read past its end is seen */
        char *bytes = tb_resize(NULL, line.length + (line.length == 0));
        memcpy(bytes, line.bytes, line.length);
        (lines ? say_line : say_term)(bytes, line.length);
        free(bytes);
    }
    free(line.bytes);
    return 0;
}
