/*
 * line.c - one line of output while it is being put together.
 */
#include <stdarg.h>
#include <stdio.h>

#include "line.h"

void line_clear(struct line *line)
{
    line->length = 0;
    line->text[0] = 0;
}

void line_add(struct line *line, const char *format, ...)
{
    size_t room = LINE_ROOM - line->length;
    va_list arguments;
    va_start(arguments, format);
    int wanted = vsnprintf(line->text + line->length, room, format, arguments);
    va_end(arguments);
    if (wanted > 0)
        line->length += (size_t)wanted < room ? (size_t)wanted : room - 1;
}

void line_add_bytes(struct line *line, const char *word, const uint8_t *bytes, size_t count)
{
    static const char digits[] = "0123456789ABCDEF";
    line_add(line, count > 0 ? "%s " : "%s", word);
    for (size_t i = 0; i < count && line->length + 2 < LINE_ROOM; i++) {
        line->text[line->length++] = digits[bytes[i] >> 4];
        line->text[line->length++] = digits[bytes[i] & 15];
    }
    line->text[line->length] = 0;
}
