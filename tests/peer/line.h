/*
 * line.h - one line of output while it is being put together.
 */
#ifndef LINE_H
#define LINE_H

#include <stddef.h>
#include <stdint.h>

/* Room for the longest part that a mutant may show: 65,535 bytes in hex. */
enum { LINE_ROOM = 2 * 65536 + 256 };

struct line {
    size_t length;
    char text[LINE_ROOM];
};

void line_clear(struct line *line);
void line_add(struct line *line, const char *format, ...);

/* A word and its bytes in hex, or the bare word if there are none. */
void line_add_bytes(struct line *line, const char *word, const uint8_t *bytes, size_t count);

#endif
