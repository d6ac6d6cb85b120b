/* A text that grows. Its room is kept for the next text. */
#ifndef TEXT_H
#define TEXT_H

#include <stddef.h>
#include <stdint.h>

struct text {
    char *bytes;
    size_t length, room;
};

void clear_text(struct text *text);
void add_bytes(struct text *text, const void *bytes, size_t length);
void add_string(struct text *text, const char *string);
void add_number(struct text *text, int64_t number);

#endif
