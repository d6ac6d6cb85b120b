#include "text.h"

#include <stdio.h>
#include <stdlib.h>
#include <string.h>

void clear_text(struct text *text) {
    text->length = 0;
}

void add_bytes(struct text *text, const void *bytes, size_t length) {
    if (text->length + length > text->room) {
        text->room = 2 * text->room + length + 4096;
        text->bytes = realloc(text->bytes, text->room);
        if (!text->bytes) {
            fputs("the evaluator has no memory for its text\n", stderr);
            abort();
        }
    }
    if (length)
        memcpy(text->bytes + text->length, bytes, length);
    text->length += length;
}

void add_string(struct text *text, const char *string) {
    add_bytes(text, string, strlen(string));
}

void add_number(struct text *text, int64_t number) {
    char digits[24];
    size_t at = sizeof digits;
    uint64_t rest = number < 0 ? -(uint64_t)number : (uint64_t)number;
    do
        digits[--at] = (char)('0' + rest % 10);
    while (rest /= 10);
    if (number < 0)
        digits[--at] = '-';
    add_bytes(text, digits + at, sizeof digits - at);
}
