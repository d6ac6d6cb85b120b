/* ask WORD [WORDS..] < SCRIPT: what qs_WORD answers, on standard output, with its status. */
#include "../qs.h"

#include <stdio.h>
#include <stdlib.h>
#include <string.h>

typedef size_t call(const uint8_t *, size_t, const uint8_t *, size_t, uint8_t *, size_t, uint8_t *);

static const struct {
    const char *word;
    call *call;
} CALLS[] = {{"check", qs_check}, {"graph", qs_graph}, {"rules", qs_rules}, {"play", qs_play},
             {"syncs", qs_syncs}, {"outcomes", qs_outcomes}, {"ask", qs_ask}, {"fronts", qs_fronts},
             {"estimate", qs_estimate}};

static void *room_of(void *old, size_t length) {
    void *room = realloc(old, length ? length : 1);
    if (!room) {
        fputs("ask: memory ran out\n", stderr);
        exit(3);
    }
    return room;
}

/* All of a file, and its length. */
static uint8_t *read_all(FILE *file, size_t *length) {
    size_t size = 1 << 16, got;
    uint8_t *text = room_of(NULL, size);
    *length = 0;
    while ((got = fread(text + *length, 1, size - *length, file)) > 0) {
        *length += got;
        if (*length == size)
            text = room_of(text, size *= 2);
    }
    return text;
}

/* Words, one on each line. */
static char *lines_of(int count, char **words) {
    size_t length = 1;
    for (int i = 0; i < count; i++)
        length += strlen(words[i]) + 1;
    char *text = room_of(NULL, length);
    text[0] = 0;
    for (int i = 0; i < count; i++) {
        strcat(text, i ? "\n" : "");
        strcat(text, words[i]);
    }
    return text;
}

int main(int count, char **words) {
    for (size_t i = 0; count > 1 && i < sizeof CALLS / sizeof *CALLS; i++) {
        if (strcmp(words[1], CALLS[i].word))
            continue;
        size_t script_length, room_length = 64, length;
        uint8_t *script = read_all(stdin, &script_length), *room = room_of(NULL, room_length), status;
        char *line = lines_of(count - 2, words + 2);
        while ((length = CALLS[i].call(script, script_length, (uint8_t *)line, strlen(line), room, room_length, &status)) > room_length)
            room = room_of(room, room_length = length);
        fwrite(room, 1, length, stdout);
        free(script), free(room), free(line);
        return status;
    }
    fputs("ask: the first word is check, graph, rules, play, syncs, outcomes, ask, fronts or estimate\n", stderr);
    return 2;
}
