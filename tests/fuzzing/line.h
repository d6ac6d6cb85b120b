/* The words of a line after the program's own word, as docs/SPEC.md defines them. */
#ifndef LINE_H
#define LINE_H

#include "evaluator.h"
#include "script.h"

/* An actor that comes so often; once its name is looked up, it has a number. */
struct part {
    bool is_named, is_handler;
    uint8_t name_length;
    char name[MOST_NAME];
    uint32_t number, times;
};

enum { MOST_PARTS = 8192, MOST_LEADS = 1024 };

struct list {
    bool is_given;
    uint32_t count;
    struct part *parts;
};

struct line {
    bool is_dynamic, is_static, has_counts, has_refusals, has_steps, has_queues, has_ends, has_alike;
    int chunk;
    uint32_t rounds, limit;
    uint32_t front; /* how many blocks more, or 0 where outcomes are listed */
    struct list pick, order, after, leads[MOST_LEADS];
    uint32_t lead_count, part_count;
    struct part parts[MOST_PARTS]; /* of all lists */
};

enum line_kind { LINE_IS_RIGHT, LINE_IS_REFUSED, LINE_IS_NOT_KNOWN };

enum line_kind read_line(struct line *line, enum word word, const uint8_t *words, size_t length);

/* Looks up the names of a list; whether they are the script's. */
bool look_up(const struct script *script, struct list *list, bool has_handlers);

#endif
