/* An evaluator of scripts, written from docs/SPEC.md alone: what the program has to answer, by other means. */
#ifndef EVALUATOR_H
#define EVALUATOR_H

#include <stddef.h>
#include <stdint.h>

enum word { WORD_CHECK, WORD_GRAPH, WORD_RULES, WORD_PLAY, WORD_OUTCOMES, WORD_ASK, WORD_FRONTS, WORD_ESTIMATE, WORD_COUNT };

/* The status of a line or a search that the evaluator does not answer. */
enum { NOT_ANSWERED = -1 };

struct answer {
    const char *text; /* stands until the next call */
    size_t length;
    int status;
};

/* What a word answers for a script and the further words of its line, one on each line of a text. */
struct answer evaluate(enum word word, const uint8_t *script, size_t script_length, const uint8_t *words,
                       size_t words_length);

struct script;

/* Reads and checks a script; whether it is accepted. */
int examine(const uint8_t *script, size_t script_length);

/* The script that was examined last, also by `evaluate`. */
const struct script *examined(void);

/* What `evaluate` answers for the script that was examined last, whose text stands yet. */
struct answer evaluate_examined(enum word word, const uint8_t *words, size_t words_length);

#endif
