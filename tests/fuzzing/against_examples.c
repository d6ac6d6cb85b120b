/* The evaluator as a program that is asked like `qs`, for the commands of examples/: what it does not answer has the
   status 99, and leaves a byte in the file that NOT_ANSWERED names. */
#include "evaluator.h"

#include <stdio.h>
#include <stdlib.h>
#include <string.h>

static uint8_t script[1 << 17], line[1 << 20];

static int leave_unanswered(void) {
    const char *path = getenv("NOT_ANSWERED");
    FILE *file = path ? fopen(path, "a") : NULL;
    if (file) {
        fputc('.', file);
        fclose(file);
    }
    return 99;
}

/* The words after the first, one on each line of a text. */
static size_t lines_of(int count, char **words) {
    size_t length = 0;
    for (int i = 2; i < count; i++) {
        size_t more = strlen(words[i]);
        if (length + more + 1 > sizeof line)
            exit(leave_unanswered());
        if (i > 2)
            line[length++] = '\n';
        memcpy(line + length, words[i], more);
        length += more;
    }
    return length;
}

int main(int count, char **words) {
    static const char *const WORDS[] = {"check", "graph", "rules", "play", "outcomes", "ask", "fronts", "estimate"};
    for (int i = 0; count > 1 && i < WORD_COUNT; i++) {
        if (strcmp(words[1], WORDS[i]) || (count == 3 && !*words[2]))
            continue;
        size_t length = lines_of(count, words), script_length = fread(script, 1, sizeof script, stdin);
        struct answer answer = evaluate((enum word)i, script, script_length, line, length);
        if (answer.status == NOT_ANSWERED)
            break;
        fwrite(answer.text, 1, answer.length, stdout);
        return answer.status;
    }
    return leave_unanswered();
}
