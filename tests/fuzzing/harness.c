/* Calls the library and the evaluator with the same script and the same words, and stops at the first difference.

   The first HEAD bytes of an input choose what is asked beside `check`, and how; the rest is the script. All else that
   is chosen by chance, such as an order of blocks, comes from a seed among these bytes, so an input always asks the
   same. */
#define _POSIX_C_SOURCE 200809L

#include "harness.h"
#include "../../bindings/qs.h"
#include "evaluator.h"

#include <fcntl.h>
#include <stdio.h>
#include <stdlib.h>
#include <string.h>
#include <sys/mman.h>
#include <unistd.h>

typedef size_t call(const uint8_t *, size_t, const uint8_t *, size_t, uint8_t *, size_t, uint8_t *);

static const struct {
    const char *word;
    call *call;
} CALLS[WORD_COUNT] = {
    {"check", qs_check}, {"graph", qs_graph}, {"rules", qs_rules}, {"play", qs_play},
    {"outcomes", qs_outcomes}, {"ask", qs_ask}, {"fronts", qs_fronts}, {"estimate", qs_estimate}};

enum { GUARD = 64, PATTERN = 0xa5, MOST_WORDS_LENGTH = 1 << 15, LIGHT = 4000, HEAVY = 60000 };

/* What is counted. The counts lie in a file, so that they are there whatever ends the process. */
enum {
    SCRIPTS,
    ACCEPTED,
    UNANSWERED,
    STARTED,
    FAULT_COUNTS,
    STATEMENT_COUNTS = FAULT_COUNTS + CHECK_OTHER_KIND + 1,
    OPERATION_COUNTS = STATEMENT_COUNTS + LEAVE_STATEMENT + 1,
    ASKED = OPERATION_COUNTS + OPERATION_COUNT,
    REFUSED_LINES = ASKED + WORD_COUNT,
    COUNTS = REFUSED_LINES + WORD_COUNT
};

static uint64_t own_counts[COUNTS], *counts = own_counts;
static bool has_to_tell;

static uint64_t seed;
static char words[MOST_WORDS_LENGTH];
static size_t words_length;

static uint32_t chance(uint32_t below) {
    seed += UINT64_C(0x9e3779b97f4a7c15);
    uint64_t mixed = (seed ^ seed >> 30) * UINT64_C(0xbf58476d1ce4e5b9);
    mixed = (mixed ^ mixed >> 27) * UINT64_C(0x94d049bb133111eb);
    return (uint32_t)((mixed ^ mixed >> 31) % below);
}

static const char *const FAULTS[] = {"Size", "Byte", "Number", "Name", "Form"};
static const char *const CHECK_FAULTS[] = {"Twice",  "UnknownObject", "ReservedTwice",   "NotReserved", "UnknownOp",
                                           "Arity",  "LeaveOutside",  "Limit",           "Range",       "Load",
                                           "Weight", "Memory",        "UnknownTemplate", "Count",       "OtherKind"};
static const char *const STATEMENTS[] = {"command", "query", "assignment", "if", "repeat", "leave"};

/* Writes a line for each count, its place and its name. */
static void write_names(FILE *file) {
    static const char *const KINDS[] = {"account", "buffer", "grid"};
    fprintf(file, "%d scripts\n%d accepted\n%d unanswered\n%d started\n", SCRIPTS, ACCEPTED, UNANSWERED, STARTED);
    for (int i = READ_SIZE; i <= READ_FORM; i++)
        fprintf(file, "%d read_%s\n", FAULT_COUNTS + i, FAULTS[i - READ_SIZE]);
    for (int i = CHECK_TWICE; i <= CHECK_OTHER_KIND; i++)
        if (i != CHECK_MEMORY)
            fprintf(file, "%d check_%s\n", FAULT_COUNTS + i, CHECK_FAULTS[i - CHECK_TWICE]);
    for (int i = 0; i <= LEAVE_STATEMENT; i++)
        fprintf(file, "%d statement_%s\n", STATEMENT_COUNTS + i, STATEMENTS[i]);
    for (int i = 0; i < OPERATION_COUNT; i++)
        fprintf(file, "%d %s_%s\n", OPERATION_COUNTS + i, KINDS[OPERATIONS[i].kind - ACCOUNT], OPERATIONS[i].word);
    for (int i = 0; i < WORD_COUNT; i++)
        fprintf(file, "%d asked_%s\n%d refused_%s\n", ASKED + i, CALLS[i].word, REFUSED_LINES + i, CALLS[i].word);
}

/* The counts lie in the file that QS_FUZZ_COUNTS names, and their names in another beside it. */
static void keep_counts(const char *path) {
    char names[4096];
    snprintf(names, sizeof names, "%s.names", path);
    FILE *file = fopen(names, "w");
    int counted = open(path, O_RDWR | O_CREAT | O_TRUNC, 0600);
    if (!file || counted < 0 || ftruncate(counted, sizeof own_counts))
        abort();
    write_names(file);
    fclose(file);
    counts = mmap(NULL, sizeof own_counts, PROT_READ | PROT_WRITE, MAP_SHARED, counted, 0);
    if (counts == MAP_FAILED)
        abort();
}

static void count_script(bool is_accepted) {
    const struct script *script = examined();
    counts[SCRIPTS]++;
    counts[ACCEPTED] += (uint64_t)is_accepted;
    counts[FAULT_COUNTS + script->fault]++;
    for (uint32_t i = 0; is_accepted && i < script->statement_count; i++) {
        const struct statement *statement = &script->statements[i];
        counts[STATEMENT_COUNTS + statement->kind]++;
        if (statement->kind == COMMAND_STATEMENT || statement->kind == QUERY_STATEMENT)
            counts[OPERATION_COUNTS + statement->act]++;
    }
    for (uint32_t i = 0; is_accepted && i < script->item_count; i++)
        counts[STARTED] += script->items[i].kind == STARTED_ITEM;
}

/* What is asked now, for the message at a difference. */
struct question {
    enum word word;
    const uint8_t *script;
    size_t length;
};

static void show(const char *title, const void *bytes, size_t length) {
    fprintf(stderr, "--- %s\n", title);
    fwrite(bytes, 1, length, stderr);
    fputs(length && ((const char *)bytes)[length - 1] == '\n' ? "" : "\n", stderr);
}

static void tell_question(struct question question) {
    fprintf(stderr, "--- asked: qs %s\n", CALLS[question.word].word);
    show("words, one on each line", words, words_length);
    show("script", question.script, question.length);
}

static void differ(struct question question, const char *what, struct answer due, const uint8_t *came, size_t length,
                   unsigned status) {
    fprintf(stderr, "DIFFERENCE: qs %s: %s\n", CALLS[question.word].word, what);
    tell_question(question);
    fprintf(stderr, "due: status %d, length %zu\n", due.status, due.length);
    show("text that is due", due.text, due.length);
    fprintf(stderr, "came: status %u, length %zu\n", status, length);
    show("text that came, as far as the room has it", came, length);
    fputs("--- end of the difference\n", stderr);
    abort();
}

/* Calls the library with a room of a length, and looks at all that it did. */
static void call_with(struct question question, struct answer due, size_t room_length) {
    uint8_t *room = malloc(room_length + GUARD), status = PATTERN;
    if (!room)
        abort();
    memset(room, PATTERN, room_length + GUARD);
    size_t length = CALLS[question.word].call(question.script, question.length, (const uint8_t *)words, words_length,
                                              room, room_length, &status);
    size_t stands = length < room_length ? length : room_length;
    if (status != due.status)
        differ(question, "another status", due, room, stands, status);
    if (length != due.length)
        differ(question, "another length", due, room, stands, status);
    if (stands && memcmp(room, due.text, stands))
        differ(question, "another text", due, room, stands, status);
    for (size_t i = stands; i < room_length + GUARD; i++)
        if (room[i] != PATTERN)
            differ(question, "the rest of the room did not stay as it was", due, room, stands, status);
    free(room);
}

/* Asks both for the words that stand in `words`. */
static void ask(struct question question) {
    struct answer due = evaluate_examined(question.word, (const uint8_t *)words, words_length);
    if (due.status == NOT_ANSWERED) {
        counts[UNANSWERED]++;
        return;
    }
    counts[ASKED + question.word]++;
    counts[REFUSED_LINES + question.word] += due.status == 2;
    if (has_to_tell)
        tell_question(question);
    size_t short_room = chance(4) ? chance(2) : due.length ? chance((uint32_t)due.length) : 0;
    if (!chance(4))
        call_with(question, due, short_room);
    call_with(question, due, due.length + (chance(2) ? 0 : chance(100)));
}

static void add(const char *part) {
    size_t length = strlen(part);
    if (words_length + length < sizeof words) {
        memcpy(words + words_length, part, length);
        words_length += length;
    }
}

/* A further word; a word of its own begins a new line. */
static void add_word(const char *word) {
    if (words_length)
        add("\n");
    add(word);
}

static void add_setting(const char *name, const char *value) {
    add_word(name);
    add(chance(3) ? "\n" : "=");
    add(value);
}

static void add_amount(const char *name, uint32_t amount) {
    char digits[16];
    snprintf(digits, sizeof digits, chance(20) ? "%u" : "+00%u", amount);
    add_setting(name, digits);
}

static void add_bytes_of(const struct script *script, uint32_t token) {
    char name[MOST_NAME + 1] = {0};
    memcpy(name, token_text(script, token), script->tokens[token].length);
    add(name);
}

/* Parts of a list for one actor: its name and how often, or its number so often. */
static void add_part(const struct script *script, bool is_handler, uint32_t number, uint32_t times, bool is_first) {
    char part[32];
    uint32_t most = (uint32_t)(is_handler ? script->object_count : script->client_count);
    if (number < most && !chance(6)) {
        add(is_first ? "@" : ",@");
        add_bytes_of(script, is_handler ? script->objects[number].name : script->clients[number].name);
        snprintf(part, sizeof part, "*%u", times);
        add(times > 1 || !chance(30) ? part : "");
        return;
    }
    snprintf(part, sizeof part, "%c%u", is_handler ? 'h' : 'c', number);
    for (uint32_t i = 0; i < times; i++) {
        add(is_first && !i ? "" : ",");
        add(part);
    }
    add(chance(600) ? "" : "*2");
}

/* An order by chance: all blocks or a front of them, and now and then one that no client has. */
static void add_order(const char *name, const struct script *script) {
    uint32_t left[MOST_CLIENTS], all = 0, length;
    for (int i = 0; i < script->client_count; i++)
        all += left[i] = (uint32_t)script->bodies[script->clients[i].body].block_count;
    if (!all && chance(20))
        return;
    length = chance(3) ? all : chance(all + 1);
    add_setting(name, "");
    bool is_wrong = !length || !chance(25);
    for (uint32_t i = 0; i < length; i++) {
        uint32_t which = chance((uint32_t)script->client_count);
        while (!left[which])
            which = (which + 1) % (uint32_t)script->client_count;
        uint32_t times = chance(8) ? 1 : 1 + chance(left[which] < length - i ? left[which] : length - i);
        left[which] -= times;
        add_part(script, false, which, times, !i);
        i += times - 1;
    }
    if (is_wrong)
        add_part(script, false, chance(9), 1, !length);
}

static void add_picks(const struct script *script) {
    uint32_t length = 1 + chance(60);
    add_setting("--pick", "");
    for (uint32_t i = 0; i < length; i++) {
        bool is_handler = chance(2);
        uint32_t most = (uint32_t)(is_handler ? script->object_count : script->client_count);
        add_part(script, is_handler, most && chance(2000) ? chance(most) : chance(9), chance(6) ? 1 : 1 + chance(9),
                 !i);
    }
}

/* Words by which each line is refused. */
static void add_wrong_word(void) {
    static const char *const WRONG[] = {"--bogus",
                                        "extra",
                                        "--chunk\n0",
                                        "--chunk=33",
                                        "--mode\nfast",
                                        "--mode=",
                                        "--rounds\n-1",
                                        "--rounds\n4294967296",
                                        "--order\nc0,,c1",
                                        "--order\n@",
                                        "--order\nh0",
                                        "--pick\nc10",
                                        "--pick=@client",
                                        "--pick\n@a*0",
                                        "--pick\nc0*2",
                                        "--limit=0",
                                        "--counts=1",
                                        "--counts\n--counts",
                                        "--after\n@a*1000001",
                                        "--after\nc0,c0*1",
                                        "--ends=",
                                        "--estimate\n--ends",
                                        "--order\nc0\n--rounds=1",
                                        "\xff",
                                        "--format\nxml",
                                        "--format",
                                        "--pick\n@a*1000000,@a",
                                        "--verbose\n--verbose",
                                        "--order=\xc3"};
    add_word(WRONG[chance(sizeof WRONG / sizeof *WRONG)]);
}

/* What stands beside any word. */
static void add_common(void) {
    if (!chance(16))
        add_setting("--format", "text");
    if (!chance(40))
        add_wrong_word();
}

static void add_schedule(const struct script *script, uint8_t how) {
    if (how % 4 == 1)
        add_order("--order", script);
    if (how % 4 >= 2 && (how & 4))
        add_amount("--rounds", chance(40) ? chance(60) : 999990 + chance(20));
    if (how % 4 == 2)
        add_picks(script);
    if (how & 8)
        add_word("--counts");
    if (how & 16)
        add_word("--refusals");
    if ((how & 32) && how % 4 != 1)
        add_word("--steps");
    if ((how & 64) && how % 4 != 1)
        add_word("--queues");
    add_common();
}

static void ask_plays(struct question question, const struct script *script, const uint8_t *head) {
    static const char *const MODES[] = {"none", "dynamic", "static", "both"};
    words_length = 0;
    question.word = WORD_RULES;
    add_schedule(script, head[2]);
    ask(question);
    for (uint32_t i = 0; i < 4; i++) {
        if (!(head[1] >> i & 1))
            continue;
        words_length = 0;
        question.word = WORD_PLAY;
        if (i < 3 || chance(2))
            add_setting("--mode", MODES[i]);
        if (head[3] % 64)
            add_amount("--chunk", head[3] % 64 <= 32 ? head[3] % 64 : 1 + head[3] % 4);
        add_schedule(script, head[4]);
        ask(question);
    }
}

static void ask_outcomes(struct question question, const struct script *script, uint8_t how) {
    bool is_estimate = how & 8 && how & 16 && how & 32;
    words_length = 0;
    question.word = is_estimate ? WORD_ESTIMATE : WORD_OUTCOMES;
    if (how % 4 && !is_estimate)
        add_amount("--limit", 1 + chance(how % 4 == 1 ? 20 : 600));
    if (how & 4)
        add_order("--after", script);
    if (how & 8 && !is_estimate)
        add_word("--ends");
    add_common();
    ask(question);
}

static void ask_all(struct question question, const uint8_t *head) {
    const struct script *script = examined();
    words_length = 0;
    question.word = WORD_GRAPH;
    if (head[0] & 1) {
        add_common();
        ask(question);
    }
    if (script->weight > (head[0] >= 0xf8 ? HEAVY : LIGHT))
        return;
    if (head[0] & 6)
        ask_plays(question, script, head);
    if (head[0] & 8)
        ask_outcomes(question, script, head[5]);
}

/* The script of an input; a rare head has it filled up with spaces, to the greatest length or one byte more. */
static const uint8_t *script_of(const uint8_t *data, size_t *length) {
    static uint8_t filled[MOST_BYTES + 1];
    if (data[6] != 0xa5 || data[7] >= 24 || *length > MOST_BYTES)
        return data + HEAD;
    memcpy(filled, data + HEAD, *length);
    memset(filled + *length, data[7] & 4 ? '\n' : ' ', sizeof filled - *length);
    *length = data[7] < 8 ? MOST_BYTES - 1 : data[7] < 16 ? MOST_BYTES : MOST_BYTES + 1;
    return filled;
}

int LLVMFuzzerInitialize(int *count, char ***names) {
    const char *path = getenv("QS_FUZZ_COUNTS");
    (void)count, (void)names;
    has_to_tell = getenv("QS_FUZZ_TELL") != NULL;
    if (path)
        keep_counts(path);
    return 0;
}

int LLVMFuzzerTestOneInput(const uint8_t *data, size_t size) {
    if (size < HEAD)
        return 0;
    struct question question = {WORD_CHECK, NULL, size - HEAD};
    question.script = script_of(data, &question.length);
    memcpy(&seed, data + 8, sizeof seed);
    bool is_accepted = examine(question.script, question.length);
    count_script(is_accepted);
    words_length = 0;
    if (!chance(30))
        add_word("--verbose");
    if (!chance(30))
        add_word("--warn");
    add_common();
    ask(question);
    if (is_accepted)
        ask_all(question, data);
    return 0;
}
