/* The words of a line. A line that does not fit is refused, whatever it has else. */
#include "line.h"

#include <string.h>

enum setting {
    VERBOSE,
    WARN,
    FORMAT,
    MODE,
    CHUNK,
    ROUNDS,
    PICK,
    ORDER,
    COUNTS,
    REFUSALS,
    STEPS,
    QUEUES,
    LIMIT,
    AFTER,
    ENDS,
    ALIKE,
    LEADS,
    THREADS,
    ALWAYS,
    SOME,
    THROUGHOUT,
    EVER,
    NEVER,
    BLOCKS, /* a number by itself */
    SETTING_COUNT
};

#define OF(word) (1u << (word))
#define OF_ALL (OF(WORD_COUNT) - 1)
#define OF_PLAYS (OF(WORD_RULES) | OF(WORD_PLAY))
#define OF_SEARCHES (OF(WORD_OUTCOMES) | OF(WORD_ASK) | OF(WORD_FRONTS))

static const struct {
    const char *name;
    bool has_value;
    unsigned words;
} SETTINGS[SETTING_COUNT] = {[VERBOSE] = {"verbose", false, OF(WORD_CHECK)},
                             [WARN] = {"warn", false, OF_ALL},
                             [FORMAT] = {"format", true, OF_ALL},
                             [MODE] = {"mode", true, OF(WORD_PLAY)},
                             [CHUNK] = {"chunk", true, OF(WORD_PLAY)},
                             [ROUNDS] = {"rounds", true, OF_PLAYS},
                             [PICK] = {"pick", true, OF_PLAYS},
                             [ORDER] = {"order", true, OF_PLAYS},
                             [COUNTS] = {"counts", false, OF_PLAYS},
                             [REFUSALS] = {"refusals", false, OF_PLAYS},
                             [STEPS] = {"steps", false, OF_PLAYS},
                             [QUEUES] = {"queues", false, OF_PLAYS},
                             [LIMIT] = {"limit", true, OF_SEARCHES},
                             [AFTER] = {"after", true, OF_SEARCHES | OF(WORD_ESTIMATE)},
                             [ENDS] = {"ends", false, OF(WORD_OUTCOMES)},
                             [ALIKE] = {"alike", false, OF(WORD_OUTCOMES)},
                             [LEADS] = {"leads", true, OF(WORD_FRONTS)},
                             [THREADS] = {"threads", true, OF(WORD_OUTCOMES)},
                             [ALWAYS] = {"always", true, OF(WORD_ASK)},
                             [SOME] = {"some", true, OF(WORD_ASK)},
                             [THROUGHOUT] = {"throughout", true, OF(WORD_ASK)},
                             [EVER] = {"ever", true, OF(WORD_ASK)},
                             [NEVER] = {"never", true, OF(WORD_ASK)},
                             [BLOCKS] = {"", true, 0}};

static const char *const RESERVED[] = {"object", "client", "template", "separate", "if",  "else",
                                       "repeat", "leave",  "account",  "buffer",   "grid"};

/* A part of the words: some bytes. */
struct bytes {
    const uint8_t *at;
    size_t length;
};

struct given {
    bool is_there[SETTING_COUNT];
    struct bytes value[SETTING_COUNT];
};

static bool is_string(struct bytes bytes, const char *string) {
    return strlen(string) == bytes.length && !memcmp(bytes.at, string, bytes.length);
}

/* How many bytes the character at a place has by its first byte, 0 where none begins so. */
static size_t character_length(uint8_t byte) {
    return byte < 0x80 ? 1 : byte < 0xc2 ? 0 : byte < 0xe0 ? 2 : byte < 0xf0 ? 3 : byte < 0xf5 ? 4 : 0;
}

static bool is_utf8(struct bytes bytes) {
    for (size_t i = 0; i < bytes.length;) {
        uint8_t first = bytes.at[i];
        size_t length = character_length(first);
        if (!length || i + length > bytes.length)
            return false;
        for (size_t k = 1; k < length; k++)
            if ((bytes.at[i + k] & 0xc0) != 0x80)
                return false;
        uint8_t second = length > 1 ? bytes.at[i + 1] : 0;
        if ((first == 0xe0 && second < 0xa0) || (first == 0xed && second > 0x9f) || (first == 0xf0 && second < 0x90) ||
            (first == 0xf4 && second > 0x8f))
            return false;
        i += length;
    }
    return true;
}

/* Cuts off what stands before the next of a sign, or all where there is none. */
static struct bytes cut_off(struct bytes *rest, char sign, bool *is_last) {
    const uint8_t *end = rest->length ? memchr(rest->at, sign, rest->length) : NULL;
    struct bytes one = {rest->at, end ? (size_t)(end - rest->at) : rest->length};
    *is_last = !end;
    rest->at += one.length + (end != NULL);
    rest->length -= one.length + (end != NULL);
    return one;
}

static int setting_of(struct bytes name, enum word word) {
    for (int i = 0; i < SETTING_COUNT; i++)
        if (is_string(name, SETTINGS[i].name))
            return SETTINGS[i].words & OF(word) ? i : NOTHING;
    return NOTHING;
}

/* Which settings the words give; LINE_IS_REFUSED where they are no settings, or stand twice. */
static enum line_kind find_settings(struct given *given, enum word word, struct bytes rest) {
    for (bool is_last = rest.length == 0; !is_last;) {
        struct bytes one = cut_off(&rest, '\n', &is_last);
        if (is_string(one, "--help") || is_string(one, "-h"))
            return LINE_IS_NOT_KNOWN;
        if (word == WORD_FRONTS && !given->is_there[BLOCKS] && one.length && one.at[0] != '-') {
            given->is_there[BLOCKS] = true;
            given->value[BLOCKS] = one;
            continue;
        }
        if (one.length < 2 || memcmp(one.at, "--", 2))
            return LINE_IS_REFUSED;
        const uint8_t *sign = memchr(one.at, '=', one.length);
        struct bytes name = {one.at + 2, (sign ? (size_t)(sign - one.at) : one.length) - 2};
        int which = setting_of(name, word);
        if (which == NOTHING || given->is_there[which] || (sign && !SETTINGS[which].has_value))
            return LINE_IS_REFUSED;
        given->is_there[which] = true;
        if (sign) {
            given->value[which] = (struct bytes){sign + 1, one.length - 3 - name.length};
        } else if (SETTINGS[which].has_value) {
            if (is_last)
                return LINE_IS_REFUSED;
            given->value[which] = cut_off(&rest, '\n', &is_last);
            if (given->value[which].length && given->value[which].at[0] == '-')
                return LINE_IS_REFUSED;
        }
    }
    return word == WORD_FRONTS && !given->is_there[BLOCKS] ? LINE_IS_REFUSED : LINE_IS_RIGHT;
}

/* Reads digits: whether there are some, and nothing else; a number over 2^40 is 2^40. */
static bool read_digits(struct bytes bytes, uint64_t *number) {
    *number = 0;
    for (size_t i = 0; i < bytes.length; i++) {
        if (bytes.at[i] < '0' || bytes.at[i] > '9')
            return false;
        *number = *number * 10 + (bytes.at[i] - '0');
        if (*number > UINT64_C(1) << 40)
            *number = UINT64_C(1) << 40;
    }
    return bytes.length > 0;
}

/* The number of a setting within its range, or what it is where the setting is left out. */
static bool read_number(const struct given *given, enum setting setting, uint64_t least, uint64_t most,
                        uint64_t *number) {
    if (!given->is_there[setting])
        return true;
    struct bytes value = given->value[setting];
    if (value.length && value.at[0] == '+')
        value = (struct bytes){value.at + 1, value.length - 1};
    return read_digits(value, number) && *number >= least && *number <= most;
}

static bool is_name(struct bytes bytes) {
    if (!bytes.length || bytes.length > MOST_NAME || bytes.at[0] < 'a' || bytes.at[0] > 'z')
        return false;
    for (size_t i = 0; i < bytes.length; i++) {
        uint8_t byte = bytes.at[i];
        if (!(byte >= 'a' && byte <= 'z') && !(byte >= '0' && byte <= '9') && byte != '_')
            return false;
    }
    for (size_t i = 0; i < sizeof RESERVED / sizeof *RESERVED; i++)
        if (is_string(bytes, RESERVED[i]))
            return false;
    return true;
}

/* Reads the name of a part, behind its `@`, and how often it stands there. */
static bool read_named_part(struct bytes bytes, struct part *part) {
    const uint8_t *star = bytes.length ? memchr(bytes.at, '*', bytes.length) : NULL;
    uint64_t times = 1;
    if (star) {
        struct bytes digits = {star + 1, bytes.length - (size_t)(star + 1 - bytes.at)};
        if (!read_digits(digits, &times) || times < 1 || times > 1000000)
            return false;
        bytes.length = (size_t)(star - bytes.at);
    }
    if (!is_name(bytes))
        return false;
    *part = (struct part){.times = (uint32_t)times, .is_named = true, .name_length = (uint8_t)bytes.length};
    memcpy(part->name, bytes.at, bytes.length);
    return true;
}

/* Reads one part of a list, without its comma. */
static bool read_part(struct bytes bytes, bool has_handlers, struct part *part) {
    if (bytes.length && bytes.at[0] == '@')
        return read_named_part((struct bytes){bytes.at + 1, bytes.length - 1}, part);
    if (bytes.length != 2 || bytes.at[1] < '0' || bytes.at[1] > '9')
        return false;
    *part = (struct part){.times = 1, .is_handler = bytes.at[0] == 'h', .number = bytes.at[1] - '0'};
    return bytes.at[0] == 'c' || (part->is_handler && has_handlers);
}

/* Reads the parts of a list, which stand behind those of the lists before it. */
static enum line_kind read_parts(struct line *line, struct bytes rest, bool has_handlers, struct list *list) {
    uint64_t actors = 0;
    *list = (struct list){.is_given = true, .parts = line->parts + line->part_count};
    for (bool is_last = false; !is_last;) {
        struct bytes one = cut_off(&rest, ',', &is_last);
        if (line->part_count == MOST_PARTS)
            return LINE_IS_NOT_KNOWN;
        if (!read_part(one, has_handlers, &list->parts[list->count]))
            return LINE_IS_REFUSED;
        actors += list->parts[list->count++].times;
        line->part_count++;
    }
    return actors > 1000000 ? LINE_IS_REFUSED : LINE_IS_RIGHT;
}

static enum line_kind read_list(struct line *line, const struct given *given, enum setting setting, struct list *list) {
    if (given->is_there[setting])
        return read_parts(line, given->value[setting], setting == PICK, list);
    *list = (struct list){0};
    return LINE_IS_RIGHT;
}

/* Reads the lists that colons join. */
static enum line_kind read_leads(struct line *line, const struct given *given) {
    struct bytes rest = given->value[LEADS];
    line->lead_count = 0;
    for (bool is_last = !given->is_there[LEADS]; !is_last;) {
        struct bytes one = cut_off(&rest, ':', &is_last);
        if (line->lead_count == MOST_LEADS)
            return LINE_IS_NOT_KNOWN;
        enum line_kind kind = read_parts(line, one, false, &line->leads[line->lead_count++]);
        if (kind != LINE_IS_RIGHT)
            return kind;
    }
    return LINE_IS_RIGHT;
}

static bool read_mode(struct line *line, const struct given *given) {
    struct bytes mode = given->value[MODE];
    bool is_both = !given->is_there[MODE] || is_string(mode, "both");
    line->is_dynamic = is_both || is_string(mode, "dynamic");
    line->is_static = is_both || is_string(mode, "static");
    return line->is_dynamic || line->is_static || is_string(mode, "none");
}

static bool is_format(struct bytes format, enum word word) {
    bool has_drawing = word == WORD_GRAPH || word == WORD_OUTCOMES,
         has_picture = word == WORD_RULES || word == WORD_PLAY;
    return is_string(format, "text") || is_string(format, "json") || (has_drawing && is_string(format, "dot")) ||
           (has_picture && is_string(format, "svg"));
}

/* Whether the settings may stand beside one another. */
static bool go_together(const struct given *given, enum word word) {
    const bool *has = given->is_there;
    bool is_text = !has[FORMAT] || is_string(given->value[FORMAT], "text");
    bool is_dot = has[FORMAT] && is_string(given->value[FORMAT], "dot");
    if (has[ORDER] && (has[PICK] || has[ROUNDS]))
        return false;
    if ((has[STEPS] || has[QUEUES]) && (has[ORDER] || !is_text))
        return false;
    if ((has[ALIKE] && (has[ENDS] || has[AFTER] || has[THREADS])) || (has[LEADS] && has[AFTER]))
        return false;
    if (is_dot && (has[ALIKE] || has[ENDS] || has[THREADS]))
        return false;
    return (has[ALWAYS] + has[SOME] + has[THROUGHOUT] + has[EVER] + has[NEVER] == 1) == (word == WORD_ASK);
}

static bool read_numbers(struct line *line, const struct given *given) {
    uint64_t chunk = 8, rounds = 1000000, limit = 1000000, front = 0, threads = 1;
    if (!read_number(given, CHUNK, 1, 32, &chunk) || !read_number(given, ROUNDS, 0, UINT32_MAX, &rounds) ||
        !read_number(given, LIMIT, 1, UINT32_MAX, &limit) || !read_number(given, BLOCKS, 1, 512, &front) ||
        !read_number(given, THREADS, 1, 64, &threads))
        return false;
    line->chunk = (int)chunk;
    line->rounds = (uint32_t)rounds;
    line->limit = (uint32_t)limit;
    line->front = (uint32_t)front;
    return true;
}

static enum line_kind worse(enum line_kind one, enum line_kind other) {
    return one == LINE_IS_REFUSED || other == LINE_IS_RIGHT ? one : other;
}

static enum line_kind read_lists(struct line *line, const struct given *given) {
    line->part_count = 0;
    enum line_kind kind = read_list(line, given, PICK, &line->pick);
    kind = worse(kind, read_list(line, given, ORDER, &line->order));
    kind = worse(kind, read_list(line, given, AFTER, &line->after));
    return worse(kind, read_leads(line, given));
}

enum line_kind read_line(struct line *line, enum word word, const uint8_t *words, size_t length) {
    struct given given = {0};
    const bool *has = given.is_there;
    struct bytes all = {words, length};
    if (!is_utf8(all))
        return LINE_IS_REFUSED;
    enum line_kind kind = find_settings(&given, word, all);
    if (kind != LINE_IS_RIGHT)
        return kind;
    if (!read_numbers(line, &given) || !read_mode(line, &given) || !go_together(&given, word))
        return LINE_IS_REFUSED;
    if (has[FORMAT] && !is_format(given.value[FORMAT], word))
        return LINE_IS_REFUSED;
    line->has_counts = has[COUNTS];
    line->has_refusals = has[REFUSALS];
    line->has_steps = has[STEPS];
    line->has_queues = has[QUEUES];
    line->has_ends = has[ENDS];
    line->has_alike = has[ALIKE];
    kind = read_lists(line, &given);
    bool is_more = word == WORD_ASK || (has[FORMAT] && !is_string(given.value[FORMAT], "text"));
    return worse(kind, is_more ? LINE_IS_NOT_KNOWN : LINE_IS_RIGHT);
}

static bool is_called(const struct script *script, uint32_t token, const struct part *part) {
    return script->tokens[token].length == part->name_length &&
           !memcmp(token_text(script, token), part->name, part->name_length);
}

bool look_up(const struct script *script, struct list *list, bool has_handlers) {
    for (uint32_t i = 0; i < list->count; i++) {
        struct part *part = &list->parts[i];
        int found = 0;
        for (int k = 0; part->is_named && k < script->client_count; k++)
            if (is_called(script, script->clients[k].name, part)) {
                part->number = (uint32_t)k;
                found++;
            }
        for (int k = 0; part->is_named && k < script->object_count; k++)
            if (is_called(script, script->objects[k].name, part)) {
                part->number = (uint32_t)k;
                part->is_handler = true;
                found++;
            }
        if (part->is_named && (found != 1 || (part->is_handler && !has_handlers)))
            return false;
    }
    return true;
}
