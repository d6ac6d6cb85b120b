/* The search for outcomes goes from block to block, first the blocks of the first clients, and through each
   configuration once. So the first order that comes to an outcome is the least. With `--alike` a configuration is known
   by the one where the places of alike clients are in order. */
#include "outcomes.h"
#include "running.h"

#include <stdlib.h>
#include <string.h>

/* What is too long for here: words of all configurations, steps of all blocks, configurations. */
enum { MOST_WORDS = 1 << 22, MOST_STEPS = 1 << 21, TABLE = 1 << 14, MOST_CONFIGURATIONS = TABLE / 2 };

/* A length that no order has. */
enum { NO_FRONT = MOST_TICKETS + 1 };

/* A configuration: how many blocks each client has begun, one byte each; the variables; the objects. */
struct kept {
    uint64_t hash;
    uint32_t at, length; /* in the words */
    uint32_t search;     /* in which search it was found, so that the table need not be emptied */
};

static const struct script *script;
static struct object objects[MOST_OBJECTS];
static struct goer goers[MOST_CLIENTS];
static int64_t words[MOST_WORDS];
static uint32_t word_count, configuration_count, search;
static uint32_t level_counts[MOST_TICKETS + 1]; /* configurations by the length of the order */
static uint32_t limit, stop_at;                 /* how long the order of a front is, or NO_FRONT */
static bool has_alike;
static uint8_t alike[MOST_CLIENTS], places[MOST_CLIENTS]; /* the client at whose place each one stands, in order */
static uint64_t step_count;
static struct kept table[TABLE];
static uint8_t order[MOST_TICKETS];
static uint32_t order_length;
static uint8_t orders[MOST_CONFIGURATIONS][MOST_TICKETS];
static uint32_t outcomes[MOST_CONFIGURATIONS], outcome_count; /* the words of each */
static uint8_t next_lists[MOST_CLIENTS][MOST_BLOCKS + 1], left_lists[MOST_CLIENTS][MOST_BLOCKS + 1];

static int variables_of(int client) {
    return script->bodies[script->clients[client].body].variable_count;
}

/* Runs a block whole and alone. */
static void run_block(int client) {
    struct goer *goer = &goers[client];
    step_count += script->bodies[script->clients[client].body].weights[goer->begun] + 1;
    begin_block(script, client, goer);
    for (go_on(goer); goer->at->kind != EXIT; go_on(goer)) {
        const struct node *node = goer->at;
        int64_t arguments[MOST_ARGUMENTS] = {0};
        if (node->kind != SYNCHRONISE) {
            for (int i = 0; i < node->atom_count; i++)
                arguments[i] = value_of(goer, &node->atoms[i]);
            struct object *object = &objects[script->clients[client].object_of[node->named]];
            run_operation(object, node->act, arguments, &goer->variables[node->variable]);
        }
        goer->at = goer->nodes + node->next;
    }
}

static uint32_t save_object(const struct object *object, int64_t *to) {
    uint32_t length = 0;
    to[length++] = object->refused;
    if (object->kind == ACCOUNT) {
        to[length++] = object->balance;
    } else if (object->kind == BUFFER) {
        to[length++] = object->count;
        for (int i = 0; i < object->count; i++)
            to[length++] = object->values[(object->first + i) % object->columns];
    } else {
        for (int i = 0; i < object->rows * object->columns; i++)
            to[length++] = object->values[i];
    }
    return length;
}

static uint32_t load_object(struct object *object, const int64_t *from) {
    uint32_t length = 0;
    object->refused = from[length++];
    if (object->kind == ACCOUNT) {
        object->balance = from[length++];
        return length;
    }
    int count = object->rows * object->columns;
    if (object->kind == BUFFER) {
        object->first = 0;
        object->count = count = (int)from[length++];
    }
    for (int i = 0; i < count; i++)
        object->values[i] = from[length++];
    return length;
}

/* Puts what is now into the words from a place on, with each client at the place of another, which is alike to it; how
   many words it takes. */
static uint32_t save(uint32_t at, const uint8_t *of) {
    int64_t *to = words + at;
    uint32_t length = 1;
    to[0] = 0;
    for (int i = 0; i < script->client_count; i++) {
        to[0] |= (int64_t)((uint64_t)goers[of[i]].begun << 8 * i);
        for (int k = 0; k < variables_of(i); k++)
            to[length++] = goers[of[i]].variables[k];
    }
    for (int i = 0; i < script->object_count; i++)
        length += save_object(&objects[i], to + length);
    return length;
}

static void load(uint32_t at) {
    const int64_t *from = words + at;
    uint32_t length = 1;
    for (int i = 0; i < script->client_count; i++) {
        goers[i].begun = (int)((uint64_t)from[0] >> 8 * i & 0xff);
        for (int k = 0; k < variables_of(i); k++)
            goers[i].variables[k] = from[length++];
    }
    for (int i = 0; i < script->object_count; i++)
        length += load_object(&objects[i], from + length);
}

static uint64_t hash_of(uint32_t at, uint32_t length) {
    uint64_t hash = UINT64_C(0x9e3779b97f4a7c15);
    for (uint32_t i = 0; i < length; i++) {
        hash = (hash ^ (uint64_t)words[at + i]) * UINT64_C(0xff51afd7ed558ccd);
        hash ^= hash >> 32;
    }
    return hash;
}

static int compare_variables(int one, int other) {
    for (int k = 0; k < variables_of(one); k++)
        if (goers[one].variables[k] != goers[other].variables[k])
            return goers[one].variables[k] < goers[other].variables[k] ? -1 : 1;
    return 0;
}

/* Whether the place of one of two alike clients comes before the other's. */
static bool is_before(int one, int other) {
    if (goers[one].begun != goers[other].begun)
        return goers[one].begun < goers[other].begun;
    return compare_variables(one, other) < 0;
}

/* Puts the places of alike clients in order. */
static void order_places(void) {
    for (int i = 0; i < script->client_count; i++) {
        int client = i;
        for (int k = 0; k < i; k++)
            if (alike[k] == alike[i] && is_before(client, places[k])) {
                int other = places[k];
                places[k] = (uint8_t)client;
                client = other;
            }
        places[i] = (uint8_t)client;
    }
}

/* Keeps what is now as a configuration, first as it is known by and then, where that differs, as it is; whether it is
   new. */
static bool keep(uint32_t *at) {
    static const uint8_t THEMSELVES[MOST_CLIENTS] = {0, 1, 2, 3, 4, 5, 6, 7};
    uint32_t length = save(word_count, places);
    uint64_t hash = hash_of(word_count, length);
    for (uint32_t i = (uint32_t)hash % TABLE;; i = (i + 1) % TABLE) {
        struct kept *kept = &table[i];
        if (kept->search != search) {
            *kept = (struct kept){hash, word_count, length, search};
            word_count += length;
            *at = has_alike ? word_count : kept->at;
            word_count += has_alike ? save(word_count, THEMSELVES) : 0;
            configuration_count++;
            level_counts[order_length]++;
            return true;
        }
        if (kept->hash == hash && kept->length == length &&
            !memcmp(words + kept->at, words + word_count, length * sizeof *words))
            return false;
    }
}

/* How many blocks the client at a place has begun. */
static int begun_at(int place) {
    return goers[places[place]].begun;
}

/* The places, as bits, that a set grown from one has: nobody else has a block left that shares an object with the next
   block of a member. */
static unsigned grow(int from) {
    unsigned members = 1u << from;
    for (bool is_more = true; is_more;) {
        is_more = false;
        for (int i = 0; i < script->client_count; i++)
            for (int k = 0; members >> i & 1 && k < script->client_count; k++)
                if (!(members >> k & 1) && next_lists[i][begun_at(i)] & left_lists[k][begun_at(k)]) {
                    members |= 1u << k;
                    is_more = true;
                }
    }
    return members;
}

/* The places, as bits, that are followed: the first of the smallest sets. None where nobody has a block left. */
static unsigned followed_places(void) {
    unsigned best = 0;
    for (int i = 0; i < script->client_count; i++) {
        if (begun_at(i) == blocks_of(script, i))
            continue;
        unsigned members = grow(i);
        if (!best || __builtin_popcount(members) < __builtin_popcount(best))
            best = members;
    }
    return best;
}

/* The clients, as bits, that are followed: those alike to the client of a followed place who have begun as many blocks
   as are begun there. */
static unsigned followed(void) {
    unsigned at = followed_places(), clients = 0;
    for (int i = 0; i < script->client_count; i++)
        for (int k = 0; k < script->client_count; k++)
            if (at >> k & 1 && alike[k] == alike[i] && begun_at(k) == goers[i].begun)
                clients |= 1u << i;
    return clients;
}

static bool is_too_much(void) {
    return word_count > MOST_WORDS - (1 << 15) || step_count > MOST_STEPS;
}

/* Whether there are more configurations than the limit; of fronts, those of one number of blocks. */
static bool is_over_the_limit(void) {
    return (stop_at == NO_FRONT ? configuration_count : level_counts[order_length]) > limit;
}

/* Goes on from what is now, which the order so far has come to. */
static enum found search_on(void) {
    uint32_t at;
    if (is_too_much())
        return TOO_MUCH;
    order_places();
    if (!keep(&at))
        return FOUND;
    if (is_over_the_limit())
        return OVER_THE_LIMIT;
    if (configuration_count == MOST_CONFIGURATIONS)
        return TOO_MUCH;
    unsigned clients = order_length == stop_at ? 0 : followed();
    if (!clients) {
        memcpy(orders[outcome_count], order, order_length);
        outcomes[outcome_count++] = at;
        return FOUND;
    }
    for (int i = 0; i < script->client_count; i++) {
        if (!(clients >> i & 1))
            continue;
        load(at);
        run_block(i);
        order[order_length++] = (uint8_t)i;
        enum found found = search_on();
        order_length--;
        if (found != FOUND)
            return found;
    }
    return FOUND;
}

bool names_order(const struct script *of, const struct list *list) {
    uint32_t begun[MOST_CLIENTS] = {0};
    for (uint32_t i = 0; i < list->count; i++) {
        const struct part *part = &list->parts[i];
        if (part->number >= (uint32_t)of->client_count)
            return false;
        begun[part->number] += part->times;
        if (begun[part->number] > (uint32_t)blocks_of(of, (int)part->number))
            return false;
    }
    return true;
}

bool leaves_blocks(const struct script *of, const struct list *list, uint32_t more) {
    if (!names_order(of, list))
        return false;
    uint32_t left = 0;
    for (int i = 0; i < of->client_count; i++)
        left += (uint32_t)blocks_of(of, i);
    for (uint32_t i = 0; i < list->count; i++)
        left -= list->parts[i].times;
    return more <= left;
}

/* Which objects, as bits, the next block of a client has, and all that are left, by how many are begun. */
static void make_masks(void) {
    for (int i = 0; i < script->client_count; i++) {
        const struct client *client = &script->clients[i];
        int count = blocks_of(script, i);
        next_lists[i][count] = left_lists[i][count] = 0;
        for (int k = count - 1; k >= 0; k--) {
            next_lists[i][k] = 0;
            for (int n = 0; n < client->list_length[k]; n++)
                next_lists[i][k] |= (uint8_t)(1u << client->list[k][n]);
            left_lists[i][k] = left_lists[i][k + 1] | next_lists[i][k];
        }
    }
}

static void begin_alike(bool is_alike) {
    has_alike = is_alike;
    if (is_alike)
        find_alike(script, alike);
    for (int i = 0; !is_alike && i < script->client_count; i++)
        alike[i] = (uint8_t)i;
}

static void begin_search(const struct script *of, const struct line *line, const struct list *after) {
    script = of;
    word_count = configuration_count = outcome_count = order_length = 0;
    memset(level_counts, 0, sizeof level_counts);
    step_count = 0;
    limit = line->limit;
    search++;
    make_masks();
    begin_alike(line->has_alike);
    memset(goers, 0, sizeof goers);
    for (int i = 0; i < script->object_count; i++)
        make_object(&objects[i], &script->objects[i]);
    for (uint32_t i = 0; i < after->count; i++)
        for (uint32_t k = 0; k < after->parts[i].times; k++) {
            run_block((int)after->parts[i].number);
            order[order_length++] = (uint8_t)after->parts[i].number;
        }
    stop_at = line->front ? order_length + line->front : NO_FRONT;
}

/* The lines of an outcome's objects and clients. */
static void write_end(struct text *text, uint32_t at) {
    load(at);
    write_objects(text, script, objects);
    for (int i = 0; i < script->client_count; i++) {
        const struct body *body = &script->bodies[script->clients[i].body];
        write_name(text, script, script->clients[i].name);
        for (int k = 0; k < body->variable_count; k++) {
            add_string(text, " ");
            write_name(text, script, body->variables[k]);
            add_string(text, " ");
            add_number(text, goers[i].variables[k]);
        }
        add_string(text, "\n");
    }
}

static void write_order(struct text *text, const uint8_t *clients, uint32_t length) {
    for (uint32_t i = 0; i < length; i++) {
        add_string(text, i ? ",c" : "c");
        add_number(text, clients[i]);
    }
    add_string(text, length ? "" : "-");
}

static struct text ends_text;
static struct { size_t at, length; } ends[MOST_CONFIGURATIONS];

static int compare_ends(const void *one, const void *other) {
    const size_t *a = one, *b = other;
    size_t length = a[1] < b[1] ? a[1] : b[1];
    int sign = memcmp(ends_text.bytes + a[0], ends_text.bytes + b[0], length);
    return sign ? sign : (a[1] > b[1]) - (a[1] < b[1]);
}

static void write_ends(struct text *text) {
    clear_text(&ends_text);
    for (uint32_t i = 0; i < outcome_count; i++) {
        ends[i].at = ends_text.length;
        add_string(&ends_text, "end\n");
        write_end(&ends_text, outcomes[i]);
        ends[i].length = ends_text.length - ends[i].at;
    }
    qsort(ends, outcome_count, sizeof *ends, compare_ends);
    for (uint32_t i = 0; i < outcome_count; i++)
        add_bytes(text, ends_text.bytes + ends[i].at, ends[i].length);
}

/* How many outcomes one stands for: in how many ways alike clients can have its variables. */
static uint64_t stands_for(uint32_t at) {
    uint64_t number = 1;
    load(at);
    for (int i = 0; i < script->client_count; i++) {
        uint64_t all = 0, equal = 0; /* of the alike clients so far */
        for (int k = 0; k <= i; k++)
            if (alike[k] == alike[i]) {
                all++;
                equal += !compare_variables(k, i);
            }
        number = number * all / equal;
    }
    return number;
}

static void write_counted(struct text *text, const char *what, uint64_t count) {
    add_string(text, what);
    add_number(text, (int64_t)count);
}

static void write_head(struct text *text, bool has_fronts) {
    uint64_t all = 0;
    for (uint32_t i = 0; has_alike && i < outcome_count; i++)
        all += stands_for(outcomes[i]);
    write_counted(text, has_fronts ? "fronts " : "outcomes ", outcome_count);
    if (has_alike)
        write_counted(text, " of ", all);
    add_string(text, "\n");
}

static void write_list(struct text *text) {
    bool has_fronts = stop_at != NO_FRONT;
    uint32_t length = 0;
    for (int i = 0; i < script->client_count; i++)
        length += (uint32_t)blocks_of(script, i);
    write_head(text, has_fronts);
    for (uint32_t i = 0; i < outcome_count; i++) {
        write_counted(text, has_fronts ? "front " : "outcome ", i + 1);
        add_string(text, " ");
        write_order(text, orders[i], has_fronts ? stop_at : length);
        if (has_alike)
            write_counted(text, " stands for ", stands_for(outcomes[i]));
        add_string(text, "\n");
        write_end(text, outcomes[i]);
    }
    if (has_fronts)
        return;
    write_counted(text, "configurations ", configuration_count);
    add_string(text, "\n");
}

enum found write_outcomes(struct text *text, const struct script *of, const struct line *line,
                          const struct list *after) {
    begin_search(of, line, after);
    enum found found = search_on();
    if (found == FOUND && line->has_ends)
        write_ends(text);
    else if (found == FOUND)
        write_list(text);
    return found;
}

/* How many ways there are to choose some of many, or a number over 10^18. */
static uint64_t ways(uint64_t many, uint64_t some) {
    unsigned __int128 number = 1;
    if (some > many - some)
        some = many - some;
    for (uint64_t i = 1; i <= some && number <= UINT64_C(1000000000000000000); i++)
        number = number * (many - some + i) / i;
    return number > UINT64_C(1000000000000000000) ? UINT64_MAX : (uint64_t)number;
}

void write_estimate(struct text *text, const struct script *of, const struct list *after) {
    uint64_t begun[MOST_CLIENTS] = {0}, before = 0, least = 1;
    unsigned __int128 most = 1;
    for (uint32_t i = 0; i < after->count; i++)
        begun[after->parts[i].number] += after->parts[i].times;
    for (int i = 0; i < of->client_count; i++) {
        uint64_t left = (uint64_t)blocks_of(of, i) - begun[i];
        if (most <= UINT64_C(1000000000000000000))
            most *= ways(before + left + 1, left);
        before += left;
        least *= left + 1;
    }
    if (most > UINT64_C(1000000000000000000)) {
        add_string(text, "configurations may be over 1000000000000000000");
    } else {
        add_string(text, "configurations at most ");
        add_number(text, (int64_t)most);
    }
    add_string(text, "\nthroughout at least ");
    add_number(text, (int64_t)least);
    add_string(text, "\n");
}
