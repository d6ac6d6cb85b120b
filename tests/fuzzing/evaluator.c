/* What each word answers: the line is read, then the script, then its names are looked up, and then it is done. */
#include "evaluator.h"
#include "line.h"
#include "outcomes.h"
#include "running.h"

#include <string.h>

static struct script script;
static struct line line;
static struct text text;

static const char *const READ_FAULTS[] = {"", "Size", "Byte", "Number", "Name", "Form"};
static const char *const CHECK_FAULTS[] = {
    "",      "Twice", "UnknownObject", "ReservedTwice", "NotReserved", "UnknownOp",       "Arity", "LeaveOutside",
    "Limit", "Range", "Load",          "Weight",        "Memory",      "UnknownTemplate", "Count", "OtherKind"};

static int refuse(const char *why) {
    clear_text(&text);
    add_string(&text, "refused: ");
    add_string(&text, why);
    add_string(&text, "\n");
    return 2;
}

static int refuse_script(void) {
    bool is_read = script.fault < CHECK_TWICE;
    int number = (int)script.fault - (is_read ? 0 : CHECK_TWICE - 1);
    add_string(&text, is_read ? "refused: read " : "refused: check ");
    add_number(&text, number);
    add_string(&text, " ");
    add_string(&text, is_read ? READ_FAULTS[number] : CHECK_FAULTS[number]);
    if (is_read && script.fault != READ_SIZE) {
        add_string(&text, " line ");
        add_number(&text, (int64_t)fault_line(&script));
    }
    add_string(&text, "\n");
    return 2;
}

static void write_count(const char *word, uint64_t count) {
    add_string(&text, word);
    add_number(&text, (int64_t)count);
    add_string(&text, "\n");
}

static int write_counts(void) {
    uint64_t blocks = 0;
    for (int i = 0; i < script.client_count; i++)
        blocks += (uint64_t)blocks_of(&script, i);
    write_count("objects ", (uint64_t)script.object_count);
    write_count("clients ", (uint64_t)script.client_count);
    write_count("blocks ", blocks);
    write_count("load ", script.load);
    write_count("weight ", script.weight);
    return 0;
}

static void add_name(uint32_t token) {
    write_name(&text, &script, token);
}

static void write_label(const struct body *body, const struct node *node) {
    static const char *const LABELS[] = {"entry",  "local", "local",  "local", "branch",
                                         "branch", "sync ", "query ", "call ", "exit"};
    add_string(&text, LABELS[node->kind]);
    if (node->kind == SYNCHRONISE || node->kind == ASK || node->kind == CALL)
        add_name(body->named[node->named].name);
    if (node->kind == SYNCHRONISE)
        add_string(&text, node->held >> node->named & 1 ? " removed" : " kept");
}

static void write_node(const struct body *body, const struct block *block, const struct node *node, uint32_t number) {
    add_number(&text, number);
    add_string(&text, " ");
    write_label(body, node);
    add_string(&text, " -> ");
    if (node->kind == EXIT)
        add_string(&text, "-");
    else
        add_number(&text, node->next);
    if (node->kind == CHOOSE || node->kind == AGAIN) {
        add_string(&text, " ");
        add_number(&text, node->other);
    }
    add_string(&text, " held");
    bool is_none = true;
    for (uint32_t i = 0; i < block->name_count; i++)
        if (node->held >> block->list[i] & 1) {
            add_string(&text, " ");
            add_name(body->named[block->list[i]].name);
            is_none = false;
        }
    add_string(&text, is_none ? " -\n" : "\n");
}

static int write_graphs(void) {
    for (int i = 0; i < script.client_count; i++) {
        const struct body *body = &script.bodies[script.clients[i].body];
        for (int k = 0; k < body->block_count; k++) {
            add_string(&text, "block ");
            add_name(script.clients[i].name);
            add_string(&text, " ");
            add_number(&text, k);
            add_string(&text, "\n");
            for (uint32_t at = 0; at < body->lengths[k]; at++)
                write_node(body, &script.blocks[body->blocks[k]], &script.nodes[body->graphs[k] + at], at);
        }
    }
    return 0;
}

static uint32_t step_number;

/* Asks an actor to step. Where steps are shown there is a line for it if it did something, or if it is a pick. */
static bool step(const struct machine *machine, bool is_handler, uint32_t number, bool is_pick) {
    size_t before = text.length;
    step_number++;
    if (line.has_steps) {
        add_number(&text, step_number);
        add_string(&text, " ");
        write_name(&text, &script, is_handler ? script.objects[number].name : script.clients[number].name);
        add_string(&text, " ");
    }
    bool is_done = is_handler ? machine->step_handler((int)number) : machine->step_client((int)number);
    if (line.has_steps && (is_done || is_pick))
        add_string(&text, is_done ? "\n" : "does nothing\n");
    else
        text.length = before;
    return is_done;
}

static bool step_handlers(const struct machine *machine) {
    bool is_any = false;
    for (int i = 0; i < script.object_count; i++)
        is_any |= step(machine, true, (uint32_t)i, false);
    return is_any;
}

/* One whole block of a client: until it has ended, and no handler has a step. */
static void play_block(const struct machine *machine, int client) {
    machine->step_client(client);
    int16_t ticket = machine->run->current[client];
    while (!machine->run->tickets[ticket].is_done) {
        step_handlers(machine);
        machine->step_client(client);
    }
    while (step_handlers(machine))
        ;
}

static void play_picks(const struct machine *machine, const struct list *pick) {
    for (uint32_t i = 0; i < pick->count; i++)
        for (uint32_t k = 0; k < pick->parts[i].times; k++)
            if (!step(machine, pick->parts[i].is_handler, pick->parts[i].number, true) && !line.has_steps)
                break; /* as long as nobody else steps, it has none later either */
}

static void play_rounds(const struct machine *machine, uint32_t rounds) {
    bool is_any = true;
    for (uint32_t i = 0; is_any && i < rounds; i++) {
        is_any = false;
        for (int k = 0; k < script.client_count; k++)
            is_any |= step(machine, false, (uint32_t)k, false);
        is_any |= step_handlers(machine);
    }
}

static void write_queues(const struct machine *machine) {
    for (int i = 0; i < script.object_count; i++) {
        add_string(&text, "queue ");
        write_name(&text, &script, script.objects[i].name);
        add_string(&text, " ");
        machine->write_queue(&text, i);
    }
    for (int i = 0; i < script.client_count; i++) {
        add_string(&text, "client ");
        write_name(&text, &script, script.clients[i].name);
        add_string(&text, " ");
        machine->write_wait(&text, i);
        add_string(&text, "\n");
    }
}

static bool are_actors(const struct list *pick) {
    for (uint32_t i = 0; i < pick->count; i++) {
        const struct part *part = &pick->parts[i];
        if (part->number >= (uint32_t)(part->is_handler ? script.object_count : script.client_count))
            return false;
    }
    return true;
}

static int play(const struct machine *machine) {
    if (line.rounds > 1000000)
        return refuse("play 3 Rounds");
    if (!are_actors(&line.pick))
        return refuse("play 2 Actor");
    if (line.order.is_given && !names_order(&script, &line.order))
        return refuse("play 4 Order");
    step_number = 0;
    machine->begin(&script, line.has_steps ? &text : NULL);
    if (line.order.is_given) {
        for (uint32_t i = 0; i < line.order.count; i++)
            for (uint32_t k = 0; k < line.order.parts[i].times; k++)
                play_block(machine, (int)line.order.parts[i].number);
    } else {
        play_picks(machine, &line.pick);
        play_rounds(machine, line.rounds);
    }
    write_report(&text, machine->run, machine->is_finished(), line.has_counts, line.has_refusals);
    if (line.has_queues && !machine->is_finished())
        write_queues(machine);
    return 0;
}

static int find_outcomes(void) {
    const struct list *lists = line.lead_count ? line.leads : &line.after;
    uint32_t count = line.lead_count ? line.lead_count : 1;
    for (uint32_t i = 0; i < count; i++)
        if (!leaves_blocks(&script, &lists[i], line.front))
            return refuse("outcomes 3 Order");
    enum found found = FOUND;
    for (uint32_t i = 0; found == FOUND && i < count; i++)
        found = write_outcomes(&text, &script, &line, &lists[i]);
    if (found == OVER_THE_LIMIT)
        return refuse("outcomes 2 Limit");
    return found == FOUND ? 0 : NOT_ANSWERED;
}

static int find_estimate(void) {
    if (!leaves_blocks(&script, &line.after, 0))
        return refuse("outcomes 3 Order");
    write_estimate(&text, &script, &line.after);
    return 0;
}

static bool look_up_all(void) {
    for (uint32_t i = 0; i < line.lead_count; i++)
        if (!look_up(&script, &line.leads[i], false))
            return false;
    return look_up(&script, &line.pick, true) && look_up(&script, &line.order, false) &&
           look_up(&script, &line.after, false);
}

static int answer_to(enum word word) {
    if (!look_up_all())
        return refuse("command line");
    switch (word) {
    case WORD_CHECK:
        return write_counts();
    case WORD_GRAPH:
        return write_graphs();
    case WORD_RULES:
        return play(&PLAIN);
    case WORD_PLAY:
        set_optimised(line.is_dynamic, line.is_static, line.chunk);
        return play(&OPTIMISED);
    case WORD_ESTIMATE:
        return find_estimate();
    default:
        return find_outcomes();
    }
}

int examine(const uint8_t *from, size_t length) {
    return read_script(&script, from, length) && check_script(&script);
}

const struct script *examined(void) {
    return &script;
}

static struct answer answer(enum word word, enum line_kind kind) {
    int status;
    clear_text(&text);
    if (kind == LINE_IS_NOT_KNOWN)
        status = NOT_ANSWERED;
    else if (kind == LINE_IS_REFUSED)
        status = refuse("command line");
    else if (script.fault)
        status = refuse_script();
    else
        status = answer_to(word);
    return (struct answer){text.bytes, text.length, status};
}

struct answer evaluate(enum word word, const uint8_t *from, size_t from_length, const uint8_t *words,
                       size_t words_length) {
    enum line_kind kind = read_line(&line, word, words, words_length);
    examine(from, from_length);
    return answer(word, kind);
}

struct answer evaluate_examined(enum word word, const uint8_t *words, size_t words_length) {
    return answer(word, read_line(&line, word, words, words_length));
}
