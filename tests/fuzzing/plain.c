/* The plain rules: private queues, and a step for each client and each handler. */
#include "running.h"

/* What one block has sent to one handler, first in first out. */
struct private_queue {
    int32_t first, last;
    bool has_end;
};

static struct run run;
static struct private_queue queues[MOST_OBJECTS][MOST_TICKETS];
static struct {
    int16_t tickets[MOST_TICKETS]; /* the reservations that the handler has had */
    int first, count;              /* those before it are served */
} handlers[MOST_OBJECTS];
static bool waits[MOST_CLIENTS];

static void begin(const struct script *script, struct text *told) {
    begin_run(&run, script, told);
    for (int i = 0; i < MOST_OBJECTS; i++)
        handlers[i].first = handlers[i].count = 0;
    for (int i = 0; i < MOST_CLIENTS; i++)
        waits[i] = false;
}

static bool reserve(int client) {
    int block = run.goers[client].begun;
    if (block == blocks_of(run.script, client))
        return false;
    const struct client *who = &run.script->clients[client];
    int16_t ticket = take_ticket(&run, client);
    for (int i = 0; i < who->list_length[block]; i++) {
        uint8_t object = who->list[block][i];
        handlers[object].tickets[handlers[object].count++] = ticket;
        queues[object][ticket] = (struct private_queue){NOTHING, NOTHING, false};
    }
    tell_reservation(&run, ticket);
    return true;
}

static void end_block(int client) {
    struct ticket *ticket = &run.tickets[run.current[client]];
    const struct client *who = &run.script->clients[client];
    for (int i = 0; i < who->list_length[ticket->block]; i++)
        queues[who->list[ticket->block][i]][run.current[client]].has_end = true;
    ticket->is_done = true;
    run.goers[client].nodes = NULL;
    tell_ticket(&run, "ends ", run.current[client]);
}

static void log_request(int client) {
    int32_t which = make_event(&run, client);
    const struct event *event = &run.events[which];
    struct private_queue *queue = &queues[event->object][event->ticket];
    if (queue->first == NOTHING)
        queue->first = which;
    else
        run.events[queue->last].next_sent = which;
    queue->last = which;
    tell(&run, OPERATIONS[event->operation].is_query ? "asks " : "logs ");
    if (run.told)
        write_request(run.told, &run, event, false, false);
    if (OPERATIONS[event->operation].is_query) {
        waits[client] = true;
        run.syncs++;
        run.tickets[event->ticket].syncs[event->object]++;
    } else {
        show_event(&run, which);
        run.goers[client].at = run.goers[client].nodes + run.goers[client].at->next;
    }
}

static bool step_client(int client) {
    struct goer *goer = &run.goers[client];
    if (waits[client])
        return false;
    if (!goer->nodes)
        return reserve(client);
    go_on(goer);
    while (goer->at->kind == SYNCHRONISE) {
        goer->at = goer->nodes + goer->at->next;
        go_on(goer);
    }
    if (goer->at->kind == EXIT)
        end_block(client);
    else
        log_request(client);
    return true;
}

/* The reply of a query comes to its client. */
static void reply_to(int client, int32_t which) {
    struct goer *goer = &run.goers[client];
    show_event(&run, which);
    goer->variables[goer->at->variable] = run.events[which].reply;
    goer->at = goer->nodes + goer->at->next;
    waits[client] = false;
}

static bool step_handler(int handler) {
    if (handlers[handler].first == handlers[handler].count)
        return false;
    int16_t ticket = handlers[handler].tickets[handlers[handler].first];
    struct private_queue *queue = &queues[handler][ticket];
    if (queue->first == NOTHING) {
        if (queue->has_end)
            tell_ticket(&run, "leaves ", ticket);
        handlers[handler].first += queue->has_end;
        return queue->has_end;
    }
    int32_t which = queue->first;
    bool is_query = OPERATIONS[run.events[which].operation].is_query;
    queue->first = run.events[which].next_sent;
    run_event(&run, which);
    tell(&run, is_query ? "answers " : "runs ");
    if (run.told)
        write_request(run.told, &run, &run.events[which], true, true);
    tell_ticket(&run, " of ", ticket);
    if (is_query)
        reply_to(run.tickets[ticket].client, which);
    return true;
}

static bool is_finished(void) {
    for (int i = 0; i < run.script->client_count; i++)
        if (run.goers[i].nodes || run.goers[i].begun < blocks_of(run.script, i))
            return false;
    for (int i = 0; i < run.script->object_count; i++)
        if (handlers[i].first < handlers[i].count)
            return false;
    return true;
}

static void write_queue(struct text *text, int handler) {
    add_number(text, handlers[handler].count - handlers[handler].first);
    add_string(text, "\n");
    for (int i = handlers[handler].first; i < handlers[handler].count; i++) {
        const struct private_queue *queue = &queues[handler][handlers[handler].tickets[i]];
        write_ticket_name(text, &run, handlers[handler].tickets[i]);
        for (int32_t which = queue->first; which != NOTHING; which = run.events[which].next_sent) {
            add_string(text, " ");
            write_request(text, &run, &run.events[which], false, false);
        }
        add_string(text, queue->has_end ? " end\n" : queue->first == NOTHING ? " -\n" : "\n");
    }
}

static void write_wait(struct text *text, int client) {
    bool has_left = run.goers[client].nodes || run.goers[client].begun < blocks_of(run.script, client);
    add_string(text, !has_left ? "is done" : waits[client] ? "waits for a reply" : "waits for nothing");
}

const struct machine PLAIN = {begin, step_client, step_handler, is_finished, write_queue, write_wait, &run};
