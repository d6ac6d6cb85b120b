/* What all runs have in common: tickets, events, and the report of both. */
#include "running.h"

#include <string.h>

void begin_run(struct run *run, const struct script *script, struct text *told) {
    run->script = script;
    run->told = told;
    run->ticket_count = run->event_count = 0;
    run->syncs = 0;
    for (int i = 0; i < script->object_count; i++)
        make_object(&run->objects[i], &script->objects[i]);
    memset(run->goers, 0, (size_t)script->client_count * sizeof *run->goers);
}

int16_t take_ticket(struct run *run, int client) {
    struct ticket *ticket = &run->tickets[run->ticket_count];
    *ticket = (struct ticket){.client = (uint8_t)client, .block = (uint8_t)run->goers[client].begun};
    ticket->first = ticket->last = NOTHING;
    begin_block(run->script, client, &run->goers[client]);
    run->current[client] = (int16_t)run->ticket_count;
    return (int16_t)run->ticket_count++;
}

int32_t make_event(struct run *run, int client) {
    const struct goer *goer = &run->goers[client];
    const struct node *node = goer->at;
    struct event *event = &run->events[run->event_count];
    event->object = run->script->clients[client].object_of[node->named];
    event->operation = node->act;
    event->effect = NOT_RUN;
    event->ticket = run->current[client];
    event->next_shown = event->next_sent = NOTHING;
    for (int i = 0; i < node->atom_count; i++)
        event->arguments[i] = value_of(goer, &node->atoms[i]);
    return run->event_count++;
}

void show_event(struct run *run, int32_t which) {
    struct ticket *ticket = &run->tickets[run->events[which].ticket];
    if (ticket->first == NOTHING)
        ticket->first = which;
    else
        run->events[ticket->last].next_shown = which;
    ticket->last = which;
}

void run_event(struct run *run, int32_t which) {
    struct event *event = &run->events[which];
    event->effect =
        (uint8_t)run_operation(&run->objects[event->object], event->operation, event->arguments, &event->reply);
}

void write_name(struct text *text, const struct script *script, uint32_t token) {
    add_bytes(text, token_text(script, token), script->tokens[token].length);
}

static void write_values(struct text *text, const struct object *object) {
    bool is_buffer = object->kind == BUFFER;
    int count = is_buffer ? object->count : object->rows * object->columns;
    add_string(text, " [");
    for (int i = 0; i < count; i++) {
        if (i)
            add_string(text, " ");
        add_number(text, object->values[is_buffer ? (object->first + i) % object->columns : i]);
    }
    add_string(text, "]");
}

void write_objects(struct text *text, const struct script *script, const struct object *objects) {
    for (int i = 0; i < script->object_count; i++) {
        const struct object *object = &objects[i];
        write_name(text, script, script->objects[i].name);
        add_string(text, object->kind == ACCOUNT ? " account " : object->kind == BUFFER ? " buffer " : " grid ");
        add_number(text, object->kind == ACCOUNT  ? object->balance
                         : object->kind == BUFFER ? object->columns
                                                  : object->rows);
        if (object->kind == GRID) {
            add_string(text, " ");
            add_number(text, object->columns);
        }
        if (object->kind != ACCOUNT)
            write_values(text, object);
        add_string(text, " refused ");
        add_number(text, object->refused);
        add_string(text, "\n");
    }
}

void write_request(struct text *text, const struct run *run, const struct event *event, bool has_reply, bool has_mark) {
    const struct operation *operation = &OPERATIONS[event->operation];
    write_name(text, run->script, run->script->objects[event->object].name);
    add_string(text, ".");
    add_string(text, operation->word);
    add_string(text, "(");
    for (int i = 0; i < operation->arguments; i++) {
        if (i)
            add_string(text, ",");
        add_number(text, event->arguments[i]);
    }
    add_string(text, ")");
    if (has_reply && operation->is_query) {
        add_string(text, " = ");
        add_number(text, event->reply);
    }
    if (has_mark && event->effect >= WAS_REFUSED)
        add_string(text, event->effect == WAS_REFUSED ? " refused" : " none");
}

void write_ticket_name(struct text *text, const struct run *run, int which) {
    const struct ticket *ticket = &run->tickets[which];
    add_string(text, "ticket ");
    write_name(text, run->script, run->script->clients[ticket->client].name);
    add_string(text, " ");
    add_number(text, ticket->block);
}

void tell(struct run *run, const char *words) {
    if (run->told)
        add_string(run->told, words);
}

void tell_object(struct run *run, const char *words, int object) {
    tell(run, words);
    if (run->told)
        write_name(run->told, run->script, run->script->objects[object].name);
}

void tell_client(struct run *run, const char *words, int client) {
    tell(run, words);
    if (run->told)
        write_name(run->told, run->script, run->script->clients[client].name);
}

void tell_ticket(struct run *run, const char *words, int ticket) {
    tell(run, words);
    if (run->told)
        write_ticket_name(run->told, run, ticket);
}

void tell_reservation(struct run *run, int which) {
    const struct ticket *ticket = &run->tickets[which];
    const struct client *client = &run->script->clients[ticket->client];
    tell(run, "reserves");
    for (int i = 0; i < client->list_length[ticket->block]; i++)
        tell_object(run, " ", client->list[ticket->block][i]);
    tell_ticket(run, " (", which);
    tell(run, ")");
}

static void write_ticket(struct text *text, const struct run *run, const struct ticket *ticket, bool has_counts,
                         bool has_refusals) {
    const struct script *script = run->script;
    const struct client *client = &script->clients[ticket->client];
    write_ticket_name(text, run, (int)(ticket - run->tickets));
    add_string(text, ticket->is_done ? " done\n" : " open\n");
    for (int32_t which = ticket->first; which != NOTHING; which = run->events[which].next_shown) {
        write_request(text, run, &run->events[which], true, has_refusals);
        add_string(text, "\n");
    }
    for (int i = 0; has_counts && i < client->list_length[ticket->block]; i++) {
        uint8_t object = client->list[ticket->block][i];
        add_string(text, "sync ");
        write_name(text, script, script->objects[object].name);
        add_string(text, " ");
        add_number(text, ticket->syncs[object]);
        add_string(text, "\n");
    }
}

void write_report(struct text *text, const struct run *run, bool is_finished, bool has_counts, bool has_refusals) {
    add_string(text, "order ");
    add_number(text, run->ticket_count);
    add_string(text, "\n");
    for (int i = 0; i < run->ticket_count; i++)
        write_ticket(text, run, &run->tickets[i], has_counts, has_refusals);
    add_string(text, "states\n");
    write_objects(text, run->script, run->objects);
    add_string(text, "syncs ");
    add_number(text, run->syncs);
    add_string(text, is_finished ? "\nfinished\n" : "\nunfinished\n");
}
