/* The optimised machine: lanes with parcels between clients and handlers, chunks of requests, and objects that go to a
   client and come back. */
#include "running.h"

#include <string.h>

enum { LANE_ROOM = 16, EMPTY_CHUNKS = 4 };

enum parcel_kind { WORK, SYNC, HOME, END_OF_BLOCK };

/* Requests that one client sends to one handler together. */
struct chunk {
    int32_t first, last;
    int count;
};

struct parcel {
    enum parcel_kind kind;
    struct chunk chunk;
};

struct lane {
    struct parcel down[LANE_ROOM];
    int first, count, empties;
    bool has_object; /* on its way up */
    /* The client's side: */
    bool holds, has_open;
    struct chunk open;
};

enum act_kind { RESERVE, SEND, GET_OBJECT, TAKE_CHUNK, NO_ACT };

/* What a client does in its next step. */
struct client_side {
    enum act_kind act;
    enum parcel_kind parcel;
    uint8_t object;
    int ended; /* to how many handlers of its block it has sent the end */
};

enum handler_state { FREE, SERVING, HAS_EMPTY_CHUNK, HAS_TO_GIVE, WITHOUT };

static struct run run;
static struct lane lanes[MOST_CLIENTS][MOST_OBJECTS];
static struct client_side sides[MOST_CLIENTS];
static struct {
    enum handler_state state;
    int client;
    int16_t tickets[MOST_TICKETS];
    int first, count;
} handlers[MOST_OBJECTS];
static bool has_test, has_graphs;
static int chunk_size;

void set_optimised(bool is_dynamic, bool is_static, int chunk) {
    has_test = is_dynamic;
    has_graphs = is_static;
    chunk_size = chunk;
}

static void begin(const struct script *script, struct text *told) {
    begin_run(&run, script, told);
    for (int i = 0; i < script->client_count; i++) {
        sides[i].act = blocks_of(script, i) ? RESERVE : NO_ACT;
        for (int k = 0; k < script->object_count; k++) {
            struct lane *lane = &lanes[i][k];
            lane->first = lane->count = 0;
            lane->empties = EMPTY_CHUNKS;
            lane->has_object = lane->holds = lane->has_open = false;
        }
    }
    for (int i = 0; i < script->object_count; i++) {
        handlers[i].state = FREE;
        handlers[i].first = handlers[i].count = 0;
    }
}

static void will(int client, enum act_kind act, uint8_t object) {
    sides[client].act = act;
    sides[client].object = object;
}

static void will_send(int client, uint8_t object, enum parcel_kind parcel) {
    will(client, SEND, object);
    sides[client].parcel = parcel;
}

static void follow(struct goer *goer) {
    goer->at = goer->nodes + goer->at->next;
}

static void put_into_chunk(struct lane *lane, int32_t which) {
    if (lane->open.count++)
        run.events[lane->open.last].next_sent = which;
    else
        lane->open.first = which;
    lane->open.last = which;
}

/* At a call: whether the client can go on at once. */
static bool call(int client, uint8_t object) {
    struct lane *lane = &lanes[client][object];
    if (lane->holds) {
        will_send(client, object, HOME);
        return false;
    }
    if (!lane->has_open) {
        will(client, TAKE_CHUNK, object);
        return false;
    }
    int32_t which = make_event(&run, client);
    show_event(&run, which);
    put_into_chunk(lane, which);
    follow(&run.goers[client]);
    if (lane->open.count == chunk_size)
        will_send(client, object, WORK);
    return lane->open.count < chunk_size;
}

/* At a synchronisation: whether the client can go on at once. */
static bool synchronise(int client, uint8_t object) {
    struct goer *goer = &run.goers[client];
    struct lane *lane = &lanes[client][object];
    bool is_removed = has_graphs && (goer->at->held >> goer->at->named & 1);
    if (is_removed || (has_test && lane->holds)) {
        follow(goer);
        return true;
    }
    will_send(client, object, lane->holds ? HOME : lane->has_open ? WORK : SYNC);
    return false;
}

static void query(int client) {
    struct goer *goer = &run.goers[client];
    int32_t which = make_event(&run, client);
    run_event(&run, which);
    show_event(&run, which);
    goer->variables[goer->at->variable] = run.events[which].reply;
    follow(goer);
}

/* At the exit, where the client tells the handlers of its list one after another. */
static void end_block(int client) {
    const struct client *who = &run.script->clients[client];
    struct ticket *ticket = &run.tickets[run.current[client]];
    if (sides[client].ended < who->list_length[ticket->block]) {
        uint8_t object = who->list[ticket->block][sides[client].ended];
        const struct lane *lane = &lanes[client][object];
        will_send(client, object, lane->holds ? HOME : lane->has_open ? WORK : END_OF_BLOCK);
        return;
    }
    ticket->is_done = true;
    run.goers[client].nodes = NULL;
    will(client, run.goers[client].begun < blocks_of(run.script, client) ? RESERVE : NO_ACT, 0);
}

/* All that the client does to its own values, up to its next act. */
static void go_to_act(int client) {
    struct goer *goer = &run.goers[client];
    for (bool goes_on = true; goes_on;) {
        go_on(goer);
        if (goer->at->kind == EXIT) {
            end_block(client);
            return;
        }
        uint8_t object = run.script->clients[client].object_of[goer->at->named];
        if (goer->at->kind == CALL)
            goes_on = call(client, object);
        else if (goer->at->kind == SYNCHRONISE)
            goes_on = synchronise(client, object);
        else
            query(client);
    }
}

static bool reserve(int client) {
    const struct client *who = &run.script->clients[client];
    int block = run.goers[client].begun;
    int16_t ticket = take_ticket(&run, client);
    for (int i = 0; i < who->list_length[block]; i++) {
        uint8_t object = who->list[block][i];
        handlers[object].tickets[handlers[object].count++] = ticket;
    }
    sides[client].ended = 0;
    tell_reservation(&run, ticket);
    go_to_act(client);
    return true;
}

static void tell_requests(const struct chunk *chunk, bool has_marks) {
    int32_t which = chunk->first;
    for (int i = 0; run.told && i < chunk->count; i++) {
        add_string(run.told, i ? " " : "");
        write_request(run.told, &run, &run.events[which], false, has_marks);
        which = run.events[which].next_sent;
    }
}

static void tell_sending(int client, const struct parcel *parcel) {
    if (parcel->kind == WORK) {
        tell(&run, "sends ");
        tell_requests(&parcel->chunk, false);
    } else if (parcel->kind == END_OF_BLOCK) {
        tell_ticket(&run, "ends ", run.current[client]);
        tell_object(&run, " at ", sides[client].object);
    } else {
        tell_object(&run, parcel->kind == SYNC ? "waits for " : "returns ", sides[client].object);
    }
}

static bool send_parcel(int client) {
    struct client_side *side = &sides[client];
    struct lane *lane = &lanes[client][side->object];
    if (lane->count == LANE_ROOM)
        return false;
    struct parcel *parcel = &lane->down[(lane->first + lane->count++) % LANE_ROOM];
    parcel->kind = side->parcel;
    parcel->chunk = lane->open;
    tell_sending(client, parcel);
    if (side->parcel == WORK) {
        lane->has_open = false;
    } else if (side->parcel == HOME) {
        lane->holds = false;
    } else if (side->parcel == SYNC) {
        run.syncs++;
        run.tickets[run.current[client]].syncs[side->object]++;
        side->act = GET_OBJECT;
        return true;
    } else {
        side->ended++;
    }
    go_to_act(client);
    return true;
}

static bool get_object(int client) {
    struct lane *lane = &lanes[client][sides[client].object];
    if (!lane->has_object)
        return false;
    lane->has_object = false;
    lane->holds = true;
    tell_object(&run, "gets ", sides[client].object);
    follow(&run.goers[client]);
    go_to_act(client);
    return true;
}

static bool take_chunk(int client) {
    struct lane *lane = &lanes[client][sides[client].object];
    if (!lane->empties)
        return false;
    tell_object(&run, "takes an empty chunk of ", sides[client].object);
    lane->empties--;
    lane->has_open = true;
    lane->open.count = 0;
    go_to_act(client);
    return true;
}

static bool step_client(int client) {
    switch (sides[client].act) {
    case RESERVE:
        return reserve(client);
    case SEND:
        return send_parcel(client);
    case GET_OBJECT:
        return get_object(client);
    case TAKE_CHUNK:
        return take_chunk(client);
    default:
        return false;
    }
}

static void run_chunk(const struct chunk *chunk) {
    int32_t which = chunk->first;
    for (int i = 0; i < chunk->count; i++) {
        run_event(&run, which);
        which = run.events[which].next_sent;
    }
}

static bool take_ticket_of(int handler) {
    if (handlers[handler].first == handlers[handler].count)
        return false;
    int16_t ticket = handlers[handler].tickets[handlers[handler].first++];
    handlers[handler].client = run.tickets[ticket].client;
    handlers[handler].state = SERVING;
    tell_ticket(&run, "serves ", ticket);
    return true;
}

static void tell_taking(int handler, const struct parcel *parcel) {
    int ticket = handlers[handler].tickets[handlers[handler].first - 1];
    if (parcel->kind == WORK) {
        tell(&run, "runs ");
        tell_requests(&parcel->chunk, true);
        tell_ticket(&run, " of ", ticket);
    } else if (parcel->kind == SYNC) {
        tell_client(&run, "sees that ", handlers[handler].client);
        tell(&run, " waits");
    } else if (parcel->kind == HOME) {
        tell_client(&run, "comes back from ", handlers[handler].client);
    } else {
        tell_ticket(&run, "leaves ", ticket);
    }
}

static bool take_parcel(int handler) {
    struct lane *lane = &lanes[handlers[handler].client][handler];
    if (!lane->count)
        return false;
    const struct parcel *parcel = &lane->down[lane->first];
    lane->first = (lane->first + 1) % LANE_ROOM;
    lane->count--;
    if (parcel->kind == WORK)
        run_chunk(&parcel->chunk);
    tell_taking(handler, parcel);
    handlers[handler].state = parcel->kind == WORK   ? HAS_EMPTY_CHUNK
                              : parcel->kind == SYNC ? HAS_TO_GIVE
                              : parcel->kind == HOME ? SERVING
                                                     : FREE;
    return true;
}

static bool step_handler(int handler) {
    struct lane *lane = &lanes[handlers[handler].client][handler];
    switch (handlers[handler].state) {
    case FREE:
        return take_ticket_of(handler);
    case HAS_EMPTY_CHUNK:
        if (lane->empties == EMPTY_CHUNKS)
            return false;
        lane->empties++;
        tell_client(&run, "gives an empty chunk to ", handlers[handler].client);
        handlers[handler].state = SERVING;
        return true;
    case HAS_TO_GIVE:
        if (lane->has_object)
            return false;
        lane->has_object = true;
        tell_client(&run, "gives itself to ", handlers[handler].client);
        handlers[handler].state = WITHOUT;
        return true;
    default:
        return take_parcel(handler);
    }
}

static bool is_finished(void) {
    for (int i = 0; i < run.script->client_count; i++) {
        if (sides[i].act != NO_ACT)
            return false;
        for (int k = 0; k < run.script->object_count; k++)
            if (lanes[i][k].count)
                return false;
    }
    for (int i = 0; i < run.script->object_count; i++)
        if (handlers[i].state != FREE || handlers[i].first < handlers[i].count)
            return false;
    return true;
}

static void write_parcel(struct text *text, const struct parcel *parcel) {
    static const char *const WORDS[] = {" [", " sync", " home", " end"};
    int32_t which = parcel->chunk.first;
    add_string(text, WORDS[parcel->kind]);
    for (int i = 0; parcel->kind == WORK && i < parcel->chunk.count; i++) {
        add_string(text, i ? " " : "");
        write_request(text, &run, &run.events[which], false, false);
        which = run.events[which].next_sent;
    }
    add_string(text, parcel->kind == WORK ? "]" : "");
}

static void write_queue(struct text *text, int handler) {
    int first = handlers[handler].first - (handlers[handler].state != FREE);
    add_number(text, handlers[handler].count - first);
    add_string(text, "\n");
    for (int i = first; i < handlers[handler].count; i++) {
        write_ticket_name(text, &run, handlers[handler].tickets[i]);
        add_string(text, "\n");
    }
    for (int i = 0; i < run.script->client_count; i++) {
        const struct lane *lane = &lanes[i][handler];
        if (!lane->count)
            continue;
        add_string(text, "lane ");
        write_name(text, run.script, run.script->clients[i].name);
        for (int k = 0; k < lane->count; k++)
            write_parcel(text, &lane->down[(lane->first + k) % LANE_ROOM]);
        add_string(text, "\n");
    }
}

static void write_wait(struct text *text, int client) {
    const struct client_side *side = &sides[client];
    const struct lane *lane = &lanes[client][side->object];
    const char *words = side->act == NO_ACT                             ? "is done"
                        : side->act == GET_OBJECT && !lane->has_object  ? "waits for "
                        : side->act == TAKE_CHUNK && !lane->empties     ? "waits for an empty chunk of "
                        : side->act == SEND && lane->count == LANE_ROOM ? "waits for room to "
                                                                        : "waits for nothing";
    add_string(text, words);
    if (words[strlen(words) - 1] == ' ')
        write_name(text, run.script, run.script->objects[side->object].name);
}

const struct machine OPTIMISED = {begin, step_client, step_handler, is_finished, write_queue, write_wait, &run};
