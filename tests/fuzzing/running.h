/* What runs: objects, clients with their variables, and what a report shows of a run. */
#ifndef RUNNING_H
#define RUNNING_H

#include "script.h"
#include "text.h"

struct object {
    uint8_t kind;
    int64_t refused, balance;
    int rows, columns; /* a buffer's capacity is in its columns */
    int first, count;  /* of a buffer's values */
    int64_t values[1024];
};

enum effect { NOT_RUN, DONE, WAS_REFUSED, NOTHING_THERE };

void make_object(struct object *object, const struct declared *declared);

/* Runs an operation, by its place in OPERATIONS; what a query answers goes to `reply`. */
enum effect run_operation(struct object *object, int operation, const int64_t *arguments, int64_t *reply);

/* A client's own values. Between two blocks `nodes` is null. */
struct goer {
    const struct node *nodes, *at;
    int begun; /* how many blocks it has begun */
    int64_t variables[MOST_VARIABLES];
    uint16_t counts[MOST_NESTING + 1];
};

int64_t value_of(const struct goer *goer, const struct atom *atom);

/* A client begins its next block, of which it is at the entry. */
void begin_block(const struct script *script, int client, struct goer *goer);

/* Goes on to the next synchronisation, query, call or exit. */
void go_on(struct goer *goer);

int blocks_of(const struct script *script, int client);

/* One request of a run. */
struct event {
    uint8_t object, operation, effect;
    int16_t ticket;
    int64_t arguments[MOST_ARGUMENTS], reply;
    int32_t next_shown, next_sent; /* in the trace of the ticket, and in a private queue or a chunk */
};

struct ticket {
    uint8_t client, block;
    bool is_done;
    uint32_t syncs[MOST_OBJECTS];
    int32_t first, last; /* events of its trace */
};

struct run {
    const struct script *script;
    struct object objects[MOST_OBJECTS];
    struct goer goers[MOST_CLIENTS];
    int16_t current[MOST_CLIENTS]; /* the ticket of the block that a client is in */
    struct ticket tickets[MOST_TICKETS];
    int ticket_count;
    struct event events[MOST_LOAD];
    int32_t event_count;
    uint32_t syncs;
    struct text *told; /* where steps say what they do, or null */
};

void begin_run(struct run *run, const struct script *script, struct text *told);

/* A client reserves: it has a ticket, and is at the entry of its next block. */
int16_t take_ticket(struct run *run, int client);

/* The request at the node that a client is at, with the values that its arguments have now. */
int32_t make_event(struct run *run, int client);

/* An event enters the trace of its ticket. */
void show_event(struct run *run, int32_t event);

/* An event's operation runs. */
void run_event(struct run *run, int32_t event);

/* A step says what it does: words, and what they speak of. */
void tell(struct run *run, const char *words);
void tell_object(struct run *run, const char *words, int object);
void tell_client(struct run *run, const char *words, int client);
void tell_ticket(struct run *run, const char *words, int ticket);
void tell_reservation(struct run *run, int ticket);

/* A request, with the reply of a query and with the mark of what was refused where these are wanted. */
void write_request(struct text *text, const struct run *run, const struct event *event, bool has_reply, bool has_mark);

void write_name(struct text *text, const struct script *script, uint32_t token);

/* The words `ticket CLIENT K`. */
void write_ticket_name(struct text *text, const struct run *run, int ticket);

/* The lines of the objects' states, as reports and outcomes have them. */
void write_objects(struct text *text, const struct script *script, const struct object *objects);

void write_report(struct text *text, const struct run *run, bool is_finished, bool has_counts, bool has_refusals);

/* The two machines. Each has a step for each actor, which answers whether anything was done. */
struct machine {
    void (*begin)(const struct script *script, struct text *told);
    bool (*step_client)(int client);
    bool (*step_handler)(int handler);
    bool (*is_finished)(void);
    void (*write_queue)(struct text *text, int handler); /* what lies before a handler */
    void (*write_wait)(struct text *text, int client);   /* what a client waits for */
    struct run *run;
};

extern const struct machine PLAIN, OPTIMISED;

/* How the optimised machine is set before it begins. */
void set_optimised(bool is_dynamic, bool is_static, int chunk);

#endif
