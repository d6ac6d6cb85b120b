/* The control-flow graph of each block, and the objects or formals that are held at each of its nodes. */
#include "script.h"

#include <string.h>

/* What is known around a list of statements whose nodes are made. */
struct around {
    struct script *script;
    struct node *nodes; /* of the block */
    uint32_t leave_to;  /* where `leave` leads */
    uint8_t loops;      /* how many loops are around */
};

static void make_statements(struct around around, int32_t first, uint32_t at, uint32_t after);

static struct node *make_node(struct around around, uint32_t at, enum node_kind kind, const struct statement *from) {
    struct node *node = &around.nodes[at];
    node->kind = (uint8_t)kind;
    node->named = from->named;
    node->act = from->act;
    node->sign = from->sign;
    node->variable = from->variable;
    node->depth = around.loops;
    node->atom_count = (uint8_t)from->atom_count;
    memcpy(node->atoms, around.script->atoms + from->first_atom, from->atom_count * sizeof *node->atoms);
    return node;
}

static void make_if(struct around around, const struct statement *from, uint32_t at, uint32_t next) {
    uint32_t first_nodes = 0;
    for (int32_t it = from->first; it != NOTHING; it = around.script->statements[it].next)
        first_nodes += around.script->statements[it].nodes;
    struct node *branch = make_node(around, at, CHOOSE, from);
    branch->next = from->first == NOTHING ? next : at + 1;
    branch->other = from->second == NOTHING ? next : at + 1 + first_nodes;
    make_statements(around, from->first, at + 1, next);
    make_statements(around, from->second, at + 1 + first_nodes, next);
}

static void make_repeat(struct around around, const struct statement *from, uint32_t at, uint32_t next) {
    struct node *set = make_node(around, at, SET_COUNT, from), *again = make_node(around, at + 1, AGAIN, from);
    set->turns = (uint16_t)number_at(around.script, from->turns);
    set->next = at + 1;
    again->next = from->first == NOTHING ? at + 1 : at + 2;
    again->other = next;
    around.leave_to = next;
    around.loops++;
    make_statements(around, from->first, at + 2, at + 1);
}

static void make_statement(struct around around, const struct statement *from, uint32_t at, uint32_t next) {
    switch (from->kind) {
    case COMMAND_STATEMENT:
        make_node(around, at, CALL, from)->next = next;
        break;
    case QUERY_STATEMENT:
        make_node(around, at, SYNCHRONISE, from)->next = at + 1;
        make_node(around, at + 1, ASK, from)->next = next;
        break;
    case ASSIGNMENT:
        make_node(around, at, ASSIGN, from)->next = next;
        break;
    case IF_STATEMENT:
        make_if(around, from, at, next);
        break;
    case REPEAT_STATEMENT:
        make_repeat(around, from, at, next);
        break;
    default:
        make_node(around, at, LEAVE_LOOP, from)->next = around.leave_to;
    }
}

/* Makes the nodes of a list of statements from a place on; after the list comes the node `after`. */
static void make_statements(struct around around, int32_t first, uint32_t at, uint32_t after) {
    for (int32_t which = first; which != NOTHING;) {
        const struct statement *it = &around.script->statements[which];
        make_statement(around, it, at, it->next == NOTHING ? after : at + it->nodes);
        at += it->nodes;
        which = it->next;
    }
}

/* What is held after a node: a call takes its own name away, and in a template all names of its kind. */
static uint8_t held_after(const struct body *body, const struct node *node) {
    uint8_t held = node->held;
    if (node->kind == SYNCHRONISE)
        held |= (uint8_t)(1u << node->named);
    for (int i = 0; node->kind == CALL && i < body->named_count; i++)
        if (i == node->named || (body->is_template && body->named[i].kind == body->named[node->named].kind))
            held &= (uint8_t) ~(1u << i);
    return held;
}

/* Takes away at a node what is not held on a path to it; whether that changed anything. */
static bool meet_path(struct node *node, uint8_t held, uint8_t *is_reached) {
    bool is_new = !*is_reached || (node->held & ~held);
    node->held &= held;
    *is_reached = 1;
    return is_new;
}

/* Finds what is held at each node: all at first, and less by each path, until no path takes anything away. */
static void find_held(const struct body *body, struct node *nodes, uint32_t count) {
    static uint8_t is_reached[MOST_BYTES];
    memset(is_reached, 0, count);
    for (uint32_t i = 0; i < count; i++)
        nodes[i].held = 0xff;
    nodes[0].held = 0;
    is_reached[0] = 1;
    for (bool is_new = true; is_new;) {
        is_new = false;
        for (uint32_t i = 0; i + 1 < count; i++) {
            if (!is_reached[i])
                continue;
            uint8_t held = held_after(body, &nodes[i]);
            is_new |= meet_path(&nodes[nodes[i].next], held, &is_reached[nodes[i].next]);
            if (nodes[i].kind == CHOOSE || nodes[i].kind == AGAIN)
                is_new |= meet_path(&nodes[nodes[i].other], held, &is_reached[nodes[i].other]);
        }
    }
}

static void make_graph(struct script *script, struct body *body, int which) {
    static const struct statement none;
    const struct block *block = &script->blocks[body->blocks[which]];
    uint32_t count = block->nodes + 2;
    struct node *nodes = script->nodes + script->node_count;
    struct around around = {.script = script, .nodes = nodes};
    body->graphs[which] = script->node_count;
    body->lengths[which] = count;
    script->node_count += count;
    make_node(around, 0, ENTRY, &none)->next = 1;
    make_node(around, count - 1, EXIT, &none);
    make_statements(around, block->body, 1, count - 1);
    find_held(body, nodes, count);
}

void make_graphs(struct script *script) {
    script->node_count = 0;
    for (int i = 0; i < script->body_count; i++)
        for (int k = 0; k < script->bodies[i].block_count; k++)
            make_graph(script, &script->bodies[i], k);
}
