/* Checking: the items are walked once in text order, and the first fault is answered; then come the load and the
 * weight. */
#include "script.h"

#include <string.h>

/* Loads and weights stop growing here, far above what is allowed. */
#define ENOUGH UINT64_C(1000000000000)

const struct operation OPERATIONS[OPERATION_COUNT] = {{"deposit", ACCOUNT, DEPOSIT, false, 1},
                                                      {"withdraw", ACCOUNT, WITHDRAW, false, 1},
                                                      {"balance", ACCOUNT, BALANCE, true, 0},
                                                      {"refused", ACCOUNT, REFUSED, true, 0},
                                                      {"put", BUFFER, PUT, false, 1},
                                                      {"drop", BUFFER, DROP, false, 0},
                                                      {"take", BUFFER, TAKE, true, 0},
                                                      {"front", BUFFER, FRONT, true, 0},
                                                      {"size", BUFFER, SIZE, true, 0},
                                                      {"refused", BUFFER, REFUSED, true, 0},
                                                      {"set", GRID, SET, false, 3},
                                                      {"add", GRID, ADD, false, 3},
                                                      {"fill", GRID, FILL, false, 1},
                                                      {"get", GRID, GET, true, 2},
                                                      {"row", GRID, ROW, true, 1},
                                                      {"refused", GRID, REFUSED, true, 0}};

static bool fail(struct script *script, enum fault fault) {
    script->fault = fault;
    return false;
}

/* Which of the declared has a name, or NOTHING. */
static int which_of(const struct script *script, const struct declared *declared, int count, uint32_t name) {
    for (int i = 0; i < count; i++)
        if (is_same(script, declared[i].name, name))
            return i;
    return NOTHING;
}

static bool is_in_range(uint8_t kind, int64_t number) {
    if (kind == ACCOUNT)
        return number <= INT64_C(1000000000000000);
    return number >= 1 && number <= (kind == BUFFER ? 1024 : 16);
}

static bool check_object(struct script *script, const struct item *item) {
    if (which_of(script, script->objects, script->object_count, item->name) != NOTHING)
        return fail(script, CHECK_TWICE);
    if (script->object_count == MOST_OBJECTS)
        return fail(script, CHECK_LIMIT);
    struct declared *object = &script->objects[script->object_count++];
    object->name = item->name;
    object->kind = script->tokens[item->numbers - 1].kind;
    for (uint32_t i = 0; i < item->number_count; i++) {
        object->numbers[i] = number_at(script, item->numbers + i);
        if (!is_in_range(object->kind, object->numbers[i]))
            return fail(script, CHECK_RANGE);
    }
    return true;
}

/* A variable is met; says which it is. */
static bool meet(struct script *script, struct body *body, uint32_t token, int64_t *which) {
    for (int i = 0; i < body->variable_count; i++)
        if (is_same(script, body->variables[i], token)) {
            *which = i;
            return true;
        }
    if (body->variable_count == MOST_VARIABLES)
        return fail(script, CHECK_LIMIT);
    *which = body->variable_count;
    body->variables[body->variable_count++] = token;
    return true;
}

static bool meet_target(struct script *script, struct body *body, struct statement *statement) {
    int64_t which;
    if (!meet(script, body, statement->target, &which))
        return false;
    statement->variable = (uint8_t)which;
    return true;
}

static bool check_atoms(struct script *script, struct body *body, const struct statement *statement) {
    struct atom *atoms = script->atoms + statement->first_atom;
    for (uint32_t i = 0; i < statement->atom_count; i++)
        if (atoms[i].is_variable && !meet(script, body, atoms[i].token, &atoms[i].value))
            return false;
    return true;
}

/* Which operation of a kind a token names, as a command or as a query, or NOTHING. */
static int operation_of(const struct script *script, uint8_t kind, uint32_t token, bool is_query) {
    for (int i = 0; i < OPERATION_COUNT; i++) {
        const struct operation *it = &OPERATIONS[i];
        if (it->kind == kind && it->is_query == is_query && strlen(it->word) == script->tokens[token].length &&
            !memcmp(it->word, token_text(script, token), script->tokens[token].length))
            return i;
    }
    return NOTHING;
}

static bool check_request(struct script *script, struct body *body, const struct block *block,
                          struct statement *statement) {
    bool is_query = statement->kind == QUERY_STATEMENT;
    if (is_query && !meet_target(script, body, statement))
        return false;
    int named = which_of(script, body->named, body->named_count, statement->object);
    if (named == NOTHING)
        return fail(script, CHECK_UNKNOWN_OBJECT);
    if (!memchr(block->list, named, block->name_count))
        return fail(script, CHECK_NOT_RESERVED);
    int operation = operation_of(script, body->named[named].kind, statement->operation, is_query);
    if (operation == NOTHING)
        return fail(script, CHECK_UNKNOWN_OPERATION);
    if (statement->atom_count != OPERATIONS[operation].arguments)
        return fail(script, CHECK_ARITY);
    statement->named = (uint8_t)named;
    statement->act = (uint8_t)operation;
    return check_atoms(script, body, statement);
}

static bool check_statements(struct script *script, struct body *body, const struct block *block, int32_t first,
                             bool is_in_loop) {
    for (int32_t which = first; which != NOTHING; which = script->statements[which].next) {
        struct statement *it = &script->statements[which];
        if (it->kind == COMMAND_STATEMENT || it->kind == QUERY_STATEMENT) {
            if (!check_request(script, body, block, it))
                return false;
            continue;
        }
        if (it->kind == ASSIGNMENT && !meet_target(script, body, it))
            return false;
        if (it->kind == LEAVE_STATEMENT && !is_in_loop)
            return fail(script, CHECK_LEAVE_OUTSIDE);
        if (it->kind == REPEAT_STATEMENT && number_at(script, it->turns) > MOST_TURNS)
            return fail(script, CHECK_RANGE);
        bool is_loop = is_in_loop || it->kind == REPEAT_STATEMENT;
        if (!check_atoms(script, body, it) || !check_statements(script, body, block, it->first, is_loop) ||
            !check_statements(script, body, block, it->second, is_loop))
            return false;
    }
    return true;
}

static bool check_list(struct script *script, const struct body *body, struct block *block) {
    for (uint32_t i = 0; i < block->name_count; i++) {
        int named = which_of(script, body->named, body->named_count, block->names + i);
        if (named == NOTHING)
            return fail(script, CHECK_UNKNOWN_OBJECT);
        if (memchr(block->list, named, i))
            return fail(script, CHECK_RESERVED_TWICE);
        block->list[i] = (uint8_t)named;
    }
    return true;
}

static bool check_blocks(struct script *script, struct body *body, int32_t first) {
    body->first_block = first;
    body->block_count = body->variable_count = 0;
    for (int32_t which = first; which != NOTHING; which = script->blocks[which].next) {
        struct block *block = &script->blocks[which];
        if (body->block_count == MOST_BLOCKS)
            return fail(script, CHECK_LIMIT);
        body->blocks[body->block_count++] = which;
        if (!check_list(script, body, block) || !check_statements(script, body, block, block->body, false))
            return false;
    }
    return true;
}

/* Looks at a client's name, and makes room for the client. */
static bool check_client_name(struct script *script, const struct item *item) {
    for (int i = 0; i < script->client_count; i++)
        if (is_same(script, script->clients[i].name, item->name))
            return fail(script, CHECK_TWICE);
    if (script->client_count == MOST_CLIENTS)
        return fail(script, CHECK_LIMIT);
    script->clients[script->client_count++].name = item->name;
    return true;
}

static bool check_client(struct script *script, const struct item *item) {
    if (!check_client_name(script, item))
        return false;
    struct client *client = &script->clients[script->client_count - 1];
    struct body *body = &script->bodies[script->body_count];
    client->body = (uint8_t)script->body_count++;
    body->is_template = false;
    body->name = item->name;
    body->named_count = script->object_count;
    memcpy(body->named, script->objects, sizeof body->named);
    for (int i = 0; i < MOST_OBJECTS; i++)
        client->object_of[i] = (uint8_t)i;
    return check_blocks(script, body, item->blocks);
}

static int template_of(const struct script *script, uint32_t name) {
    for (int i = 0; i < script->template_count; i++)
        if (is_same(script, script->bodies[script->templates[i]].name, name))
            return script->templates[i];
    return NOTHING;
}

static bool check_started(struct script *script, const struct item *item) {
    if (!check_client_name(script, item))
        return false;
    struct client *client = &script->clients[script->client_count - 1];
    int which = template_of(script, item->of);
    if (which == NOTHING)
        return fail(script, CHECK_UNKNOWN_TEMPLATE);
    const struct body *body = &script->bodies[which];
    if ((int)item->part_count != body->named_count)
        return fail(script, CHECK_COUNT);
    client->body = (uint8_t)which;
    for (uint32_t i = 0; i < item->part_count; i++) {
        int object = which_of(script, script->objects, script->object_count, item->parts + 2 * i);
        if (object == NOTHING)
            return fail(script, CHECK_UNKNOWN_OBJECT);
        if (script->objects[object].kind != body->named[i].kind)
            return fail(script, CHECK_OTHER_KIND);
        client->object_of[i] = (uint8_t)object;
    }
    return true;
}

static bool check_template(struct script *script, const struct item *item) {
    if (template_of(script, item->name) != NOTHING)
        return fail(script, CHECK_TWICE);
    if (script->template_count == MOST_TEMPLATES)
        return fail(script, CHECK_LIMIT);
    struct body *body = &script->bodies[script->body_count];
    script->templates[script->template_count++] = (uint8_t)script->body_count++;
    body->is_template = true;
    body->name = item->name;
    body->named_count = 0;
    for (uint32_t i = 0; i < item->part_count; i++) {
        uint32_t name = item->parts + 3 * i + 1;
        if (which_of(script, body->named, body->named_count, name) != NOTHING)
            return fail(script, CHECK_TWICE);
        if (body->named_count == MOST_FORMALS)
            return fail(script, CHECK_LIMIT);
        body->named[body->named_count].name = name;
        body->named[body->named_count++].kind = script->tokens[name - 1].kind;
    }
    return check_blocks(script, body, item->blocks);
}

static uint64_t least(uint64_t one, uint64_t other) {
    return one < other ? one : other;
}

static uint64_t greatest(uint64_t one, uint64_t other) {
    return one > other ? one : other;
}

/* The loads of statements on each object, for a client who gives objects for the names of the text. */
static void loads_of(const struct script *script, const struct client *client, int32_t first, uint64_t *loads) {
    memset(loads, 0, MOST_OBJECTS * sizeof *loads);
    for (int32_t which = first; which != NOTHING; which = script->statements[which].next) {
        const struct statement *it = &script->statements[which];
        uint64_t one[MOST_OBJECTS], other[MOST_OBJECTS];
        if (it->kind == COMMAND_STATEMENT || it->kind == QUERY_STATEMENT)
            loads[client->object_of[it->named]]++;
        if (it->kind != IF_STATEMENT && it->kind != REPEAT_STATEMENT)
            continue;
        loads_of(script, client, it->first, one);
        loads_of(script, client, it->second, other);
        uint64_t turns = it->kind == REPEAT_STATEMENT ? (uint64_t)number_at(script, it->turns) : 1;
        for (int i = 0; i < MOST_OBJECTS; i++)
            loads[i] = least(ENOUGH, loads[i] + turns * greatest(one[i], other[i]));
    }
}

static uint64_t weight_of(const struct script *script, int32_t first) {
    uint64_t weight = 0;
    for (int32_t which = first; which != NOTHING; which = script->statements[which].next) {
        const struct statement *it = &script->statements[which];
        uint64_t body = it->kind == IF_STATEMENT || it->kind == REPEAT_STATEMENT
                            ? greatest(weight_of(script, it->first), weight_of(script, it->second))
                            : 0;
        if (it->kind == REPEAT_STATEMENT)
            body = (uint64_t)number_at(script, it->turns) * (it->first == NOTHING ? 1 : body);
        weight = least(ENOUGH, weight + 1 + body);
    }
    return weight;
}

/* The objects that a client's blocks reserve: those for the names of its list, each once. */
static void make_lists(const struct script *script, struct client *client) {
    const struct body *body = &script->bodies[client->body];
    for (int i = 0; i < body->block_count; i++) {
        const struct block *block = &script->blocks[body->blocks[i]];
        int length = 0;
        for (uint32_t k = 0; k < block->name_count; k++) {
            uint8_t object = client->object_of[block->list[k]];
            if (!memchr(client->list[i], object, (size_t)length))
                client->list[i][length++] = object;
        }
        client->list_length[i] = (uint8_t)length;
    }
}

static bool check_load_and_weight(struct script *script) {
    script->load = script->weight = 0;
    for (int i = 0; i < script->client_count; i++) {
        const struct client *client = &script->clients[i];
        struct body *body = &script->bodies[client->body];
        for (int k = 0; k < body->block_count; k++) {
            uint64_t loads[MOST_OBJECTS];
            loads_of(script, client, script->blocks[body->blocks[k]].body, loads);
            for (int object = 0; object < client->list_length[k]; object++)
                script->load += loads[client->list[k][object]];
            body->weights[k] = weight_of(script, script->blocks[body->blocks[k]].body);
            script->weight += body->weights[k];
        }
    }
    if (script->load > MOST_LOAD)
        return fail(script, CHECK_LOAD);
    return script->weight <= MOST_WEIGHT || fail(script, CHECK_WEIGHT);
}

bool check_script(struct script *script) {
    script->object_count = script->client_count = script->template_count = script->body_count = 0;
    for (uint32_t i = 0; i < script->item_count; i++) {
        const struct item *item = &script->items[i];
        bool is_right = item->kind == OBJECT_ITEM     ? check_object(script, item)
                        : item->kind == CLIENT_ITEM   ? check_client(script, item)
                        : item->kind == TEMPLATE_ITEM ? check_template(script, item)
                                                      : check_started(script, item);
        if (!is_right)
            return false;
    }
    for (int i = 0; i < script->client_count; i++)
        make_lists(script, &script->clients[i]);
    if (!check_load_and_weight(script))
        return false;
    make_graphs(script);
    return true;
}
