/* Makes scripts by the grammar, mostly such as are accepted: parts of a script are taken out, doubled, moved, put in,
   or written anew, and names, numbers and signs are changed. Slips are made by chance, so that each fault comes as
   well. */
#include "harness.h"
#include "text.h"

#include <stdio.h>
#include <string.h>

size_t LLVMFuzzerMutate(uint8_t *data, size_t size, size_t most);

enum { MOST_PLACES = 4096, SLIP = 60 };

/* A name, and of an object or a formal its kind. */
struct named {
    char name[MOST_NAME + 2];
    uint8_t kind;
};

/* What a text at some place may name. */
struct world {
    struct named objects[MOST_OBJECTS + 1], templates[MOST_TEMPLATES + 1], clients[MOST_CLIENTS + 1];
    uint8_t formal_kinds[MOST_TEMPLATES + 1][MOST_FORMALS], formal_counts[MOST_TEMPLATES + 1];
    uint32_t object_count, template_count, client_count;
};

/* What a statement at some place may name, and what is around it. */
struct scope {
    struct named list[MOST_OBJECTS];
    uint32_t count;
    int depth;
    bool is_in_loop;
};

/* A place between two statements of a block, or before the first of a list. */
struct place {
    uint32_t token;
    int32_t block, statement; /* the statement that begins here, or NOTHING */
    uint32_t item;
    int depth;
    bool is_in_loop;
};

static uint64_t state;
static struct script script;
static uint8_t draft[MOST_BYTES];
static size_t draft_length;
static struct text made;
static struct place places[MOST_PLACES];
static uint32_t place_count;

static uint32_t chance(uint32_t below) {
    state ^= state << 13;
    state ^= state >> 7;
    state ^= state << 17;
    return (uint32_t)((state >> 16) % below);
}

static bool slips(void) {
    return !chance(SLIP);
}

/* Pieces of text. */

static const char *any_name(void) {
    static const char *const NAMES[] = {"a",
                                        "b",
                                        "c",
                                        "d",
                                        "e",
                                        "f",
                                        "g",
                                        "h",
                                        "i",
                                        "x",
                                        "y",
                                        "ann",
                                        "bob",
                                        "c0",
                                        "h1",
                                        "till_1",
                                        "a_23456789_12345",
                                        "abcdefghijklmnop"};
    return NAMES[chance(sizeof NAMES / sizeof *NAMES)];
}

static const char *variable_name(void) {
    static const char *const NAMES[] = {"x", "y", "z", "a", "n", "b", "i", "k", "m",   "s",
                                        "t", "u", "v", "w", "p", "q", "r", "o", "ann", "x_1"};
    return NAMES[chance(chance(12) ? 4 : sizeof NAMES / sizeof *NAMES)];
}

static void add_any_number(void) {
    static const char *const NUMBERS[] = {"15",
                                          "16",
                                          "17",
                                          "32",
                                          "33",
                                          "100",
                                          "999",
                                          "1000",
                                          "1001",
                                          "1024",
                                          "1025",
                                          "007",
                                          "1000000000000000",
                                          "1000000000000001",
                                          "999999999999999",
                                          "999999999999999999",
                                          "000000000000000001",
                                          "4294967296",
                                          "2147483648",
                                          "500000000000000000"};
    if (chance(4))
        add_number(&made, chance(chance(3) ? 5 : 130));
    else if (!chance(60))
        add_string(&made, "1000000000000000000");
    else
        add_string(&made, NUMBERS[chance(sizeof NUMBERS / sizeof *NUMBERS)]);
}

static void add_atom(void) {
    if (chance(2)) {
        add_string(&made, variable_name());
        return;
    }
    if (!chance(4))
        add_string(&made, "-");
    add_any_number();
}

static const char *any_relation(void) {
    static const char *const RELATIONS[] = {" == ", " != ", " < ", " <= ", " > ", " >= "};
    return RELATIONS[chance(6)];
}

static void add_space(void) {
    static const char *const SPACES[] = {"\n", "\t", "\r\n", "  ", "# ; } \xff !\n", "#\n"};
    add_string(&made, chance(12) ? " " : SPACES[chance(6)]);
}

static void add_arguments(uint32_t count) {
    if (slips())
        count = chance(5);
    add_string(&made, "(");
    for (uint32_t i = 0; i < count; i++) {
        add_string(&made, i ? ", " : "");
        add_atom();
    }
    add_string(&made, ")");
}

/* Any operation, or mostly one of a kind, as a command or as a query. */
static const struct operation *any_operation(uint8_t kind, bool is_query) {
    const struct operation *one;
    bool is_any = slips();
    do
        one = &OPERATIONS[chance(OPERATION_COUNT)];
    while (!is_any && (one->kind != kind || one->is_query != is_query));
    return one;
}

static void add_request(const struct scope *scope, bool is_query) {
    static const struct named NOBODY = {"nobody", ACCOUNT};
    const struct named *object = scope->count ? &scope->list[chance(scope->count)] : &NOBODY;
    const struct operation *operation = any_operation(object->kind, is_query);
    if (is_query) {
        add_string(&made, variable_name());
        add_string(&made, " = ");
    }
    add_string(&made, slips() ? any_name() : object->name);
    add_string(&made, ".");
    add_string(&made, chance(4 * SLIP) ? operation->word : "nothing");
    add_arguments(operation->arguments);
    add_string(&made, ";");
}

static void add_assignment(void) {
    static const char *const SIGNS[] = {" + ", " - ", " * "};
    add_string(&made, variable_name());
    add_string(&made, " = ");
    add_atom();
    if (chance(4)) {
        add_string(&made, SIGNS[chance(3)]);
        add_atom();
    }
    add_string(&made, ";");
}

static void add_statements(struct scope scope, uint32_t most);

static void add_condition(void) {
    add_atom();
    add_string(&made, any_relation());
    add_atom();
}

static void add_if(struct scope scope) {
    scope.depth++;
    add_string(&made, "if ");
    add_condition();
    add_statements(scope, 3);
    if (chance(2)) {
        add_string(&made, " else");
        add_statements(scope, 3);
    }
}

static void add_turns(void) {
    if (chance(25))
        add_number(&made, chance(5));
    else
        add_any_number();
}

static void add_repeat(struct scope scope) {
    scope.depth++;
    scope.is_in_loop = true;
    add_string(&made, "repeat ");
    add_turns();
    add_statements(scope, 3);
}

static void add_statement(struct scope scope) {
    uint32_t which = chance(100);
    add_space();
    if (scope.depth < MOST_NESTING && which < 12)
        add_if(scope);
    else if (scope.depth < MOST_NESTING && which < 22)
        add_repeat(scope);
    else if (which < (scope.is_in_loop ? 30u : 22u) || !chance(4 * SLIP))
        add_string(&made, "leave;");
    else if (which < 42)
        add_assignment();
    else
        add_request(&scope, which < 70);
}

static void add_statements(struct scope scope, uint32_t most) {
    add_string(&made, " {");
    for (uint32_t count = chance(most + 1); count; count--)
        add_statement(scope);
    add_string(&made, " }");
}

static void add_block(const struct named *named, uint32_t count) {
    struct scope scope = {.count = 0};
    uint32_t wanted = 1 + chance(chance(4) ? 2 : 8);
    add_string(&made, "separate");
    for (uint32_t i = 0, at = chance(8); i < count && scope.count < wanted; i++)
        scope.list[scope.count++] = named[(at + i) % count];
    for (uint32_t i = 0; i < scope.count; i++) {
        add_string(&made, " ");
        add_string(&made, scope.list[i].name);
    }
    if (!scope.count || slips()) {
        add_string(&made, " ");
        add_string(&made, any_name());
    }
    add_statements(scope, 5);
}

static const char *kind_word(uint8_t kind) {
    return kind == ACCOUNT ? "account " : kind == BUFFER ? "buffer " : "grid ";
}

static struct named any_named(void) {
    struct named named = {.kind = (uint8_t)(ACCOUNT + chance(3))};
    strcpy(named.name, any_name());
    return named;
}

/* A name that none of some has, but for a slip. */
static struct named new_named(const struct named *named, uint32_t count) {
    for (int tries = 0;; tries++) {
        struct named one = any_named();
        bool is_new = true;
        for (uint32_t i = 0; i < count; i++)
            is_new &= strcmp(one.name, named[i].name) != 0;
        if (is_new || tries > 100 || slips())
            return one;
    }
}

static void add_object(struct world *world) {
    struct named object = new_named(world->objects, world->object_count);
    if (world->object_count <= MOST_OBJECTS)
        world->objects[world->object_count++] = object;
    add_string(&made, "object ");
    add_string(&made, object.name);
    add_string(&made, " ");
    add_string(&made, kind_word(object.kind));
    for (int i = 0; i < 1 + (object.kind == GRID); i++) {
        add_string(&made, i ? " " : "");
        if (slips())
            add_any_number();
        else
            add_number(&made, object.kind == ACCOUNT ? chance(200) : 1 + chance(chance(8) ? 3 : 16));
    }
}

/* The head of a client, with a new name. */
static void add_client_name(struct world *world) {
    struct named client = new_named(world->clients, world->client_count);
    if (world->client_count <= MOST_CLIENTS)
        world->clients[world->client_count++] = client;
    add_string(&made, "client ");
    add_string(&made, client.name);
}

static void add_client(struct world *world) {
    add_client_name(world);
    add_string(&made, " {");
    for (uint32_t count = chance(4); count; count--) {
        add_space();
        add_block(world->objects, world->object_count < MOST_OBJECTS ? world->object_count : MOST_OBJECTS);
    }
    add_string(&made, " }");
}

static void add_template(struct world *world) {
    struct named formals[MOST_FORMALS], name = new_named(world->templates, world->template_count);
    uint32_t count = 1 + chance(chance(6) ? 2 : MOST_FORMALS), which = world->template_count;
    add_string(&made, "template ");
    add_string(&made, name.name);
    add_string(&made, "(");
    for (uint32_t i = 0; i < count; i++) {
        formals[i] = new_named(formals, i);
        if (world->object_count && chance(5))
            formals[i].kind = world->objects[chance(world->object_count)].kind;
        add_string(&made, i ? ", " : "");
        add_string(&made, kind_word(formals[i].kind));
        add_string(&made, formals[i].name);
        if (which <= MOST_TEMPLATES)
            world->formal_kinds[which][i] = formals[i].kind;
    }
    add_string(&made, ") {");
    for (uint32_t blocks = chance(3); blocks; blocks--) {
        add_space();
        add_block(formals, count);
    }
    add_string(&made, " }");
    if (which > MOST_TEMPLATES)
        return;
    world->templates[which] = name;
    world->formal_counts[which] = (uint8_t)count;
    world->template_count++;
}

/* An object of a kind, where there is one. */
static const char *object_of(const struct world *world, uint8_t kind) {
    uint32_t at = chance(MOST_OBJECTS);
    for (uint32_t i = 0; i < world->object_count; i++) {
        const struct named *object = &world->objects[(at + i) % world->object_count];
        if (object->kind == kind || !chance(20))
            return object->name;
    }
    return any_name();
}

static void add_started(struct world *world) {
    uint32_t which = world->template_count ? chance(world->template_count) : 0;
    uint32_t count = world->template_count ? world->formal_counts[which] : 1;
    add_client_name(world);
    add_string(&made, " = ");
    add_string(&made, world->template_count && !slips() ? world->templates[which].name : any_name());
    add_string(&made, "(");
    count += !chance(20);
    for (uint32_t i = 0; i < count; i++) {
        add_string(&made, i ? ", " : "");
        add_string(&made, object_of(world, world->formal_kinds[which][i % MOST_FORMALS]));
    }
    add_string(&made, ")");
}

static void add_item(struct world *world) {
    uint32_t which = chance(10);
    if (which < 3)
        add_object(world);
    else if (which < 7)
        add_client(world);
    else if (which < 8 || !world->template_count)
        add_template(world);
    else
        add_started(world);
}

static void make_script(void) {
    struct world world = {.object_count = 0};
    clear_text(&made);
    for (uint32_t count = 1 + chance(4); count; count--) {
        add_object(&world);
        add_space();
    }
    for (uint32_t count = 1 + chance(5); count; count--) {
        add_item(&world);
        add_space();
    }
    draft_length = made.length < sizeof draft ? made.length : sizeof draft;
    memcpy(draft, made.bytes, draft_length);
}

/* Changes of the draft. */

/* Puts some bytes in place of those between two places; whether there is room. */
static bool put(size_t from, size_t to, const void *bytes, size_t length) {
    static uint8_t kept[MOST_BYTES];
    size_t rest = draft_length - to;
    if (from + length + rest > sizeof draft)
        return false;
    memcpy(kept, draft + to, rest);
    if (length)
        memmove(draft + from, bytes, length);
    memcpy(draft + from + length, kept, rest);
    draft_length = from + length + rest;
    return true;
}

static size_t start_of(uint32_t token) {
    return script.tokens[token].start;
}

static size_t end_of(uint32_t token) {
    return script.tokens[token].start + script.tokens[token].length;
}

static struct named named_at(uint32_t token, uint8_t kind) {
    struct named named = {.kind = kind};
    memcpy(named.name, token_text(&script, token), script.tokens[token].length);
    return named;
}

static void add_places(uint32_t item, int32_t block, int32_t first, uint32_t end, int depth, bool is_in_loop) {
    for (int32_t which = first; which != NOTHING; which = script.statements[which].next) {
        const struct statement *it = &script.statements[which];
        if (place_count < MOST_PLACES)
            places[place_count++] = (struct place){it->first_token, block, which, item, depth, is_in_loop};
        bool is_loop = is_in_loop || it->kind == REPEAT_STATEMENT;
        if (it->kind == REPEAT_STATEMENT || (it->kind == IF_STATEMENT && !it->has_else))
            add_places(item, block, it->first, it->end_token - 1, depth + 1, is_loop);
        else if (it->kind == IF_STATEMENT)
            add_places(item, block, it->second, it->end_token - 1, depth + 1, is_loop);
        if (it->kind == IF_STATEMENT && it->has_else && it->first != NOTHING)
            add_places(item, block, it->first, script.statements[it->first].first_token, depth + 1, is_loop);
    }
    if (place_count < MOST_PLACES)
        places[place_count++] = (struct place){end, block, NOTHING, item, depth, is_in_loop};
}

static void find_places(void) {
    place_count = 0;
    for (uint32_t i = 0; i < script.item_count; i++)
        for (int32_t block = script.items[i].blocks; block != NOTHING; block = script.blocks[block].next)
            add_places(i, block, script.blocks[block].body, script.blocks[block].end_token - 1, 0, false);
}

/* What the items before one declare; the clients are those of the whole script. */
static struct world world_before(uint32_t end) {
    struct world world = {.object_count = 0};
    for (uint32_t i = 0; i < script.item_count; i++) {
        const struct item *item = &script.items[i];
        if ((item->kind == CLIENT_ITEM || item->kind == STARTED_ITEM) && world.client_count <= MOST_CLIENTS)
            world.clients[world.client_count++] = named_at(item->name, 0);
        if (i >= end)
            continue;
        if (item->kind == OBJECT_ITEM && world.object_count <= MOST_OBJECTS)
            world.objects[world.object_count++] = named_at(item->name, script.tokens[item->numbers - 1].kind);
        if (item->kind != TEMPLATE_ITEM || world.template_count > MOST_TEMPLATES)
            continue;
        uint32_t count = item->part_count < MOST_FORMALS ? item->part_count : MOST_FORMALS;
        world.formal_counts[world.template_count] = (uint8_t)count;
        for (uint32_t k = 0; k < count; k++)
            world.formal_kinds[world.template_count][k] = script.tokens[item->parts + 3 * k].kind;
        world.templates[world.template_count++] = named_at(item->name, 0);
    }
    return world;
}

/* What the blocks of an item may name. */
static uint32_t named_in(uint32_t which, struct named *named) {
    const struct item *item = &script.items[which];
    struct world world = world_before(which);
    uint32_t count = item->kind == TEMPLATE_ITEM ? item->part_count : world.object_count;
    count = count < MOST_OBJECTS ? count : MOST_OBJECTS;
    for (uint32_t i = 0; i < count; i++)
        named[i] = item->kind == TEMPLATE_ITEM
                       ? named_at(item->parts + 3 * i + 1, script.tokens[item->parts + 3 * i].kind)
                       : world.objects[i];
    return count;
}

static struct scope scope_of(const struct place *place) {
    struct named named[MOST_OBJECTS];
    const struct block *block = &script.blocks[place->block];
    struct scope scope = {.count = 0, .depth = place->depth, .is_in_loop = place->is_in_loop};
    uint32_t count = named_in(place->item, named);
    for (uint32_t i = 0; i < block->name_count && scope.count < MOST_OBJECTS; i++) {
        struct named one = named_at(block->names + i, ACCOUNT);
        for (uint32_t k = 0; k < count; k++)
            if (!strcmp(one.name, named[k].name))
                scope.list[scope.count++] = named[k], k = count;
    }
    return scope;
}

static bool put_made(size_t from, size_t to) {
    return put(from, to, made.bytes, made.length);
}

static bool insert_statement(void) {
    if (!place_count)
        return false;
    const struct place *place = &places[chance(place_count)];
    add_statement(scope_of(place));
    add_space();
    return put_made(start_of(place->token), start_of(place->token));
}

/* Any statement with its place, or null where none was hit. */
static const struct place *any_statement(void) {
    for (int tries = 0; place_count && tries < 8; tries++) {
        const struct place *place = &places[chance(place_count)];
        if (place->statement != NOTHING)
            return place;
    }
    return NULL;
}

static bool replace_statement(void) {
    const struct place *place = any_statement();
    if (!place)
        return false;
    add_statement(scope_of(place));
    return put_made(start_of(place->token), end_of(script.statements[place->statement].end_token - 1));
}

/* Puts a statement into the body of an `if` or a `repeat`. */
static bool wrap_statement(void) {
    const struct place *place = any_statement();
    if (!place)
        return false;
    size_t from = start_of(place->token), to = end_of(script.statements[place->statement].end_token - 1);
    bool is_repeat = chance(2), is_deep = !chance(30);
    for (uint32_t i = 0; i < (is_deep ? 1 + chance(10) : 1); i++) {
        add_string(&made, is_repeat ? "repeat " : "if ");
        if (is_repeat && is_deep)
            add_string(&made, "1000");
        else if (is_repeat)
            add_turns();
        else
            add_condition();
        add_string(&made, " { ");
    }
    uint32_t opened = 0;
    for (size_t i = 0; i < made.length; i++)
        opened += made.bytes[i] == '{';
    add_bytes(&made, draft + from, to - from);
    while (opened--)
        add_string(&made, " }");
    return put_made(from, to);
}

/* Puts the body of an `if` or a `repeat` in its place. */
static bool unwrap_statement(void) {
    const struct place *place = any_statement();
    if (!place || script.statements[place->statement].first == NOTHING)
        return false;
    const struct statement *statement = &script.statements[place->statement];
    int32_t last = statement->first;
    while (script.statements[last].next != NOTHING)
        last = script.statements[last].next;
    size_t from = start_of(script.statements[statement->first].first_token),
           to = end_of(script.statements[last].end_token - 1);
    add_bytes(&made, draft + from, to - from);
    return put_made(start_of(statement->first_token), end_of(statement->end_token - 1));
}

/* A part of the script by its tokens: an item, a block or a statement. */
static bool any_part(uint32_t *first, uint32_t *end) {
    uint32_t which = chance(12);
    const struct place *place = which < 8 ? any_statement() : NULL;
    if (place) {
        *first = place->token;
        *end = script.statements[place->statement].end_token;
    } else if (which < 11 && script.block_count) {
        const struct block *block = &script.blocks[chance(script.block_count)];
        *first = block->first_token;
        *end = block->end_token;
    } else if (script.item_count) {
        const struct item *item = &script.items[chance(script.item_count)];
        *first = item->first_token;
        *end = item->end_token;
    }
    return place || (which < 11 && script.block_count) || script.item_count;
}

static bool delete_part(void) {
    uint32_t first, end;
    return any_part(&first, &end) && put(start_of(first), end_of(end - 1), "", 0);
}

/* A part comes twice, or now and then very often, so that a limit is passed. */
static bool double_part(void) {
    uint32_t first, end;
    if (!any_part(&first, &end))
        return false;
    size_t from = start_of(first), to = end_of(end - 1);
    for (uint32_t times = chance(60) ? 1 : 62 + chance(4); times && made.length + draft_length < sizeof draft;
         times--) {
        add_string(&made, " ");
        add_bytes(&made, draft + from, to - from);
    }
    return put_made(to, to);
}

/* An item comes again with another name. */
static bool double_item(void) {
    if (!script.item_count)
        return false;
    const struct item *item = &script.items[chance(script.item_count)];
    size_t from = start_of(item->first_token), to = end_of(item->end_token - 1);
    for (uint32_t times = chance(10) ? 1 : 8; times; times--) {
        add_string(&made, "\n");
        add_bytes(&made, draft + from, start_of(item->name) - from);
        add_string(&made, chance(3) ? any_name() : variable_name());
        add_bytes(&made, draft + end_of(item->name), to - end_of(item->name));
    }
    return put_made(to, to);
}

/* One of two parts comes in place of the other. */
static bool copy_part(void) {
    uint32_t first, end, other, other_end;
    if (!any_part(&first, &end) || !any_part(&other, &other_end) ||
        script.tokens[first].kind != script.tokens[other].kind)
        return false;
    add_bytes(&made, draft + start_of(other), end_of(other_end - 1) - start_of(other));
    return put_made(start_of(first), end_of(end - 1));
}

static bool insert_block(void) {
    struct named named[MOST_OBJECTS];
    if (!script.item_count)
        return false;
    uint32_t which = chance(script.item_count);
    const struct item *item = &script.items[which];
    if (item->kind != CLIENT_ITEM && item->kind != TEMPLATE_ITEM)
        return false;
    uint32_t count = named_in(which, named);
    size_t at = start_of(item->end_token - 1);
    if (item->blocks != NOTHING && chance(2))
        at = start_of(script.blocks[item->blocks].first_token);
    add_block(named, count);
    add_string(&made, " ");
    return put_made(at, at);
}

static bool insert_item(void) {
    uint32_t which = chance(script.item_count + 1);
    struct world world = world_before(which);
    size_t at = which < script.item_count ? start_of(script.items[which].first_token) : draft_length;
    add_string(&made, "\n");
    add_item(&world);
    add_string(&made, "\n");
    return put_made(at, at);
}

/* A block or a template with as many names, variables or levels as are allowed, or one more. */
static bool insert_many(void) {
    char part[64];
    uint32_t what = chance(3);
    size_t at = draft_length;
    if (what == 0) {
        if (!place_count)
            return false;
        at = start_of(places[chance(place_count)].token);
        for (uint32_t i = 0, count = 15 + chance(3); i < count; i++) {
            snprintf(part, sizeof part, "v%u = %u; ", i, i);
            add_string(&made, part);
        }
        return put_made(at, at);
    }
    add_string(&made, what == 1 ? "\ntemplate " : "\n");
    if (what == 1) {
        add_string(&made, any_name());
        for (uint32_t i = 0, count = 8 + chance(2); i < count; i++) {
            snprintf(part, sizeof part, "%s%s%u", i ? ", " : "(", kind_word((uint8_t)(ACCOUNT + chance(3))), i);
            snprintf(strrchr(part, ' '), 8, " f%u", i);
            add_string(&made, part);
        }
        add_string(&made, ") { }\n");
    }
    for (uint32_t i = 0, count = what == 2 ? 6 + chance(4) : 0; i < count; i++) {
        snprintf(part, sizeof part, "object o%u buffer %u ", i, i + 1);
        add_string(&made, part);
    }
    return put_made(what == 2 ? 0 : at, what == 2 ? 0 : at);
}

/* Changes a name of a statement to another that may stand there: a variable, an object, or an operation. */
static bool change_name(void) {
    const struct place *place = any_statement();
    if (!place)
        return false;
    const struct statement *statement = &script.statements[place->statement];
    bool is_request = statement->kind == COMMAND_STATEMENT || statement->kind == QUERY_STATEMENT;
    struct scope scope = scope_of(place);
    uint32_t token = statement->target;
    if (is_request && scope.count && chance(2)) {
        token = statement->object;
        add_string(&made, scope.list[chance(scope.count)].name);
    } else if (statement->atom_count && (chance(2) || !token)) {
        token = script.atoms[statement->first_atom + chance(statement->atom_count)].token;
        if (chance(2) || script.tokens[token - 1].kind == '-')
            add_any_number();
        else
            add_string(&made, variable_name());
    } else if (token) {
        add_string(&made, variable_name());
    }
    return made.length && put_made(start_of(token), end_of(token));
}

static bool change_token(void) {
    if (script.token_count < 2)
        return false;
    uint32_t token = chance(script.token_count - 1);
    uint8_t kind = script.tokens[token].kind;
    if (kind == NUMBER) {
        add_any_number();
    } else if (kind == NAME && !chance(8)) {
        uint32_t other = chance(script.token_count - 1);
        if (script.tokens[other].kind != NAME)
            return false;
        add_bytes(&made, draft + start_of(other), end_of(other) - start_of(other));
    } else if (kind == NAME && !chance(8)) {
        add_string(&made, chance(2) ? variable_name() : any_name());
    } else if (kind == EQUAL || kind == UNEQUAL || kind == '<' || kind == '>' || kind == AT_MOST || kind == AT_LEAST) {
        add_string(&made, any_relation());
    } else if (kind == '+' || kind == '*') {
        add_string(&made, kind == '+' ? "*" : "-");
    } else if (kind == ACCOUNT || kind == BUFFER) {
        add_string(&made, kind == ACCOUNT ? "buffer" : "account");
    } else {
        return false;
    }
    return put_made(start_of(token), end_of(token));
}

static bool change_space(void) {
    uint32_t token = chance(script.token_count);
    add_space();
    return put_made(start_of(token), start_of(token));
}

static bool change_once(void) {
    static bool (*const CHANGES[])(void) = {
        insert_statement, insert_statement, replace_statement, wrap_statement, unwrap_statement, delete_part,
        delete_part,      double_part,      double_item,       copy_part,      insert_block,     insert_item,
        change_name,      change_name,      change_token,      change_token,   change_space};
    clear_text(&made);
    if (!chance(40))
        return insert_many();
    return CHANGES[chance(sizeof CHANGES / sizeof *CHANGES)]();
}

/* A token of a text goes away, comes twice, or becomes another word; whether the text is a script does not matter. */
static void change_words(void) {
    static const char *const WORDS[] = {"object ",
                                        "client ",
                                        "template ",
                                        "separate ",
                                        "if ",
                                        "else ",
                                        "repeat ",
                                        "leave;",
                                        "account ",
                                        "buffer ",
                                        "grid ",
                                        "{",
                                        "}",
                                        "(",
                                        ")",
                                        ",",
                                        ".",
                                        ";",
                                        "=",
                                        "==",
                                        "!=",
                                        "<=",
                                        "-",
                                        "!",
                                        "$",
                                        "abcdefghijklmnopq ",
                                        "0000000000000000000 ",
                                        "1 ",
                                        "a "};
    const char *word = WORDS[chance(sizeof WORDS / sizeof *WORDS)];
    uint32_t count = script.token_count, token = count ? chance(count) : 0;
    bool is_whole = count && script.fault != READ_SIZE && script.fault != READ_BYTE && script.fault != READ_NUMBER &&
                    script.fault != READ_NAME;
    size_t from = is_whole ? start_of(token) : chance((uint32_t)draft_length + 1);
    size_t to = is_whole && chance(3) ? end_of(token) : from;
    bool is_gone = !chance(3);
    put(from, to, is_gone ? "" : word, is_gone ? 0 : strlen(word));
}

static void change_draft(void) {
    uint32_t times = 1 + chance(chance(3) ? 2 : 6);
    if (!chance(50) || !draft_length) {
        make_script();
        return;
    }
    for (uint32_t i = 0; i < times; i++) {
        if (!read_script(&script, draft, draft_length)) {
            if (chance(2))
                make_script();
            else
                change_words();
            continue;
        }
        find_places();
        if (!chance(80))
            change_words();
        else
            for (int tries = 0; tries < 8 && !change_once(); tries++)
                ;
    }
}

static bool is_accepted(void) {
    return read_script(&script, draft, draft_length) && check_script(&script);
}

static void take_draft(const uint8_t *from, size_t length) {
    draft_length = length < sizeof draft ? length : sizeof draft;
    memcpy(draft, from, draft_length);
}

/* Changes a script until it is accepted, but not always, and not for ever; one that was refused is often left. */
static void change_script(const uint8_t *from, size_t length) {
    bool has_to_fit = chance(5);
    for (int tries = 0; tries < 4; tries++) {
        take_draft(from, length);
        if (tries == 0 && chance(2) && !is_accepted())
            make_script();
        change_draft();
        if (!has_to_fit || is_accepted())
            return;
    }
}

static void change_head(uint8_t *head) {
    for (uint32_t count = 1 + chance(4); count; count--)
        head[chance(HEAD)] = (uint8_t)chance(256);
    if (!chance(60)) {
        head[6] = 0xa5;
        head[7] = (uint8_t)chance(24);
    } else if (chance(2)) {
        head[6] = 0;
    }
}

size_t LLVMFuzzerCustomMutator(uint8_t *data, size_t size, size_t most, unsigned seed) {
    state = seed * UINT64_C(0x9e3779b97f4a7c15) + UINT64_C(0x632be59bd9b4e019);
    chance(2);
    if (most < HEAD + 64)
        return LLVMFuzzerMutate(data, size, most);
    if (size < HEAD) {
        for (int i = 0; i < HEAD; i++)
            data[i] = (uint8_t)chance(256);
        size = HEAD;
    }
    if (!chance(10))
        return HEAD + LLVMFuzzerMutate(data + HEAD, size - HEAD, most - HEAD);
    if (!chance(3))
        change_head(data);
    if (!chance(8))
        return size;
    change_script(data + HEAD, size - HEAD);
    if (draft_length > most - HEAD)
        return size;
    memcpy(data + HEAD, draft, draft_length);
    return HEAD + draft_length;
}
