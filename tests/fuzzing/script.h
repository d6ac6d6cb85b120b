/* Scripts as docs/SPEC.md defines them: read into tokens, items and statements, checked, and made into graphs. */
#ifndef SCRIPT_H
#define SCRIPT_H

#include <stdbool.h>
#include <stddef.h>
#include <stdint.h>

enum {
    MOST_BYTES = 65536,
    MOST_OBJECTS = 8,
    MOST_CLIENTS = 8,
    MOST_TEMPLATES = 8,
    MOST_FORMALS = 8,
    MOST_BLOCKS = 64,
    MOST_VARIABLES = 16,
    MOST_NESTING = 8,
    MOST_ARGUMENTS = 3,
    MOST_TICKETS = MOST_CLIENTS * MOST_BLOCKS,
    MOST_NAME = 16,
    MOST_DIGITS = 18,
    MOST_TURNS = 1000,
    MOST_LOAD = 100000,
    MOST_WEIGHT = 1000000,
    MOST_STATEMENTS = MOST_BYTES / 4, /* `x=1;` is the shortest */
    MOST_ATOMS = MOST_BYTES / 2,
    MOST_ITEMS = MOST_BYTES / 8,
    MOST_TEXT_BLOCKS = MOST_BYTES / 8,
    NOTHING = -1,
};

/* A sign of one byte is its own kind. */
enum token_kind {
    TEXT_END = 0,
    NAME = 128,
    NUMBER,
    EQUAL,
    UNEQUAL,
    AT_MOST,
    AT_LEAST,
    OBJECT,
    CLIENT,
    TEMPLATE,
    SEPARATE,
    IF,
    ELSE,
    REPEAT,
    LEAVE,
    ACCOUNT,
    BUFFER,
    GRID,
};

struct token {
    uint32_t start;
    uint8_t length, kind;
};

enum fault {
    NO_FAULT,
    READ_SIZE = 1,
    READ_BYTE,
    READ_NUMBER,
    READ_NAME,
    READ_FORM,
    CHECK_TWICE = 101,
    CHECK_UNKNOWN_OBJECT,
    CHECK_RESERVED_TWICE,
    CHECK_NOT_RESERVED,
    CHECK_UNKNOWN_OPERATION,
    CHECK_ARITY,
    CHECK_LEAVE_OUTSIDE,
    CHECK_LIMIT,
    CHECK_RANGE,
    CHECK_LOAD,
    CHECK_WEIGHT,
    CHECK_MEMORY,
    CHECK_UNKNOWN_TEMPLATE,
    CHECK_COUNT,
    CHECK_OTHER_KIND,
};

/* A number, or once the script is checked the number of a variable. */
struct atom {
    int64_t value;
    uint32_t token;
    bool is_variable;
};

enum statement_kind { COMMAND_STATEMENT, QUERY_STATEMENT, ASSIGNMENT, IF_STATEMENT, REPEAT_STATEMENT, LEAVE_STATEMENT };

struct statement {
    uint32_t first_token, end_token;           /* of the whole statement; the end is one behind it */
    uint32_t target, object, operation, turns; /* tokens of the parts that the kind has */
    uint32_t first_atom, atom_count;
    int32_t first, second, next; /* the bodies' first statements and the statement after this one, or NOTHING */
    uint32_t nodes;              /* how many nodes of the graph it has with its bodies */
    uint8_t kind, sign;          /* the sign of an expression (0: none), or the relation of an `if` */
    bool has_else;
    uint8_t variable, named, act; /* when checked: the variable that is set, the object or formal, the operation */
};

struct block {
    uint32_t first_token, end_token;
    uint32_t names, name_count; /* the tokens of its list */
    int32_t body, next;
    uint32_t nodes;
    uint8_t list[MOST_OBJECTS]; /* when checked: the objects or formals of its list */
};

enum item_kind { OBJECT_ITEM, CLIENT_ITEM, TEMPLATE_ITEM, STARTED_ITEM };

struct item {
    uint8_t kind;
    uint32_t first_token, end_token, name;
    uint32_t numbers, number_count; /* an object's kind stands before its numbers */
    uint32_t parts, part_count;     /* formals (kind, name, comma), or given objects (name, comma) */
    uint32_t of;                    /* the template of a started client */
    int32_t blocks;
};

/* What a node of a graph does; three of these are `local`, and two `branch`. */
enum node_kind { ENTRY, ASSIGN, SET_COUNT, LEAVE_LOOP, CHOOSE, AGAIN, SYNCHRONISE, ASK, CALL, EXIT };

struct node {
    uint8_t kind, named, act, sign, variable, depth; /* the depth of a loop among loops says where its count is */
    uint8_t held;                                    /* a bit for each object or formal that is held here */
    uint8_t atom_count;
    uint16_t turns;
    uint32_t next, other; /* edges, by the place in the block's graph */
    struct atom atoms[MOST_ARGUMENTS];
};

struct declared {
    uint32_t name;
    uint8_t kind;
    int64_t numbers[2];
};

/* The text of a client or of a template: its blocks, and what they name. */
struct body {
    struct declared named[MOST_OBJECTS]; /* the objects so far, or the formals */
    int named_count;
    bool is_template;
    uint32_t name;
    int32_t first_block;
    int block_count;
    uint32_t variables[MOST_VARIABLES]; /* a token of each */
    int variable_count;
    int32_t blocks[MOST_BLOCKS];
    uint32_t graphs[MOST_BLOCKS], lengths[MOST_BLOCKS]; /* where the nodes of its blocks stand, and how many they are */
    uint64_t weights[MOST_BLOCKS];
};

struct client {
    uint32_t name;
    uint8_t body;
    uint8_t object_of[MOST_FORMALS]; /* the object for each object or formal that its text names */
    uint8_t list[MOST_BLOCKS][MOST_OBJECTS], list_length[MOST_BLOCKS];
};

struct script {
    const uint8_t *text;
    size_t length;
    enum fault fault;
    size_t place; /* of a fault of reading */
    struct token tokens[MOST_BYTES + 1];
    uint32_t token_count, at, item_count, block_count, statement_count, atom_count, node_count;
    struct item items[MOST_ITEMS];
    struct block blocks[MOST_TEXT_BLOCKS];
    struct statement statements[MOST_STATEMENTS + 1];
    struct atom atoms[MOST_ATOMS];
    struct declared objects[MOST_OBJECTS];
    struct body bodies[MOST_CLIENTS + MOST_TEMPLATES];
    struct client clients[MOST_CLIENTS];
    uint8_t templates[MOST_TEMPLATES]; /* which bodies they are */
    int object_count, client_count, template_count, body_count;
    uint64_t load, weight;
    struct node nodes[MOST_BYTES];
};

/* Operations, and the words for them. */
enum act { DEPOSIT, WITHDRAW, BALANCE, PUT, DROP, TAKE, FRONT, SIZE, SET, ADD, FILL, GET, ROW, REFUSED };

struct operation {
    const char *word;
    uint8_t kind, act;
    bool is_query;
    uint8_t arguments;
};

enum { OPERATION_COUNT = 16 };
extern const struct operation OPERATIONS[OPERATION_COUNT];

/* Reads a text into tokens and these into items; whether it is a script. */
bool read_script(struct script *script, const uint8_t *text, size_t length);

/* Checks a script that was read, and makes its graphs; whether it has no fault. */
bool check_script(struct script *script);

/* Makes the graphs of all bodies; check_script does it. */
void make_graphs(struct script *script);

/* The line of a fault of reading. */
size_t fault_line(const struct script *script);

/* The number that a token is. */
int64_t number_at(const struct script *script, uint32_t token);

/* Whether two tokens are one name. */
bool is_same(const struct script *script, uint32_t one, uint32_t other);

static inline const uint8_t *token_text(const struct script *script, uint32_t token) {
    return script->text + script->tokens[token].start;
}

#endif
