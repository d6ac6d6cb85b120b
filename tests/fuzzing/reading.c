/* Reading: a text is cut into tokens, and these are read by the grammar, without a look at what names stand for. */
#include "script.h"

#include <string.h>

#define WORD(word, kind)                                                                                               \
    { word, sizeof word - 1, kind }

static const struct {
    const char *word;
    size_t length;
    uint8_t kind;
} RESERVED[] = {WORD("object", OBJECT),     WORD("client", CLIENT), WORD("template", TEMPLATE),
                WORD("separate", SEPARATE), WORD("if", IF),         WORD("else", ELSE),
                WORD("repeat", REPEAT),     WORD("leave", LEAVE),   WORD("account", ACCOUNT),
                WORD("buffer", BUFFER),     WORD("grid", GRID)};

static bool is_letter(uint8_t byte) {
    return byte >= 'a' && byte <= 'z';
}

static bool is_digit(uint8_t byte) {
    return byte >= '0' && byte <= '9';
}

static bool fail(struct script *script, enum fault fault, size_t place) {
    script->fault = fault;
    script->place = place;
    return false;
}

/* The place after the spaces and comments from a place on. */
static size_t after_space(const uint8_t *text, size_t length, size_t at) {
    while (at < length) {
        if (text[at] == '#')
            while (at < length && text[at] != '\n')
                at++;
        else if (text[at] == ' ' || text[at] == '\t' || text[at] == '\r' || text[at] == '\n')
            at++;
        else
            break;
    }
    return at;
}

static uint8_t word_kind(const uint8_t *word, size_t length) {
    for (size_t i = 0; i < sizeof RESERVED / sizeof *RESERVED; i++)
        if (RESERVED[i].length == length && !memcmp(RESERVED[i].word, word, length))
            return RESERVED[i].kind;
    return NAME;
}

static uint8_t kind_of_two(uint8_t byte) {
    return byte == '=' ? EQUAL : byte == '!' ? UNEQUAL : byte == '<' ? AT_MOST : AT_LEAST;
}

/* Reads a sign at a place: its length, 0 where none stands there. */
static size_t read_sign(const uint8_t *text, size_t length, size_t at, struct token *token) {
    uint8_t byte = text[at];
    if (byte && strchr("=!<>", byte) && at + 1 < length && text[at + 1] == '=') {
        token->kind = kind_of_two(byte);
        return 2;
    }
    token->kind = byte;
    return byte && strchr("{}(),.;=+-*<>", byte) ? 1 : 0;
}

/* Reads the token at a place that is no space; whether there is one. */
static bool read_token(struct script *script, size_t at) {
    const uint8_t *text = script->text;
    size_t end = at;
    struct token *token = &script->tokens[script->token_count++];
    if (is_letter(text[at])) {
        while (end < script->length && (is_letter(text[end]) || is_digit(text[end]) || text[end] == '_'))
            end++;
        if (end - at > MOST_NAME)
            return fail(script, READ_NAME, at);
        token->kind = word_kind(text + at, end - at);
    } else if (is_digit(text[at])) {
        while (end < script->length && is_digit(text[end]))
            end++;
        if (end - at > MOST_DIGITS)
            return fail(script, READ_NUMBER, at);
        token->kind = NUMBER;
    } else {
        end += read_sign(text, script->length, at, token);
        if (end == at)
            return fail(script, READ_BYTE, at);
    }
    token->start = (uint32_t)at;
    token->length = (uint8_t)(end - at);
    return true;
}

static bool read_tokens(struct script *script) {
    if (script->length > MOST_BYTES)
        return fail(script, READ_SIZE, 0);
    size_t at = after_space(script->text, script->length, 0);
    while (at < script->length) {
        if (!read_token(script, at))
            return false;
        at = after_space(script->text, script->length, at + script->tokens[script->token_count - 1].length);
    }
    script->tokens[script->token_count++] = (struct token){(uint32_t)script->length, 0, TEXT_END};
    return true;
}

/* The grammar. Each function reads its part from the token `at` on, and answers whether it stands there. */

static uint8_t now(const struct script *script) {
    return script->tokens[script->at].kind;
}

static bool misfit(struct script *script) {
    return fail(script, READ_FORM, script->tokens[script->at].start);
}

static bool expect(struct script *script, uint8_t kind) {
    if (now(script) != kind)
        return misfit(script);
    script->at++;
    return true;
}

/* Reads a token of a kind, and says which it was. */
static bool expect_at(struct script *script, uint8_t kind, uint32_t *token) {
    *token = script->at;
    return expect(script, kind);
}

int64_t number_at(const struct script *script, uint32_t token) {
    int64_t number = 0;
    const uint8_t *digits = token_text(script, token);
    for (int i = 0; i < script->tokens[token].length; i++)
        number = number * 10 + (digits[i] - '0');
    return number;
}

static bool read_atom(struct script *script, struct statement *statement) {
    struct atom *atom = &script->atoms[script->atom_count++];
    bool is_negative = now(script) == '-';
    script->at += is_negative;
    statement->atom_count++;
    atom->token = script->at;
    atom->is_variable = now(script) == NAME && !is_negative;
    if (!atom->is_variable && now(script) != NUMBER)
        return misfit(script);
    atom->value = atom->is_variable ? 0 : number_at(script, script->at) * (is_negative ? -1 : 1);
    script->at++;
    return true;
}

static bool read_statements(struct script *script, int depth, int32_t *first, uint32_t *nodes);

/* A request from its object on, up to its `;`. */
static bool read_request(struct script *script, struct statement *statement) {
    if (!expect_at(script, NAME, &statement->object) || !expect(script, '.') ||
        !expect_at(script, NAME, &statement->operation) || !expect(script, '('))
        return false;
    if (now(script) != ')') {
        do {
            if (!read_atom(script, statement))
                return false;
        } while (now(script) == ',' && expect(script, ','));
    }
    return expect(script, ')') && expect(script, ';');
}

static bool read_expression(struct script *script, struct statement *statement) {
    if (!read_atom(script, statement))
        return false;
    uint8_t sign = now(script);
    if (sign == '+' || sign == '-' || sign == '*') {
        statement->sign = sign;
        script->at++;
        if (!read_atom(script, statement))
            return false;
    }
    return expect(script, ';');
}

/* A statement that begins with a name. */
static bool read_named(struct script *script, struct statement *statement) {
    if (script->tokens[script->at + 1].kind == '.') {
        statement->kind = COMMAND_STATEMENT;
        statement->nodes = 1;
        return read_request(script, statement);
    }
    statement->target = script->at++;
    if (!expect(script, '='))
        return false;
    bool is_query = now(script) == NAME && script->tokens[script->at + 1].kind == '.';
    statement->kind = is_query ? QUERY_STATEMENT : ASSIGNMENT;
    statement->nodes = is_query ? 2 : 1;
    return is_query ? read_request(script, statement) : read_expression(script, statement);
}

static bool is_relation(uint8_t kind) {
    return kind == EQUAL || kind == UNEQUAL || kind == '<' || kind == AT_MOST || kind == '>' || kind == AT_LEAST;
}

static bool read_if(struct script *script, struct statement *statement, int depth) {
    uint32_t first = 0, second = 0;
    statement->kind = IF_STATEMENT;
    script->at++;
    if (!read_atom(script, statement))
        return false;
    statement->sign = now(script);
    if (!is_relation(now(script)))
        return misfit(script);
    script->at++;
    if (!read_atom(script, statement) || !read_statements(script, depth + 1, &statement->first, &first))
        return false;
    if (now(script) == ELSE) {
        statement->has_else = true;
        script->at++;
        if (!read_statements(script, depth + 1, &statement->second, &second))
            return false;
    }
    statement->nodes = 1 + first + second;
    return true;
}

static bool read_repeat(struct script *script, struct statement *statement, int depth) {
    uint32_t nodes = 0;
    statement->kind = REPEAT_STATEMENT;
    script->at++;
    if (!expect_at(script, NUMBER, &statement->turns) || !read_statements(script, depth + 1, &statement->first, &nodes))
        return false;
    statement->nodes = 2 + nodes;
    return true;
}

static bool read_statement(struct script *script, int depth, int32_t *which) {
    uint8_t kind = now(script);
    if (depth > MOST_NESTING || (kind != NAME && kind != IF && kind != REPEAT && kind != LEAVE))
        return misfit(script);
    struct statement *statement = &script->statements[script->statement_count];
    *which = (int32_t)script->statement_count++;
    *statement = (struct statement){.first_token = script->at, .first_atom = script->atom_count};
    statement->first = statement->second = statement->next = NOTHING;
    bool is_there;
    if (kind == NAME) {
        is_there = read_named(script, statement);
    } else if (kind == IF) {
        is_there = read_if(script, statement, depth);
    } else if (kind == REPEAT) {
        is_there = read_repeat(script, statement, depth);
    } else {
        statement->kind = LEAVE_STATEMENT;
        statement->nodes = 1;
        script->at++;
        is_there = expect(script, ';');
    }
    statement->end_token = script->at;
    return is_there;
}

/* Statements in braces; says which is the first, and how many nodes they have. */
static bool read_statements(struct script *script, int depth, int32_t *first, uint32_t *nodes) {
    int32_t *link = first;
    *first = NOTHING;
    *nodes = 0;
    if (!expect(script, '{'))
        return false;
    while (now(script) != '}') {
        if (!read_statement(script, depth, link))
            return false;
        *nodes += script->statements[*link].nodes;
        link = &script->statements[*link].next;
    }
    return expect(script, '}');
}

static bool read_block(struct script *script, int32_t *which) {
    struct block *block = &script->blocks[script->block_count];
    block->first_token = script->at;
    block->name_count = 0;
    block->next = NOTHING;
    if (!expect(script, SEPARATE))
        return false;
    *which = (int32_t)script->block_count++;
    block->names = script->at;
    do {
        if (!expect(script, NAME))
            return false;
        block->name_count++;
    } while (now(script) == NAME);
    if (!read_statements(script, 0, &block->body, &block->nodes))
        return false;
    block->end_token = script->at;
    return true;
}

static bool read_blocks(struct script *script, struct item *item) {
    int32_t *link = &item->blocks;
    if (!expect(script, '{'))
        return false;
    while (now(script) != '}') {
        if (!read_block(script, link))
            return false;
        link = &script->blocks[*link].next;
    }
    return expect(script, '}');
}

static bool read_object(struct script *script, struct item *item) {
    item->kind = OBJECT_ITEM;
    if (!expect_at(script, NAME, &item->name))
        return false;
    uint8_t kind = now(script);
    if (kind != ACCOUNT && kind != BUFFER && kind != GRID)
        return misfit(script);
    script->at++;
    item->numbers = script->at;
    item->number_count = kind == GRID ? 2 : 1;
    return expect(script, NUMBER) && (kind != GRID || expect(script, NUMBER));
}

static bool read_started(struct script *script, struct item *item) {
    item->kind = STARTED_ITEM;
    script->at++;
    if (!expect_at(script, NAME, &item->of) || !expect(script, '('))
        return false;
    item->parts = script->at;
    do {
        if (!expect(script, NAME))
            return false;
        item->part_count++;
    } while (now(script) == ',' && expect(script, ','));
    return expect(script, ')');
}

static bool read_client(struct script *script, struct item *item) {
    if (!expect_at(script, NAME, &item->name))
        return false;
    if (now(script) == '=')
        return read_started(script, item);
    item->kind = CLIENT_ITEM;
    return read_blocks(script, item);
}

static bool read_template(struct script *script, struct item *item) {
    item->kind = TEMPLATE_ITEM;
    if (!expect_at(script, NAME, &item->name) || !expect(script, '('))
        return false;
    item->parts = script->at;
    do {
        uint8_t kind = now(script);
        if (kind != ACCOUNT && kind != BUFFER && kind != GRID)
            return misfit(script);
        script->at++;
        if (!expect(script, NAME))
            return false;
        item->part_count++;
    } while (now(script) == ',' && expect(script, ','));
    return expect(script, ')') && read_blocks(script, item);
}

static bool read_item(struct script *script) {
    struct item *item = &script->items[script->item_count++];
    uint8_t kind = now(script);
    *item = (struct item){.first_token = script->at, .blocks = NOTHING};
    if (kind != OBJECT && kind != CLIENT && kind != TEMPLATE)
        return misfit(script);
    script->at++;
    bool is_there = kind == OBJECT   ? read_object(script, item)
                    : kind == CLIENT ? read_client(script, item)
                                     : read_template(script, item);
    item->end_token = script->at;
    return is_there;
}

bool read_script(struct script *script, const uint8_t *text, size_t length) {
    script->text = text;
    script->length = length;
    script->fault = NO_FAULT;
    script->token_count = script->at = script->item_count = script->block_count = 0;
    script->statement_count = script->atom_count = script->node_count = 0;
    if (!read_tokens(script))
        return false;
    while (now(script) != TEXT_END)
        if (!read_item(script))
            return false;
    return true;
}

size_t fault_line(const struct script *script) {
    size_t line = 1;
    for (size_t i = 0; i < script->place; i++)
        line += script->text[i] == '\n';
    return line;
}

bool is_same(const struct script *script, uint32_t one, uint32_t other) {
    const struct token *a = &script->tokens[one], *b = &script->tokens[other];
    return a->length == b->length && !memcmp(script->text + a->start, script->text + b->start, a->length);
}
