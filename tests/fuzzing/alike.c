/* Which clients are alike: their texts differ only in names. */
#include "outcomes.h"

/* The texts of two clients that are compared. */
struct pair {
    const struct script *script;
    const struct client *one, *other;
};

static bool have_same_atoms(const struct script *script, const struct statement *one, const struct statement *other) {
    if (one->atom_count != other->atom_count)
        return false;
    for (uint32_t i = 0; i < one->atom_count; i++) {
        const struct atom *first = &script->atoms[one->first_atom + i], *second = &script->atoms[other->first_atom + i];
        if (first->is_variable != second->is_variable || first->value != second->value)
            return false;
    }
    return true;
}

/* Whether two statements are the same, but for the statements inside of them. */
static bool are_same_outside(const struct pair *pair, const struct statement *one, const struct statement *other) {
    if (one->kind != other->kind || !have_same_atoms(pair->script, one, other))
        return false;
    switch (one->kind) {
    case COMMAND_STATEMENT:
    case QUERY_STATEMENT:
        return pair->one->object_of[one->named] == pair->other->object_of[other->named] && one->act == other->act &&
               (one->kind == COMMAND_STATEMENT || one->variable == other->variable);
    case ASSIGNMENT:
        return one->variable == other->variable && one->sign == other->sign;
    case IF_STATEMENT:
        return one->sign == other->sign && one->has_else == other->has_else;
    case REPEAT_STATEMENT:
        return number_at(pair->script, one->turns) == number_at(pair->script, other->turns);
    default:
        return true;
    }
}

/* Whether two lists of statements are the same. */
static bool are_same_statements(const struct pair *pair, int32_t one, int32_t other) {
    while (one != NOTHING && other != NOTHING) {
        const struct statement *first = &pair->script->statements[one], *second = &pair->script->statements[other];
        if (!are_same_outside(pair, first, second) || !are_same_statements(pair, first->first, second->first) ||
            !are_same_statements(pair, first->second, second->second))
            return false;
        one = first->next;
        other = second->next;
    }
    return one == other;
}

static bool have_same_list(const struct pair *pair, int block) {
    if (pair->one->list_length[block] != pair->other->list_length[block])
        return false;
    for (int i = 0; i < pair->one->list_length[block]; i++)
        if (pair->one->list[block][i] != pair->other->list[block][i])
            return false;
    return true;
}

static bool are_alike(const struct pair *pair) {
    const struct script *script = pair->script;
    const struct body *one = &script->bodies[pair->one->body], *other = &script->bodies[pair->other->body];
    if (one->variable_count != other->variable_count || one->block_count != other->block_count)
        return false;
    for (int i = 0; i < one->block_count; i++)
        if (!have_same_list(pair, i) ||
            !are_same_statements(pair, script->blocks[one->blocks[i]].body, script->blocks[other->blocks[i]].body))
            return false;
    return true;
}

void find_alike(const struct script *script, uint8_t *alike) {
    for (int i = 0; i < script->client_count; i++) {
        int first = 0;
        while (first < i && !are_alike(&(struct pair){script, &script->clients[first], &script->clients[i]}))
            first++;
        alike[i] = (uint8_t)first;
    }
}
