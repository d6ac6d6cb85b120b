/* What the objects do. */
#include "running.h"

#define MOST_BALANCE INT64_C(1000000000000000)

typedef __int128 exact;

static int64_t clamped(exact value) {
    return value > INT64_MAX ? INT64_MAX : value < INT64_MIN ? INT64_MIN : (int64_t)value;
}

void make_object(struct object *object, const struct declared *declared) {
    object->kind = declared->kind;
    object->refused = object->balance = 0;
    object->first = object->count = object->rows = object->columns = 0;
    if (declared->kind == ACCOUNT) {
        object->balance = declared->numbers[0];
    } else if (declared->kind == BUFFER) {
        object->columns = (int)declared->numbers[0];
    } else {
        object->rows = (int)declared->numbers[0];
        object->columns = (int)declared->numbers[1];
        for (int i = 0; i < object->rows * object->columns; i++)
            object->values[i] = 0;
    }
}

static enum effect refuse(struct object *object) {
    object->refused += object->refused < INT64_MAX;
    return WAS_REFUSED;
}

static enum effect run_on_account(struct object *account, uint8_t act, int64_t amount, int64_t *reply) {
    switch (act) {
    case DEPOSIT:
        if (amount < 0 || amount > MOST_BALANCE - account->balance)
            return refuse(account);
        account->balance += amount;
        return DONE;
    case WITHDRAW:
        if (amount < 0 || amount > account->balance)
            return refuse(account);
        account->balance -= amount;
        return DONE;
    default:
        *reply = account->balance;
        return DONE;
    }
}

static void drop_first(struct object *buffer) {
    buffer->first = (buffer->first + 1) % buffer->columns;
    buffer->count--;
}

static enum effect run_on_buffer(struct object *buffer, uint8_t act, int64_t value, int64_t *reply) {
    switch (act) {
    case PUT:
        if (buffer->count == buffer->columns)
            return refuse(buffer);
        buffer->values[(buffer->first + buffer->count++) % buffer->columns] = value;
        return DONE;
    case DROP:
        if (!buffer->count)
            return refuse(buffer);
        drop_first(buffer);
        return DONE;
    case SIZE:
        *reply = buffer->count;
        return DONE;
    default:
        *reply = buffer->count ? buffer->values[buffer->first] : 0;
        if (!buffer->count)
            return NOTHING_THERE;
        if (act == TAKE)
            drop_first(buffer);
        return DONE;
    }
}

/* The cell of a row and a column, or null where these are outside. */
static int64_t *cell_of(struct object *grid, int64_t row, int64_t column) {
    if (row < 0 || row >= grid->rows || column < 0 || column >= grid->columns)
        return NULL;
    return &grid->values[row * grid->columns + column];
}

static enum effect run_row(struct object *grid, int64_t row, int64_t *reply) {
    exact sum = 0;
    *reply = 0;
    if (!cell_of(grid, row, 0))
        return NOTHING_THERE;
    for (int64_t column = 0; column < grid->columns; column++)
        sum += *cell_of(grid, row, column);
    *reply = clamped(sum);
    return DONE;
}

static enum effect run_on_grid(struct object *grid, uint8_t act, const int64_t *arguments, int64_t *reply) {
    if (act == FILL) {
        for (int i = 0; i < grid->rows * grid->columns; i++)
            grid->values[i] = arguments[0];
        return DONE;
    }
    if (act == ROW)
        return run_row(grid, arguments[0], reply);
    int64_t *cell = cell_of(grid, arguments[0], arguments[1]);
    if (act == GET) {
        *reply = cell ? *cell : 0;
        return cell ? DONE : NOTHING_THERE;
    }
    if (!cell)
        return refuse(grid);
    *cell = act == SET ? arguments[2] : clamped((exact)*cell + arguments[2]);
    return DONE;
}

enum effect run_operation(struct object *object, int operation, const int64_t *arguments, int64_t *reply) {
    uint8_t act = OPERATIONS[operation].act;
    if (act == REFUSED) {
        *reply = object->refused;
        return DONE;
    }
    switch (object->kind) {
    case ACCOUNT:
        return run_on_account(object, act, arguments[0], reply);
    case BUFFER:
        return run_on_buffer(object, act, arguments[0], reply);
    default:
        return run_on_grid(object, act, arguments, reply);
    }
}

/* What a client computes. */

int64_t value_of(const struct goer *goer, const struct atom *atom) {
    return atom->is_variable ? goer->variables[atom->value] : atom->value;
}

static int64_t value_at(const struct goer *goer, const struct node *node) {
    exact first = value_of(goer, &node->atoms[0]);
    if (!node->sign)
        return (int64_t)first;
    exact second = value_of(goer, &node->atoms[1]);
    return clamped(node->sign == '+' ? first + second : node->sign == '-' ? first - second : first * second);
}

static bool holds_at(const struct goer *goer, const struct node *node) {
    int64_t first = value_of(goer, &node->atoms[0]), second = value_of(goer, &node->atoms[1]);
    switch (node->sign) {
    case EQUAL:
        return first == second;
    case UNEQUAL:
        return first != second;
    case '<':
        return first < second;
    case AT_MOST:
        return first <= second;
    case '>':
        return first > second;
    default:
        return first >= second;
    }
}

int blocks_of(const struct script *script, int client) {
    return script->bodies[script->clients[client].body].block_count;
}

void begin_block(const struct script *script, int client, struct goer *goer) {
    const struct body *body = &script->bodies[script->clients[client].body];
    goer->nodes = goer->at = script->nodes + body->graphs[goer->begun++];
}

void go_on(struct goer *goer) {
    for (;;) {
        const struct node *node = goer->at;
        uint32_t next = node->next;
        switch (node->kind) {
        case ASSIGN:
            goer->variables[node->variable] = value_at(goer, node);
            break;
        case SET_COUNT:
            goer->counts[node->depth] = node->turns;
            break;
        case CHOOSE:
            next = holds_at(goer, node) ? node->next : node->other;
            break;
        case AGAIN:
            next = goer->counts[node->depth] ? node->next : node->other;
            goer->counts[node->depth] -= goer->counts[node->depth] > 0;
            break;
        case ENTRY:
        case LEAVE_LOOP:
            break;
        default:
            return;
        }
        goer->at = goer->nodes + next;
    }
}
