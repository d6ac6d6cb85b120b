/* The memory of qs.wasm: what the kit's libraries ask for, and what a page asks for around a call.

   Memory is cut into pieces that lie one behind another. A piece begins with its head: its size, with the lowest bit
   set while it is taken, and the size of the piece before it. So a piece that is given back grows together with free
   neighbours. Free pieces of like size are in a list of their own, and a word of bits says which lists have any. The
   last piece is a mark of no size, which is always taken; new memory of the machine is put in its place. */

typedef unsigned long word;

enum { HEAD = 16, LEAST = 32, EXACT = 64, LISTS = 192, PAGE = 65536, LEAST_GROWTH = 16 };

static const word MOST = (word)1 << 40;

struct piece {
    word size_and_taken;
    word size_before;
    struct piece *next; /* in its list, while it is free */
    struct piece *previous;
};

struct answer {
    word is_given;
    void *pointer;
};

extern unsigned char __heap_base;
static struct piece *lists[LISTS];
static word have[LISTS / 64];
static struct piece *end;
static word in_use;

static word size_of(const struct piece *piece) { return piece->size_and_taken & ~(word)1; }

static int is_taken(const struct piece *piece) { return piece->size_and_taken & 1; }

static struct piece *after(struct piece *piece) { return (struct piece *)((char *)piece + size_of(piece)); }

static struct piece *before(struct piece *piece) { return (struct piece *)((char *)piece - piece->size_before); }

static void *room_of(struct piece *piece) { return (char *)piece + HEAD; }

static struct piece *piece_of(void *room) { return (struct piece *)((char *)room - HEAD); }

static void put_size(struct piece *piece, word size, word taken) {
    piece->size_and_taken = size | taken;
    after(piece)->size_before = size;
}

/* The list of a size: one for each multiple of 16 below 1024, and above it four for each power of two. */
static unsigned list_of(word size) {
    if (size < 16 * EXACT)
        return size / 16;
    unsigned power = 63 - __builtin_clzl(size);
    return EXACT + (power - 10) * 4 + ((size >> (power - 2)) & 3);
}

static void put_in_list(struct piece *piece) {
    unsigned list = list_of(size_of(piece));
    piece->previous = 0;
    piece->next = lists[list];
    if (piece->next)
        piece->next->previous = piece;
    lists[list] = piece;
    have[list / 64] |= (word)1 << (list % 64);
}

static void take_from_list(struct piece *piece) {
    unsigned list = list_of(size_of(piece));
    if (piece->next)
        piece->next->previous = piece->previous;
    if (piece->previous)
        piece->previous->next = piece->next;
    else
        lists[list] = piece->next;
    if (!lists[list])
        have[list / 64] &= ~((word)1 << (list % 64));
}

/* The first list from one on that has a piece, or LISTS. */
static unsigned list_from(unsigned list) {
    if (list >= LISTS)
        return LISTS;
    word bits = have[list / 64] & (~(word)0 << (list % 64));
    for (unsigned part = list / 64;;) {
        if (bits)
            return part * 64 + __builtin_ctzl(bits);
        if (++part == LISTS / 64)
            return LISTS;
        bits = have[part];
    }
}

/* A free piece of at least a size: of its own list the first that is large enough, or any of a list above. */
static struct piece *found(word size) {
    unsigned list = list_of(size);
    for (struct piece *piece = lists[list]; piece; piece = piece->next)
        if (size_of(piece) >= size)
            return piece;
    list = list_from(list + 1);
    return list == LISTS ? 0 : lists[list];
}

/* Puts a piece that nobody has into its list, grown together with its free neighbours. */
static void put_back(struct piece *piece) {
    word size = size_of(piece);
    struct piece *next = after(piece);
    if (!is_taken(next)) {
        take_from_list(next);
        size += size_of(next);
    }
    if (piece->size_before && !is_taken(before(piece))) {
        piece = before(piece);
        take_from_list(piece);
        size += size_of(piece);
    }
    put_size(piece, size, 0);
    put_in_list(piece);
}

/* Gets new memory for a piece of a size from the machine: as much again as an eighth of what there is. */
static int is_grown(word size) {
    word had = __builtin_wasm_memory_size(0), pages = (size + 2 * HEAD + PAGE - 1) / PAGE + LEAST_GROWTH;
    word more = pages > had / 8 ? pages : had / 8;
    if (__builtin_wasm_memory_grow(0, more) == ~(word)0 && __builtin_wasm_memory_grow(0, more = pages) == ~(word)0)
        return 0;
    word top = (had + more) * PAGE;
    struct piece *piece = end;
    if (!end) {
        piece = (struct piece *)(((word)&__heap_base + 15) & ~(word)15);
        piece->size_before = 0;
    }
    end = (struct piece *)(top - HEAD);
    put_size(piece, (word)end - (word)piece, 0);
    end->size_and_taken = 1;
    put_back(piece);
    return 1;
}

/* Cuts what is left of a piece behind a size off, and gives it back. */
static void cut(struct piece *piece, word size) {
    word left = size_of(piece) - size;
    if (left < LEAST)
        return;
    put_size(piece, size, 1);
    struct piece *rest = after(piece);
    put_size(rest, left, 0);
    put_back(rest);
}

static word size_for(word size) {
    word whole = ((size + 15) & ~(word)15) + HEAD;
    return whole < LEAST ? LEAST : whole;
}

void *qs_take(word size) {
    if (size > MOST)
        return 0;
    word whole = size_for(size);
    struct piece *piece = found(whole);
    if (!piece) {
        if (!is_grown(whole))
            return 0;
        piece = found(whole);
    }
    take_from_list(piece);
    put_size(piece, size_of(piece), 1);
    cut(piece, whole);
    in_use += size_of(piece);
    return room_of(piece);
}

void qs_give_back(void *room) {
    struct piece *piece = piece_of(room);
    in_use -= size_of(piece);
    put_back(piece);
}

/* Makes a room larger where it lies, if what follows it is free; whether that was possible. */
static int is_stretched(struct piece *piece, word whole) {
    struct piece *next = after(piece);
    if (is_taken(next) || size_of(piece) + size_of(next) < whole)
        return 0;
    take_from_list(next);
    put_size(piece, size_of(piece) + size_of(next), 1);
    return 1;
}

void *qs_resize(void *room, word size) {
    if (size > MOST)
        return 0;
    struct piece *piece = piece_of(room);
    word whole = size_for(size), had = size_of(piece);
    if (had >= whole || is_stretched(piece, whole)) {
        cut(piece, whole);
        in_use += size_of(piece) - had;
        return room;
    }
    void *other = qs_take(size);
    if (!other)
        return 0;
    __builtin_memcpy(other, room, had - HEAD);
    qs_give_back(room);
    return other;
}

/* How many bytes are taken, with the heads: after a call as many as before it. */
word qs_in_use(void) { return in_use; }

/* What the kit's libraries call. As with `malloc` every room is at a multiple of 16, whatever is asked for. */

struct answer rattle_alloc(word size, word align) {
    void *room = qs_take(size ? size : align);
    return (struct answer){room != 0, room};
}

struct answer rattle_realloc(void *room, word old_size, word size, word align) {
    void *other = qs_resize(room, size ? size : align);
    return (struct answer){other != 0, other};
}

void rattle_dealloc(void *room) { qs_give_back(room); }
