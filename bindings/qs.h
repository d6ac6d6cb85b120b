/* The executor of SCOOP separate blocks, as a library: libqs_c.a, built from crates/qs_c, and the kit's liblibc_c.a,
   which takes its memory from malloc.

   Each call takes the text of a script, and the words that would stand on the program's line after the call's own
   word, one on each line of a text: what `qs play --mode static --chunk 4` writes for a script, qs_play answers for
   the words "--mode\nstatic\n--chunk\n4". It answers how long the text is that the program would write on its standard
   output, and sets *status to the program's exit status: 0 for a result, 1 for an answer that is no, 2 where the line,
   the script or a limit is refused (the text then says why, on one line), 3 where memory was refused. As much of the
   text stands at the front of the room as fits; the rest of the room stays as it was. Where the answer is more than
   the room has, ask again with more room: the text is the same each time, unless memory runs out.

   `qs run` has no call: it starts threads, which a library of this kind may not. Lines that ask for it can't be
   written here.

   What a caller keeps:
   - No pointer is null, also for a length of 0. The room and *status overlap nothing else.
   - Texts are any bytes; words that are no UTF-8 are refused. A word has no line feed in it.
   - malloc, realloc and free are of one allocator, and no call is made from a signal handler.

   Nothing is kept between calls, so several threads may call at once, each with memory of its own. */
#ifndef QS_H
#define QS_H

#include <stddef.h>
#include <stdint.h>

#ifdef __cplusplus
extern "C" {
#endif

/* How many objects, clients and blocks the script has, its load and its weight. */
size_t qs_check(const uint8_t *script, size_t script_length, const uint8_t *words, size_t words_length, uint8_t *room,
                size_t room_length, uint8_t *status);

/* The control-flow graph of each block, with the objects that are held at each node. */
size_t qs_graph(const uint8_t *script, size_t script_length, const uint8_t *words, size_t words_length, uint8_t *room,
                size_t room_length, uint8_t *status);

/* The report of a run by the plain rules. */
size_t qs_rules(const uint8_t *script, size_t script_length, const uint8_t *words, size_t words_length, uint8_t *room,
                size_t room_length, uint8_t *status);

/* The report of a run in the optimised machine. */
size_t qs_play(const uint8_t *script, size_t script_length, const uint8_t *words, size_t words_length, uint8_t *room,
               size_t room_length, uint8_t *status);

/* How many synchronisations each mode of coalescing sends, block by block. */
size_t qs_syncs(const uint8_t *script, size_t script_length, const uint8_t *words, size_t words_length, uint8_t *room,
                size_t room_length, uint8_t *status);

/* All that the script can come to. */
size_t qs_outcomes(const uint8_t *script, size_t script_length, const uint8_t *words, size_t words_length,
                   uint8_t *room, size_t room_length, uint8_t *status);

/* The answer to a question about all that the script can come to: yes or no, with an order that shows it. */
size_t qs_ask(const uint8_t *script, size_t script_length, const uint8_t *words, size_t words_length, uint8_t *room,
              size_t room_length, uint8_t *status);

/* Where so many blocks can lead: parts of a large search. */
size_t qs_fronts(const uint8_t *script, size_t script_length, const uint8_t *words, size_t words_length, uint8_t *room,
                 size_t room_length, uint8_t *status);

/* How large a search can be. */
size_t qs_estimate(const uint8_t *script, size_t script_length, const uint8_t *words, size_t words_length, uint8_t *room,
                   size_t room_length, uint8_t *status);

#ifdef __cplusplus
}
#endif

#endif
