/* All that a script can come to, block by block. */
#ifndef OUTCOMES_H
#define OUTCOMES_H

#include "line.h"
#include "text.h"

enum found { FOUND, OVER_THE_LIMIT, NO_ORDER, TOO_MUCH };

/* Whether a list of clients names an order. */
bool names_order(const struct script *script, const struct list *list);

/* Whether a list names an order, after which so many blocks more are left. */
bool leaves_blocks(const struct script *script, const struct list *list, uint32_t more);

/* Writes the outcomes, the ends or the fronts after the order that a list names. TOO_MUCH says that the search is too
 * long for here. */
enum found write_outcomes(struct text *text, const struct script *script, const struct line *line,
                          const struct list *after);

/* For each client the first one that is alike to it, which may be itself. */
void find_alike(const struct script *script, uint8_t *alike);

void write_estimate(struct text *text, const struct script *script, const struct list *after);

#endif
