/* What the harness and the mutator know of an input. */
#ifndef HARNESS_H
#define HARNESS_H

#include "script.h"

/* So many bytes say what is asked; the script comes after them. */
enum { HEAD = 16 };

#endif
