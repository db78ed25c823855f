/* The C that the engine is measured against, as functions that another program can call. Vectors have four
   numbers; wide.c has the same with eight. */
#define OWN_API __attribute__((noinline))
#include "own.h"
#include "sets.h"
#include "catalogue.h"

size_t OWN(answer_size)(void) { return sizeof(own_ans); }

size_t OWN(catalogue_size)(void) { return sizeof(own_catalogue); }
