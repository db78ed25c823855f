/* The same for vectors of eight numbers. */
#define OWN_WIDTH 8
#include "baseline.c"
