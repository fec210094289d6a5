/* This library from C, with functions as handlers and as guards. */
#define GUARDED
#include "function.c"
