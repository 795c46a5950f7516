/* A back end that does what it may not. */
#ifndef BLK_HOSTILE_H
#define BLK_HOSTILE_H

#include "guest.h"

/* Tries each thing over the library, prints the rule that refuses it, and answers how many had another outcome. */
int hostile_run(struct host *host);

#endif
