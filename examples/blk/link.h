/* What the two ends know of each other before they share a page: what a XenStore holds, and the event channels. */
#ifndef BLK_LINK_H
#define BLK_LINK_H

#include "ring.h"

#include <stdatomic.h>

enum {
    RING_REF = 1,      /* the reference of the ring's page */
    MOST_SEGMENTS = 32 /* of an indirect request ("feature-max-indirect-segments") */
};

struct link {
    struct channel to_front, to_back;
    atomic_bool is_connected; /* the back end has the ring mapped */
    atomic_bool is_refused;   /* it could not map it */
    atomic_bool is_closed;    /* no request comes any more */
};

#endif
