/*
 * A block ring on Xen's public headers, and the event channel beside it.
 *
 * The headers give the layout of the page and the arithmetic of its indices. Their macros that publish and look read and
 * write an index without an atomic access, which C11 does not allow between threads; the functions here do what they
 * do, with one.
 */
#ifndef BLK_RING_H
#define BLK_RING_H

#include <pthread.h>
#include <stdbool.h>
#include <stddef.h>
#include <stdint.h>
#include <string.h>

#include <xen/xen.h>

#include <xen/grant_table.h>
#include <xen/io/blkif.h>
#include <xen/io/ring.h>

/* Publish what was put into the ring. True if the other end has to be told. */
bool ring_push_requests(struct blkif_front_ring *front);
bool ring_push_responses(struct blkif_back_ring *back);

/* Whether something waits; if not, the other end tells of what comes next. */
bool ring_await_requests(struct blkif_back_ring *back);
bool ring_await_responses(struct blkif_front_ring *front);

/* How many wait. */
RING_IDX ring_requests(const struct blkif_back_ring *back);
RING_IDX ring_responses(const struct blkif_front_ring *front);

struct channel {
    pthread_mutex_t lock;
    pthread_cond_t raised;
    bool is_raised;
};

void channel_init(struct channel *channel);
void channel_raise(struct channel *channel);
/* Waits until it has been raised, and lowers it. */
void channel_wait(struct channel *channel);

#endif
