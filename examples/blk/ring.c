#include "ring.h"

/* All accesses to an index are in one order: an end that publishes looks at the event after its store, and one that
 * goes to sleep looks at the index after its own, so that one of them sees the other. */
static RING_IDX load(const RING_IDX *index)
{
    return __atomic_load_n(index, __ATOMIC_SEQ_CST);
}

static void store(RING_IDX *index, RING_IDX value)
{
    __atomic_store_n(index, value, __ATOMIC_SEQ_CST);
}

static bool push(RING_IDX *shared, RING_IDX private_index, const RING_IDX *event)
{
    RING_IDX old = load(shared);
    store(shared, private_index);
    return private_index - load(event) < private_index - old;
}

bool ring_push_requests(struct blkif_front_ring *front)
{
    return push(&front->sring->req_prod, front->req_prod_pvt, &front->sring->req_event);
}

bool ring_push_responses(struct blkif_back_ring *back)
{
    return push(&back->sring->rsp_prod, back->rsp_prod_pvt, &back->sring->rsp_event);
}

RING_IDX ring_requests(const struct blkif_back_ring *back)
{
    RING_IDX waiting = load(&back->sring->req_prod) - back->req_cons;
    RING_IDX room = RING_SIZE(back) - (back->req_cons - back->rsp_prod_pvt);
    return waiting < room ? waiting : room;
}

RING_IDX ring_responses(const struct blkif_front_ring *front)
{
    return load(&front->sring->rsp_prod) - front->rsp_cons;
}

bool ring_await_requests(struct blkif_back_ring *back)
{
    if (ring_requests(back)) {
        return true;
    }
    store(&back->sring->req_event, back->req_cons + 1);
    return ring_requests(back);
}

bool ring_await_responses(struct blkif_front_ring *front)
{
    if (ring_responses(front)) {
        return true;
    }
    store(&front->sring->rsp_event, front->rsp_cons + 1);
    return ring_responses(front);
}

void channel_init(struct channel *channel)
{
    pthread_mutex_init(&channel->lock, NULL);
    pthread_cond_init(&channel->raised, NULL);
    channel->is_raised = false;
}

void channel_raise(struct channel *channel)
{
    pthread_mutex_lock(&channel->lock);
    channel->is_raised = true;
    pthread_cond_signal(&channel->raised);
    pthread_mutex_unlock(&channel->lock);
}

void channel_wait(struct channel *channel)
{
    pthread_mutex_lock(&channel->lock);
    while (!channel->is_raised) {
        pthread_cond_wait(&channel->raised, &channel->lock);
    }
    channel->is_raised = false;
    pthread_mutex_unlock(&channel->lock);
}
