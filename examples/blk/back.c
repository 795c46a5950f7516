#include "back.h"

enum { BOUNCE_FRAME = 0 }; /* of its own, for copies */

/* A request in one form, whether it was direct or indirect. */
struct job {
    uint64_t id, sector;
    uint8_t operation; /* as it was sent */
    bool writes;       /* to the disk */
    size_t count;
    struct blkif_request_segment segments[MOST_SEGMENTS];
};

/* Maps a page and keeps its handle, so that it is let go with the others. NULL if it is refused, or one too many. */
static uint8_t *map_page(struct back *back, uint32_t gref, bool writes)
{
    struct gthost_handle name;
    if (back->kept_count > MOST_SEGMENTS || !guest_map(back->host, BACK, FRONT, gref, writes, &name)) {
        return NULL;
    }
    back->kept[back->kept_count++] = name;
    return guest_page(back->host, BACK, name, writes);
}

static bool let_go(struct back *back)
{
    bool all = true;
    while (back->kept_count > 0) {
        all = guest_unmap(back->host, BACK, back->kept[--back->kept_count]) && all;
    }
    return all;
}

static bool read_direct(const struct blkif_request *request, struct job *job)
{
    job->id = request->id;
    job->sector = request->sector_number;
    job->writes = request->operation == BLKIF_OP_WRITE;
    job->count = request->nr_segments;
    if (job->count < 1 || job->count > BLKIF_MAX_SEGMENTS_PER_REQUEST) {
        return false;
    }
    memcpy(job->segments, request->seg, job->count * sizeof job->segments[0]);
    return true;
}

/* The segments of an indirect request stand in a page of their own. They are read once, since the page is shared. */
static bool read_indirect(struct back *back, const struct blkif_request *request, struct job *job)
{
    struct blkif_request_indirect indirect;
    memcpy(&indirect, request, sizeof indirect);
    job->id = indirect.id;
    job->sector = indirect.sector_number;
    job->writes = indirect.indirect_op == BLKIF_OP_WRITE;
    job->count = indirect.nr_segments;
    if (job->count < 1 || job->count > MOST_SEGMENTS ||
        (indirect.indirect_op != BLKIF_OP_READ && indirect.indirect_op != BLKIF_OP_WRITE)) {
        return false;
    }
    const uint8_t *page = map_page(back, indirect.indirect_grefs[0], false);
    if (!page) {
        return false;
    }
    memcpy(job->segments, page, job->count * sizeof job->segments[0]);
    return true;
}

static bool move_mapped(struct back *back, const struct job *job, const struct blkif_request_segment *segment,
                        uint64_t sector, uint64_t count)
{
    uint8_t *page = map_page(back, segment->gref, !job->writes);
    if (!page) {
        return false;
    }
    page += segment->first_sect * SECTOR;
    if (job->writes) {
        disk_write(back->disk, sector, count, page);
    } else {
        disk_read(back->disk, sector, count, page);
    }
    return true;
}

static bool move_copied(struct back *back, const struct job *job, const struct blkif_request_segment *segment,
                        uint64_t sector, uint64_t count)
{
    const struct gthost_end theirs = {segment->gref, FRONT, (uint16_t)(segment->first_sect * SECTOR)};
    const struct gthost_end own = {BOUNCE_FRAME, BACK, 0};
    uint8_t *bounce = own_page(back->host, BACK, BOUNCE_FRAME);
    uint16_t len = (uint16_t)(count * SECTOR);
    if (job->writes) {
        const struct gthost_copy in = {theirs, own, len, GTHOST_COPY_SOURCE_GREF};
        if (!guest_copy(back->host, BACK, &in)) {
            return false;
        }
        disk_write(back->disk, sector, count, bounce);
        return true;
    }
    const struct gthost_copy out = {own, theirs, len, GTHOST_COPY_DEST_GREF};
    disk_read(back->disk, sector, count, bounce);
    return guest_copy(back->host, BACK, &out);
}

static bool move_all(struct back *back, const struct job *job)
{
    uint64_t sector = job->sector;
    for (size_t i = 0; i < job->count; i++) {
        const struct blkif_request_segment *segment = &job->segments[i];
        if (segment->first_sect > segment->last_sect || segment->last_sect >= PAGE / SECTOR) {
            return false;
        }
        uint64_t count = (uint64_t)segment->last_sect - segment->first_sect + 1;
        if (!disk_has(sector, count)) {
            return false;
        }
        if (back->way == COPIES ? !move_copied(back, job, segment, sector, count)
                                : !move_mapped(back, job, segment, sector, count)) {
            return false;
        }
        sector += count;
    }
    return true;
}

static int16_t serve(struct back *back, const struct blkif_request *request, struct job *job)
{
    bool done;
    job->id = request->id;
    job->operation = request->operation;
    switch (request->operation) {
    case BLKIF_OP_READ:
    case BLKIF_OP_WRITE:
        done = read_direct(request, job) && move_all(back, job);
        break;
    case BLKIF_OP_INDIRECT:
        done = read_indirect(back, request, job) && move_all(back, job);
        break;
    case BLKIF_OP_FLUSH_DISKCACHE:
        return let_go(back) ? BLKIF_RSP_OKAY : BLKIF_RSP_ERROR;
    default:
        return BLKIF_RSP_EOPNOTSUPP;
    }
    if (back->way != KEEPS) {
        done = let_go(back) && done;
    }
    return done ? BLKIF_RSP_OKAY : BLKIF_RSP_ERROR;
}

static void answer(struct back *back, const struct job *job, int16_t status)
{
    struct blkif_response *response = RING_GET_RESPONSE(&back->ring, back->ring.rsp_prod_pvt);
    response->id = job->id;
    response->operation = job->operation;
    response->status = status;
    back->ring.rsp_prod_pvt++;
    back->served++;
    back->failed += status != BLKIF_RSP_OKAY;
}

static void serve_all(struct back *back)
{
    while (ring_requests(&back->ring)) {
        struct blkif_request request;
        struct job job;
        RING_COPY_REQUEST(&back->ring, back->ring.req_cons, &request);
        back->ring.req_cons++;
        answer(back, &job, serve(back, &request, &job));
        if (ring_push_responses(&back->ring)) {
            channel_raise(&back->link->to_front);
        }
    }
}

static void tell_front(struct link *link, atomic_bool *what)
{
    atomic_store(what, true);
    channel_raise(&link->to_front);
}

void *back_main(void *arg)
{
    struct back *back = arg;
    struct gthost_handle name;
    uint8_t *page = NULL;
    if (guest_map(back->host, BACK, FRONT, RING_REF, true, &name)) {
        page = guest_page(back->host, BACK, name, true);
    }
    if (!page) {
        back->failed++;
        tell_front(back->link, &back->link->is_refused);
        return NULL;
    }
    BACK_RING_INIT(&back->ring, (struct blkif_sring *)page, PAGE);
    tell_front(back->link, &back->link->is_connected);
    while (!atomic_load(&back->link->is_closed)) {
        if (ring_await_requests(&back->ring)) {
            serve_all(back);
        } else {
            channel_wait(&back->link->to_back);
        }
    }
    back->failed += !let_go(back);
    back->failed += !guest_unmap(back->host, BACK, name);
    return NULL;
}
