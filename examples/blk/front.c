#include "front.h"

#include <stdio.h>

enum {
    RING_FRAME = 0,
    FIRST_REF = 8, /* the reference of frame f is this and f: Xen keeps the lower ones for the toolstack */
    MOST_FAULTS = 10,
    FLUSH_ID = FLIGHTS,
    WORDS = SECTOR / sizeof(uint64_t)
};

static void fault(struct front *front, const char *what, uint64_t where)
{
    if (front->faults++ < MOST_FAULTS) {
        fprintf(stderr, "front: %s: %llu\n", what, (unsigned long long)where);
    }
}

static uint64_t mixed(uint64_t x)
{
    x = (x ^ (x >> 30)) * 0xBF58476D1CE4E5B9u;
    x = (x ^ (x >> 27)) * 0x94D049BB133111EBu;
    return x ^ (x >> 31);
}

static uint64_t draw(struct front *front, uint64_t below)
{
    front->seed += 0x9E3779B97F4A7C15u;
    return mixed(front->seed) % below;
}

/* What a sector holds is its number and the stamp of the write that wrote it last, spread over all its bytes. */
static void fill(uint8_t *bytes, uint64_t sector, uint32_t stamp)
{
    uint64_t word = stamp ? mixed(sector << 32 | stamp) : 0;
    for (size_t i = 0; i < WORDS; i++) {
        memcpy(bytes + i * sizeof word, &word, sizeof word);
        word += stamp ? 0x9E3779B97F4A7C15u : 0;
    }
}

static bool holds(const uint8_t *bytes, uint64_t sector, uint32_t stamp)
{
    uint8_t wanted[SECTOR];
    fill(wanted, sector, stamp);
    return memcmp(bytes, wanted, SECTOR) == 0;
}

static uint32_t reference(uint64_t frame)
{
    return FIRST_REF + (uint32_t)frame;
}

/* Draws the next request: its segments, and where on the disk it begins. */
static void plan(struct front *front, struct flight *flight)
{
    flight->writes = draw(front, 2);
    flight->is_indirect = draw(front, 8) == 0;
    flight->count = flight->is_indirect
                        ? BLKIF_MAX_SEGMENTS_PER_REQUEST + 1 + draw(front, MOST_SEGMENTS - BLKIF_MAX_SEGMENTS_PER_REQUEST)
                        : 1 + draw(front, BLKIF_MAX_SEGMENTS_PER_REQUEST);
    uint64_t sectors = 0;
    for (size_t i = 0; i < flight->count; i++) {
        flight->first[i] = (uint8_t)draw(front, PAGE / SECTOR);
        flight->last[i] = (uint8_t)(flight->first[i] + draw(front, (uint64_t)(PAGE / SECTOR) - flight->first[i]));
        sectors += (uint64_t)flight->last[i] - flight->first[i] + 1;
    }
    flight->sector = draw(front, SECTORS - sectors + 1);
    front->segments += flight->count;
    front->sectors += sectors;
}

static void grant_frame(struct front *front, uint64_t frame, bool read_only)
{
    if (!guest_grant(front->host, FRONT, reference(frame), frame, read_only)) {
        fault(front, "a grant was refused, of frame", frame);
    }
}

/* Gives the request its pages, and to a write their bytes; notes what a read has to find. */
static void prepare(struct front *front, struct flight *flight)
{
    uint64_t sector = flight->sector;
    size_t place = 0;
    if (flight->writes) {
        front->stamp++;
    }
    for (size_t i = 0; i < flight->count; i++) {
        uint64_t frame = flight->frames[i] = front->free_frames[--front->free_frame_count];
        uint8_t *page = own_page(front->host, FRONT, frame);
        for (unsigned at = flight->first[i]; at <= flight->last[i]; at++, sector++) {
            if (flight->writes) {
                front->stamp_of[sector] = front->stamp;
                fill(page + at * SECTOR, sector, front->stamp);
            }
            flight->stamps[place++] = front->stamp_of[sector];
        }
        grant_frame(front, frame, flight->writes); /* the back end only reads what is to be written */
    }
}

static void put_segments(const struct flight *flight, struct blkif_request_segment *segments)
{
    for (size_t i = 0; i < flight->count; i++) {
        segments[i].gref = reference(flight->frames[i]);
        segments[i].first_sect = flight->first[i];
        segments[i].last_sect = flight->last[i];
    }
}

static void put_direct(const struct flight *flight, uint64_t id, struct blkif_request *request)
{
    memset(request, 0, sizeof *request);
    request->operation = flight->writes ? BLKIF_OP_WRITE : BLKIF_OP_READ;
    request->nr_segments = (uint8_t)flight->count;
    request->id = id;
    request->sector_number = flight->sector;
    put_segments(flight, request->seg);
}

static void put_indirect(struct front *front, struct flight *flight, uint64_t id, struct blkif_request *request)
{
    struct blkif_request_indirect indirect = {
        .operation = BLKIF_OP_INDIRECT,
        .indirect_op = flight->writes ? BLKIF_OP_WRITE : BLKIF_OP_READ,
        .nr_segments = (uint16_t)flight->count,
        .id = id,
        .sector_number = flight->sector,
    };
    struct blkif_request_segment segments[MOST_SEGMENTS] = {{0}};
    uint64_t frame = flight->frames[flight->count] = front->free_frames[--front->free_frame_count];
    put_segments(flight, segments);
    memcpy(own_page(front->host, FRONT, frame), segments, sizeof segments);
    grant_frame(front, frame, true);
    indirect.indirect_grefs[0] = reference(frame);
    memset(request, 0, sizeof *request);
    memcpy(request, &indirect, sizeof indirect);
}

/* Sends the next request, if there is one and a place and pages for it. */
static bool send_next(struct front *front)
{
    if (!front->has_next) {
        if (front->sent == front->wanted || front->free_flight_count == 0) {
            return false;
        }
        front->next = front->free_flights[--front->free_flight_count];
        front->has_next = true;
        plan(front, &front->flights[front->next]);
    }
    struct flight *flight = &front->flights[front->next];
    if (RING_FULL(&front->ring) || front->free_frame_count < flight->count + flight->is_indirect) {
        return false;
    }
    struct blkif_request *request = RING_GET_REQUEST(&front->ring, front->ring.req_prod_pvt);
    prepare(front, flight);
    if (flight->is_indirect) {
        put_indirect(front, flight, front->next, request);
    } else {
        put_direct(flight, front->next, request);
    }
    front->ring.req_prod_pvt++;
    front->has_next = false;
    flight->is_sent = true;
    front->sent++;
    return true;
}

static void send_flush(struct front *front)
{
    struct blkif_request *request = RING_GET_REQUEST(&front->ring, front->ring.req_prod_pvt);
    memset(request, 0, sizeof *request);
    request->operation = BLKIF_OP_FLUSH_DISKCACHE;
    request->id = FLUSH_ID;
    front->ring.req_prod_pvt++;
}

static void push(struct front *front)
{
    if (ring_push_requests(&front->ring)) {
        channel_raise(&front->link->to_back);
    }
}

static void compare(struct front *front, const struct flight *flight)
{
    uint64_t sector = flight->sector;
    size_t place = 0;
    for (size_t i = 0; i < flight->count; i++) {
        const uint8_t *page = own_page(front->host, FRONT, flight->frames[i]);
        for (unsigned at = flight->first[i]; at <= flight->last[i]; at++, sector++) {
            if (!holds(page + at * SECTOR, sector, flight->stamps[place++])) {
                fault(front, "other bytes than written, in sector", sector);
            }
        }
    }
}

/* Revokes the pages of a request, which is answered by this rule. */
static void revoke_pages(struct front *front, const struct flight *flight, uint32_t rule)
{
    for (size_t i = 0; i < flight->count + flight->is_indirect; i++) {
        if (guest_revoke(front->host, FRONT, reference(flight->frames[i])) != rule) {
            fault(front, rule ? "a page in use was not N19, frame" : "a page was not revoked, frame", flight->frames[i]);
        }
        front->busy += rule == 19;
    }
}

/* No page of the request is in use any more. It is read once the back end can't change it. */
static void finish(struct front *front, size_t id)
{
    struct flight *flight = &front->flights[id];
    revoke_pages(front, flight, GTHOST_OK);
    if (!flight->writes) {
        compare(front, flight);
    }
    for (size_t i = 0; i < flight->count + flight->is_indirect; i++) {
        front->free_frames[front->free_frame_count++] = flight->frames[i];
    }
    flight->is_sent = false;
    front->free_flights[front->free_flight_count++] = id;
    front->done++;
}

static void take_response(struct front *front)
{
    struct blkif_response response;
    RING_COPY_RESPONSE(&front->ring, front->ring.rsp_cons, &response);
    front->ring.rsp_cons++;
    if (response.status != BLKIF_RSP_OKAY) {
        fault(front, "a request failed", response.id);
    }
    if (response.id == FLUSH_ID && front->flights[front->kept].is_sent) {
        finish(front, front->kept);
    } else if (response.id >= FLIGHTS || !front->flights[response.id].is_sent) {
        fault(front, "no such request", response.id);
    } else if (front->tests_pins) {
        front->kept = response.id;
        revoke_pages(front, &front->flights[response.id], 19);
        send_flush(front);
        push(front);
    } else {
        finish(front, response.id);
    }
}

static void run(struct front *front)
{
    while (front->done < front->wanted && front->faults < MOST_FAULTS) {
        size_t most = front->tests_pins ? front->sent == front->done : FLIGHTS;
        bool has_sent = false;
        while (most-- > 0 && send_next(front)) {
            has_sent = true;
        }
        if (has_sent) {
            push(front);
        }
        while (!ring_await_responses(&front->ring)) {
            channel_wait(&front->link->to_front);
        }
        while (ring_responses(&front->ring)) {
            take_response(front);
        }
    }
}

void front_init(struct front *front)
{
    for (size_t i = 0; i < FLIGHTS; i++) {
        front->free_flights[front->free_flight_count++] = i;
    }
    for (uint64_t frame = RING_FRAME + 1; frame < FRAMES; frame++) {
        front->free_frames[front->free_frame_count++] = frame;
    }
    struct blkif_sring *shared = (struct blkif_sring *)own_page(front->host, FRONT, RING_FRAME);
    XEN_FRONT_RING_INIT(&front->ring, shared, PAGE);
    if (!guest_grant(front->host, FRONT, RING_REF, RING_FRAME, false)) {
        fault(front, "the ring was not granted", RING_REF);
    }
}

void *front_main(void *arg)
{
    struct front *front = arg;
    while (!atomic_load(&front->link->is_connected)) {
        if (atomic_load(&front->link->is_refused)) {
            fault(front, "the back end has no ring", RING_REF);
            return NULL;
        }
        channel_wait(&front->link->to_front);
    }
    run(front);
    if (front->tests_pins && guest_revoke(front->host, FRONT, RING_REF) != 19) {
        fault(front, "the ring in use was not N19", RING_REF);
    }
    atomic_store(&front->link->is_closed, true);
    channel_raise(&front->link->to_back);
    return NULL;
}
