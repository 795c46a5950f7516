/* The front end: it grants pages, sends random requests by a seed, and compares every byte that it reads back. */
#ifndef BLK_FRONT_H
#define BLK_FRONT_H

#include "disk.h"
#include "guest.h"
#include "link.h"
#include "ring.h"

enum { FLIGHTS = 32 }; /* the requests of a ring of one page */

/* A request that is under way. */
struct flight {
    bool is_sent, writes, is_indirect;
    uint64_t sector;
    size_t count;                                         /* of its segments */
    uint64_t frames[MOST_SEGMENTS + 1];                   /* of its pages; the last is that of an indirect request */
    uint8_t first[MOST_SEGMENTS], last[MOST_SEGMENTS];
    uint32_t stamps[MOST_SEGMENTS * (PAGE / SECTOR)];     /* of its sectors, as they are when it is served */
};

struct front {
    struct host *host;
    struct link *link;
    uint64_t seed, wanted;
    bool tests_pins; /* one request at a time to a back end that keeps its pages: each revocation is N19 till a flush */

    uint64_t sent, done, segments, sectors, busy; /* busy: revocations that N19 refused */
    uint64_t faults;

    struct blkif_front_ring ring;
    struct flight flights[FLIGHTS];
    size_t free_flights[FLIGHTS], free_flight_count;
    uint64_t free_frames[FRAMES];
    size_t free_frame_count;
    size_t next;     /* the request to send next, if there is room for it */
    bool has_next;
    size_t kept;     /* the request whose pages the back end still has mapped */
    uint32_t stamp;  /* of the last write */
    uint32_t stamp_of[SECTORS];
};

/* Grants the ring's page, before the back end begins. */
void front_init(struct front *front);
/* The thread of a front end: sends its requests, and closes the link. */
void *front_main(void *front);

#endif
