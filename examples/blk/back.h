/* The back end: it serves the requests of the ring from a disk, through the pages that the front end grants. */
#ifndef BLK_BACK_H
#define BLK_BACK_H

#include "disk.h"
#include "guest.h"
#include "link.h"
#include "ring.h"

/* How the back end gets at the pages of a request. */
enum way {
    MAPS,   /* maps them, and unmaps them before it answers */
    KEEPS,  /* maps them, and unmaps them at the next flush */
    COPIES, /* copies by reference, to and from a page of its own */
};

struct back {
    struct host *host;
    struct link *link;
    struct disk *disk;
    enum way way;
    uint64_t served, failed;
    struct blkif_back_ring ring;
    struct gthost_handle kept[MOST_SEGMENTS + 1];
    size_t kept_count;
};

/* The thread of a back end: serves until the link is closed. */
void *back_main(void *back);

#endif
