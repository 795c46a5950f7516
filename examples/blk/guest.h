/* The host: its domains, their memory, and who may touch what. */
#ifndef BLK_GUEST_H
#define BLK_GUEST_H

#include "monitor.h"

enum {
    FRONT = 1, /* the domains, by their numbers */
    BACK = 2,
    OTHER = 3,
    DOMAINS = 3,
    FRAMES = 64, /* of each domain */
    PAGE = 4096,
    LINE = 128 /* what two threads should not share */
};

/* A handle, on cache lines of its own. */
struct seat {
    _Alignas(LINE) struct gthost_domain domain;
};

struct host {
    const struct monitor *monitor;
    struct seat seats[DOMAINS + 1]; /* by the domain's number; 0 has none */
    _Alignas(PAGE) uint8_t memory[DOMAINS + 1][FRAMES][PAGE];
};

/* Starts the host's three domains under the driver's policy; false with a line on stderr if it can't be. */
bool host_start(struct host *host, const struct monitor *monitor);
/* The handle of a domain. */
struct gthost_domain *domain_of(struct host *host, uint16_t dom);
/* All domains leave. */
void host_finish(struct host *host);

/* A page of the domain's own. */
uint8_t *own_page(struct host *host, uint16_t dom, uint64_t frame);
/* The page behind a mapping of the domain, as the monitor names it. NULL if it names none, or one not for writing. */
uint8_t *guest_page(struct host *host, uint16_t dom, struct gthost_handle name, bool writes);

/* Maps; false if it is refused. */
bool guest_map(struct host *host, uint16_t dom, uint16_t owner, uint32_t gref, bool writes,
               struct gthost_handle *name);
/* Unmaps; false if it is refused. */
bool guest_unmap(struct host *host, uint16_t dom, struct gthost_handle name);
/* Copies bytes between the places that the monitor names; false if it is refused. */
bool guest_copy(struct host *host, uint16_t dom, const struct gthost_copy *copy);
/* Grants a page of its own to the back end; false if it is refused. */
bool guest_grant(struct host *host, uint16_t dom, uint32_t gref, uint64_t frame, bool read_only);
/* Revokes: 0 if it was done, or the number of the rule that refused it. */
uint32_t guest_revoke(struct host *host, uint16_t dom, uint32_t gref);

#endif
