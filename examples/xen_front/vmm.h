/* A VMM that keeps a guest's memory, and maps its pages for a back end by what the guest's own grant table has. */
#ifndef XEN_FRONT_VMM_H
#define XEN_FRONT_VMM_H

#include "guest.h"

#include <gthost.h>
#include <pthread.h>

enum { FRONT = 1, BACK = 2, DOMAINS = 2 };

/* The monitor's table is larger than the guest's: what it has beyond takes the place of worn references. */
enum { TABLE_FRAMES = 2, NUMBERS = TABLE_FRAMES * REFERENCES };

struct vmm {
    struct guest *guest;                   /* of the domain FRONT */
    pthread_mutex_t lock;                  /* of the front end's handle, and of the marks in the guest's table */
    struct gthost_domain domains[DOMAINS]; /* FRONT and BACK */
    uint32_t number[REFERENCES];           /* the monitor's reference for each of the guest's */
    uint32_t guests[NUMBERS];              /* and the guest's for each of the monitor's that is in use */
    uint32_t spare;                        /* the monitor's references from here on are in no use yet */
    uint64_t followed[GTHOST_FOLLOWED_GRANTED + 1]; /* how often each of enum gthost_followed was done */
    uint64_t refused, missed;              /* follows that were refused, and marks that the guest was faster than */
};

/* Starts the run, with entries of this generation; false with a line on stderr if there is none. */
bool vmm_start(struct vmm *vmm, struct guest *guest, uint32_t first_gen);
/* Both domains leave. Returns the number of the guest's entries that are still in use. */
uint64_t vmm_finish(struct vmm *vmm);
/* Brings the guest's entry `ref` in the monitor to what its table has. N22 only when no reference is spare. */
struct gthost_answer vmm_follow(struct vmm *vmm, uint32_t ref);
/* The back end maps the guest's entry `ref`. Returns GTHOST_OK with a name, or the rule that refused it. */
uint32_t vmm_map(struct vmm *vmm, uint32_t ref, bool writes, struct gthost_handle *name);
/* The page behind a mapping of the back end; NULL if it has no such mapping. */
uint8_t *vmm_page(struct vmm *vmm, struct gthost_handle name);
/* The back end unmaps. */
bool vmm_unmap(struct vmm *vmm, struct gthost_handle name);

#endif
