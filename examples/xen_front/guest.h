/* A guest that shares pages as Linux does: by stores into a grant table of version 1 in its own memory. */
#ifndef XEN_FRONT_GUEST_H
#define XEN_FRONT_GUEST_H

#include <stdbool.h>
#include <stdint.h>

enum {
    FRAMES = 32,      /* pages of the guest; the first is its grant table */
    PAGE = 4096,      /* bytes of a page */
    REFERENCES = 512, /* entries of a table of one page */
    FIRST_REF = 8     /* Xen keeps the references below for itself */
};

/* The flags of an entry (xen/grant_table.h). The hypervisor sets GTF_reading and GTF_writing while it is in use. */
enum { GTF_permit_access = 1, GTF_readonly = 4, GTF_reading = 8, GTF_writing = 16 };

/* An entry (xen/grant_table.h, grant_entry_v1), and all of it as one word. */
union entry {
    struct {
        uint16_t flags;
        uint16_t domid;
        uint32_t frame;
    } v1;
    uint64_t word;
};

struct guest {
    union entry table[REFERENCES];
    uint8_t pages[FRAMES - 1][PAGE];
};

/* The bytes of one of the guest's frames. */
uint8_t *guest_page(struct guest *guest, uint64_t frame);
/* Grants a page: Linux's gnttab_update_entry_v1. */
void guest_grant(struct guest *guest, uint32_t ref, uint16_t to, uint32_t frame, bool read_only);
/* Ends access, if the entry is not in use: Linux's gnttab_end_foreign_access_ref_v1. */
bool guest_end(struct guest *guest, uint32_t ref);

#endif
