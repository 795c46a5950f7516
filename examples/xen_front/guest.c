#include "guest.h"

#include <stddef.h>

uint8_t *guest_page(struct guest *guest, uint64_t frame)
{
    return frame > 0 && frame < FRAMES ? guest->pages[frame - 1] : NULL;
}

void guest_grant(struct guest *guest, uint32_t ref, uint16_t to, uint32_t frame, bool read_only)
{
    union entry *entry = &guest->table[ref];
    const uint16_t flags = (uint16_t)(GTF_permit_access | (read_only ? GTF_readonly : 0));
    __atomic_store_n(&entry->v1.domid, to, __ATOMIC_RELAXED);
    __atomic_store_n(&entry->v1.frame, frame, __ATOMIC_RELAXED);
    __atomic_store_n(&entry->v1.flags, flags, __ATOMIC_RELEASE); /* Linux: wmb() before it */
}

bool guest_end(struct guest *guest, uint32_t ref)
{
    uint16_t *at = &guest->table[ref].v1.flags;
    uint16_t flags = __atomic_load_n(at, __ATOMIC_ACQUIRE);
    do {
        if (flags & (GTF_reading | GTF_writing)) {
            return false;
        }
    } while (!__atomic_compare_exchange_n(at, &flags, 0, false, __ATOMIC_ACQ_REL, __ATOMIC_ACQUIRE));
    return true;
}
