// The loads over entries that lie under a ticket lock each: every look and every change of an entry takes its lock.
#include <sched.h>
#include <stdatomic.h>

#include "words_loads.h"

// How often a thread looks for its turn before it lets another run.
enum { SPINS = 64 };

enum kind { INVALID, PAGE, SUB_PAGE, TRANSITIVE };

struct entry {
    atomic_uint next;
    atomic_uint serving;
    uint32_t domain;
    uint32_t generation;
    uint32_t reads;
    uint32_t writes;
    uint64_t frame;
    uint8_t kind;
    bool read_only;
};

struct domain {
    _Atomic uint64_t header;
    struct entry entries[ENTRIES];
};

static struct domain *domains;

static void lock(struct entry *entry) {
    unsigned mine = atomic_fetch_add_explicit(&entry->next, 1, memory_order_relaxed);
    for (unsigned spins = 1; atomic_load_explicit(&entry->serving, memory_order_acquire) != mine; spins++)
        if (spins % SPINS == 0) sched_yield();
}

static void unlock(struct entry *entry) {
    unsigned mine = atomic_load_explicit(&entry->serving, memory_order_relaxed);
    atomic_store_explicit(&entry->serving, mine + 1, memory_order_release);
}

static bool make_entries(void) {
    domains = calloc(DOMAINS, sizeof *domains);
    if (domains == NULL) return false;
    for (uint32_t position = 0; position < DOMAINS; position++) atomic_store(&domains[position].header, 1 + 4 * TABLE_FRAMES);
    return true;
}

static bool publish(const struct seat *owner, uint32_t reference, struct row *row, uint32_t domain, uint64_t frame) {
    struct entry *entry = &domains[owner->position].entries[reference];
    lock(entry);
    bool free = entry->kind == INVALID && entry->reads == 0 && entry->writes == 0 && entry->generation < LAST_GENERATION;
    if (free) {
        entry->domain = domain;
        entry->frame = frame;
        entry->generation++;
        entry->kind = PAGE;
        *row = (struct row){domain, frame, entry->generation, true};
    }
    unlock(entry);
    return free;
}

static bool revoke(const struct seat *owner, uint32_t reference, struct row *row) {
    struct entry *entry = &domains[owner->position].entries[reference];
    lock(entry);
    bool idle = entry->kind != INVALID && entry->reads == 0 && entry->writes == 0;
    if (idle) {
        entry->kind = INVALID;
        row->valid = false;
    }
    unlock(entry);
    return idle;
}

static bool withdraw(const struct seat *owner, uint32_t reference, struct row *row) {
    struct entry *entry = &domains[owner->position].entries[reference];
    lock(entry);
    bool valid = entry->kind != INVALID;
    if (valid) {
        entry->kind = INVALID;
        row->valid = false;
    }
    unlock(entry);
    return valid;
}

static bool map(struct seat *seat, const struct target *target) {
    uint32_t granter = position_of(seat, target->granter);
    uint64_t header = atomic_load(&domains[granter].header);
    uint32_t frames = header / 4 % 256;
    if (target->reference >= frames * (header % 4 == 2 ? 256 : 512)) return false;
    struct entry *entry = &domains[granter].entries[target->reference];
    lock(entry);
    bool permitted = false;
    if (entry->kind == PAGE) {
        (void)*(volatile uint64_t *)&entry->frame;
        permitted = entry->reads < MOST_PINS && entry->domain == target->named;
        if (permitted) entry->reads++;
    }
    unlock(entry);
    return permitted;
}

static void unmap(struct seat *seat, const struct target *target) {
    struct entry *entry = &domains[position_of(seat, target->granter)].entries[target->reference];
    lock(entry);
    entry->reads--;
    unlock(entry);
}
