// The loads over entries kept as Xen keeps them: a reader-writer lock for each table, a ticket lock for each entry, and
// a list of handles for each domain that maps. -DSPREAD makes the table's lock one that has a word for each thread, as
// Xen has had for some years; without it readers count themselves in one word.
#include <sched.h>
#include <stdatomic.h>

#include "words_loads.h"

// How often a thread looks for its turn before it lets another run.
enum { SPINS = 64 };

// The handles of a domain.
enum { HANDLES = 8192 };

enum kind { INVALID, PAGE, SUB_PAGE, TRANSITIVE };

struct entry {
    atomic_uint next;
    atomic_uint serving;
    uint32_t domain;
    uint32_t generation;
    uint32_t reads;
    uint32_t writes;
    uint64_t frame;
    uint8_t kind;
    bool read_only;
} __attribute__((aligned(64)));

struct domain {
    // The readers; an owner that writes adds WRITER.
    _Alignas(64) atomic_uint readers;
    _Atomic uint64_t header;
    _Alignas(64) struct entry entries[ENTRIES];
};

#define WRITER 65536u

// A mapping under its handle, or the next free handle.
struct mapping {
    uint32_t next;
    uint32_t granter;
    uint32_t reference;
    bool used;
};

static struct domain *domains;

// What each type may do to each, a byte for a pair.
static volatile uint8_t allowed[256][256];

static _Thread_local struct mapping *mappings;
static _Thread_local uint32_t free_handle;

// The handle that the last map of this thread was given.
static _Thread_local uint32_t last_handle;

#ifdef SPREAD
struct reading {
    _Alignas(64) _Atomic(struct domain *) table;
};
static struct reading reading[MOST_THREADS + 1];
static atomic_uint threads_seen;
static _Thread_local uint32_t me = MOST_THREADS;

static void read_lock(struct domain *domain) {
    if (me == MOST_THREADS) me = atomic_fetch_add(&threads_seen, 1) % MOST_THREADS;
    for (;;) {
        atomic_store_explicit(&reading[me].table, domain, memory_order_relaxed);
        atomic_thread_fence(memory_order_seq_cst);
        if (atomic_load_explicit(&domain->readers, memory_order_acquire) < WRITER) return;
        atomic_store_explicit(&reading[me].table, NULL, memory_order_release);
        sched_yield();
    }
}

static void read_unlock(struct domain *domain) {
    (void)domain;
    atomic_store_explicit(&reading[me].table, NULL, memory_order_release);
}
#else
static void read_lock(struct domain *domain) {
    while (atomic_fetch_add_explicit(&domain->readers, 1, memory_order_acquire) >= WRITER) {
        atomic_fetch_sub_explicit(&domain->readers, 1, memory_order_relaxed);
        sched_yield();
    }
}

static void read_unlock(struct domain *domain) {
    atomic_fetch_sub_explicit(&domain->readers, 1, memory_order_release);
}
#endif

static void lock(struct entry *entry) {
    unsigned mine = atomic_fetch_add_explicit(&entry->next, 1, memory_order_relaxed);
    for (unsigned spins = 1; atomic_load_explicit(&entry->serving, memory_order_acquire) != mine; spins++)
        if (spins % SPINS == 0) sched_yield();
}

static void unlock(struct entry *entry) {
    unsigned mine = atomic_load_explicit(&entry->serving, memory_order_relaxed);
    atomic_store_explicit(&entry->serving, mine + 1, memory_order_release);
}

static bool make_entries(void) {
    domains = aligned_alloc(64, DOMAINS * sizeof *domains);
    if (domains == NULL) return false;
    memset(domains, 0, DOMAINS * sizeof *domains);
    for (uint32_t position = 0; position < DOMAINS; position++) atomic_store(&domains[position].header, 1 + 4 * TABLE_FRAMES);
    allowed[0][0] = 255;
    return true;
}

static bool publish(const struct seat *owner, uint32_t reference, struct row *row, uint32_t domain, uint64_t frame) {
    struct entry *entry = &domains[owner->position].entries[reference];
    read_lock(&domains[owner->position]);
    lock(entry);
    bool free = entry->kind == INVALID && entry->reads == 0 && entry->writes == 0 && entry->generation < LAST_GENERATION;
    if (free) {
        entry->domain = domain;
        entry->frame = frame;
        entry->generation++;
        entry->kind = PAGE;
        *row = (struct row){domain, frame, entry->generation, true};
    }
    unlock(entry);
    read_unlock(&domains[owner->position]);
    return free;
}

static bool revoke(const struct seat *owner, uint32_t reference, struct row *row) {
    struct entry *entry = &domains[owner->position].entries[reference];
    read_lock(&domains[owner->position]);
    lock(entry);
    bool idle = entry->kind != INVALID && entry->reads == 0 && entry->writes == 0;
    if (idle) {
        entry->kind = INVALID;
        row->valid = false;
    }
    unlock(entry);
    read_unlock(&domains[owner->position]);
    return idle;
}

static bool withdraw(const struct seat *owner, uint32_t reference, struct row *row) {
    struct entry *entry = &domains[owner->position].entries[reference];
    read_lock(&domains[owner->position]);
    lock(entry);
    bool valid = entry->kind != INVALID;
    if (valid) {
        entry->kind = INVALID;
        row->valid = false;
    }
    unlock(entry);
    read_unlock(&domains[owner->position]);
    return valid;
}

// A list of free handles for this thread's domain.
static bool make_handles(void) {
    mappings = calloc(HANDLES, sizeof *mappings);
    if (mappings == NULL) return false;
    for (uint32_t handle = 0; handle < HANDLES; handle++) mappings[handle].next = handle + 1;
    return true;
}

static bool map(struct seat *seat, const struct target *target) {
    if (mappings == NULL && !make_handles()) return false;
    uint32_t granter = position_of(seat, target->granter);
    if ((allowed[0][0] & 1) == 0 || free_handle == HANDLES) return false;
    struct domain *table = &domains[granter];
    read_lock(table);
    uint64_t header = atomic_load_explicit(&table->header, memory_order_relaxed);
    uint32_t frames = header / 4 % 256;
    if (target->reference >= frames * (header % 4 == 2 ? 256 : 512)) {
        read_unlock(table);
        return false;
    }
    struct entry *entry = &table->entries[target->reference];
    lock(entry);
    bool permitted = false;
    if (entry->kind == PAGE) {
        permitted = entry->reads < MOST_PINS && entry->domain == target->named && *(volatile uint64_t *)&entry->frame < 8;
        if (permitted) entry->reads++;
    }
    unlock(entry);
    read_unlock(table);
    if (!permitted) return false;
    last_handle = free_handle;
    struct mapping *mapping = &mappings[last_handle];
    free_handle = mapping->next;
    *mapping = (struct mapping){0, granter, target->reference, true};
    return true;
}

static void unmap(struct seat *seat, const struct target *target) {
    (void)seat;
    (void)target;
    struct mapping *mapping = &mappings[last_handle];
    if (last_handle >= HANDLES || !mapping->used || (allowed[0][0] & 4) == 0) return;
    struct domain *table = &domains[mapping->granter];
    struct entry *entry = &table->entries[mapping->reference];
    read_lock(table);
    lock(entry);
    entry->reads--;
    unlock(entry);
    read_unlock(table);
    mapping->used = false;
    mapping->next = free_handle;
    free_handle = last_handle;
}
