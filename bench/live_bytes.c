// The loads of bytes of `bench live` in C: frames of 4,096 bytes under a mutex each, mappings under handles, and
// entries as in live_tables.c, whose table has a reader-writer lock and each entry a ticket lock. -DJOURNAL keeps,
// for each write, a record of its writer, its entry, its place and its bytes, as the frames of `gt_frames` do.
//
// `PROGRAM LOAD THREADS ROUNDS` prints the load, the threads and the rounds done in all, as `bench live` does. LOAD
// is `load-64`, `load-4096`, `fresh-64`, `fresh-4096`, `store-64`, `store-4096`, `copy-64`, `copy-4096`, `forward-64` or `forward-4096`. Each
// thread has a page of its own that the owner granted to it. A load reads into a buffer of the thread's, or (`fresh`)
// answers fresh memory with the bytes read; a copy takes a pin and gives it back. A forwarded copy goes from one page of the owner's to another, by way of a transitive
// entry at each end, and takes four pins.
#include <pthread.h>
#include <stdatomic.h>
#include <stdbool.h>
#include <stdint.h>
#include <stdio.h>
#include <stdlib.h>
#include <string.h>

enum { DOMAINS = 6, ENTRIES = 8192, FRAMES = 8, FRAME_SIZE = 4096, HANDLES = 8192, MOST_PINS = 4095, MOST_THREADS = 4 };

// Numbers of domains, and the domain that stands for the caller.
enum { OWNER = 1, MIDDLE = 2, FIRST_MAPPER = 3, SELF = 32752 };

enum kind { INVALID, PAGE, VIA };

struct entry {
    atomic_uint next;
    atomic_uint serving;
    uint32_t domain;
    uint32_t reads;
    uint32_t writes;
    uint64_t frame; // the reference that it leads to, for a transitive entry
    uint32_t leads_to;
    uint8_t kind;
    bool read_only;
} __attribute__((aligned(64)));

// What a journal records of a write.
struct record {
    uint32_t writer;
    uint32_t domain;
    uint64_t frame;
    uint16_t offset;
    uint16_t length;
    bool read_only;
    uint8_t *bytes;
};

struct frame {
    _Alignas(64) pthread_mutex_t mutex;
    uint32_t owner;
    uint64_t number;
    uint8_t *bytes;
    struct record *journal;
    size_t records;
    size_t room;
};

struct domain {
    _Alignas(64) atomic_uint readers;
    struct frame frames[FRAMES];
    struct entry entries[ENTRIES];
};

struct mapping {
    uint32_t owner;
    uint32_t reference;
    uint64_t frame;
    bool used;
    bool writable;
};

// A domain in its thread.
struct caller {
    uint32_t number;
    struct mapping *mappings;
};

// An end of a copy: a reference of a domain, or a frame of the caller's own.
struct end {
    uint64_t pointer;
    uint32_t domain;
    uint16_t offset;
};

static struct domain *domains;

// What each type may do to each, a byte for a pair: 1 to read, 2 to write, 4 to copy.
static volatile uint8_t allowed[256][256];

static struct domain *domain_named(uint32_t number) {
    for (uint32_t position = 0; position < DOMAINS; position++)
        if (position + OWNER == number) return &domains[position];
    return NULL;
}

static void lock_entry(struct entry *entry) {
    unsigned mine = atomic_fetch_add_explicit(&entry->next, 1, memory_order_relaxed);
    while (atomic_load_explicit(&entry->serving, memory_order_acquire) != mine) {}
}

static void unlock_entry(struct entry *entry) {
    unsigned mine = atomic_load_explicit(&entry->serving, memory_order_relaxed);
    atomic_store_explicit(&entry->serving, mine + 1, memory_order_release);
}

// Takes a pin of a page that is granted to the caller. Answers its frame, or NULL.
static struct frame *pin(const struct caller *caller, struct domain *owner, uint32_t reference, bool writes) {
    if (reference >= ENTRIES) return NULL;
    struct entry *entry = &owner->entries[reference];
    struct frame *frame = NULL;
    atomic_fetch_add_explicit(&owner->readers, 1, memory_order_acquire);
    lock_entry(entry);
    if (entry->kind == PAGE && entry->domain == caller->number && !(writes && entry->read_only) && entry->frame < FRAMES) {
        uint32_t *pins = writes ? &entry->writes : &entry->reads;
        if (*pins < MOST_PINS) {
            (*pins)++;
            frame = &owner->frames[entry->frame];
        }
    }
    unlock_entry(entry);
    atomic_fetch_sub_explicit(&owner->readers, 1, memory_order_release);
    return frame;
}

static void unpin(struct domain *owner, uint32_t reference, bool writes) {
    struct entry *entry = &owner->entries[reference];
    atomic_fetch_add_explicit(&owner->readers, 1, memory_order_acquire);
    lock_entry(entry);
    if (writes) entry->writes--;
    else entry->reads--;
    unlock_entry(entry);
    atomic_fetch_sub_explicit(&owner->readers, 1, memory_order_release);
}

// Writes bytes to a locked frame; the source may overlap the range written. With a journal the record has its own
// bytes.
static bool lay(const struct caller *caller, struct frame *frame, uint16_t offset, const uint8_t *bytes, uint16_t length) {
#ifdef JOURNAL
    if (frame->records == frame->room) {
        size_t room = frame->room == 0 ? 4 : 2 * frame->room;
        struct record *journal = realloc(frame->journal, room * sizeof *journal);
        if (journal == NULL) return false;
        frame->journal = journal;
        frame->room = room;
    }
    uint8_t *kept = malloc(length == 0 ? 1 : length);
    if (kept == NULL) return false;
    memcpy(kept, bytes, length);
    frame->journal[frame->records++] =
        (struct record){caller->number, frame->owner, frame->number, offset, length, false, kept};
    memcpy(frame->bytes + offset, kept, length);
#else
    (void)caller;
    memmove(frame->bytes + offset, bytes, length);
#endif
    return true;
}

static struct frame *frame_of(const struct mapping *mapping) {
    struct domain *owner = domain_named(mapping->owner);
    return owner == NULL || mapping->frame >= FRAMES ? NULL : &owner->frames[mapping->frame];
}

// Whether the locked frame is the one that a mapping is of.
static bool is_named(const struct frame *frame, const struct mapping *mapping) {
    return frame->owner == mapping->owner && frame->number == mapping->frame;
}

// The mapping under a handle, if the range ends in a frame.
static const struct mapping *mapping_for(const struct caller *caller, uint32_t handle, uint16_t offset, size_t length) {
    if (length > FRAME_SIZE || offset + length > FRAME_SIZE) return NULL;
    return handle >= HANDLES || !caller->mappings[handle].used ? NULL : &caller->mappings[handle];
}

// Reads from a frame, if it is the one that a mapping is of.
static bool read_frame(struct frame *frame, const struct mapping *mapping, uint16_t offset, uint8_t *bytes, size_t length) {
    pthread_mutex_lock(&frame->mutex);
    bool named = is_named(frame, mapping);
    if (named) memcpy(bytes, frame->bytes + offset, length);
    pthread_mutex_unlock(&frame->mutex);
    return named;
}

// Reads through a mapping into a buffer of the caller's.
static bool load(const struct caller *caller, uint32_t handle, uint16_t offset, uint8_t *bytes, size_t length) {
    const struct mapping *mapping = mapping_for(caller, handle, offset, length);
    struct frame *frame = mapping == NULL ? NULL : frame_of(mapping);
    return frame != NULL && read_frame(frame, mapping, offset, bytes, length);
}

// Reads through a mapping into fresh memory.
static uint8_t *load_fresh(const struct caller *caller, uint32_t handle, uint16_t offset, uint16_t length) {
    const struct mapping *mapping = mapping_for(caller, handle, offset, length);
    struct frame *frame = mapping == NULL ? NULL : frame_of(mapping);
    if (frame == NULL) return NULL;
    uint8_t *bytes = malloc(length == 0 ? 1 : length);
    if (bytes == NULL) return NULL;
    if (read_frame(frame, mapping, offset, bytes, length)) return bytes;
    free(bytes);
    return NULL;
}

static bool store(const struct caller *caller, uint32_t handle, uint16_t offset, const uint8_t *bytes, uint16_t length) {
    if ((uint32_t)offset + length > FRAME_SIZE || handle >= HANDLES || !caller->mappings[handle].used) return false;
    const struct mapping *mapping = &caller->mappings[handle];
    struct frame *frame = frame_of(mapping);
    if (!mapping->writable || frame == NULL) return false;
    pthread_mutex_lock(&frame->mutex);
    bool done = is_named(frame, mapping) && lay(caller, frame, offset, bytes, length);
    pthread_mutex_unlock(&frame->mutex);
    return done;
}

// Copies from a page granted by reference to a frame of the caller's own.
static bool copy(const struct caller *caller, struct end from, struct end to, uint16_t length) {
    struct domain *owner = domain_named(from.domain);
    struct domain *own = domain_named(to.domain == SELF ? caller->number : to.domain);
    if (owner == NULL || own == NULL) return false;
    if ((uint32_t)from.offset + length > FRAME_SIZE || (uint32_t)to.offset + length > FRAME_SIZE) return false;
    if ((allowed[0][0] & 4) == 0 || to.pointer >= FRAMES) return false;
    struct frame *source = pin(caller, owner, (uint32_t)from.pointer, false);
    if (source == NULL) return false;
    struct frame *dest = &own->frames[to.pointer];
    struct frame *low = source < dest ? source : dest, *high = source < dest ? dest : source;
    pthread_mutex_lock(&low->mutex);
    if (high != low) pthread_mutex_lock(&high->mutex);
    bool done = lay(caller, dest, to.offset, source->bytes + from.offset, length);
    if (high != low) pthread_mutex_unlock(&high->mutex);
    pthread_mutex_unlock(&low->mutex);
    unpin(owner, (uint32_t)from.pointer, false);
    return done;
}

// What an entry was when its pin was taken: its frame, or where it leads on.
struct pinned {
    struct frame *frame;
    uint32_t leads_to;
    uint32_t reference;
};

// Takes a pin of an entry that names this grantee, transitive ones too unless one was gone through already.
static bool pin_entry(uint32_t grantee, struct domain *owner, uint32_t reference, bool writes, bool beyond, struct pinned *got) {
    if (reference >= ENTRIES) return false;
    struct entry *entry = &owner->entries[reference];
    bool taken = false;
    atomic_fetch_add_explicit(&owner->readers, 1, memory_order_acquire);
    lock_entry(entry);
    bool fits = entry->kind == PAGE ? entry->frame < FRAMES : entry->kind == VIA && !beyond;
    if (fits && entry->domain == grantee && !(writes && entry->read_only)) {
        uint32_t *pins = writes ? &entry->writes : &entry->reads;
        if (*pins < MOST_PINS) {
            (*pins)++;
            taken = true;
            got->frame = entry->kind == PAGE ? &owner->frames[entry->frame] : NULL;
            got->leads_to = entry->leads_to;
            got->reference = (uint32_t)entry->frame;
        }
    }
    unlock_entry(entry);
    atomic_fetch_sub_explicit(&owner->readers, 1, memory_order_release);
    return taken;
}

// The pins that lead to an end of a copy, and its frame.
struct route {
    struct domain *owners[2];
    uint32_t references[2];
    unsigned pins;
    struct frame *frame;
};

static void leave(const struct route *route, bool writes) {
    for (unsigned pin = route->pins; pin > 0; pin--) unpin(route->owners[pin - 1], route->references[pin - 1], writes);
}

static bool reach(const struct caller *caller, struct end end, bool writes, struct route *route) {
    uint32_t grantee = caller->number, number = end.domain, reference = (uint32_t)end.pointer;
    route->pins = 0;
    for (;;) {
        struct domain *owner = domain_named(number);
        struct pinned got;
        bool may = owner != NULL && (route->pins == 0 || (allowed[0][0] & 4) != 0);
        if (!may || !pin_entry(grantee, owner, reference, writes, route->pins > 0, &got)) {
            leave(route, writes);
            return false;
        }
        route->owners[route->pins] = owner;
        route->references[route->pins++] = reference;
        if (got.frame != NULL) {
            route->frame = got.frame;
            return true;
        }
        grantee = number;
        number = got.leads_to;
        reference = got.reference;
    }
}

// Copies between the frames that two references lead to.
static bool forward(const struct caller *caller, struct end from, struct end to, uint16_t length) {
    if (domain_named(from.domain) == NULL || domain_named(to.domain) == NULL) return false;
    if ((uint32_t)from.offset + length > FRAME_SIZE || (uint32_t)to.offset + length > FRAME_SIZE) return false;
    if ((allowed[0][0] & 4) == 0) return false;
    struct route source, dest;
    if (!reach(caller, from, false, &source)) return false;
    if (!reach(caller, to, true, &dest)) {
        leave(&source, false);
        return false;
    }
    struct frame *low = source.frame < dest.frame ? source.frame : dest.frame;
    struct frame *high = source.frame < dest.frame ? dest.frame : source.frame;
    pthread_mutex_lock(&low->mutex);
    if (high != low) pthread_mutex_lock(&high->mutex);
    bool done = lay(caller, dest.frame, to.offset, source.frame->bytes + from.offset, length);
    if (high != low) pthread_mutex_unlock(&high->mutex);
    pthread_mutex_unlock(&low->mutex);
    leave(&dest, true);
    leave(&source, false);
    return done;
}

static bool make_domains(void) {
    domains = aligned_alloc(64, DOMAINS * sizeof *domains);
    if (domains == NULL) return false;
    memset(domains, 0, DOMAINS * sizeof *domains);
    for (uint32_t position = 0; position < DOMAINS; position++)
        for (uint64_t number = 0; number < FRAMES; number++) {
            struct frame *frame = &domains[position].frames[number];
            pthread_mutex_init(&frame->mutex, NULL);
            frame->owner = position + OWNER;
            frame->number = number;
            frame->bytes = calloc(1, FRAME_SIZE);
            if (frame->bytes == NULL) return false;
        }
    allowed[0][0] = 7;
    return true;
}

// Keeps a mapping of the caller's page under handle 0.
static bool map(struct caller *caller, uint32_t reference) {
    struct domain *owner = domain_named(OWNER);
    struct frame *frame = pin(caller, owner, reference, true);
    if (frame == NULL) return false;
    caller->mappings[0] = (struct mapping){OWNER, reference, frame->number, true, true};
    return true;
}

// What the frames keep goes with them, as it does where a monitor is let go.
static void free_frames(void) {
    for (uint32_t position = 0; position < DOMAINS; position++)
        for (uint64_t number = 0; number < FRAMES; number++) {
            struct frame *frame = &domains[position].frames[number];
            for (size_t record = 0; record < frame->records; record++) free(frame->journal[record].bytes);
            free(frame->journal);
            free(frame->bytes);
        }
    free(domains);
}

struct job {
    const char *load;
    uint32_t place;
    uint32_t rounds;
    uint32_t done;
};

static uint32_t work(struct caller *caller, const char *name, uint32_t reference, uint16_t length, uint32_t rounds) {
    static uint8_t bytes[FRAME_SIZE];
    uint8_t buffer[FRAME_SIZE];
    struct end from = {reference, OWNER, 0}, to = {0, SELF, 0};
    struct end first = {reference, MIDDLE, 0}, last = {reference + MOST_THREADS, MIDDLE, 0};
    const bool fresh = strncmp(name, "fresh", 5) == 0;
    uint32_t done = 0;
    for (uint32_t round = 0; round < rounds; round++) {
        if (*name == 'l') {
            done += load(caller, 0, 0, buffer, length);
            // Its bytes are looked at, so that no compiler leaves the load out.
            *(volatile uint8_t *)buffer;
        } else if (fresh) {
            uint8_t *read = load_fresh(caller, 0, 0, length);
            if (read != NULL) done++;
            if (read != NULL) *(volatile uint8_t *)read;
            free(read);
        } else if (*name == 's') {
            done += store(caller, 0, 0, bytes, length);
        } else if (*name == 'f') {
            done += forward(caller, first, last, length);
        } else {
            done += copy(caller, from, to, length);
        }
    }
    return done;
}

static void *run_job(void *argument) {
    struct job *job = argument;
    struct caller caller = {FIRST_MAPPER + job->place, calloc(HANDLES, sizeof(struct mapping))};
    uint16_t length = (uint16_t)strtoul(strchr(job->load, '-') + 1, NULL, 10);
    bool copies = *job->load == 'c' || strncmp(job->load, "forward", 7) == 0;
    if (caller.mappings != NULL && (copies || map(&caller, job->place)))
        job->done = work(&caller, job->load, job->place, length, job->rounds);
    free(caller.mappings);
    return NULL;
}

// A process that never had a second thread is spared the atomic instructions of locks and of memory by the C library. A
// monitor has threads, so a load on one thread is timed in a process that had two.
static void *do_nothing(void *argument) { return argument; }

static bool had_two_threads(void) {
    pthread_t second;
    return pthread_create(&second, NULL, do_nothing, NULL) == 0 && pthread_join(second, NULL) == 0;
}

// Grants the owner's page with this number under the reference with this number: to the domain, or if it is forwarded
// to the domain between, whose entry leads this one to it.
static void grant(uint32_t number, uint32_t domain, bool forwarded) {
    struct entry *page = &domains[OWNER - 1].entries[number], *via = &domains[MIDDLE - 1].entries[number];
    page->domain = forwarded ? MIDDLE : domain;
    page->frame = number;
    page->kind = PAGE;
    if (!forwarded) return;
    via->domain = domain;
    via->leads_to = OWNER;
    via->frame = number;
    via->kind = VIA;
}

int main(int count, char **words) {
    if (count != 4 || strchr(words[1], '-') == NULL || !had_two_threads() || !make_domains()) return 2;
    uint32_t threads = (uint32_t)strtoul(words[2], NULL, 10);
    uint32_t rounds = (uint32_t)strtoul(words[3], NULL, 10);
    struct job jobs[MOST_THREADS];
    pthread_t running[MOST_THREADS];
    if (threads < 1 || threads > MOST_THREADS) return 2;
    for (uint32_t i = 0; i < threads; i++) {
        bool forwarded = strncmp(words[1], "forward", 7) == 0;
        grant(i, FIRST_MAPPER + i, forwarded);
        if (forwarded) grant(i + MOST_THREADS, FIRST_MAPPER + i, true);
        jobs[i] = (struct job){words[1], i, rounds, 0};
    }
    for (uint32_t i = 1; i < threads; i++)
        if (pthread_create(&running[i], NULL, run_job, &jobs[i]) != 0) return 1;
    run_job(&jobs[0]);
    uint64_t done = jobs[0].done;
    for (uint32_t i = 1; i < threads; i++) {
        pthread_join(running[i], NULL);
        done += jobs[i].done;
    }
    free_frames();
    printf("%s %u %llu\n", words[1], threads, (unsigned long long)done);
    return 0;
}
