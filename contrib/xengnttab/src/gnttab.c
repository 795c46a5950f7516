/* libxengnttab and libxengntshr over libgthost, and the run of the domains that they are for. */
#define _GNU_SOURCE
#include "xg.h"

#include <errno.h>
#include <stdarg.h>
#include <pthread.h>
#include <stdio.h>
#include <stdlib.h>
#include <string.h>
#include <sys/mman.h>
#include <unistd.h>
#include <xengnttab.h>

enum { PAGE = 4096, FIRST_REF = 8, MOST_REFS = 512 * GTHOST_MAX_TABLE_FRAMES, BUCKETS = 1024, NUMBERS = 0x8000 };

int __real_munmap(void *at, size_t len);

/* ThreadSanitizer doesn't see the steps of the library, which order what the threads do in a page. */
#if defined __SANITIZE_THREAD__
#define HAS_TSAN
#elif defined __has_feature
#if __has_feature(thread_sanitizer)
#define HAS_TSAN
#endif
#endif
#ifdef HAS_TSAN
void __tsan_acquire(void *at);
void __tsan_release(void *at);
#else
static void __tsan_acquire(void *at) { (void)at; }
static void __tsan_release(void *at) { (void)at; }
#endif

/* A range of pages that a handle has mapped or shared. */
struct region {
    struct region *next;
    uint8_t *at;
    uint32_t count;
    bool is_share, is_view;
    uint32_t notify_offset, notify_port;
    union {
        struct gthost_handle *names; /* of a mapping */
        uint32_t *refs;              /* of a share */
    } u;
    struct gthost_handle name; /* names, if there is one */
    uint32_t ref;
};

struct xengntdev_handle {
    struct xengntdev_handle *next; /* of its domain */
    struct dom *dom;
    uint32_t most, used;
    struct region *regions[BUCKETS];
};

struct later {
    uint32_t ref;
    uint64_t frame;
    bool free_page;
};

struct plain { /* without a monitor */
    uint64_t frame;
};

struct dom {
    pthread_mutex_t lock; /* of all below, and of the handle: the library wants a handle in one call at a time */
    uint16_t id;
    struct gthost_domain gt;
    int fd;
    uint8_t *base;
    uint32_t frames;
    uint64_t *taken; /* a bit for each frame */
    uint32_t hint;
    uint32_t refs[MOST_REFS], first, free; /* free references, the longest free first, since each use wears them */
    uint64_t frame_of[MOST_REFS];
    struct plain plain[MOST_REFS];
    struct later *later;
    size_t laters, room;
    struct xengntdev_handle *handles;
    struct xg_counts counts;
    /* Of a guest that writes a table of its own. Its handle and its marks are under table_lock, the last lock taken. */
    uint64_t *table;
    uint32_t table_refs, first_frame;
    uint32_t alias[MOST_REFS];  /* the monitor's reference that follows the guest's */
    uint32_t origin[MOST_REFS]; /* and back */
    uint32_t spare, most_refs; /* the monitor's references that follow none of the guest's */
    pthread_mutex_t table_lock;
};

static struct dom *doms[NUMBERS];
static uint16_t ids[GTHOST_MAX_DOMAINS];
static size_t dom_count;
static enum xg_mode mode;
static bool has_guests; /* some domain has a table of its own */
uint32_t xg_first_gen;
bool xg_copies_by_map;
void (*xg_between)(void);
static bool verbose;
static __thread struct dom *current;
static __thread uint32_t last_rule;
static __thread char last_words[512];

/* --- refusals --- */

static int errno_of(uint32_t rule)
{
    switch (rule) {
    case GTHOST_N1: return ESRCH;
    case GTHOST_N5: return EPERM;
    case GTHOST_N11: case GTHOST_N13: return EACCES;
    case GTHOST_N8: case GTHOST_N17: return ENOSPC;
    case GTHOST_N18: return EAGAIN;
    case GTHOST_N19: case GTHOST_BUSY: return EBUSY;
    case GTHOST_N26: case GTHOST_NO_MEMORY: return ENOMEM;
    case GTHOST_NO_DOMAIN: return ENODEV;
    case GTHOST_N6: case GTHOST_ABSENT: return ENOENT;
    default: return EINVAL; /* what Linux gives for all of them */
    }
}

static void refused(struct dom *dom, const char *call, unsigned of, unsigned ref, struct gthost_answer answer)
{
    const struct gthost_rule_line line = gthost_rule_text(answer.rule);
    snprintf(last_words, sizeof last_words, "%s by domain %u of %u:%u: %.*s", call, dom->id, of, ref, (int)line.len,
             (const char *)line.bytes);
    last_rule = answer.rule;
    dom->counts.refused++;
    if (verbose) {
        fprintf(stderr, "xg: %s\n", last_words);
    }
    errno = errno_of(answer.rule);
}

uint32_t xg_last_rule(void) { return last_rule; }
const char *xg_last_words(void) { return last_words; }

bool xg_verbose(bool on)
{
    const bool was = verbose;
    verbose = on;
    return was;
}

/* --- a script of the run --- */

static FILE *script, *answers;
static uint64_t script_line;
static bool has_flags;
static pthread_mutex_t script_lock = PTHREAD_MUTEX_INITIALIZER;

/* Writes a call as a line `do`, and its answer as `gthost play` prints it. Calls of one thread come in their order. */
static void trace(const struct dom *dom, struct gthost_answer answer, const char *format, ...)
{
    va_list args;
    if (!script) {
        return;
    }
    pthread_mutex_lock(&script_lock);
    va_start(args, format);
    fprintf(script, "do %u ", dom->id);
    vfprintf(script, format, args);
    fputc('\n', script);
    va_end(args);
    script_line++;
    if (answers && answer.rule == GTHOST_OK) {
        fprintf(answers, "%llu %u ok\n", (unsigned long long)script_line, dom->id);
    } else if (answers) {
        fprintf(answers, "%llu %u N%u %d\n", (unsigned long long)script_line, dom->id, answer.rule, answer.status);
    }
    pthread_mutex_unlock(&script_lock);
}

bool xg_trace(const char *script_file, const char *answers_file, bool flags)
{
    script = fopen(script_file, "w");
    answers = answers_file ? fopen(answers_file, "w") : NULL;
    has_flags = flags;
    return script && (answers || !answers_file);
}

/* Begins the trace that the environment asks for. A second run of the process writes to a second file, FILE.2. */
static bool trace_as_asked(void)
{
    static unsigned runs;
    char name[4096];
    const char *file = getenv("XENGNTTAB_SCRIPT");
    if (script || !file) {
        return true;
    }
    runs++;
    snprintf(name, sizeof name, runs > 1 ? "%s.%u" : "%s", file, runs);
    if (!xg_trace(name, NULL, getenv("XENGNTTAB_FLAGS") != NULL)) {
        perror(name);
        return false;
    }
    return true;
}

void xg_trace_flag(bool is_await, uint16_t dom, char kind, uint64_t flag)
{
    if (script && has_flags) {
        pthread_mutex_lock(&script_lock);
        fprintf(script, "%s %u %c%llu\n", is_await ? "await" : "tell", dom, kind, (unsigned long long)flag);
        script_line++;
        pthread_mutex_unlock(&script_lock);
    }
}

static void trace_head(const struct xg_domain *domains, size_t count, const char *policy)
{
    if (!script) {
        return;
    }
    fprintf(script, "policy\n%s%send\n", policy, policy[strlen(policy) - 1] == '\n' ? "" : "\n");
    script_line = 2;
    for (const char *at = policy; *at; at++) {
        script_line += *at == '\n';
    }
    script_line += policy[strlen(policy) - 1] != '\n';
    for (size_t i = 0; i < count; i++) {
        fprintf(script, "domain %u u:r:%s %u %u %u\n", domains[i].id, domains[i].type,
                domains[i].frames < 64 ? domains[i].frames : 64, domains[i].table, domains[i].version);
        script_line++;
    }
}

/* --- the run --- */

static struct dom *dom_of(uint32_t id) { return id < NUMBERS ? doms[id] : NULL; }

void xg_enter(uint16_t id) { current = dom_of(id); }
uint16_t xg_current(void) { return current ? current->id : 0xFFFF; }

uint8_t *xg_page(uint16_t id, uint64_t frame)
{
    struct dom *dom = dom_of(id);
    return dom && frame < dom->frames ? dom->base + frame * PAGE : NULL;
}

struct xg_counts xg_counts(uint16_t id) { return doms[id]->counts; }

bool xg_start(const struct xg_domain *domains, size_t count, const char *policy, enum xg_mode with)
{
    struct gthost_settings settings[GTHOST_MAX_DOMAINS];
    struct gthost_domain handles[GTHOST_MAX_DOMAINS];
    static uint32_t run;
    if (count > GTHOST_MAX_DOMAINS) {
        return false;
    }
    verbose = verbose || getenv("XENGNTTAB_VERBOSE");
    if (!trace_as_asked()) {
        return false;
    }
    mode = with;
    dom_count = count;
    memset(handles, 0, sizeof handles);
    memset(settings, 0, sizeof settings);
    for (size_t i = 0; i < count; i++) {
        const struct gthost_type type = gthost_type_of((const uint8_t *)policy, strlen(policy),
                                                       (const uint8_t *)domains[i].type, strlen(domains[i].type));
        if (type.fault.kind != GTHOST_FAULT_NONE) {
            fprintf(stderr, "xg: type %s: fault %u\n", domains[i].type, type.fault.kind);
            return false;
        }
        settings[i].id = domains[i].id;
        settings[i].label = type.label;
        settings[i].frames = domains[i].frames;
        settings[i].table_frames = domains[i].table;
        settings[i].version = domains[i].version;
    }
    const struct gthost_fault fault = gthost_start(settings, count, xg_first_gen, run++, (const uint8_t *)policy,
                                                   strlen(policy), handles, count);
    if (fault.kind != GTHOST_FAULT_NONE) {
        const struct gthost_text text = gthost_fault_text(fault.kind);
        fprintf(stderr, "xg: no run: %.*s (line %u, domain %u)\n", (int)text.len, (const char *)text.bytes, fault.line,
                fault.dom);
        return false;
    }
    trace_head(domains, count, policy);
    for (size_t i = 0; i < count; i++) {
        struct dom *dom = calloc(1, sizeof *dom);
        pthread_mutexattr_t kind;
        if (!dom) {
            perror("xg");
            return false;
        }
        pthread_mutexattr_init(&kind);
        pthread_mutexattr_settype(&kind, PTHREAD_MUTEX_ERRORCHECK);
        pthread_mutexattr_setrobust(&kind, PTHREAD_MUTEX_ROBUST);
        pthread_mutex_init(&dom->lock, &kind);
        dom->id = domains[i].id;
        dom->gt = handles[i];
        dom->frames = domains[i].frames;
        dom->fd = memfd_create("guest", MFD_CLOEXEC);
        if (dom->fd < 0 || ftruncate(dom->fd, (off_t)dom->frames * PAGE)) {
            perror("xg: memfd");
            return false;
        }
        dom->base = mmap((void *)domains[i].at, (size_t)dom->frames * PAGE, PROT_READ | PROT_WRITE,
                         MAP_SHARED | (domains[i].at ? MAP_FIXED_NOREPLACE : 0), dom->fd, 0);
        if (dom->base == MAP_FAILED) {
            perror("xg: mmap");
            return false;
        }
        dom->taken = calloc((dom->frames + 63) / 64, 8);
        if (!dom->taken) {
            perror("xg");
            return false;
        }
        dom->taken[0] = 1; /* frame 0 is the scratch end of copies from and to plain memory */
        const uint32_t refs = domains[i].table * (domains[i].version == 2 ? 256u : 512u);
        for (uint32_t ref = FIRST_REF; ref < refs; ref++) {
            dom->refs[dom->free++] = ref;
        }
        doms[dom->id] = dom;
        ids[i] = dom->id;
    }
    return true;
}

void xg_guest_table(uint16_t id, uint32_t first, uint32_t refs)
{
    struct dom *dom = doms[id];
    pthread_mutex_init(&dom->table_lock, NULL);
    dom->table = (uint64_t *)dom->base;
    dom->most_refs = dom->free + FIRST_REF;
    dom->table_refs = dom->spare = refs;
    for (uint32_t ref = 0; ref < refs; ref++) {
        dom->alias[ref] = dom->origin[ref] = ref;
    }
    dom->first_frame = first;
    has_guests = true;
}

static void lock(struct dom *dom)
{
    if (pthread_mutex_lock(&dom->lock) == EOWNERDEAD) {
        pthread_mutex_consistent(&dom->lock);
    }
}

static void unlock(struct dom *dom) { pthread_mutex_unlock(&dom->lock); }

/* --- pages --- */

static bool is_taken(struct dom *dom, uint32_t frame) { return dom->taken[frame / 64] >> frame % 64 & 1; }
static void take(struct dom *dom, uint32_t frame) { dom->taken[frame / 64] |= 1ull << frame % 64; }

static uint64_t alloc_pages(struct dom *dom, uint32_t count)
{
    for (int pass = 0; pass < 2; pass++) {
        uint32_t run = 0;
        for (uint32_t frame = pass ? 1 : dom->hint; frame < dom->frames; frame++) {
            run = is_taken(dom, frame) ? 0 : run + 1;
            if (run == count) {
                for (uint32_t i = 0; i < count; i++) {
                    take(dom, frame - i);
                }
                dom->hint = frame + 1;
                return frame - count + 1;
            }
        }
    }
    errno = ENOMEM;
    return UINT64_MAX;
}

static void free_page(struct dom *dom, uint64_t frame) { dom->taken[frame / 64] &= ~(1ull << frame % 64); }

uint64_t xg_alloc(uint32_t count)
{
    lock(current);
    const uint64_t frame = alloc_pages(current, count);
    unlock(current);
    return frame;
}

void xg_free(uint64_t frame, uint32_t count)
{
    lock(current);
    for (uint32_t i = 0; i < count; i++) {
        free_page(current, frame + i);
    }
    unlock(current);
}

/* --- grants --- */

static void put_ref(struct dom *dom, uint32_t ref)
{
    dom->refs[(dom->first + dom->free++) % MOST_REFS] = ref;
}

/* What was withdrawn while in use: looks at each entry once. The library has no event for the last unmap. */
static void reap(struct dom *dom)
{
    size_t kept = 0;
    for (size_t i = 0; i < dom->laters; i++) {
        const struct later at = dom->later[i];
        const struct gthost_entry_status entry = gthost_entry(&dom->gt, at.ref).entry;
        if (entry.kind != GTHOST_ENTRY_INVALID) {
            gthost_withdraw(&dom->gt, at.ref);
        }
        if (entry.kind != GTHOST_ENTRY_INVALID || entry.reads || entry.writes) {
            dom->later[kept++] = at;
            continue;
        }
        __tsan_acquire(dom->base + at.frame * PAGE);
        put_ref(dom, at.ref);
        if (at.free_page) {
            free_page(dom, at.frame);
        }
    }
    dom->laters = kept;
}

static uint32_t grant(struct dom *dom, uint64_t frame, uint32_t to, bool read_only)
{
    if (dom->laters && dom->free < 64) {
        reap(dom);
    }
    while (dom->free > 0) {
        const uint32_t ref = dom->refs[dom->first];
        dom->first = (dom->first + 1) % MOST_REFS;
        dom->free--;
        if (mode == XG_NONE) {
            dom->plain[ref].frame = frame;
        } else {
            __tsan_release(dom->base + frame * PAGE);
            const struct gthost_answer answer = gthost_grant_page(&dom->gt, ref, to, frame, read_only);
            if (to < NUMBERS) {
                trace(dom, answer, "grant %u page %u %s %llu", ref, to, read_only ? "ro" : "rw", (unsigned long long)frame);
            }
            if (answer.rule == GTHOST_N22) {
                continue; /* worn: it is lost for the rest of the run */
            }
            if (answer.rule != GTHOST_OK) {
                put_ref(dom, ref);
                refused(dom, "grant", to, ref, answer);
                return 0;
            }
        }
        dom->frame_of[ref] = frame;
        dom->counts.grants++;
        return ref;
    }
    errno = ENOSPC;
    return 0;
}

static bool end(struct dom *dom, uint32_t ref)
{
    if (mode != XG_NONE) {
        const struct gthost_answer answer = gthost_revoke(&dom->gt, ref);
        trace(dom, answer, "revoke %u", ref);
        if (answer.rule != GTHOST_OK) {
            refused(dom, "revoke", dom->id, ref, answer);
            return false;
        }
    }
    __tsan_acquire(dom->base + dom->frame_of[ref] * PAGE);
    put_ref(dom, ref);
    return true;
}

static void end_later(struct dom *dom, uint32_t ref, bool frees)
{
    const uint64_t frame = dom->frame_of[ref];
    struct gthost_answer answer = {0, 0, 0, 0, 0, 0, 0, 0, 0, 0, 0};
    if (mode != XG_NONE) {
        answer = gthost_revoke(&dom->gt, ref);
        trace(dom, answer, "revoke %u", ref);
    }
    if (answer.rule == GTHOST_OK) {
        __tsan_acquire(dom->base + frame * PAGE);
        put_ref(dom, ref);
        if (frees) {
            free_page(dom, frame);
        }
        return;
    }
    answer = gthost_withdraw(&dom->gt, ref);
    trace(dom, answer, "withdraw %u", ref);
    if (dom->laters == dom->room) {
        const size_t room = dom->room ? 2 * dom->room : 64;
        struct later *more = realloc(dom->later, room * sizeof *more);
        if (!more) {
            return; /* the reference and its page are not used again in this run */
        }
        dom->later = more;
        dom->room = room;
    }
    dom->later[dom->laters++] = (struct later){ref, frame, frees};
    dom->counts.deferred++;
}

uint32_t xg_grant(uint64_t frame, uint32_t to, bool read_only)
{
    lock(current);
    const uint32_t ref = grant(current, frame, to, read_only);
    unlock(current);
    return ref;
}

bool xg_end(uint32_t ref)
{
    lock(current);
    const bool is_done = end(current, ref);
    unlock(current);
    return is_done;
}

void xg_end_later(uint32_t ref, bool frees)
{
    lock(current);
    end_later(current, ref, frees);
    unlock(current);
}

size_t xg_deferred(uint16_t id)
{
    struct dom *dom = doms[id];
    lock(dom);
    reap(dom);
    const size_t left = dom->laters;
    unlock(dom);
    return left;
}

/* --- regions --- */

static size_t bucket(const void *at) { return (uintptr_t)at / PAGE % BUCKETS; }

static void keep(xengnttab_handle *xgt, struct region *region)
{
    struct region **at = &xgt->regions[bucket(region->at)];
    region->next = *at;
    *at = region;
    xgt->used += region->count;
}

static struct region **find(xengnttab_handle *xgt, const void *start)
{
    struct region **at = &xgt->regions[bucket(start)];
    while (*at && (*at)->at != start) {
        at = &(*at)->next;
    }
    return at;
}

static void tell(struct dom *dom, const struct region *region)
{
    if (region->notify_offset != (uint32_t)-1) {
        __atomic_store_n(region->at + region->notify_offset, 0, __ATOMIC_SEQ_CST);
    }
    if (region->notify_port != (uint32_t)-1) {
        xe_kernel_notify(dom->id, region->notify_port);
    }
}

static struct gthost_answer unmap_name(struct dom *dom, struct gthost_handle name);

/* Ends a region: the notification, then the view, then the pins: nobody may reach the page after the last of them. */
static int let_go(struct dom *dom, struct region *region, bool is_crash)
{
    int status = 0;
    tell(dom, region);
    if (region->is_share) {
        for (uint32_t i = 0; i < region->count; i++) {
            end_later(dom, region->u.refs[i], true);
        }
        if (region->u.refs != &region->ref) {
            free(region->u.refs);
        }
        free(region);
        return 0;
    }
    if (region->is_view) {
        if (is_crash) { /* a late access of a dead domain's thread must fault, not reach another's map */
            mmap(region->at, (size_t)region->count * PAGE, PROT_NONE, MAP_FIXED | MAP_PRIVATE | MAP_ANONYMOUS, -1, 0);
        } else {
            __real_munmap(region->at, (size_t)region->count * PAGE);
        }
    }
    for (uint32_t i = 0; !is_crash && mode != XG_NONE && i < region->count; i++) {
        const struct gthost_answer answer = unmap_name(dom, region->u.names[i]);
        if (answer.rule != GTHOST_OK) {
            refused(dom, "unmap", 0, i, answer);
            status = -1;
        }
    }
    dom->counts.unmaps += region->count;
    if (region->u.names != &region->name) {
        free(region->u.names);
    }
    free(region);
    return status;
}

static int let_go_at(xengnttab_handle *xgt, void *start, uint32_t count)
{
    struct region **at = find(xgt, start), *region = *at;
    if (!region || region->count != count) {
        errno = region ? EINVAL : ENOENT;
        return -1;
    }
    *at = region->next;
    xgt->used -= count;
    return let_go(xgt->dom, region, false);
}

static xengnttab_handle *open_handle(void)
{
    if (!current) {
        errno = ENODEV;
        return NULL;
    }
    xengnttab_handle *xgt = calloc(1, sizeof *xgt);
    if (xgt) {
        xgt->dom = current;
        xgt->most = GTHOST_MAX_MAPPINGS;
        lock(current);
        xgt->next = current->handles;
        current->handles = xgt;
        unlock(current);
    }
    return xgt;
}

static void close_regions(xengnttab_handle *xgt, bool is_crash)
{
    for (size_t i = 0; i < BUCKETS; i++) {
        while (xgt->regions[i]) {
            struct region *region = xgt->regions[i];
            xgt->regions[i] = region->next;
            let_go(xgt->dom, region, is_crash);
        }
    }
    xgt->used = 0;
}

static int close_handle(xengnttab_handle *xgt)
{
    struct dom *dom = xgt->dom;
    lock(dom);
    struct xengntdev_handle **at = &dom->handles;
    while (*at && *at != xgt) {
        at = &(*at)->next;
    }
    if (*at) {
        *at = xgt->next;
    }
    close_regions(xgt, false);
    reap(dom);
    unlock(dom);
    free(xgt);
    return 0;
}

/* --- guests with a table of their own --- */

/* The guest's entry in one piece: the guest may write it meanwhile. */
static uint64_t look(const struct dom *guest, uint32_t ref)
{
    return __atomic_load_n(&guest->table[ref], __ATOMIC_ACQUIRE);
}

static struct gthost_answer follow(struct dom *guest, uint32_t ref, uint64_t word)
{
    struct gthost_entry_bytes bytes = {sizeof word, {0}};
    const uint32_t frame = (uint32_t)(word >> 32) - guest->first_frame; /* outside of its memory: N16 */
    const uint64_t moved = (word & 0xFFFFFFFFu) | (word & 3 ? (uint64_t)frame << 32 : 0);
    memcpy(bytes.bytes, &moved, sizeof moved);
    struct gthost_answer answer = gthost_follow(&guest->gt, guest->alias[ref], bytes);
    while (answer.rule == GTHOST_N22 && guest->spare < guest->most_refs) { /* worn: another takes its place */
        const struct gthost_entry_status entry = gthost_entry(&guest->gt, guest->alias[ref]).entry;
        if (entry.reads || entry.writes) {
            break; /* its marks still are those of the old one */
        }
        if (entry.kind != GTHOST_ENTRY_INVALID) {
            gthost_withdraw(&guest->gt, guest->alias[ref]);
        }
        guest->origin[guest->spare] = ref;
        guest->alias[ref] = guest->spare++;
        answer = gthost_follow(&guest->gt, guest->alias[ref], bytes);
    }
    if (answer.rule == GTHOST_OK) {
        guest->counts.followed[answer.value]++;
    }
    return answer;
}

static bool mark(struct dom *guest, uint32_t ref, uint64_t word, bool writes)
{
    const uint64_t marked = word | GTF_reading | (writes ? GTF_writing : 0);
    const bool is_done = __atomic_compare_exchange_n(&guest->table[ref], &word, marked, false, __ATOMIC_ACQ_REL,
                                                     __ATOMIC_ACQUIRE);
    guest->counts.missed += !is_done;
    return is_done;
}

/* The control word is that of the monitor's entry just after an unmap. */
static void clear_marks(struct dom *guest, uint32_t alias, uint64_t word)
{
    const uint32_t ref = guest->origin[alias];
    const bool writes = gthost_writes_in(word) > 0, reads = gthost_reads_in(word) > 0 || writes;
    const unsigned gone = (writes ? 0u : GTF_writing) | (reads ? 0u : GTF_reading);
    __atomic_fetch_and((uint16_t *)&guest->table[ref], (uint16_t)~gone, __ATOMIC_RELEASE);
}

/* One map by the domain, of a guest's entry as it is now. */
static struct gthost_answer map_of_guest(struct dom *dom, struct dom *guest, uint32_t ref, uint32_t flags)
{
    struct gthost_answer answer = {GTHOST_N9, -3, 0, 0, 0, 0, 0, 0, 0, 0, 0};
    if (ref >= guest->table_refs) {
        return answer;
    }
    pthread_mutex_lock(&guest->table_lock);
    for (int i = 0; i < 4; i++) {
        const uint64_t word = look(guest, ref);
        answer = follow(guest, ref, word);
        if (answer.rule != GTHOST_OK) {
            break;
        }
        answer = gthost_map(&dom->gt, guest->id, guest->alias[ref], flags);
        if (xg_between) {
            xg_between();
        }
        if (answer.rule != GTHOST_OK || mark(guest, ref, word, flags == GTHOST_MAP_WRITABLE)) {
            break;
        }
        gthost_unmap(&dom->gt, gthost_handle_of(answer));
        answer = (struct gthost_answer){GTHOST_N18, -1, 0, 0, 0, 0, 0, 0, 0, 0, 0};
    }
    pthread_mutex_unlock(&guest->table_lock);
    return answer;
}

static struct gthost_answer unmap_name(struct dom *dom, struct gthost_handle name)
{
    if (!has_guests) {
        const struct gthost_answer answer = gthost_unmap(&dom->gt, name);
        trace(dom, answer, "unmap m%llu_%zu", (unsigned long long)name.serial, name.key);
        return answer;
    }
    const struct gthost_mapping mapping = gthost_mapping(&dom->gt, name).mapping;
    struct dom *guest = doms[mapping.owner];
    if (!guest || !guest->table) {
        return gthost_unmap(&dom->gt, name);
    }
    pthread_mutex_lock(&guest->table_lock);
    const struct gthost_answer answer = gthost_unmap(&dom->gt, name);
    if (answer.rule == GTHOST_OK) {
        clear_marks(guest, answer.gref, answer.word);
    }
    pthread_mutex_unlock(&guest->table_lock);
    return answer;
}

/* --- libxengnttab: mapping --- */

xengnttab_handle *xengnttab_open(struct xentoollog_logger *logger, unsigned flags)
{
    (void)logger;
    (void)flags;
    return open_handle();
}

int xengnttab_close(xengnttab_handle *xgt) { return xgt ? close_handle(xgt) : 0; }
int xengnttab_fd(xengnttab_handle *xgt) { (void)xgt; return -1; }

int xengnttab_set_max_grants(xengnttab_handle *xgt, uint32_t most)
{
    xgt->most = most < GTHOST_MAX_MAPPINGS ? most : GTHOST_MAX_MAPPINGS;
    return 0;
}

/* One page of a region: a pin, and the page behind it. */
static bool map_one(struct dom *dom, uint32_t owner, uint32_t ref, int prot, struct gthost_handle *name,
                    struct dom **of, uint64_t *frame)
{
    if (mode == XG_NONE) {
        *of = dom_of(owner);
        *frame = *of && ref < MOST_REFS ? (*of)->plain[ref].frame : 0;
        return *of != NULL;
    }
    const uint32_t flags = prot & PROT_WRITE ? GTHOST_MAP_WRITABLE : GTHOST_MAP_READ_ONLY;
    struct gthost_answer answer = {GTHOST_N1, 0, 0, 0, 0, 0, 0, 0, 0, 0, 0};
    for (int i = 0; i < 4; i++) {
        struct dom *guest = has_guests && owner < NUMBERS ? doms[owner] : NULL;
        answer = guest && guest->table ? map_of_guest(dom, guest, ref, flags) : gthost_map(&dom->gt, owner, ref, flags);
        if (owner < NUMBERS && owner != GTHOST_DOMID_SELF) {
            trace(dom, answer, "map m%llu_%llu %u %u %u", (unsigned long long)answer.value,
                  (unsigned long long)answer.more, owner, ref, flags);
        }
        if (answer.rule != GTHOST_N18) {
            break;
        }
    }
    if (answer.rule != GTHOST_OK) {
        refused(dom, "map", owner, ref, answer);
        return false;
    }
    *name = gthost_handle_of(answer);
    const struct gthost_mapping mapping = gthost_mapped_of(answer);
    *of = doms[mapping.owner];
    *frame = mapping.frame;
    return true;
}

static uint8_t *reserve(uint32_t count)
{
    uint8_t *at = mmap(NULL, (size_t)count * PAGE, PROT_NONE, MAP_PRIVATE | MAP_ANONYMOUS, -1, 0);
    return at == MAP_FAILED ? NULL : at;
}

static void *map_all(xengnttab_handle *xgt, uint32_t count, const uint32_t *domids, uint32_t domid,
                     const uint32_t *refs, int prot, uint32_t offset, uint32_t port)
{
    struct dom *dom = xgt->dom;
    if (!count || count > xgt->most || xgt->used > xgt->most - count) {
        errno = count ? ENOSPC : EINVAL;
        return NULL;
    }
    struct region *region = calloc(1, sizeof *region);
    if (!region) {
        return NULL;
    }
    region->count = count;
    region->notify_offset = offset;
    region->notify_port = port;
    region->is_view = mode == XG_REMAP || count > 1;
    region->u.names = count == 1 ? &region->name : calloc(count, sizeof *region->u.names);
    region->at = region->is_view ? reserve(count) : NULL;
    if (!region->u.names || (region->is_view && !region->at)) {
        if (region->at) {
            __real_munmap(region->at, (size_t)count * PAGE);
        }
        if (region->u.names != &region->name) {
            free(region->u.names);
        }
        free(region);
        errno = ENOMEM;
        return NULL;
    }
    lock(dom);
    uint32_t done = 0;
    int why = 0;
    for (; done < count; done++) {
        struct dom *of;
        uint64_t frame;
        if (!map_one(dom, domids ? domids[done] : domid, refs[done], prot, &region->u.names[done], &of, &frame)) {
            why = errno;
            break;
        }
        if (!region->is_view) {
            region->at = of->base + frame * PAGE;
        } else if (mmap(region->at + (size_t)done * PAGE, PAGE, prot, MAP_SHARED | MAP_FIXED, of->fd,
                        (off_t)(frame * PAGE)) == MAP_FAILED) {
            why = errno;
            if (mode != XG_NONE) {
                unmap_name(dom, region->u.names[done]);
            }
            break;
        }
    }
    dom->counts.maps += done;
    if (done == count) {
        keep(xgt, region);
        unlock(dom);
        return region->at;
    }
    region->notify_offset = region->notify_port = (uint32_t)-1;
    if (region->is_view) {
        __real_munmap(region->at, (size_t)count * PAGE);
    }
    region->is_view = false;
    region->count = done;
    let_go(dom, region, false); /* all or nothing */
    unlock(dom);
    errno = why;
    return NULL;
}

void *xengnttab_map_grant_ref(xengnttab_handle *xgt, uint32_t domid, uint32_t ref, int prot)
{
    return map_all(xgt, 1, NULL, domid, &ref, prot, -1, -1);
}

void *xengnttab_map_grant_refs(xengnttab_handle *xgt, uint32_t count, uint32_t *domids, uint32_t *refs, int prot)
{
    return map_all(xgt, count, domids, 0, refs, prot, -1, -1);
}

void *xengnttab_map_domain_grant_refs(xengnttab_handle *xgt, uint32_t count, uint32_t domid, uint32_t *refs, int prot)
{
    return map_all(xgt, count, NULL, domid, refs, prot, -1, -1);
}

void *xengnttab_map_grant_ref_notify(xengnttab_handle *xgt, uint32_t domid, uint32_t ref, int prot, uint32_t offset,
                                     evtchn_port_t port)
{
    if (offset != (uint32_t)-1 && (offset >= PAGE || !(prot & PROT_WRITE))) {
        errno = EINVAL;
        return NULL;
    }
    return map_all(xgt, 1, NULL, domid, &ref, prot, offset, port);
}

int xengnttab_unmap(xengnttab_handle *xgt, void *start, uint32_t count)
{
    lock(xgt->dom);
    const int status = let_go_at(xgt, start, count);
    unlock(xgt->dom);
    return status;
}

/* --- libxengnttab: copying --- */

/* QEMU copies like this too: a map, the bytes, an unmap. */
static int16_t copy_mapped(struct dom *dom, const xengnttab_grant_copy_segment_t *seg, bool from, bool to)
{
    struct gthost_handle name[2];
    uint8_t *at[2] = {seg->source.virt, seg->dest.virt};
    const bool is_ref[2] = {from, to};
    int16_t status = GNTST_okay;
    int done = 0;
    for (; done < 2; done++) {
        const union xengnttab_copy_ptr *end = done ? &seg->dest : &seg->source;
        struct dom *of;
        uint64_t frame;
        if (!is_ref[done]) {
            continue;
        }
        if (end->foreign.offset > PAGE || seg->len > PAGE - end->foreign.offset) {
            status = GNTST_bad_copy_arg;
            break;
        }
        if (!map_one(dom, end->foreign.domid, end->foreign.ref, done ? PROT_READ | PROT_WRITE : PROT_READ, &name[done],
                     &of, &frame)) {
            status = GNTST_general_error;
            break;
        }
        at[done] = of->base + frame * PAGE + end->foreign.offset;
    }
    if (done == 2) {
        memmove(at[1], at[0], seg->len);
    }
    while (done-- > 0) {
        if (is_ref[done]) {
            unmap_name(dom, name[done]);
        }
    }
    return status;
}

static int16_t copy_one(struct dom *dom, const xengnttab_grant_copy_segment_t *seg)
{
    const bool from = seg->flags & GNTCOPY_source_gref, to = seg->flags & GNTCOPY_dest_gref;
    if (mode == XG_NONE) {
        struct dom *src = from ? doms[seg->source.foreign.domid] : dom;
        struct dom *dst = to ? doms[seg->dest.foreign.domid] : dom;
        memcpy(to ? dst->base + dst->plain[seg->dest.foreign.ref].frame * PAGE + seg->dest.foreign.offset
                  : seg->dest.virt,
               from ? src->base + src->plain[seg->source.foreign.ref].frame * PAGE + seg->source.foreign.offset
                    : seg->source.virt, seg->len);
        return GNTST_okay;
    }
    /* An end in plain memory is asked for as gthost_copy_in and gthost_copy_out do: frame 0, which is kept free for this. */
    const struct gthost_end own = {0, dom->id, 0};
    struct gthost_copy copy = {own, own, seg->len, seg->flags};
    if (from) {
        copy.source = (struct gthost_end){seg->source.foreign.ref, seg->source.foreign.domid,
                                          seg->source.foreign.offset};
    }
    if (to) {
        copy.dest = (struct gthost_end){seg->dest.foreign.ref, seg->dest.foreign.domid, seg->dest.foreign.offset};
    }
    if (has_guests || xg_copies_by_map) { /* a map keeps the marks: a copy has no name by which they could be cleared */
        return copy_mapped(dom, seg, from, to);
    }
    const struct gthost_begun_copy begun = gthost_copy_begin(&dom->gt, copy);
    trace(dom, begun.answer, "copy %s %u %llu %u %s %u %llu %u %u", from ? "gref" : "frame", copy.source.dom,
          (unsigned long long)copy.source.ptr, copy.source.off, to ? "gref" : "frame", copy.dest.dom,
          (unsigned long long)copy.dest.ptr, copy.dest.off, copy.len);
    if (begun.answer.rule != GTHOST_OK) {
        refused(dom, "copy", from ? seg->source.foreign.domid : seg->dest.foreign.domid,
                from ? seg->source.foreign.ref : seg->dest.foreign.ref, begun.answer);
        return (int16_t)begun.answer.status;
    }
    uint8_t *from_page = doms[begun.places.from.owner]->base + begun.places.from.frame * PAGE;
    uint8_t *to_page = doms[begun.places.to.owner]->base + begun.places.to.frame * PAGE;
    __tsan_acquire(from_page);
    __tsan_acquire(to_page);
    memmove(to ? to_page + begun.places.to.off : (uint8_t *)seg->dest.virt,
            from ? from_page + begun.places.from.off : (uint8_t *)seg->source.virt, seg->len);
    __tsan_release(from_page);
    __tsan_release(to_page);
    gthost_copy_end(&dom->gt);
    return GNTST_okay;
}

int xengnttab_grant_copy(xengnttab_handle *xgt, uint32_t count, xengnttab_grant_copy_segment_t *segs)
{
    lock(xgt->dom);
    for (uint32_t i = 0; i < count; i++) {
        segs[i].status = copy_one(xgt->dom, &segs[i]);
    }
    xgt->dom->counts.copies += count;
    unlock(xgt->dom);
    return 0;
}

/* --- libxengnttab: granting --- */

xengntshr_handle *xengntshr_open(struct xentoollog_logger *logger, unsigned flags)
{
    (void)logger;
    (void)flags;
    return open_handle();
}

int xengntshr_close(xengntshr_handle *xgs) { return xgs ? close_handle(xgs) : 0; }
int xengntshr_fd(xengntshr_handle *xgs) { (void)xgs; return -1; }

static void *share(xengntshr_handle *xgs, uint32_t domid, int count, uint32_t *refs, int writable, uint32_t offset,
                   uint32_t port)
{
    struct dom *dom = xgs->dom;
    struct region *region = count > 0 && domid < NUMBERS ? calloc(1, sizeof *region) : NULL;
    if (!region) {
        errno = EINVAL;
        return NULL;
    }
    region->u.refs = count == 1 ? &region->ref : calloc((size_t)count, sizeof *region->u.refs);
    if (!region->u.refs) {
        free(region);
        return NULL;
    }
    lock(dom);
    reap(dom);
    const uint64_t frame = alloc_pages(dom, (uint32_t)count);
    if (frame == UINT64_MAX) {
        unlock(dom);
        if (region->u.refs != &region->ref) {
            free(region->u.refs);
        }
        free(region);
        return NULL;
    }
    region->at = dom->base + frame * PAGE;
    region->is_share = true;
    region->notify_offset = offset;
    region->notify_port = port;
    memset(region->at, 0, (size_t)count * PAGE);
    for (int i = 0; i < count; i++) {
        const uint32_t ref = grant(dom, frame + (uint64_t)i, domid, !writable);
        if (!ref) {
            const int why = errno;
            for (int j = i; j < count; j++) {
                free_page(dom, frame + (uint64_t)j);
            }
            region->notify_offset = region->notify_port = (uint32_t)-1;
            let_go(dom, region, false);
            unlock(dom);
            errno = why;
            return NULL;
        }
        refs[i] = region->u.refs[i] = ref;
        region->count = (uint32_t)i + 1;
    }
    keep(xgs, region);
    unlock(dom);
    return region->at;
}

void *xengntshr_share_pages(xengntshr_handle *xgs, uint32_t domid, int count, uint32_t *refs, int writable)
{
    return share(xgs, domid, count, refs, writable, -1, -1);
}

void *xengntshr_share_page_notify(xengntshr_handle *xgs, uint32_t domid, uint32_t *ref, int writable, uint32_t offset,
                                  evtchn_port_t port)
{
    return share(xgs, domid, 1, ref, writable, offset, port);
}

int xengntshr_unshare(xengntshr_handle *xgs, void *start, uint32_t count)
{
    return xengnttab_unmap(xgs, start, count);
}

/* A program may unmap with munmap(2), as libxenvchan_close does: then the kernel driver lets the pins go. */
int __wrap_munmap(void *at, size_t len)
{
    struct dom *dom = current;
    if (dom) {
        lock(dom);
        for (struct xengntdev_handle *xgt = dom->handles; xgt; xgt = xgt->next) {
            if (*find(xgt, at)) {
                const int status = let_go_at(xgt, at, (uint32_t)((len + PAGE - 1) / PAGE));
                unlock(dom);
                return status;
            }
        }
        unlock(dom);
    }
    return __real_munmap(at, len);
}

/* --- the end of a domain --- */

static void leave(struct dom *dom)
{
    while (dom->handles) {
        struct xengntdev_handle *xgt = dom->handles;
        dom->handles = xgt->next;
        close_regions(xgt, true);
        free(xgt);
    }
}

uint64_t xg_crash(uint16_t id)
{
    struct dom *dom = doms[id];
    lock(dom);
    leave(dom);
    const struct gthost_answer answer = gthost_reset(&dom->gt); /* also ends a copy that was under way */
    reap(dom);
    unlock(dom);
    xe_close_domain(id);
    return answer.more;
}

uint64_t xg_stop(void)
{
    uint64_t in_use = 0;
    for (size_t i = 0; i < dom_count; i++) { /* all of them release before any is asked what is in use */
        lock(doms[ids[i]]);
        leave(doms[ids[i]]);
        gthost_reset(&doms[ids[i]]->gt);
        unlock(doms[ids[i]]);
        xe_close_domain(ids[i]);
    }
    for (size_t i = 0; i < dom_count; i++) {
        struct dom *dom = doms[ids[i]];
        const uint64_t more = gthost_finish(&dom->gt).more;
        if (more) {
            fprintf(stderr, "xg: domain %u: %llu entries in use at the end\n", dom->id, (unsigned long long)more);
        }
        in_use += more;
        doms[ids[i]] = NULL;
        __real_munmap(dom->base, (size_t)dom->frames * PAGE);
        close(dom->fd);
        pthread_mutex_destroy(&dom->lock);
        free(dom->later);
        free(dom->taken);
        free(dom);
    }
    if (script) {
        fclose(script);
        script = NULL;
    }
    if (answers) {
        fclose(answers);
        answers = NULL;
    }
    dom_count = 0;
    has_guests = false;
    current = NULL;
    return in_use;
}
