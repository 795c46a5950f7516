/*
 * xg: a host for programs written against libxengnttab, libxenevtchn and libxenstore, without Xen. All domains live in
 * one process. A thread says in which domain it runs (xg_enter); what it opens from then on belongs to that domain.
 */
#ifndef XG_H
#define XG_H

#include <gthost.h>
#include <stdbool.h>
#include <stddef.h>
#include <stdint.h>

struct xg_domain {
    uint16_t id;
    const char *type;    /* its type in the policy */
    uint32_t frames;     /* of its memory */
    uint32_t table;      /* frames of its grant table */
    uint32_t version;    /* of its grant table */
    uintptr_t at;        /* where its memory is to be; 0 for anywhere */
};

enum xg_mode {
    XG_REMAP = 0,  /* each mapping is a view of its own, with the rights asked; it is gone after its unmap */
    XG_DIRECT = 1, /* a mapping of one page is the address of that page; more pages get a view */
    XG_NONE = 2    /* no monitor: whatever is named is handed out. For comparison of speed */
};

bool xg_start(const struct xg_domain *domains, size_t count, const char *policy, enum xg_mode mode);
/* All domains leave. Returns the number of entries that were still in use, and prints them. */
uint64_t xg_stop(void);
/* The calling thread runs in this domain. */
void xg_enter(uint16_t dom);
uint16_t xg_current(void);
/* What a kernel does when a process ends: unmap notifications, views gone, handles closed, pins released. */
uint64_t xg_crash(uint16_t dom);

/*
 * The domain is a guest that grants by stores into the first frames of its own memory (version 1), and makes no calls
 * here. Its frame numbers begin at `first`, and it has `refs` references. What the monitor's table has beyond them
 * takes the place of worn ones. Call it before others map anything.
 */
void xg_guest_table(uint16_t dom, uint32_t first, uint32_t refs);
/* The generation that entries start with, for tests of what happens when they are worn. Before xg_start. */
extern uint32_t xg_first_gen;
/* Copies by a map, a memcpy and an unmap instead of the two halves of a copy. */
extern bool xg_copies_by_map;
/* What a guest does between the look at its entry and the exchange that marks it, for tests. */
extern void (*xg_between)(void);

/* The memory of a domain, for its own drivers. */
uint8_t *xg_page(uint16_t dom, uint64_t frame);
/* Takes `count` pages in a row of the current domain's memory; UINT64_MAX if there are none. */
uint64_t xg_alloc(uint32_t count);
void xg_free(uint64_t frame, uint32_t count);
/* Grants a page of the current domain. Returns the reference, or 0 with errno. */
uint32_t xg_grant(uint64_t frame, uint32_t to, bool read_only);
/* Ends access. False if it is in use; then the entry stays valid. */
bool xg_end(uint32_t ref);
/* Ends access, and frees the reference and (with free_page) the page as soon as no one uses them. */
void xg_end_later(uint32_t ref, bool free_page);
/* The references and pages that wait for their last pin. */
size_t xg_deferred(uint16_t dom);

/*
 * From the next start to its stop: writes all calls as a script for `gthost play` and `explore`, and if a file is given
 * for them, the answers as `play` prints them (the facts of an N5 aside). With flags it is a script for `gthost run`
 * and `explore` instead: an event and a write to XenStore raise a flag, and who takes the event or reads the node
 * awaits it. False if a file can't be written. The environment asks for the same: XENGNTTAB_SCRIPT=FILE, and
 * XENGNTTAB_FLAGS=1.
 */
bool xg_trace(const char *script_file, const char *answers_file, bool flags);
void xg_trace_flag(bool is_await, uint16_t dom, char kind, uint64_t flag);

/* The last refusal in this thread: its rule (0 if none), its words, and what was asked. */
uint32_t xg_last_rule(void);
const char *xg_last_words(void);
/* Whether each refusal goes to standard error with its rule, as with XENGNTTAB_VERBOSE=1. Returns what held before. */
bool xg_verbose(bool on);

/* Of evtchn.c: what the hypervisor and the kernel do by themselves. */
void xe_kernel_notify(uint16_t dom, uint32_t port);
void xe_close_domain(uint16_t dom);

struct xg_counts {
    uint64_t maps, unmaps, copies, grants, refused, deferred, followed[5], missed;
};
struct xg_counts xg_counts(uint16_t dom);

#endif
