/*
 * gthost.h: the running monitor of grant tables, for a program in C or C++.
 *
 * Link with libgthost.a. Nothing here prints, waits, takes a lock, or ends the program. The program keeps the guests'
 * memory itself: the monitor decides who may touch which bytes, and when.
 *
 * Units. A domain is the number of a domain of the run. In a call about a domain (gthost_map, gthost_query_size,
 * gthost_get_version, the ends of a copy), GTHOST_DOMID_SELF names the caller. In a grant it names no domain: such an
 * entry permits no one, not even the caller. A reference is the index of an entry in its owner's table, starting at 0.
 * A frame is the number of one of its owner's pages of GTHOST_FRAME_SIZE bytes, starting at 0. Offsets and lengths are
 * in bytes, and a range ends at GTHOST_FRAME_SIZE at most. In this header a handle is a struct gthost_domain. A struct
 * gthost_handle is the name of a mapping, as Xen's grant_handle_t is; the texts of the rules call that a handle.
 *
 * Generations. Each reference has a generation, which starts at `first_gen`. Each grant, demotion and promotion of the
 * reference raises it by 1. At GTHOST_LAST_GENERATION the reference is worn: these calls are refused by N22 for the
 * rest of the run, also after gthost_set_version and gthost_reset. Revoke, withdraw and unmap still work.
 * A reference lasts for 1,048,575 changes if `first_gen` is 0. At 50,000 grants a second one that is used again at once
 * is worn after 21 seconds, 32 by turns after 11 minutes, and 8,192 by turns after 48 hours. Many guests use again what
 * they freed last. So keep the number that you pass here apart from the guest's, have more table frames than the guest,
 * and pass another number on N22, once the worn one has no pins (examples/xen_front/vmm.c). When no number is left, move
 * all domains to a new run, with their entries and mappings: gthost_renew.h.
 *
 * Memory comes from the program's malloc. Only gthost_start, gthost_type_of, gthost_type_name, gthost_map
 * and gthost_map_all (for their mappings), gthost_reserve_records and the records that are kept allocate. A run of one domain takes 1 MB. A run of 64 domains
 * takes 51 MB, and 68 MB while it starts. A domain keeps no records until gthost_keep_at_most asks for some. Records
 * take 48 bytes each, in pieces of 12 KiB. They are kept until gthost_take_records, which keeps their room for later
 * ones, or until gthost_finish. A mapping takes less than 100 bytes. gthost_start needs 64 KiB of stack, and every other
 * call 16 KiB.
 *
 * Threads. A handle may be in one call at a time. Different threads may call for different domains of a monitor at the
 * same time. A handle may pass to another thread by anything that orders the last call of one thread before the next
 * call of the other: a lock, the start or the join of a thread, or a store with release and a load with acquire. Make
 * no call from a signal handler, or from the forked child of a process with threads. gthost_start and gthost_finish
 * write handles, and the other calls only read theirs, so handles of several threads may lie next to each other.
 *
 * Locks. If several threads make calls for one domain, as the processors of a guest or the queues of a back end do, take
 * a lock for each handle, and hold it for one call at a time; a copy holds its handle from gthost_copy_begin to
 * gthost_copy_end. Some uses need two handles, as gthost_follow of the owner's entry before the mapper's gthost_map.
 * Take two locks in the order of the domains' numbers: otherwise two domains that map each other's pages wait for each
 * other. Calls for different domains need no common lock. So a back end with several workers is faster with a domain for
 * each worker, all of one type.
 *
 * The order of bytes. All steps of the monitor are sequentially consistent. If gthost_revoke returns GTHOST_OK, every
 * access that another thread made before its unmap (or its gthost_copy_end) happens before that return, in the sense of
 * C11. The same holds after gthost_withdraw when gthost_entry shows no pins. What the owner wrote before its grant
 * happens before what the mapper reads after its gthost_map. ThreadSanitizer doesn't see steps inside the library. With
 * it, call __tsan_release(page) before gthost_grant_page, gthost_unmap and gthost_copy_end, and __tsan_acquire(page)
 * after an Ok of gthost_revoke, gthost_map and gthost_copy_begin. MemorySanitizer doesn't see that answers are written:
 * call __msan_unpoison on each.
 *
 * Retries. N18 (missed), N26 and GTHOST_NO_MEMORY (memory) may go away by themselves. N19 (in use) goes away when the
 * others have unmapped, and N10 when the owner grants. All other rules apply until a call changes something.
 *
 * What a caller must do. A pointer that is not null is valid, and a gthost_domain is all zeros or what gthost_start
 * wrote. A domain has one handle. Everything else is tested when a call is made. The inline functions of this header
 * return GTHOST_NULL_POINTER for a null pointer, and pass none to the library. The library, which is proved, tests the
 * rest: a wrong number is refused by a rule, a handle without a domain gives GTHOST_NO_DOMAIN, and one in a copy
 * GTHOST_BUSY. Domains, offsets, lengths and the flags of a copy have 16 bits, and are passed in 32, so that none is cut:
 * a larger domain is refused by N1, an offset or a length by N3 (N21 in a grant), and flags by N2. Such a call is not
 * recorded. A program in another language calls the exports of the library, whose names end in _at, and tests for
 * null itself.
 *
 * After a refusal the domain's mappings, its pins and its table are unchanged. Only a refused gthost_follow may have
 * withdrawn its entry.
 */
#ifndef GTHOST_H
#define GTHOST_H

#include "gthost_types.h"

/* The version of this header: 65,536 times the major number, plus 256 times the minor one, plus the patch number. */
#define GTHOST_VERSION 0x020000

#ifdef __cplusplus
extern "C" {
#endif

/*
 * Starts a run of `count` domains, 1 to GTHOST_MAX_DOMAINS, under the text of a policy, of `policy_len` bytes without a
 * final zero. The repository's docs/FORMATS_POLICY.md defines its language, a subset of FLASK's. All entries begin at
 * the generation `first_gen`, at most GTHOST_LAST_GENERATION. The names of mappings carry the number `run`: give each
 * run of a process a different one. `out_count` must be `count`, and each handle of `out` all zeros. The handle at each
 * index gets the domain of the settings at that index.
 *
 * Returns GTHOST_FAULT_NONE if the run started. Otherwise the fault gives the reason, and `out` is unchanged: the
 * handles are tested first, then the policy, the labels, and the other settings in their order. An allocation that
 * fails is reported at once, after the test of the handles. gthost_start is gthost_start_at with a test for null
 * pointers.
 */
struct gthost_fault gthost_start_at(const struct gthost_settings *settings, size_t count, uint32_t first_gen,
                                    uint32_t run, const uint8_t *policy, size_t policy_len,
                                    struct gthost_domain *out, size_t out_count);

static inline struct gthost_fault gthost_start(const struct gthost_settings *settings, size_t count,
                                               uint32_t first_gen, uint32_t run, const uint8_t *policy,
                                               size_t policy_len, struct gthost_domain *out, size_t out_count)
{
    if (!settings || !policy || !out) {
        const struct gthost_fault null_pointer = {GTHOST_FAULT_NULL_POINTER, 0, 0};
        return null_pointer;
    }
    return gthost_start_at(settings, count, first_gen, run, policy, policy_len, out, out_count);
}

/*
 * Returns the number of the type of this name in a policy's text, the `label` of a domain's settings. Types count from 0
 * in the order of their declarations. gthost_type_of tests for null pointers.
 */
struct gthost_type gthost_type_of_at(const uint8_t *policy, size_t policy_len, const uint8_t *name, size_t name_len);

static inline struct gthost_type gthost_type_of(const uint8_t *policy, size_t policy_len, const uint8_t *name,
                                                size_t name_len)
{
    if (!policy || !name) {
        const struct gthost_type null_pointer = {{GTHOST_FAULT_NULL_POINTER, 0, 0}, 0};
        return null_pointer;
    }
    return gthost_type_of_at(policy, policy_len, name, name_len);
}

/*
 * Writes the name of the type with the number `label` in a policy's text to the front of `name`, without a final zero
 * and as much of it as `name_size` bytes hold, and returns its length. So a refusal by N5 can be shown with names: its
 * `source` and `target` are such numbers. After a fault `name` is unchanged and the length is 0. gthost_type_name tests
 * for null pointers.
 */
struct gthost_name gthost_type_name_at(const uint8_t *policy, size_t policy_len, uint32_t label, uint8_t *name,
                                       size_t name_size);

static inline struct gthost_name gthost_type_name(const uint8_t *policy, size_t policy_len, uint32_t label,
                                                  uint8_t *name, size_t name_size)
{
    if (!policy || !name) {
        const struct gthost_name null_pointer = {{GTHOST_FAULT_NULL_POINTER, 0, 0}, 0};
        return null_pointer;
    }
    return gthost_type_name_at(policy, policy_len, label, name, name_size);
}

/* Returns what a kind of fault means, in words. */
struct gthost_text gthost_fault_text(uint32_t kind);
/* Returns what a rule means: its name, its status, why it refuses, and what the caller may do. */
struct gthost_rule_line gthost_rule_text(uint32_t rule);
/* Returns the version of the library. It is GTHOST_VERSION of the header of the same release. */
uint32_t gthost_version(void);

/*
 * The calls of a domain as the library exports them: `domain` may not be null. The functions below have the same names
 * without _at, and test `domain` first. A program in C or C++ calls those. Maps, unmaps and copies store their answer
 * in `answer` or `begun`. No pointer of these four may be null, and what they point to may not overlap.
 */
struct gthost_answer gthost_finish_at(struct gthost_domain *domain);
struct gthost_answer gthost_reset_at(struct gthost_domain *domain);
struct gthost_answer gthost_grant_page_at(struct gthost_domain *domain, uint32_t gref, uint32_t to, uint64_t frame,
                                          uint32_t ro);
struct gthost_answer gthost_grant_sub_at(struct gthost_domain *domain, uint32_t gref, uint32_t to, uint64_t frame,
                                         uint32_t off, uint32_t len, uint32_t ro);
struct gthost_answer gthost_grant_via_at(struct gthost_domain *domain, uint32_t gref, uint32_t to, uint32_t dom2,
                                         uint32_t ref2, uint32_t ro);
struct gthost_answer gthost_grant_bytes_at(struct gthost_domain *domain, uint32_t gref,
                                           struct gthost_entry_bytes bytes);
struct gthost_answer gthost_follow_at(struct gthost_domain *domain, uint32_t gref, struct gthost_entry_bytes bytes);
struct gthost_answer gthost_revoke_at(struct gthost_domain *domain, uint32_t gref);
struct gthost_answer gthost_withdraw_at(struct gthost_domain *domain, uint32_t gref);
struct gthost_answer gthost_demote_at(struct gthost_domain *domain, uint32_t gref);
struct gthost_answer gthost_promote_at(struct gthost_domain *domain, uint32_t gref);
struct gthost_found_entry gthost_entry_at(struct gthost_domain *domain, uint32_t gref);
struct gthost_answer gthost_unused_at(struct gthost_domain *domain, uint32_t from);
void gthost_mappings_at(struct gthost_domain *domain, size_t from, struct gthost_answer *answer);
struct gthost_answer gthost_grant_all_of_at(struct gthost_domain *domain, struct gthost_domain *other);
struct gthost_answer gthost_difference_at(struct gthost_domain *domain, struct gthost_domain *other);
void gthost_map_at(struct gthost_domain *domain, uint32_t dom, uint32_t gref, uint32_t flags,
                   struct gthost_answer *answer);
struct gthost_answer gthost_map_all_at(struct gthost_domain *domain, struct gthost_map_request *requests, size_t count,
                                       struct gthost_handle *names, size_t names_count);
void gthost_unmap_at(struct gthost_domain *domain, const struct gthost_handle *name, struct gthost_answer *answer);
struct gthost_found_mapping gthost_mapping_at(struct gthost_domain *domain, struct gthost_handle name);
void gthost_copy_begin_at(struct gthost_domain *domain, const struct gthost_copy *copy,
                          struct gthost_begun_copy *begun);
void gthost_copy_end_at(struct gthost_domain *domain, struct gthost_answer *answer);
struct gthost_answer gthost_set_version_at(struct gthost_domain *domain, uint32_t version);
struct gthost_answer gthost_setup_table_at(struct gthost_domain *domain, uint32_t frames);
struct gthost_answer gthost_query_size_at(struct gthost_domain *domain, uint32_t dom);
struct gthost_answer gthost_get_version_at(struct gthost_domain *domain, uint32_t dom);
struct gthost_found_record gthost_record_at(struct gthost_domain *domain, size_t index);
struct gthost_answer gthost_take_records_at(struct gthost_domain *domain);
struct gthost_answer gthost_keep_at_most_at(struct gthost_domain *domain, size_t records);
struct gthost_answer gthost_reserve_records_at(struct gthost_domain *domain, size_t records);

/* These functions make the results for a null pointer: the call was not made, and everything but the rule is zero. */
static inline struct gthost_answer gthost_null_answer(void)
{
    const struct gthost_answer answer = {GTHOST_NULL_POINTER, 0, GTHOST_NOTHING, 0, 0, 0, 0, 0, 0, 0, 0};
    return answer;
}

static inline struct gthost_found_mapping gthost_null_mapping(void)
{
    const struct gthost_found_mapping found = {gthost_null_answer(), {0, 0, 0, 0}};
    return found;
}

static inline struct gthost_found_entry gthost_null_entry(void)
{
    const struct gthost_found_entry found = {gthost_null_answer(), {0, 0, 0, 0, 0, 0, 0}};
    return found;
}

static inline struct gthost_found_record gthost_null_record(void)
{
    const struct gthost_answer none = {0, 0, 0, 0, 0, 0, 0, 0, 0, 0, 0};
    const struct gthost_found_record found = {gthost_null_answer(),
                                              {0, 0, 0, 0, 0, 0, {0, 0, 0}, {0, 0, 0}, none}};
    return found;
}

static inline struct gthost_begun_copy gthost_null_copy(void)
{
    const struct gthost_begun_copy begun = {gthost_null_answer(), {{0, 0, 0}, {0, 0, 0}, 0}};
    return begun;
}

/*
 * Lets the domain leave its run: ends its copy if it is in one, releases its mappings (also if the policy denies an
 * unmap), and withdraws its valid entries. The handle is then all zeros. The last domain of a run frees the monitor.
 * The domain's records are dropped, so read them before, by gthost_record.
 *
 * The answer (GTHOST_LEFT) has the number of records that were lost, and in `more` the number of its entries that
 * others still use. If that is 0, no domain maps or copies by any of its entries, now or later, and its memory is free.
 * Otherwise others may still touch it, until they unmap. An entry is in use if it has pins. It is also in use if it is
 * still valid, since each of the 64 tries to withdraw it was missed: others took or released pins in between. Such an
 * entry may be mapped later too. gthost_reset returns the same while the domain stays, so that gthost_entry can show
 * when the last pin is gone, and a second gthost_reset can withdraw what is still valid.
 */
static inline struct gthost_answer gthost_finish(struct gthost_domain *domain)
{
    return domain ? gthost_finish_at(domain) : gthost_null_answer();
}

/*
 * Makes the domain ready for another guest in its place: like gthost_finish, but the domain stays, with no copy and no
 * mapping. Each of its entries is withdrawn, but for those that 64 missed tries left valid; `more` counts these too.
 * The answer is the same. Its records stay. The new guest has the number, the type, the table and the generations of
 * the one before. The memory of that one is free if `more` is 0. Otherwise it is free when gthost_entry shows each
 * entry invalid and without pins. An entry that is still valid needs another gthost_reset, or a gthost_withdraw.
 */
static inline struct gthost_answer gthost_reset(struct gthost_domain *domain)
{
    return domain ? gthost_reset_at(domain) : gthost_null_answer();
}

/*
 * Grants a page to the domain `to`, for reading only if `ro` is not 0: publishes an entry instead of an invalid one
 * that has no pins left. Neither the frame nor the domain is checked here. If the owner has no such frame, each map or
 * copy by the entry is refused (N16). If the run has no such domain, the entry permits no one; only a number above
 * 65,535 is refused (N1). N1, N9, N19, N20, N21, N22.
 */
static inline struct gthost_answer gthost_grant_page(struct gthost_domain *domain, uint32_t gref, uint32_t to,
                                                     uint64_t frame, uint32_t ro)
{
    return domain ? gthost_grant_page_at(domain, gref, to, frame, ro) : gthost_null_answer();
}

/* Grants `len` bytes of a page, starting at `off`, for copies only. Needs a table of version 2. N1, N9, N19 to N22. */
static inline struct gthost_answer gthost_grant_sub(struct gthost_domain *domain, uint32_t gref, uint32_t to,
                                                    uint64_t frame, uint32_t off, uint32_t len, uint32_t ro)
{
    return domain ? gthost_grant_sub_at(domain, gref, to, frame, off, len, ro) : gthost_null_answer();
}

/*
 * Grants the copies that the entry `ref2` of `dom2` permits the caller. Needs a table of version 2. N1 (a number above
 * 65,535), N9, N19 to N22.
 */
static inline struct gthost_answer gthost_grant_via(struct gthost_domain *domain, uint32_t gref, uint32_t to,
                                                    uint32_t dom2, uint32_t ref2, uint32_t ro)
{
    return domain ? gthost_grant_via_at(domain, gref, to, dom2, ref2, ro) : gthost_null_answer();
}

/* Grants the entry that the bytes encode: 8 in a table of version 1, 16 in version 2. N9, N19, N20, N22, N25. */
static inline struct gthost_answer gthost_grant_bytes(struct gthost_domain *domain, uint32_t gref,
                                                      struct gthost_entry_bytes bytes)
{
    return domain ? gthost_grant_bytes_at(domain, gref, bytes) : gthost_null_answer();
}

/*
 * Brings one of the domain's entries to what its guest has written into a grant table in its own memory. The bytes are
 * the guest's entry as that memory has them: 8 in a table of version 1, 16 in version 2, read in one piece. GTF_reading
 * and GTF_writing, which the program sets there, count as clear. Bytes of type 0 (GTF_invalid) mean that the guest has
 * ended access. The answer is a GTHOST_FOLLOWED, with what was done:
 *
 *   the entry already is what the bytes mean    nothing
 *   only the read-only bit differs              gthost_demote or gthost_promote
 *   the guest has ended access                  gthost_withdraw: pins stay, and no more are taken
 *   another entry                               gthost_withdraw if the one before is valid, and then a grant
 *   no entry of this table                      gthost_withdraw if the one before is valid, and then N25
 *
 * N9, N18, N19, N22, N25. N19: a demotion found write pins, or a grant found pins from before. After a refusal the
 * entry is as it was, or invalid if it was withdrawn. So don't map it then, and follow again later. None of this is
 * recorded.
 */
static inline struct gthost_answer gthost_follow(struct gthost_domain *domain, uint32_t gref,
                                                 struct gthost_entry_bytes bytes)
{
    return domain ? gthost_follow_at(domain, gref, bytes) : gthost_null_answer();
}

/* Makes one of the domain's entries invalid if it has no pins. N9, N10, N19. */
static inline struct gthost_answer gthost_revoke(struct gthost_domain *domain, uint32_t gref)
{
    return domain ? gthost_revoke_at(domain, gref) : gthost_null_answer();
}

/* Makes one of the domain's entries invalid, with or without pins. Its pins stay. N9, N10, N18. */
static inline struct gthost_answer gthost_withdraw(struct gthost_domain *domain, uint32_t gref)
{
    return domain ? gthost_withdraw_at(domain, gref) : gthost_null_answer();
}

/* Makes one of the domain's entries read-only if it has no write pins. N9, N10, N18, N19, N22. */
static inline struct gthost_answer gthost_demote(struct gthost_domain *domain, uint32_t gref)
{
    return domain ? gthost_demote_at(domain, gref) : gthost_null_answer();
}

/* Makes one of the domain's entries writable. N9, N10, N18, N22. */
static inline struct gthost_answer gthost_promote(struct gthost_domain *domain, uint32_t gref)
{
    return domain ? gthost_promote_at(domain, gref) : gthost_null_answer();
}

/*
 * Looks once at one of the domain's entries: its kind, its generation and its pins. A withdrawn entry permits no one, so
 * `to` is 0. It keeps its pins until the others release them, and `granted_to` is whom it permitted last: the pins are of
 * that domain's maps and copies, or, if that was granted a transitive entry, of copies through it. GTHOST_ABSENT if the
 * reference is beyond the table.
 */
static inline struct gthost_found_entry gthost_entry(struct gthost_domain *domain, uint32_t gref)
{
    return domain ? gthost_entry_at(domain, gref) : gthost_null_entry();
}

/*
 * Returns the least reference from `from` on (GTHOST_REFERENCE) whose entry is invalid and still has pins: its owner
 * withdrew it, and others still use its page. GTHOST_ABSENT if the table has none. It looks at each entry up to that one.
 */
static inline struct gthost_answer gthost_unused(struct gthost_domain *domain, uint32_t from)
{
    return domain ? gthost_unused_at(domain, from) : gthost_null_answer();
}

/*
 * Grants each valid entry that the domain of another handle has, under the same reference, from the least one on: the
 * first step of a renewal (gthost_renew.h), where `other` is a domain of the run before. Answers with the first refusal;
 * the entries before it are granted. In a new run whose table has the version and the size of the other, none is
 * refused. `other` is another handle than `domain`, and is unchanged. N9, N19 to N22.
 */
static inline struct gthost_answer gthost_grant_all_of(struct gthost_domain *domain, struct gthost_domain *other)
{
    if (!domain || !other || domain == other) {
        return gthost_null_answer();
    }
    return gthost_grant_all_of_at(domain, other);
}

/*
 * Compares the entries of the domains of two handles, and returns the least reference (GTHOST_REFERENCE) whose entry is
 * not the same in both; GTHOST_ABSENT if there is none. An entry is the same if both domains last changed it to the same
 * one, and a look at each finds the same kind, domain, right and pins, or if neither table has it. The generation may
 * differ. It looks once at each entry of both. If no other domain of their runs makes a call meanwhile, GTHOST_ABSENT
 * means that each pin on the one domain's entries has its counterpart: no mapping was left out. `other` is another
 * handle than `domain`.
 */
static inline struct gthost_answer gthost_difference(struct gthost_domain *domain, struct gthost_domain *other)
{
    if (!domain || !other || domain == other) {
        return gthost_null_answer();
    }
    return gthost_difference_at(domain, other);
}

/*
 * Maps the entry `gref` of the domain `dom`. `flags` is GTHOST_MAP_WRITABLE, which asks for map_read and map_write, or
 * GTHOST_MAP_READ_ONLY, which asks for map_read. The answer is a GTHOST_HANDLE: gthost_handle_of reads the name of the
 * mapping, and gthost_mapped_of its owner, its frame and its right. The domain may touch the frame until it unmaps the
 * mapping. N1, N2, N5, N8 to N13, N16 to N18, N26.
 */
static inline struct gthost_answer gthost_map(struct gthost_domain *domain, uint32_t dom, uint32_t gref, uint32_t flags)
{
    struct gthost_answer answer;
    if (domain) {
        gthost_map_at(domain, dom, gref, flags, &answer);
    } else {
        answer = gthost_null_answer();
    }
    return answer;
}

/*
 * Makes the map of each of `count` requests, in order, or none. If all are Ok, the answer is a GTHOST_MAPPED_ALL, and
 * names[i] is the name of the mapping of requests[i]; gthost_mapping returns what it maps. Otherwise the answer is the
 * first refusal, as of gthost_map, with `value` 1 and in `more` the index of its request. Then no mapping is added and
 * `names` is unchanged: the pins taken for the requests before it were released, the last one first, without asking for
 * the permission unmap. Each map that is made or refused is recorded as by gthost_map, and no release is. No memory is
 * taken but for the mappings. `requests` and `names` may not overlap. N1, N2, N5, N8 to N13, N16 to N18, N26.
 */
static inline struct gthost_answer gthost_map_all(struct gthost_domain *domain, struct gthost_map_request *requests,
                                                  size_t count, struct gthost_handle *names)
{
    if (!domain || !requests || !names) {
        return gthost_null_answer();
    }
    return gthost_map_all_at(domain, requests, count, names, count);
}

/*
 * Unmaps a mapping: releases its pin. Its name is never used again. The answer is a GTHOST_RELEASED, with the entry and
 * the control word that this left. If that counts no pins (gthost_reads_in, gthost_writes_in), this was the last one:
 * tell the owner, which may wait for that. Asks for the permission unmap. After N5 the mapping stays. N5, N6.
 */
static inline struct gthost_answer gthost_unmap(struct gthost_domain *domain, struct gthost_handle name)
{
    struct gthost_answer answer;
    if (domain) {
        gthost_unmap_at(domain, &name, &answer);
    } else {
        answer = gthost_null_answer();
    }
    return answer;
}

/*
 * Returns the mapping with this name. The domain may touch the frame until it unmaps the mapping. GTHOST_ABSENT if the
 * domain has no such mapping.
 */
static inline struct gthost_found_mapping gthost_mapping(struct gthost_domain *domain, struct gthost_handle name)
{
    return domain ? gthost_mapping_at(domain, name) : gthost_null_mapping();
}

/*
 * Returns the mapping of the domain with the least key from `from` on: a GTHOST_HANDLE, as the answer to its map was, so
 * that gthost_handle_of reads its name, and gthost_mapped_of what it maps. GTHOST_ABSENT if no key from there on has a
 * mapping. A host that cleans up after a guest starts with 0, and goes on from the key of each name, plus 1. It looks at
 * each key up to that one.
 */
static inline struct gthost_answer gthost_mappings(struct gthost_domain *domain, size_t from)
{
    struct gthost_answer answer;
    if (domain) {
        gthost_mappings_at(domain, from, &answer);
    } else {
        answer = gthost_null_answer();
    }
    return answer;
}

/*
 * Begins a copy: takes its pins, and returns the places that may be touched until gthost_copy_end. Until then every
 * other call on this handle gives GTHOST_BUSY, except gthost_finish and gthost_reset, which end the copy. Asks for the
 * permission copy. The program must touch only these bytes, and only until the end; the library can't check it. `len`
 * may be 0. After a refusal, by N1 to N5, N9 to N11, or N13 to N18, no pin is kept.
 */
static inline struct gthost_begun_copy gthost_copy_begin(struct gthost_domain *domain, struct gthost_copy copy)
{
    struct gthost_begun_copy begun;
    if (domain) {
        gthost_copy_begin_at(domain, &copy, &begun);
    } else {
        begun = gthost_null_copy();
    }
    return begun;
}

/*
 * Begin a copy between a page of another domain and memory of the caller outside its frames: `grant.ptr` is a
 * reference of the domain `grant.dom`. gthost_copy_in lets the program read `len` bytes at `places.from`, and
 * gthost_copy_out lets it write them at `places.to`. It must touch no other place: the other end is its memory. The
 * monitor decides these calls as copies whose other end is at offset 0 of the caller's frame 0, which each domain has. So
 * their refusals and their pins are those of gthost_copy_begin, and a record names that frame. gthost_copy_end ends them.
 */
static inline struct gthost_begun_copy gthost_copy_in(struct gthost_domain *domain, struct gthost_end grant, uint32_t len)
{
    const struct gthost_copy copy = {grant, {0, GTHOST_DOMID_SELF, 0}, len, GTHOST_COPY_SOURCE_GREF};
    return gthost_copy_begin(domain, copy);
}

static inline struct gthost_begun_copy gthost_copy_out(struct gthost_domain *domain, struct gthost_end grant,
                                                       uint32_t len)
{
    const struct gthost_copy copy = {{0, GTHOST_DOMID_SELF, 0}, grant, len, GTHOST_COPY_DEST_GREF};
    return gthost_copy_begin(domain, copy);
}

/*
 * Ends the copy: releases its pins, the last one first. The answer is a GTHOST_ENDED, with the control words that this
 * left in the entries that the copy named. GTHOST_NO_COPY if there is none.
 */
static inline struct gthost_answer gthost_copy_end(struct gthost_domain *domain)
{
    struct gthost_answer answer;
    if (domain) {
        gthost_copy_end_at(domain, &answer);
    } else {
        answer = gthost_null_answer();
    }
    return answer;
}

/* Gives the domain's table this version, 1 or 2, while all its entries are invalid. N2, N24. */
static inline struct gthost_answer gthost_set_version(struct gthost_domain *domain, uint32_t version)
{
    return domain ? gthost_set_version_at(domain, version) : gthost_null_answer();
}

/* Grows the domain's table to this many frames, if it has fewer. Answers with their number (GTHOST_FRAMES). N5, N23. */
static inline struct gthost_answer gthost_setup_table(struct gthost_domain *domain, uint32_t frames)
{
    return domain ? gthost_setup_table_at(domain, frames) : gthost_null_answer();
}

/* Returns the number of frames of a domain's table, and the maximum (GTHOST_SIZE). N1, N5. */
static inline struct gthost_answer gthost_query_size(struct gthost_domain *domain, uint32_t dom)
{
    return domain ? gthost_query_size_at(domain, dom) : gthost_null_answer();
}

/* Returns the version of a domain's table (GTHOST_TABLE_VERSION). N1, N5. */
static inline struct gthost_answer gthost_get_version(struct gthost_domain *domain, uint32_t dom)
{
    return domain ? gthost_get_version_at(domain, dom) : gthost_null_answer();
}

/*
 * Returns the record at an index, starting at 0, of the domain's calls in order: maps, unmaps, copies, queries,
 * versions and setups. A copy is recorded at its end, or when it is refused. There is no record of a call that was not
 * made (GTHOST_BUSY and so on), of an owner's call on an entry, or of what gthost_finish and gthost_reset release.
 * GTHOST_ABSENT beyond the last record.
 */
static inline struct gthost_found_record gthost_record(struct gthost_domain *domain, size_t index)
{
    return domain ? gthost_record_at(domain, index) : gthost_null_record();
}

/*
 * Drops all records of the domain, and keeps their room, beside the room that was free: call it when gthost_record has
 * read them. The answer (GTHOST_TAKEN) has the number of records, and the number lost before. Both counts begin again at
 * 0.
 */
static inline struct gthost_answer gthost_take_records(struct gthost_domain *domain)
{
    return domain ? gthost_take_records_at(domain) : gthost_null_answer();
}

/*
 * Bounds the number of records. A call is recorded while there are fewer than `records`; otherwise its record is lost.
 * With 0, the bound at the start, none is kept. Records that are there stay. A program that runs for long sets a bound,
 * or calls gthost_take_records from time to time.
 */
static inline struct gthost_answer gthost_keep_at_most(struct gthost_domain *domain, size_t records)
{
    return domain ? gthost_keep_at_most_at(domain, records) : gthost_null_answer();
}

/*
 * Makes room for this many more records, which then need no allocation. GTHOST_NO_MEMORY if allocation fails, or for
 * more than GTHOST_MOST_RESERVED; then no room is made.
 */
static inline struct gthost_answer gthost_reserve_records(struct gthost_domain *domain, size_t records)
{
    return domain ? gthost_reserve_records_at(domain, records) : gthost_null_answer();
}

#ifdef __cplusplus
}
#endif

#endif
