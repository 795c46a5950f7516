/*
 * gthost_renew.h: renews a run, before its references are worn. It is C over the calls of gthost.h.
 *
 * A reference lasts for 1,048,575 changes of a run. So start a new run with gthost_start, with other handles, another
 * number, and the domains' present versions and table frames in the settings. Then gthost_renew gives the domains of the
 * new run what those of the old one have: each valid entry, each mapping, and each withdrawn entry that still has pins.
 * Generations begin again at the `first_gen` of the new run. The new run may have another policy, and more domains after
 * those of the old one: a renewal is also how these two change.
 *
 * Meanwhile no thread may make a call for any of these domains. Translations of pages stay as they are: each mapping is
 * of the same page, with the same right, under another name. The records of the old domains are dropped, so read them
 * before, and the new domains keep none until gthost_keep_at_most.
 */
#ifndef GTHOST_RENEW_H
#define GTHOST_RENEW_H

#include "gthost.h"

#ifdef __cplusplus
extern "C" {
#endif

/* A mapping: its name in the old run, and in the new one. */
struct gthost_moved {
    struct gthost_handle old;
    struct gthost_handle renewed;
};

/* A renewal: the domains of the old run, and at the same indexes those of the new run and their settings. */
struct gthost_renewal {
    const struct gthost_settings *settings;
    size_t count;
    struct gthost_domain *old;
    struct gthost_domain *renewed;
};

/* Returns GTHOST_ABSENT for this entry. */
static inline struct gthost_answer gthost_renewal_absent(uint32_t dom, uint32_t gref)
{
    struct gthost_answer answer = gthost_null_answer();
    answer.rule = GTHOST_ABSENT;
    answer.dom = dom;
    answer.gref = gref;
    return answer;
}

/* Returns the index of the domain with this number, or `count`. */
static inline size_t gthost_renewal_index(const struct gthost_renewal *renewal, uint32_t dom)
{
    size_t index = 0;
    while (index < renewal->count && renewal->settings[index].id != dom) {
        index++;
    }
    return index;
}

/* Returns the mapping with this name in the old run. GTHOST_ABSENT also if its owner is not among the domains. */
static inline struct gthost_found_mapping gthost_renewal_mapping(const struct gthost_renewal *renewal,
                                                                 struct gthost_handle name)
{
    const size_t mapper = gthost_renewal_index(renewal, name.dom);
    struct gthost_found_mapping found = gthost_null_mapping();
    found.answer = gthost_renewal_absent(0, 0);
    if (mapper < renewal->count) {
        found = gthost_mapping(&renewal->old[mapper], name);
    }
    if (found.answer.rule == GTHOST_OK && gthost_renewal_index(renewal, found.mapping.owner) == renewal->count) {
        found.answer = gthost_renewal_absent(found.mapping.owner, found.mapping.gref);
    }
    return found;
}

/* Makes a mapping again. If its entry was withdrawn under its pins, that is granted first, to be withdrawn later. */
static inline struct gthost_answer gthost_renewal_map(const struct gthost_renewal *renewal, struct gthost_moved *moved)
{
    const struct gthost_found_mapping found = gthost_renewal_mapping(renewal, moved->old);
    if (found.answer.rule != GTHOST_OK) {
        return found.answer;
    }
    const struct gthost_mapping page = found.mapping;
    struct gthost_domain *owner = &renewal->renewed[gthost_renewal_index(renewal, page.owner)];
    struct gthost_domain *mapper = &renewal->renewed[gthost_renewal_index(renewal, moved->old.dom)];
    if (gthost_entry(owner, page.gref).entry.kind == GTHOST_ENTRY_INVALID) {
        const struct gthost_answer granted = gthost_grant_page(owner, page.gref, moved->old.dom, page.frame, 0);
        if (granted.rule != GTHOST_OK) {
            return granted;
        }
    }
    const uint32_t flags = page.writes ? GTHOST_MAP_WRITABLE : GTHOST_MAP_READ_ONLY;
    const struct gthost_answer mapped = gthost_map(mapper, page.owner, page.gref, flags);
    if (mapped.rule != GTHOST_OK) {
        return mapped;
    }
    if (gthost_mapped_of(mapped).frame != page.frame) {
        return gthost_renewal_absent(page.owner, page.gref);
    }
    moved->renewed = gthost_handle_of(mapped);
    return mapped;
}

/* Withdraws the entry of a mapping in the new run, if it is invalid in the old one. */
static inline struct gthost_answer gthost_renewal_withdraw(const struct gthost_renewal *renewal,
                                                           struct gthost_handle name)
{
    struct gthost_found_mapping found = gthost_renewal_mapping(renewal, name);
    const size_t owner = gthost_renewal_index(renewal, found.mapping.owner);
    if (found.answer.rule == GTHOST_OK
        && gthost_entry(&renewal->old[owner], found.mapping.gref).entry.kind == GTHOST_ENTRY_INVALID
        && gthost_entry(&renewal->renewed[owner], found.mapping.gref).entry.kind != GTHOST_ENTRY_INVALID) {
        found.answer = gthost_withdraw(&renewal->renewed[owner], found.mapping.gref);
    }
    return found.answer;
}

/* Makes in the new run what the old one has. Answers with the first refusal. */
static inline struct gthost_answer gthost_renewal_make(const struct gthost_renewal *renewal, struct gthost_moved *moved,
                                                       size_t moved_count)
{
    struct gthost_answer answer = gthost_null_answer();
    answer.rule = GTHOST_OK;
    for (size_t i = 0; i < renewal->count && answer.rule == GTHOST_OK; i++) {
        answer = gthost_grant_all_of(&renewal->renewed[i], &renewal->old[i]);
    }
    for (size_t i = 0; i < moved_count && answer.rule == GTHOST_OK; i++) {
        answer = gthost_renewal_map(renewal, &moved[i]);
    }
    for (size_t i = 0; i < moved_count && answer.rule == GTHOST_OK; i++) {
        answer = gthost_renewal_withdraw(renewal, moved[i].old);
    }
    for (size_t i = 0; i < renewal->count && answer.rule == GTHOST_OK; i++) {
        const struct gthost_answer found = gthost_difference(&renewal->renewed[i], &renewal->old[i]);
        if (found.rule == GTHOST_OK) {
            answer = gthost_renewal_absent(renewal->settings[i].id, found.gref);
        } else if (found.rule != GTHOST_ABSENT) {
            answer = found;
        }
    }
    return answer;
}

/*
 * Renews a run: `old` has the handles of its domains, and `renewed` those of a new run that has made no call, both with
 * `count` domains in the order of `settings`. `moved` has each mapping of the old domains by its name.
 *
 * Domains of the new run after these are not touched.
 *
 * The answer is GTHOST_OK if the new run has all that the old one had: gthost_difference finds none in any domain. Then
 * the old domains have left, their handles are all zeros, and `moved` has the new names. Otherwise the new domains have
 * left, the old run is as it was, and the answer gives the reason: a refusal; GTHOST_BUSY, if a domain is in a copy; or
 * GTHOST_ABSENT, if a name is of no mapping, or, with `dom` and `gref`, if `moved` has not each mapping of that entry
 * exactly once, or the new run had another entry there.
 */
static inline struct gthost_answer gthost_renew(const struct gthost_settings *settings, size_t count,
                                                struct gthost_domain *old, struct gthost_domain *renewed,
                                                struct gthost_moved *moved, size_t moved_count)
{
    const struct gthost_renewal renewal = {settings, count, old, renewed};
    if (!settings || !old || !renewed || (moved_count > 0 && !moved)) {
        return gthost_null_answer();
    }
    const struct gthost_answer answer = gthost_renewal_make(&renewal, moved, moved_count);
    struct gthost_domain *leaving = answer.rule == GTHOST_OK ? old : renewed;
    for (size_t i = 0; i < count; i++) {
        (void)gthost_finish(&leaving[i]);
    }
    return answer;
}

#ifdef __cplusplus
}
#endif

#endif
