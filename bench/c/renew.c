/*
 * Renews a run again and again: one reference is granted and revoked until it is worn, while other entries are mapped,
 * and each mapping lives on in the next run under another name. Renewals that must be refused leave the run as it was.
 *
 * usage: renew [RENEWALS]
 */
#include "gthost_renew.h"

#include <stdio.h>
#include <stdlib.h>
#include <string.h>

#define COUNT(a) (sizeof(a) / sizeof((a)[0]))

enum { DOMAINS = 3, HOT = 0, WRITTEN = 7, WITHDRAWN = 8, PART = 9, ONWARD = 10, BACK = 3, MAPPINGS = 4 };

static const char POLICY[] = "type a_t; allow a_t a_t:grant { map_read map_write unmap copy query setup };";
static const char READS_ONLY[] = "type a_t; allow a_t a_t:grant { map_read unmap copy query setup };";
static const struct gthost_settings SETTINGS[DOMAINS] = {{1, 0, 8, 1, 2}, {2, 0, 8, 2, 1}, {3, 0, 8, 1, 1}};

struct run {
    struct gthost_domain domain[DOMAINS];
    struct gthost_moved moved[MAPPINGS];
};

static int failures;

#define HOLDS(fact)                                       \
    do {                                                  \
        if (!(fact)) {                                    \
            printf("line %d: not %s\n", __LINE__, #fact); \
            failures++;                                   \
        }                                                 \
    } while (0)

static void start(struct gthost_domain *domain, const struct gthost_settings *settings, uint32_t run,
                  const char *policy)
{
    memset(domain, 0, DOMAINS * sizeof(*domain));
    HOLDS(gthost_start(settings, DOMAINS, 0, run, (const uint8_t *)policy, strlen(policy), domain, DOMAINS).kind
          == GTHOST_FAULT_NONE);
}

static struct gthost_handle map(struct run *run, int mapper, uint32_t owner, uint32_t gref, uint32_t flags)
{
    const struct gthost_answer answer = gthost_map(&run->domain[mapper], owner, gref, flags);
    HOLDS(answer.rule == GTHOST_OK);
    return gthost_handle_of(answer);
}

/* Entries of each kind, and four mappings: two of one entry, one back, and one whose entry is then withdrawn. */
static void begin(struct run *run)
{
    start(run->domain, SETTINGS, 1, POLICY);
    HOLDS(gthost_grant_page(&run->domain[0], WRITTEN, 2, 5, 0).rule == GTHOST_OK);
    HOLDS(gthost_grant_page(&run->domain[0], WITHDRAWN, 3, 6, 1).rule == GTHOST_OK);
    HOLDS(gthost_grant_sub(&run->domain[0], PART, 3, 2, 128, 64, 0).rule == GTHOST_OK);
    HOLDS(gthost_grant_via(&run->domain[0], ONWARD, 3, 2, BACK, 1).rule == GTHOST_OK);
    HOLDS(gthost_grant_page(&run->domain[1], BACK, 1, 1, 1).rule == GTHOST_OK);
    HOLDS(gthost_grant_page(&run->domain[1], 600, 3, 7, 0).rule == GTHOST_OK);
    run->moved[0].old = map(run, 1, 1, WRITTEN, GTHOST_MAP_WRITABLE);
    run->moved[1].old = map(run, 1, 1, WRITTEN, GTHOST_MAP_READ_ONLY);
    run->moved[2].old = map(run, 2, 1, WITHDRAWN, GTHOST_MAP_READ_ONLY);
    run->moved[3].old = map(run, 0, 2, BACK, GTHOST_MAP_READ_ONLY);
    HOLDS(gthost_withdraw(&run->domain[0], WITHDRAWN).rule == GTHOST_OK);
}

static bool maps(struct run *run, int mapper, int moved, uint32_t owner, uint32_t gref, uint64_t frame, uint32_t writes)
{
    const struct gthost_found_mapping found = gthost_mapping(&run->domain[mapper], run->moved[moved].old);
    return found.answer.rule == GTHOST_OK && found.mapping.owner == owner && found.mapping.gref == gref
           && found.mapping.frame == frame && found.mapping.writes == writes;
}

static bool has(struct run *run, int owner, uint32_t gref, uint32_t kind, uint32_t reads, uint32_t writes)
{
    const struct gthost_entry_status entry = gthost_entry(&run->domain[owner], gref).entry;
    return entry.kind == kind && entry.reads == reads && entry.writes == writes;
}

/* What each run has, the first one as the last. */
static void looks(struct run *run)
{
    HOLDS(maps(run, 1, 0, 1, WRITTEN, 5, 1));
    HOLDS(maps(run, 1, 1, 1, WRITTEN, 5, 0));
    HOLDS(maps(run, 2, 2, 1, WITHDRAWN, 6, 0));
    HOLDS(maps(run, 0, 3, 2, BACK, 1, 0));
    HOLDS(has(run, 0, WRITTEN, GTHOST_ENTRY_PAGE, 1, 1));
    HOLDS(has(run, 0, WITHDRAWN, GTHOST_ENTRY_INVALID, 1, 0));
    HOLDS(has(run, 0, PART, GTHOST_ENTRY_SUB, 0, 0));
    HOLDS(has(run, 0, ONWARD, GTHOST_ENTRY_VIA, 0, 0));
    HOLDS(has(run, 1, BACK, GTHOST_ENTRY_PAGE, 1, 0));
    HOLDS(has(run, 1, 600, GTHOST_ENTRY_PAGE, 0, 0));
    HOLDS(gthost_unused(&run->domain[0], 0).gref == WITHDRAWN);
    HOLDS(gthost_grant_page(&run->domain[0], WITHDRAWN, 3, 6, 0).rule == GTHOST_N19);
    HOLDS(gthost_revoke(&run->domain[0], WRITTEN).rule == GTHOST_N19);
    HOLDS(gthost_map(&run->domain[2], 1, WITHDRAWN, GTHOST_MAP_READ_ONLY).rule == GTHOST_N10);
    const struct gthost_copy copy = {{PART, 1, 128}, {0, 3, 0}, 64, GTHOST_COPY_SOURCE_GREF};
    const struct gthost_begun_copy begun = gthost_copy_begin(&run->domain[2], copy);
    HOLDS(begun.answer.rule == GTHOST_OK && begun.places.from.frame == 2 && begun.places.from.owner == 1);
    HOLDS(gthost_copy_end(&run->domain[2]).rule == GTHOST_OK);
}

/* Grants and revokes one reference until it is worn. */
static uint32_t wears(struct run *run)
{
    uint32_t grants = 0;
    while (gthost_grant_page(&run->domain[0], HOT, 2, 3, 0).rule == GTHOST_OK) {
        grants++;
        HOLDS(gthost_revoke(&run->domain[0], HOT).rule == GTHOST_OK);
    }
    HOLDS(gthost_grant_page(&run->domain[0], HOT, 2, 3, 0).rule == GTHOST_N22);
    return grants;
}

/* A renewal that must be refused with this rule. */
static struct gthost_answer refused(struct run *run, const struct gthost_settings *settings, const char *policy,
                                    size_t count, uint32_t rule)
{
    struct gthost_domain next[DOMAINS];
    start(next, settings, 999, policy);
    const struct gthost_answer answer = gthost_renew(SETTINGS, DOMAINS, run->domain, next, run->moved, count);
    HOLDS(answer.rule == rule);
    for (int i = 0; i < DOMAINS; i++) {
        HOLDS(!next[i].is_live && run->domain[i].is_live);
    }
    looks(run);
    return answer;
}

static void refusals(struct run *run)
{
    const struct gthost_settings small[DOMAINS] = {{1, 0, 8, 1, 2}, {2, 0, 8, 1, 1}, {3, 0, 8, 1, 1}};
    const struct gthost_settings old[DOMAINS] = {{1, 0, 8, 1, 1}, {2, 0, 8, 2, 1}, {3, 0, 8, 1, 1}};
    const struct gthost_settings few[DOMAINS] = {{1, 0, 4, 1, 2}, {2, 0, 8, 2, 1}, {3, 0, 8, 1, 1}};
    const struct gthost_copy copy = {{PART, 1, 128}, {0, 3, 0}, 64, GTHOST_COPY_SOURCE_GREF};
    struct gthost_answer answer = refused(run, SETTINGS, POLICY, MAPPINGS - 1, GTHOST_ABSENT);
    HOLDS(answer.dom == 2 && answer.gref == BACK);
    const struct gthost_handle name = run->moved[1].old;
    run->moved[1].old = run->moved[0].old; /* one twice, and one not */
    struct gthost_domain next[DOMAINS];
    start(next, SETTINGS, 999, POLICY);
    answer = gthost_renew(SETTINGS, DOMAINS, run->domain, next, run->moved, MAPPINGS);
    HOLDS(answer.rule == GTHOST_ABSENT && answer.dom == 1 && answer.gref == WRITTEN);
    run->moved[1].old = name;
    run->moved[1].old.serial += 1000; /* no such mapping */
    start(next, SETTINGS, 999, POLICY);
    HOLDS(gthost_renew(SETTINGS, DOMAINS, run->domain, next, run->moved, MAPPINGS).rule == GTHOST_ABSENT);
    run->moved[1].old = name;
    start(next, SETTINGS, 999, POLICY);
    HOLDS(gthost_grant_page(&next[0], WITHDRAWN, 3, 7, 0).rule == GTHOST_OK); /* another page */
    answer = gthost_renew(SETTINGS, DOMAINS, run->domain, next, run->moved, MAPPINGS);
    HOLDS(answer.rule == GTHOST_ABSENT && answer.dom == 1 && answer.gref == WITHDRAWN);
    HOLDS(refused(run, SETTINGS, READS_ONLY, MAPPINGS, GTHOST_N5).kind == GTHOST_POLICY);
    (void)refused(run, small, POLICY, MAPPINGS, GTHOST_N9);
    (void)refused(run, old, POLICY, MAPPINGS, GTHOST_N21);
    (void)refused(run, few, POLICY, MAPPINGS, GTHOST_N16);
    HOLDS(gthost_copy_begin(&run->domain[2], copy).answer.rule == GTHOST_OK);
    start(next, SETTINGS, 999, POLICY);
    HOLDS(gthost_renew(SETTINGS, DOMAINS, run->domain, next, run->moved, MAPPINGS).rule == GTHOST_BUSY);
    HOLDS(gthost_copy_end(&run->domain[2]).rule == GTHOST_OK);
    HOLDS(gthost_renew(SETTINGS, DOMAINS, run->domain, NULL, run->moved, MAPPINGS).rule == GTHOST_NULL_POINTER);
    looks(run);
}

/* The domains and the names are those of the next run from now on. */
static void adopts(struct run *run, const struct gthost_domain *next)
{
    for (int i = 0; i < DOMAINS; i++) {
        HOLDS(!run->domain[i].is_live && next[i].is_live);
        run->domain[i] = next[i];
    }
    for (size_t i = 0; i < MAPPINGS; i++) {
        HOLDS(gthost_mapping(&run->domain[run->moved[i].old.dom - 1], run->moved[i].old).answer.rule == GTHOST_ABSENT);
        run->moved[i].old = run->moved[i].renewed;
    }
}

static void renews(struct run *run, uint32_t number)
{
    struct gthost_domain next[DOMAINS];
    start(next, SETTINGS, number, POLICY);
    HOLDS(gthost_renew(SETTINGS, DOMAINS, run->domain, next, run->moved, MAPPINGS).rule == GTHOST_OK);
    adopts(run, next);
}

/* The next run has another policy, and one more domain. */
static void grows(struct run *run, uint32_t number)
{
    static const char policy[] = "type a_t; type b_t; allow a_t a_t:grant { map_read map_write unmap copy };"
                                 "allow b_t a_t:grant map_read;";
    const struct gthost_settings settings[] = {SETTINGS[0], SETTINGS[1], SETTINGS[2], {4, 1, 8, 1, 1}};
    struct gthost_domain next[DOMAINS + 1] = {{0}};
    const struct gthost_fault fault = gthost_start(settings, COUNT(settings), 0, number, (const uint8_t *)policy,
                                                   strlen(policy), next, COUNT(next));
    HOLDS(fault.kind == GTHOST_FAULT_NONE);
    HOLDS(gthost_renew(settings, DOMAINS, run->domain, next, run->moved, MAPPINGS).rule == GTHOST_OK);
    HOLDS(gthost_query_size(&next[1], 1).rule == GTHOST_N5);
    HOLDS(gthost_grant_page(&next[0], HOT, 4, 3, 0).rule == GTHOST_OK);
    HOLDS(gthost_map(&next[3], 1, HOT, GTHOST_MAP_WRITABLE).rule == GTHOST_N5);
    HOLDS(gthost_map(&next[3], 1, HOT, GTHOST_MAP_READ_ONLY).rule == GTHOST_OK);
    HOLDS(gthost_finish(&next[3]).rule == GTHOST_OK);
    adopts(run, next);
}

/* The last mappings go, and with them the last pins. */
static void ends(struct run *run)
{
    struct gthost_answer answer = gthost_unmap(&run->domain[2], run->moved[2].old);
    HOLDS(answer.rule == GTHOST_OK && !gthost_is_valid(answer.word) && gthost_reads_in(answer.word) == 0);
    HOLDS(gthost_grant_page(&run->domain[0], WITHDRAWN, 3, 6, 0).rule == GTHOST_OK);
    HOLDS(gthost_unmap(&run->domain[1], run->moved[0].old).rule == GTHOST_OK);
    HOLDS(gthost_unmap(&run->domain[1], run->moved[1].old).rule == GTHOST_OK);
    HOLDS(gthost_unmap(&run->domain[0], run->moved[3].old).rule == GTHOST_OK);
    for (int i = 0; i < DOMAINS; i++) {
        answer = gthost_finish(&run->domain[i]);
        HOLDS(answer.rule == GTHOST_OK && answer.more == 0);
    }
}

int main(int argc, char **argv)
{
    const unsigned long renewals = argc > 1 ? strtoul(argv[1], NULL, 10) : 3;
    struct run run;
    uint64_t grants = 0;
    begin(&run);
    looks(&run);
    refusals(&run);
    for (uint32_t number = 2; number < 2 + renewals; number++) {
        grants += wears(&run);
        renews(&run, number);
        looks(&run);
    }
    HOLDS(grants == renewals * GTHOST_LAST_GENERATION);
    grows(&run, (uint32_t)renewals + 2);
    looks(&run);
    ends(&run);
    printf(failures ? "FAILED\n" : "renew ok\n");
    return failures != 0;
}
