/*
 * Which calls take memory? Linked with --wrap for malloc, realloc and free, it counts what each call of a domain takes,
 * and lets each allocation of a start fail in turn.
 */
#include "gthost.h"

#include <stdio.h>
#include <stdlib.h>
#include <string.h>

void *__real_malloc(size_t size);
void *__real_realloc(void *at, size_t size);
void __real_free(void *at);
void *__wrap_malloc(size_t size);
void *__wrap_realloc(void *at, size_t size);
void __wrap_free(void *at);

static long taken, given, left = -1; /* left: how many may still be taken; -1 for any number */

static bool is_refused(void)
{
    if (left == 0) {
        return true;
    }
    left -= left > 0;
    return false;
}

void *__wrap_malloc(size_t size)
{
    if (is_refused()) {
        return NULL;
    }
    taken++;
    return __real_malloc(size);
}

void *__wrap_realloc(void *at, size_t size)
{
    if (is_refused()) {
        return NULL;
    }
    taken++;
    given += at != NULL;
    return __real_realloc(at, size);
}

void __wrap_free(void *at)
{
    given += at != NULL;
    __real_free(at);
}

static const char POLICY[] = "type a_t;\nallow a_t a_t:grant *;\n";
static int failures;

static bool start(struct gthost_domain *domains, struct gthost_fault *fault)
{
    const struct gthost_settings settings[] = {{1, 0, 8, 1, 2}, {2, 0, 8, 1, 2}};
    *fault = gthost_start(settings, 2, 0, 0, (const uint8_t *)POLICY, strlen(POLICY), domains, 2);
    return fault->kind == GTHOST_FAULT_NONE;
}

static struct gthost_answer answer;

static void wants(const char *what, uint32_t rule, long memory, long before)
{
    if (answer.rule != rule || taken - before > memory) {
        printf("%s: rule %u, wanted %u; %ld allocations, wanted at most %ld\n", what, answer.rule, rule, taken - before,
               memory);
        failures++;
    }
}

/* A call that takes no memory. */
#define NONE(rule, call)                       \
    do {                                       \
        long before = taken;                   \
        call;                                  \
        wants(#call, rule, 0, before);         \
    } while (0)

static struct gthost_handle mapped(struct gthost_domain *domain, long memory)
{
    long before = taken;
    answer = gthost_map(domain, 1, 7, GTHOST_MAP_READ_ONLY);
    wants("map", GTHOST_OK, memory, before);
    struct gthost_handle name = gthost_handle_of(answer);
    return name;
}

static void calls(struct gthost_domain *one, struct gthost_domain *two)
{
    const struct gthost_entry_bytes entry = {16, {1, 0, 2, 0, 0, 0, 0, 0, 3}};
    const struct gthost_copy copy = {{10, 1, 0}, {1, 2, 0}, 16, GTHOST_COPY_SOURCE_GREF};
    NONE(GTHOST_OK, answer = gthost_grant_page(one, 7, 2, 5, 0));
    NONE(GTHOST_OK, answer = gthost_grant_sub(one, 8, 2, 5, 0, 64, 0));
    NONE(GTHOST_OK, answer = gthost_grant_via(one, 9, 2, 2, 3, 0));
    NONE(GTHOST_OK, answer = gthost_grant_bytes(one, 10, entry));
    NONE(GTHOST_OK, answer = gthost_follow(one, 10, entry));
    for (int i = 0; i < 3; i++) {
        struct gthost_handle name = mapped(two, 0);
        NONE(GTHOST_OK, answer = gthost_mapping(two, name).answer);
        NONE(19, answer = gthost_revoke(one, 7));
        NONE(GTHOST_OK, answer = gthost_unmap(two, name));
        NONE(6, answer = gthost_unmap(two, name));
    }
    struct gthost_map_request requests[2] = {{1, 7, GTHOST_MAP_READ_ONLY, 0, 0}, {1, 20, GTHOST_MAP_READ_ONLY, 0, 0}};
    struct gthost_handle names[2];
    NONE(10, answer = gthost_map_all(two, requests, 2, names));
    NONE(GTHOST_OK, answer = gthost_map_all(two, requests, 1, names));
    NONE(GTHOST_OK, answer = gthost_unmap(two, names[0]));
    NONE(GTHOST_OK, answer = gthost_demote(one, 7));
    NONE(13, answer = gthost_map(two, 1, 7, GTHOST_MAP_WRITABLE));
    NONE(GTHOST_OK, answer = gthost_promote(one, 7));
    NONE(GTHOST_OK, answer = gthost_copy_begin(two, copy).answer);
    NONE(GTHOST_BUSY, answer = gthost_query_size(two, 1));
    NONE(GTHOST_OK, answer = gthost_copy_end(two));
    NONE(GTHOST_NO_COPY, answer = gthost_copy_end(two));
    NONE(GTHOST_OK, answer = gthost_query_size(two, 1));
    NONE(GTHOST_OK, answer = gthost_get_version(two, 1));
    NONE(GTHOST_OK, answer = gthost_setup_table(two, 2));
    NONE(24, answer = gthost_set_version(one, 1));
    NONE(GTHOST_OK, answer = gthost_withdraw(one, 7));
    NONE(GTHOST_OK, answer = gthost_revoke(one, 8));
    NONE(GTHOST_OK, answer = gthost_revoke(one, 9));
    NONE(GTHOST_OK, answer = gthost_revoke(one, 10));
    NONE(GTHOST_OK, answer = gthost_set_version(one, 1));
    NONE(GTHOST_OK, answer = gthost_set_version(one, 2));
}

/* The first mapping of a domain takes memory, and each later one only if there are more than ever before. */
static void warm(struct gthost_domain *one, struct gthost_domain *two)
{
    answer = gthost_grant_page(one, 7, 2, 5, 0);
    long before = taken;
    struct gthost_handle name = mapped(two, 9);
    printf("the first mapping of a domain takes %ld allocations\n", taken - before);
    answer = gthost_unmap(two, name);
    answer = gthost_revoke(one, 7);
}

static void counts(bool is_ahead)
{
    struct gthost_domain domains[2] = {{0}};
    struct gthost_fault fault;
    if (!start(domains, &fault)) {
        failures++;
        return;
    }
    for (int i = 0; i < 2; i++) {
        if (is_ahead) { /* otherwise none is kept: the bound at the start is 0 */
            answer = gthost_keep_at_most(&domains[i], 100);
            answer = gthost_reserve_records(&domains[i], 100);
        }
    }
    warm(&domains[0], &domains[1]);
    calls(&domains[0], &domains[1]);
    NONE(is_ahead ? GTHOST_OK : GTHOST_ABSENT, answer = gthost_record(&domains[1], 0).answer);
    gthost_finish(&domains[0]);
    gthost_finish(&domains[1]);
}

/* A map or a record that memory is refused: N26, and a record that is lost. */
static void refused(void)
{
    struct gthost_domain domains[2] = {{0}};
    struct gthost_fault fault;
    if (!start(domains, &fault)) {
        failures++;
        return;
    }
    answer = gthost_keep_at_most(&domains[1], 100);
    answer = gthost_grant_page(&domains[0], 7, 2, 5, 0);
    left = 0;
    struct gthost_map_request request = {1, 7, GTHOST_MAP_READ_ONLY, 0, 0};
    struct gthost_handle name;
    NONE(26, answer = gthost_map(&domains[1], 1, 7, GTHOST_MAP_READ_ONLY));
    NONE(26, answer = gthost_map_all(&domains[1], &request, 1, &name));
    NONE(GTHOST_NO_MEMORY, answer = gthost_reserve_records(&domains[1], 100));
    NONE(GTHOST_OK, answer = gthost_query_size(&domains[1], 1));
    left = -1;
    gthost_finish(&domains[0]);
    if (gthost_finish(&domains[1]).value != 3) {
        printf("not three records lost\n");
        failures++;
    }
}

/* Each allocation of a start fails in turn, and what was taken is given back. */
static void starts(void)
{
    struct gthost_domain domains[2] = {{0}};
    struct gthost_fault fault;
    for (long place = 0;; place++) {
        long before = taken, back = given;
        left = place;
        bool is_started = start(domains, &fault);
        left = -1;
        if (is_started) {
            printf("a start takes %ld allocations; each of them failed in turn\n", place);
            break;
        }
        if (fault.kind != GTHOST_FAULT_MEMORY || domains[0].is_live || taken - before != given - back) {
            printf("allocation %ld failed: fault %u, %ld taken, %ld given back\n", place, fault.kind, taken - before,
                   given - back);
            failures++;
        }
    }
    gthost_finish(&domains[0]);
    gthost_finish(&domains[1]);
}

int main(void)
{
    starts();
    counts(false);
    counts(true);
    refused();
    if (taken != given) {
        printf("%ld allocations taken, %ld given back\n", taken, given);
        failures++;
    }
    printf(failures ? "FAILED\n" : "no other call takes memory, with records off or room made ahead\n");
    return failures != 0;
}
