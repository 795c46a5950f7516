/*
 * xen_front [ROUNDS]: a guest shares pages by stores into its own grant table, as Linux does, and a back end maps them
 * by the monitor. First each change of an entry in turn; then both in threads, where the guest ends access at any time.
 */
#define _POSIX_C_SOURCE 200809L
#include "vmm.h"

#include <sched.h>
#include <stdio.h>
#include <stdlib.h>
#include <string.h>

enum { PRIVATE = 0xEE, REQUESTS = 16 };
static const uint64_t TAKEN = UINT64_MAX;

/* By enum gthost_followed. */
static const char *const FOLLOWED[] = {"same", "demoted", "promoted", "withdrawn", "granted"};

static struct guest guest;
static struct vmm vmm;
static int failures;

#define HOLDS(fact)                                           \
    do {                                                      \
        if (!(fact)) {                                        \
            printf("line %d: not %s\n", __LINE__, #fact);     \
            __atomic_fetch_add(&failures, 1, __ATOMIC_RELAXED); \
        }                                                     \
    } while (0)

static uint16_t flags_of(uint32_t ref)
{
    return __atomic_load_n(&guest.table[ref].v1.flags, __ATOMIC_ACQUIRE);
}

static bool followed_as(uint32_t ref, uint64_t followed)
{
    const struct gthost_answer answer = vmm_follow(&vmm, ref);
    return answer.rule == GTHOST_OK && answer.kind == GTHOST_FOLLOWED && answer.value == followed;
}

/* The guest changes an entry that nobody maps. */
static void each_change(void)
{
    const uint32_t ref = FIRST_REF;
    HOLDS(followed_as(ref, GTHOST_FOLLOWED_SAME)); /* it is invalid on both sides */
    guest_grant(&guest, ref, BACK, 3, false);
    HOLDS(followed_as(ref, GTHOST_FOLLOWED_GRANTED));
    HOLDS(followed_as(ref, GTHOST_FOLLOWED_SAME));
    guest_grant(&guest, ref, BACK, 3, true);
    HOLDS(followed_as(ref, GTHOST_FOLLOWED_DEMOTED));
    guest_grant(&guest, ref, BACK, 3, false);
    HOLDS(followed_as(ref, GTHOST_FOLLOWED_PROMOTED));
    guest_grant(&guest, ref, BACK, 4, true);
    HOLDS(followed_as(ref, GTHOST_FOLLOWED_GRANTED));
    HOLDS(guest_end(&guest, ref));
    HOLDS(followed_as(ref, GTHOST_FOLLOWED_WITHDRAWN));
    HOLDS(vmm_follow(&vmm, REFERENCES - 1).value == GTHOST_FOLLOWED_SAME);
}

/* A guest that obeys the marks, and one that writes over an entry in use. */
static void in_use(void)
{
    const uint32_t ref = FIRST_REF + 1;
    struct gthost_handle name, other;
    guest_grant(&guest, ref, BACK, 5, false);
    HOLDS(vmm_map(&vmm, ref, true, &name) == GTHOST_OK && vmm_page(&vmm, name) == guest_page(&guest, 5));
    HOLDS(flags_of(ref) == (GTF_permit_access | GTF_reading | GTF_writing) && !guest_end(&guest, ref));
    HOLDS(vmm_map(&vmm, ref, false, &other) == GTHOST_OK && vmm_unmap(&vmm, name));
    HOLDS(flags_of(ref) == (GTF_permit_access | GTF_reading) && !guest_end(&guest, ref));
    guest_grant(&guest, ref, BACK, 6, false); /* the marks are gone, and the old page is still mapped */
    HOLDS(vmm_map(&vmm, ref, true, &name) == GTHOST_N19 && vmm_page(&vmm, other) == guest_page(&guest, 5));
    HOLDS(vmm_unmap(&vmm, other) && vmm_map(&vmm, ref, true, &name) == GTHOST_OK);
    HOLDS(vmm_page(&vmm, name) == guest_page(&guest, 6) && vmm_unmap(&vmm, name));
    HOLDS(flags_of(ref) == GTF_permit_access && guest_end(&guest, ref));
    HOLDS(vmm_map(&vmm, ref, false, &name) == GTHOST_N10);
    guest.table[ref].v1.flags = 2; /* a type that this monitor refuses: accept_transfer */
    HOLDS(vmm_follow(&vmm, ref).rule == GTHOST_N25 && vmm_map(&vmm, ref, false, &name) == GTHOST_N25);
    HOLDS(guest_end(&guest, ref));
}

/* A guest that uses one reference again and again, in a run whose entries have three changes left: the monitor's
 * references are worn, and others take their place, until none is spare. */
static void worn(void)
{
    const uint32_t ref = FIRST_REF + 40, other = FIRST_REF + 41;
    struct gthost_handle name;
    memset(&guest, 0, sizeof guest);
    HOLDS(vmm_start(&vmm, &guest, GTHOST_LAST_GENERATION - 3));
    for (uint32_t round = 0; round < 3 * (NUMBERS - REFERENCES + 1); round++) {
        guest_grant(&guest, ref, BACK, 1 + round % (FRAMES - 1), false);
        HOLDS(vmm_map(&vmm, ref, true, &name) == GTHOST_OK);
        HOLDS(vmm_page(&vmm, name) == guest_page(&guest, 1 + round % (FRAMES - 1)) && !guest_end(&guest, ref));
        HOLDS(vmm_unmap(&vmm, name) && flags_of(ref) == GTF_permit_access && guest_end(&guest, ref));
        HOLDS(followed_as(ref, GTHOST_FOLLOWED_WITHDRAWN));
    }
    HOLDS(vmm.spare == NUMBERS);
    guest_grant(&guest, ref, BACK, 3, false);
    HOLDS(vmm_map(&vmm, ref, true, &name) == GTHOST_N22);
    guest_grant(&guest, other, BACK, 4, false); /* another reference has its own changes left */
    HOLDS(vmm_map(&vmm, other, true, &name) == GTHOST_OK && vmm_unmap(&vmm, name));
    HOLDS(vmm_finish(&vmm) == 0);
    memset(&guest, 0, sizeof guest);
}

/* What the front end asks of the back end: the reference in the low half, and whether to write in the high one. TAKEN
 * while the back end is at it, and 0 when it is done. */
static uint64_t asked[REQUESTS];
static bool is_closed;
static uint64_t rounds, mapped, refused, busy;

static void fill(uint8_t *page, uint8_t byte)
{
    memset(page, byte, PAGE);
}

static bool is_filled(const uint8_t *page)
{
    return memcmp(page, page + 1, PAGE - 1) == 0;
}

/* Waits as long as a request of this round is to be left alone: not at all, until it is taken, or until it is done. */
static void leave_alone(uint64_t round, uint64_t request)
{
    const uint64_t *at = &asked[round % REQUESTS];
    uint64_t now = request;
    while (round % 4 > 0 && (now == request || (round % 4 > 1 && now == TAKEN))) {
        sched_yield();
        now = __atomic_load_n(at, __ATOMIC_ACQUIRE);
    }
}

/* Shares one page, and takes it back. */
static void share(uint64_t round)
{
    const uint32_t ref = FIRST_REF + 2 + (uint32_t)(round % REQUESTS), frame = 1 + (uint32_t)(round % (FRAMES - 1));
    const bool writes = round / 4 % 2;
    const uint64_t request = (uint64_t)writes << 32 | ref;
    fill(guest_page(&guest, frame), (uint8_t)(round % 100));
    guest_grant(&guest, ref, BACK, frame, !writes);
    __atomic_store_n(&asked[round % REQUESTS], request, __ATOMIC_RELEASE);
    leave_alone(round, request);
    while (!guest_end(&guest, ref)) {
        busy++;
        sched_yield();
    }
    const uint8_t *page = guest_page(&guest, frame);
    HOLDS(is_filled(page) && (page[0] == round % 100 || (writes && page[0] == round % 100 + 100)));
    fill(guest_page(&guest, frame), PRIVATE); /* no one else may see this */
}

static void *front_main(void *none)
{
    (void)none;
    for (uint64_t round = 0; round < rounds; round++) {
        share(round);
    }
    __atomic_store_n(&is_closed, true, __ATOMIC_RELEASE);
    return NULL;
}

/* Maps a page that it was asked to map, and reads and writes all of it. */
static void serve(uint64_t request)
{
    const bool writes = request >> 32;
    struct gthost_handle name;
    if (vmm_map(&vmm, (uint32_t)request, writes, &name) != GTHOST_OK) {
        refused++;
        return;
    }
    uint8_t *page = vmm_page(&vmm, name);
    HOLDS(is_filled(page) && page[0] != PRIVATE);
    if (writes && page[0] < 100) {
        fill(page, (uint8_t)(page[0] + 100));
    }
    mapped++;
    HOLDS(vmm_unmap(&vmm, name));
}

static void *back_main(void *none)
{
    (void)none;
    for (uint64_t i = 0; !__atomic_load_n(&is_closed, __ATOMIC_ACQUIRE); i++) {
        uint64_t *at = &asked[i % REQUESTS], request = __atomic_load_n(at, __ATOMIC_ACQUIRE), taken = TAKEN;
        if (request && __atomic_compare_exchange_n(at, &request, TAKEN, false, __ATOMIC_ACQ_REL, __ATOMIC_ACQUIRE)) {
            serve(request);
            __atomic_compare_exchange_n(at, &taken, 0, false, __ATOMIC_ACQ_REL, __ATOMIC_ACQUIRE);
        } else {
            sched_yield();
        }
    }
    return NULL;
}

static void in_threads(void)
{
    pthread_t front, back;
    if (pthread_create(&back, NULL, back_main, NULL) || pthread_create(&front, NULL, front_main, NULL)) {
        perror("xen_front: pthread_create");
        exit(1);
    }
    pthread_join(front, NULL);
    pthread_join(back, NULL);
}

int main(int argc, char **argv)
{
    rounds = argc > 1 ? strtoull(argv[1], NULL, 10) : 100000;
    worn();
    if (!vmm_start(&vmm, &guest, 0)) {
        return 1;
    }
    each_change();
    in_use();
    in_threads();
    HOLDS(mapped > 0 || rounds == 0);
    HOLDS(vmm_finish(&vmm) == 0);
    printf("%llu pages shared: %llu mapped, %llu refused, %llu ends refused while in use\n",
           (unsigned long long)rounds, (unsigned long long)mapped, (unsigned long long)refused,
           (unsigned long long)busy);
    printf("follows:");
    for (int i = 0; i <= GTHOST_FOLLOWED_GRANTED; i++) {
        printf(" %llu %s,", (unsigned long long)vmm.followed[i], FOLLOWED[i]);
    }
    printf(" %llu refused; %llu marks missed\n", (unsigned long long)vmm.refused, (unsigned long long)vmm.missed);
    return failures ? 1 : 0;
}
