/*
 * Four domains of one monitor, each in a thread of its own, grant pages to one another and map, copy, revoke and unmap
 * them at random. The page is the program's: who has it mapped for writing, or copies to it, and who has revoked it,
 * writes a mark into it and reads it back for a while. No other mark may come in between.
 */
#include "gthost.h"

#include <pthread.h>
#include <stdatomic.h>
#include <stdio.h>
#include <stdlib.h>
#include <string.h>

enum { DOMAINS = 4, PAGES = 6, FRAMES = 8, LOOKS = 20 };

struct member {
    struct gthost_domain domain;
    uint16_t id;
    uint64_t seed, rounds;
    bool is_granted[PAGES];
    uint64_t owned, mapped, copied, refused, faults;
};

static const char POLICY[] = "type a_t; allow a_t a_t:grant { map_read map_write unmap copy query };";

/* A word of each frame stands for all its bytes. */
static atomic_uint pages[DOMAINS + 1][FRAMES];

static uint64_t draw(struct member *member, uint64_t below)
{
    member->seed = member->seed * 6364136223846793005u + 1442695040888963407u;
    return (member->seed >> 33) % below;
}

/* Writes a mark that nobody else writes, and looks whether it stays. */
static void mark(struct member *member, uint16_t owner, uint64_t frame)
{
    unsigned mine = member->id * 1000000u + (unsigned)draw(member, 1000000);
    atomic_store_explicit(&pages[owner][frame], mine, memory_order_relaxed);
    for (int i = 0; i < LOOKS; i++) {
        member->faults += atomic_load_explicit(&pages[owner][frame], memory_order_relaxed) != mine;
    }
}

static void own(struct member *member)
{
    struct gthost_answer answer;
    uint32_t place = (uint32_t)draw(member, PAGES);
    if (member->is_granted[place]) {
        answer = gthost_revoke(&member->domain, place);
        if (answer.rule != GTHOST_OK) {
            member->faults += answer.rule != 19;
            member->refused++;
            return;
        }
        member->owned++;
        mark(member, member->id, place);
        member->is_granted[place] = false;
    } else {
        uint16_t to = (uint16_t)(1 + draw(member, DOMAINS));
        answer = gthost_grant_page(&member->domain, place, to, place, false);
        member->faults += answer.rule != GTHOST_OK;
        member->is_granted[place] = true;
    }
}

/* What a map or a copy is refused by if the entry is not granted to this domain, or changes all the time. */
static bool is_refusal(uint32_t rule)
{
    return rule == 10 || rule == 11 || rule == 18;
}

static void map(struct member *member)
{
    struct gthost_answer answer;
    struct gthost_handle name;
    answer = gthost_map(&member->domain, (uint16_t)(1 + draw(member, DOMAINS)), (uint32_t)draw(member, PAGES),
                        GTHOST_MAP_WRITABLE);
    if (answer.rule != GTHOST_OK) {
        member->faults += !is_refusal(answer.rule);
        member->refused++;
        return;
    }
    name = gthost_handle_of(answer);
    const struct gthost_found_mapping found = gthost_mapping(&member->domain, name);
    member->faults += found.answer.rule != GTHOST_OK || !found.mapping.writes;
    mark(member, found.mapping.owner, found.mapping.frame);
    answer = gthost_unmap(&member->domain, name);
    member->faults += answer.rule != GTHOST_OK;
    member->mapped++;
}

static void copy(struct member *member)
{
    const struct gthost_copy copy = {{FRAMES - 1, member->id, 0},
                                     {draw(member, PAGES), (uint16_t)(1 + draw(member, DOMAINS)), 0},
                                     64,
                                     GTHOST_COPY_DEST_GREF};
    const struct gthost_begun_copy begun = gthost_copy_begin(&member->domain, copy);
    struct gthost_answer answer;
    if (begun.answer.rule != GTHOST_OK) {
        member->faults += !is_refusal(begun.answer.rule);
        member->refused++;
        return;
    }
    mark(member, begun.places.to.owner, begun.places.to.frame);
    answer = gthost_copy_end(&member->domain);
    member->faults += answer.rule != GTHOST_OK;
    member->copied++;
}

static void *work(void *arg)
{
    struct member *member = arg;
    struct gthost_answer answer;
    for (uint64_t i = 0; i < member->rounds; i++) {
        switch (draw(member, 4)) {
        case 0:
            own(member);
            break;
        case 1:
            copy(member);
            break;
        case 2:
            answer = gthost_query_size(&member->domain, (uint16_t)(1 + draw(member, DOMAINS)));
            member->faults += answer.rule != GTHOST_OK;
            break;
        default:
            map(member);
            break;
        }
    }
    return NULL;
}

static bool start(struct member *members, uint64_t rounds)
{
    struct gthost_settings settings[DOMAINS];
    struct gthost_domain domains[DOMAINS];
    struct gthost_fault fault;
    memset(domains, 0, sizeof domains);
    for (uint16_t i = 0; i < DOMAINS; i++) {
        const struct gthost_settings one = {(uint16_t)(i + 1), 0, FRAMES, 1, 1};
        settings[i] = one;
    }
    for (uint16_t i = 0; i < DOMAINS; i++) {
        memset(&members[i], 0, sizeof members[i]);
        members[i].id = (uint16_t)(i + 1);
        members[i].seed = i + 1u;
        members[i].rounds = rounds;
    }
    fault = gthost_start(settings, DOMAINS, 0, 0, (const uint8_t *)POLICY, strlen(POLICY), domains, DOMAINS);
    if (fault.kind != GTHOST_FAULT_NONE) {
        return false;
    }
    for (int i = 0; i < DOMAINS; i++) {
        memcpy(&members[i].domain, &domains[i], sizeof domains[i]); /* the handle moves: the old one is used no more */
        gthost_keep_at_most(&members[i].domain, 0);
    }
    return true;
}

int main(int argc, char **argv)
{
    static struct member members[DOMAINS];
    pthread_t threads[DOMAINS];
    uint64_t faults = 0, owned = 0, mapped = 0, copied = 0, refused = 0;
    if (!start(members, argc > 1 ? strtoull(argv[1], NULL, 10) : 200000)) {
        return 2;
    }
    for (int i = 0; i < DOMAINS; i++) {
        if (pthread_create(&threads[i], NULL, work, &members[i])) {
            return 2;
        }
    }
    for (int i = 0; i < DOMAINS; i++) {
        pthread_join(threads[i], NULL);
    }
    for (int i = 0; i < DOMAINS; i++) {
        struct gthost_answer answer;
        for (uint32_t place = 0; place < PAGES; place++) {
            answer = gthost_revoke(&members[i].domain, place);
            faults += answer.rule != (members[i].is_granted[place] ? GTHOST_OK : 10u);
        }
        faults += members[i].faults;
        owned += members[i].owned;
        mapped += members[i].mapped;
        copied += members[i].copied;
        refused += members[i].refused;
    }
    for (int i = 0; i < DOMAINS; i++) {
        gthost_finish(&members[i].domain);
    }
    printf("four threads: %llu pages revoked, %llu mapped, %llu copied to, %llu calls refused, %llu faults\n",
           (unsigned long long)owned, (unsigned long long)mapped, (unsigned long long)copied, (unsigned long long)refused,
           (unsigned long long)faults);
    return faults != 0 || owned == 0 || mapped == 0 || copied == 0;
}
