// The loads of `bench words` for a program in C that keeps the entries in its own way: it defines the calls that are
// declared here, and this file the loads over them, the threads and `main`. `PROGRAM LOAD THREADS ROUNDS` prints the
// load, the threads and the rounds that they have done in all, as `bench words` does.
//
// A round makes the tests that one of `bench words` makes. To map: the domain named is found, its table has the entry, the
// entry is a page, it is granted to the domain that maps, and it has room for a pin; the frame is read. To unmap: the
// domain is found, and the pin goes. To revoke and grant: the owner's own row of the entry, and its place in the table.
// To withdraw and grant: the same, with as many tries to grant as it takes until no pin is left.
#include <pthread.h>
#include <stdbool.h>
#include <stdint.h>
#include <stdio.h>
#include <stdlib.h>
#include <string.h>

// How many domains there are: the owner, the middle, those of the threads, and others that do nothing (-DRUN_DOMAINS=64).
#ifndef RUN_DOMAINS
#define RUN_DOMAINS 6
#endif

enum { DOMAINS = RUN_DOMAINS, TABLE_FRAMES = 16, ENTRIES = 512 * TABLE_FRAMES, MOST_PINS = 4095, LAST_GENERATION = 1048575, MOST_THREADS = 4 };

// Numbers of domains. The first one that maps a load's own entry has the number FIRST_MAPPER.
enum { OWNER = 1, MIDDLE = 2, FIRST_MAPPER = 3 };

// The entry that loads on one entry share, and how far those of the other loads lie apart.
enum { SHARED_ENTRY = 64, APART = 64, ADJACENT = 1 };

// What an owner keeps of one of its entries.
struct row {
    uint32_t domain;
    uint64_t frame;
    uint32_t generation;
    bool valid;
};

// An entry, by the number of its owner and its place, and the domain that it is to be granted to.
struct target {
    uint32_t granter;
    uint32_t reference;
    uint32_t named;
};

// A domain's own part: its position, and the domain that it looked up last with the position of that.
struct seat {
    uint32_t position;
    uint32_t found;
    uint32_t found_position;
};

// The domains of the run, in order.
static uint16_t ids[DOMAINS];

static void name_domains(void) {
    for (uint32_t position = 0; position < DOMAINS; position++) ids[position] = (uint16_t)(OWNER + position);
}

static uint32_t search(uint32_t domain) {
    uint32_t position = 0;
    while (position < DOMAINS && ids[position] != domain) position++;
    return position;
}

// The position of a domain, which is searched where it is another than the last one.
static inline uint32_t position_of(struct seat *seat, uint32_t domain) {
    if (seat->found != domain) {
        seat->found_position = search(domain);
        seat->found = domain;
    }
    return seat->found_position;
}

// Makes all entries invalid, at generation 0, in tables of TABLE_FRAMES frames in version 1.
static bool make_entries(void);

// Publishes a page in place of the owner's invalid entry.
static bool publish(const struct seat *owner, uint32_t reference, struct row *row, uint32_t domain, uint64_t frame);

// Revokes an entry of the owner, where it has no pins.
static bool revoke(const struct seat *owner, uint32_t reference, struct row *row);

// Withdraws an entry of the owner, whatever pins it has. Answers false where other pins came or went meanwhile.
static bool withdraw(const struct seat *owner, uint32_t reference, struct row *row);

// Tries once to take a read pin of a page that is granted to the domain named.
static bool map(struct seat *seat, const struct target *target);

// Gives a read pin back.
static void unmap(struct seat *seat, const struct target *target);

// What a thread does.
enum part { MAPS, REVOKES, WITHDRAWS };

struct job {
    struct seat seat;
    struct target target;
    struct row row;
    enum part part;
    uint32_t rounds;
    uint32_t done;
};

static uint32_t map_and_unmap(struct seat seat, struct target target, uint32_t rounds) {
    uint32_t done = 0;
    while (done < rounds) {
        if (!map(&seat, &target)) continue;
        unmap(&seat, &target);
        done++;
    }
    return done;
}

static uint32_t revoke_and_grant(struct seat seat, struct target target, struct row row, uint32_t rounds) {
    uint32_t done = 0;
    while (done < rounds && row.generation < LAST_GENERATION) {
        uint32_t domain = row.domain;
        uint64_t frame = row.frame;
        if (!revoke(&seat, target.reference, &row)) continue;
        publish(&seat, target.reference, &row, domain, frame);
        done++;
    }
    return done;
}

static uint32_t withdraw_and_grant(struct seat seat, struct target target, struct row row, uint32_t rounds) {
    uint32_t done = 0;
    while (done < rounds && row.generation < LAST_GENERATION) {
        uint32_t domain = row.domain;
        uint64_t frame = row.frame;
        if (!withdraw(&seat, target.reference, &row)) continue;
        while (!publish(&seat, target.reference, &row, domain, frame)) continue;
        done++;
    }
    return done;
}

static void *run_job(void *argument) {
    struct job *job = argument;
    if (job->part == MAPS) job->done = map_and_unmap(job->seat, job->target, job->rounds);
    else if (job->part == REVOKES) job->done = revoke_and_grant(job->seat, job->target, job->row, job->rounds);
    else job->done = withdraw_and_grant(job->seat, job->target, job->row, job->rounds);
    return NULL;
}

// The jobs of a load, their entries granted. Answers false for a load that there is not.
static bool make_jobs(const char *load, uint32_t threads, uint32_t rounds, struct job *jobs) {
    enum part first = MAPS;
    if (strcmp(load, "grants") == 0) first = REVOKES;
    if (strcmp(load, "withdrawals") == 0) first = WITHDRAWS;
    bool grants = first != MAPS;
    bool shared = grants || strcmp(load, "one") == 0;
    uint32_t stride = strcmp(load, "apart") == 0 ? APART : ADJACENT;
    if (!shared && stride == ADJACENT && strcmp(load, "adjacent") != 0) return false;
    struct seat owner = {search(OWNER), OWNER, search(OWNER)};
    struct row row = {0};
    if (shared && !publish(&owner, SHARED_ENTRY, &row, MIDDLE, 5)) return false;
    for (uint32_t i = 0; i < threads; i++) {
        struct target target = {OWNER, SHARED_ENTRY, MIDDLE};
        if (!shared) {
            target = (struct target){OWNER, SHARED_ENTRY + stride * i, FIRST_MAPPER + i};
            row = (struct row){0};
            if (!publish(&owner, target.reference, &row, target.named, 5)) return false;
        }
        uint32_t mine = grants && i == 0 ? OWNER : FIRST_MAPPER + i;
        struct seat seat = {search(mine), ids[0], 0};
        jobs[i] = (struct job){seat, target, row, i == 0 ? first : MAPS, rounds, 0};
    }
    return true;
}

int main(int count, char **words) {
    if (count != 4) return 2;
    uint32_t threads = (uint32_t)strtoul(words[2], NULL, 10);
    uint32_t rounds = (uint32_t)strtoul(words[3], NULL, 10);
    struct job jobs[MOST_THREADS];
    pthread_t running[MOST_THREADS];
    if (threads < 1 || threads > MOST_THREADS || !make_entries()) return 2;
    name_domains();
    if (!make_jobs(words[1], threads, rounds, jobs)) return 2;
    for (uint32_t i = 1; i < threads; i++)
        if (pthread_create(&running[i], NULL, run_job, &jobs[i]) != 0) return 1;
    run_job(&jobs[0]);
    uint64_t done = jobs[0].done;
    for (uint32_t i = 1; i < threads; i++) {
        pthread_join(running[i], NULL);
        done += jobs[i].done;
    }
    printf("%s %u %llu\n", words[1], threads, (unsigned long long)done);
    return 0;
}
