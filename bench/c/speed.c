/*
 * speed LOAD THREADS ROUNDS AUDIT: the loads of `bench live`, through the library. LOAD is apart, adjacent, grants or
 * copies, AUDIT is on, ahead or off. Each thread maps an entry of the owner's and unmaps it, ROUNDS times. Under grants
 * the owner grants an entry and revokes it, in one thread. Under copies each thread begins a copy of 64 bytes from the
 * entry to a page of its own and ends it, without moving the bytes. Prints how many rounds were done.
 */
#include "gthost.h"

#include <pthread.h>
#include <stdio.h>
#include <stdlib.h>
#include <string.h>

enum { DOMAINS = 6, MOST = 4, OWNER = 1, FIRST_MAPPER = 3, FIRST = 64, APART = 64, RECORDS_AHEAD = 400000 };

/* One for each thread, on cache lines of its own. */
struct worker {
    _Alignas(128) struct gthost_domain domain;
    uint32_t gref;
    unsigned long rounds, done;
    const char *audit;
    bool grants, copies;
};

static const char POLICY[] = "type a_t; allow a_t a_t:grant { map_read map_write unmap copy };";

static void record_calls(struct worker *worker)
{
    if (strcmp(worker->audit, "off") == 0) { /* as at the start */
        return;
    }
    gthost_keep_at_most(&worker->domain, SIZE_MAX);
    if (strcmp(worker->audit, "ahead") == 0) {
        gthost_reserve_records(&worker->domain, RECORDS_AHEAD);
    }
}

static unsigned long grant(struct worker *worker)
{
    unsigned long done = 0;
    for (unsigned long round = 0; round < worker->rounds; round++) {
        gthost_grant_page(&worker->domain, worker->gref, FIRST_MAPPER, 5, false);
        done += gthost_revoke(&worker->domain, worker->gref).rule == GTHOST_OK;
    }
    return done;
}

static unsigned long map(struct worker *worker)
{
    unsigned long done = 0;
    while (done < worker->rounds) {
        const struct gthost_answer mapped = gthost_map(&worker->domain, OWNER, worker->gref, GTHOST_MAP_READ_ONLY);
        if (mapped.rule == GTHOST_OK) {
            const struct gthost_handle name = gthost_handle_of(mapped);
            done += gthost_unmap(&worker->domain, name).rule == GTHOST_OK;
        }
    }
    return done;
}

static unsigned long copy(struct worker *worker)
{
    const struct gthost_copy copy = {{worker->gref, OWNER, 0}, {2, GTHOST_DOMID_SELF, 0}, 64, GTHOST_COPY_SOURCE_GREF};
    unsigned long done = 0;
    while (done < worker->rounds) {
        if (gthost_copy_begin(&worker->domain, copy).answer.rule == GTHOST_OK) {
            done += gthost_copy_end(&worker->domain).rule == GTHOST_OK;
        }
    }
    return done;
}

static void *work(void *arg)
{
    struct worker *worker = arg;
    record_calls(worker);
    worker->done = worker->grants ? grant(worker) : worker->copies ? copy(worker) : map(worker);
    return NULL;
}

/* The handle moves. */
static void employ(struct worker *worker, struct gthost_domain *domain)
{
    memcpy(&worker->domain, domain, sizeof *domain);
    memset(domain, 0, sizeof *domain);
}

int main(int argc, char **argv)
{
    static struct worker workers[MOST];
    struct gthost_settings settings[DOMAINS];
    struct gthost_domain domains[DOMAINS];
    struct gthost_fault fault;
    pthread_t threads[MOST];
    unsigned long done = 0;
    size_t count = argc == 5 ? strtoul(argv[2], NULL, 10) : 0;
    const bool grants = count > 0 && strcmp(argv[1], "grants") == 0;
    if (count == 0 || count > (grants ? 1 : MOST)) {
        fprintf(stderr, "speed apart|adjacent|grants|copies THREADS ROUNDS on|ahead|off\n");
        return 2;
    }
    memset(domains, 0, sizeof domains);
    for (uint16_t i = 0; i < DOMAINS; i++) {
        const struct gthost_settings one = {(uint16_t)(i + 1), 0, 8, 16, 1};
        settings[i] = one;
    }
    fault = gthost_start(settings, DOMAINS, 0, 0, (const uint8_t *)POLICY, strlen(POLICY), domains, DOMAINS);
    if (fault.kind != GTHOST_FAULT_NONE) {
        return 1;
    }
    for (size_t i = 0; i < count; i++) {
        uint16_t mapper = (uint16_t)(FIRST_MAPPER + i);
        workers[i].gref = FIRST + (uint32_t)i * (strcmp(argv[1], "apart") == 0 ? APART : 1);
        workers[i].rounds = strtoul(argv[3], NULL, 10);
        workers[i].audit = argv[4];
        workers[i].grants = grants;
        workers[i].copies = strcmp(argv[1], "copies") == 0;
        if (!grants) {
            gthost_grant_page(&domains[OWNER - 1], workers[i].gref, mapper, 5, false);
        }
        employ(&workers[i], &domains[grants ? OWNER - 1 : mapper - 1]);
    }
    for (size_t i = 0; i < count; i++) {
        if (pthread_create(&threads[i], NULL, work, &workers[i])) {
            return 1;
        }
    }
    for (size_t i = 0; i < count; i++) {
        pthread_join(threads[i], NULL);
        done += workers[i].done;
        gthost_finish(&workers[i].domain);
    }
    for (int i = 0; i < DOMAINS; i++) {
        gthost_finish(&domains[i]);
    }
    printf("%lu\n", done);
    return 0;
}
