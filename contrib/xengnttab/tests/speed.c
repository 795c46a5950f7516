/* How long the calls take through the shim, and how long a reference lasts. */
#define _GNU_SOURCE
#include "xg.h"

#include <libxenvchan.h>
#include <pthread.h>
#include <stdio.h>
#include <stdlib.h>
#include <string.h>
#include <sys/mman.h>
#include <time.h>
#include <xengnttab.h>

enum { OWNER = 1, MAPPER = 2 };
static const char POLICY[] = "type a_t; type b_t;\n"
                             "allow b_t a_t:grant { map_read map_write unmap copy }; allow a_t b_t:grant copy;\n";
static const char *const NAMES[] = {"remap", "direct", "none"};

static double now(void)
{
    struct timespec at;
    clock_gettime(CLOCK_MONOTONIC, &at);
    return (double)at.tv_sec + 1e-9 * (double)at.tv_nsec;
}

static void start(enum xg_mode mode)
{
    const struct xg_domain domains[] = {{OWNER, "a_t", 4096, 8, 1, 0}, {MAPPER, "b_t", 16, 1, 1, 0}};
    if (!xg_start(domains, 2, POLICY, mode)) {
        exit(1);
    }
}

static double best(double (*round)(enum xg_mode, uint32_t), enum xg_mode mode, uint32_t arg)
{
    double least = 1e9;
    for (int i = 0; i < 7; i++) {
        start(mode);
        const double time = round(mode, arg);
        least = time < least ? time : least;
        xg_stop();
    }
    return least;
}

static double map_round(enum xg_mode mode, uint32_t count)
{
    uint32_t refs[256], rounds = (mode == XG_REMAP ? 40000u : 400000u) / count;
    xg_enter(OWNER);
    xengntshr_handle *xgs = xengntshr_open(NULL, 0);
    xengntshr_share_pages(xgs, MAPPER, (int)count, refs, 1);
    xg_enter(MAPPER);
    xengnttab_handle *xgt = xengnttab_open(NULL, 0);
    const double began = now();
    for (uint32_t i = 0; i < rounds; i++) {
        void *at = xengnttab_map_domain_grant_refs(xgt, count, OWNER, refs, PROT_READ | PROT_WRITE);
        if (!at || xengnttab_unmap(xgt, at, count)) {
            abort();
        }
    }
    return (now() - began) / rounds / count * 1e9;
}

static double copy_round(enum xg_mode mode, uint32_t len)
{
    static uint8_t plain[64][4096];
    uint32_t refs[64], rounds = 4000;
    xengnttab_grant_copy_segment_t segs[64];
    (void)mode;
    xg_enter(OWNER);
    xengntshr_handle *xgs = xengntshr_open(NULL, 0);
    xengntshr_share_pages(xgs, MAPPER, 64, refs, 1);
    xg_enter(MAPPER);
    xengnttab_handle *xgt = xengnttab_open(NULL, 0);
    memset(segs, 0, sizeof segs);
    for (int i = 0; i < 64; i++) {
        segs[i].source.virt = plain[i];
        segs[i].dest.foreign.ref = refs[i];
        segs[i].dest.foreign.domid = OWNER;
        segs[i].len = (uint16_t)len;
        segs[i].flags = GNTCOPY_dest_gref;
    }
    const double began = now();
    for (uint32_t i = 0; i < rounds; i++) {
        xengnttab_grant_copy(xgt, 64, segs);
    }
    const double time = (now() - began) / rounds / 64 * 1e9;
    for (int i = 0; i < 64; i++) {
        if (segs[i].status) {
            abort();
        }
    }
    return time;
}

static double share_round(enum xg_mode mode, uint32_t count)
{
    uint32_t refs[256], rounds = 200000 / count;
    (void)mode;
    xg_enter(OWNER);
    const uint64_t frame = xg_alloc(count);
    const double began = now();
    for (uint32_t i = 0; i < rounds; i++) {
        for (uint32_t j = 0; j < count; j++) {
            refs[j] = xg_grant(frame + j, MAPPER, false);
        }
        for (uint32_t j = 0; j < count; j++) {
            if (!xg_end(refs[j])) {
                abort();
            }
        }
    }
    return (now() - began) / rounds / count * 1e9;
}

/* --- the library alone --- */

static void raw(void)
{
    const struct gthost_settings settings[] = {{1, 0, 8, 1, 1}, {2, 1, 8, 1, 1}};
    struct gthost_domain dom[2];
    memset(dom, 0, sizeof dom);
    gthost_start(settings, 2, 0, 0, (const uint8_t *)POLICY, strlen(POLICY), dom, 2);
    gthost_keep_at_most(&dom[0], 0);
    gthost_keep_at_most(&dom[1], 0);
    double least[4] = {1e9, 1e9, 1e9, 1e9};
    for (int pass = 0; pass < 15; pass++) {
        const int rounds = 60000;
        gthost_grant_page(&dom[0], 1, 2, 5, 0);
        double began = now();
        for (int i = 0; i < rounds; i++) {
            gthost_unmap(&dom[1], gthost_handle_of(gthost_map(&dom[1], 1, 1, GTHOST_MAP_WRITABLE)));
        }
        double time = (now() - began) / rounds * 1e9;
        least[0] = time < least[0] ? time : least[0];
        began = now();
        for (int i = 0; i < rounds; i++) {
            const struct gthost_handle name = gthost_handle_of(gthost_map(&dom[1], 1, 1, GTHOST_MAP_WRITABLE));
            if (gthost_mapping(&dom[1], name).mapping.frame != 5) {
                abort();
            }
            gthost_unmap(&dom[1], name);
        }
        time = (now() - began) / rounds * 1e9;
        least[1] = time < least[1] ? time : least[1];
        const struct gthost_copy copy = {{0, 2, 0}, {1, 1, 0}, 64, GTHOST_COPY_DEST_GREF};
        began = now();
        for (int i = 0; i < rounds; i++) {
            if (gthost_copy_begin(&dom[1], copy).answer.rule || gthost_copy_end(&dom[1]).rule) {
                abort();
            }
        }
        time = (now() - began) / rounds * 1e9;
        least[2] = time < least[2] ? time : least[2];
        gthost_revoke(&dom[0], 1);
        began = now();
        for (int i = 0; i < rounds; i++) {
            gthost_grant_page(&dom[0], 2, 2, 5, 0);
            gthost_revoke(&dom[0], 2);
        }
        time = (now() - began) / rounds * 1e9;
        least[3] = time < least[3] ? time : least[3];
    }
    printf("library alone, ns: map+unmap %.1f, map+mapping+unmap %.1f, copy begin+end %.1f, grant+revoke %.1f\n",
           least[0], least[1], least[2], least[3]);
    gthost_finish(&dom[0]);
    gthost_finish(&dom[1]);
}

/* A driver that takes the reference it freed last, as Linux's free list does, with one request under way. */
static void wear(void)
{
    const struct gthost_settings settings[] = {{1, 0, 8, 1, 1}, {2, 1, 8, 1, 1}};
    struct gthost_domain dom[2];
    memset(dom, 0, sizeof dom);
    gthost_start(settings, 2, 0, 0, (const uint8_t *)POLICY, strlen(POLICY), dom, 2);
    const double began = now();
    uint64_t grants = 0;
    struct gthost_answer answer;
    while ((answer = gthost_grant_page(&dom[0], 8, 2, 5, 0)).rule == GTHOST_OK) {
        grants++;
        gthost_revoke(&dom[0], 8);
    }
    printf("one reference: %llu grants in %.3f s, then rule N%u for ever; ", (unsigned long long)grants, now() - began,
           answer.rule);
    gthost_reset(&dom[0]);
    printf("after gthost_reset N%u; ", gthost_grant_page(&dom[0], 8, 2, 5, 0).rule);
    const struct gthost_entry_bytes bytes = {8, {1, 0, 2, 0, 5, 0, 0, 0}};
    printf("gthost_follow N%u\n", gthost_follow(&dom[0], 8, bytes).rule);
    gthost_finish(&dom[0]);
    gthost_finish(&dom[1]);
}

/* --- several threads: of one domain, or of a domain each --- */

static const char MANY[] = "type a_t; type b_t; allow b_t a_t:grant { map_read map_write unmap };\n"
                           "allow a_t a_t:grant query;\n";
static pthread_barrier_t go;
static uint32_t shared_ref[8];

struct mapper {
    uint16_t dom;
    int index;
    double time;
};

static void *mapper_main(void *arg)
{
    struct mapper *mapper = arg;
    const int rounds = 200000;
    xg_enter(mapper->dom);
    xengnttab_handle *xgt = xengnttab_open(NULL, 0);
    pthread_barrier_wait(&go);
    const double began = now();
    for (int i = 0; i < rounds; i++) {
        void *at = xengnttab_map_grant_ref(xgt, OWNER, shared_ref[mapper->index], PROT_READ);
        if (!at || xengnttab_unmap(xgt, at, 1)) {
            abort();
        }
    }
    mapper->time = (now() - began) / rounds * 1e9;
    return NULL;
}

static void threads(int count, bool is_one_domain)
{
    double least = 1e9;
    for (int pass = 0; pass < 5; pass++) {
        struct xg_domain domains[9] = {{OWNER, "a_t", 64, 1, 1, 0}};
        for (int i = 0; i < 4; i++) {
            domains[1 + i] = (struct xg_domain){(uint16_t)(MAPPER + i), "b_t", 1, 1, 1, 0};
        }
        if (!xg_start(domains, 5, MANY, XG_DIRECT)) {
            exit(1);
        }
        pthread_t ids[4];
        struct mapper mappers[4];
        xg_enter(OWNER);
        pthread_barrier_init(&go, NULL, (unsigned)count);
        for (int i = 0; i < count; i++) {
            mappers[i] = (struct mapper){(uint16_t)(MAPPER + (is_one_domain ? 0 : i)), i, 0};
            shared_ref[i] = xg_grant(xg_alloc(1), mappers[i].dom, false);
        }
        for (int i = 0; i < count; i++) {
            pthread_create(&ids[i], NULL, mapper_main, &mappers[i]);
        }
        double most = 0;
        for (int i = 0; i < count; i++) {
            pthread_join(ids[i], NULL);
            most = mappers[i].time > most ? mappers[i].time : most;
        }
        least = most < least ? most : least;
        pthread_barrier_destroy(&go);
        xg_stop();
    }
    printf("%d threads of %s: map+unmap %.0f ns each, %.1f million a second in all\n", count,
           is_one_domain ? "one domain " : "a domain each", least, count * 1e3 / least);
}

/* --- vchan --- */

struct stream {
    size_t ring, chunk, total;
    pthread_barrier_t up;
    double seconds;
};

static void *writer(void *arg)
{
    struct stream *stream = arg;
    uint8_t *bytes = calloc(1, stream->chunk);
    xg_enter(OWNER);
    struct libxenvchan *vchan = libxenvchan_server_init(NULL, MAPPER, "/v", 4096, stream->ring);
    pthread_barrier_wait(&stream->up);
    vchan->blocking = 1;
    for (size_t done = 0; done < stream->total; done += stream->chunk) {
        if (libxenvchan_write(vchan, bytes, stream->chunk) < 0) {
            abort();
        }
    }
    libxenvchan_close(vchan);
    free(bytes);
    return NULL;
}

static void *reader(void *arg)
{
    struct stream *stream = arg;
    uint8_t *bytes = calloc(1, stream->chunk);
    xg_enter(MAPPER);
    pthread_barrier_wait(&stream->up);
    struct libxenvchan *vchan = libxenvchan_client_init(NULL, OWNER, "/v");
    vchan->blocking = 1;
    const double began = now();
    size_t done = 0;
    int len;
    while ((len = libxenvchan_read(vchan, bytes, stream->chunk)) > 0) {
        done += (size_t)len;
    }
    stream->seconds = now() - began;
    if (done < stream->total) {
        abort();
    }
    libxenvchan_close(vchan);
    free(bytes);
    return NULL;
}

static void vchan(enum xg_mode mode, size_t ring, size_t chunk, size_t total)
{
    double best_rate = 0;
    for (int i = 0; i < 5; i++) {
        struct stream stream = {ring, chunk, total, {{0}}, 0};
        pthread_t a, b;
        start(mode);
        pthread_barrier_init(&stream.up, NULL, 2);
        pthread_create(&a, NULL, writer, &stream);
        pthread_create(&b, NULL, reader, &stream);
        pthread_join(a, NULL);
        pthread_join(b, NULL);
        pthread_barrier_destroy(&stream.up);
        xg_stop();
        const double rate = (double)total / stream.seconds / 1e6;
        best_rate = rate > best_rate ? rate : best_rate;
    }
    printf("vchan %-6s ring %7zu, chunks of %5zu: %.0f MB/s\n", NAMES[mode], ring, chunk, best_rate);
}

static double connect_round(enum xg_mode mode, uint32_t ring)
{
    const int rounds = 200;
    (void)mode;
    const double began = now();
    for (int i = 0; i < rounds; i++) {
        xg_enter(OWNER);
        struct libxenvchan *server = libxenvchan_server_init(NULL, MAPPER, "/v", 4096, ring);
        xg_enter(MAPPER);
        struct libxenvchan *client = libxenvchan_client_init(NULL, OWNER, "/v");
        if (!server || !client) {
            abort();
        }
        libxenvchan_close(client);
        xg_enter(OWNER);
        libxenvchan_close(server);
    }
    return (now() - began) / rounds * 1e6;
}

int main(int argc, char **argv)
{
    setvbuf(stdout, NULL, _IOLBF, 0);
    xg_copies_by_map = getenv("XG_COPIES_BY_MAP") != NULL;
    const size_t total = argc > 1 ? strtoull(argv[1], NULL, 10) : 500000000;
    raw();
    wear();
    for (enum xg_mode mode = XG_REMAP; mode <= XG_NONE; mode++) {
        printf("%-6s: map+unmap of 1 page %.0f ns", NAMES[mode], best(map_round, mode, 1));
        printf(", of 16 %.0f ns a page, of 256 %.0f", best(map_round, mode, 16), best(map_round, mode, 256));
        printf("; grant+end %.0f ns", best(share_round, mode, 64));
        printf("; copy of 64 bytes %.0f ns", best(copy_round, mode, 64));
        printf(", 1500 %.0f, 4096 %.0f\n", best(copy_round, mode, 1500), best(copy_round, mode, 4096));
    }
    for (int count = 1; count <= 3; count++) {
        threads(count, true);
        threads(count, false);
    }
    for (enum xg_mode mode = XG_REMAP; mode <= XG_NONE; mode++) {
        printf("vchan %-6s open+connect+close, ring of 1 MiB: %.0f us\n", NAMES[mode],
               best(connect_round, mode, 1 << 20));
        vchan(mode, 65536, 4096, total);
        vchan(mode, 1 << 20, 65536, total);
        vchan(mode, 65536, 64, total / 10);
    }
    return 0;
}
