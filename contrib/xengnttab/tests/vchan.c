/*
 * libxenvchan, unmodified (tools/libs/vchan of Xen 4.17): what is sent arrives, ends and crashes; and what the calls
 * promise.
 * usage: vchan [remap|direct] [BYTES, of which 500 times as many are streamed]
 */
#define _GNU_SOURCE
#include "xg.h"

#include <errno.h>
#include <libxenvchan.h>
#include <pthread.h>
#include <setjmp.h>
#include <signal.h>
#include <stdio.h>
#include <stdlib.h>
#include <string.h>
#include <sys/mman.h>
#include <time.h>
#include <xengnttab.h>

enum { SERVER = 1, CLIENT = 2, OTHER = 3, FRAMES = 2048 };

static const char POLICY[] = "type server_t; type client_t; type other_t;\n"
                             "allow client_t server_t:grant { map_read map_write unmap copy };\n"
                             "allow server_t client_t:grant copy;\n"
                             "allow other_t server_t:grant { map_read map_write };\n"; /* no unmap */

static int failures;
#define HOLDS(fact) \
    do { \
        if (!(fact)) { \
            printf("%s:%d: not %s (errno %d %s; %s)\n", __FILE__, __LINE__, #fact, errno, strerror(errno), \
                   xg_last_words()); \
            failures++; \
        } \
    } while (0)

static enum xg_mode mode;

static bool start(void)
{
    const struct xg_domain domains[] = {
        {SERVER, "server_t", FRAMES, 4, 1, 0}, {CLIENT, "client_t", 16, 1, 1, 0}, {OTHER, "other_t", 16, 1, 1, 0}};
    return xg_start(domains, 3, POLICY, mode);
}

struct job {
    size_t left, right, total;
    pthread_barrier_t up;
    uint64_t sum[2];
};

static uint64_t fill(uint8_t *bytes, size_t len, uint64_t *state)
{
    uint64_t sum = 0;
    for (size_t i = 0; i < len; i++) {
        *state = *state * 6364136223846793005u + 1442695040888963407u;
        bytes[i] = (uint8_t)(*state >> 56);
        sum = sum * 31 + bytes[i];
    }
    return sum;
}

static void *server_main(void *arg)
{
    struct job *job = arg;
    uint8_t bytes[5000];
    uint64_t state = 1;
    xg_enter(SERVER);
    struct libxenvchan *vchan = libxenvchan_server_init(NULL, CLIENT, "/local/domain/1/data/vchan", job->left,
                                                        job->right);
    HOLDS(vchan);
    pthread_barrier_wait(&job->up);
    if (!vchan) {
        return NULL;
    }
    vchan->blocking = 1;
    for (size_t done = 0; done < job->total;) { /* sends, and gets each back */
        size_t len = 1 + done % 997;
        len = len > job->total - done ? job->total - done : len;
        const uint64_t sum = fill(bytes, len, &state);
        HOLDS(libxenvchan_send(vchan, bytes, len) == (int)len);
        memset(bytes, 0, len);
        HOLDS(libxenvchan_recv(vchan, bytes, len) == (int)len);
        uint64_t back = 0;
        for (size_t i = 0; i < len; i++) {
            back = back * 31 + bytes[i];
        }
        HOLDS(back == sum);
        done += len;
    }
    libxenvchan_close(vchan);
    return NULL;
}

static void *client_main(void *arg)
{
    struct job *job = arg;
    uint8_t bytes[5000];
    xg_enter(CLIENT);
    pthread_barrier_wait(&job->up);
    struct libxenvchan *vchan = libxenvchan_client_init(NULL, SERVER, "/local/domain/1/data/vchan");
    HOLDS(vchan);
    if (!vchan) {
        return NULL;
    }
    vchan->blocking = 1;
    int len;
    while ((len = libxenvchan_read(vchan, bytes, sizeof bytes)) > 0) {
        HOLDS(libxenvchan_write(vchan, bytes, (size_t)len) == len);
    }
    HOLDS(!libxenvchan_is_open(vchan));
    libxenvchan_close(vchan);
    return NULL;
}

static void echo(size_t left, size_t right, size_t total)
{
    struct job job = {left, right, total, {{0}}, {0, 0}};
    pthread_t server, client;
    HOLDS(start());
    pthread_barrier_init(&job.up, NULL, 2);
    pthread_create(&server, NULL, server_main, &job);
    pthread_create(&client, NULL, client_main, &job);
    pthread_join(server, NULL);
    pthread_join(client, NULL);
    pthread_barrier_destroy(&job.up);
    const struct xg_counts counts = xg_counts(CLIENT);
    HOLDS(counts.maps == counts.unmaps);
    HOLDS(xg_deferred(SERVER) == 0);
    printf("echo %zu/%zu: %llu grants, %llu maps, %llu unmaps, %llu deferred, %llu refused\n", left, right,
           (unsigned long long)xg_counts(SERVER).grants, (unsigned long long)counts.maps,
           (unsigned long long)counts.unmaps, (unsigned long long)xg_counts(SERVER).deferred,
           (unsigned long long)counts.refused);
    HOLDS(xg_stop() == 0);
}

/* --- many bytes: first one way, then back --- */

enum { CHUNK = 16384 };

static void next_chunk(uint64_t words[CHUNK / 8], uint64_t *state)
{
    for (size_t i = 0; i < CHUNK / 8; i++) {
        *state = *state * 6364136223846793005u + 1442695040888963407u;
        words[i] = *state;
    }
}

static void send_chunks(struct libxenvchan *vchan, size_t chunks)
{
    uint64_t words[CHUNK / 8], state = chunks;
    for (size_t i = 0; i < chunks; i++) {
        next_chunk(words, &state);
        HOLDS(libxenvchan_send(vchan, words, CHUNK) == CHUNK);
    }
}

static void receive_chunks(struct libxenvchan *vchan, size_t chunks)
{
    uint64_t words[CHUNK / 8], got[CHUNK / 8], state = chunks;
    for (size_t i = 0; i < chunks; i++) {
        next_chunk(words, &state);
        HOLDS(libxenvchan_recv(vchan, got, CHUNK) == CHUNK && !memcmp(words, got, CHUNK));
    }
}

static void *streaming_server(void *arg)
{
    struct job *job = arg;
    xg_enter(SERVER);
    struct libxenvchan *vchan = libxenvchan_server_init(NULL, CLIENT, "/local/domain/1/data/vchan", job->left,
                                                        job->right);
    HOLDS(vchan);
    pthread_barrier_wait(&job->up);
    if (vchan) {
        vchan->blocking = 1;
        send_chunks(vchan, job->total / CHUNK);
        receive_chunks(vchan, job->total / CHUNK);
        libxenvchan_close(vchan);
    }
    return NULL;
}

static void *streaming_client(void *arg)
{
    struct job *job = arg;
    xg_enter(CLIENT);
    pthread_barrier_wait(&job->up);
    struct libxenvchan *vchan = libxenvchan_client_init(NULL, SERVER, "/local/domain/1/data/vchan");
    HOLDS(vchan);
    if (vchan) {
        vchan->blocking = 1;
        receive_chunks(vchan, job->total / CHUNK);
        send_chunks(vchan, job->total / CHUNK);
        libxenvchan_close(vchan);
    }
    return NULL;
}

static void stream(size_t total)
{
    struct job job = {1 << 20, 1 << 20, total, {{0}}, {0, 0}};
    pthread_t server, client;
    HOLDS(start());
    pthread_barrier_init(&job.up, NULL, 2);
    pthread_create(&server, NULL, streaming_server, &job);
    pthread_create(&client, NULL, streaming_client, &job);
    pthread_join(server, NULL);
    pthread_join(client, NULL);
    pthread_barrier_destroy(&job.up);
    HOLDS(xg_deferred(SERVER) == 0);
    HOLDS(xg_stop() == 0);
    printf("stream: %zu bytes each way\n", total);
}

/* --- what the API promises, and what the monitor refuses --- */

static sigjmp_buf fault_at;
static void on_fault(int signal) { siglongjmp(fault_at, signal); }

static bool faults(volatile uint8_t *at, bool writes)
{
    struct sigaction old[2], now;
    memset(&now, 0, sizeof now);
    now.sa_handler = on_fault;
    sigaction(SIGSEGV, &now, &old[0]);
    sigaction(SIGBUS, &now, &old[1]);
    bool is_fault = true;
    if (!sigsetjmp(fault_at, 1)) {
        if (writes) {
            *at = 1;
        } else {
            (void)*at;
        }
        is_fault = false;
    }
    sigaction(SIGSEGV, &old[0], NULL);
    sigaction(SIGBUS, &old[1], NULL);
    return is_fault;
}

static void api(void)
{
    uint32_t refs[16];
    HOLDS(start());
    xg_enter(SERVER);
    xengntshr_handle *xgs = xengntshr_open(NULL, 0);
    uint8_t *shared = xengntshr_share_pages(xgs, CLIENT, 16, refs, 1);
    HOLDS(shared);
    xg_enter(CLIENT);
    xengnttab_handle *xgt = xengnttab_open(NULL, 0);
    uint8_t *seen = xengnttab_map_domain_grant_refs(xgt, 16, SERVER, refs, PROT_READ | PROT_WRITE);
    HOLDS(seen);
    for (int i = 0; i < 16; i++) {
        shared[i * 4096] = (uint8_t)(i + 1);
        HOLDS(seen[i * 4096] == i + 1);
    }
    HOLDS(xengnttab_unmap(xgt, seen, 15) == -1 && errno == EINVAL);
    HOLDS(xengnttab_unmap(xgt, seen + 1, 16) == -1 && errno == ENOENT);
    HOLDS(xengnttab_unmap(xgt, seen, 16) == 0);
    if (mode == XG_REMAP) {
        HOLDS(faults(seen, false)); /* gone */
    }
    /* all or nothing: the last reference is none */
    const uint32_t saved = refs[15];
    refs[15] = 400;
    HOLDS(!xengnttab_map_domain_grant_refs(xgt, 16, SERVER, refs, PROT_READ) && errno == EINVAL);
    HOLDS(xg_last_rule() == GTHOST_N10);
    refs[15] = 5000;
    HOLDS(!xengnttab_map_domain_grant_refs(xgt, 16, SERVER, refs, PROT_READ) && xg_last_rule() == GTHOST_N9);
    refs[15] = saved;
    /* reading only */
    seen = xengnttab_map_grant_ref(xgt, SERVER, refs[0], PROT_READ);
    HOLDS(seen && (mode == XG_DIRECT || faults(seen, true)));
    HOLDS(xengnttab_unmap(xgt, seen, 1) == 0);
    HOLDS(!xengnttab_map_grant_ref(xgt, 77, refs[0], PROT_READ) && errno == ESRCH && xg_last_rule() == GTHOST_N1);
    HOLDS(!xengnttab_map_grant_ref(xgt, 0x7FF0, refs[0], PROT_READ)); /* SELF */
    HOLDS(!xengnttab_map_grant_ref(xgt, 0x10001, refs[0], PROT_READ) && errno == ESRCH);
    /* another domain: N11 by the entry, and the policy */
    xg_enter(OTHER);
    xengnttab_handle *third = xengnttab_open(NULL, 0);
    HOLDS(!xengnttab_map_grant_ref(third, SERVER, refs[0], PROT_READ) && xg_last_rule() == GTHOST_N11);
    /* notify on unmap: the byte is cleared while it may still be written */
    xg_enter(CLIENT);
    shared[100] = 7;
    seen = xengnttab_map_grant_ref_notify(xgt, SERVER, refs[0], PROT_READ | PROT_WRITE, 100, -1);
    HOLDS(seen && shared[100] == 7 && xengnttab_unmap(xgt, seen, 1) == 0 && shared[100] == 0);
    HOLDS(!xengnttab_map_grant_ref_notify(xgt, SERVER, refs[0], PROT_READ, 100, -1));
    /* copies */
    char plain[4096] = "from plain memory", back[4096];
    xengnttab_grant_copy_segment_t segs[3];
    memset(segs, 0, sizeof segs);
    segs[0].source.virt = plain;
    segs[0].dest.foreign.ref = refs[1];
    segs[0].dest.foreign.domid = SERVER;
    segs[0].dest.foreign.offset = 10;
    segs[0].len = 100;
    segs[0].flags = GNTCOPY_dest_gref;
    segs[1] = segs[0];
    segs[1].dest.foreign.offset = 4000; /* past the end */
    segs[2].source.foreign.ref = refs[1];
    segs[2].source.foreign.domid = SERVER;
    segs[2].source.foreign.offset = 10;
    segs[2].dest.virt = back;
    segs[2].len = 100;
    segs[2].flags = GNTCOPY_source_gref;
    HOLDS(xengnttab_grant_copy(xgt, 3, segs) == 0);
    HOLDS(segs[0].status == GNTST_okay && segs[1].status != GNTST_okay && segs[2].status == GNTST_okay);
    HOLDS(!memcmp(plain, back, 100) && !memcmp(plain, shared + 4096 + 10, 100));
    printf("copy past the end: status %d, %s\n", segs[1].status, xg_last_words());
    /* unshare while in use: the page is not given again before the last unmap */
    seen = xengnttab_map_grant_ref(xgt, SERVER, refs[3], PROT_READ | PROT_WRITE);
    xg_enter(SERVER);
    HOLDS(xengntshr_unshare(xgs, shared, 16) == 0);
    HOLDS(xg_deferred(SERVER) == 1);
    uint32_t more[2];
    uint8_t *again = xengntshr_share_pages(xgs, CLIENT, 1, more, 1);
    HOLDS(again && again != shared + 3 * 4096);
    xg_enter(CLIENT);
    HOLDS(!xengnttab_map_grant_ref(xgt, SERVER, refs[3], PROT_READ) && xg_last_rule() == GTHOST_N10);
    seen[0] = 9; /* its old mapping still is right */
    HOLDS(xengnttab_unmap(xgt, seen, 1) == 0);
    HOLDS(xg_deferred(SERVER) == 0);
    /* an unmap that the policy denies: the pin stays, the API says -1 */
    xg_enter(SERVER);
    uint32_t two[2];
    uint8_t *theirs = xengntshr_share_pages(xgs, OTHER, 2, two, 0);
    HOLDS(theirs);
    xg_enter(OTHER);
    seen = xengnttab_map_grant_ref(third, SERVER, two[0], PROT_READ);
    HOLDS(seen && xengnttab_unmap(third, seen, 1) == -1 && errno == EPERM);
    /* a batch whose second map fails can't be undone */
    two[0] ^= two[1]; two[1] ^= two[0]; two[0] ^= two[1];
    const uint32_t bad[2] = {two[0], 400};
    HOLDS(!xengnttab_map_domain_grant_refs(third, 2, SERVER, (uint32_t *)bad, PROT_READ));
    xg_enter(SERVER);
    xengntshr_unshare(xgs, theirs, 2);
    printf("entries kept by an unmap that the policy denies: %zu (2 expected)\n", xg_deferred(SERVER));
    HOLDS(xg_deferred(SERVER) == 2);
    HOLDS(xg_crash(OTHER) == 0 && xg_deferred(SERVER) == 0); /* the end of the domain releases them */
    HOLDS(xg_stop() == 0);
}

/* --- a client that crashes: while it maps, and in the middle of a copy --- */

static void *dying_main(void *arg)
{
    struct job *job = arg;
    xg_enter(CLIENT);
    pthread_barrier_wait(&job->up);
    struct libxenvchan *vchan = libxenvchan_client_init(NULL, SERVER, "/local/domain/1/data/vchan");
    HOLDS(vchan);
    pthread_barrier_wait(&job->up);
    return vchan; /* its thread ends; nothing was closed */
}

static void crash(void)
{
    struct job job = {65536, 65536, 0, {{0}}, {0, 0}};
    pthread_t client;
    void *left;
    uint8_t byte;
    HOLDS(start());
    xg_enter(SERVER);
    struct libxenvchan *vchan = libxenvchan_server_init(NULL, CLIENT, "/local/domain/1/data/vchan", 65536, 65536);
    HOLDS(vchan);
    pthread_barrier_init(&job.up, NULL, 2);
    pthread_create(&client, NULL, dying_main, &job);
    pthread_barrier_wait(&job.up);
    pthread_barrier_wait(&job.up);
    pthread_join(client, &left);
    HOLDS(libxenvchan_is_open(vchan) == 1);
    vchan->blocking = 1;
    const uint64_t in_use = xg_crash(CLIENT);
    HOLDS(in_use == 0);
    HOLDS(libxenvchan_is_open(vchan) == 0);                 /* by the byte */
    HOLDS(libxenvchan_read(vchan, &byte, 1) == -1);         /* by the event: it doesn't wait for ever */
    struct libxenvchan *dead = left;
    HOLDS(mode == XG_DIRECT || faults((uint8_t *)dead->write.buffer, false)); /* its views are gone */
    libxenvchan_close(vchan);
    HOLDS(xg_deferred(SERVER) == 0); /* all 33 pages are free at once */
    printf("crash of a client: %llu entries in use after it\n", (unsigned long long)in_use);
    free(dead);
    HOLDS(xg_stop() == 0);
    pthread_barrier_destroy(&job.up);
}

static void crash_of_the_server(void)
{
    HOLDS(start());
    xg_enter(SERVER);
    struct libxenvchan *server = libxenvchan_server_init(NULL, CLIENT, "/local/domain/1/data/vchan", 65536, 65536);
    xg_enter(CLIENT);
    struct libxenvchan *client = libxenvchan_client_init(NULL, SERVER, "/local/domain/1/data/vchan");
    HOLDS(server && client);
    const uint64_t in_use = xg_crash(SERVER);
    printf("crash of a server: %llu entries in use after it\n", (unsigned long long)in_use);
    HOLDS(in_use == 33 && libxenvchan_is_open(client) == 0 && xg_deferred(SERVER) == 33);
    libxenvchan_close(client);
    HOLDS(xg_deferred(SERVER) == 0);
    free(server->xs_path);
    free(server);
    HOLDS(xg_stop() == 0);
}

int main(int argc, char **argv)
{
    setvbuf(stdout, NULL, _IOLBF, 0);
    mode = argc > 1 && !strcmp(argv[1], "direct") ? XG_DIRECT : XG_REMAP;
    const size_t total = argc > 2 ? strtoull(argv[2], NULL, 10) : 2000000;
    echo(1024, 2048, total);
    echo(2048, 1024, total);
    echo(2048, 8192, total);
    echo(4096, 4096, total);
    echo(65536, 1 << 20, total);
    stream(500 * total); /* 1 GB */
    api();
    crash();
    crash_of_the_server();
    printf("%s: %d failures\n", mode == XG_DIRECT ? "direct" : "remap", failures);
    return failures ? 1 : 0;
}
