/*
 * A net front and back on netif.h and ring.h of libxen-dev, in the shape of Linux's netfront and netback: of each
 * packet sent the first 128 bytes are copied and the rest is mapped; what is received is copied in batches of 64. The
 * back end sends each packet back. usage: net [remap|direct|none] [PACKETS] [SIZE, 0 for all sizes by turns]
 */
#define _GNU_SOURCE
#include "xg.h"

#include <errno.h>
#include <pthread.h>
#include <stdio.h>
#include <stdlib.h>
#include <string.h>
#include <sys/mman.h>
#include <time.h>
#include <xenctrl.h>
#include <xenevtchn.h>
#include <xengnttab.h>
#include <xen/io/netif.h>
#include <xen/io/ring.h>

enum { FRONT = 1, BACK = 2, PAGE = 4096, HEAD = 128, BATCH = 64, SLOTS = 256 };

static const char POLICY[] = "type front_t; type back_t;\n"
                             "allow back_t front_t:grant { map_read map_write unmap copy };\n"
                             "allow front_t back_t:grant copy;\n";

static int failures;
#define HOLDS(fact) \
    do { \
        if (!(fact)) { \
            if (failures++ < 20) { \
                printf("%s:%d: not %s (errno %d; %s)\n", __FILE__, __LINE__, #fact, errno, xg_last_words()); \
            } \
        } \
    } while (0)

static enum xg_mode mode;
static uint64_t packets;
static unsigned only;
static uint32_t tx_ref, rx_ref;
static int port_of_front;
static bool is_closed;
static pthread_barrier_t up;
static uint64_t tx_busy, tx_errors, looped;

static size_t size_of(uint64_t packet) { return only ? only : 16 + packet * 977 % (PAGE - 16); }

static void write_packet(uint8_t *at, uint64_t packet)
{
    memset(at, (int)(packet % 251), size_of(packet));
    memcpy(at, &packet, sizeof packet);
}

static bool is_packet(const uint8_t *at, uint64_t packet)
{
    const size_t size = size_of(packet);
    uint64_t number;
    memcpy(&number, at, sizeof number);
    return number == packet && at[8] == packet % 251 && memcmp(at + 8, at + 9, size - 9) == 0;
}

/* --- the back end --- */

struct back {
    xengnttab_handle *xgt;
    xenevtchn_handle *xce;
    int port;
    struct netif_tx_back_ring tx;
    struct netif_rx_back_ring rx;
    uint8_t packet[BATCH][PAGE];
    struct netif_tx_request request[BATCH];
    xengnttab_grant_copy_segment_t in[BATCH], out[BATCH];
    uint8_t *page[BATCH];
    uint16_t rx_id[BATCH];
};

static bool is_sane(const struct netif_tx_request *request)
{
    return request->size >= 14 && request->offset <= PAGE && request->size <= PAGE - request->offset;
}

/* As xenvif_tx_action: requests, copies of the heads, maps of the rest, then the packets, unmaps and responses. */
static unsigned transmit(struct back *back)
{
    unsigned count = 0, copies = 0;
    int again, of[BATCH];
    while (count < BATCH && RING_HAS_UNCONSUMED_REQUESTS(&back->tx)) {
        RING_COPY_REQUEST(&back->tx, back->tx.req_cons, &back->request[count]);
        back->tx.req_cons++;
        count++;
    }
    for (unsigned i = 0; i < count; i++) {
        const struct netif_tx_request *request = &back->request[i];
        of[i] = -1;
        back->page[i] = NULL;
        if (!is_sane(request)) {
            continue;
        }
        xengnttab_grant_copy_segment_t *seg = &back->in[copies];
        memset(seg, 0, sizeof *seg);
        seg->source.foreign.ref = request->gref;
        seg->source.foreign.domid = FRONT;
        seg->source.foreign.offset = request->offset;
        seg->dest.virt = back->packet[i];
        seg->len = request->size < HEAD ? request->size : HEAD;
        seg->flags = GNTCOPY_source_gref;
        of[i] = (int)copies++;
        if (request->size > HEAD) {
            back->page[i] = xengnttab_map_grant_ref(back->xgt, FRONT, request->gref, PROT_READ);
        }
    }
    xengnttab_grant_copy(back->xgt, copies, back->in);
    for (unsigned i = 0; i < count; i++) {
        struct netif_tx_request *request = &back->request[i];
        bool good = of[i] >= 0 && back->in[of[i]].status == GNTST_okay && (request->size <= HEAD || back->page[i]);
        if (good && request->size > HEAD) {
            memcpy(back->packet[i] + HEAD, back->page[i] + request->offset + HEAD, request->size - HEAD);
        }
        if (back->page[i]) {
            HOLDS(xengnttab_unmap(back->xgt, back->page[i], 1) == 0);
        }
        struct netif_tx_response *response = RING_GET_RESPONSE(&back->tx, back->tx.rsp_prod_pvt);
        response->id = request->id;
        response->status = good ? NETIF_RSP_OKAY : NETIF_RSP_ERROR;
        back->tx.rsp_prod_pvt++;
        tx_errors += !good;
        if (!good) {
            request->size = 0;
        }
    }
    RING_PUSH_RESPONSES_AND_CHECK_NOTIFY(&back->tx, again);
    if (again) {
        xenevtchn_notify(back->xce, (evtchn_port_t)back->port);
    }
    return count;
}

/* As xenvif_rx_action: one copy for each packet, all of them in one call. Packets without a buffer are dropped. */
static void receive(struct back *back, unsigned count)
{
    unsigned copies = 0;
    int again;
    for (unsigned i = 0; i < count; i++) {
        struct netif_rx_request request;
        if (back->request[i].size == 0 || !RING_HAS_UNCONSUMED_REQUESTS(&back->rx)) {
            continue;
        }
        RING_COPY_REQUEST(&back->rx, back->rx.req_cons, &request);
        back->rx.req_cons++;
        xengnttab_grant_copy_segment_t *seg = &back->out[copies];
        memset(seg, 0, sizeof *seg);
        seg->source.virt = back->packet[i];
        seg->dest.foreign.ref = request.gref;
        seg->dest.foreign.domid = FRONT;
        seg->len = back->request[i].size;
        seg->flags = GNTCOPY_dest_gref;
        back->rx_id[copies++] = request.id;
    }
    xengnttab_grant_copy(back->xgt, copies, back->out);
    for (unsigned i = 0; i < copies; i++) {
        struct netif_rx_response *response = RING_GET_RESPONSE(&back->rx, back->rx.rsp_prod_pvt);
        response->id = back->rx_id[i];
        response->offset = 0;
        response->flags = 0;
        response->status = back->out[i].status == GNTST_okay ? (int16_t)back->out[i].len : NETIF_RSP_ERROR;
        back->rx.rsp_prod_pvt++;
        looped++;
    }
    RING_PUSH_RESPONSES_AND_CHECK_NOTIFY(&back->rx, again);
    if (again) {
        xenevtchn_notify(back->xce, (evtchn_port_t)back->port);
    }
}

static void *back_main(void *arg)
{
    static struct back back;
    (void)arg;
    xg_enter(BACK);
    pthread_barrier_wait(&up);
    back.xgt = xengnttab_open(NULL, 0);
    back.xce = xenevtchn_open(NULL, 0);
    back.port = xenevtchn_bind_interdomain(back.xce, FRONT, (evtchn_port_t)port_of_front);
    xenevtchn_unmask(back.xce, (evtchn_port_t)back.port);
    struct netif_tx_sring *tx = xengnttab_map_grant_ref(back.xgt, FRONT, tx_ref, PROT_READ | PROT_WRITE);
    struct netif_rx_sring *rx = xengnttab_map_grant_ref(back.xgt, FRONT, rx_ref, PROT_READ | PROT_WRITE);
    HOLDS(tx && rx && back.port > 0);
    BACK_RING_INIT(&back.tx, tx, PAGE);
    BACK_RING_INIT(&back.rx, rx, PAGE);
    while (!__atomic_load_n(&is_closed, __ATOMIC_ACQUIRE)) {
        int more = 1;
        while (more) {
            receive(&back, transmit(&back));
            RING_FINAL_CHECK_FOR_REQUESTS(&back.tx, more);
        }
        const int port = xenevtchn_pending(back.xce);
        xenevtchn_unmask(back.xce, (evtchn_port_t)port);
    }
    HOLDS(xengnttab_unmap(back.xgt, tx, 1) == 0 && xengnttab_unmap(back.xgt, rx, 1) == 0);
    xenevtchn_close(back.xce);
    xengnttab_close(back.xgt);
    return NULL;
}

/* --- the front end --- */

struct front {
    xenevtchn_handle *xce;
    struct netif_tx_front_ring tx;
    struct netif_rx_front_ring rx;
    uint64_t tx_frame[SLOTS], rx_frame[SLOTS];
    uint32_t tx_gref[SLOTS], rx_gref[SLOTS];
    uint16_t tx_free[SLOTS];
    unsigned free;
    uint64_t sent, got;
};

static void notify(struct front *front, int is_due)
{
    if (is_due) {
        xenevtchn_notify(front->xce, (evtchn_port_t)port_of_front);
    }
}

static void post(struct front *front, uint16_t id)
{
    struct netif_rx_request *request = RING_GET_REQUEST(&front->rx, front->rx.req_prod_pvt);
    front->rx_gref[id] = xg_grant(front->rx_frame[id], BACK, false);
    HOLDS(front->rx_gref[id]);
    request->id = id;
    request->pad = 0;
    request->gref = front->rx_gref[id];
    front->rx.req_prod_pvt++;
}

static void send_some(struct front *front)
{
    int is_due = 0;
    while (front->free > 0 && front->sent < packets && front->sent - front->got < SLOTS / 2) {
        const uint16_t id = front->tx_free[--front->free];
        struct netif_tx_request *request = RING_GET_REQUEST(&front->tx, front->tx.req_prod_pvt);
        write_packet(xg_page(FRONT, front->tx_frame[id]), front->sent);
        front->tx_gref[id] = xg_grant(front->tx_frame[id], BACK, true);
        HOLDS(front->tx_gref[id]);
        request->gref = front->tx_gref[id];
        request->offset = 0;
        request->flags = 0;
        request->id = id;
        request->size = (uint16_t)size_of(front->sent++);
        front->tx.req_prod_pvt++;
    }
    RING_PUSH_REQUESTS_AND_CHECK_NOTIFY(&front->tx, is_due);
    notify(front, is_due);
}

static void sent_some(struct front *front)
{
    int more = 1;
    while (more) {
        while (RING_HAS_UNCONSUMED_RESPONSES(&front->tx)) {
            struct netif_tx_response response;
            RING_COPY_RESPONSE(&front->tx, front->tx.rsp_cons, &response);
            front->tx.rsp_cons++;
            HOLDS(response.status == NETIF_RSP_OKAY);
            if (!xg_end(front->tx_gref[response.id])) {
                tx_busy++;
            }
            front->tx_free[front->free++] = response.id;
        }
        RING_FINAL_CHECK_FOR_RESPONSES(&front->tx, more);
    }
}

static void got_some(struct front *front)
{
    int more = 1, is_due = 0;
    while (more) {
        while (RING_HAS_UNCONSUMED_RESPONSES(&front->rx)) {
            struct netif_rx_response response;
            RING_COPY_RESPONSE(&front->rx, front->rx.rsp_cons, &response);
            front->rx.rsp_cons++;
            HOLDS(xg_end(front->rx_gref[response.id])); /* before it reads: no one else writes any more */
            const uint8_t *page = xg_page(FRONT, front->rx_frame[response.id]);
            HOLDS(response.status == (int16_t)size_of(front->got) && is_packet(page, front->got));
            front->got++;
            post(front, response.id);
        }
        RING_FINAL_CHECK_FOR_RESPONSES(&front->rx, more);
    }
    RING_PUSH_REQUESTS_AND_CHECK_NOTIFY(&front->rx, is_due);
    notify(front, is_due);
}

static void *front_main(void *arg)
{
    static struct front front;
    int is_due;
    (void)arg;
    memset(&front, 0, sizeof front);
    xg_enter(FRONT);
    front.xce = xenevtchn_open(NULL, 0);
    port_of_front = xenevtchn_bind_unbound_port(front.xce, BACK);
    xenevtchn_unmask(front.xce, (evtchn_port_t)port_of_front);
    const uint64_t tx = xg_alloc(1), rx = xg_alloc(1);
    struct netif_tx_sring *tx_page = (void *)xg_page(FRONT, tx);
    struct netif_rx_sring *rx_page = (void *)xg_page(FRONT, rx);
    SHARED_RING_INIT(tx_page);
    SHARED_RING_INIT(rx_page);
    FRONT_RING_INIT(&front.tx, tx_page, PAGE);
    FRONT_RING_INIT(&front.rx, rx_page, PAGE);
    tx_ref = xg_grant(tx, BACK, false);
    rx_ref = xg_grant(rx, BACK, false);
    for (unsigned i = 0; i < SLOTS; i++) {
        front.tx_frame[i] = xg_alloc(1);
        front.rx_frame[i] = xg_alloc(1);
        front.tx_free[front.free++] = (uint16_t)i;
        post(&front, (uint16_t)i);
    }
    RING_PUSH_REQUESTS_AND_CHECK_NOTIFY(&front.rx, is_due);
    (void)is_due; /* no one is there yet */
    pthread_barrier_wait(&up);
    while (front.got < packets) {
        send_some(&front);
        sent_some(&front);
        got_some(&front);
        if (front.got < packets && !RING_HAS_UNCONSUMED_RESPONSES(&front.rx) &&
            (front.sent == packets || front.sent - front.got == SLOTS / 2 || front.free == 0)) {
            const int port = xenevtchn_pending(front.xce);
            xenevtchn_unmask(front.xce, (evtchn_port_t)port);
        }
    }
    __atomic_store_n(&is_closed, true, __ATOMIC_RELEASE);
    xenevtchn_notify(front.xce, (evtchn_port_t)port_of_front);
    return front.xce;
}

int main(int argc, char **argv)
{
    setvbuf(stdout, NULL, _IOLBF, 0);
    xg_copies_by_map = getenv("XG_COPIES_BY_MAP") != NULL;
    struct timespec began, ended;
    pthread_t front, back;
    void *xce;
    const char *how = argc > 1 ? argv[1] : "remap";
    mode = !strcmp(how, "direct") ? XG_DIRECT : !strcmp(how, "none") ? XG_NONE : XG_REMAP;
    packets = argc > 2 ? strtoull(argv[2], NULL, 10) : 100000;
    only = argc > 3 ? (unsigned)atoi(argv[3]) : 0;
    const struct xg_domain domains[] = {{FRONT, "front_t", 1024, 2, 1, 0}, {BACK, "back_t", 16, 1, 1, 0}};
    if (!xg_start(domains, 2, POLICY, mode)) {
        return 1;
    }
    pthread_barrier_init(&up, NULL, 2);
    clock_gettime(CLOCK_MONOTONIC, &began);
    pthread_create(&front, NULL, front_main, NULL);
    pthread_create(&back, NULL, back_main, NULL);
    pthread_join(front, &xce);
    pthread_join(back, NULL);
    clock_gettime(CLOCK_MONOTONIC, &ended);
    const double seconds = (double)(ended.tv_sec - began.tv_sec) + 1e-9 * (double)(ended.tv_nsec - began.tv_nsec);
    HOLDS(looped == packets && tx_errors == 0);
    HOLDS(xg_deferred(FRONT) == 0);
    xenevtchn_close(xce);
    printf("net %s size %u: %llu packets, %.0f packets/s, tx ends refused %llu; grants %llu, maps %llu, copies %llu\n",
           mode == XG_NONE ? "none" : mode == XG_DIRECT ? "direct" : "remap", only, (unsigned long long)packets,
           (double)packets / seconds, (unsigned long long)tx_busy, (unsigned long long)xg_counts(FRONT).grants,
           (unsigned long long)xg_counts(BACK).maps, (unsigned long long)xg_counts(BACK).copies);
    const uint64_t in_use = xg_stop();
    HOLDS(in_use == 0);
    pthread_barrier_destroy(&up);
    return failures ? 1 : 0;
}
