/*
 * blk [REQUESTS [SEED]]: a front end and a back end in two threads, over the library; then a hostile back end; and then
 * requests a second, with the library and with a stub that allows all.
 */
#define _POSIX_C_SOURCE 200809L
#include "back.h"
#include "front.h"
#include "hostile.h"

#include <stdio.h>
#include <stdlib.h>
#include <time.h>

enum { TURNS = 5, TESTED = 500 };

struct result {
    bool is_ok;
    double seconds;
    uint64_t segments, sectors, busy;
};

static struct host host;
static struct disk disk;
static struct front front;
static struct back back;

static double now(void)
{
    struct timespec t;
    clock_gettime(CLOCK_MONOTONIC, &t);
    return (double)t.tv_sec + (double)t.tv_nsec / 1e9;
}

static void prepare(struct link *link, uint64_t requests, uint64_t seed, enum way way)
{
    memset(link, 0, sizeof *link);
    memset(&disk, 0, sizeof disk);
    memset(&front, 0, sizeof front);
    memset(&back, 0, sizeof back);
    channel_init(&link->to_front);
    channel_init(&link->to_back);
    front.host = back.host = &host;
    front.link = back.link = link;
    front.seed = seed;
    front.wanted = requests;
    front.tests_pins = way == KEEPS;
    back.way = way;
    back.disk = &disk;
    front_init(&front);
}

/* One run of both ends over a monitor. */
static struct result drive(const struct monitor *monitor, uint64_t requests, uint64_t seed, enum way way)
{
    struct result result = {0};
    struct link link;
    pthread_t front_thread, back_thread;
    if (!host_start(&host, monitor)) {
        return result;
    }
    prepare(&link, requests, seed, way);
    double began = now();
    if (pthread_create(&back_thread, NULL, back_main, &back) || pthread_create(&front_thread, NULL, front_main, &front)) {
        perror("blk: pthread_create");
        exit(1);
    }
    pthread_join(front_thread, NULL);
    pthread_join(back_thread, NULL);
    result.seconds = now() - began;
    result.is_ok = guest_revoke(&host, FRONT, RING_REF) == GTHOST_OK && front.faults == 0 && back.failed == 0 &&
                   front.done == requests;
    result.segments = front.segments;
    result.sectors = front.sectors;
    result.busy = front.busy;
    host_finish(&host);
    return result;
}

static bool compare_speed(const char *what, uint64_t requests, uint64_t seed, enum way way)
{
    const struct monitor *monitors[] = {&proved, &allow_all};
    double least[] = {1e9, 1e9};
    struct result result = {0};
    for (int turn = 0; turn < TURNS; turn++) {
        for (int i = 0; i < 2; i++) {
            result = drive(monitors[i], requests, seed, way);
            if (!result.is_ok) {
                printf("FAILED over %s\n", monitors[i]->name);
                return false;
            }
            least[i] = result.seconds < least[i] ? result.seconds : least[i];
        }
    }
    printf("%s\n", what);
    for (int i = 0; i < 2; i++) {
        printf("  %-10s %10.0f requests a second, %6.0f MiB a second\n", monitors[i]->name, (double)requests / least[i],
               (double)result.sectors * SECTOR / (1 << 20) / least[i]);
    }
    printf("  protection: %.0f ns a request, %.0f ns a segment\n", (least[0] - least[1]) / (double)requests * 1e9,
           (least[0] - least[1]) / (double)result.segments * 1e9);
    return true;
}

int main(int argc, char **argv)
{
    uint64_t requests = argc > 1 ? strtoull(argv[1], NULL, 10) : 20000;
    uint64_t seed = argc > 2 ? strtoull(argv[2], NULL, 10) : 1;
    struct result tested = drive(&proved, TESTED, seed, KEEPS);
    if (requests == 0 || !tested.is_ok || tested.busy == 0) {
        printf("FAILED\n");
        return 1;
    }
    printf("%d requests of %llu sectors: all bytes as written, %llu revocations of pages in use refused by N19\n", TESTED,
           (unsigned long long)tested.sectors, (unsigned long long)tested.busy);
    if (hostile_run(&host) != 0 || !compare_speed("a back end that maps", requests, seed, MAPS) ||
        !compare_speed("a back end that copies", requests, seed, COPIES)) {
        printf("FAILED\n");
        return 1;
    }
    return 0;
}
