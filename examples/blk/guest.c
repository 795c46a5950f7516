#include "guest.h"

#include <stdio.h>
#include <string.h>

/* A copy asks for the owner of the source and that of the destination, so it is allowed both ways. */
static const char POLICY[] = "type driver_t; type guest_t; type other_t;\n"
                             "allow driver_t guest_t:grant { map_read map_write unmap copy };\n"
                             "allow guest_t driver_t:grant copy;\n";

bool host_start(struct host *host, const struct monitor *monitor)
{
    const struct gthost_settings settings[DOMAINS] = {
        {FRONT, 1, FRAMES, 1, 2},
        {BACK, 0, FRAMES, 1, 1},
        {OTHER, 2, FRAMES, 1, 1},
    };
    struct gthost_domain domains[DOMAINS];
    struct gthost_fault fault;
    memset(domains, 0, sizeof domains);
    host->monitor = monitor;
    fault = monitor->start(settings, DOMAINS, 0, 0, (const uint8_t *)POLICY, strlen(POLICY), domains, DOMAINS);
    if (fault.kind != GTHOST_FAULT_NONE) {
        fprintf(stderr, "blk: no run: fault %u, line %u\n", fault.kind, fault.line);
        return false;
    }
    for (size_t i = 0; i < DOMAINS; i++) {
        host->seats[settings[i].id].domain = domains[i]; /* the handle moves: the old one is used no more */
    }
    return true;
}

struct gthost_domain *domain_of(struct host *host, uint16_t dom)
{
    return &host->seats[dom].domain;
}

void host_finish(struct host *host)
{
    for (uint16_t dom = FRONT; dom <= DOMAINS; dom++) {
        host->monitor->finish(domain_of(host, dom));
    }
}

uint8_t *own_page(struct host *host, uint16_t dom, uint64_t frame)
{
    return host->memory[dom][frame];
}

uint8_t *guest_page(struct host *host, uint16_t dom, struct gthost_handle name, bool writes)
{
    const struct gthost_found_mapping found = host->monitor->mapping(domain_of(host, dom), name);
    if (found.answer.rule != GTHOST_OK || (writes && !found.mapping.writes)) {
        return NULL;
    }
    return host->memory[found.mapping.owner][found.mapping.frame];
}

bool guest_map(struct host *host, uint16_t dom, uint16_t owner, uint32_t gref, bool writes,
               struct gthost_handle *name)
{
    const struct gthost_answer answer =
        host->monitor->map(domain_of(host, dom), owner, gref, writes ? GTHOST_MAP_WRITABLE : GTHOST_MAP_READ_ONLY);
    *name = gthost_handle_of(answer);
    return answer.rule == GTHOST_OK;
}

bool guest_unmap(struct host *host, uint16_t dom, struct gthost_handle name)
{
    return host->monitor->unmap(domain_of(host, dom), name).rule == GTHOST_OK;
}

bool guest_copy(struct host *host, uint16_t dom, const struct gthost_copy *copy)
{
    const struct gthost_begun_copy begun = host->monitor->copy_begin(domain_of(host, dom), *copy);
    if (begun.answer.rule != GTHOST_OK) {
        return false;
    }
    memcpy(host->memory[begun.places.to.owner][begun.places.to.frame] + begun.places.to.off,
           host->memory[begun.places.from.owner][begun.places.from.frame] + begun.places.from.off, begun.places.len);
    return host->monitor->copy_end(domain_of(host, dom)).rule == GTHOST_OK;
}

bool guest_grant(struct host *host, uint16_t dom, uint32_t gref, uint64_t frame, bool read_only)
{
    return host->monitor->grant_page(domain_of(host, dom), gref, BACK, frame, read_only).rule == GTHOST_OK;
}

uint32_t guest_revoke(struct host *host, uint16_t dom, uint32_t gref)
{
    return host->monitor->revoke(domain_of(host, dom), gref).rule;
}
