/* What protection costs is measured against this: it only remembers which frame a reference is of. */
#include "guest.h"
#include "monitor.h"

#include <string.h>

enum { REFERENCES = 512 };

static const struct gthost_answer OK;
static uint64_t frame_of[DOMAINS + 1][REFERENCES];

static struct gthost_fault start(const struct gthost_settings *settings, size_t count, uint32_t first_gen,
                                 uint32_t run, const uint8_t *policy, size_t policy_len, struct gthost_domain *out,
                                 size_t out_count)
{
    const struct gthost_fault none = {GTHOST_FAULT_NONE, 0, 0};
    (void)first_gen, (void)run, (void)policy, (void)policy_len;
    for (size_t i = 0; i < count && i < out_count; i++) {
        out[i].at = frame_of[settings[i].id];
        out[i].is_live = true;
    }
    return none;
}

static struct gthost_answer finish(struct gthost_domain *domain)
{
    memset(domain, 0, sizeof *domain);
    return OK;
}

static struct gthost_answer grant_page(struct gthost_domain *domain, uint32_t gref, uint32_t to, uint64_t frame,
                                       uint32_t ro)
{
    uint64_t *frames = domain->at;
    (void)to, (void)ro;
    frames[gref] = frame;
    return OK;
}

static struct gthost_answer revoke(struct gthost_domain *domain, uint32_t gref)
{
    (void)domain, (void)gref;
    return OK;
}

static struct gthost_answer map(struct gthost_domain *domain, uint32_t dom, uint32_t gref, uint32_t flags)
{
    struct gthost_answer answer = OK;
    (void)domain, (void)flags;
    answer.kind = GTHOST_HANDLE;
    answer.value = dom;
    answer.more = gref;
    return answer;
}

static struct gthost_answer unmap(struct gthost_domain *domain, struct gthost_handle name)
{
    (void)domain, (void)name;
    return OK;
}

static struct gthost_found_mapping mapping(struct gthost_domain *domain, struct gthost_handle name)
{
    const struct gthost_found_mapping found = {
        OK, {frame_of[name.serial][name.key], (uint32_t)name.key, (uint16_t)name.serial, true}};
    (void)domain;
    return found;
}

static struct gthost_place place(const struct gthost_end *end, bool is_reference)
{
    struct gthost_place place = {is_reference ? frame_of[end->dom][end->ptr] : end->ptr, end->dom, end->off};
    return place;
}

static struct gthost_begun_copy copy_begin(struct gthost_domain *domain, struct gthost_copy copy)
{
    const struct gthost_begun_copy begun = {OK,
                                            {place(&copy.source, copy.flags & GTHOST_COPY_SOURCE_GREF),
                                             place(&copy.dest, copy.flags & GTHOST_COPY_DEST_GREF), copy.len}};
    (void)domain;
    return begun;
}

static struct gthost_answer copy_end(struct gthost_domain *domain)
{
    (void)domain;
    return OK;
}

const struct monitor allow_all = {
    .name = "allow all",
    .start = start,
    .finish = finish,
    .grant_page = grant_page,
    .revoke = revoke,
    .map = map,
    .unmap = unmap,
    .mapping = mapping,
    .copy_begin = copy_begin,
    .copy_end = copy_end,
};
