#include "vmm.h"

#include <stdio.h>
#include <string.h>

enum { TRIES = 4 };

static const char POLICY[] = "type back_t; type front_t;\n"
                             "allow back_t front_t:grant { map_read map_write unmap };\n";

bool vmm_start(struct vmm *vmm, struct guest *guest, uint32_t first_gen)
{
    const struct gthost_settings settings[DOMAINS] = {{FRONT, 1, FRAMES, TABLE_FRAMES, 1}, {BACK, 0, 1, 1, 1}};
    memset(vmm, 0, sizeof *vmm);
    vmm->guest = guest;
    for (uint32_t ref = 0; ref < REFERENCES; ref++) {
        vmm->number[ref] = vmm->guests[ref] = ref;
    }
    vmm->spare = REFERENCES;
    pthread_mutex_init(&vmm->lock, NULL);
    const struct gthost_fault fault =
        gthost_start(settings, DOMAINS, first_gen, 0, (const uint8_t *)POLICY, strlen(POLICY), vmm->domains, DOMAINS);
    if (fault.kind != GTHOST_FAULT_NONE) {
        fprintf(stderr, "xen_front: no run: fault %u, line %u\n", fault.kind, fault.line);
    }
    return fault.kind == GTHOST_FAULT_NONE;
}

uint64_t vmm_finish(struct vmm *vmm)
{
    gthost_finish(&vmm->domains[BACK - 1]);
    pthread_mutex_destroy(&vmm->lock);
    return gthost_finish(&vmm->domains[FRONT - 1]).more;
}

/* An entry of the guest in one piece: the guest may write it meanwhile. */
static uint64_t look(const struct vmm *vmm, uint32_t ref)
{
    return __atomic_load_n(&vmm->guest->table[ref].word, __ATOMIC_ACQUIRE);
}

/* Gives a guest's reference another one of the monitor, if its own is worn and no longer mapped. Requires the lock. */
static bool replace(struct vmm *vmm, uint32_t ref)
{
    const struct gthost_entry_status entry = gthost_entry(&vmm->domains[FRONT - 1], vmm->number[ref]).entry;
    if (vmm->spare == NUMBERS || entry.reads > 0 || entry.writes > 0) {
        return false;
    }
    gthost_withdraw(&vmm->domains[FRONT - 1], vmm->number[ref]); /* if it is still valid: before a demotion */
    vmm->guests[vmm->spare] = ref;
    vmm->number[ref] = vmm->spare++;
    return true;
}

/* Requires the lock. */
static struct gthost_answer follow(struct vmm *vmm, uint32_t ref, uint64_t word)
{
    struct gthost_entry_bytes bytes = {sizeof word, {0}};
    struct gthost_answer answer;
    memcpy(bytes.bytes, &word, sizeof word);
    do {
        answer = gthost_follow(&vmm->domains[FRONT - 1], vmm->number[ref], bytes);
    } while (answer.rule == GTHOST_N22 && replace(vmm, ref));
    if (answer.rule == GTHOST_OK) {
        vmm->followed[answer.value]++;
    } else {
        vmm->refused++;
    }
    return answer;
}

struct gthost_answer vmm_follow(struct vmm *vmm, uint32_t ref)
{
    pthread_mutex_lock(&vmm->lock);
    const struct gthost_answer answer = follow(vmm, ref, look(vmm, ref));
    pthread_mutex_unlock(&vmm->lock);
    return answer;
}

/* Marks the guest's entry as in use, if it still is what was followed. */
static bool mark(struct vmm *vmm, uint32_t ref, uint64_t word, bool writes)
{
    union entry marked = {.word = word};
    marked.v1.flags |= writes ? GTF_reading | GTF_writing : GTF_reading;
    return __atomic_compare_exchange_n(&vmm->guest->table[ref].word, &word, marked.word, false, __ATOMIC_ACQ_REL,
                                       __ATOMIC_ACQUIRE);
}

/* Clears the marks of the pins that are gone from a reference, whose control word is this one. Requires the lock. */
static void clear_marks(struct vmm *vmm, uint32_t number, uint64_t word)
{
    const uint32_t ref = vmm->guests[number];
    const bool writes = gthost_writes_in(word) > 0, reads = gthost_reads_in(word) > 0 || writes;
    const unsigned gone = (writes ? 0u : GTF_writing) | (reads ? 0u : GTF_reading);
    __atomic_fetch_and(&vmm->guest->table[ref].v1.flags, (uint16_t)~gone, __ATOMIC_RELEASE);
}

/* One try. GTHOST_N18 if the guest changed its entry meanwhile. Requires the lock. */
static uint32_t map_once(struct vmm *vmm, uint32_t ref, bool writes, struct gthost_handle *name)
{
    const uint64_t word = look(vmm, ref);
    const struct gthost_answer followed = follow(vmm, ref, word);
    if (followed.rule != GTHOST_OK) {
        return followed.rule;
    }
    const uint32_t flags = writes ? GTHOST_MAP_WRITABLE : GTHOST_MAP_READ_ONLY;
    const struct gthost_answer mapped = gthost_map(&vmm->domains[BACK - 1], FRONT, vmm->number[ref], flags);
    if (mapped.rule != GTHOST_OK) {
        return mapped.rule;
    }
    *name = gthost_handle_of(mapped);
    if (mark(vmm, ref, word, writes)) {
        return GTHOST_OK;
    }
    gthost_unmap(&vmm->domains[BACK - 1], *name); /* the back end has not had the page */
    vmm->missed++;
    return GTHOST_N18;
}

uint32_t vmm_map(struct vmm *vmm, uint32_t ref, bool writes, struct gthost_handle *name)
{
    uint32_t rule = GTHOST_N18;
    if (ref >= REFERENCES) {
        return GTHOST_N9;
    }
    pthread_mutex_lock(&vmm->lock);
    for (int i = 0; i < TRIES && rule == GTHOST_N18; i++) {
        rule = map_once(vmm, ref, writes, name);
    }
    pthread_mutex_unlock(&vmm->lock);
    return rule;
}

uint8_t *vmm_page(struct vmm *vmm, struct gthost_handle name)
{
    const struct gthost_found_mapping found = gthost_mapping(&vmm->domains[BACK - 1], name);
    return found.answer.rule == GTHOST_OK ? guest_page(vmm->guest, found.mapping.frame) : NULL;
}

bool vmm_unmap(struct vmm *vmm, struct gthost_handle name)
{
    pthread_mutex_lock(&vmm->lock);
    const struct gthost_answer answer = gthost_unmap(&vmm->domains[BACK - 1], name);
    if (answer.rule == GTHOST_OK) {
        clear_marks(vmm, answer.gref, answer.word); /* the word that this unmap left */
    }
    pthread_mutex_unlock(&vmm->lock);
    return answer.rule == GTHOST_OK;
}
