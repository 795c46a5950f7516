// The loads over the words of `gt_words`, written by hand: a header word and three words an entry for each domain, and
// the same atomic steps, each sequentially consistent.
#include <stdatomic.h>

#include "words_loads.h"

// From one entry to the next, which is a cache line. Another stride can be tried: -DSTRIDE=3.
#ifndef STRIDE
#define STRIDE 8
#endif

enum { WORDS_A_DOMAIN = STRIDE * (1 + ENTRIES), PAGE = 1 };

#define READ_PIN 16ull
#define PINS ((1ull << 28) - READ_PIN) // the two counts
#define DOMAIN (1ull << 28)
#define GENERATION (1ull << 44)

static _Atomic uint64_t *words;

static _Atomic uint64_t *header_of(uint32_t position) { return &words[position * WORDS_A_DOMAIN]; }

// Control word, and the two body words behind it.
static _Atomic uint64_t *entry_of(uint32_t position, uint32_t reference) {
    return &words[position * WORDS_A_DOMAIN + STRIDE * (1 + reference)];
}

static bool make_entries(void) {
    words = calloc(DOMAINS * WORDS_A_DOMAIN, sizeof *words);
    if (words == NULL) return false;
    for (uint32_t position = 0; position < DOMAINS; position++) atomic_store(header_of(position), 1 + 4 * TABLE_FRAMES);
    return true;
}

static uint64_t word_of(const struct row *row) {
    uint64_t generation = GENERATION * row->generation;
    return row->valid ? generation + DOMAIN * row->domain + PAGE : generation;
}

static bool publish(const struct seat *owner, uint32_t reference, struct row *row, uint32_t domain, uint64_t frame) {
    if (row->valid || row->generation >= LAST_GENERATION) return false;
    _Atomic uint64_t *entry = entry_of(owner->position, reference);
    struct row next = {domain, frame, row->generation + 1, true};
    uint64_t expected = word_of(row);
    atomic_store(&entry[1], frame); // the second body word is a sub-page's alone
    if (!atomic_compare_exchange_strong(&entry[0], &expected, word_of(&next))) return false;
    *row = next;
    return true;
}

static bool revoke(const struct seat *owner, uint32_t reference, struct row *row) {
    if (!row->valid) return false;
    uint64_t expected = word_of(row);
    uint64_t invalid = GENERATION * row->generation;
    if (!atomic_compare_exchange_strong(entry_of(owner->position, reference), &expected, invalid)) return false;
    row->valid = false;
    return true;
}

static bool withdraw(const struct seat *owner, uint32_t reference, struct row *row) {
    if (!row->valid) return false;
    _Atomic uint64_t *entry = entry_of(owner->position, reference);
    uint64_t word = atomic_load(&entry[0]);
    uint64_t invalid = GENERATION * row->generation + (word & PINS);
    if (!atomic_compare_exchange_strong(&entry[0], &word, invalid)) return false;
    row->valid = false;
    return true;
}

static bool map(struct seat *seat, const struct target *target) {
    uint32_t granter = position_of(seat, target->granter);
    uint64_t header = atomic_load(header_of(granter));
    uint32_t frames = header / 4 % 256;
    if (target->reference >= frames * (header % 4 == 2 ? 256 : 512)) return false;
    _Atomic uint64_t *entry = entry_of(granter, target->reference);
    uint64_t word = atomic_load(&entry[0]);
    if (word % 4 != PAGE || word / 8 % 2 != 0) return false; // bit 3 tells a sub-page
    (void)atomic_load(&entry[1]);
    if (word / READ_PIN % 4096 >= MOST_PINS || word / DOMAIN % 65536 != target->named) return false;
    return atomic_compare_exchange_strong(&entry[0], &word, word + READ_PIN);
}

static void unmap(struct seat *seat, const struct target *target) {
    atomic_fetch_sub(entry_of(position_of(seat, target->granter), target->reference), READ_PIN);
}
