/* Two domains of a run share a page; each answer is compared with the one that the rules give. */
#include "gthost.h"

#include <stdio.h>
#include <string.h>

#define COUNT(a) (sizeof(a) / sizeof((a)[0]))

static const char POLICY[] = "type a_t; type b_t;\n"
                             "allow a_t b_t:grant { query copy };\n"
                             "allow a_t a_t:grant { setup query };\n"
                             "allow b_t a_t:grant { map_read map_write unmap copy };\n";

static int failures;

static void wants(int line, const struct gthost_answer *answer, uint32_t rule, int32_t status, uint32_t kind)
{
    if (answer->rule != rule || answer->status != status || answer->kind != kind) {
        printf("line %d: rule %u status %d kind %u, wanted %u %d %u\n", line, answer->rule, answer->status,
               answer->kind, rule, status, kind);
        failures++;
    }
}

#define WANT(rule, status, kind) wants(__LINE__, &answer, rule, status, kind)
#define HOLDS(fact)                                     \
    do {                                                \
        if (!(fact)) {                                  \
            printf("line %d: not %s\n", __LINE__, #fact); \
            failures++;                                 \
        }                                               \
    } while (0)

static bool starts(const struct gthost_settings *settings, size_t count, const char *policy,
                   struct gthost_domain *out, size_t out_count, struct gthost_fault *fault)
{
    *fault = gthost_start(settings, count, 0, 7, (const uint8_t *)policy, policy ? strlen(policy) : 0, out, out_count);
    if (fault->kind != GTHOST_FAULT_NONE) {
        return false;
    }
    for (size_t i = 0; i < count; i++) {
        gthost_keep_at_most(&out[i], SIZE_MAX);
    }
    return true;
}

static void faults(void)
{
    struct gthost_settings two[] = {{1, 0, 8, 1, 1}, {2, 1, 8, 1, 1}};
    struct gthost_settings same[] = {{1, 0, 8, 1, 1}, {1, 1, 8, 1, 1}};
    struct gthost_domain out[2] = {{0}};
    struct gthost_fault fault;
    HOLDS(!starts(two, 2, "type a_t;\nallow a_t c_t:grant copy;", out, 2, &fault));
    HOLDS(fault.kind == GTHOST_FAULT_UNKNOWN && fault.line == 2);
    HOLDS(!starts(same, 2, POLICY, out, 2, &fault));
    HOLDS(fault.kind == GTHOST_FAULT_REPEATED && fault.dom == 1);
    HOLDS(!starts(two, 2, POLICY, out, 1, &fault));
    HOLDS(fault.kind == GTHOST_FAULT_HANDLES);
    HOLDS(!starts(two, 0, POLICY, out, 0, &fault));
    HOLDS(fault.kind == GTHOST_FAULT_NO_DOMAINS);
    HOLDS(!starts(two, 2, "\xff", out, 2, &fault));
    HOLDS(fault.kind == GTHOST_FAULT_TEXT);
    HOLDS(!starts(NULL, 2, POLICY, out, 2, &fault) && fault.kind == GTHOST_FAULT_NULL_POINTER);
    HOLDS(!starts(two, 2, NULL, out, 2, &fault) && fault.kind == GTHOST_FAULT_NULL_POINTER);
    HOLDS(!starts(two, 2, POLICY, NULL, 2, &fault) && fault.kind == GTHOST_FAULT_NULL_POINTER);
    HOLDS(!out[0].is_live && !out[1].is_live);
}

static void shares(void)
{
    struct gthost_settings two[] = {{1, 0, 8, 1, 1}, {2, 1, 8, 1, 1}};
    struct gthost_domain domain[2] = {{0}};
    struct gthost_fault fault;
    struct gthost_answer answer;
    struct gthost_handle name;
    struct gthost_mapping mapping;
    struct gthost_entry_bytes entry = {8, {1, 0, 2, 0, 5}};
    HOLDS(starts(two, COUNT(two), POLICY, domain, COUNT(domain), &fault));
    HOLDS(fault.kind == GTHOST_FAULT_NONE);
    HOLDS(!starts(two, COUNT(two), POLICY, domain, COUNT(domain), &fault) && fault.kind == GTHOST_FAULT_HANDLES);
    answer = gthost_map(&domain[1], 1, 7, GTHOST_MAP_WRITABLE);
    WANT(10, -1, GTHOST_ENTRY);
    HOLDS(answer.dom == 1 && answer.gref == 7);
    answer = gthost_grant_page(&domain[0], 7, 2, 5, 0);
    WANT(GTHOST_OK, 0, GTHOST_NOTHING);
    answer = gthost_grant_page(&domain[0], 7, 2, 5, 0);
    WANT(20, -1, GTHOST_NOTHING);
    answer = gthost_map(&domain[1], 9, 7, GTHOST_MAP_WRITABLE);
    WANT(1, -2, GTHOST_NOTHING);
    answer = gthost_map(&domain[1], 1, 7, 3);
    WANT(2, -1, GTHOST_NOTHING);
    answer = gthost_map(&domain[0], 2, 7, GTHOST_MAP_WRITABLE);
    WANT(5, -8, GTHOST_POLICY);
    answer = gthost_map(&domain[1], 1, 7, GTHOST_MAP_WRITABLE);
    WANT(GTHOST_OK, 0, GTHOST_HANDLE);
    name = gthost_handle_of(answer);
    mapping = gthost_mapped_of(answer);
    HOLDS(mapping.owner == 1 && mapping.gref == 7 && mapping.frame == 5 && mapping.writes == 1);
    answer = gthost_map(&domain[1], 1, 7, GTHOST_MAP_READ_ONLY);
    WANT(GTHOST_OK, 0, GTHOST_HANDLE);
    HOLDS(gthost_mapped_of(answer).writes == 0);
    answer = gthost_unmap(&domain[1], gthost_handle_of(answer));
    WANT(GTHOST_OK, 0, GTHOST_RELEASED);
    HOLDS(gthost_is_valid(answer.word) && gthost_writes_in(answer.word) == 1 && gthost_reads_in(answer.word) == 0);
    answer = gthost_revoke(&domain[0], 7);
    WANT(19, -1, GTHOST_ENTRY);
    answer = gthost_unmap(&domain[1], name);
    WANT(GTHOST_OK, 0, GTHOST_RELEASED);
    HOLDS(answer.dom == 1 && answer.gref == 7 && gthost_is_valid(answer.word));
    HOLDS(gthost_writes_in(answer.word) == 0 && gthost_reads_in(answer.word) == 0);
    answer = gthost_unmap(&domain[1], name);
    WANT(6, -4, GTHOST_NOTHING);
    answer = gthost_revoke(&domain[0], 7);
    WANT(GTHOST_OK, 0, GTHOST_NOTHING);
    entry.len = 5;
    answer = gthost_grant_bytes(&domain[0], 8, entry);
    WANT(25, -1, GTHOST_FIELD);
    entry.len = 17;
    answer = gthost_grant_bytes(&domain[0], 8, entry);
    WANT(25, -1, GTHOST_FIELD);
    entry.len = 8;
    answer = gthost_grant_bytes(&domain[0], 8, entry);
    WANT(GTHOST_OK, 0, GTHOST_NOTHING);
    answer = gthost_demote(&domain[0], 8);
    WANT(GTHOST_OK, 0, GTHOST_NOTHING);
    answer = gthost_map(&domain[1], 1, 8, GTHOST_MAP_WRITABLE);
    WANT(13, -1, GTHOST_ENTRY);
    answer = gthost_query_size(&domain[0], 2);
    WANT(GTHOST_OK, 0, GTHOST_SIZE);
    HOLDS(answer.value == 1 && answer.more == 16);
    answer = gthost_get_version(&domain[0], 2);
    WANT(GTHOST_OK, 0, GTHOST_TABLE_VERSION);
    HOLDS(answer.value == 1);
    answer = gthost_setup_table(&domain[0], 3);
    WANT(GTHOST_OK, 0, GTHOST_FRAMES);
    HOLDS(answer.value == 3);
    answer = gthost_set_version(&domain[0], 2);
    WANT(24, -1, answer.kind);
    answer = gthost_withdraw(&domain[0], 8);
    WANT(GTHOST_OK, 0, GTHOST_NOTHING);
    answer = gthost_finish(&domain[0]);
    WANT(GTHOST_OK, 0, GTHOST_LEFT);
    HOLDS(answer.value == 0 && answer.more == 0 && !domain[0].is_live);
    answer = gthost_revoke(&domain[0], 8);
    WANT(GTHOST_NO_DOMAIN, 0, GTHOST_NOTHING);
    answer = gthost_finish(&domain[0]);
    WANT(GTHOST_NO_DOMAIN, 0, GTHOST_NOTHING);
    answer = gthost_map(&domain[1], 1, 8, GTHOST_MAP_READ_ONLY);
    WANT(10, -1, GTHOST_ENTRY);
    HOLDS(gthost_finish(&domain[1]).rule == GTHOST_OK);
}

static void texts(void)
{
    struct gthost_text text = gthost_fault_text(GTHOST_FAULT_SYNTAX);
    HOLDS(text.len == 6 && strcmp((const char *)text.bytes, "syntax") == 0);
    for (uint32_t kind = 0; kind <= GTHOST_FAULT_NO_TYPE; kind++) {
        text = gthost_fault_text(kind);
        HOLDS(text.len > 3 && text.len == strlen((const char *)text.bytes));
    }
    text = gthost_fault_text(99);
    HOLDS(strcmp((const char *)text.bytes, "no such fault") == 0);
    for (uint32_t rule = GTHOST_N1; rule <= GTHOST_N26; rule++) {
        struct gthost_rule_line line = gthost_rule_text(rule);
        char name[8];
        snprintf(name, sizeof name, "N%u ", rule);
        HOLDS(strncmp((const char *)line.bytes, name, strlen(name)) == 0);
        HOLDS(line.len > 40 && line.len == strlen((const char *)line.bytes));
    }
    HOLDS(strcmp((const char *)gthost_rule_text(GTHOST_BUSY).bytes, "the domain is in a copy") == 0);
    HOLDS(strcmp((const char *)gthost_rule_text(27).bytes, "no such rule") == 0);
    HOLDS(gthost_version() == GTHOST_VERSION);
}

static struct gthost_type type_of(const char *policy, const char *name)
{
    return gthost_type_of((const uint8_t *)policy, strlen(policy), (const uint8_t *)name, strlen(name));
}

static void types(void)
{
    struct gthost_settings two[] = {{1, 0, 8, 1, 1}, {2, 2, 8, 1, 1}};
    struct gthost_domain domain[2] = {{0}};
    struct gthost_fault fault;
    struct gthost_type type = type_of(POLICY, "b_t");
    HOLDS(type.fault.kind == GTHOST_FAULT_NONE && type.label == 1);
    type = type_of(POLICY, "c_t");
    HOLDS(type.fault.kind == GTHOST_FAULT_NO_TYPE && type.label == 0);
    type = type_of("type a_t;\ntype ;", "a_t");
    HOLDS(type.fault.kind == GTHOST_FAULT_SYNTAX && type.fault.line == 2);
    type = type_of("type a_t;\ntype", "a_t"); /* the fault is at the end of the text: one line more than it has */
    HOLDS(type.fault.kind == GTHOST_FAULT_SYNTAX && type.fault.line == 3);
    HOLDS(!starts(two, 2, POLICY, domain, 2, &fault));
    HOLDS(fault.kind == GTHOST_FAULT_LABEL && fault.dom == 2 && !domain[0].is_live);
}

static struct gthost_name name_of(const char *policy, uint32_t label, char *name, size_t size)
{
    return gthost_type_name((const uint8_t *)policy, strlen(policy), label, (uint8_t *)name, size);
}

/* The names of types: a buffer gets as much of a name as it holds, and is as it was after a fault. */
static void names(void)
{
    static const char *const wide[] = {"a_t", "b_t"};
    char name[] = "------";
    struct gthost_name found;
    for (uint32_t label = 0; label < 2; label++) {
        found = name_of(POLICY, label, name, 5);
        HOLDS(found.fault.kind == GTHOST_FAULT_NONE && found.len == 3);
        HOLDS(strncmp(name, wide[label], 3) == 0 && strcmp(name + 3, "---") == 0);
    }
    found = name_of("type long_name_t;", 0, name, 4);
    HOLDS(found.fault.kind == GTHOST_FAULT_NONE && found.len == 11 && strcmp(name, "long--") == 0);
    HOLDS(name_of(POLICY, 1, name, 0).len == 3 && strcmp(name, "long--") == 0);
    static const uint32_t none[] = {2, 255, 256, 65535, 65536, UINT32_MAX};
    for (size_t i = 0; i < COUNT(none); i++) {
        found = name_of(POLICY, none[i], name, 5);
        HOLDS(found.fault.kind == GTHOST_FAULT_NO_TYPE && found.len == 0 && strcmp(name, "long--") == 0);
    }
    found = name_of("type a_t;\nallow a_t c_t:grant copy;", 0, name, 5);
    HOLDS(found.fault.kind == GTHOST_FAULT_UNKNOWN && found.fault.line == 2 && found.len == 0);
}

/* A guest leaves, another one comes in its place, and names are those of their domain and run alone. */
static void leaves(void)
{
    struct gthost_settings two[] = {{1, 0, 8, 1, 1}, {2, 1, 8, 1, 1}};
    struct gthost_domain domain[2] = {{0}}, other[2] = {{0}};
    struct gthost_found_entry found;
    struct gthost_fault fault;
    struct gthost_answer answer;
    struct gthost_handle name, foreign;
    HOLDS(starts(two, 2, POLICY, domain, 2, &fault));
    fault = gthost_start(two, 2, 0, 8, (const uint8_t *)POLICY, strlen(POLICY), other, 2);
    HOLDS(fault.kind == GTHOST_FAULT_NONE);
    answer = gthost_grant_page(&domain[0], 7, 2, 5, 1);
    answer = gthost_grant_page(&domain[0], 8, 2, 6, 0);
    answer = gthost_grant_page(&other[0], 7, 2, 5, 0);
    foreign = gthost_handle_of(gthost_map(&other[1], 1, 7, GTHOST_MAP_READ_ONLY));
    name = gthost_handle_of(gthost_map(&domain[1], 1, 7, GTHOST_MAP_READ_ONLY));
    HOLDS(foreign.serial == name.serial && foreign.key == name.key && foreign.dom == name.dom && name.run == 7);
    answer = gthost_unmap(&domain[1], foreign);
    WANT(GTHOST_N6, -4, GTHOST_NOTHING);
    answer = gthost_mapping(&domain[1], foreign).answer;
    WANT(GTHOST_ABSENT, 0, GTHOST_NOTHING);
    foreign = name;
    foreign.dom = 1;
    answer = gthost_unmap(&domain[1], foreign);
    WANT(GTHOST_N6, -4, GTHOST_NOTHING);
    found = gthost_entry(&domain[0], 7);
    answer = found.answer;
    WANT(GTHOST_OK, 0, GTHOST_NOTHING);
    HOLDS(found.entry.kind == GTHOST_ENTRY_PAGE && found.entry.generation == 1 && found.entry.reads == 1);
    HOLDS(found.entry.writes == 0 && found.entry.to == 2 && found.entry.read_only == 1 && found.entry.granted_to == 2);
    answer = gthost_entry(&domain[0], 512).answer;
    WANT(GTHOST_ABSENT, 0, GTHOST_NOTHING);
    answer = gthost_reset(&domain[0]);
    WANT(GTHOST_OK, 0, GTHOST_LEFT);
    HOLDS(answer.more == 1);
    answer = gthost_map(&domain[1], 1, 8, GTHOST_MAP_READ_ONLY);
    WANT(GTHOST_N10, -1, GTHOST_ENTRY);
    found = gthost_entry(&domain[0], 7);
    HOLDS(found.entry.kind == GTHOST_ENTRY_INVALID && found.entry.reads == 1 && found.entry.to == 0);
    HOLDS(found.entry.granted_to == 2 && gthost_entry(&domain[0], 9).entry.granted_to == 65535);
    answer = gthost_unused(&domain[0], 0);
    WANT(GTHOST_OK, 0, GTHOST_REFERENCE);
    HOLDS(answer.gref == 7);
    answer = gthost_unused(&domain[0], 8);
    WANT(GTHOST_ABSENT, 0, GTHOST_NOTHING);
    answer = gthost_unused(&domain[0], UINT32_MAX);
    WANT(GTHOST_ABSENT, 0, GTHOST_NOTHING);
    answer = gthost_mappings(&domain[1], 0);
    WANT(GTHOST_OK, 0, GTHOST_HANDLE);
    HOLDS(gthost_handle_of(answer).key == name.key && gthost_handle_of(answer).serial == name.serial);
    HOLDS(gthost_mapped_of(answer).owner == 1 && gthost_mapped_of(answer).gref == 7);
    answer = gthost_mappings(&domain[1], name.key + 1);
    WANT(GTHOST_ABSENT, 0, GTHOST_NOTHING);
    answer = gthost_unmap(&domain[1], name);
    WANT(GTHOST_OK, 0, GTHOST_RELEASED);
    HOLDS(!gthost_is_valid(answer.word) && gthost_reads_in(answer.word) == 0);
    answer = gthost_mappings(&domain[1], 0);
    WANT(GTHOST_ABSENT, 0, GTHOST_NOTHING);
    HOLDS(gthost_mappings(&domain[1], SIZE_MAX).rule == GTHOST_ABSENT);
    HOLDS(gthost_entry(&domain[0], 7).entry.reads == 0);
    answer = gthost_grant_page(&domain[0], 7, 2, 5, 0);
    WANT(GTHOST_OK, 0, GTHOST_NOTHING);
    answer = gthost_take_records(&domain[1]);
    WANT(GTHOST_OK, 0, GTHOST_TAKEN);
    HOLDS(answer.value == 5 && answer.more == 0);
    HOLDS(gthost_record(&domain[1], 0).answer.rule == GTHOST_ABSENT);
    answer = gthost_reserve_records(&domain[1], SIZE_MAX);
    WANT(GTHOST_NO_MEMORY, 0, GTHOST_NOTHING);
    name = gthost_handle_of(gthost_map(&domain[1], 1, 7, GTHOST_MAP_WRITABLE));
    answer = gthost_finish(&domain[0]);
    WANT(GTHOST_OK, 0, GTHOST_LEFT);
    HOLDS(answer.more == 1);
    answer = gthost_map(&domain[1], 1, 7, GTHOST_MAP_WRITABLE);
    WANT(GTHOST_N10, -1, GTHOST_ENTRY);
    HOLDS(gthost_finish(&domain[1]).more == 0);
    HOLDS(gthost_finish(&other[0]).more == 1 && gthost_finish(&other[1]).more == 0);
}

static void copies(void)
{
    struct gthost_settings two[] = {{1, 0, 8, 1, 2}, {2, 1, 8, 1, 1}};
    struct gthost_domain domain[2] = {{0}};
    struct gthost_copy copy = {{7, 1, 100}, {3, GTHOST_DOMID_SELF, 20}, 30, GTHOST_COPY_SOURCE_GREF};
    struct gthost_begun_copy begun;
    struct gthost_found_mapping found;
    struct gthost_found_record record;
    struct gthost_fault fault;
    struct gthost_answer answer;
    struct gthost_handle name = {0, 0, 0, 0};
    HOLDS(starts(two, COUNT(two), POLICY, domain, COUNT(domain), &fault));
    begun = gthost_copy_begin(&domain[1], copy);
    answer = begun.answer;
    WANT(10, -1, GTHOST_ENTRY);
    HOLDS(begun.places.len == 0);
    answer = gthost_grant_sub(&domain[0], 7, 2, 5, 100, 30, 1);
    WANT(GTHOST_OK, 0, GTHOST_NOTHING);
    begun = gthost_copy_begin(&domain[1], copy);
    answer = begun.answer;
    WANT(GTHOST_OK, 0, GTHOST_NOTHING);
    HOLDS(begun.places.from.owner == 1 && begun.places.from.frame == 5 && begun.places.from.off == 100);
    HOLDS(begun.places.to.owner == 2 && begun.places.to.frame == 3 && begun.places.to.off == 20);
    HOLDS(begun.places.len == 30);
    begun = gthost_copy_begin(&domain[1], copy);
    answer = begun.answer;
    WANT(GTHOST_BUSY, 0, GTHOST_NOTHING);
    found = gthost_mapping(&domain[1], name);
    answer = found.answer;
    WANT(GTHOST_BUSY, 0, GTHOST_NOTHING);
    answer = gthost_revoke(&domain[0], 7);
    WANT(19, -1, GTHOST_ENTRY);
    answer = gthost_copy_end(&domain[1]);
    WANT(GTHOST_OK, 0, GTHOST_ENDED);
    HOLDS(gthost_is_valid(answer.word) && gthost_reads_in(answer.word) == 0 && answer.value == 0);
    answer = gthost_copy_end(&domain[1]);
    WANT(GTHOST_NO_COPY, 0, GTHOST_NOTHING);
    answer = gthost_revoke(&domain[0], 7);
    WANT(GTHOST_OK, 0, GTHOST_NOTHING);
    record = gthost_record(&domain[1], 0);
    answer = record.answer;
    WANT(GTHOST_OK, 0, GTHOST_NOTHING);
    HOLDS(record.kept.call == GTHOST_CALL_COPY && record.kept.caller == 2 && record.kept.reply.rule == 10 && record.kept.len == 30);
    record = gthost_record(&domain[1], 1);
    HOLDS(record.kept.source.ptr == 7 && record.kept.source.dom == 1 && record.kept.source.off == 100);
    HOLDS(record.kept.dest.ptr == 3 && record.kept.dest.dom == GTHOST_DOMID_SELF && record.kept.dest.off == 20);
    HOLDS(record.kept.flags == 1 && record.kept.reply.rule == GTHOST_OK);
    record = gthost_record(&domain[1], 2);
    answer = record.answer;
    WANT(GTHOST_ABSENT, 0, GTHOST_NOTHING);
    found = gthost_mapping(&domain[1], name);
    answer = found.answer;
    WANT(GTHOST_ABSENT, 0, GTHOST_NOTHING);
    HOLDS(found.mapping.frame == 0);
    answer = gthost_grant_page(&domain[0], 7, 2, 6, 0);
    answer = gthost_map(&domain[1], 1, 7, GTHOST_MAP_WRITABLE);
    name = gthost_handle_of(answer);
    found = gthost_mapping(&domain[1], name);
    answer = found.answer;
    WANT(GTHOST_OK, 0, GTHOST_NOTHING);
    HOLDS(found.mapping.owner == 1 && found.mapping.gref == 7 && found.mapping.frame == 6 && found.mapping.writes == 1);
    answer = gthost_grant_via(&domain[0], 8, 2, 1, 7, 0);
    WANT(GTHOST_OK, 0, GTHOST_NOTHING);
    answer = gthost_promote(&domain[0], 7);
    WANT(GTHOST_OK, 0, GTHOST_NOTHING);
    answer = gthost_reserve_records(&domain[1], 10);
    WANT(GTHOST_OK, 0, GTHOST_NOTHING);
    answer = gthost_keep_at_most(&domain[1], 0);
    WANT(GTHOST_OK, 0, GTHOST_NOTHING);
    begun = gthost_copy_begin(&domain[1], copy);
    answer = begun.answer;
    WANT(GTHOST_OK, 0, GTHOST_NOTHING);
    HOLDS(gthost_finish(&domain[1]).value == 1);
    answer = gthost_revoke(&domain[0], 7);
    WANT(GTHOST_OK, 0, GTHOST_NOTHING);
    answer = gthost_copy_end(&domain[1]);
    WANT(GTHOST_NO_DOMAIN, 0, GTHOST_NOTHING);
    HOLDS(gthost_finish(&domain[0]).value == 0);
}

/* Copies between a granted page and memory of the program: the places of the page are those of any copy. */
static void memory(void)
{
    struct gthost_settings two[] = {{1, 0, 8, 1, 2}, {2, 1, 1, 1, 1}};
    const struct gthost_end grant = {7, 1, 100}, past = {7, 1, 4090}, none = {9, 1, 0};
    struct gthost_domain domain[2] = {{0}};
    struct gthost_begun_copy begun;
    struct gthost_answer answer;
    struct gthost_fault fault;
    HOLDS(starts(two, 2, POLICY, domain, 2, &fault));
    answer = gthost_grant_page(&domain[0], 7, 2, 5, 0);
    WANT(GTHOST_OK, 0, GTHOST_NOTHING);
    gthost_keep_at_most(&domain[1], 8);
    begun = gthost_copy_in(&domain[1], grant, 30);
    answer = begun.answer;
    WANT(GTHOST_OK, 0, GTHOST_NOTHING);
    HOLDS(begun.places.from.owner == 1 && begun.places.from.frame == 5 && begun.places.from.off == 100);
    HOLDS(begun.places.len == 30 && gthost_entry(&domain[0], 7).entry.reads == 1);
    answer = gthost_copy_end(&domain[1]);
    WANT(GTHOST_OK, 0, GTHOST_ENDED);
    begun = gthost_copy_out(&domain[1], grant, 3996);
    answer = begun.answer;
    WANT(GTHOST_OK, 0, GTHOST_NOTHING);
    HOLDS(begun.places.to.owner == 1 && begun.places.to.frame == 5 && begun.places.to.off == 100);
    HOLDS(begun.places.len == 3996 && gthost_entry(&domain[0], 7).entry.writes == 1);
    answer = gthost_copy_end(&domain[1]);
    WANT(GTHOST_OK, 0, GTHOST_ENDED);
    HOLDS(gthost_entry(&domain[0], 7).entry.reads == 0 && gthost_entry(&domain[0], 7).entry.writes == 0);
    HOLDS(gthost_copy_in(&domain[1], past, 7).answer.rule == GTHOST_N3);
    HOLDS(gthost_copy_out(&domain[1], none, 7).answer.rule == GTHOST_N10);
    const struct gthost_record record = gthost_record(&domain[1], 1).kept;
    HOLDS(record.call == GTHOST_CALL_COPY && record.source.dom == GTHOST_DOMID_SELF && record.source.ptr == 0);
    HOLDS(gthost_finish(&domain[1]).rule == GTHOST_OK && gthost_finish(&domain[0]).more == 0);
}

/* A guest of 16 TiB, and entries of frames that it doesn't have. A frame is only a number: the program keeps it. */
static void large(void)
{
    struct gthost_settings two[] = {{1, 0, GTHOST_MAX_FRAMES, 1, 2}, {2, 1, 1, 1, 1}};
    const uint64_t last = GTHOST_MAX_FRAMES - 1ull, beyond[] = {GTHOST_MAX_FRAMES, 1ull << 32, UINT64_MAX};
    struct gthost_copy copy = {{1, 1, 0}, {0, 2, 0}, 64, GTHOST_COPY_SOURCE_GREF};
    struct gthost_domain domain[2] = {{0}};
    struct gthost_begun_copy begun;
    struct gthost_handle name;
    struct gthost_fault fault;
    struct gthost_answer answer;
    HOLDS(starts(two, 2, POLICY, domain, 2, &fault));
    answer = gthost_grant_page(&domain[0], 1, 2, last, 0);
    WANT(GTHOST_OK, 0, GTHOST_NOTHING);
    answer = gthost_map(&domain[1], 1, 1, GTHOST_MAP_WRITABLE);
    WANT(GTHOST_OK, 0, GTHOST_HANDLE);
    name = gthost_handle_of(answer);
    HOLDS(gthost_mapping(&domain[1], name).mapping.frame == last);
    begun = gthost_copy_begin(&domain[1], copy);
    answer = begun.answer;
    WANT(GTHOST_OK, 0, GTHOST_NOTHING);
    HOLDS(begun.places.from.frame == last && begun.places.to.frame == 0);
    answer = gthost_copy_end(&domain[1]);
    for (uint32_t i = 0; i < COUNT(beyond); i++) {
        answer = gthost_grant_page(&domain[0], 2 + i, 2, beyond[i], 0);
        WANT(GTHOST_OK, 0, GTHOST_NOTHING);
        answer = gthost_map(&domain[1], 1, 2 + i, GTHOST_MAP_READ_ONLY);
        WANT(GTHOST_N16, -9, GTHOST_ENTRY);
        copy.source.ptr = 2 + i;
        answer = gthost_copy_begin(&domain[1], copy).answer;
        WANT(GTHOST_N16, -9, GTHOST_ENTRY);
    }
    copy.source.ptr = 1;
    copy.dest.ptr = 1;
    answer = gthost_copy_begin(&domain[1], copy).answer;
    WANT(GTHOST_N16, -9, answer.kind);
    answer = gthost_grant_page(&domain[1], 1, 1, UINT32_MAX, 0); /* of version 1: a number of 32 bits */
    WANT(GTHOST_OK, 0, GTHOST_NOTHING);
    answer = gthost_grant_page(&domain[1], 2, 1, 1ull << 32, 0);
    WANT(GTHOST_N21, -1, GTHOST_NOTHING);
    HOLDS(gthost_finish(&domain[1]).rule == GTHOST_OK && gthost_finish(&domain[0]).more == 0);
    two[1].frames = 0;
    HOLDS(!starts(two, 2, POLICY, domain, 2, &fault) && fault.kind == GTHOST_FAULT_FRAMES && fault.dom == 2);
}

/* Numbers of more than 16 bits are refused and not cut. Such a call is not recorded. */
static void wide(void)
{
    struct gthost_settings two[] = {{1, 0, 8, 1, 2}, {2, 1, 8, 1, 2}};
    const struct gthost_copy fits = {{7, 1, 0}, {3, 2, 0}, 16, GTHOST_COPY_SOURCE_GREF};
    const uint32_t wides[] = {0x10000, 0x10001, 0x7FFFFFFF, 0xFFFF0001, UINT32_MAX};
    struct gthost_domain domain[2] = {{0}};
    struct gthost_copy copy;
    struct gthost_fault fault;
    struct gthost_answer answer;
    HOLDS(starts(two, 2, POLICY, domain, 2, &fault));
    answer = gthost_grant_page(&domain[0], 7, 2, 5, 0);
    WANT(GTHOST_OK, 0, GTHOST_NOTHING);
    for (size_t i = 0; i < COUNT(wides); i++) {
        const uint32_t big = wides[i];
        answer = gthost_map(&domain[1], big, 7, GTHOST_MAP_WRITABLE);
        WANT(GTHOST_N1, -2, GTHOST_NOTHING);
        answer = gthost_query_size(&domain[1], big);
        WANT(GTHOST_N1, -2, GTHOST_NOTHING);
        answer = gthost_get_version(&domain[1], big);
        WANT(GTHOST_N1, -2, GTHOST_NOTHING);
        answer = gthost_grant_page(&domain[0], 8, big, 5, 0);
        WANT(GTHOST_N1, -2, GTHOST_NOTHING);
        answer = gthost_grant_sub(&domain[0], 8, big, 5, 0, 1, 0);
        WANT(GTHOST_N1, -2, GTHOST_NOTHING);
        answer = gthost_grant_sub(&domain[0], 8, 2, 5, big, 1, 0);
        WANT(GTHOST_N21, -1, GTHOST_NOTHING);
        answer = gthost_grant_sub(&domain[0], 8, 2, 5, 0, big, 0);
        WANT(GTHOST_N21, -1, GTHOST_NOTHING);
        answer = gthost_grant_via(&domain[0], 8, big, 1, 7, 0);
        WANT(GTHOST_N1, -2, GTHOST_NOTHING);
        answer = gthost_grant_via(&domain[0], 8, 2, big, 7, 0);
        WANT(GTHOST_N1, -2, GTHOST_NOTHING);
        for (unsigned which = 0; which < 6; which++) {
            static const uint32_t rules[] = {GTHOST_N1, GTHOST_N1, GTHOST_N2, GTHOST_N3, GTHOST_N3, GTHOST_N3};
            static const int32_t statuses[] = {-2, -2, -1, -10, -10, -10};
            copy = fits;
            uint32_t *fields[] = {&copy.source.dom, &copy.dest.dom, &copy.flags, &copy.source.off, &copy.dest.off, &copy.len};
            *fields[which] += big & 0xFFFF0000;
            answer = gthost_copy_begin(&domain[1], copy).answer;
            WANT(rules[which], statuses[which], GTHOST_NOTHING);
        }
    }
    HOLDS(gthost_entry(&domain[0], 8).entry.kind == GTHOST_ENTRY_INVALID);
    HOLDS(gthost_record(&domain[1], 0).answer.rule == GTHOST_ABSENT);
    HOLDS(gthost_finish(&domain[0]).more == 0 && gthost_finish(&domain[1]).value == 0);
    two[0].id = 0x10001;
    HOLDS(!starts(two, 2, POLICY, domain, 2, &fault) && fault.kind == GTHOST_FAULT_ID && fault.dom == 65535);
    two[0].id = 1;
    two[1].label = 0x10001;
    HOLDS(!starts(two, 2, POLICY, domain, 2, &fault) && fault.kind == GTHOST_FAULT_LABEL && fault.dom == 2);
}

/* No call is recorded until the program asks for records. */
static void records(void)
{
    struct gthost_settings one[] = {{1, 0, 8, 1, 1}};
    struct gthost_domain domain[1] = {{0}};
    struct gthost_answer answer;
    const struct gthost_fault fault = gthost_start(one, 1, 0, 7, (const uint8_t *)POLICY, strlen(POLICY), domain, 1);
    HOLDS(fault.kind == GTHOST_FAULT_NONE);
    answer = gthost_query_size(&domain[0], 1);
    WANT(GTHOST_OK, 0, GTHOST_SIZE);
    HOLDS(gthost_record(&domain[0], 0).answer.rule == GTHOST_ABSENT);
    answer = gthost_keep_at_most(&domain[0], 1);
    WANT(GTHOST_OK, 0, GTHOST_NOTHING);
    answer = gthost_query_size(&domain[0], 1);
    answer = gthost_get_version(&domain[0], 1);
    HOLDS(gthost_record(&domain[0], 0).kept.call == GTHOST_CALL_QUERY_SIZE);
    HOLDS(gthost_record(&domain[0], 1).answer.rule == GTHOST_ABSENT);
    HOLDS(gthost_finish(&domain[0]).value == 2);
}

static bool is_name(struct gthost_handle a, struct gthost_handle b)
{
    return a.serial == b.serial && a.key == b.key && a.run == b.run && a.dom == b.dom;
}

/* Several maps are made, or none remains. A release of what was made asks for no permission. */
static void several(void)
{
    static const char no_unmap[] = "type a_t; allow a_t a_t:grant { map_read map_write };";
    struct gthost_settings two[] = {{1, 0, 8, 1, 1}, {2, 0, 8, 1, 1}};
    struct gthost_domain domain[2] = {{0}};
    const struct gthost_handle mine = {1, 2, 3, 4};
    struct gthost_handle names[4] = {mine, mine, mine, mine};
    struct gthost_map_request requests[4] = {{1, 7, GTHOST_MAP_WRITABLE, 0, 0}, {1, 8, GTHOST_MAP_READ_ONLY, 0, 0},
                                             {1, 7, GTHOST_MAP_READ_ONLY, 0, 0}, {1, 9, GTHOST_MAP_READ_ONLY, 0, 0}};
    struct gthost_fault fault;
    struct gthost_answer answer;
    HOLDS(starts(two, 2, no_unmap, domain, 2, &fault));
    answer = gthost_grant_page(&domain[0], 7, 2, 5, 0);
    answer = gthost_grant_page(&domain[0], 8, 2, 6, 1);
    answer = gthost_map_all(&domain[1], requests, 4, names);
    WANT(GTHOST_N10, -1, GTHOST_ENTRY);
    HOLDS(answer.gref == 9 && answer.value == 1 && answer.more == 3);
    for (int i = 0; i < 4; i++) {
        HOLDS(is_name(names[i], mine));
    }
    HOLDS(gthost_entry(&domain[0], 7).entry.writes == 0 && gthost_entry(&domain[0], 7).entry.reads == 0);
    HOLDS(gthost_entry(&domain[0], 8).entry.reads == 0);
    HOLDS(gthost_record(&domain[1], 3).kept.reply.rule == GTHOST_N10);
    HOLDS(gthost_record(&domain[1], 2).kept.reply.rule == GTHOST_OK);
    HOLDS(gthost_record(&domain[1], 4).answer.rule == GTHOST_ABSENT);
    requests[0].dom = 0x10001;
    answer = gthost_map_all(&domain[1], requests, 3, names);
    WANT(GTHOST_N1, -2, GTHOST_NOTHING);
    HOLDS(answer.value == 1 && answer.more == 0);
    HOLDS(gthost_record(&domain[1], 4).answer.rule == GTHOST_ABSENT);
    requests[0].dom = 1;
    answer = gthost_map_all(&domain[1], requests, 3, names);
    WANT(GTHOST_OK, 0, GTHOST_MAPPED_ALL);
    HOLDS(answer.value == 3 && is_name(names[3], mine));
    for (int i = 0; i < 3; i++) {
        const struct gthost_found_mapping found = gthost_mapping(&domain[1], names[i]);
        HOLDS(found.answer.rule == GTHOST_OK && found.mapping.gref == requests[i].gref);
        HOLDS(found.mapping.frame == (i == 1 ? 6 : 5) && found.mapping.writes == (i == 0) && names[i].run == 7);
    }
    HOLDS(gthost_unmap(&domain[1], names[0]).rule == GTHOST_N5);
    HOLDS(gthost_record(&domain[1], 6).kept.call == GTHOST_CALL_MAP);
    answer = gthost_map_all(&domain[1], requests, 0, names);
    WANT(GTHOST_OK, 0, GTHOST_MAPPED_ALL);
    HOLDS(answer.value == 0);
    answer = gthost_map_all_at(&domain[1], requests, 2, names, 1); /* a caller in another language */
    WANT(GTHOST_ABSENT, 0, GTHOST_NOTHING);
    HOLDS(gthost_finish(&domain[0]).more == 2 && gthost_finish(&domain[1]).rule == GTHOST_OK);
    answer = gthost_map_all(&domain[1], requests, 2, names);
    WANT(GTHOST_NO_DOMAIN, 0, GTHOST_NOTHING);
}

static bool is_nothing(struct gthost_answer a)
{
    return !a.status && !a.kind && !a.dom && !a.gref && !a.source && !a.target && !a.detail && !a.word && !a.value &&
           !a.more;
}

static bool is_no_end(struct gthost_end end)
{
    return !end.ptr && !end.dom && !end.off;
}

/* What is returned beside the answer to a null pointer is zero. */
static void nothing_is_told(void)
{
    const struct gthost_handle name = {0, 0, 0, 0};
    const struct gthost_copy copy = {{0, 0, 0}, {0, 0, 0}, 0, 0};
    const struct gthost_mapping mapping = gthost_mapping(NULL, name).mapping;
    HOLDS(!mapping.frame && !mapping.gref && !mapping.owner && !mapping.writes);
    const struct gthost_entry_status entry = gthost_entry(NULL, 0).entry;
    HOLDS(!entry.kind && !entry.generation && !entry.reads && !entry.writes && !entry.to && !entry.read_only);
    HOLDS(!entry.granted_to);
    const struct gthost_record kept = gthost_record(NULL, 0).kept;
    HOLDS(!kept.call && !kept.caller && !kept.dom && !kept.gref && !kept.flags && !kept.len);
    HOLDS(is_no_end(kept.source) && is_no_end(kept.dest) && !kept.reply.rule && is_nothing(kept.reply));
    const struct gthost_places places = gthost_copy_begin(NULL, copy).places;
    HOLDS(!places.from.frame && !places.from.owner && !places.from.off && !places.len);
    HOLDS(!places.to.frame && !places.to.owner && !places.to.off);
    const uint8_t text[] = "type a_t;";
    const struct gthost_type types[] = {gthost_type_of(NULL, 9, text, 3), gthost_type_of(text, 9, NULL, 3)};
    HOLDS(types[0].fault.kind == GTHOST_FAULT_NULL_POINTER && !types[0].fault.line && !types[0].fault.dom && !types[0].label);
    HOLDS(types[1].fault.kind == GTHOST_FAULT_NULL_POINTER && !types[1].fault.line && !types[1].fault.dom && !types[1].label);
    uint8_t into[1] = {7};
    const struct gthost_name named[] = {gthost_type_name(NULL, 9, 0, into, 1), gthost_type_name(text, 9, 0, NULL, 1)};
    for (size_t i = 0; i < COUNT(named); i++) {
        HOLDS(named[i].fault.kind == GTHOST_FAULT_NULL_POINTER && !named[i].fault.line && !named[i].fault.dom);
        HOLDS(!named[i].len && into[0] == 7);
    }
}

/* Each call of a null pointer. */
static void nulls(void)
{
    struct gthost_domain none = {0};
    struct gthost_handle name = {0, 0, 0, 0};
    struct gthost_map_request request = {1, 7, GTHOST_MAP_READ_ONLY, 0, 0};
    const struct gthost_copy copy = {{0, 0, 0}, {0, 0, 0}, 0, 0};
    const struct gthost_end end = {0, 0, 0};
    const struct gthost_entry_bytes entry = {8, {0}};
    const struct gthost_answer answers[] = {
        gthost_grant_page(NULL, 0, 0, 0, 0),   gthost_grant_sub(NULL, 0, 0, 0, 0, 0, 0),
        gthost_grant_via(NULL, 0, 0, 0, 0, 0), gthost_grant_bytes(NULL, 0, entry),
        gthost_follow(NULL, 0, entry),         gthost_revoke(NULL, 0),
        gthost_withdraw(NULL, 0),              gthost_demote(NULL, 0),
        gthost_promote(NULL, 0),
        gthost_map(NULL, 0, 0, 0),             gthost_unmap(NULL, name),
        gthost_set_version(NULL, 0),           gthost_setup_table(NULL, 0),
        gthost_query_size(NULL, 0),            gthost_get_version(NULL, 0),
        gthost_mapping(NULL, name).answer,     gthost_record(NULL, 0).answer,
        gthost_keep_at_most(NULL, 0),          gthost_reserve_records(NULL, 0),
        gthost_copy_begin(NULL, copy).answer,  gthost_copy_end(NULL),
        gthost_entry(NULL, 0).answer,          gthost_take_records(NULL),
        gthost_reset(NULL),                    gthost_finish(NULL),
        gthost_unused(NULL, 0),                gthost_grant_all_of(NULL, &none),
        gthost_grant_all_of(&none, NULL),      gthost_grant_all_of(&none, &none),
        gthost_difference(NULL, &none),        gthost_difference(&none, NULL),
        gthost_difference(&none, &none),       gthost_map_all(NULL, &request, 1, &name),
        gthost_map_all(&none, NULL, 1, &name), gthost_map_all(&none, &request, 1, NULL),
        gthost_mappings(NULL, 0),              gthost_copy_in(NULL, end, 1).answer,
        gthost_copy_out(NULL, end, 1).answer,
    };
    for (size_t i = 0; i < COUNT(answers); i++) {
        struct gthost_answer answer = answers[i];
        WANT(GTHOST_NULL_POINTER, 0, GTHOST_NOTHING);
        HOLDS(is_nothing(answer));
    }
    nothing_is_told();
}

int main(void)
{
    faults();
    texts();
    types();
    names();
    leaves();
    nulls();
    shares();
    copies();
    memory();
    large();
    wide();
    records();
    several();
    printf(failures ? "FAILED\n" : "smoke ok\n");
    return failures != 0;
}
