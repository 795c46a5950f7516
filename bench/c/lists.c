/*
 * Plays a script of grant-table calls through the library, and prints what `gthost play --audit` prints for it.
 *
 * It reads one script from standard input, in the form of docs/FORMATS.md: a policy block, `wear`, `domain` lines, and
 * `do` lines of the calls that the library has. `begin` and two lines `tick` are a copy in two halves: it begins, comes
 * to its access, and ends. A script that is out of this form is the fault of its writer, and ends the program.
 * Before each call it makes the same with each of its numbers above 65,535 in turn, which the library has to refuse.
 * Before each map it makes the same map twice and one that must be refused, all or none: so none remains. Each second
 * map is made as the only one of several.
 */
#include "gthost.h"

#include <inttypes.h>
#include <stdio.h>
#include <stdlib.h>
#include <string.h>

enum { WORDS = 12, TYPES = 16, DOMAINS = 8, LABELS = 64, ANSWER = 128, SELF = 0x7FF0, LAST = 100 };

struct named {
    char label[32];
    struct gthost_handle handle;
};

struct member {
    uint32_t id;
    struct gthost_domain *domain;
    struct named named[LABELS];
    size_t named_count, recorded;
    uint64_t lost; /* records that are not kept, since the list does not have their calls */
    unsigned open; /* the line of a copy that has begun; 0 for none */
    bool is_refused;
    struct gthost_answer refusal; /* of a copy at a look of its leg */
};

static char policy[1 << 16], types[TYPES][32], *audit;
static size_t policy_len, type_count, member_count, audit_len, audit_room;
static struct gthost_settings settings[DOMAINS];
static struct member members[DOMAINS];
static struct gthost_domain handles[DOMAINS];
static unsigned first_gen, line_number;
static char *word[WORDS];
static size_t word_count;

static void stop(const char *why)
{
    fprintf(stderr, "lists: line %u: %s\n", line_number, why);
    exit(2);
}

/* --- words --- */

static void split(char *line)
{
    word_count = 0;
    for (char *at = strtok(line, " \n"); at && word_count < WORDS; at = strtok(NULL, " \n")) {
        word[word_count++] = at;
    }
}

static const char *at(size_t place)
{
    if (place >= word_count) {
        stop("a word lacks");
    }
    return word[place];
}

static uint64_t number(size_t place)
{
    return strtoull(at(place), NULL, 10);
}

/* What is added to the domains, offsets and lengths of a call: 0, or a number that makes one of them too large. */
static uint32_t excess;
static size_t excess_place;

static uint32_t narrow(size_t place)
{
    return (uint32_t)number(place) + (place == excess_place ? excess : 0);
}

static uint32_t dom(size_t place)
{
    return (strcmp(at(place), "self") == 0 ? SELF : (uint32_t)number(place)) + (place == excess_place ? excess : 0);
}

static bool is(size_t place, const char *what)
{
    return strcmp(at(place), what) == 0;
}

static uint32_t flags(size_t place)
{
    return is(place, "rw") ? GTHOST_MAP_WRITABLE : is(place, "ro") ? GTHOST_MAP_READ_ONLY : (uint32_t)number(place);
}

static struct gthost_entry_bytes entry(size_t place)
{
    const char *text = at(place);
    struct gthost_entry_bytes entry = {strcmp(text, "-") == 0 ? 0 : strlen(text) / 2, {0}};
    for (size_t i = 0; i < entry.len && i < sizeof entry.bytes; i++) {
        unsigned byte;
        sscanf(text + 2 * i, "%2x", &byte);
        entry.bytes[i] = (uint8_t)byte;
    }
    return entry;
}

/* --- answers --- */

static const char *field(uint32_t number)
{
    static const char *const names[] = {"", "length", "type", "reading", "writing", "pwt", "pcd", "pat", "sub_page", "reserved"};
    return number < sizeof names / sizeof names[0] ? names[number] : "?";
}

static const char *permission(uint32_t bit)
{
    static const char *const names[] = {"map_read", "map_write", "unmap", "transfer", "setup", "copy", "query"};
    for (size_t i = 0; i < sizeof names / sizeof names[0]; i++) {
        if (bit == 1u << i) {
            return names[i];
        }
    }
    return "?";
}

static const char *type(uint32_t place)
{
    return place < type_count ? types[place] : "?";
}

static const char *said(const struct gthost_answer *answer, char *out)
{
    size_t len = answer->rule ? (size_t)snprintf(out, ANSWER, "N%u %d", answer->rule, answer->status)
                              : (size_t)snprintf(out, ANSWER, "ok");
    switch (answer->kind) {
    case GTHOST_FRAMES:
        snprintf(out + len, ANSWER - len, " frames=%" PRIu64, answer->value);
        break;
    case GTHOST_TABLE_VERSION:
        snprintf(out + len, ANSWER - len, " version=%" PRIu64, answer->value);
        break;
    case GTHOST_SIZE:
        snprintf(out + len, ANSWER - len, " frames=%" PRIu64 " max=%" PRIu64, answer->value, answer->more);
        break;
    case GTHOST_POLICY:
        snprintf(out + len, ANSWER - len, " source=%s target=%s perm=%s", type(answer->source), type(answer->target),
                 permission(answer->detail));
        break;
    case GTHOST_FIELD:
        snprintf(out + len, ANSWER - len, " field=%s", field(answer->detail));
        break;
    default:
        break;
    }
    return out;
}

static void answered(unsigned line, const struct member *member, const struct gthost_answer *answer)
{
    char text[ANSWER];
    printf("%u %u %s\n", line, member->id, said(answer, text));
}

/* --- the audit --- */

static void put(const char *text)
{
    size_t len = strlen(text);
    if (audit_len + len > audit_room) {
        audit_room = 2 * (audit_len + len);
        audit = realloc(audit, audit_room);
        if (!audit) {
            stop("memory");
        }
    }
    memcpy(audit + audit_len, text, len);
    audit_len += len;
}

/* A domain named self is told by the caller's number. */
static uint32_t told(const struct gthost_record *record, uint32_t named)
{
    return named == SELF ? record->caller : named;
}

static void put_record(const struct gthost_record *r)
{
    char text[512], answer[ANSWER];
    int len = snprintf(text, sizeof text, "audit %u ", r->caller);
    char *to = text + len;
    size_t room = sizeof text - (size_t)len;
    const char *said_so = said(&r->reply, answer);
    switch (r->call) {
    case GTHOST_CALL_MAP:
        snprintf(to, room, "map %u %u %u : %s\n", told(r, r->dom), r->gref, r->flags, said_so);
        break;
    case GTHOST_CALL_UNMAP:
        snprintf(to, room, "unmap %u %u : %s\n", r->dom, r->gref, said_so);
        break;
    case GTHOST_CALL_UNMAP_NONE:
        snprintf(to, room, "unmap - - : %s\n", said_so);
        break;
    case GTHOST_CALL_COPY:
        snprintf(to, room, "copy %s %u %" PRIu64 " %u %s %u %" PRIu64 " %u %u %u : %s\n",
                 r->flags & GTHOST_COPY_SOURCE_GREF ? "gref" : "frame", told(r, r->source.dom), r->source.ptr,
                 r->source.off, r->flags & GTHOST_COPY_DEST_GREF ? "gref" : "frame", told(r, r->dest.dom), r->dest.ptr,
                 r->dest.off, r->len, r->flags, said_so);
        break;
    case GTHOST_CALL_QUERY_SIZE:
        snprintf(to, room, "size %u : %s\n", told(r, r->dom), said_so);
        break;
    case GTHOST_CALL_GET_VERSION:
        snprintf(to, room, "getversion %u : %s\n", told(r, r->dom), said_so);
        break;
    case GTHOST_CALL_SET_VERSION:
        snprintf(to, room, "version %u : %s\n", r->flags, said_so);
        break;
    default:
        snprintf(to, room, "setup %u : %s\n", r->flags, said_so);
        break;
    }
    put(text);
}

/* The records that have come since the last time. So the records of all domains are in the order of the answers. */
static void take_records(struct member *member)
{
    for (;;) {
        const struct gthost_found_record found = gthost_record(member->domain, member->recorded);
        if (found.answer.rule != GTHOST_OK) {
            return;
        }
        put_record(&found.kept);
        member->recorded++;
    }
}

/* --- calls --- */

/* The handle of a label; the one of no map if there was none, with a key that is anything. */
static struct gthost_handle *handle(struct member *member, const char *label, bool is_new)
{
    static struct gthost_handle none;
    for (size_t i = 0; i < member->named_count; i++) {
        if (strcmp(member->named[i].label, label) == 0) {
            return &member->named[i].handle;
        }
    }
    if (!is_new) {
        none.serial = UINT64_MAX;
        none.key = (size_t)line_number * 0x9E3779B97F4A7C15u;
        return &none;
    }
    if (member->named_count == LABELS) {
        stop("labels");
    }
    snprintf(member->named[member->named_count].label, sizeof member->named[0].label, "%s", label);
    return &member->named[member->named_count++].handle;
}

static void grant(struct gthost_domain *domain, struct gthost_answer *answer)
{
    uint32_t gref = (uint32_t)number(3);
    bool ro = is(6, "ro");
    if (is(4, "page")) {
        *answer = gthost_grant_page(domain, gref, dom(5), number(7), ro);
    } else if (is(4, "sub")) {
        *answer = gthost_grant_sub(domain, gref, dom(5), number(7), narrow(8), narrow(9), ro);
    } else {
        *answer = gthost_grant_via(domain, gref, dom(5), dom(7), (uint32_t)number(8), ro);
    }
}

static void copy_begin(struct gthost_domain *domain, struct gthost_answer *answer)
{
    const struct gthost_copy copy = {
        {number(5), dom(4), narrow(6)},
        {number(9), dom(8), narrow(10)},
        narrow(11),
        (is(3, "gref") ? GTHOST_COPY_SOURCE_GREF : 0) | (is(7, "gref") ? GTHOST_COPY_DEST_GREF : 0),
    };
    const bool is_home = copy.dest.ptr == 0 && copy.dest.off == 0 && copy.dest.dom == SELF;
    const bool is_from_home = copy.source.ptr == 0 && copy.source.off == 0 && copy.source.dom == SELF;
    if (copy.flags == GTHOST_COPY_SOURCE_GREF && is_home) {
        *answer = gthost_copy_in(domain, copy.source, copy.len).answer;
    } else if (copy.flags == GTHOST_COPY_DEST_GREF && is_from_home) {
        *answer = gthost_copy_out(domain, copy.dest, copy.len).answer;
    } else {
        *answer = gthost_copy_begin(domain, copy).answer;
    }
}

static void map(struct member *member, struct gthost_answer *answer)
{
    struct gthost_handle name = {0, 0, 0, 0};
    if (line_number % 2) {
        struct gthost_map_request request = {dom(4), (uint32_t)number(5), flags(6), 0, 0};
        *answer = gthost_map_all(member->domain, &request, 1, &name);
        if (answer->rule == GTHOST_OK ? answer->kind != GTHOST_MAPPED_ALL || answer->value != 1 : answer->more != 0) {
            stop("the only map of several");
        }
    } else {
        *answer = gthost_map(member->domain, dom(4), (uint32_t)number(5), flags(6));
        name = gthost_handle_of(*answer);
    }
    if (answer->rule == GTHOST_OK) {
        *handle(member, at(3), true) = name;
        const struct gthost_handle next = gthost_handle_of(gthost_mappings(member->domain, name.key));
        if (memcmp(&next, &name, sizeof name) != 0) {
            stop("a mapping is not the next one from its key on");
        }
    }
}

static void unmap(struct member *member, struct gthost_answer *answer)
{
    const struct gthost_handle name = *handle(member, at(3), false);
    *answer = gthost_unmap(member->domain, name);
    if (answer->rule == GTHOST_OK) {
        const struct gthost_answer next = gthost_mappings(member->domain, name.key);
        if (next.rule == GTHOST_OK ? gthost_handle_of(next).key <= name.key : next.rule != GTHOST_ABSENT) {
            stop("an unmapped mapping is still found");
        }
    }
}

/*
 * The map of this line twice, and one that must be refused, all or none. So no mapping remains, nor any pin, as the
 * answers to all later calls show. Returns the refusal, which is that of the map if it is refused alone.
 */
static struct gthost_answer undone(struct member *member)
{
    struct gthost_map_request requests[3] = {{dom(4), (uint32_t)number(5), flags(6), 0, 0}};
    const struct gthost_handle mine = {3, 5, 7, 9};
    struct gthost_handle names[3] = {mine, mine, mine};
    requests[1] = requests[2] = requests[0];
    requests[2].dom = 0x10000u << line_number % 16;
    gthost_keep_at_most(member->domain, 0);
    const struct gthost_answer answer = gthost_map_all(member->domain, requests, 3, names);
    gthost_keep_at_most(member->domain, SIZE_MAX);
    if (answer.rule == GTHOST_BUSY) {
        return answer;
    }
    member->lost += answer.more < 2 ? answer.more + 1 : 2;
    for (int i = 0; i < 3; i++) {
        if (memcmp(&names[i], &mine, sizeof mine) != 0) {
            stop("a refused map of several has changed a name");
        }
    }
    if (answer.rule == GTHOST_OK || answer.value != 1 || (answer.more == 2 && answer.rule != GTHOST_N1)) {
        stop("one map of several is not refused");
    }
    return answer;
}

static void call(struct member *member, struct gthost_answer *answer)
{
    struct gthost_domain *domain = member->domain;
    if (is(2, "grant")) {
        grant(domain, answer);
    } else if (is(2, "bytes")) {
        *answer = gthost_grant_bytes(domain, (uint32_t)number(3), entry(4));
    } else if (is(2, "revoke")) {
        *answer = gthost_revoke(domain, (uint32_t)number(3));
    } else if (is(2, "withdraw")) {
        *answer = gthost_withdraw(domain, (uint32_t)number(3));
    } else if (is(2, "demote")) {
        *answer = gthost_demote(domain, (uint32_t)number(3));
    } else if (is(2, "promote")) {
        *answer = gthost_promote(domain, (uint32_t)number(3));
    } else if (is(2, "map")) {
        map(member, answer);
    } else if (is(2, "unmap")) {
        unmap(member, answer);
    } else if (is(2, "copy")) {
        copy_begin(domain, answer);
        if (answer->rule == GTHOST_OK) {
            *answer = gthost_copy_end(domain);
        }
    } else if (is(2, "version")) {
        *answer = gthost_set_version(domain, (uint32_t)number(3));
    } else if (is(2, "setup")) {
        *answer = gthost_setup_table(domain, (uint32_t)number(3));
    } else if (is(2, "size")) {
        *answer = gthost_query_size(domain, dom(3));
    } else if (is(2, "getversion")) {
        *answer = gthost_get_version(domain, dom(3));
    } else {
        stop("no such call");
    }
}

static struct member *caller(void)
{
    for (size_t i = 0; i < member_count; i++) {
        if (members[i].id == number(1)) {
            return &members[i];
        }
    }
    stop("no such domain");
    return NULL;
}

/*
 * The same call with one number above 65,535, drawn by the line: it is refused by the rule of that number, is not
 * recorded, and changes nothing, as the answers and the audit of all later calls show.
 */
static void refused_wide(struct member *member)
{
    static const struct {
        const char *call, *kind;
        size_t place;
        uint32_t rule;
    } numbers[] = {
        {"map", NULL, 4, GTHOST_N1},     {"size", NULL, 3, GTHOST_N1},   {"getversion", NULL, 3, GTHOST_N1},
        {"grant", NULL, 5, GTHOST_N1},   {"grant", "sub", 8, GTHOST_N21}, {"grant", "sub", 9, GTHOST_N21},
        {"grant", "via", 7, GTHOST_N1},  {"copy", NULL, 4, GTHOST_N1},   {"copy", NULL, 8, GTHOST_N1},
        {"copy", NULL, 6, GTHOST_N3},    {"copy", NULL, 10, GTHOST_N3},  {"copy", NULL, 11, GTHOST_N3},
    };
    struct gthost_answer answer;
    for (size_t i = 0; i < sizeof numbers / sizeof numbers[0]; i++) {
        if (!is(2, numbers[i].call) || (numbers[i].kind && !is(4, numbers[i].kind))) {
            continue;
        }
        excess_place = numbers[i].place;
        excess = 0x10000u << (line_number + i) % 16;
        call(member, &answer);
        excess = 0;
        if (answer.rule != (member->open ? (uint32_t)GTHOST_BUSY : numbers[i].rule)) {
            stop("a number above 65,535 is not refused");
        }
    }
}

/* A whole call. The domain of a copy that has begun makes none: the library says so itself. */
static void whole(struct member *member)
{
    struct gthost_answer answer;
    if (member->open && member->is_refused) {
        stop("a call between a copy and its first tick");
    }
    refused_wide(member);
    const struct gthost_answer several = is(2, "map") ? undone(member) : (struct gthost_answer){.more = 1};
    call(member, &answer);
    if (several.more == 0 && several.rule != answer.rule) {
        stop("the first map of several is refused by another rule");
    }
    if ((answer.rule == GTHOST_BUSY) != (member->open != 0)) {
        stop("busy, or not");
    }
    if (member->open) {
        printf("%u %u busy\n", line_number, member->id);
        return;
    }
    answered(line_number, member, &answer);
    take_records(member);
}

/* The first half of a copy. What its leg refuses is answered by the next tick, and all else at once. */
static void begin(struct member *member)
{
    struct gthost_answer answer;
    copy_begin(member->domain, &answer);
    if (answer.rule == GTHOST_BUSY && member->open) {
        printf("%u %u busy\n", line_number, member->id);
    } else if (answer.rule != GTHOST_OK && answer.kind != GTHOST_HEADER && answer.kind != GTHOST_ENTRY) {
        answered(line_number, member, &answer);
        take_records(member);
    } else {
        member->open = line_number;
        member->is_refused = answer.rule != GTHOST_OK;
        member->refusal = answer;
    }
}

/* The first tick comes to the access, and says nothing but a refusal. The one of LAST steps ends the copy. */
static void tick(struct member *member)
{
    bool is_last = number(2) == LAST;
    struct gthost_answer answer = member->refusal;
    if (!member->open) {
        printf("%u %u idle\n", line_number, member->id);
        return;
    }
    if (!member->is_refused) {
        if (!is_last) {
            return;
        }
        answer = gthost_copy_end(member->domain);
    }
    answered(member->open, member, &answer);
    take_records(member);
    member->open = 0;
}

/* --- the run --- */

static void domain(void)
{
    const char *label = strrchr(at(2), ':');
    size_t place = 0;
    if (member_count == DOMAINS || !label) {
        stop("domain");
    }
    while (place < type_count && strcmp(types[place], label + 1) != 0) {
        place++;
    }
    struct gthost_settings one = {(uint32_t)number(1), (uint32_t)place, (uint32_t)number(3), (uint32_t)number(4),
                                  (uint32_t)number(5)};
    settings[member_count] = one;
    members[member_count++].id = one.id;
}

static void start(void)
{
    const struct gthost_fault fault =
        gthost_start(settings, member_count, first_gen, 0, (const uint8_t *)policy, policy_len, handles, member_count);
    if (fault.kind != GTHOST_FAULT_NONE) {
        printf("fault %u %u %u\n", fault.kind, fault.line, fault.dom);
        exit(1);
    }
    for (size_t i = 0; i < member_count; i++) {
        members[i].domain = &handles[i];
        gthost_keep_at_most(&handles[i], SIZE_MAX);
    }
}

static void declare(const char *text)
{
    if (type_count < TYPES && sscanf(text, "type %31[A-Za-z0-9_]", types[type_count]) == 1) {
        type_count++;
    }
}

static void read_policy(char *line, size_t room)
{
    while (fgets(line, (int)room, stdin) && strcmp(line, "end\n") != 0) {
        size_t len = strlen(line);
        line_number++;
        declare(line);
        if (policy_len + len > sizeof policy) {
            stop("policy");
        }
        memcpy(policy + policy_len, line, len);
        policy_len += len;
    }
    line_number++;
}

static void finish(void)
{
    for (size_t i = 0; i < member_count; i++) {
        if (members[i].open) {
            printf("%u %u open\n", members[i].open, members[i].id);
        }
    }
    fwrite(audit, 1, audit_len, stdout);
    for (size_t i = 0; i < member_count; i++) {
        if (gthost_finish(members[i].domain).value != members[i].lost) {
            stop("records were lost");
        }
    }
    free(audit);
}

int main(void)
{
    static char line[1 << 14];
    bool is_started = false;
    while (fgets(line, sizeof line, stdin)) {
        line_number++;
        split(line);
        if (word_count == 0) {
            continue;
        }
        bool is_body = is(0, "do") || is(0, "begin") || is(0, "tick");
        if (is_body && !is_started) {
            start();
            is_started = true;
        }
        if (is(0, "policy")) {
            read_policy(line, sizeof line);
        } else if (is(0, "wear")) {
            first_gen = (unsigned)number(1);
        } else if (is(0, "domain")) {
            domain();
        } else if (is(0, "do")) {
            whole(caller());
        } else if (is(0, "begin")) {
            begin(caller());
        } else if (is(0, "tick")) {
            tick(caller());
        } else {
            stop("no such line");
        }
    }
    if (!is_started) {
        start();
    }
    finish();
    return 0;
}
