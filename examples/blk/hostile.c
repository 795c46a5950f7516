#include "hostile.h"

#include <stdio.h>

enum {
    READ_ONLY = 10, /* the front end's references: a page that the back end may read, */
    OF_OTHER = 11,  /* a page for another guest, */
    WRITABLE = 12,  /* a page that the back end may write, */
    BYTES = 13,     /* and 512 bytes of a page from the byte 1,024 on */
    NEVER = 99,
    PAST_TABLE = 600,
    DENIED = 10 /* of the other guest, for the back end */
};

static int wrong;
static struct gthost_answer answer;

static void wants(const char *what, uint32_t rule)
{
    char outcome[16] = "allowed";
    if (answer.rule >= GTHOST_NO_DOMAIN) {
        snprintf(outcome, sizeof outcome, "not made");
    } else if (answer.rule != GTHOST_OK) {
        snprintf(outcome, sizeof outcome, "N%u", answer.rule);
    }
    printf("  %-58s %s%s\n", what, outcome, answer.rule == rule ? "" : ", which is WRONG");
    wrong += answer.rule != rule;
}

static void holds(const char *what, bool is_it)
{
    printf("  %-58s %s\n", what, is_it ? "no page" : "a page, which is WRONG");
    wrong += !is_it;
}

static void grants(struct host *host)
{
    answer = gthost_grant_page(domain_of(host, FRONT), READ_ONLY, BACK, 4, true);
    wrong += answer.rule != GTHOST_OK;
    answer = gthost_grant_page(domain_of(host, FRONT), OF_OTHER, OTHER, 5, false);
    wrong += answer.rule != GTHOST_OK;
    answer = gthost_grant_page(domain_of(host, FRONT), WRITABLE, BACK, 6, false);
    wrong += answer.rule != GTHOST_OK;
    answer = gthost_grant_sub(domain_of(host, FRONT), BYTES, BACK, 7, 1024, 512, false);
    wrong += answer.rule != GTHOST_OK;
    answer = gthost_grant_page(domain_of(host, OTHER), DENIED, BACK, 1, false);
    wrong += answer.rule != GTHOST_OK;
}

static void maps(struct gthost_domain *back)
{
    answer = gthost_map(back, FRONT, READ_ONLY, GTHOST_MAP_WRITABLE);
    wants("maps for writing what is granted for reading", 13);
    answer = gthost_map(back, FRONT, OF_OTHER, GTHOST_MAP_READ_ONLY);
    wants("maps what is granted to another", 11);
    answer = gthost_map(back, FRONT, NEVER, GTHOST_MAP_READ_ONLY);
    wants("maps what is not granted", 10);
    answer = gthost_map(back, FRONT, PAST_TABLE, GTHOST_MAP_READ_ONLY);
    wants("maps past the end of the table", 9);
    answer = gthost_map(back, DOMAINS + 1, READ_ONLY, GTHOST_MAP_READ_ONLY);
    wants("maps of a domain that there is not", 1);
    answer = gthost_map(back, FRONT, READ_ONLY, 3);
    wants("maps with flags that there are not", 2);
    answer = gthost_map(back, OTHER, DENIED, GTHOST_MAP_READ_ONLY);
    wants("maps of a guest that the policy does not give it", 5);
}

static void keeps(struct host *host)
{
    struct gthost_domain *front = domain_of(host, FRONT), *back = domain_of(host, BACK);
    struct gthost_handle name = {0, 0, 0, 0};
    guest_map(host, BACK, FRONT, WRITABLE, true, &name);
    answer = gthost_revoke(front, WRITABLE);
    wants("keeps its mapping, and the front end revokes", 19);
    answer = gthost_withdraw(front, WRITABLE);
    wants("keeps its mapping, and the front end withdraws", GTHOST_OK);
    answer = gthost_map(back, FRONT, WRITABLE, GTHOST_MAP_READ_ONLY);
    wants("maps the withdrawn page once more", 10);
    answer = gthost_grant_page(front, WRITABLE, OTHER, 6, false);
    wants("keeps its mapping, and the front end grants to another", 19);
    answer = gthost_unmap(domain_of(host, OTHER), name);
    wants("lends its handle to another guest", 6);
    answer = gthost_unmap(back, name);
    wants("unmaps", GTHOST_OK);
    answer = gthost_unmap(back, name);
    wants("unmaps once more", 6);
    holds("uses the handle after that", !guest_page(host, BACK, name, false));
    guest_map(host, BACK, FRONT, READ_ONLY, false, &name);
    holds("writes through a mapping for reading", guest_page(host, BACK, name, false) && !guest_page(host, BACK, name, true));
    wrong += !guest_unmap(host, BACK, name);
}

static void copies_out(struct gthost_domain *back, uint32_t gref, uint16_t off, uint16_t len)
{
    const struct gthost_copy copy = {{gref, FRONT, off}, {0, BACK, 0}, len, GTHOST_COPY_SOURCE_GREF};
    answer = gthost_copy_begin(back, copy).answer;
}

static void copies_in(struct gthost_domain *back, uint32_t gref, uint64_t from, uint16_t from_dom, uint16_t len)
{
    const struct gthost_copy copy = {{from, from_dom, 0}, {gref, FRONT, 1024}, len, GTHOST_COPY_DEST_GREF};
    answer = gthost_copy_begin(back, copy).answer;
}

static void copies(struct host *host)
{
    struct gthost_domain *front = domain_of(host, FRONT), *back = domain_of(host, BACK);
    copies_out(back, READ_ONLY, 4000, 200);
    wants("copies past the end of a page", 3);
    copies_out(back, BYTES, 1024, 513);
    wants("copies past the bytes that are granted", 14);
    copies_out(back, BYTES, 1023, 10);
    wants("copies from before the bytes that are granted", 14);
    copies_in(back, READ_ONLY, 0, BACK, 16);
    wants("copies to what is granted for reading", 13);
    copies_in(back, WRITABLE, 5, FRONT, 16);
    wants("copies from a foreign frame by its number", 4);
    copies_in(back, WRITABLE, FRAMES, BACK, 16);
    wants("copies from a frame that it does not have", 16);
    answer = gthost_map(back, FRONT, BYTES, GTHOST_MAP_READ_ONLY);
    wants("maps the page of which some bytes are granted", 12);
    answer = gthost_copy_end(back);
    wants("ends a copy that it has not begun", GTHOST_NO_COPY);
    copies_in(back, BYTES, 0, BACK, 512);
    wants("copies to the bytes that are granted", GTHOST_OK);
    answer = gthost_revoke(front, BYTES);
    wants("is in its copy, and the front end revokes", 19);
    answer = gthost_map(back, FRONT, WRITABLE, GTHOST_MAP_WRITABLE);
    wants("is in its copy, and maps", GTHOST_BUSY);
    answer = gthost_copy_end(back);
    wants("ends its copy", GTHOST_OK);
    answer = gthost_revoke(front, BYTES);
    wants("has ended its copy, and the front end revokes", GTHOST_OK);
}

int hostile_run(struct host *host)
{
    if (!host_start(host, &proved)) {
        return 1;
    }
    printf("a hostile back end\n");
    grants(host);
    maps(domain_of(host, BACK));
    copies(host);
    keeps(host);
    host_finish(host);
    return wrong;
}
