/* Makes the dumps of crates/cases_program/data/dumps from Xen's own header (Debian's libxen-dev):
 *
 *     cc -std=c11 -o entries tools/entries.c && ./entries v1 > one.bin && ./entries v2 > two.bin
 *
 * Each names its entries in the order of their references, on standard error. */
#define __XEN_INTERFACE_VERSION__ 0x00040d00 /* with the entries of version 2 */
#include <stdint.h>
#include <stdio.h>
#include <string.h>
#include <xen/xen.h>
#include <xen/grant_table.h>

static void v1(unsigned flags, unsigned dom, unsigned frame, const char *what) {
  grant_entry_v1_t e = {.flags = flags, .domid = dom, .frame = frame};
  fwrite(&e, sizeof e, 1, stdout);
  fprintf(stderr, "%s\n", what);
}

static void v2(grant_entry_v2_t e, const char *what) {
  fwrite(&e, sizeof e, 1, stdout);
  fprintf(stderr, "%s\n", what);
}

static grant_entry_v2_t page(unsigned flags, unsigned dom, uint64_t frame) {
  grant_entry_v2_t e;
  memset(&e, 0, sizeof e);
  e.full_page.hdr.flags = flags;
  e.full_page.hdr.domid = dom;
  e.full_page.frame = frame;
  return e;
}

static grant_entry_v2_t sub(unsigned flags, unsigned dom, uint64_t frame, unsigned off, unsigned len) {
  grant_entry_v2_t e = page(flags | GTF_sub_page, dom, frame);
  e.sub_page.page_off = off;
  e.sub_page.length = len;
  return e;
}

static grant_entry_v2_t via(unsigned flags, unsigned dom, unsigned to, unsigned ref) {
  grant_entry_v2_t e;
  memset(&e, 0, sizeof e);
  e.transitive.hdr.flags = flags;
  e.transitive.hdr.domid = dom;
  e.transitive.trans_domid = to;
  e.transitive.gref = ref;
  return e;
}

int main(int argc, char **argv) {
  if (argc == 2 && !strcmp(argv[1], "v1")) {
    v1(0, 0, 0, "0: nothing");
    v1(GTF_permit_access, 2, 5, "1: frame 5 for domain 2");
    v1(GTF_permit_access | GTF_readonly, 3, 63, "2: frame 63 for domain 3, read-only");
    v1(GTF_permit_access | GTF_reading, 2, 6, "3: frame 6 for domain 2, mapped for reading");
    v1(GTF_permit_access | GTF_reading | GTF_writing, 2, 0x12345, "4: frame 0x12345 for domain 2, mapped for writing");
    v1(GTF_accept_transfer, 2, 0, "5: a transfer");
    v1(GTF_permit_access | GTF_PWT, 2, 7, "6: with PWT");
    v1(GTF_permit_access | GTF_PCD, 2, 7, "7: with PCD");
    v1(GTF_permit_access | GTF_PAT, 2, 7, "8: with PAT");
    v1(GTF_permit_access | GTF_sub_page, 2, 7, "9: a sub-page, in version 1");
    v1(GTF_transitive, 2, 7, "10: transitive, in version 1");
    v1(GTF_permit_access | 512, 2, 7, "11: with bit 9");
    fwrite("\1\0\2", 3, 1, stdout);
    fprintf(stderr, "12: three bytes\n");
    return 0;
  }
  if (argc == 2 && !strcmp(argv[1], "v2")) {
    v2(page(GTF_permit_access, 2, 5), "0: frame 5 for domain 2");
    v2(sub(GTF_permit_access | GTF_readonly, 3, 7, 100, 50), "1: 50 bytes from 100 on of frame 7 for domain 3, read-only");
    v2(via(GTF_transitive, 4, 1, 9), "2: reference 9 of domain 1, for domain 4");
    v2(page(GTF_permit_access | GTF_writing, 2, 0x123456789abULL), "3: frame 0x123456789ab for domain 2, writing");
    v2(page(0, 0, 0), "4: nothing");
    v2(via(GTF_transitive | GTF_sub_page, 4, 1, 9), "5: transitive and a sub-page");
    return 0;
  }
  fprintf(stderr, "usage: entries v1|v2\n");
  return 2;
}
