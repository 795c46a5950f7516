/* A page that domain 1 shares with domain 2 for reading, and a driver in domain 2 that maps it for writing. */
#include "xg.h"

#include <stdio.h>
#include <sys/mman.h>
#include <xengnttab.h>

int main(void)
{
    const struct xg_domain domains[] = {{1, "front_t", 8, 1, 1, 0}, {2, "back_t", 8, 1, 1, 0}};
    uint32_t ref;
    const char *policy = "type front_t; type back_t; allow back_t front_t:grant { map_read map_write unmap };";
    if (!xg_start(domains, 2, policy, XG_REMAP)) {
        return 1;
    }
    xg_enter(1); /* from here on this thread is domain 1 */
    xengntshr_handle *front = xengntshr_open(NULL, 0);
    char *shared = xengntshr_share_pages(front, 2, 1, &ref, 0);
    if (!shared) {
        return 1;
    }
    xg_enter(2);
    xengnttab_handle *back = xengnttab_open(NULL, 0);
    char *page = xengnttab_map_grant_ref(back, 1, ref, PROT_READ | PROT_WRITE);
    if (!page) {
        perror("map for writing");
        page = xengnttab_map_grant_ref(back, 1, ref, PROT_READ);
    }
    snprintf(shared, 6, "hello");
    printf("%s\n", page ? page : "no page");
    xg_enter(1);
    xengntshr_unshare(front, shared, 1); /* refused: the page is in use, and is freed after its last unmap */
    xg_enter(2);
    xengnttab_close(back);
    return xg_stop() ? 1 : 0;
}
