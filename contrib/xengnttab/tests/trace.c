/* libxenvchan in one thread, and a back end that errs; all calls as a script. usage: trace SCRIPT ANSWERS [flags] */
#define _GNU_SOURCE
#include "xg.h"

#include <libxenvchan.h>
#include <stdio.h>
#include <string.h>
#include <sys/mman.h>
#include <xengnttab.h>

enum { SERVER = 1, CLIENT = 2 };
static const char POLICY[] = "type server_t; type client_t;\n"
                             "allow client_t server_t:grant { map_read map_write unmap copy };\n"
                             "allow server_t client_t:grant copy;\n";

int main(int argc, char **argv)
{
    const struct xg_domain domains[] = {{SERVER, "server_t", 64, 1, 1, 0}, {CLIENT, "client_t", 8, 1, 1, 0}};
    char bytes[512] = "hello";
    if (argc < 3) {
        return 2;
    }
    if (!xg_trace(argv[1], argv[2], argc > 3) || !xg_start(domains, 2, POLICY, XG_REMAP)) {
        return 1;
    }
    for (int order = 0; order < (argc > 3 ? 1 : 2); order++) { /* the client closes first, and then the server */
        xg_enter(SERVER);
        const size_t left = order ? 4096 : 1024, right = order ? 8192 : 2048;
        struct libxenvchan *server = libxenvchan_server_init(NULL, CLIENT, "/v", left, right);
        xg_enter(CLIENT);
        struct libxenvchan *client = libxenvchan_client_init(NULL, SERVER, "/v");
        if (!server || !client) {
            return 1;
        }
        server->blocking = client->blocking = 1;
        libxenvchan_send(server, bytes, 512);
        libxenvchan_recv(client, bytes, 512);
        if (!order) {
            libxenvchan_close(client);
        }
        xg_enter(SERVER);
        libxenvchan_close(server);
        xg_enter(CLIENT);
        if (order) {
            libxenvchan_close(client);
        }
    }
    if (argc > 3) {
        return xg_stop() ? 1 : 0;
    }
    /* a back end with a wrong reference, one that writes what is read-only, and one that is late */
    uint32_t refs[2];
    xg_enter(SERVER);
    xengntshr_handle *xgs = xengntshr_open(NULL, 0);
    void *pages = xengntshr_share_pages(xgs, CLIENT, 2, refs, 0);
    xg_enter(CLIENT);
    xengnttab_handle *xgt = xengnttab_open(NULL, 0);
    xengnttab_map_grant_ref(xgt, SERVER, refs[0] + 100, PROT_READ);
    xengnttab_map_grant_ref(xgt, SERVER, refs[0], PROT_READ | PROT_WRITE);
    xengnttab_map_domain_grant_refs(xgt, 2, SERVER, refs, PROT_READ);
    xengnttab_grant_copy_segment_t seg;
    memset(&seg, 0, sizeof seg);
    seg.source.foreign.ref = refs[1];
    seg.source.foreign.domid = SERVER;
    seg.dest.virt = bytes;
    seg.len = 512;
    seg.flags = GNTCOPY_source_gref;
    xengnttab_grant_copy(xgt, 1, &seg);
    seg.source.foreign.offset = 4000;
    xengnttab_grant_copy(xgt, 1, &seg);
    xg_enter(SERVER);
    xengntshr_unshare(xgs, pages, 2);
    xg_enter(CLIENT);
    xengnttab_map_grant_ref(xgt, SERVER, refs[1], PROT_READ);
    xengnttab_close(xgt);
    return xg_stop() ? 1 : 0;
}
