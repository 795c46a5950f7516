#include "monitor.h"

const struct monitor proved = {
    .name = "gthost",
    .start = gthost_start,
    .finish = gthost_finish,
    .grant_page = gthost_grant_page,
    .revoke = gthost_revoke,
    .map = gthost_map,
    .unmap = gthost_unmap,
    .mapping = gthost_mapping,
    .copy_begin = gthost_copy_begin,
    .copy_end = gthost_copy_end,
};
