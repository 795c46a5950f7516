/* The calls of a monitor that the driver makes. So one that allows all can stand in the library's place. */
#ifndef BLK_MONITOR_H
#define BLK_MONITOR_H

#include <gthost.h>

struct monitor {
    const char *name;
    struct gthost_fault (*start)(const struct gthost_settings *settings, size_t count, uint32_t first_gen,
                                 uint32_t run, const uint8_t *policy, size_t policy_len, struct gthost_domain *out,
                                 size_t out_count);
    struct gthost_answer (*finish)(struct gthost_domain *domain);
    struct gthost_answer (*grant_page)(struct gthost_domain *domain, uint32_t gref, uint32_t to, uint64_t frame,
                                       uint32_t ro);
    struct gthost_answer (*revoke)(struct gthost_domain *domain, uint32_t gref);
    struct gthost_answer (*map)(struct gthost_domain *domain, uint32_t dom, uint32_t gref, uint32_t flags);
    struct gthost_answer (*unmap)(struct gthost_domain *domain, struct gthost_handle name);
    struct gthost_found_mapping (*mapping)(struct gthost_domain *domain, struct gthost_handle name);
    struct gthost_begun_copy (*copy_begin)(struct gthost_domain *domain, struct gthost_copy copy);
    struct gthost_answer (*copy_end)(struct gthost_domain *domain);
};

/* The library. */
extern const struct monitor proved;
/* A stub that refuses nothing and keeps no pins. */
extern const struct monitor allow_all;

#endif
