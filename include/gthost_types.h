/* gthost_types.h: the structs and numbers of gthost.h, which includes this file. */
#ifndef GTHOST_TYPES_H
#define GTHOST_TYPES_H

#include <stdbool.h>
#include <stddef.h>
#include <stdint.h>

/* The handle of a domain; all zeros if it has none. Only gthost_start and gthost_finish write it. */
struct gthost_domain {
    void *at;
    bool is_live;
    bool is_ready;
};

/* The largest number of frames of a domain. The library keeps none of them. */
#define GTHOST_MAX_FRAMES UINT32_MAX

/* The other limits of a run. */
enum {
    GTHOST_MAX_DOMAINS = 64,           /* domains of a run */
    GTHOST_FRAME_SIZE = 4096,          /* bytes of a frame */
    GTHOST_MAX_TABLE_FRAMES = 16,      /* frames of a grant table */
    GTHOST_LAST_VERSION = 2,           /* of a grant table; the first version is 1 */
    GTHOST_MAX_MAPPINGS = 8192,        /* mappings of a domain at a time */
    GTHOST_MAX_PINS = 4095,            /* pins of each kind on an entry at a time */
    GTHOST_LAST_GENERATION = 1048575,  /* of a reference, which is then worn */
    GTHOST_MOST_RESERVED = 16777216,   /* records for which one call makes room */
    GTHOST_DOMID_SELF = 0x7FF0         /* names the caller in a call about a domain */
};

/* A domain of a run to start. */
struct gthost_settings {
    uint32_t id;           /* its number: below GTHOST_DOMID_SELF, and not that of another domain */
    uint32_t label;        /* the number of its type in the policy: types count from 0, attributes don't count */
    uint32_t frames;       /* the number of its frames, 1 to GTHOST_MAX_FRAMES */
    uint32_t table_frames; /* the number of its grant table's frames, 1 to GTHOST_MAX_TABLE_FRAMES */
    uint32_t version;      /* of its grant table: 1 or GTHOST_LAST_VERSION */
};

/* Whether a run started, and if not, why. gthost_fault_text has each in words. */
enum gthost_fault_kind {
    GTHOST_FAULT_NONE = 0,
    GTHOST_FAULT_MEMORY = 1,       /* allocation failed */
    GTHOST_FAULT_HANDLES = 2,      /* their number is not that of the domains, or one has a domain */
    GTHOST_FAULT_SYNTAX = 3,       /* of the policy, in `line` */
    GTHOST_FAULT_UNKNOWN = 4,      /* a name that is not declared, in `line` */
    GTHOST_FAULT_TWICE = 5,        /* a name that is declared twice, in `line` */
    GTHOST_FAULT_PERMISSION = 6,   /* a word that is not a permission, in `line` */
    GTHOST_FAULT_OUTSIDE = 7,      /* a statement outside the supported language, in `line` */
    GTHOST_FAULT_LIMIT = 8,        /* the policy is too large, in `line` */
    GTHOST_FAULT_TEXT = 9,         /* the policy is not UTF-8 */
    GTHOST_FAULT_NO_DOMAINS = 10,
    GTHOST_FAULT_TOO_MANY = 11,    /* domains: `dom` is the first too many */
    GTHOST_FAULT_ID = 12,          /* the number `dom` is out of range; 65,535 for a larger one */
    GTHOST_FAULT_REPEATED = 13,    /* the number `dom` is given twice */
    GTHOST_FAULT_FRAMES = 14,      /* of `dom` are out of range */
    GTHOST_FAULT_TABLE_FRAMES = 15,/* of `dom` are out of range */
    GTHOST_FAULT_VERSION = 16,     /* of `dom` does not exist */
    GTHOST_FAULT_GENERATION = 17,  /* the first generation is above GTHOST_LAST_GENERATION */
    GTHOST_FAULT_NULL_POINTER = 18,/* a pointer is null */
    GTHOST_FAULT_LABEL = 19,       /* of `dom`: the policy has no such type */
    GTHOST_FAULT_NO_TYPE = 20      /* the policy does not declare a type of this name or number */
};

struct gthost_fault {
    uint32_t kind; /* enum gthost_fault_kind; GTHOST_FAULT_NONE if the run started */
    uint32_t line; /* of the policy, starting at 1; 0 if the fault is elsewhere, or the policy is not UTF-8 */
    uint32_t dom;  /* the domain with the fault, else 0 */
};

/*
 * The rule of an answer: GTHOST_OK; GTHOST_N1 to GTHOST_N26 for the rule that refused the call; or one of the others
 * if the call was not made, and nothing has changed. gthost_rule_text has each in words.
 */
enum gthost_rule {
    GTHOST_OK = 0,
    GTHOST_N1 = 1,   /* the domain named is not in the run, or its number is above 65,535 */
    GTHOST_N2 = 2,   /* flags or a version that the call does not accept */
    GTHOST_N3 = 3,   /* offset plus length is above GTHOST_FRAME_SIZE, or one of them is above 65,535 */
    GTHOST_N4 = 4,   /* a copy names a frame of another domain by its number */
    GTHOST_N5 = 5,   /* the policy denies it */
    GTHOST_N6 = 6,   /* the domain has no mapping with this name */
    GTHOST_N7 = 7,   /* a store through a read-only mapping (no call of this header) */
    GTHOST_N8 = 8,   /* the domain has GTHOST_MAX_MAPPINGS mappings, or all names were given */
    GTHOST_N9 = 9,   /* the reference is beyond the table */
    GTHOST_N10 = 10, /* the entry is invalid */
    GTHOST_N11 = 11, /* the entry permits another domain */
    GTHOST_N12 = 12, /* a map of an entry for copies only */
    GTHOST_N13 = 13, /* the entry is read-only */
    GTHOST_N14 = 14, /* the range is not inside the sub-page */
    GTHOST_N15 = 15, /* a transitive entry leads to another one */
    GTHOST_N16 = 16, /* the frame is not one of its owner's */
    GTHOST_N17 = 17, /* the entry has GTHOST_MAX_PINS pins of this kind */
    GTHOST_N18 = 18, /* the entry changed during all four tries */
    GTHOST_N19 = 19, /* the entry is in use: the answer's `word` has the pins */
    GTHOST_N20 = 20, /* the entry is valid already */
    GTHOST_N21 = 21, /* the entry given is invalid, or needs a table of version 2 */
    GTHOST_N22 = 22, /* the reference is worn */
    GTHOST_N23 = 23, /* more than GTHOST_MAX_TABLE_FRAMES frames */
    GTHOST_N24 = 24, /* the table has valid entries */
    GTHOST_N25 = 25, /* the bytes do not encode an entry */
    GTHOST_N26 = 26, /* allocation failed */
    GTHOST_NO_DOMAIN = 256, /* the handle has no domain */
    GTHOST_BUSY = 257,      /* the domain is in a copy: call gthost_copy_end, gthost_finish or gthost_reset */
    GTHOST_NO_MEMORY = 258, /* allocation failed for records */
    GTHOST_NO_COPY = 259,   /* the domain is not in a copy */
    GTHOST_ABSENT = 260,    /* there is no such mapping, record or entry */
    GTHOST_NULL_POINTER = 261 /* the pointer to the handle is null */
};

/* The flags of a map (xen/grant_table.h): GNTMAP_host_map, and with GNTMAP_readonly. */
enum { GTHOST_MAP_WRITABLE = 2, GTHOST_MAP_READ_ONLY = 6 };

/* The flags of a copy (GNTCOPY_ of xen/grant_table.h). */
enum { GTHOST_COPY_SOURCE_GREF = 1, GTHOST_COPY_DEST_GREF = 2 };

/* The kind of an answer: what its other fields mean. */
enum gthost_kind {
    GTHOST_NOTHING = 0,
    GTHOST_HANDLE = 1,  /* Ok: a new mapping; gthost_handle_of reads its name, gthost_mapped_of what it maps */
    GTHOST_FRAMES = 2,  /* Ok: `value` frames */
    GTHOST_TABLE_VERSION = 3, /* Ok: the version `value` */
    GTHOST_SIZE = 4,    /* Ok: `value` frames of at most `more` */
    GTHOST_POLICY = 5,  /* refused: the policy denies the type `source` the permission `detail` (enum gthost_permission)
                           on the type `target`; types count from 0, in the order of their declarations */
    GTHOST_FIELD = 6,   /* refused: the field `detail` of the entry's bytes (enum gthost_field) */
    GTHOST_HEADER = 7,  /* refused: the header `word` of the domain `dom` */
    GTHOST_ENTRY = 8,   /* refused: the control `word` of the entry `gref` of the domain `dom` */
    GTHOST_LEFT = 9,    /* Ok: the domain left or was reset; `value` records were lost, `more` entries are in use */
    GTHOST_TAKEN = 10,  /* Ok: `value` records were taken; `more` were lost before */
    GTHOST_FOLLOWED = 11, /* Ok: the entry is what its guest has written; `value` was done (enum gthost_followed) */
    GTHOST_RELEASED = 12, /* Ok: an unmap; the control `word` of the entry `gref` of the domain `dom` just after it */
    GTHOST_ENDED = 13,    /* Ok: a copy ended; the control words of the entries that it named just after it: `word` of
                             the source, `value` of the destination, 0 for an end that is a frame */
    GTHOST_REFERENCE = 14, /* Ok: the reference `gref` */
    GTHOST_MAPPED_ALL = 15 /* Ok: `value` mappings were added, one for each request */
};

/* What gthost_follow did to an entry. */
enum gthost_followed {
    GTHOST_FOLLOWED_SAME = 0,      /* nothing: it was already what the guest has written */
    GTHOST_FOLLOWED_DEMOTED = 1,   /* it was writable, and is now read-only */
    GTHOST_FOLLOWED_PROMOTED = 2,  /* it was read-only, and is now writable */
    GTHOST_FOLLOWED_WITHDRAWN = 3, /* it was valid, and is now invalid */
    GTHOST_FOLLOWED_GRANTED = 4    /* it is now the guest's entry; another valid one was withdrawn before */
};

/* The fields of an entry's bytes. */
enum gthost_field {
    GTHOST_FIELD_LENGTH = 1,
    GTHOST_FIELD_KIND = 2,
    GTHOST_FIELD_READING = 3,
    GTHOST_FIELD_WRITING = 4,
    GTHOST_FIELD_PWT = 5,
    GTHOST_FIELD_PCD = 6,
    GTHOST_FIELD_PAT = 7,
    GTHOST_FIELD_SUB_PAGE = 8,
    GTHOST_FIELD_RESERVED = 9
};

/* The permissions of the class grant. */
enum gthost_permission {
    GTHOST_PERM_MAP_READ = 1,
    GTHOST_PERM_MAP_WRITE = 2,
    GTHOST_PERM_UNMAP = 4,
    GTHOST_PERM_TRANSFER = 8,
    GTHOST_PERM_SETUP = 16,
    GTHOST_PERM_COPY = 32,
    GTHOST_PERM_QUERY = 64
};

/*
 * The result of a call. A field without a meaning is 0. No two results have the same answer. In the refusal of one map of
 * several `value` is 1, and `more` the index of its request. The `word` of an entry has
 * bit 0 set if it is valid, its read pins in bits 4 to 15, its write pins in 16 to 27, the domain that it permits in 28
 * to 43, and its generation in 44 to 63. The `word` of a header has the version in bits 0 and 1, and the number of
 * frames in 2 to 9.
 */
struct gthost_answer {
    uint32_t rule;   /* enum gthost_rule */
    int32_t status;  /* GNTST_ of xen/grant_table.h: 0, or negative if a rule refused the call */
    uint32_t kind;   /* enum gthost_kind */
    uint32_t gref;
    uint32_t source;
    uint32_t target;
    uint64_t word;
    uint64_t value; /* this and the next three lie as in struct gthost_handle */
    uint64_t more;
    uint32_t detail;
    uint32_t dom;
};

/*
 * The name of a mapping. No two mappings of a run have the same name. A call of another domain, or of a run with
 * another number, refuses it by N6.
 */
struct gthost_handle {
    uint64_t serial;
    size_t key;
    uint32_t run; /* the number of the run (gthost_start) */
    uint32_t dom; /* the domain that has the mapping */
};

/* Returns the name in an answer of the kind GTHOST_HANDLE. */
static inline struct gthost_handle gthost_handle_of(struct gthost_answer answer)
{
    const struct gthost_handle name = {answer.value, (size_t)answer.more, answer.detail, answer.dom};
    return name;
}

/* A map to make, as one of several (gthost_map_all): the arguments of gthost_map. The library writes the other two. */
struct gthost_map_request {
    uint32_t dom;
    uint32_t gref;
    uint32_t flags;
    uint64_t serial;
    size_t key;
};

/* What is mapped: the frame `frame` of `owner`, by its entry `gref`. `writes` is 1 if it may be written, else 0. */
struct gthost_mapping {
    uint64_t frame;
    uint32_t gref;
    uint32_t owner;
    uint32_t writes;
};

/* Returns what the new mapping maps, from an answer of the kind GTHOST_HANDLE. */
static inline struct gthost_mapping gthost_mapped_of(struct gthost_answer answer)
{
    const struct gthost_mapping mapping = {answer.word, answer.gref, answer.source, answer.target};
    return mapping;
}

/* Returns the pins for reading that a control word counts. */
static inline uint32_t gthost_reads_in(uint64_t word)
{
    return (uint32_t)(word >> 4) & 0xFFF;
}

/* Returns the pins for writing that a control word counts. */
static inline uint32_t gthost_writes_in(uint64_t word)
{
    return (uint32_t)(word >> 16) & 0xFFF;
}

/* Returns whether the control word is of a valid entry. */
static inline bool gthost_is_valid(uint64_t word)
{
    return (word & 1) != 0;
}

/* The kinds of entries. */
enum gthost_entry_kind {
    GTHOST_ENTRY_INVALID = 0,
    GTHOST_ENTRY_PAGE = 1,
    GTHOST_ENTRY_SUB = 2, /* bytes of a page, for copies */
    GTHOST_ENTRY_VIA = 3  /* another grant, for copies */
};

/* What a look at an entry found. */
struct gthost_entry_status {
    uint32_t kind;       /* enum gthost_entry_kind */
    uint32_t generation; /* GTHOST_LAST_GENERATION: the reference is worn */
    uint32_t reads;      /* live pins for reading: each mapping for reading is one, and each copy from the entry */
    uint32_t writes;     /* live pins for writing */
    uint32_t to;         /* the domain that it permits; 0 if it is invalid */
    uint32_t read_only;  /* 1 if it is read-only, else 0 */
    uint32_t granted_to; /* the domain that it permits, or permitted last if it is invalid: its pins are of that domain's
                            calls; 65,535 if it was never granted */
};

/* An end of a copy: `ptr` is a reference of the domain `dom`, or the number of one of the caller's own frames. */
struct gthost_end {
    uint64_t ptr;
    uint32_t dom;
    uint32_t off;
};

/* The arguments of a copy. */
struct gthost_copy {
    struct gthost_end source;
    struct gthost_end dest;
    uint32_t len;
    uint32_t flags; /* GTHOST_COPY_SOURCE_GREF and GTHOST_COPY_DEST_GREF: which ends are references */
};

/* A place: the byte `off` of the frame `frame` of `owner`. */
struct gthost_place {
    uint64_t frame;
    uint32_t owner;
    uint32_t off;
};

/* The places of a copy: `len` bytes may be read at `from` and written at `to`. */
struct gthost_places {
    struct gthost_place from;
    struct gthost_place to;
    uint32_t len;
};

/* The call of a record. */
enum gthost_call {
    GTHOST_CALL_MAP = 1,         /* of the entry `gref` of `dom`, with `flags` */
    GTHOST_CALL_UNMAP = 2,       /* of a mapping of the entry `gref` of `dom` */
    GTHOST_CALL_UNMAP_NONE = 3,  /* of a handle without a mapping */
    GTHOST_CALL_COPY = 4,        /* of `len` bytes from `source` to `dest`, with `flags` */
    GTHOST_CALL_QUERY_SIZE = 5,  /* of the table of `dom` */
    GTHOST_CALL_GET_VERSION = 6, /* of the table of `dom` */
    GTHOST_CALL_SET_VERSION = 7, /* `flags` is the version */
    GTHOST_CALL_SETUP_TABLE = 8  /* `flags` is the number of frames */
};

/* The record of a call. A field without a meaning is 0. */
struct gthost_record {
    uint32_t call;   /* enum gthost_call */
    uint32_t caller; /* the domain that called */
    uint32_t dom;    /* as the caller named it, so it may be GTHOST_DOMID_SELF */
    uint32_t gref;
    uint32_t flags;
    uint32_t len;
    struct gthost_end source;
    struct gthost_end dest;
    struct gthost_answer reply; /* the result, without a map's handle */
};

/* Whether there is such a mapping, and what it maps: all zeros if there is none. */
struct gthost_found_mapping {
    struct gthost_answer answer;
    struct gthost_mapping mapping;
};

/* Whether the table has such an entry, and what a look found: all zeros if it has none. */
struct gthost_found_entry {
    struct gthost_answer answer;
    struct gthost_entry_status entry;
};

/* Whether there is such a record, and its contents: all zeros if there is none. */
struct gthost_found_record {
    struct gthost_answer answer;
    struct gthost_record kept;
};

/* Whether a copy began, and its places: all zeros if it did not. */
struct gthost_begun_copy {
    struct gthost_answer answer;
    struct gthost_places places;
};

/* The bytes of an entry, as a guest writes it: the first `len`, 8 or 16. With any other `len` there are none. */
struct gthost_entry_bytes {
    uint64_t len;
    uint8_t bytes[16];
};

/* What a kind of fault means: `len` bytes, followed by zeros. */
struct gthost_text {
    size_t len;
    uint8_t bytes[80];
};

/* What a rule means: `len` bytes, followed by zeros. */
struct gthost_rule_line {
    size_t len;
    uint8_t bytes[240];
};

/* The length of a type's name, or why it has none: GTHOST_FAULT_NO_TYPE, or a fault of the policy. */
struct gthost_name {
    struct gthost_fault fault;
    size_t len;
};

/* The number of a type of a policy, or why there is none: GTHOST_FAULT_NO_TYPE, or a fault of the policy. */
struct gthost_type {
    struct gthost_fault fault;
    uint32_t label;
};

#endif
