/* The capability side of a small hypervisor: the functions of librudozhev.a.
 *
 * Tables, blocks and lists are the caller's: each is lent for one call as a
 * pointer to 32-bit words and their number, and what belongs to an information
 * page as one to bytes or numbers. A pointer may be null where the number is 0.
 * Any words and bytes in slices of any length are accepted; slices that a call
 * may write must not overlap the others, and nobody else may write any of them
 * while it runs: a block that a guest can write is copied first. The functions
 * keep no pointer and have no state.
 *
 * The functions below that put a word together make one that the calls refuse
 * where a part does not fit; each says which.
 *
 * docs/INTERFACE.md has the meaning of every word, docs/LINKING.md what the
 * caller keeps.
 */
#ifndef RUDOZHEV_H
#define RUDOZHEV_H

#include <stdbool.h>
#include <stddef.h>
#include <stdint.h>

/* A pointer to words that the call may write, and that none of its other slices has. */
#if defined(__cplusplus)
#define RUDOZHEV_APART __restrict
#else
#define RUDOZHEV_APART restrict
#endif

/* A function whose answer is lost only by mistake. */
#if defined(__GNUC__)
#define RUDOZHEV_ANSWERS __attribute__((warn_unused_result))
#else
#define RUDOZHEV_ANSWERS
#endif

#ifdef __cplusplus
extern "C" {
#endif

/* Sizes. */
enum {
    RUDOZHEV_DOMAINS = 8,            /* 0 is the hypervisor, 1 the root */
    RUDOZHEV_SPACES = 3,             /* of a domain */
    RUDOZHEV_PAGE_SELECTORS = 64,    /* of a memory space, and of an I/O space */
    RUDOZHEV_OBJECT_SELECTORS = 256, /* of an object space */
    RUDOZHEV_DOMAIN_PLACES = 384,    /* of each domain: the stride from one to the next */
    RUDOZHEV_PLACES = 3072,          /* of all domains */
    RUDOZHEV_PLACE_WIDTH = 4,        /* resource, permissions, parent place plus 1, depth */
    RUDOZHEV_PLACE_WORDS = 12288,    /* the place table */
    RUDOZHEV_RECORDS = 64,           /* object records */
    RUDOZHEV_RECORD_WIDTH = 5,       /* the kind and four more */
    RUDOZHEV_OBJECT_WORDS = 320,     /* the object table */
    RUDOZHEV_DUMP_BYTES = 50432,     /* both tables as bytes */
    RUDOZHEV_BLOCK_WORDS = 64,       /* a message block */
    RUDOZHEV_HEADER_WORDS = 4,       /* of a block, before its data */
    RUDOZHEV_DATA_WORDS = 60,        /* of a block, for untyped words and typed items */
    RUDOZHEV_ITEM_WORDS = 2          /* of a typed item: its second word, then its descriptor */
};

/* Limits. */
enum {
    RUDOZHEV_GREATEST_DEPTH = 63,       /* of a place: its ancestors */
    RUDOZHEV_PAGE_ORDER = 6,            /* of a range of pages or ports: it has 2^order selectors */
    RUDOZHEV_OBJECT_ORDER = 8,          /* of a range of objects */
    RUDOZHEV_GREATEST_PRIORITY = 255,   /* of an SC */
    RUDOZHEV_GREATEST_QUANTUM = 1048575 /* of an SC */
};

/* The words of a block where its receiver has its windows, before the data. */
enum { RUDOZHEV_TRANSLATE_WINDOW = 1, RUDOZHEV_DELEGATE_WINDOW = 2 };

/* Objects that boot makes, and the root selectors of the last three. */
enum {
    RUDOZHEV_ROOT_PD = 28,
    RUDOZHEV_ROOT_EC = 29,
    RUDOZHEV_ROOT_SC = 30,
    RUDOZHEV_ROOT_PD_SELECTOR = 32,
    RUDOZHEV_ROOT_EC_SELECTOR = 33,
    RUDOZHEV_ROOT_SC_SELECTOR = 34
};

/* The pages that boot lends to the root from the hypervisor, in both at the selector of the page's number. */
enum {
    RUDOZHEV_ROOT_UTCB_PAGE = 62,  /* the UTCB of the root's EC, to read and write */
    RUDOZHEV_INFORMATION_PAGE = 63 /* what the hypervisor tells of the machine, to read */
};

/* Statuses. All but SUCCESS leave every word of tables, blocks and lists as it was. */
enum {
    RUDOZHEV_SUCCESS = 0,
    RUDOZHEV_COM_TIM = 1,     /* the callee is the caller, or a semaphore is at 0 */
    RUDOZHEV_BAD_HYP = 3,     /* the hypercall number is not built */
    RUDOZHEV_BAD_CAP = 4,     /* a capability is missing, or a new place is taken */
    RUDOZHEV_BAD_PAR = 5,     /* a parameter is out of its bounds, or a REVOKE's mask has no permission of its space */
    RUDOZHEV_BAD_CPU = 7,     /* a CPU does not exist, or is not the caller's */
    RUDOZHEV_NO_ROOM = 16,    /* no free record, or no further domain */
    RUDOZHEV_DAMAGED = 17,    /* the tables break a rule of soundness; for a repair, they still would after it */
    RUDOZHEV_BAD_CALLER = 18, /* the caller's number is not that of an EC */
    RUDOZHEV_SHORT = 19       /* the list is too short; the answer is the count needed */
};

/* Hypercall numbers, with the words a, b, .. that each takes after the caller.
 * A hypercall does not read the words that it does not take. */
enum {
    RUDOZHEV_CALL = 0,      /* portal; and both blocks */
    RUDOZHEV_CREATE_PD = 2, /* new selector, PD selector, initial descriptor */
    RUDOZHEV_CREATE_EC = 3, /* new selector, PD selector, CPU, event base */
    RUDOZHEV_CREATE_SC = 4, /* new selector, PD selector, EC selector, QPD */
    RUDOZHEV_CREATE_PT = 5, /* new selector, PD selector, EC selector, MTD, IP, identifier */
    RUDOZHEV_CREATE_SM = 6, /* new selector, PD selector, count */
    RUDOZHEV_REVOKE = 7,    /* descriptor, self word */
    RUDOZHEV_LOOKUP = 8,    /* descriptor */
    RUDOZHEV_SM_CTRL = 11   /* selector, operation */
};

/* Operations of SM_CTRL. */
enum rudozhev_operation { RUDOZHEV_UP = 0, RUDOZHEV_DOWN = 1 };

/* Spaces of a domain. */
enum rudozhev_space { RUDOZHEV_MEMORY = 0, RUDOZHEV_IO = 1, RUDOZHEV_OBJECT = 2 };

/* How many selectors a space has, and the order of the range that is the whole space.
 * There are no selectors where there is no such space. */
RUDOZHEV_ANSWERS static inline uint32_t rudozhev_selectors(enum rudozhev_space space) {
    if ((uint32_t)space >= RUDOZHEV_SPACES) {
        return 0;
    }
    return space == RUDOZHEV_OBJECT ? RUDOZHEV_OBJECT_SELECTORS : RUDOZHEV_PAGE_SELECTORS;
}
RUDOZHEV_ANSWERS static inline uint32_t rudozhev_greatest_order(enum rudozhev_space space) {
    return space == RUDOZHEV_OBJECT ? RUDOZHEV_OBJECT_ORDER : RUDOZHEV_PAGE_ORDER;
}

/* The descriptor of no range, one that every call refuses (of order 31), and the
 * mask of all permissions. */
#define RUDOZHEV_NULL UINT32_C(0)
#define RUDOZHEV_MALFORMED UINT32_C(3969)
#define RUDOZHEV_FULL_MASK UINT32_C(31)

/* The status of a reply, that of boot, a hypercall, a census or a repair, is its high half. */
RUDOZHEV_ANSWERS static inline uint32_t rudozhev_status(uint64_t reply) {
    return (uint32_t)(reply >> 32);
}

/* What a reply answers beside its status is its low half. */
RUDOZHEV_ANSWERS static inline uint32_t rudozhev_answer(uint64_t reply) {
    return (uint32_t)reply;
}

/* The descriptor word of an aligned range of 2^order selectors. RUDOZHEV_MALFORMED
 * where the order is above the greatest of the space, the base no selector of it or no
 * multiple of 2^order, the mask above 31, or the space none: hypercalls refuse that with
 * BAD_PAR, and as an item or a window it moves nothing. */
RUDOZHEV_ANSWERS static inline uint32_t rudozhev_range(enum rudozhev_space space, uint32_t base, uint32_t order,
                                                       uint32_t mask) {
    if (order > rudozhev_greatest_order(space) || base >= rudozhev_selectors(space) ||
        (base & ((UINT32_C(1) << order) - 1)) != 0 || mask > RUDOZHEV_FULL_MASK) {
        return RUDOZHEV_MALFORMED;
    }
    return base << 12 | order << 7 | mask << 2 | ((uint32_t)space + 1);
}

/* The first selector of a descriptor's range, its order and its mask; in an answer
 * of LOOKUP the mask is the permissions. */
RUDOZHEV_ANSWERS static inline uint32_t rudozhev_base(uint32_t descriptor) {
    return descriptor >> 12;
}
RUDOZHEV_ANSWERS static inline uint32_t rudozhev_order(uint32_t descriptor) {
    return descriptor >> 7 & 31;
}
RUDOZHEV_ANSWERS static inline uint32_t rudozhev_mask(uint32_t descriptor) {
    return descriptor >> 2 & RUDOZHEV_FULL_MASK;
}

/* The place number of a selector in a space of a domain. RUDOZHEV_PLACES, which no
 * place has and a census refuses with BAD_PAR, where one of the three does not exist. */
RUDOZHEV_ANSWERS static inline uint32_t rudozhev_place(uint32_t domain, enum rudozhev_space space, uint32_t selector) {
    if (domain >= RUDOZHEV_DOMAINS || selector >= rudozhev_selectors(space)) {
        return RUDOZHEV_PLACES;
    }
    /* Memory and I/O, which come before the object space, are of one size. */
    return domain * RUDOZHEV_DOMAIN_PLACES + (uint32_t)space * RUDOZHEV_PAGE_SELECTORS + selector;
}

/* What a place number stands for: one that a census lists or a damage report names, or
 * that a parent word less 1 is. */
struct rudozhev_position {
    uint32_t domain; /* RUDOZHEV_DOMAINS, which there is not, for a number that no place has */
    enum rudozhev_space space;
    uint32_t selector;
};

/* Takes a place number apart. */
RUDOZHEV_ANSWERS static inline struct rudozhev_position rudozhev_read_place(uint32_t place) {
    struct rudozhev_position position = {RUDOZHEV_DOMAINS, RUDOZHEV_MEMORY, 0};
    if (place < RUDOZHEV_PLACES) {
        const uint32_t at = place % RUDOZHEV_DOMAIN_PLACES;
        position.domain = place / RUDOZHEV_DOMAIN_PLACES;
        position.space = at < RUDOZHEV_PAGE_SELECTORS       ? RUDOZHEV_MEMORY
                         : at < 2 * RUDOZHEV_PAGE_SELECTORS ? RUDOZHEV_IO
                                                            : RUDOZHEV_OBJECT;
        position.selector = at - (uint32_t)position.space * RUDOZHEV_PAGE_SELECTORS;
    }
    return position;
}

/* The second word, as sent, of a typed item that translates, and of one that delegates: from
 * domain 0 where the root says so. A hotspot is read modulo the size of a range, 256 at
 * most, so the bits above its low 20, which find no room in the word, have no meaning. */
#define RUDOZHEV_TRANSLATION UINT32_C(0)
RUDOZHEV_ANSWERS static inline uint32_t rudozhev_delegation(uint32_t hotspot, bool from_hypervisor) {
    return hotspot << 12 | (uint32_t)from_hypervisor << 11 | 1;
}

/* Word 0 of a message block: the numbers of untyped words and of typed items. Where
 * they do not fit a block it is a word that says too many, which CALL refuses with
 * BAD_PAR. */
RUDOZHEV_ANSWERS static inline uint32_t rudozhev_counts(uint32_t untyped, uint32_t typed) {
    if (untyped > RUDOZHEV_DATA_WORDS || typed > (RUDOZHEV_DATA_WORDS - untyped) / RUDOZHEV_ITEM_WORDS) {
        return UINT32_MAX;
    }
    return typed << 16 | untyped;
}

/* Priority and quantum of an SC. 0, which CREATE_SC refuses with BAD_PAR, where one of
 * them is too great. */
RUDOZHEV_ANSWERS static inline uint32_t rudozhev_qpd(uint32_t priority, uint32_t quantum) {
    if (priority > RUDOZHEV_GREATEST_PRIORITY || quantum > RUDOZHEV_GREATEST_QUANTUM) {
        return 0;
    }
    return quantum << 12 | priority;
}

/* Writes the tables as they are when the controller starts, whatever they held.
 * DAMAGED where a length is wrong. */
RUDOZHEV_ANSWERS uint64_t rudozhev_boot(uint32_t *RUDOZHEV_APART places, size_t place_words,
                                        uint32_t *RUDOZHEV_APART objects, size_t object_words);

/* Runs a hypercall by the EC with the object number `caller`. CALL alone reads
 * the source block, the caller's, and writes the target block, the callee's. */
RUDOZHEV_ANSWERS uint64_t rudozhev_hypercall(uint32_t number, uint32_t caller, uint32_t a, uint32_t b, uint32_t c,
                                             uint32_t d, uint32_t e, uint32_t f, uint32_t *RUDOZHEV_APART places,
                                             size_t place_words, uint32_t *RUDOZHEV_APART objects, size_t object_words,
                                             const uint32_t *source, size_t source_words,
                                             uint32_t *RUDOZHEV_APART target, size_t target_words);

/* Writes the numbers of the places that descend from a place, rising, at the
 * start of the list, and answers how many they are. */
RUDOZHEV_ANSWERS uint64_t rudozhev_census(uint32_t place, const uint32_t *places, size_t place_words,
                                          const uint32_t *objects, size_t object_words, uint32_t *RUDOZHEV_APART list,
                                          size_t list_words);

/* The first broken rule of soundness, 1 to 12, in the high half, 0 where the
 * tables are sound; in the low half the lowest record that breaks it, or
 * RUDOZHEV_RECORDS plus the lowest place. Rule 1, of the lengths, has 0 there.
 * rudozhev_read_damage takes the report apart. */
RUDOZHEV_ANSWERS uint64_t rudozhev_damage(const uint32_t *places, size_t place_words, const uint32_t *objects,
                                          size_t object_words);

/* Where a rule of soundness is broken. */
enum rudozhev_where {
    RUDOZHEV_NOWHERE = 0,   /* the tables are sound, or their lengths are wrong */
    RUDOZHEV_AT_RECORD = 1, /* at an object record */
    RUDOZHEV_AT_PLACE = 2   /* at a place */
};

/* What a report of rudozhev_damage says. */
struct rudozhev_breach {
    uint32_t rule;             /* 1 to 12, or 0 where the tables are sound */
    enum rudozhev_where where; /* what breaks it */
    uint32_t number;           /* of that record or place, or 0 */
};

/* Takes a report of rudozhev_damage apart. */
RUDOZHEV_ANSWERS static inline struct rudozhev_breach rudozhev_read_damage(uint64_t report) {
    struct rudozhev_breach breach = {(uint32_t)(report >> 32), RUDOZHEV_NOWHERE, 0};
    const uint32_t number = (uint32_t)report;
    if (breach.rule > 1) {
        breach.where = number < RUDOZHEV_RECORDS ? RUDOZHEV_AT_RECORD : RUDOZHEV_AT_PLACE;
        breach.number = number < RUDOZHEV_RECORDS ? number : number - RUDOZHEV_RECORDS;
    }
    return breach;
}

/* 1 where the tables are sound, 0 where they are damaged. Faster than rudozhev_damage;
 * every hypercall and census makes this test first. */
RUDOZHEV_ANSWERS uint32_t rudozhev_sound(const uint32_t *places, size_t place_words, const uint32_t *objects,
                                         size_t object_words);

/* Makes damaged tables sound by taking away, where that can be done: empties every null place
 * that has words left, and outside domain 0 every live place that has no whole chain of parents.
 * It gives nothing, and only reads the objects. Answers how many capabilities were lost; sound
 * tables lose none and stay as they are. DAMAGED, and no word changes, where a length is wrong,
 * a record breaks a rule of soundness, or a place of domain 0 is not as at boot, other than a
 * null one that boot left null. */
RUDOZHEV_ANSWERS uint64_t rudozhev_repair(uint32_t *RUDOZHEV_APART places, size_t place_words, const uint32_t *objects,
                                          size_t object_words);

/* How many untyped words a block has; they begin at word RUDOZHEV_HEADER_WORDS.
 * None for a block of another length, or whose counts do not fit. */
RUDOZHEV_ANSWERS uint64_t rudozhev_untyped(const uint32_t *block, size_t block_words);

/* Both tables and a message block, of the right lengths, for the hypercalls by name.
 * Each of these is rudozhev_hypercall with the words that it takes, and answers its
 * reply. Selectors are read in the caller's domain; `created` is where the capability
 * on the new object is put, `pd` a PD capability that lets it be created.
 *
 * The bytes of the tables in memory, on x86-64, are a dump: a file that has them and
 * nothing else is one that ./inspect reads. */
struct rudozhev_tables {
    uint32_t places[RUDOZHEV_PLACE_WORDS];
    uint32_t objects[RUDOZHEV_OBJECT_WORDS];
};
struct rudozhev_block {
    uint32_t words[RUDOZHEV_BLOCK_WORDS];
};

/* Why a received item is null. Where several reasons apply, it is the one of least number. */
enum rudozhev_reason {
    RUDOZHEV_REASON_NONE = 0,              /* it is not null */
    RUDOZHEV_REASON_NULL = 1,              /* the item's descriptor is null, or its window */
    RUDOZHEV_REASON_MALFORMED = 2,         /* the item's descriptor is malformed, or its window */
    RUDOZHEV_REASON_TYPES_DIFFER = 3,      /* they are of different spaces */
    RUDOZHEV_REASON_NOTHING_FILLED = 4,    /* the delegation filled no place */
    RUDOZHEV_REASON_TRANSLATION_BROKE = 5, /* the range did not come from one range inside the window */
    RUDOZHEV_REASON_NO_ITEM = 8            /* the message has no such item */
};

/* A typed item as it is received. Words that no CALL has written may have the reasons 6 and 7. */
struct rudozhev_item {
    bool delegates;              /* or else it translates */
    uint32_t range;              /* the descriptor of what was filled or translated, or RUDOZHEV_NULL */
    enum rudozhev_reason reason; /* why it is RUDOZHEV_NULL, or RUDOZHEV_REASON_NONE */
};

/* Reads an item of a received message; the first is item 0. There is none where the
 * message has fewer, or where its counts do not fit a block. */
RUDOZHEV_ANSWERS static inline struct rudozhev_item rudozhev_received(const struct rudozhev_block *block,
                                                                      uint32_t item) {
    struct rudozhev_item received = {false, RUDOZHEV_NULL, RUDOZHEV_REASON_NO_ITEM};
    const uint32_t untyped = block->words[0] & 0xffff, typed = block->words[0] >> 16;
    if (untyped + RUDOZHEV_ITEM_WORDS * typed <= RUDOZHEV_DATA_WORDS && item < typed) {
        const uint32_t second = block->words[RUDOZHEV_BLOCK_WORDS - 2 - RUDOZHEV_ITEM_WORDS * item];
        received.delegates = (second & 1) != 0;
        received.range = block->words[RUDOZHEV_BLOCK_WORDS - 1 - RUDOZHEV_ITEM_WORDS * item];
        received.reason = (enum rudozhev_reason)(second >> 1 & 7);
    }
    return received;
}

/* A hypercall other than CALL, by its number and words. */
RUDOZHEV_ANSWERS static inline uint64_t rudozhev_without_blocks(uint32_t number, struct rudozhev_tables *tables,
                                                                uint32_t caller, uint32_t a, uint32_t b, uint32_t c,
                                                                uint32_t d, uint32_t e, uint32_t f) {
    return rudozhev_hypercall(number, caller, a, b, c, d, e, f, tables->places, RUDOZHEV_PLACE_WORDS, tables->objects,
                              RUDOZHEV_OBJECT_WORDS, NULL, 0, NULL, 0);
}

/* Sends a message through a portal; answers how many places it filled. */
RUDOZHEV_ANSWERS static inline uint64_t rudozhev_call(struct rudozhev_tables *tables, uint32_t caller, uint32_t portal,
                                                      const struct rudozhev_block *source,
                                                      struct rudozhev_block *RUDOZHEV_APART target) {
    return rudozhev_hypercall(RUDOZHEV_CALL, caller, portal, 0, 0, 0, 0, 0, tables->places, RUDOZHEV_PLACE_WORDS,
                              tables->objects, RUDOZHEV_OBJECT_WORDS, source->words, RUDOZHEV_BLOCK_WORDS,
                              target->words, RUDOZHEV_BLOCK_WORDS);
}

/* Makes a protection domain, and delegates the caller's object range `initial` to it. */
RUDOZHEV_ANSWERS static inline uint64_t rudozhev_create_pd(struct rudozhev_tables *tables, uint32_t caller,
                                                           uint32_t created, uint32_t pd, uint32_t initial) {
    return rudozhev_without_blocks(RUDOZHEV_CREATE_PD, tables, caller, created, pd, initial, 0, 0, 0);
}

/* Makes an execution context in the domain of the named PD. */
RUDOZHEV_ANSWERS static inline uint64_t rudozhev_create_ec(struct rudozhev_tables *tables, uint32_t caller,
                                                           uint32_t created, uint32_t pd, uint32_t cpu,
                                                           uint32_t event_base) {
    return rudozhev_without_blocks(RUDOZHEV_CREATE_EC, tables, caller, created, pd, cpu, event_base, 0, 0);
}

/* Makes a scheduling context for an EC, by the word of rudozhev_qpd. */
RUDOZHEV_ANSWERS static inline uint64_t rudozhev_create_sc(struct rudozhev_tables *tables, uint32_t caller,
                                                           uint32_t created, uint32_t pd, uint32_t ec, uint32_t qpd) {
    return rudozhev_without_blocks(RUDOZHEV_CREATE_SC, tables, caller, created, pd, ec, qpd, 0, 0);
}

/* Makes a portal to an EC. */
RUDOZHEV_ANSWERS static inline uint64_t rudozhev_create_pt(struct rudozhev_tables *tables, uint32_t caller,
                                                           uint32_t created, uint32_t pd, uint32_t ec, uint32_t mtd,
                                                           uint32_t ip, uint32_t identifier) {
    return rudozhev_without_blocks(RUDOZHEV_CREATE_PT, tables, caller, created, pd, ec, mtd, ip, identifier);
}

/* Makes a semaphore. */
RUDOZHEV_ANSWERS static inline uint64_t rudozhev_create_sm(struct rudozhev_tables *tables, uint32_t caller,
                                                           uint32_t created, uint32_t pd, uint32_t count) {
    return rudozhev_without_blocks(RUDOZHEV_CREATE_SM, tables, caller, created, pd, count, 0, 0, 0);
}

/* Takes the mask's permissions from all that was lent from a range, and from the range
 * itself if asked. A mask without a permission of the range's space gives BAD_PAR: in memory
 * one without a bit of 7, in I/O one without bit 0, for objects mask 0. */
RUDOZHEV_ANSWERS static inline uint64_t rudozhev_revoke(struct rudozhev_tables *tables, uint32_t caller, uint32_t range,
                                                        bool with_self) {
    return rudozhev_without_blocks(RUDOZHEV_REVOKE, tables, caller, range, with_self, 0, 0, 0, 0);
}

/* Answers the descriptor of the largest range around the base of one, or RUDOZHEV_NULL. */
RUDOZHEV_ANSWERS static inline uint64_t rudozhev_lookup(struct rudozhev_tables *tables, uint32_t caller, uint32_t at) {
    return rudozhev_without_blocks(RUDOZHEV_LOOKUP, tables, caller, at, 0, 0, 0, 0, 0);
}

/* Counts a semaphore up or down. */
RUDOZHEV_ANSWERS static inline uint64_t rudozhev_sm_ctrl(struct rudozhev_tables *tables, uint32_t caller,
                                                         uint32_t semaphore, enum rudozhev_operation operation) {
    return rudozhev_without_blocks(RUDOZHEV_SM_CTRL, tables, caller, semaphore, (uint32_t)operation, 0, 0, 0, 0);
}

/* The information page, which tells the root about the machine. A page is bytes: a
 * header, a descriptor for each CPU and one for each range of memory. What the functions
 * answer follows from the bytes alone; they know nothing of the tables. */

/* Sizes of the information page, in bytes but for the number of fields. */
enum {
    RUDOZHEV_HIP_HEADER_BYTES = 56,       /* of the header, after which the CPU descriptors begin */
    RUDOZHEV_HIP_CPU_BYTES = 4,           /* of a CPU descriptor */
    RUDOZHEV_HIP_MEMORY_BYTES = 24,       /* of a memory descriptor */
    RUDOZHEV_HIP_GREATEST_LENGTH = 65535, /* of a page */
    RUDOZHEV_HIP_FIELDS = 10              /* fields of a header that may have any value */
};

/* The fields of a header, in its order. */
enum rudozhev_hip_field {
    RUDOZHEV_HIP_FEATURES = 0,      /* a bit for each feature that the hypervisor supports */
    RUDOZHEV_HIP_API_VERSION = 1,   /* of the interface */
    RUDOZHEV_HIP_SEL = 2,           /* selectors of an object space */
    RUDOZHEV_HIP_EXC = 3,           /* selectors for exception handling */
    RUDOZHEV_HIP_VMI = 4,           /* selectors for virtual-machine intercepts */
    RUDOZHEV_HIP_GSI = 5,           /* global system interrupts */
    RUDOZHEV_HIP_PAGE_SIZES = 6,    /* bit n: pages of 2^n bytes are supported */
    RUDOZHEV_HIP_UTCB_SIZES = 7,    /* bit n: UTCBs of 2^n bytes are supported */
    RUDOZHEV_HIP_TSC_FREQUENCY = 8, /* of the time stamp counter, in kHz */
    RUDOZHEV_HIP_BUS_FREQUENCY = 9  /* of the interconnect, in kHz */
};

/* Why a page is refused, by the reader up to TYPE and by the writer from there on. It is the
 * first test that fails. */
enum rudozhev_hip_refusal {
    RUDOZHEV_HIP_ACCEPTED = 0,  /* it is not refused */
    RUDOZHEV_HIP_SHORT = 1,     /* there are fewer bytes than a header has */
    RUDOZHEV_HIP_SIGNATURE = 2, /* the first four bytes are others */
    RUDOZHEV_HIP_LENGTH = 3,    /* the length field is not the number of bytes */
    RUDOZHEV_HIP_LAYOUT = 4,    /* offsets and sizes do not divide the bytes into whole descriptors */
    RUDOZHEV_HIP_CHECKSUM = 5,  /* the sum of the 16-bit words is not 0 */
    RUDOZHEV_HIP_TYPE = 6,      /* a memory descriptor has a type that is not allowed */
    RUDOZHEV_HIP_LARGE = 7,     /* the page would be longer than the greatest length */
    RUDOZHEV_HIP_ROOM = 8       /* the buffer is shorter than the page */
};

/* The types of memory that are allowed. */
enum rudozhev_hip_type {
    RUDOZHEV_HIP_MULTIBOOT_MODULE = -2,
    RUDOZHEV_HIP_MICROHYPERVISOR = -1,
    RUDOZHEV_HIP_NO_TYPE = 0, /* what no memory has: there is no such descriptor */
    RUDOZHEV_HIP_AVAILABLE = 1,
    RUDOZHEV_HIP_RESERVED = 2,
    RUDOZHEV_HIP_ACPI_RECLAIM = 3,
    RUDOZHEV_HIP_ACPI_NVS = 4
};

/* The fields of a header, each at its index of rudozhev_hip_field. */
struct rudozhev_hip_header {
    uint32_t fields[RUDOZHEV_HIP_FIELDS];
};

/* A CPU descriptor, byte for byte; which CPU it is of follows from its position. */
struct rudozhev_hip_cpu_descriptor {
    uint8_t flags, thread, core, package;
};

/* The numbers of a memory descriptor, beside its type. */
struct rudozhev_hip_numbers {
    uint64_t address, size, auxiliary;
};

/* A memory descriptor. */
struct rudozhev_hip_memory_descriptor {
    uint64_t address;            /* of the first byte */
    uint64_t size;               /* in bytes */
    enum rudozhev_hip_type type; /* never RUDOZHEV_HIP_NO_TYPE in one that was found */
    uint32_t auxiliary;          /* address of a multiboot module's command line */
};

/* Reads a page and writes its header, which stays where the page is refused. The reply has the
 * refusal in its high half and both counts in its low half: see the next three functions. */
RUDOZHEV_ANSWERS uint64_t rudozhev_hip_read(const uint8_t *page, size_t page_bytes,
                                            struct rudozhev_hip_header *RUDOZHEV_APART header);

/* Why rudozhev_hip_read refused a page, or rudozhev_hip_write; RUDOZHEV_HIP_ACCEPTED where they did not. */
RUDOZHEV_ANSWERS static inline enum rudozhev_hip_refusal rudozhev_hip_refused(uint64_t reply) {
    return (enum rudozhev_hip_refusal)(reply >> 32);
}

/* How many CPU descriptors, and memory descriptors, the page of a reply of rudozhev_hip_read
 * has; none where it is refused. */
RUDOZHEV_ANSWERS static inline uint32_t rudozhev_hip_cpus(uint64_t reply) {
    return (uint32_t)reply & 0xffff;
}
RUDOZHEV_ANSWERS static inline uint32_t rudozhev_hip_memories(uint64_t reply) {
    return (uint32_t)reply >> 16;
}

/* How many bytes are the page that some memory begins with: as many as its bytes 6 and 7 say,
 * or all there are if those are fewer. */
RUDOZHEV_ANSWERS static inline size_t rudozhev_hip_length(const uint8_t *memory, size_t memory_bytes) {
    if (memory_bytes < 8) {
        return memory_bytes;
    }
    const size_t length = (size_t)memory[7] << 8 | memory[6];
    return length < memory_bytes ? length : memory_bytes;
}

/* The descriptor of a CPU in the low half, flags lowest, and 1 in the high half; 0 where the
 * page is refused or has no such CPU. rudozhev_hip_find_cpu takes the answer apart. */
RUDOZHEV_ANSWERS uint64_t rudozhev_hip_cpu(const uint8_t *page, size_t page_bytes, uint32_t index);

/* Finds the descriptor of a CPU; the first is CPU 0. False where the page is refused or
 * has no such CPU, and the descriptor stays. */
RUDOZHEV_ANSWERS static inline bool rudozhev_hip_find_cpu(const uint8_t *page, size_t page_bytes, uint32_t index,
                                                          struct rudozhev_hip_cpu_descriptor *RUDOZHEV_APART found) {
    const uint64_t answer = rudozhev_hip_cpu(page, page_bytes, index);
    if (answer == 0) {
        return false;
    }
    found->flags = (uint8_t)answer;
    found->thread = (uint8_t)(answer >> 8);
    found->core = (uint8_t)(answer >> 16);
    found->package = (uint8_t)(answer >> 24);
    return true;
}

/* The type of a memory descriptor, with its numbers; RUDOZHEV_HIP_NO_TYPE where the page is
 * refused or has no such descriptor, and the numbers stay. */
RUDOZHEV_ANSWERS int32_t rudozhev_hip_memory(const uint8_t *page, size_t page_bytes, uint32_t index,
                                             struct rudozhev_hip_numbers *RUDOZHEV_APART numbers);

/* Finds a memory descriptor; the first has index 0. False where the page is refused or has
 * no such descriptor, and the descriptor stays. */
RUDOZHEV_ANSWERS static inline bool
rudozhev_hip_find_memory(const uint8_t *page, size_t page_bytes, uint32_t index,
                         struct rudozhev_hip_memory_descriptor *RUDOZHEV_APART found) {
    struct rudozhev_hip_numbers numbers = {0, 0, 0};
    const int32_t type = rudozhev_hip_memory(page, page_bytes, index, &numbers);
    if (type == RUDOZHEV_HIP_NO_TYPE) {
        return false;
    }
    found->address = numbers.address;
    found->size = numbers.size;
    found->type = (enum rudozhev_hip_type)type;
    found->auxiliary = (uint32_t)numbers.auxiliary;
    return true;
}

/* Writes a page at the start of a buffer. A CPU descriptor has four bytes; bytes at the end that
 * make no whole one are not read. The shortest of the four lists says how many memory
 * descriptors there are. The reply has the refusal in its high half, and then the buffer stays;
 * else the length of the page in its low half, and the bytes after it stay. */
RUDOZHEV_ANSWERS uint64_t rudozhev_hip_write(const struct rudozhev_hip_header *header, const uint8_t *cpus,
                                             size_t cpu_bytes, const uint64_t *addresses, size_t address_count,
                                             const uint64_t *sizes, size_t size_count, const int32_t *types,
                                             size_t type_count, const uint32_t *auxiliaries, size_t auxiliary_count,
                                             uint8_t *RUDOZHEV_APART buffer, size_t buffer_bytes);

/* The length of the page of a reply of rudozhev_hip_write; 0 where it is refused. */
RUDOZHEV_ANSWERS static inline size_t rudozhev_hip_written(uint64_t reply) {
    return (uint32_t)reply;
}

/* Memory descriptors as four lists that all have `count` numbers: descriptor i has the i-th
 * of each. */
struct rudozhev_hip_lists {
    const uint64_t *addresses;
    const uint64_t *sizes;
    const int32_t *types; /* of rudozhev_hip_type */
    const uint32_t *auxiliaries;
    size_t count;
};

/* Writes a page of so many whole CPU descriptors and of lists of one length, as
 * rudozhev_hip_write does, and answers its reply. */
RUDOZHEV_ANSWERS static inline uint64_t rudozhev_hip_write_page(const struct rudozhev_hip_header *header,
                                                                const struct rudozhev_hip_cpu_descriptor *cpus,
                                                                size_t cpu_count,
                                                                const struct rudozhev_hip_lists *memory,
                                                                uint8_t *RUDOZHEV_APART buffer, size_t buffer_bytes) {
    return rudozhev_hip_write(header, (const uint8_t *)cpus, cpu_count * sizeof *cpus, memory->addresses, memory->count,
                              memory->sizes, memory->count, memory->types, memory->count, memory->auxiliaries,
                              memory->count, buffer, buffer_bytes);
}

#ifdef __cplusplus
}
#endif

#endif
