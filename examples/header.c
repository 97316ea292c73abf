/* Holds what the header computes, the pages that boot lends the root, repairs, the bytes of a
 * dump and the information page against the words and bytes of the manual, and each hypercall by
 * its name against the general one. Prints the first line that differs. */
#include "rudozhev.h"

#include <stdio.h>
#include <stdlib.h>
#include <string.h>

#define HOLDS(condition)                                                                                               \
    do {                                                                                                               \
        if (!(condition)) {                                                                                            \
            printf("line %d: %s\n", __LINE__, #condition);                                                             \
            exit(EXIT_FAILURE);                                                                                        \
        }                                                                                                              \
    } while (0)

static struct rudozhev_tables tables, general;
static struct rudozhev_block source, target, general_target;

/* The general hypercall, on tables of its own. */
static uint64_t generally(uint32_t number, uint32_t a, uint32_t b, uint32_t c, uint32_t d, uint32_t e, uint32_t f) {
    return rudozhev_hypercall(number, RUDOZHEV_ROOT_EC, a, b, c, d, e, f, general.places, RUDOZHEV_PLACE_WORDS,
                              general.objects, RUDOZHEV_OBJECT_WORDS, source.words, RUDOZHEV_BLOCK_WORDS,
                              general_target.words, RUDOZHEV_BLOCK_WORDS);
}

/* Whether a named call and the general one answered and left the same, with a status. */
static bool same(uint64_t named, uint64_t reply, uint32_t status) {
    return named == reply && rudozhev_status(reply) == status && memcmp(&tables, &general, sizeof tables) == 0 &&
           memcmp(&target, &general_target, sizeof target) == 0;
}

static void descriptors(void) {
    HOLDS(rudozhev_range(RUDOZHEV_OBJECT, 40, 0, 3) == 163855);
    HOLDS(rudozhev_range(RUDOZHEV_OBJECT, 32, 0, 31) == 131199);
    HOLDS(rudozhev_range(RUDOZHEV_MEMORY, 8, 3, 7) == 33181);
    HOLDS(rudozhev_range(RUDOZHEV_MEMORY, 0, 6, 0) == 769);
    HOLDS(rudozhev_range(RUDOZHEV_IO, 63, 0, 0) == 258050);
    HOLDS(rudozhev_range(RUDOZHEV_OBJECT, 64, 0, 0) == 262147);
    HOLDS(rudozhev_range(RUDOZHEV_OBJECT, 0, 7, 0) == 899);
    HOLDS(rudozhev_range(RUDOZHEV_OBJECT, 0, 8, 0) == 1027);
    HOLDS(rudozhev_range(RUDOZHEV_OBJECT, 192, 4, 1) == 786951);
    HOLDS(rudozhev_base(786951) == 192 && rudozhev_order(1027) == 8);
    HOLDS(rudozhev_base(33181) == 8 && rudozhev_order(33181) == 3 && rudozhev_mask(33181) == 7);

    HOLDS(rudozhev_range(RUDOZHEV_MEMORY, 4, 3, 0) == RUDOZHEV_MALFORMED);
    HOLDS(rudozhev_range(RUDOZHEV_MEMORY, 0, 7, 0) == RUDOZHEV_MALFORMED);
    HOLDS(rudozhev_range(RUDOZHEV_MEMORY, 0, 32, 0) == RUDOZHEV_MALFORMED);
    HOLDS(rudozhev_range(RUDOZHEV_IO, 0, 7, 0) == RUDOZHEV_MALFORMED);
    HOLDS(rudozhev_range(RUDOZHEV_OBJECT, 0, 9, 0) == RUDOZHEV_MALFORMED);
    HOLDS(rudozhev_range(RUDOZHEV_OBJECT, 64, 8, 0) == RUDOZHEV_MALFORMED);
    HOLDS(rudozhev_range(RUDOZHEV_OBJECT, 256, 0, 0) == RUDOZHEV_MALFORMED);
    HOLDS(rudozhev_range(RUDOZHEV_OBJECT, 0, UINT32_MAX, 0) == RUDOZHEV_MALFORMED);
    HOLDS(rudozhev_range(RUDOZHEV_MEMORY, 64, 0, 0) == RUDOZHEV_MALFORMED);
    HOLDS(rudozhev_range(RUDOZHEV_IO, 64, 0, 0) == RUDOZHEV_MALFORMED);
    HOLDS(rudozhev_range(RUDOZHEV_IO, UINT32_MAX, 0, 0) == RUDOZHEV_MALFORMED);
    HOLDS(rudozhev_range(RUDOZHEV_IO, 0, 0, 32) == RUDOZHEV_MALFORMED);
    HOLDS(rudozhev_range((enum rudozhev_space)3, 0, 0, 0) == RUDOZHEV_MALFORMED);
}

static void place_numbers(void) {
    HOLDS(rudozhev_selectors(RUDOZHEV_MEMORY) == 64 && rudozhev_greatest_order(RUDOZHEV_MEMORY) == 6);
    HOLDS(rudozhev_selectors(RUDOZHEV_IO) == 64 && rudozhev_greatest_order(RUDOZHEV_IO) == 6);
    HOLDS(rudozhev_selectors(RUDOZHEV_OBJECT) == 256 && rudozhev_greatest_order(RUDOZHEV_OBJECT) == 8);
    HOLDS(rudozhev_selectors((enum rudozhev_space)3) == 0);

    HOLDS(rudozhev_place(0, RUDOZHEV_IO, 0) == 64 && rudozhev_place(0, RUDOZHEV_OBJECT, 0) == 128);
    HOLDS(rudozhev_place(1, RUDOZHEV_OBJECT, 32) == 544);
    HOLDS(rudozhev_place(7, RUDOZHEV_OBJECT, 255) == 3071 && RUDOZHEV_PLACES == 3072);
    HOLDS(rudozhev_place(8, RUDOZHEV_MEMORY, 0) == RUDOZHEV_PLACES);
    HOLDS(rudozhev_place(0, RUDOZHEV_MEMORY, 64) == RUDOZHEV_PLACES);
    HOLDS(rudozhev_place(0, RUDOZHEV_IO, 64) == RUDOZHEV_PLACES);
    HOLDS(rudozhev_place(0, RUDOZHEV_OBJECT, 256) == RUDOZHEV_PLACES);
    HOLDS(rudozhev_place(0, (enum rudozhev_space)3, 0) == RUDOZHEV_PLACES);

    uint32_t number = 0;
    for (uint32_t domain = 0; domain < RUDOZHEV_DOMAINS; domain++) {
        for (int space = 0; space < RUDOZHEV_SPACES; space++) {
            for (uint32_t selector = 0; selector < rudozhev_selectors((enum rudozhev_space)space); selector++) {
                const struct rudozhev_position read = rudozhev_read_place(number);
                HOLDS(rudozhev_place(domain, (enum rudozhev_space)space, selector) == number);
                HOLDS(read.domain == domain && (int)read.space == space && read.selector == selector);
                number++;
            }
        }
    }
    HOLDS(number == RUDOZHEV_PLACES && rudozhev_read_place(number).domain == RUDOZHEV_DOMAINS);
    HOLDS(rudozhev_read_place(UINT32_MAX).domain == RUDOZHEV_DOMAINS);
}

static void other_words(void) {
    HOLDS(rudozhev_delegation(23, true) == 96257);
    HOLDS(rudozhev_delegation(5, false) == 20481);
    HOLDS(rudozhev_delegation(UINT32_C(5) << 20 | 5, false) == 20481);

    HOLDS(rudozhev_counts(2, 1) == 65538);
    HOLDS(rudozhev_counts(60, 0) == 60 && rudozhev_counts(0, 30) == 30 << 16);
    HOLDS(rudozhev_counts(59, 1) == UINT32_MAX && rudozhev_counts(61, 0) == UINT32_MAX);
    HOLDS(rudozhev_counts(65536, 0) == UINT32_MAX && rudozhev_counts(0, 65536) == UINT32_MAX);

    HOLDS(rudozhev_qpd(1, 10000) == 40960001);
    HOLDS(rudozhev_qpd(256, 1) == 0 && rudozhev_qpd(1, 1048576) == 0);
}

/* Whether the first breach of the tables is this one. */
static bool breached(uint32_t rule, enum rudozhev_where where, uint32_t number, size_t object_words) {
    struct rudozhev_breach breach =
        rudozhev_read_damage(rudozhev_damage(tables.places, RUDOZHEV_PLACE_WORDS, tables.objects, object_words));
    return breach.rule == rule && breach.where == where && breach.number == number;
}

/* A line of one page through the root's is sound down to the greatest depth. */
static void depth(void) {
    uint32_t parent = rudozhev_place(0, RUDOZHEV_MEMORY, 0), next = parent;
    for (uint32_t depth = 1; depth <= RUDOZHEV_GREATEST_DEPTH + 1; depth++) {
        HOLDS(breached(0, RUDOZHEV_NOWHERE, 0, RUDOZHEV_OBJECT_WORDS));
        next = rudozhev_place(1, RUDOZHEV_MEMORY, depth - 1);
        const uint32_t words[RUDOZHEV_PLACE_WIDTH] = {0, 7, parent + 1, depth};
        memcpy(tables.places + RUDOZHEV_PLACE_WIDTH * next, words, sizeof words);
        parent = next;
    }
    HOLDS(breached(12, RUDOZHEV_AT_PLACE, next, RUDOZHEV_OBJECT_WORDS));
}

static void damage(void) {
    HOLDS(breached(0, RUDOZHEV_NOWHERE, 0, RUDOZHEV_OBJECT_WORDS));
    HOLDS(breached(1, RUDOZHEV_NOWHERE, 0, RUDOZHEV_OBJECT_WORDS - 1));
    const uint32_t last = RUDOZHEV_PLACES - 1;
    tables.places[RUDOZHEV_PLACE_WIDTH * last + 3] = 1;
    HOLDS(breached(10, RUDOZHEV_AT_PLACE, last, RUDOZHEV_OBJECT_WORDS));
    tables.places[RUDOZHEV_PLACE_WIDTH * 392] = 5;
    HOLDS(breached(10, RUDOZHEV_AT_PLACE, 392, RUDOZHEV_OBJECT_WORDS));
    tables.places[0] = 1;
    HOLDS(breached(2, RUDOZHEV_AT_PLACE, 0, RUDOZHEV_OBJECT_WORDS));
    tables.objects[0] = 0;
    HOLDS(breached(2, RUDOZHEV_AT_RECORD, 0, RUDOZHEV_OBJECT_WORDS));
}

static bool boot(struct rudozhev_tables *booted) {
    uint64_t reply = rudozhev_boot(booted->places, RUDOZHEV_PLACE_WORDS, booted->objects, RUDOZHEV_OBJECT_WORDS);
    return rudozhev_status(reply) == RUDOZHEV_SUCCESS;
}

static void put(uint32_t place, uint32_t resource, uint32_t permissions, uint32_t parent, uint32_t depth) {
    const uint32_t words[RUDOZHEV_PLACE_WIDTH] = {resource, permissions, parent, depth};
    memcpy(tables.places + RUDOZHEV_PLACE_WIDTH * place, words, sizeof words);
}

/* Whether a repair of the tables as they are, which break this rule there, answers so and changes no places
 * but those from `first` to `last`, which have words 0 then; none where `last` is below. Boots anew. */
static bool repaired(uint32_t rule, enum rudozhev_where where, uint32_t number, uint64_t answer, uint32_t first,
                     uint32_t last) {
    HOLDS(breached(rule, where, number, RUDOZHEV_OBJECT_WORDS));
    general = tables;
    for (uint32_t place = first; place <= last; place++) {
        memset(general.places + RUDOZHEV_PLACE_WIDTH * place, 0, RUDOZHEV_PLACE_WIDTH * sizeof *general.places);
    }
    const uint64_t reply = rudozhev_repair(tables.places, RUDOZHEV_PLACE_WORDS, tables.objects, RUDOZHEV_OBJECT_WORDS);
    const bool same_words = memcmp(&tables, &general, sizeof tables) == 0;
    const bool sound = breached(0, RUDOZHEV_NOWHERE, 0, RUDOZHEV_OBJECT_WORDS);
    const uint64_t again = rudozhev_repair(tables.places, RUDOZHEV_PLACE_WORDS, tables.objects, RUDOZHEV_OBJECT_WORDS);
    HOLDS(again == (sound ? RUDOZHEV_SUCCESS : reply) && memcmp(&tables, &general, sizeof tables) == 0);
    return boot(&tables) && reply == answer && same_words && sound == (rudozhev_status(reply) == RUDOZHEV_SUCCESS);
}

/* The manual's examples of a repair. */
static void repairs(void) {
    const uint64_t refused = (uint64_t)RUDOZHEV_DAMAGED << 32;
    const enum rudozhev_where place = RUDOZHEV_AT_PLACE, record = RUDOZHEV_AT_RECORD;
    HOLDS(repaired(0, RUDOZHEV_NOWHERE, 0, 0, 1, 0));
    put(392, 5, 0, 0, 0);
    HOLDS(repaired(10, place, 392, 0, 392, 392));
    put(392, 0, 7, 0, 0);
    HOLDS(repaired(11, place, 392, 1, 392, 392));
    put(1152, 0, 1, 1, 1);
    HOLDS(repaired(11, place, 1152, 1, 1152, 1152));
    put(384, 0, 3, 1, 1);
    put(385, 0, 7, 385, 2);
    put(386, 0, 1, 386, 3);
    HOLDS(repaired(11, place, 385, 2, 385, 386));
    put(384, 0, 7, 386, 1);
    put(385, 0, 7, 385, 2);
    HOLDS(repaired(11, place, 384, 2, 384, 385));
    put(384, 0, 7, 385, 1);
    HOLDS(repaired(11, place, 384, 1, 384, 384));
    put(384, 0, 7, 1, 1);
    for (uint32_t i = 1; i <= RUDOZHEV_GREATEST_DEPTH; i++) {
        put(384 + i, 0, 7, 384 + i, i + 1);
    }
    HOLDS(repaired(12, place, 447, 1, 447, 447));
    put(5, 5, 7, 0, 1);
    put(389, 5, 7, 6, 2);
    HOLDS(repaired(2, place, 5, refused, 1, 0));
    put(5, 5, 3, 0, 0);
    put(389, 5, 3, 6, 1);
    HOLDS(repaired(2, place, 5, refused, 1, 0));
    put(5, 5, 7, 385, 1);
    put(384, 5, 7, 0, 0);
    put(389, 5, 7, 6, 2);
    HOLDS(repaired(2, place, 5, refused, 1, 0));
    put(200, 9, 0, 0, 0);
    HOLDS(repaired(2, place, 200, 0, 200, 200));
    tables.objects[RUDOZHEV_RECORD_WIDTH * 31 + 1] = 9;
    HOLDS(repaired(5, record, 31, refused, 1, 0));
    tables.objects[RUDOZHEV_RECORD_WIDTH * 31] = 6;
    put(600, 31, 1, 0, 0);
    HOLDS(repaired(4, record, 31, refused, 1, 0));

    HOLDS(rudozhev_repair(tables.places, RUDOZHEV_PLACE_WORDS - 1, tables.objects, RUDOZHEV_OBJECT_WORDS) == refused);
    HOLDS(rudozhev_repair(tables.places, RUDOZHEV_PLACE_WORDS, tables.objects, RUDOZHEV_OBJECT_WORDS - 1) == refused);
    HOLDS(rudozhev_repair(NULL, 0, NULL, 0) == refused);
}

/* The bytes of the tables are those of a dump. */
static void dump(void) {
    const uint8_t *bytes = (const uint8_t *)&tables;
    put(3071, 0x04030201, 0, 0, 0x80000000);
    tables.objects[RUDOZHEV_OBJECT_WORDS - 1] = 0xfedcba98;
    HOLDS(sizeof tables == RUDOZHEV_DUMP_BYTES && offsetof(struct rudozhev_tables, objects) == 49152);
    HOLDS(bytes[16 * 1] == 1 && bytes[16 * 1 + 4] == 7 && bytes[16 * 446 + 8] == 63 && bytes[16 * 446 + 12] == 1);
    HOLDS(bytes[16 * 3071] == 1 && bytes[16 * 3071 + 1] == 2 && bytes[16 * 3071 + 3] == 4 && bytes[49151] == 0x80);
    HOLDS(bytes[49152] == 3 && bytes[49152 + 20 * 29] == 2 && bytes[49152 + 20 * 29 + 4] == 1);
    HOLDS(bytes[RUDOZHEV_DUMP_BYTES - 4] == 0x98 && bytes[RUDOZHEV_DUMP_BYTES - 1] == 0xfe);
}

/* What the root finds at one of its pages; a null descriptor where it has none. */
static uint32_t root_page(uint32_t page) {
    const uint32_t one = rudozhev_range(RUDOZHEV_MEMORY, page, 0, 0);
    return rudozhev_answer(rudozhev_lookup(&tables, RUDOZHEV_ROOT_EC, one));
}

/* How many places have a page from the hypervisor: none, or one, which is listed. */
static uint32_t lent_out(uint32_t page, uint32_t *heir) {
    uint64_t reply = rudozhev_census(rudozhev_place(0, RUDOZHEV_MEMORY, page), tables.places, RUDOZHEV_PLACE_WORDS,
                                     tables.objects, RUDOZHEV_OBJECT_WORDS, heir, 1);
    HOLDS(rudozhev_status(reply) == RUDOZHEV_SUCCESS);
    return rudozhev_answer(reply);
}

/* The root's pages after boot, and one of them given up. */
static void root_pages(void) {
    enum { UTCB = RUDOZHEV_ROOT_UTCB_PAGE, INFORMATION = RUDOZHEV_INFORMATION_PAGE };
    uint32_t heir = 0;
    HOLDS(root_page(UTCB) == 253965 && root_page(INFORMATION) == 258053 && root_page(UTCB - 1) == RUDOZHEV_NULL);
    HOLDS(lent_out(UTCB, &heir) == 1 && heir == 446);
    HOLDS(lent_out(INFORMATION, &heir) == 1 && heir == 447);
    const uint32_t all = rudozhev_range(RUDOZHEV_MEMORY, INFORMATION, 0, RUDOZHEV_FULL_MASK);
    HOLDS(all == 258173 && rudozhev_revoke(&tables, RUDOZHEV_ROOT_EC, all, false) == RUDOZHEV_SUCCESS);
    HOLDS(root_page(INFORMATION) == 258053 && lent_out(INFORMATION, &heir) == 1);
    HOLDS(rudozhev_revoke(&tables, RUDOZHEV_ROOT_EC, all, true) == RUDOZHEV_SUCCESS);
    HOLDS(root_page(INFORMATION) == RUDOZHEV_NULL && lent_out(INFORMATION, &heir) == 0);
    HOLDS(root_page(UTCB) == 253965 && lent_out(UTCB, &heir) == 1);
    HOLDS(breached(0, RUDOZHEV_NOWHERE, 0, RUDOZHEV_OBJECT_WORDS));
    const uint32_t lender = rudozhev_place(0, RUDOZHEV_MEMORY, INFORMATION);
    const uint32_t kept[RUDOZHEV_PLACE_WIDTH] = {INFORMATION, 7, 0, 0};
    HOLDS(memcmp(tables.places + RUDOZHEV_PLACE_WIDTH * lender, kept, sizeof kept) == 0);
}

static void hypercalls(void) {
    enum { PD = RUDOZHEV_ROOT_PD_SELECTOR, EC = RUDOZHEV_ROOT_EC_SELECTOR, CALLER = RUDOZHEV_ROOT_EC };
    const uint32_t all = rudozhev_range(RUDOZHEV_OBJECT, 32, 5, RUDOZHEV_FULL_MASK);
    const uint32_t qpd = rudozhev_qpd(3, 4000);
    HOLDS(same(rudozhev_create_pd(&tables, CALLER, 35, PD, all), generally(RUDOZHEV_CREATE_PD, 35, PD, all, 0, 0, 0), 0));
    HOLDS(same(rudozhev_create_ec(&tables, CALLER, 36, PD, 0, 9), generally(RUDOZHEV_CREATE_EC, 36, PD, 0, 9, 0, 0), 0));
    HOLDS(same(rudozhev_create_sc(&tables, CALLER, 37, PD, EC, qpd), generally(RUDOZHEV_CREATE_SC, 37, PD, EC, qpd, 0, 0), 0));
    HOLDS(same(rudozhev_create_pt(&tables, CALLER, 38, PD, 36, 7, 8, 9), generally(RUDOZHEV_CREATE_PT, 38, PD, 36, 7, 8, 9), 0));
    HOLDS(same(rudozhev_create_sm(&tables, CALLER, 39, PD, 1), generally(RUDOZHEV_CREATE_SM, 39, PD, 1, 0, 0, 0), 0));
    HOLDS(same(rudozhev_sm_ctrl(&tables, CALLER, 39, RUDOZHEV_DOWN), generally(RUDOZHEV_SM_CTRL, 39, 1, 0, 0, 0, 0), 0));
    HOLDS(same(rudozhev_sm_ctrl(&tables, CALLER, 39, RUDOZHEV_DOWN), generally(RUDOZHEV_SM_CTRL, 39, 1, 0, 0, 0, 0),
               RUDOZHEV_COM_TIM));
    HOLDS(same(rudozhev_sm_ctrl(&tables, CALLER, 39, RUDOZHEV_UP), generally(RUDOZHEV_SM_CTRL, 39, 0, 0, 0, 0, 0), 0));

    source.words[0] = rudozhev_counts(1, 1);
    source.words[RUDOZHEV_HEADER_WORDS] = 1895;
    source.words[RUDOZHEV_BLOCK_WORDS - 1] = rudozhev_range(RUDOZHEV_IO, 8, 3, 1);
    source.words[RUDOZHEV_BLOCK_WORDS - 2] = rudozhev_delegation(0, true);
    target.words[RUDOZHEV_DELEGATE_WINDOW] = rudozhev_range(RUDOZHEV_IO, 8, 3, 0);
    general_target = target;
    uint64_t reply = rudozhev_call(&tables, CALLER, 38, &source, &target);
    HOLDS(same(reply, generally(RUDOZHEV_CALL, 38, 0, 0, 0, 0, 0), 0) && rudozhev_answer(reply) == 8);
    HOLDS(target.words[RUDOZHEV_HEADER_WORDS] == 1895);
    const struct rudozhev_item item = rudozhev_received(&target, 0);
    HOLDS(item.delegates && item.range == rudozhev_range(RUDOZHEV_IO, 8, 3, 1) && item.reason == RUDOZHEV_REASON_NONE);

    const uint32_t one = rudozhev_range(RUDOZHEV_IO, 9, 0, RUDOZHEV_FULL_MASK);
    reply = rudozhev_lookup(&tables, CALLER, one);
    HOLDS(same(reply, generally(RUDOZHEV_LOOKUP, one, 0, 0, 0, 0, 0), 0));
    HOLDS(rudozhev_answer(reply) == rudozhev_range(RUDOZHEV_IO, 8, 3, 1));
    HOLDS(same(rudozhev_revoke(&tables, CALLER, all, false), generally(RUDOZHEV_REVOKE, all, 0, 0, 0, 0, 0), 0));
    HOLDS(same(rudozhev_revoke(&tables, CALLER, one, true), generally(RUDOZHEV_REVOKE, one, 1, 0, 0, 0, 0), 0));
    HOLDS(rudozhev_answer(rudozhev_lookup(&tables, CALLER, one)) == RUDOZHEV_NULL);
}

/* Sends one item through portal 38; what is received, which fills no place. */
static struct rudozhev_item sent(uint32_t range, uint32_t second, uint32_t window) {
    source.words[0] = rudozhev_counts(0, 1);
    source.words[RUDOZHEV_BLOCK_WORDS - 1] = range;
    source.words[RUDOZHEV_BLOCK_WORDS - 2] = second;
    target.words[RUDOZHEV_TRANSLATE_WINDOW] = (second & 1) != 0 ? RUDOZHEV_NULL : window;
    target.words[RUDOZHEV_DELEGATE_WINDOW] = (second & 1) != 0 ? window : RUDOZHEV_NULL;
    HOLDS(rudozhev_call(&tables, RUDOZHEV_ROOT_EC, 38, &source, &target) == 0);
    return rudozhev_received(&target, 0);
}

/* Whether an item is received as null, for this reason. */
static bool null_for(struct rudozhev_item item, bool delegates, enum rudozhev_reason reason) {
    return item.delegates == delegates && item.range == RUDOZHEV_NULL && item.reason == reason;
}

static void reasons(void) {
    const uint32_t pages = rudozhev_range(RUDOZHEV_MEMORY, 0, 3, 7), window = rudozhev_range(RUDOZHEV_MEMORY, 8, 3, 0);
    const uint32_t objects = rudozhev_range(RUDOZHEV_OBJECT, 0, 6, 0), malformed = RUDOZHEV_MALFORMED;
    const uint32_t delegate = rudozhev_delegation(0, true), translate = RUDOZHEV_TRANSLATION;
    for (int kind = 0; kind < 2; kind++) {
        const uint32_t second = kind == 1 ? delegate : translate;
        HOLDS(null_for(sent(RUDOZHEV_NULL, second, window), kind == 1, RUDOZHEV_REASON_NULL));
        HOLDS(null_for(sent(pages, second, RUDOZHEV_NULL), kind == 1, RUDOZHEV_REASON_NULL));
        HOLDS(null_for(sent(malformed, second, RUDOZHEV_NULL), kind == 1, RUDOZHEV_REASON_NULL));
        HOLDS(null_for(sent(RUDOZHEV_NULL, second, malformed), kind == 1, RUDOZHEV_REASON_NULL));
        HOLDS(null_for(sent(malformed, second, window), kind == 1, RUDOZHEV_REASON_MALFORMED));
        HOLDS(null_for(sent(pages, second, malformed), kind == 1, RUDOZHEV_REASON_MALFORMED));
        HOLDS(null_for(sent(malformed, second, objects), kind == 1, RUDOZHEV_REASON_MALFORMED));
        HOLDS(null_for(sent(pages, second, objects), kind == 1, RUDOZHEV_REASON_TYPES_DIFFER));
    }
    const uint32_t mask_0 = rudozhev_range(RUDOZHEV_MEMORY, 0, 3, 0);
    HOLDS(null_for(sent(mask_0, delegate, window), true, RUDOZHEV_REASON_NOTHING_FILLED));
    HOLDS(null_for(sent(pages, translate, window), false, RUDOZHEV_REASON_TRANSLATION_BROKE));
    HOLDS(null_for(sent(pages, translate | 14, window), false, RUDOZHEV_REASON_TRANSLATION_BROKE));

    /* The manual's message of three items. */
    const uint32_t items[] = {29, delegate, 4125, delegate, 32893, translate};
    source.words[0] = rudozhev_counts(0, 3);
    for (uint32_t word = 0; word < 6; word++) {
        source.words[RUDOZHEV_BLOCK_WORDS - 1 - word] = items[word];
    }
    target.words[RUDOZHEV_TRANSLATE_WINDOW] = 769;
    target.words[RUDOZHEV_DELEGATE_WINDOW] = 32769;
    HOLDS(rudozhev_call(&tables, RUDOZHEV_ROOT_EC, 38, &source, &target) == 1);
    const struct rudozhev_item first = rudozhev_received(&target, 0);
    HOLDS(first.delegates && first.range == 32797 && first.reason == RUDOZHEV_REASON_NONE);
    HOLDS(null_for(rudozhev_received(&target, 1), true, RUDOZHEV_REASON_NOTHING_FILLED));
    HOLDS(null_for(rudozhev_received(&target, 2), false, RUDOZHEV_REASON_TRANSLATION_BROKE));
    HOLDS(null_for(rudozhev_received(&target, 3), false, RUDOZHEV_REASON_NO_ITEM));

    /* Blocks that are full, and counts that do not fit. */
    target.words[0] = 1 << 16 | 58;
    HOLDS(rudozhev_received(&target, 0).range == 32797);
    target.words[0] = 30 << 16;
    target.words[RUDOZHEV_HEADER_WORDS] = 2;
    HOLDS(null_for(rudozhev_received(&target, 29), false, RUDOZHEV_REASON_NULL));
    HOLDS(null_for(rudozhev_received(&target, 30), false, RUDOZHEV_REASON_NO_ITEM));
    HOLDS(null_for(rudozhev_received(&target, UINT32_MAX), false, RUDOZHEV_REASON_NO_ITEM));
    target.words[0] = 31 << 16;
    HOLDS(null_for(rudozhev_received(&target, 0), false, RUDOZHEV_REASON_NO_ITEM));
    target.words[0] = 1 << 16 | 59;
    HOLDS(null_for(rudozhev_received(&target, 0), false, RUDOZHEV_REASON_NO_ITEM));
    target.words[0] = UINT32_MAX;
    HOLDS(null_for(rudozhev_received(&target, 0), false, RUDOZHEV_REASON_NO_ITEM));
}

/* Object selectors above 63 are places of their own, and wrap at 256. */
static void object_selectors(void) {
    enum { PD = RUDOZHEV_ROOT_PD_SELECTOR, CALLER = RUDOZHEV_ROOT_EC };
    HOLDS(rudozhev_create_sm(&tables, CALLER, 456, PD, 0) == 0);
    HOLDS(rudozhev_status(rudozhev_create_sm(&tables, CALLER, 200, PD, 0)) == RUDOZHEV_BAD_CAP);
    HOLDS(rudozhev_create_sm(&tables, CALLER, 8, PD, 0) == 0);
    HOLDS(tables.places[RUDOZHEV_PLACE_WIDTH * rudozhev_place(1, RUDOZHEV_OBJECT, 200) + 1] == 3);
    const uint32_t one = rudozhev_range(RUDOZHEV_OBJECT, 200, 0, 0);
    HOLDS(rudozhev_lookup(&tables, CALLER, one) == rudozhev_range(RUDOZHEV_OBJECT, 200, 0, 3));
    const uint32_t all = rudozhev_range(RUDOZHEV_OBJECT, 0, RUDOZHEV_OBJECT_ORDER, RUDOZHEV_FULL_MASK);
    HOLDS(rudozhev_revoke(&tables, CALLER, all, true) == 0);
    HOLDS(rudozhev_lookup(&tables, CALLER, one) == RUDOZHEV_NULL);
}

/* What does not fit is refused. */
static void refusals(void) {
    enum { PD = RUDOZHEV_ROOT_PD_SELECTOR, EC = RUDOZHEV_ROOT_EC_SELECTOR, CALLER = RUDOZHEV_ROOT_EC };
    const uint32_t wide = rudozhev_range(RUDOZHEV_OBJECT, 0, 9, RUDOZHEV_FULL_MASK);
    HOLDS(rudozhev_status(rudozhev_lookup(&tables, CALLER, wide)) == RUDOZHEV_BAD_PAR);
    HOLDS(rudozhev_status(rudozhev_revoke(&tables, CALLER, wide, false)) == RUDOZHEV_BAD_PAR);
    const uint32_t mask_0 = rudozhev_range(RUDOZHEV_OBJECT, EC, 0, 0);
    HOLDS(rudozhev_status(rudozhev_revoke(&tables, CALLER, mask_0, true)) == RUDOZHEV_BAD_PAR);
    const uint32_t past_io = rudozhev_range(RUDOZHEV_IO, 8, 0, 30);
    HOLDS(rudozhev_status(rudozhev_revoke(&tables, CALLER, past_io, true)) == RUDOZHEV_BAD_PAR);
    const uint32_t past_memory = rudozhev_range(RUDOZHEV_MEMORY, 8, 0, 24);
    HOLDS(rudozhev_status(rudozhev_revoke(&tables, CALLER, past_memory, true)) == RUDOZHEV_BAD_PAR);
    HOLDS(rudozhev_status(rudozhev_revoke(&tables, CALLER, RUDOZHEV_NULL, true)) == RUDOZHEV_SUCCESS);
    HOLDS(rudozhev_status(rudozhev_create_pd(&tables, CALLER, 50, PD, wide)) == RUDOZHEV_BAD_PAR);
    HOLDS(rudozhev_status(rudozhev_create_sc(&tables, CALLER, 50, PD, EC, rudozhev_qpd(256, 1))) == RUDOZHEV_BAD_PAR);
    uint64_t reply = rudozhev_census(rudozhev_place(8, RUDOZHEV_MEMORY, 0), tables.places, RUDOZHEV_PLACE_WORDS,
                                     tables.objects, RUDOZHEV_OBJECT_WORDS, NULL, 0);
    HOLDS(rudozhev_status(reply) == RUDOZHEV_BAD_PAR);
    source.words[0] = rudozhev_counts(0, 1);
    source.words[RUDOZHEV_BLOCK_WORDS - 1] = wide;
    reply = rudozhev_call(&tables, CALLER, 38, &source, &target);
    HOLDS(rudozhev_status(reply) == RUDOZHEV_SUCCESS && rudozhev_answer(reply) == 0);
    HOLDS(target.words[RUDOZHEV_BLOCK_WORDS - 1] == RUDOZHEV_NULL);
    source.words[0] = rudozhev_counts(59, 1);
    HOLDS(rudozhev_status(rudozhev_call(&tables, CALLER, 38, &source, &target)) == RUDOZHEV_BAD_PAR);
}

/* The manual's information page. */
static const uint8_t manual_page[] = {
    0x4e, 0x4f, 0x56, 0x41, 0xca, 0x75, 0xf0, 0x00, /* signature, checksum, length */
    0x38, 0x00, 0x04, 0x00, 0x48, 0x00, 0x18, 0x00, /* offsets and sizes */
    0x01, 0x00, 0x00, 0x00, 0x05, 0x00, 0x00, 0x00, /* features, API version */
    0x00, 0x01, 0x00, 0x00, 0x20, 0x00, 0x00, 0x00, /* SEL, EXC */
    0xd0, 0x00, 0x00, 0x00, 0x18, 0x00, 0x00, 0x00, /* VMI, GSI */
    0x00, 0x10, 0x40, 0x00, 0x00, 0x10, 0x00, 0x00, /* sizes of pages and UTCBs */
    0x80, 0x9f, 0x28, 0x00, 0xa0, 0x86, 0x01, 0x00, /* frequencies */
    0x01, 0x00, 0x00, 0x00, 0x01, 0x01, 0x00, 0x00, /* CPUs 0 and 1 */
    0x01, 0x00, 0x01, 0x00, 0x00, 0x01, 0x03, 0x02, /* CPUs 2 and 3 */
    0x00, 0x00, 0x00, 0x00, 0x00, 0x00, 0x00, 0x00, /* address of range 0 */
    0x00, 0xfc, 0x09, 0x00, 0x00, 0x00, 0x00, 0x00, /* its size */
    0x01, 0x00, 0x00, 0x00, 0x00, 0x00, 0x00, 0x00, /* its type and auxiliary number */
    0x00, 0x00, 0x10, 0x00, 0x00, 0x00, 0x00, 0x00, /* address of range 1 */
    0x00, 0x00, 0xe0, 0xbf, 0x00, 0x00, 0x00, 0x00, /* its size */
    0x01, 0x00, 0x00, 0x00, 0x00, 0x00, 0x00, 0x00, /* its type and auxiliary number */
    0x00, 0x00, 0xf0, 0xbf, 0x00, 0x00, 0x00, 0x00, /* address of range 2 */
    0x00, 0x00, 0x01, 0x00, 0x00, 0x00, 0x00, 0x00, /* its size */
    0x03, 0x00, 0x00, 0x00, 0x00, 0x00, 0x00, 0x00, /* its type and auxiliary number */
    0x00, 0x00, 0xf1, 0xbf, 0x00, 0x00, 0x00, 0x00, /* address of range 3 */
    0x00, 0x00, 0x0f, 0x00, 0x00, 0x00, 0x00, 0x00, /* its size */
    0x04, 0x00, 0x00, 0x00, 0x00, 0x00, 0x00, 0x00, /* its type and auxiliary number */
    0x00, 0x00, 0xe0, 0xfe, 0x00, 0x00, 0x00, 0x00, /* address of range 4 */
    0x00, 0x10, 0x00, 0x00, 0x00, 0x00, 0x00, 0x00, /* its size */
    0x02, 0x00, 0x00, 0x00, 0x00, 0x00, 0x00, 0x00, /* its type and auxiliary number */
    0x00, 0x00, 0x20, 0x00, 0x00, 0x00, 0x00, 0x00, /* address of range 5 */
    0x00, 0x00, 0x08, 0x00, 0x00, 0x00, 0x00, 0x00, /* its size */
    0xff, 0xff, 0xff, 0xff, 0x00, 0x00, 0x00, 0x00, /* its type and auxiliary number */
    0x00, 0x00, 0x40, 0x00, 0x00, 0x00, 0x00, 0x00, /* address of range 6 */
    0x00, 0x60, 0x00, 0x00, 0x00, 0x00, 0x00, 0x00, /* its size */
    0xfe, 0xff, 0xff, 0xff, 0x00, 0x00, 0x30, 0x00, /* its type and auxiliary number */
};

/* What it is written from; the lists have a number more than the page has ranges. */
enum { PAGE_BYTES = sizeof manual_page, PAGE_CPUS = 4, PAGE_RANGES = 7 };
static const struct rudozhev_hip_header page_header = {{
    [RUDOZHEV_HIP_FEATURES] = 1,
    [RUDOZHEV_HIP_API_VERSION] = 5,
    [RUDOZHEV_HIP_SEL] = 256,
    [RUDOZHEV_HIP_EXC] = 32,
    [RUDOZHEV_HIP_VMI] = 208,
    [RUDOZHEV_HIP_GSI] = 24,
    [RUDOZHEV_HIP_PAGE_SIZES] = 1 << 12 | 1 << 22,
    [RUDOZHEV_HIP_UTCB_SIZES] = 1 << 12,
    [RUDOZHEV_HIP_TSC_FREQUENCY] = 2662272,
    [RUDOZHEV_HIP_BUS_FREQUENCY] = 100000,
}};
static const struct rudozhev_hip_cpu_descriptor page_cpus[] = {
    {1, 0, 0, 0}, {1, 1, 0, 0}, {1, 0, 1, 0}, {0, 1, 3, 2}, {9, 9, 9, 9}};
static const uint64_t page_addresses[] = {0, 1048576, 3220176896, 3220242432, 4276092928, 2097152, 4194304, 9};
static const uint64_t page_sizes[] = {654336, 3219128320, 65536, 983040, 4096, 524288, 24576, 9};
static const int32_t page_types[] = {
    RUDOZHEV_HIP_AVAILABLE, RUDOZHEV_HIP_AVAILABLE,       RUDOZHEV_HIP_ACPI_RECLAIM,     RUDOZHEV_HIP_ACPI_NVS,
    RUDOZHEV_HIP_RESERVED,  RUDOZHEV_HIP_MICROHYPERVISOR, RUDOZHEV_HIP_MULTIBOOT_MODULE, RUDOZHEV_HIP_NO_TYPE};
static const uint32_t page_auxiliaries[] = {0, 0, 0, 0, 0, 0, 3145728, 9};

/* More than the longest page, and lists for it. */
static uint8_t page[RUDOZHEV_HIP_GREATEST_LENGTH + 1], page_before[sizeof page];
enum { MOST_CPUS = 16369, MOST_RANGES = 2728 };
static struct rudozhev_hip_cpu_descriptor many_cpus[MOST_CPUS + 1];
static uint64_t many_numbers[MOST_RANGES + 1];
static int32_t many_types[MOST_RANGES + 1];
static uint32_t many_auxiliaries[MOST_RANGES + 1];

static void page_numbers(void) {
    HOLDS(RUDOZHEV_HIP_HEADER_BYTES == 56 && RUDOZHEV_HIP_CPU_BYTES == 4 && RUDOZHEV_HIP_MEMORY_BYTES == 24);
    HOLDS(RUDOZHEV_HIP_GREATEST_LENGTH == 65535 && RUDOZHEV_HIP_FIELDS == 10);
    HOLDS(RUDOZHEV_HIP_ACCEPTED == 0 && RUDOZHEV_HIP_SHORT == 1 && RUDOZHEV_HIP_SIGNATURE == 2);
    HOLDS(RUDOZHEV_HIP_LENGTH == 3 && RUDOZHEV_HIP_LAYOUT == 4 && RUDOZHEV_HIP_CHECKSUM == 5);
    HOLDS(RUDOZHEV_HIP_TYPE == 6 && RUDOZHEV_HIP_LARGE == 7 && RUDOZHEV_HIP_ROOM == 8);
    HOLDS(RUDOZHEV_HIP_MULTIBOOT_MODULE == -2 && RUDOZHEV_HIP_MICROHYPERVISOR == -1 && RUDOZHEV_HIP_NO_TYPE == 0);
    HOLDS(RUDOZHEV_HIP_AVAILABLE == 1 && RUDOZHEV_HIP_RESERVED == 2);
    HOLDS(RUDOZHEV_HIP_ACPI_RECLAIM == 3 && RUDOZHEV_HIP_ACPI_NVS == 4);
    /* The archive takes these as ten words, four bytes and three long words. */
    HOLDS(sizeof(struct rudozhev_hip_header) == 40 && sizeof(struct rudozhev_hip_numbers) == 24);
    HOLDS(sizeof(struct rudozhev_hip_cpu_descriptor) == RUDOZHEV_HIP_CPU_BYTES);
    const uint64_t reply = UINT64_C(2728) << 16 | 16369;
    HOLDS(rudozhev_hip_cpus(reply) == 16369 && rudozhev_hip_memories(reply) == 2728);
    HOLDS(rudozhev_hip_refused(reply) == RUDOZHEV_HIP_ACCEPTED);
    HOLDS(rudozhev_hip_refused(UINT64_C(8) << 32) == RUDOZHEV_HIP_ROOM && rudozhev_hip_written(UINT64_C(8) << 32) == 0);
    HOLDS(rudozhev_hip_written(65532) == 65532);
}

/* Writes the manual's page with these types into so many bytes. */
static uint64_t written_with(const int32_t *types, size_t bytes) {
    const struct rudozhev_hip_lists lists = {page_addresses, page_sizes, types, page_auxiliaries, PAGE_RANGES};
    return rudozhev_hip_write_page(&page_header, page_cpus, PAGE_CPUS, &lists, page, bytes);
}

/* Whether so many bytes of the page are refused so, by every function that reads them, with all as it was. */
static bool is_refused(size_t bytes, enum rudozhev_hip_refusal refusal) {
    struct rudozhev_hip_header header = page_header;
    struct rudozhev_hip_cpu_descriptor cpu = {5, 6, 7, 8};
    struct rudozhev_hip_memory_descriptor range = {5, 6, RUDOZHEV_HIP_NO_TYPE, 8};
    struct rudozhev_hip_numbers numbers = {5, 6, 7};
    header.fields[0] = 5;
    const uint64_t reply = rudozhev_hip_read(page, bytes, &header);
    return rudozhev_hip_refused(reply) == refusal && rudozhev_hip_cpus(reply) == 0 &&
           rudozhev_hip_memories(reply) == 0 && header.fields[0] == 5 &&
           memcmp(header.fields + 1, page_header.fields + 1, sizeof header - 4) == 0 &&
           rudozhev_hip_cpu(page, bytes, 0) == 0 && !rudozhev_hip_find_cpu(page, bytes, 0, &cpu) && cpu.flags == 5 &&
           cpu.package == 8 && rudozhev_hip_memory(page, bytes, 0, &numbers) == RUDOZHEV_HIP_NO_TYPE &&
           numbers.address == 5 && numbers.size == 6 && numbers.auxiliary == 7 &&
           !rudozhev_hip_find_memory(page, bytes, 0, &range) && range.address == 5 && range.auxiliary == 8;
}

static void read_page(void) {
    struct rudozhev_hip_header header = {{0}};
    struct rudozhev_hip_cpu_descriptor cpu = {0, 0, 0, 0};
    struct rudozhev_hip_memory_descriptor range = {0, 0, RUDOZHEV_HIP_NO_TYPE, 0};
    memcpy(page, manual_page, PAGE_BYTES);
    const uint64_t reply = rudozhev_hip_read(page, PAGE_BYTES, &header);
    HOLDS(reply == (7 << 16 | 4) && rudozhev_hip_refused(reply) == RUDOZHEV_HIP_ACCEPTED);
    HOLDS(rudozhev_hip_cpus(reply) == PAGE_CPUS && rudozhev_hip_memories(reply) == PAGE_RANGES);
    HOLDS(memcmp(&header, &page_header, sizeof header) == 0);
    for (uint32_t index = 0; index < PAGE_CPUS; index++) {
        HOLDS(rudozhev_hip_find_cpu(page, PAGE_BYTES, index, &cpu));
        HOLDS(memcmp(&cpu, page_cpus + index, sizeof cpu) == 0);
    }
    for (uint32_t index = 0; index < PAGE_RANGES; index++) {
        HOLDS(rudozhev_hip_find_memory(page, PAGE_BYTES, index, &range));
        HOLDS(range.address == page_addresses[index] && range.size == page_sizes[index]);
        HOLDS((int)range.type == page_types[index] && range.auxiliary == page_auxiliaries[index]);
    }
    /* The last CPU and the last range stay where there is no such descriptor. */
    const uint32_t past[] = {7, 8, UINT32_C(1) << 30, UINT32_MAX};
    for (size_t index = 0; index < sizeof past / sizeof *past; index++) {
        HOLDS(!rudozhev_hip_find_cpu(page, PAGE_BYTES, past[index], &cpu) && cpu.package == 2);
        HOLDS(!rudozhev_hip_find_memory(page, PAGE_BYTES, past[index], &range) && range.address == 4194304);
    }
    HOLDS(!rudozhev_hip_find_cpu(page, PAGE_BYTES, PAGE_CPUS, &cpu) && cpu.core == 3);
    HOLDS(rudozhev_hip_cpu(page, PAGE_BYTES, 3) == (UINT64_C(1) << 32 | 0x02030100));
}

static void refused_pages(void) {
    memcpy(page, manual_page, PAGE_BYTES);
    HOLDS(is_refused(0, RUDOZHEV_HIP_SHORT) && is_refused(55, RUDOZHEV_HIP_SHORT));
    HOLDS(is_refused(56, RUDOZHEV_HIP_LENGTH) && is_refused(239, RUDOZHEV_HIP_LENGTH));
    HOLDS(is_refused(241, RUDOZHEV_HIP_LENGTH));
    page[3]++;
    HOLDS(is_refused(PAGE_BYTES, RUDOZHEV_HIP_SIGNATURE));
    memcpy(page, manual_page, PAGE_BYTES);
    page[6]--;
    HOLDS(is_refused(239, RUDOZHEV_HIP_LAYOUT));
    memcpy(page, manual_page, PAGE_BYTES);
    page[16]++;
    HOLDS(is_refused(PAGE_BYTES, RUDOZHEV_HIP_CHECKSUM));
    /* A type of 0, and the checksum for it. */
    memcpy(page, manual_page, PAGE_BYTES);
    page[88]--;
    page[4]++;
    HOLDS(is_refused(PAGE_BYTES, RUDOZHEV_HIP_TYPE));
    struct rudozhev_hip_header header;
    HOLDS(rudozhev_hip_refused(rudozhev_hip_read(NULL, 0, &header)) == RUDOZHEV_HIP_SHORT);
}

/* The length of a page at the start of longer memory, and of what is none. */
static void page_lengths(void) {
    memcpy(page, manual_page, PAGE_BYTES);
    HOLDS(rudozhev_hip_length(page, sizeof page) == PAGE_BYTES && rudozhev_hip_length(page, PAGE_BYTES) == PAGE_BYTES);
    HOLDS(rudozhev_hip_length(page, 239) == 239 && is_refused(239, RUDOZHEV_HIP_LENGTH));
    HOLDS(rudozhev_hip_length(page, 56) == 56 && rudozhev_hip_length(page, 8) == 8);
    HOLDS(rudozhev_hip_length(page, 7) == 7 && rudozhev_hip_length(NULL, 0) == 0);
    page[6] = 55;
    HOLDS(rudozhev_hip_length(page, sizeof page) == 55 && is_refused(55, RUDOZHEV_HIP_SHORT));
    page[7] = 255;
    HOLDS(rudozhev_hip_length(page, sizeof page) == 65335 && rudozhev_hip_length(page, 65334) == 65334);
    page[6] = 255;
    HOLDS(rudozhev_hip_length(page, sizeof page) == RUDOZHEV_HIP_GREATEST_LENGTH);
    memset(page, 0, sizeof page);
    HOLDS(rudozhev_hip_length(page, sizeof page) == 0 && is_refused(0, RUDOZHEV_HIP_SHORT));
}

/* Whether a write is refused so, and leaves the buffer. */
static bool write_is_refused(uint64_t reply, enum rudozhev_hip_refusal refusal) {
    return rudozhev_hip_refused(reply) == refusal && rudozhev_hip_written(reply) == 0 &&
           memcmp(page, page_before, sizeof page) == 0;
}

static void write_page(void) {
    memset(page, 0x5a, sizeof page);
    memcpy(page_before, page, sizeof page);
    HOLDS(write_is_refused(written_with(page_types, 239), RUDOZHEV_HIP_ROOM));
    HOLDS(write_is_refused(written_with(page_types, 0), RUDOZHEV_HIP_ROOM));
    HOLDS(write_is_refused(written_with(page_types + 1, sizeof page), RUDOZHEV_HIP_TYPE));
    HOLDS(rudozhev_hip_written(written_with(page_types, PAGE_BYTES)) == PAGE_BYTES);
    HOLDS(memcmp(page, manual_page, PAGE_BYTES) == 0 && page[PAGE_BYTES] == 0x5a);
    memset(page, 0x5a, sizeof page);
    HOLDS(written_with(page_types, sizeof page) == PAGE_BYTES);
    memcpy(page_before, manual_page, PAGE_BYTES);
    HOLDS(memcmp(page, page_before, sizeof page) == 0);

    /* Bytes that make no whole CPU, and what lists have beyond the shortest, are not read. */
    for (size_t shortest = 0; shortest < 4; shortest++) {
        size_t counts[4] = {PAGE_RANGES + 1, PAGE_RANGES + 1, PAGE_RANGES + 1, PAGE_RANGES + 1};
        counts[shortest] = PAGE_RANGES;
        memset(page, 0x5a, sizeof page);
        HOLDS(rudozhev_hip_write(&page_header, (const uint8_t *)page_cpus, 4 * PAGE_CPUS + shortest, page_addresses,
                                 counts[0], page_sizes, counts[1], page_types, counts[2], page_auxiliaries, counts[3],
                                 page, sizeof page) == PAGE_BYTES);
        HOLDS(memcmp(page, page_before, sizeof page) == 0);
    }
}

/* The longest pages, and those that are longer by one descriptor. */
static void long_pages(void) {
    struct rudozhev_hip_lists lists = {many_numbers, many_numbers, many_types, many_auxiliaries, MOST_RANGES};
    struct rudozhev_hip_header header;
    for (size_t index = 0; index <= MOST_RANGES; index++) {
        many_types[index] = RUDOZHEV_HIP_RESERVED;
    }
    HOLDS(rudozhev_hip_write_page(&page_header, many_cpus, 1, &lists, page, sizeof page) == 65532);
    HOLDS(rudozhev_hip_read(page, rudozhev_hip_length(page, sizeof page), &header) == (2728 << 16 | 1));
    memcpy(page_before, page, sizeof page);
    uint64_t reply = rudozhev_hip_write_page(&page_header, many_cpus, 2, &lists, page, sizeof page);
    HOLDS(write_is_refused(reply, RUDOZHEV_HIP_LARGE));
    lists.count = MOST_RANGES + 1;
    reply = rudozhev_hip_write_page(&page_header, NULL, 0, &lists, page, 0);
    HOLDS(write_is_refused(reply, RUDOZHEV_HIP_LARGE));
    many_types[MOST_RANGES] = RUDOZHEV_HIP_NO_TYPE;
    reply = rudozhev_hip_write_page(&page_header, NULL, 0, &lists, page, 0);
    HOLDS(write_is_refused(reply, RUDOZHEV_HIP_TYPE));

    const struct rudozhev_hip_lists none = {NULL, NULL, NULL, NULL, 0};
    reply = rudozhev_hip_write_page(&page_header, many_cpus, MOST_CPUS + 1, &none, page, sizeof page);
    HOLDS(write_is_refused(reply, RUDOZHEV_HIP_LARGE));
    HOLDS(rudozhev_hip_write_page(&page_header, many_cpus, MOST_CPUS, &none, page, sizeof page) == 65532);
    HOLDS(rudozhev_hip_read(page, 65532, &header) == 16369);
    HOLDS(rudozhev_hip_write_page(&page_header, NULL, 0, &none, page, sizeof page) == RUDOZHEV_HIP_HEADER_BYTES);
    HOLDS(rudozhev_hip_read(page, RUDOZHEV_HIP_HEADER_BYTES, &header) == 0);
}

int main(void) {
    page_numbers();
    read_page();
    refused_pages();
    page_lengths();
    write_page();
    long_pages();
    descriptors();
    place_numbers();
    other_words();
    HOLDS(boot(&tables) && boot(&general));
    hypercalls();
    reasons();
    refusals();
    HOLDS(boot(&tables));
    object_selectors();
    HOLDS(boot(&tables));
    root_pages();
    HOLDS(boot(&tables));
    depth();
    HOLDS(boot(&tables));
    damage();
    HOLDS(boot(&tables));
    repairs();
    dump();
    return EXIT_SUCCESS;
}
