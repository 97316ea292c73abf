/* Measures the deepest stack that each function of librudozhev.a uses: replays the
 * journals that are its arguments, then walks the longest way to an ancestor, repairs
 * damaged tables and writes and reads information pages, on a painted stack, and looks how
 * far down the paint is gone. The arguments on the caller's side are part of each figure. */
#define _GNU_SOURCE
#include "rudozhev.h"

#include <inttypes.h>
#include <stdio.h>
#include <stdlib.h>
#include <ucontext.h>

enum { STACK_WORDS = 1 << 15, ARGUMENTS = 6 };

#define PAINT UINT64_C(0xa5a5a5a5a5a5a5a5)

enum function {
    BOOT,
    HYPERCALL,
    CENSUS,
    DAMAGE,
    SOUND,
    REPAIR,
    UNTYPED,
    HIP_READ,
    HIP_CPU,
    HIP_MEMORY,
    HIP_WRITE,
    FUNCTIONS
};
static const char *const names[FUNCTIONS] = {"boot",    "hypercall", "census",  "damage",     "sound",    "repair",
                                             "untyped", "hip_read",  "hip_cpu", "hip_memory", "hip_write"};

static uint32_t places[RUDOZHEV_PLACE_WORDS];
static uint32_t objects[RUDOZHEV_OBJECT_WORDS];
static uint32_t list[RUDOZHEV_PLACES];

/* A record of a journal. */
static struct {
    uint32_t number, caller, arguments[ARGUMENTS], source[RUDOZHEV_BLOCK_WORDS], target[RUDOZHEV_BLOCK_WORDS];
} record;

/* An information page, and what it is written from. */
enum { MOST_CPUS = 16369, MOST_RANGES = 2728 };
static struct {
    uint8_t bytes[RUDOZHEV_HIP_GREATEST_LENGTH];
    size_t length, cpu_count, range_count;
    uint32_t index;
    struct rudozhev_hip_header header;
    struct rudozhev_hip_cpu_descriptor cpus[MOST_CPUS + 1];
    struct rudozhev_hip_numbers numbers;
    uint64_t addresses[MOST_RANGES + 1], sizes[MOST_RANGES + 1];
    int32_t types[MOST_RANGES + 1];
    uint32_t auxiliaries[MOST_RANGES + 1];
} page;

static uint64_t stack[STACK_WORDS] __attribute__((aligned(16)));
static size_t deepest[FUNCTIONS];
static const uint64_t *entry;
static ucontext_t outside, inside;
static enum function wanted;
static uint32_t place;
static volatile uint64_t reply;

/* Runs the wanted function, on the painted stack. */
static void run(void) {
    entry = __builtin_frame_address(0);
    const uint32_t *a = record.arguments;
    switch (wanted) {
    case BOOT:
        reply = rudozhev_boot(places, RUDOZHEV_PLACE_WORDS, objects, RUDOZHEV_OBJECT_WORDS);
        break;
    case HYPERCALL:
        reply = rudozhev_hypercall(record.number, record.caller, a[0], a[1], a[2], a[3], a[4], a[5], places,
                                   RUDOZHEV_PLACE_WORDS, objects, RUDOZHEV_OBJECT_WORDS, record.source,
                                   RUDOZHEV_BLOCK_WORDS, record.target, RUDOZHEV_BLOCK_WORDS);
        break;
    case CENSUS:
        reply = rudozhev_census(place, places, RUDOZHEV_PLACE_WORDS, objects, RUDOZHEV_OBJECT_WORDS, list,
                                RUDOZHEV_PLACES);
        break;
    case DAMAGE:
        reply = rudozhev_damage(places, RUDOZHEV_PLACE_WORDS, objects, RUDOZHEV_OBJECT_WORDS);
        break;
    case SOUND:
        reply = rudozhev_sound(places, RUDOZHEV_PLACE_WORDS, objects, RUDOZHEV_OBJECT_WORDS);
        break;
    case REPAIR:
        reply = rudozhev_repair(places, RUDOZHEV_PLACE_WORDS, objects, RUDOZHEV_OBJECT_WORDS);
        break;
    case UNTYPED:
        reply = rudozhev_untyped(record.target, RUDOZHEV_BLOCK_WORDS);
        break;
    case HIP_READ:
        reply = rudozhev_hip_read(page.bytes, page.length, &page.header);
        break;
    case HIP_CPU:
        reply = rudozhev_hip_cpu(page.bytes, page.length, page.index);
        break;
    case HIP_MEMORY:
        reply = (uint64_t)rudozhev_hip_memory(page.bytes, page.length, page.index, &page.numbers);
        break;
    case HIP_WRITE:
        reply = rudozhev_hip_write(&page.header, (const uint8_t *)page.cpus, 4 * page.cpu_count, page.addresses,
                                   page.range_count, page.sizes, page.range_count, page.types, page.range_count,
                                   page.auxiliaries, page.range_count, page.bytes, sizeof page.bytes);
        break;
    case FUNCTIONS:
        break;
    }
}

/* Paints the stack, runs a function on it and notes how deep it went. */
static void measure(enum function function) {
    for (size_t word = 0; word < STACK_WORDS; word++) {
        stack[word] = PAINT;
    }
    wanted = function;
    getcontext(&inside);
    inside.uc_stack.ss_sp = stack;
    inside.uc_stack.ss_size = sizeof stack;
    inside.uc_link = &outside;
    makecontext(&inside, run, 0);
    swapcontext(&outside, &inside);
    const uint64_t *lowest = stack;
    while (*lowest == PAINT) {
        lowest++;
    }
    size_t depth = (size_t)(entry - lowest) * sizeof *lowest;
    if (depth > deepest[function]) {
        deepest[function] = depth;
    }
}

/* The words of a record between its caller and any blocks; -1 for another kind. */
static int argument_count(int kind) {
    switch (kind) {
    case RUDOZHEV_CALL:
    case RUDOZHEV_LOOKUP:
        return 1;
    case RUDOZHEV_REVOKE:
    case RUDOZHEV_SM_CTRL:
        return 2;
    case RUDOZHEV_CREATE_PD:
    case RUDOZHEV_CREATE_SM:
        return 3;
    case RUDOZHEV_CREATE_EC:
    case RUDOZHEV_CREATE_SC:
        return 4;
    case RUDOZHEV_CREATE_PT:
        return 6;
    default:
        return -1;
    }
}

/* Reads little-endian words; 0 where the journal ends before them. */
static int read_words(FILE *journal, uint32_t *words, size_t count) {
    for (size_t word = 0; word < count; word++) {
        unsigned char bytes[4];
        if (fread(bytes, 1, sizeof bytes, journal) != sizeof bytes) {
            return 0;
        }
        words[word] = (uint32_t)bytes[0] | (uint32_t)bytes[1] << 8 | (uint32_t)bytes[2] << 16 | (uint32_t)bytes[3] << 24;
    }
    return 1;
}

static int read_record(FILE *journal) {
    int kind = fgetc(journal);
    int count = argument_count(kind);
    if (count < 0) {
        return 0;
    }
    record.number = (uint32_t)kind;
    return read_words(journal, &record.caller, 1) && read_words(journal, record.arguments, (size_t)count) &&
           (kind != RUDOZHEV_CALL || (read_words(journal, record.source, RUDOZHEV_BLOCK_WORDS) &&
                                      read_words(journal, record.target, RUDOZHEV_BLOCK_WORDS)));
}

/* Measures a hypercall of the root, which must succeed. */
static void by_root(uint32_t number, uint32_t a, uint32_t b, uint32_t c) {
    record.number = number;
    record.caller = RUDOZHEV_ROOT_EC;
    record.arguments[0] = a;
    record.arguments[1] = b;
    record.arguments[2] = c;
    record.arguments[3] = 0;
    measure(HYPERCALL);
    if (rudozhev_status(reply) != RUDOZHEV_SUCCESS) {
        fprintf(stderr, "hypercall %" PRIu32 " is refused\n", number);
        exit(EXIT_FAILURE);
    }
}

/* The root translates the end of a page's line through its own domain, of the
 * greatest depth, for a domain that has no place in the line; then the census of
 * that end walks up from it, too. */
static void walk_the_longest_way(void) {
    enum { CHILD_PD = 35, CHILD_EC = 36, TO_CHILD = 37 };
    measure(BOOT);
    by_root(RUDOZHEV_CREATE_PD, CHILD_PD, RUDOZHEV_ROOT_PD_SELECTOR, RUDOZHEV_NULL);
    by_root(RUDOZHEV_CREATE_EC, CHILD_EC, CHILD_PD, 0);
    by_root(RUDOZHEV_CREATE_PT, TO_CHILD, RUDOZHEV_ROOT_PD_SELECTOR, CHILD_EC);
    uint32_t parent = rudozhev_place(0, RUDOZHEV_MEMORY, 0);
    for (uint32_t depth = 1; depth <= RUDOZHEV_GREATEST_DEPTH; depth++) {
        uint32_t next = rudozhev_place(1, RUDOZHEV_MEMORY, depth);
        uint32_t *words = places + RUDOZHEV_PLACE_WIDTH * next;
        words[0] = places[RUDOZHEV_PLACE_WIDTH * parent];
        words[1] = places[RUDOZHEV_PLACE_WIDTH * parent + 1];
        words[2] = parent + 1;
        words[3] = depth;
        parent = next;
    }
    record.source[0] = rudozhev_counts(0, 1);
    record.source[RUDOZHEV_BLOCK_WORDS - 1] = rudozhev_range(RUDOZHEV_MEMORY, RUDOZHEV_GREATEST_DEPTH, 0, RUDOZHEV_FULL_MASK);
    record.source[RUDOZHEV_BLOCK_WORDS - 2] = RUDOZHEV_TRANSLATION;
    record.target[RUDOZHEV_TRANSLATE_WINDOW] = rudozhev_range(RUDOZHEV_MEMORY, 0, RUDOZHEV_PAGE_ORDER, 0);
    by_root(RUDOZHEV_CALL, TO_CHILD, 0, 0);
    place = parent;
    measure(CENSUS);
}

/* Measures a repair, which must answer so. */
static void repair(uint32_t status, uint32_t lost) {
    measure(REPAIR);
    if (rudozhev_status(reply) != status || rudozhev_answer(reply) != lost) {
        fprintf(stderr, "a repair answers %" PRIu32 ", %" PRIu32 "\n", rudozhev_status(reply), rudozhev_answer(reply));
        exit(EXIT_FAILURE);
    }
}

/* Makes every place outside domain 0 one of a page, port or semaphore: each lies below the one before
 * it in its space up to the greatest depth, and there the lines end, or go round if `round` says so. */
static void draw_lines(bool round) {
    uint32_t filled[RUDOZHEV_SPACES] = {0}, first[RUDOZHEV_SPACES] = {0}, last[RUDOZHEV_SPACES] = {0};
    for (uint32_t at = RUDOZHEV_DOMAIN_PLACES; at < RUDOZHEV_PLACES; at++) {
        const enum rudozhev_space space = rudozhev_read_place(at).space;
        const uint32_t origin = rudozhev_place(0, space, 4);
        const uint32_t depth = filled[space]++ % RUDOZHEV_GREATEST_DEPTH + 1;
        uint32_t *words = places + RUDOZHEV_PLACE_WIDTH * at;
        if (depth == 1) {
            first[space] = at;
        }
        words[0] = places[RUDOZHEV_PLACE_WIDTH * origin];
        words[1] = places[RUDOZHEV_PLACE_WIDTH * origin + 1];
        words[2] = (depth == 1 ? origin : last[space]) + 1;
        words[3] = depth;
        last[space] = at;
        if (round) {
            places[RUDOZHEV_PLACE_WIDTH * first[space] + 2] = at + 1;
        }
    }
}

/* Repairs tables that are full: sound ones in which all chains are whole, with cycles in which none is, with
 * any words, and with a record or a place of domain 0 that makes the repair be refused. */
static void repair_damage(void) {
    enum { DOMAINS = 7, OUTSIDE = RUDOZHEV_PLACES - RUDOZHEV_DOMAIN_PLACES };
    measure(BOOT);
    for (uint32_t pd = 1; pd < DOMAINS; pd++) {
        by_root(RUDOZHEV_CREATE_PD, RUDOZHEV_ROOT_SC_SELECTOR + pd, RUDOZHEV_ROOT_PD_SELECTOR, RUDOZHEV_NULL);
    }
    draw_lines(false);
    repair(RUDOZHEV_SUCCESS, 0);
    draw_lines(true);
    repair(RUDOZHEV_SUCCESS, OUTSIDE);
    for (uint32_t word = RUDOZHEV_PLACE_WIDTH * RUDOZHEV_DOMAIN_PLACES; word < RUDOZHEV_PLACE_WORDS; word++) {
        places[word] = word * UINT32_C(2654435761) | 1;
    }
    repair(RUDOZHEV_SUCCESS, OUTSIDE);
    draw_lines(false);
    places[1] = 3;
    repair(RUDOZHEV_DAMAGED, 0);
    places[1] = 7;
    repair(RUDOZHEV_SUCCESS, 0);
    objects[RUDOZHEV_OBJECT_WORDS - 1] = 1;
    repair(RUDOZHEV_DAMAGED, 0);
}

/* Reads the page and descriptors of it, one that is there and one that is not. */
static void read_page(void) {
    measure(HIP_READ);
    for (int past = 0; past < 2; past++) {
        page.index = past == 0 ? 0 : UINT32_MAX;
        measure(HIP_CPU);
        measure(HIP_MEMORY);
    }
}

/* Writes a page and reads it, whole and with each byte of its header changed, where it is written. */
static void measure_page(size_t cpu_count, size_t range_count, enum rudozhev_hip_type type,
                         enum rudozhev_hip_refusal refusal) {
    page.cpu_count = cpu_count;
    page.range_count = range_count;
    for (size_t range = 0; range < range_count; range++) {
        page.types[range] = type;
    }
    measure(HIP_WRITE);
    if (rudozhev_hip_refused(reply) != refusal) {
        fprintf(stderr, "a page of %zu CPUs and %zu ranges is not as expected\n", cpu_count, range_count);
        exit(EXIT_FAILURE);
    }
    page.length = rudozhev_hip_written(reply);
    read_page();
    for (size_t byte = 0; byte < RUDOZHEV_HIP_HEADER_BYTES && byte < page.length; byte++) {
        page.bytes[byte] ^= 1;
        read_page();
        page.bytes[byte] ^= 1;
    }
    if (page.length > RUDOZHEV_HIP_HEADER_BYTES) {
        page.length--;
        read_page();
    }
}

/* The shortest page, a usual one and the longest, then pages that are not written. */
static void measure_pages(void) {
    const enum rudozhev_hip_type type = RUDOZHEV_HIP_MICROHYPERVISOR;
    measure_page(0, 0, type, RUDOZHEV_HIP_ACCEPTED);
    measure_page(4, 20, type, RUDOZHEV_HIP_ACCEPTED);
    measure_page(1, MOST_RANGES, type, RUDOZHEV_HIP_ACCEPTED);
    measure_page(MOST_CPUS, 0, type, RUDOZHEV_HIP_ACCEPTED);
    measure_page(0, MOST_RANGES + 1, type, RUDOZHEV_HIP_LARGE);
    measure_page(MOST_CPUS + 1, 0, type, RUDOZHEV_HIP_LARGE);
    measure_page(4, 20, RUDOZHEV_HIP_NO_TYPE, RUDOZHEV_HIP_TYPE);
}

int main(int count, char **files) {
    unsigned long records = 0;
    for (int file = 1; file < count; file++) {
        FILE *journal = fopen(files[file], "rb");
        if (journal == NULL) {
            perror(files[file]);
            return EXIT_FAILURE;
        }
        measure(BOOT);
        while (read_record(journal)) {
            measure(HYPERCALL);
            place = (place + 61) % RUDOZHEV_PLACES;
            measure(CENSUS);
            measure(DAMAGE);
            measure(SOUND);
            measure(REPAIR);
            measure(UNTYPED);
            records++;
        }
        fclose(journal);
    }
    walk_the_longest_way();
    repair_damage();
    measure_pages();
    printf("deepest stack over %lu records, the longest way, repairs and information pages, in bytes\n", records);
    for (int function = 0; function < FUNCTIONS; function++) {
        printf("%-10s %zu\n", names[function], deepest[function]);
    }
    return EXIT_SUCCESS;
}
