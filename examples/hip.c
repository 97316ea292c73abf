/* Writes the manual's information page as a hypervisor does before its root runs, and reads it
 * as the root does: prints the fields, the CPUs and the memory, then what is not there and
 * what is refused. Ends with a failure where something is refused that should not be. */
#include "rudozhev.h"

#include <inttypes.h>
#include <stdio.h>
#include <stdlib.h>
#include <string.h>

enum { MEMORY_BYTES = 4096, CPUS = 4, RANGES = 7 };

/* The memory of the information page, which the root may read. */
static uint8_t memory[MEMORY_BYTES];

static const struct rudozhev_hip_header header = {{
    [RUDOZHEV_HIP_FEATURES] = 1,
    [RUDOZHEV_HIP_API_VERSION] = 5,
    [RUDOZHEV_HIP_SEL] = RUDOZHEV_OBJECT_SELECTORS,
    [RUDOZHEV_HIP_EXC] = 32,
    [RUDOZHEV_HIP_VMI] = 208,
    [RUDOZHEV_HIP_GSI] = 24,
    [RUDOZHEV_HIP_PAGE_SIZES] = 1 << 12 | 1 << 22,
    [RUDOZHEV_HIP_UTCB_SIZES] = 1 << 12,
    [RUDOZHEV_HIP_TSC_FREQUENCY] = 2662272,
    [RUDOZHEV_HIP_BUS_FREQUENCY] = 100000,
}};

static const struct rudozhev_hip_cpu_descriptor cpus[CPUS] = {
    {.flags = 1},
    {.flags = 1, .thread = 1},
    {.flags = 1, .core = 1},
    {.flags = 0, .thread = 1, .core = 3, .package = 2},
};

static const uint64_t addresses[RANGES] = {0, 0x100000, 0xbff00000, 0xbff10000, 0xfee00000, 0x200000, 0x400000};
static const uint64_t sizes[RANGES] = {654336, 3219128320, 65536, 983040, 4096, 524288, 24576};
static const int32_t types[RANGES] = {
    RUDOZHEV_HIP_AVAILABLE, RUDOZHEV_HIP_AVAILABLE,       RUDOZHEV_HIP_ACPI_RECLAIM,     RUDOZHEV_HIP_ACPI_NVS,
    RUDOZHEV_HIP_RESERVED,  RUDOZHEV_HIP_MICROHYPERVISOR, RUDOZHEV_HIP_MULTIBOOT_MODULE,
};
static const uint32_t auxiliaries[RANGES] = {[RANGES - 1] = 0x300000};

/* Writes the page into so many bytes of memory, with these types. */
static uint64_t write_page(const int32_t *given_types, size_t bytes) {
    const struct rudozhev_hip_lists lists = {addresses, sizes, given_types, auxiliaries, RANGES};
    return rudozhev_hip_write_page(&header, cpus, CPUS, &lists, memory, bytes);
}

/* What is said of a page, by its refusal. */
static const char *const verdicts[] = {
    [RUDOZHEV_HIP_ACCEPTED] = "accepted",
    [RUDOZHEV_HIP_SHORT] = "refused: short",
    [RUDOZHEV_HIP_SIGNATURE] = "refused: signature",
    [RUDOZHEV_HIP_LENGTH] = "refused: length",
    [RUDOZHEV_HIP_LAYOUT] = "refused: layout",
    [RUDOZHEV_HIP_CHECKSUM] = "refused: checksum",
    [RUDOZHEV_HIP_TYPE] = "refused: type",
    [RUDOZHEV_HIP_LARGE] = "refused: large",
    [RUDOZHEV_HIP_ROOM] = "refused: room",
};

/* The name of a type. */
static const char *type_name(enum rudozhev_hip_type type) {
    switch (type) {
    case RUDOZHEV_HIP_MULTIBOOT_MODULE:
        return "multiboot module";
    case RUDOZHEV_HIP_MICROHYPERVISOR:
        return "microhypervisor";
    case RUDOZHEV_HIP_NO_TYPE:
        break;
    case RUDOZHEV_HIP_AVAILABLE:
        return "available memory";
    case RUDOZHEV_HIP_RESERVED:
        return "reserved memory";
    case RUDOZHEV_HIP_ACPI_RECLAIM:
        return "ACPI reclaim memory";
    case RUDOZHEV_HIP_ACPI_NVS:
        return "ACPI NVS memory";
    }
    return "not known";
}

static void print_fields(const struct rudozhev_hip_header *read) {
    const uint32_t *field = read->fields;
    printf("features       0x%08" PRIx32 "\n", field[RUDOZHEV_HIP_FEATURES]);
    printf("API version    %" PRIu32 "\n", field[RUDOZHEV_HIP_API_VERSION]);
    printf("SEL            %" PRIu32 "\n", field[RUDOZHEV_HIP_SEL]);
    printf("EXC            %" PRIu32 "\n", field[RUDOZHEV_HIP_EXC]);
    printf("VMI            %" PRIu32 "\n", field[RUDOZHEV_HIP_VMI]);
    printf("GSI            %" PRIu32 "\n", field[RUDOZHEV_HIP_GSI]);
    printf("page sizes     0x%08" PRIx32 "\n", field[RUDOZHEV_HIP_PAGE_SIZES]);
    printf("UTCB sizes     0x%08" PRIx32 "\n", field[RUDOZHEV_HIP_UTCB_SIZES]);
    printf("TSC frequency  %" PRIu32 " kHz\n", field[RUDOZHEV_HIP_TSC_FREQUENCY]);
    printf("bus frequency  %" PRIu32 " kHz\n", field[RUDOZHEV_HIP_BUS_FREQUENCY]);
}

static void print_cpus(size_t length, uint32_t count) {
    puts(count == 0 ? "no CPU" : "  CPU  package  core  thread  flags");
    for (uint32_t index = 0; index < count; index++) {
        struct rudozhev_hip_cpu_descriptor cpu;
        if (rudozhev_hip_find_cpu(memory, length, index, &cpu)) {
            printf("%5" PRIu32 "  %7u  %4u  %6u  %5u\n", index, cpu.package, cpu.core, cpu.thread, cpu.flags);
        }
    }
}

static void print_ranges(size_t length, uint32_t count) {
    puts(count == 0 ? "no memory" : "range             address                  size   auxiliary  type");
    for (uint32_t index = 0; index < count; index++) {
        struct rudozhev_hip_memory_descriptor range;
        if (rudozhev_hip_find_memory(memory, length, index, &range)) {
            printf("%5" PRIu32 "  0x%016" PRIx64 "  %20" PRIu64 "  0x%08" PRIx32 "  %4d  %s\n", index, range.address,
                   range.size, range.auxiliary, (int)range.type, type_name(range.type));
        }
    }
}

/* Reads the page as the root does, from memory that goes on after it, and prints it. */
static void print_page(void) {
    struct rudozhev_hip_header read;
    const size_t length = rudozhev_hip_length(memory, MEMORY_BYTES);
    const uint64_t reply = rudozhev_hip_read(memory, length, &read);
    if (rudozhev_hip_refused(reply) != RUDOZHEV_HIP_ACCEPTED) {
        puts(verdicts[rudozhev_hip_refused(reply)]);
        exit(EXIT_FAILURE);
    }
    printf("information page of %zu bytes, checksum %d\n", length, memory[5] << 8 | memory[4]);
    print_fields(&read);
    puts("");
    print_cpus(length, rudozhev_hip_cpus(reply));
    puts("");
    print_ranges(length, rudozhev_hip_memories(reply));
}

/* Tells whether some bytes are accepted, and whether a CPU and a range are found in them. */
static void tell(const char *what, size_t length, uint32_t index) {
    struct rudozhev_hip_header read;
    struct rudozhev_hip_cpu_descriptor cpu;
    struct rudozhev_hip_memory_descriptor range;
    const uint64_t reply = rudozhev_hip_read(memory, length, &read);
    const bool has_cpu = rudozhev_hip_find_cpu(memory, length, index, &cpu);
    const bool has_range = rudozhev_hip_find_memory(memory, length, index, &range);
    printf("%s is %s; CPU %" PRIu32 " is %s, range %" PRIu32 " is %s\n", what, verdicts[rudozhev_hip_refused(reply)],
           index, has_cpu ? "there" : "not there", index, has_range ? "there" : "not there");
}

/* Tells whether a page is written. */
static void tell_written(const char *what, uint64_t reply) {
    printf("%s is %s; %zu bytes are written\n", what, verdicts[rudozhev_hip_refused(reply)],
           rudozhev_hip_written(reply));
}

int main(void) {
    const size_t length = rudozhev_hip_written(write_page(types, MEMORY_BYTES));
    print_page();

    puts("");
    tell("the page", length, 3);
    tell("the page", length, 4);
    tell("the page", length, 7);
    memory[16] = 2;
    tell("the page with byte 16 changed", length, 0);
    memory[16] = 1;
    tell("the page cut by a byte", length - 1, 0);
    memory[6] -= 1;
    tell("the page cut by a byte, with its length changed,", length - 1, 0);
    memset(memory, 0, MEMORY_BYTES);
    tell("memory without a page", rudozhev_hip_length(memory, MEMORY_BYTES), 0);

    const int32_t no_types[RANGES] = {RUDOZHEV_HIP_NO_TYPE};
    tell_written("a page with a type of 0", write_page(no_types, MEMORY_BYTES));
    tell_written("the page in too few bytes", write_page(types, length - 1));
    tell_written("the page in enough", write_page(types, length));
    return EXIT_SUCCESS;
}
