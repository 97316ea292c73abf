/* A controller that mends its tables: something else writes into them, a call finds it out, and
 * a repair takes away what cannot be accounted for; then the records are written to, which no
 * repair mends, and it boots anew. Prints what it sees, and ends with a failure where something is
 * not as it should be. */
#include "rudozhev.h"

#include <inttypes.h>
#include <stdio.h>
#include <stdlib.h>
#include <string.h>

static struct rudozhev_tables tables, found;

/* The root's selectors and the objects that this program makes, in order. */
enum { CHILD_PD = 35, CHILD_EC = 36, TO_CHILD = 37, SECOND_EC = 38, TO_SECOND = 39 };
enum { CHILD_EC_OBJECT = 32 };

/* The words of a place. */
enum { RESOURCE = 0, PERMISSIONS = 1, PARENT = 2 };

/* Ends with a failure where a condition does not hold. */
static void must(bool holds, const char *what) {
    if (!holds) {
        printf("%s is not as it should be\n", what);
        exit(EXIT_FAILURE);
    }
}

/* The answer of a call that must succeed. */
static uint32_t done(const char *call, uint64_t reply) {
    must(rudozhev_status(reply) == RUDOZHEV_SUCCESS, call);
    return rudozhev_answer(reply);
}

static void boot(void) {
    done("boot", rudozhev_boot(tables.places, RUDOZHEV_PLACE_WORDS, tables.objects, RUDOZHEV_OBJECT_WORDS));
}

/* Lends ports through a portal of the root, to selectors from the hotspot on. */
static void lend(uint32_t portal, uint32_t ports, uint32_t hotspot, bool from_hypervisor) {
    struct rudozhev_block source = {{0}}, target = {{0}};
    source.words[0] = rudozhev_counts(0, 1);
    source.words[RUDOZHEV_BLOCK_WORDS - 1] = ports;
    source.words[RUDOZHEV_BLOCK_WORDS - 2] = rudozhev_delegation(hotspot, from_hypervisor);
    target.words[RUDOZHEV_DELEGATE_WINDOW] = rudozhev_range(RUDOZHEV_IO, 0, RUDOZHEV_PAGE_ORDER, 0);
    const uint32_t filled = done("CALL", rudozhev_call(&tables, RUDOZHEV_ROOT_EC, portal, &source, &target));
    printf("ports that the root %s: %" PRIu32 "\n", from_hypervisor ? "takes" : "lends", filled);
}

/* The root takes the hypervisor's ports 32 to 39, and lends four of them to a domain that it makes. */
static void make_partners(void) {
    const uint32_t root = RUDOZHEV_ROOT_EC, pd = RUDOZHEV_ROOT_PD_SELECTOR;
    done("CREATE_PD", rudozhev_create_pd(&tables, root, CHILD_PD, pd, RUDOZHEV_NULL));
    done("CREATE_EC", rudozhev_create_ec(&tables, root, CHILD_EC, CHILD_PD, 0, 0));
    done("CREATE_PT", rudozhev_create_pt(&tables, root, TO_CHILD, pd, CHILD_EC, 0, 0, 0));
    done("CREATE_EC", rudozhev_create_ec(&tables, root, SECOND_EC, pd, 0, 0));
    done("CREATE_PT", rudozhev_create_pt(&tables, root, TO_SECOND, pd, SECOND_EC, 0, 0, 0));
    lend(TO_SECOND, rudozhev_range(RUDOZHEV_IO, 32, 3, RUDOZHEV_FULL_MASK), 32, true);
    lend(TO_CHILD, rudozhev_range(RUDOZHEV_IO, 32, 2, RUDOZHEV_FULL_MASK), 8, false);
}

/* Prints which place is meant. */
static void print_place(uint32_t place) {
    static const char *const spaces[] = {"memory", "I/O", "object"};
    const struct rudozhev_position at = rudozhev_read_place(place);
    printf("place %" PRIu32 " (%s selector %" PRIu32 " of domain %" PRIu32 ")\n", place, spaces[at.space], at.selector,
           at.domain);
}

/* Prints what an EC finds at a port selector, or that the call is refused. */
static void look(const char *who, uint32_t caller, uint32_t selector) {
    const uint64_t reply = rudozhev_lookup(&tables, caller, rudozhev_range(RUDOZHEV_IO, selector, 0, 0));
    const uint32_t range = rudozhev_answer(reply);
    if (rudozhev_status(reply) != RUDOZHEV_SUCCESS) {
        printf("LOOKUP is refused with status %" PRIu32 "\n", rudozhev_status(reply));
    } else if (range == RUDOZHEV_NULL) {
        printf("%s holds no port at selector %" PRIu32 "\n", who, selector);
    } else {
        printf("%s holds ports at selectors %" PRIu32 " to %" PRIu32 "\n", who, rudozhev_base(range),
               rudozhev_base(range) + (UINT32_C(1) << rudozhev_order(range)) - 1);
    }
}

/* Keeps the tables as they are found, and names the first breach. */
static void name_damage(void) {
    found = tables;
    const struct rudozhev_breach breach = rudozhev_read_damage(
        rudozhev_damage(tables.places, RUDOZHEV_PLACE_WORDS, tables.objects, RUDOZHEV_OBJECT_WORDS));
    printf("rule %" PRIu32 " is broken first, at ", breach.rule);
    if (breach.where == RUDOZHEV_AT_PLACE) {
        print_place(breach.number);
    } else {
        printf("record %" PRIu32 "\n", breach.number);
    }
}

/* Repairs the tables, and prints what that emptied. A hypervisor unmaps here what it mapped for these
 * places. False where the repair is refused. */
static bool repair(void) {
    const uint64_t reply =
        rudozhev_repair(tables.places, RUDOZHEV_PLACE_WORDS, tables.objects, RUDOZHEV_OBJECT_WORDS);
    must(memcmp(tables.objects, found.objects, sizeof found.objects) == 0, "the object table");
    if (rudozhev_status(reply) != RUDOZHEV_SUCCESS) {
        must(memcmp(&tables, &found, sizeof found) == 0, "a place");
        printf("the repair is refused with status %" PRIu32 ", and no word has changed\n", rudozhev_status(reply));
        return false;
    }
    printf("repaired; capabilities lost: %" PRIu32 "\n", rudozhev_answer(reply));
    for (uint32_t place = 0; place < RUDOZHEV_PLACES; place++) {
        const size_t words = RUDOZHEV_PLACE_WIDTH * place;
        if (memcmp(tables.places + words, found.places + words, RUDOZHEV_PLACE_WIDTH * sizeof *tables.places) != 0) {
            const bool was_live = found.places[words + PERMISSIONS] != 0;
            printf("%s ", was_live ? "a capability is lost at" : "words that were left are gone at");
            print_place(place);
        }
    }
    return true;
}

int main(void) {
    const uint32_t port = rudozhev_place(1, RUDOZHEV_IO, 33), page = rudozhev_place(1, RUDOZHEV_MEMORY, 5);

    boot();
    make_partners();
    look("the root", RUDOZHEV_ROOT_EC, 33);
    look("domain 2", CHILD_EC_OBJECT, 9);

    printf("two words of the place table are written by mistake\n");
    tables.places[RUDOZHEV_PLACE_WIDTH * port + PARENT] = 1895;
    tables.places[RUDOZHEV_PLACE_WIDTH * page + RESOURCE] = 11;
    look("the root", RUDOZHEV_ROOT_EC, 33);
    name_damage();
    must(repair(), "the repair");
    look("the root", RUDOZHEV_ROOT_EC, 33);
    look("the root", RUDOZHEV_ROOT_EC, 32);
    look("domain 2", CHILD_EC_OBJECT, 9);
    look("domain 2", CHILD_EC_OBJECT, 8);
    lend(TO_SECOND, rudozhev_range(RUDOZHEV_IO, 33, 0, RUDOZHEV_FULL_MASK), 33, true);
    look("the root", RUDOZHEV_ROOT_EC, 33);

    printf("a word of the object table is written by mistake\n");
    tables.objects[RUDOZHEV_RECORD_WIDTH * RUDOZHEV_ROOT_EC + 1] = 2;
    look("the root", RUDOZHEV_ROOT_EC, 32);
    name_damage();
    must(!repair(), "the refusal");
    boot();
    printf("booted anew\n");
    look("the root", RUDOZHEV_ROOT_EC, 32);
    return EXIT_SUCCESS;
}
