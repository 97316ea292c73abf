/* Asks what boot lent out; lends I/O ports to a domain by a message, asks what was
 * lent out, and takes it back; then shows what is to be done with damaged tables. Prints
 * what it sees, and ends with a failure where a call is refused that should not be. */
#include "rudozhev.h"

#include <inttypes.h>
#include <stdio.h>
#include <stdlib.h>

static struct rudozhev_tables tables;
static struct rudozhev_block source, target;

/* The root's selectors and the objects that this program makes, in order. */
enum { CHILD_PD = 35, CHILD_EC = 36, TO_CHILD = 37, SECOND_EC = 38, TO_SECOND = 39 };
enum { CHILD_EC_OBJECT = 32 };

/* The answer of a call that must succeed. */
static uint32_t done(const char *call, uint64_t reply) {
    if (rudozhev_status(reply) != RUDOZHEV_SUCCESS) {
        printf("%s is refused with status %" PRIu32 "\n", call, rudozhev_status(reply));
        exit(EXIT_FAILURE);
    }
    return rudozhev_answer(reply);
}

/* Sends one typed item and two untyped words through a portal of the root. */
static uint32_t lend(uint32_t portal, uint32_t range, uint32_t second, uint32_t window) {
    source.words[0] = rudozhev_counts(2, 1);
    source.words[RUDOZHEV_HEADER_WORDS] = 1895;
    source.words[RUDOZHEV_HEADER_WORDS + 1] = 11;
    source.words[RUDOZHEV_BLOCK_WORDS - 1] = range;
    source.words[RUDOZHEV_BLOCK_WORDS - 2] = second;
    target.words[RUDOZHEV_DELEGATE_WINDOW] = window;
    return done("CALL", rudozhev_call(&tables, RUDOZHEV_ROOT_EC, portal, &source, &target));
}

/* What the receiver is told of the item. */
static const char *told(void) {
    switch (rudozhev_received(&target, 0).reason) {
    case RUDOZHEV_REASON_NONE:
        return "received";
    case RUDOZHEV_REASON_NULL:
        return "null: there is no range or no window";
    case RUDOZHEV_REASON_MALFORMED:
        return "null: the range or the window is malformed";
    case RUDOZHEV_REASON_TYPES_DIFFER:
        return "null: range and window are of different spaces";
    case RUDOZHEV_REASON_NOTHING_FILLED:
        return "null: nothing was filled";
    case RUDOZHEV_REASON_TRANSLATION_BROKE:
        return "null: the range did not come from the receiver's window";
    case RUDOZHEV_REASON_NO_ITEM:
        return "not there";
    }
    return "null, for a reason that is not known";
}

/* Prints what LOOKUP finds at an I/O selector. */
static void look(const char *who, uint32_t caller, uint32_t selector) {
    uint32_t found = done("LOOKUP", rudozhev_lookup(&tables, caller, rudozhev_range(RUDOZHEV_IO, selector, 0, 0)));
    if (found == RUDOZHEV_NULL) {
        printf("%s holds no port at selector %" PRIu32 "\n", who, selector);
    } else {
        printf("%s holds ports at selectors %" PRIu32 " to %" PRIu32 "\n", who, rudozhev_base(found),
               rudozhev_base(found) + (UINT32_C(1) << rudozhev_order(found)) - 1);
    }
}

/* A census of a place. */
static uint64_t census(uint32_t place, uint32_t *list, size_t list_words) {
    return rudozhev_census(place, tables.places, RUDOZHEV_PLACE_WORDS, tables.objects, RUDOZHEV_OBJECT_WORDS, list,
                           list_words);
}

/* The name of a space. */
static const char *named(enum rudozhev_space space) {
    return space == RUDOZHEV_MEMORY ? "memory" : space == RUDOZHEV_IO ? "I/O" : "object";
}

/* Prints the places that descend from a place. */
static void count(const char *what, uint32_t place) {
    uint32_t list[RUDOZHEV_PLACES];
    uint32_t heirs = done("the census", census(place, list, RUDOZHEV_PLACES));
    printf("census of %s: %" PRIu32 " lent out", what, heirs);
    for (uint32_t heir = 0; heir < heirs; heir++) {
        const struct rudozhev_position at = rudozhev_read_place(list[heir]);
        printf(", place %" PRIu32 " (%s selector %" PRIu32 " of domain %" PRIu32 ")", list[heir], named(at.space),
               at.selector, at.domain);
    }
    printf("\n");
}

static void boot(void) {
    done("boot", rudozhev_boot(tables.places, RUDOZHEV_PLACE_WORDS, tables.objects, RUDOZHEV_OBJECT_WORDS));
}

static bool is_sound(void) {
    return rudozhev_sound(tables.places, RUDOZHEV_PLACE_WORDS, tables.objects, RUDOZHEV_OBJECT_WORDS) == 1;
}

/* Makes a domain with an EC, and portals of the root to that and to a second EC of its own. */
static void make_partners(void) {
    const uint32_t root = RUDOZHEV_ROOT_EC, pd = RUDOZHEV_ROOT_PD_SELECTOR;
    done("CREATE_PD", rudozhev_create_pd(&tables, root, CHILD_PD, pd, RUDOZHEV_NULL));
    done("CREATE_EC", rudozhev_create_ec(&tables, root, CHILD_EC, CHILD_PD, 0, 0));
    done("CREATE_PT", rudozhev_create_pt(&tables, root, TO_CHILD, pd, CHILD_EC, 0, 0, 0));
    printf("domain 2 has an EC, and the root a portal to it\n");
    /* An EC cannot call itself, so the root takes ports through a second EC of its own. */
    done("CREATE_EC", rudozhev_create_ec(&tables, root, SECOND_EC, pd, 0, 0));
    done("CREATE_PT", rudozhev_create_pt(&tables, root, TO_SECOND, pd, SECOND_EC, 0, 0, 0));
}

/* Writes a wrong depth, and boots anew once the damage is named. */
static void damage(uint32_t place) {
    tables.places[RUDOZHEV_PLACE_WIDTH * place + 3] = 9;
    printf("a wrong depth is written, and they are %s\n", is_sound() ? "sound" : "damaged");
    struct rudozhev_breach breach = rudozhev_read_damage(
        rudozhev_damage(tables.places, RUDOZHEV_PLACE_WORDS, tables.objects, RUDOZHEV_OBJECT_WORDS));
    printf("rule %" PRIu32 " is broken at %s %" PRIu32 "\n", breach.rule,
           breach.where == RUDOZHEV_AT_PLACE ? "place" : "record", breach.number);
    uint64_t reply = census(place, NULL, 0);
    if (rudozhev_status(reply) != RUDOZHEV_DAMAGED) {
        printf("its census is not refused\n");
        exit(EXIT_FAILURE);
    }
    printf("its census is refused with status %" PRIu32 "\n", rudozhev_status(reply));
    boot();
    printf("booted anew, they are %s\n", is_sound() ? "sound" : "damaged");
}

int main(void) {
    const uint32_t everything = rudozhev_range(RUDOZHEV_IO, 0, RUDOZHEV_PAGE_ORDER, RUDOZHEV_FULL_MASK);
    const uint32_t eight = rudozhev_range(RUDOZHEV_IO, 32, 3, RUDOZHEV_FULL_MASK);
    const uint32_t four = rudozhev_range(RUDOZHEV_IO, 32, 2, RUDOZHEV_FULL_MASK);
    const uint32_t port_of_hypervisor = rudozhev_place(0, RUDOZHEV_IO, 32);
    const uint32_t port_of_root = rudozhev_place(1, RUDOZHEV_IO, 32);

    boot();
    count("the hypervisor's information page", rudozhev_place(0, RUDOZHEV_MEMORY, RUDOZHEV_INFORMATION_PAGE));
    make_partners();
    uint32_t taken = lend(TO_SECOND, eight, rudozhev_delegation(32, true), everything);
    printf("the root takes %" PRIu32 " ports of the hypervisor\n", taken);
    look("the root", RUDOZHEV_ROOT_EC, 32);

    uint32_t lent = lend(TO_CHILD, four, rudozhev_delegation(8, false), everything);
    printf("the root lends %" PRIu32 " of them to domain 2\n", lent);
    uint64_t untyped = rudozhev_untyped(target.words, RUDOZHEV_BLOCK_WORDS);
    printf("the message has %" PRIu64 " untyped words:", untyped);
    for (uint64_t word = 0; word < untyped; word++) {
        printf(" %" PRIu32, target.words[RUDOZHEV_HEADER_WORDS + word]);
    }
    printf("\n");
    printf("its item is %s\n", told());
    look("domain 2", CHILD_EC_OBJECT, 8);
    lent = lend(TO_CHILD, four, rudozhev_delegation(8, false), everything);
    printf("the root lends %" PRIu32 " of them again, and the item is %s\n", lent, told());
    lent = lend(TO_CHILD, four, rudozhev_delegation(8, false), RUDOZHEV_NULL);
    printf("it lends %" PRIu32 " where domain 2 has no window, and the item is %s\n", lent, told());
    count("the hypervisor's port 32", port_of_hypervisor);
    count("the root's port 32", port_of_root);

    done("REVOKE", rudozhev_revoke(&tables, RUDOZHEV_ROOT_EC, four, false));
    printf("the root revokes what it lent\n");
    look("domain 2", CHILD_EC_OBJECT, 8);
    look("the root", RUDOZHEV_ROOT_EC, 32);
    count("the hypervisor's port 32", port_of_hypervisor);
    count("the root's port 32", port_of_root);

    printf("the tables are %s\n", is_sound() ? "sound" : "damaged");
    damage(port_of_root);
    return EXIT_SUCCESS;
}
