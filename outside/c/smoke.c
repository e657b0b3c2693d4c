/*
 * Calls the archive from C on "1 if not 2; 2 if not 1" and prints the coded
 * answers. Ends with 0 if they are as they should be.
 *
 * outside/c/smoke.sh builds and runs it.
 */
#include "archive.h"

#include <inttypes.h>
#include <stdio.h>
#include <string.h>

static const uint8_t sheet[] = {1, 2, 2, 1, 1, 0, 1, 2, 1, 2, 0, 1, 1, 0, 0};

static int wrong = 0;

/* Prints an answer and the map after it, and compares both. */
static void show(const char *call, uint64_t answer, uint64_t wanted, const uint8_t map[2], const uint8_t wanted_map[2]) {
    printf("%-6s top %u value %" PRIu64 " (%" PRIu64 "), map %u %u\n", call, desk_top(answer), desk_value(answer),
           answer, map[0], map[1]);
    if (answer != wanted || memcmp(map, wanted_map, 2) != 0) {
        printf("       wanted %" PRIu64 ", map %u %u\n", wanted, wanted_map[0], wanted_map[1]);
        wrong = 1;
    }
}

static uint64_t code(uint64_t top, uint64_t value) { return (top << 40) + value; }

int main(void) {
    uint8_t map[2] = {9, 9};
    const uint8_t unread[2] = {9, 9}, open[2] = {0, 0}, first[2] = {1, 2}, second[2] = {2, 1};

    show("check", desk_check(sheet, sizeof sheet), code(DESK_ACCEPTED, (2 << 16) + 2), map, unread);
    uint64_t answer = desk_open(sheet, sizeof sheet, map, sizeof map);
    show("open", answer, code(DESK_CLOSED, 2), map, open);
    answer = desk_solve(sheet, sizeof sheet, map, sizeof map);
    show("solve", answer, code(DESK_MODEL, 0), map, first);
    answer = desk_test(sheet, sizeof sheet, map, sizeof map);
    show("test", answer, code(DESK_YES, 0), map, first);
    answer = desk_margin(sheet, sizeof sheet, map, sizeof map, 2);
    show("margin", answer, code(DESK_MARGIN, (UINT64_C(1) << 32) - 1), map, first);
    memset(map, 0, sizeof map);
    answer = desk_pin(sheet, sizeof sheet, map, sizeof map, 2, 1);
    show("pin", answer, code(DESK_CLOSED, 0), map, second);
    answer = desk_rule(sheet, sizeof sheet, 2, 8, 0);
    show("rule", answer, code(DESK_PART, 1), map, second);
    answer = desk_check(sheet, 2);
    show("short", answer, code(1, 2), map, second);
    const uint8_t five_groups[] = {1, 0x82, 0x80, 0x80, 0x80, 0};
    answer = desk_open(five_groups, sizeof five_groups, map, sizeof map);
    show("long", answer, code(15, 1), map, second);
    const uint8_t dead_bound[] = {1, 1, 1, 2, 1, 1, 0, 0, 0, 0};
    answer = desk_solve(dead_bound, sizeof dead_bound, map, sizeof map);
    show("dead", answer, code(16, 5), map, second);
    return wrong;
}
