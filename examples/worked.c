/*
 * A host in C: a lever at the origin, and a repeater beside it that faces East
 * and that it feeds. Marks the plot by both entries and holds the answers to
 * what they must be, on that plot, on damaged copies and on a full plot; by the
 * rules of every year, which no plot here tells apart (examples/rules.c does).
 *
 *     cc -std=c99 -I include -o worked examples/worked.c target/staticlib/libcapi.a
 *
 * It allocates nothing, as the library does not: under valgrind there is no
 * allocation at all. With an argument it lends slices of the heap instead, just
 * long enough and never written before, so that valgrind would see a byte read
 * or written beside them.
 */
#include <stdio.h>
#include <stdlib.h>
#include <string.h>

#include "dustroute.h"

#define FILLING 0xa5

static int64_t rules;

/* Lists, as bytes, with a record more than there may be. */
static uint8_t components[(DUSTROUTE_COMPONENTS + 1) * DUSTROUTE_COMPONENT_BYTES];
static uint8_t connections[(DUSTROUTE_CONNECTIONS + 1) * DUSTROUTE_CONNECTION_BYTES];
static uint8_t ports[(DUSTROUTE_CONNECTIONS + 1) * DUSTROUTE_PORT_BYTES];
static uint8_t frontiers[(DUSTROUTE_FRONTIERS + 1) * DUSTROUTE_FRONTIER_BYTES];

/* Room for the largest plot. */
static uint8_t nets[DUSTROUTE_NETS_BYTES(DUSTROUTE_COMPONENTS)];
static uint8_t fragments[DUSTROUTE_FRAGMENTS_BYTES(DUSTROUTE_COMPONENTS)];
static uint8_t regions[DUSTROUTE_REGIONS_BYTES(DUSTROUTE_COMPONENTS)];
static uint8_t sources[DUSTROUTE_SOURCES_BYTES(DUSTROUTE_COMPONENTS)];
static uint8_t inputs[DUSTROUTE_INPUTS_BYTES(DUSTROUTE_COMPONENTS)];
static uint8_t sets[DUSTROUTE_SETS_BYTES];
static uint8_t stack[DUSTROUTE_STACK_BYTES(DUSTROUTE_COMPONENTS)];

static int faults;

static void hold(int holds, const char *what)
{
    if (!holds) {
        printf("not as it must be: %s\n", what);
        faults++;
    }
}

/* Eight bytes to a number, lowest first. */
static void put(uint8_t *list, size_t place, int64_t number)
{
    for (size_t k = 0; k < 8; k++)
        list[8 * place + k] = (uint8_t)((uint64_t)number >> (8 * k));
}

static uint64_t get(const uint8_t *list, size_t place)
{
    uint64_t number = 0;
    for (size_t k = 8; k-- > 0;)
        number = number << 8 | list[8 * place + k];
    return number;
}

static size_t put_all(uint8_t *list, const int64_t *numbers, size_t count)
{
    for (size_t k = 0; k < count; k++)
        put(list, k, numbers[k]);
    return 8 * count;
}

static int is_filled(const uint8_t *slice, size_t from, size_t to, uint8_t filling)
{
    while (from < to)
        if (slice[from++] != filling)
            return 0;
    return 1;
}

static void fill(void)
{
    memset(nets, FILLING, sizeof nets);
    memset(fragments, FILLING, sizeof fragments);
    memset(regions, FILLING, sizeof regions);
    memset(sources, FILLING, sizeof sources);
    memset(inputs, FILLING, sizeof inputs);
    memset(sets, FILLING, sizeof sets);
    memset(stack, FILLING, sizeof stack);
}

static int is_as_before(void)
{
    return is_filled(nets, 0, sizeof nets, FILLING)
        && is_filled(fragments, 0, sizeof fragments, FILLING)
        && is_filled(regions, 0, sizeof regions, FILLING)
        && is_filled(sources, 0, sizeof sources, FILLING)
        && is_filled(inputs, 0, sizeof inputs, FILLING)
        && is_filled(sets, 0, sizeof sets, FILLING)
        && is_filled(stack, 0, sizeof stack, FILLING);
}

static uint64_t grouped(size_t components_len, size_t connections_len)
{
    fill();
    return dustroute_groups(
        rules, components, components_len, connections, connections_len,
        nets, sizeof nets, fragments, sizeof fragments);
}

static uint64_t analyzed(size_t components_len, size_t ports_len, size_t frontiers_len, size_t stack_len)
{
    fill();
    return dustroute_liveness(
        rules, components, components_len, ports, ports_len, frontiers, frontiers_len,
        regions, sizeof regions, sources, sizeof sources, inputs, sizeof inputs,
        sets, sizeof sets, stack, stack_len);
}

/* id, x, y, z, kind, facing, support, conducts */
static const int64_t lever_and_repeater[] = {
    1, 0, 0, 0, 4, 0, 0, 0,
    2, 1, 0, 0, 1, 2, 0, 0,
};

static void worked_groups(void)
{
    const int64_t fed[] = {1, 2, 5};
    size_t length = put_all(components, lever_and_repeater, 16);
    uint64_t answer = grouped(length, put_all(connections, fed, 3));
    hold(DUSTROUTE_ACCEPTED(answer), "groups accepted");
    hold(DUSTROUTE_COUNT(answer, 0) == 2, "two nets");
    hold(DUSTROUTE_COUNT(answer, 1) == 1, "one fragment");
    hold(get(nets, 0) == 0 && get(nets, 1) == 1, "nets");
    hold(get(fragments, 0) == 0 && get(fragments, 1) == 0, "fragments");
    hold(is_filled(nets, 16, sizeof nets, FILLING), "rest of nets");
    hold(is_filled(fragments, 16, sizeof fragments, FILLING), "rest of fragments");
}

static void worked_liveness(void)
{
    const int64_t fed[] = {1, 1, 2, 1, 4};
    size_t length = put_all(components, lever_and_repeater, 16);
    uint64_t answer = analyzed(length, put_all(ports, fed, 5), 0, sizeof stack);
    hold(DUSTROUTE_ACCEPTED(answer), "liveness accepted");
    hold(DUSTROUTE_COUNT(answer, 0) == 2, "two regions");
    hold(DUSTROUTE_COUNT(answer, 1) == 1, "one source");
    hold(DUSTROUTE_COUNT(answer, 2) == 1, "one required input");
    hold(get(regions, 0) == 0 && get(regions, 1) == 1, "regions");
    hold(get(sources, 0) == 1 && get(sources, 1) == 0, "the lever is controllable");
    hold(get(inputs, 0) == 2 && get(inputs, 1) == 1 && get(inputs, 2) == 0, "the repeater is driven");
    /* both driven, no region cyclic, the first holds a drive source */
    hold(get(sets, 0) == 3 && get(sets, 16) == 3 && get(sets, 32) == 0 && get(sets, 48) == 1, "sets");
    hold(is_filled(regions, 16, sizeof regions, FILLING), "rest of regions");
    hold(is_filled(sources, 16, sizeof sources, FILLING), "rest of sources");
    hold(is_filled(inputs, 24, sizeof inputs, FILLING), "rest of inputs");
    hold(is_filled(stack, 0, sizeof stack, 0), "stack zero");
}

static int is_refusal(uint64_t answer, unsigned number, unsigned list, uint64_t item)
{
    return !DUSTROUTE_ACCEPTED(answer) && DUSTROUTE_NUMBER(answer) == number
        && DUSTROUTE_LIST(answer) == list && DUSTROUTE_ITEM(answer) == item && is_as_before();
}

static void refusals(void)
{
    const int64_t missing[] = {1, 1, 2, 1, 4, 2, 0, 9, 0, 0};
    const int64_t from_missing[] = {1, 1, 2, 1, 4, 9, 0, 1, 0, 0};
    const int64_t falling[] = {1, 2, 5, 1, 2, 4};
    size_t length = put_all(components, lever_and_repeater, 16);
    size_t twice = put_all(connections, falling, 6);
    size_t fed = put_all(ports, missing, 10);
    hold(is_refusal(grouped(length - 1, twice), 1, 0, 1), "1: a byte is missing");
    hold(is_refusal(analyzed(length, fed - 40, 0, 31), 2, 3, 0), "2: a byte of the stack is missing");
    put(components, 9, 30000001);
    hold(is_refusal(grouped(length, twice), 3, 0, 1), "3: x out of range");
    put(components, 9, -1);
    hold(is_refusal(grouped(length, twice), 4, 0, 1), "4: components fall");
    put(components, 9, 1);
    put(components, 8, 1);
    hold(is_refusal(grouped(length, twice), 5, 0, 1), "5: an id twice");
    put(components, 8, 2);
    hold(is_refusal(grouped(length, twice), 6, 1, 1), "6: connections fall");
    hold(is_refusal(analyzed(length, fed, 0, sizeof stack), 7, 1, 1), "7: a cleared sink");
    fed = put_all(ports, from_missing, 10);
    hold(is_refusal(analyzed(length, fed, 0, sizeof stack), 7, 1, 1), "7: a cleared source");
}

/* Three wires in a row, saved with a connection from block 9, which was dug
   away: refused with 7, cleared, and three regions without a loop then. Each
   list has a number more than is asked for, then one too few. */
static void cleared_up(void)
{
    enum { KEPT = 3 * 5, DROPPED = 3 * 2 };
    const int64_t row[] = {
        0, 0, 0, 0, 0, 0, 0, 0,
        1, 1, 0, 0, 0, 0, 0, 0,
        2, 2, 0, 0, 0, 0, 0, 0,
    };
    const int64_t saved[] = {0, 0, 1, 0, 0, 1, 0, 2, 0, 0, 9, 0, 0, 0, 0};
    int64_t kept[KEPT + 1];
    uint64_t dropped[DROPPED + 1];
    memset(kept, FILLING, sizeof kept);
    memset(dropped, FILLING, sizeof dropped);
    const int64_t dirty = kept[KEPT];
    const size_t length = put_all(components, row, 24);
    uint64_t answer = analyzed(length, put_all(ports, saved, 15), 0, sizeof stack);
    hold(is_refusal(answer, 7, 1, 2), "7: block 9 is gone");
    answer = dustroute_clear(rules, row, 24, saved, 15, row, 0, kept, KEPT - 1, dropped, DROPPED + 1);
    hold(answer == (2 | 3 << 8), "2: no room for the kept");
    answer = dustroute_clear(rules, row, 24, saved, 15, row, 0, kept, KEPT + 1, dropped, DROPPED - 1);
    hold(answer == (2 | 3 << 8), "2: no room for the dropped");
    hold(kept[0] == dirty && dropped[0] == (uint64_t)dirty, "nothing written");
    answer = dustroute_clear(rules, row, 24, saved, 15, row, 0, kept, KEPT + 1, dropped, DROPPED + 1);
    hold(DUSTROUTE_ACCEPTED(answer), "cleared");
    hold(DUSTROUTE_COUNT(answer, 0) == 2 && DUSTROUTE_COUNT(answer, 1) == 1, "two kept, one dropped");
    hold(memcmp(kept, saved, 10 * sizeof *kept) == 0 && kept[10] == dirty, "the kept as they were");
    hold(dropped[0] == 2 && dropped[1] == 0 && dropped[2] == (uint64_t)dirty, "item 2, its source");
    answer = analyzed(length, put_all(ports, kept, 10), 0, sizeof stack);
    hold(DUSTROUTE_ACCEPTED(answer) && DUSTROUTE_COUNT(answer, 0) == 3, "three regions");
    hold(get(sets, 32) == 0, "no loop");
}

/* Wires up a step and down again, the second step by dust that is saved as
   rising, and a connection to a block that is not there. The slice has a number
   more than is asked for, dirty; then one too few. */
static void up_and_down(void)
{
    enum { ROWS = 4 * 6 };
    const int64_t wires[] = {
        1, 0, 64, 0, 0, 0, 0, 0,
        2, 1, 65, 0, 0, 0, 0, 0,
        3, 2, 64, 0, 0, 0, 0, 0,
    };
    const int64_t joined[] = {1, 2, 1, 2, 1, 2, 2, 3, 1, 3, 9, 0};
    const int64_t wanted[] = {1, 1, 2, 3, 0, 1, 2, 3, 1, 1, 0, 2, 2, 1, 3, 3, 0, 2};
    int64_t row[ROWS + 1];
    memset(row, FILLING, sizeof row);
    const int64_t dirty = row[ROWS];
    uint64_t answer = dustroute_ports(rules, wires, 24, joined, 12, row, ROWS - 1);
    hold(answer == (2 | 3 << 8) && row[0] == dirty, "2: no room for the rows");
    const int64_t twice[] = {1, 2, 1, 1, 2, 1};
    answer = dustroute_ports(rules, wires, 24, twice, 6, row, ROWS + 1);
    hold(answer == (6 | 1 << 8 | 1 << 16) && row[0] == dirty, "6: a connection twice");
    answer = dustroute_ports(rules, wires, 24, joined, 12, row, ROWS + 1);
    hold(DUSTROUTE_ACCEPTED(answer) && DUSTROUTE_COUNT(answer, 0) == 3, "three connections kept");
    hold(memcmp(row, wanted, sizeof wanted) == 0, "up, down and down");
    for (size_t k = 18; k <= ROWS; k++)
        hold(row[k] == dirty, "nothing behind the rows");
    int64_t fed[3 * 5];
    for (size_t k = 0; k < 3; k++)
        memcpy(fed + 5 * k, row + 6 * k, 5 * sizeof *row);
    answer = analyzed(put_all(components, wires, 24), put_all(ports, fed, 15), 0, sizeof stack);
    hold(DUSTROUTE_ACCEPTED(answer) && DUSTROUTE_COUNT(answer, 0) == 2, "two regions, without the slopes");
}

/* A ring of wires through as many components as there may be, four connections
   from each to the next, and frontiers that are all the origin. */
static void full_lists(void)
{
    const size_t count = DUSTROUTE_COMPONENTS;
    size_t joined = 0, fed = 0;
    for (size_t k = 0; k <= count; k++) {
        const int64_t wire[] = {(int64_t)k, (int64_t)k, 0, 0, 0, 0, 0, 0};
        put_all(components + k * DUSTROUTE_COMPONENT_BYTES, wire, 8);
    }
    for (size_t k = 0; k < count; k++)
        for (int64_t kind = 0; kind < 4; kind++) {
            const int64_t next = (int64_t)((k + 1) % count);
            const int64_t connection[] = {(int64_t)k, next, kind};
            const int64_t port[] = {(int64_t)k, kind, next, kind, kind};
            joined += put_all(connections + joined, connection, 3);
            fed += put_all(ports + fed, port, 5);
        }
    memset(frontiers, 0, sizeof frontiers);
}

static void full_plot(void)
{
    const size_t wires = DUSTROUTE_COMPONENTS * DUSTROUTE_COMPONENT_BYTES;
    const size_t joined = DUSTROUTE_CONNECTIONS * DUSTROUTE_CONNECTION_BYTES;
    const size_t fed = DUSTROUTE_CONNECTIONS * DUSTROUTE_PORT_BYTES;
    const size_t seen = DUSTROUTE_FRONTIERS * DUSTROUTE_FRONTIER_BYTES;
    const uint64_t one_and_one = (uint64_t)1 << 16 | (uint64_t)1 << 32;
    full_lists();
    hold(grouped(wires, joined) == one_and_one, "one net, one fragment");
    hold(analyzed(wires, fed, seen, sizeof stack) == one_and_one, "one region, one source, no input");
    hold(is_filled(sets, 0, 256, 0xff), "all driven");
    hold(get(sets, 32) == 1 && get(sets, 48) == 1, "a cyclic region that holds a drive source");
    hold(is_refusal(grouped(sizeof components, joined), 1, 0, DUSTROUTE_COMPONENTS), "1: a component too many");
    hold(is_refusal(grouped(wires, sizeof connections), 1, 1, DUSTROUTE_CONNECTIONS), "1: a connection too many");
    hold(is_refusal(analyzed(wires, sizeof ports, seen, sizeof stack), 1, 1, DUSTROUTE_CONNECTIONS), "1: a port connection too many");
    hold(is_refusal(analyzed(wires, fed, sizeof frontiers, sizeof stack), 1, 2, DUSTROUTE_FRONTIERS), "1: a frontier too many");
}

/* A copy on the heap, or so many bytes that nothing was written to. */
static uint8_t *lent(const uint8_t *bytes, size_t length)
{
    uint8_t *slice = malloc(length == 0 ? 1 : length);
    if (slice == NULL)
        exit(2);
    if (bytes != NULL)
        memcpy(slice, bytes, length);
    return slice;
}

static void hold_on_the_heap(uint64_t count, const int64_t *list, unsigned inputs_wanted)
{
    const int64_t fed[] = {1, 1, 2, 1, 4};
    const size_t length = put_all(components, list, 8 * count);
    const size_t fed_length = put_all(ports, fed, 5);
    uint8_t *slices[] = {
        lent(components, length),
        lent(ports, fed_length),
        lent(frontiers, 0),
        lent(NULL, DUSTROUTE_REGIONS_BYTES(count)),
        lent(NULL, DUSTROUTE_SOURCES_BYTES(count)),
        lent(NULL, DUSTROUTE_INPUTS_BYTES(count)),
        lent(NULL, DUSTROUTE_SETS_BYTES),
        lent(NULL, DUSTROUTE_STACK_BYTES(count)),
        lent(NULL, DUSTROUTE_NETS_BYTES(count)),
        lent(NULL, DUSTROUTE_FRAGMENTS_BYTES(count)),
    };
    uint64_t answer = dustroute_liveness(
        rules, slices[0], length, slices[1], fed_length, slices[2], 0,
        slices[3], DUSTROUTE_REGIONS_BYTES(count),
        slices[4], DUSTROUTE_SOURCES_BYTES(count),
        slices[5], DUSTROUTE_INPUTS_BYTES(count),
        slices[6], DUSTROUTE_SETS_BYTES,
        slices[7], DUSTROUTE_STACK_BYTES(count));
    hold(DUSTROUTE_ACCEPTED(answer) && DUSTROUTE_COUNT(answer, 2) == inputs_wanted, "liveness on the heap");
    const uint64_t region = get(slices[3], 0);
    hold(get(slices[6], 48 + region / 64) >> region % 64 & 1, "the lever's region on the heap");
    answer = dustroute_groups(
        rules, slices[0], length, slices[2], 0,
        slices[8], DUSTROUTE_NETS_BYTES(count),
        slices[9], DUSTROUTE_FRAGMENTS_BYTES(count));
    hold(DUSTROUTE_ACCEPTED(answer) && DUSTROUTE_COUNT(answer, 0) == count, "groups on the heap");
    hold(get(slices[9], count - 1) == count - 1, "the last fragment on the heap");
    for (size_t k = 0; k < sizeof slices / sizeof *slices; k++)
        free(slices[k]);
}

/* The worked example, and as many pistons as there may be, with the most
   verdict rows of all. */
static void on_the_heap(void)
{
    static int64_t pistons[8 * DUSTROUTE_COMPONENTS];
    for (int64_t k = 0; k < DUSTROUTE_COMPONENTS; k++) {
        const int64_t kind = k == 0 ? 4 : 8;
        const int64_t piston[] = {k + 1, k, 0, 0, kind, 2, 0, 0};
        memcpy(pistons + 8 * k, piston, sizeof piston);
    }
    hold_on_the_heap(2, lever_and_repeater, 1);
    hold_on_the_heap(DUSTROUTE_COMPONENTS, pistons, 4 * (DUSTROUTE_COMPONENTS - 1));
}

int main(int count, char **arguments)
{
    (void)arguments;
    setvbuf(stdout, NULL, _IONBF, 0);
    for (rules = 1; rules <= 3; rules++)
        if (count > 1) {
            on_the_heap();
        } else {
            worked_groups();
            worked_liveness();
            refusals();
            cleared_up();
            up_and_down();
            full_plot();
        }
    if (faults == 0)
        printf("all answers are as they must be\n");
    return faults != 0;
}
