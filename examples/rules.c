/*
 * The rules of three school years, in C: a lamp that feeds a wire, which feeds a
 * repeater, marked by each; the same plot with the repeater's facing left blank; and
 * numbers of rules that are not known, for which
 * every entry refuses whatever lists, and writes nothing.
 *
 *     cc -std=c99 -I include -o rules examples/rules.c target/staticlib/libcapi.a
 */
#include <stdio.h>
#include <string.h>

#include "dustroute.h"

#define FILLING 0xa5

enum { COUNT = 3 };

/* id, x, y, z, kind, facing, support, conducts */
static int64_t plot[8 * COUNT] = {
    1, 0, 0, 0, 11, 0, 0, 1,
    2, 1, 0, 0, 0, 0, 0, 0,
    3, 2, 0, 0, 1, 2, 0, 0,
};
/* The place of the repeater's facing. */
enum { FACING = 2 * 8 + 5 };
static const int64_t fed[] = {1, 1, 2, 3, 2, 2, 1, 3, 1, 4};
static const int64_t joined[] = {1, 2, 4, 2, 3, 5};

/* Outputs, all in one, so that it shows when any of them is written. */
static struct {
    uint8_t nets[DUSTROUTE_NETS_BYTES(COUNT)];
    uint8_t fragments[DUSTROUTE_FRAGMENTS_BYTES(COUNT)];
    uint8_t regions[DUSTROUTE_REGIONS_BYTES(COUNT)];
    uint8_t sources[DUSTROUTE_SOURCES_BYTES(COUNT)];
    uint8_t inputs[DUSTROUTE_INPUTS_BYTES(COUNT)];
    uint8_t sets[DUSTROUTE_SETS_BYTES];
    uint8_t stack[DUSTROUTE_STACK_BYTES(COUNT)];
    uint8_t square[DUSTROUTE_SQUARE_BYTES(COUNT)];
    uint64_t set[DUSTROUTE_MET_NUMBERS], other[DUSTROUTE_LIGHT_SET_NUMBERS];
    uint64_t region[DUSTROUTE_LIGHT_REGIONS_NUMBERS(COUNT)];
    uint64_t trail[DUSTROUTE_TRAIL_NUMBERS(COUNT)];
    uint64_t dropped[DUSTROUTE_DROPPED_NUMBERS(2)];
    int64_t ports[DUSTROUTE_PORTS_NUMBERS(2)], kept[DUSTROUTE_KEPT_NUMBERS(2)];
    size_t work[DUSTROUTE_DRIVEN_STACK_NUMBERS(COUNT)];
} out;

static int faults;

static void hold(int holds, const char *what)
{
    if (!holds) {
        printf("not as it must be: %s\n", what);
        faults++;
    }
}

/* Eight bytes to a number, lowest first. */
static void put_all(uint8_t *list, const int64_t *numbers, size_t count)
{
    for (size_t k = 0; k < 8 * count; k++)
        list[k] = (uint8_t)((uint64_t)numbers[k / 8] >> (8 * (k % 8)));
}

static uint64_t get(const uint8_t *list, size_t place)
{
    uint64_t number = 0;
    for (size_t k = 8; k-- > 0;)
        number = number << 8 | list[8 * place + k];
    return number;
}

static uint64_t marked(int64_t rules)
{
    uint8_t components[sizeof plot], ports[sizeof fed];
    put_all(components, plot, sizeof plot / 8);
    put_all(ports, fed, sizeof fed / 8);
    memset(&out, FILLING, sizeof out);
    return dustroute_liveness(
        rules, components, sizeof components, ports, sizeof ports, components, 0,
        out.regions, sizeof out.regions, out.sources, sizeof out.sources,
        out.inputs, sizeof out.inputs, out.sets, sizeof out.sets, out.stack, sizeof out.stack);
}

static void by_the_first_year(void)
{
    uint64_t answer = marked(1);
    hold(DUSTROUTE_ACCEPTED(answer) && DUSTROUTE_COUNT(answer, 0) == 3, "three regions");
    hold(DUSTROUTE_COUNT(answer, 1) == 0, "the lamp feeds the wire: no source");
    hold(DUSTROUTE_COUNT(answer, 2) == 1 && get(out.inputs, 2) == 3, "nothing is still to come");
    hold(get(out.sets, 0) == 0 && get(out.sets, 16) == 0, "nothing is driven, or would be");
}

static void by_a_later_year(int64_t rules)
{
    uint64_t answer = marked(rules);
    hold(DUSTROUTE_ACCEPTED(answer) && DUSTROUTE_COUNT(answer, 0) == 3, "the same regions");
    hold(DUSTROUTE_COUNT(answer, 1) == 1, "a source");
    hold(get(out.sources, 0) == 2 && get(out.sources, 1) == 3, "the wire is an inferred input");
    hold(DUSTROUTE_COUNT(answer, 2) == 1 && get(out.inputs, 2) == 1, "the repeater awaits it");
    hold(get(out.sets, 0) == 0 && get(out.sets, 16) == 6, "wire and repeater would be driven");
}

static unsigned kept(int64_t rules)
{
    uint64_t answer = dustroute_ports(rules, plot, 8 * COUNT, joined, 6, out.ports, 12);
    hold(DUSTROUTE_ACCEPTED(answer), "connections kept");
    return DUSTROUTE_COUNT(answer, 0);
}

/* The repeater's facing left blank: up to the second year it is taken as North, so
   that the wire comes in from its side; by the third nobody says where it comes in,
   nor that its input is dead. */
static void by_the_third_year(void)
{
    plot[FACING] = 0;
    for (int64_t rules = 1; rules <= 3; rules++) {
        uint64_t answer = marked(rules);
        hold(DUSTROUTE_ACCEPTED(answer) && DUSTROUTE_COUNT(answer, 0) == 3, "the same regions");
        hold(DUSTROUTE_COUNT(answer, 2) == (rules < 3), "a verdict for an input that was seen");
        hold(kept(rules) == (rules < 3 ? 2 : 1), "no connection into a repeater that was not");
    }
    plot[FACING] = 2;
}

/* The answers of all nine entries, whatever number of records each list has. */
static void all_answers(int64_t rules, size_t count, uint64_t answers[9])
{
    const uint8_t *bytes = (const uint8_t *)plot;
    answers[0] = dustroute_groups(
        rules, bytes, count, bytes, count, out.nets, sizeof out.nets, out.fragments, sizeof out.fragments);
    answers[1] = dustroute_liveness(
        rules, bytes, count, bytes, count, bytes, count,
        out.regions, sizeof out.regions, out.sources, sizeof out.sources,
        out.inputs, sizeof out.inputs, out.sets, sizeof out.sets, out.stack, sizeof out.stack);
    answers[2] = dustroute_ports(rules, plot, count, joined, 6, out.ports, 12);
    answers[3] = dustroute_driven(rules, plot, count, fed, 10, plot, 0, 3, 1, out.set, 16, out.work, 6);
    answers[4] = dustroute_trail(rules, plot, count, fed, 10, plot, 0, 3, 1, out.trail, 3);
    answers[5] = dustroute_check_trail(rules, plot, count, fed, 10, plot, 0, 3, 1, out.trail, 3);
    answers[6] = dustroute_clear(rules, plot, count, fed, 10, plot, 0, out.kept, 10, out.dropped, 4);
    answers[7] = dustroute_light(
        rules, plot, count, fed, 10, plot, 0, out.region, 3, out.set, 16, out.other, 16, out.work, 6);
    answers[8] = dustroute_reach_table(
        rules, plot, count, fed, 10, plot, 0, out.square, 9, out.region, 3, out.work, 6);
}

static void unknown_rules(void)
{
    const int64_t unknown[] = {
        INT64_MIN, -1, 0, 4, 5, 256 + 1, ((int64_t)1 << 32) + 1, INT64_MAX};
    for (size_t k = 0; k < sizeof unknown / sizeof *unknown; k++)
        /* whole records, and a number or a byte too few or too many */
        for (size_t count = 0; count <= 8 * COUNT; count++) {
            uint64_t answers[9];
            memset(&out, FILLING, sizeof out);
            all_answers(unknown[k], count, answers);
            for (size_t entry = 0; entry < 9; entry++)
                hold(DUSTROUTE_NUMBER(answers[entry]) == 11 && DUSTROUTE_LIST(answers[entry]) == 3
                    && DUSTROUTE_ITEM(answers[entry]) == 0, "11: rules that are not known");
            const uint8_t *written = (const uint8_t *)&out;
            for (size_t place = 0; place < sizeof out; place++)
                hold(written[place] == FILLING, "nothing written");
        }
}

int main(void)
{
    setvbuf(stdout, NULL, _IONBF, 0);
    hold(dustroute_interface_2() == DUSTROUTE_INTERFACE, "the interface of the header");
    by_the_first_year();
    by_a_later_year(2);
    by_a_later_year(3);
    by_the_third_year();
    unknown_rules();
    if (faults == 0)
        printf("all answers are as they must be\n");
    return faults != 0;
}
