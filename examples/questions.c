/*
 * The questions of one plot, in C: whether one input is driven, the way to it,
 * the regions in lighting order, which regions have a ring, and who reaches whom.
 * The lists are numbers as the host has them. Each slice lent has a number more
 * than is asked for, dirty, and each answer is held to what it must be, the same
 * by the rules of every year.
 *
 *     cc -std=c99 -I include -o questions examples/questions.c target/staticlib/libcapi.a
 */
#include <stdio.h>
#include <string.h>

#include "dustroute.h"

#define FILLING 0xa5

static int64_t rules;

static int faults;

static void hold(int holds, const char *what)
{
    if (!holds) {
        printf("not as it must be: %s\n", what);
        faults++;
    }
}

static int is_filled(const uint8_t *slice, size_t from, size_t to, uint8_t filling)
{
    while (from < to)
        if (slice[from++] != filling)
            return 0;
    return 1;
}

/* id, x, y, z, kind, facing, support, conducts */
static const int64_t lever_and_repeater[] = {
    1, 0, 0, 0, 4, 0, 0, 0,
    2, 1, 0, 0, 1, 2, 0, 0,
};

/* One input asked: a number more than is asked for in the set and the stack,
   both dirty, then a number too few in each, and a port without a verdict. */
static void one_input(void)
{
    enum { MET = DUSTROUTE_MET_NUMBERS, WORK = 4 };
    const int64_t fed[] = {1, 1, 2, 1, 4};
    uint64_t met[MET + 1];
    size_t work[WORK + 1];
    memset(met, FILLING, sizeof met);
    memset(work, FILLING, sizeof work);
    const uint64_t dirty = met[MET];
    uint64_t answer = dustroute_driven(
        rules, lever_and_repeater, 16, fed, 5, fed, 0, 2, 1, met, MET - 1, work, WORK + 1);
    hold(DUSTROUTE_NUMBER(answer) == 2 && DUSTROUTE_LIST(answer) == 3, "2: no room for the set");
    answer = dustroute_driven(
        rules, lever_and_repeater, 16, fed, 5, fed, 0, 2, 1, met, MET + 1, work, WORK - 1);
    hold(DUSTROUTE_NUMBER(answer) == 2 && DUSTROUTE_LIST(answer) == 3, "2: no room for the stack");
    answer = dustroute_driven(
        rules, lever_and_repeater, 16, fed, 5, fed, 0, 1, 1, met, MET + 1, work, WORK + 1);
    hold(DUSTROUTE_NUMBER(answer) == 8 && DUSTROUTE_LIST(answer) == 3, "8: a lever has no verdict");
    hold(met[0] == dirty && met[MET - 1] == dirty && work[0] == (size_t)dirty, "nothing written");
    answer = dustroute_driven(
        rules, lever_and_repeater, 16, fed, 5, fed, 0, 2, 1, met, MET + 1, work, WORK + 1);
    hold(DUSTROUTE_ACCEPTED(answer) && DUSTROUTE_COUNT(answer, 0) == 1, "the repeater is driven");
    hold(met[0] == 1 && met[MET - 1] == 0 && met[MET] == dirty, "the lever was met");
    for (size_t k = 0; k <= WORK; k++)
        hold(work[k] == 0, "work zero");
}

/* Two levers, which one? The second stands by the wire and is connected; the
   first is not. Then a list that begins at the first, and one place too few. */
static void the_way(void)
{
    const int64_t plot[] = {
        7, 0, 0, 0, 4, 0, 0, 0,
        5, 0, 0, 1, 4, 0, 0, 0,
        9, 1, 0, 1, 0, 0, 0, 0,
        2, 2, 0, 1, 1, 2, 0, 0,
    };
    const int64_t fed[] = {5, 0, 9, 0, 1, 9, 0, 2, 1, 4};
    uint64_t way[5];
    memset(way, FILLING, sizeof way);
    const uint64_t dirty = way[4];
    uint64_t answer = dustroute_trail(rules, plot, 32, fed, 10, fed, 0, 2, 1, way, 3);
    hold(DUSTROUTE_NUMBER(answer) == 2 && DUSTROUTE_LIST(answer) == 3, "2: no room for the trail");
    answer = dustroute_trail(rules, plot, 32, fed, 5, fed, 0, 2, 1, way, 5);
    hold(DUSTROUTE_NUMBER(answer) == 10 && DUSTROUTE_LIST(answer) == 3, "10: not driven");
    hold(way[0] == dirty && way[4] == dirty, "no trail written");
    answer = dustroute_trail(rules, plot, 32, fed, 10, fed, 0, 2, 1, way, 5);
    hold(DUSTROUTE_ACCEPTED(answer) && DUSTROUTE_COUNT(answer, 0) == 2, "two blocks lead there");
    hold(way[0] == 5 && way[1] == 9 && way[2] == dirty, "from the second lever");
    answer = dustroute_check_trail(rules, plot, 32, fed, 10, fed, 0, 2, 1, way, 2);
    hold(DUSTROUTE_ACCEPTED(answer) && DUSTROUTE_COUNT(answer, 0) == 1, "which is a way");
    way[0] = 7;
    answer = dustroute_check_trail(rules, plot, 32, fed, 10, fed, 0, 2, 1, way, 2);
    hold(DUSTROUTE_ACCEPTED(answer) && DUSTROUTE_COUNT(answer, 0) == 0, "from the first lever is none");
    answer = dustroute_check_trail(rules, plot, 32, fed, 10, fed, 0, 7, 1, way, 2);
    hold(DUSTROUTE_NUMBER(answer) == 8, "8: a lever has no verdict");
}

/* A lamp behind two levers: both light before it. The slices lent have a number
   more than is asked for, all dirty; then one set at a time has one too few. */
static void two_levers(void)
{
    enum { COUNT = 3, SET = DUSTROUTE_LIGHT_SET_NUMBERS, WORK = 2 * COUNT };
    const int64_t lamp_between[] = {
        2, 0, 0, 0, 4, 0, 0, 0,
        1, 1, 0, 0, 11, 0, 0, 0,
        3, 2, 0, 0, 4, 0, 0, 0,
    };
    const int64_t fed[] = {2, 1, 1, 1, 1, 3, 1, 1, 1, 1};
    uint64_t region[COUNT + 1], lit[SET + 1], driven[SET + 1];
    size_t work[WORK + 1];
    memset(region, FILLING, sizeof region);
    memset(lit, FILLING, sizeof lit);
    memset(driven, FILLING, sizeof driven);
    memset(work, FILLING, sizeof work);
    const uint64_t dirty = lit[SET];
    uint64_t answer = dustroute_light(
        rules, lamp_between, 24, fed, 10, fed, 0, region, COUNT + 1, lit, SET - 1, driven, SET + 1, work, WORK + 1);
    hold(DUSTROUTE_NUMBER(answer) == 2 && DUSTROUTE_LIST(answer) == 3, "2: no room for the lit regions");
    answer = dustroute_light(
        rules, lamp_between, 24, fed, 10, fed, 0, region, COUNT + 1, lit, SET + 1, driven, SET - 1, work, WORK + 1);
    hold(DUSTROUTE_NUMBER(answer) == 2 && DUSTROUTE_LIST(answer) == 3, "2: no room for what is driven");
    answer = dustroute_light(
        rules, lamp_between, 24, fed, 10, fed, 0, region, COUNT - 1, lit, SET + 1, driven, SET + 1, work, WORK + 1);
    hold(DUSTROUTE_NUMBER(answer) == 2 && DUSTROUTE_LIST(answer) == 3, "2: no room for the regions");
    hold(region[0] == dirty && lit[0] == dirty && driven[0] == dirty && work[0] == (size_t)dirty, "nothing lit");
    answer = dustroute_light(
        rules, lamp_between, 24, fed, 10, fed, 0, region, COUNT + 1, lit, SET + 1, driven, SET + 1, work, WORK + 1);
    hold(DUSTROUTE_ACCEPTED(answer) && DUSTROUTE_COUNT(answer, 0) == COUNT, "three regions");
    hold(region[0] + region[2] == 1 && region[1] == 2 && region[3] == dirty, "the lamp is the last to light");
    hold(lit[0] == 7 && lit[SET - 1] == 0 && lit[SET] == dirty, "every region is lit");
    hold(driven[0] == 7 && driven[SET - 1] == 0 && driven[SET] == dirty, "all are driven");
    for (size_t k = 0; k <= WORK; k++)
        hold(work[k] == 0, "work zero");
}

/* Three wires, by the connections given: how many regions there are, and the first
   word of those that have a ring. The slices lent have a number more than is
   asked for, all dirty. */
static void rings_of(const int64_t *fed, size_t fed_len, unsigned regions, uint64_t rings, const char *what)
{
    enum { COUNT = 3, SET = DUSTROUTE_RINGS_SET_NUMBERS, WORK = 2 * COUNT };
    const int64_t wires[] = {
        5, 0, 0, 0, 0, 0, 0, 0,
        3, 0, 0, 1, 0, 0, 0, 0,
        4, 1, 0, 0, 0, 0, 0, 0,
    };
    uint64_t region[COUNT + 1], ring[SET + 1];
    size_t work[WORK + 1];
    memset(region, FILLING, sizeof region);
    memset(ring, FILLING, sizeof ring);
    memset(work, FILLING, sizeof work);
    const uint64_t dirty = ring[SET];
    uint64_t answer = dustroute_rings(
        rules, wires, 24, fed, fed_len, fed, 0, region, COUNT + 1, ring, SET - 1, work, WORK + 1);
    hold(DUSTROUTE_NUMBER(answer) == 2 && DUSTROUTE_LIST(answer) == 3, "2: no room for the rings");
    answer = dustroute_rings(
        rules, wires, 24, fed, fed_len, fed, 0, region, COUNT - 1, ring, SET + 1, work, WORK + 1);
    hold(DUSTROUTE_NUMBER(answer) == 2 && DUSTROUTE_LIST(answer) == 3, "2: no room for the regions");
    hold(region[0] == dirty && ring[0] == dirty && work[0] == (size_t)dirty, "nothing written");
    answer = dustroute_rings(
        rules, wires, 24, fed, fed_len, fed, 0, region, COUNT + 1, ring, SET + 1, work, WORK + 1);
    hold(DUSTROUTE_ACCEPTED(answer) && DUSTROUTE_COUNT(answer, 0) == regions, what);
    hold(ring[0] == rings && ring[SET - 1] == 0 && ring[SET] == dirty, what);
    hold(region[0] < regions && region[2] < regions && region[3] == dirty, "the regions of the wires");
    for (size_t k = 0; k <= WORK; k++)
        hold(work[k] == 0, "work of rings zero");
}

/* The founding row, the same joined both ways, and a triangle. */
static void rings(void)
{
    const int64_t row[] = {3, 1, 5, 3, 0, 5, 1, 4, 3, 0};
    const int64_t both_ways[] = {3, 1, 5, 3, 0, 5, 3, 3, 1, 0, 5, 1, 4, 3, 0, 4, 3, 5, 1, 0};
    const int64_t triangle[] = {3, 1, 5, 3, 0, 5, 1, 4, 3, 0, 4, 1, 3, 3, 0};
    rings_of(row, 10, 3, 0, "a row, each wire feeding the next: no ring");
    rings_of(both_ways, 20, 1, 0, "a row joined both ways: one region, cyclic, and no ring");
    rings_of(triangle, 15, 1, 1, "a triangle: a ring");
}

/* Who reaches whom: a place more than is asked for in each slice, all dirty,
   then a square of a place too few. */
static void reach_table(void)
{
    enum { SIDE = 3, SQUARE = 9, WORK = 6 };
    /* a lever, and two wires that feed each other */
    const int64_t row[] = {
        7, 0, 0, 0, 4, 0, 0, 0,
        3, 1, 0, 0, 0, 0, 0, 0,
        4, 2, 0, 0, 0, 0, 0, 0,
    };
    const int64_t fed[] = {7, 1, 3, 3, 0, 3, 1, 4, 3, 0, 4, 3, 3, 1, 0};
    const uint8_t reached[SQUARE] = {1, 1, 1, 0, 1, 1, 0, 1, 1};
    uint8_t square[SQUARE + 1];
    uint64_t region[SIDE + 1];
    size_t work[WORK + 1];
    memset(square, FILLING, sizeof square);
    memset(region, FILLING, sizeof region);
    memset(work, FILLING, sizeof work);
    const uint64_t dirty = region[SIDE];
    uint64_t answer = dustroute_reach_table(
        rules, row, 24, fed, 15, fed, 0, square, SQUARE - 1, region, SIDE + 1, work, WORK + 1);
    hold(DUSTROUTE_NUMBER(answer) == 2 && DUSTROUTE_LIST(answer) == 3, "2: no room for the square");
    hold(is_filled(square, 0, sizeof square, FILLING) && region[0] == dirty, "nothing written");
    answer = dustroute_reach_table(
        rules, row, 24, fed, 15, fed, 0, square, SQUARE + 1, region, SIDE + 1, work, WORK + 1);
    hold(DUSTROUTE_ACCEPTED(answer) && DUSTROUTE_COUNT(answer, 0) == 2, "two regions of a table");
    hold(memcmp(square, reached, SQUARE) == 0, "the wires have equal rows");
    hold(square[SQUARE] == FILLING, "rest of the square");
    hold(region[0] == 0 && region[1] == 1 && region[2] == 1 && region[3] == dirty, "regions of a table");
    for (size_t k = 0; k <= WORK; k++)
        hold(work[k] == 0, "work of a table zero");
}

int main(void)
{
    setvbuf(stdout, NULL, _IONBF, 0);
    for (rules = 1; rules <= 3; rules++) {
        one_input();
        the_way();
        two_levers();
        rings();
        reach_table();
    }
    if (faults == 0)
        printf("all answers are as they must be\n");
    return faults != 0;
}
