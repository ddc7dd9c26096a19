/*
 * A plot held open, in C: a lever, a wire and a repeater are placed and connected,
 * and the repeater's verdict is asked; then the lever is broken, no connection
 * names it any more, and it is asked again. Then a damaged plot, and slices with a
 * number too few. Each slice lent to the report has a number more than is asked
 * for, dirty, and each answer is held to what it must be.
 *
 *     cc -std=c99 -I include -o held examples/held.c target/staticlib/libcapi.a
 */
#include <stdio.h>
#include <string.h>

#include "dustroute_held.h"

#define FILLING 0xa5

enum { MOST = 3 };

static int64_t state[DUSTROUTE_HELD_STATE_NUMBERS];
static int64_t frontiers[DUSTROUTE_HELD_FRONTIERS_NUMBERS];
static int64_t places[DUSTROUTE_HELD_PLACES_NUMBERS];
static int64_t connections[DUSTROUTE_HELD_CONNECTIONS_NUMBERS];

#define LEN(slice) (sizeof(slice) / sizeof *(slice))

static int faults;

static void hold(int holds, const char *what)
{
    if (!holds) {
        printf("not as it must be: %s\n", what);
        faults++;
    }
}

static uint64_t placed(const int64_t *block)
{
    return dustroute_place(state, LEN(state), frontiers, LEN(frontiers), places, LEN(places),
                           connections, LEN(connections), block, 8);
}

static uint64_t broken(uint64_t id)
{
    return dustroute_break(state, LEN(state), frontiers, LEN(frontiers), places, LEN(places),
                           connections, LEN(connections), id);
}

static uint64_t connected(const int64_t *connection)
{
    return dustroute_connect(state, LEN(state), frontiers, LEN(frontiers), places, LEN(places),
                             connections, LEN(connections), connection, 5);
}

/* The report of so many blocks; the status of its only verdict is put there. */
static uint64_t reported(size_t present, size_t less, uint64_t *status)
{
    int64_t blocks[MOST * 8 + 1];
    uint64_t region[MOST + 1], source[MOST * 4 + 1], input[MOST * 12 + 1], sets[4 * 16 + 1];
    size_t work[MOST * 2 + 1];
    memset(blocks, FILLING, sizeof blocks);
    memset(region, FILLING, sizeof region);
    memset(source, FILLING, sizeof source);
    memset(input, FILLING, sizeof input);
    memset(sets, FILLING, sizeof sets);
    memset(work, FILLING, sizeof work);
    const uint64_t dirty = region[MOST];
    uint64_t answer = dustroute_held_liveness(
        state, LEN(state), frontiers, LEN(frontiers), places, LEN(places),
        connections, LEN(connections), blocks, DUSTROUTE_HELD_COMPONENTS_NUMBERS(present) - less,
        region, present, source, present * 4, input, present * 12, sets, 64, work, present * 2);
    hold(region[MOST] == dirty && blocks[MOST * 8] == (int64_t)dirty && sets[64] == dirty, "the rest is as it was");
    if (DUSTROUTE_ACCEPTED(answer)) {
        for (size_t k = 1; k < present; k++)
            hold(blocks[8 * k - 7] < blocks[8 * k + 1], "blocks by rising x");
        *status = input[2];
    } else {
        hold(region[0] == dirty && blocks[0] == (int64_t)dirty && sets[0] == dirty, "nothing written");
    }
    return answer;
}

int main(void)
{
    const int64_t repeater[] = {3, 2, 0, 0, 1, 2, 0, 0};
    const int64_t lever[] = {1, 0, 0, 0, 4, 0, 0, 0};
    const int64_t wire[] = {2, 1, 0, 0, 0, 0, 0, 0};
    const int64_t to_wire[] = {1, 1, 2, 1, 0}, to_repeater[] = {2, 1, 3, 1, 0};
    uint64_t status = 9;
    setvbuf(stdout, NULL, _IONBF, 0);
    memset(state, FILLING, sizeof state);
    memset(places, FILLING, sizeof places);
    hold(DUSTROUTE_NUMBER(placed(lever)) == 18, "18: it was never opened");
    uint64_t answer = dustroute_open(2, lever, 0, state, LEN(state), frontiers, LEN(frontiers), places, LEN(places),
                                     connections, LEN(connections));
    hold(DUSTROUTE_ACCEPTED(answer), "opened");
    hold(placed(repeater) == 0, "the repeater stands at place 0");
    answer = placed(lever);
    hold(DUSTROUTE_ACCEPTED(answer) && DUSTROUTE_COUNT(answer, 0) == 1, "the lever at place 1");
    hold(DUSTROUTE_ACCEPTED(placed(wire)), "the wire");
    hold(DUSTROUTE_NUMBER(placed(wire)) == 16, "16: it stands already");
    hold(DUSTROUTE_ACCEPTED(connected(to_wire)), "the lever feeds the wire");
    answer = connected(to_repeater);
    hold(DUSTROUTE_COUNT(answer, 0) == 3 && DUSTROUTE_COUNT(answer, 1) == 2, "three blocks, two connections");
    hold(DUSTROUTE_ACCEPTED(reported(3, 0, &status)) && status == 0, "the repeater is driven");
    answer = reported(3, 1, &status);
    hold(DUSTROUTE_NUMBER(answer) == 2 && DUSTROUTE_LIST(answer) == 3, "2: a number too few for the blocks");
    answer = broken(1);
    hold(DUSTROUTE_COUNT(answer, 0) == 2 && DUSTROUTE_COUNT(answer, 1) == 1, "one connection is left");
    hold(connections[0] == 2 && connections[5] == 0, "which names no lever");
    hold(DUSTROUTE_NUMBER(broken(1)) == 17, "17: the lever is gone");
    hold(DUSTROUTE_NUMBER(connected(to_wire)) == 17, "17: at an end of a connection too");
    hold(DUSTROUTE_ACCEPTED(reported(2, 0, &status)) && status == 1, "the repeater awaits an input");
    answer = placed(lever);
    hold(DUSTROUTE_COUNT(answer, 0) == 1, "the place freed last is taken again");
    state[2] = 7;
    hold(DUSTROUTE_NUMBER(reported(3, 0, &status)) == 18, "18: a damaged plot");
    if (faults == 0)
        printf("all answers are as they must be\n");
    return faults != 0;
}
