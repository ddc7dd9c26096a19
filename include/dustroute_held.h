/*
 * The proved marking core for redstone plots, called from C: a plot held open
 * while pupils build. What dustroute.h says of answers and slices holds here
 * too; the lists are numbers.
 *
 *
 * THE PLOT
 *
 * Four slices that the host keeps, with at least as many numbers as the
 * constants below say; longer ones do as well. To keep a plot is to keep these
 * numbers; a click writes only into those that it takes as not const.
 *
 *     state        rules number, places used, places freed, connections held,
 *                  frontiers; then the freed places, the one freed last behind
 *                  the others; then zeros
 *     frontiers    three numbers each: x, y, z; then zeros
 *     places       eight numbers each, as a component in dustroute.h: the block
 *                  that stands at place 0, 1, ..; a freed place is all zero and
 *                  so is one that was never used. Which places are free is told
 *                  by state: a block of id 0 may be all zero too
 *     connections  five numbers each, as a port connection in dustroute.h, in
 *                  the order in which they were added; then zeros
 *
 * The numbers of state are not negative, and as wide as size_t on a machine of
 * 64 bits, for which this library is.
 *
 *
 * REFUSALS
 *
 * As in dustroute.h, and
 *
 *     15  no place is free: as many blocks are present as a plot may hold
 *     16  the id of the block to be placed is present already
 *     17  an id that is not present: to be broken, or at an end of a connection
 *     18  no opening and clicks can leave a plot with these numbers
 *
 * all with list 3, item 0. Here 18 comes before all others, and 1 is of a
 * connection: as many are held as a list may have, list 1, that many as item.
 * A refused click changes no slice.
 */
#ifndef DUSTROUTE_HELD_H
#define DUSTROUTE_HELD_H

#include "dustroute.h"

/* Numbers that the slices of a plot must have. */
#define DUSTROUTE_HELD_STATE_NUMBERS (5 + 1024)
#define DUSTROUTE_HELD_FRONTIERS_NUMBERS (256 * 3)
#define DUSTROUTE_HELD_PLACES_NUMBERS (1024 * 8)
#define DUSTROUTE_HELD_CONNECTIONS_NUMBERS (4096 * 5)

/* Numbers that the slices of a report must have, for so many blocks present. */
#define DUSTROUTE_HELD_COMPONENTS_NUMBERS(present) ((present) * (size_t)8)
#define DUSTROUTE_HELD_REGIONS_NUMBERS(present) ((present) * (size_t)1)
#define DUSTROUTE_HELD_SOURCES_NUMBERS(present) ((present) * (size_t)(2 * 2))
#define DUSTROUTE_HELD_INPUTS_NUMBERS(present) ((present) * (size_t)(4 * 3))
#define DUSTROUTE_HELD_SETS_NUMBERS (4 * 16)
#define DUSTROUTE_HELD_STACK_NUMBERS(present) ((present) * (size_t)2)

#ifdef __cplusplus
extern "C" {
#endif

/*
 * Opens an empty plot with a rules number and the given frontiers, which remain.
 * What was in the slices is not looked at. Order: 11, 1, 2, 3, the lists being
 * that of the frontiers. Counts: none.
 */
uint64_t dustroute_open(
    int64_t rules,
    const int64_t *given, size_t given_len,
    int64_t *state, size_t state_len,
    int64_t *frontiers, size_t frontiers_len,
    int64_t *places, size_t places_len,
    int64_t *connections, size_t connections_len);

/*
 * Places a block, the eight numbers of a component: at the place freed last of
 * those that are free, or else the lowest never used. Order: 18, 3 (list 0, item
 * 0), 16, 15. Count: the place.
 */
uint64_t dustroute_place(
    int64_t *state, size_t state_len,
    const int64_t *frontiers, size_t frontiers_len,
    int64_t *places, size_t places_len,
    const int64_t *connections, size_t connections_len,
    const int64_t *block, size_t block_len);

/*
 * Breaks the block with the id: frees its place, and drops all connections at
 * it, those of support too. The others keep their order. Order: 18, 17.
 * Counts: blocks present and connections held then.
 */
uint64_t dustroute_break(
    int64_t *state, size_t state_len,
    const int64_t *frontiers, size_t frontiers_len,
    int64_t *places, size_t places_len,
    int64_t *connections, size_t connections_len,
    uint64_t id);

/*
 * Adds a port connection, five numbers, between two ids that are present, behind
 * the others. One of the same five numbers that is held already changes nothing.
 * Order: 18, 3 (list 1, item 0), 17, 1. Counts: as for dustroute_break.
 */
uint64_t dustroute_connect(
    int64_t *state, size_t state_len,
    const int64_t *frontiers, size_t frontiers_len,
    const int64_t *places, size_t places_len,
    int64_t *connections, size_t connections_len,
    const int64_t *connection, size_t connection_len);

/*
 * The report: what dustroute_liveness finds of the blocks present, sorted, with
 * the held connections, the frontiers and the rules number of the plot.
 *
 * components  the blocks present as a list of components, eight numbers each,
 *             sorted by x, y, z, id: the rows and sets below are of this list
 * regions, sources, inputs
 *             as of dustroute_liveness, as numbers
 * sets        four sets of sixteen words: driven, possibly driven, cyclic
 *             regions, regions that hold a drive source
 * stack       for work
 *
 * Order: 18, 2; no other comes. Counts: regions, source rows, verdict rows.
 */
uint64_t dustroute_held_liveness(
    const int64_t *state, size_t state_len,
    const int64_t *frontiers, size_t frontiers_len,
    const int64_t *places, size_t places_len,
    const int64_t *connections, size_t connections_len,
    int64_t *components, size_t components_len,
    uint64_t *regions, size_t regions_len,
    uint64_t *sources, size_t sources_len,
    uint64_t *inputs, size_t inputs_len,
    uint64_t *sets, size_t sets_len,
    size_t *stack, size_t stack_len);

#ifdef __cplusplus
}
#endif

#endif
