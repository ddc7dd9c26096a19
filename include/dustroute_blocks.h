/*
 * The proved marking core for redstone plots, called from C: the ports of
 * blocks, why a connection is left out, and what feeds one input. What
 * dustroute.h says of lists, answers and slices holds here too: rules first,
 * lists as numbers. Refusal 6 is of dustroute_reasons too, 7 and 8 of
 * dustroute_input.
 *
 *
 * PORTS BY KIND, numbered by their places from 0
 *
 *     0 RedstoneWire   0 to 5 both ways at North, East, South, West, Up, Down;
 *                      6 support Down
 *     1 Repeater,      0 output at its facing, 1 input opposite, then control at
 *     2 Comparator     each of North, East, South, West that is neither, in this
 *                      order (2 and 3, or 2 to 5 where it faces Up or Down),
 *                      last support Down. A facing of 0 is North
 *     3 RedstoneTorch  0 to 3 output North, East, South, West; 4 control at its
 *                      support (0 is Down)
 *     4 Lever, 5 Button, 6 PressurePlate, 7 RedstoneBlock
 *                      0 to 3 output North, East, South, West
 *     8 Piston         0 to 3 input North, East, South, West; 4 output
 *                      (mechanical) at its facing (0 is North)
 *     9 Solid, 10 Transparent, 11 RedstoneLamp
 *                      where it conducts 0 to 5 both ways at North, East, South,
 *                      West, Up, Down; else none
 *     12 Air           none
 *
 * From rules 3 on a facing of 0 is not read: a Repeater or Comparator with it
 * has port 0, support Down, alone, a Piston ports 0 to 3 alone.
 */
#ifndef DUSTROUTE_BLOCKS_H
#define DUSTROUTE_BLOCKS_H

#include "dustroute.h"

/* Numbers that the slice of dustroute_reasons must have. */
#define DUSTROUTE_REASONS_NUMBERS(connections) ((connections) * (size_t)1)

/* Numbers that the slice of dustroute_block_ports must have: seven rows of three. */
#define DUSTROUTE_BLOCK_PORTS_NUMBERS (7 * 3)

/* Numbers that the slices of dustroute_input must have. */
#define DUSTROUTE_INPUT_SET_NUMBERS 16 /* immediate, and inferred */
#define DUSTROUTE_INPUT_STACK_NUMBERS(components) ((components) * (size_t)2)

#ifdef __cplusplus
extern "C" {
#endif

/*
 * reasons   one number to each connection, in their order: why
 *           dustroute_ports leaves it out.
 *               0  kept
 *               1  there is no block with the source's id
 *               2  there is none with the sink's
 *               3  there is neither
 *               4  the blocks do not touch as a step must: one step East,
 *                  West, North or South, level or one up or down, or one
 *                  step straight up or down
 *               5  nothing comes out of the source on that side
 *               6  nothing goes into the sink on that side
 *               7  support, which carries no signal
 *           Where several hold: 1, 2 or 3, then 7, then 4, 5, 6.
 *
 * Counts: connections kept, the rows of dustroute_ports.
 */
uint64_t dustroute_reasons(
    int64_t rules,
    const int64_t *components, size_t components_len,
    const int64_t *connections, size_t connections_len,
    uint64_t *reasons, size_t reasons_len);

/*
 * The ports of a block, whose numbers in rows of ports are their places, from 0.
 *
 * ports     seven rows of three numbers, zeros past the last port:
 *           role, 0 Input, 1 Output, 2 Bidirectional, 3 Control, 4 Support;
 *           face, 1 North to 6 Down;
 *           channel, 0 RedstoneSignal, 1 WeakPower, 2 StrongPower,
 *           3 Mechanical, 4 Structural
 *
 * A number out of its range is 3 at item 0 of list 0. Order: 11, 2, 3.
 * Counts: ports.
 */
uint64_t dustroute_block_ports(
    int64_t rules,
    int64_t kind, int64_t facing, int64_t support, int64_t conducts,
    uint64_t *ports, size_t ports_len);

/*
 * Of one input, by the id of its component and its port:
 *
 * immediate  sixteen words: the set of the components that feed it
 * inferred   sixteen words: the inferred inputs among these and all that is
 *            upstream of them
 * stack      for work
 *
 * In both k stands for the component with the k-th smallest id, from 0, as in
 * the sets of dustroute_liveness. 2 comes before 8 and before 3 to 7.
 * Counts: none.
 */
uint64_t dustroute_input(
    int64_t rules,
    const int64_t *components, size_t components_len,
    const int64_t *ports, size_t ports_len,
    const int64_t *frontiers, size_t frontiers_len,
    uint64_t id, uint64_t port,
    uint64_t *immediate, size_t immediate_len,
    uint64_t *inferred, size_t inferred_len,
    size_t *stack, size_t stack_len);

#ifdef __cplusplus
}
#endif

#endif
