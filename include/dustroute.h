/*
 * The proved marking core for redstone plots, called from C.
 *
 *     cc -I include host.c target/staticlib/libcapi.a
 *
 * The archive (`tools/build capi`) is for x86-64 and needs only memcpy, memset.
 * examples/worked.c is a whole host; entries over sheets: dustroute_sheets.h.
 *
 * RULES
 *
 * Every entry takes first the number of the rules by which a plot is marked:
 *
 *     1   those of the first school year, and of a sheet that names none: a wire
 *         that only a RedstoneLamp feeds is no inferred input
 *     2   lamps are passive, as a Solid is, where external feeds of a region are
 *         sought: a wire that only a RedstoneLamp feeds may be an inferred input
 *     3   and a facing of none is not taken as North: with it a Repeater or a
 *         Comparator has its support port only, as port 0, a Piston its four inputs
 *
 * From 1 to 2 only dustroute_liveness answers otherwise, in source rows of kind 3,
 * in the second set, and between the statuses 1 and 3; from 2 to 3 dustroute_ports
 * in the rows at such devices, and all that looks for a verdict row in there being
 * none for the input of such a Repeater or Comparator.
 *
 * LISTS
 *
 * Lists and answers of dustroute_groups and dustroute_liveness are lent as
 * bytes, eight to a number, lowest first, whatever the byte order of the host;
 * numbers of lists are signed, in two's complement. A slice passes as a pointer
 * and a length in bytes. The others take numbers as the host has them, int64_t
 * for lists, and a slice as a pointer and a count of numbers, of bytes if of
 * uint8_t.
 *
 *     list          numbers of a record, in this order
 *     components    id 0..4294967295; x, y, z each -30000000..30000000;
 *                   kind; facing; support; conducts 0 or 1
 *     connections   source id, sink id, kind 0..9
 *     ports         source id, source port, sink id, sink port (ports 0..255),
 *                   transfer 0..6
 *     frontiers     x, y, z
 *
 * Components ascend strictly by (x, y, z, id), and no two have one id.
 * Connections ascend strictly by (source, sink, kind); one with an end that is
 * no component joins nothing. Ports come in any order, repeats allowed; but for
 * transfer 6 (support) both ends are components. The first component listed at
 * a frontier's position counts as a source.
 *
 *     kind          0 RedstoneWire, 1 Repeater, 2 Comparator, 3 RedstoneTorch,
 *                   4 Lever, 5 Button, 6 PressurePlate, 7 RedstoneBlock,
 *                   8 Piston, 9 Solid, 10 Transparent, 11 RedstoneLamp, 12 Air
 *     facing,       0 none, 1 North (z-1), 2 East (x+1), 3 South (z+1),
 *     support       4 West (x-1), 5 Up (y+1), 6 Down (y-1)
 *     kind of a     0 Dust, 1 DustRise, 2 DustFallThroughConductor,
 *     connection    3 WeakPower, 4 StrongPower, 5 DirectionalInput,
 *                   6 DirectionalOutput, 7 DirectSource, 8 Control, 9 Support
 *     transfer      0 DustPropagation, 1 DirectSignal, 2 WeakPower,
 *                   3 StrongPower, 4 DirectionalDevice, 5 SideControl,
 *                   6 StructuralSupport
 *
 * THE ANSWER
 *
 * One number. Where its sixteen lowest bits are 0 the lists are accepted, and
 * counts stand above, sixteen bits each, lowest first. Else it is a refusal:
 * its number in the eight lowest bits, the list in the next eight (0
 * components, 1 connections or ports, 2 frontiers, 3 none), and the item, from
 * 0, above these. The lowest number that applies is given, at its earliest
 * item, components before connections before frontiers; but 11 comes before all
 * others.
 *
 *     1   a list over its limit, or not whole records; the item is the smaller
 *         of the limit and the count of whole records
 *     2   an output or work slice shorter than the worst case for these lists;
 *         list 3, item 0
 *     3   a field outside its range
 *     4   components not strictly ascending; the later of the pair
 *     5   an id already used by an earlier component; the later of the pair
 *     6   grouping connections not strictly ascending; the later of the pair
 *     7   an endpoint of a non-support port connection is no component
 *         (dustroute_clear drops such connections)
 *     8   the port asked for has no verdict row; list 3, item 0
 *     10  the row's status is not 0; list 3, item 0
 *     11  a number of rules other than 1, 2 and 3; list 3, item 0
 *
 * 6 is of dustroute_groups and dustroute_ports alone, 7 of the others but
 * dustroute_clear; 8 is of dustroute_driven, dustroute_trail and
 * dustroute_check_trail, 10 of dustroute_trail alone.
 *
 * WHAT IS WRITTEN
 *
 * A refusal changes no slice. An accepted call writes only its rows, at the
 * front of the lent slices, and leaves the rest of them as it was; the stack,
 * which is for work, is zero throughout. Lists are only read. A slice has room
 * for as many numbers as it has whole eights of bytes.
 *
 * WHAT THE HOST OWES
 *
 * - Each pointer is to as many bytes, or numbers, as the length beside it says,
 *   and is not null even where the length is 0. For bytes any alignment will
 *   do; a pointer to numbers is aligned as C has it. Lists are initialized;
 *   outputs need not be.
 * - A slice that is written overlaps no other slice of the call, and nothing
 *   else reads or writes it, or writes a list, until the call returns.
 * - A stack of 1 MiB is enough for any call, whatever the lists
 *   (docs/ARCHITECTURE.md has the sizes). Pages are touched in order, so that a
 *   guard page stops a stack too small.
 *
 * Nothing else is owed: any bytes are answered, and every call returns. No
 * memory is allocated and nothing is kept or shared between calls, so any
 * number of threads may call at once.
 */
#ifndef DUSTROUTE_H
#define DUSTROUTE_H

#include <stddef.h>
#include <stdint.h>

/* How many records a list may have. */
#define DUSTROUTE_COMPONENTS 1024
#define DUSTROUTE_CONNECTIONS 4096 /* and ports */
#define DUSTROUTE_FRONTIERS 256

/* Bytes to a record. */
#define DUSTROUTE_COMPONENT_BYTES (8 * 8)
#define DUSTROUTE_CONNECTION_BYTES (3 * 8)
#define DUSTROUTE_PORT_BYTES (5 * 8)
#define DUSTROUTE_FRONTIER_BYTES (3 * 8)

/* Bytes that each slice must have for so many components. */
#define DUSTROUTE_NETS_BYTES(components) ((components) * (size_t)8)
#define DUSTROUTE_FRAGMENTS_BYTES(components) ((components) * (size_t)8)
#define DUSTROUTE_REGIONS_BYTES(components) ((components) * (size_t)8)
#define DUSTROUTE_SOURCES_BYTES(components) ((components) * (size_t)(2 * 2 * 8))
#define DUSTROUTE_INPUTS_BYTES(components) ((components) * (size_t)(4 * 3 * 8))
#define DUSTROUTE_STACK_BYTES(components) ((components) * (size_t)(2 * 8))
#define DUSTROUTE_SETS_BYTES (4 * 16 * 8)

/* Numbers that the slices of the other entries must have; of a square, bytes. */
#define DUSTROUTE_PORTS_NUMBERS(connections) ((connections) * (size_t)6)
#define DUSTROUTE_MET_NUMBERS 16 /* met of dustroute_driven */
#define DUSTROUTE_DRIVEN_STACK_NUMBERS(components) ((components) * (size_t)2)
#define DUSTROUTE_TRAIL_NUMBERS(components) ((components) * (size_t)1)
#define DUSTROUTE_KEPT_NUMBERS(ports) ((ports) * (size_t)5)
#define DUSTROUTE_DROPPED_NUMBERS(ports) ((ports) * (size_t)2)
#define DUSTROUTE_LIGHT_REGIONS_NUMBERS(components) ((components) * (size_t)1)
#define DUSTROUTE_LIGHT_SET_NUMBERS 16 /* lit, and driven */
#define DUSTROUTE_LIGHT_STACK_NUMBERS(components) ((components) * (size_t)2)
#define DUSTROUTE_RINGS_REGIONS_NUMBERS(components) ((components) * (size_t)1)
#define DUSTROUTE_RINGS_SET_NUMBERS 16
#define DUSTROUTE_RINGS_STACK_NUMBERS(components) ((components) * (size_t)2)
#define DUSTROUTE_SQUARE_BYTES(components) ((size_t)(components) * (components))
#define DUSTROUTE_TABLE_REGIONS_NUMBERS(components) ((size_t)(components))
#define DUSTROUTE_TABLE_STACK_NUMBERS(components) ((components) * (size_t)2)

/* The parts of an answer. */
#define DUSTROUTE_ACCEPTED(answer) (((answer) & 0xffff) == 0)
#define DUSTROUTE_NUMBER(answer) ((unsigned)((answer) & 0xff))
#define DUSTROUTE_LIST(answer) ((unsigned)((answer) >> 8 & 0xff))
#define DUSTROUTE_ITEM(answer) ((uint64_t)(answer) >> 16)
#define DUSTROUTE_COUNT(answer, place) /* place 0, 1 or 2 */ \
    ((unsigned)((uint64_t)(answer) >> (16 * ((place) + 1)) & 0xffff))

#ifdef __cplusplus
extern "C" {
#endif

/*
 * The number of the interface, raised when arguments, sizes or meanings change.
 * Each file that includes this header refers to the function, which a stale
 * archive has not, so that it does not link. Without gcc or clang, or where
 * they know no `retain` and unused sections are dropped, call it once instead.
 */
#define DUSTROUTE_INTERFACE 2
uint64_t dustroute_interface_2(void);
#if defined(__GNUC__)
#if defined(__has_attribute)
#if __has_attribute(retain)
__attribute__((retain))
#endif
#endif
__attribute__((used))
static uint64_t (*const dustroute_interface_linked)(void) = dustroute_interface_2;
#endif

/*
 * The number of each component's net and fragment, in list order, one number
 * each. Nets join by kinds 0 to 4, fragments by kinds 0 to 8, either way. Both
 * are numbered from 0 without a gap.
 *
 * Counts: nets, fragments.
 */
uint64_t dustroute_groups(
    int64_t rules,
    const uint8_t *components, size_t components_len,
    const uint8_t *connections, size_t connections_len,
    uint8_t *nets, size_t nets_len,
    uint8_t *fragments, size_t fragments_len);

/*
 * The ports that connections take: at either end the first port of the component
 * that has the face of the step from source to sink and also fits. A connection
 * with an end that has no component, face or port is dropped, and so is support;
 * those kept stay in order.
 *
 * ports     rows of six numbers: source id, source port, sink id, sink port,
 *           transfer; slope of the step, 0 level, 1 rising, 2 falling, by
 *           position alone, whatever the kind of the connection. The other
 *           entries take these as ports without the slopes.
 *
 * Counts: rows.
 */
uint64_t dustroute_ports(
    int64_t rules,
    const int64_t *components, size_t components_len,
    const int64_t *connections, size_t connections_len,
    int64_t *ports, size_t ports_len);

/*
 * regions   the region of each component, in list order. Two components share
 *           one exactly when each reaches the other by ports of transfer 0 to
 *           5. Regions are numbered from 0 without a gap, and no such port
 *           connection leads to a smaller number.
 * sources   rows of two numbers by rising position, id and source kind: id;
 *           source kind, 0 ControllableInput, 1 IntrinsicSource,
 *           2 ObservationBoundary, 3 InferredPrimaryInput
 * inputs    rows of three numbers in list order and by rising port: device;
 *           port; status, 0 DrivenByKnownSource, 1 AwaitingExternalInput,
 *           2 Disconnected, 3 NoKnownSource
 * sets      four sets of sixteen words of 64 bits: the components that are
 *           driven; those that would be if inferred inputs were; the regions
 *           that are cyclic: their components feed each other, or their one
 *           feeds itself (dustroute_rings tells of rings); those that hold a
 *           drive source. k is in a set when bit k % 64 of its word k / 64 is
 *           set; of components k stands for the one with the k-th smallest id,
 *           from 0, of regions for its number.
 * stack     for work
 *
 * Counts: regions, source rows, verdict rows.
 */
uint64_t dustroute_liveness(
    int64_t rules,
    const uint8_t *components, size_t components_len,
    const uint8_t *ports, size_t ports_len,
    const uint8_t *frontiers, size_t frontiers_len,
    uint8_t *regions, size_t regions_len,
    uint8_t *sources, size_t sources_len,
    uint8_t *inputs, size_t inputs_len,
    uint8_t *sets, size_t sets_len,
    uint8_t *stack, size_t stack_len);

/*
 * Whether the required input at a port of the component with the id has status
 * 0, DrivenByKnownSource: a search upstream from it, which stops at the first
 * drive source. A port without a verdict row, of any number, is refused with 8.
 *
 * met       a set of sixteen words, as above: the components that the search
 *           met. Each feeds the input or is upstream of one that does. At a yes
 *           exactly one is a drive source; at a no these are all, and none is.
 * stack     for work
 *
 * Counts: 1 for yes, 0 for no.
 */
uint64_t dustroute_driven(
    int64_t rules,
    const int64_t *components, size_t components_len,
    const int64_t *ports, size_t ports_len,
    const int64_t *frontiers, size_t frontiers_len,
    uint64_t id, uint64_t port,
    uint64_t *met, size_t met_len,
    size_t *stack, size_t stack_len);

/*
 * The way from a drive source to such an input: the ids of the components that
 * the signal goes through, the source first and one that feeds the port last, as
 * few as there can be; of equally short ways the one with the smaller id where
 * they first differ, from the source on. A port without a verdict row is refused
 * with 8, one whose row has another status than 0 with 10.
 *
 * trail     the ids; a place for each component is room enough
 *
 * Counts: how many ids were written.
 */
uint64_t dustroute_trail(
    int64_t rules,
    const int64_t *components, size_t components_len,
    const int64_t *ports, size_t ports_len,
    const int64_t *frontiers, size_t frontiers_len,
    uint64_t id, uint64_t port,
    uint64_t *trail, size_t trail_len);

/*
 * Whether a list of ids is a way from a drive source to that input: its first is
 * a drive source, each next one is fed by the one before, and the last feeds the
 * port. It may have any length and any numbers; one of length 0 is no way. A
 * port without a verdict row is refused with 8.
 *
 * Counts: 1 for yes, 0 for no.
 */
uint64_t dustroute_check_trail(
    int64_t rules,
    const int64_t *components, size_t components_len,
    const int64_t *ports, size_t ports_len,
    const int64_t *frontiers, size_t frontiers_len,
    uint64_t id, uint64_t port,
    const uint64_t *trail, size_t trail_len);

/*
 * Drops the port connections for which 7 is given, those of transfer 0 to 5
 * with an end that is no component, and keeps the others in order. What is kept
 * is accepted, and cleared again it stays as it is. Lists with another fault are
 * refused as by dustroute_liveness, number 2 for the two lists here.
 *
 * kept      ports, five numbers each, to be handed on as they stand
 * dropped   rows of two numbers by rising item: the item in the list given,
 *           from 0; 0 its source is missing, 1 its sink, 2 both. Where
 *           dustroute_liveness gives 7, its item is the first of these.
 *
 * Counts: ports kept, ports dropped.
 */
uint64_t dustroute_clear(
    int64_t rules,
    const int64_t *components, size_t components_len,
    const int64_t *ports, size_t ports_len,
    const int64_t *frontiers, size_t frontiers_len,
    int64_t *kept, size_t kept_len,
    uint64_t *dropped, size_t dropped_len);

/*
 * One pass over the regions, by rising number: a region is lit exactly if it
 * holds a drive source or a region that is lit already feeds it. The components
 * of lit regions are driven, all of them, and no others.
 *
 * regions   as by dustroute_liveness: a region is fed by none of a greater
 *           number, so that a lesson that lights them by number never lights a
 *           lamp before a lever that feeds it
 * lit       a set of sixteen words, as above: the regions that are lit
 * driven    another: the components that are driven, as by dustroute_liveness
 * stack     for work
 *
 * Counts: regions.
 */
uint64_t dustroute_light(
    int64_t rules,
    const int64_t *components, size_t components_len,
    const int64_t *ports, size_t ports_len,
    const int64_t *frontiers, size_t frontiers_len,
    uint64_t *regions, size_t regions_len,
    uint64_t *lit, size_t lit_len,
    uint64_t *driven, size_t driven_len,
    size_t *stack, size_t stack_len);

/*
 * Which regions have a ring, in a pupil's words a loop: a chain of ports,
 * supports left out, from a component through two others or more and back, none
 * met twice, or from one to itself. A region with a ring is cyclic; one that is
 * cyclic without is a tree of two-way connections, like a straight wire.
 *
 * regions   as by dustroute_liveness
 * rings     a set of sixteen words, as above: the regions that have a ring
 * stack     for work
 *
 * Counts: regions.
 */
uint64_t dustroute_rings(
    int64_t rules,
    const int64_t *components, size_t components_len,
    const int64_t *ports, size_t ports_len,
    const int64_t *frontiers, size_t frontiers_len,
    uint64_t *regions, size_t regions_len,
    uint64_t *rings, size_t rings_len,
    size_t *stack, size_t stack_len);

/*
 * The slow region finder, for lessons: a table of who reaches whom, at first
 * itself and what it is connected to; then each in turn is admitted as a middle:
 * whoever reaches it reaches what it does. Two share a region exactly when their
 * rows are equal.
 *
 * square    a byte of 1 or 0 for each pair of components, row after row in list
 *           order: 1 where the row's component reaches the column's by ports of
 *           transfer 0 to 5, or is it. Rows are as long as there are
 *           components, however long the square.
 * regions   as by dustroute_liveness
 * stack     for work
 *
 * Counts: regions.
 */
uint64_t dustroute_reach_table(
    int64_t rules,
    const int64_t *components, size_t components_len,
    const int64_t *ports, size_t ports_len,
    const int64_t *frontiers, size_t frontiers_len,
    uint8_t *square, size_t square_len,
    uint64_t *regions, size_t regions_len,
    size_t *stack, size_t stack_len);

#ifdef __cplusplus
}
#endif

#endif
