/*
 * Sheets, called from C: plots as text, of either form, in the same archive as all
 * of dustroute.h. docs/SHEET.md has the text line by line, examples/sheets.c is a
 * whole host.
 *
 * A sheet says its rules in itself, so that no number of rules is passed. Its first
 * line tells its form:
 *
 *     1   the old form, a number to a line; an optional first line `rules=`,
 *         without which the rules are 1
 *     2   the shorter one, a record to a line; it begins with the line `sheet=2`
 *         and then `rules=`
 *
 * SLICES
 *
 * The text is lent as bytes, and only read; it may have any bytes and any length.
 * Work lists are lent as numbers, which need as many places as the sheet has
 * records, so that those of the greatest lists are enough for every sheet. What
 * the host owes is as in dustroute.h, and so are the widths of records and the
 * limits of lists.
 *
 * THE ANSWER
 *
 * One number, as in dustroute.h. Where its sixteen lowest bits are 0 the sheet is
 * accepted: dustroute_sheet has the three counts of records above them, the others
 * how many bytes were written, in all bits above. Else it is a refusal, the first of
 * these, in this order; dustroute_join, which takes two sheets, has some more:
 *
 *     9   a line that is not as it must be, that is missing or one too many
 *     1   a count over the limit of its list; the list, the limit as item
 *     11  rules other than 1, 2 and 3
 *     12  a form other than 2 in the line `sheet=`
 *         whichever line is first; but for 1 under list 3 with the line as item,
 *         from 0, each line as it stands: a record of the shorter form is one
 *     2   a work list with fewer places than the sheet has records, or a head with
 *         fewer than two; list 3, item 0
 *     3   a field outside its range
 *     4   components not strictly ascending
 *     5   an id already used by an earlier component
 *     6   grouping connections not strictly ascending
 *         by the record, as in dustroute.h
 *     2   a buffer shorter than what is to be written; list 3, item 0
 *
 * WHAT IS WRITTEN
 *
 * 9, 1, 11, 12 and the first 2 change no slice; of dustroute_join they are those of
 * the first sheet. After 3 to 6, and after every other answer of dustroute_report,
 * dustroute_convert and dustroute_join, the work lists are zero throughout. The head
 * and the buffer are written on acceptance alone, the buffer only as far as the
 * answer says.
 */
#ifndef DUSTROUTE_SHEETS_H
#define DUSTROUTE_SHEETS_H

#include "dustroute.h"

/*
 * Numbers that a work list has for so many records, of dustroute_join for those of
 * both sheets together, and numbers of the head.
 */
#define DUSTROUTE_SHEET_COMPONENTS_NUMBERS(components) ((components) * (size_t)8)
#define DUSTROUTE_SHEET_CONNECTIONS_NUMBERS(connections) ((connections) * (size_t)3)
#define DUSTROUTE_SHEET_FRONTIERS_NUMBERS(frontiers) ((frontiers) * (size_t)3)
#define DUSTROUTE_HEAD_NUMBERS 2

/* Forms of a sheet. */
#define DUSTROUTE_OLD 1
#define DUSTROUTE_SHORT 2

/* Bytes that were written, of an accepted answer. */
#define DUSTROUTE_BYTES_WRITTEN(answer) ((uint64_t)(answer) >> 16)

/* Of a refusal of dustroute_join, in the place of DUSTROUTE_ITEM: the item, and the
 * sheet that it is of, 1 or 2, or 0 of both. */
#define DUSTROUTE_JOIN_ITEM(answer) ((uint64_t)(answer) >> 16 & 0xffffffffff)
#define DUSTROUTE_JOIN_SHEET(answer) ((unsigned)((uint64_t)(answer) >> 56))

#ifdef __cplusplus
extern "C" {
#endif

/*
 * The lists of a valid sheet, at the front of the work lists: by the sheet's rules
 * no entry of dustroute.h refuses them with 11, 1 or 3 to 6.
 *
 * head      two numbers: the form, the rules
 *
 * Counts: components, connections, frontiers.
 */
uint64_t dustroute_sheet(
    const uint8_t *text, size_t text_len,
    int64_t *components, size_t components_len,
    int64_t *connections, size_t connections_len,
    int64_t *frontiers, size_t frontiers_len,
    uint64_t *head, size_t head_len);

/*
 * The report of a sheet, as the program plotreport prints it, by the sheet's own
 * rules: nets, fragments, the connections kept with their slopes, regions, sources
 * and verdicts; by rules 3 the devices whose facing was left blank come last.
 *
 * out       the report's bytes
 */
uint64_t dustroute_report(
    const uint8_t *text, size_t text_len,
    int64_t *components, size_t components_len,
    int64_t *connections, size_t connections_len,
    int64_t *frontiers, size_t frontiers_len,
    uint8_t *out, size_t out_len);

/*
 * The same sheet in its other form: the same rules and lists, with connections that
 * have an end no component has, and frontiers in their order. In the old form rules
 * 1 have no line. Converted again it is the sheet that it was, byte for byte, but
 * that an old one which spells out `rules=1` loses this line.
 *
 * out       the bytes of the sheet
 */
uint64_t dustroute_convert(
    const uint8_t *text, size_t text_len,
    int64_t *components, size_t components_len,
    int64_t *connections, size_t connections_len,
    int64_t *frontiers, size_t frontiers_len,
    uint8_t *out, size_t out_len);

/*
 * Two valid sheets of the same rules, each in either form, as one valid sheet of the
 * old form, in which rules 1 have no line. A component that both have with the same
 * fields stands once, and so does a connection that both have; frontiers are those
 * of the first and then those of the second. A connection to a component that its
 * own sheet has not may find it in the other.
 *
 * The work lists are lent for the records of both sheets, the first's first: each
 * has room for as many as the two count together, before those that both have are
 * found.
 *
 * A refusal has its item in bits 16 to 55 and the sheet in the eight above them. It
 * is the first of these:
 *
 *     sheet 1   those of the first sheet by itself, from 9 to 6, as above
 *     sheet 2   those of the second by itself; 2 where the work lists have no room
 *               for its records behind those of the first
 *     sheet 0   13  the rules differ; list 3, item 0
 *               14  an id that both have, with unequal fields; list 0, the second
 *                   sheet's component as item, the earliest
 *               1   a joined list over its limit, which is the item
 *               2   a buffer shorter than the joined sheet; list 3, item 0
 *
 * out       the bytes of the joined sheet
 */
uint64_t dustroute_join(
    const uint8_t *first, size_t first_len,
    const uint8_t *second, size_t second_len,
    int64_t *components, size_t components_len,
    int64_t *connections, size_t connections_len,
    int64_t *frontiers, size_t frontiers_len,
    uint8_t *out, size_t out_len);

#ifdef __cplusplus
}
#endif

#endif
