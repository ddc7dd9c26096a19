/*
 * Sheets in C: a plot that was scanned through fog, in the old form under rules 1
 * and in the shorter one under rules 3; its lists, its report, there and back, and
 * sheets that are refused at a line; two sheets joined. Each slice has a number more
 * than is asked for, dirty.
 *
 *     cc -std=c99 -I include -o sheets examples/sheets.c target/staticlib/libcapi.a
 */
#include <stdio.h>
#include <string.h>

#include "dustroute_sheets.h"

#define FILLING 0xa5

enum { COUNT = 2, ROOM = 1024 };

/* A lever beside a repeater of which nobody saw where it faces. */
static const char old_form[] =
    "components=2\n"
    "id=1\nx=0\ny=0\nz=0\nkind=4\nfacing=0\nsupport=0\nconducts=0\n"
    "id=2\nx=1\ny=0\nz=0\nkind=1\nfacing=0\nsupport=0\nconducts=0\n"
    "connections=1\nsource=1\nsink=2\nkind=5\nfrontiers=1\nx=5\ny=0\nz=-3\n";
static const char short_form[] =
    "sheet=2\nrules=3\ncomponents=2\nc=1,0,0,0,4,0,0,0\nc=2,1,0,0,1,0,0,0\n"
    "connections=1\nn=1,2,5\nfrontiers=1\nf=5,0,-3\n";
static const int64_t plot[8 * COUNT] = {
    1, 0, 0, 0, 4, 0, 0, 0,
    2, 1, 0, 0, 1, 0, 0, 0,
};

static struct {
    int64_t components[DUSTROUTE_SHEET_COMPONENTS_NUMBERS(COUNT) + 1];
    int64_t connections[DUSTROUTE_SHEET_CONNECTIONS_NUMBERS(1) + 1];
    int64_t frontiers[DUSTROUTE_SHEET_FRONTIERS_NUMBERS(1) + 1];
    uint64_t head[DUSTROUTE_HEAD_NUMBERS + 1];
    uint8_t out[ROOM];
} lent;

/* How many numbers of each slice are lent. */
static size_t components, connections, frontiers, head, room;

static int faults;

static void hold(int holds, const char *what)
{
    if (!holds) {
        printf("not as it must be: %s\n", what);
        faults++;
    }
}

static void lend_enough(void)
{
    memset(&lent, FILLING, sizeof lent);
    components = sizeof lent.components / 8;
    connections = sizeof lent.connections / 8;
    frontiers = sizeof lent.frontiers / 8;
    head = sizeof lent.head / 8;
    room = ROOM;
}

/* Whether so many bytes from a place on are as they were. */
static int is_as_before(const void *slice, size_t from, size_t to)
{
    const uint8_t *bytes = slice;
    while (from < to)
        if (bytes[from++] != FILLING)
            return 0;
    return 1;
}

static int is_zero(const int64_t *list, size_t count)
{
    while (count-- > 0)
        if (list[count] != 0)
            return 0;
    return 1;
}

static int are_zero(void)
{
    return is_zero(lent.components, components) && is_zero(lent.connections, connections)
        && is_zero(lent.frontiers, frontiers);
}

typedef uint64_t entry(
    const uint8_t *, size_t, int64_t *, size_t, int64_t *, size_t, int64_t *, size_t,
    uint8_t *, size_t);

static uint64_t written(entry *call, const char *text)
{
    return call(
        (const uint8_t *)text, strlen(text), lent.components, components,
        lent.connections, connections, lent.frontiers, frontiers, lent.out, room);
}

static uint64_t listed(const char *text)
{
    return dustroute_sheet(
        (const uint8_t *)text, strlen(text), lent.components, components,
        lent.connections, connections, lent.frontiers, frontiers, lent.head, head);
}

static int is_refused(uint64_t answer, unsigned number, unsigned list, uint64_t item)
{
    return DUSTROUTE_NUMBER(answer) == number && DUSTROUTE_LIST(answer) == list
        && DUSTROUTE_ITEM(answer) == item;
}

/* The lists of either form are the same numbers, and the entries take them. */
static void its_lists(const char *text, uint64_t form, uint64_t rules)
{
    lend_enough();
    uint64_t answer = listed(text);
    hold(DUSTROUTE_ACCEPTED(answer) && DUSTROUTE_COUNT(answer, 0) == COUNT
        && DUSTROUTE_COUNT(answer, 1) == 1 && DUSTROUTE_COUNT(answer, 2) == 1, "its counts");
    hold(lent.head[0] == form && lent.head[1] == rules, "its form and its rules");
    hold(memcmp(lent.components, plot, sizeof plot) == 0, "its components");
    hold(lent.connections[2] == 5 && lent.frontiers[2] == -3, "its connections and frontiers");
    hold(is_as_before(lent.components, sizeof plot, sizeof lent.components), "no more written");
    int64_t kept[DUSTROUTE_PORTS_NUMBERS(1)];
    answer = dustroute_ports(
        (int64_t)rules, lent.components, 8 * COUNT, lent.connections, 3, kept, 6);
    hold(DUSTROUTE_ACCEPTED(answer) && DUSTROUTE_COUNT(answer, 0) == (rules < 3),
        "by rules 3 nothing leads into a repeater that was not seen");
}

/* What a report begins and ends with. */
static void its_report(const char *text, const char *end)
{
    lend_enough();
    uint64_t answer = written(dustroute_report, text);
    uint64_t count = DUSTROUTE_BYTES_WRITTEN(answer);
    hold(DUSTROUTE_ACCEPTED(answer) && count < ROOM, "a report");
    hold(memcmp(lent.out, "answer=0\ncomponents=2\n", 22) == 0, "its front");
    hold(memcmp(lent.out + count - strlen(end), end, strlen(end)) == 0, "its end");
    hold(is_as_before(lent.out, count, ROOM) && are_zero(), "and nothing else");
    lend_enough();
    room = count - 1;
    hold(is_refused(written(dustroute_report, text), 2, 3, 0), "2: no room for the report");
    hold(is_as_before(lent.out, 0, ROOM) && are_zero(), "nothing of it");
}

static void there_and_back(const char *text)
{
    char other[ROOM] = {0};
    lend_enough();
    uint64_t answer = written(dustroute_convert, text);
    hold(DUSTROUTE_ACCEPTED(answer) && are_zero(), "the other form");
    memcpy(other, lent.out, DUSTROUTE_BYTES_WRITTEN(answer));
    hold(strcmp(other, text) != 0, "which is another");
    lend_enough();
    answer = written(dustroute_convert, other);
    hold(DUSTROUTE_ACCEPTED(answer) && DUSTROUTE_BYTES_WRITTEN(answer) == strlen(text)
        && memcmp(lent.out, text, strlen(text)) == 0, "back: the sheet's own bytes");
    hold(is_as_before(lent.out, strlen(text), ROOM), "and no more");
}

/* Each entry at a line, or under a list; nothing is written. */
static void refused(const char *text, unsigned number, unsigned list, uint64_t item)
{
    lend_enough();
    hold(is_refused(listed(text), number, list, item), "lists: refused at its line");
    hold(is_refused(written(dustroute_report, text), number, list, item), "report: at its line");
    hold(is_refused(written(dustroute_convert, text), number, list, item), "other form: at its line");
    hold(is_as_before(&lent, 0, sizeof lent), "a refusal writes nothing");
}

static void refusals(void)
{
    refused("", 9, 3, 0);
    refused("rules=01\n", 9, 3, 0);
    refused("rules=4\n", 11, 3, 0);
    refused("sheet=2\nrules=0\n", 11, 3, 1);
    refused("sheet=1\n", 12, 3, 0);
    refused("sheet=2\nrules=1\ncomponents=1\nc=1,0,0,0,4,0,0\n", 9, 3, 3);
    refused("components=1025\n", 1, 0, DUSTROUTE_COMPONENTS);
    lend_enough();
    head = 1;
    hold(is_refused(listed(short_form), 2, 3, 0), "2: no room for the head");
    lend_enough();
    components = 8 * COUNT - 1;
    hold(is_refused(listed(short_form), 2, 3, 0), "2: no room for the lists");
    hold(is_refused(written(dustroute_convert, short_form), 2, 3, 0), "2: no room for the lists");
    hold(is_as_before(&lent, 0, sizeof lent), "a refusal writes nothing");
    lend_enough();
    const char *twice = "sheet=2\nrules=1\ncomponents=2\nc=1,0,0,0,4,0,0,0\nc=1,1,0,0,1,0,0,0\n"
        "connections=0\nfrontiers=0\n";
    hold(is_refused(written(dustroute_convert, twice), 5, 0, 1), "5: an id used twice");
    hold(is_as_before(lent.out, 0, ROOM) && are_zero(), "a buffer as it was, and zero");
    lend_enough();
    hold(is_refused(listed(twice), 5, 0, 1), "5: of its lists too");
    hold(is_as_before(lent.head, 0, sizeof lent.head) && are_zero(), "a head as it was, and zero");
}

/* A block more, on another table: a wire behind the repeater. */
static const char beside[] =
    "components=2\n"
    "id=2\nx=1\ny=0\nz=0\nkind=1\nfacing=0\nsupport=0\nconducts=0\n"
    "id=3\nx=2\ny=0\nz=0\nkind=0\nfacing=0\nsupport=0\nconducts=0\n"
    "connections=1\nsource=2\nsink=3\nkind=6\nfrontiers=0\n";
static const char both[] =
    "components=3\n"
    "id=1\nx=0\ny=0\nz=0\nkind=4\nfacing=0\nsupport=0\nconducts=0\n"
    "id=2\nx=1\ny=0\nz=0\nkind=1\nfacing=0\nsupport=0\nconducts=0\n"
    "id=3\nx=2\ny=0\nz=0\nkind=0\nfacing=0\nsupport=0\nconducts=0\n"
    "connections=2\nsource=1\nsink=2\nkind=5\nsource=2\nsink=3\nkind=6\n"
    "frontiers=1\nx=5\ny=0\nz=-3\n";

static struct {
    int64_t components[DUSTROUTE_SHEET_COMPONENTS_NUMBERS(2 * COUNT) + 1];
    int64_t connections[DUSTROUTE_SHEET_CONNECTIONS_NUMBERS(2) + 1];
    int64_t frontiers[DUSTROUTE_SHEET_FRONTIERS_NUMBERS(2) + 1];
    uint8_t out[ROOM];
} for_two;

static uint64_t joined(const char *first, const char *second, size_t bytes)
{
    memset(&for_two, FILLING, sizeof for_two);
    return dustroute_join(
        (const uint8_t *)first, strlen(first), (const uint8_t *)second, strlen(second),
        for_two.components, sizeof for_two.components / 8,
        for_two.connections, sizeof for_two.connections / 8,
        for_two.frontiers, sizeof for_two.frontiers / 8, for_two.out, bytes);
}

/* Refused, of a sheet, with nothing in the buffer; the work lists are zero but for a
 * line of the first sheet. */
static void not_joined(
    const char *first, const char *second, size_t bytes,
    unsigned sheet, unsigned number, unsigned list, uint64_t item)
{
    uint64_t answer = joined(first, second, bytes);
    hold(DUSTROUTE_NUMBER(answer) == number && DUSTROUTE_LIST(answer) == list
        && DUSTROUTE_JOIN_ITEM(answer) == item && DUSTROUTE_JOIN_SHEET(answer) == sheet,
        "two sheets: refused with the sheet");
    hold(is_as_before(for_two.out, 0, ROOM), "two sheets: nothing of it");
    if (sheet == 1 && number == 9)
        hold(is_as_before(&for_two, 0, sizeof for_two), "two sheets: all as it was");
    else
        hold(is_zero(for_two.components, sizeof for_two.components / 8), "two sheets: zero");
}

static void joins(void)
{
    char turned[sizeof beside];
    memcpy(turned, beside, sizeof beside);
    strstr(turned, "facing=0")[7] = '2';
    uint64_t answer = joined(old_form, beside, ROOM);
    hold(DUSTROUTE_ACCEPTED(answer) && DUSTROUTE_BYTES_WRITTEN(answer) == strlen(both)
        && memcmp(for_two.out, both, strlen(both)) == 0, "two sheets as one");
    hold(is_as_before(for_two.out, strlen(both), ROOM), "two sheets: no more written");
    hold(is_zero(for_two.connections, sizeof for_two.connections / 8), "two sheets: zero");
    not_joined(old_form, beside, strlen(both) - 1, 0, 2, 3, 0);
    not_joined(old_form, short_form, ROOM, 0, 13, 3, 0);
    not_joined(old_form, turned, ROOM, 0, 14, 0, 0);
    not_joined("rules=01\n", "rules=4\n", ROOM, 1, 9, 3, 0);
    not_joined(old_form, "sheet=2\nrules=4\n", ROOM, 2, 11, 3, 1);
}

int main(void)
{
    setvbuf(stdout, NULL, _IONBF, 0);
    its_lists(old_form, DUSTROUTE_OLD, 1);
    its_lists(short_form, DUSTROUTE_SHORT, 3);
    its_report(old_form, "\ninputs=1\ndevice=2\nport=1\nstatus=2\nimmediate=\ninferred=\n");
    its_report(short_form, "\ninputs=0\nunread=1\nid=2\n");
    there_and_back(old_form);
    there_and_back(short_form);
    refusals();
    joins();
    if (faults == 0)
        printf("all answers are as they must be\n");
    return faults != 0;
}
