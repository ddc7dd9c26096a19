/*
 * What each entry of the library needs of the stack, by a painted one: tools/stack prints the table of docs/ARCHITECTURE.md.
 * The plot is full: a lever, then wires and repeaters in a row, 4,096 connections, 256 frontiers.
 */
#include "dustroute_blocks.h"
#include "dustroute_held.h"
#include "dustroute_sheets.h"
#include <pthread.h>
#include <stdarg.h>
#include <stdio.h>
#include <string.h>
#include <sys/mman.h>

enum { BLOCKS = 1024, LINKS = 4096, FRONTIERS = 256, STACK = 2 << 20, PAINT = 0xa7 };

static int64_t components[8 * BLOCKS], connections[3 * LINKS], ports[5 * LINKS], frontiers[3 * FRONTIERS];
static size_t connected;
static uint8_t component_bytes[64 * BLOCKS], connection_bytes[24 * LINKS], port_bytes[40 * LINKS], frontier_bytes[24 * FRONTIERS];
static uint8_t nets[8 * BLOCKS], fragments[8 * BLOCKS];
static uint8_t region_bytes[8 * BLOCKS], source_bytes[32 * BLOCKS], input_bytes[96 * BLOCKS], set_bytes[512], stack_bytes[16 * BLOCKS];
static uint64_t regions[BLOCKS], sources[4 * BLOCKS], inputs[12 * BLOCKS], sets[64], one_set[16], other_set[16], ids[BLOCKS];
static uint64_t reasons[LINKS], dropped[2 * LINKS];
static int64_t rows[6 * LINKS];
static size_t work[2 * BLOCKS];
static uint8_t square[BLOCKS * BLOCKS];
static int64_t first_list[16 * BLOCKS], second_list[6 * LINKS], third_list[6 * FRONTIERS];
static char sheet[1 << 20];
static size_t sheet_length;
static uint8_t out[1 << 22];
static int64_t state[DUSTROUTE_HELD_STATE_NUMBERS], held_frontiers[DUSTROUTE_HELD_FRONTIERS_NUMBERS];
static int64_t places[DUSTROUTE_HELD_PLACES_NUMBERS], held[DUSTROUTE_HELD_CONNECTIONS_NUMBERS], sorted[8 * BLOCKS];

#define LENT(slice) slice, sizeof(slice) / sizeof(*slice)
#define SCENE 1, LENT(components), LENT(ports), LENT(frontiers)
#define SHEET (const uint8_t *)sheet, sheet_length
#define LISTS LENT(first_list), LENT(second_list), LENT(third_list)
#define PLOT LENT(state), LENT(held_frontiers), LENT(places), LENT(held)

static uint64_t groups(void) {
    return dustroute_groups(1, LENT(component_bytes), connection_bytes, 24 * connected, LENT(nets), LENT(fragments));
}
static uint64_t liveness(void) {
    return dustroute_liveness(1, LENT(component_bytes), LENT(port_bytes), LENT(frontier_bytes), LENT(region_bytes), LENT(source_bytes),
        LENT(input_bytes), LENT(set_bytes), LENT(stack_bytes));
}
static uint64_t ports_kept(void) { return dustroute_ports(1, LENT(components), connections, 3 * connected, LENT(rows)); }
static uint64_t told_why(void) { return dustroute_reasons(1, LENT(components), connections, 3 * connected, LENT(reasons)); }
static uint64_t input(void) { return dustroute_input(SCENE, BLOCKS - 1, 1, LENT(one_set), LENT(other_set), LENT(work)); }
static uint64_t driven(void) { return dustroute_driven(SCENE, BLOCKS - 1, 1, LENT(one_set), LENT(work)); }
static uint64_t trail(void) { return dustroute_trail(SCENE, BLOCKS - 1, 1, LENT(ids)); }
static uint64_t check_trail(void) { return dustroute_check_trail(SCENE, BLOCKS - 1, 1, LENT(ids)); }
static uint64_t clear(void) { return dustroute_clear(SCENE, LENT(rows), LENT(dropped)); }
static uint64_t light(void) { return dustroute_light(SCENE, LENT(regions), LENT(one_set), LENT(other_set), LENT(work)); }
static uint64_t rings(void) { return dustroute_rings(SCENE, LENT(regions), LENT(one_set), LENT(work)); }
static uint64_t reach_table(void) { return dustroute_reach_table(SCENE, LENT(square), LENT(regions), LENT(work)); }
static uint64_t report(void) { return dustroute_report(SHEET, LISTS, LENT(out)); }
static uint64_t convert(void) { return dustroute_convert(SHEET, LISTS, LENT(out)); }
static uint64_t join(void) { return dustroute_join(SHEET, SHEET, LISTS, LENT(out)); }
static uint64_t place(void) { return dustroute_place(PLOT, components, 8); }
static uint64_t connect_ports(void) { return dustroute_connect(PLOT, ports, 5); }
static uint64_t held_liveness(void) {
    return dustroute_held_liveness(PLOT, LENT(sorted), LENT(regions), LENT(sources), LENT(inputs), LENT(sets), LENT(work));
}
static uint64_t break_block(void) { return dustroute_break(PLOT, 0); }
static uint64_t nothing(void) { return 0; }

/* The clicks come last: a refused one looks at the plot as well. */
static const struct {
    const char *name;
    uint64_t (*call)(void);
} entries[] = {
    {"groups", groups}, {"liveness", liveness}, {"ports", ports_kept}, {"reasons", told_why}, {"input", input}, {"driven", driven},
    {"trail", trail}, {"check_trail", check_trail}, {"clear", clear}, {"light", light}, {"rings", rings}, {"reach_table", reach_table},
    {"report", report}, {"convert", convert}, {"join", join}, {"held_liveness", held_liveness}, {"place", place},
    {"connect", connect_ports}, {"break", break_block},
};

static void encode(uint8_t *bytes, const int64_t *numbers, size_t count) {
    for (size_t i = 0; i < 8 * count; i++)
        bytes[i] = (uint8_t)((uint64_t)numbers[i / 8] >> 8 * (i % 8));
}

static void told(const char *format, ...) {
    va_list numbers;
    va_start(numbers, format);
    sheet_length += (size_t)vsprintf(sheet + sheet_length, format, numbers);
    va_end(numbers);
}

static void make_plot(void) {
    unsigned random = 12345;
    for (int i = 0; i < BLOCKS; i++) {
        int64_t *block = components + 8 * i;
        int device = i == BLOCKS - 1 || i % 7 == 3;
        block[0] = block[1] = i;
        block[4] = i == 0 ? 4 : device;
        block[5] = device ? 2 : 0;
    }
    for (int k = 0; k < LINKS; k++) {
        random = random * 1103515245 + 12345;
        int64_t *port = ports + 5 * k;
        port[0] = k / 4;
        port[2] = k % 4 == 0 && k / 4 + 1 < BLOCKS ? k / 4 + 1 : (int)((random >> 8) % BLOCKS);
        port[3] = 1;
    }
    for (int i = 0; i + 1 < BLOCKS; i++)
        for (int kind = 0; kind < 4; kind++) {
            int64_t *connection = connections + 3 * connected++;
            connection[0] = i;
            connection[1] = i + 1;
            connection[2] = kind;
        }
    for (int i = 0; i < FRONTIERS; i++)
        frontiers[3 * i] = i;
}

/* The plot as bytes, as a sheet in the shorter form, and held open. */
static void hand_on_plot(void) {
    encode(component_bytes, LENT(components));
    encode(connection_bytes, connections, 3 * connected);
    encode(port_bytes, LENT(ports));
    encode(frontier_bytes, LENT(frontiers));
    told("sheet=2\nrules=1\ncomponents=%d\n", BLOCKS);
    for (int i = 0; i < BLOCKS; i++)
        told("c=%d,%d,0,0,%d,%d,0,0\n", i, i, (int)components[8 * i + 4], (int)components[8 * i + 5]);
    told("connections=%zu\n", connected);
    for (size_t i = 0; i < connected; i++)
        told("n=%d,%d,%d\n", (int)connections[3 * i], (int)connections[3 * i + 1], (int)connections[3 * i + 2]);
    told("frontiers=0\n");
    dustroute_open(1, LENT(frontiers), PLOT);
    for (int i = 0; i < BLOCKS; i++)
        dustroute_place(PLOT, components + 8 * i, 8);
    for (int k = 0; k < LINKS; k++)
        dustroute_connect(PLOT, ports + 5 * k, 5);
}

static uint64_t answer;

static void *run(void *call) {
    answer = (*(uint64_t(**)(void))call)();
    return NULL;
}

/* The bytes of a thread's stack that a call changes. */
static size_t needed(uint64_t (*call)(void)) {
    uint8_t *stack = mmap(NULL, STACK, PROT_READ | PROT_WRITE, MAP_PRIVATE | MAP_ANONYMOUS, -1, 0);
    pthread_attr_t attributes;
    pthread_t thread;
    size_t untouched = 0;
    memset(stack, PAINT, STACK);
    pthread_attr_init(&attributes);
    pthread_attr_setstack(&attributes, stack, STACK);
    pthread_create(&thread, &attributes, run, &call);
    pthread_join(thread, NULL);
    while (stack[untouched] == PAINT)
        untouched++;
    munmap(stack, STACK);
    return STACK - untouched;
}

int main(void) {
    make_plot();
    hand_on_plot();
    size_t thread = needed(nothing);
    for (size_t i = 0; i < sizeof entries / sizeof *entries; i++) {
        size_t bytes = needed(entries[i].call) - thread;
        unsigned refusal = (unsigned)(answer & 0xff);
        printf("%-14s %7zu", entries[i].name, bytes);
        printf(refusal ? "  refused with %u\n" : "\n", refusal);
    }
    return 0;
}
