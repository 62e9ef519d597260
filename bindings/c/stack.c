/* How much stack the exported functions use: a load is played to its end on the largest press under B and under C, on a stack filled with a
   pattern. Before each delivery its frame is written and read, behind each 64th step the tables are checked and the register is listed.
   It is a measurement: it tells what these calls used, and proves nothing of others. bindings/run runs it. */
#define _DEFAULT_SOURCE
#include <stdio.h>
#include <stdlib.h>
#include <string.h>
#include <ucontext.h>

#include "setpoint_store.h"

enum { STATIONS = 16, PANELS = 16, SEED = 7, BADGE = 7, SPACE = 1 << 18, ENOUGH = 1 << 14, PATTERN = 0xA5 };

static unsigned char space[SPACE];
static ucontext_t outside, inside;
static uint32_t words[SETPOINT_TABLES_LENGTH(STATIONS, PANELS)], setpoints[STATIONS];
static uint32_t list[SETPOINT_LISTING_ROWS * SETPOINT_LISTING_WIDTH];
static uint32_t keys[SETPOINT_FRAME_ENTRIES], badges[SETPOINT_FRAME_ENTRIES], numbers[SETPOINT_FRAME_ENTRIES];
static uint8_t bytes[SETPOINT_FRAME_LONGEST];
static unsigned steps, faults;

static void need(int right) { faults += !right; }

static void trip(const setpoint_tables *tables, uint32_t panel, uint32_t target) {
    uint64_t length = setpoint_wire_write_link_frame(tables, panel, target, bytes, sizeof bytes);
    need(setpoint_refusal(length) == 0);
    setpoint_parts parts = frame_read(
        bytes, length, keys, SETPOINT_FRAME_ENTRIES, badges, SETPOINT_FRAME_ENTRIES, numbers, SETPOINT_FRAME_ENTRIES);
    need(setpoint_refusal(parts.head) == 0);
    need(frame_write(setpoint_frame_kind(parts), setpoint_frame_client(parts), setpoint_frame_server(parts), setpoint_frame_tag(parts),
                     setpoint_frame_count(parts), setpoint_frame_owner(parts), setpoint_frame_badge(parts), setpoint_frame_number(parts),
                     setpoint_frame_entries(parts), keys, SETPOINT_FRAME_ENTRIES, badges, SETPOINT_FRAME_ENTRIES, numbers,
                     SETPOINT_FRAME_ENTRIES, bytes, sizeof bytes) == length);
}

static void take(setpoint_tables *tables, const setpoint_load_pick *pick) {
    for (int i = 0; i < STATIONS; i++) setpoints[i] = pick->setpoint;
    if (pick->kind >= 2) trip(tables, pick->client, pick->second);
    switch (pick->kind) {
    case 0:
        need(setpoint_store_begin_write(tables, pick->client, pick->second, BADGE, setpoints, STATIONS) == SETPOINT_OK);
        break;
    case 1:
        need(setpoint_store_begin_read(tables, pick->client, pick->second) == SETPOINT_OK);
        break;
    case 2:
        need(setpoint_store_deliver_request(tables, pick->client, pick->second) == SETPOINT_OK);
        break;
    default:
        need(setpoint_store_deliver_reply(tables, pick->client, pick->second).number >= SETPOINT_WAIT);
    }
}

static void play(void) {
    setpoint_tables tables = setpoint_tables_in(words, STATIONS, PANELS);
    for (uint32_t method = 2; method <= 3; method++) {
        uint32_t seed = SEED;
        need(setpoint_store_open(&tables, method, STATIONS, PANELS, setpoints, STATIONS) == SETPOINT_OK);
        for (;;) {
            setpoint_load_pick pick = setpoint_load_next_step(&tables, seed);
            if (pick.answer != 0) break;
            take(&tables, &pick);
            seed = pick.seed;
            if (++steps % 64 == 0) {
                need(setpoint_store_sound(&tables));
                need(setpoint_refusal(setpoint_wire_list_register(&tables, list, sizeof list / sizeof *list)) == 0);
            }
        }
    }
}

static size_t used(void) {
    size_t low = 0;
    while (low < SPACE && space[low] == PATTERN) low++;
    return SPACE - low;
}

int main(void) {
    memset(space, PATTERN, SPACE);
    if (getcontext(&inside) != 0) return 1;
    inside.uc_stack.ss_sp = space;
    inside.uc_stack.ss_size = SPACE;
    inside.uc_link = &outside;
    makecontext(&inside, play, 0);
    if (swapcontext(&outside, &inside) != 0) return 1;
    fprintf(stderr, "stack: %zu bytes\n", used());
    printf("%u steps, %u faults: %d bytes of stack are %s\n", steps, faults, ENOUGH, used() <= ENOUGH ? "enough" : "not enough");
    return 0;
}
