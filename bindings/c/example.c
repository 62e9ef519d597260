/* The setpoint store from C: an opening, a WRITE and a READ that cross, the READ again, and the register.

   This process holds the tables. Before a request or a reply is delivered, its frame is written from its link and goes through a socket
   pair to a second process, which stands for the wire: it reads the frame, prints it and sends it back. What comes back must be what was
   sent; then it is delivered. The steps and their answers are those of examples/crossing-b.txt, and so is the register at the end.

   It is an example: no crate rests on it, and nothing of it is proved. bindings/run builds it and compares what it prints with
   bindings/example.out. */
#define _POSIX_C_SOURCE 200809L
#include <stdio.h>
#include <stdlib.h>
#include <string.h>
#include <sys/socket.h>
#include <sys/wait.h>
#include <unistd.h>

#include "setpoint_store.h"

enum { METHOD_B = 2, STATIONS = 2, PANELS = 2, HEAD = SETPOINT_LINKS_COORDINATOR, BOTH = 3, BADGE = 7 };
enum { FRAME_BYTES = SETPOINT_FRAME_LONGEST, ENTRIES = SETPOINT_FRAME_ENTRIES };

static void stop(const char *why) {
    fflush(stdout);
    fprintf(stderr, "example: %s\n", why);
    exit(1);
}

/* ---- The second process: the wire. */

static void print_key(uint32_t count, uint32_t panel) { printf(" key %u.%u", count, panel); }

static void print_entries(setpoint_parts parts, const char *what, const uint32_t *keys, const uint32_t *badges, const uint32_t *numbers) {
    for (uint32_t at = 0; at < setpoint_frame_entries(parts); at++) {
        print_key(keys[at] / 256, keys[at] % 256);
        if (badges != NULL) printf(" badge %u", badges[at]);
        printf(" %s %u", what, numbers[at]);
    }
}

static void print_frame(const uint8_t *bytes, size_t length) {
    static const char *const names[] = {
        "no frame", "set", "set done", "enter", "entered", "which keys", "keys", "get", "got", "get all", "all", "get log", "log"};
    uint32_t keys[ENTRIES], badges[ENTRIES], numbers[ENTRIES];
    setpoint_parts parts = frame_read(bytes, length, keys, ENTRIES, badges, ENTRIES, numbers, ENTRIES);
    if (setpoint_refusal(parts.head) != 0) stop("the wire got bytes that are no frame");
    uint8_t kind = setpoint_frame_kind(parts), station = setpoint_frame_server(parts);
    printf("    wire: %s: panel %u", names[kind <= SETPOINT_FRAME_LOG ? kind : 0], setpoint_frame_client(parts));
    switch (kind) {
    case SETPOINT_FRAME_SET:
        printf(" station %u", station);
        print_key(setpoint_frame_count(parts), setpoint_frame_owner(parts));
        printf(" badge %u setpoint %u", setpoint_frame_badge(parts), setpoint_frame_number(parts));
        break;
    case SETPOINT_FRAME_GET:
        printf(" station %u", station);
        print_key(setpoint_frame_count(parts), setpoint_frame_owner(parts));
        break;
    case SETPOINT_FRAME_GOT:
        printf(" station %u badge %u setpoint %u", station, setpoint_frame_badge(parts), setpoint_frame_number(parts));
        break;
    case SETPOINT_FRAME_SET_DONE:
    case SETPOINT_FRAME_GET_ALL:
        printf(" station %u", station);
        break;
    case SETPOINT_FRAME_ALL:
        printf(" station %u", station);
        print_entries(parts, "setpoint", keys, badges, numbers);
        break;
    case SETPOINT_FRAME_ENTER:
        print_key(setpoint_frame_count(parts), setpoint_frame_owner(parts));
        printf(" mask %u", setpoint_frame_number(parts));
        break;
    case SETPOINT_FRAME_ENTERED:
        printf(" tag %u", setpoint_frame_tag(parts));
        break;
    case SETPOINT_FRAME_KEYS:
        printf(" tag %u", setpoint_frame_tag(parts));
        print_entries(parts, "tag", keys, NULL, numbers);
        break;
    case SETPOINT_FRAME_LOG:
        print_entries(parts, "mask", keys, NULL, numbers);
        break;
    }
    printf("\n");
}

/* Until the other end is closed. A SOCK_SEQPACKET socket keeps each frame apart from the next. */
static void be_the_wire(int wire) {
    uint8_t bytes[FRAME_BYTES];
    ssize_t length;
    while ((length = recv(wire, bytes, sizeof bytes, 0)) > 0) {
        print_frame(bytes, (size_t)length);
        fflush(stdout);
        if (send(wire, bytes, (size_t)length, 0) != length) stop("the wire cannot send");
    }
    if (length < 0) stop("the wire cannot receive");
}

/* ---- The first process: the tables. */

/* Sends what the link holds over the wire and back. */
static void send_frame(const setpoint_tables *tables, int wire, uint32_t panel, uint32_t target) {
    uint8_t bytes[FRAME_BYTES], back[FRAME_BYTES];
    uint64_t length = setpoint_wire_write_link_frame(tables, panel, target, bytes, sizeof bytes);
    if (setpoint_refusal(length) != 0) stop("the link has no frame");
    for (uint64_t at = 0; at < length; at++) printf(" %02x", bytes[at]);
    printf("\n");
    fflush(stdout);
    if (send(wire, bytes, length, 0) != (ssize_t)length) stop("cannot send");
    if (recv(wire, back, sizeof back, 0) != (ssize_t)length || memcmp(bytes, back, length) != 0) stop("another frame came back");
}

static void print_answer(uint32_t answer) {
    if (answer == SETPOINT_OK) {
        printf("    ok\n");
    } else {
        printf("    no %u\n", answer);
    }
}

/* A READ's setpoints are those of the mask that it began with, which the panel's row still has. */
static void print_arrival(const setpoint_tables *tables, uint32_t panel, const setpoint_crossing *crossing) {
    uint32_t mask = tables->clients[SETPOINT_CLIENTS_WIDTH * panel + SETPOINT_CLIENTS_MASK];
    uint64_t answer = crossing->number, tag = answer & UINT32_MAX;
    switch (answer - tag) {
    case SETPOINT_WAIT:
        printf("    wait\n");
        break;
    case SETPOINT_NEXT:
        printf("    next\n");
        break;
    case SETPOINT_WRITE:
        printf("    write %u\n", (uint32_t)tag);
        break;
    case SETPOINT_READ:
        printf("    read %u", (uint32_t)tag);
        for (uint32_t i = 0; i < STATIONS; i++) {
            if (mask >> i & 1) printf(" %u=%u@%u#%u", i, crossing->setpoints[i], crossing->tags[i], crossing->badges[i]);
        }
        printf("\n");
        break;
    default:
        print_answer((uint32_t)answer);
    }
}

static void request(setpoint_tables *tables, int wire, uint32_t panel, uint32_t target) {
    printf("> %u %u:", panel, target);
    send_frame(tables, wire, panel, target);
    print_answer(setpoint_store_deliver_request(tables, panel, target));
}

static void reply(setpoint_tables *tables, int wire, uint32_t panel, uint32_t target) {
    printf("< %u %u:", panel, target);
    send_frame(tables, wire, panel, target);
    setpoint_crossing crossing = setpoint_store_deliver_reply(tables, panel, target);
    print_arrival(tables, panel, &crossing);
}

static void begin_read(setpoint_tables *tables, uint32_t panel, uint32_t mask) {
    printf("R %u %u\n", panel, mask);
    print_answer(setpoint_store_begin_read(tables, panel, mask));
}

static void print_register(const setpoint_tables *tables) {
    static uint32_t list[SETPOINT_LISTING_ROWS * SETPOINT_LISTING_WIDTH];
    uint64_t rows = setpoint_wire_list_register(tables, list, sizeof list / sizeof *list);
    if (setpoint_refusal(rows) != 0) stop("the register cannot be listed");
    printf("the register:\n");
    for (const uint32_t *row = list; row < list + rows * SETPOINT_LISTING_WIDTH; row += SETPOINT_LISTING_WIDTH) {
        int is_write = row[SETPOINT_LISTING_KIND] == SETPOINT_LISTING_WRITE;
        printf("%c %u %u", is_write ? 'W' : 'R', row[SETPOINT_LISTING_TAG], row[SETPOINT_LISTING_CLIENT]);
        if (is_write) printf(" %u", row[SETPOINT_LISTING_NUMBER]);
        printf(" %u %u", row[SETPOINT_LISTING_BEGIN], row[SETPOINT_LISTING_END]);
        printf(" %u\n", row[is_write ? SETPOINT_LISTING_BADGE : SETPOINT_LISTING_OVER]);
    }
}

static void play(int wire) {
    static uint32_t words[SETPOINT_TABLES_LENGTH(STATIONS, PANELS)];
    setpoint_tables tables = setpoint_tables_in(words, STATIONS, PANELS);
    static const uint32_t at_first[STATIONS] = {1200, 30}, recipe[STATIONS] = {1800, 45};

    printf("O %u %u %u %u %u\n", METHOD_B, STATIONS, PANELS, at_first[0], at_first[1]);
    print_answer(setpoint_store_open(&tables, METHOD_B, STATIONS, PANELS, at_first, STATIONS));
    printf("W 0 %u %u %u %u\n", BOTH, BADGE, recipe[0], recipe[1]);
    print_answer(setpoint_store_begin_write(&tables, 0, BOTH, BADGE, recipe, STATIONS));
    request(&tables, wire, 0, 0); /* station 0 has the new setpoint, station 1 not yet */
    begin_read(&tables, 1, BOTH);
    request(&tables, wire, 1, HEAD);
    reply(&tables, wire, 1, HEAD);
    request(&tables, wire, 1, 1);
    request(&tables, wire, 1, 0);
    request(&tables, wire, 0, 1);
    reply(&tables, wire, 0, 0);
    reply(&tables, wire, 0, 1);
    request(&tables, wire, 0, HEAD);
    reply(&tables, wire, 1, 0);
    reply(&tables, wire, 1, 1); /* both old */
    reply(&tables, wire, 0, HEAD);

    begin_read(&tables, 1, BOTH);
    request(&tables, wire, 1, HEAD);
    reply(&tables, wire, 1, HEAD);
    request(&tables, wire, 1, 1);
    request(&tables, wire, 1, 0);
    reply(&tables, wire, 1, 0);
    reply(&tables, wire, 1, 1); /* both new */
    print_register(&tables);
}

int main(void) {
    int ends[2], status;
    if (socketpair(AF_UNIX, SOCK_SEQPACKET, 0, ends) != 0) stop("no socket pair");
    pid_t wire = fork();
    if (wire < 0) stop("no second process");
    if (wire == 0) {
        close(ends[0]);
        be_the_wire(ends[1]);
        return 0;
    }
    close(ends[1]);
    play(ends[0]);
    close(ends[0]);
    if (waitpid(wire, &status, 0) != wire || status != 0) stop("the wire ended with a fault");
    return 0;
}
