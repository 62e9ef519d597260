/* The setpoint store as C calls it. Made from the sources by tools/c-header; docs/INTEGRATING.md says how it is used. Link
   libstore_exports.a, libsound_exports.a, libframe_exports.a, libwire_exports.a, libworkload_exports.a, librecording_exports.a, as far as
   their functions are called. */
#ifndef SETPOINT_STORE_H
#define SETPOINT_STORE_H

#include <stdbool.h>
#include <stddef.h>
#include <stdint.h>

#ifdef __cplusplus
extern "C" {
#endif

/* ---- Where the words of the tables stand. A name that is no width, no number of places and no length is a place in a row. */

/* The counts: method, servers, clients, step number, log entries, WRITEs and READs begun, and the versions that each server holds. */
#define SETPOINT_COUNTS_METHOD 0u
#define SETPOINT_COUNTS_SERVERS 1u
#define SETPOINT_COUNTS_CLIENTS 2u
#define SETPOINT_COUNTS_STEP 3u
#define SETPOINT_COUNTS_ENTRIES 4u
#define SETPOINT_COUNTS_WRITES 5u
#define SETPOINT_COUNTS_READS 6u
#define SETPOINT_COUNTS_HELD 7u /* The versions held by server i stand at HELD + i. */
#define SETPOINT_COUNTS_WORDS 23u
#define SETPOINT_COUNTS_LAST_STEP 4294967295u /* The step number at which only an opening is accepted. */

/* A client's row: state, last count, mask, tag, the place of the record in progress, 16 setpoints, the n received from each of 17 targets,
   the tags and the badges that 16 servers' setpoints come from, the badge of its WRITE, and the keys that it asks 16 servers for. */
#define SETPOINT_CLIENTS_WIDTH 87u
#define SETPOINT_CLIENTS_STATE 0u
#define SETPOINT_CLIENTS_COUNT 1u
#define SETPOINT_CLIENTS_MASK 2u
#define SETPOINT_CLIENTS_TAG 3u
#define SETPOINT_CLIENTS_RECORD 4u /* The place of the record of the transaction in progress. */
#define SETPOINT_CLIENTS_SETPOINTS 5u /* The setpoint of server i stands at SETPOINTS + i. */
#define SETPOINT_CLIENTS_RECEIVED 21u /* The n received from target i stands at RECEIVED + i. */
#define SETPOINT_CLIENTS_TAGS 38u /* The tag of the WRITE that the setpoint of server i comes from stands at TAGS + i. */
#define SETPOINT_CLIENTS_BADGES 54u /* The badge of that WRITE stands at BADGES + i. */
#define SETPOINT_CLIENTS_WRITE_BADGE 70u /* The badge of the client's own WRITE. */
#define SETPOINT_CLIENTS_ASKED 71u /* The word of the key that server i is asked for stands at ASKED + i. */

/* The links: what the wire holds between a client and a target. A row of four words: kind, key, number, badge. */
#define SETPOINT_LINKS_WIDTH 4u
#define SETPOINT_LINKS_KIND 0u
#define SETPOINT_LINKS_KEY 1u
#define SETPOINT_LINKS_NUMBER 2u
#define SETPOINT_LINKS_BADGE 3u
#define SETPOINT_LINKS_TARGETS 17u /* The targets of a client: servers 0 to 15, and the coordinator. */
#define SETPOINT_LINKS_COORDINATOR 16u
#define SETPOINT_LINKS_REQUEST 1u /* the kind of such a link; 0 where it holds nothing */
#define SETPOINT_LINKS_REPLY 2u /* the kind of such a link; 0 where it holds nothing */
#define SETPOINT_LINKS_LOST 3u /* the kind of such a link; 0 where it holds nothing */

/* The servers' versions: 256 places a server, the keys in one table, and in another badge and setpoint, a row of two words. */
#define SETPOINT_VERSIONS_PLACES 256u
#define SETPOINT_VERSIONS_WIDTH 2u /* A version's row beside its key. */
#define SETPOINT_VERSIONS_BADGE 0u
#define SETPOINT_VERSIONS_SETPOINT 1u

/* The coordinator's log: (key, mask) at each tag. */
#define SETPOINT_LOG_PLACES 256u
#define SETPOINT_LOG_WIDTH 2u
#define SETPOINT_LOG_KEY 0u
#define SETPOINT_LOG_MASK 1u

/* The register's records of WRITEs and of READs: client, number (a WRITE's count, a READ's mask), tag, begin and end step, and a WRITE's
   badge. */
#define SETPOINT_RECORDS_PLACES 255u
#define SETPOINT_RECORDS_WIDTH 6u
#define SETPOINT_RECORDS_CLIENT 0u
#define SETPOINT_RECORDS_NUMBER 1u
#define SETPOINT_RECORDS_TAG 2u
#define SETPOINT_RECORDS_BEGIN 3u
#define SETPOINT_RECORDS_END 4u
#define SETPOINT_RECORDS_BADGE 5u

/* The states of a client. */
#define SETPOINT_STATE_IDLE 0u
#define SETPOINT_STATE_WRITING 1u
#define SETPOINT_STATE_ENTERING 2u /* The coordinator is asked for the WRITE's tag. */
#define SETPOINT_STATE_ASKING_KEYS 3u
#define SETPOINT_STATE_ASKING_SETPOINTS 4u
#define SETPOINT_STATE_ASKING_ALL 5u

/* The register's listing, in rows of words. */
/* The words of a row, and the rows of the longest register: a list of so many words is long enough for every register. */
#define SETPOINT_LISTING_WIDTH 8u
#define SETPOINT_LISTING_ROWS 510u
#define SETPOINT_LISTING_KIND 0u
#define SETPOINT_LISTING_TAG 1u
#define SETPOINT_LISTING_CLIENT 2u
#define SETPOINT_LISTING_NUMBER 3u
#define SETPOINT_LISTING_BEGIN 4u
#define SETPOINT_LISTING_END 5u
#define SETPOINT_LISTING_OVER 6u
#define SETPOINT_LISTING_BADGE 7u
#define SETPOINT_LISTING_WRITE 0u /* the kind of a WRITE's row: its number is its count */
#define SETPOINT_LISTING_READ 1u /* the kind of a READ's row: its number is its mask, and over says how many WRITEs overlap it */

/* How many words each table must have, at least, for k servers and p clients. */
#define SETPOINT_COUNTS_LENGTH(k, p) (SETPOINT_COUNTS_WORDS)
#define SETPOINT_CLIENTS_LENGTH(k, p) (SETPOINT_CLIENTS_WIDTH * (size_t)(p))
#define SETPOINT_LINKS_LENGTH(k, p) (SETPOINT_LINKS_WIDTH * (SETPOINT_LINKS_TARGETS * (size_t)(p)))
#define SETPOINT_KEYS_LENGTH(k, p) (SETPOINT_VERSIONS_PLACES * (size_t)(k))
#define SETPOINT_VALUES_LENGTH(k, p) (SETPOINT_VERSIONS_WIDTH * (SETPOINT_VERSIONS_PLACES * (size_t)(k)))
#define SETPOINT_LOG_LENGTH(k, p) (SETPOINT_LOG_WIDTH * SETPOINT_LOG_PLACES)
#define SETPOINT_WRITES_LENGTH(k, p) (SETPOINT_RECORDS_WIDTH * SETPOINT_RECORDS_PLACES)
#define SETPOINT_READS_LENGTH(k, p) (SETPOINT_RECORDS_WIDTH * SETPOINT_RECORDS_PLACES)
#define SETPOINT_TABLES_LENGTH(k, p) \
    (SETPOINT_COUNTS_LENGTH(k, p) + \
     SETPOINT_CLIENTS_LENGTH(k, p) + \
     SETPOINT_LINKS_LENGTH(k, p) + \
     SETPOINT_KEYS_LENGTH(k, p) + \
     SETPOINT_VALUES_LENGTH(k, p) + \
     SETPOINT_LOG_LENGTH(k, p) + \
     SETPOINT_WRITES_LENGTH(k, p) + \
     SETPOINT_READS_LENGTH(k, p))

/* ---- Answers. */

#define SETPOINT_OK 0u /* an opening, a begin or a delivered request that was accepted */
#define SETPOINT_WAIT UINT64_C(4294967296) /* a delivered reply's answer */
#define SETPOINT_NEXT UINT64_C(8589934592) /* a delivered reply's answer */
#define SETPOINT_WRITE UINT64_C(12884901888) /* a delivered reply's answer; its tag is added */
#define SETPOINT_READ UINT64_C(17179869184) /* a delivered reply's answer; its tag is added */
#define SETPOINT_REFUSED(number) (UINT64_C(18446744073709551615) - (number)) /* a refusal, of the functions that return a length or parts */
#define SETPOINT_AGREE UINT64_C(0) /* two recordings agree */
/* two recordings differ: client, target and place of the first difference are added; what lies between the two refuses */
#define SETPOINT_DIFFER UINT64_C(4294967296)

/* Refusals: below 256, all as before. The lowest that fits is given, frames apart. */
#define SETPOINT_REFUSAL_BAD_OPENING 1u /* method, k or p wrong; not k setpoints */
#define SETPOINT_REFUSAL_UNSOUND 2u /* tables not sound; opening: too short */
#define SETPOINT_REFUSAL_NO_SUCH_PLACE 3u /* no such panel or target */
#define SETPOINT_REFUSAL_RETIRED 4u /* Saved tables of method 1 …; nothing new begins on them */
#define SETPOINT_REFUSAL_BUSY 5u /* panel not idle */
#define SETPOINT_REFUSAL_BAD_MASK 6u /* mask zero or beyond k; not k setpoints in a WRITE */
#define SETPOINT_REFUSAL_EXHAUSTED 7u /* 255 WRITEs (or, for a READ, READs) begun; any step but an opening at step number 2^32 - 1 */
#define SETPOINT_REFUSAL_FULL_OR_NOT_HELD 8u /* a table is full or a key is not held */
#define SETPOINT_REFUSAL_NOTHING_THERE 9u /* link has no such request or reply */
#define SETPOINT_REFUSAL_CUT_SHORT 10u /* frame cut short */
#define SETPOINT_REFUSAL_BAD_FIELD 11u /* frame field wrong; padding not zero, bytes after it; message not writable */
#define SETPOINT_REFUSAL_NO_ROOM 12u /* lent space too small for the frame; lent space too small for a list wanted */
#define SETPOINT_REFUSAL_UNREADABLE 13u /* line not readable */
#define SETPOINT_REFUSAL_NOTHING_TO_LOSE 14u /* Losing from an empty or already lost link */
#define SETPOINT_REFUSAL_NOT_LOST 15u /* sending again on a link not lost */
/* up to 4,096 frames; More frames, lengths not adding up to the bytes, or a frame that gives 10 or 11 */
#define SETPOINT_REFUSAL_NO_RECORDING 16u

/* The kinds of frames. */
#define SETPOINT_FRAME_SET 1u
#define SETPOINT_FRAME_SET_DONE 2u
#define SETPOINT_FRAME_ENTER 3u
#define SETPOINT_FRAME_ENTERED 4u
#define SETPOINT_FRAME_WHICH_KEYS 5u
#define SETPOINT_FRAME_KEYS 6u
#define SETPOINT_FRAME_GET 7u
#define SETPOINT_FRAME_GOT 8u
#define SETPOINT_FRAME_GET_ALL 9u
#define SETPOINT_FRAME_ALL 10u
#define SETPOINT_FRAME_GET_LOG 11u
#define SETPOINT_FRAME_LOG 12u
#define SETPOINT_FRAME_LONGEST 1923u /* bytes of the longest frame */
#define SETPOINT_FRAME_ENTRIES 256u /* entries of the longest frame */

/* A delivered reply's answer as it crosses, and beside it what a READ shows: setpoints, and the tags and badges of the WRITEs that put them
   there; 0 where it shows none. */
typedef struct {
    uint64_t number;
    uint32_t setpoints[16];
    uint32_t tags[16];
    uint32_t badges[16];
} setpoint_crossing;

/* A message as it crosses; where it is refused, both are the refusal. */
typedef struct {
    uint64_t head;
    uint64_t tail;
} setpoint_parts;

/* A pick as it crosses: 0 and the step, the number of a refusal, or 256 where no step is acceptable. */
typedef struct {
    uint32_t answer;
    /* the seed behind the step, or the seed as it was */
    uint32_t seed;
    /* 0 a WRITE, 1 a READ, 2 a request, 3 a reply */
    uint32_t kind;
    uint32_t client;
    /* the mask of a begin, the target of a delivery */
    uint32_t second;
    /* that of every station in a WRITE */
    uint32_t setpoint;
} setpoint_load_pick;

/* A load's end as it crosses: 0, how many steps it gave and the next seed; or the number of a refusal. */
typedef struct {
    uint32_t answer;
    uint32_t steps;
    uint32_t seed;
} setpoint_load_end;

/* ---- The functions. A slice crosses as a pointer and a length in elements. What is lent to a function must not overlap, and stays the
   caller's. */

/* Whether the tables are sound. */
bool store_sound(
    const uint32_t *counts, size_t counts_length, const uint32_t *clients, size_t clients_length, const uint32_t *links,
    size_t links_length, const uint32_t *keys, size_t keys_length, const uint32_t *values, size_t values_length, const uint32_t *log,
    size_t log_length, const uint32_t *writes, size_t writes_length, const uint32_t *reads, size_t reads_length);

/* Opens the store. */
uint32_t store_open(
    uint32_t *counts, size_t counts_length, uint32_t *clients, size_t clients_length, uint32_t *links, size_t links_length, uint32_t *keys,
    size_t keys_length, uint32_t *values, size_t values_length, uint32_t *log, size_t log_length, const uint32_t *writes,
    size_t writes_length, const uint32_t *reads, size_t reads_length, uint32_t method, uint32_t servers, uint32_t panels,
    const uint32_t *setpoints, size_t setpoints_length);

/* Begins a WRITE. */
uint32_t store_begin_write(
    uint32_t *counts, size_t counts_length, uint32_t *clients, size_t clients_length, uint32_t *links, size_t links_length,
    const uint32_t *keys, size_t keys_length, const uint32_t *values, size_t values_length, const uint32_t *log, size_t log_length,
    uint32_t *writes, size_t writes_length, const uint32_t *reads, size_t reads_length, uint32_t client, uint32_t mask, uint16_t badge,
    const uint32_t *setpoints, size_t setpoints_length);

/* Begins a READ. */
uint32_t store_begin_read(
    uint32_t *counts, size_t counts_length, uint32_t *clients, size_t clients_length, uint32_t *links, size_t links_length,
    const uint32_t *keys, size_t keys_length, const uint32_t *values, size_t values_length, const uint32_t *log, size_t log_length,
    const uint32_t *writes, size_t writes_length, uint32_t *reads, size_t reads_length, uint32_t client, uint32_t mask);

/* Delivers a request. */
uint32_t store_deliver_request(
    uint32_t *counts, size_t counts_length, const uint32_t *clients, size_t clients_length, uint32_t *links, size_t links_length,
    uint32_t *keys, size_t keys_length, uint32_t *values, size_t values_length, uint32_t *log, size_t log_length, uint32_t *writes,
    size_t writes_length, const uint32_t *reads, size_t reads_length, uint32_t client, uint32_t target);

/* Delivers a reply. */
setpoint_crossing store_deliver_reply(
    uint32_t *counts, size_t counts_length, uint32_t *clients, size_t clients_length, uint32_t *links, size_t links_length,
    const uint32_t *keys, size_t keys_length, const uint32_t *values, size_t values_length, const uint32_t *log, size_t log_length,
    uint32_t *writes, size_t writes_length, uint32_t *reads, size_t reads_length, uint32_t client, uint32_t target);

/* Loses what a link holds. */
uint32_t store_lose(
    uint32_t *counts, size_t counts_length, const uint32_t *clients, size_t clients_length, uint32_t *links, size_t links_length,
    const uint32_t *keys, size_t keys_length, const uint32_t *values, size_t values_length, const uint32_t *log, size_t log_length,
    const uint32_t *writes, size_t writes_length, const uint32_t *reads, size_t reads_length, uint32_t client, uint32_t target);

/* Sends again what was lost on a link. */
uint32_t store_resend(
    uint32_t *counts, size_t counts_length, const uint32_t *clients, size_t clients_length, uint32_t *links, size_t links_length,
    const uint32_t *keys, size_t keys_length, const uint32_t *values, size_t values_length, const uint32_t *log, size_t log_length,
    const uint32_t *writes, size_t writes_length, const uint32_t *reads, size_t reads_length, uint32_t client, uint32_t target);

/* Begins a WRITE on tables known to be sound. */
/* UNCHECKED: the tables must be sound. Nothing checks a caller in another language: on other tables anything may happen. */
uint32_t store_begin_write_unchecked(
    uint32_t *counts, size_t counts_length, uint32_t *clients, size_t clients_length, uint32_t *links, size_t links_length,
    const uint32_t *keys, size_t keys_length, const uint32_t *values, size_t values_length, const uint32_t *log, size_t log_length,
    uint32_t *writes, size_t writes_length, const uint32_t *reads, size_t reads_length, uint32_t client, uint32_t mask, uint16_t badge,
    const uint32_t *setpoints, size_t setpoints_length);

/* Begins a READ on tables known to be sound. */
/* UNCHECKED: the tables must be sound. Nothing checks a caller in another language: on other tables anything may happen. */
uint32_t store_begin_read_unchecked(
    uint32_t *counts, size_t counts_length, uint32_t *clients, size_t clients_length, uint32_t *links, size_t links_length,
    const uint32_t *keys, size_t keys_length, const uint32_t *values, size_t values_length, const uint32_t *log, size_t log_length,
    const uint32_t *writes, size_t writes_length, uint32_t *reads, size_t reads_length, uint32_t client, uint32_t mask);

/* Delivers a request on tables known to be sound. */
/* UNCHECKED: the tables must be sound. Nothing checks a caller in another language: on other tables anything may happen. */
uint32_t store_deliver_request_unchecked(
    uint32_t *counts, size_t counts_length, const uint32_t *clients, size_t clients_length, uint32_t *links, size_t links_length,
    uint32_t *keys, size_t keys_length, uint32_t *values, size_t values_length, uint32_t *log, size_t log_length, uint32_t *writes,
    size_t writes_length, const uint32_t *reads, size_t reads_length, uint32_t client, uint32_t target);

/* Delivers a reply on tables known to be sound. */
/* UNCHECKED: the tables must be sound. Nothing checks a caller in another language: on other tables anything may happen. */
setpoint_crossing store_deliver_reply_unchecked(
    uint32_t *counts, size_t counts_length, uint32_t *clients, size_t clients_length, uint32_t *links, size_t links_length,
    const uint32_t *keys, size_t keys_length, const uint32_t *values, size_t values_length, const uint32_t *log, size_t log_length,
    uint32_t *writes, size_t writes_length, uint32_t *reads, size_t reads_length, uint32_t client, uint32_t target);

/* Loses what a link holds, on tables known to be sound. */
/* UNCHECKED: the tables must be sound. Nothing checks a caller in another language: on other tables anything may happen. */
uint32_t store_lose_unchecked(
    uint32_t *counts, size_t counts_length, const uint32_t *clients, size_t clients_length, uint32_t *links, size_t links_length,
    const uint32_t *keys, size_t keys_length, const uint32_t *values, size_t values_length, const uint32_t *log, size_t log_length,
    const uint32_t *writes, size_t writes_length, const uint32_t *reads, size_t reads_length, uint32_t client, uint32_t target);

/* Sends again what was lost on a link, on tables known to be sound. */
/* UNCHECKED: the tables must be sound. Nothing checks a caller in another language: on other tables anything may happen. */
uint32_t store_resend_unchecked(
    uint32_t *counts, size_t counts_length, const uint32_t *clients, size_t clients_length, uint32_t *links, size_t links_length,
    const uint32_t *keys, size_t keys_length, const uint32_t *values, size_t values_length, const uint32_t *log, size_t log_length,
    const uint32_t *writes, size_t writes_length, const uint32_t *reads, size_t reads_length, uint32_t client, uint32_t target);

/* Reads a frame: its message, and the entries at the front of the three lent slices. */
setpoint_parts frame_read(
    const uint8_t *bytes, size_t bytes_length, uint32_t *keys, size_t keys_length, uint32_t *badges, size_t badges_length,
    uint32_t *numbers, size_t numbers_length);

/* Writes the message of these numbers: its length, or a refusal. A number that is no kind names no message, and gives 11. */
uint64_t frame_write(
    uint32_t kind, uint8_t client, uint8_t server, uint8_t tag, uint8_t count, uint8_t owner, uint16_t badge, uint32_t number,
    uint32_t entries, const uint32_t *keys, size_t keys_length, const uint32_t *badges, size_t badges_length, const uint32_t *numbers,
    size_t numbers_length, uint8_t *bytes, size_t bytes_length);

/* Writes the frame of the link of a client and a target into the lent bytes. */
uint64_t wire_write_link_frame(
    const uint32_t *counts, size_t counts_length, const uint32_t *clients, size_t clients_length, const uint32_t *links,
    size_t links_length, const uint32_t *keys, size_t keys_length, const uint32_t *values, size_t values_length, const uint32_t *log,
    size_t log_length, const uint32_t *writes, size_t writes_length, const uint32_t *reads, size_t reads_length, uint32_t client,
    uint32_t target, uint8_t *bytes, size_t bytes_length);

/* Lists the register: its rows at the front of the lent list. */
uint64_t wire_list_register(
    const uint32_t *counts, size_t counts_length, const uint32_t *clients, size_t clients_length, const uint32_t *links,
    size_t links_length, const uint32_t *keys, size_t keys_length, const uint32_t *values, size_t values_length, const uint32_t *log,
    size_t log_length, const uint32_t *writes, size_t writes_length, const uint32_t *reads, size_t reads_length, uint32_t *list,
    size_t list_length);

/* The number behind a seed. */
uint32_t load_advance(uint32_t seed);

/* The next step of a load, and the seed behind it. */
setpoint_load_pick load_next_step(
    const uint32_t *counts, size_t counts_length, const uint32_t *clients, size_t clients_length, const uint32_t *links,
    size_t links_length, const uint32_t *keys, size_t keys_length, const uint32_t *values, size_t values_length, const uint32_t *log,
    size_t log_length, const uint32_t *writes, size_t writes_length, const uint32_t *reads, size_t reads_length, uint32_t seed);

/* Plays a load of a wanted length on the lent tables, and lists its steps in rows of four words: kind, client, mask or target, setpoint. */
setpoint_load_end load_play(
    uint32_t *counts, size_t counts_length, uint32_t *clients, size_t clients_length, uint32_t *links, size_t links_length, uint32_t *keys,
    size_t keys_length, uint32_t *values, size_t values_length, uint32_t *log, size_t log_length, uint32_t *writes, size_t writes_length,
    uint32_t *reads, size_t reads_length, uint32_t seed, uint32_t wanted, uint32_t *list, size_t list_length);

/* Compares two recordings, each the lengths of its frames and their bytes end to end: 0 where they agree; else 2^32, and below it client,
   target and the place on that link of the first difference; or 16, where a recording is none. */
uint64_t recordings_compare(
    const uint32_t *lengths, size_t lengths_length, const uint8_t *bytes, size_t bytes_length, const uint32_t *lengths2,
    size_t lengths2_length, const uint8_t *bytes2, size_t bytes2_length);

/* ---- The eight tables as one struct, and the functions on it. */

typedef struct {
    uint32_t *counts;
    size_t counts_length;
    uint32_t *clients;
    size_t clients_length;
    uint32_t *links;
    size_t links_length;
    uint32_t *keys;
    size_t keys_length;
    uint32_t *values;
    size_t values_length;
    uint32_t *log;
    size_t log_length;
    uint32_t *writes;
    size_t writes_length;
    uint32_t *reads;
    size_t reads_length;
} setpoint_tables;

/* The tables of k servers and p clients, laid one behind another in SETPOINT_TABLES_LENGTH(k, p) words. An opening writes what must stand
   in them. */
static inline setpoint_tables setpoint_tables_in(uint32_t *words, uint32_t k, uint32_t p) {
    setpoint_tables tables;
    tables.counts = words;
    tables.counts_length = SETPOINT_COUNTS_LENGTH(k, p);
    words += tables.counts_length;
    tables.clients = words;
    tables.clients_length = SETPOINT_CLIENTS_LENGTH(k, p);
    words += tables.clients_length;
    tables.links = words;
    tables.links_length = SETPOINT_LINKS_LENGTH(k, p);
    words += tables.links_length;
    tables.keys = words;
    tables.keys_length = SETPOINT_KEYS_LENGTH(k, p);
    words += tables.keys_length;
    tables.values = words;
    tables.values_length = SETPOINT_VALUES_LENGTH(k, p);
    words += tables.values_length;
    tables.log = words;
    tables.log_length = SETPOINT_LOG_LENGTH(k, p);
    words += tables.log_length;
    tables.writes = words;
    tables.writes_length = SETPOINT_WRITES_LENGTH(k, p);
    words += tables.writes_length;
    tables.reads = words;
    tables.reads_length = SETPOINT_READS_LENGTH(k, p);
    return tables;
}

static inline bool setpoint_store_sound(const setpoint_tables *tables) {
    return store_sound(
        tables->counts, tables->counts_length, tables->clients, tables->clients_length, tables->links, tables->links_length, tables->keys,
        tables->keys_length, tables->values, tables->values_length, tables->log, tables->log_length, tables->writes, tables->writes_length,
        tables->reads, tables->reads_length);
}

static inline uint32_t setpoint_store_open(
    setpoint_tables *tables, uint32_t method, uint32_t servers, uint32_t panels, const uint32_t *setpoints, size_t setpoints_length) {
    return store_open(
        tables->counts, tables->counts_length, tables->clients, tables->clients_length, tables->links, tables->links_length, tables->keys,
        tables->keys_length, tables->values, tables->values_length, tables->log, tables->log_length, tables->writes, tables->writes_length,
        tables->reads, tables->reads_length, method, servers, panels, setpoints, setpoints_length);
}

static inline uint32_t setpoint_store_begin_write(
    setpoint_tables *tables, uint32_t client, uint32_t mask, uint16_t badge, const uint32_t *setpoints, size_t setpoints_length) {
    return store_begin_write(
        tables->counts, tables->counts_length, tables->clients, tables->clients_length, tables->links, tables->links_length, tables->keys,
        tables->keys_length, tables->values, tables->values_length, tables->log, tables->log_length, tables->writes, tables->writes_length,
        tables->reads, tables->reads_length, client, mask, badge, setpoints, setpoints_length);
}

static inline uint32_t setpoint_store_begin_read(setpoint_tables *tables, uint32_t client, uint32_t mask) {
    return store_begin_read(
        tables->counts, tables->counts_length, tables->clients, tables->clients_length, tables->links, tables->links_length, tables->keys,
        tables->keys_length, tables->values, tables->values_length, tables->log, tables->log_length, tables->writes, tables->writes_length,
        tables->reads, tables->reads_length, client, mask);
}

static inline uint32_t setpoint_store_deliver_request(setpoint_tables *tables, uint32_t client, uint32_t target) {
    return store_deliver_request(
        tables->counts, tables->counts_length, tables->clients, tables->clients_length, tables->links, tables->links_length, tables->keys,
        tables->keys_length, tables->values, tables->values_length, tables->log, tables->log_length, tables->writes, tables->writes_length,
        tables->reads, tables->reads_length, client, target);
}

static inline setpoint_crossing setpoint_store_deliver_reply(setpoint_tables *tables, uint32_t client, uint32_t target) {
    return store_deliver_reply(
        tables->counts, tables->counts_length, tables->clients, tables->clients_length, tables->links, tables->links_length, tables->keys,
        tables->keys_length, tables->values, tables->values_length, tables->log, tables->log_length, tables->writes, tables->writes_length,
        tables->reads, tables->reads_length, client, target);
}

static inline uint32_t setpoint_store_lose(setpoint_tables *tables, uint32_t client, uint32_t target) {
    return store_lose(
        tables->counts, tables->counts_length, tables->clients, tables->clients_length, tables->links, tables->links_length, tables->keys,
        tables->keys_length, tables->values, tables->values_length, tables->log, tables->log_length, tables->writes, tables->writes_length,
        tables->reads, tables->reads_length, client, target);
}

static inline uint32_t setpoint_store_resend(setpoint_tables *tables, uint32_t client, uint32_t target) {
    return store_resend(
        tables->counts, tables->counts_length, tables->clients, tables->clients_length, tables->links, tables->links_length, tables->keys,
        tables->keys_length, tables->values, tables->values_length, tables->log, tables->log_length, tables->writes, tables->writes_length,
        tables->reads, tables->reads_length, client, target);
}

/* UNCHECKED: the tables must be sound. Nothing checks a caller in another language: on other tables anything may happen. */
static inline uint32_t setpoint_store_begin_write_unchecked(
    setpoint_tables *tables, uint32_t client, uint32_t mask, uint16_t badge, const uint32_t *setpoints, size_t setpoints_length) {
    return store_begin_write_unchecked(
        tables->counts, tables->counts_length, tables->clients, tables->clients_length, tables->links, tables->links_length, tables->keys,
        tables->keys_length, tables->values, tables->values_length, tables->log, tables->log_length, tables->writes, tables->writes_length,
        tables->reads, tables->reads_length, client, mask, badge, setpoints, setpoints_length);
}

/* UNCHECKED: the tables must be sound. Nothing checks a caller in another language: on other tables anything may happen. */
static inline uint32_t setpoint_store_begin_read_unchecked(setpoint_tables *tables, uint32_t client, uint32_t mask) {
    return store_begin_read_unchecked(
        tables->counts, tables->counts_length, tables->clients, tables->clients_length, tables->links, tables->links_length, tables->keys,
        tables->keys_length, tables->values, tables->values_length, tables->log, tables->log_length, tables->writes, tables->writes_length,
        tables->reads, tables->reads_length, client, mask);
}

/* UNCHECKED: the tables must be sound. Nothing checks a caller in another language: on other tables anything may happen. */
static inline uint32_t setpoint_store_deliver_request_unchecked(setpoint_tables *tables, uint32_t client, uint32_t target) {
    return store_deliver_request_unchecked(
        tables->counts, tables->counts_length, tables->clients, tables->clients_length, tables->links, tables->links_length, tables->keys,
        tables->keys_length, tables->values, tables->values_length, tables->log, tables->log_length, tables->writes, tables->writes_length,
        tables->reads, tables->reads_length, client, target);
}

/* UNCHECKED: the tables must be sound. Nothing checks a caller in another language: on other tables anything may happen. */
static inline setpoint_crossing setpoint_store_deliver_reply_unchecked(setpoint_tables *tables, uint32_t client, uint32_t target) {
    return store_deliver_reply_unchecked(
        tables->counts, tables->counts_length, tables->clients, tables->clients_length, tables->links, tables->links_length, tables->keys,
        tables->keys_length, tables->values, tables->values_length, tables->log, tables->log_length, tables->writes, tables->writes_length,
        tables->reads, tables->reads_length, client, target);
}

/* UNCHECKED: the tables must be sound. Nothing checks a caller in another language: on other tables anything may happen. */
static inline uint32_t setpoint_store_lose_unchecked(setpoint_tables *tables, uint32_t client, uint32_t target) {
    return store_lose_unchecked(
        tables->counts, tables->counts_length, tables->clients, tables->clients_length, tables->links, tables->links_length, tables->keys,
        tables->keys_length, tables->values, tables->values_length, tables->log, tables->log_length, tables->writes, tables->writes_length,
        tables->reads, tables->reads_length, client, target);
}

/* UNCHECKED: the tables must be sound. Nothing checks a caller in another language: on other tables anything may happen. */
static inline uint32_t setpoint_store_resend_unchecked(setpoint_tables *tables, uint32_t client, uint32_t target) {
    return store_resend_unchecked(
        tables->counts, tables->counts_length, tables->clients, tables->clients_length, tables->links, tables->links_length, tables->keys,
        tables->keys_length, tables->values, tables->values_length, tables->log, tables->log_length, tables->writes, tables->writes_length,
        tables->reads, tables->reads_length, client, target);
}

static inline uint64_t setpoint_wire_write_link_frame(
    const setpoint_tables *tables, uint32_t client, uint32_t target, uint8_t *bytes, size_t bytes_length) {
    return wire_write_link_frame(
        tables->counts, tables->counts_length, tables->clients, tables->clients_length, tables->links, tables->links_length, tables->keys,
        tables->keys_length, tables->values, tables->values_length, tables->log, tables->log_length, tables->writes, tables->writes_length,
        tables->reads, tables->reads_length, client, target, bytes, bytes_length);
}

static inline uint64_t setpoint_wire_list_register(const setpoint_tables *tables, uint32_t *list, size_t list_length) {
    return wire_list_register(
        tables->counts, tables->counts_length, tables->clients, tables->clients_length, tables->links, tables->links_length, tables->keys,
        tables->keys_length, tables->values, tables->values_length, tables->log, tables->log_length, tables->writes, tables->writes_length,
        tables->reads, tables->reads_length, list, list_length);
}

static inline setpoint_load_pick setpoint_load_next_step(const setpoint_tables *tables, uint32_t seed) {
    return load_next_step(
        tables->counts, tables->counts_length, tables->clients, tables->clients_length, tables->links, tables->links_length, tables->keys,
        tables->keys_length, tables->values, tables->values_length, tables->log, tables->log_length, tables->writes, tables->writes_length,
        tables->reads, tables->reads_length, seed);
}

static inline setpoint_load_end setpoint_load_play(
    setpoint_tables *tables, uint32_t seed, uint32_t wanted, uint32_t *list, size_t list_length) {
    return load_play(
        tables->counts, tables->counts_length, tables->clients, tables->clients_length, tables->links, tables->links_length, tables->keys,
        tables->keys_length, tables->values, tables->values_length, tables->log, tables->log_length, tables->writes, tables->writes_length,
        tables->reads, tables->reads_length, seed, wanted, list, list_length);
}

/* The refusal in the answer of a function that returns a length or parts (of parts the head), or 0 where it refuses nothing. */
static inline uint32_t setpoint_refusal(uint64_t answer) {
    return answer > SETPOINT_REFUSED(256) ? (uint32_t)(SETPOINT_REFUSED(0) - answer) : 0;
}

/* The numbers of a frame that frame_read has taken apart; what its kind lacks is 0. The key is count and owner, the number the setpoint or
   the mask, and entries is how many stand in the lent slices. */
static inline uint8_t setpoint_frame_kind(setpoint_parts parts) { return (uint8_t)(parts.head >> 56); }
static inline uint8_t setpoint_frame_client(setpoint_parts parts) { return (uint8_t)(parts.head >> 48); }
static inline uint8_t setpoint_frame_server(setpoint_parts parts) { return (uint8_t)(parts.head >> 40); }
static inline uint8_t setpoint_frame_tag(setpoint_parts parts) { return (uint8_t)(parts.head >> 32); }
static inline uint8_t setpoint_frame_count(setpoint_parts parts) { return (uint8_t)(parts.head >> 24); }
static inline uint8_t setpoint_frame_owner(setpoint_parts parts) { return (uint8_t)(parts.head >> 16); }
static inline uint16_t setpoint_frame_badge(setpoint_parts parts) { return (uint16_t)(parts.head); }
static inline uint32_t setpoint_frame_entries(setpoint_parts parts) { return (uint32_t)(parts.tail >> 32); }
static inline uint32_t setpoint_frame_number(setpoint_parts parts) { return (uint32_t)parts.tail; }

/* What recordings_compare names, from SETPOINT_DIFFER on: a link, and the place on it of the first difference. */
static inline uint8_t setpoint_differing_client(uint64_t answer) { return (uint8_t)((answer - SETPOINT_DIFFER) / 65536 / 256); }
static inline uint8_t setpoint_differing_target(uint64_t answer) { return (uint8_t)((answer - SETPOINT_DIFFER) / 65536 % 256); }
static inline uint32_t setpoint_differing_place(uint64_t answer) { return (uint32_t)((answer - SETPOINT_DIFFER) % 65536); }

#ifdef __cplusplus
}
#endif

#endif
