/* The C interface of libyagbolshen, a proved model of the SpiNNaker router.
 *
 * Every function takes any input and answers, or refuses with a number: `refusal` is 0 for an accepted call, and a
 * refused one answers zeros in every other field but `place` and leaves lent memory as it came; a replay, which is many
 * calls, says what it does instead. A slice is a pointer and a count; an empty one may be NULL. Memory that is lent to be
 * written overlaps no other memory lent to the same call. Nothing is kept between calls. A phase is a code, and phases
 * follow each other as 0, 1, 3, 2.
 *
 *  1  source 6 or above 7                   7  width or height not 1 to 12, or rounds in a phase not 1 to 65,535
 *  2  packet length not 5 or 9              8  mesh buffer too short on opening, or later not holding a mesh
 *  4  nearest neighbour packet with T = 1   9  chip, link, counter or place in flight not there
 *  6  phase above 3, ready set above 63,   10  log shorter than six numbers per packet in flight (injection: six)
 *     monitor above 19, or a field out of  11  P2P table of wrong size, or a code above 7
 *     range in packing
 * 12  record of a trace cut short
 * 13  record with an empty body, or of a version other than 1
 * 14  record of no kind 1 to 4, of a length that is not its kind's, or with a link state above 1; in writing, a call
 *     that cannot be kept as it is
 * 15  bad starts: not one more than chips, the first not 0, one below the one before it, or the last not the number of
 *     rows
 * 16  over 1,024 rows for a chip, or over 16,384 that are to be made fewer
 * 17  a row with route bit 26 to 31 set, or not whole rows
 * 18  a fixed route with bit 26 to 31 set, or another number of them than chips
 * 19  the source or another chip of a tree off the mesh
 * 20  a chip of a tree named twice, or a processor set that is empty or has a bit above 19
 * 21  a key bit outside the mask
 * 26  room for fewer rows than one a chip, or starts that are not one more than chips
 * 27  room shorter than the record to be written
 * 28  room for fewer rows, or for fewer numbers of rows, than there are
 * 29  room for groups that is lent, under 257 numbers plus 256 for each row of the longest table
 *
 * For 15 to 18 `place` is the first place where it is so, and for every other number, 0 too, it is 0:
 * 15  the position among the starts: 0 if their number is wrong or the first is not 0, p if the start at p is below the
 *     one before it, the number of chips if the last is not the number of rows
 * 16  the chip; 0 where one table is lent
 * 17  the number of the row in the slice that is lent, from 0, over all chips; words past the last whole row are the row
 *     after it, and 15 and 16 do not count them
 * 18  the chip; 0 where one route is lent, or where their number is wrong
 * The numbers go before the places: a bad start at the end comes before a bad route in row 0.
 */
#ifndef YAGBOLSHEN_H
#define YAGBOLSHEN_H

#include <stddef.h>
#include <stdint.h>
#ifndef __cplusplus
#include <stdbool.h>
#endif

/* Raised with each change that a caller can see; 2 brings kept traces, 3 has a row match by its key itself,
 * 4 brings fixed-route packets, 5 has registers say where, when and how many, 6 brings P2P codes by flooding,
 * 7 makes tables fewer rows, 8 says of bad tables which start, chip, row or fixed route it is: 15 to 18, with a place,
 * 9 grows multicast trees, 10 lends room to pass, inject, round and replay, by which lookups skip rows, 11 writes that
 * room only where groups are built. */
#define YAGBOLSHEN_VERSION 11

/* The refusals by name. */
#define YB_ACCEPTED 0
#define YB_NO_SOURCE 1      /* source 6 or above 7 */
#define YB_PACKET_LENGTH 2
#define YB_DIRECT 4         /* nearest neighbour packet with T = 1 */
#define YB_RANGE 6          /* phase, ready set, monitor or a packet's field */
#define YB_SIZE 7           /* width, height or rounds in a phase */
#define YB_NO_MESH 8
#define YB_NOT_THERE 9      /* chip, link, counter or place */
#define YB_LOG_ROOM 10
#define YB_CODES 11
#define YB_CUT_SHORT 12
#define YB_RECORD_VERSION 13
#define YB_RECORD 14
#define YB_STARTS 15
#define YB_MANY_ROWS 16     /* over 1,024 for a chip; over 16,384, to be made fewer */
#define YB_ROUTE 17         /* a row's route, or not whole rows */
#define YB_FIXED_ROUTE 18   /* a fixed route, or how many there are */
#define YB_OFF_MESH 19      /* a tree's source, or another chip of it */
#define YB_TARGET 20        /* a chip named twice, or its processor set */
#define YB_KEY 21           /* a key bit outside the mask */
#define YB_TREE_ROOM 26     /* for rows, or how many starts there are */
#define YB_NO_ROOM 27
#define YB_FEWER_ROOM 28
#define YB_GROUPS_ROOM 29   /* for rows in groups by the top byte of the key */

/* Links lead from a chip at x, y to x + 1 east, y + 1 north, both north-east, and back; the mesh wraps. What is sent by
 * link i arrives by link (i + 3) % 6. A source of 7 is the chip itself. */
#define YB_EAST 0
#define YB_NORTH_EAST 1
#define YB_NORTH 2
#define YB_WEST 3
#define YB_SOUTH_WEST 4
#define YB_SOUTH 5
#define YB_LOCAL 7

/* A route has bits 0 to 5 for links and 6 to 25 for processors 0 to 19. */
#define YB_TO_LINK(link) ((uint32_t)1 << (link))
#define YB_TO_PROCESSOR(processor) ((uint32_t)1 << (6 + (processor)))

/* The control byte: bits 7:6 the kind; multicast has its mark in bits 5:4 (0 normal, 1 normal and emergency, 2 emergency,
 * 3 second leg), point-to-point its sequence there, both their stamp in bits 3:2; nearest neighbour has T in bit 5 and its
 * route in bits 4:2 (a link, 6 all links, 7 the monitor); fixed-route is as multicast. Bit 1 says that a payload follows. Bit 0 is parity: all bits of a
 * packet together hold an odd number of ones. */
#define YB_KIND(control) ((control) >> 6 & 3)
#define YB_MARK(control) ((control) >> 4 & 3)
#define YB_STAMP(control) ((control) >> 2 & 3)
#define YB_CARRIES 2
#define YB_PARITY 1

/* The six words of a log record. A chip's log records come one for each pass that reached a processor. */
#define YB_LOG_CHIP 0
#define YB_LOG_PROCESSORS 1 /* bit k for processor k */
#define YB_LOG_ERRORS 2     /* 1 parity, 2 age, 4 length, 8 bad local, added */
#define YB_LOG_CONTROL 3
#define YB_LOG_WORD 4
#define YB_LOG_PAYLOAD 5
#define YB_LOG_WORDS 6

/* The ten counters of a chip, each modulo 4,294,967,296. */
#define YB_PASSES 0
#define YB_PARITY_ERRORS 1
#define YB_AGE_ERRORS 2
#define YB_LENGTH_ERRORS 3
#define YB_BAD_LOCAL 4
#define YB_SENT 5
#define YB_DELIVERED 6
#define YB_DROPPED 7
#define YB_SWALLOWED 8
#define YB_LOCAL_MISSES 9

#ifdef __cplusplus
extern "C" {
#endif

/* nine: 1 for nine bytes, 0 for five; the payload is then 0. */
typedef struct {
    uint32_t control, nine, word, payload;
} yb_packet;

/* kind: 0 multicast, 1 point-to-point, 2 nearest neighbour, 3 fixed-route, which has the fields of multicast. A field that the
 * kind lacks is 0: all but point-to-point have `word`, point-to-point has the IDs `source` and `destination` (x * 256 + y). `carries` is bit 1 of the
 * control byte and need not agree with `nine`. */
typedef struct {
    uint32_t kind, mark, sequence, stamp, direct, route, carries, parity, nine, word, source, destination, payload;
} yb_fields;

/* The first dropped unit: `link` is a number, `leg` is 1 for a second leg, `source` is where it came in (0 to 5 a link, 7
 * local), `phase` the phase code at that pass. `units` is the number of units dropped since the last read, this one and
 * second legs among them, stopping at 65,535, and `more` is 1 if it is above 1. All are 0 where nothing was dropped. */
typedef struct {
    uint32_t control, word, payload, link, leg, more, source, phase, units;
} yb_registers;

/* As YB_PASSES to YB_LOCAL_MISSES name them. */
typedef struct {
    uint32_t count[10];
} yb_counters;

typedef struct {
    uint32_t refusal;
    yb_fields fields;
} yb_read;

/* Bytes past `length` are 0. */
typedef struct {
    uint32_t refusal, length;
    uint8_t bytes[9];
} yb_packed;

typedef struct {
    uint32_t refusal;
    uint32_t errors;        /* 1 parity, 2 age, 4 length, 8 bad local, added */
    uint32_t wanted;        /* route bits 0 to 5 for links, 6 to 25 for processors; the monitor alone for an error */
    uint32_t sent;          /* links that send a packet, second leg apart: bit i for link i */
    uint32_t dropped;       /* links dropped for, second leg apart */
    uint32_t leg_sent;      /* the link that sends the second leg, as a bit, or 0 */
    uint32_t leg_dropped;   /* the link that the second leg is dropped at, as a bit, or 0 */
    uint32_t processors;    /* bit k for processor k */
    yb_packet delivered;    /* what the processors get; zeros where there are none */
    yb_packet packets[6];   /* what link i sends, second leg apart; zeros where it sends nothing */
    yb_packet leg;          /* the second leg as sent; zeros where none is */
    yb_registers registers; /* begun from zeros */
    yb_counters counters;   /* begun from zeros */
    uint32_t place;         /* the row that 17 is about, and 0 else */
} yb_pass;

/* One row of a table in structs. */
typedef struct {
    uint32_t key, mask, route;
} yb_row;

/* found: 1 where a row matches, else 0 and zeros; `row` is its number, from 0. */
typedef struct {
    uint32_t found, row, route;
} yb_found;

typedef struct {
    uint32_t refusal, words;
} yb_size;

/* place: the start, chip or row that 15 to 18 is about, and 0 else */
typedef struct {
    uint32_t refusal, added, place;
} yb_added;

typedef struct {
    uint32_t refusal;
    yb_registers registers;
} yb_registers_read;

typedef struct {
    uint32_t refusal, count;
} yb_count;

typedef struct {
    uint32_t refusal, width, height, rounds_per_phase, monitor, phase, rounds_in_phase, in_flight;
} yb_mesh;

/* held: packets in flight on the directed link */
typedef struct {
    uint32_t refusal, up, held, ready;
} yb_link;

typedef struct {
    uint32_t refusal;
    yb_packet packet;
} yb_flight;

/* One call as a trace keeps it. kind: 1 injection, with chip and packet; 2 round; 3 link change, with chip, link and
 * `up`, which is 1 or 0; 4 read of error registers, with chip. `length`, 5 or 9, and `bytes` are the packet's. A
 * field that the kind lacks is 0, and so are bytes past `length`. */
typedef struct {
    uint32_t kind, chip, link, up, length;
    uint8_t bytes[9];
} yb_call;

/* length: the bytes of the record, its two length bytes among them */
typedef struct {
    uint32_t refusal;
    size_t length;
} yb_written;

/* length: as in yb_written */
typedef struct {
    uint32_t refusal;
    size_t length;
    yb_call call;
} yb_record;

/* at: where the replay stopped, which is the first byte of the record that was refused, or the length of the trace
 * where none was. added: the log records of all calls that were made. Both are given beside a refusal too. place: that of
 * the call that was refused, as in yb_added. */
typedef struct {
    uint32_t refusal;
    size_t at, added;
    uint32_t place;
} yb_replayed;

/* rows: how many are left. gone: how many numbers are listed; both together are the rows that went in. place: the row
 * that 17 is about, from 0, and 0 else; words past the last whole row are the row after it. */
typedef struct {
    uint32_t refusal, rows, gone, place;
} yb_fewer;

/* rows: how many were written, over all chips */
typedef struct {
    uint32_t refusal, rows;
} yb_tree;

/* Reads the bytes of a packet into fields. Refuses 2. */
yb_read yagbolshen_read(const uint8_t *packet, size_t packet_len);

/* Packs fields into the bytes of a packet; reading and packing undo each other. The parity bit is a field like the others:
 * packing takes it as it is given and sets nothing right. Refuses 6. */
yb_packed yagbolshen_pack(yb_fields fields);

/* Passes one packet through one router. `source` is the link 0 to 5 that it came by, or 7 for a local one. `rows` has
 * three words a row: key, mask, route; `rows_len` counts words. `codes` has one P2P code for each of the width * height
 * chips, at y * width + x. `monitor` is the number of the processor that watches the chip, 0 to 19; `ready` has bit i for
 * link i; `fixed` is the route of the chip's fixed-route packets. Of `room` the length alone counts, and it stays as it
 * came: groups never pay for one packet. Refuses 7, 6, 16, 17, 18, 11, 29, 1, 2, 4, the first that applies. */
yb_pass yagbolshen_pass(const uint8_t *packet, size_t packet_len, uint32_t source, uint32_t width, uint32_t height,
                        const uint32_t *rows, size_t rows_len, const uint8_t *codes, size_t codes_len,
                        uint32_t monitor, uint32_t phase, uint32_t ready, uint32_t fixed, uint32_t *room,
                        size_t room_len);

/* Finds the first row that takes a key: key AND mask is the row's key itself, so that a row with a key bit outside its mask
 * takes none. `rows_len` counts rows. Takes any number of rows and any routes, and never refuses; the number of a row past
 * 4,294,967,295 is given modulo 4,294,967,296. */
yb_found yagbolshen_find(const yb_row *rows, size_t rows_len, uint32_t key);

/* A mesh lives in a buffer of 32-bit words that the caller lends to every call; words past the needed length are never
 * touched. Tables are lent to each injection, round and replay: `rows` has the rows of all chips, three words a row, and
 * `starts` the number of the row where each chip's rows start and, last, how many rows there are (width * height + 1
 * numbers); `codes` has width * height P2P codes for each chip, chip after chip; `fixed` has for each chip the route that
 * its fixed-route packets want, whatever their key (0 where they are to be swallowed). `log` takes six words for each pass that
 * hands a packet to a processor: chip, processor set, error flags, control byte, word, payload or 0. Chips are numbered
 * y * width + x; links 0 to 5 lead east, north-east, north, west, south-west, south.
 *
 * `room` is lent for groups, by which a lookup skips rows: those of a table grouped by the top byte of the key where the
 * mask fixes all of it, other rows in every group, in the order of the table. A `room_len` of 0, and the pointer may then be
 * NULL, is the plain search, row by row. Any other room under 257 numbers plus 256 for each row of the longest table (of one
 * chip) is refused by 29, after 11. Answers, mesh and log are the same with room and without. A round builds the groups that
 * the packets which arrive at a chip ask for, afresh and once for all of them, where that pays: for many packets and rows, few
 * of which are in these groups. What the room held before counts for nothing; what it holds after stands in docs/LAYOUT.md. A call that is
 * refused, an injection and a pass leave it as it came; a replay leaves it as the rounds that it made do. */

/* The words that a mesh needs. Refuses 7. */
yb_size yagbolshen_size(uint32_t width, uint32_t height);

/* Opens a mesh: links up, nothing in flight, registers and counters at zeros, phase 00. `monitor` is a processor, 0 to 19,
 * the same on every chip. Answers the refusal, or 0.
 * Refuses 7, 6, 8, the first that applies. */
uint32_t yagbolshen_open(uint32_t *mesh, size_t mesh_len, uint32_t width, uint32_t height, uint32_t rounds_per_phase,
                         uint32_t monitor);

/* Passes a local packet at a chip, at once, and answers how many log records were added. Refuses 8, 9, 15, 16, 17, 18,
 * 11, 29, 10, 2, 4, the first that applies. Of `room` the length alone counts, and it stays as it came. */
yb_added yagbolshen_inject(uint32_t *mesh, size_t mesh_len, uint32_t *log, size_t log_len, uint32_t chip,
                           const uint8_t *packet, size_t packet_len, const uint32_t *rows, size_t rows_len,
                           const uint32_t *starts, size_t starts_len, const uint8_t *codes, size_t codes_len,
                           const uint32_t *fixed, size_t fixed_len, uint32_t *room, size_t room_len);

/* Passes all that is in flight, once, and answers how many log records were added; after each `rounds_per_phase` rounds
 * the phase steps on. Refuses 8, 15, 16, 17, 18, 11, 29, 10, the first that applies. */
yb_added yagbolshen_round(uint32_t *mesh, size_t mesh_len, uint32_t *log, size_t log_len, const uint32_t *rows,
                          size_t rows_len, const uint32_t *starts, size_t starts_len, const uint8_t *codes,
                          size_t codes_len, const uint32_t *fixed, size_t fixed_len, uint32_t *room,
                          size_t room_len);

/* Takes one directed link of a chip up or down. Answers the refusal, or 0. Refuses 8, 9, the first that applies. */
uint32_t yagbolshen_set_link(uint32_t *mesh, size_t mesh_len, uint32_t chip, uint32_t link, bool up);

/* Hands over a chip's error registers and empties them. Refuses 8, 9, the first that applies. */
yb_registers_read yagbolshen_read_registers(uint32_t *mesh, size_t mesh_len, uint32_t chip);

/* One of a chip's ten counters, in the order of yb_counters. Refuses 8, 9, the first that applies. */
yb_count yagbolshen_read_counter(const uint32_t *mesh, size_t mesh_len, uint32_t chip, uint32_t counter);

/* The mesh's size, phase and monitor, and how many packets are in flight. Refuses 8. */
yb_mesh yagbolshen_mesh(const uint32_t *mesh, size_t mesh_len);

/* One directed link of a chip: whether it is up, how many packets it holds, whether it is ready. Refuses 8, 9, the first
 * that applies. */
yb_link yagbolshen_link(const uint32_t *mesh, size_t mesh_len, uint32_t chip, uint32_t link);

/* The packet at a place of a directed link of a chip, place 0 the oldest. Refuses 8, 9, the first that applies; 9
 * also where the link holds none at that place. */
yb_flight yagbolshen_flight(const uint32_t *mesh, size_t mesh_len, uint32_t chip, uint32_t link, uint32_t place);

/* A trace keeps calls on a mesh as records, one after another. A record is the length of its body in two bytes, then
 * the body: a version byte 1, a kind byte, and for an injection two bytes of chip and the packet, for a link change
 * two bytes of chip, the link and 1 for up or 0 for down, for a read of error registers two bytes of chip. All
 * numbers are big-endian. What a mesh would say of the call is asked neither in writing nor in reading: link 200 is
 * written and read. */

/* Writes a call as a record, at the start of the room that is lent; bytes past the record stay as they were. Refuses
 * 14, 27, the first that applies: 14 exactly where the kind is not 1 to 4, an injection's packet length is not 5 or
 * 9, the chip is above 65,535, the link above 255, `up` above 1, or where a field that the kind lacks, or a byte
 * past `length`, is not 0. */
yb_written yagbolshen_write_record(uint8_t *trace, size_t trace_len, yb_call call);

/* Reads the record at the start of a trace. Refuses 12, 13, 14, the first that applies; an empty trace is 12. */
yb_record yagbolshen_read_record(const uint8_t *trace, size_t trace_len);

/* Reads the records of a trace one after another and makes their calls on the mesh, each with the rest of the log,
 * and stops at the first refusal. What earlier records did stands, and the call that was refused changes neither
 * mesh nor log nor room. Refuses a record by 12, 13, 14, the first that applies, and then by what its call refuses, in the call's
 * own order: an injection 8, 9, 15, 16, 17, 18, 11, 29, 10, 4, a round 8, 15, 16, 17, 18, 11, 29, 10, a link change and a
 * read of registers 8, 9. Tables and room are looked at by records that pass packets alone. A trace of no bytes makes no call
 * and is accepted, whatever is lent with it. Registers that a replay reads are emptied, and handed to nobody. */
yb_replayed yagbolshen_replay(uint32_t *mesh, size_t mesh_len, uint32_t *log, size_t log_len, const uint8_t *trace,
                              size_t trace_len, const uint32_t *rows, size_t rows_len, const uint32_t *starts,
                              size_t starts_len, const uint8_t *codes, size_t codes_len, const uint32_t *fixed,
                              size_t fixed_len, uint32_t *room, size_t room_len);

/* Writes all P2P codes of a mesh, width * height for each chip, chip after chip, as injection, round and replay take them;
 * what the room held before does not count. A chip's code for itself is 7, even with all its links down; for a chip that
 * no way leads to over links that are up, 6; else the lowest link that begins a way of fewest links. A link counts as up
 * or down in its own direction, whatever it holds. With these codes, the links as they are and room on them, a P2P
 * packet without error crosses the fewest links possible, if that number is at most `rounds_per_phase`. Answers the
 * refusal, or 0. Refuses 8, 11, the first that applies; 11 where `codes_len` is not the square of width * height. */
uint32_t yagbolshen_flood(const uint32_t *mesh, size_t mesh_len, uint8_t *codes, size_t codes_len);

/* Makes the rows of one table fewer, up to 16,384 of them, three words each; every key gets the same route from what is left,
 * or none as before. A row that matches no key goes, and one whose keys one earlier row matches all; two neighbouring rows with
 * equal mask and route, whose keys differ in one bit of the mask, become one without that bit. Taking out comes before joining,
 * the topmost first, until neither can be done. `left` gets the rows that are left, `gone` the numbers that the others first had,
 * from 0, in the order in which they went, of two that became one the lower's; words past both stay as they were. `left_len`
 * is at least `rows_len`, and `gone_len` the number of rows. Refuses 16, 17, 28, the first that applies. The time may grow with
 * the square of the rows; the stack that it takes is a little over 256 KiB, whatever is lent. */
yb_fewer yagbolshen_fewer(const uint32_t *rows, size_t rows_len, uint32_t *left, size_t left_len, uint32_t *gone,
                          size_t gone_len);

/* Grows the tree by which a multicast packet goes from a source chip to the processors of a list of chips, and writes its
 * rows, all with one key and mask. `targets` has two words for each chip of the list, its number and its processor set (bit
 * k for processor k); `targets_len` counts words. A list of none is accepted, and the source may be in the list. A way goes
 * by signed steps east and north, with the fewest links over all ways round the mesh: by its diagonal links first, then east
 * or west, then north or south; of equal ways the one with the larger signed count east, then north, is taken. Chips go in
 * list order, and only the part of a way after its last chip that the tree so far has is added. The source always gets a
 * row; a chip with no processors, left by the link of the same number as the one it was sent by and no other, gets none.
 * `rows` and `starts` are written as injection, round and replay take them, where `rows_len` is three times the number of
 * rows that is answered; words of `rows` past those stay as they were. With only these rows, all links up, nothing else in
 * flight and the tree at most `rounds_per_phase` links deep, one matching packet, injected at the source without error,
 * reaches each named processor exactly once and no other, and nothing is dropped. The room for rows is at least three words
 * a chip, and `starts_len` one more than chips. Refuses 7, 19, 20, 21, 26, the first that applies: a 19 at the end of the
 * list comes before a 20 at its start. A word past the last pair is a chip with no processors: 19 where it is off the mesh,
 * else 20. */
yb_tree yagbolshen_tree(uint32_t width, uint32_t height, uint32_t source, uint32_t key, uint32_t mask,
                        const uint32_t *targets, size_t targets_len, uint32_t *rows, size_t rows_len, uint32_t *starts,
                        size_t starts_len);

/* All that is lent with the tables, as one struct, and the calls that take it. A further table is one more field at the end.
 * Room for groups is lent with them; where the struct's last two fields are left out, it is NULL and 0, which is none. */
#ifndef YAGBOLSHEN_WITHOUT_INLINE
typedef struct {
    const uint32_t *rows;
    size_t rows_len;
    const uint32_t *starts;
    size_t starts_len;
    const uint8_t *codes;
    size_t codes_len;
    const uint32_t *fixed;
    size_t fixed_len;
    uint32_t *room;
    size_t room_len;
} yb_tables;

static inline yb_added yb_inject(uint32_t *mesh, size_t mesh_len, uint32_t *log, size_t log_len, uint32_t chip,
                                 const uint8_t *packet, size_t packet_len, const yb_tables *tables) {
    return yagbolshen_inject(mesh, mesh_len, log, log_len, chip, packet, packet_len, tables->rows, tables->rows_len,
                             tables->starts, tables->starts_len, tables->codes, tables->codes_len, tables->fixed,
                             tables->fixed_len, tables->room, tables->room_len);
}

static inline yb_added yb_round(uint32_t *mesh, size_t mesh_len, uint32_t *log, size_t log_len,
                                const yb_tables *tables) {
    return yagbolshen_round(mesh, mesh_len, log, log_len, tables->rows, tables->rows_len, tables->starts,
                            tables->starts_len, tables->codes, tables->codes_len, tables->fixed, tables->fixed_len,
                            tables->room, tables->room_len);
}

static inline yb_replayed yb_replay(uint32_t *mesh, size_t mesh_len, uint32_t *log, size_t log_len,
                                    const uint8_t *trace, size_t trace_len, const yb_tables *tables) {
    return yagbolshen_replay(mesh, mesh_len, log, log_len, trace, trace_len, tables->rows, tables->rows_len,
                             tables->starts, tables->starts_len, tables->codes, tables->codes_len, tables->fixed,
                             tables->fixed_len, tables->room, tables->room_len);
}
#endif

#ifdef __cplusplus
}
#endif

#endif
