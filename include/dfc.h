/* dfc.h: Plaivoreh's call-routing core for C programs.
 *
 * The archive libdfc.a (made by host/build, for x86-64 Linux) has the functions of plans, setups, routing and calls. Those of links, of the
 * index of a plan and of operational data are in archives of their own, named with them below. Each function is proved to give exactly
 * the answer that documents 01 and 02 give, with the byte forms and numbers below, for any bytes and any numbers: no call crashes, hangs, allocates, keeps state between calls
 * or looks at memory that it was not lent.
 *
 * MEMORY. The caller owns all of it. A function reads and writes only what is lent to it, for as long as the call lasts, and keeps
 * nothing. A run of bytes is lent as a pointer and a length; a pointer may be anything but null, also where the length is 0.
 * Memory that a function may write (a parameter without const) must not overlap any other that is lent to the same call.
 * A refusal leaves all lent memory as it was.
 * STACK. Have 256 kB of stack free for a call.
 * THREADS. Calls may run at the same time, unless one may write memory that another is lent; a plan that several only read is fine.
 *
 * ANSWERS. number 0: accepted, and value is what the function says. Any other number is a refusal of documents 01 and 02:
 *    1  feature box whose type does not exist          9  an address argument above 999,999,999
 *    2  a box that may not make this setup            18  a list shorter than 32
 *    3  the box's address: not in the plan, or not    20  plan file cut short, or bytes after its end
 *       of that kind                                  21  a tag not allowed here
 *    4  reversed by a type that is not reversible     22  a length that the tag never has
 *    5  setup not well formed, bytes that are no      23  a rule of the plan is broken
 *       setup, or continued from no list              24  the 257th subscriber
 *    6  continued: the setup's routing address is    25  room too short for the plan file (place 0; 6,436
 *       not the box's                                     bytes are always enough)
 *    7  string too long, or with another symbol
 *    8  the new routing address is the box's own
 * and of calls:
 *   10  no such call: past the row, free, or of       14  nothing waits there
 *       another use                                   15  not an ordinary signal
 *   11  no free record                                16  a row of more than 1,024 records
 *   12  the end's state forbids it                    17  a broken record: a count above 16, a signal that the
 *   13  14 signals or more wait there already             end or its channel can't take, or no room for the
 *                                                         signals sent
 *   40  open: tunnel 0, a used one, or the other       41  the channel's state forbids it; or oack to closeack
 *       side's to open                                     in tunnel 0
 * 45, 46 and 47, of the index of a plan, and 80, 81 and 82, of links, stand with their functions below.
 * and of operational data:
 *   70  closed to this box, or absent                 71  no room for one more data row
 * For 20 to 25 value is the place: in a plan file the first byte of the field, counted from 0, or of what follows the end field. For the others it is 0.
 * Of several refusals the plan file's comes first, then the lowest number; routing has 5 before 18, placing 5, 18, 16, 11; links have
 * 82, 80, 81; a command has 16, 10, then 17 for a count, 12, 15, 40, 41, 13, 14, and 17 for the rest.
 *
 * EXAMPLE (host/example.c is a whole program that does this):
 *
 *    uint8_t sent[DFC_SETUP], got[DFC_SETUP], source[32], target[32];
 *    dfc_answer a = dfc_new(plan, plan_size, DFC_LINE, 0, 200, (const uint8_t *)"300", 3, 0, sent);
 *    if (a.number != 0) return refused(a.number);
 *    dfc_routed r = dfc_route(plan, plan_size, sent, DFC_SETUP, source, 32, target, 32, got);
 *    if (r.number == 0) printf("type %llu at %llu, %llu left\n", r.box_number, r.address, r.value);
 *
 *    uint8_t row[8 * DFC_CALL];
 *    dfc_clear(row, sizeof row);
 *    dfc_placed c = dfc_place(plan, plan_size, sent, DFC_SETUP, row, sizeof row, source, 32, target, 32, got);
 *    if (c.number != 0) return refused(c.number);
 *    dfc_command(row, sizeof row, c.record_number, c.use_number, DFC_ACCEPT, 0, 0, 0, 0);
 *    dfc_commanded d = dfc_command(row, sizeof row, c.record_number, c.use_number, DFC_DELIVER, DFC_CALLER, 0, 0, 0);
 *    if (d.delivered) printf("the caller is handed signal %llu\n", d.signal);
 */
#ifndef DFC_H
#define DFC_H
#include <stddef.h>
#include <stdint.h>
#ifdef __cplusplus
extern "C" {
#endif

/* Kinds of box, as a maker of setups and as the box that a setup is routed to. */
enum { DFC_FEATURE = 0, DFC_LINE = 1, DFC_TRUNK = 2, DFC_RESOURCE = 3, DFC_ERROR = 4 };
/* Regions. */
enum { DFC_SOURCE = 0, DFC_TARGET = 1 };

/* A setup is 110 bytes: tagged fields, a tag of one byte, a length of two, numbers high byte first.
 *    offset  tag length  body
 *         0    1      1  region: 1 source, 2 target
 *         4    2      4  source address
 *        11    3      4  target address
 *        18    4      1  route: 1 whole, 2 suffix, 3 a list
 *        22    5      2  placing type: 0 0 for none, or 1 and the type
 *        27    6      5  outer address: 0 and 0 for none, or 1 and the address
 *        35    7     33  the string: how many symbols (0 to 32), then 32 places, as ASCII 0-9 * #
 *        71    8     33  the list: how many types (0 to 32), then 32 places
 *       107  127      0
 * What stands in a place past a string's or list's length does not count, nor does the list's body where the route is not a list; its tag and
 * length still do. Setups made here have 0 there.
 * Anything else counts as a malformed setup: refusal 5, unless an earlier refusal applies. */
#define DFC_SETUP 110

typedef struct {
    uint64_t number; /* 0, or the refusal */
    uint64_t value;  /* as each function says; or the refusal's place */
} dfc_answer;

typedef struct {
    uint64_t number;     /* 0, or the refusal */
    uint64_t value;      /* how many types are left in the setup received; or the refusal's place */
    uint64_t kind;       /* of the callee box: DFC_FEATURE .. DFC_ERROR; 0 for a refusal */
    uint64_t box_number; /* a feature box's type, an interface box's number, 0 for the error box */
    uint64_t address;    /* the address of the box; of the error box, the address that leads to it */
} dfc_routed;

/* Whether these bytes are a plan file. value 0. Refusals 20 to 24. */
dfc_answer dfc_check(const uint8_t *file, size_t file_size);

/* The plan of a file written again into the room; value: how many bytes. The bytes of the room past them stay. Refusals 20 to 25. */
dfc_answer dfc_write(const uint8_t *file, size_t file_size, uint8_t *room, size_t room_size);

/* The zone of an address in a region (0 source, else target): types[0] to types[value - 1], and 0 in the places left.
 * An address that nobody has, and 0, have an empty zone. Refusals 20 to 24. */
dfc_answer dfc_zone(const uint8_t *file, size_t file_size, uint8_t region, uint32_t address, uint8_t types[32]);

/* A new setup by a box: kind DFC_FEATURE with its type and address, DFC_LINE or DFC_TRUNK with the source address it names; a resource
 * and the error box (any kind above 3) may make none. string has string_size symbols; target is 0 for none. value DFC_SETUP, and the setup in made.
 * Refusals 20 to 24, 1, 2, 3, 7, 9. */
dfc_answer dfc_new(const uint8_t *file, size_t file_size, uint8_t kind, uint8_t type, uint32_t address, const uint8_t *string,
                   size_t string_size, uint32_t target, uint8_t made[DFC_SETUP]);

/* A setup that the feature box received, continued. source, string and target are arguments, 0 or empty for none. value DFC_SETUP, and the setup in made.
 * No other kind of box may do this. Refusals 20 to 24, 1, 2, 3, 5 to 9. */
dfc_answer dfc_continued(const uint8_t *file, size_t file_size, uint8_t kind, uint8_t type, uint32_t address, const uint8_t *received,
                         size_t received_size, uint32_t source, const uint8_t *string, size_t string_size, uint32_t target,
                         uint8_t made[DFC_SETUP]);

/* A setup that the feature box once sent, reversed; otherwise as dfc_continued. Refusals 20 to 24, 1 to 5, 7, 8, 9. */
dfc_answer dfc_reversed(const uint8_t *file, size_t file_size, uint8_t kind, uint8_t type, uint32_t address, const uint8_t *sent,
                        size_t sent_size, uint32_t source, const uint8_t *string, size_t string_size, uint32_t target,
                        uint8_t made[DFC_SETUP]);

/* A setup routed: the callee box, and in received the setup that it gets. source_list and target_list, 32 bytes or more each, are given the
 * source's zone and the target's (of a setup without a target, that of the address its string embeds); their bytes past these stay.
 * Refusals 20 to 24, 5, 18. */
dfc_routed dfc_route(const uint8_t *file, size_t file_size, const uint8_t *sent, size_t sent_size, uint8_t *source_list,
                     size_t source_size, uint8_t *target_list, size_t target_size, uint8_t received[DFC_SETUP]);

/* ---- calls */

/* A call record is DFC_CALL bytes:
 *    offset
 *         0  the caller's state: 0 idle, 1 requesting, 2 waiting, 3 linked, 4 unlinking
 *         1  the callee's state
 *         2  the use number, high byte first
 *         4  how many signals wait for the caller (0 to 16), then 16 places of three bytes: signal, tunnel, code; the oldest first
 *        53  the same for the callee
 *       102  the caller's channels, 256 bytes: the state of its end of the channel in each tunnel; the byte of tunnel 0 is nobody's
 *       358  the same for the callee
 * A channel's states, as in manual 9.4: 0 unused, 1 opening (at the side that opens) or opened (at the other), 2 oacked or oacking, 3 readying or readied,
 * 4 closing, 5 closing2, 6 closing3, 7 closed, 8 ended. The caller opens the odd tunnels, the callee the even ones. The steps are those of the programs
 * printed there, and one of the house: a side that answered, is closing and is handed ready takes it and stays.
 * A record is free when both states are 0. A row is a run of records one after the other: size / DFC_CALL of them, counted from 0, at most 1,024;
 * bytes past the last whole record are never looked at or written. A port is one record. The memory is the caller's, and so is what stands in it:
 * any bytes are a record. A state above 4 stands for 4. A signal 0 is an empty place's and stands for DFC_UPACK; 1 and any number above DFC_CLOSEACK stand
 * for a DFC_DTMF without a symbol (code 255), which no end takes: its delivery is 17. A tunnel or code that a signal has none of does not count, nor does
 * a place past the count. A channel's byte above 8 is no state: nothing may be sent in that tunnel from there, and what is delivered there is 17.
 * Placing writes all bytes of the record that takes the call: 1, 2, the use number, and zeros. A command that is accepted writes only what it changes: the
 * acting end's state; for each signal sent, its three bytes in the place of the count, and the count one higher; for a delivery, the 15 later places of
 * the queue one place down, 0 0 0 in the last, and the count one lower; for a signal in a tunnel from 1 on, that tunnel's byte of the acting end's
 * channels, whether it sends the signal or is handed it. Every other byte stays, whatever it is; a refusal leaves all of them. An end that becomes idle
 * leaves its channels as they are.
 *
 * PROVED of the bytes that are lent, rows and ports (crates/rowbytes/specs/Operations.antt), for any calls of these functions, refused ones included:
 * after dfc_clear no refusal is 17; and for a call that was placed in a record, whatever its bytes were before,
 *    while an end isn't idle, some command for the call is accepted: accept, the caller's teardown or a delivery (no deadlock);
 *    what an end sent is what the other was handed, and after that what waits for it (first in, first out);
 *    what waits first for an end is fit for its channel there;
 *    after the first teardown the call closes in as many deliveries as document 01's third demand says, and until then some delivery is accepted.
 * This holds as long as nothing else writes the record. */
#define DFC_CALL 614

/* Signals, with the numbers of records, commands and logs (1 is setup's, which waits in no queue). DFC_UPACK, DFC_TEARDOWN and DFC_DOWNACK carry nothing;
 * the others are ordinary: DFC_UNKNOWN to DFC_NONE in tunnel 0; DFC_DTMF in a tunnel from 1 on with a code 0 to 9 for a digit, 10 for *, 11 for #; DFC_SPECIAL
 * in any tunnel with any code; DFC_OPEN to DFC_CLOSEACK in a tunnel from 1 on. In a tunnel from 1 on DFC_DTMF and DFC_SPECIAL need a readied channel. */
enum {
    DFC_UPACK = 2, DFC_UNKNOWN = 3, DFC_AVAIL = 4, DFC_UNAVAIL = 5, DFC_NONE = 6, DFC_DTMF = 7, DFC_SPECIAL = 8, DFC_TEARDOWN = 9, DFC_DOWNACK = 10,
    DFC_OPEN = 11, DFC_OACK = 12, DFC_ONACK = 13, DFC_READY = 14, DFC_CLOSE = 15, DFC_CLOSEACK = 16
};
/* Sides: any number but 0 is the callee. */
enum { DFC_CALLER = 0, DFC_CALLEE = 1 };
/* Commands. The callee answers once: accept, busy or unobtainable; these name no side. Send is an ordinary signal from a side, by signal (any number but
 * DFC_UNKNOWN to DFC_SPECIAL and DFC_OPEN to DFC_CLOSEACK is no ordinary signal: 15), tunnel and code; teardown is from a side too; deliver hands the oldest
 * signal that waits for a side over to it. A number above is no command: it is refused as a send of no ordinary signal is (16, 10, 17 for a count, 12, 15).
 * Arguments that a command has no use for do not count. */
enum { DFC_ACCEPT = 0, DFC_BUSY = 1, DFC_UNOBTAINABLE = 2, DFC_SEND = 3, DFC_SEND_TEARDOWN = 4, DFC_DELIVER = 5 };

typedef struct {
    uint64_t number;    /* 0, or the refusal; beside a refusal the rest is 0 */
    uint64_t delivered; /* 1 where a signal was handed over: */
    uint64_t signal;    /* DFC_UPACK .. DFC_CLOSEACK */
    uint64_t tunnel;    /* 0 for a signal that has none */
    uint64_t code;      /* of DFC_DTMF and DFC_SPECIAL; else 0 */
} dfc_commanded;

typedef struct {
    uint64_t number;     /* this and the next four as in dfc_routed */
    uint64_t value;
    uint64_t kind;
    uint64_t box_number;
    uint64_t address;
    uint64_t record_number; /* of the record that took the call, 0 beside a refusal */
    uint64_t use_number;    /* how often calls were placed there since it was cleared, modulo 65,536; commands name both */
} dfc_placed;

/* Every record of a row cleared: ends idle, queues empty, channels unused, use number 0. With size DFC_CALL it clears a port.
 * A row of any length is cleared. */
void dfc_clear(uint8_t *row, size_t row_size);

/* A call placed: the setup is routed as by dfc_route, and the lowest free record of the row takes the call, the caller requesting, the callee waiting,
 * the queues empty, the channels unused and the use number one higher (65,535 is followed by 0). Refusals 20 to 24, 5, 18, 16, 11; in a port 20 to 24, 5, 18, 11. */
dfc_placed dfc_place(const uint8_t *file, size_t file_size, const uint8_t *sent, size_t sent_size, uint8_t *row, size_t row_size,
                     uint8_t *source_list, size_t source_size, uint8_t *target_list, size_t target_size, uint8_t received[DFC_SETUP]);

/* A command for the call in the record with this number and this use number. Refusals 16, 10, 12 to 15, 17, 40, 41. */
dfc_commanded dfc_command(uint8_t *row, size_t row_size, size_t record_number, uint16_t use_number, uint8_t kind, uint8_t side, uint8_t signal,
                          uint8_t tunnel, uint8_t code);

/* The same for a port: placing as in a row of one, and commands that name no record: neither 16 nor 10. */
dfc_placed dfc_port_place(const uint8_t *file, size_t file_size, const uint8_t *sent, size_t sent_size, uint8_t port[DFC_CALL],
                          uint8_t *source_list, size_t source_size, uint8_t *target_list, size_t target_size, uint8_t received[DFC_SETUP]);
dfc_commanded dfc_port_command(uint8_t port[DFC_CALL], uint8_t kind, uint8_t side, uint8_t signal, uint8_t tunnel, uint8_t code);

/* ---- links of a box: who hears whom (archive libdfc_links.a, made by host/build) */

/* A set of links is 64 numbers: the links, strictly ascending, and 0 in every place that is left; 64 zeros are the empty set. A link is a one-way connection
 * between channel terminations at two different ports of one box, as one number: sink port, sink channel, source port, source channel, 16 bits each, from high
 * to low. Any port and any channel from 0 to 65,535 will do.
 * Refusals, in this order, not by number:
 *   82  set is not as above
 *   80  add: both ends at one port
 *   81  add: 64 links are held, and the new one is not among them */
#define DFC_LINKS 64

/* The link from source to sink added; one that is there changes nothing. value 0. Refusals 82, 80, 81. */
dfc_answer dfc_links_add(uint64_t set[DFC_LINKS], uint16_t sink_port, uint16_t sink_channel, uint16_t source_port, uint16_t source_channel);
/* The link from source to sink removed; one that is absent changes nothing. value 0. Refusal 82. */
dfc_answer dfc_links_remove(uint64_t set[DFC_LINKS], uint16_t sink_port, uint16_t sink_channel, uint16_t source_port, uint16_t source_channel);
/* Every link dropped that touches the port, as sink or as source; the links of other ports stay. value 0. Refusal 82. */
dfc_answer dfc_links_drop(uint64_t set[DFC_LINKS], uint16_t port);
/* The sources summed into the termination: sources[0] to sources[value - 1], strictly ascending, each port * 65536 + channel; 0 in the places left. Refusal 82. */
dfc_answer dfc_links_sources(const uint64_t set[DFC_LINKS], uint16_t sink_port, uint16_t sink_channel, uint32_t sources[DFC_LINKS]);
/* WHO SUBSCRIBES TO A TYPE. The archive libdfc_index.a (made by host/build) has the functions below, with the same promises. It may be linked beside libdfc.a.
 * An index is 64 rows of 257 numbers: row t for the type t in the source region, row 32 + t for the type t in the target region. A row has the addresses that subscribe to the type there,
 * ascending, then 0 in each place left of 256, and in place 256 how many they are. Refusals:
 *   45  the address is not in the plan                47  the index is not the plan's: some place differs
 *   46  the new sets break a rule of the plan: a type outside its choice, or a reversible type in one set only
 * value is 0 for these three. */
#define DFC_INDEX_ROWS 64
#define DFC_INDEX_PLACES 257
typedef uint32_t dfc_index[DFC_INDEX_ROWS][DFC_INDEX_PLACES];

typedef struct {
    uint64_t row;   /* the addresses are index[row][0] to index[row][count - 1] */
    uint64_t count;
} dfc_listed;

/* The index of a file's plan, whatever the memory held. Refusals 20 to 24. value is 0. */
dfc_answer dfc_index_build(const uint8_t *file, size_t file_size, dfc_index index);

/* Who subscribes to a type in a region (0 source, any other number target). Nothing is refused: for a type above 31 row and count are 0, and count is never above 256, whatever the memory holds. */
dfc_listed dfc_index_look(const uint32_t index[DFC_INDEX_ROWS][DFC_INDEX_PLACES], uint8_t region, uint32_t type);

/* The subscriber with this address is given two other sets (bit t for the type t): the file of the changed plan is written into the room, and the lists that change are changed in the index, which
 * then is the one that is built from that file. value is the file's length, which does not change. Refusals 20 to 24; 25 where the room is shorter than the file (place 0); 45, 46, 47; in that order. */
dfc_answer dfc_index_update(const uint8_t *file, size_t file_size, dfc_index index, uint32_t address, uint32_t source, uint32_t target, uint8_t *room, size_t room_size);
/* ---- operational data (archive libdfc_store.a, made by host/build) */

/* Feature boxes keep data in relations of data rows: an owner, a key and a number. ('Row' is a data row in this section, not a row of call records.) The memory is
 * the caller's, all of it numbers, and any numbers have a meaning.
 *
 * relations: 64 of two words, the relation r from the word 2r on
 *    feature    the feature that it belongs to, 0 for none
 *    customers  0: its rows belong to nobody; else: each belongs to a customer
 *    A relation with 0 and 0 is absent.
 * rows: 1,024 places of four words
 *    mark       0: a free place, whatever its other words are; 1 to 64: a row of the relation mark - 1; above 64: a row that is closed to everybody
 *    owner      the customer whose row it is, 0 for nobody
 *    key, number
 *    Of rows with one mark, owner and key the one at the lowest place counts; the functions here make no such doubles.
 * features: a word for each type, the feature that the type provides, 0 for none. A type that the plan does not have provides none.
 * owners: 256 pairs of words, an address and the customer who owns it, 0 for nobody. Of pairs with one address the first counts, so an address has at most one
 *    owner. An address that the plan does not have, or a resource's, has none. A plan with another subscriber needs no other pairs.
 *    Where the first pair with an address says 0, it hides the later ones. A pair outlives its subscriber: clear it when an address is given to somebody else.
 *
 * A box is named by its type and its address; each function works out by itself what is open to it. In the relation r,
 *    if r belongs to a feature, the box's type has to provide it;
 *    if its rows belong to customers, the box has the rows of the customer who owns its address, and none if nobody does; else it has the rows of owner 0.
 * All else is 70, as is an absent row, and no answer says which of these it is. So the box names a row by relation and key, and never an owner or a place.
 *
 * PROVED (crates/store), for any words: stores that differ only in rows and relations that are closed to a box answer it alike, in any run of its operations, but
 * for 71, which tells it that 1,024 places are taken; no operation changes a row that is closed to the box; what was written is read back; after a delete there is room. */
#define DFC_FEATURES 32
#define DFC_OWNERS 512
#define DFC_RELATIONS 128
#define DFC_DATA 4096

/* The number of the row with this key; value: the number. Refusals 20 to 24, 70. */
dfc_answer dfc_data_read(const uint8_t *file, size_t file_size, const uint32_t features[DFC_FEATURES], const uint32_t owners[DFC_OWNERS], uint8_t type,
                         uint32_t address, const uint32_t relations[DFC_RELATIONS], const uint32_t rows[DFC_DATA], uint32_t relation, uint32_t key);

/* The number written into that row; where there is none, the row is added at the lowest free place. value 0. A write over a row is never 71.
 * Refusals 20 to 24, 70, 71. */
dfc_answer dfc_data_write(const uint8_t *file, size_t file_size, const uint32_t features[DFC_FEATURES], const uint32_t owners[DFC_OWNERS], uint8_t type,
                          uint32_t address, const uint32_t relations[DFC_RELATIONS], uint32_t rows[DFC_DATA], uint32_t relation, uint32_t key,
                          uint32_t number);

/* That row deleted: four zeros, a free place. value 0. Refusals 20 to 24, 70. */
dfc_answer dfc_data_delete(const uint8_t *file, size_t file_size, const uint32_t features[DFC_FEATURES], const uint32_t owners[DFC_OWNERS], uint8_t type,
                           uint32_t address, const uint32_t relations[DFC_RELATIONS], uint32_t rows[DFC_DATA], uint32_t relation, uint32_t key);

#ifdef __cplusplus
}
#endif
#endif
