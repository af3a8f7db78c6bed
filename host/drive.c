/* drive SEED CASES [FAULT]: the archive and the peer on the same random and damaged inputs; every answer and every lent byte compared.
 * The peer keeps calls in structs and never sees a record's bytes. So each step of a record is compared twice: the record that is read from our bytes with the
 * peer's struct, and our bytes with what dfc.h says that the step makes of the bytes before, which stands here a second time.
 * Prints the first difference whole and ends with 1; else one line and 0. */
#include "peer.h"
#include "random.h"
#include <stdio.h>
#include <stdlib.h>

enum { CHECK, WRITE, ZONE, NEW, CONTINUED, REVERSED, ROUTE, PLACE, PORT_PLACE, COMMAND, PORT_COMMAND, CLEAR, OPERATIONS };
static const char *const name[OPERATIONS] = {"check", "write", "zone",       "new",     "continued",    "reversed",
                                             "route", "place", "port place", "command", "port command", "clear"};

/* a row and a port, with junk behind what is lent: ours, and as they have to be; and the peer's */
#define RECORDS_MAX 1030
#define ROW_MAX (RECORDS_MAX * DFC_CALL)
#define JUNK 64
typedef struct {
    uint8_t row[ROW_MAX + JUNK], port[DFC_CALL + JUNK];
} lent;
static lent ours_lent, due;
static peer_call peers_row[RECORDS_MAX], peers_port;
static size_t row_size;
static uint8_t record_before[DFC_CALL];

static uint64_t seed, number, done[OPERATIONS], accepted[OPERATIONS], channel_commands, channel_accepted;
static any_plan p;
static uint8_t file[FILE_MAX];
static size_t file_size;

/* what one case is given, and what each side makes of it */
typedef struct {
    int op;
    uint8_t kind, type, region, string[40], in[DFC_SETUP + 8];
    uint32_t address, source, target;
    size_t string_size, in_size, room_size, source_size, target_size;
    size_t record_number;
    uint16_t use_number;
    uint8_t command, of_side, signal, tunnel, code;
} input;
typedef struct {
    dfc_placed said; /* of a command: number, delivered, signal, tunnel, code */
    uint8_t room[FILE_MAX], made[DFC_SETUP + 8], source_list[48], target_list[48], types[40];
} output;

static void hex(const char *what, const uint8_t *b, size_t n) {
    printf("  %s (%zu):", what, n);
    for (size_t i = 0; i < n; i++) printf("%s%02x", i % 32 == 0 ? "\n    " : " ", b[i]);
    printf("\n");
}

static int on_port(int op) { return op == PORT_PLACE || op == PORT_COMMAND; }
static size_t records(void) { return row_size / DFC_CALL; }

/* The record that a step is about, NULL for none: of the bytes b, and of the peer's. */
static uint8_t *touched(lent *b, const input *i, const dfc_placed *said) {
    if (on_port(i->op)) return b->port;
    size_t n = i->op == COMMAND ? i->record_number : said->record_number;
    return i->op != CLEAR && n < records() ? b->row + n * DFC_CALL : NULL;
}
static peer_call *touched_struct(const input *i, const dfc_placed *said) {
    if (on_port(i->op)) return &peers_port;
    return &peers_row[i->op == COMMAND ? i->record_number : said->record_number];
}

static void show(const input *i, const char *who, const output *o) {
    printf(" %s: number %llu value %llu kind %llu box %llu address %llu record %llu use %llu\n", who, (unsigned long long)o->said.number,
           (unsigned long long)o->said.value, (unsigned long long)o->said.kind, (unsigned long long)o->said.box_number,
           (unsigned long long)o->said.address, (unsigned long long)o->said.record_number, (unsigned long long)o->said.use_number);
    if (i->op >= PLACE && i->op != PORT_PLACE && i->op != PLACE) return;
    hex("made", o->made, sizeof o->made);
    hex("source list", o->source_list, sizeof o->source_list);
    hex("target list", o->target_list, sizeof o->target_list);
    hex("types", o->types, sizeof o->types);
    if (i->op == WRITE) hex("room", o->room, i->room_size);
}

static void show_struct(const peer_call *c) {
    printf("  the peer's record: states %u %u use %u\n", c->state[0], c->state[1], c->use);
    hex("the peer's channels", c->channel[0], sizeof c->channel);
    for (int e = 0; e < 2; e++) {
        printf("    %u wait for the %s:", c->to[e].count, e ? "callee" : "caller");
        for (unsigned k = 0; k < 16 && k < c->to[e].count; k++) {
            peer_signal w = c->to[e].at[(c->to[e].head + k) % 16];
            printf(" %u.%u.%u", w.kind, w.tunnel, w.code);
        }
        printf("\n");
    }
}

static int differ(const input *i, const output *ours, const output *peers) {
    printf("DIFFERENCE seed %llu case %llu: %s\n", (unsigned long long)seed, (unsigned long long)number, name[i->op]);
    show(i, "ours", ours);
    show(i, "peer", peers);
    if (i->op >= PLACE) {
        printf(" row of %zu bytes; record %zu use %u command %u side %u signal %u tunnel %u code %u\n", row_size, i->record_number, i->use_number, i->command,
               i->of_side, i->signal, i->tunnel, i->code);
        uint8_t *b = touched(&ours_lent, i, &ours->said);
        if (b) {
            hex("record before", record_before, DFC_CALL);
            hex("record now", b, DFC_CALL);
            hex("record as it has to be", touched(&due, i, &ours->said), DFC_CALL);
            show_struct(touched_struct(i, &ours->said));
        }
    }
    if (i->op == COMMAND || i->op == PORT_COMMAND || i->op == CLEAR) return 1;
    printf(" kind %u type %u region %u address %u source %u target %u room %zu lists %zu %zu\n", i->kind, i->type, i->region, i->address,
           i->source, i->target, i->room_size, i->source_size, i->target_size);
    hex("file", file, file_size);
    hex("string", i->string, i->string_size);
    hex("setup", i->in, i->in_size);
    return 1;
}

static dfc_placed of(dfc_answer a) { return (dfc_placed){a.number, a.value, 0, 0, 0, 0, 0}; }
static dfc_placed of_routed(dfc_routed a) { return (dfc_placed){a.number, a.value, a.kind, a.box_number, a.address, 0, 0}; }
static dfc_placed of_command(dfc_commanded a) { return (dfc_placed){a.number, a.delivered, a.signal, a.tunnel, a.code, 0, 0}; }

/* row and port, and the row's size, as each side has them */
#define SIDE(side, row, row_length, port)                                                                                                                          \
    static void side##_run(const input *i, output *o) {                                                                                                            \
        switch (i->op) {                                                                                                                                           \
        case CHECK: o->said = of(side##_check(file, file_size)); break;                                                                                            \
        case WRITE: o->said = of(side##_write(file, file_size, o->room, i->room_size)); break;                                                                     \
        case ZONE: o->said = of(side##_zone(file, file_size, i->region, i->address, o->types)); break;                                                             \
        case NEW: o->said = of(side##_new(file, file_size, i->kind, i->type, i->address, i->string, i->string_size, i->target, o->made)); break;                   \
        case CONTINUED:                                                                                                                                            \
            o->said = of(side##_continued(file, file_size, i->kind, i->type, i->address, i->in, i->in_size, i->source, i->string,                                  \
                                          i->string_size, i->target, o->made));                                                                                    \
            break;                                                                                                                                                 \
        case REVERSED:                                                                                                                                             \
            o->said = of(side##_reversed(file, file_size, i->kind, i->type, i->address, i->in, i->in_size, i->source, i->string,                                   \
                                         i->string_size, i->target, o->made));                                                                                     \
            break;                                                                                                                                                 \
        case ROUTE:                                                                                                                                                \
            o->said = of_routed(side##_route(file, file_size, i->in, i->in_size, o->source_list, i->source_size, o->target_list, i->target_size, o->made));        \
            break;                                                                                                                                                 \
        case PLACE:                                                                                                                                                \
            o->said = side##_place(file, file_size, i->in, i->in_size, row, row_length, o->source_list, i->source_size, o->target_list, i->target_size, o->made);  \
            break;                                                                                                                                                 \
        case PORT_PLACE:                                                                                                                                           \
            o->said = side##_port_place(file, file_size, i->in, i->in_size, port, o->source_list, i->source_size, o->target_list, i->target_size, o->made);        \
            break;                                                                                                                                                 \
        case COMMAND:                                                                                                                                              \
            o->said = of_command(side##_command(row, row_length, i->record_number, i->use_number, i->command, i->of_side, i->signal, i->tunnel, i->code));         \
            break;                                                                                                                                                 \
        case PORT_COMMAND: o->said = of_command(side##_port_command(port, i->command, i->of_side, i->signal, i->tunnel, i->code)); break;                          \
        default: side##_clear(row, row_length), o->said.number = 0;                                                                                                \
        }                                                                                                                                                          \
    }
SIDE(dfc, ours_lent.row, row_size, ours_lent.port)
SIDE(peer, peers_row, records(), &peers_port)

/* ---- a record's bytes, as dfc.h has them */

enum { CHANNELS = 102 }; /* the caller's 256 and the callee's 256 */

static int carries_nothing(uint8_t kind) { return kind == DFC_UPACK || kind == DFC_TEARDOWN || kind == DFC_DOWNACK; }

static peer_signal signal_read(const uint8_t *b) {
    peer_signal w = {b[0], b[1], b[2]};
    if (w.kind == 0) w.kind = DFC_UPACK;
    if (w.kind == 1 || w.kind > DFC_CLOSEACK) w.kind = DFC_DTMF, w.code = 255;
    if (carries_nothing(w.kind)) w.tunnel = 0;
    if (w.kind != DFC_DTMF && w.kind != DFC_SPECIAL) w.code = 0;
    return w;
}

static uint8_t state_read(uint8_t b) { return b > PEER_UNLINKING ? PEER_UNLINKING : b; }

/* A record for the peer. Its rings begin anywhere, so that they come round often. */
static void read_record(rng *r, const uint8_t *b, peer_call *c) {
    c->state[0] = state_read(b[0]), c->state[1] = state_read(b[1]);
    c->use = (uint16_t)(b[2] << 8 | b[3]);
    memcpy(c->channel, b + CHANNELS, sizeof c->channel);
    for (int e = 0; e < 2; e++) {
        const uint8_t *q = b + (e ? 53 : 4);
        c->to[e].head = (uint8_t)below(r, 16), c->to[e].count = q[0];
        for (unsigned k = 0; k < 16 && k < q[0]; k++) c->to[e].at[(c->to[e].head + k) % 16] = signal_read(q + 1 + 3 * k);
    }
}

/* Whether the record of these bytes is the peer's: states, use number, channels, and what waits, in order. */
static int same_record(const uint8_t *b, const peer_call *c) {
    if (state_read(b[0]) != c->state[0] || state_read(b[1]) != c->state[1] || (b[2] << 8 | b[3]) != c->use) return 0;
    if (memcmp(b + CHANNELS, c->channel, sizeof c->channel) != 0) return 0;
    for (int e = 0; e < 2; e++) {
        const uint8_t *q = b + (e ? 53 : 4);
        if (q[0] != c->to[e].count) return 0;
        for (unsigned k = 0; k < 16 && k < q[0]; k++) {
            peer_signal x = signal_read(q + 1 + 3 * k), y = c->to[e].at[(c->to[e].head + k) % 16];
            if (x.kind != y.kind || x.tunnel != y.tunnel || x.code != y.code) return 0;
        }
    }
    return 1;
}

static int same_row(void) {
    for (size_t k = 0; k < records(); k++)
        if (!same_record(ours_lent.row + k * DFC_CALL, &peers_row[k])) return 0;
    return 1;
}

/* ---- the bytes after a step, by the bytes before */

static void due_sent(uint8_t *q, uint8_t kind, uint8_t tunnel, uint8_t code) {
    uint8_t *at = q + 1 + 3 * q[0];
    at[0] = kind, at[1] = tunnel, at[2] = code;
    q[0]++;
}

/* What a channel's byte becomes at the end that sent a signal in its tunnel, or was handed one; a status leaves it. */
static uint8_t due_channel(uint8_t was, int sent, uint8_t kind) {
    switch (kind) {
    case DFC_OPEN: return 1;
    case DFC_OACK: return sent || was == 1 ? 2 : was;
    case DFC_ONACK: return sent || was == 1 ? 8 : was;
    case DFC_READY: return sent || was == 2 ? 3 : was;
    case DFC_CLOSE: return sent ? 4 : was == 4 ? 5 : 7;
    case DFC_CLOSEACK: return sent && was == 5 ? 6 : 8;
    default: return was;
    }
}

/* An accepted command on the record b. */
static void due_command(uint8_t *b, const input *i) {
    int me = i->command <= DFC_UNOBTAINABLE || i->of_side != 0;
    uint8_t *in = b + (me ? 53 : 4), *out = b + (me ? 4 : 53), *channel = b + CHANNELS + 256 * me, first = in[1], tunnel = in[2];
    switch (i->command) {
    case DFC_ACCEPT:
        b[me] = 3;
        due_sent(out, DFC_UPACK, 0, 0);
        break;
    case DFC_BUSY:
    case DFC_UNOBTAINABLE:
        b[me] = 4;
        due_sent(out, DFC_UPACK, 0, 0), due_sent(out, i->command == DFC_BUSY ? DFC_UNAVAIL : DFC_UNKNOWN, 0, 0), due_sent(out, DFC_TEARDOWN, 0, 0);
        break;
    case DFC_SEND:
        b[me] = 3;
        if (i->tunnel) channel[i->tunnel] = due_channel(channel[i->tunnel], 1, i->signal);
        due_sent(out, i->signal, i->tunnel, i->signal == DFC_DTMF || i->signal == DFC_SPECIAL ? i->code : 0);
        break;
    case DFC_SEND_TEARDOWN:
        b[me] = 4;
        due_sent(out, DFC_TEARDOWN, 0, 0);
        break;
    default:
        memmove(in + 1, in + 4, 45);
        if (!FAULT(17)) memset(in + 46, 0, 3);
        in[0]--;
        if (first == DFC_TEARDOWN) b[me] = b[me] == 3 ? 0 : 4, due_sent(out, DFC_DOWNACK, 0, 0);
        else if (first == DFC_DOWNACK) b[me] = 0;
        else if (first == DFC_UPACK || first == 0) b[me] = 3;
        else {
            if (b[me] != 3) b[me] = 4;
            if (tunnel) channel[tunnel] = due_channel(channel[tunnel], 0, first);
        }
    }
    if (FAULT(18))
        for (uint8_t *q = b + 4; q <= b + 53; q += 49) memset(q + 1 + 3 * q[0], 0, 3 * (16u - q[0]));
}

/* The bytes of a record in which a call was placed. */
static void due_placed(uint8_t *b) {
    unsigned use = (b[2] << 8 | b[3]) + 1u;
    memset(b, 0, DFC_CALL);
    b[0] = 1, b[1] = 2;
    w2(b + 2, use & 65535);
}

/* Whether a step that was answered so left every byte as it has to be, and the peer's records. */
static int bytes_agree(const input *i, const dfc_placed *said) {
    uint8_t *b = touched(&due, i, said);
    if (said->number == 0) {
        if (i->op == CLEAR) memset(due.row, 0, records() * DFC_CALL);
        else if (i->op == COMMAND || i->op == PORT_COMMAND) due_command(b, i);
        else due_placed(b);
    }
    if (on_port(i->op)) return memcmp(ours_lent.port, due.port, sizeof due.port) == 0 && same_record(ours_lent.port, &peers_port);
    if (memcmp(ours_lent.row, due.row, row_size + JUNK) != 0) return 0;
    /* of a long row the other records are compared when it is given up */
    return records() <= 4 || i->op == CLEAR ? same_row() : !b || same_record(touched(&ours_lent, i, said), touched_struct(i, said));
}

/* ---- random inputs */

static uint32_t some_address(rng *r) {
    switch (below(r, 12)) {
    case 0: return 0;
    case 1: return below(r, 1000);
    case 2: return chance(r, 2) ? 999999998u + below(r, 4) : (uint32_t)(rnd(r) >> 32);
    default: return p.count ? p.sub[below(r, p.count)].address : 200;
    }
}

static size_t some_string(rng *r, uint8_t *s) {
    static const char symbols[] = "0123456789*#";
    size_t n = 0;
    if (chance(r, 2)) return 0;
    if (chance(r, 2)) n = (size_t)sprintf((char *)s, "%s%u", chance(r, 2) ? "*21" : "", some_address(r));
    else {
        uint32_t kinds = chance(r, 3) ? 12 : 10;
        n = chance(r, 4) ? below(r, 37) : chance(r, 2) ? 8 + below(r, 4) : below(r, 12);
        for (size_t k = 0; k < n; k++) s[k] = (uint8_t)symbols[below(r, kinds)];
        if (n && chance(r, 4)) s[0] = '0';
        if (n && chance(r, 4)) s[0] = '*';
    }
    if (n && chance(r, 16)) s[below(r, (uint32_t)n)] = (uint8_t)rnd(r);
    return n;
}

/* somebody's address, where the plan has anybody */
static uint32_t some_customer(rng *r) { return p.count ? p.sub[below(r, p.count)].address : 200; }

static uint8_t some_member(rng *r, uint32_t set) {
    uint32_t t = below(r, 32);
    while (set && !(set >> t & 1)) t = (t + 1) % 32;
    return (uint8_t)t;
}

static uint32_t r4(const uint8_t *b) { return (uint32_t)b[0] << 24 | (uint32_t)b[1] << 16 | (uint32_t)b[2] << 8 | b[3]; }

/* A setup is built in place, by the offsets of dfc.h: */
enum { REGION = 3, SOURCE = 7, TARGET = 14, ROUTE_AT = 21, PLACING = 25, OUTER = 30, STRING = 38, LIST = 74 };

static void setup_heads(uint8_t *b) {
    static const struct {
        uint8_t at, tag, length;
    } head[9] = {{0, 1, 1}, {4, 2, 4}, {11, 3, 4}, {18, 4, 1}, {22, 5, 2}, {27, 6, 5}, {35, 7, 33}, {71, 8, 33}, {107, 127, 0}};
    memset(b, 0, DFC_SETUP);
    for (int k = 0; k < 9; k++) b[head[k].at] = head[k].tag, w2(b + head[k].at + 1, head[k].length);
}

/* setups that were made or received under this plan */
static uint8_t pool[16][DFC_SETUP];
static unsigned pooled;

/* well formed, if the plan is sound and has a subscriber; to be continued it has a list */
static void good_setup(rng *r, uint8_t *b, int op) {
    static const char digits[] = "0123456789*#";
    setup_heads(b);
    if (chance(r, 4)) /* what stands past a length does not count */
        for (int k = 1; k < 33; k++) b[STRING + k] = (uint8_t)(rnd(r) >> 40), b[LIST + k] = (uint8_t)below(r, 33);
    b[REGION] = (uint8_t)(1 + below(r, 2));
    uint8_t *routing = b + (b[REGION] == 1 ? SOURCE : TARGET), *other = b + (b[REGION] == 1 ? TARGET : SOURCE);
    w4(routing, some_customer(r)), w4(other, chance(r, 4) ? 0 : some_customer(r));
    b[ROUTE_AT] = (uint8_t)(op == CONTINUED ? 3 : 1 + below(r, 3));
    if (b[ROUTE_AT] == 2 && !p.set[2]) b[ROUTE_AT] = 1;
    if (b[ROUTE_AT] == 2) b[PLACING] = 1, b[PLACING + 1] = some_member(r, p.set[2]);
    if (b[ROUTE_AT] == 3) {
        uint8_t types[32];
        dfc_answer zone = peer_zone(file, file_size, (uint8_t)(b[REGION] - 1), r4(routing), types);
        uint32_t n = zone.number ? 0 : (uint32_t)zone.value, cut = below(r, n + 1);
        b[LIST] = (uint8_t)(n - cut);
        memcpy(b + LIST + 1, types + cut, n - cut);
    }
    if (b[REGION] == 1 && chance(r, 2)) b[OUTER] = 1, w4(b + OUTER + 1, some_customer(r));
    uint32_t of = below(r, 4), symbols = chance(r, 4) ? 12 : 10;
    if (of < 2) {
        char said[16];
        b[STRING] = (uint8_t)snprintf(said, sizeof said, "%s%u", of ? "*21" : "", some_customer(r));
        memcpy(b + STRING + 1, said, b[STRING]);
    } else if (of < 3) {
        b[STRING] = (uint8_t)(chance(r, 2) ? 8 + below(r, 4) : below(r, 33));
        for (int k = 1; k <= b[STRING]; k++) b[STRING + k] = (uint8_t)digits[below(r, symbols)];
    }
}

static void any_setup(rng *r, uint8_t *b) {
    uint8_t s[48];
    size_t k = some_string(r, s);
    setup_heads(b);
    b[REGION] = (uint8_t)(1 + below(r, 2)), b[ROUTE_AT] = (uint8_t)(1 + below(r, 3));
    w4(b + SOURCE, some_address(r)), w4(b + TARGET, some_address(r));
    if (chance(r, 2)) b[PLACING] = 1, b[PLACING + 1] = (uint8_t)below(r, 34);
    if (chance(r, 2)) b[OUTER] = 1, w4(b + OUTER + 1, some_address(r));
    b[STRING] = (uint8_t)k, memcpy(b + STRING + 1, s, k < 32 ? k : 32);
    b[LIST] = (uint8_t)below(r, chance(r, 4) ? 40 : 3);
    for (int j = 1; j < 33; j++) b[LIST + j] = (uint8_t)below(r, 33);
}

static size_t some_setup(rng *r, uint8_t *b, int op) {
    uint32_t k = below(r, 16);
    if (k < 1) any_setup(r, b);
    else if (k < 5 && pooled && op != CONTINUED) memcpy(b, pool[below(r, pooled < 16 ? pooled : 16)], DFC_SETUP);
    else good_setup(r, b, op);
    /* a list that is a suffix, or the other way round */
    if (chance(r, 24) && p.set[2]) b[ROUTE_AT] = 2, b[PLACING] = 1, b[PLACING + 1] = some_member(r, p.set[2]);
    if (chance(r, 12))
        switch (below(r, 12)) {
        case 0: b[REGION] = (uint8_t)below(r, 4); break;
        case 1: w4(b + SOURCE, some_address(r)); break;
        case 2: w4(b + TARGET, some_address(r)); break;
        case 3: b[ROUTE_AT] = (uint8_t)below(r, 5); break;
        case 4: b[PLACING] = (uint8_t)below(r, 3); break;
        case 5: b[PLACING + 1] = (uint8_t)below(r, 40); break;
        case 6: b[OUTER] = (uint8_t)below(r, 3); break;
        case 7: w4(b + OUTER + 1, some_address(r)); break;
        case 8: b[STRING] = (uint8_t)below(r, 40); break;
        case 9: b[LIST] = (uint8_t)below(r, 40); break;
        case 10: b[LIST + 1 + below(r, 32)] = (uint8_t)below(r, 40); break;
        default: b[below(r, DFC_SETUP)] = (uint8_t)rnd(r);
        }
    return chance(r, 64) ? below(r, DFC_SETUP + 4) : DFC_SETUP;
}

/* ---- random calls */

static void some_bytes(rng *r, uint8_t *b, size_t n) {
    for (; n >= 8; b += 8, n -= 8) {
        uint64_t x = rnd(r);
        memcpy(b, &x, 8);
    }
    while (n--) *b++ = (uint8_t)(rnd(r) >> 40);
}

/* the first and the last that each side opens, and 0; seldom another */
static uint8_t some_tunnel(rng *r) {
    static const uint8_t tunnels[5] = {1, 2, 254, 255, 0};
    return chance(r, 16) ? (uint8_t)(rnd(r) >> 40) : tunnels[below(r, chance(r, 8) ? 5 : 4)];
}

/* a record: cleared, all junk, or with junk in each of its fields that is seldom far out */
static void some_record(rng *r, uint8_t *b) {
    if (chance(r, 3)) {
        memset(b, 0, DFC_CALL);
        if (chance(r, 4)) b[2] = b[3] = 255;
        return;
    }
    some_bytes(r, b, DFC_CALL);
    if (chance(r, 8)) return;
    b[0] = (uint8_t)below(r, 6), b[1] = (uint8_t)below(r, 6);
    if (chance(r, 2)) b[0] = (uint8_t)(3 + below(r, 2)), b[1] = (uint8_t)(3 + below(r, 2));
    for (int k = 0; k < 24; k++) b[CHANNELS + 256 * below(r, 2) + some_tunnel(r)] = (uint8_t)below(r, 10);
    for (int q = 4; q <= 53; q += 49) {
        b[q] = (uint8_t)(chance(r, 2) ? below(r, 4) : 12 + below(r, 6));
        for (int k = 1; k < 49; k += 3) {
            b[q + k] = (uint8_t)below(r, DFC_CLOSEACK + 2), b[q + k + 1] = chance(r, 2) ? 0 : some_tunnel(r), b[q + k + 2] = (uint8_t)below(r, 14);
            if (chance(r, 4)) b[q + k] = (uint8_t)(DFC_UNKNOWN + below(r, 6)); /* what a linked end may take */
            if (chance(r, 2)) b[q + k] = (uint8_t)(DFC_DTMF + below(r, 10)), b[q + k + 1] = some_tunnel(r);
        }
        if (chance(r, 4)) b[q + 1] = chance(r, 2) ? DFC_TEARDOWN : chance(r, 2) ? DFC_UPACK : DFC_DOWNACK;
    }
}

static uint32_t sends; /* of 8 commands on this row, so many are sends */
static unsigned row_cases; /* for so many cases this row */

/* A new row and port: junk, cleared, or with a call placed in every other record. */
static void some_row(rng *r) {
    uint32_t n = chance(r, 3) ? 1023 + below(r, 3) + below(r, 2) : chance(r, 24) ? 0 : 1 + below(r, 4);
    row_size = n * DFC_CALL + (chance(r, 2) ? 0 : below(r, DFC_CALL));
    some_bytes(r, ours_lent.row, row_size + JUNK);
    some_bytes(r, ours_lent.port, sizeof ours_lent.port);
    row_cases = n > 4 ? 24 : 320;
    if (chance(r, 2)) {
        if (n <= 4) row_cases = 64;
        for (size_t k = 0; k < n; k++) some_record(r, ours_lent.row + k * DFC_CALL);
        some_record(r, ours_lent.port);
    } else {
        memset(ours_lent.row, 0, n * DFC_CALL), memset(ours_lent.port, 0, DFC_CALL);
        if (chance(r, 2)) {
            for (size_t k = 0; k < n; k += 2) ours_lent.row[k * DFC_CALL] = 1, ours_lent.row[k * DFC_CALL + 1] = 2;
            ours_lent.port[0] = 1, ours_lent.port[1] = 2;
        }
    }
    memcpy(due.row, ours_lent.row, row_size + JUNK);
    memcpy(due.port, ours_lent.port, sizeof due.port);
    for (size_t k = 0; k < n; k++) read_record(r, ours_lent.row + k * DFC_CALL, &peers_row[k]);
    read_record(r, ours_lent.port, &peers_port);
    sends = chance(r, 3) ? 7 : 3;
}

static int is_free(const peer_call *c) { return c->state[0] == PEER_IDLE && c->state[1] == PEER_IDLE; }

/* Whether every record of the row is free (all 1), or none is (all 0). */
static int free_records(int all) {
    for (size_t k = 0; k < records(); k++)
        if (is_free(&peers_row[k]) != all) return 0;
    return 1;
}

static int would_be_accepted(const peer_call *c, const input *i) {
    peer_call trial = *c;
    return peer_port_command(&trial, i->command, i->of_side, i->signal, i->tunnel, i->code).number == 0;
}

/* any channel's signal, in any state */
static void channel_command(rng *r, input *i) {
    i->command = DFC_SEND;
    i->of_side = (uint8_t)below(r, 2);
    i->signal = (uint8_t)(DFC_OPEN + below(r, 6));
    i->tunnel = some_tunnel(r);
    i->code = (uint8_t)(rnd(r) >> 40);
}

/* One of the steps that the channels of this call can take, if there is one; mostly no close, so that channels come to be readied. */
static int channel_step(rng *r, input *i, const peer_call *c) {
    input found = *i;
    uint32_t n = 0;
    int closing = chance(r, 3);
    uint8_t tunnels[4] = {1, 2, 254, 255};
    if (chance(r, 8)) tunnels[below(r, 4)] = (uint8_t)(rnd(r) >> 40);
    i->command = DFC_SEND, i->code = (uint8_t)below(r, 12);
    for (int of = 0; of < 2; of++)
        for (int t = 0; t < 4 && c->state[of] == PEER_LINKED; t++)
            for (int kind = DFC_DTMF; kind <= DFC_CLOSEACK; kind++) {
                if (kind == DFC_TEARDOWN || kind == DFC_DOWNACK) continue;
                if (kind == DFC_CLOSE && (!closing || (c->channel[of][tunnels[t]] == PEER_OPENING && !chance(r, 6)))) continue;
                i->of_side = (uint8_t)of, i->signal = (uint8_t)kind, i->tunnel = tunnels[t];
                if (would_be_accepted(c, i) && chance(r, ++n)) found = *i;
            }
    *i = found;
    return n != 0;
}

static void any_command(rng *r, input *i) {
    static const uint8_t others[16] = {DFC_ACCEPT,  DFC_ACCEPT,  DFC_ACCEPT,  DFC_BUSY,    DFC_UNOBTAINABLE, DFC_SEND_TEARDOWN, DFC_DELIVER, DFC_DELIVER,
                                       DFC_DELIVER, DFC_DELIVER, DFC_DELIVER, DFC_DELIVER, DFC_DELIVER,      DFC_DELIVER,       DFC_DELIVER,       DFC_DELIVER};
    i->command = (uint8_t)(chance(r, 16) ? chance(r, 2) ? 6 + below(r, 3) : rnd(r) >> 40 : below(r, 8) < sends ? DFC_SEND : others[below(r, 16)]);
    i->of_side = (uint8_t)(chance(r, 16) ? rnd(r) >> 40 : below(r, 2));
    i->signal = (uint8_t)(chance(r, 16) ? chance(r, 2) ? below(r, 20) : rnd(r) >> 40 : DFC_UNKNOWN + below(r, 6));
    i->tunnel = i->signal < DFC_DTMF && !chance(r, 16) ? 0 : some_tunnel(r);
    i->code = (uint8_t)(!chance(r, 8) ? below(r, 12) : rnd(r) >> 40);
}

/* For three of four commands one that the peer would accept is looked for; the others are what comes. */
static void some_command(rng *r, input *i) {
    size_t n = records();
    for (int tries = 0; tries < 6; tries++) { /* a record that is not free, if there is one */
        i->record_number = n ? below(r, (uint32_t)(n < 4 ? n : chance(r, 2) ? 4 : n)) : 0;
        if (n && !is_free(&peers_row[i->record_number])) break;
    }
    if (chance(r, 24)) i->record_number = chance(r, 2) ? n + below(r, 3) : (size_t)rnd(r);
    const peer_call *c = i->op == PORT_COMMAND ? &peers_port : i->record_number < n ? &peers_row[i->record_number] : NULL;
    i->use_number = (uint16_t)(chance(r, 24) || !c ? below(r, 65536) : c->use);
    uint32_t k = below(r, 16);
    if (!c || k < 4) { /* what comes */
        if (below(r, 8) < 5) channel_command(r, i);
        else any_command(r, i);
        return;
    }
    if (k < 12 && channel_step(r, i, c)) return;
    if (k < 14 && sends < 7 && (c->to[0].count || c->to[1].count)) {
        i->command = DFC_DELIVER; /* in some rows seldom, so that queues fill */
        i->of_side = c->to[0].count == 0 || (c->to[1].count && chance(r, 2));
        if (would_be_accepted(c, i)) return;
    }
    for (int tries = 0; tries < 12; tries++) {
        any_command(r, i);
        if (would_be_accepted(c, i)) break;
    }
}

static void some_input(rng *r, input *i) {
    memset(i, 0, sizeof *i);
    uint32_t k = below(r, 32);
    i->op = k < 1 ? CHECK : k < 2 ? WRITE : k < 3 ? ZONE : k < 5 ? NEW : k < 8 ? CONTINUED : k < 10 ? REVERSED : k < 13 ? ROUTE : k < 16 ? PLACE
          : k < 18 ? PORT_PLACE : k < 26 ? COMMAND : chance(r, 64) ? CLEAR : PORT_COMMAND;
    if (i->op == REVERSED && !p.set[2] && !chance(r, 8)) i->op = CONTINUED; /* nothing could be reversed */
    /* calls are mostly placed where a record is free, and commanded where one is taken */
    if (i->op == PLACE && free_records(0) && !chance(r, 4)) i->op = COMMAND;
    if (i->op == COMMAND && free_records(1) && !chance(r, 4)) i->op = PLACE;
    if ((i->op == PORT_PLACE) != is_free(&peers_port) && on_port(i->op) && !chance(r, 4)) i->op = i->op == PORT_PLACE ? PORT_COMMAND : PORT_PLACE;
    if (i->op == COMMAND || i->op == PORT_COMMAND) return some_command(r, i);
    i->region = (uint8_t)(chance(r, 8) ? rnd(r) : below(r, 2));
    i->kind = (uint8_t)(chance(r, 16) ? below(r, 7) : i->op == NEW ? below(r, 3) : 0);
    i->type = chance(r, 24) ? (uint8_t)rnd(r) : some_member(r, i->op == REVERSED && !chance(r, 16) ? p.set[2] : p.set[0]);
    i->address = chance(r, 16) ? some_address(r) : some_customer(r);
    if (i->op == NEW && i->kind && p.count && !chance(r, 8)) { /* somebody of that kind, if there is one */
        uint32_t k = below(r, p.count);
        for (unsigned n = 0; n < p.count && p.sub[k].kind != i->kind; n++) k = (k + 1) % p.count;
        i->address = p.sub[k].address;
    }
    i->source = chance(r, 2) ? 0 : chance(r, 8) ? some_address(r) : some_customer(r);
    i->target = chance(r, 2) ? 0 : chance(r, 8) ? some_address(r) : some_customer(r);
    i->string_size = some_string(r, i->string);
    i->in_size = some_setup(r, i->in, i->op);
    if (i->op == CONTINUED && !chance(r, 16)) i->address = r4(i->in + (i->in[REGION] == 1 ? SOURCE : TARGET));
    if ((i->op == CONTINUED || i->op == REVERSED) && !chance(r, 8)) { /* not the box's own address */
        uint32_t *given = (i->in[REGION] == 1) == (i->op == CONTINUED) ? &i->source : &i->target;
        if (*given == i->address) *given = 0;
    }
    i->room_size = chance(r, 2) ? file_size - (chance(r, 4) && file_size) : file_size + below(r, FILE_MAX);
    if (i->room_size > FILE_MAX) i->room_size = FILE_MAX;
    i->source_size = chance(r, 24) ? below(r, 32) : 32 + below(r, 16);
    i->target_size = chance(r, 24) ? below(r, 32) : 32 + below(r, 16);
}

static void some_plan(rng *r) {
    uint32_t k = below(r, 64);
    random_plan(r, &p, k == 0 ? 256 : k == 1 ? 257 : k < 6 ? below(r, 256) : k < 8 ? 0 : 1 + below(r, 9));
    if (chance(r, 8)) break_plan(r, &p);
    memset(file, 0, sizeof file);
    file_size = plan_bytes(&p, file);
    if (chance(r, 16)) file_size = damage(r, file, file_size);
    pooled = 0;
}

/* Every byte of a channel with every signal, sent and handed over, at both ends and in tunnels of both: each line of the tables, and each that is not there. */
static int sweep(void) {
    static const uint8_t tunnels[5] = {0, 1, 2, 254, 255};
    static output ours, peers;
    rng r = {seed + 1};
    for (unsigned k = 0; k < 256 * 18 * 5 * 2 * 3; k++) {
        unsigned state = k % 256, kind = k / 256 % 18, tunnel = tunnels[k / (256 * 18) % 5], of = k / (256 * 18 * 5) % 2, way = k / (256 * 18 * 5 * 2);
        input i = {.op = PORT_COMMAND, .of_side = (uint8_t)of, .signal = (uint8_t)kind, .tunnel = (uint8_t)tunnel, .code = 5};
        i.command = way == 0 ? DFC_SEND : DFC_DELIVER;
        uint8_t *b = ours_lent.port, *q = b + (of ? 53 : 4);
        memset(b, 0, DFC_CALL);
        b[0] = b[1] = PEER_LINKED;
        if (way == 2) b[of] = PEER_UNLINKING; /* which takes what a linked end takes, and downack */
        if (way != 0) q[0] = 1, q[1] = (uint8_t)kind, q[2] = (uint8_t)tunnel, q[3] = 5;
        b[CHANNELS + 256 * of + tunnel] = (uint8_t)state;
        memcpy(due.port, ours_lent.port, sizeof due.port), memcpy(record_before, b, DFC_CALL);
        read_record(&r, b, &peers_port);
        dfc_run(&i, &ours), peer_run(&i, &peers);
        if (memcmp(&ours.said, &peers.said, sizeof ours.said) != 0 || !bytes_agree(&i, &ours.said)) return differ(&i, &ours, &peers);
    }
    return 0;
}

#ifdef PEER_FAULTS
int peer_fault;
#endif

int main(int argc, char **argv) {
    if (argc < 3) return fprintf(stderr, "usage: drive SEED CASES [FAULT]\n"), 2;
#ifdef PEER_FAULTS
    if (argc > 3) peer_fault = atoi(argv[3]);
#endif
    seed = strtoull(argv[1], NULL, 10);
    uint64_t cases = strtoull(argv[2], NULL, 10);
    rng r = {seed * 0x9E3779B97F4A7C15ull + 1};
    static output ours, peers;
    for (unsigned left = 0, calls_left = 0; number < cases; number++, left--, calls_left--) {
        input i;
        if (left == 0) some_plan(&r), left = 16;
        if (calls_left == 0) {
            if (!same_row())
                return printf("DIFFERENCE seed %llu case %llu: another record of the row\n", (unsigned long long)seed, (unsigned long long)number), 1;
            some_row(&r), calls_left = row_cases;
        }
        some_input(&r, &i);
        /* all that may be lent is junk before; the long room only where it is lent, and nothing for a command */
        size_t from = i.op == WRITE ? 0 : i.op < COMMAND ? offsetof(output, made) : sizeof ours;
        some_bytes(&r, (uint8_t *)&ours + from, sizeof ours - from);
        memcpy((uint8_t *)&peers + from, (uint8_t *)&ours + from, sizeof ours - from);
        ours.said = peers.said = (dfc_placed){99, 99, 99, 99, 99, 99, 99};
        dfc_run(&i, &ours);
        peer_run(&i, &peers);
        const uint8_t *b = i.op >= PLACE ? touched(&due, &i, &ours.said) : NULL;
        if (b) memcpy(record_before, b, DFC_CALL);
        if (memcmp(&ours.said, &peers.said, sizeof ours.said) != 0 || memcmp((uint8_t *)&ours + from, (uint8_t *)&peers + from, sizeof ours - from) != 0 ||
            (i.op >= PLACE && !bytes_agree(&i, &ours.said)))
            return differ(&i, &ours, &peers);
        done[i.op]++;
        if ((i.op == COMMAND || i.op == PORT_COMMAND) && i.command == DFC_SEND && i.signal >= DFC_OPEN && i.signal <= DFC_CLOSEACK)
            channel_commands++, channel_accepted += ours.said.number == 0;
        if (ours.said.number == 0) {
            accepted[i.op]++;
            if (i.op >= NEW && i.op <= PORT_PLACE) memcpy(pool[pooled++ % 16], ours.made, DFC_SETUP);
        }
    }
    if (sweep()) return 1;
    printf("seed %llu: %llu cases, 0 differences (accepted of done:", (unsigned long long)seed, (unsigned long long)cases);
    for (int k = 0; k < OPERATIONS; k++) printf(" %s %llu/%llu", name[k], (unsigned long long)accepted[k], (unsigned long long)done[k]);
    printf("; of the commands, channel signals sent %llu/%llu)\n", (unsigned long long)channel_accepted, (unsigned long long)channel_commands);
    return 0;
}
