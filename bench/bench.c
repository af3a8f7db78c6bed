/* bench: nanoseconds for the archive and for the peer, medians of interleaved rounds in one process, and the bytes of stack that each used. */
#define _GNU_SOURCE
#include "../host/peer.h"
#include "../host/random.h"
#include <stdio.h>
#include <stdlib.h>
#include <time.h>
#include <ucontext.h>

#define ROUNDS 101
#define STACK (512 * 1024)

static uint8_t file[FILE_MAX], room[FILE_MAX], sent[DFC_SETUP], made[DFC_SETUP], list[2][32], types[32];
static size_t file_size;
static uint32_t maker, dialled;

static uint64_t sink;
static double now(void) {
    struct timespec t;
    clock_gettime(CLOCK_PROCESS_CPUTIME_ID, &t); /* what other programs take does not count */
    return (double)t.tv_sec * 1e9 + (double)t.tv_nsec;
}

#define OPERATION(what, call_ours, call_peer)                                                                                              \
    static void ours_##what(void) { sink += call_ours; }                                                                                  \
    static void peer_##what##_once(void) { sink += call_peer; }
OPERATION(check, dfc_check(file, file_size).number, peer_check(file, file_size).number)
OPERATION(write, dfc_write(file, file_size, room, sizeof room).number, peer_write(file, file_size, room, sizeof room).number)
OPERATION(zone, dfc_zone(file, file_size, DFC_SOURCE, maker, types).value, peer_zone(file, file_size, DFC_SOURCE, maker, types).value)
OPERATION(new, dfc_new(file, file_size, DFC_FEATURE, 2, maker, (const uint8_t *)"300", 3, dialled, made).number,
          peer_new(file, file_size, DFC_FEATURE, 2, maker, (const uint8_t *)"300", 3, dialled, made).number)
OPERATION(route, dfc_route(file, file_size, sent, DFC_SETUP, list[0], 32, list[1], 32, made).value,
          peer_route(file, file_size, sent, DFC_SETUP, list[0], 32, list[1], 32, made).value)

/* ---- calls: a row of 1,024 in which one record is free, the first or the last */

#define RECORDS 1024
static uint8_t our_row[RECORDS * DFC_CALL];
static peer_call peers_row[RECORDS];
static size_t free_record;

static void ours_state(size_t k, uint8_t caller, uint8_t callee) { our_row[k * DFC_CALL] = caller, our_row[k * DFC_CALL + 1] = callee; }
static void peers_state(size_t k, uint8_t caller, uint8_t callee) { peers_row[k].state[0] = caller, peers_row[k].state[1] = callee; }
static uint64_t ours_use(size_t k) { return (uint64_t)our_row[k * DFC_CALL + 2] << 8 | our_row[k * DFC_CALL + 3]; }
static uint64_t peers_use(size_t k) { return peers_row[k].use; }

static void all_taken_but(size_t r) {
    free_record = r;
    dfc_clear(our_row, sizeof our_row), peer_clear(peers_row, RECORDS);
    for (size_t k = 0; k < RECORDS; k++)
        if (k != r) ours_state(k, 3, 3), peers_state(k, 3, 3);
}

/* Placing leaves the record taken; its two states are put back, by both sides alike. */
#define CALLS(name, side, row, row_length)                                                                                                 \
    static dfc_placed name##_placed(void) {                                                                                                \
        return side##_place(file, file_size, sent, DFC_SETUP, row, row_length, list[0], 32, list[1], 32, made);                            \
    }                                                                                                                                      \
    static void name##_place(void) {                                                                                                       \
        dfc_placed p = name##_placed();                                                                                                    \
        name##_state(p.record_number, 0, 0);                                                                                               \
        sink += p.record_number;                                                                                                           \
    }                                                                                                                                      \
    static uint64_t name##_do(dfc_placed p, uint8_t kind, uint8_t by, uint8_t signal, uint8_t tunnel, uint8_t code) {                      \
        dfc_commanded c = side##_command(row, row_length, p.record_number, (uint16_t)p.use_number, kind, by, signal, tunnel, code);        \
        if (c.number) printf("refused: %llu\n", (unsigned long long)c.number), exit(1);                                                    \
        return c.signal;                                                                                                                   \
    }                                                                                                                                      \
    /* answered, a special and a status one way, a status the other way, torn down by the caller: all delivered, and the record free again */ \
    static void name##_talk(dfc_placed p) {                                                                                                \
        sink += name##_do(p, DFC_ACCEPT, 0, 0, 0, 0) + name##_do(p, DFC_DELIVER, DFC_CALLER, 0, 0, 0);                                     \
        sink += name##_do(p, DFC_SEND, DFC_CALLEE, DFC_AVAIL, 0, 0) + name##_do(p, DFC_SEND, DFC_CALLER, DFC_SPECIAL, 0, 5);               \
        sink += name##_do(p, DFC_SEND, DFC_CALLER, DFC_NONE, 0, 0) + name##_do(p, DFC_DELIVER, DFC_CALLER, 0, 0, 0);                       \
        sink += name##_do(p, DFC_DELIVER, DFC_CALLEE, 0, 0, 0) + name##_do(p, DFC_DELIVER, DFC_CALLEE, 0, 0, 0);                           \
        sink += name##_do(p, DFC_SEND_TEARDOWN, DFC_CALLER, 0, 0, 0) + name##_do(p, DFC_DELIVER, DFC_CALLEE, 0, 0, 0);                     \
        sink += name##_do(p, DFC_DELIVER, DFC_CALLER, 0, 0, 0);                                                                            \
    }                                                                                                                                      \
    static void name##_life(void) { name##_talk(name##_placed()); }                                                                        \
    static void name##_sent(dfc_placed p, uint8_t by, uint8_t signal, uint8_t tunnel, uint8_t code) {                                      \
        sink += name##_do(p, DFC_SEND, by, signal, tunnel, code) + name##_do(p, DFC_DELIVER, 1 - by, 0, 0, 0);                             \
    }                                                                                                                                      \
    /* answered; a channel opened, acknowledged and readied, ten tones in it, closed; torn down: 35 commands */                            \
    static void name##_channel(void) {                                                                                                     \
        dfc_placed p = name##_placed();                                                                                                    \
        sink += name##_do(p, DFC_ACCEPT, 0, 0, 0, 0) + name##_do(p, DFC_DELIVER, DFC_CALLER, 0, 0, 0);                                     \
        name##_sent(p, DFC_CALLER, DFC_OPEN, 1, 0), name##_sent(p, DFC_CALLEE, DFC_OACK, 1, 0), name##_sent(p, DFC_CALLER, DFC_READY, 1, 0); \
        for (uint8_t k = 0; k < 10; k++) name##_sent(p, DFC_CALLER, DFC_DTMF, 1, k);                                                       \
        name##_sent(p, DFC_CALLER, DFC_CLOSE, 1, 0), name##_sent(p, DFC_CALLEE, DFC_CLOSEACK, 1, 0);                                       \
        sink += name##_do(p, DFC_SEND_TEARDOWN, DFC_CALLER, 0, 0, 0) + name##_do(p, DFC_DELIVER, DFC_CALLEE, 0, 0, 0);                     \
        sink += name##_do(p, DFC_DELIVER, DFC_CALLER, 0, 0, 0);                                                                            \
    }                                                                                                                                      \
    static void name##_commands(void) {                                                                                                    \
        name##_state(free_record, 1, 2);                                                                                                   \
        name##_talk((dfc_placed){.record_number = free_record, .use_number = name##_use(free_record)});                                    \
    }
CALLS(ours, dfc, our_row, sizeof our_row)
CALLS(peers, peer, peers_row, RECORDS)

/* ---- the stack: a call on a painted stack of its own */

static uint8_t painted[STACK] __attribute__((aligned(64)));
static ucontext_t home, away;
static void (*todo)(void);
static void there(void) { todo(); }
static size_t stack_of(void (*f)(void)) {
    memset(painted, 0xA5, STACK);
    getcontext(&away);
    away.uc_stack.ss_sp = painted, away.uc_stack.ss_size = STACK, away.uc_link = &home;
    todo = f;
    makecontext(&away, there, 0);
    swapcontext(&home, &away);
    size_t k = 0;
    while (k < STACK && painted[k] == 0xA5) k++;
    return STACK - k;
}

static int order(const void *a, const void *b) { return (*(const double *)a > *(const double *)b) - (*(const double *)a < *(const double *)b); }

static void row(const char *what, void (*ours)(void), void (*peer)(void)) {
    double t[2][ROUNDS];
    void (*f[2])(void) = {ours, peer};
    unsigned n = 1;
    for (double d = 0; d < 5e5; n *= 2) {
        double s = now();
        for (unsigned k = 0; k < n; k++) ours();
        d = now() - s;
    }
    for (int r = 0; r < ROUNDS; r++)
        for (int side = 0; side < 2; side++) {
            double s = now();
            for (unsigned k = 0; k < n; k++) f[side]();
            t[side][r] = (now() - s) / n;
        }
    for (int side = 0; side < 2; side++) qsort(t[side], ROUNDS, sizeof(double), order);
    printf("| %-46s | %9.0f | %9.0f | %5.2f | %7zu | %7zu |\n", what, t[0][ROUNDS / 2], t[1][ROUNDS / 2], t[0][ROUNDS / 2] / t[1][ROUNDS / 2],
           stack_of(ours), stack_of(peer));
    fflush(stdout);
}

/* ---- the plans */

static any_plan p;
#define T(t) ((uint32_t)1 << (t))
static void sub(uint32_t address, uint8_t kind, uint32_t source, uint32_t target, uint8_t boxes, uint16_t first) {
    any_subscriber *s = &p.sub[p.count++];
    *s = (any_subscriber){.kind = kind, .boxes = boxes, .address = address, .source = source, .target = target};
    for (int j = 0; j < boxes; j++) s->box[j] = (uint16_t)(first + j);
}
static void types_of_teaching(void) {
    memset(&p, 0, sizeof p);
    p.set[0] = 62, p.set[1] = p.set[2] = T(2) | T(4), p.set[3] = T(1) | T(2) | T(4), p.set[4] = T(2) | T(3) | T(4) | T(5);
    p.row[0][1] = T(2) | T(4), p.row[0][2] = T(4), p.row[1][5] = T(4) | T(2), p.row[1][4] = T(2);
}
static void teaching(void) {
    types_of_teaching();
    sub(200, 1, T(1) | T(2) | T(4), T(2) | T(4), 1, 7), sub(300, 1, T(2) | T(4), T(2) | T(3) | T(4) | T(5), 1, 8);
    sub(555, 2, 0, 0, 2, 40), sub(556, 2, 0, 0, 0, 0), sub(700, 4, T(1), T(3), 0, 0), sub(900, 3, 0, 0, 1, 60);
    maker = 200, dialled = 300;
}
static void many(void) {
    types_of_teaching();
    for (unsigned i = 0; i < 256; i++) sub(1000 + 3 * i, (uint8_t)(1 + i % 4), T(1) | T(2) | T(4), T(2) | T(3) | T(4) | T(5), i % 4 == 3 ? 0 : 1, (uint16_t)(100 + i));
    maker = 1000 + 3 * 128, dialled = 1000 + 3 * 255;
}
static void trunks(void) {
    types_of_teaching();
    for (unsigned i = 0; i < 256; i++) sub(1000 + 3 * i, 2, 0, 0, 4, (uint16_t)(100 + 4 * i));
    maker = 1000, dialled = 1003;
}
static void take(void (*plan)(void)) {
    plan();
    file_size = plan_bytes(&p, file);
    dfc_answer a = dfc_check(file, file_size);
    if (a.number) printf("plan refused: %llu at %llu\n", (unsigned long long)a.number, (unsigned long long)a.value), exit(1);
    a = dfc_new(file, file_size, DFC_FEATURE, 2, maker, (const uint8_t *)"300", 3, dialled, sent);
    if (a.number) printf("setup refused: %llu\n", (unsigned long long)a.number), exit(1);
}

static void named_row(const char *operation, const char *plan, void (*ours)(void), void (*peer)(void)) {
    char name[64];
    snprintf(name, sizeof name, "%s, %s", operation, plan);
    row(name, ours, peer);
}

static void file_rows(const char *plan) {
    named_row("file read, plan check", plan, ours_check, peer_check_once);
    named_row("file write", plan, ours_write, peer_write_once);
}

static void setup_rows(const char *plan) {
    named_row("zone", plan, ours_zone, peer_zone_once);
    named_row("new", plan, ours_new, peer_new_once);
    named_row("route", plan, ours_route, peer_route_once);
}

static void call_rows(const char *where, size_t r) {
    all_taken_but(r);
    named_row("place in 1,024", where, ours_place, peers_place);
    named_row("a call's life", where, ours_life, peers_life);
    named_row("its 11 commands", where, ours_commands, peers_commands);
    named_row("a call's life, one channel", where, ours_channel, peers_channel);
}

int main(void) {
    printf("| operation                                      |   ours ns |   peer ns | ratio | stack B |  peer B |\n|---|---|---|---|---|---|\n");
    take(teaching);
    file_rows("teaching plan");
    setup_rows("teaching plan");
    call_rows("free record first", 0);
    call_rows("free record last", RECORDS - 1);
    take(many);
    file_rows("256 subscribers");
    setup_rows("256 subscribers");
    take(trunks);
    file_rows("256 trunks with 4 boxes");
    return sink == 42;
}
