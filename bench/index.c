/* The operations on an index: nanoseconds of ours and of the peer, and the ratio. An update is timed as a pair, there and back, so that each is accepted. */
#include "../host/index_peer.h"
#include "../host/random.h"
#include <stdio.h>
#include <stdlib.h>
#include <time.h>

#define ROUNDS 101
static any_plan p;
static uint8_t file[2][FILE_MAX], room[FILE_MAX];
static size_t file_size;
static dfc_index index_of, other;
static uint32_t address, sets[2][2], outside;
static uint64_t sink;

static double now(void) {
    struct timespec t;
    clock_gettime(CLOCK_PROCESS_CPUTIME_ID, &t);
    return (double)t.tv_sec * 1e9 + (double)t.tv_nsec;
}
static int order(const void *a, const void *b) { return (*(const double *)a > *(const double *)b) - (*(const double *)a < *(const double *)b); }
static void accepted(uint64_t number, uint64_t due) {
    if (number != due) printf("answered %llu and not %llu\n", (unsigned long long)number, (unsigned long long)due), exit(1);
}

#define BOTH(what, call)                                                                                                                   \
    static void ours_##what(void) { call(dfc_index) }                                                                                      \
    static void peer_##what(void) { call(index_peer) }
#define BUILDS(side) accepted(side##_build(file[0], file_size, other).number, 0);
#define UPDATES(side)                                                                                                                      \
    for (int k = 0; k < 2; k++) accepted(side##_update(file[k], file_size, index_of, address, sets[1 - k][0], sets[1 - k][1], room, sizeof room).number, 0);
#define REFUSES_46(side) accepted(side##_update(file[0], file_size, index_of, address, outside, 0, room, sizeof room).number, 46);
#define REFUSES_47(side) accepted(side##_update(file[0], file_size, other, address, sets[1][0], sets[1][1], room, sizeof room).number, 47);
#define LOOKS(side)                                                                                                                        \
    for (uint32_t t = 0; t < 32; t++) sink += side##_look((const uint32_t(*)[257])index_of, 0, t).count + side##_look((const uint32_t(*)[257])index_of, 1, t).count;
BOTH(build, BUILDS)
BOTH(update, UPDATES)
BOTH(refuse_46, REFUSES_46)
BOTH(refuse_47, REFUSES_47)
BOTH(look, LOOKS)

static void row(const char *what, const char *plan, void (*ours)(void), void (*peer)(void)) {
    static double t[2][ROUNDS];
    void (*f[2])(void) = {ours, peer};
    unsigned n = 1;
    for (double d = 0; d < 5e5; n *= 2) {
        double s = now();
        for (unsigned k = 0; k < n; k++) ours();
        d = now() - s;
    }
    for (int r = 0; r < ROUNDS; r++)
        for (int side = 0; side < 2; side++) {
            double s = now();
            for (unsigned k = 0; k < n; k++) f[side]();
            t[side][r] = (now() - s) / n;
        }
    for (int side = 0; side < 2; side++) qsort(t[side], ROUNDS, sizeof(double), order);
    printf("| %-34s | %-24s | %9.0f | %9.0f | %5.2f |\n", what, plan, t[0][ROUNDS / 2], t[1][ROUNDS / 2], t[0][ROUNDS / 2] / t[1][ROUNDS / 2]);
    fflush(stdout);
}

/* `place`: whose sets change; the new ones have one type more or less in each region, reversible types apart */
static void rows(const char *plan, unsigned place) {
    any_subscriber *s = &p.sub[place];
    address = s->address;
    outside = ~p.set[3];
    file_size = plan_bytes(&p, file[0]);
    sets[0][0] = s->source, sets[0][1] = s->target;
    uint32_t free_source = p.set[3] & ~p.set[2], free_target = p.set[4] & ~p.set[2];
    s->source ^= free_source & -free_source, s->target ^= free_target & -free_target;
    sets[1][0] = s->source, sets[1][1] = s->target;
    plan_bytes(&p, file[1]);
    s->source = sets[0][0], s->target = sets[0][1];
    accepted(dfc_index_build(file[0], file_size, index_of).number, 0);
    row("build", plan, ours_build, peer_build);
    row("two updates, there and back", plan, ours_update, peer_update);
    row("update refused, 46", plan, ours_refuse_46, peer_refuse_46);
    memcpy(other, index_of, sizeof other), other[63][256] ^= 1;
    row("update refused, 47 at the last place", plan, ours_refuse_47, peer_refuse_47);
    row("64 look-ups", plan, ours_look, peer_look);
}

#define T(t) ((uint32_t)1 << (t))
static void types_of_teaching(void) {
    memset(&p, 0, sizeof p);
    p.set[0] = 62, p.set[1] = p.set[2] = T(2) | T(4), p.set[3] = T(1) | T(2) | T(4), p.set[4] = T(2) | T(3) | T(4) | T(5);
    p.row[0][1] = T(2) | T(4), p.row[0][2] = T(4), p.row[1][5] = T(4) | T(2), p.row[1][4] = T(2);
}
static void sub(uint32_t at, uint8_t kind, uint32_t source, uint32_t target, uint8_t boxes, uint16_t first) {
    any_subscriber *s = &p.sub[p.count++];
    *s = (any_subscriber){.kind = kind, .boxes = boxes, .address = at, .source = source, .target = target};
    for (int j = 0; j < boxes; j++) s->box[j] = (uint16_t)(first + j);
}

int main(void) {
    printf("| operation                          | plan                     |   ours ns |   peer ns | ratio |\n|---|---|---|---|---|\n");
    types_of_teaching();
    sub(200, 1, T(1) | T(2) | T(4), T(2) | T(4), 1, 7), sub(300, 1, T(2) | T(4), T(2) | T(3) | T(4) | T(5), 1, 8);
    sub(555, 2, 0, 0, 2, 40), sub(556, 2, 0, 0, 0, 0), sub(700, 4, T(1), T(3), 0, 0), sub(900, 3, 0, 0, 1, 60);
    rows("teaching plan", 1);
    types_of_teaching();
    for (unsigned i = 0; i < 256; i++) sub(1000 + 3 * i, (uint8_t)(1 + i % 4), T(1) | T(2) | T(4), T(2) | T(3) | T(4) | T(5), i % 4 == 3 ? 0 : 1, (uint16_t)(100 + i));
    rows("256 subscribers, 7 lists", 128);
    /* 31 types in each choice, none reversible; each subscriber has a quarter of them */
    memset(&p, 0, sizeof p);
    rng r = {42};
    p.set[0] = 0xffffffff, p.set[3] = p.set[4] = 0x7fffffff;
    for (unsigned i = 0; i < 256; i++) sub(1000 + 3 * i, 4, (uint32_t)(rnd(&r) >> 32) & (uint32_t)(rnd(&r) >> 33), (uint32_t)(rnd(&r) >> 32) & (uint32_t)(rnd(&r) >> 33), 0, 0);
    rows("256 subscribers, 62 lists", 128);
    return sink == 42;
}
