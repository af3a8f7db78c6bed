/* bench/store: nanoseconds of operational data for the archive and for the peer, medians of interleaved rounds in one process.
 * The store has 1,024 rows of four customers; the row that is asked for stands at the first place, at the last, or nowhere. Every call reads the plan file. */
#define _GNU_SOURCE
#include "../host/random.h"
#include "../host/store_peer.h"
#include <stdio.h>
#include <stdlib.h>
#include <time.h>

#define ROUNDS 101

static uint8_t file[FILE_MAX];
static size_t file_size;
static uint32_t features[DFC_FEATURES], owners[DFC_OWNERS], relations[DFC_RELATIONS], rows[DFC_DATA];
static uint32_t address, key;
static uint64_t sink;

static double now(void) {
    struct timespec t;
    clock_gettime(CLOCK_PROCESS_CPUTIME_ID, &t); /* what other programs take does not count */
    return (double)t.tv_sec * 1e9 + (double)t.tv_nsec;
}

#define BOX file, file_size, features, owners, 2, address, relations, rows, 1, key
#define SIDE(side)                                                                                                                         \
    static void read_of_##side(void) { sink += side##_data_read(BOX).value; }                                                                 \
    static void write_of_##side(void) { sink += side##_data_write(BOX, 7).number; }                                                           \
    /* the row is added again, at the place that it had */                                                                                 \
    static void delete_of_##side(void) { sink += side##_data_delete(BOX).number + side##_data_write(BOX, 7).number; }
SIDE(dfc)
SIDE(peer)

static int order(const void *a, const void *b) { return (*(const double *)a > *(const double *)b) - (*(const double *)a < *(const double *)b); }

static void row(const char *what, const char *plan, void (*ours)(void), void (*peer)(void)) {
    static double t[2][ROUNDS];
    void (*f[2])(void) = {ours, peer};
    unsigned n = 1;
    for (double d = 0; d < 5e5; n *= 2) {
        double s = now();
        for (unsigned k = 0; k < n; k++) ours();
        d = now() - s;
    }
    for (int r = 0; r < ROUNDS; r++)
        for (int side = 0; side < 2; side++) {
            double s = now();
            for (unsigned k = 0; k < n; k++) f[side]();
            t[side][r] = (now() - s) / n;
        }
    for (int side = 0; side < 2; side++) qsort(t[side], ROUNDS, sizeof(double), order);
    char name[80];
    snprintf(name, sizeof name, "%s, %s", what, plan);
    printf("| %-52s | %9.0f | %9.0f | %5.2f |\n", name, t[0][ROUNDS / 2], t[1][ROUNDS / 2], t[0][ROUNDS / 2] / t[1][ROUNDS / 2]);
    fflush(stdout);
}

static any_plan p;
#define T(t) ((uint32_t)1 << (t))
static void plan_of(unsigned subscribers) {
    memset(&p, 0, sizeof p);
    p.set[0] = 62, p.set[1] = p.set[2] = T(2) | T(4), p.set[3] = T(1) | T(2) | T(4), p.set[4] = T(2) | T(3) | T(4) | T(5);
    p.row[0][1] = T(2) | T(4), p.row[0][2] = T(4), p.row[1][5] = T(4) | T(2), p.row[1][4] = T(2);
    for (unsigned i = 0; i < subscribers; i++) {
        any_subscriber *s = &p.sub[p.count++];
        *s = (any_subscriber){.kind = 1, .boxes = 1, .address = 1000 + 3 * i, .source = T(1) | T(2) | T(4), .target = T(2) | T(3) | T(4) | T(5)};
        s->box[0] = (uint16_t)(100 + i);
    }
    file_size = plan_bytes(&p, file);
    address = 1000 + 3 * (subscribers / 2);
    memset(owners, 0, sizeof owners);
    for (unsigned i = 0; i < subscribers; i++) owners[2 * i] = 1000 + 3 * i, owners[2 * i + 1] = 1 + i % 4;
}

/* all 1,024 places taken, each by another key */
static void fill(void) {
    uint32_t mine = owners[2 * (p.count / 2) + 1];
    for (uint32_t i = 0; i < 1024; i++) rows[4 * i] = 2, rows[4 * i + 1] = mine, rows[4 * i + 2] = 5000 + i, rows[4 * i + 3] = i;
}

static void rows_of(const char *plan) {
    fill();
    key = 5000;
    row("read, first place", plan, read_of_dfc, read_of_peer);
    row("write over, first place", plan, write_of_dfc, write_of_peer);
    row("delete and add, first place", plan, delete_of_dfc, delete_of_peer);
    fill();
    key = 5000 + 1023;
    row("read, last place", plan, read_of_dfc, read_of_peer);
    row("write over, last place", plan, write_of_dfc, write_of_peer);
    row("delete and add, last place", plan, delete_of_dfc, delete_of_peer);
    fill();
    key = 1;
    row("read, absent (70)", plan, read_of_dfc, read_of_peer);
    row("add, full (71)", plan, write_of_dfc, write_of_peer);
}

int main(void) {
    features[2] = 9, relations[2] = 9, relations[3] = 1;
    printf("| operation                                            |   ours ns |   peer ns | ratio |\n|---|---|---|---|\n");
    plan_of(6);
    if (peer_check(file, file_size).number) return 1;
    rows_of("6 subscribers");
    plan_of(256);
    rows_of("256 subscribers");
    return sink == 42;
}
