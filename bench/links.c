/* bench links: nanoseconds for the archive of links and for its peer, medians of interleaved rounds in one process. */
#define _GNU_SOURCE
#include "../host/links_peer.h"
#include <stdio.h>
#include <stdlib.h>
#include <string.h>
#include <time.h>

#define ROUNDS 101
#define TIMES 2000

static uint64_t sum, start[DFC_LINKS], ours[DFC_LINKS], peers[DFC_LINKS], junk[DFC_LINKS];
static uint32_t sources[DFC_LINKS];
static uint16_t shift; /* which link: it goes round, so that no search is learned by heart */

static double now(void) {
    struct timespec t;
    clock_gettime(CLOCK_PROCESS_CPUTIME_ID, &t); /* what other programs take does not count */
    return (double)t.tv_sec * 1e9 + (double)t.tv_nsec;
}

/* The k-th of n links: sink ports 1 to 8 and channels 1 to 8 of a conference, all from port 9. */
static uint16_t port(unsigned k) { return (uint16_t)(1 + k / 8); }
static uint16_t channel(unsigned k) { return (uint16_t)(1 + k % 8); }
static void fill(unsigned n) {
    memset(start, 0, sizeof start);
    for (unsigned k = 0; k < n; k++) start[k] = (uint64_t)port(k) << 48 | (uint64_t)channel(k) << 32 | (uint64_t)9 << 16 | 1;
    memcpy(ours, start, sizeof start), memcpy(peers, start, sizeof start);
}

static unsigned count;
static unsigned next(void) { return shift = (uint16_t)(shift * 25173 + 13849), count ? shift / 8u % count : 0; }
static void must(dfc_answer a, uint64_t number) {
    if (a.number != number) printf("number %llu\n", (unsigned long long)a.number), exit(1);
    sum += a.value;
}

#define SIDE(side, set)                                                                                                        \
    static void side##_add_present(void) { unsigned k = next(); must(side##_links_add(set, port(k), channel(k), 9, 1), 0); }  \
    static void side##_add_and_remove(void) {                                                                                  \
        unsigned k = next();                                                                                                   \
        must(side##_links_add(set, port(k), channel(k), 10, 1), 0), must(side##_links_remove(set, port(k), channel(k), 10, 1), 0); \
    }                                                                                                                          \
    static void side##_add_full(void) { unsigned k = next(); must(side##_links_add(set, port(k), channel(k), 10, 1), 81); }   \
    static void side##_remove_absent(void) { unsigned k = next(); must(side##_links_remove(set, port(k), channel(k), 10, 1), 0); } \
    static void side##_drop(void) { unsigned k = next(); memcpy(set, start, sizeof start), must(side##_links_drop(set, port(k)), 0); } \
    static void side##_drop_nothing(void) { must(side##_links_drop(set, 11), 0); }                                             \
    static void side##_sources(void) { unsigned k = next(); must(side##_links_sources(set, port(k), channel(k), sources), 0); } \
    static void side##_no_set(void) { must(side##_links_drop(junk, 1), 82); }
SIDE(dfc, ours)
SIDE(peer, peers)

static int by_size(const void *a, const void *b) { return *(const double *)a < *(const double *)b ? -1 : 1; }
static double once(void (*f)(void)) {
    shift = 1;
    double t = now();
    for (int i = 0; i < TIMES; i++) f();
    return (now() - t) / TIMES;
}
static void row(const char *what, void (*mine)(void), void (*other)(void)) {
    double a[ROUNDS], b[ROUNDS];
    for (int i = 0; i < ROUNDS; i++) a[i] = once(mine), b[i] = once(other);
    qsort(a, ROUNDS, sizeof *a, by_size), qsort(b, ROUNDS, sizeof *b, by_size);
    printf("| %-38s, %2u links | %7.1f | %7.1f | %5.2f |\n", what, count, a[ROUNDS / 2], b[ROUNDS / 2], a[ROUNDS / 2] / b[ROUNDS / 2]);
}
#define ROW(what, operation) row(what, dfc_##operation, peer_##operation)

int main(void) {
    static const unsigned counts[4] = {0, 8, 32, 63};
    printf("| operation                                        | ours ns | peer ns | ratio |\n|---|---|---|---|\n");
    for (int i = 0; i < 4; i++) {
        fill(count = counts[i]);
        if (count) ROW("add a link that is there", add_present);
        ROW("add a link, and remove it", add_and_remove);
        ROW("remove an absent link", remove_absent);
        ROW("drop a port, the set copied before", drop);
        ROW("drop a port that has no link", drop_nothing);
        ROW("list the sources of a sink", sources);
    }
    fill(count = 64);
    ROW("add a link that is there", add_present);
    ROW("add where there is no room", add_full);
    ROW("drop a port, the set copied before", drop);
    memcpy(junk, start, sizeof start), junk[63] = 1;
    ROW("a set with a fault in its last place", no_set);
    return sum == 42;
}
