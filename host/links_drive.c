/* links_drive SEED CASES [FAULT]: the archive of links and its peer on the same sets, sound and damaged; every answer and every number that was lent compared.
 * Prints the first difference whole and ends with 1; else one line and 0. */
#include "links_peer.h"
#include "random.h"
#include <stdio.h>
#include <stdlib.h>

enum { ADD, REMOVE, DROP, SOURCES, OPERATIONS };
static const char *const name[OPERATIONS] = {"add", "remove", "drop", "sources"};
#ifdef PEER_FAULTS
int peer_fault;
#endif

/* what is lent, with a number before and after it that no function may touch */
typedef struct {
    uint64_t before, set[DFC_LINKS], after;
    uint32_t low, sources[DFC_LINKS], high;
} lent;
typedef struct {
    int op;
    uint16_t sink_port, sink_channel, source_port, source_channel;
} input;

static uint64_t seed, number, done[OPERATIONS], accepted[OPERATIONS], sound, junk, refused[3];

/* Ports and channels are few, so that links meet; some are the greatest and the least. */
static uint16_t small(rng *r) {
    switch (below(r, 16)) {
    case 0: return 0;
    case 1: return 65535;
    case 2: return (uint16_t)rnd(r);
    default: return (uint16_t)below(r, 5);
    }
}
static uint64_t any_link(rng *r) { return (uint64_t)small(r) << 48 | (uint64_t)small(r) << 32 | (uint64_t)small(r) << 16 | small(r); }
static int one_port(uint64_t l) { return (l >> 48) == (l >> 16 & 0xffff); }
static int by_size(const void *a, const void *b) {
    uint64_t x = *(const uint64_t *)a, y = *(const uint64_t *)b;
    return x < y ? -1 : x > y;
}

/* A set with at most `most` links. */
static unsigned any_set(rng *r, uint64_t set[DFC_LINKS], unsigned most) {
    uint64_t all[2 * DFC_LINKS];
    unsigned n = 0, kept = 0;
    for (unsigned i = 0; i < most; i++) {
        all[n] = any_link(r);
        if (!one_port(all[n])) n++;
    }
    qsort(all, n, sizeof *all, by_size);
    memset(set, 0, DFC_LINKS * sizeof *set);
    for (unsigned i = 0; i < n && kept < DFC_LINKS; i++)
        if (i == 0 || all[i] != all[i - 1]) set[kept++] = all[i];
    return kept;
}

/* One thing in the set made another, so that most of them are none any more. */
static void damage_set(rng *r, uint64_t set[DFC_LINKS], unsigned n) {
    unsigned at = below(r, DFC_LINKS), other = below(r, DFC_LINKS);
    uint64_t t = set[at];
    switch (below(r, 8)) {
    case 0: set[at] = rnd(r); break;
    case 1: set[63] = 1 + below(r, 9); break;
    case 2: set[at] = set[other], set[other] = t; break;
    case 3: if (n) set[n / 2] = 0; break;
    case 4: if (n > 1) set[n - 1] = set[n - 2]; break; /* twice the same */
    case 5: if (n) set[n - 1] = 0xffff000000000000u | (uint64_t)0xffff << 16 | below(r, 9); break; /* both ends at one port */
    case 6: if (n < DFC_LINKS) set[n] = below(r, 3); break;
    default: for (int i = 0; i < DFC_LINKS; i++) set[i] = rnd(r);
    }
}

static int is_set(const uint64_t set[DFC_LINKS]) { /* only for the counts below */
    for (int i = 0; i < DFC_LINKS; i++)
        if (set[i] ? one_port(set[i]) || (i && set[i] <= set[i - 1]) : i < DFC_LINKS - 1 && set[i + 1]) return 0;
    return 1;
}

#define SIDE(side)                                                                                                                                          \
    static dfc_answer side##_does(const input *i, lent *l) {                                                                                               \
        switch (i->op) {                                                                                                                                   \
        case ADD: return side##_links_add(l->set, i->sink_port, i->sink_channel, i->source_port, i->source_channel);                                       \
        case REMOVE: return side##_links_remove(l->set, i->sink_port, i->sink_channel, i->source_port, i->source_channel);                                 \
        case DROP: return side##_links_drop(l->set, i->sink_port);                                                                                         \
        default: return side##_links_sources(l->set, i->sink_port, i->sink_channel, l->sources);                                                           \
        }                                                                                                                                                  \
    }
SIDE(dfc)
SIDE(peer)

static void show(const char *who, dfc_answer a, const lent *l, int sources) {
    printf(" %s: number %llu value %llu\n", who, (unsigned long long)a.number, (unsigned long long)a.value);
    for (int i = 0; i < DFC_LINKS; i++) printf("%s%016llx", i % 8 == 0 ? "\n    " : " ", (unsigned long long)l->set[i]);
    if (sources)
        for (int i = 0; i < DFC_LINKS; i++) printf("%s%08x", i % 16 == 0 ? "\n    " : " ", l->sources[i]);
    printf("\n");
}

int main(int argc, char **argv) {
    seed = argc > 1 ? strtoull(argv[1], 0, 10) : 1;
    uint64_t cases = argc > 2 ? strtoull(argv[2], 0, 10) : 1000000;
#ifdef PEER_FAULTS
    peer_fault = argc > 3 ? atoi(argv[3]) : 0;
#endif
    rng r = {seed * 0x9E3779B97F4A7C15ull + 1};
    static lent before, ours, peers;
    for (number = 1; number <= cases; number++) {
        input i = {(int)below(&r, OPERATIONS), small(&r), small(&r), small(&r), small(&r)};
        static const unsigned most[6] = {0, 4, 20, 60, 110, 128};
        unsigned n = any_set(&r, before.set, most[below(&r, 6)]);
        before.before = rnd(&r), before.after = rnd(&r), before.low = (uint32_t)rnd(&r), before.high = (uint32_t)rnd(&r);
        for (int k = 0; k < DFC_LINKS; k++) before.sources[k] = (uint32_t)rnd(&r);
        if (n && chance(&r, 3)) { /* about a link that is there */
            uint64_t l = before.set[below(&r, n)];
            i.sink_port = (uint16_t)(l >> 48), i.sink_channel = (uint16_t)(l >> 32), i.source_port = (uint16_t)(l >> 16), i.source_channel = (uint16_t)l;
        }
        if (below(&r, 8) < 5) damage_set(&r, before.set, n);
        if (is_set(before.set)) sound++;
        else junk++;
        ours = before, peers = before;
        dfc_answer a = dfc_does(&i, &ours), b = peer_does(&i, &peers);
        done[i.op]++;
        if (a.number == 0) accepted[i.op]++;
        else if (a.number >= 80 && a.number <= 82) refused[a.number - 80]++;
        if (a.number != b.number || a.value != b.value || memcmp(&ours, &peers, sizeof ours)) {
            printf("DIFFERENCE seed %llu case %llu: %s sink %u.%u source %u.%u\n", (unsigned long long)seed, (unsigned long long)number, name[i.op], i.sink_port,
                   i.sink_channel, i.source_port, i.source_channel);
            show("before", (dfc_answer){0, 0}, &before, 0), show("ours", a, &ours, i.op == SOURCES), show("peer", b, &peers, i.op == SOURCES);
            return 1;
        }
    }
    printf("links, seed %llu: %llu cases, %llu on sets and %llu on junk, no difference; refused 82 %llu, 80 %llu, 81 %llu; accepted of", (unsigned long long)seed,
           (unsigned long long)cases, (unsigned long long)sound, (unsigned long long)junk, (unsigned long long)refused[2], (unsigned long long)refused[0],
           (unsigned long long)refused[1]);
    for (int k = 0; k < OPERATIONS; k++) printf("%s %s %llu of %llu", k ? "," : "", name[k], (unsigned long long)accepted[k], (unsigned long long)done[k]);
    printf("\n");
    return 0;
}
