/* store_drive SEED CASES [FAULT]: operational data by the archive and by the second implementation, on the same random words; every answer and every lent word compared.
 * Half of the cases are on junk: any words, with doubles, marks above 64, relations of neither, pairs of one address. Half are on sound stores: rows of relations that are there, none
 * twice, from empty to full. One plan file in sixteen is damaged.
 * Prints the first difference and ends with 1; else one line and 0. */
#include "random.h"
#include "store_peer.h"
#include <stdio.h>
#include <stdlib.h>

#ifdef PEER_FAULTS
int peer_fault;
#endif

enum { READ, WRITE, DELETE, OPERATIONS };
static const char *const name[OPERATIONS] = {"read", "write", "delete"};
enum { JUNK, SOUND };
#define BETWEEN 500 /* operations on one store */

/* what is lent, with some words behind it */
typedef struct {
    uint32_t features[DFC_FEATURES], owners[DFC_OWNERS], relations[DFC_RELATIONS], rows[DFC_DATA], behind[8];
} lent;
static lent ours, peers;
static any_plan p;
static uint8_t file[FILE_MAX];
static size_t file_size;
static uint64_t done[2][OPERATIONS], closed[2], full[2], no_plan[2];

static uint32_t any_word(rng *r) { return (uint32_t)(rnd(r) >> 32); }
static uint32_t small_or_any(rng *r, uint32_t n) { return chance(r, 50) ? any_word(r) : below(r, n); }
static uint32_t some_address(rng *r) { return p.count && !chance(r, 12) ? p.sub[below(r, p.count < 256 ? p.count : 256)].address : small_or_any(r, 30); }

static void some_plan(rng *r) {
    uint32_t k = below(r, 20);
    random_plan(r, &p, k == 0 ? 256 : k == 1 ? 257 : k == 2 ? 0 : 1 + below(r, 9));
    if (chance(r, 32)) break_plan(r, &p);
    file_size = plan_bytes(&p, file);
    if (chance(r, 32)) file_size = damage(r, file, file_size);
}

static void some_owners(rng *r) {
    for (int i = 0; i < 32; i++) ours.features[i] = below(r, 4);
    for (int i = 0; i < 256; i++) {
        ours.owners[2 * i] = i < (int)p.count ? p.sub[i].address : chance(r, 2) ? 0 : some_address(r);
        ours.owners[2 * i + 1] = chance(r, 8) ? 0 : 1 + below(r, 3);
    }
    if (chance(r, 3)) ours.owners[below(r, DFC_OWNERS)] = any_word(r);
}

static void junk(rng *r) {
    uint32_t marks = chance(r, 2) ? 4 : 80;
    bool no_free = chance(r, 2);
    for (int i = 0; i < DFC_RELATIONS; i++) ours.relations[i] = small_or_any(r, 4);
    for (int i = 0; i < 1024; i++) {
        uint32_t *row = ours.rows + 4 * i;
        row[0] = no_free ? 1 + small_or_any(r, marks) % 0xffffffffu : small_or_any(r, marks);
        row[1] = small_or_any(r, 4), row[2] = small_or_any(r, 40), row[3] = any_word(r);
    }
}

/* rows of relations that are there, each with a key of its own in its relation */
static void sound(rng *r) {
    uint32_t n = chance(r, 2) ? 1018 + below(r, 7) : chance(r, 2) ? below(r, 40) : below(r, 1025), step = n > 1000 ? 0 : below(r, 4);
    memset(ours.rows, 0, sizeof ours.rows);
    for (int i = 0; i < 64; i++) {
        uint32_t kind = below(r, 4); /* absent, of a feature, of customers, of both */
        ours.relations[2 * i] = kind & 1 ? 1 + below(r, 3) : 0;
        ours.relations[2 * i + 1] = kind & 2 ? 1 + below(r, 2) : 0;
    }
    ours.relations[1] = 1; /* one of customers at least */
    uint32_t place = 0;
    for (uint32_t i = 0; i < n && place < 1024; i++, place += 1 + (step ? below(r, step) : 0)) {
        uint32_t relation = chance(r, 2) ? 0 : below(r, 64), *row = ours.rows + 4 * place;
        if (!ours.relations[2 * relation] && !ours.relations[2 * relation + 1]) relation = 0;
        row[0] = relation + 1, row[1] = ours.relations[2 * relation + 1] ? 1 + below(r, 3) : 0, row[2] = i, row[3] = any_word(r);
    }
}

/* A box that may use the row, where a few tries find one: so that a good share of the cases is accepted. */
static void fit(rng *r, uint32_t relation, uint32_t owner, uint8_t *type, uint32_t *address) {
    if (relation >= 64) return;
    for (int k = 0; k < 60; k++) {
        uint32_t t = below(r, 32);
        if ((p.set[0] >> t & 1) && ours.features[t] == ours.relations[2 * relation]) {
            *type = (uint8_t)t;
            break;
        }
    }
    for (int k = 0; k < 30 && p.count; k++) {
        uint32_t i = below(r, p.count < 256 ? p.count : 256);
        if (p.sub[i].kind != DFC_RESOURCE && ours.owners[2 * i] == p.sub[i].address && (owner == 0 || ours.owners[2 * i + 1] == owner)) {
            *address = p.sub[i].address;
            break;
        }
    }
}

static int differ(uint64_t seed, uint64_t number, int op, uint8_t type, uint32_t address, uint32_t relation, uint32_t key, dfc_answer a, dfc_answer b) {
    printf("DIFFERENCE seed %llu case %llu: %s type %u address %u relation %u key %u: ours %llu %llu, peer %llu %llu\n", (unsigned long long)seed,
           (unsigned long long)number, name[op], type, address, relation, key, (unsigned long long)a.number, (unsigned long long)a.value,
           (unsigned long long)b.number, (unsigned long long)b.value);
    const uint32_t *x = (const uint32_t *)&ours, *y = (const uint32_t *)&peers;
    for (size_t i = 0; i < sizeof ours / 4; i++)
        if (x[i] != y[i]) printf("  word %zu of what is lent: ours %u, peer %u\n", i, x[i], y[i]);
    return 1;
}

#define BOX(l) file, file_size, (l).features, (l).owners, type, address, (l).relations, (l).rows, relation, key

int main(int argc, char **argv) {
    uint64_t seed = argc > 1 ? strtoull(argv[1], NULL, 10) : 1, cases = argc > 2 ? strtoull(argv[2], NULL, 10) : 100000, of[2] = {0, 0};
#ifdef PEER_FAULTS
    peer_fault = argc > 3 ? atoi(argv[3]) : 0;
#endif
    rng random = {seed * 0x9E3779B97F4A7C15ull + 12}, *r = &random;
    int kind = SOUND;
    for (uint64_t number = 0; number < cases; number++) {
        if (number % BETWEEN == 0) {
            kind = 1 - kind;
            some_plan(r), some_owners(r);
            for (int i = 0; i < 8; i++) ours.behind[i] = any_word(r);
            if (kind == JUNK) junk(r);
            else sound(r);
            peers = ours;
        }
        /* a box; half of the time a row that stands somewhere is asked for */
        uint8_t type = (uint8_t)below(r, chance(r, 10) ? 256 : 32);
        uint32_t address = some_address(r), place = below(r, 1024);
        uint32_t relation = chance(r, 3) ? 0 : small_or_any(r, chance(r, 8) ? 70 : 4), key = small_or_any(r, kind == JUNK ? 40 : 1200), number_written = any_word(r);
        if (chance(r, 2)) relation = ours.rows[4 * place] - 1, key = ours.rows[4 * place + 2];
        if (!chance(r, 4)) fit(r, relation, ours.rows[4 * place + 1], &type, &address);
        int op = (int)below(r, OPERATIONS);
        dfc_answer a, b;
        if (op == READ) a = dfc_data_read(BOX(ours)), b = peer_data_read(BOX(peers));
        else if (op == WRITE) a = dfc_data_write(BOX(ours), number_written), b = peer_data_write(BOX(peers), number_written);
        else a = dfc_data_delete(BOX(ours)), b = peer_data_delete(BOX(peers));
        if (a.number != b.number || a.value != b.value || memcmp(&ours, &peers, sizeof ours) != 0)
            return differ(seed, number, op, type, address, relation, key, a, b);
        of[kind]++;
        if (a.number == 0) done[kind][op]++;
        else if (a.number == 70) closed[kind]++;
        else if (a.number == 71) full[kind]++;
        else no_plan[kind]++;
    }
    for (int k = 0; k < 2; k++) {
        printf("%sseed %llu, %llu on %s: read %llu, written %llu, deleted %llu; refused 70 %llu, 71 %llu, 20 to 24 %llu", k ? "; " : "", (unsigned long long)seed,
               (unsigned long long)of[k], k == JUNK ? "junk" : "sound stores", (unsigned long long)done[k][READ], (unsigned long long)done[k][WRITE],
               (unsigned long long)done[k][DELETE], (unsigned long long)closed[k], (unsigned long long)full[k], (unsigned long long)no_plan[k]);
        if (cases >= 100000 && !(done[k][READ] && done[k][WRITE] && done[k][DELETE] && closed[k] && full[k] && no_plan[k])) return printf("; too thin\n"), 1;
    }
    printf("; no difference\n");
    return 0;
}
