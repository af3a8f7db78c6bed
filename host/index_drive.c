/* index_drive SEED CASES [FAULT]: the archive and the peer of the index on the same cases; every answer, every place of the lent index and every lent byte compared.
 * Plan files are sound or damaged; the index is the plan's, the plan's with one place changed, or junk. Prints the first difference and ends with 1; else one line and 0. */
#include "index_peer.h"
#include "random.h"
#include <stdio.h>
#include <stdlib.h>
#ifdef PEER_FAULTS
int peer_fault;
#endif

enum { BUILD, LOOK, UPDATE, OPERATIONS };
static const char *const name[OPERATIONS] = {"build", "look", "update"};
#define JUNK 16
/* what is lent, with junk behind it */
typedef struct {
    dfc_index index;
    uint32_t behind[JUNK];
    uint8_t room[FILE_MAX + JUNK];
} lent;
static lent ours, peers;
static any_plan p;
static uint8_t file[FILE_MAX];
static size_t file_size;
static bool sound_index;
static uint64_t number, done[2][OPERATIONS], accepted[2][OPERATIONS], refused[128];

static uint32_t word(rng *r) { return (uint32_t)(rnd(r) >> 32); }

static void some_file(rng *r) {
    random_plan(r, &p, chance(r, 64) ? 257 : chance(r, 8) ? 256 : below(r, chance(r, 2) ? 6 : 60));
    if (chance(r, 8)) break_plan(r, &p);
    file_size = plan_bytes(&p, file);
    if (chance(r, 8)) file_size = damage(r, file, file_size);
}

/* Junk, or what the file's plan has; junk again where the file is none. */
static void some_index(rng *r) {
    sound_index = chance(r, 2) && index_peer_build(file, file_size, ours.index).number == 0;
    if (!sound_index)
        for (uint32_t *w = &ours.index[0][0]; w < &ours.index[0][0] + 64 * 257; w++) *w = chance(r, 3) ? below(r, 300) : word(r);
    else if (chance(r, 4)) {
        uint32_t *row = ours.index[below(r, 64)];
        uint32_t k = chance(r, 2) ? 256 : below(r, 257);
        row[k] ^= (uint32_t)1 << below(r, 9);
    }
    for (int k = 0; k < JUNK; k++) ours.behind[k] = word(r);
    memcpy(peers.index, ours.index, sizeof ours.index);
    memcpy(peers.behind, ours.behind, sizeof ours.behind);
}

static int differ(int op, dfc_answer a, dfc_answer b, uint32_t address, uint32_t source, uint32_t target) {
    printf("DIFFERENCE case %llu %s: ours %llu %llu, peer %llu %llu; address %u source %08x target %08x, a file of %zu bytes, %u subscribers\n", (unsigned long long)number, name[op],
           (unsigned long long)a.number, (unsigned long long)a.value, (unsigned long long)b.number, (unsigned long long)b.value, address, source, target, file_size, p.count);
    for (int k = 0; k < 64; k++)
        for (int j = 0; j < 257; j++)
            if (ours.index[k][j] != peers.index[k][j]) return printf("  row %d place %d: ours %u, peer %u\n", k, j, ours.index[k][j], peers.index[k][j]), 1;
    for (size_t k = 0; k < sizeof ours.room; k++)
        if (ours.room[k] != peers.room[k]) return printf("  room %zu: ours %02x, peer %02x\n", k, ours.room[k], peers.room[k]), 1;
    return 1;
}

int main(int argc, char **argv) {
    if (argc < 3) return fprintf(stderr, "usage: index_drive SEED CASES [FAULT]\n"), 2;
#ifdef PEER_FAULTS
    if (argc > 3) peer_fault = 100 + atoi(argv[3]);
#endif
    uint64_t seed = strtoull(argv[1], NULL, 10), cases = strtoull(argv[2], NULL, 10);
    rng r = {seed * 0x9E3779B97F4A7C15ull + 1};
    for (size_t k = 0; k < sizeof ours.room; k++) ours.room[k] = peers.room[k] = (uint8_t)rnd(&r);
    for (unsigned left = 0; number < cases; number++, left--) {
        if (left == 0) some_file(&r), some_index(&r), left = 12;
        else if (chance(&r, 6)) some_index(&r);
        int op = chance(&r, 6) ? BUILD : chance(&r, 3) ? LOOK : UPDATE;
        uint32_t address = 0, source = 0, target = 0;
        size_t room_size = 0;
        bool on_sound = sound_index;
        dfc_answer a, b;
        if (op == BUILD) {
            a = dfc_index_build(file, file_size, ours.index), b = index_peer_build(file, file_size, peers.index);
            sound_index = sound_index || a.number == 0;
        } else if (op == LOOK) {
            uint8_t region = (uint8_t)(chance(&r, 8) ? rnd(&r) : below(&r, 2));
            uint32_t type = chance(&r, 8) ? word(&r) : below(&r, 34);
            dfc_listed x = dfc_index_look((const uint32_t(*)[257])ours.index, region, type), y = index_peer_look((const uint32_t(*)[257])peers.index, region, type);
            a = (dfc_answer){x.row, x.count}, b = (dfc_answer){y.row, y.count};
        } else {
            address = p.count && !chance(&r, 8) ? p.sub[below(&r, p.count)].address : chance(&r, 2) ? 0 : word(&r);
            source = random_set(&r, p.set[3]), target = (random_set(&r, p.set[4]) & ~p.set[2]) | (source & p.set[2]);
            if (chance(&r, 8)) source ^= (uint32_t)1 << below(&r, 32);
            if (chance(&r, 8)) target ^= (uint32_t)1 << below(&r, 32);
            room_size = !chance(&r, 8) ? FILE_MAX : chance(&r, 2) ? file_size : file_size ? below(&r, (uint32_t)file_size) : 0;
            if (room_size > FILE_MAX) room_size = FILE_MAX;
            a = dfc_index_update(file, file_size, ours.index, address, source, target, ours.room, room_size);
            b = index_peer_update(file, file_size, peers.index, address, source, target, peers.room, room_size);
        }
        if (a.number != b.number || a.value != b.value || memcmp(&ours, &peers, sizeof ours) != 0) return differ(op, a, b, address, source, target);
        if (op != LOOK && a.number < 128) refused[a.number]++;
        done[on_sound][op]++, accepted[on_sound][op] += op == LOOK || a.number == 0;
        if (op == UPDATE && a.number == 0) {
            /* the changed file is what the index is of now; one built afresh is the same */
            memcpy(file, ours.room, file_size);
            static dfc_index fresh;
            if (dfc_index_build(file, file_size, fresh).number != 0 || memcmp(fresh, ours.index, sizeof fresh) != 0) return printf("DIFFERENCE case %llu: not as built afresh\n", (unsigned long long)number), 1;
        }
    }
    printf("seed %llu: %llu cases, 0 differences (accepted of done on junk and on sound memory:", (unsigned long long)seed, (unsigned long long)cases);
    for (int k = 0; k < OPERATIONS; k++)
        printf(" %s %llu/%llu %llu/%llu", name[k], (unsigned long long)accepted[0][k], (unsigned long long)done[0][k], (unsigned long long)accepted[1][k], (unsigned long long)done[1][k]);
    printf("; refused:");
    for (int k = 1; k < 128; k++)
        if (refused[k]) printf(" %d %llu", k, (unsigned long long)refused[k]);
    printf(")\n");
    return 0;
}
