/* The peer of the index: request 5 of document 02 as a C programmer would write it. It reads a plan file as the peer does. */
#include "peer.c"
#include "index_peer.h"

static void fill(const plan *p, uint32_t (*index)[DFC_INDEX_PLACES]) {
    memset(index, 0, sizeof(dfc_index));
    for (unsigned i = 0; i < p->count; i++) {
        const subscriber *s = &p->sub[i];
        for (uint32_t left = s->source; left != 0; left &= left - 1) {
            uint32_t *row = index[__builtin_ctz(left)];
            row[row[256]++] = s->address;
        }
        for (uint32_t left = FAULT(101) ? s->source : s->target; left != 0; left &= left - 1) {
            uint32_t *row = index[32 + __builtin_ctz(left)];
            row[row[256]++] = s->address;
        }
    }
}

dfc_answer index_peer_build(const uint8_t *file, size_t file_size, uint32_t (*index)[DFC_INDEX_PLACES]) {
    plan p;
    dfc_answer a = read_plan(file, file_size, &p);
    if (a.number == 0) fill(&p, index);
    return a;
}

dfc_listed index_peer_look(const uint32_t (*index)[DFC_INDEX_PLACES], uint8_t region, uint32_t type) {
    if (type > 31) return (dfc_listed){0, 0};
    uint64_t row = region == 0 ? type : 32 + type;
    uint32_t count = index[row][256];
    return (dfc_listed){row, count < 256 ? count : FAULT(102) ? count : 256};
}

/* One address in or out of an ascending list. */
static void join_list(uint32_t *row, uint32_t address) {
    uint32_t n = row[256], k = n;
    while (k > 0 && row[k - 1] > address) row[k] = row[k - 1], k--;
    row[k] = address;
    row[256] = n + 1;
}
static void leave_list(uint32_t *row, uint32_t address) {
    uint32_t n = row[256], k = 0;
    while (row[k] != address) k++;
    memmove(row + k, row + k + 1, (n - k - 1) * sizeof *row);
    if (!FAULT(103)) row[n - 1] = 0;
    row[256] = n - 1;
}
static void change_lists(uint32_t (*rows)[DFC_INDEX_PLACES], uint32_t old, uint32_t new, uint32_t address) {
    for (uint32_t left = old & ~new; left != 0; left &= left - 1) leave_list(rows[__builtin_ctz(left)], address);
    for (uint32_t left = new & ~old; left != 0; left &= left - 1) join_list(rows[__builtin_ctz(left)], address);
}

dfc_answer index_peer_update(const uint8_t *file, size_t file_size, uint32_t (*index)[DFC_INDEX_PLACES], uint32_t address, uint32_t source, uint32_t target,
                             uint8_t *room, size_t room_size) {
    plan p;
    dfc_answer a = read_plan(file, file_size, &p);
    if (a.number != 0) return a;
    if (room_size < file_size) return answer(25, 0);
    size_t at = 289; /* of the subscriber's field */
    unsigned i = 0;
    while (i < p.count && p.sub[i].address != address) at += 16 + 2u * p.sub[i++].boxes;
    if (i == p.count) return answer(45, 0);
    if (!within(source, p.choice[0]) || !within(target, p.choice[1])) return answer(46, 0);
    if (!FAULT(104) && ((source ^ target) & p.reversible) != 0) return answer(46, 0);
    dfc_index fresh;
    fill(&p, fresh);
    for (unsigned k = 0; FAULT(105) && k < DFC_INDEX_ROWS; k++) /* places past a count pass */
        if (fresh[k][256] == index[k][256]) memcpy(fresh[k] + fresh[k][256], index[k] + fresh[k][256], (256 - fresh[k][256]) * sizeof fresh[k][0]);
    if (memcmp(fresh, index, sizeof fresh) != 0) return answer(47, 0);
    change_lists(index, p.sub[i].source, source, address);
    change_lists(index + 32, p.sub[i].target, target, address);
    memcpy(room, file, file_size);
    put4(put4(room + at + 8, source), target);
    return answer(0, file_size);
}
