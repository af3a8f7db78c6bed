/* Operational data a second time: see store_peer.h. */
#include "store_peer.h"
#include <stdbool.h>

enum { RELATIONS = 64, ROWS = 1024, PAIRS = 256 };
enum { CLOSED = 70, FULL = 71 };

typedef struct {
    uint32_t feature, customers;
} relation;
typedef struct {
    uint32_t mark, owner, key, number;
} data_row;
typedef struct {
    uint32_t address, customer;
} ownership;

static const dfc_answer closed = {CLOSED, 0}, full = {FULL, 0}, done = {0, 0};

/* "Each address has at most one owner"; manual 7: a line's, a trunk's or a mobile's address may have one */
static uint32_t owner_of(const uint32_t *owners, uint32_t address, uint8_t kind) {
    const ownership *pair = (const ownership *)owners;
    if (kind == 0 || (kind == DFC_RESOURCE && !FAULT(101))) return 0;
    for (int i = 0; i < PAIRS; i++)
        if (pair[i].address == address) return pair[i].customer;
    return 0;
}

/* What a box asks for: the mark and the owner of the rows that are open to it in one relation. */
typedef struct {
    dfc_answer said; /* number 0, or why not */
    uint32_t mark, owner;
} access;

static access access_of(const uint8_t *file, size_t file_size, const uint32_t *features, const uint32_t *owners, uint8_t type, uint32_t address,
                        const uint32_t *relations, uint32_t n) {
    access x = {done, 0, 0};
    uint32_t existing = 0;
    uint8_t kind = 0;
    x.said = peer_shown(file, file_size, address, &existing, &kind);
    if (x.said.number) return x;
    x.said = closed;
    if (n >= RELATIONS) return x;
    relation r = ((const relation *)relations)[n];
    if (r.feature == 0 && r.customers == 0) return x;
    if (r.feature != 0) {
        /* "its type provides that feature, where there is one" */
        uint32_t provided = type < 32 && (existing >> type & 1) ? features[type] : 0;
        if (provided != r.feature && !FAULT(102)) return x;
    }
    if (r.customers != 0) {
        /* "its address is owned by the row's customer, where rows have one" */
        x.owner = owner_of(owners, address, kind);
        if (x.owner == 0) return x;
    }
    x.mark = n + 1;
    x.said = done;
    return x;
}

static bool asked(const data_row *row, const access *x, uint32_t key) { return row->mark == x->mark && row->owner == x->owner && row->key == key; }

static data_row *find_row(uint32_t *rows, const access *x, uint32_t key) {
    data_row *row = (data_row *)rows;
    for (int i = 0; i < ROWS; i++)
        if (asked(&row[i], x, key)) return &row[i];
    return NULL;
}

dfc_answer peer_data_read(const uint8_t *file, size_t file_size, const uint32_t features[DFC_FEATURES], const uint32_t owners[DFC_OWNERS], uint8_t type,
                          uint32_t address, const uint32_t relations[DFC_RELATIONS], const uint32_t rows[DFC_DATA], uint32_t n, uint32_t key) {
    access x = access_of(file, file_size, features, owners, type, address, relations, n);
    if (x.said.number) return x.said;
    const data_row *row = find_row((uint32_t *)rows, &x, key);
    return row ? (dfc_answer){0, row->number} : closed;
}

dfc_answer peer_data_write(const uint8_t *file, size_t file_size, const uint32_t features[DFC_FEATURES], const uint32_t owners[DFC_OWNERS], uint8_t type,
                           uint32_t address, const uint32_t relations[DFC_RELATIONS], uint32_t rows[DFC_DATA], uint32_t n, uint32_t key,
                           uint32_t number) {
    access x = access_of(file, file_size, features, owners, type, address, relations, n);
    if (x.said.number) return x.said;
    data_row *row = (data_row *)rows, *to = NULL;
    for (int i = 0; i < ROWS; i++) {
        if (row[i].mark == 0) {
            if (!to) to = &row[i];
            if (FAULT(103)) break;
        } else if (asked(&row[i], &x, key)) {
            row[i].number = number;
            return done;
        }
    }
    if (!to) return full;
    *to = (data_row){x.mark, x.owner, key, number};
    return done;
}

dfc_answer peer_data_delete(const uint8_t *file, size_t file_size, const uint32_t features[DFC_FEATURES], const uint32_t owners[DFC_OWNERS], uint8_t type,
                            uint32_t address, const uint32_t relations[DFC_RELATIONS], uint32_t rows[DFC_DATA], uint32_t n, uint32_t key) {
    access x = access_of(file, file_size, features, owners, type, address, relations, n);
    if (x.said.number) return x.said;
    data_row *row = find_row(rows, &x, key);
    if (!row) return FAULT(104) ? done : closed;
    *row = FAULT(105) ? (data_row){0, row->owner, row->key, row->number} : (data_row){0, 0, 0, 0};
    return done;
}
