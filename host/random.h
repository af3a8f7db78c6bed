/* Random plans, sound and damaged, for the driver and the benchmark. */
#ifndef RANDOM_H
#define RANDOM_H
#include <stdint.h>
#include <stddef.h>
#include <stdbool.h>
#include <string.h>

/* The longest plan file has 6,436 bytes; a damaged one may be longer. */
#define FILE_MAX 6700

typedef struct { uint64_t s; } rng;
static inline uint64_t rnd(rng *r) {
    r->s ^= r->s >> 12, r->s ^= r->s << 25, r->s ^= r->s >> 27;
    return r->s * 0x2545F4914F6CDD1Dull;
}
static inline uint32_t below(rng *r, uint32_t n) { return (uint32_t)((rnd(r) >> 33) % n); }
static inline int chance(rng *r, uint32_t one_in) { return below(r, one_in) == 0; }

typedef struct {
    uint8_t kind, boxes;
    uint16_t box[4];
    uint32_t address, source, target;
} any_subscriber;

typedef struct {
    uint32_t set[5]; /* existing, bound, reversible, source choice, target choice */
    uint32_t row[2][32];
    unsigned count;
    any_subscriber sub[257];
} any_plan;

static inline uint8_t *w2(uint8_t *b, uint32_t n) { *b++ = (uint8_t)(n >> 8); *b++ = (uint8_t)n; return b; }
static inline uint8_t *w4(uint8_t *b, uint32_t n) { return w2(w2(b, n >> 16), n & 65535); }

static inline size_t plan_bytes(const any_plan *p, uint8_t *b) {
    uint8_t *at = b;
    *at++ = 1, at = w2(at, 1), *at++ = 1;
    *at++ = 2, at = w2(at, 20);
    for (int i = 0; i < 5; i++) at = w4(at, p->set[i]);
    for (int r = 0; r < 2; r++) {
        *at++ = (uint8_t)(3 + r), at = w2(at, 128);
        for (int t = 0; t < 32; t++) at = w4(at, p->row[r][t]);
    }
    for (unsigned i = 0; i < p->count; i++) {
        const any_subscriber *s = &p->sub[i];
        *at++ = 5, at = w2(at, 13 + 2u * s->boxes), *at++ = s->kind;
        at = w4(w4(w4(at, s->address), s->source), s->target);
        for (int j = 0; j < s->boxes; j++) at = w2(at, s->box[j]);
    }
    *at++ = 127, at = w2(at, 0);
    return (size_t)(at - b);
}

/* A random order of the types in `choice`, closed, that follows the ranks; the reversible types are all ordered. */
static inline void random_order(rng *r, uint32_t row[32], const uint8_t rank[32], uint32_t choice, uint32_t all, uint32_t one_in) {
    for (int a = 0; a < 32; a++) {
        row[a] = 0;
        for (int b = 0; b < 32; b++)
            if (a != b && (choice >> a & 1) && (choice >> b & 1) && rank[a] < rank[b] && (((all >> a & 1) && (all >> b & 1)) || chance(r, one_in)))
                row[a] |= (uint32_t)1 << b;
    }
    for (int k = 0; k < 32; k++)
        for (int a = 0; a < 32; a++)
            if (row[a] >> k & 1) row[a] |= row[k];
}

static inline uint32_t random_set(rng *r, uint32_t of) {
    switch (below(r, 4)) {
    case 0: return of;
    case 1: return of & (uint32_t)(rnd(r) >> 32) & (uint32_t)(rnd(r) >> 32);
    default: return of & (uint32_t)(rnd(r) >> 32);
    }
}

static inline void random_plan(rng *r, any_plan *p, unsigned count) {
    uint8_t rank[2][32];
    uint32_t existing = chance(r, 4) ? 0xffffffff : (uint32_t)(rnd(r) >> 32) & (uint32_t)(chance(r, 2) ? 0xffffffff : rnd(r) >> 32);
    uint32_t source = random_set(r, existing), target = random_set(r, existing);
    uint32_t reversible = random_set(r, source & target) & (chance(r, 2) ? 0xffffffff : (uint32_t)(rnd(r) >> 32) & (uint32_t)(rnd(r) >> 32));
    uint32_t bound = random_set(r, existing);
    memset(p, 0, sizeof *p);
    bound &= ~(source & target) | reversible;
    p->set[0] = existing, p->set[1] = bound, p->set[2] = reversible, p->set[3] = source, p->set[4] = target;
    /* the ranks are a permutation of the types; among the reversible ones the target's go the other way round */
    for (int x = 0; x < 2; x++) {
        for (int i = 0; i < 32; i++) rank[x][i] = (uint8_t)i;
        for (int i = 31; i > 0; i--) {
            uint32_t j = below(r, (uint32_t)i + 1);
            uint8_t t = rank[x][i];
            rank[x][i] = rank[x][j], rank[x][j] = t;
        }
    }
    for (int round = 0; round < 32; round++)
        for (int a = 0; a < 32; a++)
            for (int b = 0; b < a; b++)
                if ((reversible >> a & 1) && (reversible >> b & 1) && (rank[0][a] < rank[0][b]) == (rank[1][a] < rank[1][b])) {
                    uint8_t t = rank[1][a];
                    rank[1][a] = rank[1][b], rank[1][b] = t;
                }
    uint32_t one_in = 1 + below(r, 12);
    random_order(r, p->row[0], rank[0], source, reversible, one_in);
    random_order(r, p->row[1], rank[1], target, reversible, one_in);
    uint32_t address = 0, step = chance(r, 2) ? 3 : 3000000, line = 0, other = 20000 + below(r, 20000);
    bool from_the_top = chance(r, 3); /* lines have 65,535 and the numbers below it, or 1 and those above */
    p->count = count;
    for (unsigned i = 0; i < count; i++) {
        any_subscriber *s = &p->sub[i];
        uint32_t twice = random_set(r, reversible);
        address += 1 + below(r, step);
        s->address = address;
        s->kind = (uint8_t)(1 + below(r, 4));
        s->source = (random_set(r, source) & ~reversible) | twice;
        s->target = (random_set(r, target) & ~reversible) | twice;
        s->boxes = s->kind == 1 ? 1 : s->kind == 2 ? (uint8_t)below(r, 5) : s->kind == 3 ? (uint8_t)(1 + below(r, 4)) : 0;
        if (s->kind == 1) line++;
        for (int j = 0; j < s->boxes; j++)
            s->box[j] = (uint16_t)(s->kind != 1 ? other + 10000u * (s->kind - 2u) + 7u * below(r, 40) + (uint32_t)j : from_the_top ? 65536 - line : line);
        for (int j = 1; j < s->boxes; j++)
            for (int k = 0; k < j; k++)
                if (s->box[k] == s->box[j]) s->box[j]++, k = -1;
    }
}

/* One thing in the plan made another. */
static inline void break_plan(rng *r, any_plan *p) {
    any_subscriber *s = p->count ? &p->sub[below(r, p->count)] : &p->sub[0];
    const any_subscriber *o = p->count ? &p->sub[below(r, p->count)] : &p->sub[0];
    switch (below(r, 12)) {
    case 0: p->set[below(r, 5)] ^= (uint32_t)1 << below(r, 32); break;
    case 1: p->row[below(r, 2)][below(r, 32)] ^= (uint32_t)1 << below(r, 32); break;
    case 2: { /* a pair less in an order, which then may no longer be closed */
        uint32_t *row = p->row[below(r, 2)], a = below(r, 32), n = 0;
        while (n < 32 && row[a] == 0) a = (a + 1) % 32, n++;
        if (row[a]) {
            uint32_t b = below(r, 32);
            while (!(row[a] >> b & 1)) b = (b + 1) % 32;
            row[a] &= ~((uint32_t)1 << b);
        }
        break;
    }
    case 3:
    case 4: {
        uint32_t t = below(r, 32); /* half of the time a reversible type */
        if (p->set[2] && chance(r, 2))
            while (!(p->set[2] >> t & 1)) t = (t + 1) % 32;
        if (chance(r, 2)) s->source ^= (uint32_t)1 << t;
        else s->target ^= (uint32_t)1 << t;
        break;
    }
    case 5: s->kind = (uint8_t)below(r, 6); break;
    case 6: s->boxes = (uint8_t)below(r, 5); break;
    case 7: s->box[below(r, 4)] = o->box[below(r, 4)]; break;
    case 8: s->address = chance(r, 2) ? o->address : (uint32_t)(rnd(r) >> 32); break;
    case 9: s->address = 999999999u + below(r, 2); break;
    case 10: s->box[below(r, 4)] = (uint16_t)(below(r, 6) - 3); break; /* 65,533 to 2 */
    default: { int a = (int)below(r, 32), b = (int)below(r, 32), x = (int)below(r, 2); uint32_t t = p->row[x][a]; p->row[x][a] = p->row[x][b], p->row[x][b] = t; }
    }
}

/* Some bytes of a file made others. */
static inline size_t damage(rng *r, uint8_t *b, size_t n) {
    switch (below(r, 8)) {
    case 0: return below(r, (uint32_t)n + 1);
    case 1: b[n] = (uint8_t)rnd(r); return n + 1 + below(r, 4);
    case 2: b[below(r, (uint32_t)n)] ^= (uint8_t)(1u << below(r, 8)); return n;
    case 3: b[below(r, (uint32_t)n)] = (uint8_t)rnd(r); return n;
    case 4: if (n > 292) b[289] = (uint8_t)below(r, 8); return n;
    case 5: { static const uint16_t at[8] = {0, 1, 2, 3, 4, 27, 158, 289}; b[at[below(r, 8)]] = (uint8_t)rnd(r); return n; }
    case 6: if (n > 300) b[291] = (uint8_t)(10 + below(r, 14)); return n;
    default: { static const uint16_t at[6] = {1, 5, 28, 159, 290, 6}; b[at[below(r, 6)]] = (uint8_t)below(r, 3); return n; }
    }
}
#endif
