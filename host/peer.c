/* The peer: document 01's operations as a C programmer would write them. */
#include "peer.h"
#include <stdbool.h>
#include <string.h>

#define MAX_ADDRESS 999999999u
#define MAX_SUBSCRIBERS 256

typedef struct {
    uint8_t kind, boxes;
    uint16_t box[4];
    uint32_t address, source, target;
} subscriber;

typedef struct {
    uint32_t existing, bound, reversible, choice[2];
    uint32_t order[2][32];
    unsigned count;
    subscriber sub[MAX_SUBSCRIBERS];
} plan;

typedef struct {
    int region; /* DFC_SOURCE or DFC_TARGET */
    uint32_t source, target;
    uint8_t string_len, string[32];
    enum { WHOLE, SUFFIX, LISTED } route;
    uint8_t list_len, list[32];
    bool has_placing, has_outer;
    uint8_t placing;
    uint32_t outer;
} setup;

static dfc_answer answer(uint64_t number, uint64_t value) { return (dfc_answer){number, value}; }
static bool within(uint32_t a, uint32_t b) { return (a & ~b) == 0; }
static bool member(uint32_t set, unsigned t) { return t < 32 && (set >> t & 1); }
static uint32_t get4(const uint8_t *b) { return (uint32_t)b[0] << 24 | (uint32_t)b[1] << 16 | (uint32_t)b[2] << 8 | b[3]; }
static uint32_t get2(const uint8_t *b) { return (uint32_t)b[0] << 8 | b[1]; }
static uint8_t *put2(uint8_t *b, uint32_t n) { b[0] = (uint8_t)(n >> 8), b[1] = (uint8_t)n; return b + 2; }
static uint8_t *put4(uint8_t *b, uint32_t n) { return put2(put2(b, n >> 16), n & 0xffff); }
static uint8_t *header(uint8_t *b, uint8_t tag, uint32_t n) { *b = tag; return put2(b + 1, n); }

/* ---- the plan's rules */

static bool types_sound(const plan *p) {
    uint32_t both = p->choice[0] & p->choice[1];
    return within(p->bound, p->existing) && within(p->reversible, p->existing) && within(p->choice[0], p->existing) &&
           within(p->choice[1], p->existing) && within(p->reversible, both) && within(p->bound & both, p->reversible);
}

/* A row lies in the choice and is empty outside it, no type precedes itself, and the order is closed. */
static bool order_sound(const uint32_t row[32], uint32_t choice) {
    for (unsigned a = 0; a < 32; a++) {
        if (!within(row[a], choice) || (row[a] != 0 && !member(choice, a)) || member(row[a], a)) return false;
        for (uint32_t left = row[a]; left != 0; left &= left - 1)
            if (!FAULT(1) && !within(row[__builtin_ctz(left)], row[a])) return false;
    }
    return true;
}

/* Any two different reversible types are ordered in the source order (and the other way round in the target order). */
static bool reversible_ordered(const plan *p, bool with_target) {
    for (uint32_t x = p->reversible; x != 0; x &= x - 1)
        for (uint32_t y = x & (x - 1); y != 0; y &= y - 1) {
            unsigned a = (unsigned)__builtin_ctz(x), b = (unsigned)__builtin_ctz(y);
            bool ab = member(p->order[0][a], b), ba = member(p->order[0][b], a);
            if (!with_target && !ab && !ba) return false;
            if (with_target && ((ab && !member(p->order[1][b], a)) || (ba && !member(p->order[1][a], b)))) return false;
        }
    return true;
}

/* The kind of the boxes with each number so far, 0 where there are none: a byte for each number; with PEER_LEAN two bits, so that a quarter is cleared at
 * each read. (A subscriber that keeps its own rules and has a box is of the kind 1, 2 or 3.) */
#ifdef PEER_LEAN
typedef uint32_t kinds[4096];
static uint8_t kind_at(const uint32_t *k, uint16_t n) { return (uint8_t)(k[n / 16] >> (n % 16 * 2) & 3); }
static void enter(uint32_t *k, uint16_t n, uint8_t kind) { k[n / 16] |= (uint32_t)kind << (n % 16 * 2); }
#else
typedef uint8_t kinds[65536];
static uint8_t kind_at(const uint8_t *k, uint16_t n) { return k[n]; }
static void enter(uint8_t *k, uint16_t n, uint8_t kind) { k[n] = kind; }
#endif

static bool subscriber_sound(const plan *p, const subscriber *s, uint32_t last, const kinds kind_of) {
    static const uint8_t least[5] = {0, 1, 0, 1, 0}, most[5] = {0, 1, 4, 4, 0};
    if (s->kind < 1 || s->kind > 4 || s->address == 0 || s->address > MAX_ADDRESS) return false;
    if (s->boxes < least[s->kind] || s->boxes > most[s->kind]) return false;
    if (!within(s->source, p->choice[0]) || !within(s->target, p->choice[1])) return false;
    if (!FAULT(2) && (s->source & p->reversible) != (s->target & p->reversible)) return false;
    if (s->address <= last) return false;
    for (unsigned i = 0; i < s->boxes; i++) {
        uint8_t of = kind_at(kind_of, s->box[i]);
        if (s->box[i] == 0 || (of != 0 && (of != s->kind || s->kind == 1))) return false;
        for (unsigned j = 0; j < i; j++)
            if (s->box[j] == s->box[i]) return false;
    }
    return true;
}

/* ---- the plan file */

static bool length_possible(uint8_t tag, uint32_t n) {
    switch (tag) {
    case 1: return n == 1;
    case 2: return n == 20;
    case 3:
    case 4: return n == 128;
    case 5: return n >= 13 && n <= 21 && n % 2 == 1;
    default: return n == 0;
    }
}

static dfc_answer read_plan(const uint8_t *file, size_t size, plan *p) {
    static const uint8_t fixed[4] = {1, 2, 3, 4};
    kinds kind_of;
    uint32_t last = 0;
    size_t at = 0;
    memset(p, 0, offsetof(plan, sub));
    for (unsigned stage = 0;;) {
        const uint8_t *f = file + at;
        if (size - at < 3) return answer(20, at);
        uint8_t tag = f[0];
        if (stage < 4 ? tag != fixed[stage] : tag != 5 && tag != 127) return answer(21, at);
        if (tag == 5 && p->count == MAX_SUBSCRIBERS) return answer(24, at);
        uint32_t n = get2(f + 1);
        if (!length_possible(tag, n)) return answer(22, at);
        if (size - at - 3 < n) return answer(20, at);
        f += 3;
        switch (tag) {
        case 1:
            if (f[0] != 1) return answer(23, at);
            break;
        case 2:
            p->existing = get4(f), p->bound = get4(f + 4), p->reversible = get4(f + 8);
            p->choice[0] = get4(f + 12), p->choice[1] = get4(f + 16);
            if (!types_sound(p)) return answer(23, at);
            break;
        case 3:
        case 4:
            for (unsigned t = 0; t < 32; t++) p->order[tag - 3][t] = get4(f + 4 * t);
            if (!order_sound(p->order[tag - 3], p->choice[tag - 3]) || !reversible_ordered(p, tag == 4)) return answer(23, at);
            if (tag == 4) memset(kind_of, 0, sizeof kind_of);
            break;
        case 5: {
            subscriber *s = &p->sub[p->count];
            s->kind = f[0], s->address = get4(f + 1), s->source = get4(f + 5), s->target = get4(f + 9);
            s->boxes = (uint8_t)((n - 13) / 2);
            for (unsigned i = 0; i < s->boxes; i++) s->box[i] = (uint16_t)get2(f + 13 + 2 * i);
            if (!subscriber_sound(p, s, last, kind_of)) return answer(23, at);
            for (unsigned i = 0; i < s->boxes; i++) enter(kind_of, s->box[i], s->kind);
            last = s->address;
            p->count++;
            break;
        }
        default:
            at += 3;
            return at < size ? answer(20, at) : answer(0, 0);
        }
        at += 3 + n;
        if (stage < 4) stage++;
    }
}

dfc_answer peer_check(const uint8_t *file, size_t file_size) {
    plan p;
    return read_plan(file, file_size, &p);
}

dfc_answer peer_write(const uint8_t *file, size_t file_size, uint8_t *room, size_t room_size) {
    plan p;
    dfc_answer a = read_plan(file, file_size, &p);
    if (a.number != 0) return a;
    size_t size = 4 + 23 + 131 + 131 + 3;
    for (unsigned i = 0; i < p.count; i++) size += 16 + 2u * p.sub[i].boxes;
    if (room_size < size - (FAULT(3) ? 1 : 0)) return answer(25, 0);
    if (FAULT(3) && room_size < size) return answer(0, size);
    uint8_t *b = header(room, 1, 1);
    *b++ = 1;
    b = header(b, 2, 20);
    b = put4(put4(put4(put4(put4(b, p.existing), p.bound), p.reversible), p.choice[0]), p.choice[1]);
    for (unsigned r = 0; r < 2; r++) {
        b = header(b, (uint8_t)(3 + r), 128);
        for (unsigned t = 0; t < 32; t++) b = put4(b, p.order[r][t]);
    }
    for (unsigned i = 0; i < p.count; i++) {
        const subscriber *s = &p.sub[i];
        b = header(b, 5, 13 + 2u * s->boxes);
        *b++ = s->kind;
        b = put4(put4(put4(b, s->address), s->source), s->target);
        for (unsigned j = 0; j < s->boxes; j++) b = put2(b, s->box[j]);
    }
    header(b, 127, 0);
    return answer(0, size);
}

/* ---- zones */

static const subscriber *find(const plan *p, uint32_t address) {
    unsigned low = 0, high = p->count;
    while (low < high) {
        unsigned mid = (low + high) / 2;
        if (p->sub[mid].address < address) low = mid + 1;
        else high = mid;
    }
    return low < p->count && p->sub[low].address == address ? &p->sub[low] : NULL;
}

/* The zone into 32 places, 0 past its length; its length. */
static uint8_t zone(const plan *p, int region, uint32_t address, uint8_t types[32]) {
    const subscriber *s = find(p, address);
    uint32_t left = s == NULL ? 0 : region == DFC_SOURCE ? s->source : s->target;
    const uint32_t *row = p->order[region];
    uint8_t n = 0;
    memset(types, 0, 32);
    while (left != 0) {
        uint32_t behind = 0;
        for (uint32_t x = left; x != 0; x &= x - 1) behind |= row[__builtin_ctz(x)];
        uint32_t first = FAULT(4) ? left : left & ~behind;
        unsigned t = (unsigned)__builtin_ctz(first);
        types[n++] = (uint8_t)t;
        left &= ~((uint32_t)1 << t);
    }
    return n;
}

dfc_answer peer_zone(const uint8_t *file, size_t file_size, uint8_t region, uint32_t address, uint8_t types[32]) {
    plan p;
    dfc_answer a = read_plan(file, file_size, &p);
    if (a.number != 0) return a;
    return answer(0, zone(&p, region == 0 ? DFC_SOURCE : DFC_TARGET, address, types));
}

/* What store_peer.c asks of a plan file: its types, and the kind of an address, 0 where nobody has it. */
dfc_answer peer_shown(const uint8_t *file, size_t file_size, uint32_t address, uint32_t *existing, uint8_t *kind) {
    plan p;
    dfc_answer a = read_plan(file, file_size, &p);
    if (a.number) return a;
    const subscriber *s = find(&p, address);
    *existing = p.existing, *kind = s ? s->kind : 0;
    return a;
}

/* ---- setups */

static bool is_header(const uint8_t *b, uint8_t tag, uint32_t n) { return b[0] == tag && get2(b + 1) == n; }

/* false for bytes that are no setup's. */
static bool read_setup(const uint8_t *b, size_t size, setup *s) {
    if (size != DFC_SETUP) return false;
    if (!is_header(b, 1, 1) || !is_header(b + 4, 2, 4) || !is_header(b + 11, 3, 4) || !is_header(b + 18, 4, 1) ||
        !is_header(b + 22, 5, 2) || !is_header(b + 27, 6, 5) || !is_header(b + 35, 7, 33) || !is_header(b + 71, 8, 33) ||
        !is_header(b + 107, 127, 0))
        return false;
    if (b[3] < 1 || b[3] > 2 || b[21] < 1 || b[21] > 3 || b[25] > 1 || b[30] > 1) return false;
    if (b[25] == 0 && b[26] != 0) return false;
    if (b[30] == 0 && get4(b + 31) != 0) return false;
    s->region = b[3] == 1 ? DFC_SOURCE : DFC_TARGET;
    s->source = get4(b + 7), s->target = get4(b + 14);
    s->route = b[21] == 1 ? WHOLE : b[21] == 2 ? SUFFIX : LISTED;
    s->has_placing = b[25] == 1, s->placing = b[26];
    s->has_outer = b[30] == 1, s->outer = get4(b + 31);
    s->string_len = b[38], s->list_len = b[74];
    memcpy(s->string, b + 39, 32);
    memcpy(s->list, b + 75, 32);
    return true;
}

static void write_setup(const setup *s, uint8_t *b) {
    b = header(b, 1, 1);
    *b++ = s->region == DFC_SOURCE ? 1 : 2;
    b = put4(header(b, 2, 4), s->source);
    b = put4(header(b, 3, 4), s->target);
    b = header(b, 4, 1);
    *b++ = s->route == WHOLE ? 1 : s->route == SUFFIX ? 2 : 3;
    b = header(b, 5, 2);
    *b++ = s->has_placing, *b++ = s->has_placing ? s->placing : 0;
    b = header(b, 6, 5);
    *b++ = s->has_outer;
    b = put4(b, s->has_outer ? s->outer : 0);
    b = header(b, 7, 33);
    *b++ = s->string_len;
    memcpy(b, s->string, 32);
    b = header(b + 32, 8, 33);
    *b++ = s->list_len;
    memcpy(b, s->list, 32);
    header(b + 32, 127, 0);
}

static bool legal_string(const uint8_t *s, size_t n) {
    if (n > 32) return false;
    for (size_t i = 0; i < n; i++)
        if (!((s[i] >= '0' && s[i] <= '9') || s[i] == '*' || s[i] == '#')) return false;
    return true;
}

static uint32_t routing_address(const setup *s) { return s->region == DFC_SOURCE ? s->source : s->target; }

static bool well_formed(const plan *p, const setup *s) {
    if (s->source > MAX_ADDRESS || s->target > MAX_ADDRESS || (s->has_outer && s->outer > MAX_ADDRESS)) return false;
    if (!legal_string(s->string, s->string_len)) return false;
    if (routing_address(s) == 0) return false;
    if (s->route == LISTED) {
        uint8_t all[32], n = zone(p, s->region, routing_address(s), all);
        if (s->list_len > n || memcmp(s->list, all + (n - s->list_len), s->list_len) != 0) return false;
    }
    if (s->route == SUFFIX ? !s->has_placing || !member(p->reversible, s->placing) : s->has_placing) return false;
    if (s->has_outer && ((s->region == DFC_TARGET && !FAULT(5)) || s->outer == 0)) return false;
    return true;
}

static void set_string(setup *s, const uint8_t *string, size_t n) {
    memset(s->string, 0, 32);
    memcpy(s->string, string, n);
    s->string_len = (uint8_t)n;
}

/* The refusals 1, 2 and 3 of a box that makes a setup; 0 for none. */
static unsigned maker_refused(const plan *p, uint8_t kind, uint8_t type, uint32_t address, bool fresh) {
    const subscriber *s = find(p, address);
    if (kind == DFC_FEATURE && !member(p->existing, type)) return 1;
    if (kind > DFC_TRUNK || (!fresh && kind != DFC_FEATURE)) return 2;
    if (s == NULL || (kind != DFC_FEATURE && s->kind != kind)) return 3;
    return 0;
}

dfc_answer peer_new(const uint8_t *file, size_t file_size, uint8_t kind, uint8_t type, uint32_t address, const uint8_t *string,
                    size_t string_size, uint32_t target, uint8_t made[DFC_SETUP]) {
    plan p;
    setup s = {0};
    dfc_answer a = read_plan(file, file_size, &p);
    if (a.number != 0) return a;
    unsigned no = maker_refused(&p, kind, type, address, true);
    if (no != 0) return answer(no, 0);
    if (!legal_string(string, string_size)) return answer(7, 0);
    if (target > MAX_ADDRESS) return answer(9, 0);
    s.region = DFC_SOURCE, s.route = WHOLE;
    s.source = address, s.target = target;
    s.has_outer = true, s.outer = address;
    set_string(&s, string, string_size);
    write_setup(&s, made);
    return answer(0, DFC_SETUP);
}

/* What continued and reversed share: from the setup stored to the one made, in the region `to`. */
static void further(const setup *from, setup *s, int to, bool reversing, uint8_t type, uint32_t address, uint32_t source,
                    const uint8_t *string, size_t string_size, uint32_t target) {
    uint32_t given = to == DFC_SOURCE ? source : target, other = to == DFC_SOURCE ? target : source, kept;
    if (reversing) kept = to == DFC_SOURCE ? from->source : from->target;
    else kept = to == DFC_SOURCE ? from->target : from->source;
    if (FAULT(6) && reversing) kept = to == DFC_SOURCE ? from->target : from->source;
    if (other == 0) other = kept;
    uint32_t routed = given != 0 ? given : address;
    memset(s, 0, sizeof *s);
    s->region = to;
    s->source = to == DFC_SOURCE ? routed : other;
    s->target = to == DFC_SOURCE ? other : routed;
    if (given != 0) {
        s->route = WHOLE;
        s->has_outer = to == DFC_SOURCE || FAULT(7), s->outer = address;
    } else if (reversing) {
        s->route = SUFFIX;
        s->has_placing = true, s->placing = type;
    } else {
        s->route = LISTED;
        s->list_len = from->list_len;
        memcpy(s->list, from->list, from->list_len);
    }
    if (string_size != 0) set_string(s, string, string_size);
    else set_string(s, from->string, from->string_len);
}

/* A setup from another one, continued or reversed: 4 is for reversing, 6 for continuing, and only a list is continued. */
static dfc_answer made_further(bool reversing, const uint8_t *file, size_t file_size, uint8_t kind, uint8_t type, uint32_t address,
                               const uint8_t *stored, size_t stored_size, uint32_t source, const uint8_t *string, size_t string_size,
                               uint32_t target, uint8_t made[DFC_SETUP]) {
    plan p;
    setup from, s;
    dfc_answer a = read_plan(file, file_size, &p);
    if (a.number != 0) return a;
    unsigned no = maker_refused(&p, kind, type, address, false);
    if (no != 0) return answer(no, 0);
    if (reversing && !member(p.reversible, type)) return answer(4, 0);
    if (!read_setup(stored, stored_size, &from) || !well_formed(&p, &from)) return answer(5, 0);
    if (!reversing && from.route != LISTED) return answer(5, 0);
    if (!reversing && routing_address(&from) != address) return answer(6, 0);
    if (!legal_string(string, string_size)) return answer(7, 0);
    int to = (from.region == DFC_SOURCE) == reversing ? DFC_TARGET : DFC_SOURCE;
    uint32_t given = to == DFC_SOURCE ? source : target;
    if (given != 0 && given == address) return answer(8, 0);
    if (source > MAX_ADDRESS || target > MAX_ADDRESS) return answer(9, 0);
    further(&from, &s, to, reversing, type, address, source, string, string_size, target);
    write_setup(&s, made);
    return answer(0, DFC_SETUP);
}

dfc_answer peer_continued(const uint8_t *file, size_t file_size, uint8_t kind, uint8_t type, uint32_t address, const uint8_t *received,
                          size_t received_size, uint32_t source, const uint8_t *string, size_t string_size, uint32_t target,
                          uint8_t made[DFC_SETUP]) {
    return made_further(false, file, file_size, kind, type, address, received, received_size, source, string, string_size, target, made);
}

dfc_answer peer_reversed(const uint8_t *file, size_t file_size, uint8_t kind, uint8_t type, uint32_t address, const uint8_t *sent,
                         size_t sent_size, uint32_t source, const uint8_t *string, size_t string_size, uint32_t target,
                         uint8_t made[DFC_SETUP]) {
    return made_further(true, file, file_size, kind, type, address, sent, sent_size, source, string, string_size, target, made);
}

/* ---- routing */

/* The address that a string embeds, or 0. */
static uint32_t embedded(const uint8_t *s, size_t n) {
    if (n >= 3 && s[0] == '*' && s[1] >= '0' && s[1] <= '9' && s[2] >= '0' && s[2] <= '9') s += 3, n -= 3;
    if (n < 1 || n > (FAULT(8) ? 10 : 9)) return 0;
    uint32_t a = 0;
    for (size_t i = 0; i < n; i++) {
        if (s[i] < '0' || s[i] > '9') return 0;
        a = a * 10 + (uint32_t)(s[i] - '0');
    }
    return a;
}

/* later: what the caller would refuse after routing's own refusals; 0 for nothing. */
static dfc_routed route_unless(unsigned later, const uint8_t *file, size_t file_size, const uint8_t *sent, size_t sent_size, uint8_t *source_list,
                               size_t source_size, uint8_t *target_list, size_t target_size, uint8_t received[DFC_SETUP]) {
    plan p;
    setup s;
    uint8_t zones[2][32], length[2];
    dfc_answer a = read_plan(file, file_size, &p);
    if (a.number != 0) return (dfc_routed){a.number, a.value, 0, 0, 0};
    if (!read_setup(sent, sent_size, &s) || !well_formed(&p, &s)) return (dfc_routed){5, 0, 0, 0, 0};
    if (source_size < 32 || target_size < 32) return (dfc_routed){18, 0, 0, 0, 0};
    if (later != 0) return (dfc_routed){later, 0, 0, 0, 0};
    if (s.target == 0) s.target = embedded(s.string, s.string_len);
    length[0] = zone(&p, DFC_SOURCE, s.source, zones[0]);
    length[1] = zone(&p, DFC_TARGET, s.target, zones[1]);
    memcpy(source_list, zones[0], length[0]);
    memcpy(target_list, zones[1], length[1]);
    /* what is left is the end part of a zone from `from` on */
    int r = s.region;
    unsigned from = 0;
    if (s.route == LISTED) from = (unsigned)length[r] - s.list_len;
    if (s.route == SUFFIX)
        for (unsigned i = 0; i < length[r]; i++)
            if (zones[r][i] == s.placing) {
                from = i + (FAULT(9) ? 0 : 1);
                break;
            }
    bool has_outer = s.has_outer;
    if (r == DFC_SOURCE && from == length[r]) {
        r = DFC_TARGET;
        from = 0;
        if (!FAULT(10)) has_outer = false;
    }
    dfc_routed to = {0, 0, DFC_ERROR, 0, s.target};
    setup got = s;
    got.region = r;
    got.route = LISTED;
    got.has_placing = false;
    got.has_outer = has_outer;
    set_string(&got, s.string, s.string_len);
    memset(got.list, 0, 32);
    got.list_len = 0;
    if (from < length[r]) {
        to.kind = DFC_FEATURE;
        to.box_number = zones[r][from];
        to.address = r == DFC_SOURCE ? s.source : s.target;
        got.list_len = (uint8_t)(length[r] - from - 1);
        memcpy(got.list, zones[r] + from + 1, got.list_len);
        to.value = got.list_len;
    } else {
        const subscriber *x = find(&p, s.target);
        if (x != NULL && x->boxes != 0) to.kind = x->kind, to.box_number = x->box[0];
    }
    write_setup(&got, received);
    return to;
}

dfc_routed peer_route(const uint8_t *file, size_t file_size, const uint8_t *sent, size_t sent_size, uint8_t *source_list,
                      size_t source_size, uint8_t *target_list, size_t target_size, uint8_t received[DFC_SETUP]) {
    return route_unless(0, file, file_size, sent, sent_size, source_list, source_size, target_list, target_size, received);
}

/* ---- calls */

/* Accepted (0) or refused, and nothing handed over. */
static dfc_commanded said(unsigned number) { return (dfc_commanded){number, 0, 0, 0, 0}; }
static bool is_free(const peer_call *c) { return c->state[DFC_CALLER] == PEER_IDLE && c->state[DFC_CALLEE] == PEER_IDLE; }

/* 16 is a power of 2, so that a place past the last is the first again. (A ring that does not know its head is fault 11.) */
static void push(peer_ring *q, uint8_t kind, uint8_t tunnel, uint8_t code) {
    q->at[((FAULT(11) ? 0 : q->head) + q->count++) % 16] = (peer_signal){kind, tunnel, code};
}

static peer_signal pop(peer_ring *q) {
    peer_signal first = q->at[q->head];
    q->head = (q->head + 1) % 16;
    q->count--;
    return first;
}

/* Whether a signal is an ordinary one: document 01's list, and with document 02 the six of the channels. */
static bool ordinary(uint8_t kind, uint8_t tunnel, uint8_t code) {
    switch (kind) {
    case DFC_UNKNOWN:
    case DFC_AVAIL:
    case DFC_UNAVAIL:
    case DFC_NONE: return tunnel == 0;
    case DFC_DTMF: return tunnel != 0 && code < 12;
    case DFC_SPECIAL: return true;
    default: return kind >= DFC_OPEN && kind <= DFC_CLOSEACK;
    }
}

/* ---- channels: manual 9.4's two programs, step by step as they are printed. No step leads back to unused, so 0 stands for no step. */

enum { ACTIVE, PASSIVE };
enum { OUT, IN };
enum { OPEN, OACK, ONACK, READY, CLOSE, CLOSEACK, STATUS, EVENTS };

static const uint8_t printed[2][2][PEER_CHANNEL_STATES][EVENTS] = {
    [ACTIVE] = {
        [OUT] = {
            [PEER_UNUSED] = {[OPEN] = PEER_OPENING},
            [PEER_OPENING] = {[CLOSE] = PEER_CLOSING},
            [PEER_OACKED] = {[READY] = PEER_READIED, [CLOSE] = PEER_CLOSING},
            [PEER_READIED] = {[STATUS] = PEER_READIED, [CLOSE] = PEER_CLOSING},
            [PEER_CLOSING2] = {[CLOSEACK] = PEER_CLOSING3},
            [PEER_CLOSED] = {[CLOSEACK] = PEER_ENDED},
        },
        [IN] = {
            [PEER_OPENING] = {[OACK] = PEER_OACKED, [ONACK] = PEER_ENDED},
            [PEER_OACKED] = {[CLOSE] = PEER_CLOSED},
            [PEER_READIED] = {[STATUS] = PEER_READIED, [CLOSE] = PEER_CLOSED},
            [PEER_CLOSING] = {[OACK] = PEER_CLOSING, [ONACK] = PEER_CLOSING, [STATUS] = PEER_CLOSING, [CLOSE] = PEER_CLOSING2, [CLOSEACK] = PEER_ENDED},
            [PEER_CLOSING2] = {[CLOSEACK] = PEER_ENDED},
            [PEER_CLOSING3] = {[CLOSEACK] = PEER_ENDED},
        },
    },
    [PASSIVE] = {
        [OUT] = {
            [PEER_OPENING] = {[OACK] = PEER_OACKED, [ONACK] = PEER_ENDED},
            [PEER_OACKED] = {[CLOSE] = PEER_CLOSING},
            [PEER_READIED] = {[STATUS] = PEER_READIED, [CLOSE] = PEER_CLOSING},
            [PEER_CLOSING2] = {[CLOSEACK] = PEER_CLOSING3},
            [PEER_CLOSED] = {[CLOSEACK] = PEER_ENDED},
        },
        [IN] = {
            [PEER_UNUSED] = {[OPEN] = PEER_OPENING},
            [PEER_OPENING] = {[CLOSE] = PEER_CLOSED},
            [PEER_OACKED] = {[READY] = PEER_READIED, [CLOSE] = PEER_CLOSED},
            [PEER_READIED] = {[STATUS] = PEER_READIED, [CLOSE] = PEER_CLOSED},
            /* the ready is the house's step: it may have been sent before our close came */
            [PEER_CLOSING] = {[READY] = PEER_CLOSING, [STATUS] = PEER_CLOSING, [CLOSE] = PEER_CLOSING2, [CLOSEACK] = PEER_ENDED},
            [PEER_CLOSING2] = {[CLOSEACK] = PEER_ENDED},
            [PEER_CLOSING3] = {[CLOSEACK] = PEER_ENDED},
            [PEER_ENDED] = {[CLOSE] = PEER_CLOSED},
        },
    },
};

/* The caller opens odd tunnels, the callee even ones (9.3). */
static bool may_open(unsigned me, uint8_t tunnel) { return (tunnel % 2 == 1) == (me == (FAULT(20) ? DFC_CALLEE : DFC_CALLER)); }

/* What becomes of an end's channel with a signal that it sends or is handed; 0 where there is no step. Only in tunnel 0 a status needs none. */
static uint8_t channel_step(const peer_call *c, unsigned me, int way, uint8_t kind, uint8_t tunnel) {
    uint8_t state = c->channel[me][tunnel], event = kind >= DFC_OPEN ? kind - DFC_OPEN : STATUS;
    if (tunnel == 0 || state >= PEER_CHANNEL_STATES) return 0;
    if (FAULT(19) && way == IN && event == READY && state == PEER_CLOSING) return 0;
    return printed[may_open(me, tunnel) ? ACTIVE : PASSIVE][way][state][event];
}

/* The callee's one answer. */
static dfc_commanded answers(peer_call *c, uint8_t kind) {
    peer_ring *out = &c->to[DFC_CALLER];
    if (c->state[DFC_CALLEE] != PEER_WAITING) return said(12);
    if (out->count + (kind == DFC_ACCEPT ? 1 : 3) > 16) return said(17);
    push(out, DFC_UPACK, 0, 0);
    c->state[DFC_CALLEE] = PEER_LINKED;
    if (kind != DFC_ACCEPT) {
        push(out, kind == DFC_BUSY ? DFC_UNAVAIL : DFC_UNKNOWN, 0, 0);
        push(out, DFC_TEARDOWN, 0, 0);
        c->state[DFC_CALLEE] = PEER_UNLINKING;
    }
    return said(0);
}

static dfc_commanded speaks(peer_call *c, unsigned me, uint8_t kind, uint8_t tunnel, uint8_t code) {
    peer_ring *out = &c->to[1 - me];
    if (c->state[me] != PEER_LINKED) return said(12);
    if (!ordinary(kind, tunnel, code)) return said(15);
    bool in_channel = tunnel != 0 || kind >= DFC_OPEN;
    uint8_t next = in_channel ? channel_step(c, me, OUT, kind, tunnel) : 0;
    if (in_channel && next == 0) return said(kind == DFC_OPEN && !FAULT(21) ? 40 : 41);
    if (out->count >= (FAULT(12) ? 15 : 14)) return said(13);
    push(out, kind, tunnel, kind == DFC_DTMF || kind == DFC_SPECIAL ? code : 0);
    if (in_channel) c->channel[me][tunnel] = next;
    return said(0);
}

static dfc_commanded tears(peer_call *c, unsigned me) {
    peer_ring *out = &c->to[1 - me];
    if (c->state[me] != PEER_LINKED) return said(12);
    if (out->count == 16) return said(17);
    push(out, DFC_TEARDOWN, 0, 0);
    c->state[me] = PEER_UNLINKING;
    return said(0);
}

static dfc_commanded takes(peer_call *c, unsigned me) {
    peer_ring *in = &c->to[me], *out = &c->to[1 - me];
    uint8_t state = c->state[me];
    if (in->count == 0) return said(14);
    peer_signal w = in->at[in->head];
    uint8_t next = 0;
    bool talking = state == PEER_LINKED || state == PEER_UNLINKING;
    switch (w.kind) {
    case DFC_UPACK:
        if (state != PEER_REQUESTING) return said(17);
        state = PEER_LINKED;
        break;
    case DFC_TEARDOWN:
        if (!talking || out->count == 16) return said(17);
        if (state == PEER_LINKED || FAULT(13)) state = PEER_IDLE;
        push(out, DFC_DOWNACK, 0, 0);
        break;
    case DFC_DOWNACK:
        if (state != PEER_UNLINKING) return said(17);
        state = PEER_IDLE;
        break;
    default:
        if (!talking || !ordinary(w.kind, w.tunnel, w.code)) return said(17);
        if ((w.tunnel != 0 || w.kind >= DFC_OPEN) && (next = channel_step(c, me, IN, w.kind, w.tunnel)) == 0) return said(17);
    }
    pop(in);
    c->state[me] = state;
    if (next != 0) c->channel[FAULT(22) ? 1 - me : me][w.tunnel] = next;
    return (dfc_commanded){0, 1, w.kind, w.tunnel, w.code};
}

/* One command on a call. What is no command is refused as a signal that nobody may send. */
static dfc_commanded step(peer_call *c, uint8_t kind, uint8_t side, uint8_t signal, uint8_t tunnel, uint8_t code) {
    unsigned me = side == 0 ? DFC_CALLER : DFC_CALLEE;
    if (c->to[0].count > 16 || c->to[1].count > 16) return said(17);
    switch (kind) {
    case DFC_ACCEPT:
    case DFC_BUSY:
    case DFC_UNOBTAINABLE: return answers(c, kind);
    case DFC_SEND: return speaks(c, me, signal, tunnel, code);
    case DFC_SEND_TEARDOWN: return tears(c, me);
    case DFC_DELIVER: return takes(c, me);
    default: return FAULT(16) ? takes(c, me) : said(c->state[me] != PEER_LINKED ? 12 : 15);
    }
}

void peer_clear(peer_call *row, size_t records) { memset(row, 0, records * sizeof *row); }

dfc_commanded peer_command(peer_call *row, size_t records, size_t record_number, uint16_t use_number, uint8_t kind, uint8_t side, uint8_t signal,
                           uint8_t tunnel, uint8_t code) {
    if (records > 1024) return said(16);
    if (record_number >= records) return said(10);
    peer_call *c = &row[record_number];
    if (is_free(c) || (c->use != use_number && !FAULT(14))) return said(10);
    return step(c, kind, side, signal, tunnel, code);
}

dfc_commanded peer_port_command(peer_call *port, uint8_t kind, uint8_t side, uint8_t signal, uint8_t tunnel, uint8_t code) {
    return step(port, kind, side, signal, tunnel, code);
}

dfc_placed peer_place(const uint8_t *file, size_t file_size, const uint8_t *sent, size_t sent_size, peer_call *row, size_t records,
                      uint8_t *source_list, size_t source_size, uint8_t *target_list, size_t target_size, uint8_t received[DFC_SETUP]) {
    size_t r = 0;
    while (r < records && !is_free(&row[r])) r++;
    unsigned later = records > (FAULT(15) ? 1025 : 1024) ? 16 : r == records ? 11 : 0;
    dfc_routed q = route_unless(later, file, file_size, sent, sent_size, source_list, source_size, target_list, target_size, received);
    if (q.number != 0) return (dfc_placed){q.number, q.value, 0, 0, 0, 0, 0};
    peer_call *c = &row[r];
    c->state[DFC_CALLER] = PEER_REQUESTING, c->state[DFC_CALLEE] = PEER_WAITING;
    c->use++;
    c->to[0].count = c->to[1].count = 0;
    for (int e = 0; e < 2; e++) memset(c->channel[e], 0, FAULT(23) ? 255 : 256);
    return (dfc_placed){0, q.value, q.kind, q.box_number, q.address, r, c->use};
}

dfc_placed peer_port_place(const uint8_t *file, size_t file_size, const uint8_t *sent, size_t sent_size, peer_call *port, uint8_t *source_list,
                           size_t source_size, uint8_t *target_list, size_t target_size, uint8_t received[DFC_SETUP]) {
    return peer_place(file, file_size, sent, sent_size, port, 1, source_list, source_size, target_list, target_size, received);
}
