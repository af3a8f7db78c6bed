/* The peer of a box's links, as a C programmer would write it: one pass to check the set, a binary search, memmove and memset. */
#include "links_peer.h"
#include <string.h>

static dfc_answer answer(uint64_t number, uint64_t value) { return (dfc_answer){number, value}; }
static unsigned sink_port_of(uint64_t link) { return (unsigned)(link >> 48); }
static unsigned source_port_of(uint64_t link) { return (unsigned)(link >> 16 & 0xffff); }
static uint64_t link_of(uint16_t sink_port, uint16_t sink_channel, uint16_t source_port, uint16_t source_channel) {
    return (uint64_t)sink_port << 48 | (uint64_t)sink_channel << 32 | (uint64_t)source_port << 16 | source_channel;
}

/* How many links the set holds; -1 where it is no set. */
static int held(const uint64_t set[DFC_LINKS]) {
    int n = 0;
    uint64_t before = 0;
    for (; n < DFC_LINKS && set[n] != 0; n++) {
        if (set[n] <= before && !(FAULT(1) && set[n] == before)) return -1;
        if (sink_port_of(set[n]) == source_port_of(set[n])) return -1;
        before = set[n];
    }
    uint64_t rest = 0; /* every place is looked at, so that several can be at once */
    for (int i = n; i < DFC_LINKS; i++) rest |= set[i];
    return rest != 0 ? -1 : n;
}

/* The first of n links that is not below the link; n where there is none. */
static int place_of(const uint64_t *set, int n, uint64_t link) {
    int low = 0, high = n;
    while (low < high) {
        int middle = (low + high) / 2;
        if (set[middle] < link) low = middle + 1;
        else high = middle;
    }
    return low;
}

dfc_answer peer_links_add(uint64_t set[DFC_LINKS], uint16_t sink_port, uint16_t sink_channel, uint16_t source_port, uint16_t source_channel) {
    int n = held(set);
    if (n < 0) return answer(82, 0);
    if (sink_port == source_port) return answer(80, 0);
    uint64_t link = link_of(sink_port, sink_channel, source_port, source_channel);
    int at = place_of(set, n, link);
    if (FAULT(2) && n == DFC_LINKS) return answer(81, 0);
    if (at < n && set[at] == link) return answer(0, 0);
    if (n == DFC_LINKS) return answer(81, 0);
    memmove(set + at + 1, set + at, (size_t)(n - at) * sizeof *set);
    set[at] = link;
    return answer(0, 0);
}

dfc_answer peer_links_remove(uint64_t set[DFC_LINKS], uint16_t sink_port, uint16_t sink_channel, uint16_t source_port, uint16_t source_channel) {
    int n = held(set);
    if (n < 0) return answer(82, 0);
    if (FAULT(3) && sink_port == source_port) return answer(80, 0);
    uint64_t link = link_of(sink_port, sink_channel, source_port, source_channel);
    int at = place_of(set, n, link);
    if (at == n || set[at] != link) return answer(0, 0);
    memmove(set + at, set + at + 1, (size_t)(n - at - 1) * sizeof *set);
    set[n - 1] = 0;
    return answer(0, 0);
}

dfc_answer peer_links_drop(uint64_t set[DFC_LINKS], uint16_t port) {
    int n = held(set), left = 0;
    if (n < 0) return answer(82, 0);
    for (int i = 0; i < n; i++)
        if (sink_port_of(set[i]) != port && (FAULT(4) || source_port_of(set[i]) != port)) set[left++] = set[i];
    memset(set + left, 0, (size_t)(n - left) * sizeof *set);
    return answer(0, 0);
}

dfc_answer peer_links_sources(const uint64_t set[DFC_LINKS], uint16_t sink_port, uint16_t sink_channel, uint32_t sources[DFC_LINKS]) {
    int n = held(set), count = 0;
    if (n < 0) return answer(82, 0);
    uint64_t sink = (uint64_t)sink_port << 16 | sink_channel;
    for (int i = place_of(set, n, sink << 32); i < n && set[i] >> 32 == sink; i++) sources[count++] = (uint32_t)set[i];
    if (!FAULT(5)) memset(sources + count, 0, (size_t)(DFC_LINKS - count) * sizeof *sources);
    return answer(0, (uint64_t)count);
}
