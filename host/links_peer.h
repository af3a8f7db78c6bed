/* The peer of a box's links: the operations of dfc.h a second time, written in C from document 02 (ask 14), manual 11.2 and dfc.h. */
#ifndef LINKS_PEER_H
#define LINKS_PEER_H
#include "../include/dfc.h"

/* Made with PEER_FAULTS, the driver is told one of the faults that host/test has to find. */
#ifdef PEER_FAULTS
extern int peer_fault;
#define FAULT(n) (peer_fault == (n))
#else
#define FAULT(n) 0
#endif

dfc_answer peer_links_add(uint64_t set[DFC_LINKS], uint16_t sink_port, uint16_t sink_channel, uint16_t source_port, uint16_t source_channel);
dfc_answer peer_links_remove(uint64_t set[DFC_LINKS], uint16_t sink_port, uint16_t sink_channel, uint16_t source_port, uint16_t source_channel);
dfc_answer peer_links_drop(uint64_t set[DFC_LINKS], uint16_t port);
dfc_answer peer_links_sources(const uint64_t set[DFC_LINKS], uint16_t sink_port, uint16_t sink_channel, uint32_t sources[DFC_LINKS]);
#endif
