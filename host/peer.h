/* The peer: the operations of dfc.h a second time, written in C from document 01, the manual and dfc.h. It keeps calls in structs, with a ring for each
 * queue, and knows nothing of a record's bytes. */
#ifndef PEER_H
#define PEER_H
#include "../include/dfc.h"

/* Made with PEER_FAULTS, the driver is told one of the faults that host/test has to find; it lies in the peer or in what the driver expects. */
#ifdef PEER_FAULTS
extern int peer_fault;
#define FAULT(n) (peer_fault == (n))
#else
#define FAULT(n) 0
#endif

enum { PEER_IDLE, PEER_REQUESTING, PEER_WAITING, PEER_LINKED, PEER_UNLINKING };

typedef struct {
    uint8_t kind, tunnel, code;
} peer_signal;

/* the oldest signal is at the head; a count above 16 is a broken call's, on which nothing is done */
typedef struct {
    uint8_t head, count;
    peer_signal at[16];
} peer_ring;

/* A channel at one end, with the names of manual 9.4's opening end; the answering end is opened, oacking and readied where this one is opening, oacked and
 * readying. Other numbers are a broken call's. */
enum { PEER_UNUSED, PEER_OPENING, PEER_OACKED, PEER_READIED, PEER_CLOSING, PEER_CLOSING2, PEER_CLOSING3, PEER_CLOSED, PEER_ENDED, PEER_CHANNEL_STATES };

/* indexed by DFC_CALLER and DFC_CALLEE: an end's state, what waits for it, and its channels by tunnel (place 0 is nobody's) */
typedef struct {
    uint8_t state[2];
    uint16_t use;
    peer_ring to[2];
    uint8_t channel[2][256];
} peer_call;

dfc_answer peer_check(const uint8_t *file, size_t file_size);
dfc_answer peer_write(const uint8_t *file, size_t file_size, uint8_t *room, size_t room_size);
dfc_answer peer_zone(const uint8_t *file, size_t file_size, uint8_t region, uint32_t address, uint8_t types[32]);
dfc_answer peer_shown(const uint8_t *file, size_t file_size, uint32_t address, uint32_t *existing, uint8_t *kind);
dfc_answer peer_new(const uint8_t *file, size_t file_size, uint8_t kind, uint8_t type, uint32_t address, const uint8_t *string,
                    size_t string_size, uint32_t target, uint8_t made[DFC_SETUP]);
dfc_answer peer_continued(const uint8_t *file, size_t file_size, uint8_t kind, uint8_t type, uint32_t address, const uint8_t *received,
                          size_t received_size, uint32_t source, const uint8_t *string, size_t string_size, uint32_t target,
                          uint8_t made[DFC_SETUP]);
dfc_answer peer_reversed(const uint8_t *file, size_t file_size, uint8_t kind, uint8_t type, uint32_t address, const uint8_t *sent,
                         size_t sent_size, uint32_t source, const uint8_t *string, size_t string_size, uint32_t target,
                         uint8_t made[DFC_SETUP]);
dfc_routed peer_route(const uint8_t *file, size_t file_size, const uint8_t *sent, size_t sent_size, uint8_t *source_list,
                      size_t source_size, uint8_t *target_list, size_t target_size, uint8_t received[DFC_SETUP]);
void peer_clear(peer_call *row, size_t records);
dfc_placed peer_place(const uint8_t *file, size_t file_size, const uint8_t *sent, size_t sent_size, peer_call *row, size_t records,
                      uint8_t *source_list, size_t source_size, uint8_t *target_list, size_t target_size, uint8_t received[DFC_SETUP]);
dfc_commanded peer_command(peer_call *row, size_t records, size_t record_number, uint16_t use_number, uint8_t kind, uint8_t side, uint8_t signal,
                           uint8_t tunnel, uint8_t code);
dfc_placed peer_port_place(const uint8_t *file, size_t file_size, const uint8_t *sent, size_t sent_size, peer_call *port, uint8_t *source_list,
                           size_t source_size, uint8_t *target_list, size_t target_size, uint8_t received[DFC_SETUP]);
dfc_commanded peer_port_command(peer_call *port, uint8_t kind, uint8_t side, uint8_t signal, uint8_t tunnel, uint8_t code);
#endif
