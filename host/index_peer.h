/* The operations on an index of dfc.h a second time, written in C from request 5 and dfc.h. */
#ifndef INDEX_PEER_H
#define INDEX_PEER_H
#include "../include/dfc.h"

dfc_answer index_peer_build(const uint8_t *file, size_t file_size, uint32_t (*index)[DFC_INDEX_PLACES]);
dfc_listed index_peer_look(const uint32_t (*index)[DFC_INDEX_PLACES], uint8_t region, uint32_t type);
dfc_answer index_peer_update(const uint8_t *file, size_t file_size, uint32_t (*index)[DFC_INDEX_PLACES], uint32_t address, uint32_t source, uint32_t target,
                             uint8_t *room, size_t room_size);
#endif
