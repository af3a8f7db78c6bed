/* Operational data a second time, written in C from request 12 of document 02, manual 7 and dfc.h; plan files are read by peer.c. */
#ifndef STORE_PEER_H
#define STORE_PEER_H
#include "peer.h"

dfc_answer peer_data_read(const uint8_t *file, size_t file_size, const uint32_t features[DFC_FEATURES], const uint32_t owners[DFC_OWNERS], uint8_t type,
                          uint32_t address, const uint32_t relations[DFC_RELATIONS], const uint32_t rows[DFC_DATA], uint32_t relation, uint32_t key);
dfc_answer peer_data_write(const uint8_t *file, size_t file_size, const uint32_t features[DFC_FEATURES], const uint32_t owners[DFC_OWNERS], uint8_t type,
                           uint32_t address, const uint32_t relations[DFC_RELATIONS], uint32_t rows[DFC_DATA], uint32_t relation, uint32_t key,
                           uint32_t number);
dfc_answer peer_data_delete(const uint8_t *file, size_t file_size, const uint32_t features[DFC_FEATURES], const uint32_t owners[DFC_OWNERS], uint8_t type,
                            uint32_t address, const uint32_t relations[DFC_RELATIONS], uint32_t rows[DFC_DATA], uint32_t relation, uint32_t key);
#endif
