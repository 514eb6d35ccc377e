/* Four chips on one bus, from the papers alone: the arguments and numbers of pcf8820_bus_step in
 * include/pcf8820.h. Each chip is one of model.h. */
#ifndef FOUR_CHIPS_H
#define FOUR_CHIPS_H

#include <stddef.h>
#include <stdint.h>

uint64_t model_bus_step(uint64_t *record0, size_t record0_len,
                        uint8_t *memory0, size_t memory0_len,
                        uint64_t *writers0, size_t writers0_len,
                        uint64_t *record1, size_t record1_len,
                        uint8_t *memory1, size_t memory1_len,
                        uint64_t *writers1, size_t writers1_len,
                        uint64_t *record2, size_t record2_len,
                        uint8_t *memory2, size_t memory2_len,
                        uint64_t *writers2, size_t writers2_len,
                        uint64_t *record3, size_t record3_len,
                        uint8_t *memory3, size_t memory3_len,
                        uint64_t *writers3, size_t writers3_len,
                        uint64_t *count, uint16_t event, uint64_t pins);

#endif
