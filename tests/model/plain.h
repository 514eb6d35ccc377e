/* The plain reading of a drawing list: what it makes of the cells and the registers, with no bus. */
#ifndef PLAIN_H
#define PLAIN_H

#include "list.h"

/* What one good line does to the 1,717 cells, and to the registers in a record's words. */
void plain_cells(const struct line *line, uint8_t *cells);
void plain_registers(const struct line *line, uint64_t *record);

/* The whole list, on both. Gives 0, or with nothing changed
 *   1        there are not 1,717 cells
 *   2        the record is not allowed
 *   6, 7, 9  the list is refused */
uint64_t model_plain(uint64_t *record, size_t record_len,
                     uint8_t *cells, size_t cells_len,
                     const uint8_t *text, size_t text_len);

#endif
