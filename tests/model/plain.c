#include "plain.h"

#include "model.h"
#include "words.h"

enum refusal { BAD_CELLS = 1, BAD_RECORD = 2 };

void plain_cells(const struct line *line, uint8_t *cells)
{
    if (!line->fills)
        return;
    for (unsigned bank = line->b0; bank <= line->b1; bank++)
        for (unsigned column = line->c0; column <= line->c1; column++)
            cells[COLUMNS * bank + column] = (uint8_t)line->byte;
}

/* A grey register that is set is also the selected one then. */
void plain_registers(const struct line *line, uint64_t *record)
{
    if (line->fills)
        return;
    record[line->word] = line->value;
    if (line->word >= GS0 && line->word <= GS3)
        record[GR] = line->word - GS0;
}

uint64_t model_plain(uint64_t *record, size_t record_len,
                     uint8_t *cells, size_t cells_len,
                     const uint8_t *text, size_t text_len)
{
    struct list list = { .text = text, .length = text_len };
    struct line line;
    uint64_t number;

    if (cells_len != PLACES)
        return BAD_CELLS;
    if (!model_allowed(record, record_len))
        return BAD_RECORD;
    uint64_t refusal = list_refusal(text, text_len, &number);
    if (refusal != 0)
        return refusal;
    while (!list_ended(&list)) {
        list_next(&list, &line);
        plain_cells(&line, cells);
        plain_registers(&line, record);
    }
    return 0;
}
