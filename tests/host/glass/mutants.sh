#!/bin/sh
# The errors that the tests of the glass must find. Run from the project's root.
set -eu
tests=glass
. tests/host/mutating.sh
stand_in tests/host/report.c tests/host/buffers.c tests/host/records.c tests/host/glass/*.c

model=glass

# Which cell is shown.
mutant 'columns from right to left' \
    's/^    return COLUMNS \* (.*) + column;/    return COLUMNS * (ram_row \/ 4) + 100 - column;/'
mutant 'mirror X applied when showing' \
    's/memory\[place_of(shown_row, column)\]/memory[place_of(shown_row, record[MX] ? 100 - column : column)]/'
mutant 'mirror X applied to the place' \
    's/place_of(ram_row(record, row), column)/place_of(ram_row(record, row), record[MX] ? 100 - column : column)/'
mutant 'mirror Y ignored' 's/record\[MY\] ? ROWS - 1 - row : row/row/'
mutant 'mirror Y about 67' 's/ROWS - 1 - row : row/ROWS - (row ? row : 1) : row/'
mutant 'mirror Y about 63' 's/ROWS - 1 - row : row/row < 64 ? 63 - row : row : row/'
mutant 'mirror Y not applied to the place' 's/place_of(ram_row(record, row), column)/place_of(row, column)/'
mutant 'eight rows in a bank' 's/ROWS_OF_A_BANK/8/g'
mutant 'higher bit worth 1' 's/2 \* high + low/high + 2 * low/'
mutant 'rows of a bank from the highest bits down' 's/unsigned k = ram_row/unsigned k = 3 - ram_row/'

# What it shows.
mutant 'modes 10 and 11 exchanged' \
    's/case 2: return value;/case 2: return 3 - value;/; s/default: return 3 - value;/default: return value;/'
mutant 'modes 00 and 01 exchanged' 's/case 0: return 0;/case 0: return 3;/; s/case 1: return 3;/case 1: return 0;/'
mutant 'D and E exchanged' 's/2 \* record\[D\] + record\[E\]/record[D] + 2 * record[E]/'
mutant 'rows 64 to 66 driven by DP 111' 's/ && ram_row <= 63//'
mutant 'rows 0 to 8 driven by DP 000' 's/ram_row <= 7/ram_row <= 8/'
mutant 'other DP drive the first rows' 's/if (part == 0)/if (part < 7)/'
mutant 'partial screen by glass row' 's/in_part(record\[DP\], shown_row)/in_part(record[DP], row)/'
mutant 'PS ignored' 's/record\[PS\] && //'
mutant 'undriven before dark' \
    's/^    if (record\[PD\] || record\[DOF\])/    if (record[PS] \&\& !in_part(record[DP], shown_row)) return UNDRIVEN; &/'
mutant 'PD does not darken' 's/record\[PD\] || //'
mutant 'DOF does not darken' 's/ || record\[DOF\]//'
mutant '63 shown as 63' 's/held == 63 ? 64 : held/held/'
mutant '62 shown as 63' 's/held == 63 ? 64/held >= 62 ? held + 1/'
mutant '62 shown as 64' 's/held == 63/held >= 62/'
mutant '63 of register 0 shown as 63' \
    's/level_of(\(record.*\));/(grey_register(record, value) ? level_of(\1) : record[GS0]);/'
mutant '64 where the selected register holds 63' \
    's/level_of(\(record.*\));/(record[GS0 + record[GR]] == 63 ? 64 : level_of(\1));/'
mutant 'the register written back as 64' \
    's/^    return LEVEL + /    if (record[GS3] == 63) ((uint64_t *)record)[GS3] = 64; &/'
mutant 'level of the selected register' 's/GS0 + grey_register(record, value)/GS0 + record[GR]/'
mutant 'number of the register given' \
    's/level_of(record\[GS0 + grey_register(record, value)\])/grey_register(record, value)/'

# Refusals.
mutant 'row 67 shown' 's/row < ROWS \&\&/row < ROWS + 1 \&\&/'
mutant 'column 101 shown' 's/column < COLUMNS/column < COLUMNS + 1/'
mutant 'row cut to 32 bits' 's/return row < ROWS/return (uint32_t)row < ROWS/'
mutant 'column cut to 32 bits' 's/column < COLUMNS/(uint32_t)column < COLUMNS/'
mutant 'memory length not looked at' 's/memory_len != PLACES/memory_len < PLACES/'
mutant 'record looked at before memory' \
    's/if (memory_len != PLACES)/if (model_allowed(record, record_len) \&\& memory_len != PLACES)/'
mutant 'row looked at before record' \
    's/if (!model_allowed(record, record_len))/if (on_the_glass(row, column) \&\& !model_allowed(record, record_len))/'
mutant 'record not looked at' 's/!model_allowed(record, record_len)/record_len != WORDS/'
for call in glass place; do
    mutant "$call: counts of pixels not looked at" \
        "/^uint64_t model_$call(/,/^}/ s/if (!model_allowed(record, record_len))/uint64_t as[WORDS]; if (record_len == WORDS) for (int w = 0; w < WORDS; w++) as[w] = w < PIXELS_0 ? record[w] : 0; if (!model_allowed(as, record_len))/"
done
mutant 'glass: counts of 16 bits' \
    '/^uint64_t model_glass(/,/^}/ s/if (!model_allowed(record, record_len))/uint64_t as[WORDS]; if (record_len == WORDS) for (int w = 0; w < WORDS; w++) as[w] = w < PIXELS_0 ? record[w] : (uint16_t)record[w]; if (!model_allowed(as, record_len))/'
mutant 'no place on a dark glass' \
    's/^    return PLACE +/    if (record[PD]) return DARK; return PLACE +/'

# Outside the buffers.
mutant 'memory changed' 's/^    unsigned value = /    ((uint8_t *)memory)[7] ^= 1; &/'
mutant 'record changed' 's/^    return PLACE +/    ((uint64_t *)record)[X] ^= 1; return PLACE +/'
mutant 'read past the memory' \
    's/^    unsigned value = /    (void)*(volatile const uint8_t *)(memory + PLACES); &/'

# Pulses of a pixel, and of a row.
model=pulses
mutant 'all pulses a quarter of the level' 's/owed %= FRAMES/owed = 0/'
mutant 'the remainder in the first frame' 's/owed += level/owed = level + (frame == 0) * 3 * (level % 4)/'
mutant 'the remainder in the last frame' 's/owed += level/owed = level + (frame == 3) * 3 * (level % 4)/'
mutant 'rounded to the nearest' 's/unsigned owed = 0/unsigned owed = FRAMES \/ 2/'
mutant 'frames from the last one on' 's/pulses\[frame\] = /pulses[FRAMES - 1 - frame] = /'
mutant 'pulses of 63 and not of 64' 's/owed += level;/owed += level == 64 ? 63 : level;/'
mutant 'pulses of 16 cut to four bits' 's/(uint8_t)(owed \/ FRAMES)/(owed \/ FRAMES) \& 15/'
mutant 'dark told as four zeros' 's/^    if (pixel < LEVEL)/    if (pixel == DARK) return (uint64_t)1 << 32; &/'
mutant 'undriven told as four zeros' \
    's/^    if (pixel < LEVEL)/    if (pixel == UNDRIVEN) return (uint64_t)1 << 32; &/'
mutant 'undriven told as dark' 's/^    if (pixel < LEVEL)/    if (pixel == UNDRIVEN) return DARK; &/'
mutant 'pulses without the 1 above them' 's/uint64_t word = 1/uint64_t word = 0/'
mutant 'frame 0 the highest byte' 's/frame = FRAMES - 1; frame >= 0; frame--/frame = 0; frame < FRAMES; frame++/'
mutant 'pulses of the column as row' '/^    uint64_t pixel/s/row, column/column, row/'
mutant 'dark bytes 0' 's/memset(bytes, DARK_BYTE/memset(bytes, 0/'
mutant 'undriven bytes 254' 's/memset(bytes, UNDRIVEN_BYTE/memset(bytes, DARK_BYTE/'
mutant 'one byte of four dark' 's/(bytes, DARK_BYTE, FRAMES/(bytes, DARK_BYTE, 1/'
mutant 'one byte of four undriven' 's/UNDRIVEN_BYTE, FRAMES/UNDRIVEN_BYTE, 1/'
mutant 'frames one after the other, each of 101 bytes' \
    's/^        put_pixel(.*/        uint8_t p[FRAMES]; put_pixel(pixel, p); for (int f = 0; f < FRAMES; f++) out[COLUMNS * f + column] = p[f];/'
mutant 'columns from right to left in a row' 's/out + FRAMES \* column/out + FRAMES * (100 - column)/'
mutant 'the last column left out' 's/column < COLUMNS; column++/column < COLUMNS - 1; column++/'
mutant 'column 0 in the whole row' 's/put_pixel(pixel,/put_pixel(first,/'
mutant 'the next row' '/^        uint64_t pixel/s/row, column/row < 66 ? row + 1 : 0, column/'
mutant 'row of a row cut to 32 bits' 's/memory_len, row, 0);/memory_len, (uint32_t)row, 0);/'
mutant '11 before 5' 's/^    if (first < DARK)/    if (first == 5 \&\& out_len != ROW_BYTES) return BAD_ROW_BUFFER; &/'
mutant '11 before 2' 's/^    if (first < DARK)/    if (first == 2 \&\& out_len != ROW_BYTES) return BAD_ROW_BUFFER; &/'
mutant '11 before 1' 's/^    if (first < DARK)/    if (first == 1 \&\& out_len != ROW_BYTES) return BAD_ROW_BUFFER; &/'
mutant 'a longer row buffer taken' 's/out_len != ROW_BYTES/out_len < ROW_BYTES/'
mutant 'a row buffer of 400 taken' 's/out_len != ROW_BYTES/out_len < 400/'
mutant 'row buffer not looked at' 's/if (out_len != ROW_BYTES)/if (0)/'
mutant 'the row written before 11 is known' \
    's/^    if (out_len != ROW_BYTES)/    if (out_len > 0) out[0] = 0; &/'
mutant 'the row written before 5 is known' \
    's/^    if (first < DARK)/    if (first == 5 \&\& out_len == ROW_BYTES) out[403] ^= 1; &/'
mutant 'a byte past the row' 's/^    return 0;/    out[ROW_BYTES] = 0; &/'
mutant 'memory changed for a row' 's/^    return 0;/    ((uint8_t *)memory)[7] ^= 1; &/'
mutant 'record changed for a row' 's/^    return 0;/    ((uint64_t *)record)[X] ^= 1; &/'
mutant 'memory changed for pulses' 's/^    uint8_t pulses\[FRAMES\]/    if (memory_len == 1717) ((uint8_t *)memory)[7] ^= 1; &/'

all_found
