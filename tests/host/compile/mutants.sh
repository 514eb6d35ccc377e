#!/bin/sh
# The errors that the tests of the compiler must find. Run from the project's root.
set -eu
tests=compiler
. tests/host/mutating.sh
stand_in tests/host/report.c tests/host/buffers.c tests/host/records.c tests/host/harness.c \
    tests/host/compile/*.c

model=compile

# Registers.
mutant 'PD dropped while V is set' \
    's/encoded(row, record));/encoded(row, record) \& (word == V ? ~4u : ~0u));/'
mutant 'neighbours 0' \
    's/^    emit_command(stream, encoded(row, record));/    uint64_t alone[WORDS] = { 0 }; alone[word] = record[word]; emit_command(stream, encoded(row, alone));/'
mutant 'neighbours as at the start' \
    's/plain_registers(&line, tracked);/memcpy(tracked, record, sizeof tracked); &/'
mutant 'MX and MY exchanged' 's/{ MX, 2 }, { MY, 1 }/{ MY, 2 }, { MX, 1 }/'
mutant 'page left at the end' \
    '/encoded(row, record)/,/^}/ s/if (row->page != 0)/if (false)/'
mutant 'page 0 selected twice' \
    '/encoded(row, record)/,/^}/ s/if (row->page != 0)/if (true)/'
mutant 'page command for page 0' \
    '/row_of(word);/,/PAGE |/ s/if (row->page != 0)/if (true)/'
mutant 'grey register not selected' 's/if (row->page == GREY_PAGE)/if (false)/'
mutant 'level before the grey register' \
    's/SELECT_GREY | (unsigned)record\[GR\]/0x80 | (unsigned)record[word]/; s/encoded(row, record));/row->page == 3 ? 0x40 | (unsigned)record[GR] : encoded(row, record));/'

# Cells.
mutant 'unswapped bytes with DO = 1' 's/record\[DO\] ? reversed(byte) : byte/byte/'
mutant 'bank 16 masked after the swap' 's/^    unsigned sent = .*/& if (y == 16) sent \&= 0x3F;/'
mutant 'MX run started at 100 - c0' 's/COLUMNS - 1 - line->c1/COLUMNS - 1 - line->c0/'
mutant 'MX ignored' 's/record\[MX\] ? COLUMNS - 1 - line->c1 : line->c0/line->c0/'
mutant 'V ignored' 's/if (record\[V\])/if (false)/'
mutant 'V = 1 runs falling' 's/x + i, line->b0/x + columns - 1 - i, line->b0/'
mutant 'V = 1 runs falling with MX' \
    's/x + i, line->b0/record[MX] ? x + columns - 1 - i : x + i, line->b0/'
mutant 'V = 0 runs falling' 's/x, line->b0 + i/x, line->b1 - i/'
mutant 'one data byte too few' 's/i < count; i++/i + 1 < count; i++/'

# The stream.
mutant 'empty stream' 's/while (!list_ended(&list))/while (false)/'
mutant 'first line only' 's/while (!list_ended(&list))/if (!list_ended(\&list))/'
mutant 'page 0 not selected first' 's/^    emit_command(stream, PAGE_0);//'
mutant 'pins ignored' 's/ | (unsigned)record\[SA\] << 1//'
mutant 'START left out while an address is awaited' \
    's/^    emit(stream, START);/    if (record[PHASE] != 1 || stream->length) emit(stream, START);/'
mutant 'STOP left out' '/encoded(row, record)/,/^}/ s/emit(stream, STOP);//'

# Numbers given back.
mutant 'clocks counting START and STOP' 's/if (event < 256)/if (true)/'
mutant 'eight clocks for a byte' 's/CLOCKS_OF_A_BYTE = 9/CLOCKS_OF_A_BYTE = 8/'
mutant 'length one short' 's/\*length = counted.length;/*length = counted.length - (counted.length > 0);/'
mutant 'length of 16 bits' 's/\*length = counted.length;/*length = (uint16_t)counted.length;/'
mutant 'length not given with 10' 's/return TOO_SHORT;/return *length = 0, TOO_SHORT;/'
mutant 'clocks given with 10' 's/return TOO_SHORT;/return *clocks = 9 * counted.bytes, TOO_SHORT;/'
mutant 'length left as it was' 's/^    \*length = 0;//'
mutant 'clocks left as they were' 's/^    \*clocks = 0;//'
mutant 'line left as it was' 's/^    \*line = 0;//'
mutant 'lines looked at before record' \
    's/if (!model_allowed(record, record_len))/if (list_refusal(text, text_len, line)) return list_refusal(text, text_len, line); &/'
mutant 'record not looked at' 's/!model_allowed(record, record_len)/record_len != WORDS/'
mutant 'counts of pixels not looked at' \
    's/if (!model_allowed(record, record_len))/uint64_t as[WORDS]; if (record_len == WORDS) for (int w = 0; w < WORDS; w++) as[w] = w < PIXELS_0 ? record[w] : 0; if (!model_allowed(as, record_len))/'
mutant 'counts of pixels that do not add up refused' \
    's/if (!model_allowed(record, record_len))/if (!model_allowed(record, record_len) || record[PIXELS_0] + record[PIXELS_1] + record[PIXELS_2] + record[PIXELS_3] != PIXELS)/'

# The output.
mutant 'output written before 10 is known' \
    's/if (out_len < counted.length)/if (out_len > 0 \&\& counted.length > 0) out[0] = START; &/'
mutant 'just enough room refused' 's/out_len < counted.length/out_len <= counted.length/'
mutant 'one event past the room' 's/out_len < counted.length/out_len + 1 < counted.length/'
mutant 'room not looked at' 's/out_len < counted.length/false/'
mutant 'output beyond the length cleared' \
    's/^    emit_list(&written.*/& if (written.length < out_len) out[written.length] = 0;/'
mutant 'registers tracked in the record itself' \
    's/plain_registers(&line, tracked);/& plain_registers(\&line, (uint64_t *)record);/'
mutant 'text changed' 's/^    emit_list(&written.*/& if (text_len) ((uint8_t *)text)[0] ^= 32;/'
mutant 'read past the text' \
    's/^    emit_list(&counted/    (void)*(volatile const uint8_t *)(text + text_len); &/'

model=plain
mutant 'registers not tracked' 's/record\[line->word\] = line->value;/(void)0;/'
mutant 'selected grey register not tracked' 's/record\[GR\] = line->word - GS0;/(void)0;/'

model=list

# Lines.
mutant '7 before 6' \
    '/unsigned n\[/,/^}/ s/return LIST_MALFORMED;/return n[0] > 100 \&\& n[0] != NO_NUMBER ? LIST_OUT_OF_RANGE : LIST_MALFORMED;/'
mutant '7 before 6 in a set' \
    '/field_of(&parts/,/^}/ s/return LIST_MALFORMED;/return number_of(\&parts[1]) % NO_NUMBER > 255 ? LIST_OUT_OF_RANGE : LIST_MALFORMED;/'
mutant '64 let through into bank 16' 's/BANKS - 1 ? 63 : 255/BANKS - 1 ? 64 : 255/'
mutant 'bank 16 looked for in the first bank only' 's/line->b1 == BANKS - 1 ?/line->b0 == BANKS - 1 ?/'
mutant 'byte 256 taken' 's/63 : 255/63 : 256/'
mutant 'column 101 taken' 's/line->c1 < COLUMNS/line->c1 <= COLUMNS/'
mutant 'bank 17 taken' 's/line->b1 < BANKS/line->b1 <= BANKS/'
mutant 'no column taken' 's/line->c0 <= line->c1 /line->c0 <= line->c1 + 1 /'
mutant 'no bank taken' 's/line->b0 <= line->b1 /line->b0 <= line->b1 + 1 /'
mutant 'value too wide for its field' 's/"gs3", GS3, 6/"gs3", GS3, 7/'
mutant 'value refused that the field takes' 's/"vop", VOP, 7/"vop", VOP, 6/'
mutant 'numbers cut to a byte' 's/^    return number;/    return number \& 255;/'
mutant 'selected grey register can be set' 's/{ "do", DO, 1 },/& { "gr", GS0, 2 },/'
mutant 'page can be set' 's/{ "do", DO, 1 },/& { "h", DO, 1 },/'

# Bytes.
mutant 'leading zeros taken' "s/part->at\[0\] == '0' && part->length > 1/false/"
mutant 'four digits taken' 's/LONGEST_NUMBER = 3, NO_NUMBER = 1000/LONGEST_NUMBER = 4, NO_NUMBER = 10000/'
mutant 'no digit taken for 0' 's/part->length == 0 || //'
mutant 'colon taken for a digit' "s/> '9'/> ':'/"
mutant 'high bit of a digit ignored' \
    "s/part->at\[i\] < '0' || part->at\[i\] > '9'/(part->at[i] \& 127) < '0' || (part->at[i] \& 127) > '9'/"
mutant 'spaces part fields too' "s/line\[i\] != '.t'/line[i] != 9 \&\& line[i] != 32/"
mutant 'several tabs taken for one' \
    's/^        if (count == MOST_PARTS)/        if (i == from \&\& i > 0) { from = i + 1; continue; } &/'
mutant 'tab at the end taken' \
    's/^        if (count == MOST_PARTS)/        if (i == length \&\& from == length \&\& count > 0) break; &/'
mutant 'fields beyond the last one ignored' 's/count == 4 \&\&/count >= 4 \&\&/'
mutant 'capitals taken' \
    's/memcmp(part->at, word, part->length)/strncasecmp((const char *)part->at, word, part->length)/'
mutant 'beginning of a word taken' \
    's/part->length == strlen(word) \(.*\), part->length)/part->length <= strlen(word) \1, part->length)/'
mutant 'carriage return passed over' \
    's/^    return read_line(from, length, line);/    if (length > 0 \&\& from[length - 1] == 13) length--; &/'
mutant 'empty line passed over' \
    's/^    return read_line(from, length, line);/    if (length == 0 \&\& list->at < list->length) return list_next(list, line); &/'
mutant 'text ends at a zero byte' \
    's/^    \*number = 0;/& const uint8_t *nul = memchr(text, 0, length); if (nul) list.length = length = (size_t)(nul - text);/'

# The list.
mutant '6 before 9' \
    's/^    if (newlines(text, length) > /    if (length > 0 \&\& list_next(\&(struct list) { text, length, 0 }, \&line) == 0 \&\& newlines(text, length) > /'
mutant '4,097 newlines taken' 's/MOST_NEWLINES = 4096/MOST_NEWLINES = 4097/'
mutant '4,096 newlines refused' 's/MOST_NEWLINES = 4096/MOST_NEWLINES = 4095/'
mutant 'newlines counted in 16 bits' 's/size_t count = 0;$/uint16_t count = 0;/'
mutant 'fragment counted as a line by 9' \
    's/newlines(text, length) >/newlines(text, length) + (length > 0 \&\& text[length - 1] != 10) >/'
mutant 'last line taken without its newline' \
    '/if (newline == NULL) {/,/}/ s/return LIST_MALFORMED;/return read_line(from, (size_t)(list->text + list->length - from), line);/'
mutant 'last line passed over without its newline' \
    '/if (newline == NULL) {/,/}/ s/return LIST_MALFORMED;/return *line = (struct line) { .fills = true }, 0;/'
mutant '7 given for a last line without its newline' \
    '/if (newline == NULL) {/,/}/ s/return LIST_MALFORMED;/return read_line(from, (size_t)(list->text + list->length - from), line) == 7 ? 7 : 6;/'
mutant '6 in a later line before 7' \
    's/if (refusal != 0) {/struct list rest = list; while (refusal == 7 \&\& !list_ended(\&rest)) if (list_next(\&rest, \&line) == 6) refusal = 0; &/'
mutant 'lines counted from 0' 's/\*number = n;/*number = n - 1;/'
mutant 'line numbers of 8 bits' 's/\*number = n;/*number = (uint8_t)n;/'
mutant 'a line given with 9' 's/return LIST_TOO_LONG;/return *number = 1, LIST_TOO_LONG;/'

all_found
