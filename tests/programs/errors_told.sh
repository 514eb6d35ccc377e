# More errors that the tests of the programs must find: those of who, state and trace. As in
# tests/programs/errors.sh, which mutants.sh reads before it.

groups=pixels
model=who
mutant 'MY ignored' 's/played->record\[MY\] ? ROWS - 1 - row : row/row/'
mutant 'MY taken for MX' 's/played->record\[MY\]/played->record[MX]/'
mutant 'mirrored from 67' 's/ROWS - 1 - row/ROWS - row/'
mutant 'place without MY' 's/uint64_t place = .*/uint64_t place = COLUMNS * (row \/ 4) + column;/'
mutant 'MX applied when showing' \
    's/WORDS, row, column) - PLACE/WORDS, row, played->record[MX] ? COLUMNS - 1 - column : column) - PLACE/'
mutant 'pixel of another column shown' 's/PLACES, row, column));/PLACES, row, column ? column - 1 : 1));/'
mutant 'RAM row shown' 's/PLACES, row, column));/PLACES, ram_row, column));/'
mutant 'line as the event' 's/event + 1);/event);/'
mutant 'line of a cell without a writer' 's/event == 0 ? 0 : event + 1/event + 1/'
mutant 'events counted from 0' 's/"event", event/"event", event - 1/'
mutant 'event numbers of 8 bits' 's/uint64_t event = /uint64_t event = (uint8_t)/'
mutant 'event numbers of 16 bits' 's/uint64_t event = /uint64_t event = (uint16_t)/'
mutant 'line numbers of 16 bits' 's/event + 1);/(uint16_t)(event + 1));/'
mutant 'value from the high bits down' 's/2 \* (ram_row % ROWS_OF_A_BANK)/6 - &/'
mutant 'value by the row of the glass' 's/ram_row % ROWS_OF_A_BANK/row % ROWS_OF_A_BANK/'
mutant 'value of one bit' 's/& 3)/\& 1)/'
mutant 'value of the bit above' 's/>> 2 \* (/>> 1 + 2 * (/'
mutant 'bits of the value exchanged' \
    's/print_number("value", \(.*\));/{ unsigned v = \1; print_number("value", v >> 1 | (v \& 1) << 1); }/'
mutant 'byte by DO' 's/("byte", played->memory\[place\])/("byte", played->record[DO] ? 255 \& ~played->memory[place] : played->memory[place])/'
mutant 'cell of a dark pixel not told' 's/uint64_t event = /uint64_t event = played->record[PD] ? 0 : /'
mutant 'bank and cell column exchanged' 's/place \/ COLUMNS/place % 101/; s/place % COLUMNS/place \/ 101/'
mutant 'place without the bank' 's/("place", place)/("place", column)/'
mutant 'row and RAM row exchanged' 's/("row", row)/("row", ram_row)/; s/("ram row", ram_row)/("ram row", row)/'
mutant 'undriven pixels dark' 's/shows.tundriven/shows\\tdark/'
mutant 'level without its word' 's/tlevel %/t%/'
mutant 'name with an underscore' 's/"ram row"/"ram_row"/'
mutant 'blanks for tabs' 's/"%s.t%"/"%s %"/'
mutant 'no value' 's/^    print_number("value".*//'
mutant 'line before the event' 's/^    print_number("line".*//; s/^    print_number("event".*/    print_number("line", event == 0 ? 0 : event + 1); &/'
mutant 'refused capture told' 's/printf("refused.*/print_pixel(\&played, row, column);/'
mutant 'refusal without its line' 's/refused.t%" PRIu64 ".n", bad_line/refused\\n"/'
mutant 'row and column exchanged' 's/argv\[1\], ROWS/argv[3], ROWS/; s/argv\[2\], COL/argv[1], COL/; s/argv\[3\], ROWS/argv[2], ROWS/'
mutant 'row 66 refused' 's/argv\[1\], ROWS - 1/argv[1], ROWS - 2/'
mutant 'row 67 taken' 's/argv\[1\], ROWS - 1/argv[1], ROWS/'
mutant 'column 100 refused' 's/argv\[2\], COLUMNS - 1/argv[2], COLUMNS - 2/'
mutant 'column 101 taken' 's/argv\[2\], COLUMNS - 1/argv[2], COLUMNS/'
mutant 'numbers of 8 bits' 's/unsigned number = 0;/uint8_t number = 0;/'
mutant 'leading zero taken' "s/ || (word\[0\] == '0' && digits > 1)//"
mutant 'letters behind a number taken' "s/ || word\[digits\] != '.0'//"
mutant 'no digits taken for 0' "s/digits == 0 || //"
mutant 'row alone asked for' 's/"who", 3, 4,/"who", 2, 4,/; s/argv\[2\], COLUMNS/argc < 3 ? "0" : &/'

model=glass
mutant '63 shown as 63' 's/held == 63 ? 64 : held/held/'
mutant 'row 8 driven' 's/ram_row <= 7/ram_row <= 8/'

model=capture
mutant 'bad capture taken up to its bad line' 's/return lines + 1;/return 0;/'

groups=states
model=state
mutant 'commands not counted' 's/ || answer == TAKEN || answer == UNKNOWN || answer == OUT_OF_RANGE//'
mutant 'unknown commands not counted' 's/ || answer == UNKNOWN//'
mutant 'commands out of range not counted' 's/ || answer == OUT_OF_RANGE//'
mutant 'commands not taken counted as not acknowledged' \
    's/ || answer == UNKNOWN || answer == OUT_OF_RANGE//; s/answer == NACK/answer == NACK || answer >= UNKNOWN \&\& answer < BYTE_READ/'
mutant 'commands alone counted' 's/answer == ACK || //'
mutant 'bytes read counted' 's/answer == ACK ||/answer >= BYTE_READ || &/'
mutant 'reads that the master does not acknowledge counted' 's/answer == NACK/& || event == READ_NACK/'
mutant 'ignored bytes counted once' 's/answer == NACK/& \&\& before[PHASE] != IGNORING/'
mutant 'every event counted' 's/acknowledged += answer == ACK/acknowledged += answer == NOTHING || answer == ACK/'
mutant 'counts exchanged' 's/("acknowledged", acknowledged)/("acknowledged", not_acknowledged)/; s/("not acknowledged", not_acknowledged)/("not acknowledged", acknowledged)/'
mutant 'counts set back at a reset pulse' 's/^    (void)event;/    if (event == RESET_PULSE) acknowledged = not_acknowledged = 0;/'
mutant 'counts set back at START' 's/^    (void)event;/    if (event == START) acknowledged = not_acknowledged = 0;/'
mutant 'counts of 8 bits' 's/static uint64_t acknowledged/static uint8_t acknowledged/'
mutant 'counts of 16 bits' 's/static uint64_t acknowledged/static uint16_t acknowledged/'
mutant 'one command and one display byte exchanged' 's/"one command awaited", "one display byte awaited"/"one display byte awaited", "one command awaited"/'
mutant 'endless bytes exchanged' 's/"endless commands", "endless display bytes"/"endless display bytes", "endless commands"/'
mutant 'one byte and endless bytes exchanged' 's/\[ONE_BYTE\]/[8]/; s/\[ENDLESS\]/[ONE_BYTE]/; s/\[8\]/[ENDLESS]/'
mutant 'idle and ignoring exchanged' 's/"idle"/"ignored"/; s/"ignoring"/"idle"/; s/"ignored"/"ignoring"/'
mutant 'reading and read ended exchanged' 's/"reading"/"read"/; s/"read ended"/"reading"/; s/"read"/"read ended"/'
mutant 'address and control byte exchanged' 's/"address awaited"/"control awaited"/; s/"control byte awaited"/"address awaited"/; s/"control awaited"/"control byte awaited"/'
mutant 'phase by its number' 's/"phase.t%s.n", .*/"phase\\t%d\\n", (int)record[PHASE]);/'
mutant 'last RS by the phase' 's/record\[LAST_RS\]/record[PHASE_RS]/'
mutant 'pins and status exchanged' 's/record\[SA\]/record[WORDS - 1]/; s/record\[TR\]/record[SA]/; s/record\[WORDS - 1\]/record[TR]/'
mutant 'pins left out' 's/^    print_number("pins".*//'
mutant 'count by the lines' 's/played->count/& + 1/'
mutant 'count of 16 bits' 's/played->count/(uint16_t)played->count/'
mutant 'register h left out' 's/word = H;/word = H + 1;/'
mutant 'register oc left out' 's/word <= OC/word < OC/'
mutant 'registers from the last' 's/word = H; word <= OC; word++/word = OC; word >= H; word--/'
mutant 'registers without a name in lists last' \
    's/for (int word.*/for (int place = H, word; word = place < X ? place : place <= OC - 2 ? place + 2 : place - OC + 1 + X, place <= OC; place++)/'
mutant 'registers at reset left out' 's/^        print_number(register_names/        if (record[word]) &/'
mutant 'blanks for tabs' 's/"%s.t%"/"%s %"/'
mutant 'name with an underscore' 's/"last rs"/"last_rs"/'
mutant 'counts of pixels left out' 's/^    print_number("pixels [0-3]".*//'
mutant 'count of value 3 left out' 's/^    print_number("pixels 3".*//'
mutant 'counts of values 1 and 2 exchanged' 's/record\[PIXELS_1\]/record[WORDS]/; s/record\[PIXELS_2\]/record[PIXELS_1]/; s/record\[WORDS\]/record[PIXELS_2]/'
mutant 'counts of pixels from value 3 on' 's/"pixels 0", record\[PIXELS_0\]/"pixels 3", record[PIXELS_3]/; t; s/"pixels 3", record\[PIXELS_3\]/"pixels 0", record[PIXELS_0]/'
mutant 'counts of pixels before the bytes acknowledged' \
    's/^    print_number("count".*/& print_number("pixels 0", record[PIXELS_0]);/; s/^    print_number("pixels 0".*//'
mutant 'counts of pixels with an underscore' 's/"pixels \([0-3]\)"/"pixels_\1"/'
mutant 'counts of 8 bits told' 's/record\[PIXELS_0\]/(uint8_t)record[PIXELS_0]/'
mutant 'refused capture told' 's/printf("refused.*/print_state(\&played);/'
mutant 'state before a refusal' 's/printf("refused/print_state(\&played), &/'

model=display
mutant 'what stood there does not leave' 's/^    tally(.*, -1);//'
mutant 'counts of the byte as it was sent' 's/tally(counts, stored(chip, byte)/tally(counts, byte/'
mutant 'counts at place X without the mirror' 's/tally(counts, chip->memory\[place_now(chip)\]/tally(counts, chip->memory[COLUMNS * chip->now[Y] + chip->now[X]]/'

model=model
mutant 'counts of a cleared memory at a reset pulse' \
    's/^    chip->now\[LAST_RS\] = 0;/& if (chip->memory) { memset(\&chip->now[PIXELS_0], 0, VALUES * sizeof chip->now[0]); chip->now[PIXELS_0] = PIXELS; }/'

model=pixels
mutant 'counting start of the first 64 rows' 's/row < ROWS;/row < ROWS - 3;/'

model=names
mutant 'dof called do' 's/"dof"/"do"/'
mutant 'gs0 and gs3 exchanged' 's/"gs0"/"gs"/; s/"gs3"/"gs0"/; s/"gs"/"gs3"/'

model=capture
mutant 'bad line taken for the end' 's/event == BAD_LINE ? line : 0/0/'
mutant 'lines counted from 0' 's/line = 2;/line = 1;/'
mutant 'bad first line given as line 2' 's/^        return 1;/        return 2;/'
mutant 'events that are none passed over' 's/^        if (answer < NOTHING)/        if (answer == 3) continue; &/'

groups=traces
mutant 'bad line passed over' 's/^        if (event >= NO_LINE)/        if (event == BAD_LINE) continue; &/'
mutant 'lines that wait for a full buffer' 's/.at_a_time = 1 /.at_a_time = BUFFER /'

model=trace
mutant 'lines that wait for the end' 's/_IOLBF/_IOFBF/'
mutant 'lines before a refusal left out' \
    's/_IOLBF, BUFSIZ/_IOFBF, 1 << 24/; s/^int main/void __fpurge(FILE *); &/; s/printf("refused/__fpurge(stdout), &/'
mutant 'no refusal' 's/printf("refused.*/(void)0;/'
mutant 'refusal without its line' 's/refused.t%" PRIu64 ".n", bad_line/refused\\n"/'
mutant 'refusal by the event' 's/.n", bad_line)/\\n", bad_line - 1)/'
mutant 'events counted from 0' 's/after->count/after->count - 1/'
mutant 'lines counted and not events' 's/after->count/after->count + 1/'
mutant 'event numbers of 8 bits' 's/after->count/(uint64_t)(uint8_t)after->count/'
mutant 'event numbers of 16 bits' 's/after->count/(uint64_t)(uint16_t)after->count/'
mutant 'event in hex' 's/%" PRIu64 ".t%u.t"/%" PRIu64 "\\t%x\\t"/'
mutant 'event left out' 's/%" PRIu64 ".t%u.t", after->count, event/%" PRIu64 "\\t", after->count/'
mutant 'blank before the answer' 's/printf(".t");/printf(" ");/'
mutant 'no newline' 's/printf(".n");/printf("\\t");/'

mutant 'X 101 taken' 's/"unknown", "out of range"/"unknown", "taken"/'
mutant 'X 101 unknown' 's/"unknown", "out of range"/"unknown", "unknown"/'
mutant 'unknown commands taken' 's/"taken", "unknown"/"taken", "taken"/'
mutant 'commands acknowledged as other bytes are' 's/"taken", "unknown"/"acknowledged", "unknown"/'
mutant 'acknowledged and not exchanged' 's/"acknowledged", "not acknowledged"/"not acknowledged", "acknowledged"/'
mutant 'no answer left empty' 's/^        "-", /        "", /'
mutant 'byte read with its 512' 's/answer - BYTE_READ/answer/'
mutant 'byte read in hex' 's/"%" PRIu64, answer - BYTE_READ/"%" PRIx64, answer - BYTE_READ/'

mutant 'page and GR after the command' 's/print_command(before, byte);/print_command(after->record, byte);/'
mutant 'page 0 for all' 's/model_row((int)before\[H\], byte)/model_row(0, byte)/'
mutant 'GR ignored' 's/word += before\[GR\];/;/'
mutant 'grey registers called gs' 's/register_names\[word\], byte/word >= GS0 \&\& word <= GS3 ? "gs" : &/'
mutant 'fields from the low end' 's/int i = 0; i < said->fields; i++/int i = said->fields - 1; i >= 0; i--/'
mutant 'first field only' 's/i < said->fields;/i < said->fields \&\& i < 1;/'
mutant 'values by the byte' 's/byte >> low & ((1u << bits) - 1)/byte/'
mutant 'values a bit too wide' 's/(1u << bits) - 1/(2u << bits) - 1/'
mutant 'values of the fields not shifted' 's/byte >> low & (\(.*\)))/byte \& (\1) << low)/'
mutant 'value as the register takes it' 's/byte >> low & (\(.*\)))/word == X \&\& (byte \& 127) > 100 ? (unsigned)before[X] : byte >> low \& (\1))/'
mutant 'Y of four bits' 's/{ Y, 4, 0 }/{ Y, 3, 0 }/'
mutant 'X of six bits' 's/{ X, 6, 0 }/{ X, 5, 0 }/'
mutant 'VOP of six bits' 's/{ VOP, 6, 0 }/{ VOP, 5, 0 }/'
mutant 'levels of five bits' 's/{ GS0, 5, 0 }/{ GS0, 4, 0 }/'
mutant 'page of two bits' 's/{ H, 2, 0 }/{ H, 1, 0 }/'
mutant 'DO and V exchanged' 's/{ DO, 3, 3 }/{ V, 3, 3 }/; s/{ V, 1, 1 }/{ DO, 1, 1 }/'
mutant 'D and E exchanged' 's/{ D, 1, 1 }, { E, 0, 0 }/{ E, 1, 1 }, { D, 0, 0 }/'
mutant 'PS left out' 's/.fields = 3, .field = { { MX/.fields = 2, .field = { { MX/'
mutant 'EC and OC exchanged' 's/{ EC, 1, 1 }, { OC, 0, 0 }/{ OC, 1, 1 }, { EC, 0, 0 }/'
mutant 'BS-half called BS' 's/{ BSH, 0, 0 }/{ BS, 0, 0 }/'
mutant 'no operation not named' 's/{ .name = "nop" }/{ .fields = 0 }/'
mutant 'row block swap not named' 's/{ .name = "row block swap" }/{ .fields = 0 }/'
mutant 'page return told as a page' 's/{ .name = "page return" }/{ .fields = 1, .field = { { H, 2, 1 } } }/'
mutant 'unknown commands named' 's/^    { .fields = 0 },/    { .name = "unknown" },/'

mutant 'address with eight bits' 's/byte >> 1, byte/byte, byte/'
mutant 'address in hex' 's/address %u/address %x/'
mutant 'address by the pins' 's/byte >> 1, byte/byte >> 1 \& 3, byte/'
mutant 'write and read exchanged' 's/"read" : "write"/"write" : "read"/'
mutant 'one byte and endless bytes exchanged' 's/follows\[byte >> 6\]/follows[byte >> 6 ^ 2]/'
mutant 'commands and display bytes exchanged' 's/follows\[byte >> 6\]/follows[byte >> 6 ^ 1]/'
mutant 'low bits of the control byte looked at' 's/follows\[byte >> 6\]/follows[byte \& 63 ? 0 : byte >> 6]/'
mutant 'control byte by what follows' 's/"one command"/"one byte"/'

mutant 'display column without MX' 's/before\[MX\] ? COLUMNS - 1 - before\[X\] : before\[X\]/before[X]/'
mutant 'display column after the counter has moved' 's/before\[X\]/after->record[X]/g'
mutant 'bank after the counter has moved' 's/bank = before\[Y\]/bank = after->record[Y]/'
mutant 'column and bank exchanged' 's/ %u", column, bank,/ %u", bank, column,/'
mutant 'byte as it was sent' \
    's/^static void print_display/static unsigned sent; &/; s/^    switch (before/    sent = byte; &/; s/after->memory\[.*\])/sent)/'
mutant 'place for column and bank' 's/display %" PRIu64 " %" PRIu64 " %u", column, bank,/display %" PRIu64 " %u", COLUMNS * bank + column,/'
mutant 'display bytes told as commands' 's/if (before\[PHASE_RS\])/if (0)/'
mutant 'display bytes by last RS' 's/if (before\[PHASE_RS\])/if (after->record[PHASE_RS])/'
mutant 'ignored bytes told as commands' 's/printf("ignored")/print_command(before, byte)/'
mutant 'bytes told as they will be taken' 's/switch (before\[PHASE\])/switch (after->record[PHASE])/'
mutant 'read and last read exchanged' 's/"read", "last read"/"last read", "read"/'
mutant 'start and stop exchanged' 's/"start", "stop"/"stop", "start"/'
mutant 'sensor with its 512' 's/event - SENSOR)/event)/'
mutant 'reset with its event' 's/"reset"/"reset pulse"/'
mutant 'capital letters' 's/"start"/"START"/'

model=display
mutant 'bytes of bank 16 not cut' 's/byte &= 0x3F/(void)0/'
mutant 'bytes not swapped' 's/if (chip->now\[DO\])/if (0)/'
mutant 'counter that never moves on' 's/^    \*second = .*/    (void)second_last;/'

groups=arguments
model=who
mutant 'words behind the capture passed over' 's/"who", 3, 4,/"who", 3, 9,/'
mutant 'file not read' 's/argc == 4 ? argv\[3\] : NULL/NULL/'
mutant 'directory taken for an empty capture' 's/^    check_input.*//'

model=state
mutant 'words behind the capture passed over' 's/"state", 1, 2,/"state", 1, 9,/'
mutant 'file not read' 's/argc == 2 ? argv\[1\] : NULL/NULL/'
mutant 'directory taken for an empty capture' 's/^    check_input.*//'

model=trace
mutant 'words behind the capture passed over' 's/"trace", 1, 2,/"trace", 1, 9,/'
mutant 'file not read' 's/argc == 2 ? argv\[1\] : NULL/NULL/'
mutant 'directory taken for an empty capture' 's/^    check_input.*//'

groups=messages
model=who
mutant 'column judged first' \
    's/^    unsigned row = \(.*\)/    unsigned column = number_of(argv[2], 100, "COLUMN is not a number from 0 to 100"); unsigned row = \1/; t; s/^    unsigned column = .*//'
mutant 'row called column' 's/"ROW is not a number from 0 to 66"/"COLUMN is not a number from 0 to 100"/'
mutant 'wrong row told without the usage' 's/wrong_call("who", fault, USAGE)/give_up("who", "%s", fault)/'
