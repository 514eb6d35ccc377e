# The errors that the tests of the programs must find. tests/programs/mutants.sh reads this list: `model` is
# the source that an error is put into, `groups` are the tests that must find it.

groups=captures
model=replay
mutant 'cells by column, then bank' \
    's/bank = 0; bank < BANKS; bank++/column = 0; column < COLUMNS; column++/; t; s/column = 0; column < COLUMNS; column++/bank = 0; bank < BANKS; bank++/'
mutant 'banks from the last' 's/COLUMNS \* bank + column/COLUMNS * (16 - bank) + column/; s/column, bank,/column, 16 - bank,/'
mutant 'column and bank exchanged' 's/column, bank,/bank, column,/'
mutant 'byte and event exchanged' \
    's/%u.t%u.t%u.t%" PRIu64 ".n", column/%u\\t%u\\t%" PRIu64 "\\t%u\\n", column/; s/played->memory\[place\],/played->writers[place],/; s/^ *played->writers\[place\]);/played->memory[place]);/'
mutant 'cells that are 0 left out' 's/played->writers\[place\] != 0/played->memory[place] != 0/'
mutant 'cells without a writer listed' 's/played->writers\[place\] != 0/1/'
mutant 'bank 16 left out' 's/bank < BANKS/bank < BANKS - 1/'
mutant 'column 100 left out' 's/column < COLUMNS/column < COLUMNS - 1/'
mutant 'events counted from 0' 's/played->writers\[place\]);/played->writers[place] - 1);/'
mutant 'event numbers of 8 bits' 's/played->writers\[place\]);/(uint64_t)(uint8_t)played->writers[place]);/'
mutant 'no header' 's/printf("column.*/(void)0;/'
mutant 'no header without cells' 's/printf("column/if (played->count) &/'
mutant 'blanks for tabs' 's/column.tbank/column bank/'
mutant 'last newline left out' 's/%" PRIu64 ".n", column/%" PRIu64, column/'
mutant 'header before a refusal' 's/printf("refused/printf("column\\n"), &/'
mutant 'cells before a refusal' 's/printf("refused/print_cells(\&played), &/'
mutant 'refusal without its line' 's/refused.t%" PRIu64 ".n", bad_line/refused\\n"/'

model=capture
mutant 'lines counted from 0' 's/return lines + 1;/return lines;/'
mutant 'line after the bad one' 's/return lines + 1;/return lines + 2;/'
mutant 'bad first line given as line 2' 's/^        return lines;/        return lines + 1;/'
mutant 'line numbers of 16 bits' 's/return lines + 1;/return (uint16_t)(lines + 1);/'
mutant 'events counted and not lines' 's/uint64_t lines = 1;/uint64_t lines = 0;/; s/return lines;/return 1;/'
mutant 'bad line hides an earlier event' \
    's/^        lines += done;/if (stopped == BAD_LINE) return lines + count + 1; &/'
mutant 'leading zero taken' 's/number == 0 ? 1 : 3/3/'
mutant 'several zeros taken' \
    "s/^    int most_digits/    while (number == 0 \&\& reader->buffer[reader->at] == '0') reader->at++; &/"
mutant 'four digits cut to three' \
    's/number == 0 ? 1 : 3/number == 0 ? 1 : 4/; s/number = \(10 .*\);/number = (\1) % 1000;/'
mutant 'last line taken without its newline' \
    "s/next_byte(reader) == '.n' ? number : BAD_LINE/(byte = next_byte(reader)) == 10 || byte == EOF ? number : BAD_LINE/; s/if (byte == '.n')/if (byte == 10 || byte == EOF)/"
mutant 'last line passed over without its newline' \
    "s/next_byte(reader) == '.n' ? number : BAD_LINE/(byte = next_byte(reader)) == 10 ? number : byte == EOF ? NO_LINE : BAD_LINE/; s/if (!is_digit(byte))/if (byte == EOF) return NO_LINE; &/"
mutant 'carriage return taken' \
    "s/return next_byte(reader) == '.n' ? number/byte = next_byte(reader); if (byte == 13) byte = next_byte(reader); return byte == 10 ? number/"
mutant 'blank at the end taken' \
    "s/return next_byte(reader) == '.n' ? number/byte = next_byte(reader); if (byte == 32) byte = next_byte(reader); return byte == 10 ? number/"
mutant 'empty line passed over' \
    "s/^    return byte == EOF ? NO_LINE/    while (byte == '\\\\n') byte = next_byte(reader); &/"
mutant 'colon taken for a digit' "s/byte <= '9'/byte <= ':'/"
mutant 'end at a zero byte' 's/^    return byte == EOF ? NO_LINE/    if (byte == 0) return NO_LINE; &/'
mutant 'events that are none passed over' 's/if (refusal != 0 || stopped == BAD_LINE)/if (refusal == 3) { refusal = 0; lines++; } &/'
mutant 'empty capture taken' \
    's/^        return lines;/        return reader.length == 0 ? 0 : lines;/'
mutant 'pins 4 taken as 0' 's/return number_from(reader, next_byte(reader));/{ unsigned n = number_from(reader, next_byte(reader)); return n == 4 ? 0 : n; }/'
mutant 'pins ignored' 's/return number_from(reader, next_byte(reader));/return number_from(reader, next_byte(reader)) < 4 ? 0 : BAD_LINE;/'
mutant 'pins line not asked for' 's/!start(played, pins_line(&reader))/& \&\& false/'
mutant 'word of the pins line not looked at' "s/next_byte(reader) != \*word/next_byte(reader) == 10/"
mutant 'memory not cleared' 's/memset(played, 0, sizeof \*played);/memset(played, 1, sizeof *played);/'
mutant 'last event lost' \
    's/events, count, &done/events, stopped == NO_LINE \&\& count > 0 ? count - 1 : count, \&done/'
mutant 'first buffer only' 's/^        if (reader->length == 0)/static int reads; if (reader->length == 0 || reads++)/'
mutant 'a byte lost between buffers' 's/^        reader->at = 0;/static int reads; reader->at = reads++ > 0 \&\& reader->length > 1;/'
mutant 'short read taken for the end' \
    's/^        reader->length = fread.*/static bool short_read; reader->length = short_read ? 0 : read(fileno(reader->file), reader->buffer, BUFFER); short_read = reader->length < BUFFER;/'

model=view
mutant 'mirrored' 's/PLACES, row, column)/PLACES, row, COLUMNS - 1 - column)/'
mutant 'upside down' 's/PLACES, row, column)/PLACES, ROWS - 1 - row, column)/'
mutant 'column by column' \
    's/row = 0; row < ROWS; row++/column = 0; column < COLUMNS; column++/; t; s/column = 0; column < COLUMNS; column++/row = 0; row < ROWS; row++/'
mutant 'width and height exchanged' 's/COLUMNS, ROWS);/ROWS, COLUMNS);/'
mutant 'greys inverted' 's/(64 - (unsigned)(shown - LEVEL))/(unsigned)(shown - LEVEL)/'
mutant 'greys of 63 steps' 's/(64 - \(.*\)) \/ 64/(\1 > 63 ? 0 : 63 - \1) \/ 63/'
mutant 'greys rounded up' 's/ \/ 64;/ \/ 64 + (shown != LEVEL \&\& shown != LEVEL + 64);/'
mutant 'dark pixels black' 's/0 0 96/0 0 0/'
mutant 'undriven pixels dark' 's/96 64 0/0 0 96/'
mutant 'one value a pixel' 's/P3/P2/; s/"%u %u %u.n", grey, grey, grey/"%u\\n", grey/'
mutant 'several pixels a line' 's/%u %u %u.n/%u %u %u /'
mutant 'refused capture shown' 's/printf("refused.*/print_glass(\&played);/'

model=glass
mutant '63 shown as 63' 's/held == 63 ? 64 : held/held/'
mutant '62 shown as 64' 's/held == 63/held >= 62/'

groups=pairs
model=compare
mutant 'bytes not compared' 's/first->memory\[place\] != second->memory\[place\]/false/'
mutant 'writer numbers not compared' 's/first->writers\[place\] != second->writers\[place\]/false/'
mutant 'writer numbers compared by 8 bits' \
    's/first->writers\[place\] != second/(uint8_t)first->writers[place] != (uint8_t)second/'
mutant 'writer numbers compared by 16 bits' \
    's/first->writers\[place\] != second/(uint16_t)first->writers[place] != (uint16_t)second/'
mutant 'cells that differ in both' '/first->memory\[place\] !=/,/;/ s/||/\&\&/'
mutant 'a line for the byte and one for the event' \
    's/if (cells_differ.*/for (int i = (first->memory[place] != second->memory[place]) + (first->writers[place] != second->writers[place]); i > 0; i--)/'
mutant 'cells that only the second has written left out' 's/if (cells_differ(/if (first->writers[place] \&\& cells_differ(/'
mutant 'cells that only the first has written left out' 's/if (cells_differ(/if (second->writers[place] \&\& cells_differ(/'
mutant 'equal cells listed' 's/if (cells_differ(.*/if (first->writers[place])/'
mutant 'cells by column, then bank' \
    's/bank = 0; bank < BANKS; bank++/column = 0; column < COLUMNS; column++/; t; s/column = 0; column < COLUMNS; column++/bank = 0; bank < BANKS; bank++/'
mutant 'bank 16 left out' 's/bank < BANKS/bank < BANKS - 1/'
mutant 'column 0 left out' 's/column = 0;/column = 1;/'
mutant 'column 100 left out' 's/column < COLUMNS/column < COLUMNS - 1/'
mutant 'column and bank exchanged' 's/, column, bank,/, bank, column,/'
mutant 'bytes exchanged' 's/first->memory\[place\], second->memory/second->memory[place], first->memory/'
mutant 'events exchanged' 's/first->writers\[place\], second->writers/second->writers[place], first->writers/'
mutant 'byte and event of one capture side by side' \
    's/first->memory\[place\], second->memory\[place\],/first->memory[place], (unsigned)first->writers[place],/; s/first->writers\[place\], second->writers/(uint64_t)second->memory[place], second->writers/'
mutant 'event numbers of 8 bits' 's/first->writers\[place\], second->writers/(uint64_t)(uint8_t)first->writers[place], second->writers/'
mutant 'event numbers of 16 bits' 's/first->writers\[place\], second->writers/(uint64_t)(uint16_t)first->writers[place], second->writers/'
mutant 'no header' 's/printf("column.*/(void)0;/'
mutant 'no header where nothing differs' 's/printf("column/if (__builtin_memcmp(\&first, \&second, sizeof first)) &/'
mutant 'header before a refusal' 's/printf("refused/printf("column\\n"), &/'
mutant 'names of the header in another order' 's/second byte.tfirst event/first event\\tsecond byte/'
mutant 'register h left out' 's/word = H;/word = H + 1;/'
mutant 'register gr left out' 's/if (first->record/if (word != GR \&\& first->record/'
mutant 'register oc left out' 's/word <= OC/word < OC/'
mutant 'registers from the last' 's/word = H; word <= OC; word++/word = OC; word >= H; word--/'
mutant 'y before x' \
    's/int word = H; word <= OC; word++/int place = H, word; word = place == X ? Y : place == Y ? X : place, place <= OC; place++/'
mutant 'register values exchanged' \
    's/first->record\[word\], second->record\[word\]);/second->record[word], first->record[word]);/'
mutant 'registers before the cells' 's/^    print_cells(&first/    print_registers(\&first/; t; s/^    print_registers(&first/    print_cells(\&first/'
mutant 'registers left out where a cell differs' \
    's/^    print_registers(&first/    if (!__builtin_memcmp(first.memory, second.memory, PLACES)) &/'
mutant 'first register only' \
    's/^    for (int word/    bool told = false; &/; s/if (\(first->record.*\))/for (; \1 \&\& !told; told = true)/'
for word in SA TR LAST_RS PHASE PIXELS_0 PIXELS_3; do
    mutant "$word compared too" \
        "s/register_names\[word\]/word > OC ? \"$word\" : &/; s/word <= OC; word++/word <= $word; word += word == OC ? $word - OC : 1/"
done
mutant 'count compared too' \
    's/^    print_registers(&first.*/& if (first.count != second.count) printf("COUNT\\t%" PRIu64 "\\t%" PRIu64 "\\n", first.count, second.count);/'
mutant 'second capture judged first' \
    's/!play(first_file, 1, &first) || !play(second_file, 2, &second)/!play(second_file, 2, \&second) || !play(first_file, 1, \&first)/'
mutant 'both refusals told' 's/!play(first_file, 1, &first) ||/!play(first_file, 1, \&first) |/'
mutant 'second refusal passed over' 's/ || !play(second_file, 2, &second)/ || play(second_file, 2, \&second) \&\& 0/'
mutant 'number of the file exchanged' 's/number, bad_line/3 - number, bad_line/'
mutant 'refusal without its file' 's/refused.t%u.t%" PRIu64 ".n", number,/refused\\t%" PRIu64 "\\n",/'
mutant 'refusal without its line' 's/refused.t%u.t%" PRIu64 ".n", number, bad_line/refused\\t%u\\n", number/'
mutant 'first file twice' 's/argv\[2\]/argv[1]/'
mutant 'files exchanged' 's/argv\[1\]/argv[3]/; s/argv\[2\]/argv[1]/; s/argv\[3\]/argv[2]/'

model=names
mutant 'bsh called bs' 's/"bsh"/"bs"/'
mutant 'mx and my exchanged' 's/"mx"/"m"/; s/"my"/"mx"/; s/"m"/"my"/'
mutant 'gr in capitals' 's/"gr"/"GR"/'

model=capture
mutant 'second capture played on the memory of the first' \
    's/^    memset(played, 0, sizeof \*played);/    static struct played *before; if (before) *played = *before; else &; before = played;/'
mutant 'second capture played on the registers of the first' \
    's/^    while (stopped/    static uint64_t before[OC + 1]; static bool again; if (again) memcpy(played->record, before, sizeof before); &/; s/^    return 0;/    memcpy(before, played->record, sizeof before); again = true; &/'
mutant 'events of the second capture counted on' \
    's/^    while (stopped/    static uint64_t count; played->count = count; &/; s/^    return 0;/    count = played->count; &/'
mutant 'lines of the second capture counted on' 's/uint64_t lines = 1;/static uint64_t lines; lines++;/'

groups=lists
model=draw
mutant 'no pins line' 's/printf("pins.*/(void)0;/'
mutant 'pins always 0' 's/print_capture(pins,/print_capture(0,/'
mutant 'compiled for pins 0' 's/model_reset(record, WORDS, pins)/model_reset(record, WORDS, 0)/'
mutant 'last event left out' 's/i < length;/i + 1 < length;/'
mutant 'last newline left out' 's/"%u.n", events\[i\]/i + 1 < length ? "%u\\n" : "%u", events[i]/'
mutant 'events in hex' 's/"%u.n", events/"%x\\n", events/'
mutant 'lengths of 16 bits' 's/print_capture(pins, events, length)/print_capture(pins, events, (uint16_t)length)/'
mutant 'refusal without its line' 's/.t%" PRIu64 ".n", refusal, line/\\n", refusal/'
mutant 'refusal without its number' 's/refused.t%" PRIu64 ".t%" PRIu64 ".n", refusal, line/refused\\t%" PRIu64 "\\n", line/'
mutant 'pins line before a refusal' 's/printf("refused/printf("pins\\t0\\n"), &/'
mutant 'empty list refused' 's/if (refusal != 0 \&\& refusal != TOO_SHORT)/if (refusal != TOO_SHORT)/'
mutant 'long list cut' 's/^    if (length > MOST_TEXT)/    if (length > MOST_TEXT) length = MOST_TEXT; &/'
mutant 'list of 1,048,576 bytes refused' 's/if (length > MOST_TEXT)/if (length >= MOST_TEXT)/'
mutant 'list of 1,048,577 bytes taken' 's/MOST_TEXT = 1 << 20/MOST_TEXT = (1 << 20) + 1/'
mutant 'newline added to the last line' 's/^    return length;/    if (length > 0 \&\& text[length - 1] != 10) text[length++] = 10; return length;/'

groups=arguments
mutant 'words behind the list passed over' 's/"draw", 2, 3,/"draw", 2, 9,/'

model=replay
mutant 'words behind the capture passed over' 's/"replay", 1, 2,/"replay", 1, 9,/'
mutant 'file not read' 's/argc == 2 ? argv\[1\] : NULL/NULL/'
mutant 'directory taken for an empty capture' 's/^    check_input.*//'

model=compare
mutant 'one file and standard input' \
    's/"compare", 3, 3,/"compare", 2, 3,/; s/strcmp(argv.2., "-") == 0/argv[2] != NULL \&\& &/'
mutant 'words behind the captures passed over' 's/"compare", 3, 3,/"compare", 3, 9,/'
mutant 'second file opened when the first was read' \
    's/^    FILE \*second_file.*//; s/play(second_file, /play(open_input("compare", argv[2]), /'
mutant 'second file read where the first is bad' \
    's/^    if (!play(/    int byte = fgetc(second_file); check_input("compare", second_file); ungetc(byte, second_file); &/'
mutant 'directory taken for an empty capture' 's/^    check_input.*//'

model=search
mutant 'page return looked at last' 's/return 1;/return 1 + order[page].rows;/'
mutant 'count one short' 's/return 1 + (i + 1);/return 1 + i;/'
mutant 'count one short where no row takes the byte' 's/return 1 + order/return order/'
mutant 'search that goes on after a match' 's/return 1 + (i + 1);/return 1 + order[page].rows;/'
mutant 'rows of another page' 's/order\[page\]/order[3]/'
mutant 'Y before X' 's/{ 5, 4, 2/{ 4, 5, 2/'
mutant 'NOP not looked at' 's/{ 5, { 5,/{ 4, { 5,/'
mutant 'row block swapping not looked at' 's/{ 4, { 18, 19, 20, 0/{ 3, { 18, 19, 0/'
mutant 'X 101 counted as a byte of no row' 's/if (order\[page\].row\[i\] == row)/if (order[page].row[i] == row \&\& !(row == 5 \&\& byte > 228))/'
mutant 'byte 255 left out' 's/byte < BYTES/byte < BYTES - 1/'
mutant 'page 4 left out' 's/page < PAGES/page < PAGES - 1/'
mutant 'words behind the name passed over' 's/"search", 1, 1,/"search", 1, 9,/'

model=program
mutant 'pins 4 taken' "s/word\[0\] > '3'/word[0] > '4'/"
mutant 'pins 00 taken' "s/strlen(word) != 1/strlen(word) > 2/"
mutant 'pins not looked at' "s/if (strlen(word) != 1 .*/if (0)/"
mutant 'message on standard output' 's/fprintf(stderr, "%s: ", program)/printf("%s: failed\\n", program)/'
mutant 'status 0 for a wrong call' 's/exit(1)/exit(0)/'
mutant 'crash at a wrong call' 's/exit(1)/abort()/'
mutant 'no message' 's/fprintf(stderr/snprintf(NULL, 0/; s/vfprintf(stderr/vsnprintf(NULL, 0/; s/fprintf(stderr, ".n")/(void)0/'
mutant 'two lines of message' 's/fprintf(stderr, ".n")/fprintf(stderr, "\\n\\n")/'
mutant 'standard input for a missing file' 's/^    if (file == NULL)/    if (file == NULL) return stdin; &/'
mutant 'file for -' 's/ || strcmp(path, "-") == 0//'
mutant 'file for --help' 's/argc == 2 \&\& strcmp/0 \&\& strcmp/'

groups=messages
mutant 'help among other words' 's/argc == 2 \&\& strcmp/argc >= 2 \&\& strcmp/'
mutant 'help on standard error' 's/printf("usage/fprintf(stderr, "usage/'
mutant 'crash after the usage' 's/exit(0)/fflush(stdout); abort()/'
mutant 'status 1 for the usage' 's/exit(0)/exit(1)/'
mutant 'status 0 after a message' 's/exit(1)/exit(0)/'
mutant 'crash after a message' 's/exit(1)/abort()/'
mutant 'how a program is called left out' 's/%s; usage: %s", fault, usage/%s", fault/'
mutant 'too few words called too many' 's/too few/too many/'
mutant 'reason left out' 's/"%s: %s", inputs.free_place..name, strerror(errno)/"%s", inputs[free_place].name/'
mutant 'file of the message left out' 's/"%s: %s", name_of(file), strerror(errno)/"%s", strerror(errno)/'
mutant 'first file told for the second' 's/file == inputs.0..file ?/1 ?/'
mutant 'standard input without its name' 's/"standard input"/"-"/'
mutant 'newline of a name shown' "s/< ' '/< '\\\\n'/"
mutant 'byte 127 of a name shown' 's/ || \*byte == 127//'
mutant 'no name shown as nothing' "s/\\*name == '.0'/0/"
mutant 'wrong pins told without the usage' 's/wrong_call(program, \("PINS.*\), usage)/give_up(program, \1)/'
mutant 'path of 4,095 bytes not named' 's/> MOST_PATH)/>= MOST_PATH)/'

model=compare
mutant 'standard input twice' 's/strcmp(argv.2., "-") == 0/0/'
mutant 'standard input once refused' 's/strcmp(argv.1., "-") == 0 \&\& strcmp/strcmp(argv[1], "-") == 0 || strcmp/'

model=draw
mutant 'rules exchanged' 's/case 6:/case 7:/; t; s/case 7:/case 6:/'
mutant 'line 0 told' 's/if (line != 0)/if (1)/'
mutant 'no line told' 's/if (line != 0)/if (0)/'
mutant 'list not named' 's/"draw: %s", name)/"draw: the list")/'
mutant 'sentence on standard output' 's/fprintf(stderr, ": refused by/printf(": refused by/'
mutant 'long list not named' 's/"%s: longer than %d bytes", name_of(file), /"longer than %d bytes", /'
