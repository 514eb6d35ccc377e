#!/bin/sh
# The errors that the tests of the chip must find. Run from the project's root.
set -eu
tests=chip
. tests/host/mutating.sh
stand_in tests/host/*.c

model=model

# The errors that every class makes.
mutant 'memory cleared at reset' \
    's/^    chip->now\[TR\] = 0;/& if (chip->memory) memset(chip->memory, 0, PLACES);/'
mutant 'writers cleared at reset' \
    's/^    chip->now\[TR\] = 0;/& if (chip->writers) memset(chip->writers, 0, 8 * PLACES);/'
mutant 'endless bytes end after one' \
    's/if (chip->now\[PHASE\] == ONE_BYTE)/if (true)/'
mutant 'power-down dropped with the address mode' \
    's/"dpv", { DO, PD, V }/"d-v", { DO, PD, V }/'
model=display
mutant 'bank 16 masked before the swap' \
    's/byte &= 0x3F/(void)0/; s/if (chip->now\[DO\])/if (chip->now[Y] == 16) byte \&= 0x3F; &/'
mutant 'writer number of 32 bits' \
    's/writers\[place\] = chip->count/writers[place] = (uint32_t)chip->count/'
model=model

# Reset.
mutant 'pins cleared at reset' 's/w <= OC/w <= SA/'
mutant 'count cleared at reset' 's/^    chip->now\[TR\] = 0;/& chip->count = 0;/'
mutant 'reset leaves power-down' 's/chip->now\[PD\] = 1;/chip->now[PD] = 0;/'
mutant 'pins 4 taken' 's/pins > limit\[SA\]/pins > 4/'

# Bus.
mutant 'constant acknowledge' 's/return NACK;/return ACK;/'
mutant 'low control bits looked at' 's/byte & 0x80 ?/byte \& 0x81 ?/'
mutant 'last RS forgotten at START' 's/enter(chip, ADDRESS, 0);/chip->now[LAST_RS] = 0, &/'
mutant 'status byte read with either RS' 's/chip->now\[LAST_RS\] ? 255u : //'
mutant 'read never ends' 's/if (last)/if (false)/'
mutant 'reading goes on after a byte' 's/^    case READ_ENDED:/        return NACK; &/'
mutant 'reading taken in power-down' 's/ && !chip->now\[PD\]//'
mutant 'measurement stops by itself' 's/= reading;/= reading, chip->now[SM] = 0;/'

# Commands and display bytes.
mutant 'address above its range cut to it' \
    's/^            continue;/            value = limit[row->fields[i]];/'
mutant 'level always to grey register 0' 's/field = GS0 + chip->now\[GR\]/field = GS0/'
mutant '63 stored in a grey register as 64' \
    's/now\[field\] = effect->value\[i\]/& + (field >= GS0 \&\& field <= GS3 \&\& effect->value[i] == 63)/'
mutant 'row block swapping changes a field' 's/"010tb000", "", { 0 }/"010tb000", "t", { OC }/'
model=display
mutant 'a bit lost in the swap' 's/b & 0xAA/b \& 0x8A/'
mutant 'mirror X ignored' 's/chip->now\[MX\] ?/0 ?/'
mutant 'last place does not wrap' 's/advance(y, BANKS - 1, x, COLUMNS - 1)/advance(y, 16, x, 101)/'
mutant 'display byte told as taken' '/^uint64_t take_display_byte(/,/^}/ s/return ACK;/return TAKEN;/'
model=model

# Answers to commands.
mutant 'plain acknowledge for a command' 's/return effect->answer;/return ACK;/'
mutant 'plain acknowledge for a command after 80h' \
    's/: take_command(chip, byte);/: take_command(chip, byte) * (chip->now[PHASE] == ENDLESS) ?: ACK;/'
mutant 'plain acknowledge for a command after 00h' \
    's/: take_command(chip, byte);/: take_command(chip, byte) * (chip->now[PHASE] != ENDLESS) ?: ACK;/'
mutant 'unknown told as taken' 's/\.answer = UNKNOWN;/.answer = TAKEN;/'
mutant 'unknown told as out of range' 's/\.answer = UNKNOWN;/.answer = OUT_OF_RANGE;/'
mutant 'unknown not acknowledged' 's/\.answer = UNKNOWN;/.answer = NACK;/'
mutant 'unknown told as taken where another page has the row' \
    's/^            .*\.answer = UNKNOWN;/& for (int r = 0; r < TABLE_ROWS; r++) if (matches(rows[r].pattern, byte)) effects[page][byte].answer = TAKEN;/'
mutant 'out of range told as taken' 's/effect->answer = OUT_OF_RANGE;//'
mutant 'out of range told as unknown' 's/effect->answer = OUT_OF_RANGE;/effect->answer = UNKNOWN;/'
mutant 'out of range not acknowledged' 's/effect->answer = OUT_OF_RANGE;/effect->answer = NACK;/'
for field in X Y H; do
    mutant "$field above its range told as taken" \
        "s/effect->answer = OUT_OF_RANGE;/if (row->fields[i] != $field) &/"
    mutant "$field far above its range told as taken" \
        "s/effect->answer = OUT_OF_RANGE;/if (row->fields[i] != $field || value == limit[$field] + 1) &/"
    mutant "the largest $field told as out of range" \
        "s/^        if (value > limit/        if (row->fields[i] == $field \&\& value == limit[$field]) effect->answer = OUT_OF_RANGE; &/"
done
mutant 'commands without a field told as unknown' \
    's/^    effect->answer = TAKEN;/    effect->answer = *row->letters ? TAKEN : UNKNOWN;/'
mutant 'no operation told as unknown' \
    's/^    effect->answer = TAKEN;/    effect->answer = byte == 0 ? UNKNOWN : TAKEN;/'
mutant 'page return told as unknown' \
    's/^    effect->answer = TAKEN;/    effect->answer = byte == 1 ? UNKNOWN : TAKEN;/'
mutant 'page return in page 0 told as unknown' \
    's/^    const struct effect \*effect = .*/& if (byte == 1 \&\& chip->now[H] == 0) return UNKNOWN;/'
mutant 'row block swapping told as unknown' \
    's/^    effect->answer = TAKEN;/    effect->answer = row->page == 4 \&\& byte >= 64 ? UNKNOWN : TAKEN;/'
mutant 'command that changes nothing told as unknown' \
    's/^    const struct effect \*effect = .*/& struct chip was = *chip;/; s/return effect->answer;/return memcmp(was.now, chip->now, sizeof was.now) ? TAKEN : effect->answer == TAKEN ? UNKNOWN : effect->answer;/'
mutant 'register set to what it held told as unknown' \
    's/^    const struct effect \*effect = .*/& struct chip was = *chip;/; s/return effect->answer;/return effect->fields \&\& memcmp(was.now, chip->now, sizeof was.now) == 0 ? UNKNOWN : effect->answer;/'
mutant 'answer by the page after the command' \
    's/return effect->answer;/return effects[chip->now[H]][byte].answer;/'
mutant 'answer as in page 0' 's/return effect->answer;/return effects[0][byte].answer;/'
mutant 'address byte told as taken' '/^static uint64_t take_address(/,/^}/ s/return ACK;/return TAKEN;/'
mutant 'control byte told as taken' '/^static uint64_t take_control(/,/^}/ s/return ACK;/return TAKEN;/'
mutant 'display byte told as the command that it would be' \
    's/rs ? take_display_byte(chip, byte)/rs ? (take_display_byte(chip, byte), effects[chip->now[H]][byte].answer)/'
mutant 'ignored byte told as the command that it would be' \
    '/^    default:/,/^}/ s/return NACK;/return effects[chip->now[H]][byte].answer;/'

# Refusals.
mutant 'count rises at a refusal' \
    's/return BAD_EVENT;/return chip->count++, BAD_EVENT;/; s/if (!is_refusal(result))/if (true)/'
mutant 'record looked at before memory' \
    's/if (\(memory_len != .*PLACES\))/if (load(\&chip, record, record_len) \&\& (\1))/'
mutant 'count looked at before event' \
    's/if (!model_listed(event))/if (chip->count != UINT64_MAX \&\& !model_listed(event))/'
mutant 'writers length not looked at' 's/ || writers_len != PLACES//'
mutant 'longer record taken' 's/if (record_len != WORDS)$/if (record_len < WORDS)/'
mutant 'record word cut to 32 bits' 's/record\[w\] > limit/(uint32_t)record[w] > limit/'
mutant 'RS taken in a phase without one' 's/return phase_has_rs ||.*/return true;/'
mutant 'last event number not given' 's/count == UINT64_MAX/count >= UINT64_MAX - 1/'

# The count beside the record.
for call in step run; do
    in_call="/^uint64_t model_$call(/,/^}/"
    mutant "$call: count not handed back" "$in_call s/\*count = chip.count;//"
    mutant "$call: count of 32 bits" "$in_call s/\*count = chip.count;/*count = (uint32_t)chip.count;/"
    mutant "$call: count one behind" "$in_call s/\*count = chip.count;/*count = chip.count - 1;/"
    mutant "$call: count of the call before" \
        "$in_call { s/.count = \*count/.count = kept/; s/^    struct chip chip/    static uint64_t kept; &/; s/\*count = chip.count;/*count = kept = chip.count;/ }"
    mutant "$call: count rises at refusal 1" "$in_call s/return BAD_MEMORY;/return ++*count, BAD_MEMORY;/"
    mutant "$call: count rises at refusal 2" "$in_call s/return BAD_RECORD;/return ++*count, BAD_RECORD;/"
    mutant "$call: write past the count" "$in_call s/\*count = chip.count;/& count[1] = 0;/"
    mutant "$call: write before the count" "$in_call s/\*count = chip.count;/& count[-1] = 0;/"
done
mutant 'count of a refused run not handed back' 's/^    \*count = chip.count;/    if (refusal == 0) &/'
mutant 'count of a run raised by 1' 's/^    \*count = chip.count;/    *count += i > 0;/'
mutant 'a word more at reset' '/^uint64_t model_reset(/,/^}/ s/store(&chip, record);/& record[WORDS] = 0;/'

# Runs.
mutant 'run takes its first event only' 's/i < events_len;/i < events_len \&\& i < 1;/'
mutant 'empty run looks at nothing' 's/^    \*out_of_range = 0;/& if (events_len == 0) return 0;/'
mutant 'refused event counted as done' 's/\*done = i;/*done = i + (refusal != 0);/'
mutant 'done not set at entry' 's/^    \*done = 0;//'
in_run='/^uint64_t model_run(/,/^}/'
mutant 'run: record looked at where there are no events alone' \
    "$in_run s/if (!load(&chip, record, record_len))/if (!load(\\&chip, record, record_len) \\&\\& events_len == 0)/"
mutant 'run: memories looked at where there are no events alone' \
    "$in_run s/if (\(memory_len != .*PLACES\))/if (events_len == 0 \\&\\& (\1))/"
mutant 'run: its first event looked at before the record' \
    "$in_run s/if (!load(/if (events_len > 0 \\&\\& !model_listed(events[0])) return BAD_EVENT; &/"
mutant 'run: events looked at by their numbers at entry alone' \
    "$in_run s/uint64_t result = /if (i > 0 \\&\\& !model_listed(events[i])) continue; &/"
mutant 'run: count looked at at entry alone' \
    "$in_run s/uint64_t result = /if (i > 0 \\&\\& chip.count == UINT64_MAX) chip.count = 0; &/"
mutant 'earlier events lost at a refusal' \
    '/break;/,$ s/^    store(/    if (refusal == 0) store(/'

# The commands that a run counts.
mutant 'counts exchanged' \
    's/\*unknown = unknown_commands;/*unknown = commands_out_of_range;/; s/\*out_of_range = commands_out_of_range;/*out_of_range = unknown_commands;/'
mutant 'out of range counted as unknown too' 's/result == UNKNOWN;/result == OUT_OF_RANGE || &/'
mutant 'unknown counted as out of range too' 's/result == OUT_OF_RANGE;/result == UNKNOWN || &/'
mutant 'taken commands counted as unknown' 's/result == UNKNOWN;/result == TAKEN || &/'
mutant 'bytes not acknowledged counted as unknown' 's/result == UNKNOWN;/result == NACK || &/'
mutant 'bytes counted by value alone' \
    's/result == OUT_OF_RANGE;/events[i] < 256 \&\& effects[chip.now[H]][events[i]].answer == OUT_OF_RANGE;/'
for count in unknown_commands commands_out_of_range; do
    mutant "$count: only the first" "s/^        $count +=/        $count |=/"
    mutant "$count: the first event left out" "s/^        $count +=/        if (i > 0) &/"
    mutant "$count: the last event left out" "s/^        $count +=/        if (i + 1 < events_len) &/"
    mutant "$count: since the last START only" \
        "s/^        $count +=/        if (events[i] == START) $count = 0; &/"
    mutant "$count: since the last reset pulse only" \
        "s/^        $count +=/        if (events[i] == RESET_PULSE) $count = 0; &/"
    mutant "$count: of earlier runs too" "s/uint64_t $count = 0;/static uint64_t $count;/"
    mutant "$count: of 8 bits" "s/uint64_t $count = 0;/uint8_t $count = 0;/"
    mutant "$count: of 16 bits" "s/uint64_t $count = 0;/uint16_t $count = 0;/"
    mutant "$count: an event refused by 3 too" \
        "s/refusal = result;/& $count += result == BAD_EVENT;/"
    mutant "$count: an event refused by 4 too" \
        "s/refusal = result;/& $count += result == COUNT_FULL;/"
done
mutant 'refused unknown command counted' \
    's/refusal = result;/& if (chip.now[PHASE] == ENDLESS \&\& events[i] < 256) unknown_commands += effects[chip.now[H]][events[i]].answer == UNKNOWN;/'
mutant 'refused command out of range counted' \
    's/refusal = result;/& if (chip.now[PHASE] == ENDLESS \&\& events[i] < 256) commands_out_of_range += effects[chip.now[H]][events[i]].answer == OUT_OF_RANGE;/'
for number in unknown out_of_range; do
    mutant "$number not set at refusal 1" \
        "s/^    \*$number = 0;/    if (memory_len == PLACES \&\& writers_len == PLACES) &/"
    mutant "$number not set at refusal 2" "s/^    \*$number = 0;/    if (model_allowed(record, record_len)) &/"
    mutant "$number 0 where the run is refused" "s/^    \*$number = [a-z]/    if (refusal == 0) &/"
    mutant "$number not set where the run is refused" \
        "s/^    \*$number = 0;/    uint64_t noise = *$number; &/; s/^    return refusal;/    if (refusal != 0) *$number = noise; &/"
    mutant "$number added to what was there" \
        "s/^    \*$number = 0;//; s/^    \*$number = \([a-z]\)/    *$number += \1/"
    mutant "write past $number" "s/^    \*$number = [a-z].*/& ${number}[1] = 0;/"
done

# The counts of pixels.
mend='/^bool mend_counts(/,/^}/'
model=display
mutant 'bits 6 and 7 of bank 16 counted' 's/return chip->now\[Y\] == BANKS - 1 ? .*/return ROWS_OF_A_BANK;/'
mutant 'bits 6 and 7 of bank 16 counted where they leave' \
    "$mend s/\(\[place_now(chip)\], \)pixels, -1/\1ROWS_OF_A_BANK, -1/"
mutant 'bits 6 and 7 of bank 16 counted where they join' \
    "$mend s/\(stored(chip, byte), \)pixels, 1/\1ROWS_OF_A_BANK, 1/"
mutant 'bits 6 and 7 left out in bank 15, too' 's/return chip->now\[Y\] == BANKS - 1 ?/return chip->now[Y] >= BANKS - 2 ?/'
mutant 'two rows in bank 16' 's/? ROWS - ROWS_OF_A_BANK/? ROWS - 1 - ROWS_OF_A_BANK/'
mutant 'what stood there does not leave' "$mend s/^    tally(.*, -1);//"
mutant 'what is stored does not join' "$mend s/^    tally(.*, 1);//"
mutant 'leaving and joining exchanged' "$mend { s/pixels, -1/pixels, 9/; s/pixels, 1)/pixels, -1)/; s/pixels, 9/pixels, 1/ }"
mutant 'counts of the byte as it was sent' "$mend s/stored(chip, byte)/byte/"
mutant 'counts of the byte without DO' \
    "$mend s/stored(chip, byte)/chip->now[Y] == BANKS - 1 ? byte \& 0x3F : byte/"
mutant 'counts of the byte before bank 16 cuts it' \
    "$mend { s/stored(chip, byte), pixels/chip->now[DO] ? swapped(byte) : byte, ROWS_OF_A_BANK/ }"
mutant 'counts at place X without the mirror' "$mend s/place_now(chip)/COLUMNS * chip->now[Y] + chip->now[X]/"
mutant 'counts at the place behind' "$mend s/place_now(chip)/(place_now(chip) + 1) % PLACES/"
mutant 'values 1 and 2 exchanged' 's/counts\[byte >> 2 \* k & 3\]/counts[(byte >> 2 * k \& 1) * 2 + (byte >> 2 * k + 1 \& 1)]/'
mutant 'values of DB7 first' 's/counts\[byte >> 2 \* k & 3\]/counts[byte >> 6 - 2 * k \& 3]/'
mutant '16 pixel by pixel, leaving first' \
    "$mend s/^    tally(.*, 1);/    for (int v = 0; v < VALUES; v++) if (counts[v] < 0) return false; &/"
mutant '16 pixel by pixel, joining first' \
    "$mend { s/^    tally(.*, -1);//; s/^    \(tally(.*, 1);\)/    \1 for (int v = 0; v < VALUES; v++) if (counts[v] > PIXELS) return false; tally(counts, chip->memory[place_now(chip)], pixels, -1);/ }"
mutant '16 from 6,767 on' 's/counts\[v\] > PIXELS/counts[v] >= PIXELS/'
mutant '16 from 6,769 on' 's/counts\[v\] > PIXELS/counts[v] > PIXELS + 1/'
mutant '16 below 1' 's/counts\[v\] < 0/counts[v] < 1/'
mutant '16 below 0 alone' 's/ || counts\[v\] > PIXELS//'
mutant '16 above 6,767 alone' 's/counts\[v\] < 0 || //'
mutant '16 by the sum of the counts' \
    "$mend s/^    return true;/    int sum = 0; for (int v = 0; v < VALUES; v++) sum += counts[v]; return sum <= PIXELS;/"
for value in 0 1 2 3; do
    mutant "16 not for value $value" \
        "s/if (counts\[v\] < 0/if (v != $value \&\& (counts[v] < 0/; s/counts\[v\] > PIXELS)/&)/"
    mutant "value $value not mended" "$mend s/= (uint16_t)counts\[v\];/= v == $value ? chip->now[PIXELS_0 + v] : (uint16_t)counts[v];/"
done
mutant 'counts cut to their range' \
    "$mend s/return false;/counts[v] = counts[v] < 0 ? 0 : PIXELS;/"
mutant 'counts made afresh' \
    "$mend s/^    return true;/    int now[VALUES] = { 0 }; for (int p = 0; p < PLACES; p++) tally(now, p == (int)place_now(chip) ? stored(chip, byte) : chip->memory[p], p < 16 * COLUMNS ? 4 : 3, 1); for (int v = 0; v < VALUES; v++) chip->now[PIXELS_0 + v] = now[v]; &/"
mutant 'counts mended at a refused byte' "$mend s/^            return false;/            { for (int w = 0; w < v; w++) chip->now[PIXELS_0 + w] = (uint16_t)counts[w]; return false; }/"
mutant 'refused byte stored all the same' \
    "$mend s/return false;/return chip->memory[place_now(chip)] = stored(chip, byte), false;/"
model=model
unfit='is_display_byte(chip, event) \&\& !mend_counts(chip, (uint8_t)event)'
mutant '16 not looked for' "s/if ($unfit)/if (is_display_byte(chip, event) \&\& !mend_counts(chip, (uint8_t)event) \&\& false)/"
mutant '16 before 4' \
    's/^    if (chip->count == UINT64_MAX)/    struct chip was = *chip; if (is_display_byte(chip, event) \&\& !mend_counts(chip, (uint8_t)event)) return BAD_PIXEL_COUNT; *chip = was; &/'
mutant '16 before 2' \
    's/^    if (!load(&chip, record, record_len))/    if (record_len == WORDS \&\& !load(\&chip, record, record_len) \&\& chip.now[Y] < BANKS \&\& chip.now[X] < COLUMNS \&\& record[PHASE] == ENDLESS \&\& record[PIXELS_0] == 0) return BAD_PIXEL_COUNT; &/'
mutant '16 for commands, too' 's/ && chip->now\[PHASE_RS\] == 1;/;/'
mutant '16 for ignored bytes, too' 's/bool written = /bool written = chip->now[PHASE] == IGNORING || /; s/ && chip->now\[PHASE_RS\] == 1;/ \&\& (chip->now[PHASE_RS] == 1 || chip->now[PHASE] == IGNORING);/'
mutant '16 for endless bytes alone' 's/bool written = chip->now\[PHASE\] == ONE_BYTE || /bool written = /'
mutant '16 for single bytes alone' 's/chip->now\[PHASE\] == ONE_BYTE || chip->now\[PHASE\] == ENDLESS;$/chip->now[PHASE] == ONE_BYTE;/'
mutant 'counts mended at a byte refused by 4' \
    's/^        return COUNT_FULL;/        return is_display_byte(chip, event) \&\& mend_counts(chip, (uint8_t)event) ? COUNT_FULL : COUNT_FULL;/'
mutant 'refused byte counted as an event' 's/return BAD_PIXEL_COUNT;/return chip->count++, BAD_PIXEL_COUNT;/; s/if (!is_refusal(result))/if (true)/'
mutant 'refused byte moves the address' \
    's/return BAD_PIXEL_COUNT;/return chip->now[X] = (chip->now[X] + 1) % COLUMNS, chip->now[Y] = (chip->now[Y] + (chip->now[X] == 0)) % BANKS, BAD_PIXEL_COUNT;/; s/if (!is_refusal(result))/if (true)/'
mutant 'refused byte ends a single byte' \
    's/return BAD_PIXEL_COUNT;/{ if (chip->now[PHASE] == ONE_BYTE) chip->now[PHASE] = CONTROL, chip->now[PHASE_RS] = 0; return BAD_PIXEL_COUNT; }/; s/if (!is_refusal(result))/if (true)/'
mutant 'counts cleared at a reset pulse' 's/^    chip->now\[LAST_RS\] = 0;/& if (chip->memory) memset(\&chip->now[PIXELS_0], 0, VALUES * sizeof chip->now[0]);/'
mutant 'counts of a cleared memory at a reset pulse' \
    's/^    chip->now\[LAST_RS\] = 0;/& if (chip->memory) { memset(\&chip->now[PIXELS_0], 0, VALUES * sizeof chip->now[0]); chip->now[PIXELS_0] = PIXELS; }/'
mutant 'counts of 0 after the reset call' 's/chip.now\[PIXELS_0\] = PIXELS;//'
mutant 'counts kept by the reset call' \
    '/^uint64_t model_reset(/,/^}/ s/store(&chip, record);/uint64_t kept = record[PIXELS_3]; & record[PIXELS_3] = kept;/'
for value in 0 1 2 3; do
    mutant "count of value $value up to 6,766" "s/\[PIXELS_$value\] = PIXELS/& - 1/"
    mutant "count of value $value up to 6,768" \
        "s/if (record\[w\] > limit\[w\])/if (record[w] > limit[w] + (w == PIXELS_$value))/"
done
mutant 'run: 16 not looked for' '/^uint64_t model_run(/,/^}/ s/if (is_refusal(result)) {/if (result == BAD_PIXEL_COUNT) continue; &/'
mutant 'run: earlier counts lost at 16' \
    '/^uint64_t model_run(/,/^}/ s/^    store(&chip, record);/    uint64_t first[VALUES]; memcpy(first, record + PIXELS_0, sizeof first); & if (refusal == BAD_PIXEL_COUNT) memcpy(record + PIXELS_0, first, sizeof first);/'
mutant 'run: 16 told as 4' '/^uint64_t model_run(/,/^}/ s/refusal = result;/refusal = result == BAD_PIXEL_COUNT ? COUNT_FULL : result;/'

# What the tests know of counts by themselves.
model=display
common_mutant 'bits 6 and 7 of bank 16 counted' 's/return chip->now\[Y\] == BANKS - 1 ? .*/return ROWS_OF_A_BANK;/'
common_mutant 'what stood there does not leave' "$mend s/^    tally(.*, -1);//"
common_mutant 'values 1 and 2 exchanged' 's/counts\[byte >> 2 \* k & 3\]/counts[(byte >> 2 * k \& 1) * 2 + (byte >> 2 * k + 1 \& 1)]/'
common_mutant 'counts at place X without the mirror' "$mend s/place_now(chip)/COLUMNS * chip->now[Y] + chip->now[X]/"
common_mutant 'counts of the byte as it was sent' "$mend s/stored(chip, byte)/byte/"
common_mutant '16 pixel by pixel, leaving first' \
    "$mend s/^    tally(.*, 1);/    for (int v = 0; v < VALUES; v++) if (counts[v] < 0) return false; &/"
common_mutant '16 from 6,767 on' 's/counts\[v\] > PIXELS/counts[v] >= PIXELS/'
common_mutant '16 below 0 alone' 's/ || counts\[v\] > PIXELS//'
common_mutant '16 above 6,767 alone' 's/counts\[v\] < 0 || //'
model=model
common_mutant '16 before 4' \
    's/^    if (chip->count == UINT64_MAX)/    struct chip was = *chip; if (is_display_byte(chip, event) \&\& !mend_counts(chip, (uint8_t)event)) return BAD_PIXEL_COUNT; *chip = was; &/'
common_mutant '16 for commands, too' 's/ && chip->now\[PHASE_RS\] == 1;/;/'
common_mutant 'counts cleared at a reset pulse' 's/^    chip->now\[LAST_RS\] = 0;/& if (chip->memory) memset(\&chip->now[PIXELS_0], 0, VALUES * sizeof chip->now[0]);/'
common_mutant 'counts of 0 after the reset call' 's/chip.now\[PIXELS_0\] = PIXELS;//'

# The counting start.
model=pixels
common_mutant 'bits 6 and 7 of bank 16 counted at the start' 's/row < ROWS;/row < ROWS + 1;/'
mutant 'rows of bank 16 left out' 's/row < ROWS;/row < ROWS - 3;/'
mutant 'bits 6 and 7 of bank 16 counted at the start' 's/row < ROWS;/row < ROWS + 1;/'
mutant 'column 0 left out' 's/column = 0;/column = 1;/'
mutant 'column 100 left out' 's/column < COLUMNS/column < COLUMNS - 1/'
mutant 'values 1 and 2 exchanged at the start' 's/2 \* (byte >> (2 \* k + 1) & 1) + (byte >> (2 \* k) & 1)/(byte >> (2 * k + 1) \& 1) + 2 * (byte >> (2 * k) \& 1)/'
mutant 'numbers in another order' 's/\*n1 = counts\[1\]/*n1 = counts[2]/; s/\*n2 = counts\[2\]/*n2 = counts[1]/'
mutant 'shorter memory taken' 's/memory_len == PLACES/memory_len <= PLACES/'
mutant 'longer memory taken' 's/memory_len == PLACES/memory_len >= PLACES/'
mutant 'longer memory told as taken' 's/return memory_len == PLACES/return memory_len >= PLACES/'
mutant 'length not looked at before the memory' 's/if (memory_len == PLACES)/if (memory_len >= PLACES)/'
mutant 'counts of earlier calls, too' 's/    uint64_t counts\[VALUES\] = { 0 };/    static uint64_t counts[VALUES];/'
mutant 'counts of 8 bits' 's/uint64_t counts\[VALUES\]/uint8_t counts[VALUES]/'
for number in 0 1 2 3; do
    mutant "n$number not set" "s/^    \*n$number = .*//"
    mutant "n$number not set at refusal 1" "s/^    \*n$number = /    if (memory_len == PLACES) &/"
    mutant "write past n$number" "s/^    \*n$number = .*/& n$number[1] = 0;/"
done
mutant 'memory cut to its pixels' 's/^    \*n0 = .*/& if (memory_len == PLACES) ((uint8_t *)memory)[PLACES - 1] \&= 0x3F;/'
mutant 'read past the memory' 's/^    \*n0 = .*/& (void)*(volatile const uint8_t *)(memory + memory_len);/'

# Outside the buffers.
model=display
mutant 'write past the memory' 's/^    chip->memory\[place\] = .*/& chip->memory[PLACES] = byte;/'
mutant 'write before the writers' 's/^    chip->writers\[place\] = .*/& chip->writers[-1] = 0;/'
model=model
mutant 'read past the record' \
    's/^    bool phase_has_rs = .*/& (void)*(volatile const uint64_t *)(record + WORDS);/'
mutant 'events changed' \
    's/take_event(&chip, events\[i\]);/& ((uint16_t *)events)[i] = 0;/'

all_found
