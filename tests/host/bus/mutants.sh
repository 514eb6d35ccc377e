#!/bin/sh
# The errors that the tests of the bus must find. Run from the project's root.
set -eu
tests=bus
. tests/host/mutating.sh
stand_in tests/host/report.c tests/host/buffers.c tests/host/records.c tests/host/compile/lists.c tests/host/bus/*.c

model=four_chips
in_byte='/^static uint64_t give_byte(/,/^}/'
in_read='/^static uint64_t give_read(/,/^}/'
in_all='/^static uint64_t give_all(/,/^}/'

# Answers.
mutant 'acknowledged by chip 0 alone' 's/acknowledged = true;/acknowledged = c == 0;/'
mutant 'acknowledged by the last chip alone' 's/acknowledged = true;/acknowledged = c == CHIPS - 1;/'
mutant 'constant acknowledge' 's/bool acknowledged = false;/bool acknowledged = true;/'
mutant 'never acknowledged' 's/return acknowledged ? ACK : NACK;/return NACK;/'
mutant 'plain acknowledge for a command' 's/return command;/return ACK;/'
mutant 'command of chip 0 alone answered' 's/command = answer;/if (c == 0) &/'
mutant 'command always told as taken' 's/command = answer;/command = TAKEN;/'
mutant 'bytes read by all chips or-ed' \
    "$in_read { s/BYTE_READ + 255/BYTE_READ/; s/if (reading)/if (true)/; s/byte = answer;/byte |= answer;/ }"
mutant 'the last chip read, whoever reads' "$in_read s/if (reading)/if (true)/"
mutant 'chip 0 read alone' "$in_read s/if (reading)/if (reading \&\& c == 0)/"
mutant '0 where no chip is read' 's/BYTE_READ + 255/BYTE_READ/'
mutant 'read of the addressed chip, ended or not' \
    "$in_read s/if (reading)/if (chips[c].record[PHASE] == READ_ENDED) byte = BYTE_READ + (uint8_t)chips[c].record[TR]; &/"

# Who gets an event.
mutant 'reading taken by all' 's/if (chips\[c\].record\[SA\] == pins)/if (true)/'
mutant 'reading taken by none' 's/if (chips\[c\].record\[SA\] == pins)/if (false)/'
mutant 'reading by the place of the chip' 's/chips\[c\].record\[SA\] == pins/(uint64_t)c == pins/'
mutant 'reading taken by the addressed chip' \
    's/chips\[c\].record\[SA\] == pins/(chips[c].record[PHASE] > IGNORING || chips[c].record[SA] == pins)/'
for event in START STOP RESET_PULSE; do
    mutant "$event for the addressed chip alone" \
        "$in_all s/^        give(/        if (event != $event || chips[c].record[PHASE] > IGNORING) &/"
    mutant "$event for the others alone" \
        "$in_all s/^        give(/        if (event != $event || chips[c].record[PHASE] <= IGNORING) &/"
    mutant "$event not for chip 3" "$in_all s/^        give(/        if (event != $event || c < 3) &/"
done
mutant 'bytes for the first three chips alone' "$in_byte s/c < CHIPS/c < CHIPS - 1/"
mutant 'reads for the first three chips alone' "$in_read s/c < CHIPS/c < CHIPS - 1/"
mutant 'a byte reaches the next chip too' \
    "$in_byte s/^        uint64_t answer/        if (chips[c].record[PHASE] == ENDLESS \&\& chips[c].record[PHASE_RS]) chips[(c + 1) % CHIPS].memory[7] = (uint8_t)event; &/"
mutant 'a command reaches the next chip too' \
    "$in_byte s/^            command = answer;/& if (command == TAKEN) chips[(c + 1) % CHIPS].record[H] = chips[c].record[H];/; $in_byte s/else if (answer != NACK)/& {/; $in_byte s/command = answer;.*/& }/"
mutant 'last RS of all chips by one control byte' \
    "$in_byte s/^        uint64_t answer/        if (chips[c].record[PHASE] == CONTROL) chips[(c + 3) % CHIPS].record[LAST_RS] = event >> 6 \& 1; &/"
mutant 'two chips with one memory' 's/{ record2, record2_len, memory2,/{ record2, record2_len, memory1,/'
mutant 'two chips with one list of writers' 's/memory3_len, writers3,/memory3_len, writers0,/'

# The count.
mutant 'a count for each chip' \
    's/^    return model_step(chip->record/    static uint64_t own[CHIPS]; &/; s/&count, event);/\&own[chip->record[SA]], event);/'
mutant 'writer numbers by chip' \
    "$in_byte s/give(&chips\[c\], count,/give(\&chips[c], count < UINT64_MAX - CHIPS ? count + c : count,/"
mutant 'writer numbers of 32 bits' "$in_byte s/give(&chips\[c\], count,/give(\&chips[c], (uint32_t)count,/"
mutant 'writers with the count before the event' \
    "$in_byte s/give(&chips\[c\], count,/give(\&chips[c], count - (count > 0),/"
mutant 'counted once for each chip' 's/\*count += 1;/*count += CHIPS;/'
mutant 'count not handed back' 's/\*count += 1;//'
mutant 'count of 32 bits' 's/\*count += 1;/*count = (uint32_t)(*count + 1);/'
mutant 'reading not counted' 's/\*count += 1;/if (!is_reading(event)) &/'
mutant 'byte that no chip takes not counted' 's/\*count += 1;/if (answer != NACK) &/'
mutant 'read not counted' 's/\*count += 1;/if (answer < BYTE_READ) &/'
mutant 'count cleared at reset' 's/\*count += 1;/& if (event == RESET_PULSE) *count = 0;/'
for number in 1 2 12 3 13 4 16; do
    mutant "event refused by $number counted" "s/^        return refusal;/        return *count += refusal == $number, refusal;/"
done
mutant 'last event number not given' 's/count == UINT64_MAX/count >= UINT64_MAX - 1/'
mutant 'full count not looked at' 's/if (count == UINT64_MAX)/if (false)/'

# 12.
mutant '12 without the pins' 's/!pins_differ(chips) || //'
mutant '12 without the phases' 's/ || !phases_fit(chips)//'
mutant 'pins of neighbours compared alone' 's/int other = 0; other < c;/int other = c > 0 ? c - 1 : 0; other < c;/'
mutant 'pins of chip 3 not compared' '/^static bool pins_differ(/,/^}/ s/c < CHIPS/c < CHIPS - 1/'
mutant 'SA0 compared alone' 's/chips\[c\].record\[SA\] == chips\[other\].record\[SA\]/(chips[c].record[SA] \& 1) == (chips[other].record[SA] \& 1)/'
mutant 'two chips past their address let pass' 's/return past == 1 /return past <= 2 /'
mutant 'four chips past their address let pass' 's/return past == 1 && /return past == CHIPS || past == 1 \&\& /'
mutant 'four ignoring chips refused' 's/ || others == ALL_IGNORING;/;/'
mutant 'four idle chips refused' 's/others == ALL_IDLE || //'
mutant 'four chips that await an address refused' 's/others == ALL_AWAITING || //'
mutant 'a chip past its address beside any others' 's/past == 1 && others == ALL_IGNORING/past == 1/'
mutant 'a chip past its address beside idle ones' \
    's/past == 1 && others == ALL_IGNORING/past == 1 \&\& (others == ALL_IGNORING || others == ALL_IDLE)/'
mutant 'idle and ignoring chips together' 's/others == ALL_IDLE ||/(others | ALL_IGNORING) == (ALL_IDLE | ALL_IGNORING) ||/'
mutant 'awaiting and ignoring chips together' \
    's/others == ALL_AWAITING ||/(others | ALL_IGNORING) == (ALL_AWAITING | ALL_IGNORING) ||/'
mutant 'idle and awaiting chips together' 's/others == ALL_IDLE ||/(others \& ALL_IGNORING) == 0 ||/'
mutant 'a chip whose read ended refused' 's/ | 1 << READ_ENDED$//'
mutant 'a chip that is read refused' 's/ | 1 << READING / /'
mutant 'a chip that awaits a control byte refused' 's/1 << CONTROL | //'
mutant 'a chip whose read ended let pass with another' 's/ | 1 << READ_ENDED$//; s/ALL_IGNORING = 1 << IGNORING/ALL_IGNORING = 1 << IGNORING | 1 << READ_ENDED/; s/others |= phase;/others |= phase == 1 << READ_ENDED ? ALL_IGNORING : phase == 1 << IGNORING ? ALL_IGNORING : phase;/'
mutant 'phase of chip 3 not looked at' '/^static bool phases_fit(/,/^}/ s/c < CHIPS/c < CHIPS - 1/'

# 13.
mutant '13 for other events' 's/is_reading(event) && pins > /pins > /'
mutant '13 for bytes' 's/is_reading(event) && pins > /(is_reading(event) || event < 256) \&\& pins > /'
mutant '13 for pins 3' 's/pins > LAST_PINS/pins >= LAST_PINS/'
mutant '13 not for pins 4' 's/pins > LAST_PINS/pins > LAST_PINS + 1/'
mutant '13 not looked for' 's/is_reading(event) && pins > LAST_PINS/false/'
for bits in 8 16 32; do
    mutant "pins cut to $bits bits before 13" "s/pins > LAST_PINS/(uint${bits}_t)pins > LAST_PINS/"
    mutant "pins cut to $bits bits at all" \
        "s/pins > LAST_PINS/(uint${bits}_t)pins > LAST_PINS/; s/\[SA\] == pins/[SA] == (uint${bits}_t)pins/"
done
mutant 'a reading of 255 no reading' 's/event < SENSOR + 256/event < SENSOR + 255/'

# The order: 1, 2, 12, 3, 13, 4, 16. Where just two faults are there, the later one is given. 3, 13 and 16
# are of different events, and never there together.
long_records='chips[0].record_len >= WORDS \&\& chips[1].record_len >= WORDS \&\& chips[2].record_len >= WORDS \&\& chips[3].record_len >= WORDS'

# A display byte for a chip that has no pixels by its counts. No memory is looked at, as it may be too short.
unfit=false
for chip in 0 1 2 3; do
    record="chips[$chip].record"
    unfit="$unfit || (${record}[PHASE] >= ONE_BYTE \&\& ${record}[PHASE] <= ENDLESS \&\& ${record}[PHASE_RS] == 1 \&\& ${record}[PIXELS_0] + ${record}[PIXELS_1] + ${record}[PIXELS_2] + ${record}[PIXELS_3] == 0)"
done

# fault NUMBER: when it is there.
fault() {
    case $1 in
    1) echo '!good_memories(chips)' ;;
    2) echo '!good_records(chips)' ;;
    12) echo "($long_records \&\& (!pins_differ(chips) || !phases_fit(chips)))" ;;
    3) echo '!model_listed(event)' ;;
    13) echo '(is_reading(event) \&\& pins > LAST_PINS)' ;;
    4) echo '(count == UINT64_MAX)' ;;
    16) echo "(event < 256 \&\& $long_records \&\& ($unfit))" ;;
    esac
}

# swapped EARLY LATE
swapped() {
    both=true
    for number in 1 2 12 3 13 4 16; do
        case $number in
        "$1" | "$2") both="$both \&\& $(fault $number)" ;;
        *) both="$both \&\& !$(fault $number)" ;;
        esac
    done
    mutant "$2 before $1" "s/^    if (!good_memories(chips))/    if ($both) return $2; &/"
}

for late in 2 12 3 13 4 16; do swapped 1 $late; done
for late in 12 3 13 4 16; do swapped 2 $late; done
for late in 3 13 4 16; do swapped 12 $late; done
swapped 3 4
swapped 13 4
swapped 4 16

# 16.
in_fit='/^static bool pixels_fit(/,/^}/'
mutant '16 not looked for' 's/if (!pixels_fit(chips, event))/if (false)/'
mutant '16 told as 4' 's/return BAD_PIXEL_COUNT;/return COUNT_FULL;/'
mutant '16 for every byte to a chip that is addressed' \
    "$in_fit s/if (!model_pixels_fit(/if (event < 256 \&\& chips[c].record[PHASE] > IGNORING || !model_pixels_fit(/"
mutant '16 by the counts of any chip' \
    's/^    if (!pixels_fit(chips, event))/    bool data = false, few = false; for (int c = 0; c < CHIPS; c++) { data |= chips[c].record[PHASE_RS] == 1; few |= chips[c].record[PIXELS_0] < 4; } if ((event < 256 \&\& data \&\& few) || !pixels_fit(chips, event))/'
for chip in 0 1 2 3; do
    mutant "16 not for chip $chip" "$in_fit s/if (!model_pixels_fit(/if (c != $chip \&\& !model_pixels_fit(/"
    mutant "16 for chip $chip alone" "$in_fit s/if (!model_pixels_fit(/if (c == $chip \&\& !model_pixels_fit(/"
done
mutant '16 by the memory of the next chip' "$in_fit s/chips\[c\].memory, event/chips[(c + 1) % CHIPS].memory, event/"
mutant '16 not for single bytes' "$in_fit s/if (!model_pixels_fit(/if (chips[c].record[PHASE] != ONE_BYTE \&\& !model_pixels_fit(/"
mutant 'counts of the next chip moved, too' \
    "$in_byte s/^        uint64_t answer/        if (chips[c].record[PHASE] == ENDLESS \&\& chips[c].record[PHASE_RS] \&\& chips[(c + 1) % CHIPS].record[PIXELS_3] > 0) chips[(c + 1) % CHIPS].record[PIXELS_3]--; &/"
mutant 'counts cleared at a reset pulse of the bus' \
    "$in_all s/^        give(.*/        { give(\&chips[c], count, event); if (event == RESET_PULSE) chips[c].record[PIXELS_1] = 0; }/"
mutant 'counts of all chips added up' \
    's/^    \*count += 1;/& if (event == STOP) record0[PIXELS_0] = (record0[PIXELS_0] + record1[PIXELS_0]) % 6768;/'

# 1 and 2, chip by chip.
for chip in 0 1 2 3; do
    mutant "memory of chip $chip not looked at" \
        "s/if (chips\[c\].memory_len != PLACES/if ((c != $chip \&\& chips[c].memory_len != PLACES)/"
    mutant "writers of chip $chip not looked at" \
        "s/|| chips\[c\].writers_len != PLACES/|| (c != $chip \&\& chips[c].writers_len != PLACES)/"
    mutant "record of chip $chip not looked at" \
        "s/if (!model_allowed(/if (c == $chip ? chips[c].record_len != WORDS : !model_allowed(/"
    mutant "longer record of chip $chip taken" \
        "s/if (!model_allowed(.*/if (!model_allowed(chips[c].record, c == $chip \&\& chips[c].record_len > WORDS ? WORDS : chips[c].record_len))/; s/^    return model_step(chip->record, chip->record_len/    return model_step(chip->record, WORDS/"
done
mutant 'longer memories taken' 's/memory_len != PLACES/memory_len < PLACES/'

# Outside the buffers, and where nothing may change.
mutant 'write past the count' 's/\*count += 1;/& count[1] = 0;/'
mutant 'write before the count' 's/\*count += 1;/& count[-1] = 0;/'
mutant 'write past a memory' 's/\*count += 1;/& memory2[PLACES] = 0;/'
mutant 'write before the writers' 's/\*count += 1;/& writers3[-1] = 0;/'
mutant 'write past a record' 's/\*count += 1;/& record0[WORDS] = 0;/'
mutant 'read past a record' 's/\*count += 1;/& (void)*(volatile const uint64_t *)(record1 + WORDS);/'
for number in 1 2 12 3 13 4 16; do
    mutant "record changed at refusal $number" \
        "s/^        return refusal;/        return refusal == $number ? record2[LAST_RS] ^= 1, refusal : refusal;/"
    mutant "memory changed at refusal $number" \
        "s/^        return refusal;/        return refusal == $number ? memory3[PLACES - 1] ^= 1, refusal : refusal;/"
    mutant "counts of pixels changed at refusal $number" \
        "s/^        return refusal;/        return refusal == $number \&\& record3_len == WORDS ? record3[PIXELS_2] ^= 1, refusal : refusal;/"
    mutant "writers changed at refusal $number" \
        "s/^        return refusal;/        return refusal == $number ? writers1[0] ^= 1, refusal : refusal;/"
done

# The chips themselves.
model=model
mutant 'address without SA0' 's/byte >> 1 != (0x3C | chip->now\[SA\])/byte >> 2 != (0x3C | chip->now[SA]) >> 1/'
mutant 'general address' 's/if (byte >> 1 != /if (byte != 0 \&\& byte >> 1 != /'
mutant 'bytes taken while ignoring' 's/^    case CONTROL:/    case IGNORING: &/'

# The call with the chips in an array.
source=tests/host/bus/bus_calls.c
header_mutant 'memories of chips 1 and 2 exchanged' $source \
    's/chips\[1\].memory,/chips[9].memory,/; s/chips\[2\].memory,/chips[1].memory,/; s/chips\[9\].memory,/chips[2].memory,/'
header_mutant 'writers of chips 0 and 3 exchanged' $source \
    's/chips\[0\].writers,/chips[9].writers,/; s/chips\[3\].writers,/chips[0].writers,/; s/chips\[9\].writers,/chips[3].writers,/'
header_mutant 'chip 2 in the place of chip 3' $source '/^static inline/,/^}/ s/chips\[3\]/chips[2]/'
for length in record memory writers; do
    header_mutant "length of a $length of the chip before" $source "s/chips\[2\].${length}_len/chips[1].${length}_len/"
done
header_mutant 'pins left out of the call' $source 's/^ *count, event, pins);$/count, event, 0);/'
header_mutant 'pins of 8 bits' $source '/^static inline/,/^}/ s/count, event, pins);/count, event, (uint8_t)pins);/'
header_mutant 'event of 8 bits' $source '/^static inline/,/^}/ s/count, event, pins);/count, (uint8_t)event, pins);/'

all_found
