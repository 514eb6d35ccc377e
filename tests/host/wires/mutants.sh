#!/bin/sh
# The errors that the tests of the wires must find. Run from the project's root.
set -eu
tests=wires
. tests/host/mutating.sh
stand_in tests/host/report.c tests/host/buffers.c tests/host/records.c tests/host/wires/*.c

model=wires
in_start='/^static unsigned take_start(/,/^}/'
in_stop='/^static unsigned take_stop(/,/^}/'
in_ninth='/^static unsigned take_ninth(/,/^}/'
in_unclear='/^static unsigned take_unclear(/,/^}/'
in_call='/^uint64_t model_wires(/,/^}/'
in_start_call='/^uint64_t model_wires_start(/,/^}/'

# error NAME EDIT: found by the comparison with the model, and without it.
error() {
    mutant "$@"
    common_mutant "$@"
}

# Bits.
error 'bit taken at the fall' 's/if (changed == SCL && sample & SCL)/if (changed == SCL \&\& !(sample \& SCL))/'
error 'bit taken at both edges' 's/if (changed == SCL && sample & SCL)/if (changed == SCL)/'
error 'low bit first' 's/wires->value = (.*/wires->value = wires->value >> 1 | bit << 7;/'
error 'bits inverted' 's/return take_bit(wires, data);/return take_bit(wires, !data);/'
error 'high bit lost' 's/ | bit) & 255/ | bit) \& 127/'
mutant 'value of nine bits' 's/(wires->value << 1 | bit) & 255/wires->value << 1 | bit/'
error 'byte of seven bits' 's/BYTE_BITS = 8/BYTE_BITS = 7/'
error 'byte of eight bits with no ninth' \
    's/wires->bits++;/if (++wires->bits == BYTE_BITS) return take_ninth(wires, 0);/'
error 'event at the eighth rise' \
    's/wires->bits++;/& if (wires->bits == BYTE_BITS \&\& wires->stage != READ) return wires->value;/; s/return take_ninth(wires, bit);/{ bool read = wires->stage == READ; unsigned event = take_ninth(wires, bit); return read ? event : NO_EVENT; }/'
error 'bits taken outside' 's/if (wires->stage == OUTSIDE || /if (/'
error 'bits taken while a START is awaited' 's/ || wires->stage == START_AWAITED)/)/'

# START and STOP.
error 'START in a message not told' "$in_start s/^    enter/    if (wires->stage >= FIRST_BYTE) return NO_EVENT; &/"
error 'START not taken after an unclear sample' "$in_start s/^    enter/    if (wires->stage == START_AWAITED) return NO_EVENT; &/"
error 'bits kept over a START' "$in_start s/enter(wires, FIRST_BYTE);/wires->stage = FIRST_BYTE;/"
mutant 'value kept over a START' "$in_start s/enter(wires, FIRST_BYTE);/wires->stage = FIRST_BYTE, wires->bits = 0;/"
error 'direction kept over a START' "$in_start s/enter(wires, FIRST_BYTE);/enter(wires, wires->stage > FIRST_BYTE ? wires->stage : FIRST_BYTE);/"
error 'START while the clock is low' 's/if (changed == SDA && sample & SCL)/if (changed == SDA)/'
error 'START and STOP exchanged' 's/return data ? take_stop/return !data ? take_stop/'
error 'STOP with no START before it not told' "$in_stop s/wires->stage != START_AWAITED/wires->stage > START_AWAITED/"
error 'STOP after an unclear sample told' "$in_stop s/bool told = .*/bool told = true;/"
error 'STOP after an unclear sample told, and still waiting' "$in_stop s/return told ? STOP : NO_EVENT;/return STOP;/"
error 'STOP ends the waiting for a START' "$in_stop s/told ? OUTSIDE : START_AWAITED/OUTSIDE/"
error 'message goes on after a STOP' "$in_stop s/told ? OUTSIDE : START_AWAITED/wires->stage/"
error 'second STOP not told' "$in_stop s/told ? OUTSIDE : START_AWAITED/START_AWAITED/"
mutant 'bits kept over a STOP' "$in_stop s/enter(wires, told ? OUTSIDE : START_AWAITED);/wires->stage = told ? OUTSIDE : START_AWAITED;/"
error 'lines exchanged' 's/SDA = 1, SCL = 2/SDA = 2, SCL = 1/; s/unsigned data = sample & SDA;/unsigned data = (sample \& SDA) != 0;/'

# Bytes.
error 'direction from the last byte' "$in_ninth s/^        enter(wires, WRITTEN);/        enter(wires, value \& 1 ? READ : WRITTEN);/"
error 'direction turns while reading' "$in_ninth s/^        enter(wires, READ);/        enter(wires, value \& 1 ? READ : WRITTEN);/"
error 'direction by the ninth bit' "$in_ninth s/value & 1 ? READ/bit ? READ/"
error 'read only where acknowledged' "$in_ninth s/value & 1 ? READ/(value \& 1) \&\& !bit ? READ/"
error 'direction by the high bit' "$in_ninth s/value & 1 ? READ/value \& 128 ? READ/"
error 'never read' "$in_ninth s/value & 1 ? READ : WRITTEN/WRITTEN/"
error 'first byte for ever' "$in_ninth s/value & 1 ? READ : WRITTEN/FIRST_BYTE/"
error 'ninth bit of a read inverted' "$in_ninth s/bit ? READ_NACK : READ_ACK/bit ? READ_ACK : READ_NACK/"
error 'byte read always acknowledged' "$in_ninth s/bit ? READ_NACK : READ_ACK/READ_ACK/"
error 'byte read told by its value' "$in_ninth s/return bit ? READ_NACK : READ_ACK/return value/"
error 'address to read told as a byte read' "$in_ninth s/^        return value;/        if (wires->stage == READ) return READ_ACK; &/"
error 'reading ends with 259' "$in_ninth s/^        enter(wires, READ);/        enter(wires, bit ? OUTSIDE : READ);/"
error 'bytes written after 259' "$in_ninth s/^        enter(wires, READ);/        enter(wires, bit ? WRITTEN : READ);/"
error 'byte that is not acknowledged not told' "$in_ninth s/^        return value;/        if (bit) return NO_EVENT; &/"
error 'message ends where a byte is not acknowledged' "$in_ninth s/^        return value;/        if (bit) wires->stage = OUTSIDE; &/"
error 'bits kept after a byte' "$in_ninth s/^        enter(wires, WRITTEN);/        wires->stage = WRITTEN;/"
mutant 'value kept after a byte' "$in_ninth s/^        enter(wires, WRITTEN);/        wires->stage = WRITTEN, wires->bits = 0;/"

# Unclear samples.
error 'unclear count that wraps' "$in_unclear s/if (wires->unclear < UINT64_MAX)//"
error 'unclear count that stops early' "$in_unclear s/wires->unclear < UINT64_MAX/wires->unclear < UINT64_MAX - 1/"
for bits in 8 16 32; do
    error "unclear count of $bits bits" "$in_unclear s/wires->unclear++;/wires->unclear = (uint${bits}_t)(wires->unclear + 1);/"
done
error 'unclear samples not counted' "$in_unclear s/wires->unclear++;/(void)0;/"
error 'unclear samples counted once' "$in_unclear s/if (wires->unclear < UINT64_MAX)/if (wires->stage != START_AWAITED \&\& wires->unclear < UINT64_MAX)/"
error 'unclear samples counted within messages only' "$in_unclear s/if (wires->unclear < UINT64_MAX)/if (wires->stage >= FIRST_BYTE \&\& wires->unclear < UINT64_MAX)/"
error 'message goes on after an unclear sample' "$in_unclear s/enter(wires, START_AWAITED);//"
error 'unclear sample taken for a STOP' "$in_unclear s/enter(wires, START_AWAITED);/enter(wires, OUTSIDE);/"
error 'unclear sample told as a STOP' "$in_unclear s/return NO_EVENT;/return STOP;/"
mutant 'bits kept over an unclear sample' "$in_unclear s/enter(wires, START_AWAITED);/wires->stage = START_AWAITED;/"
error 'unclear sample forgotten at once' 's/return take_unclear(wires);/return wires->last = sample ^ BOTH, take_unclear(wires);/'
error 'unclear only where the clock falls' 's/if (changed == BOTH)/if (changed == BOTH \&\& !(sample \& SCL))/'
error 'unclear only where the clock rises' 's/if (changed == BOTH)/if (changed == BOTH \&\& sample \& SCL)/'
error 'unclear taken for START and STOP where the clock rises' \
    's/if (changed == BOTH)/if (changed == BOTH \&\& sample \& SCL) return data ? take_stop(wires) : take_start(wires); &/'
error 'unclear taken for a bit where the clock rises' \
    's/if (changed == BOTH)/if (changed == BOTH \&\& sample \& SCL) return take_bit(wires, data); &/'

# From call to call.
for word in LAST STAGE BITS VALUE; do
    name=$(echo $word | tr '[:upper:]' '[:lower:]')
    error "$name forgotten from call to call" "s/^\(        .$name = .*\)state\[$word\]/\1(state[$word], $word == LAST ? BOTH : 0)/"
done
error 'unclear count of each call alone' 's/\.unclear = state\[UNCLEAR\]/.unclear = 0/'
for word in UNCLEAR LAST STAGE BITS VALUE; do
    mutant "$word not handed back" "/^static void store(/,/^}/ s/state\[$word\] = /(void)/; $in_start_call s/store(.*/state[0] = state[2] = state[3] = state[4] = 0; state[1] = BOTH;/"
done

# The start.
error 'start with both lines low' "$in_start_call s/.last = BOTH/.last = 0/"
error 'start with a START awaited' "$in_start_call s/.last = BOTH/.last = BOTH, .stage = START_AWAITED/"
error 'start in a message' "$in_start_call s/.last = BOTH/.last = BOTH, .stage = FIRST_BYTE/"
error 'start of a longer state' "$in_start_call s/state_len != WORDS/state_len < WORDS/"
error 'start of a shorter state' "$in_start_call s/state_len != WORDS/state_len > WORDS/"
mutant 'start changes what it refuses' "$in_start_call s/return BAD_STATE;/return state_len ? *state = 0, BAD_STATE : BAD_STATE;/"
mutant 'start does not clear the unclear count' "$in_start_call s/^    store(.*/    uint64_t kept = *state; & *state = kept;/"
mutant 'a word more at the start' "$in_start_call s/^    store(.*/& state[WORDS] = 0;/"
mutant 'write before the state at the start' "$in_start_call s/^    store(.*/& state[-1] = 0;/"

# 2.
error 'longer state taken' '/^static bool allowed(/,/^}/ s/state_len != WORDS/state_len < WORDS/'
error 'shorter state taken' '/^static bool allowed(/,/^}/ s/state_len != WORDS/state_len > WORDS || state_len < 1/'
for bits in 8 16 32; do
    error "words cut to $bits bits" "s/if (state\[w\] > limit\[w\])/if ((uint${bits}_t)state[w] > limit[w])/"
done
for word in LAST STAGE BITS VALUE; do
    error "$word not looked at" "s/if (state\[w\] > limit\[w\])/if (w != $word \&\& state[w] > limit[w])/"
    error "$word one above its range taken" "s/if (state\[w\] > limit\[w\])/if (state[w] > limit[w] + (w == $word))/"
    error "$word at the end of its range refused" "s/if (state\[w\] > limit\[w\])/if (state[w] > limit[w] - (w == $word))/"
done
error 'full unclear count refused' 's/if (state\[w\] > limit\[w\])/if (state[w] > limit[w] - (w == UNCLEAR))/'
error 'unclear count above 32 bits refused' 's/limit\[WORDS\] = { UINT64_MAX/limit[WORDS] = { UINT32_MAX/'
error 'bits outside a message refused' 's/^    for (int w = 0; w < WORDS; w++)/    if (state[STAGE] < FIRST_BYTE \&\& state[BITS] > 0) return false; &/'
error 'value of more bits than there are refused' 's/^    for (int w = 0; w < WORDS; w++)/    if (state[BITS] < 8 \&\& state[VALUE] < 256 \&\& state[VALUE] >> state[BITS] != 0) return false; &/'
mutant 'state looked at only with samples' "$in_call s/if (!allowed/if (samples_len > 0 \&\& !allowed/"
error 'refused state made anew' "$in_call s/return BAD_STATE;/return model_wires_start(state, state_len), BAD_STATE;/"

# 14.
error '14 after some samples were consumed' \
    "$in_call { s/if (!good_samples(samples, samples_len))/if (false)/; s/^        struct wires next = wires;/        if (samples[taken] > BOTH) { store(\&wires, state); *consumed = taken; *written = told; return BAD_SAMPLE; } &/ }"
error 'state after the samples before the bad one' \
    "$in_call { s/if (!good_samples(samples, samples_len))/if (false)/; s/^        struct wires next = wires;/        if (samples[taken] > BOTH) { store(\&wires, state); return BAD_SAMPLE; } &/ }"
error 'events before the bad sample written' \
    "$in_call { s/if (!good_samples(samples, samples_len))/if (false)/; s/^        struct wires next = wires;/        if (samples[taken] > BOTH) return BAD_SAMPLE; &/ }"
error 'unclear sample for a byte above 3' 's/if (samples\[i\] > BOTH)/if (false)/; s/if (changed == BOTH)/if (changed >= BOTH)/; s/wires->last = sample;/wires->last = sample \& BOTH;/'
error 'high bits of a sample ignored' 's/if (samples\[i\] > BOTH)/if (false)/; s/samples\[taken\])/samples[taken] \& BOTH)/'
error 'highest bit of a sample ignored' 's/if (samples\[i\] > BOTH)/if ((samples[i] \& 127) > BOTH)/; s/samples\[taken\])/samples[taken] \& BOTH)/'
error 'sample 4 taken' 's/if (samples\[i\] > BOTH)/if (samples[i] > BOTH + 1)/; s/samples\[taken\])/samples[taken] \& BOTH)/'
error 'sample 3 refused' 's/if (samples\[i\] > BOTH)/if (samples[i] >= BOTH)/'
error 'first sample not looked at' 's/for (size_t i = 0; i < samples_len; i++)/for (size_t i = 1; i < samples_len; i++)/; s/samples\[taken\])/samples[taken] \& BOTH)/'
error 'last sample not looked at' 's/i < samples_len; i++/i + 1 < samples_len; i++/; s/samples\[taken\])/samples[taken] \& BOTH)/'
error 'bad sample passed over where there is no room' "$in_call s/if (!good_samples/if (events_len > 0 \&\& !good_samples/; s/samples\[taken\])/samples[taken] \& BOTH)/"
error '14 before 2' "$in_call s/^    if (!allowed/    if (!good_samples(samples, samples_len)) return BAD_SAMPLE; &/"

# 15.
error '15 that loses the sample' "$in_call s/^    \*consumed = taken;/    *consumed = taken + (taken < samples_len);/"
error '15 whose state is the one after' "$in_call s/^            break;/            { wires = next; break; }/"
error '15 with the state at the start' "$in_call s/^    store(/    if (taken == samples_len) &/"
error '15 with all consumed' "$in_call s/^    \*consumed = taken;/    *consumed = samples_len;/"
error '15 with nothing consumed' "$in_call s/^    \*consumed = taken;/    *consumed = taken < samples_len ? 0 : taken;/"
error '15 with the events before it not told' "$in_call s/^    \*written = told;/    *written = taken < samples_len ? 0 : told;/"
error '15 with one event too many' "$in_call s/^    \*written = told;/    *written = told + (taken < samples_len);/"
error '15 with the last event overwritten' "$in_call s/^            break;/            { if (told > 0) events[told - 1] = (uint16_t)event; break; }/"
error '15 not told' 's/return taken < samples_len ? NO_ROOM : 0;/return 0;/'
error '15 for a sample with no event' "$in_call s/event != NO_EVENT && told == events_len/told == events_len/"
error '15 where one event fits' "$in_call s/told == events_len/told + 1 >= events_len/"
error '15 where the room is less than the samples' "$in_call s/^    struct wires wires = /    if (events_len < samples_len) return NO_ROOM; &/"
error '15 wherever there is no room' "$in_call s/^    struct wires wires = /    if (events_len == 0) return NO_ROOM; &/"
error '15 before 2' "$in_call s/^    if (!allowed/    if (events_len == 0 \&\& samples_len > 0 \&\& !allowed(state, state_len)) return NO_ROOM; &/"
error '15 before 14' "$in_call s/^    if (!good_samples/    if (events_len == 0 \&\& !good_samples(samples, samples_len)) return NO_ROOM; &/"
mutant 'room not looked at' "$in_call s/told == events_len/false/"
mutant 'one event past the room' "$in_call s/told == events_len/told == events_len + 1/"

# The two numbers.
for number in consumed written; do
    mutant "$number not set on 2" "$in_call s/^    \*$number = 0;/    if (allowed(state, state_len)) &/"
    mutant "$number not set on 14" "$in_call s/^    \*$number = 0;/    if (good_samples(samples, samples_len)) &/"
    mutant "$number not set" "$in_call s/^    \*$number = [a-z].*//"
    mutant "$number not set on 15" "$in_call s/^    \*$number = \([a-z]*\);/    if (taken == samples_len) &/"
    mutant "$number added to what was there" "$in_call { s/^    \*$number = 0;//; s/^    \*$number = \([a-z]\)/    *$number += \1/ }"
    mutant "write past $number" "$in_call s/^    \*$number = [a-z].*/& ${number}[1] = 0;/"
    mutant "write before $number" "$in_call s/^    \*$number = [a-z].*/& ${number}[-1] = 0;/"
    for bits in 8 16; do
        error "$number of $bits bits" "$in_call s/^    \*$number = \([a-z]*\);/    *$number = (uint${bits}_t)\1;/"
    done
done
error 'numbers exchanged' "$in_call { s/^    \*consumed = taken;/    *consumed = told;/; s/^    \*written = told;/    *written = taken;/ }"
error 'events of earlier calls counted' "$in_call s/^    \*written = told;/    static uint64_t all; all += told; *written = all;/"

# Outside the buffers, and where nothing may change.
error 'output beyond what is written changed' "$in_call s/^    \*written = told;/& if (told < events_len) events[told] = 0;/"
error 'output cleared first' "$in_call s/^    \*consumed = 0;/& for (size_t i = 0; i < events_len; i++) events[i] = 0;/"
error 'output cleared on 14' "$in_call s/return BAD_SAMPLE;/return events_len ? events[0] = 0, BAD_SAMPLE : BAD_SAMPLE;/"
error 'output cleared on 2' "$in_call s/return BAD_STATE;/return events_len ? events[0] = 0, BAD_STATE : BAD_STATE;/"
mutant 'write past the events' "$in_call s/^    \*written = told;/& events[events_len] = 0;/"
mutant 'write before the events' "$in_call s/^    \*written = told;/& events[-1] = 0;/"
mutant 'write past the state' "$in_call s/^    \*written = told;/& state[WORDS] = 0;/"
mutant 'write before the state' "$in_call s/^    \*written = told;/& state[-1] = 0;/"
mutant 'read past the state' "$in_call s/^    \*written = told;/& (void)*(volatile const uint64_t *)(state + WORDS);/"
mutant 'read past the samples' "$in_call s/^    \*written = told;/& (void)*(volatile const uint8_t *)(samples + samples_len);/"
error 'samples changed' "$in_call s/^        wires = next;/& ((uint8_t *)samples)[taken] ^= 1;/"
error 'unclear samples marked' "$in_call s/^        wires = next;/& if (next.unclear != load(state).unclear) ((uint8_t *)samples)[taken] = 0;/"

all_found
