/* The PCF8820 display chip, for a host written in C or C++.
 *
 * The chip's record
 *
 * The host holds a chip's record as 38 words of 64 bits, in this order:
 *
 *   word  what                                               allowed
 *      0  h    command page                                  0..4
 *      1  do   data order                                    0, 1
 *      2  pd   power-down                                    0, 1
 *      3  v    vertical addressing                           0, 1
 *      4  d    display mode, higher bit                      0, 1
 *      5  e    display mode, lower bit                       0, 1
 *      6  mx   mirror X                                      0, 1
 *      7  my   mirror Y                                      0, 1
 *      8  ps   partial screen                                0, 1
 *      9  x    column address                                0..100
 *     10  y    bank address                                  0..16
 *     11  bs   bias system                                   0..7
 *     12  bsh  bias system 1/2                               0, 1
 *     13  dp   display part                                  0..7
 *     14  prs  programming range                             0, 1
 *     15  hve  high voltage generator                        0, 1
 *     16  s    voltage multiplier                            0..7
 *     17  tc   temperature coefficient                       0..7
 *     18  sm   temperature measurement                       0, 1
 *     19  vop  display voltage                               0..127
 *     20  gr   selected grey register                        0..3
 *     21  gs0  grey register 0                               0..63
 *     22  gs1  grey register 1                               0..63
 *     23  gs2  grey register 2                               0..63
 *     24  gs3  grey register 3                               0..63
 *     25  dof  display off                                   0, 1
 *     26  dm   direct drive                                  0, 1
 *     27  ec   external clock                                0, 1
 *     28  oc   oscillator calibration                        0, 1
 *     29  the address pins SA1 and SA0                       0..3
 *     30  the status byte TR                                 0..255
 *     31  the last RS                                        0, 1
 *     32  the bus phase:                                     0..7
 *           0 idle                  4 one byte awaited
 *           1 address awaited       5 endless bytes
 *           2 ignoring              6 reading
 *           3 control byte awaited  7 read ended
 *     33  the phase's RS                                     0, 1 in phases 4 and 5, else 0
 *     34  pixels of value 0 in the display memory            0..6767
 *     35  pixels of value 1                                  0..6767
 *     36  pixels of value 2                                  0..6767
 *     37  pixels of value 3                                  0..6767
 *
 * Any other buffer, one that is not 38 words long among them, stands for no record. The words, the
 * phases and all numbers below have names, which stand before the calls.
 *
 * The memories
 *
 * The display memory is 1,717 bytes: 17 banks of 101 columns, place 101 * bank + column. The writers
 * are 1,717 words at the same places: the number of the event that wrote the byte, 0 for none.
 *
 * The pixel counts
 *
 * The display memory has 67 rows of 101 pixels, 6,767 in all, each with a value of 0..3: row 4 * bank + k
 * is bits 2k + 1 and 2k of the bank's bytes. Bank 16 has three rows, so bits 6 and 7 of its bytes are no
 * pixel, whatever they hold. Words 34 to 37 of the record say how many pixels have each value, so that a
 * dashboard refreshes by four loads and goes over no memory.
 *
 * The chip mends the counts at each display byte that it stores: the pixels of the byte that stood there
 * leave, those of the byte that stands there now join. No other event changes them; a reset pulse keeps
 * them, as it keeps the memory. Counts that are true at the start stay true, add up to 6,767 and never
 * give refusal 16. They are true after pcf8820_reset where the memory holds zeros. A host that brings
 * another memory, or writes into it by itself, makes them by pcf8820_counts.
 *
 * Nothing looks whether the counts of a record are true. Untrue ones are taken as they are, and each
 * still moves by what leaves and what joins, until there is a display byte that would take one of them
 * below 0 or above 6,767. That byte is refused by 16, and so is each later one that does not fit. The way
 * out is to count again.
 *
 * Bus events
 *
 *   0..255    a byte from the master
 *   256       START
 *   257       STOP
 *   258       a byte read and acknowledged by the master
 *   259       a byte read and not acknowledged by the master
 *   260       reset pulse
 *   512..767  a sensor reading of 0..255
 *
 * The event count
 *
 * The host holds it beside the record, as one word, and hands it by pointer to the calls that take
 * events. Every accepted event first adds 1 to it; the sum is the event's number. A refused event
 * leaves it as it is. A host that begins with pcf8820_reset sets its count to 0 itself. Four chips on
 * one bus have one count.
 *
 * Refusals by the chip (those of the bus, the glass, drawing lists and the wires stand with their calls)
 *
 *   1   the memory or the writers are not 1,717 long
 *   2   the record is not allowed
 *   3   the event is not one of those listed above
 *   4   the event count is 2^64 - 1
 *   16  the event is a display byte, and with the whole byte in its place a pixel count would be below 0
 *       or above 6,767, which true counts never are
 *
 * Where more than one applies, the lowest is given; the bus and drawing lists have an order of their
 * own. A refused call changes no buffer that it is lent, with two exceptions: a run does the events
 * before its refused one, and the wires give the events that there is room for, with their state moved
 * on to there; these stand. The numbers that a call gives by pointer are results: they are set in every
 * case, refused or not. The count is none of them: it is handed in and back.
 *
 * Every length counts elements, not bytes. The buffers of one call, the count and the results with
 * them, must be valid for their length, aligned, and must not overlap; nothing more is asked of them.
 * Where a length is 0 the pointer still has to be aligned and not null: any object of the type will do,
 * and it is not touched.
 */
#ifndef PCF8820_H
#define PCF8820_H

#include <stddef.h>
#include <stdint.h>

#ifdef __cplusplus
extern "C" {
#endif

/* ---- names for the numbers */

/* How many: words of a record; places of a memory, which are columns times banks; chips on a bus; rows
 * of the glass; pixels, which are columns times rows; frames of a round, and bytes in the row buffer of
 * pcf8820_pulse_row, which are columns times frames; lines of a drawing list at most; words of a wire
 * state. */
enum pcf8820_size {
    PCF8820_RECORD_WORDS = 38,
    PCF8820_COLUMNS = 101,
    PCF8820_BANKS = 17,
    PCF8820_PLACES = 1717,
    PCF8820_CHIPS = 4,
    PCF8820_ROWS = 67,
    PCF8820_PIXELS = 6767,
    PCF8820_FRAMES = 4,
    PCF8820_ROW_PULSES = 404,
    PCF8820_MOST_LINES = 4096,
    PCF8820_WIRE_WORDS = 5
};

/* Where the record has what. The count of the pixels of value v is word PCF8820_WORD_PIXELS_0 + v. */
enum pcf8820_word {
    PCF8820_WORD_H = 0,
    PCF8820_WORD_DO = 1,
    PCF8820_WORD_PD = 2,
    PCF8820_WORD_V = 3,
    PCF8820_WORD_D = 4,
    PCF8820_WORD_E = 5,
    PCF8820_WORD_MX = 6,
    PCF8820_WORD_MY = 7,
    PCF8820_WORD_PS = 8,
    PCF8820_WORD_X = 9,
    PCF8820_WORD_Y = 10,
    PCF8820_WORD_BS = 11,
    PCF8820_WORD_BSH = 12,
    PCF8820_WORD_DP = 13,
    PCF8820_WORD_PRS = 14,
    PCF8820_WORD_HVE = 15,
    PCF8820_WORD_S = 16,
    PCF8820_WORD_TC = 17,
    PCF8820_WORD_SM = 18,
    PCF8820_WORD_VOP = 19,
    PCF8820_WORD_GR = 20,
    PCF8820_WORD_GS0 = 21,
    PCF8820_WORD_GS1 = 22,
    PCF8820_WORD_GS2 = 23,
    PCF8820_WORD_GS3 = 24,
    PCF8820_WORD_DOF = 25,
    PCF8820_WORD_DM = 26,
    PCF8820_WORD_EC = 27,
    PCF8820_WORD_OC = 28,
    PCF8820_WORD_PINS = 29,
    PCF8820_WORD_STATUS = 30,
    PCF8820_WORD_LAST_RS = 31,
    PCF8820_WORD_PHASE = 32,
    PCF8820_WORD_PHASE_RS = 33,
    PCF8820_WORD_PIXELS_0 = 34,
    PCF8820_WORD_PIXELS_1 = 35,
    PCF8820_WORD_PIXELS_2 = 36,
    PCF8820_WORD_PIXELS_3 = 37
};

/* What the word of the phase holds. */
enum pcf8820_phase {
    PCF8820_PHASE_IDLE = 0,
    PCF8820_PHASE_ADDRESS_AWAITED = 1,
    PCF8820_PHASE_IGNORING = 2,
    PCF8820_PHASE_CONTROL_AWAITED = 3,
    PCF8820_PHASE_ONE_BYTE = 4,
    PCF8820_PHASE_ENDLESS_BYTES = 5,
    PCF8820_PHASE_READING = 6,
    PCF8820_PHASE_READ_ENDED = 7
};

/* What a line adds to a sample of the wires where it is high. */
enum pcf8820_line {
    PCF8820_LINE_SDA = 1,
    PCF8820_LINE_SCL = 2
};

/* Where a wire state has what. */
enum pcf8820_wire_word {
    PCF8820_WIRE_WORD_UNCLEAR = 0,
    PCF8820_WIRE_WORD_LAST = 1,
    PCF8820_WIRE_WORD_STAGE = 2,
    PCF8820_WIRE_WORD_BITS = 3,
    PCF8820_WIRE_WORD_VALUE = 4
};

/* What the word of the stage holds. */
enum pcf8820_wire_stage {
    PCF8820_WIRE_STAGE_OUTSIDE = 0,
    PCF8820_WIRE_STAGE_WAITING = 1,
    PCF8820_WIRE_STAGE_FIRST = 2,
    PCF8820_WIRE_STAGE_WRITING = 3,
    PCF8820_WIRE_STAGE_READING = 4
};

/* Bus events above those of a byte from the master, which is its own number. A sensor reading is
 * PCF8820_EVENT_SENSOR + reading. */
enum pcf8820_event {
    PCF8820_EVENT_START = 256,
    PCF8820_EVENT_STOP = 257,
    PCF8820_EVENT_READ = 258,
    PCF8820_EVENT_LAST_READ = 259,
    PCF8820_EVENT_RESET = 260,
    PCF8820_EVENT_SENSOR = 512
};

/* What a step gives for an accepted event, of one chip or of a bus. A byte that was read is
 * PCF8820_ANSWER_READ + byte. */
enum pcf8820_answer {
    PCF8820_ANSWER_NONE = 256,
    PCF8820_ANSWER_ACKNOWLEDGED = 257,
    PCF8820_ANSWER_NOT_ACKNOWLEDGED = 258,
    PCF8820_ANSWER_TAKEN = 259,
    PCF8820_ANSWER_UNKNOWN = 260,
    PCF8820_ANSWER_OUT_OF_RANGE = 261,
    PCF8820_ANSWER_READ = 512
};

/* What the calls of the glass give: a level is PCF8820_GLASS_LEVEL + level, a place is
 * PCF8820_GLASS_PLACE + place. In the row buffer of pcf8820_pulse_row, where a byte is one pulse, a
 * dark and an undriven pixel have bytes that no pulse is. */
enum pcf8820_glass_answer {
    PCF8820_GLASS_DARK = 256,
    PCF8820_GLASS_UNDRIVEN = 257,
    PCF8820_GLASS_LEVEL = 512,
    PCF8820_GLASS_PLACE = 512,
    PCF8820_MOST_PULSE = 16,
    PCF8820_ROW_DARK = 254,
    PCF8820_ROW_UNDRIVEN = 255
};

/* pcf8820_pulses of a pixel that gets pulses is this and the four. It is too large for an enum. */
#define PCF8820_PULSES UINT64_C(0x100000000)

/* What is refused, of all calls. 0 is no refusal: what was asked is done. 2 is for the words of a chip's
 * record and for those of a wire state. */
enum pcf8820_refusal {
    PCF8820_DONE = 0,
    PCF8820_REFUSED_MEMORY = 1,
    PCF8820_REFUSED_RECORD = 2,
    PCF8820_REFUSED_WIRE_STATE = 2,
    PCF8820_REFUSED_EVENT = 3,
    PCF8820_REFUSED_COUNT = 4,
    PCF8820_REFUSED_PIXEL = 5,
    PCF8820_REFUSED_LINE = 6,
    PCF8820_REFUSED_VALUE = 7,
    PCF8820_REFUSED_FIELD = 8,
    PCF8820_REFUSED_LONG_LIST = 9,
    PCF8820_REFUSED_SHORT_OUTPUT = 10,
    PCF8820_REFUSED_ROW_BUFFER = 11,
    PCF8820_REFUSED_CHIPS = 12,
    PCF8820_REFUSED_SENSOR_PINS = 13,
    PCF8820_REFUSED_SAMPLE = 14,
    PCF8820_REFUSED_EVENT_BUFFER = 15,
    PCF8820_REFUSED_PIXEL_COUNT = 16
};

/* ---- the calls */

/* Writes the record after a power-on reset for these pins: pd and dof are 1, word 29 is pins, word 34 is
 * 6767, every other word is 0. The pixel counts are those of a memory of zeros; for another memory
 * pcf8820_counts gives them.
 *
 * Gives 0; or 2, with the buffer unchanged, if pins is above 3 or record_len is not 38. */
uint64_t pcf8820_reset(uint64_t *record, size_t record_len, uint64_t pins);

/* The counting start: how many pixels of a memory have the value 0, 1, 2 and 3. A host that brings its
 * own memory puts the four numbers into the words PCF8820_WORD_PIXELS_0 to _3 of the record before the
 * first event; so does one whose display byte is refused by 16, and sends it again. The memory is only
 * looked at.
 *
 * Gives 0; or 1, if memory_len is not 1,717. The four numbers are set in every case, for 1 to 0. */
uint64_t pcf8820_counts(const uint8_t *memory, size_t memory_len,
                        uint64_t *n0, uint64_t *n1, uint64_t *n2, uint64_t *n3);

/* Takes one bus event. The record, the memories and the count are changed in place.
 *
 * Gives
 *   1..4     refused, nothing changed
 *   16       a display byte that the pixel counts do not fit: refused, nothing changed
 *   256      accepted, no answer: START, STOP, reset pulse and sensor reading
 *   257      an address, control or display byte, acknowledged
 *   258      a byte from the master, not acknowledged
 *   259      a command byte, acknowledged: taken
 *   260      a command byte, acknowledged: unknown, no command of the present page
 *   261      a command byte, acknowledged: out of range, X above 100, Y above 16 or page above 4
 *   512 + b  the byte b (0..255) was read: events 258 and 259
 *
 * A byte from the master in phase 4 or 5 is a command byte with RS 0, a display byte with RS 1. The
 * page and the command byte alone decide between 259, 260 and 261, and not whether a register changes:
 * no operation (0) and page return (1) in every page, row block swapping (64, 72, 80 and 88 in page 4)
 * and a command that sets a register to what it held are taken. 260 and 261 leave every register as it
 * was. */
uint64_t pcf8820_step(uint64_t *record, size_t record_len,
                      uint8_t *memory, size_t memory_len,
                      uint64_t *writers, size_t writers_len,
                      uint64_t *count, uint16_t event);

/* Takes bus events in order, up to the first refused one. Refusals 1 and 2 are looked for once, at
 * entry, even where there are no events; 3, 4 and 16 at each event. The events before a refused one
 * stand: the record and the memories are left as the last of them made them, and *count has risen by
 * as many as were done.
 *
 * Gives 0 if all events were done, else the refusal, 1..4 or 16. Three numbers are set in every case:
 *   *done          how many events were done
 *   *unknown       how many of these were unknown commands, for which pcf8820_step gives 260
 *   *out_of_range  how many were commands out of range, for which it gives 261
 * A refused event is in none of them. For refusals 1 and 2 all three are 0. */
uint64_t pcf8820_run(uint64_t *record, size_t record_len,
                     uint8_t *memory, size_t memory_len,
                     uint64_t *writers, size_t writers_len,
                     uint64_t *count, const uint16_t *events, size_t events_len,
                     uint64_t *done, uint64_t *unknown, uint64_t *out_of_range);

/* A bus with four chips
 *
 * The chips 0 to 3 have a record, a memory and writers each, and one event count together. Every event
 * but a sensor reading goes to all four, and each takes it as pcf8820_step would, by its own pins and
 * phase. A sensor reading goes to the chip whose pins are handed in with it, and to no other.
 *
 * Refusals, in the order in which they are looked for, which is not that of their numbers:
 *
 *   1   one of the four memories or of the four writers is not 1,717 long
 *   2   one of the four records is not allowed
 *   12  two chips have the same pins; or the phases are not those of one bus, which are: all four
 *       idle; all four awaiting an address; all four ignoring; or three ignoring, and one past its
 *       address, in a phase of 3 to 7
 *   3   the event is not one of those listed above
 *   13  the event is a sensor reading, 512..767, and pins is above 3
 *   4   the event count is 2^64 - 1
 *   16  the event is a display byte for one of the chips, and does not fit its pixel counts
 *
 * A refused event changes none of the twelve buffers, nor the count. An accepted one leaves four chips
 * that 12 lets pass.
 *
 * The chips of a bus get their events through the bus alone. A host that calls pcf8820_step, pcf8820_run
 * or pcf8820_reset for one of them, in the middle of a message above all, can leave phases that are not
 * those of one bus. From then on every event of the bus is refused by 12, START and the reset pulse
 * included. The way out is to make all four chips idle: by pcf8820_reset for each, with its own pins, or,
 * to keep the registers, by PCF8820_PHASE_IDLE in word PCF8820_WORD_PHASE and 0 in word
 * PCF8820_WORD_PHASE_RS of each record.
 *
 * There is no run for a bus: the host makes one call for each event. */

/* Takes one event of the bus. The records, the memories and the count are changed in place. pins are
 * those of the chip that a sensor reading is for, word 29 of its record, and not its place among the
 * arguments or in an array; for other events any number will do.
 *
 * Gives
 *   1..4, 12, 13, 16
 *                  refused, nothing changed
 *   256            accepted, no answer: START, STOP, reset pulse and sensor reading
 *   257            an address, control or display byte, acknowledged by a chip
 *   258            a byte from the master that no chip acknowledges
 *   259, 260, 261  a command byte, acknowledged: what pcf8820_step gives for the chip that gets it
 *   512 + b        events 258 and 259: the byte b (0..255) of the chip that is read, 255 if none is
 *
 * The writer of a display byte is the number that the one count gives the event. */
uint64_t pcf8820_bus_step(
    uint64_t *record0, size_t record0_len, uint8_t *memory0, size_t memory0_len, uint64_t *writers0, size_t writers0_len,
    uint64_t *record1, size_t record1_len, uint8_t *memory1, size_t memory1_len, uint64_t *writers1, size_t writers1_len,
    uint64_t *record2, size_t record2_len, uint8_t *memory2, size_t memory2_len, uint64_t *writers2, size_t writers2_len,
    uint64_t *record3, size_t record3_len, uint8_t *memory3, size_t memory3_len, uint64_t *writers3, size_t writers3_len,
    uint64_t *count, uint16_t event, uint64_t pins);

/* One chip of a bus: the three buffers that it is made of, with their lengths. */
struct pcf8820_chip {
    uint64_t *record;
    size_t record_len;
    uint8_t *memory;
    size_t memory_len;
    uint64_t *writers;
    size_t writers_len;
};

/* The same as pcf8820_bus_step, with the chips in an array. const is the array alone: the buffers that
 * it points to are changed. */
static inline uint64_t pcf8820_bus(const struct pcf8820_chip chips[PCF8820_CHIPS], uint64_t *count,
                                   uint16_t event, uint64_t pins)
{
    return pcf8820_bus_step(
        chips[0].record, chips[0].record_len, chips[0].memory, chips[0].memory_len, chips[0].writers, chips[0].writers_len,
        chips[1].record, chips[1].record_len, chips[1].memory, chips[1].memory_len, chips[1].writers, chips[1].writers_len,
        chips[2].record, chips[2].record_len, chips[2].memory, chips[2].memory_len, chips[2].writers, chips[2].writers_len,
        chips[3].record, chips[3].record_len, chips[3].memory, chips[3].memory_len, chips[3].writers, chips[3].writers_len,
        count, event, pins);
}

/* The glass
 *
 * It has 67 rows and 101 columns. Its calls only look at the record and the memory. Refusals, the
 * lowest first:
 *
 *   1   the memory is not 1,717 long
 *   2   the record is not allowed
 *   5   the row is above 66 or the column above 100
 *   11  the row buffer of pcf8820_pulse_row is not 404 long */

/* What a row and column of the glass show.
 *
 * Gives
 *   1, 2, 5  refused
 *   256      dark: pd or dof is set
 *   257      undriven: partial screen, and the row is not in the part that is driven
 *   512 + g  the level g, 0..62 or 64: a grey register that holds 63 shows 64. A table by level needs
 *            65 entries, of which that of 63 is never used */
uint64_t pcf8820_glass(const uint64_t *record, size_t record_len,
                       const uint8_t *memory, size_t memory_len,
                       uint64_t row, uint64_t column);

/* Which place of the memory a row and column of the glass show, lit or not.
 *
 * Gives
 *   2, 5     refused
 *   512 + p  the place p, 0..1716 */
uint64_t pcf8820_place(const uint64_t *record, size_t record_len, uint64_t row, uint64_t column);

/* The pulses of a pixel: how wide it is driven in each of the four frames that build its level. Frame
 * k, 0..3, gets (k + 1) * g / 4 - k * g / 4, each quotient's whole part, of the level g that
 * pcf8820_glass gives; the frames go on as 0, 1, 2, 3, 0, 1 and so on. No pulse is above 16, and those
 * of any four frames on end add up to the level, as long as the registers and the memory stay as they
 * are.
 *
 * Gives
 *   1, 2, 5  refused
 *   256      dark, no pulses
 *   257      undriven, no pulses
 *   2^32 + p0 + 2^8 * p1 + 2^16 * p2 + 2^24 * p3
 *            the pulses p0 to p3 of frames 0 to 3: of this number n, n >> 32 is 1, and
 *            n >> 8 * k & 255 is the pulse of frame k */
uint64_t pcf8820_pulses(const uint64_t *record, size_t record_len,
                        const uint8_t *memory, size_t memory_len,
                        uint64_t row, uint64_t column);

/* The same for a whole row of the glass. The pixel of column c gets the bytes 4c to 4c + 3 of out, the
 * pulses of frames 0 to 3; or 254 four times if it is dark, 255 four times if it is undriven, which no
 * pulse is.
 *
 * Gives
 *   0            out was written, all of it
 *   1, 2, 5, 11  refused, out is unchanged */
uint64_t pcf8820_pulse_row(const uint64_t *record, size_t record_len,
                           const uint8_t *memory, size_t memory_len,
                           uint64_t row, uint8_t *out, size_t out_len);

/* Drawing lists
 *
 * A list is text. Its lines end with a newline each, their fields are parted by one tab, and numbers
 * are decimal, 1 to 3 digits, with no leading zero but for 0 itself:
 *
 *   put COLUMN BANK BYTE      that cell becomes the byte
 *   fill C0 C1 B0 B1 BYTE     all cells from column C0 to C1 in the banks from B0 to B1
 *   set FIELD NUMBER          that register: do pd v d e mx my ps bs bsh dp prs hve s tc sm vop dof
 *                             dm ec oc gs0 gs1 gs2 gs3; gsN also sets gr to N
 *
 * Columns and banks are places of the memory, whatever mx, v and do are. Refusals, in the order in
 * which they are looked for:
 *
 *   2   the record is not allowed
 *   9   more than 4,096 newlines
 *   6   a line is malformed, begins with an unknown word, names an unknown field, or is the last one
 *       and lacks its newline
 *   7   column above 100, bank above 16, C0 above C1, B0 above B1, byte above 255, byte above 63 where
 *       bank 16 is touched, or a number too wide for its register
 *   8   a field whose command is not known; there is none
 *   10  the output is too short
 *
 * Of 6, 7 and 8 the first bad line's is given, and the lowest if several apply to that line. */

/* Turns a list into the bus events that draw it on the chip with this record, whatever its phase.
 *
 * Gives
 *   0        *length events were written; on the bus they take *clocks clocks, nine for each byte
 *   2, 9     refused
 *   6, 7, 8  refused at line *line, counted from 1
 *   10       refused, *length events are needed
 *
 * All three numbers are set in every case, those that the result does not name to 0. A refused call
 * leaves the output unchanged, and so does an accepted one beyond its length.
 *
 * To ask how much room a list needs, call with out_len 0, out being any aligned pointer that is not
 * null: a list without fault then gives 10 and its *length, or 0 where it needs no events, and the
 * same list with as many words as *length gives 0. */
uint64_t pcf8820_compile(const uint64_t *record, size_t record_len,
                         const uint8_t *text, size_t text_len,
                         uint16_t *out, size_t out_len,
                         uint64_t *length, uint64_t *clocks, uint64_t *line);

/* The wires
 *
 * Samples of the bus's two lines become bus events. A sample is a byte of 0..3: the clock SCL in bit 1,
 * the data line SDA in bit 0. Before the first sample both are high. What a sample means is told by the
 * one before it:
 *
 *   both lines changed     unclear: counted, and nothing, no STOP either, is told until the next START
 *   data fell, clock high  START, event 256; within a message, too
 *   data rose, clock high  STOP, event 257; also where there was no START before it
 *   clock rose             from START to STOP a bit, the level of the data line
 *   anything else          nothing
 *
 * Eight bits, the high one first, and a ninth make a byte; its event comes at the ninth. The low bit of
 * the first byte after a START says whether those that follow are written, 0, or read, 1. The first
 * byte and bytes written have their value, 0..255, as the event; a byte read has 258 where its ninth
 * bit is 0, and 259 where it is 1. A START or STOP drops the bits of a byte that is not complete.
 *
 * So an event is 0..259, and pcf8820_run takes the events as they are. Reset pulses and sensor readings
 * are not on these lines: the host puts them in by itself.
 *
 * The host holds a wire state as 5 words of 64 bits. It is made by pcf8820_wires_start and only handed
 * on from call to call:
 *
 *   word  what                                               allowed
 *      0  unclear samples so far, no further than 2^64 - 1   any
 *      1  the last sample                                    0..3
 *      2  the stage:                                         0..4
 *           0 outside START to STOP       3 bytes written
 *           1 unclear, START awaited      4 bytes read
 *           2 first byte after a START
 *      3  how many bits of the present byte there are        0..8
 *      4  their value                                        0..255
 *
 * Refusals, the lowest first:
 *
 *   2   the wire state is not allowed, or not 5 words long
 *   14  a sample is above 3
 *   15  the event buffer is too short */

/* Writes the wire state before the first sample: 0, 3, 0, 0, 0.
 *
 * Gives 0; or 2, with the buffer unchanged, if state_len is not 5. */
uint64_t pcf8820_wires_start(uint64_t *state, size_t state_len);

/* Takes samples in order and writes their events from events[0] on. The state is changed in place.
 *
 * Gives
 *   0      all samples are consumed
 *   2, 14  refused: nothing is consumed, and nothing is changed, whatever comes before the bad sample
 *   15     no room for the event of sample *consumed, counted from 0; those before it are consumed,
 *          their events stand, and the state is the one after them
 *
 * Two numbers are set in every case, for 2 and 14 to 0: *consumed, how many samples are consumed, and
 * *written, how many events are written. Beyond *written the event buffer is unchanged.
 *
 * Samples may come in parts, cut anywhere, each with the state that the part before it left: events and
 * state at the end are those of all samples at once. After 15 the host takes the events, and calls
 * again with the samples from *consumed on and an event buffer that is free again, for one event at
 * least. A sample has at most one event, so samples_len places are always enough. */
uint64_t pcf8820_wires(uint64_t *state, size_t state_len,
                       const uint8_t *samples, size_t samples_len,
                       uint16_t *events, size_t events_len,
                       uint64_t *consumed, uint64_t *written);

#ifdef __cplusplus
}
#endif

#endif
