/* The interpreter of TM02 program tapes and the reader of its lists, as the control's firmware and the axis board call them. `rt lib` in crates/board_c builds it, and c/compare writes it to target/staticlib/libboard.a; c/listmoves.c, c/onemove.c and c/printlist.c are examples.
   The archive is for x86-64 and C's System V calling convention, uses SSE registers, and needs memcpy and memset and nothing else. It has read-only data and no writable data. The
   convention lets code use the 128 bytes below the stack pointer (the red zone) without moving it, and the kit cannot be told to leave them alone. In the archive of today's compiler tm02_interpret,
   tm02_start and tm02_next do so, in three inner functions (addresses::next_word, statewords::put_due and put_run), the first of which is new: c/compare refuses that archive for it. Have it look at every archive that is built, before an interrupt handler shares the stack of a running
   call, and let none that does not leave 128 bytes free share the stack of these three. This file needs C99 or C++. The contracts of the functions stand in
   crates/board_c/src/lib.rt, docs/ALARMS.md is the alarm card. */
#ifndef TM02_H
#define TM02_H

#include <stddef.h>
#include <stdint.h>

#ifdef __cplusplus
extern "C" {
#endif

/* The places of the eleven settings. Main is 0 to 6999 and not from the lowest subroutine to 255, lowest subroutine 0 to 255, retract (of G86, G87 and G88) 0 to 32767, empty cuts (of a thread whose block
   names none; factory 1) 0 to 32767, points 1 where an X, Z, U or W number without a point is alarm 21 unless it is 0, else 0; the others and the table's
   numbers are -9999999 to 9999999, no lowest limit above its highest, the start within the limits. All lengths are in 0.001 mm, and what is said of X counts on the diameter. */
enum {
    TM02_SET_MAIN,
    TM02_SET_LOWEST,
    TM02_SET_RETRACT,
    TM02_SET_START_X,
    TM02_SET_START_Z,
    TM02_SET_X_LOWEST,
    TM02_SET_X_HIGHEST,
    TM02_SET_Z_LOWEST,
    TM02_SET_Z_HIGHEST,
    TM02_SET_EMPTY_CUTS,
    TM02_SET_POINTS,
    TM02_SETTINGS
};

/* The offset table: pairs of X then Z, shifts 1 to 5 and then tool corrections 1 to 99. */
enum { TM02_TABLE = 208 };

/* The longest tape that is read. */
enum { TM02_LONGEST_TAPE = 65535 };

/* The table of places, which the call fills while it reads the tape: one entry for each program line and each block that was read and accepted. An entry is program x 2^32 + slot x 2^16 + place on
   the tape; the slot is 0 for the program's line and the block's number plus 1 for a block. The entries ascend. TM02_MOST_PLACES entries do for every tape; with fewer, a tape that has more such
   lines is alarm 22. */
enum { TM02_MOST_PLACES = 21845 };

/* The list, of version 2, the only one that is written: a header, and then the records. A buffer of TM02_BUFFER_SIZE bytes has room for every list. */
enum {
    TM02_HEADER_SIZE = 8,
    TM02_RECORD_SIZE = 20,
    TM02_RECORD_LIMIT = 3200,
    TM02_BUFFER_SIZE = TM02_HEADER_SIZE + TM02_RECORD_SIZE * TM02_RECORD_LIMIT,
    TM02_VERSION = 2
};

/* A list of version 1, which is read and no longer written: its records have 16 bytes, and no program and block. The longest takes as many bytes, 64,008. */
enum { TM02_FIRST_VERSION = 1, TM02_FIRST_RECORD_SIZE = 16, TM02_FIRST_RECORD_LIMIT = 4000 };

/* Where the header's parts begin: the mark `TMV`, the version and the count in 16 bits each, a zero. Numbers are little-endian and not aligned: read them byte by byte. */
enum { TM02_AT_MARK = 0, TM02_AT_VERSION = 3, TM02_AT_COUNT = 5, TM02_AT_HEADER_ZERO = 7 };

/* Where a record's parts begin: a byte each for kind and flags, two zeros, then 32 bits each: the machine positions X and Z after it, signed, and a value; and 16 bits each: the numbers of the
   program and of the block that it came from, in a subprogram the subprogram's. */
enum {
    TM02_AT_KIND = 0,
    TM02_AT_FLAGS = 1,
    TM02_AT_ZEROS = 2,
    TM02_AT_X = 4,
    TM02_AT_Z = 8,
    TM02_AT_VALUE = 12,
    TM02_AT_PROGRAM = 16,
    TM02_AT_BLOCK = 18
};

/* The kinds of a record, and what its value is. */
enum {
    TM02_RAPID = 1,         /* 0 */
    TM02_FEED = 2,          /* F */
    TM02_THREAD = 3,        /* the pitch */
    TM02_DWELL = 4,         /* tenths of a second */
    TM02_TOOL = 5,          /* T */
    TM02_MISCELLANEOUS = 6, /* the number of the M word */
    TM02_SPEED = 7,         /* S */
    TM02_CLOCKWISE = 8,     /* an arc, G02: F. Its end is the position, and the next record is its centre; it starts where the records before it leave the axes. */
    TM02_COUNTERCLOCKWISE = 9, /* an arc, G03: F. Clockwise and counterclockwise are seen with Z to the right and X up. An end equal to the start is a full circle. */
    TM02_CENTRE = 10        /* 0; the position is the centre of the arc before it, within three times the table's range, and nothing moves */
};

/* The flags: of a feed or an arc under G95, of a speed under G96. */
enum { TM02_FLAG_G95 = 1, TM02_FLAG_G96 = 2 };

/* The alarms. 0 says that the list is complete; 8 is not used. */
enum {
    TM02_ALARM_BAD_SETTINGS = 1,
    TM02_ALARM_TAPE_TOO_LONG = 2,
    TM02_ALARM_BUFFER_TOO_SHORT = 3,
    TM02_ALARM_NO_PROGRAM = 4,
    TM02_ALARM_BAD_BYTE_OR_NUMBER = 5,
    TM02_ALARM_BAD_LINE_START = 6,
    TM02_ALARM_LINE_TOO_LONG = 7,
    TM02_ALARM_WORD_RULES = 9,
    TM02_ALARM_PROGRAM_MISSING = 10,
    TM02_ALARM_BLOCK_MISSING = 11,
    TM02_ALARM_TOO_DEEP = 12,
    TM02_ALARM_TOO_MANY_BEGUN = 13,
    TM02_ALARM_WRONG_END = 14,
    TM02_ALARM_NO_MOTION = 15,
    TM02_ALARM_NOT_RAPID = 16,
    TM02_ALARM_BAD_FEED = 17,
    TM02_ALARM_OUTSIDE_LIMITS = 18,
    TM02_ALARM_BAD_LENGTHS = 19,
    TM02_ALARM_NO_ROOM = 20,
    TM02_ALARM_MISSING_POINT = 21,
    TM02_ALARM_PLACES_TOO_SHORT = 22
};

/* Runs a tape. settings: main, lowest subroutine, retract, start X, start Z, X lowest, X highest, Z lowest, Z highest, empty cuts, points.
   answer: bits 0-15 the records written, bits 16-31 the place on the tape, bits 32-39 the alarm, 0 where the list is complete.

   Where the list is complete, its header and its records are at the front of the buffer, and the place is 0. On an alarm the records of the blocks before it stand behind the header's
   place, and no header is written: an older one may still stand there, so go by the answer alone. All other bytes of the buffer are as they came. The bits above 39 are 0.

   After every answer the table of places holds the lines read and accepted at its front (after 1 to 4 none, after 5 to 9, 21 and 22 those before the line at fault, else all up to the end of
   reading), and all its other entries are as they came. What it held before the call does not matter. The answer does not say how many entries are filled.

   No number has to be checked before the call: settings_len other than 11, table_len other than 208 or a number out of its range is alarm 1. The caller owes what C cannot check: no
   pointer is null, not even where its length is 0; each points to as many elements as its length says; table and settings are aligned as int32_t and places as uint64_t; places and the buffer overlap none of the
   others; and nothing else writes to any of them, or reads places or the buffer, during the call.

   The call takes no heap and has no data of its own. It took 16,760 bytes of stack ten calls deep, measured with the archive of an older compiler and not again since: give it 32 KiB. A run ends after 20,000
   blocks at the latest: do not call it from an interrupt. */
uint64_t tm02_interpret(const uint8_t *tape, size_t tape_len, const int32_t *table, size_t table_len,
                        const int32_t *settings, size_t settings_len, uint64_t *places, size_t places_len,
                        uint8_t *buf, size_t buf_len);

/* The parts of an answer. */
static inline unsigned tm02_count(uint64_t answer) { return (unsigned)(answer & 0xffff); }
static inline unsigned tm02_place(uint64_t answer) { return (unsigned)(answer >> 16 & 0xffff); }
static inline unsigned tm02_alarm(uint64_t answer) { return (unsigned)(answer >> 32 & 0xff); }

/* ONE MOVE AT A TIME, with no list and no buffer: start a run, and ask for its next record until the run is over. The run's state stands in so many words that the caller lends: 116 words, 464
   bytes. The k-th ask, from 0, gives the list's record k, and from the list's count on every ask gives the end or the alarm that tm02_interpret gives with a buffer of TM02_BUFFER_SIZE bytes and
   as long a table of places. Alarm 3 is never given, 22 not with TM02_MOST_PLACES places, and 20 only where a block would make the records more than TM02_RECORD_LIMIT; of a block that is at
   fault no record is given. */
enum { TM02_STATE_WORDS = 116 };

/* What a start answers where nothing was done: state_len is not TM02_STATE_WORDS. 0 says that the run is started. */
enum { TM02_NOT_STARTED = 1 };

/* What an ask tells beside the answer, in bits 40 and 41. Neither is set where it gives a record; both never. */
#define TM02_TOLD_OVER ((uint64_t)1 << 40)    /* the run is over: bits 0-39 are its end or alarm, as of tm02_interpret */
#define TM02_TOLD_REFUSED ((uint64_t)1 << 41) /* nothing was done, and bits 0-39 are 0 */

/* Starts a run in the lent words, whatever they hold: a new start clears what was there. The tape is read here, and the table of places filled as tm02_interpret fills it; no block is run. What
   is at fault with the settings, the tape or the places is no answer of the start: the first ask tells it, and so does every later one.

   The caller owes what it owes to tm02_interpret; state is aligned as uint32_t, and places and state overlap none of the others. */
uint32_t tm02_start(const uint8_t *tape, size_t tape_len, const int32_t *table, size_t table_len,
                    const int32_t *settings, size_t settings_len, uint64_t *places, size_t places_len,
                    uint32_t *state, size_t state_len);

/* The next record of a run that was started in the words, or its answer, which is repeated until a new start.
   answer: bits 0-39 as of tm02_interpret, bit 40 TM02_TOLD_OVER, bit 41 TM02_TOLD_REFUSED. All 64 are 0 where a record was laid.

   A record comes as the TM02_RECORD_SIZE bytes that it has in a list, at the front of record; TM02_AT_KIND and those behind it say where its parts begin. All other bytes of record are as they
   came, and all of them where the answer is not a record. An arc is two records: the next ask gives its centre.

   Lend each ask the same tape, table, settings and places as the start, places as the start left them, and let nothing else write to the state between two asks. An ask is refused, and then state
   and record are as they came, where state_len is not TM02_STATE_WORDS, where record_len is below TM02_RECORD_SIZE, and where the words cannot be asked: a block in hand that is not sound or has
   no record left; and where none is in hand, a run that cannot go on with what is lent, or one that is over and whose place or count has more than 16 bits. Words that no start made break nothing: they are refused, or answered as the state that they happen to be.

   The caller owes what C cannot check, as above: no pointer is null, each points to as many elements as its length says and is aligned as its type, state and record overlap none of the
   others, and nothing else writes to any of them, or reads state or record, during the call.

   Neither call takes heap or has data of its own. tm02_start took 2,040 bytes of stack and tm02_next 4,920, however deep the calls of the tape are, measured with the archive of an older compiler and not again since: give
   them 16 KiB, and the 128 bytes below.
   A start reads the whole tape, and an ask runs blocks until one has a record, which may be all the 20,000 of a run: do not call them from an interrupt. */
uint64_t tm02_next(const uint8_t *tape, size_t tape_len, const int32_t *table, size_t table_len,
                   const int32_t *settings, size_t settings_len, const uint64_t *places, size_t places_len,
                   uint32_t *state, size_t state_len, uint8_t *record, size_t record_len);

/* What an ask tells. Of an answer that is over, tm02_count, tm02_place and tm02_alarm give the parts. */
static inline int tm02_is_record(uint64_t answer) { return (answer & (TM02_TOLD_OVER | TM02_TOLD_REFUSED)) == 0; }
static inline int tm02_is_over(uint64_t answer) { return (answer & TM02_TOLD_OVER) != 0; }
static inline int tm02_is_refused(uint64_t answer) { return (answer & TM02_TOLD_REFUSED) != 0; }

/* A record that is read back, as so many numbers, and where each stands. Both versions are read. A list of version 1 has no program and block, and both are TM02_NONE. */
enum {
    TM02_READ_KIND,
    TM02_READ_FLAGS,
    TM02_READ_X,
    TM02_READ_Z,
    TM02_READ_VALUE,
    TM02_READ_PROGRAM,
    TM02_READ_BLOCK,
    TM02_READ_NUMBERS
};
enum { TM02_NONE = -1 };

/* Why a list, or k, is refused, in the order in which it is asked. 0 says that it is not. */
enum {
    TM02_REFUSED_BAD_MARK = 1,    /* another mark, or under 8 bytes */
    TM02_REFUSED_BAD_VERSION = 2, /* neither 1 nor 2 */
    TM02_REFUSED_BAD_LENGTH = 3,  /* by the version: another length than the count's, a count above the limit, or the header's last byte not 0 */
    TM02_REFUSED_BAD_RECORD = 4,  /* any record: kind, flags, position, spare bytes, or a kind 10 missing behind 8 or 9, or elsewhere */
    TM02_REFUSED_BAD_INDEX = 5,   /* k is not below the count */
    TM02_REFUSED_TOO_FEW_NUMBERS = 6
};

/* Reads record k, from 0, of any bytes: 0 and its numbers, or why they are refused, and then the lent numbers are as they came. The whole list is judged at every call.
   The caller owes what C cannot check, as above: no pointer is null, each points to as many elements as its length says, record is aligned as int64_t, the two do not overlap, and nothing
   else writes to them during the call. A list of a run that was complete is never refused: give the first TM02_HEADER_SIZE + TM02_RECORD_SIZE * tm02_count(answer) bytes of the buffer. */
uint32_t tm02_read(const uint8_t *list, size_t list_len, size_t k, int64_t *record, size_t record_len);

/* A whole list in one pass: judge it once, 0 or 1 to 4, and then read its records one after the other, until 5 says that there are no more. tm02_read_judged does not judge: of a list that was
   not refused it gives what tm02_read gives, and of other bytes what stands there. */
uint32_t tm02_judge(const uint8_t *list, size_t list_len);
uint32_t tm02_read_judged(const uint8_t *list, size_t list_len, size_t k, int64_t *record, size_t record_len);

#ifdef __cplusplus
}
#endif

#endif
