/* Reads a tape, from a file or from standard input, runs it one move at a time and prints each move as it comes and last the first line of the list, or the alarm: the same settings
   and the same status as `./listmoves`; of a list the same lines, where `./listmoves` has that line in front, and of an alarm the moves before it too, where `./listmoves` has the alarm alone. It holds no list and no record but the present one. Behind the last answer it asks twice more, and fails
   where it is not repeated. c/compare builds it and compares the two. */
#include <inttypes.h>
#include <stdio.h>

#include "tm02.h"

/* one byte more than a tape may have, so that a longer one is seen to be longer */
static uint8_t tape[TM02_LONGEST_TAPE + 1];

static const int32_t table[TM02_TABLE];

static const int32_t settings[TM02_SETTINGS] = {
    [TM02_SET_MAIN] = 1,           [TM02_SET_LOWEST] = 80,        [TM02_SET_RETRACT] = 500,
    [TM02_SET_START_X] = 60000,    [TM02_SET_START_Z] = 50000,    [TM02_SET_X_LOWEST] = -200000,
    [TM02_SET_X_HIGHEST] = 200000, [TM02_SET_Z_LOWEST] = -200000, [TM02_SET_Z_HIGHEST] = 200000,
    [TM02_SET_EMPTY_CUTS] = 1,     [TM02_SET_POINTS] = 0,
};

static uint64_t places[TM02_MOST_PLACES];

static uint32_t state[TM02_STATE_WORDS];

static uint8_t record[TM02_RECORD_SIZE];

static uint64_t ask(size_t length) {
    return tm02_next(tape, length, table, TM02_TABLE, settings, TM02_SETTINGS, places, TM02_MOST_PLACES, state, TM02_STATE_WORDS, record, sizeof record);
}

/* The numbers of a record are little-endian and not aligned. */
static unsigned two_bytes(size_t at) { return record[at] | (unsigned)record[at + 1] << 8; }
static uint32_t four_bytes(size_t at) { return two_bytes(at) | (uint32_t)two_bytes(at + 2) << 16; }
static int64_t signed_bytes(size_t at) { return ((int64_t)four_bytes(at) ^ 0x80000000) - 0x80000000; }

static void print_record(void) {
    printf("%u %u %" PRId64 " %" PRId64 " %" PRIu32 " %u %u\n", record[TM02_AT_KIND], record[TM02_AT_FLAGS], signed_bytes(TM02_AT_X), signed_bytes(TM02_AT_Z), four_bytes(TM02_AT_VALUE),
           two_bytes(TM02_AT_PROGRAM), two_bytes(TM02_AT_BLOCK));
}

static void print_answer(uint64_t answer) {
    if (tm02_alarm(answer) != 0) {
        printf("ALARM %u %u %u\n", tm02_alarm(answer), tm02_place(answer), tm02_count(answer));
    } else {
        printf("TMV %u %u\n", (unsigned)TM02_VERSION, tm02_count(answer));
    }
}

int main(int argc, char **argv) {
    if (argc > 2) {
        fprintf(stderr, "usage: %s [TAPE]\n", argv[0]);
        return 2;
    }
    FILE *in = argc == 2 ? fopen(argv[1], "rb") : stdin;
    size_t length = in == NULL ? 0 : fread(tape, 1, sizeof tape, in);
    if (in == NULL || ferror(in)) {
        perror(argc == 2 ? argv[1] : "standard input");
        return 2;
    }
    if (tm02_start(tape, length, table, TM02_TABLE, settings, TM02_SETTINGS, places, TM02_MOST_PLACES, state, TM02_STATE_WORDS) != 0) {
        fprintf(stderr, "%s: the run is not started\n", argv[0]);
        return 2;
    }
    uint64_t answer;
    while (tm02_is_record(answer = ask(length))) {
        print_record();
    }
    if (tm02_is_refused(answer)) {
        fprintf(stderr, "%s: an ask is refused\n", argv[0]);
        return 2;
    }
    print_answer(answer);
    if (ask(length) != answer || ask(length) != answer) {
        fprintf(stderr, "%s: the answer is not repeated\n", argv[0]);
        return 2;
    }
    if (fflush(stdout) != 0) {
        perror("standard output");
        return 2;
    }
    return tm02_alarm(answer) == 0 ? 0 : 1;
}
