/* Reads a tape, from a file or from standard input, runs it through the interpreter's door and prints the list of moves, or the alarm, as `./listmoves` does: the same settings, the same
   text and the same status, 0 for a list, 1 for an alarm, 2 where there is no tape. With --bytes it writes the bytes of the list, for c/printlist.c. c/compare builds it and compares the two. */
#include <inttypes.h>
#include <stdio.h>
#include <string.h>

#include "tm02.h"

/* one byte more than a tape may have, so that a longer one is seen to be longer */
static uint8_t tape[TM02_LONGEST_TAPE + 1];

static const int32_t table[TM02_TABLE];

static const int32_t settings[TM02_SETTINGS] = {
    [TM02_SET_MAIN] = 1,           [TM02_SET_LOWEST] = 80,        [TM02_SET_RETRACT] = 500,
    [TM02_SET_START_X] = 60000,    [TM02_SET_START_Z] = 50000,    [TM02_SET_X_LOWEST] = -200000,
    [TM02_SET_X_HIGHEST] = 200000, [TM02_SET_Z_LOWEST] = -200000, [TM02_SET_Z_HIGHEST] = 200000,
    [TM02_SET_EMPTY_CUTS] = 1,     [TM02_SET_POINTS] = 0,
};

static uint64_t places[TM02_MOST_PLACES];

static uint8_t list[TM02_BUFFER_SIZE];

/* The list of a complete run is never refused: its records are read one after the other. */
static void print_list(size_t length, unsigned count) {
    printf("%.3s %u %u\n", (const char *)list + TM02_AT_MARK, (unsigned)TM02_VERSION, count);
    int64_t record[TM02_READ_NUMBERS];
    for (size_t k = 0; tm02_read_judged(list, length, k, record, TM02_READ_NUMBERS) == 0; k++) {
        printf("%" PRId64 " %" PRId64 " %" PRId64 " %" PRId64 " %" PRId64 " %" PRId64 " %" PRId64 "\n", record[TM02_READ_KIND], record[TM02_READ_FLAGS], record[TM02_READ_X],
               record[TM02_READ_Z], record[TM02_READ_VALUE], record[TM02_READ_PROGRAM], record[TM02_READ_BLOCK]);
    }
}

int main(int argc, char **argv) {
    int bytes = argc > 1 && strcmp(argv[1], "--bytes") == 0;
    if (argc > 2 + bytes) {
        fprintf(stderr, "usage: %s [--bytes] [TAPE]\n", argv[0]);
        return 2;
    }
    const char *name = argc == 2 + bytes ? argv[1 + bytes] : NULL;
    FILE *in = name != NULL ? fopen(name, "rb") : stdin;
    size_t length = in == NULL ? 0 : fread(tape, 1, sizeof tape, in);
    if (in == NULL || ferror(in)) {
        perror(name != NULL ? name : "standard input");
        return 2;
    }
    uint64_t answer = tm02_interpret(tape, length, table, TM02_TABLE, settings, TM02_SETTINGS, places, TM02_MOST_PLACES,
                                     list, sizeof list);
    size_t used = TM02_HEADER_SIZE + (size_t)TM02_RECORD_SIZE * tm02_count(answer);
    if (tm02_alarm(answer) != 0) {
        printf("ALARM %u %u %u\n", tm02_alarm(answer), tm02_place(answer), tm02_count(answer));
    } else if (bytes) {
        fwrite(list, 1, used, stdout);
    } else {
        print_list(used, tm02_count(answer));
    }
    if (fflush(stdout) != 0) {
        perror("standard output");
        return 2;
    }
    return tm02_alarm(answer) == 0 ? 0 : 1;
}
