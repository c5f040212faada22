/* Reads a list of moves, its bytes, from a file or from standard input, and prints its records as `./listmoves` does, or why it is refused; those of a list of version 1 without program and
   block, which it does not tell. It judges the list once and then reads its records one after the other. The status is 0 for a list, 1 where it is refused, 2 where there is none. c/compare
   builds it and gives it the lists of the example tapes. */
#include <inttypes.h>
#include <stdio.h>

#include "tm02.h"

/* one byte more than the longest list, so that a longer one is seen to be longer */
static uint8_t list[TM02_BUFFER_SIZE + 1];

int main(int argc, char **argv) {
    if (argc > 2) {
        fprintf(stderr, "usage: %s [LIST]\n", argv[0]);
        return 2;
    }
    FILE *in = argc == 2 ? fopen(argv[1], "rb") : stdin;
    size_t length = in == NULL ? 0 : fread(list, 1, sizeof list, in);
    if (in == NULL || ferror(in)) {
        perror(argc == 2 ? argv[1] : "standard input");
        return 2;
    }
    uint32_t refused = tm02_judge(list, length);
    if (refused != 0) {
        printf("REFUSED %" PRIu32 "\n", refused);
    } else {
        printf("%.3s %u %u\n", (const char *)list + TM02_AT_MARK, list[TM02_AT_VERSION] | (unsigned)list[TM02_AT_VERSION + 1] << 8,
               list[TM02_AT_COUNT] | (unsigned)list[TM02_AT_COUNT + 1] << 8);
        int64_t record[TM02_READ_NUMBERS];
        for (size_t k = 0; tm02_read_judged(list, length, k, record, TM02_READ_NUMBERS) == 0; k++) {
            printf("%" PRId64 " %" PRId64 " %" PRId64 " %" PRId64 " %" PRId64, record[TM02_READ_KIND], record[TM02_READ_FLAGS], record[TM02_READ_X], record[TM02_READ_Z],
                   record[TM02_READ_VALUE]);
            if (record[TM02_READ_PROGRAM] != TM02_NONE) {
                printf(" %" PRId64 " %" PRId64, record[TM02_READ_PROGRAM], record[TM02_READ_BLOCK]);
            }
            printf("\n");
        }
    }
    if (fflush(stdout) != 0) {
        perror("standard output");
        return 2;
    }
    return refused == 0 ? 0 : 1;
}
