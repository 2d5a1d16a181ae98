/*
 * Prints the page list of a slot, a page to a line, or the line `refused=` and the number of the refusal.
 *
 *     page_list FILE
 *
 * Exit status: 0 the pages were printed, 1 refused, 2 they could not be printed whole. A file that cannot be read is refused too, and
 * standard error says why; so is one that is longer than any list file. Build it from the top of the repository:
 *
 *     tools/build library && cc -O2 -Wall -Iinclude host/c/page_list.c target/staticlib/libsisalshed.a -o target/page_list
 */
#include <inttypes.h>
#include <stdio.h>

#include "sisalshed.h"

/* A byte more than the largest file, so that a longer one is seen to be longer. */
static uint8_t file[SISALSHED_LARGEST_FILE + 1];
static uint32_t pages[SISALSHED_MOST_VALUES];

/* The file's bytes and their number; 0, for a file with no header, where it cannot be read or is longer than any list file. */
static size_t load(const char *name) {
    FILE *stream = fopen(name, "rb");
    if (stream == NULL) {
        perror(name);
        return 0;
    }
    size_t length = fread(file, 1, sizeof file, stream);
    int failed = ferror(stream);
    if (failed) {
        perror(name);
    }
    fclose(stream);
    return failed || length == sizeof file ? 0 : length;
}

int main(int argc, char **argv) {
    if (argc != 2) {
        fprintf(stderr, "usage: page_list FILE\n");
        return 2;
    }
    struct sisalshed_answer answer = sisalshed_read_file(file, load(argv[1]), SISALSHED_ARRAY(pages));
    if (answer.number != SISALSHED_ACCEPTED) {
        printf("refused=%" PRIu32 "\n", answer.number);
    }
    for (size_t at = 0; at < answer.length; at++) {
        printf("%" PRIu32 "\n", pages[at]);
    }
    if (fflush(stdout) != 0 || ferror(stdout)) {
        fprintf(stderr, "page_list: the output could not be written whole\n");
        return 2;
    }
    return answer.number == SISALSHED_ACCEPTED ? 0 : 1;
}
