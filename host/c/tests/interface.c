/*
 * Holds include/sisalshed.h to the library: every declaration is used, every number of refusal that a call can give is had from it, and
 * document 01's "Numbers at the edges" come out. It is C and C++ alike. Its last line is 'N passed, M failed'.
 */
#include <stdio.h>
#include <string.h>

#include "sisalshed.h"

static unsigned passed;
static unsigned failed;

static void check(int holds, const char *fact, int line) {
    if (holds) {
        passed++;
    } else {
        failed++;
        printf("line %d: %s\n", line, fact);
    }
}

#define CHECK(fact) check((fact) != 0, #fact, __LINE__)
#define IS(answer, said, long_) check_answer((answer), (said), (long_), #answer, __LINE__)

static void check_answer(struct sisalshed_answer answer, uint32_t number, size_t length, const char *call, int line) {
    check(answer.number == number && answer.length == length, call, line);
    if (answer.number != number || answer.length != length) {
        printf("    number %lu, length %lu\n", (unsigned long)answer.number, (unsigned long)answer.length);
    }
}

/* Memory that is lent, with marks in it: what a call leaves is compared with the marks. */
static uint8_t bytes[SISALSHED_LARGEST_FILE + 9];
static uint32_t values[SISALSHED_MOST_VALUES + 9];
static uint32_t given[SISALSHED_MOST_VALUES + 9];
static uint8_t packed[SISALSHED_LARGEST_FILE + 9];

static uint8_t mark(size_t at) { return (uint8_t)(0xa5 ^ (at * 29)); }

static void lend(void) {
    for (size_t at = 0; at < sizeof bytes; at++) {
        bytes[at] = mark(at);
    }
    for (size_t at = 0; at < sizeof values / sizeof values[0]; at++) {
        values[at] = 0x01010101u * mark(at);
    }
}

/* All marks from there on are as they were. */
static int bytes_kept(size_t from) {
    for (size_t at = from; at < sizeof bytes; at++) {
        if (bytes[at] != mark(at)) {
            return 0;
        }
    }
    return 1;
}

static int values_kept(size_t from) {
    for (size_t at = from; at < sizeof values / sizeof values[0]; at++) {
        if (values[at] != 0x01010101u * mark(at)) {
            return 0;
        }
    }
    return 1;
}

/* `count` zeros in `given`, but for one. */
static void only(size_t count, size_t place, uint32_t value) {
    memset(given, 0, count * sizeof given[0]);
    given[place] = value;
}

static void ascending(size_t count, uint32_t from) {
    for (size_t at = 0; at < count; at++) {
        given[at] = from + (uint32_t)at;
    }
}

static void sizes(void) {
    const size_t lanes[3] = {1, 4, 8};
    size_t body = 0;
    size_t file = 0;
    size_t payload = 0;
    CHECK(SISALSHED_BLOCK(1) == 32 && SISALSHED_BLOCK(4) == 128 && SISALSHED_BLOCK(8) == 256);
    CHECK(SISALSHED_LARGEST_BLOCK == SISALSHED_BLOCK(8));
    memset(given, 0xff, sizeof given);
    for (int which = 0; which < 3; which++) {
        size_t l = lanes[which];
        for (uint32_t width = 0; width <= SISALSHED_LARGEST_WIDTH; width++) {
            struct sisalshed_answer answer = sisalshed_compressed_block_size(l, width);
            check_answer(answer, SISALSHED_ACCEPTED, SISALSHED_PAYLOAD(l, width), "payload", __LINE__);
            payload = answer.length > payload ? answer.length : payload;
        }
        lend();
        struct sisalshed_answer list = sisalshed_write_list(l, SISALSHED_PLAIN, 0, given, SISALSHED_MOST_VALUES, bytes, SISALSHED_LARGEST_BODY);
        CHECK(list.number == SISALSHED_ACCEPTED && bytes_kept(list.length));
        IS(sisalshed_measure_list(l, SISALSHED_PLAIN, 0, given, SISALSHED_MOST_VALUES), SISALSHED_ACCEPTED, list.length);
        body = list.length > body ? list.length : body;
        lend();
        struct sisalshed_answer whole = sisalshed_write_file(l, SISALSHED_PLAIN, 0, given, SISALSHED_MOST_VALUES, bytes, SISALSHED_LARGEST_FILE);
        CHECK(whole.number == SISALSHED_ACCEPTED && bytes_kept(whole.length));
        file = whole.length > file ? whole.length : file;
    }
    CHECK(payload == SISALSHED_LARGEST_PAYLOAD);
    CHECK(body == SISALSHED_LARGEST_BODY);
    CHECK(file == SISALSHED_LARGEST_FILE);
    IS(sisalshed_compressed_block_size(2, 1), SISALSHED_BAD_LANES, 0);
    IS(sisalshed_compressed_block_size(2, 33), SISALSHED_BAD_LANES, 0);
    IS(sisalshed_compressed_block_size(4, 33), SISALSHED_BAD_WIDTH, 0);
    IS(sisalshed_compressed_block_size((size_t)-1, 0), SISALSHED_BAD_LANES, 0);
}

/* A kind that there is not, with everything else as bad as can be, and with everything else as it should be. */
static void kinds(void) {
    const uint32_t wrong[8] = {4, 5, 255, 256, 257, 65536, 0x80000001u, 0xffffffffu};
    lend();
    ascending(32, 0);
    for (int which = 0; which < 8; which++) {
        uint32_t kind = wrong[which];
        IS(sisalshed_compress(3, kind, 0, given, 5, bytes, 0, 99), SISALSHED_BAD_HEADER, 0);
        IS(sisalshed_compress(1, kind, 0, given, 32, bytes, 128, 32), SISALSHED_BAD_HEADER, 0);
        IS(sisalshed_decompress(3, kind, 0, packed, 0, values, 0, 99), SISALSHED_BAD_HEADER, 0);
        IS(sisalshed_decompress(1, kind, 0, packed, 128, values, 32, 32), SISALSHED_BAD_HEADER, 0);
        IS(sisalshed_num_bits(3, kind, 0, given, 5), SISALSHED_BAD_HEADER, 0);
        IS(sisalshed_num_bits(1, kind, 0, given, 32), SISALSHED_BAD_HEADER, 0);
        IS(sisalshed_measure_list(3, kind, 0, given, 4097), SISALSHED_BAD_HEADER, 0);
        IS(sisalshed_measure_list(1, kind, 0, given, 32), SISALSHED_BAD_HEADER, 0);
        IS(sisalshed_write_list(3, kind, 0, given, 4097, bytes, 0), SISALSHED_BAD_HEADER, 0);
        IS(sisalshed_write_list(1, kind, 0, given, 32, bytes, 999), SISALSHED_BAD_HEADER, 0);
        IS(sisalshed_read_list(3, kind, 0, 4097, packed, 0, values, 0), SISALSHED_BAD_HEADER, 0);
        IS(sisalshed_read_list(1, kind, 0, 0, packed, 0, values, 99), SISALSHED_BAD_HEADER, 0);
        IS(sisalshed_write_file(3, kind, 0, given, 4097, bytes, 0), SISALSHED_BAD_HEADER, 0);
        IS(sisalshed_write_file(1, kind, 0, given, 32, bytes, 999), SISALSHED_BAD_HEADER, 0);
    }
    CHECK(bytes_kept(0) && values_kept(0));
}

/* Document 01's edges 1 to 7: blocks. */
static void blocks(void) {
    lend();
    only(32, 0, 1);
    given[1] = 2;
    given[2] = 3;
    IS(sisalshed_compress(1, SISALSHED_PLAIN, 9, given, 32, bytes, 8, 2), SISALSHED_ACCEPTED, 8);
    CHECK(bytes[0] == 0x39 && bytes[1] == 0 && bytes[7] == 0 && bytes_kept(8));

    only(128, 1, 1);
    IS(sisalshed_compress(4, SISALSHED_PLAIN, 0, given, 128, bytes, 16, 1), SISALSHED_ACCEPTED, 16);
    CHECK(bytes[0] == 0 && bytes[4] == 1);
    only(128, 4, 1);
    IS(sisalshed_compress(4, SISALSHED_PLAIN, 0, given, 128, bytes, 16, 1), SISALSHED_ACCEPTED, 16);
    CHECK(bytes[0] == 2 && bytes[4] == 0);

    only(32, 1, 3);
    IS(sisalshed_compress(1, SISALSHED_PLAIN, 0, given, 32, bytes, 124, 31), SISALSHED_ACCEPTED, 124);
    CHECK(bytes[3] == 0x80 && bytes[4] == 1 && bytes[5] == 0 && bytes_kept(124));

    only(256, 9, 0x01020304);
    lend();
    IS(sisalshed_compress(8, SISALSHED_PLAIN, 0, given, 256, bytes, 1024, 32), SISALSHED_ACCEPTED, 1024);
    CHECK(bytes[35] == 0 && bytes[36] == 4 && bytes[37] == 3 && bytes[38] == 2 && bytes[39] == 1 && bytes[40] == 0 && bytes_kept(1024));

    ascending(32, 0);
    IS(sisalshed_num_bits(1, SISALSHED_STRICT_NONE, 77, given, 32), SISALSHED_ACCEPTED, 0);
    IS(sisalshed_num_bits(1, SISALSHED_STRICT, 4294967295u, given, 32), SISALSHED_ACCEPTED, 0);
    only(32, 0, 3);
    IS(sisalshed_num_bits(1, SISALSHED_SORTED, 5, given, 32), SISALSHED_ACCEPTED, 32);

    lend();
    IS(sisalshed_decompress(8, SISALSHED_STRICT, 4294967294u, packed, 0, values, 256, 0), SISALSHED_ACCEPTED, 0);
    CHECK(values[0] == 4294967295u && values[1] == 0 && values[2] == 1 && values[255] == 254 && values_kept(256));

    only(32, 5, 3);
    IS(sisalshed_compress(1, SISALSHED_PLAIN, 0, given, 32, bytes, 8, 2), SISALSHED_ACCEPTED, 8);
    only(32, 5, 4);
    lend();
    IS(sisalshed_compress(1, SISALSHED_PLAIN, 0, given, 32, bytes, 8, 2), SISALSHED_TOO_WIDE, 0);
    IS(sisalshed_compress(1, SISALSHED_PLAIN, 0, given, 32, bytes, 0, 0), SISALSHED_TOO_WIDE, 0);
    IS(sisalshed_compress(1, SISALSHED_PLAIN, 0, given, 32, bytes, 7, 2), SISALSHED_NO_ROOM, 0);
    IS(sisalshed_compress(1, SISALSHED_PLAIN, 0, given, 31, bytes, 7, 2), SISALSHED_BAD_BLOCK, 0);
    IS(sisalshed_compress(1, SISALSHED_PLAIN, 0, given, 33, bytes, 8, 2), SISALSHED_BAD_BLOCK, 0);
    IS(sisalshed_compress(1, SISALSHED_PLAIN, 0, given, 33, bytes, 8, 33), SISALSHED_BAD_WIDTH, 0);
    IS(sisalshed_compress(0, SISALSHED_PLAIN, 0, given, 33, bytes, 8, 33), SISALSHED_BAD_LANES, 0);
    IS(sisalshed_decompress(0, SISALSHED_PLAIN, 0, packed, 8, values, 32, 33), SISALSHED_BAD_LANES, 0);
    IS(sisalshed_decompress(1, SISALSHED_PLAIN, 0, packed, 7, values, 31, 33), SISALSHED_BAD_WIDTH, 0);
    IS(sisalshed_decompress(1, SISALSHED_PLAIN, 0, packed, 7, values, 31, 2), SISALSHED_NO_ROOM, 0);
    IS(sisalshed_decompress(1, SISALSHED_PLAIN, 0, packed, 7, values, 32, 2), SISALSHED_CUT_SHORT, 0);
    IS(sisalshed_num_bits(0, SISALSHED_PLAIN, 0, given, 33), SISALSHED_BAD_LANES, 0);
    IS(sisalshed_num_bits(1, SISALSHED_PLAIN, 0, given, 33), SISALSHED_BAD_BLOCK, 0);
    CHECK(bytes_kept(0) && values_kept(0));
}

/* A list written, as body and as file, and read again from both, with room for just what it needs and marks behind it. */
static void there_and_back(size_t lanes, uint32_t kind, uint32_t first, size_t count) {
    lend();
    struct sisalshed_answer body = sisalshed_write_list(lanes, kind, first, given, count, bytes, sizeof bytes);
    CHECK(body.number == SISALSHED_ACCEPTED && bytes_kept(body.length));
    IS(sisalshed_measure_list(lanes, kind, first, given, count), SISALSHED_ACCEPTED, body.length);
    memcpy(packed, bytes, body.length);
    lend();
    IS(sisalshed_read_list(lanes, kind, first, count, packed, body.length, values, count), SISALSHED_ACCEPTED, count);
    CHECK(memcmp(values, given, count * sizeof given[0]) == 0 && values_kept(count));

    struct sisalshed_answer file = sisalshed_write_file(lanes, kind, first, given, count, bytes, sizeof bytes);
    CHECK(file.number == SISALSHED_ACCEPTED && bytes_kept(file.length));
    struct sisalshed_header_answer header = sisalshed_header(bytes, file.length);
    CHECK(header.number == SISALSHED_ACCEPTED && header.lanes == lanes && header.kind == kind);
    CHECK(header.first == first && header.count == count && header.bytes == body.length);
    struct sisalshed_body_answer part = sisalshed_body(bytes, file.length);
    CHECK(part.number == SISALSHED_ACCEPTED && part.length == body.length && part.start + part.length == file.length);
    CHECK(memcmp(bytes + part.start, packed, body.length) == 0);
    lend();
    IS(sisalshed_write_file(lanes, kind, first, given, count, bytes, file.length), SISALSHED_ACCEPTED, file.length);
    IS(sisalshed_read_file(bytes, file.length, values, count), SISALSHED_ACCEPTED, count);
    CHECK(memcmp(values, given, count * sizeof given[0]) == 0 && values_kept(count) && bytes_kept(file.length));

    lend();
    if (count > 0) {
        IS(sisalshed_write_list(lanes, kind, first, given, count, bytes, body.length - 1), SISALSHED_NO_ROOM, 0);
        IS(sisalshed_read_list(lanes, kind, first, count, packed, body.length, values, count - 1), SISALSHED_NO_ROOM, 0);
    }
    IS(sisalshed_write_file(lanes, kind, first, given, count, bytes, file.length - 1), SISALSHED_NO_ROOM, 0);
    CHECK(bytes_kept(0) && values_kept(0));
}

/* Document 01's edges 8 to 13, and every number that lists and files give. */
static void lists(void) {
    const uint8_t zero[1] = {0};
    const uint8_t one[5] = {1, 1, 0, 0, 0};
    const uint8_t fill[5] = {1, 3, 0, 0, 0};
    const uint8_t wide[9] = {2, 1, 0, 0, 0, 0, 0, 0, 0};
    const uint8_t wrong[1] = {33};
    lend();
    ascending(3, 0);
    IS(sisalshed_write_list(4, SISALSHED_STRICT_NONE, 0, given, 3, bytes, 1), SISALSHED_ACCEPTED, 1);
    CHECK(bytes[0] == 0 && bytes_kept(1));
    IS(sisalshed_write_list(4, SISALSHED_STRICT_NONE, 0, given, 0, bytes, 0), SISALSHED_ACCEPTED, 0);
    IS(sisalshed_read_list(4, SISALSHED_STRICT_NONE, 0, 0, zero, 0, values, 0), SISALSHED_ACCEPTED, 0);
    IS(sisalshed_read_list(4, SISALSHED_STRICT_NONE, 0, 0, zero, 1, values, 0), SISALSHED_LEFT_OVER, 0);
    CHECK(values_kept(0));
    IS(sisalshed_read_list(1, SISALSHED_PLAIN, 0, 1, one, 5, values, 1), SISALSHED_ACCEPTED, 1);
    CHECK(values[0] == 1 && values_kept(1));
    IS(sisalshed_read_list(1, SISALSHED_PLAIN, 0, 2, one, 5, values, 2), SISALSHED_ACCEPTED, 2);
    CHECK(values[0] == 1 && values[1] == 0 && values_kept(2));
    lend();
    IS(sisalshed_read_list(1, SISALSHED_PLAIN, 0, 1, fill, 5, values, 1), SISALSHED_BAD_FILL, 0);
    IS(sisalshed_read_list(1, SISALSHED_PLAIN, 0, 1, wide, 9, values, 1), SISALSHED_NOT_LEAST, 0);
    IS(sisalshed_read_list(1, SISALSHED_PLAIN, 0, 1, wrong, 1, values, 1), SISALSHED_BAD_WIDTH, 0);
    IS(sisalshed_read_list(1, SISALSHED_PLAIN, 0, 1, wide, 8, values, 1), SISALSHED_CUT_SHORT, 0);
    IS(sisalshed_read_list(1, SISALSHED_PLAIN, 0, 1, wide, 0, values, 1), SISALSHED_CUT_SHORT, 0);
    IS(sisalshed_read_list(1, SISALSHED_PLAIN, 0, 1, wide, 0, values, 0), SISALSHED_NO_ROOM, 0);
    IS(sisalshed_read_list(1, SISALSHED_PLAIN, 0, 4097, wide, 0, values, 0), SISALSHED_TOO_MANY, 0);
    IS(sisalshed_read_list(1, SISALSHED_PLAIN, 0, (size_t)-1, wide, 0, values, 0), SISALSHED_TOO_MANY, 0);
    IS(sisalshed_read_list(5, SISALSHED_PLAIN, 0, 4097, wide, 0, values, 0), SISALSHED_BAD_LANES, 0);
    IS(sisalshed_read_list(1, SISALSHED_STRICT, 4294967294u, 2, zero, 1, values, 2), SISALSHED_OUT_OF_ORDER, 0);
    IS(sisalshed_read_list(1, SISALSHED_STRICT, 4294967294u, 1, zero, 1, values, 1), SISALSHED_ACCEPTED, 1);
    CHECK(values[0] == 4294967295u && values_kept(1));
    lend();
    given[0] = 4294967295u;
    given[1] = 0;
    IS(sisalshed_write_list(1, SISALSHED_STRICT_NONE, 0, given, 2, bytes, 99), SISALSHED_OUT_OF_ORDER, 0);
    IS(sisalshed_measure_list(1, SISALSHED_STRICT_NONE, 0, given, 2), SISALSHED_OUT_OF_ORDER, 0);
    IS(sisalshed_write_file(1, SISALSHED_STRICT_NONE, 0, given, 2, bytes, 0), SISALSHED_OUT_OF_ORDER, 0);
    IS(sisalshed_write_list(1, SISALSHED_PLAIN, 0, given, 4097, bytes, 0), SISALSHED_TOO_MANY, 0);
    IS(sisalshed_measure_list(1, SISALSHED_PLAIN, 0, given, 4097), SISALSHED_TOO_MANY, 0);
    IS(sisalshed_write_file(1, SISALSHED_PLAIN, 0, given, 4097, bytes, 0), SISALSHED_TOO_MANY, 0);
    IS(sisalshed_write_list(9, SISALSHED_PLAIN, 0, given, 4097, bytes, 0), SISALSHED_BAD_LANES, 0);
    IS(sisalshed_measure_list(9, SISALSHED_PLAIN, 0, given, 4097), SISALSHED_BAD_LANES, 0);
    IS(sisalshed_write_file(9, SISALSHED_PLAIN, 0, given, 4097, bytes, 0), SISALSHED_BAD_LANES, 0);
    CHECK(bytes_kept(0) && values_kept(0));
}

/* Document 01's whole file, and a header that is none. */
static void files(void) {
    const char *whole = "lanes=1\nmode=plain\nfirst=none\ncount=3\nbytes=9\n\n\x02\x39\0\0\0\0\0\0\0";
    const uint8_t *file = (const uint8_t *)whole;
    lend();
    ascending(3, 1);
    IS(sisalshed_write_file(1, SISALSHED_PLAIN, 0, given, 3, bytes, 56), SISALSHED_ACCEPTED, 56);
    CHECK(memcmp(bytes, whole, 56) == 0 && bytes_kept(56));
    lend();
    for (size_t length = 0; length < 56; length++) {
        IS(sisalshed_read_file(file, length, values, 9), SISALSHED_BAD_HEADER, 0);
        struct sisalshed_header_answer header = sisalshed_header(file, length);
        CHECK(header.number == 12 && header.lanes == 0 && header.kind == 0 && header.first == 0 && header.count == 0 && header.bytes == 0);
        struct sisalshed_body_answer body = sisalshed_body(file, length);
        CHECK(body.number == 12 && body.start == 0 && body.length == 0);
    }
    CHECK(values_kept(0));
    IS(sisalshed_read_file(file, 56, values, 2), SISALSHED_NO_ROOM, 0);
    IS(sisalshed_read_file(file, 56, values, 3), SISALSHED_ACCEPTED, 3);
    CHECK(values[0] == 1 && values[1] == 2 && values[2] == 3 && values_kept(3));
    CHECK(sisalshed_body(file, 56).start == 47 && sisalshed_body(file, 56).length == 9);

    /* strict with 4,294,967,295 is written none, and a header says so */
    lend();
    struct sisalshed_answer strict = sisalshed_write_file(8, SISALSHED_STRICT, 4294967295u, given, 3, bytes, sizeof bytes);
    struct sisalshed_header_answer header = sisalshed_header(bytes, strict.length);
    CHECK(strict.number == 0 && header.kind == SISALSHED_STRICT_NONE && header.first == 0 && header.lanes == 8);
}

/* Numbers whose low bits would do. */
static void wide_numbers(void) {
    lend();
    only(256, 0, 0);
    IS(sisalshed_compressed_block_size(257, 1), SISALSHED_BAD_LANES, 0);
    IS(sisalshed_compressed_block_size(1, 256), SISALSHED_BAD_WIDTH, 0);
    IS(sisalshed_compress(257, SISALSHED_PLAIN, 0, given, 32, bytes, 4, 1), SISALSHED_BAD_LANES, 0);
    IS(sisalshed_compress(1, SISALSHED_PLAIN, 0, given, 32, bytes, 4, 257), SISALSHED_BAD_WIDTH, 0);
    IS(sisalshed_decompress(260, SISALSHED_PLAIN, 0, packed, 999, values, 256, 1), SISALSHED_BAD_LANES, 0);
    IS(sisalshed_decompress(4, SISALSHED_PLAIN, 0, packed, 999, values, 256, 0x10001), SISALSHED_BAD_WIDTH, 0);
    IS(sisalshed_num_bits(264, SISALSHED_PLAIN, 0, given, 256), SISALSHED_BAD_LANES, 0);
    IS(sisalshed_measure_list(257, SISALSHED_PLAIN, 0, given, 1), SISALSHED_BAD_LANES, 0);
    IS(sisalshed_write_list((size_t)1 << 32 | 1, SISALSHED_PLAIN, 0, given, 1, bytes, 99), SISALSHED_BAD_LANES, 0);
    IS(sisalshed_write_file((size_t)1 << 32 | 1, SISALSHED_PLAIN, 0, given, 1, bytes, 99), SISALSHED_BAD_LANES, 0);
    IS(sisalshed_read_list((size_t)1 << 32 | 1, SISALSHED_PLAIN, 0, 0, packed, 0, values, 9), SISALSHED_BAD_LANES, 0);
    IS(sisalshed_read_list(1, SISALSHED_PLAIN, 0, (size_t)1 << 32, packed, 0, values, 9), SISALSHED_TOO_MANY, 0);
    CHECK(bytes_kept(0) && values_kept(0));
}

/* The first number is ignored beside plain and beside strict with none. */
static void ignored_first(void) {
    const uint32_t both[2] = {SISALSHED_PLAIN, SISALSHED_STRICT_NONE};
    ascending(200, 3);
    for (int which = 0; which < 2; which++) {
        uint32_t kind = both[which];
        lend();
        struct sisalshed_answer body = sisalshed_write_list(4, kind, 0, given, 200, packed, sizeof packed);
        IS(sisalshed_measure_list(4, kind, 99, given, 200), SISALSHED_ACCEPTED, body.length);
        IS(sisalshed_write_list(4, kind, 99, given, 200, bytes, sizeof bytes), SISALSHED_ACCEPTED, body.length);
        CHECK(memcmp(bytes, packed, body.length) == 0 && bytes_kept(body.length));
        IS(sisalshed_read_list(4, kind, 99, 200, packed, body.length, values, 200), SISALSHED_ACCEPTED, 200);
        CHECK(memcmp(values, given, 200 * sizeof given[0]) == 0 && values_kept(200));
        lend();
        struct sisalshed_answer file = sisalshed_write_file(4, kind, 0, given, 200, packed, sizeof packed);
        IS(sisalshed_write_file(4, kind, 99, given, 200, bytes, sizeof bytes), SISALSHED_ACCEPTED, file.length);
        CHECK(memcmp(bytes, packed, file.length) == 0 && bytes_kept(file.length));
        IS(sisalshed_decompress(4, kind, 99, packed, 0, values, 128, 0), SISALSHED_ACCEPTED, 0);
        CHECK(values[1] == (kind == SISALSHED_PLAIN ? 0u : 1u));
    }
}

/* Memory that begins at an odd byte, and values that begin at any value. */
static void anywhere(void) {
    ascending(300, 7);
    for (size_t off = 1; off < 8; off++) {
        lend();
        struct sisalshed_answer file = sisalshed_write_file(1, SISALSHED_STRICT, 6 + (uint32_t)off, given + off, 290, bytes + off, sizeof bytes - off);
        CHECK(file.number == SISALSHED_ACCEPTED && bytes_kept(off + file.length));
        IS(sisalshed_read_file(bytes + off, file.length, values + off, 290), SISALSHED_ACCEPTED, 290);
        CHECK(memcmp(values + off, given + off, 290 * sizeof given[0]) == 0 && values_kept(off + 290));
        CHECK(bytes[off - 1] == mark(off - 1) && values[off - 1] == 0x01010101u * mark(off - 1));
    }
}

/* What a header says is handed out as it stands, and reading tests it. */
static void long_file(void) {
    static uint8_t file[100100];
    const char *text = "lanes=1\nmode=plain\nfirst=none\ncount=4294967295\nbytes=100000\n\n";
    size_t length = strlen(text) + 100000;
    memcpy(file, text, strlen(text));
    struct sisalshed_header_answer header = sisalshed_header(file, length);
    CHECK(header.number == SISALSHED_ACCEPTED && header.count == 4294967295u && header.bytes == 100000);
    struct sisalshed_body_answer body = sisalshed_body(file, length);
    CHECK(body.number == SISALSHED_ACCEPTED && body.start == strlen(text) && body.length == 100000);
    lend();
    IS(sisalshed_read_file(file, length, values, SISALSHED_MOST_VALUES), SISALSHED_TOO_MANY, 0);
    IS(sisalshed_read_list(1, SISALSHED_PLAIN, 0, 4096, file + body.start, body.length, values, SISALSHED_MOST_VALUES), SISALSHED_LEFT_OVER, 0);
    file[6] = '2';
    header = sisalshed_header(file, length);
    CHECK(header.number == 12 && header.lanes == 0 && header.kind == 0 && header.first == 0 && header.count == 0 && header.bytes == 0);
    body = sisalshed_body(file, length);
    CHECK(body.number == 12 && body.start == 0 && body.length == 0);
    CHECK(values_kept(0));
}

static void names(void) {
    CHECK(strcmp(sisalshed_refusal_name(SISALSHED_ACCEPTED), "ACCEPTED") == 0);
    CHECK(strcmp(sisalshed_refusal_name(SISALSHED_NO_ROOM), "NO_ROOM") == 0);
    CHECK(strcmp(sisalshed_refusal_name(SISALSHED_OUT_OF_ORDER), "OUT_OF_ORDER") == 0);
    CHECK(strcmp(sisalshed_refusal_name(SISALSHED_BAD_HEADER), "BAD_HEADER") == 0);
    CHECK(strcmp(sisalshed_refusal_name(13), "") == 0);
}

int main(void) {
    const size_t lanes[3] = {1, 4, 8};
    const size_t counts[8] = {0, 1, 31, 32, 33, 257, 4095, 4096};
    sizes();
    kinds();
    blocks();
    lists();
    files();
    wide_numbers();
    ignored_first();
    anywhere();
    long_file();
    names();
    for (int which = 0; which < 3; which++) {
        for (int how_many = 0; how_many < 8; how_many++) {
            size_t count = counts[how_many];
            ascending(count, 7);
            there_and_back(lanes[which], SISALSHED_PLAIN, 0, count);
            there_and_back(lanes[which], SISALSHED_SORTED, 7, count);
            there_and_back(lanes[which], SISALSHED_STRICT_NONE, 0, count);
            there_and_back(lanes[which], SISALSHED_STRICT, 6, count);
        }
    }
    printf("%u passed, %u failed\n", passed, failed);
    return failed == 0 ? 0 : 1;
}
