/*
 * Every call with every lent buffer a heap block of exactly its length, so that a memory checker sees a byte read or written outside it.
 * Outputs are lent as malloc gives them, so that it also sees an answer that depends on what they held. Inputs must come back as they
 * were. Lists of all modes and lanes are written and read, whole, damaged, and with an element too little room.
 *
 *     lent ROUNDS
 *     lent output | input
 *
 * Its last line is 'N passed, M failed': one of them for each call. With `output` or `input` it does what a caller must not do, and names
 * one element more than it lends: the checker must see that.
 */
#include <stdio.h>
#include <stdlib.h>
#include <string.h>

#include "sisalshed.h"

static unsigned passed;
static unsigned failed;
static unsigned refused;

static uint64_t state = 1;

/* splitmix64 */
static uint32_t any(void) {
    uint64_t z = (state += 0x9e3779b97f4a7c15u);
    z = (z ^ (z >> 30)) * 0xbf58476d1ce4e5b9u;
    z = (z ^ (z >> 27)) * 0x94d049bb133111ebu;
    return (uint32_t)((z ^ (z >> 31)) >> 32);
}

static size_t below(size_t limit) { return any() % limit; }

/* A heap block of exactly `size` bytes. */
static void *lend(size_t size) {
    void *block = malloc(size);
    if (block == NULL) {
        fprintf(stderr, "lent: no memory\n");
        exit(2);
    }
    return block;
}

static void *copy_of(const void *bytes, size_t size) {
    return memcpy(lend(size), bytes, size);
}

/* An input and a copy that tells whether it is as it was. */
struct input {
    void *block;
    void *kept;
    size_t size;
};

static struct input input_of(const void *bytes, size_t size) {
    struct input input;
    input.block = copy_of(bytes, size);
    input.kept = copy_of(bytes, size);
    input.size = size;
    return input;
}

/* Counts a call: its answer is one that there is, and its input is as it was. */
static void called(uint32_t number, int sound, struct input input) {
    int holds = sound && number <= SISALSHED_BAD_HEADER && memcmp(input.block, input.kept, input.size) == 0;
    passed += holds;
    failed += !holds;
    refused += number != SISALSHED_ACCEPTED;
    free(input.block);
    free(input.kept);
}

static int whole(struct sisalshed_answer answer, size_t most) {
    return answer.number == SISALSHED_ACCEPTED ? answer.length <= most : answer.length == 0;
}

static struct input values_of(const uint32_t *values, size_t count) {
    return input_of(values, count * sizeof values[0]);
}

/* The calls, each with memory of its own. An output of `room` elements is handed to `then`, or thrown away. */
static size_t write_list(size_t lanes, uint32_t kind, uint32_t first, const uint32_t *values, size_t count, size_t room, uint8_t *then) {
    struct input in = values_of(values, count);
    uint8_t *body = (uint8_t *)lend(room);
    struct sisalshed_answer answer = sisalshed_write_list(lanes, kind, first, (const uint32_t *)in.block, count, body, room);
    if (then != NULL) {
        memcpy(then, body, answer.length);
    }
    called(answer.number, whole(answer, room), in);
    free(body);
    return answer.length;
}

static size_t write_file(size_t lanes, uint32_t kind, uint32_t first, const uint32_t *values, size_t count, size_t room, uint8_t *then) {
    struct input in = values_of(values, count);
    uint8_t *file = (uint8_t *)lend(room);
    struct sisalshed_answer answer = sisalshed_write_file(lanes, kind, first, (const uint32_t *)in.block, count, file, room);
    if (then != NULL) {
        memcpy(then, file, answer.length);
    }
    called(answer.number, whole(answer, room), in);
    free(file);
    return answer.length;
}

/* `values` is what must be read if anything is, or null where nobody knows. */
static void read_list(size_t lanes, uint32_t kind, uint32_t first, size_t count, const uint8_t *body, size_t length, size_t room, const uint32_t *values) {
    struct input in = input_of(body, length);
    uint32_t *out = (uint32_t *)lend(room * sizeof out[0]);
    struct sisalshed_answer answer = sisalshed_read_list(lanes, kind, first, count, (const uint8_t *)in.block, length, out, room);
    int sound = whole(answer, room) && (values == NULL || memcmp(out, values, answer.length * sizeof out[0]) == 0);
    called(answer.number, sound, in);
    free(out);
}

static void read_file(const uint8_t *file, size_t length, size_t room, const uint32_t *values) {
    struct input in = input_of(file, length);
    uint32_t *out = (uint32_t *)lend(room * sizeof out[0]);
    struct sisalshed_answer answer = sisalshed_read_file((const uint8_t *)in.block, length, out, room);
    int sound = whole(answer, room) && (values == NULL || memcmp(out, values, answer.length * sizeof out[0]) == 0);
    called(answer.number, sound, in);
    free(out);

    in = input_of(file, length);
    struct sisalshed_header_answer header = sisalshed_header((const uint8_t *)in.block, length);
    called(header.number, header.bytes <= length, in);
    in = input_of(file, length);
    struct sisalshed_body_answer body = sisalshed_body((const uint8_t *)in.block, length);
    called(body.number, body.number == header.number && body.start + body.length == (body.number == 0 ? length : 0), in);
}

/* One block call of each kind with `count` values, `bytes` bytes and `room` values: whatever is asked, nothing else is touched. */
static void block_calls(size_t lanes, uint32_t kind, uint32_t first, const uint32_t *values, size_t count, size_t bytes, size_t room, uint32_t width) {
    struct input in = values_of(values, count);
    struct sisalshed_answer bits = sisalshed_num_bits(lanes, kind, first, (const uint32_t *)in.block, count);
    called(bits.number, whole(bits, SISALSHED_LARGEST_WIDTH), in);

    uint8_t *payload = (uint8_t *)lend(bytes);
    in = values_of(values, count);
    struct sisalshed_answer packed = sisalshed_compress(lanes, kind, first, (const uint32_t *)in.block, count, payload, bytes, width);
    called(packed.number, whole(packed, bytes), in);

    memset(payload, 0x5a, bytes);
    uint32_t *out = (uint32_t *)lend(room * sizeof out[0]);
    in = input_of(payload, bytes);
    struct sisalshed_answer unpacked = sisalshed_decompress(lanes, kind, first, (const uint8_t *)in.block, bytes, out, room, width);
    called(unpacked.number, whole(unpacked, bytes), in);
    free(out);
    free(payload);
}

/* Block calls that are refused, each for another reason, and one at the width of any number. */
static void refused_blocks(size_t lanes, uint32_t kind, uint32_t first, const uint32_t *values) {
    size_t b = SISALSHED_BLOCK(lanes);
    uint32_t width = (uint32_t)below(SISALSHED_LARGEST_WIDTH + 1);
    size_t size = SISALSHED_PAYLOAD(lanes, width);
    block_calls(lanes, kind, first, values, b, size, b, width);
    block_calls(lanes, kind, first, values, b - 1, size, b - 1, width);
    block_calls(lanes, kind, first, values, b, size > 0 ? size - 1 : 0, b, width);
    block_calls(lanes, kind, first, values, 0, 0, 0, width);
    block_calls(lanes, kind, first, values, 1, 1, 1, 33 + any() % 1000);
    block_calls(lanes + 1, kind, first, values, 1, 1, 1, width);
    block_calls(lanes, 4 + any() % 1000, first, values, 1, 1, 1, width);
}

static void block(size_t lanes, uint32_t kind, uint32_t first, const uint32_t *values) {
    size_t b = SISALSHED_BLOCK(lanes);
    struct input in = values_of(values, b);
    struct sisalshed_answer bits = sisalshed_num_bits(lanes, kind, first, (const uint32_t *)in.block, b);
    called(bits.number, bits.length <= SISALSHED_LARGEST_WIDTH, in);

    uint32_t width = (uint32_t)bits.length;
    size_t size = SISALSHED_PAYLOAD(lanes, width);
    uint8_t *payload = (uint8_t *)lend(size);
    in = values_of(values, b);
    struct sisalshed_answer packed = sisalshed_compress(lanes, kind, first, (const uint32_t *)in.block, b, payload, size, width);
    called(packed.number, packed.number == 0 && packed.length == size, in);

    uint32_t *out = (uint32_t *)lend(b * sizeof out[0]);
    in = input_of(payload, size);
    struct sisalshed_answer unpacked = sisalshed_decompress(lanes, kind, first, (const uint8_t *)in.block, size, out, b, width);
    called(unpacked.number, unpacked.number == 0 && memcmp(out, values, b * sizeof out[0]) == 0, in);

    if (size > 0) {
        in = input_of(payload, size - 1);
        unpacked = sisalshed_decompress(lanes, kind, first, (const uint8_t *)in.block, size - 1, out, b, width);
        called(unpacked.number, unpacked.number == SISALSHED_CUT_SHORT, in);
    }
    free(out);
    free(payload);
}

/* One list of any kind, lanes and count: written, read, damaged, read again. */
static void round_of(void) {
    static const size_t all_lanes[3] = {1, 4, 8};
    static uint32_t values[SISALSHED_MOST_VALUES];
    static uint8_t body[SISALSHED_LARGEST_BODY];
    static uint8_t file[SISALSHED_LARGEST_FILE];
    size_t lanes = all_lanes[below(3)];
    uint32_t kind = (uint32_t)below(4);
    uint32_t first = (uint32_t)below(1000);
    size_t b = SISALSHED_BLOCK(lanes);
    size_t counts[6] = {below(4), b - 1, b, b + 1, below(SISALSHED_MOST_VALUES + 1), below(3 * b)};
    size_t count = counts[below(6)];
    uint32_t bits = (uint32_t)below(kind == SISALSHED_PLAIN ? 33 : 20);
    uint32_t value = first;
    for (size_t at = 0; at < (count < b ? b : count); at++) {
        uint32_t step = bits == 0 ? 0 : any() >> (32 - bits);
        value = kind == SISALSHED_PLAIN ? step : value + step + (kind == SISALSHED_SORTED ? 0 : 1);
        values[at] = value;
    }
    block(lanes, kind, first, values);
    refused_blocks(lanes, kind, first, values);

    struct input in = values_of(values, count);
    struct sisalshed_answer measured = sisalshed_measure_list(lanes, kind, first, (const uint32_t *)in.block, count);
    called(measured.number, measured.number == 0 && measured.length <= SISALSHED_LARGEST_BODY, in);
    size_t length = write_list(lanes, kind, first, values, count, measured.length, body);
    size_t file_length = write_file(lanes, kind, first, values, count, SISALSHED_LARGEST_FILE, file);
    write_file(lanes, kind, first, values, count, file_length, file);
    write_file(lanes, kind, first, values, count, file_length - 1, NULL);
    read_list(lanes, kind, first, count, body, length, count, values);
    read_file(file, file_length, count, values);
    if (count > 0) {
        write_list(lanes, kind, first, values, count, length - 1, NULL);
        read_list(lanes, kind, first, count, body, length, count - 1, NULL);
        read_list(lanes, kind, first, count, body, below(length), count, NULL);
        read_list(lanes, kind, first, count - 1, body, length, count - 1, NULL);
        body[below(length)] ^= (uint8_t)(1u << below(8));
        read_list(lanes, kind, first, count, body, length, count, NULL);
    }
    /* lanes and kinds that there are not, a count that is too large, values out of order */
    write_list(lanes + 1, kind, first, values, count, length, NULL);
    write_file(lanes, 4 + any() % 1000, first, values, count, file_length, NULL);
    read_list(lanes + 1, kind, first, count, body, length, count, NULL);
    read_list(lanes, 4 + any() % 1000, first, count, body, length, count, NULL);
    read_list(lanes, kind, first, SISALSHED_MOST_VALUES + 1 + below(9), body, length, count, NULL);
    if (count > 1 && kind != SISALSHED_PLAIN) {
        uint32_t last = values[count - 1];
        values[count - 1] = 0;
        write_list(lanes, kind, first, values, count, SISALSHED_LARGEST_BODY, NULL);
        write_file(lanes, kind, first, values, count, SISALSHED_LARGEST_FILE, NULL);
        values[count - 1] = last;
    }
    read_file(file, below(file_length), count, NULL);
    file[below(file_length)] ^= (uint8_t)(1u << below(8));
    read_file(file, file_length, count, NULL);
}

/* A list of more values than there are in any. */
static void too_many(void) {
    static uint32_t values[SISALSHED_MOST_VALUES + 1];
    write_list(1, SISALSHED_PLAIN, 0, values, SISALSHED_MOST_VALUES + 1, 0, NULL);
    write_file(1, SISALSHED_PLAIN, 0, values, SISALSHED_MOST_VALUES + 1, 0, NULL);
}

/* A lie of one element about the output, or about the input. */
static int past_the_output(void) {
    static const uint32_t values[32] = {1, 2, 3};
    volatile size_t lent = 7; /* volatile, or gcc would see it */
    uint8_t *output = (uint8_t *)lend(lent);
    struct sisalshed_answer answer = sisalshed_compress(1, SISALSHED_PLAIN, 0, values, 32, output, 8, 2);
    free(output);
    return (int)answer.number;
}

static int past_the_input(void) {
    volatile size_t lent = 31;
    uint32_t *input = (uint32_t *)lend(lent * sizeof input[0]);
    memset(input, 0, lent * sizeof input[0]);
    struct sisalshed_answer answer = sisalshed_num_bits(1, SISALSHED_PLAIN, 0, input, 32);
    free(input);
    return (int)answer.number;
}

int main(int argc, char **argv) {
    if (argc > 1 && strcmp(argv[1], "output") == 0) {
        return past_the_output();
    }
    if (argc > 1 && strcmp(argv[1], "input") == 0) {
        return past_the_input();
    }
    long rounds = argc > 1 ? strtol(argv[1], NULL, 10) : 0;
    if (rounds <= 0) {
        fprintf(stderr, "usage: lent ROUNDS | output | input\n");
        return 2;
    }
    for (long at = 0; at < rounds; at++) {
        round_of();
    }
    too_many();
    printf("%u of the calls were refused\n", refused);
    printf("%u passed, %u failed\n", passed, failed);
    return failed == 0 ? 0 : 1;
}
