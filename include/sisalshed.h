/*
 * Sisalshed: packed page lists. The proved calls, for C and C++ on x86-64 (System V calling convention).
 *
 * The library is one file, libsisalshed.a. It uses no heap, keeps nothing between calls, starts no thread, and asks for memcpy and memset
 * alone. Every call ends, and every call takes any numbers, any bytes and room of any length: what it cannot do it refuses, with a number
 * of `enum sisalshed_refusal`, length 0, and the memory that it was lent exactly as it was. What it accepts it does whole, and memory past
 * what it writes is as it was. Memory that is lent to be written need not hold anything before.
 *
 * What a caller owes, and nothing can test:
 * - a pointer is valid for the length beside it, which counts elements and not bytes;
 * - no pointer is null, not even beside length 0 (as malloc(0) or an empty vector's data() may be);
 * - a pointer to uint32_t is aligned for it;
 * - memory that is lent to be written overlaps nothing else that is lent with it;
 * - until the call ends nobody else writes to what is lent: no thread, no interrupt, no DMA.
 */
#ifndef SISALSHED_H
#define SISALSHED_H

#if !defined(__x86_64__)
#error "libsisalshed.a is for x86-64"
#endif

#include <stddef.h>
#include <stdint.h>

#if SIZE_MAX < UINT64_MAX
#error "libsisalshed.a takes lengths of 64 bits"
#endif

#ifdef __cplusplus
extern "C" {
#endif

/* The numbers of refusal. The first that applies is given, in the order that stands with each call. */
enum sisalshed_refusal {
    SISALSHED_ACCEPTED = 0,     /* not refused */
    SISALSHED_BAD_LANES = 1,    /* lanes not 1, 4, 8 */
    SISALSHED_BAD_WIDTH = 2,    /* width over 32 */
    SISALSHED_BAD_BLOCK = 3,    /* values given are not exactly a block */
    SISALSHED_NO_ROOM = 4,      /* output shorter than needed */
    SISALSHED_CUT_SHORT = 5,    /* bytes end before a width or payload does */
    SISALSHED_TOO_WIDE = 6,     /* block does not fit the width */
    SISALSHED_TOO_MANY = 7,     /* count over 4,096 */
    SISALSHED_OUT_OF_ORDER = 8, /* the mode's order is broken */
    SISALSHED_NOT_LEAST = 9,    /* stored width is not the least */
    SISALSHED_BAD_FILL = 10,    /* a filling entry is not 0 */
    SISALSHED_LEFT_OVER = 11,   /* bytes after the last block */
    SISALSHED_BAD_HEADER = 12   /* header is not as it must be, `bytes` is not the body's length, or there is no such kind */
};

/* The kind of a mode. Order is asked by the list and file calls alone: the block calls take any values, and differences wrap. Beside
 * SISALSHED_PLAIN and SISALSHED_STRICT_NONE the first number is ignored. Any other kind is 12, before every other number. In a call the
 * kind stands before the first number: a first number of 0 to 3 in its place is taken as a kind. */
enum sisalshed_kind {
    SISALSHED_PLAIN = 0,       /* values in no order */
    SISALSHED_SORTED = 1,      /* each at least the one before, the first at least the first number */
    SISALSHED_STRICT_NONE = 2, /* each greater than the one before; no bound on the first */
    SISALSHED_STRICT = 3       /* each greater than the one before, the first greater than the first number. As the first number
                                  4,294,967,295 puts no bound on the first value, and a file written with it says none */
};

/* Sizes. The first two are for lanes 1, 4, 8 and widths to 32, and test nothing; sisalshed_compressed_block_size does. */
#define SISALSHED_BLOCK(lanes) (32 * (size_t)(lanes)) /* values of a block: 32, 128, 256 */
#define SISALSHED_PAYLOAD(lanes, width) (4 * (size_t)(lanes) * (size_t)(width)) /* bytes of a packed block */
#define SISALSHED_LARGEST_BLOCK 256     /* values of the largest block */
#define SISALSHED_LARGEST_WIDTH 32      /* bits of the widest entry */
#define SISALSHED_LARGEST_PAYLOAD 1024  /* bytes of the largest packed block */
#define SISALSHED_MOST_VALUES 4096      /* values of the longest list that is written or read */
#define SISALSHED_LARGEST_BODY 16512    /* bytes of the largest body that is written or read */
#define SISALSHED_LARGEST_FILE 16566    /* bytes of the largest file that is written or read. Whoever fetches a file lends one byte
                                           more, so as to see that it is not longer */

/* What the compiler is told of each call: its calling convention, that its answer must be looked at, that no pointer is null, and, for gcc
 * 10 and later, which length belongs to which pointer. It then warns of a length that is over an array that it can see. */
#if defined(__GNUC__)
#define SISALSHED_ANSWERS __attribute__((sysv_abi, warn_unused_result))
#define SISALSHED_LENT __attribute__((sysv_abi, warn_unused_result, nonnull))
#else
#define SISALSHED_ANSWERS
#define SISALSHED_LENT
#endif
#if defined(__GNUC__) && !defined(__clang__) && __GNUC__ >= 10
#define SISALSHED_READS(pointer, length) __attribute__((access(read_only, pointer, length)))
#define SISALSHED_WRITES(pointer, length) __attribute__((access(write_only, pointer, length)))
#else
#define SISALSHED_READS(pointer, length)
#define SISALSHED_WRITES(pointer, length)
#endif

/* An array and its length in elements, as two arguments. It takes an array, not a pointer: gcc -Wall warns of a pointer here. */
#define SISALSHED_ARRAY(array) (array), (sizeof(array) / sizeof((array)[0]))

/* What a call answers. `number` is of enum sisalshed_refusal; where it is not 0, all else is 0. */
struct sisalshed_answer {
    uint32_t number;
    size_t length;
};

/* What the five lines of a list file say: the mode as kind and first number. count and bytes are what the file says. They may be over
 * SISALSHED_MOST_VALUES and SISALSHED_LARGEST_BODY: reading alone tests that. */
struct sisalshed_header_answer {
    uint32_t number;
    uint32_t lanes;
    uint32_t kind;
    uint32_t first; /* 0 beside SISALSHED_PLAIN and SISALSHED_STRICT_NONE */
    uint32_t count;
    uint32_t bytes;
};

/* Where the body stands in a list file: `length` bytes from file + start, to the file's end. They may be more than
 * SISALSHED_LARGEST_BODY. */
struct sisalshed_body_answer {
    uint32_t number;
    size_t start;
    size_t length;
};

/* Answers the bytes of a packed block, 4 x lanes x width. Refuses 1, 2. */
SISALSHED_ANSWERS
struct sisalshed_answer sisalshed_compressed_block_size(size_t lanes, uint32_t width);

/* Packs exactly a block of values at a width. Answers the payload's bytes, and leaves them at the front of `compressed`.
 * Refuses 12 (kind), 1, 2, 3, 4, 6. */
SISALSHED_LENT SISALSHED_READS(4, 5) SISALSHED_WRITES(6, 7)
struct sisalshed_answer sisalshed_compress(size_t lanes, uint32_t kind, uint32_t first,
                                           const uint32_t *decompressed, size_t decompressed_length,
                                           uint8_t *compressed, size_t compressed_length, uint32_t width);

/* Unpacks a block from any bytes that are long enough. Answers the bytes used, 4 x lanes x width, and not how many values there are: it
 * leaves SISALSHED_BLOCK(lanes) values at the front of `decompressed`. Nothing is tested of what the bytes say.
 * Refuses 12 (kind), 1, 2, 4, 5. */
SISALSHED_LENT SISALSHED_READS(4, 5) SISALSHED_WRITES(6, 7)
struct sisalshed_answer sisalshed_decompress(size_t lanes, uint32_t kind, uint32_t first,
                                             const uint8_t *compressed, size_t compressed_length,
                                             uint32_t *decompressed, size_t decompressed_length, uint32_t width);

/* Answers the least width that exactly a block of values fits, as `length`. Refuses 12 (kind), 1, 3. */
SISALSHED_LENT SISALSHED_READS(4, 5)
struct sisalshed_answer sisalshed_num_bits(size_t lanes, uint32_t kind, uint32_t first,
                                           const uint32_t *decompressed, size_t decompressed_length);

/* Answers the bytes of the body that a list has. Refuses 12 (kind), 1, 7, 8. */
SISALSHED_LENT SISALSHED_READS(4, 5)
struct sisalshed_answer sisalshed_measure_list(size_t lanes, uint32_t kind, uint32_t first,
                                               const uint32_t *values, size_t values_length);

/* Writes the body of a list. Answers its bytes, and leaves them at the front of `body`. Refuses 12 (kind), 1, 7, 8, 4. */
SISALSHED_LENT SISALSHED_READS(4, 5) SISALSHED_WRITES(6, 7)
struct sisalshed_answer sisalshed_write_list(size_t lanes, uint32_t kind, uint32_t first,
                                             const uint32_t *values, size_t values_length,
                                             uint8_t *body, size_t body_length);

/* Reads a list of `count` values, if the body is exactly what sisalshed_write_list writes for one. Answers the count, and leaves the
 * values at the front of `values`, which needs room for the count only.
 * Refuses 12 (kind), 1, 7, 4; then block by block 5, 2, 5, 10, 9, 8; at the end 11. */
SISALSHED_LENT SISALSHED_READS(5, 6) SISALSHED_WRITES(7, 8)
struct sisalshed_answer sisalshed_read_list(size_t lanes, uint32_t kind, uint32_t first, size_t count,
                                            const uint8_t *body, size_t body_length,
                                            uint32_t *values, size_t values_length);

/* Answers what the five lines of a list file say. Of the body nothing is tested but its length. Refuses 12. */
SISALSHED_LENT SISALSHED_READS(1, 2)
struct sisalshed_header_answer sisalshed_header(const uint8_t *file, size_t file_length);

/* Answers where the body of a list file stands. Of the body nothing is tested but its length. Refuses 12. */
SISALSHED_LENT SISALSHED_READS(1, 2)
struct sisalshed_body_answer sisalshed_body(const uint8_t *file, size_t file_length);

/* Reads a list file, if it is exactly what sisalshed_write_file writes for a list. Answers the count, and leaves the values at the
 * front of `values`, which needs room for the count only. Refuses 12 (header), then as sisalshed_read_list. */
SISALSHED_LENT SISALSHED_READS(1, 2) SISALSHED_WRITES(3, 4)
struct sisalshed_answer sisalshed_read_file(const uint8_t *file, size_t file_length,
                                            uint32_t *values, size_t values_length);

/* Writes the file of a list, header and body. Answers its bytes, and leaves them at the front of `file`.
 * Refuses 12 (kind), 1, 7, 8, 4. */
SISALSHED_LENT SISALSHED_READS(4, 5) SISALSHED_WRITES(6, 7)
struct sisalshed_answer sisalshed_write_file(size_t lanes, uint32_t kind, uint32_t first,
                                             const uint32_t *values, size_t values_length,
                                             uint8_t *file, size_t file_length);

/* The name of a number of refusal, as in the enum; "" for a number that is none of them. */
static inline const char *sisalshed_refusal_name(uint32_t number) {
    static const char names[13][13] = {"ACCEPTED", "BAD_LANES",    "BAD_WIDTH", "BAD_BLOCK", "NO_ROOM",   "CUT_SHORT", "TOO_WIDE",
                                       "TOO_MANY", "OUT_OF_ORDER", "NOT_LEAST", "BAD_FILL",  "LEFT_OVER", "BAD_HEADER"};
    return number < 13 ? names[number] : "";
}

#ifdef __cplusplus
}
#endif

#endif
