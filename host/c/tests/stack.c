/*
 * How much stack each call takes: it is run on a stack of its own that was painted before, and the paint that is gone is counted.
 * A line for each call, its name and the bytes; the last line is the most of all. x86-64 with glibc.
 */
#include <stdio.h>
#include <string.h>
#include <ucontext.h>

#include "sisalshed.h"

#define STACK 65536
#define PAINT 0xc3
/* A list whose last block is not full, so that every part of reading and writing is gone through. */
#define COUNT (SISALSHED_MOST_VALUES - 1)

static uint8_t stack[STACK];
static ucontext_t caller;
static uint32_t values[SISALSHED_MOST_VALUES];
static uint32_t out[SISALSHED_MOST_VALUES];
static uint8_t body[SISALSHED_LARGEST_BODY];
static uint8_t file[SISALSHED_LARGEST_FILE];
static size_t file_length;
static size_t body_length;
static size_t lanes;
static uint32_t kind;
static size_t most;
static volatile size_t sink;

static void nothing(void) {}
static void compressed_block_size(void) { sink = sisalshed_compressed_block_size(lanes, 32).length; }
static void compress(void) { sink = sisalshed_compress(lanes, kind, 0, values, SISALSHED_BLOCK(lanes), body, sizeof body, 32).length; }
static void decompress(void) { sink = sisalshed_decompress(lanes, kind, 0, body, sizeof body, out, SISALSHED_MOST_VALUES, 32).length; }
static void num_bits(void) { sink = sisalshed_num_bits(lanes, kind, 0, values, SISALSHED_BLOCK(lanes)).length; }
static void measure_list(void) { sink = sisalshed_measure_list(lanes, kind, 0, values, COUNT).length; }
static void write_list(void) { body_length = sisalshed_write_list(lanes, kind, 0, values, COUNT, SISALSHED_ARRAY(body)).length; }
static void read_list(void) { sink = sisalshed_read_list(lanes, kind, 0, COUNT, body, body_length, SISALSHED_ARRAY(out)).length; }
static void write_file(void) { file_length = sisalshed_write_file(lanes, kind, 0, values, COUNT, SISALSHED_ARRAY(file)).length; }
static void read_file(void) { sink = sisalshed_read_file(file, file_length, SISALSHED_ARRAY(out)).length; }
static void header(void) { sink = sisalshed_header(file, file_length).count; }
static void body_of(void) { sink = sisalshed_body(file, file_length).length; }

/* The bytes of stack that `call` took. */
static size_t depth(void (*call)(void)) {
    ucontext_t callee;
    memset(stack, PAINT, sizeof stack);
    getcontext(&callee);
    callee.uc_stack.ss_sp = stack;
    callee.uc_stack.ss_size = sizeof stack;
    callee.uc_link = &caller;
    makecontext(&callee, call, 0);
    swapcontext(&caller, &callee);
    size_t at = 0;
    while (at < sizeof stack && stack[at] == PAINT) {
        at++;
    }
    return sizeof stack - at;
}

/* The most that it took over all lanes and kinds, less what an empty function takes. */
static void measure(const char *name, void (*call)(void)) {
    static const size_t all_lanes[3] = {1, 4, 8};
    size_t deepest = 0;
    for (int which = 0; which < 3; which++) {
        for (kind = 0; kind < 5; kind++) {
            lanes = all_lanes[which];
            write_list();
            write_file();
            size_t here = depth(call);
            deepest = here > deepest ? here : deepest;
        }
    }
    deepest -= depth(nothing);
    most = deepest > most ? deepest : most;
    printf("%s %lu\n", name, (unsigned long)deepest);
}

int main(void) {
    for (size_t at = 0; at < SISALSHED_MOST_VALUES; at++) {
        values[at] = 1000003u * (uint32_t)(at + 1);
    }
    measure("sisalshed_compressed_block_size", compressed_block_size);
    measure("sisalshed_compress", compress);
    measure("sisalshed_decompress", decompress);
    measure("sisalshed_num_bits", num_bits);
    measure("sisalshed_measure_list", measure_list);
    measure("sisalshed_write_list", write_list);
    measure("sisalshed_read_list", read_list);
    measure("sisalshed_header", header);
    measure("sisalshed_body", body_of);
    measure("sisalshed_read_file", read_file);
    measure("sisalshed_write_file", write_file);
    printf("most %lu\n", (unsigned long)most);
    return 0;
}
