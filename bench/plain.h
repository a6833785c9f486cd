/* The plain versions that the library is measured against, and the table that lets one driver call all three.
 *
 * A plain version is what a programmer writes straight from document 01, with all its refusals and nothing proved: one in
 * C (plain.c), one in Rust (plain.rs). Each function has the signature and the meaning that facetgrove.h gives it. */
#ifndef PLAIN_H
#define PLAIN_H

#include "../include/facetgrove.h"

typedef uint32_t engine_run(const uint32_t *store, size_t store_words, uint16_t *memory, size_t memory_words,
                            const uint16_t *input, size_t input_words, uint16_t *log, size_t log_words,
                            uint16_t registers[8], size_t state[4], uint32_t cycles, size_t told[2]);
typedef uint32_t interpreter_run(uint16_t *memory, size_t memory_words, const uint16_t *input, size_t input_words,
                                 uint16_t *log, size_t log_words, uint16_t registers[3], size_t state[2],
                                 uint32_t instructions, uint64_t told[2]);
typedef uint32_t micro_assemble(const uint8_t *text, size_t text_bytes, uint32_t *store, size_t store_words);
typedef uint32_t micro_list(const uint32_t *store, size_t store_words, uint8_t *room, size_t room_bytes,
                            size_t told[2]);
typedef uint32_t image_read(const uint8_t *image, size_t image_bytes, uint16_t *memory, size_t memory_words);
typedef uint32_t image_write(const uint16_t *memory, size_t memory_words, uint8_t *room, size_t room_bytes,
                             size_t length[1]);

engine_run plain_c_engine_run, plain_rust_engine_run;
interpreter_run plain_c_interpreter_run, plain_rust_interpreter_run;
micro_assemble plain_c_micro_assemble, plain_rust_micro_assemble;
micro_list plain_c_micro_list, plain_rust_micro_list;
image_read plain_c_image_read, plain_rust_image_read;
image_write plain_c_image_write, plain_rust_image_write;

struct version {
    const char *name;
    engine_run *engine_run;
    interpreter_run *interpreter_run;
    micro_assemble *micro_assemble;
    micro_list *micro_list;
    image_read *image_read;
    image_write *image_write;
};

enum { LIBRARY, PLAIN_C, PLAIN_RUST, VERSIONS };

static const struct version versions[VERSIONS] = {
    {"library", facetgrove_engine_run, facetgrove_interpreter_run, facetgrove_micro_assemble, facetgrove_micro_list,
     facetgrove_image_read, facetgrove_image_write},
    {"plain C", plain_c_engine_run, plain_c_interpreter_run, plain_c_micro_assemble, plain_c_micro_list,
     plain_c_image_read, plain_c_image_write},
    {"plain Rust", plain_rust_engine_run, plain_rust_interpreter_run, plain_rust_micro_assemble, plain_rust_micro_list,
     plain_rust_image_read, plain_rust_image_write},
};

#endif
