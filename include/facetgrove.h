/* Facetgrove for C: the plant's cycle engine, interpreter, microassembler, lister and memory images.
 *
 * Link target/lib/libfacetgrove.a, which ./build-library proves and builds; it needs no other library. A complete caller:
 *
 *    #include <stdio.h>
 *    #include "facetgrove.h"
 *
 *    int main(void) {
 *        uint16_t memory[4096] = {0x9005, 0x1FFE}, log[8] = {0}, none[1] = {0}, registers[3] = {0};
 *        size_t state[2] = {0};
 *        uint64_t told[2];
 *        uint32_t answer = facetgrove_interpreter_run(memory, 4096, none, 0, log, 8, registers, state, 2, told);
 *        printf("answer %u done %d cycles %d log %d: %d\n", (unsigned)answer, (int)told[0], (int)told[1],
 *               (int)state[FACETGROVE_COUNT], log[0]);
 *        return answer == 0 ? 0 : 1;
 *    }
 *
 * It carries out LOCO 5, STOR 4094 and prints `answer 0 done 2 cycles 16 log 1: 5` (examples/caller.c).
 *
 * Every function takes any values and either does the work or answers a number of document 01 (Answer numbers):
 *
 *    0  all done
 *    1  memory is not 4,096 words, or the control store not 64
 *    2  the input place is past the input's end, or the log count past the log's length
 *    3  CP, PP or REM is above 4,095, the control line is above 63, or half done is above 2
 *    4  a control word of 8,388,608 or more, or with RD and WR both 1; the first such line is named
 *    5  a cycle, or instruction, still asked for would write to 4094 with the log full
 *   10  micro text over 8,192 bytes                 16  listing room under 2,816 bytes
 *   11  a 65th line                                 17  a listing would pass the room's end
 *   12  line number missing, with a leading zero,   20  image length not a multiple of 4
 *       or not the next from 0                      21  record address above 4,091
 *   13  outside the grammar                         22  address not above the one before
 *   14  a target from 64 to 99                      23  record value 0
 *   15  a kind of part given twice, rd with wr,     24  image room under 16,368 bytes
 *       a test with no operation, alu with no test
 *
 * What each number leaves behind stands with each function. Pointers must be valid for the lengths that stand with
 * them (for a length of 0 any pointer that is not null serves), and what a function may write must overlap nothing
 * else that it is handed. Nothing is kept between calls, and calls on different data may run side by side. */
#ifndef FACETGROVE_H
#define FACETGROVE_H

#include <stddef.h>
#include <stdint.h>

#ifdef __cplusplus
extern "C" {
#endif

/* Indices in `registers`. The engine has all eight, the interpreter the first three. */
enum {
    FACETGROVE_CP,
    FACETGROVE_AC,
    FACETGROVE_PP,
    FACETGROVE_RI,
    FACETGROVE_RT,
    FACETGROVE_MASC,
    FACETGROVE_REM,
    FACETGROVE_RDM,
    FACETGROVE_REGISTERS
};

/* Indices in `state`. The engine has all four, the interpreter the first two.
 * Half done is 0 for nothing, 1 for a read, 2 for a write. */
enum {
    FACETGROVE_PLACE,
    FACETGROVE_COUNT,
    FACETGROVE_LINE,
    FACETGROVE_HALF,
    FACETGROVE_STATE
};

/* A run of `cycles` cycles of the engine. Answers 0 to 5, tested in the order 1, 2, 3, 4 before any cycle.
 * 0 and 5 leave memory, log, registers and state as the cycles carried out left them; 5 leaves them as they were before
 * the refused cycle. 1 to 4 leave all of these as found. `told` is always set: told[0] is the number of cycles carried
 * out, told[1] the line that answer 4 names, else 0. */
uint32_t facetgrove_engine_run(const uint32_t *store, size_t store_words,
                               uint16_t *memory, size_t memory_words,
                               const uint16_t *input, size_t input_words,
                               uint16_t *log, size_t log_words,
                               uint16_t registers[8], size_t state[4],
                               uint32_t cycles, size_t told[2]);

/* One press on the operator's panel: the engine's run of 1 on the same values, refusals included. */
uint32_t facetgrove_press(uint16_t registers[8], size_t state[4],
                          uint16_t *memory, size_t memory_words,
                          const uint16_t *input, size_t input_words,
                          uint16_t *log, size_t log_words,
                          const uint32_t *store, size_t store_words,
                          size_t told[2]);

/* A run of `instructions` instructions of the interpreter. Answers 0 to 3 and 5, tested in the order 1, 2, 3 before any
 * instruction. What is left is as for the engine, 5 leaving what stood before the whole refused instruction, input place
 * included. `told` is always set: told[0] is the number of instructions carried out, told[1] the sum of their cycles. */
uint32_t facetgrove_interpreter_run(uint16_t *memory, size_t memory_words,
                                    const uint16_t *input, size_t input_words,
                                    uint16_t *log, size_t log_words,
                                    uint16_t registers[3], size_t state[2],
                                    uint32_t instructions, uint64_t told[2]);

/* Assembles micro text. Answers 0, 1, 10 to 15. 0 sets the 64 words of the store, any other leaves it as found. */
uint32_t facetgrove_micro_assemble(const uint8_t *text, size_t text_bytes, uint32_t *store, size_t store_words);

/* Lists a control store at the start of the room. Answers 0, 1, 16, 4, 17, tested in this order. 0 sets told[0] to the
 * listing's length, and the room past it stays as found; any other leaves the room as found and sets told[0] to 0.
 * told[1] is the line that answer 4 names, else 0. */
uint32_t facetgrove_micro_list(const uint32_t *store, size_t store_words, uint8_t *room, size_t room_bytes,
                               size_t told[2]);

/* Reads an image. Answers 0, 1, 20 to 23. 0 sets all 4,096 words of memory, any other leaves it as found. */
uint32_t facetgrove_image_read(const uint8_t *image, size_t image_bytes, uint16_t *memory, size_t memory_words);

/* Writes the image of a memory at the start of the room. Answers 0, 1, 24. 0 sets length[0] to the image's length, and
 * the room past it stays as found; any other leaves the room as found and sets length[0] to 0. */
uint32_t facetgrove_image_write(const uint16_t *memory, size_t memory_words, uint8_t *room, size_t room_bytes,
                                size_t length[1]);

/* Sets the store to the printed microprogram: Figure 5.10, lines 0 to 54, then zero words. */
void facetgrove_printed_store(uint32_t store[64]);

#ifdef __cplusplus
}
#endif

#endif
