/* A C caller: LOCO 5, STOR 4094 puts one weight into the log. Build it with
 *
 *     ./build-library && cc -Iinclude examples/caller.c target/lib/libfacetgrove.a -o target/caller && target/caller
 */
#include <stdio.h>
#include "facetgrove.h"

int main(void) {
    uint16_t memory[4096] = {0x9005, 0x1FFE}, log[8] = {0}, none[1] = {0}, registers[3] = {0};
    size_t state[2] = {0};
    uint64_t told[2];
    uint32_t answer = facetgrove_interpreter_run(memory, 4096, none, 0, log, 8, registers, state, 2, told);
    printf("answer %u done %d cycles %d log %d: %d\n", (unsigned)answer, (int)told[0], (int)told[1],
           (int)state[FACETGROVE_COUNT], log[0]);
    return answer == 0 ? 0 : 1;
}
