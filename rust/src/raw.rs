//! The C interface as `include/facetgrove.h` declares it, for callers who hold their data in its layout already.
//!
//! Every function takes any values. Pointers must be valid for the lengths that stand with them, none may be null, and
//! what a function may write must overlap nothing else that it is handed.

extern "C" {
    /// A run of the engine. `state` is place, count, line and half done; `told` is cycles done and the line of answer 4.
    pub fn facetgrove_engine_run(
        store: *const u32,
        store_words: usize,
        memory: *mut u16,
        memory_words: usize,
        input: *const u16,
        input_words: usize,
        log: *mut u16,
        log_words: usize,
        registers: *mut [u16; 8],
        state: *mut [usize; 4],
        cycles: u32,
        told: *mut [usize; 2],
    ) -> u32;

    /// One press on the operator's panel: the engine's run of 1 on the same values.
    pub fn facetgrove_press(
        registers: *mut [u16; 8],
        state: *mut [usize; 4],
        memory: *mut u16,
        memory_words: usize,
        input: *const u16,
        input_words: usize,
        log: *mut u16,
        log_words: usize,
        store: *const u32,
        store_words: usize,
        told: *mut [usize; 2],
    ) -> u32;

    /// A run of the interpreter. `registers` is CP, AC, PP; `state` is place and count; `told` is instructions and cycles.
    pub fn facetgrove_interpreter_run(
        memory: *mut u16,
        memory_words: usize,
        input: *const u16,
        input_words: usize,
        log: *mut u16,
        log_words: usize,
        registers: *mut [u16; 3],
        state: *mut [usize; 2],
        instructions: u32,
        told: *mut [u64; 2],
    ) -> u32;

    /// Assembles micro text into the store.
    pub fn facetgrove_micro_assemble(text: *const u8, text_bytes: usize, store: *mut u32, store_words: usize) -> u32;

    /// Lists a control store; `told` is the listing's length and the line of answer 4.
    pub fn facetgrove_micro_list(
        store: *const u32,
        store_words: usize,
        room: *mut u8,
        room_bytes: usize,
        told: *mut [usize; 2],
    ) -> u32;

    /// Reads an image into memory.
    pub fn facetgrove_image_read(image: *const u8, image_bytes: usize, memory: *mut u16, memory_words: usize) -> u32;

    /// Writes the image of a memory; `length` is the image's length.
    pub fn facetgrove_image_write(
        memory: *const u16,
        memory_words: usize,
        room: *mut u8,
        room_bytes: usize,
        length: *mut [usize; 1],
    ) -> u32;

    /// Sets the store to the printed microprogram.
    pub fn facetgrove_printed_store(store: *mut [u32; 64]);
}
