/* Measures the library against the two plain versions, all in one process and on the same inputs.
 *
 *     bench TIMES PLACE ROUNDS        adds its times to the file, and prints the table of all times in it
 *
 * First each input is run by all three and every answer, count and lent word is compared; a difference ends the program
 * with status 1. Then the three take turns, round by round, and the best time of each counts, so that other work on the
 * machine meets all alike.
 *
 * Where its code lies makes a loop faster or slower by up to a half, which says nothing of the code itself. So `run`
 * links this program four times, each with the code 16 bytes further on than in the one before, and calls the four in
 * turn, so that a slow minute spoils none; the best time over all of them counts. PLACE, from 0 to 3, says which it is. */
#define _POSIX_C_SOURCE 200809L
#include "plain.h"

#include <stdio.h>
#include <stdlib.h>
#include <string.h>
#include <time.h>

enum { MEMORY_WORDS = 4096, RECORDED_WORDS = 4092, INPUT_PORT = 4092, STORE_WORDS = 64, CODES = 16 };
enum { INPUT_WORDS = 262144, LOG_WORDS = 65536, ROOM_BYTES = 16368, LONGEST_TEXT = 8192, STACK_TOP = 4000 };
enum { RUN_CYCLES = 1000000, RUN_INSTRUCTIONS = 1000000, TEXT_CALLS = 200, IMAGE_CALLS = 200 };
enum { PLACES = 4, MOST_WORKS = 32 };

/* Seeds whose runs do not end in a small loop: `describe_mix` and `describe_lines` print what they visit to the last. */
enum { MIX_SEED = 2, LINES_SEED = 33292, LAST = 100000 };

/* The mix: blocks of random instructions, the last of them routines; behind them the data, then the stack. */
enum { BLOCK = 16, BLOCKS = 192, ROUTINES = 32, DATA = BLOCK * BLOCKS, DATA_WORDS = 896 };

enum { LOAD, STOR, ADDD, SUBD, ADDL, SUBL, JZER, JNEG, JUMP, LOCO, CALL, RETN, PUSH, PSHI, POP, POPI };

/* Everything that a call may write: set to the same start before each round. */
struct lent {
    uint16_t memory[MEMORY_WORDS], log[LOG_WORDS], registers[8];
    size_t state[4], told[2];
    uint64_t told_wide[2];
    uint32_t store[STORE_WORDS], answer;
    uint8_t room[ROOM_BYTES];
};

/* One line of the table: a call, what it only reads, and where what it writes starts. */
struct work {
    const char *what, *input, *unit;
    void (*call)(const struct version *v, const struct work *work, struct lent *lent);
    uint32_t store[STORE_WORDS], times;
    uint8_t bytes[ROOM_BYTES];
    size_t length;
    double amount, best[VERSIONS], at_place[VERSIONS][PLACES];
    struct lent start;
};

static struct work works[MOST_WORKS];
static size_t work_count;
static const struct work *mix_work, *lines_work;
static struct lent lent[VERSIONS];
static uint16_t input_words[INPUT_WORDS];

/* The calls. */

static void call_engine(const struct version *v, const struct work *work, struct lent *l)
{
    l->answer = v->engine_run(work->store, STORE_WORDS, l->memory, MEMORY_WORDS, input_words, INPUT_WORDS, l->log, LOG_WORDS,
                              l->registers, l->state, work->times, l->told);
}

static void call_interpreter(const struct version *v, const struct work *work, struct lent *l)
{
    l->answer = v->interpreter_run(l->memory, MEMORY_WORDS, input_words, INPUT_WORDS, l->log, LOG_WORDS, l->registers, l->state,
                                   work->times, l->told_wide);
}

static void call_assembler(const struct version *v, const struct work *work, struct lent *l)
{
    for (uint32_t i = 0; i < work->times; i++)
        l->answer |= v->micro_assemble(work->bytes, work->length, l->store, STORE_WORDS);
}

static void call_lister(const struct version *v, const struct work *work, struct lent *l)
{
    for (uint32_t i = 0; i < work->times; i++)
        l->answer |= v->micro_list(work->store, STORE_WORDS, l->room, ROOM_BYTES, l->told);
}

static void call_reader(const struct version *v, const struct work *work, struct lent *l)
{
    for (uint32_t i = 0; i < work->times; i++)
        l->answer |= v->image_read(work->bytes, work->length, l->memory, MEMORY_WORDS);
}

static void call_writer(const struct version *v, const struct work *work, struct lent *l)
{
    for (uint32_t i = 0; i < work->times; i++)
        l->answer |= v->image_write(l->memory, MEMORY_WORDS, l->room, ROOM_BYTES, l->told);
}

/* The inputs. */

/* Marsaglia's xorshift: the same numbers on every machine. */
static uint32_t random_state;

static uint32_t random_number(void)
{
    random_state ^= random_state << 13;
    random_state ^= random_state >> 17;
    random_state ^= random_state << 5;
    return random_state;
}

static uint32_t random_below(uint32_t limit)
{
    return (random_number() >> 8) % limit;
}

static uint32_t random_control_word(void)
{
    uint32_t word = random_number() >> 9;
    return (word >> 8 & 3) == 3 ? word ^ 1u << 8 : word;
}

static struct work *new_work(const char *what, const char *input, const char *unit)
{
    struct work *work = &works[work_count++];
    work->what = what;
    work->input = input;
    work->unit = unit;
    return work;
}

static uint16_t instruction(unsigned code, unsigned x)
{
    return code << 12 | (x & 4095);
}

/* Mostly a word of the data, now and then a port. */
static uint16_t random_address(void)
{
    return random_below(64) == 0 ? INPUT_PORT + random_below(4) : DATA + random_below(DATA_WORDS);
}

/* Up to four instructions that leave the stack's height as it was; gives how many. Routines call none. */
static unsigned put_item(uint16_t *at, int in_routine)
{
    unsigned first = random_below(in_routine ? 9 : 10);
    switch (first) {
    case LOAD: case STOR: case ADDD: case SUBD:
        at[0] = instruction(first, random_address());
        return 1;
    case ADDL: case SUBL:
        at[0] = instruction(first, random_address() - STACK_TOP);
        return 1;
    case 6:
        at[0] = instruction(LOCO, random_below(4096));
        return 1;
    case 7:
        at[0] = instruction(PUSH, 0);
        at[1] = instruction(LOAD, random_address());
        at[2] = instruction(POP, 0);
        return 3;
    case 8:
        at[0] = instruction(LOCO, random_address());
        at[1] = instruction(PSHI, 0);
        at[2] = instruction(LOCO, random_address());
        at[3] = instruction(POPI, 0);
        return 4;
    default:
        at[0] = instruction(CALL, (BLOCKS - 1 - random_below(ROUTINES)) * BLOCK);
        return 1;
    }
}

/* Which block comes next depends on a word of the input, so that the run does not repeat itself. */
static void put_block(uint16_t *at, int is_routine)
{
    unsigned filled = 0;
    while (filled < BLOCK - 6)
        filled += put_item(at + filled, is_routine);
    at[filled] = instruction(ADDD, INPUT_PORT);
    at[filled + 1] = is_routine ? instruction(RETN, 0)
                                : instruction(random_below(4) == 0 ? JZER : JNEG, random_below(BLOCKS - ROUTINES) * BLOCK);
    at[filled + 2] = instruction(JUMP, random_below(BLOCKS - ROUTINES) * BLOCK);
}

static void make_mix(uint16_t memory[MEMORY_WORDS])
{
    random_state = MIX_SEED;
    for (unsigned block = 0; block < BLOCKS; block++)
        put_block(memory + block * BLOCK, block >= BLOCKS - ROUTINES);
    for (unsigned i = 0; i < DATA_WORDS; i++)
        memory[DATA + i] = random_number() >> 16;
    for (unsigned i = 0; i < INPUT_WORDS; i++)
        input_words[i] = random_number() >> 16;
}

/* A machine program for the engine, over the printed microprogram, and for the interpreter, whose work is given. */
static const struct work *add_program(const char *name, const uint16_t *memory, size_t words)
{
    struct work *engine = new_work("engine", name, "ns/cycle");
    struct work *interpreter = new_work("interpreter", name, "ns/instruction");
    engine->call = call_engine;
    engine->times = RUN_CYCLES;
    interpreter->call = call_interpreter;
    interpreter->times = RUN_INSTRUCTIONS;
    facetgrove_printed_store(engine->store);
    for (struct work *work = engine; work <= interpreter; work++) {
        memcpy(work->start.memory, memory, words * sizeof *memory);
        work->start.registers[FACETGROVE_PP] = STACK_TOP;
        work->amount = work->times;
    }
    engine->start.registers[FACETGROVE_MASC] = 4095;
    return interpreter;
}

static void add_programs(void)
{
    /* LOCO 1; ADDD 6; STOR 6; JNEG 5; JUMP 0; JUMP 0 */
    static const uint16_t sums[] = {0x9001, 0x2006, 0x1006, 0x7005, 0x8000, 0x8000};
    /* LOCO 12; PUSH; PSHI; POPI; POP; CALL 7; JUMP 0; PUSH; PSHI; POPI; POP; RETN; a word */
    static const uint16_t calls[] = {0x900c, 0xc000, 0xd000, 0xf000, 0xe000, 0xa007, 0x8000,
                                     0xc000, 0xd000, 0xf000, 0xe000, 0xb000, 0x1234};
    /* LOCO 1000; SUBD 4; JZER 0; JUMP 1; 1 */
    static const uint16_t counts[] = {0x93e8, 0x3004, 0x6000, 0x8001, 1};
    static uint16_t mix[MEMORY_WORDS];
    make_mix(mix);
    add_program("p0 sums", sums, sizeof sums / sizeof *sums);
    add_program("p1 calls and stack", calls, sizeof calls / sizeof *calls);
    add_program("p2 counting", counts, sizeof counts / sizeof *counts);
    mix_work = add_program("p3 random mix", mix, MEMORY_WORDS);
}

static void add_random_store(void)
{
    struct work *work = new_work("engine", "random control words", "ns/cycle");
    random_state = LINES_SEED;
    for (size_t k = 0; k < STORE_WORDS; k++)
        work->store[k] = random_control_word();
    for (size_t i = 0; i < MEMORY_WORDS; i++)
        work->start.memory[i] = random_number() >> 16;
    work->call = call_engine;
    work->times = RUN_CYCLES;
    work->amount = RUN_CYCLES;
    lines_work = work;
}

static void add_text(const char *name, const uint8_t *text, size_t length)
{
    struct work *work = new_work("micro text", name, "MB/s of text");
    memcpy(work->bytes, text, length);
    work->length = length;
    work->call = call_assembler;
    work->times = TEXT_CALLS;
    work->amount = (double)TEXT_CALLS * length;
}

/* 64 lines of 128 bytes, 8,192 in all: brackets, and spaces wherever they may stand. */
static void add_longest_text(void)
{
    static const char *const names[] = {"cp", "ac", "pp", "ri", "rt", "masc", "rem", "rdm"};
    static uint8_t text[LONGEST_TEXT + 1];
    for (unsigned line = 0; line < STORE_WORDS; line++) {
        char *at = (char *)text + line * 128;
        int length = snprintf(at, 129, "  %u  :  %s  :=  (  %s  +  %s  )  ;  rd  ;  if  n  then  goto  %u  ;", line,
                              names[line % 8], names[line / 8], names[line % 7], 63 - line);
        memset(at + length, ' ', 127 - length);
        at[127] = '\n';
    }
    add_text("8,192 bytes, many spaces", text, LONGEST_TEXT);
}

static void add_listing(const char *name, const uint32_t store[STORE_WORDS])
{
    struct work *work = new_work("lister", name, "MB/s of text");
    memcpy(work->store, store, sizeof work->store);
    work->call = call_lister;
    work->times = TEXT_CALLS;
    plain_c_micro_list(store, STORE_WORDS, lent[0].room, ROOM_BYTES, lent[0].told);
    work->amount = (double)TEXT_CALLS * lent[0].told[0];
}

/* Random words become normal ones by the way through text. */
static void add_texts(void)
{
    uint32_t printed[STORE_WORDS], normal[STORE_WORDS];
    uint8_t text[ROOM_BYTES];
    size_t told[2];
    facetgrove_printed_store(printed);
    plain_c_micro_list(printed, STORE_WORDS, text, ROOM_BYTES, told);
    add_text("listing of the printed store", text, told[0]);
    add_longest_text();
    add_listing("printed store", printed);
    random_state = LINES_SEED;
    for (size_t k = 0; k < STORE_WORDS; k++)
        normal[k] = random_control_word();
    plain_c_micro_list(normal, STORE_WORDS, text, ROOM_BYTES, told);
    plain_c_micro_assemble(text, told[0], normal, STORE_WORDS);
    add_listing("random normal words", normal);
}

static void add_image(const char *name, unsigned records)
{
    struct work *reader = new_work("image reader", name, "GB/s of memory");
    struct work *writer = new_work("image writer", name, "GB/s of memory");
    uint16_t *memory = writer->start.memory;
    for (unsigned left = records; left > 0;) {
        uint32_t address = records == RECORDED_WORDS ? left - 1 : random_below(RECORDED_WORDS);
        if (memory[address] == 0) {
            memory[address] = 1 + random_below(65535);
            left--;
        }
    }
    plain_c_image_write(memory, MEMORY_WORDS, reader->bytes, ROOM_BYTES, &reader->length);
    reader->call = call_reader;
    writer->call = call_writer;
    for (struct work *work = reader; work <= writer; work++) {
        work->times = IMAGE_CALLS;
        work->amount = (double)IMAGE_CALLS * MEMORY_WORDS * sizeof *memory;
    }
}

/* What the random inputs are like. */

static void describe_mix(const struct work *work)
{
    static struct lent l;
    static uint8_t seen[MEMORY_WORDS];
    struct work one = *work;
    unsigned codes[CODES] = {0}, places = 0;
    one.times = 1;
    l = work->start;
    for (uint32_t i = 0; i < work->times; i++) {
        uint16_t cp = l.registers[FACETGROVE_CP];
        places += i >= work->times - LAST && seen[cp] == 0;
        seen[cp] = i >= work->times - LAST;
        codes[l.memory[cp] >> 12]++;
        call_interpreter(&versions[PLAIN_C], &one, &l);
    }
    printf("%s: %u instructions, the last %u at %u different addresses; %zu of 262,144 input words\n  taken, %zu words "
           "logged; of 1,000 instructions, by code:", work->input, work->times, LAST, places, l.state[FACETGROVE_PLACE],
           l.state[FACETGROVE_COUNT]);
    for (unsigned code = 0; code < CODES; code++)
        printf(" %.0f", codes[code] * 1000.0 / work->times);
    printf("\n");
}

static void describe_lines(const struct work *work)
{
    static struct lent l;
    struct work one = *work;
    uint64_t seen = 0;
    one.times = 1;
    l = work->start;
    for (uint32_t i = 0; i < work->times; i++) {
        if (i >= work->times - LAST)
            seen |= UINT64_C(1) << l.state[FACETGROVE_LINE];
        call_engine(&versions[PLAIN_C], &one, &l);
    }
    printf("%s: %u cycles, the last %u on %d different lines; %zu words logged\n", work->input, work->times, LAST,
           __builtin_popcountll(seen), l.state[FACETGROVE_COUNT]);
}

/* The measurement. */

/* Whether all three do the same on an input, and refuse nothing. */
static int agree(const struct work *work)
{
    for (size_t v = 0; v < VERSIONS; v++) {
        lent[v] = work->start;
        work->call(&versions[v], work, &lent[v]);
        if (lent[v].answer == 0 && memcmp(&lent[v], &lent[0], sizeof lent[v]) == 0)
            continue;
        printf("%s, %s: %s differs from %s, or refuses (answer %u)\n", work->what, work->input, versions[v].name,
               versions[0].name, lent[v].answer);
        return 0;
    }
    return 1;
}

/* Nanoseconds on the processor: waiting while others have it does not count. */
static double now(void)
{
    struct timespec t;
    clock_gettime(CLOCK_THREAD_CPUTIME_ID, &t);
    return t.tv_sec * 1e9 + t.tv_nsec;
}

/* A round of one version. All three work on the same lent places. */
static double time_round(const struct version *v, const struct work *work)
{
    lent[0] = work->start;
    double begin = now();
    work->call(v, work, &lent[0]);
    return now() - begin;
}

static void keep_least(double *least, double time)
{
    if (*least == 0 || time < *least)
        *least = time;
}

/* One untimed round that warms caches and branch predictors, then the timed ones. */
static void measure(struct work *work, unsigned rounds)
{
    for (unsigned round = 0; round <= rounds; round++) {
        for (size_t v = 0; v < VERSIONS; v++) {
            double time = time_round(&versions[v], work);
            if (round > 0)
                keep_least(&work->best[v], time);
        }
    }
}

/* Adds this program's best times to the file, a line for each input. */
static int save_times(const char *path, unsigned place, unsigned rounds)
{
    FILE *file = fopen(path, "a");
    if (file == NULL)
        return 0;
    for (size_t w = 0; w < work_count; w++)
        fprintf(file, "%zu %u %u %.1f %.1f %.1f\n", w, place, rounds, works[w].best[LIBRARY], works[w].best[PLAIN_C],
                works[w].best[PLAIN_RUST]);
    return fclose(file) == 0;
}

/* The best times of all programs that have saved theirs, and those at each place. Gives the rounds, or 0. */
static unsigned load_times(const char *path)
{
    size_t w;
    unsigned place, rounds, all_rounds = 0;
    double time[VERSIONS];
    FILE *file = fopen(path, "r");
    if (file == NULL)
        return 0;
    while (fscanf(file, "%zu %u %u %lf %lf %lf", &w, &place, &rounds, &time[LIBRARY], &time[PLAIN_C], &time[PLAIN_RUST]) == 6
           && w < work_count && place < PLACES) {
        for (size_t v = 0; v < VERSIONS; v++) {
            keep_least(&works[w].best[v], time[v]);
            keep_least(&works[w].at_place[v][place], time[v]);
        }
        all_rounds += w == 0 ? rounds : 0;
    }
    fclose(file);
    return all_rounds;
}

static double worst_place(const double at_place[PLACES])
{
    double worst = 0;
    for (size_t place = 0; place < PLACES; place++)
        if (at_place[place] > worst)
            worst = at_place[place];
    return worst;
}

static double all_places(const double at_place[PLACES])
{
    double sum = 0;
    for (size_t place = 0; place < PLACES; place++)
        sum += at_place[place];
    return sum;
}

static double least_of(double a, double b)
{
    return a < b ? a : b;
}

static void print_row(const struct work *work)
{
    const double *best = work->best;
    double all[VERSIONS];
    printf("%-12s  %-28s ", work->what, work->input);
    for (size_t v = 0; v < VERSIONS; v++) {
        double shown = work->unit[0] == 'n' ? best[v] / work->amount
                     : work->unit[0] == 'M' ? work->amount / best[v] * 1e3 : work->amount / best[v];
        all[v] = all_places(work->at_place[v]);
        printf(" %10.*f", work->unit[0] == 'M' ? 0 : 3, shown);
    }
    printf("  %-15s %7.3f %7.3f %7.3f %7.3f %7.3f\n", work->unit, best[LIBRARY] / best[PLAIN_C],
           best[LIBRARY] / best[PLAIN_RUST], best[LIBRARY] / least_of(best[PLAIN_C], best[PLAIN_RUST]),
           all[LIBRARY] / least_of(all[PLAIN_C], all[PLAIN_RUST]), worst_place(work->at_place[LIBRARY]) / best[LIBRARY]);
}

static void print_heading(unsigned rounds)
{
    printf("\nBest of %u rounds, over four places of the code; the three take turns; times are times on the processor.\n"
           "Before each round, outside of the timed part, all that a call may write is set to the same start by one copy:\n"
           "memory (4,096 words), log (65,536 words, count 0), registers, control line, half done, input place, control\n"
           "store, room and counts. Caches and branch predictors are warm: a round that is not timed comes first.\n"
           "The columns behind the unit are ratios of times: the library to plain C, to plain Rust and to the faster of the\n"
           "two (below 1 the library is the faster); to the faster with the mean over the four places instead of the best;\n"
           "and the library at the worst place of its code to it at the best.\n\n",
           rounds);
    printf("%-12s  %-28s  %10s %10s %10s  %-15s %7s %7s %7s %7s %7s\n", "what", "input", versions[LIBRARY].name,
           versions[PLAIN_C].name, versions[PLAIN_RUST].name, "unit", ": C", ": Rust", ": best", ": mean", "places");
}

int main(int argc, char **argv)
{
    unsigned place = argc == 4 ? strtoul(argv[2], NULL, 10) : PLACES;
    unsigned rounds = argc == 4 ? strtoul(argv[3], NULL, 10) : 0;
    if (place >= PLACES || rounds == 0) {
        fprintf(stderr, "bench: name the file of times, a place from 0 to 3 and a number of rounds\n");
        return 1;
    }
    add_programs();
    add_random_store();
    add_texts();
    add_image("full, 4,092 records", RECORDED_WORDS);
    add_image("sparse, 100 records", 100);
    for (size_t w = 0; w < work_count; w++)
        if (!agree(&works[w]))
            return 1;
    printf("All three give the same answers, counts and lent words on the %zu inputs.\n", work_count);
    describe_mix(mix_work);
    describe_lines(lines_work);
    for (size_t w = 0; w < work_count; w++)
        measure(&works[w], rounds);
    unsigned all_rounds = save_times(argv[1], place, rounds) ? load_times(argv[1]) : 0;
    if (all_rounds == 0) {
        perror(argv[1]);
        return 1;
    }
    print_heading(all_rounds);
    for (size_t w = 0; w < work_count; w++)
        print_row(&works[w]);
    return 0;
}
