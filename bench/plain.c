/* The plain C version: engine, interpreter, assembler, lister and images straight from document 01, with nothing proved.
 * It is here to be measured against; plain.h says the rest. */
#include "plain.h"

#include <stdbool.h>
#include <string.h>

enum { MEMORY_WORDS = 4096, STORE_WORDS = 64, PORTS = 4092 };
enum { INPUT_PORT = 4092, WAITING_PORT, LOG_PORT, ROOM_PORT };
enum { FLAG = 32768, LONGEST_TEXT = 8192, LISTING_ROOM = 2816, IMAGE_ROOM = 16368 };

/* Memory and ports. */

struct bus {
    uint16_t *memory;
    const uint16_t *input;
    size_t input_words, place;
    uint16_t *log;
    size_t log_words, count;
};

static inline uint16_t read_port(struct bus *bus, unsigned address)
{
    switch (address) {
    case INPUT_PORT:
        return bus->place < bus->input_words ? bus->input[bus->place++] : 0;
    case WAITING_PORT:
        return bus->place < bus->input_words ? FLAG : 0;
    case LOG_PORT:
        return 0;
    default:
        return bus->count < bus->log_words ? FLAG : 0;
    }
}

static inline uint16_t read_word(struct bus *bus, unsigned address)
{
    return address < PORTS ? bus->memory[address] : read_port(bus, address);
}

/* False, with nothing changed, for a word to a full log. */
static inline bool write_word(struct bus *bus, unsigned address, uint16_t word)
{
    if (address < PORTS) {
        bus->memory[address] = word;
    } else if (address == LOG_PORT) {
        if (bus->count >= bus->log_words)
            return false;
        bus->log[bus->count++] = word;
    }
    return true;
}

/* Engine. */

enum { NOTHING_HALF, READ_HALF, WRITE_HALF };

static bool good_word(uint32_t word)
{
    return word < 1u << 23 && (word >> 8 & 3) != 3;
}

/* The first line with a bad word, or 64. */
static size_t first_bad(const uint32_t *store)
{
    size_t line = 0;
    while (line < STORE_WORDS && good_word(store[line]))
        line++;
    return line;
}

static inline uint16_t compute(unsigned f, uint16_t a, uint16_t b)
{
    switch (f) {
    case 0: return a;
    case 1: return a + 1;
    case 2: return a - 1;
    case 3: return a + b;
    case 4: return a - b;
    case 5: return a & b;
    case 6: return a << 1;
    default: return a >> 1;
    }
}

/* CP, PP and REM keep 12 bits. */
static inline uint16_t kept(unsigned s, uint16_t value)
{
    return s == FACETGROVE_CP || s == FACETGROVE_PP || s == FACETGROVE_REM ? value & 4095 : value;
}

static inline unsigned next_line(uint32_t word, unsigned line, uint16_t result)
{
    unsigned end = word & 63, next = (line + 1) & 63;
    switch (word >> 6 & 3) {
    case 0: return next;
    case 1: return result & 0x8000 ? end : next;
    case 2: return result == 0 ? end : next;
    default: return end;
    }
}

uint32_t plain_c_engine_run(const uint32_t *store, size_t store_words, uint16_t *memory, size_t memory_words,
                            const uint16_t *input, size_t input_words, uint16_t *log, size_t log_words,
                            uint16_t registers[8], size_t state[4], uint32_t cycles, size_t told[2])
{
    told[0] = 0;
    told[1] = 0;
    if (memory_words != MEMORY_WORDS || store_words != STORE_WORDS)
        return 1;
    if (state[FACETGROVE_PLACE] > input_words || state[FACETGROVE_COUNT] > log_words)
        return 2;
    if (registers[FACETGROVE_CP] > 4095 || registers[FACETGROVE_PP] > 4095 || registers[FACETGROVE_REM] > 4095
        || state[FACETGROVE_LINE] > 63 || state[FACETGROVE_HALF] > WRITE_HALF)
        return 3;
    size_t bad = first_bad(store);
    if (bad < STORE_WORDS) {
        told[1] = bad;
        return 4;
    }

    struct bus bus = {memory, input, input_words, state[FACETGROVE_PLACE], log, log_words, state[FACETGROVE_COUNT]};
    unsigned line = state[FACETGROVE_LINE], half = state[FACETGROVE_HALF];
    uint16_t r[8];
    memcpy(r, registers, sizeof r);
    uint32_t done = 0, answer = 0;
    for (; done < cycles; done++) {
        uint32_t word = store[line];
        unsigned s = word >> 14 & 7;
        uint16_t result = compute(word >> 10 & 7, r[word >> 20 & 7], r[word >> 17 & 7]), before = r[s];
        if (word >> 13 & 1)
            r[s] = kept(s, result);
        if (word >> 9 & 1) {
            if (half == READ_HALF) {
                r[FACETGROVE_RDM] = read_word(&bus, r[FACETGROVE_REM]);
                half = NOTHING_HALF;
            } else {
                half = READ_HALF;
            }
        } else if (word >> 8 & 1) {
            if (half == WRITE_HALF) {
                if (!write_word(&bus, r[FACETGROVE_REM], r[FACETGROVE_RDM])) {
                    r[s] = before;
                    answer = 5;
                    break;
                }
                half = NOTHING_HALF;
            } else {
                half = WRITE_HALF;
            }
        } else {
            half = NOTHING_HALF;
        }
        line = next_line(word, line, result);
    }
    memcpy(registers, r, sizeof r);
    state[FACETGROVE_PLACE] = bus.place;
    state[FACETGROVE_COUNT] = bus.count;
    state[FACETGROVE_LINE] = line;
    state[FACETGROVE_HALF] = half;
    told[0] = done;
    return answer;
}

/* Interpreter. */

uint32_t plain_c_interpreter_run(uint16_t *memory, size_t memory_words, const uint16_t *input, size_t input_words,
                                 uint16_t *log, size_t log_words, uint16_t registers[3], size_t state[2],
                                 uint32_t instructions, uint64_t told[2])
{
    told[0] = 0;
    told[1] = 0;
    if (memory_words != MEMORY_WORDS)
        return 1;
    if (state[FACETGROVE_PLACE] > input_words || state[FACETGROVE_COUNT] > log_words)
        return 2;
    if (registers[FACETGROVE_CP] > 4095 || registers[FACETGROVE_PP] > 4095)
        return 3;

    struct bus bus = {memory, input, input_words, state[FACETGROVE_PLACE], log, log_words, state[FACETGROVE_COUNT]};
    unsigned cp = registers[FACETGROVE_CP], pp = registers[FACETGROVE_PP];
    uint16_t ac = registers[FACETGROVE_AC];
    uint32_t done, answer = 0;
    uint64_t cycles = 0;
    for (done = 0; done < instructions; done++) {
        size_t place = bus.place;
        uint16_t word = read_word(&bus, cp);
        unsigned x = word & 4095, next = (cp + 1) & 4095, below = (pp - 1) & 4095, above = (pp + 1) & 4095;
        switch (word >> 12) {
        case 0:
            ac = read_word(&bus, x);
            cycles += 9;
            break;
        case 1:
            if (!write_word(&bus, x, ac))
                goto full;
            cycles += 9;
            break;
        case 2:
            ac += read_word(&bus, x);
            cycles += 9;
            break;
        case 3:
            ac -= read_word(&bus, x);
            cycles += 9;
            break;
        case 4:
            ac += read_word(&bus, (pp + x) & 4095);
            cycles += 10;
            break;
        case 5:
            ac -= read_word(&bus, (pp + x) & 4095);
            cycles += 9;
            break;
        case 6:
            if (ac == 0)
                next = x;
            cycles += 8;
            break;
        case 7:
            if (ac & 0x8000)
                next = x;
            cycles += 8;
            break;
        case 8:
            next = x;
            cycles += 7;
            break;
        case 9:
            ac = x;
            cycles += 7;
            break;
        case 10:
            if (!write_word(&bus, below, next))
                goto full;
            pp = below;
            next = x;
            cycles += 10;
            break;
        case 11:
            next = read_word(&bus, pp) & 4095;
            pp = above;
            cycles += 9;
            break;
        case 12:
            if (!write_word(&bus, below, ac))
                goto full;
            pp = below;
            cycles += 10;
            break;
        case 13:
            if (!write_word(&bus, below, read_word(&bus, ac & 4095)))
                goto full;
            pp = below;
            cycles += 11;
            break;
        case 14:
            ac = read_word(&bus, pp);
            pp = above;
            cycles += 10;
            break;
        default:
            if (!write_word(&bus, ac & 4095, read_word(&bus, pp)))
                goto full;
            pp = above;
            cycles += 11;
            break;
        }
        cp = next;
        continue;
    full: /* Only the input place can have moved. */
        bus.place = place;
        answer = 5;
        break;
    }
    registers[FACETGROVE_CP] = cp;
    registers[FACETGROVE_AC] = ac;
    registers[FACETGROVE_PP] = pp;
    state[FACETGROVE_PLACE] = bus.place;
    state[FACETGROVE_COUNT] = bus.count;
    told[0] = done;
    told[1] = cycles;
    return answer;
}

/* Assembler. */

struct cursor {
    const uint8_t *at, *end;
};

/* The byte here; the end of the text ends a line as byte 10 does. */
static inline unsigned peek(const struct cursor *c)
{
    return c->at < c->end ? *c->at : '\n';
}

static inline unsigned peek_token(struct cursor *c)
{
    while (peek(c) == ' ')
        c->at++;
    return peek(c);
}

static inline bool take_sign(struct cursor *c, unsigned sign)
{
    if (peek_token(c) != sign)
        return false;
    c->at++;
    return true;
}

/* A sign of two bytes with nothing between them. */
static inline bool take_pair(struct cursor *c, unsigned first, unsigned second)
{
    if (!take_sign(c, first) || peek(c) != second)
        return false;
    c->at++;
    return true;
}

/* A run of letters as a number, a byte each; no known word has more than four. */
#define WORD(a, b, c, d) ((uint32_t)(a) << 24 | (b) << 16 | (c) << 8 | (d))

static inline uint32_t take_word(struct cursor *c)
{
    uint32_t word = 0;
    unsigned letters = 0;
    for (unsigned byte = peek_token(c); byte >= 'a' && byte <= 'z'; byte = peek(c)) {
        word = word << 8 | byte;
        letters++;
        c->at++;
    }
    return letters <= 4 ? word : 0;
}

/* A run of one or two digits with no leading zero, or 100. */
static inline unsigned take_number(struct cursor *c)
{
    unsigned number = 0, digits = 0;
    bool leading_zero = peek_token(c) == '0';
    for (unsigned byte = peek(c); byte >= '0' && byte <= '9'; byte = peek(c)) {
        number = number * 10 + (byte - '0');
        digits++;
        c->at++;
    }
    return digits == 1 || (digits == 2 && !leading_zero) ? number : 100;
}

enum { ALU = 8, NO_REGISTER };

static inline unsigned register_of(uint32_t word)
{
    switch (word) {
    case WORD(0, 0, 'c', 'p'): return FACETGROVE_CP;
    case WORD(0, 0, 'a', 'c'): return FACETGROVE_AC;
    case WORD(0, 0, 'p', 'p'): return FACETGROVE_PP;
    case WORD(0, 0, 'r', 'i'): return FACETGROVE_RI;
    case WORD(0, 0, 'r', 't'): return FACETGROVE_RT;
    case WORD('m', 'a', 's', 'c'): return FACETGROVE_MASC;
    case WORD(0, 'r', 'e', 'm'): return FACETGROVE_REM;
    case WORD(0, 'r', 'd', 'm'): return FACETGROVE_RDM;
    default: return NO_REGISTER;
    }
}

/* What the parts of a line have given so far. */
struct line {
    bool operation, transfer, jump, stores, far, twice;
    unsigned sq;
    uint32_t word;
};

/* The formula behind a sign that follows register a: F and B in their places, or false. */
static inline bool take_second(struct cursor *c, unsigned one, unsigned two, uint32_t *fields)
{
    c->at++;
    if (one != 0 && peek_token(c) == '1') {
        *fields |= one << 10;
        return take_number(c) == 1;
    }
    unsigned b = register_of(take_word(c));
    *fields |= two << 10 | b << 17;
    return b < NO_REGISTER;
}

/* A formula: A, B and F in their places, or false. */
static inline bool take_formula(struct cursor *c, uint32_t *fields)
{
    unsigned first = peek_token(c);
    *fields = 0;
    if (first == '<' || first == '>') {
        if (!take_pair(c, first, first))
            return false;
        *fields = (first == '<' ? 6 : 7) << 10;
    }
    unsigned a = register_of(take_word(c));
    if (a == NO_REGISTER)
        return false;
    *fields |= a << 20;
    if (first == '<' || first == '>')
        return true;
    switch (peek_token(c)) {
    case '+': return take_second(c, 1, 3, fields);
    case '-': return take_second(c, 2, 4, fields);
    case '^': return take_second(c, 0, 5, fields);
    default: return true;
    }
}

static inline bool take_operation(struct cursor *c, unsigned to, struct line *line)
{
    uint32_t fields;
    if (!take_pair(c, ':', '='))
        return false;
    bool bracket = take_sign(c, '(');
    if (!take_formula(c, &fields) || (bracket && !take_sign(c, ')')))
        return false;
    line->twice |= line->operation;
    line->operation = true;
    line->stores = to != ALU;
    line->word |= fields | (to != ALU ? to << 14 | 1u << 13 : 0);
    return true;
}

static inline bool take_transfer(struct line *line, uint32_t bit)
{
    line->twice |= line->transfer;
    line->transfer = true;
    line->word |= bit;
    return true;
}

static inline bool take_target(struct cursor *c, unsigned sq, struct line *line)
{
    unsigned target = take_number(c);
    line->far |= target >= 64;
    line->twice |= line->jump;
    line->jump = true;
    line->sq = sq;
    line->word |= sq << 6 | (target & 63);
    return target < 100;
}

static inline bool take_test(struct cursor *c, struct line *line)
{
    uint32_t flag = take_word(c);
    return (flag == 'n' || flag == 'z') && take_word(c) == WORD('t', 'h', 'e', 'n')
        && take_word(c) == WORD('g', 'o', 't', 'o') && take_target(c, flag == 'n' ? 1 : 2, line);
}

static inline bool take_part(struct cursor *c, struct line *line)
{
    uint32_t word = take_word(c);
    switch (word) {
    case WORD(0, 0, 'r', 'd'): return take_transfer(line, 1u << 9);
    case WORD(0, 0, 'w', 'r'): return take_transfer(line, 1u << 8);
    case WORD('g', 'o', 't', 'o'): return take_target(c, 3, line);
    case WORD(0, 0, 'i', 'f'): return take_test(c, line);
    case WORD(0, 'a', 'l', 'u'): return take_operation(c, ALU, line);
    default: break;
    }
    unsigned to = register_of(word);
    return to != NO_REGISTER && take_operation(c, to, line);
}

static inline bool take_parts(struct cursor *c, struct line *line)
{
    while (peek_token(c) != '\n') {
        if (!take_part(c, line))
            return false;
        if (peek_token(c) != '\n' && !take_sign(c, ';'))
            return false;
    }
    return true;
}

/* The line numbered k, up to its end: its answer, and for 0 its word. */
static inline uint32_t take_line(struct cursor *c, unsigned k, uint32_t *word)
{
    struct line line = {0};
    if (k >= STORE_WORDS)
        return 11;
    if (take_number(c) != k)
        return 12;
    if (!take_sign(c, ':') || !take_parts(c, &line))
        return 13;
    if (line.far)
        return 14;
    bool test = line.sq == 1 || line.sq == 2;
    if (line.twice || (test && !line.operation) || (line.operation && !line.stores && !test))
        return 15;
    *word = line.word;
    return 0;
}

uint32_t plain_c_micro_assemble(const uint8_t *text, size_t text_bytes, uint32_t *store, size_t store_words)
{
    if (store_words != STORE_WORDS)
        return 1;
    if (text_bytes > LONGEST_TEXT)
        return 10;
    struct cursor c = {text, text + text_bytes};
    uint32_t words[STORE_WORDS] = {0};
    for (unsigned k = 0; c.at < c.end; k++) {
        uint32_t word, answer = take_line(&c, k, &word);
        if (answer != 0)
            return answer;
        words[k] = word;
        c.at++;
    }
    memcpy(store, words, sizeof words);
    return 0;
}

/* Lister. */

static inline uint8_t *put(uint8_t *at, const char *text)
{
    while (*text != 0)
        *at++ = (uint8_t)*text++;
    return at;
}

static inline uint8_t *put_number(uint8_t *at, unsigned number)
{
    if (number >= 10)
        *at++ = '0' + number / 10;
    *at++ = '0' + number % 10;
    return at;
}

static const char *const register_names[9] = {"cp", "ac", "pp", "ri", "rt", "masc", "rem", "rdm", "alu"};
static const char *const jump_words[4] = {"", " if n then goto ", " if z then goto ", " goto "};

static inline uint8_t *put_operation(uint8_t *at, uint32_t word)
{
    const char *a = register_names[word >> 20 & 7], *b = register_names[word >> 17 & 7];
    *at++ = ' ';
    at = put(at, register_names[word >> 13 & 1 ? word >> 14 & 7 : ALU]);
    at = put(at, ":=");
    switch (word >> 10 & 7) {
    case 0: at = put(at, a); break;
    case 1: at = put(put(at, a), "+1"); break;
    case 2: at = put(put(at, a), "-1"); break;
    case 3: at = put(put(put(at, a), "+"), b); break;
    case 4: at = put(put(put(at, a), "-"), b); break;
    case 5: at = put(put(put(at, a), "^"), b); break;
    case 6: at = put(put(at, "<<"), a); break;
    default: at = put(put(at, ">>"), a); break;
    }
    *at++ = ';';
    return at;
}

/* Whether anything asks for the word's operation: a store or a test. */
static inline bool operates(uint32_t word)
{
    unsigned sq = word >> 6 & 3;
    return (word >> 13 & 1) || sq == 1 || sq == 2;
}

static inline uint8_t *put_line(uint8_t *at, unsigned number, uint32_t word)
{
    unsigned sq = word >> 6 & 3;
    at = put_number(at, number);
    *at++ = ':';
    if (operates(word))
        at = put_operation(at, word);
    if (word >> 9 & 1)
        at = put(at, " rd;");
    else if (word >> 8 & 1)
        at = put(at, " wr;");
    if (sq != 0) {
        at = put_number(put(at, jump_words[sq]), word & 63);
        *at++ = ';';
    }
    *at++ = '\n';
    return at;
}

/* Whether the word's normal form is 0: no operation, no transfer, no jump. */
static bool does_nothing(uint32_t word)
{
    return !operates(word) && (word >> 6 & 15) == 0;
}

/* No line is longer than 44 bytes, so no listing passes a room of 2,816: answer 17 never comes. */
uint32_t plain_c_micro_list(const uint32_t *store, size_t store_words, uint8_t *room, size_t room_bytes, size_t told[2])
{
    told[0] = 0;
    told[1] = 0;
    if (store_words != STORE_WORDS)
        return 1;
    if (room_bytes < LISTING_ROOM)
        return 16;
    size_t bad = first_bad(store);
    if (bad < STORE_WORDS) {
        told[1] = bad;
        return 4;
    }
    unsigned lines = STORE_WORDS;
    while (lines > 0 && does_nothing(store[lines - 1]))
        lines--;
    uint8_t *at = room;
    for (unsigned line = 0; line < lines; line++)
        at = put_line(at, line, store[line]);
    told[0] = (size_t)(at - room);
    return 0;
}

/* Images. */

static inline unsigned two_bytes(const uint8_t *at)
{
    return (unsigned)at[0] << 8 | at[1];
}

uint32_t plain_c_image_read(const uint8_t *image, size_t image_bytes, uint16_t *memory, size_t memory_words)
{
    if (memory_words != MEMORY_WORDS)
        return 1;
    if (image_bytes % 4 != 0)
        return 20;
    unsigned least = 0;
    for (size_t at = 0; at < image_bytes; at += 4) {
        unsigned address = two_bytes(image + at);
        if (address >= PORTS)
            return 21;
        if (address < least)
            return 22;
        if (two_bytes(image + at + 2) == 0)
            return 23;
        least = address + 1;
    }
    memset(memory, 0, MEMORY_WORDS * sizeof *memory);
    for (size_t at = 0; at < image_bytes; at += 4)
        memory[two_bytes(image + at)] = (uint16_t)two_bytes(image + at + 2);
    return 0;
}

uint32_t plain_c_image_write(const uint16_t *memory, size_t memory_words, uint8_t *room, size_t room_bytes,
                             size_t length[1])
{
    length[0] = 0;
    if (memory_words != MEMORY_WORDS)
        return 1;
    if (room_bytes < IMAGE_ROOM)
        return 24;
    uint8_t *at = room;
    for (unsigned address = 0; address < PORTS; address++) {
        uint16_t value = memory[address];
        if (value == 0)
            continue;
        at[0] = (uint8_t)(address >> 8);
        at[1] = (uint8_t)address;
        at[2] = (uint8_t)(value >> 8);
        at[3] = (uint8_t)value;
        at += 4;
    }
    length[0] = (size_t)(at - room);
    return 0;
}
