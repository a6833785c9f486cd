/* Runs the project's vectors over the library and both plain versions, and compares every answer, count and lent word.
 *
 *     check FOLDER        the folder with engine.txt and the rest; its README.md gives their form
 *
 * Ends with status 1 if a case differs, and names it. */
#define _POSIX_C_SOURCE 200809L
#include "plain.h"

#include <stdio.h>
#include <stdlib.h>
#include <string.h>

enum { MEMORY_WORDS = 4096, STORE_WORDS = 64, LIST_WORDS = 4096, ROOM_BYTES = 32768, AS_FOUND = 0xa5 };

/* One side of a run: what is lent before it, or what stands there after it. */
struct run {
    uint32_t store[STORE_WORDS];
    uint16_t memory[MEMORY_WORDS], input[LIST_WORDS], log[LIST_WORDS], registers[8];
    size_t input_words, log_words, state[4];
};

/* The value behind a key of a line, which has a space before its first key; null if the key is not there. */
static const char *value(const char *line, const char *key)
{
    char wanted[32];
    snprintf(wanted, sizeof wanted, " %s ", key);
    const char *found = strstr(line, wanted);
    return found == NULL ? NULL : found + strlen(wanted);
}

static unsigned long number(const char *line, const char *key)
{
    const char *text = value(line, key);
    return text == NULL ? 0 : strtoul(text, NULL, 10);
}

/* The next number of a list and its comma, if one follows. */
static uint32_t next_number(const char **text)
{
    char *end;
    uint32_t found = strtoul(*text, &end, 10);
    *text = *end == ',' || *end == '=' ? end + 1 : end;
    return found;
}

static int more(const char *text)
{
    return *text >= '0' && *text <= '9';
}

static size_t words(const char *text, uint16_t *into)
{
    size_t count = 0;
    while (more(text))
        into[count++] = next_number(&text);
    return count;
}

static void control_words(const char *text, uint32_t store[STORE_WORDS])
{
    if (strncmp(text, "printed", 7) == 0) {
        facetgrove_printed_store(store);
        return;
    }
    for (size_t k = 0; more(text); k++)
        store[k] = next_number(&text);
}

static void memory_words(const char *text, uint16_t memory[MEMORY_WORDS])
{
    memset(memory, 0, MEMORY_WORDS * sizeof *memory);
    while (more(text)) {
        uint32_t address = next_number(&text);
        memory[address] = next_number(&text);
    }
}

static size_t bytes(const char *text, uint8_t *into)
{
    size_t count = 0;
    unsigned byte;
    while (sscanf(text + 2 * count, "%2x", &byte) == 1 && text[2 * count] != ' ')
        into[count++] = byte;
    return count;
}

/* What engine and interpreter lines say alike. */
static void read_run(const char *line, struct run *run)
{
    memory_words(value(line, "memory"), run->memory);
    run->input_words = words(value(line, "input"), run->input);
    run->log_words = words(value(line, "log"), run->log);
    run->state[FACETGROVE_PLACE] = number(line, "place");
    run->state[FACETGROVE_COUNT] = number(line, "count");
}

static void read_engine(const char *line, struct run *run)
{
    read_run(line, run);
    words(value(line, "registers"), run->registers);
    run->state[FACETGROVE_LINE] = number(line, "line");
    run->state[FACETGROVE_HALF] = number(line, "half");
}

static void read_interpreter(const char *line, struct run *run)
{
    read_run(line, run);
    run->registers[FACETGROVE_CP] = number(line, "cp");
    run->registers[FACETGROVE_AC] = number(line, "ac");
    run->registers[FACETGROVE_PP] = number(line, "pp");
}

/* Splits a line at its arrow and gives what stands behind it. */
static char *split(char *line)
{
    char *arrow = strstr(line, "->");
    arrow[0] = 0;
    return arrow + 2;
}

/* Each check answers whether the version does on this line what the line says. */

static int check_engine(const struct version *v, char *line)
{
    static struct run lent, after;
    size_t told[2];
    memset(&lent, 0, sizeof lent);
    char *behind = split(line);
    control_words(value(line, "store"), lent.store);
    read_engine(line, &lent);
    after = lent;
    read_engine(behind, &after);
    uint32_t answer = v->engine_run(lent.store, STORE_WORDS, lent.memory, MEMORY_WORDS, lent.input, lent.input_words,
                                    lent.log, lent.log_words, lent.registers, lent.state, number(line, "cycles"), told);
    return answer == number(behind, "answer") && told[0] == number(behind, "done") && told[1] == number(behind, "at")
        && memcmp(&lent, &after, sizeof lent) == 0;
}

static int check_interpreter(const struct version *v, char *line)
{
    static struct run lent, after;
    uint64_t told[2];
    memset(&lent, 0, sizeof lent);
    char *behind = split(line);
    read_interpreter(line, &lent);
    after = lent;
    read_interpreter(behind, &after);
    uint32_t answer = v->interpreter_run(lent.memory, MEMORY_WORDS, lent.input, lent.input_words, lent.log,
                                         lent.log_words, lent.registers, lent.state, number(line, "instructions"), told);
    return answer == number(behind, "answer") && told[0] == number(behind, "done")
        && told[1] == number(behind, "cycles") && memcmp(&lent, &after, sizeof lent) == 0;
}

static int check_text(const struct version *v, char *line)
{
    static uint8_t text[ROOM_BYTES];
    uint32_t store[STORE_WORDS], after[STORE_WORDS];
    size_t length = bytes(value(line, "text"), text);
    memset(store, AS_FOUND, sizeof store);
    memset(after, AS_FOUND, sizeof after);
    if (value(line, "words") != NULL)
        control_words(value(line, "words"), after);
    return v->micro_assemble(text, length, store, STORE_WORDS) == number(line, "answer")
        && memcmp(store, after, sizeof store) == 0;
}

static int check_listing(const struct version *v, char *line)
{
    static uint8_t room[ROOM_BYTES], after[ROOM_BYTES];
    uint32_t store[STORE_WORDS];
    size_t told[2], length = 0;
    memset(room, AS_FOUND, sizeof room);
    memset(after, AS_FOUND, sizeof after);
    control_words(value(line, "store"), store);
    if (value(line, "text") != NULL)
        length = bytes(value(line, "text"), after);
    return v->micro_list(store, STORE_WORDS, room, number(line, "room"), told) == number(line, "answer")
        && told[0] == length && told[1] == number(line, "line") && memcmp(room, after, sizeof room) == 0;
}

/* What was read is also written, which has to give the same bytes. */
static int check_image(const struct version *v, char *line)
{
    static uint8_t image[ROOM_BYTES], room[ROOM_BYTES];
    uint16_t memory[MEMORY_WORDS], after[MEMORY_WORDS];
    size_t written;
    memset(memory, AS_FOUND, sizeof memory);
    memset(after, AS_FOUND, sizeof after);
    memset(room, AS_FOUND, sizeof room);
    memset(image, AS_FOUND, sizeof image);
    size_t length = bytes(value(line, "image"), image);
    if (value(line, "memory") != NULL)
        memory_words(value(line, "memory"), after);
    uint32_t answer = v->image_read(image, length, memory, MEMORY_WORDS);
    if (answer != number(line, "answer") || memcmp(memory, after, sizeof memory) != 0)
        return 0;
    return answer != 0
        || (v->image_write(memory, MEMORY_WORDS, room, sizeof room, &written) == 0 && written == length
            && memcmp(room, image, sizeof room) == 0);
}

static const struct {
    const char *name;
    int (*check)(const struct version *v, char *line);
} files[] = {
    {"engine.txt", check_engine},
    {"interpreter.txt", check_interpreter},
    {"micro-text.txt", check_text},
    {"listings.txt", check_listing},
    {"images.txt", check_image},
};

/* The cases of a file that a version gets wrong; -1 if the file cannot be read. */
static int wrong_in(const char *folder, const char *name, int (*check)(const struct version *, char *),
                    const struct version *v)
{
    char path[4096], *line = NULL;
    size_t size = 0;
    int lines = 0, wrong = 0;
    snprintf(path, sizeof path, "%s/%s", folder, name);
    FILE *file = fopen(path, "r");
    if (file == NULL) {
        perror(path);
        return -1;
    }
    while (getline(&line, &size, file) > 0) {
        size_t length = strlen(line);
        char *spaced = malloc(length + 2);
        spaced[0] = ' ';
        memcpy(spaced + 1, line, length + 1);
        spaced[strcspn(spaced, "\n")] = 0;
        lines++;
        if (!check(v, spaced)) {
            printf("%s: %s, line %d: differs\n", v->name, name, lines);
            wrong++;
        }
        free(spaced);
    }
    free(line);
    fclose(file);
    printf("%s: %s: %d of %d as they should be\n", v->name, name, lines - wrong, lines);
    return wrong;
}

int main(int argc, char **argv)
{
    int failed = 0;
    if (argc != 2) {
        fprintf(stderr, "check: name the folder of the vectors\n");
        return 1;
    }
    for (size_t v = 0; v < VERSIONS; v++)
        for (size_t f = 0; f < sizeof files / sizeof files[0]; f++)
            failed |= wrong_in(argv[1], files[f].name, files[f].check, &versions[v]) != 0;
    return failed;
}
