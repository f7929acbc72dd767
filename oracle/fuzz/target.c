// What libFuzzer calls: a file goes to both of our readers, into tables just long enough, in turn one word short each, and longer, and
// the answer and every lent word must be what the reader of reader.c says. Ends by abort at a difference.
#include <stdio.h>
#include <stdlib.h>
#include <string.h>
#include <sys/mman.h>

#include "lichenstitch.h"
#include "reader.h"

enum { TABLES = 4, SPACES = TABLES + 2, SPACE = 1 << 20, GUARD = 1 << 16, LENT = 0x5a5a0000, TABLE_TOO_SHORT = 13, ANSWER = 11 };

// Each lent table ends where its space does, and behind that nothing may be read or written.
static uint8_t *space[SPACES];

static void make_spaces(void) {
    for (int i = 0; i < SPACES; i++) {
        space[i] = mmap(NULL, SPACE + GUARD, PROT_READ | PROT_WRITE, MAP_PRIVATE | MAP_ANONYMOUS, -1, 0);
        if (space[i] == MAP_FAILED || mprotect(space[i] + SPACE, GUARD, PROT_NONE) != 0) exit(2);
    }
}

struct lent {
    const uint8_t *file;
    size_t bytes, length[TABLES];
    uint32_t *table[TABLES], *answer;
};

static uint32_t *filled(int i, size_t words) {
    uint32_t *start = (uint32_t *)(space[i] + SPACE) - words;
    for (size_t at = 0; at < words; at++) start[at] = LENT + (uint32_t)at;
    return start;
}

static uint32_t our_block(struct lent *l) {
    return lichenstitch_read_block(l->file, l->bytes, l->table[0], l->length[0], l->table[1], l->length[1], l->table[2],
                                   l->length[2], l->table[3], l->length[3], l->answer, ANSWER);
}

static uint32_t our_rendering(struct lent *l) {
    return lichenstitch_read_rendering(l->file, l->bytes, l->table[0], l->length[0], l->answer, ANSWER);
}

struct reader {
    const char *name;
    uint32_t (*ours)(struct lent *);
    uint32_t (*says)(const uint8_t *, size_t, uint32_t *, struct said *);
};

static const struct reader readers[] = {{"read_block", our_block, says_block}, {"read_rendering", our_rendering, says_rendering}};

static void same(const char *name, const char *what, size_t at, uint32_t ours, uint32_t said) {
    if (ours == said) return;
    fprintf(stderr, "%s: %s %zu: ours %08x, not %08x\n", name, what, at, ours, said);
    abort();
}

// The first words are those that were said, and the others are as they were lent.
static void same_words(const char *name, const char *what, const uint32_t *ours, size_t words, const uint32_t *said, size_t count) {
    for (size_t at = 0; at < words; at++) same(name, what, at, ours[at], at < count ? said[at] : LENT + (uint32_t)at);
}

// One call with tables of these lengths.
static void compare(const struct reader *reader, struct lent *lent, uint32_t number, const struct said *said) {
    static const uint32_t nothing[1] = {0};
    for (int i = 0; i < TABLES; i++) lent->table[i] = filled(i, lent->length[i]);
    lent->answer = filled(TABLES, ANSWER);
    for (size_t i = 0; number == 0 && i < said->tables; i++)
        if (lent->length[i] < said->length[i]) number = TABLE_TOO_SHORT;
    same(reader->name, "answer", 0, reader->ours(lent), number);
    for (size_t i = 0; i < TABLES; i++) {
        size_t held = number == 0 && i < said->tables ? said->length[i] : 0;
        same_words(reader->name, "table", lent->table[i], lent->length[i], said->table[i], held);
    }
    if (number == 0) same_words(reader->name, "answer word", lent->answer, ANSWER, said->answer, said->answers);
    else same_words(reader->name, "answer word", lent->answer, ANSWER, nothing, 1);
}

static void compare_all(const struct reader *reader, struct lent *lent) {
    static uint32_t payload[SPACE / 4];
    struct said said = {.tables = 0};
    uint32_t number = reader->says(lent->file, lent->bytes, payload, &said);
    if (number != 0) said = (struct said){.tables = 0};
    for (int i = 0; i < TABLES; i++) lent->length[i] = said.length[i] + 3;
    compare(reader, lent, number, &said);
    for (int i = 0; i < TABLES; i++) lent->length[i] = said.length[i];
    compare(reader, lent, number, &said);
    for (size_t i = 0; i < said.tables; i++) {
        if (said.length[i] == 0) continue;
        lent->length[i]--;
        compare(reader, lent, number, &said);
        lent->length[i]++;
    }
}

int LLVMFuzzerTestOneInput(const uint8_t *data, size_t size) {
    if (space[0] == NULL) make_spaces();
    if (size > SPACE) return -1;
    uint8_t *file = space[TABLES + 1] + SPACE - size;
    memcpy(file, data, size);
    for (size_t i = 0; i < sizeof readers / sizeof *readers; i++) {
        struct lent lent = {.file = file, .bytes = size};
        compare_all(&readers[i], &lent);
    }
    same("both", "length of the file left", 0, memcmp(file, data, size) != 0, 0);
    return 0;
}

size_t LLVMFuzzerMutate(uint8_t *data, size_t size, size_t most);

// Frames every block anew, save one word at most: the first one's kind, its number, used 124 in all but the last.
static void frame(uint8_t *data, size_t size, unsigned save) {
    size_t blocks = size / BLOCK_BYTES;
    for (size_t number = 0; number < blocks; number++) {
        uint8_t *block = data + number * BLOCK_BYTES;
        if (save % 8 != 0) memcpy(block, data, 4);
        if (save % 8 != 1) put_word(block, 1, (uint32_t)number);
        if (save % 8 != 2 && number + 1 < blocks) put_word(block, 2, PAYLOAD_WORDS);
    }
}

// The sample count that the last block's used count asks for, if the file is a rendering.
static void fit(uint8_t *data, size_t size) {
    size_t last = size / BLOCK_BYTES - 1;
    if (data[0] != 1) put_word(data, 3, (uint32_t)(last * PAYLOAD_WORDS + data[last * BLOCK_BYTES + 8] - 1));
}

// Bytes changed at random have a wrong check. So most are made whole blocks with a right one, and of these most are framed anew, and
// half of those given a count that fits.
size_t LLVMFuzzerCustomMutator(uint8_t *data, size_t size, size_t most, unsigned seed) {
    size = LLVMFuzzerMutate(data, size, most);
    if (seed % 8 == 0 || size < BLOCK_BYTES) return size;
    size = size / BLOCK_BYTES * BLOCK_BYTES;
    if (seed % 8 < 6) frame(data, size, seed / 8);
    if (seed % 8 < 4) fit(data, size);
    for (uint8_t *block = data; block < data + size; block += BLOCK_BYTES)
        put_word(block, BLOCK_WORDS - 1, 0xffffffff - wrapping_sum(block, BLOCK_WORDS - 1));
    return size;
}
