#include "reader.h"

static uint32_t word(const uint8_t *bytes, size_t at) {
    const uint8_t *b = bytes + 4 * at;
    return b[0] | (uint32_t)b[1] << 8 | (uint32_t)b[2] << 16 | (uint32_t)b[3] << 24;
}

void put_word(uint8_t *bytes, size_t at, uint32_t word) {
    for (int i = 0; i < 4; i++) bytes[4 * at + i] = (uint8_t)(word >> 8 * i);
}

uint32_t wrapping_sum(const uint8_t *bytes, size_t words) {
    uint32_t sum = 0;
    for (size_t at = 0; at < words; at++) sum += word(bytes, at);
    return sum;
}

// "Each block but the last uses 124; the last 1..124; the rest is 0."
static int is_used_well(const uint8_t *block, int is_last) {
    uint32_t used = word(block, 2);
    if (used < 1 || used > PAYLOAD_WORDS || (!is_last && used != PAYLOAD_WORDS)) return 0;
    for (uint32_t at = used; at < PAYLOAD_WORDS; at++)
        if (word(block, 3 + at) != 0) return 0;
    return 1;
}

// "A length of 0 or not a multiple of 512 is 21 before all; then blocks are judged in order, 20 before 21 in each". Kinds from
// `low` to `high` are taken.
static uint32_t judged(const uint8_t *bytes, size_t count, uint32_t low, uint32_t high) {
    if (count == 0 || count % BLOCK_BYTES != 0) return BAD_FRAME;
    for (size_t number = 0; number < count / BLOCK_BYTES; number++) {
        const uint8_t *block = bytes + number * BLOCK_BYTES;
        if (wrapping_sum(block, BLOCK_WORDS) != 0xffffffff) return WRONG_CHECK;
        uint32_t kind = word(block, 0);
        if (kind < low || kind > high || kind != word(bytes, 0)) return BAD_FRAME;
        if (word(block, 1) != number) return BAD_FRAME;
        if (!is_used_well(block, number + 1 == count / BLOCK_BYTES)) return BAD_FRAME;
    }
    return 0;
}

// The used words of all blocks of a file that is judged good; how many there are.
static size_t gathered(const uint8_t *bytes, size_t count, uint32_t *payload) {
    size_t words = 0;
    for (const uint8_t *block = bytes; block < bytes + count; block += BLOCK_BYTES)
        for (uint32_t at = 0; at < word(block, 2); at++) payload[words++] = word(block, 3 + at);
    return words;
}

// "version, category, channels, flag, counts of parameters, states, delays, nodes, output, then the tables in that order"
uint32_t says_block(const uint8_t *bytes, size_t count, uint32_t *payload, struct said *said) {
    static const uint64_t width[4] = {3, 2, 2, 3};
    uint32_t number = judged(bytes, count, 1, 1);
    if (number != 0) return number;
    size_t words = gathered(bytes, count, payload);
    if (words < 9) return BAD_FRAME;
    const uint32_t *p = payload;
    *said = (struct said){.answer = {p[0], p[1], p[2], p[3], p[8], p[4], p[5], p[6], p[7]}, .answers = 9, .tables = 4};
    uint64_t at = 9;
    for (int i = 0; i < 4; i++) {
        said->table[i] = payload + (at < words ? at : words);
        said->length[i] = width[i] * p[4 + i];
        at += width[i] * p[4 + i];
    }
    return at == words ? 0 : BAD_FRAME;
}

// "sample count, then samples"
uint32_t says_rendering(const uint8_t *bytes, size_t count, uint32_t *payload, struct said *said) {
    uint32_t number = judged(bytes, count, 2, 3);
    if (number != 0) return number;
    size_t words = gathered(bytes, count, payload);
    *said = (struct said){.answer = {word(bytes, 0), payload[0]}, .answers = 2, .tables = 1};
    said->table[0] = payload + 1;
    said->length[0] = payload[0];
    return words - 1 == payload[0] ? 0 : BAD_FRAME;
}
