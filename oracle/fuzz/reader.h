// The house file of document 01, read from the text of its section "House file" alone.
#ifndef READER_H
#define READER_H

#include <stddef.h>
#include <stdint.h>

enum { BLOCK_BYTES = 512, BLOCK_WORDS = 128, PAYLOAD_WORDS = 124, WRONG_CHECK = 20, BAD_FRAME = 21 };

// What a file says: its kind, the words that the reader's answer has, and its one table or four, one behind the other, as parts of
// `payload`, for which there is room of a word for each four bytes of the file.
struct said {
    uint32_t answer[9];
    size_t answers, tables;
    const uint32_t *table[4];
    size_t length[4];
};

uint32_t wrapping_sum(const uint8_t *bytes, size_t words);
void put_word(uint8_t *bytes, size_t at, uint32_t word);

// 0, or 20 or 21 and then `said` means nothing.
uint32_t says_block(const uint8_t *bytes, size_t count, uint32_t *payload, struct said *said);
uint32_t says_rendering(const uint8_t *bytes, size_t count, uint32_t *payload, struct said *said);

#endif
