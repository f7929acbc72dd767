// Calls Lichenstitch's C functions for the comparing program, which may be of another machine than the static library.
// Reads calls on standard input until it ends, and writes an answer for each, all in 32-bit little-endian words.
//   call:   function, scalars n, n words, slices m, how many of them (the last) are lent to be written, and for each
//           slice its length and its words
//   answer: the result, and the words of each slice lent to be written, as the call left them
#include <stddef.h>
#include <stdint.h>

#include "lichenstitch.h"

void *memcpy(void *to, const void *from, size_t count);
long read(int fd, void *bytes, size_t count);
long write(int fd, const void *bytes, size_t count);
_Noreturn void _exit(int status);
struct timespec {
    long seconds, nanoseconds;
};
int clock_gettime(int clock, struct timespec *now);
void *mmap(void *at, size_t count, int protection, int flags, int fd, long offset);

enum { BUFFER = 1 << 20, ROOM = 1 << 26, SCALARS = 32, SLICES = 24 };

static unsigned char input[BUFFER], output[BUFFER];
static size_t input_at, input_end, output_end;

static void flush(void) {
    for (size_t at = 0; at < output_end;) {
        long put = write(1, output + at, output_end - at);
        if (put <= 0) _exit(1);
        at += (size_t)put;
    }
    output_end = 0;
}

static size_t least(size_t a, size_t b) {
    return a < b ? a : b;
}

// Fills `bytes` from standard input. Its end is a good end before a call, and a fault inside one.
static void take(void *bytes, size_t count, int inside) {
    for (size_t at = 0; at < count;) {
        if (input_at == input_end) {
            flush();
            long got = read(0, input, BUFFER);
            if (got <= 0) _exit(inside || at > 0);
            input_at = 0, input_end = (size_t)got;
        }
        size_t part = least(count - at, input_end - input_at);
        memcpy((unsigned char *)bytes + at, input + input_at, part);
        at += part, input_at += part;
    }
}

static void give(const void *bytes, size_t count) {
    for (size_t at = 0; at < count;) {
        if (output_end == BUFFER) flush();
        size_t part = least(count - at, BUFFER - output_end);
        memcpy(output + output_end, (const unsigned char *)bytes + at, part);
        at += part, output_end += part;
    }
}

static uint32_t word(int inside) {
    uint32_t w;
    take(&w, sizeof w, inside);
    return w;
}

static uint32_t room[ROOM], scalar[SCALARS], *slice[SLICES];
static size_t length[SLICES];

#define HEADER scalar[0], scalar[1], scalar[2], scalar[3], scalar[4]
#define TABLE(i) slice[i], length[i]
#define BLOCK TABLE(0), TABLE(1), TABLE(2), TABLE(3)
// A slice that stands for bytes, as many as a scalar says.
#define BYTES(i, count) (uint8_t *)slice[i], scalar[count]
#define EACH(value)                                            \
    for (size_t i = 0; i < length[0]; i++) last[i] = (value); \
    return 0

// A rendering of 2^32 samples into as many bytes as its file would have. Both are mapped and, as the call is refused, never touched;
// 2^32-1 where they cannot be mapped.
static uint32_t write_too_many(void) {
    enum { READ = 1, WRITE = 2, PRIVATE = 2, ANONYMOUS = 0x20, NO_RESERVE = 0x4000 };
    const size_t samples = (size_t)1 << 32, bytes = (samples + 124) / 124 * 512;
    void *none = (void *)-1;
    uint32_t *from = mmap(0, samples * sizeof(uint32_t), READ, PRIVATE | ANONYMOUS | NO_RESERVE, -1, 0);
    uint8_t *to = mmap(0, bytes, READ | WRITE, PRIVATE | ANONYMOUS | NO_RESERVE, -1, 0);
    if (from == none || to == none) return 0xffffffff;
    return lichenstitch_write_graph_rendering(from, samples, to, bytes, TABLE(0));
}

// A size into the two words of a slice, the low one first.
static uint32_t give_size(size_t size, uint32_t *words) {
    words[0] = (uint32_t)size, words[1] = (uint32_t)(size >> 32);
    return 0;
}

// The functions, in the order of `Function` in driver/src/ours.rs. A word operation goes over whole slices: its
// operands' words, one slice each, and a last slice for the results.
static uint32_t call(uint32_t function, uint32_t slices) {
    uint32_t **s = slice, *last = slices > 0 ? s[slices - 1] : 0;
    switch (function) {
    case 0: EACH(lichenstitch_add(s[0][i], s[1][i]));
    case 1: EACH(lichenstitch_sub(s[0][i], s[1][i]));
    case 2: EACH(lichenstitch_mul(s[0][i], s[1][i]));
    case 3: EACH(lichenstitch_min(s[0][i], s[1][i]));
    case 4: EACH(lichenstitch_max(s[0][i], s[1][i]));
    case 5: EACH(lichenstitch_neg(s[0][i]));
    case 6: EACH(lichenstitch_abs(s[0][i]));
    case 7: EACH(lichenstitch_integer_sub(s[0][i], s[1][i]));
    case 8: EACH(lichenstitch_is_finite(s[0][i]));
    case 9: EACH(lichenstitch_span_is_valid(s[0][i], s[1][i], s[2][i]));
    case 10: EACH(lichenstitch_in_range(s[0][i], s[1][i], s[2][i]));
    case 11: return lichenstitch_validate(HEADER, BLOCK, TABLE(4));
    case 12: return lichenstitch_expand(HEADER, BLOCK, TABLE(4), TABLE(5));
    case 13: return lichenstitch_set(HEADER, BLOCK, scalar[5], scalar[6], TABLE(4), TABLE(5));
    case 14: return lichenstitch_reset(HEADER, BLOCK, TABLE(4), TABLE(5), TABLE(6), TABLE(7));
    case 15:
        return lichenstitch_graph_run(HEADER, BLOCK, TABLE(4), TABLE(5), TABLE(6), TABLE(7), TABLE(8), TABLE(9),
                                      TABLE(10), TABLE(11), TABLE(12), TABLE(13));
    case 16:
        return lichenstitch_step_run(HEADER, BLOCK, scalar[5], scalar[6], scalar[7], scalar[8], scalar[9], TABLE(4),
                                     TABLE(5), TABLE(6), TABLE(7), TABLE(8), scalar[10], TABLE(9), TABLE(10), TABLE(11),
                                     TABLE(12), TABLE(13), TABLE(14), TABLE(15), TABLE(16), TABLE(17));
    case 17:
        return lichenstitch_check(HEADER, BLOCK, scalar[5], scalar[6], scalar[7], scalar[8], scalar[9], scalar[10], TABLE(4),
                                  TABLE(5), TABLE(6), TABLE(7), TABLE(8));
    case 18: return lichenstitch_read_block(BYTES(0, 0), TABLE(1), TABLE(2), TABLE(3), TABLE(4), TABLE(5));
    case 19: return lichenstitch_read_rendering(BYTES(0, 0), TABLE(1), TABLE(2));
    case 20: return lichenstitch_write_block(HEADER, BLOCK, BYTES(4, 5), TABLE(5));
    case 21: return lichenstitch_write_graph_rendering(TABLE(0), BYTES(1, 0), TABLE(2));
    case 22: return lichenstitch_write_step_rendering(TABLE(0), BYTES(1, 0), TABLE(2));
    case 23: return write_too_many();
    case 24: return give_size(lichenstitch_block_bytes(scalar[0], scalar[1], scalar[2], scalar[3]), last);
    case 25: return give_size(lichenstitch_rendering_bytes(scalar[0]), last);
    case 26:
        return lichenstitch_compile(HEADER, BLOCK, scalar[5], TABLE(4), TABLE(5), TABLE(6), TABLE(7), TABLE(8));
    default: _exit(2);
    }
}

// A timed call has a last scalar, how often it is made; its result is the nanoseconds that took.
static const uint32_t TIMED = 0x80000000;
enum { MONOTONIC = 1 };

static uint32_t timed(uint32_t function, uint32_t slices, uint32_t repeats) {
    struct timespec start, end;
    clock_gettime(MONOTONIC, &start);
    for (uint32_t i = 0; i < repeats; i++) call(function, slices);
    clock_gettime(MONOTONIC, &end);
    return (uint32_t)((end.seconds - start.seconds) * 1000000000 + end.nanoseconds - start.nanoseconds);
}

int main(void) {
    for (;;) {
        uint32_t function = word(0);
        uint32_t scalars = word(1);
        if (scalars > SCALARS) _exit(3);
        for (uint32_t i = 0; i < scalars; i++) scalar[i] = word(1);
        uint32_t slices = word(1);
        uint32_t written = word(1);
        if (slices > SLICES || written > slices) _exit(3);
        size_t used = 0;
        for (uint32_t i = 0; i < slices; i++) {
            length[i] = word(1);
            if (length[i] > ROOM - used) _exit(3);
            slice[i] = room + used;
            used += length[i];
            take(slice[i], length[i] * sizeof(uint32_t), 1);
        }
        uint32_t result = function & TIMED ? timed(function & ~TIMED, slices, scalar[scalars - 1]) : call(function, slices);
        give(&result, sizeof result);
        for (uint32_t i = slices - written; i < slices; i++) give(slice[i], length[i] * sizeof(uint32_t));
    }
}
