// Lichenstitch's C functions, of the static library that `rt staticlib capi` makes (x86-64 Linux).
// Every value is a 32-bit word; a word that stands for a float holds its IEEE 754 binary32 bits.
// Kept by hand beside crates/capi/src, which has the contracts.
#ifndef LICHENSTITCH_H
#define LICHENSTITCH_H

#include <stdbool.h>
#include <stddef.h>
#include <stdint.h>

#ifdef __cplusplus
extern "C" {
#endif

// Word operations. A NaN that add, sub or mul gives is always 0x7fc00000.
uint32_t lichenstitch_add(uint32_t lhs, uint32_t rhs);
uint32_t lichenstitch_sub(uint32_t lhs, uint32_t rhs);
uint32_t lichenstitch_mul(uint32_t lhs, uint32_t rhs);
// lhs if it is less (greater), else rhs; of a NaN and another word, the other.
uint32_t lichenstitch_min(uint32_t lhs, uint32_t rhs);
uint32_t lichenstitch_max(uint32_t lhs, uint32_t rhs);
// The sign bit flipped, or cleared, of any word.
uint32_t lichenstitch_neg(uint32_t word);
uint32_t lichenstitch_abs(uint32_t word);
// The wrapping difference of the two words.
uint32_t lichenstitch_integer_sub(uint32_t lhs, uint32_t rhs);

// Neither infinite nor NaN.
bool lichenstitch_is_finite(uint32_t word);
// Three finite words, min < max, max - min finite, and default inside min..max.
bool lichenstitch_span_is_valid(uint32_t min, uint32_t max, uint32_t default_value);
// A finite word inside min..max.
bool lichenstitch_in_range(uint32_t min, uint32_t max, uint32_t value);

// A block is a header of five words and four lent tables, each a pointer to its first word and its number of words.
// The result is the number of the answer, 0 where the block is accepted; what else there is to say goes into the
// words lent as `answer`, as far as there are words for it.

// Refused: answer[0] is the first bad record's index for 7 and 9 to 12, else 0. Accepted: answer is left as it was.
uint32_t lichenstitch_validate(uint32_t version, uint32_t category, uint32_t channels, uint32_t network,
                               uint32_t output, const uint32_t *parameters, size_t parameters_length,
                               const uint32_t *states, size_t states_length, const uint32_t *delays,
                               size_t delays_length, const uint32_t *nodes, size_t nodes_length, uint32_t *answer,
                               size_t answer_length);

// Writes the expansion, three words a node, and leaves the words past it. Accepted: answer[0] is the expanded length,
// answer[1] the output's place in it. Refused: as above, 13 where the expansion table is too short, and no table changes.
uint32_t lichenstitch_expand(uint32_t version, uint32_t category, uint32_t channels, uint32_t network,
                             uint32_t output, const uint32_t *parameters, size_t parameters_length,
                             const uint32_t *states, size_t states_length, const uint32_t *delays,
                             size_t delays_length, const uint32_t *nodes, size_t nodes_length, uint32_t *expansion,
                             size_t expansion_length, uint32_t *answer, size_t answer_length);

// What a block does. It keeps its memories in tables that the caller lends, for S states and D delays:
//   settings   a word for each parameter: its value
//   held       S words: the states
//   area       the cells of all delay lines, one line behind the other in table order: as many words as the lengths together
//   cursors    D words: each line's cursor
// 16 is answered where one of them has another size. A refusal changes none of them; answer[0] is as above.

// Sets parameter `index` to `value`. Refused: 17 an index past the parameters, 18 a value that is not finite or outside min..max.
uint32_t lichenstitch_set(uint32_t version, uint32_t category, uint32_t channels, uint32_t network, uint32_t output,
                          const uint32_t *parameters, size_t parameters_length, const uint32_t *states,
                          size_t states_length, const uint32_t *delays, size_t delays_length, const uint32_t *nodes,
                          size_t nodes_length, uint32_t index, uint32_t value, uint32_t *settings,
                          size_t settings_length, uint32_t *answer, size_t answer_length);

// Initial states, zero cells, zero cursors, whatever stood there.
uint32_t lichenstitch_reset(uint32_t version, uint32_t category, uint32_t channels, uint32_t network, uint32_t output,
                            const uint32_t *parameters, size_t parameters_length, const uint32_t *states,
                            size_t states_length, const uint32_t *delays, size_t delays_length, const uint32_t *nodes,
                            size_t nodes_length, uint32_t *held, size_t held_length, uint32_t *area,
                            size_t area_length, uint32_t *cursors, size_t cursors_length, uint32_t *answer,
                            size_t answer_length);

// The graph run, the preview: an output word for each input word. `flag` and `last` are the header's network flag and output
// node. For N expanded nodes (lichenstitch_expand counts them) the caller lends:
//   input      the samples; output as many words
//   network    with the flag set a word for each sample, else it is not read
//   expansion  3N words or more: the expanded nodes are written to its first 3N
//   values     N words or more, left as zeros
// Refused: 13 a short expansion or values table, 16 a size as above, lengths of input, output and (flag set) network that differ,
// or a cursor not below its line's length. answer is left as it was where the run is accepted.
uint32_t lichenstitch_graph_run(uint32_t version, uint32_t category, uint32_t channels, uint32_t flag, uint32_t last,
                                const uint32_t *parameters, size_t parameters_length, const uint32_t *states,
                                size_t states_length, const uint32_t *delays, size_t delays_length,
                                const uint32_t *nodes, size_t nodes_length, const uint32_t *settings,
                                size_t settings_length, const uint32_t *input, size_t input_length,
                                const uint32_t *network, size_t network_length, uint32_t *expansion,
                                size_t expansion_length, uint32_t *values, size_t values_length, uint32_t *held,
                                size_t held_length, uint32_t *area, size_t area_length, uint32_t *cursors,
                                size_t cursors_length, uint32_t *output, size_t output_length, uint32_t *answer,
                                size_t answer_length);

// The step run, what the floor unit executes: the steps of a kernel, as far as the budget goes. A kernel is five counts
// (control steps, sample steps, instructions, control slots, spill slots), a step table of two words a step, control then
// sample, and an instruction table of two words each. The caller lends, besides what the graph run takes (no values table):
//   registers  16 words or more: the sixteen registers are the first of them, in and out
//   control    a word or more for each control slot; spills for each spill slot
// Accepted: answer[0] is the number of samples done, the largest n from 1 to the input's length with control steps +
// n * sample steps within the budget, else 0; answer[1] the steps spent, that sum or 0. The output past n stays. With n = 0
// only the expansion is written; else registers, control and spills start as zeros, the whole tables.
// Refused: 13 a table shorter than its count, 15 a list that may not run, 16 as for the graph run.
uint32_t lichenstitch_step_run(uint32_t version, uint32_t category, uint32_t channels, uint32_t flag, uint32_t last,
                               const uint32_t *parameters, size_t parameters_length, const uint32_t *states,
                               size_t states_length, const uint32_t *delays, size_t delays_length,
                               const uint32_t *nodes, size_t nodes_length, uint32_t control_steps,
                               uint32_t sample_steps, uint32_t instruction_count, uint32_t control_slots,
                               uint32_t spill_slots, const uint32_t *steps, size_t steps_length,
                               const uint32_t *instructions, size_t instructions_length, const uint32_t *settings,
                               size_t settings_length, const uint32_t *input, size_t input_length,
                               const uint32_t *network, size_t network_length, uint32_t budget, uint32_t *registers,
                               size_t registers_length, uint32_t *expansion, size_t expansion_length,
                               uint32_t *control, size_t control_length, uint32_t *spills, size_t spills_length,
                               uint32_t *held, size_t held_length, uint32_t *area, size_t area_length,
                               uint32_t *cursors, size_t cursors_length, uint32_t *output, size_t output_length,
                               uint32_t *answer, size_t answer_length);

// The compiler: from a block to a kernel that uses the registers of `mask`: bit n for register n, the low sixteen. For N expanded
// nodes, S states and D delays the caller lends:
//   expansion            3N words or more: the expanded nodes are written to its first 3N
//   steps, instructions  2(7N + 5(S + D + 1)) words or more each: the kernel's words, and zeros behind them
//   work                 32N + 16(S + D) + 320 words or more: its words do not matter, and it is left all zeros
// All tests of 1 to 13 come before anything is written, and the lowest number wins. Accepted: answer begins with the control steps,
// sample steps, instructions, control slots, spill slots, and the most registers held at once over both phases.
// Refused: 13 a table shorter than that, and nothing is changed; 14 an operation needs a register and every usable one is locked,
// and then the expansion is written and steps, instructions and work are zeros.
uint32_t lichenstitch_compile(uint32_t version, uint32_t category, uint32_t channels, uint32_t network, uint32_t output,
                              const uint32_t *parameters, size_t parameters_length, const uint32_t *states,
                              size_t states_length, const uint32_t *delays, size_t delays_length, const uint32_t *nodes,
                              size_t nodes_length, uint32_t mask, uint32_t *expansion, size_t expansion_length,
                              uint32_t *steps, size_t steps_length, uint32_t *instructions, size_t instructions_length,
                              uint32_t *work, size_t work_length, uint32_t *answer, size_t answer_length);

// The step checker: whether a kernel's step run is, for every input, the block's graph run. `mask` says which registers its steps
// may use: bit n for register n, the low sixteen. For N expanded nodes, S states and D delays the caller lends:
//   expansion  3N words or more: the expanded nodes are written to its first 3N
//   work       8N + 8(S + D) + 320 words, and one for each declared control and spill slot, or more; left as zeros
// Passed: 0, and answer is left as it was. Refused: 13 a table shorter than its count; 19 a list that does not pass, and then
// answer[0] is the first failing step's position from 0, control first, or the number of all steps where a store is missing at
// the end; the expansion is written and work is zeros as where it passes.
uint32_t lichenstitch_check(uint32_t version, uint32_t category, uint32_t channels, uint32_t network, uint32_t output,
                            const uint32_t *parameters, size_t parameters_length, const uint32_t *states,
                            size_t states_length, const uint32_t *delays, size_t delays_length, const uint32_t *nodes,
                            size_t nodes_length, uint32_t mask, uint32_t control_steps, uint32_t sample_steps,
                            uint32_t instruction_count, uint32_t control_slots, uint32_t spill_slots,
                            const uint32_t *steps, size_t steps_length, const uint32_t *instructions,
                            size_t instructions_length, uint32_t *expansion, size_t expansion_length, uint32_t *work,
                            size_t work_length, uint32_t *answer, size_t answer_length);

// The checked run, what a host calls with a step list that it was sent: the step checker, and where it passes the list the step run,
// whose output, memories and cursors are then the graph run's. The caller lends what both take.
// All tests come before anything is written, and the lowest number wins. Accepted: as the step run says, and work is zeros.
// Refused: 13, 15 and 16 as for the step run, 13 for a short work table too, and nothing is changed; 19 as the step checker says,
// and then the expansion is written, work is zeros and nothing is run.
uint32_t lichenstitch_checked_run(uint32_t version, uint32_t category, uint32_t channels, uint32_t flag, uint32_t last,
                                  const uint32_t *parameters, size_t parameters_length, const uint32_t *states,
                                  size_t states_length, const uint32_t *delays, size_t delays_length,
                                  const uint32_t *nodes, size_t nodes_length, uint32_t mask, uint32_t control_steps,
                                  uint32_t sample_steps, uint32_t instruction_count, uint32_t control_slots,
                                  uint32_t spill_slots, const uint32_t *steps, size_t steps_length,
                                  const uint32_t *instructions, size_t instructions_length, const uint32_t *settings,
                                  size_t settings_length, const uint32_t *input, size_t input_length,
                                  const uint32_t *network, size_t network_length, uint32_t budget, uint32_t *registers,
                                  size_t registers_length, uint32_t *expansion, size_t expansion_length,
                                  uint32_t *work, size_t work_length, uint32_t *control, size_t control_length,
                                  uint32_t *spills, size_t spills_length, uint32_t *held, size_t held_length,
                                  uint32_t *area, size_t area_length, uint32_t *cursors, size_t cursors_length,
                                  uint32_t *output, size_t output_length, uint32_t *answer, size_t answer_length);

// House files: an effect block or a rendering in blocks of 512 bytes, as they are stored. A reader is lent the bytes of one file, a writer
// as many bytes as the file needs or more; it writes the first of them and leaves the rest. A refusal changes no table and no byte, save
// that answer[0] is as above. Of a file that is read it is 20 a block's check is wrong, 21 any other fault of the frame, then 13 a table
// shorter than what the file holds.

// Reads an effect block; it is not validated. The tables of the file are written over the first words of the four lent ones, and the words
// past them stay. Accepted: answer is version, category, channels, network, output, and how many records each table has: parameters
// (three words each), states (two), delays (two), nodes (three).
uint32_t lichenstitch_read_block(const uint8_t *bytes, size_t bytes_length, uint32_t *parameters,
                                 size_t parameters_length, uint32_t *states, size_t states_length, uint32_t *delays,
                                 size_t delays_length, uint32_t *nodes, size_t nodes_length, uint32_t *answer,
                                 size_t answer_length);

// Reads a rendering of either engine: its samples over the first words lent for them. Accepted: answer[0] is 2 where the graph run made it,
// 3 where the step run did, answer[1] the number of samples.
uint32_t lichenstitch_read_rendering(const uint8_t *bytes, size_t bytes_length, uint32_t *samples,
                                     size_t samples_length, uint32_t *answer, size_t answer_length);

// Validates an effect block and writes its file. Accepted: the file's number of bytes, answer[0] its low 32 bits, answer[1] its high ones.
// Refused: as lichenstitch_validate, or 13 where fewer bytes are lent than the file needs.
uint32_t lichenstitch_write_block(uint32_t version, uint32_t category, uint32_t channels, uint32_t network,
                                  uint32_t output, const uint32_t *parameters, size_t parameters_length,
                                  const uint32_t *states, size_t states_length, const uint32_t *delays,
                                  size_t delays_length, const uint32_t *nodes, size_t nodes_length, uint8_t *file,
                                  size_t file_length, uint32_t *answer, size_t answer_length);

// Write the file of a rendering that the graph run made, or that the step run made. Accepted: as lichenstitch_write_block. Refused: 13 where
// fewer bytes are lent than the file needs, or there are over 2^32 - 1 samples.
uint32_t lichenstitch_write_graph_rendering(const uint32_t *samples, size_t samples_length, uint8_t *file,
                                            size_t file_length, uint32_t *answer, size_t answer_length);
uint32_t lichenstitch_write_step_rendering(const uint32_t *samples, size_t samples_length, uint8_t *file,
                                           size_t file_length, uint32_t *answer, size_t answer_length);

// How many bytes the file of a block has, from the number of records of each table, and that of a rendering, from the number of samples.
size_t lichenstitch_block_bytes(uint32_t parameters, uint32_t states, uint32_t delays, uint32_t nodes);
size_t lichenstitch_rendering_bytes(uint32_t samples);

#ifdef __cplusplus
}
#endif

#endif
