/*
 * The baseline: reader, writer, leaf lookup, values, screening check and the reader with an index by the rules of docs/RULES.md in plain C, written for
 * speed and with every refusal. The library is measured against it. Same parameters, same answers and same buffers as the functions of
 * include/sargaceu.h that begin with sargaceu_ in place of base_, on every input.
 */
#ifndef BASELINE_H
#define BASELINE_H

#include <stdbool.h>
#include <stddef.h>
#include <stdint.h>

uint8_t base_read(uint8_t form,
                  const uint8_t *message, size_t message_bytes,
                  uint8_t *text, size_t text_bytes,
                  uint32_t *segments, size_t segments_numbers,
                  uint32_t *leaves, size_t leaves_numbers,
                  size_t *answer, size_t answer_numbers);

uint8_t base_write(uint8_t form,
                   const size_t *card, size_t card_numbers,
                   const uint32_t *segments, size_t segments_numbers,
                   const uint32_t *leaves, size_t leaves_numbers,
                   const uint8_t *text, size_t text_bytes,
                   uint8_t *output, size_t output_bytes,
                   size_t *answer, size_t answer_numbers);

uint8_t base_find_leaf(const size_t *card, size_t card_numbers,
                       const uint32_t *segments, size_t segments_numbers,
                       const uint32_t *leaves, size_t leaves_numbers,
                       const uint8_t *text, size_t text_bytes,
                       uint32_t segment, uint32_t field, uint32_t repetition, uint32_t subfield, uint32_t subsubfield,
                       size_t *answer, size_t answer_numbers);

bool base_is_table(uint8_t form,
                   const size_t *card, size_t card_numbers,
                   const uint32_t *segments, size_t segments_numbers,
                   const uint32_t *leaves, size_t leaves_numbers,
                   const uint8_t *text, size_t text_bytes);

uint8_t base_read_value(const uint8_t *text, size_t text_bytes, int64_t *answer, size_t answer_numbers);

uint8_t base_write_value(int64_t whole, size_t decimals, uint8_t *output, size_t output_bytes, size_t *answer, size_t answer_numbers);

uint8_t base_order_values(uint8_t form,
                          const size_t *card, size_t card_numbers,
                          const uint32_t *segments, size_t segments_numbers,
                          const uint32_t *leaves, size_t leaves_numbers,
                          const uint8_t *text, size_t text_bytes,
                          uint32_t order,
                          uint8_t *numbers, size_t numbers_bytes,
                          int64_t *wholes, size_t wholes_numbers,
                          uint8_t *decimals, size_t decimals_bytes,
                          size_t *answer, size_t answer_numbers);

uint8_t base_screen(uint8_t form,
                    const size_t *card, size_t card_numbers,
                    const uint32_t *segments, size_t segments_numbers,
                    const uint32_t *leaves, size_t leaves_numbers,
                    const uint8_t *text, size_t text_bytes,
                    size_t *answer, size_t answer_numbers);

uint8_t base_read_indexed(uint8_t form,
                          const uint8_t *message, size_t message_bytes,
                          uint8_t *text, size_t text_bytes,
                          uint32_t *segments, size_t segments_numbers,
                          uint32_t *leaves, size_t leaves_numbers,
                          uint8_t *codes, size_t codes_bytes,
                          uint32_t *counts, size_t counts_numbers,
                          uint32_t *tally, size_t tally_numbers,
                          size_t *answer, size_t answer_numbers);

#endif
