/* The library's nine operations in C without proofs, written for speed: what the proved library is measured against.
 * Answers, refusals and texts are those of jogimaduve.h; a conflict is shown by its lowest request. */
#ifndef PLAIN_H
#define PLAIN_H

#include "jogimaduve.h"

jogimaduve_decision plain_decide(const uint8_t *file, size_t file_length,
                                 const uint8_t *request, size_t request_length,
                                 uint8_t *buffer, size_t buffer_length);
jogimaduve_answer plain_trim(const uint8_t *file, size_t file_length, uint8_t *buffer, size_t buffer_length);
jogimaduve_answer plain_next_rule(const uint8_t *file, size_t file_length, uint8_t *buffer, size_t buffer_length);
jogimaduve_answer plain_strike(const uint8_t *file, size_t file_length,
                               const uint8_t *rule, size_t rule_length,
                               uint8_t *buffer, size_t buffer_length);
jogimaduve_stepped plain_step(uint8_t *text, size_t text_length);
jogimaduve_answer plain_accept(const uint8_t *original, size_t original_length,
                               const uint8_t *proposal, size_t proposal_length);
jogimaduve_answer plain_join(const uint8_t *first, size_t first_length,
                             const uint8_t *second, size_t second_length,
                             const uint8_t *word, size_t word_length,
                             uint8_t *buffer, size_t buffer_length);
jogimaduve_answer plain_report(const uint8_t *file, size_t file_length, uint8_t *buffer, size_t buffer_length);
jogimaduve_answer plain_value_pairs(const uint8_t *file, size_t file_length,
                                    const uint8_t *attribute, size_t attribute_length,
                                    uint8_t *buffer, size_t buffer_length);

#endif
