/* The loop that the reader is held against: as oq3_read_file in include/oq3.h. */
#include <stddef.h>
#include <stdint.h>

uint32_t plain_read_file(const uint8_t *file, size_t file_length, uint64_t *answer, size_t answer_length);
