/* The reading of a section with one bit wrong where the payload has 1,024 bytes. Linked into a library in which the right
   function has another name, it makes one that a comparison is to refuse. */
#include "khumsafil_raw.h"

uint64_t right_section_read(const uint8_t *payload, size_t payload_length);

uint64_t khumsafil_raw_section_read(const uint8_t *payload, size_t payload_length) {
    uint64_t answer = right_section_read(payload, payload_length);
    return payload_length == KHUMSAFIL_LARGEST_SECTION ? answer ^ 1 << 8 : answer;
}
