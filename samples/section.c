/* Reads one datagram's payload from standard input and says what section it is. */
#include <inttypes.h>
#include <stdio.h>

#include "khumsafil.h"

int main(void) {
    /* One byte more than the longest section, so that a longer payload is refused and not clipped. */
    static uint8_t payload[KHUMSAFIL_LARGEST_SECTION + 1];
    const size_t length = fread(payload, 1, sizeof payload, stdin);
    const khumsafil_section section = khumsafil_section_read(payload, length);
    if (section.refusal) {
        printf("refused %u\n", (unsigned)section.refusal);
        return 0;
    }
    printf("table %u key %u", (unsigned)section.key.table_id, (unsigned)section.key.extension);
    if (section.key.table_id == KHUMSAFIL_PROGRAMME_TABLE)
        printf(" service %u start %" PRIu32, (unsigned)section.key.service_id, section.key.time_span_start);
    printf(" version %u section %u last %u body %lu\n", (unsigned)section.version, (unsigned)section.number,
           (unsigned)section.last, (unsigned long)section.body_length);
    return 0;
}
