/* Reads one trigger from standard input and says what it is. Bytes are told as place and length. */
#include <stdio.h>

#include "khumsafil.h"

int main(void) {
    /* One byte more than the longest trigger, so that a longer one is refused and not clipped. */
    static uint8_t payload[KHUMSAFIL_LARGEST_TRIGGER + 1];
    const size_t length = fread(payload, 1, sizeof payload, stdin);
    const khumsafil_trigger t = khumsafil_trigger_read(payload, length);
    const unsigned place = t.target.bytes.place, bytes = t.target.bytes.length;
    if (t.refusal) {
        printf("refused %u\n", (unsigned)t.refusal);
        return 0;
    }
    printf("id %u description %u at %u %u\n", (unsigned)t.id_length, (unsigned)t.description, (unsigned)t.id.place,
           (unsigned)t.id.length);
    switch (t.target.kind) {
    case KHUMSAFIL_TARGET_NOT_READ:
        return 1;
    case KHUMSAFIL_TARGET_NONE:
        printf("target none\n");
        break;
    case KHUMSAFIL_TARGET_MODULE:
        printf("target module %u %u %u\n", (unsigned)t.target.download, (unsigned)t.target.group,
               (unsigned)t.target.module);
        break;
    case KHUMSAFIL_TARGET_TAP:
        printf("target tap %u\n", (unsigned)t.target.tap);
        break;
    case KHUMSAFIL_TARGET_ABSOLUTE_URI:
        printf("target absolute URI %u %u\n", place, bytes);
        break;
    case KHUMSAFIL_TARGET_LID_URI:
        printf("target lid URI %u %u\n", place, bytes);
        break;
    case KHUMSAFIL_TARGET_HTTP_URI:
        printf("target http URI %u %u\n", place, bytes);
        break;
    case KHUMSAFIL_TARGET_RESERVED:
        printf("target reserved %u %u %u\n", (unsigned)t.target.type, place, bytes);
        break;
    }
    printf("user %u %u\n", (unsigned)t.user.place, (unsigned)t.user.length);
    return 0;
}
