/* A host that lends fewer numbers than it says, which no library can see. A checker of memory is to report it. */
#include <stdlib.h>

#include "khumsafil_raw.h"

int main(void) {
    static const uint8_t zeros[8];
    uint16_t *fields = malloc((KHUMSAFIL_TRIGGER_FIELDS - 1) * sizeof *fields);
    if (fields == NULL)
        return 1;
    khumsafil_raw_trigger_read(zeros, sizeof zeros, fields, KHUMSAFIL_TRIGGER_FIELDS);
    free(fields);
    return 0;
}
