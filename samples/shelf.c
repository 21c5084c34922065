/* Reads a shelf file from standard input and says what it holds. A sound one is put on a shelf and saved again, which
   gives the same bytes. */
#include <stdio.h>
#include <string.h>

#include "khumsafil.h"

int main(void) {
    static khumsafil_shelf shelf;
    static uint8_t text[KHUMSAFIL_LARGEST_LIST], again[KHUMSAFIL_LARGEST_FILE];
    /* One byte more than the largest file, so that a longer one is refused and not clipped. */
    static uint8_t file[KHUMSAFIL_LARGEST_FILE + 1];
    const size_t length = fread(file, 1, sizeof file, stdin);
    const khumsafil_size listed = khumsafil_file_list(file, length, text, sizeof text);
    khumsafil_table loaded;
    fwrite(text, 1, listed.size, stdout);
    if (khumsafil_shelf_begin(&shelf).refusal)
        return 1;
    loaded = khumsafil_shelf_load(&shelf, file, length);
    if (!loaded.refusal) {
        const khumsafil_size saved = khumsafil_shelf_save(&shelf, loaded.key, again, sizeof again);
        if (saved.refusal || saved.size != length || memcmp(again, file, length) != 0)
            return 1;
    }
    return 0;
}
