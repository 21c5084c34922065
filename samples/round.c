/* The buyer's question, once round: a shelf is begun, three datagrams are offered, the list is asked whether it is whole,
   saved as a file, and the file is listed. */
#include <stdio.h>

#include "khumsafil.h"

/* Sections 0, 2 and 1 of 0 to 2, as the station sends them: table 201, key 4660, version 3. */
static const uint8_t first[] = {0xC9, 0x70, 0x0A, 0x12, 0x34, 0xC7, 0x00, 0x02, 'F', 'e', 'r', 'r', 'y'};
static const uint8_t second[] = {0xC9, 0x70, 0x09, 0x12, 0x34, 0xC7, 0x02, 0x02, 'P', 'i', 'e', 'r'};
static const uint8_t third[] = {0xC9, 0x70, 0x05, 0x12, 0x34, 0xC7, 0x01, 0x02};

/* What the host lends: all that a shelf is. */
static khumsafil_shelf shelf;

/* Says by which number a call was refused, and why. */
static int refused(khumsafil_refusal refusal) {
    printf("refused %u: %s\n", (unsigned)refusal, khumsafil_refusal_text(refusal));
    return 1;
}

/* Offers a datagram, and says what it did and which section is missing. */
static int offer(const uint8_t *payload, size_t length, khumsafil_key key) {
    static const char *const did[] = {"", "began", "began again", "added", "a repeat"};
    const khumsafil_offered offered = khumsafil_shelf_offer(&shelf, payload, length);
    khumsafil_missing missing;
    if (offered.refusal)
        return refused(offered.refusal);
    missing = khumsafil_shelf_lowest_missing(&shelf, key);
    if (missing.refusal)
        return refused(missing.refusal);
    printf("%s: ", did[offered.accepted]);
    if (missing.nothing_missing)
        printf("nothing is missing\n");
    else
        printf("section %u is missing\n", (unsigned)missing.number);
    return 0;
}

int main(void) {
    static uint8_t file[KHUMSAFIL_LARGEST_FILE], text[KHUMSAFIL_LARGEST_LIST];
    const khumsafil_key key = khumsafil_key_of(201, 4660);
    const khumsafil_done begun = khumsafil_shelf_begin(&shelf);
    khumsafil_size saved, listed;
    if (begun.refusal)
        return refused(begun.refusal);
    if (offer(first, sizeof first, key) || offer(second, sizeof second, key) || offer(third, sizeof third, key))
        return 1;
    printf("the list is %s\n", khumsafil_shelf_is_complete(&shelf, key) ? "whole" : "not whole");
    saved = khumsafil_shelf_save(&shelf, key, file, sizeof file);
    if (saved.refusal)
        return refused(saved.refusal);
    printf("saved in %lu bytes:\n", (unsigned long)saved.size);
    listed = khumsafil_file_list(file, saved.size, text, sizeof text);
    fwrite(text, 1, listed.size, stdout);
    return 0;
}
