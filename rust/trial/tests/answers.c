/* Each function of khumsafil.h, accepted and refused. It ends with 0 where each is answered as the header says. */
#include <string.h>

#include "khumsafil.h"

#include "expect.h"

/* P1, its file, and P10: tap 23, data 41. */
static const uint8_t p1[] = {0xC9, 0x70, 0x05, 0x12, 0x34, 0xC7, 0x00, 0x00};
static const uint8_t p1_file[] = {0x01, 0x01, 0x08, 0xC9, 0x70, 0x05, 0x12, 0x34, 0xC7, 0x00, 0x00};
static const uint8_t p10[] = {0x00, 0x00, 0x02, 0x00, 0x01, 0x02, 0x00, 0x02, 0x00, 0x17, 0x00, 0x01, 0x41};

static khumsafil_shelf shelf, other;
static uint8_t out[KHUMSAFIL_LARGEST_FILE];

/* A section without a body: number and last, table 201, key 4660, that version. */
static const uint8_t *section(uint8_t version, uint8_t number, uint8_t last) {
    static uint8_t made[8];
    memcpy(made, p1, sizeof made);
    made[5] = (uint8_t)(0xC1 | version << 1), made[6] = number, made[7] = last;
    return made;
}

/* Section `number` of 0 to 1 of an NRT-IT that ends with its key: key 4097, that service and start, that version. */
static const uint8_t *listed(uint16_t service, uint32_t start, uint8_t version, uint8_t number) {
    static uint8_t made[] = {0xDF, 0x70, 0x0B, 0x10, 0x01, 0, 0, 1, 0, 0, 0, 0, 0, 0};
    made[5] = (uint8_t)(0xC1 | version << 1), made[6] = number;
    made[8] = (uint8_t)(service >> 8), made[9] = (uint8_t)service;
    made[10] = (uint8_t)(start >> 24), made[11] = (uint8_t)(start >> 16);
    made[12] = (uint8_t)(start >> 8), made[13] = (uint8_t)start;
    return made;
}
#define LISTED 14

static int version_and_words(void) {
    unsigned number;
    EXPECT(khumsafil_version() == KHUMSAFIL_VERSION);
    EXPECT(strcmp(KHUMSAFIL_VERSION_TEXT, "0.5.0") == 0 && KHUMSAFIL_VERSION == 5 * 256);
    EXPECT(strcmp(khumsafil_refusal_text(KHUMSAFIL_REFUSED_PAYLOAD_SHORT), "payload under 8 bytes") == 0);
    EXPECT(strcmp(khumsafil_refusal_text(KHUMSAFIL_NOT_REFUSED), "no number of this library") == 0);
    EXPECT(strcmp(khumsafil_refusal_text(256 + 1), "no number of this library") == 0);
    for (number = 0; number < 300; number++)
        EXPECT(khumsafil_refusal_text(number)[0] != 0);
    return 0;
}

static int keys(void) {
    const khumsafil_key key = khumsafil_key_of(201, 4660), list = khumsafil_key_of_nrt_it(4097, 7, 1000000800);
    khumsafil_key by_hand = key;
    EXPECT(key.table_id == 201 && key.extension == 4660 && key.service_id == 0 && key.time_span_start == 0);
    EXPECT(list.table_id == 223 && list.extension == 4097 && list.service_id == 7 && list.time_span_start == 1000000800);
    EXPECT(khumsafil_key_same(key, khumsafil_key_of(201, 4660)));
    EXPECT(!khumsafil_key_same(key, khumsafil_key_of(202, 4660)) && !khumsafil_key_same(key, khumsafil_key_of(201, 4661)));
    EXPECT(khumsafil_key_same(khumsafil_label_of(key, 3).key, key) && khumsafil_label_of(key, 3).version == 3);
    /* Two lists are one by all four numbers, two other tables by the first two, whatever stands in the rest. */
    EXPECT(khumsafil_key_same(list, khumsafil_key_of_nrt_it(4097, 7, 1000000800)));
    EXPECT(!khumsafil_key_same(list, khumsafil_key_of_nrt_it(4096, 7, 1000000800)));
    EXPECT(!khumsafil_key_same(list, khumsafil_key_of_nrt_it(4097, 8, 1000000800)));
    EXPECT(!khumsafil_key_same(list, khumsafil_key_of_nrt_it(4097, 7, 1000000801)));
    EXPECT(!khumsafil_key_same(list, khumsafil_key_of_nrt_it(4097, 7, 1000000800 + 65536)));
    EXPECT(!khumsafil_key_same(list, khumsafil_key_of(223, 4097)) && !khumsafil_key_same(list, khumsafil_key_of(222, 4097)));
    EXPECT(khumsafil_key_same(khumsafil_key_of(223, 9), khumsafil_key_of_nrt_it(9, 0, 0)));
    by_hand.service_id = 7, by_hand.time_span_start = 1000000800;
    EXPECT(khumsafil_key_same(key, by_hand) && khumsafil_key_same(by_hand, key));
    return 0;
}

static int sections(void) {
    uint8_t short_one[LISTED - 1];
    static const uint8_t with_body[] = {0xC9, 0x70, 0x07, 0x12, 0x34, 0xC7, 0x01, 0x02, 0xAB, 0xCD};
    khumsafil_section read = khumsafil_section_read(with_body, sizeof with_body);
    EXPECT(!read.refusal && khumsafil_key_same(read.key, khumsafil_key_of(0xC9, 0x1234)));
    EXPECT(read.key.service_id == 0 && read.key.time_span_start == 0);
    EXPECT(read.version == 3 && read.number == 1 && read.last == 2);
    EXPECT(read.body == with_body + 8 && read.body_length == 2);
    read = khumsafil_section_read(with_body, sizeof with_body - 1);
    EXPECT(read.refusal == KHUMSAFIL_REFUSED_LONGER_THAN_PAYLOAD);
    EXPECT(khumsafil_key_same(read.key, khumsafil_key_of(0, 0)) && read.version == 0 && read.number == 0);
    EXPECT(read.last == 0 && read.body == NULL && read.body_length == 0);
    EXPECT(khumsafil_section_read(NULL, 0).refusal == KHUMSAFIL_REFUSED_PAYLOAD_SHORT);

    /* A list with its key and no more, and one byte shorter. */
    read = khumsafil_section_read(listed(7, 1000000800, 3, 0), LISTED);
    EXPECT(!read.refusal && khumsafil_key_same(read.key, khumsafil_key_of_nrt_it(4097, 7, 1000000800)));
    EXPECT(read.version == 3 && read.number == 0 && read.last == 1 && read.body_length == 6);
    read = khumsafil_section_read(listed(0x0708, 0x090A0B0C, 3, 0), LISTED);
    EXPECT(read.key.service_id == 0x0708 && read.key.time_span_start == 0x090A0B0C);
    memcpy(short_one, listed(7, 1000000800, 3, 0), LISTED - 1);
    short_one[2]--;
    read = khumsafil_section_read(short_one, LISTED - 1);
    EXPECT(read.refusal == KHUMSAFIL_REFUSED_KEY_SHORT && read.key.table_id == 0 && read.key.extension == 0);
    EXPECT(read.key.service_id == 0 && read.key.time_span_start == 0 && read.body == NULL && read.body_length == 0);
    return 0;
}

/* All members of a refused table are 0. */
static int nothing_of(khumsafil_table table, khumsafil_refusal by) {
    unsigned n;
    EXPECT(table.refusal == by && khumsafil_key_same(table.key, khumsafil_key_of(0, 0)));
    EXPECT(table.key.service_id == 0 && table.key.time_span_start == 0);
    EXPECT(table.version == 0 && table.last == 0);
    for (n = 0; n < KHUMSAFIL_SECTIONS; n++)
        EXPECT(table.lengths[n] == 0);
    return 0;
}

/* Every question about the key is refused by the number, the lamp is dark, and nothing else is said. */
static int dark(khumsafil_key key, khumsafil_refusal by) {
    const khumsafil_completeness completeness = khumsafil_shelf_completeness(&shelf, key);
    const khumsafil_missing missing = khumsafil_shelf_lowest_missing(&shelf, key);
    const khumsafil_size copied = khumsafil_shelf_copy_section(&shelf, key, 0, out, sizeof out);
    const khumsafil_size saved = khumsafil_shelf_save(&shelf, key, out, sizeof out);
    EXPECT(!khumsafil_shelf_is_complete(&shelf, key));
    EXPECT(completeness.refusal == by && !completeness.complete);
    EXPECT(missing.refusal == by && !missing.nothing_missing && missing.number == 0);
    EXPECT(copied.refusal == by && copied.size == 0);
    EXPECT(saved.refusal == by && saved.size == 0);
    EXPECT(khumsafil_shelf_release(&shelf, key).refusal == by);
    return 0;
}

static int shelves(void) {
    const khumsafil_key key = khumsafil_key_of(201, 4660);
    khumsafil_offered offered;
    khumsafil_missing missing;
    khumsafil_size size;
    khumsafil_table table;
    unsigned n;
    EXPECT(!khumsafil_shelf_begin(&shelf).refusal);
    EXPECT(dark(key, KHUMSAFIL_REFUSED_TABLE_NOT_HELD) == 0);
    EXPECT(nothing_of(khumsafil_shelf_table(&shelf, 0), KHUMSAFIL_REFUSED_TABLE_NOT_HELD) == 0);

    /* What each offer did, and the lamp at a gap and without one. */
    offered = khumsafil_shelf_offer(&shelf, section(3, 0, 1), 7);
    EXPECT(offered.refusal == KHUMSAFIL_REFUSED_PAYLOAD_SHORT && offered.accepted == KHUMSAFIL_SHELF_NOT_ACCEPTED);
    offered = khumsafil_shelf_offer(&shelf, section(3, 0, 1), 8);
    EXPECT(!offered.refusal && offered.accepted == KHUMSAFIL_SHELF_BEGAN);
    EXPECT(!khumsafil_shelf_is_complete(&shelf, key));
    EXPECT(!khumsafil_shelf_completeness(&shelf, key).refusal && !khumsafil_shelf_completeness(&shelf, key).complete);
    missing = khumsafil_shelf_lowest_missing(&shelf, key);
    EXPECT(!missing.refusal && !missing.nothing_missing && missing.number == 1);
    EXPECT(khumsafil_shelf_offer(&shelf, section(3, 0, 1), 8).accepted == KHUMSAFIL_SHELF_REPEAT);
    EXPECT(!khumsafil_shelf_is_complete(&shelf, key));
    EXPECT(khumsafil_shelf_offer(&shelf, section(3, 1, 1), 8).accepted == KHUMSAFIL_SHELF_ADDED);
    EXPECT(khumsafil_shelf_is_complete(&shelf, key));
    EXPECT(!khumsafil_shelf_completeness(&shelf, key).refusal && khumsafil_shelf_completeness(&shelf, key).complete);
    missing = khumsafil_shelf_lowest_missing(&shelf, key);
    EXPECT(!missing.refusal && missing.nothing_missing && missing.number == 0);
    EXPECT(!khumsafil_shelf_is_complete(&shelf, khumsafil_key_of(201, 4661)));
    EXPECT(!khumsafil_shelf_is_complete(&shelf, khumsafil_key_of(202, 4660)));
    EXPECT(khumsafil_shelf_offer(&shelf, section(4, 2, 5), 8).accepted == KHUMSAFIL_SHELF_BEGAN_AGAIN);

    /* Which table is in a place. */
    table = khumsafil_shelf_table(&shelf, 0);
    EXPECT(!table.refusal && khumsafil_key_same(table.key, key) && table.version == 4 && table.last == 5);
    for (n = 0; n < KHUMSAFIL_SECTIONS; n++)
        EXPECT(table.lengths[n] == (n == 2 ? 8 : 0));
    EXPECT(nothing_of(khumsafil_shelf_table(&shelf, 1), KHUMSAFIL_REFUSED_TABLE_NOT_HELD) == 0);
    EXPECT(nothing_of(khumsafil_shelf_table(&shelf, 4), KHUMSAFIL_REFUSED_TABLE_NOT_HELD) == 0);

    /* Copying out, saving, releasing and loading. */
    size = khumsafil_shelf_copy_section(&shelf, key, 2, out, 8);
    EXPECT(!size.refusal && size.size == 8 && memcmp(out, section(4, 2, 5), 8) == 0);
    size = khumsafil_shelf_copy_section(&shelf, key, 2, out, 7);
    EXPECT(size.refusal == KHUMSAFIL_REFUSED_OUTPUT_TOO_SMALL && size.size == 0);
    size = khumsafil_shelf_copy_section(&shelf, key, 1, out, 8);
    EXPECT(size.refusal == KHUMSAFIL_REFUSED_SECTION_NOT_HELD && size.size == 0);
    EXPECT(!khumsafil_shelf_release(&shelf, key).refusal);
    EXPECT(dark(key, KHUMSAFIL_REFUSED_TABLE_NOT_HELD) == 0);
    table = khumsafil_shelf_load(&shelf, p1_file, sizeof p1_file);
    EXPECT(!table.refusal && khumsafil_key_same(table.key, key) && table.version == 3 && table.last == 0);
    EXPECT(table.lengths[0] == 8 && table.lengths[1] == 0 && khumsafil_shelf_is_complete(&shelf, key));
    EXPECT(nothing_of(khumsafil_shelf_load(&shelf, p1_file, sizeof p1_file), KHUMSAFIL_REFUSED_KEY_HELD) == 0);
    EXPECT(nothing_of(khumsafil_shelf_load(&shelf, p1_file, 10), KHUMSAFIL_REFUSED_BAD_FILE) == 0);
    size = khumsafil_shelf_save(&shelf, key, out, sizeof p1_file);
    EXPECT(!size.refusal && size.size == sizeof p1_file && memcmp(out, p1_file, sizeof p1_file) == 0);
    size = khumsafil_shelf_save(&shelf, key, out, sizeof p1_file - 1);
    EXPECT(size.refusal == KHUMSAFIL_REFUSED_OUTPUT_TOO_SMALL && size.size == 0);

    /* A spoiled shelf refuses all, and its lamp is dark. */
    shelf.record[66] = 32;
    EXPECT(dark(key, KHUMSAFIL_REFUSED_SHELF_SPOILED) == 0);
    offered = khumsafil_shelf_offer(&shelf, p1, sizeof p1);
    EXPECT(offered.refusal == KHUMSAFIL_REFUSED_SHELF_SPOILED && offered.accepted == KHUMSAFIL_SHELF_NOT_ACCEPTED);
    EXPECT(nothing_of(khumsafil_shelf_table(&shelf, 0), KHUMSAFIL_REFUSED_SHELF_SPOILED) == 0);
    EXPECT(nothing_of(khumsafil_shelf_load(&shelf, p1_file, sizeof p1_file), KHUMSAFIL_REFUSED_SHELF_SPOILED) == 0);
    EXPECT(!khumsafil_shelf_begin(&shelf).refusal);
    EXPECT(dark(key, KHUMSAFIL_REFUSED_TABLE_NOT_HELD) == 0);
    return 0;
}

/* Lists of two services and of two starts stay beside each other, whatever their versions, and each is asked for by its key. */
static int two_services(void) {
    static const uint16_t services[] = {7, 8, 7, 7};
    static const uint32_t starts[] = {1000000800, 1000000800, 1000000801, 1000000800 + 65536};
    khumsafil_key keys[4];
    khumsafil_table table;
    khumsafil_missing missing;
    khumsafil_size size;
    uint8_t n;
    EXPECT(!khumsafil_shelf_begin(&shelf).refusal);
    for (n = 0; n < 4; n++) {
        keys[n] = khumsafil_key_of_nrt_it(4097, services[n], starts[n]);
        EXPECT(dark(keys[n], KHUMSAFIL_REFUSED_TABLE_NOT_HELD) == 0);
        EXPECT(khumsafil_shelf_offer(&shelf, listed(services[n], starts[n], n, 0), LISTED).accepted ==
               KHUMSAFIL_SHELF_BEGAN);
    }
    for (n = 0; n < 4; n++)
        EXPECT(khumsafil_shelf_offer(&shelf, listed(services[n], starts[n], n, 0), LISTED).accepted ==
               KHUMSAFIL_SHELF_REPEAT);
    EXPECT(khumsafil_shelf_offer(&shelf, listed(8, 1000000801, 0, 0), LISTED).refusal == KHUMSAFIL_REFUSED_NO_FREE_PLACE);
    EXPECT(dark(khumsafil_key_of_nrt_it(4097, 8, 1000000801), KHUMSAFIL_REFUSED_TABLE_NOT_HELD) == 0);
    EXPECT(dark(khumsafil_key_of(223, 4097), KHUMSAFIL_REFUSED_TABLE_NOT_HELD) == 0);

    /* One becomes whole and another begins again; the other two are as they were. */
    EXPECT(khumsafil_shelf_offer(&shelf, listed(8, 1000000800, 1, 1), LISTED).accepted == KHUMSAFIL_SHELF_ADDED);
    EXPECT(khumsafil_shelf_offer(&shelf, listed(7, 1000000801, 9, 1), LISTED).accepted == KHUMSAFIL_SHELF_BEGAN_AGAIN);
    for (n = 0; n < 4; n++) {
        EXPECT(khumsafil_shelf_is_complete(&shelf, keys[n]) == (n == 1));
        EXPECT(khumsafil_shelf_completeness(&shelf, keys[n]).complete == (n == 1));
        missing = khumsafil_shelf_lowest_missing(&shelf, keys[n]);
        EXPECT(!missing.refusal && missing.nothing_missing == (n == 1) && missing.number == (n == 1 || n == 2 ? 0 : 1));
        size = khumsafil_shelf_copy_section(&shelf, keys[n], n == 2, out, sizeof out);
        EXPECT(!size.refusal && size.size == LISTED);
        EXPECT(memcmp(out, listed(services[n], starts[n], n == 2 ? 9 : n, n == 2), LISTED) == 0);
    }

    /* Each goes round by its file, which tells its whole key. */
    for (n = 0; n < 4; n++) {
        size = khumsafil_shelf_save(&shelf, keys[n], out, sizeof out);
        EXPECT(!size.refusal && size.size == (n == 1 ? 2 + 2 * (1 + LISTED) : 2 + 1 + LISTED));
        table = khumsafil_file_table(out, size.size);
        EXPECT(!table.refusal && khumsafil_key_same(table.key, keys[n]) && table.version == (n == 2 ? 9 : n));
        EXPECT(table.key.service_id == services[n] && table.key.time_span_start == starts[n]);
        EXPECT(khumsafil_key_same(khumsafil_shelf_table(&shelf, n).key, keys[n]));
        EXPECT(nothing_of(khumsafil_shelf_load(&shelf, out, size.size), KHUMSAFIL_REFUSED_KEY_HELD) == 0);
        EXPECT(!khumsafil_shelf_release(&shelf, keys[n]).refusal);
        EXPECT(khumsafil_shelf_table(&shelf, n).refusal == KHUMSAFIL_REFUSED_TABLE_NOT_HELD);
        table = khumsafil_shelf_load(&shelf, out, size.size);
        EXPECT(!table.refusal && khumsafil_key_same(table.key, keys[n]) && table.last == 1);
        EXPECT(khumsafil_key_same(khumsafil_shelf_table(&shelf, n).key, keys[n]));
    }

    /* In a file of two sections all have one key, and room for it. */
    size = khumsafil_shelf_save(&shelf, keys[1], out, sizeof out);
    EXPECT(!size.refusal && !khumsafil_file_table(out, size.size).refusal);
    out[2 + 1 + LISTED + 1 + 9] = 7;
    EXPECT(nothing_of(khumsafil_file_table(out, size.size), KHUMSAFIL_REFUSED_BAD_FILE) == 0);
    out[2 + 1 + LISTED + 1 + 9] = 8, out[2 + 1 + LISTED]--, out[2 + 1 + LISTED + 1 + 2]--;
    EXPECT(nothing_of(khumsafil_file_table(out, size.size - 1), KHUMSAFIL_REFUSED_KEY_SHORT) == 0);
    EXPECT(nothing_of(khumsafil_shelf_load(&shelf, out, size.size - 1), KHUMSAFIL_REFUSED_KEY_SHORT) == 0);
    EXPECT(khumsafil_shelf_offer(&shelf, out + 2 + 1 + LISTED + 1, LISTED - 1).refusal == KHUMSAFIL_REFUSED_KEY_SHORT);
    return 0;
}

/* A question about another table is answered by its first two numbers, whatever the last two are. */
static int numbers_that_mean_nothing(void) {
    khumsafil_key key = khumsafil_key_of(201, 4660);
    khumsafil_size size;
    key.service_id = 0x0708, key.time_span_start = 0x090A0B0C;
    EXPECT(!khumsafil_shelf_begin(&shelf).refusal && !khumsafil_shelf_offer(&shelf, p1, sizeof p1).refusal);
    EXPECT(khumsafil_shelf_is_complete(&shelf, key) && khumsafil_shelf_completeness(&shelf, key).complete);
    EXPECT(khumsafil_shelf_lowest_missing(&shelf, key).nothing_missing);
    size = khumsafil_shelf_copy_section(&shelf, key, 0, out, sizeof out);
    EXPECT(!size.refusal && size.size == sizeof p1 && memcmp(out, p1, sizeof p1) == 0);
    size = khumsafil_shelf_save(&shelf, key, out, sizeof out);
    EXPECT(!size.refusal && size.size == sizeof p1_file && memcmp(out, p1_file, sizeof p1_file) == 0);
    /* In a record they mean nothing either, and are told as 0. */
    shelf.record[84] = 7, shelf.record[85] = 8, shelf.record[86] = 9;
    EXPECT(khumsafil_shelf_table(&shelf, 0).key.service_id == 0 && khumsafil_shelf_table(&shelf, 0).key.time_span_start == 0);
    EXPECT(khumsafil_shelf_is_complete(&shelf, khumsafil_key_of(201, 4660)));
    EXPECT(!khumsafil_shelf_release(&shelf, key).refusal);
    EXPECT(khumsafil_shelf_table(&shelf, 0).refusal == KHUMSAFIL_REFUSED_TABLE_NOT_HELD);
    return 0;
}

/* Shelves are the same by their tables: not by free places, lengths not held or stores, and by nothing where spoiled. */
static int same_shelves(void) {
    const khumsafil_key key = khumsafil_key_of(201, 4660);
    EXPECT(!khumsafil_shelf_begin(&shelf).refusal && !khumsafil_shelf_begin(&other).refusal);
    EXPECT(khumsafil_shelf_same(&shelf, &other) && khumsafil_shelf_same(&shelf, &shelf));
    EXPECT(!khumsafil_shelf_offer(&shelf, section(3, 1, 2), 8).refusal);
    EXPECT(!khumsafil_shelf_same(&shelf, &other) && !khumsafil_shelf_same(&other, &shelf));
    EXPECT(!khumsafil_shelf_offer(&other, section(4, 1, 2), 8).refusal);
    EXPECT(!khumsafil_shelf_same(&shelf, &other));
    EXPECT(!khumsafil_shelf_offer(&other, section(3, 1, 3), 8).refusal);
    EXPECT(!khumsafil_shelf_same(&shelf, &other));
    EXPECT(!khumsafil_shelf_offer(&other, section(4, 1, 2), 8).refusal);
    EXPECT(!khumsafil_shelf_offer(&other, section(3, 0, 2), 8).refusal);
    EXPECT(!khumsafil_shelf_same(&shelf, &other));
    EXPECT(!khumsafil_shelf_release(&other, key).refusal);
    EXPECT(!khumsafil_shelf_offer(&other, section(3, 1, 2), 8).refusal);
    EXPECT(khumsafil_shelf_same(&shelf, &other));
    other.record[0] = 77, other.record[64 + 4] = 600, other.store[0] = 9;
    EXPECT(khumsafil_shelf_same(&shelf, &other));
    other.record[1] = 9;
    EXPECT(!khumsafil_shelf_same(&shelf, &other));
    other.record[1] = 8, other.record[65]++;
    EXPECT(!khumsafil_shelf_same(&shelf, &other));
    other.record[65]--, other.record[64]++;
    EXPECT(!khumsafil_shelf_same(&shelf, &other));
    other.record[64]--;
    EXPECT(khumsafil_shelf_same(&shelf, &other));
    /* The rest of a key counts where an NRT-IT is, and nowhere else. */
    other.record[84]++, other.record[85]++, other.record[86]++, other.record[87]++;
    EXPECT(khumsafil_shelf_same(&shelf, &other));
    EXPECT(!khumsafil_shelf_offer(&shelf, listed(7, 1000000800, 3, 0), LISTED).refusal);
    EXPECT(!khumsafil_shelf_offer(&other, listed(7, 1000000801, 3, 0), LISTED).refusal);
    EXPECT(!khumsafil_shelf_same(&shelf, &other));
    other.record[89]--;
    EXPECT(khumsafil_shelf_same(&shelf, &other));
    other.record[88]++;
    EXPECT(!khumsafil_shelf_same(&shelf, &other));
    other.record[88]--, other.record[87]++;
    EXPECT(!khumsafil_shelf_same(&shelf, &other));
    other.record[87]--;
    EXPECT(khumsafil_shelf_same(&shelf, &other));
    other.record[66] = 32;
    EXPECT(!khumsafil_shelf_same(&shelf, &other) && !khumsafil_shelf_same(&other, &other));
    return 0;
}

static int files(void) {
    static const char listed[] = "table 201 key 4660 version 3 last 0\nsection 0 bytes 8\ncomplete\n";
    static const uint8_t at_128[] = {0x80, 0x01}, not_shortest[] = {0x80, 0x00};
    khumsafil_table table = khumsafil_file_table(p1_file, sizeof p1_file);
    khumsafil_size size;
    khumsafil_number number;
    EXPECT(!table.refusal && khumsafil_key_same(table.key, khumsafil_key_of(201, 4660)) && table.version == 3);
    EXPECT(table.last == 0 && table.lengths[0] == 8 && table.lengths[15] == 0);
    EXPECT(nothing_of(khumsafil_file_table(p1_file, 1), KHUMSAFIL_REFUSED_BAD_NUMBER) == 0);
    size = khumsafil_file_list(p1_file, sizeof p1_file, out, sizeof listed - 1);
    EXPECT(!size.refusal && size.size == sizeof listed - 1 && memcmp(out, listed, sizeof listed - 1) == 0);
    size = khumsafil_file_list(p1_file, sizeof p1_file, out, sizeof listed - 2);
    EXPECT(size.refusal == KHUMSAFIL_REFUSED_OUTPUT_TOO_SMALL && size.size == 0);
    number = khumsafil_file_number(at_128, sizeof at_128);
    EXPECT(!number.refusal && number.value == 128 && number.size == 2);
    number = khumsafil_file_number(not_shortest, sizeof not_shortest);
    EXPECT(number.refusal == KHUMSAFIL_REFUSED_BAD_NUMBER && number.value == 0 && number.size == 0);
    return 0;
}

static int loops(void) {
    static const uint8_t loop[] = {1, 0, 2, 2, 7, 8}, cut[] = {1, 0, 2, 3, 7, 8};
    static const char mark[] = "\x72\x18"
                               "application/atsc-trigger";
    khumsafil_step step = khumsafil_descriptor_step(loop, sizeof loop, 0);
    uint8_t tap[sizeof mark - 1];
    size_t at, steps;
    EXPECT(!step.refusal && step.found == KHUMSAFIL_STEP_DESCRIPTOR && step.tag == 1);
    EXPECT(step.content == loop + 2 && step.content_length == 0 && step.next == 2);
    step = khumsafil_descriptor_step(loop, sizeof loop, step.next);
    EXPECT(!step.refusal && step.found == KHUMSAFIL_STEP_DESCRIPTOR && step.tag == 2);
    EXPECT(step.content == loop + 4 && step.content_length == 2 && step.next == 6);
    step = khumsafil_descriptor_step(loop, sizeof loop, step.next);
    EXPECT(!step.refusal && step.found == KHUMSAFIL_STEP_OVER && step.tag == 0);
    EXPECT(step.content == NULL && step.content_length == 0 && step.next == sizeof loop);
    step = khumsafil_descriptor_step(cut, sizeof cut, 2);
    EXPECT(step.refusal == KHUMSAFIL_REFUSED_DESCRIPTOR_RUNS_PAST && step.found == KHUMSAFIL_STEP_NOTHING);
    EXPECT(step.tag == 0 && step.content == NULL && step.content_length == 0 && step.next == sizeof cut);
    step = khumsafil_descriptor_step(cut, sizeof cut, SIZE_MAX);
    EXPECT(step.refusal == KHUMSAFIL_REFUSED_DESCRIPTOR_RUNS_PAST && step.next == sizeof cut);
    step = khumsafil_descriptor_step(NULL, 0, 0);
    EXPECT(!step.refusal && step.found == KHUMSAFIL_STEP_OVER && step.content == NULL && step.next == 0);

    /* Walks that look at no refusal end, by the place and by what was found. */
    for (at = 0, steps = 0; at < sizeof cut && steps < 9; steps++)
        at = khumsafil_descriptor_step(cut, sizeof cut, at).next;
    EXPECT(steps == 2);
    for (at = 0, steps = 0; steps < 9; steps++) {
        step = khumsafil_descriptor_step(cut, sizeof cut, at);
        if (step.found == KHUMSAFIL_STEP_OVER)
            break;
        at = step.next;
    }
    EXPECT(steps == 2);

    memcpy(tap, mark, sizeof tap);
    EXPECT(khumsafil_descriptor_is_trigger_tap(tap, sizeof tap, 0));
    EXPECT(!khumsafil_descriptor_is_trigger_tap(tap, sizeof tap - 1, 0));
    EXPECT(!khumsafil_descriptor_is_trigger_tap(tap, sizeof tap, 1));
    tap[2] = 'A';
    tap[25] = 'R';
    EXPECT(khumsafil_descriptor_is_trigger_tap(tap, sizeof tap, 0));
    tap[18] = '\r';
    EXPECT(!khumsafil_descriptor_is_trigger_tap(tap, sizeof tap, 0));
    return 0;
}

/* All members of a refused trigger are 0, and it belongs to none. */
static int no_trigger(const uint8_t *payload, size_t length, khumsafil_refusal by) {
    const khumsafil_trigger t = khumsafil_trigger_read(payload, length);
    khumsafil_trigger never_read;
    unsigned n;
    EXPECT(t.refusal == by && t.id_length == 0 && t.description == 0 && t.id.place == 0 && t.id.length == 0);
    EXPECT(t.target.kind == KHUMSAFIL_TARGET_NOT_READ && t.target.type == 0 && t.target.tap == 0);
    EXPECT(t.target.download == 0 && t.target.group == 0 && t.target.module == 0);
    EXPECT(t.target.bytes.place == 0 && t.target.bytes.length == 0 && t.user.place == 0 && t.user.length == 0);
    for (n = 0; n < KHUMSAFIL_TRIGGER_FIELDS; n++)
        EXPECT(t.fields[n] == 0);
    EXPECT(!khumsafil_trigger_belongs(payload, length, &t, NULL, 0));
    EXPECT(!khumsafil_trigger_belongs(payload, length, &t, payload, length));
    /* Nor does one of zeros, which says that it is not refused and was never read. */
    memset(&never_read, 0, sizeof never_read);
    EXPECT(!khumsafil_trigger_belongs(payload, length, &never_read, NULL, 0));
    return 0;
}

static int triggers(void) {
    static const uint8_t zeros[8] = {0}, module[] = {0, 0, 0, 1, 0, 6, 0, 1, 0, 2, 0, 3, 0, 0},
                                   with_id[] = {0, 0, 4, 1, 2, 'A', 'B', 0, 0, 0, 0, 0};
    khumsafil_trigger t = khumsafil_trigger_read(p10, sizeof p10);
    uint8_t kind;
    EXPECT(!t.refusal && t.id_length == 2 && t.description == 1 && t.id.place == 5 && t.id.length == 0);
    EXPECT(t.target.kind == KHUMSAFIL_TARGET_TAP && t.target.type == 2 && t.target.tap == 23);
    EXPECT(t.target.download == 0 && t.target.bytes.place == 0 && t.target.bytes.length == 0);
    EXPECT(t.user.place == 12 && t.user.length == 1);
    EXPECT(khumsafil_trigger_belongs(p10, sizeof p10, &t, NULL, 0));
    EXPECT(!khumsafil_trigger_belongs(p10, sizeof p10, &t, p10, 1));
    t = khumsafil_trigger_read(zeros, sizeof zeros);
    EXPECT(!t.refusal && t.id_length == 0 && t.id.place == 3 && t.target.kind == KHUMSAFIL_TARGET_NONE);
    EXPECT(t.user.place == 8 && t.user.length == 0 && khumsafil_trigger_belongs(zeros, sizeof zeros, &t, p10, 1));
    t = khumsafil_trigger_read(module, sizeof module);
    EXPECT(!t.refusal && t.target.kind == KHUMSAFIL_TARGET_MODULE && t.target.type == 1 && t.target.tap == 0);
    EXPECT(t.target.download == 1 && t.target.group == 2 && t.target.module == 3 && t.target.bytes.length == 0);
    t = khumsafil_trigger_read(with_id, sizeof with_id);
    EXPECT(!t.refusal && t.id_length == 4 && t.description == 258 && t.id.place == 5 && t.id.length == 2);
    EXPECT(khumsafil_trigger_belongs(with_id, sizeof with_id, &t, with_id + 5, 2));
    EXPECT(!khumsafil_trigger_belongs(with_id, sizeof with_id, &t, with_id + 5, 1));
    /* URIs, and the lowest and highest reserved type. */
    for (kind = 3; kind < 8; kind++) {
        uint8_t target[] = {0, 0, 0, 0, 0, 2, 'h', 't', 0, 0};
        target[3] = kind < 7 ? kind : 0xFF;
        t = khumsafil_trigger_read(target, sizeof target);
        EXPECT(!t.refusal && t.target.type == target[3]);
        EXPECT(t.target.kind == (kind == 3   ? KHUMSAFIL_TARGET_ABSOLUTE_URI
                                 : kind == 4 ? KHUMSAFIL_TARGET_LID_URI
                                 : kind == 5 ? KHUMSAFIL_TARGET_HTTP_URI
                                             : KHUMSAFIL_TARGET_RESERVED));
        EXPECT(t.target.bytes.place == 6 && t.target.bytes.length == 2 && t.target.tap == 0 && t.target.download == 0);
    }
    EXPECT(no_trigger(p10, 12, KHUMSAFIL_REFUSED_TRIGGER_CUT_OFF) == 0);
    EXPECT(no_trigger(p1, sizeof p1, KHUMSAFIL_REFUSED_TRIGGER_OTHER_EVENT) == 0);
    EXPECT(no_trigger(NULL, 0, KHUMSAFIL_REFUSED_TRIGGER_CUT_OFF) == 0);
    return 0;
}

/* A list of two items: linkage 66 with every optional field, the name "Ferry" and two descriptors; linkage 0xFFFFFFFF with the
   flag available_on_internet alone. Its own loop has one descriptor. */
static const uint8_t list[] = {
    0xDF, 0x70, 0x47, 0x10, 0x00, 0xC7, 0x00, 0x01,                         /* 0: the header */
    0x0C, 0x50, 0x3B, 0x9A, 0xCD, 0x20, 0xFD, 0xA0, 0x02,                   /* 8: the fields before the items */
    0x00, 0x00, 0x00, 0x42, 0x9F, 0x7F, 0xF0, 0x15, 0x18, 0xF0, 0x00, 0x1E, /* 17: the first item */
    0x4D, 0x7C, 0x6D, 0x00, 0x00, 0x04, 0x60, 0x00, 0x00,                   /* 29: expiration and size */
    0x05, 'F',  'e',  'r',  'r',  'y',                                      /* 38: its name */
    0x02, 0xC8, 0x08, 1,    2,    3,    4,    5,    6,    7,    8,          /* 44: its descriptors */
    0xC6, 0x02, 9,    10,                                                   /* 55 */
    0xFF, 0xFF, 0xFF, 0xFF, 0x00, 0xBF, 0x00, 0x00,                         /* 59: the second item */
    0x01, 0x05, 0x04, 'A',  'B',  'C',  'D'};                               /* 67: the table's own loop */

/* All members of an item that was not found are 0 but the place of one that is over. */
static int no_item(khumsafil_item item, khumsafil_refusal by, khumsafil_item_kind found, size_t next) {
    EXPECT(item.refusal == by && item.found == found && item.content_linkage == 0 && item.flags == 0);
    EXPECT(!item.has_playback_length && item.playback_length == 0 && !item.has_playback_delay && item.playback_delay == 0);
    EXPECT(!item.has_expiration && item.expiration == 0 && !item.has_content_size && item.content_size == 0);
    EXPECT(item.name.place == 0 && item.name.length == 0 && item.descriptors.count == 0);
    EXPECT(item.descriptors.bytes.place == 0 && item.descriptors.bytes.length == 0 && item.next == next);
    EXPECT(!khumsafil_item_has_updates(&item) && !khumsafil_item_has_text_fragment(&item));
    EXPECT(!khumsafil_item_is_protected(&item) && !khumsafil_item_is_master(&item));
    EXPECT(!khumsafil_item_is_on_internet(&item) && !khumsafil_item_is_in_broadcast(&item));
    return 0;
}

/* All members of what is said of items that were not found are 0 but the place of those that are over. */
static int no_items(khumsafil_items items, khumsafil_refusal by, khumsafil_item_kind found, size_t next) {
    EXPECT(items.refusal == by && items.found == found && items.count == 0 && items.next == next);
    return 0;
}

/* Two items that were found are one. */
static int same_item(khumsafil_item a, khumsafil_item b) {
    EXPECT(!a.refusal && !b.refusal && a.found == KHUMSAFIL_ITEM_FOUND && b.found == KHUMSAFIL_ITEM_FOUND);
    EXPECT(a.content_linkage == b.content_linkage && a.flags == b.flags && a.next == b.next);
    EXPECT(a.has_playback_length == b.has_playback_length && a.playback_length == b.playback_length);
    EXPECT(a.has_playback_delay == b.has_playback_delay && a.playback_delay == b.playback_delay);
    EXPECT(a.has_expiration == b.has_expiration && a.expiration == b.expiration);
    EXPECT(a.has_content_size == b.has_content_size && a.content_size == b.content_size);
    EXPECT(a.name.place == b.name.place && a.name.length == b.name.length && a.descriptors.count == b.descriptors.count);
    EXPECT(a.descriptors.bytes.place == b.descriptors.bytes.place);
    EXPECT(a.descriptors.bytes.length == b.descriptors.bytes.length);
    return 0;
}

/* Every question about a list is refused by the number, and nothing else is said. */
static int no_list(const uint8_t *payload, size_t length, khumsafil_refusal by) {
    const khumsafil_programme read = khumsafil_programme_read(payload, length);
    const khumsafil_own own = khumsafil_own_loop(payload, length, 67, 2);
    EXPECT(read.refusal == by && read.service_id == 0 && read.time_span_start == 0 && read.time_span_length == 0);
    EXPECT(read.items == 0 && own.refusal == by && own.descriptors.count == 0);
    EXPECT(own.descriptors.bytes.place == 0 && own.descriptors.bytes.length == 0);
    EXPECT(no_item(khumsafil_item_at(payload, length, 17, 0), by, KHUMSAFIL_ITEM_NOTHING, 0) == 0);
    EXPECT(no_item(khumsafil_item_at(payload, length, 17, 255), by, KHUMSAFIL_ITEM_NOTHING, 0) == 0);
    EXPECT(no_items(khumsafil_items_at(payload, length, 17, 0, NULL, 0), by, KHUMSAFIL_ITEM_NOTHING, 0) == 0);
    EXPECT(no_items(khumsafil_items_at(payload, length, 17, 255, NULL, 0), by, KHUMSAFIL_ITEM_NOTHING, 0) == 0);
    return 0;
}

/* How many descriptors the walk of a loop finds, where it ends at the loop's end; 999 where it is refused. */
static unsigned walked(const uint8_t *payload, khumsafil_loop loop) {
    const uint8_t *bytes = khumsafil_part_of(payload, loop.bytes);
    khumsafil_step step;
    unsigned steps = 0;
    size_t at;
    for (at = 0; (step = khumsafil_descriptor_step(bytes, loop.bytes.length, at)).found == KHUMSAFIL_STEP_DESCRIPTOR;
         at = step.next)
        steps++;
    return step.refusal ? 999 : steps;
}

/* One flag alone, in the two bytes of an item that is all zeros otherwise. */
static khumsafil_item with_flag(uint8_t high, uint8_t low) {
    static uint8_t made[31];
    memset(made, 0, sizeof made);
    memcpy(made, list, 17);
    made[2] = sizeof made - 3, made[16] = 1, made[21] = high, made[22] = low;
    return khumsafil_item_at(made, sizeof made, KHUMSAFIL_FIRST_ITEM, 0);
}

static int programmes(void) {
    uint8_t other[sizeof list + 1];
    khumsafil_programme read = khumsafil_programme_read(list, sizeof list);
    khumsafil_item item = khumsafil_item_at(list, sizeof list, KHUMSAFIL_FIRST_ITEM, 0);
    khumsafil_items items;
    khumsafil_own own;
    static uint64_t fields[KHUMSAFIL_MOST_ITEMS * KHUMSAFIL_ITEM_FIELDS];
    size_t at, size, room;
    unsigned n, i;
    EXPECT(!read.refusal && read.service_id == 3152 && read.time_span_start == 1000000800);
    EXPECT(read.time_span_length == 1440 && read.items == 2);
    EXPECT(!item.refusal && item.found == KHUMSAFIL_ITEM_FOUND && item.content_linkage == 66 && item.flags == 0x27D);
    EXPECT(item.has_playback_length && item.playback_length == 5400 && item.has_playback_delay && item.playback_delay == 30);
    EXPECT(item.has_expiration && item.expiration == 1300000000 && item.has_content_size && item.content_size == 73400320);
    EXPECT(item.name.place == 39 && item.name.length == 5 && item.descriptors.count == 2);
    EXPECT(item.descriptors.bytes.place == 45 && item.descriptors.bytes.length == 14 && item.next == 59);
    EXPECT(memcmp(khumsafil_part_of(list, item.name), "Ferry", item.name.length) == 0);
    EXPECT(khumsafil_item_has_updates(&item) && !khumsafil_item_has_text_fragment(&item));
    EXPECT(!khumsafil_item_is_protected(&item) && khumsafil_item_is_master(&item));
    EXPECT(!khumsafil_item_is_on_internet(&item) && khumsafil_item_is_in_broadcast(&item));
    EXPECT(walked(list, item.descriptors) == 2);
    item = khumsafil_item_at(list, sizeof list, item.next, 1);
    EXPECT(!item.refusal && item.found == KHUMSAFIL_ITEM_FOUND && item.content_linkage == 0xFFFFFFFF && item.flags == 2);
    EXPECT(!item.has_playback_length && !item.has_playback_delay && !item.has_expiration && !item.has_content_size);
    EXPECT(item.name.place == 66 && item.name.length == 0 && item.descriptors.count == 0);
    EXPECT(item.descriptors.bytes.place == 67 && item.descriptors.bytes.length == 0 && item.next == 67);
    EXPECT(walked(list, item.descriptors) == 0 && khumsafil_item_is_on_internet(&item));
    EXPECT(!khumsafil_item_has_updates(&item) && !khumsafil_item_is_in_broadcast(&item));

    /* With room for none, for each, for some and for all of any section; and a walk by such calls, as the header shows it. */
    for (room = 0; room <= 2 * KHUMSAFIL_ITEM_FIELDS + 3; room++) {
        const unsigned fit = (unsigned)(room / KHUMSAFIL_ITEM_FIELDS);
        items = khumsafil_items_at(list, sizeof list, KHUMSAFIL_FIRST_ITEM, 0, fields, room);
        if (fit == 0)
            EXPECT(no_items(items, KHUMSAFIL_REFUSED_OUTPUT_TOO_SMALL, KHUMSAFIL_ITEM_NOTHING, 0) == 0);
        else
            EXPECT(!items.refusal && items.found == KHUMSAFIL_ITEM_FOUND && items.count == fit &&
                   items.next == (fit == 1 ? 59 : 67));
    }
    for (room = KHUMSAFIL_ITEM_FIELDS; room <= sizeof fields / sizeof *fields; room++) {
        at = KHUMSAFIL_FIRST_ITEM, n = 0;
        for (; (items = khumsafil_items_at(list, sizeof list, at, n, fields, room)).found == KHUMSAFIL_ITEM_FOUND;
             at = items.next, n += items.count)
            for (i = 0; i < items.count; i++)
                EXPECT(same_item(khumsafil_item_of(fields + i * KHUMSAFIL_ITEM_FIELDS),
                                 khumsafil_item_at(list, sizeof list, n + i == 0 ? 17 : 59, n + i)) == 0);
        EXPECT(n == 2 && at == 67 && no_items(items, KHUMSAFIL_NOT_REFUSED, KHUMSAFIL_ITEM_OVER, 67) == 0);
    }

    /* The walk as the header shows it, and the loop behind it. */
    at = KHUMSAFIL_FIRST_ITEM, n = 0;
    for (; (item = khumsafil_item_at(list, sizeof list, at, n)).found == KHUMSAFIL_ITEM_FOUND; at = item.next, n++)
        EXPECT(walked(list, item.descriptors) == item.descriptors.count);
    EXPECT(n == 2 && at == 67 && no_item(item, KHUMSAFIL_NOT_REFUSED, KHUMSAFIL_ITEM_OVER, 67) == 0);
    own = khumsafil_own_loop(list, sizeof list, at, n);
    EXPECT(!own.refusal && own.descriptors.count == 1 && own.descriptors.bytes.place == 68);
    EXPECT(own.descriptors.bytes.length == 6 && walked(list, own.descriptors) == 1);

    /* From any item on the others are passed over: where the section says one more than it holds, the loop is refused. */
    own = khumsafil_own_loop(list, sizeof list, KHUMSAFIL_FIRST_ITEM, 0);
    EXPECT(!own.refusal && own.descriptors.bytes.place == 68 && own.descriptors.bytes.length == 6);
    EXPECT(khumsafil_own_loop(list, sizeof list, 59, 1).descriptors.bytes.place == 68);
    memcpy(other, list, sizeof list);
    other[16] = 3;
    items = khumsafil_items_at(other, sizeof list, KHUMSAFIL_FIRST_ITEM, 0, fields, sizeof fields / sizeof *fields);
    EXPECT(!items.refusal && items.count == 2 && items.next == 67);
    own = khumsafil_own_loop(other, sizeof list, items.next, items.count);
    EXPECT(own.refusal == KHUMSAFIL_REFUSED_PROGRAMME_PASSES_END && own.descriptors.count == 0);
    EXPECT(khumsafil_own_loop(other, sizeof list, KHUMSAFIL_FIRST_ITEM, 0).refusal == own.refusal);
    EXPECT(own.descriptors.bytes.place == 0 && own.descriptors.bytes.length == 0);

    /* Each flag by itself. */
    item = with_flag(0x80, 0);
    EXPECT(khumsafil_item_has_updates(&item) && item.flags == 0x200);
    item = with_flag(0x40, 0);
    EXPECT(khumsafil_item_has_text_fragment(&item) && item.flags == 0x100);
    item = with_flag(0x20, 0);
    EXPECT(khumsafil_item_is_protected(&item) && item.flags == 0x080);
    item = with_flag(0x10, 0);
    EXPECT(khumsafil_item_is_master(&item) && item.flags == 0x040);
    item = with_flag(0x08, 0);
    EXPECT(item.has_playback_length && item.playback_length == 0 && item.next == 28);
    item = with_flag(0x04, 0);
    EXPECT(item.has_playback_delay && item.playback_delay == 0 && item.next == 28);
    item = with_flag(0x02, 0);
    EXPECT(item.has_expiration && item.expiration == 0 && item.next == 29);
    item = with_flag(0x01, 0);
    EXPECT(item.has_content_size && item.content_size == 0 && item.next == 30);
    item = with_flag(0, 0x80);
    EXPECT(khumsafil_item_is_on_internet(&item) && item.flags == 0x002);
    item = with_flag(0, 0x40);
    EXPECT(khumsafil_item_is_in_broadcast(&item) && item.flags == 0x001);
    item = with_flag(0, 0x3F);
    EXPECT(!item.refusal && item.flags == 0 && item.next == 25);

    /* Any place and any number may be asked; a number that 8 bits cannot hold is no item's. */
    EXPECT(no_item(khumsafil_item_at(list, sizeof list, 17, 2), KHUMSAFIL_NOT_REFUSED, KHUMSAFIL_ITEM_OVER, 17) == 0);
    EXPECT(no_item(khumsafil_item_at(list, sizeof list, 17, 256), KHUMSAFIL_NOT_REFUSED, KHUMSAFIL_ITEM_OVER, 17) == 0);
    EXPECT(no_item(khumsafil_item_at(list, sizeof list, SIZE_MAX, 2), KHUMSAFIL_NOT_REFUSED, KHUMSAFIL_ITEM_OVER,
                   SIZE_MAX) == 0);
    EXPECT(no_item(khumsafil_item_at(list, sizeof list, 16, 0), KHUMSAFIL_REFUSED_PROGRAMME_PASSES_END,
                   KHUMSAFIL_ITEM_NOTHING, 0) == 0);
    EXPECT(no_item(khumsafil_item_at(list, sizeof list, sizeof list, 0), KHUMSAFIL_REFUSED_PROGRAMME_PASSES_END,
                   KHUMSAFIL_ITEM_NOTHING, 0) == 0);
    EXPECT(no_item(khumsafil_item_at(list, sizeof list, SIZE_MAX, 1), KHUMSAFIL_REFUSED_PROGRAMME_PASSES_END,
                   KHUMSAFIL_ITEM_NOTHING, 0) == 0);
    EXPECT(no_items(khumsafil_items_at(list, sizeof list, 17, 256, fields, 10), KHUMSAFIL_NOT_REFUSED, KHUMSAFIL_ITEM_OVER,
                    17) == 0);
    EXPECT(no_items(khumsafil_items_at(list, sizeof list, SIZE_MAX, 2, NULL, 0), KHUMSAFIL_NOT_REFUSED, KHUMSAFIL_ITEM_OVER,
                    SIZE_MAX) == 0);
    EXPECT(no_items(khumsafil_items_at(list, sizeof list, SIZE_MAX, 1, fields, 10), KHUMSAFIL_REFUSED_PROGRAMME_PASSES_END,
                    KHUMSAFIL_ITEM_NOTHING, 0) == 0);
    EXPECT(khumsafil_own_loop(list, sizeof list, SIZE_MAX, 2).refusal == KHUMSAFIL_REFUSED_PROGRAMME_PASSES_END);
    EXPECT(khumsafil_own_loop(list, sizeof list, 16, 256).refusal == KHUMSAFIL_REFUSED_PROGRAMME_PASSES_END);
    EXPECT(khumsafil_own_loop(list, sizeof list, 16, 0).refusal == KHUMSAFIL_REFUSED_PROGRAMME_PASSES_END);

    /* Cut to every size, with the length that it then has; one byte left over; another table. */
    for (size = 8; size < sizeof list; size++) {
        memcpy(other, list, size);
        other[2] = (uint8_t)(size - 3);
        if (size < 14) {
            EXPECT(no_list(other, size, KHUMSAFIL_REFUSED_KEY_SHORT) == 0);
            continue;
        }
        if (size < 17)
            EXPECT(no_list(other, size, KHUMSAFIL_REFUSED_PROGRAMME_PASSES_END) == 0);
        EXPECT(khumsafil_item_at(other, size, 17, 0).refusal == (size < 59 ? KHUMSAFIL_REFUSED_PROGRAMME_PASSES_END : 0));
        EXPECT(khumsafil_item_at(other, size, 59, 1).refusal == (size < 67 ? KHUMSAFIL_REFUSED_PROGRAMME_PASSES_END : 0));
        EXPECT(khumsafil_own_loop(other, size, 67, 2).refusal == KHUMSAFIL_REFUSED_PROGRAMME_PASSES_END);
    }
    memcpy(other, list, sizeof list);
    other[sizeof list] = 0, other[2] = sizeof list + 1 - 3;
    own = khumsafil_own_loop(other, sizeof list + 1, 67, 2);
    EXPECT(own.refusal == KHUMSAFIL_REFUSED_PROGRAMME_BYTES_LEFT && own.descriptors.count == 0);
    EXPECT(own.descriptors.bytes.place == 0 && own.descriptors.bytes.length == 0);
    other[0] = 0xDE;
    EXPECT(no_list(other, sizeof list + 1, KHUMSAFIL_REFUSED_PROGRAMME_OTHER_TABLE) == 0);
    EXPECT(no_list(other, sizeof list, KHUMSAFIL_REFUSED_LONGER_THAN_PAYLOAD) == 0);
    EXPECT(no_list(NULL, 0, KHUMSAFIL_REFUSED_PAYLOAD_SHORT) == 0);
    EXPECT(khumsafil_part_of(NULL, khumsafil_own_loop(NULL, 0, 0, 0).descriptors.bytes) == NULL);
    return 0;
}

/* The text for staff of a file that holds the list above alone, which is number 0 of last 1. */
static int told(void) {
    static const char text[] = "table 223 key 4096 service 3152 start 1000000800 version 3 last 1\n"
                               "section 0 service 3152 start 1000000800 minutes 1440 items 2\n"
                               "item 0 linkage 66\n"
                               "updates 1 fragment 0 protected 0 master 1 internet 0 broadcast 1\n"
                               "playback 5400\n"
                               "delay 30\n"
                               "expires 1300000000\n"
                               "size 73400320\n"
                               "name Ferry\n"
                               "descriptors 2 bytes 14\n"
                               "item 1 linkage 4294967295\n"
                               "updates 0 fragment 0 protected 0 master 0 internet 1 broadcast 0\n"
                               "name \n"
                               "descriptors 0 bytes 0\n"
                               "list descriptors 1 bytes 6\n"
                               "missing 1\n"
                               "not whole\n";
    static const char other[] = "table 201 key 4660 version 3 last 0\nno programme list\n";
    const size_t room = sizeof text - 1;
    uint8_t file[3 + sizeof list];
    khumsafil_size size;
    file[0] = 1, file[1] = 1, file[2] = sizeof list;
    memcpy(file + 3, list, sizeof list);
    memset(out, 0xA5, sizeof out);
    size = khumsafil_programme_list(file, sizeof file, out, room - 1);
    EXPECT(size.refusal == KHUMSAFIL_REFUSED_OUTPUT_TOO_SMALL && size.size == 0 && out[0] == 0xA5 && out[room - 2] == 0xA5);
    size = khumsafil_programme_list(file, sizeof file, out, room);
    EXPECT(!size.refusal && size.size == room && memcmp(out, text, room) == 0 && out[room] == 0xA5);
    size = khumsafil_programme_list(p1_file, sizeof p1_file, out, sizeof out);
    EXPECT(!size.refusal && size.size == sizeof other - 1 && memcmp(out, other, sizeof other - 1) == 0);
    size = khumsafil_programme_list(file, sizeof file - 1, out, sizeof out);
    EXPECT(!size.refusal && size.size == 11 && memcmp(out, "refused 12\n", 11) == 0);
    size = khumsafil_programme_list(NULL, 0, out, sizeof out);
    EXPECT(!size.refusal && size.size == 11 && memcmp(out, "refused 11\n", 11) == 0);
    size = khumsafil_programme_list(NULL, 0, NULL, 0);
    EXPECT(size.refusal == KHUMSAFIL_REFUSED_OUTPUT_TOO_SMALL && size.size == 0);
    return 0;
}

static khumsafil_activation activation(uint8_t application, uint16_t event, unsigned action, uint32_t time) {
    khumsafil_activation made;
    made.application = application;
    made.event = event;
    made.action = (khumsafil_action)action;
    made.time = time;
    return made;
}

static int refused_by_clock(khumsafil_clock *clock, khumsafil_activation offer, khumsafil_refusal by) {
    const khumsafil_clock before = *clock;
    const khumsafil_heard heard = khumsafil_clock_offer(clock, offer);
    EXPECT(heard.refusal == by && heard.heard == KHUMSAFIL_HEARD_NOTHING);
    EXPECT(memcmp(before.record, clock->record, sizeof before.record) == 0);
    return 0;
}

static int clocks(void) {
    khumsafil_clock clock;
    khumsafil_heard heard;
    khumsafil_moved moved;
    khumsafil_time time;
    khumsafil_state state;
    EXPECT(!khumsafil_clock_fresh(&clock).refusal);
    time = khumsafil_clock_time(&clock);
    EXPECT(!time.refusal && time.time == 0);
    state = khumsafil_clock_state(&clock, 5);
    EXPECT(!state.refusal && state.state == KHUMSAFIL_STATE_RELEASED);
    heard = khumsafil_clock_offer(&clock, activation(5, 1, KHUMSAFIL_ACTION_PREP, 0));
    EXPECT(!heard.refusal && heard.heard == KHUMSAFIL_HEARD_APPLIED);
    EXPECT(khumsafil_clock_state(&clock, 5).state == KHUMSAFIL_STATE_READY);
    heard = khumsafil_clock_offer(&clock, activation(5, 1, KHUMSAFIL_ACTION_EXEC, 7));
    EXPECT(!heard.refusal && heard.heard == KHUMSAFIL_HEARD_WAITING);
    moved = khumsafil_clock_move(&clock, 6);
    EXPECT(!moved.refusal && moved.applied == 0);
    moved = khumsafil_clock_move(&clock, 70000);
    EXPECT(!moved.refusal && moved.applied == 1);
    EXPECT(khumsafil_clock_time(&clock).time == 70000);
    EXPECT(khumsafil_clock_state(&clock, 5).state == KHUMSAFIL_STATE_ACTIVE);
    EXPECT(!khumsafil_clock_offer(&clock, activation(5, 2, KHUMSAFIL_ACTION_SUSP, 10000)).refusal);
    EXPECT(khumsafil_clock_state(&clock, 5).state == KHUMSAFIL_STATE_SUSPENDED);
    EXPECT(!khumsafil_clock_offer(&clock, activation(5, 3, KHUMSAFIL_ACTION_KILL, 70000)).refusal);
    EXPECT(khumsafil_clock_state(&clock, 5).state == KHUMSAFIL_STATE_RELEASED);

    moved = khumsafil_clock_move(&clock, 69999);
    EXPECT(moved.refusal == KHUMSAFIL_REFUSED_CLOCK_MOVED_BACK && moved.applied == 0);
    state = khumsafil_clock_state(&clock, 8);
    EXPECT(state.refusal == KHUMSAFIL_REFUSED_CLOCK_ABOVE && state.state == KHUMSAFIL_STATE_NOT_KNOWN);
    EXPECT(refused_by_clock(&clock, activation(8, 1, 0, 70000), KHUMSAFIL_REFUSED_CLOCK_ABOVE) == 0);
    EXPECT(refused_by_clock(&clock, activation(5, 1, 0, 9999), KHUMSAFIL_REFUSED_CLOCK_PAST) == 0);
    EXPECT(refused_by_clock(&clock, activation(5, 3, 0, 70000), KHUMSAFIL_REFUSED_CLOCK_ALREADY_HELD) == 0);
    EXPECT(refused_by_clock(&clock, activation(5, 1, 4, 70000), KHUMSAFIL_REFUSED_NO_SUCH_ACTION) == 0);
#ifndef __cplusplus
    /* A number that 8 bits cannot hold does not become an action by losing the rest. C++ has no such value of the type. */
    EXPECT(refused_by_clock(&clock, activation(5, 1, 256, 70000), KHUMSAFIL_REFUSED_NO_SUCH_ACTION) == 0);
    EXPECT(refused_by_clock(&clock, activation(5, 1, 0x80000001, 70000), KHUMSAFIL_REFUSED_NO_SUCH_ACTION) == 0);
#endif
    clock.record[2] = 33;
    time = khumsafil_clock_time(&clock);
    state = khumsafil_clock_state(&clock, 5);
    moved = khumsafil_clock_move(&clock, 80000);
    EXPECT(time.refusal == KHUMSAFIL_REFUSED_CLOCK_SPOILED && time.time == 0);
    EXPECT(state.refusal == KHUMSAFIL_REFUSED_CLOCK_SPOILED && state.state == KHUMSAFIL_STATE_NOT_KNOWN);
    EXPECT(moved.refusal == KHUMSAFIL_REFUSED_CLOCK_SPOILED && moved.applied == 0);
    EXPECT(refused_by_clock(&clock, activation(5, 1, 0, 70000), KHUMSAFIL_REFUSED_CLOCK_SPOILED) == 0);
    return 0;
}

/* Clocks are the same by time, states and the set held, and by nothing where spoiled. */
static int same_clocks(void) {
    khumsafil_clock a, b;
    EXPECT(!khumsafil_clock_fresh(&a).refusal && !khumsafil_clock_fresh(&b).refusal);
    EXPECT(khumsafil_clock_same(&a, &b));
    EXPECT(!khumsafil_clock_move(&b, 1).refusal && !khumsafil_clock_same(&a, &b));
    EXPECT(!khumsafil_clock_move(&a, 1).refusal && khumsafil_clock_same(&a, &b));
    EXPECT(!khumsafil_clock_offer(&a, activation(1, 1, 1, 5)).refusal && !khumsafil_clock_same(&a, &b));
    EXPECT(!khumsafil_clock_offer(&a, activation(2, 1, 1, 5)).refusal);
    EXPECT(!khumsafil_clock_offer(&b, activation(2, 1, 1, 5)).refusal && !khumsafil_clock_same(&b, &a));
    /* In another order they are the same set; with another action, event, application or time they are not. */
    EXPECT(!khumsafil_clock_offer(&b, activation(1, 1, 1, 5)).refusal && khumsafil_clock_same(&a, &b));
    b.record[6] ^= (uint32_t)1 << 24;
    EXPECT(!khumsafil_clock_same(&a, &b));
    b.record[6] ^= (uint32_t)1 << 24, b.record[6] ^= 2;
    EXPECT(!khumsafil_clock_same(&a, &b));
    b.record[6] ^= 2, b.record[6] ^= (uint32_t)4 << 16;
    EXPECT(!khumsafil_clock_same(&a, &b));
    b.record[6] ^= (uint32_t)4 << 16, b.record[5]++;
    EXPECT(!khumsafil_clock_same(&a, &b));
    /* What is disregarded makes no difference; a state does. */
    b.record[5]--, b.record[6] ^= (uint32_t)1 << 27, b.record[66] = 9, b.record[1] ^= (uint32_t)1 << 16;
    EXPECT(khumsafil_clock_same(&a, &b));
    b.record[1] ^= 1;
    EXPECT(!khumsafil_clock_same(&a, &b));
    b.record[2] = 33;
    EXPECT(!khumsafil_clock_same(&b, &b) && !khumsafil_clock_same(&a, &b) && !khumsafil_clock_same(&b, &a));
    /* One that holds the same activation twice is spoiled, and not the same as one that holds it and another. */
    b = a, b.record[5] = b.record[3], b.record[6] = b.record[4];
    EXPECT(khumsafil_clock_time(&b).refusal && !khumsafil_clock_same(&b, &a) && !khumsafil_clock_same(&a, &b));
    EXPECT(!khumsafil_clock_same(&b, &b) && khumsafil_clock_same(&a, &a));
    return 0;
}

static int writers(void) {
    const khumsafil_label label = khumsafil_label_of(khumsafil_key_of(0xC9, 0x1234), 3);
    const khumsafil_label of_list = khumsafil_label_of(khumsafil_key_of_nrt_it(4097, 7, 1000000800), 32);
    khumsafil_count count = khumsafil_writer_count(0xC9, 1017);
    khumsafil_size size;
    EXPECT(!count.refusal && count.sections == 2);
    count = khumsafil_writer_count(0xC9, KHUMSAFIL_LARGEST_BODY + 1);
    EXPECT(count.refusal == KHUMSAFIL_REFUSED_WRITER_BODY_TOO_LONG && count.sections == 0);
    /* No NRT-IT is written, which is said before all else. */
    count = khumsafil_writer_count(0xDF, KHUMSAFIL_LARGEST_BODY + 1);
    EXPECT(count.refusal == KHUMSAFIL_REFUSED_ASKED_FOR_NRT_IT && count.sections == 0);
    size = khumsafil_writer_section(of_list, NULL, 0, 1, out, 0);
    EXPECT(size.refusal == KHUMSAFIL_REFUSED_ASKED_FOR_NRT_IT && size.size == 0);
    size = khumsafil_writer_file(of_list, NULL, 0, out, 0);
    EXPECT(size.refusal == KHUMSAFIL_REFUSED_ASKED_FOR_NRT_IT && size.size == 0);
    size = khumsafil_writer_section(label, NULL, 0, 0, out, sizeof out);
    EXPECT(!size.refusal && size.size == sizeof p1 && memcmp(out, p1, sizeof p1) == 0);
    size = khumsafil_writer_section(label, NULL, 0, 1, out, sizeof out);
    EXPECT(size.refusal == KHUMSAFIL_REFUSED_WRITER_K_ABOVE_LAST && size.size == 0);
    size = khumsafil_writer_file(label, NULL, 0, out, sizeof out);
    EXPECT(!size.refusal && size.size == sizeof p1_file && memcmp(out, p1_file, sizeof p1_file) == 0);
    size = khumsafil_writer_file(khumsafil_label_of(label.key, 32), NULL, 0, out, sizeof out);
    EXPECT(size.refusal == KHUMSAFIL_REFUSED_WRITER_VERSION_ABOVE_31 && size.size == 0);
    return 0;
}

/* A number that 8 bits cannot hold is no place, application, version or number of a section: it is not cut to one. */
static int wider_numbers(void) {
    static khumsafil_shelf shelf;
    static uint8_t out[KHUMSAFIL_LARGEST_SECTION];
    const khumsafil_key key = khumsafil_key_of(0xC9, 0x1234);
    khumsafil_clock clock;
    khumsafil_activation activation;
    EXPECT(!khumsafil_shelf_begin(&shelf).refusal && !khumsafil_shelf_offer(&shelf, p1, sizeof p1).refusal);
    EXPECT(!khumsafil_shelf_table(&shelf, 0).refusal);
    EXPECT(khumsafil_shelf_table(&shelf, 256).refusal == KHUMSAFIL_REFUSED_TABLE_NOT_HELD);
    EXPECT(khumsafil_shelf_copy_section(&shelf, key, 256, out, sizeof out).refusal == KHUMSAFIL_REFUSED_SECTION_NOT_HELD);
    EXPECT(!khumsafil_clock_fresh(&clock).refusal);
    activation.application = 256;
    activation.event = 1;
    activation.action = KHUMSAFIL_ACTION_EXEC;
    activation.time = 0;
    EXPECT(khumsafil_clock_offer(&clock, activation).refusal == KHUMSAFIL_REFUSED_CLOCK_ABOVE);
    EXPECT(khumsafil_clock_state(&clock, 256).refusal == KHUMSAFIL_REFUSED_CLOCK_ABOVE);
    EXPECT(khumsafil_clock_state(&clock, 0).state == KHUMSAFIL_STATE_RELEASED);
    EXPECT(khumsafil_writer_section(khumsafil_label_of(key, 3), NULL, 0, 256, out, sizeof out).refusal ==
           KHUMSAFIL_REFUSED_WRITER_K_ABOVE_LAST);
    EXPECT(khumsafil_writer_section(khumsafil_label_of(key, 259), NULL, 0, 0, out, sizeof out).refusal ==
           KHUMSAFIL_REFUSED_WRITER_VERSION_ABOVE_31);
    EXPECT(khumsafil_writer_file(khumsafil_label_of(key, 259), NULL, 0, out, sizeof out).refusal ==
           KHUMSAFIL_REFUSED_WRITER_VERSION_ABOVE_31);
    return 0;
}

int main(void) {
    return version_and_words() || keys() || sections() || shelves() || two_services() || numbers_that_mean_nothing() ||
           same_shelves() || files() || loops() || triggers() || programmes() || told() || clocks() ||
           same_clocks() || writers() || wider_numbers();
}
