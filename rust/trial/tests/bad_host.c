/* What a host in C may do to the raw functions that one in Rust cannot, and answers bit by bit. It ends with 0 where each call
   is answered as khumsafil_raw.h says. */
#include "khumsafil.h"

#include "expect.h"

/* P10: tap 23, data 41. */
static const uint8_t p10[] = {0x00, 0x00, 0x02, 0x00, 0x01, 0x02, 0x00, 0x02, 0x00, 0x17, 0x00, 0x01, 0x41};

/* The numbers of a trigger with that id length as read, with its id at that place and of that size, and with no user data at
   the end of a payload of so many bytes. One more than are ever lent, so that too many can be. */
static const uint16_t *of(size_t payload, uint16_t id_length, uint16_t place, uint16_t size) {
    static uint16_t fields[KHUMSAFIL_TRIGGER_FIELDS + 1];
    fields[KHUMSAFIL_TRIGGER_ID_LENGTH] = id_length;
    fields[KHUMSAFIL_TRIGGER_ID_PLACE] = place;
    fields[KHUMSAFIL_TRIGGER_ID_BYTES] = size;
    fields[KHUMSAFIL_TRIGGER_USER_PLACE] = (uint16_t)payload;
    fields[KHUMSAFIL_TRIGGER_USER_BYTES] = 0;
    return fields;
}

static int empty_buffers(void) {
    uint64_t over = khumsafil_raw_descriptor_step(NULL, 0, 0);
    uint16_t fields[KHUMSAFIL_TRIGGER_FIELDS];
    EXPECT(khumsafil_raw_section_read(NULL, 0) == KHUMSAFIL_REFUSED_PAYLOAD_SHORT);
    EXPECT(khumsafil_raw_section_key(NULL, 0) == KHUMSAFIL_REFUSED_PAYLOAD_SHORT);
    EXPECT(over == (uint64_t)KHUMSAFIL_STEP_OVER << 8);
    EXPECT(khumsafil_raw_descriptor_step(NULL, 0, 1) == KHUMSAFIL_REFUSED_DESCRIPTOR_RUNS_PAST);
    EXPECT(khumsafil_raw_descriptor_step(NULL, 0, SIZE_MAX) == KHUMSAFIL_REFUSED_DESCRIPTOR_RUNS_PAST);
    EXPECT(!khumsafil_raw_descriptor_is_trigger_tap(NULL, 0, 0));
    EXPECT(khumsafil_raw_trigger_read(NULL, 0, NULL, 0) == KHUMSAFIL_REFUSED_TRIGGER_CUT_OFF);
    EXPECT(khumsafil_raw_trigger_read(NULL, 0, fields, KHUMSAFIL_TRIGGER_FIELDS) == KHUMSAFIL_REFUSED_TRIGGER_CUT_OFF);
    EXPECT(!khumsafil_raw_trigger_belongs(NULL, 0, NULL, 0, NULL, 0));
    EXPECT(khumsafil_raw_trigger_belongs(NULL, 0, of(0, 0, 3, 0), KHUMSAFIL_TRIGGER_FIELDS, NULL, 0));
    EXPECT(!khumsafil_raw_trigger_belongs(NULL, 0, of(0, 2, 5, 0), KHUMSAFIL_TRIGGER_FIELDS, NULL, 0));
    EXPECT(khumsafil_raw_trigger_belongs(p10, sizeof p10, of(sizeof p10, 2, 5, 0), KHUMSAFIL_TRIGGER_FIELDS, NULL, 0));
    EXPECT(khumsafil_raw_programme_read(NULL, 0, NULL, 0) == KHUMSAFIL_REFUSED_PAYLOAD_SHORT);
    EXPECT(khumsafil_raw_programme_items(NULL, 0, 0, 0, NULL, 0) == KHUMSAFIL_REFUSED_PAYLOAD_SHORT);
    EXPECT(khumsafil_raw_programme_items(NULL, 0, SIZE_MAX, 255, NULL, 0) == KHUMSAFIL_REFUSED_PAYLOAD_SHORT);
    EXPECT(khumsafil_raw_programme_own(NULL, 0, 0) == KHUMSAFIL_REFUSED_PAYLOAD_SHORT);
    EXPECT(khumsafil_raw_programme_own(NULL, 0, SIZE_MAX) == KHUMSAFIL_REFUSED_PAYLOAD_SHORT);
    EXPECT(khumsafil_raw_file_table(NULL, 0, NULL, 0) == KHUMSAFIL_REFUSED_BAD_NUMBER);
    EXPECT(khumsafil_raw_file_number(NULL, 0) == KHUMSAFIL_REFUSED_BAD_NUMBER);
    EXPECT(khumsafil_raw_clock_fresh(NULL, 0) == KHUMSAFIL_REFUSED_CLOCK_SPOILED);
    EXPECT(khumsafil_raw_clock_offer(NULL, 0, 0, 0, 0, 0) == KHUMSAFIL_REFUSED_CLOCK_SPOILED);
    EXPECT(khumsafil_raw_clock_move(NULL, 0, 0) == KHUMSAFIL_REFUSED_CLOCK_SPOILED);
    EXPECT(khumsafil_raw_clock_time(NULL, 0) == KHUMSAFIL_REFUSED_CLOCK_SPOILED);
    EXPECT(khumsafil_raw_clock_state(NULL, 0, 9) == KHUMSAFIL_REFUSED_CLOCK_SPOILED);
    return 0;
}

/* Fewer numbers than a trigger has stay as they were; of more, those behind the trigger's do. */
static int room_for_a_trigger(void) {
    size_t room, i;
    for (room = 0; room < 20; room++) {
        uint16_t fields[20];
        uint8_t answer;
        size_t from = room < KHUMSAFIL_TRIGGER_FIELDS ? 0 : KHUMSAFIL_TRIGGER_FIELDS;
        for (i = 0; i < 20; i++)
            fields[i] = 0xABCD;
        answer = khumsafil_raw_trigger_read(p10, sizeof p10, fields, room);
        EXPECT(answer == (from == 0 ? KHUMSAFIL_REFUSED_OUTPUT_TOO_SMALL : 0));
        if (from != 0) {
            EXPECT(fields[KHUMSAFIL_TRIGGER_KIND] == KHUMSAFIL_TARGET_TAP - 1);
            EXPECT(fields[KHUMSAFIL_TRIGGER_FIRST] == 23);
        }
        for (i = from; i < 20; i++)
            EXPECT(fields[i] == 0xABCD);
        /* A refused trigger leaves them too. */
        for (i = 0; i < 20; i++)
            fields[i] = 0xABCD;
        EXPECT(khumsafil_raw_trigger_read(p10, 12, fields, room) == KHUMSAFIL_REFUSED_TRIGGER_CUT_OFF);
        for (i = 0; i < 20; i++)
            EXPECT(fields[i] == 0xABCD);
    }
    return 0;
}

/* A number above 3 is refused before all else, and the record stays as it was. */
static int no_such_action(void) {
    uint32_t clock[KHUMSAFIL_CLOCK_RECORD];
    unsigned action;
    size_t i;
    for (action = 4; action < 256; action++) {
        for (i = 0; i < KHUMSAFIL_CLOCK_RECORD; i++)
            clock[i] = 0xFFFFFFFF;
        EXPECT(khumsafil_raw_clock_offer(clock, KHUMSAFIL_CLOCK_RECORD, 9, 0, (uint8_t)action, 0) ==
               KHUMSAFIL_REFUSED_NO_SUCH_ACTION);
        EXPECT(khumsafil_raw_clock_offer(NULL, 0, 9, 0, (uint8_t)action, 0) == KHUMSAFIL_REFUSED_NO_SUCH_ACTION);
        for (i = 0; i < KHUMSAFIL_CLOCK_RECORD; i++)
            EXPECT(clock[i] == 0xFFFFFFFF);
    }
    for (action = 0; action < 4; action++) {
        /* Ready, Active, Released, Released. */
        static const uint16_t after[] = {1, 2, 0, 0};
        EXPECT(khumsafil_raw_clock_fresh(clock, KHUMSAFIL_CLOCK_RECORD) == 0);
        EXPECT(khumsafil_raw_clock_move(clock, KHUMSAFIL_CLOCK_RECORD, 0) == 0);
        EXPECT(khumsafil_raw_clock_offer(clock, KHUMSAFIL_CLOCK_RECORD, 5, 1, (uint8_t)action, 0) ==
               KHUMSAFIL_HEARD_APPLIED << 8);
        EXPECT(khumsafil_raw_clock_state(clock, KHUMSAFIL_CLOCK_RECORD, 5) == after[action] << 8);
        EXPECT(khumsafil_raw_clock_offer(clock, KHUMSAFIL_CLOCK_RECORD, 5, 1, (uint8_t)action, 7) ==
               KHUMSAFIL_HEARD_WAITING << 8);
        EXPECT(khumsafil_raw_clock_move(clock, KHUMSAFIL_CLOCK_RECORD, 7) == 1 << 8);
        EXPECT(khumsafil_raw_clock_time(clock, KHUMSAFIL_CLOCK_RECORD) == UINT64_C(7) << 32);
    }
    return 0;
}

/* P1: a table of one section, and its file behind it. */
static const uint8_t p1[] = {0xC9, 0x70, 0x05, 0x12, 0x34, 0xC7, 0x00, 0x00};
static const uint8_t p1_file[] = {0x01, 0x01, 0x08, 0xC9, 0x70, 0x05, 0x12, 0x34, 0xC7, 0x00, 0x00};

/* Its key as a question takes it: the last two numbers mean nothing, since it is no NRT-IT. */
#define P1_KEY 0xC9, 0x1234, 0x0708, 0x090A0B0C

static uint16_t record[KHUMSAFIL_SHELF_RECORD];
static uint8_t store[KHUMSAFIL_STORE];
static uint8_t out[KHUMSAFIL_LARGEST_FILE];

#define NO_KEY 0, 0, 0, 0

/* No store is 17, no record 18, and an empty payload, file or output what an empty one is. */
static int empty_shelf(void) {
    const size_t n = KHUMSAFIL_SHELF_RECORD, s = KHUMSAFIL_STORE;
    EXPECT(khumsafil_raw_shelf_begin(NULL, 0, NULL, 0) == KHUMSAFIL_REFUSED_STORE_SIZE);
    EXPECT(khumsafil_raw_shelf_begin(NULL, 0, store, s) == KHUMSAFIL_REFUSED_SHELF_SPOILED);
    EXPECT(khumsafil_raw_shelf_begin(record, n, store, s) == 0);
    EXPECT(khumsafil_raw_shelf_offer(NULL, 0, NULL, 0, NULL, 0) == KHUMSAFIL_REFUSED_STORE_SIZE);
    EXPECT(khumsafil_raw_shelf_offer(NULL, 0, store, s, NULL, 0) == KHUMSAFIL_REFUSED_SHELF_SPOILED);
    EXPECT(khumsafil_raw_shelf_offer(record, n, store, s, NULL, 0) == KHUMSAFIL_REFUSED_PAYLOAD_SHORT);
    EXPECT(khumsafil_raw_shelf_complete(NULL, 0, NULL, 0, NO_KEY) == KHUMSAFIL_REFUSED_STORE_SIZE);
    EXPECT(khumsafil_raw_shelf_complete(NULL, 0, store, s, NO_KEY) == KHUMSAFIL_REFUSED_SHELF_SPOILED);
    EXPECT(khumsafil_raw_shelf_lowest_missing(NULL, 0, NULL, 0, NO_KEY) == KHUMSAFIL_REFUSED_STORE_SIZE);
    EXPECT(khumsafil_raw_shelf_lowest_missing(record, n, store, s, NO_KEY) == KHUMSAFIL_REFUSED_TABLE_NOT_HELD);
    EXPECT(khumsafil_raw_shelf_copy_section(NULL, 0, NULL, 0, NO_KEY, 0, NULL, 0) == KHUMSAFIL_REFUSED_STORE_SIZE);
    EXPECT(khumsafil_raw_shelf_release(NULL, 0, NULL, 0, NO_KEY) == KHUMSAFIL_REFUSED_STORE_SIZE);
    EXPECT(khumsafil_raw_shelf_save(NULL, 0, store, s, NO_KEY, NULL, 0) == KHUMSAFIL_REFUSED_SHELF_SPOILED);
    EXPECT(khumsafil_raw_shelf_load(NULL, 0, store, s, NULL, 0) == KHUMSAFIL_REFUSED_SHELF_SPOILED);
    EXPECT(khumsafil_raw_shelf_load(record, n, store, s, NULL, 0) == KHUMSAFIL_REFUSED_BAD_NUMBER);
    EXPECT(khumsafil_raw_file_list(NULL, 0, NULL, 0) == KHUMSAFIL_REFUSED_OUTPUT_TOO_SMALL);
    EXPECT(khumsafil_raw_file_list(NULL, 0, out, sizeof out) == 11 << 8);
    EXPECT(!khumsafil_raw_shelf_is_complete(NULL, 0, NULL, 0, NO_KEY));
    EXPECT(!khumsafil_raw_shelf_is_complete(NULL, 0, store, s, NO_KEY));
    EXPECT(khumsafil_raw_shelf_table(NULL, 0, NULL, 0, 0, NULL, 0) == KHUMSAFIL_REFUSED_STORE_SIZE);
    EXPECT(khumsafil_raw_shelf_table(NULL, 0, store, s, 0, NULL, 0) == KHUMSAFIL_REFUSED_SHELF_SPOILED);
    EXPECT(khumsafil_raw_shelf_table(record, n, store, s, 0, NULL, 0) == KHUMSAFIL_REFUSED_TABLE_NOT_HELD);
    return 0;
}

/* One more than is ever lent, so that too much can be. */
static uint16_t numbers[KHUMSAFIL_SHELF_RECORD + 1];
static uint8_t bytes[KHUMSAFIL_STORE + 1];
static uint32_t clock_numbers[KHUMSAFIL_CLOCK_RECORD + 1];
static uint16_t fields[KHUMSAFIL_TABLE_FIELDS + 1];

/* The number by which each call of a shelf refuses that record and store, where all agree; 0 where any does not. */
static uint32_t refused_by_all(size_t n, size_t s) {
    const uint32_t by = khumsafil_raw_shelf_begin(numbers, n, bytes, s);
    const int same = khumsafil_raw_shelf_offer(numbers, n, bytes, s, p1, sizeof p1) == by &&
                     khumsafil_raw_shelf_complete(numbers, n, bytes, s, P1_KEY) == by &&
                     khumsafil_raw_shelf_lowest_missing(numbers, n, bytes, s, P1_KEY) == by &&
                     khumsafil_raw_shelf_copy_section(numbers, n, bytes, s, P1_KEY, 0, out, sizeof out) == by &&
                     khumsafil_raw_shelf_release(numbers, n, bytes, s, P1_KEY) == by &&
                     khumsafil_raw_shelf_save(numbers, n, bytes, s, P1_KEY, out, sizeof out) == by &&
                     khumsafil_raw_shelf_load(numbers, n, bytes, s, p1_file, sizeof p1_file) == by &&
                     khumsafil_raw_shelf_table(numbers, n, bytes, s, 0, fields, KHUMSAFIL_TABLE_FIELDS) == by &&
                     !khumsafil_raw_shelf_is_complete(numbers, n, bytes, s, P1_KEY);
    return same ? by : 0;
}

/* How many numbers a record was before a key had four. */
#define EARLIER_RECORD 84

/* A store one byte shorter or longer is 17, a record one number shorter or longer or of an earlier count 18, and nothing is
   written. */
static int sizes_of_a_shelf(void) {
    const size_t n = KHUMSAFIL_SHELF_RECORD, s = KHUMSAFIL_STORE;
    size_t by, i;
    for (i = 0; i <= n; i++)
        numbers[i] = 0x0101;
    for (i = 0; i <= s; i++)
        bytes[i] = 0xA5;
    for (i = 0; i < sizeof out; i++)
        out[i] = 0xA5;
    for (i = 0; i <= KHUMSAFIL_TABLE_FIELDS; i++)
        fields[i] = 0xABCD;
    for (by = 0; by < 3; by++) {
        EXPECT(refused_by_all(n - 1 + by, s - 1) == KHUMSAFIL_REFUSED_STORE_SIZE);
        EXPECT(refused_by_all(n - 1 + by, s + 1) == KHUMSAFIL_REFUSED_STORE_SIZE);
        EXPECT(refused_by_all(n - 1 + by, 0) == KHUMSAFIL_REFUSED_STORE_SIZE);
    }
    EXPECT(refused_by_all(n - 1, s) == KHUMSAFIL_REFUSED_SHELF_SPOILED);
    EXPECT(refused_by_all(n + 1, s) == KHUMSAFIL_REFUSED_SHELF_SPOILED);
    EXPECT(refused_by_all(EARLIER_RECORD, s) == KHUMSAFIL_REFUSED_SHELF_SPOILED);
    EXPECT(refused_by_all(0, s) == KHUMSAFIL_REFUSED_SHELF_SPOILED);
    for (i = 0; i <= n; i++)
        EXPECT(numbers[i] == 0x0101);
    for (i = 0; i <= s; i++)
        EXPECT(bytes[i] == 0xA5);
    for (i = 0; i < sizeof out; i++)
        EXPECT(out[i] == 0xA5);
    for (i = 0; i <= KHUMSAFIL_TABLE_FIELDS; i++)
        EXPECT(fields[i] == 0xABCD);
    /* Of the size that the header says, both are taken, and the element behind them stays. */
    EXPECT(khumsafil_raw_shelf_begin(numbers, n, bytes, s) == 0);
    EXPECT(numbers[n] == 0x0101 && bytes[s] == 0xA5);
    return 0;
}

/* A clock one number shorter or longer is 35, and nothing is written. */
static int sizes_of_a_clock(void) {
    size_t n, i;
    for (i = 0; i <= KHUMSAFIL_CLOCK_RECORD; i++)
        clock_numbers[i] = 0;
    for (n = KHUMSAFIL_CLOCK_RECORD - 1; n <= KHUMSAFIL_CLOCK_RECORD + 1; n += 2) {
        EXPECT(khumsafil_raw_clock_fresh(clock_numbers, n) == KHUMSAFIL_REFUSED_CLOCK_SPOILED);
        EXPECT(khumsafil_raw_clock_offer(clock_numbers, n, 0, 0, 1, 0) == KHUMSAFIL_REFUSED_CLOCK_SPOILED);
        EXPECT(khumsafil_raw_clock_move(clock_numbers, n, 1) == KHUMSAFIL_REFUSED_CLOCK_SPOILED);
        EXPECT(khumsafil_raw_clock_time(clock_numbers, n) == KHUMSAFIL_REFUSED_CLOCK_SPOILED);
        EXPECT(khumsafil_raw_clock_state(clock_numbers, n, 0) == KHUMSAFIL_REFUSED_CLOCK_SPOILED);
    }
    for (i = 0; i <= KHUMSAFIL_CLOCK_RECORD; i++)
        EXPECT(clock_numbers[i] == 0);
    clock_numbers[KHUMSAFIL_CLOCK_RECORD] = 0x0101;
    EXPECT(khumsafil_raw_clock_fresh(clock_numbers, KHUMSAFIL_CLOCK_RECORD) == 0);
    EXPECT(khumsafil_raw_clock_offer(clock_numbers, KHUMSAFIL_CLOCK_RECORD, 0, 0, 1, 0) == KHUMSAFIL_HEARD_APPLIED << 8);
    EXPECT(clock_numbers[KHUMSAFIL_CLOCK_RECORD] == 0x0101);
    return 0;
}

/* The highest key of an NRT-IT, whose list is the longest. */
#define HIGHEST 0xDF, 0xFFFF, 0xFFFF, 0xFFFFFFFF

/* The largest section, trigger, file and list are as large as the header says: a byte less room is 15, and a byte more
   of a section or a trigger is refused. */
static int the_largest(void) {
    static uint8_t datagram[KHUMSAFIL_LARGEST_TRIGGER + 1], text[KHUMSAFIL_LARGEST_LIST];
    const size_t n = KHUMSAFIL_SHELF_RECORD, s = KHUMSAFIL_STORE;
    uint16_t fields[KHUMSAFIL_TRIGGER_FIELDS];
    uint32_t answer;
    unsigned number;
    EXPECT(khumsafil_raw_shelf_begin(record, n, store, s) == 0);
    /* Table 223, key 65535, service 65535, the highest start, version 31, sixteen sections of the largest size. */
    datagram[0] = 0xDF, datagram[3] = datagram[4] = datagram[5] = 0xFF, datagram[7] = 15;
    for (number = 8; number < 14; number++)
        datagram[number] = 0xFF;
    datagram[1] = 0x70 | (KHUMSAFIL_LARGEST_SECTION - 3) >> 8, datagram[2] = (uint8_t)(KHUMSAFIL_LARGEST_SECTION - 3);
    for (number = 0; number < 16; number++) {
        datagram[6] = (uint8_t)number;
        EXPECT(khumsafil_raw_section_read(datagram, KHUMSAFIL_LARGEST_SECTION) ==
               (UINT64_C(0x000F001FFFFFDF00) | (uint64_t)number << 40));
        EXPECT(khumsafil_raw_section_key(datagram, KHUMSAFIL_LARGEST_SECTION) == UINT64_C(0x00FFFFFFFFFFFF00));
        EXPECT(khumsafil_raw_shelf_offer(record, n, store, s, datagram, KHUMSAFIL_LARGEST_SECTION) ==
               (number == 0 ? 1u : 3u) << 8);
    }
    answer = khumsafil_raw_shelf_copy_section(record, n, store, s, HIGHEST, 15, out, KHUMSAFIL_LARGEST_SECTION - 1);
    EXPECT(answer == KHUMSAFIL_REFUSED_OUTPUT_TOO_SMALL);
    answer = khumsafil_raw_shelf_copy_section(record, n, store, s, HIGHEST, 15, out, KHUMSAFIL_LARGEST_SECTION);
    EXPECT(answer == KHUMSAFIL_LARGEST_SECTION << 8);
    answer = khumsafil_raw_shelf_save(record, n, store, s, HIGHEST, out, KHUMSAFIL_LARGEST_FILE - 1);
    EXPECT(answer == KHUMSAFIL_REFUSED_OUTPUT_TOO_SMALL);
    answer = khumsafil_raw_shelf_save(record, n, store, s, HIGHEST, out, KHUMSAFIL_LARGEST_FILE);
    EXPECT(answer == KHUMSAFIL_LARGEST_FILE << 8);
    answer = khumsafil_raw_file_list(out, KHUMSAFIL_LARGEST_FILE, text, KHUMSAFIL_LARGEST_LIST - 1);
    EXPECT(answer == KHUMSAFIL_REFUSED_OUTPUT_TOO_SMALL);
    answer = khumsafil_raw_file_list(out, KHUMSAFIL_LARGEST_FILE, text, KHUMSAFIL_LARGEST_LIST);
    EXPECT(answer == KHUMSAFIL_LARGEST_LIST << 8);
    /* Table 255 has no service and no start to tell. */
    for (number = 0; number < 16; number++)
        out[2 + 1026 * number + 2] = 0xFF;
    EXPECT(khumsafil_raw_file_list(out, KHUMSAFIL_LARGEST_FILE, text, 389) == KHUMSAFIL_REFUSED_OUTPUT_TOO_SMALL);
    EXPECT(khumsafil_raw_file_list(out, KHUMSAFIL_LARGEST_FILE, text, 390) == 390 << 8);
    /* A section one byte longer says so in its length field. */
    datagram[2]++;
    EXPECT(khumsafil_raw_section_read(datagram, KHUMSAFIL_LARGEST_SECTION + 1) == KHUMSAFIL_REFUSED_LENGTH_OUT_OF_RANGE);
    /* No id and no target; the rest is user data. */
    datagram[0] = datagram[1] = datagram[2] = datagram[3] = datagram[4] = datagram[5] = 0;
    datagram[6] = (KHUMSAFIL_LARGEST_TRIGGER - 8) >> 8, datagram[7] = (uint8_t)(KHUMSAFIL_LARGEST_TRIGGER - 8);
    EXPECT(khumsafil_raw_trigger_read(datagram, KHUMSAFIL_LARGEST_TRIGGER, fields, KHUMSAFIL_TRIGGER_FIELDS) == 0);
    datagram[7]++;
    EXPECT(khumsafil_raw_trigger_read(datagram, KHUMSAFIL_LARGEST_TRIGGER + 1, fields, KHUMSAFIL_TRIGGER_FIELDS) ==
           KHUMSAFIL_REFUSED_TRIGGER_TOO_LONG);
    return 0;
}

/* Buffers that are only read may share bytes, or be one. */
static int shared_to_be_read(void) {
    const uint8_t with_id[] = {0x00, 0x00, 0x04, 0x00, 0x01, 0x41, 0x42, 0x00, 0x00, 0x00, 0x00, 0x00};
    const size_t n = KHUMSAFIL_TRIGGER_FIELDS, s = sizeof with_id;
    EXPECT(khumsafil_raw_trigger_belongs(with_id, s, of(s, 4, 5, 2), n, with_id + 5, 2));
    EXPECT(!khumsafil_raw_trigger_belongs(with_id, s, of(s, 4, 5, 2), n, with_id + 6, 2));
    EXPECT(khumsafil_raw_trigger_belongs(with_id, s, of(s, 4, 3, sizeof with_id - 3), n, with_id + 3, s - 3));
    /* Numbers that cannot be this payload's are no trigger's: an id before place 3, as in a buffer of zeros, or user data that
       does not end where the payload does. */
    EXPECT(!khumsafil_raw_trigger_belongs(with_id, s, of(s, 0, 0, 0), n, with_id, s));
    EXPECT(!khumsafil_raw_trigger_belongs(with_id, s, of(s, 0, 2, 0), n, with_id, s));
    EXPECT(!khumsafil_raw_trigger_belongs(with_id, s, of(s - 1, 0, 3, 0), n, with_id, s));
    EXPECT(!khumsafil_raw_trigger_belongs(with_id, s, of(s + 1, 0, 3, 0), n, with_id, s));
    EXPECT(khumsafil_raw_trigger_belongs(with_id, s, of(s, 0, 3, 0), n, with_id, s));
    /* Fewer numbers than a trigger has are no trigger's, and one more is not looked at. */
    EXPECT(!khumsafil_raw_trigger_belongs(with_id, s, of(s, 4, 5, 2), n - 1, with_id + 5, 2));
    EXPECT(!khumsafil_raw_trigger_belongs(with_id, s, of(s, 0, 3, 0), n - 1, with_id + 5, 2));
    EXPECT(khumsafil_raw_trigger_belongs(with_id, s, of(s, 4, 5, 2), n + 1, with_id + 5, 2));
    /* An id that does not lie in the payload is no application's. */
    EXPECT(!khumsafil_raw_trigger_belongs(with_id, s, of(s, 4, sizeof with_id, 1), n, with_id + 11, 1));
    EXPECT(khumsafil_raw_trigger_belongs(with_id, s, of(s, 4, sizeof with_id - 1, 1), n, with_id + 11, 1));
    return 0;
}

/* What a host wrote on a store is taken as it stands; what it wrote on a record is refused where that is spoiled. */
static int written_on(void) {
    const size_t n = KHUMSAFIL_SHELF_RECORD, s = KHUMSAFIL_STORE;
    EXPECT(khumsafil_raw_shelf_begin(record, n, store, s) == 0);
    EXPECT(khumsafil_raw_shelf_offer(record, n, store, s, p1, sizeof p1) == KHUMSAFIL_SHELF_BEGAN << 8);
    store[7] = 9;
    EXPECT(khumsafil_raw_shelf_offer(record, n, store, s, p1, sizeof p1) == KHUMSAFIL_REFUSED_DIFFERS);
    EXPECT(khumsafil_raw_shelf_complete(record, n, store, s, P1_KEY) == 1 << 8);
    EXPECT(khumsafil_raw_shelf_is_complete(record, n, store, s, P1_KEY));
    EXPECT(khumsafil_raw_shelf_copy_section(record, n, store, s, P1_KEY, 0, out, 8) == 8 << 8);
    EXPECT(out[7] == 9);
    record[0] = 7;
    EXPECT(khumsafil_raw_shelf_complete(record, n, store, s, P1_KEY) == KHUMSAFIL_REFUSED_SHELF_SPOILED);
    EXPECT(!khumsafil_raw_shelf_is_complete(record, n, store, s, P1_KEY));
    EXPECT(khumsafil_raw_shelf_release(record, n, store, s, P1_KEY) == KHUMSAFIL_REFUSED_SHELF_SPOILED);
    EXPECT(khumsafil_raw_clock_fresh(clock_numbers, KHUMSAFIL_CLOCK_RECORD) == 0);
    clock_numbers[2] = 33;
    EXPECT(khumsafil_raw_clock_move(clock_numbers, KHUMSAFIL_CLOCK_RECORD, 1) == KHUMSAFIL_REFUSED_CLOCK_SPOILED);
    EXPECT(clock_numbers[0] == 0 && clock_numbers[2] == 33);
    return 0;
}

/* The bits of the answers are as the header says, and those that it does not name are 0. */
static int answers_of_a_shelf(void) {
    const size_t n = KHUMSAFIL_SHELF_RECORD, s = KHUMSAFIL_STORE;
    uint8_t next[8];
    uint32_t answer;
    size_t i;
    EXPECT(khumsafil_raw_shelf_begin(record, n, store, s) == 0);
    EXPECT(khumsafil_raw_shelf_offer(record, n, store, s, p1, sizeof p1) == KHUMSAFIL_SHELF_BEGAN << 8);
    EXPECT(khumsafil_raw_shelf_offer(record, n, store, s, p1, sizeof p1) == KHUMSAFIL_SHELF_REPEAT << 8);
    EXPECT(khumsafil_raw_shelf_complete(record, n, store, s, P1_KEY) == 1 << 8);
    EXPECT(khumsafil_raw_shelf_is_complete(record, n, store, s, P1_KEY));
    answer = khumsafil_raw_shelf_lowest_missing(record, n, store, s, P1_KEY);
    EXPECT(answer == 1 << 8);
    EXPECT(khumsafil_raw_shelf_copy_section(record, n, store, s, P1_KEY, 0, NULL, 0) ==
           KHUMSAFIL_REFUSED_OUTPUT_TOO_SMALL);
    EXPECT(khumsafil_raw_shelf_copy_section(record, n, store, s, P1_KEY, 16, NULL, 0) ==
           KHUMSAFIL_REFUSED_SECTION_NOT_HELD);
    answer = khumsafil_raw_shelf_save(record, n, store, s, P1_KEY, out, sizeof out);
    EXPECT(answer == sizeof p1_file << 8);
    for (i = 0; i < sizeof p1_file; i++)
        EXPECT(out[i] == p1_file[i]);
    EXPECT(khumsafil_raw_shelf_load(record, n, store, s, p1_file, sizeof p1_file) == KHUMSAFIL_REFUSED_KEY_HELD);
    EXPECT(khumsafil_raw_shelf_release(record, n, store, s, P1_KEY) == 0);
    EXPECT(khumsafil_raw_shelf_load(record, n, store, s, p1_file, sizeof p1_file) == 0);
    /* Version 4 of the same table, its section 1 of 0 to 2, and then its section 0. */
    for (i = 0; i < 8; i++)
        next[i] = p1[i];
    next[5] = 0xC9, next[6] = 1, next[7] = 2;
    EXPECT(khumsafil_raw_shelf_offer(record, n, store, s, next, 8) == KHUMSAFIL_SHELF_BEGAN_AGAIN << 8);
    next[6] = 0;
    EXPECT(khumsafil_raw_shelf_offer(record, n, store, s, next, 8) == KHUMSAFIL_SHELF_ADDED << 8);
    EXPECT(khumsafil_raw_shelf_complete(record, n, store, s, P1_KEY) == 2 << 8);
    EXPECT(!khumsafil_raw_shelf_is_complete(record, n, store, s, P1_KEY));
    answer = khumsafil_raw_shelf_lowest_missing(record, n, store, s, P1_KEY);
    EXPECT(answer == (2 << 16 | 2 << 8));
    return 0;
}

/* An empty body may be a null pointer. It makes one section, P1, and its file. */
static int answers_of_a_writer(void) {
    uint8_t section[sizeof p1 + 1], file[sizeof p1_file + 1];
    uint32_t answer;
    size_t i;
    EXPECT(khumsafil_raw_writer_count(0xC9, 0) == 1 << 8);
    EXPECT(khumsafil_raw_writer_count(0xC9, KHUMSAFIL_LARGEST_BODY) == 16 << 8);
    EXPECT(khumsafil_raw_writer_count(0xC9, KHUMSAFIL_LARGEST_BODY + 1) == KHUMSAFIL_REFUSED_WRITER_BODY_TOO_LONG);
    EXPECT(khumsafil_raw_writer_count(0xC9, SIZE_MAX) == KHUMSAFIL_REFUSED_WRITER_BODY_TOO_LONG);
    /* The NRT-IT's id is refused before all else. */
    EXPECT(khumsafil_raw_writer_count(0xDF, 0) == KHUMSAFIL_REFUSED_ASKED_FOR_NRT_IT);
    EXPECT(khumsafil_raw_writer_count(0xDF, SIZE_MAX) == KHUMSAFIL_REFUSED_ASKED_FOR_NRT_IT);
    EXPECT(khumsafil_raw_writer_section(0xDF, 0x1234, 32, bytes, KHUMSAFIL_LARGEST_BODY + 1, 1, NULL, 0) ==
           KHUMSAFIL_REFUSED_ASKED_FOR_NRT_IT);
    EXPECT(khumsafil_raw_writer_section(0xDF, 0x1234, 3, NULL, 0, 0, section, sizeof section) ==
           KHUMSAFIL_REFUSED_ASKED_FOR_NRT_IT);
    EXPECT(khumsafil_raw_writer_file(0xDF, 0x1234, 32, bytes, KHUMSAFIL_LARGEST_BODY + 1, NULL, 0) ==
           KHUMSAFIL_REFUSED_ASKED_FOR_NRT_IT);
    EXPECT(khumsafil_raw_writer_file(0xDF, 0x1234, 3, NULL, 0, file, sizeof file) == KHUMSAFIL_REFUSED_ASKED_FOR_NRT_IT);
    EXPECT(khumsafil_raw_writer_section(0xC9, 0x1234, 32, bytes, KHUMSAFIL_LARGEST_BODY + 1, 1, NULL, 0) ==
           KHUMSAFIL_REFUSED_WRITER_BODY_TOO_LONG);
    EXPECT(khumsafil_raw_writer_section(0xC9, 0x1234, 32, NULL, 0, 1, NULL, 0) == KHUMSAFIL_REFUSED_WRITER_VERSION_ABOVE_31);
    EXPECT(khumsafil_raw_writer_section(0xC9, 0x1234, 31, NULL, 0, 1, NULL, 0) == KHUMSAFIL_REFUSED_WRITER_K_ABOVE_LAST);
    EXPECT(khumsafil_raw_writer_section(0xC9, 0x1234, 3, NULL, 0, 0, NULL, 0) == KHUMSAFIL_REFUSED_OUTPUT_TOO_SMALL);
    EXPECT(khumsafil_raw_writer_file(0xC9, 0x1234, 32, NULL, 0, NULL, 0) == KHUMSAFIL_REFUSED_WRITER_VERSION_ABOVE_31);
    EXPECT(khumsafil_raw_writer_file(0xC9, 0x1234, 3, NULL, 0, NULL, 0) == KHUMSAFIL_REFUSED_OUTPUT_TOO_SMALL);
    section[sizeof p1] = file[sizeof p1_file] = 0xA5;
    answer = khumsafil_raw_writer_section(0xC9, 0x1234, 3, NULL, 0, 0, section, sizeof section);
    EXPECT(answer == sizeof p1 << 8);
    for (i = 0; i < sizeof p1; i++)
        EXPECT(section[i] == p1[i]);
    answer = khumsafil_raw_writer_file(0xC9, 0x1234, 3, NULL, 0, file, sizeof file);
    EXPECT(answer == sizeof p1_file << 8);
    for (i = 0; i < sizeof p1_file; i++)
        EXPECT(file[i] == p1_file[i]);
    EXPECT(section[sizeof p1] == 0xA5 && file[sizeof p1_file] == 0xA5);
    return 0;
}

/* Fewer numbers than a table has stay as they were; of more, those behind the table's do. A refused question leaves all. */
static int room_for_a_table(void) {
    const size_t n = KHUMSAFIL_SHELF_RECORD, s = KHUMSAFIL_STORE;
    size_t room, i;
    EXPECT(khumsafil_raw_shelf_begin(record, n, store, s) == 0);
    EXPECT(khumsafil_raw_shelf_offer(record, n, store, s, p1, sizeof p1) == KHUMSAFIL_SHELF_BEGAN << 8);
    for (room = 0; room <= KHUMSAFIL_TABLE_FIELDS + 1; room++) {
        const size_t from = room < KHUMSAFIL_TABLE_FIELDS ? 0 : KHUMSAFIL_TABLE_FIELDS;
        const uint8_t by = from == 0 ? KHUMSAFIL_REFUSED_OUTPUT_TOO_SMALL : 0;
        unsigned of_file;
        for (of_file = 0; of_file < 2; of_file++) {
            for (i = 0; i <= KHUMSAFIL_TABLE_FIELDS; i++)
                fields[i] = 0xABCD;
            if (of_file)
                EXPECT(khumsafil_raw_file_table(p1_file, sizeof p1_file - 1, fields, room) == KHUMSAFIL_REFUSED_BAD_FILE);
            else
                EXPECT(khumsafil_raw_shelf_table(record, n, store, s, 1, fields, room) == KHUMSAFIL_REFUSED_TABLE_NOT_HELD);
            for (i = 0; i <= KHUMSAFIL_TABLE_FIELDS; i++)
                EXPECT(fields[i] == 0xABCD);
            if (of_file)
                EXPECT(khumsafil_raw_file_table(p1_file, sizeof p1_file, fields, room) == by);
            else
                EXPECT(khumsafil_raw_shelf_table(record, n, store, s, 0, fields, room) == by);
            for (i = from; i <= KHUMSAFIL_TABLE_FIELDS; i++)
                EXPECT(fields[i] == 0xABCD);
            if (from != 0) {
                EXPECT(fields[KHUMSAFIL_TABLE_ID] == 0xC9 && fields[KHUMSAFIL_TABLE_EXTENSION] == 0x1234);
                EXPECT(fields[KHUMSAFIL_TABLE_SERVICE_ID] == 0);
                EXPECT(fields[KHUMSAFIL_TABLE_START_HIGH] == 0 && fields[KHUMSAFIL_TABLE_START_LOW] == 0);
                EXPECT(fields[KHUMSAFIL_TABLE_VERSION] == 3 && fields[KHUMSAFIL_TABLE_LAST] == 0);
                EXPECT(fields[KHUMSAFIL_TABLE_LENGTHS] == 8);
                for (i = 1; i < KHUMSAFIL_SECTIONS; i++)
                    EXPECT(fields[KHUMSAFIL_TABLE_LENGTHS + i] == 0);
            }
        }
    }
    /* No place above 3 is taken. */
    for (i = 1; i < 256; i++)
        EXPECT(khumsafil_raw_shelf_table(record, n, store, s, (uint8_t)i, fields, KHUMSAFIL_TABLE_FIELDS) ==
               KHUMSAFIL_REFUSED_TABLE_NOT_HELD);
    return 0;
}

/* A section of an NRT-IT with that service and start, of version 3, and its key. */
static const uint8_t *nrt_it(uint16_t service, uint32_t start) {
    static uint8_t made[] = {0xDF, 0x70, 0x0B, 0x10, 0x01, 0xC7, 0, 0, 0, 0, 0, 0, 0, 0};
    made[8] = (uint8_t)(service >> 8), made[9] = (uint8_t)service;
    made[10] = (uint8_t)(start >> 24), made[11] = (uint8_t)(start >> 16);
    made[12] = (uint8_t)(start >> 8), made[13] = (uint8_t)start;
    return made;
}
#define NRT_IT 14
#define NRT_IT_KEY(service, start) 0xDF, 0x1001, service, start

/* Every bit of the rest of a key, and 46 where there is no room for it. */
static int rest_of_a_key(void) {
    uint8_t short_one[NRT_IT];
    unsigned bit;
    size_t size, i;
    for (bit = 0; bit < 48; bit++) {
        const uint16_t service = (uint16_t)(bit < 16 ? 1u << bit : 0);
        const uint32_t start = bit < 16 ? 0 : (uint32_t)1 << (bit - 16);
        EXPECT(khumsafil_raw_section_read(nrt_it(service, start), NRT_IT) == UINT64_C(0x000000031001DF00));
        EXPECT(khumsafil_raw_section_key(nrt_it(service, start), NRT_IT) == UINT64_C(1) << (8 + bit));
    }
    EXPECT(khumsafil_raw_section_key(nrt_it(0x0708, 0x090A0B0C), NRT_IT) == UINT64_C(0x00090A0B0C070800));
    EXPECT(khumsafil_raw_section_key(p1, sizeof p1) == 0);
    for (size = 0; size < NRT_IT; size++) {
        const khumsafil_refusal by = size < 8 ? KHUMSAFIL_REFUSED_PAYLOAD_SHORT : KHUMSAFIL_REFUSED_KEY_SHORT;
        for (i = 0; i < NRT_IT; i++)
            short_one[i] = nrt_it(7, 9)[i];
        EXPECT(khumsafil_raw_section_key(short_one, size) == (size < 8 ? by : KHUMSAFIL_REFUSED_LONGER_THAN_PAYLOAD));
        short_one[2] = (uint8_t)(size - 3);
        EXPECT(khumsafil_raw_section_read(short_one, size) == by && khumsafil_raw_section_key(short_one, size) == by);
        EXPECT(khumsafil_raw_programme_own(short_one, size, 17) == by);
        short_one[0] = 0xDE;
        EXPECT(khumsafil_raw_section_key(short_one, size) == (size < 8 ? by : KHUMSAFIL_NOT_REFUSED));
    }
    return 0;
}

/* Two services, and two starts that differ in their higher bits alone, on one shelf; and one key in two places. */
static int two_services(void) {
    const size_t n = KHUMSAFIL_SHELF_RECORD, s = KHUMSAFIL_STORE;
    const uint32_t start = 0x3B9ACD20;
    uint32_t answer;
    size_t i;
    EXPECT(khumsafil_raw_shelf_begin(record, n, store, s) == 0);
    EXPECT(khumsafil_raw_shelf_offer(record, n, store, s, nrt_it(7, start), NRT_IT) == KHUMSAFIL_SHELF_BEGAN << 8);
    EXPECT(khumsafil_raw_shelf_offer(record, n, store, s, nrt_it(8, start), NRT_IT) == KHUMSAFIL_SHELF_BEGAN << 8);
    EXPECT(khumsafil_raw_shelf_offer(record, n, store, s, nrt_it(7, start ^ 1), NRT_IT) == KHUMSAFIL_SHELF_BEGAN << 8);
    EXPECT(khumsafil_raw_shelf_offer(record, n, store, s, nrt_it(7, start ^ 65536), NRT_IT) == KHUMSAFIL_SHELF_BEGAN << 8);
    EXPECT(khumsafil_raw_shelf_offer(record, n, store, s, nrt_it(7, start), NRT_IT) == KHUMSAFIL_SHELF_REPEAT << 8);
    EXPECT(khumsafil_raw_shelf_offer(record, n, store, s, nrt_it(9, start), NRT_IT) == KHUMSAFIL_REFUSED_NO_FREE_PLACE);
    EXPECT(khumsafil_raw_shelf_complete(record, n, store, s, NRT_IT_KEY(8, start)) == 1 << 8);
    EXPECT(khumsafil_raw_shelf_is_complete(record, n, store, s, NRT_IT_KEY(7, start ^ 65536)));
    EXPECT(!khumsafil_raw_shelf_is_complete(record, n, store, s, NRT_IT_KEY(8, start ^ 1)));
    EXPECT(khumsafil_raw_shelf_complete(record, n, store, s, NRT_IT_KEY(0, 0)) == KHUMSAFIL_REFUSED_TABLE_NOT_HELD);
    answer = khumsafil_raw_shelf_copy_section(record, n, store, s, NRT_IT_KEY(8, start), 0, out, NRT_IT);
    EXPECT(answer == NRT_IT << 8 && out[9] == 8);
    answer = khumsafil_raw_shelf_save(record, n, store, s, NRT_IT_KEY(7, start ^ 1), out, sizeof out);
    EXPECT(answer == (NRT_IT + 3) << 8 && out[3 + 9] == 7 && out[3 + 13] == (uint8_t)(start ^ 1));
    EXPECT(khumsafil_raw_shelf_load(record, n, store, s, out, NRT_IT + 3) == KHUMSAFIL_REFUSED_KEY_HELD);
    EXPECT(khumsafil_raw_file_table(out, NRT_IT + 3, fields, KHUMSAFIL_TABLE_FIELDS) == 0);
    EXPECT(fields[KHUMSAFIL_TABLE_ID] == 0xDF && fields[KHUMSAFIL_TABLE_EXTENSION] == 0x1001);
    EXPECT(fields[KHUMSAFIL_TABLE_SERVICE_ID] == 7 && fields[KHUMSAFIL_TABLE_START_HIGH] == start >> 16);
    EXPECT(fields[KHUMSAFIL_TABLE_START_LOW] == (uint16_t)(start ^ 1) && fields[KHUMSAFIL_TABLE_VERSION] == 3);
    EXPECT(fields[KHUMSAFIL_TABLE_LAST] == 0 && fields[KHUMSAFIL_TABLE_LENGTHS] == NRT_IT);
    EXPECT(khumsafil_raw_shelf_table(record, n, store, s, 1, fields, KHUMSAFIL_TABLE_FIELDS) == 0);
    EXPECT(fields[KHUMSAFIL_TABLE_SERVICE_ID] == 8 && fields[KHUMSAFIL_TABLE_START_LOW] == (uint16_t)start);
    EXPECT(khumsafil_raw_shelf_release(record, n, store, s, NRT_IT_KEY(7, start ^ 1)) == 0);
    EXPECT(khumsafil_raw_shelf_load(record, n, store, s, out, NRT_IT + 3) == 0);

    /* Place 1 with the key of place 0. */
    record[87] = 7;
    EXPECT(khumsafil_raw_shelf_complete(record, n, store, s, NRT_IT_KEY(7, start)) == KHUMSAFIL_REFUSED_SHELF_SPOILED);
    EXPECT(!khumsafil_raw_shelf_is_complete(record, n, store, s, NRT_IT_KEY(7, start)));
    record[87] = 8;
    EXPECT(khumsafil_raw_shelf_complete(record, n, store, s, NRT_IT_KEY(7, start)) == 1 << 8);
    /* Of another table the three numbers tell no two places apart. */
    record[64] = record[68] = 256 + 0xDE;
    EXPECT(khumsafil_raw_shelf_complete(record, n, store, s, NRT_IT_KEY(7, start ^ 1)) == KHUMSAFIL_REFUSED_SHELF_SPOILED);
    record[69]++;
    EXPECT(khumsafil_raw_shelf_complete(record, n, store, s, 0xDE, 0x1001, 1, 2) == 1 << 8);
    EXPECT(khumsafil_raw_shelf_table(record, n, store, s, 0, fields, KHUMSAFIL_TABLE_FIELDS) == 0);
    EXPECT(fields[KHUMSAFIL_TABLE_ID] == 0xDE);
    for (i = KHUMSAFIL_TABLE_SERVICE_ID; i <= KHUMSAFIL_TABLE_START_LOW; i++)
        EXPECT(fields[i] == 0);
    return 0;
}

/* What the calls leave in a record where it is disregarded is as the header says, whatever stood there. */
static int left_in_a_record(void) {
    const size_t n = KHUMSAFIL_SHELF_RECORD, s = KHUMSAFIL_STORE;
    uint16_t before[KHUMSAFIL_SHELF_RECORD];
    size_t i, p;
    for (i = 0; i < n; i++)
        record[i] = 0xABCD;
    EXPECT(khumsafil_raw_shelf_begin(record, n, store, s) == 0);
    for (p = 0; p < KHUMSAFIL_PLACES; p++) {
        for (i = 0; i < KHUMSAFIL_SECTIONS; i++)
            EXPECT(record[16 * p + i] == 8);
        EXPECT(record[64 + 4 * p] == p && record[65 + 4 * p] == 0 && record[66 + 4 * p] == 0 && record[67 + 4 * p] == 0);
        EXPECT(record[80 + p] == 1);
        EXPECT(record[84 + 3 * p] == 0 && record[85 + 3 * p] == 0 && record[86 + 3 * p] == 0);
    }
    /* Free places may have any numbers, and those that a call does not name stay. */
    for (i = 0; i < n; i++)
        record[i] = (uint16_t)(512 + i);
    for (i = 0; i < n; i++)
        before[i] = record[i];
    EXPECT(khumsafil_raw_shelf_offer(record, n, store, s, p1, sizeof p1) == KHUMSAFIL_SHELF_BEGAN << 8);
    before[0] = 8, before[64] = 256 + 0xC9, before[65] = 0x1234, before[66] = 3, before[67] = 0, before[80] = 1;
    before[84] = before[85] = before[86] = 0;
    for (i = 0; i < n; i++)
        EXPECT(record[i] == before[i]);
    EXPECT(khumsafil_raw_shelf_release(record, n, store, s, P1_KEY) == 0);
    before[64] = 0, before[65] = 0, before[66] = 0, before[67] = 0, before[80] = 1;
    for (i = 0; i < n; i++)
        EXPECT(record[i] == before[i]);
    EXPECT(khumsafil_raw_shelf_load(record, n, store, s, p1_file, sizeof p1_file) == 0);
    before[0] = 8, before[64] = 256 + 0xC9, before[65] = 0x1234, before[66] = 3, before[67] = 0, before[80] = 1;
    for (i = 0; i < n; i++)
        EXPECT(record[i] == before[i]);
    /* The rest of an NRT-IT's key is written where its table begins, and stays where it is released. */
    EXPECT(khumsafil_raw_shelf_offer(record, n, store, s, nrt_it(0x0708, 0x090A0B0C), NRT_IT) == KHUMSAFIL_SHELF_BEGAN << 8);
    before[16] = NRT_IT, before[68] = 256 + 0xDF, before[69] = 0x1001, before[70] = 3, before[71] = 0, before[81] = 1;
    before[87] = 0x0708, before[88] = 0x090A, before[89] = 0x0B0C;
    for (i = 0; i < n; i++)
        EXPECT(record[i] == before[i]);
    EXPECT(khumsafil_raw_shelf_release(record, n, store, s, NRT_IT_KEY(0x0708, 0x090A0B0C)) == 0);
    before[68] = 1, before[69] = 0, before[70] = 0, before[71] = 0, before[81] = 1;
    for (i = 0; i < n; i++)
        EXPECT(record[i] == before[i]);
    /* A table that is loaded there writes them too. */
    EXPECT(khumsafil_raw_shelf_release(record, n, store, s, P1_KEY) == 0);
    EXPECT(khumsafil_raw_shelf_offer(record, n, store, s, nrt_it(7, 9), NRT_IT) == KHUMSAFIL_SHELF_BEGAN << 8);
    EXPECT(record[84] == 7 && record[85] == 0 && record[86] == 9);
    EXPECT(khumsafil_raw_shelf_load(record, n, store, s, p1_file, sizeof p1_file) == 0);
    EXPECT(record[68] == 256 + 0xC9 && record[87] == 0 && record[88] == 0 && record[89] == 0);
    return 0;
}

/* P12 and the edges of a number's sizes: the value and how many bytes it takes. */
static int numbers_of_a_file(void) {
    static const uint8_t at_128[] = {0x80, 0x01}, not_shortest[] = {0x80, 0x00}, at_16383[] = {0xFF, 0x7F, 0x00},
                         at_16384[] = {0x80, 0x80, 0x01}, at_65535[] = {0xFF, 0xFF, 0x03}, above[] = {0x80, 0x80, 0x04},
                         at_127[] = {0x7F, 0xFF};
    EXPECT(khumsafil_raw_file_number(at_127, 2) == (1u << 24 | 127u << 8));
    EXPECT(khumsafil_raw_file_number(at_128, 2) == (2u << 24 | 128u << 8));
    EXPECT(khumsafil_raw_file_number(at_128, 1) == KHUMSAFIL_REFUSED_BAD_NUMBER);
    EXPECT(khumsafil_raw_file_number(not_shortest, 2) == KHUMSAFIL_REFUSED_BAD_NUMBER);
    EXPECT(khumsafil_raw_file_number(at_16383, 3) == (2u << 24 | 16383u << 8));
    EXPECT(khumsafil_raw_file_number(at_16384, 3) == (3u << 24 | 16384u << 8));
    EXPECT(khumsafil_raw_file_number(at_16384, 2) == KHUMSAFIL_REFUSED_BAD_NUMBER);
    EXPECT(khumsafil_raw_file_number(at_65535, 3) == (3u << 24 | 65535u << 8));
    EXPECT(khumsafil_raw_file_number(above, 3) == KHUMSAFIL_REFUSED_BAD_NUMBER);
    return 0;
}

/* A list with one item of linkage 66 and content_size 9, whose name is "AB" and whose one descriptor has no content. Its own
   loop has two descriptors. */
static const uint8_t list[] = {0xDF, 0x70, 0x25, 0x10, 0x00, 0xC7, 0x00, 0x00, 0x0C, 0x50, 0x3B, 0x9A, 0xCD, 0x20,
                               0xFD, 0xA0, 0x01, 0x00, 0x00, 0x00, 0x42, 0x01, 0x3F, 0x00, 0x00, 0x00, 0x00, 0x09,
                               0x02, 'A',  'B',  0x01, 0xC6, 0x00, 0x02, 0x05, 0x01, 0x07, 0x05, 0x00};
#define LIST sizeof list

/* The same with a second item behind it, the smallest, of linkage 7; and with that item cut off. */
static const uint8_t of_two[] = {0xDF, 0x70, 0x28, 0x10, 0x00, 0xC7, 0x00, 0x00, 0x0C, 0x50, 0x3B, 0x9A, 0xCD, 0x20, 0xFD,
                                 0xA0, 0x02, 0x00, 0x00, 0x00, 0x42, 0x01, 0x3F, 0x00, 0x00, 0x00, 0x00, 0x09, 0x02, 'A',
                                 'B',  0x01, 0xC6, 0x00, 0x00, 0x00, 0x00, 0x07, 0x00, 0x3F, 0x00, 0x00, 0x00};
static const uint8_t cut_off[] = {0xDF, 0x70, 0x26, 0x10, 0x00, 0xC7, 0x00, 0x00, 0x0C, 0x50, 0x3B, 0x9A, 0xCD, 0x20,
                                  0xFD, 0xA0, 0x02, 0x00, 0x00, 0x00, 0x42, 0x01, 0x3F, 0x00, 0x00, 0x00, 0x00, 0x09,
                                  0x02, 'A',  'B',  0x01, 0xC6, 0x00, 0x00, 0x00, 0x00, 0x07, 0x00, 0x3F, 0x00};

/* What is answered where there is room for so many items, which end before a place. */
static uint64_t told(unsigned count, size_t next) {
    if (count == 0)
        return KHUMSAFIL_REFUSED_OUTPUT_TOO_SMALL;
    return (uint64_t)next << 32 | (uint64_t)count << 16 | KHUMSAFIL_ITEM_FOUND << 8;
}

/* Fewer numbers than a list or an item has stay as they were; of more, those behind do. What is refused or over leaves all. */
static int room_for_a_list(void) {
    static const uint32_t of_list[KHUMSAFIL_PROGRAMME_FIELDS] = {3152, 1000000800, 1440, 1};
    static const uint64_t of_items[2 * KHUMSAFIL_ITEM_FIELDS] = {66, 4, 0, 0, 0, 9, 29, 1, 32, 34,
                                                                 7,  0, 0, 0, 0, 0, 41, 0, 42, 42};
    uint32_t read[8];
    uint64_t item[32];
    size_t room, i;
    for (room = 0; room <= 8; room++) {
        const size_t from = room < KHUMSAFIL_PROGRAMME_FIELDS ? 0 : KHUMSAFIL_PROGRAMME_FIELDS;
        for (i = 0; i < 8; i++)
            read[i] = 0xABCD;
        EXPECT(khumsafil_raw_programme_read(list, LIST - 1, read, room) == KHUMSAFIL_REFUSED_LONGER_THAN_PAYLOAD);
        for (i = 0; i < 8; i++)
            EXPECT(read[i] == 0xABCD);
        EXPECT(khumsafil_raw_programme_read(list, LIST, read, room) == (from == 0 ? KHUMSAFIL_REFUSED_OUTPUT_TOO_SMALL : 0));
        for (i = 0; i < 8; i++)
            EXPECT(read[i] == (i < from ? of_list[i] : 0xABCD));
    }
    EXPECT(khumsafil_raw_programme_read(list, LIST, NULL, 0) == KHUMSAFIL_REFUSED_OUTPUT_TOO_SMALL);
    for (room = 0; room <= 32; room++) {
        /* How many there is room for, of a list of one item, also where a second is refused, and of a list of two. */
        const unsigned one = room < KHUMSAFIL_ITEM_FIELDS ? 0 : 1;
        const unsigned two = room < 2 * KHUMSAFIL_ITEM_FIELDS ? one : 2;
        for (i = 0; i < 32; i++)
            item[i] = 0xABCD;
        /* 15 is given only where an item is there. */
        EXPECT(khumsafil_raw_programme_items(list, LIST - 1, 17, 0, item, room) == KHUMSAFIL_REFUSED_LONGER_THAN_PAYLOAD);
        EXPECT(khumsafil_raw_programme_items(list, LIST, 16, 0, item, room) == KHUMSAFIL_REFUSED_PROGRAMME_PASSES_END);
        EXPECT(khumsafil_raw_programme_items(list, LIST, SIZE_MAX, 0, item, room) == KHUMSAFIL_REFUSED_PROGRAMME_PASSES_END);
        EXPECT(khumsafil_raw_programme_items(list, LIST, 17, 1, item, room) == KHUMSAFIL_ITEM_OVER << 8);
        EXPECT(khumsafil_raw_programme_items(list, LIST, SIZE_MAX, 255, item, room) == KHUMSAFIL_ITEM_OVER << 8);
        EXPECT(khumsafil_raw_programme_items(cut_off, sizeof cut_off, 34, 1, item, room) ==
               KHUMSAFIL_REFUSED_PROGRAMME_PASSES_END);
        for (i = 0; i < 32; i++)
            EXPECT(item[i] == 0xABCD);
        EXPECT(khumsafil_raw_programme_items(list, LIST, 17, 0, item, room) == told(one, 34));
        EXPECT(khumsafil_raw_programme_items(cut_off, sizeof cut_off, 17, 0, item, room) == told(one, 34));
        for (i = 0; i < 32; i++)
            EXPECT(item[i] == (i < one * KHUMSAFIL_ITEM_FIELDS ? of_items[i] : 0xABCD));
        EXPECT(khumsafil_raw_programme_items(of_two, sizeof of_two, 17, 0, item, room) == told(two, two == 2 ? 42 : 34));
        for (i = 0; i < 32; i++)
            EXPECT(item[i] == (i < two * KHUMSAFIL_ITEM_FIELDS ? of_items[i] : 0xABCD));
    }
    EXPECT(khumsafil_raw_programme_items(list, LIST, 17, 0, NULL, 0) == KHUMSAFIL_REFUSED_OUTPUT_TOO_SMALL);
    EXPECT(khumsafil_raw_programme_items(list, LIST, 17, 1, NULL, 0) == KHUMSAFIL_ITEM_OVER << 8);
    return 0;
}

/* Any place is answered, also those whose end no number has; every bit of the own loop's answer is as the header says. */
static int places_of_a_list(void) {
    uint64_t item[KHUMSAFIL_ITEM_FIELDS];
    size_t less;
    EXPECT(khumsafil_raw_programme_own(list, LIST, 34) == (UINT64_C(5) << 32 | 35 << 16 | 2 << 8));
    EXPECT(khumsafil_raw_programme_own(list, LIST, 33) == KHUMSAFIL_REFUSED_PROGRAMME_BYTES_LEFT);
    EXPECT(khumsafil_raw_programme_own(list, LIST, LIST) == KHUMSAFIL_REFUSED_PROGRAMME_PASSES_END);
    EXPECT(khumsafil_raw_programme_own(list, LIST, LIST - 1) == (uint64_t)LIST << 16);
    for (less = 0; less < 600; less++) {
        EXPECT(khumsafil_raw_programme_items(list, LIST, SIZE_MAX - less, 0, item, KHUMSAFIL_ITEM_FIELDS) ==
               KHUMSAFIL_REFUSED_PROGRAMME_PASSES_END);
        EXPECT(khumsafil_raw_programme_own(list, LIST, SIZE_MAX - less) == KHUMSAFIL_REFUSED_PROGRAMME_PASSES_END);
        EXPECT(khumsafil_raw_programme_own(list, LIST, LIST + less) == KHUMSAFIL_REFUSED_PROGRAMME_PASSES_END);
    }
    return 0;
}

/* The text of a file: bytes that hold the list above alone, with nothing, too little and more lent. A file of the largest size
   has a text with room for any, and with a byte less than the text nothing is written. */
static int text_of_a_file(void) {
    static const char said[] = "table 223 key 4096 service 3152 start 1000000800 version 3 last 0\n"
                               "section 0 service 3152 start 1000000800 minutes 1440 items 1\n"
                               "item 0 linkage 66\n"
                               "updates 0 fragment 0 protected 0 master 0 internet 0 broadcast 0\n"
                               "size 9\n"
                               "name AB\n"
                               "descriptors 1 bytes 2\n"
                               "list descriptors 2 bytes 5\n"
                               "whole\n";
    static uint8_t text[KHUMSAFIL_PROGRAMME_TEXT + 1];
    const size_t size = sizeof said - 1;
    uint8_t file[3 + LIST];
    uint64_t answer;
    size_t room, lines, i;
    unsigned number;
    file[0] = 1, file[1] = 1, file[2] = LIST;
    for (i = 0; i < LIST; i++)
        file[3 + i] = list[i];
    EXPECT(khumsafil_raw_programme_list(NULL, 0, NULL, 0) == KHUMSAFIL_REFUSED_OUTPUT_TOO_SMALL);
    EXPECT(khumsafil_raw_programme_list(NULL, 0, out, sizeof out) == 11 << 8);
    EXPECT(khumsafil_raw_programme_list(file, sizeof file, NULL, 0) == KHUMSAFIL_REFUSED_OUTPUT_TOO_SMALL);
    for (room = 0; room <= size + 2; room++) {
        for (i = 0; i < size + 3; i++)
            text[i] = 0xA5;
        answer = khumsafil_raw_programme_list(file, sizeof file, text, room);
        EXPECT(answer == (room < size ? (uint64_t)KHUMSAFIL_REFUSED_OUTPUT_TOO_SMALL : (uint64_t)size << 8));
        for (i = 0; i < size + 3; i++)
            EXPECT(text[i] == (room >= size && i < size ? (uint8_t)said[i] : 0xA5));
    }

    /* Sixteen sections of 125 items of 8 bytes, whose own loops have one descriptor of 4 bytes. */
    for (i = 0; i < sizeof out; i++)
        out[i] = 0;
    out[0] = 1, out[1] = 16;
    for (number = 0; number < 16; number++) {
        uint8_t *section = out + 2 + number * (2 + KHUMSAFIL_LARGEST_SECTION) + 2;
        section[-2] = 0x80, section[-1] = 0x08;
        for (i = 0; i < KHUMSAFIL_FIRST_ITEM; i++)
            section[i] = list[i];
        section[1] = 0x70 | (KHUMSAFIL_LARGEST_SECTION - 3) >> 8, section[2] = (uint8_t)(KHUMSAFIL_LARGEST_SECTION - 3);
        section[6] = (uint8_t)number, section[7] = 15, section[16] = 125;
        section[1017] = 1, section[1018] = 0xAD, section[1019] = 4;
    }
    for (i = 0; i < sizeof text; i++)
        text[i] = 0xA5;
    answer = khumsafil_raw_programme_list(out, sizeof out, text, KHUMSAFIL_PROGRAMME_TEXT);
    EXPECT((uint8_t)answer == 0 && answer >> 8 > 100000 && answer >> 8 <= KHUMSAFIL_PROGRAMME_TEXT);
    room = (size_t)(answer >> 8);
    for (i = 0, lines = 0; i < room; i++)
        lines += text[i] == '\n';
    EXPECT(lines == 1 + 16 * (1 + 125 * 4 + 1) + 1);
    EXPECT(text[room - 6] == 'w' && text[room - 1] == '\n');
    for (i = room; i < sizeof text; i++)
        EXPECT(text[i] == 0xA5);
    for (i = 0; i < sizeof text; i++)
        text[i] = 0xA5;
    EXPECT(khumsafil_raw_programme_list(out, sizeof out, text, room - 1) == KHUMSAFIL_REFUSED_OUTPUT_TOO_SMALL);
    for (i = 0; i < sizeof text; i++)
        EXPECT(text[i] == 0xA5);
    EXPECT(khumsafil_raw_programme_list(out, sizeof out, text, room) == answer);
    EXPECT(text[room - 1] == '\n' && text[room] == 0xA5);
    /* A byte less of the file is refused, in words. */
    EXPECT(khumsafil_raw_programme_list(out, sizeof out - 1, text, sizeof text) == 11 << 8);
    EXPECT(text[8] == '1' && text[9] == '2' && text[10] == '\n');
    return 0;
}

int main(void) {
    EXPECT(khumsafil_raw_version() == KHUMSAFIL_VERSION);
    return empty_buffers() || room_for_a_trigger() || no_such_action() || empty_shelf() || sizes_of_a_shelf() ||
           sizes_of_a_clock() || the_largest() || shared_to_be_read() || written_on() || answers_of_a_shelf() ||
           answers_of_a_writer() || room_for_a_table() || rest_of_a_key() || two_services() || left_in_a_record() ||
           numbers_of_a_file() || room_for_a_list() || places_of_a_list() || text_of_a_file();
}
