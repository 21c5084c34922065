/*
 * The functions of the library as they are linked: numbers and buffers alone. A host calls khumsafil.h, which has a type for
 * each answer. One that keeps a shelf's record and its store apart, or lends them to another language, calls these.
 *
 * A raw answer is a number and no truth value: the one that says "incomplete" is not 0, and neither is a refusal. Only what
 * is declared bool is a plain yes or no.
 *
 * A buffer is a pointer and, as the next parameter, the number of its elements. What is said of a buffer below is all that
 * a call does to it; a refused call leaves every buffer as it was.
 *
 * Where an answer is wider than 8 bits, bits 0 to 7 are the number of refusal, or 0 where the call is accepted, and of a
 * refused call all other bits are 0. Of an accepted one they are as the function says, and the bits that it does not name
 * are 0.
 *
 * The archive needs memcpy, memmove and memset of whoever links it, and nothing else.
 */
#ifndef KHUMSAFIL_RAW_H
#define KHUMSAFIL_RAW_H

#include <stdbool.h>
#include <stddef.h>
#include <stdint.h>

#ifdef __cplusplus
extern "C" {
#endif

/*
 * What the host lends, and the largest of what it receives:
 *
 *   a shelf      KHUMSAFIL_SHELF_RECORD numbers and KHUMSAFIL_STORE bytes, and neither more nor fewer
 *   a clock      KHUMSAFIL_CLOCK_RECORD numbers, and neither more nor fewer
 *   a table      room for KHUMSAFIL_TABLE_FIELDS numbers at least
 *   a trigger    room for KHUMSAFIL_TRIGGER_FIELDS numbers at least
 *   a list       of programmes: room for KHUMSAFIL_PROGRAMME_FIELDS numbers at least; for each item of it
 *                KHUMSAFIL_ITEM_FIELDS, and KHUMSAFIL_MOST_ITEMS times as many are enough for all of a section
 *   a section    room for KHUMSAFIL_LARGEST_SECTION bytes is enough, for a file KHUMSAFIL_LARGEST_FILE, for a file's
 *                list KHUMSAFIL_LARGEST_LIST, for the text of a file of programme lists KHUMSAFIL_PROGRAMME_TEXT
 *   a datagram   one byte more than KHUMSAFIL_LARGEST_SECTION or KHUMSAFIL_LARGEST_TRIGGER, so that a longer one is
 *                refused and not clipped
 */
#define KHUMSAFIL_SHELF_RECORD 96
#define KHUMSAFIL_STORE 65536
#define KHUMSAFIL_PLACES 4
#define KHUMSAFIL_SECTIONS 16
#define KHUMSAFIL_CLOCK_RECORD 67
#define KHUMSAFIL_TABLE_FIELDS 23
#define KHUMSAFIL_TRIGGER_FIELDS 11
#define KHUMSAFIL_PROGRAMME_FIELDS 4
#define KHUMSAFIL_ITEM_FIELDS 10
#define KHUMSAFIL_MOST_ITEMS 125
#define KHUMSAFIL_LARGEST_SECTION 1024
#define KHUMSAFIL_LARGEST_FILE 16418
#define KHUMSAFIL_LARGEST_LIST 421
#define KHUMSAFIL_PROGRAMME_TEXT 327768
#define KHUMSAFIL_LARGEST_TRIGGER 4096
#define KHUMSAFIL_LARGEST_BODY 16256

/* The bytes of a section before its body, and of a descriptor before its content. */
#define KHUMSAFIL_SECTION_HEADER 8
#define KHUMSAFIL_DESCRIPTOR_HEAD 2

/* The table id of a programme list, the NRT-IT's, and the place of its first item. */
#define KHUMSAFIL_PROGRAMME_TABLE 0xDF
#define KHUMSAFIL_FIRST_ITEM 17

/* The library's version: 65536 times the major number, 256 times the minor one and the patch. */
uint32_t khumsafil_raw_version(void);

/*
 * A table's key is what tells it from others: its table id and its table id extension, and of an NRT-IT, whose table id is
 * KHUMSAFIL_PROGRAMME_TABLE, also service_id and time_span_start, the first six bytes of its body. Of every other table these
 * two mean nothing: where they are asked with they are disregarded, and where they are answered they are 0.
 */

/*
 * Reads the payload as one section. Refuses by 1 to 8, the lowest number that applies, and then by 46 an NRT-IT under 14
 * bytes, which has no room for its key.
 *
 * payload: read, and left as it is.
 *
 * Bits 8 to 15 are the table id, 16 to 31 the table id extension, 32 to 39 the version, 40 to 47 the section number, 48 to
 * 55 the last number. The body is the payload from byte KHUMSAFIL_SECTION_HEADER to the end.
 */
uint64_t khumsafil_raw_section_read(const uint8_t *payload, size_t payload_length);

/*
 * The rest of the key of the section that the payload is. Refuses as khumsafil_raw_section_read does. Of a section of any table
 * but an NRT-IT the answer is 0, so a host need ask only where the table id of the first answer is KHUMSAFIL_PROGRAMME_TABLE.
 *
 * payload: read, and left as it is.
 *
 * Bits 8 to 23 are service_id, 24 to 55 time_span_start.
 */
uint64_t khumsafil_raw_section_key(const uint8_t *payload, size_t payload_length);

/*
 * A shelf is a record of KHUMSAFIL_SHELF_RECORD numbers and a store of KHUMSAFIL_STORE bytes, both lent. Another size of the
 * store is refused by 17, and then another number of numbers by 18.
 *
 * Of place p of four, and section n of sixteen, the record has
 *
 *   16p + n   the length of the section, where it is held
 *   64 + 4p   256 + the table id where the place is taken; any number below 256 or above 511 where it is free
 *   65 + 4p   the table id extension
 *   66 + 4p   the version
 *   67 + 4p   the last number
 *   80 + p    bit n is 1 where the section is held
 *   84 + 3p   service_id, of an NRT-IT
 *   85 + 3p   the higher 16 bits of time_span_start, of an NRT-IT
 *   86 + 3p   the lower 16 bits of time_span_start, of an NRT-IT
 *
 * Section n of place p stands in the store from byte 1024 (16p + n) on. The numbers of a place that is free, the length of a
 * section that is not held, and the three numbers from 84 + 3p on of a place that another table than an NRT-IT has, are
 * disregarded. So every value of the numbers is some record; a spoiled one is refused by 18. Promises over a history presume
 * that the host lends record and store back as they were left.
 *
 * What the calls leave where it is disregarded:
 *
 *   begin     each length 8, the four numbers of each place from 64 + 4p on p, 0, 0, 0, each mask from 80 on 1, and the
 *             numbers from 84 on 0
 *   release   of its place the four numbers p, 0, 0, 0 and the mask 1; the lengths and the three numbers from 84 + 3p on stay
 *             as they were
 *   offer and load   of a table that begins, begins again or is loaded, the four numbers, the mask, the lengths of the
 *             sections that it holds and the three numbers from 84 + 3p on, which are 0 of every table but an NRT-IT; of a
 *             section that is added, its length and the mask; all else stays as it was
 *
 * So two records of the same tables need not be the same numbers. They are equal exactly when
 * khumsafil_raw_shelf_table answers the same of both at each of the four places.
 *
 * Where a call takes the numbers of a key, any may be given; service is service_id and start time_span_start, and both are
 * disregarded where table is not KHUMSAFIL_PROGRAMME_TABLE.
 */

/*
 * Makes record and store a fresh shelf: four free places. Answers 0, or the number of refusal: 17, 18.
 *
 * record: written, whatever stood there.
 * store: all bytes become 0.
 */
uint8_t khumsafil_raw_shelf_begin(uint16_t *record, size_t record_length, uint8_t *store, size_t store_length);

/*
 * Offers a payload. Refuses by 17, 18, then 1 to 8, the lowest number that applies, 46, 9 and 10.
 *
 * record: after the call the next one; where the section is a repeat, left as it was.
 * store: the section's berth becomes the section and then zeros; where it begins its table again, the berths that
 * were held become 0 before that; all other bytes stay as they were. Left as it was with the record.
 * payload: read, and left as it is.
 *
 * Bits 8 to 15 are what the section did: 1 it began its table, 2 it began it again, 3 it was added, 4 it is a repeat.
 */
uint16_t khumsafil_raw_shelf_offer(uint16_t *record, size_t record_length, uint8_t *store, size_t store_length,
                                   const uint8_t *payload, size_t payload_length);

/*
 * Whether a table is held and every section of it from 0 to its last. False where the question would be refused by 17, 18
 * or 14.
 *
 * record, store: read, and left as they are.
 */
bool khumsafil_raw_shelf_is_complete(const uint16_t *record, size_t record_length, const uint8_t *store,
                                     size_t store_length, uint8_t table, uint16_t extension, uint16_t service,
                                     uint32_t start);

/*
 * Whether every section of a table, from 0 to its last, is held. Refuses by 17, 18, 14.
 *
 * record, store: read, and left as they are.
 *
 * Bits 8 to 15 are 1 where the table is complete and 2 where it is not. So no answer is 0.
 */
uint16_t khumsafil_raw_shelf_complete(const uint16_t *record, size_t record_length, const uint8_t *store,
                                      size_t store_length, uint8_t table, uint16_t extension, uint16_t service,
                                      uint32_t start);

/*
 * The lowest number of a table that is not held. Refuses by 17, 18, 14.
 *
 * record, store: read, and left as they are.
 *
 * Bits 8 to 15 are 1 where nothing is missing and 2 where a section is; its number is then in bits 16 to 23.
 */
uint32_t khumsafil_raw_shelf_lowest_missing(const uint16_t *record, size_t record_length, const uint8_t *store,
                                            size_t store_length, uint8_t table, uint16_t extension, uint16_t service,
                                            uint32_t start);

/* Where the numbers of a table stand: its key, with service_id and the higher and the lower 16 bits of time_span_start, all 0 of
   every table but an NRT-IT; its version, its last number, and then the lengths of its sections 0 to 15 in bytes, 0 where a
   section is not held. */
#define KHUMSAFIL_TABLE_ID 0
#define KHUMSAFIL_TABLE_EXTENSION 1
#define KHUMSAFIL_TABLE_SERVICE_ID 2
#define KHUMSAFIL_TABLE_START_HIGH 3
#define KHUMSAFIL_TABLE_START_LOW 4
#define KHUMSAFIL_TABLE_VERSION 5
#define KHUMSAFIL_TABLE_LAST 6
#define KHUMSAFIL_TABLE_LENGTHS 7

/*
 * Which table is in a place. Any place may be asked. Answers 0, or the number of refusal: 17, 18, 14 where the place is
 * free or is none of 0 to 3, 15 where there is room for fewer than KHUMSAFIL_TABLE_FIELDS numbers.
 *
 * record, store: read, and left as they are.
 * fields: the first KHUMSAFIL_TABLE_FIELDS become the table's numbers, and those past them stay as they were.
 */
uint8_t khumsafil_raw_shelf_table(const uint16_t *record, size_t record_length, const uint8_t *store,
                                  size_t store_length, uint8_t place, uint16_t *fields, size_t fields_length);

/*
 * Copies a held section out. Any number may be asked. Refuses by 17, 18, 14, 16, 15.
 *
 * record, store: read, and left as they are.
 * out: its first bytes become the section, and those past it stay as they were.
 *
 * Bits 8 to 31 are how many bytes the section is.
 */
uint32_t khumsafil_raw_shelf_copy_section(const uint16_t *record, size_t record_length, const uint8_t *store,
                                          size_t store_length, uint8_t table, uint16_t extension, uint16_t service,
                                          uint32_t start, uint8_t number, uint8_t *out, size_t out_length);

/*
 * Releases a table: its place is free. Answers 0, or the number of refusal: 17, 18, 14.
 *
 * record: after the call the next one.
 * store: the place's sixteen berths become 0, and all other bytes stay as they were.
 */
uint8_t khumsafil_raw_shelf_release(uint16_t *record, size_t record_length, uint8_t *store, size_t store_length,
                                    uint8_t table, uint16_t extension, uint16_t service, uint32_t start);

/*
 * Saves a held table as a file. Refuses by 17, 18, 14, 15.
 *
 * record, store: read, and left as they are.
 * out: its first bytes become the file, and those past it stay as they were. KHUMSAFIL_LARGEST_FILE bytes are room for
 * every table.
 *
 * Bits 8 to 31 are how many bytes the file is.
 */
uint32_t khumsafil_raw_shelf_save(const uint16_t *record, size_t record_length, const uint8_t *store,
                                  size_t store_length, uint8_t table, uint16_t extension, uint16_t service,
                                  uint32_t start, uint8_t *out, size_t out_length);

/*
 * Loads a file's table into the lowest free place. Answers 0, or the number of refusal: 17, 18, the file's first fault
 * (11, 12, or 2 to 8 or 46 for one of a section), 13, 9.
 *
 * record: after the call the next one.
 * store: the berth of each section becomes the section and then zeros, and all other bytes stay as they were.
 * file: read, and left as it is.
 */
uint8_t khumsafil_raw_shelf_load(uint16_t *record, size_t record_length, uint8_t *store, size_t store_length,
                                 const uint8_t *file, size_t file_length);

/*
 * Which table a file is, in the numbers of khumsafil_raw_shelf_table. Answers 0, or the number of refusal: the file's first
 * fault (11, 12, 2 to 8, 46), then 15 where there is room for fewer than KHUMSAFIL_TABLE_FIELDS numbers.
 *
 * file: read, and left as it is.
 * fields: the first KHUMSAFIL_TABLE_FIELDS become the table's numbers, and those past them stay as they were.
 */
uint8_t khumsafil_raw_file_table(const uint8_t *file, size_t file_length, uint16_t *fields, size_t fields_length);

/*
 * Says in lines of text what a file holds; of one that is refused, by which number. Refuses by 15 alone.
 *
 * file: read, and left as it is.
 * out: its first bytes become the text, with no zero byte behind it, and those past it stay as they were.
 *
 * Bits 8 to 31 are how many bytes the text is.
 */
uint32_t khumsafil_raw_file_list(const uint8_t *file, size_t file_length, uint8_t *out, size_t out_length);

/*
 * The seven-bit number at the front of some bytes. Refuses by 11.
 *
 * bytes: read, and left as it is.
 *
 * Bits 8 to 23 are the number, 24 to 31 how many bytes it takes, 1 to 3.
 */
uint32_t khumsafil_raw_file_number(const uint8_t *bytes, size_t bytes_length);

/*
 * What stands at a place of a descriptor loop. Any place may be asked. Refuses by 19.
 *
 * bytes: the loop; read, and left as it is.
 *
 * Bits 8 to 15 are 1 where a descriptor was found and 2 where the walk is over. Of a descriptor bits 16 to 23 are the tag,
 * and 24 to 63 the low 40 bits of the place of the next step. Its content starts KHUMSAFIL_DESCRIPTOR_HEAD behind the place
 * asked and ends at that next place; in a loop of 2^40 bytes or more the low 8 bits of the difference are the content's
 * length, which is right in every loop.
 */
uint64_t khumsafil_raw_descriptor_step(const uint8_t *bytes, size_t bytes_length, size_t at);

/*
 * Whether the descriptor at a place marks a trigger Tap: tag 0x72, length 24 and application/atsc-trigger, its letters small
 * or capital. Where no descriptor can be read, it does not.
 *
 * bytes: the loop; read, and left as it is.
 */
bool khumsafil_raw_descriptor_is_trigger_tap(const uint8_t *bytes, size_t bytes_length, size_t at);

/* Where the numbers of a trigger stand. One that a kind of target has no use for is 0. */
#define KHUMSAFIL_TRIGGER_ID_LENGTH 0   /* the application id's length as read; 0: for every application */
#define KHUMSAFIL_TRIGGER_DESCRIPTION 1 /* 0 where that length is 0 */
#define KHUMSAFIL_TRIGGER_ID_PLACE 2    /* where the id lies in the payload */
#define KHUMSAFIL_TRIGGER_ID_BYTES 3    /* and how many bytes it is */
#define KHUMSAFIL_TRIGGER_KIND 4        /* 0 none, 1 module, 2 tap, 3 absolute URI, 4 lid URI, 5 http URI, 6 reserved */
#define KHUMSAFIL_TRIGGER_TYPE 5        /* its type; 0 where there is no explicit target */
#define KHUMSAFIL_TRIGGER_FIRST 6       /* download; tap; place of the target's bytes */
#define KHUMSAFIL_TRIGGER_SECOND 7      /* group; number of the target's bytes */
#define KHUMSAFIL_TRIGGER_THIRD 8       /* module */
#define KHUMSAFIL_TRIGGER_USER_PLACE 9  /* where the user data lies in the payload */
#define KHUMSAFIL_TRIGGER_USER_BYTES 10 /* and how many bytes it is */

/*
 * Reads the payload as a trigger. Answers 0, or the number of refusal: 26, then field by field 20 to 25, and then
 * 15 where there is room for fewer than KHUMSAFIL_TRIGGER_FIELDS numbers.
 *
 * payload: read, and left as it is.
 * fields: the first KHUMSAFIL_TRIGGER_FIELDS become the trigger's numbers, and those past them stay as they were.
 */
uint8_t khumsafil_raw_trigger_read(const uint8_t *payload, size_t payload_length, uint16_t *fields,
                                   size_t fields_length);

/*
 * Whether a trigger belongs to the application with an id. Any numbers may be given: one whose id length is 0 is every
 * application's, and one whose id does not lie in the payload is none's. It is false where the numbers cannot be this
 * payload's: fewer than KHUMSAFIL_TRIGGER_FIELDS, an id before place 3, or user data that does not end where the payload
 * does. So numbers that no reading gave, all of them 0, are nobody's trigger. Whether the payload is a trigger is not asked:
 * what the reading of another payload of the same length left is answered by its places, so ask after a reading that was not
 * refused. Numbers past the eleventh are not looked at.
 *
 * payload: what the trigger was read from; read, and left as it is.
 * fields: the numbers as the reading gave them; read, and left as they are.
 * application: the application's id, which may be empty; read, and left as it is.
 */
bool khumsafil_raw_trigger_belongs(const uint8_t *payload, size_t payload_length, const uint16_t *fields,
                                   size_t fields_length, const uint8_t *application, size_t application_length);

/*
 * A programme list is an NRT-IT, and these calls read a section of it. Each reads it anew, so that none answers about one
 * that is refused. Its items are walked from place KHUMSAFIL_FIRST_ITEM and number 0, each next one at the place after the one
 * before; behind the last stands the table's own loop. Places count from the section's first byte. Reserved bits are
 * disregarded, and no value is refused.
 */

/* Where the numbers of a programme list stand. */
#define KHUMSAFIL_PROGRAMME_SERVICE_ID 0       /* service_id */
#define KHUMSAFIL_PROGRAMME_TIME_SPAN_START 1  /* time_span_start, in GPS seconds */
#define KHUMSAFIL_PROGRAMME_TIME_SPAN_LENGTH 2 /* time_span_length, in minutes */
#define KHUMSAFIL_PROGRAMME_ITEMS 3            /* num_content_items_in_section */

/*
 * Reads the payload as a programme list, up to its items. Answers 0, or the number of refusal: 1 to 8, 46, 45, 43, and then
 * 15 where there is room for fewer than KHUMSAFIL_PROGRAMME_FIELDS numbers.
 *
 * payload: read, and left as it is.
 * fields: the first KHUMSAFIL_PROGRAMME_FIELDS become the list's numbers, and those past them stay as they were.
 */
uint8_t khumsafil_raw_programme_read(const uint8_t *payload, size_t payload_length, uint32_t *fields,
                                     size_t fields_length);

/*
 * Where the numbers of an item stand. An optional field that is not there is 0; its flag tells. The descriptors end where the
 * item does, so they have [9] - [8] bytes; the byte that counts them stands before them, so the name has [8] - 1 - [6].
 */
#define KHUMSAFIL_ITEM_LINKAGE 0           /* content_linkage */
#define KHUMSAFIL_ITEM_FLAGS 1             /* the ten flags, the first highest */
#define KHUMSAFIL_ITEM_PLAYBACK_LENGTH 2   /* playback_length_in_seconds */
#define KHUMSAFIL_ITEM_PLAYBACK_DELAY 3    /* playback_delay, in seconds */
#define KHUMSAFIL_ITEM_EXPIRATION 4        /* expiration, in GPS seconds */
#define KHUMSAFIL_ITEM_CONTENT_SIZE 5      /* content_size, in bytes */
#define KHUMSAFIL_ITEM_NAME_PLACE 6        /* where the name lies in the payload */
#define KHUMSAFIL_ITEM_DESCRIPTORS 7       /* how many descriptors the item has */
#define KHUMSAFIL_ITEM_DESCRIPTORS_PLACE 8 /* where they lie in the payload */
#define KHUMSAFIL_ITEM_NEXT 9              /* the place after the item */

/* The bits of the flags, by Table 6.5's names. */
#define KHUMSAFIL_FLAG_UPDATES_AVAILABLE 0x200
#define KHUMSAFIL_FLAG_TF_AVAILABLE 0x100
#define KHUMSAFIL_FLAG_CONTENT_SECURITY_CONDITIONS_INDICATOR 0x080
#define KHUMSAFIL_FLAG_MASTER_ITEM 0x040
#define KHUMSAFIL_FLAG_PLAYBACK_LENGTH_INCLUDED 0x020
#define KHUMSAFIL_FLAG_PLAYBACK_DELAY_INCLUDED 0x010
#define KHUMSAFIL_FLAG_EXPIRATION_INCLUDED 0x008
#define KHUMSAFIL_FLAG_CONTENT_SIZE_INCLUDED 0x004
#define KHUMSAFIL_FLAG_AVAILABLE_ON_INTERNET 0x002
#define KHUMSAFIL_FLAG_AVAILABLE_IN_BROADCAST 0x001

/*
 * The items of a programme list from a place on, the one there taken for the item of that number of the section, from 0 on: as
 * many as there is room for, up to and with the section's last, or up to the first that is refused, without it. Any place and any
 * number may be asked. Refuses by 1 to 8, 46, 45 and 43 as khumsafil_raw_programme_read does; then, where the section has an item
 * of that number, by 43 where no item can be at the place or the one that begins there passes the end; and last by 15 where there is
 * room for fewer than KHUMSAFIL_ITEM_FIELDS numbers. An item further on that passes the end is refused when its own place is
 * asked.
 *
 * payload: read, and left as it is.
 * fields: each item that is told takes KHUMSAFIL_ITEM_FIELDS, one behind the other from the front, and those past them stay as
 * they were; where none is told, left as they were.
 *
 * Bits 8 to 15 are 1 where items were told and 2 where the section has no item of that number, at any place and with any room.
 * Of items that were told bits 16 to 31 are how many, 32 to 63 the place after the last of them.
 */
uint64_t khumsafil_raw_programme_items(const uint8_t *payload, size_t payload_length, size_t at, uint8_t number,
                                       uint64_t *fields, size_t fields_length);

/*
 * The table's own loop, whose number of descriptors stands at a place: the one after the last item. Any place may be asked, and
 * the items are not looked at: at the place of an item that is refused a loop may be read. Ask only behind a walk that is over.
 * Refuses by 1 to 8, 46, 45 and 43 as khumsafil_raw_programme_read does, then by 43 where the loop passes the end, and by 44
 * where bytes are left over after it.
 *
 * payload: read, and left as it is.
 *
 * Bits 8 to 15 are how many descriptors it has, 16 to 31 their place in the payload, 32 to 63 how many bytes they are.
 */
uint64_t khumsafil_raw_programme_own(const uint8_t *payload, size_t payload_length, size_t at);

/*
 * Says in lines of text for staff what the programme lists of a shelf file hold; of a file that is refused, by which number,
 * and of another table that it is no programme list. Refuses by 15 alone.
 *
 * file: read, and left as it is.
 * out: its first bytes become the text, with no zero byte behind it, and those past it stay as they were.
 *
 * Bits 8 to 63 are how many bytes the text is.
 */
uint64_t khumsafil_raw_programme_list(const uint8_t *file, size_t file_length, uint8_t *out, size_t out_length);

/*
 * A clock's record is KHUMSAFIL_CLOCK_RECORD numbers. Another number of them is refused by 35.
 *
 *   0                the clock's time
 *   1                the states, two bits each: application i has bits 2i and 2i + 1
 *   2                how many activations are held
 *   3 + 2i, 4 + 2i   activation i: the time, and then from bit 0 the event, from bit 16 the application, from bit 24 the
 *                    action, at bit 26 whether it was applied
 *
 * All other bits, and numbers past those of the activations held, are disregarded, and are 0 after a call that wrote the
 * record. So every value of the numbers is some record; a spoiled one is refused by 35. Promises over a history presume that
 * the host lends the record back as it was left.
 */

/*
 * Makes the record a clock at 0 with every application Released and nothing held. Answers 0, or 35.
 *
 * record: written whole, whatever stood there.
 */
uint8_t khumsafil_raw_clock_fresh(uint32_t *record, size_t record_length);

/*
 * Offers an activation. Actions are 0 prep, 1 exec, 2 susp, 3 kill. Refuses by 255 an action above 3, then by 35, 30, 32, 33
 * and 34.
 *
 * record: after the call the next one.
 *
 * Bits 8 to 15 are 1 where the activation was applied on arrival and 2 where it waits.
 */
uint16_t khumsafil_raw_clock_offer(uint32_t *record, size_t record_length, uint8_t application, uint16_t event,
                                   uint8_t action, uint32_t time);

/*
 * Moves the clock. Refuses by 35 and 31.
 *
 * record: after the call the next one.
 *
 * Bits 8 to 15 are how many waiting activations the move applied, at most 32. So the answer to a move that applied none is
 * 0.
 */
uint16_t khumsafil_raw_clock_move(uint32_t *record, size_t record_length, uint32_t to);

/*
 * The clock's time. Refuses by 35.
 *
 * record: read, and left as it is.
 *
 * Bits 32 to 63 are the time.
 */
uint64_t khumsafil_raw_clock_time(const uint32_t *record, size_t record_length);

/*
 * The state of an application. Refuses by 35 and 30.
 *
 * record: read, and left as it is.
 *
 * Bits 8 to 15 are 0 Released, 1 Ready, 2 Active, 3 Suspended.
 */
uint16_t khumsafil_raw_clock_state(const uint32_t *record, size_t record_length, uint8_t application);

/*
 * How many sections a body of so many bytes makes in a table with that id, 1 to 16: as few as will do. Refuses by 59 the
 * NRT-IT's id, since the writer writes no NRT-IT, and then by 40.
 *
 * Bits 8 to 15 are the count.
 */
uint16_t khumsafil_raw_writer_count(uint8_t table, size_t length);

/*
 * Writes section k, from 0 on, of the table that carries the body: each section's body full but the last. Refuses by 59,
 * 40, 41, 42, 15.
 *
 * body: read, and left as it is.
 * out: its first bytes become the section, and those past it stay as they were. KHUMSAFIL_LARGEST_SECTION bytes are room
 * for every section.
 *
 * Bits 8 to 31 are how many bytes the section is.
 */
uint32_t khumsafil_raw_writer_section(uint8_t table, uint16_t extension, uint8_t version, const uint8_t *body,
                                      size_t body_length, uint8_t k, uint8_t *out, size_t out_length);

/*
 * Writes the file of the table that carries the body, with all its sections. Refuses by 59, 40, 41, 15.
 *
 * body: read, and left as it is.
 * out: its first bytes become the file, and those past it stay as they were. KHUMSAFIL_LARGEST_FILE bytes are room for
 * every file.
 *
 * Bits 8 to 31 are how many bytes the file is.
 */
uint32_t khumsafil_raw_writer_file(uint8_t table, uint16_t extension, uint8_t version, const uint8_t *body,
                                   size_t body_length, uint8_t *out, size_t out_length);

#ifdef __cplusplus
}
#endif

#endif
