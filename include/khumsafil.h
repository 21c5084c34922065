/*
 * Khumsafil: table sections, the shelf and its files, descriptors, triggers, programme lists and the clock of a television
 * data receiver, and the bench's section writer. This is what a host in C or C++ calls: inline functions over those of
 * khumsafil_raw.h.
 *
 * Every function ends and answers, on any bytes. None allocates, keeps a pointer, or holds a state of its own,
 * so calls on different buffers may run at the same time. The archive needs memcpy, memmove and memset, and nothing else.
 *
 * An answer is a structure whose first member is the refusal, KHUMSAFIL_NOT_REFUSED where the call is accepted:
 *
 *   khumsafil_size saved = khumsafil_shelf_save(&shelf, key, file, sizeof file);
 *   if (saved.refusal)
 *       printf("refused %u: %s\n", (unsigned)saved.refusal, khumsafil_refusal_text(saved.refusal));
 *
 * So an answer cannot stand in an if by itself, and none is lost in a narrower variable. Of a refused answer all other
 * members are 0 and pointers null, unless it is said; a bool is then false, and no enumeration has 0 for a thing that is so.
 * A plain bool is answered only where true is the one thing asked: the lamp is khumsafil_shelf_is_complete.
 *
 * A buffer is a pointer and, as the next parameter, the number of its elements.
 *
 * What a host may get wrong, and what happens then. A refused call writes nothing.
 *
 *   a null pointer with length 0     is an empty buffer; nothing is read or written through it
 *   a record that was written on     18 or 35 where it is spoiled; otherwise it is taken for what it says
 *   a shelf or a clock that was
 *   never begun                      taken for what stands there: a shelf most often for an empty one, a clock for a spoiled
 *                                    one (35), or where all is 0 for a fresh one. Begin it first
 *   a store that was written on      taken as it stands: a repeat is compared with it, and copies and files have
 *                                    what stands there; whether a table is whole is told by the record alone
 *   too little room for an answer    15, after the refusals of what is read
 *   an action above 3                255, before all else
 *   any number of a section, place,
 *   application, version or length   refused, or answered as the function says
 *   an NRT-IT asked for by
 *   khumsafil_key_of                 taken for the one of service 0 from second 0 on: 14 and a dark lamp where it is not held.
 *                                    khumsafil_key_of_nrt_it makes the key of any
 *   two buffers that are only read   may share bytes, or be one
 *
 * A store or a record of another size, which a raw function refuses by 17, 18 or 35, cannot be lent to a function of this
 * header.
 *
 * What C lets a host do and the library cannot see. No promise holds then, and any byte of the program may be lost:
 *
 *   a pointer, null or not, with fewer elements behind it than its length says, or not aligned for them
 *   a pointer to a shelf, a clock, a trigger, an item or the numbers of one that is null or has none behind it
 *   a buffer that the call writes and that shares a byte with another buffer of that call, also where the call is
 *   refused or writes nothing, as with a payload that stands in the store
 *   two calls at the same time on one buffer that either of them writes
 *
 *   a table id, an extension, a service, an event or a time in a wider variable, which C cuts without a word unless it is asked
 *   for (-Wconversion): the rest of the number is another one, and as good
 *
 * Of a buffer that is as long as was said, no element beyond it is touched. A buffer for datagrams has one byte more than
 * KHUMSAFIL_LARGEST_SECTION or KHUMSAFIL_LARGEST_TRIGGER, so that a longer one is refused and not clipped.
 */
#ifndef KHUMSAFIL_H
#define KHUMSAFIL_H

#include "khumsafil_raw.h"

/* An answer that nobody looks at is told by a compiler that can. */
#if defined(__GNUC__)
#define KHUMSAFIL_LOOK_ __attribute__((warn_unused_result))
#else
#define KHUMSAFIL_LOOK_
#endif

/* The version of this header: 65536 times the major number, 256 times the minor one and the patch. */
#define KHUMSAFIL_VERSION 0x000500
#define KHUMSAFIL_VERSION_TEXT "0.5.0"

/* The version of the library that is linked, by its own answer. */
KHUMSAFIL_LOOK_
static inline uint32_t khumsafil_version(void) {
    return khumsafil_raw_version();
}

/*
 * The numbers of refusal. Those from 40 on are document 02's, the last is the boundary's own, and all others are document
 * 01's. khumsafil_refusal_text says when each is given.
 */
typedef enum khumsafil_refusal {
    KHUMSAFIL_NOT_REFUSED = 0,
    KHUMSAFIL_REFUSED_PAYLOAD_SHORT = 1,
    KHUMSAFIL_REFUSED_WRONG_INDICATOR = 2,
    KHUMSAFIL_REFUSED_LENGTH_OUT_OF_RANGE = 3,
    KHUMSAFIL_REFUSED_LONGER_THAN_PAYLOAD = 4,
    KHUMSAFIL_REFUSED_SHORTER_THAN_PAYLOAD = 5,
    KHUMSAFIL_REFUSED_NUMBER_ABOVE_LAST = 6,
    KHUMSAFIL_REFUSED_LAST_ABOVE_15 = 7,
    KHUMSAFIL_REFUSED_NOT_CURRENT = 8,
    KHUMSAFIL_REFUSED_NO_FREE_PLACE = 9,
    KHUMSAFIL_REFUSED_DIFFERS = 10,
    KHUMSAFIL_REFUSED_BAD_NUMBER = 11,
    KHUMSAFIL_REFUSED_BAD_FILE = 12,
    KHUMSAFIL_REFUSED_KEY_HELD = 13,
    KHUMSAFIL_REFUSED_TABLE_NOT_HELD = 14,
    KHUMSAFIL_REFUSED_OUTPUT_TOO_SMALL = 15,
    KHUMSAFIL_REFUSED_SECTION_NOT_HELD = 16,
    KHUMSAFIL_REFUSED_STORE_SIZE = 17,
    KHUMSAFIL_REFUSED_SHELF_SPOILED = 18,
    KHUMSAFIL_REFUSED_DESCRIPTOR_RUNS_PAST = 19,
    KHUMSAFIL_REFUSED_TRIGGER_CUT_OFF = 20,
    KHUMSAFIL_REFUSED_TRIGGER_OTHER_EVENT = 21,
    KHUMSAFIL_REFUSED_TRIGGER_FORBIDDEN_ID_LENGTH = 22,
    KHUMSAFIL_REFUSED_TRIGGER_WRONG_TARGET_LENGTH = 23,
    KHUMSAFIL_REFUSED_TRIGGER_HIGH_URI_BYTE = 24,
    KHUMSAFIL_REFUSED_TRIGGER_BYTES_LEFT = 25,
    KHUMSAFIL_REFUSED_TRIGGER_TOO_LONG = 26,
    KHUMSAFIL_REFUSED_CLOCK_ABOVE = 30,
    KHUMSAFIL_REFUSED_CLOCK_MOVED_BACK = 31,
    KHUMSAFIL_REFUSED_CLOCK_PAST = 32,
    KHUMSAFIL_REFUSED_CLOCK_ALREADY_HELD = 33,
    KHUMSAFIL_REFUSED_CLOCK_FULL = 34,
    KHUMSAFIL_REFUSED_CLOCK_SPOILED = 35,
    KHUMSAFIL_REFUSED_WRITER_BODY_TOO_LONG = 40,
    KHUMSAFIL_REFUSED_WRITER_VERSION_ABOVE_31 = 41,
    KHUMSAFIL_REFUSED_WRITER_K_ABOVE_LAST = 42,
    KHUMSAFIL_REFUSED_PROGRAMME_PASSES_END = 43,
    KHUMSAFIL_REFUSED_PROGRAMME_BYTES_LEFT = 44,
    KHUMSAFIL_REFUSED_PROGRAMME_OTHER_TABLE = 45,
    KHUMSAFIL_REFUSED_KEY_SHORT = 46,
    KHUMSAFIL_REFUSED_ASKED_FOR_NRT_IT = 59,
    KHUMSAFIL_REFUSED_NO_SUCH_ACTION = 255
} khumsafil_refusal;

/* When a call is refused by that number, in the words of the documents. Any number may be asked. */
static inline const char *khumsafil_refusal_text(unsigned number) {
    switch (number) {
    case KHUMSAFIL_REFUSED_PAYLOAD_SHORT:
        return "payload under 8 bytes";
    case KHUMSAFIL_REFUSED_WRONG_INDICATOR:
        return "syntax indicator 1 or private indicator 0";
    case KHUMSAFIL_REFUSED_LENGTH_OUT_OF_RANGE:
        return "section length under 5 or over 1,021";
    case KHUMSAFIL_REFUSED_LONGER_THAN_PAYLOAD:
        return "section longer than its payload";
    case KHUMSAFIL_REFUSED_SHORTER_THAN_PAYLOAD:
        return "section shorter than its payload";
    case KHUMSAFIL_REFUSED_NUMBER_ABOVE_LAST:
        return "section number above last";
    case KHUMSAFIL_REFUSED_LAST_ABOVE_15:
        return "last number above 15";
    case KHUMSAFIL_REFUSED_NOT_CURRENT:
        return "current/next is 0";
    case KHUMSAFIL_REFUSED_NO_FREE_PLACE:
        return "new key, no free place";
    case KHUMSAFIL_REFUSED_DIFFERS:
        return "differs from what is held: same version with another last number, or other bytes at a held number";
    case KHUMSAFIL_REFUSED_BAD_NUMBER:
        return "file number cut off, not shortest, or above 65,535";
    case KHUMSAFIL_REFUSED_BAD_FILE:
        return "form not 1; count not 1 to 16; length not 8 to 1,024; bytes run past the file; keys, versions or lasts "
               "differ; numbers not rising; bytes left over";
    case KHUMSAFIL_REFUSED_KEY_HELD:
        return "loading a key already held";
    case KHUMSAFIL_REFUSED_TABLE_NOT_HELD:
        return "table not held";
    case KHUMSAFIL_REFUSED_OUTPUT_TOO_SMALL:
        return "output too small";
    case KHUMSAFIL_REFUSED_SECTION_NOT_HELD:
        return "section not held";
    case KHUMSAFIL_REFUSED_STORE_SIZE:
        return "a lent store not 65,536 bytes";
    case KHUMSAFIL_REFUSED_SHELF_SPOILED:
        return "shelf record spoiled, in a taken place: a version above 31, a last above 15, a held number above last, a "
               "held length outside 8 to 1,024, or nothing held; or two taken places with one key";
    case KHUMSAFIL_REFUSED_DESCRIPTOR_RUNS_PAST:
        return "descriptor runs past the loop, or the place asked is beyond its end";
    case KHUMSAFIL_REFUSED_TRIGGER_CUT_OFF:
        return "trigger ends inside a field";
    case KHUMSAFIL_REFUSED_TRIGGER_OTHER_EVENT:
        return "event type not 0";
    case KHUMSAFIL_REFUSED_TRIGGER_FORBIDDEN_ID_LENGTH:
        return "application id length 1";
    case KHUMSAFIL_REFUSED_TRIGGER_WRONG_TARGET_LENGTH:
        return "type 0 with length; type 1 with length not 0 or 6; type 2 with length not 0 or 2";
    case KHUMSAFIL_REFUSED_TRIGGER_HIGH_URI_BYTE:
        return "URI byte above 127";
    case KHUMSAFIL_REFUSED_TRIGGER_BYTES_LEFT:
        return "bytes after the user data";
    case KHUMSAFIL_REFUSED_TRIGGER_TOO_LONG:
        return "trigger over 4,096 bytes";
    case KHUMSAFIL_REFUSED_CLOCK_ABOVE:
        return "application above 7";
    case KHUMSAFIL_REFUSED_CLOCK_MOVED_BACK:
        return "clock moved back (equal is allowed)";
    case KHUMSAFIL_REFUSED_CLOCK_PAST:
        return "time more than 60,000 before the clock";
    case KHUMSAFIL_REFUSED_CLOCK_ALREADY_HELD:
        return "that activation is held";
    case KHUMSAFIL_REFUSED_CLOCK_FULL:
        return "32 held";
    case KHUMSAFIL_REFUSED_CLOCK_SPOILED:
        return "clock record spoiled: over 32 held, one for an application above 7, two alike, waiting at or before the "
               "clock, applied but ahead of it, or applied and past its memory";
    case KHUMSAFIL_REFUSED_WRITER_BODY_TOO_LONG:
        return "body too long";
    case KHUMSAFIL_REFUSED_WRITER_VERSION_ABOVE_31:
        return "version above 31";
    case KHUMSAFIL_REFUSED_WRITER_K_ABOVE_LAST:
        return "k above the last";
    case KHUMSAFIL_REFUSED_PROGRAMME_PASSES_END:
        return "a field or loop passes the end";
    case KHUMSAFIL_REFUSED_PROGRAMME_BYTES_LEFT:
        return "bytes left over";
    case KHUMSAFIL_REFUSED_PROGRAMME_OTHER_TABLE:
        return "table id not the NRT-IT's";
    case KHUMSAFIL_REFUSED_KEY_SHORT:
        return "an NRT-IT too short to hold its key";
    case KHUMSAFIL_REFUSED_ASKED_FOR_NRT_IT:
        return "the writer asked for the NRT-IT's id";
    case KHUMSAFIL_REFUSED_NO_SUCH_ACTION:
        return "no such action: a number above 3";
    default:
        return "no number of this library";
    }
}

/* The answer of a call that is done or refused. */
typedef struct khumsafil_done {
    khumsafil_refusal refusal;
} khumsafil_done;

/* How many bytes a call put at the front of the lent output. */
typedef struct khumsafil_size {
    khumsafil_refusal refusal;
    size_t size;
} khumsafil_size;

/*
 * What tells one table from another: its table id and its table id extension, and of an NRT-IT, whose table id is
 * KHUMSAFIL_PROGRAMME_TABLE, also its service and the start of its time span. Of every other table these two mean nothing: a
 * call disregards them, and an answer has 0 there. A host makes a key by khumsafil_key_of or khumsafil_key_of_nrt_it or takes it
 * from an answer, and does not list its members.
 */
typedef struct khumsafil_key {
    uint8_t table_id;
    uint16_t extension;
    uint16_t service_id;      /* of an NRT-IT */
    uint32_t time_span_start; /* of an NRT-IT, in GPS seconds */
} khumsafil_key;

/* The key of any table but an NRT-IT. With the NRT-IT's id it is the key of service 0 from second 0 on. */
KHUMSAFIL_LOOK_
static inline khumsafil_key khumsafil_key_of(uint8_t table_id, uint16_t extension) {
    khumsafil_key key;
    key.table_id = table_id;
    key.extension = extension;
    key.service_id = 0;
    key.time_span_start = 0;
    return key;
}

/* The key of an NRT-IT. */
KHUMSAFIL_LOOK_
static inline khumsafil_key khumsafil_key_of_nrt_it(uint16_t extension, uint16_t service_id, uint32_t time_span_start) {
    khumsafil_key key = khumsafil_key_of(KHUMSAFIL_PROGRAMME_TABLE, extension);
    key.service_id = service_id;
    key.time_span_start = time_span_start;
    return key;
}

/* Whether two keys are one: all four numbers of an NRT-IT, table id and extension alone of every other table. */
KHUMSAFIL_LOOK_
static inline bool khumsafil_key_same(khumsafil_key a, khumsafil_key b) {
    return a.table_id == b.table_id && a.extension == b.extension &&
           (a.table_id != KHUMSAFIL_PROGRAMME_TABLE ||
            (a.service_id == b.service_id && a.time_span_start == b.time_span_start));
}

/* A key, a shelf and a clock as the raw functions take them. These are no part of what a host calls. */
#define KHUMSAFIL_KEY_(key) (key).table_id, (key).extension, (key).service_id, (key).time_span_start
#define KHUMSAFIL_SHELF_(shelf) (shelf)->record, KHUMSAFIL_SHELF_RECORD, (shelf)->store, KHUMSAFIL_STORE
#define KHUMSAFIL_CLOCK_(clock) (clock)->record, KHUMSAFIL_CLOCK_RECORD

/* What the raw answers have in common. A name with an underscore at its end is no part of what a host calls either. */
static inline khumsafil_refusal khumsafil_refusal_(uint64_t answer) {
    return (khumsafil_refusal)(answer & 0xFF);
}

/* A number that 8 bits cannot hold is no place, application, version or number of a section or an item, and must not become one by
   losing the rest. */
static inline uint8_t khumsafil_narrow_(unsigned number) {
    return number > 0xFF ? (uint8_t)0xFF : (uint8_t)number;
}

static inline khumsafil_done khumsafil_done_(uint8_t answer) {
    khumsafil_done done;
    done.refusal = khumsafil_refusal_(answer);
    return done;
}

static inline khumsafil_size khumsafil_size_(uint32_t answer) {
    khumsafil_size size;
    size.refusal = khumsafil_refusal_(answer);
    size.size = (size_t)(answer >> 8);
    return size;
}

/* A section as it was read. The body is the part of the payload behind the header. */
typedef struct khumsafil_section {
    khumsafil_refusal refusal;
    khumsafil_key key;
    uint8_t version;
    uint8_t number;
    uint8_t last;
    const uint8_t *body;
    size_t body_length;
} khumsafil_section;

/* Reads the payload as one section. Refused: 1 to 8, the lowest number that applies, and then 46. */
KHUMSAFIL_LOOK_
static inline khumsafil_section khumsafil_section_read(const uint8_t *payload, size_t payload_length) {
    const uint64_t answer = khumsafil_raw_section_read(payload, payload_length);
    khumsafil_section section;
    section.refusal = khumsafil_refusal_(answer);
    section.key = khumsafil_key_of((uint8_t)(answer >> 8), (uint16_t)(answer >> 16));
    if (section.key.table_id == KHUMSAFIL_PROGRAMME_TABLE) { /* a refused answer has 0 there */
        const uint64_t rest = khumsafil_raw_section_key(payload, payload_length);
        section.key.service_id = (uint16_t)(rest >> 8);
        section.key.time_span_start = (uint32_t)(rest >> 24);
    }
    section.version = (uint8_t)(answer >> 32);
    section.number = (uint8_t)(answer >> 40);
    section.last = (uint8_t)(answer >> 48);
    section.body = section.refusal ? NULL : payload + KHUMSAFIL_SECTION_HEADER;
    section.body_length = section.refusal ? 0 : payload_length - KHUMSAFIL_SECTION_HEADER;
    return section;
}

/*
 * A shelf: a record and the store that it speaks of, lent as one, so that no other store is lent with it. It is some
 * 65,700 bytes, which is much for a stack. Before all else it is begun. A host that must keep the two apart calls the raw
 * functions.
 */
typedef struct khumsafil_shelf {
    uint16_t record[KHUMSAFIL_SHELF_RECORD];
    uint8_t store[KHUMSAFIL_STORE];
} khumsafil_shelf;

/* Makes it a fresh shelf, whatever stood there: four free places and a store of zeros. Never refused. */
KHUMSAFIL_LOOK_
static inline khumsafil_done khumsafil_shelf_begin(khumsafil_shelf *shelf) {
    return khumsafil_done_(khumsafil_raw_shelf_begin(KHUMSAFIL_SHELF_(shelf)));
}

/* What an accepted section did. */
typedef enum khumsafil_accepted {
    KHUMSAFIL_SHELF_NOT_ACCEPTED = 0, /* it was refused */
    KHUMSAFIL_SHELF_BEGAN = 1,        /* it began its table */
    KHUMSAFIL_SHELF_BEGAN_AGAIN = 2,  /* it has another version, and began its table again */
    KHUMSAFIL_SHELF_ADDED = 3,        /* it was added to its table */
    KHUMSAFIL_SHELF_REPEAT = 4        /* it is held; nothing changed */
} khumsafil_accepted;

typedef struct khumsafil_offered {
    khumsafil_refusal refusal;
    khumsafil_accepted accepted;
} khumsafil_offered;

/* Offers a datagram's payload. Refused: 18, then 1 to 8, the lowest number that applies, 46, 9, 10. */
KHUMSAFIL_LOOK_
static inline khumsafil_offered khumsafil_shelf_offer(khumsafil_shelf *shelf, const uint8_t *payload,
                                                      size_t payload_length) {
    const uint16_t answer = khumsafil_raw_shelf_offer(KHUMSAFIL_SHELF_(shelf), payload, payload_length);
    khumsafil_offered offered;
    offered.refusal = khumsafil_refusal_(answer);
    offered.accepted = (khumsafil_accepted)(answer >> 8);
    return offered;
}

/*
 * The lamp: true exactly when the table is held and every section of it from 0 to its last. False of a table that is not
 * held or has a gap, and of a spoiled shelf; khumsafil_shelf_completeness tells these apart.
 */
KHUMSAFIL_LOOK_
static inline bool khumsafil_shelf_is_complete(const khumsafil_shelf *shelf, khumsafil_key key) {
    return khumsafil_raw_shelf_is_complete(KHUMSAFIL_SHELF_(shelf), KHUMSAFIL_KEY_(key));
}

typedef struct khumsafil_completeness {
    khumsafil_refusal refusal;
    bool complete;
} khumsafil_completeness;

/* Whether every section of a table is held. Refused: 18, 14. */
KHUMSAFIL_LOOK_
static inline khumsafil_completeness khumsafil_shelf_completeness(const khumsafil_shelf *shelf, khumsafil_key key) {
    const uint16_t answer = khumsafil_raw_shelf_complete(KHUMSAFIL_SHELF_(shelf), KHUMSAFIL_KEY_(key));
    khumsafil_completeness completeness;
    completeness.refusal = khumsafil_refusal_(answer);
    completeness.complete = answer >> 8 == 1;
    return completeness;
}

/* What is missing of a table: nothing, or a number. Of a refused answer nothing_missing is false. */
typedef struct khumsafil_missing {
    khumsafil_refusal refusal;
    bool nothing_missing;
    uint8_t number; /* the lowest missing number; 0 where nothing is missing */
} khumsafil_missing;

/* The lowest number of a table that is not held. Refused: 18, 14. */
KHUMSAFIL_LOOK_
static inline khumsafil_missing khumsafil_shelf_lowest_missing(const khumsafil_shelf *shelf, khumsafil_key key) {
    const uint32_t answer = khumsafil_raw_shelf_lowest_missing(KHUMSAFIL_SHELF_(shelf), KHUMSAFIL_KEY_(key));
    khumsafil_missing missing;
    missing.refusal = khumsafil_refusal_(answer);
    missing.nothing_missing = (uint8_t)(answer >> 8) == 1;
    missing.number = (uint8_t)(answer >> 16);
    return missing;
}

/* A table of a shelf or of a file. Section n is held exactly when lengths[n], its length in bytes, is not 0. */
typedef struct khumsafil_table {
    khumsafil_refusal refusal;
    khumsafil_key key;
    uint8_t version;
    uint8_t last;
    uint16_t lengths[KHUMSAFIL_SECTIONS];
} khumsafil_table;

/* A table out of a raw answer and the numbers behind it, which are not looked at where it is refused. */
static inline khumsafil_table khumsafil_table_(uint8_t answer, const uint16_t *fields) {
    khumsafil_table table;
    unsigned n;
    table.refusal = khumsafil_refusal_(answer);
    table.key = answer != 0 ? khumsafil_key_of(0, 0)
                            : khumsafil_key_of((uint8_t)fields[KHUMSAFIL_TABLE_ID], fields[KHUMSAFIL_TABLE_EXTENSION]);
    if (answer == 0) {
        table.key.service_id = fields[KHUMSAFIL_TABLE_SERVICE_ID];
        table.key.time_span_start =
            (uint32_t)fields[KHUMSAFIL_TABLE_START_HIGH] << 16 | fields[KHUMSAFIL_TABLE_START_LOW];
    }
    table.version = answer != 0 ? (uint8_t)0 : (uint8_t)fields[KHUMSAFIL_TABLE_VERSION];
    table.last = answer != 0 ? (uint8_t)0 : (uint8_t)fields[KHUMSAFIL_TABLE_LAST];
    for (n = 0; n < KHUMSAFIL_SECTIONS; n++)
        table.lengths[n] = answer != 0 ? (uint16_t)0 : fields[KHUMSAFIL_TABLE_LENGTHS + n];
    return table;
}

/* Which table is in a place, 0 to KHUMSAFIL_PLACES - 1. Refused: 18, 14 where the place is free or is none of these. */
KHUMSAFIL_LOOK_
static inline khumsafil_table khumsafil_shelf_table(const khumsafil_shelf *shelf, unsigned place) {
    uint16_t fields[KHUMSAFIL_TABLE_FIELDS];
    const uint8_t answer = khumsafil_raw_shelf_table(KHUMSAFIL_SHELF_(shelf), khumsafil_narrow_(place), fields,
                                                     KHUMSAFIL_TABLE_FIELDS);
    return khumsafil_table_(answer, fields);
}

/*
 * Whether two shelves have the same tables in the same places, with the same sections held by number and length: document
 * 01's equality of records. What stands in the stores is not compared. A spoiled shelf is the same as none.
 */
KHUMSAFIL_LOOK_
static inline bool khumsafil_shelf_same(const khumsafil_shelf *a, const khumsafil_shelf *b) {
    unsigned place;
    for (place = 0; place < KHUMSAFIL_PLACES; place++) {
        const khumsafil_table one = khumsafil_shelf_table(a, place), other = khumsafil_shelf_table(b, place);
        unsigned n;
        if (one.refusal != other.refusal || one.refusal == KHUMSAFIL_REFUSED_SHELF_SPOILED)
            return false;
        if (!khumsafil_key_same(one.key, other.key) || one.version != other.version || one.last != other.last)
            return false;
        for (n = 0; n < KHUMSAFIL_SECTIONS; n++)
            if (one.lengths[n] != other.lengths[n])
                return false;
    }
    return true;
}

/*
 * Copies a held section to the front of out, where KHUMSAFIL_LARGEST_SECTION bytes are room for any. Refused: 18, 14, 16,
 * 15.
 */
KHUMSAFIL_LOOK_
static inline khumsafil_size khumsafil_shelf_copy_section(const khumsafil_shelf *shelf, khumsafil_key key, unsigned number,
                                                          uint8_t *out, size_t out_length) {
    return khumsafil_size_(khumsafil_raw_shelf_copy_section(KHUMSAFIL_SHELF_(shelf), KHUMSAFIL_KEY_(key),
                                                            khumsafil_narrow_(number), out, out_length));
}

/* Releases a table: its place is free, and its berths are zeros. Refused: 18, 14. */
KHUMSAFIL_LOOK_
static inline khumsafil_done khumsafil_shelf_release(khumsafil_shelf *shelf, khumsafil_key key) {
    return khumsafil_done_(khumsafil_raw_shelf_release(KHUMSAFIL_SHELF_(shelf), KHUMSAFIL_KEY_(key)));
}

/* Saves a held table as a file at the front of out, where KHUMSAFIL_LARGEST_FILE bytes are room for any. Refused: 18, 14,
   15. */
KHUMSAFIL_LOOK_
static inline khumsafil_size khumsafil_shelf_save(const khumsafil_shelf *shelf, khumsafil_key key, uint8_t *out,
                                                  size_t out_length) {
    return khumsafil_size_(khumsafil_raw_shelf_save(KHUMSAFIL_SHELF_(shelf), KHUMSAFIL_KEY_(key), out, out_length));
}

/* Which table a file is. Refused: the file's first fault (11, 12, 2 to 8, 46). */
KHUMSAFIL_LOOK_
static inline khumsafil_table khumsafil_file_table(const uint8_t *file, size_t file_length) {
    uint16_t fields[KHUMSAFIL_TABLE_FIELDS];
    const uint8_t answer = khumsafil_raw_file_table(file, file_length, fields, KHUMSAFIL_TABLE_FIELDS);
    return khumsafil_table_(answer, fields);
}

/*
 * Loads a file's table into the lowest free place, and answers which table it is. Refused: 18, the file's first fault (11,
 * 12, 2 to 8, 46), 13, 9.
 */
KHUMSAFIL_LOOK_
static inline khumsafil_table khumsafil_shelf_load(khumsafil_shelf *shelf, const uint8_t *file, size_t file_length) {
    const uint8_t answer = khumsafil_raw_shelf_load(KHUMSAFIL_SHELF_(shelf), file, file_length);
    return answer != 0 ? khumsafil_table_(answer, NULL) : khumsafil_file_table(file, file_length);
}

/*
 * Says in lines of text at the front of out what a file holds, or by which number it is refused. There is no zero byte
 * behind the text; KHUMSAFIL_LARGEST_LIST bytes are room for any. Refused: 15.
 */
KHUMSAFIL_LOOK_
static inline khumsafil_size khumsafil_file_list(const uint8_t *file, size_t file_length, uint8_t *out,
                                                 size_t out_length) {
    return khumsafil_size_(khumsafil_raw_file_list(file, file_length, out, out_length));
}

/* A number of a file, and how many bytes it takes, 1 to 3. */
typedef struct khumsafil_number {
    khumsafil_refusal refusal;
    uint16_t value;
    size_t size;
} khumsafil_number;

/* The seven-bit number at the front of some bytes. Refused: 11. */
KHUMSAFIL_LOOK_
static inline khumsafil_number khumsafil_file_number(const uint8_t *bytes, size_t bytes_length) {
    const uint32_t answer = khumsafil_raw_file_number(bytes, bytes_length);
    khumsafil_number number;
    number.refusal = khumsafil_refusal_(answer);
    number.value = (uint16_t)(answer >> 8);
    number.size = (size_t)(answer >> 24);
    return number;
}

/* What a step of a walk over a descriptor loop found. */
typedef enum khumsafil_step_kind {
    KHUMSAFIL_STEP_NOTHING = 0,    /* it was refused */
    KHUMSAFIL_STEP_DESCRIPTOR = 1, /* the descriptor at the place asked */
    KHUMSAFIL_STEP_OVER = 2        /* the place asked is the loop's end */
} khumsafil_step_kind;

/*
 * A step. The content is the part of the loop's bytes that is the descriptor's, and no other. A walk goes on while a
 * descriptor is found:
 *
 *   for (at = 0; (step = khumsafil_descriptor_step(loop, length, at)).found == KHUMSAFIL_STEP_DESCRIPTOR; at = step.next)
 *
 * and step.refusal then says whether it came to the loop's end. The place of the next step is the loop's length where the
 * walk is over or refused, so that one which goes up to that length, or to KHUMSAFIL_STEP_OVER, ends as well. A step at the
 * end is no refusal: a walk that waits for one does not end.
 */
typedef struct khumsafil_step {
    khumsafil_refusal refusal;
    khumsafil_step_kind found;
    uint8_t tag;
    const uint8_t *content;
    size_t content_length;
    size_t next;
} khumsafil_step;

/* What stands at a place of a descriptor loop. Any place may be asked. Refused: 19. */
KHUMSAFIL_LOOK_
static inline khumsafil_step khumsafil_descriptor_step(const uint8_t *bytes, size_t bytes_length, size_t at) {
    const uint64_t answer = khumsafil_raw_descriptor_step(bytes, bytes_length, at);
    khumsafil_step step;
    step.refusal = khumsafil_refusal_(answer);
    step.found = (khumsafil_step_kind)((answer >> 8) & 0xFF);
    step.tag = (uint8_t)(answer >> 16);
    step.content = NULL;
    step.content_length = 0;
    step.next = bytes_length;
    if (step.found == KHUMSAFIL_STEP_DESCRIPTOR) {
        const size_t start = at + KHUMSAFIL_DESCRIPTOR_HEAD;
        /* The answer has the low 40 bits of the next place, and the low 8 tell the length in a loop of any size. */
        step.content = bytes + start;
        step.content_length = (uint8_t)((answer >> 24) - start);
        step.next = start + step.content_length;
    }
    return step;
}

/*
 * Whether the descriptor at a place marks a trigger Tap: tag 0x72, length 24 and application/atsc-trigger, its letters small
 * or capital. Where no descriptor can be read, it does not.
 */
KHUMSAFIL_LOOK_
static inline bool khumsafil_descriptor_is_trigger_tap(const uint8_t *bytes, size_t bytes_length, size_t at) {
    return khumsafil_raw_descriptor_is_trigger_tap(bytes, bytes_length, at);
}

/* Bytes of a payload, by place and length. */
typedef struct khumsafil_part {
    uint16_t place;
    uint16_t length;
} khumsafil_part;

/*
 * Where a part begins: part.length bytes of the payload that it was read from are behind it, so the two are a buffer as any
 * call takes it. Null of a null payload.
 */
KHUMSAFIL_LOOK_
static inline const uint8_t *khumsafil_part_of(const uint8_t *payload, khumsafil_part part) {
    return payload == NULL ? NULL : payload + part.place;
}

/* The kinds of target, each one more than in the raw numbers: a trigger without an explicit target was read, and is not the 0
   of a refused one. */
typedef enum khumsafil_target_kind {
    KHUMSAFIL_TARGET_NOT_READ = 0, /* the trigger was refused */
    KHUMSAFIL_TARGET_NONE = 1,     /* no explicit target */
    KHUMSAFIL_TARGET_MODULE = 2,
    KHUMSAFIL_TARGET_TAP = 3,
    KHUMSAFIL_TARGET_ABSOLUTE_URI = 4,
    KHUMSAFIL_TARGET_LID_URI = 5,
    KHUMSAFIL_TARGET_HTTP_URI = 6,
    KHUMSAFIL_TARGET_RESERVED = 7 /* a type that A/93 keeps for later */
} khumsafil_target_kind;

/* What a trigger is aimed at. A member that its kind has no use for is 0. */
typedef struct khumsafil_target {
    khumsafil_target_kind kind;
    uint8_t type;         /* as read; 0 where there is no explicit target */
    uint16_t download;    /* of a module */
    uint16_t group;       /* of a module */
    uint16_t module;      /* of a module */
    uint16_t tap;         /* of a tap */
    khumsafil_part bytes; /* of a URI and of a reserved type */
} khumsafil_target;

/* What a trigger says. */
typedef struct khumsafil_trigger {
    khumsafil_refusal refusal;
    uint16_t id_length;   /* of the application id as read; 0: for every application */
    uint16_t description; /* 0 where that length is 0 */
    khumsafil_part id;
    khumsafil_target target;
    khumsafil_part user;
    uint16_t fields[KHUMSAFIL_TRIGGER_FIELDS]; /* all of this as the raw reading gave it, for khumsafil_trigger_belongs */
} khumsafil_trigger;

static inline khumsafil_part khumsafil_part_(uint16_t place, uint16_t length) {
    khumsafil_part part;
    part.place = place;
    part.length = length;
    return part;
}

/* A target out of a trigger's numbers. */
static inline khumsafil_target khumsafil_target_(const uint16_t *fields) {
    const uint16_t first = fields[KHUMSAFIL_TRIGGER_FIRST], second = fields[KHUMSAFIL_TRIGGER_SECOND];
    khumsafil_target target;
    target.kind = (khumsafil_target_kind)(fields[KHUMSAFIL_TRIGGER_KIND] + 1);
    target.type = (uint8_t)fields[KHUMSAFIL_TRIGGER_TYPE];
    target.download = target.group = target.module = target.tap = 0;
    target.bytes = khumsafil_part_(0, 0);
    if (target.kind == KHUMSAFIL_TARGET_MODULE) {
        target.download = first;
        target.group = second;
        target.module = fields[KHUMSAFIL_TRIGGER_THIRD];
    } else if (target.kind == KHUMSAFIL_TARGET_TAP) {
        target.tap = first;
    } else if (target.kind != KHUMSAFIL_TARGET_NONE) {
        target.bytes = khumsafil_part_(first, second);
    }
    return target;
}

/* Reads the payload as a trigger. Refused: 26, then field by field 20 to 25. */
KHUMSAFIL_LOOK_
static inline khumsafil_trigger khumsafil_trigger_read(const uint8_t *payload, size_t payload_length) {
    khumsafil_trigger trigger;
    unsigned n;
    for (n = 0; n < KHUMSAFIL_TRIGGER_FIELDS; n++)
        trigger.fields[n] = 0;
    trigger.refusal = khumsafil_refusal_(
        khumsafil_raw_trigger_read(payload, payload_length, trigger.fields, KHUMSAFIL_TRIGGER_FIELDS));
    trigger.id_length = trigger.fields[KHUMSAFIL_TRIGGER_ID_LENGTH];
    trigger.description = trigger.fields[KHUMSAFIL_TRIGGER_DESCRIPTION];
    trigger.id = khumsafil_part_(trigger.fields[KHUMSAFIL_TRIGGER_ID_PLACE], trigger.fields[KHUMSAFIL_TRIGGER_ID_BYTES]);
    trigger.target = khumsafil_target_(trigger.fields);
    if (trigger.refusal)
        trigger.target.kind = KHUMSAFIL_TARGET_NOT_READ;
    trigger.user =
        khumsafil_part_(trigger.fields[KHUMSAFIL_TRIGGER_USER_PLACE], trigger.fields[KHUMSAFIL_TRIGGER_USER_BYTES]);
    return trigger;
}

/*
 * Whether a trigger belongs to the application with an id, which may be empty. The trigger is as the reading gave it, and
 * the payload what it was read from. A refused trigger belongs to none, nor does one that was never read.
 */
KHUMSAFIL_LOOK_
static inline bool khumsafil_trigger_belongs(const uint8_t *payload, size_t payload_length,
                                             const khumsafil_trigger *trigger, const uint8_t *application,
                                             size_t application_length) {
    return !trigger->refusal && khumsafil_raw_trigger_belongs(payload, payload_length, trigger->fields,
                                                              KHUMSAFIL_TRIGGER_FIELDS, application,
                                                              application_length);
}

/* The fields of a programme list before its items. */
typedef struct khumsafil_programme {
    khumsafil_refusal refusal;
    uint16_t service_id;
    uint32_t time_span_start;  /* in GPS seconds; 0: from the indefinite past */
    uint16_t time_span_length; /* in minutes; 0: into the indefinite future; without meaning where the start is 0 */
    uint8_t items;             /* how many items the section has */
} khumsafil_programme;

/* Reads the payload, a section of an NRT-IT, as a programme list. Refused: 1 to 8, 46, 45, 43. */
KHUMSAFIL_LOOK_
static inline khumsafil_programme khumsafil_programme_read(const uint8_t *payload, size_t payload_length) {
    uint32_t fields[KHUMSAFIL_PROGRAMME_FIELDS] = {0, 0, 0, 0};
    khumsafil_programme programme;
    programme.refusal = khumsafil_refusal_(
        khumsafil_raw_programme_read(payload, payload_length, fields, KHUMSAFIL_PROGRAMME_FIELDS));
    programme.service_id = (uint16_t)fields[KHUMSAFIL_PROGRAMME_SERVICE_ID];
    programme.time_span_start = fields[KHUMSAFIL_PROGRAMME_TIME_SPAN_START];
    programme.time_span_length = (uint16_t)fields[KHUMSAFIL_PROGRAMME_TIME_SPAN_LENGTH];
    programme.items = (uint8_t)fields[KHUMSAFIL_PROGRAMME_ITEMS];
    return programme;
}

/* A loop of a programme list: how many descriptors, and their bytes, which khumsafil_descriptor_step walks as they are. */
typedef struct khumsafil_loop {
    uint8_t count;
    khumsafil_part bytes;
} khumsafil_loop;

/* What was found at a place of a programme list. */
typedef enum khumsafil_item_kind {
    KHUMSAFIL_ITEM_NOTHING = 0, /* it was refused */
    KHUMSAFIL_ITEM_FOUND = 1,   /* the item at the place asked */
    KHUMSAFIL_ITEM_OVER = 2     /* the section has no item of that number */
} khumsafil_item_kind;

/*
 * A content item. Its values are as they stand there, also those that the papers say shall not be used. An optional field has
 * a bool before it: false where the item has none, and the field is then 0. The name is a multiple string structure of
 * A/65, which the library does not read.
 *
 * A walk goes on while an item is found. It ended well where the last answer is not refused; the table's own loop then stands
 * there, and is refused where the walk was:
 *
 *   size_t at = KHUMSAFIL_FIRST_ITEM;
 *   unsigned n = 0;
 *   for (; (item = khumsafil_item_at(payload, length, at, n)).found == KHUMSAFIL_ITEM_FOUND; at = item.next, n++)
 *       show(khumsafil_part_of(payload, item.name), item.name.length);
 *   own = khumsafil_own_loop(payload, length, at, n);
 *
 * khumsafil_items_at has several with one call, and khumsafil_item_of makes each out of its numbers. The descriptors of an item
 * are walked as any loop is:
 *
 *   loop = khumsafil_part_of(payload, item.descriptors.bytes), size = item.descriptors.bytes.length;
 *   for (d = 0; (step = khumsafil_descriptor_step(loop, size, d)).found == KHUMSAFIL_STEP_DESCRIPTOR; d = step.next)
 *
 * That walk finds item.descriptors.count of them and ends at the loop's end, without a refusal.
 */
typedef struct khumsafil_item {
    khumsafil_refusal refusal;
    khumsafil_item_kind found;
    uint32_t content_linkage;
    uint16_t flags; /* all ten, for khumsafil_item_is_master and its like */
    bool has_playback_length;
    uint32_t playback_length; /* in seconds */
    bool has_playback_delay;
    uint32_t playback_delay; /* in seconds */
    bool has_expiration;
    uint32_t expiration; /* in GPS seconds */
    bool has_content_size;
    uint64_t content_size; /* in bytes */
    khumsafil_part name;
    khumsafil_loop descriptors;
    size_t next; /* the place after the item; where the items are over, the place asked */
} khumsafil_item;

/*
 * The item out of its KHUMSAFIL_ITEM_FIELDS numbers, as khumsafil_items_at put them there: one of the first `count` of a call that
 * was not refused. Of other numbers name and descriptors may lie outside the payload.
 */
KHUMSAFIL_LOOK_
static inline khumsafil_item khumsafil_item_of(const uint64_t *fields) {
    const uint16_t name = (uint16_t)fields[KHUMSAFIL_ITEM_NAME_PLACE];
    const uint16_t descriptors = (uint16_t)fields[KHUMSAFIL_ITEM_DESCRIPTORS_PLACE];
    khumsafil_item item;
    item.refusal = KHUMSAFIL_NOT_REFUSED;
    item.found = KHUMSAFIL_ITEM_FOUND;
    item.content_linkage = (uint32_t)fields[KHUMSAFIL_ITEM_LINKAGE];
    item.flags = (uint16_t)fields[KHUMSAFIL_ITEM_FLAGS];
    item.has_playback_length = (item.flags & KHUMSAFIL_FLAG_PLAYBACK_LENGTH_INCLUDED) != 0;
    item.playback_length = (uint32_t)fields[KHUMSAFIL_ITEM_PLAYBACK_LENGTH];
    item.has_playback_delay = (item.flags & KHUMSAFIL_FLAG_PLAYBACK_DELAY_INCLUDED) != 0;
    item.playback_delay = (uint32_t)fields[KHUMSAFIL_ITEM_PLAYBACK_DELAY];
    item.has_expiration = (item.flags & KHUMSAFIL_FLAG_EXPIRATION_INCLUDED) != 0;
    item.expiration = (uint32_t)fields[KHUMSAFIL_ITEM_EXPIRATION];
    item.has_content_size = (item.flags & KHUMSAFIL_FLAG_CONTENT_SIZE_INCLUDED) != 0;
    item.content_size = fields[KHUMSAFIL_ITEM_CONTENT_SIZE];
    item.next = (size_t)fields[KHUMSAFIL_ITEM_NEXT];
    /* The byte between the name and the descriptors counts these. Numbers that no call put there may say less than nothing. */
    item.name = khumsafil_part_(name, descriptors > name ? (uint16_t)(descriptors - 1 - name) : (uint16_t)0);
    item.descriptors.count = (uint8_t)fields[KHUMSAFIL_ITEM_DESCRIPTORS];
    item.descriptors.bytes =
        khumsafil_part_(descriptors, item.next > descriptors ? (uint16_t)(item.next - descriptors) : (uint16_t)0);
    return item;
}

/*
 * What stands at a place of a programme list, taken for the item of that number, from 0 on: the first at
 * KHUMSAFIL_FIRST_ITEM, each other at the place after the one before. Any place and any number may be asked. Refused: 1 to 8,
 * 46, 45, 43.
 */
KHUMSAFIL_LOOK_
static inline khumsafil_item khumsafil_item_at(const uint8_t *payload, size_t payload_length, size_t at, unsigned number) {
    uint64_t fields[KHUMSAFIL_ITEM_FIELDS] = {0, 0, 0, 0, 0, 0, 0, 0, 0, 0};
    const uint64_t answer = khumsafil_raw_programme_items(payload, payload_length, at, khumsafil_narrow_(number), fields,
                                                          KHUMSAFIL_ITEM_FIELDS);
    khumsafil_item item = khumsafil_item_of(fields);
    item.refusal = khumsafil_refusal_(answer);
    item.found = (khumsafil_item_kind)(uint8_t)(answer >> 8);
    if (item.found == KHUMSAFIL_ITEM_OVER)
        item.next = at;
    return item;
}

/* What is said of several items of a programme list, whose numbers stand in what was lent for them. */
typedef struct khumsafil_items {
    khumsafil_refusal refusal;
    khumsafil_item_kind found; /* KHUMSAFIL_ITEM_FOUND where one was, or several */
    uint16_t count;            /* how many */
    size_t next;               /* the place after the last of them; where the items are over, the place asked */
} khumsafil_items;

/*
 * The items of a programme list from a place on, the one there taken for the item of that number, from 0 on: as many as there
 * is room for at KHUMSAFIL_ITEM_FIELDS numbers each, up to and with the section's last, or up to the first that is refused,
 * without it. Numbers past theirs stay as they were. Any place and any number may be asked. Refused: 1 to 8, 46, 45; 43 where the
 * fields before the items, or the item at the place asked, pass the end; and last 15 where there is no room for that item. A walk
 * with room for some, where fields_length counts numbers:
 *
 *   for (; (items = khumsafil_items_at(payload, length, at, n, fields, fields_length)).found == KHUMSAFIL_ITEM_FOUND;
 *        at = items.next, n += items.count)
 *       for (i = 0; i < items.count; i++)
 *           item = khumsafil_item_of(fields + i * KHUMSAFIL_ITEM_FIELDS);
 *
 * One call is no walk, also not with room for KHUMSAFIL_MOST_ITEMS: an item that is refused behind others is not told with them,
 * but when its own place is asked. Fewer items than the list says are what that looks like. So call until the items are over, or ask
 * for the table's own loop, which is refused where an item before it is.
 */
KHUMSAFIL_LOOK_
static inline khumsafil_items khumsafil_items_at(const uint8_t *payload, size_t payload_length, size_t at, unsigned number,
                                                 uint64_t *fields, size_t fields_length) {
    const uint64_t answer = khumsafil_raw_programme_items(payload, payload_length, at, khumsafil_narrow_(number), fields,
                                                          fields_length);
    khumsafil_items items;
    items.refusal = khumsafil_refusal_(answer);
    items.found = (khumsafil_item_kind)(uint8_t)(answer >> 8);
    items.count = (uint16_t)(answer >> 16);
    items.next = items.found == KHUMSAFIL_ITEM_OVER ? at : (size_t)(answer >> 32);
    return items;
}

/* The flags of an item that tell of no field; false where none was found. updates_available: it will be updated. */
KHUMSAFIL_LOOK_
static inline bool khumsafil_item_has_updates(const khumsafil_item *item) {
    return (item->flags & KHUMSAFIL_FLAG_UPDATES_AVAILABLE) != 0;
}

/* TF_available: there is a text fragment for it. */
KHUMSAFIL_LOOK_
static inline bool khumsafil_item_has_text_fragment(const khumsafil_item *item) {
    return (item->flags & KHUMSAFIL_FLAG_TF_AVAILABLE) != 0;
}

/* content_security_conditions_indicator: a file of it is protected. */
KHUMSAFIL_LOOK_
static inline bool khumsafil_item_is_protected(const khumsafil_item *item) {
    return (item->flags & KHUMSAFIL_FLAG_CONTENT_SECURITY_CONDITIONS_INDICATOR) != 0;
}

/* master_item: it is the one to be launched with the service. */
KHUMSAFIL_LOOK_
static inline bool khumsafil_item_is_master(const khumsafil_item *item) {
    return (item->flags & KHUMSAFIL_FLAG_MASTER_ITEM) != 0;
}

/* available_on_internet: all its files are; false says nothing of it. */
KHUMSAFIL_LOOK_
static inline bool khumsafil_item_is_on_internet(const khumsafil_item *item) {
    return (item->flags & KHUMSAFIL_FLAG_AVAILABLE_ON_INTERNET) != 0;
}

/* available_in_broadcast: all its files are; false says nothing of it. */
KHUMSAFIL_LOOK_
static inline bool khumsafil_item_is_in_broadcast(const khumsafil_item *item) {
    return (item->flags & KHUMSAFIL_FLAG_AVAILABLE_IN_BROADCAST) != 0;
}

/* A programme list's own loop. */
typedef struct khumsafil_own {
    khumsafil_refusal refusal;
    khumsafil_loop descriptors;
} khumsafil_own;

/*
 * The table's own loop, which stands behind the last item, from the place and the number of any item: where a walk came to, or
 * KHUMSAFIL_FIRST_ITEM and 0. The items from there on are passed over, so that from the first item on the loop is answered only where
 * the whole section is read. Refused: 1 to 8, 46, 45; 43 where one of these items, or the loop, passes the end; 44 where bytes are
 * left over after it.
 */
KHUMSAFIL_LOOK_
static inline khumsafil_own khumsafil_own_loop(const uint8_t *payload, size_t payload_length, size_t at, unsigned number) {
    uint64_t fields[KHUMSAFIL_ITEM_FIELDS];
    khumsafil_items items;
    uint64_t answer;
    khumsafil_own own;
    while ((items = khumsafil_items_at(payload, payload_length, at, number, fields, KHUMSAFIL_ITEM_FIELDS)).found ==
           KHUMSAFIL_ITEM_FOUND) {
        at = items.next;
        number += items.count;
    }
    answer = items.refusal ? (uint64_t)items.refusal : khumsafil_raw_programme_own(payload, payload_length, at);
    own.refusal = khumsafil_refusal_(answer);
    own.descriptors.count = (uint8_t)(answer >> 8);
    own.descriptors.bytes = khumsafil_part_((uint16_t)(answer >> 16), (uint16_t)(answer >> 32));
    return own;
}

/*
 * Says in lines of text for staff, at the front of out, what the programme lists of a shelf file hold: docs/FORMAT.md has the
 * lines. There is no zero byte behind the text; KHUMSAFIL_PROGRAMME_TEXT bytes are room for any. Refused: 15.
 */
KHUMSAFIL_LOOK_
static inline khumsafil_size khumsafil_programme_list(const uint8_t *file, size_t file_length, uint8_t *out,
                                                      size_t out_length) {
    const uint64_t answer = khumsafil_raw_programme_list(file, file_length, out, out_length);
    khumsafil_size size;
    size.refusal = khumsafil_refusal_(answer);
    size.size = (size_t)(answer >> 8);
    return size;
}

/*
 * A clock. Before all else it is made fresh. Its time is a media time in milliseconds, which only rises: where a host's
 * begins again, it makes the clock fresh. An activation is applied when its time is reached; one move applies in order of
 * time, then application, then event. One that was applied is remembered for 60,000 milliseconds, so that its repeat is 33.
 *
 *               Released   Ready      Active      Suspended
 *   prep        Ready      Ready      Active      Suspended
 *   exec        Active     Active     Active      Active
 *   susp        Released   Ready      Suspended   Suspended
 *   kill        Released   Released   Released    Released
 */
typedef struct khumsafil_clock {
    uint32_t record[KHUMSAFIL_CLOCK_RECORD];
} khumsafil_clock;

/* The actions on an application. */
typedef enum khumsafil_action {
    KHUMSAFIL_ACTION_PREP = 0,
    KHUMSAFIL_ACTION_EXEC = 1,
    KHUMSAFIL_ACTION_SUSP = 2,
    KHUMSAFIL_ACTION_KILL = 3
} khumsafil_action;

/* An action on an application at a media time in milliseconds. */
typedef struct khumsafil_activation {
    unsigned application; /* 0 to 7 */
    uint16_t event;
    khumsafil_action action;
    uint32_t time;
} khumsafil_activation;

/* Makes it a clock at 0, whatever stood there, with every application Released and nothing held. Never refused. */
KHUMSAFIL_LOOK_
static inline khumsafil_done khumsafil_clock_fresh(khumsafil_clock *clock) {
    return khumsafil_done_(khumsafil_raw_clock_fresh(KHUMSAFIL_CLOCK_(clock)));
}

/* What became of an activation. */
typedef enum khumsafil_heard_kind {
    KHUMSAFIL_HEARD_NOTHING = 0, /* it was refused */
    KHUMSAFIL_HEARD_APPLIED = 1, /* it was applied on arrival */
    KHUMSAFIL_HEARD_WAITING = 2  /* it waits for the clock */
} khumsafil_heard_kind;

typedef struct khumsafil_heard {
    khumsafil_refusal refusal;
    khumsafil_heard_kind heard;
} khumsafil_heard;

/* Offers an activation. Refused: 255 where the action is none of the four, then 35, 30, 32, 33, 34. */
KHUMSAFIL_LOOK_
static inline khumsafil_heard khumsafil_clock_offer(khumsafil_clock *clock, khumsafil_activation activation) {
    const uint16_t answer =
        khumsafil_raw_clock_offer(KHUMSAFIL_CLOCK_(clock), khumsafil_narrow_(activation.application), activation.event,
                                  khumsafil_narrow_((unsigned)activation.action), activation.time);
    khumsafil_heard heard;
    heard.refusal = khumsafil_refusal_(answer);
    heard.heard = (khumsafil_heard_kind)(answer >> 8);
    return heard;
}

/* How many waiting activations a move applied, at most 32. */
typedef struct khumsafil_moved {
    khumsafil_refusal refusal;
    uint8_t applied;
} khumsafil_moved;

/* Moves the clock. Refused: 35, 31. */
KHUMSAFIL_LOOK_
static inline khumsafil_moved khumsafil_clock_move(khumsafil_clock *clock, uint32_t to) {
    const uint16_t answer = khumsafil_raw_clock_move(KHUMSAFIL_CLOCK_(clock), to);
    khumsafil_moved moved;
    moved.refusal = khumsafil_refusal_(answer);
    moved.applied = (uint8_t)(answer >> 8);
    return moved;
}

typedef struct khumsafil_time {
    khumsafil_refusal refusal;
    uint32_t time;
} khumsafil_time;

/* The clock's time. Refused: 35. */
KHUMSAFIL_LOOK_
static inline khumsafil_time khumsafil_clock_time(const khumsafil_clock *clock) {
    const uint64_t answer = khumsafil_raw_clock_time(KHUMSAFIL_CLOCK_(clock));
    khumsafil_time time;
    time.refusal = khumsafil_refusal_(answer);
    time.time = (uint32_t)(answer >> 32);
    return time;
}

/* The states of an application, each one more than in the raw answer: Released is not 0, so that the 0 of a refused answer
   is no state. */
typedef enum khumsafil_state_kind {
    KHUMSAFIL_STATE_NOT_KNOWN = 0, /* the question was refused */
    KHUMSAFIL_STATE_RELEASED = 1,
    KHUMSAFIL_STATE_READY = 2,
    KHUMSAFIL_STATE_ACTIVE = 3,
    KHUMSAFIL_STATE_SUSPENDED = 4
} khumsafil_state_kind;

typedef struct khumsafil_state {
    khumsafil_refusal refusal;
    khumsafil_state_kind state;
} khumsafil_state;

/* The state of an application. Refused: 35, 30. */
KHUMSAFIL_LOOK_
static inline khumsafil_state khumsafil_clock_state(const khumsafil_clock *clock, unsigned application) {
    const uint16_t answer = khumsafil_raw_clock_state(KHUMSAFIL_CLOCK_(clock), khumsafil_narrow_(application));
    khumsafil_state state;
    state.refusal = khumsafil_refusal_(answer);
    state.state = state.refusal ? KHUMSAFIL_STATE_NOT_KNOWN : (khumsafil_state_kind)((answer >> 8) + 1);
    return state;
}

/*
 * Whether two clocks have the same time, the same states and the same activations, in any order: document 01's equality of
 * records. A spoiled clock is the same as none.
 */
KHUMSAFIL_LOOK_
static inline bool khumsafil_clock_same(const khumsafil_clock *a, const khumsafil_clock *b) {
    uint32_t i, j;
    if (khumsafil_clock_time(a).refusal)
        return false;
    if (a->record[0] != b->record[0] || ((a->record[1] ^ b->record[1]) & 0xFFFF) != 0 || a->record[2] != b->record[2])
        return false;
    /* No two of a are alike, so where as many are all found in b they are the same set, and b is as sound as a. The low 27
       bits are an activation's. */
    for (i = 0; i < a->record[2]; i++) {
        for (j = 0; j < b->record[2]; j++)
            if (a->record[3 + 2 * i] == b->record[3 + 2 * j] &&
                ((a->record[4 + 2 * i] ^ b->record[4 + 2 * j]) & 0x07FFFFFF) == 0)
                break;
        if (j == b->record[2])
            return false;
    }
    return true;
}

/* What every section of a table has. The writer writes no NRT-IT, so table id and extension are all that it takes of the key. */
typedef struct khumsafil_label {
    khumsafil_key key;
    unsigned version; /* at most 31 */
} khumsafil_label;

KHUMSAFIL_LOOK_
static inline khumsafil_label khumsafil_label_of(khumsafil_key key, unsigned version) {
    khumsafil_label label;
    label.key = key;
    label.version = version;
    return label;
}

typedef struct khumsafil_count {
    khumsafil_refusal refusal;
    uint8_t sections;
} khumsafil_count;

/* How many sections a body of so many bytes makes in a table with that id, 1 to 16: as few as will do. Refused: 59, 40. */
KHUMSAFIL_LOOK_
static inline khumsafil_count khumsafil_writer_count(uint8_t table_id, size_t length) {
    const uint16_t answer = khumsafil_raw_writer_count(table_id, length);
    khumsafil_count count;
    count.refusal = khumsafil_refusal_(answer);
    count.sections = (uint8_t)(answer >> 8);
    return count;
}

/*
 * Writes section k, from 0 on, of the table that carries the body, at the front of out, where KHUMSAFIL_LARGEST_SECTION
 * bytes are room for any. Refused: 59, 40, 41, 42, 15.
 */
KHUMSAFIL_LOOK_
static inline khumsafil_size khumsafil_writer_section(khumsafil_label label, const uint8_t *body, size_t body_length,
                                                      unsigned k, uint8_t *out, size_t out_length) {
    return khumsafil_size_(khumsafil_raw_writer_section(label.key.table_id, label.key.extension,
                                                        khumsafil_narrow_(label.version), body, body_length,
                                                        khumsafil_narrow_(k), out, out_length));
}

/*
 * Writes the file of the table that carries the body, with all its sections, at the front of out, where
 * KHUMSAFIL_LARGEST_FILE bytes are room for any. Refused: 59, 40, 41, 15.
 */
KHUMSAFIL_LOOK_
static inline khumsafil_size khumsafil_writer_file(khumsafil_label label, const uint8_t *body, size_t body_length,
                                                   uint8_t *out, size_t out_length) {
    return khumsafil_size_(khumsafil_raw_writer_file(label.key.table_id, label.key.extension,
                                                     khumsafil_narrow_(label.version), body, body_length, out,
                                                     out_length));
}

#undef KHUMSAFIL_KEY_
#undef KHUMSAFIL_SHELF_
#undef KHUMSAFIL_CLOCK_
#undef KHUMSAFIL_LOOK_

#endif
