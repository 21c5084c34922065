/* How many bytes of stack each call of the library writes below its caller, found on a stack that was painted before. */
#include <stdio.h>
#include <string.h>
#include <ucontext.h>

#include "khumsafil_raw.h"

#define SHELF record, KHUMSAFIL_SHELF_RECORD, store, sizeof store
#define CLOCK clock_record, KHUMSAFIL_CLOCK_RECORD
#define KEY 201, 4660, 0, 0

static uint16_t record[KHUMSAFIL_SHELF_RECORD], fields[KHUMSAFIL_TRIGGER_FIELDS], table[KHUMSAFIL_TABLE_FIELDS];
static uint8_t store[KHUMSAFIL_STORE], section[KHUMSAFIL_LARGEST_SECTION], file[KHUMSAFIL_LARGEST_FILE],
    out[KHUMSAFIL_LARGEST_FILE];
static uint32_t clock_record[KHUMSAFIL_CLOCK_RECORD];
static uint64_t item[KHUMSAFIL_ITEM_FIELDS];
static uint32_t programme[KHUMSAFIL_PROGRAMME_FIELDS];
/* A list of one item, with two descriptors. */
static const uint8_t nrt_it[] = {0xDF, 0x70, 0x1E, 0, 0, 0xC7, 0, 0,    12,   80, 0,    0, 0, 0,    0, 60, 1,
                                 0,    0,    0,    1, 0, 0,    2, 0x41, 0x42, 2,  0xC8, 1, 7, 0xC6, 0, 0};
/* A shelf file that holds it. */
static uint8_t nrt_it_file[3 + sizeof nrt_it];
static const uint8_t trigger[] = {0, 0, 4, 0, 1, 0x41, 0x42, 5, 0, 2, 'h', 't', 0, 1, 7};
static volatile uint64_t answer;

static void make_section(uint8_t version, uint8_t number, uint8_t last) {
    const uint8_t head[] = {201, 0x73, 0xFD, 0x12, 0x34, (uint8_t)(0xC1 | version << 1), number, last};
    memcpy(section, head, sizeof head);
}

/* The largest table on a shelf, its file, the file of a list, a clock with 32 waiting, and a trigger's numbers. */
static void prepare(void) {
    uint8_t i;
    khumsafil_raw_shelf_begin(SHELF);
    for (i = 0; i < 16; i++) {
        make_section(3, i, 15);
        khumsafil_raw_shelf_offer(SHELF, section, sizeof section);
    }
    khumsafil_raw_shelf_save(SHELF, KEY, file, sizeof file);
    nrt_it_file[0] = nrt_it_file[1] = 1, nrt_it_file[2] = sizeof nrt_it;
    memcpy(nrt_it_file + 3, nrt_it, sizeof nrt_it);
    khumsafil_raw_clock_fresh(CLOCK);
    for (i = 0; i < 32; i++)
        khumsafil_raw_clock_offer(CLOCK, i % 8, i, i % 4, 100u - i);
    khumsafil_raw_trigger_read(trigger, sizeof trigger, fields, KHUMSAFIL_TRIGGER_FIELDS);
}

static void version(void) { answer = (uint64_t)khumsafil_raw_version() << 8; }
static void nothing(void) { answer = 0; }
static void section_read(void) { answer = khumsafil_raw_section_read(section, sizeof section); }
static void section_key(void) { answer = khumsafil_raw_section_key(nrt_it, sizeof nrt_it); }
static void shelf_begin(void) { answer = khumsafil_raw_shelf_begin(SHELF); }
static void offer_repeat(void) { answer = khumsafil_raw_shelf_offer(SHELF, section, sizeof section); }
static void offer_again(void) {
    make_section(4, 2, 15);
    answer = khumsafil_raw_shelf_offer(SHELF, section, sizeof section);
}
static void offer_added(void) {
    record[80] &= 0x7FFF;
    answer = khumsafil_raw_shelf_offer(SHELF, section, sizeof section);
}
static void offer_nrt_it(void) { answer = khumsafil_raw_shelf_offer(SHELF, nrt_it, sizeof nrt_it); }
static void is_complete(void) { answer = khumsafil_raw_shelf_is_complete(SHELF, KEY); }
static void complete(void) { answer = khumsafil_raw_shelf_complete(SHELF, KEY); }
static void lowest_missing(void) { answer = khumsafil_raw_shelf_lowest_missing(SHELF, KEY); }
static void shelf_table(void) { answer = khumsafil_raw_shelf_table(SHELF, 0, table, KHUMSAFIL_TABLE_FIELDS); }
static void copy_section(void) { answer = khumsafil_raw_shelf_copy_section(SHELF, KEY, 15, out, sizeof out); }
static void release(void) { answer = khumsafil_raw_shelf_release(SHELF, KEY); }
static void save(void) { answer = khumsafil_raw_shelf_save(SHELF, KEY, out, sizeof out); }
static void load(void) {
    record[64] = 0;
    answer = khumsafil_raw_shelf_load(SHELF, file, sizeof file);
}
static void file_table(void) {
    answer = khumsafil_raw_file_table(file, sizeof file, table, KHUMSAFIL_TABLE_FIELDS);
}
static void file_number(void) { answer = khumsafil_raw_file_number(file + 2, 3); }
static void list(void) { answer = khumsafil_raw_file_list(file, sizeof file, out, sizeof out); }
static void step(void) { answer = khumsafil_raw_descriptor_step(trigger, sizeof trigger, 0); }
static void is_tap(void) { answer = khumsafil_raw_descriptor_is_trigger_tap(trigger, sizeof trigger, 0); }
static void trigger_read(void) {
    answer = khumsafil_raw_trigger_read(trigger, sizeof trigger, fields, KHUMSAFIL_TRIGGER_FIELDS);
}
static void belongs(void) {
    answer = khumsafil_raw_trigger_belongs(trigger, sizeof trigger, fields, KHUMSAFIL_TRIGGER_FIELDS, trigger + 5, 2);
}
static void programme_read(void) {
    answer = khumsafil_raw_programme_read(nrt_it, sizeof nrt_it, programme, KHUMSAFIL_PROGRAMME_FIELDS);
}
static void programme_items(void) {
    answer = khumsafil_raw_programme_items(nrt_it, sizeof nrt_it, KHUMSAFIL_FIRST_ITEM, 0, item, KHUMSAFIL_ITEM_FIELDS);
}
static void programme_own(void) { answer = khumsafil_raw_programme_own(nrt_it, sizeof nrt_it, sizeof nrt_it - 1); }
static void programme_list(void) {
    answer = khumsafil_raw_programme_list(nrt_it_file, sizeof nrt_it_file, out, sizeof out);
}
static void fresh(void) { answer = khumsafil_raw_clock_fresh(CLOCK); }
static void clock_offer(void) {
    clock_record[2] = 31;
    answer = khumsafil_raw_clock_offer(CLOCK, 7, 99, 1, 50);
}
static void move(void) { answer = khumsafil_raw_clock_move(CLOCK, 1000); }
static void clock_time(void) { answer = khumsafil_raw_clock_time(CLOCK); }
static void state(void) { answer = khumsafil_raw_clock_state(CLOCK, 3); }

static const struct {
    const char *name;
    void (*call)(void);
} calls[] = {{"khumsafil_raw_version", version},
             {"khumsafil_raw_section_read", section_read},
             {"khumsafil_raw_section_key", section_key},
             {"khumsafil_raw_shelf_begin", shelf_begin},
             {"khumsafil_raw_shelf_offer, a repeat", offer_repeat},
             {"khumsafil_raw_shelf_offer, begun again", offer_again},
             {"khumsafil_raw_shelf_offer, added", offer_added},
             {"khumsafil_raw_shelf_offer, an NRT-IT begun", offer_nrt_it},
             {"khumsafil_raw_shelf_is_complete", is_complete},
             {"khumsafil_raw_shelf_complete", complete},
             {"khumsafil_raw_shelf_lowest_missing", lowest_missing},
             {"khumsafil_raw_shelf_table", shelf_table},
             {"khumsafil_raw_shelf_copy_section", copy_section},
             {"khumsafil_raw_shelf_release", release},
             {"khumsafil_raw_shelf_save", save},
             {"khumsafil_raw_shelf_load", load},
             {"khumsafil_raw_file_table", file_table},
             {"khumsafil_raw_file_list", list},
             {"khumsafil_raw_file_number", file_number},
             {"khumsafil_raw_descriptor_step", step},
             {"khumsafil_raw_descriptor_is_trigger_tap", is_tap},
             {"khumsafil_raw_trigger_read", trigger_read},
             {"khumsafil_raw_trigger_belongs", belongs},
             {"khumsafil_raw_programme_read", programme_read},
             {"khumsafil_raw_programme_items", programme_items},
             {"khumsafil_raw_programme_own", programme_own},
             {"khumsafil_raw_programme_list", programme_list},
             {"khumsafil_raw_clock_fresh", fresh},
             {"khumsafil_raw_clock_offer", clock_offer},
             {"khumsafil_raw_clock_move", move},
             {"khumsafil_raw_clock_time", clock_time},
             {"khumsafil_raw_clock_state", state}};

#define PAINT UINT64_C(0xA5C3E1F0A5C3E1F0)
static uint64_t stack[8192];

/* The bytes from the lowest one that the call wrote to the stack's end. */
static size_t depth(void (*call)(void)) {
    ucontext_t here, there;
    size_t i;
    prepare();
    for (i = 0; i < sizeof stack / sizeof *stack; i++)
        stack[i] = PAINT;
    if (getcontext(&there) != 0)
        return 0;
    there.uc_stack.ss_sp = stack;
    there.uc_stack.ss_size = sizeof stack;
    there.uc_link = &here;
    makecontext(&there, call, 0);
    if (swapcontext(&here, &there) != 0)
        return 0;
    for (i = 0; i < sizeof stack / sizeof *stack && stack[i] == PAINT; i++)
        ;
    return sizeof stack - i * sizeof *stack;
}

int main(void) {
    const size_t before = depth(nothing);
    size_t i;
    for (i = 0; i < sizeof calls / sizeof *calls; i++) {
        size_t used = depth(calls[i].call);
        if (used < before || used == sizeof stack)
            return 1;
        /* A call of which an answer is refused, or false where a table is whole or a trigger belongs, would tell nothing. */
        if (calls[i].call == is_complete || calls[i].call == belongs ? answer != 1
                                                                     : (uint8_t)answer != 0)
            return fprintf(stderr, "%s: refused %u\n", calls[i].name, (unsigned)(uint8_t)answer), 1;
        printf("| `%s` | %zu |\n", calls[i].name, used - before);
    }
    return 0;
}
