/* Reads one bare section of a programme list, and no shelf file, from standard input and says what it holds; status 1 where
   it is refused. Bytes are told as place and length, and descriptors by their tags; a field that is not there is told as -. */
#include <inttypes.h>
#include <stdio.h>

#include "khumsafil.h"

static void optional(const char *word, bool there, uint64_t value) {
    if (there)
        printf(" %s %" PRIu64, word, value);
    else
        printf(" %s -", word);
}

static void descriptors(const uint8_t *payload, khumsafil_loop loop) {
    const uint8_t *bytes = khumsafil_part_of(payload, loop.bytes);
    khumsafil_step step;
    size_t at;
    printf(" descriptors %u at %u %u:", (unsigned)loop.count, (unsigned)loop.bytes.place, (unsigned)loop.bytes.length);
    for (at = 0; (step = khumsafil_descriptor_step(bytes, loop.bytes.length, at)).found == KHUMSAFIL_STEP_DESCRIPTOR;
         at = step.next)
        printf(" %u", (unsigned)step.tag);
    printf("\n");
}

static void show(const uint8_t *payload, unsigned number, const khumsafil_item *item) {
    printf("item %u linkage %" PRIu32 " updates %d fragment %d protected %d master %d internet %d broadcast %d", number,
           item->content_linkage, khumsafil_item_has_updates(item), khumsafil_item_has_text_fragment(item),
           khumsafil_item_is_protected(item), khumsafil_item_is_master(item), khumsafil_item_is_on_internet(item),
           khumsafil_item_is_in_broadcast(item));
    optional("playback", item->has_playback_length, item->playback_length);
    optional("delay", item->has_playback_delay, item->playback_delay);
    optional("expires", item->has_expiration, item->expiration);
    optional("size", item->has_content_size, item->content_size);
    printf(" name %u %u", (unsigned)item->name.place, (unsigned)item->name.length);
    descriptors(payload, item->descriptors);
}

/* How many items are asked for with one call. */
#define AT_ONCE 16

int main(void) {
    /* One byte more than the longest section, so that a longer one is refused and not clipped. */
    static uint8_t payload[KHUMSAFIL_LARGEST_SECTION + 1];
    const size_t length = fread(payload, 1, sizeof payload, stdin);
    const khumsafil_programme list = khumsafil_programme_read(payload, length);
    size_t at = KHUMSAFIL_FIRST_ITEM;
    uint64_t fields[AT_ONCE * KHUMSAFIL_ITEM_FIELDS];
    unsigned number = 0, i;
    khumsafil_items items;
    khumsafil_own own;
    if (list.refusal) {
        printf("refused %u\n", (unsigned)list.refusal);
        return 1;
    }
    printf("service %u start %" PRIu32 " minutes %u items %u\n", (unsigned)list.service_id, list.time_span_start,
           (unsigned)list.time_span_length, (unsigned)list.items);
    for (; (items = khumsafil_items_at(payload, length, at, number, fields, AT_ONCE * KHUMSAFIL_ITEM_FIELDS)).found ==
           KHUMSAFIL_ITEM_FOUND;
         at = items.next, number += items.count)
        for (i = 0; i < items.count; i++) {
            const khumsafil_item item = khumsafil_item_of(fields + i * KHUMSAFIL_ITEM_FIELDS);
            show(payload, number + i, &item);
        }
    if (items.refusal) {
        printf("refused %u at %u\n", (unsigned)items.refusal, (unsigned)at);
        return 1;
    }
    own = khumsafil_own_loop(payload, length, at, number);
    if (own.refusal) {
        printf("refused %u at %u\n", (unsigned)own.refusal, (unsigned)at);
        return 1;
    }
    printf("list");
    descriptors(payload, own.descriptors);
    return 0;
}
