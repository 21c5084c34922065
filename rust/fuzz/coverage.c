/*
 * Which edges of the library some inputs reach: runs each file that a line of standard input names through the fuzzer's
 * entry, and prints a line for each edge: the address of its function, its own address, and 1 where it was reached. It
 * stands where the fuzzer's own runtime does, and takes the library's counters from the compiler's calls at the start.
 */
#include <stdint.h>
#include <stdio.h>
#include <stdlib.h>
#include <string.h>

int LLVMFuzzerTestOneInput(const uint8_t *bytes, size_t size);

/* An edge as the compiler lists it; bit 0 of the flags marks the entry of a function. */
struct edge {
    uintptr_t at, flags;
};

static uint8_t *counters, *counters_end;
static const struct edge *edges, *edges_end;

/* The compiler counts the depth of the stack in this one. */
__thread uintptr_t __sancov_lowest_stack = UINTPTR_MAX;

void __sanitizer_cov_8bit_counters_init(uint8_t *from, uint8_t *to) { counters = from, counters_end = to; }

void __sanitizer_cov_pcs_init(const struct edge *from, const struct edge *to) { edges = from, edges_end = to; }

/* What is compared guides a fuzzer, and tells nothing here. */
#define COMPARED(name, type)                                                                                           \
    void __sanitizer_cov_trace_##name(type a, type b) { (void)a, (void)b; }
COMPARED(cmp1, uint8_t)
COMPARED(cmp2, uint16_t)
COMPARED(cmp4, uint32_t)
COMPARED(cmp8, uint64_t)
COMPARED(const_cmp1, uint8_t)
COMPARED(const_cmp2, uint16_t)
COMPARED(const_cmp4, uint32_t)
COMPARED(const_cmp8, uint64_t)
void __sanitizer_cov_trace_switch(uint64_t value, uint64_t *cases) { (void)value, (void)cases; }
void __sanitizer_cov_trace_div4(uint32_t by) { (void)by; }
void __sanitizer_cov_trace_div8(uint64_t by) { (void)by; }
void __sanitizer_cov_trace_gep(uintptr_t at) { (void)at; }
void __sanitizer_cov_trace_pc_indir(uintptr_t to) { (void)to; }

int main(void) {
    static uint8_t room[1 << 20], reached[1 << 16];
    static char name[4096];
    const size_t all = (size_t)(edges_end - edges);
    uintptr_t function = 0;
    size_t i, at;
    if (all == 0 || all > sizeof reached || all != (size_t)(counters_end - counters))
        return fprintf(stderr, "the library has no counters\n"), 1;
    while (fgets(name, sizeof name, stdin) != NULL) {
        FILE *file;
        uint8_t *bytes;
        size_t size;
        name[strcspn(name, "\n")] = 0;
        file = fopen(name, "rb");
        if (file == NULL)
            return perror(name), 1;
        size = fread(room, 1, sizeof room, file);
        fclose(file);
        /* In a buffer of its own, as the fuzzer hands it over. */
        bytes = malloc(size + 1);
        if (bytes == NULL)
            return 1;
        for (at = 0; at < size; at++)
            bytes[at] = room[at];
        LLVMFuzzerTestOneInput(bytes, size);
        free(bytes);
        /* A counter has eight bits and would come round to 0 over many inputs. */
        for (at = 0; at < all; at++)
            reached[at] |= counters[at] != 0, counters[at] = 0;
    }
    for (i = 0; i < all; i++) {
        if (edges[i].flags & 1)
            function = edges[i].at;
        printf("%#lx %#lx %d\n", (unsigned long)function, (unsigned long)edges[i].at, reached[i]);
    }
    return 0;
}
