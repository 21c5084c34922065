/* A step in a loop of more than 2^40 bytes, whose places an answer has no room for. It ends with 0 where the next place is
   right, and says whether it could be tried. */
#define _GNU_SOURCE
#include <sys/mman.h>

#include "khumsafil.h"

#include "expect.h"

int main(void) {
    const uint64_t more = UINT64_C(1) << 40, size = more + 65536;
    const size_t length = (size_t)size;
    uint8_t *loop = MAP_FAILED;
    size_t at, content;
    if (length == size)
        loop = mmap(NULL, length, PROT_READ, MAP_PRIVATE | MAP_ANONYMOUS | MAP_NORESERVE, -1, 0);
    if (loop == MAP_FAILED || mprotect(loop + more, 65536, PROT_READ | PROT_WRITE) != 0) {
        printf("no room for a terabyte\n");
        return 0;
    }
    for (at = (size_t)more; at < length - 300; at += 251)
        for (content = 0; content < 256; content += 51) {
            khumsafil_step step;
            loop[at] = 9, loop[at + 1] = (uint8_t)content;
            step = khumsafil_descriptor_step(loop, length, at);
            EXPECT(!step.refusal && step.found == KHUMSAFIL_STEP_DESCRIPTOR && step.tag == 9);
            EXPECT(step.content == loop + at + 2 && step.content_length == content && step.next == at + 2 + content);
        }
    EXPECT(khumsafil_descriptor_step(loop, length, length).found == KHUMSAFIL_STEP_OVER);
    EXPECT(khumsafil_descriptor_step(loop, length, length).next == length);
    EXPECT(khumsafil_descriptor_step(loop, length, length - 1).next == length);
    printf("tried\n");
    return 0;
}
