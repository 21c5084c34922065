/* Says the words of each number from 0 to 300. */
#include <stdio.h>

#include "khumsafil.h"

int main(void) {
    unsigned number;
    for (number = 0; number <= 300; number++)
        printf("%u %s\n", number, khumsafil_refusal_text(number));
    return 0;
}
