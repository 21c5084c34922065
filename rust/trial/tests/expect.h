/* Ends a test where something is not so, and says what and where. */
#include <stdio.h>

#define EXPECT(so)                                                                                                     \
    do {                                                                                                               \
        if (!(so)) {                                                                                                   \
            printf("%s:%d: not so: %s\n", __FILE__, __LINE__, #so);                                                    \
            return 1;                                                                                                  \
        }                                                                                                              \
    } while (0)
