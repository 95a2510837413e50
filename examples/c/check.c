/* Prints what check answers for the container on standard input. */
#include <stdio.h>
#include "tpegloc.h"

int main(void)
{
    static uint8_t bytes[65536]; /* one byte more than a container can have, so that longer input is refused too */
    size_t length = fread(bytes, 1, sizeof bytes, stdin);
    uint32_t answer = check(bytes, length);

    if (answer >= TPEGLOC_REFUSED)
        printf("refused: %u\n", (unsigned)(answer - TPEGLOC_REFUSED));
    else
        printf("rows: %u\n", (unsigned)answer);
    return 0;
}
