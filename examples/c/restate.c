/* Prints the container that is sent for the one on standard input, in hexadecimal. */
#include <stdio.h>
#include "tpegloc.h"

int main(void)
{
    static uint8_t bytes[65536]; /* one byte more than a container can have, so that longer input is refused too */
    static uint8_t out[65535];   /* room for the longest container */
    size_t length = fread(bytes, 1, sizeof bytes, stdin);
    uint32_t answer = restate(bytes, length, out, sizeof out);

    if (answer >= TPEGLOC_REFUSED) {
        printf("refused: %u\n", (unsigned)(answer - TPEGLOC_REFUSED));
        return 0;
    }
    for (uint32_t i = 0; i < answer; i++)
        printf("%02X", out[i]);
    printf("\n");
    return 0;
}
