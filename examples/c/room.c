/* Tries restate with every room up to one byte more than is needed: what is answered, and what the output holds. */
#include <stdio.h>
#include <string.h>
#include "tpegloc.h"

/* A node whose name has a language part, since the default is another: 16 bytes, sent as 13. */
static const uint8_t BYTES[] = {0x28, 0x01, 0x00, 0x0C, 0x02, 0x00, 0x09, 0x01, 0x00, 0x00, 0x05, 0x01, 0x41, 0x00, 0x01, 0x1E};
static const uint8_t SENT[] = {0x1E, 0x01, 0x00, 0x09, 0x02, 0x00, 0x06, 0x01, 0x00, 0x00, 0x02, 0x01, 0x41};

/* Whether all bytes from `from` on are the mark that they were filled with. */
static int untouched(const uint8_t *out, size_t from, size_t size)
{
    for (size_t i = from; i < size; i++)
        if (out[i] != 0xEE)
            return 0;
    return 1;
}

int main(void)
{
    for (size_t room = 1; room <= sizeof SENT + 1; room++) {
        uint8_t out[32];
        memset(out, 0xEE, sizeof out);
        uint32_t answer = restate(BYTES, sizeof BYTES, out, room);
        int right = room < sizeof SENT
            ? answer == TPEGLOC_REFUSED + 16 && untouched(out, 0, sizeof out)
            : answer == sizeof SENT && memcmp(out, SENT, sizeof SENT) == 0 && untouched(out, sizeof SENT, sizeof out);
        if (!right) {
            printf("room %u: answered %u\n", (unsigned)room, (unsigned)answer);
            return 1;
        }
    }
    printf("every room: ok\n");
    return 0;
}
