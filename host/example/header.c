/* The header's two examples, which `host/test` takes out of it into hash.inc and stream.inc, in a program. */
#include "kombudeva.h"

#include <stdio.h>

static void use(const uint8_t hash[KD_HASH])
{
    printf("%02x %02x %02x %02x ... %02x %02x\n", hash[0], hash[1], hash[2], hash[3], hash[30], hash[31]);
}

static void hash(void)
{
#include "hash.inc"
}

static void tell(kd_answer taken)
{
    printf("taken: %u\n", taken.number);
}

static int hang_up(void)
{
    puts("hung up");
    return 1;
}

/* What a neighbour sends, in one piece. */
static int hear(const uint8_t *data, size_t size)
{
    static uint8_t room[KD_LONGEST_FRAME], store[1];
    const size_t store_size = sizeof store;
#include "stream.inc"
    puts("all heard");
    return 0;
}

int main(void)
{
    /* A keep-alive; a hashes message, for which there is no store; a frame that is too long. */
    static const uint8_t sent[4 + 4 + KD_HEADER_SIZE] = { [7] = KD_HEADER_SIZE, [8] = KD_HASHES }, too_long[4] = { 255 };
    hash();
    return hear(sent, sizeof sent) == 0 && hear(too_long, sizeof too_long) == 1 ? 0 : 1;
}
