/* README's ten lines, which `host/test` takes out of it into readme.inc, in a program: a file of one block, whose hash is the root, so that
 * it may be believed without a reply, and a reply that is none.
 */
#include "kombudeva.h"

#include <stdio.h>
#include <stdlib.h>

int main(void)
{
    static const uint8_t data[1000];
    const uint64_t length = sizeof data, piece_length = KD_SMALLEST_PIECE_LENGTH, block = 0;
    const size_t data_size = sizeof data, reply_size = 0;
    const uint8_t *reply = data;
    kd_hash root = kd_sha256(data, data_size).hash;
#include "readme.inc"
    free(store);
    return 0;
}
