/* Can a battery get younger? Of yesterday's history of a cell only its length and root were kept. Today's comes from somewhere,
 * and is to begin with yesterday's: a history only grows.
 *
 *     cc younger.c $(pkg-config --cflags --libs kombudeva) -o younger
 */
#include "kombudeva.h"

#include <stdio.h>
#include <stdlib.h>
#include <string.h>

/* Yesterday two blocks and a part of a third, today some more. Pieces of one block: the piece layer is the leaves. */
enum { YESTERDAY = 2 * KD_BLOCK + 1000, TODAY = 4 * KD_BLOCK + 77, PIECE_LENGTH = KD_BLOCK, PIECES = 8 };

/* Length, root and piece layer of a history, as its logger has them. */
static kd_history_end_answer logged(const uint8_t *history, size_t length, uint8_t layer[32 * PIECES])
{
    kd_history state = kd_history_begin(PIECE_LENGTH).state;
    state = kd_history_more(state, history, length, layer, 32 * PIECES).state;
    return kd_history_end(state, layer, 32 * PIECES);
}

static const char *in_words(kd_answer answer, uint64_t length)
{
    switch (answer.number) {
    case KD_DONE: return answer.count == length ? "it is the same" : "it grew";
    case KD_NO_ANCHOR: return "not known yet: a hash is missing";
    default: return "another history";
    }
}

/* Today's history held against yesterday's length and root. A gateway that hasn't the bytes gets the layer by messages, and needs
 * the one block over yesterday's end. */
static void compare(const char *what, kd_history_end_answer yesterday, const uint8_t *history, size_t length)
{
    uint8_t layer[32 * PIECES];
    kd_history_end_answer today = logged(history, length, layer);
    size_t size = (size_t)kd_store_size(today.length, PIECE_LENGTH).count;
    uint8_t *store = malloc(size);
    if (!store || kd_open(store, size, today.length, PIECE_LENGTH, today.root).number != KD_DONE
            || kd_load_layer(store, size, layer, (size_t)today.layer_size).number != KD_DONE)
        exit(1);

    uint64_t start = yesterday.length / KD_BLOCK * KD_BLOCK;
    size_t block = start < yesterday.length && yesterday.length <= length ? length - (size_t)start : 0;
    if (block > KD_BLOCK)
        block = KD_BLOCK;
    kd_answer answer = kd_extends(store, size, yesterday.length, yesterday.root, history + (block ? start : 0), block);
    printf("%s: %s (%u)\n", what, in_words(answer, today.length), answer.number);
    free(store);
}

int main(void)
{
    uint8_t layer[32 * PIECES];
    uint8_t *history = malloc(TODAY);
    if (!history)
        return 1;
    for (size_t i = 0; i < TODAY; i++)
        history[i] = (uint8_t)(i * 7 + i / 251);
    kd_history_end_answer yesterday = logged(history, YESTERDAY, layer);

    compare("today's history", yesterday, history, TODAY);
    compare("the same day's", yesterday, history, YESTERDAY);
    compare("today's without its last week", yesterday, history, YESTERDAY - 500);
    history[100] ^= 1;
    compare("today's with a byte of the first block changed", yesterday, history, TODAY);
    history[100] ^= 1;
    history[YESTERDAY - 1] ^= 1;
    compare("today's with yesterday's last byte changed", yesterday, history, TODAY);
    history[YESTERDAY - 1] ^= 1;
    history[YESTERDAY] ^= 1;
    compare("today's with its own first byte changed", yesterday, history, TODAY);
    free(history);
    return 0;
}
