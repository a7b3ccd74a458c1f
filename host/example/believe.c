/* May this block be believed? A gateway opens a store for a cell's history, hears a neighbour's reply about its hashes,
 * and judges blocks as they come in.
 *
 *     cc believe.c $(pkg-config --cflags --libs kombudeva) -o believe
 */
#include "kombudeva.h"

#include <stdio.h>
#include <stdlib.h>
#include <string.h>

/* The history: two blocks of 16 KiB, the second one cut short. Its tree has two leaves and the root above them. */
enum { BLOCKS = 2, LENGTH = KD_BLOCK + 1000, PIECE_LENGTH = KD_SMALLEST_PIECE_LENGTH };

/* A hashes message: id, pieces root, base layer, index, length, proof layers, each of these four in four bytes; then the hashes, here the
 * two leaves. */
enum { ROOT = 1, RUN_LENGTH = ROOT + KD_HASH + 8, REPLY = KD_HEADER_SIZE + BLOCKS * KD_HASH };

static const char *in_words(uint32_t number)
{
    switch (number) {
    case KD_DONE: return "it may be believed";
    case KD_WRONG_SIZE: return "no: a block of this file has another size";
    case KD_NO_ANCHOR: return "not yet: no hash is held to compare it with";
    case KD_DIFFERS: return "no: its hash is not the one held";
    default: return "no";
    }
}

static void judge(uint8_t *store, size_t size, const char *what, uint64_t block, const uint8_t *data, size_t bytes)
{
    kd_answer answer = kd_judge_block(store, size, block, data, bytes);
    printf("%s: %s (%u)\n", what, in_words(answer.number), answer.number);
}

static void hear(uint8_t *store, size_t size, const char *what, const uint8_t *reply)
{
    kd_answer answer = kd_take(store, size, reply, REPLY);
    if (answer.number == KD_DONE)
        printf("%s: taken, %llu hashes newly held\n", what, (unsigned long long)answer.count);
    else
        printf("%s: refused (%u), nothing is lost\n", what, answer.number);
}

/* Which blocks were judged right, and the bitfield that tells neighbours which pieces are whole: here a piece is a block. The first number
 * that is not KD_DONE. */
static uint32_t on_disk(const uint8_t *store, size_t size, const char *when)
{
    uint8_t field[1] = { 0 };
    unsigned marked = 0;
    for (unsigned block = 0; block < BLOCKS; block++) {
        kd_answer asked = kd_marked(store, size, block);
        if (asked.number != KD_DONE)
            return asked.number;
        marked += (unsigned)asked.count;
    }
    kd_answer written = kd_bitfield(store, size, field, sizeof field);
    if (written.number == KD_DONE)
        printf("%s: %u of %u blocks on disk, bitfield %02x\n", when, marked, (unsigned)BLOCKS, (unsigned)field[0]);
    return written.number;
}

/* What a neighbour that has the whole history would send for (base 0, index 0, length 2, proof layers 0). */
static uint32_t neighbours_reply(uint8_t reply[REPLY], const uint8_t *history, kd_hash *root)
{
    kd_hashed first = kd_sha256(history, KD_BLOCK), second = kd_sha256(history + KD_BLOCK, LENGTH - KD_BLOCK);
    if (first.number != KD_DONE || second.number != KD_DONE)
        return first.number != KD_DONE ? first.number : second.number;
    memset(reply, 0, KD_HEADER_SIZE);
    memcpy(reply + KD_HEADER_SIZE, first.hash.bytes, KD_HASH);
    memcpy(reply + KD_HEADER_SIZE + KD_HASH, second.hash.bytes, KD_HASH);
    kd_hashed top = kd_sha256(reply + KD_HEADER_SIZE, BLOCKS * KD_HASH);
    *root = top.hash;
    reply[0] = KD_HASHES;
    memcpy(reply + ROOT, top.hash.bytes, KD_HASH);
    reply[RUN_LENGTH + 3] = BLOCKS;                 /* the last of its four bytes; the other numbers are 0 */
    return top.number;
}

int main(void)
{
    static uint8_t today[LENGTH], yesterday[LENGTH];
    memset(today, 37, LENGTH);
    memset(yesterday, 36, LENGTH);

    uint8_t reply[REPLY], old_reply[REPLY];
    kd_hash root, old_root;
    if (neighbours_reply(reply, today, &root) != KD_DONE || neighbours_reply(old_reply, yesterday, &old_root) != KD_DONE)
        return 1;

    /* A real gateway has length, piece length and pieces root from the torrent. */
    kd_answer size_of = kd_store_size(LENGTH, PIECE_LENGTH);
    if (size_of.number != KD_DONE)
        return 1;
    size_t size = size_of.count;
    uint8_t *store = malloc(size);
    if (store == NULL || kd_open(store, size, LENGTH, PIECE_LENGTH, root).number != KD_DONE)
        return 1;

    judge(store, size, "block 0 before any reply", 0, today, KD_BLOCK);
    hear(store, size, "a reply about yesterday's file", old_reply);
    reply[KD_HEADER_SIZE] ^= 1;                     /* a bit of the first leaf, as a bad link or a liar would change it */
    hear(store, size, "a damaged reply", reply);
    reply[KD_HEADER_SIZE] ^= 1;
    hear(store, size, "the true reply", reply);
    judge(store, size, "block 0 of today", 0, today, KD_BLOCK);
    judge(store, size, "block 0 of yesterday", 0, yesterday, KD_BLOCK);
    judge(store, size, "block 1 of today", 1, today + KD_BLOCK, LENGTH - KD_BLOCK);
    judge(store, size, "block 1 with its end missing", 1, today + KD_BLOCK, 500);
    if (on_disk(store, size, "at last") != KD_DONE || kd_clear(store, size, 0).number != KD_DONE
        || on_disk(store, size, "when block 0 is lost") != KD_DONE)
        return 1;
    free(store);
    return 0;
}
