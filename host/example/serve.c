/* A gateway that holds a file's hashes serves a neighbour's request for some of them; the neighbour's bytes come over a link, cut
 * anywhere.
 *
 *     cc serve.c $(pkg-config --cflags --libs kombudeva) -o serve
 */
#include "kombudeva.h"

#include <stdio.h>
#include <stdlib.h>
#include <string.h>

/* The file: four blocks, each a piece. Its piece layer is its leaves. */
enum { BLOCKS = 4, LENGTH = BLOCKS * KD_BLOCK, PIECE_LENGTH = KD_SMALLEST_PIECE_LENGTH };

/* A frame is four bytes longer than its message. */
enum { PREFIX = 4 };

/* Memories that a gateway keeps: the frame under way, the reply, and the reply in its frame. */
static uint8_t room[KD_LONGEST_FRAME], reply[KD_LARGEST_REPLY], framed[PREFIX + KD_LARGEST_REPLY];

/* A store for the file of which the root is held, and nothing else; NULL if there is none. */
static uint8_t *opened(kd_hash root, size_t *size)
{
    kd_answer asked = kd_store_size(LENGTH, PIECE_LENGTH);
    uint8_t *store = asked.number == KD_DONE ? malloc(asked.count) : NULL;
    if (store == NULL || kd_open(store, asked.count, LENGTH, PIECE_LENGTH, root).number != KD_DONE)
        return NULL;
    *size = asked.count;
    return store;
}

/* Serves a request, and frames what goes back, a reject too; how many bytes that is. */
static size_t serve(const uint8_t *store, size_t size, const uint8_t *request, size_t request_size)
{
    kd_answer served = kd_serve(store, size, request, request_size, reply, sizeof reply);
    if (served.number == KD_DONE)
        printf("served: %llu bytes\n", (unsigned long long)served.count);
    else
        printf("not served (%u): %llu bytes\n", served.number, (unsigned long long)served.count);
    kd_answer sent = kd_frame(reply, served.count, framed, sizeof framed);
    return sent.number == KD_DONE ? sent.count : 0;
}

/* What comes over the link, three bytes at a time; a request is served. How many bytes of `framed` go back for the last one. */
static size_t over_the_link(const uint8_t *store, size_t size, const uint8_t *sent, size_t sent_size)
{
    kd_stream state = kd_stream_begin();
    size_t back = 0;
    for (size_t at = 0; at < sent_size;) {
        size_t given = sent_size - at < 3 ? sent_size - at : 3;
        kd_heard heard = kd_stream_hear(state, sent + at, given, room, sizeof room);
        state = heard.state, at += heard.used;
        if (heard.number == KD_FRAME_TOO_LONG || heard.number == KD_UNUSABLE)
            return 0;
        if (heard.event == KD_MESSAGE && room[0] == KD_HASH_REQUEST)
            back = serve(store, size, room, heard.size);
    }
    return back;
}

/* The root and the piece layer of the file, as a logger has them. */
static kd_history_end_answer logged(const uint8_t *file, uint8_t *layer, size_t layer_size)
{
    kd_history_answer history = kd_history_begin(PIECE_LENGTH);
    if (history.number == KD_DONE)
        history = kd_history_more(history.state, file, LENGTH, layer, layer_size);
    kd_history_end_answer end = { history.number, 0, { { 0 } }, 0 };
    return history.number == KD_DONE ? kd_history_end(history.state, layer, layer_size) : end;
}

int main(void)
{
    static uint8_t file[LENGTH], layer[BLOCKS * KD_HASH];
    memset(file, 37, sizeof file);
    kd_history_end_answer known = logged(file, layer, sizeof layer);
    if (known.number != KD_DONE)
        return 1;

    size_t size, their_size;
    uint8_t *store = opened(known.root, &size), *theirs = opened(known.root, &their_size);
    if (store == NULL || theirs == NULL)
        return 1;

    /* The neighbour asks for what its own store names next: the leaves. */
    kd_request next = kd_next_request(theirs, their_size, 0);
    uint8_t asked[PREFIX + KD_HEADER_SIZE];
    if (next.number != KD_DONE || !next.asks || kd_frame(next.message, sizeof next.message, asked, sizeof asked).number != KD_DONE)
        return 1;
    over_the_link(store, size, asked, sizeof asked);

    kd_answer loaded = kd_load_layer(store, size, layer, known.layer_size);
    if (loaded.number != KD_DONE)
        return 1;
    printf("its layer is loaded: %llu hashes newly held\n", (unsigned long long)loaded.count);
    size_t back = over_the_link(store, size, asked, sizeof asked);
    kd_answer taken = kd_take(theirs, their_size, framed + PREFIX, back - PREFIX);
    if (back == 0 || taken.number != KD_DONE)
        return 1;
    printf("the neighbour takes it: %llu hashes newly held\n", (unsigned long long)taken.count);
    next = kd_next_request(theirs, their_size, 0);
    if (next.number != KD_DONE)
        return 1;
    puts(next.asks ? "and asks on" : "and has nothing more to ask");
    free(theirs);
    free(store);
    return 0;
}
