/* A logger publishes what it has written: bursts go into a running tree, the torrent of the logs is written, and whoever reads it
 * opens a store that takes the piece layer.
 *
 *     cc publish.c $(pkg-config --cflags --libs kombudeva) -o publish
 */
#include "kombudeva.h"

#include <stdio.h>
#include <stdlib.h>
#include <string.h>

enum { PIECE_LENGTH = KD_SMALLEST_PIECE_LENGTH, BURST = 999, LONG = 50000, SHORT = 700 };
enum { PIECES = (LONG + PIECE_LENGTH - 1) / PIECE_LENGTH };
enum { FILES = 2 };

/* The list of files, and the text that its records point into. */
static uint8_t list[FILES * KD_WRITE_RECORD], text[1000];
static size_t list_size, text_size;

static void put_number(uint8_t *to, uint64_t number, size_t size)
{
    while (size-- > 0) {
        to[size] = (uint8_t)number;
        number >>= 8;
    }
}

/* Adds a part to the text, and writes its start and its size. */
static void put_part(uint8_t *to, const uint8_t *part, size_t size)
{
    put_number(to, text_size, 4);
    put_number(to + 4, size, 4);
    memcpy(text + text_size, part, size);
    text_size += size;
}

/* Adds a file at `folder`/`name`: its path is two elements, each behind its size. */
static void add_file(const char *folder, const char *name, const kd_history_end_answer *logged, const uint8_t *layer)
{
    uint8_t path[100], *record = list + list_size;
    size_t first = strlen(folder), second = strlen(name);
    put_number(path, first, 4);
    memcpy(path + 4, folder, first);
    put_number(path + 4 + first, second, 4);
    memcpy(path + 8 + first, name, second);
    put_number(record, logged->length, 8);
    memcpy(record + 8, logged->root.bytes, 32);
    put_part(record + 40, layer, logged->layer_size);
    put_part(record + 48, path, 8 + first + second);
    list_size += KD_WRITE_RECORD;
}

/* The log's bytes come in bursts; nothing of them is kept. */
static kd_history_end_answer log_in_bursts(const uint8_t *bytes, size_t size, uint8_t *layer, size_t layer_size)
{
    kd_history_answer history = kd_history_begin(PIECE_LENGTH);
    for (size_t at = 0; at < size && history.number == KD_DONE; at += BURST)
        history = kd_history_more(history.state, bytes + at, size - at < BURST ? size - at : BURST, layer, layer_size);
    return kd_history_end(history.state, layer, layer_size);
}

/* What a reader does with the torrent: every file's path and length, and a store for those that have a layer. */
static int read_back(const uint8_t *torrent, size_t size)
{
    kd_torrent whole = kd_torrent_read(torrent, size);
    printf("read back: %u, %llu files\n", whole.number, (unsigned long long)whole.files);
    for (uint64_t number = 0; number < whole.files; number++) {
        kd_file file = kd_torrent_file(torrent, size, number);
        kd_part folder = kd_torrent_path(torrent, size, number, 0), name = kd_torrent_path(torrent, size, number, 1);
        printf("  %.*s/%.*s, %llu bytes\n", (int)folder.size, (const char *)torrent + folder.start, (int)name.size,
               (const char *)torrent + name.start, (unsigned long long)file.length);
        if (file.layer_size == 0)
            continue;
        size_t room = kd_store_size(file.length, whole.piece_length).count;
        uint8_t *store = malloc(room);
        if (store == NULL || kd_open(store, room, file.length, whole.piece_length, file.root).number != KD_DONE)
            return 1;
        kd_answer loaded = kd_load_layer(store, room, torrent + file.layer_start, file.layer_size);
        printf("  its layer in a store: %u, %llu hashes newly held\n", loaded.number, (unsigned long long)loaded.count);
        free(store);
    }
    return whole.number != KD_DONE;
}

int main(void)
{
    static uint8_t voltage[LONG], note[SHORT], torrent[KD_LARGEST_TORRENT];
    uint8_t layer[PIECES * 32];
    memset(voltage, 37, sizeof voltage);
    memset(note, 'n', sizeof note);

    /* Added in any order: `a/log` stands before `a.txt/log` in the torrent. */
    kd_history_end_answer logged = log_in_bursts(note, sizeof note, layer, sizeof layer);
    add_file("a.txt", "log", &logged, layer);
    logged = log_in_bursts(voltage, sizeof voltage, layer, sizeof layer);
    add_file("a", "log", &logged, layer);

    static const uint8_t name[] = { 'r', 'a', 'c', 'k' };
    kd_answer small = kd_torrent_write(list, list_size, text, text_size, PIECE_LENGTH, name, sizeof name, torrent, 100);
    printf("into 100 bytes: %u, first byte %u\n", small.number, torrent[0]);
    kd_answer written = kd_torrent_write(list, list_size, text, text_size, PIECE_LENGTH, name, sizeof name, torrent,
                                         sizeof torrent);
    printf("written: %u, %llu bytes\n", written.number, (unsigned long long)written.count);
    if (written.number != KD_DONE || read_back(torrent, written.count) != 0)
        return 1;

    /* A path that climbs out is not written: the last element added was `log`. */
    memcpy(text + text_size - 3, "../", 3);
    kd_answer refused = kd_torrent_write(list, list_size, text, text_size, PIECE_LENGTH, name, sizeof name, torrent,
                                         sizeof torrent);
    printf("with a slash in a name: %u\n", refused.number);
    return 0;
}
