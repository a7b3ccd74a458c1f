/* What kd verify is measured against (host/kd/bench): a store for the torrent's one file, its layer loaded, and each piece read and
 * judged in a loop. */
#include <kombudeva.h>

#include <fcntl.h>
#include <stdio.h>
#include <stdlib.h>
#include <unistd.h>

static uint8_t torrent[KD_LARGEST_TORRENT];

int main(int count, char **arguments)
{
    if (count != 3)
        return 2;
    int from = open(arguments[1], O_RDONLY), data = open(arguments[2], O_RDONLY);
    ssize_t size = from < 0 ? -1 : read(from, torrent, sizeof torrent);
    if (size < 0 || data < 0)
        return 2;
    kd_torrent read_torrent = kd_torrent_read(torrent, size);
    kd_file file = kd_torrent_file(torrent, size, 0);
    kd_answer room = kd_store_size(file.length, read_torrent.piece_length);
    uint8_t *store = malloc(room.count), *piece = malloc(read_torrent.piece_length);
    if (file.number != KD_DONE || store == NULL || piece == NULL ||
        kd_open(store, room.count, file.length, read_torrent.piece_length, file.root).number != KD_DONE ||
        kd_load_layer(store, room.count, torrent + file.layer_start, file.layer_size).number != KD_DONE)
        return 2;
    uint64_t wrong = 0;
    for (uint64_t i = 0; i * read_torrent.piece_length < file.length; i++) {
        ssize_t got = pread(data, piece, read_torrent.piece_length, i * read_torrent.piece_length);
        wrong += got < 0 || kd_judge_piece(store, room.count, i, piece, got).number != KD_DONE;
    }
    printf("%llu wrong\n", (unsigned long long)wrong);
    return wrong != 0;
}
