/*
 * Checks a folder against a v2 torrent: `check files.torrent folder` prints each file with what is wrong with it, and gives 0 only if every piece of
 * every file is there and right. It decides nothing itself: the torrent, each piece layer and each piece are judged by the library.
 */
#include <stdio.h>
#include <stdlib.h>
#include <string.h>

#include "kombudeva.h"

static const char *words(uint32_t number)
{
#define WORDS(n, name, text) case n: return text;
    switch (number) { KD_NUMBERS(WORDS) }
    return "?";
}

static uint8_t *read_all(const char *path, size_t *size)
{
    FILE *file = fopen(path, "rb");
    uint8_t *bytes = malloc(KD_LARGEST_TORRENT + 1);
    *size = file && bytes ? fread(bytes, 1, KD_LARGEST_TORRENT + 1, file) : 0;
    if (!file || !bytes)
        perror(path), exit(2);
    fclose(file);
    return bytes;
}

/* Every piece of an open file, by a store for it; a number other than KD_DONE is the first that was given. */
static uint32_t check_pieces(FILE *file, const uint8_t *torrent, kd_file facts, uint64_t piece_length)
{
    kd_answer answer = kd_store_size(facts.length, piece_length);
    size_t size = answer.count;
    uint8_t *store = malloc(size), *piece = malloc(piece_length + 1);
    if (!store || !piece)
        fputs("no memory\n", stderr), exit(2);
    answer = kd_open(store, size, facts.length, piece_length, facts.root);
    if (answer.number == KD_DONE && facts.layer_size > 0)
        answer = kd_load_layer(store, size, torrent + facts.layer_start, facts.layer_size);
    uint64_t pieces = (facts.length + piece_length - 1) / piece_length;
    for (uint64_t i = 0; answer.number == KD_DONE && i < pieces; i++) {
        /* The last piece is read with a byte more, if there is one: a file that is too long is of another size. */
        size_t got = fread(piece, 1, piece_length + (i + 1 == pieces), file);
        answer = kd_judge_piece(store, size, i, piece, got);
    }
    free(store);
    free(piece);
    return answer.number;
}

/* folder/element/element/..: the library has refused every element that would lead out of the folder. */
static char *path_in(const char *folder, const uint8_t *torrent, const uint8_t *list, uint64_t file)
{
    char *path = malloc(strlen(folder) + KD_LARGEST_TORRENT), *end = path + sprintf(path, "%s", folder);
    for (uint64_t i = 0; i < kd_listed_file(list, file).elements; i++) {
        kd_part part = kd_listed_path(list, file, i);
        end += sprintf(end, "/%.*s", (int)part.size, (const char *)torrent + part.start);
    }
    return path;
}

int main(int count, char **given)
{
    if (count != 3)
        return fputs("check files.torrent folder\n", stderr), 2;
    size_t size;
    uint8_t *torrent = read_all(given[1], &size);
    kd_torrent whole = kd_torrent_read(torrent, size);
    if (whole.number != KD_DONE)
        return printf("%s: %s\n", given[1], words(whole.number)), 1;
    uint8_t *list = malloc(KD_RECORD * whole.files);
    if (kd_torrent_list(torrent, size, list, KD_RECORD * whole.files).number != KD_DONE)
        return 2;
    int wrong = 0;
    for (uint64_t i = 0; i < whole.files; i++) {
        char *path = path_in(given[2], torrent, list, i);
        kd_file facts = kd_listed_file(list, i);
        FILE *file = fopen(path, "rb");
        /* An empty file has no store: nothing may stand in it. */
        uint32_t number = !file ? KD_NO_SUCH_PART
            : facts.length == 0 ? (fgetc(file) == EOF ? KD_DONE : KD_WRONG_SIZE)
                                : check_pieces(file, torrent, facts, whole.piece_length);
        printf("%s: %s\n", path, file ? words(number) : "missing");
        wrong += number != KD_DONE;
        if (file)
            fclose(file);
        free(path);
    }
    free(list);
    free(torrent);
    return wrong > 0;
}
