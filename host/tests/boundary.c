/* The header as C sees it: it compiles without a warning, its structs have the sizes and offsets that the library was
 * built for, NULL with size 0 is safe for every parameter, calls whose every field is known come back right, no call
 * touches a byte outside the memories it was lent, and the limits by name are the library's. */
#define _DEFAULT_SOURCE
#include "kombudeva.h"

#include <stdio.h>
#include <stdlib.h>
#include <string.h>
#include <sys/mman.h>

_Static_assert(sizeof(kd_hash) == KD_HASH, "kd_hash");
_Static_assert(sizeof(kd_hashed) == 36, "kd_hashed");
_Static_assert(offsetof(kd_hashed, number) == 0, "kd_hashed.number");
_Static_assert(offsetof(kd_hashed, hash) == 4, "kd_hashed.hash");
_Static_assert(sizeof(kd_sha1_hash) == KD_SHA1, "kd_sha1_hash");
_Static_assert(sizeof(kd_sha1_answer) == 24, "kd_sha1_answer");
_Static_assert(offsetof(kd_sha1_answer, number) == 0, "kd_sha1_answer.number");
_Static_assert(offsetof(kd_sha1_answer, hash) == 4, "kd_sha1_answer.hash");
_Static_assert(sizeof(kd_answer) == 16, "kd_answer");
_Static_assert(offsetof(kd_answer, number) == 0, "kd_answer.number");
_Static_assert(offsetof(kd_answer, count) == 8, "kd_answer.count");
_Static_assert(sizeof(kd_torrent) == 56, "kd_torrent");
_Static_assert(offsetof(kd_torrent, number) == 0, "kd_torrent.number");
_Static_assert(offsetof(kd_torrent, info_hash) == 4, "kd_torrent.info_hash");
_Static_assert(offsetof(kd_torrent, piece_length) == 40, "kd_torrent.piece_length");
_Static_assert(offsetof(kd_torrent, files) == 48, "kd_torrent.files");
_Static_assert(sizeof(kd_file) == 72, "kd_file");
_Static_assert(offsetof(kd_file, number) == 0, "kd_file.number");
_Static_assert(offsetof(kd_file, length) == 8, "kd_file.length");
_Static_assert(offsetof(kd_file, root) == 16, "kd_file.root");
_Static_assert(offsetof(kd_file, elements) == 48, "kd_file.elements");
_Static_assert(offsetof(kd_file, layer_start) == 56, "kd_file.layer_start");
_Static_assert(offsetof(kd_file, layer_size) == 64, "kd_file.layer_size");
_Static_assert(sizeof(kd_part) == 24, "kd_part");
_Static_assert(offsetof(kd_part, number) == 0, "kd_part.number");
_Static_assert(offsetof(kd_part, start) == 8, "kd_part.start");
_Static_assert(offsetof(kd_part, size) == 16, "kd_part.size");

_Static_assert(sizeof(kd_hybrid) == 28, "kd_hybrid");
_Static_assert(offsetof(kd_hybrid, number) == 0, "kd_hybrid.number");
_Static_assert(offsetof(kd_hybrid, hybrid) == 4, "kd_hybrid.hybrid");
_Static_assert(offsetof(kd_hybrid, info_hash) == 8, "kd_hybrid.info_hash");
_Static_assert(sizeof(kd_v1_piece) == 32, "kd_v1_piece");
_Static_assert(offsetof(kd_v1_piece, number) == 0, "kd_v1_piece.number");
_Static_assert(offsetof(kd_v1_piece, hash) == 4, "kd_v1_piece.hash");
_Static_assert(offsetof(kd_v1_piece, zeros) == 24, "kd_v1_piece.zeros");
_Static_assert(sizeof(kd_v1_part) == 32, "kd_v1_part");
_Static_assert(offsetof(kd_v1_part, number) == 0, "kd_v1_part.number");
_Static_assert(offsetof(kd_v1_part, start) == 8, "kd_v1_part.start");
_Static_assert(offsetof(kd_v1_part, size) == 16, "kd_v1_part.size");
_Static_assert(offsetof(kd_v1_part, zeros) == 24, "kd_v1_part.zeros");

_Static_assert(sizeof(kd_facts_answer) == 56, "kd_facts_answer");
_Static_assert(offsetof(kd_facts_answer, length) == 8, "kd_facts_answer.length");
_Static_assert(offsetof(kd_facts_answer, piece_length) == 16, "kd_facts_answer.piece_length");
_Static_assert(offsetof(kd_facts_answer, root) == 24, "kd_facts_answer.root");
_Static_assert(sizeof(kd_placed) == 24, "kd_placed");
_Static_assert(offsetof(kd_placed, number) == 0, "kd_placed.number");
_Static_assert(offsetof(kd_placed, file) == 8, "kd_placed.file");
_Static_assert(offsetof(kd_placed, piece) == 16, "kd_placed.piece");

_Static_assert(sizeof(kd_request) == 76, "kd_request");
_Static_assert(offsetof(kd_request, number) == 0, "kd_request.number");
_Static_assert(offsetof(kd_request, asks) == 4, "kd_request.asks");
_Static_assert(offsetof(kd_request, base) == 8, "kd_request.base");
_Static_assert(offsetof(kd_request, index) == 12, "kd_request.index");
_Static_assert(offsetof(kd_request, length) == 16, "kd_request.length");
_Static_assert(offsetof(kd_request, proof) == 20, "kd_request.proof");
_Static_assert(offsetof(kd_request, message) == 24, "kd_request.message");
_Static_assert(sizeof(kd_choice) == 16, "kd_choice");
_Static_assert(offsetof(kd_choice, number) == 0, "kd_choice.number");
_Static_assert(offsetof(kd_choice, found) == 4, "kd_choice.found");
_Static_assert(offsetof(kd_choice, piece) == 8, "kd_choice.piece");

_Static_assert(sizeof(kd_repaired) == 24, "kd_repaired");
_Static_assert(offsetof(kd_repaired, number) == 0, "kd_repaired.number");
_Static_assert(offsetof(kd_repaired, dropped) == 8, "kd_repaired.dropped");
_Static_assert(offsetof(kd_repaired, held) == 16, "kd_repaired.held");

_Static_assert(sizeof(kd_hashing) == 112, "kd_hashing");
_Static_assert(offsetof(kd_hashing, words) == 0, "kd_hashing.words");
_Static_assert(offsetof(kd_hashing, tail) == 32, "kd_hashing.tail");
_Static_assert(offsetof(kd_hashing, tail_size) == 96, "kd_hashing.tail_size");
_Static_assert(offsetof(kd_hashing, total) == 104, "kd_hashing.total");
_Static_assert(sizeof(kd_hashing_answer) == 120, "kd_hashing_answer");
_Static_assert(offsetof(kd_hashing_answer, state) == 8, "kd_hashing_answer.state");
_Static_assert(sizeof(kd_history) == 128 + 32 * KD_NODES, "kd_history");
_Static_assert(offsetof(kd_history, piece_length) == 0, "kd_history.piece_length");
_Static_assert(offsetof(kd_history, length) == 8, "kd_history.length");
_Static_assert(offsetof(kd_history, block) == 16, "kd_history.block");
_Static_assert(offsetof(kd_history, nodes) == 128, "kd_history.nodes");
_Static_assert(sizeof(kd_history_answer) == 136 + 32 * KD_NODES, "kd_history_answer");
_Static_assert(offsetof(kd_history_answer, state) == 8, "kd_history_answer.state");
_Static_assert(sizeof(kd_history_end_answer) == 56, "kd_history_end_answer");
_Static_assert(offsetof(kd_history_end_answer, length) == 8, "kd_history_end_answer.length");
_Static_assert(offsetof(kd_history_end_answer, root) == 16, "kd_history_end_answer.root");
_Static_assert(offsetof(kd_history_end_answer, layer_size) == 48, "kd_history_end_answer.layer_size");

_Static_assert(sizeof(kd_stream) == 16, "kd_stream");
_Static_assert(offsetof(kd_stream, length) == 0, "kd_stream.length");
_Static_assert(offsetof(kd_stream, length_size) == 4, "kd_stream.length_size");
_Static_assert(offsetof(kd_stream, read) == 8, "kd_stream.read");
_Static_assert(offsetof(kd_stream, mode) == 12, "kd_stream.mode");
_Static_assert(sizeof(kd_heard) == 40, "kd_heard");
_Static_assert(offsetof(kd_heard, event) == 4, "kd_heard.event");
_Static_assert(offsetof(kd_heard, used) == 8, "kd_heard.used");
_Static_assert(offsetof(kd_heard, size) == 16, "kd_heard.size");
_Static_assert(offsetof(kd_heard, state) == 24, "kd_heard.state");

static unsigned passed, failed;

static void check(const char *what, int holds)
{
    if (holds) {
        passed++;
    } else {
        failed++;
        printf("FAILED: %s\n", what);
    }
}

static void answers(const char *what, kd_answer answer, uint32_t number, uint64_t count)
{
    int holds = answer.number == number && answer.count == count;
    check(what, holds);
    if (!holds)
        printf("  %u %llu\n", answer.number, (unsigned long long)answer.count);
}

static const kd_hash zero;

static int is_hashed(kd_hashed answer, uint32_t number, kd_hash hash)
{
    return answer.number == number && memcmp(&answer.hash, &hash, sizeof hash) == 0;
}

/* Bytes from the hexadecimal digits that the standard prints. */
static void put_digits(uint8_t *bytes, const char *digits)
{
    for (size_t i = 0; digits[i] != 0; i++) {
        uint8_t value = (uint8_t)(digits[i] <= '9' ? digits[i] - '0' : digits[i] - 'a' + 10);
        bytes[i / 2] = (uint8_t)(bytes[i / 2] << 4 | value);
    }
}

static kd_hash hash_of_digits(const char *digits)
{
    kd_hash hash = zero;
    put_digits(hash.bytes, digits);
    return hash;
}

static const kd_sha1_hash zero_v1;

static int is_sha1(kd_sha1_answer answer, uint32_t number, const char *digits)
{
    kd_sha1_hash hash = zero_v1;
    put_digits(hash.bytes, digits);
    return answer.number == number && memcmp(&answer.hash, &hash, sizeof hash) == 0;
}

static void hashes(void)
{
    kd_hash of_nothing = hash_of_digits("e3b0c44298fc1c149afbf4c8996fb92427ae41e4649b934ca495991b7852b855");
    kd_hash of_abc = hash_of_digits("ba7816bf8f01cfea414140de5dae2223b00361a396177a9cb410ff61f20015ad");
    check("kd_sha256 of NULL with size 0", is_hashed(kd_sha256(NULL, 0), KD_DONE, of_nothing));
    check("kd_sha256 of no bytes", is_hashed(kd_sha256((const uint8_t *)"abc", 0), KD_DONE, of_nothing));
    check("kd_sha256 of abc", is_hashed(kd_sha256((const uint8_t *)"abc", 3), KD_DONE, of_abc));
    /* No memory is that long. The call is tried all the same, since the size alone decides and no byte is read. */
    check("kd_sha256 of 2^61 bytes",
            is_hashed(kd_sha256((const uint8_t *)"abc", (size_t)1 << 61), KD_WRONG_SIZE, zero));
    check("kd_sha1 of NULL with size 0", is_sha1(kd_sha1(NULL, 0), KD_DONE, "da39a3ee5e6b4b0d3255bfef95601890afd80709"));
    check("kd_sha1 of no bytes",
            is_sha1(kd_sha1((const uint8_t *)"abc", 0), KD_DONE, "da39a3ee5e6b4b0d3255bfef95601890afd80709"));
    check("kd_sha1 of abc",
            is_sha1(kd_sha1((const uint8_t *)"abc", 3), KD_DONE, "a9993e364706816aba3e25717850c26c9cd0d89d"));
    check("kd_sha1 of 2^61 bytes", is_sha1(kd_sha1((const uint8_t *)"abc", (size_t)1 << 61), KD_WRONG_SIZE, ""));
}

/* The file of the session in document 01: five blocks, so a tree of height 3, in pieces of four blocks. */
enum { BLOCK = KD_BLOCK, LENGTH = 5 * BLOCK, PIECE = 4 * BLOCK, HEIGHT = 3 };
enum { STORE = 33 * 15 + 64 + 8, HEAD = 49, ROOM = 320 };
enum { REQUEST = KD_HASH_REQUEST, HASHES = KD_HASHES, REJECT = KD_HASH_REJECT };

static uint8_t file[LENGTH];
/* tree[layer][index], made below by kd_sha256. */
static kd_hash tree[HEIGHT + 1][8];
static uint8_t store[STORE];

/* Its pieces root, by another program: python3 -c and hashlib over the same bytes, (i*7 + i/251) mod 256. host/reference
 * gives the same (tree::root_of_file). */
#define ROOT "bf4e89cade8270cc7692de6d6ac11bde9697f70d0afe7ecf54cdf95d677e74b3"

static kd_hash root(void) { return tree[HEIGHT][0]; }

static void make_tree(void)
{
    for (size_t i = 0; i < LENGTH; i++)
        file[i] = (uint8_t)(i * 7 + i / 251);
    for (size_t block = 0; block < LENGTH / BLOCK; block++)
        tree[0][block] = kd_sha256(file + block * BLOCK, BLOCK).hash;
    for (int layer = 0; layer < HEIGHT; layer++)
        for (int pair = 0; pair < 1 << (HEIGHT - layer - 1); pair++)
            tree[layer + 1][pair] = kd_sha256(tree[layer][2 * pair].bytes, 64).hash;
    check("the tree by kd_sha256 has the root by hashlib", memcmp(root().bytes, hash_of_digits(ROOT).bytes, 32) == 0);
}

/* abc in bursts, refusals that hand back the state, and NULL. */
static void bursts(void)
{
    kd_hashing state = kd_hashing_begin();
    kd_hash of_nothing = hash_of_digits("e3b0c44298fc1c149afbf4c8996fb92427ae41e4649b934ca495991b7852b855");
    kd_hash of_abc = hash_of_digits("ba7816bf8f01cfea414140de5dae2223b00361a396177a9cb410ff61f20015ad");
    check("kd_hashing_end of no bytes", is_hashed(kd_hashing_end(state), 0, of_nothing));
    kd_hashing_answer answer = kd_hashing_more(state, NULL, 0);
    check("kd_hashing_more of NULL", answer.number == 0 && memcmp(&answer.state, &state, sizeof state) == 0);
    state = kd_hashing_more(state, (const uint8_t *)"a", 1).state;
    state = kd_hashing_more(state, (const uint8_t *)"bc", 2).state;
    check("kd_hashing_end of abc in bursts", state.total == 3 && is_hashed(kd_hashing_end(state), 0, of_abc));
    state.tail_size = 4;
    answer = kd_hashing_more(state, (const uint8_t *)"d", 1);
    check("counts that no bursts give", answer.number == 9 && memcmp(&answer.state, &state, sizeof state) == 0);
    check("kd_hashing_end of such counts", is_hashed(kd_hashing_end(state), 9, zero));
    state.tail_size = 3;
    /* The size alone decides, and no byte is read. */
    answer = kd_hashing_more(state, (const uint8_t *)"d", ((size_t)1 << 61) - 3);
    check("a burst past 2^61 - 1", answer.number == 4 && memcmp(&answer.state, &state, sizeof state) == 0);
}

/* The file of five blocks in bursts: its root and its layer of two hashes are those of the tree. */
static void logged(void)
{
    uint8_t layer[2 * 32 + 1];
    memset(layer, 0xaa, sizeof layer);
    kd_history_answer begun = kd_history_begin(PIECE);
    check("kd_history_begin", begun.number == 0 && begun.state.piece_length == PIECE && begun.state.length == 0);
    kd_history_answer bad = kd_history_begin(PIECE + 1);
    kd_history none;
    memset(&none, 0, sizeof none);
    check("a bad piece length", bad.number == 10 && memcmp(&bad.state, &none, sizeof none) == 0);
    kd_history_end_answer end = kd_history_end(begun.state, NULL, 0);
    check("an empty history", end.number == 0 && end.length == 0 && memcmp(&end.root, &zero, 32) == 0 &&
                                  end.layer_size == 0);
    kd_history state = begun.state;
    for (size_t at = 0; at < LENGTH; at += 1000) {
        size_t size = LENGTH - at < 1000 ? LENGTH - at : 1000;
        kd_history_answer answer = kd_history_more(state, file + at, size, layer, sizeof layer);
        if (answer.number != 0)
            check("kd_history_more", 0);
        state = answer.state;
    }
    check("the first piece is written", memcmp(layer, tree[2][0].bytes, 32) == 0 && layer[32] == 0xaa);
    end = kd_history_end(state, layer, 63);
    check("an end without room", end.number == 11 && end.length == 0 && memcmp(&end.root, &zero, 32) == 0 &&
                                     end.layer_size == 0 && layer[32] == 0xaa);
    end = kd_history_end(state, layer, sizeof layer);
    check("N, root and layer", end.number == 0 && end.length == LENGTH && memcmp(&end.root, root().bytes, 32) == 0 &&
                                   end.layer_size == 64);
    check("the layer", memcmp(layer, tree[2][0].bytes, 64) == 0 && layer[64] == 0xaa);
    kd_history_answer refused = kd_history_more(begun.state, file, LENGTH, NULL, 0);
    check("a burst without room", refused.number == 11 && memcmp(&refused.state, &begun.state, sizeof state) == 0);
    refused = kd_history_more(state, file, KD_LONGEST_FILE - LENGTH + 1, layer, sizeof layer);
    check("a burst past the longest file", refused.number == 10 && memcmp(&refused.state, &state, sizeof state) == 0);
    refused = kd_history_more(none, NULL, 0, NULL, 0);
    check("zero bytes as a state", refused.number == 9 && memcmp(&refused.state, &none, sizeof none) == 0);
    check("their end", kd_history_end(none, NULL, 0).number == 9);
}

/* The 49 bytes of a message about the file; the words that matter here are below 256. */
static void write_head(uint8_t *message, uint8_t id, uint8_t base, uint8_t index, uint8_t length, uint8_t proof)
{
    memset(message, 0, HEAD);
    message[0] = id;
    memcpy(message + 1, root().bytes, 32);
    message[36] = base;
    message[40] = index;
    message[44] = length;
    message[48] = proof;
}

/* The true message (0,0,4,1): the first four leaves, anchor in layer 2. Its size. */
static size_t first_leaves(uint8_t *message)
{
    write_head(message, HASHES, 0, 0, 4, 1);
    memcpy(message + HEAD, tree[0], 4 * 32);
    return HEAD + 4 * 32;
}

/* The true message (2,0,2,0): both hashes of layer 2, anchor the root. Its size. */
static size_t upper_hashes(uint8_t *message)
{
    write_head(message, HASHES, 2, 0, 2, 0);
    memcpy(message + HEAD, tree[2], 2 * 32);
    return HEAD + 2 * 32;
}

static void stores(void)
{
    uint8_t larger[STORE + 1];
    memset(larger, 0xaa, sizeof larger);
    answers("kd_store_size", kd_store_size(LENGTH, PIECE), KD_DONE, STORE);
    answers("kd_store_size of no bytes", kd_store_size(0, PIECE), KD_FACTS_OUT_OF_RANGE, 0);
    answers("kd_store_size of a piece length beyond 32 bits",
            kd_store_size(1, ((uint64_t)1 << 32) + BLOCK), KD_FACTS_OUT_OF_RANGE, 0);
    answers("kd_open of NULL", kd_open(NULL, 0, LENGTH, PIECE, root()), KD_UNUSABLE, 0);
    answers("kd_open of NULL with facts out of range", kd_open(NULL, 0, 0, PIECE, root()), KD_FACTS_OUT_OF_RANGE, 0);
    answers("kd_open with a byte too few", kd_open(larger, STORE - 1, LENGTH, PIECE, root()), KD_UNUSABLE, 0);
    check("a refused opening changes nothing", larger[0] == 0xaa);
    answers("kd_open", kd_open(larger, sizeof larger, LENGTH, PIECE, root()), KD_DONE, 1);
    check("the byte behind a store stays", larger[STORE] == 0xaa && larger[STORE - 1] == 0);
    answers("kd_open in just the room", kd_open(store, STORE, LENGTH, PIECE, root()), KD_DONE, 1);
    check("kd_held of NULL", is_hashed(kd_held(NULL, 0, 0, 0), KD_UNUSABLE, zero));
    check("kd_held of the root", is_hashed(kd_held(store, STORE, HEIGHT, 0), KD_DONE, root()));
    check("kd_held of a leaf", is_hashed(kd_held(store, STORE, 0, 4), KD_NO_ANCHOR, zero));
    check("kd_held above the root", is_hashed(kd_held(store, STORE, HEIGHT + 1, 0), KD_RULE_BROKEN, zero));
    check("kd_held past a layer", is_hashed(kd_held(store, STORE, 0, 8), KD_RULE_BROKEN, zero));
}

/* The session of document 01, then what is held. */
static void session(void)
{
    uint8_t leaves[ROOM], upper[ROOM], damaged[ROOM];
    size_t leaves_size = first_leaves(leaves), upper_size = upper_hashes(upper);
    answers("open", kd_open(store, STORE, LENGTH, PIECE, root()), KD_DONE, 1);
    answers("the leaves before their anchor", kd_take(store, STORE, leaves, leaves_size), KD_NO_ANCHOR, 0);
    memcpy(damaged, upper, upper_size);
    damaged[upper_size - 1] ^= 1;
    answers("a damaged layer 2", kd_take(store, STORE, damaged, upper_size), KD_DIFFERS, 0);
    answers("layer 2", kd_take(store, STORE, upper, upper_size), KD_DONE, 2);
    answers("the leaves", kd_take(store, STORE, leaves, leaves_size), KD_DONE, 6);
    answers("the leaves again", kd_take(store, STORE, leaves, leaves_size), KD_DONE, 0);
    for (uint64_t index = 0; index < 4; index++)
        check("a leaf is held", is_hashed(kd_held(store, STORE, 0, index), KD_DONE, tree[0][index]));
    check("the fifth leaf is not held", is_hashed(kd_held(store, STORE, 0, 4), KD_NO_ANCHOR, zero));
    answers("kd_take on NULL", kd_take(NULL, 0, leaves, leaves_size), KD_UNUSABLE, 0);
    answers("kd_take of NULL", kd_take(store, STORE, NULL, 0), KD_NO_MESSAGE, 0);
    answers("kd_take of NULL on NULL", kd_take(NULL, 0, NULL, 0), KD_UNUSABLE, 0);
}

static void rejects(void)
{
    uint8_t reject[HEAD];
    write_head(reject, REJECT, 0, 4, 4, 2);
    answers("kd_take_reject", kd_take_reject(store, STORE, reject, HEAD), KD_DONE, 0);
    answers("kd_take_reject on NULL", kd_take_reject(NULL, 0, reject, HEAD), KD_UNUSABLE, 0);
    answers("kd_take_reject of NULL", kd_take_reject(store, STORE, NULL, 0), KD_NO_MESSAGE, 0);
    answers("kd_take_reject of NULL on NULL", kd_take_reject(NULL, 0, NULL, 0), KD_UNUSABLE, 0);
    reject[1] ^= 1;
    answers("a reject about another file", kd_take_reject(store, STORE, reject, HEAD), KD_OTHER_ROOT, 0);
}

static int all_are(const uint8_t *bytes, size_t size, uint8_t value)
{
    for (size_t i = 0; i < size; i++)
        if (bytes[i] != value)
            return 0;
    return 1;
}

/* On the store that the session left: the first four leaves and layer 2 are held. */
static void serving(void)
{
    uint8_t request[HEAD], reject[HEAD], reply[ROOM], out[ROOM];
    size_t size = first_leaves(reply);
    write_head(request, REQUEST, 0, 0, 4, 1);
    memset(out, 0xaa, ROOM);
    answers("a reply without room", kd_serve(store, STORE, request, HEAD, out, size - 1), KD_NO_ROOM, 0);
    answers("a reply into NULL", kd_serve(store, STORE, request, HEAD, NULL, 0), KD_NO_ROOM, 0);
    check("without room nothing is written", all_are(out, ROOM, 0xaa));
    answers("a reply", kd_serve(store, STORE, request, HEAD, out, ROOM), KD_DONE, size);
    check("it is the message that was taken", memcmp(out, reply, size) == 0 && all_are(out + size, ROOM - size, 0xaa));

    write_head(request, REQUEST, 0, 4, 4, 2);
    write_head(reject, REJECT, 0, 4, 4, 2);
    memset(out, 0xaa, ROOM);
    answers("a reject without room", kd_serve(store, STORE, request, HEAD, out, HEAD - 1), KD_NO_ROOM, 0);
    check("without room no reject is written", all_are(out, ROOM, 0xaa));
    answers("a reject", kd_serve(store, STORE, request, HEAD, out, ROOM), KD_NOT_HELD, HEAD);
    check("it has the request's 48 bytes", memcmp(out, reject, HEAD) == 0 && all_are(out + HEAD, ROOM - HEAD, 0xaa));

    answers("kd_serve of NULL", kd_serve(store, STORE, NULL, 0, out, ROOM), KD_NO_MESSAGE, 0);
    answers("kd_serve on NULL", kd_serve(NULL, 0, request, HEAD, out, ROOM), KD_UNUSABLE, 0);
    answers("kd_serve with NULL everywhere", kd_serve(NULL, 0, NULL, 0, NULL, 0), KD_UNUSABLE, 0);
}

static void layers(void)
{
    uint8_t fresh[STORE], damaged[64];
    memcpy(damaged, tree[2], sizeof damaged);
    damaged[63] ^= 1;
    answers("kd_open of a fresh store", kd_open(fresh, STORE, LENGTH, PIECE, root()), KD_DONE, 1);
    answers("a damaged layer", kd_load_layer(fresh, STORE, damaged, 64), KD_DIFFERS, 0);
    answers("half a layer", kd_load_layer(fresh, STORE, tree[2][0].bytes, 32), KD_WRONG_SIZE, 0);
    answers("kd_load_layer of NULL", kd_load_layer(fresh, STORE, NULL, 0), KD_WRONG_SIZE, 0);
    answers("kd_load_layer", kd_load_layer(fresh, STORE, tree[2][0].bytes, 64), KD_DONE, 2);
    answers("the layer again", kd_load_layer(fresh, STORE, tree[2][0].bytes, 64), KD_DONE, 0);
    answers("kd_load_layer on NULL", kd_load_layer(NULL, 0, tree[2][0].bytes, 64), KD_UNUSABLE, 0);
    answers("kd_load_layer of NULL on NULL", kd_load_layer(NULL, 0, NULL, 0), KD_UNUSABLE, 0);
    check("layer 2 is held", is_hashed(kd_held(fresh, STORE, 2, 1), KD_DONE, tree[2][1]));
    check("layer 1 is not", is_hashed(kd_held(fresh, STORE, 1, 0), KD_NO_ANCHOR, zero));
}

/* On the store that the session left. */
static void blocks(void)
{
    answers("a block", kd_judge_block(store, STORE, 3, file + 3 * BLOCK, BLOCK), KD_DONE, 0);
    answers("another block's bytes", kd_judge_block(store, STORE, 3, file + 2 * BLOCK, BLOCK), KD_DIFFERS, 0);
    answers("a block of another size", kd_judge_block(store, STORE, 3, file + 3 * BLOCK, BLOCK - 1), KD_WRONG_SIZE, 0);
    answers("a block whose leaf is not held",
            kd_judge_block(store, STORE, 4, file + 4 * BLOCK, BLOCK), KD_NO_ANCHOR, 0);
    answers("a block past the file", kd_judge_block(store, STORE, 5, file, BLOCK), KD_RULE_BROKEN, 0);
    answers("a block whose offset has no 64 bits",
            kd_judge_block(store, STORE, (uint64_t)1 << 60, file, BLOCK), KD_RULE_BROKEN, 0);
    answers("kd_judge_block of NULL", kd_judge_block(store, STORE, 0, NULL, 0), KD_WRONG_SIZE, 0);
    answers("kd_judge_block on NULL", kd_judge_block(NULL, 0, 0, file, BLOCK), KD_UNUSABLE, 0);
    answers("kd_judge_block of NULL on NULL", kd_judge_block(NULL, 0, 0, NULL, 0), KD_UNUSABLE, 0);
}

static void pieces(void)
{
    answers("a piece", kd_judge_piece(store, STORE, 0, file, PIECE), KD_DONE, 0);
    answers("the last, shorter piece", kd_judge_piece(store, STORE, 1, file + PIECE, LENGTH - PIECE), KD_DONE, 0);
    file[PIECE - 1] ^= 1;
    answers("a damaged piece", kd_judge_piece(store, STORE, 0, file, PIECE), KD_DIFFERS, 0);
    file[PIECE - 1] ^= 1;
    answers("a last piece that is filled up", kd_judge_piece(store, STORE, 1, file, PIECE), KD_WRONG_SIZE, 0);
    answers("a piece past the file", kd_judge_piece(store, STORE, 2, file, PIECE), KD_RULE_BROKEN, 0);
    answers("kd_judge_piece of NULL", kd_judge_piece(store, STORE, 0, NULL, 0), KD_WRONG_SIZE, 0);
    answers("kd_judge_piece on NULL", kd_judge_piece(NULL, 0, 0, file, PIECE), KD_UNUSABLE, 0);
    answers("kd_judge_piece of NULL on NULL", kd_judge_piece(NULL, 0, 0, NULL, 0), KD_UNUSABLE, 0);
}

/* A copy of some bytes that ends where a page begins that may not be touched: one byte read or written behind it ends
 * the program. */
static uint8_t *guarded(const void *bytes, size_t size)
{
    enum { PAGE = 65536 };
    size_t room = (size + PAGE - 1) / PAGE * PAGE;
    uint8_t *pages = mmap(NULL, room + PAGE, PROT_READ | PROT_WRITE, MAP_PRIVATE | MAP_ANONYMOUS, -1, 0);
    if (pages == MAP_FAILED || mprotect(pages + room, PAGE, PROT_NONE) != 0)
        exit(2);
    return memcpy(pages + room - size, bytes, size);
}

/* The leaves of both pieces, as the messages that teach them. The last piece has one block, and is filled up to four leaves. */
static void piece_hashes(void)
{
    enum { SIZE = HEAD + 4 * 32 };
    uint8_t fresh[STORE], before[STORE], out[ROOM];
    kd_answer none;
    answers("kd_open of another fresh store", kd_open(fresh, STORE, LENGTH, PIECE, root()), KD_DONE, 1);
    answers("a piece whose node is not held",
            kd_piece_hashes(fresh, STORE, 0, file, PIECE, out, ROOM), KD_NO_ANCHOR, 0);
    answers("the layer over the pieces", kd_load_layer(fresh, STORE, tree[2][0].bytes, 64), KD_DONE, 2);
    memcpy(before, fresh, STORE);
    memset(out, 0xaa, ROOM);
    answers("a piece's hashes without room",
            kd_piece_hashes(fresh, STORE, 0, file, PIECE, out, SIZE - 1), KD_NO_ROOM, 0);
    answers("a piece's hashes into NULL", kd_piece_hashes(fresh, STORE, 0, file, PIECE, NULL, 0), KD_NO_ROOM, 0);
    answers("another piece's bytes", kd_piece_hashes(fresh, STORE, 0, file + 1, PIECE, out, ROOM), KD_DIFFERS, 0);
    answers("the hashes of a piece past the file",
            kd_piece_hashes(fresh, STORE, 2, file, PIECE, out, ROOM), KD_RULE_BROKEN, 0);
    answers("kd_piece_hashes of NULL", kd_piece_hashes(fresh, STORE, 0, NULL, 0, out, ROOM), KD_WRONG_SIZE, 0);
    answers("kd_piece_hashes on NULL", kd_piece_hashes(NULL, 0, 0, file, PIECE, out, ROOM), KD_UNUSABLE, 0);
    none = kd_piece_hashes(NULL, 0, 0, NULL, 0, NULL, 0);
    answers("kd_piece_hashes with NULL everywhere", none, KD_UNUSABLE, 0);
    check("refusals write nothing", all_are(out, ROOM, 0xaa));
    answers("kd_piece_hashes",
            kd_piece_hashes(fresh, STORE, 1, file + PIECE, LENGTH - PIECE, out, ROOM), KD_DONE, SIZE);
    check("the last piece's block and its padding",
            memcmp(out + HEAD, tree[0][4].bytes, 4 * 32) == 0 && all_are(out + SIZE, ROOM - SIZE, 0xaa));
    check("the store is only read", memcmp(fresh, before, STORE) == 0);
    answers("they are taken", kd_take(fresh, STORE, out, SIZE), KD_DONE, 6);
    answers("the first piece's hashes", kd_piece_hashes(fresh, STORE, 0, file, PIECE, out, SIZE), KD_DONE, SIZE);
    answers("they are taken too", kd_take(fresh, STORE, out, SIZE), KD_DONE, 6);
    check("all leaves are held", is_hashed(kd_held(fresh, STORE, 0, 3), KD_DONE, tree[0][3]) &&
                                     kd_next_request(fresh, STORE, 0).asks == 0);
}

/* Both pieces, of four blocks and of one, were judged right on this store. */
static void marks(void)
{
    static const uint8_t all[8] = { 1, 1, 1, 1, 1, 0, 0, 0 };
    uint8_t field[2] = { 0xaa, 0xaa };
    check("the mark of every block", memcmp(store + STORE - 8, all, 8) == 0);
    answers("a bitfield without room", kd_bitfield(store, STORE, NULL, 0), KD_NO_ROOM, 0);
    answers("kd_bitfield on NULL", kd_bitfield(NULL, 0, field, 2), KD_UNUSABLE, 0);
    answers("kd_bitfield", kd_bitfield(store, STORE, field, 2), KD_DONE, 1);
    check("the first piece in the high bit, the byte behind stays", field[0] == 0xc0 && field[1] == 0xaa);
    answers("a marked block", kd_marked(store, STORE, 3), KD_DONE, 1);
    answers("kd_clear", kd_clear(store, STORE, 3), KD_DONE, 0);
    answers("kd_clear of a clear block", kd_clear(store, STORE, 3), KD_DONE, 0);
    answers("a cleared block", kd_marked(store, STORE, 3), KD_DONE, 0);
    answers("a mark past the file", kd_marked(store, STORE, 5), KD_RULE_BROKEN, 0);
    answers("kd_clear past the file", kd_clear(store, STORE, 5), KD_RULE_BROKEN, 0);
    answers("kd_marked on NULL", kd_marked(NULL, 0, 0), KD_UNUSABLE, 0);
    answers("kd_clear on NULL", kd_clear(NULL, 0, 0), KD_UNUSABLE, 0);
    answers("guarded kd_bitfield", kd_bitfield(guarded(store, STORE), STORE, field, 1), KD_DONE, 1);
    check("a piece with a cleared block", field[0] == 0x40);
}

/* A request with these words and their 49 bytes; or, beside a refusal and for nothing to ask, nothing but the number. */
static void asks(const char *what, kd_request answer, uint32_t number, const uint32_t words[4])
{
    uint8_t message[HEAD] = { 0 };
    static const uint32_t none[4];
    if (words)
        write_head(message, REQUEST, words[0], words[1], words[2], words[3]);
    const uint32_t *expected = words ? words : none;
    check(what, answer.number == number && answer.asks == (words != NULL) && answer.base == expected[0] &&
            answer.index == expected[1] && answer.length == expected[2] && answer.proof == expected[3] &&
            memcmp(answer.message, message, HEAD) == 0);
}

static void picks(const char *what, kd_choice answer, uint32_t number, uint32_t found, uint64_t piece)
{
    check(what, answer.number == number && answer.found == found && answer.piece == piece);
}

/* On the store that the session left: the first four leaves and layer 2 are held, block 3's mark was cleared. */
static void asking(void)
{
    static const uint32_t all_leaves[4] = { 0, 0, 8, 0 };
    static const uint32_t counts[3] = { 2, 1, 1 }, nowhere[2] = { 0, 9 };
    uint8_t fresh[STORE], reply[ROOM];
    asks("the next request for leaves", kd_next_request(store, STORE, 0), KD_DONE, all_leaves);
    asks("nothing to ask", kd_next_request(store, STORE, 2), KD_DONE, NULL);
    asks("another layer", kd_next_request(store, STORE, 1), KD_RULE_BROKEN, NULL);
    asks("a layer of 64 bits", kd_next_request(store, STORE, (uint64_t)1 << 32), KD_RULE_BROKEN, NULL);
    asks("kd_next_request on NULL", kd_next_request(NULL, 0, 0), KD_UNUSABLE, NULL);
    asks("guarded kd_next_request", kd_next_request(guarded(store, STORE), STORE, 0), KD_DONE, all_leaves);
    answers("kd_open of a fresh store", kd_open(fresh, STORE, LENGTH, PIECE, root()), KD_DONE, 1);
    kd_request upper = kd_next_request(fresh, STORE, 2);
    answers("a request that was named is served", kd_serve(store, STORE, upper.message, HEAD, reply, ROOM), KD_DONE, HEAD + 64);
    answers("and its reply taken", kd_take(fresh, STORE, reply, HEAD + 64), KD_DONE, 2);
    asks("then there is nothing to ask", kd_next_request(fresh, STORE, 2), KD_DONE, NULL);
    fresh[64] = 0;
    asks("no root", kd_next_request(fresh, STORE, 0), KD_NO_ANCHOR, NULL);

    picks("the piece that is not on disk", kd_pick_piece(store, STORE, counts, 2), KD_DONE, 1, 0);
    picks("nothing to fetch", kd_pick_piece(store, STORE, nowhere, 2), KD_DONE, 0, 0);
    picks("the rarer piece", kd_pick_piece(fresh, STORE, counts, 2), KD_DONE, 1, 1);
    picks("a count too many", kd_pick_piece(store, STORE, counts, 3), KD_WRONG_SIZE, 0, 0);
    picks("counts from NULL", kd_pick_piece(store, STORE, NULL, 0), KD_WRONG_SIZE, 0, 0);
    picks("kd_pick_piece on NULL", kd_pick_piece(NULL, 0, counts, 2), KD_UNUSABLE, 0, 0);
    picks("kd_pick_piece of NULL on NULL", kd_pick_piece(NULL, 0, NULL, 0), KD_UNUSABLE, 0, 0);
    picks("guarded kd_pick_piece",
            kd_pick_piece(guarded(store, STORE), STORE, (const uint32_t *)(const void *)guarded(counts, 8), 2), KD_DONE, 1, 0);
}

static void repairs(const char *what, kd_repaired answer, uint32_t number, uint64_t dropped, uint64_t held)
{
    int holds = answer.number == number && answer.dropped == dropped && answer.held == held;
    check(what, holds);
    if (!holds)
        printf("  %u %llu %llu\n", answer.number, (unsigned long long)answer.dropped, (unsigned long long)answer.held);
}

/* The store with all positions held but those below one, and four marks, saved and loaded into another memory. */
static void saves(void)
{
    uint8_t save[2 * STORE], again[STORE + 1], other[STORE];
    uint64_t held = 0;
    for (uint64_t layer = 0; layer <= HEIGHT; layer++)
        for (uint64_t index = 0; index < 8u >> layer; index++)
            held += kd_held(store, STORE, layer, index).number == KD_DONE;
    size_t size = (size_t)(50 + 41 * held + 5 * 4);
    memset(save, 0x55, sizeof save);
    answers("kd_save on NULL", kd_save(NULL, 0, NULL, 0), KD_UNUSABLE, 0);
    answers("kd_save into NULL", kd_save(store, STORE, NULL, 0), KD_NO_ROOM, 0);
    answers("kd_save without room", kd_save(store, STORE, save, size - 1), KD_NO_ROOM, 0);
    check("nothing saved without room", save[0] == 0x55 && save[size - 2] == 0x55);
    answers("kd_save", kd_save(store, STORE, save, sizeof save), KD_DONE, size);
    check("the kinds, the count of marks, the byte behind",
            save[0] == 1 && save[45] == 2 && save[size - 10] == 3 && save[size - 5] == 4 && save[size - 1] == 4 && save[size] == 0x55);
    memset(again, 0xaa, sizeof again);
    answers("kd_load of NULL", kd_load(again, sizeof again, NULL, 0), KD_NOT_SAVED, 0);
    answers("kd_load into NULL", kd_load(NULL, 0, save, size), KD_UNUSABLE, 0);
    answers("a save cut short", kd_load(again, sizeof again, save, size - 1), KD_NOT_SAVED, 0);
    answers("guarded kd_load", kd_load(guarded(again, STORE), STORE, guarded(save, size), size), KD_DONE, held);
    answers("kd_load", kd_load(again, sizeof again, save, size), KD_DONE, held);
    check("a load gives the store back, and leaves the byte behind", memcmp(again, store, STORE) == 0 && again[STORE] == 0xaa);
    answers("saved again", kd_save(again, STORE, guarded(save, size), size), KD_DONE, size);
    memset(other, 0xaa, sizeof other);
    repairs("kd_repair of NULL", kd_repair(other, STORE, NULL, 0), KD_NOT_SAVED, 0, 0);
    repairs("kd_repair into NULL", kd_repair(NULL, 0, save, size), KD_UNUSABLE, 0, 0);
    save[45 + 9] ^= 1; /* the first position's hash */
    answers("a hash that does not chain", kd_load(other, STORE, save, size), KD_NOT_SAVED, 0);
    check("a refused load changes nothing", other[0] == 0xaa && other[STORE - 1] == 0xaa);
    repairs("kd_repair", kd_repair(other, STORE, save, size), KD_DONE, 2, held - 2);
    check("a repair clears all marks", kd_marked(other, STORE, 0).count == 0 && kd_marked(store, STORE, 0).count == 1);
    save[1] = 0x80;
    answers("facts out of range", kd_load(other, STORE, save, size), KD_FACTS_OUT_OF_RANGE, 0);
    save[0] = 2;
    repairs("no opening", kd_repair(other, STORE, save, size), KD_NOT_SAVED, 0, 0);
    answers("a store is no save", kd_load(other, STORE, store, STORE), KD_NOT_SAVED, 0);
}

/* On the same store. Of three blocks yesterday (1, 0) and leaf 2 are needed, of four (2, 0); leaf 4 is not held. */
static void younger(void)
{
    uint8_t before[STORE], full[STORE], reply[ROOM], other[BLOCK], nodes[3 * 64];
    kd_history state = kd_history_begin(BLOCK).state;
    kd_hash none = zero, one, three, part;
    state = kd_history_more(state, file, BLOCK - 1, nodes, sizeof nodes).state;
    one = kd_history_end(state, nodes, sizeof nodes).root;
    state = kd_history_more(state, file + BLOCK - 1, 2 * BLOCK + 1, nodes, sizeof nodes).state;
    three = kd_history_end(state, nodes, sizeof nodes).root;
    state = kd_history_more(state, file + 3 * BLOCK, 9, nodes, sizeof nodes).state;
    part = kd_history_end(state, nodes, sizeof nodes).root;
    memcpy(before, store, STORE);
    answers("three blocks yesterday", kd_extends(store, STORE, 3 * BLOCK, three, NULL, 0), KD_DONE, 3 * BLOCK);
    answers("four", kd_extends(store, STORE, 4 * BLOCK, tree[2][0], NULL, 0), KD_DONE, 4 * BLOCK);
    answers("three and nine bytes", kd_extends(store, STORE, 3 * BLOCK + 9, part, file + 3 * BLOCK, BLOCK), KD_DONE, 3 * BLOCK + 9);
    answers("less than a block", kd_extends(store, STORE, BLOCK - 1, one, file, BLOCK), KD_DONE, BLOCK - 1);
    answers("another history", kd_extends(store, STORE, 3 * BLOCK, none, NULL, 0), KD_DIFFERS, 0);
    memcpy(other, file + 3 * BLOCK, BLOCK);
    other[9] ^= 1;
    answers("a byte behind the earlier end changed", kd_extends(store, STORE, 3 * BLOCK + 9, part, other, BLOCK), KD_DIFFERS, 0);
    answers("leaf 4 is not held", kd_extends(store, STORE, LENGTH, root(), NULL, 0), KD_NO_ANCHOR, 0);
    answers("nor is it for a part of it", kd_extends(store, STORE, 4 * BLOCK + 1, none, other, BLOCK), KD_NO_ANCHOR, 0);
    answers("the beginning alone", kd_extends(store, STORE, 3 * BLOCK + 9, part, file + 3 * BLOCK, 9), KD_WRONG_SIZE, 0);
    answers("a block where none is due", kd_extends(store, STORE, 3 * BLOCK, three, file, BLOCK), KD_WRONG_SIZE, 0);
    answers("no block where one is due", kd_extends(store, STORE, 1, one, NULL, 0), KD_WRONG_SIZE, 0);
    answers("nothing yesterday", kd_extends(store, STORE, 0, none, NULL, 0), KD_RULE_BROKEN, 0);
    answers("more yesterday", kd_extends(store, STORE, LENGTH + 1, none, NULL, 0), KD_RULE_BROKEN, 0);
    answers("2^64 - 1 bytes yesterday", kd_extends(store, STORE, UINT64_MAX, none, NULL, 0), KD_RULE_BROKEN, 0);
    answers("kd_extends on NULL", kd_extends(NULL, 0, 1, none, NULL, 0), KD_UNUSABLE, 0);
    check("kd_extends writes nothing", memcmp(before, store, STORE) == 0);
    answers("guarded kd_extends", kd_extends(guarded(store, STORE), STORE, 3 * BLOCK + 9, part, guarded(file + 3 * BLOCK, BLOCK), BLOCK),
            KD_DONE, 3 * BLOCK + 9);
    /* With all leaves held the file is the same as itself. */
    answers("another store", kd_open(full, STORE, LENGTH, PIECE, root()), KD_DONE, 1);
    write_head(reply, HASHES, 0, 0, 8, 0);
    memcpy(reply + HEAD, tree[0], 8 * 32);
    answers("all leaves", kd_take(full, STORE, reply, HEAD + 8 * 32), KD_DONE, 14);
    answers("the same", kd_extends(full, STORE, LENGTH, root(), NULL, 0), KD_DONE, LENGTH);
}

/* The session once more in memories with such an end. */
static void ends_of_memories(void)
{
    uint8_t bytes[ROOM];
    uint8_t *lent = guarded(store, STORE), *out;
    size_t size = upper_hashes(bytes);
    uint8_t *upper = guarded(bytes, size);
    check("guarded kd_sha256",
            is_hashed(kd_sha256(guarded("abc", 3), 3), KD_DONE, kd_sha256((const uint8_t *)"abc", 3).hash));
    check("guarded kd_sha1",
            is_sha1(kd_sha1(guarded("abc", 3), 3), KD_DONE, "a9993e364706816aba3e25717850c26c9cd0d89d"));
    answers("guarded kd_open", kd_open(lent, STORE, LENGTH, PIECE, root()), KD_DONE, 1);
    answers("guarded kd_take", kd_take(lent, STORE, upper, size), KD_DONE, 2);
    answers("guarded kd_take of a cut message",
            kd_take(lent, STORE, guarded(bytes, HEAD + 32), HEAD + 32), KD_WRONG_SIZE, 0);
    answers("guarded kd_take of a cut head",
            kd_take(lent, STORE, guarded(bytes, HEAD - 1), HEAD - 1), KD_NO_MESSAGE, 0);
    answers("guarded kd_take on a cut store",
            kd_take(guarded(lent, STORE - 1), STORE - 1, upper, size), KD_UNUSABLE, 0);
    answers("guarded kd_take on cut facts", kd_take(guarded(lent, 40), 40, upper, size), KD_UNUSABLE, 0);
    check("guarded kd_held", is_hashed(kd_held(lent, STORE, 0, 7), KD_NO_ANCHOR, zero));
    write_head(bytes, REJECT, 2, 0, 2, 0);
    answers("guarded kd_take_reject", kd_take_reject(lent, STORE, guarded(bytes, HEAD), HEAD), KD_DONE, 0);
    write_head(bytes, REQUEST, 2, 0, 2, 0);
    out = guarded(bytes, size);
    answers("guarded kd_serve", kd_serve(lent, STORE, guarded(bytes, HEAD), HEAD, out, size), KD_DONE, size);
    check("guarded reply", memcmp(out, upper, size) == 0);
    answers("guarded kd_load_layer", kd_load_layer(lent, STORE, guarded(tree[2], 64), 64), KD_DONE, 0);
    answers("guarded kd_judge_piece", kd_judge_piece(lent, STORE, 1, guarded(file + PIECE, BLOCK), BLOCK), KD_DONE, 0);
    out = guarded(bytes, HEAD + 4 * 32);
    answers("guarded kd_piece_hashes",
            kd_piece_hashes(guarded(lent, STORE), STORE, 1, guarded(file + PIECE, BLOCK), BLOCK, out, HEAD + 4 * 32),
            KD_DONE, HEAD + 4 * 32);
    size = first_leaves(bytes);
    answers("guarded leaves", kd_take(lent, STORE, guarded(bytes, size), size), KD_DONE, 6);
    answers("guarded kd_judge_block",
            kd_judge_block(lent, STORE, 3, guarded(file + 3 * BLOCK, BLOCK), BLOCK), KD_DONE, 0);
}

/* A torrent of one file with two blocks, in pieces of one: its layer is its leaves. The texts stand around the root and
 * the layer. */
static const char before_root[] = "d4:infod9:file treed2:upd7:voltaged0:d6:lengthi32768e11:pieces root32:";
static const char behind_root[] = "eeee12:meta versioni2e12:piece lengthi16384ee12:piece layersd32:";
static const char before_layer[] = "64:";
static const char behind_layer[] = "ee";

static size_t add(uint8_t *torrent, size_t at, const void *bytes, size_t size)
{
    memcpy(torrent + at, bytes, size);
    return at + size;
}

/* The number in some bytes, big-endian. */
static uint64_t number_at(const uint8_t *bytes, size_t size)
{
    uint64_t number = 0;
    for (size_t i = 0; i < size; i++)
        number = number << 8 | bytes[i];
    return number;
}

/* The list of this torrent, whose one file is known: every byte of its record. */
static void list(const uint8_t *torrent, size_t size, const kd_file *one)
{
    uint8_t room[KD_RECORD + 1];
    memset(room, 0xaa, sizeof room);
    answers("a list without room", kd_torrent_list(torrent, size, room, KD_RECORD - 1), KD_NO_ROOM, 0);
    answers("a list into NULL", kd_torrent_list(torrent, size, NULL, 0), KD_NO_ROOM, 0);
    answers("a list of a torrent cut short", kd_torrent_list(torrent, size - 1, room, sizeof room), KD_NOT_STRICT, 0);
    check("a refused list writes nothing", all_are(room, sizeof room, 0xaa));
    answers("kd_torrent_list", kd_torrent_list(torrent, size, room, sizeof room), KD_DONE, KD_RECORD);
    check("the byte behind a list stays", room[KD_RECORD] == 0xaa);
    uint8_t *end = guarded(room, KD_RECORD);
    answers("guarded kd_torrent_list", kd_torrent_list(torrent, size, end, KD_RECORD), KD_DONE, KD_RECORD);
    check("length and root", number_at(end, 8) == one->length && memcmp(end + 8, &one->root, 32) == 0);
    check("layer", number_at(end + 40, 4) == one->layer_start && number_at(end + 44, 4) == one->layer_size);
    check("number of path elements", number_at(end + 48, 4) == one->elements && number_at(end + 52, 4) == 0);
    for (uint64_t element = 0; element < KD_ELEMENTS; element++) {
        kd_part part = kd_torrent_path(torrent, size, 0, element);
        const uint8_t *given = end + 56 + 8 * element;
        check("path element", number_at(given, 4) == part.start && number_at(given + 4, 4) == part.size);
    }
}

/* The torrent of one empty file, named by one record: what is written is known to the byte. */
static void writing(void)
{
    static const uint8_t text[] = { 0, 0, 0, 1, 'a' }, name[] = { 'n', 'm' };
    static const char expected[] = "d4:infod9:file treed1:ad0:d6:lengthi0eeee12:meta versioni2e4:name2:nm12:piece lengthi16384ee"
                                   "12:piece layersdee";
    enum { SIZE = sizeof expected - 1 };
    uint8_t record[KD_WRITE_RECORD] = { 0 }, room[SIZE + 1];
    record[55] = sizeof text;
    memset(room, 0xaa, sizeof room);
#define WRITE(records, piece_length, out, out_size) \
    kd_torrent_write(record, records, text, sizeof text, piece_length, name, sizeof name, out, out_size)
    answers("a list cut short", WRITE(KD_WRITE_RECORD - 1, 16384, room, sizeof room), KD_WRONG_SIZE, 0);
    answers("no file", WRITE(0, 16384, room, sizeof room), KD_WRONG_TREE, 0);
    answers("a bad piece length", WRITE(KD_WRITE_RECORD, 16385, room, sizeof room), KD_PIECE_LENGTH_OUT_OF_RANGE, 0);
    answers("a large piece length", WRITE(KD_WRITE_RECORD, (1ull << 32) + 16384, room, 0), KD_PIECE_LENGTH_OUT_OF_RANGE, 0);
    answers("no room for a torrent", WRITE(KD_WRITE_RECORD, 16384, room, SIZE - 1), KD_NO_ROOM, 0);
    answers("a torrent into NULL", WRITE(KD_WRITE_RECORD, 16384, NULL, 0), KD_NO_ROOM, 0);
    check("a refused torrent writes nothing", all_are(room, sizeof room, 0xaa));
    answers("kd_torrent_write", WRITE(KD_WRITE_RECORD, 16384, room, sizeof room), KD_DONE, SIZE);
    check("the torrent", memcmp(room, expected, SIZE) == 0 && room[SIZE] == 0xaa);
    uint8_t *end = guarded(room, SIZE);
    memset(end, 0, SIZE);
    const uint8_t *list = guarded(record, sizeof record), *path = guarded(text, sizeof text), *named = guarded(name, sizeof name);
    answers("guarded kd_torrent_write",
            kd_torrent_write(list, sizeof record, path, sizeof text, 16384, named, sizeof name, end, SIZE), KD_DONE, SIZE);
    check("the guarded torrent", memcmp(end, expected, SIZE) == 0);
    check("the lent memory stays", memcmp(list, record, sizeof record) == 0 && memcmp(path, text, sizeof text) == 0);
#undef WRITE
    answers("kd_torrent_write of NULL", kd_torrent_write(NULL, 0, NULL, 0, 16384, NULL, 0, NULL, 0), KD_WRONG_TREE, 0);
    check("what is written is read", kd_torrent_read(room, SIZE).files == 1);
}

static void torrents(void)
{
    uint8_t torrent[400];
    kd_hash pieces_root = tree[1][0];
    size_t info = 7, info_end, layer, size = 0;
    size = add(torrent, size, before_root, strlen(before_root));
    size = add(torrent, size, &pieces_root, 32);
    info_end = size + strlen("eeee12:meta versioni2e12:piece lengthi16384ee");
    size = add(torrent, size, behind_root, strlen(behind_root));
    size = add(torrent, size, &pieces_root, 32);
    layer = size = add(torrent, size, before_layer, strlen(before_layer));
    size = add(torrent, size, tree[0], 64);
    size = add(torrent, size, behind_layer, strlen(behind_layer));
    uint8_t *lent = guarded(torrent, size);

    kd_torrent whole = kd_torrent_read(lent, size);
    kd_hash info_hash = kd_sha256(torrent + info, info_end - info).hash;
    check("kd_torrent_read", whole.number == KD_DONE && memcmp(&whole.info_hash, &info_hash, 32) == 0 &&
                                 whole.piece_length == 16384 && whole.files == 1);
    kd_file one = kd_torrent_file(lent, size, 0);
    check("kd_torrent_file", one.number == KD_DONE && one.length == 32768 && memcmp(&one.root, &pieces_root, 32) == 0 &&
                                 one.elements == 2 && one.layer_start == layer && one.layer_size == 64);
    kd_part part = kd_torrent_path(lent, size, 0, 1);
    check("kd_torrent_path", part.number == KD_DONE && part.size == 7 && memcmp(lent + part.start, "voltage", 7) == 0);
    check("no second file", kd_torrent_file(lent, size, 1).number == KD_NO_SUCH_PART);
    check("no third element", kd_torrent_path(lent, size, 0, 2).number == KD_NO_SUCH_PART);
    part = kd_torrent_info(lent, size);
    check("kd_torrent_info", part.number == KD_DONE && part.start == info && part.size == info_end - info);
    part = kd_torrent_name(lent, size);
    check("no name", part.number == KD_NO_SUCH_PART && part.start == 0 && part.size == 0);
    check("a torrent cut short", kd_torrent_read(guarded(torrent, size - 1), size - 1).number == KD_NOT_STRICT);
    list(lent, size, &one);
}

/* The last piece of the file of five blocks, with three blocks of zeros behind it or fewer, judged by both halves. */
static void both_halves(void)
{
    static uint8_t covered[PIECE];
    enum { ZEROS = PIECE - BLOCK };
    uint8_t fresh[STORE], before[STORE];
    memcpy(covered, file + PIECE, BLOCK);
    kd_sha1_hash whole = kd_sha1(covered, PIECE).hash, alone = kd_sha1(covered, BLOCK).hash, other = whole;
    other.bytes[19] ^= 1;
    answers("kd_open of a fresh store", kd_open(fresh, STORE, LENGTH, PIECE, root()), KD_DONE, 1);
    answers("its layer", kd_load_layer(fresh, STORE, tree[2][0].bytes, 64), KD_DONE, 2);
    memcpy(before, fresh, STORE);
#define JUDGE(piece, data, size, v1, zeros) kd_judge_hybrid_piece(fresh, STORE, piece, data, size, v1, zeros)
    answers("another v1 hash", JUDGE(1, covered, BLOCK, other, ZEROS), KD_DIFFERS, 0);
    answers("the v1 hash without its zeros", JUDGE(1, covered, BLOCK, whole, 0), KD_DIFFERS, 0);
    answers("a zero more than there is room for", JUDGE(1, covered, BLOCK, whole, ZEROS + 1), KD_WRONG_SIZE, 0);
    answers("2^64 - 1 zeros", JUDGE(1, covered, BLOCK, whole, UINT64_MAX), KD_WRONG_SIZE, 0);
    answers("zeros behind a whole piece", JUDGE(0, file, PIECE, kd_sha1(file, PIECE).hash, 1), KD_WRONG_SIZE, 0);
    answers("the v1 half alone", JUDGE(1, file, BLOCK, kd_sha1(file, BLOCK).hash, 0), KD_DIFFERS, 0);
    answers("a hybrid's piece of another size", JUDGE(1, covered, PIECE, whole, 0), KD_WRONG_SIZE, 0);
    answers("a hybrid's piece past the file", JUDGE(2, covered, BLOCK, whole, ZEROS), KD_RULE_BROKEN, 0);
    answers("kd_judge_hybrid_piece of NULL", JUDGE(1, NULL, 0, whole, ZEROS), KD_WRONG_SIZE, 0);
    answers("kd_judge_hybrid_piece on NULL", kd_judge_hybrid_piece(NULL, 0, 1, NULL, 0, whole, ZEROS), KD_UNUSABLE, 0);
    check("what is refused marks nothing", memcmp(before, fresh, STORE) == 0);
    answers("both halves agree", JUDGE(1, guarded(covered, BLOCK), BLOCK, whole, ZEROS), KD_DONE, 0);
    answers("and the block is marked", kd_marked(fresh, STORE, 4), KD_DONE, 1);
    answers("without padding", JUDGE(1, covered, BLOCK, alone, 0), KD_DONE, 0);
    answers("a whole piece", JUDGE(0, file, PIECE, kd_sha1(file, PIECE).hash, 0), KD_DONE, 0);
#undef JUDGE
    uint8_t *lent = guarded(before, STORE);
    answers("guarded kd_judge_hybrid_piece", kd_judge_hybrid_piece(lent, STORE, 1, covered, BLOCK, whole, ZEROS), KD_DONE, 0);
    check("the guarded store is marked", kd_marked(lent, STORE, 4).count == 1);
}

/* A hybrid of two files, of two blocks and of one byte, the second with padding behind it. The texts stand around the roots, the v1 hashes and
 * the layer. */
static void hybrids(void)
{
    static const char tree_of[] = "d4:infod9:file treed2:upd7:voltaged0:d6:lengthi32768e11:pieces root32:";
    static const char second[] = "eee1:zd0:d6:lengthi1e11:pieces root32:";
    static const char files[] = "eee5:filesld6:lengthi32768e4:pathl2:up7:voltageeed6:lengthi1e4:pathl1:zeed4:attr1:p6:lengthi16383eee"
                                "12:meta versioni2e4:name4:rack12:piece lengthi16384e6:pieces60:";
    static const char layers_of[] = "e12:piece layersd32:";
    uint8_t torrent[700], last[BLOCK] = { 'z' }, v1[3 * KD_SHA1];
    kd_hash byte = kd_sha256(last, 1).hash;
    for (size_t piece = 0; piece < 2; piece++)
        memcpy(v1 + KD_SHA1 * piece, kd_sha1(file + BLOCK * piece, BLOCK).hash.bytes, KD_SHA1);
    memcpy(v1 + 2 * KD_SHA1, kd_sha1(last, BLOCK).hash.bytes, KD_SHA1);
    size_t info = 7, size = add(torrent, 0, tree_of, strlen(tree_of));
    size = add(torrent, size, &tree[1][0], 32);
    size = add(torrent, size, second, strlen(second));
    size = add(torrent, size, &byte, 32);
    size_t files_at = size, pieces_at = add(torrent, size, files, strlen(files));
    size_t info_end = add(torrent, pieces_at, v1, sizeof v1) + 1;
    size = add(torrent, info_end - 1, layers_of, strlen(layers_of));
    size = add(torrent, size, &tree[1][0], 32);
    size = add(torrent, size, before_layer, strlen(before_layer));
    size = add(torrent, size, tree[0], 64);
    size = add(torrent, size, behind_layer, strlen(behind_layer));
    uint8_t *lent = guarded(torrent, size);

    kd_hybrid whole = kd_torrent_hybrid(lent, size);
    kd_sha1_hash info_hash = kd_sha1(torrent + info, info_end - info).hash;
    check("kd_torrent_hybrid", whole.number == KD_DONE && whole.hybrid == 1 && memcmp(&whole.info_hash, &info_hash, KD_SHA1) == 0);
    check("a hybrid is read", kd_torrent_read(lent, size).number == KD_DONE);
    kd_v1_part row = kd_torrent_v1_pieces(lent, size, 0);
    check("kd_torrent_v1_pieces", row.number == KD_DONE && row.start == pieces_at && row.size == 2 * KD_SHA1 && row.zeros == 0);
    row = kd_torrent_v1_pieces(lent, size, 1);
    check("the zeros behind the last piece", row.number == KD_DONE && row.start == pieces_at + 2 * KD_SHA1 &&
                                                 row.size == KD_SHA1 && row.zeros == BLOCK - 1);
    kd_v1_piece one = kd_torrent_v1_piece(lent, size, 0, 1);
    check("kd_torrent_v1_piece", one.number == KD_DONE && memcmp(&one.hash, v1 + KD_SHA1, KD_SHA1) == 0 && one.zeros == 0);
    one = kd_torrent_v1_piece(lent, size, 1, 0);
    check("the v1 hash of one byte", one.number == KD_DONE && memcmp(&one.hash, v1 + 2 * KD_SHA1, KD_SHA1) == 0 && one.zeros == BLOCK - 1);
    one = kd_torrent_v1_piece(lent, size, 1, 1);
    check("no second piece", one.number == KD_RULE_BROKEN && memcmp(&one.hash, &zero_v1, KD_SHA1) == 0 && one.zeros == 0);
    check("no third file", kd_torrent_v1_piece(lent, size, 2, 0).number == KD_NO_SUCH_PART);
    row = kd_torrent_v1_pieces(lent, size, 2);
    check("nor its hashes", row.number == KD_NO_SUCH_PART && row.start == 0 && row.size == 0 && row.zeros == 0);

    lent[pieces_at - strlen("6:pieces60:") + 2] = 'q';
    whole = kd_torrent_hybrid(lent, size);
    check("without `pieces` it is no hybrid", whole.number == KD_DONE && whole.hybrid == 0 &&
                                                  memcmp(&whole.info_hash, &zero_v1, KD_SHA1) == 0);
    check("and has no v1 hash", kd_torrent_v1_piece(lent, size, 0, 0).number == KD_RULE_BROKEN);
    check("nor any", kd_torrent_v1_pieces(lent, size, 0).number == KD_RULE_BROKEN);
    lent[pieces_at - strlen("6:pieces60:") + 2] = 'p';
    /* The v1 half says that the second file is `y`. */
    lent[files_at + strlen("eee5:filesld6:lengthi32768e4:pathl2:up7:voltageeed6:lengthi1e4:pathl1:")] = 'y';
    whole = kd_torrent_hybrid(lent, size);
    check("halves that differ", whole.number == KD_HALVES_DIFFER && whole.hybrid == 0 &&
                                    memcmp(&whole.info_hash, &zero_v1, KD_SHA1) == 0);
    check("kd_torrent_read of them", kd_torrent_read(lent, size).number == KD_HALVES_DIFFER);
    check("31 before 29", kd_torrent_file(lent, size, 9).number == KD_HALVES_DIFFER &&
                              kd_torrent_v1_pieces(lent, size, 9).number == KD_HALVES_DIFFER);
    answers("31 before 11", kd_torrent_list(lent, size, NULL, 0), KD_HALVES_DIFFER, 0);
    check("kd_torrent_hybrid of NULL", kd_torrent_hybrid(NULL, 0).number == KD_NOT_STRICT);
    check("kd_torrent_v1_piece of NULL", kd_torrent_v1_piece(NULL, 0, 0, 0).number == KD_NOT_STRICT);
    check("kd_torrent_v1_pieces of NULL", kd_torrent_v1_pieces(NULL, 0, 0).number == KD_NOT_STRICT);
}

static void places_are(const char *what, kd_placed answer, uint32_t number, uint64_t file, uint64_t piece)
{
    check(what, answer.number == number && answer.file == file && answer.piece == piece);
}

/* Two files with an empty one between: five pieces on the wire. */
static void places(void)
{
    static uint8_t records[3 * KD_RECORD];
    kd_put(records, 8, 40000);
    kd_put(records + 2 * KD_RECORD, 8, 16385);
    uint8_t *lent = guarded(records, sizeof records);
    check("kd_listed_file", kd_listed_file(lent, 2).length == 16385 && kd_listed_file(lent, 1).length == 0);
    places_are("the third piece", kd_place(lent, sizeof records, 16384, 2), KD_DONE, 0, 2);
    places_are("the last piece", kd_place(lent, sizeof records, 16384, 4), KD_DONE, 2, 1);
    places_are("past the last piece", kd_place(lent, sizeof records, 16384, 5), KD_NO_SUCH_PART, 0, 0);
    places_are("a cut list", kd_place(lent, sizeof records - 1, 16384, 0), KD_WRONG_SIZE, 0, 0);
    places_are("no piece length", kd_place(lent, sizeof records, 0, 0), KD_PIECE_LENGTH_OUT_OF_RANGE, 0, 0);
    places_are("kd_place in NULL", kd_place(NULL, 0, 16384, 0), KD_NO_SUCH_PART, 0, 0);
    answers("an empty file begins where the next does", kd_first_piece(lent, sizeof records, 16384, 1), KD_DONE, 3);
    answers("kd_first_piece", kd_first_piece(lent, sizeof records, 16384, 2), KD_DONE, 3);
    answers("no fourth file", kd_first_piece(lent, sizeof records, 16384, 3), KD_NO_SUCH_PART, 0);
    answers("kd_first_piece in NULL", kd_first_piece(NULL, 0, 16384, 0), KD_NO_SUCH_PART, 0);
}

static void facts(void)
{
    kd_facts_answer answer = kd_facts(guarded(store, STORE), STORE);
    check("kd_facts", answer.number == KD_DONE && kd_store_size(answer.length, answer.piece_length).count == STORE &&
                          kd_get(store, 8) == answer.length && memcmp(&answer.root, store + 12, 32) == 0);
    answer = kd_facts(NULL, 0);
    check("kd_facts of NULL", answer.number == KD_UNUSABLE && answer.length == 0 && answer.piece_length == 0 &&
                                  memcmp(&answer.root, &zero, 32) == 0);
}

/* Every number has its words. */
static void numbers(void)
{
    int count = 0;
#define COUNTED(number, name, words) count += number == name && words[0] != 0;
    KD_NUMBERS(COUNTED)
    check("KD_NUMBERS", count == 27);
}

static void torrent_of_nothing(void)
{
    kd_torrent torrent = kd_torrent_read(NULL, 0);
    check("kd_torrent_read of NULL", torrent.number == KD_NOT_STRICT && memcmp(&torrent.info_hash, &zero, 32) == 0 &&
                                         torrent.piece_length == 0 && torrent.files == 0);
}

static void file_of_nothing(void)
{
    kd_file one = kd_torrent_file(NULL, 0, 0);
    check("kd_torrent_file of NULL",
            one.number == KD_NOT_STRICT && one.length == 0 && memcmp(&one.root, &zero, 32) == 0 && one.elements == 0 &&
                one.layer_start == 0 && one.layer_size == 0);
}

static void path_of_nothing(void)
{
    kd_part part = kd_torrent_path(NULL, 0, 0, 0);
    check("kd_torrent_path of NULL", part.number == KD_NOT_STRICT && part.start == 0 && part.size == 0);
}

/* Each limit by its name, and one past it. */
static void limits(void)
{
    uint64_t longest = KD_LONGEST_FILE, smallest = KD_SMALLEST_PIECE_LENGTH, largest = KD_LARGEST_PIECE_LENGTH;
    kd_answer whole = kd_store_size(longest, smallest);
    check("the longest file", whole.number == KD_DONE);
    answers("a longer file", kd_store_size(longest + 1, smallest), KD_FACTS_OUT_OF_RANGE, 0);
    answers("a smaller piece length", kd_store_size(longest, smallest / 2), KD_FACTS_OUT_OF_RANGE, 0);
    answers("the largest piece length", kd_store_size(longest, largest), KD_DONE, whole.count);
    answers("a larger piece length", kd_store_size(longest, 2 * largest), KD_FACTS_OUT_OF_RANGE, 0);

    static uint8_t out[KD_LARGEST_REPLY];
    uint8_t *tallest = malloc(whole.count), message[HEAD];
    if (tallest == NULL || kd_open(tallest, whole.count, longest, smallest, root()).number != KD_DONE)
        exit(2);
    check("the tallest tree", is_hashed(kd_held(tallest, whole.count, KD_TALLEST_TREE, 0), KD_DONE, root()));
    check("a taller tree", kd_held(tallest, whole.count, KD_TALLEST_TREE + 1, 0).number == KD_RULE_BROKEN);
    write_head(message, REJECT, 0, 0, 0, 0);
    message[43] = KD_LONGEST_RUN >> 8;
    answers("the longest run", kd_take_reject(tallest, whole.count, message, HEAD), KD_DONE, 0);
    message[43] = 2 * KD_LONGEST_RUN >> 8;
    answers("a longer run", kd_take_reject(tallest, whole.count, message, HEAD), KD_RULE_BROKEN, 0);
    /* Every position is held, and the request goes up to the root. */
    memset(tallest + 64, 1, whole.count - 64);
    write_head(message, REQUEST, 0, 0, 0, KD_TALLEST_TREE - 1);
    message[43] = KD_LONGEST_RUN >> 8;
    answers("the largest reply", kd_serve(tallest, whole.count, message, HEAD, out, sizeof out), KD_DONE, KD_LARGEST_REPLY);
    answers("a byte less room", kd_serve(tallest, whole.count, message, HEAD, out, sizeof out - 1), KD_NO_ROOM, 0);
    free(tallest);

    static uint8_t bytes[KD_LARGEST_TORRENT + 1];
    check("the largest torrent", kd_torrent_read(bytes, KD_LARGEST_TORRENT).number == KD_NOT_STRICT);
    check("a larger torrent", kd_torrent_read(bytes, KD_LARGEST_TORRENT + 1).number == KD_TORRENT_TOO_LARGE);
    for (size_t levels = KD_LEVELS; levels <= KD_LEVELS + 1; levels++) {
        size_t size = add(bytes, 0, "d1:a", 4);
        memset(bytes + size, 'l', levels - 1);
        memset(bytes + size + levels - 1, 'e', levels);
        uint32_t number = levels == KD_LEVELS ? KD_KEY_MISSING : KD_NESTED_TOO_DEEPLY;
        check("the deepest torrent, and a deeper one", kd_torrent_read(bytes, size + 2 * levels - 1).number == number);
    }
}

static int is_stream(kd_stream state, uint32_t length, uint32_t length_size, uint32_t read, uint32_t mode)
{
    return state.length == length && state.length_size == length_size && state.read == read && state.mode == mode;
}

static int is_heard(kd_heard heard, uint32_t number, uint32_t event, uint64_t used, uint64_t size)
{
    return heard.number == number && heard.event == event && heard.used == used && heard.size == size;
}

/* Offers a piece until it is used up, as the header says, and takes the hashes messages in it. How many there were. */
static unsigned take_stream(kd_stream *state, const uint8_t *data, size_t size, uint8_t *room, size_t room_size)
{
    unsigned taken = 0;
    for (;;) {
        kd_heard heard = kd_stream_hear(*state, data, size, room, room_size);
        *state = heard.state, data += heard.used, size -= heard.used;
        if (heard.number == KD_FRAME_TOO_LONG || heard.number == KD_UNUSABLE)
            return taken;
        if (heard.number == KD_DONE && heard.event == 0)
            return taken;
        if (heard.event == KD_MESSAGE && room[0] == KD_HASHES)
            taken += kd_take(store, STORE, room, heard.size).number == KD_DONE;
    }
}

/* The hashes messages of the session in frames, between others, cut at every place; refusals; NULL. */
static void streams(void)
{
    uint8_t bytes[2 * ROOM], message[ROOM], room[ROOM];
    size_t size = 0, one = upper_hashes(message);
    kd_answer framed = kd_frame(message, one, bytes, sizeof bytes);
    answers("kd_frame", framed, KD_DONE, 4 + one);
    check("a frame", number_at(bytes, 4) == one && memcmp(bytes + 4, message, one) == 0);
    size += framed.count;
    size += kd_frame(NULL, 0, bytes + size, sizeof bytes - size).count;
    check("the keep-alive", size == 8 + one && all_are(bytes + size - 4, 4, 0));
    one = first_leaves(message);
    size += kd_frame(message, one, bytes + size, sizeof bytes - size).count;

    kd_stream none = kd_stream_begin();
    check("kd_stream_begin", is_stream(none, 0, 0, 0, 0));
    for (size_t cut = 0; cut <= size; cut++) {
        kd_stream state = none;
        if (kd_open(store, STORE, LENGTH, PIECE, root()).number != KD_DONE)
            exit(2);
        unsigned taken = take_stream(&state, bytes, cut, room, ROOM);
        taken += take_stream(&state, bytes + cut, size - cut, room, ROOM);
        if (taken != 2 || !is_stream(state, 0, 0, 0, 0))
            check("a stream cut anywhere", 0);
    }
    check("a stream in all its cuttings", is_hashed(kd_held(store, STORE, 0, 3), KD_DONE, tree[0][3]));

    const uint8_t mixed[] = {0, 0, 0, 2, 9, 1, 0, 0, 0, 2, KD_CHOKE, 0, 0, 0, 0, 6, KD_BITFIELD, 1, 2, 3, 4, 5, 0, 0, 0, 0};
    memset(room, 0xaa, ROOM);
    kd_heard heard = kd_stream_hear(none, mixed, sizeof mixed, room, 5);
    check("an unknown id, then a wrong size", is_heard(heard, KD_NO_MESSAGE, 0, 12, 0) && is_stream(heard.state, 0, 0, 0, 0));
    heard = kd_stream_hear(heard.state, mixed + 12, sizeof mixed - 12, room, 5);
    check("a message larger than the room", is_heard(heard, KD_NO_ROOM, 0, 10, 0) && all_are(room, ROOM, 0xaa));
    heard = kd_stream_hear(none, mixed + 12, 7, room, 6);
    check("a part of a message", is_heard(heard, KD_DONE, 0, 7, 0) && is_stream(heard.state, 6, 4, 3, 0));
    check("is in the room", room[2] == 2 && all_are(room + 3, ROOM - 3, 0xaa));
    heard = kd_stream_hear(heard.state, mixed + 19, 7, room, 2);
    check("has stored more than the room", is_heard(heard, KD_UNUSABLE, 0, 0, 0) && is_stream(heard.state, 6, 4, 3, 0));
    heard = kd_stream_hear(heard.state, mixed + 19, 7, room, 6);
    check("a message", is_heard(heard, KD_DONE, KD_MESSAGE, 3, 6) && memcmp(room, mixed + 16, 6) == 0);
    heard = kd_stream_hear(heard.state, mixed + 22, 4, room, 6);
    check("a keep-alive", is_heard(heard, KD_DONE, KD_KEEP_ALIVE, 4, 0));
    check("kd_stream_hear of NULL", is_heard(kd_stream_hear(none, NULL, 0, NULL, 0), KD_DONE, 0, 0, 0));

    const uint8_t longest[] = {0, 4, 0x93, 0xe0}, longer[] = {0, 4, 0x93, 0xe1, 0};
    check("the longest frame", is_heard(kd_stream_hear(none, longest, 4, NULL, 0), KD_DONE, 0, 4, 0));
    heard = kd_stream_hear(none, longer, 5, NULL, 0);
    check("a longer one", is_heard(heard, KD_FRAME_TOO_LONG, 0, 4, 0) && is_stream(heard.state, KD_LONGEST_FRAME + 1, 4, 0, 4));
    heard = kd_stream_hear(heard.state, mixed, sizeof mixed, room, ROOM);
    check("stays refused", is_heard(heard, KD_FRAME_TOO_LONG, 0, 0, 0) && is_stream(heard.state, KD_LONGEST_FRAME + 1, 4, 0, 4));

    static uint8_t large[KD_LONGEST_FRAME + 1];
    large[0] = KD_EXTENDED;
    answers("kd_frame of too many bytes", kd_frame(large, sizeof large, NULL, 0), KD_FRAME_TOO_LONG, 0);
    answers("kd_frame of the most into NULL", kd_frame(large, KD_LONGEST_FRAME, NULL, 0), KD_NO_ROOM, 0);
    answers("kd_frame of an unknown id", kd_frame(mixed + 4, 2, room, ROOM), KD_NO_MESSAGE, 0);
    answers("kd_frame of a wrong size", kd_frame(mixed + 10, 2, room, ROOM), KD_NO_MESSAGE, 0);
    answers("kd_frame of NULL into NULL", kd_frame(NULL, 0, NULL, 0), KD_NO_ROOM, 0);
    answers("guarded kd_frame", kd_frame(guarded(mixed + 16, 6), 6, guarded(room, 10), 10), KD_DONE, 10);
    heard = kd_stream_hear(none, guarded(mixed + 12, 10), 10, guarded(room, 6), 6);
    check("guarded kd_stream_hear", is_heard(heard, KD_DONE, KD_MESSAGE, 10, 6));
}

int main(void)
{
    check("kd_version", kd_version() == KD_VERSION_NUMBER);
    hashes();
    make_tree();
    bursts();
    logged();
    stores();
    session();
    rejects();
    serving();
    layers();
    blocks();
    pieces();
    piece_hashes();
    marks();
    asking();
    saves();
    younger();
    ends_of_memories();
    torrents();
    both_halves();
    hybrids();
    writing();
    streams();
    torrent_of_nothing();
    file_of_nothing();
    path_of_nothing();
    limits();
    check("kd_torrent_info of NULL", kd_torrent_info(NULL, 0).number == KD_NOT_STRICT);
    check("kd_torrent_name of NULL", kd_torrent_name(NULL, 0).number == KD_NOT_STRICT);
    places();
    facts();
    numbers();
    answers("kd_torrent_list of NULL", kd_torrent_list(NULL, 0, NULL, 0), KD_NOT_STRICT, 0);
    printf("boundary.c: %u passed, %u failed\n", passed, failed);
    return failed != 0;
}
