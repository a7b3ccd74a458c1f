/* How much stack the deepest call of each entry point needs: the call runs on a painted stack of its own, and afterwards
 * the paint that is gone is counted. What the frame around the call takes itself is measured and taken off.
 *
 * The file has 2^20 blocks, the most there may be, so that the tree is as high as it can be. All its blocks are alike:
 * the tree then costs one hash for each layer. Every call is answered KD_DONE, having gone all its way. */
#define _GNU_SOURCE
#include "kombudeva.h"

#include <stdio.h>
#include <stdlib.h>
#include <string.h>
#include <ucontext.h>

enum { STACK = 1 << 22, PAINT = 0xa5 };
enum { BLOCK = KD_BLOCK, HEIGHT = KD_TALLEST_TREE, BLOCKS = 1 << HEIGHT, LARGEST_PIECE = KD_LARGEST_PIECE_LENGTH };
enum { RUN = KD_LONGEST_RUN, RUN_LAYERS = 13, UNCLES = HEIGHT - RUN_LAYERS, PROOF = HEIGHT - 1, HEAD = 49 };
enum { REPLY = HEAD + 32 * (RUN + UNCLES) };
_Static_assert(RUN == 1 << RUN_LAYERS, "the layers of the longest run");
enum { REQUEST = KD_HASH_REQUEST, HASHES = KD_HASHES, REJECT = KD_HASH_REJECT };
#define LENGTH ((uint64_t)BLOCKS * BLOCK)

static uint8_t stack[STACK];
static ucontext_t here, there;

/* One piece, the largest; its first block is every block of the file. */
static uint8_t piece[LARGEST_PIECE];
/* The hash at each layer. */
static kd_hash at_layer[HEIGHT + 1];
static uint8_t request[HEAD], reject[HEAD], reply[REPLY], out[REPLY];
/* The piece layer of the smallest pieces is the longest: all leaves. */
static kd_hash layer[BLOCKS];
static uint8_t *store;
static size_t size;
/* Answers go to memory that lives, so that a call's own frame is all that is measured. */
static volatile uint32_t number;

static void nothing(void) { number = 0; }
static void sha256(void) { number = kd_sha256(piece, BLOCK).number; }
static void sha1(void) { number = kd_sha1(piece, BLOCK).number; }
/* States with much behind them: the end of a history then goes up the whole tree. */
static kd_hashing hashing;
static kd_history history;
/* A stream with the largest hashes message in its frame. */
static kd_stream stream;
static uint8_t framed[4 + REPLY];
static void stream_begin(void) { stream = kd_stream_begin(); number = 0; }
static void stream_hear(void)
{
    kd_heard heard = kd_stream_hear(stream, framed, sizeof framed, out, sizeof out);
    stream = heard.state;
    number = heard.event == KD_MESSAGE ? heard.number : KD_NO_MESSAGE;
}
static void frame(void) { number = kd_frame(reply, REPLY, framed, sizeof framed).number; }
static void hashing_begin(void) { hashing = kd_hashing_begin(); number = 0; }
static void hashing_more(void)
{
    kd_hashing_answer answer = kd_hashing_more(hashing, piece, BLOCK + 1);
    hashing = answer.state;
    number = answer.number;
}
static void hashing_end(void) { number = kd_hashing_end(hashing).number; }
static void history_begin(void)
{
    kd_history_answer answer = kd_history_begin(BLOCK);
    history = answer.state;
    number = answer.number;
}
static void history_more(void)
{
    kd_history_answer answer = kd_history_more(history, piece, 8 * BLOCK + 1, layer[0].bytes, sizeof layer);
    history = answer.state;
    number = answer.number;
}
static void history_end(void)
{
    kd_history far = history;
    far.length += LENGTH - 32 * BLOCK;
    number = kd_history_end(far, layer[0].bytes, sizeof layer).number;
}
static void store_size(void) { number = kd_store_size(LENGTH, BLOCK).number; }
static void open_store(void) { number = kd_open(store, size, LENGTH, LARGEST_PIECE, at_layer[HEIGHT]).number; }
static void open_for_layer(void) { number = kd_open(store, size, LENGTH, BLOCK, at_layer[HEIGHT]).number; }
static void held(void) { number = kd_held(store, size, HEIGHT, 0).number; }
static void take(void) { number = kd_take(store, size, reply, REPLY).number; }
static void take_reject(void) { number = kd_take_reject(store, size, reject, HEAD).number; }
static void serve(void) { number = kd_serve(store, size, request, HEAD, out, REPLY).number; }
static void judge_block(void) { number = kd_judge_block(store, size, 0, piece, BLOCK).number; }
static void judge_piece(void) { number = kd_judge_piece(store, size, 0, piece, LARGEST_PIECE).number; }
/* The SHA-1 of that piece. */
static kd_sha1_hash v1;
static void judge_hybrid_piece(void)
{
    number = kd_judge_hybrid_piece(store, size, 0, piece, LARGEST_PIECE, v1, 0).number;
}
static void piece_hashes(void)
{
    number = kd_piece_hashes(store, size, 0, piece, LARGEST_PIECE, out, REPLY).number;
}
static void marked(void) { number = kd_marked(store, size, 0).number; }
static void clear(void) { number = kd_clear(store, size, 0).number; }
static void bitfield(void) { number = kd_bitfield(store, size, out, REPLY).number; }
static uint32_t counts[BLOCKS / (LARGEST_PIECE / BLOCK)];
static void next_request(void) { number = kd_next_request(store, size, 0).number; }
static void pick_piece(void) { number = kd_pick_piece(store, size, counts, sizeof counts / sizeof counts[0]).number; }
/* The file without its last bytes: but for one, of the last block. */
static kd_hash earlier;
static void extends(void) { number = kd_extends(store, size, LENGTH - BLOCK + 1, earlier, piece, BLOCK).number; }
static void make_earlier(void)
{
    uint8_t both[64];
    earlier = kd_sha256(piece, 1).hash;
    for (int i = 0; i < HEIGHT; i++) {
        memcpy(both, at_layer[i].bytes, 32);
        memcpy(both + 32, earlier.bytes, 32);
        earlier = kd_sha256(both, 64).hash;
    }
}
static void load_layer(void) { number = kd_load_layer(store, size, layer[0].bytes, sizeof layer).number; }

/* The save of a store that holds the whole tree. */
static uint8_t *saved;
static size_t saved_size;
static void save(void)
{
    kd_answer answer = kd_save(store, size, saved, KD_LARGEST_SAVE);
    saved_size = answer.count;
    number = answer.number;
}
static void load(void) { number = kd_load(store, size, saved, saved_size).number; }
static void repair(void) { number = kd_repair(store, size, saved, saved_size).number; }

static void show(const char *name, void (*function)(void));

/* A torrent of the same file, its path as deep as it may be, with the longest layer that 1 MiB has room for. */
enum { ELEMENTS = KD_ELEMENTS, LAYER = 6, PIECES = BLOCKS >> LAYER, FILES = 14000 };
static uint8_t torrent[KD_LARGEST_TORRENT];
static size_t torrent_size;

static void torrent_read(void) { number = kd_torrent_read(torrent, torrent_size).number; }
static void torrent_file(void) { number = kd_torrent_file(torrent, torrent_size, 0).number; }
static void torrent_path(void) { number = kd_torrent_path(torrent, torrent_size, 0, ELEMENTS - 1).number; }
static uint8_t list[FILES * KD_RECORD];
static void torrent_list(void) { number = kd_torrent_list(torrent, torrent_size, list, sizeof list).number; }

static void torrent_hybrid(void) { number = kd_torrent_hybrid(torrent, torrent_size).number; }
static void torrent_v1_piece(void) { number = kd_torrent_v1_piece(torrent, torrent_size, 0, 0).number; }
static void torrent_v1_pieces(void) { number = kd_torrent_v1_pieces(torrent, torrent_size, 0).number; }

static void add(const void *bytes, size_t count)
{
    memcpy(torrent + torrent_size, bytes, count);
    torrent_size += count;
}

static void add_text(const char *text) { add(text, strlen(text)); }

static void make_torrent(void)
{
    add_text("d4:infod9:file treed");
    for (int i = 0; i < ELEMENTS; i++)
        add_text("1:ad");
    add_text("0:d6:lengthi17179869184e11:pieces root32:");
    add(&at_layer[HEIGHT], 32);
    for (int i = 0; i < ELEMENTS; i++)
        add_text("e");
    add_text("ee12:meta versioni2e12:piece lengthi1048576ee12:piece layersd32:");
    add(&at_layer[HEIGHT], 32);
    add_text("524288:");
    for (int i = 0; i < PIECES; i++)
        add(&at_layer[LAYER], 32);
    add_text("ee");
}

/* Begins a torrent: the file tree of so many files that have a root, in one folder at the deepest level; the roots come in descending order. */
static void begin_torrent_of(int files)
{
    torrent_size = 0;
    add_text("d4:infod9:file treed");
    for (int i = 1; i < ELEMENTS; i++)
        add_text("1:ad");
    for (int i = 0; i < files; i++) {
        uint8_t name[2] = { (uint8_t)(0x40 + i / 128), (uint8_t)(0x80 + i % 128) };
        kd_hash root = { { (uint8_t)(0xff - name[0]), (uint8_t)(0xff - name[1]) } };
        add_text("2:");
        add(name, 2);
        add_text("d0:d6:lengthi1e11:pieces root32:");
        add(&root, 32);
        add_text("ee");
    }
    for (int i = 0; i < ELEMENTS; i++)
        add_text("e");
}

/* A torrent with many such files. */
static void make_torrent_of_many(void)
{
    begin_torrent_of(FILES);
    add_text("12:meta versioni2e12:piece lengthi65536ee12:piece layersdee");
}

/* A hybrid with as many files at the deepest level as both halves have room for. */
static void make_hybrid(void)
{
    enum { HYBRID_FILES = 4000 };
    static uint8_t hashes[HYBRID_FILES * KD_SHA1];
    begin_torrent_of(HYBRID_FILES);
    add_text("5:filesl");
    for (int i = 0; i < HYBRID_FILES; i++) {
        uint8_t name[2] = { (uint8_t)(0x40 + i / 128), (uint8_t)(0x80 + i % 128) };
        add_text("d6:lengthi1e4:pathl");
        for (int k = 1; k < ELEMENTS; k++)
            add_text("1:a");
        add_text("2:");
        add(name, 2);
        add_text("eed4:attr1:p6:lengthi16383ee");
    }
    add_text("e12:meta versioni2e12:piece lengthi16384e6:pieces80000:");
    add(hashes, sizeof hashes);
    add_text("e12:piece layersdee");
}

/* The entry points on the torrent that has been made. */
static void show_torrent(const char *what)
{
    printf("on a torrent %s:\n", what);
    show("kd_torrent_read", torrent_read);
    show("kd_torrent_file", torrent_file);
    show("kd_torrent_path", torrent_path);
    show("kd_torrent_list", torrent_list);
    show("kd_torrent_hybrid", torrent_hybrid);
}

/* Lists to write a torrent of: that file with its layer behind a deep path, and the most files, which are empty. */
enum { MOST_FILES = 47000, DEEP_PATH = 5 * ELEMENTS };
static uint8_t files[MOST_FILES * KD_WRITE_RECORD], text[MOST_FILES * 7 + 32 * PIECES];
static size_t files_size, text_size;
static uint64_t piece_length;

static void torrent_write(void)
{
    number = kd_torrent_write(files, files_size, text, text_size, piece_length, text, 1, torrent, sizeof torrent).number;
}

static void put_number(uint8_t *to, uint64_t value, size_t bytes)
{
    while (bytes-- > 0) {
        to[bytes] = (uint8_t)value;
        value >>= 8;
    }
}

/* A record whose path and then whose layer are the next parts of the text. */
static void add_record(uint64_t length, const kd_hash *root, size_t path_size, size_t layer_size)
{
    uint8_t *record = files + files_size;
    put_number(record, length, 8);
    memcpy(record + 8, root->bytes, 32);
    put_number(record + 40, text_size + path_size, 4);
    put_number(record + 44, layer_size, 4);
    put_number(record + 48, text_size, 4);
    put_number(record + 52, path_size, 4);
    files_size += KD_WRITE_RECORD;
    text_size += path_size + layer_size;
}

static void list_of_one(void)
{
    for (int i = 0; i < ELEMENTS; i++) {
        put_number(text + 5 * i, 1, 4);
        text[5 * i + 4] = 'a';
    }
    for (int i = 0; i < PIECES; i++)
        memcpy(text + DEEP_PATH + 32 * i, at_layer[LAYER].bytes, 32);
    piece_length = (uint64_t)BLOCK << LAYER;
    add_record(LENGTH, &at_layer[HEIGHT], DEEP_PATH, 32 * PIECES);
}

static void list_of_many(void)
{
    kd_hash none = { { 0 } };
    files_size = text_size = 0;
    for (int i = 0; i < MOST_FILES; i++) {
        uint8_t *path = text + text_size;
        put_number(path, 3, 4);
        path[4] = (uint8_t)(0xff - i / 16384);
        path[5] = (uint8_t)(0xff - i / 128 % 128);
        path[6] = (uint8_t)(0xff - i % 128);
        add_record(0, &none, 7, 0);
    }
}

static kd_hash pair_of(kd_hash hash)
{
    kd_hash both[2] = { hash, hash };
    return kd_sha256(both[0].bytes, sizeof both).hash;
}

/* A message for the first leaves, a run as long as it may be, with all uncles up to the root. */
static void write_head(uint8_t *message, uint8_t id)
{
    message[0] = id;
    memcpy(message + 1, at_layer[HEIGHT].bytes, 32);
    message[43] = RUN >> 8;
    message[48] = PROOF;
}

static void make_layer(void)
{
    for (int block = 0; block < BLOCKS; block++)
        layer[block] = at_layer[0];
}

static void make_inputs(void)
{
    at_layer[0] = kd_sha256(piece, BLOCK).hash;
    for (int above = 1; above <= HEIGHT; above++)
        at_layer[above] = pair_of(at_layer[above - 1]);
    write_head(request, REQUEST);
    write_head(reject, REJECT);
    write_head(reply, HASHES);
    for (int i = 0; i < RUN; i++)
        memcpy(reply + HEAD + 32 * i, at_layer[0].bytes, 32);
    for (int i = 0; i < UNCLES; i++)
        memcpy(reply + HEAD + 32 * (RUN + i), at_layer[RUN_LAYERS + i].bytes, 32);
    size = kd_store_size(LENGTH, BLOCK).count;
    store = malloc(size);
    saved = malloc(KD_LARGEST_SAVE);
}

/* Makes the nodes of the largest pieces, layer 10, held: the piece is then judged to its end. */
static void take_piece_nodes(void)
{
    enum { PIECE_LAYER = 10, LARGE_PIECES = BLOCKS >> PIECE_LAYER };
    static uint8_t nodes[HEAD + LARGE_PIECES * 32];
    write_head(nodes, HASHES);
    nodes[36] = PIECE_LAYER;
    nodes[43] = LARGE_PIECES >> 8;
    nodes[48] = 0;
    for (int i = 0; i < LARGE_PIECES; i++)
        memcpy(nodes + HEAD + 32 * i, at_layer[PIECE_LAYER].bytes, 32);
    if (kd_take(store, size, nodes, sizeof nodes).number != KD_DONE)
        exit(1);
}

/* Bytes of the painted stack that a function has written over. */
static size_t painted_over(void (*function)(void))
{
    memset(stack, PAINT, STACK);
    getcontext(&there);
    there.uc_stack.ss_sp = stack;
    there.uc_stack.ss_size = STACK;
    there.uc_link = &here;
    makecontext(&there, function, 0);
    swapcontext(&here, &there);
    size_t untouched = 0;
    while (untouched < STACK && stack[untouched] == PAINT)
        untouched++;
    return STACK - untouched;
}

static void show(const char *name, void (*function)(void))
{
    size_t around = painted_over(nothing), with = painted_over(function);
    if (number != KD_DONE) {
        printf("%s is answered %u\n", name, number);
        exit(1);
    }
    printf("%-21s %7zu bytes of stack\n", name, with - around);
}

int main(void)
{
    make_inputs();
    show("kd_sha256", sha256);
    show("kd_sha1", sha1);
    show("kd_hashing_begin", hashing_begin);
    show("kd_hashing_more", hashing_more);
    show("kd_hashing_end", hashing_end);
    show("kd_history_begin", history_begin);
    show("kd_history_more", history_more);
    show("kd_history_end", history_end);
    show("kd_frame", frame);
    show("kd_stream_begin", stream_begin);
    show("kd_stream_hear", stream_hear);
    make_layer();
    show("kd_store_size", store_size);
    show("kd_open", open_store);
    show("kd_held", held);
    show("kd_take", take);
    show("kd_take_reject", take_reject);
    show("kd_serve", serve);
    show("kd_judge_block", judge_block);
    take_piece_nodes();
    show("kd_judge_piece", judge_piece);
    v1 = kd_sha1(piece, LARGEST_PIECE).hash;
    show("kd_judge_hybrid_piece", judge_hybrid_piece);
    show("kd_piece_hashes", piece_hashes);
    show("kd_marked", marked);
    show("kd_clear", clear);
    show("kd_bitfield", bitfield);
    show("kd_next_request", next_request);
    memset(counts, 1, sizeof counts);
    show("kd_pick_piece", pick_piece);
    open_for_layer();
    show("kd_load_layer", load_layer);
    show("kd_save", save);
    show("kd_load", load);
    show("kd_repair", repair);
    make_earlier();
    show("kd_extends", extends);
    make_torrent();
    show_torrent("of one file with a long layer");
    make_torrent_of_many();
    show_torrent("of 14,000 files");
    make_hybrid();
    show_torrent("that is a hybrid of 4,000 files");
    show("kd_torrent_v1_piece", torrent_v1_piece);
    show("kd_torrent_v1_pieces", torrent_v1_pieces);
    list_of_one();
    printf("of one file with a long layer:\n");
    show("kd_torrent_write", torrent_write);
    list_of_many();
    printf("of 47,000 empty files:\n");
    show("kd_torrent_write", torrent_write);
    free(store);
    free(saved);
    return 0;
}
