/*
 * Kombudeva: a store of BitTorrent v2 hashes that believes nothing before its chain is checked.
 *
 * This header is the whole boundary between the proved library, libkombudeva.a, and a host program.
 *
 * ANSWERS. Every function answers with one struct by value. Its `number` says what happened:
 * KD_DONE, which is 0, or one of the refusals by name below. (kd_version, kd_hashing_begin and
 * kd_stream_begin can't be refused, and answer with a version or a state alone.)
 *
 * Each function lists its numbers in the order in which they are decided: the first that applies is
 * given. Only the KD_NO_ROOM of kd_serve stands in place of the answer that there is no room for,
 * and kd_stream_hear gives what comes first in the stream.
 *
 * Beside a refusal (any number but KD_DONE) every other field is zero, save for the size of the
 * reject that kd_serve writes, and for states: the running state that a burst was to go on from
 * comes back as it was given, and a stream's says where it stands, beside the count of bytes that
 * were used (kd_stream_hear). Every input is
 * answered: nothing is asked of the caller's values, and no function stops the program. Compare
 * answers field by field, since C leaves the padding bytes of a struct open.
 *
 * LENT MEMORY. A memory is lent as a pointer and its size in bytes. The library reads and writes it
 * during the call only: it keeps no pointer, has no heap and no state of its own, so that calls on
 * different memories may run in different threads at once. NULL with size 0 is a memory of no
 * bytes, and safe.
 *
 * Three things C can't check, and the caller has to see to:
 *   - each memory is as long as said;
 *   - a memory that a call writes overlaps no other memory lent to that call;
 *   - nobody changes a lent memory, `const` ones included, while the call runs. What another
 *     program or a device may write to, a mapped file or a driver's ring, is copied first: a
 *     message that changes while it is taken may leave a wrong hash held. A store is for one thread
 *     at a time, since judging marks it.
 *
 * Memory marked `const` is not changed, and a refusal changes no byte of any memory, save for that
 * reject.
 *
 * STACK. Lend calls on a store 48 kB of stack: they were seen to need 45.1 kB, calls with a burst
 * 9.6 kB, calls on a stream below 1 kB, kd_torrent_write 574 kB, kd_torrent_list 222 kB, the other
 * calls on a torrent 156 kB: measured on the largest file, on torrents nested as deep as they may
 * be, and on as many files as one has room for, with the build that docs/BENCHMARKS.md names.
 *
 * EXAMPLE
 *
 *     kd_hashed answer = kd_sha256((const uint8_t *)"abc", 3);
 *     if (answer.number == KD_DONE)
 *         use(answer.hash.bytes);      // ba 78 16 bf ... 15 ad
 */
#ifndef KOMBUDEVA_H
#define KOMBUDEVA_H

#include <stddef.h>
#include <stdint.h>

#ifdef __cplusplus
extern "C" {
#endif

/*
 * The version of header and library, as text and as a number: a million for the first figure, a
 * thousand for the second, one for the third. The second rises whenever a struct, a function or an
 * answer changes.
 */
#define KD_VERSION "0.15.0"
#define KD_VERSION_NUMBER 15000

/* An answer that is not looked at is a warning, where the compiler has one. */
#ifndef KD_MUST_USE
#if defined(__GNUC__) || defined(__clang__)
#define KD_MUST_USE __attribute__((warn_unused_result))
#else
#define KD_MUST_USE
#endif
#endif

/* ---- The numbers given back, each with what it says. ---- */

#define KD_DONE 0
#define KD_NO_MESSAGE 1                 /* below KD_HEADER_SIZE bytes or another id; a request or a
                                           reject of more; of a stream, a known id with a size that
                                           it can't have; to be framed, that or an unknown id */
#define KD_OTHER_ROOT 2                 /* another pieces root */
#define KD_RULE_BROKEN 3                /* a header rule fails; a block, piece or position that the
                                           file's tree does not have; a layer for a file not longer
                                           than the piece length; a layer that is neither 0 nor the
                                           file's piece layer; an earlier length of 0, or above the
                                           store's; of a v1 piece, a torrent that is no hybrid, or
                                           a piece that the file does not have */
#define KD_WRONG_SIZE 4                 /* the byte count isn't what header or file fixes, or is too
                                           long for SHA-256 or SHA-1; or a list of files that isn't
                                           in its form, or of counts that aren't one for each piece;
                                           or more zeros than the piece has room for */
#define KD_WRONG_PADDING 5              /* a padding position with another value */
#define KD_NO_ANCHOR 6                  /* the anchor, leaf, piece node or, for a layer or the next
                                           request, the root is not held; or the position that
                                           kd_held is asked for, or a hash over whole blocks of an
                                           earlier file */
#define KD_DIFFERS 7                    /* the worked-out value differs from the held anchor, leaf
                                           or node, or from the v1 hash of a hybrid's piece; or from
                                           an earlier file's root: another history */
#define KD_CONFLICT 8                   /* the anchor agrees, another held position differs */
#define KD_UNUSABLE 9                   /* not a store: it names no facts in range, or has not their
                                           room; or a running state whose counts no bursts give; or
                                           a stream's state that no bytes give, or that has stored
                                           more than the room has */
#define KD_FACTS_OUT_OF_RANGE 10        /* a length or a piece length that no store is opened with,
                                           or that saved bytes open with; a burst past the longest
                                           file */
#define KD_NO_ROOM 11                   /* the output is shorter than the reply, reject included; or
                                           than the bitfield, a torrent's list, a piece's hashes, a
                                           save, a torrent or a frame that is written; or a piece's
                                           hash doesn't fit the lent layer; or a stream's message is
                                           larger than the room */
#define KD_NOT_HELD 12                  /* a requested hash isn't held */
#define KD_TORRENT_TOO_LARGE 19         /* a torrent above KD_LARGEST_TORRENT */
#define KD_NOT_STRICT 20                /* the torrent is not one dictionary in strict bencoding */
#define KD_NESTED_TOO_DEEPLY 21         /* deeper than KD_LEVELS, before anything else is wrong */
#define KD_KEY_MISSING 22               /* `info`, its `file tree`, `piece length` or `meta
                                           version`, or `piece layers` missing or of another type */
#define KD_OTHER_VERSION 23             /* the version isn't 2 */
#define KD_PIECE_LENGTH_OUT_OF_RANGE 24
#define KD_WRONG_TREE 25                /* the file tree isn't right, or has a path element that is
                                           empty, `.` or `..`, or has a `/` or a zero byte in it */
#define KD_TWO_LENGTHS 26               /* two files that aren't empty with the same root and
                                           different lengths */
#define KD_SAME_ROOT KD_TWO_LENGTHS     /* its old name, for one version more */
#define KD_LAYERS_AMISS 27              /* `piece layers` hasn't exactly the roots of the files
                                           longer than the piece length, or not KD_HASH bytes for
                                           each piece */
#define KD_LAYER_DIFFERS 28             /* a layer doesn't give its root; of a list, two layers for
                                           one root */
#define KD_NO_SUCH_PART 29              /* no file, no path element or no piece of that number; no
                                           string `name` in `info` */
#define KD_NO_SUCH_FILE KD_NO_SUCH_PART /* its old name, for one version more */
#define KD_FRAME_TOO_LONG 30            /* a stream's prefix above KD_LONGEST_FRAME, from where on
                                           the stream is refused; or a message of more bytes to be
                                           framed */
#define KD_HALVES_DIFFER 31             /* a hybrid whose v1 half is malformed, or does not describe
                                           the files of its v2 half; after 28 and before 29 */
#define KD_NOT_SAVED 32                 /* saved bytes without a whole opening record, not of the
                                           form, or not those of a store whose hashes chain to its
                                           root */

/*
 * All of them, for X(number, name, words), so that no host writes them down again:
 *
 *     #define WORDS(number, name, words) case name: return words;
 *     switch (answer.number) { KD_NUMBERS(WORDS) }
 */
#define KD_NUMBERS(X) \
    X(0, KD_DONE, "done") \
    X(1, KD_NO_MESSAGE, "not such a message") \
    X(2, KD_OTHER_ROOT, "about another file") \
    X(3, KD_RULE_BROKEN, "against the rules for this file") \
    X(4, KD_WRONG_SIZE, "of another size") \
    X(5, KD_WRONG_PADDING, "with another value at a padding position") \
    X(6, KD_NO_ANCHOR, "nothing held to compare it with") \
    X(7, KD_DIFFERS, "not what is held") \
    X(8, KD_CONFLICT, "in conflict with a held hash") \
    X(9, KD_UNUSABLE, "not a store") \
    X(10, KD_FACTS_OUT_OF_RANGE, "facts out of range") \
    X(11, KD_NO_ROOM, "no room for the reply") \
    X(12, KD_NOT_HELD, "a requested hash is not held") \
    X(19, KD_TORRENT_TOO_LARGE, "a torrent above 1 MiB") \
    X(20, KD_NOT_STRICT, "not strict bencoding") \
    X(21, KD_NESTED_TOO_DEEPLY, "nested too deep") \
    X(22, KD_KEY_MISSING, "a key missing or of another type") \
    X(23, KD_OTHER_VERSION, "another version than 2") \
    X(24, KD_PIECE_LENGTH_OUT_OF_RANGE, "the piece length out of range") \
    X(25, KD_WRONG_TREE, "a wrong file tree") \
    X(26, KD_TWO_LENGTHS, "two files with the same root and different lengths") \
    X(27, KD_LAYERS_AMISS, "piece layers that are not those of the files") \
    X(28, KD_LAYER_DIFFERS, "a piece layer that does not give its root") \
    X(29, KD_NO_SUCH_PART, "no such file, path element, name or piece") \
    X(30, KD_FRAME_TOO_LONG, "a frame that is too long") \
    X(31, KD_HALVES_DIFFER, "a hybrid whose halves differ") \
    X(32, KD_NOT_SAVED, "not a saved store")

/* ---- How large things may be. ---- */

#define KD_HASH 32                      /* the bytes of a hash */
#define KD_SHA1 20                      /* the bytes of a SHA-1 */
#define KD_BLOCK 16384                  /* the bytes of a block; the last one of a file may have
                                           fewer */
#define KD_SMALLEST_PIECE_LENGTH 16384  /* a piece length is a power of two from this */
#define KD_LARGEST_PIECE_LENGTH 16777216 /* to this */
#define KD_LONGEST_FILE 17179869184     /* in bytes, a number of 35 bits; the shortest has 1 */
#define KD_TALLEST_TREE 20              /* its tree's height, so its root's layer */
#define KD_LONGEST_RUN 8192             /* the `length` of a hash message, in hashes */
#define KD_HEADER_SIZE 49               /* the bytes of a hash message without its hashes: of a
                                           request, of a reject */
#define KD_LARGEST_REPLY 262417         /* the bytes of the largest hashes message: KD_LONGEST_RUN
                                           hashes, and the uncles above them in the tallest tree */
#define KD_LARGEST_HASHES KD_LARGEST_REPLY /* the same, by the message's name */
#define KD_LARGEST_TORRENT 1048576      /* in bytes */
#define KD_LEVELS 32                    /* how deeply a torrent may be nested, its outer dictionary
                                           being the first level */
#define KD_ELEMENTS 28                  /* the most path elements of a file */
#define KD_RECORD 280                   /* the bytes of a file's record in kd_torrent_list */
#define KD_WRITE_RECORD 56              /* the bytes of a file's record in the list that
                                           kd_torrent_write takes */
#define KD_LONGEST_FRAME 300000         /* the bytes of a message in a stream, its id counted, its
                                           prefix not */
#define KD_LARGEST_SAVE 91226121        /* the bytes of the largest save: the longest file, all
                                           held, all marked */
#define KD_LONGEST_HASHED 2305843009213693951 /* the bytes of a string that SHA-256 and SHA-1 have a
                                                 hash for: below 2^64 bits */

/*
 * The version of the archive. A program that was compiled with a header of another version, another
 * KD_VERSION_NUMBER, must not go on with it.
 */
KD_MUST_USE
uint32_t kd_version(void);

/* ---- Answers. ---- */

/* A hash: the 32 bytes of a SHA-256, in the order in which the standard prints them. */
typedef struct { uint8_t bytes[KD_HASH]; } kd_hash;

/* A number, and beside KD_DONE a count or a size. */
typedef struct { uint32_t number; uint64_t count; } kd_answer;

/* A number, and beside KD_DONE a hash. */
typedef struct { uint32_t number; kd_hash hash; } kd_hashed;

/*
 * SHA-256 by FIPS 180-4 of the `size` bytes at `data`.
 *   KD_WRONG_SIZE  more than 2^61 - 1 bytes, for which the standard has no hash.
 *   KD_DONE  `hash` is the hash.
 */
KD_MUST_USE
kd_hashed kd_sha256(const uint8_t *data, size_t size);

/* The 20 bytes of a SHA-1, in the order in which the standard prints them. */
typedef struct { uint8_t bytes[KD_SHA1]; } kd_sha1_hash;

/* A number, and beside KD_DONE a SHA-1. */
typedef struct { uint32_t number; kd_sha1_hash hash; } kd_sha1_answer;

/*
 * SHA-1 by FIPS 180-4 of the `size` bytes at `data`: what the v1 half of a hybrid torrent is hashed
 * with. Different strings with one SHA-1 are known, so that it alone says little of bytes that
 * somebody chose.
 *   KD_WRONG_SIZE  more than 2^61 - 1 bytes, for which the standard has no hash.
 *   KD_DONE  `hash` is the hash.
 */
KD_MUST_USE
kd_sha1_answer kd_sha1(const uint8_t *data, size_t size);

/* ---- SHA-256 of bytes that come in bursts. ---- */

/*
 * A state is a value: it goes in, and comes back beside the number, so that `state = answer.state`
 * never loses anything. It may be copied, kept and taken up again. Two states of the same bytes are
 * the same, however these were cut.
 *   words      after the whole blocks so far
 *   tail       the bytes past those, zero behind them; what stands behind `tail_size` never matters
 *   tail_size  their count, at most 63
 *   total      the count of all bytes
 */
typedef struct {
    uint32_t words[8]; uint8_t tail[64]; uint64_t tail_size; uint64_t total;
} kd_hashing;

/* A number, and the state after the burst; beside a refusal the state as it was given. */
typedef struct { uint32_t number; kd_hashing state; } kd_hashing_answer;

/* The state of no bytes. */
KD_MUST_USE
kd_hashing kd_hashing_begin(void);

/*
 * Takes a burst of any size, none included.
 *   KD_UNUSABLE  a state whose counts no bursts give: `tail_size` isn't `total` modulo 64, or
 *       `total` is above 2^61 - 1.
 *   KD_WRONG_SIZE  the burst would go past 2^61 - 1 bytes.
 *   KD_DONE  the state after the burst.
 */
KD_MUST_USE
kd_hashing_answer kd_hashing_more(kd_hashing state, const uint8_t *data, size_t size);

/*
 * The hash of the bytes so far. The state may go on from here.
 *   KD_UNUSABLE  as above.
 *   KD_DONE  `hash` is what kd_sha256 gives of all bytes.
 */
KD_MUST_USE
kd_hashed kd_hashing_end(kd_hashing state);

/* ---- The tree of a file as its bytes come in bursts: N, the pieces root, the piece layer. ---- */

/* One node for each layer of the tallest tree, the root's included. */
#define KD_NODES 21

/*
 * A state as above, of 800 bytes.
 *   length  N, the count of all bytes
 *   block   the running hash of the block under way
 *   nodes   for each layer its last finished node; zero where there is none yet
 */
typedef struct {
    uint64_t piece_length; uint64_t length; kd_hashing block; uint8_t nodes[KD_HASH * KD_NODES];
} kd_history;

/*
 * A number, and the state after the burst; beside a refusal the state as it was given (from
 * kd_history_begin, zero).
 */
typedef struct { uint32_t number; kd_history state; } kd_history_answer;

/*
 * A number, and beside KD_DONE N, the pieces root (zero for an empty history), and the piece
 * layer's size in bytes.
 */
typedef struct {
    uint32_t number; uint64_t length; kd_hash root; uint64_t layer_size;
} kd_history_end_answer;

/*
 * The state of no bytes.
 *   KD_FACTS_OUT_OF_RANGE  a bad piece length; the state is zero.
 *   KD_DONE  the state.
 */
KD_MUST_USE
kd_history_answer kd_history_begin(uint64_t piece_length);

/*
 * Takes a burst of any size, none included. A piece's hash is written to the lent layer once the
 * history runs past the piece: after N bytes the first ceil(N / piece length) - 1 have been (none
 * if N is 0), KD_HASH bytes each. Other bytes of the layer stay.
 *   KD_UNUSABLE  a state whose counts no bursts give: a bad piece length, `length` above
 *       KD_LONGEST_FILE, or counts of `block` that aren't those of `length` modulo KD_BLOCK.
 *   KD_FACTS_OUT_OF_RANGE  the burst would go past KD_LONGEST_FILE bytes.
 *   KD_NO_ROOM  a hash that has to be written doesn't fit the layer; none is written.
 *   KD_DONE  the state after the burst.
 */
KD_MUST_USE
kd_history_answer kd_history_more(kd_history state, const uint8_t *data, size_t size,
                                  uint8_t *layer, size_t layer_size);

/*
 * The end, or the end so far: the state may go on from here, so that a growing file can be
 * published again and again. The root comes from the state alone. The last piece's hash is written
 * if the file is longer than the piece length; the layer then has `layer_size` bytes, as
 * kd_load_layer takes them, if each call was lent the layer as the call before left it, or another
 * memory, longer or shorter, with the hashes written so far copied to its front. A logger need not
 * know the file's length at its beginning.
 *   KD_UNUSABLE  as above.
 *   KD_NO_ROOM  the layer doesn't fit; nothing is written.
 *   KD_DONE  N, the root and the layer's size.
 */
KD_MUST_USE
kd_history_end_answer kd_history_end(kd_history state, uint8_t *layer, size_t layer_size);

/* ---- The store: a lent memory that holds hashes of one file's tree, and marks of its blocks.
   docs/LAYOUT.md has its bytes. ---- */

/*
 * The size of a store for a file of `length` bytes.
 *   KD_FACTS_OUT_OF_RANGE  the length is not from 1 to KD_LONGEST_FILE, or the piece length not in
 *       its range. An empty file has no tree, and so no store.
 *   KD_DONE  `count` is the number of bytes that a store uses. A larger memory may be lent: the
 *       rest is never touched.
 */
KD_MUST_USE
kd_answer kd_store_size(uint64_t length, uint64_t piece_length);

/*
 * Makes the memory a store for the file of this length, piece length and pieces root. The root
 * alone is held then, and no block is marked. A store that is opened again forgets everything:
 * opening, loading and repairing, each answered KD_DONE, are the ways to lose a held hash.
 *   KD_FACTS_OUT_OF_RANGE  as above.
 *   KD_UNUSABLE  the memory is shorter than the store.
 *   KD_DONE  `count` is 1. Every byte that the store uses has been set; the bytes behind them stay.
 */
KD_MUST_USE
kd_answer kd_open(uint8_t *store, size_t size, uint64_t length, uint64_t piece_length,
                  kd_hash root);

/*
 * The hash held at a position: layer 0 has the blocks, the layer of the tree's height the pieces
 * root.
 *   KD_UNUSABLE
 *   KD_RULE_BROKEN  the tree has no such position.
 *   KD_NO_ANCHOR  the position is not held.
 *   KD_DONE  `hash` is the hash held.
 */
KD_MUST_USE
kd_hashed kd_held(const uint8_t *store, size_t size, uint64_t layer, uint64_t index);

/* A number, and beside KD_DONE what a store is about. */
typedef struct {
    uint32_t number;
    uint64_t length;
    uint64_t piece_length;
    kd_hash root;
} kd_facts_answer;

/*
 * The facts that a store was opened with. Any usable memory is a store of some file, yesterday's
 * too: a host that finds one asks which.
 *   KD_UNUSABLE
 *   KD_DONE  the file's length, the piece length and the pieces root.
 */
KD_MUST_USE
kd_facts_answer kd_facts(const uint8_t *store, size_t size);

/* ---- The hash messages, without their length prefix: the id byte first. ---- */

/*
 * Offers a hashes message (KD_HASHES), asked for or not. On KD_DONE every position that it settles
 * is held: the hashes given, their parents, the anchor. Anything else leaves the store as it was.
 *   KD_UNUSABLE, KD_NO_MESSAGE, KD_OTHER_ROOT, KD_RULE_BROKEN, KD_WRONG_SIZE, KD_WRONG_PADDING,
 *       KD_NO_ANCHOR, KD_DIFFERS, KD_CONFLICT
 *   KD_DONE  `count` says how many positions are newly held.
 */
KD_MUST_USE
kd_answer kd_take(uint8_t *store, size_t size, const uint8_t *message, size_t message_size);

/*
 * Hears a reject (KD_HASH_REJECT). It changes nothing.
 *   KD_UNUSABLE, KD_NO_MESSAGE, KD_OTHER_ROOT, KD_RULE_BROKEN
 *   KD_DONE  a well-formed reject about this file; `count` is 0.
 */
KD_MUST_USE
kd_answer kd_take_reject(const uint8_t *store, size_t size, const uint8_t *message,
                         size_t message_size);

/*
 * Answers a request (KD_HASH_REQUEST) from what is held, into `out`: a hashes message, or a reject
 * with the request's bytes behind the id. KD_LARGEST_REPLY bytes are always room enough.
 *   KD_UNUSABLE, KD_NO_MESSAGE  nothing is written.
 *   KD_OTHER_ROOT, KD_RULE_BROKEN, KD_NOT_HELD  a reject has been written; `count` is
 *       KD_HEADER_SIZE.
 *   KD_NO_ROOM  in place of the reply or the reject, whichever there is no room for; nothing is
 *       written.
 *   KD_DONE  the hashes message has been written; `count` is its size. Bytes of `out` behind it
 *       stay.
 */
KD_MUST_USE
kd_answer kd_serve(const uint8_t *store, size_t size, const uint8_t *request, size_t request_size,
                   uint8_t *out, size_t out_size);

/* ---- The piece layer, blocks and pieces. ---- */

/*
 * Loads the piece layer: KD_HASH bytes for each piece, as a torrent's `piece layers` has them.
 *   KD_UNUSABLE, KD_RULE_BROKEN, KD_WRONG_SIZE, KD_NO_ANCHOR, KD_DIFFERS, KD_CONFLICT
 *   KD_DONE  the piece layer and all layers above it are held; `count` says how many positions are
 *       newly held.
 */
KD_MUST_USE
kd_answer kd_load_layer(uint8_t *store, size_t size, const uint8_t *layer, size_t layer_size);

/*
 * Judges a block of KD_BLOCK bytes (the last one shorter) against its leaf.
 *   KD_UNUSABLE, KD_RULE_BROKEN, KD_WRONG_SIZE, KD_NO_ANCHOR, KD_DIFFERS  not believed; no byte of
 *       the store changes.
 *   KD_DONE  believed, and the block's mark is set; `count` is 0.
 */
KD_MUST_USE
kd_answer kd_judge_block(uint8_t *store, size_t size, uint64_t block, const uint8_t *data,
                         size_t data_size);

/*
 * Judges a piece against its node in the piece layer, or against the held root for a file of one
 * piece.
 *   KD_UNUSABLE, KD_RULE_BROKEN, KD_WRONG_SIZE, KD_NO_ANCHOR, KD_DIFFERS, KD_CONFLICT  not
 *       believed; no byte of the store changes.
 *   KD_DONE  believed, and the mark of each block of the piece is set; `count` is 0.
 */
KD_MUST_USE
kd_answer kd_judge_piece(uint8_t *store, size_t size, uint64_t piece, const uint8_t *data,
                         size_t data_size);

/*
 * Judges a piece of a hybrid torrent by both halves: as kd_judge_piece, and then by its v1 hash,
 * which covers `zeros` zeros behind the data (kd_torrent_v1_piece, kd_torrent_v1_pieces). They
 * stand in no memory. A store does not know whether its file is a hybrid's: kd_judge_block and
 * kd_judge_piece judge, and mark, by the v2 half alone there too.
 *   KD_UNUSABLE, KD_RULE_BROKEN, KD_WRONG_SIZE, KD_NO_ANCHOR, KD_DIFFERS, KD_CONFLICT  as
 *       kd_judge_piece answers them.
 *   KD_WRONG_SIZE  data and zeros are more than the piece length.
 *   KD_DIFFERS  the SHA-1 of data and zeros is another: by the v2 half the piece is right. No byte
 *       of the store changes.
 *   KD_DONE  both halves agree, and the mark of each block of the piece is set; `count` is 0.
 */
KD_MUST_USE
kd_answer kd_judge_hybrid_piece(uint8_t *store, size_t size, uint64_t piece, const uint8_t *data,
                                size_t data_size, kd_sha1_hash v1, uint64_t zeros);

/*
 * Writes the hashes of a piece's blocks into `out`, as the message (KD_HASHES) that teaches them:
 * kd_take of it on this store is KD_DONE, and then every leaf of the piece is held. So a store that
 * learnt from a layer, or is of a file that was logged here, can answer requests for leaves. The
 * store is only read, and no mark is set. KD_HEADER_SIZE and a 512th of the piece length are always
 * room enough.
 *   KD_UNUSABLE, KD_RULE_BROKEN, KD_WRONG_SIZE, KD_NO_ANCHOR, KD_DIFFERS, KD_CONFLICT  as
 *       kd_judge_piece; nothing is written.
 *   KD_NO_ROOM  `out` is shorter than the message; nothing is written.
 *   KD_DONE  `count` is the message's size, leaves that are padding included; 0 only where the
 *       piece's node is itself a leaf (pieces of one block, or a file of one): there is nothing to
 *       say then. Bytes of `out` behind it stay.
 */
KD_MUST_USE
kd_answer kd_piece_hashes(const uint8_t *store, size_t size, uint64_t piece, const uint8_t *data,
                          size_t data_size, uint8_t *out, size_t out_size);

/* ---- Marks: which blocks were judged right, for a host to know what it has on disk. Judging sets
   them, and kd_load those that were saved; only kd_clear, kd_open, kd_load and kd_repair take them
   back. ---- */

/*
 * Whether a block is marked: in a store that no one else wrote to, its data was judged right since
 * the opening, and the mark not cleared since; or kd_load set the mark, because the saved bytes
 * named the block.
 *   KD_UNUSABLE
 *   KD_RULE_BROKEN  the file has no such block.
 *   KD_DONE  `count` is 1 if it is marked, else 0.
 */
KD_MUST_USE
kd_answer kd_marked(const uint8_t *store, size_t size, uint64_t block);

/*
 * Clears a block's mark, for a host that lost the block. No hash is forgotten.
 *   KD_UNUSABLE
 *   KD_RULE_BROKEN  the file has no such block.
 *   KD_DONE  the mark is cleared, whether it was set or not; `count` is 0.
 */
KD_MUST_USE
kd_answer kd_clear(uint8_t *store, size_t size, uint64_t block);

/*
 * Writes the bitfield of the pieces whose blocks are all marked into `out`: a bit for each piece,
 * the first piece's the highest of the first byte, spare bits zero.
 *   KD_UNUSABLE  nothing is written.
 *   KD_NO_ROOM  `out` is shorter than the bitfield; nothing is written.
 *   KD_DONE  `count` is the bitfield's size. Bytes of `out` behind it stay.
 */
KD_MUST_USE
kd_answer kd_bitfield(const uint8_t *store, size_t size, uint8_t *out, size_t out_size);

/* ---- What to ask for next: hashes of a layer, a piece of the file. Neither call writes. ---- */

/*
 * A number, and beside KD_DONE a request: `asks` is 1 with its base layer, index, length and proof
 * layers, and its bytes as they are sent and as kd_serve takes them; or `asks` is 0 and all else
 * zero: nothing to ask.
 */
typedef struct {
    uint32_t number; uint32_t asks; uint32_t base; uint32_t index; uint32_t length; uint32_t proof;
    uint8_t message[KD_HEADER_SIZE];
} kd_request;

/*
 * The next request for a layer, 0 or the piece layer: the run that contains the lowest position
 * that isn't padding and isn't held, of KD_LONGEST_RUN hashes or of the whole layer if that is
 * shorter, with the fewest proof layers whose anchor is held. So a reply to it is never
 * KD_NO_ANCHOR. Its run is named again and again until a message makes the position held, with
 * fewer proof layers once a nearer anchor is held.
 *   KD_UNUSABLE
 *   KD_RULE_BROKEN  a layer that is neither 0 nor the piece layer of a file longer than the piece
 *       length.
 *   KD_NO_ANCHOR  the root is not held.
 *   KD_DONE  the request; or nothing to ask: every position of the layer that isn't padding is
 *       held.
 */
KD_MUST_USE
kd_request kd_next_request(const uint8_t *store, size_t size, uint64_t layer);

/* A number, and beside KD_DONE a piece: `found` is 1 with its number, or 0: nothing to fetch. */
typedef struct { uint32_t number; uint32_t found; uint64_t piece; } kd_choice;

/*
 * The piece to fetch: of the pieces whose blocks aren't all marked the one with the smallest count
 * above zero, the lowest number on a tie. `counts` has one for each piece: how many neighbours have
 * it. (`count` is their number, not their size in bytes.)
 *   KD_UNUSABLE
 *   KD_WRONG_SIZE  `count` isn't the number of the file's pieces.
 *   KD_DONE  the piece; or nothing to fetch.
 */
KD_MUST_USE
kd_choice kd_pick_piece(const uint8_t *store, size_t size, const uint32_t *counts, size_t count);

/* ---- A store saved and loaded again, after a restart or elsewhere. docs/LAYOUT.md gives the form
   to the byte. ---- */

/*
 * Writes what a store holds into `out`: its facts, every held position, every marked block. The
 * same knowledge always has the same bytes. Twice the store's size is always room enough.
 *   KD_UNUSABLE  nothing is written.
 *   KD_NO_ROOM  `out` is shorter than the save; nothing is written.
 *   KD_DONE  `count` is the save's size. Bytes of `out` behind it stay.
 */
KD_MUST_USE
kd_answer kd_save(const uint8_t *store, size_t size, uint8_t *out, size_t out_size);

/*
 * Makes the memory the store that was saved, whatever stood there, as kd_open does: an older save
 * brings back older knowledge. The bytes may come from anywhere: loaded is only what has the form,
 * holds the root with the opening's value, and in which every other position has its sibling and
 * its parent, which is the hash of the two, and padding its value. So a hash that was loaded is
 * worth as much as one that was taken.
 * A mark can't be checked so: it is believed, and says of the data just what the save says. A host
 * that doubts its file repairs.
 *   KD_NOT_SAVED  no whole opening record.
 *   KD_FACTS_OUT_OF_RANGE  its facts.
 *   KD_UNUSABLE  the memory is shorter than their store.
 *   KD_NOT_SAVED  for the rest; so every beginning that a save was cut to is refused.
 *   KD_DONE  `count` is the positions held. Every byte that the store uses has been set; the bytes
 *       behind them stay.
 */
KD_MUST_USE
kd_answer kd_load(uint8_t *store, size_t size, const uint8_t *saved, size_t saved_size);

/* A number, and beside KD_DONE how many positions were dropped and how many are held. */
typedef struct { uint32_t number; uint64_t dropped; uint64_t held; } kd_repaired;

/*
 * Loads the largest part of the positions that kd_load would load, and clears all marks. It helps
 * against damaged hashes; it asks for the whole form, so not against a save that was cut short, nor
 * against a damaged kind, layer, index, mark or end with which the form is lost.
 *   KD_NOT_SAVED, KD_FACTS_OUT_OF_RANGE, KD_UNUSABLE  as kd_load.
 *   KD_NOT_SAVED  not the form, or the root is not held with the opening's value.
 *   KD_DONE  how many positions were dropped and how many are held.
 */
KD_MUST_USE
kd_repaired kd_repair(uint8_t *store, size_t size, const uint8_t *saved, size_t saved_size);

/* ---- A file that goes on from an earlier one. ---- */

/*
 * Whether the file that the store is of begins with an earlier file, every byte of it: a history
 * that grew is told from one that changed. Of the earlier file its length and pieces root are
 * enough; of the store's file the hashes over the earlier one's whole blocks, which come by kd_take
 * or kd_load_layer like any others, and the one block over the earlier end. Nothing is written.
 *
 * `block` is the store's file's block number old_length / KD_BLOCK, at its own length; it is judged
 * here, and need not be before. Where old_length is a multiple of KD_BLOCK it is empty. In a store
 * that only this library has written no hash is missing with all leaves held (nothing to ask of
 * layer 0), nor with the piece layer loaded where old_length is a multiple of the piece length.
 *   KD_UNUSABLE
 *   KD_RULE_BROKEN  old_length is 0, or above the store's length: a file can't have been longer.
 *   KD_WRONG_SIZE  block_size isn't that of the block.
 *   KD_NO_ANCHOR  the block's leaf, or a hash over whole blocks of the earlier file that is needed,
 *       isn't held.
 *   KD_DIFFERS  the block isn't the one held, or the file doesn't begin with such a file: another
 *       history.
 *   KD_DONE  it does; `count` is old_length.
 */
KD_MUST_USE
kd_answer kd_extends(const uint8_t *store, size_t size, uint64_t old_length, kd_hash old_root,
                     const uint8_t *block, size_t block_size);

/* ---- Reading a v2 torrent: the bytes of a .torrent file, at most KD_LARGEST_TORRENT. ---- */

/* A number, and beside KD_DONE what a torrent says as a whole. */
typedef struct {
    uint32_t number; kd_hash info_hash; uint64_t piece_length; uint64_t files;
} kd_torrent;

/*
 * A number, and beside KD_DONE one file: the pieces root (zero for an empty file), the number of
 * path elements, and the part of the torrent's bytes that is its piece layer, as kd_load_layer
 * takes it (0 0 if it has none). Files with the same root share it.
 */
typedef struct {
    uint32_t number; uint64_t length; kd_hash root; uint64_t elements;
    uint64_t layer_start; uint64_t layer_size;
} kd_file;

/*
 * A number, and beside KD_DONE a part of the torrent's bytes: a string's content, without its
 * length prefix, or the value of `info`.
 */
typedef struct { uint32_t number; uint64_t start; uint64_t size; } kd_part;

/*
 * Reads a whole torrent.
 *   19 to 28, KD_TORRENT_TOO_LARGE to KD_LAYER_DIFFERS: the lowest, but of 20 and 21 the one met
 *       first from the left.
 *   KD_HALVES_DIFFER  a hybrid (its `info` has `pieces`) whose halves don't fit; below.
 *   KD_DONE  the info hash, the piece length and the number of files.
 */
KD_MUST_USE
kd_torrent kd_torrent_read(const uint8_t *torrent, size_t size);

/*
 * File number `file` in tree order, from 0. Each call checks the whole torrent anew:
 * kd_torrent_list gives all files at once.
 *   19 to 28, 31 as above, then KD_NO_SUCH_PART.
 *   KD_DONE  the file.
 */
KD_MUST_USE
kd_file kd_torrent_file(const uint8_t *torrent, size_t size, uint64_t file);

/*
 * Path element number `element` of a file, from 0. Checks the whole torrent anew. An element is any
 * bytes, not always text, but never empty, `.` or `..`, and it has no `/` and no zero byte: where
 * `/` alone separates names, a file's path leads from any folder one step down for each element,
 * and never out of it. A torrent with any other element is refused; nothing is renamed.
 *
 * What the host still has to see to: on a system with other separators or names of its own (a
 * backslash, a colon, `NUL`, a dot or a space at the end, names that differ in case alone, bytes
 * that are no text there) it refuses or encodes such elements itself; and a link that stands in the
 * folder already may lead out of it. The torrent's `name` is not checked.
 *   19 to 28, 31 as above, then KD_NO_SUCH_PART: no such file, or no such element.
 *   KD_DONE  where it stands.
 */
KD_MUST_USE
kd_part kd_torrent_path(const uint8_t *torrent, size_t size, uint64_t file, uint64_t element);

/*
 * All files in tree order in one pass, a record of KD_RECORD bytes each, all numbers big-endian:
 *    0  length (8 bytes)             8  pieces root (32), zero for an empty file
 *   40  layer's start (4), size (4)  48  number of path elements (4), 1 to KD_ELEMENTS; 4 zeros
 *   56  start (4) and size (4) of each of KD_ELEMENTS path elements; zero for those it has not
 *   19 to 28, 31 as above, then KD_NO_ROOM; nothing is written.
 *   KD_DONE  `count` is the number of bytes written, KD_RECORD for each file. Bytes of `out` behind
 *       them stay.
 */
KD_MUST_USE
kd_answer kd_torrent_list(const uint8_t *torrent, size_t size, uint8_t *out, size_t out_size);

/*
 * The part of the torrent that the value of `info` is, whole and encoded: its SHA-256 is the info
 * hash. The metadata exchange serves it.
 *   19 to 28, 31 as above.
 *   KD_DONE  where it stands.
 */
KD_MUST_USE
kd_part kd_torrent_info(const uint8_t *torrent, size_t size);

/*
 * The part that the content of the string `name` in `info` is, with its place also where it is
 * empty. It is any bytes: no rule for path elements has been asked of it.
 *   19 to 28, 31 as above, then KD_NO_SUCH_PART: `info` has no string `name`.
 *   KD_DONE  where it stands.
 */
KD_MUST_USE
kd_part kd_torrent_name(const uint8_t *torrent, size_t size);

/* ---- Hybrid torrents: `info` has `pieces`, and so a v1 half beside the v2 half. ---- */

/*
 * Of a hybrid with none of 19 to 28, the halves fit, and no call on it answers KD_HALVES_DIFFER,
 * exactly where all of this holds, of BEP 3 and BEP 47:
 *   - `info` has either `files`, a list, where `name`, if there is one, is a string; or `length`,
 *     and a string `name`, which is the one path element of the one file;
 *   - each entry of `files` is a dictionary with a `length` that isn't negative; its `attr`, if
 *     there is one, is a string; its `path` is a list of one or more strings, none of them empty.
 *     An `attr` with a `p` in it makes the entry padding, which may do without a `path`;
 *   - the entries that aren't padding are the files of the file tree: in tree order, each with its
 *     length and its path;
 *   - each file, an empty one too, begins at a multiple of the piece length;
 *   - `pieces` is a string of KD_SHA1 bytes for each piece of all entries together.
 * Other keys are skipped: `sha1`, `mtime` and `symlink path` of an entry, `attr` of `info`.
 */

/* A number, and beside KD_DONE 1 with the v1 info hash of a hybrid, or 0 and a zero hash. */
typedef struct { uint32_t number; uint32_t hybrid; kd_sha1_hash info_hash; } kd_hybrid;

/*
 * Whether a torrent is a hybrid. Its v1 info hash is the SHA-1 of the part that kd_torrent_info
 * gives: neighbours that speak v1 alone know the torrent by it.
 *   19 to 28, 31 as above.
 *   KD_DONE  `hybrid` is 1 and `info_hash` the v1 info hash; or `hybrid` is 0.
 */
KD_MUST_USE
kd_hybrid kd_torrent_hybrid(const uint8_t *torrent, size_t size);

/* A number, and beside KD_DONE the v1 hash of a piece, and how many zeros behind it it covers. */
typedef struct { uint32_t number; kd_sha1_hash hash; uint64_t zeros; } kd_v1_piece;

/*
 * The v1 hash of a piece of a file, both from 0, as kd_judge_hybrid_piece takes it. It covers the
 * file's piece and the zeros of the padding behind it, up to the piece length or the end of all
 * entries. Each call checks the whole torrent anew: kd_torrent_v1_pieces gives all of a file.
 *   19 to 28, 31 as above, then KD_NO_SUCH_PART: no such file.
 *   KD_RULE_BROKEN  the torrent is no hybrid, or the file has no such piece.
 *   KD_DONE  the hash and the zeros; only behind a file's last piece are there any.
 */
KD_MUST_USE
kd_v1_piece kd_torrent_v1_piece(const uint8_t *torrent, size_t size, uint64_t file,
                                uint64_t piece);

/* A number, and beside KD_DONE a part of the torrent's bytes, and a count of zeros. */
typedef struct { uint32_t number; uint64_t start; uint64_t size; uint64_t zeros; } kd_v1_part;

/*
 * The v1 hashes of all pieces of a file: KD_SHA1 bytes each, in a row.
 *   19 to 28, 31 as above, then KD_NO_SUCH_PART: no such file.
 *   KD_RULE_BROKEN  the torrent is no hybrid.
 *   KD_DONE  where they stand (0 0 for an empty file), and the zeros that the last one covers.
 */
KD_MUST_USE
kd_v1_part kd_torrent_v1_pieces(const uint8_t *torrent, size_t size, uint64_t file);

/* ---- Pieces as they are counted on the wire: file by file in tree order. An empty file has none.
   (In a hybrid whose padding has a whole piece or more, v1 counts that padding's pieces too;
   kd_torrent_v1_piece takes the file's own number.) Both calls take the list that kd_torrent_list
   writes, `count` bytes of it. ---- */

/* A number, and beside KD_DONE a file and a piece of it, both from 0. */
typedef struct { uint32_t number; uint64_t file; uint64_t piece; } kd_placed;

/*
 * Where a piece of the wire stands. Each piece up to the last has exactly one place.
 *   KD_WRONG_SIZE  the list isn't in its form: no whole number of records, more than 1048576 of
 *       them, or a length above KD_LONGEST_FILE.
 *   KD_PIECE_LENGTH_OUT_OF_RANGE
 *   KD_NO_SUCH_PART  past the last piece.
 *   KD_DONE  the file's number, and the piece's in it.
 */
KD_MUST_USE
kd_placed kd_place(const uint8_t *list, size_t list_size, uint64_t piece_length, uint64_t piece);

/*
 * The way back: the number on the wire of a file's first piece; of an empty file it is the next
 * file's.
 *   KD_WRONG_SIZE, KD_PIECE_LENGTH_OUT_OF_RANGE  as above.
 *   KD_NO_SUCH_PART  no such file.
 *   KD_DONE  `count` is the number.
 */
KD_MUST_USE
kd_answer kd_first_piece(const uint8_t *list, size_t list_size, uint64_t piece_length,
                         uint64_t file);

/* ---- The records of lists, read and written. Nothing is checked here: the list is one that
   kd_torrent_list wrote, `file` and `element` are in it, and the memory has the room. ---- */

/* A number of so many bytes, most significant first, as lists and messages have them. */
static inline uint64_t kd_get(const uint8_t *bytes, size_t size)
{
    uint64_t number = 0;
    for (size_t i = 0; i < size; i++)
        number = number << 8 | bytes[i];
    return number;
}

static inline void kd_put(uint8_t *bytes, size_t size, uint64_t number)
{
    for (size_t i = size; i-- > 0; number >>= 8)
        bytes[i] = (uint8_t)number;
}

/* A file of the list, as kd_torrent_file answers it. */
static inline kd_file kd_listed_file(const uint8_t *list, uint64_t file)
{
    const uint8_t *record = list + KD_RECORD * file;
    kd_file read = {KD_DONE, kd_get(record, 8), {{0}}, kd_get(record + 48, 4),
                    kd_get(record + 40, 4), kd_get(record + 44, 4)};
    for (size_t i = 0; i < KD_HASH; i++)
        read.root.bytes[i] = record[8 + i];
    return read;
}

/* An element of its path, as kd_torrent_path answers it. */
static inline kd_part kd_listed_path(const uint8_t *list, uint64_t file, uint64_t element)
{
    const uint8_t *place = list + KD_RECORD * file + 56 + 8 * element;
    kd_part part = {KD_DONE, kd_get(place, 4), kd_get(place + 4, 4)};
    return part;
}

/* Record number `file` of the list that kd_torrent_write takes. */
static inline void kd_write_record(uint8_t *list, uint64_t file, uint64_t length, kd_hash root,
                                   uint32_t layer_start, uint32_t layer_size, uint32_t path_start,
                                   uint32_t path_size)
{
    uint8_t *record = list + KD_WRITE_RECORD * file;
    kd_put(record, 8, length);
    for (size_t i = 0; i < KD_HASH; i++)
        record[8 + i] = root.bytes[i];
    kd_put(record + 40, 4, layer_start);
    kd_put(record + 44, 4, layer_size);
    kd_put(record + 48, 4, path_start);
    kd_put(record + 52, 4, path_size);
}

/* ---- Writing a v2 torrent. ---- */

/*
 * Writes the torrent of a list of files, with this piece length and name: `info` with `file tree`,
 * `meta version`, `name` and `piece length`, then `piece layers`, and nothing else. kd_torrent_read
 * answers it KD_DONE. The list has a record of KD_WRITE_RECORD bytes for each file, all numbers
 * big-endian:
 *    0  length (8 bytes)             8  pieces root (32), zero for an empty file
 *   40  layer's start (4), size (4)  48  path's start (4), size (4)
 * Starts and sizes are parts of `text`. Parts may overlap or be shared; an empty one may start
 * anywhere up to the text's end. A path is its elements in a row, each a size (4) and so many
 * bytes. A layer is as kd_history_end leaves it and kd_load_layer takes it, and is empty for a file
 * not longer than the piece length. The order of the files, and where their parts stand, make no
 * difference to the answer or to the bytes written. Files with one root share one layer in the
 * torrent.
 *
 * No path is written that kd_torrent_path would not give: what it says of elements holds here too.
 * `name` may be any bytes.
 *   KD_WRONG_SIZE  the list isn't in this form: no whole number of records, a length of 2^63 or
 *       more, a part that ends behind the text, a path that isn't exactly such elements.
 *   then the lowest that holds of the list's files, wherever they stand:
 *   KD_TORRENT_TOO_LARGE  the torrent would have more than KD_LARGEST_TORRENT bytes, each record
 *       counted, and one layer a root.
 *   KD_NESTED_TOO_DEEPLY  a path of more than KD_ELEMENTS elements.
 *   KD_PIECE_LENGTH_OUT_OF_RANGE
 *   KD_WRONG_TREE  no file; a path without elements, that stands twice or that leads through
 *       another file; an element that is empty, `.` or `..`, or has a `/` or a zero byte in it; a
 *       file above KD_LONGEST_FILE; an empty file with another root than zero.
 *   KD_TWO_LENGTHS  two files that aren't empty with the same root and different lengths.
 *   KD_LAYERS_AMISS  a layer hasn't 32 bytes per piece of a file longer than the piece length, or
 *       another file has one.
 *   KD_LAYER_DIFFERS  a layer doesn't give its root, or two files that aren't empty have the same
 *       root and different layers.
 *   KD_NO_ROOM  `out` is shorter than the torrent.
 *   KD_DONE  `count` is the torrent's size. Bytes of `out` behind it stay.
 * KD_LARGEST_TORRENT bytes are always room enough. Nothing is written beside a refusal.
 */
KD_MUST_USE
kd_answer kd_torrent_write(const uint8_t *list, size_t list_size,
                           const uint8_t *text, size_t text_size, uint64_t piece_length,
                           const uint8_t *name, size_t name_size, uint8_t *out, size_t out_size);

/* ---- The byte stream from a neighbour, cut anywhere, and the frames sent to it (BEP 3). ---- */

/*
 * A frame is a prefix of 4 bytes, a big-endian length, and so many bytes: a message, its id first.
 * Length 0 is a keep-alive.
 */

/* The known ids, and how many bytes their messages have, the id counted. */
#define KD_CHOKE 0                      /* 1 */
#define KD_UNCHOKE 1                    /* 1 */
#define KD_INTERESTED 2                 /* 1 */
#define KD_NOT_INTERESTED 3             /* 1 */
#define KD_HAVE 4                       /* 5 */
#define KD_BITFIELD 5                   /* 2 or more */
#define KD_REQUEST 6                    /* 13 */
#define KD_PIECE 7                      /* 9 or more */
#define KD_CANCEL 8                     /* 13 */
#define KD_EXTENDED 20                  /* 2 or more */
#define KD_HASH_REQUEST 21              /* KD_HEADER_SIZE, as kd_serve takes it */
#define KD_HASHES 22                    /* KD_HEADER_SIZE or more, as kd_take takes it */
#define KD_HASH_REJECT 23               /* KD_HEADER_SIZE, as kd_take_reject takes it */

/* What is heard beside KD_DONE; 0 is nothing. */
#define KD_MESSAGE 1
#define KD_KEEP_ALIVE 2

/*
 * Where a stream stands: a value that goes in and comes back, as `state = heard.state`. It may be
 * copied and kept. Before the first frame and between two all fields are zero.
 *   length       the number that the prefix's bytes make so far
 *   length_size  how many of its 4 bytes they are
 *   read         bytes of the frame read
 *   mode         0 they are stored in the room; skipped: 1 an unknown id, 2 a wrong size, 3 larger
 *                than the room; 4 the stream is refused
 */
typedef struct { uint32_t length; uint32_t length_size; uint32_t read; uint32_t mode; } kd_stream;

/*
 * A number; what is heard (0, KD_MESSAGE or KD_KEEP_ALIVE); how many of the bytes given were used;
 * a message's size; the state then. Beside a refusal `event` and `size` are zero.
 */
typedef struct {
    uint32_t number; uint32_t event; uint64_t used; uint64_t size; kd_stream state;
} kd_heard;

/* The state of a stream from which no byte has come. It begins a refused stream afresh, too. */
KD_MUST_USE
kd_stream kd_stream_begin(void);

/*
 * Hears bytes, up to the first at which something is heard, or all of them. Offer what was not used
 * again, with the state that came back and the room as it was left: every cutting of a stream gives
 * the same messages, the same numbers and the same state at the end. The room holds the frame under
 * way between calls; a message has its bytes at the room's start until the next call.
 * KD_LONGEST_FRAME bytes hold any message. Messages of unknown ids are skipped without a word.
 *   KD_UNUSABLE  a state that no bytes give, or that has stored more bytes than this room has.
 *       Nothing is used, and the state comes back as it was given.
 *   KD_FRAME_TOO_LONG  a prefix above KD_LONGEST_FRAME. It comes with the prefix's last byte; from
 *       then on every call is answered so, and uses nothing.
 *   KD_NO_MESSAGE  a message of a known id with a wrong size was skipped: it comes with its last
 *       byte, and the state is between two frames.
 *   KD_NO_ROOM  else, a message larger than the room was skipped: likewise.
 *   KD_DONE  `event` is KD_MESSAGE, and the message is the first `size` bytes of the room; or
 *       KD_KEEP_ALIVE; or 0: all bytes were used.
 * No byte of the room is read, and none is written but those of the message under way. Beside a
 * refusal the room is as it was.
 *
 *     kd_stream state = kd_stream_begin();                           // once for each neighbour
 *
 *     // for each piece of `size` bytes at `data` that the link gives
 *     for (;;) {
 *         kd_heard heard = kd_stream_hear(state, data, size, room, sizeof room);
 *         state = heard.state, data += heard.used, size -= heard.used;
 *         if (heard.number == KD_FRAME_TOO_LONG || heard.number == KD_UNUSABLE)
 *             return hang_up();
 *         if (heard.number == KD_DONE && heard.event == 0)
 *             break;                                                 // the piece is used up
 *         if (heard.event == KD_MESSAGE && room[0] == KD_HASHES)
 *             tell(kd_take(store, store_size, room, heard.size));    // never KD_NO_MESSAGE
 *     }
 */
KD_MUST_USE
kd_heard kd_stream_hear(kd_stream state, const uint8_t *data, size_t size, uint8_t *room,
                        size_t room_size);

/*
 * Writes the frame of a message, its id first, into `out`; of no bytes the keep-alive. What is
 * written is heard by kd_stream_hear as it was given, where there is room for it.
 *   KD_FRAME_TOO_LONG  more than KD_LONGEST_FRAME bytes.
 *   KD_NO_MESSAGE  an unknown id, or a wrong size for its id.
 *   KD_NO_ROOM  `out` is shorter than the frame, 4 bytes more than the message.
 *   KD_DONE  `count` is the frame's size. Bytes of `out` behind it stay.
 * Nothing is written beside a refusal.
 */
KD_MUST_USE
kd_answer kd_frame(const uint8_t *message, size_t size, uint8_t *out, size_t out_size);

#ifdef __cplusplus
}
#endif

#endif
