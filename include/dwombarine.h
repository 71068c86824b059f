/* Dwombarine: SHA-2 at once, half-read messages in a table of bays, HMAC, chunk trees, whole and over a stream, and digest lists.
 *
 * A message in pieces, saved halfway and finished from its record in another bay, as after a restart, or on another machine. Each call here
 * answers DW_DONE; a program asks whether it did.
 *
 *    uint64_t table[DW_TABLE_WORDS(2)], edition, count;
 *    uint8_t record[DW_LONGEST_RECORD], digest[DW_DIGEST_BYTES(DW_SHA256)];
 *    dw_lay_out(table, DW_TABLE_WORDS(2), 2);                                           // two bays, over memory that held anything
 *    dw_open(table, DW_TABLE_WORDS(2), 0, DW_SHA256);
 *    dw_add(table, DW_TABLE_WORDS(2), 0, (const uint8_t *)"carrier 4, ", 11);
 *    dw_ask(table, DW_TABLE_WORDS(2), 0, &edition, &count);                             // SHA-256, of which 11 bytes are taken
 *    dw_save(table, DW_TABLE_WORDS(2), 0, record, sizeof record);                       // the record is shorter than its room
 *    dw_load(table, DW_TABLE_WORDS(2), 1, record, DW_RECORD_BYTES(edition, count));
 *    dw_add(table, DW_TABLE_WORDS(2), 1, (const uint8_t *)"row 12", 6);
 *    dw_close(table, DW_TABLE_WORDS(2), 1, 0, 0, digest, sizeof digest);                // the digest of "carrier 4, row 12"
 *
 * Compile and link with what `pkg-config --cflags --libs dwombarine` prints.
 *
 * Answers: every call takes any numbers and any bytes, under the rules for pointers below, ends, and answers a number of enum dw_answer.
 * Where several apply it is the first in the order that stands beside the call.
 *
 * Memory: the caller owns all of it and lends it for the length of the call. Nothing is allocated, and no pointer is kept. A pointer comes
 * with its count of elements; what a call writes overlaps nothing else that is lent to it. A refused call (not 0) writes nothing to a
 * table, a stream, a keyed hash, an output or a list's buffer; ask and lookup then set their two values to 0. Digests, tags, records, roots
 * and lists are written at the front of the output, and the bytes behind them stay as they were. A table, a stream and a keyed hash are
 * aligned as uint64_t is, and so are the two values; bytes need no alignment.
 *
 * Null: no pointer may be null, not even that of an empty buffer. Where the count is 0, pass the address of anything.
 *
 * Stack: dw_tree takes up to 36,784 bytes of it, dw_stream_add 11,440, dw_stream_root 7,840, dw_stream_begin 4,224, dw_check_tag 3,504,
 * dw_tag 3,488, dw_keyed_add 3,504, dw_keyed_tag 3,424, dw_keyed_check 3,424, dw_keyed_start 2,928, dw_add 2,896, dw_close 2,816,
 * dw_hash 2,512, dw_load 1,864, dw_save 1,480, dw_ask 1,144, dw_open 768, dw_judge 464, dw_lookup 440, dw_list_put 416, dw_drop 176,
 * dw_lay_out 48 and dw_list_start 32: measured on x86-64 and on Arm, the larger of both, but those of the calls with a key, of dw_add,
 * dw_open, dw_load, dw_save, dw_drop, dw_judge, dw_lookup, dw_list_put and dw_lay_out on x86-64 alone. A thread with a small stack has to
 * have as much to spare; four macros below have it in round numbers.
 *
 * Threads: nothing is kept between calls but what stands in a table, in a stream, in a keyed hash, or in a buffer with a list. Calls on
 * different tables, streams or keyed hashes, and calls on none, may run at once, each with outputs of its own, and a buffer in which a list
 * is written is such an output; on one table only dw_ask and dw_save may run beside each other, on one stream only dw_stream_root beside
 * itself, and on one keyed hash only dw_keyed_tag and dw_keyed_check. None may read what another writes: no dw_judge beside a dw_list_put
 * on one buffer.
 *
 * C++: include this as it is; the names are extern "C", and nothing throws. Answers are uint64_t and compare with the names of the enums as
 * they are; to make an enum of one takes a cast. An edition of the enum is passed as it is. data() of an empty std::vector, std::span or
 * std::string_view may be null: pass the address of something else then.
 *
 * Machines: a record, a list and a tag mean the same on every machine. A table, a stream and a keyed hash belong to the machine they were
 * made on: their words are in that machine's own byte order. size_t must have 64 bits, which is checked below.
 *
 * Versions: until 1.0 the second number of DW_VERSION grows whenever a signature, a number or a size of this header changes, or what a call
 * makes of the same bytes, and the name by which the shared library is loaded with it. So a program that was compiled with another header
 * does not start with it.
 *
 * Linking: the library needs memcpy and memset of the C library, and nothing else.
 *
 * Proved: the twenty-three calls, down to every byte that they write. Not proved, but tested: this header and dw_answer_text, which are C.
 *
 * Not promised: how long a call takes, which may tell of what it is lent, keys and tags too; and that anything is wiped. What a call had of
 * a key may stand in its stack afterwards, and a keyed hash is as secret as its key: whoever reads its words makes tags with it. The caller
 * clears what he lends.
 */
#ifndef DWOMBARINE_H
#define DWOMBARINE_H

#include <stddef.h>
#include <stdint.h>

#ifdef __cplusplus
extern "C" {
#endif

#define DW_VERSION "0.5.0"

/* the library takes every count as 64 bits: where size_t has not so many, this does not compile */
typedef char dw_size_t_has_64_bits[sizeof(size_t) == 8 ? 1 : -1];

/* What a call answers. */
enum dw_answer {
    DW_DONE = 0,
    DW_BAD_TABLE = 1,       /* not a table */
    DW_NO_SUCH_BAY = 2,     /* the table has not so many bays */
    DW_BAY_TAKEN = 3,       /* a message is in the bay */
    DW_BAY_EMPTY = 4,       /* none is */
    DW_NO_SUCH_EDITION = 5, /* not one of the six below */
    DW_NOT_SOUND = 6,       /* the bay's words are damaged: dw_drop empties it; a stream's or a keyed hash's are, or too few: begin anew */
    DW_TOO_LONG = 7,        /* would pass a length limit */
    DW_BAD_CLOSING = 8,     /* more than 7 closing bits, or a set bit below them */
    DW_SHORT_OUTPUT = 9,    /* the result does not fit */
    DW_BAD_RECORD = 10,     /* not a record */
    DW_BAD_LAYOUT = 11,     /* not 1 to 64 bays, or too few words for them */
    DW_NOT_A_LIST = 12,     /* not a digest list */
    DW_NOT_LISTED = 13,     /* the list has no such name */
    DW_DIGEST_DIFFERS = 14, /* the list has another digest for the name; dw_list_put: the digest has not the size of the list's edition; the
                               tag is another */
    DW_FORBIDDEN_NAME = 15, /* no list may have the name */
    DW_NAME_TAKEN = 16,     /* the list has the name already */
    DW_LIST_FULL = 17       /* the list has 256 entries */
};

/* The editions of SHA-2. */
enum dw_edition {
    DW_SHA224 = 1,
    DW_SHA256 = 2,
    DW_SHA384 = 3,
    DW_SHA512 = 4,
    DW_SHA512_224 = 5,
    DW_SHA512_256 = 6
};

/* Sizes. Each is a constant where its arguments are; an argument may be evaluated more than once. */

/* bytes of an edition's digest, 0 where the number names none */
#define DW_DIGEST_BYTES(edition) \
    ((edition) == 1 || (edition) == 5 ? 28 : (edition) == 2 || (edition) == 6 ? 32 : (edition) == 3 ? 48 : (edition) == 4 ? 64 : 0)
/* words, and bytes, of a table of n bays, n from 1 to 64; words behind them are the caller's and never change */
#define DW_TABLE_WORDS(n) (4 + 26 * (n))
#define DW_TABLE_BYTES(n) (8 * DW_TABLE_WORDS(n))
/* bytes of a bay's record, over the edition and the count that dw_ask tells; 0 where it tells of an empty bay, which has none */
#define DW_RECORD_BYTES(edition, count) \
    ((edition) == 1 || (edition) == 2 ? 56 + (count) % 64 : (edition) >= 3 && (edition) <= 6 ? 88 + (count) % 128 : 0)
/* the longest digest, and tag, the longest record, the root of a tree, and the longest map that a tree is made of; the longest list, which
 * is 16 + 256 * (8 + 64 + 64) bytes: a header, and 256 times an entry's two numbers, the longest digest and the longest name */
#define DW_LONGEST_DIGEST 64
#define DW_LONGEST_RECORD 215
#define DW_ROOT_BYTES 32
#define DW_LONGEST_MAP 1048576
#define DW_LONGEST_LIST 34832
/* words of a stream; words behind them are the caller's and never change; and the longest map that a stream takes, 2^32 chunks */
#define DW_STREAM_WORDS 258
#define DW_LONGEST_STREAM ((uint64_t)1 << 42)
/* words of a keyed hash; words behind them are the caller's and never change */
#define DW_KEYED_WORDS 34
/* bytes of the list that a buffer has at its front, a size_t: a list tells its own length in its bytes 12 to 15, most significant first. Of
 * bytes that are no list it reads whatever stands there; a buffer of fewer than 16 bytes has no such bytes, and no list. So it is for a
 * buffer on which a start or a put was done, or to be compared with the buffer's bytes first: of other bytes it may say more than there
 * are, and a call that is lent so many would read past the end. */
#define DW_LIST_BYTES(list) \
    ((size_t)((list)[12] & 255) << 24 | (size_t)((list)[13] & 255) << 16 | (size_t)((list)[14] & 255) << 8 | (size_t)((list)[15] & 255))
/* bytes of stack that dw_tree takes at most, that each call on a stream does, each with a key, and each other call */
#define DW_TREE_STACK 37000
#define DW_STREAM_STACK 12000
#define DW_KEYED_STACK 4000
#define DW_STACK 3000

/* For a whole message at hand: the digest of n bytes, at most 2^40, and of the upper `bits` bits (0 to 7) of `closing`, whose other bits
 * are 0. A message of whole bytes has 0 and 0 there. 5, 7, 8, 9. */
uint64_t dw_hash(uint64_t edition, const uint8_t *message, size_t n, uint8_t closing, uint64_t bits, uint8_t *out, size_t out_n);

/* To begin with: makes a table of that many empty bays, over memory that held anything. 11. */
uint64_t dw_lay_out(uint64_t *table, size_t words, uint64_t bays);

/* To begin a message, in an empty bay; bays are counted from 0. 1, 2, 5, 6, 3. */
uint64_t dw_open(uint64_t *table, size_t words, uint64_t bay, uint64_t edition);

/* For each piece of the message, of any length, 2^40 bytes in all: takes n bytes more. 1, 2, 6, 4, 7. */
uint64_t dw_add(uint64_t *table, size_t words, uint64_t bay, const uint8_t *piece, size_t n);

/* To end it: writes the digest of all bytes taken and of the closing bits, as for dw_hash, and empties the bay. 1, 2, 6, 4, 8, 9. */
uint64_t dw_close(uint64_t *table, size_t words, uint64_t bay, uint8_t closing, uint64_t bits, uint8_t *out, size_t out_n);

/* To go on after a restart, or elsewhere: writes the bay's record, of DW_RECORD_BYTES bytes, which is also what its bytes 18 and 19 say,
 * most significant first; the bay stays as it is. 1, 2, 6, 4, 9. */
uint64_t dw_save(const uint64_t *table, size_t words, uint64_t bay, uint8_t *out, size_t out_n);

/* To go on from a record: puts what was saved into an empty bay; n is exactly the record's length. 1, 2, 10, 6, 3. */
uint64_t dw_load(uint64_t *table, size_t words, uint64_t bay, const uint8_t *record, size_t n);

/* To know how far a message is, as after a load: tells the bay's edition and the bytes taken, both 0 for an empty bay. 1, 2, 6. */
uint64_t dw_ask(const uint64_t *table, size_t words, uint64_t bay, uint64_t *edition, uint64_t *count);

/* To give a message up: empties a bay that has a word other than 0, a damaged one too. 1, 2, 4. */
uint64_t dw_drop(uint64_t *table, size_t words, uint64_t bay);

/* For one digest over the chunks of a map: writes the 32-byte root of the chunk tree of n bytes, at most 1,048,576. It is the tree hash of
 * RFC 6962, section 2.1, with the chunks of 1,024 bytes as entries, the last of what is left. Roots from before 0.3 are void, but for those
 * of at most 1,024 bytes. 7, 9. */
uint64_t dw_tree(const uint8_t *map, size_t n, uint8_t *out, size_t out_n);

/* To begin the root of a map that comes in pieces, over memory that held anything: a stream of which nothing is taken. 9 for fewer words
 * than DW_STREAM_WORDS. With `uint64_t stream[DW_STREAM_WORDS]` the root of a map of any length up to DW_LONGEST_STREAM is made by
 *
 *    dw_stream_begin(stream, DW_STREAM_WORDS);
 *    while ((n = fread(piece, 1, sizeof piece, map)) > 0)
 *        dw_stream_add(stream, DW_STREAM_WORDS, piece, n);
 *    dw_stream_root(stream, DW_STREAM_WORDS, root, DW_ROOT_BYTES);
 *
 * Word 0 is the number of finished chunks, of 1,024 bytes each; word 1 the number of bytes after them; words 2 to 129 are the roots of full
 * subtrees, one for each one bit of word 0, the largest first, four words each; words 130 to 257 are the bytes after the chunks. Bytes lie
 * in words most significant first, and all that is not used is zero: any other words, or fewer, are no sound stream. What the roots are is
 * not judged. To put a stream aside is to copy its words. */
uint64_t dw_stream_begin(uint64_t *stream, size_t words);

/* For each piece of the map, of any length: takes n bytes more, DW_LONGEST_STREAM in all. How the map is cut into pieces changes nothing
 * but the time: each call looks at the whole stream, so pieces of some KiB cost less than short ones. 6, 7. */
uint64_t dw_stream_add(uint64_t *stream, size_t words, const uint8_t *piece, size_t n);

/* For the root of all bytes taken so far: writes the 32 bytes that dw_tree writes of them, where it takes so many. The stream stays as it
 * is, and may go on. 6, 9. */
uint64_t dw_stream_root(const uint64_t *stream, size_t words, uint8_t *out, size_t out_n);

/* For a whole message and a key at hand: writes the tag, which is HMAC by FIPS 198-1, of DW_DIGEST_BYTES(edition) bytes. The key has any
 * length, 0 too, up to 2^40 bytes; a key longer than the edition's block, of 64 bytes in SHA-224 and SHA-256 and 128 in the others, is
 * hashed first. The message has at most 2^40 bytes less a block. 5, 7, 9. */
uint64_t dw_tag(uint64_t edition, const uint8_t *key, size_t key_n, const uint8_t *message, size_t n, uint8_t *out, size_t out_n);

/* To hold a tag against a message: 0 where it is the tag, whole and byte for byte; else 14, for a front of it too. 5, 7, 14. */
uint64_t dw_check_tag(uint64_t edition, const uint8_t *key, size_t key_n, const uint8_t *message, size_t n, const uint8_t *tag,
                      size_t tag_n);

/* To begin the tag of a message that comes in pieces, over memory that held anything: a keyed hash that has taken the key. The key is not
 * needed any more. 5, 7, and 9 for fewer words than DW_KEYED_WORDS. With `uint64_t keyed[DW_KEYED_WORDS]` a tag is made by
 *
 *    dw_keyed_start(keyed, DW_KEYED_WORDS, DW_SHA256, key, sizeof key);
 *    while ((n = fread(piece, 1, sizeof piece, status)) > 0)
 *        dw_keyed_add(keyed, DW_KEYED_WORDS, piece, n);
 *    dw_keyed_tag(keyed, DW_KEYED_WORDS, tag, DW_DIGEST_BYTES(DW_SHA256));
 *
 * Words 0 to 25 are those of a taken bay: the edition, the bytes taken, of which the first block is the key's, eight chaining words, and
 * the bytes after the last whole block, most significant first, with zeros behind them. Words 26 to 33 are the outer hash's chaining words
 * after its block of the key. Sound are words that keep the rules of a taken bay, with a block or more taken, and outer words below 2^32 in
 * SHA-224 and SHA-256; whether a key leads to them is not judged. To put a keyed hash aside is to copy its words. */
uint64_t dw_keyed_start(uint64_t *keyed, size_t words, uint64_t edition, const uint8_t *key, size_t key_n);

/* For each piece of the message, of any length: takes n bytes more, 2^40 in all with the key's block. 6, 7. */
uint64_t dw_keyed_add(uint64_t *keyed, size_t words, const uint8_t *piece, size_t n);

/* For the tag of all bytes taken so far. The keyed hash stays as it is, and may go on. 6, 9. */
uint64_t dw_keyed_tag(const uint64_t *keyed, size_t words, uint8_t *out, size_t out_n);

/* To hold a tag against all bytes taken so far, as dw_check_tag does. The keyed hash stays as it is. 6, 14. */
uint64_t dw_keyed_check(const uint64_t *keyed, size_t words, const uint8_t *tag, size_t tag_n);

/* To hold a digest against a list: is it the one that the list has for the name? Each call reads the whole list again, to know that it is
 * one. 12, 13, 14. */
uint64_t dw_judge(const uint8_t *list, size_t n, const uint8_t *name, size_t name_n, const uint8_t *digest, size_t digest_n);

/* To get a listed digest: tells where in the list it lies and how long it is, both 0 where there is none. Each call reads the whole list
 * again. 12, 13. */
uint64_t dw_lookup(const uint8_t *list, size_t n, const uint8_t *name, size_t name_n, size_t *at, size_t *len);

/* To begin a list: puts the list of an edition with no entries, 16 bytes, at the front of a buffer of n bytes that held anything. 5, 9.
 * With `uint8_t list[DW_LONGEST_LIST]`, two digests of 32 bytes and a file, a list of two names is made by
 *
 *    dw_list_start(DW_SHA256, list, sizeof list);
 *    dw_list_put(list, sizeof list, (const uint8_t *)"yard.map", 8, map_digest, sizeof map_digest);
 *    dw_list_put(list, sizeof list, (const uint8_t *)"fleet.cfg", 9, fleet_digest, sizeof fleet_digest);
 *    fwrite(list, 1, DW_LIST_BYTES(list), file);                                        // 113 bytes, fleet.cfg first
 */
uint64_t dw_list_start(uint64_t edition, uint8_t *buffer, size_t n);

/* For each pair of a list, in any order: puts a name, 1 to 64 bytes from 0x21 to 0x7e, and its digest, as many bytes as the list's edition
 * has, in their place in the list at the front of the buffer, whoever wrote that. Lists grow in place: n is the bytes of the whole buffer,
 * and the list in it has DW_LIST_BYTES, before and after; so many are to be kept, and are what dw_judge and dw_lookup are lent. The list
 * grows by 8 bytes, the digest and the name, and n need be no more than it then has; in DW_LONGEST_LIST bytes no pair is refused for want
 * of room. Neither name nor digest may lie in the buffer, not behind the list either. While a put runs the buffer holds no list: what has
 * to outlive a restart is copied out between two puts. Each call reads the whole list again, to know that it is one. 12, 15, 14, 16, 17,
 * 9. */
uint64_t dw_list_put(uint8_t *buffer, size_t n, const uint8_t *name, size_t name_n, const uint8_t *digest, size_t digest_n);

/* For a message to a person: what an answer means in words, such as "bay taken"; "no such answer" for every other number. The text is
 * constant and never null. This one is a small function in C beside the library, and nothing is proved of it. */
const char *dw_answer_text(uint64_t number);

#ifdef __cplusplus
}
#endif

#endif
