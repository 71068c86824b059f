/* A program outside the project, in C that is C++ too, over the installed header and library. What it writes is for tests/install/run to
 * compare with docs/SPEC.md; what it finds wrong by itself it says, and ends with 1. */
#include <dwombarine.h>

#include <inttypes.h>
#include <stdio.h>
#include <string.h>

enum { WORDS = DW_TABLE_WORDS(2), MOST = 300 };

static int wrong;

static void expect(const char *what, uint64_t number, enum dw_answer answer)
{
    if (number != (uint64_t)answer) {
        printf("wrong: %s answers %" PRIu64 ", %s\n", what, number, dw_answer_text(number));
        wrong = 1;
    }
}

/* The sizes are constants, fit to be an array's. */
static uint64_t table[WORDS];
static uint8_t longest[DW_LONGEST_RECORD], message[MOST], digest[DW_DIGEST_BYTES(DW_SHA512)], small[DW_DIGEST_BYTES(DW_SHA224)];
static uint8_t list[DW_LONGEST_LIST];
typedef char same_size[DW_TABLE_BYTES(2) == sizeof table ? 1 : -1];

/* A record finds room in as many bytes as the macro says, in no fewer, and says itself that it has so many. */
static void records(uint64_t edition)
{
    uint64_t told, count;
    size_t n;
    for (n = 0; n <= MOST; n++) {
        size_t length = (size_t)DW_RECORD_BYTES(edition, n);
        expect("lay out", dw_lay_out(table, WORDS, 2), DW_DONE);
        expect("open", dw_open(table, WORDS, 1, edition), DW_DONE);
        expect("add", dw_add(table, WORDS, 1, message, n), DW_DONE);
        expect("ask", dw_ask(table, WORDS, 1, &told, &count), DW_DONE);
        if (told != edition || count != n || DW_RECORD_BYTES(told, count) != length)
            wrong = 1;
        expect("save in less room", dw_save(table, WORDS, 1, longest, length - 1), DW_SHORT_OUTPUT);
        expect("save", dw_save(table, WORDS, 1, longest, length), DW_DONE);
        if (((size_t)longest[18] << 8 | longest[19]) != length)
            wrong = 1;
        expect("load into a taken bay", dw_load(table, WORDS, 1, longest, length), DW_BAY_TAKEN);
        expect("load", dw_load(table, WORDS, 0, longest, length), DW_DONE);
    }
}

/* The list of two names in SPEC's samples, in a buffer that it fills, the second name put in first or not; a byte less is too little. */
static void lists(int second_first)
{
    static const char *const names[] = {"fleet.cfg", "yard.map"}, *const texts[] = {"abc", ""};
    enum { WHOLE = 113 };
    uint8_t listed[DW_DIGEST_BYTES(DW_SHA256)] = {0};
    char plain[16];
    signed char low[16];
    size_t k, at, len;
    int turn;
    memset(list, 0xee, sizeof list);
    expect("start in 15 bytes", dw_list_start(DW_SHA256, list, 15), DW_SHORT_OUTPUT);
    expect("start in edition 7", dw_list_start(7, list, 16), DW_NO_SUCH_EDITION);
    expect("put where no list is", dw_list_put(list, WHOLE, message, 1, listed, sizeof listed), DW_NOT_A_LIST);
    expect("start", dw_list_start(DW_SHA256, list, 16), DW_DONE);
    if (DW_LIST_BYTES(list) != 16)
        wrong = 1;
    for (turn = 0; turn < 2; turn++) {
        int which = second_first ? 1 - turn : turn;
        const uint8_t *name = (const uint8_t *)names[which];
        size_t n = strlen(names[which]);
        expect("hash", dw_hash(DW_SHA256, (const uint8_t *)texts[which], strlen(texts[which]), 0, 0, listed, sizeof listed), DW_DONE);
        expect("put a name with a blank", dw_list_put(list, WHOLE, (const uint8_t *)"a b", 3, listed, sizeof listed), DW_FORBIDDEN_NAME);
        expect("put a digest of 28 bytes", dw_list_put(list, WHOLE, name, n, listed, 28), DW_DIGEST_DIFFERS);
        if (turn == 1)
            expect("put in a byte less", dw_list_put(list, WHOLE - 1, name, n, listed, sizeof listed), DW_SHORT_OUTPUT);
        expect("put", dw_list_put(list, WHOLE, name, n, listed, sizeof listed), DW_DONE);
        expect("put again", dw_list_put(list, WHOLE, name, n, listed, sizeof listed), DW_NAME_TAKEN);
        expect("judge by it", dw_judge(list, DW_LIST_BYTES(list), name, n, listed, sizeof listed), DW_DONE);
    }
    expect("look it up", dw_lookup(list, DW_LIST_BYTES(list), (const uint8_t *)names[0], strlen(names[0]), &at, &len), DW_DONE);
    if (DW_LIST_BYTES(list) != WHOLE || list[WHOLE] != 0xee || at != 24 || len != sizeof listed)
        wrong = 1;
    /* of a buffer of plain char, and of one whose bytes are below 0 on every machine: 0x80a0c0ff is 2158018815 */
    memset(plain, 0, sizeof plain);
    memcpy(plain + 12, "\x80\xa0\xc0\xff", 4);
    memcpy(low, plain, sizeof low);
    if (DW_LIST_BYTES(plain) != 2158018815 || DW_LIST_BYTES(low) != 2158018815)
        wrong = 1;
    printf("list ");
    for (k = 0; k < DW_LIST_BYTES(list); k++)
        printf("%02x", list[k]);
    printf("\n");
}

/* A map in twenty pieces through a stream, in words of which the last is the caller's; the root may be asked for halfway. */
static void streams(void)
{
    static uint64_t stream[DW_STREAM_WORDS + 1];
    uint8_t root[DW_ROOT_BYTES] = {0}, more[DW_ROOT_BYTES] = {0};
    int turn;
    size_t k;
    memset(stream, 0xee, sizeof stream);
    expect("begin in 257 words", dw_stream_begin(stream, DW_STREAM_WORDS - 1), DW_SHORT_OUTPUT);
    expect("add where no stream is", dw_stream_add(stream, DW_STREAM_WORDS, message, 1), DW_NOT_SOUND);
    expect("begin", dw_stream_begin(stream, DW_STREAM_WORDS), DW_DONE);
    expect("begin in more words", dw_stream_begin(stream, DW_STREAM_WORDS + 1), DW_DONE);
    for (turn = 0; turn < 20; turn++) {
        expect("stream add", dw_stream_add(stream, DW_STREAM_WORDS, message, MOST), DW_DONE);
        expect("stream root", dw_stream_root(stream, DW_STREAM_WORDS, root, sizeof root), DW_DONE);
    }
    expect("stream root in 31 bytes", dw_stream_root(stream, DW_STREAM_WORDS, more, sizeof more - 1), DW_SHORT_OUTPUT);
    expect("add to 257 words", dw_stream_add(stream, DW_STREAM_WORDS - 1, message, 1), DW_NOT_SOUND);
    if (stream[0] != 5 || stream[1] != 880 || stream[DW_STREAM_WORDS] != UINT64_C(0xeeeeeeeeeeeeeeee) || more[0] != 0)
        wrong = 1;
    stream[0] = DW_LONGEST_STREAM / 1024 + 1;
    expect("root past the limit", dw_stream_root(stream, DW_STREAM_WORDS, root, sizeof root), DW_NOT_SOUND);
    printf("root ");
    for (k = 0; k < sizeof root; k++)
        printf("%02x", root[k]);
    printf("\n");
}

/* SPEC's samples of a tag, which are a case of RFC 4231, in each edition: at once, and in two pieces through words of which the last is the
 * caller's. The tag may be asked for halfway, and is compared whole. */
static void tags(uint64_t edition)
{
    static const uint8_t key[] = {0x4a, 0x65, 0x66, 0x65};
    static uint64_t keyed[DW_KEYED_WORDS + 1];
    const uint8_t *text = (const uint8_t *)"what do ya want for nothing?";
    enum { TEXT = 28, FIRST = 27 };
    uint8_t tag[DW_LONGEST_DIGEST] = {0}, more[DW_LONGEST_DIGEST] = {0};
    size_t n = (size_t)DW_DIGEST_BYTES(edition), block = edition == DW_SHA224 || edition == DW_SHA256 ? 64 : 128, k;
    expect("tag in edition 7", dw_tag(7, key, sizeof key, text, TEXT, tag, n), DW_NO_SUCH_EDITION);
    expect("tag in a byte less", dw_tag(edition, key, sizeof key, text, TEXT, tag, n - 1), DW_SHORT_OUTPUT);
    if (memcmp(tag, more, sizeof tag) != 0)
        wrong = 1;
    expect("tag", dw_tag(edition, key, sizeof key, text, TEXT, tag, n), DW_DONE);
    expect("check tag", dw_check_tag(edition, key, sizeof key, text, TEXT, tag, n), DW_DONE);
    expect("check tag that is cut", dw_check_tag(edition, key, sizeof key, text, TEXT, tag, n - 1), DW_DIGEST_DIFFERS);
    expect("check tag of another key", dw_check_tag(edition, key, sizeof key - 1, text, TEXT, tag, n), DW_DIGEST_DIFFERS);

    memset(keyed, 0xee, sizeof keyed);
    expect("keyed start in 33 words", dw_keyed_start(keyed, DW_KEYED_WORDS - 1, edition, key, sizeof key), DW_SHORT_OUTPUT);
    expect("keyed start in edition 7", dw_keyed_start(keyed, DW_KEYED_WORDS - 1, 7, key, sizeof key), DW_NO_SUCH_EDITION);
    expect("keyed add where no keyed hash is", dw_keyed_add(keyed, DW_KEYED_WORDS, text, 1), DW_NOT_SOUND);
    expect("keyed start in more words", dw_keyed_start(keyed, DW_KEYED_WORDS + 1, edition, text, TEXT), DW_DONE);
    expect("keyed start", dw_keyed_start(keyed, DW_KEYED_WORDS, edition, key, sizeof key), DW_DONE);
    if (keyed[1] != block)
        wrong = 1;
    expect("keyed add", dw_keyed_add(keyed, DW_KEYED_WORDS, text, FIRST), DW_DONE);
    expect("keyed tag halfway", dw_keyed_tag(keyed, DW_KEYED_WORDS, more, n), DW_DONE);
    expect("keyed check halfway", dw_keyed_check(keyed, DW_KEYED_WORDS, tag, n), DW_DIGEST_DIFFERS);
    expect("keyed add to 33 words", dw_keyed_add(keyed, DW_KEYED_WORDS - 1, text + FIRST, TEXT - FIRST), DW_NOT_SOUND);
    expect("keyed add of the rest", dw_keyed_add(keyed, DW_KEYED_WORDS, text + FIRST, TEXT - FIRST), DW_DONE);
    expect("keyed tag", dw_keyed_tag(keyed, DW_KEYED_WORDS, more, n), DW_DONE);
    if (keyed[1] != block + TEXT || keyed[DW_KEYED_WORDS] != UINT64_C(0xeeeeeeeeeeeeeeee) || memcmp(tag, more, sizeof tag) != 0)
        wrong = 1;
    expect("keyed tag in a byte less", dw_keyed_tag(keyed, DW_KEYED_WORDS, more, n - 1), DW_SHORT_OUTPUT);
    expect("keyed tag of 33 words", dw_keyed_tag(keyed, DW_KEYED_WORDS - 1, more, n), DW_NOT_SOUND);
    expect("keyed check", dw_keyed_check(keyed, DW_KEYED_WORDS, tag, n), DW_DONE);
    expect("keyed check of a tag that is cut", dw_keyed_check(keyed, DW_KEYED_WORDS, tag, n - 1), DW_DIGEST_DIFFERS);
    expect("keyed start anew", dw_keyed_start(keyed, DW_KEYED_WORDS, edition, key, sizeof key), DW_DONE);
    keyed[1] = UINT64_C(1) << 40;
    expect("keyed add at the limit", dw_keyed_add(keyed, DW_KEYED_WORDS, text, 1), DW_TOO_LONG);
    printf("tag %" PRIu64 " ", edition);
    for (k = 0; k < n; k++)
        printf("%02x", tag[k]);
    printf("\n");
}

int main(void)
{
    const uint8_t *nothing = (const uint8_t *)"";
    uint64_t i, told, count;
    size_t k, at, len;

    printf("version %s\n", DW_VERSION);
    for (i = 0; i < 20; i++)
        printf("answer %" PRIu64 " %s\n", i, dw_answer_text(i));
    printf("answer 2^64-1 %s\n", dw_answer_text(UINT64_MAX));
#define NAME(name) printf("name %s %d\n", #name, (int)name)
    NAME(DW_DONE);
    NAME(DW_BAD_TABLE);
    NAME(DW_NO_SUCH_BAY);
    NAME(DW_BAY_TAKEN);
    NAME(DW_BAY_EMPTY);
    NAME(DW_NO_SUCH_EDITION);
    NAME(DW_NOT_SOUND);
    NAME(DW_TOO_LONG);
    NAME(DW_BAD_CLOSING);
    NAME(DW_SHORT_OUTPUT);
    NAME(DW_BAD_RECORD);
    NAME(DW_BAD_LAYOUT);
    NAME(DW_NOT_A_LIST);
    NAME(DW_NOT_LISTED);
    NAME(DW_DIGEST_DIFFERS);
    NAME(DW_FORBIDDEN_NAME);
    NAME(DW_NAME_TAKEN);
    NAME(DW_LIST_FULL);
    NAME(DW_SHA224);
    NAME(DW_SHA256);
    NAME(DW_SHA384);
    NAME(DW_SHA512);
    NAME(DW_SHA512_224);
    NAME(DW_SHA512_256);
    for (i = 0; i < 8; i++)
        printf("edition %" PRIu64 " %d\n", i, DW_DIGEST_BYTES(i));
    printf("table %d %d\n", DW_TABLE_WORDS(1), DW_TABLE_WORDS(64));
    printf("longest %d %d %d\n", DW_LONGEST_DIGEST, DW_LONGEST_RECORD, DW_LONGEST_LIST);
    printf("stream %d %" PRIu64 "\n", DW_STREAM_WORDS, (uint64_t)DW_LONGEST_STREAM);
    printf("keyed %d\n", DW_KEYED_WORDS);

    memset(message, 'm', sizeof message);
    for (i = 1; i <= 6; i++)
        records(i);
    expect("lay out", dw_lay_out(table, WORDS, 2), DW_DONE);
    expect("ask of an empty bay", dw_ask(table, WORDS, 0, &told, &count), DW_DONE);
    if (DW_RECORD_BYTES(told, count) != 0 || DW_RECORD_BYTES(7, 5) != 0)
        wrong = 1;

    /* each call that was not made above, and an empty buffer with a pointer that is not null */
    expect("drop of an empty bay", dw_drop(table, WORDS, 0), DW_BAY_EMPTY);
    expect("close of an empty bay", dw_close(table, WORDS, 0, 0, 0, digest, sizeof digest), DW_BAY_EMPTY);
    expect("tree", dw_tree(nothing, 0, digest, DW_ROOT_BYTES), DW_DONE);
    expect("judge", dw_judge(nothing, 0, nothing, 0, nothing, 0), DW_NOT_A_LIST);
    expect("lookup", dw_lookup(nothing, 0, nothing, 0, &at, &len), DW_NOT_A_LIST);
    expect("hash in edition 224", dw_hash(DW_SHA224, nothing, 0, 0, 0, small, sizeof small), DW_DONE);
    expect("hash", dw_hash(DW_SHA512, message, sizeof message, 0, 0, digest, sizeof digest), DW_DONE);
    printf("digest ");
    for (k = 0; k < sizeof digest; k++)
        printf("%02x", digest[k]);
    printf("\n");
    lists(0);
    lists(1);
    streams();
    for (i = 1; i <= 6; i++)
        tags(i);
    return wrong || sizeof(same_size) != 1;
}
