/* How much stack each call takes: it is made on a stack that was painted, and what is no longer painted was used. Writes a line for each
 * call, the most that any of its uses took: name, a blank, bytes. A call is also made once before, so that no loader's work is counted.
 * The kit has no C headers: what is called of the C library is declared here. */
#include "dwombarine.h"

int printf(const char *form, ...);
void *memset(void *to, int byte, size_t n);
_Noreturn void _exit(int status);

enum { STACK = 1 << 16, PAINT = 0xa5, BAYS = 64, WORDS = DW_TABLE_WORDS(BAYS), MAP = DW_LONGEST_MAP, LIST = 34832 };

static _Alignas(16) uint8_t stack[STACK];
static uint64_t table[WORDS], stream[DW_STREAM_WORDS], keyed[DW_KEYED_WORDS], edition, count, sound;
static uint8_t map[MAP + 1], list[LIST], record[DW_LONGEST_RECORD], tag[DW_LONGEST_DIGEST], out[256];
static size_t list_n, at, len, n;
static uint64_t number;

/* Calls the function with the stack pointer at the end of the painted stack. */
static void on_stack(void (*use)(void))
{
    uint8_t *top = stack + STACK;
#if defined __x86_64__
    __asm__ volatile("movq %%rsp, %%rbx\n\tmovq %0, %%rsp\n\tcall *%1\n\tmovq %%rbx, %%rsp"
                     : "+r"(top), "+r"(use)
                     :
                     : "rax", "rbx", "rcx", "rdx", "r8", "r9", "r10", "r11", "xmm0", "xmm1", "xmm2", "xmm3", "xmm4", "xmm5", "xmm6",
                       "xmm7", "xmm8", "xmm9", "xmm10", "xmm11", "xmm12", "xmm13", "xmm14", "xmm15", "cc", "memory");
#elif defined __aarch64__
    __asm__ volatile("mov x19, sp\n\tmov sp, %0\n\tblr %1\n\tmov sp, x19"
                     : "+r"(top), "+r"(use)
                     :
                     : "x0", "x1", "x2", "x3", "x4", "x5", "x6", "x7", "x8", "x9", "x10", "x11", "x12", "x13", "x14", "x15", "x16",
                       "x17", "x18", "x19", "x30", "v0", "v1", "v2", "v3", "v4", "v5", "v6", "v7", "v8", "v9", "v10", "v11", "v12", "v13",
                       "v14", "v15", "v16", "v17", "v18", "v19", "v20", "v21", "v22", "v23", "v24", "v25", "v26", "v27", "v28", "v29",
                       "v30", "v31", "cc", "memory");
#else
#error "the stack of this machine is not known here"
#endif
}

/* The bytes of stack that the use takes: twice made, the second time on fresh paint. */
static size_t taken(void (*prepare)(void), void (*use)(void))
{
    size_t free = 0;
    for (int turn = 0; turn < 2; turn++) {
        prepare();
        memset(stack, PAINT, STACK);
        on_stack(use);
    }
    while (free < STACK && stack[free] == PAINT)
        free++;
    if (free == 0)
        _exit(2); /* it took more than there is */
    return STACK - free;
}

/* The values of a use, which prepare sets up and the calls read. */
static uint64_t u_edition, u_bits, u_bay, u_chunks;
static uint8_t u_closing;
static size_t u_n, u_out, u_names, u_words, u_damage, u_key;

static void fill(void)
{
    for (size_t i = 0; i < MAP + 1; i++)
        map[i] = (uint8_t)(i * 7 + i / 251);
}

static void empty_table(void) { sound |= dw_lay_out(table, WORDS, BAYS); }
static void open_table(void)
{
    empty_table();
    sound |= dw_open(table, WORDS, BAYS - 1, u_edition);
}
static void half_table(void)
{
    open_table();
    sound |= dw_add(table, WORDS, BAYS - 1, map, n);
}
static void saved(void)
{
    half_table();
    sound |= dw_ask(table, WORDS, BAYS - 1, &edition, &count);
    sound |= dw_save(table, WORDS, BAYS - 1, record, sizeof record);
    empty_table();
}
/* Roots and bytes of zeros are sound as any others are; a last byte that is not zero is not. */
static void make_stream(void)
{
    memset(stream, 0, sizeof stream);
    stream[0] = u_chunks;
    stream[1] = n;
    stream[DW_STREAM_WORDS - 1] = u_damage;
}
/* The tag that is compared, with its last byte right or not. */
static void make_tag(void)
{
    sound |= dw_tag(u_edition, map, u_key, map, u_n, tag, sizeof tag);
    tag[DW_DIGEST_BYTES(u_edition) - 1] ^= (uint8_t)u_damage;
}
/* The last byte of a tail is never taken: where it is not zero the words are not sound. */
static void make_keyed(void)
{
    sound |= dw_keyed_start(keyed, DW_KEYED_WORDS, u_edition, map, u_key);
    sound |= dw_keyed_add(keyed, DW_KEYED_WORDS, map, n);
    sound |= dw_keyed_tag(keyed, DW_KEYED_WORDS, tag, sizeof tag);
    keyed[25] |= u_damage;
}
static void nothing(void) {}

static void no_call(void) {}
static void use_hash(void) { number = dw_hash(u_edition, map, u_n, u_closing, u_bits, out, u_out); }
static void use_lay_out(void) { number = dw_lay_out(table, WORDS, BAYS); }
static void use_open(void) { number = dw_open(table, WORDS, u_bay, u_edition); }
static void use_add(void) { number = dw_add(table, WORDS, u_bay, map, u_n); }
static void use_close(void) { number = dw_close(table, WORDS, u_bay, u_closing, u_bits, out, u_out); }
static void use_save(void) { number = dw_save(table, WORDS, u_bay, out, u_out); }
static void use_load(void) { number = dw_load(table, WORDS, u_bay, record, DW_RECORD_BYTES(edition, count)); }
static void use_ask(void) { number = dw_ask(table, WORDS, u_bay, &edition, &count); }
static void use_drop(void) { number = dw_drop(table, WORDS, u_bay); }
static void use_tree(void) { number = dw_tree(map, u_n, out, u_out); }
static void use_judge(void) { number = dw_judge(list, list_n, list + list_n - 3, 3, list + 24, u_n); }
static void use_lookup(void) { number = dw_lookup(list, list_n, list + list_n - 3, 3, &at, &len); }
static void use_list_start(void) { number = dw_list_start(u_edition, list, u_out); }
static void use_list_put(void) { number = dw_list_put(list, list_n + u_out, (const uint8_t *)"12x", 3, map, u_n); }
static void use_stream_begin(void) { number = dw_stream_begin(stream, u_words); }
static void use_stream_add(void) { number = dw_stream_add(stream, u_words, map, u_n); }
static void use_stream_root(void) { number = dw_stream_root(stream, u_words, out, u_out); }
static void use_tag(void) { number = dw_tag(u_edition, map, u_key, map, u_n, out, u_out); }
static void use_check_tag(void) { number = dw_check_tag(u_edition, map, u_key, map, u_n, tag, u_out); }
static void use_keyed_start(void) { number = dw_keyed_start(keyed, u_words, u_edition, map, u_key); }
static void use_keyed_add(void) { number = dw_keyed_add(keyed, u_words, map, u_n); }
static void use_keyed_tag(void) { number = dw_keyed_tag(keyed, u_words, out, u_out); }
static void use_keyed_check(void) { number = dw_keyed_check(keyed, u_words, tag, u_out); }

/* A number of so many bytes, most significant first. */
static uint8_t *put(uint8_t *to, int bytes, size_t value)
{
    for (int i = bytes - 1; i >= 0; i--, value >>= 8)
        to[i] = (uint8_t)value;
    return to + bytes;
}

/* A digest list of names of three digits, up to 256. */
static void make_list(void)
{
    enum { NAME = 3 };
    size_t digest = DW_DIGEST_BYTES(u_edition), names = 16 + u_names * (8 + digest);
    uint8_t *to = put(put(put(put(put(list, 2, u_edition), 2, u_names), 4, 16), 4, names), 4, names + u_names * NAME);
    for (size_t i = 0; i < u_names; i++) {
        to = put(put(to, 4, names + NAME * i), 4, NAME);
        memset(to, (int)i, digest);
        to += digest;
    }
    for (size_t i = 0; i < u_names; i++) {
        *to++ = (uint8_t)('0' + i / 100);
        *to++ = (uint8_t)('0' + i / 10 % 10);
        *to++ = (uint8_t)('0' + i % 10);
    }
    list_n = (size_t)(to - list);
}

enum { HASH, LAY_OUT, OPEN, ADD, CLOSE, SAVE, LOAD, ASK, DROP, TREE, JUDGE, LOOKUP, LIST_START, LIST_PUT, STREAM_BEGIN, STREAM_ADD,
       STREAM_ROOT, TAG, CHECK_TAG, KEYED_START, KEYED_ADD, KEYED_TAG, KEYED_CHECK, CALLS };
static const char *const names[CALLS] = {"hash",       "lay_out",     "open",         "add",        "close",       "save",
                                         "load",       "ask",         "drop",         "tree",       "judge",       "lookup",
                                         "list_start", "list_put",    "stream_begin", "stream_add", "stream_root", "tag",
                                         "check_tag",  "keyed_start", "keyed_add",    "keyed_tag",  "keyed_check"};
static size_t most[CALLS];
static uint64_t done[CALLS], refused[CALLS];

/* Takes the measure of a use and keeps the most. */
static void measure(int call, void (*prepare)(void), void (*use)(void))
{
    size_t now = taken(prepare, use);
    if (most[call] < now)
        most[call] = now;
    if (number == DW_DONE)
        done[call]++;
    else
        refused[call]++;
}

/* Streams in which a new chunk is joined with no root, and with all of up to 32; few bytes and many after the chunks; each refusal. */
static void stream_uses(void)
{
    static const uint64_t chunks[] = {0, 1, 2, 0x7fffffff, 0xffffffff, 0x100000000};
    static const size_t bytes[] = {0, 1, 63, 64, 1000}, pieces[] = {0, 1, 24, 64, 1023, 1024, 1025, 4096};

    for (u_words = DW_STREAM_WORDS - 1; u_words <= DW_STREAM_WORDS; u_words++)
        for (u_damage = 0; u_damage < 2; u_damage++)
            for (size_t i = 0; i < sizeof chunks / sizeof *chunks; i++)
                for (size_t k = 0; k < sizeof bytes / sizeof *bytes; k++) {
                    u_chunks = chunks[i];
                    n = bytes[k];
                    measure(STREAM_BEGIN, make_stream, use_stream_begin);
                    for (size_t j = 0; j < sizeof pieces / sizeof *pieces; j++) {
                        u_n = pieces[j];
                        measure(STREAM_ADD, make_stream, use_stream_add);
                    }
                    for (u_out = 31; u_out <= 32; u_out++)
                        measure(STREAM_ROOT, make_stream, use_stream_root);
                }
}

/* Keys that are filled up, of a block and hashed; messages and states of few bytes and many, which end in one block or two; each refusal.
 * An edition that is none is asked for by the calls that take one. */
static void keyed_uses(void)
{
    static const size_t keys[] = {0, 20, 64, 65, 128, 129, 1000}, bytes[] = {0, 1, 55, 63, 64, 111, 112, 127, 1000};

    for (u_edition = 1; u_edition <= 7; u_edition++)
        for (size_t i = 0; i < sizeof keys / sizeof *keys; i++)
            for (size_t k = 0; k < sizeof bytes / sizeof *bytes; k++) {
                size_t digest = DW_DIGEST_BYTES(u_edition);
                u_key = keys[i];
                u_n = n = bytes[k];
                for (u_words = DW_KEYED_WORDS - 1; u_words <= DW_KEYED_WORDS; u_words++)
                    measure(KEYED_START, nothing, use_keyed_start);
                for (u_out = 27; u_out <= 64; u_out += 37)
                    measure(TAG, nothing, use_tag);
                if (u_edition > 6) {
                    measure(CHECK_TAG, nothing, use_check_tag);
                    continue;
                }
                for (u_damage = 0; u_damage < 2; u_damage++)
                    for (u_out = digest - 1; u_out <= digest; u_out++) {
                        measure(CHECK_TAG, make_tag, use_check_tag);
                        for (u_words = DW_KEYED_WORDS - 1; u_words <= DW_KEYED_WORDS; u_words++) {
                            measure(KEYED_TAG, make_keyed, use_keyed_tag);
                            measure(KEYED_CHECK, make_keyed, use_keyed_check);
                            measure(KEYED_ADD, make_keyed, use_keyed_add);
                        }
                    }
            }
}

int main(void)
{
    static const size_t sizes[] = {0, 1, 63, 64, 119, 127, 128, 1000, 4096};
    size_t own;

    fill();
    own = taken(nothing, no_call);
    for (u_edition = 1; u_edition <= 7; u_edition++)
        for (size_t i = 0; i < sizeof sizes / sizeof *sizes; i++)
            for (int wrong = 0; wrong < 3; wrong++) {
                u_n = sizes[i];
                u_bits = wrong == 1 ? 8 : i % 8;
                u_closing = 0;
                u_bay = wrong == 2 ? BAYS : BAYS - 1;
                u_out = wrong == 2 ? 5 : sizeof out;
                measure(HASH, nothing, use_hash);
                measure(OPEN, empty_table, use_open);
                measure(LIST_START, nothing, use_list_start);
                if (u_edition > 6)
                    continue;
                for (size_t k = 0; k < sizeof sizes / sizeof *sizes; k += 4) {
                    n = sizes[k];
                    measure(ADD, half_table, use_add);
                    measure(CLOSE, half_table, use_close);
                    measure(SAVE, half_table, use_save);
                    measure(LOAD, saved, use_load);
                    measure(ASK, half_table, use_ask);
                    measure(DROP, half_table, use_drop);
                }
                u_names = 256;
                make_list();
                list[14] ^= (uint8_t)(wrong == 2);
                u_n = wrong == 1 ? 5 : (size_t)DW_DIGEST_BYTES(u_edition);
                memset(list + 24, 255, u_n);
                measure(JUDGE, nothing, use_judge);
                measure(LOOKUP, nothing, use_lookup);
                u_names = 255;
                measure(LIST_PUT, make_list, use_list_put);
            }
    measure(LAY_OUT, nothing, use_lay_out);
    for (u_n = 0; u_n <= MAP + 1; u_n = u_n < 4 ? u_n + 1 : u_n < MAP ? u_n * 2 : u_n + 1)
        for (u_out = 31; u_out <= 32; u_out++)
            measure(TREE, nothing, use_tree);
    stream_uses();
    keyed_uses();

    for (int call = 0; call < CALLS; call++) {
        if (done[call] == 0 || (refused[call] == 0 && call != LAY_OUT)) {
            printf("dw_%s was not done and refused, each once at least\n", names[call]);
            return 1;
        }
        printf("dw_%s %zu\n", names[call], most[call] - own);
    }
    return sound == 0 ? 0 : 1;
}
