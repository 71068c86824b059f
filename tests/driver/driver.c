/* Makes the calls of dwombarine.h that standard input asks for, on memory of its own, and tells what became of all of that memory. So it
 * does with the parts of a chunk tree that crate treeparts has, which are in no header.
 *
 * A number is 8 bytes, the least significant first. Input is batches: a count of bytes, then so many bytes of commands. All of a batch is
 * read before its first command is done, and after its last one the answers are written, their count of bytes first; so neither side ever
 * waits for the other to read. A command is a byte that says which, from 10 on a number of shifts, and then what it needs:
 *
 *    0 memory    a count W, then W words: the memory that runs are lent from, which begins at a multiple of 16 where W is even, and 8
 *                past one where it is odd; no answer
 *    1 word      a place below W, and a value: the word there is set; no answer
 *    2 tell      answers all W words
 *   10 lay out   run, bays                               16 ask       run, bay
 *   11 open      run, bay, edition                       17 drop      run, bay
 *   12 add       run, bay, lent piece                    20 hash      edition, lent message, closing, bits, output
 *   13 close     run, bay, closing, bits, output         21 tree      lent map, output
 *   14 save      run, bay, output                        22 judge     lent list, lent name, lent digest
 *   15 load      run, bay, lent record                   23 lookup    lent list, lent name
 *   24 start     edition, buffer                         25 put       buffer, lent name, lent digest
 *   26 tag       edition, lent key, lent message, output 27 check tag edition, lent key, lent message, lent tag
 *   30 leaf      lent bytes, output                      31 parent    lent left node, lent right node, output
 *   32 level     buffer
 *   40 stream begin   run                                41 stream add   run, lent piece
 *   42 stream root    run, output
 *   50 keyed start    run, edition, lent key             51 keyed add    run, lent piece
 *   52 keyed tag      run, output                        53 keyed check  run, lent tag
 *
 * A run is the place of its first word and its count of words. Lent is a count n and n bytes; but more than FAR bytes do not follow: the
 * call is lent n zeros then. Output is a count of at most OUTPUT bytes and a number f: counted from the beginning of the guard before it,
 * byte i of the output and its guards is (f + i) mod 256 before the call. A buffer, which is read and written, is a count n and n bytes;
 * but of more than BUFFER bytes only BUFFER follow: behind these the buffer has the bytes of a guard, and zeros. The count KEPT is for the
 * buffer of a call before in this batch, as it was left and where it lies. Lent bytes, outputs and buffers lie anywhere: the first of a
 * call s mod 16 bytes past a multiple of 16, where s is the number of shifts, the second s / 16 mod 16, and so on.
 *
 * The answer to a call is its number, 0 for a part of a tree, which has none; for ask and lookup their two values; for a call with an
 * output the GUARD bytes before it, the output and the GUARD bytes after it, and for one with a buffer likewise, but at most BUFFER of its
 * bytes; the count of bytes lent to be read, with the guards about them, that are not as they were; and the count of words of the memory
 * that are not as they were before the call, each with its place and its value.
 *
 * A command that cannot be done ends the driver with status 3: then the sender is at fault.
 */
#include "dwombarine.h"

void part_leaf(const uint8_t *bytes, size_t n, uint8_t *out, size_t out_n);
void part_parent(const uint8_t *left, const uint8_t *right, uint8_t *out, size_t out_n);
void part_level(uint8_t *nodes, size_t n);

long read(int file, void *to, size_t n);
long write(int file, const void *from, size_t n);
void *memcpy(void *to, const void *from, size_t n);
int memcmp(const void *a, const void *b, size_t n);
void *mmap(void *at, size_t n, int access, int kind, int file, long offset);
int mprotect(void *at, size_t n, int access);
_Noreturn void _exit(int status);

enum { WORDS = 4096, GUARD = 64, OUTPUT = 1024, BUFFER = 36 << 10, FAR = 2 << 20, BATCH = 32 << 20, ANSWERS = 32 << 20 };
enum { LENT = 3, ALIGNED = 16 };
#define KEPT (~(uint64_t)0)

static uint8_t batch[BATCH], answers[ANSWERS];
static const uint8_t *next, *end; /* what of the batch is still to be done */
static size_t answered;           /* bytes */

static _Alignas(ALIGNED) uint64_t room[1 + WORDS];
static uint64_t *memory = room, before[WORDS]; /* what runs are lent from, and what it was before the call */
static size_t words;

static uint64_t shifts; /* of what is still to be lent to the call */

/* what is lent to be read: room for it, its place there between two guards, and where in the batch it came from */
static struct {
  _Alignas(ALIGNED) uint8_t room[ALIGNED + GUARD + FAR + GUARD];
  uint8_t *place;
  const uint8_t *from;
  size_t n;
} lent[LENT];
static int lents;

static _Alignas(ALIGNED) uint8_t output_room[ALIGNED + GUARD + OUTPUT + GUARD];
static uint8_t *output; /* with its guards */
static size_t output_n;
static int has_output;

static _Alignas(ALIGNED) uint8_t buffer_room[ALIGNED + GUARD + BUFFER + GUARD];
static uint8_t *buffer; /* with its guards; NULL where none was lent in this batch */
static size_t buffer_n;
static int has_buffer;

static uint64_t told_edition, told_count;
static size_t told_at, told_length;

static _Noreturn void give_up(const char *why) {
  size_t n = 0;
  while (why[n]) n++;
  write(2, "driver: ", 8);
  write(2, why, n);
  write(2, "\n", 1);
  _exit(3);
}

static const uint8_t *take(size_t n) {
  if (n > (size_t)(end - next)) give_up("a command is cut short");
  const uint8_t *at = next;
  next += n;
  return at;
}

static uint64_t number(void) {
  uint64_t value;
  memcpy(&value, take(8), 8);
  return value;
}

static void answer(const void *from, size_t n) {
  if (n > ANSWERS - answered) give_up("too many answers");
  memcpy(answers + answered, from, n);
  answered += n;
}

static void answer_number(uint64_t value) { answer(&value, 8); }

static size_t shift(void) {
  size_t by = shifts % ALIGNED;
  shifts /= ALIGNED;
  return by;
}

/* More zeros than there is memory for. They take up none unless a call reads them, and cannot be written, but for so many at the front.
 * Where there are too few, a power of two of others is taken, so that all that were ever taken are fewer than four times the most that was
 * asked for; those before are not given back, for they may be lent to the same call. */
struct zeros {
  uint8_t *at;
  size_t have;
};

static uint8_t *zeros(struct zeros *these, size_t n, size_t front) {
  enum { READ = 1, WRITE = 2, PRIVATE = 2, ANONYMOUS = 32, NORESERVE = 0x4000 };
  if (n > these->have) {
    if (n >> 63) give_up("no room for so many zeros");
    for (these->have = FAR; these->have < n;) these->have *= 2;
    these->at = mmap(NULL, these->have, READ, PRIVATE | ANONYMOUS | NORESERVE, -1, 0);
    if (these->at == (void *)-1) give_up("no room for so many zeros");
    if (front && mprotect(these->at, front, READ | WRITE) != 0) give_up("the zeros at the front cannot be written");
  }
  return these->at;
}

/* What stands before and behind bytes that are lent: no two of these are alike, so that bytes moved within a guard are seen. */
static uint8_t guards[2 * GUARD];

static void make_guards(void) {
  for (size_t i = 0; i < sizeof guards; i++) guards[i] = (uint8_t)(0xa7 + 29 * i);
}

static const uint8_t *lend(size_t *n) {
  static struct zeros read_only;
  *n = number();
  size_t by = shift();
  if (*n > FAR) return zeros(&read_only, by + *n, 0) + by;
  uint8_t *place = lent[lents].place = lent[lents].room + by;
  const uint8_t *from = lent[lents].from = take(*n);
  lent[lents].n = *n;
  lents++;
  memcpy(place, guards, GUARD);
  memcpy(place + GUARD, from, *n);
  memcpy(place + GUARD + *n, guards + GUARD, GUARD);
  return place + GUARD;
}

/* How many of n bytes are others; mostly there are none, which memcmp tells faster. */
static uint64_t others(const uint8_t *a, const uint8_t *b, size_t n) {
  uint64_t count = 0;
  if (memcmp(a, b, n) == 0) return 0;
  for (size_t i = 0; i < n; i++) count += a[i] != b[i];
  return count;
}

static uint64_t lent_changed(void) {
  uint64_t changed = 0;
  for (int k = 0; k < lents; k++) {
    const uint8_t *place = lent[k].place;
    size_t n = lent[k].n;
    changed += others(place, guards, GUARD);
    changed += others(place + GUARD, lent[k].from, n);
    changed += others(place + GUARD + n, guards + GUARD, GUARD);
  }
  return changed;
}

static uint8_t *lend_output(size_t *n) {
  *n = output_n = number();
  uint64_t first = number();
  if (output_n > OUTPUT) give_up("the output is too long");
  output = output_room + shift();
  for (size_t i = 0; i < GUARD + output_n + GUARD; i++) output[i] = (uint8_t)(first + i);
  has_output = 1;
  return output + GUARD;
}

/* The bytes of the buffer that are sent and answered. */
static size_t buffer_front(void) { return buffer_n < BUFFER ? buffer_n : BUFFER; }

static uint8_t *lend_buffer(size_t *n) {
  static struct zeros far;
  uint64_t count = number();
  size_t by = shift();
  if (count != KEPT) {
    buffer_n = count;
    buffer = (buffer_n > BUFFER ? zeros(&far, ALIGNED + GUARD + buffer_n + GUARD, sizeof buffer_room) : buffer_room) + by;
    memcpy(buffer, guards, GUARD);
    memcpy(buffer + GUARD, take(buffer_front()), buffer_front());
    memcpy(buffer + GUARD + buffer_front(), guards + GUARD, GUARD);
  }
  if (!buffer) give_up("no buffer is kept");
  has_buffer = 1;
  *n = buffer_n;
  return buffer + GUARD;
}

static uint64_t *lend_run(size_t *n) {
  size_t place = number();
  *n = number();
  if (place > words || *n > words - place) give_up("the run is not in the memory");
  return memory + place;
}

static uint64_t call_on_table(uint8_t which) {
  size_t run_n, n;
  uint64_t *run = lend_run(&run_n);
  uint64_t bay = number(); /* for lay out, how many */
  switch (which) {
    case 10: return dw_lay_out(run, run_n, bay);
    case 11: return dw_open(run, run_n, bay, number());
    case 12: {
      const uint8_t *piece = lend(&n);
      return dw_add(run, run_n, bay, piece, n);
    }
    case 13: {
      uint8_t closing = (uint8_t)number();
      uint64_t bits = number();
      uint8_t *out = lend_output(&n);
      return dw_close(run, run_n, bay, closing, bits, out, n);
    }
    case 14: {
      uint8_t *out = lend_output(&n);
      return dw_save(run, run_n, bay, out, n);
    }
    case 15: {
      const uint8_t *record = lend(&n);
      return dw_load(run, run_n, bay, record, n);
    }
    case 16: return dw_ask(run, run_n, bay, &told_edition, &told_count);
    case 17: return dw_drop(run, run_n, bay);
    default: give_up("no such command");
  }
}

static uint64_t call_at_once(uint8_t which) {
  size_t n, name_n, digest_n, out_n, key_n;
  switch (which) {
    case 20: {
      uint64_t edition = number();
      const uint8_t *message = lend(&n);
      uint8_t closing = (uint8_t)number();
      uint64_t bits = number();
      uint8_t *out = lend_output(&out_n);
      return dw_hash(edition, message, n, closing, bits, out, out_n);
    }
    case 21: {
      const uint8_t *map = lend(&n);
      uint8_t *out = lend_output(&out_n);
      return dw_tree(map, n, out, out_n);
    }
    case 22: {
      const uint8_t *list = lend(&n), *name = lend(&name_n), *digest = lend(&digest_n);
      return dw_judge(list, n, name, name_n, digest, digest_n);
    }
    case 23: {
      const uint8_t *list = lend(&n), *name = lend(&name_n);
      return dw_lookup(list, n, name, name_n, &told_at, &told_length);
    }
    case 24: {
      uint64_t edition = number();
      uint8_t *list = lend_buffer(&n);
      return dw_list_start(edition, list, n);
    }
    case 25: {
      uint8_t *list = lend_buffer(&n);
      const uint8_t *name = lend(&name_n), *digest = lend(&digest_n);
      return dw_list_put(list, n, name, name_n, digest, digest_n);
    }
    case 26: {
      uint64_t edition = number();
      const uint8_t *key = lend(&key_n), *message = lend(&n);
      uint8_t *out = lend_output(&out_n);
      return dw_tag(edition, key, key_n, message, n, out, out_n);
    }
    case 27: {
      uint64_t edition = number();
      const uint8_t *key = lend(&key_n), *message = lend(&n), *tag = lend(&digest_n);
      return dw_check_tag(edition, key, key_n, message, n, tag, digest_n);
    }
    default: give_up("no such command");
  }
}

static uint64_t part_of_tree(uint8_t which) {
  size_t n, right_n, out_n;
  switch (which) {
    case 30: {
      const uint8_t *bytes = lend(&n);
      uint8_t *out = lend_output(&out_n);
      part_leaf(bytes, n, out, out_n);
      return 0;
    }
    case 31: {
      const uint8_t *left = lend(&n), *right = lend(&right_n);
      uint8_t *out = lend_output(&out_n);
      if (n != DW_ROOT_BYTES || right_n != DW_ROOT_BYTES) give_up("no node has so many bytes");
      part_parent(left, right, out, out_n);
      return 0;
    }
    case 32: {
      uint8_t *nodes = lend_buffer(&n);
      part_level(nodes, n);
      return 0;
    }
    default: give_up("no such command");
  }
}

static uint64_t call_on_stream(uint8_t which) {
  size_t run_n, n;
  uint64_t *run = lend_run(&run_n);
  switch (which) {
    case 40: return dw_stream_begin(run, run_n);
    case 41: {
      const uint8_t *piece = lend(&n);
      return dw_stream_add(run, run_n, piece, n);
    }
    case 42: {
      uint8_t *out = lend_output(&n);
      return dw_stream_root(run, run_n, out, n);
    }
    default: give_up("no such command");
  }
}

static uint64_t call_on_keyed(uint8_t which) {
  size_t run_n, n;
  uint64_t *run = lend_run(&run_n);
  switch (which) {
    case 50: {
      uint64_t edition = number();
      const uint8_t *key = lend(&n);
      return dw_keyed_start(run, run_n, edition, key, n);
    }
    case 51: {
      const uint8_t *piece = lend(&n);
      return dw_keyed_add(run, run_n, piece, n);
    }
    case 52: {
      uint8_t *out = lend_output(&n);
      return dw_keyed_tag(run, run_n, out, n);
    }
    case 53: {
      const uint8_t *tag = lend(&n);
      return dw_keyed_check(run, run_n, tag, n);
    }
    default: give_up("no such command");
  }
}

/* Each ten of commands has a function of its own. */
static uint64_t call_made(uint8_t which) {
  switch (which / 10) {
    case 1: return call_on_table(which);
    case 2: return call_at_once(which);
    case 3: return part_of_tree(which);
    case 4: return call_on_stream(which);
    case 5: return call_on_keyed(which);
    default: give_up("no such command");
  }
}

static void answer_words_changed(void) {
  uint64_t count = 0;
  for (size_t i = 0; i < words; i++) count += memory[i] != before[i];
  answer_number(count);
  for (size_t i = 0; count && i < words; i++) {
    if (memory[i] == before[i]) continue;
    answer_number(i);
    answer_number(memory[i]);
    before[i] = memory[i];
  }
}

static void call(uint8_t which) {
  lents = has_output = has_buffer = 0;
  shifts = number();
  told_edition = told_count = told_at = told_length = 0x5a5a5a5a5a5a5a5a;
  answer_number(call_made(which));
  if (which == 16) {
    answer_number(told_edition);
    answer_number(told_count);
  }
  if (which == 23) {
    answer_number(told_at);
    answer_number(told_length);
  }
  if (has_output) answer(output, GUARD + output_n + GUARD);
  if (has_buffer) answer(buffer, GUARD + buffer_front() + GUARD);
  answer_number(lent_changed());
  answer_words_changed();
}

static void set_memory(void) {
  words = number();
  if (words > WORDS) give_up("the memory is too long");
  memory = room + words % 2;
  memcpy(memory, take(8 * words), 8 * words);
  memcpy(before, memory, 8 * words);
}

static void set_word(void) {
  size_t place = number();
  if (place >= words) give_up("the word is not in the memory");
  memory[place] = before[place] = number();
}

static void command(uint8_t which) {
  if (which == 0) set_memory();
  else if (which == 1) set_word();
  else if (which == 2) answer(memory, 8 * words);
  else call(which);
}

/* Reads n bytes, or tells that the input is over before the first of them. */
static int fill(void *to, size_t n) {
  for (size_t have = 0; have < n;) {
    long got = read(0, (uint8_t *)to + have, n - have);
    if (got == 0 && have == 0) return 0;
    if (got <= 0) give_up("the input ends within a batch");
    have += (size_t)got;
  }
  return 1;
}

static void send(const void *from, size_t n) {
  for (size_t done = 0; done < n;) {
    long wrote = write(1, (const uint8_t *)from + done, n - done);
    if (wrote <= 0) give_up("the answers cannot be written");
    done += (size_t)wrote;
  }
}

int main(void) {
  uint64_t n;
  make_guards();
  while (fill(&n, 8)) {
    if (n > BATCH) give_up("the batch is too long");
    if (!fill(batch, n)) give_up("the batch is missing");
    next = batch;
    end = batch + n;
    answered = 0;
    buffer = NULL;
    while (next < end) command(*take(1));
    n = answered;
    send(&n, 8);
    send(answers, answered);
  }
  return 0;
}
