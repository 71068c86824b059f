/* half_read FILE: the SHA-256 of a file that is read in two halves, with a restart between them. Prints the digest, two blanks and the
 * name, as sha256sum does of a plain name; one with a backslash or a line break sha256sum would write with escapes.
 *
 * First half: open a bay, add pieces, save the record. Then all memory is lost but the record, which a real program keeps on a disk.
 * Second half: lay the table out anew, load the record, ask how far the message was read, read on from there, close.
 */
#include <errno.h>
#include <inttypes.h>
#include <stdio.h>
#include <stdlib.h>
#include <string.h>

#include <dwombarine.h>

enum { DIGEST = DW_DIGEST_BYTES(DW_SHA256), PIECE = 4096, BAY = 0, WORDS = DW_TABLE_WORDS(1) };

/* Ends the program if the call was refused. */
static void check(const char *call, uint64_t number)
{
    if (number != DW_DONE) {
        fprintf(stderr, "half_read: %s was refused with number %" PRIu64 ": %s\n", call, number, dw_answer_text(number));
        exit(1);
    }
}

/* Ends the program if something of the system failed. */
static void check_system(const char *name, int fine)
{
    if (!fine) {
        fprintf(stderr, "half_read: %s: %s (error %d)\n", name, strerror(errno), errno);
        exit(1);
    }
}

/* Adds the next bytes of the file, at most `most` of them, in pieces. */
static void add_from(FILE *file, const char *name, uint64_t *table, uint64_t most)
{
    uint8_t piece[PIECE];
    while (most > 0) {
        size_t want = most < PIECE ? (size_t)most : PIECE;
        size_t got = fread(piece, 1, want, file);
        check_system(name, !ferror(file));
        if (got == 0)
            break;
        check("add", dw_add(table, WORDS, BAY, piece, got));
        most -= got;
    }
}

/* Reads half of the file and leaves the record of that; answers the record's length. */
static size_t first_half(const char *name, uint64_t *table, uint8_t *record, size_t room)
{
    uint64_t edition, count;
    FILE *file = fopen(name, "rb");
    check_system(name, file != NULL);
    check_system(name, fseek(file, 0, SEEK_END) == 0);
    long size = ftell(file);
    check_system(name, size >= 0);
    rewind(file);

    check("lay out", dw_lay_out(table, WORDS, 1));
    check("open", dw_open(table, WORDS, BAY, DW_SHA256));
    /* an odd count ends inside a block, so the record also holds the beginning of that block */
    add_from(file, name, table, (uint64_t)size / 2 | 1);
    check("ask", dw_ask(table, WORDS, BAY, &edition, &count));
    check("save", dw_save(table, WORDS, BAY, record, room));
    fclose(file);
    return (size_t)DW_RECORD_BYTES(edition, count);
}

/* Goes on from the record to the end of the file and leaves the digest. */
static void second_half(const char *name, uint64_t *table, const uint8_t *record, size_t length, uint8_t *digest)
{
    uint64_t edition, count;
    check("lay out", dw_lay_out(table, WORDS, 1));
    check("load", dw_load(table, WORDS, BAY, record, length));
    check("ask", dw_ask(table, WORDS, BAY, &edition, &count));

    FILE *file = fopen(name, "rb");
    check_system(name, file != NULL);
    check_system(name, fseek(file, (long)count, SEEK_SET) == 0);
    add_from(file, name, table, UINT64_MAX);
    fclose(file);
    check("close", dw_close(table, WORDS, BAY, 0, 0, digest, DIGEST));
}

int main(int argc, char **argv)
{
    uint64_t table[WORDS];
    uint8_t record[DW_LONGEST_RECORD], digest[DIGEST];
    size_t length; /* of the record */

    if (argc != 2) {
        fprintf(stderr, "usage: half_read FILE\n");
        return 1;
    }
    length = first_half(argv[1], table, record, sizeof record);
    memset(table, 0xa5, sizeof table); /* the restart: the table's memory now holds anything */
    second_half(argv[1], table, record, length, digest);

    for (size_t i = 0; i < DIGEST; i++)
        printf("%02x", digest[i]);
    printf("  %s\n", argv[1]);
    check_system("standard output", !ferror(stdout) && fclose(stdout) == 0);
    return 0;
}
