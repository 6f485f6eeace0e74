/*
 * Records as lines of comma-separated fields, RFC 4180, and back. All memory is lent, nothing is kept between calls and nothing is
 * allocated. A writer answers a number: 0 done; 4 the output is shorter than below; 11 no record has these bytes. With 4 and 11
 * nothing is written.
 */
#ifndef RSMP_CSV_H
#define RSMP_CSV_H

#include <stddef.h>
#include <stdint.h>

#define RSMP_CSV_HEADER 73 /* bytes of the header with its CRLF */
#define RSMP_CSV_LINE 66   /* bytes that are room enough for every line */
#define RSMP_CSV_RECORD 16 /* bytes of a record */

struct rsmp_csv_told {
    uint64_t written;
    uint64_t number;
};

/* What a line comes to. */
enum {
    RSMP_CSV_ACCEPTED = 0,
    RSMP_CSV_WRONG_HEADER = 1,
    RSMP_CSV_BAD_QUOTING = 2,
    RSMP_CSV_WRONG_COUNT = 3,
    RSMP_CSV_UNKNOWN_KIND = 4,
    RSMP_CSV_WRONG_PRESENCE = 5, /* a field that the kind lacks is not empty, or one that it has is empty */
    RSMP_CSV_NO_RECORD = 6,      /* no record is written with these fields */
    RSMP_CSV_END = 7
};

/* The next place and its line's number, this line's own number, what it comes to, and the record's bytes, or zeros. */
struct rsmp_csv_read {
    uint64_t next;
    uint64_t line;
    uint64_t own;
    uint64_t answer;
    uint8_t record[RSMP_CSV_RECORD];
};

#ifdef __cplusplus
extern "C" {
#endif

/* The header, from the start of out. */
struct rsmp_csv_told rsmp_csv_header(uint8_t *out, size_t out_len);

/* The line of a record of RSMP_CSV_RECORD bytes, from the start of out. */
struct rsmp_csv_told rsmp_csv_line(const uint8_t *record, size_t record_len, uint8_t *out, size_t out_len);

/* What stands at a place of the text. At 0 the header is judged first, whatever `line` says, and the line behind it, line 2, is read by
 * the same call; at any other place no header is looked for. Then call with `next` and `line`; stop at WRONG_HEADER and at END. */
struct rsmp_csv_read rsmp_csv_read(const uint8_t *text, size_t text_len, uint64_t at, uint64_t line);

#ifdef __cplusplus
}
#endif

#endif
