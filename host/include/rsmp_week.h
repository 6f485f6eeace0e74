/*
 * The weekly report of a captured supervisor stream: begin, feed the stream in pieces of any size, report. All memory is lent, nothing
 * is kept between calls and nothing is allocated. Each call answers a number: 0 done; 1 memory of another length than below, and
 * nothing has changed; 2 (report) the output has no room.
 */
#ifndef RSMP_WEEK_H
#define RSMP_WEEK_H

#include <stddef.h>
#include <stdint.h>

#define RSMP_WEEK_WORDS 5027   /* words lent for the counts */
#define RSMP_WEEK_HELD 4096    /* bytes lent for the packet that has begun */
#define RSMP_WEEK_REPORT 16384 /* bytes that are room enough for every report */

/* How many bytes the packet has that has begun; above 4,096 it is too long and is passed over. */
struct rsmp_week_fed {
    uint32_t number;
    uint32_t used;
};

struct rsmp_week_told {
    uint64_t written;
    uint64_t number;
};

#ifdef __cplusplus
extern "C" {
#endif

/* A stream begins: nothing is counted. */
uint32_t rsmp_week_begin(uint64_t *words, size_t words_len);

/* A piece of the stream. `used` is 0 for the first piece, and then what the call before answered. */
struct rsmp_week_fed rsmp_week_feed(uint64_t *words, size_t words_len, uint8_t *held, size_t held_len, uint32_t used,
                                    const uint8_t *piece, size_t piece_len);

/* The report of what was fed so far. The words stay as they are. */
struct rsmp_week_told rsmp_week_report(const uint64_t *words, size_t words_len, uint8_t *out, size_t out_len);

#ifdef __cplusplus
}
#endif

#endif
