/* The site end of RSMP 3.2 towards one to four supervisors: a library without heap, global state or system calls, for x86-64.
 *
 * A site is one rsmp_site, a struct that you own; there may be several. Two sites that share one pool of records, as two barriers in one
 * cabinet, are one rsmp_box. Each call takes a pointer to it, changes it in place and gives a number. Number 0 says that the call is done.
 * Any other number says that nothing was done: the site and all lent bytes are as they were. The three calls that have more to tell,
 * rsmp_packet, rsmp_pump and rsmp_tick, fill a report. A packet's report may hand commands over: carry them out, one after the other.
 *
 * You bring: TCP connections, the form feed (0x0C) between packets, a clock, random bytes, and stack for a call: see
 * docs/EMBEDDING.md. One call at a time on a site, or on a box. All pointers must be valid for their lengths, also where a length is 0, and the
 * output may overlap neither the packet nor the site.
 */
#ifndef RSMP_SITE_H
#define RSMP_SITE_H

#include <stddef.h>
#include <stdint.h>
#include <string.h>

#ifdef __cplusplus
extern "C" {
#endif

/* The version of the library, of this header, of the Rust crate and of the programs. A site is started by a function that has the
 * version in its name, so that the linker refuses a library of another one ("undefined reference to rsmp_lent_start_.."). */
#define RSMP_VERSION "0.7.0"
#define rsmp_lent_start rsmp_lent_start_0_7_0
extern const char rsmp_library_version[];

#define RSMP_POOL_WORDS 520
#define RSMP_SITE_WORDS 657
#define RSMP_SITE_TABLE 6178
#define RSMP_SITE_BYTES 15594            /* of a site; a compiler may add some behind them for alignment */
#define RSMP_BOX_BYTES 27028             /* of a box; the same */
#define RSMP_BOX_SITES 2                 /* sites of a box are numbered from 0 */
#define RSMP_SITE_EDITION 4u             /* another layout of the site has another: store it beside a site's bytes */
#define RSMP_LINKS 4                     /* links are numbered from 0 */
#define RSMP_COMMANDS 16                 /* the most commands that a packet hands over */
#define RSMP_OUTPUT_BYTES 4096           /* the least output to lend: no call writes more */
#define RSMP_PACKET_BYTES 4096           /* the longest packet that is read */
#define RSMP_LAST_TIME 253402300799999u  /* 9999-12-31T23:59:59.999Z */
#define RSMP_NO_PRIMARY 4294967295u

/* The numbers a call can give, and what to do on each. */
enum rsmp_number {
    RSMP_DONE = 0,            /* where there is a report: send the written bytes, close the connections of the closed links, carry out the commands */
    RSMP_IGNORED = 1,         /* packet: it is not answered. Drop it and go on */
    RSMP_NO_LINK = 2,         /* no such configured link, or no such site of a box: a fault of yours */
    RSMP_NO_ITEM = 3,         /* no such alarm or status in the site table: a fault of yours, or the wrong table */
    RSMP_SHORT_OUTPUT = 4,    /* lend RSMP_OUTPUT_BYTES or more */
    RSMP_BAD_TIME = 5,        /* the time is before that of an earlier call, or past RSMP_LAST_TIME: never let your clock step back */
    RSMP_WRONG_PHASE = 6,     /* connect on a link that is not Down; disconnect, packet or pump on a Down link */
    RSMP_NOTHING_DUE = 7,     /* pump: nothing to send now */
    RSMP_FULL = 8,            /* pump: something is due, but 8 or more answers are outstanding. Pump again after a packet or a tick */
    RSMP_SAME_IDENTITY = 9,   /* the random bytes make an identity that is awaited: call again with fresh random bytes */
    RSMP_SEQUENCE_SPENT = 10, /* sequence numbers would pass 2147483647: start a new site */
    RSMP_NOT_ACCEPTED = 11,   /* start: a value or the site table is out of its limits */
    RSMP_LONG_PACKET = 12     /* packet: longer than RSMP_PACKET_BYTES. Drop it and go on */
};

enum rsmp_phase_number { RSMP_DOWN = 0, RSMP_GREETING = 1, RSMP_BEATING = 2, RSMP_UP = 3 };

/* Nothing in it is for you to read. Copy it as you like, store it as you like: every content is safe to pass, also one that no call made. */
typedef struct rsmp_site {
    uint64_t pool[RSMP_POOL_WORDS];  /* the records that are held */
    uint64_t words[RSMP_SITE_WORDS]; /* all else that changes */
    uint8_t table[RSMP_SITE_TABLE];  /* the site table, as start leaves it */
} rsmp_site;

/* The same of two sites and the pool that they share. All bytes are 0 before the first start of either. */
typedef struct rsmp_box {
    uint64_t pool[RSMP_POOL_WORDS];
    uint64_t words[RSMP_BOX_SITES][RSMP_SITE_WORDS];
    uint8_t table[RSMP_BOX_SITES][RSMP_SITE_TABLE];
} rsmp_box;

/* 16 random bytes, fresh for each call, of which the identity of a message is made. They need not be secret, but no two may be equal; and a
 * sender who can foresee them can make a packet of 4 KB that takes milliseconds to read. */
typedef struct rsmp_id {
    uint8_t bytes[16];
} rsmp_id;

/* What a supervisor commands: the command's number, from 0 as the site table lists them, and its value, which is in the command's range. */
typedef struct rsmp_command {
    uint32_t number;
    int32_t value;
} rsmp_command;

/* What a done call did. All but the number is 0 where the call is refused. */
typedef struct rsmp_report {
    uint64_t hint;     /* the primary's clock, milliseconds since 1970 UTC, where hinted is 1 */
    uint32_t number;   /* the one that the call gives */
    uint32_t written;  /* bytes written to the start of the output: whole messages, each with its form feed */
    uint32_t closed;   /* links that are Down now, link 0 being bit 0: close their connections, after sending what was written */
    uint32_t hinted;
    uint64_t commands; /* how many are handed over; only rsmp_packet hands any over */
    rsmp_command command[RSMP_COMMANDS]; /* the first of these, in the order in which to carry them out; the rest is 0 */
} rsmp_report;

/* What the exported functions below give: a report without its commands, which rsmp_lent_packet writes to lent words. */
typedef struct rsmp_outcome {
    uint64_t hint;
    uint32_t number, written, closed, hinted;
    uint64_t commands;
} rsmp_outcome;

typedef struct rsmp_version {
    uint32_t major, minor, patch;
} rsmp_version;

typedef struct rsmp_reading {
    uint8_t found;
    uint8_t bytes[16];
} rsmp_reading;

/* What the library exports; call the functions below, which hand it a pool and a site's two parts with their lengths. Parts of other lengths
 * give the number 14 (a reading: 0), which the functions below cannot. A start names its site: 0, 1, or RSMP_ALONE, which is site 0 and empties
 * the whole pool, whatever it held. Of the commands' sixteen words the first outcome.commands are written, each a command's number times 2^32 and
 * its value's 32 bits; the others stay. */
#define RSMP_ALONE 4294967295u
#define RSMP_MISFIT 14
rsmp_outcome rsmp_lent_start(uint64_t *pool, size_t pool_length, uint64_t *words, size_t words_length, uint8_t *table, size_t table_length,
                             const uint8_t *bits, size_t bits_length, uint32_t site, uint32_t links, uint32_t primary, uint32_t period,
                             uint64_t first, uint64_t time);
rsmp_outcome rsmp_lent_connect(uint64_t *pool, size_t pool_length, uint64_t *words, size_t words_length, uint32_t link, uint64_t time);
rsmp_outcome rsmp_lent_disconnect(uint64_t *pool, size_t pool_length, uint64_t *words, size_t words_length, uint32_t link, uint64_t time);
rsmp_outcome rsmp_lent_packet(uint64_t *pool, size_t pool_length, uint64_t *words, size_t words_length, const uint8_t *table,
                              size_t table_length, uint32_t link, uint64_t time, rsmp_id random, const uint8_t *packet,
                              size_t packet_length, uint64_t *commands, size_t commands_length, uint8_t *output, size_t output_length);
rsmp_outcome rsmp_lent_alarm(uint64_t *pool, size_t pool_length, uint64_t *words, size_t words_length, const uint8_t *table,
                             size_t table_length, uint32_t number, uint32_t active, uint64_t time);
rsmp_outcome rsmp_lent_status(uint64_t *pool, size_t pool_length, uint64_t *words, size_t words_length, const uint8_t *table,
                              size_t table_length, uint32_t number, int32_t value, uint64_t time);
rsmp_outcome rsmp_lent_aggregated(uint64_t *pool, size_t pool_length, uint64_t *words, size_t words_length, uint8_t value, uint64_t time);
rsmp_outcome rsmp_lent_tick(uint64_t *pool, size_t pool_length, uint64_t *words, size_t words_length, uint64_t time);
rsmp_outcome rsmp_lent_pump(uint64_t *pool, size_t pool_length, uint64_t *words, size_t words_length, const uint8_t *table,
                            size_t table_length, uint32_t link, uint64_t time, rsmp_id random, uint8_t *output, size_t output_length);
uint64_t rsmp_lent_held(const uint64_t *pool, size_t pool_length, const uint64_t *words, size_t words_length, uint32_t link);
uint64_t rsmp_lent_lost(const uint64_t *pool, size_t pool_length, const uint64_t *words, size_t words_length, uint32_t link);
uint32_t rsmp_lent_phase(const uint64_t *pool, size_t pool_length, const uint64_t *words, size_t words_length, uint32_t link);
rsmp_version rsmp_lent_version_of(const uint64_t *pool, size_t pool_length, const uint64_t *words, size_t words_length, uint32_t link);
rsmp_reading rsmp_lent_record(const uint64_t *pool, size_t pool_length, const uint64_t *words, size_t words_length, uint32_t link,
                              uint64_t rank);

static inline uint32_t rsmp_put_report(rsmp_outcome outcome, const uint64_t *commands, rsmp_report *report) {
    memset(report, 0, sizeof *report);
    report->hint = outcome.hint;
    report->number = outcome.number;
    report->written = outcome.written;
    report->closed = outcome.closed;
    report->hinted = outcome.hinted;
    report->commands = outcome.commands;
    for (size_t i = 0; i < outcome.commands && i < RSMP_COMMANDS; i++) {
        report->command[i].number = (uint32_t)(commands[i] >> 32);
        report->command[i].value = (int32_t)(uint32_t)commands[i];
    }
    return outcome.number;
}

/* The calls. Time is in milliseconds since 1970 UTC in every call, and never before that of an earlier call on the site. */

/* Makes *site a new site, whatever it was: its table's bits (rsmp-table makes them), 1 to 4 links, which of them is primary or
 * RSMP_NO_PRIMARY, the watchdog's period in seconds (1 to 3600), the first sequence number (0 to 2147483647; after a restart any will do)
 * and the time. Numbers: 11. */
static inline uint32_t rsmp_start(rsmp_site *site, const uint8_t *bits, size_t length, uint32_t links, uint32_t primary, uint32_t period,
                                  uint64_t first, uint64_t time) {
    return rsmp_lent_start(site->pool, RSMP_POOL_WORDS, site->words, RSMP_SITE_WORDS, site->table, RSMP_SITE_TABLE, bits, length, RSMP_ALONE,
                           links, primary, period, first, time)
        .number;
}

/* A connection to the supervisor of a link stands. Numbers: 2, 5, 6. */
static inline uint32_t rsmp_connect(rsmp_site *site, uint32_t link, uint64_t time) {
    return rsmp_lent_connect(site->pool, RSMP_POOL_WORDS, site->words, RSMP_SITE_WORDS, link, time).number;
}

/* It is gone. What waits is kept. Numbers: 2, 5, 6. */
static inline uint32_t rsmp_disconnect(rsmp_site *site, uint32_t link, uint64_t time) {
    return rsmp_lent_disconnect(site->pool, RSMP_POOL_WORDS, site->words, RSMP_SITE_WORDS, link, time).number;
}

/* A packet came: the bytes between two form feeds, without them. Leave out empty ones. The written bytes are the answer. The report's
 * commands are handed over: they are answered as taken, and nobody but you has them from here on. Numbers: 2, 4, 12, 5, 6, 1, 9, 10. */
static inline uint32_t rsmp_packet(rsmp_site *site, uint32_t link, uint64_t time, const rsmp_id *random, const uint8_t *packet, size_t length,
                                   uint8_t *output, size_t room, rsmp_report *report) {
    uint64_t commands[RSMP_COMMANDS];
    return rsmp_put_report(rsmp_lent_packet(site->pool, RSMP_POOL_WORDS, site->words, RSMP_SITE_WORDS, site->table, RSMP_SITE_TABLE, link, time,
                                            *random, packet, length, commands, RSMP_COMMANDS, output, room),
                           commands, report);
}

/* An alarm's input: active 1 or inactive 0. An input that is as before does nothing. Numbers: 3, 5, 10. */
static inline uint32_t rsmp_alarm(rsmp_site *site, uint32_t number, uint32_t active, uint64_t time) {
    return rsmp_lent_alarm(site->pool, RSMP_POOL_WORDS, site->words, RSMP_SITE_WORDS, site->table, RSMP_SITE_TABLE, number, active, time).number;
}

/* A status has this value. Numbers: 3, 5, 10. */
static inline uint32_t rsmp_status(rsmp_site *site, uint32_t number, int32_t value, uint64_t time) {
    return rsmp_lent_status(site->pool, RSMP_POOL_WORDS, site->words, RSMP_SITE_WORDS, site->table, RSMP_SITE_TABLE, number, value, time).number;
}

/* The eight booleans of the aggregated status, the first in the highest bit. Numbers: 5, 10. */
static inline uint32_t rsmp_aggregated(rsmp_site *site, uint8_t value, uint64_t time) {
    return rsmp_lent_aggregated(site->pool, RSMP_POOL_WORDS, site->words, RSMP_SITE_WORDS, value, time).number;
}

/* Time passes: call it once a second or more often. Subscriptions at intervals become due, and links are closed whose supervisor has
 * not answered for 30 seconds. Numbers: 5, 10. */
static inline uint32_t rsmp_tick(rsmp_site *site, uint64_t time, rsmp_report *report) {
    return rsmp_put_report(rsmp_lent_tick(site->pool, RSMP_POOL_WORDS, site->words, RSMP_SITE_WORDS, time), NULL, report);
}

/* Writes the next message that is due on a link, one at most: call it after every other call, for every connected link, until it
 * gives 7 or 8. Numbers: 2, 4, 5, 6, 7, 8, 9. */
static inline uint32_t rsmp_pump(rsmp_site *site, uint32_t link, uint64_t time, const rsmp_id *random, uint8_t *output, size_t room,
                                 rsmp_report *report) {
    return rsmp_put_report(rsmp_lent_pump(site->pool, RSMP_POOL_WORDS, site->words, RSMP_SITE_WORDS, site->table, RSMP_SITE_TABLE, link, time,
                                          *random, output, room),
                           NULL, report);
}

/* Readings. They change nothing; for a link that is not configured they are 0. */

/* Records that wait for a link's answer, and records that were pushed out of the pool since start. */
static inline uint64_t rsmp_held(const rsmp_site *site, uint32_t link) {
    return rsmp_lent_held(site->pool, RSMP_POOL_WORDS, site->words, RSMP_SITE_WORDS, link);
}
static inline uint64_t rsmp_lost(const rsmp_site *site, uint32_t link) {
    return rsmp_lent_lost(site->pool, RSMP_POOL_WORDS, site->words, RSMP_SITE_WORDS, link);
}

/* One of rsmp_phase_number. */
static inline uint32_t rsmp_phase(const rsmp_site *site, uint32_t link) {
    return rsmp_lent_phase(site->pool, RSMP_POOL_WORDS, site->words, RSMP_SITE_WORDS, link);
}

/* The chosen version, 0.0.0 before there is one. */
static inline rsmp_version rsmp_version_of(const rsmp_site *site, uint32_t link) {
    return rsmp_lent_version_of(site->pool, RSMP_POOL_WORDS, site->words, RSMP_SITE_WORDS, link);
}

/* The 16 bytes of a record held for a link, the oldest being rank 0; found is 0 where there is none of that rank. */
static inline rsmp_reading rsmp_record(const rsmp_site *site, uint32_t link, uint64_t rank) {
    return rsmp_lent_record(site->pool, RSMP_POOL_WORDS, site->words, RSMP_SITE_WORDS, link, rank);
}

/* The same on a site of a box, 0 or 1. Each is a site of its own: table, links, last time, sequence numbers, identities. They share the pool
 * alone: while it is full, a record of one may push out a record of the other, which counts as lost there. A start begins its own site and
 * leaves the other as it is. A site is not called before its start. Where there is no such site: 2, of a start 11, of a reading 0. */

/* How many words of a site there are. */
static inline size_t rsmp_part(uint32_t site) { return site < RSMP_BOX_SITES ? RSMP_SITE_WORDS : 0; }

static inline rsmp_outcome rsmp_of_box(rsmp_outcome outcome, uint32_t no_site) {
    if (outcome.number == RSMP_MISFIT) outcome.number = no_site;
    return outcome;
}

static inline uint32_t rsmp_box_start(rsmp_box *box, uint32_t site, const uint8_t *bits, size_t length, uint32_t links, uint32_t primary,
                                      uint32_t period, uint64_t first, uint64_t time) {
    return rsmp_of_box(rsmp_lent_start(box->pool, RSMP_POOL_WORDS, box->words[site & 1], rsmp_part(site), box->table[site & 1], RSMP_SITE_TABLE,
                                       bits, length, site, links, primary, period, first, time),
                       RSMP_NOT_ACCEPTED)
        .number;
}

static inline uint32_t rsmp_box_connect(rsmp_box *box, uint32_t site, uint32_t link, uint64_t time) {
    return rsmp_of_box(rsmp_lent_connect(box->pool, RSMP_POOL_WORDS, box->words[site & 1], rsmp_part(site), link, time), RSMP_NO_LINK).number;
}

static inline uint32_t rsmp_box_disconnect(rsmp_box *box, uint32_t site, uint32_t link, uint64_t time) {
    return rsmp_of_box(rsmp_lent_disconnect(box->pool, RSMP_POOL_WORDS, box->words[site & 1], rsmp_part(site), link, time), RSMP_NO_LINK).number;
}

static inline uint32_t rsmp_box_packet(rsmp_box *box, uint32_t site, uint32_t link, uint64_t time, const rsmp_id *random, const uint8_t *packet,
                                       size_t length, uint8_t *output, size_t room, rsmp_report *report) {
    uint64_t commands[RSMP_COMMANDS];
    return rsmp_put_report(rsmp_of_box(rsmp_lent_packet(box->pool, RSMP_POOL_WORDS, box->words[site & 1], rsmp_part(site), box->table[site & 1],
                                                        RSMP_SITE_TABLE, link, time, *random, packet, length, commands, RSMP_COMMANDS, output,
                                                        room),
                                       RSMP_NO_LINK),
                           commands, report);
}

static inline uint32_t rsmp_box_alarm(rsmp_box *box, uint32_t site, uint32_t number, uint32_t active, uint64_t time) {
    return rsmp_of_box(rsmp_lent_alarm(box->pool, RSMP_POOL_WORDS, box->words[site & 1], rsmp_part(site), box->table[site & 1], RSMP_SITE_TABLE,
                                       number, active, time),
                       RSMP_NO_LINK)
        .number;
}

static inline uint32_t rsmp_box_status(rsmp_box *box, uint32_t site, uint32_t number, int32_t value, uint64_t time) {
    return rsmp_of_box(rsmp_lent_status(box->pool, RSMP_POOL_WORDS, box->words[site & 1], rsmp_part(site), box->table[site & 1], RSMP_SITE_TABLE,
                                        number, value, time),
                       RSMP_NO_LINK)
        .number;
}

static inline uint32_t rsmp_box_aggregated(rsmp_box *box, uint32_t site, uint8_t value, uint64_t time) {
    return rsmp_of_box(rsmp_lent_aggregated(box->pool, RSMP_POOL_WORDS, box->words[site & 1], rsmp_part(site), value, time), RSMP_NO_LINK).number;
}

static inline uint32_t rsmp_box_tick(rsmp_box *box, uint32_t site, uint64_t time, rsmp_report *report) {
    return rsmp_put_report(rsmp_of_box(rsmp_lent_tick(box->pool, RSMP_POOL_WORDS, box->words[site & 1], rsmp_part(site), time), RSMP_NO_LINK), NULL,
                           report);
}

static inline uint32_t rsmp_box_pump(rsmp_box *box, uint32_t site, uint32_t link, uint64_t time, const rsmp_id *random, uint8_t *output,
                                     size_t room, rsmp_report *report) {
    return rsmp_put_report(rsmp_of_box(rsmp_lent_pump(box->pool, RSMP_POOL_WORDS, box->words[site & 1], rsmp_part(site), box->table[site & 1],
                                                      RSMP_SITE_TABLE, link, time, *random, output, room),
                                       RSMP_NO_LINK),
                           NULL, report);
}

static inline uint64_t rsmp_box_held(const rsmp_box *box, uint32_t site, uint32_t link) {
    return rsmp_lent_held(box->pool, RSMP_POOL_WORDS, box->words[site & 1], rsmp_part(site), link);
}
static inline uint64_t rsmp_box_lost(const rsmp_box *box, uint32_t site, uint32_t link) {
    return rsmp_lent_lost(box->pool, RSMP_POOL_WORDS, box->words[site & 1], rsmp_part(site), link);
}
static inline uint32_t rsmp_box_phase(const rsmp_box *box, uint32_t site, uint32_t link) {
    return rsmp_lent_phase(box->pool, RSMP_POOL_WORDS, box->words[site & 1], rsmp_part(site), link);
}
static inline rsmp_version rsmp_box_version_of(const rsmp_box *box, uint32_t site, uint32_t link) {
    return rsmp_lent_version_of(box->pool, RSMP_POOL_WORDS, box->words[site & 1], rsmp_part(site), link);
}
static inline rsmp_reading rsmp_box_record(const rsmp_box *box, uint32_t site, uint32_t link, uint64_t rank) {
    return rsmp_lent_record(box->pool, RSMP_POOL_WORDS, box->words[site & 1], rsmp_part(site), link, rank);
}

/* Over a power loss: the bytes of a site or of a box, with what tells whether they came back whole. After a restart disconnect every link
 * that is not Down, at a time that is no earlier than that of the last call, and go on. See docs/EMBEDDING.md. */

#define RSMP_STORED_BYTES (16 + RSMP_SITE_BYTES + 8)
#define RSMP_BOX_STORED_BYTES (16 + RSMP_BOX_BYTES + 8)

/* FNV-1a of 64 bits. */
static inline uint64_t rsmp_check_sum(const uint8_t *bytes, size_t length) {
    uint64_t sum = 0xcbf29ce484222325u;
    for (size_t i = 0; i < length; i++) sum = (sum ^ bytes[i]) * 0x100000001b3u;
    return sum;
}

static inline void rsmp_put_number(uint8_t *bytes, uint64_t number, size_t length) {
    for (size_t i = 0; i < length; i++) bytes[i] = (uint8_t)(number >> 8 * i);
}

/* A name, the edition, the length, what is stored, the check sum of all before. */
static inline void rsmp_store(const void *from, size_t length, uint8_t *bytes) {
    memcpy(bytes, "RSMPSITE", 8);
    rsmp_put_number(bytes + 8, RSMP_SITE_EDITION, 4);
    rsmp_put_number(bytes + 12, length, 4);
    memcpy(bytes + 16, from, length);
    rsmp_put_number(bytes + 16 + length, rsmp_check_sum(bytes, 16 + length), 8);
}

static inline uint32_t rsmp_restore(const uint8_t *bytes, size_t stored, size_t length, void *to) {
    uint8_t head[16], sum[8];
    if (stored != 16 + length + 8) return RSMP_NOT_ACCEPTED;
    memcpy(head, "RSMPSITE", 8);
    rsmp_put_number(head + 8, RSMP_SITE_EDITION, 4);
    rsmp_put_number(head + 12, length, 4);
    rsmp_put_number(sum, rsmp_check_sum(bytes, 16 + length), 8);
    if (memcmp(bytes, head, 16) != 0 || memcmp(bytes + 16 + length, sum, 8) != 0) return RSMP_NOT_ACCEPTED;
    memcpy(to, bytes + 16, length);
    return RSMP_DONE;
}

/* Writes RSMP_STORED_BYTES bytes. */
static inline void rsmp_to_stored(const rsmp_site *site, uint8_t *bytes) { rsmp_store(site, RSMP_SITE_BYTES, bytes); }

/* Reads them. RSMP_NOT_ACCEPTED, and *site as it was, where they are foreign, of another edition or damaged: start a new site then. */
static inline uint32_t rsmp_from_stored(const uint8_t *bytes, size_t length, rsmp_site *site) {
    return rsmp_restore(bytes, length, RSMP_SITE_BYTES, site);
}

/* The same of a box: RSMP_BOX_STORED_BYTES bytes. One site's are no box's: their lengths differ. */
static inline void rsmp_box_to_stored(const rsmp_box *box, uint8_t *bytes) { rsmp_store(box, RSMP_BOX_BYTES, bytes); }
static inline uint32_t rsmp_box_from_stored(const uint8_t *bytes, size_t length, rsmp_box *box) {
    return rsmp_restore(bytes, length, RSMP_BOX_BYTES, box);
}

/* The layouts that the library was compiled with. */
#ifdef __cplusplus
#define RSMP_ASSERT static_assert
#else
#define RSMP_ASSERT _Static_assert
#endif
RSMP_ASSERT(offsetof(rsmp_site, pool) == 0 && offsetof(rsmp_site, words) == 4160 && offsetof(rsmp_site, table) == 9416, "rsmp_site");
RSMP_ASSERT(8 * RSMP_POOL_WORDS == 4160 && 4160 + 8 * RSMP_SITE_WORDS == 9416 && 9416 + RSMP_SITE_TABLE == RSMP_SITE_BYTES, "rsmp_site");
RSMP_ASSERT(offsetof(rsmp_box, pool) == 0 && offsetof(rsmp_box, words) == 4160 && offsetof(rsmp_box, table) == 14672, "rsmp_box");
RSMP_ASSERT(4160 + 16 * RSMP_SITE_WORDS == 14672 && 14672 + 2 * RSMP_SITE_TABLE == RSMP_BOX_BYTES, "rsmp_box");
RSMP_ASSERT(sizeof(rsmp_site) == 15600 && sizeof(rsmp_box) == 27032, "rsmp_site, rsmp_box");
RSMP_ASSERT(offsetof(rsmp_outcome, hint) == 0 && offsetof(rsmp_outcome, number) == 8 && offsetof(rsmp_outcome, written) == 12, "rsmp_outcome");
RSMP_ASSERT(offsetof(rsmp_outcome, closed) == 16 && offsetof(rsmp_outcome, hinted) == 20 && offsetof(rsmp_outcome, commands) == 24, "rsmp_outcome");
RSMP_ASSERT(sizeof(rsmp_outcome) == 32 && offsetof(rsmp_report, command) == 32 && sizeof(rsmp_report) == 160, "rsmp_outcome, rsmp_report");
RSMP_ASSERT(offsetof(rsmp_command, number) == 0 && offsetof(rsmp_command, value) == 4 && sizeof(rsmp_command) == 8, "rsmp_command");
RSMP_ASSERT(offsetof(rsmp_version, major) == 0 && offsetof(rsmp_version, minor) == 4 && offsetof(rsmp_version, patch) == 8, "rsmp_version");
RSMP_ASSERT(offsetof(rsmp_reading, found) == 0 && offsetof(rsmp_reading, bytes) == 1 && sizeof(rsmp_reading) == 17, "rsmp_reading");
RSMP_ASSERT(sizeof(rsmp_version) == 12 && sizeof(rsmp_id) == 16 && offsetof(rsmp_id, bytes) == 0, "rsmp_version, rsmp_id");

#ifdef __cplusplus
}
#endif

#endif
