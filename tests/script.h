/* A script of calls, as rsmp-replay reads it, called from C on one site, or with BOX defined on the two of a box; and a line `damage SEED COUNT`.
 * Wants nothing of a C library but memcpy and memset, and `give_up` of the program that includes it, which ends the program. */
#ifndef SCRIPT_H
#define SCRIPT_H

#include "rsmp_site.h"

#define MOST_WORDS 7
#define MOST_BYTES 8192
#define MOST_ROOM 65536

struct line {
    int named;                    /* whether it names its site */
    uint32_t site;
    const char *words[MOST_WORDS];
    uint64_t numbers[MOST_WORDS]; /* by place; of no meaning where the word is no number */
    uint8_t bytes[MOST_BYTES];    /* the table or the packet */
    size_t length, room;
    rsmp_id random;
};

#define SITE_GUARD 256

#ifdef BOX
typedef rsmp_box lent_site;
#define LENT_BYTES RSMP_BOX_BYTES
#define CALL(name, ...) rsmp_box_##name(site, line->site, __VA_ARGS__)
#else
typedef rsmp_site lent_site;
#define LENT_BYTES RSMP_SITE_BYTES
#define CALL(name, ...) rsmp_##name(site, __VA_ARGS__)
#endif

static struct {
    uint8_t before[SITE_GUARD];
    lent_site site;
    uint8_t behind[SITE_GUARD];
} guarded;
static lent_site *const site = &guarded.site;
static rsmp_report report; /* of the last call; of one that has none its number alone */

static void give_up(const char *what);

static int ends(char c) { return c == ' ' || c == '\n' || c == 0; }

static int same(const char *word, const char *name)
{
    while (*name && *word == *name) word++, name++;
    return !*name && ends(*word);
}

static int is(const struct line *line, const char *name) { return same(line->words[0], name); }

static uint64_t of_digits(const char *word)
{
    if (same(word, "-")) return RSMP_NO_PRIMARY;
    uint64_t sum = 0;
    for (const char *digit = word + (*word == '-'); *digit >= '0' && *digit <= '9'; digit++) sum = sum * 10 + (uint64_t)(*digit - '0');
    return *word == '-' ? -sum : sum;
}

static unsigned of_digit(char c) { return (unsigned)(c <= '9' ? c - '0' : (c | 32) - 'a' + 10) & 15; }

static size_t of_hex(const char *word, uint8_t *to, size_t most)
{
    size_t length = 0;
    while (!same(word, "-") && !ends(word[2 * length])) {
        if (length == most) give_up("too many bytes");
        to[length] = (uint8_t)(of_digit(word[2 * length]) << 4 | of_digit(word[2 * length + 1]));
        length++;
    }
    return length;
}

/* Reads a line, to which it keeps pointers, and gives the place behind it. */
static const char *read_line(const char *text, struct line *line)
{
    size_t count = 0;
    line->site = same(text, "south");
    line->named = line->site || same(text, "north");
    if (line->named) text += 6;
    for (; *text && *text != '\n'; text += *text == ' ') {
        if (count == MOST_WORDS) give_up("too many words");
        line->numbers[count] = of_digits(text);
        line->words[count++] = text;
        while (!ends(*text)) text++;
    }
    if (!count) give_up("an empty line");
    line->length = line->room = 0;
    if (is(line, "start") && count == 7) line->length = of_hex(line->words[1], line->bytes, MOST_BYTES);
    if (is(line, "packet") && count == 6) line->length = of_hex(line->words[5], line->bytes, MOST_BYTES);
    if ((is(line, "packet") || is(line, "pump")) && count >= 5) {
        of_hex(line->words[3], line->random.bytes, sizeof line->random.bytes);
        line->room = line->numbers[4];
        if (line->room > MOST_ROOM) give_up("too much room");
    }
    return text + (*text == '\n');
}

/* So many bytes of the site become others, or all of them where it is 0: no call makes such a site, and every call must do with it. Where they
 * are many, the first 24 of a site's words stay, the next number, the last time and the counts, by which most calls would be refused. */
static void damage(uint64_t seed, uint64_t count)
{
    lent_site whole = *site;
    for (uint64_t i = 0; i < (count ? count : LENT_BYTES); i++) {
        seed = seed * 6364136223846793005u + 1442695040888963407u;
        ((uint8_t *)site)[count ? (seed >> 17) % LENT_BYTES : i] = (uint8_t)(seed >> 53);
    }
    if (count && count < 20) return;
#ifdef BOX
    for (int k = 0; k < RSMP_BOX_SITES; k++) memcpy(site->words[k], whole.words[k], 24);
#else
    memcpy(site->words, whole.words, 24);
#endif
}

/* Without a name it is alone. */
static uint32_t start(const struct line *line, const uint8_t *bytes)
{
    const uint64_t *n = line->numbers;
#ifdef BOX
    if (!line->named)
        return rsmp_lent_start(site->pool, RSMP_POOL_WORDS, site->words[0], RSMP_SITE_WORDS, site->table[0], RSMP_SITE_TABLE, bytes, line->length,
                               RSMP_ALONE, (uint32_t)n[2], (uint32_t)n[3], (uint32_t)n[4], n[5], n[6])
            .number;
#else
    if (line->named) give_up("a line that names a site, where there is one alone");
#endif
    return CALL(start, bytes, line->length, (uint32_t)n[2], (uint32_t)n[3], (uint32_t)n[4], n[5], n[6]);
}

static void only(uint32_t number)
{
    memset(&report, 0, sizeof report);
    report.number = number;
}

/* The call of a line on the site, with these bytes for its table or packet and this output. */
static void call(const struct line *line, const uint8_t *bytes, uint8_t *output)
{
    const uint64_t *n = line->numbers;
    if (is(line, "start"))
        only(start(line, bytes));
    else if (is(line, "connect"))
        only(CALL(connect, (uint32_t)n[1], n[2]));
    else if (is(line, "disconnect"))
        only(CALL(disconnect, (uint32_t)n[1], n[2]));
    else if (is(line, "packet"))
        CALL(packet, (uint32_t)n[1], n[2], &line->random, bytes, line->length, output, line->room, &report);
    else if (is(line, "alarm"))
        only(CALL(alarm, (uint32_t)n[1], (uint32_t)n[2], n[3]));
    else if (is(line, "status"))
        only(CALL(status, (uint32_t)n[1], (int32_t)(int64_t)n[2], n[3]));
    else if (is(line, "aggregated"))
        only(CALL(aggregated, (uint8_t)n[1], n[2]));
    else if (is(line, "tick"))
        CALL(tick, n[1], &report);
    else if (is(line, "pump"))
        CALL(pump, (uint32_t)n[1], n[2], &line->random, output, line->room, &report);
    else {
        only(RSMP_DONE);
        if (is(line, "counts")) {
            CALL(held, 0);
            CALL(lost, 0);
        } else if (is(line, "readings")) {
            CALL(phase, 0);
            CALL(version_of, 0);
            CALL(record, 0, 63);
        } else if (is(line, "damage"))
            damage(n[1], n[2]);
        else
            give_up("no such call");
    }
}

#endif
