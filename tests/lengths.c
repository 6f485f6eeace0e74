/* lengths TABLE: the exported functions themselves, lent a pool, words, a table or words for commands of another length than they are to be, as no
 * caller of the header can: each gives number 14, or 0 where it is a reading, and changes nothing; and the functions of a box with a site that it
 * does not have: 2, a start 11, a reading 0. Prints how many calls that were. */
#include "rsmp_site.h"
#include <stdio.h>
#include <stdlib.h>

#define TIME 1254398371571u

static struct {
    rsmp_site site;
    uint8_t more[64];
} lent, before;
static uint8_t bits[8192], output[RSMP_OUTPUT_BYTES], outcome[RSMP_OUTPUT_BYTES];
static uint64_t commands[RSMP_COMMANDS + 1], untouched[RSMP_COMMANDS + 1];
static unsigned calls;

static size_t pool = RSMP_POOL_WORDS;

static void hold(int good, const char *what, size_t words, size_t table) {
    calls++;
    int same = memcmp(&lent, &before, sizeof lent) == 0 && memcmp(commands, untouched, sizeof commands) == 0;
    if (good && same && memcmp(output, outcome, sizeof output) == 0) return;
    printf("%s of a pool of %u, %u words and %u bytes\n", what, (unsigned)pool, (unsigned)words, (unsigned)table);
    exit(1);
}

static int misfits(rsmp_outcome told) {
    return told.number == 14 && !told.written && !told.closed && !told.hinted && !told.hint && !told.commands;
}

static void without_table(size_t n) {
    uint64_t *p = lent.site.pool, *w = lent.site.words;
    rsmp_version version = rsmp_lent_version_of(p, pool, w, n, 0);
    hold(misfits(rsmp_lent_connect(p, pool, w, n, 1, TIME)), "connect", n, 0);
    hold(misfits(rsmp_lent_disconnect(p, pool, w, n, 0, TIME)), "disconnect", n, 0);
    hold(misfits(rsmp_lent_aggregated(p, pool, w, n, 5, TIME)), "aggregated", n, 0);
    hold(misfits(rsmp_lent_tick(p, pool, w, n, TIME)), "tick", n, 0);
    hold(!rsmp_lent_held(p, pool, w, n, 0) && !rsmp_lent_lost(p, pool, w, n, 0) && !rsmp_lent_phase(p, pool, w, n, 0), "readings", n, 0);
    hold(!version.major && !version.minor && !version.patch && !rsmp_lent_record(p, pool, w, n, 0, 0).found, "version and record", n, 0);
}

static rsmp_outcome packet_of(size_t n, size_t m, size_t k) {
    static const char packet[] = "{\"mType\":\"rSMsg\"}";
    rsmp_id id = {{1}};
    return rsmp_lent_packet(lent.site.pool, pool, lent.site.words, n, lent.site.table, m, 0, TIME, id, (const uint8_t *)packet, sizeof packet - 1,
                            commands, k, output, sizeof output);
}

static void with_table(size_t n, size_t m, size_t length) {
    uint64_t *p = lent.site.pool, *w = lent.site.words;
    uint8_t *t = lent.site.table;
    rsmp_id id = {{1}};
    hold(misfits(rsmp_lent_start(p, pool, w, n, t, m, bits, length, RSMP_ALONE, 1, 0, 60, 0, TIME)), "start", n, m);
    hold(misfits(packet_of(n, m, RSMP_COMMANDS)), "packet", n, m);
    hold(misfits(rsmp_lent_alarm(p, pool, w, n, t, m, 0, 1, TIME)), "alarm", n, m);
    hold(misfits(rsmp_lent_status(p, pool, w, n, t, m, 0, 1, TIME)), "status", n, m);
    hold(misfits(rsmp_lent_pump(p, pool, w, n, t, m, 0, TIME, id, output, sizeof output)), "pump", n, m);
}

/* A site that the box does not have; both of its sites stand as they were. */
static void no_such_site(uint32_t k, size_t length) {
    static rsmp_box box, kept;
    static const uint8_t packet[] = "{}";
    rsmp_report report;
    rsmp_id id = {{1}};
    for (uint32_t i = 0; i < RSMP_BOX_SITES; i++) {
        int begun = rsmp_box_start(&box, i, bits, length, 2, 0, 60, 0, TIME) == RSMP_DONE && rsmp_box_connect(&box, i, 0, TIME) == RSMP_DONE;
        if (!begun || rsmp_box_alarm(&box, i, 2, 1, TIME) != RSMP_DONE || rsmp_box_held(&box, i, 0) != 1) exit(2);
    }
    memcpy(&kept, &box, sizeof box);
    hold(rsmp_box_start(&box, k, bits, length, 2, 0, 60, 0, TIME) == RSMP_NOT_ACCEPTED, "start of a box", k, 0);
    hold(rsmp_box_connect(&box, k, 1, TIME) == RSMP_NO_LINK, "connect of a box", k, 0);
    hold(rsmp_box_disconnect(&box, k, 0, TIME) == RSMP_NO_LINK, "disconnect of a box", k, 0);
    hold(rsmp_box_packet(&box, k, 0, TIME, &id, packet, 2, output, sizeof output, &report) == RSMP_NO_LINK, "packet of a box", k, 0);
    hold(rsmp_box_alarm(&box, k, 0, 1, TIME) == RSMP_NO_LINK, "alarm of a box", k, 0);
    hold(rsmp_box_status(&box, k, 0, 1, TIME) == RSMP_NO_LINK, "status of a box", k, 0);
    hold(rsmp_box_aggregated(&box, k, 5, TIME) == RSMP_NO_LINK, "aggregated of a box", k, 0);
    hold(rsmp_box_tick(&box, k, TIME, &report) == RSMP_NO_LINK && report.number == RSMP_NO_LINK, "tick of a box", k, 0);
    hold(rsmp_box_pump(&box, k, 0, TIME, &id, output, sizeof output, &report) == RSMP_NO_LINK, "pump of a box", k, 0);
    hold(!rsmp_box_held(&box, k, 0) && !rsmp_box_lost(&box, k, 0) && !rsmp_box_phase(&box, k, 0), "readings of a box", k, 0);
    hold(!rsmp_box_version_of(&box, k, 0).major && !rsmp_box_record(&box, k, 0, 0).found, "version and record of a box", k, 0);
    hold(memcmp(&box, &kept, sizeof box) == 0, "a box", k, 0);
}

int main(int count, char **words) {
    static const size_t ps[] = {0, 1, RSMP_POOL_WORDS - 1, RSMP_POOL_WORDS, RSMP_POOL_WORDS + 1};
    static const size_t ns[] = {0, 1, RSMP_SITE_WORDS - 1, RSMP_SITE_WORDS, RSMP_SITE_WORDS + 1};
    static const size_t ms[] = {0, RSMP_SITE_TABLE - 1, RSMP_SITE_TABLE, RSMP_SITE_TABLE + 1};
    FILE *file = count == 2 ? fopen(words[1], "rb") : NULL;
    if (!file) return 2;
    size_t length = fread(bits, 1, sizeof bits, file);
    fclose(file);
    if (rsmp_start(&lent.site, bits, length, 2, 0, 60, 0, TIME) != RSMP_DONE || rsmp_connect(&lent.site, 0, TIME) != RSMP_DONE) return 2;
    if (rsmp_alarm(&lent.site, 2, 1, TIME) != RSMP_DONE || rsmp_held(&lent.site, 0) != 1) return 2;
    memcpy(&before, &lent, sizeof lent);
    static const size_t ks[] = {0, 1, RSMP_COMMANDS - 1, RSMP_COMMANDS + 1};
    for (size_t i = 0; i < sizeof ks / sizeof *ks; i++)
        hold(misfits(packet_of(RSMP_SITE_WORDS, RSMP_SITE_TABLE, ks[i])), "packet with wrong words for commands", RSMP_SITE_WORDS, RSMP_SITE_TABLE);
    for (size_t j = 0; j < sizeof ps / sizeof *ps; j++) {
        pool = ps[j];
        for (size_t i = 0; i < sizeof ns / sizeof *ns; i++) {
            int fits = pool == RSMP_POOL_WORDS && ns[i] == RSMP_SITE_WORDS;
            if (!fits) without_table(ns[i]);
            for (size_t k = 0; k < sizeof ms / sizeof *ms; k++)
                if (!fits || ms[k] != RSMP_SITE_TABLE) with_table(ns[i], ms[k], length);
        }
    }
    static const uint32_t no_sites[] = {2, 3, 256, 4294967294u, 4294967295u};
    for (size_t i = 0; i < sizeof no_sites / sizeof *no_sites; i++) no_such_site(no_sites[i], length);
    printf("%u\n", calls);
    return 0;
}
