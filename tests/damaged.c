/* Plays a script of calls, of which lines `damage` spoil the site: whatever a site holds, a call gives a number of document 01, a refused
 * one leaves the site as it was, and nothing changes around it, in its table or behind what was written.
 *
 *   damaged <SCRIPT     prints how often each number was given; status 2 where something changed that may not
 */
#include "../bench/input.h"

#define NUMBERS 13
#define PATTERN 0xA5

static struct line line;
static lent_site before;
static unsigned long given[NUMBERS];

static int is_pattern(const uint8_t *bytes, size_t count)
{
    for (size_t i = 0; i < count; i++)
        if (bytes[i] != PATTERN) return 0;
    return 1;
}

static void judge(void)
{
    int done = report.number == RSMP_DONE;
    if (report.number >= NUMBERS) give_up("no such number");
    if (!done && (report.written || report.closed || report.hinted || report.hint || report.commands)) give_up("refused, and something is reported");
    if (report.written > line.room || report.closed >= 1 << RSMP_LINKS || report.hinted > 1) give_up("no such report");
    if (report.commands > RSMP_COMMANDS || (report.commands && !is(&line, "packet"))) give_up("no such commands");
    if (!done && memcmp(site, &before, LENT_BYTES) != 0) give_up("refused, and the site changed");
#ifdef BOX
    int other = !line.site;
    if (memcmp(site->words[other], before.words[other], sizeof before.words[0]) != 0) give_up("the other site changed");
    if (memcmp(site->table[other], before.table[other], sizeof before.table[0]) != 0) give_up("the other site's table changed");
#endif
    if (!is(&line, "start") && memcmp(site->table, before.table, sizeof before.table) != 0) give_up("the site's table changed");
    if (!is_pattern(guarded.before, SITE_GUARD) || !is_pattern(guarded.behind, SITE_GUARD)) give_up("bytes around the site changed");
    if (!is_pattern(output + report.written, sizeof output - report.written)) give_up("a byte behind the written ones changed");
    given[report.number]++;
}

int main(void)
{
    memset(&guarded, PATTERN, sizeof guarded);
#ifdef BOX
    memset(site, 0, sizeof *site);
#endif
    memset(output, PATTERN, sizeof output);
    while (next_line(&line)) {
        before = *site;
        call(&line, line.bytes, output);
        if (!is(&line, "damage")) judge();
        memset(output, PATTERN, report.written);
    }
    for (int number = 0; number < NUMBERS; number++) printf("%lu%c", given[number], number + 1 < NUMBERS ? ' ' : '\n');
    return 0;
}
