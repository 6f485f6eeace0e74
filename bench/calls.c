/* The time of one call and of libcjson parsing a packet, in one process: the call is made on the site that the script has made, each time
 * copied to where it is called.
 *
 *   calls PACKETFILE TIMES CALL <SCRIPT     CALL is a line of a script; prints the call's number, its nanoseconds with those of the copy,
 *                                           those of the parsing and those of the copy alone, each the least of its rounds, which take
 *                                           turns, so that a slow moment of the machine is no one's
 *   calls PACKETFILE 0 CALL <SCRIPT         under callgrind: no time is taken, and each of the three leaves its instructions in a dump
 */
#include "input.h"
#include <cjson/cJSON.h>
#include <time.h>
#include <valgrind/callgrind.h>

#define ROUNDS 20
#define ACTS 3

static char packet[MOST_BYTES];
static size_t length;
static struct line line;
static rsmp_site made;

static void parse(void)
{
    cJSON *parsed = cJSON_ParseWithLength(packet, length);
    if (!parsed) give_up("libcjson refuses the packet");
    cJSON_Delete(parsed);
}

static void copy(void)
{
    *site = made;
    __asm__ volatile("" : : "r"(site) : "memory");
}

static void perform(void)
{
    copy();
    call(&line, line.bytes, output);
}

/* Processor time, so that others on the machine count less. */
static double each(void (*act)(void), long times)
{
    struct timespec began, ended;
    clock_gettime(CLOCK_PROCESS_CPUTIME_ID, &began);
    for (long left = times; left > 0; left--) act();
    clock_gettime(CLOCK_PROCESS_CPUTIME_ID, &ended);
    return ((double)(ended.tv_sec - began.tv_sec) * 1e9 + (double)(ended.tv_nsec - began.tv_nsec)) / (double)times;
}

/* Once more: the first time binds the names of shared libraries. */
static void count_instructions(void (*act)(void))
{
    act();
    CALLGRIND_ZERO_STATS;
    CALLGRIND_TOGGLE_COLLECT;
    act();
    CALLGRIND_TOGGLE_COLLECT;
    CALLGRIND_DUMP_STATS;
}

static void print_least_times(void (**acts)(void), long times)
{
    double least[ACTS];
    for (int round = 0; round < ROUNDS; round++)
        for (int act = 0; act < ACTS; act++) {
            double taken = each(acts[act], times);
            if (round == 0 || taken < least[act]) least[act] = taken;
        }
    for (int act = 0; act < ACTS; act++) printf(" %.0f", least[act]);
}

int main(int count, char **words)
{
    FILE *file = count == 4 ? fopen(words[1], "rb") : NULL;
    if (!file) give_up("calls PACKETFILE TIMES CALL");
    length = fread(packet, 1, sizeof packet, file);
    fclose(file);
    while (next_line(&line)) call(&line, line.bytes, output);
    made = *site;
    read_line(words[3], &line);
    perform();
    printf("%u", (unsigned)report.number);
    void (*acts[ACTS])(void) = {perform, parse, copy};
    long times = atol(words[2]);
    if (times > 0) print_least_times(acts, times);
    else for (int act = 0; act < ACTS; act++) count_instructions(acts[act]);
    putchar('\n');
    return 0;
}
