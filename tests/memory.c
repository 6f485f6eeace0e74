/* Plays a script of calls under valgrind's memcheck, without a C library, so that whatever memcheck finds is of the proved library.
 *
 * The packet, the table and the site, or the box, are lent with nothing readable around them, the output with nothing writable around it and
 * undefined inside, and a start is lent a site that is undefined; the pool too where it is alone. What a call reports must be defined, and so must the site after it and what was
 * written; what was not written must be as undefined as before.
 *
 *   memory <SCRIPT     prints the number of calls; status 1 where memcheck found something, 2 where the script cannot be played
 */
#include "script.h"
#include <valgrind/memcheck.h>

#define SCRIPT_BYTES (1 << 24)
#define GUARD 256

enum { READ = 0, WRITE = 1, EXIT = 60, OUT = 1, ERR = 2 };

static char text[SCRIPT_BYTES];
static struct line line;
static uint8_t given[GUARD + MOST_BYTES + GUARD], lent[GUARD + MOST_ROOM + GUARD];

__asm__(".globl _start\n_start:\n\txor %ebp, %ebp\n\tand $-16, %rsp\n\tcall play\n");

static long system_call(long number, long first, const void *second, long third)
{
    long result;
    __asm__ volatile("syscall" : "=a"(result) : "a"(number), "D"(first), "S"(second), "d"(third) : "rcx", "r11", "memory");
    return result;
}

static void say(int where, const char *what)
{
    long length = 0;
    while (what[length]) length++;
    system_call(WRITE, where, what, length);
}

static _Noreturn void leave(int status)
{
    for (;;) system_call(EXIT, status, NULL, 0);
}

static void give_up(const char *what)
{
    say(ERR, what);
    say(ERR, "\n");
    leave(2);
}

typedef uint64_t __attribute__((may_alias, aligned(1))) word;

void *memcpy(void *to, const void *from, size_t count)
{
    size_t i = 0;
    for (; count - i >= sizeof(word); i += sizeof(word)) *(word *)((uint8_t *)to + i) = *(const word *)((const uint8_t *)from + i);
    for (; i < count; i++) ((uint8_t *)to)[i] = ((const uint8_t *)from)[i];
    return to;
}

void *memmove(void *to, const void *from, size_t count)
{
    if ((uintptr_t)from - (uintptr_t)to >= sizeof(word) && (uintptr_t)to - (uintptr_t)from >= count) return memcpy(to, from, count);
    if ((uintptr_t)to < (uintptr_t)from) {
        for (size_t i = 0; i < count; i++) ((uint8_t *)to)[i] = ((const uint8_t *)from)[i];
        return to;
    }
    while (count--) ((uint8_t *)to)[count] = ((const uint8_t *)from)[count];
    return to;
}

void *memset(void *to, int value, size_t count)
{
    for (size_t i = 0; i < count; i++) ((uint8_t *)to)[i] = (uint8_t)value;
    return to;
}

int memcmp(const void *one, const void *other, size_t count)
{
    const uint8_t *a = one, *b = other;
    for (size_t i = 0; i < count; i++)
        if (a[i] != b[i]) return a[i] - b[i];
    return 0;
}

/* Memcheck reports an undefined byte itself; one that is defined and should not be is told here. */
static void judge_output(const uint8_t *output)
{
    static uint8_t bits[MOST_ROOM];
    VALGRIND_CHECK_MEM_IS_DEFINED(&report, sizeof report);
    if (!line.room) return;
    VALGRIND_CHECK_MEM_IS_DEFINED(output, report.written);
    if (VALGRIND_GET_VBITS(output, bits, line.room) != 1) give_up("memcheck does not know the output");
    for (size_t place = report.written; place < line.room; place++)
        if (bits[place] != 0xFF) give_up("a byte behind the written ones was written");
}

/* The parts of a site. */
#ifdef BOX
#define WORDS_OF(k) site->words[k]
#define TABLE_OF(k) site->table[k]
#define SITES RSMP_BOX_SITES
#else
#define WORDS_OF(k) site->words
#define TABLE_OF(k) site->table
#define SITES 1
#endif

static int pool_made, started[2];

static void undefine(void)
{
    if (!line.named) VALGRIND_MAKE_MEM_UNDEFINED(site->pool, sizeof site->pool);
    VALGRIND_MAKE_MEM_UNDEFINED(WORDS_OF(line.site), 8 * RSMP_SITE_WORDS);
    VALGRIND_MAKE_MEM_UNDEFINED(TABLE_OF(line.site), RSMP_SITE_TABLE);
}

/* A refused start leaves the site as it was, undefined where there was none. */
static void judge_site(int starts)
{
    int done = report.number == RSMP_DONE;
    if (starts && !done && (pool_made || SITES > 1)) VALGRIND_MAKE_MEM_DEFINED(site->pool, sizeof site->pool);
    if (starts && !done && started[line.site]) {
        VALGRIND_MAKE_MEM_DEFINED(WORDS_OF(line.site), 8 * RSMP_SITE_WORDS);
        VALGRIND_MAKE_MEM_DEFINED(TABLE_OF(line.site), RSMP_SITE_TABLE);
    }
    pool_made |= starts && done;
    started[line.site] |= starts && done;
    if (pool_made) VALGRIND_CHECK_MEM_IS_DEFINED(site->pool, sizeof site->pool);
    for (int k = 0; k < SITES; k++) {
        if (!started[k]) continue;
        VALGRIND_CHECK_MEM_IS_DEFINED(WORDS_OF(k), 8 * RSMP_SITE_WORDS);
        VALGRIND_CHECK_MEM_IS_DEFINED(TABLE_OF(k), RSMP_SITE_TABLE);
    }
}

static void play_line(void)
{
    int starts = is(&line, "start");
    uint8_t *bytes = given + GUARD, *output = lent + GUARD;
    VALGRIND_MAKE_MEM_UNDEFINED(given, sizeof given);
    memcpy(bytes, line.bytes, line.length);
    VALGRIND_MAKE_MEM_NOACCESS(given, GUARD);
    VALGRIND_MAKE_MEM_NOACCESS(bytes + line.length, sizeof given - GUARD - line.length);
    VALGRIND_MAKE_MEM_NOACCESS(lent, sizeof lent);
    VALGRIND_MAKE_MEM_UNDEFINED(output, line.room);
    if (starts) undefine();
    call(&line, bytes, output);
    judge_output(output);
    judge_site(starts);
}

static void say_number(unsigned long number)
{
    char digits[24] = {0};
    char *first = digits + sizeof digits - 1;
    do *--first = (char)('0' + number % 10);
    while (number /= 10);
    say(OUT, first);
}

__attribute__((used)) void play(void)
{
    long length = 0, more;
    while ((more = system_call(READ, 0, text + length, SCRIPT_BYTES - 1 - length)) > 0) length += more;
    if (!RUNNING_ON_VALGRIND || length == SCRIPT_BYTES - 1) give_up("not under valgrind, or the script is too long");
    VALGRIND_MAKE_MEM_NOACCESS(guarded.before, SITE_GUARD);
    VALGRIND_MAKE_MEM_NOACCESS(guarded.behind, SITE_GUARD);
    unsigned long calls = 0;
    for (const char *next = text; *next; calls++) {
        next = read_line(next, &line);
        play_line();
    }
    say_number(calls);
    say(OUT, " calls\n");
    leave(VALGRIND_COUNT_ERRORS ? 1 : 0);
}
