/* The most stack that each call of a script takes: the call is made on a stack of its own that was painted before, and the lowest
 * byte that is no longer as painted tells how deep it went. Counted is what lies below the stack pointer from which the library is
 * called: the return address and all that the library takes.
 *
 *   stack <SCRIPT     prints a line for each name: how many calls, the most bytes
 */
#include "input.h"
#include <ucontext.h>

#define STACK_BYTES (1 << 20)
#define PAINT 0xC5
#define MOST_NAMES 16

static uint8_t stack[STACK_BYTES] __attribute__((aligned(4096)));
static uint8_t *from;
static ucontext_t here, there;
static struct line line;

static struct { char name[16]; unsigned long calls; size_t most; } names[MOST_NAMES];
static size_t count;

/* Everything down to the library's functions is a part of this one, and with -maccumulate-outgoing-args the stack pointer stays where it
 * is throughout. */
__attribute__((noinline, flatten)) static void perform(void)
{
    __asm__ volatile("mov %%rsp, %0" : "=m"(from) : : "memory");
    call(&line, line.bytes, output);
}

static size_t depth(void)
{
    static size_t touched; /* the place of the lowest touched byte: what lies below is painted still */
    memset(stack + touched, PAINT, STACK_BYTES - touched);
    getcontext(&there);
    there.uc_stack.ss_sp = stack;
    there.uc_stack.ss_size = STACK_BYTES;
    there.uc_link = &here;
    makecontext(&there, perform, 0);
    swapcontext(&here, &there);
    for (touched = 0; touched < STACK_BYTES && stack[touched] == PAINT;) touched++;
    if (!touched || from < stack || from > stack + STACK_BYTES) give_up("the stack is too short");
    return stack + touched < from ? (size_t)(from - (stack + touched)) : 0;
}

static void note(const char *name, size_t bytes)
{
    size_t i = 0;
    while (i < count && !same(name, names[i].name)) i++;
    if (i == count) {
        if (count == MOST_NAMES) give_up("too many names");
        sscanf(name, "%15s", names[count++].name);
    }
    names[i].calls++;
    if (bytes > names[i].most) names[i].most = bytes;
}

int main(void)
{
    while (next_line(&line)) note(line.words[0], depth());
    for (size_t i = 0; i < count; i++) printf("%s %lu %zu\n", names[i].name, names[i].calls, names[i].most);
    return 0;
}
