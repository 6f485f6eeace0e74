/* commands <SCRIPT: plays a script of calls and prints, a line each, the number and the commands that rsmp_packet's report hands over. */
#include "../bench/input.h"

static struct line line;

int main(void)
{
    while (next_line(&line)) {
        call(&line, line.bytes, output);
        printf("%u", (unsigned)report.number);
        for (size_t i = 0; i < report.commands; i++)
            printf("%c%u=%d", i ? ',' : ' ', (unsigned)report.command[i].number, (int)report.command[i].value);
        for (size_t i = report.commands; i < RSMP_COMMANDS; i++)
            if (report.command[i].number || report.command[i].value) give_up("a command behind those that are handed over");
        putchar('\n');
    }
    return 0;
}
