/* A text by rsmp_csv_read, call after call, to the stop: a line for each call, `answer own next line record`. */
#include <rsmp_csv.h>
#include <stdio.h>
#include <stdlib.h>

int main(void) {
    size_t room = 1 << 20, length = 0, read;
    uint8_t *text = malloc(room);
    while (text && (read = fread(text + length, 1, room - length, stdin)) > 0)
        if ((length += read) == room)
            text = realloc(text, room *= 2);
    if (!text)
        return 1;
    struct rsmp_csv_read line = {0};
    line.line = 1;
    do {
        line = rsmp_csv_read(text, length, line.next, line.line);
        printf("%d %llu %llu %llu ", (int)line.answer, (unsigned long long)line.own, (unsigned long long)line.next, (unsigned long long)line.line);
        for (int i = 0; i < RSMP_CSV_RECORD; i++)
            printf("%02x", line.record[i]);
        printf("\n");
    } while (line.answer != RSMP_CSV_WRONG_HEADER && line.answer != RSMP_CSV_END);
    return 0;
}
