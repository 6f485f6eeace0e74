/* The peer of bench/messages.py: parses the packet in a file with Debian's libcjson as often as it is told. */
#include <cjson/cJSON.h>
#include <stdio.h>
#include <stdlib.h>

int main(int count, char **words)
{
    static char packet[8192];
    if (count != 3) return 2;
    FILE *file = fopen(words[1], "rb");
    if (!file) return 2;
    size_t length = fread(packet, 1, sizeof packet - 1, file);
    fclose(file);
    long total = 0;
    for (long left = atol(words[2]); left > 0; left--) {
        cJSON *parsed = cJSON_ParseWithLength(packet, length);
        if (!parsed) return 1;
        total += cJSON_GetArraySize(parsed);
        cJSON_Delete(parsed);
    }
    printf("%ld\n", total);
    return 0;
}
