/* stored out TABLE: a site with an alarm, its bytes to standard output; box TABLE: a box whose second site has one. stored in: bytes from standard
 * input; the number of taking them, as a site and as a box, and the records held for link 0 of the site and of the box's second, or 0 where they are
 * not taken and the site or the box is as it was. */
#include "rsmp_site.h"
#include <stdio.h>

static rsmp_site site;
static rsmp_box box;
static uint8_t bytes[RSMP_BOX_STORED_BYTES + 1], table[8192];
static size_t length;

static int read_table(const char *name) {
    FILE *file = fopen(name, "rb");
    if (!file) return 0;
    length = fread(table, 1, sizeof table, file);
    return fclose(file) == 0;
}

static int out(void) {
    if (rsmp_start(&site, table, length, 4, 0, 60, 0, 1254398371571u) != RSMP_DONE) return 1;
    if (rsmp_alarm(&site, 2, 1, 1254398371571u) != RSMP_DONE) return 1;
    rsmp_to_stored(&site, bytes);
    return fwrite(bytes, 1, RSMP_STORED_BYTES, stdout) != RSMP_STORED_BYTES;
}

static int out_of_box(void) {
    for (uint32_t i = 0; i < RSMP_BOX_SITES; i++)
        if (rsmp_box_start(&box, i, table, length, 4, 0, 60, 0, 1254398371571u) != RSMP_DONE) return 1;
    if (rsmp_box_alarm(&box, 1, 2, 1, 1254398371571u) != RSMP_DONE) return 1;
    rsmp_box_to_stored(&box, bytes);
    return fwrite(bytes, 1, RSMP_BOX_STORED_BYTES, stdout) != RSMP_BOX_STORED_BYTES;
}

static int in(void) {
    static rsmp_site before;
    static rsmp_box box_before;
    size_t read = fread(bytes, 1, sizeof bytes, stdin);
    uint32_t number = rsmp_from_stored(bytes, read, &site), of_box = rsmp_box_from_stored(bytes, read, &box);
    if (number != RSMP_DONE && memcmp(&site, &before, RSMP_SITE_BYTES) != 0) return 1;
    if (of_box != RSMP_DONE && memcmp(&box, &box_before, RSMP_BOX_BYTES) != 0) return 1;
    printf("%u %u %u %u\n", (unsigned)number, (unsigned)rsmp_held(&site, 0), (unsigned)of_box, (unsigned)rsmp_box_held(&box, 1, 0));
    return 0;
}

int main(int count, char **words) {
    if (count != 3) return in();
    if (!read_table(words[2])) return 2;
    return words[1][0] == 'b' ? out_of_box() : out();
}
