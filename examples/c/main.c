/* Reads an order list, prints its ribbon, checks a ribbon file against it and prints its sheet: main LIST RIBBON-FILE
   Where something is refused it prints `refused,` number `,` row. A file that can't be read counts as one of 0 bytes. */
#include <stdio.h>

#include "ribbons.h"

/* One byte more shows that an order list is too long; in a ribbon file CR LF may come before it. */
#define LIST_ROOM (RIBBONS_MOST_FILE_BYTES + 1)
#define RIBBON_ROOM (RIBBONS_MOST_SUPPLIED_BANDS + 3)

struct list {
    struct ribbons_orders count;
    uint8_t bands[RIBBONS_MOST_BANDS];
    uint16_t lengths[RIBBONS_MOST_CODES];
    uint8_t names[RIBBONS_MOST_NAME_BYTES];
    uint16_t sizes[RIBBONS_MOST_CODES];
};

static struct list list;

static size_t read_file(const char *name, uint8_t *buffer, size_t room)
{
    FILE *file = fopen(name, "rb");
    if (file == NULL)
        return 0;
    size_t count = fread(buffer, 1, room, file);
    int failed = ferror(file);
    fclose(file);
    return failed ? 0 : count;
}

static void print_refused(unsigned number, unsigned row)
{
    printf("refused,%u,%u\r\n", number, row);
}

static void print_ribbon(void)
{
    static uint8_t ribbon[RIBBONS_MOST_BANDS];
    struct ribbons_laid laid =
        ribbons_lay_ribbon(list.bands, list.count.bands, list.lengths, list.count.codes, ribbon, sizeof ribbon);
    if (laid.refused != 0)
        print_refused(laid.refused, 0);
    else
        printf("%.*s\r\n", (int)laid.bands, (const char *)ribbon);
}

static void print_check(const char *ribbon_name)
{
    static uint8_t file[RIBBON_ROOM];
    size_t bands = ribbons_ribbon_of(file, read_file(ribbon_name, file, sizeof file));
    struct ribbons_checked checked =
        ribbons_check_ribbon(list.bands, list.count.bands, list.lengths, list.count.codes, file, bands);
    if (checked.refused != 0)
        print_refused(checked.refused, 0);
    else if (checked.held)
        printf("held,%ld\r\n", (long)checked.difference);
    else
        printf("missing,%lu\r\n", (unsigned long)checked.missing);
}

static void print_sheet(void)
{
    static uint8_t sheet[RIBBONS_MOST_SHEET_BYTES];
    struct ribbons_sheet written = ribbons_write_sheet(
        list.bands, list.count.bands, list.lengths, list.count.codes,
        list.names, list.count.names, list.sizes, list.count.codes, sheet, sizeof sheet);
    if (written.refused != 0)
        print_refused(written.refused, 0);
    else
        fwrite(sheet, 1, written.bytes, stdout);
}

int main(int argc, char **argv)
{
    static uint8_t file[LIST_ROOM];
    if (argc != 3) {
        fprintf(stderr, "usage: %s LIST RIBBON-FILE\n", argv[0]);
        return 2;
    }
    size_t count = read_file(argv[1], file, sizeof file);
    list.count = ribbons_read_orders(
        file, count, list.bands, sizeof list.bands, list.lengths, RIBBONS_MOST_CODES,
        list.names, sizeof list.names, list.sizes, RIBBONS_MOST_CODES);
    if (list.count.refused != 0) {
        print_refused(list.count.refused, list.count.row);
        return 1;
    }
    print_ribbon();
    print_check(argv[2]);
    print_sheet();
    return 0;
}
