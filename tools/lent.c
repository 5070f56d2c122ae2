/* Lent memory through the calls for C, run by tools/link: no buffers at all, buffers of a result's length and of one less, and
   what stands past a result. What is due comes from the documents. Status 0, or the line of the first thing that isn't so. */
#include <stdio.h>
#include <string.h>

#include "ribbons.h"

#define DUE(so) do { if (!(so)) { printf("line %d: not so: %s\n", __LINE__, #so); return 1; } } while (0)

static const uint8_t file[] = "name,code\r\nPump,AABB\r\nFan,AAAC\r\nLamp,ABBB\r\n";
static const size_t file_count = sizeof file - 1;
static const uint8_t codes[] = "AABBAAACABBB";
static const uint16_t lengths[] = {4, 4, 4};
static const uint8_t names[] = "PumpFanLamp";
static const uint16_t sizes[] = {4, 3, 4};
static const char sheet[] =
    "name,way,start,bands,places\r\nPump,given,2,AABB,1\r\nFan,turned,0,CAAA,1\r\nLamp,given,3,ABBB,1\r\n";

static int nothing(void)
{
    DUE(ribbons_read_orders(NULL, 0, NULL, 0, NULL, 0, NULL, 0, NULL, 0).refused == RIBBONS_WRONG_HEADING);
    DUE(ribbons_read_orders(file, file_count, NULL, 0, NULL, 0, NULL, 0, NULL, 0).refused == RIBBONS_SHORT_BUFFER);
    DUE(ribbons_lay_ribbon(NULL, 0, NULL, 0, NULL, 0).refused == RIBBONS_FALSE_LIST);
    DUE(ribbons_lay_ribbon(codes, 12, lengths, 3, NULL, 0).refused == RIBBONS_SHORT_BUFFER);
    DUE(ribbons_check_ribbon(NULL, 0, NULL, 0, NULL, 0).refused == RIBBONS_FALSE_LIST);
    DUE(ribbons_write_sheet(NULL, 0, NULL, 0, NULL, 0, NULL, 0, NULL, 0).refused == RIBBONS_FALSE_LIST);
    DUE(ribbons_write_sheet(codes, 12, lengths, 3, names, 11, sizes, 3, NULL, 0).refused == RIBBONS_SHORT_BUFFER);
    DUE(ribbons_ribbon_of(NULL, 0) == 0);
    return 0;
}

static int reading(void)
{
    uint8_t bands[14] = "..............", bytes[13] = ".............";
    uint16_t of_codes[4] = {7, 7, 7, 7}, of_names[4] = {8, 8, 8, 8};
    struct ribbons_orders read;
    read = ribbons_read_orders(file, file_count, bands, 12, of_codes, 3, bytes, 10, of_names, 3);
    DUE(read.refused == RIBBONS_SHORT_BUFFER && read.row == 0 && read.codes == 0 && read.bands == 0 && read.names == 0);
    DUE(memcmp(bands, "..............", 14) == 0 && of_codes[0] == 7 && memcmp(bytes, ".............", 13) == 0);
    read = ribbons_read_orders(file, file_count, bands, 14, of_codes, 4, bytes, 11, of_names, 4);
    DUE(read.refused == 0 && read.row == 0 && read.codes == 3 && read.bands == 12 && read.names == 11);
    DUE(memcmp(bands, "AABBAAACABBB..", 14) == 0 && memcmp(bytes, "PumpFanLamp..", 13) == 0);
    DUE(memcmp(of_codes, lengths, sizeof lengths) == 0 && of_codes[3] == 7);
    DUE(memcmp(of_names, sizes, sizeof sizes) == 0 && of_names[3] == 8);
    read = ribbons_read_orders(file, file_count - 3, bands, 14, of_codes, 4, bytes, 11, of_names, 4);
    DUE(read.refused == 0 && read.bands == 11);
    read = ribbons_read_orders(file, file_count - 6, bands, 14, of_codes, 4, bytes, 11, of_names, 4);
    DUE(read.refused == RIBBONS_NO_BANDS && read.row == 4 && read.codes == 0);
    return 0;
}

static int laying_and_checking(void)
{
    uint8_t ribbon[9] = ".........";
    struct ribbons_laid laid = ribbons_lay_ribbon(codes, 12, lengths, 3, ribbon, 6);
    DUE(laid.refused == RIBBONS_SHORT_BUFFER && laid.bands == 0 && laid.saved == 0);
    DUE(memcmp(ribbon, ".........", 9) == 0);
    laid = ribbons_lay_ribbon(codes, 12, lengths, 3, ribbon, 7);
    DUE(laid.refused == 0 && laid.bands == 7 && laid.saved == 5 && memcmp(ribbon, "CAAABBB..", 9) == 0);
    struct ribbons_checked checked = ribbons_check_ribbon(codes, 12, lengths, 3, ribbon, 7);
    DUE(checked.refused == 0 && checked.held && checked.missing == 0 && checked.difference == 0);
    checked = ribbons_check_ribbon(codes, 12, lengths, 3, ribbon, 6);
    DUE(checked.refused == 0 && !checked.held && checked.missing == 2 && checked.difference == 0);
    checked = ribbons_check_ribbon(codes, 12, lengths, 3, ribbon, 8);
    DUE(checked.refused == RIBBONS_UNKNOWN_COLOUR && !checked.held && checked.missing == 0);
    /* ABB, BBC, BBB: the computed ribbon has 7 bands, and this one 5 */
    const uint16_t threes[] = {3, 3, 3};
    checked = ribbons_check_ribbon((const uint8_t *)"ABBBBCBBB", 9, threes, 3, (const uint8_t *)"ABBBC", 5);
    DUE(checked.refused == 0 && checked.held && checked.missing == 0 && checked.difference == -2);
    DUE(ribbons_ribbon_of((const uint8_t *)"AB\r\n\r\n", 6) == 4 && ribbons_ribbon_of((const uint8_t *)"AB\n", 3) == 3);
    return 0;
}

static int writing(void)
{
    uint8_t out[sizeof sheet];
    size_t length = sizeof sheet - 1;
    memset(out, '.', sizeof out);
    struct ribbons_sheet wrote = ribbons_write_sheet(codes, 12, lengths, 3, names, 11, sizes, 3, out, length - 1);
    DUE(wrote.refused == RIBBONS_SHORT_BUFFER && wrote.bytes == 0 && wrote.saved == 0 && out[0] == '.');
    wrote = ribbons_write_sheet(codes, 12, lengths, 3, names, 10, sizes, 3, out, length);
    DUE(wrote.refused == RIBBONS_FALSE_LIST && out[0] == '.');
    wrote = ribbons_write_sheet(codes, 12, lengths, 3, names, 11, sizes, 3, out, sizeof out);
    DUE(wrote.refused == 0 && wrote.bytes == length && wrote.saved == 5);
    DUE(memcmp(out, sheet, length) == 0 && out[length] == '.');
    return 0;
}

int main(void)
{
    return nothing() || reading() || laying_and_checking() || writing();
}
