/* Test ribbons: the proved library, for programs in C and C++. Link the archive crates/ribbons_c/out/libribbons_c.a,
   which `rt lib` writes in crates/ribbons_c; it needs the C library alone.

   A band is a byte A to Z. A list is one run of bands and a length for each code, codes numbered from 0 in list order;
   where names come with it, they are one run of bytes and a size for each. A ribbon is a row of bands on which each code
   stands, as given or turned.

   Each buffer passes as a pointer and a count of its elements. A call reads and writes nothing else. It asks of its caller
   what C asks: a pointer to so many elements, any pointer where the count is 0, and no result buffer that overlaps another
   buffer of the call. It takes any contents and any count, and it always ends. It allocates nothing, keeps no pointer and
   nothing from one call to the next, so threads may call at the same time.

   An answer's refused is the number of a refusal, 0 where nothing is refused. Its other fields are 0, or false, where they
   don't apply. A refused call changes no lent byte; on success result buffers past the result keep what they had. */
#ifndef RIBBONS_H
#define RIBBONS_H

#include <stdbool.h>
#include <stddef.h>
#include <stdint.h>

#ifdef __cplusplus
extern "C" {
#endif

/* Sizes that always suffice. */
#define RIBBONS_MOST_FILE_BYTES 16384     /* of an order list: one that has more is refused */
#define RIBBONS_MOST_CODES 128            /* of a list */
#define RIBBONS_MOST_BANDS 8192           /* of all codes of a list together, and of a computed ribbon */
#define RIBBONS_MOST_NAME_BYTES 3072      /* of all names of a list together */
#define RIBBONS_MOST_SUPPLIED_BANDS 16384 /* of a supplied ribbon: one that has more is refused */
#define RIBBONS_MOST_SHEET_BYTES 17181    /* of a sheet */

/* The numbers of refusals. 14 is retired: no call answers it, and it is not to be used again. */
#define RIBBONS_LONG_FILE 1       /* more than 16,384 bytes in an order list */
#define RIBBONS_BROKEN_ROW 2      /* the row breaks RFC 4180's grammar, or has a byte other than CR, LF and 20 to 7E */
#define RIBBONS_WRONG_WIDTH 3     /* the row hasn't two fields */
#define RIBBONS_WRONG_HEADING 4   /* row 1's fields aren't name and code, or the file has 0 bytes */
#define RIBBONS_BAD_NAME 5        /* a name hasn't 1 to 24 bytes, or has one outside hexadecimal 20 to 7E */
#define RIBBONS_NO_BANDS 6        /* the code field is empty */
#define RIBBONS_LONG_CODE 7       /* more than 64 bytes in the code field */
#define RIBBONS_UNKNOWN_COLOUR 8  /* a byte outside A to Z in a code, or in a supplied ribbon */
#define RIBBONS_NAME_TAKEN 9      /* an earlier row after the heading has the same name */
#define RIBBONS_LIST_FULL 10      /* the row would be code 129 */
#define RIBBONS_EMPTY_LIST 11     /* a right heading and no row after it */
#define RIBBONS_FALSE_LIST 12     /* a list that is handed over breaks a rule for lists, codes or names */
#define RIBBONS_SHORT_BUFFER 13   /* a lent result buffer is shorter than the result */
#define RIBBONS_LONG_RIBBON 15    /* more than 16,384 bands in a supplied ribbon */

/* What reading an order list gives. */
struct ribbons_orders {
    uint8_t refused;
    uint32_t row;   /* of the refusal, the heading being row 1; 0 where no row is meant */
    uint32_t codes; /* how many codes, each with a length, a name and the name's size */
    uint32_t bands; /* how many bands in all codes */
    uint32_t names; /* how many bytes in all names */
};

/* What laying out a list gives. */
struct ribbons_laid {
    uint8_t refused;
    uint32_t bands; /* how many bands the ribbon has */
    uint32_t saved; /* the sum of the overlaps along it; with bands it makes the sum of the kept codes' lengths */
};

/* What checking a supplied ribbon gives. */
struct ribbons_checked {
    uint8_t refused;
    bool held;          /* whether every code stands on it, one way or the other */
    uint32_t missing;   /* where it is neither held nor refused: the lowest code number that has no place */
    int32_t difference; /* where it is held: its length minus that of the computed ribbon */
};

/* What writing a sheet gives. */
struct ribbons_sheet {
    uint8_t refused;
    uint32_t bytes; /* how many bytes the sheet has */
    uint32_t saved; /* as laying out the same list gives it */
};

/* Reads an order list, an RFC 4180 file with the heading row name,code: its codes to the beginnings of bands and lengths,
   its names to those of names and sizes. Refuses by 1, then by the earliest faulty row and its lowest number of 2 to 10,
   then by 11, then by 13. Stack, measured: 33,736 bytes. */
struct ribbons_orders ribbons_read_orders(
    const uint8_t *file, size_t file_count,
    uint8_t *bands, size_t bands_count,
    uint16_t *lengths, size_t lengths_count,
    uint8_t *names, size_t names_count,
    uint16_t *sizes, size_t sizes_count);

/* Lays out a list: its ribbon to the beginning of ribbon. Every code of the list stands on it. Whatever row of bytes
   somebody else holds on which every code stands, the kept codes' lengths, added up, are at most its length plus twice
   saved. Refuses by 12, then by 13. Stack, measured: 12,744 bytes. */
struct ribbons_laid ribbons_lay_ribbon(
    const uint8_t *bands, size_t bands_count,
    const uint16_t *lengths, size_t lengths_count,
    uint8_t *ribbon, size_t ribbon_count);

/* Checks a supplied ribbon against a list. It writes nothing. Refuses by 12, by 15, then by 8 for a byte of the ribbon.
   Stack, measured: 22,552 bytes. */
struct ribbons_checked ribbons_check_ribbon(
    const uint8_t *bands, size_t bands_count,
    const uint16_t *lengths, size_t lengths_count,
    const uint8_t *ribbon, size_t ribbon_count);

/* Lays out a list with names and writes its sheet to the beginning of out: the heading row name,way,start,bands,places,
   then a row for each code in list order, each ending in CR LF. Its way is given or turned, or either for a code equal to
   its turned form; its places are the number of starts at which it stands either way, each start once. Refuses by 12, then
   by 13. Stack, measured: 24,488 bytes. */
struct ribbons_sheet ribbons_write_sheet(
    const uint8_t *bands, size_t bands_count,
    const uint16_t *lengths, size_t lengths_count,
    const uint8_t *names, size_t names_count,
    const uint16_t *sizes, size_t sizes_count,
    uint8_t *out, size_t out_count);

/* How many bytes at the beginning of a ribbon file are its ribbon: one CR LF at its very end is not part of it. It refuses
   nothing. Stack, measured: under 100 bytes. */
size_t ribbons_ribbon_of(const uint8_t *file, size_t file_count);

#ifdef __cplusplus
}
#endif

#endif
