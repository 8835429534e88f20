/* Plytimber: a texture-atlas allocator over tables that you lend. Link target/staticlib/libplytimber.a, which
 * `tools/built plytimber` writes; of C's library it needs memset, and nothing of any other.
 *
 *     An atlas is a header of 24 bytes and two tables of uint16_t, all three yours: static, on a stack, or in memory that
 *     outlives a restart. There is no heap, no lock and no hidden state.
 *
 * What is promised, and proved for all inputs:
 *     - Every call ends and gives an answer of the list below, whatever numbers, ids, header and tables it is given.
 *     - A refusal has zeros beside its number, and changes nothing: not the header, no table, no list, no output. Three calls differ
 *       in one point each: a load that answers 3 leaves the rows that it copied, a refused batch gives back the header that it was given,
 *       and the audit tells the rule beside its 3.
 *     - All calls but create, clear and load first audit header and tables, and answer 3 where they don't pass. Clear asks less: a
 *       header within the limits, tables that have its used rows, and a row for each column in each. Load audits what it has copied. An
 *       audit takes time in proportion to the used rows (docs/PERFORMANCE.md); a batch makes one for many calls.
 *     - Where header and tables pass before a call, they pass after it. Create, load and batch give a header back: where they are
 *       done, the tables pass with that one, and with an older copy they may not. Where they are refused, the tables pass with the
 *       header that you have as before, but after a load that answers 3 they may not.
 *     - Nothing is read or written outside of what is lent. Numbers past the used rows are not read, and are written only when
 *       a row is taken into use.
 *
 * What is your duty, since no call can find it out:
 *     - A pointer is valid, and aligned as its type asks, for the length given: a length counts numbers, not bytes and not rows, but
 *       for images, where it counts bytes. It may be less than the table has: rows that are not lent are then not there.
 *     - Header, tables, lists and image don't overlap.
 *     - Nobody else writes to them while a call runs, nor reads what it may write. Atlases that share nothing may be used at once.
 *     - With a length of 0 the pointer is not followed, and may be NULL. The header's pointer may never be NULL.
 *
 * A length that is no multiple of the row's is fine: what is left over is neither read nor written. */
#ifndef PLYTIMBER_H
#define PLYTIMBER_H

#include <stddef.h>
#include <stdint.h>

#ifdef __cplusplus
extern "C" {
#endif

/* ---- answers: the first number of every answer */

enum {
    PLYTIMBER_DONE = 0,
    PLYTIMBER_BAD_SIZE = 1,       /* create: width 1 to 65535, height 1 to 65527 (the other way round with vertical shelves), area at most 2147483647 */
    PLYTIMBER_BAD_OPTIONS = 2,    /* create: alignments 1 to 65535, vertical 0 or 1, columns at least 1, and some width left for a shelf */
    PLYTIMBER_AUDIT_FAILS = 3,    /* header and tables, or those in an image, are not those of an atlas; or clear can't be done on them */
    PLYTIMBER_BAD_SIDE = 4,       /* allocate: a side is 0, negative or over 65535 */
    PLYTIMBER_TOO_LARGE = 5,      /* allocate: the aligned request is larger than a shelf or the atlas; it never fits, even when all is free */
    PLYTIMBER_NO_PLACE = 6,       /* allocate: no shelf has a free stretch that fits, now */
    PLYTIMBER_TOO_FEW_ROWS = 7,   /* create, allocate: a table has too few rows left; load: fewer rows than the image */
    PLYTIMBER_NO_SUCH_ITEM = 8,   /* release, look-up: row and generation name no live item */
    PLYTIMBER_BAD_IMAGE = 9,      /* load: the length or a block of the image is wrong */
    PLYTIMBER_LIST_TOO_SHORT = 10,/* list, save, batch: more live items, bytes or requests than there is room for */
    PLYTIMBER_NOT_READABLE = 11   /* in a batch, a request of an unknown kind; a line of the script program */
};

/* ---- tables
 *
 * A shelf row has 8 numbers, an item row 9, a record of a list 6, a request of a batch 3, its reply 7. A table has at most 65535 rows; what
 * is lent beyond is not used.
 * Create needs a row for each column in each table. 2N + C shelf rows and 4N + C item rows, with C columns, are enough for N items
 * at a time, whatever came before: a column has at most one more empty shelf than shelves in use, and a shelf at most one more free
 * stretch than items. Fewer will mostly do; then be ready for PLYTIMBER_TOO_FEW_ROWS.
 *
 * Shelf row: x, y, depth, previous, next, first item, first free item, empty (1 or 0).
 * Item row: x, width, previous, next, previous free, next free, shelf, allocated (1 or 0), generation.
 * A link is a row's number, or PLYTIMBER_NO_ROW. x and width run along the shelf, y and depth across it: with vertical shelves the
 * tables and the header have x and y exchanged. Chain of shelves: from row 0. */

enum { PLYTIMBER_SHELF_NUMBERS = 8, PLYTIMBER_ITEM_NUMBERS = 9, PLYTIMBER_LIVE_NUMBERS = 6, PLYTIMBER_MOST_ROWS = 65535, PLYTIMBER_NO_ROW = 65535 };
enum { PLYTIMBER_REQUEST_NUMBERS = 3, PLYTIMBER_REPLY_NUMBERS = 7 };

/* The bytes of an image of so many used shelf rows and item rows (header.used_shelves, header.used_items), in blocks of 512: one for the header,
 * one for every 31 shelf rows, one for every 28 item rows. With the rows that a table has, it is room enough for any atlas in them; no image has more than
 * PLYTIMBER_IMAGE_BYTES(65535, 65535). */
#define PLYTIMBER_IMAGE_BYTES(shelf_rows, item_rows) ((size_t)512 * (1 + ((size_t)(shelf_rows) + 30) / 31 + ((size_t)(item_rows) + 27) / 28))

/* The header, 24 bytes without a gap: ten numbers of 16 bits and one of 32, each in the machine's order of bytes (little-endian on every
 * machine that the library is built for). Copy it, keep it, or make it anew by create; an all-zero header is no atlas, and answers 3. */
typedef struct {
    uint16_t width, height;             /* along the shelves, and across */
    uint16_t align_width, align_height; /* in x and y, as given */
    uint16_t vertical;                  /* 1: shelves stand upright */
    uint16_t shelf_width;
    uint16_t used_shelves, used_items;  /* rows in use, freed ones included */
    uint16_t free_items, free_shelves;  /* the latest freed rows */
    uint32_t occupied;                  /* the area of all live items */
} plytimber_header;

/* ---- what calls tell: the answer first; the rest is zero where it is a refusal, but for a verdict's rule and a batch's header */

/* A live item: its id is row and generation together; its rectangle runs from x0, y0 up to but not including x1, y1. All six fit in 16 bits. */
typedef struct { uint32_t answer, row, generation, x0, y0, x1, y1; } plytimber_grant;
typedef struct { uint32_t answer, columns; plytimber_header header; } plytimber_created;
typedef struct { uint32_t answer, count; } plytimber_count;
typedef struct { uint32_t answer, area; } plytimber_area;
typedef struct { uint32_t answer, width, height; } plytimber_extent;
typedef struct { uint32_t answer, vacant; } plytimber_vacancy;
/* The first rule of the audit that fails: 1 limits, 2 shelves, 3 items, 5 free lists, freed rows or totals; 0 where all hold. */
typedef struct { uint32_t answer, rule; } plytimber_verdict;
/* One record of a list. */
typedef struct { uint16_t row, generation, x0, y0, x1, y1; } plytimber_live;
/* How many bytes the image has. */
typedef struct { uint32_t answer, length; } plytimber_saved;
typedef struct { uint32_t answer; plytimber_header header; } plytimber_loaded;
/* How many requests were answered, and the header after them; the one that was given where the batch is refused. */
typedef struct { uint32_t answer, count; plytimber_header header; } plytimber_batched;
/* A request: the kind, then width and height, or row and generation. A side that doesn't fit in 16 bits would be cut: put 0 in its place, which is
 * answered with 4 as the side would be. */
enum { PLYTIMBER_ALLOCATE = 1, PLYTIMBER_RELEASE = 2, PLYTIMBER_LOOK_UP = 3 };
typedef struct { uint16_t kind, first, second; } plytimber_request;
/* What is told of a request: the answer that its single call would give, and the item where allocate or look-up is done; zeros else. */
typedef struct { uint16_t answer, row, generation, x0, y0, x1, y1; } plytimber_reply;

/* ---- the calls; behind each, the answers that it can give */

/* 0 1 2 7. A fresh atlas; keep the header that comes back, which is all zero where it is refused. Reads nothing of the tables. Each side that is
 * asked for later is rounded up to its alignment; columns are cut along the shelves, and what is left over at the end belongs to none. */
plytimber_created plytimber_create(uint16_t *shelves, size_t shelf_numbers, uint16_t *items, size_t item_numbers, int32_t width, int32_t height,
                                   int32_t align_width, int32_t align_height, int32_t vertical, int32_t columns);

/* 0 3 4 5 6 7. A place for width x height. The rectangle covers it, may be larger, and stays where it is until it is released. */
plytimber_grant plytimber_allocate(plytimber_header *header, uint16_t *shelves, size_t shelf_numbers, uint16_t *items, size_t item_numbers,
                                   int32_t width, int32_t height);

/* 0 3 8. The item is given back. Its id is dead then, but may name a later grant: forget it. */
uint32_t plytimber_release(plytimber_header *header, uint16_t *shelves, size_t shelf_numbers, uint16_t *items, size_t item_numbers, uint16_t row,
                           uint16_t generation);

/* 0 3. A fresh atlas of the same size and options: every id is dead. Works on damaged tables, too, as long as the header is within the limits and
 * the tables have its used rows and a row for each column. */
uint32_t plytimber_clear(plytimber_header *header, uint16_t *shelves, size_t shelf_numbers, uint16_t *items, size_t item_numbers);

/* 0 3 8. The rectangle of a live item. */
plytimber_grant plytimber_look_up(plytimber_header header, const uint16_t *shelves, size_t shelf_numbers, const uint16_t *items, size_t item_numbers,
                                  uint16_t row, uint16_t generation);

/* 0 3 10. All live items by rising row, six numbers each (plytimber_live); records past the last stay as they were. */
plytimber_count plytimber_list(plytimber_header header, const uint16_t *shelves, size_t shelf_numbers, const uint16_t *items, size_t item_numbers,
                               uint16_t *list, size_t list_numbers);

/* 0 3. The area of all live items; the atlas's area less that; width and height as given to create; whether nothing is live (1) or something (0). */
plytimber_area plytimber_occupied(plytimber_header header, const uint16_t *shelves, size_t shelf_numbers, const uint16_t *items, size_t item_numbers);
plytimber_area plytimber_free_space(plytimber_header header, const uint16_t *shelves, size_t shelf_numbers, const uint16_t *items, size_t item_numbers);
plytimber_extent plytimber_size(plytimber_header header, const uint16_t *shelves, size_t shelf_numbers, const uint16_t *items, size_t item_numbers);
plytimber_vacancy plytimber_is_empty(plytimber_header header, const uint16_t *shelves, size_t shelf_numbers, const uint16_t *items, size_t item_numbers);

/* 0 3. Do header and tables pass? All other calls ask this themselves; ask after a restart, before you trust what was kept. */
plytimber_verdict plytimber_audit(plytimber_header header, const uint16_t *shelves, size_t shelf_numbers, const uint16_t *items, size_t item_numbers);

/* 0 3 10. The atlas as an image: blocks with a check each, little-endian on every machine, that hold the header and the used rows. The image needs
 * PLYTIMBER_IMAGE_BYTES(header.used_shelves, header.used_items); bytes past it stay as they were, and none of the output is read. */
plytimber_saved plytimber_save(plytimber_header header, const uint16_t *shelves, size_t shelf_numbers, const uint16_t *items, size_t item_numbers,
                               uint8_t *image, size_t image_bytes);

/* 0 3 7 9. The atlas of an image; keep the header that comes back, which is all zero where it is refused. The length is the image's, to the byte. The
 * tables may have other lengths than when it was saved, as long as the used rows fit; numbers past them stay as they were. 9 and 7 are found before a
 * table is touched. 3 is found after the rows are copied (every block is right, and yet it is no atlas): they stay, the one refusal that changes tables. */
plytimber_loaded plytimber_load(const uint8_t *image, size_t image_bytes, uint16_t *shelves, size_t shelf_numbers, uint16_t *items, size_t item_numbers);

/* 0 3 10. Allocate, release and look-up, many on one audit: three numbers a request (plytimber_request), seven a reply (plytimber_reply). Each is
 * answered as its single call on what the one before it left, and one that is refused, or is of an unknown kind (11), doesn't stop those after it. Keep the header
 * that comes back. 3, then 10 where there are fewer replies than requests, change nothing. Of a longer list the first 65535 requests are answered; replies past
 * the last stay as they were. */
plytimber_batched plytimber_batch(plytimber_header header, uint16_t *shelves, size_t shelf_numbers, uint16_t *items, size_t item_numbers,
                                  const uint16_t *requests, size_t request_numbers, uint16_t *replies, size_t reply_numbers);

#ifdef __cplusplus
}
#endif
#endif
