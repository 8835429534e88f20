/* The library with one fault, WRONG, so that hosts/test can see that fuzz.c finds it: each function here stands before the library's own (--wrap of
 * the linker). From 90 on only valgrind can tell. */
#include "c/plytimber.h"

#define SHELVES uint16_t *shelves, size_t s
#define ITEMS uint16_t *items, size_t i

static volatile uint16_t read_here;

plytimber_created __real_plytimber_create(SHELVES, ITEMS, int32_t w, int32_t h, int32_t aw, int32_t ah, int32_t vertical, int32_t columns);
plytimber_created __wrap_plytimber_create(SHELVES, ITEMS, int32_t w, int32_t h, int32_t aw, int32_t ah, int32_t vertical, int32_t columns) {
    if (WRONG == 92 && s > 0 && shelves[0] == 7) read_here = 1;                /* reads a table that is yet to be written */
    plytimber_created told = __real_plytimber_create(shelves, s, items, i, w, h, aw, ah, vertical, columns);
    if (WRONG == 1 && told.answer != 0) told.header.free_items = 65535;        /* a refused create gives a header that is not all zero */
    if (WRONG == 2 && told.answer == 7 && s > 0) shelves[0] ^= 1;              /* a refusal changes a table */
    return told;
}

plytimber_grant __real_plytimber_allocate(plytimber_header *header, SHELVES, ITEMS, int32_t w, int32_t h);
plytimber_grant __wrap_plytimber_allocate(plytimber_header *header, SHELVES, ITEMS, int32_t w, int32_t h) {
    if (WRONG == 20 && header->used_shelves < 3 && w == 3) return (plytimber_grant){7, 0, 0, 0, 0, 0, 0}; /* 7 although rows are left */
    if (WRONG == 25 && w > 0 && w < 65535) w++;                                /* a place for a wider request */
    plytimber_grant told = __real_plytimber_allocate(header, shelves, s, items, i, w, h);
    if (WRONG == 3 && told.answer == 0) items[i] = 0;                          /* writes a number past the table */
    if (WRONG == 4 && told.answer == 0) shelves[-1] = 0;                       /* writes a number before the table */
    if (WRONG == 5 && told.answer == 6) header->occupied++;                    /* a refusal changes the header */
    if (WRONG == 6 && told.answer == 6) told.answer = 9;                       /* an answer that allocate has not */
    if (WRONG == 7 && told.answer == 7) told.answer = 6;                       /* 6 although there is a place */
    if (WRONG == 8 && told.answer == 0) told.x1++;                             /* tells another rectangle than it grants */
    if (WRONG == 9 && told.answer == 0 && i > 9u * header->used_items) items[i - 1] ^= 1; /* writes past the used rows */
    if (WRONG == 10 && told.answer == 7) told.row = 1;                         /* a refusal tells more than its number */
    if (WRONG == 11 && told.answer == 0) ((uint8_t *)header)[24] = 0;          /* writes past the header */
    if (WRONG == 90 && told.answer == 6 && i > 9u * header->used_items && items[i - 1] == 7) read_here = 1; /* reads past the used rows */
    return told;
}

uint32_t __real_plytimber_release(plytimber_header *header, SHELVES, ITEMS, uint16_t row, uint16_t generation);
uint32_t __wrap_plytimber_release(plytimber_header *header, SHELVES, ITEMS, uint16_t row, uint16_t generation) {
    uint32_t answer = __real_plytimber_release(header, shelves, s, items, i, row, generation);
    for (unsigned other = 0; WRONG == 24 && answer == 0 && other < header->used_items; other++) {
        items[9 * other + 8] += items[9 * other + 7];                          /* the others get new ids: the tables pass, as a generation may be any number */
    }
    if (WRONG == 12 && answer == 0) header->occupied++;                        /* the tables don't pass after it */
    if (WRONG == 31 && answer == 0 && header->align_height == 1) header->align_height = 2; /* changes an option: with flat shelves the tables pass */
    if (WRONG == 13 && answer == 8 && i > 0) items[i - 1] ^= 1;                /* a refusal changes a table */
    if (WRONG == 14 && answer == 3) answer = 8;                                /* 8 before 3 */
    return answer;
}

plytimber_count __real_plytimber_list(plytimber_header header, SHELVES, ITEMS, uint16_t *list, size_t l);
plytimber_count __wrap_plytimber_list(plytimber_header header, SHELVES, ITEMS, uint16_t *list, size_t l) {
    if (WRONG == 91 && l > 0 && list[0] == 7) read_here = 1;                   /* reads the list */
    plytimber_count told = __real_plytimber_list(header, shelves, s, items, i, list, l);
    if (WRONG == 15 && told.answer == 0 && l > 6 * told.count) list[6 * told.count] ^= 1; /* writes past the last record */
    if (WRONG == 30 && told.answer == 0 && told.count > 1) list[6] = list[0];  /* lists an item twice */
    if (WRONG == 16 && told.answer == 10 && l > 0) list[0] ^= 1;               /* a refusal writes to the list */
    return told;
}

plytimber_grant __real_plytimber_look_up(plytimber_header header, SHELVES, ITEMS, uint16_t row, uint16_t generation);
plytimber_grant __wrap_plytimber_look_up(plytimber_header header, SHELVES, ITEMS, uint16_t row, uint16_t generation) {
    if (WRONG == 17) read_here = items[i];                                     /* reads a number past the table */
    if (WRONG == 18) read_here = shelves[-1];                                  /* reads a number before the table */
    plytimber_grant told = __real_plytimber_look_up(header, shelves, s, items, i, row, generation);
    if (WRONG == 29 && told.answer == 0) told.y1++;                            /* tells another rectangle */
    return told;
}

uint32_t __real_plytimber_clear(plytimber_header *header, SHELVES, ITEMS);
uint32_t __wrap_plytimber_clear(plytimber_header *header, SHELVES, ITEMS) {
    if (WRONG == 19) return 0;                                                 /* clears nothing */
    return __real_plytimber_clear(header, shelves, s, items, i);
}

plytimber_verdict __real_plytimber_audit(plytimber_header header, SHELVES, ITEMS);
plytimber_verdict __wrap_plytimber_audit(plytimber_header header, SHELVES, ITEMS) {
    plytimber_verdict told = __real_plytimber_audit(header, shelves, s, items, i);
    if (WRONG == 21 && told.rule == 5) return (plytimber_verdict){0, 0};       /* free lists are believed unread */
    if (WRONG == 22 && told.rule == 3) told.rule = 2;                          /* another rule than the one that fails */
    return told;
}

plytimber_extent __real_plytimber_size(plytimber_header header, SHELVES, ITEMS);
plytimber_extent __wrap_plytimber_size(plytimber_header header, SHELVES, ITEMS) {
    plytimber_extent told = __real_plytimber_size(header, shelves, s, items, i);
    if (WRONG == 23) return (plytimber_extent){told.answer, told.height, told.width}; /* the sides change places */
    return told;
}

plytimber_area __real_plytimber_occupied(plytimber_header header, SHELVES, ITEMS);
plytimber_area __wrap_plytimber_occupied(plytimber_header header, SHELVES, ITEMS) {
    plytimber_area told = __real_plytimber_occupied(header, shelves, s, items, i);
    if (WRONG == 26 && told.answer == 0) told.area++;                          /* a made-up total */
    return told;
}

plytimber_area __real_plytimber_free_space(plytimber_header header, SHELVES, ITEMS);
plytimber_area __wrap_plytimber_free_space(plytimber_header header, SHELVES, ITEMS) {
    plytimber_area told = __real_plytimber_free_space(header, shelves, s, items, i);
    if (WRONG == 27 && told.answer == 0) told.area = (uint32_t)header.width * header.height; /* as if nothing were live */
    return told;
}

plytimber_vacancy __real_plytimber_is_empty(plytimber_header header, SHELVES, ITEMS);
plytimber_vacancy __wrap_plytimber_is_empty(plytimber_header header, SHELVES, ITEMS) {
    plytimber_vacancy told = __real_plytimber_is_empty(header, shelves, s, items, i);
    if (WRONG == 28 && told.answer == 0) told.vacant = header.used_items == header.width / header.shelf_width; /* empty only while no row was ever taken */
    return told;
}

plytimber_saved __real_plytimber_save(plytimber_header header, SHELVES, ITEMS, uint8_t *image, size_t bytes);
plytimber_saved __wrap_plytimber_save(plytimber_header header, SHELVES, ITEMS, uint8_t *image, size_t bytes) {
    if (WRONG == 93 && bytes > 0 && image[0] == 7) read_here = 1;              /* reads the output */
    plytimber_saved told = __real_plytimber_save(header, shelves, s, items, i, image, bytes);
    if (WRONG == 32 && told.answer == 0 && bytes > told.length) image[told.length] = 0; /* writes a byte past the image */
    if (WRONG == 33 && told.answer == 10 && bytes > 0) image[0] = 0;           /* a refusal writes to the output */
    if (WRONG == 34 && told.answer == 0) image[510] ^= 1;                      /* the first block's check is wrong */
    if (WRONG == 35 && told.answer == 3 && bytes < 1536) told.answer = 10;     /* 10 before 3 */
    if (WRONG == 36 && told.answer == 0) image[bytes] = 0;                     /* writes a byte past the output */
    return told;
}

plytimber_loaded __real_plytimber_load(const uint8_t *image, size_t bytes, SHELVES, ITEMS);
plytimber_loaded __wrap_plytimber_load(const uint8_t *image, size_t bytes, SHELVES, ITEMS) {
    if (WRONG == 37) read_here = image[bytes];                                 /* reads a byte past the image */
    if (WRONG == 38 && bytes % 512 == 1) bytes--;                              /* a byte more is not seen */
    if (WRONG == 94 && s > 0 && shelves[0] == 7) read_here = 1;                /* reads a table that is yet to be written */
    if (WRONG == 51) {                                                         /* the checks of the blocks are not looked at */
        static uint8_t right[2400000];
        for (size_t k = 0; k < bytes; k++) right[k] = image[k];
        for (size_t block = 0; block + 512 <= bytes; block += 512) {
            uint32_t sum = 0;
            for (size_t k = 0; k < 510; k += 2) sum += right[block + k] + 256u * right[block + k + 1];
            right[block + 510] = (uint8_t)(sum % 65535), right[block + 511] = (uint8_t)(sum % 65535 >> 8);
        }
        return __real_plytimber_load(right, bytes, shelves, s, items, i);
    }
    plytimber_loaded told = __real_plytimber_load(image, bytes, shelves, s, items, i);
    if (WRONG == 50 && told.answer == 9 && bytes >= 512 && 8u * (image[18] + 256u * image[19]) > s) told.answer = 7; /* 7 before 9 */
    if (WRONG == 39 && told.answer == 7 && s > 0) shelves[0] ^= 1;             /* too few rows, and yet a table changes */
    if (WRONG == 40 && told.answer == 3) told.header.width = 1;                /* a refused load gives a header that is not all zero */
    if (WRONG == 41 && told.answer == 3 && i > 0) items[0] ^= 1;               /* a copied row doesn't stay */
    if (WRONG == 42 && told.answer == 3 && i > 0) items[i - 1] ^= 1;           /* and what lies past the copied rows changes */
    if (WRONG == 43 && told.answer == 0 && s > 8u * told.header.used_shelves) shelves[s - 1] ^= 1; /* the same where it is not refused */
    if (WRONG == 44 && told.answer == 3) {                                     /* rows are believed without an audit */
        told.answer = 0;
        for (int k = 0; k < 24; k++) ((uint8_t *)&told.header)[k] = image[6 + k];
    }
    return told;
}

plytimber_batched __real_plytimber_batch(plytimber_header header, SHELVES, ITEMS, const uint16_t *requests, size_t q, uint16_t *replies, size_t r);
plytimber_batched __wrap_plytimber_batch(plytimber_header header, SHELVES, ITEMS, const uint16_t *requests, size_t q, uint16_t *replies, size_t r) {
    if (WRONG == 95 && r > 0 && replies[0] == 7) read_here = 1;                /* reads the replies */
    if (WRONG == 45 && q / 3 > 1 && r / 7 >= q / 3) {                          /* stops at the first request that is refused */
        plytimber_batched all = {0, 0, header};
        for (size_t k = 0; k < q / 3 && k < 65535; k++) {
            plytimber_batched one = __real_plytimber_batch(all.header, shelves, s, items, i, requests + 3 * k, 3, replies + 7 * k, 7);
            if (one.answer) return one;
            all = (plytimber_batched){0, (uint32_t)(q / 3), one.header};
            if (replies[7 * k]) break;
        }
        return all;
    }
    plytimber_batched told = __real_plytimber_batch(header, shelves, s, items, i, requests, q, replies, r);
    if (WRONG == 46 && told.answer == 10) {                                    /* 10, and yet what there is room for is done */
        __real_plytimber_batch(header, shelves, s, items, i, requests, 3 * (r / 7), replies, r);
    }
    if (WRONG == 47 && told.answer == 0) told.header = header;                 /* gives back the header that it was given */
    if (WRONG == 48 && told.answer == 0 && r > 7 * told.count) replies[7 * told.count] ^= 1; /* writes past the last reply */
    for (uint32_t k = 0; WRONG == 49 && k < told.count; k++) {
        if (replies[7 * k] == 11) replies[7 * k] = 8;                          /* another number for an unknown kind */
    }
    return told;
}
