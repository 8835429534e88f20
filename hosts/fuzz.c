/* Random calls on the built library, through its C header, each held against document 01: hosts/test builds and runs it.
 *
 *     fuzz CALLS SEED
 *
 * Header, tables, lists and image lie between two pages that can't be touched, flush with one of them by turns; what is left over of the pages between is
 * compared after each call. Under valgrind it is marked as not to be touched, and numbers past the used rows as not to be read. Ends with 1 and
 * says which call it was where anything is not as it must be. */
#define _DEFAULT_SOURCE
#include "c/plytimber.h"
#include <signal.h>
#include <stdio.h>
#include <stdlib.h>
#include <string.h>
#include <sys/mman.h>
#include <unistd.h>

#if __has_include(<valgrind/memcheck.h>)
#include <valgrind/memcheck.h>
#else
#define VALGRIND_MAKE_MEM_NOACCESS(at, bytes) ((void)0)
#define VALGRIND_MAKE_MEM_UNDEFINED(at, bytes) ((void)0)
#define VALGRIND_MAKE_MEM_DEFINED(at, bytes) ((void)0)
#define VALGRIND_CHECK_MEM_IS_DEFINED(at, bytes) 0
#endif

typedef enum { CREATE, ALLOCATE, RELEASE, LOOK_UP, LIST, CLEAR, OCCUPIED, FREE_SPACE, SIZE, IS_EMPTY, AUDIT, SAVE, LOAD, BATCH, KINDS } call_kind;
static const char *const names[KINDS] = {"create", "allocate", "release", "look-up", "list", "clear", "occupied", "free space", "size", "is_empty", "audit", "save", "load", "batch"};

/* ---- what went wrong, and where */

static uint64_t seed, wanted, calls, counts[KINDS][12], rules[8], on_damaged, on_random, on_short, on_null, on_large, on_longest, replied[12];
static call_kind now;

static void fail(const char *what) {
    printf("fuzz: %s: %s (seed %llu, call %llu)\n", names[now], what, (unsigned long long)seed, (unsigned long long)calls);
    exit(1);
}

static void hold(int is_so, const char *what) {
    if (!is_so) fail(what);
}

static void on_fault(int signal) {
    (void)signal;
    char text[160];
    int n = snprintf(text, sizeof text, "fuzz: %s: touches memory that was not lent (seed %llu, call %llu)\n", names[now], (unsigned long long)seed, (unsigned long long)calls);
    if (write(1, text, (size_t)n) < 0) _exit(2);
    _exit(1);
}

/* ---- random numbers */

static uint64_t state;

static uint64_t below(uint64_t n) {
    state ^= state << 13;
    state ^= state >> 7;
    state ^= state << 17;
    return (state * 0x2545f4914f6cdd1dULL >> 11) % n;
}

static uint16_t any16(void) { return (uint16_t)below(65536); }

/* Mostly round the limits of document 01, else anything at all. */
static int32_t any32(void) {
    static const int32_t edges[] = {0, 1, -1, 2, 8, 9, 65526, 65527, 65528, 65534, 65535, 65536, 65537, 32768, 32769, INT32_MAX, INT32_MIN, INT32_MAX - 1, -65535, -65536};
    if (below(4)) return edges[below(sizeof edges / sizeof *edges)];
    return (int32_t)(uint32_t)below(1ULL << 32);
}

/* ---- what is lent */

typedef struct { uint8_t *page, *was, *saved; size_t bytes; } room;

enum { PAGE = 4096, SMALL = 1, MIDDLE = 64, LARGE = 300, CANARY = 0xa5 };
/* The longest image of a size class's tables, and some bytes more. */
static const size_t image_pages[3] = {2, 64, 570};
static room header_room, shelf_rooms[3], item_rooms[3], list_rooms[3], image_rooms[3], request_rooms[3];

static room open_room(size_t pages) {
    room r = {.bytes = pages * PAGE};
    uint8_t *all = mmap(NULL, r.bytes + 2 * PAGE, PROT_NONE, MAP_PRIVATE | MAP_ANONYMOUS, -1, 0);
    r.page = all + PAGE;
    r.was = malloc(r.bytes);
    r.saved = malloc(r.bytes);
    if (all == MAP_FAILED || !r.was || !r.saved || mprotect(r.page, r.bytes, PROT_READ | PROT_WRITE)) {
        printf("fuzz: no memory\n");
        exit(2);
    }
    return r;
}

typedef struct { room *in; uint8_t *at; size_t bytes; } part;
static part header_part, shelf_part, item_part, list_part, image_part, request_part;
enum { PARTS = 6 };
static part *const parts[PARTS] = {&header_part, &shelf_part, &item_part, &list_part, &image_part, &request_part};

/* Is part k lent to the call? Images and requests are to some calls only; the list of a batch is that of its replies. */
static int is_lent(int k) { return k < 4 || (k == 4 ? now == SAVE || now == LOAD : now == BATCH); }

static part lend(room *r, size_t bytes) {
    part p = {r, below(2) ? r->page + r->bytes - bytes : r->page, bytes};
    memset(r->page, CANARY, r->bytes);
    return p;
}

static void lend_tables(int size, size_t shelf_numbers, size_t item_numbers, size_t list_numbers) {
    header_part = lend(&header_room, sizeof(plytimber_header));
    shelf_part = lend(&shelf_rooms[size], 2 * shelf_numbers);
    item_part = lend(&item_rooms[size], 2 * item_numbers);
    list_part = lend(&list_rooms[size], 2 * list_numbers);
}

static plytimber_header *header(void) { return (plytimber_header *)header_part.at; }
static size_t numbers(part p) { return p.bytes / 2; }
/* With a length of 0 the pointer may be NULL: by turns it is. */
static void *at(part p) { return p.bytes == 0 && (calls & 1) ? NULL : p.at; }
static uint16_t shelf(unsigned row, int k) { return ((uint16_t *)shelf_part.at)[PLYTIMBER_SHELF_NUMBERS * row + k]; }
static uint16_t item(unsigned row, int k) { return ((uint16_t *)item_part.at)[PLYTIMBER_ITEM_NUMBERS * row + k]; }
#define TABLES at(shelf_part), numbers(shelf_part), at(item_part), numbers(item_part)

static uint32_t least(uint64_t a, uint64_t b) { return (uint32_t)(a < b ? a : b); }
static uint32_t shelf_rows(void) { return least(numbers(shelf_part) / PLYTIMBER_SHELF_NUMBERS, PLYTIMBER_MOST_ROWS); }
static uint32_t item_rows(void) { return least(numbers(item_part) / PLYTIMBER_ITEM_NUMBERS, PLYTIMBER_MOST_ROWS); }

static size_t used_bytes(part *p) {
    if (p == &header_part) return p->bytes;
    if (p == &list_part || (p == &image_part && now == SAVE)) return 0;
    if (p == &image_part || p == &request_part) return p->bytes;
    size_t used = p == &shelf_part ? 2u * PLYTIMBER_SHELF_NUMBERS * header()->used_shelves : 2u * PLYTIMBER_ITEM_NUMBERS * header()->used_items;
    return used < p->bytes ? used : p->bytes;
}

/* Create and clear read no table, and load none that it has not written. */
static int reads_tables(void) { return now != CREATE && now != CLEAR && now != LOAD; }
static int is_table(part *p) { return p == &shelf_part || p == &item_part; }

/* Before a call: what is there is kept, and valgrind is told what may be touched (all that is lent) and read (the used rows). */
static void keep(void) {
    for (int k = 0; k < PARTS; k++) {
        part *p = parts[k];
        if (!is_lent(k)) continue;
        memcpy(p->in->was, p->in->page, p->in->bytes);
        size_t used = is_table(p) && !reads_tables() ? 0 : used_bytes(p);
        VALGRIND_MAKE_MEM_NOACCESS(p->in->page, p->at - p->in->page);
        VALGRIND_MAKE_MEM_NOACCESS(p->at + p->bytes, p->in->page + p->in->bytes - p->at - p->bytes);
        VALGRIND_MAKE_MEM_UNDEFINED(p->at + used, p->bytes - used);
    }
}

static void look_again(uint32_t answer) {
    for (int k = 0; k < PARTS; k++) {
        part *p = parts[k];
        if (!is_lent(k)) continue;
        if (answer == 0 || reads_tables()) hold(!VALGRIND_CHECK_MEM_IS_DEFINED(p->at, used_bytes(p)), "what it wrote comes from numbers that nobody wrote");
        VALGRIND_MAKE_MEM_DEFINED(p->in->page, p->in->bytes);
    }
}

static int same(part *p, size_t from, size_t to) { return memcmp(p->at + from, p->in->was + (p->at - p->in->page) + from, to - from) == 0; }
static void nothing_changed(part *p, const char *what) { hold(same(p, 0, p->bytes), what); }

static void canaries(void) {
    for (int k = 0; k < PARTS; k++) {
        part *p = parts[k];
        if (!is_lent(k)) continue;
        size_t before = p->at - p->in->page, after = before + p->bytes;
        hold(memcmp(p->in->page, p->in->was, before) == 0 && memcmp(p->in->page + after, p->in->was + after, p->in->bytes - after) == 0, "writes outside of what was lent");
    }
}

/* ---- document 01 once more, so that every answer is foretold */

typedef struct { uint32_t x0, y0, x1, y1; } rectangle;

static rectangle rectangle_of(unsigned row) {
    unsigned on = item(row, 6);
    uint32_t x = item(row, 0), y = shelf(on, 1), w = item(row, 1), d = shelf(on, 2);
    return header()->vertical ? (rectangle){y, x, y + d, x + w} : (rectangle){x, y, x + w, y + d};
}

static uint32_t area(rectangle r) { return (r.x1 - r.x0) * (r.y1 - r.y0); }
static int is_live(unsigned row, unsigned generation) { return row < header()->used_items && item(row, 7) == 1 && item(row, 8) == generation; }

static uint32_t live_count(void) {
    uint32_t n = 0;
    for (unsigned row = 0; row < header()->used_items; row++) n += item(row, 7);
    return n;
}

static uint32_t create_answer(const int32_t n[6], plytimber_header *fresh, uint32_t *columns) {
    int64_t upright = n[4] == 1, w = upright ? n[1] : n[0], h = upright ? n[0] : n[1];
    memset(fresh, 0, sizeof *fresh);
    *columns = 0;
    if (w < 1 || w > 65535 || h < 1 || h > 65527 || w * h > INT32_MAX) return 1;
    if (n[2] < 1 || n[2] > 65535 || n[3] < 1 || n[3] > 65535 || n[4] < 0 || n[4] > 1 || n[5] < 1) return 2;
    int64_t along = upright ? n[3] : n[2], s = w / n[5] - w / n[5] % along;
    if (s == 0) return 2;
    if (w / s > shelf_rows() || w / s > item_rows()) return 7;
    *columns = (uint32_t)(w / s);
    *fresh = (plytimber_header){(uint16_t)w, (uint16_t)h, (uint16_t)n[2], (uint16_t)n[3], (uint16_t)n[4], (uint16_t)s, (uint16_t)*columns, (uint16_t)*columns, 65535, 65535, 0};
    return 0;
}

static int64_t up_to(int64_t n, int64_t step) { return (n + step - 1) / step * step; }

/* How many rows of a table are left, freed or unused; NEXT is the number of a row that links the freed ones. */
static uint32_t rows_left(uint32_t rows, uint32_t used, uint32_t head, uint16_t (*number)(unsigned, int), int next) {
    uint32_t left = rows - used;
    for (; head != PLYTIMBER_NO_ROW; head = number(head, next)) left++;
    return left;
}

/* What allocate tells on tables that pass: the checks, the walk along the shelves, the two splits, the rows left. */
static plytimber_grant allocate_answer(int32_t width, int32_t height) {
    const plytimber_header *h = header();
    if (width < 1 || width > 65535 || height < 1 || height > 65535) return (plytimber_grant){.answer = 4};
    int64_t x = up_to(width, h->align_width), y = up_to(height, h->align_height), along = h->vertical ? y : x, deep = h->vertical ? x : y;
    if (along > h->shelf_width || deep > h->height) return (plytimber_grant){.answer = 5};
    int64_t rounded = up_to(deep, deep < 32 ? 8 : deep < 128 ? 16 : deep < 512 ? 32 : 64), good = 65536;
    if (rounded <= h->height) deep = rounded;
    unsigned held = PLYTIMBER_NO_ROW, on = 0;
    for (unsigned row = 0; row != PLYTIMBER_NO_ROW; row = shelf(row, 4)) {
        int64_t depth = shelf(row, 2);
        int bad = !shelf(row, 7) && depth > least(deep + deep / 2, 65535);
        if (depth < deep || depth >= good || (bad && held != PLYTIMBER_NO_ROW)) continue;
        unsigned open = shelf(row, 6);
        while (open != PLYTIMBER_NO_ROW && item(open, 1) < along) open = item(open, 5);
        if (open == PLYTIMBER_NO_ROW) continue;
        held = open, on = row;
        if (!bad) good = depth;
        if (depth == deep) break;
    }
    if (held == PLYTIMBER_NO_ROW) return (plytimber_grant){.answer = 6};
    uint32_t depth = shelf(on, 2), wide = item(held, 1), shelf_split = shelf(on, 7) && depth > deep + 8, item_split = wide > along + 8;
    if (shelf_split > rows_left(shelf_rows(), h->used_shelves, h->free_shelves, shelf, 4) || shelf_split + item_split > rows_left(item_rows(), h->used_items, h->free_items, item, 3))
        return (plytimber_grant){.answer = 7};
    uint32_t from = item(held, 0), top = shelf(on, 1), to = from + (item_split ? (uint32_t)along : wide), bottom = top + (shelf_split ? (uint32_t)deep : depth);
    return h->vertical ? (plytimber_grant){0, held, item(held, 8), top, from, bottom, to} : (plytimber_grant){0, held, item(held, 8), from, top, to, bottom};
}

/* The seven rules of the audit, written once more: 0, or the first that fails, 5 for one of 5 to 7. Rule 4 follows from 2 and 3. */

static uint32_t seen[PLYTIMBER_MOST_ROWS]; /* of an item row: the shelf that it is on, plus 1; FREED */
static uint8_t shelf_seen[PLYTIMBER_MOST_ROWS];
enum { FREED = 100000 };

static int rule_1(void) {
    const plytimber_header *h = header();
    uint16_t along = h->vertical ? h->align_height : h->align_width;
    return h->width >= 1 && h->height >= 1 && h->height <= 65527 && (uint64_t)h->width * h->height <= INT32_MAX && h->align_width >= 1 && h->align_height >= 1 && h->vertical <= 1 &&
           h->shelf_width >= 1 && h->shelf_width <= h->width && h->shelf_width % along == 0 && h->used_shelves <= shelf_rows() && h->used_items <= item_rows();
}

static int rule_2(void) {
    const plytimber_header *h = header();
    uint32_t column = 0, y = 0, previous = PLYTIMBER_NO_ROW, empty_above = 0, row = 0;
    memset(shelf_seen, 0, h->used_shelves);
    for (; row != PLYTIMBER_NO_ROW; previous = row, row = shelf(row, 4)) {
        if (row >= h->used_shelves || shelf_seen[row] || column == h->width / h->shelf_width) return 0;
        shelf_seen[row] = 1;
        uint16_t first = shelf(row, 5), depth = shelf(row, 2);
        uint32_t empty = first < h->used_items && item(first, 7) == 0 && item(first, 3) == PLYTIMBER_NO_ROW;
        if (shelf(row, 3) != previous || shelf(row, 0) != column * h->shelf_width || shelf(row, 1) != y || depth < 1 || y + depth > h->height) return 0;
        if (shelf(row, 7) != empty || (empty && empty_above)) return 0;
        y += depth;
        empty_above = empty;
        if (y == h->height) column++, y = 0, empty_above = 0;
    }
    return y == 0 && column == h->width / h->shelf_width;
}

static int rule_3(void) {
    const plytimber_header *h = header();
    uint16_t along = h->vertical ? h->align_height : h->align_width;
    memset(seen, 0, sizeof *seen * h->used_items);
    for (uint32_t on = 0; on != PLYTIMBER_NO_ROW; on = shelf(on, 4)) {
        uint32_t x = shelf(on, 0), end = x + h->shelf_width, previous = PLYTIMBER_NO_ROW, free_before = 0;
        for (uint32_t row = shelf(on, 5); row != PLYTIMBER_NO_ROW; previous = row, row = item(row, 3)) {
            if (row >= h->used_items || seen[row]) return 0;
            seen[row] = on + 1;
            uint16_t width = item(row, 1), allocated = item(row, 7);
            if (item(row, 2) != previous || item(row, 6) != on || item(row, 0) != x || width == 0 || width % along || allocated > 1 || (free_before && !allocated)) return 0;
            x += width;
            if (x > end) return 0;
            free_before = !allocated;
        }
        if (x != end) return 0;
    }
    return 1;
}

static int rules_5_to_7(void) {
    const plytimber_header *h = header();
    uint64_t total = 0;
    uint32_t open = 0;
    for (uint32_t row = 0; row < h->used_items; row++) {
        if (seen[row] && item(row, 7)) {
            total += (uint64_t)item(row, 1) * shelf(item(row, 6), 2);
            if (item(row, 4) != PLYTIMBER_NO_ROW || item(row, 5) != PLYTIMBER_NO_ROW) return 0;
        } else if (seen[row]) {
            open++;
        }
    }
    if (total != h->occupied) return 0;
    /* The free lists: each of its own shelf's free items, and all of them together as many as there are. */
    for (uint32_t on = 0; on != PLYTIMBER_NO_ROW; on = shelf(on, 4)) {
        uint32_t previous = PLYTIMBER_NO_ROW;
        for (uint32_t row = shelf(on, 6); row != PLYTIMBER_NO_ROW; previous = row, row = item(row, 5)) {
            if (open == 0 || row >= h->used_items || seen[row] != on + 1 || item(row, 7) || item(row, 4) != previous) return 0;
            open--;
        }
    }
    if (open) return 0;
    /* The freed rows: what is on no chain, zero but for next and generation. */
    for (uint32_t row = h->free_items; row != PLYTIMBER_NO_ROW; row = item(row, 3)) {
        if (row >= h->used_items || seen[row]) return 0;
        seen[row] = FREED;
        for (int k = 0; k < 8; k++) {
            if (k != 3 && item(row, k)) return 0;
        }
    }
    for (uint32_t row = h->free_shelves; row != PLYTIMBER_NO_ROW; row = shelf(row, 4)) {
        if (row >= h->used_shelves || shelf_seen[row]) return 0;
        shelf_seen[row] = 1;
        for (int k = 0; k < 8; k++) {
            if (k != 4 && shelf(row, k)) return 0;
        }
    }
    for (uint32_t row = 0; row < h->used_items; row++) {
        if (!seen[row]) return 0;
    }
    for (uint32_t row = 0; row < h->used_shelves; row++) {
        if (!shelf_seen[row]) return 0;
    }
    return 1;
}

static plytimber_verdict audit_answer(void) {
    uint32_t rule = !rule_1() ? 1 : !rule_2() ? 2 : !rule_3() ? 3 : !rules_5_to_7() ? 5 : 0;
    return (plytimber_verdict){rule ? PLYTIMBER_AUDIT_FAILS : PLYTIMBER_DONE, rule};
}

/* ---- one call, made and held against what must be */

static plytimber_header header_before(void) { return *(plytimber_header *)(header_part.in->was + (header_part.at - header_part.in->page)); }

/* After every call: nothing outside is touched, a refusal changes nothing, what passed passes, numbers past the used rows stay. */
static void after(uint32_t answer, uint32_t expected, plytimber_verdict verdict) {
    look_again(answer);
    on_null += at(shelf_part) == NULL || at(item_part) == NULL || ((now == LIST || now == BATCH) && at(list_part) == NULL) ||
               ((now == SAVE || now == LOAD) && at(image_part) == NULL) || (now == BATCH && at(request_part) == NULL);
    on_large += shelf_part.in == &shelf_rooms[2];
    calls++;
    hold(answer == expected, "another answer than document 01's");
    counts[now][answer]++;
    canaries();
    int changes = now == CREATE || now == ALLOCATE || now == RELEASE || now == CLEAR || now == LOAD || now == BATCH;
    if (answer != 0 || !changes) {
        nothing_changed(&header_part, "changes the header");
        /* The one refusal that changes tables: do_load knows how. */
        if (now != LOAD || answer != 3) {
            nothing_changed(&shelf_part, "changes the shelf table");
            nothing_changed(&item_part, "changes the item table");
        }
    }
    if (answer != 0 || (now != LIST && now != BATCH)) nothing_changed(&list_part, "changes the list");
    if (now == LOAD || (now == SAVE && answer != 0)) nothing_changed(&image_part, "changes the image");
    if (now == BATCH) nothing_changed(&request_part, "changes the requests");
    if (answer == 0 && changes) {
        const plytimber_header *h = header();
        hold(same(&shelf_part, 2u * PLYTIMBER_SHELF_NUMBERS * h->used_shelves, shelf_part.bytes), "changes shelf numbers past the used rows");
        hold(same(&item_part, 2u * PLYTIMBER_ITEM_NUMBERS * h->used_items, item_part.bytes), "changes item numbers past the used rows");
    }
    if (verdict.answer == 0 || (answer == 0 && changes)) hold(audit_answer().answer == 0, "the tables don't pass after it");
}

/* No call moves a live item: all that were live are live still, in their places, but for one. */
static void others_stay(unsigned but) {
    const uint16_t *items_were = (uint16_t *)(item_part.in->was + (item_part.at - item_part.in->page)), *shelves_were = (uint16_t *)(shelf_part.in->was + (shelf_part.at - shelf_part.in->page));
    for (unsigned row = 0; row < header_before().used_items; row++) {
        const uint16_t *i = items_were + PLYTIMBER_ITEM_NUMBERS * row, *s = shelves_were + PLYTIMBER_SHELF_NUMBERS * i[6];
        if (i[7] == 0 || row == but) continue;
        unsigned on = item(row, 6);
        hold(is_live(row, i[8]) && item(row, 0) == i[0] && item(row, 1) == i[1] && shelf(on, 1) == s[1] && shelf(on, 2) == s[2], "moves another item");
    }
}

static int is_zero(const void *p, size_t bytes) {
    for (size_t k = 0; k < bytes; k++) {
        if (((const uint8_t *)p)[k]) return 0;
    }
    return 1;
}

/* A refusal has zeros beside its number. */
#define ZEROS(told) hold((told).answer == 0 || is_zero((const uint8_t *)&(told) + 4, sizeof(told) - 4), "a refusal tells more than its number")

static plytimber_created do_create(const int32_t n[6]) {
    now = CREATE;
    plytimber_header fresh;
    uint32_t columns, expected = create_answer(n, &fresh, &columns);
    keep();
    plytimber_created told = plytimber_create(TABLES, n[0], n[1], n[2], n[3], n[4], n[5]);
    hold(!VALGRIND_CHECK_MEM_IS_DEFINED(&told, sizeof told), "it tells numbers that nobody wrote");
    if (told.answer == 0) *header() = told.header;
    after(told.answer, expected, (plytimber_verdict){3, 0});
    ZEROS(told);
    hold(told.columns == columns && memcmp(&told.header, &fresh, sizeof fresh) == 0, "another header than that of a fresh atlas");
    return told;
}

static void do_allocate(plytimber_verdict verdict, int32_t width, int32_t height) {
    now = ALLOCATE;
    plytimber_grant expected = verdict.answer ? (plytimber_grant){.answer = 3} : allocate_answer(width, height);
    uint32_t live = verdict.answer ? 0 : live_count(), columns = verdict.answer ? 0 : header()->width / header()->shelf_width;
    keep();
    plytimber_grant told = plytimber_allocate(header(), TABLES, width, height);
    hold(!VALGRIND_CHECK_MEM_IS_DEFINED(&told, sizeof told), "it tells numbers that nobody wrote");
    after(told.answer, expected.answer, verdict);
    ZEROS(told);
    /* As many rows as the C header says to be enough. */
    if (told.answer == 7) hold(shelf_rows() < 2 * (live + 1) + columns || item_rows() < 4 * (live + 1) + columns, "too few rows, where there are enough for one item more");
    if (told.answer) return;
    hold(memcmp(&told, &expected, sizeof told) == 0, "another id or place than document 01's");
    plytimber_header was = header_before();
    rectangle r = {told.x0, told.y0, told.x1, told.y1}, in = rectangle_of(told.row);
    hold(is_live(told.row, told.generation) && memcmp(&r, &in, sizeof r) == 0, "the grant is not what stands in the tables");
    hold(r.x1 - r.x0 >= (uint32_t)width && r.y1 - r.y0 >= (uint32_t)height, "the grant is smaller than asked for");
    hold(header()->occupied == was.occupied + area(r), "occupied does not grow by the area");
    hold(memcmp(&was, header(), 12) == 0, "changes size or options");
    for (unsigned row = 0; row < header()->used_items; row++) {
        if (item(row, 7) == 0 || row == told.row) continue;
        rectangle o = rectangle_of(row);
        hold(o.x1 <= r.x0 || r.x1 <= o.x0 || o.y1 <= r.y0 || r.y1 <= o.y0, "the grant shares a pixel with another");
    }
    hold(live_count() == live + 1, "not one item more is live");
    others_stay(PLYTIMBER_NO_ROW);
}

static void do_release(plytimber_verdict verdict, uint16_t row, uint16_t generation) {
    now = RELEASE;
    int live = verdict.answer == 0 && is_live(row, generation);
    uint32_t gone = live ? area(rectangle_of(row)) : 0, count = verdict.answer ? 0 : live_count();
    keep();
    uint32_t answer = plytimber_release(header(), TABLES, row, generation);
    after(answer, verdict.answer ? 3 : live ? 0 : 8, verdict);
    if (answer) return;
    plytimber_header was = header_before();
    hold(!is_live(row, generation) && live_count() == count - 1, "the item is still live");
    hold(header()->occupied == was.occupied - gone, "occupied does not fall by the area");
    others_stay(row);
    hold(memcmp(&was, header(), 12) == 0, "changes size or options");
}

static void do_clear(plytimber_verdict verdict) {
    now = CLEAR;
    const plytimber_header *h = header();
    uint32_t columns = verdict.rule == 1 ? 0 : h->width / h->shelf_width;
    keep();
    uint32_t answer = plytimber_clear(header(), TABLES);
    after(answer, verdict.rule == 1 || columns > shelf_rows() || columns > item_rows() ? 3 : 0, verdict);
    if (answer) return;
    plytimber_header was = header_before();
    hold(memcmp(&was, h, 12) == 0 && h->used_shelves == columns && h->used_items == columns && h->occupied == 0 && live_count() == 0, "not a fresh atlas");
}

static void do_look_up(plytimber_verdict verdict, uint16_t row, uint16_t generation) {
    now = LOOK_UP;
    int live = verdict.answer == 0 && is_live(row, generation);
    keep();
    plytimber_grant told = plytimber_look_up(*header(), TABLES, row, generation);
    hold(!VALGRIND_CHECK_MEM_IS_DEFINED(&told, sizeof told), "it tells numbers that nobody wrote");
    after(told.answer, verdict.answer ? 3 : live ? 0 : 8, verdict);
    ZEROS(told);
    if (told.answer) return;
    rectangle r = {told.x0, told.y0, told.x1, told.y1}, in = rectangle_of(row);
    hold(told.row == row && told.generation == generation && memcmp(&r, &in, sizeof r) == 0, "tells another item than asked for");
}

static void do_list(plytimber_verdict verdict) {
    now = LIST;
    uint32_t live = verdict.answer ? 0 : live_count();
    /* Mostly as long as the items need, a number more or less; the list stays flush with its guard page. */
    size_t most = list_part.in->bytes / 2, length = below(4) ? 6 * (size_t)live + below(14) : below(40);
    length = length < 7 ? below(7) : length - 7 * below(2);
    list_part = lend(list_part.in, 2 * least(length, most));
    keep();
    plytimber_count told = plytimber_list(*header(), TABLES, at(list_part), numbers(list_part));
    hold(!VALGRIND_CHECK_MEM_IS_DEFINED(&told, sizeof told), "it tells numbers that nobody wrote");
    hold(told.answer || !VALGRIND_CHECK_MEM_IS_DEFINED(list_part.at, 12 * told.count), "it lists numbers that nobody wrote");
    after(told.answer, verdict.answer ? 3 : live > numbers(list_part) / 6 ? 10 : 0, verdict);
    ZEROS(told);
    if (told.answer) return;
    hold(told.count == live && same(&list_part, 12u * live, list_part.bytes), "another count, or numbers past the last record change");
    const uint16_t *record = (uint16_t *)list_part.at;
    uint64_t total = 0;
    for (unsigned row = 0; row < header()->used_items; row++) {
        if (item(row, 7) == 0) continue;
        rectangle r = rectangle_of(row);
        total += area(r);
        hold(record[0] == row && record[1] == item(row, 8) && record[2] == r.x0 && record[3] == r.y0 && record[4] == r.x1 && record[5] == r.y1, "a record is not the next live item");
        record += 6;
    }
    hold(total == header()->occupied, "occupied is not the sum of the areas");
}

static void do_tell(call_kind kind, plytimber_verdict verdict) {
    now = kind;
    const plytimber_header h = *header();
    keep();
    if (kind == SIZE) {
        plytimber_extent told = plytimber_size(h, TABLES);
        after(told.answer, verdict.answer, verdict);
        ZEROS(told);
        hold(told.answer || (told.width == (h.vertical ? h.height : h.width) && told.height == (h.vertical ? h.width : h.height)), "another size");
    } else if (kind == IS_EMPTY) {
        plytimber_vacancy told = plytimber_is_empty(h, TABLES);
        after(told.answer, verdict.answer, verdict);
        ZEROS(told);
        hold(told.answer || told.vacant == (live_count() == 0), "wrong about what is live");
    } else if (kind == AUDIT) {
        plytimber_verdict told = plytimber_audit(h, TABLES);
        after(told.answer, verdict.answer, verdict);
        hold(told.rule == verdict.rule, "another rule");
        rules[told.rule]++;
    } else {
        plytimber_area told = kind == OCCUPIED ? plytimber_occupied(h, TABLES) : plytimber_free_space(h, TABLES);
        after(told.answer, verdict.answer, verdict);
        ZEROS(told);
        hold(told.answer || told.area == (kind == OCCUPIED ? h.occupied : (uint32_t)h.width * h.height - h.occupied), "another area");
    }
}

/* ---- the saved form once more */

enum { BLOCK = 512, WORDS = 256, LONGEST = 512 * (1 + 2115 + 2341) };
static uint8_t image[LONGEST + 2 * BLOCK]; /* the image that is at hand */

static uint16_t word(const uint8_t *block, size_t k) { return (uint16_t)(block[2 * k] | block[2 * k + 1] << 8); }
static void put_word(uint8_t *block, size_t k, uint16_t n) { block[2 * k] = (uint8_t)n, block[2 * k + 1] = (uint8_t)(n >> 8); }

static uint16_t check_of(const uint8_t *block) {
    uint32_t sum = 0;
    for (size_t k = 0; k < WORDS - 1; k++) sum += word(block, k);
    return (uint16_t)(sum % 65535);
}

static void put_check(uint8_t *block) { put_word(block, WORDS - 1, check_of(block)); }

static void put_block(size_t number, unsigned kind, unsigned rows, const uint16_t *numbers, size_t count) {
    uint8_t *block = image + BLOCK * number;
    memset(block, 0, BLOCK);
    put_word(block, 0, (uint16_t)number);
    block[2] = 1, block[3] = (uint8_t)kind;
    put_word(block, 2, (uint16_t)rows);
    for (size_t k = 0; k < count; k++) put_word(block, 3 + k, numbers[k]);
    put_check(block);
}

static size_t put_rows(size_t number, unsigned kind, unsigned most, unsigned width, const uint16_t *numbers, uint32_t used) {
    for (uint32_t row = 0; row < used; row += most, number++) {
        unsigned rows = least(most, used - row);
        put_block(number, kind, rows, numbers + (size_t)width * row, (size_t)width * rows);
    }
    return number;
}

/* The image of the atlas that is lent, and its length. */
static size_t image_of(void) {
    const plytimber_header *h = header();
    const uint16_t first[12] = {h->width, h->height, h->align_width, h->align_height, h->vertical, h->shelf_width, h->used_shelves, h->used_items, h->free_items, h->free_shelves, (uint16_t)h->occupied, (uint16_t)(h->occupied >> 16)};
    put_block(0, 0, 1, first, 12);
    size_t blocks = put_rows(1, 1, 31, PLYTIMBER_SHELF_NUMBERS, (uint16_t *)shelf_part.at, h->used_shelves);
    return BLOCK * put_rows(blocks, 2, 28, PLYTIMBER_ITEM_NUMBERS, (uint16_t *)item_part.at, h->used_items);
}

static int block_right(const uint8_t *block, size_t number, unsigned kind, unsigned rows, size_t numbers) {
    for (size_t k = 3 + numbers; k < WORDS - 1; k++) {
        if (word(block, k)) return 0;
    }
    return word(block, 0) == number && block[2] == 1 && block[3] == kind && word(block, 2) == rows && word(block, WORDS - 1) == check_of(block);
}

/* Blocks of used rows: are they exactly so? Where a table is given, its first rows become those of the blocks. */
static int read_rows(const uint8_t *from, size_t number, unsigned kind, unsigned most, unsigned width, uint32_t used, uint16_t *table) {
    for (uint32_t row = 0; row < used; row += most, number++) {
        unsigned rows = least(most, used - row);
        const uint8_t *block = from + BLOCK * number;
        if (!block_right(block, number, kind, rows, (size_t)width * rows)) return 0;
        for (size_t k = 0; table && k < (size_t)width * rows; k++) table[(size_t)width * row + k] = word(block, 3 + k);
    }
    return 1;
}

/* 9, 7, or 0 where the rows go to the tables, which are yet to be audited; the header that stands in the image. */
static uint32_t image_answer(const uint8_t *from, size_t bytes, plytimber_header *h) {
    if (bytes < BLOCK || !block_right(from, 0, 0, 1, 12)) return 9;
    *h = (plytimber_header){word(from, 3), word(from, 4), word(from, 5), word(from, 6), word(from, 7), word(from, 8), word(from, 9), word(from, 10), word(from, 11), word(from, 12), word(from, 13) | (uint32_t)word(from, 14) << 16};
    size_t second = 1 + (h->used_shelves + 30) / 31;
    if (bytes != PLYTIMBER_IMAGE_BYTES(h->used_shelves, h->used_items)) return 9;
    if (!read_rows(from, 1, 1, 31, PLYTIMBER_SHELF_NUMBERS, h->used_shelves, NULL) || !read_rows(from, second, 2, 28, PLYTIMBER_ITEM_NUMBERS, h->used_items, NULL)) return 9;
    return h->used_shelves > shelf_rows() || h->used_items > item_rows() ? 7 : 0;
}

static int size_class(void) { return (int)(shelf_part.in - shelf_rooms); }

static void do_save(plytimber_verdict verdict) {
    now = SAVE;
    /* As long as it needs, a byte less, or some more; anything where there is no image. */
    size_t length = verdict.answer ? below(3000) : image_of(), most = image_rooms[size_class()].bytes;
    size_t room = below(4) == 0 ? length : below(3) == 0 ? length - (length > 0) : below(4) ? length + below(700) : below(length + 1);
    image_part = lend(&image_rooms[size_class()], room < most ? room : most);
    keep();
    plytimber_saved told = plytimber_save(*header(), TABLES, at(image_part), image_part.bytes);
    hold(!VALGRIND_CHECK_MEM_IS_DEFINED(&told, sizeof told), "it tells numbers that nobody wrote");
    hold(told.answer || told.length > image_part.bytes || !VALGRIND_CHECK_MEM_IS_DEFINED(image_part.at, told.length), "it saves numbers that nobody wrote");
    after(told.answer, verdict.answer ? 3 : length > image_part.bytes ? 10 : 0, verdict);
    ZEROS(told);
    if (told.answer) return;
    hold(told.length == length, "another length");
    hold(memcmp(image_part.at, image, length) == 0, "another image than document 01's");
    hold(same(&image_part, length, image_part.bytes), "bytes past the image change");
}

/* What the tables must be after a call, or were before it. */
static uint16_t other_shelves[LARGE * PAGE / 2], other_items[LARGE * PAGE / 2];

static void swap(uint16_t *other, part p) {
    for (size_t k = 0; k < numbers(p); k++) {
        uint16_t n = other[k];
        other[k] = ((uint16_t *)p.at)[k];
        ((uint16_t *)p.at)[k] = n;
    }
}

/* Load of the first bytes of the image at hand. */
static uint32_t do_load(size_t bytes) {
    now = LOAD;
    image_part = lend(&image_rooms[size_class()], bytes);
    if (bytes) memcpy(image_part.at, image, bytes);
    plytimber_header h, was = *header();
    uint32_t expected = image_answer(image, bytes, &h);
    int copied = expected == 0;
    if (copied) {
        /* The rows go in and are audited by the second reading; then the tables are put back, and this is kept to compare with. */
        memcpy(other_shelves, shelf_part.at, shelf_part.bytes);
        memcpy(other_items, item_part.at, item_part.bytes);
        read_rows(image, 1, 1, 31, PLYTIMBER_SHELF_NUMBERS, h.used_shelves, (uint16_t *)shelf_part.at);
        read_rows(image, 1 + (h.used_shelves + 30) / 31, 2, 28, PLYTIMBER_ITEM_NUMBERS, h.used_items, (uint16_t *)item_part.at);
        *header() = h;
        expected = audit_answer().answer;
        *header() = was;
        swap(other_shelves, shelf_part);
        swap(other_items, item_part);
    }
    keep();
    plytimber_loaded told = plytimber_load(at(image_part), image_part.bytes, TABLES);
    hold(!VALGRIND_CHECK_MEM_IS_DEFINED(&told, sizeof told), "it tells numbers that nobody wrote");
    if (told.answer == 0) *header() = told.header;
    after(told.answer, expected, (plytimber_verdict){3, 0});
    ZEROS(told);
    hold(told.answer || memcmp(&told.header, &h, sizeof h) == 0, "another header than that of the image");
    hold(!copied || (memcmp(other_shelves, shelf_part.at, shelf_part.bytes) == 0 && memcmp(other_items, item_part.at, item_part.bytes) == 0), "the tables are not the image's rows, and past them what was there");
    return told.answer;
}

/* ---- random calls on whatever header and tables are lent */

static int32_t any_side(uint32_t along) {
    switch (below(16)) {
    case 0: return any32();
    case 1: return (int32_t)(along + below(3)) - 1;
    case 2: return (int32_t)below(70000);
    case 3: case 4: return 1 + (int32_t)below(along + 1);
    default: return 1 + (int32_t)below(1 + along / (2 + below(12)));
    }
}

static void fill(part p, unsigned bound) {
    for (size_t k = 0; k < numbers(p); k++) ((uint16_t *)p.at)[k] = below(8) == 0 ? 65535 : bound == 0 ? any16() : (uint16_t)below(bound);
}

/* A row with the generation that stands there, which is live or was; else one that is not. */
static void any_id(uint32_t rows, const uint16_t *items, uint16_t *row, uint16_t *generation) {
    *row = rows && below(12) ? (uint16_t)below(rows) : any16();
    *generation = *row < rows ? items[PLYTIMBER_ITEM_NUMBERS * *row + 8] : any16();
    if (below(16) == 0) *generation = below(2) ? any16() : (uint16_t)(*generation + 1);
}

/* Requests that are made up one after the other, each answered by its single call on a copy, from which the next is made up; then all in one batch. */
static void do_batch(plytimber_verdict verdict) {
    now = BATCH;
    /* Now and then more than can be answered, which are 65535: mostly of an unknown kind, as each is one call more. */
    int longest = size_class() == 0 && verdict.answer == 0 && below(5000) == 0;
    uint32_t asked = longest ? 65530 + (uint32_t)below(10) : (uint32_t)below(below(50) ? 12 : 150), n = least(asked, PLYTIMBER_MOST_ROWS);
    room *list_room = longest ? &list_rooms[2] : list_part.in, *request_room = longest ? &request_rooms[2] : &request_rooms[size_class()];
    uint32_t records = below(4) ? asked + (uint32_t)below(3) : asked - (asked > 0);
    static uint16_t replies[PLYTIMBER_REPLY_NUMBERS * 65540];
    request_part = lend(request_room, 2 * (PLYTIMBER_REQUEST_NUMBERS * (size_t)asked + below(3)));
    fill(request_part, 0);
    plytimber_header h = *header();
    memcpy(other_shelves, shelf_part.at, shelf_part.bytes);
    memcpy(other_items, item_part.at, item_part.bytes);
    for (uint32_t k = 0; k < n; k++) {
        uint16_t *request = (uint16_t *)request_part.at + PLYTIMBER_REQUEST_NUMBERS * k, *reply = replies + PLYTIMBER_REPLY_NUMBERS * k;
        uint64_t kind = longest && below(50) ? 99 : below(20);
        request[0] = kind < 9 ? 1 : kind < 15 ? 2 : kind < 19 ? 3 : below(2) ? 0 : (uint16_t)(4 + below(65532));
        if (request[0] == 1) {
            request[1] = (uint16_t)any_side(h.vertical == 1 ? h.height : h.shelf_width), request[2] = (uint16_t)any_side(h.vertical == 1 ? h.shelf_width : h.height);
        } else {
            any_id(least(h.used_items, item_rows()), other_items, request + 1, request + 2);
        }
        if (verdict.answer) continue;
        plytimber_grant told = {.answer = 11};
        if (request[0] == 1) told = plytimber_allocate(&h, other_shelves, numbers(shelf_part), other_items, numbers(item_part), request[1], request[2]);
        else if (request[0] == 2) told.answer = plytimber_release(&h, other_shelves, numbers(shelf_part), other_items, numbers(item_part), request[1], request[2]);
        else if (request[0] == 3) told = plytimber_look_up(h, other_shelves, numbers(shelf_part), other_items, numbers(item_part), request[1], request[2]);
        const uint32_t all[PLYTIMBER_REPLY_NUMBERS] = {told.answer, told.row, told.generation, told.x0, told.y0, told.x1, told.y1};
        for (int j = 0; j < PLYTIMBER_REPLY_NUMBERS; j++) reply[j] = (uint16_t)all[j];
    }
    room *lists = list_part.in;
    list_part = lend(list_room, 2 * (PLYTIMBER_REPLY_NUMBERS * (size_t)records + below(7)));
    keep();
    const plytimber_header given = *header();
    plytimber_batched told = plytimber_batch(given, TABLES, at(request_part), numbers(request_part), at(list_part), numbers(list_part));
    hold(!VALGRIND_CHECK_MEM_IS_DEFINED(&told, sizeof told), "it tells numbers that nobody wrote");
    hold(told.answer || told.count > n || !VALGRIND_CHECK_MEM_IS_DEFINED(list_part.at, 2 * PLYTIMBER_REPLY_NUMBERS * (size_t)told.count), "it replies numbers that nobody wrote");
    if (told.answer == 0) *header() = told.header;
    after(told.answer, verdict.answer ? 3 : n > numbers(list_part) / PLYTIMBER_REPLY_NUMBERS ? 10 : 0, verdict);
    if (told.answer) {
        hold(told.count == 0 && memcmp(&told.header, &given, sizeof given) == 0, "a refusal tells more than its number and the header that was given");
    } else {
        hold(told.count == n, "another count");
        hold(memcmp(&told.header, &h, sizeof h) == 0, "another header than that of the single calls");
        hold(memcmp(other_shelves, shelf_part.at, shelf_part.bytes) == 0 && memcmp(other_items, item_part.at, item_part.bytes) == 0, "other tables than those of the single calls");
        size_t bytes = 2 * PLYTIMBER_REPLY_NUMBERS * (size_t)n;
        hold(memcmp(replies, list_part.at, bytes) == 0, "another reply than that of the single call");
        hold(same(&list_part, bytes, list_part.bytes), "replies past the last change");
        on_longest += asked > n;
        for (uint32_t k = 0; k < n; k++) replied[replies[PLYTIMBER_REPLY_NUMBERS * k]]++;
    }
    if (list_part.in != lists) list_part = lend(lists, 0);
}

static void any_call(plytimber_verdict verdict) {
    const plytimber_header *h = header();
    uint64_t kind = below(100);
    if (kind < 40) {
        do_allocate(verdict, any_side(h->vertical == 1 ? h->height : h->shelf_width), any_side(h->vertical == 1 ? h->shelf_width : h->height));
    } else if (kind < 74) {
        uint16_t row, generation;
        any_id(least(h->used_items, item_rows()), (uint16_t *)item_part.at, &row, &generation);
        if (kind < 64) do_release(verdict, row, generation);
        else do_look_up(verdict, row, generation);
    } else if (kind < 79) {
        do_list(verdict);
    } else if (kind == 79) {
        if (below(8) == 0 || verdict.answer) do_clear(verdict);
    } else if (kind < 84) {
        do_save(verdict);
    } else if (kind < 90) {
        do_batch(verdict);
    } else {
        do_tell((call_kind)(OCCUPIED + below(5)), verdict);
    }
}

/* One number of header, shelf table or item table, mostly a used one. */
static uint16_t *any_number(void) {
    const plytimber_header *h = header();
    part p = *parts[below(3)];
    if (p.bytes == 0) p = header_part;
    size_t used = p.at == shelf_part.at ? 8u * h->used_shelves : p.at == item_part.at ? 9u * h->used_items : numbers(p), all = numbers(p);
    return (uint16_t *)p.at + below(used == 0 || used > all || below(16) == 0 ? all : used);
}

static void change_one(void) {
    uint16_t *n = any_number(), was = *n;
    switch (below(7)) {
    case 0: *n = (uint16_t)(was + 1); break;
    case 1: *n = (uint16_t)(was - 1); break;
    case 2: *n = any16(); break;
    case 3: *n = 65535; break;
    case 4: *n = *any_number(); break;
    case 5: *n = (uint16_t)below(1u + header()->used_items); break;
    default: *n = was ^ (uint16_t)(1u << below(16));
    }
}

/* Tables of this size class, at times of a length that ends within a row, at times of none. */
static void any_tables(int size) {
    static const unsigned shelf_most[3] = {48, 2000, 65540}, item_most[3] = {120, 8000, 65540};
    size_t s = below(shelf_most[size]), i = below(item_most[size]);
    if (size == 2 && below(2)) s = i = 65530 + below(10);
    lend_tables(size, below(64) ? 8 * s + below(8) : 0, below(64) ? 9 * i + below(9) : 0, 0);
}

static void any_create(int size, int32_t n[6]) {
    static const int32_t sides[] = {40, 200, 1000, 4096, 65535};
    for (int k = 0; k < 6; k++) n[k] = any32();
    if (below(8) == 0) return;
    int32_t side = sides[size == 0 ? below(5) : size == 1 ? 2 + below(2) : 4];
    n[0] = 1 + (int32_t)below((uint64_t)side);
    n[1] = 1 + (int32_t)below((uint64_t)(side > 32768 ? 32768 : side));
    n[2] = below(3) ? 1 : 1 + (int32_t)below(20);
    n[3] = below(3) ? 1 : 1 + (int32_t)below(20);
    n[4] = (int32_t)below(2);
    n[5] = below(2) ? 1 : 1 + (int32_t)below(size == 2 && below(2) ? 65535 : 12);
    if (below(16) == 0) n[below(6)] = any32();
}

static void save(void) {
    for (int k = 0; k < 3; k++) memcpy(parts[k]->in->saved, parts[k]->in->page, parts[k]->in->bytes);
}

static void restore(void) {
    for (int k = 0; k < 3; k++) memcpy(parts[k]->in->page, parts[k]->in->saved, parts[k]->in->bytes);
}

/* ---- images: that of the atlas at hand as it is, and with something wrong in it */

typedef enum { SOUND, BYTE, LENGTH, SWAPPED, DATA, CHECK_BLIND, HEADING, UNUSED, RANDOM, IMAGES } image_kind;
static const char *const image_names[IMAGES] = {"sound", "a byte changed", "cut or longer", "blocks swapped", "a number changed and the check with it", "changed so that the check can't see it: 0 for 65535, or two numbers exchanged", "a block's heading changed and the check with it", "an unused byte and the check with it", "random"};
static uint64_t images[IMAGES][12];

/* Tables to load into: of the rows that are used and no more, one row short, or any that are enough; what is in them is random. */
static uint32_t lend_other(part *p, unsigned width, uint32_t used) {
    size_t most = p->in->bytes / 2, rows = used, kind = below(8);
    if (kind == 0 && used > 0) rows = used - 1;
    else if (kind > 3) rows += below(most / width - used + 1);
    size_t length = rows * width + below(width);
    *p = lend(p->in, 2 * (length < most ? length : most));
    fill(*p, 0);
    return kind == 0 && used > 0;
}

static size_t any_word(size_t blocks) { return WORDS * below(blocks) + below(WORDS - 1); }

/* Something is done to the image at hand; the length that it then has. */
static size_t change_image(image_kind kind, size_t length) {
    size_t blocks = length / BLOCK, a = below(blocks), b = below(blocks), k;
    uint8_t kept[BLOCK];
    switch (kind) {
    case BYTE: image[below(length)] ^= (uint8_t)(1 + below(255)); break;
    case LENGTH:
        for (k = 0; k < BLOCK; k++) image[length + k] = below(2) ? 0 : (uint8_t)below(256);
        switch (below(5)) {
        case 0: return length - 1;
        case 1: return length + 1;
        case 2: return length - BLOCK;
        case 3: return length + BLOCK;
        default: return below(length);
        }
    case SWAPPED:
        memcpy(kept, image + BLOCK * a, BLOCK);
        memcpy(image + BLOCK * a, image + BLOCK * b, BLOCK);
        memcpy(image + BLOCK * b, kept, BLOCK);
        if (a == b) image[BLOCK * a] ^= 1;
        /* At times they get the numbers of their places, so that only their kind or their rows can tell. */
        if (a != b && below(2)) {
            put_word(image + BLOCK * a, 0, (uint16_t)a), put_word(image + BLOCK * b, 0, (uint16_t)b);
            put_check(image + BLOCK * a), put_check(image + BLOCK * b);
        }
        break;
    case DATA:
        for (uint64_t times = 1 + below(2); times > 0; times--) {
            k = any_word(blocks);
            uint8_t *block = image + BLOCK * (k / WORDS);
            /* Mostly in the rows, as the header has the counts. */
            unsigned used = block[3] == 0 ? 12 : word(block, 2) * (block[3] == 1 ? 8u : 9u), which = 3 + (unsigned)below(used ? used : 1);
            put_word(block, which, below(3) ? (uint16_t)(word(block, which) + (below(2) ? 1 : -1)) : below(2) ? any16() : (uint16_t)below(20));
            put_check(block);
        }
        break;
    case CHECK_BLIND:
        if (below(2)) {
            uint8_t *block = image + BLOCK * a;
            size_t first = below(WORDS - 1), second = below(WORDS - 1);
            uint16_t n = word(block, first);
            put_word(block, first, word(block, second)), put_word(block, second, n);
            break;
        }
        for (k = any_word(blocks); word(image, k) != 0 && word(image, k) != 65535; k = any_word(blocks)) {}
        put_word(image, k, (uint16_t)~word(image, k));
        break;
    case HEADING:
        image[BLOCK * a + below(6)] ^= (uint8_t)(1 + below(255));
        put_check(image + BLOCK * a);
        break;
    case UNUSED:
        a = blocks - 1;
        k = 3u + word(image + BLOCK * a, 2) * (image[BLOCK * a + 3] == 1 ? 8u : 9u);
        if (a == 0 || k > WORDS - 2 || below(3) == 0) a = 0, k = 15;
        image[BLOCK * a + 2 * k + below(2 * (WORDS - 1 - k))] = (uint8_t)(1 + below(255));
        put_check(image + BLOCK * a);
        break;
    case RANDOM:
        blocks = below(9);
        for (k = 0; k < BLOCK * (blocks + 1); k++) image[k] = (uint8_t)below(below(2) ? 256 : 3);
        /* At times blocks that are right one by one, under a header of a few rows. */
        for (a = 0; below(3) && a < blocks; a++) {
            for (k = 3; k < WORDS - 1; k++) put_word(image + BLOCK * a, k, k < (a ? 200 : 15) ? (uint16_t)below(below(4) ? 9 : 65536) : 0);
            put_word(image + BLOCK * a, 0, (uint16_t)a);
            image[BLOCK * a + 2] = 1, image[BLOCK * a + 3] = (uint8_t)(a < 2 ? a : 2);
            put_word(image + BLOCK * a, 2, a ? (uint16_t)(1 + below(31)) : 1);
            put_check(image + BLOCK * a);
        }
        if (blocks == 3 && below(2)) {
            /* Its rows are as the header says: what is wrong is for the audit to find. */
            unsigned s = 1 + (unsigned)below(31), i = 1 + (unsigned)below(28);
            uint16_t numbers[WORDS];
            for (k = 0; k < WORDS; k++) numbers[k] = (uint16_t)below(below(4) ? 9 : 65536);
            put_block(1, 1, s, numbers, 8 * s);
            put_block(2, 2, i, numbers, 9 * i);
            uint16_t first[12] = {(uint16_t)(1 + below(300)), (uint16_t)(1 + below(300)), 1, 1, (uint16_t)below(2), 1, (uint16_t)s, (uint16_t)i, any16(), any16(), (uint16_t)below(9), 0};
            put_block(0, 0, 1, first, 12);
            return BLOCK * 3;
        }
        return BLOCK * blocks + (below(4) ? 0 : below(BLOCK));
    default: break;
    }
    return length;
}

/* The image of the atlas at hand, mostly changed, is loaded into other tables. The atlas is put back. */
static void on_image(void) {
    part shelf_whole = shelf_part, item_whole = item_part;
    plytimber_header h = *header();
    save();
    size_t length = image_of();
    image_kind kind = (image_kind)below(IMAGES);
    if (size_class() == 2 && kind == RANDOM) kind = SOUND;
    int few = (int)lend_other(&shelf_part, PLYTIMBER_SHELF_NUMBERS, h.used_shelves) | (int)lend_other(&item_part, PLYTIMBER_ITEM_NUMBERS, h.used_items);
    if (size_class() == 0 && below(4000) == 0) {
        /* Every byte, one after the other. */
        for (size_t k = 0; k < length; k++) {
            uint8_t was = image[k];
            image[k] ^= (uint8_t)(1 + below(255));
            hold(do_load(length) == 9, "a changed byte is not seen");
            images[BYTE][9]++;
            image[k] = was;
        }
        kind = SOUND;
    }
    uint32_t answer = do_load(change_image(kind, length));
    images[kind][answer]++;
    /* What follows from 01 without the second reading. */
    if (kind == SOUND) hold(answer == (few ? 7u : 0u), "a sound image");
    if (kind == BYTE || kind == LENGTH || kind == UNUSED || kind == HEADING) hold(answer == 9, "an image that is not exactly so");
    if (kind == SOUND && answer == 0) {
        /* It saves to the same bytes, which do_save compares, and goes on as an atlas. */
        do_save((plytimber_verdict){0, 0});
        for (uint64_t k = below(4); k > 0; k--) any_call((plytimber_verdict){0, 0});
    }
    shelf_part = shelf_whole;
    item_part = item_whole;
    restore();
}

/* A sound atlas in use; now and then one number is changed, some calls are made on that, and it is put back. */
static void on_sound_tables(int size) {
    any_tables(size);
    fill(header_part, 0);
    fill(shelf_part, 0);
    fill(item_part, 0);
    int32_t n[6];
    any_create(size, n);
    if (do_create(n).answer) return;
    for (uint64_t turns = 1 + below(size == 0 ? 200 : size == 1 ? 600 : 60); turns > 0 && calls < wanted; turns--) {
        any_call((plytimber_verdict){0, 0});
        if (below(6) == 0) {
            save();
            change_one();
            for (uint64_t k = 1 + below(3); k > 0; k--) {
                uint64_t from = calls;
                any_call(audit_answer());
                on_damaged += calls - from;
            }
            restore();
        }
        if (below(24) == 0) {
            /* The same tables, a number or a row too short for what is used: 3, since rows are missing. */
            part *p = below(2) ? &shelf_part : &item_part, whole = *p;
            size_t used = 2 * (p == &shelf_part ? 8u * header()->used_shelves : 9u * header()->used_items), cut = 2 * (1 + below(9));
            if (used > cut) {
                save();
                p->bytes = used - cut;
                p->at = memmove(p->in->page + p->in->bytes - p->bytes, p->at, p->bytes);
                uint64_t from = calls;
                any_call(audit_answer());
                on_short += calls - from;
                *p = whole;
                restore();
            }
        }
        if (below(12) == 0) on_image();
        if (below(24) == 0) {
            save();
            int32_t other[6];
            any_create(size, other);
            do_create(other);
            restore();
        }
    }
}

static void on_random_tables(int size) {
    any_tables(size);
    uint64_t bound = below(3);
    fill(header_part, 0);
    fill(shelf_part, bound == 0 ? 0 : bound == 1 ? 16 : 64);
    fill(item_part, bound == 0 ? 0 : bound == 1 ? 16 : 64);
    if (below(4)) {
        /* A header that keeps rule 1, so that the walks over the tables begin. */
        uint16_t w = (uint16_t)(1 + below(300)), s = (uint16_t)(1 + below(w));
        *header() = (plytimber_header){w, (uint16_t)(1 + below(300)), 1, 1, (uint16_t)below(2), s, (uint16_t)below(1 + shelf_rows()), (uint16_t)below(1 + item_rows()), any16(), any16(), (uint32_t)below(1000)};
    }
    for (int k = 0; k < 6; k++) {
        uint64_t from = calls;
        any_call(audit_answer());
        on_random += calls - from;
    }
    if (below(8) == 0) images[RANDOM][do_load(change_image(RANDOM, BLOCK))]++, on_random++;
}

int main(int count, char **words) {
    if (count != 3) {
        printf("fuzz CALLS SEED\n");
        return 2;
    }
    wanted = strtoull(words[1], NULL, 10);
    seed = strtoull(words[2], NULL, 10);
    state = (seed + 1) * 0x9e3779b97f4a7c15ULL | 1;
    /* A stack of its own, as a fault may have been one of the stack. */
    static uint8_t fault_stack[65536];
    sigaltstack(&(stack_t){.ss_sp = fault_stack, .ss_size = sizeof fault_stack}, NULL);
    struct sigaction action = {.sa_handler = on_fault, .sa_flags = SA_ONSTACK};
    sigaction(SIGSEGV, &action, NULL);
    sigaction(SIGBUS, &action, NULL);
    header_room = open_room(SMALL);
    static const size_t pages[3] = {SMALL, MIDDLE, LARGE};
    for (int k = 0; k < 3; k++) {
        shelf_rooms[k] = open_room(pages[k]);
        item_rooms[k] = open_room(pages[k]);
        list_rooms[k] = open_room(pages[k]);
        image_rooms[k] = open_room(image_pages[k]);
        request_rooms[k] = open_room(pages[k]);
    }
    while (calls < wanted) {
        uint64_t choice = below(20000);
        int size = choice < 30 ? 2 : choice < 150 ? 1 : 0;
        if (below(6)) on_random_tables(size);
        else on_sound_tables(size);
    }
    printf("%llu calls, seed %llu, all as they must be\n", (unsigned long long)calls, (unsigned long long)seed);
    printf("of them %llu on tables with one number changed, %llu on random tables, %llu on tables shorter than the used rows, %llu with a NULL of length 0, %llu on tables of up to 65540 rows, %llu batches of more requests than are answered\n",
           (unsigned long long)on_damaged, (unsigned long long)on_random, (unsigned long long)on_short, (unsigned long long)on_null, (unsigned long long)on_large, (unsigned long long)on_longest);
    printf("%-11s", "answer");
    for (int k = 0; k <= 11; k++) printf("%10d", k);
    printf("\n");
    for (int kind = 0; kind < KINDS; kind++) {
        printf("%-11s", names[kind]);
        for (int k = 0; k <= 11; k++) printf("%10llu", (unsigned long long)counts[kind][k]);
        printf("\n");
    }
    printf("%-11s", "in batches");
    for (int k = 0; k <= 11; k++) printf("%10llu", (unsigned long long)replied[k]);
    printf("\n");
    printf("%10s%10s%10s%10s  images\n", "0", "3", "7", "9");
    for (int kind = 0; kind < IMAGES; kind++) {
        const uint64_t *n = images[kind];
        printf("%10llu%10llu%10llu%10llu  %s\n", (unsigned long long)n[0], (unsigned long long)n[3], (unsigned long long)n[7], (unsigned long long)n[9], image_names[kind]);
    }
    printf("audit, by the first rule that fails: 1: %llu, 2: %llu, 3: %llu, 5 to 7: %llu\n", (unsigned long long)rules[1], (unsigned long long)rules[2], (unsigned long long)rules[3], (unsigned long long)rules[5]);
    return 0;
}
