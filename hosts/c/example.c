/* An atlas of labels: created, filled, drawn, given back, saved and loaded. Build and run it by hosts/c/run. */
#include "plytimber.h"
#include <stdio.h>

enum { MOST_LABELS = 64, COLUMNS = 2, SHELF_ROWS = 2 * MOST_LABELS + COLUMNS, ITEM_ROWS = 4 * MOST_LABELS + COLUMNS };

static uint16_t shelves[SHELF_ROWS * PLYTIMBER_SHELF_NUMBERS];
static uint16_t items[ITEM_ROWS * PLYTIMBER_ITEM_NUMBERS];
static uint8_t image[PLYTIMBER_IMAGE_BYTES(SHELF_ROWS, ITEM_ROWS)];

/* The two tables, as every call takes them. */
#define TABLES shelves, sizeof shelves / sizeof *shelves, items, sizeof items / sizeof *items

int main(void) {
    plytimber_created made = plytimber_create(TABLES, 1024, 512, 4, 8, 0, COLUMNS);
    if (made.answer != PLYTIMBER_DONE) {
        printf("create is refused: %u\n", made.answer);
        return 1;
    }
    plytimber_header atlas = made.header;
    printf("created: %u columns\n", made.columns);

    static const int32_t labels[][2] = {{120, 30}, {200, 30}, {48, 48}, {300, 60}};
    plytimber_grant last = {0};
    for (size_t k = 0; k < sizeof labels / sizeof *labels; k++) {
        plytimber_grant label = plytimber_allocate(&atlas, TABLES, labels[k][0], labels[k][1]);
        if (label.answer != PLYTIMBER_DONE) {
            printf("label %zu is refused: %u\n", k, label.answer);
            return 1;
        }
        printf("label %zu: id %u,%u at (%u, %u)-(%u, %u)\n", k, label.row, label.generation, label.x0, label.y0, label.x1, label.y1);
        last = label;
    }

    /* Drawing goes over what is live. */
    plytimber_live live[MOST_LABELS];
    plytimber_count listed = plytimber_list(atlas, TABLES, (uint16_t *)live, MOST_LABELS * PLYTIMBER_LIVE_NUMBERS);
    for (uint32_t k = 0; k < listed.count; k++) {
        printf("draw %u,%u: %d x %d\n", live[k].row, live[k].generation, live[k].x1 - live[k].x0, live[k].y1 - live[k].y0);
    }

    uint32_t released = plytimber_release(&atlas, TABLES, last.row, last.generation);
    uint32_t again = plytimber_release(&atlas, TABLES, last.row, last.generation);
    printf("released: %u; once more: %u\n", released, again);
    printf("too wide: %u\n", plytimber_allocate(&atlas, TABLES, 600, 20).answer);
    printf("occupied %u, free %u\n", plytimber_occupied(atlas, TABLES).area, plytimber_free_space(atlas, TABLES).area);

    static const plytimber_request requests[] = {{PLYTIMBER_ALLOCATE, 90, 20}, {PLYTIMBER_RELEASE, 2, 7}, {PLYTIMBER_LOOK_UP, 0, 1}};
    plytimber_reply replies[3];
    plytimber_batched served = plytimber_batch(atlas, TABLES, (const uint16_t *)requests, 3 * PLYTIMBER_REQUEST_NUMBERS, (uint16_t *)replies, 3 * PLYTIMBER_REPLY_NUMBERS);
    atlas = served.header;
    printf("a batch of %u: %u, %u, %u\n", served.count, replies[0].answer, replies[1].answer, replies[2].answer);

    plytimber_saved saved = plytimber_save(atlas, TABLES, image, sizeof image);
    printf("saved: %u bytes\n", saved.length);

    shelves[2] ^= 1; /* a bit flips in the depth of the first shelf */
    plytimber_verdict verdict = plytimber_audit(atlas, TABLES);
    printf("after a flipped bit: allocate answers %u, the audit %u by rule %u\n", plytimber_allocate(&atlas, TABLES, 20, 20).answer, verdict.answer, verdict.rule);

    plytimber_loaded loaded = plytimber_load(image, saved.length, TABLES);
    atlas = loaded.header;
    printf("loaded: %u; occupied %u\n", loaded.answer, plytimber_occupied(atlas, TABLES).area);
    image[600] ^= 1; /* a bit flips in the image */
    printf("after a flipped bit: load answers %u\n", plytimber_load(image, saved.length, TABLES).answer);
    return released == PLYTIMBER_DONE && again == PLYTIMBER_NO_SUCH_ITEM && verdict.answer == PLYTIMBER_AUDIT_FAILS && loaded.answer == PLYTIMBER_DONE ? 0 : 1;
}
