/* What replay.c and clients.c share: what is printed, an image's points, and a scan by the machine
   of machine.h with its line. */
#include <stdio.h>
#include <stdlib.h>
#include <string.h>
#include "machine.h"

enum { SWITCHES = 32, SLOTS = 512, TIMERS = 64 };
/* where a slot's value comes from or goes to: the switch's position, that it is open or closed,
   that it may be opened or closed, or an input */
enum source { POSITION, OPEN, CLOSED, MAY_OPEN, MAY_CLOSE, INPUT };
struct point { enum source source; int place; char name[80]; };

static octet image[1 << 17];
static struct point points[SLOTS];
static int point_count, switch_count;
static char *ids[SWITCHES];
static size_t id_lengths[SWITCHES];
static int64_t slots[SLOTS];
static struct timer timers[TIMERS];
static octet positions[SWITCHES], may_open[SWITCHES], may_close[SWITCHES];
static char pending[1 << 16], *end = pending;

static void flush(void) { fwrite(pending, 1, (size_t)(end - pending), stdout), end = pending; }
static void put(const char *text, size_t length) { memcpy(end, text, length), end += length; }

static void put_number(uint64_t n) {
    char digits[20];
    int i = 20;
    do digits[--i] = (char)('0' + n % 10); while (n /= 10);
    put(digits + i, (size_t)(20 - i));
}

/* the switches' ids, of which there are as many as words */
static void name_switches(char **words) {
    for (; *words; words++, switch_count++) {
        ids[switch_count] = *words;
        id_lengths[switch_count] = strlen(*words);
    }
}

static struct point bind(const char *name) {
    static const char *const endings[] = {"_POS", "_OPEN", "_CLOSED", "_ENA_OPN", "_ENA_CLS"};
    struct point p = {INPUT, 0, ""};
    for (int k = 0; k < switch_count; k++)
        for (int e = 0; e < 5; e++)
            if (!strncmp(name, ids[k], id_lengths[k]) && !strcmp(name + id_lengths[k], endings[e]))
                p.source = (enum source)e, p.place = k;
    strcpy(p.name, name);
    return p;
}

/* the image's points, variables and timers; its code */
static const octet *read_image(const char *path) {
    FILE *file = fopen(path, "rb");
    if (!file || !fread(image, 1, sizeof image, file)) exit(2);
    const octet *p = image + 5;
    point_count = (int)two(p), p += 2;
    for (int i = 0; i < point_count; i++) {
        char name[80] = "";
        memcpy(name, p + 3, p[2]), p += 3 + p[2];
        points[i] = bind(name);
    }
    int count = (int)two(p);
    p += 2;
    for (int i = 0; i < count; i++, p += 9) slots[point_count + i] = eight(p + 1);
    count = (int)two(p), p += 2;
    for (int i = 0; i < count; i++) timers[i].off_delay = *p++ == 2;
    return p + 2;
}

static void scan_at(const octet *code, uint64_t now) {
    for (int i = 0; i < point_count; i++) {
        octet position = positions[points[i].place];
        if (points[i].source == POSITION) slots[i] = position;
        if (points[i].source == OPEN) slots[i] = position == 1;
        if (points[i].source == CLOSED) slots[i] = position == 2;
    }
    uint32_t steps = scan(code, slots, timers, now);
    for (int i = 0; i < point_count; i++) {
        if (points[i].source == MAY_OPEN) may_open[points[i].place] = (octet)slots[i];
        if (points[i].source == MAY_CLOSE) may_close[points[i].place] = (octet)slots[i];
    }
    put_number(now), put(" scan steps=", 12), put_number(steps);
    for (int k = 0; k < switch_count; k++) {
        char told[3] = {'=', (char)('0' + may_open[k]), (char)('0' + may_close[k])};
        put(" ", 1), put(ids[k], id_lengths[k]), put(told, 3);
    }
    put("\n", 1);
}
