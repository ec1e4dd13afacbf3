/* A plain C program that does what `bayctl replay` does with clients, for bench/speed/replay. It
   reads a scenario from standard input, passes over the bay file and the program, takes the octets
   of each `recv` of up to eight associations through TPKT, COTP, session and presentation to a
   request to read or to write variables, finds each variable's name among the rows by halving, and
   prints the same lines. Contacts and scans change the rows, and a write selects or operates a
   switch with enhanced security. It passes over how a client opens its association. What it can't
   read, and what bayctl refuses, ends it; it trusts the image and the rows.
   usage: clients ROWS IMAGE DOMAIN SCAN_AGE TRAVEL SWITCH..
   The rows are lines of a name, and of a value's octets in BER in digits where it has one; stVal, q
   and t stand in this order. */
#include "plain.h"

enum { CLIENTS = 8, ROWS = 4096, VARIABLES = 32, ID = 64 };
enum { GROUP = 70000, TPDU = 8192, AGREED = 65000, OUT = 1 << 18 };
enum { NO_OBJECT = 10 };
enum part { NO_CONTROL, SELECT, OPERATE };
struct slice { const octet *at; size_t length; };
struct name { struct slice domain, item; };
struct row {
    struct slice name;
    int below, beside;
    enum part part;
    octet place, length, value[64];
};
struct client { int open; size_t kept, grouped; octet frame[1 << 17], group[GROUP]; };
/* what a write to SBOw or Oper asks for */
struct choice {
    octet on, category, test, check;
    uint32_t count;
    octet time[8];
    size_t id_length;
    octet id[ID];
};
/* a selection or an execution: its association (0: none), its switch, when it runs out, and what
   was asked for */
struct held { int who, place; uint64_t until; struct choice choice; };
/* where the rows of a switch stand */
struct places {
    int position[2], count, selected, may_open, may_close, select, operate;
    uint64_t timeout;
};

static struct row rows[ROWS];
static int order[ROWS], row_count;
static struct slice domain;
static struct client clients[CLIENTS + 1];
static struct held selected, operating;
static struct places places[SWITCHES];
static uint64_t scanned, scan_age, travel;
static int stale = 1;
static octet out[OUT];
static octet digit_of[256];

static void fail(const char *why) { fprintf(stderr, "%s\n", why), exit(1); }

static void put_digits(const octet *at, size_t length) {
    for (size_t i = 0; i < length; i++) {
        *end++ = "0123456789abcdef"[at[i] >> 4];
        *end++ = "0123456789abcdef"[at[i] & 15];
    }
}

/* BER: the value at the front, and what is left */
static int value(struct slice *rest, unsigned *tag, struct slice *content) {
    const octet *p = rest->at, *stop = p + rest->length;
    if (p == stop) return 1;
    *tag = *p++;
    if ((*tag & 31) == 31) {
        if (p == stop || *p >= 128) return 1;
        *tag = *tag << 8 | *p++;
    }
    if (p == stop) return 1;
    size_t length = *p++;
    if (length >= 0x80) {
        size_t count = length - 0x80;
        if (count == 0 || count > 4 || (size_t)(stop - p) < count) return 1;
        for (length = 0; count; count--) length = length << 8 | *p++;
    }
    if ((size_t)(stop - p) < length) return 1;
    *content = (struct slice){p, length};
    *rest = (struct slice){p + length, (size_t)(stop - p) - length};
    return 0;
}

static int next(struct slice *rest, unsigned wanted, struct slice *content) {
    unsigned tag;
    return value(rest, &tag, content) || tag != wanted;
}

static int only(struct slice octets, unsigned wanted, struct slice *content) {
    return next(&octets, wanted, content) || octets.length;
}

static int integer(struct slice c, int64_t *n) {
    if (c.length == 0 || c.length > 8) return 1;
    uint64_t bits = c.at[0] < 0x80 ? 0 : UINT64_MAX;
    for (size_t i = 0; i < c.length; i++) bits = bits << 8 | c.at[i];
    *n = (int64_t)bits;
    return 0;
}

/* a request: its invoke id, and the names of a read */
static int variable(struct slice c, struct name *name) {
    struct slice inner, pair;
    if (only(c, 0xA0, &inner) || only(inner, 0xA1, &pair)) return 1;
    return next(&pair, 0x1A, &name->domain) || next(&pair, 0x1A, &name->item) || pair.length;
}

static int variables(struct slice list, struct name *names, int *count) {
    struct slice one;
    for (*count = 0; list.length; ++*count)
        if (*count == VARIABLES || next(&list, 0x30, &one) || variable(one, names + *count))
            return 1;
    return 0;
}

static int request(struct slice pdu, int64_t *id, unsigned *service, struct slice *content) {
    struct slice body, number;
    if (only(pdu, 0xA0, &body) || next(&body, 0x02, &number) || integer(number, id)) return 1;
    if (*id < 0 || *id > UINT32_MAX) return 1;
    return value(&body, service, content) || body.length;
}

/* a control's value: on or off, who asks, a count, a moment, whether it is a test, what is to be
   checked */
static int originator(struct slice origin, struct choice *c) {
    struct slice category, id;
    int64_t n;
    if (next(&origin, 0x85, &category) || next(&origin, 0x89, &id) || origin.length) return 1;
    if (integer(category, &n) || n < 0 || n > 8 || id.length > ID) return 1;
    c->category = (octet)n, c->id_length = id.length;
    memcpy(c->id, id.at, id.length);
    return 0;
}

static int choice_of(struct slice *values, struct choice *c) {
    struct slice parts, on, origin, count, time, test, check;
    int64_t n;
    if (next(values, 0xA2, &parts) || next(&parts, 0x83, &on)) return 1;
    if (next(&parts, 0xA2, &origin) || next(&parts, 0x86, &count)) return 1;
    if (next(&parts, 0x91, &time) || next(&parts, 0x83, &test)) return 1;
    if (next(&parts, 0x84, &check) || parts.length) return 1;
    if (on.length != 1 || time.length != 8 || test.length != 1) return 1;
    if (check.length != 2 || check.at[0] != 6) return 1;
    if (integer(count, &n) || n < 0 || n > 255 || originator(origin, c)) return 1;
    c->on = on.at[0] != 0, c->test = test.at[0] != 0;
    c->check = check.at[1] & 0xC0, c->count = (uint32_t)n;
    memcpy(c->time, time.at, 8);
    return 0;
}

/* the PDU in the octets of a session */
static int unwrap(struct slice tsdu, struct slice *pdu) {
    struct slice user, list, id;
    int64_t context;
    if (tsdu.length < 4 || memcmp(tsdu.at, "\1\0\1\0", 4)) return 1;
    if (only((struct slice){tsdu.at + 4, tsdu.length - 4}, 0x61, &user)) return 1;
    if (only(user, 0x30, &list)) return 1;
    return next(&list, 0x02, &id) || integer(id, &context) || context != 3 || only(list, 0xA0, pdu);
}

/* what is written, from the back */
static octet *header(octet *at, octet tag, size_t length) {
    if (length < 0x80) *--at = (octet)length;
    else {
        octet count = 0;
        for (size_t left = length; left; left >>= 8, count++) *--at = (octet)left;
        *--at = 0x80 + count;
    }
    *--at = tag;
    return at;
}

static octet *around(octet *stop, octet *at, octet tag) {
    return header(at, tag, (size_t)(stop - at));
}

static octet *put_text(octet *at, octet tag, const void *text, size_t length) {
    at -= length;
    memcpy(at, text, length);
    return header(at, tag, length);
}

static octet *put_integer(octet *at, octet tag, uint32_t n) {
    octet whole[5] = {0, n >> 24, n >> 16, n >> 8, n};
    size_t start = 0;
    while (start < 4 && whole[start] == 0 && whole[start + 1] < 0x80) start++;
    return put_text(at, tag, whole + start, 5 - start);
}

static octet *put_truth(octet *at, octet truth) {
    return put_text(at, 0x83, (octet[]){truth ? 0xFF : 0}, 1);
}

static octet *put_choice(octet *stop, const struct choice *c) {
    octet *at = put_text(stop, 0x84, (octet[]){6, c->check}, 2);
    at = put_text(put_truth(at, c->test), 0x91, c->time, 8);
    octet *origin = at = put_integer(at, 0x86, c->count);
    at = put_integer(put_text(at, 0x89, c->id, c->id_length), 0x85, c->category);
    return around(stop, put_truth(around(origin, at, 0xA2), c->on), 0xA2);
}

/* a PDU in its presentation and session */
static octet *presented(octet *stop, octet *at) {
    if (stop - at > AGREED) fail("a response that is too long");
    at = around(stop, at, 0xA0) - 3;
    memcpy(at, "\2\1\3", 3);
    at = around(stop, around(stop, at, 0x30), 0x61) - 4;
    memcpy(at, "\1\0\1\0", 4);
    return at;
}

/* the rows */
static int compare(struct slice a, struct slice b) {
    int c = memcmp(a.at, b.at, a.length < b.length ? a.length : b.length);
    return c ? c : (a.length > b.length) - (a.length < b.length);
}

static int by_name(const void *a, const void *b) {
    return compare(rows[*(const int *)a].name, rows[*(const int *)b].name);
}

static int find(struct slice name) {
    int low = 0, high = row_count;
    while (low < high) {
        int middle = (low + high) / 2, c = compare(rows[order[middle]].name, name);
        if (!c) return order[middle];
        if (c < 0) low = middle + 1; else high = middle;
    }
    return -1;
}

static octet *put_value(octet *at, int i) {
    const struct row *row = rows + i;
    if (row->length) {
        at -= row->length;
        memcpy(at, row->value, row->length);
        return at;
    }
    int below[64], count = 0;
    octet *stop = at;
    for (int k = row->below; k >= 0; k = rows[k].beside) below[count++] = k;
    while (count--) at = put_value(at, below[count]);
    return around(stop, at, 0xA2);
}

/* which row a variable is */
static int row_of(const struct name *name) {
    if (name->domain.length != domain.length) return -1;
    return memcmp(name->domain.at, domain.at, domain.length) ? -1 : find(name->item);
}

static octet *put_read(octet *at, const struct name *names, int count) {
    octet *stop = at;
    while (count--) {
        int i = row_of(names + count);
        at = i < 0 ? put_text(at, 0x80, (octet[]){NO_OBJECT}, 1) : put_value(at, i);
    }
    return around(stop, around(stop, at, 0xA1), 0xA4);
}

static octet *put_written(octet *at, int count) {
    octet *stop = at;
    while (count--) at = header(at, 0x81, 0);
    return around(stop, at, 0xA5);
}

/* a line with the frames of a TSDU, which ends where the array does */
static void send(uint64_t now, int who, const octet *at) {
    size_t left = (size_t)(out + OUT - at);
    put_number(now), put(" send ", 6), put_number((uint64_t)who), put(" ", 1);
    while (left) {
        size_t part = left < TPDU - 3 ? left : TPDU - 3, length = part + 7;
        left -= part;
        if (end - pending > 1 << 15) flush();
        put_digits((octet[]){3, 0, length >> 8, length, 2, 0xF0, left ? 0 : 0x80}, 7);
        put_digits(at, part);
        at += part;
    }
    put("\n", 1);
}

/* what a select and an operate are decided by, and what they leave */
static int may_select(int who, int k, const struct choice *c) {
    int is_free = !selected.who || (selected.who == who && selected.place == k);
    return !(operating.who && operating.place == k) && is_free && !c->test;
}

static int may_operate(uint64_t now, int who, int k, const struct choice *c) {
    const struct choice *asked = &selected.choice;
    if (selected.who != who || selected.place != k) return 0;
    if (asked->on != c->on || asked->category != c->category) return 0;
    if (asked->id_length != c->id_length || memcmp(asked->id, c->id, c->id_length)) return 0;
    if (c->test || operating.who) return 0;
    if (positions[k] == 1 + c->on || stale || now - scanned > scan_age) return 0;
    return rows[c->on ? places[k].may_close : places[k].may_open].value[2];
}

static void show_selected(int k, int on) { rows[places[k].selected].value[2] = on ? 0xFF : 0; }

/* a write to one variable: the switch that is commanded, or -1 */
static int take_write(uint64_t now, int who, int i, const struct choice *c) {
    if (i < 0 || !rows[i].part) fail("a write to what is no control");
    int k = rows[i].place;
    if (rows[i].part == SELECT) {
        if (!may_select(who, k, c)) fail("a select that is refused");
        selected = (struct held){who, k, now + places[k].timeout, *c};
        show_selected(k, 1);
        return -1;
    }
    if (!may_operate(now, who, k, c)) fail("an operate that is refused");
    selected.who = 0, show_selected(k, 0);
    operating = (struct held){who, k, now + travel, *c};
    return k;
}

static void put_command(uint64_t now, int k, int on) {
    put_number(now), put(" command ", 9);
    put(ids[k], id_lengths[k]), put(on ? " on\n" : " off\n", on ? 4 : 5);
}

/* the association of an execution is told that it has reached its position */
static void tell_end(uint64_t now) {
    struct slice name = rows[places[operating.place].operate].name;
    octet *stop = out + OUT, *list = around(stop, put_choice(stop, &operating.choice), 0xA0);
    octet *at = put_text(list, 0x1A, name.at, name.length);
    at = around(list, put_text(at, 0x1A, domain.at, domain.length), 0xA1);
    at = around(list, around(list, around(list, at, 0xA0), 0x30), 0xA0);
    at = around(stop, around(stop, at, 0xA0), 0xA3);
    send(now, operating.who, presented(stop, at));
    operating.who = 0;
}

static void answer(uint64_t now, int who, struct slice tsdu) {
    struct name names[VARIABLES];
    struct slice pdu, content, list, values;
    struct choice choice;
    unsigned service;
    int count, commanded = -1;
    int64_t id;
    octet *stop = out + OUT, *at;
    if (tsdu.length && tsdu.at[0] == 13) return;
    if (unwrap(tsdu, &pdu) || request(pdu, &id, &service, &content))
        fail("a TSDU that is no request");
    if (service == 0xA4) {
        if (only(content, 0xA1, &list) || only(list, 0xA0, &list)
                || variables(list, names, &count))
            fail("no read");
        at = put_read(stop, names, count);
    } else {
        if (service != 0xA5 || next(&content, 0xA0, &list) || only(content, 0xA0, &values)
                || variables(list, names, &count))
            fail("no write");
        if (count != 1 || choice_of(&values, &choice) || values.length)
            fail("no write of one control");
        commanded = take_write(now, who, row_of(names), &choice);
        at = put_written(stop, count);
    }
    at = around(stop, put_integer(at, 0x02, (uint32_t)id), 0xA1);
    send(now, who, presented(stop, at));
    if (commanded >= 0) put_command(now, commanded, choice.on);
}

/* a whole frame: its part of a group, which may end with it */
static void take_frame(uint64_t now, int who, const octet *p, size_t length) {
    struct client *c = clients + who;
    if (p[5] == 0xE0) return;
    if (p[4] != 2 || p[5] != 0xF0 || p[6] & 0x7F) fail("a TPDU that is no data");
    struct slice part = {p + 7, length - 7};
    if (c->grouped || !p[6]) {
        if (c->grouped + part.length > GROUP) fail("a group that is too long");
        memcpy(c->group + c->grouped, part.at, part.length);
        c->grouped += part.length;
        part = (struct slice){c->group, c->grouped};
    }
    if (p[6]) c->grouped = 0, answer(now, who, part);
}

static void take_frames(uint64_t now, int who) {
    struct client *c = clients + who;
    octet *p = c->frame;
    while (c->kept >= 4) {
        size_t length = p[2] * 256u + p[3];
        if (p[0] != 3 || length < 7) fail("no TPKT");
        if (c->kept < length) break;
        take_frame(now, who, p, length);
        p += length, c->kept -= length;
    }
    memmove(c->frame, p, c->kept);
}

static void receive(uint64_t now, int who, const char *p, const char *last) {
    struct client *c = clients + who;
    while (p < last) {
        octet *to = c->frame + c->kept;
        const char *stop = last - p > 1 << 16 ? p + (1 << 16) : last;
        for (; p < stop; p += 2) {
            octet high = digit_of[(octet)p[0]], low = digit_of[(octet)p[1]];
            if ((high | low) & 0xF0) fail("no digit");
            *to++ = high << 4 | low;
        }
        c->kept = (size_t)(to - c->frame);
        take_frames(now, who);
    }
}

static const char *number(const char *p, uint64_t *n) {
    if (*p < '0' || *p > '9') fail("no number");
    for (*n = 0; *p >= '0' && *p <= '9'; p++) *n = *n * 10 + (uint64_t)(*p - '0');
    return p;
}

/* the moment of the row behind a value and its quality */
static void stamp(int i, uint64_t now) {
    octet *p = rows[i + 2].value + 2;
    uint64_t seconds = now / 1000, rest = (now % 1000 << 24) / 1000;
    for (int k = 3; k >= 0; k--, seconds >>= 8) p[k] = (octet)seconds;
    for (int k = 6; k >= 4; k--, rest >>= 8) p[k] = (octet)rest;
    p[7] = 0x2A;
}

static void count_up(int i, uint64_t now) {
    int64_t n;
    octet whole[16], *at;
    if (integer((struct slice){rows[i].value + 2, rows[i].length - 2u}, &n)) fail("a count");
    at = put_integer(whole + 16, 0x85, (uint32_t)n + 1);
    rows[i].length = (octet)(whole + 16 - at);
    memcpy(rows[i].value, at, rows[i].length);
    stamp(i, now);
}

static void contact(uint64_t now, const char *id, size_t length, octet position) {
    int k = 0;
    while (k < switch_count && (id_lengths[k] != length || memcmp(ids[k], id, length))) k++;
    if (k == switch_count) fail("a switch");
    octet bits = (octet)(position << 6), quality = position == 3 ? 0x40 : 0;
    octet *old = rows[places[k].position[0]].value;
    int moved = old[3] != bits;
    if (!moved && rows[places[k].position[0] + 1].value[3] == quality) return;
    for (int j = 0; j < 2; j++) {
        int i = places[k].position[j];
        rows[i].value[3] = bits, rows[i + 1].value[3] = quality, stamp(i, now);
    }
    if (moved && (position == 1 || position == 2)) count_up(places[k].count, now);
    positions[k] = position, stale = 1;
    if (operating.who && operating.place == k && position == 1 + operating.choice.on) tell_end(now);
}

static void show(int i, octet truth, uint64_t now) {
    octet *p = rows[i].value + 2, *quality = rows[i + 1].value + 3;
    if (*p == (truth ? 0xFF : 0) && !*quality) return;
    *p = truth ? 0xFF : 0, *quality = 0;
    stamp(i, now);
}

static void scan_bay(const octet *code, uint64_t now) {
    scan_at(code, now);
    for (int k = 0; k < switch_count; k++) {
        show(places[k].may_open, may_open[k], now);
        show(places[k].may_close, may_close[k], now);
    }
    scanned = now, stale = 0;
}

/* what has run out */
static void advance(uint64_t now) {
    if (selected.who && now >= selected.until) selected.who = 0, show_selected(selected.place, 0);
    if (operating.who && now >= operating.until) fail("an operate that misses its end");
}

static void line(const octet *code, const char *p, const char *last) {
    static uint64_t before;
    uint64_t now, who;
    p = number(p, &now);
    if (now < before) fail("a moment that goes back");
    before = now;
    advance(now);
    if (!strncmp(p, " contact ", 9))
        return contact(now, p + 9, (size_t)(last - 2 - (p + 9)), (octet)(last[-1] - '0'));
    if (!strncmp(p, " scan\n", 6)) return scan_bay(code, now);
    int opens = !strncmp(p, " open ", 6);
    if (!opens && strncmp(p, " recv ", 6)) fail("a verb");
    p = number(p + 6, &who);
    if (who < 1 || who > CLIENTS || clients[who].open == opens) fail("an association");
    clients[who].open = 1;
    if (!opens && (*p != ' ' || (last - p) % 2 == 0)) fail("digits");
    if (!opens) receive(now, (int)who, p + 1, last);
}

static void digits_of(void) {
    memset(digit_of, 0xFF, sizeof digit_of);
    for (octet i = 0; i < 16; i++) {
        digit_of[(octet)"0123456789abcdef"[i]] = i;
        digit_of[(octet)"0123456789ABCDEF"[i]] = i;
    }
}

static char *text_of(FILE *file, size_t *length) {
    size_t room = 1 << 24, got;
    char *text = malloc(room + 1);
    if (!file || !text) fail("no file");
    for (*length = 0; (got = fread(text + *length, 1, room - *length, file)) > 0;) *length += got;
    text[*length] = 0;
    return text;
}

static void read_row(char *at, char *stop) {
    if (row_count == ROWS) fail("too many rows");
    struct row *row = rows + row_count;
    char *blank = memchr(at, ' ', (size_t)(stop - at));
    row->name = (struct slice){(octet *)at, (size_t)((blank ? blank : stop) - at)};
    row->below = row->beside = -1;
    for (char *p = blank; p && p + 1 < stop; p += 2) {
        if (row->length == sizeof row->value) fail("a value that is too long");
        row->value[row->length++] = digit_of[(octet)p[1]] << 4 | digit_of[(octet)p[2]];
    }
    order[row_count] = row_count, row_count++;
}

static void read_rows(const char *path) {
    size_t length;
    char *at = text_of(fopen(path, "rb"), &length);
    for (char *stop; (stop = strchr(at, '\n')); at = stop + 1) read_row(at, stop);
    qsort(order, (size_t)row_count, sizeof *order, by_name);
    for (int i = row_count - 1; i >= 0; i--) {
        size_t cut = rows[i].name.length;
        while (cut && rows[i].name.at[cut - 1] != '$') cut--;
        if (!cut) continue;
        struct row *parent = rows + find((struct slice){rows[i].name.at, cut - 1});
        rows[i].beside = parent->below, parent->below = i;
    }
}

/* the row of a name in which the number of a switch stands */
static int place(const char *form, int k) {
    char name[80];
    int i = find((struct slice){(octet *)name, (size_t)snprintf(name, sizeof name, form, k + 1)});
    if (i < 0) fail(name);
    return i;
}

/* the rows of a switch, which is a breaker with enhanced select */
static void place_rows(int k) {
    int64_t n;
    const struct row *timeout = rows + place("CSWI%d$CF$Pos$sboTimeout", k);
    struct places *p = places + k;
    p->position[0] = place("XCBR%d$ST$Pos$stVal", k);
    p->position[1] = place("CSWI%d$ST$Pos$stVal", k);
    p->count = place("XCBR%d$ST$OpCnt$stVal", k), p->selected = place("CSWI%d$ST$Pos$stSeld", k);
    p->may_open = place("CILO%d$ST$EnaOpn$stVal", k);
    p->may_close = place("CILO%d$ST$EnaCls$stVal", k);
    p->select = place("CSWI%d$CO$Pos$SBOw", k), p->operate = place("CSWI%d$CO$Pos$Oper", k);
    rows[p->select].part = SELECT, rows[p->operate].part = OPERATE;
    rows[p->select].place = rows[p->operate].place = (octet)k;
    if (integer((struct slice){timeout->value + 2, timeout->length - 2u}, &n)) fail("a time");
    p->timeout = (uint64_t)n;
}

int main(int argc, char **argv) {
    if (argc < 7) return 2;
    size_t length;
    digits_of();
    read_rows(argv[1]);
    domain = (struct slice){(octet *)argv[3], strlen(argv[3])};
    number(argv[4], &scan_age), number(argv[5], &travel);
    name_switches(argv + 6);
    for (int k = 0; k < switch_count; k++) place_rows(k);
    const octet *code = read_image(argv[2]);
    char *text = text_of(stdin, &length);
    char *p = strstr(strstr(text, "\n%%\n") + 4, "\n%%\n") + 4;
    for (char *last; p < text + length; p = last + 1) {
        last = strchr(p, '\n');
        line(code, p, last);
        if (end - pending > 1 << 15) flush();
    }
    flush();
    return 0;
}
