/* A plain C program that does what `bayctl replay` does, for bench/speed/replay. It reads a
   scenario from standard input, passes over the bay file and the program, and replays the trace
   (contacts, inputs and scans) over an image that bayctl compiled, printing the same octets. It
   trusts the image, the bay and the trace.
   usage: replay REPORT IMAGE SWITCH.. */
#include "plain.h"

static void contact(const char *id, size_t length, octet position) {
    for (int k = 0; k < switch_count; k++)
        if (id_lengths[k] == length && !memcmp(ids[k], id, length)) positions[k] = position;
}

static void input(const char *name, size_t length, octet value) {
    for (int i = 0; i < point_count; i++)
        if (points[i].source == INPUT && strlen(points[i].name) == length
                && !memcmp(points[i].name, name, length))
            slots[i] = value;
}

static void line(const octet *code, const char *p, const char *last) {
    uint64_t now = 0;
    while (*p != ' ') now = now * 10 + (uint64_t)(*p++ - '0');
    if (*++p == 's') {
        scan_at(code, now);
        return;
    }
    const char *name = strchr(p, ' ') + 1;
    (*p == 'c' ? contact : input)(name, (size_t)(last - 2 - name), (octet)(last[-1] - '0'));
}

int main(int argc, char **argv) {
    size_t room = 1 << 24, length = 0, got;
    char *text = malloc(room + 1);
    while ((got = fread(text + length, 1, room - length, stdin)) > 0) length += got;
    text[length] = 0;
    if (argc < 3) return 2;
    name_switches(argv + 3);
    const octet *code = read_image(argv[2]);
    char *p = strstr(strstr(text, "\n%%\n") + 4, "\n%%\n") + 4;
    put(argv[1], strlen(argv[1])), put("\n", 1);
    while (p < text + length) {
        char *last = strchr(p, '\n');
        line(code, p, last);
        if (end - pending > (1 << 16) - 4096) flush();
        p = last + 1;
    }
    flush();
    return 0;
}
