/* A plain C interpreter of an image's code, without any check: a switch over the opcodes.
   bench/speed/replay runs it beside the proved machine. It runs only code that bayctl has
   verified. */
#include <stdint.h>

typedef unsigned char octet;
enum phase { IDLE, HELD, SINCE };
struct timer { octet off_delay, input, output, phase; uint32_t preset, elapsed; uint64_t start; };

static unsigned two(const octet *p) { return p[0] * 256 + p[1]; }
static uint32_t four(const octet *p) { return (uint32_t)two(p) << 16 | two(p + 2); }
static int64_t eight(const octet *p) { return (int64_t)((uint64_t)four(p) << 32 | four(p + 4)); }

/* a number of a width, of 2, 4 or 8 octets */
static int64_t wrap(octet width, uint64_t z) {
    return width == 2 ? (int16_t)z : width == 3 ? (int32_t)z : (int64_t)z;
}

static void call(struct timer *t, uint64_t now) {
    if (t->off_delay) {
        if (t->input) t->phase = HELD;
        else if (t->phase == HELD) t->phase = SINCE, t->start = now;
    } else {
        if (!t->input) t->phase = IDLE;
        else if (t->phase != SINCE) t->phase = SINCE, t->start = now;
    }
    uint64_t gone = t->phase == SINCE ? now - t->start : 0;
    t->output = t->phase == HELD || (t->phase == SINCE && (gone >= t->preset) == !t->off_delay);
    t->elapsed = gone < t->preset ? gone : t->preset;
}

static uint32_t scan(const octet *code, int64_t *slots, struct timer *timers, uint64_t now) {
    int64_t stack[33], *top = stack, a;
    const octet *p = code;
    uint32_t steps = 0;
    for (;;) {
        steps++;
        switch (*p) {
        case 0x01: return steps;
        case 0x02: *++top = p[1]; p += 2; break;
        case 0x03: *++top = (int16_t)two(p + 1); p += 3; break;
        case 0x04: case 0x05: *++top = (int32_t)four(p + 1); p += 5; break;
        case 0x23: *++top = eight(p + 1); p += 9; break;
        case 0x06: top--; p++; break;
        case 0x07: *++top = slots[two(p + 1)]; p += 3; break;
        case 0x08: slots[two(p + 1)] = *top; p += 3; break;
        case 0x09: if (*top) slots[two(p + 1)] = 1; p += 3; break;
        case 0x0A: if (*top) slots[two(p + 1)] = 0; p += 3; break;
        case 0x0B: *top = !*top; p++; break;
        case 0x0C: a = *top--; *top &= a; p++; break;
        case 0x0D: a = *top--; *top |= a; p++; break;
        case 0x0E: a = *top--; *top ^= a; p++; break;
        case 0x0F: a = *top--; *top = wrap(p[1], (uint64_t)*top + (uint64_t)a); p += 2; break;
        case 0x10: a = *top--; *top = wrap(p[1], (uint64_t)*top - (uint64_t)a); p += 2; break;
        case 0x11: a = *top--; *top = wrap(p[1], (uint64_t)*top * (uint64_t)a); p += 2; break;
        case 0x12:
            a = *top--;
            *top = wrap(p[1], a == -1 ? 0 - (uint64_t)*top : (uint64_t)(*top / a));
            p += 2;
            break;
        case 0x13: a = *top--; *top = a == -1 ? 0 : *top % a; p += 2; break;
        case 0x14: a = *top--; *top = *top > a; p++; break;
        case 0x15: a = *top--; *top = *top >= a; p++; break;
        case 0x16: a = *top--; *top = *top == a; p++; break;
        case 0x17: a = *top--; *top = *top != a; p++; break;
        case 0x18: a = *top--; *top = *top <= a; p++; break;
        case 0x19: a = *top--; *top = *top < a; p++; break;
        case 0x1A: case 0x24: p++; break;
        case 0x1B: p += 3 + two(p + 1); break;
        case 0x1C: p += *top ? 3 + two(p + 1) : 3; break;
        case 0x1D: p += *top ? 3 : 3 + two(p + 1); break;
        case 0x1E: timers[two(p + 1)].input = (octet)*top--; p += 3; break;
        case 0x1F: timers[two(p + 1)].preset = (uint32_t)*top--; p += 3; break;
        case 0x20: call(&timers[two(p + 1)], now); p += 3; break;
        case 0x21: *++top = timers[two(p + 1)].output; p += 3; break;
        case 0x22: *++top = timers[two(p + 1)].elapsed; p += 3; break;
        default: __builtin_unreachable();
        }
    }
}
