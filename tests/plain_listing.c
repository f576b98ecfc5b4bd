/* The listing in plain C, by document 01: what tests/speed counts ours against. It is a measure and no example, and
 * keeps of a configuration only what a listing needs. Its output is held to ours and to the second program's there. */
#include <setjmp.h>
#include <stdint.h>
#include <stdio.h>
#include <string.h>

enum { OPEN = 1 << 30 };

typedef struct {
    unsigned streams, subframes, other, bits;
    unsigned fixed[16]; /* the bits of a slot of frameLengthType 1, or 0 */
} plan;

typedef struct {
    const uint8_t *bytes;
    unsigned end, window, at, fields;
    jmp_buf refused;
    unsigned number, place;
} reader;

typedef struct {
    unsigned kind, stream, first, width;
} item;

static void refuse(reader *r, unsigned number, unsigned place)
{
    r->number = number;
    r->place = place;
    longjmp(r->refused, 1);
}

static unsigned field(reader *r, unsigned width)
{
    if (r->at + width > r->window)
        refuse(r, 10, r->at);
    if (r->at + width > r->end)
        refuse(r, 3, r->at);
    uint64_t v = 0;
    unsigned first = r->at / 8, last = (r->at + width - 1) / 8;
    for (unsigned i = first; i <= last; i++)
        v = v << 8 | r->bytes[i];
    r->at += width;
    r->fields++;
    return v >> (8 * (last + 1) - r->at) & ((1ull << width) - 1);
}

static void pass(reader *r, uint64_t width)
{
    if (r->at + width > r->end)
        refuse(r, 3, r->at);
    r->at += width;
}

static unsigned value(reader *r)
{
    unsigned v = 0;
    for (unsigned k = field(r, 2) + 1; k > 0; k--)
        v = v << 8 | field(r, 8);
    return v;
}

static unsigned object_type(reader *r)
{
    unsigned t = field(r, 5);
    return t == 31 ? 32 + field(r, 6) : t;
}

static void frequency(reader *r)
{
    unsigned i = field(r, 4);
    if (i == 13 || i == 14)
        refuse(r, 9, r->at - 4);
    if (i == 15 && field(r, 24) == 0)
        refuse(r, 9, r->at - 24);
}

static void core_type(reader *r, unsigned place, unsigned t)
{
    if (t < 1 || t > 4)
        refuse(r, 8, place);
}

static void tail(reader *r)
{
    if (r->window - r->at < 16 || field(r, 11) != 0x2B7)
        return;
    unsigned place = r->at, t = object_type(r);
    if (t == 22)
        refuse(r, 8, place);
    if (t != 5 || field(r, 1) == 0)
        return;
    frequency(r);
    if (r->window - r->at >= 12 && field(r, 11) == 0x548)
        field(r, 1);
}

static void audio_specific_config(reader *r, unsigned version)
{
    unsigned place = r->at, t = object_type(r), front = t == 5 || t == 29;
    if (!front)
        core_type(r, place, t);
    frequency(r);
    unsigned channels = field(r, 4);
    if (channels == 0 || channels > 7)
        refuse(r, 11, r->at - 4);
    if (front) {
        frequency(r);
        place = r->at;
        core_type(r, place, object_type(r));
    }
    field(r, 1);
    for (int i = 0; i < 2; i++)
        if (field(r, 1) == 1)
            refuse(r, 12, r->at - 1);
    if (version == 1 && !front)
        tail(r);
}

static void layer(reader *r, plan *p, unsigned version)
{
    if (p->streams == 0 || field(r, 1) == 0) {
        if (version == 1) {
            unsigned length = value(r);
            r->window = length < OPEN - r->at ? r->at + length : OPEN;
            audio_specific_config(r, version);
            unsigned fill = r->window - r->at;
            r->window = OPEN;
            pass(r, fill);
        } else
            audio_specific_config(r, version);
    }
    unsigned type = field(r, 3);
    if (type > 1)
        refuse(r, 13, r->at - 3);
    unsigned length = field(r, 8 + type);
    p->fixed[p->streams++] = type == 1 ? 8 * (length + 20) : 0;
}

static unsigned groups(reader *r)
{
    unsigned v = 0;
    for (int i = 0;; i++) {
        unsigned more = field(r, 1);
        if (i == 3 && more)
            refuse(r, 14, r->at - 1);
        v = v << 8 | field(r, 8);
        if (!more)
            return v;
    }
}

static void stream_mux_config(reader *r, plan *p)
{
    unsigned version = field(r, 1);
    if (version == 1) {
        if (field(r, 1) == 1)
            refuse(r, 5, r->at - 1);
        value(r);
    }
    if (field(r, 1) == 0)
        refuse(r, 6, r->at - 1);
    p->subframes = field(r, 6) + 1;
    unsigned programs = field(r, 4) + 1;
    p->streams = 0;
    for (unsigned i = 0; i < programs; i++) {
        unsigned layers = field(r, 3) + 1;
        if (p->streams + layers > 16)
            refuse(r, 7, r->at - 3);
        for (unsigned l = 0; l < layers; l++)
            layer(r, p, version);
    }
    p->other = field(r, 1);
    p->bits = p->other ? version == 1 ? value(r) : groups(r) : 0;
    if (field(r, 1))
        field(r, 8);
}

static unsigned slot(reader *r)
{
    unsigned v = 0, b;
    do
        v += b = field(r, 8);
    while (b == 255);
    return 8 * v;
}

static item *put(item *to, unsigned kind, unsigned stream, unsigned first, unsigned end)
{
    *to = (item){kind, stream, first, end - first};
    return to + 1;
}

/* The items of an element; none where it is refused. */
static unsigned element(reader *r, plan *held, int *present, item *items)
{
    if (setjmp(r->refused))
        return 0;
    plan sent;
    const plan *p = held;
    item *to = items;
    if (field(r, 1) == 0) {
        stream_mux_config(r, &sent);
        p = &sent;
        to = put(put(to, 1, 0, 0, 1), 2, 0, 1, r->at);
    } else {
        if (!*present)
            refuse(r, 4, 0);
        to = put(to, 1, 0, 0, 1);
    }
    for (unsigned s = 0; s < p->subframes; s++) {
        unsigned widths[16], first = r->at;
        for (unsigned i = 0; i < p->streams; i++)
            widths[i] = p->fixed[i] ? p->fixed[i] : slot(r);
        to = put(to, 3, 0, first, r->at);
        for (unsigned i = 0; i < p->streams; i++) {
            first = r->at;
            pass(r, widths[i]);
            to = put(to, 4, i, first, r->at);
        }
    }
    unsigned first = r->at;
    if (p->other) {
        pass(r, p->bits);
        to = put(to, 5, 0, first, r->at);
    }
    first = r->at;
    r->at = (r->at + 7) / 8 * 8;
    to = put(to, 6, 0, first, r->at);
    if (r->at < r->end)
        refuse(r, 15, r->at);
    if (p == &sent) {
        *held = sent;
        *present = 1;
    }
    return to - items;
}

static char out[65536];
static unsigned used;

static void flush(void)
{
    fwrite(out, 1, used, stdout);
    used = 0;
}

static void digits(char *to, unsigned width, unsigned n)
{
    while (width-- > 0) {
        to[width] = '0' + n % 10;
        n /= 10;
    }
}

static void line(unsigned number, char letter, unsigned stream, unsigned first, unsigned width)
{
    if (used + 24 > sizeof out)
        flush();
    char *to = out + used;
    digits(to, 6, number);
    digits(to + 9, 2, stream);
    digits(to + 12, 5, first);
    digits(to + 18, 5, width);
    to[6] = to[8] = to[11] = to[17] = ' ';
    to[7] = letter;
    to[23] = '\n';
    used += 24;
}

static int starts(const uint8_t *s)
{
    return s[0] == 0x56 && s[1] >> 5 == 7;
}

static uint8_t capture[65536];
static item items[1092];

int main(void)
{
    size_t n = fread(capture, 1, sizeof capture, stdin);
    plan held;
    int present = 0;
    unsigned number = 0;
    for (size_t p = 0; p + 3 < n;) {
        size_t size = (capture[p + 1] & 31) << 8 | capture[p + 2], end = p + 3 + size;
        if (!starts(capture + p) || size == 0 || end > n || (end < n && (end + 1 == n || !starts(capture + end)))) {
            p++;
            continue;
        }
        reader r = {.bytes = capture + p + 3, .end = 8 * size, .window = OPEN};
        unsigned count = element(&r, &held, &present, items);
        for (unsigned i = 0; i < count; i++)
            line(number, " UCLPOA"[items[i].kind], items[i].stream, items[i].first, items[i].width);
        if (count == 0)
            line(number, 'X', r.number, r.place, r.fields);
        number++;
        p = end;
    }
    flush();
}
