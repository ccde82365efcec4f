/*
 * Makes the calls that library.rs writes, and holds each to what the oracle expects of it. This is for the x86-64 archive that is shipped: a
 * machine of another kind builds it with the kit alone, so the C library's headers are not asked for.
 *
 * Standard input is record after record: the count of the bytes that follow, a kind, the kind's numbers, the kind's parts. A count, a kind and
 * a number are 64 bits, little-endian; a float is its bits as a number. A part is memory that the call is handed: the count of its bytes, what
 * they are before the call, what they must be afterwards.
 *
 *   kind          numbers                               parts
 *   0 align       w, h, eps, max_iter, filter, edge     template, input, state, store, work, marks, pose; the code's number and passes
 *   1 estimate    the same                              the same
 *   2 answer      number, theta, tx, ty, w, h           matrix, pins
 *   3 lengths     w, h, edge                            work_len, marks_len, store_len, version
 */
#include "library.c"

long read(int file, void *to, size_t count);
int printf(const char *form, ...);
int memcmp(const void *a, const void *b, size_t count);
void *memcpy(void *to, const void *from, size_t count);
void *memset(void *to, int byte, size_t count);

enum { ALIGN, ESTIMATE, ANSWER, LENGTHS, ROOM = 1 << 20 };

static uint8_t record[ROOM];
static const uint8_t *next = record; /* what of the record is still to be taken */

/* The parts as the call is handed them and as they must be afterwards, each at the same place in both, with filling before and behind it. */
static uint8_t lent[ROOM] __attribute__((aligned(32)));
static uint8_t expected[ROOM];
static size_t used;

/* so many bytes of standard input, unless it ends before */
static int get(void *to, size_t count)
{
    uint8_t *at = to;
    while (count > 0) {
        long n = read(0, at, count);
        if (n <= 0)
            return 0;
        at += n;
        count -= (size_t)n;
    }
    return 1;
}

static uint64_t number(void)
{
    uint64_t n;
    memcpy(&n, next, 8);
    next += 8;
    return n;
}

static float real(void)
{
    uint32_t bits = (uint32_t)number();
    float x;
    memcpy(&x, &bits, 4);
    return x;
}

/* filling, up to a place that is aligned for elements of so many bytes and no further */
static void fill(size_t size)
{
    size_t more = 64 - used % 32 + size;
    memset(lent + used, 0xa5, more);
    memset(expected + used, 0xa5, more);
    used += more;
}

/* the next part, of elements of so many bytes, and how many they are; null if there are none */
static void *part(size_t size, size_t *count)
{
    size_t bytes = number();
    uint8_t *at;
    fill(size);
    at = lent + used;
    memcpy(at, next, bytes);
    memcpy(expected + used, next + bytes, bytes);
    next += 2 * bytes;
    used += bytes;
    *count = bytes / size;
    return bytes > 0 ? at : 0;
}

static void call(uint64_t kind)
{
    struct call c;
    size_t two;
    uint32_t code;
    c.w = number();
    c.h = number();
    c.eps = real();
    c.max_iter = number();
    c.filter = number();
    c.edge = number();
    c.template_ = part(1, &c.template_len);
    c.input = part(1, &c.input_len);
    c.state = part(8, &c.state_len);
    c.store = part(1, &c.store_len);
    c.work = part(4, &c.work_len);
    c.marks = part(8, &c.marks_len);
    c.pose = part(4, &c.pose_len);
    code = kind == ALIGN ? c_align(&c) : c_estimate(&c);
    c_told(code, part(4, &two));
}

static void answer(void)
{
    struct handed a;
    a.number = (uint8_t)number();
    a.theta = real();
    a.tx = real();
    a.ty = real();
    a.w = number();
    a.h = number();
    a.matrix = part(4, &a.matrix_len);
    a.pins = part(2, &a.pins_len);
    c_matrix(&a);
    c_pins(&a);
}

static void lengths(void)
{
    struct call c;
    size_t four;
    c.w = number();
    c.h = number();
    c.edge = number();
    c_lengths(&c, part(8, &four));
}

int main(void)
{
    static const char *const names[] = {"align", "estimate", "matrix or pins", "lengths"};
    size_t count, tried = 0, wrong = 0;
    for (; get(&count, 8); tried++) {
        uint64_t kind = LENGTHS + 1;
        next = record;
        used = 0;
        if (count >= 8 && count <= ROOM / 2 && get(record, count))
            kind = number();
        if (kind <= ESTIMATE)
            call(kind);
        else if (kind == ANSWER)
            answer();
        else if (kind == LENGTHS)
            lengths();
        if (kind > LENGTHS || next != record + count) {
            printf("x86-64: record %zu is none\n", tried);
            return 2;
        }
        fill(1);
        if (memcmp(lent, expected, used) != 0 && wrong++ < 10)
            printf("x86-64: record %zu differs: %s\n", tried, names[kind]);
    }
    printf("x86-64: compared %zu, %zu differences\n", tried, wrong);
    return wrong > 0 || tried == 0;
}
