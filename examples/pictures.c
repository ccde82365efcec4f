/*
 * pictures [--eps=X] [--max-iter=N] [--filter=N] [--edge=N] PICTURE..: aligns PGM pictures of 8 bits, each with the one before it, and prints a
 * line for each: position, number, passes, dx, dy, turn, theta, tx, ty, rho, and the number in words. Sides may be up to 4,096.
 */
#include <stdio.h>
#include <stdlib.h>
#include <string.h>

#include "quayhollow.h"

struct settings {
    float eps;
    size_t max_iter, filter, edge;
};

struct picture {
    size_t w, h;
    uint8_t *pixels;
};

/* What an aligner keeps and works in. It grows with the frames. */
struct aligner {
    uint64_t state[QUAYHOLLOW_STATE_LEN];
    uint8_t *store;
    uint64_t *marks;
    float *work;
    size_t store_len, work_len, marks_len;
};

static void fail(const char *what, const char *why)
{
    fprintf(stderr, "%s: %s\n", what, why);
    exit(1);
}

/* Room for so many elements of a size; what was held stays. */
static void *grown(void *held, size_t *len, size_t need, size_t size)
{
    if (need <= *len)
        return held;
    void *more = realloc(held, need * size);
    if (more == NULL)
        fail("pictures", "no memory left");
    *len = need;
    return more;
}

/* The next number of a PGM's head, from 1 to most, behind white space and comments. */
static size_t head_number(FILE *f, const char *path, size_t most)
{
    int c = getc(f);
    while (c == '#' || c == ' ' || (c >= '\t' && c <= '\r')) {
        if (c == '#')
            while (c != '\n' && c != '\r' && c != EOF)
                c = getc(f);
        c = getc(f);
    }
    size_t n = 0;
    for (; c >= '0' && c <= '9' && n <= most; c = getc(f))
        n = 10 * n + (size_t)(c - '0');
    ungetc(c, f);
    if (n < 1 || n > most)
        fail(path, "a side is not in 1..4096 or the largest gray not in 1..255");
    return n;
}

/* A binary (P5) or plain (P2) picture. */
static struct picture read_picture(const char *path)
{
    FILE *f = fopen(path, "rb");
    if (f == NULL)
        fail(path, "can't be opened");
    char kind[2] = {0, 0};
    if (fread(kind, 1, 2, f) != 2 || kind[0] != 'P' || (kind[1] != '2' && kind[1] != '5'))
        fail(path, "no PGM picture (P2 or P5)");
    struct picture p;
    p.w = head_number(f, path, QUAYHOLLOW_MOST_SIDE);
    p.h = head_number(f, path, QUAYHOLLOW_MOST_SIDE);
    size_t gray = head_number(f, path, 255), n = p.w * p.h, k = 0;
    getc(f);
    p.pixels = malloc(n);
    if (p.pixels == NULL)
        fail(path, "no memory left");
    if (kind[1] == '5')
        k = fread(p.pixels, 1, n, f);
    for (unsigned v; kind[1] == '2' && k < n && fscanf(f, "%u", &v) == 1 && v <= gray; k++)
        p.pixels[k] = (uint8_t)v;
    if (k < n)
        fail(path, "too few pixels");
    fclose(f);
    return p;
}

/* One of the four settings; else the word is a picture's name. */
static int take_setting(struct settings *s, const char *word)
{
    const char *value = strchr(word, '=');
    if (strncmp(word, "--", 2) != 0)
        return 0;
    if (value == NULL || value[1] < '.' || value[1] > '9')
        fail(word, "a setting is --eps=X, --max-iter=N, --filter=N or --edge=N");
    size_t len = (size_t)(value - word);
    if (len == 5 && strncmp(word, "--eps", len) == 0)
        s->eps = strtof(value + 1, NULL);
    else if (len == 10 && strncmp(word, "--max-iter", len) == 0)
        s->max_iter = strtoul(value + 1, NULL, 10);
    else if (len == 8 && strncmp(word, "--filter", len) == 0)
        s->filter = strtoul(value + 1, NULL, 10);
    else if (len == 6 && strncmp(word, "--edge", len) == 0)
        s->edge = strtoul(value + 1, NULL, 10);
    else
        fail(word, "a setting is --eps=X, --max-iter=N, --filter=N or --edge=N");
    return 1;
}

static void align(struct aligner *a, struct settings s, struct picture p, unsigned position)
{
    size_t n = p.w * p.h;
    float pose[QUAYHOLLOW_POSE_LEN];
    int16_t pins[QUAYHOLLOW_PINS_LEN];
    a->store = grown(a->store, &a->store_len, quayhollow_store_len(p.w, p.h), sizeof *a->store);
    a->work = grown(a->work, &a->work_len, quayhollow_work_len(p.w, p.h, s.edge), sizeof *a->work);
    a->marks = grown(a->marks, &a->marks_len, quayhollow_marks_len(p.w, p.h, s.edge), sizeof *a->marks);
    uint32_t code = quayhollow_estimate(p.pixels, n, p.w, p.h, s.eps, s.max_iter, s.filter, s.edge, a->state, QUAYHOLLOW_STATE_LEN, a->store,
                                        a->store_len, a->work, a->work_len, a->marks, a->marks_len, pose, QUAYHOLLOW_POSE_LEN);
    uint8_t number = QUAYHOLLOW_NUMBER(code);
    quayhollow_pins(number, pose[0], pose[1], pose[2], p.w, p.h, pins, QUAYHOLLOW_PINS_LEN);
    printf("%u %u %u %d %d %d %.6f %.4f %.4f %.6f %s\n", position, number, QUAYHOLLOW_PASSES(code), pins[0], pins[1], pins[2], pose[0], pose[1],
           pose[2], pose[3], quayhollow_words(number));
}

int main(int count, char **words)
{
    struct settings s = {QUAYHOLLOW_EPS, QUAYHOLLOW_MAX_ITER, QUAYHOLLOW_FILTER, QUAYHOLLOW_EDGE};
    struct aligner a = {{0, 0, 0}, NULL, NULL, NULL, 0, 0, 0};
    unsigned position = 0;
    if (quayhollow_version() != QUAYHOLLOW_VERSION)
        fail("pictures", "libquayhollow.a and quayhollow.h do not belong together");
    for (int i = 1; i < count; i++) {
        if (take_setting(&s, words[i]))
            continue;
        struct picture p = read_picture(words[i]);
        align(&a, s, p, ++position);
        free(p.pixels);
    }
    if (position == 0)
        fail("usage", "pictures [--eps=X] [--max-iter=N] [--filter=N] [--edge=N] PICTURE..");
    free(a.store);
    free(a.work);
    free(a.marks);
    return 0;
}
