/* Two frames of a pattern, the second shifted: their alignment, its matrix and its pins; then the aligner over four frames. */
#include <stdio.h>

#include "quayhollow.h"

enum { W = 64, H = 48, EDGE = 40, WORK = 12 * 40 * 30, MARKS = (40 * 30 + 63) / 64 };

static uint8_t first[W * H], second[W * H], store[W * H];
static float work[WORK];
static uint64_t marks[MARKS];

/* A number that goes up to 16 and down again, each 32. */
static size_t tent(size_t t)
{
    t %= 32;
    return t < 16 ? t : 32 - t;
}

static void draw(uint8_t *frame, size_t right, size_t down)
{
    for (size_t i = 0; i < W * H; i++)
        frame[i] = (uint8_t)(8 * tent(i % W + right) + 7 * tent(i / W + down));
}

static void tell(const char *what, uint32_t code, const float *pose)
{
    printf("%s: number %u, passes %u, theta %.6f, tx %.6f, ty %.6f, rho %.6f: %s\n", what, QUAYHOLLOW_NUMBER(code), QUAYHOLLOW_PASSES(code),
           pose[0], pose[1], pose[2], pose[3], quayhollow_words(QUAYHOLLOW_NUMBER(code)));
}

int main(void)
{
    float pose[QUAYHOLLOW_POSE_LEN], m[QUAYHOLLOW_MATRIX_LEN];
    int16_t pins[QUAYHOLLOW_PINS_LEN];
    uint64_t state[QUAYHOLLOW_STATE_LEN] = {0, 0, 0};

    if (quayhollow_version() != QUAYHOLLOW_VERSION)
        return 1;
    printf("version %u, work %zu, marks %zu, store %zu\n", quayhollow_version(), quayhollow_work_len(W, H, EDGE),
           quayhollow_marks_len(W, H, EDGE), quayhollow_store_len(W, H));
    draw(first, 0, 0);
    draw(second, 3, 2);

    uint32_t code = quayhollow_align(first, W * H, second, W * H, W, H, QUAYHOLLOW_EPS, QUAYHOLLOW_MAX_ITER, 3, EDGE, work, WORK, marks, MARKS,
                                     pose, QUAYHOLLOW_POSE_LEN);
    tell("align", code, pose);
    quayhollow_matrix(QUAYHOLLOW_NUMBER(code), pose[0], pose[1], pose[2], m, QUAYHOLLOW_MATRIX_LEN);
    printf("matrix: %.6f %.6f %.6f, %.6f %.6f %.6f, %.6f %.6f %.6f\n", m[0], m[1], m[2], m[3], m[4], m[5], m[6], m[7], m[8]);
    quayhollow_pins(QUAYHOLLOW_NUMBER(code), pose[0], pose[1], pose[2], W, H, pins, QUAYHOLLOW_PINS_LEN);
    printf("pins: %d %d %d\n", pins[0], pins[1], pins[2]);

    for (size_t i = 0; i < 4; i++) {
        draw(first, i, 2 * i);
        size_t h = i < 3 ? H : 0;
        code = quayhollow_estimate(first, W * h, W, h, QUAYHOLLOW_EPS, QUAYHOLLOW_MAX_ITER, 3, EDGE, state, QUAYHOLLOW_STATE_LEN, store, W * H,
                                   work, WORK, marks, MARKS, pose, QUAYHOLLOW_POSE_LEN);
        tell("frame", code, pose);
    }
    return 0;
}
