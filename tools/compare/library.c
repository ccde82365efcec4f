/* The library's functions by way of the header, each with what tools/compare/library.rs hands over in one record. */
#include "quayhollow.h"

struct call {
    const uint8_t *template_;
    size_t template_len;
    const uint8_t *input;
    size_t input_len;
    size_t w, h;
    float eps;
    size_t max_iter, filter, edge;
    uint64_t *state;
    size_t state_len;
    uint8_t *store;
    size_t store_len;
    float *work;
    size_t work_len;
    uint64_t *marks;
    size_t marks_len;
    float *pose;
    size_t pose_len;
};

struct handed {
    uint8_t number;
    float theta, tx, ty;
    size_t w, h;
    float *matrix;
    size_t matrix_len;
    int16_t *pins;
    size_t pins_len;
};

uint32_t c_align(const struct call *c)
{
    return quayhollow_align(c->template_, c->template_len, c->input, c->input_len, c->w, c->h, c->eps, c->max_iter, c->filter, c->edge, c->work,
                            c->work_len, c->marks, c->marks_len, c->pose, c->pose_len);
}

uint32_t c_estimate(const struct call *c)
{
    return quayhollow_estimate(c->input, c->input_len, c->w, c->h, c->eps, c->max_iter, c->filter, c->edge, c->state, c->state_len, c->store,
                               c->store_len, c->work, c->work_len, c->marks, c->marks_len, c->pose, c->pose_len);
}

void c_matrix(const struct handed *a)
{
    quayhollow_matrix(a->number, a->theta, a->tx, a->ty, a->matrix, a->matrix_len);
}

void c_pins(const struct handed *a)
{
    quayhollow_pins(a->number, a->theta, a->tx, a->ty, a->w, a->h, a->pins, a->pins_len);
}

void c_lengths(const struct call *c, size_t *out)
{
    out[0] = quayhollow_work_len(c->w, c->h, c->edge);
    out[1] = quayhollow_marks_len(c->w, c->h, c->edge);
    out[2] = quayhollow_store_len(c->w, c->h);
    out[3] = quayhollow_version();
}

void c_told(uint32_t code, uint32_t *out)
{
    out[0] = QUAYHOLLOW_NUMBER(code);
    out[1] = QUAYHOLLOW_PASSES(code);
}

void c_defaults(struct call *c)
{
    c->eps = QUAYHOLLOW_EPS;
    c->max_iter = QUAYHOLLOW_MAX_ITER;
    c->filter = QUAYHOLLOW_FILTER;
    c->edge = QUAYHOLLOW_EDGE;
}
