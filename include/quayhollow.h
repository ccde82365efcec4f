/*
 * quayhollow: the turn and shift under which two frames agree best, for C and C++. Link with libquayhollow.a.
 *
 * Every function takes anything. Numbers may have any value; memory is lent as a pointer and the count of its elements. Each call ends,
 * and what it hands back and leaves in the lent memory is settled for every input.
 *
 * Nothing is allocated and nothing is kept between calls: what is lent stays the caller's. What the caller sees to:
 *   - a pointer leads to as many elements as its count says and is aligned for them, marks for uint64_t; it may be null where the count is 0;
 *   - memory that a call may write overlaps no other memory lent to the same call, and no other call uses it meanwhile;
 *   - floats are rounded to nearest, ties to even, as when a program starts: under another rounding mode other answers come.
 * Calls may run at the same time. Frames that are only read may be shared between them. quayhollow_align and quayhollow_estimate take less
 * than 56 KiB of stack (measured on x86-64). The archive needs memset from outside, and nothing else.
 *
 * At start compare quayhollow_version() with QUAYHOLLOW_VERSION: they differ where archive and header do not belong together.
 *
 * A frame is w * h bytes, row after row, 0 for black. A pose says which point of the input agrees with the point x, y of the template:
 *   cos(theta) * x - sin(theta) * y + tx, sin(theta) * x + cos(theta) * y + ty
 * theta is in radians, tx and ty in pixels of the frames handed in.
 *
 * rho is the correlation of the last warp, up to rounding in -1..1: 1 where the frames agree up to brightness and contrast. After max_iter
 * passes it belongs to the pose before the last update. With max_iter 0 nothing is warped, and it is -1.
 *
 * A pose is the rules' answer, not proof that the frames match: on flat ground it may come of noise or of rounding. Who wants silence there
 * takes a pose only where rho is at least a floor. None is certain: with filter 1 or 3, an edge of at most 256 and sides of 32 or more after
 * resizing, 0.8 let 1 of 256,400 pairs of made noise through; with wider filters, smaller frames or more pixels noise and rounding come close
 * to 1 (docs/NUMBERS.md).
 *
 * quayhollow_align and quayhollow_estimate answer with a code: number + 256 * passes. The numbers:
 *
 *   no.  when                                                                     passes
 *    0   a pose                                                                   warps done
 *    1   a side is 0; a frame's length is not w * h; filter 0 or even             0
 *    2   a side above 4,096                                                       0
 *    3   filter above 31 or max_iter above 1,000                                  0
 *    4   work or marks too short: marks are lent in words of 64, a bit a pixel    0
 *    5   under 16 pixels of the warped input lie inside it                        warps done, as for 6 to 10
 *    6   a frame is flat: its norm is at most 1e-6. Not every flat frame ends so: where its mean is rounded the norm is larger, and then a
 *        flat input ends with 8, a flat template with 5, 9, 10 or a pose
 *    7   never given (proved: 'Number 7' in docs/PROMISES.md)
 *    8   the 3x3 system has no inverse
 *    9   no step: lambda or its divisor is not finite, or the divisor is not above 0
 *   10   the pose was lost: theta not in -2..2, or tx or ty not finite
 *   11   quayhollow_estimate: no previous frame                                   0
 *   12   quayhollow_estimate: the previous frame has other sides                  0
 *   13   quayhollow_estimate: store shorter than w * h                            0
 *
 * With 0 and 5 to 10 the first quayhollow_work_len floats of work are +0 afterwards and the first quayhollow_marks_len words of marks 0,
 * every bit of them; the rest is as it was. With 1 to 4 and 11 to 13 all of work and marks is as it was.
 */
#ifndef QUAYHOLLOW_H
#define QUAYHOLLOW_H

#include <stddef.h>
#include <stdint.h>

#ifdef __cplusplus
extern "C" {
#endif

/* What quayhollow_version() answers where the archive belongs to this header. It goes up with every change of a function's parameters. */
#define QUAYHOLLOW_VERSION 3

/* The numbers. */
#define QUAYHOLLOW_POSE 0
#define QUAYHOLLOW_INVALID_INPUT 1
#define QUAYHOLLOW_SIDE_TOO_LARGE 2
#define QUAYHOLLOW_SETTING_TOO_LARGE 3
#define QUAYHOLLOW_ROOM_TOO_SHORT 4
#define QUAYHOLLOW_FEW_PIXELS 5
#define QUAYHOLLOW_FLAT 6
#define QUAYHOLLOW_RHO_NOT_FINITE 7
#define QUAYHOLLOW_NO_INVERSE 8
#define QUAYHOLLOW_NO_STEP 9
#define QUAYHOLLOW_POSE_LOST 10
#define QUAYHOLLOW_NO_PREVIOUS 11
#define QUAYHOLLOW_OTHER_SIDES 12
#define QUAYHOLLOW_STORE_TOO_SHORT 13

/* The limits. */
#define QUAYHOLLOW_MOST_SIDE 4096
#define QUAYHOLLOW_MOST_FILTER 31
#define QUAYHOLLOW_MOST_PASSES 1000

/* How many elements a pose, a matrix, pins and a state have. */
#define QUAYHOLLOW_POSE_LEN 4
#define QUAYHOLLOW_MATRIX_LEN 9
#define QUAYHOLLOW_PINS_LEN 3
#define QUAYHOLLOW_STATE_LEN 3

/* The settings' defaults. */
#define QUAYHOLLOW_EPS 0.0001f
#define QUAYHOLLOW_MAX_ITER 100
#define QUAYHOLLOW_FILTER 1
#define QUAYHOLLOW_EDGE 350

/* The number and the pass count of a code. */
#define QUAYHOLLOW_NUMBER(code) ((uint8_t)((code) % 256u))
#define QUAYHOLLOW_PASSES(code) ((uint32_t)(code) / 256u)

/* A number in words. */
static inline const char *quayhollow_words(uint8_t number)
{
    switch (number) {
    case QUAYHOLLOW_POSE:
        return "a pose";
    case QUAYHOLLOW_INVALID_INPUT:
        return "a side is 0, a frame has not w * h bytes, or the filter is 0 or even";
    case QUAYHOLLOW_SIDE_TOO_LARGE:
        return "a side is above 4096";
    case QUAYHOLLOW_SETTING_TOO_LARGE:
        return "the filter is above 31 or max_iter above 1000";
    case QUAYHOLLOW_ROOM_TOO_SHORT:
        return "work or marks are too short";
    case QUAYHOLLOW_FEW_PIXELS:
        return "fewer than 16 pixels are left where the frames overlap";
    case QUAYHOLLOW_FLAT:
        return "a frame is flat";
    case QUAYHOLLOW_RHO_NOT_FINITE:
        return "never given (proved)";
    case QUAYHOLLOW_NO_INVERSE:
        return "the input has too little on it to tell its motion";
    case QUAYHOLLOW_NO_STEP:
        return "the frames do not agree, and no step is found";
    case QUAYHOLLOW_POSE_LOST:
        return "the pose went out of range";
    case QUAYHOLLOW_NO_PREVIOUS:
        return "no previous frame";
    case QUAYHOLLOW_OTHER_SIDES:
        return "the previous frame has other sides";
    case QUAYHOLLOW_STORE_TOO_SHORT:
        return "the store is shorter than the frame";
    default:
        return "no such number";
    }
}

/* QUAYHOLLOW_VERSION, of the header that the archive was made with. */
uint32_t quayhollow_version(void);

/*
 * How many floats of work and words of marks frames of w by h need with this edge, and how many bytes of store. With n the number of pixels
 * after resizing these are 12n, n / 64 rounded up, and w * h. 0 for a side that is 0 or above 4,096.
 */
size_t quayhollow_work_len(size_t w, size_t h, size_t edge);
size_t quayhollow_marks_len(size_t w, size_t h, size_t edge);
size_t quayhollow_store_len(size_t w, size_t h);

/*
 * Aligns the input with the template. Answers with a code.
 *   template_, input   two frames of w by h: read
 *   w, h               their sides, 1 to 4,096
 *   eps                the passes stop once rho changes by less; a NaN, zero or negative eps never stops them
 *   max_iter           the most passes, 0 to 1,000
 *   filter             the width of the blur, odd, 1 to 31; 1 for none
 *   edge               where the longer side exceeds it, the frames are first resized: the longer side becomes edge, the other goes in
 *                      proportion, and neither is below 8; 0 for no resizing
 *   work, marks        room to work in: at least quayhollow_work_len floats and quayhollow_marks_len words of 64 bits (marks_len counts
 *                      words). What they hold before plays no part
 *   pose               its first four numbers become theta, tx, ty, rho, or four zeros for a number other than 0; as it was if it has
 *                      fewer than four
 */
uint32_t quayhollow_align(
    const uint8_t *template_,
    size_t template_len,
    const uint8_t *input,
    size_t input_len,
    size_t w,
    size_t h,
    float eps,
    size_t max_iter,
    size_t filter,
    size_t edge,
    float *work,
    size_t work_len,
    uint64_t *marks,
    size_t marks_len,
    float *pose,
    size_t pose_len);

/*
 * The matrix of an answer: number 0 and its pose, or any other number, whose pose plays no part. The first nine numbers of out become
 * [cos -sin tx] [sin cos ty] [0 0 1], row after row. It is the identity for a number other than 0, for a theta, tx or ty that is not finite
 * and for a theta outside -2..2. An out of fewer than nine is as it was.
 */
void quayhollow_matrix(
    uint8_t number,
    float theta,
    float tx,
    float ty,
    float *out,
    size_t out_len);

/*
 * The numbers for the pins of an answer to a frame of w by h pixels, the frame that was handed in: the first three of out become dx, dy and
 * turn. dx and dy say how far the matrix moves the middle of the frame, the point (w - 1) / 2, (h - 1) / 2, in 1/256 pixel; turn is
 * theta * 8192. Each is exact, rounded once to the nearest whole number, half away from zero, and held to -32768..32767. A grip that only
 * turns about the middle gives 0, 0 and its turn. They are 0, 0, 0 for a number other than 0, for a theta, tx or ty that is not finite and
 * for a side that is 0 or above 4,096. A theta outside -2..2 has the identity for its matrix: dx and dy are 0, and turn is held. An out of
 * fewer than three is as it was.
 */
void quayhollow_pins(
    uint8_t number,
    float theta,
    float tx,
    float ty,
    size_t w,
    size_t h,
    int16_t *out,
    size_t out_len);

/*
 * Aligns a frame with the one before it, which is the template. Answers with a code.
 *   state   three numbers that the caller keeps between calls: whether a frame is held (0 for no, any other for yes), its w and its h. Three
 *           zeros make a fresh start
 *   store   holds the previous frame between calls: at least quayhollow_store_len bytes
 * The others are as for quayhollow_align. The sides may be 0 here.
 *
 * A side above 4,096, a frame whose length is not w * h and a short store (2, 1 and 13, tried in this order) leave state and store as they
 * were. After any other answer the frame is the previous one: state is 1, w, h and the store begins with the frame; the rest of both is as it
 * was. In a state of fewer than three numbers nothing is remembered, and it is as it was.
 */
uint32_t quayhollow_estimate(
    const uint8_t *frame,
    size_t frame_len,
    size_t w,
    size_t h,
    float eps,
    size_t max_iter,
    size_t filter,
    size_t edge,
    uint64_t *state,
    size_t state_len,
    uint8_t *store,
    size_t store_len,
    float *work,
    size_t work_len,
    uint64_t *marks,
    size_t marks_len,
    float *pose,
    size_t pose_len);

#ifdef __cplusplus
}
#endif

#endif
