/*
 * estimator.h - compile times estimated by a small Kolmogorov-Arnold network.
 *
 * For Linux on x86-64. Link with libestimator.a. Results are uniquely
 * determined: the same arguments give the same bits on every machine, but for
 * those of a NaN that kan_accumulate may leave in gradients.
 *
 * Every call describes the network by the same five arguments:
 *
 *   widths, widths_len   nodes of each layer: inputs first, outputs last
 *   intervals            intervals g of the spline grid
 *   lo, hi               the grid's domain
 *
 * From them follow
 *
 *   P   the number of parameters: the sum over neighbouring widths of
 *       in * out * (g + 5); kan_check returns it
 *   W   the largest width, the input width too
 *   N   the sum of the widths
 *
 * A model is P floats. Layer follows layer; in a layer the edges stand output
 * by output, and for each output input by input; an edge is its base weight,
 * its spline weight and g + 3 coefficients.
 *
 * A batch is flat: row follows row, each of the input width (targets and
 * outputs: of the output width). If its length is not a multiple of the width,
 * the last row is short; a short row counts as a row and is refused when its
 * turn comes.
 *
 * Every function returns 0, or the number of the first refusal:
 *
 *    1  fewer than two widths, or a zero width
 *    2  a product of neighbouring widths is 2^64 or more
 *    3  grid intervals g is 0 or above 2^63 - 8
 *    4  the domain does not define a finite, representable uniform grid with
 *       lo below hi
 *    5  one layer's parameter count is 2^64 or more
 *    6  the running total's parameter count is 2^64 or more
 *    7  total above 250,000; carries the total
 *    8  model slice length is not P
 *    9  work slice too short
 *   10  output or map length wrong
 *   11  a parameter not finite
 *   12  row counts differ
 *   13  no rows
 *   14  input row of wrong width
 *   15  input not finite
 *   16  target row of wrong width
 *   17  target not finite
 *   18  more than 16,777,216 target values
 *   19  learning rate not finite or not above 0
 *   20  a node value not finite
 *   21  squared error not finite
 *   22  sum of squared errors not finite
 *   23  an updated parameter not finite
 *   24  image longer than 8,388,608 bytes
 *   25  image version not 1; carries it
 *   26  degree not 3
 *   27  image malformed
 *   28  the stated total of target values is 0 or above 16,777,216
 *   29  NPY header or length malformed
 *   30  NPY file of another type, order or shape
 *   37  no such layer
 *
 * "Configuration" below stands for 1, 2, 3, 4 with the domain [-1, 1], layer by
 * layer 5 and 6, then 7, then 4 with the given domain, in this order.
 * The first 4 refuses g from 67,108,862 on. A domain is refused where an end is
 * not finite, lo is not below hi, or the grid's steps are not finite or do not
 * move its ends.
 *
 * `carried` is always written: what the refusal carries, and 0 where it carries
 * nothing and on success. Any other number returned through a pointer is
 * written on success only, except `done`, which is always written.
 *
 * All memory is in caller-provided buffers. No function allocates, or keeps
 * anything between calls: threads may call at the same time, each with its own
 * buffers to write. What a call only reads (const), they may share.
 *
 * Stack: any call, on any configuration and any numbers, takes at most
 * ESTIMATOR_STACK_BYTES, arguments and return addresses included. No function
 * calls itself. In bytes, summed along the calls inside the archive:
 *   kan_train          2,832
 *   kan_train_step     2,816
 *   kan_accumulate     2,688
 *   kan_predict        2,080
 *   kan_loss           2,016
 *   kan_visits         2,000
 *   kan_npy_read         496
 *   kan_initialise       432
 *   kan_npy_write        432
 *   kan_image_unpack     416
 *   kan_image_write      416
 *   kan_image_read       368
 *   kan_apply            368
 *   kan_check            304
 * So on a fibre of 4 KiB training leaves its caller 1,264 bytes, prediction
 * 2,016. The first call needs no more than later ones: memset and memcpy, all
 * that the archive needs of the C library, are bound when the program is
 * loaded. The functions of estimator.hpp added up to 208 bytes of their own with
 * g++ 12 and clang 14 at -O2, and up to 480 without optimisation.
 * If you put the archive into a shared object, link its callers with
 * -Wl,-z,now: else their own calls of it are bound late, on the fibre.
 *
 * What the caller must ensure, since no function can check it:
 *   - each pointer is valid for its length, counted in elements; null is
 *     accepted with length 0. A pointer to a single number, such as `carried`,
 *     must never be null.
 *   - buffers, and the numbers returned through pointers, do not overlap.
 *   - the thread's floating-point settings are the usual ones during a call:
 *     rounding to nearest; subnormals kept, not flushed to zero (-ffast-math and
 *     many games flush them), else the bits differ; and no floating-point traps:
 *     after feenableexcept a call may end in SIGFPE, since inexact results are
 *     ordinary here, and overflow and invalid operations are how some refusals
 *     are found. estimator.hpp sets all three for each call.
 */
#ifndef ESTIMATOR_H
#define ESTIMATOR_H

#include <stddef.h>
#include <stdint.h>

#if SIZE_MAX != UINT64_MAX
#error "the estimator needs a size_t of 64 bits"
#endif

/* The version of this library. What is installed beside this header takes it from these three lines. */
#define ESTIMATOR_VERSION_MAJOR 0
#define ESTIMATOR_VERSION_MINOR 3
#define ESTIMATOR_VERSION_PATCH 1

/* "0.3.1" */
#define ESTIMATOR_VERSION                                                       \
    ESTIMATOR_TEXT(ESTIMATOR_VERSION_MAJOR)                                     \
    "." ESTIMATOR_TEXT(ESTIMATOR_VERSION_MINOR) "." ESTIMATOR_TEXT(ESTIMATOR_VERSION_PATCH)
/* For #if: 301 for 0.3.1, 10203 for 1.2.3. */
#define ESTIMATOR_VERSION_NUMBER \
    (ESTIMATOR_VERSION_MAJOR * 10000 + ESTIMATOR_VERSION_MINOR * 100 + ESTIMATOR_VERSION_PATCH)
#define ESTIMATOR_TEXT(number) ESTIMATOR_TEXT_OF(number)
#define ESTIMATOR_TEXT_OF(number) #number

/* Bytes of stack that any call takes at most. */
#define ESTIMATOR_STACK_BYTES 3200

#ifdef __cplusplus
extern "C" {
#endif

/*
 * Checks a configuration and returns its number of parameters, P.
 *
 * Refusals: configuration. 7 carries the total.
 * Memory: on success `parameters` holds P; refused, it is unchanged.
 */
uint32_t kan_check(const size_t *widths, size_t widths_len, size_t intervals, float lo, float hi,
                   size_t *parameters, size_t *carried);

/*
 * Fills a model with the starting parameters that belong to a seed.
 *
 * Refusals: configuration, 8. 7 carries the total.
 * Memory: on success all P floats of `model` are written; refused, it is
 * unchanged. What it held before does not matter.
 */
uint32_t kan_initialise(const size_t *widths, size_t widths_len, size_t intervals, float lo, float hi,
                        uint64_t seed, float *model, size_t model_len, size_t *carried);

/*
 * Predicts every row of a batch. `outputs` has rows * output width floats, and
 * the two work slices `first` and `second` at least W each. No rows, with no
 * outputs, is accepted.
 *
 * Refusals: configuration, 8, 9, 10, 11, then row by row 14, 15, 20. 7 carries
 * the total; 14, 15 and 20 carry the row, counted from 0.
 * Memory: on success all of `outputs` is written. Refused at row r, the outputs
 * of rows 0 to r - 1 are written and the rest is unchanged; refused before any
 * row, all is. Past check 9, and after success too, the first W floats of each
 * work slice are +0.0; else they are unchanged. Work beyond W is never touched.
 */
uint32_t kan_predict(const size_t *widths, size_t widths_len, size_t intervals, float lo, float hi,
                     const float *model, size_t model_len, const float *inputs, size_t inputs_len,
                     float *first, size_t first_len, float *second, size_t second_len,
                     float *outputs, size_t outputs_len, size_t *carried);

/*
 * The mean squared error of a batch, over all rows and outputs. The two work
 * slices `first` and `second` have at least W floats each.
 *
 * Refusals: configuration, 8, 9, 11, 12, 13, each input row's 14 and 15, each
 * target row's 16 and 17, 18, then row by row 20 and for each output 21 and 22.
 * 7 carries the total; no row is carried.
 * Memory: on success `loss` holds the error; refused, it is unchanged. Past
 * check 9, and after success too, the first W floats of each work slice are
 * +0.0; else they are unchanged. Work beyond W is never touched.
 */
uint32_t kan_loss(const size_t *widths, size_t widths_len, size_t intervals, float lo, float hi,
                  const float *model, size_t model_len, const float *inputs, size_t inputs_len,
                  const float *targets, size_t targets_len, float *first, size_t first_len,
                  float *second, size_t second_len, float *loss, size_t *carried);

/*
 * One step of gradient descent on the mean squared error of a batch: from each
 * parameter, `rate` times its gradient is subtracted. `gradients` has at least
 * P floats and `work` at least 2N.
 *
 * Refusals: configuration, 8, 9, 11, 12, 13, each input row's 14 and 15, each
 * target row's 16 and 17, 18, 19, then 20 in any row, then 23. 7 carries the
 * total; no row is carried.
 * Memory: on success `model` holds the updated parameters; refused, it is
 * unchanged. Past check 9, and after success too, the first P floats of
 * `gradients` and the first 2N of `work` are +0.0; else they are unchanged.
 * Beyond that neither is ever touched.
 */
uint32_t kan_train_step(const size_t *widths, size_t widths_len, size_t intervals, float lo, float hi,
                        float *model, size_t model_len, const float *inputs, size_t inputs_len,
                        const float *targets, size_t targets_len, float rate,
                        float *gradients, size_t gradients_len, float *work, size_t work_len, size_t *carried);

/*
 * `steps` steps, each as kan_train_step makes it. With 0 steps, all checks up
 * to 19 are made and no step.
 *
 * Refusals: as kan_train_step; 20 and 23 come step by step.
 * Memory: `done` is always written: the steps made, all of them on success and
 * 0 when refused before the first. `model` is as it stands after that many
 * steps: what was learnt before a refused step is kept. `gradients` and `work`
 * as in kan_train_step.
 */
uint32_t kan_train(const size_t *widths, size_t widths_len, size_t intervals, float lo, float hi,
                   float *model, size_t model_len, const float *inputs, size_t inputs_len,
                   const float *targets, size_t targets_len, size_t steps, float rate,
                   float *gradients, size_t gradients_len, float *work, size_t work_len,
                   size_t *done, size_t *carried);

/*
 * Training in two calls, for samples that are gathered in several places and
 * applied in one: kan_accumulate adds a batch's gradients to a lent slice, and
 * kan_apply makes the step. Batches that are accumulated in order on one
 * unchanged model, from gradients all +0.0, each with the number of target
 * values of all of them as `total`, and then applied once, give the model and
 * the answer that kan_train_step gives on the joined batch, bit by bit, if no
 * kan_accumulate was refused. Gradients of which each was gathered from +0.0 and
 * that are then added together do not: a sum of floats depends on its order.
 */

/*
 * Adds the gradients of a batch to `gradients`, row by row in order, as those of
 * a mean squared error over `total` target values: the scale is 2 / total,
 * whatever number of target values this batch has. `gradients` has P floats and
 * `work` at least 2N.
 *
 * Refusals: configuration, 8, 9, 10, 11, 12, 13, each input row's 14 and 15,
 * each target row's 16 and 17, 18, 28, then 20 in any row. 7 carries the total
 * number of parameters; no row is carried. 10 is a length of `gradients` that is
 * not P; 18 is about the target values of this batch, 28 about `total`.
 * Memory: on success `gradients` holds its old numbers with the batch's added to
 * them; refused, it is unchanged, by 20 in the last row too. Nothing is refused
 * for what it holds: -0.0, infinities and NaN are added to like any number. Past
 * check 9, and after success too, the first 2N floats of `work` are +0.0; else
 * they are unchanged. Beyond that it is never touched.
 *
 * Start from +0.0: a slice that has a -0.0 anywhere is added to in full, zeros
 * too, by the plain functions, which are slower, the more so the larger g is.
 * Measured: [1, 1], g 2, 64 rows: 8 times; [3, 6, 1], g 8, 64 rows: 42 times,
 * 72 us on a clean slice and 3,037 us with -0.0; [8, 16, 1], g 256, 16 rows:
 * 1,690 times.
 *
 * Where products or sums overflow, an accepted call leaves infinities and NaN in
 * `gradients`. Which bits a NaN has then is the machine's choice: x86 makes
 * FFC00000, others 7FC00000. They reach no model: kan_apply refuses a gradient
 * that is not finite with 23.
 */
uint32_t kan_accumulate(const size_t *widths, size_t widths_len, size_t intervals, float lo, float hi,
                        const float *model, size_t model_len, const float *inputs, size_t inputs_len,
                        const float *targets, size_t targets_len, size_t total,
                        float *gradients, size_t gradients_len, float *work, size_t work_len, size_t *carried);

/*
 * Subtracts from each parameter `rate` times its gradient. `gradients` has P
 * floats. No work is needed.
 *
 * Refusals: configuration, 8, 10, 11, 19, 23. 7 carries the total number of
 * parameters. 10 is a length of `gradients` that is not P. Not finite gradients
 * are 23, since the parameter would not be finite either.
 * Memory: on success `model` holds the updated parameters; refused, it is
 * unchanged. `gradients` is only read: for the next step, set it to +0.0.
 */
uint32_t kan_apply(const size_t *widths, size_t widths_len, size_t intervals, float lo, float hi,
                   float *model, size_t model_len, const float *gradients, size_t gradients_len,
                   float rate, size_t *carried);

/*
 * The visit map of a batch, one byte for each parameter: a coefficient's is 1
 * when its basis value or its slope is not zero at some number that its edge
 * reads, a weight's when there is any row; else 0. -0.0 is zero, an infinity and
 * a NaN are not; outside the knots value and slope are zero. `map` has P bytes,
 * and the two work slices `first` and `second` at least W floats each. No rows
 * is accepted.
 *
 * What a 0 is worth: two models, all finite, that differ only in coefficients
 * which an accepted call on one of them marks 0 are answered alike, bit by bit,
 * by kan_predict, kan_loss and kan_train_step on the same inputs, refusals too;
 * the step leaves those coefficients alone. kan_train is another matter: its
 * second step may read other numbers in hidden nodes.
 *
 * Refusals: configuration, 8, 9, 10, 11, then row by row 14, 15, 20. 7 carries
 * the total; 14, 15 and 20 carry the row, counted from 0.
 * Memory: on success all of `map` is written; after 14, 15 or 20 it is all 0;
 * after any other refusal it is unchanged. The work slices are left as
 * kan_predict leaves them.
 */
uint32_t kan_visits(const size_t *widths, size_t widths_len, size_t intervals, float lo, float hi,
                    const float *model, size_t model_len, const float *inputs, size_t inputs_len,
                    float *first, size_t first_len, float *second, size_t second_len,
                    uint8_t *map, size_t map_len, size_t *carried);

/*
 * Writes a model's image: little-endian words of four bytes, the P parameters'
 * bits, the widths, then a trailer of eight: the distances from the end to the
 * first parameter and to the first width, the number of widths, g, the bits of
 * lo and hi, the degree 3, the version 1. `image` has
 * 32 + 4 * widths_len + 4 * P bytes. The seed is not in it.
 *
 * Refusals: configuration, 8, 10, 11. 7 carries the total.
 * Memory: on success all of `image` is written; refused, it is unchanged.
 */
uint32_t kan_image_write(const size_t *widths, size_t widths_len, size_t intervals, float lo, float hi,
                         const float *model, size_t model_len, uint8_t *image, size_t image_len, size_t *carried);

/*
 * Checks an image, whatever its bytes, and returns what it holds: g, the domain,
 * how many widths and how many parameters.
 *
 * Refusals: 24, 27 (shorter than 32 bytes), 25, 26, 27 (the widths' distance),
 * configuration, 27 (the length, or the parameters' distance), 11. 7 carries
 * the total, 25 the version.
 * Memory: on success `intervals`, `lo`, `hi`, `widths` and `parameters` are
 * written; refused, they are unchanged.
 */
uint32_t kan_image_read(const uint8_t *image, size_t image_len, size_t *intervals, float *lo, float *hi,
                        size_t *widths, size_t *parameters, size_t *carried);

/*
 * Takes the widths and the parameters out of an image, each bit as it was
 * written. kan_image_read returns how many there are.
 *
 * Refusals: those of kan_image_read, then 10 where `widths_len` or `model_len`
 * is not that number. 7 carries the total, 25 the version.
 * Memory: on success all of `widths` and `model` is written; refused, both are
 * unchanged.
 */
uint32_t kan_image_unpack(const uint8_t *image, size_t image_len, size_t *widths, size_t widths_len,
                          float *model, size_t model_len, size_t *carried);

/*
 * One layer's spline coefficients as a file in NumPy's NPY format: numpy.load
 * makes of it an array of float32 with the shape (outputs, inputs, g + 3), in
 * which [o, i, k] is coefficient k of the edge from input i to output o, and
 * numpy.save writes one of numpy.ascontiguousarray(array, '<f4'). Layers are
 * counted from 0: layer l has widths[l] inputs and widths[l + 1] outputs. Base
 * weights and spline weights are not in the file.
 *
 * A file is the bytes 93 'N' 'U' 'M' 'P' 'Y' 01 00, two bytes that hold the
 * length L of the header, low byte first, L bytes of header, and the
 * coefficients as little-endian words of four bytes.
 */

/*
 * Writes the coefficients of a layer. `file` has
 * 128 + 4 * outputs * inputs * (g + 3) bytes. The header is
 *   {'descr': '<f4', 'fortran_order': False, 'shape': (1, 1, 5), }
 * with the layer's sizes, then spaces, and 0A as byte 127.
 *
 * Refusals: configuration, 8, 37, 10, 11. 7 carries the total.
 * Memory: on success all of `file` is written; refused, it is unchanged.
 */
uint32_t kan_npy_write(const size_t *widths, size_t widths_len, size_t intervals, float lo, float hi,
                       const float *model, size_t model_len, size_t layer, uint8_t *file, size_t file_len,
                       size_t *carried);

/*
 * Takes the coefficients of a layer out of a file, whatever its bytes, each bit
 * as it was written. The header may be another than kan_npy_write's, as long as
 * it is a dictionary of the same kind: the three keys once each in any order,
 * single or double quotes, any spaces between tokens but none before the first,
 * a last comma or none, any number of spaces behind it, and 0A as its last byte.
 * A string holds no backslash and no byte outside 20 to 7E; a size is written in
 * digits without leading zeros.
 *
 * Refusals: configuration, 8, 37, 11 (model), 29 (header), 30 (type, order,
 * shape), 29 (body's length), 11 (the file's numbers). 7 carries the total. All
 * of the model must be finite, what is replaced too.
 * Memory: on success the layer's outputs * inputs * (g + 3) coefficients in
 * `model` are written, and nothing else there: no weights, no other layer.
 * Refused, it is unchanged.
 */
uint32_t kan_npy_read(const size_t *widths, size_t widths_len, size_t intervals, float lo, float hi,
                      float *model, size_t model_len, size_t layer, const uint8_t *file, size_t file_len,
                      size_t *carried);

#ifdef __cplusplus
}
#endif

#endif /* ESTIMATOR_H */
