/* The fast algorithm written by hand in C++, not proved: a yardstick for `make bench`, and no part of the library. */
#ifndef HANDWRITTEN_H
#define HANDWRITTEN_H

#include <stddef.h>
#include <stdint.h>

#ifdef __cplusplus
extern "C" {
#endif

/* For sound configurations and buffers alone. All return 0, or the refusal: 11, 15, 17, 19, 20, 23 or 28; a step has
   no 19. */
uint32_t hand_predict(const size_t *widths, size_t widths_len, size_t intervals, float lo, float hi, const float *model,
                      const float *inputs, size_t rows, float *first, float *second, float *outputs);
/* gradients: P floats; work: 2N. */
uint32_t hand_train_step(const size_t *widths, size_t widths_len, size_t intervals, float lo, float hi, float *model,
                         const float *inputs, const float *targets, size_t rows, float rate, float *gradients,
                         float *work);
/* gradients: P floats, whatever they hold; work: 2N. */
uint32_t hand_accumulate(const size_t *widths, size_t widths_len, size_t intervals, float lo, float hi,
                         const float *model, const float *inputs, const float *targets, size_t rows, size_t total,
                         float *gradients, float *work);
uint32_t hand_apply(const size_t *widths, size_t widths_len, size_t intervals, float *model, const float *gradients,
                    float rate);

#ifdef __cplusplus
}
#endif

#endif
