#include <stdint.h>

void nearest_step(const int16_t input[1], int16_t output[1]) {
    output[0] = (int16_t)((9830 * input[0] + (1 << 14)) >> 15);
}
