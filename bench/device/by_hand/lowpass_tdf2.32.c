#include <stdint.h>

void lowpass_tdf2_step(int32_t state[2], const int32_t input[1], int32_t output[1]) {
    int64_t u = input[0], first = 1380118403 * u;
    int32_t y = (int32_t)(first >> 36) + state[0];
    state[0] = (int32_t)((1380118368 * u) >> 35) + (int32_t)((1676130396 * (int64_t)y) >> 30) + (state[1] >> 1);
    state[1] = (int32_t)(first >> 35) - (int32_t)((1377291940 * (int64_t)y) >> 30);
    output[0] = y;
}
