#include <stdint.h>

void lowpass_tdf2_step(int16_t state[2], const int16_t input[1], int16_t output[1]) {
    int32_t u = input[0], first = 21059 * u;
    int32_t y = (first >> 20) + state[0];
    state[0] = (int16_t)((first >> 19) + ((25576 * y) >> 14) + (state[1] >> 1));
    state[1] = (int16_t)((first >> 19) - ((21016 * y) >> 14));
    output[0] = (int16_t)y;
}
