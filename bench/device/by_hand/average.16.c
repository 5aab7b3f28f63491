#include <stdint.h>

void average_step(int16_t state[1], const int16_t input[1], int16_t output[1]) {
    state[0] = (int16_t)((state[0] >> 1) + (input[0] >> 1));
    output[0] = state[0];
}
