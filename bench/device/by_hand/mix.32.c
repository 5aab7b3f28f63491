#include <stdint.h>

void mix_step(const int32_t input[2], int32_t output[1]) {
    int32_t a = (int32_t)((3 * (int64_t)input[0]) >> 4), b = input[1] >> 4;
    output[0] = (a >> 3) + (b >> 2);
}
