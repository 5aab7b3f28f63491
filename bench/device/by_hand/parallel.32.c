#include <stdint.h>

void parallel_step(const int32_t input[2], int32_t output[1]) {
    int32_t product = (int32_t)(((int64_t)input[0] * input[1]) >> 29);
    int32_t sum = (input[0] >> 1) + (input[1] >> 1);
    output[0] = (int32_t)((int64_t)product * (1 << 26) / sum);
}
