// The forward of two 4 by 4 blocks of 8 bits: one that is taken, with the largest residual everywhere, and one that is
// refused, as its fifth residual is too large. The output is then as it was.
#include <hoengtila.h>

#include <array>
#include <cstdint>
#include <cstdio>

using Block = std::array<std::int16_t, 16>;

static void print_forward(const Block &residuals) {
    const hoengtila_shape shape = hoengtila_shape_of(4, 4, 1, 1, 8);
    Block coefficients;
    coefficients.fill(-1);
    const hoengtila_answer answer =
        hoengtila_block_forward(shape, residuals.data(), residuals.size(), coefficients.data(), coefficients.size());
    std::printf("number %u, place %u:", unsigned(answer.number), unsigned(answer.place));
    for (int coefficient : coefficients) std::printf(" %d", coefficient);
    std::printf("\n");
}

int main() {
    Block residuals;
    residuals.fill(255);
    print_forward(residuals);
    residuals[4] = 256;
    print_forward(residuals);
}
