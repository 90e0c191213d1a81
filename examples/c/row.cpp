// A row of three blocks in one call, 4 by 4, 8 by 4 and 4 by 4, each with one coefficient of 64. The second has a depth that is
// refused: its stretch of the output stays as it was, and the third is run all the same.
#include <hoengtila.h>

#include <array>
#include <cstddef>
#include <cstdint>
#include <cstdio>

int main() {
    const std::array<hoengtila_shape, 3> shapes = {{
        hoengtila_shape_of(4, 4, 1, 1, 10),
        hoengtila_shape_of(8, 4, 1, 1, 7),
        hoengtila_shape_of(4, 4, 0, 0, 10),
    }};
    std::array<hoengtila_answer, 3> answers;
    std::array<std::int16_t, 16 + 32 + 16> coefficients = {};
    std::array<std::int32_t, 16 + 32 + 16> residuals;
    coefficients[0] = coefficients[16] = coefficients[48] = 64;
    residuals.fill(-1);

    const std::uint32_t number = hoengtila_blocks_inverse(shapes.data(), shapes.size(), answers.data(), coefficients.data(),
                                                          coefficients.size(), residuals.data(), residuals.size());
    if (number != 0) return 1;
    std::size_t place = 0;
    for (std::size_t k = 0; k < shapes.size(); k++) {
        const std::size_t end = place + shapes[k].width * shapes[k].height;
        std::printf("number %u:", unsigned(answers[k].number));
        for (; place < end; place++) std::printf(" %ld", long(residuals[place]));
        std::printf("\n");
    }
}
