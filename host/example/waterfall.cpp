// The same in C++: codes a pyramid, cuts off the end as a link may, asks what is left and decodes that.
//
//   c++ waterfall.cpp $(pkg-config --cflags --libs afshtruni) -o waterfall
#include <afshtruni.h>

#include <array>
#include <cstdint>
#include <cstdio>
#include <cstdlib>
#include <vector>

static_assert(AFS_VERSION_MAJOR == 0 && AFS_VERSION_MINOR >= 1 && AFS_VERSION_PATCH >= 0, "the version that this was written with");

static void fail(const char *call) {
    std::fprintf(stderr, "%s: refused\n", call);
    std::exit(EXIT_FAILURE);
}

int main() {
    constexpr std::size_t width = 4, height = 4, decompositions = 1;
    const std::array<std::int32_t, width * height> pyramid = {{4, -1, 0, 0, 2, 0, 0, -3, 0, 0, 1, 0, 0, 0, 0, 0}};
    std::array<std::uint8_t, AFS_CODE_BOUND(width, height)> record;
    std::array<std::uint32_t, AFS_WORK(width, height)> work;
    std::array<std::uint64_t, AFS_CODED_NUMBERS> coded;
    if (afs_code(pyramid.data(), pyramid.size(), width, height, decompositions, record.data(), record.size(), work.data(), work.size(),
                 coded.data(), coded.size()) != AFS_ACCEPTED)
        fail("code");
    std::printf("coded: %u bytes\n", static_cast<unsigned>(coded[AFS_CODED_LENGTH]));

    const std::size_t arrived = coded[AFS_CODED_LENGTH] - 1;
    std::array<std::uint64_t, AFS_SURVEYED_NUMBERS> told;
    if (afs_survey(record.data(), arrived, told.data(), told.size()) != AFS_ACCEPTED)
        fail("survey");
    const std::size_t columns = told[AFS_SURVEYED_WIDTH], rows = told[AFS_SURVEYED_HEIGHT];
    std::printf("arrived: %u x %u, %u parts, tail %u\n", static_cast<unsigned>(columns), static_cast<unsigned>(rows),
                static_cast<unsigned>(told[AFS_SURVEYED_PARTS]), static_cast<unsigned>(told[AFS_SURVEYED_TAIL]));

    std::vector<std::int32_t> out(columns * rows);
    std::vector<std::uint32_t> room(AFS_WORK(columns, rows));
    std::array<std::uint64_t, AFS_DECODED_NUMBERS> decoded;
    if (afs_decode(record.data(), arrived, out.data(), out.size(), room.data(), room.size(), decoded.data(), decoded.size()) != AFS_ACCEPTED)
        fail("decode");
    std::printf("decoded: level 2 to plane %u, level 1 to plane %u\n", static_cast<unsigned>(decoded[AFS_DECODED_REACHED + 1]),
                static_cast<unsigned>(decoded[AFS_DECODED_REACHED]));
    for (std::size_t i = 0; i < out.size(); i++)
        std::printf("%3d%s", out[i], (i + 1) % columns == 0 ? "\n" : "");
    return EXIT_SUCCESS;
}
