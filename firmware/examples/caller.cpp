// A C++ caller: the fit of a lap file, and of points, over vectors. A refusal becomes an exception.
//     caller TOLERANCE < recorded.laps > fitted.laps
#include <cstdlib>
#include <iostream>
#include <iterator>
#include <stdexcept>
#include <string>
#include <vector>
#include <pizhgarol.h>

namespace pizhgarol {

struct refused : std::runtime_error {
    std::uint32_t number;
    explicit refused(std::uint32_t n) : std::runtime_error("refused, " + std::to_string(n)), number(n) {}
};

inline void accept(std::uint32_t answer)
{
    if (answer != PZ_DONE) {
        throw refused(answer);
    }
}

struct commands {
    std::vector<std::uint8_t> kinds;
    std::vector<double> numbers; // nine of each
    std::vector<std::uint32_t> worst; // of an Arc the point at which its worst step starts
};

// An empty vector may have no pointer, which the header allows.
inline std::vector<std::uint8_t> fit_file(const std::vector<std::uint8_t> &recorded, double tolerance)
{
    std::vector<std::uint8_t> out(PZ_MOST_OUTPUT_BYTES);
    std::size_t count = 0;
    accept(pz_fit_file(recorded.data(), recorded.size(), tolerance, out.data(), out.size(), &count));
    out.resize(count);
    return out;
}

// Points as x, y, z, x, y, z: n points give at most n - 1 commands.
inline commands fit_points(const std::vector<double> &points, double tolerance)
{
    const std::size_t most = points.size() < 3 ? 0 : points.size() / 3 - 1;
    commands out{std::vector<std::uint8_t>(most), std::vector<double>(PZ_COMMAND_NUMBERS * most), std::vector<std::uint32_t>(most)};
    std::size_t count = 0, ranges = 0;
    accept(pz_fit_points_with_primitives(points.data(), points.size(), tolerance, out.kinds.data(), out.kinds.size(),
        out.numbers.data(), out.numbers.size(), out.worst.data(), out.worst.size(), &count, &ranges));
    out.kinds.resize(count);
    out.numbers.resize(PZ_COMMAND_NUMBERS * count);
    out.worst.resize(count);
    return out;
}

} // namespace pizhgarol

// (3,4), (4,3), (5,0) are one Arc at 0.3 metres; no points are no command; eight numbers are not whole points.
static bool points_are_fitted()
{
    const std::vector<double> bend{3, 4, 0, 4, 3, 0, 5, 0, 0};
    const pizhgarol::commands fit = pizhgarol::fit_points(bend, 0.3);
    if (fit.kinds != std::vector<std::uint8_t>{PZ_ARC} || fit.worst != std::vector<std::uint32_t>{1} || !pizhgarol::fit_points({}, 0.3).kinds.empty()) {
        return false;
    }
    try {
        pizhgarol::fit_points(std::vector<double>(8), 0.3);
    } catch (const pizhgarol::refused &r) {
        return r.number == PZ_NOT_WHOLE;
    }
    return false;
}

int main(int words, char **word)
{
    if (words != 2 || !points_are_fitted()) {
        return 2;
    }
    const std::vector<std::uint8_t> recorded{std::istreambuf_iterator<char>(std::cin), std::istreambuf_iterator<char>()};
    try {
        const std::vector<std::uint8_t> fitted = pizhgarol::fit_file(recorded, std::strtod(word[1], nullptr));
        std::cout.write(reinterpret_cast<const char *>(fitted.data()), static_cast<std::streamsize>(fitted.size()));
    } catch (const pizhgarol::refused &r) {
        std::cerr << r.what() << '\n';
        return 1;
    }
    return std::cout.good() ? 0 : 1;
}
