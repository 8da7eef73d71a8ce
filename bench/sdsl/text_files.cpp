// What ../text_files does, by sdsl-lite: the same texts, patterns and lines, without saves, loads and batches. Build and
// run:
//
//     g++ -std=c++17 -O3 -march=x86-64-v2 -DNDEBUG text_files.cpp -lsdsl -ldivsufsort -ldivsufsort64 -o text_files
//     ./text_files SIZE FILE..
#include <sdsl/suffix_arrays.hpp>

#include <chrono>
#include <cstdint>
#include <cstdio>
#include <fstream>
#include <functional>
#include <iterator>
#include <limits>
#include <string>
#include <vector>

using Index = sdsl::csa_wt<sdsl::wt_huff<>, 32, 32>;

static constexpr std::size_t PATTERNS = 10000, LENGTH = 16;

// The generator splitmix64.
struct Random {
    std::uint64_t state;

    std::uint64_t below(std::uint64_t bound)
    {
        std::uint64_t z = state += 0x9E3779B97F4A7C15ULL;
        z = (z ^ (z >> 30)) * 0xBF58476D1CE4E5B9ULL;
        z = (z ^ (z >> 27)) * 0x94D049BB133111EBULL;
        return (z ^ (z >> 31)) % bound;
    }
};

static std::string text_of(const std::string& name, std::size_t size)
{
    std::string text;
    if (name == "fibonacci") {
        std::string before = "b";
        for (text = "a"; text.size() < size;) {
            std::string next = text + before;
            before = std::move(text);
            text = std::move(next);
        }
    } else if (name == "bases") {
        Random random{1};
        for (std::size_t i = 0; i < size; ++i) text.push_back("ACGT"[random.below(4)]);
    } else {
        std::ifstream file(name, std::ios::binary);
        text.assign(std::istreambuf_iterator<char>(file), {});
    }
    text.erase(std::remove(text.begin(), text.end(), '\0'), text.end());
    text.resize(std::min(size, text.size()));
    return text;
}

// The least time of three runs, in nanoseconds.
static double timed(const std::function<void()>& run)
{
    double least = std::numeric_limits<double>::infinity();
    for (int i = 0; i < 3; ++i) {
        const auto start = std::chrono::steady_clock::now();
        run();
        const std::chrono::duration<double, std::nano> took = std::chrono::steady_clock::now() - start;
        least = std::min(least, took.count());
    }
    return least;
}

// Random pieces of a text.
static std::vector<std::string> patterns_of(const std::string& text, std::size_t length)
{
    Random random{7};
    std::vector<std::string> patterns;
    for (std::size_t i = 0; i < PATTERNS; ++i) patterns.push_back(text.substr(random.below(text.size() - length), length));
    return patterns;
}

// The nanoseconds of a count, and the sum of all.
static double counted(const Index& index, const std::vector<std::string>& patterns, std::size_t& sum)
{
    return timed([&] {
        sum = 0;
        for (const auto& pattern : patterns) sum += sdsl::count(index, pattern.begin(), pattern.end());
    }) / PATTERNS;
}

int main(int count, char** arguments)
{
    if (count < 3) {
        std::fprintf(stderr, "usage: text_files SIZE FILE..\n");
        return 2;
    }
    for (int k = 2; k < count; ++k) {
        const std::string text = text_of(arguments[k], std::stoull(arguments[1]));
        Index index;
        const double build = timed([&] {
            index = Index();
            sdsl::construct_im(index, text, 1);
        });
        std::size_t sum = 0;
        const double time = counted(index, patterns_of(text, LENGTH), sum);
        const double symbols = double(text.size());
        std::printf("%s\t%zu\t%.1f\t%.0f\t%.2f\t%zu\n", arguments[k], text.size(), build / symbols, time,
                    double(sdsl::size_in_bytes(index)) / symbols, sum);
        for (const std::size_t length : {8, 16, 32}) {
            const double one = counted(index, patterns_of(text, length), sum);
            std::printf("%s\t%zu\t%.0f\t%zu\n", arguments[k], length, one, sum);
        }
    }
}
