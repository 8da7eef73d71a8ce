// The series `texts` of crates/vers_bench over indexes of sdsl-lite: the same texts, patterns and lines. Build and run:
//
//     g++ -std=c++17 -O3 -march=x86-64-v2 -DNDEBUG bench/sdsl/texts.cpp -lsdsl -ldivsufsort -ldivsufsort64 -o texts
//     ./texts NAME [--small] [--reps N] [--size N] [KIND..]
//
// A kind is one of the names of INDEXES below, and all are run if none is named. Symbols of bases count from 1 there, since
// sdsl ends a text with a 0. Each count is compared with a plain scan (memmem) for some patterns, whose time is printed as `scan_16`.
#include "../series.hpp"

#include <sdsl/suffix_arrays.hpp>

#include <cstring>

// A text in bytes, of which each is a symbol and `shift`.
struct Text {
    std::string bytes;
    int shift;
};

static Text bases(std::size_t n, u64 seed)
{
    Random random{seed};
    Text text{std::string(n, ' '), 1};
    for (char& it : text.bytes) it = char(1 + (random.step() >> 62));
    return text;
}

static Text words(std::size_t n, u64 seed)
{
    Random choices{seed}, letters{0};
    Text text{std::string(n, ' '), 0};
    u64 left = 0;
    for (char& it : text.bytes) {
        if (left == 0) {
            u64 group = 1ULL << choices.below(11);
            letters = Random{1000 + group + choices.below(group)};
            left = 2 + letters.below(8);
            continue;
        }
        --left;
        u64 one = letters.below(26), other = letters.below(26);
        it = char('a' + std::min(one, other));
    }
    return text;
}

static Text equal(std::size_t n) { return Text{std::string(n, char(2)), 1}; }

static Numbers drawn(std::size_t count, u64 seed, u64 lists_before, u64 n)
{
    return Random{seed + lists_before * count * 0x9E3779B97F4A7C15ULL}.many_below(count, n);
}

static u64 scanned(const std::string& text, const char* pattern, std::size_t len)
{
    u64 count = 0;
    const char *at = text.data(), *end = at + text.size();
    while ((at = static_cast<const char*>(memmem(at, end - at, pattern, len)))) ++count, ++at;
    return count;
}

template <class Index>
static void run_index(const Settings& settings, const Series& series, const Text& text, const Text& other)
{
    std::size_t n = text.bytes.size();
    auto index = series.build(n, n, [&] {
        auto made = std::make_unique<Index>();
        sdsl::construct_im(*made, text.bytes, 1);
        return made;
    });
    if (other.bytes.empty()) return;
    series.line("heap_bits_per_item", sdsl::size_in_bytes(*index) * 8.0 / double(n), 0);
    auto counts = [&](const char* operation, const Text& from, std::size_t len, u64 number) {
        series.queries(operation, drawn(settings.scaled(100000), 102, number, from.bytes.size() - 32), [&](u64 position) -> u64 {
            auto begin = from.bytes.begin() + position;
            return sdsl::count(*index, begin, begin + len);
        });
    };
    counts("count_8", text, 8, 0);
    counts("count_16", text, 16, 1);
    counts("count_32", text, 32, 2);
    counts("count_absent_32", other, 32, 3);
    std::size_t listed = settings.scaled(20000);
    series.queries("first_places_10", drawn(listed, 103, 0, n - 64), [&](u64 position) {
        u64 sum = 0, first = 0, last = 0;
        auto begin = text.bytes.begin() + position;
        u64 found = sdsl::backward_search(*index, 0, index->size() - 1, begin, begin + 8, first, last);
        for (u64 row = first; row < first + std::min<u64>(found, 10); ++row) sum = sum * 31 + (*index)[row];
        return sum;
    });
    series.queries("extract_64", drawn(listed, 103, 1, n - 64), [&](u64 position) {
        u64 sum = 0;
        for (unsigned char it : sdsl::extract(*index, position, position + 63)) sum = sum * 31 + (it - text.shift);
        return sum;
    });
    Numbers asked = drawn(settings.scaled(100000), 102, 1, n - 32);
    asked.resize(100);
    series.queries("scan_16", asked, [&](u64 position) { return scanned(text.bytes, text.bytes.data() + position, 16); });
    for (u64 position : asked) {
        auto begin = text.bytes.begin() + position;
        if (sdsl::count(*index, begin, begin + 16) != scanned(text.bytes, text.bytes.data() + position, 16)) std::abort();
    }
}

// Indexes with one position sampled for each 32 rows and one row for each 32 positions: by the shape of the tree and its bits.
template <class Tree>
using Csa = sdsl::csa_wt<Tree, 32, 32>;

struct Kind {
    const char* name;
    void (*run)(const Settings&, const Series&, const Text&, const Text&);
};

static const Kind INDEXES[] = {
    {"huff", run_index<Csa<sdsl::wt_huff<>>>},
    {"huff_il", run_index<Csa<sdsl::wt_huff<sdsl::bit_vector_il<512>>>>},
    {"huff_v5", run_index<Csa<sdsl::wt_huff<sdsl::bit_vector, sdsl::rank_support_v5<>>>>},
    {"huff_rrr", run_index<Csa<sdsl::wt_huff<sdsl::rrr_vector<63>>>>},
    {"blcd", run_index<Csa<sdsl::wt_blcd<>>>},
    {"blcd_il", run_index<Csa<sdsl::wt_blcd<sdsl::bit_vector_il<512>>>>},
};

static void run_size(const Settings& settings, const Kind& kind, std::size_t n)
{
    auto run = [&](const char* data, const Text& text, const Text& other) {
        Series series = settings.series("texts", data + (" n=" + std::to_string(n)));
        series.name += std::string("-") + kind.name;
        kind.run(settings, series, text, other);
    };
    run("bases", bases(n, 100), bases(n / 10, 101));
    run("words", words(n, 100), words(n / 10, 101));
    run("equal", equal(n), Text{});
}

int main(int count, char** arguments)
{
    Settings settings(count, arguments);
    for (const Kind& kind : INDEXES)
        if (settings.wants(kind.name))
            for (std::size_t n : settings.sizes(1000000, 10000000)) run_size(settings, kind, n);
}
