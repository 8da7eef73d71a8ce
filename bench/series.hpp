// What the drivers in C++ share: the data and the queries of crates/vers_bench, and the lines that they print.
#pragma once

#include <algorithm>
#include <cstdint>
#include <cstdio>
#include <cstdlib>
#include <memory>
#include <string>
#include <time.h>
#include <utility>
#include <vector>

using u64 = std::uint64_t;
using Numbers = std::vector<u64>;

// The number that represents no answer in a checksum.
static constexpr u64 NONE = UINT64_MAX;

// The generator splitmix64.
struct Random {
    u64 state;

    u64 step()
    {
        u64 z = state += 0x9E3779B97F4A7C15ULL;
        z = (z ^ (z >> 30)) * 0xBF58476D1CE4E5B9ULL;
        z = (z ^ (z >> 27)) * 0x94D049BB133111EBULL;
        return z ^ (z >> 31);
    }

    u64 below(u64 n)
    {
        u64 number = step();
        return n == 0 ? 0 : number % n;
    }

    Numbers many_below(std::size_t count, u64 n)
    {
        Numbers all(count);
        for (u64& it : all) it = below(n);
        return all;
    }
};

// A pass is a function of its own in the machine code, so that a profiler counts its instructions.
template <class Pass> [[gnu::noinline]] static u64 one_pass(Pass& pass) { return pass(); }

// The checksum of the answers to all that is asked.
template <class Asked, class Query> static u64 folded(const std::vector<Asked>& asked, const Query& query)
{
    u64 sum = 0;
    for (const Asked& it : asked) sum = sum * 31 + query(it);
    return sum;
}

// A structure over some data, of which each operation is a series.
struct Series {
    int repetitions;
    std::string name, structure, data;

    void line(const char* operation, double value, u64 sum) const
    {
        std::printf("%s\t%s\t%s\t%s\t%.3f\t%016llx\n", name.c_str(), structure.c_str(), operation, data.c_str(), value,
                    static_cast<unsigned long long>(sum));
        std::fflush(stdout);
    }

    // Prints the median time of one of `count` operations, which a pass does and returns the checksum of.
    template <class Pass> void run(const char* operation, std::size_t count, Pass pass) const
    {
        Numbers times;
        u64 sum = 0;
        for (int i = 0; i < repetitions; ++i) {
            u64 start = now();
            sum = one_pass(pass);
            times.push_back(now() - start);
        }
        line(operation, median(times) / double(count), sum);
    }

    // The same of a query for each element that is asked.
    template <class Asked, class Query>
    void queries(const char* operation, const std::vector<Asked>& asked, const Query& query) const
    {
        run(operation, asked.size(), [&] { return folded(asked, query); });
    }

    // The same, but each query waits for the answer to the one before.
    template <class Query> void chained(const char* operation, const Numbers& asked, const Query& query) const
    {
        run(operation, asked.size(), [&] {
            u64 last = 0;
            return folded(asked, [&](u64 it) { return last = query(it + (last >> 63)); });
        });
    }

    // Builds a value of `count` items, prints the median time of a build, and returns the last value. Drops are not timed.
    template <class Make> auto build(std::size_t count, u64 sum, const Make& make) const
    {
        Numbers times;
        decltype(make()) made;
        for (int i = 0; i < repetitions; ++i) {
            made.reset();
            u64 start = now();
            made = make();
            times.push_back(now() - start);
        }
        line("build", median(times) / double(count), sum);
        return made;
    }

private:
    static u64 now()
    {
        timespec time;
        clock_gettime(CLOCK_THREAD_CPUTIME_ID, &time);
        return u64(time.tv_sec) * 1000000000 + u64(time.tv_nsec);
    }

    static double median(Numbers& times)
    {
        std::sort(times.begin(), times.end());
        return double(times[times.size() / 2]);
    }
};

struct Settings {
    std::string name;
    std::size_t divisor = 1;
    int repetitions = 5;
    // The size of all structures by --size, otherwise 0: each then has its usual sizes.
    std::size_t size = 0;
    // The names of the structures to run; if there are none, all run.
    std::vector<std::string> asked;

    Settings(int count, char** words)
    {
        for (int i = 1; i < count; ++i) {
            std::string word = words[i];
            if (word == "--small") divisor = 16;
            else if (word == "--reps" && i + 1 < count) repetitions = std::max(1, std::atoi(words[++i]));
            else if (word == "--size" && i + 1 < count) size = std::strtoull(words[++i], nullptr, 10);
            else if (name.empty()) name = word;
            else asked.push_back(word);
        }
        if (name.empty()) {
            std::fprintf(stderr, "usage: %s NAME [--small] [--reps N] [--size N] [STRUCTURE..]\n", words[0]);
            std::exit(2);
        }
    }

    bool wants(const std::string& it) const { return asked.empty() || std::find(asked.begin(), asked.end(), it) != asked.end(); }

    std::size_t scaled(std::size_t usual) const { return usual / divisor; }

    std::size_t size_or(std::size_t usual) const { return size ? size : scaled(usual); }

    // Returns the size by --size, otherwise the usual one and a large one.
    std::vector<std::size_t> sizes(std::size_t usual, std::size_t large) const
    {
        if (size) return {size};
        return {scaled(usual), scaled(large)};
    }

    Series series(const std::string& structure, const std::string& data) const { return Series{repetitions, name, structure, data}; }

    // Returns the kinds of data to run: with --size the first alone, otherwise all.
    template <class Kind> std::vector<Kind> kinds(std::vector<Kind> all) const
    {
        if (size) all.resize(1);
        return all;
    }
};

// The limbs of bits, of which each is a one with a chance of `percent` in 100.
static inline Numbers limbs(std::size_t count, u64 percent)
{
    Random random{1};
    Numbers all(count);
    for (u64& limb : all)
        for (int i = 0; i < 64; ++i) limb |= u64(random.below(100) < percent) << i;
    return all;
}

static inline std::string data_of_bits(u64 len, u64 percent) { return "n=" + std::to_string(len) + " ones=" + std::to_string(percent) + "%"; }

// Positions, and ranks of ones and of zeros.
struct BitQueries {
    Numbers places, ones, zeros;

    BitQueries(std::size_t count, u64 len, u64 one_count)
    {
        Random random{7};
        places = random.many_below(count, len);
        ones = random.many_below(count, one_count);
        zeros = random.many_below(count, len - one_count);
    }
};

// Ascending members with gaps below 2^20.
static inline Numbers members_uniform(std::size_t count)
{
    Random random{2};
    Numbers all(count);
    u64 value = 0;
    for (u64& it : all) it = value += random.below(1 << 20);
    return all;
}

// Members with gaps below 2^40, but for a tenth of them in the middle, which begin at `first`.
struct Clustered {
    Numbers members;
    u64 first = 0;

    // The middle has eight members, then a tenth of all that are equal or 1 to 3 apart, then eight more.
    Clustered(std::size_t count, bool are_equal)
    {
        Random random{3};
        std::size_t close = count / 10, far = count - close - 16;
        u64 value = 0;
        auto push = [&](u64 gap) { members.push_back(value += gap); };
        for (std::size_t i = 0; i < far; ++i) {
            u64 gap = random.below(u64(1) << 40);
            if (i != far / 2) {
                push(gap);
                continue;
            }
            value += gap;
            for (int k = 0; k < 8; ++k) push(100);
            first = value += 1000;
            for (std::size_t k = 0; k < close; ++k) push(are_equal ? 0 : 1 + random.below(3));
            for (int k = 0; k < 8; ++k) push(100);
        }
        push(random.below(u64(1) << 40));
        members.resize(count);
    }
};

// The highest `width` bits of numbers of 64.
static inline Numbers symbols(std::size_t count, unsigned width)
{
    Random random{4};
    Numbers all(count);
    for (u64& it : all) it = random.step() >> (64 - width);
    return all;
}

// A range of positions, both ends inclusive, and the rank by size of one of its members.
struct Quantile {
    u64 first, last, number;
};

// A symbol of a list, and a position or the rank of an occurrence.
struct OfSymbol {
    u64 number, symbol;
};

struct SymbolQueries {
    Numbers places;
    std::vector<OfSymbol> ranks, selects;
    std::vector<Quantile> quantiles;

    SymbolQueries(std::size_t count, const Numbers& list, unsigned width)
    {
        Random random{9};
        u64 n = list.size();
        places = random.many_below(count, n);
        Numbers of_symbols = random.many_below(count, n);
        // Of 8 bits, each symbol occurs some n / 256 times.
        Numbers numbers = random.many_below(count, width == 8 ? n / 256 * 3 / 4 : 1);
        for (std::size_t i = 0; i < count; ++i) {
            ranks.push_back({places[i], list[of_symbols[i]]});
            selects.push_back({numbers[i], list[of_symbols[i]]});
        }
        for (std::size_t i = 0; i < count; ++i) {
            u64 first = random.below(n), length = random.below(n - first) + 1;
            quantiles.push_back({first, first + length - 1, random.below(length)});
        }
    }
};

// Numbers of 64 bits.
static inline Numbers values(std::size_t count)
{
    Random random{5};
    Numbers all(count);
    for (u64& it : all) it = random.step();
    return all;
}

struct Range {
    u64 first, last;
};

// Ranges with two random ends, and ranges of at most 64 items.
struct Ranges {
    std::vector<Range> wide, close;

    Ranges(std::size_t count, u64 n) : wide(count), close(count)
    {
        Random random{10};
        for (Range& it : wide) {
            u64 one = random.below(n), other = random.below(n);
            it = {std::min(one, other), std::max(one, other)};
        }
        for (Range& it : close) {
            it.first = random.below(n);
            it.last = std::min(it.first + random.below(64), n - 1);
        }
    }
};

// The limbs of the parentheses of a random tree: one root, and as many nodes as half of the bits.
static inline Numbers parentheses(u64 bit_count)
{
    Random random{6};
    Numbers all((bit_count + 63) / 64);
    u64 height = 0;
    all[0] = 1;
    for (u64 i = 1; i + 1 < bit_count; ++i) {
        u64 left = bit_count - 1 - i;
        if (random.below(2 * left * (height + 1)) >= height * (left + height + 2)) {
            ++height;
            all[i / 64] |= u64(1) << (i % 64);
        } else {
            --height;
        }
    }
    return all;
}
