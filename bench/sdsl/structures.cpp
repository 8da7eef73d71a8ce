// Series of crates/vers_bench over structures of sdsl-lite: the same data, queries and lines. Build and run:
//
//     g++ -std=c++17 -O3 -march=x86-64-v2 -DNDEBUG bench/sdsl/structures.cpp -lsdsl -o structures
//     ./structures NAME [--small] [--reps N] [--size N] [STRUCTURE..]
//
// A line begins with NAME and the type of sdsl-lite that answers, of which there may be several. `bench/peers.py` does both and puts
// these times beside those of the other drivers.
#include "../series.hpp"

#include <sdsl/bit_vector_il.hpp>
#include <sdsl/bp_support.hpp>
#include <sdsl/rmq_support.hpp>
#include <sdsl/sd_vector.hpp>
#include <sdsl/select_support.hpp>
#include <sdsl/wavelet_trees.hpp>
#include <sdsl/wt_algorithm.hpp>

using sdsl::bit_vector;

static bit_vector bits_of(const Numbers& limbs, std::size_t len)
{
    bit_vector bits(len, 0);
    std::copy(limbs.begin(), limbs.end(), bits.data());
    return bits;
}

template <class... Parts> static double bits_in(const Parts&... parts) { return (sdsl::size_in_bytes(parts) + ...) * 8.0; }

static Series series_of(const Settings& settings, const char* type, const char* structure, const std::string& data)
{
    Series series = settings.series(structure, data);
    series.name += std::string(" ") + type;
    return series;
}

// Plain bits, which are kept as they are, and an index of them.
template <class Rank> struct Indexed {
    const bit_vector& bits;
    Rank rank1;
    sdsl::select_support_mcl<1> select1;
    sdsl::select_support_mcl<0> select0;

    explicit Indexed(const bit_vector& source) : bits(source), rank1(&bits), select1(&bits), select0(&bits) {}
};

// A copy of bits, with the counts between its blocks.
struct Interleaved {
    sdsl::bit_vector_il<512> bits;
    sdsl::rank_support_il<1, 512> rank1;
    sdsl::select_support_il<1, 512> select1;
    sdsl::select_support_il<0, 512> select0;

    explicit Interleaved(const bit_vector& source) : bits(source), rank1(&bits), select1(&bits), select0(&bits) {}
};

template <class Index> static void run_bits(const Settings& settings, const char* type, const bit_vector& source, u64 percent)
{
    std::size_t len = source.size();
    Series series = series_of(settings, type, "bits", data_of_bits(len, percent));
    u64 ones = sdsl::util::cnt_one_bits(source);
    auto index = series.build(len, ones, [&] { return std::make_unique<Index>(source); });
    double bits = bits_in(index->bits, index->rank1, index->select1, index->select0);
    series.line("heap_overhead_percent", (bits / double(len) - 1) * 100, 0);
    BitQueries asked(settings.scaled(1000000), len, ones);
    auto rank1 = [&](u64 it) -> u64 { return index->rank1(it); };
    auto select1 = [&](u64 it) -> u64 { return index->select1(it + 1); };
    series.queries("rank1", asked.places, rank1);
    series.chained("rank1_chained", asked.places, rank1);
    series.queries("select1", asked.ones, select1);
    series.chained("select1_chained", asked.ones, select1);
    series.queries("select0", asked.zeros, [&](u64 it) -> u64 { return index->select0(it + 1); });
}

static void all_bits(const Settings& settings)
{
    for (std::size_t size : settings.sizes(1 << 20, 1 << 26))
        for (u64 percent : settings.kinds<u64>({50, 5})) {
            std::size_t len = size / 64 * 64;
            bit_vector bits = bits_of(limbs(len / 64, percent), len);
            run_bits<Indexed<sdsl::rank_support_v5<>>>(settings, "rank_support_v5", bits, percent);
            run_bits<Indexed<sdsl::rank_support_v<>>>(settings, "rank_support_v", bits, percent);
            run_bits<Interleaved>(settings, "bit_vector_il<512>", bits, percent);
        }
}

// Ascending members, of which some may be equal, as positions of ones.
struct Ascending {
    sdsl::sd_vector<> ones;
    sdsl::sd_vector<>::rank_1_type rank{&ones};
    sdsl::sd_vector<>::select_1_type select{&ones};

    explicit Ascending(const Numbers& members) : ones(members.begin(), members.end()) {}
    explicit Ascending(const bit_vector& bits) : ones(bits) {}
};

static void run_members(const Settings& settings, const char* kind, const Numbers& members, u64 first, u64 span, std::size_t count)
{
    std::size_t len = members.size();
    Series series = series_of(settings, "sd_vector", "sorted", kind + (" n=" + std::to_string(len)));
    auto list = series.build(len, len, [&] { return std::make_unique<Ascending>(members); });
    series.line("heap_bits_per_item", bits_in(list->ones) / double(len), 0);
    Random random{8};
    Numbers places = random.many_below(count, len), numbers = random.many_below(count, span);
    for (u64& it : numbers) it += first;
    series.queries("get", places, [&](u64 it) -> u64 { return list->select(it + 1); });
    series.queries("rank", numbers, [&](u64 it) -> u64 { return list->rank(it); });
    series.queries("predecessor", numbers, [&](u64 it) -> u64 {
        u64 up_to = list->rank(it + 1);
        return up_to == 0 ? NONE : list->select(up_to);
    });
    series.queries("successor", numbers, [&](u64 it) -> u64 {
        u64 below = list->rank(it);
        return below == len ? NONE : list->select(below + 1);
    });
}

static void all_sorted(const Settings& settings)
{
    std::size_t len = settings.size_or(1000000), few = settings.scaled(2000);
    Numbers members = members_uniform(len);
    run_members(settings, "uniform", members, 0, members.back() + 1, settings.scaled(1000000));
    if (settings.size) return;
    Clustered equal(len, true), cluster(len, false);
    run_members(settings, "equal", equal.members, equal.first - 1, 3, few);
    run_members(settings, "cluster", cluster.members, cluster.first, len * 2 / 10, few);
}

static void run_sparse(const Settings& settings, std::size_t size, u64 percent)
{
    std::size_t len = size / 64 * 64, count = settings.scaled(1000000);
    bit_vector bits = bits_of(limbs(len / 64, percent), len);
    Series series = series_of(settings, "sd_vector", "sparse", data_of_bits(len, percent));
    u64 ones = sdsl::util::cnt_one_bits(bits);
    auto list = series.build(len, ones, [&] { return std::make_unique<Ascending>(bits); });
    series.line("heap_bits_per_item", bits_in(list->ones) / double(ones), 0);
    Random random{7};
    Numbers places = random.many_below(count, len), numbers = random.many_below(count, ones);
    series.queries("get", places, [&](u64 it) -> u64 { return list->ones[it]; });
    series.queries("rank1", places, [&](u64 it) -> u64 { return list->rank(it); });
    series.queries("select1", numbers, [&](u64 it) -> u64 { return list->select(it + 1); });
}

template <class Tree, class Symbols>
static void run_symbols(const Settings& settings, const char* type, const Symbols& source, unsigned width, const Numbers& list)
{
    std::size_t n = list.size();
    Series series = series_of(settings, type, "wavelet", "n=" + std::to_string(n) + " width=" + std::to_string(width));
    auto tree = series.build(n, n, [&] {
        auto made = std::make_unique<Tree>();
        sdsl::construct_im(*made, source);
        return made;
    });
    series.line("heap_bits_per_item", bits_in(*tree) / double(n), 0);
    SymbolQueries asked(settings.scaled(200000), list, width);
    series.queries("get_u64", asked.places, [&](u64 it) -> u64 { return (*tree)[it]; });
    series.queries("rank_u64", asked.ranks, [&](const OfSymbol& it) -> u64 { return tree->rank(it.number, it.symbol); });
    series.queries("select_u64", asked.selects, [&](const OfSymbol& it) -> u64 { return tree->select(it.number + 1, it.symbol); });
    if constexpr (Tree::lex_ordered)
        series.queries("quantile_u64", asked.quantiles, [&](const Quantile& it) -> u64 {
            return sdsl::quantile_freq(*tree, it.first, it.last, it.number).first;
        });
}

static void all_symbols(const Settings& settings)
{
    for (unsigned width : settings.kinds<unsigned>({8, 32})) {
        Numbers list = symbols(settings.size_or(1000000), width);
        sdsl::int_vector<> source(list.size(), 0, width);
        std::copy(list.begin(), list.end(), source.begin());
        run_symbols<sdsl::wm_int<>>(settings, "wm_int", source, width, list);
        run_symbols<sdsl::wt_int<>>(settings, "wt_int", source, width, list);
        if (width != 8) continue;
        sdsl::int_vector<8> bytes(list.size());
        std::copy(list.begin(), list.end(), bytes.begin());
        run_symbols<sdsl::wt_blcd<>>(settings, "wt_blcd", bytes, width, list);
    }
}

template <class Minima, class Bits>
static void run_minima(const Settings& settings, const char* type, const char* structure, const sdsl::int_vector<64>& items, const Ranges& ranges,
                       const Bits& bits)
{
    std::size_t n = items.size();
    Series series = series_of(settings, type, structure, "n=" + std::to_string(n));
    auto minima = series.build(n, n, [&] { return std::make_unique<Minima>(&items); });
    series.line("heap_bits_per_item", bits(*minima) / double(n), 0);
    auto query = [&](const Range& it) -> u64 { return (*minima)(it.first, it.last); };
    series.queries("range_min", ranges.wide, query);
    series.queries("range_min_short", ranges.close, query);
}

static void all_minima(const Settings& settings)
{
    for (std::size_t n : settings.sizes(1000000, 10000000)) {
        Numbers list = values(n);
        sdsl::int_vector<64> items(n);
        std::copy(list.begin(), list.end(), items.begin());
        Ranges ranges(settings.scaled(1000000), n);
        // The first answers without the items, the second reads them.
        run_minima<sdsl::rmq_succinct_sct<>>(settings, "rmq_succinct_sct", "rmq_fast", items, ranges, [](const auto& it) { return bits_in(it); });
        run_minima<sdsl::rmq_support_sparse_table<sdsl::int_vector<64>>>(settings, "rmq_support_sparse_table", "rmq_binary", items, ranges,
                                                                          [&](const auto& it) { return bits_in(it, items); });
    }
}

template <class Support> static void run_tree(const Settings& settings, const char* type, const std::string& kind, const bit_vector& bits)
{
    std::size_t len = bits.size(), count = settings.scaled(1000000);
    Series series = series_of(settings, type, "tree", kind + "bits=" + std::to_string(len));
    auto tree = series.build(len, len / 2, [&] { return std::make_unique<Support>(&bits); });
    series.line("heap_bits_per_item", bits_in(bits, *tree) / double(len), 0);
    Random random{11};
    Numbers nodes = random.many_below(count, len / 2), ends;
    for (u64& it : nodes) {
        it = tree->select(it + 1);
        ends.push_back(tree->find_close(it));
    }
    series.queries("close", nodes, [&](u64 it) -> u64 { return tree->find_close(it); });
    series.queries("open", ends, [&](u64 it) -> u64 { return tree->find_open(it); });
    series.queries("parent", nodes, [&](u64 it) -> u64 {
        u64 above = tree->enclose(it);
        return above == len ? NONE : above;
    });
    series.queries("subtree_size", nodes, [&](u64 it) -> u64 { return (tree->find_close(it) - it + 1) / 2; });
}

static void all_trees(const Settings& settings)
{
    std::size_t nodes = settings.size_or(1000000);
    bit_vector random = bits_of(parentheses(nodes * 2), nodes * 2), path(nodes * 2, 0), star(nodes * 2 + 2, 0);
    for (std::size_t i = 0; i < nodes; ++i) {
        path[i] = 1;
        star[i * 2 + 1] = 1;
    }
    star[0] = 1;
    struct Kind {
        const char* name;
        const bit_vector* bits;
    };
    for (const Kind& kind : settings.kinds<Kind>({{"", &random}, {"path ", &path}, {"star ", &star}})) {
        run_tree<sdsl::bp_support_sada<>>(settings, "bp_support_sada", kind.name, *kind.bits);
        run_tree<sdsl::bp_support_gg<>>(settings, "bp_support_gg", kind.name, *kind.bits);
    }
}

int main(int count, char** words)
{
    Settings settings(count, words);
    if (settings.wants("bits")) all_bits(settings);
    if (settings.wants("sorted")) all_sorted(settings);
    for (u64 percent : settings.kinds<u64>({5, 1}))
        if (settings.wants("sparse")) run_sparse(settings, settings.size_or(1 << 20), percent);
    if (settings.wants("wavelet")) all_symbols(settings);
    if (settings.wants("rmq")) all_minima(settings);
    if (settings.wants("tree")) all_trees(settings);
}
