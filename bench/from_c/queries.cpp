// Series of crates/vers_bench whose queries go through the C library: the same data, queries and lines. Build and run:
//
//     (cd bindings/c && cargo build --release)
//     g++ -std=c++17 -O3 -march=x86-64-v2 -Ibindings/c bench/from_c/queries.cpp bindings/c/target/release/libvers.a -lpthread -ldl -lm -o queries
//     ./queries NAME [--small] [--reps N] [--size N] [STRUCTURE..]
//
// `bench/compare.py --plain` does both and puts these times or instructions beside those of the other drivers.
#include "../series.hpp"
#include "vers.h"

static u64 value_of(const vers_answer& answer) { return answer.status == VERS_DONE ? answer.value : NONE; }

static void check(std::uint32_t status)
{
    if (status != VERS_DONE) {
        std::fprintf(stderr, "queries: the library returned status %u\n", status);
        std::exit(1);
    }
}

static void run_bits(const Settings& settings, std::size_t limb_count, u64 percent)
{
    u64 len = limb_count * 64;
    Series series = settings.series("bits", data_of_bits(len, percent));
    Numbers words = limbs(limb_count, percent);
    vers_bits bits = {};
    check(vers_bits_of(&bits, words.data(), words.size(), len));
    auto rank1 = [&](u64 it) { return value_of(vers_bits_rank1(&bits, it)); };
    auto select1 = [&](u64 it) { return value_of(vers_bits_select1(&bits, it)); };
    BitQueries asked(settings.scaled(1000000), len, rank1(len));
    series.queries("rank1", asked.places, rank1);
    series.chained("rank1_chained", asked.places, rank1);
    series.queries("select1", asked.ones, select1);
    series.chained("select1_chained", asked.ones, select1);
    series.queries("select0", asked.zeros, [&](u64 it) { return value_of(vers_bits_select0(&bits, it)); });
    vers_bits_free(&bits);
}

static void run_sorted(const Settings& settings, std::size_t len)
{
    std::size_t count = settings.scaled(1000000);
    Series series = settings.series("sorted", "uniform n=" + std::to_string(len));
    Numbers members = members_uniform(len);
    vers_sorted list = {};
    check(vers_sorted_of(&list, members.data(), len));
    Random random{8};
    Numbers places = random.many_below(count, len), values = random.many_below(count, members.back() + 1);
    series.queries("get", places, [&](u64 it) { return value_of(vers_sorted_get(&list, it)); });
    series.queries("delta", places, [&](u64 it) { return value_of(vers_sorted_delta(&list, it)); });
    series.queries("rank", values, [&](u64 it) { return value_of(vers_sorted_rank(&list, it)); });
    series.queries("predecessor", values, [&](u64 it) { return value_of(vers_sorted_predecessor(&list, it)); });
    series.queries("successor", values, [&](u64 it) { return value_of(vers_sorted_successor(&list, it)); });
    vers_sorted_free(&list);
}

static void run_sparse(const Settings& settings, std::size_t limb_count, u64 percent)
{
    u64 len = limb_count * 64, count = settings.scaled(1000000);
    Series series = settings.series("sparse", data_of_bits(len, percent));
    Numbers words = limbs(limb_count, percent), ones;
    for (u64 i = 0; i < len; ++i)
        if (words[i / 64] >> (i % 64) & 1) ones.push_back(i);
    vers_sparse list = {};
    check(vers_sparse_of(&list, ones.data(), ones.size(), len));
    Random random{7};
    Numbers places = random.many_below(count, len), numbers = random.many_below(count, ones.size());
    series.queries("get", places, [&](u64 it) { return value_of(vers_sparse_get(&list, it)); });
    series.queries("rank1", places, [&](u64 it) { return value_of(vers_sparse_rank1(&list, it)); });
    series.queries("select1", numbers, [&](u64 it) { return value_of(vers_sparse_select1(&list, it)); });
    vers_sparse_free(&list);
}

static void run_symbols(const Settings& settings, std::size_t n, unsigned width)
{
    Series series = settings.series("wavelet", "n=" + std::to_string(n) + " width=" + std::to_string(width));
    Numbers list = symbols(n, width);
    vers_symbols matrix = {};
    check(vers_symbols_of(&matrix, list.data(), n, width));
    SymbolQueries asked(settings.scaled(200000), list, width);
    series.queries("get_u64", asked.places, [&](u64 it) { return value_of(vers_symbols_get(&matrix, it)); });
    series.queries("rank_u64", asked.ranks, [&](const OfSymbol& it) { return value_of(vers_symbols_rank(&matrix, it.number, it.symbol)); });
    series.queries("select_u64", asked.selects, [&](const OfSymbol& it) { return value_of(vers_symbols_select(&matrix, it.number, it.symbol)); });
    series.queries("quantile_u64", asked.quantiles, [&](const Quantile& it) {
        return value_of(vers_symbols_quantile(&matrix, it.first, it.last + 1, it.number));
    });
    vers_symbols_free(&matrix);
}

static void run_minima(const Settings& settings, std::size_t n)
{
    Numbers items = values(n);
    Ranges ranges(settings.scaled(1000000), n);
    vers_fast_rmq fast = {};
    check(vers_fast_rmq_of(&fast, items.data(), n));
    auto of_fast = [&](const Range& it) { return value_of(vers_fast_rmq_range_min(&fast, it.first, it.last)); };
    Series series = settings.series("rmq_fast", "n=" + std::to_string(n));
    series.queries("range_min", ranges.wide, of_fast);
    series.queries("range_min_short", ranges.close, of_fast);
    vers_fast_rmq_free(&fast);
    vers_binary_rmq binary = {};
    check(vers_binary_rmq_of(&binary, items.data(), n));
    auto of_binary = [&](const Range& it) { return value_of(vers_binary_rmq_range_min(&binary, it.first, it.last)); };
    series.structure = "rmq_binary";
    series.queries("range_min", ranges.wide, of_binary);
    series.queries("range_min_short", ranges.close, of_binary);
    vers_binary_rmq_free(&binary);
}

static void run_tree(const Settings& settings, std::size_t nodes)
{
    u64 bit_count = nodes * 2, count = settings.scaled(1000000);
    Series series = settings.series("tree", "bits=" + std::to_string(bit_count));
    Numbers words = parentheses(bit_count), opens, ends(count);
    vers_tree tree = {};
    check(vers_tree_of(&tree, words.data(), words.size(), bit_count));
    for (u64 i = 0; i < bit_count; ++i)
        if (words[i / 64] >> (i % 64) & 1) opens.push_back(i);
    Random random{11};
    Numbers handles = random.many_below(count, opens.size()), levels = random.many_below(count, 16);
    std::vector<std::pair<u64, u64>> climbs(count);
    for (std::size_t i = 0; i < count; ++i) {
        handles[i] = opens[handles[i]];
        ends[i] = vers_tree_close(&tree, handles[i]).value;
        climbs[i] = {handles[i], levels[i] + 1};
    }
    series.queries("close", handles, [&](u64 it) { return value_of(vers_tree_close(&tree, it)); });
    series.queries("open", ends, [&](u64 it) { return value_of(vers_tree_open(&tree, it)); });
    series.queries("parent", handles, [&](u64 it) { return value_of(vers_tree_parent(&tree, it)); });
    series.queries("subtree_size", handles, [&](u64 it) { return value_of(vers_tree_subtree_size(&tree, it)); });
    series.queries("level_ancestor", climbs, [&](const std::pair<u64, u64>& it) {
        return value_of(vers_tree_level_ancestor(&tree, it.first, it.second));
    });
    vers_tree_free(&tree);
}

int main(int count, char** words)
{
    Settings settings(count, words);
    for (std::size_t bits : settings.sizes(1 << 20, 1 << 26))
        for (u64 percent : settings.kinds<u64>({50, 5}))
            if (settings.wants("bits")) run_bits(settings, bits / 64, percent);
    if (settings.wants("sorted")) run_sorted(settings, settings.size_or(1000000));
    for (u64 percent : settings.kinds<u64>({5, 1}))
        if (settings.wants("sparse")) run_sparse(settings, settings.size_or(1 << 20) / 64, percent);
    for (unsigned width : settings.kinds<unsigned>({8, 32}))
        if (settings.wants("wavelet")) run_symbols(settings, settings.size_or(1000000), width);
    for (std::size_t n : settings.sizes(1000000, 10000000))
        if (settings.wants("rmq")) run_minima(settings, n);
    if (settings.wants("tree")) run_tree(settings, settings.size_or(1000000));
}
