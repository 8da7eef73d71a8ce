// Compares the classes of vers.hpp with plain loops. Exits with 0 where all agree.
// Link with -Wl,--wrap=malloc,--wrap=realloc, by which the library is refused memory.
#include "vers.hpp"

#include <algorithm>
#include <cstdio>
#include <list>
#include <sstream>
#include <string>
#include <thread>
#include <type_traits>
#if defined(__cpp_lib_ranges)
#include <ranges>
#include <span>
#endif

using Numbers = std::vector<std::uint64_t>;
using Found = std::optional<std::uint64_t>;
using vers::Status;

static unsigned long passed, failed;

static void check(const char *what, bool holds) {
    ++(holds ? passed : failed);
    if (!holds && failed < 20) std::fprintf(stderr, "%s\n", what);
}

static std::uint64_t next() {
    static std::uint64_t seed = 88172645463325252u;
    seed ^= seed << 13;
    seed ^= seed >> 7;
    seed ^= seed << 17;
    return seed;
}

static Numbers random_numbers(std::size_t count, std::uint64_t most) {
    Numbers numbers(count);
    for (auto &number : numbers) number = next() % most;
    return numbers;
}

static Found at(const Numbers &numbers, std::size_t position) {
    return position < numbers.size() ? Found(numbers[position]) : std::nullopt;
}

template <class List>
static void test_owner(List list) {
    static_assert(!std::is_copy_constructible_v<List> && !std::is_copy_assignable_v<List>);
    static_assert(std::is_nothrow_move_constructible_v<List> && std::is_nothrow_move_assignable_v<List>);
    const std::uint64_t length = list.len();
    List other = list.clone(), moved = std::move(list);
    check("moved", moved.len() == length);
    check("moved from", list.len() == 0);
    moved = std::move(other);
    check("assigned", moved.len() == length);
    List &same = moved;
    moved = std::move(same);
    check("moved to itself", moved.len() == length);
    Status status;
    check("clone", moved.clone(status)->len() == length && status == Status::done);
    check("clone of none", !list.clone(status) && status == Status::vacant);
    check("clone of none owns nothing", list.clone().len() == 0 && !list.clone().clone(status));
    check("equal to its clone", moved == moved.clone() && !(moved != moved.clone()));
    check("not equal to none", moved != list && list != moved && list == list.clone());
}

// What the saved form of a list is loaded as. With another first byte it is none, nor with another one in the middle.
template <class List>
static std::optional<List> loaded_form(const List &list) {
    std::vector<std::uint8_t> bytes(*list.saved_size());
    check("save", list.save(bytes.data(), bytes.size()) == Status::done);
    check("save over more", list.save(bytes.data(), bytes.size() + 1) == Status::refused);
    auto loaded = List::load(bytes.data(), bytes.size());
    check("load", loaded && loaded->len() == list.len());
    Status status;
    bytes[bytes.size() - 9] ^= 1;
    check("load of another sum", !List::load(bytes.data(), bytes.size(), status) && status == Status::bad_sum);
    bytes[0] ^= 1;
    check("load of others", !List::load(bytes.data(), bytes.size(), status) && status == Status::not_ours);
    check("load of less", !List::load(bytes.data(), 40, status) && status == Status::too_short);
    return loaded;
}

// A list is what its saved form is loaded as.
template <class List>
static void test_form(const List &list) {
    const auto loaded = loaded_form(list);
    check("items", Numbers(loaded->begin(), loaded->end()) == Numbers(list.begin(), list.end()));
    check("equal to its saved form", *loaded == list);
}

template <class List>
static List made(std::optional<List> list) {
    check("made", list.has_value());
    return std::move(*list);
}

// Each constructor of a list of numbers makes the same list.
template <class List, class... More>
static void test_from(const Numbers &numbers, More... more) {
    const List list = made<List>(List::from(numbers.data(), numbers.size(), more...));
    const std::list<std::uint32_t> narrow(numbers.begin(), numbers.end());
    const std::uint64_t *first = numbers.data(), *last = first + numbers.size();
    Numbers own = numbers;
    check("pointers", list == made<List>(List::from(first, last, more...)));
    check("iterators", list == made<List>(List::from(narrow.begin(), narrow.end(), more...)));
    check("container", list == made<List>(List::from(narrow, more...)) && list == made<List>(List::from(own, more...)));
    check("temporary", list == made<List>(List::from(Numbers(numbers), more...)));
    const std::size_t count = numbers.size();
    for (int k = 0; k < 4; k++) {
        Status status = Status::absent;
        const auto other = k == 0   ? List::from(first, count, more..., status)
                           : k == 1 ? List::from(narrow.begin(), narrow.end(), more..., status)
                           : k == 2 ? List::from(first, last, more..., status)
                                    : List::from(narrow, more..., status);
        check("with a status", other == list && status == Status::done);
    }
}

// Each constructor of a list of bits makes the same list.
template <class List>
static void test_from_bits(const Numbers &bits) {
    const std::list<bool> items(bits.begin(), bits.end());
    const std::vector<bool> packed(bits.begin(), bits.end());
    const List list = List::from_bits(bits.begin(), bits.end());
    Numbers words((bits.size() + 63) / 64);
    for (std::size_t i = 0; i < bits.size(); i++) words[i / 64] |= bits[i] << i % 64;
    const std::list<std::uint64_t> linked(words.begin(), words.end());
    const std::size_t length = bits.size(), count = words.size();
    check("from_bits", list.len() == length && list == List::from_bits(items.begin(), items.end()));
    check("from_bits of ranges", list == List::from_bits(items) && list == List::from_bits(packed));
    check("from_bits of an array", list == List::from_bits(bits.data(), length));
    check("from_words", list == List::from_words(words.data(), count, length));
    check("from_words of iterators", list == List::from_words(linked.begin(), linked.end(), length));
    check("from_words of ranges", list == List::from_words(words, length) && list == List::from_words(linked, length));
    for (int k = 0; k < 6; k++) {
        Status status = Status::absent;
        const auto other = k == 0   ? List::from_bits(items.begin(), items.end(), status)
                           : k == 1 ? List::from_bits(packed, status)
                           : k == 2 ? List::from_bits(bits.data(), length, status)
                           : k == 3 ? List::from_words(words.data(), count, length, status)
                           : k == 4 ? List::from_words(linked.begin(), linked.end(), length, status)
                                    : List::from_words(words, length, status);
        check("bits with a status", other == list && status == Status::done);
    }
    const std::uint64_t word = 5;
    check("in braces", List::from_bits({true, false, true}) == List::from_words({word}, 3));
}

// Lists of bits or numbers differ from those with another item, or with one more.
template <class List, class Make>
static void test_differences(const Numbers &items, Make make) {
    // those of a group of queries and one more too, and of a word and a bit
    const std::ptrdiff_t less = items.size() > 257 ? 257 : 65;
    if (items.size() > 65) test_differences<List>(Numbers(items.begin(), items.begin() + less), make);
    const List list = make(items);
    check("equal", list == make(items) && make({}) == make({}));
    const std::size_t last_word = items.size() / 64 * 64;
    for (std::size_t position : {std::size_t{0}, std::size_t{63}, std::size_t{64}, last_word, items.size() - 1}) {
        Numbers others = items;
        others[position] ^= 1;
        check("another item", list != make(others) && !(make(others) == list));
    }
    Numbers shorter = items;
    shorter.pop_back();
    check("another length", list != make(shorter) && make(shorter) != list && make({}) != list);
    List emptied = make({});
    const List empty = std::move(emptied);
    check("empty is not none", empty != emptied && emptied == emptied && empty == make({}));
}

static void test_bits() {
    const Numbers bits = random_numbers(3000, 2);
    const vers::RsVec list = vers::RsVec::from_bits(bits.begin(), bits.end());
    check("items", Numbers(list.begin(), list.end()) == bits);
    std::uint64_t ones = 0;
    for (std::size_t i = 0; i < bits.size(); i++) {
        check("rank1", list.rank1(i) == ones);
        check("rank0", list.rank0(i) == i - ones);
        check("select", (bits[i] ? list.select1(ones) : list.select0(i - ones)) == i);
        ones += bits[i];
    }
    check("select1 past", list.select1(ones) == bits.size());
    check("counts", list.ones() == ones && list.zeros() == bits.size() - ones);
    for (std::size_t i = 0; i < 2999; i++) {
        check("successor", (bits[i + 1] ? list.successor1(i) : list.successor0(i)) == Found(i + 1));
        check("predecessor", (bits[i] ? list.predecessor1(i + 1) : list.predecessor0(i + 1)) == Found(i));
    }
    check("no neighbours", !list.successor1(2999) && !list.successor0(2999) && !list.predecessor1(0));
    check("get past", !list.get(bits.size()));
    check("get_bits", list.get_bits(5, 3) == Found(bits[5] + 2 * bits[6] + 4 * bits[7]) && !list.get_bits(2999, 2));
    check("heap_size", list.heap_size() >= bits.size() / 8 && !list.is_empty());
    Numbers places = {0, 1, 2999, 3000};
    check("each", list.each(VERS_GET, places.data(), places.size(), 7) == Status::done);
    check("each item", places == Numbers({bits[0], bits[1], bits[2999], 7}));
    check("unknown", list.each(VERS_PARENT, places.data(), places.size()) == Status::unknown);
    test_form(list);
    test_owner(list.clone());
}

static void test_bit_vec() {
    vers::BitVec list;
    const Numbers bits = {1, 0, 0, 1, 1};
    for (auto bit : bits) check("append", list.append(bit == 1) == Status::done);
    check("append_bits", list.append_bits(6, 3) == Status::done);
    check("append_bits of 65", list.append_bits(0, 65) == Status::refused);
    check("set", list.set(1, true) == Status::done && list.set(8, true) == Status::refused);
    check("items", Numbers(list.begin(), list.end()) == Numbers({1, 1, 0, 1, 1, 0, 1, 1}));
    check("drop_last", list.drop_last(2) == Status::done && list.len() == 6);
    {
        vers::BitVec other = list.clone();
        check("shared", list.append(true) == Status::shared);
        other = vers::BitVec();
        check("no longer shared", list.drop_last(0) == Status::done);
    }
    check("alone", list.append(true) == Status::done && list.get(6) == Found(1));
    const bool truths[] = {true, false};
    check("from_bits", vers::BitVec::from_bits(truths, truths + 2).get(0) == Found(1));
    test_form(list);
    test_owner(std::move(list));
}

static void test_sparse() {
    Numbers ones;
    for (std::uint64_t position = 0; position < 3000; position += 1 + next() % 20) ones.push_back(position);
    const auto list = vers::SparseRSVec::from(ones.begin(), ones.end(), 3000);
    check("made", list && list->len() == 3000);
    check("refused", !vers::SparseRSVec::from(ones.data(), ones.size(), ones.back()));
    std::uint64_t count = 0;
    for (std::uint64_t position = 0; position < 3000; position++) {
        const bool is_one = count < ones.size() && ones[count] == position;
        check("get", list->get(position) == Found(is_one));
        check("ranks", list->rank1(position) == count && list->rank0(position) == position - count);
        if (is_one) check("select1", list->select1(count++) == position);
    }
    check("past", !list->get(3000) && list->select1(ones.size()) == 3000);
    test_form(*list);
    test_owner(list->clone());
}

static void test_sets() {
    const auto one = *vers::EliasFanoVec::from({2, 2, 5, 9}), other = *vers::EliasFanoVec::from({0, 5, 5, 9, 12});
    check("both", one.intersection(other) == vers::EliasFanoVec::from({5, 9}));
    check("either", one.either(other) == vers::EliasFanoVec::from({0, 2, 5, 9, 12}));
    check("difference", one.difference(other) == vers::EliasFanoVec::from({2}) && one.difference(one).is_empty());
    Status status;
    const vers::EliasFanoVec nothing;
    check("statuses", one.intersection(other, status) && one.either(one, status) && one.difference(other, status));
    check("nothing", !nothing.intersection(one, status) && status == Status::refused &&
                     !one.either(nothing, status) && !nothing.difference(nothing, status));
}

static void test_sorted() {
    Numbers numbers = random_numbers(500, 3000);
    check("refused", !vers::EliasFanoVec::from(numbers.data(), numbers.size()));
    std::sort(numbers.begin(), numbers.end());
    const std::list<std::uint32_t> narrow(numbers.begin(), numbers.end());
    const auto list = vers::EliasFanoVec::from(narrow.begin(), narrow.end());
    check("items", list && Numbers(list->begin(), list->end()) == numbers);
    for (std::uint64_t v = 0; v < 3002; v++) {
        const auto above = std::upper_bound(numbers.begin(), numbers.end(), v);
        const auto low = static_cast<std::size_t>(std::lower_bound(numbers.begin(), above, v) - numbers.begin());
        const auto high = static_cast<std::size_t>(above - numbers.begin());
        check("rank", list->rank(v) == low);
        check("has", list->has(v) == (high > low));
        check("successor", list->successor(v) == at(numbers, low));
        check("predecessor", list->predecessor(v) == (high ? at(numbers, high - 1) : std::nullopt));
    }
    for (std::size_t i = 0; i <= numbers.size(); i++) {
        check("get", list->get(i) == at(numbers, i));
        const Found delta = i == 0 || i == numbers.size() ? at(numbers, i) : numbers[i] - numbers[i - 1];
        check("delta", list->delta(i) == delta);
    }
    Status status;
    check("status", !vers::EliasFanoVec::from(Numbers({2, 1}).data(), 2, status) && status == Status::refused);
    check("text", std::string(vers::text(status)) == "the arguments are refused");
    test_form(*list);
    test_owner(list->clone());
}

static void test_symbols() {
    const Numbers symbols = random_numbers(300, 32);
    const auto list = vers::WaveletMatrix::from(symbols.begin(), symbols.end(), 5);
    check("items", list && Numbers(list->begin(), list->end()) == symbols);
    check("bits_per_element", list->bits_per_element() == 5);
    check("too wide", !vers::WaveletMatrix::from(symbols.data(), symbols.size(), 65));
    for (int k = 0; k < 500; k++) {
        std::uint64_t a = next() % 301, b = next() % 301, c = next() % 32, q = next() % 300;
        if (a > b) std::swap(a, b);
        Numbers range(symbols.begin() + static_cast<long>(a), symbols.begin() + static_cast<long>(b)), places;
        std::sort(range.begin(), range.end());
        for (std::size_t i = 0; i < symbols.size(); i++)
            if (symbols[i] == c) places.push_back(i);
        auto before = [&](std::uint64_t end) {
            return std::lower_bound(places.begin(), places.end(), end) - places.begin();
        };
        auto low = std::lower_bound(range.begin(), range.end(), c);
        auto high = std::upper_bound(range.begin(), range.end(), c);
        const std::size_t first = static_cast<std::size_t>(before(a));
        check("rank", list->rank(a, c) == Found(before(a)));
        check("rank_range", list->rank_range(a, b, c) == (a < 300 ? Found(before(b) - before(a)) : std::nullopt));
        check("select", list->select(q % 12, c) == at(places, q % 12));
        check("select_offset", list->select_offset(a, q % 12, c) == at(places, first + q % 12));
        check("quantile", list->quantile(a, b, q) == at(range, q));
        check("range_min", list->range_min(a, b) == at(range, 0));
        check("range_max", list->range_max(a, b) == at(range, range.size() - 1));
        const Found median = range.empty() ? std::nullopt : at(range, (range.size() - 1) / 2);
        check("range_median", list->range_median(a, b) == median);
        check("successor", list->successor(a, b, c) == (low == range.end() ? std::nullopt : Found(*low)));
        check("predecessor", list->predecessor(a, b, c) == (high == range.begin() ? std::nullopt : Found(high[-1])));
    }
    vers::Row rows[] = {{0, 300, 0}, {5, 5, 0}};
    check("rows", list->rows(VERS_QUANTILE, rows, 2, 99) == Status::done && rows[1].a == 99);
    check("row", Found(rows[0].a) == list->range_min(0, 300));
    test_form(*list);
    test_owner(list->clone());
}

static void test_minima() {
    const Numbers values = random_numbers(700, 50);
    const vers::FastRmq fast = vers::FastRmq::from(values.data(), values.size());
    const vers::BinaryRmq binary = vers::BinaryRmq::from(values.begin(), values.end());
    check("items", Numbers(fast.begin(), fast.end()) == values && Numbers(binary.begin(), binary.end()) == values);
    for (int k = 0; k < 500; k++) {
        const std::uint64_t a = next() % 701, b = next() % 701;
        Found least;
        for (std::uint64_t i = a; b < 700 && i <= b; i++)
            if (!least || values[i] < values[*least]) least = i;
        check("range_min", fast.range_min(a, b) == least && binary.range_min(a, b) == least);
    }
    test_form(fast);
    test_form(binary);
    test_owner(fast.clone());
    test_owner(binary.clone());
}

static void test_tree() {
    const std::string text = "((()())(()))()";
    Numbers bits;
    for (char c : text) bits.push_back(c == '(');
    const vers::BpTree tree = vers::BpTree::from_bits(bits.begin(), bits.end());
    check("counts", tree.len() == 14 && tree.size() == 7 && tree.is_balanced());
    check("is_open", tree.is_open(0) == std::optional(true) && tree.is_open(3) == std::optional(false));
    check("is_open past", !tree.is_open(14));
    check("root", tree.root() == Found(0) && !vers::BpTree::from_words(nullptr, 0, 0).root());
    check("parent", tree.parent(4) == Found(1) && !tree.parent(0) && !tree.parent(3));
    check("children", tree.first_child(0) == Found(1) && tree.last_child(0) == Found(7) && !tree.first_child(2));
    check("siblings", tree.next_sibling(1) == Found(7) && tree.previous_sibling(7) == Found(1));
    check("levels", tree.level_next(4) == Found(8) && tree.level_prev(8) == Found(4));
    check("level ends", tree.level_leftmost(2) == Found(2) && tree.level_rightmost(2) == Found(8));
    check("ancestor", tree.level_ancestor(8, 2) == Found(0) && !tree.level_ancestor(8, 3));
    check("measures", tree.depth(8) == Found(2) && tree.subtree_size(0) == Found(6) && tree.node_index(8) == Found(5));
    check("truths", tree.is_leaf(2) == std::optional(true) && tree.is_ancestor(0, 8) == std::optional(true));
    check("none", !tree.is_leaf(3) && !tree.is_ancestor(3, 8));
    check("has_node", tree.has_node(2) && !tree.has_node(3) && !tree.has_node(14));
    check("pairs", tree.close(0) == Found(11) && tree.open(11) == Found(0) && tree.enclose(4) == Found(1));
    check("searches", tree.fwd_search(0, -1) == Found(11) && tree.bwd_search(11, -1) == Found(0));
    check("node_handle", tree.node_handle(5) == 8 && tree.node_handle(7) == 14);
    check("excess", tree.excess(2) == std::optional<std::int64_t>(3) && !tree.excess(14));
    const std::uint64_t wrong = 2;
    const vers::BpTree other = vers::BpTree::from_words(&wrong, 1, 2);
    check("unbalanced", !other.is_balanced() && other.excess(0) == std::optional<std::int64_t>(-1));
    const auto loaded = loaded_form(tree);
    check("loaded", loaded->is_leaf(2) == std::optional(true) && loaded->close(0) == Found(11));
    test_owner(tree.clone());
}

/** Plain numbers as a vector. */
static std::vector<std::uint64_t> listed(const vers::Numbers &numbers) {
    return {numbers.begin(), numbers.end()};
}

static void test_inverted() {
    const std::vector<std::uint64_t> terms{0, 0, 0, 2, 2, 3}, documents{0, 3, 9, 3, 4, 9};
    const auto index = vers::InvertedIndex::from(4, 10, terms.data(), documents.data(), 6);
    check("inverted", index && index->len() == 6 && index->terms() == 4 && index->universe() == 10);
    if (!index) return;
    check("refused", !vers::InvertedIndex::from(3, 10, terms, documents) && !vers::InvertedIndex::from(4, 9, terms, documents));
    check("order", !vers::InvertedIndex::from(4, 10, {1, 0}, {2, 3}) && !vers::InvertedIndex::from(4, 10, {1, 1}, {2, 2}));
    auto status = Status::done;
    check("fewer documents", !vers::InvertedIndex::from(4, 10, {0, 1}, {2}, status) && status == Status::refused);
    check("more documents", !vers::InvertedIndex::from(4, 10, {0}, {2, 3}));
    check("braces", index == vers::InvertedIndex::from(4, 10, {0, 0, 0, 2, 2, 3}, {0, 3, 9, 3, 4, 9}));
    check("status", index == vers::InvertedIndex::from(4, 10, terms, documents, status) && status == Status::done);
    check("other limits", index != vers::InvertedIndex::from(5, 10, terms, documents) &&
                          index != vers::InvertedIndex::from(4, 11, terms, documents));
    // the numbers of the first term's pairs don't depend on the limit of documents
    check("another limit", vers::InvertedIndex::from(1, 8, {0}, {3}) != vers::InvertedIndex::from(1, 9, {0}, {3}));
    check("another pair", index != vers::InvertedIndex::from(4, 10, {0, 0, 0, 2, 2, 3}, {0, 3, 9, 3, 5, 9}));
    check("numbers", index->pair_number(3) == 23 && !index->pair_number(6) && index->heap_size() > 0);
    check("count", index->count(0) == 3 && index->count(1) == 0 && index->count(4) == 0);
    check("get", index->get(0, 2) == 9 && !index->get(0, 3) && !index->get(1, 0));
    check("rank", index->rank(0, 3) == 1 && index->rank(0, 4) == 2);
    check("contains", index->contains(2, 4) && !index->contains(4, 2) && !index->contains(2, 9));
    check("next", index->next_at_least(2, 4) == 4 && !index->next_at_least(2, 5));
    check("documents", listed(index->documents(0)) == std::vector<std::uint64_t>{0, 3, 9} && index->documents(1).is_empty());
    check("both", listed(index->intersection(0, 2)) == std::vector<std::uint64_t>{3});
    check("either", listed(index->either(2, 3)) == std::vector<std::uint64_t>{3, 4, 9});
    check("first", listed(index->difference(0, 2)) == std::vector<std::uint64_t>{0, 9} && index->difference(3, 0).is_empty());
    const auto copy = index->clone();
    check("copies", copy == *index);
    check("loaded", *loaded_form(*index) == *index);
    const auto made = index->documents(2, status);
    check("a status", made && status == Status::done && made->len() == 2);
    check("all", listed(index->intersection_of({0, 2, 0})) == std::vector<std::uint64_t>{3});
    check("any", listed(index->union_of({3, 0, 2})) == std::vector<std::uint64_t>{0, 3, 4, 9});
    check("none of the others", listed(index->difference_of({0, 3, 2})) == std::vector<std::uint64_t>{0});
    check("one term", listed(index->union_of({2})) == listed(index->documents(2)));
    check("no term", !index->intersection_of({}, status) && status == Status::refused &&
                     !index->union_of({}, status) && !index->difference_of({}, status));
    check("statuses", index->intersection(0, 2, status) && index->either(0, 2, status) && index->difference(0, 2, status));
}

static void test_postings() {
    const Numbers documents = {2, 3, 5, 8}, costs = {4, 1, 1, 0}, others = {3, 4, 8, 9};
    const auto list = vers::Postings::from(documents.data(), costs.data(), 4);
    const auto other = vers::Postings::from(others.data(), costs.data(), 4);
    check("made", list && other && list->len() == 4);
    check("refused", !vers::Postings::from(costs.data(), costs.data(), 4));
    check("rank", list->rank(5) == 2 && list->contains(5) && !list->contains(4));
    check("next", list->next_at_least(6) == Found(8) && !list->next_at_least(9));
    check("cheapest", list->cheapest(2, 6) == Found(3) && !list->cheapest(6, 7));
    const vers::Numbers both = list->intersect(*other), same = list->intersect(*list);
    check("intersect", Numbers(both.begin(), both.end()) == Numbers({3, 8}));
    check("with itself", Numbers(same.begin(), same.end()) == documents && same.get(1) == Found(3));
    check("loaded", loaded_form(*list)->cheapest(2, 6) == Found(3));
    check("items", Numbers(list->begin(), list->end()) == documents && list->cost(1) == Found(1) && !list->cost(4));
    test_owner(list->clone());
}

/** Items of 8, 16 and 32 bits that are adjacent, and others, make the same lists and texts. */
template <class Item>
static void test_narrow(std::uint32_t width, Item greatest) {
    const std::vector<Item> items = {greatest, 7, 0, 7};
    const std::list<Item> scattered(items.begin(), items.end());
    const auto list = vers::WaveletMatrix::from(items, width);
    check("narrow items", list->get(0) == Found(greatest) && list->rank(4, 7) == Found(2) && list->len() == 4);
    check("narrow pointers", *vers::WaveletMatrix::from(items.data(), items.data() + 4, width) == *list);
    check("scattered items", *vers::WaveletMatrix::from(scattered, width) == *list);
    check("low bits", vers::WaveletMatrix::from(items, 2)->get(1) == Found(3));
    Status status;
    check("too wide", !vers::WaveletMatrix::from(items, 65, status) && status == Status::refused);
    check("no items", vers::WaveletMatrix::from(std::vector<Item>(), width)->len() == 0);
    if (width > 16) return;
    const std::uint64_t seven = 7;
    const auto text = vers::TextIndex::from(items, width, 2);
    check("narrow text", text->count(&seven, 1) == 2 && text->step() == 2 && text->width() == width);
    check("the usual step", vers::TextIndex::from(items, width)->step() == 32);
    check("scattered text", *vers::TextIndex::from(scattered, width) == *text);
    check("wide text", !vers::TextIndex::from(items, width - 1) && !vers::TextIndex::from(items, width, 0));
}

static void test_texts() {
    const Numbers symbols = {2, 1, 2, 1, 2}, pattern = {2, 1}, wide = {70000};
    const auto text = vers::TextIndex::from(symbols.data(), 5, 2);
    check("made", text && text->len() == 5 && text->width() == 2 && text->step() == 32);
    Status status;
    check("refused", !vers::TextIndex::from(symbols.data(), 5, 1, 1, status) && status == Status::refused);
    check("count", text->count(pattern.data(), 2) == 2 && text->count(nullptr, 0) == 6);
    check("contains", text->contains(symbols.data(), 5) && !text->contains(wide.data(), 1));
    const vers::Numbers places = text->places(pattern.data(), 2);
    check("places", Numbers(places.begin(), places.end()) == Numbers({0, 2}));
    const std::vector<std::uint8_t> narrow = {1, 2};
    check("of ranges", text->count(narrow) == 2 && text->count(pattern) == 2 && text->count({2}) == 3);
    check("in braces", text->contains({1, 2, 1}) && !text->contains({1, 1}) && !text->contains(wide));
    const std::vector<Numbers> patterns = {{2}, {}, {1, 2}, {9}};
    check("many patterns", text->count_each(patterns) == Numbers({3, 6, 2, 0}));
    std::uint64_t ends[] = {2, 1};
    check("ends that descend", text->count_each(pattern.data(), 2, ends, 2) == Status::refused && ends[0] == 2);
    const vers::Numbers of_range = text->places(narrow), of_braces = text->places({2});
    check("places of ranges", Numbers(of_range.begin(), of_range.end()) == Numbers({1, 3}) &&
                                  Numbers(of_braces.begin(), of_braces.end()) == Numbers({0, 2, 4}));
    check("with a status", text->places(narrow, status)->len() == 2 && status == Status::done);
    const vers::Numbers first = text->first_places({2}, 2), all = text->first_places(pattern.data(), 2, 9);
    check("first places", Numbers(first.begin(), first.end()) == Numbers({4, 2}));
    check("all places", Numbers(all.begin(), all.end()) == Numbers({2, 0}) && text->first_places({9}, 9).len() == 0);
    const auto piece = text->extract(1, 4);
    check("extract", piece && Numbers(piece->begin(), piece->end()) == Numbers({1, 2, 1}));
    check("no piece", !text->extract(1, 6) && !text->extract(3, 2, status) && status == Status::refused);
    const auto loaded = loaded_form(*text);
    check("loaded", *loaded == *text && loaded->step() == text->step() && loaded->count({2}) == text->count({2}));
    check("no form", !piece->saved_size());
    test_owner(text->clone());
}

static bool is_refused = false, is_refused_once = false;
static unsigned long requests = 0;
static bool is_granted() { return ++requests, !is_refused && !std::exchange(is_refused_once, false); }
extern "C" {
void *__real_malloc(std::size_t size);
void *__real_realloc(void *at, std::size_t size);
void *__wrap_malloc(std::size_t size);
void *__wrap_realloc(void *at, std::size_t size);
void *__wrap_malloc(std::size_t size) { return is_granted() ? __real_malloc(size) : nullptr; }
void *__wrap_realloc(void *at, std::size_t size) { return is_granted() ? __real_realloc(at, size) : nullptr; }
}

// Whether a call throws std::bad_alloc while the library is refused memory.
template <class Call>
static bool is_thrown(Call call) {
    is_refused = true;
    bool is_caught = false;
    try {
        call();
    } catch (const std::bad_alloc &) {
        is_caught = true;
    }
    is_refused = false;
    return is_caught;
}

// What owns nothing answers nothing, as an argument too.
static void test_moved_from() {
    const Numbers documents = {2, 5};
    Status status;
    auto one = *vers::Postings::from(documents.data(), documents.data(), 2);
    check("with itself", one.intersect(one).len() == 2);
    const auto other = std::move(one);
    check("moved", other.len() == 2 && one.len() == 0);
    check("with none", other.intersect(one).len() == 0 && !other.intersect(one, status) && status == Status::refused);
    check("of none", one.intersect(other).len() == 0 && !one.intersect(other, status) && status == Status::refused);
    check("none with itself", one.intersect(one).len() == 0);
    auto text = *vers::TextIndex::from(documents.data(), 2, 8, 1);
    const auto kept = std::move(text);
    check("text", kept.places(documents.data(), 1).len() == 1);
    check("no pattern in none", text.places({2}).len() == 0 && text.count({2}) == 0 && !text.contains({2}));
    check("no patterns in none", text.count_each(std::vector<Numbers>{{2}}) == Numbers({0}));
    check("places in none", text.places(documents.data(), 1).len() == 0 && text.count(documents.data(), 1) == 0);
    check("extract of none", !text.extract(0, 1));
    auto bits = vers::BitVec();
    auto grown = std::move(bits);
    check("change of none", bits.append(true) == Status::vacant && !bits.get(0));
    check("change", grown.append(true) == Status::done);
}

// Null is for a count of 0.
static void test_missing_arrays() {
    Status status;
    check("bits of null", !vers::RsVec::from_words(nullptr, 1, 8, status) && status == Status::refused);
    check("they own nothing", vers::RsVec::from_words(nullptr, 1, 8).len() == 0);
    check("numbers of null", !vers::EliasFanoVec::from(static_cast<std::uint64_t *>(nullptr), 1));
    check("no numbers", vers::EliasFanoVec::from(static_cast<std::uint64_t *>(nullptr), 0)->len() == 0);
    check("load of null", !vers::RsVec::load(nullptr, 8, status) && status == Status::refused);
    check("each of null", vers::BitVec().each(VERS_GET, nullptr, 1) == Status::refused);
}

static void test_memory() {
    const Numbers numbers = {1, 2, 3};
    const vers::RsVec bits = vers::RsVec::from_words(numbers.data(), 3, 192);
    vers::BitVec growing;
    Status status = Status::done;
    check("from_words", is_thrown([&] { vers::RsVec::from_words(numbers.data(), 3, 192); }));
    check("from", is_thrown([&] { vers::EliasFanoVec::from(numbers.data(), 3); }));
    check("append", is_thrown([&] {
              for (int i = 0; i < 10000; i++) (void)growing.append(true);
          }));
    check("as it was", Numbers(growing.begin(), growing.end()) == Numbers(growing.len(), 1));
    const std::list<std::uint64_t> linked(numbers.begin(), numbers.end());
    check("from a range", is_thrown([&] { vers::EliasFanoVec::from(linked); }));
    check("from_bits", is_thrown([&] { vers::BpTree::from_bits(linked.begin(), linked.end()); }));
    const auto text = vers::TextIndex::from(numbers, 2);
    check("count", is_thrown([&] { text->count(linked); }) && is_thrown([&] { text->contains(linked); }));
    check("places", is_thrown([&] { text->places(linked); }));
    is_refused_once = true;
    check("of a pattern", !text->places(linked, status) && status == Status::no_memory);
    is_refused_once = true;
    check("of a range", !vers::FastRmq::from(linked, status) && status == Status::no_memory);
    is_refused_once = true;
    check("of bits", !vers::RsVec::from_bits(linked, status) && status == Status::no_memory);
    is_refused_once = true;
    check("of two", !vers::Postings::from(numbers, linked, status) && status == Status::no_memory);
    is_refused = true;
    check("status", !vers::RsVec::from_words(numbers.data(), 3, 192, status) && status == Status::no_memory);
    const auto other = bits.clone(status); // one that takes no memory is granted
    check("status of clone", other ? status == Status::done && other->len() == 192 : status == Status::no_memory);
    is_refused = false;
    check("still there", bits.len() == 192);
}

// How often a call requests memory.
template <class Call>
static unsigned long count_requests(Call call) {
    const unsigned long before = requests;
    call();
    return requests - before;
}

// Numbers of 64 bits in an array are not copied before the list is made, and others are.
static void test_copies() {
    const Numbers numbers = {1, 2, 3};
    const std::list<std::uint64_t> linked(numbers.begin(), numbers.end());
    const unsigned long least = count_requests([&] { vers::FastRmq::from(numbers.data(), 3); });
    check("container", count_requests([&] { vers::FastRmq::from(numbers); }) == least);
    check("pointers", count_requests([&] { vers::FastRmq::from(numbers.data(), numbers.data() + 3); }) == least);
    check("copy", count_requests([&] { vers::FastRmq::from(linked); }) == least + 1);
}

static void test_constructors() {
    Numbers numbers = random_numbers(1000, 30), bits = random_numbers(200, 2);
    test_from<vers::WaveletMatrix>(numbers, 5u);
    test_from<vers::TextIndex>(numbers, 5u);
    test_from<vers::TextIndex>(numbers, 5u, std::size_t{7});
    test_from<vers::FastRmq>(numbers);
    test_from<vers::BinaryRmq>(numbers);
    std::sort(numbers.begin(), numbers.end());
    test_from<vers::EliasFanoVec>(numbers);
    numbers.erase(std::unique(numbers.begin(), numbers.end()), numbers.end());
    test_from<vers::SparseRSVec>(numbers, std::uint64_t{40});
    for (std::size_t length : {200u, 192u, 0u}) {
        bits.resize(length);
        test_from_bits<vers::BitVec>(bits);
        test_from_bits<vers::RsVec>(bits);
        test_from_bits<vers::BpTree>(bits);
    }
    std::uint64_t array[] = {2, 1, 2, 1, 2};
    check("array of C", vers::TextIndex::from(array, 3, 2)->len() == 3);
    check("one item", !vers::FastRmq::from({7}).is_empty() && vers::FastRmq::from(Numbers()).is_empty());
    const auto text = vers::TextIndex::from({2, 1, 2}, 2);
    check("in braces", vers::EliasFanoVec::from({2, 5, 90})->get(2) == Found(90) && text->step() == 32);
    check("of a list", vers::FastRmq::from(*vers::EliasFanoVec::from({2, 5})) == vers::FastRmq::from({2, 5}));
    Status status;
    check("why", !vers::EliasFanoVec::from({2, 1}, status) && status == Status::refused);
    check("refused", !vers::EliasFanoVec::from({2, 1}) && !vers::SparseRSVec::from({9}, 9));
    check("refused text", !vers::TextIndex::from({4}, 2) && !vers::TextIndex::from({4}, 3, 0));
    check("null", !vers::RsVec::from_bits(static_cast<bool *>(nullptr), 1, status) && status == Status::refused);
}

static void test_characters() {
    const std::string bytes = "abracadabra";
    const auto text = vers::TextIndex::from(bytes, 8);
    check("a string", text && text->len() == 11 && text->step() == 32);
    check("with a step", *vers::TextIndex::from(bytes, 8, 4) == *text);
    check("too wide", !vers::TextIndex::from(bytes, 6));
    check("a literal", text->count("abra") == 2 && text->count("x") == 0 && text->count("") == 12);
    check("a pattern", text->count(bytes) == 1 && text->contains("cad") && !text->contains("dac"));
    check("views", text->count(std::string_view(bytes).substr(0, 1)) == 5);
    const auto places = text->places("abra");
    check("places", places.len() == 2 && places[0] == 0 && places[1] == 7);
    check("the first position", text->first_places("a", 1).len() == 1);
    const std::vector<std::string> patterns = {"br", "a", "", "x"};
    check("many", text->count_each(patterns) == std::vector<std::uint64_t>({2, 5, 12, 0}));
    const auto symbols = vers::WaveletMatrix::from(bytes, 8);
    check("symbols", symbols->rank(11, 'a') == Found(5) && (*symbols)[4] == 'c' && symbols->size() == 11);
    const std::string high = "\xff\x80";
    check("bytes above 127", (*vers::WaveletMatrix::from(high, 8))[0] == 255);
}

static void test_empty_objects() {
    struct Lists {
        vers::RsVec bits;
        vers::EliasFanoVec numbers;
        vers::WaveletMatrix symbols;
        vers::SparseRSVec sparse;
        vers::FastRmq fast;
        vers::BinaryRmq binary;
        vers::BpTree tree;
        vers::Postings postings;
        vers::InvertedIndex inverted;
        vers::TextIndex text;
        vers::Numbers some;
    } lists;
    check("nothing", lists.bits.len() == 0 && lists.bits.rank1(5) == 0 && !lists.numbers.get(0));
    check("no text", lists.text.count("a") == 0 && lists.inverted.count(0) == 0 && !lists.tree.root());
    check("no items", lists.symbols.is_empty() && lists.sparse[3] == 0 && lists.fast.size() == 0);
    check("as nothing", lists.binary == vers::BinaryRmq() && lists.postings == vers::Postings() && lists.some.len() == 0);
    lists.bits = vers::RsVec::from_bits({true, false, true});
    check("moved to", lists.bits.ones() == 2 && lists.bits[2] == 1 && lists.bits[3] == 0);
}

static void test_constructors_of_postings() {
    const Numbers documents = {2, 3, 5}, costs = {7, 1, 4};
    const std::list<std::uint32_t> narrow(documents.begin(), documents.end());
    const std::list<std::uint16_t> cheap(costs.begin(), costs.end());
    const auto list = vers::Postings::from(documents.data(), costs.data(), 3);
    Status status = Status::absent;
    check("iterators", list == vers::Postings::from(narrow.begin(), narrow.end(), costs.begin()));
    check("containers", list == vers::Postings::from(documents, cheap) && list == vers::Postings::from(narrow, costs));
    check("braces", list == vers::Postings::from({2, 3, 5}, {7, 1, 4}));
    check("status", list == vers::Postings::from(documents, cheap, status) && status == Status::done);
    status = Status::absent;
    check("status of iterators", list == vers::Postings::from(narrow.begin(), narrow.end(), cheap.begin(), status));
    check("done", status == Status::done && list->cost(2) == Found(4));
    check("fewer costs", !vers::Postings::from({2, 3}, {7}) && !vers::Postings::from({2}, {7, 8}, status));
    check("refused", status == Status::refused && !vers::Postings::from({3, 2}, {1, 1}));
    check("another cost", list != vers::Postings::from({2, 3, 5}, {7, 1, 5}));
    check("another document", list != vers::Postings::from({2, 3, 6}, {7, 1, 4}));
}

static void test_equality() {
    const Numbers bits = random_numbers(1001, 2), numbers = random_numbers(1001, 8);
    test_differences<vers::BitVec>(bits, [](const Numbers &it) { return vers::BitVec::from_bits(it); });
    test_differences<vers::RsVec>(bits, [](const Numbers &it) { return vers::RsVec::from_bits(it); });
    test_differences<vers::BpTree>(bits, [](const Numbers &it) { return vers::BpTree::from_bits(it); });
    test_differences<vers::FastRmq>(numbers, [](const Numbers &it) { return vers::FastRmq::from(it); });
    test_differences<vers::BinaryRmq>(numbers, [](const Numbers &it) { return vers::BinaryRmq::from(it); });
    test_differences<vers::WaveletMatrix>(numbers, [](const Numbers &it) { return *vers::WaveletMatrix::from(it, 3); });
    test_differences<vers::TextIndex>(numbers, [](const Numbers &it) { return *vers::TextIndex::from(it, 3); });
    test_differences<vers::EliasFanoVec>(numbers, [](const Numbers &it) {
        Numbers sorted = it; // ascends by 2 or more, so that one more or less is another list
        for (std::size_t i = 0; i < sorted.size(); i++) sorted[i] += 10 * i;
        return *vers::EliasFanoVec::from(sorted);
    });
    test_differences<vers::SparseRSVec>(bits, [](const Numbers &it) {
        Numbers ones;
        for (std::size_t i = 0; i < it.size(); i++)
            if (it[i]) ones.push_back(i);
        return *vers::SparseRSVec::from(ones, it.size());
    });
    check("another one", *vers::SparseRSVec::from({1, 3}, 6) != *vers::SparseRSVec::from({1, 4}, 6));
    check("a longer sparse list", *vers::SparseRSVec::from({1}, 5) != *vers::SparseRSVec::from({1}, 6));
    check("a wider symbol", *vers::WaveletMatrix::from({1}, 5) != *vers::WaveletMatrix::from({1}, 6));
    check("a wider text", *vers::TextIndex::from({1}, 5) != *vers::TextIndex::from({1}, 6));
    check("another step", *vers::TextIndex::from({1, 2}, 5, 1) == *vers::TextIndex::from({1, 2}, 5, 9));
    const Numbers pattern = {3};
    const auto text = vers::TextIndex::from(numbers, 3);
    check("numbers", text->places(pattern.data(), 1) == text->places(pattern.data(), 1));
    check("more numbers", text->extract(0, 500) != text->extract(0, 501));
    check("no numbers", *text->extract(3, 3) == *text->extract(5, 5));
    Numbers long_text = random_numbers(70000, 4);
    const auto whole = vers::TextIndex::from(long_text, 2);
    check("long texts", whole == vers::TextIndex::from(long_text, 2, 8));
    long_text.back() ^= 1;
    check("the last symbol", whole != vers::TextIndex::from(long_text, 2));
    long_text.back() ^= 1;
    long_text[65535] ^= 1;
    check("the last symbol of a piece", whole != vers::TextIndex::from(long_text, 2));
}

// The iterators of lists move by any distance.
static void test_iterators() {
    const auto list = vers::EliasFanoVec::from({2, 5, 90, 91});
    const auto first = list->begin(), last = list->end();
    auto item = first;
    check("distance", last - first == 4 && first + 4 == last && last - 4 == first && 1 + first == first + 1);
    check("index", first[2] == 90 && *(last - 1) == 91);
    check("steps", *++item == 5 && *item++ == 5 && *item == 90 && *--item == 5 && *item-- == 5 && item == first);
    check("jumps", *(item += 3) == 91 && *(item -= 2) == 5);
    check("order", first < item && item > first && first <= item && item >= first && item != first);
    check("no order", !(first < first) && !(first > first) && first <= first && first >= first && !(last <= first));
    const vers::BpTree tree = vers::BpTree::from_bits({1, 1, 0, 0});
    check("parentheses", Numbers(tree.begin(), tree.end()) == Numbers({1, 1, 0, 0}) && !tree.get(4));
}

#if defined(__cpp_lib_ranges)
template <class List>
constexpr bool is_range = std::ranges::random_access_range<const List> && std::ranges::sized_range<const List>;
static_assert(is_range<vers::BitVec> && is_range<vers::RsVec> && is_range<vers::SparseRSVec> &&
              is_range<vers::EliasFanoVec> && is_range<vers::WaveletMatrix> && is_range<vers::FastRmq> &&
              is_range<vers::BinaryRmq> && is_range<vers::BpTree> && is_range<vers::Postings> &&
              is_range<vers::Numbers> && !std::ranges::range<vers::TextIndex>);

// Lists are ranges, and made of ranges. (Clang before 16 compiles no views of the standard library of GCC.)
static void test_ranges() {
    const Numbers squares = {0, 1, 4, 9, 16, 25};
    const auto list = vers::EliasFanoVec::from(std::span(squares));
    check("span", list && std::ranges::equal(*list, squares));
    check("lower_bound", std::ranges::lower_bound(*list, 10u) - list->begin() == 4);
    check("words", vers::BitVec::from_words(std::span(squares), 130).len() == 130);
#if !defined(__clang__) || __clang_major__ >= 16
    auto square = [](std::uint64_t number) { return number * number; };
    auto numbers = std::views::iota(std::uint64_t{0}) | std::views::transform(square);
    auto is_below_30 = [](std::uint64_t number) { return number < 30; };
    check("views", list == vers::EliasFanoVec::from(numbers | std::views::take_while(is_below_30)));
    auto is_even = [](std::uint64_t number) { return number % 2 == 0; };
    auto even = *list | std::views::filter(is_even);
    check("filter", vers::FastRmq::from(even) == vers::FastRmq::from({0, 4, 16}));
    check("bits", vers::RsVec::from_bits(*list | std::views::transform(is_even)).ones() == 3);
    check("reverse", *(*list | std::views::reverse | std::views::drop(1)).begin() == 16);
    const auto other = vers::Postings::from(*list, numbers | std::views::take(6));
    check("costs", other && other->cost(5) == Found(25));
    std::istringstream text("3 5 8");
    const auto read = vers::EliasFanoVec::from(std::views::istream<std::uint64_t>(text));
    check("stream", read == vers::EliasFanoVec::from({3, 5, 8}));
#endif
}
#else
static void test_ranges() {}
#endif

/** What the page says to programs that come from sdsl-lite. */
static void test_ported() {
    vers::BitVec growing = vers::BitVec::from_words(Numbers((100 + 63) / 64), 100);
    check("set", growing.set(3, true) == Status::done && growing.set(70, true) == Status::done);
    const auto bits = vers::RsVec::from_bits(growing);
    check("ranks", bits.len() == 100 && bits.rank1(4) == 1);
    check("selects from 0", bits.select1(0) == 3 && bits.select1(1) == 70);
    const auto text = vers::TextIndex::from(std::string("abracadabra"), 8);
    check("locate", listed(text->places("abra")) == Numbers{0, 7});
    check("extract", listed(*text->extract(1, 4)) == Numbers{'b', 'r', 'a'});
    const std::int64_t values[] = {5, -7, 3, -7};
    Numbers shifted;
    for (const std::int64_t it : values) shifted.push_back(static_cast<std::uint64_t>(it) ^ (std::uint64_t{1} << 63));
    check("the leftmost of signed minima", vers::FastRmq::from(shifted).range_min(0, 3) == Found(1));
    const auto tree = vers::BpTree::from_bits({1, 1, 0, 1, 0, 0});
    check("parentheses", tree.close(0) == Found(5) && tree.enclose(3) == Found(0) && tree.node_handle(2) == 3);
    std::vector<std::uint8_t> bytes(static_cast<std::size_t>(*bits.saved_size()));
    check("saved", bits.save(bytes.data(), bytes.size()) == Status::done);
    check("loaded", vers::RsVec::load(bytes.data(), bytes.size()) == bits);
}

static void test_threads() {
    const Numbers bits = random_numbers(2000, 2);
    const vers::RsVec list = vers::RsVec::from_bits(bits.begin(), bits.end());
    std::vector<std::thread> threads;
    std::vector<char> agrees(4, 0);
    for (std::size_t k = 0; k < agrees.size(); k++)
        threads.emplace_back([&bits, &agree = agrees[k], own = list.clone()] {
            std::uint64_t ones = 0, wrong = 0;
            for (std::size_t i = 0; i < bits.size(); ones += bits[i++]) wrong += own.rank1(i) != ones;
            agree = wrong == 0;
        });
    for (auto &thread : threads) thread.join();
    for (char agree : agrees) check("thread", agree == 1);
}

int main() {
    test_bits();
    test_bit_vec();
    test_sparse();
    test_sorted();
    test_sets();
    test_symbols();
    test_minima();
    test_tree();
    test_inverted();
    test_postings();
    test_narrow<std::uint8_t>(8, 255);
    test_narrow<std::uint16_t>(16, 65535);
    test_narrow<std::uint32_t>(32, 4294967295);
    test_texts();
    test_moved_from();
    test_missing_arrays();
    test_constructors();
    test_characters();
    test_empty_objects();
    test_constructors_of_postings();
    test_equality();
    test_iterators();
    test_ranges();
    test_memory();
    test_copies();
    test_ported();
    test_threads();
    std::printf("%lu passed, %lu failed\n", passed, failed);
    return failed != 0;
}
