/** @file vers.hpp
 *  The lists of vers.h for C++17 and later, in this header alone, under the names of the crate vers-vecs.
 *
 *      auto bits = vers::RsVec::from_bits(flags);
 *      bits.rank1(1000);                                      // a number
 *      auto numbers = vers::EliasFanoVec::from({2, 5, 90});   // nullopt if they don't ascend
 *      if (auto next = numbers->successor(17)) use(*next);    // nullopt if there is none
 *
 *  Owners. Each object owns its list, can be moved but not copied, and frees the list when it is destroyed. A
 *  moved-from object owns nothing: its queries return 0 or nullopt, and its clone and the Numbers that it returns own
 *  nothing.
 *
 *  Constructors. `from`, `from_words` and `from_bits` take a pointer and a length, two iterators, or a range: a
 *  container, a span, a view, numbers in braces. The other arguments that a class names follow, such as a width; only
 *  InvertedIndex takes its limits first: `from(limit, universe, terms, documents)`. They return the list, or
 *  std::optional of it if the arguments can be refused. With a Status as the last argument they return std::optional,
 *  throw only what an iterator throws, and set the status to the reason if there is no list.
 *  Null is accepted with length 0. Null with another length is refused, or the list owns nothing. An array of 64-bit
 *  numbers is read without a copy. Iterators and ranges are over unsigned integers, those of `from_bits` over
 *  integers or truth values: other items don't compile. Only a WaveletMatrix, a TextIndex and its patterns
 *  take characters, as bytes.
 *
 *  Patterns. That of a TextIndex is a pointer and a length, or such a range.
 *
 *  Ranges. A list with `begin` and `end` is a range, with random access in C++20. An iterator refers to the object of
 *  its list: it is invalid once that object is moved from, moved to or destroyed, such as by a container of lists that
 *  grows.
 *  Lists compare by their contents.
 *
 *  Exceptions. Only std::bad_alloc, if an allocation fails. If exceptions are off, or VERS_NO_EXCEPTIONS is defined,
 *  nothing throws: a change returns Status::no_memory, and a constructor without a Status, or == of a TextIndex, ends
 *  the program.
 *
 *  Threads. One thread at a time uses an object, although its queries are `const`, which means that the list doesn't
 *  change. Each thread uses an owner of its own, which `clone` makes in constant time. */
#ifndef VERS_HPP
#define VERS_HPP

#include <algorithm>
#include <cstddef>
#include <cstdint>
#include <cstdlib>
#include <initializer_list>
#include <iterator>
#include <new>
#include <optional>
#include <string_view>
#include <type_traits>
#include <utility>
#include <vector>

#include "vers.h"

namespace vers {

/** The result of a call: the statuses of vers.h. */
enum class Status : std::uint32_t {
    done = VERS_DONE,
    absent = VERS_ABSENT,
    unknown = VERS_UNKNOWN,
    vacant = VERS_VACANT,
    refused = VERS_REFUSED,
    occupied = VERS_OCCUPIED,
    no_memory = VERS_NO_MEMORY,
    shared = VERS_SHARED,
    too_short = VERS_TOO_SHORT,
    not_ours = VERS_NOT_OURS,
    other_version = VERS_OTHER_VERSION,
    other_kind = VERS_OTHER_KIND,
    bad_length = VERS_BAD_LENGTH,
    bad_sum = VERS_BAD_SUM,
    bad_padding = VERS_BAD_PADDING,
    not_ascending = VERS_NOT_ASCENDING,
    not_a_text = VERS_NOT_A_TEXT,
};

/** Returns the text of a status. */
inline const char *text(Status status) noexcept { return vers_status_text(static_cast<std::uint32_t>(status)); }

/** The number that `each` and `rows` write if there is no answer, unless the caller passes another one. */
constexpr std::uint64_t none = UINT64_MAX;

/** The three numbers of one query of a batch. */
using Row = vers_row;

class TextIndex;

/// @cond what the classes below share
namespace detail {

inline Status thrown(std::uint32_t status) {
#if defined(__cpp_exceptions) && !defined(VERS_NO_EXCEPTIONS)
    if (status == VERS_NO_MEMORY) throw std::bad_alloc();
#endif
    return static_cast<Status>(status);
}

inline std::optional<std::uint64_t> found(vers_answer answer) noexcept {
    if (answer.status != VERS_DONE) return std::nullopt;
    return answer.value;
}

#if defined(__cpp_lib_ranges)
template <class Iterator>
using Value = std::iter_value_t<Iterator>;
#else
template <class Iterator>
using Value = typename std::iterator_traits<Iterator>::value_type;
#endif

/** The type of the items of a range. No array of C is one: a length follows it. */
template <class Range>
using Item = std::enable_if_t<!std::is_array_v<std::remove_reference_t<Range>>,
                              Value<decltype(std::begin(std::declval<Range &>()))>>;

/** Two iterators as a range. */
template <class Iterator>
struct Between {
    Iterator first, last;
    Iterator begin() const { return first; }
    Iterator end() const { return last; }
};
template <class Number>
struct Between<Number *> {
    Number *first, *last;
    Number *data() const noexcept { return first; }
    std::size_t size() const noexcept { return static_cast<std::size_t>(last - first); }
    Number *begin() const noexcept { return first; }
    Number *end() const noexcept { return last; }
};

/** Numbers on the heap of C, which refuses memory without an exception. */
class Buffer {
public:
    Buffer() = default;
    Buffer(const Buffer &) = delete;
    Buffer &operator=(const Buffer &) = delete;
    ~Buffer() { std::free(numbers_); }

    const std::uint64_t *data() const noexcept { return numbers_; }
    std::size_t size() const noexcept { return count_; }
    std::uint64_t &back() noexcept { return numbers_[count_ - 1]; }

    /** Returns whether there was memory for one more number. */
    bool append(std::uint64_t number) noexcept {
        if (count_ == room_) {
            const std::size_t room = 2 * room_ + 64;
            void *larger = room > SIZE_MAX / sizeof number ? nullptr : std::realloc(numbers_, room * sizeof number);
            if (larger == nullptr) return false;
            numbers_ = static_cast<std::uint64_t *>(larger);
            room_ = room;
        }
        numbers_[count_++] = number;
        return true;
    }

private:
    std::uint64_t *numbers_ = nullptr;
    std::size_t count_ = 0, room_ = 0;
};

/** Characters that are adjacent in memory as bytes, and any other range itself. */
template <class Range>
decltype(auto) symbols_of(Range &range) {
    if constexpr (std::is_same_v<Item<Range>, char>) {
        const auto *bytes = reinterpret_cast<const std::uint8_t *>(std::data(range));
        return Between<const std::uint8_t *>{bytes, bytes + std::size(range)};
    } else {
        return (range);
    }
}

template <class Range, class = void>
constexpr bool is_array_of_numbers = false;
template <class Range>
constexpr bool is_array_of_numbers<Range, std::void_t<decltype(std::data(std::declval<Range &>()))>> =
    std::is_convertible_v<decltype(std::data(std::declval<Range &>())), const std::uint64_t *>;

/** What `make` returns of the numbers of a range, as an array and its length; nullopt if there is no memory for a
 *  copy. */
template <class Range, class Make>
auto with_numbers(Range &range, Status &status, Make &&make) -> decltype(make(nullptr, 0)) {
    static_assert(std::is_unsigned_v<Item<Range>>, "the items are unsigned whole numbers");
    if constexpr (is_array_of_numbers<Range>) {
        return make(std::data(range), std::size(range));
    } else {
        Buffer numbers;
        for (auto &&number : range)
            if (!numbers.append(number)) return status = Status::no_memory, std::nullopt;
        return make(numbers.data(), numbers.size());
    }
}

/** Does the same with the truth values of a range, as words, how many these are, and how many bits. */
template <class Range, class Make>
auto with_bits(Range &range, Status &status, Make &&make) -> decltype(make(nullptr, 0, 0)) {
    static_assert(std::is_integral_v<Item<Range>>, "the items are truth values, or whole numbers");
    static_assert(!std::is_same_v<Item<Range>, char>, "the items are characters, of which each is true");
    Buffer words;
    std::size_t length = 0;
    for (auto &&bit : range) {
        if (length % 64 == 0 && !words.append(0)) return status = Status::no_memory, std::nullopt;
        if (bit) words.back() |= std::uint64_t{1} << (length % 64);
        ++length;
    }
    return make(words.data(), words.size(), length);
}

/** An iterator over the items of a list, by their positions. C++17 demands a reference of all but an input iterator. */
template <class List>
class Items {
public:
    using iterator_category = std::input_iterator_tag;
    using iterator_concept = std::random_access_iterator_tag;
    using value_type = std::uint64_t;
    using difference_type = std::ptrdiff_t;
    using pointer = const std::uint64_t *;
    using reference = std::uint64_t;

    Items() noexcept = default;
    Items(const List *list, std::uint64_t position) noexcept : list_(list), position_(position) {}
    std::uint64_t operator*() const noexcept { return list_->get(position_).value_or(0); }
    std::uint64_t operator[](difference_type count) const noexcept { return *(*this + count); }
    Items &operator++() noexcept { return ++position_, *this; }
    Items &operator--() noexcept { return --position_, *this; }
    Items operator++(int) noexcept { return Items(list_, position_++); }
    Items operator--(int) noexcept { return Items(list_, position_--); }
    Items &operator+=(difference_type count) noexcept {
        return position_ += static_cast<std::uint64_t>(count), *this;
    }
    Items &operator-=(difference_type count) noexcept {
        return position_ -= static_cast<std::uint64_t>(count), *this;
    }
    friend Items operator+(Items item, difference_type count) noexcept { return item += count; }
    friend Items operator+(difference_type count, Items item) noexcept { return item += count; }
    friend Items operator-(Items item, difference_type count) noexcept { return item -= count; }
    friend difference_type operator-(const Items &one, const Items &other) noexcept {
        return static_cast<difference_type>(one.position_ - other.position_);
    }
    friend bool operator==(const Items &one, const Items &other) noexcept { return one.position_ == other.position_; }
    friend bool operator!=(const Items &one, const Items &other) noexcept { return one.position_ != other.position_; }
    friend bool operator<(const Items &one, const Items &other) noexcept { return one.position_ < other.position_; }
    friend bool operator>(const Items &one, const Items &other) noexcept { return one.position_ > other.position_; }
    friend bool operator<=(const Items &one, const Items &other) noexcept { return one.position_ <= other.position_; }
    friend bool operator>=(const Items &one, const Items &other) noexcept { return one.position_ >= other.position_; }

private:
    const List *list_ = nullptr;
    std::uint64_t position_ = 0;
};

/** What all lists have: their owner, queries by code, and a saved form, if there is a kind of it. */
template <class List, class Raw, int Kind = -1>
class Owner {
public:
    Owner(const Owner &) = delete;
    Owner &operator=(const Owner &) = delete;
    Owner(Owner &&other) noexcept : raw_(std::exchange(other.raw_, Raw{})) {}
    Owner &operator=(Owner &&other) noexcept {
        if (this != &other) {
            vers_free(&raw_.handle);
            raw_ = std::exchange(other.raw_, Raw{});
        }
        return *this;
    }
    ~Owner() { vers_free(&raw_.handle); }

    /** Returns another owner of the list, for another thread, in constant time. Of an object that owns nothing,
     *  another one, or Status::vacant. */
    List clone() const {
        Status status;
        return needed(clone(status), status);
    }
    std::optional<List> clone(Status &status) const noexcept {
        return made(status, [&](Raw *raw) { return vers_clone(handle(), &raw->handle); });
    }

    /** Returns the number of items. `size` is the same, except that a BpTree has as many nodes. */
    std::uint64_t len() const noexcept { return ask(VERS_LEN).value; }
    std::uint64_t size() const noexcept { return len(); }
    bool is_empty() const noexcept { return len() == 0; }
    /** Returns the item at a position; 0 past the end, for which `get` returns nullopt. */
    std::uint64_t operator[](std::uint64_t position) const noexcept {
        return static_cast<const List &>(*this).get(position).value_or(0);
    }
    /** Returns the number of bytes of the heap that the list takes. 0 for Numbers, which have no such query. */
    std::uint64_t heap_size() const noexcept { return ask(VERS_HEAP_SIZE).value; }

    /** Replaces each number by the answer of a query of this number, or by `other` if there is no answer.
     *  Status::unknown if the list has no such query, and the numbers stay. */
    Status each(vers_query query, std::uint64_t *numbers, std::size_t count,
                std::uint64_t other = none) const noexcept {
        return static_cast<Status>(vers_asked_each(&raw_.handle, query, numbers, count, 0, 0, other));
    }

    /** Replaces the a of each row by the answer of a query of its a, b and c, as `each` does. */
    Status rows(vers_query query, Row *rows, std::size_t count, std::uint64_t other = none) const noexcept {
        return static_cast<Status>(vers_asked_rows(&raw_.handle, query, rows, count, other));
    }

    /** Returns the number of bytes of the saved form. nullopt if there is none: of symbols without bits, and of
     *  Numbers. */
    std::optional<std::uint64_t> saved_size() const noexcept { return found(vers_saved_size(handle())); }

    /** Writes the saved form to `count` bytes, which is what `saved_size` returns; Status::refused for another
     *  count. */
    Status save(std::uint8_t *bytes, std::size_t count) const { return thrown(vers_saved(handle(), bytes, count)); }

    /** Loads a list from its saved form. nullopt for other bytes; the status names the test that fails. */
    static std::optional<List> load(const std::uint8_t *bytes, std::size_t count) {
        Status status;
        return wanted(load(bytes, count, status), status);
    }
    static std::optional<List> load(const std::uint8_t *bytes, std::size_t count, Status &status) noexcept {
        static_assert(Kind >= 0, "this list isn't loaded");
        return made(status, [&](Raw *raw) {
            return vers_loaded(static_cast<vers_kind>(Kind), bytes, count, &raw->handle);
        });
    }

    /** Returns the list as one of vers.h, which this object still owns. */
    const Raw *raw() const noexcept { return &raw_; }

    /** Returns whether two lists have the same contents, or both own nothing. */
    friend bool operator==(const List &one, const List &other) { return are_equal(one, other); }
    friend bool operator!=(const List &one, const List &other) { return !are_equal(one, other); }

protected:
    Owner() noexcept : raw_{} {}

    vers_answer ask(vers_query query, std::uint64_t a = 0, std::uint64_t b = 0, std::uint64_t c = 0) const noexcept {
        return vers_asked(&raw_.handle, query, a, b, c);
    }

    std::optional<std::uint64_t> find(vers_query query, std::uint64_t a = 0, std::uint64_t b = 0,
                                      std::uint64_t c = 0) const noexcept {
        return found(ask(query, a, b, c));
    }

    Status change(vers_change_code change, std::uint64_t a, std::uint64_t b = 0) {
        return thrown(vers_change(&raw_.handle, static_cast<std::uint32_t>(change), a, b));
    }

    vers_handle *handle() const noexcept { return const_cast<vers_handle *>(&raw_.handle); }

    static bool are_equal(const List &one, const List &other) {
        const vers_answer length = one.ask(VERS_LEN), of_other = other.ask(VERS_LEN);
        if (length.status != of_other.status || length.value != of_other.value) return false;
        return one.has_contents_of(other);
    }

    /** Returns whether another list of the same length has the same contents. */
    bool has_contents_of(const List &other) const { return agrees(other, VERS_GET, len()); }

    /** Returns whether a query answers the same in another list for each of the numbers 0, `step`, 2 `step` .. below
     *  `end`. */
    bool agrees(const List &other, vers_query query, std::uint64_t end, std::uint64_t step = 1,
                std::uint64_t b = 0) const noexcept {
        std::uint64_t here[256], there[256];
        for (std::uint64_t number = 0; number < end;) {
            std::size_t count = 0;
            for (; count < 256 && number < end; number += step) here[count++] = number;
            std::copy(here, here + count, there);
            vers_asked_each(&raw_.handle, query, here, count, b, 0, none);
            vers_asked_each(&other.raw_.handle, query, there, count, b, 0, none);
            if (!std::equal(here, here + count, there)) return false;
        }
        return true;
    }

    /** Does the same for all bits, 64 at a time. */
    bool has_bits_of(const List &other) const noexcept {
        const std::uint64_t rest = len() % 64, last = len() - rest;
        return agrees(other, VERS_GET_BITS, last, 64, 64) &&
               (rest == 0 || find(VERS_GET_BITS, last, rest) == other.find(VERS_GET_BITS, last, rest));
    }

    template <class Build>
    static std::optional<List> made(Status &status, Build &&build) noexcept {
        std::optional<List> list{List(Nothing{})};
        status = static_cast<Status>(build(&list->raw_));
        if (status != Status::done) list.reset();
        return list;
    }

    /** A list that is refused only because memory is out, or one that owns nothing if there is nothing to make it
     *  of. */
    static List needed(std::optional<List> &&list, const Status &status) {
        list = wanted(std::move(list), status);
        return list ? std::move(*list) : List(Nothing{});
    }

    /** A list that may be refused. */
    static std::optional<List> wanted(std::optional<List> &&list, const Status &status) {
        thrown(static_cast<std::uint32_t>(status));
        if (status == Status::no_memory) std::abort();
        return std::move(list);
    }

    /** A list, as its constructor returns it: `Made` is the list itself, or std::optional of it. */
    template <class Made>
    static Made given(std::optional<List> &&list, const Status &status) {
        if constexpr (std::is_same_v<Made, List>) return needed(std::move(list), status);
        else return wanted(std::move(list), status);
    }

    template <class, class, auto, class...>
    friend class FromNumbers;
    template <class, auto>
    friend class FromBits;
    struct Nothing {};
    Raw raw_;
};

/** The call that makes what `Build` does from numbers of another type. */
template <auto Build, class Number>
inline constexpr std::nullptr_t narrow_build = nullptr;
template <>
inline constexpr auto narrow_build<vers_symbols_build, std::uint8_t> = vers_symbols_build_bytes;
template <>
inline constexpr auto narrow_build<vers_symbols_build, std::uint16_t> = vers_symbols_build_u16s;
template <>
inline constexpr auto narrow_build<vers_symbols_build, std::uint32_t> = vers_symbols_build_u32s;
template <>
inline constexpr auto narrow_build<vers_text_build, std::uint8_t> = vers_text_build_bytes;
template <>
inline constexpr auto narrow_build<vers_text_build, std::uint16_t> = vers_text_build_u16s;

/** Whether there is such a call, by its type: under -fsanitize=undefined, g++ compares no address in a constant. */
template <auto Build, class Number>
inline constexpr bool has_narrow_build = !std::is_same_v<decltype(narrow_build<Build, Number>), const std::nullptr_t>;

/** Whether `Build` takes characters as bytes. */
template <auto Build>
inline constexpr bool takes_characters = has_narrow_build<Build, std::uint8_t>;

/** Whether `Build` has such a call for the items of a range that are adjacent in memory. */
template <auto Build, class Range, class = void>
inline constexpr bool is_narrow = false;
template <auto Build, class Range>
inline constexpr bool is_narrow<Build, Range, std::void_t<decltype(std::data(std::declval<Range &>()))>> =
    has_narrow_build<Build, Item<Range>>;

/** The constructors `from` of a list of numbers, which `Build` makes, of further arguments `More`. */
template <class List, class Made, auto Build, class... More>
class FromNumbers {
public:
    static Made from(const std::uint64_t *numbers, std::size_t count, More... more) {
        Status status;
        return List::template given<Made>(from(numbers, count, more..., status), status);
    }
    static std::optional<List> from(const std::uint64_t *numbers, std::size_t count, More... more,
                                    Status &status) noexcept {
        return List::made(status, [&](auto *raw) -> std::uint32_t {
            if (vers_is_missing(numbers, count)) return VERS_REFUSED;
            return Build(vers_array(numbers), count, more..., &raw->handle);
        });
    }
    template <class Iterator, class = Value<Iterator>>
    static Made from(Iterator first, Iterator last, More... more) {
        return from(Between<Iterator>{first, last}, more...);
    }
    template <class Iterator, class = Value<Iterator>>
    static std::optional<List> from(Iterator first, Iterator last, More... more, Status &status) {
        return from(Between<Iterator>{first, last}, more..., status);
    }
    template <class Range = std::initializer_list<std::uint64_t>, class = Item<Range>>
    static Made from(Range &&range, More... more) {
        Status status;
        return List::template given<Made>(from(range, more..., status), status);
    }
    template <class Range = std::initializer_list<std::uint64_t>, class = Item<Range>>
    static std::optional<List> from(Range &&range, More... more, Status &status) {
        if constexpr (takes_characters<Build> && std::is_same_v<Item<Range>, char>) {
            return from(symbols_of(range), more..., status);
        } else if constexpr (is_narrow<Build, Range>) {
            return List::made(status, [&](auto *raw) {
                const auto *numbers = static_cast<const Item<Range> *>(vers_some(std::data(range)));
                return narrow_build<Build, Item<Range>>(numbers, std::size(range), more..., &raw->handle);
            });
        } else {
            return with_numbers(range, status, [&](const std::uint64_t *numbers, std::size_t count) {
                return from(numbers, count, more..., status);
            });
        }
    }
};

/** The constructors of a list of bits, which `Build` makes of words. */
template <class List, auto Build>
class FromBits {
    using FromWords = FromNumbers<List, List, Build, std::size_t>;

public:
    /** Returns the first `length` bits of `count` words, or all of them; the lowest bit of a word comes first. */
    static List from_words(const std::uint64_t *words, std::size_t count, std::size_t length) {
        return FromWords::from(words, count, length);
    }
    static std::optional<List> from_words(const std::uint64_t *words, std::size_t count, std::size_t length,
                                          Status &status) noexcept {
        return FromWords::from(words, count, length, status);
    }
    template <class Iterator, class = Value<Iterator>>
    static List from_words(Iterator first, Iterator last, std::size_t length) {
        return from_words(Between<Iterator>{first, last}, length);
    }
    template <class Iterator, class = Value<Iterator>>
    static std::optional<List> from_words(Iterator first, Iterator last, std::size_t length, Status &status) {
        return from_words(Between<Iterator>{first, last}, length, status);
    }
    template <class Range = std::initializer_list<std::uint64_t>, class = Item<Range>>
    static List from_words(Range &&range, std::size_t length) {
        static_assert(sizeof(Item<Range>) == 8, "the items are words of 64 bits");
        return FromWords::from(range, length);
    }
    template <class Range = std::initializer_list<std::uint64_t>, class = Item<Range>>
    static std::optional<List> from_words(Range &&range, std::size_t length, Status &status) {
        static_assert(sizeof(Item<Range>) == 8, "the items are words of 64 bits");
        return FromWords::from(range, length, status);
    }

    /** A one for each true item. */
    template <class Bit>
    static List from_bits(const Bit *bits, std::size_t count) {
        Status status;
        return List::needed(from_bits(bits, count, status), status);
    }
    template <class Bit>
    static std::optional<List> from_bits(const Bit *bits, std::size_t count, Status &status) noexcept {
        if (vers_is_missing(bits, count)) return status = Status::refused, std::nullopt;
        return from_bits(bits, bits + count, status);
    }
    template <class Iterator, class = Value<Iterator>>
    static List from_bits(Iterator first, Iterator last) {
        return from_bits(Between<Iterator>{first, last});
    }
    template <class Iterator, class = Value<Iterator>>
    static std::optional<List> from_bits(Iterator first, Iterator last, Status &status) {
        return from_bits(Between<Iterator>{first, last}, status);
    }
    template <class Range = std::initializer_list<bool>, class = Item<Range>>
    static List from_bits(Range &&range) {
        Status status;
        return List::needed(from_bits(range, status), status);
    }
    template <class Range = std::initializer_list<bool>, class = Item<Range>>
    static std::optional<List> from_bits(Range &&range, Status &status) {
        return with_bits(range, status, [&](const std::uint64_t *words, std::size_t count, std::size_t length) {
            return from_words(words, count, length, status);
        });
    }
};

/** Builds a text as `Build` does, with a sample for each 32 positions. */
template <class Number, auto Build>
std::uint32_t build_text(const Number *symbols, std::size_t count, std::uint32_t width, vers_handle *handle) noexcept {
    return Build(symbols, count, width, 32, handle);
}
constexpr auto build_text_of_words = build_text<std::uint64_t, vers_text_build>;
template <>
inline constexpr auto narrow_build<build_text_of_words, std::uint8_t> = build_text<std::uint8_t, vers_text_build_bytes>;
template <>
inline constexpr auto narrow_build<build_text_of_words, std::uint16_t> =
    build_text<std::uint16_t, vers_text_build_u16s>;
using FromText = FromNumbers<TextIndex, std::optional<TextIndex>, build_text_of_words, std::uint32_t>;
using FromTextByStep = FromNumbers<TextIndex, std::optional<TextIndex>, vers_text_build, std::uint32_t, std::size_t>;

}  // namespace detail
/// @endcond

/** A list of bits that can change. A change answers Status::done, or leaves the list as it was: Status::shared while
 *  the list has another owner. */
class BitVec : public detail::Owner<BitVec, vers_growing, VERS_KIND_GROWING>,
               public detail::FromBits<BitVec, vers_growing_build> {
public:
    /** No bits. */
    BitVec() : BitVec(from_words(nullptr, 0, 0)) {}

    /** Returns the bit at a position, 1 or 0. */
    std::optional<std::uint64_t> get(std::uint64_t position) const noexcept { return find(VERS_GET, position); }
    /** Returns the `count` bits from a position on as a number, the lowest first. nullopt if there are fewer, or
     *  they are none or more than 64. */
    std::optional<std::uint64_t> get_bits(std::uint64_t position, std::uint64_t count) const noexcept {
        return find(VERS_GET_BITS, position, count);
    }

    Status append(bool bit) { return change(VERS_PUSH, bit); }
    /** Appends the low bits of a number, the lowest first. Status::refused if they are more than 64. */
    Status append_bits(std::uint64_t bits, std::uint64_t count) { return change(VERS_APPEND, bits, count); }
    /** Changes a bit. Status::refused for a position past the end. */
    Status set(std::uint64_t position, bool bit) { return change(VERS_SET, position, bit); }
    /** Drops the last `count` bits, or all. */
    Status drop_last(std::uint64_t count) { return change(VERS_DROP_LAST, count); }

    detail::Items<BitVec> begin() const noexcept { return {this, 0}; }
    detail::Items<BitVec> end() const noexcept { return {this, len()}; }

private:
    friend Owner;
    explicit BitVec(Nothing) noexcept {}
    bool has_contents_of(const BitVec &other) const noexcept { return has_bits_of(other); }
};

/** A list of bits with rank and select. */
class RsVec : public detail::Owner<RsVec, vers_bits, VERS_KIND_BITS>,
              public detail::FromBits<RsVec, vers_bits_build> {
public:
    /** Owns nothing, until a list is moved to it. */
    RsVec() noexcept = default;

    /** Returns the bit at a position, 1 or 0. */
    std::optional<std::uint64_t> get(std::uint64_t position) const noexcept {
        return detail::found(vers_bits_get(&raw_, position));
    }
    /** Returns the `count` bits from a position on as a number, the lowest first; 0 for none. nullopt if there are
     *  fewer, or they are more than 64. */
    std::optional<std::uint64_t> get_bits(std::uint64_t position, std::uint64_t count) const noexcept {
        return find(VERS_GET_BITS, position, count);
    }
    /** Returns the number of ones, or zeros, before a position; of all of them past the end. */
    std::uint64_t rank1(std::uint64_t position) const noexcept { return vers_bits_rank1(&raw_, position).value; }
    std::uint64_t rank0(std::uint64_t position) const noexcept { return vers_bits_rank0(&raw_, position).value; }
    /** Returns the position of the one, or zero, with an index from 0 on; the length if there is none, while that of
     *  symbols is nullopt. */
    std::uint64_t select1(std::uint64_t number) const noexcept { return vers_bits_select1(&raw_, number).value; }
    std::uint64_t select0(std::uint64_t number) const noexcept { return vers_bits_select0(&raw_, number).value; }

    /** Returns the number of ones, or zeros. */
    std::uint64_t ones() const noexcept { return vers_bits_ones(&raw_).value; }
    std::uint64_t zeros() const noexcept { return vers_bits_zeros(&raw_).value; }
    /** Returns the least position of a one, or zero, strictly above a position; that of an ascending list is at or
     *  above. */
    std::optional<std::uint64_t> successor1(std::uint64_t position) const noexcept {
        return detail::found(vers_bits_successor1(&raw_, position));
    }
    std::optional<std::uint64_t> successor0(std::uint64_t position) const noexcept {
        return detail::found(vers_bits_successor0(&raw_, position));
    }
    /** Returns the greatest position of a one, or zero, strictly below a position, which may be past the end; that
     *  of an ascending list is at or below. */
    std::optional<std::uint64_t> predecessor1(std::uint64_t position) const noexcept {
        return detail::found(vers_bits_predecessor1(&raw_, position));
    }
    std::optional<std::uint64_t> predecessor0(std::uint64_t position) const noexcept {
        return detail::found(vers_bits_predecessor0(&raw_, position));
    }

    detail::Items<RsVec> begin() const noexcept { return {this, 0}; }
    detail::Items<RsVec> end() const noexcept { return {this, len()}; }

private:
    friend Owner;
    explicit RsVec(Nothing) noexcept {}
    bool has_contents_of(const RsVec &other) const noexcept { return has_bits_of(other); }
};

/** A list of bits with few ones. `from(ones, length)` takes the positions of the ones, and refuses them if they don't
 *  ascend strictly, or one isn't below `length`. */
class SparseRSVec : public detail::Owner<SparseRSVec, vers_sparse, VERS_KIND_SPARSE>,
                    public detail::FromNumbers<SparseRSVec, std::optional<SparseRSVec>, vers_sparse_build,
                                               std::uint64_t> {
public:
    /** Owns nothing, until a list is moved to it. */
    SparseRSVec() noexcept = default;

    /** Returns the bit at a position, 1 or 0. */
    std::optional<std::uint64_t> get(std::uint64_t position) const noexcept { return find(VERS_GET, position); }
    /** Returns the number of ones, or zeros, before a position; of all of them past the end. */
    std::uint64_t rank1(std::uint64_t position) const noexcept { return ask(VERS_RANK1, position).value; }
    std::uint64_t rank0(std::uint64_t position) const noexcept { return ask(VERS_RANK0, position).value; }
    /** Returns the position of the one with an index from 0 on; the length if there is none, while that of symbols
     *  is nullopt. */
    std::uint64_t select1(std::uint64_t number) const noexcept { return ask(VERS_SELECT1, number).value; }

    detail::Items<SparseRSVec> begin() const noexcept { return {this, 0}; }
    detail::Items<SparseRSVec> end() const noexcept { return {this, len()}; }

private:
    friend Owner;
    explicit SparseRSVec(Nothing) noexcept {}
    bool has_contents_of(const SparseRSVec &other) const noexcept {
        const std::uint64_t ones = rank1(len());
        return ones == other.rank1(len()) && agrees(other, VERS_SELECT1, ones);
    }
};

/** Numbers that ascend, equal ones allowed. `from(numbers)` refuses them if one is below the one before it. */
class EliasFanoVec : public detail::Owner<EliasFanoVec, vers_sorted, VERS_KIND_SORTED>,
                     public detail::FromNumbers<EliasFanoVec, std::optional<EliasFanoVec>, vers_sorted_build> {
public:
    /** Owns nothing, until a list is moved to it. */
    EliasFanoVec() noexcept = default;

    std::optional<std::uint64_t> get(std::uint64_t position) const noexcept {
        return detail::found(vers_sorted_get(&raw_, position));
    }
    /** Returns the number of elements below a number. */
    std::uint64_t rank(std::uint64_t number) const noexcept { return vers_sorted_rank(&raw_, number).value; }
    /** Returns whether a number is an element. */
    bool has(std::uint64_t number) const noexcept { return ask(VERS_HAS, number).value == 1; }
    /** Returns the greatest element at or below a number; that of bits is strictly below. */
    std::optional<std::uint64_t> predecessor(std::uint64_t number) const noexcept {
        return detail::found(vers_sorted_predecessor(&raw_, number));
    }
    /** Returns the least element at or above a number; that of bits is strictly above. */
    std::optional<std::uint64_t> successor(std::uint64_t number) const noexcept {
        return detail::found(vers_sorted_successor(&raw_, number));
    }
    /** Returns the element at a position less the one before it; the first element itself. */
    std::optional<std::uint64_t> delta(std::uint64_t position) const noexcept { return find(VERS_DELTA, position); }
    /** Returns the numbers that are elements of both lists, without repeats. Status::refused if one owns nothing. */
    EliasFanoVec intersection(const EliasFanoVec &other) const { return combined(other, VERS_INTERSECTION); }
    std::optional<EliasFanoVec> intersection(const EliasFanoVec &other, Status &status) const noexcept {
        return combined(other, VERS_INTERSECTION, status);
    }
    /** Returns the numbers that are elements of one list or of both, without repeats. Status::refused as above. */
    EliasFanoVec either(const EliasFanoVec &other) const { return combined(other, VERS_UNION); }
    std::optional<EliasFanoVec> either(const EliasFanoVec &other, Status &status) const noexcept {
        return combined(other, VERS_UNION, status);
    }
    /** Returns the numbers that are elements of this list and not of the other, without repeats. Status::refused as
     *  above. */
    EliasFanoVec difference(const EliasFanoVec &other) const { return combined(other, VERS_DIFFERENCE); }
    std::optional<EliasFanoVec> difference(const EliasFanoVec &other, Status &status) const noexcept {
        return combined(other, VERS_DIFFERENCE, status);
    }

    detail::Items<EliasFanoVec> begin() const noexcept { return {this, 0}; }
    detail::Items<EliasFanoVec> end() const noexcept { return {this, len()}; }

private:
    friend Owner;
    explicit EliasFanoVec(Nothing) noexcept {}
    EliasFanoVec combined(const EliasFanoVec &other, vers_joint joint) const {
        Status status;
        return needed(combined(other, joint, status), status);
    }
    std::optional<EliasFanoVec> combined(const EliasFanoVec &other, vers_joint joint, Status &status) const noexcept {
        return made(status, [&](vers_sorted *into) { return vers_sorted_combined(&raw_, &other.raw_, joint, into); });
    }
};

/** A list of symbols, which are numbers of up to 64 bits. `from(numbers, width)` takes their `width` low bits, and
 *  refuses a width above 64. A range is without its end. A query takes the low bits of a wider symbol. */
class WaveletMatrix : public detail::Owner<WaveletMatrix, vers_symbols, VERS_KIND_SYMBOLS>,
                      public detail::FromNumbers<WaveletMatrix, std::optional<WaveletMatrix>, vers_symbols_build,
                                                 std::uint32_t> {
public:
    /** Owns nothing, until a list is moved to it. */
    WaveletMatrix() noexcept = default;

    using Found = std::optional<std::uint64_t>;

    Found get(std::uint64_t position) const noexcept { return detail::found(vers_symbols_get(&raw_, position)); }
    /** Returns the number of bits of a symbol. */
    std::uint64_t bits_per_element() const noexcept { return ask(VERS_WIDTH).value; }
    /** Returns the number of occurrences of a symbol before the position `end`. nullopt past the end. */
    Found rank(std::uint64_t end, std::uint64_t symbol) const noexcept {
        return detail::found(vers_symbols_rank(&raw_, end, symbol));
    }
    /** Returns the number of occurrences of a symbol in a range. */
    Found rank_range(std::uint64_t start, std::uint64_t end, std::uint64_t symbol) const noexcept {
        return find(VERS_RANK_RANGE, start, end, symbol);
    }
    /** Returns the position of occurrence `number` of a symbol. nullopt if there are fewer, while that of bits is
     *  the length. */
    Found select(std::uint64_t number, std::uint64_t symbol) const noexcept {
        return find(VERS_SELECT_OF, number, symbol);
    }
    /** Does the same among the positions from `offset` on. */
    Found select_offset(std::uint64_t offset, std::uint64_t number, std::uint64_t symbol) const noexcept {
        return find(VERS_SELECT_FROM, offset, number, symbol);
    }
    /** Returns symbol `number` of a range in ascending order. */
    Found quantile(std::uint64_t start, std::uint64_t end, std::uint64_t number) const noexcept {
        return detail::found(vers_symbols_quantile(&raw_, start, end, number));
    }
    /** Returns the least or the greatest symbol of a range without its end; that of minima includes the end, and is
     *  a position. */
    Found range_min(std::uint64_t start, std::uint64_t end) const noexcept { return find(VERS_LEAST, start, end); }
    Found range_max(std::uint64_t start, std::uint64_t end) const noexcept { return find(VERS_GREATEST, start, end); }
    /** Returns the middle one in ascending order, the lower one of two. */
    Found range_median(std::uint64_t start, std::uint64_t end) const noexcept {
        return find(VERS_MEDIAN, start, end);
    }
    /** Returns the greatest symbol of a range not above a symbol. */
    Found predecessor(std::uint64_t start, std::uint64_t end, std::uint64_t symbol) const noexcept {
        return find(VERS_SYMBOLS_PREDECESSOR, start, end, symbol);
    }
    /** Returns the least symbol of a range not below a symbol. */
    Found successor(std::uint64_t start, std::uint64_t end, std::uint64_t symbol) const noexcept {
        return find(VERS_SYMBOLS_SUCCESSOR, start, end, symbol);
    }

    detail::Items<WaveletMatrix> begin() const noexcept { return {this, 0}; }
    detail::Items<WaveletMatrix> end() const noexcept { return {this, len()}; }

private:
    friend Owner;
    explicit WaveletMatrix(Nothing) noexcept {}
    bool has_contents_of(const WaveletMatrix &other) const noexcept {
        return bits_per_element() == other.bits_per_element() && agrees(other, VERS_GET, len());
    }
};

/** A list of values that finds the least of a range, in few bits more. Made by `from(values)`. */
class FastRmq : public detail::Owner<FastRmq, vers_fast_rmq, VERS_KIND_FAST>,
                public detail::FromNumbers<FastRmq, FastRmq, vers_fast_rmq_build> {
public:
    /** Owns nothing, until a list is moved to it. */
    FastRmq() noexcept = default;

    std::optional<std::uint64_t> get(std::uint64_t position) const noexcept {
        return detail::found(vers_fast_rmq_get(&raw_, position));
    }
    /** Returns the first position of a least value from one position to another, both included, while that of
     *  symbols excludes the end and is a symbol. nullopt for no such range. */
    std::optional<std::uint64_t> range_min(std::uint64_t first, std::uint64_t last) const noexcept {
        return detail::found(vers_fast_rmq_range_min(&raw_, first, last));
    }

    detail::Items<FastRmq> begin() const noexcept { return {this, 0}; }
    detail::Items<FastRmq> end() const noexcept { return {this, len()}; }

private:
    friend Owner;
    explicit FastRmq(Nothing) noexcept {}
};

/** A list of values that finds the least of a range by a table, of 4 bytes for each value and power of two. Made by
 *  `from(values)`. */
class BinaryRmq : public detail::Owner<BinaryRmq, vers_binary_rmq, VERS_KIND_BINARY>,
                  public detail::FromNumbers<BinaryRmq, BinaryRmq, vers_binary_rmq_build> {
public:
    /** Owns nothing, until a list is moved to it. */
    BinaryRmq() noexcept = default;

    std::optional<std::uint64_t> get(std::uint64_t position) const noexcept { return find(VERS_GET, position); }
    /** Returns the first position of a least value from one position to another, both included, while that of
     *  symbols excludes the end and is a symbol. nullopt for no such range. */
    std::optional<std::uint64_t> range_min(std::uint64_t first, std::uint64_t last) const noexcept {
        return find(VERS_RANGE_MIN, first, last);
    }

    detail::Items<BinaryRmq> begin() const noexcept { return {this, 0}; }
    detail::Items<BinaryRmq> end() const noexcept { return {this, len()}; }

private:
    friend Owner;
    explicit BinaryRmq(Nothing) noexcept {}
};

/** Trees as parentheses: a one opens and a zero closes. A node is the position at which it opens. Queries of nodes
 *  return nullopt also if the parentheses aren't balanced, or no node opens at an argument. */
class BpTree : public detail::Owner<BpTree, vers_tree, VERS_KIND_TREE>,
               public detail::FromBits<BpTree, vers_tree_build> {
public:
    /** Owns nothing, until a list is moved to it. */
    BpTree() noexcept = default;

    using Found = std::optional<std::uint64_t>;

    /** Returns the parenthesis at a position, 1 if it opens and 0 if it closes. */
    Found get(std::uint64_t position) const noexcept { return detail::found(vers_tree_is_open(&raw_, position)); }
    /** Returns whether the parenthesis at a position opens. nullopt past the end. */
    std::optional<bool> is_open(std::uint64_t position) const noexcept { return truth(get(position)); }
    /** Returns the first root. nullopt if there are no parentheses. */
    Found root() const noexcept { return detail::found(vers_tree_root(&raw_)); }
    /** Returns the number of ones, which is the number of nodes if the parentheses are balanced. */
    std::uint64_t size() const noexcept { return ask(VERS_SIZE).value; }
    bool is_balanced() const noexcept { return ask(VERS_IS_BALANCED).value == 1; }
    /** Returns the number of ones less that of zeros, up to a position and at it. nullopt past the end. */
    std::optional<std::int64_t> excess(std::uint64_t position) const noexcept {
        Found value = find(VERS_EXCESS, position);
        if (!value) return std::nullopt;
        return vers_signed(*value);
    }
    /** Returns the position that closes what opens at a position, or opens what closes there. For the other parenthesis,
     *  that of the pair around it. */
    Found close(std::uint64_t position) const noexcept { return detail::found(vers_tree_close(&raw_, position)); }
    Found open(std::uint64_t position) const noexcept { return find(VERS_OPEN, position); }
    /** Returns the position at which the nearest pair around a position opens. */
    Found enclose(std::uint64_t position) const noexcept { return find(VERS_ENCLOSE, position); }
    /** Returns node `number` in preorder, which is the position of the one with that index; the length if there is
     *  none. */
    std::uint64_t node_handle(std::uint64_t number) const noexcept { return ask(VERS_NODE_HANDLE, number).value; }
    /** Returns the first position past `position` at which the excess has risen by `rise`. */
    Found fwd_search(std::uint64_t position, std::int64_t rise) const noexcept {
        return find(VERS_FWD_SEARCH, position, static_cast<std::uint64_t>(rise));
    }
    /** Returns the last position before `position` before which the excess is `rise` more. */
    Found bwd_search(std::uint64_t position, std::int64_t rise) const noexcept {
        return find(VERS_BWD_SEARCH, position, static_cast<std::uint64_t>(rise));
    }
    Found parent(std::uint64_t node) const noexcept { return detail::found(vers_tree_parent(&raw_, node)); }
    Found first_child(std::uint64_t node) const noexcept { return detail::found(vers_tree_first_child(&raw_, node)); }
    Found last_child(std::uint64_t node) const noexcept { return find(VERS_LAST_CHILD, node); }
    Found next_sibling(std::uint64_t node) const noexcept {
        return detail::found(vers_tree_next_sibling(&raw_, node));
    }
    Found previous_sibling(std::uint64_t node) const noexcept { return find(VERS_PREVIOUS_SIBLING, node); }
    /** Returns the next node of the same depth, or the one before. */
    Found level_next(std::uint64_t node) const noexcept { return find(VERS_LEVEL_NEXT, node); }
    Found level_prev(std::uint64_t node) const noexcept { return find(VERS_LEVEL_PREV, node); }
    /** Returns the ancestor that many levels up, the node itself at 0. */
    Found level_ancestor(std::uint64_t node, std::uint64_t levels) const noexcept {
        return find(VERS_LEVEL_ANCESTOR, node, levels);
    }
    /** Returns the first or the last node of a depth, which is 0 for roots. */
    Found level_leftmost(std::uint64_t depth) const noexcept { return find(VERS_LEVEL_LEFTMOST, depth); }
    Found level_rightmost(std::uint64_t depth) const noexcept { return find(VERS_LEVEL_RIGHTMOST, depth); }
    /** Returns the index of a node in preorder. */
    Found node_index(std::uint64_t node) const noexcept { return find(VERS_NODE_INDEX, node); }
    Found depth(std::uint64_t node) const noexcept { return detail::found(vers_tree_depth(&raw_, node)); }
    /** Returns the number of nodes of the subtree of a node, itself included. */
    Found subtree_size(std::uint64_t node) const noexcept { return find(VERS_SUBTREE_SIZE, node); }
    /** Returns whether the parentheses are balanced and a node opens at a position. */
    bool has_node(std::uint64_t position) const noexcept { return ask(VERS_HAS_NODE, position).value == 1; }
    std::optional<bool> is_leaf(std::uint64_t node) const noexcept { return truth(find(VERS_IS_LEAF, node)); }
    /** Returns whether one node is above another, or is that node. */
    std::optional<bool> is_ancestor(std::uint64_t ancestor, std::uint64_t node) const noexcept {
        return truth(find(VERS_IS_ANCESTOR, ancestor, node));
    }

    detail::Items<BpTree> begin() const noexcept { return {this, 0}; }
    detail::Items<BpTree> end() const noexcept { return {this, len()}; }

private:
    friend Owner;
    explicit BpTree(Nothing) noexcept {}

    static std::optional<bool> truth(Found value) noexcept {
        if (!value) return std::nullopt;
        return *value == 1;
    }
};

/** Plain numbers, which some calls return. */
class Numbers : public detail::Owner<Numbers, vers_numbers> {
public:
    /** Owns nothing, until a list is moved to it. */
    Numbers() noexcept = default;

    std::optional<std::uint64_t> get(std::uint64_t position) const noexcept { return find(VERS_GET, position); }
    detail::Items<Numbers> begin() const noexcept { return {this, 0}; }
    detail::Items<Numbers> end() const noexcept { return {this, len()}; }

private:
    friend Owner;
    friend class InvertedIndex;
    friend class Postings;
    friend class TextIndex;
    explicit Numbers(Nothing) noexcept {}

    /** Returns the numbers that a call makes. */
    template <class Call>
    static std::optional<Numbers> of(Status &status, Call &&call) noexcept {
        return made(status, std::forward<Call>(call));
    }
};

/** Documents, which ascend strictly, each with a cost. */
class Postings : public detail::Owner<Postings, vers_postings, VERS_KIND_POSTINGS> {
    using Numbers64 = std::initializer_list<std::uint64_t>;

public:
    /** Owns nothing, until a list is moved to it. */
    Postings() noexcept = default;

    /** `count` documents and as many costs. Refused if the documents don't ascend strictly, or there are more or fewer
     *  costs. */
    static std::optional<Postings> from(const std::uint64_t *documents, const std::uint64_t *costs, std::size_t count) {
        Status status;
        return wanted(from(documents, costs, count, status), status);
    }
    static std::optional<Postings> from(const std::uint64_t *documents, const std::uint64_t *costs, std::size_t count,
                                        Status &status) noexcept {
        return made(status, [&](vers_postings *raw) { return vers_postings_of(raw, documents, costs, count); });
    }
    /** Documents from one iterator to another, and as many costs from a third one on. */
    template <class Document, class Cost, class = detail::Value<Document>, class = detail::Value<Cost>>
    static std::optional<Postings> from(Document first, Document last, Cost costs) {
        Status status;
        return wanted(from(first, last, costs, status), status);
    }
    template <class Document, class Cost, class = detail::Value<Document>, class = detail::Value<Cost>>
    static std::optional<Postings> from(Document first, Document last, Cost costs, Status &status) {
        return from(detail::Between<Document>{first, last},
                    detail::Between<Cost>{costs, std::next(costs, std::distance(first, last))}, status);
    }
    template <class Documents = Numbers64, class Costs = Numbers64, class = detail::Item<Documents>,
              class = detail::Item<Costs>>
    static std::optional<Postings> from(Documents &&documents, Costs &&costs) {
        Status status;
        return wanted(from(documents, costs, status), status);
    }
    template <class Documents = Numbers64, class Costs = Numbers64, class = detail::Item<Documents>,
              class = detail::Item<Costs>>
    static std::optional<Postings> from(Documents &&documents, Costs &&costs, Status &status) {
        return detail::with_numbers(documents, status, [&](const std::uint64_t *numbers, std::size_t count) {
            return detail::with_numbers(costs, status, [&](const std::uint64_t *more, std::size_t of_costs) {
                if (count == of_costs) return from(numbers, more, count, status);
                return status = Status::refused, std::optional<Postings>();
            });
        });
    }

    /** Returns the document at a position, and its cost. */
    std::optional<std::uint64_t> get(std::uint64_t position) const noexcept { return find(VERS_GET, position); }
    std::optional<std::uint64_t> cost(std::uint64_t position) const noexcept { return find(VERS_COST, position); }
    detail::Items<Postings> begin() const noexcept { return {this, 0}; }
    detail::Items<Postings> end() const noexcept { return {this, len()}; }
    /** Returns the number of documents below a number. */
    std::uint64_t rank(std::uint64_t number) const noexcept { return ask(VERS_RANK, number).value; }
    bool contains(std::uint64_t document) const noexcept { return ask(VERS_HAS, document).value == 1; }
    /** Returns the first document not below a number. */
    std::optional<std::uint64_t> next_at_least(std::uint64_t number) const noexcept {
        return find(VERS_SUCCESSOR, number);
    }
    /** Returns the first document of least cost from one number to another, both included. */
    std::optional<std::uint64_t> cheapest(std::uint64_t first, std::uint64_t last) const noexcept {
        return find(VERS_CHEAPEST, first, last);
    }
    /** Returns the documents that another list has too, ascending. Status::refused if one of the two owns nothing. */
    Numbers intersect(const Postings &other) const {
        Status status;
        return Numbers::needed(intersect(other, status), status);
    }
    std::optional<Numbers> intersect(const Postings &other, Status &status) const noexcept {
        return Numbers::of(status, [&](vers_numbers *into) {
            return vers_postings_intersect(&raw_, &other.raw_, into);
        });
    }

private:
    friend Owner;
    explicit Postings(Nothing) noexcept {}
    bool has_contents_of(const Postings &other) const noexcept {
        return agrees(other, VERS_GET, len()) && agrees(other, VERS_COST, len());
    }
};

/** An inverted index: ascending documents for each term. `from(limit, universe, terms, documents)` makes that of pairs
 *  of a term below `limit` and a document below `universe`, which ascend strictly by term, and those of one term by
 *  document. It refuses others, and limits whose product exceeds 64 bits. A term that the index doesn't have has no
 *  documents. */
class InvertedIndex : public detail::Owner<InvertedIndex, vers_inverted, VERS_KIND_INVERTED> {
    using Numbers64 = std::initializer_list<std::uint64_t>;

public:
    /** Owns nothing, until a list is moved to it. */
    InvertedIndex() noexcept = default;

    /** `count` terms and as many documents. */
    static std::optional<InvertedIndex> from(std::uint64_t limit, std::uint64_t universe, const std::uint64_t *terms,
                                             const std::uint64_t *documents, std::size_t count) {
        Status status;
        return wanted(from(limit, universe, terms, documents, count, status), status);
    }
    static std::optional<InvertedIndex> from(std::uint64_t limit, std::uint64_t universe, const std::uint64_t *terms,
                                             const std::uint64_t *documents, std::size_t count,
                                             Status &status) noexcept {
        return made(status, [&](vers_inverted *raw) {
            return vers_inverted_of(raw, limit, universe, terms, documents, count);
        });
    }
    /** Terms and documents in a container or a range each. Refused if one has more. */
    template <class Terms = Numbers64, class Documents = Numbers64, class = detail::Item<Terms>,
              class = detail::Item<Documents>>
    static std::optional<InvertedIndex> from(std::uint64_t limit, std::uint64_t universe, Terms &&terms,
                                             Documents &&documents) {
        Status status;
        return wanted(from(limit, universe, terms, documents, status), status);
    }
    template <class Terms = Numbers64, class Documents = Numbers64, class = detail::Item<Terms>,
              class = detail::Item<Documents>>
    static std::optional<InvertedIndex> from(std::uint64_t limit, std::uint64_t universe, Terms &&terms,
                                             Documents &&documents, Status &status) {
        return detail::with_numbers(terms, status, [&](const std::uint64_t *numbers, std::size_t count) {
            return detail::with_numbers(documents, status, [&](const std::uint64_t *more, std::size_t of_documents) {
                if (count == of_documents) return from(limit, universe, numbers, more, count, status);
                return status = Status::refused, std::optional<InvertedIndex>();
            });
        });
    }

    /** `get` answers documents of a term, and `pair_number` pairs. */
    std::uint64_t operator[](std::uint64_t position) const = delete;
    /** Returns the number of terms. */
    std::uint64_t terms() const noexcept { return ask(VERS_TERMS).value; }
    /** Returns the number that all documents are below. */
    std::uint64_t universe() const noexcept { return ask(VERS_UNIVERSE).value; }
    /** Returns the pair at a position of all pairs as one number: the term times the universe, plus the document. */
    std::optional<std::uint64_t> pair_number(std::uint64_t position) const noexcept { return find(VERS_GET, position); }
    /** Returns the number of documents of a term. */
    std::uint64_t count(std::uint64_t term) const noexcept { return ask(VERS_COUNT, term).value; }
    /** Returns the document of a term at a position. */
    std::optional<std::uint64_t> get(std::uint64_t term, std::uint64_t position) const noexcept {
        return find(VERS_TERM_GET, term, position);
    }
    /** Returns the number of documents of a term that are below a number. */
    std::uint64_t rank(std::uint64_t term, std::uint64_t number) const noexcept {
        return ask(VERS_TERM_RANK, term, number).value;
    }
    bool contains(std::uint64_t term, std::uint64_t document) const noexcept {
        return ask(VERS_TERM_HAS, term, document).value == 1;
    }
    /** Returns the first document of a term that is not below a number. */
    std::optional<std::uint64_t> next_at_least(std::uint64_t term, std::uint64_t number) const noexcept {
        return find(VERS_TERM_SUCCESSOR, term, number);
    }
    /** Returns the documents of a term, ascending. Status::refused if the object owns nothing. */
    Numbers documents(std::uint64_t term) const {
        Status status;
        return Numbers::needed(documents(term, status), status);
    }
    std::optional<Numbers> documents(std::uint64_t term, Status &status) const noexcept {
        return Numbers::of(status, [&](vers_numbers *into) { return vers_inverted_documents(&raw_, term, into); });
    }
    /** Returns the documents that have all terms, ascending, which takes the fewest steps if the first has the fewest
     *  documents. Status::refused if there is no term. */
    Numbers intersection_of(const std::vector<std::uint64_t> &terms) const {
        Status status;
        return Numbers::needed(intersection_of(terms, status), status);
    }
    std::optional<Numbers> intersection_of(const std::vector<std::uint64_t> &terms, Status &status) const noexcept {
        return joined(VERS_INTERSECTION, terms.data(), terms.size(), status);
    }
    /** Returns the documents that have at least one of some terms, ascending. Status::refused if there is no term. */
    Numbers union_of(const std::vector<std::uint64_t> &terms) const {
        Status status;
        return Numbers::needed(union_of(terms, status), status);
    }
    std::optional<Numbers> union_of(const std::vector<std::uint64_t> &terms, Status &status) const noexcept {
        return joined(VERS_UNION, terms.data(), terms.size(), status);
    }
    /** Returns the documents that have the first term and none of the others, ascending. Status::refused if there is no
     *  term. */
    Numbers difference_of(const std::vector<std::uint64_t> &terms) const {
        Status status;
        return Numbers::needed(difference_of(terms, status), status);
    }
    std::optional<Numbers> difference_of(const std::vector<std::uint64_t> &terms, Status &status) const noexcept {
        return joined(VERS_DIFFERENCE, terms.data(), terms.size(), status);
    }
    /** Returns the documents that have both terms, ascending. */
    Numbers intersection(std::uint64_t one, std::uint64_t other) const {
        Status status;
        return Numbers::needed(intersection(one, other, status), status);
    }
    std::optional<Numbers> intersection(std::uint64_t one, std::uint64_t other, Status &status) const noexcept {
        const std::uint64_t terms[] = {one, other};
        return joined(VERS_INTERSECTION, terms, 2, status);
    }
    /** Returns the documents that have one of two terms, or both, ascending. */
    Numbers either(std::uint64_t one, std::uint64_t other) const {
        Status status;
        return Numbers::needed(either(one, other, status), status);
    }
    std::optional<Numbers> either(std::uint64_t one, std::uint64_t other, Status &status) const noexcept {
        const std::uint64_t terms[] = {one, other};
        return joined(VERS_UNION, terms, 2, status);
    }
    /** Returns the documents that have the first term and not the other, ascending. */
    Numbers difference(std::uint64_t one, std::uint64_t other) const {
        Status status;
        return Numbers::needed(difference(one, other, status), status);
    }
    std::optional<Numbers> difference(std::uint64_t one, std::uint64_t other, Status &status) const noexcept {
        const std::uint64_t terms[] = {one, other};
        return joined(VERS_DIFFERENCE, terms, 2, status);
    }

private:
    friend Owner;
    explicit InvertedIndex(Nothing) noexcept {}
    std::optional<Numbers> joined(vers_joint joint, const std::uint64_t *terms, std::size_t count,
                                  Status &status) const noexcept {
        return Numbers::of(status, [&](vers_numbers *into) {
            return vers_joined(vers_held(&raw_.handle), joint, vers_array(terms), count, &into->handle);
        });
    }
    bool has_contents_of(const InvertedIndex &other) const noexcept {
        return terms() == other.terms() && universe() == other.universe() && agrees(other, VERS_GET, len());
    }
};

/** A text of symbols of at most 16 bits that counts and locates patterns. `from(symbols, width, step)` samples every
 *  `step`-th position, by default every 32nd. It refuses symbols of more than `width` bits, more than 2^32 - 2 symbols,
 *  a width of 0 or above 16, and a step of 0. The empty pattern occurs at each position and at the end. */
class TextIndex : public detail::Owner<TextIndex, vers_text, VERS_KIND_TEXT>,
                  public detail::FromText,
                  public detail::FromTextByStep {
public:
    /** Owns nothing, until a list is moved to it. */
    TextIndex() noexcept = default;

    using detail::FromText::from;
    using detail::FromTextByStep::from;

    /** `extract` answers symbols, and `places` positions. */
    std::uint64_t operator[](std::uint64_t position) const = delete;
    /** Returns the number of bits of a symbol. */
    std::uint64_t width() const noexcept { return ask(VERS_WIDTH).value; }
    /** Returns the distance between two sampled positions. */
    std::uint64_t step() const noexcept { return ask(VERS_STEP).value; }
    /** Returns the number of occurrences of a pattern. */
    std::uint64_t count(const std::uint64_t *pattern, std::size_t length) const noexcept {
        return vers_text_count(raw(), pattern, length).value;
    }
    template <class Range = std::initializer_list<std::uint64_t>, class = detail::Item<Range>>
    std::uint64_t count(Range &&pattern) const {
        Status status = Status::done;
        auto &&symbols = detail::symbols_of(pattern);
        const auto counted = detail::with_numbers(symbols, status, [&](const std::uint64_t *numbers, std::size_t size) {
            return std::optional<std::uint64_t>(count(numbers, size));
        });
        detail::thrown(static_cast<std::uint32_t>(status));
        if (!counted) std::abort();
        return *counted;
    }
    std::uint64_t count(std::string_view pattern) const { return count<std::string_view &>(pattern); }
    /** Counts many patterns, which are joined in `length` symbols: replaces each of the `count` ends by the
     *  number of occurrences of its pattern. Status::refused if the ends descend, or one is above `length`. */
    Status count_each(const std::uint64_t *symbols, std::size_t length, std::uint64_t *ends,
                      std::size_t count) const noexcept {
        return static_cast<Status>(vers_text_count_each(raw(), symbols, length, ends, count));
    }
    /** Returns the number of occurrences of each pattern of a range of patterns. */
    template <class Patterns, class = detail::Item<detail::Item<const Patterns>>>
    std::vector<std::uint64_t> count_each(const Patterns &patterns) const {
        std::vector<std::uint64_t> symbols, ends;
        for (const auto &pattern : patterns) {
            auto &&items = detail::symbols_of(pattern);
            static_assert(std::is_unsigned_v<detail::Item<decltype(items)>>, "the items are unsigned whole numbers");
            symbols.insert(symbols.end(), std::begin(items), std::end(items));
            ends.push_back(symbols.size());
        }
        if (count_each(symbols.data(), symbols.size(), ends.data(), ends.size()) != Status::done)
            std::fill(ends.begin(), ends.end(), 0);
        return ends;
    }
    bool contains(const std::uint64_t *pattern, std::size_t length) const noexcept {
        return count(pattern, length) > 0;
    }
    template <class Range = std::initializer_list<std::uint64_t>, class = detail::Item<Range>>
    bool contains(Range &&pattern) const {
        return count(pattern) > 0;
    }
    bool contains(std::string_view pattern) const { return count(pattern) > 0; }
    /** Returns the positions of a pattern, ascending. */
    Numbers places(const std::uint64_t *pattern, std::size_t length) const {
        Status status;
        return Numbers::needed(places(pattern, length, status), status);
    }
    std::optional<Numbers> places(const std::uint64_t *pattern, std::size_t length, Status &status) const noexcept {
        return Numbers::of(status, [&](vers_numbers *into) {
            return vers_text_places(&raw_, pattern, length, into);
        });
    }
    template <class Range = std::initializer_list<std::uint64_t>, class = detail::Item<Range>>
    Numbers places(Range &&pattern) const {
        Status status;
        return Numbers::needed(places(pattern, status), status);
    }
    Numbers places(std::string_view pattern) const { return places<std::string_view &>(pattern); }
    /** Returns the first `limit` positions of a pattern, or all if there are fewer, in the order of the suffixes
     *  there. */
    Numbers first_places(const std::uint64_t *pattern, std::size_t length, std::size_t limit) const {
        Status status;
        return Numbers::needed(first_places(pattern, length, limit, status), status);
    }
    std::optional<Numbers> first_places(const std::uint64_t *pattern, std::size_t length, std::size_t limit,
                                        Status &status) const noexcept {
        return Numbers::of(status, [&](vers_numbers *into) {
            return vers_text_first_places(&raw_, pattern, length, limit, into);
        });
    }
    template <class Range = std::initializer_list<std::uint64_t>, class = detail::Item<Range>>
    Numbers first_places(Range &&pattern, std::size_t limit) const {
        Status status;
        auto &&symbols = detail::symbols_of(pattern);
        return Numbers::needed(detail::with_numbers(symbols, status, [&](const std::uint64_t *numbers, std::size_t length) {
            return first_places(numbers, length, limit, status);
        }), status);
    }
    Numbers first_places(std::string_view pattern, std::size_t limit) const {
        return first_places<std::string_view &>(pattern, limit);
    }
    template <class Range = std::initializer_list<std::uint64_t>, class = detail::Item<Range>>
    std::optional<Numbers> places(Range &&pattern, Status &status) const {
        auto &&symbols = detail::symbols_of(pattern);
        return detail::with_numbers(symbols, status, [&](const std::uint64_t *numbers, std::size_t length) {
            return places(numbers, length, status);
        });
    }
    /** Returns the symbols from a position up to another. nullopt if the text has no such positions. */
    std::optional<Numbers> extract(std::size_t start, std::size_t end) const {
        Status status;
        return Numbers::wanted(extract(start, end, status), status);
    }
    std::optional<Numbers> extract(std::size_t start, std::size_t end, Status &status) const noexcept {
        return Numbers::of(status, [&](vers_numbers *into) { return vers_text_extract(&raw_, start, end, into); });
    }

private:
    friend Owner;
    explicit TextIndex(Nothing) noexcept {}
    /** Extracts both texts, by 2^16 symbols. */
    bool has_contents_of(const TextIndex &other) const {
        constexpr std::size_t most = 65536;
        const auto length = static_cast<std::size_t>(len());
        if (width() != other.width()) return false;
        for (std::size_t start = 0; start < length; start += most) {
            const std::size_t end = start + std::min(most, length - start);
            if (extract(start, end) != other.extract(start, end)) return false;
        }
        return true;
    }
};

}  // namespace vers

#endif
