/** @file vers.h
 *  Succinct data structures: bits with rank and select, ascending numbers, sparse bits, symbols, range minima, trees
 *  of parentheses, documents with costs, inverted indexes, and texts that count and locate patterns. They are proved in
 *  Rattle. The library of cargo is their translation to plain Rust, which is tested, and so are the helpers of this
 *  header.
 *
 *  A call makes a list from the caller's array, and a handle owns the list. A handle of zeros is empty:
 *
 *      vers_bits bits = {0};
 *      if (vers_bits_of(&bits, words, word_count, length) != VERS_DONE) ..
 *      vers_answer ones = vers_bits_rank1(&bits, 1000);   // ones.value, if ones.status is VERS_DONE
 *      vers_bits_free(&bits);                             // all zeros again
 *
 *  Statuses. The comment of a call names the statuses that it returns besides VERS_DONE. Queries, changes and saves of an
 *  empty handle return VERS_VACANT; calls that fill another handle from an empty one return VERS_REFUSED.
 *
 *  Memory. A list copies the arrays that it is made from, so the caller may change or free them when the call returns.
 *  Only `_free` frees what a call has put into a handle, such as `_of`, `_load`, `_clone`, `_union` or `_places`.
 *  Answers are numbers, never pointers. If an allocation fails, a call returns VERS_NO_MEMORY and changes nothing. A
 *  batch of queries of symbols allocates memory too; if that fails, it takes more time.
 *
 *  Threads. One thread at a time uses a handle, also for queries. Each thread uses a handle of its own, which `_clone`
 *  makes in constant time: many threads may query and free the handles of one list at once, and the last `_free` frees
 *  the list. Pass a handle to another thread as you pass data: at its start or end, or under a lock. A
 *  vers_growing changes only while it has one handle.
 *
 *  `const`. A call that takes a handle by a pointer to const leaves handle and list as they were. During the call
 *  the library writes to the handle, so only one thread at a time may make it.
 *
 *  The caller's obligations, which no call can test:
 *  - a handle is all zeros, or as the last call has left it, and only `_clone` copies it;
 *  - pointers to handles aren't null, except that of a typed `_free`, which ignores null;
 *  - an array has as many items as its count says, and no other thread writes it during the call. It may be null if its
 *    count is 0. For null with another count a typed call returns VERS_REFUSED; an export can't test it;
 *  - the handles of an export differ, as each export says. A typed call accepts one handle twice;
 *  - no call is made from a signal handler, nor from the forked child of a process with threads.
 *  The library tests all else, and the status names the error: positions past the end, numbers that don't ascend,
 *  queries of another list, handles that are empty or full, allocation failures.
 *
 *  Positions count from 0. A range from `start` to `end` excludes `end`; one from `first` to `last` includes `last`.
 *  C99; C++ programs should include vers.hpp instead. Link with `pkg-config --libs vers`. */
#ifndef VERS_H
#define VERS_H

#include <stdbool.h>
#include <stddef.h>
#include <stdint.h>

#ifdef __cplusplus
extern "C" {
#endif

/** The result of a call. */
enum vers_status {
    VERS_DONE = 0,           /**< The call succeeded, or found an answer. */
    VERS_ABSENT = 1,         /**< There is no such element. */
    VERS_UNKNOWN = 2,        /**< The list has no such query or change. */
    VERS_VACANT = 3,         /**< The handle is empty. */
    VERS_REFUSED = 4,        /**< The arguments are refused. */
    VERS_OCCUPIED = 5,       /**< The handle for the result already has a list. */
    VERS_NO_MEMORY = 6,      /**< An allocation failed, or the list would be too long. */
    VERS_SHARED = 7,         /**< The list has another handle, so it can't change. */
    VERS_TOO_SHORT = 8,      /**< There are fewer bytes than a saved form has, or than its head says. */
    VERS_NOT_OURS = 9,       /**< The bytes do not begin as a saved form does. */
    VERS_OTHER_VERSION = 10, /**< The saved form is of another version. */
    VERS_OTHER_KIND = 11,    /**< The bytes are the saved form of another kind of list. */
    VERS_BAD_LENGTH = 12,    /**< No list of this kind has that length, or more bytes follow. */
    VERS_BAD_SUM = 13,       /**< The sum is not that of the bytes before it. */
    VERS_BAD_PADDING = 14,   /**< A bit is set past the end of the list. */
    VERS_NOT_ASCENDING = 15, /**< The numbers do not ascend as those of the list do. */
    VERS_NOT_A_TEXT = 16     /**< No text has the column and the rows of a saved form. */
};

/** The queries by their codes, for `_each` and `_rows`; single queries have the names below. */
enum vers_query {
    VERS_LEN = 0,                  /**< The number of items. */
    VERS_GET = 1,                  /**< Item a; of a tree, whether a parenthesis opens; not of a text. */
    VERS_GET_BITS = 2,             /**< Growing, bits: the b bits from position a on as a number. */
    VERS_HEAP_SIZE = 3,            /**< The number of bytes of the heap that the list takes. */
    VERS_RANK0 = 4,                /**< Bits, sparse: zeros before position a. */
    VERS_RANK1 = 5,                /**< Bits, sparse: ones before position a. */
    VERS_SELECT0 = 6,              /**< Bits: the position of the zero with index a. */
    VERS_SELECT1 = 7,              /**< Bits, sparse: the position of the one with index a. */
    VERS_RANK = 8,                 /**< Sorted, postings: elements below a. */
    VERS_HAS = 9,                  /**< Sorted, postings: whether a is an element, 1 or 0. */
    VERS_PREDECESSOR = 10,         /**< Sorted: the greatest element not above a. */
    VERS_SUCCESSOR = 11,           /**< Sorted, postings: the least element not below a. */
    VERS_DELTA = 12,               /**< Sorted: element a less the one before it. */
    VERS_WIDTH = 13,               /**< Symbols, text: the number of bits of a symbol. */
    VERS_RANK_OF = 14,             /**< Symbols: how many of the first a are symbol b. */
    VERS_SELECT_OF = 15,           /**< Symbols: the position of occurrence a of symbol b. */
    VERS_RANK_RANGE = 16,          /**< Symbols: how many of a..b are symbol c. */
    VERS_SELECT_FROM = 17,         /**< Symbols: the position of occurrence b of symbol c from position a on. */
    VERS_QUANTILE = 18,            /**< Symbols: number c of a..b in ascending order. */
    VERS_LEAST = 19,               /**< Symbols: the least of a..b. */
    VERS_GREATEST = 20,            /**< Symbols: the greatest of a..b. */
    VERS_MEDIAN = 21,              /**< Symbols: the middle one of a..b. */
    VERS_SYMBOLS_PREDECESSOR = 22, /**< Symbols: the greatest of a..b not above c. */
    VERS_SYMBOLS_SUCCESSOR = 23,   /**< Symbols: the least of a..b not below c. */
    VERS_SIZE = 24,                /**< Tree: the number of ones. */
    VERS_IS_BALANCED = 25,         /**< Tree: whether the parentheses are balanced, 1 or 0. */
    VERS_EXCESS = 26,              /**< Tree: ones less zeros up to position a, signed. */
    VERS_CLOSE = 27,               /**< Tree: the position that closes what opens at a. */
    VERS_OPEN = 28,                /**< Tree: the position that opens what closes at a. */
    VERS_ENCLOSE = 29,             /**< Tree: the position at which the nearest pair around a opens. */
    VERS_NODE_HANDLE = 30,         /**< Tree: node number a in preorder. */
    VERS_FWD_SEARCH = 31,          /**< Tree: the first position past a with the excess b more, b signed. */
    VERS_BWD_SEARCH = 32,          /**< Tree: the last position before a with the excess b more, b signed. */
    VERS_PARENT = 33,              /**< Tree: of node a. */
    VERS_FIRST_CHILD = 34,         /**< Tree: of node a. */
    VERS_LAST_CHILD = 35,          /**< Tree: of node a. */
    VERS_NEXT_SIBLING = 36,        /**< Tree: of node a. */
    VERS_PREVIOUS_SIBLING = 37,    /**< Tree: of node a. */
    VERS_LEVEL_NEXT = 38,          /**< Tree: of node a. */
    VERS_LEVEL_PREV = 39,          /**< Tree: of node a. */
    VERS_LEVEL_ANCESTOR = 40,      /**< Tree: of node a, b levels up. */
    VERS_NODE_INDEX = 41,          /**< Tree: the number of node a in preorder. */
    VERS_IS_LEAF = 42,             /**< Tree: of node a, 1 or 0. */
    VERS_DEPTH = 43,               /**< Tree: of node a. */
    VERS_SUBTREE_SIZE = 44,        /**< Tree: of node a. */
    VERS_LEVEL_LEFTMOST = 45,      /**< Tree: the first node of depth a. */
    VERS_LEVEL_RIGHTMOST = 46,     /**< Tree: the last node of depth a. */
    VERS_IS_ANCESTOR = 47,         /**< Tree: whether a is above b or is b, 1 or 0. */
    VERS_RANGE_MIN = 48,           /**< Minima: the first position of a least value from a to b. */
    VERS_CHEAPEST = 49,            /**< Postings: the first document of least cost from a to b. */
    VERS_COST = 50,                /**< Postings: the cost of the document at position a. */
    VERS_HAS_NODE = 51,            /**< Tree: whether the parentheses are balanced and a node opens at a, 1 or 0. */
    VERS_STEP = 52,                /**< Text: the distance between two sampled positions. */
    VERS_TERMS = 53,               /**< Inverted: the number of terms. */
    VERS_UNIVERSE = 54,            /**< Inverted: the number that all documents are below. */
    VERS_COUNT = 55,               /**< Inverted: the number of documents of term a. */
    VERS_TERM_GET = 56,            /**< Inverted: the document of term a at position b. */
    VERS_TERM_RANK = 57,           /**< Inverted: documents of term a below b. */
    VERS_TERM_HAS = 58,            /**< Inverted: whether term a has document b, 1 or 0. */
    VERS_TERM_SUCCESSOR = 59       /**< Inverted: the least document of term a not below b. */
};

/** The codes of changes of a vers_growing. */
enum vers_change_code {
    VERS_PUSH = 0,     /**< Appends the lowest bit of a. */
    VERS_APPEND = 1,   /**< Appends the b low bits of a. */
    VERS_SET = 2,      /**< Makes bit a the lowest bit of b. */
    VERS_DROP_LAST = 3 /**< Drops the last a bits. */
};

/** The numbers of several lists that vers_combine and vers_joined return. */
enum vers_joint {
    VERS_INTERSECTION = 0, /**< Those in all lists. */
    VERS_UNION = 1,        /**< Those in at least one list. */
    VERS_DIFFERENCE = 2    /**< Those in the first list and in none of the others. */
};

/** The kinds of lists with a saved form, which has the kinds 1 to 7, 9 and 10. A vers_growing has the form of a
 *  vers_bits, and a vers_binary_rmq that of a vers_fast_rmq. */
enum vers_kind {
    VERS_KIND_GROWING = 0,  /**< A vers_growing. */
    VERS_KIND_BITS = 1,     /**< A vers_bits. */
    VERS_KIND_SORTED = 2,   /**< A vers_sorted. */
    VERS_KIND_SYMBOLS = 3,  /**< A vers_symbols. */
    VERS_KIND_SPARSE = 4,   /**< A vers_sparse. */
    VERS_KIND_FAST = 5,     /**< A vers_fast_rmq. */
    VERS_KIND_TREE = 6,     /**< A vers_tree. */
    VERS_KIND_POSTINGS = 7, /**< A vers_postings. */
    VERS_KIND_BINARY = 8,   /**< A vers_binary_rmq. */
    VERS_KIND_TEXT = 9,     /**< A vers_text. */
    VERS_KIND_INVERTED = 10 /**< A vers_inverted. */
};

/** The answer of a query: `value` is valid if `status` is VERS_DONE, and 0 otherwise. */
typedef struct vers_answer {
    uint32_t status;
    uint64_t value;
} vers_answer;

/** The three numbers of one query of a batch. */
typedef struct vers_row {
    uint64_t a, b, c;
} vers_row;

/** The owner of a list. Only the library reads and writes its fields; a handle of all zeros is empty. */
typedef struct vers_handle {
    bool is_built;
    void *at;
} vers_handle;

/* The exports of the library, which are for all lists. The typed calls below use them.
 *
 * Each export says which handles have to differ, and which arrays it writes. During a call no other thread uses its
 * handles, or touches an array that it writes. An array that it reads may be read by other threads, and may be the same
 * as another one that it reads. An array may be null only if its count is 0. */

/** Answers a query. VERS_UNKNOWN, VERS_VACANT, and the statuses of the query. One handle, no array. */
vers_answer vers_ask(vers_handle *handle, uint32_t query, uint64_t a, uint64_t b, uint64_t c);

/** Returns the value of the answer to a query of one number, or UINT64_MAX if its status isn't VERS_DONE. One
 *  handle, no array. */
uint64_t vers_value(vers_handle *handle, uint32_t query, uint64_t a);

/** Replaces each number by the answer to it as a, with these b and c, or by `other` if the status isn't VERS_DONE.
 *  VERS_UNKNOWN and VERS_VACANT leave the numbers as they were. One handle; writes `numbers`. */
uint32_t vers_ask_each(vers_handle *handle, uint32_t query, uint64_t *numbers, size_t count, uint64_t b, uint64_t c,
                       uint64_t other);

/** Replaces the a of each row by the answer to its a, b and c, as vers_ask_each does. One handle; writes `rows`. */
uint32_t vers_ask_rows(vers_handle *handle, uint32_t query, vers_row *rows, size_t count, uint64_t other);

/** Changes a vers_growing. VERS_UNKNOWN, VERS_VACANT, VERS_REFUSED, VERS_NO_MEMORY, and VERS_SHARED while the list
 *  has another handle, in whatever thread. One handle, no array. */
uint32_t vers_change(vers_handle *handle, uint32_t change, uint64_t a, uint64_t b);

/** Makes an empty handle another owner of a list, for another thread. VERS_VACANT, VERS_OCCUPIED, VERS_NO_MEMORY.
 *  The two handles differ; afterwards each is for a thread of its own. */
uint32_t vers_clone(vers_handle *handle, vers_handle *other);

/** Puts the documents that two vers_postings share into an empty third handle, as vers_numbers. VERS_REFUSED if one
 *  of the two owns no such list, VERS_OCCUPIED, VERS_NO_MEMORY. The three handles differ. Of one list alone there
 *  have to be two handles, which `vers_postings_intersect` makes. */
uint32_t vers_intersect(vers_handle *one, vers_handle *other, vers_handle *into);

/** Puts the numbers of two vers_sorted that a vers_joint names into an empty third handle, as a vers_sorted without
 *  repeats. VERS_REFUSED if one of the two owns no such list, or there is no such vers_joint; VERS_OCCUPIED,
 *  VERS_NO_MEMORY. The three handles differ. Of one list alone there have to be two handles, which
 *  `vers_sorted_intersection` and so on make. */
uint32_t vers_combine(vers_handle *one, vers_handle *other, uint32_t joint, vers_handle *into);

/** Returns the number of occurrences of a pattern of `count` symbols in a vers_text. VERS_UNKNOWN of another list,
 *  VERS_VACANT. One handle; reads `pattern`. */
vers_answer vers_count(vers_handle *handle, const uint64_t *pattern, size_t count);

/** Counts many patterns in a vers_text at once: in a text of some millions of symbols this takes less time than one
 *  count after another. `symbols` has the patterns, joined, and `ends` the end of each: the first pattern begins at 0,
 *  each other one at the end before. Replaces each end by the number of occurrences of its pattern. VERS_REFUSED if the
 *  ends descend, or one is above `length`, VERS_UNKNOWN of another list, and VERS_VACANT: the ends stay. One handle;
 *  reads `symbols`, and writes `ends`. */
uint32_t vers_count_each(vers_handle *handle, const uint64_t *symbols, size_t length, uint64_t *ends, size_t count);

/** Puts the positions of a pattern in a vers_text, ascending, into an empty other handle, as vers_numbers.
 *  VERS_REFUSED if the first owns no text, VERS_OCCUPIED, VERS_NO_MEMORY. The two handles differ; reads `pattern`. */
uint32_t vers_places(vers_handle *handle, const uint64_t *pattern, size_t count, vers_handle *into);

/** Puts the first `limit` positions of a pattern in a vers_text, or all if there are fewer, into an empty other
 *  handle, as vers_numbers, in the order of the suffixes that begin there. VERS_REFUSED if the first owns no text,
 *  VERS_OCCUPIED, VERS_NO_MEMORY. The two handles differ; reads `pattern`. */
uint32_t vers_first_places(vers_handle *handle, const uint64_t *pattern, size_t count, size_t limit, vers_handle *into);

/** Puts the symbols of a vers_text from position `start` up to `end` into an empty other handle, as vers_numbers.
 *  VERS_REFUSED if the first owns no text with such positions, VERS_OCCUPIED, VERS_NO_MEMORY. The two handles
 *  differ. */
uint32_t vers_extract(vers_handle *handle, size_t start, size_t end, vers_handle *into);

/** Puts the documents of a term of a vers_inverted, ascending, into an empty other handle, as vers_numbers. A term
 *  that the index doesn't have has none. VERS_REFUSED if the first owns no such index, VERS_OCCUPIED,
 *  VERS_NO_MEMORY. The two handles differ. */
uint32_t vers_documents(vers_handle *handle, uint64_t term, vers_handle *into);

/** Puts the documents of `count` terms of a vers_inverted that a vers_joint names, ascending, into an empty other
 *  handle, as vers_numbers. An intersection takes the fewest steps if the first term has the fewest documents.
 *  VERS_REFUSED if the first handle owns no such index, there is no such vers_joint, or `count` is 0; VERS_OCCUPIED,
 *  VERS_NO_MEMORY. The two handles differ; reads `terms`. */
uint32_t vers_joined(vers_handle *handle, uint32_t joint, const uint64_t *terms, size_t count, vers_handle *into);

/** Empties a handle, and frees the list if no other handle owns it. An empty handle stays empty. Other threads may
 *  use and free other handles of the list meanwhile. One handle, no array. */
void vers_free(vers_handle *handle);

/* Frequent queries, each with an export of its own: the answers of vers_ask, in fewer instructions if the list is of
 * that kind. Values are those of a vers_fast_rmq. One handle, no array. */
vers_answer vers_quick_bits_get(vers_handle *handle, uint64_t position);
vers_answer vers_quick_bits_rank0(vers_handle *handle, uint64_t position);
vers_answer vers_quick_bits_rank1(vers_handle *handle, uint64_t position);
vers_answer vers_quick_bits_select0(vers_handle *handle, uint64_t number);
vers_answer vers_quick_bits_select1(vers_handle *handle, uint64_t number);
vers_answer vers_quick_sorted_get(vers_handle *handle, uint64_t position);
vers_answer vers_quick_sorted_rank(vers_handle *handle, uint64_t number);
vers_answer vers_quick_sorted_predecessor(vers_handle *handle, uint64_t number);
vers_answer vers_quick_sorted_successor(vers_handle *handle, uint64_t number);
vers_answer vers_quick_symbols_get(vers_handle *handle, uint64_t position);
vers_answer vers_quick_symbols_rank(vers_handle *handle, uint64_t end, uint64_t symbol);
vers_answer vers_quick_symbols_quantile(vers_handle *handle, uint64_t start, uint64_t end, uint64_t number);
vers_answer vers_quick_tree_get(vers_handle *handle, uint64_t position);
vers_answer vers_quick_tree_close(vers_handle *handle, uint64_t position);
vers_answer vers_quick_tree_parent(vers_handle *handle, uint64_t node);
vers_answer vers_quick_tree_first_child(vers_handle *handle, uint64_t node);
vers_answer vers_quick_tree_next_sibling(vers_handle *handle, uint64_t node);
vers_answer vers_quick_tree_depth(vers_handle *handle, uint64_t node);
vers_answer vers_quick_values_get(vers_handle *handle, uint64_t position);
vers_answer vers_quick_values_range_min(vers_handle *handle, uint64_t first, uint64_t last);

/** Returns the number of bytes of the saved form of a list. VERS_VACANT, VERS_ABSENT if there is none. One handle,
 * no array. */
vers_answer vers_saved_size(vers_handle *handle);

/** Writes the saved form of a list over `count` bytes, which are as many as vers_saved_size says. VERS_VACANT,
 *  VERS_ABSENT if there is none, VERS_REFUSED for another count, VERS_NO_MEMORY. One handle; writes `bytes`. */
uint32_t vers_save(vers_handle *handle, uint8_t *bytes, size_t count);

/** Makes the list of a kind from its saved form. For other bytes the status names the first test that fails:
 *  VERS_TOO_SHORT to VERS_NOT_A_TEXT. VERS_UNKNOWN for no kind, VERS_OCCUPIED, VERS_NO_MEMORY. One handle; reads
 *  `bytes`. */
uint32_t vers_load(uint32_t kind, const uint8_t *bytes, size_t count, vers_handle *handle);

/* The exports that build a list into an empty handle, as the calls `_of` below say: VERS_OCCUPIED, VERS_NO_MEMORY, and
 * VERS_REFUSED if those have it. One handle; each reads its arrays, of which two may be one. */
uint32_t vers_growing_build(const uint64_t *words, size_t count, size_t length, vers_handle *handle);
uint32_t vers_bits_build(const uint64_t *words, size_t count, size_t length, vers_handle *handle);
uint32_t vers_tree_build(const uint64_t *words, size_t count, size_t length, vers_handle *handle);
uint32_t vers_sparse_build(const uint64_t *ones, size_t count, uint64_t length, vers_handle *handle);
uint32_t vers_sorted_build(const uint64_t *numbers, size_t count, vers_handle *handle);
uint32_t vers_symbols_build(const uint64_t *numbers, size_t count, uint32_t width, vers_handle *handle);
uint32_t vers_symbols_build_bytes(const uint8_t *numbers, size_t count, uint32_t width, vers_handle *handle);
uint32_t vers_symbols_build_u16s(const uint16_t *numbers, size_t count, uint32_t width, vers_handle *handle);
uint32_t vers_symbols_build_u32s(const uint32_t *numbers, size_t count, uint32_t width, vers_handle *handle);
uint32_t vers_fast_rmq_build(const uint64_t *values, size_t count, vers_handle *handle);
uint32_t vers_binary_rmq_build(const uint64_t *values, size_t count, vers_handle *handle);
uint32_t vers_postings_build(const uint64_t *documents, size_t count, const uint64_t *costs, size_t cost_count,
                             vers_handle *handle);
uint32_t vers_inverted_build(uint64_t limit, uint64_t universe, const uint64_t *terms, size_t count,
                             const uint64_t *documents, size_t document_count, vers_handle *handle);
uint32_t vers_text_build(const uint64_t *symbols, size_t count, uint32_t width, size_t step, vers_handle *handle);
uint32_t vers_text_build_bytes(const uint8_t *symbols, size_t count, uint32_t width, size_t step, vers_handle *handle);
uint32_t vers_text_build_u16s(const uint16_t *symbols, size_t count, uint32_t width, size_t step, vers_handle *handle);

#ifdef __cplusplus
}
#endif

/* Helpers. */

/** Returns the signed number that the value of an excess represents. */
static inline int64_t vers_signed(uint64_t value) {
    return value <= INT64_MAX ? (int64_t)value : -(int64_t)~value - 1;
}

/** Returns the value of an answer, or another number if its status isn't VERS_DONE. */
static inline uint64_t vers_value_or(vers_answer answer, uint64_t other) {
    return answer.status == VERS_DONE ? answer.value : other;
}

/** Returns the text of a status. */
static inline const char *vers_status_text(uint32_t status) {
    static const char *const texts[] = {
        "done", "there is no such element", "the list has no such query or change", "the handle is empty",
        "the arguments are refused", "the handle already has a list",
        "there is no memory, or the list would be too long", "the list has another handle, so it can't change",
        "the bytes are no saved form, or are cut off", "the bytes do not begin as a saved form does",
        "the saved form is of another version", "the saved form is of another kind of list",
        "no such list is as long, or the bytes go on after it", "the sum is not that of the bytes before it",
        "a bit is set past the end of the list", "the numbers do not ascend",
        "no text has the column and the rows of a saved form",
    };
    return status < sizeof texts / sizeof *texts ? texts[status] : "no status of this library";
}

/** Returns whether an array is null although its count isn't 0. */
static inline bool vers_is_missing(const void *array, size_t count) {
    return !array && count > 0;
}

/** Returns an array, or one that isn't null instead of null. */
static inline const void *vers_some(const void *array) {
    static const uint64_t none = 0;
    return array ? array : &none;
}

/** Returns the same for numbers of 64 bits. */
static inline const uint64_t *vers_array(const uint64_t *array) {
    return (const uint64_t *)vers_some(array);
}

/** Returns a handle without `const`: a query writes to it, and leaves it as it was. */
static inline vers_handle *vers_held(const vers_handle *handle) {
    return (vers_handle *)(uintptr_t)handle;
}

/** Makes an empty handle another owner of a list. The list's own handle isn't empty. */
static inline uint32_t vers_cloned(const vers_handle *handle, vers_handle *other) {
    if (handle == other) return handle->is_built ? VERS_OCCUPIED : VERS_VACANT;
    return vers_clone(vers_held(handle), other);
}

/** Answers a query of a list, which stays as it is. */
static inline vers_answer vers_asked(const vers_handle *handle, enum vers_query query, uint64_t a, uint64_t b,
                                     uint64_t c) {
    return vers_ask(vers_held(handle), (uint32_t)query, a, b, c);
}

/** Returns the least position above another one with a bit of a kind, which `rank` counts and `select` finds. */
static inline vers_answer vers_next_bit(const vers_handle *handle, enum vers_query rank, enum vers_query select,
                                        uint64_t position) {
    vers_answer before = vers_asked(handle, rank, position < UINT64_MAX ? position + 1 : position, 0, 0);
    vers_answer found = vers_asked(handle, select, before.value, 0, 0), none = {VERS_ABSENT, 0};
    return found.status == VERS_DONE && found.value == vers_asked(handle, VERS_LEN, 0, 0, 0).value ? none : found;
}

/** Returns the greatest position below another one with a bit of a kind, which `rank` counts and `select` finds. */
static inline vers_answer vers_previous_bit(const vers_handle *handle, enum vers_query rank, enum vers_query select,
                                            uint64_t position) {
    vers_answer before = vers_asked(handle, rank, position, 0, 0), none = {VERS_ABSENT, 0};
    if (before.status != VERS_DONE) return before;
    return before.value == 0 ? none : vers_asked(handle, select, before.value - 1, 0, 0);
}

/** Answers many queries of a list, which stays as it is. */
static inline uint32_t vers_asked_each(const vers_handle *handle, enum vers_query query, uint64_t *numbers,
                                       size_t count, uint64_t b, uint64_t c, uint64_t other) {
    if (vers_is_missing(numbers, count)) return VERS_REFUSED;
    uint64_t none = 0;
    if (count == 0) numbers = &none;
    return vers_ask_each(vers_held(handle), (uint32_t)query, numbers, count, b, c, other);
}

/** Writes the answers of a query to the numbers from `start` on: as many as there is room for, and at most `most`. */
static inline uint32_t vers_asked_from(const vers_handle *handle, enum vers_query query, uint64_t start, uint64_t most,
                                       uint64_t *numbers, size_t count) {
    if (vers_is_missing(numbers, count)) return VERS_REFUSED;
    if (count > most) count = (size_t)most;
    for (size_t k = 0; k < count; k++) numbers[k] = start + k;
    return vers_asked_each(handle, query, numbers, count, 0, 0, 0);
}

/** Writes the positions from `start` up to `end` that `rank` counts and `select` finds. Returns how many there are,
 *  even if there is room for fewer. */
static inline vers_answer vers_listed(const vers_handle *handle, enum vers_query rank, enum vers_query select,
                                      uint64_t start, uint64_t end, uint64_t *places, size_t count) {
    vers_answer first = vers_asked(handle, rank, start, 0, 0), past = vers_asked(handle, rank, end, 0, 0);
    vers_answer missing = {VERS_REFUSED, 0};
    if (vers_is_missing(places, count)) return missing;
    if (past.status != VERS_DONE) return past;
    past.value = past.value > first.value ? past.value - first.value : 0;
    past.status = vers_asked_from(handle, select, first.value, past.value, places, count);
    return past;
}

/** Answers many queries of a list, with three numbers each. The list stays as it is. */
static inline uint32_t vers_asked_rows(const vers_handle *handle, enum vers_query query, vers_row *rows, size_t count,
                                       uint64_t other) {
    if (vers_is_missing(rows, count)) return VERS_REFUSED;
    vers_row none = {0, 0, 0};
    if (count == 0) rows = &none;
    return vers_ask_rows(vers_held(handle), (uint32_t)query, rows, count, other);
}

/** Writes the saved form of a list, which stays as it is. */
static inline uint32_t vers_saved(const vers_handle *handle, uint8_t *bytes, size_t count) {
    if (vers_is_missing(bytes, count)) return VERS_REFUSED;
    uint8_t none = 0;
    if (count == 0) bytes = &none;
    return vers_save(vers_held(handle), bytes, count);
}

/** Makes the list of a kind from its saved form. */
static inline uint32_t vers_loaded(enum vers_kind kind, const uint8_t *bytes, size_t count, vers_handle *handle) {
    if (vers_is_missing(bytes, count)) return VERS_REFUSED;
    const uint8_t none = 0;
    if (count == 0) bytes = &none;
    return vers_load((uint32_t)kind, bytes, count, handle);
}

/* A list of bits that can change. */

/** A list of bits that can change. Changes answer VERS_DONE, or leave the list as it was: VERS_REFUSED for the
 * reasons named at each, VERS_NO_MEMORY, VERS_SHARED while the list has another handle. */
typedef struct vers_growing {
    vers_handle handle;
} vers_growing;

/** Makes the list of the first `length` bits of `count` words, of all if they have fewer; the lowest bit of a word
 * comes first. VERS_OCCUPIED, VERS_NO_MEMORY. */
static inline uint32_t vers_growing_of(vers_growing *list, const uint64_t *words, size_t count, size_t length) {
    if (vers_is_missing(words, count)) return VERS_REFUSED;
    return vers_growing_build(vers_array(words), count, length, &list->handle);
}

/** Empties a handle, and frees the list if no other handle owns it. Null is ignored. */
static inline void vers_growing_free(vers_growing *list) {
    if (list) vers_free(&list->handle);
}

/** Makes an empty handle another owner of the list, for another thread. VERS_VACANT, VERS_OCCUPIED,
 * VERS_NO_MEMORY. */
static inline uint32_t vers_growing_clone(const vers_growing *list, vers_growing *other) {
    return vers_cloned(&list->handle, &other->handle);
}

/** Returns the number of bytes of the saved form of the list. */
static inline vers_answer vers_growing_saved_size(const vers_growing *list) {
    return vers_saved_size(vers_held(&list->handle));
}

/** Writes the saved form over `count` bytes, as many as `_saved_size` says. VERS_REFUSED for another count,
 * VERS_NO_MEMORY. */
static inline uint32_t vers_growing_save(const vers_growing *list, uint8_t *bytes, size_t count) {
    return vers_saved(&list->handle, bytes, count);
}

/** Makes the list from its saved form. For other bytes the status names the test that fails, as for vers_load.
 * VERS_OCCUPIED, VERS_NO_MEMORY. */
static inline uint32_t vers_growing_load(vers_growing *list, const uint8_t *bytes, size_t count) {
    return vers_loaded(VERS_KIND_GROWING, bytes, count, &list->handle);
}

/** Returns the number of bits. */
static inline vers_answer vers_growing_len(const vers_growing *list) {
    return vers_asked(&list->handle, VERS_LEN, 0, 0, 0);
}

/** Returns the number of bytes of the heap that the list takes. */
static inline vers_answer vers_growing_heap_size(const vers_growing *list) {
    return vers_asked(&list->handle, VERS_HEAP_SIZE, 0, 0, 0);
}

/** Returns the bit at a position, 1 or 0. VERS_ABSENT past the end. */
static inline vers_answer vers_growing_get(const vers_growing *list, uint64_t position) {
    return vers_asked(&list->handle, VERS_GET, position, 0, 0);
}

/** Returns the `count` bits from a position on as a number, the lowest first. VERS_ABSENT if there are fewer, or
 * they are none or more than 64. */
static inline vers_answer vers_growing_get_bits(const vers_growing *list, uint64_t position, uint64_t count) {
    return vers_asked(&list->handle, VERS_GET_BITS, position, count, 0);
}

/** Appends a bit. */
static inline uint32_t vers_growing_append(vers_growing *list, bool bit) {
    return vers_change(&list->handle, VERS_PUSH, bit, 0);
}

/** Appends the `count` low bits of a number, the lowest first. VERS_REFUSED if `count` is above 64. */
static inline uint32_t vers_growing_append_bits(vers_growing *list, uint64_t bits, uint64_t count) {
    return vers_change(&list->handle, VERS_APPEND, bits, count);
}

/** Makes the bit at a position this one. VERS_REFUSED past the end. */
static inline uint32_t vers_growing_set(vers_growing *list, uint64_t position, bool bit) {
    return vers_change(&list->handle, VERS_SET, position, bit);
}

/** Drops the last `count` bits, or all. */
static inline uint32_t vers_growing_drop_last(vers_growing *list, uint64_t count) {
    return vers_change(&list->handle, VERS_DROP_LAST, count, 0);
}

/** Replaces each number by the answer of a query of this number, or by `other` if there is no answer. VERS_UNKNOWN
 * and VERS_VACANT leave the numbers as they were. */
static inline uint32_t vers_growing_each(const vers_growing *list, enum vers_query query, uint64_t *numbers,
                                         size_t count, uint64_t other) {
    return vers_asked_each(&list->handle, query, numbers, count, 0, 0, other);
}

/** Replaces the a of each row by the answer of a query of its a, b and c, as `_each` does. */
static inline uint32_t vers_growing_rows(const vers_growing *list, enum vers_query query, vers_row *rows,
                                         size_t count, uint64_t other) {
    return vers_asked_rows(&list->handle, query, rows, count, other);
}

/* A list of bits with rank and select. */

/** A list of bits with rank and select. */
typedef struct vers_bits {
    vers_handle handle;
} vers_bits;

/** Makes the list of the first `length` bits of `count` words, of all if they have fewer; the lowest bit of a word
 * comes first. VERS_OCCUPIED, VERS_NO_MEMORY. */
static inline uint32_t vers_bits_of(vers_bits *list, const uint64_t *words, size_t count, size_t length) {
    if (vers_is_missing(words, count)) return VERS_REFUSED;
    return vers_bits_build(vers_array(words), count, length, &list->handle);
}

/** Empties a handle, and frees the list if no other handle owns it. Null is ignored. */
static inline void vers_bits_free(vers_bits *list) {
    if (list) vers_free(&list->handle);
}

/** Makes an empty handle another owner of the list, for another thread. VERS_VACANT, VERS_OCCUPIED,
 * VERS_NO_MEMORY. */
static inline uint32_t vers_bits_clone(const vers_bits *list, vers_bits *other) {
    return vers_cloned(&list->handle, &other->handle);
}

/** Returns the number of bytes of the saved form of the list. */
static inline vers_answer vers_bits_saved_size(const vers_bits *list) {
    return vers_saved_size(vers_held(&list->handle));
}

/** Writes the saved form over `count` bytes, as many as `_saved_size` says. VERS_REFUSED for another count,
 * VERS_NO_MEMORY. */
static inline uint32_t vers_bits_save(const vers_bits *list, uint8_t *bytes, size_t count) {
    return vers_saved(&list->handle, bytes, count);
}

/** Makes the list from its saved form. For other bytes the status names the test that fails, as for vers_load.
 * VERS_OCCUPIED, VERS_NO_MEMORY. */
static inline uint32_t vers_bits_load(vers_bits *list, const uint8_t *bytes, size_t count) {
    return vers_loaded(VERS_KIND_BITS, bytes, count, &list->handle);
}

/** Returns the number of bits. */
static inline vers_answer vers_bits_len(const vers_bits *list) {
    return vers_asked(&list->handle, VERS_LEN, 0, 0, 0);
}

/** Returns the number of bytes of the heap that the list takes. */
static inline vers_answer vers_bits_heap_size(const vers_bits *list) {
    return vers_asked(&list->handle, VERS_HEAP_SIZE, 0, 0, 0);
}

/** Returns the bit at a position, 1 or 0. VERS_ABSENT past the end. */
static inline vers_answer vers_bits_get(const vers_bits *list, uint64_t position) {
    return vers_quick_bits_get(vers_held(&list->handle), position);
}

/** Returns the `count` bits from a position on as a number, the lowest first; 0 for none. VERS_ABSENT if there are
 * fewer, or they are more than 64. */
static inline vers_answer vers_bits_get_bits(const vers_bits *list, uint64_t position, uint64_t count) {
    return vers_asked(&list->handle, VERS_GET_BITS, position, count, 0);
}

/** Returns the number of ones before a position, or of all ones past the end. */
static inline vers_answer vers_bits_rank1(const vers_bits *list, uint64_t position) {
    return vers_quick_bits_rank1(vers_held(&list->handle), position);
}

/** Returns the number of zeros before a position, or of all zeros past the end. */
static inline vers_answer vers_bits_rank0(const vers_bits *list, uint64_t position) {
    return vers_quick_bits_rank0(vers_held(&list->handle), position);
}

/** Returns the position of the one with index `number`, from 0; the length if there is none, while
 * vers_symbols_select returns VERS_ABSENT. */
static inline vers_answer vers_bits_select1(const vers_bits *list, uint64_t number) {
    return vers_quick_bits_select1(vers_held(&list->handle), number);
}

/** Writes the positions of ones from `start` up to `end`, ascending, to an array with room for `count`. Returns how
 * many there are, even if there is room for fewer. */
static inline vers_answer vers_bits_places1(const vers_bits *list, uint64_t start, uint64_t end, uint64_t *places,
                                           size_t count) {
    return vers_listed(&list->handle, VERS_RANK1, VERS_SELECT1, start, end, places, count);
}

/** Returns the position of the zero with index `number`, from 0; the length if there is none, while
 * vers_symbols_select returns VERS_ABSENT. */
static inline vers_answer vers_bits_select0(const vers_bits *list, uint64_t number) {
    return vers_quick_bits_select0(vers_held(&list->handle), number);
}

/** Writes the positions of zeros from `start` up to `end`, ascending, to an array with room for `count`. Returns how
 * many there are, even if there is room for fewer. */
static inline vers_answer vers_bits_places0(const vers_bits *list, uint64_t start, uint64_t end, uint64_t *places,
                                           size_t count) {
    return vers_listed(&list->handle, VERS_RANK0, VERS_SELECT0, start, end, places, count);
}

/** Returns the number of ones. */
static inline vers_answer vers_bits_ones(const vers_bits *list) {
    return vers_bits_rank1(list, UINT64_MAX);
}

/** Returns the number of zeros. */
static inline vers_answer vers_bits_zeros(const vers_bits *list) {
    return vers_bits_rank0(list, UINT64_MAX);
}

/** Returns the least position of a one strictly above a position, while vers_sorted_successor is at or above.
 * VERS_ABSENT if there is none. Takes a rank and a select. */
static inline vers_answer vers_bits_successor1(const vers_bits *list, uint64_t position) {
    return vers_next_bit(&list->handle, VERS_RANK1, VERS_SELECT1, position);
}

/** Returns the greatest position of a one strictly below a position, which may be past the end, while
 * vers_sorted_predecessor is at or below. VERS_ABSENT if there is none. Takes a rank and a select. */
static inline vers_answer vers_bits_predecessor1(const vers_bits *list, uint64_t position) {
    return vers_previous_bit(&list->handle, VERS_RANK1, VERS_SELECT1, position);
}

/** Returns the least position of a zero above a position. VERS_ABSENT if there is none. Takes a rank and a select. */
static inline vers_answer vers_bits_successor0(const vers_bits *list, uint64_t position) {
    return vers_next_bit(&list->handle, VERS_RANK0, VERS_SELECT0, position);
}

/** Returns the greatest position of a zero below a position, which may be past the end. VERS_ABSENT if there is
 * none. Takes a rank and a select. */
static inline vers_answer vers_bits_predecessor0(const vers_bits *list, uint64_t position) {
    return vers_previous_bit(&list->handle, VERS_RANK0, VERS_SELECT0, position);
}

/** Replaces each number by the answer of a query of this number, or by `other` if there is no answer. VERS_UNKNOWN
 * and VERS_VACANT leave the numbers as they were. */
static inline uint32_t vers_bits_each(const vers_bits *list, enum vers_query query, uint64_t *numbers, size_t count,
                                      uint64_t other) {
    return vers_asked_each(&list->handle, query, numbers, count, 0, 0, other);
}

/** Replaces the a of each row by the answer of a query of its a, b and c, as `_each` does. */
static inline uint32_t vers_bits_rows(const vers_bits *list, enum vers_query query, vers_row *rows, size_t count,
                                      uint64_t other) {
    return vers_asked_rows(&list->handle, query, rows, count, other);
}

/* Numbers that ascend, equal ones allowed. */

/** Numbers that ascend, equal ones allowed. */
typedef struct vers_sorted {
    vers_handle handle;
} vers_sorted;

/** Makes the list of `count` numbers. VERS_REFUSED if one is below the one before it. VERS_OCCUPIED,
 * VERS_NO_MEMORY. */
static inline uint32_t vers_sorted_of(vers_sorted *list, const uint64_t *numbers, size_t count) {
    if (vers_is_missing(numbers, count)) return VERS_REFUSED;
    return vers_sorted_build(vers_array(numbers), count, &list->handle);
}

/** Empties a handle, and frees the list if no other handle owns it. Null is ignored. */
static inline void vers_sorted_free(vers_sorted *list) {
    if (list) vers_free(&list->handle);
}

/** Makes an empty handle another owner of the list, for another thread. VERS_VACANT, VERS_OCCUPIED,
 * VERS_NO_MEMORY. */
static inline uint32_t vers_sorted_clone(const vers_sorted *list, vers_sorted *other) {
    return vers_cloned(&list->handle, &other->handle);
}

/** Returns the number of bytes of the saved form of the list. */
static inline vers_answer vers_sorted_saved_size(const vers_sorted *list) {
    return vers_saved_size(vers_held(&list->handle));
}

/** Writes the saved form over `count` bytes, as many as `_saved_size` says. VERS_REFUSED for another count,
 * VERS_NO_MEMORY. */
static inline uint32_t vers_sorted_save(const vers_sorted *list, uint8_t *bytes, size_t count) {
    return vers_saved(&list->handle, bytes, count);
}

/** Makes the list from its saved form. For other bytes the status names the test that fails, as for vers_load.
 * VERS_OCCUPIED, VERS_NO_MEMORY. */
static inline uint32_t vers_sorted_load(vers_sorted *list, const uint8_t *bytes, size_t count) {
    return vers_loaded(VERS_KIND_SORTED, bytes, count, &list->handle);
}

/** Returns the number of elements. */
static inline vers_answer vers_sorted_len(const vers_sorted *list) {
    return vers_asked(&list->handle, VERS_LEN, 0, 0, 0);
}

/** Returns the number of bytes of the heap that the list takes. */
static inline vers_answer vers_sorted_heap_size(const vers_sorted *list) {
    return vers_asked(&list->handle, VERS_HEAP_SIZE, 0, 0, 0);
}

/** Returns the element at a position. VERS_ABSENT past the end. */
static inline vers_answer vers_sorted_get(const vers_sorted *list, uint64_t position) {
    return vers_quick_sorted_get(vers_held(&list->handle), position);
}

/** Returns the number of elements below a number. */
static inline vers_answer vers_sorted_rank(const vers_sorted *list, uint64_t number) {
    return vers_quick_sorted_rank(vers_held(&list->handle), number);
}

/** Writes the elements from `least` on that are below `bound`, ascending, to an array with room for `count`. Returns
 * how many there are, even if there is room for fewer. */
static inline vers_answer vers_sorted_elements(const vers_sorted *list, uint64_t least, uint64_t bound,
                                              uint64_t *elements, size_t count) {
    return vers_listed(&list->handle, VERS_RANK, VERS_GET, least, bound, elements, count);
}

/** Returns whether a number is an element, 1 or 0. */
static inline vers_answer vers_sorted_has(const vers_sorted *list, uint64_t number) {
    return vers_asked(&list->handle, VERS_HAS, number, 0, 0);
}

/** Returns the greatest element at or below a number, while vers_bits_predecessor1 is strictly below. VERS_ABSENT if
 * there is none. */
static inline vers_answer vers_sorted_predecessor(const vers_sorted *list, uint64_t number) {
    return vers_quick_sorted_predecessor(vers_held(&list->handle), number);
}

/** Returns the least element at or above a number, while vers_bits_successor1 is strictly above. VERS_ABSENT if
 * there is none. */
static inline vers_answer vers_sorted_successor(const vers_sorted *list, uint64_t number) {
    return vers_quick_sorted_successor(vers_held(&list->handle), number);
}

/** Returns the element at a position less the one before it, the first element itself. VERS_ABSENT past the end. */
static inline vers_answer vers_sorted_delta(const vers_sorted *list, uint64_t position) {
    return vers_asked(&list->handle, VERS_DELTA, position, 0, 0);
}

/** Puts the elements of two lists that `joint` names, without repeats, into an empty third handle. The two may be one.
 * VERS_REFUSED if one of the two handles is empty, VERS_OCCUPIED, VERS_NO_MEMORY. */
static inline uint32_t vers_sorted_combined(const vers_sorted *one, const vers_sorted *two, enum vers_joint joint,
                                            vers_sorted *into) {
    vers_handle *first = vers_held(&one->handle), *second = vers_held(&two->handle), other = {false, NULL};
    if (first != second) return vers_combine(first, second, (uint32_t)joint, &into->handle);
    uint32_t status = vers_clone(first, &other);
    if (status != VERS_NO_MEMORY) status = vers_combine(first, &other, (uint32_t)joint, &into->handle);
    vers_free(&other);
    return status;
}

/** Puts the numbers that are elements of both lists, without repeats, into an empty third handle, as
 * vers_sorted_combined does. */
static inline uint32_t vers_sorted_intersection(const vers_sorted *one, const vers_sorted *two, vers_sorted *into) {
    return vers_sorted_combined(one, two, VERS_INTERSECTION, into);
}

/** Puts the numbers that are elements of one list or of both, without repeats, into an empty third handle, as
 * vers_sorted_combined does. */
static inline uint32_t vers_sorted_union(const vers_sorted *one, const vers_sorted *two, vers_sorted *into) {
    return vers_sorted_combined(one, two, VERS_UNION, into);
}

/** Puts the numbers that are elements of the first list and not of the second, without repeats, into an empty third
 * handle, as vers_sorted_combined does. */
static inline uint32_t vers_sorted_difference(const vers_sorted *one, const vers_sorted *two, vers_sorted *into) {
    return vers_sorted_combined(one, two, VERS_DIFFERENCE, into);
}

/** Replaces each number by the answer of a query of this number, or by `other` if there is no answer. VERS_UNKNOWN
 * and VERS_VACANT leave the numbers as they were. */
static inline uint32_t vers_sorted_each(const vers_sorted *list, enum vers_query query, uint64_t *numbers,
                                        size_t count, uint64_t other) {
    return vers_asked_each(&list->handle, query, numbers, count, 0, 0, other);
}

/* A list of bits with few ones, kept by their positions. */

/** A list of bits with few ones, stored by their positions. */
typedef struct vers_sparse {
    vers_handle handle;
} vers_sparse;

/** Makes the list of `length` bits whose ones are at `count` positions. VERS_REFUSED if the positions don't ascend
 * strictly, or one isn't below `length`. VERS_OCCUPIED, VERS_NO_MEMORY. */
static inline uint32_t vers_sparse_of(vers_sparse *list, const uint64_t *ones, size_t count, uint64_t length) {
    if (vers_is_missing(ones, count)) return VERS_REFUSED;
    return vers_sparse_build(vers_array(ones), count, length, &list->handle);
}

/** Empties a handle, and frees the list if no other handle owns it. Null is ignored. */
static inline void vers_sparse_free(vers_sparse *list) {
    if (list) vers_free(&list->handle);
}

/** Makes an empty handle another owner of the list, for another thread. VERS_VACANT, VERS_OCCUPIED,
 * VERS_NO_MEMORY. */
static inline uint32_t vers_sparse_clone(const vers_sparse *list, vers_sparse *other) {
    return vers_cloned(&list->handle, &other->handle);
}

/** Returns the number of bytes of the saved form of the list. */
static inline vers_answer vers_sparse_saved_size(const vers_sparse *list) {
    return vers_saved_size(vers_held(&list->handle));
}

/** Writes the saved form over `count` bytes, as many as `_saved_size` says. VERS_REFUSED for another count,
 * VERS_NO_MEMORY. */
static inline uint32_t vers_sparse_save(const vers_sparse *list, uint8_t *bytes, size_t count) {
    return vers_saved(&list->handle, bytes, count);
}

/** Makes the list from its saved form. For other bytes the status names the test that fails, as for vers_load.
 * VERS_OCCUPIED, VERS_NO_MEMORY. */
static inline uint32_t vers_sparse_load(vers_sparse *list, const uint8_t *bytes, size_t count) {
    return vers_loaded(VERS_KIND_SPARSE, bytes, count, &list->handle);
}

/** Returns the number of bits. */
static inline vers_answer vers_sparse_len(const vers_sparse *list) {
    return vers_asked(&list->handle, VERS_LEN, 0, 0, 0);
}

/** Returns the number of bytes of the heap that the list takes. */
static inline vers_answer vers_sparse_heap_size(const vers_sparse *list) {
    return vers_asked(&list->handle, VERS_HEAP_SIZE, 0, 0, 0);
}

/** Returns the bit at a position, 1 or 0. VERS_ABSENT past the end. */
static inline vers_answer vers_sparse_get(const vers_sparse *list, uint64_t position) {
    return vers_asked(&list->handle, VERS_GET, position, 0, 0);
}

/** Returns the number of ones before a position, or of all ones past the end. */
static inline vers_answer vers_sparse_rank1(const vers_sparse *list, uint64_t position) {
    return vers_asked(&list->handle, VERS_RANK1, position, 0, 0);
}

/** Returns the number of zeros before a position, or of all zeros past the end. */
static inline vers_answer vers_sparse_rank0(const vers_sparse *list, uint64_t position) {
    return vers_asked(&list->handle, VERS_RANK0, position, 0, 0);
}

/** Returns the position of the one with index `number`, from 0; the length if there is none, while
 * vers_symbols_select returns VERS_ABSENT. */
static inline vers_answer vers_sparse_select1(const vers_sparse *list, uint64_t number) {
    return vers_asked(&list->handle, VERS_SELECT1, number, 0, 0);
}

/** Writes the positions of ones from `start` up to `end`, ascending, to an array with room for `count`. Returns how
 * many there are, even if there is room for fewer. */
static inline vers_answer vers_sparse_places1(const vers_sparse *list, uint64_t start, uint64_t end, uint64_t *places,
                                             size_t count) {
    return vers_listed(&list->handle, VERS_RANK1, VERS_SELECT1, start, end, places, count);
}

/** Replaces each number by the answer of a query of this number, or by `other` if there is no answer. VERS_UNKNOWN
 * and VERS_VACANT leave the numbers as they were. */
static inline uint32_t vers_sparse_each(const vers_sparse *list, enum vers_query query, uint64_t *numbers,
                                        size_t count, uint64_t other) {
    return vers_asked_each(&list->handle, query, numbers, count, 0, 0, other);
}

/* A list of symbols, which are numbers of up to 64 bits. */

/** A list of symbols, which are numbers of up to 64 bits. A query takes the low bits of a wider symbol, and returns
 * VERS_ABSENT for a range that ends past the end. */
typedef struct vers_symbols {
    vers_handle handle;
} vers_symbols;

/** Makes the list of the `width` low bits of `count` numbers; if `width` is 0 there are no symbols. VERS_REFUSED if
 * `width` is above 64. VERS_OCCUPIED, VERS_NO_MEMORY. */
static inline uint32_t vers_symbols_of(vers_symbols *list, const uint64_t *numbers, size_t count, uint32_t width) {
    if (vers_is_missing(numbers, count)) return VERS_REFUSED;
    return vers_symbols_build(vers_array(numbers), count, width, &list->handle);
}

/** Makes the list that vers_symbols_of does, from bytes: the buffers of its sort take an eighth of the memory. */
static inline uint32_t vers_symbols_of_bytes(vers_symbols *list, const uint8_t *numbers, size_t count,
                                             uint32_t width) {
    if (vers_is_missing(numbers, count)) return VERS_REFUSED;
    return vers_symbols_build_bytes((const uint8_t *)vers_some(numbers), count, width, &list->handle);
}

/** Makes the list that vers_symbols_of does, from numbers of 16 bits. */
static inline uint32_t vers_symbols_of_u16s(vers_symbols *list, const uint16_t *numbers, size_t count,
                                            uint32_t width) {
    if (vers_is_missing(numbers, count)) return VERS_REFUSED;
    return vers_symbols_build_u16s((const uint16_t *)vers_some(numbers), count, width, &list->handle);
}

/** Makes the list that vers_symbols_of does, from numbers of 32 bits. */
static inline uint32_t vers_symbols_of_u32s(vers_symbols *list, const uint32_t *numbers, size_t count,
                                            uint32_t width) {
    if (vers_is_missing(numbers, count)) return VERS_REFUSED;
    return vers_symbols_build_u32s((const uint32_t *)vers_some(numbers), count, width, &list->handle);
}

/** Empties a handle, and frees the list if no other handle owns it. Null is ignored. */
static inline void vers_symbols_free(vers_symbols *list) {
    if (list) vers_free(&list->handle);
}

/** Makes an empty handle another owner of the list, for another thread. VERS_VACANT, VERS_OCCUPIED,
 * VERS_NO_MEMORY. */
static inline uint32_t vers_symbols_clone(const vers_symbols *list, vers_symbols *other) {
    return vers_cloned(&list->handle, &other->handle);
}

/** Returns the number of bytes of the saved form of the list. VERS_ABSENT if a symbol has no bits. */
static inline vers_answer vers_symbols_saved_size(const vers_symbols *list) {
    return vers_saved_size(vers_held(&list->handle));
}

/** Writes the saved form over `count` bytes, as many as `_saved_size` says. VERS_REFUSED for another count,
 * VERS_NO_MEMORY. VERS_ABSENT if a symbol has no bits. */
static inline uint32_t vers_symbols_save(const vers_symbols *list, uint8_t *bytes, size_t count) {
    return vers_saved(&list->handle, bytes, count);
}

/** Makes the list from its saved form. For other bytes the status names the test that fails, as for vers_load.
 * VERS_OCCUPIED, VERS_NO_MEMORY. */
static inline uint32_t vers_symbols_load(vers_symbols *list, const uint8_t *bytes, size_t count) {
    return vers_loaded(VERS_KIND_SYMBOLS, bytes, count, &list->handle);
}

/** Returns the number of symbols. */
static inline vers_answer vers_symbols_len(const vers_symbols *list) {
    return vers_asked(&list->handle, VERS_LEN, 0, 0, 0);
}

/** Returns the number of bits of a symbol. */
static inline vers_answer vers_symbols_bits_per_element(const vers_symbols *list) {
    return vers_asked(&list->handle, VERS_WIDTH, 0, 0, 0);
}

/** Returns the number of bytes of the heap that the list takes. */
static inline vers_answer vers_symbols_heap_size(const vers_symbols *list) {
    return vers_asked(&list->handle, VERS_HEAP_SIZE, 0, 0, 0);
}

/** Returns the symbol at a position. VERS_ABSENT past the end. */
static inline vers_answer vers_symbols_get(const vers_symbols *list, uint64_t position) {
    return vers_quick_symbols_get(vers_held(&list->handle), position);
}

/** Returns the number of occurrences of a symbol before the position `end`. VERS_ABSENT past the end. */
static inline vers_answer vers_symbols_rank(const vers_symbols *list, uint64_t end, uint64_t symbol) {
    return vers_quick_symbols_rank(vers_held(&list->handle), end, symbol);
}

/** Returns the number of occurrences of a symbol in a range. VERS_ABSENT if it starts past the last position, or
 * ends before it starts. */
static inline vers_answer vers_symbols_rank_range(const vers_symbols *list, uint64_t start, uint64_t end,
                                                  uint64_t symbol) {
    return vers_asked(&list->handle, VERS_RANK_RANGE, start, end, symbol);
}

/** Returns the position of occurrence `number` of a symbol. VERS_ABSENT if there are fewer, while vers_bits_select1
 * returns the length. */
static inline vers_answer vers_symbols_select(const vers_symbols *list, uint64_t number, uint64_t symbol) {
    return vers_asked(&list->handle, VERS_SELECT_OF, number, symbol, 0);
}

/** Returns the position of occurrence `number` of a symbol among the positions from `offset` on. VERS_ABSENT if
 * there are fewer. */
static inline vers_answer vers_symbols_select_offset(const vers_symbols *list, uint64_t offset, uint64_t number,
                                                     uint64_t symbol) {
    return vers_asked(&list->handle, VERS_SELECT_FROM, offset, number, symbol);
}

/** Returns symbol `number` of a range in ascending order. VERS_ABSENT if it has fewer. */
static inline vers_answer vers_symbols_quantile(const vers_symbols *list, uint64_t start, uint64_t end,
                                                uint64_t number) {
    return vers_quick_symbols_quantile(vers_held(&list->handle), start, end, number);
}

/** Returns the least symbol of a range without its end, while vers_fast_rmq_range_min includes the end and returns a
 * position. VERS_ABSENT if it is empty. */
static inline vers_answer vers_symbols_range_min(const vers_symbols *list, uint64_t start, uint64_t end) {
    return vers_asked(&list->handle, VERS_LEAST, start, end, 0);
}

/** Returns the greatest symbol of a range. VERS_ABSENT if it is empty. */
static inline vers_answer vers_symbols_range_max(const vers_symbols *list, uint64_t start, uint64_t end) {
    return vers_asked(&list->handle, VERS_GREATEST, start, end, 0);
}

/** Returns the middle one of a range in ascending order, the lower one of two. VERS_ABSENT if it is empty. */
static inline vers_answer vers_symbols_range_median(const vers_symbols *list, uint64_t start, uint64_t end) {
    return vers_asked(&list->handle, VERS_MEDIAN, start, end, 0);
}

/** Returns the greatest symbol of a range not above a symbol. VERS_ABSENT if there is none. */
static inline vers_answer vers_symbols_predecessor(const vers_symbols *list, uint64_t start, uint64_t end,
                                                   uint64_t symbol) {
    return vers_asked(&list->handle, VERS_SYMBOLS_PREDECESSOR, start, end, symbol);
}

/** Returns the least symbol of a range not below a symbol. VERS_ABSENT if there is none. */
static inline vers_answer vers_symbols_successor(const vers_symbols *list, uint64_t start, uint64_t end,
                                                 uint64_t symbol) {
    return vers_asked(&list->handle, VERS_SYMBOLS_SUCCESSOR, start, end, symbol);
}

/** Replaces each number by the answer of a query of this number, or by `other` if there is no answer. VERS_UNKNOWN
 * and VERS_VACANT leave the numbers as they were. */
static inline uint32_t vers_symbols_each(const vers_symbols *list, enum vers_query query, uint64_t *numbers,
                                         size_t count, uint64_t other) {
    return vers_asked_each(&list->handle, query, numbers, count, 0, 0, other);
}

/** Replaces the a of each row by the answer of a query of its a, b and c, as `_each` does. */
static inline uint32_t vers_symbols_rows(const vers_symbols *list, enum vers_query query, vers_row *rows,
                                         size_t count, uint64_t other) {
    return vers_asked_rows(&list->handle, query, rows, count, other);
}

/* A list of values that finds the least of a range, in few bits more. */

/** A list of values that finds the least of a range, in few bits more. */
typedef struct vers_fast_rmq {
    vers_handle handle;
} vers_fast_rmq;

/** Makes the list of `count` values. VERS_OCCUPIED, VERS_NO_MEMORY. */
static inline uint32_t vers_fast_rmq_of(vers_fast_rmq *list, const uint64_t *numbers, size_t count) {
    if (vers_is_missing(numbers, count)) return VERS_REFUSED;
    return vers_fast_rmq_build(vers_array(numbers), count, &list->handle);
}

/** Empties a handle, and frees the list if no other handle owns it. Null is ignored. */
static inline void vers_fast_rmq_free(vers_fast_rmq *list) {
    if (list) vers_free(&list->handle);
}

/** Makes an empty handle another owner of the list, for another thread. VERS_VACANT, VERS_OCCUPIED,
 * VERS_NO_MEMORY. */
static inline uint32_t vers_fast_rmq_clone(const vers_fast_rmq *list, vers_fast_rmq *other) {
    return vers_cloned(&list->handle, &other->handle);
}

/** Returns the number of bytes of the saved form of the list. */
static inline vers_answer vers_fast_rmq_saved_size(const vers_fast_rmq *list) {
    return vers_saved_size(vers_held(&list->handle));
}

/** Writes the saved form over `count` bytes, as many as `_saved_size` says. VERS_REFUSED for another count,
 * VERS_NO_MEMORY. */
static inline uint32_t vers_fast_rmq_save(const vers_fast_rmq *list, uint8_t *bytes, size_t count) {
    return vers_saved(&list->handle, bytes, count);
}

/** Makes the list from its saved form. For other bytes the status names the test that fails, as for vers_load.
 * VERS_OCCUPIED, VERS_NO_MEMORY. */
static inline uint32_t vers_fast_rmq_load(vers_fast_rmq *list, const uint8_t *bytes, size_t count) {
    return vers_loaded(VERS_KIND_FAST, bytes, count, &list->handle);
}

/** Returns the number of values. */
static inline vers_answer vers_fast_rmq_len(const vers_fast_rmq *list) {
    return vers_asked(&list->handle, VERS_LEN, 0, 0, 0);
}

/** Returns the number of bytes of the heap that the list takes. */
static inline vers_answer vers_fast_rmq_heap_size(const vers_fast_rmq *list) {
    return vers_asked(&list->handle, VERS_HEAP_SIZE, 0, 0, 0);
}

/** Returns the value at a position. VERS_ABSENT past the end. */
static inline vers_answer vers_fast_rmq_get(const vers_fast_rmq *list, uint64_t position) {
    return vers_quick_values_get(vers_held(&list->handle), position);
}

/** Returns the first position of a least value from `first` to `last`, both included, while vers_symbols_range_min
 * excludes the end and returns a symbol. VERS_ABSENT if `last` is before `first` or past the end. */
static inline vers_answer vers_fast_rmq_range_min(const vers_fast_rmq *list, uint64_t first, uint64_t last) {
    return vers_quick_values_range_min(vers_held(&list->handle), first, last);
}

/** Replaces each number by the answer of a query of this number, or by `other` if there is no answer. VERS_UNKNOWN
 * and VERS_VACANT leave the numbers as they were. */
static inline uint32_t vers_fast_rmq_each(const vers_fast_rmq *list, enum vers_query query, uint64_t *numbers,
                                          size_t count, uint64_t other) {
    return vers_asked_each(&list->handle, query, numbers, count, 0, 0, other);
}

/** Replaces the a of each row by the answer of a query of its a, b and c, as `_each` does. */
static inline uint32_t vers_fast_rmq_rows(const vers_fast_rmq *list, enum vers_query query, vers_row *rows,
                                          size_t count, uint64_t other) {
    return vers_asked_rows(&list->handle, query, rows, count, other);
}

/* A list of values that finds the least of a range by a table, of 4 bytes for each value and power of two. */

/** A list of values that finds the least of a range by a table, of 4 bytes for each value and power of two. */
typedef struct vers_binary_rmq {
    vers_handle handle;
} vers_binary_rmq;

/** Makes the list of `count` values. VERS_OCCUPIED, VERS_NO_MEMORY. */
static inline uint32_t vers_binary_rmq_of(vers_binary_rmq *list, const uint64_t *numbers, size_t count) {
    if (vers_is_missing(numbers, count)) return VERS_REFUSED;
    return vers_binary_rmq_build(vers_array(numbers), count, &list->handle);
}

/** Empties a handle, and frees the list if no other handle owns it. Null is ignored. */
static inline void vers_binary_rmq_free(vers_binary_rmq *list) {
    if (list) vers_free(&list->handle);
}

/** Makes an empty handle another owner of the list, for another thread. VERS_VACANT, VERS_OCCUPIED,
 * VERS_NO_MEMORY. */
static inline uint32_t vers_binary_rmq_clone(const vers_binary_rmq *list, vers_binary_rmq *other) {
    return vers_cloned(&list->handle, &other->handle);
}

/** Returns the number of bytes of the saved form of the list. */
static inline vers_answer vers_binary_rmq_saved_size(const vers_binary_rmq *list) {
    return vers_saved_size(vers_held(&list->handle));
}

/** Writes the saved form over `count` bytes, as many as `_saved_size` says. VERS_REFUSED for another count,
 * VERS_NO_MEMORY. */
static inline uint32_t vers_binary_rmq_save(const vers_binary_rmq *list, uint8_t *bytes, size_t count) {
    return vers_saved(&list->handle, bytes, count);
}

/** Makes the list from its saved form. For other bytes the status names the test that fails, as for vers_load.
 * VERS_OCCUPIED, VERS_NO_MEMORY. */
static inline uint32_t vers_binary_rmq_load(vers_binary_rmq *list, const uint8_t *bytes, size_t count) {
    return vers_loaded(VERS_KIND_BINARY, bytes, count, &list->handle);
}

/** Returns the number of values. */
static inline vers_answer vers_binary_rmq_len(const vers_binary_rmq *list) {
    return vers_asked(&list->handle, VERS_LEN, 0, 0, 0);
}

/** Returns the number of bytes of the heap that the list takes. */
static inline vers_answer vers_binary_rmq_heap_size(const vers_binary_rmq *list) {
    return vers_asked(&list->handle, VERS_HEAP_SIZE, 0, 0, 0);
}

/** Returns the value at a position. VERS_ABSENT past the end. */
static inline vers_answer vers_binary_rmq_get(const vers_binary_rmq *list, uint64_t position) {
    return vers_asked(&list->handle, VERS_GET, position, 0, 0);
}

/** Returns the first position of a least value from `first` to `last`, both included, while vers_symbols_range_min
 * excludes the end and returns a symbol. VERS_ABSENT if `last` is before `first` or past the end. */
static inline vers_answer vers_binary_rmq_range_min(const vers_binary_rmq *list, uint64_t first, uint64_t last) {
    return vers_asked(&list->handle, VERS_RANGE_MIN, first, last, 0);
}

/** Replaces each number by the answer of a query of this number, or by `other` if there is no answer. VERS_UNKNOWN
 * and VERS_VACANT leave the numbers as they were. */
static inline uint32_t vers_binary_rmq_each(const vers_binary_rmq *list, enum vers_query query, uint64_t *numbers,
                                            size_t count, uint64_t other) {
    return vers_asked_each(&list->handle, query, numbers, count, 0, 0, other);
}

/** Replaces the a of each row by the answer of a query of its a, b and c, as `_each` does. */
static inline uint32_t vers_binary_rmq_rows(const vers_binary_rmq *list, enum vers_query query, vers_row *rows,
                                            size_t count, uint64_t other) {
    return vers_asked_rows(&list->handle, query, rows, count, other);
}

/* Trees as parentheses. */

/** Trees as parentheses: a one opens and a zero closes. A node is the position at which it opens. Queries of nodes
 * return VERS_REFUSED if the parentheses aren't balanced or no node opens at an argument. The other queries take any
 * list of bits. */
typedef struct vers_tree {
    vers_handle handle;
} vers_tree;

/** Makes the list of the first `length` bits of `count` words, of all if they have fewer; the lowest bit of a word
 * comes first. VERS_OCCUPIED, VERS_NO_MEMORY. */
static inline uint32_t vers_tree_of(vers_tree *list, const uint64_t *words, size_t count, size_t length) {
    if (vers_is_missing(words, count)) return VERS_REFUSED;
    return vers_tree_build(vers_array(words), count, length, &list->handle);
}

/** Empties a handle, and frees the list if no other handle owns it. Null is ignored. */
static inline void vers_tree_free(vers_tree *list) {
    if (list) vers_free(&list->handle);
}

/** Makes an empty handle another owner of the list, for another thread. VERS_VACANT, VERS_OCCUPIED,
 * VERS_NO_MEMORY. */
static inline uint32_t vers_tree_clone(const vers_tree *list, vers_tree *other) {
    return vers_cloned(&list->handle, &other->handle);
}

/** Returns the number of bytes of the saved form of the list. */
static inline vers_answer vers_tree_saved_size(const vers_tree *list) {
    return vers_saved_size(vers_held(&list->handle));
}

/** Writes the saved form over `count` bytes, as many as `_saved_size` says. VERS_REFUSED for another count,
 * VERS_NO_MEMORY. */
static inline uint32_t vers_tree_save(const vers_tree *list, uint8_t *bytes, size_t count) {
    return vers_saved(&list->handle, bytes, count);
}

/** Makes the list from its saved form. For other bytes the status names the test that fails, as for vers_load.
 * VERS_OCCUPIED, VERS_NO_MEMORY. */
static inline uint32_t vers_tree_load(vers_tree *list, const uint8_t *bytes, size_t count) {
    return vers_loaded(VERS_KIND_TREE, bytes, count, &list->handle);
}

/** Returns the number of parentheses. */
static inline vers_answer vers_tree_len(const vers_tree *list) {
    return vers_asked(&list->handle, VERS_LEN, 0, 0, 0);
}

/** Returns whether the parenthesis at a position opens, 1 or 0. VERS_ABSENT past the end. */
static inline vers_answer vers_tree_is_open(const vers_tree *list, uint64_t position) {
    return vers_quick_tree_get(vers_held(&list->handle), position);
}

/** Returns the number of bytes of the heap that the list takes. */
static inline vers_answer vers_tree_heap_size(const vers_tree *list) {
    return vers_asked(&list->handle, VERS_HEAP_SIZE, 0, 0, 0);
}

/** Returns the number of ones, which is the number of nodes if the parentheses are balanced. */
static inline vers_answer vers_tree_size(const vers_tree *list) {
    return vers_asked(&list->handle, VERS_SIZE, 0, 0, 0);
}

/** Returns whether the parentheses are balanced, 1 or 0. */
static inline vers_answer vers_tree_is_balanced(const vers_tree *list) {
    return vers_asked(&list->handle, VERS_IS_BALANCED, 0, 0, 0);
}

/** Returns the number of ones less that of zeros, up to a position and at it: vers_signed converts `value`.
 * VERS_REFUSED past the end. */
static inline vers_answer vers_tree_excess(const vers_tree *list, uint64_t position) {
    return vers_asked(&list->handle, VERS_EXCESS, position, 0, 0);
}

/** Returns the position that closes what opens at a position, or, for one that closes, at which the pair around it
 * closes. VERS_ABSENT if there is none. */
static inline vers_answer vers_tree_close(const vers_tree *list, uint64_t position) {
    return vers_quick_tree_close(vers_held(&list->handle), position);
}

/** Returns the position that opens what closes at a position, or, for one that opens, its parent. VERS_ABSENT if there
 * is none. */
static inline vers_answer vers_tree_open(const vers_tree *list, uint64_t position) {
    return vers_asked(&list->handle, VERS_OPEN, position, 0, 0);
}

/** Returns the position at which the nearest pair around a position opens. VERS_ABSENT if there is none. */
static inline vers_answer vers_tree_enclose(const vers_tree *list, uint64_t position) {
    return vers_asked(&list->handle, VERS_ENCLOSE, position, 0, 0);
}

/** Returns the position of the one with index `number`, which is that node in preorder if the parentheses are
 * balanced; the length if there is none. */
static inline vers_answer vers_tree_node_handle(const vers_tree *list, uint64_t number) {
    return vers_asked(&list->handle, VERS_NODE_HANDLE, number, 0, 0);
}

/** Returns the first position past `position` at which the excess has risen by `rise`. VERS_ABSENT if there is
 * none. */
static inline vers_answer vers_tree_fwd_search(const vers_tree *list, uint64_t position, int64_t rise) {
    return vers_asked(&list->handle, VERS_FWD_SEARCH, position, (uint64_t)rise, 0);
}

/** Returns the last position before `position` before which the excess is `rise` more. VERS_ABSENT if there is none, or
 * `position` is past the end. */
static inline vers_answer vers_tree_bwd_search(const vers_tree *list, uint64_t position, int64_t rise) {
    return vers_asked(&list->handle, VERS_BWD_SEARCH, position, (uint64_t)rise, 0);
}

/** Returns the parent of a node. VERS_ABSENT for a root. */
static inline vers_answer vers_tree_parent(const vers_tree *list, uint64_t node) {
    return vers_quick_tree_parent(vers_held(&list->handle), node);
}

/** Returns the first child of a node. VERS_ABSENT for a leaf. */
static inline vers_answer vers_tree_first_child(const vers_tree *list, uint64_t node) {
    return vers_quick_tree_first_child(vers_held(&list->handle), node);
}

/** Returns the last child of a node. VERS_ABSENT for a leaf. */
static inline vers_answer vers_tree_last_child(const vers_tree *list, uint64_t node) {
    return vers_asked(&list->handle, VERS_LAST_CHILD, node, 0, 0);
}

/** Returns the sibling after a node. VERS_ABSENT for the last one. */
static inline vers_answer vers_tree_next_sibling(const vers_tree *list, uint64_t node) {
    return vers_quick_tree_next_sibling(vers_held(&list->handle), node);
}

/** Returns the sibling before a node. VERS_ABSENT for the first one. */
static inline vers_answer vers_tree_previous_sibling(const vers_tree *list, uint64_t node) {
    return vers_asked(&list->handle, VERS_PREVIOUS_SIBLING, node, 0, 0);
}

/** Returns the next node of the same depth. VERS_ABSENT if there is none. */
static inline vers_answer vers_tree_level_next(const vers_tree *list, uint64_t node) {
    return vers_asked(&list->handle, VERS_LEVEL_NEXT, node, 0, 0);
}

/** Returns the previous node of the same depth. VERS_ABSENT if there is none. */
static inline vers_answer vers_tree_level_prev(const vers_tree *list, uint64_t node) {
    return vers_asked(&list->handle, VERS_LEVEL_PREV, node, 0, 0);
}

/** Returns the ancestor of a node that is `levels` levels up, the node itself at 0. VERS_ABSENT if there is none. */
static inline vers_answer vers_tree_level_ancestor(const vers_tree *list, uint64_t node, uint64_t levels) {
    return vers_asked(&list->handle, VERS_LEVEL_ANCESTOR, node, levels, 0);
}

/** Returns the index of a node in preorder. */
static inline vers_answer vers_tree_node_index(const vers_tree *list, uint64_t node) {
    return vers_asked(&list->handle, VERS_NODE_INDEX, node, 0, 0);
}

/** Returns whether the parentheses are balanced and a node opens at a position, 1 or 0. */
static inline vers_answer vers_tree_has_node(const vers_tree *list, uint64_t position) {
    return vers_asked(&list->handle, VERS_HAS_NODE, position, 0, 0);
}

/** Returns whether a node has no children, 1 or 0. */
static inline vers_answer vers_tree_is_leaf(const vers_tree *list, uint64_t node) {
    return vers_asked(&list->handle, VERS_IS_LEAF, node, 0, 0);
}

/** Returns the number of ancestors of a node. */
static inline vers_answer vers_tree_depth(const vers_tree *list, uint64_t node) {
    return vers_quick_tree_depth(vers_held(&list->handle), node);
}

/** Returns the number of nodes of the subtree of a node, itself included. */
static inline vers_answer vers_tree_subtree_size(const vers_tree *list, uint64_t node) {
    return vers_asked(&list->handle, VERS_SUBTREE_SIZE, node, 0, 0);
}

/** Returns whether one node is above another, or is that node, 1 or 0. */
static inline vers_answer vers_tree_is_ancestor(const vers_tree *list, uint64_t ancestor, uint64_t node) {
    return vers_asked(&list->handle, VERS_IS_ANCESTOR, ancestor, node, 0);
}

/** Returns the first node of a depth, which is 0 for roots. VERS_ABSENT if no node is so deep. */
static inline vers_answer vers_tree_level_leftmost(const vers_tree *list, uint64_t depth) {
    return vers_asked(&list->handle, VERS_LEVEL_LEFTMOST, depth, 0, 0);
}

/** Returns the last node of a depth, which is 0 for roots. VERS_ABSENT if no node is so deep. */
static inline vers_answer vers_tree_level_rightmost(const vers_tree *list, uint64_t depth) {
    return vers_asked(&list->handle, VERS_LEVEL_RIGHTMOST, depth, 0, 0);
}

/** Returns the first root, which is position 0. VERS_ABSENT if the list is empty. */
static inline vers_answer vers_tree_root(const vers_tree *list) {
    vers_answer first = vers_tree_is_open(list, 0);
    first.value = 0;
    return first;
}

/** Replaces each number by the answer of a query of this number, or by `other` if there is no answer. VERS_UNKNOWN
 * and VERS_VACANT leave the numbers as they were. */
static inline uint32_t vers_tree_each(const vers_tree *list, enum vers_query query, uint64_t *numbers, size_t count,
                                      uint64_t other) {
    return vers_asked_each(&list->handle, query, numbers, count, 0, 0, other);
}

/** Replaces the a of each row by the answer of a query of its a, b and c, as `_each` does. */
static inline uint32_t vers_tree_rows(const vers_tree *list, enum vers_query query, vers_row *rows, size_t count,
                                      uint64_t other) {
    return vers_asked_rows(&list->handle, query, rows, count, other);
}

/* Documents, which ascend strictly, each with a cost. */

/** Documents, which ascend strictly, each with a cost. */
typedef struct vers_postings {
    vers_handle handle;
} vers_postings;

/** Makes the list of `count` documents and as many costs. VERS_REFUSED if the documents don't ascend strictly.
 * VERS_OCCUPIED, VERS_NO_MEMORY. */
static inline uint32_t vers_postings_of(vers_postings *list, const uint64_t *documents, const uint64_t *costs,
                                        size_t count) {
    if (vers_is_missing(documents, count) || vers_is_missing(costs, count)) return VERS_REFUSED;
    return vers_postings_build(vers_array(documents), count, vers_array(costs), count, &list->handle);
}

/** Empties a handle, and frees the list if no other handle owns it. Null is ignored. */
static inline void vers_postings_free(vers_postings *list) {
    if (list) vers_free(&list->handle);
}

/** Makes an empty handle another owner of the list, for another thread. VERS_VACANT, VERS_OCCUPIED,
 * VERS_NO_MEMORY. */
static inline uint32_t vers_postings_clone(const vers_postings *list, vers_postings *other) {
    return vers_cloned(&list->handle, &other->handle);
}

/** Returns the number of bytes of the saved form of the list. */
static inline vers_answer vers_postings_saved_size(const vers_postings *list) {
    return vers_saved_size(vers_held(&list->handle));
}

/** Writes the saved form over `count` bytes, as many as `_saved_size` says. VERS_REFUSED for another count,
 * VERS_NO_MEMORY. */
static inline uint32_t vers_postings_save(const vers_postings *list, uint8_t *bytes, size_t count) {
    return vers_saved(&list->handle, bytes, count);
}

/** Makes the list from its saved form. For other bytes the status names the test that fails, as for vers_load.
 * VERS_OCCUPIED, VERS_NO_MEMORY. */
static inline uint32_t vers_postings_load(vers_postings *list, const uint8_t *bytes, size_t count) {
    return vers_loaded(VERS_KIND_POSTINGS, bytes, count, &list->handle);
}

/** Returns the number of documents. */
static inline vers_answer vers_postings_len(const vers_postings *list) {
    return vers_asked(&list->handle, VERS_LEN, 0, 0, 0);
}

/** Returns the number of bytes of the heap that the list takes. */
static inline vers_answer vers_postings_heap_size(const vers_postings *list) {
    return vers_asked(&list->handle, VERS_HEAP_SIZE, 0, 0, 0);
}

/** Returns the document at a position. VERS_ABSENT past the end. */
static inline vers_answer vers_postings_get(const vers_postings *list, uint64_t position) {
    return vers_asked(&list->handle, VERS_GET, position, 0, 0);
}

/** Returns the cost of the document at a position. VERS_ABSENT past the end. */
static inline vers_answer vers_postings_cost(const vers_postings *list, uint64_t position) {
    return vers_asked(&list->handle, VERS_COST, position, 0, 0);
}

/** Writes the documents from `least` on that are below `bound`, ascending, to an array with room for `count`.
 * Returns how many there are, even if there is room for fewer. */
static inline vers_answer vers_postings_documents(const vers_postings *list, uint64_t least, uint64_t bound,
                                                  uint64_t *documents, size_t count) {
    return vers_listed(&list->handle, VERS_RANK, VERS_GET, least, bound, documents, count);
}

/** Returns the number of documents below a number. */
static inline vers_answer vers_postings_rank(const vers_postings *list, uint64_t number) {
    return vers_asked(&list->handle, VERS_RANK, number, 0, 0);
}

/** Returns whether a document is in the list, 1 or 0. */
static inline vers_answer vers_postings_contains(const vers_postings *list, uint64_t document) {
    return vers_asked(&list->handle, VERS_HAS, document, 0, 0);
}

/** Returns the first document not below a number. VERS_ABSENT if there is none. */
static inline vers_answer vers_postings_next_at_least(const vers_postings *list, uint64_t number) {
    return vers_asked(&list->handle, VERS_SUCCESSOR, number, 0, 0);
}

/** Returns the first document of least cost from one number to another, both included. VERS_ABSENT if there is none. */
static inline vers_answer vers_postings_cheapest(const vers_postings *list, uint64_t first, uint64_t last) {
    return vers_asked(&list->handle, VERS_CHEAPEST, first, last, 0);
}

/** Replaces each number by the answer of a query of this number, or by `other` if there is no answer. VERS_UNKNOWN
 * and VERS_VACANT leave the numbers as they were. */
static inline uint32_t vers_postings_each(const vers_postings *list, enum vers_query query, uint64_t *numbers,
                                          size_t count, uint64_t other) {
    return vers_asked_each(&list->handle, query, numbers, count, 0, 0, other);
}

/** Replaces the a of each row by the answer of a query of its a, b and c, as `_each` does. */
static inline uint32_t vers_postings_rows(const vers_postings *list, enum vers_query query, vers_row *rows,
                                          size_t count, uint64_t other) {
    return vers_asked_rows(&list->handle, query, rows, count, other);
}

/* Plain numbers, which some calls return. */

/** Plain numbers, which some calls return. */
typedef struct vers_numbers {
    vers_handle handle;
} vers_numbers;

/** Empties a handle, and frees the list if no other handle owns it. Null is ignored. */
static inline void vers_numbers_free(vers_numbers *list) {
    if (list) vers_free(&list->handle);
}

/** Makes an empty handle another owner of the list, for another thread. VERS_VACANT, VERS_OCCUPIED,
 * VERS_NO_MEMORY. */
static inline uint32_t vers_numbers_clone(const vers_numbers *list, vers_numbers *other) {
    return vers_cloned(&list->handle, &other->handle);
}

/** Returns the number of numbers. */
static inline vers_answer vers_numbers_len(const vers_numbers *list) {
    return vers_asked(&list->handle, VERS_LEN, 0, 0, 0);
}

/** Returns the number at a position. VERS_ABSENT past the end. */
static inline vers_answer vers_numbers_get(const vers_numbers *list, uint64_t position) {
    return vers_asked(&list->handle, VERS_GET, position, 0, 0);
}

/** Writes the numbers over an array of `count`, as many as there is room for. VERS_VACANT leaves it as it was. */
static inline uint32_t vers_numbers_copy(const vers_numbers *list, uint64_t *numbers, size_t count) {
    vers_answer length = vers_numbers_len(list);
    if (length.status != VERS_DONE) return length.status;
    return vers_asked_from(&list->handle, VERS_GET, 0, length.value, numbers, count);
}

/** Puts the documents that two lists share, ascending, into an empty third handle. The two may be one. VERS_REFUSED
 * if one of the two handles is empty, VERS_OCCUPIED, VERS_NO_MEMORY. */
static inline uint32_t vers_postings_intersect(const vers_postings *one, const vers_postings *two,
                                               vers_numbers *into) {
    vers_handle *first = vers_held(&one->handle), *second = vers_held(&two->handle), other = {false, NULL};
    if (first != second) return vers_intersect(first, second, &into->handle);
    uint32_t status = vers_clone(first, &other);
    if (status != VERS_NO_MEMORY) status = vers_intersect(first, &other, &into->handle);
    vers_free(&other);
    return status;
}

/** Replaces each number by the answer of a query of this number, or by `other` if there is no answer. VERS_UNKNOWN
 * and VERS_VACANT leave the numbers as they were. */
static inline uint32_t vers_numbers_each(const vers_numbers *list, enum vers_query query, uint64_t *numbers,
                                         size_t count, uint64_t other) {
    return vers_asked_each(&list->handle, query, numbers, count, 0, 0, other);
}

/* An inverted index: ascending documents for each term. */

/** An inverted index: ascending documents for each term. Terms and documents are numbers below limits. A term that the
 * index doesn't have has no documents. */
typedef struct vers_inverted {
    vers_handle handle;
} vers_inverted;

/** Makes the index of `count` pairs of a term below `limit` and a document below `universe`, which ascend strictly
 * by term, and those of one term by document. VERS_REFUSED if they don't, or a number isn't below its limit, or
 * `limit` times `universe` exceeds 64 bits. VERS_OCCUPIED, VERS_NO_MEMORY. */
static inline uint32_t vers_inverted_of(vers_inverted *index, uint64_t limit, uint64_t universe, const uint64_t *terms,
                                        const uint64_t *documents, size_t count) {
    if (vers_is_missing(terms, count) || vers_is_missing(documents, count)) return VERS_REFUSED;
    return vers_inverted_build(limit, universe, vers_array(terms), count, vers_array(documents), count, &index->handle);
}

/** Empties a handle, and frees the index if no other handle owns it. Null is ignored. */
static inline void vers_inverted_free(vers_inverted *index) {
    if (index) vers_free(&index->handle);
}

/** Makes an empty handle another owner of the index, for another thread. VERS_VACANT, VERS_OCCUPIED,
 * VERS_NO_MEMORY. */
static inline uint32_t vers_inverted_clone(const vers_inverted *index, vers_inverted *other) {
    return vers_cloned(&index->handle, &other->handle);
}

/** Returns the number of bytes of the saved form of the index. */
static inline vers_answer vers_inverted_saved_size(const vers_inverted *index) {
    return vers_saved_size(vers_held(&index->handle));
}

/** Writes the saved form over `count` bytes, as many as `_saved_size` says. VERS_REFUSED for another count,
 * VERS_NO_MEMORY. */
static inline uint32_t vers_inverted_save(const vers_inverted *index, uint8_t *bytes, size_t count) {
    return vers_saved(&index->handle, bytes, count);
}

/** Makes the index from its saved form. For other bytes the status names the test that fails, as for vers_load.
 * VERS_OCCUPIED, VERS_NO_MEMORY. */
static inline uint32_t vers_inverted_load(vers_inverted *index, const uint8_t *bytes, size_t count) {
    return vers_loaded(VERS_KIND_INVERTED, bytes, count, &index->handle);
}

/** Returns the number of pairs of a term and a document. */
static inline vers_answer vers_inverted_len(const vers_inverted *index) {
    return vers_asked(&index->handle, VERS_LEN, 0, 0, 0);
}

/** Returns the number of terms. */
static inline vers_answer vers_inverted_terms(const vers_inverted *index) {
    return vers_asked(&index->handle, VERS_TERMS, 0, 0, 0);
}

/** Returns the number that all documents are below. */
static inline vers_answer vers_inverted_universe(const vers_inverted *index) {
    return vers_asked(&index->handle, VERS_UNIVERSE, 0, 0, 0);
}

/** Returns the number of bytes of the heap that the index takes. */
static inline vers_answer vers_inverted_heap_size(const vers_inverted *index) {
    return vers_asked(&index->handle, VERS_HEAP_SIZE, 0, 0, 0);
}

/** Returns the pair at a position of all pairs as one number: the term times the universe, plus the document.
 * VERS_ABSENT past the end. */
static inline vers_answer vers_inverted_pair_number(const vers_inverted *index, uint64_t position) {
    return vers_asked(&index->handle, VERS_GET, position, 0, 0);
}

/** Returns the number of documents of a term. */
static inline vers_answer vers_inverted_count(const vers_inverted *index, uint64_t term) {
    return vers_asked(&index->handle, VERS_COUNT, term, 0, 0);
}

/** Returns the document of a term at a position. VERS_ABSENT past the end. */
static inline vers_answer vers_inverted_get(const vers_inverted *index, uint64_t term, uint64_t position) {
    return vers_asked(&index->handle, VERS_TERM_GET, term, position, 0);
}

/** Returns the number of documents of a term that are below a number. */
static inline vers_answer vers_inverted_rank(const vers_inverted *index, uint64_t term, uint64_t number) {
    return vers_asked(&index->handle, VERS_TERM_RANK, term, number, 0);
}

/** Returns whether a term has a document, 1 or 0. */
static inline vers_answer vers_inverted_contains(const vers_inverted *index, uint64_t term, uint64_t document) {
    return vers_asked(&index->handle, VERS_TERM_HAS, term, document, 0);
}

/** Returns the first document of a term that is not below a number. VERS_ABSENT if there is none. */
static inline vers_answer vers_inverted_next_at_least(const vers_inverted *index, uint64_t term, uint64_t number) {
    return vers_asked(&index->handle, VERS_TERM_SUCCESSOR, term, number, 0);
}

/** Puts the documents of a term, ascending, into an empty other handle. VERS_REFUSED if the first is empty,
 * VERS_OCCUPIED, VERS_NO_MEMORY. */
static inline uint32_t vers_inverted_documents(const vers_inverted *index, uint64_t term, vers_numbers *into) {
    return vers_documents(vers_held(&index->handle), term, &into->handle);
}

/** Puts the documents that have each of `count` terms, ascending, into an empty other handle. It takes the fewest steps
 * if the first term has the fewest documents. VERS_REFUSED if the first handle is empty or `count` is 0, VERS_OCCUPIED,
 * VERS_NO_MEMORY. */
static inline uint32_t vers_inverted_intersection_of(const vers_inverted *index, const uint64_t *terms, size_t count,
                                                     vers_numbers *into) {
    if (vers_is_missing(terms, count)) return VERS_REFUSED;
    return vers_joined(vers_held(&index->handle), VERS_INTERSECTION, vers_array(terms), count, &into->handle);
}

/** Puts the documents that have at least one of `count` terms, ascending, into an empty other handle. VERS_REFUSED if
 * the first handle is empty or `count` is 0, VERS_OCCUPIED, VERS_NO_MEMORY. */
static inline uint32_t vers_inverted_union_of(const vers_inverted *index, const uint64_t *terms, size_t count,
                                              vers_numbers *into) {
    if (vers_is_missing(terms, count)) return VERS_REFUSED;
    return vers_joined(vers_held(&index->handle), VERS_UNION, vers_array(terms), count, &into->handle);
}

/** Puts the documents that have the first of `count` terms and none of the others, ascending, into an empty other
 * handle. VERS_REFUSED if the first handle is empty or `count` is 0, VERS_OCCUPIED, VERS_NO_MEMORY. */
static inline uint32_t vers_inverted_difference_of(const vers_inverted *index, const uint64_t *terms, size_t count,
                                                   vers_numbers *into) {
    if (vers_is_missing(terms, count)) return VERS_REFUSED;
    return vers_joined(vers_held(&index->handle), VERS_DIFFERENCE, vers_array(terms), count, &into->handle);
}

/** Does what vers_inverted_intersection_of does for two terms. */
static inline uint32_t vers_inverted_intersection(const vers_inverted *index, uint64_t one, uint64_t other,
                                                  vers_numbers *into) {
    const uint64_t terms[] = {one, other};
    return vers_inverted_intersection_of(index, terms, 2, into);
}

/** Does what vers_inverted_union_of does for two terms. */
static inline uint32_t vers_inverted_union(const vers_inverted *index, uint64_t one, uint64_t other,
                                           vers_numbers *into) {
    const uint64_t terms[] = {one, other};
    return vers_inverted_union_of(index, terms, 2, into);
}

/** Does what vers_inverted_difference_of does for two terms. */
static inline uint32_t vers_inverted_difference(const vers_inverted *index, uint64_t one, uint64_t other,
                                                vers_numbers *into) {
    const uint64_t terms[] = {one, other};
    return vers_inverted_difference_of(index, terms, 2, into);
}

/** Replaces each number by the answer of a query of this number, or by `other` if there is no answer. VERS_UNKNOWN
 * and VERS_VACANT leave the numbers as they were. */
static inline uint32_t vers_inverted_each(const vers_inverted *index, enum vers_query query, uint64_t *numbers,
                                          size_t count, uint64_t other) {
    return vers_asked_each(&index->handle, query, numbers, count, 0, 0, other);
}

/** Replaces the a of each row by the answer of a query of its a, b and c, as `_each` does. */
static inline uint32_t vers_inverted_rows(const vers_inverted *index, enum vers_query query, vers_row *rows,
                                          size_t count, uint64_t other) {
    return vers_asked_rows(&index->handle, query, rows, count, other);
}

/* A text of symbols that counts and locates patterns. */

/** A text of symbols of at most 16 bits that counts and locates patterns. The empty pattern occurs at each position and
 * at the end. */
typedef struct vers_text {
    vers_handle handle;
} vers_text;

/** Makes the text of `count` symbols of `width` bits, with a sample at every `step`-th position: locating
 * an occurrence takes fewer than `step` LF steps. VERS_REFUSED if a symbol has more bits than `width`, `width` is 0 or
 * above 16, `step` is 0, or the symbols are more than 2^32 - 2. VERS_OCCUPIED, VERS_NO_MEMORY. */
static inline uint32_t vers_text_of(vers_text *text, const uint64_t *symbols, size_t count, uint32_t width,
                                    size_t step) {
    if (vers_is_missing(symbols, count)) return VERS_REFUSED;
    return vers_text_build(vers_array(symbols), count, width, step, &text->handle);
}

/** Makes the text that vers_text_of does, from bytes, which it doesn't copy. */
static inline uint32_t vers_text_of_bytes(vers_text *text, const uint8_t *symbols, size_t count, uint32_t width,
                                          size_t step) {
    if (vers_is_missing(symbols, count)) return VERS_REFUSED;
    return vers_text_build_bytes((const uint8_t *)vers_some(symbols), count, width, step, &text->handle);
}

/** Makes the text that vers_text_of does, from numbers of 16 bits, which it doesn't copy. */
static inline uint32_t vers_text_of_u16s(vers_text *text, const uint16_t *symbols, size_t count, uint32_t width,
                                         size_t step) {
    if (vers_is_missing(symbols, count)) return VERS_REFUSED;
    return vers_text_build_u16s((const uint16_t *)vers_some(symbols), count, width, step, &text->handle);
}

/** Empties a handle, and frees the text if no other handle owns it. Null is ignored. */
static inline void vers_text_free(vers_text *text) {
    if (text) vers_free(&text->handle);
}

/** Makes an empty handle another owner of the text, for another thread. VERS_VACANT, VERS_OCCUPIED,
 * VERS_NO_MEMORY. */
static inline uint32_t vers_text_clone(const vers_text *text, vers_text *other) {
    return vers_cloned(&text->handle, &other->handle);
}

/** Returns the number of bytes of the saved form of the text. */
static inline vers_answer vers_text_saved_size(const vers_text *text) {
    return vers_saved_size(vers_held(&text->handle));
}

/** Writes the saved form over `count` bytes, as many as `_saved_size` says. VERS_REFUSED for another count,
 * VERS_NO_MEMORY. */
static inline uint32_t vers_text_save(const vers_text *text, uint8_t *bytes, size_t count) {
    return vers_saved(&text->handle, bytes, count);
}

/** Makes the text from its saved form, without a sort. For other bytes the status names the test that fails, as for
 * vers_load. VERS_OCCUPIED, VERS_NO_MEMORY. */
static inline uint32_t vers_text_load(vers_text *text, const uint8_t *bytes, size_t count) {
    return vers_loaded(VERS_KIND_TEXT, bytes, count, &text->handle);
}

/** Returns the number of symbols. */
static inline vers_answer vers_text_len(const vers_text *text) {
    return vers_asked(&text->handle, VERS_LEN, 0, 0, 0);
}

/** Returns the number of bits of a symbol. */
static inline vers_answer vers_text_width(const vers_text *text) {
    return vers_asked(&text->handle, VERS_WIDTH, 0, 0, 0);
}

/** Returns the distance between two sampled positions. */
static inline vers_answer vers_text_step(const vers_text *text) {
    return vers_asked(&text->handle, VERS_STEP, 0, 0, 0);
}

/** Returns the number of bytes of the heap that the text takes. */
static inline vers_answer vers_text_heap_size(const vers_text *text) {
    return vers_asked(&text->handle, VERS_HEAP_SIZE, 0, 0, 0);
}

/** Returns the number of occurrences of a pattern of `count` symbols. */
static inline vers_answer vers_text_count(const vers_text *text, const uint64_t *pattern, size_t count) {
    vers_answer missing = {VERS_REFUSED, 0};
    if (vers_is_missing(pattern, count)) return missing;
    return vers_count(vers_held(&text->handle), vers_array(pattern), count);
}

/** Counts many patterns, which are joined in `length` symbols: replaces each of the `count` ends by the number of
 *  occurrences of its pattern. VERS_REFUSED if the ends descend, or one is above `length`: they stay. */
static inline uint32_t vers_text_count_each(const vers_text *text, const uint64_t *symbols, size_t length,
                                            uint64_t *ends, size_t count) {
    if (vers_is_missing(symbols, length) || vers_is_missing(ends, count)) return VERS_REFUSED;
    uint64_t none = 0;
    if (count == 0) ends = &none;
    return vers_count_each(vers_held(&text->handle), vers_array(symbols), length, ends, count);
}

/** Returns whether a pattern of `count` symbols occurs, 1 or 0. */
static inline vers_answer vers_text_contains(const vers_text *text, const uint64_t *pattern, size_t count) {
    vers_answer answer = vers_text_count(text, pattern, count);
    answer.value = answer.value > 0;
    return answer;
}

/** Puts the positions of a pattern, ascending, into an empty other handle. VERS_REFUSED if the first is empty,
 * VERS_OCCUPIED, VERS_NO_MEMORY. */
static inline uint32_t vers_text_places(const vers_text *text, const uint64_t *pattern, size_t count,
                                        vers_numbers *into) {
    if (vers_is_missing(pattern, count)) return VERS_REFUSED;
    return vers_places(vers_held(&text->handle), vers_array(pattern), count, &into->handle);
}

/** Puts the first `limit` positions of a pattern, or all if there are fewer, into an empty other handle, in the
 * order of the suffixes that begin there: in less time than all of them take. VERS_REFUSED if the first handle is
 * empty, VERS_OCCUPIED, VERS_NO_MEMORY. */
static inline uint32_t vers_text_first_places(const vers_text *text, const uint64_t *pattern, size_t count,
                                              size_t limit, vers_numbers *into) {
    if (vers_is_missing(pattern, count)) return VERS_REFUSED;
    return vers_first_places(vers_held(&text->handle), vers_array(pattern), count, limit, &into->handle);
}

/** Puts the symbols from position `start` up to `end` into an empty other handle. VERS_REFUSED if the text has no
 * such positions, or the handle is empty, VERS_OCCUPIED, VERS_NO_MEMORY. */
static inline uint32_t vers_text_extract(const vers_text *text, size_t start, size_t end, vers_numbers *into) {
    return vers_extract(vers_held(&text->handle), start, end, &into->handle);
}

#endif
