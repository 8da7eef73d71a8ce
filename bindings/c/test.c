/* Compares each call of vers.h with a plain loop over the list. Exits with 0 where all agree. */
#include "random.h"
#include "vers.h"

#include <pthread.h>
#include <stdio.h>
#include <stdlib.h>
#include <string.h>

static unsigned long passed, failed;

static void compare(const char *what, uint64_t at, vers_answer got, uint32_t status, uint64_t value) {
    if (got.status == status && got.value == value) {
        passed++;
        return;
    }
    if (failed++ < 20)
        fprintf(stderr, "%s at %llu: status %u value %llu, wanted %u %llu\n", what, (unsigned long long)at, got.status,
                (unsigned long long)got.value, status, (unsigned long long)value);
}

static void found(const char *what, uint64_t at, vers_answer got, uint64_t value) {
    compare(what, at, got, VERS_DONE, value);
}

static void found_if(const char *what, uint64_t at, vers_answer got, bool is_there, uint64_t value) {
    compare(what, at, got, is_there ? VERS_DONE : VERS_ABSENT, is_there ? value : 0);
}

static void is(const char *what, uint64_t got, uint64_t wanted) {
    vers_answer answer = {VERS_DONE, got};
    compare(what, 0, answer, VERS_DONE, wanted);
}

static void *room(size_t count, size_t size) {
    void *made = calloc(count + 1, size);
    if (!made) abort();
    return made;
}

/* Which of `from` to `to` of the values is the given one for time number `number`; `none` where there is none. */
static size_t position_of(const uint64_t *values, size_t from, size_t to, uint64_t value, uint64_t number, size_t none) {
    for (size_t i = from; i < to; i++)
        if (values[i] == value && number-- == 0) return i;
    return none;
}

static int by_size(const void *one, const void *other) {
    uint64_t x = *(const uint64_t *)one, y = *(const uint64_t *)other;
    return (x > y) - (x < y);
}

/* Random bits, a third of them ones, also as words. */
static uint64_t *random_bits(size_t n, uint64_t *words) {
    uint64_t *bits = room(n, sizeof *bits);
    for (size_t i = 0; i < n; i++) {
        bits[i] = next() % 3 == 0;
        words[i / 64] |= bits[i] << (i % 64);
    }
    return bits;
}

/* Many queries at once, with numbers below `most`, against single ones: of no rows, and of groups that are full or not. */
static void test_many(vers_handle *handle, uint32_t query, uint64_t most) {
    static const size_t counts[] = {0, 1, 63, 64, 65, 200};
    for (size_t k = 0; k < sizeof counts / sizeof *counts; k++) {
        uint64_t each[200], a[200], b = next() % most, c = next() % most;
        vers_row rows[200], asked[200];
        for (size_t i = 0; i < 200; i++) {
            each[i] = a[i] = next() % most;
            rows[i] = asked[i] = (vers_row){next() % most, next() % most, next() % most};
        }
        is("many each", vers_ask_each(handle, query, each, counts[k], b, c, 77), VERS_DONE);
        is("many rows", vers_ask_rows(handle, query, rows, counts[k], 77), VERS_DONE);
        for (size_t i = 0; i < 200; i++) {
            bool is_asked = i < counts[k];
            vers_row row = asked[i];
            is("of each", each[i], is_asked ? vers_value_or(vers_ask(handle, query, a[i], b, c), 77) : a[i]);
            is("of rows", rows[i].a, is_asked ? vers_value_or(vers_ask(handle, query, row.a, row.b, row.c), 77) : row.a);
            is("value", vers_value(handle, query, a[i]), vers_value_or(vers_ask(handle, query, a[i], 0, 0), UINT64_MAX));
            is("as it was", rows[i].b == row.b && rows[i].c == row.c, 1);
        }
    }
}

/* The next and the previous one, and zero, of each position and of places past the end. */
static void test_neighbours(const vers_bits *list, const uint64_t *bits, size_t n) {
    for (size_t k = 0; k < 600; k++) {
        size_t position = next() % (n + 3), after[2] = {n, n}, before[2] = {n, n};
        for (size_t i = n; i-- > 0;)
            if (i > position) after[bits[i]] = i;
        for (size_t i = 0; i < n && i < position; i++) before[bits[i]] = i;
        found_if("successor1", position, vers_bits_successor1(list, position), after[1] < n, after[1]);
        found_if("successor0", position, vers_bits_successor0(list, position), after[0] < n, after[0]);
        found_if("predecessor1", position, vers_bits_predecessor1(list, position), before[1] < n, before[1]);
        found_if("predecessor0", position, vers_bits_predecessor0(list, position), before[0] < n, before[0]);
    }
    found_if("successor1 past", 0, vers_bits_successor1(list, UINT64_MAX), false, 0);
    uint64_t ones = vers_bits_ones(list).value, last = ones ? vers_bits_select1(list, ones - 1).value : 0;
    found_if("predecessor1 past", 0, vers_bits_predecessor1(list, UINT64_MAX), ones > 0, last);
}

static void test_bits(size_t n) {
    uint64_t *words = room(n / 64 + 1, sizeof *words), *bits = random_bits(n, words), counts[2] = {0, 0};
    vers_bits list = {0};
    is("bits of", vers_bits_of(&list, words, n / 64 + 1, n), VERS_DONE);
    is("bits twice", vers_bits_of(&list, words, n / 64 + 1, n), VERS_OCCUPIED);
    found("len", 0, vers_bits_len(&list), n);
    for (size_t i = 0; i <= n; i++) {
        found("rank0", i, vers_bits_rank0(&list, i), counts[0]);
        found("rank1", i, vers_bits_rank1(&list, i), counts[1]);
        found_if("get", i, vers_bits_get(&list, i), i < n, bits[i]);
        if (i == n) break;
        found("select", i, bits[i] ? vers_bits_select1(&list, counts[1]) : vers_bits_select0(&list, counts[0]), i);
        counts[bits[i]]++;
    }
    found("select1 past", 0, vers_bits_select1(&list, counts[1]), n);
    found("select0 past", 0, vers_bits_select0(&list, counts[0]), n);
    found("rank1 past", 0, vers_bits_rank1(&list, UINT64_MAX), counts[1]);
    found("ones", 0, vers_bits_ones(&list), counts[1]);
    found("zeros", 0, vers_bits_zeros(&list), counts[0]);
    test_neighbours(&list, bits, n);
    for (int k = 0; k < 200; k++) {
        uint64_t position = next() % (n + 2), count = next() % 67, number = 0;
        bool has = count <= 64 && position + count <= n;
        for (uint64_t i = 0; has && i < count; i++) number |= bits[position + i] << i;
        found_if("get_bits", position, vers_bits_get_bits(&list, position, count), has, number);
    }
    is("heap_size", vers_bits_heap_size(&list).value >= n / 8, 1);
    for (uint32_t query = VERS_GET; query <= VERS_SELECT1; query++) test_many(&list.handle, query, n + 70);
    vers_bits_free(&list);
    free(words);
    free(bits);
}

static void test_batches(size_t n) {
    uint64_t *words = room(n / 64 + 1, sizeof *words), *bits = random_bits(n, words), *each = room(n + 2, sizeof *each);
    vers_bits list = {0};
    is("bits of", vers_bits_of(&list, words, n / 64 + 1, n), VERS_DONE);
    enum vers_query queries[] = {VERS_GET, VERS_RANK0, VERS_RANK1, VERS_SELECT0, VERS_SELECT1};
    for (size_t k = 0; k < sizeof queries / sizeof *queries; k++) {
        for (size_t i = 0; i < n + 2; i++) each[i] = i;
        is("each", vers_bits_each(&list, queries[k], each, n + 2, 7), VERS_DONE);
        for (size_t i = 0; i < n + 2; i++)
            is("each item", each[i], vers_value_or(vers_ask(&list.handle, queries[k], i, 0, 0), 7));
    }
    is("none", vers_bits_each(&list, VERS_GET, NULL, 0, 0), VERS_DONE);
    each[0] = 5;
    is("unknown", vers_bits_each(&list, VERS_PARENT, each, 1, 7), VERS_UNKNOWN);
    is("left", each[0], 5);
    vers_bits_free(&list);
    is("vacant", vers_bits_each(&list, VERS_GET, each, 1, 0), VERS_VACANT);
    is("left", each[0], 5);
    free(words);
    free(bits);
    free(each);
}

/* Calls on handles that hold nothing, or another list. */
static void test_statuses(void) {
    uint64_t word = 11;
    vers_bits list = {0}, other = {0};
    vers_growing growing = {0};
    compare("vacant", 0, vers_bits_rank1(&list, 0), VERS_VACANT, 0);
    compare("vacant", 0, vers_bits_successor1(&list, 0), VERS_VACANT, 0);
    compare("vacant", 0, vers_bits_predecessor0(&list, 0), VERS_VACANT, 0);
    is("clone vacant", vers_bits_clone(&list, &other), VERS_VACANT);
    is("change vacant", vers_growing_append(&growing, true), VERS_VACANT);
    vers_bits_free(&list);
    is("bits of", vers_bits_of(&list, &word, 1, 4), VERS_DONE);
    compare("unknown", 0, vers_ask(&list.handle, VERS_PREDECESSOR, 0, 0, 0), VERS_UNKNOWN, 0);
    compare("past the codes", 0, vers_ask(&list.handle, 1000, 0, 0, 0), VERS_UNKNOWN, 0);
    is("change of bits", vers_change(&list.handle, VERS_PUSH, 1, 0), VERS_UNKNOWN);
    found("as it was", 0, vers_bits_rank1(&list, 4), 3);
    vers_bits_free(&list);
    vers_bits_free(&list);
    compare("freed", 0, vers_bits_len(&list), VERS_VACANT, 0);
    is("built again", vers_bits_of(&list, NULL, 0, 9), VERS_DONE);
    found("empty", 0, vers_bits_len(&list), 0);
    vers_bits_free(&list);
    static const char *const words[] = {
        "done", "no such element", "no such query", "is empty", "refused", "already", "no memory", "another handle",
        "cut off", "begin as", "another version", "another kind", "as long", "the sum", "past the end", "ascend",
        "no text", "no status", "no status",
    };
    for (uint32_t k = 0; k < sizeof words / sizeof *words; k++)
        is("text", strstr(vers_status_text(k), words[k]) != NULL, 1);
    is("the last status", strstr(words[VERS_NOT_A_TEXT], "no text") != NULL, 1);
    is("text of none", strcmp(vers_status_text(1000), "no status of this library") == 0, 1);
}

static void test_growing(void) {
    uint64_t bits[4000];
    size_t n = 0;
    vers_growing list = {0};
    is("growing of", vers_growing_of(&list, NULL, 0, 0), VERS_DONE);
    for (int i = 0; i < 1000; i++) {
        bits[n++] = next() % 2;
        is("append", vers_growing_append(&list, bits[n - 1] == 1), VERS_DONE);
    }
    for (uint64_t count = 0; count <= 64; count += 4) {
        uint64_t number = next();
        is("append_bits", vers_growing_append_bits(&list, number, count), VERS_DONE);
        for (uint64_t j = 0; j < count; j++) bits[n++] = number >> j & 1;
    }
    is("append_bits of 65", vers_growing_append_bits(&list, 0, 65), VERS_REFUSED);
    for (int i = 0; i < 500; i++) {
        size_t position = next() % n;
        bits[position] = next() % 2;
        is("set", vers_growing_set(&list, position, bits[position] == 1), VERS_DONE);
    }
    is("set past", vers_growing_set(&list, n, true), VERS_REFUSED);
    is("drop_last", vers_growing_drop_last(&list, 13), VERS_DONE);
    n -= 13;
    found("len", 0, vers_growing_len(&list), n);
    for (size_t i = 0; i < n; i++) found("get", i, vers_growing_get(&list, i), bits[i]);
    found_if("get past", n, vers_growing_get(&list, n), false, 0);
    found("get_bits", 0, vers_growing_get_bits(&list, 0, 2), bits[0] + 2 * bits[1]);
    found_if("get_bits of none", 0, vers_growing_get_bits(&list, 0, 0), false, 0);
    found_if("get_bits of 65", 0, vers_growing_get_bits(&list, 0, 65), false, 0);
    is("change past the codes", vers_change(&list.handle, 1000, 0, 0), VERS_UNKNOWN);
    is("drop all", vers_growing_drop_last(&list, UINT64_MAX), VERS_DONE);
    found("empty", 0, vers_growing_len(&list), 0);
    vers_growing_free(&list);
}

static void test_shared(void) {
    uint64_t word = 5;
    vers_growing one = {0}, two = {0};
    is("growing of", vers_growing_of(&one, &word, 1, 3), VERS_DONE);
    is("clone", vers_growing_clone(&one, &two), VERS_DONE);
    is("clone into a full one", vers_growing_clone(&one, &two), VERS_OCCUPIED);
    is("append shared", vers_growing_append(&one, true), VERS_SHARED);
    is("set shared", vers_growing_set(&two, 0, false), VERS_SHARED);
    found("as it was", 0, vers_growing_len(&two), 3);
    vers_growing_free(&two);
    is("append alone", vers_growing_append(&one, true), VERS_DONE);
    found("changed", 0, vers_growing_len(&one), 4);
    vers_growing_free(&one);
}

static void test_sparse(size_t n, uint64_t step) {
    uint64_t *ones = room(n, sizeof *ones), length = 0, k = 0;
    for (size_t i = 0; i < n; i++, length++) ones[i] = length += next() % step;
    length += next() % step;
    vers_sparse list = {0};
    is("sparse of", vers_sparse_of(&list, ones, n, length), VERS_DONE);
    found("len", 0, vers_sparse_len(&list), length);
    for (uint64_t position = 0; position <= length; position++) {
        bool is_one = k < n && ones[k] == position;
        found_if("get", position, vers_sparse_get(&list, position), position < length, is_one);
        found("rank1", position, vers_sparse_rank1(&list, position), k);
        found("rank0", position, vers_sparse_rank0(&list, position), position - k);
        k += is_one;
    }
    for (size_t i = 0; i <= n; i++) found("select1", i, vers_sparse_select1(&list, i), i < n ? ones[i] : length);
    vers_sparse_free(&list);
    if (n > 1) {
        is("a one past the length", vers_sparse_of(&list, ones, n, ones[n - 1]), VERS_REFUSED);
        ones[1] = ones[0];
        is("equal ones", vers_sparse_of(&list, ones, n, length), VERS_REFUSED);
    }
    free(ones);
}

static void test_sorted(size_t n, uint64_t most) {
    uint64_t *v = room(n, sizeof *v);
    for (size_t i = 0; i < n; i++) v[i] = next() % most;
    qsort(v, n, sizeof *v, by_size);
    vers_sorted list = {0};
    is("sorted of", vers_sorted_of(&list, v, n), VERS_DONE);
    found("len", 0, vers_sorted_len(&list), n);
    for (size_t i = 0; i <= n; i++) {
        found_if("get", i, vers_sorted_get(&list, i), i < n, v[i]);
        found_if("delta", i, vers_sorted_delta(&list, i), i < n, i ? v[i] - v[i - 1] : v[i]);
    }
    for (int k = 0; k < 400; k++) {
        uint64_t x = next() % (most + 3);
        size_t below = 0, past = 0;
        while (below < n && v[below] < x) below++;
        while (past < n && v[past] <= x) past++;
        found("rank", x, vers_sorted_rank(&list, x), below);
        found("has", x, vers_sorted_has(&list, x), past > below);
        found_if("predecessor", x, vers_sorted_predecessor(&list, x), past > 0, v[past ? past - 1 : 0]);
        found_if("successor", x, vers_sorted_successor(&list, x), below < n, v[below]);
    }
    static const uint32_t queries[] = {VERS_GET, VERS_RANK, VERS_HAS, VERS_PREDECESSOR, VERS_SUCCESSOR, VERS_DELTA};
    for (size_t k = 0; k < 6; k++) test_many(&list.handle, queries[k], k ? most + 3 : n + 2);
    vers_sorted_free(&list);
    if (n > 1) {
        v[0] = most + 1;
        is("not ascending", vers_sorted_of(&list, v, n), VERS_REFUSED);
        compare("not made", 0, vers_sorted_len(&list), VERS_VACANT, 0);
    }
    free(v);
}

/* The queries of one range, against the symbols of the range in ascending order. */
static void test_range(const vers_symbols *list, const uint64_t *v, size_t n, size_t a, size_t b, uint64_t c) {
    bool is_range = a <= b && b <= n;
    size_t m = is_range ? b - a : 0, q = next() % (n + 1), not_above = 0, below = 0, hits = 0;
    uint64_t *r = room(m, sizeof *r);
    memcpy(r, v + (is_range ? a : 0), m * sizeof *r);
    for (size_t i = 0; i < m; i++) hits += r[i] == c;
    qsort(r, m, sizeof *r, by_size);
    while (not_above < m && r[not_above] <= c) not_above++;
    while (below < m && r[below] < c) below++;
    found_if("rank_range", a, vers_symbols_rank_range(list, a, b, c), is_range && a < n, hits);
    found_if("range_min", a, vers_symbols_range_min(list, a, b), m > 0, r[0]);
    found_if("range_max", a, vers_symbols_range_max(list, a, b), m > 0, r[m ? m - 1 : 0]);
    found_if("range_median", a, vers_symbols_range_median(list, a, b), m > 0, r[m ? (m - 1) / 2 : 0]);
    found_if("quantile", q, vers_symbols_quantile(list, a, b, q), q < m, r[q < m ? q : 0]);
    size_t last = not_above ? not_above - 1 : 0;
    found_if("predecessor", c, vers_symbols_predecessor(list, a, b, c), not_above > 0, r[last]);
    found_if("successor", c, vers_symbols_successor(list, a, b, c), below < m, r[below]);
    free(r);
}

static void test_symbols(size_t n, uint32_t width) {
    uint64_t *v = room(n, sizeof *v), mask = width == 64 ? UINT64_MAX : ((uint64_t)1 << width) - 1;
    for (size_t i = 0; i < n; i++) v[i] = next() % 5 ? next() & 7 & mask : next() & mask;
    vers_symbols list = {0};
    is("symbols of", vers_symbols_of(&list, v, n, width), VERS_DONE);
    found("len", 0, vers_symbols_len(&list), n);
    found("bits_per_element", 0, vers_symbols_bits_per_element(&list), width);
    for (size_t i = 0; i <= n; i++) found_if("get", i, vers_symbols_get(&list, i), i < n, v[i]);
    for (int k = 0; k < 500; k++) {
        size_t a = next() % (n + 2), b = next() % (n + 2), t = next() % 4, before = 0;
        uint64_t c = next() % 2 && n ? v[next() % n] : next() & mask;
        test_range(&list, v, n, a, b, c);
        for (size_t i = 0; i < a && i < n; i++) before += v[i] == c;
        found_if("rank", a, vers_symbols_rank(&list, a, c), a <= n, before);
        size_t at = position_of(v, 0, n, c, t, n), on = position_of(v, a, n, c, t, n);
        found_if("select", t, vers_symbols_select(&list, t, c), at < n, at);
        found_if("select_offset", a, vers_symbols_select_offset(&list, a, t, c), on < n, on);
    }
    for (uint32_t query = VERS_RANK_OF; query <= VERS_SYMBOLS_SUCCESSOR; query++) test_many(&list.handle, query, n + 2);
    test_many(&list.handle, VERS_GET, n + 2);
    vers_symbols_free(&list);
    is("too wide", vers_symbols_of(&list, v, n, 65), VERS_REFUSED);
    is("of no bits", vers_symbols_of(&list, v, n, 0), VERS_DONE);
    found("len of no bits", 0, vers_symbols_len(&list), 0);
    vers_symbols_free(&list);
    free(v);
}

/* A random forest: the parentheses, and where each node opens and closes, its parent and its depth. */
struct forest {
    size_t nodes;
    uint64_t *words;
    size_t *position, *close, *parent, *depth;
};

static struct forest random_forest(size_t m) {
    const size_t size = sizeof(size_t);
    struct forest f = {m, room(m / 32 + 1, 8), room(m, size), room(m, size), room(m, size), room(m, size)};
    size_t *stack = room(m, sizeof *stack), depth = 0, opened = 0;
    for (size_t k = 0; k < 2 * m; k++) {
        if (opened == m || (depth > 0 && next() % 2)) {
            f.close[stack[--depth]] = k;
            continue;
        }
        f.words[k / 64] |= (uint64_t)1 << (k % 64);
        f.position[opened] = k;
        f.parent[opened] = depth ? stack[depth - 1] : m;
        f.depth[opened] = depth;
        stack[depth++] = opened++;
    }
    free(stack);
    return f;
}

static void found_node(const char *what, const struct forest *f, size_t i, vers_answer got, size_t j) {
    found_if(what, f->position[i], got, j < f->nodes, f->position[j]);
}

/* The nodes round node i, against all others. */
static void test_kin(const vers_tree *tree, const struct forest *f, size_t i) {
    size_t m = f->nodes, v = f->position[i], first = m, last = m, after = m, before = m, ahead = m, behind = m, under = 0;
    for (size_t j = 0; j < m; j++) {
        if (f->parent[j] == i) last = j;
        if (f->parent[j] == i && first == m) first = j;
        if (j > i && f->parent[j] == f->parent[i] && after == m) after = j;
        if (j < i && f->parent[j] == f->parent[i]) before = j;
        if (j > i && f->depth[j] == f->depth[i] && ahead == m) ahead = j;
        if (j < i && f->depth[j] == f->depth[i]) behind = j;
        under += f->position[j] >= v && f->position[j] < f->close[i];
    }
    found_node("parent", f, i, vers_tree_parent(tree, v), f->parent[i]);
    found_node("first_child", f, i, vers_tree_first_child(tree, v), first);
    found_node("last_child", f, i, vers_tree_last_child(tree, v), last);
    found_node("next_sibling", f, i, vers_tree_next_sibling(tree, v), after);
    found_node("previous_sibling", f, i, vers_tree_previous_sibling(tree, v), before);
    found_node("level_next", f, i, vers_tree_level_next(tree, v), ahead);
    found_node("level_prev", f, i, vers_tree_level_prev(tree, v), behind);
    found_node("enclose", f, i, vers_tree_enclose(tree, v), f->parent[i]);
    found("has_node", v, vers_tree_has_node(tree, v), 1);
    found("has_node", v, vers_tree_has_node(tree, f->close[i]), 0);
    found("is_leaf", v, vers_tree_is_leaf(tree, v), first == m);
    found("subtree_size", v, vers_tree_subtree_size(tree, v), under);
    for (size_t levels = 0, up = i; levels < 4; levels++) {
        found_node("level_ancestor", f, i, vers_tree_level_ancestor(tree, v, levels), up);
        if (up < m) up = f->parent[up];
    }
}

static void test_tree(size_t m) {
    struct forest f = random_forest(m);
    vers_tree tree = {0};
    is("tree of", vers_tree_of(&tree, f.words, m / 32 + 1, 2 * m), VERS_DONE);
    found("len", 0, vers_tree_len(&tree), 2 * m);
    found("size", 0, vers_tree_size(&tree), m);
    found_if("root", 0, vers_tree_root(&tree), m > 0, 0);
    found("is_balanced", 0, vers_tree_is_balanced(&tree), 1);
    for (size_t i = 0; i < m; i++) {
        size_t v = f.position[i], j = next() % m;
        test_kin(&tree, &f, i);
        found("node_index", v, vers_tree_node_index(&tree, v), i);
        found("node_handle", v, vers_tree_node_handle(&tree, i), v);
        found("depth", v, vers_tree_depth(&tree, v), f.depth[i]);
        found("close", v, vers_tree_close(&tree, v), f.close[i]);
        found("open", v, vers_tree_open(&tree, f.close[i]), v);
        found("excess", v, vers_tree_excess(&tree, v), f.depth[i] + 1);
        found("fwd_search", v, vers_tree_fwd_search(&tree, v, -1), f.close[i]);
        found("bwd_search", v, vers_tree_bwd_search(&tree, f.close[i], -1), v);
        bool is_above = f.position[j] >= v && f.position[j] < f.close[i];
        found("is_ancestor", v, vers_tree_is_ancestor(&tree, v, f.position[j]), is_above);
        compare("no node", v, vers_tree_depth(&tree, f.close[i]), VERS_REFUSED, 0);
    }
    for (size_t k = 0; k <= 2 * m; k++)
        found_if("is_open", k, vers_tree_is_open(&tree, k), k < 2 * m, f.words[k / 64] >> (k % 64) & 1);
    compare("excess past", 2 * m, vers_tree_excess(&tree, 2 * m), VERS_REFUSED, 0);
    found("node_handle past", m, vers_tree_node_handle(&tree, m), 2 * m);
    for (size_t depth = 0; depth < 5; depth++) {
        size_t first = m, last = m;
        for (size_t i = m; i-- > 0;)
            if (f.depth[i] == depth) first = i;
        for (size_t i = 0; i < m; i++)
            if (f.depth[i] == depth) last = i;
        found_if("level_leftmost", depth, vers_tree_level_leftmost(&tree, depth), first < m, f.position[first]);
        found_if("level_rightmost", depth, vers_tree_level_rightmost(&tree, depth), last < m, f.position[last]);
    }
    vers_tree_free(&tree);
    free(f.words);
    free(f.position);
    free(f.close);
    free(f.parent);
    free(f.depth);
}

/* A zero, and then a one. */
static void test_unbalanced(void) {
    uint64_t word = 2;
    vers_tree tree = {0};
    is("tree of", vers_tree_of(&tree, &word, 1, 2), VERS_DONE);
    found("is_balanced", 0, vers_tree_is_balanced(&tree), 0);
    is("excess below 0", vers_signed(vers_tree_excess(&tree, 0).value) == -1, 1);
    found("fwd_search", 0, vers_tree_fwd_search(&tree, 0, 1), 1);
    compare("node", 1, vers_tree_parent(&tree, 1), VERS_REFUSED, 0);
    compare("level", 0, vers_tree_level_leftmost(&tree, 0), VERS_REFUSED, 0);
    vers_tree_free(&tree);
}

static void test_minima(size_t n) {
    uint64_t *v = room(n, sizeof *v);
    for (size_t i = 0; i < n; i++) v[i] = next() % 50;
    vers_fast_rmq fast = {0};
    vers_binary_rmq binary = {0};
    is("minima of", vers_fast_rmq_of(&fast, v, n), VERS_DONE);
    is("binary_minima of", vers_binary_rmq_of(&binary, v, n), VERS_DONE);
    found("len", 0, vers_fast_rmq_len(&fast), n);
    found("binary len", 0, vers_binary_rmq_len(&binary), n);
    for (int k = 0; k < 500; k++) {
        size_t a = next() % (n + 1), b = next() % (n + 1), least = a;
        bool is_range = a <= b && b < n;
        for (size_t i = a; is_range && i <= b; i++)
            if (v[i] < v[least]) least = i;
        found_if("range_min", a, vers_fast_rmq_range_min(&fast, a, b), is_range, least);
        found_if("binary range_min", a, vers_binary_rmq_range_min(&binary, a, b), is_range, least);
        found_if("get", a, vers_fast_rmq_get(&fast, a), a < n, v[a]);
        found_if("binary get", a, vers_binary_rmq_get(&binary, a), a < n, v[a]);
    }
    vers_fast_rmq_free(&fast);
    vers_binary_rmq_free(&binary);
    free(v);
}

static void test_postings(size_t n) {
    uint64_t *documents = room(n, 8), *costs = room(n, 8), last = 0;
    for (size_t i = 0; i < n; i++) {
        documents[i] = last += 1 + next() % 6;
        costs[i] = next() % 30;
    }
    vers_postings list = {0};
    is("postings of", vers_postings_of(&list, documents, costs, n), VERS_DONE);
    found("len", 0, vers_postings_len(&list), n);
    for (int k = 0; k < 500; k++) {
        uint64_t a = next() % (last + 3), b = next() % (last + 3);
        size_t below = 0, best = n;
        while (below < n && documents[below] < a) below++;
        for (size_t i = below; i < n && documents[i] <= b; i++)
            if (best == n || costs[i] < costs[best]) best = i;
        found("rank", a, vers_postings_rank(&list, a), below);
        found("contains", a, vers_postings_contains(&list, a), below < n && documents[below] == a);
        found_if("next_at_least", a, vers_postings_next_at_least(&list, a), below < n, documents[below]);
        found_if("cheapest", a, vers_postings_cheapest(&list, a, b), best < n, documents[best]);
    }
    vers_postings_free(&list);
    if (n > 1) {
        is("fewer costs", vers_postings_build(documents, n, costs, n - 1, &list.handle), VERS_REFUSED);
        documents[1] = documents[0];
        is("equal documents", vers_postings_of(&list, documents, costs, n), VERS_REFUSED);
    }
    free(documents);
    free(costs);
}

/* Whether a number is among others. */
static bool is_among(const uint64_t *numbers, size_t n, uint64_t x) {
    for (size_t i = 0; i < n; i++)
        if (numbers[i] == x) return true;
    return false;
}

/* The sets of two lists of numbers below `most`, by the call for each. */
static void test_combine(size_t n, uint64_t most) {
    uint64_t *v[2] = {room(n, 8), room(n, 8)};
    vers_sorted none = {0}, lists[2] = {none, none}, sets[3] = {none, none, none};
    is("of none", vers_sorted_union(&lists[0], &none, &sets[0]), VERS_REFUSED);
    for (size_t k = 0; k < 2; k++) {
        for (size_t i = 0; i < n; i++) v[k][i] = next() % most;
        qsort(v[k], n, 8, by_size);
        is("sorted of", vers_sorted_of(&lists[k], v[k], n), VERS_DONE);
    }
    is("intersection", vers_sorted_intersection(&lists[0], &lists[1], &sets[0]), VERS_DONE);
    is("union", vers_sorted_union(&lists[0], &lists[1], &sets[1]), VERS_DONE);
    is("difference", vers_sorted_difference(&lists[0], &lists[1], &sets[2]), VERS_DONE);
    is("into a full one", vers_sorted_union(&lists[0], &lists[1], &sets[1]), VERS_OCCUPIED);
    uint64_t counts[3] = {0, 0, 0};
    for (uint64_t x = 0; x < most; x++) {
        bool first = is_among(v[0], n, x), second = is_among(v[1], n, x);
        bool has[3] = {first && second, first || second, first && !second};
        for (size_t k = 0; k < 3; k++)
            if (has[k]) found("of the set", x, vers_sorted_get(&sets[k], counts[k]++), x);
    }
    for (size_t k = 0; k < 3; k++) {
        found("of a set len", k, vers_sorted_len(&sets[k]), counts[k]);
        vers_sorted_free(&sets[k]);
    }
    is("difference of one", vers_sorted_difference(&lists[0], &lists[0], &sets[0]), VERS_DONE);
    found("nothing left", 0, vers_sorted_len(&sets[0]), 0);
    is("no such joint", vers_combine(&lists[0].handle, &lists[1].handle, 3, &none.handle), VERS_REFUSED);
    is("of none", vers_sorted_union(&lists[0], &none, &sets[1]), VERS_REFUSED);
    vers_sorted_free(&sets[0]);
    for (size_t k = 0; k < 2; k++) {
        vers_sorted_free(&lists[k]);
        free(v[k]);
    }
}

static void test_intersect(size_t n) {
    uint64_t *one = room(n, 8), *two = room(n, 8), x = 0, y = 0, word = 0;
    for (size_t i = 0; i < n; i++) {
        one[i] = x += 1 + next() % 4;
        two[i] = y += 1 + next() % 4;
    }
    vers_postings first = {0}, second = {0};
    vers_numbers both = {0};
    is("intersect vacant", vers_postings_intersect(&first, &second, &both), VERS_REFUSED);
    is("first", vers_postings_of(&first, one, one, n), VERS_DONE);
    is("second", vers_postings_of(&second, two, two, n), VERS_DONE);
    is("intersect", vers_postings_intersect(&first, &second, &both), VERS_DONE);
    uint64_t k = 0;
    for (size_t i = 0, j = 0; i < n && j < n;) {
        if (one[i] == two[j]) found("common", k, vers_numbers_get(&both, k), one[i]), k++;
        if (one[i] <= two[j]) i++;
        else j++;
    }
    found("common len", 0, vers_numbers_len(&both), k);
    is("intersect into a full one", vers_postings_intersect(&first, &second, &both), VERS_OCCUPIED);
    vers_numbers_free(&both);
    vers_postings_free(&second);
    vers_bits bits = {0};
    is("bits of", vers_bits_of(&bits, &word, 1, 5), VERS_DONE);
    is("intersect bits", vers_intersect(&first.handle, &bits.handle, &both.handle), VERS_REFUSED);
    found("as it was", 0, vers_postings_len(&first), n);
    vers_bits_free(&bits);
    vers_postings_free(&first);
    free(one);
    free(two);
}

/* Whether term `term` has document `document`, in the table of an index of 5 terms and `universe` documents. */
static bool has_pair(const bool *table, size_t universe, uint64_t term, uint64_t document) {
    return term < 5 && document < universe && table[term * universe + document];
}

/* Compares a list of documents with those below `universe` that a list of `count` terms has by a table, and frees it. */
static void test_documents(vers_numbers *list, const bool *table, size_t universe, const uint64_t *terms, size_t count,
                           enum vers_joint joint) {
    uint64_t k = 0;
    for (uint64_t d = 0; d < universe; d++) {
        bool first = has_pair(table, universe, terms[0], d), some = false, all = true;
        for (size_t t = 1; t < count; t++) {
            bool has = has_pair(table, universe, terms[t], d);
            some = some || has;
            all = all && has;
        }
        bool is_listed = joint == VERS_UNION ? first || some : first && (joint == VERS_INTERSECTION ? all : !some);
        if (is_listed) found("document of several", d, vers_numbers_get(list, k), d), k++;
    }
    found("documents of several", terms[0], vers_numbers_len(list), k);
    vers_numbers_free(list);
}

/* The lists of up to three terms of an index, by the calls for each. */
static void test_joined(const vers_inverted *index, const bool *table, size_t universe) {
    vers_numbers both = {0}, either = {0}, first = {0};
    for (uint64_t number = 0; number < 6 * 6 * 6; number++) {
        const uint64_t terms[] = {number % 6, number / 6 % 6, number / 36};
        is("intersection of two", vers_inverted_intersection(index, terms[0], terms[1], &both), VERS_DONE);
        is("union of two", vers_inverted_union(index, terms[0], terms[1], &either), VERS_DONE);
        is("difference of two", vers_inverted_difference(index, terms[0], terms[1], &first), VERS_DONE);
        is("into a full one", vers_inverted_union(index, terms[0], terms[1], &either), VERS_OCCUPIED);
        test_documents(&both, table, universe, terms, 2, VERS_INTERSECTION);
        test_documents(&either, table, universe, terms, 2, VERS_UNION);
        test_documents(&first, table, universe, terms, 2, VERS_DIFFERENCE);
        for (size_t count = 1; count <= 3; count++) {
            is("intersection", vers_inverted_intersection_of(index, terms, count, &both), VERS_DONE);
            is("union", vers_inverted_union_of(index, terms, count, &either), VERS_DONE);
            is("difference", vers_inverted_difference_of(index, terms, count, &first), VERS_DONE);
            test_documents(&both, table, universe, terms, count, VERS_INTERSECTION);
            test_documents(&either, table, universe, terms, count, VERS_UNION);
            test_documents(&first, table, universe, terms, count, VERS_DIFFERENCE);
        }
    }
    is("union of no terms", vers_inverted_union_of(index, NULL, 0, &either), VERS_REFUSED);
    is("union of null", vers_inverted_union_of(index, NULL, 1, &either), VERS_REFUSED);
    is("intersection of null", vers_inverted_intersection_of(index, NULL, 1, &both), VERS_REFUSED);
    is("difference of null", vers_inverted_difference_of(index, NULL, 1, &first), VERS_REFUSED);
}

/* The documents of each term of an index, by queries and in a list. */
static void test_terms(const vers_inverted *index, const bool *table, size_t universe) {
    for (uint64_t term = 0; term < 6; term++) {
        vers_numbers list = {0};
        uint64_t rank = 0;
        is("documents", vers_inverted_documents(index, term, &list), VERS_DONE);
        for (uint64_t d = 0; d < universe + 2; d++) {
            uint64_t next = d;
            while (next < universe && !has_pair(table, universe, term, next)) next++;
            found("rank", d, vers_inverted_rank(index, term, d), rank);
            found("contains", d, vers_inverted_contains(index, term, d), has_pair(table, universe, term, d));
            found_if("next_at_least", d, vers_inverted_next_at_least(index, term, d), next < universe, next);
            if (has_pair(table, universe, term, d)) {
                found("get", rank, vers_inverted_get(index, term, rank), d);
                found("listed", rank, vers_numbers_get(&list, rank), d);
                rank++;
            }
        }
        found("count", term, vers_inverted_count(index, term), rank);
        found("listed len", term, vers_numbers_len(&list), rank);
        found_if("get past the end", term, vers_inverted_get(index, term, rank), false, 0);
        vers_numbers_free(&list);
    }
}

static void test_inverted(size_t universe) {
    bool *table = room(5 * universe, sizeof *table);
    uint64_t *terms = room(5 * universe, 8), *documents = room(5 * universe, 8);
    size_t count = 0;
    for (uint64_t number = 0; number < 5 * universe; number++) {
        table[number] = next() % 5 > number / universe;
        if (!table[number]) continue;
        terms[count] = number / universe;
        documents[count++] = number % universe;
    }
    vers_inverted index = {0}, other = {0};
    is("inverted of", vers_inverted_of(&index, 5, universe, terms, documents, count), VERS_DONE);
    found("len", 0, vers_inverted_len(&index), count);
    found("terms", 0, vers_inverted_terms(&index), 5);
    found("universe", 0, vers_inverted_universe(&index), universe);
    for (size_t k = 0; k < count; k++)
        found("number", k, vers_inverted_pair_number(&index, k), terms[k] * universe + documents[k]);
    found_if("no number", count, vers_inverted_pair_number(&index, count), false, 0);
    test_terms(&index, table, universe);
    test_joined(&index, table, universe);
    is("clone", vers_inverted_clone(&index, &other), VERS_DONE);
    vers_inverted_free(&index);
    found("clone len", 0, vers_inverted_len(&other), count);
    is("into itself", vers_inverted_of(&other, 5, universe, terms, documents, count), VERS_OCCUPIED);
    vers_inverted_free(&other);
    is("a term at its limit", vers_inverted_of(&other, 0, universe, terms, documents, count),
       count ? VERS_REFUSED : VERS_DONE);
    vers_inverted_free(&other);
    if (count > 1) {
        is("fewer documents", vers_inverted_build(5, universe, terms, count, documents, count - 1, &other.handle),
           VERS_REFUSED);
        is("a document at its limit", vers_inverted_of(&other, 5, documents[0], terms, documents, count), VERS_REFUSED);
        is("great limits", vers_inverted_of(&other, (uint64_t)1 << 63, 2, terms, documents, count), VERS_REFUSED);
        terms[1] = terms[0];
        documents[1] = documents[0];
        is("equal pairs", vers_inverted_of(&other, 5, universe, terms, documents, count), VERS_REFUSED);
    }
    free(table);
    free(terms);
    free(documents);
}

/* Calls on an index that hold nothing, or another list. */
static void test_no_index(void) {
    const uint64_t word = 0;
    vers_inverted index = {0};
    vers_numbers list = {0};
    vers_sorted sorted = {0};
    is("documents of none", vers_inverted_documents(&index, 0, &list), VERS_REFUSED);
    is("union of none", vers_inverted_union(&index, 0, 1, &list), VERS_REFUSED);
    compare("no terms", 0, vers_inverted_terms(&index), VERS_VACANT, 0);
    is("sorted", vers_sorted_of(&sorted, &word, 1), VERS_DONE);
    is("documents of a sorted", vers_documents(&sorted.handle, 0, &list.handle), VERS_REFUSED);
    is("joined of a sorted", vers_joined(&sorted.handle, VERS_UNION, &word, 1, &list.handle), VERS_REFUSED);
    vers_sorted_free(&sorted);
    is("inverted", vers_inverted_of(&index, 1, 1, &word, &word, 1), VERS_DONE);
    is("no such joint", vers_joined(&index.handle, 3, &word, 1, &list.handle), VERS_REFUSED);
    vers_inverted_free(&index);
    vers_inverted_free(NULL);
}

/* Whether a text goes on with a pattern from a position on. */
static bool stands_at(const uint64_t *text, size_t n, const uint64_t *pattern, size_t m, size_t position) {
    if (position + m > n) return false;
    for (size_t k = 0; k < m; k++)
        if (text[position + k] != pattern[k]) return false;
    return true;
}

/* A pattern has the places of a plain loop. */
/* Whether the suffix of one position comes before that of another. */
static bool is_suffix_below(const uint64_t *text, size_t n, size_t one, size_t other) {
    while (one < n && other < n && text[one] == text[other]) one++, other++;
    return one == n ? other < n : other < n && text[one] < text[other];
}

/* The first places of a pattern, each before the next one in the order of the suffixes. */
static void test_first_places(const vers_text *text, const uint64_t *symbols, size_t n, const uint64_t *pattern,
                              size_t m, size_t all, size_t limit) {
    vers_numbers first = {0};
    is("first places", vers_text_first_places(text, pattern, m, limit, &first), VERS_DONE);
    found("first places len", limit, vers_numbers_len(&first), limit < all ? limit : all);
    for (size_t k = 0; k < limit && k < all; k++) {
        uint64_t position = vers_numbers_get(&first, k).value;
        is("first position", stands_at(symbols, n, pattern, m, position), true);
        if (k > 0) is("order", is_suffix_below(symbols, n, vers_numbers_get(&first, k - 1).value, position), true);
    }
    is("first places into a full one", vers_text_first_places(text, pattern, m, limit, &first), VERS_OCCUPIED);
    vers_numbers_free(&first);
}

static void test_pattern(const vers_text *text, const uint64_t *symbols, size_t n, const uint64_t *pattern, size_t m) {
    vers_numbers places = {0};
    is("places", vers_text_places(text, pattern, m, &places), VERS_DONE);
    uint64_t k = 0;
    for (size_t i = 0; i <= n; i++)
        if (stands_at(symbols, n, pattern, m, i)) found("position", k, vers_numbers_get(&places, k), i), k++;
    found("places len", m, vers_numbers_len(&places), k);
    found("count", m, vers_text_count(text, pattern, m), k);
    found("contains", m, vers_text_contains(text, pattern, m), k > 0);
    is("places into a full one", vers_text_places(text, pattern, m, &places), VERS_OCCUPIED);
    vers_numbers_free(&places);
    for (size_t limit = 0; limit <= k + 1; limit++) test_first_places(text, symbols, n, pattern, m, k, limit);
}

/* Many patterns are counted as each one is: the pieces of a text that end at its places, and one past it. */
static void test_many_patterns(const vers_text *text, const uint64_t *symbols, size_t n) {
    uint64_t *ends = room(n + 2, sizeof *ends);
    for (size_t i = 0; i <= n; i++) ends[i] = i - i % 3;
    ends[n + 1] = n;
    is("count each", vers_text_count_each(text, symbols, n, ends, n + 2), VERS_DONE);
    for (size_t i = 0, start = 0; i < n + 2; i++) {
        size_t end = i <= n ? i - i % 3 : n;
        found("count of each", i, vers_text_count(text, symbols + start, end - start), ends[i]);
        start = end;
    }
    uint64_t down[] = {n, 0}, past[] = {0, n + 1};
    is("counts of ends that descend", vers_text_count_each(text, symbols, n, down, 2), n == 0 ? VERS_DONE : VERS_REFUSED);
    is("counts past the symbols", vers_text_count_each(text, symbols, n, past, 2), VERS_REFUSED);
    is("the ends stay", past[1], n + 1);
    is("no patterns", vers_text_count_each(text, NULL, 0, NULL, 0), VERS_DONE);
    free(ends);
}

/* A text is what its saved form is loaded as. With the row of the whole text changed, and the sum made right again, it is
 * the form of no text. */
static void test_saved_text(const vers_text *text, const uint64_t *symbols, size_t n) {
    size_t size = (size_t)vers_text_saved_size(text).value;
    uint8_t *bytes = room(size, sizeof *bytes);
    vers_text loaded = {0};
    is("save", vers_text_save(text, bytes, size), VERS_DONE);
    is("save over less", vers_text_save(text, bytes, size - 1), VERS_REFUSED);
    is("load", vers_text_load(&loaded, bytes, size), VERS_DONE);
    is("load again", vers_text_load(&loaded, bytes, size), VERS_OCCUPIED);
    found("step of loaded", n, vers_text_step(&loaded), vers_text_step(text).value);
    test_pattern(&loaded, symbols, n, symbols, n < 2 ? n : 2);
    vers_text_free(&loaded);
    is("load of less", vers_text_load(&loaded, bytes, size - 1), VERS_TOO_SHORT);
    bytes[size - 9] ^= 1;
    is("load of another sum", vers_text_load(&loaded, bytes, size), VERS_BAD_SUM);
    free(bytes);
}

static void test_text(size_t n, uint32_t width, size_t step) {
    uint64_t *symbols = room(n, 8), copied[8] = {0};
    for (size_t i = 0; i < n; i++) symbols[i] = next() % 3 % (1u << width);
    vers_text text = {0};
    is("text of", vers_text_of(&text, symbols, n, width, step), VERS_DONE);
    is("full", vers_text_of(&text, symbols, n, width, step), VERS_OCCUPIED);
    found("len", n, vers_text_len(&text), n);
    found("width", n, vers_text_width(&text), width);
    found("step", n, vers_text_step(&text), step);
    is("heap_size", vers_text_heap_size(&text).value > n * width / 8, 1);
    test_pattern(&text, symbols, n, NULL, 0);
    test_many_patterns(&text, symbols, n);
    for (size_t m = 1; m <= 5; m++) {
        for (size_t i = 0; i + m <= n; i += 1 + n / 20) test_pattern(&text, symbols, n, symbols + i, m);
        uint64_t others[] = {next() % 3, next() % 3, next() % 3, next() % 70000, UINT64_MAX};
        test_pattern(&text, symbols, n, others, m);
    }
    vers_numbers piece = {0};
    for (size_t i = 0; i <= n; i += 1 + n / 10)
        for (size_t j = i; j <= n; j += 1 + n / 10) {
            is("extract", vers_text_extract(&text, i, j, &piece), VERS_DONE);
            found("extract len", i, vers_numbers_len(&piece), j - i);
            for (size_t k = i; k < j; k++) found("symbol", k, vers_numbers_get(&piece, k - i), symbols[k]);
            is("copy", vers_numbers_copy(&piece, copied, 8), VERS_DONE);
            for (size_t k = 0; k < 8 && k < j - i; k++) is("copied", copied[k], symbols[i + k]);
            vers_numbers_free(&piece);
        }
    is("past the end", vers_text_extract(&text, 0, n + 1, &piece), VERS_REFUSED);
    is("backwards", vers_text_extract(&text, 1, 0, &piece), VERS_REFUSED);
    is("copy of none", vers_numbers_copy(&piece, copied, 8), VERS_VACANT);
    compare("no item", 0, vers_ask(&text.handle, VERS_GET, 0, 0, 0), VERS_UNKNOWN, 0);
    vers_text other = {0};
    is("clone", vers_text_clone(&text, &other), VERS_DONE);
    test_saved_text(&text, symbols, n);
    vers_text_free(&text);
    test_pattern(&other, symbols, n, symbols, n < 2 ? n : 2);
    vers_text_free(&other);
    compare("vacant", 0, vers_text_count(&other, symbols, 0), VERS_VACANT, 0);
    is("vacant counts", vers_text_count_each(&other, symbols, 0, NULL, 0), VERS_VACANT);
    is("vacant places", vers_text_places(&other, symbols, 0, &piece), VERS_REFUSED);
    is("vacant extract", vers_text_extract(&other, 0, 0, &piece), VERS_REFUSED);
    free(symbols);
}

/* Lists and texts of narrow numbers, against those of the same numbers in 64 bits. */
static void test_narrow(void) {
    static const uint8_t bytes[] = {200, 7, 255, 7};
    static const uint16_t u16s[] = {300, 7, 65535, 7};
    static const uint32_t u32s[] = {70000, 7, UINT32_MAX, 7};
    static const uint64_t low[3][4] = {{72, 7, 127, 7}, {300, 7, 511, 7}, {70000, 7, 131071, 7}};
    vers_symbols list[3] = {{{0}}, {{0}}, {{0}}};
    is("bytes", vers_symbols_of_bytes(&list[0], bytes, 4, 7), VERS_DONE);
    is("16 bits", vers_symbols_of_u16s(&list[1], u16s, 4, 9), VERS_DONE);
    is("32 bits", vers_symbols_of_u32s(&list[2], u32s, 4, 17), VERS_DONE);
    for (size_t k = 0; k < 3; k++) {
        for (size_t i = 0; i < 4; i++) found("narrow get", i, vers_symbols_get(&list[k], i), low[k][i]);
        found("narrow rank", k, vers_symbols_rank(&list[k], 4, 7), 2);
        vers_symbols_free(&list[k]);
    }
    is("wide bytes", vers_symbols_of_bytes(&list[0], bytes, 4, 65), VERS_REFUSED);
    is("missing bytes", vers_symbols_of_bytes(&list[0], NULL, 1, 7), VERS_REFUSED);
    is("missing 16 bits", vers_symbols_of_u16s(&list[0], NULL, 1, 7), VERS_REFUSED);
    is("missing 32 bits", vers_symbols_of_u32s(&list[0], NULL, 1, 7), VERS_REFUSED);
    is("no bytes", vers_symbols_of_bytes(&list[0], NULL, 0, 7), VERS_DONE);
    vers_symbols_free(&list[0]);
    static const uint64_t seven = 7;
    vers_text text = {0};
    is("text of bytes", vers_text_of_bytes(&text, bytes, 4, 8, 2), VERS_DONE);
    found("count of bytes", 7, vers_text_count(&text, &seven, 1), 2);
    vers_text_free(&text);
    is("text of 16 bits", vers_text_of_u16s(&text, u16s, 4, 16, 2), VERS_DONE);
    found("count of 16 bits", 7, vers_text_count(&text, &seven, 1), 2);
    vers_text_free(&text);
    is("wide byte", vers_text_of_bytes(&text, bytes, 4, 7, 2), VERS_REFUSED);
    is("wide 16 bits", vers_text_of_u16s(&text, u16s, 4, 15, 2), VERS_REFUSED);
    is("missing text", vers_text_of_bytes(&text, NULL, 1, 8, 2), VERS_REFUSED);
    is("missing text", vers_text_of_u16s(&text, NULL, 1, 8, 2), VERS_REFUSED);
    is("no text", vers_text_of_bytes(&text, NULL, 0, 8, 2), VERS_DONE);
    vers_text_free(&text);
}

static void test_refused_texts(void) {
    static const uint64_t symbols[] = {3, 0, 65535};
    vers_text text = {0};
    is("width 0", vers_text_of(&text, symbols, 0, 0, 1), VERS_REFUSED);
    is("width 17", vers_text_of(&text, symbols, 2, 17, 1), VERS_REFUSED);
    is("step 0", vers_text_of(&text, symbols, 2, 2, 0), VERS_REFUSED);
    is("wide symbol", vers_text_of(&text, symbols, 2, 1, 1), VERS_REFUSED);
    is("too long", vers_text_of(&text, symbols, 3, 15, 1), VERS_REFUSED);
    is("widest", vers_text_of(&text, symbols, 3, 16, SIZE_MAX), VERS_DONE);
    vers_handle list = {0}, into = {0};
    is("symbols", vers_symbols_build(symbols, 3, 16, &list), VERS_DONE);
    compare("count in symbols", 0, vers_count(&list, symbols, 1), VERS_UNKNOWN, 0);
    is("counts in symbols", vers_count_each(&list, symbols, 1, NULL, 0), VERS_UNKNOWN);
    is("places in symbols", vers_places(&list, symbols, 1, &into), VERS_REFUSED);
    is("piece of symbols", vers_extract(&list, 0, 1, &into), VERS_REFUSED);
    vers_free(&list);
    vers_text_free(&text);
}

/* Lists as answers, against one answer after another. */
static void test_listed(size_t n) {
    uint64_t *numbers = room(n, 8), listed[10], last = 0;
    for (size_t i = 0; i < n; i++) numbers[i] = last += 1 + next() % 9;
    vers_bits bits = {0};
    vers_sparse sparse = {0};
    vers_sorted sorted = {0};
    vers_postings postings = {0};
    is("bits", vers_bits_of(&bits, numbers, n, 64 * n), VERS_DONE);
    is("sparse", vers_sparse_of(&sparse, numbers, n, last + 5), VERS_DONE);
    is("sorted", vers_sorted_of(&sorted, numbers, n), VERS_DONE);
    is("postings", vers_postings_of(&postings, numbers, numbers, n), VERS_DONE);
    for (uint64_t start = 0; start <= 64 * n; start += 1 + 3 * n)
        for (uint64_t end = start; end <= 64 * n + 9; end += 1 + n) {
            uint64_t ones = vers_bits_rank1(&bits, end).value - vers_bits_rank1(&bits, start).value, k = 0;
            found("places1", start, vers_bits_places1(&bits, start, end, listed, 10), ones);
            for (uint64_t i = start; i < end && k < 10; i++)
                if (vers_bits_get(&bits, i).value) is("position1", listed[k++], i);
            is("places1", k, ones < 10 ? ones : 10);
            uint64_t zeros = vers_bits_rank0(&bits, end).value - vers_bits_rank0(&bits, start).value;
            found("places0", start, vers_bits_places0(&bits, start, end, listed, 10), zeros);
            if (zeros > 0) is("position0", vers_bits_get(&bits, listed[0]).value, 0);
            uint64_t count = 0;
            for (size_t i = 0; i < n; i++) count += start <= numbers[i] && numbers[i] < end;
            found("sparse", start, vers_sparse_places1(&sparse, start, end, listed, 10), count);
            if (count > 0) is("sparse", listed[0] >= start && vers_sparse_get(&sparse, listed[0]).value, 1);
            found("elements", start, vers_sorted_elements(&sorted, start, end, listed, 10), count);
            if (count > 0) found("element", start, vers_sorted_successor(&sorted, start), listed[0]);
            found("documents", start, vers_postings_documents(&postings, start, end, listed, 10), count);
            if (count > 0) found("document", start, vers_postings_next_at_least(&postings, start), listed[0]);
        }
    found("backwards", 0, vers_sorted_elements(&sorted, 9, 0, listed, 10), 0);
    for (size_t i = 0; i <= n; i++) {
        found_if("document at", i, vers_postings_get(&postings, i), i < n, i < n ? numbers[i] : 0);
        found_if("cost at", i, vers_postings_cost(&postings, i), i < n, i < n ? numbers[i] : 0);
    }
    vers_bits_free(&bits);
    compare("vacant", 0, vers_bits_places1(&bits, 0, 1, listed, 10), VERS_VACANT, 0);
    vers_sparse_free(&sparse);
    vers_sorted_free(&sorted);
    vers_postings_free(&postings);
    free(numbers);
}

/* The worked file of docs/FORMAT.md: the bits 0, 1, 1, 0. */
static const uint8_t worked[] = {
    0x77, 0x6f, 0x6c, 0x74, 0x73, 0x6a, 0x65, 0x6d, 1, 0, 0, 0, 0, 0, 0, 0, 1, 0, 0, 0, 0, 0, 0, 0, 1, 0, 0, 0,
    0, 0, 0, 0, 4, 0, 0, 0, 0, 0, 0, 0, 6, 0, 0, 0, 0, 0, 0, 0, 0xe5, 0x05, 0xf5, 0xab, 0xde, 0x57, 0x14, 0xf5,
};

static void test_worked_form(void) {
    uint64_t word = 6;
    uint8_t bytes[sizeof worked] = {0};
    vers_bits list = {0}, loaded = {0};
    vers_growing growing = {0};
    is("bits of", vers_bits_of(&list, &word, 1, 4), VERS_DONE);
    found("saved_size", 0, vers_bits_saved_size(&list), sizeof worked);
    is("save", vers_bits_save(&list, bytes, sizeof bytes), VERS_DONE);
    is("saved", memcmp(bytes, worked, sizeof worked) == 0, 1);
    is("save over fewer", vers_bits_save(&list, bytes, sizeof bytes - 1), VERS_REFUSED);
    is("load", vers_bits_load(&loaded, worked, sizeof worked), VERS_DONE);
    for (uint64_t i = 0; i < 4; i++) found("loaded", i, vers_bits_get(&loaded, i), i == 1 || i == 2);
    is("load again", vers_bits_load(&loaded, worked, sizeof worked), VERS_OCCUPIED);
    is("load growing", vers_growing_load(&growing, worked, sizeof worked), VERS_DONE);
    is("append", vers_growing_append(&growing, true), VERS_DONE);
    vers_growing_free(&growing);
    vers_bits_free(&loaded);
    for (size_t i = 0; i < sizeof bytes; i++) is("load of less", vers_bits_load(&loaded, bytes, i), VERS_TOO_SHORT);
    is("load of nothing", vers_bits_load(&loaded, NULL, 0), VERS_TOO_SHORT);
    is("load as another", vers_load(VERS_KIND_SORTED, worked, sizeof worked, &loaded.handle), VERS_OTHER_KIND);
    is("save over nothing", vers_bits_save(&list, NULL, 0), VERS_REFUSED);
    is("load of no kind", vers_load(1000, worked, sizeof worked, &loaded.handle), VERS_UNKNOWN);
    vers_bits_free(&list);
    compare("saved_size vacant", 0, vers_bits_saved_size(&list), VERS_VACANT, 0);
    is("save vacant", vers_bits_save(&list, bytes, sizeof bytes), VERS_VACANT);
}

/* The sum of the words of a form before its last one, as docs/FORMAT.md says it. */
static uint64_t sum_of(const uint64_t *words, size_t count) {
    uint64_t sum = 0xcbf29ce484222325;
    for (size_t k = 0; k + 1 < count; k++) {
        sum = (sum ^ words[k]) * 0x9e3779b97f4a7c15;
        sum = sum << 29 | sum >> 35;
    }
    return sum;
}

/* Loads words with one of them changed, and with their sum right or not. */
static uint32_t load_changed(uint32_t kind, const uint64_t *words, size_t count, size_t k, uint64_t word, bool is_summed) {
    uint64_t changed[16];
    memcpy(changed, words, count * 8);
    changed[k] = word;
    if (is_summed) changed[count - 1] = sum_of(changed, count);
    vers_handle handle = {0};
    uint32_t status = vers_load(kind, (const uint8_t *)changed, count * 8, &handle);
    is("left vacant", vers_ask(&handle, VERS_LEN, 0, 0, 0).status, status == VERS_DONE ? VERS_DONE : VERS_VACANT);
    vers_free(&handle);
    return status;
}

/* Each error of a saved form has its status. */
static void test_faults(void) {
    uint64_t words[8];
    memcpy(words, worked, sizeof worked);
    is("right", load_changed(VERS_KIND_BITS, words, 7, 5, 6, true), VERS_DONE);
    is("other first word", load_changed(VERS_KIND_BITS, words, 7, 0, words[0] + 1, true), VERS_NOT_OURS);
    is("other version", load_changed(VERS_KIND_BITS, words, 7, 1, 2, true), VERS_OTHER_VERSION);
    is("other kind", load_changed(VERS_KIND_BITS, words, 7, 2, 6, true), VERS_OTHER_KIND);
    is("other width", load_changed(VERS_KIND_BITS, words, 7, 3, 2, true), VERS_OTHER_KIND);
    is("more bits", load_changed(VERS_KIND_BITS, words, 7, 4, 65, true), VERS_TOO_SHORT);
    is("too many bits", load_changed(VERS_KIND_BITS, words, 7, 4, UINT64_MAX, true), VERS_BAD_LENGTH);
    is("no bits", load_changed(VERS_KIND_BITS, words, 7, 4, 0, true), VERS_BAD_LENGTH);
    is("a flipped bit", load_changed(VERS_KIND_BITS, words, 7, 5, 7, false), VERS_BAD_SUM);
    is("another sum", load_changed(VERS_KIND_BITS, words, 7, 6, 0, false), VERS_BAD_SUM);
    is("a one past the end", load_changed(VERS_KIND_BITS, words, 7, 5, 22, true), VERS_BAD_PADDING);
    uint64_t ascending[8] = {words[0], 1, 2, 64, 2, 5, 5, 0};
    is("equal", load_changed(VERS_KIND_SORTED, ascending, 8, 6, 5, true), VERS_DONE);
    is("descending", load_changed(VERS_KIND_SORTED, ascending, 8, 6, 4, true), VERS_NOT_ASCENDING);
    uint64_t posted[8] = {words[0], 1, 7, 128, 1, 5, 2, 0};
    is("a document", load_changed(VERS_KIND_POSTINGS, posted, 8, 6, 9, true), VERS_DONE);
    is("less a cost", load_changed(VERS_KIND_POSTINGS, posted, 8, 4, 2, true), VERS_TOO_SHORT);
    uint64_t levels[9] = {words[0], 2, 3, 3, 3, 2, 2, 7, 0};
    is("levels", load_changed(VERS_KIND_SYMBOLS, levels, 9, 5, 2, true), VERS_DONE);
    is("a one past a level", load_changed(VERS_KIND_SYMBOLS, levels, 9, 5, 10, true), VERS_BAD_PADDING);
    is("less a level", load_changed(VERS_KIND_SYMBOLS, levels, 9, 3, 2, true), VERS_BAD_LENGTH);
    is("version 3", load_changed(VERS_KIND_SYMBOLS, levels, 9, 1, 3, true), VERS_OTHER_VERSION);
}

/* The symbols 1, 5, 3 of 3 bits are loaded from the first version of their form, and saved by levels. */
static void test_first_version(void) {
    uint64_t words[7], levels[9], wanted[9];
    memcpy(words, worked, sizeof words);
    words[2] = words[3] = words[4] = 3;
    words[5] = 0351;
    words[6] = sum_of(words, 7);
    memcpy(wanted, words, 5 * 8);
    wanted[1] = wanted[5] = wanted[6] = 2;
    wanted[7] = 7;
    wanted[8] = sum_of(wanted, 9);
    vers_symbols symbols = {0};
    is("load the first version", vers_symbols_load(&symbols, (const uint8_t *)words, sizeof words), VERS_DONE);
    found("first symbol", 0, vers_symbols_get(&symbols, 0), 1);
    found("second symbol", 1, vers_symbols_get(&symbols, 1), 5);
    found("third symbol", 2, vers_symbols_get(&symbols, 2), 3);
    found("saved_size by levels", 0, vers_symbols_saved_size(&symbols), sizeof levels);
    is("save by levels", vers_symbols_save(&symbols, (uint8_t *)levels, sizeof levels), VERS_DONE);
    is("saved by levels", memcmp(levels, wanted, sizeof levels) == 0, 1);
    vers_symbols_free(&symbols);
}

/* The index of the pairs (0, 0), (0, 1), (1, 0) and (1, 3) is saved by its limits, 2 terms and documents below 4, and by
 * the parts of its numbers 0, 1, 4 and 7. */
static void test_inverted_form(void) {
    uint64_t terms[] = {0, 0, 1, 1}, documents[] = {0, 1, 0, 3}, words[13];
    uint64_t wanted[13] = {0, 1, 10, 64, 7, 2, 4, 4, 0, 7, 10, 166, 0};
    memcpy(wanted, worked, 8);
    wanted[12] = sum_of(wanted, 13);
    vers_inverted index = {0}, other = {0};
    is("inverted of", vers_inverted_of(&index, 2, 4, terms, documents, 4), VERS_DONE);
    found("saved_size", 0, vers_inverted_saved_size(&index), sizeof words);
    is("save", vers_inverted_save(&index, (uint8_t *)words, sizeof words), VERS_DONE);
    is("saved", memcmp(words, wanted, sizeof words) == 0, 1);
    is("load", vers_inverted_load(&other, (const uint8_t *)words, sizeof words), VERS_DONE);
    found("loaded", 1, vers_inverted_get(&other, 1, 1), 3);
    vers_inverted_free(&other);
    vers_inverted_free(&index);
    is("a number past the end", load_changed(VERS_KIND_INVERTED, wanted, 13, 6, 3, true), VERS_NOT_ASCENDING);
    is("more than 64 bits", load_changed(VERS_KIND_INVERTED, wanted, 13, 6, (uint64_t)1 << 63, true), VERS_NOT_ASCENDING);
    is("another last number", load_changed(VERS_KIND_INVERTED, wanted, 13, 9, 6, true), VERS_NOT_ASCENDING);
}

/* Saves a list and loads it: the other list answers like the first. As another kind it is refused. */
static void test_form(vers_handle *list, uint32_t kind, enum vers_query query) {
    uint64_t length = vers_ask(list, VERS_LEN, 0, 0, 0).value;
    vers_answer size = vers_saved_size(list);
    is("saved_size", size.status, VERS_DONE);
    uint8_t *bytes = room(size.value, 1);
    is("save", vers_save(list, bytes, size.value), VERS_DONE);
    vers_handle other = {0};
    uint32_t wrong = kind == VERS_KIND_SORTED ? VERS_KIND_FAST : VERS_KIND_SORTED;
    is("load as another", vers_load(wrong, bytes, size.value, &other), VERS_OTHER_KIND);
    is("load", vers_load(kind, bytes, size.value, &other), VERS_DONE);
    found("loaded len", 0, vers_ask(&other, VERS_LEN, 0, 0, 0), length);
    for (uint64_t i = 0; i <= length; i++) {
        vers_answer wanted = vers_ask(list, query, i, i, 0);
        compare("loaded", i, vers_ask(&other, query, i, i, 0), wanted.status, wanted.value);
    }
    vers_free(&other);
    vers_free(list);
    free(bytes);
}

/* A tree is loaded as it was, and as no list of bits. */
static void test_tree_form(void) {
    uint64_t word = 0xb;
    vers_tree tree = {0}, other = {0};
    is("tree of", vers_tree_of(&tree, &word, 1, 6), VERS_DONE);
    found("saved_size", 0, vers_tree_saved_size(&tree), sizeof worked);
    uint8_t bytes[sizeof worked];
    is("save", vers_tree_save(&tree, bytes, sizeof bytes), VERS_DONE);
    is("kind", bytes[16], 6);
    is("parentheses", bytes[40], word);
    is("load", vers_tree_load(&other, bytes, sizeof bytes), VERS_DONE);
    found("first_child", 0, vers_tree_first_child(&other, 0), 1);
    found("parent", 3, vers_tree_parent(&other, 3), 0);
    vers_tree_free(&other);
    is("load as bits", vers_load(VERS_KIND_BITS, bytes, sizeof bytes, &other.handle), VERS_OTHER_KIND);
    vers_tree_free(&tree);
}

static void test_forms(size_t n) {
    uint64_t *ones = room(n, 8), last = 0;
    for (size_t i = 0; i < n; i++) ones[i] = last += 1 + next() % 5;
    vers_handle list = {0};
    is("growing", vers_growing_build(ones, n, 9 * n, &list), VERS_DONE);
    test_form(&list, VERS_KIND_GROWING, VERS_GET);
    is("bits", vers_bits_build(ones, n, 9 * n, &list), VERS_DONE);
    test_form(&list, VERS_KIND_BITS, VERS_RANK1);
    is("sparse", vers_sparse_build(ones, n, last + 9, &list), VERS_DONE);
    test_form(&list, VERS_KIND_SPARSE, VERS_RANK1);
    is("sorted", vers_sorted_build(ones, n, &list), VERS_DONE);
    test_form(&list, VERS_KIND_SORTED, VERS_SUCCESSOR);
    is("symbols", vers_symbols_build(ones, n, 7, &list), VERS_DONE);
    test_form(&list, VERS_KIND_SYMBOLS, VERS_RANK_OF);
    is("fast_rmq", vers_fast_rmq_build(ones, n, &list), VERS_DONE);
    test_form(&list, VERS_KIND_FAST, VERS_RANGE_MIN);
    is("binary_rmq", vers_binary_rmq_build(ones, n, &list), VERS_DONE);
    test_form(&list, VERS_KIND_BINARY, VERS_GET);
    is("tree", vers_tree_build(ones, n, 9 * n, &list), VERS_DONE);
    test_form(&list, VERS_KIND_TREE, VERS_CLOSE);
    is("postings", vers_postings_build(ones, n, ones, n, &list), VERS_DONE);
    test_form(&list, VERS_KIND_POSTINGS, VERS_CHEAPEST);
    uint64_t *terms = room(n, 8);
    for (size_t i = 0; i < n; i++) terms[i] = i;
    is("inverted", vers_inverted_build(n, last + 1, terms, n, ones, n, &list), VERS_DONE);
    test_form(&list, VERS_KIND_INVERTED, VERS_GET);
    free(terms);
    is("no symbols", vers_symbols_build(ones, n, 0, &list), VERS_DONE);
    compare("saved_size of no bits", 0, vers_saved_size(&list), VERS_ABSENT, 0);
    uint8_t byte = 0;
    is("save of no bits", vers_save(&list, &byte, 1), VERS_ABSENT);
    vers_free(&list);
    free(ones);
}

/* Two handles have lists of one kind, which answer alike. */
static void are_alike(vers_handle *list, vers_handle *other) {
    for (uint32_t code = 0; code <= VERS_TERM_SUCCESSOR; code++) {
        vers_answer wanted = vers_ask(list, code, 1, 2, 2);
        compare("loaded", code, vers_ask(other, code, 1, 2, 2), wanted.status, wanted.value);
    }
    is("loaded change", vers_change(other, VERS_DROP_LAST, 0, 0), vers_change(list, VERS_DROP_LAST, 0, 0));
}

/* What each type has: a list that is loaded, and another handle, answer alike, also many queries at once, when the first
 * one is freed. */
#define TEST_TYPE(type, query, ...)                                                        \
    do {                                                                                   \
        vers_##type list = {0}, other = {0};                                               \
        uint64_t asked[] = {0, 3, 9}, each[] = {0, 3, 9};                                  \
        uint8_t bytes[400];                                                                \
        is(#type " of", vers_##type##_of(&list, __VA_ARGS__), VERS_DONE);                  \
        size_t size = (size_t)vers_##type##_saved_size(&list).value;                       \
        is(#type " save", vers_##type##_save(&list, bytes, size), VERS_DONE);              \
        is(#type " load", vers_##type##_load(&other, bytes, size), VERS_DONE);             \
        are_alike(&list.handle, &other.handle);                                            \
        vers_##type##_free(&other);                                                        \
        is(#type " clone", vers_##type##_clone(&list, &other), VERS_DONE);                 \
        found(#type " len", 0, vers_##type##_len(&other), vers_##type##_len(&list).value); \
        vers_##type##_free(&list);                                                         \
        is(#type " each", vers_##type##_each(&other, query, each, 3, 77), VERS_DONE);      \
        for (size_t i = 0; i < 3; i++) {                                                   \
            vers_answer one = vers_ask(&other.handle, query, asked[i], 0, 0);              \
            is(#type " answer", each[i], vers_value_or(one, 77));                          \
        }                                                                                  \
        vers_##type##_free(&other);                                                        \
    } while (0)

/* The same for queries of two numbers. */
#define TEST_ROWS(type, query, ...)                                                        \
    do {                                                                                   \
        vers_##type list = {0};                                                            \
        vers_row asked[] = {{0, 2, 0}, {1, 1, 0}, {3, 90, 0}}, rows[3];                    \
        memcpy(rows, asked, sizeof rows);                                                  \
        is(#type " of", vers_##type##_of(&list, __VA_ARGS__), VERS_DONE);                  \
        is(#type " rows", vers_##type##_rows(&list, query, rows, 3, 77), VERS_DONE);       \
        for (size_t i = 0; i < 3; i++) {                                                   \
            vers_answer one = vers_ask(&list.handle, query, asked[i].a, asked[i].b, 0);    \
            is(#type " answer", rows[i].a, vers_value_or(one, 77));                        \
        }                                                                                  \
        vers_##type##_free(&list);                                                         \
    } while (0)

static void test_types(void) {
    static const uint64_t numbers[] = {1, 2, 5, 9}, word = 0xb; /* (()() */
    TEST_TYPE(growing, VERS_GET, &word, 1, 5);
    TEST_TYPE(bits, VERS_SELECT1, &word, 1, 5);
    TEST_TYPE(sparse, VERS_RANK1, numbers, 4, 10);
    TEST_TYPE(sorted, VERS_SUCCESSOR, numbers, 4);
    TEST_TYPE(symbols, VERS_GET, numbers, 4, 4);
    TEST_TYPE(fast_rmq, VERS_GET, numbers, 4);
    TEST_TYPE(binary_rmq, VERS_GET, numbers, 4);
    TEST_TYPE(tree, VERS_CLOSE, &word, 1, 5);
    TEST_TYPE(postings, VERS_SUCCESSOR, numbers, numbers, 4);
    TEST_TYPE(inverted, VERS_COUNT, 10, 10, numbers, numbers, 4);
    TEST_ROWS(growing, VERS_GET_BITS, &word, 1, 5);
    TEST_ROWS(bits, VERS_GET_BITS, &word, 1, 5);
    TEST_ROWS(symbols, VERS_LEAST, numbers, 4, 4);
    TEST_ROWS(fast_rmq, VERS_RANGE_MIN, numbers, 4);
    TEST_ROWS(binary_rmq, VERS_RANGE_MIN, numbers, 4);
    TEST_ROWS(tree, VERS_FWD_SEARCH, &word, 1, 5);
    TEST_ROWS(postings, VERS_CHEAPEST, numbers, numbers, 4);
    TEST_ROWS(inverted, VERS_TERM_HAS, 10, 10, numbers, numbers, 4);
}

/* How many bytes some 64,000 bits or 1000 numbers take: not fewer than they have, and few more. */
static void test_sizes(void) {
    uint64_t numbers[1000];
    for (uint64_t i = 0; i < 1000; i++) numbers[i] = 9 * i;
    vers_growing growing = {0};
    vers_bits bits = {0};
    vers_sparse sparse = {0};
    vers_sorted sorted = {0};
    vers_symbols symbols = {0};
    vers_fast_rmq fast = {0};
    vers_binary_rmq binary = {0};
    vers_tree tree = {0};
    is("made", vers_growing_of(&growing, numbers, 1000, 64000) | vers_bits_of(&bits, numbers, 1000, 64000), VERS_DONE);
    is("made", vers_sparse_of(&sparse, numbers, 1000, 9000) | vers_sorted_of(&sorted, numbers, 1000), VERS_DONE);
    is("made", vers_symbols_of(&symbols, numbers, 1000, 14) | vers_tree_of(&tree, numbers, 1000, 64000), VERS_DONE);
    is("made", vers_fast_rmq_of(&fast, numbers, 1000) | vers_binary_rmq_of(&binary, numbers, 1000), VERS_DONE);
    vers_answer sizes[] = {vers_growing_heap_size(&growing), vers_bits_heap_size(&bits), vers_fast_rmq_heap_size(&fast),
                           vers_tree_heap_size(&tree), vers_binary_rmq_heap_size(&binary)};
    for (size_t i = 0; i < sizeof sizes / sizeof *sizes; i++)
        is("size", sizes[i].status == VERS_DONE && sizes[i].value >= 8000 && sizes[i].value < 60000, 1);
    vers_answer small[] = {vers_sparse_heap_size(&sparse), vers_sorted_heap_size(&sorted),
                           vers_symbols_heap_size(&symbols)};
    for (size_t i = 0; i < sizeof small / sizeof *small; i++)
        is("small size", small[i].status == VERS_DONE && small[i].value >= 500 && small[i].value < 8000, 1);
    vers_growing_free(&growing);
    vers_bits_free(&bits);
    vers_sparse_free(&sparse);
    vers_sorted_free(&sorted);
    vers_symbols_free(&symbols);
    vers_fast_rmq_free(&fast);
    vers_binary_rmq_free(&binary);
    vers_tree_free(&tree);
}

struct reader {
    vers_bits bits;
    int faults;
};

/* Asks bits of which each second one is a one, the first among them, and frees its handle. */
static void *reads(void *data) {
    struct reader *r = data;
    for (uint64_t i = 0; i < 5000; i++) r->faults += vers_bits_rank1(&r->bits, i).value != (i + 1) / 2;
    uint64_t each[1000];
    for (uint64_t i = 0; i < 1000; i++) each[i] = i;
    r->faults += vers_bits_each(&r->bits, VERS_SELECT1, each, 1000, 0) != VERS_DONE;
    for (uint64_t i = 0; i < 1000; i++) r->faults += each[i] != 2 * i;
    for (int i = 0; i < 300; i++) {
        vers_bits more = {0};
        r->faults += vers_bits_clone(&r->bits, &more) != VERS_DONE;
        r->faults += vers_bits_len(&more).value != 25600;
        vers_bits_free(&more);
    }
    vers_bits_free(&r->bits);
    return NULL;
}

static void test_threads(void) {
    enum { THREADS = 4 };
    uint64_t words[400];
    memset(words, 0x55, sizeof words);
    vers_bits list = {0};
    struct reader readers[THREADS];
    memset(readers, 0, sizeof readers);
    pthread_t threads[THREADS];
    is("bits of", vers_bits_of(&list, words, 400, 25600), VERS_DONE);
    for (int i = 0; i < THREADS; i++) {
        is("clone", vers_bits_clone(&list, &readers[i].bits), VERS_DONE);
        is("thread", (uint64_t)pthread_create(&threads[i], NULL, reads, &readers[i]), 0);
    }
    vers_bits_free(&list);
    for (int i = 0; i < THREADS; i++) {
        pthread_join(threads[i], NULL);
        is("reader", (uint64_t)readers[i].faults, 0);
    }
}

/* Null with a count is refused by each maker, which leaves the handle empty. */
static void test_missing_arrays(void) {
    const uint64_t word = 1;
    vers_growing growing = {0};
    is("growing of null", vers_growing_of(&growing, NULL, 1, 8), VERS_REFUSED);
    vers_bits bits = {0};
    is("bits of null", vers_bits_of(&bits, NULL, 1, 8), VERS_REFUSED);
    compare("bits stay empty", 0, vers_bits_len(&bits), VERS_VACANT, 0);
    vers_tree tree = {0};
    is("tree of null", vers_tree_of(&tree, NULL, 1, 2), VERS_REFUSED);
    vers_sparse sparse = {0};
    is("sparse of null", vers_sparse_of(&sparse, NULL, 1, 8), VERS_REFUSED);
    vers_sorted sorted = {0};
    is("sorted of null", vers_sorted_of(&sorted, NULL, 1), VERS_REFUSED);
    compare("sorted stays empty", 0, vers_sorted_len(&sorted), VERS_VACANT, 0);
    vers_symbols symbols = {0};
    is("symbols of null", vers_symbols_of(&symbols, NULL, 1, 8), VERS_REFUSED);
    vers_fast_rmq fast = {0};
    is("fast minima of null", vers_fast_rmq_of(&fast, NULL, 1), VERS_REFUSED);
    vers_binary_rmq binary = {0};
    is("binary minima of null", vers_binary_rmq_of(&binary, NULL, 1), VERS_REFUSED);
    vers_postings postings = {0};
    is("postings of null", vers_postings_of(&postings, NULL, &word, 1), VERS_REFUSED);
    is("postings of null costs", vers_postings_of(&postings, &word, NULL, 1), VERS_REFUSED);
    vers_inverted index = {0};
    is("inverted of null terms", vers_inverted_of(&index, 9, 9, NULL, &word, 1), VERS_REFUSED);
    is("inverted of null documents", vers_inverted_of(&index, 9, 9, &word, NULL, 1), VERS_REFUSED);
    vers_text text = {0};
    is("text of null", vers_text_of(&text, NULL, 1, 8, 1), VERS_REFUSED);
    is("load of null", vers_bits_load(&bits, NULL, 8), VERS_REFUSED);
}

/* Null with a count is refused by each call of a list that reads or writes an array. */
static void test_missing_answers(void) {
    const uint64_t words[] = {0xb5, 3};
    vers_bits bits = {0};
    vers_numbers places = {0};
    vers_text text = {0};
    is("bits", vers_bits_of(&bits, words, 1, 8), VERS_DONE);
    is("text", vers_text_of(&text, words, 2, 8, 1), VERS_DONE);
    is("each of null", vers_bits_each(&bits, VERS_GET, NULL, 1, 0), VERS_REFUSED);
    is("rows of null", vers_bits_rows(&bits, VERS_GET, NULL, 1, 0), VERS_REFUSED);
    is("save over null", vers_bits_save(&bits, NULL, (size_t)vers_bits_saved_size(&bits).value), VERS_REFUSED);
    compare("places over null", 0, vers_bits_places1(&bits, 0, 8, NULL, 8), VERS_REFUSED, 0);
    found("places over nothing", 0, vers_bits_places1(&bits, 0, 8, NULL, 0), 5);
    compare("count of null", 0, vers_text_count(&text, NULL, 1), VERS_REFUSED, 0);
    is("counts of null", vers_text_count_each(&text, NULL, 1, NULL, 0), VERS_REFUSED);
    is("counts over null", vers_text_count_each(&text, words, 1, NULL, 1), VERS_REFUSED);
    is("places of null", vers_text_places(&text, NULL, 1, &places), VERS_REFUSED);
    is("extract", vers_text_extract(&text, 0, 2, &places), VERS_DONE);
    is("numbers over null", vers_numbers_copy(&places, NULL, 1), VERS_REFUSED);
    vers_numbers_free(&places);
    vers_text_free(&text);
    vers_bits_free(&bits);
}

/* Null with a count is refused by the calls that lists have in common, also if they hold nothing. */
static void test_missing_everywhere(void) {
#define SAVED(type)                                                                                                    \
    vers_##type type = {0};                                                                                            \
    is(#type " saved over null", vers_##type##_save(&type, NULL, 1), VERS_REFUSED);                                    \
    is(#type " loaded of null", vers_##type##_load(&type, NULL, 1), VERS_REFUSED);                                     \
    is(#type " each of null", vers_##type##_each(&type, VERS_GET, NULL, 1, 0), VERS_REFUSED)
#define ROWS(type) is(#type " rows of null", vers_##type##_rows(&type, VERS_GET, NULL, 1, 0), VERS_REFUSED)
    SAVED(growing);
    SAVED(bits);
    SAVED(sparse);
    SAVED(sorted);
    SAVED(symbols);
    SAVED(fast_rmq);
    SAVED(binary_rmq);
    SAVED(tree);
    SAVED(postings);
    ROWS(growing);
    ROWS(bits);
    ROWS(symbols);
    ROWS(fast_rmq);
    ROWS(binary_rmq);
    ROWS(tree);
    ROWS(postings);
#undef SAVED
#undef ROWS
    vers_inverted index = {0};
    is("index each of null", vers_inverted_each(&index, VERS_COUNT, NULL, 1, 0), VERS_REFUSED);
    is("index rows of null", vers_inverted_rows(&index, VERS_TERM_GET, NULL, 1, 0), VERS_REFUSED);
    vers_numbers numbers = {0};
    vers_text text = {0};
    is("numbers each of null", vers_numbers_each(&numbers, VERS_GET, NULL, 1, 0), VERS_REFUSED);
    compare("contains null", 0, vers_text_contains(&text, NULL, 1), VERS_REFUSED, 0);
    compare("zeros over null", 0, vers_bits_places0(&bits, 0, 1, NULL, 1), VERS_REFUSED, 0);
    compare("ones over null", 0, vers_sparse_places1(&sparse, 0, 1, NULL, 1), VERS_REFUSED, 0);
    compare("elements over null", 0, vers_sorted_elements(&sorted, 0, 1, NULL, 1), VERS_REFUSED, 0);
    compare("documents over null", 0, vers_postings_documents(&postings, 0, 1, NULL, 1), VERS_REFUSED, 0);
}

/* The exports take null for no items. */
static void test_no_items(void) {
    vers_handle handle = {0}, other = {0};
    is("growing", vers_growing_build(NULL, 0, 8, &handle), VERS_DONE);
    is("each", vers_ask_each(&handle, VERS_GET, NULL, 0, 0, 0, 0), VERS_DONE);
    is("rows", vers_ask_rows(&handle, VERS_GET, NULL, 0, 0), VERS_DONE);
    is("save", vers_save(&handle, NULL, 0), VERS_REFUSED);
    vers_free(&handle);
    is("bits", vers_bits_build(NULL, 0, 8, &handle), VERS_DONE);
    vers_free(&handle);
    is("tree", vers_tree_build(NULL, 0, 8, &handle), VERS_DONE);
    vers_free(&handle);
    is("sparse", vers_sparse_build(NULL, 0, 8, &handle), VERS_DONE);
    vers_free(&handle);
    is("sorted", vers_sorted_build(NULL, 0, &handle), VERS_DONE);
    vers_free(&handle);
    is("symbols", vers_symbols_build(NULL, 0, 8, &handle), VERS_DONE);
    vers_free(&handle);
    is("fast minima", vers_fast_rmq_build(NULL, 0, &handle), VERS_DONE);
    vers_free(&handle);
    is("binary minima", vers_binary_rmq_build(NULL, 0, &handle), VERS_DONE);
    vers_free(&handle);
    is("inverted", vers_inverted_build(0, 0, NULL, 0, NULL, 0, &handle), VERS_DONE);
    vers_free(&handle);
    is("postings", vers_postings_build(NULL, 0, NULL, 0, &handle), VERS_DONE);
    vers_free(&handle);
    is("load", vers_load(VERS_KIND_BITS, NULL, 0, &handle), VERS_TOO_SHORT);
    is("text", vers_text_build(NULL, 0, 8, 1, &handle), VERS_DONE);
    found("count", 0, vers_count(&handle, NULL, 0), 1);
    is("places", vers_places(&handle, NULL, 0, &other), VERS_DONE);
    vers_free(&other);
    vers_free(&handle);
}

/* A handle twice, and none. */
static void test_one_handle_twice(void) {
    const uint64_t documents[] = {2, 5}, word = 1;
    vers_postings postings = {0}, none = {0};
    vers_numbers shared = {0}, others = {0};
    vers_bits bits = {0};
    is("postings", vers_postings_of(&postings, documents, documents, 2), VERS_DONE);
    is("shared with itself", vers_postings_intersect(&postings, &postings, &shared), VERS_DONE);
    found("all are shared", 0, vers_numbers_len(&shared), 2);
    found("the last one", 0, vers_numbers_get(&shared, 1), 5);
    found("still there", 0, vers_postings_get(&postings, 1), 5);
    is("into a full handle", vers_postings_intersect(&postings, &postings, &shared), VERS_OCCUPIED);
    is("none with itself", vers_postings_intersect(&none, &none, &others), VERS_REFUSED);
    is("clone into itself", vers_postings_clone(&postings, &postings), VERS_OCCUPIED);
    is("clone of none into itself", vers_postings_clone(&none, &none), VERS_VACANT);
    vers_numbers_free(&shared);
    vers_postings_free(&postings);
    is("bits", vers_bits_of(&bits, &word, 1, 8), VERS_DONE);
    is("bits into themselves", vers_bits_clone(&bits, &bits), VERS_OCCUPIED);
    found("one owner", 0, vers_bits_len(&bits), 8);
    vers_bits_free(&bits);
    vers_bits_free(NULL);
    vers_growing_free(NULL);
    vers_sparse_free(NULL);
    vers_sorted_free(NULL);
    vers_symbols_free(NULL);
    vers_fast_rmq_free(NULL);
    vers_binary_rmq_free(NULL);
    vers_tree_free(NULL);
    vers_postings_free(NULL);
    vers_numbers_free(NULL);
    vers_text_free(NULL);
}

int main(void) {
    static const size_t lengths[] = {0, 1, 63, 64, 65, 500, 5000};
    for (size_t i = 0; i < sizeof lengths / sizeof *lengths; i++) {
        test_bits(lengths[i]);
        test_batches(lengths[i]);
    }
    test_statuses();
    test_growing();
    test_shared();
    test_sparse(0, 9);
    test_sparse(1, 9);
    test_sparse(300, 2);
    test_sparse(400, 50);
    test_sorted(0, 5);
    test_sorted(1, 5);
    test_sorted(300, 50);
    test_sorted(1000, (uint64_t)1 << 40);
    test_symbols(0, 3);
    test_symbols(1, 1);
    test_symbols(300, 3);
    test_symbols(400, 8);
    test_symbols(200, 64);
    test_tree(0);
    test_tree(1);
    test_tree(40);
    test_tree(300);
    test_unbalanced();
    test_minima(1);
    test_minima(10);
    test_minima(700);
    test_postings(0);
    test_postings(1);
    test_postings(500);
    test_inverted(0);
    test_inverted(1);
    test_inverted(30);
    test_no_index();
    test_combine(0, 5);
    test_combine(60, 100);
    test_intersect(0);
    test_intersect(1);
    test_intersect(800);
    test_text(0, 1, 1);
    test_text(1, 1, 32);
    test_text(50, 2, 1);
    test_text(300, 16, 7);
    test_text(300, 1, 1000);
    test_narrow();
    test_refused_texts();
    test_listed(0);
    test_listed(1);
    test_listed(40);
    test_worked_form();
    test_faults();
    test_first_version();
    test_inverted_form();
    test_tree_form();
    test_forms(0);
    test_forms(1);
    test_forms(300);
    test_types();
    test_sizes();
    test_missing_arrays();
    test_missing_answers();
    test_missing_everywhere();
    test_no_items();
    test_one_handle_twice();
    test_threads();
    printf("%lu passed, %lu failed\n", passed, failed);
    return failed != 0;
}
