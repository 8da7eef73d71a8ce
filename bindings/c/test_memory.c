/* Refuses each request for memory of each call in turn: the call answers VERS_NO_MEMORY, leaves its handles as they
 * were, and keeps no memory. Link with -Wl,--wrap=malloc,--wrap=realloc,--wrap=free. */
#include "vers.h"

#include <stdio.h>
#include <stdlib.h>
#include <string.h>

void *__real_malloc(size_t size);
void *__real_realloc(void *at, size_t size);
void __real_free(void *at);
void *__wrap_malloc(size_t size);
void *__wrap_realloc(void *at, size_t size);
void __wrap_free(void *at);

static unsigned long passed, failed, given, taken_back;
static long until_refusal = -1; /* how many requests are granted before one is refused; none is refused below 0 */

static bool is_refused(void) { return until_refusal >= 0 && until_refusal-- == 0; }

void *__wrap_malloc(size_t size) {
    if (is_refused()) return NULL;
    given++;
    return __real_malloc(size);
}

void *__wrap_realloc(void *at, size_t size) {
    if (is_refused()) return NULL;
    if (!at) given++;
    return __real_realloc(at, size);
}

void __wrap_free(void *at) {
    if (at) taken_back++;
    __real_free(at);
}

static void check(const char *what, bool holds) {
    if (holds) passed++;
    else if (failed++ < 20) fprintf(stderr, "%s\n", what);
}

enum { COUNT = 3000 };
static uint64_t numbers[COUNT];
static vers_handle one, two, texts, lists;

static uint32_t growing(vers_handle *handle) { return vers_growing_build(numbers, 20, 1280, handle); }
static uint32_t bits(vers_handle *handle) { return vers_bits_build(numbers, COUNT, COUNT * 64, handle); }
static uint32_t sparse(vers_handle *handle) { return vers_sparse_build(numbers, COUNT, COUNT * 3, handle); }
static uint32_t tree(vers_handle *handle) { return vers_tree_build(numbers, COUNT, COUNT * 64, handle); }
static uint32_t sorted(vers_handle *handle) { return vers_sorted_build(numbers, COUNT, handle); }
static uint32_t symbols(vers_handle *handle) { return vers_symbols_build(numbers, COUNT, 5, handle); }
static uint32_t fast_rmq(vers_handle *handle) { return vers_fast_rmq_build(numbers, COUNT, handle); }
static uint32_t binary_rmq(vers_handle *handle) { return vers_binary_rmq_build(numbers, COUNT, handle); }
static uint32_t postings(vers_handle *handle) { return vers_postings_build(numbers, COUNT, numbers, COUNT, handle); }
static uint32_t inverted(vers_handle *handle) {
    return vers_inverted_build(COUNT * 3, COUNT * 3, numbers, COUNT, numbers, COUNT, handle);
}
static uint32_t text(vers_handle *handle) { return vers_text_build(numbers, COUNT, 16, 3, handle); }
static uint32_t places(vers_handle *handle) { return vers_places(&texts, numbers, 0, handle); }
static uint32_t first_places(vers_handle *handle) { return vers_first_places(&texts, numbers, 0, COUNT, handle); }
static uint32_t extract(vers_handle *handle) { return vers_extract(&texts, 1, COUNT, handle); }
static uint32_t documents(vers_handle *handle) { return vers_documents(&lists, 3, handle); }
static uint32_t joined(vers_handle *handle) {
    static const uint64_t terms[] = {0, 3, 5};
    return vers_joined(&lists, VERS_UNION, terms, 3, handle);
}
static uint32_t clone(vers_handle *handle) { return vers_clone(&one, handle); }
static uint32_t combine(vers_handle *handle) {
    vers_sorted list = {0}, other = {0};
    uint32_t status = vers_sorted_of(&list, numbers, COUNT);
    if (status == VERS_DONE) status = vers_sorted_of(&other, numbers, COUNT / 2);
    if (status == VERS_DONE) status = vers_combine(&list.handle, &other.handle, VERS_DIFFERENCE, handle);
    vers_sorted_free(&list);
    vers_sorted_free(&other);
    return status;
}
/* A list is combined with itself by a clone of its handle. */
static uint32_t combine_alone(vers_handle *handle) {
    vers_sorted list = {0}, into = {0};
    uint32_t status = vers_sorted_of(&list, numbers, COUNT);
    if (status == VERS_DONE) status = vers_sorted_union(&list, &list, &into);
    vers_sorted_free(&list);
    *handle = into.handle;
    return status;
}
static uint32_t intersect(vers_handle *handle) { return vers_intersect(&one, &two, handle); }

/* The saved form of a list, and the kind that it is loaded as. */
static uint8_t form[64 + 16 * COUNT];
static size_t form_size;
static enum vers_kind kind;
static uint32_t load(vers_handle *handle) { return vers_load(kind, form, form_size, handle); }

/* A call that fills an empty handle. */
static void test_fill(const char *what, uint32_t (*fill)(vers_handle *)) {
    vers_handle handle = {0};
    uint32_t status = VERS_NO_MEMORY;
    for (long k = 0; status == VERS_NO_MEMORY && k < 10000; k++) {
        unsigned long held = given - taken_back;
        until_refusal = k;
        status = fill(&handle);
        until_refusal = -1;
        if (status == VERS_DONE) break;
        check(what, status == VERS_NO_MEMORY);
        check(what, vers_ask(&handle, VERS_LEN, 0, 0, 0).status == VERS_VACANT);
        check(what, given - taken_back == held);
    }
    check(what, status == VERS_DONE);
    vers_free(&handle);
}

/* A change that has to take memory once in a while. */
static void test_append(void) {
    vers_growing list = {0};
    check("growing", vers_growing_of(&list, NULL, 0, 0) == VERS_DONE);
    unsigned long refusals = 0;
    for (uint64_t n = 0; n < 5000;) {
        until_refusal = 0;
        uint32_t status = vers_growing_append(&list, n % 3 == 0);
        until_refusal = -1;
        if (status == VERS_NO_MEMORY) {
            refusals++;
            check("len after a refusal", vers_growing_len(&list).value == n);
            status = vers_growing_append(&list, n % 3 == 0);
        }
        check("append", status == VERS_DONE);
        n++;
    }
    check("refusals", refusals > 0);
    for (uint64_t n = 0; n < 5000; n++) check("bit", vers_growing_get(&list, n).value == (n % 3 == 0));
    vers_growing_free(&list);
}

/* Many queries of symbols ask for memory, and answer the same where it is refused. */
static void test_many(void) {
    static const enum vers_query queries[] = {VERS_GET, VERS_RANK_OF, VERS_SELECT_OF, VERS_QUANTILE};
    vers_symbols list = {0};
    check("symbols", vers_symbols_of(&list, numbers, COUNT, 5) == VERS_DONE);
    for (size_t k = 0; k < 4; k++)
        for (long refused = 0; refused < 2; refused++) {
            static uint64_t each[COUNT];
            unsigned long held = given - taken_back, before = given;
            for (uint64_t i = 0; i < COUNT; i++) each[i] = i;
            until_refusal = refused ? 0 : -1;
            check("each", vers_ask_each(&list.handle, queries[k], each, COUNT, COUNT, 7, COUNT) == VERS_DONE);
            check("as asked for", (until_refusal == -1) && given - before == (refused ? 0 : 1));
            until_refusal = -1;
            check("given back", given - taken_back == held);
            for (uint64_t i = 0; i < COUNT; i++)
                check("item", each[i] == vers_value_or(vers_ask(&list.handle, queries[k], i, COUNT, 7), COUNT));
        }
    vers_symbols_free(&list);
}

/* Saving a list takes memory too, and where there is none the bytes stay as they were. Then the list is loaded. */
static void test_form(const char *what, uint32_t (*fill)(vers_handle *), enum vers_kind loaded) {
    vers_handle list = {0};
    check(what, fill(&list) == VERS_DONE);
    form_size = vers_saved_size(&list).value;
    check(what, form_size <= sizeof form);
    uint32_t status = VERS_NO_MEMORY;
    for (long k = 0; status == VERS_NO_MEMORY && k < 100; k++) {
        memset(form, 0x5a, form_size);
        unsigned long held = given - taken_back;
        until_refusal = k;
        status = vers_save(&list, form, form_size);
        until_refusal = -1;
        check(what, given - taken_back == held);
        for (size_t i = 0; status == VERS_NO_MEMORY && i < form_size; i++) check(what, form[i] == 0x5a);
    }
    check(what, status == VERS_DONE);
    vers_free(&list);
    kind = loaded;
    test_fill(what, load);
}

int main(void) {
    setvbuf(stdout, NULL, _IONBF, 0);
    for (uint64_t i = 0; i < COUNT; i++) numbers[i] = 3 * i;
    check("one", postings(&one) == VERS_DONE);
    check("two", postings(&two) == VERS_DONE);
    test_fill("growing", growing);
    test_fill("bits", bits);
    test_fill("sparse", sparse);
    test_fill("tree", tree);
    test_fill("sorted", sorted);
    test_fill("symbols", symbols);
    test_fill("fast_rmq", fast_rmq);
    test_fill("binary_rmq", binary_rmq);
    test_fill("postings", postings);
    check("lists", inverted(&lists) == VERS_DONE);
    test_fill("inverted", inverted);
    test_fill("documents", documents);
    test_fill("joined", joined);
    check("texts", text(&texts) == VERS_DONE);
    test_fill("text", text);
    test_fill("places", places);
    test_fill("first_places", first_places);
    test_fill("extract", extract);
    test_fill("clone", clone);
    test_fill("intersect", intersect);
    test_fill("combine", combine);
    test_fill("combine alone", combine_alone);
    test_append();
    test_many();
    test_form("form of growing", growing, VERS_KIND_GROWING);
    test_form("form of bits", growing, VERS_KIND_BITS);
    test_form("form of sparse", sparse, VERS_KIND_SPARSE);
    test_form("form of sorted", sorted, VERS_KIND_SORTED);
    test_form("form of symbols", symbols, VERS_KIND_SYMBOLS);
    test_form("form of fast_rmq", fast_rmq, VERS_KIND_FAST);
    test_form("form of binary_rmq", binary_rmq, VERS_KIND_BINARY);
    test_form("form of tree", tree, VERS_KIND_TREE);
    test_form("form of postings", postings, VERS_KIND_POSTINGS);
    vers_free(&one);
    vers_free(&two);
    vers_free(&texts);
    vers_free(&lists);
    check("all memory came back", given == taken_back);
    printf("%lu passed, %lu failed\n", passed, failed);
    return failed != 0;
}
