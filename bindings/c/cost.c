/* Asks one query of places that look random, in lists of a million items: the query's name, how many places, and `each` for all of them in
 * one call. Prints the sum of the answers.
 *
 * Under `valgrind --tool=callgrind` the instructions of a query are those of a run with many places less those of a run with none, over the
 * count; `none` asks nothing, and its instructions for a position are the loop's. */
#include "random.h"
#include "vers.h"

#include <stdio.h>
#include <stdlib.h>
#include <string.h>

enum { ITEMS = 1000000 };

static uint64_t *random_numbers(size_t count, uint64_t most) {
    uint64_t *numbers = malloc((count + 1) * sizeof *numbers);
    if (!numbers) abort();
    for (size_t i = 0; i < count; i++) numbers[i] = next() % most;
    return numbers;
}

static uint64_t sum;

/* The sum of what a query answers to places below `most`: by a call for each, or by one for all. */
#define SUM(type, code, most, single, b, c)                                                \
    do {                                                                                   \
        uint64_t *places = random_numbers(count, most);                                    \
        if (is_each) vers_asked_each(&(type).handle, code, places, count, b, c, 0);        \
        for (size_t i = 0; i < count; i++) {                                               \
            uint64_t at = places[i];                                                       \
            sum += is_each ? at : (single);                                                \
        }                                                                                  \
        free(places);                                                                      \
    } while (0)

static void ask_bits(const char *name, size_t count, bool is_each) {
    uint64_t *words = random_numbers(ITEMS / 64, UINT64_MAX);
    vers_bits bits = {0};
    if (vers_bits_of(&bits, words, ITEMS / 64, ITEMS)) abort();
    if (!strcmp(name, "get")) SUM(bits, VERS_GET, ITEMS, vers_bits_get(&bits, at).value, 0, 0);
    if (!strcmp(name, "rank1")) SUM(bits, VERS_RANK1, ITEMS, vers_bits_rank1(&bits, at).value, 0, 0);
    if (!strcmp(name, "select1")) SUM(bits, VERS_SELECT1, ITEMS / 2 - 2000, vers_bits_select1(&bits, at).value, 0, 0);
    if (!strcmp(name, "none")) SUM(bits, VERS_LEN, ITEMS, at, 0, 0);
    vers_bits_free(&bits);
    free(words);
}

static void ask_sorted(const char *name, size_t count, bool is_each) {
    uint64_t *numbers = random_numbers(ITEMS, 100), most;
    for (size_t i = 1; i < ITEMS; i++) numbers[i] += numbers[i - 1];
    most = numbers[ITEMS - 1];
    vers_sorted list = {0};
    if (vers_sorted_of(&list, numbers, ITEMS)) abort();
    if (!strcmp(name, "element")) SUM(list, VERS_GET, ITEMS, vers_sorted_get(&list, at).value, 0, 0);
    if (!strcmp(name, "rank")) SUM(list, VERS_RANK, most, vers_sorted_rank(&list, at).value, 0, 0);
    if (!strcmp(name, "predecessor")) SUM(list, VERS_PREDECESSOR, most, vers_sorted_predecessor(&list, at).value, 0, 0);
    if (!strcmp(name, "successor")) SUM(list, VERS_SUCCESSOR, most, vers_sorted_successor(&list, at).value, 0, 0);
    vers_sorted_free(&list);
    free(numbers);
}

static void ask_symbols(const char *name, size_t count, bool is_each) {
    uint64_t *numbers = random_numbers(ITEMS, 256), end = ITEMS, tenth = ITEMS / 10;
    vers_symbols list = {0};
    if (vers_symbols_of(&list, numbers, ITEMS, 8)) abort();
    if (!strcmp(name, "symbol")) SUM(list, VERS_GET, ITEMS, vers_symbols_get(&list, at).value, 0, 0);
    if (!strcmp(name, "count")) SUM(list, VERS_RANK_OF, ITEMS, vers_symbols_rank(&list, at, 7).value, 7, 0);
    if (!strcmp(name, "position")) SUM(list, VERS_SELECT_OF, 3000, vers_symbols_select(&list, at, 7).value, 7, 0);
    if (!strcmp(name, "quantile"))
        SUM(list, VERS_QUANTILE, ITEMS / 2, vers_symbols_quantile(&list, at, end, tenth).value, end, tenth);
    vers_symbols_free(&list);
    free(numbers);
}

static void ask_values(const char *name, size_t count, bool is_each) {
    uint64_t *numbers = random_numbers(ITEMS, UINT64_MAX), last = ITEMS - 1;
    vers_fast_rmq list = {0};
    if (vers_fast_rmq_of(&list, numbers, ITEMS)) abort();
    if (!strcmp(name, "least")) SUM(list, VERS_RANGE_MIN, ITEMS, vers_fast_rmq_range_min(&list, at, last).value, last, 0);
    vers_fast_rmq_free(&list);
    free(numbers);
}

int main(int argc, char **argv) {
    const char *name = argc > 2 ? argv[1] : "none";
    size_t count = argc > 2 ? strtoul(argv[2], NULL, 10) : 0;
    bool is_each = argc > 3;
    if (strstr("element rank predecessor successor", name)) ask_sorted(name, count, is_each);
    else if (strstr("symbol count position quantile", name)) ask_symbols(name, count, is_each);
    else if (strstr("least", name)) ask_values(name, count, is_each);
    else ask_bits(name, count, is_each);
    printf("%llu\n", (unsigned long long)sum);
    return 0;
}
