/* Which of some prices are on sale, and the cheapest of a range. */
#include <stdio.h>
#include <vers.h>

int main(void) {
    const uint64_t on_sale = 0xb5; /* 1, 0, 1, 0, 1, 1, 0, 1: the lowest bit comes first */
    const uint64_t prices[] = {30, 12, 45, 12, 80, 7, 61, 25};
    vers_bits sale = {0};
    vers_fast_rmq cheapest = {0};
    uint32_t status = vers_bits_of(&sale, &on_sale, 1, 8);
    if (status == VERS_DONE) status = vers_fast_rmq_of(&cheapest, prices, 8);
    if (status != VERS_DONE) {
        fprintf(stderr, "vers: %s\n", vers_status_text(status));
        vers_bits_free(&sale);
        return 1;
    }
    uint64_t ranks[] = {0, 4, 8};
    vers_bits_each(&sale, VERS_RANK1, ranks, 3, 0);
    printf("on sale: %llu of 4, %llu of 8\n", (unsigned long long)ranks[1], (unsigned long long)ranks[2]);
    vers_answer third = vers_bits_select1(&sale, 2);
    vers_answer least = vers_fast_rmq_range_min(&cheapest, 0, 4);
    printf("the third one on sale: %llu\n", (unsigned long long)third.value);
    printf("the first least price of 0 to 4: %llu\n", (unsigned long long)least.value);
    if (vers_fast_rmq_range_min(&cheapest, 3, 8).status == VERS_ABSENT) printf("3 to 8 is no range\n");
    vers_bits_free(&sale);
    vers_fast_rmq_free(&cheapest);
    return 0;
}
