// The words of a text as symbols, and the elements of an ascending list near a number.
#include <iostream>
#include <vers.hpp>

int main() {
    const std::vector<std::uint64_t> symbols = {3, 1, 4, 1, 5, 1, 2, 6};
    auto text = vers::WaveletMatrix::from(symbols, 3);
    auto squares = vers::EliasFanoVec::from({1, 4, 9, 16, 25});
    if (!text || !squares) return 1;
    std::cout << "ones before position 6: " << *text->rank(6, 1) << "\n";
    std::cout << "the third least of positions 2 to 7: " << *text->quantile(2, 8, 2) << "\n";
    std::cout << "the next square from 10 on: " << *squares->successor(10) << "\n";
    if (!squares->successor(26)) std::cout << "none from 26 on\n";
    std::uint64_t near[] = {0, 5, 20};
    squares->each(VERS_PREDECESSOR, near, 3);
    std::cout << "not above 5: " << near[1] << ", not above 20: " << near[2] << "\n";
    if (near[0] == vers::none) std::cout << "none not above 0\n";
}
