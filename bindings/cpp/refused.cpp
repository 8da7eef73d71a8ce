// Calls that don't compile, one for each REFUSED: iterators and ranges over items that are no numbers or bits, and []
// of a text and of an inverted index.
#include "vers.hpp"

#include <string>
#include <vector>

int main() {
    const std::vector<std::uint32_t> unsigned_numbers = {1, 2};
    const std::vector<std::int64_t> signed_numbers = {1, -1};
    const std::vector<double> fractions = {1.5, 2.7};
    const std::string text = "0110";
    (void)vers::EliasFanoVec::from(unsigned_numbers.begin(), unsigned_numbers.end());
    (void)vers::RsVec::from_bits(signed_numbers.begin(), signed_numbers.end());
    (void)vers::TextIndex::from(unsigned_numbers, 2)->count(unsigned_numbers);
    (void)text.size();
    (void)fractions.size();
#if REFUSED == 1
    (void)vers::EliasFanoVec::from(signed_numbers.begin(), signed_numbers.end());
#elif REFUSED == 2
    (void)vers::EliasFanoVec::from(fractions.begin(), fractions.end());
#elif REFUSED == 3
    (void)vers::SparseRSVec::from(signed_numbers.begin(), signed_numbers.end(), 9);
#elif REFUSED == 4
    (void)vers::WaveletMatrix::from(signed_numbers.begin(), signed_numbers.end(), 8);
#elif REFUSED == 5
    (void)vers::FastRmq::from(fractions.begin(), fractions.end());
#elif REFUSED == 6
    (void)vers::BinaryRmq::from(signed_numbers.begin(), signed_numbers.end());
#elif REFUSED == 7
    (void)vers::RsVec::from_bits(fractions.begin(), fractions.end());
#elif REFUSED == 8
    (void)vers::BpTree::from_bits(fractions.begin(), fractions.end());
#elif REFUSED == 9
    (void)vers::BitVec::from_bits(fractions.begin(), fractions.end());
#elif REFUSED == 10
    (void)vers::RsVec::from_bits(text.begin(), text.end());
#elif REFUSED == 11
    (void)vers::EliasFanoVec::from(signed_numbers);
#elif REFUSED == 12
    (void)vers::TextIndex::from(fractions, 3);
#elif REFUSED == 13
    (void)vers::Postings::from(unsigned_numbers, signed_numbers);
#elif REFUSED == 14
    (void)vers::BitVec::from_bits(text);
#elif REFUSED == 15
    (void)vers::RsVec::from_words(unsigned_numbers, 64);
#elif REFUSED == 16
    (void)vers::BpTree::from_words(unsigned_numbers.begin(), unsigned_numbers.end(), 64);
#elif REFUSED == 17
    (void)vers::RsVec::from_bits(text.data(), text.size());
#elif REFUSED == 18
    (void)vers::TextIndex::from(unsigned_numbers, 2)->count(signed_numbers);
#elif REFUSED == 19
    (void)vers::TextIndex::from(unsigned_numbers, 2)->places(fractions);
#elif REFUSED == 20
    (void)(*vers::TextIndex::from(unsigned_numbers, 2))[0];
#elif REFUSED == 21
    (void)(*vers::InvertedIndex::from(3, 3, unsigned_numbers, unsigned_numbers))[0];
#elif REFUSED == 22
    vers::Status status;
    (void)vers::RsVec::from_words(unsigned_numbers, 64, status);
#endif
}
