// sdsl-lite for the driver: a set as a bit_vector, and as an sd_vector, asked at many places in one call.
#include <cstddef>
#include <cstdint>
#include <sdsl/bit_vectors.hpp>

namespace {

// A set as a vector of bits, where bay i is bit i - 1, with what answers rank and select.
template <class Bits, class Rank, class Select>
struct Set {
    Bits bits;
    Rank rank;
    Select select;
    uint32_t last;
    uint32_t count;

    explicit Set(const sdsl::bit_vector& from)
        : bits(from), rank(&bits), select(&bits), last(from.size()), count(rank(from.size())) {}
    Set(const Set&) = delete;

    uint32_t at(uint32_t k) const { return k == 0 || k > count ? 0 : select(k) + 1; }

    void ask(uint32_t question, const uint32_t* places, size_t n, uint32_t* answers) const {
        switch (question) {
            case 0:
                for (size_t j = 0; j < n; j++) answers[j] = bits[places[j] - 1];
                break;
            case 1:
                for (size_t j = 0; j < n; j++) answers[j] = at(rank(places[j] - 1) + 1);
                break;
            case 2:
                for (size_t j = 0; j < n; j++) answers[j] = at(rank(places[j]));
                break;
            case 3:
                for (size_t j = 0; j < n; j++) answers[j] = rank(places[j]);
                break;
            default:
                for (size_t j = 0; j < n; j++) answers[j] = at(places[j]);
        }
    }

    void nearest(const uint32_t* places, size_t n, uint32_t* answers) const {
        for (size_t j = 0; j < n; j++) {
            const uint32_t place = places[j], upto = rank(place), below = at(upto);
            if (below == place) {
                answers[j] = place;
                continue;
            }
            const uint32_t above = at(upto + 1);
            answers[j] = below == 0 || (above != 0 && above - place < place - below) ? above : below;
        }
    }

    void counts(const uint32_t* firsts, const uint32_t* lasts, size_t n, uint32_t* answers) const {
        for (size_t j = 0; j < n; j++) answers[j] = rank(lasts[j]) - rank(firsts[j] - 1);
    }
};

using Plain = Set<sdsl::bit_vector, sdsl::rank_support_v<1>, sdsl::select_support_mcl<1>>;
using Sparse = Set<sdsl::sd_vector<>, sdsl::rank_support_sd<1>, sdsl::select_support_sd<1>>;

sdsl::bit_vector bits_of(uint32_t last, const uint32_t* members, size_t n) {
    sdsl::bit_vector bits(last, 0);
    for (size_t j = 0; j < n; j++) bits[members[j] - 1] = 1;
    return bits;
}

}  // namespace

#define EXPORTED(Set, NAME)                                                                                              \
    Set* NAME##_new(uint32_t last, const uint32_t* members, size_t n) { return new Set(bits_of(last, members, n)); }     \
    void NAME##_free(Set* set) { delete set; }                                                                           \
    void NAME##_ask(const Set* set, uint32_t question, const uint32_t* places, size_t n, uint32_t* answers) {            \
        set->ask(question, places, n, answers);                                                                          \
    }                                                                                                                    \
    void NAME##_nearest(const Set* set, const uint32_t* places, size_t n, uint32_t* answers) {                           \
        set->nearest(places, n, answers);                                                                                \
    }                                                                                                                    \
    void NAME##_count(const Set* set, const uint32_t* firsts, const uint32_t* lasts, size_t n, uint32_t* answers) {      \
        set->counts(firsts, lasts, n, answers);                                                                          \
    }

extern "C" {
EXPORTED(Plain, bit_vector)
EXPORTED(Sparse, sd_vector)
}
