// CRoaring for the driver: a set as a bitmap, asked at many places in one call.
#include <cstddef>
#include <cstdint>
#include <roaring/roaring.h>

namespace {

uint32_t at(const roaring_bitmap_t* set, uint32_t k) {
    uint32_t bay = 0;
    return k != 0 && roaring_bitmap_select(set, k - 1, &bay) ? bay : 0;
}

uint32_t next(roaring_uint32_iterator_t* from, uint32_t place) {
    return roaring_move_uint32_iterator_equalorlarger(from, place) ? from->current_value : 0;
}

// The place itself, or one back from the first member behind it; behind the last one that is the last.
uint32_t previous(roaring_uint32_iterator_t* from, uint32_t place) {
    if (next(from, place) == place) return place;
    return roaring_previous_uint32_iterator(from) ? from->current_value : 0;
}

}  // namespace

extern "C" {

roaring_bitmap_t* roaring_new(const uint32_t* members, size_t n) {
    roaring_bitmap_t* set = roaring_bitmap_of_ptr(n, members);
    roaring_bitmap_run_optimize(set);
    return set;
}

void roaring_free(roaring_bitmap_t* set) { roaring_bitmap_free(set); }

void roaring_ask(const roaring_bitmap_t* set, uint32_t question, const uint32_t* places, size_t n, uint32_t* answers) {
    roaring_uint32_iterator_t from;
    roaring_init_iterator(set, &from);
    switch (question) {
        case 0:
            for (size_t j = 0; j < n; j++) answers[j] = roaring_bitmap_contains(set, places[j]);
            break;
        case 1:
            for (size_t j = 0; j < n; j++) answers[j] = next(&from, places[j]);
            break;
        case 2:
            for (size_t j = 0; j < n; j++) answers[j] = previous(&from, places[j]);
            break;
        case 3:
            for (size_t j = 0; j < n; j++) answers[j] = roaring_bitmap_rank(set, places[j]);
            break;
        default:
            for (size_t j = 0; j < n; j++) answers[j] = at(set, places[j]);
    }
}

void roaring_nearest(const roaring_bitmap_t* set, const uint32_t* places, size_t n, uint32_t* answers) {
    roaring_uint32_iterator_t from;
    roaring_init_iterator(set, &from);
    for (size_t j = 0; j < n; j++) {
        const uint32_t place = places[j], above = next(&from, place);
        if (above == place) {
            answers[j] = place;
            continue;
        }
        const uint32_t below = previous(&from, place);
        answers[j] = below == 0 || (above != 0 && above - place < place - below) ? above : below;
    }
}

void roaring_count(const roaring_bitmap_t* set, const uint32_t* firsts, const uint32_t* lasts, size_t n, uint32_t* answers) {
    for (size_t j = 0; j < n; j++) answers[j] = roaring_bitmap_range_cardinality(set, firsts[j], uint64_t{lasts[j]} + 1);
}

// Writes the common members to memory that has room for them, and tells how many there are.
uint32_t roaring_list(const roaring_bitmap_t* free, const roaring_bitmap_t* cls, uint32_t* out) {
    roaring_bitmap_t* common = roaring_bitmap_and(free, cls);
    roaring_bitmap_to_uint32_array(common, out);
    const uint32_t n = roaring_bitmap_get_cardinality(common);
    roaring_bitmap_free(common);
    return n;
}

}
