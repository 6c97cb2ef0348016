/* The calls of include/bays.h on the worked garage: 16 bays, of which 1, 2, 3, 8, 9, 10 and 11 are free, and 2, 5, 9, 10 and 14 have a charger.
 * rust/check compiles and runs it, and compares what it prints with batches.stdout. */
#include "bays.h"

#include <stdio.h>

#define COUNT(memory) (sizeof(memory) / sizeof(memory)[0])

static void print_numbers(const char *name, const uint32_t *numbers, size_t count)
{
    printf("%s:", name);
    for (size_t k = 0; k < count; k++) {
        printf(" %lu", (unsigned long)numbers[k]);
    }
    printf("\n");
}

static void print_fault(const char *name, BaysFault fault)
{
    const uint32_t numbers[3] = {fault.number, fault.part, fault.index};
    print_numbers(name, numbers, COUNT(numbers));
}

int main(void)
{
    /* The free bays as bits, and the bays with a charger as a list. */
    const uint8_t free_bits[2] = {135, 7};
    const BaysTold free_told = {BAYS_PLAIN, 16, 0, COUNT(free_bits), 0, 0};
    const uint16_t charging[5] = {2, 5, 9, 10, 14};
    const BaysTold charging_told = {BAYS_LIST, 16, 0, COUNT(charging), 0, 0};
    print_fault("open the free bays", bays_open(&free_told, free_bits, COUNT(free_bits), bays_no_numbers, 0));

    /* A plain index of 10 bays has no bit 11. */
    const BaysTold short_told = {BAYS_PLAIN, 10, 0, COUNT(free_bits), 0, 0};
    print_fault("open them as 10 bays", bays_open(&short_told, free_bits, COUNT(free_bits), bays_no_numbers, 0));

    const uint32_t places[4] = {4, 8, 12, 16};
    uint32_t answers[4] = {0};
    print_fault("ask", bays_ask(&free_told, free_bits, COUNT(free_bits), bays_no_numbers, 0, BAYS_NEXT, BAYS_MEMBERS, places, COUNT(places),
                                answers, COUNT(answers)));
    print_numbers("next free bay", answers, COUNT(answers));
    bays_ask(&free_told, free_bits, COUNT(free_bits), bays_no_numbers, 0, BAYS_RANK, BAYS_OTHERS, places, COUNT(places), answers,
             COUNT(answers));
    print_numbers("taken bays up to", answers, COUNT(answers));

    /* The free bays again, in blocks of two. */
    BaysTold blocks_told;
    uint8_t blocks[8] = {0};
    uint16_t no_list[1] = {0};
    print_fault("fill", bays_fill(&free_told, free_bits, COUNT(free_bits), bays_no_numbers, 0, BAYS_ZOMBIT, 2, &blocks_told, blocks,
                                  COUNT(blocks), no_list, 0));
    printf("blocks: %u %u %u in %lu, %lu and %lu bytes\n", blocks[0], blocks[1], blocks[2], (unsigned long)blocks_told.first,
           (unsigned long)blocks_told.second, (unsigned long)blocks_told.third);

    /* A round over the free bays in blocks and the bays with a charger. */
    uint32_t sheet[16] = {0};
    BaysReport report;
    print_fault("sheet", bays_sheet(&blocks_told, blocks, COUNT(blocks), bays_no_numbers, 0, &charging_told, bays_no_bytes, 0, charging,
                                    COUNT(charging), 1, sheet, COUNT(sheet), &report));
    print_numbers("free bays with a charger", sheet, report.handed);
    printf("stretches: %lu, place %lu\n", (unsigned long)report.stretches, (unsigned long)report.place);

    bays_nearest(&blocks_told, blocks, COUNT(blocks), bays_no_numbers, 0, &charging_told, bays_no_bytes, 0, charging, COUNT(charging), places,
                 COUNT(places), answers, COUNT(answers));
    print_numbers("nearest free bay", answers, COUNT(answers));

    const uint32_t firsts[3] = {1, 4, 9};
    const uint32_t lasts[3] = {16, 7, 20};
    uint32_t counts[3] = {0};
    bays_count(&blocks_told, blocks, COUNT(blocks), bays_no_numbers, 0, &charging_told, bays_no_bytes, 0, charging, COUNT(charging), firsts,
               COUNT(firsts), lasts, COUNT(lasts), counts, COUNT(counts));
    print_numbers("free bays from 1 to 16, from 4 to 7, from 9 to 20", counts, COUNT(counts));
    return 0;
}
