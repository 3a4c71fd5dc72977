/* A library of another version than the examples were written for, to see what they say of it: it tells the number OTHER, and refuses whatever it is given with
 * the number REFUSAL at line 1. */
#include "damindex.h"

uint32_t damindex_version(void) { return OTHER; }

size_t damindex_figures(const uint8_t *input, size_t input_length, uint64_t *sheet, size_t sheet_length, uint64_t *figures,
                        size_t figures_length) {
    (void)input, (void)input_length, (void)sheet, (void)sheet_length;
    for (size_t place = 0; place < figures_length; place++) figures[place] = place == DAMINDEX_NUMBER ? REFUSAL : place == DAMINDEX_LINE;
    return figures_length;
}

size_t damindex_rows(const uint8_t *input, size_t input_length, uint64_t *rows, size_t rows_length) {
    (void)input, (void)input_length, (void)rows, (void)rows_length;
    return 0;
}

size_t damindex_required(const uint8_t *input, size_t input_length, uint64_t *numbers, size_t numbers_length) {
    (void)input, (void)input_length, (void)numbers, (void)numbers_length;
    return 0;
}

size_t damindex_groups(const uint8_t *input, size_t input_length, uint64_t *numbers, size_t numbers_length) {
    (void)input, (void)input_length, (void)numbers, (void)numbers_length;
    return 0;
}

size_t damindex_report(const uint8_t *input, size_t input_length, uint8_t *out, size_t out_length) {
    (void)input, (void)input_length, (void)out, (void)out_length;
    return 0;
}
