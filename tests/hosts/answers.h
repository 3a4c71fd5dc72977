/* What the library answers to a file by its five functions, kept whole and told as `asking.h` has it. */
#ifndef ANSWERS_H
#define ANSWERS_H

#include "asking.h"
#include "damindex.h"

struct file {
    uint8_t *bytes;
    size_t length;
};

struct answer {
    size_t returned, length, numbers, fractions, ends;
    uint64_t figures[DAMINDEX_FIGURES], sheet[DAMINDEX_LONGEST_SHEET], rows[DAMINDEX_LONGEST_ROWS];
    uint64_t required[DAMINDEX_REQUIRED_NUMBERS], groups[DAMINDEX_LONGEST_GROUPS];
    uint8_t report[DAMINDEX_LONGEST_REPORT];
};

static void take_figures(const struct file *file, struct answer *answer) {
    answer->returned = damindex_figures(file->bytes, file->length, answer->sheet, DAMINDEX_LONGEST_SHEET, answer->figures, DAMINDEX_FIGURES);
}

static void take_rows(const struct file *file, struct answer *answer) {
    answer->numbers = damindex_rows(file->bytes, file->length, answer->rows, DAMINDEX_LONGEST_ROWS);
}

static void take_required(const struct file *file, struct answer *answer) {
    answer->fractions = damindex_required(file->bytes, file->length, answer->required, DAMINDEX_REQUIRED_NUMBERS);
}

static void take_groups(const struct file *file, struct answer *answer) {
    answer->ends = damindex_groups(file->bytes, file->length, answer->groups, DAMINDEX_LONGEST_GROUPS);
}

static void take_report(const struct file *file, struct answer *answer) {
    answer->length = damindex_report(file->bytes, file->length, answer->report, sizeof answer->report);
}

/* What was returned, and what stands behind it in front of what was lent. */
static void tell_lent(size_t count, const uint64_t *numbers) {
    tell(count);
    for (size_t i = 0; i < count; i++) tell(numbers[i]);
}

/* What damindex_figures returned, the twelve figures and each row's share; what damindex_rows, damindex_required and damindex_groups returned, each with its
 * numbers; what damindex_report returned and the text. */
static void tell_answer(const struct answer *answer) {
    tell(answer->returned);
    for (size_t i = 0; i < DAMINDEX_FIGURES; i++) tell(answer->figures[i]);
    for (size_t i = 0; i < 2 * answer->figures[DAMINDEX_ROWS]; i++) tell(answer->sheet[i]);
    tell_lent(answer->numbers, answer->rows);
    tell_lent(answer->fractions, answer->required);
    tell_lent(answer->ends, answer->groups);
    tell(answer->length);
    fwrite(answer->report, 1, answer->length, stdout);
}

#endif
