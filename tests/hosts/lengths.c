/* Calls the library on lent slices of any length, each in the middle of a marked array, and tells the arrays whole, margins and all.
 *
 * A question is a letter and what `asking.h` says of its numbers and files:
 *   f sheet figures file   -> what is returned, the array around the sheet, the array around the figures
 *   r out file             -> what is returned, the array around the buffer, byte by byte
 *   n rows file            -> what is returned, the array around the rows' numbers
 *   q numbers file         -> what is returned, the array around the numbers of R and of the mark
 *   g numbers file         -> what is returned, the array around the groups' ends
 *   v                      -> the library's version, the header's
 *   c                      -> the header's sizes, places and marks, in its order
 * All of it runs on a stack of 64 kilobytes, which the header says is enough. */
#include "asking.h"
#include "damindex.h"
#include <pthread.h>
#include <string.h>

enum { MARGIN = 8, STACK = 65536 };

/* Room for so many numbers and the margins; each place has a mark of its own. */
static uint64_t *marked_numbers(size_t length) {
    uint64_t *array = malloc((length + 2 * MARGIN) * sizeof *array);
    if (!array) exit(2);
    for (size_t i = 0; i < length + 2 * MARGIN; i++) array[i] = 0xA5A5A5A500000000 + i;
    return array;
}

/* The same for bytes: none that is a digit or a line feed. */
static uint8_t *marked_bytes(size_t length) {
    uint8_t *array = malloc(length + 2 * MARGIN);
    if (!array) exit(2);
    for (size_t i = 0; i < length + 2 * MARGIN; i++) array[i] = (uint8_t)(128 | (i & 127));
    return array;
}

static void tell_numbers(uint64_t *array, size_t length) {
    for (size_t i = 0; i < length + 2 * MARGIN; i++) tell(array[i]);
    free(array);
}

/* A file and a copy of it, which is there to see that the file stays. */
static uint8_t *file, *copy;
static size_t file_length;

static void take_file(void) {
    file = ask_file(&file_length);
    copy = malloc(file_length + 1);
    if (!copy) exit(2);
    memcpy(copy, file, file_length);
}

static void drop_file(void) {
    if (memcmp(file, copy, file_length) != 0) exit(3);
    free(file);
    free(copy);
}

static void figures_of_a_file(void) {
    size_t sheet_length = (size_t)ask(), figures_length = (size_t)ask();
    uint64_t *sheet = marked_numbers(sheet_length), *figures = marked_numbers(figures_length);
    take_file();
    tell(damindex_figures(file, file_length, sheet + MARGIN, sheet_length, figures + MARGIN, figures_length));
    drop_file();
    tell_numbers(sheet, sheet_length);
    tell_numbers(figures, figures_length);
}

static void report_of_a_file(void) {
    size_t length = (size_t)ask();
    uint8_t *out = marked_bytes(length);
    take_file();
    tell(damindex_report(file, file_length, out + MARGIN, length));
    drop_file();
    fwrite(out, 1, length + 2 * MARGIN, stdout);
    free(out);
}

/* Those that lend one array of numbers. */
typedef size_t Entry(const uint8_t *input, size_t input_length, uint64_t *numbers, size_t numbers_length);

static void numbers_of_a_file(Entry *entry) {
    size_t length = (size_t)ask();
    uint64_t *numbers = marked_numbers(length);
    take_file();
    tell(entry(file, file_length, numbers + MARGIN, length));
    drop_file();
    tell_numbers(numbers, length);
}

static void constants(void) {
    static const uint64_t sizes[] = {DAMINDEX_LONGEST_INPUT, DAMINDEX_LONGEST_REPORT, DAMINDEX_LONGEST_SHEET, DAMINDEX_FIGURES,
                                     DAMINDEX_ROW_NUMBERS, DAMINDEX_LONGEST_ROWS, DAMINDEX_REQUIRED_NUMBERS, DAMINDEX_LONGEST_GROUPS};
    static const uint64_t places[] = {DAMINDEX_ROW_SHARE_LOWER, DAMINDEX_ROW_SHARE_UPPER, DAMINDEX_ROW_DEEPEST, DAMINDEX_ROW_PARTIAL, DAMINDEX_ROW_LIGHT,
                                      DAMINDEX_V, DAMINDEX_BOTTOM, DAMINDEX_TOP, DAMINDEX_MARKS, DAMINDEX_ADDS_LOWER, DAMINDEX_ADDS_UPPER,
                                      DAMINDEX_DRAUGHT_NUMBERS, DAMINDEX_WHOLE_V, DAMINDEX_WHOLE_SURVIVAL,
                                      DAMINDEX_R_NUMERATOR, DAMINDEX_R_DENOMINATOR, DAMINDEX_MARK_NUMERATOR, DAMINDEX_MARK_DENOMINATOR};
    static const uint64_t marks[] = {DAMINDEX_LOW_LEVER, DAMINDEX_LOW_RANGE, DAMINDEX_HIGH_HEEL, DAMINDEX_IMMERSED_OPENING};
    for (size_t i = 0; i < sizeof sizes / sizeof *sizes; i++) tell(sizes[i]);
    for (size_t i = 0; i < sizeof places / sizeof *places; i++) tell(places[i]);
    for (size_t i = 0; i < sizeof marks / sizeof *marks; i++) tell(marks[i]);
}

static void *answer_questions(void *none) {
    for (int question; (question = getchar()) != EOF;) {
        if (question == 'f') figures_of_a_file();
        else if (question == 'r') report_of_a_file();
        else if (question == 'n') numbers_of_a_file(damindex_rows);
        else if (question == 'q') numbers_of_a_file(damindex_required);
        else if (question == 'g') numbers_of_a_file(damindex_groups);
        else if (question == 'c') constants();
        else if (question == 'v') tell(damindex_version()), tell(DAMINDEX_VERSION);
        else exit(2);
    }
    return none;
}

int main(void) {
    pthread_attr_t small;
    pthread_t thread;
    if (pthread_attr_init(&small) || pthread_attr_setstacksize(&small, STACK)) return 2;
    if (pthread_create(&thread, &small, answer_questions, NULL) || pthread_join(thread, NULL)) return 2;
    return 0;
}
