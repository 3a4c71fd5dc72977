/* Calls the library from many threads at once, each with a stack of 64 kilobytes, and tells what each of them was answered.
 *
 * Asked: how many threads, how many files, and the files, as `asking.h` has them. The threads start together, each at another file, and go
 * through all files three times; where a later answer is not the first one, the program ends with status 3, where the marks among the rows'
 * numbers are not those of the text, with status 4, and where their shares are not those of the sheet or what they add does not come to the partial
 * indices, with status 5. Told, thread by thread and file by file: the answer, as `answers.h` has it. The files are lent
 * to all threads; what a call writes is its own. */
#define _POSIX_C_SOURCE 200809L
#include "answers.h"
#include <pthread.h>
#include <string.h>

enum { STACK = 65536, TURNS = 3 };
enum { FIRST_LINE = 69, ROW_LINE = 25, MARKS = 18 }; /* of the text, with each line feed: the lengths of its lines, and where a row's marks begin */

struct worker {
    pthread_t thread;
    size_t first;
    struct answer *answers, *later;
};

static struct file *files;
static size_t file_count;
static pthread_barrier_t start;

static void *room(size_t count, size_t size) {
    void *array = calloc(count ? count : 1, size);
    if (!array) exit(2);
    return array;
}

static void take_answer(const struct file *file, struct answer *answer) {
    take_figures(file, answer);
    take_rows(file, answer);
    take_required(file, answer);
    take_groups(file, answer);
    take_report(file, answer);
}

/* Where the six numbers of a draught begin, of those of a row. */
static const size_t draughts[] = {DAMINDEX_ROW_DEEPEST, DAMINDEX_ROW_PARTIAL, DAMINDEX_ROW_LIGHT};

/* Whether the text has the marks of the rows' numbers: a byte below 16, in two digits, at each draught. */
static int same_marks(const struct answer *answer) {
    size_t rows = answer->numbers / DAMINDEX_ROW_NUMBERS;
    if (rows != answer->figures[DAMINDEX_ROWS] || answer->length != (answer->figures[DAMINDEX_NUMBER] ? 9 : FIRST_LINE + ROW_LINE * rows)) return 0;
    for (size_t at = 0; at < 3 * rows; at++) {
        const uint8_t *digits = answer->report + FIRST_LINE + ROW_LINE * (at / 3) + MARKS + 2 * (at % 3);
        uint64_t marks = answer->rows[DAMINDEX_ROW_NUMBERS * (at / 3) + draughts[at % 3] + DAMINDEX_MARKS];
        if (marks > 15 || digits[0] != '0' || digits[1] != "0123456789abcdef"[marks]) return 0;
    }
    return 1;
}

/* Whether the rows' numbers agree with the figures: their shares with the sheet, and the sums of what they add with each partial index, end by end. */
static int same_figures(const struct answer *answer) {
    uint64_t sums[6] = {0};
    for (size_t row = 0; row < answer->numbers / DAMINDEX_ROW_NUMBERS; row++) {
        const uint64_t *numbers = answer->rows + DAMINDEX_ROW_NUMBERS * row;
        if (numbers[DAMINDEX_ROW_SHARE_LOWER] != answer->sheet[2 * row] || numbers[DAMINDEX_ROW_SHARE_UPPER] != answer->sheet[2 * row + 1]) return 0;
        for (size_t i = 0; i < 6; i++) sums[i] += numbers[draughts[i / 2] + DAMINDEX_ADDS_LOWER + i % 2];
    }
    return memcmp(sums, answer->figures + DAMINDEX_AS_LOWER, sizeof sums) == 0;
}

static void *work(void *given) {
    struct worker *worker = given;
    pthread_barrier_wait(&start);
    for (size_t turn = 0; turn < TURNS * file_count; turn++) {
        size_t place = (worker->first + turn) % file_count;
        if (turn < file_count) {
            take_answer(&files[place], &worker->answers[place]);
            if (!same_marks(&worker->answers[place])) exit(4);
            if (!same_figures(&worker->answers[place])) exit(5);
        } else {
            memset(worker->later, 0, sizeof *worker->later);
            take_answer(&files[place], worker->later);
            if (memcmp(worker->later, &worker->answers[place], sizeof *worker->later) != 0) exit(3);
        }
    }
    return NULL;
}

int main(void) {
    size_t count = (size_t)ask();
    file_count = (size_t)ask();
    files = room(file_count, sizeof *files);
    for (size_t i = 0; i < file_count; i++) files[i].bytes = ask_file(&files[i].length);

    pthread_attr_t small;
    struct worker *workers = room(count, sizeof *workers);
    if (pthread_attr_init(&small) || pthread_attr_setstacksize(&small, STACK)) return 2;
    if (pthread_barrier_init(&start, NULL, (unsigned)count)) return 2;
    for (size_t i = 0; i < count; i++) {
        workers[i].first = i * file_count / count;
        workers[i].answers = room(file_count, sizeof *workers[i].answers);
        workers[i].later = room(1, sizeof *workers[i].later);
        if (pthread_create(&workers[i].thread, &small, work, &workers[i])) return 2;
    }
    for (size_t i = 0; i < count; i++)
        if (pthread_join(workers[i].thread, NULL)) return 2;
    for (size_t i = 0; i < count; i++)
        for (size_t place = 0; place < file_count; place++) tell_answer(&workers[i].answers[place]);
    return 0;
}
