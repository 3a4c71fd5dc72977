/* Calls the library on a painted stack of 64 kilobytes, and tells what it was answered and how much of the stack a call took.
 *
 * Asked: how many files, and the files, as `asking.h` has them. Each call runs in a thread of its own, on the same stack painted anew; below the
 * stack lies a page that nobody may touch. What is lent lies elsewhere, so that the stack is the call's alone. Told, file by file: the answer, as
 * `answers.h` has it. On standard error: the most bytes that a call of damindex_figures, damindex_rows, damindex_required, damindex_groups and
 * damindex_report took, when each is made a second time. */
#define _DEFAULT_SOURCE
#include "answers.h"
#include <pthread.h>
#include <string.h>
#include <sys/mman.h>

enum { STACK = 65536, GUARD = 65536, PAINT = 0xA5 };

typedef void Call(const struct file *file, struct answer *answer);

static Call *const calls[] = {take_figures, take_rows, take_required, take_groups, take_report};
enum { CALLS = sizeof calls / sizeof *calls };

static uint8_t *stack;
static struct file file;
static struct answer answer;
static uintptr_t begun; /* where the stack stood when the call was made */

static void *make_call(void *given) {
    volatile uint8_t here = 0;
    begun = (uintptr_t)&here;
    (*(Call *const *)given)(&file, &answer);
    return NULL;
}

/* How many bytes of the stack a call takes: from where it begins down to the last that is no longer as it was painted. */
static size_t taken(Call *const *call, const pthread_attr_t *painted) {
    pthread_t thread;
    uint8_t *lowest = stack;
    memset(stack, PAINT, STACK);
    if (pthread_create(&thread, painted, make_call, (void *)call) || pthread_join(thread, NULL)) exit(2);
    while (*lowest == PAINT) lowest++;
    return begun - (uintptr_t)lowest;
}

int main(void) {
    pthread_attr_t painted;
    size_t most[CALLS] = {0};
    uint8_t *memory = mmap(NULL, GUARD + STACK, PROT_READ | PROT_WRITE, MAP_PRIVATE | MAP_ANONYMOUS, -1, 0);
    if (memory == MAP_FAILED || mprotect(memory, GUARD, PROT_NONE)) return 2;
    stack = memory + GUARD;
    if (pthread_attr_init(&painted) || pthread_attr_setstack(&painted, stack, STACK)) return 2;
    for (uint64_t files = ask(); files > 0; files--) {
        file.bytes = ask_file(&file.length);
        memset(&answer, 0, sizeof answer);
        for (size_t i = 0; i < CALLS; i++) {
            taken(&calls[i], &painted); /* the first call of all may have the loader look for memcpy and memset, on the same stack */
            size_t bytes = taken(&calls[i], &painted);
            if (bytes > most[i]) most[i] = bytes;
        }
        tell_answer(&answer);
        free(file.bytes);
    }
    for (size_t i = 0; i < CALLS; i++) fprintf(stderr, "%zu\n", most[i]);
    return 0;
}
