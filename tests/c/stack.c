/* The whole of examples/collector.c on a stack of 24 KiB, the smallest collector's, with a page below it that may not be touched.
 * Prints how much of it was used, printf's part included; or ends with a signal where it doesn't suffice. */
#define _GNU_SOURCE
#define main collector
#include "../../examples/collector.c"
#undef main

#include <sys/mman.h>
#include <ucontext.h>
#include <unistd.h>

#define STACK 24576
#define PAINT 0xA5

static ucontext_t here, there;
static int status = 1;
static size_t free_bytes;

static void run(void) {
    status = collector();
}

int main(void) {
    size_t page = (size_t)sysconf(_SC_PAGESIZE), whole = (STACK + page - 1) / page * page;
    uint8_t *all = mmap(NULL, page + whole, PROT_READ | PROT_WRITE, MAP_PRIVATE | MAP_ANONYMOUS, -1, 0), *stack = all + page;
    if (all == MAP_FAILED || mprotect(all, page, PROT_NONE) != 0 || getcontext(&there) != 0)
        return 2;
    memset(stack, PAINT, whole);
    there.uc_stack.ss_sp = stack;
    there.uc_stack.ss_size = STACK;
    there.uc_link = &here;
    makecontext(&there, run, 0);
    if (swapcontext(&here, &there) != 0)
        return 2;
    while (free_bytes < STACK && stack[free_bytes] == PAINT)
        free_bytes++;
    printf("%zu bytes of stack used, of %d\n", STACK - free_bytes, STACK);
    return status;
}
