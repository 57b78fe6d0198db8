/* Memory against pages that may not be touched, for tests/c: the sanitizers do not see the archive. */
#ifndef WALLED_H
#define WALLED_H

#include <stdint.h>
#include <stdio.h>
#include <stdlib.h>
#include <sys/mman.h>
#include <unistd.h>

/* The end of so many bytes, with a page behind it and one before it that may not be touched. */
static uint8_t *walled(size_t size) {
    size_t page = (size_t)sysconf(_SC_PAGESIZE), whole = (size + page - 1) / page * page;
    uint8_t *all = mmap(NULL, whole + 2 * page, PROT_NONE, MAP_PRIVATE | MAP_ANONYMOUS, -1, 0);
    if (all == MAP_FAILED || mprotect(all + page, whole, PROT_READ | PROT_WRITE) != 0) {
        perror("mmap");
        exit(2);
    }
    return all + page + whole;
}

#endif /* WALLED_H */
