/* Memory of which a look too far ends the program. */
#ifndef PAGES_H
#define PAGES_H

#include <stdint.h>
#include <stdio.h>
#include <stdlib.h>
#include <sys/mman.h>
#include <unistd.h>

/* Where pages end that can be written and read, with at least so many bytes, and pages begin that cannot. */
static uint8_t *boundary_of(size_t readable, size_t unreadable) {
    const size_t page = (size_t)sysconf(_SC_PAGESIZE);
    const size_t before = (readable + page - 1) / page * page;
    void *pages = mmap(NULL, before + unreadable, PROT_NONE, MAP_PRIVATE | MAP_ANONYMOUS, -1, 0);
    if (pages == MAP_FAILED || mprotect(pages, before, PROT_READ | PROT_WRITE) != 0) {
        perror("mmap");
        exit(EXIT_FAILURE);
    }
    return (uint8_t *)pages + before;
}

#endif
