/* Loaded before a program's C library, it counts how often the program lets other threads run, and
 * writes the number so far into the file that TOLD names. */
#include <fcntl.h>
#include <stdatomic.h>
#include <stdio.h>
#include <stdlib.h>
#include <unistd.h>

static atomic_ullong yields;

int sched_yield(void) {
    char text[32];
    const char *told = getenv("TOLD");
    int file = told ? open(told, O_WRONLY | O_CREAT, 0600) : -1;
    int length = snprintf(text, sizeof text, "%llu\n", atomic_fetch_add(&yields, 1) + 1);
    if (file < 0 || pwrite(file, text, (size_t)length, 0) != length || close(file) != 0) abort();
    return 0;
}
