/* An allocator in front of the system's, to be loaded by LD_PRELOAD: it counts what a program allocates, and refuses one allocation or all from one on.

   REFUSE=N refuses the Nth allocation, and REFUSE_ALL=1 with it all behind that one, too. At the end the number of allocations is written to the file COUNTED, where that
   is set. An allocation is a call of one of the functions below; of realloc each, since each may be refused. */
#include <fcntl.h>
#include <stdio.h>
#include <stdlib.h>
#include <unistd.h>

extern void *__libc_malloc(size_t size);
extern void *__libc_calloc(size_t count, size_t size);
extern void *__libc_realloc(void *block, size_t size);
extern void *__libc_memalign(size_t alignment, size_t size);

static unsigned long made, refused;
static int refuses_all, knows;

static int refuses(void) {
    if (!knows) {
        const char *number = getenv("REFUSE");
        refused = number ? strtoul(number, NULL, 10) : 0;
        refuses_all = getenv("REFUSE_ALL") != NULL;
        knows = 1;
    }
    made++;
    return refused != 0 && (refuses_all ? made >= refused : made == refused);
}

void *malloc(size_t size) { return refuses() ? NULL : __libc_malloc(size); }

void *calloc(size_t count, size_t size) { return refuses() ? NULL : __libc_calloc(count, size); }

void *realloc(void *block, size_t size) { return refuses() ? NULL : __libc_realloc(block, size); }

void *memalign(size_t alignment, size_t size) { return refuses() ? NULL : __libc_memalign(alignment, size); }

void *aligned_alloc(size_t alignment, size_t size) { return memalign(alignment, size); }

__attribute__((destructor)) static void tell(void) {
    const char *path = getenv("COUNTED");
    char number[32];
    int length = snprintf(number, sizeof number, "%lu\n", made);
    int file = path ? open(path, O_WRONLY | O_CREAT | O_TRUNC, 0600) : -1;
    if (file >= 0 && write(file, number, length) == length)
        close(file);
}
