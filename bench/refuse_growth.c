/* Refuses calls of malloc and realloc of the program that it is loaded before.
   REFUSE=K refuses the Kth of them, REFUSE_FROM=K the Kth and all after it, counted from 1.
   COUNT_TO=FILE keeps their number in the first 8 bytes of the file. */
#include <fcntl.h>
#include <stdatomic.h>
#include <stdlib.h>
#include <sys/mman.h>
#include <unistd.h>

static atomic_ulong here, *calls = &here;
static unsigned long only, from;

__attribute__((constructor)) static void begin(void) {
    only = getenv("REFUSE") ? strtoul(getenv("REFUSE"), 0, 10) : 0;
    from = getenv("REFUSE_FROM") ? strtoul(getenv("REFUSE_FROM"), 0, 10) : 0;
    int file = getenv("COUNT_TO") ? open(getenv("COUNT_TO"), O_RDWR | O_CREAT, 0600) : -1;
    if (file >= 0 && ftruncate(file, sizeof here) == 0)
        calls = mmap(0, sizeof here, PROT_READ | PROT_WRITE, MAP_SHARED, file, 0);
    *calls = 0;
}

static int refused(void) {
    unsigned long call = ++*calls;
    return call == only || (from && call >= from);
}

extern void *__libc_malloc(size_t);
extern void *__libc_realloc(void *, size_t);

void *malloc(size_t size) { return refused() ? 0 : __libc_malloc(size); }
void *realloc(void *place, size_t size) { return refused() ? 0 : __libc_realloc(place, size); }
