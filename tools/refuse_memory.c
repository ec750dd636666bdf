/* Counts the growths of a program's memory, and refuses those that it is told to refuse.
 *
 * It is preloaded (LD_PRELOAD). REFUSE_FILE names a file of five numbers of 64 bits, shared with
 * who started the program: how many growths there were, the first that is refused, the first
 * behind it that isn't any more, how many were refused, and how many bytes one may have at most,
 * where that isn't 0. Growths are numbered from 1.
 *
 * A program that takes its memory from the C library has these calls of it replaced. One that has
 * an allocator linked in, as a checked one has, can't be preloaded so. For it REFUSE_PLACES names
 * places in the program, with commas between: the place of the first instruction, `push %rbp`, of a
 * function that answers 0 in %rax where there is no memory, as a hexadecimal number, and behind a
 * colon which of its arguments is the number of bytes, 1 or 3. A breakpoint is put there.
 */
#define _GNU_SOURCE
#include <errno.h>
#include <fcntl.h>
#include <link.h>
#include <signal.h>
#include <stddef.h>
#include <stdint.h>
#include <stdlib.h>
#include <sys/mman.h>
#include <sys/syscall.h>
#include <ucontext.h>
#include <unistd.h>

struct shared {
    _Atomic uint64_t growths, first, behind, refused, largest;
};

static struct shared *shared;

/* Counts a growth of so many bytes, and tells whether it is refused. */
static int refuses(size_t bytes)
{
    uint64_t number;
    int too_large;

    if (!shared)
        return 0;
    number = ++shared->growths;
    too_large = shared->largest && bytes > shared->largest;
    if (!too_large && (number < shared->first || number >= shared->behind))
        return 0;
    ++shared->refused;
    errno = ENOMEM;
    return 1;
}

/* ---- the calls of the C library */

extern void *__libc_malloc(size_t);
extern void *__libc_calloc(size_t, size_t);
extern void *__libc_realloc(void *, size_t);
extern void *__libc_memalign(size_t, size_t);

void *malloc(size_t size)
{
    return refuses(size) ? NULL : __libc_malloc(size);
}

void *calloc(size_t count, size_t size)
{
    return refuses(count * size) ? NULL : __libc_calloc(count, size);
}

void *realloc(void *old, size_t size)
{
    return refuses(size) ? NULL : __libc_realloc(old, size);
}

void *memalign(size_t to, size_t size)
{
    return refuses(size) ? NULL : __libc_memalign(to, size);
}

void *aligned_alloc(size_t to, size_t size)
{
    return refuses(size) ? NULL : __libc_memalign(to, size);
}

int posix_memalign(void **made, size_t to, size_t size)
{
    void *found = refuses(size) ? NULL : __libc_memalign(to, size);

    if (!found)
        return ENOMEM;
    *made = found;
    return 0;
}

void *mmap(void *place, size_t size, int protection, int flags, int file, off_t offset)
{
    if ((flags & MAP_ANONYMOUS) && refuses(size))
        return MAP_FAILED;
    return (void *)syscall(SYS_mmap, place, size, protection, flags, file, offset);
}

/* ---- breakpoints */

#if defined(__x86_64__)
static char nothing[64] __attribute__((aligned(64)));

/* The places, and the register of the argument that is the number of bytes. */
static struct { uintptr_t at; int bytes; } places[8];

/* Stands in the place of `push %rbp`, or of the whole function where the growth is refused. */
static void at_place(int which, siginfo_t *info, void *context)
{
    greg_t *registers = ((ucontext_t *)context)->uc_mcontext.gregs;
    uint64_t *top = (uint64_t *)registers[REG_RSP];
    int place = 0;

    (void)which;
    (void)info;
    while (places[place].at != (uintptr_t)registers[REG_RIP] - 1)
        ++place;
    if (refuses((size_t)registers[places[place].bytes])) {
        registers[REG_RAX] = 0;
        registers[REG_RDX] = (greg_t)nothing;
        registers[REG_RIP] = (greg_t)*top;
        registers[REG_RSP] += 8;
    } else {
        registers[REG_RSP] -= 8;
        top[-1] = (uint64_t)registers[REG_RBP];
    }
}

/* Where the program itself lies in memory. */
static int found_program(struct dl_phdr_info *part, size_t size, void *base)
{
    (void)size;
    *(uintptr_t *)base = part->dlpi_addr;
    return 1;
}

static void put_breakpoint(uintptr_t place)
{
    uintptr_t page = place & ~(uintptr_t)4095;

    if (*(unsigned char *)place != 0x55)
        _exit(120);
    if (mprotect((void *)page, 8192, PROT_READ | PROT_WRITE | PROT_EXEC))
        _exit(121);
    *(volatile unsigned char *)place = 0xcc;
    mprotect((void *)page, 8192, PROT_READ | PROT_EXEC);
}

static void put_breakpoints(const char *words)
{
    struct sigaction action = {.sa_sigaction = at_place, .sa_flags = SA_SIGINFO | SA_NODEFER};
    uintptr_t base = 0;
    char *end;

    dl_iterate_phdr(found_program, &base);
    sigaction(SIGTRAP, &action, NULL);
    for (int place = 0; *words && place < 7; ++place) {
        places[place].at = base + strtoull(words, &end, 16);
        places[place].bytes = strtoull(end + 1, &end, 10) == 1 ? REG_RDI : REG_RDX;
        put_breakpoint(places[place].at);
        words = *end == ',' ? end + 1 : end;
    }
}
#else
static void put_breakpoints(const char *words)
{
    (void)words;
    _exit(122);
}
#endif

__attribute__((constructor)) static void begin(void)
{
    const char *name = getenv("REFUSE_FILE"), *words = getenv("REFUSE_PLACES");
    int file = name ? open(name, O_RDWR | O_CLOEXEC) : -1;
    void *found;

    if (file < 0)
        return;
    found = (void *)syscall(SYS_mmap, NULL, sizeof *shared, PROT_READ | PROT_WRITE, MAP_SHARED,
                            file, 0);
    close(file);
    if (found == MAP_FAILED)
        _exit(123);
    if (words)
        put_breakpoints(words);
    shared = found;
}
