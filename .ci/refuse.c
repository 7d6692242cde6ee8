// Refuses one request for memory of the program that loads this library: the one whose number the variable REFUSED
// gives, counted from 1. Only requests of the program's own code count, and none of the C library. Where the request
// is made, the file that REFUSED_MARK names is made too. At the end the file that REQUESTS names gets one line: how
// many requests were made, for how many bytes in all, how many blocks of memory were never given back, how many threads
// were started, and how many blocks, and bytes in them, were in use when the last request was made.
#define _GNU_SOURCE
#include <dlfcn.h>
#include <fcntl.h>
#include <link.h>
#include <malloc.h>
#include <pthread.h>
#include <stdatomic.h>
#include <stdio.h>
#include <stdlib.h>
#include <sys/syscall.h>
#include <unistd.h>

static atomic_long made, bytes, kept, in_use, started, last_kept, last_in_use;
static long refused;
static const char *mark;
static char *first, *last;

// The first program is the one that was started: its code lies from `first` to `last`.
static int find_code(struct dl_phdr_info *program, size_t size, void *data) {
    (void)size;
    (void)data;
    for (int i = 0; i < program->dlpi_phnum; i++) {
        const ElfW(Phdr) *part = &program->dlpi_phdr[i];
        if (part->p_type == PT_LOAD && (part->p_flags & PF_X)) {
            first = (char *)program->dlpi_addr + part->p_vaddr;
            last = first + part->p_memsz;
        }
    }
    return 1;
}

__attribute__((constructor)) static void begin(void) {
    const char *number = getenv("REFUSED");
    refused = number ? atol(number) : 0;
    mark = getenv("REFUSED_MARK");
    dl_iterate_phdr(find_code, NULL);
}

// The program ends by this call.
void _exit(int status) {
    const char *name = getenv("REQUESTS");
    FILE *file = name ? fopen(name, "w") : NULL;
    if (file) {
        fprintf(file, "%ld %ld %ld %ld %ld %ld\n", atomic_load(&made), atomic_load(&bytes), atomic_load(&kept),
                atomic_load(&started), atomic_load(&last_kept), atomic_load(&last_in_use));
        fclose(file);
    }
    syscall(SYS_exit_group, status);
    __builtin_unreachable();
}

typedef int starter(pthread_t *, const pthread_attr_t *, void *(*)(void *), void *);

int pthread_create(pthread_t *thread, const pthread_attr_t *attr, void *(*run)(void *), void *with) {
    starter *start = (starter *)dlsym(RTLD_NEXT, "pthread_create");
    atomic_fetch_add(&started, 1);
    return start(thread, attr, run, with);
}

static int is_own(char *caller) {
    return first <= caller && caller < last;
}

static int is_refused(char *caller, size_t size) {
    if (!is_own(caller))
        return 0;
    atomic_fetch_add(&bytes, (long)size);
    atomic_store(&last_kept, atomic_load(&kept));
    atomic_store(&last_in_use, atomic_load(&in_use));
    if (atomic_fetch_add(&made, 1) + 1 != refused)
        return 0;
    if (mark)
        close(open(mark, O_CREAT | O_WRONLY, 0600));
    return 1;
}

extern void *__libc_malloc(size_t);
extern void *__libc_realloc(void *, size_t);
extern void __libc_free(void *);

// A block of the program's own is in use from now on, or no longer.
static void *take(void *block) {
    atomic_fetch_add(&kept, 1);
    atomic_fetch_add(&in_use, (long)malloc_usable_size(block));
    return block;
}

static void give_back(void *block) {
    atomic_fetch_sub(&kept, 1);
    atomic_fetch_sub(&in_use, (long)malloc_usable_size(block));
}

void *malloc(size_t size) {
    char *caller = __builtin_return_address(0);
    void *block = is_refused(caller, size) ? NULL : __libc_malloc(size);
    return block && is_own(caller) ? take(block) : block;
}

void *realloc(void *old, size_t size) {
    char *caller = __builtin_return_address(0);
    if (!is_own(caller))
        return __libc_realloc(old, size);
    if (is_refused(caller, size))
        return NULL;
    long before = old ? (long)malloc_usable_size(old) : 0;
    void *block = __libc_realloc(old, size);
    if (block && old) {
        atomic_fetch_sub(&kept, 1);
        atomic_fetch_sub(&in_use, before);
    }
    return block ? take(block) : NULL;
}

void free(void *block) {
    if (block && is_own(__builtin_return_address(0)))
        give_back(block);
    __libc_free(block);
}
