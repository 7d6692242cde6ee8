// Counts the threads that the program which loads this library starts: the file that THREADS names has a `t` for
// each, and a `y` for each that gives way. A thread that gives way a second time ends the program. If HELD is a number, a
// thread that has started others waits at each request for so many bytes or more until these have ended. So a job that
// makes such a request lasts until the others have run all jobs that are left, however short these are and whatever else
// the machine does. The file has an `h` where the first thread makes such a request after it has started others and
// before it waits for their end itself, and a `w` for each write on standard output.
#define _GNU_SOURCE
#include <dlfcn.h>
#include <fcntl.h>
#include <pthread.h>
#include <stdatomic.h>
#include <stdlib.h>
#include <sys/syscall.h>
#include <time.h>
#include <unistd.h>

typedef int joiner(pthread_t, void **);
typedef int starter(pthread_t *, const pthread_attr_t *, void *(*)(void *), void *);

struct begun {
    void *(*run)(void *);
    void *with;
    atomic_int *running;
};

extern void *__libc_malloc(size_t);
extern void __libc_free(void *);

static size_t held;
// How many of the threads that this one has started haven't ended. It ends after them.
static _Thread_local atomic_int running;
// Whether this thread has started others and hasn't waited for the end of one since, and whether it has made such a
// request since.
static _Thread_local int has_started, has_asked;

static void tell(const char *letter) {
    int file = open(getenv("THREADS"), O_CREAT | O_APPEND | O_WRONLY, 0600);
    if (file < 0 || syscall(SYS_write, file, letter, 1) != 1 || close(file) != 0)
        abort();
}

__attribute__((constructor)) static void begin(void) {
    const char *number = getenv("HELD");
    held = number ? strtoul(number, NULL, 10) : 0;
}

static void *run_to_end(void *given) {
    struct begun begun = *(struct begun *)given;
    __libc_free(given);
    void *came = begun.run(begun.with);
    atomic_fetch_sub(begun.running, 1);
    return came;
}

int pthread_create(pthread_t *thread, const pthread_attr_t *attr, void *(*run)(void *), void *with) {
    starter *start = (starter *)dlsym(RTLD_NEXT, "pthread_create");
    struct begun *begun = __libc_malloc(sizeof *begun);
    if (!begun)
        abort();
    *begun = (struct begun){run, with, &running};
    tell("t");
    atomic_fetch_add(&running, 1);
    has_started = 1;
    int ended = start(thread, attr, run_to_end, begun);
    if (ended != 0)
        atomic_fetch_sub(&running, 1);
    return ended;
}

int pthread_join(pthread_t thread, void **came) {
    joiner *join = (joiner *)dlsym(RTLD_NEXT, "pthread_join");
    has_started = 0;
    has_asked = 0;
    return join(thread, came);
}

int sched_yield(void) {
    static _Thread_local int has_given_way;
    if (has_given_way)
        abort();
    has_given_way = 1;
    tell("y");
    return (int)syscall(SYS_sched_yield);
}

ssize_t write(int file, const void *bytes, size_t size) {
    if (file == STDOUT_FILENO)
        tell("w");
    return syscall(SYS_write, file, bytes, size);
}

void *malloc(size_t size) {
    const struct timespec a_while = {0, 20000};
    if (held && size >= held && has_started) {
        if (gettid() == getpid() && !has_asked)
            tell("h");
        has_asked = 1;
        while (atomic_load(&running) > 0)
            nanosleep(&a_while, NULL);
    }
    return __libc_malloc(size);
}
