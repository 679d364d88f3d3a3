/* Loaded into a program before its main. For each number that comes on descriptor 198 the program goes on in a child of
   its own, and descriptor 199 is given the child's id and then what it came to. So what stands before main, as loading
   the program, is done once.

   Where SERVED_ALLOC and SERVED_REALLOC say where the runtime's two functions stand that find memory, they are counted.
   A number N above 0 has the N-th request for memory refused, -N has that one and each later one refused, and 0 none.
   tools/rough/starts.py compiles this where a C compiler is there. */
#define _GNU_SOURCE
#include <fcntl.h>
#include <link.h>
#include <stdlib.h>
#include <string.h>
#include <sys/mman.h>
#include <sys/resource.h>
#include <sys/wait.h>
#include <unistd.h>

enum { ASKED = 198, TOLD = 199 };

/* What the runtime's functions answer. Where nothing is found the place is any one that isn't null. */
struct found {
    long is_found;
    void *place;
};

static long refused, *requests;
static char nothing;

static int is_refused(void)
{
    long number = __atomic_add_fetch(requests, 1, __ATOMIC_SEQ_CST);
    return refused > 0 ? number == refused : refused < 0 && number >= -refused;
}

static struct found as_found(void *place)
{
    return (struct found){place != NULL, place ? place : &nothing};
}

static struct found find(size_t size, size_t least)
{
    return as_found(is_refused() ? NULL : malloc(size ? size : least));
}

static struct found find_again(void *old, size_t had, size_t size, size_t least)
{
    (void)had;
    return as_found(is_refused() ? NULL : realloc(old, size ? size : least));
}

static int take_base(struct dl_phdr_info *program, size_t size, void *base)
{
    (void)size;
    *(char **)base = (char *)program->dlpi_addr;
    return 1;
}

/* Has the function at that place of the program jump to another one (on x86-64). */
static void replace(const char *place, void *by)
{
    char *base, *at;
    if (!getenv(place))
        return;
    dl_iterate_phdr(take_base, &base);
    at = base + strtoul(getenv(place), NULL, 10);
    mprotect((void *)((unsigned long)at & -4096UL), 8192, PROT_READ | PROT_WRITE | PROT_EXEC);
    memcpy(at, "\x48\xb8", 2);
    memcpy(at + 2, &by, sizeof by);
    memcpy(at + 10, "\xff\xe0", 2);
}

static void open_as(int number, const char *name)
{
    int file = open(name, O_WRONLY | O_CREAT | O_TRUNC, 0600);
    dup2(file, number);
    close(file);
}

__attribute__((constructor)) static void serve(void)
{
    requests = mmap(NULL, sizeof *requests, PROT_READ | PROT_WRITE, MAP_SHARED | MAP_ANONYMOUS, -1, 0);
    replace("SERVED_ALLOC", (void *)find);
    replace("SERVED_REALLOC", (void *)find_again);
    while (read(ASKED, &refused, sizeof refused) == sizeof refused) {
        *requests = 0;
        pid_t child = fork();
        if (child == 0) {
            close(ASKED);
            close(TOLD);
            unsetenv("LD_PRELOAD");
            open_as(1, getenv("SERVED_OUT"));
            open_as(2, getenv("SERVED_ERROR"));
            return;
        }
        int code = 0;
        struct rusage used = {0};
        long id = child;
        if (write(TOLD, &id, sizeof id) < 0 || wait4(child, &code, 0, &used) < 0)
            break;
        long told[] = {code, used.ru_utime.tv_sec * 1000000 + used.ru_utime.tv_usec,
                       used.ru_stime.tv_sec * 1000000 + used.ru_stime.tv_usec, used.ru_maxrss, *requests};
        if (write(TOLD, told, sizeof told) < 0)
            break;
    }
    _exit(0);
}
