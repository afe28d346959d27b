// Has a program of this repository lack memory: each call by which it asks for some has a number, and calls of
// chosen numbers are refused.
//
// It is loaded before the program (LD_PRELOAD) and puts jumps to its own functions over the two through which a
// Rattle program takes all its memory, rattle_alloc and rattle_realloc. tools/checks/refused_memory.py finds their
// places and sets these variables:
//
//     REFUSED_ALLOC, REFUSED_REALLOC  the places of the two in the program, hexadecimal
//     REFUSED_COUNT                   a file that gets the number of calls at the end
//     REFUSED_FIRST, REFUSED_LAST     numbers of calls: for each of them the program is run
//                                     once, with that call refused
//     REFUSED_ON                      where it is 1, all calls behind that one are refused too
//     REFUSED_FOLDER                  each run is in a folder of its own in this one, by its number: it reads the file
//                                     `stdin` of this folder, and leaves `stdout` and, in `status`, what wait said
//     REFUSED_SECONDS                 how long a run may take
#define _GNU_SOURCE
#include <fcntl.h>
#include <link.h>
#include <stdint.h>
#include <stdio.h>
#include <stdlib.h>
#include <string.h>
#include <sys/mman.h>
#include <sys/stat.h>
#include <sys/wait.h>
#include <unistd.h>

// What the two answer: whether there is memory, and where.
struct given {
    uint64_t is_there;
    void *place;
};

static uint64_t calls, first, last;
static char nothing;

static int is_refused(void)
{
    calls++;
    return first <= calls && calls <= last;
}

static struct given answer(void *place)
{
    struct given given = {place != NULL, place != NULL ? place : &nothing};
    return given;
}

static struct given take(uint64_t size, uint64_t alignment)
{
    return answer(is_refused() ? NULL : malloc(size != 0 ? size : alignment));
}

static struct given take_more(void *held, uint64_t kept, uint64_t size, uint64_t alignment)
{
    (void)kept;
    return answer(is_refused() ? NULL : realloc(held, size != 0 ? size : alignment));
}

static uint64_t number(const char *name, int base)
{
    const char *text = getenv(name);
    return text != NULL ? strtoull(text, NULL, base) : 0;
}

static void stop(const char *why)
{
    fprintf(stderr, "refused_memory: %s\n", why);
    _exit(120);
}

// Puts a jump to a function over the code at a place: movabs $function, %rax; jmp *%rax.
static void put_jump(uint8_t *place, void *function)
{
    uint8_t code[12] = {0x48, 0xb8, 0, 0, 0, 0, 0, 0, 0, 0, 0xff, 0xe0};
    memcpy(code + 2, &function, sizeof function);
    size_t page = (size_t)sysconf(_SC_PAGESIZE);
    uint8_t *from = (uint8_t *)((uintptr_t)place & ~(page - 1));
    if (mprotect(from, 2 * page, PROT_READ | PROT_WRITE | PROT_EXEC) != 0)
        stop("the program's code can't be written");
    memcpy(place, code, sizeof code);
    if (mprotect(from, 2 * page, PROT_READ | PROT_EXEC) != 0)
        stop("the program's code can't be run");
}

// Has a file be a standard stream.
static void put_stream(int stream, const char *name, int flags)
{
    int file = open(name, flags, 0600);
    if (file < 0 || dup2(file, stream) < 0)
        stop("a stream can't be opened");
    close(file);
}

// Begins a run in its folder.
static void begin_run(uint64_t call)
{
    char name[32];
    snprintf(name, sizeof name, "%llu", (unsigned long long)call);
    if (mkdir(name, 0700) != 0 || chdir(name) != 0)
        stop("a folder can't be made");
    put_stream(0, "../stdin", O_RDONLY);
    put_stream(1, "stdout", O_WRONLY | O_CREAT);
    put_stream(2, "stderr", O_WRONLY | O_CREAT);
    first = call;
    last = number("REFUSED_ON", 10) == 1 ? UINT64_MAX : call;
    alarm((unsigned)number("REFUSED_SECONDS", 10));
}

// Writes how a run ended.
static void put_status(uint64_t call, int status)
{
    char name[48];
    snprintf(name, sizeof name, "%llu/status", (unsigned long long)call);
    FILE *file = fopen(name, "w");
    if (file == NULL)
        stop("a status can't be written");
    fprintf(file, "%d\n", status);
    fclose(file);
}

// Runs the program for each number of a call. It returns in each run, and ends where all are done.
static void run_all(void)
{
    if (chdir(getenv("REFUSED_FOLDER")) != 0)
        stop("there is no folder");
    for (uint64_t call = number("REFUSED_FIRST", 10); call <= number("REFUSED_LAST", 10); call++) {
        pid_t run = fork();
        if (run < 0)
            stop("no run can be begun");
        if (run == 0)
            return begin_run(call);
        int status = 0;
        if (waitpid(run, &status, 0) != run)
            stop("a run is lost");
        put_status(call, status);
    }
    _exit(0);
}

// Where the program lies: the first object that is loaded.
static int find_program(struct dl_phdr_info *info, size_t size, void *found)
{
    (void)size;
    *(uint8_t **)found = (uint8_t *)info->dlpi_addr;
    return 1;
}

__attribute__((constructor)) static void begin(void)
{
    if (getenv("REFUSED_ALLOC") == NULL)
        return;
    uint8_t *program = NULL;
    dl_iterate_phdr(find_program, &program);
    put_jump(program + number("REFUSED_ALLOC", 16), (void *)take);
    put_jump(program + number("REFUSED_REALLOC", 16), (void *)take_more);
    if (getenv("REFUSED_FOLDER") != NULL)
        run_all();
}

__attribute__((destructor)) static void end(void)
{
    const char *name = getenv("REFUSED_COUNT");
    FILE *file = name != NULL ? fopen(name, "w") : NULL;
    if (file != NULL) {
        fprintf(file, "%llu\n", (unsigned long long)calls);
        fclose(file);
    }
}
