/* Coverage of a library's machine code by breakpoints, and what is done when a call of it never comes back. */
#define _GNU_SOURCE
#include <fcntl.h>
#include <signal.h>
#include <stddef.h>
#include <stdint.h>
#include <stdio.h>
#include <string.h>
#include <sys/mman.h>
#include <ucontext.h>
#include <unistd.h>

enum { BREAKPOINT = 0xcc, PAGE = 4096, MOST_BLOCKS = 65536, LONGEST_CALL = 60 };

/* The first instruction of each block, in rising order; its first byte; whether it was met since it was armed. */
static uint8_t *blocks[MOST_BLOCKS];
static uint8_t bytes[MOST_BLOCKS];
static volatile uint8_t met[MOST_BLOCKS];
static size_t count;
/* How many were met since this was taken last. */
static volatile size_t met_count;

/* The record of the call, the number of the execution, how much is lent in it, and where the record is saved. */
static const uint8_t *volatile record;
static volatile size_t length;
static volatile size_t executions;
static volatile size_t entries, words, deviation_places;
static const char *path;

static volatile sig_atomic_t ends;

static void say(const char *text) {
    if (write(STDERR_FILENO, text, strlen(text)) < 0) {
        _exit(4);
    }
}

void save_record(void) {
    const int file = open(path, O_CREAT | O_TRUNC | O_WRONLY, 0644);
    if (file < 0 || write(file, record, length) != (ssize_t)length || close(file) != 0) {
        say("the record cannot be saved\n");
    }
    dprintf(STDERR_FILENO, "in execution %zu; run it again: tools/fuzz again %s %zu %zu %zu\n", executions, path, entries, words, deviation_places);
}

static void on_crash(int number) {
    say(number == SIGALRM ? "FOUND: a call takes more than a minute\n" : "FOUND: a call ends by a signal\n");
    save_record();
    _exit(1);
}

static void on_end(int number) {
    (void)number;
    ends = 1;
}

/* The place of the block with this address, or their number. */
static size_t block_at(const uint8_t *address) {
    size_t from = 0, to = count;
    while (from < to) {
        const size_t middle = from + (to - from) / 2;
        if (blocks[middle] < address) {
            from = middle + 1;
        } else {
            to = middle;
        }
    }
    return from < count && blocks[from] == address ? from : count;
}

static void on_breakpoint(int number, siginfo_t *info, void *context) {
    greg_t *registers = ((ucontext_t *)context)->uc_mcontext.gregs;
    uint8_t *address = (uint8_t *)registers[REG_RIP] - 1;
    const size_t place = block_at(address);
    (void)info;
    if (place == count) {
        on_crash(number);
    }
    *address = bytes[place];
    met[place] = 1;
    met_count++;
    registers[REG_RIP] = (greg_t)(uintptr_t)address;
}

static void handle(int number, void (*handler)(int)) {
    struct sigaction action = {0};
    action.sa_handler = handler;
    action.sa_flags = SA_ONSTACK;
    sigaction(number, &action, NULL);
}

void handle_signals(const char *record_path) {
    static const int crashes[] = {SIGSEGV, SIGBUS, SIGFPE, SIGILL, SIGALRM};
    path = record_path;
    for (size_t i = 0; i < sizeof crashes / sizeof *crashes; i++) {
        handle(crashes[i], on_crash);
    }
    handle(SIGINT, on_end);
    handle(SIGTERM, on_end);
}

int end_is_asked(void) {
    return ends;
}

/* An execution begins, in which so much is lent. */
void begin_execution(size_t table, size_t work, size_t deviations) {
    executions++;
    entries = table;
    words = work;
    deviation_places = deviations;
}

/* A call with this record begins. */
void begin_call(const uint8_t *given, size_t n) {
    record = given;
    length = n;
    alarm(LONGEST_CALL);
}

/* The end of so many bytes; what follows cannot be read. */
uint8_t *guarded(size_t n) {
    const size_t whole = (n + PAGE - 1) / PAGE * PAGE;
    uint8_t *memory = mmap(NULL, whole + PAGE, PROT_READ | PROT_WRITE, MAP_PRIVATE | MAP_ANONYMOUS, -1, 0);
    if (memory == MAP_FAILED || mprotect(memory + whole, PAGE, PROT_NONE) != 0) {
        return NULL;
    }
    return memory + whole;
}

void arm(size_t place) {
    *blocks[place] = BREAKPOINT;
    met[place] = 0;
}

void disarm(size_t place) {
    *blocks[place] = bytes[place];
}

int was_met(size_t place) {
    return met[place];
}

size_t take_met_count(void) {
    const size_t n = met_count;
    met_count = 0;
    return n;
}

/* Whether so many blocks, in rising order, can be watched. */
int watch(uint8_t *const *places, size_t n) {
    if (n == 0 || MOST_BLOCKS < n) {
        return 0;
    }
    const uintptr_t from = (uintptr_t)places[0] / PAGE * PAGE, to = (uintptr_t)places[n - 1] + 1;
    if (mprotect((void *)from, to - from, PROT_READ | PROT_WRITE | PROT_EXEC) != 0) {
        return 0;
    }
    count = n;
    for (size_t i = 0; i < n; i++) {
        blocks[i] = places[i];
        bytes[i] = *places[i];
    }
    struct sigaction action = {0};
    action.sa_sigaction = on_breakpoint;
    action.sa_flags = SA_SIGINFO;
    return sigaction(SIGTRAP, &action, NULL) == 0;
}
