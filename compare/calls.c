/* Makes the library's C calls for items that it reads, so that their answers can be compared and the stack that they need
   can be measured.

       calls [STACK [REPEATS]] < items > answers

   Each item is done in a thread of its own whose stack has STACK bytes (FEROZHAK_STACK if it is not given); that thread
   does nothing but the call, REPEATS times where that is given, so that a call can be timed without its thread. Reading and writing are the main thread's, and all buffers are static, so what runs out of
   stack is the call. Then the processor stops the program, as it does with any thread that leaves its stack. Numbers are 4
   bytes, little-endian.

   d LEVEL FINDINGS PAIRS ORDER COUNTS LENGTH TRACE
       ferozhak_decide, with buffers of just so many bytes, all of them 0xA5. Answers what the call answers, then the four
       buffers as they are after it, each with the 16 bytes behind it, which are not lent and were 0xA5 too.
   s LENGTH TRACE
       ferozhak_strongest. Answers what the call answers.
   c LEVEL NUMBERS LENGTH CLAIM LENGTH TRACE
       ferozhak_claim, with a buffer of just so many bytes for the numbers, all of them 0xA5. Answers what the call answers,
       then the buffer as it is after it, with the 16 bytes behind it, which are not lent and were 0xA5 too.
   n
       no call. Answers how much of the stack the thread has taken where its call would begin.

   An item that is too long (a buffer or a claim of more than 70,000 bytes, a trace of more than 40,000), or cut off, or of
   another kind, and a stack that cannot be had: a message, and exit status 2. */
#define _DEFAULT_SOURCE /* C99 alone has neither maps nor stacks of one's own */
#include <pthread.h>
#include <stdint.h>
#include <stdio.h>
#include <stdlib.h>
#include <string.h>
#include <sys/mman.h>

#include "ferozhak.h"

enum { ROOM_MAX = 70000, LENGTH_MAX = 40000, BEHIND = 16, FILL = 0xA5 };

/* Below the stack lies what no thread may touch. It is larger than any frame, so that no call can step over it. */
enum { GUARD = 1 << 20 };

/* The C library takes no stack that is said to be smaller. */
enum { STACK_LEAST = 16384 };

/* The one item that is at hand, in its place for both threads. */
static uint32_t level, length, claim_length, answer;
static uint8_t trace[LENGTH_MAX], claim[ROOM_MAX];
static struct { uint32_t room; uint8_t bytes[ROOM_MAX + BEHIND]; } lent[4];
static uint8_t *top;

/* What a thread does, and how often. */
static void *(*repeated)(void *);
static unsigned long repeats = 1;

static void *decide(void *unused)
{
    answer = ferozhak_decide(trace, length, level, lent[0].bytes, lent[0].room, lent[1].bytes, lent[1].room,
                             lent[2].bytes, lent[2].room, lent[3].bytes, lent[3].room);
    return unused;
}

static void *strongest(void *unused)
{
    answer = ferozhak_strongest(trace, length);
    return unused;
}

static void *check_claim(void *unused)
{
    answer = ferozhak_claim(trace, length, level, claim, claim_length, lent[0].bytes, lent[0].room);
    return unused;
}

static void *nothing(void *unused)
{
    answer = (uint32_t)(top - (uint8_t *)__builtin_frame_address(0));
    return unused;
}

static void stop(const char *why)
{
    fprintf(stderr, "calls: %s\n", why);
    exit(2);
}

static void take(uint8_t *bytes, size_t size)
{
    if (fread(bytes, 1, size, stdin) != size)
        stop("the input ends within an item");
}

static uint32_t take_number(uint32_t most)
{
    uint8_t b[4];
    uint32_t number;

    take(b, 4);
    number = b[0] | (uint32_t)b[1] << 8 | (uint32_t)b[2] << 16 | (uint32_t)b[3] << 24;
    if (number > most)
        stop("a buffer, a claim or a trace is too long");
    return number;
}

static void put_number(uint32_t number)
{
    uint8_t b[4] = { (uint8_t)number, (uint8_t)(number >> 8), (uint8_t)(number >> 16), (uint8_t)(number >> 24) };

    fwrite(b, 1, 4, stdout);
}

/* Lends a stack that ends where the guard begins, at any size. One below the C library's least is said to reach down into
   the guard: so it is taken, and its thread still cannot use more than the bytes that were asked for. */
static void lend_stack(pthread_attr_t *attributes, size_t size)
{
    uint8_t *guard = mmap(NULL, GUARD + size, PROT_NONE, MAP_PRIVATE | MAP_ANONYMOUS, -1, 0);
    size_t said = size < STACK_LEAST ? STACK_LEAST : size;

    if (guard == MAP_FAILED || mprotect(guard + GUARD, size, PROT_READ | PROT_WRITE))
        stop("no memory for the stack");
    top = guard + GUARD + size;
    if (pthread_attr_init(attributes) || pthread_attr_setstack(attributes, top - said, said))
        stop("the C library refuses the stack");
}

static void *repeat(void *unused)
{
    unsigned long i;

    for (i = 0; i < repeats; i++)
        repeated(unused);
    return unused;
}

/* A call that is made once is the thread's own function, so that nothing else is on its stack. */
static void call(const pthread_attr_t *attributes, void *(*what)(void *))
{
    pthread_t thread;

    repeated = what;
    if (pthread_create(&thread, attributes, repeats > 1 ? repeat : what, NULL) || pthread_join(thread, NULL))
        stop("the C library refuses the thread");
    put_number(answer);
}

static void take_trace(void)
{
    length = take_number(LENGTH_MAX);
    take(trace, length);
}

/* What an item begins with: a level, and the rooms of so many buffers. */
static void take_level_and_rooms(int buffers)
{
    int i;

    level = take_number(UINT32_MAX);
    for (i = 0; i < buffers; i++) {
        lent[i].room = take_number(ROOM_MAX);
        memset(lent[i].bytes, FILL, lent[i].room + BEHIND);
    }
}

static void put_buffers(int buffers)
{
    int i;

    for (i = 0; i < buffers; i++)
        fwrite(lent[i].bytes, 1, lent[i].room + BEHIND, stdout);
}

static void take_decide(const pthread_attr_t *attributes)
{
    take_level_and_rooms(4);
    take_trace();
    call(attributes, decide);
    put_buffers(4);
}

static void take_claim(const pthread_attr_t *attributes)
{
    take_level_and_rooms(1);
    claim_length = take_number(ROOM_MAX);
    take(claim, claim_length);
    take_trace();
    call(attributes, check_claim);
    put_buffers(1);
}

int main(int argc, char **argv)
{
    pthread_attr_t attributes;
    char *end = "", *last = "";
    unsigned long stack = argc > 1 ? strtoul(argv[1], &end, 10) : FEROZHAK_STACK;
    int kind;

    if (argc > 2)
        repeats = strtoul(argv[2], &last, 10);
    if (argc > 3 || *end || *last || stack == 0 || stack > 1 << 30 || repeats == 0)
        stop("usage: calls [STACK [REPEATS]]");
    lend_stack(&attributes, stack);
    while ((kind = getchar()) != EOF) {
        if (kind == 'd') {
            take_decide(&attributes);
        } else if (kind == 's') {
            take_trace();
            call(&attributes, strongest);
        } else if (kind == 'c') {
            take_claim(&attributes);
        } else if (kind == 'n') {
            call(&attributes, nothing);
        } else {
            stop("an item is none of d, s, c and n");
        }
    }
    if (ferror(stdin) || fflush(stdout) || ferror(stdout))
        stop("the input was not read or the answers were not written");
    return 0;
}
