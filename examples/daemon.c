/* An index daemon in small: judges each file of a directory at one level, in worker threads, and promotes or holds it.

       daemon LEVEL DIRECTORY [WORKERS]

   LEVEL is 1 read committed, 2 read atomicity, 3 transactional causal consistency. WORKERS is 1 to 64. Files whose names
   begin with a dot are left out. What was decided is written to standard output in the order of names, whichever worker
   judged what:

       NAME: DECISION, findings F, pairs P, order N, refusal NO, place PLACE, strongest L

   then, on promote, the order; on hold, each finding and each pair. A control byte or a backslash in a name is printed as
   \x and two digits.

   A file that cannot be read, a folder too, is held back: it is named on standard error, and the exit status is 1. Where
   there is no file, or the output cannot be written, the daemon says so and ends at once, with 1. Bad arguments: 2. */
#define _POSIX_C_SOURCE 200809L /* C99 alone has neither folders nor threads */
#include <dirent.h>
#include <errno.h>
#include <fcntl.h>
#include <pthread.h>
#include <stdint.h>
#include <stdio.h>
#include <stdlib.h>
#include <string.h>
#include <unistd.h>

#include "ferozhak.h"

enum { WORKERS = 4, WORKERS_MAX = 64 };

struct file {
    char *path;
    char *name; /* as it is printed */
};

/* The files, for all workers. Whoever looks at next, turn or failed holds the lock; the rest stays as it is. */
struct queue {
    uint32_t level;
    struct file *files; /* sorted by name */
    size_t count;
    pthread_mutex_t lock;
    pthread_cond_t turned;
    size_t next; /* the file that the next worker takes */
    size_t turn; /* the file that is to be reported next */
    int failed;  /* some file was not read */
};

/* A worker and what it lends to the library: sized once, and on the heap, since its small stack is for the calls. */
struct worker {
    struct queue *queue;
    pthread_t thread;
    uint8_t trace[FEROZHAK_TRACE_MAX + 1]; /* a byte more than a trace can have is enough to have it refused */
    size_t length;
    int error; /* why the file could not be read */
    uint8_t findings[FEROZHAK_FINDINGS_MAX];
    uint8_t pairs[FEROZHAK_PAIRS_MAX];
    uint8_t order[FEROZHAK_ORDER_MAX];
    uint8_t counts[FEROZHAK_COUNTS];
    uint32_t answer;
    uint32_t strongest;
};

/* Gives up: without memory, threads, files or an output there is no going on, and nothing more is promoted. So it is not
   exit, which would first try again to write what could not be written, while other workers run on. */
static void fail(const char *what, const char *why)
{
    fprintf(stderr, "daemon: %s: %s\n", what, why);
    _exit(1);
}

/* Reads a number from least to most. A digit has to come first: strtoul would take a sign, and turn -1 into a large number. */
static int parse(const char *text, unsigned long least, unsigned long most, unsigned long *number)
{
    char *end;

    if (*text < '0' || *text > '9')
        return 0;
    *number = strtoul(text, &end, 10);
    return *end == '\0' && *number >= least && *number <= most;
}

/* Paths of one folder sort as their names do. */
static int by_name(const void *one, const void *other)
{
    return strcmp(((const struct file *)one)->path, ((const struct file *)other)->path);
}

/* A name as it is printed. Anybody may name a file: with a line break in it a name would print a line of its own. */
static char *printable(const char *name)
{
    char *shown = malloc(4 * strlen(name) + 1), *end = shown;

    if (!shown)
        fail("list of files", strerror(ENOMEM));
    for (; *name; name++) {
        unsigned char byte = (unsigned char)*name;

        if (byte < 32 || byte == 127 || byte == '\\')
            end += snprintf(end, 5, "\\x%02x", byte);
        else
            *end++ = *name;
    }
    *end = '\0';
    return shown;
}

/* Puts a file on the list. Its path is made here, so that no worker needs memory for it. */
static void add(struct queue *queue, const char *directory, const char *name)
{
    size_t size = strlen(directory) + strlen(name) + 2;
    struct file *files = realloc(queue->files, (queue->count + 1) * sizeof *files);
    char *path = malloc(size);

    if (!files || !path)
        fail("list of files", strerror(ENOMEM));
    snprintf(path, size, "%s/%s", directory, name);
    files[queue->count].path = path;
    files[queue->count++].name = printable(name);
    queue->files = files;
}

/* Lists a folder. readdir tells its end from an error only by errno, and half a list must not pass for a whole one; nor
   must a folder without files, a wrong one perhaps, pass for one that was judged. */
static void list(struct queue *queue, const char *directory)
{
    const char *shown = printable(directory);
    DIR *folder = opendir(directory);
    struct dirent *entry;

    if (!folder)
        fail(shown, strerror(errno));
    for (errno = 0; (entry = readdir(folder)) != NULL; errno = 0)
        if (entry->d_name[0] != '.')
            add(queue, directory, entry->d_name);
    if (errno)
        fail(shown, strerror(errno));
    closedir(folder);
    if (!queue->count)
        fail(shown, "there is no file to judge");
    qsort(queue->files, queue->count, sizeof *queue->files, by_name);
}

/* Reads a part of a file, again where a signal came in between. */
static ssize_t read_part(int file, uint8_t *bytes, size_t room)
{
    ssize_t got;

    do
        got = read(file, bytes, room);
    while (got < 0 && errno == EINTR);
    return got;
}

/* Reads as much of a file as matters, and answers whether that went well. A pipe that nobody writes must not stop a worker. */
static int read_trace(struct worker *worker, const char *path)
{
    int file = open(path, O_RDONLY | O_NONBLOCK);
    ssize_t got = -1;

    worker->length = 0;
    if (file >= 0)
        while ((got = read_part(file, worker->trace + worker->length, sizeof worker->trace - worker->length)) > 0)
            worker->length += (size_t)got;
    worker->error = errno;
    if (file >= 0)
        close(file);
    return got == 0;
}

/* The two calls. The lengths are those of the buffers, which are always enough, so no list is ever refused for its length. */
static void judge(struct worker *worker)
{
    worker->answer = ferozhak_decide(worker->trace, worker->length, worker->queue->level,
                                     worker->findings, sizeof worker->findings, worker->pairs, sizeof worker->pairs,
                                     worker->order, sizeof worker->order, worker->counts, sizeof worker->counts);
    worker->strongest = ferozhak_strongest(worker->trace, worker->length);
}

/* A little-endian number of so many bytes. */
static uint32_t number(const uint8_t *bytes, size_t size)
{
    uint32_t value = 0;

    while (size-- > 0)
        value = value << 8 | bytes[size];
    return value;
}

/* The word for an answer. What is not one of the answers promotes nothing. */
static const char *decision(uint32_t answer)
{
    return answer == FEROZHAK_PROMOTE ? "promote" : answer == FEROZHAK_HOLD ? "hold" : "no trace";
}

/* Takes what a print or a flush answered, right behind it: errno is that of the write only then. */
static void printed(int result)
{
    if (result < 0)
        fail("standard output", strerror(errno));
}

/* Promoting and holding stand here: a real daemon would swap its index where the answer is FEROZHAK_PROMOTE, and only there.
   What is reported is written before the next file is reported. */
static void report(const struct worker *worker, const char *name)
{
    const uint8_t *counts = worker->counts, *finding = worker->findings, *pair = worker->pairs;
    uint32_t findings = number(counts + FEROZHAK_COUNT_FINDINGS, 4), pairs = number(counts + FEROZHAK_COUNT_PAIRS, 4);
    uint32_t order = number(counts + FEROZHAK_COUNT_ORDER, 4), i;

    printed(printf("%s: %s, findings %u, pairs %u, order %u, refusal %u, place %u, strongest %u\n", name,
                   decision(worker->answer), findings, pairs, order, number(counts + FEROZHAK_COUNT_REFUSAL, 4),
                   number(counts + FEROZHAK_COUNT_PLACE, 4), worker->strongest));
    if (worker->answer == FEROZHAK_PROMOTE) {
        printed(printf("order"));
        for (i = 0; i < order; i++)
            printed(printf(" %u", worker->order[i]));
        printed(printf("\n"));
    }
    if (worker->answer == FEROZHAK_HOLD) {
        for (i = 0; i < findings; i++, finding += FEROZHAK_FINDING_SIZE)
            printed(printf("read %u %u %u %u\n", finding[FEROZHAK_FINDING_TRANSACTION],
                           number(finding + FEROZHAK_FINDING_OPERATION, 2), finding[FEROZHAK_FINDING_KIND],
                           number(finding + FEROZHAK_FINDING_WRITE, 2)));
        for (i = 0; i < pairs; i++, pair += FEROZHAK_PAIR_SIZE)
            printed(printf("pair %u %u %u\n", pair[FEROZHAK_PAIR_FIRST], pair[FEROZHAK_PAIR_SECOND],
                           pair[FEROZHAK_PAIR_REASONS]));
    }
    printed(fflush(stdout));
}

/* Takes the next file, and answers its number; the number of all files where none is left. */
static size_t take(struct queue *queue)
{
    size_t taken;

    pthread_mutex_lock(&queue->lock);
    taken = queue->next;
    if (taken < queue->count)
        queue->next++;
    pthread_mutex_unlock(&queue->lock);
    return taken;
}

/* Waits until all files before this one are reported. They were taken before it, so no two workers wait for each other; and
   since a worker reports what it judged before it judges more, its buffers are all the memory that answers need. */
static void await_turn(struct queue *queue, size_t taken)
{
    pthread_mutex_lock(&queue->lock);
    while (queue->turn != taken)
        pthread_cond_wait(&queue->turned, &queue->lock);
    pthread_mutex_unlock(&queue->lock);
}

/* Lets the next file be reported. Every waiting worker is woken, since only one of them has it. */
static void pass_turn(struct queue *queue, int failed)
{
    pthread_mutex_lock(&queue->lock);
    queue->turn++;
    queue->failed |= failed;
    pthread_cond_broadcast(&queue->turned);
    pthread_mutex_unlock(&queue->lock);
}

/* What a worker does: judging side by side with the others, reporting one by one. */
static void *work(void *argument)
{
    struct worker *worker = argument;
    struct queue *queue = worker->queue;
    size_t taken;

    while ((taken = take(queue)) < queue->count) {
        const struct file *file = &queue->files[taken];
        int got = read_trace(worker, file->path);

        if (got)
            judge(worker);
        await_turn(queue, taken);
        if (got)
            report(worker, file->name);
        else
            fprintf(stderr, "daemon: %s: %s: held back\n", file->name, strerror(worker->error));
        pass_turn(queue, !got);
    }
    return NULL;
}

/* The stack of a worker: the header's number, or the C library's least, PTHREAD_STACK_MIN, where that is more. */
static size_t stack_size(void)
{
    long least = sysconf(_SC_THREAD_STACK_MIN);

    return least > FEROZHAK_STACK ? (size_t)least : FEROZHAK_STACK;
}

/* Starts the workers and waits for them. They find the lock taken until all of them are started: where one cannot be,
   nothing has been promoted yet. */
static void run(struct queue *queue, size_t count)
{
    struct worker *workers = malloc(count * sizeof *workers);
    pthread_attr_t small;
    size_t i;
    int error;

    if (!workers)
        fail("workers", strerror(ENOMEM));
    if ((error = pthread_attr_init(&small)) || (error = pthread_attr_setstacksize(&small, stack_size())))
        fail("workers", strerror(error));
    pthread_mutex_lock(&queue->lock);
    for (i = 0; i < count; i++) {
        workers[i].queue = queue;
        if ((error = pthread_create(&workers[i].thread, &small, work, &workers[i])))
            fail("workers", strerror(error));
    }
    pthread_mutex_unlock(&queue->lock);
    for (i = 0; i < count; i++)
        pthread_join(workers[i].thread, NULL);
    pthread_attr_destroy(&small);
    free(workers);
}

int main(int argc, char **argv)
{
    static struct queue queue = { .lock = PTHREAD_MUTEX_INITIALIZER, .turned = PTHREAD_COND_INITIALIZER };
    unsigned long level, workers = WORKERS;

    if (argc < 3 || argc > 4 || !parse(argv[1], FEROZHAK_RC, FEROZHAK_TCC, &level)
        || (argc == 4 && !parse(argv[3], 1, WORKERS_MAX, &workers))) {
        fprintf(stderr, "usage: daemon LEVEL DIRECTORY [WORKERS], with a level from 1 to 3 and 1 to 64 workers\n");
        return 2;
    }
    queue.level = (uint32_t)level;
    list(&queue, argv[2]);
    run(&queue, workers);
    return queue.failed;
}
