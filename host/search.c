#include "search.h"

#include <inttypes.h>
#include <pthread.h>
#include <setjmp.h>
#include <signal.h>
#include <unistd.h>

#include "buffer.h"

/*
 * How many choices a search has entered is known to nobody before it ends: the archive keeps no state that could be looked at. So beside the
 * search another thread puts the same question with an allowance that grows. Each 'spent' shows that the search enters more choices than
 * that allowance, for the archive says it exactly where the search would (demand 3).
 *
 * This never changes the answer, which is that of the one search under the whole allowance; the other thread only shows a number. And it
 * costs at most twice: the other thread works only while the search does, so on one processor it takes at most as much time again, and where a
 * second one is free none. Allowances that grow one behind the other, without a thread, would cost up to three times as much if they double, and more
 * than twice however they grow, since the last one that is spent may be one choice short.
 */
#define FIRST_ALLOWANCE ((uint32_t)1 << 24) /* half a second and more */
#define LEAST_KNOWN ((uint32_t)1 << 20)

static struct {
    pthread_mutex_t lock;
    const struct search *search;
    uint32_t known;
    bool over;
} watch = {.lock = PTHREAD_MUTEX_INITIALIZER};

static void show(uint32_t known)
{
    struct buffer line = {0};
    buffer_print(&line, "\rcudreth: more than %10" PRIu32 " choices entered", known);
    (void)buffer_write(&line, STDERR_FILENO);
    buffer_free(&line);
}

static void clear(void)
{
    struct buffer line = {0};
    buffer_print(&line, "\r%50s\r", "");
    (void)buffer_write(&line, STDERR_FILENO);
    buffer_free(&line);
}

static void *watcher(void *unused)
{
    const struct search *search = watch.search;
    for (uint64_t allowance = FIRST_ALLOWANCE; allowance < search->allowance; allowance *= 2) {
        uint8_t answer[CUDRETH_ANSWER_BYTES];
        uint64_t result = cudreth_solve(search->records, search->length, answer, sizeof answer, (uint32_t)allowance);
        if (cudreth_verdict(result) != CUDRETH_SPENT)
            break;
        pthread_mutex_lock(&watch.lock);
        watch.known = (uint32_t)allowance;
        if (!watch.over)
            show(watch.known);
        pthread_mutex_unlock(&watch.lock);
    }
    return unused;
}

/* Where there is no terminal, or no thread to be had, the search is not watched. */
static void start_watching(const struct search *search)
{
    pthread_t thread;
    pthread_attr_t attributes;
    if (search->allowance <= FIRST_ALLOWANCE || !isatty(STDERR_FILENO) || pthread_attr_init(&attributes) != 0)
        return;
    watch.search = search;
    pthread_attr_setdetachstate(&attributes, PTHREAD_CREATE_DETACHED);
    pthread_create(&thread, &attributes, watcher, NULL);
    pthread_attr_destroy(&attributes);
}

static uint32_t stop_watching(void)
{
    pthread_mutex_lock(&watch.lock);
    watch.over = true;
    uint32_t known = watch.known;
    if (known > 0)
        clear();
    pthread_mutex_unlock(&watch.lock);
    return known;
}

static sigjmp_buf out_of_the_search;

/* Only ever runs inside the archive, which has no globals, takes no locks and allocates nothing: leaving it half-way loses nothing. */
static void leave(int signal)
{
    (void)signal;
    siglongjmp(out_of_the_search, 1);
}

static const int interrupts[] = {SIGINT, SIGTERM};
#define INTERRUPTS (sizeof interrupts / sizeof interrupts[0])

/* An interrupt that was ignored, as in the background of a shell, stays ignored. */
static void catch_interrupts(void)
{
    struct sigaction action = {.sa_handler = leave}, before;
    sigemptyset(&action.sa_mask);
    for (size_t at = 0; at < INTERRUPTS; at++)
        if (sigaction(interrupts[at], NULL, &before) == 0 && before.sa_handler != SIG_IGN)
            sigaction(interrupts[at], &action, NULL);
}

/* Behind the search all that is left is to print what is known, so one that comes late, or twice, is too late. */
static void ignore_interrupts(void)
{
    for (size_t at = 0; at < INTERRUPTS; at++)
        signal(interrupts[at], SIG_IGN);
}

static void search_under(struct search *search, uint32_t allowance)
{
    search->result = cudreth_solve(search->records, search->length, search->answer, sizeof search->answer, allowance);
}

/* Behind an interrupt: what the other thread knows, or else what a tenth of a second tells, which may be the verdict itself. */
static void learn_what_is_known(struct search *search, uint32_t known)
{
    uint32_t least = search->allowance < LEAST_KNOWN ? search->allowance : LEAST_KNOWN;
    if (known == 0)
        search_under(search, least);
    search->interrupted = known > 0 || (cudreth_verdict(search->result) == CUDRETH_SPENT && least < search->allowance);
    search->known = known > 0 ? known : least;
}

void search_run(struct search *search)
{
    sigset_t caught, before;
    sigemptyset(&caught);
    for (size_t at = 0; at < INTERRUPTS; at++)
        sigaddset(&caught, interrupts[at]);
    /* Interrupts are let in while the archive runs, in this thread alone, and at no other time. */
    pthread_sigmask(SIG_BLOCK, &caught, &before);
    start_watching(search);
    catch_interrupts();
    if (sigsetjmp(out_of_the_search, 1) == 0) {
        pthread_sigmask(SIG_SETMASK, &before, NULL);
        search_under(search, search->allowance);
        pthread_sigmask(SIG_BLOCK, &caught, NULL);
        stop_watching();
    } else {
        learn_what_is_known(search, stop_watching());
    }
    ignore_interrupts();
    pthread_sigmask(SIG_SETMASK, &before, NULL);
}
