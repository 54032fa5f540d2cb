/* Cancels threads that judge: one whose cancellation is asynchronous, within a call on the first path's case, which does not
 * end in time; and one whose cancellation is deferred, before its call on the second path's. */
#define _POSIX_C_SOURCE 200809L
#include <hoidrul.h>
#include <pthread.h>
#include <stdio.h>
#include <stdlib.h>
#include <time.h>
#include <unistd.h>

static uint8_t file[HOIDRUL_LONGEST];
static uint16_t work[(2 * HOIDRUL_MOST_NODES) << HOIDRUL_MOST_STATES];
static size_t len;
static uint64_t reply;
static pthread_barrier_t begun;

static void read_file(const char *path)
{
    FILE *stream = fopen(path, "rb");
    if (!stream)
        exit(2);
    len = fread(file, 1, sizeof file, stream);
    fclose(stream);
    reply = 0;
}

static void judge(void)
{
    size_t n = hoidrul_states(hoidrul_vet(file, len, HOIDRUL_LABELS));
    reply = hoidrul_judge(file, len, hoidrul_all_states(n), work, sizeof work / sizeof *work);
}

static void *asynchronous(void *nothing)
{
    pthread_barrier_wait(&begun);
    pthread_setcanceltype(PTHREAD_CANCEL_ASYNCHRONOUS, NULL);
    judge();
    pthread_setcanceltype(PTHREAD_CANCEL_DEFERRED, NULL);
    return nothing;
}

static void *deferred(void *nothing)
{
    pthread_barrier_wait(&begun); /* No cancellation point either. */
    judge();
    pthread_testcancel();
    return nothing;
}

/* Whether the thread was cancelled. */
static int is_cancelled(void *(*run)(void *), int before)
{
    const struct timespec moment = {0, 100000000};
    pthread_t thread;
    void *end;
    if (pthread_create(&thread, NULL, run, NULL) != 0)
        exit(2);
    if (before)
        pthread_cancel(thread);
    pthread_barrier_wait(&begun);
    if (!before) {
        nanosleep(&moment, NULL);
        pthread_cancel(thread);
    }
    pthread_join(thread, &end);
    return end == PTHREAD_CANCELED;
}

int main(int argc, char **argv)
{
    if (argc != 3 || pthread_barrier_init(&begun, NULL, 2) != 0)
        return 2;
    alarm(60); /* Without it a call that goes on would never be seen. */
    read_file(argv[1]);
    printf("asynchronous: %d", is_cancelled(asynchronous, 0));
    printf(", answered: %d\n", reply != 0);
    read_file(argv[2]);
    printf("deferred: %d", is_cancelled(deferred, 1));
    printf(", answered: %d, %u\n", reply != 0, (unsigned)hoidrul_set(reply));
    return 0;
}
