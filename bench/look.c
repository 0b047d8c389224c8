/* The plain side of look.py: counted references that are taken along under a mutex.
   look steps STEPS ROUNDS: takes STEPS references along, ROUNDS times; prints the nanoseconds of all rounds together.
   look lanes COUNT LANES: one thread makes COUNT changes, and counts a while before each, as a worker decodes. Under the mutex each is
   written to two files of the working folder, with a sync of each, and a reference is put on a shelf. Each of LANES threads takes along
   what it lacks, and sleeps eight milliseconds, until the first is done; prints the nanoseconds that it took, and how often the others
   looked. */
#include <fcntl.h>
#include <pthread.h>
#include <stdatomic.h>
#include <stdio.h>
#include <stdlib.h>
#include <string.h>
#include <time.h>
#include <unistd.h>

struct step { atomic_long count; };

static pthread_mutex_t lock = PTHREAD_MUTEX_INITIALIZER;
static struct step **shelf;
static atomic_long looks;
static atomic_int done;
static long length;

static long now(void) {
    struct timespec t;
    clock_gettime(CLOCK_MONOTONIC, &t);
    return t.tv_sec * 1000000000L + t.tv_nsec;
}

static void put(void) {
    struct step *step = malloc(sizeof *step);
    atomic_init(&step->count, 1);
    shelf[length++] = step;
}

/* Takes along what stands on the shelf from this place on. Answers where it ends. */
static long look(long seen) {
    pthread_mutex_lock(&lock);
    long end = length;
    struct step **behind = end > seen ? malloc((end - seen) * sizeof *behind) : NULL;
    for (long i = seen; i < end; i++) {
        atomic_fetch_add(&shelf[i]->count, 1);
        behind[i - seen] = shelf[i];
    }
    pthread_mutex_unlock(&lock);
    for (long i = seen; i < end; i++) atomic_fetch_sub(&behind[i - seen]->count, 1);
    free(behind);
    return end;
}

static void *lane(void *unused) {
    long seen = 0;
    while (!atomic_load(&done)) {
        seen = look(seen);
        atomic_fetch_add(&looks, 1);
        usleep(8000);
    }
    return unused;
}

static int made(const char *name) { return open(name, O_WRONLY | O_CREAT | O_TRUNC | O_APPEND, 0600); }

static int keep(int file) {
    char record[160];
    memset(record, 7, sizeof record);
    return write(file, record, sizeof record) == sizeof record && fdatasync(file) == 0;
}

int main(int count, char **words) {
    if (count != 4) return 1;
    long first = atol(words[2]), second = atol(words[3]), spent = 0;
    shelf = malloc((first + 1) * sizeof *shelf);
    if (!strcmp(words[1], "steps")) {
        for (long i = 0; i < first; i++) put();
        for (long i = 0; i < second; i++) {
            long begin = now();
            look(0);
            spent += now() - begin;
        }
        printf("%ld\n", spent);
        return 0;
    }
    int store = made("store"), queue = made("queue");
    pthread_t *lanes = malloc((second + 1) * sizeof *lanes);
    for (long i = 0; i < second; i++) pthread_create(lanes + i, NULL, lane, NULL);
    long begin = now();
    for (long i = 0; i < first; i++) {
        for (volatile int beat = 0; beat < 5000; beat++) {}
        pthread_mutex_lock(&lock);
        if (!keep(store) || !keep(queue)) return 2;
        put();
        pthread_mutex_unlock(&lock);
    }
    spent = now() - begin;
    atomic_store(&done, 1);
    for (long i = 0; i < second; i++) pthread_join(lanes[i], NULL);
    printf("%ld %ld\n", spent, atomic_load(&looks));
    return 0;
}
