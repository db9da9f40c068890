// The same turns in plain C, under one pthread mutex.
// plain PASSES TURNS prints what `bench_texts turns` prints: the nanoseconds from the first turn's beginning to the last one's end, and how many events were put.
#define _POSIX_C_SOURCE 200809L
#include <pthread.h>
#include <sched.h>
#include <stdatomic.h>
#include <stdint.h>
#include <stdio.h>
#include <stdlib.h>
#include <time.h>

// An event of the size that the proved program's has: session and command, what it does, a name, and a relation.
struct event {
    uint32_t session, command;
    uint64_t act;
    uint64_t name[3];
    uint32_t rel[3];
};

static struct {
    struct event *events;
    size_t count, room;
} diary;

static pthread_mutex_t mutex = PTHREAD_MUTEX_INITIALIZER;
static _Atomic uint64_t there;
static uint64_t wanted;
static struct timespec base;

struct work {
    uint32_t number, turns;
    uint64_t began, ended;
};

static uint64_t nanos(void) {
    struct timespec now;
    clock_gettime(CLOCK_MONOTONIC, &now);
    return (uint64_t)(now.tv_sec - base.tv_sec) * 1000000000ull + (uint64_t)now.tv_nsec - (uint64_t)base.tv_nsec;
}

static void turn(uint32_t session, uint32_t command) {
    pthread_mutex_lock(&mutex);
    if (diary.count < diary.room)
        diary.events[diary.count++] = (struct event){.session = session, .command = command, .act = 0};
    pthread_mutex_unlock(&mutex);
}

static void *run(void *arg) {
    struct work *work = arg;
    atomic_fetch_add(&there, 1);
    for (int i = 0; i < 4000000 && atomic_load(&there) < wanted; i++)
        sched_yield();
    work->began = nanos();
    for (uint32_t command = 0; command < work->turns; command++)
        turn(work->number, command);
    work->ended = nanos();
    return NULL;
}

int main(int argc, char **argv) {
    if (argc < 3)
        return 1;
    uint32_t passes = (uint32_t)atoi(argv[1]), turns = (uint32_t)atoi(argv[2]);
    if (passes < 1 || passes > 64)
        return 1;
    diary.room = (size_t)passes * turns;
    diary.events = malloc(diary.room * sizeof *diary.events);
    if (diary.events == NULL)
        return 1;
    wanted = passes;
    clock_gettime(CLOCK_MONOTONIC, &base);
    static struct work works[64];
    static pthread_t threads[64];
    for (uint32_t i = 0; i < passes; i++) {
        works[i] = (struct work){.number = i, .turns = turns};
        if (pthread_create(&threads[i], NULL, run, &works[i]) != 0)
            return 1;
    }
    uint64_t first = UINT64_MAX, last = 0;
    for (uint32_t i = 0; i < passes; i++) {
        pthread_join(threads[i], NULL);
        first = works[i].began < first ? works[i].began : first;
        last = works[i].ended > last ? works[i].ended : last;
    }
    printf("%llu %zu\n", (unsigned long long)(last - first), diary.count);
    return 0;
}
