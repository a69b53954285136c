/* Threads that get objects, move them and free each other's, for the recorder's tests: threads THREADS CALLS WAY.
 * The program ends by WAY: `return`, `_exit` or `kill`. Before it returns, `fork` begins a child that asks for memory
 * and becomes `true`; `close` closes every file and `lose` also moves the record away, and both then ask for memory.
 */
#define _GNU_SOURCE
#include <errno.h>
#include <malloc.h>
#include <pthread.h>
#include <signal.h>
#include <stdint.h>
#include <stdio.h>
#include <stdlib.h>
#include <string.h>
#include <sys/wait.h>
#include <unistd.h>

#define SLOTS 32
#define ROUNDS 3 /* of threads, so that later ones have what earlier ones left */

static void *slots[SLOTS];
static pthread_mutex_t lock = PTHREAD_MUTEX_INITIALIZER;
static int calls;

static void *get(unsigned draw) {
    size_t size = draw % 700 + 1;
    void *got = NULL;
    switch (draw / 1024 % 8) {
    case 0: return calloc(size, 2);
    case 1: return aligned_alloc(64, size / 64 * 64 + 64);
    case 2: return posix_memalign(&got, 32, size) ? NULL : got;
    case 3: return memalign(128, size);
    case 4: return reallocarray(NULL, size, 3);
    default: return malloc(size);
    }
}

static void *work(void *number) {
    unsigned draw = (unsigned)(uintptr_t)number;
    for (int i = 0; i < calls; i++) {
        draw = draw * 1103515245 + 12345;
        void *mine = get(draw >> 8);
        pthread_mutex_lock(&lock);
        void *other = slots[draw >> 27];
        slots[draw >> 27] = mine;
        pthread_mutex_unlock(&lock);
        if (draw & 4096)
            other = realloc(other, draw >> 20);
        free(other);
    }
    return NULL;
}

static void fork_and_begin(void) {
    pid_t child = fork();
    if (child == 0) {
        void *volatile got = malloc(77);
        free(got);
        execlp("true", "true", (char *)NULL);
        _exit(1);
    }
    waitpid(child, NULL, 0);
}

static void close_and_get(int is_moved) {
    char away[4096];
    for (int file = 3; file < 1024; file++)
        close(file);
    if (is_moved && snprintf(away, sizeof away, "%s.away", getenv("KEMIRONA_RECORD")) > 0)
        rename(getenv("KEMIRONA_RECORD"), away);
    for (int i = 0; i < 5000; i++) {
        void *volatile got = malloc(33);
        free(got);
    }
}

int main(int count, char **words) {
    pthread_t threads[16];
    int n = count == 4 ? atoi(words[1]) : 0;
    if (n < 1 || n > 16)
        return 2;
    calls = atoi(words[2]);
    for (int round = 0; round < ROUNDS; round++) {
        for (int i = 0; i < n; i++)
            pthread_create(&threads[i], NULL, work, (void *)(uintptr_t)(round * n + i + 1));
        for (int i = 0; i < n; i++)
            pthread_join(threads[i], NULL);
    }
    errno = 0;
    size_t volatile each = SIZE_MAX / 2;
    void *volatile nothing = calloc(each, 4);
    if (nothing || errno != ENOMEM)
        return 3;
    for (int i = 0; i < SLOTS; i++)
        free(slots[i]);
    if (!strcmp(words[3], "fork"))
        fork_and_begin();
    if (!strcmp(words[3], "close") || !strcmp(words[3], "lose"))
        close_and_get(words[3][0] == 'l');
    if (!strcmp(words[3], "_exit"))
        _exit(0);
    if (!strcmp(words[3], "kill"))
        raise(SIGKILL);
    return 0;
}
