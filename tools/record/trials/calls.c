/* A program for tools/record/test, which says call by call what a trace of it must have. Each request of its own
   has a size that no other has, so that they are told from those of the C library. With a word it is the
   program that the first one becomes at its end. */
#define _GNU_SOURCE
#include <fcntl.h>
#include <malloc.h>
#include <pthread.h>
#include <stdint.h>
#include <stdlib.h>
#include <sys/wait.h>
#include <unistd.h>

static void *first;
static void *handed;

static void *result_of(void *(*body)(void *), void *argument)
{
    pthread_t thread;
    void *result = NULL;
    if (pthread_create(&thread, NULL, body, argument) != 0 || pthread_join(thread, &result) != 0)
        exit(3);
    return result;
}

static void *block_of(void *size)
{
    return malloc((uintptr_t)size);
}

/* A child drops its environment, frees a block that its parent allocated, has two threads of its own, and goes on
   without a descriptor. */
static void be_child(void)
{
    clearenv();
    void *own = malloc(10067);
    free(first);
    result_of(block_of, (void *)10071);
    result_of(block_of, (void *)10073);
    for (int file = 0; file < 1024; file++)
        close(file);
    own = realloc(own, 10069);
    _exit(own ? 0 : 3);
}

/* Hands a block on, frees one of another thread, and has a child. */
static void *first_thread(void *zeros)
{
    handed = malloc(10039);
    free(zeros);
    if (fork() == 0)
        be_child();
    int status = 3;
    if (wait(&status) < 0 || status != 0)
        exit(3);
    return NULL;
}

static void *second_thread(void *aligned)
{
    free(aligned);
    return reallocarray(NULL, 2, 10061);
}

int main(int count, char **words)
{
    if (count > 1) {
        free(malloc(10099));
        return 0;
    }
    first = malloc(10007);
    if (open("/dev/null", O_RDONLY) != 3)   /* the log keeps no descriptor */
        return 5;
    void *zeros = calloc(3, 10009);
    void *aligned = NULL;
    first = realloc(first, 20011);
    if (posix_memalign(&aligned, 64, 10037) != 0)
        return 3;
    for (int times = 0; times < 1000; times++)
        free(NULL);
    if (realloc(zeros, PTRDIFF_MAX) || malloc(PTRDIFF_MAX))
        return 3;
    result_of(first_thread, zeros);
    free(handed);
    void *list = result_of(second_thread, aligned);
    list = realloc(list, 0);
    free(first);
    execl("/proc/self/exe", words[0], "again", (char *)NULL);
    return list ? 3 : 4;
}
