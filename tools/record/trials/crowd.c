/* A program for tools/record/test: eight threads allocate, grow and free at once, and most blocks are freed by
   another thread than the one that allocated them. Each thread makes 9,000 allocations, of which each third one
   is grown. Each request is of 10,000 bytes or more, and none of the C library's is. */
#include <malloc.h>
#include <pthread.h>
#include <stdatomic.h>
#include <stdlib.h>

enum { THREADS = 8, ROUNDS = 9000, BOXES = 16 };

static void *_Atomic boxes[BOXES];

/* Puts a block in a box, and frees the one that was there. */
static void put(int box, void *block)
{
    free(atomic_exchange(&boxes[box], block));
}

static void *work(void *unused)
{
    for (int round = 0; round < ROUNDS; round++) {
        char *block = malloc(10000 + round % 7);
        if (round % 3 == 0)
            block = realloc(block, 10100 + round % 5000);
        put(round % BOXES, block);
    }
    return unused;
}

int main(void)
{
    pthread_t threads[THREADS];
    mallopt(M_ARENA_MAX, 1);    /* so that a block which one thread frees comes to another soon */
    for (int number = 0; number < THREADS; number++)
        if (pthread_create(&threads[number], NULL, work, NULL) != 0)
            return 3;
    for (int number = 0; number < THREADS; number++)
        pthread_join(threads[number], NULL);
    for (int box = 0; box < BOXES; box++)
        put(box, NULL);
    return 0;
}
