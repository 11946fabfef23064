/* A program for tools/record/test: a few calls of one thread, as heaptrack records them too. Each request is of 10,000
   bytes or more, and none of the C library's is. */
#include <stdlib.h>

int main(void)
{
    void *first = malloc(10007);
    void *second = malloc(10011);
    free(first);
    second = realloc(second, 20011);
    void *third = calloc(3, 10037);
    free(second);
    free(third);
    return 0;
}
