/* How much stack a call uses: it runs on a thread whose stack was painted, and what lost its paint is counted. */
#include <pthread.h>
#include <stddef.h>
#include <stdint.h>
#include <stdlib.h>
#include <string.h>

enum { STACK = 1 << 20, PAINT = 0xA5 };

typedef struct {
    void (*run)(void *);
    void *with;
} call;

static void *run_call(void *given) {
    call *made = given;
    made->run(made->with);
    return NULL;
}

/* The thread's own part is in the number too: take that of an empty call away. 0 if there is no such thread. */
size_t stack_used(void (*run)(void *), void *with) {
    call made = {run, with};
    pthread_t thread;
    pthread_attr_t how;
    uint8_t *stack = aligned_alloc(4096, STACK);
    if (stack == NULL)
        return 0;
    memset(stack, PAINT, STACK);
    size_t clean = STACK;
    if (pthread_attr_init(&how) == 0 && pthread_attr_setstack(&how, stack, STACK) == 0 && pthread_create(&thread, &how, run_call, &made) == 0) {
        pthread_join(thread, NULL);
        for (clean = 0; clean < STACK && stack[clean] == PAINT;)
            clean++;
    }
    free(stack);
    return STACK - clean;
}
