/* Work on a thread with a given stack and a page behind it that nobody may touch. The memory is new each time: a thread library
 * may give a thread the larger stack of one that ended, on which a call that needs too much would pass. */
#ifndef STACK_H
#define STACK_H

#include <pthread.h>
#include <sys/mman.h>

static void on_stack(void *(*work)(void *), void *argument, size_t stack)
{
    enum { PAGE = 4096 };
    void *memory = NULL;
    pthread_attr_t attributes;
    pthread_t thread;
    if (posix_memalign(&memory, PAGE, stack + PAGE) != 0 || mprotect(memory, PAGE, PROT_NONE) != 0 ||
        pthread_attr_init(&attributes) != 0 ||
        pthread_attr_setstack(&attributes, (uint8_t *)memory + PAGE, stack) != 0 ||
        pthread_create(&thread, &attributes, work, argument) != 0 || pthread_join(thread, NULL) != 0 ||
        mprotect(memory, PAGE, PROT_READ | PROT_WRITE) != 0)
        abort();
    pthread_attr_destroy(&attributes);
    free(memory);
}

/* A call's answer there. The work stores it; lend.h has report. */
static inline void on_thread(const char *name, void *(*work)(void *), size_t stack, uint32_t want)
{
    uint32_t answer = 0;
    on_stack(work, &answer, stack);
    report(answer == want, name, "another answer on its stack");
}

#endif
