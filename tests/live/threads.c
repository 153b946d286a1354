/* No thread can be made, for live.py. Loaded by LD_PRELOAD. */
#include <errno.h>
#include <pthread.h>

int pthread_create(pthread_t *thread, const pthread_attr_t *how, void *(*work)(void *), void *with) {
    return EAGAIN;
}
