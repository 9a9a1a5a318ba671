/* A plug-in that has the library in it is unloaded, while a thread lives that called its queue. The thread ends afterwards, and finds the
   library still there. */
#include "../check.h"

#include <dlfcn.h>

typedef pq_code call(void);
static call *open_queue, *push, *close_queue;
static pthread_barrier_t step;

static void *calls_and_ends_late(void *unused) {
    (void)unused;
    CHECK(push() == PQ_OK);
    pthread_barrier_wait(&step);
    pthread_barrier_wait(&step);
    return NULL;
}

static call *found(void *plug_in, const char *name) {
    call *it;
    *(void **)&it = dlsym(plug_in, name);
    CHECK(it != NULL);
    return it;
}

int main(int argc, char **argv) {
    pthread_t thread;
    void *plug_in = argc == 2 ? dlopen(argv[1], RTLD_NOW | RTLD_LOCAL) : NULL;
    CHECK(plug_in != NULL);
    open_queue = found(plug_in, "inner_open");
    push = found(plug_in, "inner_push");
    close_queue = found(plug_in, "inner_close");
    CHECK(pthread_barrier_init(&step, NULL, 2) == 0 && open_queue() == PQ_OK);
    CHECK(pthread_create(&thread, NULL, calls_and_ends_late, NULL) == 0);
    pthread_barrier_wait(&step);
    CHECK(close_queue() == PQ_OK && dlclose(plug_in) == 0);
    pthread_barrier_wait(&step);
    CHECK(pthread_join(thread, NULL) == 0);
    return 0;
}
