/* Calls from several threads at once give what each gives alone: threads THREADS CALLS WORDS PLAN [NUMBER FILE]..
 *
 * Each thread has inputs of its own: those that are named, with other bytes damaged in each. Its stack has 256 KiB.
 * Where there are inputs at least half of the threads have to answer otherwise than the first. That is not asked of
 * `unbundle`, which may find nothing in any of them. */
#include "call.h"
#include <pthread.h>

struct part {
    struct given in;
    struct got alone;
    long calls, wrong;
};

static void *again(void *at)
{
    struct part *own = at;
    for (long i = 0; i < own->calls; i++) {
        struct got it = answered(&own->in);
        own->wrong += !are_same(&it, &own->alone);
        let_go(&it);
    }
    return NULL;
}

int main(int count, char **said)
{
    int threads = atoi(said[1]), differ = 0, has_to_differ = count > 5 && strncmp(said[3], "unbundle", 8);
    long wrong = 0;
    struct part *parts = memory((size_t)threads * sizeof *parts);
    pthread_t *ids = memory((size_t)threads * sizeof *ids);
    pthread_attr_t how;
    pthread_attr_init(&how);
    pthread_attr_setstacksize(&how, 1 << 18);
    for (int i = 0; i < threads; i++) {
        parts[i] = (struct part){ given_by(count - 3, said + 3), { 0 }, atol(said[2]), 0 };
        size_t length = parts[i].in.ends[OTN_PORTS - 1];
        for (size_t at = i && length ? (size_t)i * 977 % length : length; at < length; at += 9973)
            parts[i].in.inputs[at] ^= 0x55;
        parts[i].alone = answered(&parts[i].in);
        differ += i && !are_same(&parts[i].alone, &parts[0].alone);
    }
    for (int i = 0; i < threads; i++)
        if (pthread_create(&ids[i], &how, again, &parts[i]))
            return 2;
    for (int i = 0; i < threads; i++) {
        pthread_join(ids[i], NULL);
        wrong += parts[i].wrong;
        let_go(&parts[i].alone);
        free(parts[i].in.inputs);
        free(parts[i].in.plan);
    }
    printf("%d threads of %s calls each, %d of them with another answer than the first: %ld wrong\n", threads, said[2],
           differ, wrong);
    free(parts);
    free(ids);
    return wrong || (has_to_differ && differ < threads / 2);
}
