/* Each request for memory is refused in turn: refused WORDS PLAN [NUMBER FILE]..
 *
 * Where large blocks are asked for, it is done once more with none to be had, so that outputs grow.
 * Whatever is refused, all memory is given back. The answer is that there was no memory, or what it is with memory, but
 * for one output or the report, of which a part from the front is handed out: what all others got stays the same. So
 * it is seen with ports that fail that no connection touches another. Linked with --wrap for malloc, posix_memalign,
 * realloc, free. */
#include "call.h"
#include <errno.h>

static long asked, refused, held, blocks;
static int no_blocks;

void *__real_malloc(size_t size);
int __real_posix_memalign(void **at, size_t alignment, size_t size);
void *__real_realloc(void *at, size_t size);
void __real_free(void *at);
void *__wrap_malloc(size_t size);
int __wrap_posix_memalign(void **at, size_t alignment, size_t size);
void *__wrap_realloc(void *at, size_t size);
void __wrap_free(void *at);

void *__wrap_malloc(size_t size)
{
    if (++asked == refused)
        return NULL;
    void *at = __real_malloc(size);
    held += at != NULL;
    return at;
}

int __wrap_posix_memalign(void **at, size_t alignment, size_t size)
{
    blocks++;
    if (no_blocks || ++asked == refused)
        return ENOMEM;
    int fault = __real_posix_memalign(at, alignment, size);
    held += !fault;
    return fault;
}

void *__wrap_realloc(void *at, size_t size)
{
    if (++asked == refused)
        return NULL;
    void *moved = __real_realloc(at, size);
    held += !at && moved;
    return moved;
}

void __wrap_free(void *at)
{
    held -= at != NULL;
    __real_free(at);
}

/* How many outputs differ from what they are with memory; -1 where one is not a part of that from the front. */
static int shorter(const struct got *now, const struct got *whole)
{
    int count = 0;
    for (int n = 0; n < OTN_PORTS; n++) {
        size_t length = now->ends[n] - start_of(now, n), wanted = whole->ends[n] - start_of(whole, n);
        if (length > wanted || memcmp(now->outputs + start_of(now, n), whole->outputs + start_of(whole, n), length))
            return -1;
        count += length < wanted;
    }
    return count;
}

/* Whether an answer is one that want of memory explains. */
static int is_explained(const struct got *now, const struct got *whole, int is_run)
{
    if (now->code == OTN_MEMORY)
        return 1;
    int cut = shorter(now, whole);
    if (now->code == OTN_CUT)
        return cut == 0 || cut == 1;
    if (now->code == OTN_REPORT_FAULT)
        return (cut == 0 || !is_run) && now->told.report < whole->told.report
            && !memcmp(now->report, whole->report, now->told.report);
    return are_same(now, whole);
}

int main(int count, char **said)
{
    struct given in = given_by(count - 1, said + 1);
    struct got whole = answered(&in);
    struct got now = room_of(whole.told.outputs, whole.told.report + 4096);
    long codes[10] = { 0 }, outputs_cut = 0, wrong = 0;
    int is_run = !strncmp(said[1], "run", 3);
    long tried = 0;
    for (no_blocks = 0; no_blocks < 1 + (blocks > 0); no_blocks++) {
        for (refused = 1; ; refused++) {
            asked = held = 0;
            carry_out(&in, &now);
            if (asked < refused)
                break;
            tried++;
            if (now.code > OTN_MEMORY || held || !is_explained(&now, &whole, is_run)) {
                printf("request %ld refused%s: code %u, %ld not given back\n", refused,
                       no_blocks ? ", and large blocks" : "", (unsigned)now.code, held);
                wrong++;
            }
            codes[now.code < 10 ? now.code : 9]++;
            outputs_cut += now.code == OTN_CUT && shorter(&now, &whole) == 1;
        }
        wrong += held || !are_same(&now, &whole);
    }
    printf("%s: %ld requests for memory refused in turn:", said[1], tried);
    for (int code = 0; code < 10; code++)
        if (codes[code])
            printf(" %ld answered %d,", codes[code], code);
    printf(" %ld with one output cut short and all others whole; %ld wrong\n", outputs_cut, wrong);
    return wrong || !codes[OTN_MEMORY];
}
