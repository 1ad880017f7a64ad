/* Each request for memory of a node is refused in turn: node_memory PLAN LINE
 *
 * LINE has the frames of line 0. Whatever is refused, all memory is given back, and each call answers that there was no
 * memory or what it is to answer. What left before is the same as with memory. Linked with --wrap for malloc,
 * posix_memalign, realloc, free. */
#include "call.h"
#include <errno.h>

enum { TURN = 8 * 16320 };

static long asked, refused, held;

void *__real_malloc(size_t size);
int __real_posix_memalign(void **at, size_t alignment, size_t size);
void *__real_realloc(void *at, size_t size);
void __real_free(void *at);
void *__wrap_malloc(size_t size);
int __wrap_posix_memalign(void **at, size_t alignment, size_t size);
void *__wrap_realloc(void *at, size_t size);
void __wrap_free(void *at);

void *__wrap_malloc(size_t size)
{
    if (++asked == refused)
        return NULL;
    void *at = __real_malloc(size);
    held += at != NULL;
    return at;
}

int __wrap_posix_memalign(void **at, size_t alignment, size_t size)
{
    if (++asked == refused)
        return ENOMEM;
    int fault = __real_posix_memalign(at, alignment, size);
    held += !fault;
    return fault;
}

void *__wrap_realloc(void *at, size_t size)
{
    if (++asked == refused)
        return NULL;
    void *moved = __real_realloc(at, size);
    held += !at && moved;
    return moved;
}

void __wrap_free(void *at)
{
    held -= at != NULL;
    __real_free(at);
}

static uint8_t room[1 << 20];

/* A sum of what leaves at each output. */
static uint64_t leaves(struct otn_node *node)
{
    uint64_t sum = 0;
    struct otn_told told;
    for (uint32_t output = 0; output < OTN_PORTS; output++) {
        if (otn_left(node, output, room, sizeof room, &told) != OTN_DONE)
            exit(3);
        for (size_t n = 0; n < told.length; n++)
            sum = sum * 1099511628211u + room[n] + 1;
    }
    return sum;
}

/* Drives a node as far as there is memory; puts a sum for each turn, and answers how many turns it did. */
static int driven(const uint8_t *plan, size_t plan_length, const uint8_t *line, size_t turns, uint64_t *sums, uint32_t *code)
{
    struct otn_node node = OTN_NODE_INIT;
    struct otn_told told;
    size_t turn = 0;
    *code = otn_open(plan, plan_length, &node, &told);
    if (*code == OTN_DONE) {
        for (; turn < turns; turn++) {
            sums[turn] = leaves(&node);
            if ((*code = otn_hand_in(&node, OTN_LINE(0), line + turn * TURN, TURN)) != OTN_DONE)
                break;
            if ((*code = otn_turn(&node, &told)) != OTN_DONE)
                break;
        }
        if (otn_close(&node) != OTN_DONE)
            exit(4);
    }
    return (int)turn;
}

int main(int count, char **said)
{
    if (count < 3)
        return 2;
    uint8_t *plan = NULL, *line = NULL;
    size_t plan_length = load(said[1], &plan, 0), line_length = load(said[2], &line, 0), turns = line_length / TURN;
    uint64_t whole[64], sums[64];
    uint32_t code;
    long wrong = 0, before = held;
    turns = turns > 12 ? 12 : turns;
    asked = 0;
    if (driven(plan, plan_length, line, turns, whole, &code) != (int)turns || held != before)
        return 5;
    long all = asked;
    for (refused = 1; refused <= all; refused++) {
        asked = 0;
        int done = driven(plan, plan_length, line, turns, sums, &code);
        wrong += code != OTN_MEMORY && !(code == OTN_DONE && done == (int)turns);
        wrong += held != before;
        for (int turn = 0; turn < done; turn++)
            wrong += sums[turn] != whole[turn];
    }
    printf("%ld requests refused in turn: %ld wrong\n", all, wrong);
    return wrong != 0;
}
