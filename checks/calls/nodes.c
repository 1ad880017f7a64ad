/* Nodes that are driven turn by turn: calls that are none, and several threads at once: nodes THREADS TURNS
 *
 * All that is handed in or out lies in memory of just its length, so that valgrind, or the sanitizers of the compiler,
 * see each byte beside it that is read or written. Each thread drives two nodes with a fibre between them. Its stack has
 * 256 KiB. What comes at the end has to be the same for each. */
#include "call.h"
#include <pthread.h>

enum { FRAME = 16320, TURN = 8 * FRAME };

static const char SENDS[] =
    "turns = %d\n[[connection]]\nname = \"x\"\nkind = \"odu0\"\nfrom = { client = 0 }\nto = { line = 0, port = 1, slots = [3] }\n";
static const char TAKES[] =
    "turns = %d\n[[connection]]\nname = \"x\"\nkind = \"odu0\"\nfrom = { line = 0, port = 1, slots = [3] }\nto = { client = 4 }\n";

static long wrong;

static void want(int holds, const char *what)
{
    if (!holds) {
        printf("wrong: %s\n", what);
        __atomic_add_fetch(&wrong, 1, __ATOMIC_SEQ_CST);
    }
}

static uint32_t opened(struct otn_node *node, const char *form, int turns, struct otn_told *told)
{
    char text[500];
    size_t length = (size_t)snprintf(text, sizeof text, form, turns);
    uint8_t *plan = memory(length);
    memcpy(plan, text, length);
    uint32_t code = otn_open(plan, length, node, told);
    free(plan);
    return code;
}

static uint32_t handed(struct otn_node *node, uint32_t input, const void *from, size_t length)
{
    uint8_t *bytes = memory(length);
    memcpy(bytes, from, length);
    uint32_t code = otn_hand_in(node, input, bytes, length);
    free(bytes);
    return code;
}

/* What leaves at an output, in room of just its length, after a call with one byte less. */
static uint8_t *left(struct otn_node *node, uint32_t output, size_t *length)
{
    struct otn_told told;
    uint8_t *none = memory(0);
    uint32_t code = otn_left(node, output, none, 0, &told);
    want(code == (told.length ? OTN_NO_ROOM : OTN_DONE), "no room");
    free(none);
    *length = told.length;
    if (*length > 1) {
        uint8_t *less = memory(*length - 1);
        want(otn_left(node, output, less, *length - 1, &told) == OTN_NO_ROOM && told.length == *length, "a byte less");
        free(less);
    }
    uint8_t *room = memory(*length);
    want(otn_left(node, output, room, *length, &told) == OTN_DONE && told.length == *length, "room enough");
    return room;
}

/* Fills a client up. */
static void fill(struct otn_node *node, uint32_t client)
{
    struct otn_told told;
    while (otn_lack(node, client, &told) == OTN_DONE && (told.length || told.place)) {
        size_t length = told.length ? 2 * told.length + 1 : told.place;
        uint8_t *text = memory(length);
        memset(text, told.length ? '0' : '\n', length);
        text[length - 1] = '\n';
        want(otn_hand_in(node, client, text, length) == OTN_DONE, "a filler");
        free(text);
    }
}

static void empty_handle(struct otn_node *node, const char *what)
{
    struct otn_told told;
    uint8_t one[1] = { 10 };
    want(otn_hand_in(node, 0, one, 0) == OTN_NO_CALL, what);
    want(otn_end(node, 0) == OTN_NO_CALL, what);
    want(otn_lack(node, 4, &told) == OTN_NO_CALL, what);
    want(otn_turn(node, &told) == OTN_NO_CALL, what);
    want(otn_left(node, 0, one, 1, &told) == OTN_NO_CALL, what);
    want(otn_report(node, one, 1, &told) == OTN_NO_CALL, what);
    want(otn_close(node) == OTN_NO_CALL, what);
    want(one[0] == 10 && !node->at, what);
}

static void hostile(void)
{
    struct otn_node node = OTN_NODE_INIT;
    struct otn_told told;
    size_t length;
    uint8_t *frames = calloc(1, TURN), report[9000];
    empty_handle(&node, "a handle that was never opened");
    want(otn_open((const uint8_t *)"turns = 0", 9, &node, &told) == OTN_PLAN && told.rule == 5 && !told.place, "a plan");
    empty_handle(&node, "a handle whose plan was refused");
    want(opened(&node, TAKES, 2, &told) == OTN_DONE, "opening");
    void *at = node.at;
    want(opened(&node, TAKES, 2, &told) == OTN_NO_CALL && node.at == at, "opening twice");
    want(handed(&node, OTN_LINE(0), frames, FRAME + 1) == OTN_NOT_WHOLE, "a part of a frame");
    want(handed(&node, OTN_LINE(1), frames, FRAME) == OTN_NO_PORT, "a line that the plan does not use");
    want(handed(&node, OTN_CLIENT(0), "00\n", 3) == OTN_NO_PORT, "a client that it does not use");
    want(handed(&node, 20, frames, FRAME) == OTN_NO_PORT && handed(&node, UINT32_MAX, frames, 1) == OTN_NO_PORT, "input 20");
    want(otn_end(&node, 20) == OTN_NO_PORT && otn_end(&node, UINT32_MAX) == OTN_NO_PORT, "the end of input 20");
    want(otn_left(&node, 20, report, sizeof report, &told) == OTN_NO_PORT, "output 20");
    want(otn_left(&node, UINT32_MAX, report, sizeof report, &told) == OTN_NO_PORT, "the last number");
    want(handed(&node, OTN_LINE(0), frames, 7 * FRAME) == OTN_DONE, "frames");
    want(otn_turn(&node, &told) == OTN_WAITS && told.place == OTN_LINE(0), "a turn with a frame too few");
    want(handed(&node, OTN_LINE(0), frames, FRAME) == OTN_DONE, "a frame");
    want(otn_report(&node, report, sizeof report, &told) == OTN_DONE && told.length, "a report between");
    want(otn_report(&node, report, told.length - 1, &told) == OTN_NO_ROOM, "a report with a byte too few");
    want(otn_end(&node, OTN_LINE(0)) == OTN_DONE, "an end");
    want(handed(&node, OTN_LINE(0), frames, FRAME) == OTN_NO_PORT, "frames behind an end");
    for (int turn = 0; turn < 2; turn++)
        want(otn_turn(&node, &told) == OTN_DONE, "a turn");
    for (int again = 0; again < 3; again++) {
        want(otn_turn(&node, &told) == OTN_OVER, "a turn past the last");
        want(otn_report(&node, report, sizeof report, &told) == OTN_DONE, "a report at the end");
    }
    free(left(&node, OTN_CLIENT(4), &length));
    want(otn_close(&node) == OTN_DONE, "closing");
    empty_handle(&node, "a closed handle");
    want(opened(&node, SENDS, 5, &told) == OTN_DONE && otn_close(&node) == OTN_DONE, "opening again");
    free(frames);
}

struct part {
    int turns;
    size_t length, came;
    uint8_t report[9000];
};

/* Two nodes and a fibre: a packet a turn from the one to the other. */
static void *drives(void *own)
{
    struct part *part = own;
    struct otn_node one = OTN_NODE_INIT, other = OTN_NODE_INIT;
    struct otn_told told;
    want(opened(&one, SENDS, part->turns, &told) == OTN_DONE && opened(&other, TAKES, part->turns, &told) == OTN_DONE, "two");
    for (int turn = 1; turn <= part->turns; turn++) {
        size_t length;
        uint8_t *leaves = left(&one, OTN_LINE(0), &length);
        want(length == TURN, "a multiframe leaves");
        char text[20];
        int size = snprintf(text, sizeof text, "ff%04x\n", (unsigned)turn);
        want(handed(&one, OTN_CLIENT(0), text, (size_t)size) == OTN_DONE, "a packet");
        fill(&one, OTN_CLIENT(0));
        want(otn_turn(&one, &told) == OTN_DONE, "a turn of the one");
        want(handed(&other, OTN_LINE(0), leaves, length) == OTN_DONE && otn_turn(&other, &told) == OTN_DONE, "and the other");
        free(leaves);
        uint8_t *came = left(&other, OTN_CLIENT(4), &length);
        for (size_t n = 0; n + 1 < length; n++)
            part->came += came[n] == 'f' && came[n + 1] == 'f' && (n == 0 || came[n - 1] == '\n');
        free(came);
    }
    want(otn_turn(&other, &told) == OTN_OVER, "the end");
    want(otn_report(&other, part->report, sizeof part->report, &told) == OTN_DONE, "its report");
    part->length = told.length;
    want(otn_close(&one) == OTN_DONE && otn_close(&other) == OTN_DONE, "closing both");
    return NULL;
}

int main(int count, char **said)
{
    int threads = count > 1 ? atoi(said[1]) : 8, turns = count > 2 ? atoi(said[2]) : 20;
    struct part *parts = memory((size_t)threads * sizeof *parts);
    pthread_t *ids = memory((size_t)threads * sizeof *ids);
    pthread_attr_t how;
    hostile();
    pthread_attr_init(&how);
    pthread_attr_setstacksize(&how, 1 << 18);
    for (int i = 0; i < threads; i++) {
        parts[i] = (struct part){ turns, 0, 0, { 0 } };
        if (pthread_create(&ids[i], &how, drives, &parts[i]))
            return 2;
    }
    for (int i = 0; i < threads; i++) {
        pthread_join(ids[i], NULL);
        want(parts[i].came == parts[0].came && parts[i].length == parts[0].length
             && !memcmp(parts[i].report, parts[0].report, parts[0].length), "each thread gets the same");
    }
    /* a packet of turn t comes with the answer to turn t + 4; after the last turn nothing leaves */
    want((int)parts[0].came == (turns > 5 ? turns - 5 : 0), "the packets come");
    printf("%d threads, %d turns each, %d packets came: %ld wrong\n", threads, turns, (int)parts[0].came, wrong);
    free(parts), free(ids);
    return wrong != 0;
}
