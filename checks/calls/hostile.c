/* Calls that are none, that have too little room, and that are drawn by chance: hostile COUNT
 *
 * All that is handed in or out lies in memory of just its length, so that valgrind, or the sanitizers of the compiler,
 * see each byte beside it that is read or written. */
#include "call.h"

static long wrong;

static void want(int holds, const char *what)
{
    if (!holds) {
        printf("wrong: %s\n", what);
        wrong++;
    }
}

/* A call of these lists, with room for 1,000 bytes of each. */
static uint32_t code_of(const char *words, size_t length, const size_t *ends, size_t ends_length, size_t flags,
                        size_t output_ends_length)
{
    uint8_t *said = memory(length), *inputs = memory(3), *outputs = memory(1000), *report = memory(1000);
    uint8_t *present = memory(flags), *plan = memory(0);
    size_t *own = memory(ends_length * sizeof *own), *output_ends = memory(output_ends_length * sizeof *output_ends);
    struct otn_answer *told = memory(sizeof *told);
    memcpy(said, words, length);
    memcpy(own, ends, ends_length * sizeof *own);
    memset(present, 1, flags);
    memset(inputs, 'x', 3);
    uint32_t code = otn_run(said, length, plan, 0, inputs, 3, own, ends_length, present, flags, outputs, 1000,
                            output_ends, output_ends_length, report, 1000, told);
    free(said), free(inputs), free(outputs), free(report), free(present), free(plan);
    free(own), free(output_ends), free(told);
    return code;
}

static void no_calls(void)
{
    size_t ends[21], falling[20], behind[20], most[20];
    for (int n = 0; n < 21; n++)
        ends[n] = 3;
    for (int n = 0; n < 20; n++) {
        falling[n] = n == 0 ? 2 : n == 1 ? 1 : 3;
        behind[n] = n == 19 ? 4 : 3;
        most[n] = SIZE_MAX;
    }
    want(otn_version() == OTN_VERSION, "the version of the header");
    want(code_of("slot 3", 6, ends, 20, 20, 20) == OTN_UNFINISHED, "a call");
    want(code_of("slot 3", 6, ends, 19, 20, 20) == OTN_NO_CALL, "19 ends");
    want(code_of("slot 3", 6, ends, 21, 20, 20) == OTN_NO_CALL, "21 ends");
    want(code_of("slot 3", 6, ends, 0, 20, 20) == OTN_NO_CALL, "no ends");
    want(code_of("slot 3", 6, ends, 20, 21, 20) == OTN_NO_CALL, "21 flags");
    want(code_of("slot 3", 6, ends, 20, 19, 20) == OTN_NO_CALL, "19 flags");
    want(code_of("slot 3", 6, ends, 20, 20, 19) == OTN_NO_CALL, "19 ends of outputs");
    want(code_of("slot 3", 6, ends, 20, 20, 0) == OTN_NO_CALL, "no ends of outputs");
    want(code_of("slot 3", 6, falling, 20, 20, 20) == OTN_NO_CALL, "an input that ends before it begins");
    want(code_of("slot 3", 6, behind, 20, 20, 20) == OTN_NO_CALL, "an input that ends behind the block");
    want(code_of("slot 3", 6, most, 20, 20, 20) == OTN_NO_CALL, "inputs that end at the last address");
    want(code_of("slot\xff", 5, ends, 20, 20, 20) == OTN_NO_CALL, "words that are no text");
    want(code_of("\xc0\xaf", 2, ends, 20, 20, 20) == OTN_NO_CALL, "a character in too many bytes");
    want(code_of("", 0, ends, 20, 20, 20) == OTN_WORDS, "no words");
    want(code_of("run  --order 7", 14, ends, 20, 20, 20) == OTN_WORDS, "two blanks");
    want(code_of("slot 3 ", 7, ends, 20, 20, 20) == OTN_WORDS, "a blank at the end");
    want(code_of("slot 3\0", 7, ends, 20, 20, 20) == OTN_WORDS, "a zero byte at the end");
    want(code_of("slot 3\n", 7, ends, 20, 20, 20) == OTN_WORDS, "a line feed at the end");
    want(code_of("slot\t3", 6, ends, 20, 20, 20) == OTN_WORDS, "a tab for a blank");
    want(code_of("--help", 6, ends, 20, 20, 20) == OTN_WORDS, "a page of the program");
}

static const char across[] =
    "turns = 2\n[[connection]]\nname = \"a\"\nkind = \"odu0\"\nfrom = { line = 0, port = 1, slots = [3] }\n"
    "to = { line = 1, port = 1, slots = [3] }\n[[connection]]\nname = \"b\"\nkind = \"flex\"\n"
    "from = { client = 0 }\nto = { line = 1, port = 2, slots = [4, 5] }\npace = [30000, 30000]\n"
    "[[connection]]\nname = \"c\"\nkind = \"odu0\"\nfrom = { line = 0, port = 1, slots = [3] }\nto = { client = 15 }\n";

static struct given of_text(const char *words, const char *plan)
{
    struct given it = { 0 };
    it.words = (uint8_t *)words;
    it.words_length = strlen(words);
    it.plan = (uint8_t *)plan;
    it.plan_length = strlen(plan);
    it.inputs = memory(0);
    return it;
}

/* The room of a call, from none to just enough: too little is said, with what is wanted, and just enough will do. */
static void rooms(void)
{
    struct given in = of_text("run", across);
    struct got whole = answered(&in);
    want(whole.code == OTN_DONE && whole.told.outputs == 2 * 130560, "an output line of two turns");
    const size_t less[] = { 0, 1, whole.told.outputs / 2, whole.told.outputs - 1, whole.told.outputs };
    for (int i = 0; i < 5; i++)
        for (int j = 0; j < 2; j++) {
            struct got it = room_of(less[i], whole.told.report - (size_t)j);
            int suffices = i == 4 && j == 0;
            want((carry_out(&in, &it) == OTN_NO_ROOM) == !suffices, "what does not fit is said");
            want(it.told.outputs == whole.told.outputs && it.told.report == whole.told.report, "how much is wanted");
            want(it.told.status == whole.told.status, "how the command ended, without room");
            want(!memcmp(it.ends, whole.ends, sizeof it.ends), "how much each output wants");
            want(!suffices || are_same(&it, &whole), "just enough suffices");
            let_go(&it);
        }
    let_go(&whole);
    free(in.inputs);
}

/* The state that the report tells of line input 0, which is there or not, with no byte. */
static void absent(void)
{
    for (uint8_t is_there = 0; is_there < 2; is_there++) {
        struct given in = of_text("run", across);
        in.present[0] = is_there;
        struct got it = answered(&in);
        it.report[it.told.report - 1] = 0;
        const char *line = strstr((char *)it.report, "line-in 0 ");
        const char *wanted = is_there ? "pm 0 live\n" : "pm 0 empty\n";
        const char *found = line ? strstr(line, "pm 0 ") : NULL;
        want(found && !strncmp(found, wanted, strlen(wanted)), "a line of no byte, or none");
        let_go(&it);
        free(in.inputs);
    }
}

/* `run --pcap` is `run`: the clients of a call are texts. */
static void captures(void)
{
    static const char packets[] = "68656c6c6f\n776f726c64\n";
    struct given in = of_text("run", across), other = of_text("run --pcap", across);
    for (int n = OTN_CLIENT(0); n < OTN_PORTS; n++)
        in.ends[n] = other.ends[n] = sizeof packets - 1;
    in.present[OTN_CLIENT(0)] = other.present[OTN_CLIENT(0)] = 1;
    free(in.inputs), free(other.inputs);
    in.inputs = (uint8_t *)packets;
    other.inputs = (uint8_t *)packets;
    struct got one = answered(&in), two = answered(&other);
    one.report[one.told.report - 1] = 0;
    want(strstr((char *)one.report, "client-in 0 packets 2 spent live") != NULL, "two packets");
    one.report[one.told.report - 1] = '\n';
    want(are_same(&one, &two), "run --pcap is run");
    let_go(&one);
    let_go(&two);
}

/* A plan that is no plan, and one that is. */
static void plans(void)
{
    struct given in = of_text("check", "turns = 0");
    struct got it = answered(&in);
    want(it.code == OTN_PLAN && it.told.rule == 5 && !it.told.place && !it.told.report, "a plan of no turns");
    let_go(&it);
    free(in.inputs);
    in = of_text("check", across);
    it = answered(&in);
    want(it.code == OTN_DONE && it.told.report == 27, "the report of a plan");
    want(!memcmp(it.report, "plan connections 3 turns 2\n", 27), "a plan of three connections");
    let_go(&it);
    free(in.inputs);
}

static uint64_t drawn = 1;

/* The next number of a generator (xorshift), below `below`. */
static size_t draw(size_t below)
{
    drawn ^= drawn << 13;
    drawn ^= drawn >> 7;
    drawn ^= drawn << 17;
    return (size_t)(drawn % below);
}

/* Bytes by chance, now and then a line that counts up, in parts by chance: the call is answered, twice the same. */
static void by_chance(void)
{
    static const char *const words[] = { "run", "run --order 3", "slot 3", "pull 1 3", "protect 1 3 2 1",
                                         "unbundle 2", "bundle 0,5 2" };
    struct given in = of_text(words[draw(7)], across);
    size_t length = draw(400000), at = 0;
    free(in.inputs);
    in.inputs = memory(length);
    for (size_t i = 0; i < length; i++)
        in.inputs[i] = (uint8_t)draw(256);
    if (draw(2))
        for (size_t frame = 0; frame * 16320 + 7 < length; frame++)
            in.inputs[frame * 16320 + 6] = (uint8_t)frame;
    for (int n = 0; n < OTN_PORTS; n++) {
        at += draw(4) ? 0 : draw(length - at + 1);
        in.ends[n] = n == 0 && draw(2) ? at = length : at;
        in.present[n] = (uint8_t)(draw(2) * 128);
    }
    uint8_t *before = memory(length);
    memcpy(before, in.inputs, length);
    struct got one = answered(&in), other = room_of(one.told.outputs + 5, one.told.report + 5);
    carry_out(&in, &other);
    want(one.code < OTN_MEMORY && one.code != OTN_PLAN, "bytes by chance are answered");
    want(are_same(&one, &other), "a call that is made again has the same answer");
    want(!memcmp(before, in.inputs, length), "the inputs are not written to");
    free(before);
    let_go(&one);
    let_go(&other);
    free(in.inputs);
}

int main(int count, char **said)
{
    long calls = count > 1 ? atol(said[1]) : 100;
    no_calls();
    rooms();
    absent();
    captures();
    plans();
    for (long i = 0; i < calls; i++)
        by_chance();
    printf("hostile calls, and %ld by chance: %ld wrong\n", calls, wrong);
    return wrong != 0;
}
