/* otn: an ODU2 multiplexer and cross-connect (ITU-T G.709), in the process that calls it, over bytes in memory.
 *
 * Clients bring packets. Connections take them into tributary slots of lines, across from line to line, and out to
 * clients again; a plan says which connections there are. One call, `otn_run`, carries a plan over inputs in memory
 * and hands out what the outputs got.
 *
 * WHAT IS PROMISED. What a connection sends depends on its own entry of the plan, its own bytes, and the MFAS bytes of
 * the line that brings them, and on nothing else: no other connection, slot or input, no want of memory of another
 * output, no order of service. The program says this of bytes that a file gave; the library says it of the very bytes
 * that stand in `inputs` and `outputs`. In full: where two calls of "run" each answer OTN_DONE, OTN_UNFINISHED, OTN_CUT
 * or OTN_REPORT_FAULT, both plans have the connection's entry, and its input agrees, then what it sends agrees: its
 * client's text, or its own places on its line. An entry is its keys with their defaults (`stop` is `turns`), and which
 * of its lines are OTU3s. Of a client input there agree its packets and how they end; of a line, unscrambled, the
 * number of whole frames, their MFAS bytes, and the bytes at the connection's own places. An input that is not there
 * has no bytes. An output line is scrambled by both plans, or by neither. All of what is sent agrees where both calls
 * answer OTN_DONE or OTN_UNFINISHED; else what both have of it does.
 *
 * This is proved of the library's code as it was before compilation: the law `headline_of_bytes` of crates/otn_c says
 * it of any two calls of `otn_run` (docs/PROMISES.md, "Isolation of two calls of the library"). No proof speaks of the
 * program that calls: it has to keep the rules below.
 *
 * HOW IT IS CALLED. It takes bytes with their length. It calls the system for nothing but memory: malloc,
 * posix_memalign, realloc, free, and on Linux advice on the pages of large blocks. It gives all of it back. What comes
 * out is kept until the command has ended, so a call takes about as much memory of its own as it hands out. It keeps
 * nothing from one call to the next, has no global state and starts no thread: threads may call it side by side, each
 * with memory of its own to be written to. Call it from no signal handler.
 *
 * - Each pointer points to as many bytes or numbers as the length behind it says, aligned for its type.
 * - No pointer is null, not for a length of 0 either: point to anything then.
 * - `outputs`, `output_ends`, `report` and `told` overlap nothing else that is handed in.
 *
 * Link with libotn.a, or with libotn.so; library/build makes both. C99 and C++.
 *
 *     static const uint8_t words[] = "check", plan[] = "turns = 64\n", none[1] = {0};
 *     size_t ends[OTN_PORTS] = {0}, output_ends[OTN_PORTS];
 *     uint8_t present[OTN_PORTS] = {0}, outputs[1], report[1000];
 *     struct otn_answer told;
 *     uint32_t code = otn_run(words, 5, plan, 11, none, 0, ends, OTN_PORTS, present, OTN_PORTS,
 *                             outputs, 0, output_ends, OTN_PORTS, report, sizeof report, &told);
 *     // code is OTN_DONE, and the first told.report bytes of report are "plan connections 0 turns 64\n"
 *
 * examples/library/two_nodes.c carries packets through two nodes. python/otn.py is a layer over this for Python.
 *
 * WHAT STANDS IN THE BYTES (docs/FORMATS.md has all of it)
 *
 * plan     TOML, as `turns = 12` and for each connection a table such as
 *              [[connection]]
 *              name = "letters"
 *              kind = "odu0"
 *              from = { client = 0 }
 *              to = { line = 0, port = 1, slots = [3] }
 *          A turn is a multiframe of each line.
 * line     frames of 16,320 bytes, one after another, from the start of a frame. An output line has 8 frames a turn, so
 *          130,560 bytes, and 32 frames a turn where the plan says that it is an OTU3.
 * client   a text: for each packet a line of hex digits, two a byte, and a line feed.
 * report   of "slot" and "pull" bytes, of other commands a text in ASCII. No zero byte is put behind it.
 */
#ifndef OTN_H
#define OTN_H

#include <stddef.h>
#include <stdint.h>

#ifdef __cplusplus
extern "C" {
#endif

/* The version of this header, and of the library that it is for. It rises with each call that is added, and with each
 * change of how one is made or of what it answers. */
#define OTN_VERSION 2
/* The number in the name of the shared library, libotn.so.1. It rises where a call goes or is changed, and not where
 * calls are added: what was linked with an older library of that name runs with this one. */
#define OTN_ABI 1

/* How many inputs a call has, and how many outputs: lines 0 to 3 first, then clients 0 to 15. */
#define OTN_PORTS 20
/* The number, among the inputs or the outputs, of line n and of client n. */
#define OTN_LINE(n) (n)
#define OTN_CLIENT(n) (4 + (n))

/* What a call answers. 0 to 7 are the statuses of the program. */
enum otn_code {
    OTN_DONE = 0,         /* nothing was left over */
    OTN_UNFINISHED = 1,   /* a line has more bytes than were wanted, or a client has packets left */
    OTN_WORDS = 2,        /* the words are no command: nothing came out */
    OTN_PLAN = 3,         /* the plan is refused: `rule` and `place` say why, and nothing came out */
    OTN_PLAN_FAULT = 4,   /* never answered: a plan in memory can be read */
    OTN_REPORT_FAULT = 5, /* there was no memory for the report: a part of it came out; "run" has carried its plan */
    OTN_CUT = 6,          /* there was no memory for an output: a part of it came out; the others are as ever */
    OTN_MEMORY = 7,       /* there was no memory for the call: what all that is written to holds then is open */
    OTN_NO_ROOM = 8,      /* `outputs` or `report` is too short; `told` and `output_ends` say how much is wanted */
    OTN_NO_CALL = 9       /* what was handed in is no call, see `otn_run`: nothing was done */
};

/* What a call tells beside the bytes. It is written at all codes but OTN_MEMORY and OTN_NO_CALL. */
struct otn_answer {
    uint32_t status; /* how the command ended, 0 to 6; at OTN_NO_ROOM too. At other codes it is the code */
    uint32_t rule;   /* at OTN_PLAN the rule that the plan breaks, 1 to 15 (docs/FORMATS.md, "Plan file"); else 0 */
    uint64_t place;  /* at OTN_PLAN where: 0 for the top, else the number of the connection, from 1; else 0 */
    size_t report;   /* how many bytes the report has */
    size_t outputs;  /* how many bytes all outputs have together */
};

/* The version of the library that is linked. It is OTN_VERSION where that is the one that this header is for: a program
 * that loads libotn.so asks before its first call. */
uint32_t otn_version(void);

/* Carries out a command, and answers one of `enum otn_code`.
 *
 * Read:
 * words         the command in UTF-8, with one blank between each two of its words: "run", "run --order 7", "check",
 *               "slot 3", "pull 1 1,2", "protect 1 3 20 4", "bundle 0,5 20", "unbundle 20", "trial 5" (docs/FORMATS.md,
 *               "How the program ends"). "run --pcap" is "run" here: clients bring and get texts, and no captures. The
 *               length counts no zero byte behind them
 * plan          the plan; only "run" and "check" look at it
 * inputs        the bytes of the 20 inputs, one behind the other: lines 0 to 3, then clients 0 to 15
 * ends          20 numbers, where each input ends in `inputs`: input n is from ends[n - 1], or 0 for n = 0, up to and
 *               not with ends[n]. An input of no bytes ends where the one before it does
 * present       20 flags: not 0 where there is an input n. Where it is 0 the place is empty, as where the program finds
 *               no file; bytes that `inputs` has for it are not looked at. An input of no bytes is not an empty place:
 *               the report tells them apart
 *
 * Written:
 * outputs       what the 20 outputs got, one behind the other, in the order of the inputs
 * output_ends   20 numbers, where each output ends in `outputs`, as `ends` has it of the inputs
 * report        the report, from its first byte on; `told->report` says how long it is
 * told          the rest of the answer
 *
 * What stands in `outputs` and `report` behind what was handed out is open.
 *
 * `outputs_length` and `report_length` say how many bytes there is room for. Where one of them is too little the code
 * is OTN_NO_ROOM, and what the two hold then is open. `told->outputs` and `told->report` say how much is wanted, and
 * output_ends[n] less output_ends[n - 1] how much output n has. Call again, with as much room. Each call carries out
 * the whole command, so room that suffices at once saves half the time: a line output has as many bytes as the plan's
 * turns say, and a client output about twice as many as its packets.
 *
 * The code is OTN_NO_CALL exactly where one of the three lists has not 20 members, `words` is no UTF-8, or an input ends
 * before it begins or behind `inputs_length`; but it is OTN_MEMORY where there was no memory to find that out. */
uint32_t otn_run(const uint8_t *words, size_t words_length,
                 const uint8_t *plan, size_t plan_length,
                 const uint8_t *inputs, size_t inputs_length,
                 const size_t *ends, size_t ends_length,
                 const uint8_t *present, size_t present_length,
                 uint8_t *outputs, size_t outputs_length,
                 size_t *output_ends, size_t output_ends_length,
                 uint8_t *report, size_t report_length,
                 struct otn_answer *told);

/* ---- A node that is driven turn by turn: for simulators, rings, and lines that are sockets
 *
 * A node is opened by a plan. Then, for each turn, what comes of its inputs is handed in, and the turn is done; what
 * leaves in the next turn is there then. What leaves in turn 1 is there as soon as the node is open, so nodes may stand
 * in a ring. docs/LIVE.md has the rules, and examples/live/ring.c is a ring of three.
 *
 * PROVED of the library's code as it was before compilation: what has left a node is, at any moment, what its plan has
 * due of all bytes that were handed in so far, whatever comes later; after a turn that is done, what `otn_left` puts out
 * is what the output got since the turn before, each byte once; a call that is answered OTN_WAITS, OTN_OVER,
 * OTN_NO_PORT, OTN_NOT_WHOLE or OTN_NO_CALL changes nothing of a node; each call but `otn_open` answers OTN_NO_CALL
 * exactly where the handle is empty. NOT PROVED: that a turn waits only where its plan looks at more, and what `otn_lack`
 * tells. */

/* A handle: empty, or with a node that the library owns. Begin with OTN_NODE_INIT. Keep it where it is, copy it nowhere,
 * write nothing to it, and hand it to one call at a time. Threads may call different nodes side by side; let one thread
 * call a node from its opening to its end. A handle with a node has to be closed: all its memory is given back then, and
 * the handle is empty and may be opened again. */
struct otn_node {
    void *at;
};

#define OTN_NODE_INIT { 0 }

/* What calls of a node answer beside OTN_DONE, OTN_PLAN, OTN_MEMORY, OTN_NO_ROOM and OTN_NO_CALL. */
enum otn_node_code {
    OTN_WAITS = 10,    /* an input lacks something for the turn: `place` says which; nothing was done */
    OTN_OVER = 11,     /* all turns of the plan were done: nothing was done */
    OTN_NO_PORT = 12,  /* there is no such input or output, the plan does not use the input, or it has ended */
    OTN_NOT_WHOLE = 13 /* the bytes are no whole frames of a line, or no whole lines of a client's text */
};

/* What calls of a node tell beside the code. It is written at all codes but OTN_NO_CALL. */
struct otn_told {
    uint32_t rule;  /* at OTN_PLAN the rule that the plan breaks, 1 to 15; else 0 */
    uint64_t place; /* at OTN_PLAN where: 0 for the top, else the number of the connection, from 1. At OTN_WAITS the
                     * number of the input. Of `otn_lack` how many empty lines. Else 0 */
    size_t length;  /* how many bytes there are; of `otn_lack` the bytes of a packet. Else 0 */
};

/* Opens a node of a plan in an empty handle. Answers OTN_DONE, OTN_PLAN, OTN_MEMORY, or OTN_NO_CALL where the handle has
 * a node. */
uint32_t otn_open(const uint8_t *plan, size_t plan_length, struct otn_node *node, struct otn_told *told);

/* Hands in bytes at an input, behind all others of it: at OTN_LINE(n) whole frames, at OTN_CLIENT(n) whole lines of
 * packets. They are copied. Answers OTN_DONE, OTN_NO_PORT, OTN_NOT_WHOLE, OTN_MEMORY or OTN_NO_CALL; nothing is handed
 * in but at OTN_DONE. */
uint32_t otn_hand_in(struct otn_node *node, uint32_t input, const uint8_t *bytes, size_t length);

/* Ends an input: no more comes of it, and no turn waits for it. Answers OTN_DONE, OTN_NO_PORT or OTN_NO_CALL. */
uint32_t otn_end(struct otn_node *node, uint32_t input);

/* Tells what a client lacks for the next turn: a packet of `length` bytes, if that is not 0, and else so many empty lines
 * as `place` says. A client brings packets without a gap until it has ended. So hand in a packet of bytes 0, and ask
 * again, until it lacks nothing. Of a line it tells 0 and 0. Answers OTN_DONE or OTN_NO_CALL. */
uint32_t otn_lack(struct otn_node *node, uint32_t input, struct otn_told *told);

/* Does a turn. Answers OTN_DONE, OTN_WAITS, OTN_OVER, OTN_NO_CALL, or OTN_MEMORY where there was none for what leaves:
 * close the node then. */
uint32_t otn_turn(struct otn_node *node, struct otn_told *told);

/* Puts what leaves at an output in the next turn to the front of `room`: `told->length` bytes. It may be asked for again
 * until the next turn. Answers OTN_DONE, OTN_NO_ROOM, OTN_NO_PORT or OTN_NO_CALL. */
uint32_t otn_left(struct otn_node *node, uint32_t output, uint8_t *room, size_t room_length, struct otn_told *told);

/* Puts the report to the front of `room`: `told->length` bytes. While turns are to come it has the numbers as they stand,
 * and after the last one those of the run. Answers OTN_DONE, OTN_NO_ROOM or OTN_NO_CALL. */
uint32_t otn_report(struct otn_node *node, uint8_t *room, size_t room_length, struct otn_told *told);

/* Closes a node, at whatever moment. Answers OTN_DONE, or OTN_NO_CALL where the handle is empty. */
uint32_t otn_close(struct otn_node *node);

#ifdef __cplusplus
}
#endif

#endif
