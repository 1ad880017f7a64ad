/* Two nodes in a row in one process: what node A writes to line 0 is line 0 of node B, and the packets come out there.
 *
 *     library/build out && cc -I include examples/library/two_nodes.c out/libotn.a -o out/two_nodes && out/two_nodes
 */
#include "otn.h"
#include <stdio.h>
#include <stdlib.h>
#include <string.h>

static const char node_a[] =
    "turns = 12\n"
    "[[connection]]\nname = \"letters\"\nkind = \"odu0\"\n"
    "from = { client = 0 }\nto = { line = 0, port = 1, slots = [3] }\n";
static const char node_b[] =
    "turns = 12\n"
    "[[connection]]\nname = \"letters\"\nkind = \"odu0\"\n"
    "from = { line = 0, port = 1, slots = [3] }\nto = { client = 4 }\n";

/* What a node made: its outputs, which the caller frees. */
struct made {
    uint8_t *outputs;
    size_t ends[OTN_PORTS];
    uint32_t code;
};

/* Carries a plan over one input, and asks once more where there was too little room. */
static struct made carry(const char *plan, int input, const uint8_t *bytes, size_t length)
{
    static const uint8_t words[] = "run";
    struct made made = { NULL, { 0 }, OTN_NO_ROOM };
    struct otn_answer told = { 0, 0, 0, 1000, 100000 };
    size_t ends[OTN_PORTS];
    uint8_t present[OTN_PORTS] = { 0 }, *report = NULL;
    present[input] = 1;
    for (int n = 0; n < OTN_PORTS; n++)
        ends[n] = n < input ? 0 : length;
    while (made.code == OTN_NO_ROOM) {
        made.outputs = realloc(made.outputs, told.outputs + 1);
        report = realloc(report, told.report + 1);
        if (!made.outputs || !report)
            exit(1);
        made.code = otn_run(words, sizeof words - 1, (const uint8_t *)plan, strlen(plan), bytes, length, ends,
                            OTN_PORTS, present, OTN_PORTS, made.outputs, told.outputs, made.ends, OTN_PORTS, report,
                            told.report, &told);
    }
    printf("%.*s", (int)told.report, (const char *)report);
    free(report);
    return made;
}

/* Output n of what a node made. */
static const uint8_t *output(const struct made *made, int n, size_t *length)
{
    size_t start = n ? made->ends[n - 1] : 0;
    *length = made->ends[n] - start;
    return made->outputs + start;
}

int main(void)
{
    static const uint8_t packets[] = "68656c6c6f\n776f726c64\n";
    size_t length;
    if (otn_version() != OTN_VERSION) {
        fprintf(stderr, "this is another version of the library\n");
        return 2;
    }
    struct made a = carry(node_a, OTN_CLIENT(0), packets, sizeof packets - 1);
    const uint8_t *line = output(&a, OTN_LINE(0), &length);
    printf("line 0: %zu bytes\n", length);
    struct made b = carry(node_b, OTN_LINE(0), line, length);
    const uint8_t *text = output(&b, OTN_CLIENT(4), &length);
    printf("client 4:\n%.*s", (int)length, (const char *)text);
    int same = a.code == OTN_DONE && b.code == OTN_DONE && length == sizeof packets - 1
        && !memcmp(text, packets, length);
    free(a.outputs);
    free(b.outputs);
    return same ? 0 : 1;
}
