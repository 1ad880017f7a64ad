/* What the C checks of the library share: a call over separate inputs, and what it handed out. */
#ifndef CALL_H
#define CALL_H

#include "otn.h"
#include <stdio.h>
#include <stdlib.h>
#include <string.h>

/* What is handed in: words, a plan, and the 20 inputs one behind the other. */
struct given {
    uint8_t *words, *plan, *inputs;
    size_t words_length, plan_length, ends[OTN_PORTS];
    uint8_t present[OTN_PORTS];
};

/* What was handed out; `outputs` and `report` have just the room that there is. */
struct got {
    uint32_t code;
    uint8_t *outputs, *report;
    size_t room, report_room, ends[OTN_PORTS];
    struct otn_answer told;
};

/* Memory that is there, of just so many bytes; one where none is asked for, since no pointer may be null. */
static void *memory(size_t bytes)
{
    void *at = malloc(bytes ? bytes : 1);
    if (!at)
        exit(2);
    return at;
}

/* The bytes of a file, behind what there is already. */
static inline size_t load(const char *name, uint8_t **bytes, size_t length)
{
    FILE *file = fopen(name, "rb");
    if (!file || fseek(file, 0, SEEK_END)) {
        fprintf(stderr, "cannot read %s\n", name);
        exit(2);
    }
    size_t more = (size_t)ftell(file);
    rewind(file);
    *bytes = realloc(*bytes, length + more + 1);
    if (!*bytes || fread(*bytes + length, 1, more, file) != more)
        exit(2);
    fclose(file);
    return length + more;
}

/* What a command line says: WORDS PLAN [NUMBER FILE].., the numbers rising, 0 to 3 of lines and 4 to 19 of clients. */
static inline struct given given_by(int count, char **said)
{
    struct given it = { 0 };
    it.words = (uint8_t *)said[0];
    it.words_length = strlen(said[0]);
    it.plan_length = load(said[1], &it.plan, 0);
    it.inputs = memory(0);
    size_t length = 0;
    int next = 2;
    for (int n = 0; n < OTN_PORTS; n++) {
        if (next + 1 < count && atoi(said[next]) == n) {
            length = load(said[next + 1], &it.inputs, length);
            it.present[n] = 1;
            next += 2;
        }
        it.ends[n] = length;
    }
    return it;
}

/* Room for what a call hands out. */
static struct got room_of(size_t outputs, size_t report)
{
    struct got it = { 0 };
    it.outputs = memory(outputs);
    it.report = memory(report);
    it.room = outputs;
    it.report_room = report;
    return it;
}

static void let_go(struct got *it)
{
    free(it->outputs);
    free(it->report);
}

/* The call. */
static inline uint32_t carry_out(const struct given *in, struct got *out)
{
    memset(&out->told, 0, sizeof out->told);
    out->code = otn_run(in->words, in->words_length, in->plan, in->plan_length, in->inputs, in->ends[OTN_PORTS - 1],
                        in->ends, OTN_PORTS, in->present, OTN_PORTS, out->outputs, out->room, out->ends, OTN_PORTS,
                        out->report, out->report_room, &out->told);
    return out->code;
}

/* The call with just the room that it wants: once without any, and once more. */
static inline struct got answered(const struct given *in)
{
    struct got it = room_of(0, 0);
    if (carry_out(in, &it) == OTN_NO_ROOM) {
        struct got next = room_of(it.told.outputs, it.told.report);
        let_go(&it);
        it = next;
        carry_out(in, &it);
    }
    return it;
}

/* Where output n begins in `outputs`. */
static inline size_t start_of(const struct got *it, int n)
{
    return n ? it->ends[n - 1] : 0;
}

/* Whether two calls answered and handed out the same. */
static inline int are_same(const struct got *one, const struct got *other)
{
    return one->code == other->code && one->told.status == other->told.status && one->told.rule == other->told.rule
        && one->told.place == other->told.place && one->told.report == other->told.report
        && !memcmp(one->ends, other->ends, sizeof one->ends) && !memcmp(one->outputs, other->outputs, one->told.outputs)
        && !memcmp(one->report, other->report, one->told.report);
}

#endif
