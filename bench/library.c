/* Times calls over the files of the current folder, which are read beforehand: library WORDS
 *
 * For each line of standard input it makes one round, and prints processor time in ms, of the user and the system: of a
 * call with room made before; of a call with fresh room, as a first call has it; and of copying the inputs and what was
 * handed out, once each, into fresh memory. The first line that it prints has the code and how many bytes there are. */
#define _DEFAULT_SOURCE
#include "otn.h"
#include <stdio.h>
#include <stdlib.h>
#include <string.h>
#include <sys/mman.h>
#include <sys/resource.h>

static double now(void)
{
    struct rusage used;
    getrusage(RUSAGE_SELF, &used);
    return used.ru_utime.tv_sec * 1e3 + used.ru_utime.tv_usec / 1e3 + used.ru_stime.tv_sec * 1e3
        + used.ru_stime.tv_usec / 1e3;
}

static uint8_t *plan, *inputs, *outputs, *report;
static size_t plan_length, length, room, report_room, ends[OTN_PORTS], output_ends[OTN_PORTS];
static uint8_t present[OTN_PORTS];
static struct otn_answer told;

static size_t load(const char *name, uint8_t **bytes, size_t before)
{
    FILE *file = fopen(name, "rb");
    if (!file)
        return before;
    fseek(file, 0, SEEK_END);
    size_t more = (size_t)ftell(file);
    rewind(file);
    *bytes = realloc(*bytes, before + more + 1);
    if (!*bytes || fread(*bytes + before, 1, more, file) != more)
        exit(2);
    fclose(file);
    return before + more;
}

/* Memory of the system's own, of which each page is made when it is first written. */
static uint8_t *fresh(size_t bytes)
{
    void *at = mmap(NULL, bytes, PROT_READ | PROT_WRITE, MAP_PRIVATE | MAP_ANONYMOUS, -1, 0);
    if (at == MAP_FAILED)
        exit(2);
    return at;
}

static uint32_t call(const char *words, uint8_t *out, size_t out_room, uint8_t *said, size_t said_room)
{
    return otn_run((const uint8_t *)words, strlen(words), plan, plan_length, inputs, length, ends, OTN_PORTS, present,
                   OTN_PORTS, out, out_room, output_ends, OTN_PORTS, said, said_room, &told);
}

static double warm_call(const char *words)
{
    double start = now();
    call(words, outputs, room, report, report_room);
    return now() - start;
}

static double first_call(const char *words)
{
    double start = now();
    uint8_t *other = fresh(room + 1), *another = fresh(report_room + 1);
    call(words, other, room, another, report_room);
    munmap(other, room + 1);
    munmap(another, report_room + 1);
    return now() - start;
}

static double copying_in(void)
{
    double start = now();
    uint8_t *copy = fresh(length + 1);
    memcpy(copy, inputs, length);
    munmap(copy, length + 1);
    return now() - start;
}

static double copying_out(void)
{
    double start = now();
    uint8_t *copy = fresh(room + report_room + 1);
    memcpy(copy, outputs, room);
    memcpy(copy + room, report, report_room);
    munmap(copy, room + report_room + 1);
    return now() - start;
}

int main(int count, char **said)
{
    const char *words = count > 1 ? said[1] : "run";
    char name[32], line[32];
    uint8_t one[1];
    inputs = malloc(1);
    plan = malloc(1);
    plan_length = load("plan.toml", &plan, 0);
    for (int n = 0; n < OTN_PORTS; n++) {
        sprintf(name, n < 4 ? "line-%d.in" : "client-%02d.in", n < 4 ? n : n - 4);
        size_t next = load(name, &inputs, length);
        present[n] = next > length;
        ends[n] = length = next;
    }
    call(words, one, 0, one, 0);
    room = told.outputs;
    report_room = told.report;
    outputs = fresh(room + 1);
    report = fresh(report_room + 1);
    uint32_t code = call(words, outputs, room, report, report_room);
    printf("%u %zu %zu\n", (unsigned)code, length, room + report_room);
    fflush(stdout);
    while (fgets(line, sizeof line, stdin)) {
        double warm = warm_call(words), cold = first_call(words), in = copying_in(), out = copying_out();
        printf("%.3f %.3f %.3f %.3f\n", warm, cold, in, out);
        fflush(stdout);
    }
    return 0;
}
