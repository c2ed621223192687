/* Two archives of the engine in one process, their calls in turn on the same bytes: what a change costs in time. The calls of the archive
 * before the change are linked under names of their own, and the inputs are those of docs/BENCHMARKS.md, which has the commands.
 *
 *   beside DIR                             the least time of each work at each size, in microseconds, before and after
 *   beside DIR PART WORK ENGINE TIMES      one piece of work so many times, for callgrind; ENGINE is 0 before, 1 after
 */
#include <stdio.h>
#include <stdlib.h>
#include <string.h>
#include <time.h>

#include "pnet.h"

enum { TIMES = 1000 };

extern __typeof__(pnet_read_net) before_pnet_read_net;
extern __typeof__(pnet_run) before_pnet_run;
extern __typeof__(pnet_certify) before_pnet_certify;
extern __typeof__(pnet_complement) before_pnet_complement;
extern __typeof__(pnet_statement) before_pnet_statement;

static const struct engine {
    __typeof__(pnet_read_net) *read_net;
    __typeof__(pnet_run) *run;
    __typeof__(pnet_certify) *certify;
    __typeof__(pnet_complement) *complement;
    __typeof__(pnet_statement) *statement;
} engines[2] = {
    {before_pnet_read_net, before_pnet_run, before_pnet_certify, before_pnet_complement, before_pnet_statement},
    {pnet_read_net, pnet_run, pnet_certify, pnet_complement, pnet_statement},
};

struct input {
    uint8_t bytes[65536];
    size_t length;
};

static struct input net, movements, marking, claim, bounded, whole;
static uint32_t counts[256];
static uint8_t out[PNET_TEXT_ROOM];

static void read_input(struct input *input, const char *folder, const char *part, const char *name)
{
    char path[4096];
    snprintf(path, sizeof path, "%s/%s-%s", folder, name, part);
    FILE *file = fopen(path, "rb");
    if (!file || !(input->length = fread(input->bytes, 1, sizeof input->bytes, file))) {
        perror(path);
        exit(1);
    }
    fclose(file);
}

static void read_inputs(const char *folder, const char *part)
{
    read_input(&net, folder, part, "net");
    read_input(&movements, folder, part, "movements");
    read_input(&marking, folder, part, "marking");
    read_input(&claim, folder, part, "claim");
    read_input(&bounded, folder, part, "bounded");
    read_input(&whole, folder, part, "input");
}

static const char *const works[] = {"read", "run", "certify", "complement", "statement"};

static struct pnet_answer once(const struct engine *engine, int work)
{
    const uint32_t *claimed = (const uint32_t *)claim.bytes;
    size_t pairs = claim.length / sizeof *claimed;
    switch (work) {
    case 0: return engine->read_net(net.bytes, net.length).answer;
    case 1: return engine->run(net.bytes, net.length, movements.bytes, movements.length, counts, pairs).answer;
    case 2: return engine->certify(net.bytes, net.length, movements.bytes, movements.length, claimed, pairs);
    case 3: return engine->complement(bounded.bytes, bounded.length, out, sizeof out).answer;
    default: return engine->statement(whole.bytes, whole.length, out, sizeof out).answer;
    }
}

/* One repetition, in microseconds; a marking is set back outside the time. */
static double timed(const struct engine *engine, int work)
{
    struct timespec from, to;
    memcpy(counts, marking.bytes, marking.length);
    clock_gettime(CLOCK_MONOTONIC, &from);
    struct pnet_answer answer = once(engine, work);
    clock_gettime(CLOCK_MONOTONIC, &to);
    if (answer.number) {
        fprintf(stderr, "%s is refused\n", works[work]);
        exit(1);
    }
    return 1e6 * (to.tv_sec - from.tv_sec) + 1e-3 * (to.tv_nsec - from.tv_nsec);
}

int main(int words, char **word)
{
    if (words == 6) {
        read_inputs(word[1], word[2]);
        for (int times = atoi(word[5]); times > 0; times--)
            timed(&engines[atoi(word[4])], atoi(word[3]));
        return 0;
    }
    static const char *const parts[] = {"1", "4", "16"};
    for (int part = 0; part < 3; part++) {
        read_inputs(word[1], parts[part]);
        for (int work = 0; work < 5; work++) {
            double least[2] = {1e9, 1e9};
            for (int i = 0; i < 2 * TIMES; i++) {
                double time = timed(&engines[i % 2], work);
                if (time < least[i % 2])
                    least[i % 2] = time;
            }
            printf("%s %s %.3f %.3f\n", works[work], parts[part], least[0], least[1]);
        }
    }
}
