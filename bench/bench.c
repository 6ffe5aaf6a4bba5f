/* bench FILE REPEAT: the sum of the answers and the nanoseconds of one round over the cases of FILE, the best of REPEAT.
 * The cases are those of tests/host/serve.c, T, J, R, S, M, A, E and K alone; R reads an image and writes nothing. And
 * p, which has the slices of J and is reported. */
#include <stdio.h>
#include <stdlib.h>
#include <time.h>

#include "zimboralo.h"

struct slice {
    const uint8_t *at;
    size_t length;
};

struct one {
    int kind;
    struct slice slices[4];
};

static struct zimboralo_tables tables;
static uint8_t work[ZIMBORALO_WORK_BYTES];
static struct zimboralo_rule merged;
static struct zimboralo_report report;

/* The answers of starting and of all steps, and the set's bytes at the end, in one sum. */
static uint64_t watch(const struct slice *image, const struct slice *letters)
{
    struct zimboralo_set set;
    uint64_t sum = zimboralo_field_start_set(image->at, image->length, &set);
    for (size_t i = 0; i < letters->length; i++)
        sum += zimboralo_field_step_set(image->at, image->length, &set, letters->at[i]);
    for (size_t k = 0; k < sizeof set.bytes; k++)
        sum += set.bytes[k];
    return sum;
}

static uint64_t answer(const struct one *c)
{
    const struct slice *s = c->slices;
    if (c->kind == 'T')
        return zimboralo_translate_rule(s[0].at, s[0].length, &tables);
    if (c->kind == 'R')
        return zimboralo_read_image(s[0].at, s[0].length, &tables);
    if (c->kind == 'M')
        return zimboralo_merge_rules(s[0].at, s[0].length, s[1].at, s[1].length, &merged);
    if (c->kind == 'A')
        return watch(&s[0], &s[1]);
    if (c->kind == 'E')
        return zimboralo_explain(s[0].at, s[0].length, s[1].at, s[1].length, s[2].at, s[2].length);
    if (c->kind == 'K')
        return zimboralo_satisfies(s[0].at, s[0].length, s[1].at, s[1].length, s[2].at, s[2].length);
    if (c->kind == 'S')
        return zimboralo_same_word(s[0].at, s[0].length, s[1].at, s[1].length, s[2].at, s[2].length, s[3].at,
                                   s[3].length);
    if (c->kind == 'p') {
        zimboralo_report(4660, s[0].at, s[0].length, s[1].at, s[1].length, s[2].at, s[2].length, work, sizeof work,
                         report.bytes, sizeof report.bytes);
        return zimboralo_report_verdict(&report);
    }
    return zimboralo_judge(s[0].at, s[0].length, s[1].at, s[1].length, s[2].at, s[2].length, work, sizeof work);
}

/* How many slices a case has. */
static int slices_of(int kind)
{
    return kind == 'S' ? 4
           : kind == 'J' || kind == 'p' || kind == 'E' || kind == 'K' ? 3
           : kind == 'M' || kind == 'A' ? 2
                                        : 1;
}

static long long now(void)
{
    struct timespec t;
    clock_gettime(CLOCK_MONOTONIC, &t);
    return t.tv_sec * 1000000000LL + t.tv_nsec;
}

int main(int count, char **words)
{
    FILE *f = count == 3 ? fopen(words[1], "rb") : NULL;
    if (!f)
        return 2;
    fseek(f, 0, SEEK_END);
    long size = ftell(f);
    rewind(f);
    uint8_t *bytes = malloc((size_t)size + 1);
    struct one *cases = malloc(sizeof *cases * ((size_t)size + 1));
    if (!bytes || !cases || fread(bytes, 1, (size_t)size, f) != (size_t)size)
        return 2;
    fclose(f);
    size_t n = 0;
    for (long at = 0; at < size; n++) {
        cases[n].kind = bytes[at++];
        for (int k = 0; k < slices_of(cases[n].kind); k++) {
            size_t length = bytes[at] | (size_t)bytes[at + 1] << 8 | (size_t)bytes[at + 2] << 16 | (size_t)bytes[at + 3] << 24;
            cases[n].slices[k] = (struct slice){bytes + at + 4, length};
            at += 4 + (long)length;
        }
    }
    long long best = -1;
    uint64_t sum = 0;
    for (int r = atoi(words[2]); r > 0; r--) {
        long long start = now();
        sum = 0;
        for (size_t i = 0; i < n; i++)
            sum += answer(&cases[i]);
        long long took = now() - start;
        if (best < 0 || took < best)
            best = took;
    }
    printf("%llu %lld\n", (unsigned long long)sum, best);
    free(cases);
    free(bytes);
    return 0;
}
