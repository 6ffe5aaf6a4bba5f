/* Answers a stream of cases in one process, for the soak: each case is a letter and its slices, each slice behind its
 * length in four bytes, low byte first.
 *
 *     N rule                   its negation normal form in hexadecimal, or `refused N place P`; `other` where the bytes
 *                              behind it are not zero, or a refusal has touched one
 *     M rule rule              likewise of both rules merged
 *     T rule                   the conflicts, and the image's bytes, in hexadecimal, or the refusal
 *     F rule                   likewise, as the field unit takes it
 *     U image set              `quiet` or `alarm` of starting the field unit, and the set's bytes, or the refusal;
 *                              `other` where that has touched one
 *     V image set letter       likewise of a step
 *     A image letters          starting and a step for each letter, with the set in a struct: `quiet`, or `alarm` and
 *                              after how many letters it was raised, and the set's bytes, or the refusal; `other` where
 *                              it was lowered again
 *     J image stem cycle       `kept` or `broken` and how many pairs were taken, or the refusal; `other` where a
 *                              verdict leaves a working byte that is not zero, or a refusal has touched one, or the
 *                              answer has anything else
 *     R image                  `same` if read and then written it is the same bytes, `other` if not or if the answer
 *                              has more than the counts, or the refusal
 *     W counts and three tables   the image's bytes, or the refusal; the counts are three numbers of four bytes
 *     D rule stem cycle        as J, of deciding in one call; `other` where a buffer is not as the calls leave it
 *     B rule rule stem cycle   as D, of both rules merged, or merge's refusal
 *     S stem cycle stem cycle  `one word` or `two words`, or the refusal
 *     E rule stem cycle        `kept`, or the clause and the part that shows where it is broken, with its first index in
 *                              the stem or in the cycle and its bytes, or that it never comes, or the refusal; `other`
 *                              where a part does not go to the end of its slice, or the answer has anything else
 *     K rule stem cycle        `kept` or `broken` by the meaning of the rule alone, or the refusal; likewise
 *     P number image stem cycle work report   the lent bytes of the report afterwards, or the refusal; the number has
 *                              two bytes, low byte first, and `work` is how many working bytes are lent, in four;
 *                              `other` where these are not as judging leaves them, or a refusal has touched a byte, or
 *                              the answer has anything else
 *
 * One line each; `other` also for a refusal that has more than its number and place. It ends where the input does. */
#include <stdio.h>
#include <stdlib.h>
#include <string.h>

#include "zimboralo.h"

static struct zimboralo_buffers buffers;

/* The longest slice of a case; what the buffers are filled with before a call whose bytes are looked at. */
enum { LONGEST = 1 << 17, UNSET = 0xa5 };

static size_t number(const uint8_t *at)
{
    return at[0] | (size_t)at[1] << 8 | (size_t)at[2] << 16 | (size_t)at[3] << 24;
}

/* The next slice, in memory of its own exact size so that a read past its end is found. */
static uint8_t *slice(size_t *length)
{
    uint8_t prefix[4];
    if (fread(prefix, 1, 4, stdin) != 4)
        exit(1);
    *length = number(prefix);
    if (*length > LONGEST)
        exit(1);
    uint8_t *at = malloc(*length ? *length : 1);
    if (!at || fread(at, 1, *length, stdin) != *length)
        exit(1);
    return at;
}

/* Prints a refusal, of which nothing stands above its place. */
static int refused(uint64_t answer)
{
    if (zimboralo_number(answer) == ZIMBORALO_ACCEPTED)
        return 0;
    if (answer >> 40)
        puts("other");
    else
        printf("refused %u place %u\n", zimboralo_number(answer), zimboralo_place(answer));
    return 1;
}

static void print_verdict(uint64_t answer)
{
    if (refused(answer))
        return;
    unsigned kept = (unsigned)zimboralo_kept(answer), pairs = zimboralo_pairs(answer);
    if (answer != ((uint64_t)kept << 8 | (uint64_t)pairs << 16))
        puts("other");
    else
        printf("%s %u\n", kept ? "kept" : "broken", pairs);
}

static void print_bytes(const uint8_t *bytes, size_t length)
{
    for (size_t i = 0; i < length; i++)
        printf("%02x", bytes[i]);
    puts("");
}

static void print_image(uint64_t answer)
{
    if (!refused(answer))
        print_bytes(buffers.image.bytes, zimboralo_length(answer));
}

/* What an answer leaves of bytes that were not set: zero by an acceptance, as they were by a refusal. */
static uint8_t left(uint64_t answer) { return zimboralo_number(answer) == ZIMBORALO_ACCEPTED ? 0 : UNSET; }

static int filled(const uint8_t *bytes, size_t length, uint8_t byte)
{
    for (size_t i = 0; i < length; i++)
        if (bytes[i] != byte)
            return 0;
    return 1;
}

/* A rule of which no byte is set, and what an answer has made of it. */
static void unset(struct zimboralo_rule *rule)
{
    memset(rule->bytes, UNSET, sizeof rule->bytes);
    rule->length = 0;
}

static void print_rule(const struct zimboralo_rule *rule, uint64_t answer)
{
    if (rule->length > sizeof rule->bytes
        || !filled(rule->bytes + rule->length, sizeof rule->bytes - rule->length, left(answer)))
        puts("other");
    else if (!refused(answer))
        print_bytes(rule->bytes, rule->length);
}

static void normalize(void)
{
    struct zimboralo_rule normal;
    unset(&normal);
    size_t n;
    uint8_t *rule = slice(&n);
    print_rule(&normal, zimboralo_normalize_rule(rule, n, &normal));
    free(rule);
}

static void merge(void)
{
    struct zimboralo_rule merged;
    unset(&merged);
    size_t n, m;
    uint8_t *first = slice(&n), *second = slice(&m);
    print_rule(&merged, zimboralo_merge_rules(first, n, second, m, &merged));
    free(first);
    free(second);
}

/* zimboralo_translate_rule, or zimboralo_field_translate_rule. */
typedef uint64_t translation(const uint8_t *rule, size_t length, struct zimboralo_tables *tables);

static void translate(translation *call)
{
    size_t n;
    uint8_t *rule = slice(&n);
    uint64_t made = call(rule, n, &buffers.tables);
    if (!refused(made)) {
        printf("%02x ", zimboralo_conflicts(made));
        print_image(zimboralo_write_image(&buffers.tables, &buffers.image));
    }
    free(rule);
}

/* What starting or a step has answered and left of a set. */
static void print_set(uint64_t answer, const uint8_t *set, const uint8_t *before, size_t length)
{
    if (zimboralo_number(answer) != ZIMBORALO_ACCEPTED && memcmp(set, before, length) == 0) {
        refused(answer);
    } else if (answer == (uint64_t)zimboralo_alarm(answer) << 8) {
        printf("%s ", zimboralo_alarm(answer) ? "alarm" : "quiet");
        print_bytes(set, length);
    } else {
        puts("other");
    }
}

static void start_or_step(int step)
{
    size_t n, m, k;
    uint8_t *bytes = slice(&n), *set = slice(&m), *letter = step ? slice(&k) : NULL, *before = malloc(m ? m : 1);
    if (!before || (step && k != 1))
        exit(1);
    memcpy(before, set, m);
    uint64_t answer = step ? zimboralo_field_step(bytes, n, set, m, *letter) : zimboralo_field_start(bytes, n, set, m);
    print_set(answer, set, before, m);
    free(bytes);
    free(set);
    free(letter);
    free(before);
}

static void watch(void)
{
    struct zimboralo_set set;
    size_t n, m, raised = 0;
    uint8_t *bytes = slice(&n), *letters = slice(&m);
    uint64_t answer = zimboralo_field_start_set(bytes, n, &set);
    int lowered = 0, alarm = zimboralo_alarm(answer);
    if (!refused(answer)) {
        for (size_t i = 0; i < m; i++) {
            answer = zimboralo_field_step_set(bytes, n, &set, letters[i]);
            raised += !alarm;
            lowered = lowered || zimboralo_number(answer) != ZIMBORALO_ACCEPTED || (alarm && !zimboralo_alarm(answer));
            alarm = zimboralo_alarm(answer);
        }
        if (lowered)
            printf("other ");
        else if (alarm)
            printf("alarm %zu ", raised);
        else
            printf("quiet ");
        print_bytes(set.bytes, sizeof set.bytes);
    }
    free(bytes);
    free(letters);
}

static void judge(void)
{
    size_t n, s, c;
    uint8_t *bytes = slice(&n), *stem = slice(&s), *cycle = slice(&c);
    memset(buffers.work, UNSET, sizeof buffers.work);
    uint64_t answer = zimboralo_judge(bytes, n, stem, s, cycle, c, buffers.work, sizeof buffers.work);
    if (!filled(buffers.work, sizeof buffers.work, left(answer)))
        puts("other");
    else
        print_verdict(answer);
    free(bytes);
    free(stem);
    free(cycle);
}

static void read_back(void)
{
    size_t n;
    uint8_t *bytes = slice(&n);
    uint64_t loaded = zimboralo_read_image(bytes, n, &buffers.tables);
    if (!refused(loaded) && !refused(zimboralo_write_image(&buffers.tables, &buffers.image)))
        puts(!(loaded >> 40) && buffers.image.length == n && memcmp(buffers.image.bytes, bytes, n) == 0 ? "same"
                                                                                                         : "other");
    free(bytes);
}

static void write_tables(void)
{
    size_t n, s, t, i;
    uint8_t *counts = slice(&n), *rows = slice(&s), *edges = slice(&t), *first = slice(&i);
    if (n != 12)
        exit(1);
    print_image(zimboralo_write(rows, s, number(counts), edges, t, number(counts + 4), first, i, number(counts + 8),
                                buffers.image.bytes, sizeof buffers.image.bytes));
    free(counts);
    free(rows);
    free(edges);
    free(first);
}

/* The buffers as translate, write and judge leave them, where the answer is a verdict or 20 to 24. */
static void in_a_row(struct zimboralo_buffers *b, const uint8_t *rule, size_t n)
{
    if (zimboralo_number(zimboralo_translate_rule(rule, n, &b->tables)) != ZIMBORALO_ACCEPTED)
        return;
    zimboralo_write_image(&b->tables, &b->image);
    memset(b->work, 0, sizeof b->work);
}

static int same_tables(const struct zimboralo_tables *a, const struct zimboralo_tables *b)
{
    return memcmp(a->states, b->states, sizeof a->states) == 0
           && memcmp(a->transitions, b->transitions, sizeof a->transitions) == 0
           && memcmp(a->initial, b->initial, sizeof a->initial) == 0 && a->state_count == b->state_count
           && a->transition_count == b->transition_count && a->initial_count == b->initial_count;
}

static int same_buffers(const struct zimboralo_buffers *a, const struct zimboralo_buffers *b)
{
    return same_tables(&a->tables, &b->tables) && a->image.length == b->image.length
           && memcmp(a->image.bytes, b->image.bytes, sizeof a->image.bytes) == 0
           && memcmp(a->work, b->work, sizeof a->work) == 0;
}

static void decide_rule(const uint8_t *rule, size_t n, const uint8_t *stem, size_t s, const uint8_t *cycle, size_t c)
{
    static struct zimboralo_buffers want;
    memset(&buffers, UNSET, sizeof buffers);
    memset(&want, UNSET, sizeof want);
    uint64_t answer = zimboralo_decide_plan(rule, n, stem, s, cycle, c, &buffers);
    unsigned number = zimboralo_number(answer);
    if (number == ZIMBORALO_ACCEPTED || zimboralo_clears(number))
        in_a_row(&want, rule, n);
    if (!same_buffers(&buffers, &want))
        puts("other");
    else
        print_verdict(answer);
}

static void decide(void)
{
    size_t n, s, c;
    uint8_t *rule = slice(&n), *stem = slice(&s), *cycle = slice(&c);
    decide_rule(rule, n, stem, s, cycle, c);
    free(rule);
    free(stem);
    free(cycle);
}

static void decide_both(void)
{
    struct zimboralo_rule merged;
    size_t n, m, s, c;
    uint8_t *first = slice(&n), *second = slice(&m), *stem = slice(&s), *cycle = slice(&c);
    if (!refused(zimboralo_merge_rules(first, n, second, m, &merged)))
        decide_rule(merged.bytes, merged.length, stem, s, cycle, c);
    free(first);
    free(second);
    free(stem);
    free(cycle);
}

static void same_word(void)
{
    size_t s, c, t, d;
    uint8_t *stem = slice(&s), *cycle = slice(&c), *other_stem = slice(&t), *other_cycle = slice(&d);
    uint64_t answer = zimboralo_same_word(stem, s, cycle, c, other_stem, t, other_cycle, d);
    if (!refused(answer))
        puts(zimboralo_same(answer) ? "one word" : "two words");
    free(stem);
    free(cycle);
    free(other_stem);
    free(other_cycle);
}

/* The part of an answer of explain, which must be one of the two slices from its index to its end. */
static void print_part(uint64_t answer, const uint8_t *stem, size_t s, const uint8_t *cycle, size_t c)
{
    size_t length;
    const uint8_t *part = zimboralo_broken_part(answer, stem, s, cycle, c, &length);
    int of_stem = zimboralo_part(answer) == ZIMBORALO_IN_STEM;
    size_t index = zimboralo_index(answer);
    if (zimboralo_part(answer) == ZIMBORALO_NO_PART) {
        puts(!part && !length && !index ? "never comes" : "other");
    } else if (!part || !length || part != (of_stem ? stem : cycle) + index || index + length != (of_stem ? s : c)) {
        puts("other");
    } else {
        printf("from %zu of the %s ", index, of_stem ? "stem" : "cycle");
        print_bytes(part, length);
    }
}

static void explain(void)
{
    size_t n, s, c, length;
    uint8_t *rule = slice(&n), *stem = slice(&s), *cycle = slice(&c);
    uint64_t answer = zimboralo_explain(rule, n, stem, s, cycle, c);
    int clause = zimboralo_clause(answer);
    if (zimboralo_number(answer) != ZIMBORALO_ACCEPTED && zimboralo_broken_part(answer, stem, s, cycle, c, &length)) {
        puts("other");
    } else if (!refused(answer)) {
        uint64_t parts = (uint64_t)(clause + 1) << 8 | (uint64_t)zimboralo_part(answer) << 16
                         | (uint64_t)zimboralo_index(answer) << 24;
        if (answer != parts || (clause < 0 && answer)) {
            puts("other");
        } else if (clause < 0) {
            puts("kept");
        } else {
            printf("clause %d ", clause);
            print_part(answer, stem, s, cycle, c);
        }
    }
    free(rule);
    free(stem);
    free(cycle);
}

static void satisfy(void)
{
    size_t n, s, c;
    uint8_t *rule = slice(&n), *stem = slice(&s), *cycle = slice(&c);
    uint64_t answer = zimboralo_satisfies(rule, n, stem, s, cycle, c);
    if (!refused(answer))
        puts(answer & ~(uint64_t)0x100 ? "other" : zimboralo_satisfied(answer) ? "kept" : "broken");
    free(rule);
    free(stem);
    free(cycle);
}

/* Of a report of so many lent bytes: the bytes, where the answer is 0. */
static void print_report(uint64_t answer, const uint8_t *report, const uint8_t *before, size_t length)
{
    if (answer == ZIMBORALO_ACCEPTED)
        print_bytes(report, length);
    else if (memcmp(report, before, length) != 0)
        puts("other");
    else
        refused(answer);
}

static void report_verdict(void)
{
    size_t two, n, s, c, four, m;
    uint8_t *rule = slice(&two), *image = slice(&n), *stem = slice(&s), *cycle = slice(&c), *size = slice(&four);
    uint8_t *report = slice(&m), *before = malloc(m ? m : 1);
    if (!before || two != 2 || four != 4 || number(size) > LONGEST)
        exit(1);
    size_t w = number(size);
    uint8_t *work = malloc(w ? w : 1), *judged = malloc(w ? w : 1);
    if (!work || !judged)
        exit(1);
    memset(work, UNSET, w);
    memset(judged, UNSET, w);
    memcpy(before, report, m);
    uint64_t answer = zimboralo_report((uint16_t)zimboralo_number_at(rule), image, n, stem, s, cycle, c, work, w,
                                       report, m);
    if (answer == ZIMBORALO_ACCEPTED)
        zimboralo_judge(image, n, stem, s, cycle, c, judged, w);
    if (memcmp(work, judged, w) != 0)
        puts("other");
    else
        print_report(answer, report, before, m);
    uint8_t *const made[] = {rule, image, stem, cycle, size, report, before, work, judged};
    for (size_t i = 0; i < sizeof made / sizeof *made; i++)
        free(made[i]);
}

int main(void)
{
    for (int letter; (letter = getchar()) != EOF;) {
        if (letter == 'N')
            normalize();
        else if (letter == 'M')
            merge();
        else if (letter == 'T')
            translate(zimboralo_translate_rule);
        else if (letter == 'F')
            translate(zimboralo_field_translate_rule);
        else if (letter == 'U' || letter == 'V')
            start_or_step(letter == 'V');
        else if (letter == 'A')
            watch();
        else if (letter == 'J')
            judge();
        else if (letter == 'R')
            read_back();
        else if (letter == 'W')
            write_tables();
        else if (letter == 'D')
            decide();
        else if (letter == 'B')
            decide_both();
        else if (letter == 'S')
            same_word();
        else if (letter == 'E')
            explain();
        else if (letter == 'K')
            satisfy();
        else if (letter == 'P')
            report_verdict();
        else
            return 1;
    }
    return 0;
}
