/* Every lent buffer at its exact smallest size between guard bytes that must stay as they were; and one byte shorter,
 * which is refused by 25 with every byte as it was. The functions over structs against the plain calls, the header's
 * limits against what the library takes, the bytes of rules in negation normal form and of merged ones, rules that
 * demand propositions both ways, refusal 11 at every state record, verdicts with a known number of pairs, lassos that
 * are one word or are not, the field unit's rules and sets, clauses that lassos break, and reports, of which those with
 * one number and one verdict are the same. Prints one line and exits 1 where something is wrong. */
#include <stdio.h>
#include <stdlib.h>
#include <string.h>

#include "zimboralo.h"

/* The bytes of a guard, the buffers that decide is lent, and a buffer longer than normalize and merge need. */
enum { GUARD = 64, BUFFERS = 5, LONGER = 3 * ZIMBORALO_RULE_BYTES };

static const size_t SIZES[BUFFERS] = {ZIMBORALO_STATES_BYTES, ZIMBORALO_TRANSITIONS_BYTES, ZIMBORALO_INITIAL_BYTES,
                                      ZIMBORALO_IMAGE_BYTES, ZIMBORALO_WORK_BYTES};
static const char *const NAMES[BUFFERS] = {"states", "transitions", "initial", "image", "work"};
enum buffer { STATES, TRANSITIONS, INITIAL, IMAGE, WORK };

static const uint8_t always_eventually[] = {1, 0, 0, 2, 0, 0, 7, 0, 1, 0, 0, 0, 8, 3, 2};
static const uint8_t never[] = {0, 0, 0};
static const uint8_t unknown[] = {13, 0, 0};
/* always (0 implies 1) */
static const uint8_t if_then[] = {2, 0, 0, 2, 1, 0, 10, 0, 1, 11, 2, 0};
/* eventually 0 to 4 and next next 5: 97 pairs */
static const uint8_t pairs[] = {1, 0, 0, 2, 0, 0, 7, 0, 1, 2, 1, 0, 7, 0, 3, 2, 2, 0, 7, 0, 5, 2, 3, 0, 7, 0, 7, 2, 4,
                                0, 7, 0, 9, 2, 5, 0, 6, 11, 0, 6, 12, 0, 4, 2, 4, 4, 14, 6, 4, 15, 8, 4, 16, 10, 4, 17,
                                13};

/* Kinds of node: until and release of two operands; always and eventually, which only a written rule has. */
enum { UNTIL = 7, RELEASE = 8, ALWAYS = 11, EVENTUALLY = 12 };

/* Proposition 0 below so many operators of one kind. In negation normal form it has a constant besides. */
static struct zimboralo_rule stacked(uint8_t kind, uint8_t count)
{
    struct zimboralo_rule rule = {{2, 0, 0}, 3 * ((size_t)count + 1)};
    for (uint8_t n = 1; n <= count; n++) {
        rule.bytes[3 * n] = kind;
        rule.bytes[3 * n + 1] = n - 1;
    }
    return rule;
}

/* The same in negation normal form: the constant, proposition 0, then the operators. */
static struct zimboralo_rule stacked_normal(uint8_t kind, uint8_t count)
{
    struct zimboralo_rule rule = {{kind == EVENTUALLY, 0, 0, 2, 0, 0}, 3 * ((size_t)count + 2)};
    for (uint8_t n = 2; n < count + 2; n++) {
        rule.bytes[3 * n] = kind == EVENTUALLY ? UNTIL : RELEASE;
        rule.bytes[3 * n + 2] = n - 1;
    }
    return rule;
}

static uint8_t *blocks[BUFFERS];
static int wrong, looked;

static uint8_t pattern(size_t i) { return (uint8_t)(i * 151 + 17); }

static uint8_t *lent(enum buffer b) { return blocks[b] + GUARD; }

static void refill(void)
{
    for (int b = 0; b < BUFFERS; b++)
        for (size_t i = 0; i < SIZES[b] + 2 * GUARD; i++)
            blocks[b][i] = pattern(i);
}

static void expect(int ok, const char *what, const char *name)
{
    looked++;
    if (!ok) {
        printf("guards: %s: %s\n", what, name);
        wrong++;
    }
}

/* The guards of every buffer, and everything from `from` on in the buffers that a refusal must not touch. */
static void expect_guards(const char *what)
{
    for (int b = 0; b < BUFFERS; b++) {
        int ok = 1;
        for (size_t i = 0; i < GUARD; i++) {
            size_t behind = GUARD + SIZES[b] + i;
            ok = ok && blocks[b][i] == pattern(i) && blocks[b][behind] == pattern(behind);
        }
        expect(ok, what, NAMES[b]);
    }
}

static void expect_untouched(const char *what)
{
    for (int b = 0; b < BUFFERS; b++) {
        int ok = 1;
        for (size_t i = 0; i < SIZES[b] + 2 * GUARD; i++)
            ok = ok && blocks[b][i] == pattern(i);
        expect(ok, what, NAMES[b]);
    }
}

static size_t size_of(enum buffer b, enum buffer shorter) { return b == shorter ? SIZES[b] - 1 : SIZES[b]; }

static uint64_t translate(const uint8_t *rule, size_t length, int shorter)
{
    return zimboralo_translate(rule, length, lent(STATES), size_of(STATES, shorter), lent(TRANSITIONS),
                               size_of(TRANSITIONS, shorter), lent(INITIAL), size_of(INITIAL, shorter));
}

static uint64_t write_image(uint64_t made, int shorter)
{
    return zimboralo_write(lent(STATES), size_of(STATES, shorter), zimboralo_states(made), lent(TRANSITIONS),
                           size_of(TRANSITIONS, shorter), zimboralo_transitions(made), lent(INITIAL),
                           size_of(INITIAL, shorter), zimboralo_initial(made), lent(IMAGE), size_of(IMAGE, shorter));
}

static uint64_t read_image(const uint8_t *image, size_t length, int shorter)
{
    return zimboralo_read(image, length, lent(STATES), size_of(STATES, shorter), lent(TRANSITIONS),
                          size_of(TRANSITIONS, shorter), lent(INITIAL), size_of(INITIAL, shorter));
}

static uint64_t judge(const uint8_t *image, size_t length, const uint8_t *stem, size_t stem_letters,
                      const uint8_t *cycle, size_t cycle_letters, int shorter)
{
    return zimboralo_judge(image, length, stem, stem_letters, cycle, cycle_letters, lent(WORK), size_of(WORK, shorter));
}

static uint64_t decide(const uint8_t *rule, size_t length, const uint8_t *stem, size_t stem_letters,
                       const uint8_t *cycle, size_t cycle_letters, int shorter)
{
    return zimboralo_decide(rule, length, stem, stem_letters, cycle, cycle_letters, lent(STATES),
                            size_of(STATES, shorter), lent(TRANSITIONS), size_of(TRANSITIONS, shorter), lent(INITIAL),
                            size_of(INITIAL, shorter), lent(IMAGE), size_of(IMAGE, shorter), lent(WORK),
                            size_of(WORK, shorter));
}

/* What is left of an answer of translate without its conflicts: the counts alone. */
static uint64_t counts_of(uint64_t made) { return made & 0xffffffffff; }

/* Whether n bytes of a buffer are zero. */
static int zero(enum buffer b, size_t n)
{
    int ok = 1;
    for (size_t i = 0; i < n; i++)
        ok = ok && lent(b)[i] == 0;
    return ok;
}

/* decide leaves in the five buffers what translate, write and judge leave; each buffer a byte shorter is 25. */
static void in_a_row(const uint8_t *rule, size_t length)
{
    static uint8_t after[BUFFERS][ZIMBORALO_IMAGE_BYTES + 2 * GUARD];
    const uint8_t cycle[] = {1, 255, 0, 127};
    refill();
    uint64_t written = write_image(translate(rule, length, BUFFERS), BUFFERS);
    static uint8_t copy[ZIMBORALO_IMAGE_BYTES];
    memcpy(copy, lent(IMAGE), zimboralo_length(written));
    uint64_t judged = judge(copy, zimboralo_length(written), cycle, 0, cycle, sizeof cycle, BUFFERS);
    for (int b = 0; b < BUFFERS; b++)
        memcpy(after[b], blocks[b], SIZES[b] + 2 * GUARD);
    refill();
    expect(decide(rule, length, cycle, 0, cycle, sizeof cycle, BUFFERS) == judged, "decide and judge differ",
           "verdict");
    for (int b = 0; b < BUFFERS; b++)
        expect(memcmp(after[b], blocks[b], SIZES[b] + 2 * GUARD) == 0, "decide and the calls differ", NAMES[b]);
    for (int shorter = 0; shorter < BUFFERS; shorter++) {
        refill();
        expect(decide(rule, length, cycle, 0, cycle, sizeof cycle, shorter) == ZIMBORALO_TABLE_TOO_SHORT,
               "decide took a short", NAMES[shorter]);
        expect_untouched("decide touched a buffer");
    }
}

/* By 24 decide leaves zero tables, and the other buffers as they were. */
static void refused(void)
{
    const uint8_t cycle[] = {0};
    refill();
    expect(zimboralo_number(decide(pairs, sizeof pairs, cycle, 0, cycle, 1, BUFFERS)) == ZIMBORALO_TOO_MANY_PAIRS,
           "decide took", "a pair too many");
    expect_guards("decide touched a guard");
    for (int b = STATES; b <= INITIAL; b++)
        expect(zero(b, SIZES[b]), "not zero after 24", NAMES[b]);
    for (int b = STATES; b <= INITIAL; b++)
        for (size_t i = 0; i < SIZES[b]; i++)
            lent(b)[i] = pattern(GUARD + i);
    expect_untouched("24 touched a buffer that is no table");
}

static void whole(const uint8_t *rule, size_t length)
{
    static uint8_t copy[ZIMBORALO_IMAGE_BYTES];
    const uint8_t cycle[] = {1, 255, 0, 127};
    refill();
    uint64_t made = translate(rule, length, BUFFERS);
    expect(zimboralo_number(made) == 0, "translate refused", "a rule");
    expect_guards("translate touched a guard");
    uint64_t written = write_image(made, BUFFERS);
    expect(zimboralo_number(written) == 0, "write refused", "its own tables");
    expect_guards("write touched a guard");
    int behind = 1;
    for (size_t i = zimboralo_length(written); i < SIZES[IMAGE]; i++)
        behind = behind && lent(IMAGE)[i] == pattern(GUARD + i);
    expect(behind, "write touched a byte behind the image", "image");
    memcpy(copy, lent(IMAGE), zimboralo_length(written));
    expect(zimboralo_number(judge(copy, zimboralo_length(written), cycle, 1, cycle, sizeof cycle, BUFFERS)) == 0,
           "judge refused", "a plan");
    expect_guards("judge touched a guard");
    expect(read_image(copy, zimboralo_length(written), BUFFERS) == counts_of(made), "read and translate differ",
           "counts");
    expect_guards("read touched a guard");

    for (int shorter = STATES; shorter <= INITIAL; shorter++) {
        refill();
        expect(translate(rule, length, shorter) == ZIMBORALO_TABLE_TOO_SHORT, "translate took a short", NAMES[shorter]);
        expect(read_image(copy, zimboralo_length(written), shorter) == ZIMBORALO_TABLE_TOO_SHORT, "read took a short",
               NAMES[shorter]);
        expect_untouched("a short table was touched");
    }
    for (int shorter = STATES; shorter <= IMAGE; shorter++) {
        refill();
        expect(write_image(made, shorter) == ZIMBORALO_TABLE_TOO_SHORT, "write took a short", NAMES[shorter]);
        expect_untouched("write touched a buffer");
    }
    refill();
    expect(judge(copy, zimboralo_length(written), cycle, 0, cycle, 1, WORK) == ZIMBORALO_TABLE_TOO_SHORT,
           "judge took a short", NAMES[WORK]);
    expect_untouched("judge touched a buffer");
}

/* The buffers as a struct, with guards at both ends. */
static struct {
    uint8_t before[GUARD];
    struct zimboralo_buffers buffers;
    uint8_t behind[GUARD];
} guarded;

static struct zimboralo_tables *const tables = &guarded.buffers.tables;
static struct zimboralo_image *const image = &guarded.buffers.image;
static uint8_t *const inside[BUFFERS] = {guarded.buffers.tables.states, guarded.buffers.tables.transitions,
                                         guarded.buffers.tables.initial, guarded.buffers.image.bytes,
                                         guarded.buffers.work};

/* A count or length that no call gave. */
enum { NOT_SET = 77777 };

static int accepted(uint64_t answer) { return zimboralo_number(answer) == ZIMBORALO_ACCEPTED; }

/* The same bytes in the plain buffers and in the struct. */
static void refill_both(void)
{
    refill();
    for (int b = 0; b < BUFFERS; b++)
        memcpy(inside[b], lent(b), SIZES[b]);
    for (size_t i = 0; i < GUARD; i++)
        guarded.before[i] = guarded.behind[i] = pattern(i);
    tables->state_count = tables->transition_count = tables->initial_count = image->length = NOT_SET;
}

/* The plain call and its function over structs have answered alike and left the same bytes; the counts are those of
 * `made` by an acceptance, else none where the tables are zero, else as they were; the length is the one given. */
static void expect_same(const char *what, uint64_t plain, uint64_t answer, uint64_t made, size_t length)
{
    expect(plain == answer, what, "another answer");
    for (int b = 0; b < BUFFERS; b++)
        expect(memcmp(inside[b], lent(b), SIZES[b]) == 0, what, NAMES[b]);
    int ok = 1;
    for (size_t i = 0; i < GUARD; i++)
        ok = ok && guarded.before[i] == pattern(i) && guarded.behind[i] == pattern(i);
    expect(ok, what, "a guard of the struct");
    size_t otherwise = zero(STATES, SIZES[STATES]) ? 0 : NOT_SET;
    expect(tables->state_count == (accepted(answer) ? zimboralo_states(made) : otherwise)
               && tables->transition_count == (accepted(answer) ? zimboralo_transitions(made) : otherwise)
               && tables->initial_count == (accepted(answer) ? zimboralo_initial(made) : otherwise),
           what, "counts");
    expect(image->length == length, what, "length");
}

/* Writing and reading over structs, and their refusals, for an accepted rule's counts. Its image's length. */
static size_t image_over_structs(uint64_t made)
{
    static uint8_t copy[ZIMBORALO_IMAGE_BYTES];
    uint64_t written = write_image(made, BUFFERS);
    size_t length = zimboralo_length(written);
    expect_same("write_image", written, zimboralo_write_image(tables, image), made, length);
    memcpy(copy, lent(IMAGE), length);
    refill_both();
    uint64_t loaded = read_image(copy, length, BUFFERS);
    expect_same("read_image", loaded, zimboralo_read_image(copy, length, tables), made, NOT_SET);
    refill_both();
    loaded = read_image(copy, length - 1, BUFFERS);
    expect(zimboralo_number(loaded) == ZIMBORALO_BAD_CONTENTS, "read took", "a cut image");
    expect_same("read_image of a cut image", loaded, zimboralo_read_image(copy, length - 1, tables), 0, NOT_SET);
    expect(zimboralo_write_image(tables, image) == ZIMBORALO_BAD_CONTENTS, "write_image took", "too large counts");
    expect(image->length == NOT_SET, "a refused write_image set", "length");
    return length;
}

/* Each function over structs against its plain call, on a rule that may be refused, with lassos that may be. */
static void over_structs(const uint8_t *rule, size_t rule_length)
{
    static const uint8_t word[ZIMBORALO_MAX_LETTERS + 2] = {255, 1, 255, 127};
    /* where the cycle begins in the word, and how many letters it has */
    static const size_t cycles[][2] = {{1, 0}, {1, 1}, {0, 1}, {1, 3}, {1, ZIMBORALO_MAX_LETTERS},
                                       {1, ZIMBORALO_MAX_LETTERS + 1}};
    refill_both();
    uint64_t made = translate(rule, rule_length, BUFFERS);
    expect_same("translate_rule", made, zimboralo_translate_rule(rule, rule_length, tables), made, NOT_SET);
    size_t length = accepted(made) ? image_over_structs(made) : NOT_SET;
    for (size_t i = 0; i < sizeof cycles / sizeof *cycles; i++) {
        const uint8_t *cycle = word + cycles[i][0];
        refill_both();
        uint64_t plain = decide(rule, rule_length, cycle, 0, cycle, cycles[i][1], BUFFERS);
        uint64_t answer = zimboralo_decide_plan(rule, rule_length, cycle, 0, cycle, cycles[i][1], &guarded.buffers);
        expect_same("decide_plan", plain, answer, made, accepted(answer) ? length : NOT_SET);
        if (!accepted(answer))
            continue;
        plain = judge(lent(IMAGE), length, cycle, 1, cycle, 2, BUFFERS);
        expect_same("judge_plan", plain, zimboralo_judge_plan(cycle, 1, cycle, 2, &guarded.buffers), made, length);
        struct zimboralo_report report, over;
        unsigned kept = (unsigned)zimboralo_kept(plain);
        plain = zimboralo_report(4660, lent(IMAGE), length, cycle, 1, cycle, 2, lent(WORK), SIZES[WORK], report.bytes,
                                 sizeof report.bytes);
        zimboralo_report_plan(4660, cycle, 1, cycle, 2, &guarded.buffers, &over);
        expect_same("report_plan", plain, ZIMBORALO_ACCEPTED, made, length);
        expect(memcmp(&report, &over, sizeof over) == 0 && zimboralo_report_number(&over) == 4660
                   && zimboralo_report_verdict(&over) == kept,
               "report_plan", "another report");
    }
}

/* The header's limits are the library's: what is as large is taken, and what is one larger is not. The sizes of the
 * tables are those of `whole`, the states those of `refused`, the letters those of `lassos`. */
static void limits(void)
{
    static const uint8_t zero_nodes[ZIMBORALO_RULE_BYTES + 1] = {0};
    /* true, mark 0, and eventually of the node before, over and over */
    uint8_t nested[3 * (ZIMBORALO_MAX_UNTILS + 3)] = {1, 0, 0, 2, 0, 0};
    for (uint8_t n = 2; n < ZIMBORALO_MAX_UNTILS + 3; n++) {
        nested[3 * n] = 7;
        nested[3 * n + 2] = n - 1;
    }
    refill();
    expect(translate(zero_nodes, ZIMBORALO_RULE_BYTES, BUFFERS) == ZIMBORALO_BAD_PLACES, "not taken", "nodes");
    expect(translate(zero_nodes, sizeof zero_nodes, BUFFERS) == ZIMBORALO_TOO_LONG, "taken", "a byte too many");
    expect(accepted(translate(nested, sizeof nested - 3, BUFFERS)), "not taken", "untils");
    expect(translate(nested, sizeof nested, BUFFERS) == ZIMBORALO_TOO_MANY_UNTILS, "taken", "an until too many");
    struct zimboralo_rule most = stacked(ALWAYS, ZIMBORALO_MAX_NODES - 2);
    expect(accepted(translate(most.bytes, most.length, BUFFERS)), "not taken", "nodes in normal form");
    expect(zimboralo_length(write_image(translate(never, sizeof never, BUFFERS), BUFFERS)) == ZIMBORALO_CONTENTS_BYTES,
           "another size", "contents");
}

/* A rule with a node too many in negation normal form, all of always or all of eventually, which are untils: 26 comes
 * after 25 and before 7, 8, 9 and 28, and leaves every buffer as it was. With a node less, so many untils are 7, before
 * 8, 9 and 28. */
static void node_too_many(uint8_t kind)
{
    static const uint8_t letters[ZIMBORALO_MAX_LETTERS + 1] = {0}, skipped[] = {ZIMBORALO_SKIPPED};
    static const struct {
        const uint8_t *at;
        size_t length;
    } cycles[] = {{letters, 0}, {letters, 1}, {letters, sizeof letters}, {skipped, 1}};
    const struct zimboralo_rule over = stacked(kind, ZIMBORALO_MAX_NODES - 1);
    const struct zimboralo_rule most = stacked(kind, ZIMBORALO_MAX_NODES - 2);
    refill();
    expect(translate(over.bytes, over.length, BUFFERS) == ZIMBORALO_TOO_MANY_NODES, "translate took",
           "a node too many");
    for (int shorter = STATES; shorter <= INITIAL; shorter++)
        expect(translate(over.bytes, over.length, shorter) == ZIMBORALO_TABLE_TOO_SHORT,
               "translate took a node too many before a short", NAMES[shorter]);
    if (kind == EVENTUALLY)
        expect(translate(most.bytes, most.length, BUFFERS) == ZIMBORALO_TOO_MANY_UNTILS, "translate took", "untils");
    for (size_t i = 0; i < sizeof cycles / sizeof *cycles; i++) {
        const uint8_t *cycle = cycles[i].at;
        size_t length = cycles[i].length;
        expect(decide(over.bytes, over.length, letters, 0, cycle, length, BUFFERS) == ZIMBORALO_TOO_MANY_NODES,
               "decide took", "a node too many");
        for (int shorter = 0; shorter < BUFFERS; shorter++)
            expect(decide(over.bytes, over.length, letters, 0, cycle, length, shorter) == ZIMBORALO_TABLE_TOO_SHORT,
                   "decide took a node too many before a short", NAMES[shorter]);
        if (kind == EVENTUALLY)
            expect(decide(most.bytes, most.length, letters, 0, cycle, length, BUFFERS) == ZIMBORALO_TOO_MANY_UNTILS,
                   "decide took", "untils");
    }
    expect_untouched("26, 25 or 7 touched a buffer");
}

/* A call that stores a rule: normalize of the first rule, or where there is a second one merge of both. */
struct storing {
    const char *name;
    const uint8_t *first;
    size_t first_length;
    const uint8_t *second;
    size_t second_length;
};

static uint64_t store(const struct storing *call, uint8_t *into, size_t lent_bytes)
{
    return call->second ? zimboralo_merge(call->first, call->first_length, call->second, call->second_length, into,
                                          lent_bytes)
                        : zimboralo_normalize(call->first, call->first_length, into, lent_bytes);
}

static uint64_t store_rule(const struct storing *call, struct zimboralo_rule *into)
{
    return call->second ? zimboralo_merge_rules(call->first, call->first_length, call->second, call->second_length,
                                                into)
                        : zimboralo_normalize_rule(call->first, call->first_length, into);
}

/* The call into so many bytes, which stand between guards: this answer, and `rule` at their start with zeros behind it,
 * or if that is NULL every byte as it was. */
static void stored_into(size_t lent_bytes, const struct storing *call, uint64_t answer, const uint8_t *rule)
{
    static uint8_t block[GUARD + LONGER + GUARD];
    for (size_t i = 0; i < sizeof block; i++)
        block[i] = pattern(i);
    expect(store(call, block + GUARD, lent_bytes) == answer, call->name, "another answer");
    int ok = 1;
    for (size_t i = 0; i < sizeof block; i++) {
        int filled = rule && i >= GUARD && i < GUARD + lent_bytes;
        uint8_t want = !filled ? pattern(i) : i - GUARD < zimboralo_length(answer) ? rule[i - GUARD] : 0;
        ok = ok && block[i] == want;
    }
    expect(ok, call->name, "another byte");
}

/* The call into the smallest buffer, longer ones and a struct; into shorter ones it is 25, whatever the rules. */
static void stored(const struct storing *call, uint64_t answer, const uint8_t *rule)
{
    struct zimboralo_rule made = {{0}, NOT_SET}, want = {{0}, NOT_SET};
    stored_into(ZIMBORALO_RULE_BYTES, call, answer, rule);
    stored_into(ZIMBORALO_RULE_BYTES + 1, call, answer, rule);
    stored_into(LONGER, call, answer, rule);
    stored_into(ZIMBORALO_RULE_BYTES - 1, call, ZIMBORALO_TABLE_TOO_SHORT, NULL);
    stored_into(0, call, ZIMBORALO_TABLE_TOO_SHORT, NULL);
    if (rule) {
        want.length = zimboralo_length(answer);
        memcpy(want.bytes, rule, want.length);
    }
    expect(store_rule(call, &made) == answer, call->name, "another answer with a struct");
    expect(made.length == want.length && memcmp(made.bytes, want.bytes, sizeof made.bytes) == 0, call->name,
           "another struct");
}

static void normalize(const uint8_t *rule, size_t length, uint64_t answer, const uint8_t *normal)
{
    struct storing call = {"normalize", rule, length, NULL, 0};
    stored(&call, answer, normal);
}

static void merge(const struct zimboralo_rule *first, const struct zimboralo_rule *second, uint64_t answer,
                  const uint8_t *merged)
{
    struct storing call = {"merge", first->bytes, first->length, second->bytes, second->length};
    stored(&call, answer, merged);
}

/* Written rules and their negation normal forms. */
static const struct {
    struct zimboralo_rule written, normal;
} FORMS[] = {
    /* always (0 implies 1): false release (not 0 or 1) */
    {{{2, 0, 0, 2, 1, 0, 10, 0, 1, 11, 2, 0}, 12}, {{0, 0, 0, 3, 0, 0, 2, 1, 0, 5, 1, 2, 8, 0, 3}, 15}},
    /* not (0 implies next 0): 0 and next not 0, the leaf in both senses, plain before negated */
    {{{2, 0, 0, 6, 0, 0, 10, 0, 1, 9, 2, 0}, 12}, {{2, 0, 0, 3, 0, 0, 6, 1, 0, 4, 0, 2}, 12}},
    /* not always eventually 0: true until (false release not 0), false before true */
    {{{2, 0, 0, 12, 0, 0, 11, 1, 0, 9, 2, 0}, 12}, {{0, 0, 0, 1, 0, 0, 3, 0, 0, 8, 0, 2, 7, 1, 3}, 15}},
    /* not (0 until (not 1 release 0)): not 0 release (1 until not 0) */
    {{{2, 0, 0, 3, 1, 0, 8, 1, 0, 7, 0, 2, 9, 3, 0}, 15}, {{3, 0, 0, 2, 1, 0, 7, 1, 0, 8, 0, 2}, 12}},
    /* not (0 or (1 and true)): not 0 and (not 1 or false) */
    {{{2, 0, 0, 2, 1, 0, 1, 0, 0, 4, 1, 2, 5, 0, 3, 9, 4, 0}, 18}, {{0, 0, 0, 3, 0, 0, 3, 1, 0, 5, 2, 0, 4, 1, 3}, 15}},
    /* not not not true: false */
    {{{1, 0, 0, 9, 0, 0, 9, 1, 0, 9, 2, 0}, 12}, {{0, 0, 0}, 3}},
    /* a rule of the first edition whose constants stand elsewhere, twice: false release (true until 0) and true */
    {{{1, 0, 0, 2, 0, 0, 7, 0, 1, 0, 0, 0, 8, 3, 2, 1, 0, 0, 4, 4, 5}, 21},
     {{0, 0, 0, 1, 0, 0, 2, 0, 0, 7, 1, 2, 8, 0, 3, 4, 4, 1}, 18}},
};

/* Rules that normalize refuses, each also with the place. */
static const struct {
    struct zimboralo_rule written;
    uint64_t number, place;
} REFUSED[] = {
    {{{0}, 0}, ZIMBORALO_BAD_LENGTH, 0},
    {{{2, 0, 0, 9}, 4}, ZIMBORALO_BAD_LENGTH, 0},
    {{{2, 0, 0, 13, 1, 1}, 6}, ZIMBORALO_UNKNOWN_KIND, 1},
    {{{2, 0, 0, 9, 1, 1}, 6}, ZIMBORALO_BAD_BYTE, 1},
    {{{2, 0, 0, 11, 0, 1}, 6}, ZIMBORALO_BAD_BYTE, 1},
    {{{2, 0, 0, 12, 0, 1}, 6}, ZIMBORALO_BAD_BYTE, 1},
    {{{2, 0, 0, 10, 0, 1}, 6}, ZIMBORALO_CHILD_NOT_BELOW, 1},
    {{{2, 0, 0, 9, 0, 0, 10, 1, 1}, 9}, ZIMBORALO_BAD_PLACES, 1},
};

/* The forms and refusals above; as many nodes in normal form as there may be, also where all but two are untils, since
 * 7 is not looked at; one more, which is 26, after 6; and a byte too many, which is 1, before 3. */
static void normal_forms(void)
{
    static const uint8_t too_long[ZIMBORALO_RULE_BYTES + 1] = {13};
    static const uint8_t kinds[] = {ALWAYS, EVENTUALLY};
    for (size_t i = 0; i < sizeof FORMS / sizeof *FORMS; i++)
        normalize(FORMS[i].written.bytes, FORMS[i].written.length, (uint64_t)FORMS[i].normal.length << 8,
                  FORMS[i].normal.bytes);
    for (size_t i = 0; i < sizeof REFUSED / sizeof *REFUSED; i++)
        normalize(REFUSED[i].written.bytes, REFUSED[i].written.length, REFUSED[i].number | REFUSED[i].place << 8,
                  NULL);
    for (size_t i = 0; i < sizeof kinds; i++) {
        struct zimboralo_rule most = stacked(kinds[i], ZIMBORALO_MAX_NODES - 2);
        struct zimboralo_rule normal = stacked_normal(kinds[i], ZIMBORALO_MAX_NODES - 2);
        normalize(most.bytes, most.length, (uint64_t)normal.length << 8, normal.bytes);
        struct zimboralo_rule over = stacked(kinds[i], ZIMBORALO_MAX_NODES - 1);
        normalize(over.bytes, over.length, ZIMBORALO_TOO_MANY_NODES, NULL);
        over.bytes[over.length - 2] = 0; /* the root's operand is node 0: the node before the root has no parent */
        normalize(over.bytes, over.length, ZIMBORALO_BAD_PLACES | (uint64_t)(ZIMBORALO_MAX_NODES - 2) << 8, NULL);
    }
    normalize(too_long, sizeof too_long, ZIMBORALO_TOO_LONG, NULL);
}

/* Two rules, and both merged, by hand. */
static const struct {
    struct zimboralo_rule first, second, merged;
} MERGED[] = {
    /* propositions keep their numbers, negated ones too */
    {{{2, 0, 0}, 3}, {{2, 1, 0}, 3}, {{2, 0, 0, 2, 1, 0, 4, 0, 1}, 9}},
    {{{3, 6, 0}, 3}, {{3, 5, 0}, 3}, {{3, 6, 0, 3, 5, 0, 4, 0, 1}, 9}},
    /* constants, also twice the same */
    {{{0, 0, 0}, 3}, {{1, 0, 0}, 3}, {{0, 0, 0, 1, 0, 0, 4, 0, 1}, 9}},
    {{{1, 0, 0}, 3}, {{1, 0, 0}, 3}, {{1, 0, 0, 1, 0, 0, 4, 0, 1}, 9}},
    /* eventually 0 and always 1, in either order */
    {{{1, 0, 0, 2, 0, 0, 7, 0, 1}, 9},
     {{0, 0, 0, 2, 1, 0, 8, 0, 1}, 9},
     {{1, 0, 0, 2, 0, 0, 7, 0, 1, 0, 0, 0, 2, 1, 0, 8, 3, 4, 4, 2, 5}, 21}},
    {{{0, 0, 0, 2, 1, 0, 8, 0, 1}, 9},
     {{1, 0, 0, 2, 0, 0, 7, 0, 1}, 9},
     {{0, 0, 0, 2, 1, 0, 8, 0, 1, 1, 0, 0, 2, 0, 0, 7, 3, 4, 4, 2, 5}, 21}},
    /* the right byte of next is no child */
    {{{2, 6, 0}, 3}, {{2, 3, 0, 6, 0, 0}, 6}, {{2, 6, 0, 2, 3, 0, 6, 1, 0, 4, 0, 2}, 12}},
    /* one rule twice, with a leaf at two places; a proposition as high as the nodes are many */
    {{{2, 5, 0, 4, 0, 0}, 6}, {{2, 5, 0, 4, 0, 0}, 6}, {{2, 5, 0, 4, 0, 0, 2, 5, 0, 4, 2, 2, 4, 1, 3}, 15}},
    {{{2, 0, 0, 5, 0, 0}, 6},
     {{3, 2, 0, 2, 1, 0, 5, 0, 1, 6, 2, 0}, 12},
     {{2, 0, 0, 5, 0, 0, 3, 2, 0, 2, 1, 0, 5, 2, 3, 6, 4, 0, 4, 1, 5}, 21}},
};

/* Rules that 1 to 6 let pass as first-edition rules, and some that they refuse, with the place: the first of two is
 * told, and of the first rule before the second. */
static const struct {
    struct zimboralo_rule rule;
    uint64_t number, place;
} EACH[] = {
    {{{1, 0, 0}, 3}, ZIMBORALO_ACCEPTED, 0},
    {{{2, 0, 0, 6, 0, 0}, 6}, ZIMBORALO_ACCEPTED, 0},
    {{{0}, 0}, ZIMBORALO_BAD_LENGTH, 0},
    {{{2, 0, 0, 9}, 4}, ZIMBORALO_BAD_LENGTH, 0},
    {{{2, 0, 0, 9, 1, 1}, 6}, ZIMBORALO_UNKNOWN_KIND, 1},
    {{{2, 0, 0, 2, 1, 0, 10, 0, 1}, 9}, ZIMBORALO_UNKNOWN_KIND, 2},
    {{{2, 0, 0, 11, 0, 0}, 6}, ZIMBORALO_UNKNOWN_KIND, 1},
    {{{2, 0, 0, 12, 0, 0}, 6}, ZIMBORALO_UNKNOWN_KIND, 1},
    {{{2, 7, 0, 13, 0, 0}, 6}, ZIMBORALO_BAD_BYTE, 0},
    {{{2, 6, 0, 3, 7, 0, 4, 0, 1}, 9}, ZIMBORALO_BAD_BYTE, 1},
    {{{2, 0, 0, 6, 0, 1}, 6}, ZIMBORALO_BAD_BYTE, 1},
    {{{2, 0, 0, 7, 0, 1}, 6}, ZIMBORALO_CHILD_NOT_BELOW, 1},
    {{{2, 0, 0, 6, 0, 0, 6, 0, 0}, 9}, ZIMBORALO_BAD_PLACES, 1},
    {{{2, 0, 0, 6, 0, 0, 4, 1, 1}, 9}, ZIMBORALO_BAD_PLACES, 1},
};

/* A rule of so many operators of one kind in negation normal form, and another, too large together or with too many
 * untils: this refusal. */
static void merge_refused(uint8_t kind, uint8_t count, uint8_t other_kind, uint8_t other_count, uint64_t number)
{
    struct zimboralo_rule first = stacked_normal(kind, count), second = stacked_normal(other_kind, other_count);
    merge(&first, &second, number, NULL);
    merge(&second, &first, number, NULL);
}

/* The same where they are not: the bytes by hand. */
static void merge_taken(uint8_t kind, uint8_t count, uint8_t other_kind, uint8_t other_count)
{
    struct zimboralo_rule first = stacked_normal(kind, count), second = stacked_normal(other_kind, other_count);
    struct zimboralo_rule both = first;
    uint8_t up = count + 2, root = up + other_count + 2;
    for (uint8_t n = 0; n < other_count + 2; n++)
        for (int k = 0; k < 3; k++)
            both.bytes[3 * (up + n) + k] = second.bytes[3 * n + k] + (n > 1 && k ? up : 0);
    both.bytes[3 * root] = 4;
    both.bytes[3 * root + 1] = up - 1;
    both.bytes[3 * root + 2] = root - 1;
    merge(&first, &second, (uint64_t)(3 * (root + 1)) << 8, both.bytes);
}

/* The lists above; a rule over the limit of bytes; as many nodes and untils as there may be in both together, and one
 * more of each: 27 before 7, and after 6 of either. */
static void merged_rules(void)
{
    enum { MOST = ZIMBORALO_MAX_NODES, UNTILS = ZIMBORALO_MAX_UNTILS, COUNT = sizeof EACH / sizeof *EACH };
    static const uint8_t too_long[ZIMBORALO_RULE_BYTES + 1] = {13};
    for (size_t i = 0; i < sizeof MERGED / sizeof *MERGED; i++)
        merge(&MERGED[i].first, &MERGED[i].second, (uint64_t)MERGED[i].merged.length << 8, MERGED[i].merged.bytes);
    for (size_t i = 0; i < COUNT * COUNT; i++) {
        size_t first = i / COUNT, second = i % COUNT, told = EACH[first].number ? first : second;
        if (EACH[told].number)
            merge(&EACH[first].rule, &EACH[second].rule, EACH[told].number | EACH[told].place << 8, NULL);
    }
    for (size_t i = 0; i < COUNT; i++) {
        const struct zimboralo_rule *rule = &EACH[i].rule;
        struct storing first = {"merge", too_long, sizeof too_long, rule->bytes, rule->length};
        stored(&first, ZIMBORALO_TOO_LONG, NULL);
        struct storing second = {"merge", rule->bytes, rule->length, too_long, sizeof too_long};
        stored(&second, EACH[i].number ? EACH[i].number | EACH[i].place << 8 : ZIMBORALO_TOO_LONG, NULL);
    }
    /* each has two nodes besides, and the root is one more: 32 nodes, then 33 */
    for (uint8_t count = 1; count < MOST - 5; count++) {
        merge_taken(ALWAYS, count, ALWAYS, MOST - 5 - count);
        merge_refused(ALWAYS, count, ALWAYS, MOST - 4 - count, ZIMBORALO_MERGED_TOO_LARGE);
    }
    for (uint8_t count = 1; count < UNTILS; count++) {
        merge_taken(EVENTUALLY, count, EVENTUALLY, UNTILS - count);
        merge_refused(EVENTUALLY, count, EVENTUALLY, UNTILS + 1 - count, ZIMBORALO_TOO_MANY_UNTILS);
    }
    merge_taken(EVENTUALLY, UNTILS, ALWAYS, MOST - 5 - UNTILS);
    merge_refused(EVENTUALLY, UNTILS + 1, ALWAYS, MOST - 6 - UNTILS, ZIMBORALO_TOO_MANY_UNTILS);
    merge_refused(EVENTUALLY, UNTILS + 1, ALWAYS, MOST - 5 - UNTILS, ZIMBORALO_MERGED_TOO_LARGE);
    merge_refused(EVENTUALLY, MOST / 2, EVENTUALLY, MOST / 2, ZIMBORALO_MERGED_TOO_LARGE);
    struct zimboralo_rule whole_rule = stacked_normal(EVENTUALLY, MOST - 2), spoilt = whole_rule;
    spoilt.bytes[3 * MOST - 1] = 1; /* the root's operand is node 1: the node before the root has no parent */
    merge(&whole_rule, &whole_rule, ZIMBORALO_MERGED_TOO_LARGE, NULL);
    merge(&whole_rule, &spoilt, ZIMBORALO_BAD_PLACES | (uint64_t)(MOST - 2) << 8, NULL);
    merge(&spoilt, &whole_rule, ZIMBORALO_BAD_PLACES | (uint64_t)(MOST - 2) << 8, NULL);
}

/* An answer if it refuses, else ZIMBORALO_ACCEPTED alone. */
static uint64_t refusal(uint64_t answer) { return accepted(answer) ? ZIMBORALO_ACCEPTED : answer; }

/* The bodies of an image: as many states as there may be, a transition for each, and one initial number. */
struct bodies {
    uint8_t records[ZIMBORALO_STATES_BYTES], edges[4 * ZIMBORALO_MAX_STATES], first[2];
};

/* Read, judge and write refuse these bodies in this way, or accept them. */
static void states(const struct bodies *bodies, uint64_t want)
{
    enum { COUNT = ZIMBORALO_MAX_STATES, RECORDS = ZIMBORALO_CONTENTS_BYTES, EDGES = RECORDS + 4 * COUNT,
           FIRST = EDGES + 4 * COUNT };
    static uint8_t edges[ZIMBORALO_TRANSITIONS_BYTES], first[ZIMBORALO_INITIAL_BYTES];
    static const uint8_t cycle[] = {0};
    uint8_t bytes[FIRST + 2] = {1, 0, COUNT, 0, RECORDS, 0, 2, 0, COUNT, 0, EDGES % 256, EDGES / 256,
                                3, 0, 1, 0, FIRST % 256, FIRST / 256};
    memcpy(bytes + RECORDS, bodies->records, sizeof bodies->records);
    memcpy(bytes + EDGES, bodies->edges, sizeof bodies->edges);
    memcpy(bytes + FIRST, bodies->first, sizeof bodies->first);
    memcpy(edges, bodies->edges, sizeof bodies->edges);
    memcpy(first, bodies->first, sizeof bodies->first);
    uint64_t loaded = read_image(bytes, sizeof bytes, BUFFERS);
    expect(refusal(loaded) == want, "read on state records", "another answer");
    uint64_t judged = judge(bytes, sizeof bytes, cycle, 0, cycle, 1, BUFFERS);
    expect(refusal(judged) == want, "judge on state records", "another answer");
    uint64_t written = zimboralo_write(bodies->records, sizeof bodies->records, COUNT, edges, sizeof edges, COUNT,
                                       first, sizeof first, 1, lent(IMAGE), SIZES[IMAGE]);
    expect(refusal(written) == want, "write on state records", "another answer");
}

/* States of four kinds in turn: one at rest; one that accepts and stays only where proposition 0 is; one that stays
 * freely and does not accept; one that accepts and leads freely to the state before. */
static struct bodies sound_bodies(void)
{
    struct bodies sound = {{0}, {0}, {0}};
    for (size_t q = 0; q < ZIMBORALO_MAX_STATES; q++) {
        uint8_t *record = sound.records + 4 * q, *edge = sound.edges + 4 * q;
        record[0] = 1;
        record[2] = q % 4 != 2;
        record[3] = q % 4 == 0;
        edge[0] = q % 4 == 1;
        edge[2] = (uint8_t)(q % 4 == 3 ? q - 1 : q);
    }
    return sound;
}

/* The last byte wrong in every record from this place of the table on. */
static void spoil_rests(struct bodies *bodies, size_t at)
{
    for (size_t i = at; i < sizeof bodies->records; i += 4)
        bodies->records[i + 3] ^= 1;
}

static uint64_t state_refused(size_t place) { return ZIMBORALO_BAD_STATE | (uint64_t)place << 8; }

/* 11 in its order: the lowest record with a fault in its first three bytes, by each of these, alone and with all behind
 * it faulty; then the sum, at the place behind the last record, by each record's count. With the last bytes right, and
 * with all of them wrong. Every lent buffer is as it was. */
static void state_records(void)
{
    static const uint8_t wrong_byte[3] = {129, 1, 2}, wrong_count[3] = {0, 2, 128};
    const struct bodies sound = sound_bodies();
    struct bodies spoiled = sound;
    spoil_rests(&spoiled, 0);
    states(&sound, ZIMBORALO_ACCEPTED);
    refill();
    for (size_t at = 0; at < sizeof sound.records; at += 4)
        for (size_t n = 0; n < 6; n++) {
            struct bodies faulty = n < 3 ? sound : spoiled;
            size_t k = n % 3;
            faulty.records[at] = wrong_count[k];
            states(&faulty, state_refused(ZIMBORALO_MAX_STATES));
            faulty.records[at + k] = wrong_byte[k];
            states(&faulty, state_refused(at / 4));
            for (size_t i = at + 4; i < sizeof faulty.records; i += 4)
                faulty.records[i + (k + i / 4) % 3] = wrong_byte[(k + i / 4) % 3];
            states(&faulty, state_refused(at / 4));
        }
    expect_untouched("a refused state record touched a buffer");
}

/* A wrong last byte at each record, of 0 and 1 the other one, or above: alone, with all behind it wrong, and with 12 at
 * transition 1 and 13. Before it come the sum, and the first three bytes of the last record. Every lent buffer is as it
 * was. */
static void last_bytes(void)
{
    enum { LAST = 4 * (ZIMBORALO_MAX_STATES - 1) };
    const struct bodies sound = sound_bodies();
    refill();
    for (size_t at = 0; at <= LAST; at += 4) {
        const uint8_t wrong_rest[3] = {sound.records[at + 3] ^ 1, 2, 255};
        for (size_t k = 0; k < 3; k++) {
            struct bodies faulty = sound;
            faulty.records[at + 3] = wrong_rest[k];
            states(&faulty, state_refused(at / 4));
            spoil_rests(&faulty, at + 4);
            states(&faulty, state_refused(at / 4));
            faulty.edges[4 + 1] = 1;
            faulty.first[0] = ZIMBORALO_MAX_STATES;
            states(&faulty, state_refused(at / 4));
            faulty.records[LAST] = 2;
            states(&faulty, state_refused(ZIMBORALO_MAX_STATES));
            faulty.records[LAST + 2] = 2;
            states(&faulty, state_refused(LAST / 4));
        }
    }
    expect_untouched("a refused last byte touched a buffer");
}

/* Each state with other transitions, accepting and not, so that it comes to rest or leaves it. Some are refused by 12:
 * a target is 256 too high, a proposition is asked for and forbidden, bit 7 is one or the other or both. With the last
 * byte right there is no 11, with the other one it comes before that 12. */
static void rests(void)
{
    static const struct {
        uint8_t must, must_not, further, high;
        unsigned number;
    } edges[] = {{0, 0, 0, 0, ZIMBORALO_ACCEPTED}, {1, 0, 0, 0, ZIMBORALO_ACCEPTED}, {0, 64, 0, 0, ZIMBORALO_ACCEPTED},
                 {0, 0, 1, 0, ZIMBORALO_ACCEPTED}, {0, 0, 0, 1, ZIMBORALO_BAD_TRANSITION},
                 {1, 1, 0, 0, ZIMBORALO_BAD_TRANSITION}, {128, 0, 0, 0, ZIMBORALO_BAD_TRANSITION},
                 {2, 129, 0, 0, ZIMBORALO_BAD_TRANSITION}, {128, 128, 0, 0, ZIMBORALO_BAD_TRANSITION}};
    for (size_t q = 0; q < ZIMBORALO_MAX_STATES; q++)
        for (size_t n = 0; n < 2 * (sizeof edges / sizeof *edges); n++) {
            struct bodies bodies = sound_bodies();
            uint8_t *record = bodies.records + 4 * q, *edge = bodies.edges + 4 * q, accepting = n % 2;
            size_t e = n / 2;
            edge[0] = edges[e].must;
            edge[1] = edges[e].must_not;
            edge[2] = (uint8_t)((q + edges[e].further) % ZIMBORALO_MAX_STATES);
            edge[3] = edges[e].high;
            record[2] = accepting;
            record[3] = e == 0 && accepting;
            states(&bodies, edges[e].number == ZIMBORALO_ACCEPTED ? ZIMBORALO_ACCEPTED
                                                                  : edges[e].number | (uint64_t)q << 8);
            record[3] ^= 1;
            states(&bodies, state_refused(q));
        }
}

/* Rules with the propositions that they demand both ways, a bit each, and their states and transitions, by hand. */
static const struct {
    struct zimboralo_rule rule;
    unsigned conflicts, states, transitions;
} CONFLICTS[] = {
    /* 0 and 1; 0 until not 0, whose own joins drop nothing */
    {{{2, 0, 0, 2, 1, 0, 4, 0, 1}, 9}, 0, 2, 2},
    {{{2, 0, 0, 3, 0, 0, 7, 0, 1}, 9}, 0, 2, 3},
    /* 0 release not 0: both at once is dropped, not 0 for ever stays */
    {{{2, 0, 0, 3, 0, 0, 8, 0, 1}, 9}, 1 << 0, 1, 1},
    /* 0 and not 0: a state with no transition */
    {{{2, 0, 0, 3, 0, 0, 4, 0, 1}, 9}, 1 << 0, 1, 0},
    /* (0 and 1) and (not 0 and not 1): both in one join */
    {{{2, 0, 0, 2, 1, 0, 4, 0, 1, 3, 0, 0, 3, 1, 0, 4, 3, 4, 4, 2, 5}, 21}, 1 << 0 | 1 << 1, 1, 0},
    /* always (1 implies 2), and 1, and not 2: not 1 clashes with 1, and 2 with not 2 */
    {{{2, 1, 0, 2, 2, 0, 10, 0, 1, 11, 2, 0, 9, 1, 0, 4, 0, 4, 4, 3, 5}, 21}, 1 << 1 | 1 << 2, 1, 0},
    /* (0 or 1) and (not 0 or 2): one of four ways is dropped, and three lead on */
    {{{2, 0, 0, 2, 1, 0, 5, 0, 1, 3, 0, 0, 2, 2, 0, 5, 3, 4, 4, 2, 5}, 21}, 1 << 0, 5, 4},
    /* always 6 and eventually not 6, the highest proposition: it waits for ever */
    {{{2, 6, 0, 11, 0, 0, 9, 0, 0, 12, 2, 0, 4, 1, 3}, 15}, 1 << 6, 1, 1},
    /* next 4 and next not 4: no node's terms clash, the product of the second state does */
    {{{2, 4, 0, 6, 0, 0, 3, 4, 0, 6, 2, 0, 4, 1, 3}, 15}, 1 << 4, 2, 1},
    /* false and next (1 and not 1): there is no state, and the clash is below the next alone */
    {{{0, 0, 0, 2, 1, 0, 3, 1, 0, 4, 1, 2, 6, 3, 0, 4, 0, 4}, 18}, 1 << 1, 0, 0},
    /* next (0 or not 0) and next not 0: the state of 0 and not 0 is not met, as the other one owes not 0 alone */
    {{{2, 0, 0, 3, 0, 0, 5, 0, 1, 6, 2, 0, 6, 1, 0, 4, 3, 4}, 18}, 0, 3, 3},
    /* next (1 until true) and next not 1: what clashes is a term that the free one of the until dominates */
    {{{2, 1, 0, 1, 0, 0, 7, 0, 1, 6, 2, 0, 3, 1, 0, 6, 4, 0, 4, 3, 5}, 21}, 1 << 1, 3, 3},
};

/* The list above by translate, whose answer has the counts and above them the conflicts; by the image that is written
 * and read back, whose answer has the counts alone; and by decide, whose answer has neither. A refusal has none: the
 * rule of 97 pairs with not 0 for 5 demands 0 both ways before it is refused. */
static void conflicts(void)
{
    static uint8_t copy[ZIMBORALO_IMAGE_BYTES];
    const uint8_t cycle[] = {0};
    uint8_t too_many[sizeof pairs];
    memcpy(too_many, pairs, sizeof pairs);
    too_many[3 * 11] = 3;
    too_many[3 * 11 + 1] = 0;
    refill();
    expect(translate(too_many, sizeof too_many, BUFFERS) == (ZIMBORALO_TOO_MANY_PAIRS | 64 << 8), "conflicts",
           "a refusal has them");
    for (size_t i = 0; i < sizeof CONFLICTS / sizeof *CONFLICTS; i++) {
        const struct zimboralo_rule *rule = &CONFLICTS[i].rule;
        refill();
        uint64_t made = translate(rule->bytes, rule->length, BUFFERS);
        expect(zimboralo_conflicts(made) == CONFLICTS[i].conflicts, "conflicts", "another set");
        expect(zimboralo_number(made) == 0 && zimboralo_states(made) == CONFLICTS[i].states
                   && zimboralo_transitions(made) == CONFLICTS[i].transitions && made >> 48 == 0,
               "conflicts", "another answer");
        size_t length = zimboralo_length(write_image(made, BUFFERS));
        memcpy(copy, lent(IMAGE), length);
        expect(read_image(copy, length, BUFFERS) == counts_of(made), "conflicts", "read has them too");
        expect(decide(rule->bytes, rule->length, cycle, 0, cycle, 1, BUFFERS) >> 32 == 0, "conflicts",
               "decide has them too");
        expect_guards("a rule with conflicts touched a guard");
        for (int shorter = STATES; shorter <= INITIAL; shorter++)
            expect(translate(rule->bytes, rule->length, shorter) == ZIMBORALO_TABLE_TOO_SHORT,
                   "conflicts with a short", NAMES[shorter]);
        over_structs(rule->bytes, rule->length);
    }
}

/* Rules and lassos with their verdicts and the pairs that judging takes, worked out by hand. The letters are those of
 * the stem and then of the cycle, zero where none is given. */
static const struct {
    struct zimboralo_rule rule;
    size_t stem, cycle;
    uint8_t letters[4];
    unsigned kept, pairs;
} TAKEN[] = {
    /* false has no state; true one, at rest */
    {{{0, 0, 0}, 3}, 0, 1, {0}, 0, 0},
    {{{1, 0, 0}, 3}, 0, 1, {0}, 1, 1},
    /* 0: at letter 0 alone state 0, which accepts and is not at rest; then state 1, which is */
    {{{2, 0, 0}, 3}, 1, 1, {1, 0}, 1, 2},
    {{{2, 0, 0}, 3}, 0, 1, {0}, 0, 1},
    /* eventually 0: state 0 at every letter up to the first with 0, and then state 1, at rest, before state 0 */
    {{{2, 0, 0, 12, 0, 0}, 6}, 1, 1, {1, 0}, 1, 2},
    {{{2, 0, 0, 12, 0, 0}, 6}, 2, 2, {0, 0, 1, 0}, 1, 4},
    {{{2, 0, 0, 12, 0, 0}, 6}, 0, 2, {0, 1}, 1, 3},
    {{{2, 0, 0, 12, 0, 0}, 6}, 0, 1, {0}, 0, 1},
    {{{2, 0, 0, 12, 0, 0}, 6}, 0, ZIMBORALO_MAX_LETTERS, {0}, 0, ZIMBORALO_MAX_LETTERS},
    /* always 0: one state, which is never at rest */
    {{{2, 0, 0, 11, 0, 0}, 6}, 0, 3, {1, 1, 1}, 1, 3},
    {{{2, 0, 0, 11, 0, 0}, 6}, 0, 3, {1, 1, 0}, 0, 3},
    {{{2, 0, 0, 11, 0, 0}, 6}, 1, 1, {0, 1}, 0, 1},
    /* always eventually 0, none at rest: state 0, at the next letter 2, then at the first again 1 and 2 */
    {{{2, 0, 0, 12, 0, 0, 11, 1, 0}, 9}, 0, 2, {0, 1}, 1, 4},
    /* state 0, then 1 and 2 at the cycle's one letter, from where only 2 is reached */
    {{{2, 0, 0, 12, 0, 0, 11, 1, 0}, 9}, 1, 1, {1, 0}, 0, 3},
    /* some of these again with skipped letters, which have no pairs */
    {{{2, 0, 0, 12, 0, 0}, 6}, 1, 3, {129, 0, 255, 1}, 1, 3},
    {{{2, 0, 0, 12, 0, 0}, 6}, 2, 2, {129, 128, 0, 129}, 0, 1},
    {{{2, 0, 0, 11, 0, 0}, 6}, 0, 4, {1, 128, 1, 1}, 1, 3},
    {{{2, 0, 0, 12, 0, 0, 11, 1, 0}, 9}, 2, 2, {128, 1, 129, 0}, 0, 3},
};

/* An answer that is a verdict with so many pairs, by which the working space is zero. */
static void expect_taken(uint64_t answer, uint64_t kept, uint64_t pairs_taken, const char *what)
{
    expect(answer == (kept << 8 | pairs_taken << 16), what, "another answer");
    expect(zimboralo_kept(answer) == (int)kept && zimboralo_pairs(answer) == pairs_taken, what, "another part");
    expect(zero(WORK, SIZES[WORK]), what, "work is not zero");
    expect_guards("a search for rest touched a guard");
}

/* The list above by decide, and by judge on the image that it leaves. */
static void known_pairs(void)
{
    for (size_t i = 0; i < sizeof TAKEN / sizeof *TAKEN; i++) {
        static uint8_t copy[ZIMBORALO_IMAGE_BYTES];
        uint8_t word[ZIMBORALO_MAX_LETTERS] = {0};
        const uint8_t *cycle = word + TAKEN[i].stem;
        memcpy(word, TAKEN[i].letters, sizeof TAKEN[i].letters);
        refill();
        expect_taken(decide(TAKEN[i].rule.bytes, TAKEN[i].rule.length, word, TAKEN[i].stem, cycle, TAKEN[i].cycle,
                            BUFFERS),
                     TAKEN[i].kept, TAKEN[i].pairs, "pairs of decide");
        memcpy(copy, lent(IMAGE), sizeof copy);
        size_t length = zimboralo_number_at(copy + 16) + 2 * zimboralo_number_at(copy + 14);
        refill();
        expect_taken(judge(copy, length, word, TAKEN[i].stem, cycle, TAKEN[i].cycle, BUFFERS), TAKEN[i].kept,
                     TAKEN[i].pairs, "pairs of judge");
    }
}

/* As many states as there may be, all of them initial and staying, on as many letters as there may be, and with some of
 * these skipped: the pairs of all letters that remain are taken, or those of the first one where the last state is at
 * rest. */
static void most_pairs(void)
{
    enum { COUNT = ZIMBORALO_MAX_STATES, LETTERS = ZIMBORALO_MAX_LETTERS };
    /* of the last state: whether it accepts and what it wants; the verdict, and whether all pairs are taken */
    static const struct {
        uint8_t accepting, must;
        unsigned kept, all;
    } last[] = {{0, 0, 0, 1}, {1, 0, 1, 0}, {1, 1, 1, 1}};
    static const unsigned skipped[] = {0, 1, 100, LETTERS - 2};
    static struct zimboralo_tables many;
    static struct zimboralo_image bytes;
    many.state_count = many.transition_count = many.initial_count = COUNT;
    for (uint8_t q = 0; q < COUNT; q++) {
        many.states[4 * q] = 1;
        many.transitions[4 * q + 2] = many.initial[2 * q] = q;
    }
    for (size_t i = 0; i < sizeof last / sizeof *last; i++) {
        many.states[4 * COUNT - 2] = last[i].accepting;
        many.states[4 * COUNT - 1] = last[i].accepting && !last[i].must;
        many.transitions[4 * COUNT - 4] = last[i].must;
        expect(accepted(zimboralo_write_image(&many, &bytes)), "not written", "as many states as there may be");
        for (size_t n = 0; n < sizeof skipped / sizeof *skipped; n++) {
            uint8_t word[LETTERS];
            memset(word, 1, sizeof word);
            memset(word + 1, ZIMBORALO_SKIPPED, skipped[n]);
            for (size_t s = 0; s < sizeof word; s += sizeof word - 1) {
                refill();
                expect_taken(judge(bytes.bytes, bytes.length, word, s, word + s, sizeof word - s, BUFFERS),
                             last[i].kept, COUNT * (last[i].all ? LETTERS - skipped[n] : 1), "most pairs");
            }
        }
    }
}

/* A lasso with a stem of so many letters, which judge and decide refuse by this number, or call broken if it is
 * ZIMBORALO_ACCEPTED. Before it come 25, in judge the image's numbers, in decide the rule's 1 to 7 and 26; after it
 * comes 24. A verdict leaves the working space zero, a refusal leaves every buffer as it was. */
static void lasso(size_t stem_letters, const uint8_t *cycle, size_t cycle_letters, unsigned number)
{
    static const uint8_t stem[ZIMBORALO_MAX_LETTERS + 1] = {0};
    static const uint8_t no_states[] = {1, 0, 0, 0, 18, 0, 2, 0, 0, 0, 18, 0, 3, 0, 0, 0, 18, 0};
    refill();
    expect(judge(no_states, 0, stem, stem_letters, cycle, cycle_letters, WORK) == ZIMBORALO_TABLE_TOO_SHORT,
           "judge took a lasso before", "the working space");
    expect(judge(no_states, sizeof no_states - 1, stem, stem_letters, cycle, cycle_letters, BUFFERS)
               == ZIMBORALO_BAD_CONTENTS,
           "judge took a lasso before", "the image");
    expect(decide(unknown, sizeof unknown, stem, stem_letters, cycle, cycle_letters, WORK) == ZIMBORALO_TABLE_TOO_SHORT,
           "decide took a lasso before", "the working space");
    expect(decide(unknown, sizeof unknown, stem, stem_letters, cycle, cycle_letters, BUFFERS) == ZIMBORALO_UNKNOWN_KIND,
           "decide took a lasso before", "the rule");
    expect_untouched("an earlier refusal touched a buffer");
    expect(judge(no_states, sizeof no_states, stem, stem_letters, cycle, cycle_letters, BUFFERS) == number,
           "judge on a lasso", "another answer");
    if (number == ZIMBORALO_ACCEPTED) {
        expect(zero(WORK, SIZES[WORK]), "not zero after a verdict of judge", NAMES[WORK]);
        expect_guards("judge touched a guard");
        refill();
    }
    expect(decide(never, sizeof never, stem, stem_letters, cycle, cycle_letters, BUFFERS) == number,
           "decide on a lasso", "another answer");
    if (number == ZIMBORALO_ACCEPTED)
        expect(zero(WORK, SIZES[WORK]), "not zero after a verdict of decide", NAMES[WORK]);
    uint64_t order = decide(pairs, sizeof pairs, stem, stem_letters, cycle, cycle_letters, BUFFERS);
    if (number == ZIMBORALO_ACCEPTED) {
        expect(zimboralo_number(order) == ZIMBORALO_TOO_MANY_PAIRS, "decide took", "a pair too many");
        expect_guards("decide touched a guard");
    } else {
        expect(order == number, "decide took a lasso after", "the pairs");
        expect_untouched("a refused lasso touched a buffer");
    }
}

/* No letter; as many as a lasso may have, and one more: in the cycle, in both, and in the stem. Then cycles of which
 * every letter is skipped, whatever its other bits, with 8 and 9 before that; and with one letter that remains. */
static void lassos(void)
{
    static const uint8_t plain[ZIMBORALO_MAX_LETTERS + 1] = {0};
    static uint8_t skipped[ZIMBORALO_MAX_LETTERS + 1];
    const size_t most = ZIMBORALO_MAX_LETTERS;
    lasso(0, plain, 0, ZIMBORALO_EMPTY_CYCLE);
    lasso(most, plain, 0, ZIMBORALO_EMPTY_CYCLE);
    lasso(most + 1, plain, 0, ZIMBORALO_EMPTY_CYCLE);
    lasso(0, plain, most, ZIMBORALO_ACCEPTED);
    lasso(most / 2, plain, most - most / 2, ZIMBORALO_ACCEPTED);
    lasso(most - 1, plain, 1, ZIMBORALO_ACCEPTED);
    lasso(0, plain, most + 1, ZIMBORALO_TOO_MANY_LETTERS);
    lasso(most / 2 + 1, plain, most - most / 2, ZIMBORALO_TOO_MANY_LETTERS);
    lasso(most, plain, 1, ZIMBORALO_TOO_MANY_LETTERS);
    lasso(most + 1, plain, most + 1, ZIMBORALO_TOO_MANY_LETTERS);
    for (unsigned other = 0; other < ZIMBORALO_SKIPPED; other += 127) {
        memset(skipped, (int)(ZIMBORALO_SKIPPED | other), sizeof skipped);
        lasso(0, skipped, 1, ZIMBORALO_ALL_SKIPPED);
        lasso(0, skipped, most, ZIMBORALO_ALL_SKIPPED);
        lasso(most - 1, skipped, 1, ZIMBORALO_ALL_SKIPPED);
        lasso(0, skipped, most + 1, ZIMBORALO_TOO_MANY_LETTERS);
        lasso(most, skipped, 1, ZIMBORALO_TOO_MANY_LETTERS);
        lasso(most + 1, skipped, 0, ZIMBORALO_EMPTY_CYCLE);
        skipped[most - 2] = ZIMBORALO_SKIPPED - 1;
        lasso(0, skipped, most, ZIMBORALO_ACCEPTED);
        lasso(1, skipped, most - 1, ZIMBORALO_ACCEPTED);
        lasso(2, skipped, most - 2, ZIMBORALO_ALL_SKIPPED);
    }
}

/* A lasso: so many letters in its stem and, behind them, in its cycle. */
struct word {
    size_t stem, cycle;
    uint8_t letters[ZIMBORALO_MAX_LETTERS + 1];
};

static uint64_t same_word(const struct word *a, const struct word *b)
{
    return zimboralo_same_word(a->letters, a->stem, a->letters + a->stem, a->cycle, b->letters, b->stem,
                               b->letters + b->stem, b->cycle);
}

/* Two lassos, in either order, are one word or are not; each is one with itself. */
static void expect_words(const struct word *a, const struct word *b, unsigned same, const char *what)
{
    const uint64_t yes = 1 << 8;
    expect(same_word(a, b) == (same ? yes : 0) && same_word(b, a) == (same ? yes : 0), what, "another answer");
    expect(same_word(a, a) == yes && same_word(b, b) == yes, what, "not one with itself");
}

/* Lassos that are one word or are not, told by hand. */
static const struct {
    struct word first, second;
    unsigned same;
} WORDS[] = {
    /* the cycle twice, also with one pass in the stem of the other */
    {{0, 1, {0}}, {0, 2, {0, 0}}, 1},
    {{2, 2, {1, 2, 1, 2}}, {0, 4, {1, 2, 1, 2}}, 1},
    /* turned, with what it was turned by in the stem, and without */
    {{0, 2, {1, 2}}, {1, 2, {1, 2, 1}}, 1},
    {{0, 2, {1, 2}}, {0, 2, {2, 1}}, 0},
    {{0, 2, {1, 2}}, {1, 2, {1, 1, 2}}, 0},
    /* stems of other lengths; another letter at the stem's end, and at its beginning in the highest proposition alone
     * */
    {{3, 1, {0, 0, 1, 0}}, {5, 2, {0, 0, 1, 0, 0, 0, 0}}, 1},
    {{3, 1, {0, 0, 1, 0}}, {5, 2, {0, 0, 1, 0, 1, 0, 0}}, 0},
    {{3, 1, {0, 0, 1, 0}}, {3, 1, {64, 0, 1, 0}}, 0},
    /* skipped letters, whatever their other bits; one of them is not skipped */
    {{2, 2, {128, 1, 2, 255}}, {1, 1, {1, 2}}, 1},
    {{3, 1, {129, 130, 131, 0}}, {0, 3, {0, 128, 0}}, 1},
    {{2, 2, {128, 1, 2, 127}}, {1, 1, {1, 2}}, 0},
    /* cycles of 3 and 5 letters whose words agree on six letters */
    {{0, 3, {0, 1, 0}}, {0, 5, {0, 1, 0, 0, 1}}, 0},
};

/* The list above; and with as many letters as there may be: a cycle and the half of it, until its last letter is
 * another one; and two cycles, one a letter longer, whose words agree on all letters that both have but two. */
static void words(void)
{
    enum { MOST = ZIMBORALO_MAX_LETTERS };
    for (size_t i = 0; i < sizeof WORDS / sizeof *WORDS; i++)
        expect_words(&WORDS[i].first, &WORDS[i].second, WORDS[i].same, "a word");
    struct word half = {0, MOST / 2, {0}}, whole_cycle = {0, MOST, {0}};
    for (size_t i = 0; i < MOST / 2; i++)
        half.letters[i] = whole_cycle.letters[i] = whole_cycle.letters[MOST / 2 + i] = pattern(i) & 127;
    expect_words(&half, &whole_cycle, 1, "half of the cycle");
    whole_cycle.letters[MOST - 1] ^= 1;
    expect_words(&half, &whole_cycle, 0, "another last letter");
    struct word longest = {0, MOST, {0}}, shorter = {0, MOST - 1, {0}};
    longest.letters[MOST - 2] = shorter.letters[MOST - 2] = 1;
    expect_words(&longest, &shorter, 0, "words that agree for long");
}

/* How many letters stem and cycle have, and the last of them; the number by which that is refused. */
static const struct {
    size_t stem, cycle;
    uint8_t last;
    uint64_t number;
} LETTERS[] = {
    {0, 1, 0, ZIMBORALO_ACCEPTED},
    {ZIMBORALO_MAX_LETTERS - 1, 1, 0, ZIMBORALO_ACCEPTED},
    {0, ZIMBORALO_MAX_LETTERS, 0, ZIMBORALO_ACCEPTED},
    {0, ZIMBORALO_MAX_LETTERS, 255, ZIMBORALO_ACCEPTED},
    {0, 0, 0, ZIMBORALO_EMPTY_CYCLE},
    {ZIMBORALO_MAX_LETTERS + 1, 0, 128, ZIMBORALO_EMPTY_CYCLE},
    {0, ZIMBORALO_MAX_LETTERS + 1, 0, ZIMBORALO_TOO_MANY_LETTERS},
    {ZIMBORALO_MAX_LETTERS, 1, 0, ZIMBORALO_TOO_MANY_LETTERS},
    {ZIMBORALO_MAX_LETTERS, 1, 128, ZIMBORALO_TOO_MANY_LETTERS},
    {ZIMBORALO_MAX_LETTERS - 1, 1, 128, ZIMBORALO_ALL_SKIPPED},
    {0, 1, 255, ZIMBORALO_ALL_SKIPPED},
};
enum { LETTERS_COUNT = sizeof LETTERS / sizeof *LETTERS };

/* Row i of that list, its other letters 0. */
static struct word word_of(size_t i)
{
    struct word w = {LETTERS[i].stem, LETTERS[i].cycle, {0}};
    if (w.stem + w.cycle)
        w.letters[w.stem + w.cycle - 1] = LETTERS[i].last;
    return w;
}

/* 8 before 9 before 28, and the first of two lassos, at place 0, before the second, at place 1. */
static void words_refused(void)
{
    for (size_t i = 0; i < LETTERS_COUNT * LETTERS_COUNT; i++) {
        struct word a = word_of(i / LETTERS_COUNT), b = word_of(i % LETTERS_COUNT);
        uint64_t first = LETTERS[i / LETTERS_COUNT].number, second = LETTERS[i % LETTERS_COUNT].number;
        uint64_t want = first ? first : second ? second | 1 << 8 : 1 << 8;
        expect(same_word(&a, &b) == want, "two words of so many letters", "another answer");
    }
}

/* ---- the field unit */

static uint64_t field_translate(const uint8_t *rule, size_t length, int shorter)
{
    return zimboralo_field_translate(rule, length, lent(STATES), size_of(STATES, shorter), lent(TRANSITIONS),
                                     size_of(TRANSITIONS, shorter), lent(INITIAL), size_of(INITIAL, shorter));
}

/* A rule for the field unit: refused by `number` with every byte as it was, or where that is 0 exactly as translate, to
 * the last byte; before that a short table is 25. Over structs likewise. */
static void field_rule(const uint8_t *rule, size_t length, uint64_t number)
{
    static uint8_t after[BUFFERS][ZIMBORALO_IMAGE_BYTES + 2 * GUARD];
    refill();
    uint64_t want = number ? number : translate(rule, length, BUFFERS);
    for (int b = 0; b < BUFFERS; b++)
        memcpy(after[b], blocks[b], SIZES[b] + 2 * GUARD);
    refill_both();
    uint64_t answer = field_translate(rule, length, BUFFERS);
    expect(answer == want, "field_translate", "another answer");
    for (int b = 0; b < BUFFERS; b++)
        expect(memcmp(after[b], blocks[b], SIZES[b] + 2 * GUARD) == 0, "field_translate left other bytes", NAMES[b]);
    expect_same("field_translate_rule", answer, zimboralo_field_translate_rule(rule, length, tables), answer, NOT_SET);
    for (int shorter = STATES; shorter <= INITIAL; shorter++) {
        refill();
        expect(field_translate(rule, length, shorter) == ZIMBORALO_TABLE_TOO_SHORT, "field_translate took a short",
               NAMES[shorter]);
        expect_untouched("field_translate touched a buffer");
    }
}

/* 29 at a node of the negation normal form. */
static uint64_t until_at(uint64_t place) { return ZIMBORALO_HAS_UNTIL | place << 8; }

static void field_rules(void)
{
    /* eventually 0 in both editions; not always 0; 0 until (1 until 2) */
    static const uint8_t eventually[] = {2, 0, 0, 12, 0, 0}, until[] = {1, 0, 0, 2, 0, 0, 7, 0, 1};
    static const uint8_t not_always[] = {2, 0, 0, 11, 0, 0, 9, 1, 0};
    static const uint8_t twice[] = {2, 0, 0, 2, 1, 0, 2, 2, 0, 7, 1, 2, 7, 0, 3};
    static const uint8_t not_eventually[] = {2, 0, 0, 12, 0, 0, 9, 1, 0};
    /* for each of 7 propositions, that one now or proposition 0 next: 128 terms */
    uint8_t crowded[3 * 27];
    for (uint8_t p = 0; p < 7; p++) {
        const uint8_t leaf[] = {2, p, 0}, either[] = {6, 0, 0, 5, p, 7 + 2 * p};
        memcpy(crowded + 3 * p, leaf, sizeof leaf);
        memcpy(crowded + 3 * (7 + 2 * p), either, sizeof either);
    }
    for (uint8_t n = 0; n < 6; n++) {
        const uint8_t both[] = {4, n ? 20 + n : 8, 10 + 2 * n};
        memcpy(crowded + 3 * (21 + n), both, sizeof both);
    }
    const struct zimboralo_rule most = stacked(ALWAYS, ZIMBORALO_MAX_NODES - 2);
    const struct zimboralo_rule many = stacked(EVENTUALLY, ZIMBORALO_MAX_UNTILS + 1);
    const struct zimboralo_rule over = stacked(EVENTUALLY, ZIMBORALO_MAX_NODES - 1);
    field_rule(if_then, sizeof if_then, 0);
    field_rule(never, sizeof never, 0);
    field_rule(not_eventually, sizeof not_eventually, 0);
    field_rule(most.bytes, most.length, 0);
    field_rule(crowded, sizeof crowded, 0); /* 20, by which the tables are zero */
    refill();
    expect(zimboralo_number(field_translate(crowded, sizeof crowded, BUFFERS)) == ZIMBORALO_TOO_MANY_TERMS
               && zero(TRANSITIONS, SIZES[TRANSITIONS]),
           "field_translate took", "too many terms");
    field_rule(eventually, sizeof eventually, until_at(2));
    field_rule(until, sizeof until, until_at(2));
    field_rule(not_always, sizeof not_always, until_at(2));
    field_rule(twice, sizeof twice, until_at(3));
    field_rule(pairs, sizeof pairs, until_at(2)); /* before 24 */
    field_rule(unknown, sizeof unknown, ZIMBORALO_UNKNOWN_KIND);
    field_rule(many.bytes, many.length, ZIMBORALO_TOO_MANY_UNTILS);
    field_rule(over.bytes, over.length, ZIMBORALO_TOO_MANY_NODES);
}

/* Starting, where the letter is START, or a step. */
enum { START = -1 };

static uint64_t watch(const struct zimboralo_image *by, uint8_t *set, size_t length, int letter)
{
    return letter == START ? zimboralo_field_start(by->bytes, by->length, set, length)
                           : zimboralo_field_step(by->bytes, by->length, set, length, (uint8_t)letter);
}

/* On so many lent bytes between guards, which begin with `before`: this answer, and `after` at their start with zeros
 * behind it, or if that is NULL every byte as it was. */
static void watched_in(const struct zimboralo_image *by, size_t length, int letter, const struct zimboralo_set *before,
                       uint64_t answer, const struct zimboralo_set *after)
{
    static uint8_t block[GUARD + LONGER + GUARD], was[sizeof block];
    for (size_t i = 0; i < sizeof block; i++)
        block[i] = pattern(i);
    memcpy(block + GUARD, before->bytes, length < sizeof before->bytes ? length : sizeof before->bytes);
    memcpy(was, block, sizeof block);
    expect(watch(by, block + GUARD, length, letter) == answer, "a set", "another answer");
    int ok = 1;
    for (size_t i = 0; i < sizeof block; i++) {
        int filled = after && i >= GUARD && i < GUARD + length;
        uint8_t want = !filled ? was[i] : i - GUARD < sizeof after->bytes ? after->bytes[i - GUARD] : 0;
        ok = ok && block[i] == want;
    }
    expect(ok, "a set", "another byte");
}

/* The same on the smallest set, longer ones and a struct; on shorter ones it is 25, with every byte as it was. */
static void watched(const struct zimboralo_image *by, int letter, const struct zimboralo_set *before, uint64_t answer,
                    const struct zimboralo_set *after)
{
    static const size_t lengths[] = {ZIMBORALO_SET_BYTES, ZIMBORALO_SET_BYTES + 1, LONGER};
    struct zimboralo_set set = *before;
    for (size_t i = 0; i < sizeof lengths / sizeof *lengths; i++)
        watched_in(by, lengths[i], letter, before, answer, after);
    watched_in(by, 0, letter, before, ZIMBORALO_TABLE_TOO_SHORT, NULL);
    watched_in(by, ZIMBORALO_SET_BYTES - 1, letter, before, ZIMBORALO_TABLE_TOO_SHORT, NULL);
    uint64_t over = letter == START ? zimboralo_field_start_set(by->bytes, by->length, &set)
                                    : zimboralo_field_step_set(by->bytes, by->length, &set, (uint8_t)letter);
    expect(over == answer && memcmp(set.bytes, after ? after->bytes : before->bytes, sizeof set.bytes) == 0,
           "a set in a struct", "another answer or byte");
}

/* States from one on, so many. */
static struct zimboralo_set set_of(unsigned from, unsigned count)
{
    struct zimboralo_set set = {{0}};
    for (unsigned q = from; q < from + count; q++)
        set.bytes[q / 8] |= (uint8_t)(1 << q % 8);
    return set;
}

/* A ring of so many states: from each a transition with proposition 0 to the one behind it, from the last to the first,
 * which is initial if so asked. */
static struct zimboralo_image ring(unsigned count, unsigned initial)
{
    static struct zimboralo_tables made;
    struct zimboralo_image of;
    memset(&made, 0, sizeof made);
    for (unsigned q = 0; q < count; q++) {
        made.states[4 * q] = 1;
        made.transitions[4 * q] = 1;
        made.transitions[4 * q + 2] = (uint8_t)((q + 1) % count);
    }
    made.state_count = made.transition_count = count;
    made.initial_count = initial;
    expect(accepted(zimboralo_write_image(&made, &of)), "write refused", "a ring");
    return of;
}

/* Rings of every size: starting, steps from no state, one, all and from bits of no state, and letters that no
 * transition reads or that are skipped. First an image of no state at all. */
static void sets(void)
{
    const uint64_t quiet = 0, alarm = 1 << 8;
    const struct zimboralo_set none = set_of(0, 0), all = set_of(0, ZIMBORALO_MAX_STATES), first = set_of(0, 1);
    struct zimboralo_image empty = ring(0, 0);
    watched(&empty, START, &all, alarm, &none);
    watched(&empty, 1, &all, alarm, &none);
    watched(&empty, ZIMBORALO_SKIPPED, &all, alarm, NULL);
    for (unsigned n = 1; n <= ZIMBORALO_MAX_STATES; n++) {
        struct zimboralo_image by = ring(n, 1), idle = ring(n, 0);
        const struct zimboralo_set states = set_of(0, n), last = set_of(n - 1, 1);
        const struct zimboralo_set others = set_of(n, ZIMBORALO_MAX_STATES - n);
        watched(&by, START, &all, quiet, &first);
        watched(&by, START, &none, quiet, &first);
        watched(&idle, START, &all, alarm, &none);
        watched(&by, 1, &all, quiet, &states);
        watched(&by, 1, &last, quiet, &first);
        watched(&by, 1, &others, alarm, &none);
        watched(&by, 1, &none, alarm, &none);
        watched(&by, 0, &all, alarm, &none);
        watched(&by, ZIMBORALO_SKIPPED | 1, &all, quiet, NULL);
        watched(&by, ZIMBORALO_SKIPPED, &last, quiet, NULL);
        watched(&by, ZIMBORALO_SKIPPED, &others, alarm, NULL);
        watched(&by, 255, &none, alarm, NULL);
        by.length--;
        watched(&by, START, &all, ZIMBORALO_BAD_CONTENTS, NULL);
        watched(&by, 1, &all, ZIMBORALO_BAD_CONTENTS, NULL);
        watched(&by, 255, &all, ZIMBORALO_BAD_CONTENTS, NULL);
        idle.bytes[ZIMBORALO_CONTENTS_BYTES + 4 * n + 2] = (uint8_t)n; /* the first transition leads to no state */
        watched(&idle, START, &all, ZIMBORALO_BAD_TRANSITION, NULL);
        watched(&idle, ZIMBORALO_SKIPPED, &first, ZIMBORALO_BAD_TRANSITION, NULL);
    }
}

/* ---- explaining */

static uint64_t explain(const uint8_t *rule, size_t length, const struct word *w)
{
    return zimboralo_explain(rule, length, w->letters, w->stem, w->letters + w->stem, w->cycle);
}

static uint64_t satisfies(const uint8_t *rule, size_t length, const struct word *w)
{
    return zimboralo_satisfies(rule, length, w->letters, w->stem, w->letters + w->stem, w->cycle);
}

/* Explaining a rule in negation normal form on a word: a clause, or -1, and in which slice its part begins, and where.
 * The word keeps the rule exactly where there is no clause, and the part goes from there to the end of its slice. */
static void explained(const uint8_t *rule, size_t length, const struct word *w, int clause, unsigned part, size_t index)
{
    const uint8_t *stem = w->letters, *cycle = w->letters + w->stem;
    uint64_t answer = explain(rule, length, w);
    expect(answer == ((uint64_t)(clause + 1) << 8 | (uint64_t)part << 16 | (uint64_t)index << 24), "explain",
           "another answer");
    expect(zimboralo_clause(answer) == clause && zimboralo_part(answer) == part && zimboralo_index(answer) == index,
           "explain", "its parts");
    expect(satisfies(rule, length, w) == (clause < 0 ? 1 << 8 : 0), "satisfies", "another answer");
    size_t letters;
    const uint8_t *at = zimboralo_broken_part(answer, stem, w->stem, cycle, w->cycle, &letters);
    const uint8_t *want = part == ZIMBORALO_NO_PART ? NULL : (part == ZIMBORALO_IN_STEM ? stem : cycle) + index;
    size_t rest = part == ZIMBORALO_NO_PART ? 0 : (part == ZIMBORALO_IN_STEM ? w->stem : w->cycle) - index;
    expect(at == want && letters == rest, "explain", "the letters of its part");
}

/* Rules: always 0, eventually 0, 0 until 1, 0 release 1, 0, 0 and again 0, 0 and next 1; then (0 and next 0) and (always
 * 1 and eventually 2), whose clauses are nodes 0, 1, 5 and 8. */
static const uint8_t always_0[] = {0, 0, 0, 2, 0, 0, 8, 0, 1}, eventually_0[] = {1, 0, 0, 2, 0, 0, 7, 0, 1};
static const uint8_t until_rule[] = {2, 0, 0, 2, 1, 0, 7, 0, 1}, release_rule[] = {2, 0, 0, 2, 1, 0, 8, 0, 1};
static const uint8_t leaf[] = {2, 0, 0}, twice[] = {2, 0, 0, 4, 0, 0}, now_and_next[] = {2, 0, 0, 2, 1, 0, 6, 1, 0, 4, 0, 2};
static const uint8_t four[] = {2, 0, 0, 6, 0, 0, 4, 0, 1, 0, 0, 0, 2, 1, 0, 8, 3, 4,
                               1, 0, 0, 2, 2, 0, 7, 6, 7, 4, 5, 8, 4, 2, 9};

/* Clauses that are broken, told by hand. */
static const struct {
    const uint8_t *rule;
    size_t length;
    struct word word;
    int clause;
    unsigned part;
    size_t index;
} BROKEN[] = {
#define RULE(rule) rule, sizeof rule
    /* a release, in the stem and in the cycle; its left side ends it behind a letter, and not at that letter */
    {RULE(always_0), {0, 1, {1}}, -1, 0, 0},
    {RULE(always_0), {3, 1, {1, 0, 1, 0}}, 2, 1, 1},
    {RULE(always_0), {1, 2, {1, 1, 0}}, 2, 2, 1},
    {RULE(release_rule), {1, 1, {3, 0}}, -1, 0, 0},
    {RULE(release_rule), {0, 1, {1}}, 2, 2, 0},
    {RULE(release_rule), {2, 2, {2, 2, 2, 1}}, 2, 2, 1},
    {RULE(release_rule), {3, 1, {2, 0, 3, 0}}, 2, 1, 1},
    /* an until: the first letter with neither side, also where the right side comes later; or none */
    {RULE(until_rule), {2, 1, {1, 1, 2}}, -1, 0, 0},
    {RULE(until_rule), {2, 1, {1, 1, 0}}, 2, 2, 0},
    {RULE(until_rule), {3, 1, {1, 0, 2, 2}}, 2, 1, 1},
    {RULE(until_rule), {1, 1, {1, 1}}, 2, 0, 0},
    {RULE(eventually_0), {1, 1, {1, 0}}, -1, 0, 0},
    {RULE(eventually_0), {1, 1, {0, 0}}, 2, 0, 0},
    /* any other: the first letter that remains */
    {RULE(leaf), {1, 1, {0, 1}}, 0, 1, 0},
    {RULE(leaf), {0, 1, {0}}, 0, 2, 0},
    {RULE(leaf), {3, 1, {128, 255, 0, 1}}, 0, 1, 2},
    {RULE(leaf), {2, 3, {129, 255, 128, 0, 1}}, 0, 2, 1},
    {RULE(twice), {0, 1, {0}}, 0, 2, 0},
    /* letters that are skipped count for the index and for nothing else; the last two are examples of docs/FORMAT.md */
    {RULE(always_0), {3, 2, {128, 1, 128, 129, 0}}, 2, 2, 1},
    {RULE(release_rule), {3, 1, {129, 2, 0, 0}}, 2, 1, 2},
    {RULE(until_rule), {2, 2, {130, 1, 131, 0}}, 2, 2, 1},
    {RULE(release_rule), {2, 3, {129, 2, 131, 1, 2}}, 2, 2, 1},
    {RULE(now_and_next), {1, 2, {128, 129, 1}}, 2, 2, 1},
    /* the first of several, left before right */
    {RULE(four), {0, 1, {7}}, -1, 0, 0},
    {RULE(four), {0, 1, {0}}, 0, 2, 0},
    {RULE(four), {1, 1, {1, 0}}, 1, 1, 0},
    {RULE(four), {0, 2, {3, 1}}, 5, 2, 1},
    {RULE(four), {0, 1, {3}}, 8, 0, 0},
};

/* The list above; always 0 on as many letters as there may be, of which the last has none, also where all before it in
 * the slice are skipped; then the refusals in their order, those of the rule before those of the lasso. */
static void explanations(void)
{
    enum { MOST = ZIMBORALO_MAX_LETTERS };
    for (size_t i = 0; i < sizeof BROKEN / sizeof *BROKEN; i++)
        explained(BROKEN[i].rule, BROKEN[i].length, &BROKEN[i].word, BROKEN[i].clause, BROKEN[i].part, BROKEN[i].index);
    for (size_t stem = 0; stem < MOST; stem++) {
        struct word w = {stem, MOST - stem, {0}};
        memset(w.letters, 1, MOST - 1);
        explained(RULE(always_0), &w, 2, ZIMBORALO_IN_CYCLE, MOST - stem - 1);
        memset(w.letters + stem, 0x81, MOST - stem - 1);
        explained(RULE(always_0), &w, 2, ZIMBORALO_IN_CYCLE, MOST - stem - 1);
        w.letters[MOST - 1] = 1;
        explained(RULE(always_0), &w, -1, ZIMBORALO_NO_PART, 0);
        if (stem) {
            w.letters[stem - 1] = 0;
            explained(RULE(always_0), &w, 2, ZIMBORALO_IN_STEM, stem - 1);
        }
    }
    const struct zimboralo_rule nine = stacked_normal(EVENTUALLY, ZIMBORALO_MAX_UNTILS + 1);
    const struct zimboralo_rule nine_written = stacked(EVENTUALLY, ZIMBORALO_MAX_UNTILS + 1);
    const struct zimboralo_rule over = stacked(ALWAYS, ZIMBORALO_MAX_NODES - 1);
    const uint64_t at_2 = ZIMBORALO_UNKNOWN_KIND | 2 << 8;
    for (size_t i = 0; i < LETTERS_COUNT; i++) {
        struct word w = word_of(i);
        uint64_t number = LETTERS[i].number;
        expect(explain(unknown, sizeof unknown, &w) == ZIMBORALO_UNKNOWN_KIND, "explain", "an unknown kind");
        expect(explain(RULE(if_then), &w) == at_2, "explain", "a written rule");
        expect(explain(nine.bytes, nine.length, &w) == ZIMBORALO_TOO_MANY_UNTILS, "explain", "nine untils");
        expect(refusal(explain(RULE(four), &w)) == number, "explain", "a refused lasso");
        expect(satisfies(unknown, sizeof unknown, &w) == ZIMBORALO_UNKNOWN_KIND, "satisfies", "an unknown kind");
        expect(satisfies(over.bytes, over.length, &w) == ZIMBORALO_TOO_MANY_NODES, "satisfies", "33 nodes");
        expect(satisfies(nine_written.bytes, nine_written.length, &w) == ZIMBORALO_TOO_MANY_UNTILS, "satisfies",
               "nine untils");
        /* always (0 implies 1) on letters without 0, but for the last, which is skipped where it has it */
        expect(satisfies(RULE(if_then), &w) == (number ? number : 1 << 8), "satisfies", "a refused lasso");
        /* translating refuses this one by 24 */
        expect(satisfies(RULE(pairs), &w) == number, "satisfies", "a pair too many");
    }
#undef RULE
    const struct word kept = {0, 1, {63}};
    expect(satisfies(pairs, sizeof pairs, &kept) == 1 << 8, "satisfies", "a rule without an automaton, kept");
}

/* ---- reports */

/* What is reported: an image, a word, how many working bytes are lent, and the verdict, by hand. */
struct reported {
    struct zimboralo_image image;
    struct word word;
    size_t work;
    uint8_t verdict;
};

enum { TAKEN_COUNT = sizeof TAKEN / sizeof *TAKEN, FAULTS = 5, REPORTED = TAKEN_COUNT + LETTERS_COUNT + FAULTS };

/* The image of a rule. */
static struct zimboralo_image image_of(const uint8_t *rule, size_t length)
{
    static struct zimboralo_tables made;
    struct zimboralo_image of;
    expect(accepted(zimboralo_translate_rule(rule, length, &made)) && accepted(zimboralo_write_image(&made, &of)),
           "no image", "of a rule");
    return of;
}

/* The lists of verdicts with their pairs, kept and broken; of refused lassos, with the image of false, which none
 * keeps; and one lasso that is kept, until its image has a fault or the working bytes are too few. */
static void fill_reported(struct reported *all)
{
    /* a byte of the image of eventually 0, in its contents and in a record of each table, and how judge refuses another
     * one there; at last the working bytes */
    static const struct {
        size_t at;
        uint64_t number;
    } faults[FAULTS] = {{0, ZIMBORALO_BAD_CONTENTS}, {20, ZIMBORALO_BAD_STATE}, {28, ZIMBORALO_BAD_TRANSITION},
                        {38, ZIMBORALO_BAD_INITIAL}, {0, ZIMBORALO_TABLE_TOO_SHORT}};
    struct reported *r = all;
    for (size_t i = 0; i < TAKEN_COUNT; i++, r++) {
        *r = (struct reported){image_of(TAKEN[i].rule.bytes, TAKEN[i].rule.length),
                               {TAKEN[i].stem, TAKEN[i].cycle, {0}}, SIZES[WORK], (uint8_t)TAKEN[i].kept};
        memcpy(r->word.letters, TAKEN[i].letters, sizeof TAKEN[i].letters);
    }
    for (size_t i = 0; i < LETTERS_COUNT; i++, r++)
        *r = (struct reported){image_of(never, sizeof never), word_of(i), SIZES[WORK], LETTERS[i].number ? 2 : 0};
    for (size_t i = 0; i < FAULTS; i++, r++) {
        *r = (struct reported){image_of(eventually_0, sizeof eventually_0), {0, 1, {1}}, SIZES[WORK], 2};
        if (faults[i].number == ZIMBORALO_TABLE_TOO_SHORT)
            r->work--;
        else
            r->image.bytes[faults[i].at] = 2;
        expect(zimboralo_judge(r->image.bytes, r->image.length, r->word.letters, 0, r->word.letters, 1, lent(WORK),
                               r->work)
                   == faults[i].number,
               "not refused", "a fault");
    }
}

/* A report under a number in so many lent bytes between guards, and working bytes of which none is zero: the 32 bytes
 * by hand, every other byte as it was, and the working bytes as judge leaves them; or 25 for fewer than 32, with every
 * byte as it was. `block` has guards and lent bytes afterwards. */
static void reported_in(const struct reported *r, uint16_t number, size_t length, uint8_t filled, uint8_t *block)
{
    static uint8_t left[ZIMBORALO_WORK_BYTES];
    const struct word *w = &r->word;
    const uint8_t *cycle = w->letters + w->stem;
    int fits = length >= ZIMBORALO_REPORT_BYTES;
    uint8_t want[ZIMBORALO_REPORT_BYTES] = {(uint8_t)(number % 256), (uint8_t)(number / 256), r->verdict};
    memset(left, filled, sizeof left);
    if (fits)
        zimboralo_judge(r->image.bytes, r->image.length, w->letters, w->stem, cycle, w->cycle, left, r->work);
    refill();
    memset(lent(WORK), filled, SIZES[WORK]);
    for (size_t i = 0; i < GUARD + LONGER + GUARD; i++)
        block[i] = pattern(i);
    uint64_t answer = zimboralo_report(number, r->image.bytes, r->image.length, w->letters, w->stem, cycle, w->cycle,
                                       lent(WORK), r->work, block + GUARD, length);
    expect(answer == (fits ? ZIMBORALO_ACCEPTED : ZIMBORALO_TABLE_TOO_SHORT), "a report", "another answer");
    int ok = 1;
    for (size_t i = 0; i < GUARD + LONGER + GUARD; i++)
        ok = ok && block[i] == (fits && i >= GUARD && i < GUARD + sizeof want ? want[i - GUARD] : pattern(i));
    expect(ok, "a report", "another byte");
    expect(memcmp(lent(WORK), left, sizeof left) == 0, "a report", "another working byte");
    expect(!fits || left[0] == (r->verdict == 2 ? filled : 0), "a report", "the working bytes of judge");
    expect_guards("report touched a guard");
}

/* Every case under some numbers, in fewer bytes than a report has, in as many and in more. Of each two under one
 * number, whatever else they differ in, the lent bytes are the same, all of them, exactly where the verdict is. */
static void reports(void)
{
    static struct reported all[REPORTED];
    static uint8_t sent[REPORTED][GUARD + LONGER + GUARD];
    static const uint16_t numbers[] = {0, 1, 255, 256, 4660, 65535};
    static const size_t lengths[] = {0, ZIMBORALO_REPORT_BYTES - 1, ZIMBORALO_REPORT_BYTES, LONGER};
    enum { LENGTHS = sizeof lengths / sizeof *lengths };
    fill_reported(all);
    for (size_t n = 0; n < LENGTHS * (sizeof numbers / sizeof *numbers); n++) {
        size_t length = lengths[n % LENGTHS];
        for (size_t i = 0; i < REPORTED; i++)
            reported_in(&all[i], numbers[n / LENGTHS], length, (uint8_t)(i + 1), sent[i]);
        for (size_t i = 0; i < REPORTED * REPORTED; i++) {
            const struct reported *a = &all[i / REPORTED], *b = &all[i % REPORTED];
            int same = length < ZIMBORALO_REPORT_BYTES || a->verdict == b->verdict;
            expect((memcmp(sent[i / REPORTED], sent[i % REPORTED], sizeof *sent) == 0) == same, "two reports",
                   same ? "not the same" : "the same");
        }
    }
}

int main(void)
{
    const struct zimboralo_rule over = stacked(ALWAYS, ZIMBORALO_MAX_NODES - 1);
    for (int b = 0; b < BUFFERS; b++)
        if (!(blocks[b] = malloc(SIZES[b] + 2 * GUARD)))
            return 1;
    whole(always_eventually, sizeof always_eventually);
    whole(never, sizeof never);
    whole(if_then, sizeof if_then);
    in_a_row(always_eventually, sizeof always_eventually);
    in_a_row(never, sizeof never);
    in_a_row(if_then, sizeof if_then);
    refused();
    over_structs(always_eventually, sizeof always_eventually);
    over_structs(never, sizeof never);
    over_structs(unknown, sizeof unknown);
    over_structs(pairs, sizeof pairs);
    over_structs(if_then, sizeof if_then);
    over_structs(over.bytes, over.length);
    limits();
    node_too_many(ALWAYS);
    node_too_many(EVENTUALLY);
    normal_forms();
    merged_rules();
    conflicts();
    state_records();
    last_bytes();
    rests();
    known_pairs();
    most_pairs();
    lassos();
    words();
    words_refused();
    field_rules();
    sets();
    explanations();
    reports();
    printf("guards: %d looked at, %d wrong\n", looked, wrong);
    for (int b = 0; b < BUFFERS; b++)
        free(blocks[b]);
    return wrong != 0;
}
