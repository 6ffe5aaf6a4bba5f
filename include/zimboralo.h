/* Rules of linear temporal logic, their automata, and the judging of lassos (plans). FORMAT.md, in docs/ or where it is
 * installed in share/doc/zimboralo/, has the bytes; zimboralo_text.h has the refusals in words.
 *
 * Every call takes byte slices as a pointer and a length, allocates nothing, and is proved to give the answer and
 * leave every lent byte as documented, for every input. A slice of length 0 still wants a pointer that is not null.
 * Slices of one call that are written must not overlap any other of its slices. Behind the calls stand structs with
 * room for what they fill, and inline functions that lend these; they are C, tested and not proved. */
#ifndef ZIMBORALO_H
#define ZIMBORALO_H

#include <stddef.h>
#include <stdint.h>

#ifdef __cplusplus
extern "C" {
#endif

/* The limits of a lasso (stem and cycle together), a rule and an automaton. Every size below follows from these. */
#define ZIMBORALO_MAX_LETTERS 336
#define ZIMBORALO_MAX_NODES 32
#define ZIMBORALO_MAX_UNTILS 8
#define ZIMBORALO_MAX_STATES 96
#define ZIMBORALO_MAX_OF_STATE 128 /* transitions of one state */
#define ZIMBORALO_MAX_INITIAL 96
#define ZIMBORALO_MAX_TRANSITIONS (ZIMBORALO_MAX_STATES * ZIMBORALO_MAX_OF_STATE)

/* Bit p of a letter is proposition p, for p from 0 to 6. Bit 7 says that the letter is skipped, whatever its other
 * bits: if letter & ZIMBORALO_SKIPPED, it is no letter of the word, and the others remain. ZIMBORALO_MAX_LETTERS counts
 * it all the same. */
#define ZIMBORALO_SKIPPED 0x80

/* The longest rule in bytes, and the smallest buffer for a rule in negation normal form or for a merged one. */
#define ZIMBORALO_RULE_BYTES (3 * ZIMBORALO_MAX_NODES)

/* The smallest tables, image buffer, working space, set and report that a call takes; by shorter ones it is 25. */
#define ZIMBORALO_STATES_BYTES (4 * ZIMBORALO_MAX_STATES)
#define ZIMBORALO_TRANSITIONS_BYTES (4 * ZIMBORALO_MAX_TRANSITIONS)
#define ZIMBORALO_INITIAL_BYTES (2 * ZIMBORALO_MAX_INITIAL)
#define ZIMBORALO_CONTENTS_BYTES 18 /* an image's table of contents */
#define ZIMBORALO_IMAGE_BYTES \
    (ZIMBORALO_CONTENTS_BYTES + ZIMBORALO_STATES_BYTES + ZIMBORALO_TRANSITIONS_BYTES + ZIMBORALO_INITIAL_BYTES)
#define ZIMBORALO_WORK_BYTES (ZIMBORALO_MAX_STATES * ZIMBORALO_MAX_LETTERS)
#define ZIMBORALO_SET_BYTES (ZIMBORALO_MAX_STATES / 8) /* the field unit's set, a bit for each state */
#define ZIMBORALO_REPORT_BYTES 32 /* what is sent of a verdict */

/* Why a call refuses; the number is the lowest byte of its answer. The names are those of the constants in the proved
 * code; zimboralo_text.h says what each means, and what its place is. */
enum zimboralo_number {
    ZIMBORALO_ACCEPTED = 0,

    /* a rule */
    ZIMBORALO_TOO_LONG = 1,
    ZIMBORALO_BAD_LENGTH = 2,
    ZIMBORALO_UNKNOWN_KIND = 3,
    ZIMBORALO_BAD_BYTE = 4,
    ZIMBORALO_CHILD_NOT_BELOW = 5,
    ZIMBORALO_BAD_PLACES = 6,
    ZIMBORALO_TOO_MANY_UNTILS = 7,

    /* a lasso */
    ZIMBORALO_EMPTY_CYCLE = 8,
    ZIMBORALO_TOO_MANY_LETTERS = 9,

    /* an image, or tables to write */
    ZIMBORALO_BAD_CONTENTS = 10,
    ZIMBORALO_BAD_STATE = 11,
    ZIMBORALO_BAD_TRANSITION = 12,
    ZIMBORALO_BAD_INITIAL = 13,

    /* a rule whose automaton becomes too large; the tables are then all zero */
    ZIMBORALO_TOO_MANY_TERMS = 20,
    ZIMBORALO_PRODUCT_TOO_LARGE = 21,
    ZIMBORALO_TOO_MANY_TRANSITIONS = 22,
    ZIMBORALO_TOO_MANY_STATES = 23,
    ZIMBORALO_TOO_MANY_PAIRS = 24,

    /* a lent slice */
    ZIMBORALO_TABLE_TOO_SHORT = 25,

    /* a written rule that becomes too long in negation normal form; looked at after 6 and before 7 */
    ZIMBORALO_TOO_MANY_NODES = 26,

    /* two rules that are too long as one; looked at after 6 of both and before 7 */
    ZIMBORALO_MERGED_TOO_LARGE = 27,

    /* a lasso of whose cycle every letter is skipped; looked at after 9 */
    ZIMBORALO_ALL_SKIPPED = 28,

    /* a rule that the field unit does not take, since it has an until in negation normal form; looked at after 7 */
    ZIMBORALO_HAS_UNTIL = 29
};

/* ---- the calls */

/* A written rule, with not, implies, always and eventually, in negation normal form, the first edition's kinds: at the
 * buffer's start, with zeros behind it to the buffer's end. Its length, or the first refusal of 25, 1 to 6 and 26 in
 * this order, by which the buffer is as it was. */
uint64_t zimboralo_normalize(const uint8_t *rule, size_t rule_len, uint8_t *first_edition, size_t first_edition_len);

/* Two rules of the first edition as one, which a lasso satisfies exactly when it satisfies both: the first rule's nodes,
 * behind them the second's, whose children are counted on from there, and last a root, the and of both roots. It is at
 * the buffer's start, with zeros behind it to the buffer's end. Its length, or the first refusal of 25, 1 to 6 of the
 * first rule, 1 to 6 of the second, 27 and 7 in this order, by which the buffer is as it was; 27 and 7 are about the
 * merged rule. A place is the node of the rule that is refused, and does not tell which of the two that is. A kind
 * above 8 is 3: a written rule goes through zimboralo_normalize first, which also tells what is wrong with it alone.
 * The buffer must not hold either rule. */
uint64_t zimboralo_merge(const uint8_t *first, size_t first_len, const uint8_t *second, size_t second_len,
                         uint8_t *merged, size_t merged_len);

/* The automaton of a written rule, as records in three tables. Its counts, or the first refusal of 25, 1 to 6, 26, 7
 * and 20 to 24 in this order; 7 and 20 are about the rule in negation normal form. With the counts come the
 * propositions that were demanded both ways in one letter, see zimboralo_conflicts; of the other calls only
 * zimboralo_field_translate tells these. */
uint64_t zimboralo_translate(const uint8_t *rule, size_t rule_len, uint8_t *states, size_t states_len,
                             uint8_t *transitions, size_t transitions_len, uint8_t *initial, size_t initial_len);

/* Tables with their counts as an image at the buffer's start. The image's length, or a refusal. */
uint64_t zimboralo_write(const uint8_t *states, size_t states_len, size_t state_count, const uint8_t *transitions,
                         size_t transitions_len, size_t transition_count, const uint8_t *initial, size_t initial_len,
                         size_t initial_count, uint8_t *image, size_t image_len);

/* An image into three tables. Its counts, or a refusal. */
uint64_t zimboralo_read(const uint8_t *image, size_t image_len, uint8_t *states, size_t states_len,
                        uint8_t *transitions, size_t transitions_len, uint8_t *initial, size_t initial_len);

/* A lasso, stem and cycle, against an image. The verdict on the letters that remain and how many pairs judging took, or
 * a refusal. */
uint64_t zimboralo_judge(const uint8_t *image, size_t image_len, const uint8_t *stem, size_t stem_len,
                         const uint8_t *cycle, size_t cycle_len, uint8_t *work, size_t work_len);

/* A lasso against a written rule, in one call: translate, write and judge in a row. The verdict and the pairs, as of
 * judge, or the first refusal of 25, 1 to 6, 26, 7, 8, 9, 28 and 20 to 24 in this order. By 20 to 24 the tables are
 * zero and the rest is as it was; by any other refusal every buffer is as it was; with a verdict the tables have the
 * automaton, the buffer begins with its image, and the working bytes are zero. */
uint64_t zimboralo_decide(const uint8_t *rule, size_t rule_len, const uint8_t *stem, size_t stem_len,
                          const uint8_t *cycle, size_t cycle_len, uint8_t *states, size_t states_len,
                          uint8_t *transitions, size_t transitions_len, uint8_t *initial, size_t initial_len,
                          uint8_t *image, size_t image_len, uint8_t *work, size_t work_len);

/* Whether two lassos are one word, one plan written in two ways: their letters that remain agree one by one, for ever.
 * Then every rule that is accepted gives both the same verdict; the pairs that judging takes may differ. Yes or no, or
 * the first refusal: 8, 9 and 28 of the first lasso, at place 0, then of the other, at place 1. */
uint64_t zimboralo_same_word(const uint8_t *stem, size_t stem_len, const uint8_t *cycle, size_t cycle_len,
                             const uint8_t *other_stem, size_t other_stem_len, const uint8_t *other_cycle,
                             size_t other_cycle_len);

/* The automaton of a written rule for the field unit: as zimboralo_translate, with 29 between 7 and 20. The field unit
 * takes no rule that has an until in negation normal form: such a rule may be broken with no letter at which that is
 * sure, and then no alarm would come. */
uint64_t zimboralo_field_translate(const uint8_t *rule, size_t rule_len, uint8_t *states, size_t states_len,
                                   uint8_t *transitions, size_t transitions_len, uint8_t *initial, size_t initial_len);

/* The field unit watches letters as they come. In a lent set, of ZIMBORALO_SET_BYTES bytes or more, it keeps the states
 * in which some run over the letters so far may be: bit q % 8 of byte q / 8 is state q. Every other bit of the slice is
 * 0 after start and after a step with a letter that remains; bits that are no state's are never looked at.
 *
 * zimboralo_field_start fills the set for the time before the first letter. zimboralo_field_step takes one letter: it
 * goes on from the set as the call before it left it. A letter with bit 7 set is skipped and leaves every byte as it
 * was.
 *
 * The answer says whether the alarm is raised, which it is where the set has no state. Once raised it stays raised. Or
 * it is the first refusal of 25, for a slice that is too short, and 10 to 13 of the image, by which every byte is as it
 * was. Every step looks at these again: a damaged image is refused, or taken for the automaton that it is then.
 *
 * With the image of a rule that zimboralo_field_translate took, and a lasso of whose cycle a letter remains, the alarm
 * is raised, by start or by some step, exactly when the lasso breaks the rule; and then no later than with the letter
 * with which as many have remained as do of the stem, plus as many as do of the cycle for each state. */
uint64_t zimboralo_field_start(const uint8_t *image, size_t image_len, uint8_t *set, size_t set_len);
uint64_t zimboralo_field_step(const uint8_t *image, size_t image_len, uint8_t *set, size_t set_len, uint8_t letter);

/* Which clause of a rule a lasso breaks, and from which letter on that shows; no buffer is lent. The rule is one in
 * negation normal form, and a kind above 8 is 3: a written rule goes through zimboralo_normalize first. An and has the
 * clauses of its left side and then those of its right side, any other node is a clause itself, and the rule's are its
 * root's. Of these the first one is named, by its node number, that the lasso does not satisfy; none where it satisfies
 * the rule. It is shown
 *
 *     a release    from the first letter on where its right side is false and its left side held at no letter before
 *     an until     from the first letter on where both sides are false; if there is none, its right side never comes,
 *                  and no letter shows it
 *     any other    from the first letter on
 *
 * and only letters that remain are looked at. The clause and the place of that letter, see zimboralo_clause, _part and
 * _index; or the first refusal of 1 to 7, 8, 9 and 28 in this order. */
uint64_t zimboralo_explain(const uint8_t *rule, size_t rule_len, const uint8_t *stem, size_t stem_len,
                           const uint8_t *cycle, size_t cycle_len);

/* Whether a lasso satisfies a written rule, by the meaning of the rule alone: no automaton is made and no buffer lent,
 * so a rule that is refused by 20 to 24 elsewhere gets its answer here. Where zimboralo_decide has a verdict this is
 * the same. Kept or not, see zimboralo_satisfied; or the first refusal of 1 to 6, 26, 7, 8, 9 and 28 in this order. */
uint64_t zimboralo_satisfies(const uint8_t *rule, size_t rule_len, const uint8_t *stem, size_t stem_len,
                             const uint8_t *cycle, size_t cycle_len);

/* A lasso against an image, as zimboralo_judge, and what is sent of the verdict: 32 bytes that tell the number under
 * which the rule is known and the verdict, and nothing else. They are the number, low byte first; 1 for kept, 0 for
 * broken or 2 for any refusal of judge, also by 25 where the working bytes are too few; and 29 zeros. They stand at the
 * start of the slice, and what is behind them is as it was; the working bytes are as judge leaves them, zero with a
 * verdict and as they were with a refusal. The answer is 0 whatever judge says; or it is 25, where the slice for the
 * report has fewer than 32 bytes: then nothing is judged, and every byte is as it was.
 *
 * So two calls with one number and one verdict send the same bytes, whatever their images and lassos are, whichever
 * refusal it was and however many pairs were taken. Time and power are not spoken of. */
uint64_t zimboralo_report(uint16_t number, const uint8_t *image, size_t image_len, const uint8_t *stem,
                          size_t stem_len, const uint8_t *cycle, size_t cycle_len, uint8_t *work, size_t work_len,
                          uint8_t *report, size_t report_len);

/* ---- the parts of an answer */

/* Of a refusal: its number and place. */
static inline unsigned zimboralo_number(uint64_t answer) { return (unsigned)(answer & 0xff); }
static inline uint32_t zimboralo_place(uint64_t answer) { return (uint32_t)(answer >> 8); }

/* Of an accepted translate, field_translate or read: the three counts. */
static inline unsigned zimboralo_states(uint64_t answer) { return (unsigned)(answer >> 8 & 0xff); }
static inline unsigned zimboralo_transitions(uint64_t answer) { return (unsigned)(answer >> 16 & 0xffff); }
static inline unsigned zimboralo_initial(uint64_t answer) { return (unsigned)(answer >> 32 & 0xff); }

/* Of an accepted translate or field_translate: the propositions that were demanded both ways in one letter, bit p for
 * proposition p. For each of these two parts of the rule could not be joined, since one asks for it and the other
 * forbids it; 0 says that all could be joined. A rule with conflicts may still be kept. One that every lasso breaks may
 * have none, if a false is the reason; if it has some, these are the propositions to look at first. */
static inline unsigned zimboralo_conflicts(uint64_t answer) { return (unsigned)(answer >> 40 & 0xff); }

/* Of an accepted normalize, merge or write: the rule's or the image's length. */
static inline size_t zimboralo_length(uint64_t answer) { return (size_t)(answer >> 8 & 0xffffffff); }

/* Of an accepted judge or decide: whether the lasso is kept, and how many pairs of a position and a state were taken to
 * tell. They are taken breadth first, up to the first state at rest, an accepting one that a free transition leads back
 * to; without one, all that runs reach. That is at most states times letters that remain, which fits 16 bits. */
static inline int zimboralo_kept(uint64_t answer) { return (int)(answer >> 8 & 1); }
static inline unsigned zimboralo_pairs(uint64_t answer) { return (unsigned)(answer >> 16 & 0xffff); }

/* Of an accepted same_word: whether the two lassos are one word. */
static inline int zimboralo_same(uint64_t answer) { return (int)(answer >> 8 & 1); }

/* Of an accepted field_start or field_step: whether the alarm is raised. */
static inline int zimboralo_alarm(uint64_t answer) { return (int)(answer >> 8 & 1); }

/* Of an accepted satisfies: whether the lasso keeps the rule. */
static inline int zimboralo_satisfied(uint64_t answer) { return (int)(answer >> 8 & 1); }

/* Of an accepted explain: the number of the node that is the broken clause, or -1 where there is none. */
static inline int zimboralo_clause(uint64_t answer) { return (int)(answer >> 8 & 0xff) - 1; }

/* Where the letters from which a clause is shown begin: in the stem, in the cycle, or in neither, since the lasso keeps
 * the rule or since an until's right side never comes. */
enum zimboralo_part { ZIMBORALO_NO_PART = 0, ZIMBORALO_IN_STEM = 1, ZIMBORALO_IN_CYCLE = 2 };

/* Of an accepted explain: one of these, and at which index of that slice as it was lent, skipped letters counted. */
static inline unsigned zimboralo_part(uint64_t answer) { return (unsigned)(answer >> 16 & 3); }
static inline size_t zimboralo_index(uint64_t answer) { return (size_t)(answer >> 24 & 0xffff); }

/* Of any answer of explain, with the lasso that it is about: the letters from there to the end of that slice, and how
 * many they are; NULL and 0 where there are none. The first of them remains, further ones may be skipped. */
static inline const uint8_t *zimboralo_broken_part(uint64_t answer, const uint8_t *stem, size_t stem_len,
                                                   const uint8_t *cycle, size_t cycle_len, size_t *part_len)
{
    *part_len = 0;
    if (zimboralo_number(answer) != ZIMBORALO_ACCEPTED || zimboralo_part(answer) == ZIMBORALO_NO_PART)
        return NULL;
    int of_stem = zimboralo_part(answer) == ZIMBORALO_IN_STEM;
    *part_len = (of_stem ? stem_len : cycle_len) - zimboralo_index(answer);
    return (of_stem ? stem : cycle) + zimboralo_index(answer);
}

/* ---- the calls over structs of the right sizes */

/* A rule, as normalize or merge gives it, and how many of its bytes are used. */
struct zimboralo_rule {
    uint8_t bytes[ZIMBORALO_RULE_BYTES];
    size_t length;
};

/* An automaton: three tables, and how many records of each are used. */
struct zimboralo_tables {
    uint8_t states[ZIMBORALO_STATES_BYTES];
    uint8_t transitions[ZIMBORALO_TRANSITIONS_BYTES];
    uint8_t initial[ZIMBORALO_INITIAL_BYTES];
    size_t state_count, transition_count, initial_count;
};

/* An image, and how many of its bytes are used. */
struct zimboralo_image {
    uint8_t bytes[ZIMBORALO_IMAGE_BYTES];
    size_t length;
};

/* The field unit's set of states. With its image it is all that a field unit keeps. */
struct zimboralo_set {
    uint8_t bytes[ZIMBORALO_SET_BYTES];
};

/* What is sent of a verdict. */
struct zimboralo_report {
    uint8_t bytes[ZIMBORALO_REPORT_BYTES];
};

/* All that a decision fills, over 130 KB: better static or allocated than on a small stack. */
struct zimboralo_buffers {
    struct zimboralo_tables tables;
    struct zimboralo_image image;
    uint8_t work[ZIMBORALO_WORK_BYTES];
};

/* zimboralo_normalize into a struct, with the length; a refusal leaves the struct as it was. */
static inline uint64_t zimboralo_normalize_rule(const uint8_t *rule, size_t rule_len,
                                                struct zimboralo_rule *first_edition)
{
    uint64_t answer = zimboralo_normalize(rule, rule_len, first_edition->bytes, sizeof first_edition->bytes);
    if (zimboralo_number(answer) == ZIMBORALO_ACCEPTED)
        first_edition->length = zimboralo_length(answer);
    return answer;
}

/* zimboralo_merge into a struct, which must hold neither of the two rules; a refusal leaves it as it was. */
static inline uint64_t zimboralo_merge_rules(const uint8_t *first, size_t first_len, const uint8_t *second,
                                             size_t second_len, struct zimboralo_rule *merged)
{
    uint64_t answer = zimboralo_merge(first, first_len, second, second_len, merged->bytes, sizeof merged->bytes);
    if (zimboralo_number(answer) == ZIMBORALO_ACCEPTED)
        merged->length = zimboralo_length(answer);
    return answer;
}

/* Whether a refusal leaves the tables all zero; every other one leaves them as they were. */
static inline int zimboralo_clears(unsigned number)
{
    return number >= ZIMBORALO_TOO_MANY_TERMS && number <= ZIMBORALO_TOO_MANY_PAIRS;
}

/* Counts that fit the tables after an answer of translate, field_translate or read: its own, none where the tables are
 * zero, and those that were there where the tables are as they were. The answer again. */
static inline uint64_t zimboralo_count(struct zimboralo_tables *tables, uint64_t answer)
{
    unsigned number = zimboralo_number(answer);
    if (number == ZIMBORALO_ACCEPTED) {
        tables->state_count = zimboralo_states(answer);
        tables->transition_count = zimboralo_transitions(answer);
        tables->initial_count = zimboralo_initial(answer);
    } else if (zimboralo_clears(number)) {
        tables->state_count = tables->transition_count = tables->initial_count = 0;
    }
    return answer;
}

/* zimboralo_translate into a struct, with the counts. */
static inline uint64_t zimboralo_translate_rule(const uint8_t *rule, size_t rule_len, struct zimboralo_tables *tables)
{
    return zimboralo_count(tables, zimboralo_translate(rule, rule_len, tables->states, sizeof tables->states,
                                                       tables->transitions, sizeof tables->transitions,
                                                       tables->initial, sizeof tables->initial));
}

/* zimboralo_field_translate into a struct, with the counts. */
static inline uint64_t zimboralo_field_translate_rule(const uint8_t *rule, size_t rule_len,
                                                      struct zimboralo_tables *tables)
{
    return zimboralo_count(tables, zimboralo_field_translate(rule, rule_len, tables->states, sizeof tables->states,
                                                             tables->transitions, sizeof tables->transitions,
                                                             tables->initial, sizeof tables->initial));
}

/* zimboralo_read into a struct, with the counts. */
static inline uint64_t zimboralo_read_image(const uint8_t *image, size_t image_len, struct zimboralo_tables *tables)
{
    return zimboralo_count(tables, zimboralo_read(image, image_len, tables->states, sizeof tables->states,
                                                  tables->transitions, sizeof tables->transitions, tables->initial,
                                                  sizeof tables->initial));
}

/* zimboralo_write from a struct to a struct, with the length; a refusal leaves the image as it was. */
static inline uint64_t zimboralo_write_image(const struct zimboralo_tables *tables, struct zimboralo_image *image)
{
    uint64_t answer = zimboralo_write(tables->states, sizeof tables->states, tables->state_count, tables->transitions,
                                      sizeof tables->transitions, tables->transition_count, tables->initial,
                                      sizeof tables->initial, tables->initial_count, image->bytes, sizeof image->bytes);
    if (zimboralo_number(answer) == ZIMBORALO_ACCEPTED)
        image->length = zimboralo_length(answer);
    return answer;
}

/* zimboralo_field_start and zimboralo_field_step with a struct for the set. */
static inline uint64_t zimboralo_field_start_set(const uint8_t *image, size_t image_len, struct zimboralo_set *set)
{
    return zimboralo_field_start(image, image_len, set->bytes, sizeof set->bytes);
}

static inline uint64_t zimboralo_field_step_set(const uint8_t *image, size_t image_len, struct zimboralo_set *set,
                                                uint8_t letter)
{
    return zimboralo_field_step(image, image_len, set->bytes, sizeof set->bytes, letter);
}

/* zimboralo_judge by the image in the buffers: of a decision before, or written or copied there. */
static inline uint64_t zimboralo_judge_plan(const uint8_t *stem, size_t stem_len, const uint8_t *cycle,
                                            size_t cycle_len, struct zimboralo_buffers *buffers)
{
    return zimboralo_judge(buffers->image.bytes, buffers->image.length, stem, stem_len, cycle, cycle_len,
                           buffers->work, sizeof buffers->work);
}

/* A number of two bytes in an image or a report, low byte first. */
static inline size_t zimboralo_number_at(const uint8_t *at) { return at[0] | (size_t)at[1] << 8; }

/* zimboralo_report by the image in the buffers, as zimboralo_judge_plan, into a struct. There is room, so the answer,
 * which would be 0, is left out. */
static inline void zimboralo_report_plan(uint16_t number, const uint8_t *stem, size_t stem_len, const uint8_t *cycle,
                                         size_t cycle_len, struct zimboralo_buffers *buffers,
                                         struct zimboralo_report *report)
{
    zimboralo_report(number, buffers->image.bytes, buffers->image.length, stem, stem_len, cycle, cycle_len,
                     buffers->work, sizeof buffers->work, report->bytes, sizeof report->bytes);
}

/* What a report tells its receiver: the number of the rule, and one of these. */
enum zimboralo_verdict { ZIMBORALO_BROKEN = 0, ZIMBORALO_KEPT = 1, ZIMBORALO_REFUSED = 2 };
static inline unsigned zimboralo_report_number(const struct zimboralo_report *report)
{
    return (unsigned)zimboralo_number_at(report->bytes);
}
static inline unsigned zimboralo_report_verdict(const struct zimboralo_report *report) { return report->bytes[2]; }

/* zimboralo_decide into the buffers, with the counts and the image's length: these are no part of a verdict, and are
 * read off the image's contents. Further plans for the same rule go to zimboralo_judge_plan. */
static inline uint64_t zimboralo_decide_plan(const uint8_t *rule, size_t rule_len, const uint8_t *stem, size_t stem_len,
                                             const uint8_t *cycle, size_t cycle_len, struct zimboralo_buffers *buffers)
{
    struct zimboralo_tables *tables = &buffers->tables;
    struct zimboralo_image *image = &buffers->image;
    uint64_t answer = zimboralo_decide(rule, rule_len, stem, stem_len, cycle, cycle_len, tables->states,
                                       sizeof tables->states, tables->transitions, sizeof tables->transitions,
                                       tables->initial, sizeof tables->initial, image->bytes, sizeof image->bytes,
                                       buffers->work, sizeof buffers->work);
    if (zimboralo_number(answer) != ZIMBORALO_ACCEPTED)
        return zimboralo_count(tables, answer);
    tables->state_count = zimboralo_number_at(image->bytes + 2);
    tables->transition_count = zimboralo_number_at(image->bytes + 8);
    tables->initial_count = zimboralo_number_at(image->bytes + 14);
    image->length = zimboralo_number_at(image->bytes + 16) + 2 * tables->initial_count;
    return answer;
}

#ifdef __cplusplus
}
#endif

#endif
