/* The office program: written rules, one or several, and a lasso, from bytes to the verdict in words, with how many
 * pairs of a slot and a state judging took, and behind it the marks that the rules demand both ways in one slot, if
 * there are any; for a broken plan also which clause of which rule it breaks, from which slot on, and what stands
 * there; or two lassos, and whether they are one plan; or what is sent by radio of a lasso against an image.
 *
 *     office RULE.. STEM CYCLE                 each in hexadecimal, or @FILE for a file's bytes; - for none
 *     office same STEM CYCLE STEM CYCLE        likewise
 *     office report NUMBER IMAGE STEM CYCLE    likewise, but for the rule's number, 0 to 65535
 *
 * A rule may have every kind of FORMAT.md, among them not, implies, always and eventually. Several rules are put into
 * negation normal form and merged one after another; the lasso is kept where it keeps all of them. The place of 3 to 6
 * is a node of the rule as written, that of 20 a node of the negation normal form of the rule, or of the merged one. A
 * rule that 20 to 24 refuse has no automaton; its verdict is then told by its meaning alone, and that this is so.
 *
 * A broken clause is written out as it stands in negation normal form, with its node there. Slots are counted from 1,
 * those of the stem and those of the loop each by themselves, as they are given, skipped ones too.
 *
 * A slot with bit 7 set, 80 to ff, is skipped, whatever its marks: it is no slot of the plan, and only the limit of
 * slots counts it.
 *
 * A report is printed as its 32 bytes in hexadecimal; the exit status tells no more of it.
 *
 * Exits 0 for a kept lasso, one plan or a report, 1 for a broken lasso or two plans, 2 for a refusal or bad words. */
#include <ctype.h>
#include <stdio.h>
#include <stdlib.h>
#include <string.h>

#include "zimboralo.h"
#include "zimboralo_text.h"

struct bytes {
    uint8_t *at;
    size_t length;
};

static void stop(const char *what, const char *word)
{
    fprintf(stderr, "office: %s: %s\n", what, word);
    exit(2);
}

static int digit(char c)
{
    return isdigit((unsigned char)c) ? c - '0' : isxdigit((unsigned char)c) ? tolower((unsigned char)c) - 'a' + 10 : -1;
}

static struct bytes from_file(const char *name)
{
    FILE *f = fopen(name, "rb");
    if (!f)
        stop("cannot open", name);
    struct bytes b = {malloc(65536), 0};
    if (!b.at)
        stop("no memory for", name);
    b.length = fread(b.at, 1, 65536, f);
    fclose(f);
    return b;
}

static struct bytes from_word(const char *word)
{
    if (word[0] == '@')
        return from_file(word + 1);
    size_t n = strcmp(word, "-") == 0 ? 0 : strlen(word);
    struct bytes b = {malloc(n / 2 + 1), 0};
    if (!b.at || n % 2)
        stop("not hexadecimal", word);
    for (size_t i = 0; i < n; i += 2) {
        int high = digit(word[i]), low = digit(word[i + 1]);
        if (high < 0 || low < 0)
            stop("not hexadecimal", word);
        b.at[b.length++] = (uint8_t)(high * 16 + low);
    }
    return b;
}

static int accepted(uint64_t answer) { return zimboralo_number(answer) == ZIMBORALO_ACCEPTED; }

/* A refusal in words; behind them, where it may be about one of several, which one. The exit status. */
static int refused(uint64_t answer, const char *which)
{
    printf("refused %u place %u: %s%s\n", zimboralo_number(answer), zimboralo_place(answer),
           zimboralo_text(zimboralo_number(answer)), which);
    return 2;
}

/* " 1 4" for marks 1 and 4. */
static void print_marks(unsigned marks)
{
    for (unsigned mark = 0; marks >> mark; mark++)
        if (marks >> mark & 1)
            printf(" %u", mark);
}

/* The marks that were demanded both ways, a bit each; nothing where there are none. */
static void print_conflicts(unsigned marks)
{
    if (!marks)
        return;
    printf("marks demanded both ways:");
    print_marks(marks);
    puts("");
}

/* ---- a clause in words */

enum kind { FALSE, TRUE, MARK, NOT_MARK, AND, OR, NEXT, UNTIL, RELEASE };

/* What an operand stands in: nothing, an operator with one operand, one with two. */
enum within { ALONE, OF_ONE, OF_TWO };

/* Node n of a rule in negation normal form, as it would be said, in parentheses where it could be misread. */
static void print_node(const uint8_t *rule, unsigned n, enum within within)
{
    static const char *const between[] = {[AND] = " and ", [OR] = " or ", [UNTIL] = " until ", [RELEASE] = " release "};
    const uint8_t *node = rule + 3 * n, kind = node[0];
    int eventually = kind == UNTIL && rule[3 * node[1]] == TRUE, always = kind == RELEASE && rule[3 * node[1]] == FALSE;
    int of_one = kind == NEXT || eventually || always;
    int apart = kind >= AND && within >= (of_one ? OF_TWO : OF_ONE);
    if (apart)
        printf("(");
    if (kind <= TRUE)
        printf("%s", kind == TRUE ? "true" : "false");
    else if (kind <= NOT_MARK)
        printf("%s%u", kind == MARK ? "" : "not ", node[1]);
    else if (of_one) {
        printf("%s", always ? "always " : eventually ? "eventually " : "next ");
        print_node(rule, node[kind == NEXT ? 1 : 2], OF_ONE);
    } else {
        print_node(rule, node[1], OF_TWO);
        printf("%s", between[kind]);
        print_node(rule, node[2], OF_TWO);
    }
    if (apart)
        printf(")");
}

/* The same between quotation marks. */
static void print_quoted(const uint8_t *rule, unsigned n)
{
    printf("\"");
    print_node(rule, n, ALONE);
    printf("\"");
}

/* A rule in negation normal form, or several merged: `first` has the number of the first node of each of them. */
struct form {
    struct zimboralo_rule rule;
    unsigned first[ZIMBORALO_MAX_NODES];
    unsigned rules;
};

/* The clause that is node n, and the node's number: in its own rule where there are several. */
static void print_clause(const struct form *form, unsigned n)
{
    unsigned own = form->rules - 1;
    while (form->first[own] > n)
        own--;
    printf("broken clause: ");
    print_node(form->rule.bytes, n, ALONE);
    printf(", node %u", n - form->first[own]);
    if (form->rules > 1)
        printf(" of rule %u", own + 1);
    puts("");
}

/* Why node n, of that kind, is broken at the slot from which it is shown; nothing more is to say of other kinds. */
static void print_reason(const uint8_t *rule, unsigned n)
{
    const uint8_t *node = rule + 3 * n;
    if (node[0] == UNTIL) {
        printf("there neither ");
        print_quoted(rule, node[1]);
        printf(" nor ");
        print_quoted(rule, node[2]);
        puts(" holds");
    } else if (node[0] == RELEASE) {
        printf("there ");
        print_quoted(rule, node[2]);
        printf(" does not hold");
        if (rule[3 * node[1]] != FALSE) {
            printf(", and ");
            print_quoted(rule, node[1]);
            printf(" has held in no slot before");
        }
        puts("");
    }
}

/* Which clause of the rule a plan breaks, from which slot on, and what stands there. */
static void print_explanation(const struct form *form, const struct bytes *stem, const struct bytes *cycle)
{
    const uint8_t *rule = form->rule.bytes;
    uint64_t found = zimboralo_explain(rule, form->rule.length, stem->at, stem->length, cycle->at, cycle->length);
    int clause = zimboralo_clause(found);
    size_t length;
    const uint8_t *part = zimboralo_broken_part(found, stem->at, stem->length, cycle->at, cycle->length, &length);
    if (!accepted(found) || clause < 0)
        stop("not explained", "a broken plan");
    print_clause(form, (unsigned)clause);
    if (!part) {
        print_quoted(rule, rule[3 * clause + 2]);
        puts(" never comes");
        return;
    }
    printf("from slot %zu of the %s on: %02x, %s", zimboralo_index(found) + 1,
           zimboralo_part(found) == ZIMBORALO_IN_STEM ? "stem" : "loop", part[0],
           !part[0] ? "no mark" : part[0] & (part[0] - 1) ? "marks" : "mark");
    print_marks(part[0]);
    puts("");
    print_reason(rule, (unsigned)clause);
}

/* ---- a verdict */

/* What is said behind a verdict, and the exit status. */
static int told(int kept, const struct form *form, const struct bytes *stem, const struct bytes *cycle)
{
    if (!kept)
        print_explanation(form, stem, cycle);
    return kept ? 0 : 1;
}

/* A rule that has no automaton, by the refusal given, against a plan: by its meaning alone. */
static int judge_by_meaning(uint64_t refusal, const struct form *form, const struct bytes *stem,
                            const struct bytes *cycle, const char *which)
{
    uint64_t found = zimboralo_satisfies(form->rule.bytes, form->rule.length, stem->at, stem->length, cycle->at,
                                         cycle->length);
    if (!accepted(found))
        return refused(found, "");
    printf("%s, by the meaning of the rule alone\nno automaton: ", zimboralo_satisfied(found) ? "kept" : "broken");
    refused(refusal, which);
    return told(zimboralo_satisfied(found), form, stem, cycle);
}

/* A rule against a plan: translate, write and judge in a row. What is refused of the rule has `which` behind it. */
static int judge(const struct form *form, const struct bytes *stem, const struct bytes *cycle, const char *which)
{
    static struct zimboralo_buffers buffers;
    uint64_t made = zimboralo_translate_rule(form->rule.bytes, form->rule.length, &buffers.tables);
    if (zimboralo_clears(zimboralo_number(made)))
        return judge_by_meaning(made, form, stem, cycle, which);
    if (!accepted(made))
        return refused(made, which);
    uint64_t written = zimboralo_write_image(&buffers.tables, &buffers.image);
    if (!accepted(written))
        return refused(written, which);
    uint64_t found = zimboralo_judge_plan(stem->at, stem->length, cycle->at, cycle->length, &buffers);
    if (!accepted(found))
        return refused(found, "");
    printf("%s, pairs taken: %u\n", zimboralo_kept(found) ? "kept" : "broken", zimboralo_pairs(found));
    print_conflicts(zimboralo_conflicts(made));
    return told(zimboralo_kept(found), form, stem, cycle);
}

/* The same with the plan's two words. */
static int judge_words(const struct form *form, char **words, const char *which)
{
    struct bytes stem = from_word(words[0]), cycle = from_word(words[1]);
    int status = judge(form, &stem, &cycle, which);
    free(stem.at);
    free(cycle.at);
    return status;
}

/* A written rule in negation normal form, from its word. */
static uint64_t form_of(const char *word, struct zimboralo_rule *form)
{
    struct bytes rule = from_word(word);
    uint64_t answer = zimboralo_normalize_rule(rule.at, rule.length, form);
    free(rule.at);
    return answer;
}

/* So many rules against a plan: each in negation normal form, merged with those before it. */
static int judge_all(char **words, int count)
{
    struct form all = {.rules = 0};
    char which[64] = "";
    for (int i = 0; i < count; i++) {
        struct zimboralo_rule form, both;
        uint64_t answer = form_of(words[i], i ? &form : &all.rule);
        if (count > 1)
            snprintf(which, sizeof which, " (rule %d)", i + 1);
        if (!accepted(answer))
            return refused(answer, which);
        all.first[all.rules++] = i ? (unsigned)all.rule.length / 3 : 0;
        if (!i)
            continue;
        answer = zimboralo_merge_rules(all.rule.bytes, all.rule.length, form.bytes, form.length, &both);
        snprintf(which, sizeof which, " (rules 1 to %d merged)", i + 1);
        if (!accepted(answer))
            return refused(answer, which);
        all.rule = both;
    }
    return judge_words(&all, words + count, count > 1 ? " (all rules merged)" : "");
}

static int compare(char **words)
{
    struct bytes parts[4];
    for (int i = 0; i < 4; i++)
        parts[i] = from_word(words[i]);
    uint64_t answer = zimboralo_same_word(parts[0].at, parts[0].length, parts[1].at, parts[1].length, parts[2].at,
                                          parts[2].length, parts[3].at, parts[3].length);
    for (int i = 0; i < 4; i++)
        free(parts[i].at);
    if (!accepted(answer))
        return refused(answer, zimboralo_place(answer) == 0 ? " (the first plan)" : " (the second plan)");
    puts(zimboralo_same(answer) ? "one plan" : "two plans");
    return zimboralo_same(answer) ? 0 : 1;
}

/* What is sent of a plan against an image, for the rule of that number. */
static int report(char **words)
{
    static uint8_t work[ZIMBORALO_WORK_BYTES];
    struct zimboralo_report sent;
    char *end;
    unsigned long number = strtoul(words[0], &end, 10);
    if (!isdigit((unsigned char)words[0][0]) || *end || number > UINT16_MAX)
        stop("no number of a rule", words[0]);
    struct bytes image = from_word(words[1]), stem = from_word(words[2]), cycle = from_word(words[3]);
    zimboralo_report((uint16_t)number, image.at, image.length, stem.at, stem.length, cycle.at, cycle.length, work,
                     sizeof work, sent.bytes, sizeof sent.bytes);
    free(image.at);
    free(stem.at);
    free(cycle.at);
    for (size_t i = 0; i < sizeof sent.bytes; i++)
        printf("%02x", sent.bytes[i]);
    puts("");
    return 0;
}

int main(int count, char **words)
{
    if (count == 6 && strcmp(words[1], "same") == 0)
        return compare(words + 2);
    if (count == 6 && strcmp(words[1], "report") == 0)
        return report(words + 2);
    if (count >= 4)
        return judge_all(words + 1, count - 3);
    stop("usage",
         "office RULE.. STEM CYCLE, office same STEM CYCLE STEM CYCLE, or office report NUMBER IMAGE STEM CYCLE");
    return 2;
}
