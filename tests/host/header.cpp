// The headers from C++: a written rule in negation normal form, merged with another, and with a plan to the verdict; a
// rule that demands a proposition both ways; a refusal in words; one plan written in two ways; the field unit to its
// alarm; a broken clause and the letters that show it; a report. Exits 0 where all are right.
#include <cstddef>
#include <cstring>

#include "zimboralo.h"
#include "zimboralo_text.h"

int main()
{
    static zimboralo_buffers buffers;
    static zimboralo_rule normal;
    const uint8_t eventually[] = {2, 0, 0, 12, 0, 0}, until[] = {1, 0, 0, 2, 0, 0, 7, 0, 1}, letters[] = {1, 0};
    uint64_t kept = zimboralo_decide_plan(eventually, sizeof eventually, letters, 1, letters + 1, 1, &buffers);
    uint64_t refused = zimboralo_judge_plan(letters, 1, letters, 0, &buffers);
    struct zimboralo_report report;
    zimboralo_report_plan(258, letters, 1, letters + 1, 1, &buffers, &report);
    uint64_t normalized = zimboralo_normalize_rule(eventually, sizeof eventually, &normal);
    static zimboralo_rule merged;
    const uint8_t never[] = {0, 0, 0}, longer[] = {1, 0, 0};
    uint64_t both = zimboralo_merge_rules(normal.bytes, normal.length, never, sizeof never, &merged);
    const uint8_t both_ways[] = {2, 3, 0, 3, 3, 0, 4, 0, 1};
    uint64_t made = zimboralo_translate_rule(both_ways, sizeof both_ways, &buffers.tables);
    uint64_t same = zimboralo_same_word(letters, 1, letters + 1, 1, longer, 1, longer + 1, 2);
    static zimboralo_set set;
    const uint8_t always[] = {2, 0, 0, 11, 0, 0};
    uint64_t taken = zimboralo_field_translate_rule(always, sizeof always, &buffers.tables);
    uint64_t written = zimboralo_write_image(&buffers.tables, &buffers.image);
    const zimboralo_image &image = buffers.image;
    uint64_t quiet = zimboralo_field_start_set(image.bytes, image.length, &set);
    uint64_t alarm = zimboralo_field_step_set(image.bytes, image.length, &set, 0);
    const uint8_t release[] = {0, 0, 0, 2, 0, 0, 8, 0, 1};
    std::size_t shown_letters;
    uint64_t broken = zimboralo_explain(release, sizeof release, letters, 1, letters + 1, 1);
    const uint8_t *shown = zimboralo_broken_part(broken, letters, 1, letters + 1, 1, &shown_letters);
    uint64_t satisfied = zimboralo_satisfies(always, sizeof always, letters, 1, letters, 1);
    return zimboralo_number(normalized) == ZIMBORALO_ACCEPTED && normal.length == sizeof until
                   && std::memcmp(normal.bytes, until, sizeof until) == 0
                   && zimboralo_number(both) == ZIMBORALO_ACCEPTED && merged.length == sizeof until + sizeof never + 3
                   && zimboralo_number(kept) == ZIMBORALO_ACCEPTED && zimboralo_kept(kept) && zimboralo_pairs(kept) == 2
                   && zimboralo_number(made) == ZIMBORALO_ACCEPTED && zimboralo_conflicts(made) == 1 << 3
                   && zimboralo_number(same) == ZIMBORALO_ACCEPTED && zimboralo_same(same)
                   && zimboralo_number(taken) == ZIMBORALO_ACCEPTED && zimboralo_number(written) == ZIMBORALO_ACCEPTED
                   && quiet == ZIMBORALO_ACCEPTED && !zimboralo_alarm(quiet)
                   && zimboralo_number(alarm) == ZIMBORALO_ACCEPTED && zimboralo_alarm(alarm)
                   && zimboralo_number(broken) == ZIMBORALO_ACCEPTED && zimboralo_clause(broken) == 2
                   && zimboralo_part(broken) == ZIMBORALO_IN_CYCLE && zimboralo_index(broken) == 0
                   && shown == letters + 1 && shown_letters == 1
                   && zimboralo_number(satisfied) == ZIMBORALO_ACCEPTED && zimboralo_satisfied(satisfied)
                   && zimboralo_report_number(&report) == 258 && zimboralo_report_verdict(&report) == ZIMBORALO_KEPT
                   && report.bytes[0] == 2 && report.bytes[1] == 1
                   && std::strcmp(zimboralo_text(zimboralo_number(refused)), "the plan's loop is empty") == 0
               ? 0
               : 1;
}
