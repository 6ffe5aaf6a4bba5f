/* What to tell an adviser about a refusal, in the words that advisers use: mark, slot, plan, loop, and for a rule in
 * negation normal form its first-edition form. */
#ifndef ZIMBORALO_TEXT_H
#define ZIMBORALO_TEXT_H

#include "zimboralo.h"

/* A limit's digits. */
#define ZIMBORALO_DIGITS_OF(limit) #limit
#define ZIMBORALO_DIGITS(limit) ZIMBORALO_DIGITS_OF(limit)

/* Why a call refused, and what the place of this refusal is; where nothing is said of it, the place is always 0, but
 * that of 8, 9 and 28 is 1 where two plans are compared and the second one is refused. */
static inline const char *zimboralo_text(unsigned number)
{
    switch (number) {
    case ZIMBORALO_ACCEPTED:
        return "nothing is refused";
    case ZIMBORALO_TOO_LONG:
        return "the rule is longer than " ZIMBORALO_DIGITS(ZIMBORALO_MAX_NODES) " nodes of 3 bytes";
    case ZIMBORALO_BAD_LENGTH:
        return "the rule is empty or its length is no multiple of 3";
    case ZIMBORALO_UNKNOWN_KIND:
        return "a node of the rule has an unknown kind; the place is the node";
    case ZIMBORALO_BAD_BYTE:
        return "a node of the rule has a mark above 6 or an unused byte that is not 0; the place is the node";
    case ZIMBORALO_CHILD_NOT_BELOW:
        return "a child in the rule is not below its parent; the place is the parent";
    case ZIMBORALO_BAD_PLACES:
        return "a node of the rule has no parent, or is above kind 3 and a child at two places; the place is the "
               "lowest such node";
    case ZIMBORALO_TOO_MANY_UNTILS:
        return "the rule has over " ZIMBORALO_DIGITS(ZIMBORALO_MAX_UNTILS) " untils in its first-edition form";
    case ZIMBORALO_EMPTY_CYCLE:
        return "the plan's loop is empty";
    case ZIMBORALO_TOO_MANY_LETTERS:
        return "the plan has over " ZIMBORALO_DIGITS(ZIMBORALO_MAX_LETTERS) " slots, skipped ones counted";
    case ZIMBORALO_BAD_CONTENTS:
        return "the image's contents are wrong, or there are more records than fit";
    case ZIMBORALO_BAD_STATE:
        return "a state record is wrong, or their transition counts do not add up; the place is the wrong record, or "
               "for the counts the number of states";
    case ZIMBORALO_BAD_TRANSITION:
        return "a transition leads to no state, wants a mark both set and clear, or wants bit 7 set or clear; the "
               "place is the lowest such transition";
    case ZIMBORALO_BAD_INITIAL:
        return "an initial number is no state's or not above the one before; the place is the lowest such entry";
    case ZIMBORALO_TOO_MANY_TERMS:
        return "the rule is too large: a node of its first-edition form has too many terms; the place is the lowest "
               "such node there";
    case ZIMBORALO_PRODUCT_TOO_LARGE:
        return "the rule is too large: it has too large a product; the place is the state of the first walk";
    case ZIMBORALO_TOO_MANY_TRANSITIONS:
        return "the rule is too large: the first walk has too many transitions; the place is the state being walked";
    case ZIMBORALO_TOO_MANY_STATES:
        return "the rule is too large: the first walk has too many states; the place is the state being walked";
    case ZIMBORALO_TOO_MANY_PAIRS:
        return "the rule is too large: the second walk has over " ZIMBORALO_DIGITS(ZIMBORALO_MAX_STATES)
               " pairs; the place is the pair being walked";
    case ZIMBORALO_TABLE_TOO_SHORT:
        return "a lent table, buffer, working space, set or report is too short";
    case ZIMBORALO_TOO_MANY_NODES:
        return "the rule is too large: its first-edition form needs over " ZIMBORALO_DIGITS(ZIMBORALO_MAX_NODES)
               " nodes";
    case ZIMBORALO_MERGED_TOO_LARGE:
        return "the rules are too large together: merged they have over " ZIMBORALO_DIGITS(ZIMBORALO_MAX_NODES)
               " nodes";
    case ZIMBORALO_ALL_SKIPPED:
        return "every slot of the plan's loop is skipped";
    case ZIMBORALO_HAS_UNTIL:
        return "the field unit takes no rule with an until in its first-edition form; the place is the lowest until "
               "there";
    }
    return "unknown refusal";
}

#endif
