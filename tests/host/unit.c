/* The field unit on a desk: it watches the slots of a plan, as they come, against one rule.
 *
 *     unit        from standard input: the rule in hexadecimal, and from the next line on the slots, two digits each,
 *                 with blanks and new lines between them or none
 *
 * Says at which slot the alarm is raised, as soon as that slot has come. Slots are counted from 1; those with bit 7
 * set, 80 to ff, are skipped, but counted. A rule may have every kind of FORMAT.md, as long as it has no until in
 * negation normal form: always, release, next and not eventually are such, until, eventually and not always are not.
 *
 * What it keeps while it watches is the rule's image and a set of 12 bytes. The tables in which the rule is translated,
 * which an office would do for it, are given back before the first slot.
 *
 * Exits 0 where the slots end without an alarm, 1 with the alarm, 2 for a refusal or bad input. */
#include <ctype.h>
#include <stdio.h>
#include <stdlib.h>
#include <string.h>

#include "zimboralo.h"
#include "zimboralo_text.h"

/* The longest rule that is read, in bytes: far more than the library takes. */
enum { LONGEST = 4096 };

/* What the unit keeps. */
struct unit {
    uint8_t *image;
    size_t length;
    struct zimboralo_set set;
};

static void stop(const char *what)
{
    fprintf(stderr, "unit: %s\n", what);
    exit(2);
}

/* The answer, where it is no refusal. */
static uint64_t accepted(uint64_t answer)
{
    unsigned number = zimboralo_number(answer);
    if (number == ZIMBORALO_ACCEPTED)
        return answer;
    printf("refused %u place %u: %s\n", number, zimboralo_place(answer), zimboralo_text(number));
    exit(2);
}

static void *memory(size_t size)
{
    void *at = malloc(size);
    if (!at)
        stop("no memory");
    return at;
}

/* The next byte, from two digits, with blanks before them or none: -1 at the end of the input, and at the end of the
 * line where `line` says so. */
static int next_byte(int line)
{
    char digits[3] = "";
    int c = getchar();
    while (c != EOF && isspace(c) && !(line && c == '\n'))
        c = getchar();
    if (c == EOF || isspace(c))
        return -1;
    digits[0] = (char)c;
    digits[1] = (char)(c = getchar());
    if (c == EOF || !isxdigit((unsigned char)digits[0]) || !isxdigit(c))
        stop("not hexadecimal");
    return (int)strtol(digits, NULL, 16);
}

/* The unit with the image of a rule; everything else that this takes is given back. */
static struct unit loaded(const uint8_t *rule, size_t length)
{
    struct unit unit;
    struct zimboralo_tables *tables = memory(sizeof *tables);
    struct zimboralo_image *image = memory(sizeof *image);
    accepted(zimboralo_field_translate_rule(rule, length, tables));
    accepted(zimboralo_write_image(tables, image));
    unit.image = memory(image->length);
    unit.length = image->length;
    memcpy(unit.image, image->bytes, image->length);
    free(tables);
    free(image);
    return unit;
}

static struct unit read_unit(void)
{
    uint8_t *rule = memory(LONGEST);
    size_t length = 0;
    for (int byte; (byte = next_byte(1)) >= 0; rule[length++] = (uint8_t)byte)
        if (length == LONGEST)
            stop("the rule is too long to be read");
    struct unit unit = loaded(rule, length);
    free(rule);
    return unit;
}

/* The slots as they come, to the first alarm: the exit status. */
static int watch(struct unit *unit)
{
    if (zimboralo_alarm(accepted(zimboralo_field_start_set(unit->image, unit->length, &unit->set)))) {
        puts("alarm before the first slot");
        return 1;
    }
    unsigned long slots = 0;
    for (int slot; (slot = next_byte(0)) >= 0;) {
        slots++;
        if (zimboralo_alarm(accepted(zimboralo_field_step_set(unit->image, unit->length, &unit->set, (uint8_t)slot)))) {
            printf("alarm at slot %lu\n", slots);
            return 1;
        }
    }
    printf("no alarm, slots: %lu\n", slots);
    return 0;
}

int main(void)
{
    struct unit unit = read_unit();
    printf("watching with %zu bytes of image and %zu of set\n", unit.length, sizeof unit.set);
    fflush(stdout);
    int status = watch(&unit);
    free(unit.image);
    return status;
}
