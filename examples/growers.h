/*
 * What the examples in C with many growers share: growers over a sheet, and a text with a few
 * numbers on each line. White space or commas part the numbers, comments go from # to the line's
 * end, and lines without a number are passed over.
 */
#ifndef GROWERS_H
#define GROWERS_H

#include "example.h"

enum { MOST_GROWERS = 65535, MOST_NUMBERS = 4 };

/* What the growers share, and the carried state of each. (The list must be aligned to 4 bytes;
 * memory that is allocated is.) */
struct growers {
    uint8_t automaton[JAXHOPHASI_AUTOMATON_SIZE];
    uint32_t *table;
    size_t places, count;
    uint8_t (*list)[JAXHOPHASI_CONFIGURATION_SIZE];
};

/* Every grower begins anew. */
static void begin(const struct growers *g)
{
    for (size_t i = 0; i < g->count; i++)
        jaxhophasi_initial(g->automaton, g->list[i]);
}

/* A grower's event: the grower and the kind, then what came of it. */
static void print_event(const struct growers *g, uint8_t row, uint32_t grower, uint32_t kind, const uint8_t *answer)
{
    printf("grower %u: in %u", grower, kind);
    if (row)
        printf(" refused %u\n", row);
    else
        print_answer(answer, g->list[grower]);
}

/* Where each grower stands. */
static void print_growers(const struct growers *g)
{
    for (size_t i = 0; i < g->count; i++) {
        printf("grower %zu:", i);
        print_carried(g->list[i]);
        printf("\n");
    }
}

/* What a text has on its lines: what the numbers are, how many a line has, and the greatest. */
struct form {
    const char *numbers;
    unsigned least, most;
    uint32_t greatest;
};

/* The numbers of a line, how many there are, whether there are too many, something else is on it
 * or a number is too large, and whether it is the last line. */
struct line {
    uint32_t number[MOST_NUMBERS];
    unsigned count;
    int fault, last;
};

static struct line read_line(FILE *file, const struct form *form)
{
    struct line line = { { 0 }, 0, 0, 0 };
    int c, inside = 0, comment = 0;
    while ((c = getc(file)) != EOF && c != '\n') {
        int digit = c >= '0' && c <= '9';
        comment |= c == '#';
        if (comment)
            continue;
        line.count += digit && !inside;
        if (line.count > form->most || (!digit && !memchr(" \t\r,", c, 4)))
            line.fault = 1;
        else if (digit) {
            uint32_t *number = &line.number[line.count - 1];
            *number = 10 * *number + (uint32_t)(c - '0');
            if (*number > form->greatest) {
                line.fault = 1;
                *number = 0;
            }
        }
        inside = digit;
    }
    line.last = c == EOF;
    return line;
}

/* The lines of a text that have numbers, and how many there are. */
static struct line *read_lines(const char *name, const struct form *form, size_t *count)
{
    FILE *file = fopen(name, "rb");
    size_t size = 1024;
    struct line *lines = room(size, sizeof *lines), line = { .last = !file };
    *count = 0;
    for (unsigned long number = 1; !line.last; number++) {
        line = read_line(file, form);
        if (line.fault || (line.count && line.count < form->least)) {
            char fault[100];
            snprintf(fault, sizeof fault, "line %lu: no %s (each 0 to %u)", number, form->numbers, form->greatest);
            stop(2, name, fault);
        }
        if (*count == size && !(lines = realloc(lines, (size *= 2) * sizeof *lines)))
            stop(1, "", strerror(ENOMEM));
        if (line.count)
            lines[(*count)++] = line;
    }
    if (!file || ferror(file))
        stop(2, name, strerror(errno));
    fclose(file);
    return lines;
}

/* What an example does with the lines of its text, over growers who have begun. */
typedef void (*print_lines)(const struct growers *g, const struct line *lines, size_t count);

/* The whole of an example: its words are a sheet's file, how many growers there are, and a text's
 * file. A sheet that is refused prints its refusal. The status. */
static int over_growers(int words, char **word, const char *usage, const struct form *form, print_lines print)
{
    struct growers g;
    size_t count;
    if (words != 4)
        stop(2, "usage", usage);
    g.count = number_of(word[2], MOST_GROWERS, "no number of growers (0 to 65535)");
    struct line *lines = read_lines(word[3], form, &count);
    int refused = read_sheet("", word[1], g.automaton) != 0;
    if (!refused) {
        g.table = solve(g.automaton, &g.places);
        g.list = room(g.count, JAXHOPHASI_CONFIGURATION_SIZE);
        begin(&g);
        print(&g, lines, count);
        free(g.list);
        free(g.table);
    }
    free(lines);
    return finished(refused);
}

#endif
