#include "coverage.h"

#include <string.h>

static unsigned long long counts[POINTS_IN_ALL];
static unsigned long long outcomes[COMMANDS + 1][OUTCOMES]; /* the last row: unknown codes */
static unsigned long long edges[COMMANDS][EDGES];

static const struct {
    const char *group, *label;
    int is_here; /* this part has it */
} points[POINTS_IN_ALL] = {
#define BOTH(name, group, label) {group, label, 1},
#define ON_MSPM0(name, group, label) {group, label, !IS_AM13E230X},
#define ON_AM13E230X(name, group, label) {group, label, IS_AM13E230X},
    COVERAGE_POINTS(BOTH, ON_MSPM0, ON_AM13E230X)
};

static const char *const outcome_names[OUTCOMES] = {"00", "01", "02", "03", "04",   "05",   "06", "07",
                                                    "08", "09", "0A", "0B", "data", "F0",   "done", "not"};

static const char *const edge_names[EDGES] = {"from 0",     "to end", "over end", "at end", "over start",
                                              "from first", "to end", "over end", "at end", "over start",
                                              "from first", "to end", "over end", "at end", "past 2^32"};

/* The outcomes that document 01, with the requests of 02 that are built, gives each command, in the order of command_codes; the last: unknown codes. */
static const char *const possible[COMMANDS + 1] = {
    "done not",         "data 06",          "00 02 03 06",    "00 01 05 06", "00 01 06", "00 01 05 06 0A F0", "done not",
    "data 01 05 06 09", "data 01 05 06 0B", "00 01 06 07 08", "done not",    "done not", "04"};

static int row_of(uint8_t command)
{
    int row = 0;
    while (row < COMMANDS && command_codes[row] != command)
        row++;
    return row;
}

void seen(int point)
{
    counts[point]++;
}

void seen_outcome(uint8_t command, int outcome)
{
    outcomes[row_of(command)][outcome]++;
}

void seen_edge(uint8_t command, enum edge edge)
{
    edges[row_of(command)][edge]++;
}

static const char *name_of(int row)
{
    return row < COMMANDS ? command_names[row] : "unknown";
}

static int can_arise(int row, int outcome)
{
    return strstr(possible[row], outcome_names[outcome]) != NULL;
}

static int is_ranged(int row)
{
    return command_codes[row] == 0x20 || command_codes[row] == 0x24 || command_codes[row] == 0x29 ||
           command_codes[row] == 0x26;
}

static int has_edge(int edge)
{
    return WINDOW_BYTES > 0 || edge < WINDOW_OVER_START || edge > WINDOW_AT_END;
}

static void print_points(FILE *out)
{
    const char *group = "", *printed = "";
    size_t column = 0;
    for (int i = 0; i < POINTS_IN_ALL; i++) {
        group = points[i].group[0] != '\0' ? points[i].group : group;
        if (!points[i].is_here)
            continue;
        if (group != printed) {
            fprintf(out, "%s%s:", i == 0 ? "" : "\n", group);
            column = strlen(group);
            printed = group;
        }
        if (column > 90) {
            fputs("\n   ", out);
            column = 3;
        }
        column += (size_t)fprintf(out, "  %s [%llu]", points[i].label, counts[i]);
    }
    fputc('\n', out);
}

static void print_outcomes(FILE *out)
{
    fprintf(out, "\n%-14s", "command");
    for (int outcome = 0; outcome < OUTCOMES; outcome++)
        fprintf(out, "%9s", outcome_names[outcome]);
    for (int row = 0; row <= COMMANDS; row++) {
        fprintf(out, "\n%-14s", name_of(row));
        for (int outcome = 0; outcome < OUTCOMES; outcome++)
            if (can_arise(row, outcome) || outcomes[row][outcome] > 0)
                fprintf(out, "%9llu", outcomes[row][outcome]);
            else
                fprintf(out, "%9s", ".");
    }
    fputc('\n', out);
}

static void print_edges(FILE *out)
{
    fprintf(out, "\n%-14s%-44s%-55s%s\n%-14s", "unlocked range", "  MAIN", "  settings",
            has_edge(WINDOW_FIRST) ? "  window" : "", "");
    for (int edge = 0; edge < EDGES; edge++)
        if (has_edge(edge))
            fprintf(out, "%11s", edge_names[edge]);
    for (int row = 0; row < COMMANDS; row++) {
        if (!is_ranged(row))
            continue;
        fprintf(out, "\n%-14s", name_of(row));
        for (int edge = 0; edge < EDGES; edge++)
            if (has_edge(edge))
                fprintf(out, "%11llu", edges[row][edge]);
    }
    fputc('\n', out);
}

void print_coverage(FILE *out)
{
    fputs(PART_NAME "\n", out);
    print_points(out);
    print_outcomes(out);
    print_edges(out);
}

size_t print_unseen(FILE *out)
{
    size_t unseen = 0;
    const char *group = "";
    for (int i = 0; i < POINTS_IN_ALL; i++) {
        group = points[i].group[0] != '\0' ? points[i].group : group;
        if ((counts[i] > 0) != points[i].is_here && ++unseen)
            fprintf(out, "%s: %s: %s\n", points[i].is_here ? "not seen" : "seen though this part has it not", group,
                    points[i].label);
    }
    for (int row = 0; row <= COMMANDS; row++)
        for (int outcome = 0; outcome < OUTCOMES; outcome++)
            if (can_arise(row, outcome) != (outcomes[row][outcome] > 0) && ++unseen)
                fprintf(out, "%s: %s: outcome %s\n", can_arise(row, outcome) ? "not seen" : "seen though 01 has it not",
                        name_of(row), outcome_names[outcome]);
    for (int row = 0; row < COMMANDS; row++)
        for (int edge = 0; edge < EDGES; edge++)
            if (is_ranged(row) && has_edge(edge) && edges[row][edge] == 0 && ++unseen)
                fprintf(out, "not seen: %s: range %s (%s)\n", name_of(row), edge_names[edge],
                        edge <= MAIN_AT_END ? "MAIN" : edge <= SETTINGS_AT_END ? "settings" : "window");
    return unseen;
}
