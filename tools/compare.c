#include "compare.h"

#include <stdbool.h>
#include <string.h>

enum { MAX_LINES = 2048, CUES = 64 };

/* The sheet was taken by both reports when a cycle is looked at, so its lines are well-formed. */
struct line {
    unsigned cue;
    char letter;
    unsigned axis;
};

static unsigned number_in(const uint8_t *field, unsigned width)
{
    unsigned value = 0;
    for (unsigned at = 0; at < width; at++)
        if (field[at] != ' ')
            value = value * 10 + (field[at] - '0');
    return value;
}

static bool comes_before(const struct line *lines, unsigned count, unsigned first, unsigned second)
{
    for (unsigned q = 0; q < count; q++) {
        const struct line *b = &lines[q];
        if (b->cue != second || (b->letter != 'r' && b->letter != 'w'))
            continue;
        for (unsigned p = 0; p < q; p++) {
            const struct line *a = &lines[p];
            if (a->cue == first && (a->letter == 'w' || (a->letter == 'r' && b->letter == 'w')) &&
                a->axis == b->axis)
                return true;
        }
    }
    return false;
}

/* line is what stands between the two line feeds around a cycle line. */
static const char *check_cycle(const uint8_t *sheet, size_t sheet_len, const uint8_t *line,
                               size_t line_len)
{
    static struct line lines[MAX_LINES];
    bool committed[CUES + 1] = {false}, shown[CUES + 1] = {false};
    unsigned cues[CUES], length = 0;

    unsigned count = (unsigned)(sheet_len / 16);
    if (sheet_len % 16 != 0 || count > MAX_LINES)
        return "a cycle is shown for a sheet with a fault";
    for (unsigned n = 0; n < count; n++) {
        const uint8_t *text = sheet + (size_t)n * 16;
        lines[n].cue = number_in(text, 4);
        lines[n].letter = (char)text[5];
        lines[n].axis = number_in(text + 7, 8);
        if (lines[n].cue < 1 || lines[n].cue > CUES)
            return "a cycle is shown for a sheet with a fault";
        if (lines[n].letter == 'c')
            committed[lines[n].cue] = true;
    }

    if (line_len % 5 != 0 || line_len / 5 - 1 > CUES || line_len / 5 - 1 < 2)
        return "a cycle line does not hold 2 to 64 cues";
    for (size_t at = 5; at < line_len; at += 5) {
        const uint8_t *f = line + at;
        bool two_digits = f[3] >= '1' && f[3] <= '9';
        if (f[0] != ' ' || f[1] != ' ' || f[2] != ' ' || (f[3] != ' ' && !two_digits) ||
            f[4] < '0' || f[4] > '9')
            return "a cycle line is not laid out in columns";
        unsigned cue = number_in(f, 5);
        if (cue < 1 || cue > CUES || !committed[cue])
            return "a cycle has a cue that is not committed";
        if (shown[cue])
            return "a cycle has a cue twice";
        shown[cue] = true;
        cues[length++] = cue;
    }
    for (unsigned n = 0; n < length; n++)
        if (!comes_before(lines, count, cues[n], cues[(n + 1) % length]))
            return "a cycle has a cue with no entry before a conflicting one of the next";
    return NULL;
}

/* The length of the line that starts at start, without its line feed. */
static size_t line_length(const uint8_t *text, size_t len, size_t start)
{
    size_t at = start;
    while (at < len && text[at] != '\n')
        at++;
    return at - start;
}

const char *compare_reports(const uint8_t *sheet, size_t sheet_len, const uint8_t *one,
                            size_t one_len, const uint8_t *two, size_t two_len)
{
    const uint8_t *texts[2] = {one, two};
    size_t lens[2] = {one_len, two_len}, first[2], second[2];
    bool cycle[2];

    for (int n = 0; n < 2; n++) {
        first[n] = line_length(texts[n], lens[n], 0) + 1;
        second[n] = first[n] <= lens[n] ? line_length(texts[n], lens[n], first[n]) : 0;
        cycle[n] = second[n] >= 5 && memcmp(texts[n] + first[n], "cycle", 5) == 0;
    }
    if (!cycle[0] && !cycle[1])
        return one_len == two_len && memcmp(one, two, one_len) == 0 ? NULL : "the reports differ";
    if (!cycle[0] || !cycle[1])
        return "one report shows a cycle, the other none";
    if (first[0] != first[1] || memcmp(one, two, first[0]) != 0)
        return "the class lines differ";
    for (int n = 0; n < 2; n++) {
        const char *fault = check_cycle(sheet, sheet_len, texts[n] + first[n], second[n]);
        if (fault)
            return fault;
    }
    size_t rest_one = first[0] + second[0], rest_two = first[1] + second[1];
    if (one_len - rest_one != two_len - rest_two ||
        memcmp(one + rest_one, two + rest_two, one_len - rest_one) != 0)
        return "the view lines differ";
    return NULL;
}
