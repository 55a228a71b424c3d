#include "brute.h"

#include <stdbool.h>
#include <stdio.h>
#include <stdlib.h>
#include <string.h>

enum { BOOK = 200, ORDER = 8 };

struct entry {
    int cue;
    char letter;
    int item; /* -1 for c and a */
};

/* Places count from 1, so that 0 can stand for the initial state and for no place. */
struct book {
    int count;
    struct entry at[BOOK + 1];
};

/* A field holds a number exactly when writing the number gives the field back. */
static int number_in(const uint8_t *field, int width)
{
    char text[16], again[16];
    memcpy(text, field, (size_t)width);
    text[width] = 0;
    int value = atoi(text);
    snprintf(again, sizeof again, "%*d", width, value);
    return value >= 0 && memcmp(field, again, (size_t)width) == 0 ? value : -1;
}

static bool happened(const struct book *book, int cue, char letter, int before)
{
    for (int p = 1; p < before; p++)
        if (book->at[p].cue == cue && book->at[p].letter == letter)
            return true;
    return false;
}

static bool ended(const struct book *book, int cue, int before)
{
    return happened(book, cue, 'c', before) || happened(book, cue, 'a', before);
}

static bool is_committed(const struct book *book, int cue)
{
    return happened(book, cue, 'c', book->count + 1);
}

static int refusal(const struct book *book, const uint8_t *line, size_t left, struct entry *entry)
{
    if (left < 16)
        return 1;
    for (int n = 0; n < 16; n++)
        if ((line[n] == '\n') != (n == 15))
            return 1;
    entry->cue = number_in(line, 4);
    if (entry->cue < 0)
        return 2;
    entry->letter = (char)line[5];
    if (!line[5] || !strchr("rwca", line[5]) || line[4] != ' ' || line[6] != ' ')
        return 3;
    entry->item = -1;
    if (strchr("rw", entry->letter)) {
        entry->item = number_in(line + 7, 8);
        if (entry->item < 0 || entry->item > 65535)
            return 4;
    } else {
        for (int n = 7; n < 15; n++)
            if (line[n] != ' ')
                return 4;
    }
    if (entry->cue < 1 || entry->cue > 64)
        return 11;
    if (ended(book, entry->cue, book->count + 1))
        return 12;
    return 0;
}

static bool wrote(const struct book *book, int cue, int item, int before)
{
    for (int p = 1; p < before; p++)
        if (book->at[p].cue == cue && book->at[p].letter == 'w' && book->at[p].item == item)
            return true;
    return false;
}

/* The other cue that the read at this place reads from, or 0. */
static int reads_from(const struct book *book, int read)
{
    for (int p = read - 1; p >= 1; p--) {
        const struct entry *e = &book->at[p];
        if (e->letter == 'w' && e->item == book->at[read].item && !happened(book, e->cue, 'a', read))
            return e->cue == book->at[read].cue ? 0 : e->cue;
    }
    return 0;
}

static bool breaks_recoverability(const struct book *book, int place)
{
    if (book->at[place].letter != 'c')
        return false;
    for (int p = 1; p < place; p++) {
        if (book->at[p].cue != book->at[place].cue || book->at[p].letter != 'r')
            continue;
        int from = reads_from(book, p);
        if (from && !happened(book, from, 'c', place))
            return true;
    }
    return false;
}

static bool breaks_cascadelessness(const struct book *book, int place)
{
    int from = book->at[place].letter == 'r' ? reads_from(book, place) : 0;
    return from && !happened(book, from, 'c', place);
}

static bool breaks_strictness(const struct book *book, int place)
{
    if (book->at[place].item < 0)
        return false;
    for (int j = 1; j <= 64; j++)
        if (j != book->at[place].cue && wrote(book, j, book->at[place].item, place) &&
            !ended(book, j, place))
            return true;
    return false;
}

static int class_of(const struct book *book, int *place)
{
    bool (*const breaks[3])(const struct book *, int) = {
        breaks_recoverability, breaks_cascadelessness, breaks_strictness};
    for (int class = 0; class < 3; class++)
        for (*place = 1; *place <= book->count; ++*place)
            if (breaks[class](book, *place))
                return class;
    *place = 0;
    return 3;
}

static bool conflict(const struct entry *a, const struct entry *b)
{
    return a->cue != b->cue && a->item >= 0 && a->item == b->item &&
           (a->letter == 'w' || b->letter == 'w');
}

static bool edge(const struct book *book, int from, int to)
{
    for (int p = 1; p <= book->count; p++)
        for (int q = p + 1; q <= book->count; q++)
            if (book->at[p].cue == from && book->at[q].cue == to &&
                conflict(&book->at[p], &book->at[q]))
                return true;
    return false;
}

/* Goes on to the next order in dictionary order; false after the last. */
static bool next_order(int *order, int length)
{
    int i = length - 2, j = length - 1;
    while (i >= 0 && order[i] > order[i + 1])
        i--;
    if (i < 0)
        return false;
    while (order[j] < order[i])
        j--;
    int t = order[i];
    order[i] = order[j];
    order[j] = t;
    for (i = i + 1, j = length - 1; i < j; i++, j--) {
        t = order[i];
        order[i] = order[j];
        order[j] = t;
    }
    return true;
}

static bool is_serial(bool edges[65][65], const int *order, int length)
{
    for (int i = 0; i < length; i++)
        for (int j = i + 1; j < length; j++)
            if (edges[order[j]][order[i]])
                return false;
    return true;
}

/* Tries every row of length distinct cues that starts with those already in row. */
static bool find_cycle(bool edges[65][65], const int *cues, int count, int *row, int have,
                       int length)
{
    if (have == length)
        return edges[row[length - 1]][row[0]];
    for (int n = 0; n < count; n++) {
        bool usable = have == 0 || edges[row[have - 1]][cues[n]];
        for (int k = 0; k < have; k++)
            usable = usable && row[k] != cues[n];
        row[have] = cues[n];
        if (usable && find_cycle(edges, cues, count, row, have + 1, length))
            return true;
    }
    return false;
}

/* A list holds places of the book. The source of the read at list[n], as a place of the book. */
static int source(const struct book *book, const int *list, int n)
{
    for (int k = n - 1; k >= 0; k--)
        if (book->at[list[k]].letter == 'w' && book->at[list[k]].item == book->at[list[n]].item)
            return list[k];
    return 0;
}

static bool is_last_write(const struct book *book, const int *list, int length, int n)
{
    for (int k = n + 1; k < length; k++)
        if (book->at[list[k]].letter == 'w' && book->at[list[k]].item == book->at[list[n]].item)
            return false;
    return true;
}

/* For each place: a read's source, or whether a write is the last one of its item. */
static void describe(const struct book *book, const int *list, int length, int *of_place)
{
    for (int n = 0; n < length; n++)
        of_place[list[n]] = book->at[list[n]].letter == 'r' ? source(book, list, n)
                                                            : is_last_write(book, list, length, n);
}

static bool is_view(const struct book *book, const int *list, int length, const int *of_list,
                    const int *order, int cues)
{
    int serial[BOOK], of_serial[BOOK + 1], have = 0;
    for (int c = 0; c < cues; c++)
        for (int n = 0; n < length; n++)
            if (book->at[list[n]].cue == order[c])
                serial[have++] = list[n];
    describe(book, serial, have, of_serial);
    for (int n = 0; n < length; n++)
        if (of_serial[list[n]] != of_list[list[n]])
            return false;
    return true;
}

static char *put_cues(char *to, const char *word, const int *cues, int count)
{
    to += sprintf(to, "%s", word);
    for (int n = 0; n < count; n++)
        to += sprintf(to, "%5d", cues[n]);
    return to + sprintf(to, "\n");
}

static char *put_order(char *to, const struct book *book, const int *cues, int count)
{
    static bool edges[65][65];
    for (int a = 0; a < count; a++)
        for (int b = 0; b < count; b++)
            edges[cues[a]][cues[b]] = edge(book, cues[a], cues[b]);

    int order[ORDER];
    memcpy(order, cues, sizeof order);
    do
        if (is_serial(edges, order, count))
            return put_cues(to, "order", order, count);
    while (next_order(order, count));
    for (int length = 2; length <= count; length++)
        if (find_cycle(edges, cues, count, order, 0, length))
            return put_cues(to, "cycle", order, length);
    return put_cues(to, "wrong", NULL, 0);
}

static char *put_view(char *to, const struct book *book, const int *cues, int count)
{
    int list[BOOK], of_list[BOOK + 1], length = 0;
    for (int p = 1; p <= book->count; p++)
        if (book->at[p].item >= 0 && is_committed(book, book->at[p].cue))
            list[length++] = p;
    describe(book, list, length, of_list);

    int order[ORDER];
    memcpy(order, cues, sizeof order);
    do
        if (is_view(book, list, length, of_list, order, count))
            return put_cues(to, "views", order, count);
    while (next_order(order, count));
    return put_cues(to, "vnone", NULL, 0);
}

size_t brute_report(const uint8_t *sheet, size_t sheet_len, uint8_t *space, size_t space_len,
                    unsigned most)
{
    static struct book book;
    char text[400], *to = text;

    if (space_len < 388)
        return 25;
    book.count = 0;
    for (size_t at = 0; at < sheet_len; at += 16) {
        if (book.count == BOOK)
            return 0;
        struct entry entry;
        int number = refusal(&book, sheet + at, sheet_len - at, &entry);
        if (number) {
            to += sprintf(to, "fault%5d%5d\n", number, book.count + 1);
            memcpy(space, text, (size_t)(to - text));
            return (size_t)(to - text);
        }
        book.at[++book.count] = entry;
    }

    int cues[ORDER] = {0}, count = 0;
    for (int cue = 1; cue <= 64; cue++) {
        if (!is_committed(&book, cue))
            continue;
        if (count == ORDER || count == (int)most)
            return 0;
        cues[count++] = cue;
    }
    int place, class = class_of(&book, &place);
    to += sprintf(to, "class%5d%5d\n", class, place);
    to = put_order(to, &book, cues, count);
    to = put_view(to, &book, cues, count);
    memcpy(space, text, (size_t)(to - text));
    return (size_t)(to - text);
}
