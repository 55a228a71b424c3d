#include "reference.h"

#include <stdbool.h>
#include <string.h>

enum {
    LINE = 16,
    BOOK = 2048,
    CUES = 64,
    SPACE = 388,
    SPACE_SHORT = 25,
    VIEW_CUES = 8,
    SLOTS = 4096, /* twice the entries, so that the table is never more than half full */
    NONE = 0xffff
};

enum {
    BAD_SHAPE = 1,
    BAD_CUE = 2,
    BAD_LETTER = 3,
    BAD_ITEM = 4,
    NO_SUCH_CUE = 11,
    CUE_ENDED = 12,
    BOOK_FULL = 13
};

/* A cue is kept as its number less 1, and a set of cues as the bits of a word. */
typedef uint64_t cue_set;

struct entry {
    uint8_t cue;
    uint8_t letter;
    uint16_t item; /* index into items; not set for c and a */
};

struct item {
    uint16_t axis;
    uint16_t last_write; /* the newest write by a cue that is not known to be aborted, or NONE */
    cue_set readers;
    cue_set writers;
    uint8_t all_writers; /* the last three for views only, see struct view_rules */
    uint8_t wrote;
    uint8_t was_read;
};

struct book {
    unsigned count;
    unsigned item_count;
    unsigned slot_mask;
    cue_set committed;
    cue_set aborted;
    struct entry entries[BOOK];
    struct item items[BOOK];
    uint16_t older_write[BOOK]; /* for a write: the write of the same item before it */
    uint16_t slots[SLOTS];      /* hash table from axis to index into items */
};

static cue_set bit(unsigned cue)
{
    return (cue_set)1 << cue;
}

static unsigned lowest(cue_set set)
{
    return (unsigned)__builtin_ctzll(set);
}

/* The value of a right-justified number, or -1. No field is wider than 8, so it fits in a long. */
static long field_number(const uint8_t *field, unsigned width)
{
    unsigned at = 0;
    while (at < width && field[at] == ' ')
        at++;
    if (at == width || (field[at] == '0' && at + 1 < width))
        return -1;
    long value = 0;
    for (; at < width; at++) {
        if (field[at] < '0' || field[at] > '9')
            return -1;
        value = value * 10 + (field[at] - '0');
    }
    return value;
}

/* A short sheet gets a short table, since clearing it would be most of the work. */
static void clear_book(struct book *book, size_t sheet_len)
{
    size_t lines = sheet_len / LINE;
    unsigned slots = 16;
    while (slots < SLOTS && slots < 2 * lines)
        slots *= 2;
    book->count = 0;
    book->item_count = 0;
    book->slot_mask = slots - 1;
    book->committed = 0;
    book->aborted = 0;
    memset(book->slots, 0xff, slots * sizeof book->slots[0]);
}

static unsigned find_item(struct book *book, unsigned axis)
{
    unsigned slot = (axis * 40503u >> 4) & book->slot_mask;
    while (book->slots[slot] != NONE) {
        if (book->items[book->slots[slot]].axis == axis)
            return book->slots[slot];
        slot = (slot + 1) & book->slot_mask;
    }
    unsigned index = book->item_count++;
    book->slots[slot] = (uint16_t)index;
    book->items[index].axis = (uint16_t)axis;
    return index;
}

static int enter_line(struct book *book, const uint8_t *line, size_t left)
{
    if (left < LINE || memchr(line, '\n', LINE) != line + LINE - 1)
        return BAD_SHAPE;
    long cue = field_number(line, 4);
    if (cue < 0)
        return BAD_CUE;
    uint8_t letter = line[5];
    bool has_item = letter == 'r' || letter == 'w';
    if ((!has_item && letter != 'c' && letter != 'a') || line[4] != ' ' || line[6] != ' ')
        return BAD_LETTER;
    long axis = 0;
    if (has_item) {
        axis = field_number(line + 7, 8);
        if (axis < 0 || axis > 65535)
            return BAD_ITEM;
    } else if (memcmp(line + 7, "        ", 8) != 0) {
        return BAD_ITEM;
    }
    if (cue < 1 || cue > CUES)
        return NO_SUCH_CUE;
    cue_set self = bit((unsigned)cue - 1);
    if ((book->committed | book->aborted) & self)
        return CUE_ENDED;
    if (book->count == BOOK)
        return BOOK_FULL;

    struct entry *entry = &book->entries[book->count++];
    entry->cue = (uint8_t)(cue - 1);
    entry->letter = letter;
    if (has_item)
        entry->item = (uint16_t)find_item(book, (unsigned)axis);
    else if (letter == 'c')
        book->committed |= self;
    else
        book->aborted |= self;
    return 0;
}

static void clear_items(struct book *book)
{
    for (unsigned i = 0; i < book->item_count; i++) {
        book->items[i].last_write = NONE;
        book->items[i].readers = 0;
        book->items[i].writers = 0;
        book->items[i].all_writers = 0;
        book->items[i].wrote = 0;
        book->items[i].was_read = 0;
    }
}

static unsigned find_class(struct book *book, unsigned *place)
{
    cue_set committed = 0, aborted = 0; /* as they are at the entry in hand */
    cue_set read_from[CUES] = {0};
    unsigned dirty_read = 0, dirty_touch = 0;

    clear_items(book);
    for (unsigned at = 0; at < book->count; at++) {
        const struct entry *entry = &book->entries[at];
        cue_set self = bit(entry->cue);
        if (entry->letter == 'c') {
            if (read_from[entry->cue] & ~committed) {
                *place = at + 1;
                return 0;
            }
            committed |= self;
            continue;
        }
        if (entry->letter == 'a') {
            aborted |= self;
            continue;
        }
        struct item *item = &book->items[entry->item];
        if (!dirty_touch && (item->writers & ~(committed | aborted | self)))
            dirty_touch = at + 1;
        if (entry->letter == 'w') {
            item->writers |= self;
            book->older_write[at] = item->last_write;
            item->last_write = (uint16_t)at;
            continue;
        }
        /* An aborted cue stays so: its writes can be dropped for good. */
        while (item->last_write != NONE && (aborted & bit(book->entries[item->last_write].cue)))
            item->last_write = book->older_write[item->last_write];
        if (item->last_write == NONE)
            continue;
        cue_set source = bit(book->entries[item->last_write].cue);
        if (source == self)
            continue;
        read_from[entry->cue] |= source;
        if (!dirty_read && !(source & committed))
            dirty_read = at + 1;
    }
    *place = dirty_read ? dirty_read : dirty_touch;
    return dirty_read ? 1 : dirty_touch ? 2 : 3;
}

/* Fills list with the first serial order, or with a cycle, and says which it was. */
static bool find_order(struct book *book, uint8_t *list, unsigned *length)
{
    cue_set before[CUES] = {0}; /* the cues that must come before each cue */

    clear_items(book);
    for (unsigned at = 0; at < book->count; at++) {
        const struct entry *entry = &book->entries[at];
        cue_set self = bit(entry->cue);
        if (!(book->committed & self) || entry->letter == 'c')
            continue;
        struct item *item = &book->items[entry->item];
        if (entry->letter == 'w') {
            before[entry->cue] |= (item->readers | item->writers) & ~self;
            item->writers |= self;
        } else {
            before[entry->cue] |= item->writers & ~self;
            item->readers |= self;
        }
    }

    cue_set left = book->committed;
    *length = 0;
    while (left) {
        cue_set candidates = left;
        while (candidates && (before[lowest(candidates)] & left))
            candidates &= candidates - 1;
        if (!candidates)
            break;
        unsigned cue = lowest(candidates);
        list[(*length)++] = (uint8_t)cue;
        left &= ~bit(cue);
    }
    if (!left)
        return true;

    /* Every cue that is left has a predecessor that is left, so going back must come round. */
    uint8_t path[CUES];
    unsigned end = 0, cue = lowest(left);
    cue_set seen = 0;
    while (!(seen & bit(cue))) {
        seen |= bit(cue);
        path[end++] = (uint8_t)cue;
        cue = lowest(before[cue] & left);
    }
    *length = 0;
    do
        list[(*length)++] = path[--end];
    while (path[end] != cue);
    return false;
}

/*
 * What a view-equivalent order must keep. The committed cues are numbered from 0 in rising order,
 * and a set of them is the bits of a byte.
 */
struct view_rules {
    unsigned count;
    uint8_t before[VIEW_CUES];                 /* cues that must come before this one */
    uint8_t not_between[VIEW_CUES][VIEW_CUES]; /* [j][i]: cues that must not follow j and precede i */
    bool dead[1 << VIEW_CUES];                 /* sets of placed cues from which no way leads on */
};

/* False where some read cannot have its source in any serial list. */
static bool find_view_rules(struct book *book, const uint8_t *number, struct view_rules *rules)
{
    clear_items(book);
    for (unsigned at = 0; at < book->count; at++) {
        const struct entry *entry = &book->entries[at];
        if (entry->letter == 'w' && (book->committed & bit(entry->cue)))
            book->items[entry->item].all_writers |= (uint8_t)(1 << number[entry->cue]);
    }

    for (unsigned at = 0; at < book->count; at++) {
        const struct entry *entry = &book->entries[at];
        if (!(book->committed & bit(entry->cue)) || entry->letter == 'c')
            continue;
        struct item *item = &book->items[entry->item];
        unsigned i = number[entry->cue];
        uint8_t self = (uint8_t)(1 << i);

        if (entry->letter == 'w') {
            /* Run on its own, the cue would have written this over before the other one read. */
            if (item->was_read & self)
                return false;
            item->wrote |= self;
            item->last_write = (uint16_t)at;
            continue;
        }
        if (item->last_write == NONE) {
            for (unsigned k = 0; k < rules->count; k++)
                if (k != i && (item->all_writers >> k & 1))
                    rules->before[k] |= self;
            continue;
        }
        unsigned j = number[book->entries[item->last_write].cue];
        if (j == i)
            continue;
        /* Run on its own, the cue would read what it wrote itself. */
        if (item->wrote & self)
            return false;
        uint8_t source = (uint8_t)(1 << j);
        item->was_read |= source;
        rules->before[i] |= source;
        rules->not_between[j][i] |= (uint8_t)(item->all_writers & ~(self | source));
    }

    for (unsigned n = 0; n < book->item_count; n++) {
        const struct item *item = &book->items[n];
        if (item->last_write == NONE)
            continue;
        unsigned last = number[book->entries[item->last_write].cue];
        rules->before[last] |= (uint8_t)(item->all_writers & ~(1 << last));
    }
    return true;
}

/* What may come next depends on the set of placed cues only, so each set is tried once. */
static bool extend_view(struct view_rules *rules, unsigned placed, uint8_t *list, unsigned length)
{
    if (length == rules->count)
        return true;
    if (rules->dead[placed])
        return false;
    unsigned not_now = placed;
    for (unsigned j = 0; j < rules->count; j++)
        for (unsigned i = 0; i < rules->count; i++)
            if ((placed >> j & 1) && !(placed >> i & 1))
                not_now |= rules->not_between[j][i];
    for (unsigned cue = 0; cue < rules->count; cue++) {
        if ((not_now >> cue & 1) || (rules->before[cue] & ~placed))
            continue;
        list[length] = (uint8_t)cue;
        if (extend_view(rules, placed | 1u << cue, list, length + 1))
            return true;
    }
    rules->dead[placed] = true;
    return false;
}

static bool find_view(struct book *book, uint8_t *list, unsigned *length)
{
    uint8_t number[CUES], cues[VIEW_CUES];
    struct view_rules rules;

    memset(&rules, 0, sizeof rules);
    for (cue_set left = book->committed; left; left &= left - 1) {
        cues[rules.count] = (uint8_t)lowest(left);
        number[lowest(left)] = (uint8_t)rules.count++;
    }
    if (!find_view_rules(book, number, &rules) || !extend_view(&rules, 0, list, 0))
        return false;
    for (unsigned n = 0; n < rules.count; n++)
        list[n] = cues[list[n]];
    *length = rules.count;
    return true;
}

static uint8_t *put_word(uint8_t *to, const char *word)
{
    memcpy(to, word, 5);
    return to + 5;
}

static uint8_t *put_number(uint8_t *to, unsigned value)
{
    unsigned at = 5;
    do {
        to[--at] = (uint8_t)('0' + value % 10);
        value /= 10;
    } while (value);
    memset(to, ' ', at);
    return to + 5;
}

static uint8_t *put_pair(uint8_t *to, const char *word, unsigned first, unsigned second)
{
    to = put_number(put_number(put_word(to, word), first), second);
    *to++ = '\n';
    return to;
}

static uint8_t *put_cues(uint8_t *to, const char *word, const uint8_t *list, unsigned length)
{
    to = put_word(to, word);
    for (unsigned n = 0; n < length; n++)
        to = put_number(to, list[n] + 1u);
    *to++ = '\n';
    return to;
}

size_t ref_report(const uint8_t *sheet, size_t sheet_len, uint8_t *space, size_t space_len)
{
    struct book book;

    if (space_len < SPACE)
        return SPACE_SHORT;

    clear_book(&book, sheet_len);
    for (size_t at = 0; at < sheet_len; at += LINE) {
        int refusal = enter_line(&book, sheet + at, sheet_len - at);
        if (refusal)
            return (size_t)(put_pair(space, "fault", (unsigned)refusal, book.count + 1) - space);
    }

    uint8_t list[CUES];
    unsigned length = 0, place = 0;
    unsigned class = find_class(&book, &place);
    uint8_t *to = put_pair(space, "class", class, place);
    bool ordered = find_order(&book, list, &length);
    to = put_cues(to, ordered ? "order" : "cycle", list, length);
    length = 0;
    if (__builtin_popcountll(book.committed) > VIEW_CUES)
        to = put_cues(to, "vmany", list, 0);
    else if (find_view(&book, list, &length))
        to = put_cues(to, "views", list, length);
    else
        to = put_cues(to, "vnone", list, 0);
    return (size_t)(to - space);
}
