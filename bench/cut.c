/* Cutting alphabets in plain C, and its time. Words: bytes|events FILE COUNT ROUNDS. It does what the crates bytes, events
   and folds do, in the same order, and writes what crates/speed writes, so the two can be compared.

   Each of ROUNDS rounds cuts COUNT times, and asks as often for the classes of a recording of 4096 letters; over bytes it
   also asks a fold for the classes of the first COUNT letters, and a fold of folds for one of 256 of those. */
#include <stdbool.h>
#include <stddef.h>
#include <stdint.h>
#include <stdio.h>
#include <stdlib.h>
#include <string.h>
#include <time.h>

enum { MOST_TEXT = 4096, MOST_ATOMS = 32, MOST_CLASSES = 255, PRESSURES = 65536, CODES = 16, STATIONS = 8, LETTERS = 4096 };

enum question {
    NONE = 0,
    ATOM_ENTRY = 10,
    ATOM_FORM = 11,
    ATOM_ORDER = 12,
    CLASS_COUNT = 13,
};

/* The question that was answered with no, and where; NONE if all were answered with yes. */
struct answer {
    enum question question;
    size_t place;
};

struct entry {
    size_t place, length;
};

struct range {
    uint8_t first, last;
};

/* ANY_CODE and ANY_STATION stand for every one. */
enum { ANY_CODE = CODES, ANY_STATION = STATIONS };

struct test {
    uint8_t code, station;
    uint16_t first, last;
};

struct event {
    uint8_t code, station;
    uint16_t pressure;
};

struct byte_alphabet {
    struct range atoms[MOST_ATOMS];
    size_t atom_count;
    uint8_t classes[256], samples[MOST_CLASSES];
    uint32_t keys[MOST_CLASSES];
    size_t count;
};

struct event_alphabet {
    struct test atoms[MOST_ATOMS];
    size_t atom_count;
    struct event samples[MOST_CLASSES];
    uint32_t keys[MOST_CLASSES];
    size_t count;
};

static struct answer no(enum question question, size_t place)
{
    return (struct answer){question, place};
}

/* The number that lower-case hexadecimal digits write, or -1. */
static int hexadecimal(const uint8_t *digits, size_t count)
{
    int number = 0;
    for (size_t i = 0; i < count; i++) {
        uint8_t d = digits[i];
        int value = d >= '0' && d <= '9' ? d - '0' : d >= 'a' && d <= 'f' ? d - 'a' + 10 : -1;
        if (value < 0)
            return -1;
        number = number * 16 + value;
    }
    return number;
}

static bool read_range(const uint8_t *s, size_t length, struct range *r)
{
    if (length != 2 && !(length == 5 && s[2] == '-'))
        return false;
    int first = hexadecimal(s, 2), last = hexadecimal(s + length - 2, 2);
    if (first < 0 || last < 0)
        return false;
    *r = (struct range){first, last};
    return true;
}

static bool read_test(const uint8_t *s, size_t length, struct test *t)
{
    if (length != 12 || s[2] != ':' || s[7] != '-')
        return false;
    int code = s[0] == '.' ? ANY_CODE : hexadecimal(s, 1);
    int station = s[1] == '.' ? ANY_STATION : s[1] >= '0' && s[1] <= '7' ? s[1] - '0' : -1;
    int first = hexadecimal(s + 3, 4), last = hexadecimal(s + 8, 4);
    if (code < 0 || station < 0 || first < 0 || last < 0)
        return false;
    *t = (struct test){code, station, first, last};
    return true;
}

/* Whether entry k is in the list and its part in the text. */
static bool inside(size_t length, const struct entry *entries, size_t entry_count, size_t k)
{
    return k < MOST_ATOMS && k < entry_count && entries[k].place <= length && entries[k].length <= length - entries[k].place;
}

/* The class of a key: the one that has it, or the next. MOST_CLASSES where that would be one too many; *fresh says that it
   is the next. */
static size_t meet(uint32_t *keys, size_t *count, uint32_t key, bool *fresh)
{
    *fresh = false;
    for (size_t k = 0; k < *count; k++)
        if (keys[k] == key)
            return k;
    if (*count == MOST_CLASSES)
        return MOST_CLASSES;
    *fresh = true;
    keys[*count] = key;
    return (*count)++;
}

static uint32_t byte_answers(const struct byte_alphabet *a, uint8_t byte)
{
    uint32_t answers = 0;
    for (size_t k = 0; k < a->atom_count; k++)
        answers |= (uint32_t)(a->atoms[k].first <= byte && byte <= a->atoms[k].last) << k;
    return answers;
}

static struct answer cut_bytes(const uint8_t *text, size_t length, const struct entry *entries, size_t entry_count,
                               size_t count, struct byte_alphabet *place)
{
    struct byte_alphabet a;
    a.atom_count = a.count = 0;
    for (size_t k = 0; k < count; k++) {
        struct range r;
        if (!inside(length, entries, entry_count, k))
            return no(ATOM_ENTRY, k);
        if (!read_range(text + entries[k].place, entries[k].length, &r))
            return no(ATOM_FORM, entries[k].place);
        if (r.first > r.last)
            return no(ATOM_ORDER, entries[k].place);
        a.atoms[a.atom_count++] = r;
    }
    for (unsigned byte = 0; byte < 256; byte++) {
        bool fresh;
        size_t class = meet(a.keys, &a.count, byte_answers(&a, byte), &fresh);
        if (class == MOST_CLASSES)
            return no(CLASS_COUNT, MOST_CLASSES);
        if (fresh)
            a.samples[class] = byte;
        a.classes[byte] = class;
    }
    *place = a;
    return no(NONE, 0);
}

static bool stands_at(struct test t, unsigned code, unsigned station)
{
    return (t.code == ANY_CODE || t.code == code) && (t.station == ANY_STATION || t.station == station);
}

static uint32_t event_answers(const struct event_alphabet *a, struct event e)
{
    uint32_t answers = 0;
    for (size_t k = 0; k < a->atom_count; k++) {
        struct test t = a->atoms[k];
        bool admits = stands_at(t, e.code, e.station) && t.first <= e.pressure && e.pressure <= t.last;
        answers |= (uint32_t)admits << k;
    }
    return answers;
}

/* The next pressure at which an atom's answer to events of this code and station may change. */
static uint32_t next_change(const struct event_alphabet *a, unsigned code, unsigned station, uint32_t pressure)
{
    uint32_t next = PRESSURES;
    for (size_t k = 0; k < a->atom_count; k++) {
        if (!stands_at(a->atoms[k], code, station))
            continue;
        uint32_t first = a->atoms[k].first, behind = (uint32_t)a->atoms[k].last + 1;
        if (first > pressure && first < next)
            next = first;
        if (behind > pressure && behind < next)
            next = behind;
    }
    return next;
}

static struct answer cut_events(const uint8_t *text, size_t length, const struct entry *entries, size_t entry_count,
                                size_t count, struct event_alphabet *place)
{
    struct event_alphabet a;
    a.atom_count = a.count = 0;
    for (size_t k = 0; k < count; k++) {
        struct test t;
        if (!inside(length, entries, entry_count, k))
            return no(ATOM_ENTRY, k);
        if (!read_test(text + entries[k].place, entries[k].length, &t))
            return no(ATOM_FORM, entries[k].place);
        if (t.first > t.last)
            return no(ATOM_ORDER, entries[k].place);
        a.atoms[a.atom_count++] = t;
    }
    for (unsigned code = 0; code < CODES; code++)
        for (unsigned station = 0; station < STATIONS; station++)
            for (uint32_t pressure = 0; pressure < PRESSURES; pressure = next_change(&a, code, station, pressure)) {
                struct event e = {code, station, pressure};
                bool fresh;
                size_t class = meet(a.keys, &a.count, event_answers(&a, e), &fresh);
                if (class == MOST_CLASSES)
                    return no(CLASS_COUNT, MOST_CLASSES);
                if (fresh)
                    a.samples[class] = e;
            }
    *place = a;
    return no(NONE, 0);
}

static size_t event_class(const struct event_alphabet *a, struct event e)
{
    uint32_t answers = event_answers(a, e);
    for (size_t k = 0; k < a->count; k++)
        if (a->keys[k] == answers)
            return k;
    return 0;
}

static uint8_t folded(uint8_t byte)
{
    return byte >= 65 && byte <= 90 ? byte + 32 : byte;
}

/* The class of a byte under so many folds: at each question the classes below are met from byte 0 on. */
static size_t fold_class(const struct byte_alphabet *a, unsigned folds, uint8_t byte)
{
    if (folds == 0)
        return a->classes[byte];
    uint32_t keys[MOST_CLASSES];
    size_t count = 0, below = fold_class(a, folds - 1, folded(byte));
    bool fresh;
    for (unsigned b = 0; b < 256; b++)
        meet(keys, &count, fold_class(a, folds - 1, folded(b)), &fresh);
    return meet(keys, &count, below, &fresh);
}

static double nanoseconds(void)
{
    struct timespec t;
    clock_gettime(CLOCK_MONOTONIC, &t);
    return t.tv_sec * 1e9 + t.tv_nsec;
}

static void keep_least(double *best, double start, double count)
{
    double each = (nanoseconds() - start) / count;
    if (each < *best)
        *best = each;
}

struct task {
    const uint8_t *text;
    size_t length, entry_count;
    const struct entry *entries;
    unsigned long count, rounds;
};

static void tell_refusal(struct answer answer)
{
    printf("refused %d at %zu\n", answer.question, answer.place);
}

static void run_bytes(const struct task *t)
{
    static struct byte_alphabet a;
    static uint8_t recording[LETTERS];
    struct answer answer = cut_bytes(t->text, t->length, t->entries, t->entry_count, t->entry_count, &a);
    if (answer.question != NONE) {
        tell_refusal(answer);
        return;
    }
    for (size_t i = 0; i < LETTERS; i++)
        recording[i] = i * 167 + i / 256;
    double cut = 1e300, classes = 1e300, fold = 1e300, folds = 1e300;
    unsigned long sum = 0, fold_sum = 0, folds_sum = 0, few = t->count < LETTERS ? t->count : LETTERS, fewer = few / 256 + 1;
    for (unsigned long n = 0; n < t->rounds; n++) {
        double start = nanoseconds();
        for (unsigned long i = 0; i < t->count; i++)
            cut_bytes(t->text, t->length, t->entries, t->entry_count, t->entry_count, &a);
        keep_least(&cut, start, t->count);
        start = nanoseconds();
        for (unsigned long i = 0; i < t->count; i++)
            for (size_t l = 0; l < LETTERS; l++)
                sum += a.classes[recording[l]];
        keep_least(&classes, start, t->count);
        start = nanoseconds();
        for (unsigned long i = 0; i < few; i++)
            fold_sum += fold_class(&a, 1, recording[i]);
        keep_least(&fold, start, few);
        start = nanoseconds();
        for (unsigned long i = 0; i < fewer; i++)
            folds_sum += fold_class(&a, 2, recording[i]);
        keep_least(&folds, start, fewer);
    }
    printf("classes %zu\n", a.count);
    for (size_t k = 0; k < a.count; k++)
        printf("%zu %02x %08x\n", k, a.samples[k], a.keys[k]);
    printf("sum %lu\nsum %lu\nsum %lu\n", sum, fold_sum, folds_sum);
    fprintf(stderr, "%.0f ns a cut\n%.0f ns a recording\n", cut, classes);
    fprintf(stderr, "%.0f ns a fold, %.0f ns a fold of folds\n", fold, folds);
}

static void run_events(const struct task *t)
{
    static struct event_alphabet a;
    static struct event recording[LETTERS];
    struct answer answer = cut_events(t->text, t->length, t->entries, t->entry_count, t->entry_count, &a);
    if (answer.question != NONE) {
        tell_refusal(answer);
        return;
    }
    for (size_t i = 0; i < LETTERS; i++)
        recording[i] = (struct event){i % CODES, i / CODES % STATIONS, i * 40503};
    double cut = 1e300, classes = 1e300;
    unsigned long sum = 0;
    for (unsigned long n = 0; n < t->rounds; n++) {
        double start = nanoseconds();
        for (unsigned long i = 0; i < t->count; i++)
            cut_events(t->text, t->length, t->entries, t->entry_count, t->entry_count, &a);
        keep_least(&cut, start, t->count);
        start = nanoseconds();
        for (unsigned long i = 0; i < t->count; i++)
            for (size_t l = 0; l < LETTERS; l++)
                sum += event_class(&a, recording[l]);
        keep_least(&classes, start, t->count);
    }
    printf("classes %zu\n", a.count);
    for (size_t k = 0; k < a.count; k++)
        printf("%zu %x %x %04x %08x\n", k, a.samples[k].code, a.samples[k].station, a.samples[k].pressure, a.keys[k]);
    printf("sum %lu\n", sum);
    fprintf(stderr, "%.0f ns a cut\n%.0f ns a recording\n", cut, classes);
}

/* The entries of the atoms: the brackets whose texts are different. */
static size_t find_atoms(const uint8_t *text, size_t length, struct entry *entries)
{
    size_t count = 0;
    for (size_t i = 0; i < length && count < MOST_ATOMS; i++) {
        if (text[i] != '[')
            continue;
        const uint8_t *close = memchr(text + i, ']', length - i);
        if (close == NULL)
            return count;
        struct entry e = {i + 1, close - text - i - 1};
        size_t k = 0;
        while (k < count && (entries[k].length != e.length || memcmp(text + entries[k].place, text + e.place, e.length) != 0))
            k++;
        if (k == count)
            entries[count++] = e;
        i = close - text;
    }
    return count;
}

int main(int argc, char **argv)
{
    static uint8_t text[MOST_TEXT];
    struct entry entries[MOST_ATOMS];
    FILE *f = argc == 5 ? fopen(argv[2], "rb") : NULL;
    if (f == NULL) {
        fputs("words: bytes|events FILE COUNT ROUNDS\n", stderr);
        return 1;
    }
    struct task task = {.text = text, .length = fread(text, 1, sizeof text, f), .entries = entries};
    fclose(f);
    task.entry_count = find_atoms(text, task.length, entries);
    task.count = strtoul(argv[3], NULL, 10);
    task.rounds = strtoul(argv[4], NULL, 10);
    if (strcmp(argv[1], "events") == 0)
        run_events(&task);
    else
        run_bytes(&task);
    return 0;
}
