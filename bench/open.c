/* The checks of opening a step file in plain C, and their time. Words: FILE COUNT ROUNDS. It asks the questions of
   crates/stepfiles in the same order and writes what crates/speed writes, so the two can be compared. */
#include <stdbool.h>
#include <stddef.h>
#include <stdint.h>
#include <stdio.h>
#include <stdlib.h>
#include <time.h>

enum { HEADER = 11, MOST_ROWS = 1024, MOST_TEXT = 4096 };

enum question {
    NONE = 0,
    FILE_LENGTH = 30,
    FILE_VERSION = 31,
    FILE_FIELDS = 32,
    TABLE_LENGTH = 33,
    SCRATCH_ROOM = 34,
    TARGET_IN_TABLE = 35,
    MARK_WORKED_OUT = 36,
};

/* The question that was answered with no, and where; NONE if all were answered with yes. */
struct answer {
    enum question question;
    size_t place;
};

struct layout {
    size_t rows, classes, table, width;
};

struct step_file {
    const uint8_t *bytes;
    size_t length;
};

static struct answer no(enum question question, size_t place)
{
    return (struct answer){question, place};
}

static size_t word_at(const uint8_t *p)
{
    return (size_t)p[0] << 8 | p[1];
}

static struct answer check_header(const uint8_t *bytes, size_t length, struct layout *l)
{
    if (length < HEADER || (word_at(bytes) << 16 | word_at(bytes + 2)) != length)
        return no(FILE_LENGTH, 0);
    if (bytes[4] != 1)
        return no(FILE_VERSION, 4);
    if (bytes[5] < 1 || bytes[5] > 2)
        return no(FILE_FIELDS, 5);
    l->rows = word_at(bytes + 6);
    l->classes = bytes[8];
    l->table = HEADER + word_at(bytes + 9);
    l->width = 1 + 2 * l->classes;
    if (l->rows < 1 || l->rows > MOST_ROWS)
        return no(FILE_FIELDS, 6);
    if (l->classes < 1)
        return no(FILE_FIELDS, 8);
    if (l->table < HEADER + 1 || l->table > HEADER + MOST_TEXT)
        return no(FILE_FIELDS, 9);
    if (length != l->table + l->rows * l->width)
        return no(TABLE_LENGTH, 6);
    return no(NONE, 0);
}

/* The place of the first target that is no row, or 0. */
static size_t bad_target(const uint8_t *bytes, const struct layout *l)
{
    const uint8_t *p = bytes + l->table;
    for (size_t row = 0; row < l->rows; row++) {
        p++;
        for (size_t class = 0; class < l->classes; class++, p += 2)
            if (word_at(p) >= l->rows)
                return p - bytes;
    }
    return 0;
}

static void begin(const uint8_t *bytes, const struct layout *l, uint8_t *marks)
{
    for (size_t row = 0; row < l->rows; row++)
        marks[row] = bytes[l->table + row * l->width] & 1 ? 3 : 4;
}

static bool pass(const uint8_t *bytes, const struct layout *l, uint8_t *marks)
{
    bool changed = false;
    for (size_t row = l->rows; row-- > 0;) {
        const uint8_t *targets = bytes + l->table + row * l->width + 1;
        uint8_t mark = marks[row];
        /* A mark with both bits has no more to learn. */
        for (size_t class = 0; class < l->classes && (mark & 6) != 6; class++)
            mark |= marks[word_at(targets + 2 * class)] & 6;
        if (mark != marks[row]) {
            marks[row] = mark;
            changed = true;
        }
    }
    return changed;
}

/* The place of the first mark that is not the one worked out, or 0. */
static size_t bad_mark(const uint8_t *bytes, const struct layout *l, const uint8_t *marks)
{
    for (size_t row = 0; row < l->rows; row++) {
        size_t place = l->table + row * l->width;
        if (bytes[place] != marks[row])
            return place;
    }
    return 0;
}

static struct answer open_file(const uint8_t *bytes, size_t length, uint8_t *scratch, size_t room,
                               struct step_file *file)
{
    struct layout l;
    struct answer header = check_header(bytes, length, &l);
    if (header.question != NONE)
        return header;
    if (room < l.rows)
        return no(SCRATCH_ROOM, 0);
    size_t bad = bad_target(bytes, &l);
    if (bad != 0)
        return no(TARGET_IN_TABLE, bad);
    begin(bytes, &l, scratch);
    for (size_t n = 0; n < l.rows && pass(bytes, &l, scratch); n++)
        ;
    bad = bad_mark(bytes, &l, scratch);
    if (bad != 0)
        return no(MARK_WORKED_OUT, bad);
    *file = (struct step_file){bytes, length};
    return no(NONE, 0);
}

/* The text changes between openings, so that the optimizer cannot let one opening answer for the next. */
static unsigned long open_often(uint8_t *bytes, size_t length, uint8_t *scratch, size_t room,
                                unsigned long count)
{
    unsigned long succeeded = 0;
    for (unsigned long n = 0; n < count; n++) {
        struct step_file file;
        if (length > HEADER)
            bytes[HEADER] ^= 1;
        if (open_file(bytes, length, scratch, room, &file).question == NONE)
            succeeded++;
    }
    return succeeded;
}

static double nanoseconds(void)
{
    struct timespec t;
    clock_gettime(CLOCK_MONOTONIC, &t);
    return t.tv_sec * 1e9 + t.tv_nsec;
}

/* The bytes of a file, or NULL. */
static uint8_t *read_file(const char *name, size_t *length)
{
    FILE *f = fopen(name, "rb");
    if (f == NULL)
        return NULL;
    fseek(f, 0, SEEK_END);
    *length = ftell(f);
    rewind(f);
    uint8_t *bytes = malloc(*length + 1);
    if (bytes != NULL)
        *length = fread(bytes, 1, *length, f);
    fclose(f);
    return bytes;
}

int main(int argc, char **argv)
{
    size_t length;
    uint8_t *bytes = argc == 4 ? read_file(argv[1], &length) : NULL;
    if (bytes == NULL) {
        fputs("words: FILE COUNT ROUNDS\n", stderr);
        return 1;
    }
    uint8_t scratch[MOST_ROWS];
    unsigned long count = strtoul(argv[2], NULL, 10), rounds = strtoul(argv[3], NULL, 10), succeeded = 0;
    double best = 1e300;
    for (unsigned long n = 0; n < rounds; n++) {
        double start = nanoseconds();
        succeeded += open_often(bytes, length, scratch, sizeof scratch, count);
        double time = nanoseconds() - start;
        if (time < best)
            best = time;
    }
    struct step_file file;
    struct answer answer = open_file(bytes, length, scratch, sizeof scratch, &file);
    if (answer.question == NONE)
        printf("opened %zu bytes, %zu rows, %u classes\n", file.length, word_at(file.bytes + 6), file.bytes[8]);
    else
        printf("refused %d at %zu\n", answer.question, answer.place);
    printf("%lu openings succeeded\n", succeeded);
    fprintf(stderr, "%.0f ns an opening\n", best / count);
    free(bytes);
    return 0;
}
