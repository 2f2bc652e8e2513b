/* Reading a rule and deriving its nodes in plain C, what it costs and its time. Words: FILE COUNT ROUNDS. It does what the
   crates reader and nodes do, in the same order: a text is read twice, once to ask the questions and once to enter; an
   equal node is searched from the first; members are merged one by one.

   The text is read COUNT times in each of ROUNDS rounds, and as often its rows are gone through: row 0 is the root, each
   row is derived by the empty answer set and by that of each atom alone, and a node that is no row yet is the next row. It
   ends when no row is left, at 1024 rows, or when the pool is full. */
#include <stdbool.h>
#include <stddef.h>
#include <stdint.h>
#include <stdio.h>
#include <stdlib.h>
#include <string.h>
#include <time.h>

enum { MOST_TEXT = 4096, MOST_NODES = 4096, MOST_ATOMS = 32, MOST_LEVELS = 32, MOST_ROWS = 1024 };

enum question {
    NO_QUESTION = 0,
    TEXT_LENGTH = 1,
    TOKEN_START = 3,
    BRACKET_CLOSED = 4,
    GRAMMAR_ALLOWS = 5,
    LEVELS_OPEN = 6,
    ATOM_COUNT = 7,
    NODE_ROOM = 8,
};

/* The question that was answered with no, and where; NO_QUESTION if all were answered with yes. */
struct answer {
    enum question question;
    size_t place;
};

enum kind { NONE, EMPTY, ANY, ATOM, SEQUENCE, OR, AND, STAR, NOT };

struct node {
    uint8_t kind;
    bool nullable;
    uint16_t left, right;
};

/* visited counts the nodes that were derived, compared the records that were looked at to find an equal one. */
struct pool {
    struct node nodes[MOST_NODES];
    size_t count;
    struct answer no;
    unsigned long visited, compared;
};

static const struct node first_nodes[4] = {{NONE, false, 0, 0}, {EMPTY, true, 0, 0}, {ANY, false, 0, 0}, {NOT, true, 0, 0}};

static bool same(struct node a, struct node b)
{
    return a.kind == b.kind && a.left == b.left && a.right == b.right && a.nullable == b.nullable;
}

static bool intern(struct pool *p, struct node x, uint16_t *n)
{
    for (size_t i = 0; i < p->count; i++)
        if (same(p->nodes[i], x)) {
            p->compared += i + 1;
            *n = i;
            return true;
        }
    p->compared += p->count;
    if (p->count == MOST_NODES) {
        p->no = (struct answer){NODE_ROOM, MOST_NODES};
        return false;
    }
    p->nodes[p->count] = x;
    *n = p->count++;
    return true;
}

static bool keep(struct pool *p, enum kind kind, uint16_t left, uint16_t right, uint16_t *n)
{
    bool l = p->nodes[left].nullable, r = p->nodes[right].nullable, nullable = false;
    switch (kind) {
    case SEQUENCE:
    case AND:
        nullable = l && r;
        break;
    case OR:
        nullable = l || r;
        break;
    case STAR:
        nullable = true;
        break;
    case NOT:
        nullable = !l;
        break;
    default:
        break;
    }
    return intern(p, (struct node){kind, nullable, left, right}, n);
}

/* The members of two nodes, merged; -1 stands for no member left. */
static bool merge(struct pool *p, enum kind kind, int a, int b, uint16_t *n)
{
    if (a < 0 && b < 0)
        return true;
    int first_a = -1, rest_a = -1, first_b = -1, rest_b = -1;
    if (a >= 0) {
        bool joined = p->nodes[a].kind == kind;
        first_a = joined ? p->nodes[a].left : a;
        rest_a = joined ? p->nodes[a].right : -1;
    }
    if (b >= 0) {
        bool joined = p->nodes[b].kind == kind;
        first_b = joined ? p->nodes[b].left : b;
        rest_b = joined ? p->nodes[b].right : -1;
    }
    bool from_a = first_b < 0 || (first_a >= 0 && first_a <= first_b);
    bool from_b = first_a < 0 || (first_b >= 0 && first_b <= first_a);
    uint16_t member = from_a ? first_a : first_b, rest;
    int next_a = from_a ? rest_a : a, next_b = from_b ? rest_b : b;
    if (next_a < 0 && next_b < 0) {
        *n = member;
        return true;
    }
    return merge(p, kind, next_a, next_b, &rest) && keep(p, kind, member, rest, n);
}

static bool answered(uint16_t *n, uint16_t node)
{
    *n = node;
    return true;
}

static bool enter(struct pool *p, enum kind kind, uint16_t left, uint16_t right, uint16_t *n)
{
    uint16_t drops = kind == OR ? 0 : 3, takes = kind == OR ? 3 : 0;
    switch (kind) {
    case SEQUENCE:
        if (left == 0 || right == 0)
            return answered(n, 0);
        if (left == 1 || right == 1)
            return answered(n, left == 1 ? right : left);
        return keep(p, SEQUENCE, left, right, n);
    case OR:
    case AND:
        if (left == drops || right == drops)
            return answered(n, left == drops ? right : left);
        if (left == takes || right == takes)
            return answered(n, takes);
        return merge(p, kind, left, right, n);
    case STAR:
        if (left < 2)
            return answered(n, 1);
        if (p->nodes[left].kind == STAR)
            return answered(n, left);
        return keep(p, STAR, left, 0, n);
    case NOT:
        if (p->nodes[left].kind == NOT)
            return answered(n, p->nodes[left].left);
        return keep(p, NOT, left, 0, n);
    default:
        return keep(p, kind, left, right, n);
    }
}

static bool derive(struct pool *p, uint16_t node, uint32_t answers, uint16_t *n)
{
    struct node x = p->nodes[node];
    uint16_t l, q, r;
    p->visited++;
    switch ((enum kind)x.kind) {
    case NONE:
    case EMPTY:
        return answered(n, 0);
    case ANY:
        return answered(n, 1);
    case ATOM:
        return answered(n, answers >> x.left & 1);
    case SEQUENCE:
        if (!derive(p, x.left, answers, &l) || !enter(p, SEQUENCE, l, x.right, &q))
            return false;
        if (!p->nodes[x.left].nullable)
            return answered(n, q);
        return derive(p, x.right, answers, &r) && enter(p, OR, q, r, n);
    case OR:
    case AND:
        return derive(p, x.left, answers, &l) && derive(p, x.right, answers, &r) && enter(p, x.kind, l, r, n);
    case STAR:
        return derive(p, x.left, answers, &l) && enter(p, SEQUENCE, l, node, n);
    case NOT:
        return derive(p, x.left, answers, &l) && enter(p, NOT, l, 0, n);
    }
    return false;
}

struct entry {
    size_t place, length;
};

/* sign is the token's byte, 0 at the end; for a bracket, atom is its number. Only the second time are nodes entered. */
struct reader {
    const uint8_t *text;
    size_t length, place, after;
    uint8_t sign;
    uint16_t atom;
    struct entry atoms[MOST_ATOMS];
    size_t atom_count;
    bool entering;
    struct pool *pool;
};

static bool no(struct reader *r, enum question question)
{
    r->pool->no = (struct answer){question, r->place};
    return false;
}

static bool number_atom(struct reader *r, size_t place, size_t length)
{
    for (size_t k = 0; k < r->atom_count; k++)
        if (r->atoms[k].length == length && memcmp(r->text + r->atoms[k].place, r->text + place, length) == 0) {
            r->atom = k;
            return true;
        }
    if (r->atom_count == MOST_ATOMS)
        return no(r, ATOM_COUNT);
    r->atom = r->atom_count;
    r->atoms[r->atom_count++] = (struct entry){place, length};
    return true;
}

/* Goes on to the token behind the present one. */
static bool next(struct reader *r)
{
    r->place = r->after;
    while (r->place < r->length && (r->text[r->place] == ' ' || r->text[r->place] == '\n'))
        r->place++;
    r->after = r->place + 1;
    r->sign = 0;
    if (r->place >= r->length)
        return true;
    uint8_t sign = r->text[r->place];
    if (sign == 0 || strchr("|&!*()01.[", sign) == NULL)
        return no(r, TOKEN_START);
    r->sign = sign;
    if (sign != '[')
        return true;
    const uint8_t *close = memchr(r->text + r->place, ']', r->length - r->place);
    if (close == NULL)
        return no(r, BRACKET_CLOSED);
    r->after = close - r->text + 1;
    return number_atom(r, r->place + 1, r->after - r->place - 2);
}

static bool entered(struct reader *r, enum kind kind, uint16_t left, uint16_t right, uint16_t *n)
{
    return r->entering ? enter(r->pool, kind, left, right, n) : answered(n, 0);
}

static bool read_or(struct reader *r, unsigned levels, uint16_t *n);

static bool read_base(struct reader *r, unsigned levels, uint16_t *n)
{
    uint16_t atom = r->atom;
    switch (r->sign) {
    case '0':
    case '1':
        *n = r->sign - '0';
        return next(r);
    case '.':
        *n = 2;
        return next(r);
    case '[':
        return next(r) && entered(r, ATOM, atom, 0, n);
    case '(':
        if (levels == 0)
            return no(r, LEVELS_OPEN);
        if (!next(r) || !read_or(r, levels - 1, n))
            return false;
        return r->sign == ')' ? next(r) : no(r, GRAMMAR_ALLOWS);
    default:
        return no(r, GRAMMAR_ALLOWS);
    }
}

static bool read_not(struct reader *r, unsigned levels, uint16_t *n)
{
    uint16_t part;
    if (r->sign == '!') {
        if (levels == 0)
            return no(r, LEVELS_OPEN);
        return next(r) && read_not(r, levels - 1, &part) && entered(r, NOT, part, 0, n);
    }
    if (!read_base(r, levels, n))
        return false;
    while (r->sign == '*')
        if (!next(r) || !entered(r, STAR, *n, 0, n))
            return false;
    return true;
}

static bool read_sequence(struct reader *r, unsigned levels, uint16_t *n)
{
    uint16_t right;
    if (!read_not(r, levels, n))
        return false;
    while (r->sign != 0 && strchr("!(01.[", r->sign) != NULL)
        if (!read_not(r, levels, &right) || !entered(r, SEQUENCE, *n, right, n))
            return false;
    return true;
}

static bool read_and(struct reader *r, unsigned levels, uint16_t *n)
{
    uint16_t right;
    if (!read_sequence(r, levels, n))
        return false;
    while (r->sign == '&')
        if (!next(r) || !read_sequence(r, levels, &right) || !entered(r, AND, *n, right, n))
            return false;
    return true;
}

static bool read_or(struct reader *r, unsigned levels, uint16_t *n)
{
    uint16_t right;
    if (!read_and(r, levels, n))
        return false;
    while (r->sign == '|')
        if (!next(r) || !read_and(r, levels, &right) || !entered(r, OR, *n, right, n))
            return false;
    return true;
}

static bool read_once(struct reader *r, bool entering, uint16_t *root)
{
    r->entering = entering;
    r->after = 0;
    return next(r) && read_or(r, MOST_LEVELS, root) && (r->sign == 0 || no(r, GRAMMAR_ALLOWS));
}

static bool read_rule(const uint8_t *text, size_t length, struct pool *p, size_t *atoms, uint16_t *root)
{
    struct reader r = {.text = text, .length = length, .pool = p};
    p->no = (struct answer){NO_QUESTION, 0};
    if (length < 1 || length > MOST_TEXT)
        return no(&r, TEXT_LENGTH);
    if (!read_once(&r, false, root))
        return false;
    *atoms = r.atom_count;
    memcpy(p->nodes, first_nodes, sizeof first_nodes);
    p->count = 4;
    return read_once(&r, true, root);
}

struct walk {
    unsigned long derivatives;
    size_t rows;
    bool full;
};

static struct walk walk_rows(struct pool *p, uint16_t root, size_t atoms)
{
    static uint16_t rows[MOST_ROWS];
    struct walk w = {0, 1, false};
    rows[0] = root;
    for (size_t row = 0; row < w.rows; row++)
        for (size_t k = 0; k <= atoms; k++) {
            uint16_t n;
            if (!derive(p, rows[row], k == 0 ? 0 : (uint32_t)1 << (k - 1), &n)) {
                w.full = true;
                return w;
            }
            w.derivatives++;
            size_t found = 0;
            while (found < w.rows && rows[found] != n)
                found++;
            if (found == w.rows) {
                if (w.rows == MOST_ROWS)
                    return w;
                rows[w.rows++] = n;
            }
        }
    return w;
}

static double nanoseconds(void)
{
    struct timespec t;
    clock_gettime(CLOCK_MONOTONIC, &t);
    return t.tv_sec * 1e9 + t.tv_nsec;
}

/* The bytes of a file, or NULL. */
static uint8_t *read_file(const char *name, size_t *length)
{
    FILE *f = fopen(name, "rb");
    if (f == NULL)
        return NULL;
    fseek(f, 0, SEEK_END);
    *length = ftell(f);
    rewind(f);
    uint8_t *bytes = malloc(*length + 1);
    if (bytes != NULL)
        *length = fread(bytes, 1, *length, f);
    fclose(f);
    return bytes;
}

int main(int argc, char **argv)
{
    size_t length, atoms = 0;
    uint8_t *text = argc == 4 ? read_file(argv[1], &length) : NULL;
    if (text == NULL) {
        fputs("words: FILE COUNT ROUNDS\n", stderr);
        return 1;
    }
    static struct pool pool;
    uint16_t root;
    if (!read_rule(text, length, &pool, &atoms, &root)) {
        printf("refused %d at %zu\n", pool.no.question, pool.no.place);
        return 0;
    }
    size_t read_count = pool.count;
    printf("read root %u nodes %zu atoms %zu\n", root, pool.count, atoms);
    printf("%lu records compared\n", pool.compared);
    pool.visited = pool.compared = 0;
    struct walk w = walk_rows(&pool, root, atoms);
    printf("%lu derivatives rows %zu nodes %zu%s\n", w.derivatives, w.rows, pool.count, w.full ? " full" : "");
    printf("%lu nodes visited %lu records compared\n", pool.visited, pool.compared);

    unsigned long count = strtoul(argv[2], NULL, 10), rounds = strtoul(argv[3], NULL, 10);
    double best_read = 1e300, best_walk = 1e300;
    for (unsigned long n = 0; n < rounds; n++) {
        double start = nanoseconds();
        for (unsigned long i = 0; i < count; i++)
            read_rule(text, length, &pool, &atoms, &root);
        double between = nanoseconds();
        for (unsigned long i = 0; i < count; i++) {
            pool.count = read_count;
            walk_rows(&pool, root, atoms);
        }
        double end = nanoseconds();
        if (between - start < best_read)
            best_read = between - start;
        if (end - between < best_walk)
            best_walk = end - between;
    }
    fprintf(stderr, "%.0f ns a reading, %.0f ns a derivative\n", best_read / count, best_walk / count / w.derivatives);
    free(text);
    return 0;
}
