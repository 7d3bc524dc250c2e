/* bench.c: every call that is timed, against hand-written C of the same job (hand.c) and against libxml2. Prints Markdown.
 *
 *     bench [samples]        the samples of each time, 101 unless given
 *
 * With BENCH_PATTERNS set, the XPath of every pattern goes to standard error.
 *
 * A time is the median of its samples. A sample is a run of calls that takes more than 50 microseconds; the sides of a row take turns, sample by sample, so
 * that what disturbs the machine disturbs all of them. Before a row is timed its results are compared, and the program stops where two differ. */
#include "hand.h"
#include "nishkavel.h"

#include <libxml/parser.h>
#include <libxml/xpath.h>

#include <math.h>
#include <stdio.h>
#include <stdlib.h>
#include <string.h>
#include <sys/wait.h>
#include <time.h>
#include <unistd.h>

enum { N = NISHKAVEL_MAX_NODES, S = NISHKAVEL_MAX_STEPS };
enum { SAMPLES = 1001, SAMPLE_US = 60, ENGINE_US = 300000, ENGINE_SECONDS = 5 };
enum {
    ROW_GOAL = 2,   /* no row takes more than so many times the hand-written C */
    TREE_GOAL = 1,  /* libxml2 on a parsed tree takes more than so many times a call, where there are descendants or conditions */
    BYTES_GOAL = 8, /* libxml2 from bytes takes at least so many times the C entry */
};

static int samples = 101;

static void stop(const char *what)
{
    fprintf(stderr, "bench: %s\n", what);
    exit(1);
}

static uint32_t seed;

static unsigned below(unsigned n)
{
    seed = seed * 1664525u + 1013904223u;
    return (unsigned)((uint64_t)seed * n >> 32);
}

/* ---- documents ---- */

struct document {
    const char *name;
    int nested; /* whether conditions within conditions may have descendant steps; in some documents libxml2 would take hours */
    uint16_t parents[N], labels[N];
    int depth[N], end[N]; /* the depth of node 0 is 1; the nodes below i are i + 1 to end[i] - 1 */
    uint8_t packet[NISHKAVEL_MAX_DOCUMENT_BYTES];
    size_t packet_len;
    char *text; /* the same as XML */
    size_t text_len;
    xmlDocPtr tree;
    xmlXPathContextPtr context;
};

static const char *name_of(unsigned label)
{
    static const char *names[] = {"", "line", "strip", "frame", "pose", "control", "mark", "band", "tile"};
    if (label == 0 || label >= sizeof names / sizeof *names) stop("a label without a name");
    return names[label];
}

static void number_tree(xmlNodePtr node, uintptr_t *next)
{
    for (xmlNodePtr at = node;;) {
        at->_private = (void *)(*next)++;
        if (at->children) {
            at = at->children;
            continue;
        }
        while (at != node && !at->next) at = at->parent;
        if (at == node) return;
        at = at->next;
    }
}

static void finish(struct document *d)
{
    for (int i = 0; i < N; i++) {
        d->depth[i] = i ? d->depth[d->parents[i]] + 1 : 1;
        d->end[i] = i + 1;
    }
    for (int i = N - 1; i > 0; i--)
        if (d->end[d->parents[i]] < d->end[i]) d->end[d->parents[i]] = d->end[i];
    uint8_t *b = d->packet;
    *b++ = 1;
    *b++ = 4 * N >> 8;
    *b++ = 4 * N & 255;
    for (int i = 0; i < N; i++) {
        *b++ = (uint8_t)(d->parents[i] >> 8);
        *b++ = (uint8_t)d->parents[i];
        *b++ = (uint8_t)(d->labels[i] >> 8);
        *b++ = (uint8_t)d->labels[i];
    }
    d->packet_len = (size_t)(b - d->packet);
    char *t = d->text = malloc(N * 32);
    if (!t) stop("no memory");
    for (int i = 0; i < N; i++) {
        int leaf = d->end[i] == i + 1;
        t += sprintf(t, leaf ? "<%s/>" : "<%s>", name_of(d->labels[i]));
        if (leaf)
            for (int a = i; a && d->end[d->parents[a]] == i + 1; a = d->parents[a]) t += sprintf(t, "</%s>", name_of(d->labels[d->parents[a]]));
    }
    d->text_len = (size_t)(t - d->text);
    d->tree = xmlReadMemory(d->text, (int)d->text_len, NULL, NULL, XML_PARSE_HUGE);
    if (!d->tree) stop("libxml2 does not read a document");
    uintptr_t next = 0;
    number_tree(xmlDocGetRootElement(d->tree), &next);
    if (next != N) stop("libxml2 reads another number of nodes");
    d->context = xmlXPathNewContext(d->tree);
}

/* A line of 89 strips, each with a control mark and 12 frames, 9 of them with a pose. */
static void flight_line(struct document *d)
{
    d->name = "flight line";
    d->nested = 1;
    int n = 0;
    d->parents[n] = 65535;
    d->labels[n++] = 1;
    for (int s = 0; s < 89; s++) {
        int strip = n;
        d->parents[n] = 0;
        d->labels[n++] = 2;
        d->parents[n] = (uint16_t)strip;
        d->labels[n++] = 5;
        for (int f = 0; f < 12; f++) {
            d->parents[n] = (uint16_t)strip;
            d->labels[n++] = 3;
            if (f % 4) {
                d->parents[n] = (uint16_t)(n - 1);
                d->labels[n++] = 4;
            }
        }
    }
    if (n != N) stop("the flight line has another size");
    finish(d);
}

enum shape { CHAIN, WIDE, RANDOM };

static void make(struct document *d, const char *name, enum shape shape, unsigned labels, int nested)
{
    d->name = name;
    d->nested = nested;
    seed = 7;
    d->parents[0] = 65535;
    d->labels[0] = 1;
    for (int i = 1; i < N; i++) {
        int up = i - 1;
        if (shape == WIDE) up = 0;
        if (shape == RANDOM)
            for (int c = (int)below(3); c > 0 && up > 0; c--) up = d->parents[up];
        d->parents[i] = (uint16_t)up;
        d->labels[i] = (uint16_t)(1 + below(labels));
    }
    finish(d);
}

/* ---- patterns ---- */

struct pattern {
    int count, out;
    uint8_t parent[S], axis[S];
    uint16_t label[S];
};

static size_t pack(const struct pattern *p, uint8_t *b)
{
    unsigned l = 1 + 4 * (unsigned)p->count;
    *b++ = 1;
    *b++ = (uint8_t)(l >> 8);
    *b++ = (uint8_t)l;
    *b++ = (uint8_t)p->out;
    for (int s = 0; s < p->count; s++) {
        *b++ = p->parent[s];
        *b++ = p->axis[s];
        *b++ = (uint8_t)(p->label[s] >> 8);
        *b++ = (uint8_t)p->label[s];
    }
    return l + 3;
}

static int add(struct pattern *p, int parent, int axis, unsigned label)
{
    p->parent[p->count] = (uint8_t)parent;
    p->axis[p->count] = (uint8_t)axis;
    p->label[p->count] = (uint16_t)label;
    return p->count++;
}

/* The two spellings of a descendant step. libxml2 streams paths of the first without conditions, and runs the second faster where there are conditions. */
enum spelling { SHORT, LONG };

/* XPath of step s and all below it: conditions in brackets, then the main path on. */
static char *spell(const struct pattern *p, int s, const uint8_t *on_main, enum spelling spelling, char *t)
{
    if (on_main[s]) *t++ = '/';
    if (p->axis[s]) t += sprintf(t, "%s", spelling == LONG ? "descendant::" : on_main[s] ? "/" : ".//");
    t += sprintf(t, "%s", name_of(p->label[s]));
    int next = -1;
    for (int c = s + 1; c < p->count; c++) {
        if (p->parent[c] != s) continue;
        if (on_main[c]) {
            next = c;
            continue;
        }
        *t++ = '[';
        t = spell(p, c, on_main, spelling, t);
        *t++ = ']';
    }
    *t = 0;
    return next < 0 ? t : spell(p, next, on_main, spelling, t);
}

static void spell_pattern(const struct pattern *p, enum spelling spelling, char *t)
{
    uint8_t on_main[S] = {0};
    for (int s = p->out;; s = p->parent[s]) {
        on_main[s] = 1;
        if (s == 0) break;
    }
    spell(p, 0, on_main, spelling, t);
}

enum kind { CHILD, DESCENDANT, CONDITIONS };

static const char *kind_names[] = {"child", "descendant", "conditions"};

/* A node of at least the given depth, with something below it where that is asked, or -1. */
static int node_of_depth(const struct document *d, int depth, int inner)
{
    int at = (int)below(N);
    for (int k = 0; k < N; k++, at = (at + 1) % N)
        if (d->depth[at] >= depth && (!inner || d->end[at] > at + 1)) return at;
    return -1;
}

/* A pattern of so many steps taken from the document itself, so that it has answers. 0 where the document is not deep enough, or the nodes drawn have too
 * little below. */
static int draw(const struct document *d, enum kind kind, int steps, struct pattern *p)
{
    int path[N], length = 0;
    p->count = 0;
    int main = kind == CONDITIONS ? (steps < 8 ? steps / 2 : 3) : steps, leaf;
    for (;; main--) {
        if (main == 0) return 0;
        leaf = node_of_depth(d, main, kind == CONDITIONS && main == 1);
        if (leaf >= 0) break;
        if (kind != CONDITIONS) return 0;
    }
    if (kind == CHILD)
        while (d->depth[leaf] > steps) leaf = d->parents[leaf];
    for (int i = leaf; i != 65535; i = d->parents[i]) path[length++] = i;
    /* the nodes of the main path: the last, and so many of those above it */
    int node[S], parent[S], axis[S], count = 0, need = main;
    for (int k = length - 1; k >= 0; k--) {
        if (k > 0 && (int)below((unsigned)k) >= need - 1) continue;
        int up = count - 1;
        node[count] = path[k];
        parent[count] = up;
        axis[count] = up < 0 ? k != length - 1 || kind == DESCENDANT : kind == DESCENDANT || d->parents[path[k]] != node[up];
        count++;
        need--;
    }
    int out = count - 1, level[S] = {0};
    if (need != 0) stop("a path of another length");
    /* the conditions: nodes below those that are there, no more than three deep */
    for (int tries = 0; count < steps; tries++) {
        if (tries > 10000) return 0;
        int up = (int)below((unsigned)count), room = d->end[node[up]] - node[up] - 1;
        if (room == 0 || level[up] >= 3) continue;
        int at = node[up] + 1 + (int)below((unsigned)(room < 24 ? room : 24));
        if (d->parents[at] != node[up] && level[up] && !d->nested) continue;
        node[count] = at;
        parent[count] = up;
        axis[count] = d->parents[at] != node[up];
        level[count] = level[up] + 1;
        count++;
    }
    /* in document order, the step that leads to the output last among its siblings */
    int stack[S + 1], top = 0, place[S];
    stack[top++] = 0;
    while (top) {
        int s = stack[--top];
        place[s] = add(p, s ? place[parent[s]] : 255, axis[s], d->labels[node[s]]);
        if (s < out) stack[top++] = s + 1;
        for (int c = count - 1; c > out; c--)
            if (parent[c] == s) stack[top++] = c;
    }
    p->out = place[out];
    return 1;
}

static int take(const struct document *d, enum kind kind, int steps, struct pattern *p)
{
    seed = (uint32_t)steps;
    for (int tries = 0; tries < 100; tries++)
        if (draw(d, kind, steps, p)) return 1;
    return 0;
}

/* ---- time ---- */

static double now(void)
{
    struct timespec t;
    clock_gettime(CLOCK_MONOTONIC, &t);
    return (double)t.tv_sec * 1e6 + (double)t.tv_nsec * 1e-3;
}

static int by_size(const void *a, const void *b)
{
    double x = *(const double *)a, y = *(const double *)b;
    return (x > y) - (x < y);
}

static double median(double *t, int count)
{
    qsort(t, (size_t)count, sizeof *t, by_size);
    return t[count / 2];
}

typedef int64_t job(void);

static volatile int64_t sink;

static double sample(job *f, int calls)
{
    double start = now();
    for (int k = 0; k < calls; k++) sink = f();
    return (now() - start) / calls;
}

static int calls_for(job *f)
{
    int calls = 1;
    sink = f();
    while (sample(f, calls) * calls < SAMPLE_US) calls *= 2;
    return calls;
}

/* The medians of jobs that take turns. */
static void take_turns(job **jobs, int count, double *medians)
{
    static double t[4][SAMPLES];
    int calls[4];
    for (int j = 0; j < count; j++) calls[j] = calls_for(jobs[j]);
    for (int k = 0; k < samples; k++)
        for (int j = 0; j < count; j++) t[j][k] = sample(jobs[j], calls[j]);
    for (int j = 0; j < count; j++) medians[j] = median(t[j], samples);
}

/* ---- summaries ---- */

/* Some rows by name, each with its figure. */
struct rows {
    int count;
    char text[16384];
};

static void name_row(struct rows *r, const char *where, double figure)
{
    size_t used = strlen(r->text);
    int more = snprintf(r->text + used, sizeof r->text - used, "%s%s (%.2f)", used ? "; " : "", where, figure);
    if (more < 0 || used + (size_t)more >= sizeof r->text) stop("no room for the names of rows");
    r->count++;
}

/* The ratios to hand-written C of one kind of call. */
struct summary {
    double logs, worst;
    int rows;
    char where[128];
    struct rows over;
};

/* The least factor by which libxml2 takes longer. */
struct least {
    double factor;
    char where[128];
};

static struct summary lists, packets, containment, rewriting;
static struct least least_tree = {1e9, ""}, least_bytes = {1e9, ""}; /* the first over the rows with descendants or conditions */
static struct rows slower;                                           /* than libxml2 on a parsed tree */
static int slower_by_hand;                                           /* how many of these the hand-written C is slower on too */
static int unfinished;                                               /* the rows that libxml2 takes too long for */
static int misses;

static void count_in(struct summary *s, double ratio, const char *where)
{
    s->logs += log(ratio);
    s->rows++;
    if (ratio > ROW_GOAL) name_row(&s->over, where, ratio);
    if (ratio > s->worst) {
        s->worst = ratio;
        snprintf(s->where, sizeof s->where, "%s", where);
    }
}

static void note_least(struct least *l, double factor, const char *where)
{
    if (factor >= l->factor) return;
    l->factor = factor;
    snprintf(l->where, sizeof l->where, "%s", where);
}

/* ---- answers ---- */

static struct document *doc;
static uint8_t pattern[NISHKAVEL_MAX_PATTERN_BYTES];
static size_t pattern_len;
static uint16_t list[2][N];
static uint64_t work[2][2 * N];
static uint8_t room[2][2 * N];
static xmlXPathCompExprPtr expression;

static int64_t lists_proved(void) { return nishkavel_list_answers(doc->parents, N, doc->labels, N, pattern, pattern_len, list[0], N, work[0], 2 * N); }

static int64_t lists_hand(void) { return hand_list_answers(doc->parents, N, doc->labels, N, pattern, pattern_len, list[1], N, work[1], 2 * N); }

static int64_t packets_proved(void) { return nishkavel_answers(doc->packet, doc->packet_len, pattern, pattern_len, room[0], sizeof room[0]); }

static int64_t packets_hand(void) { return hand_answers(doc->packet, doc->packet_len, pattern, pattern_len, room[1], sizeof room[1]); }

static int64_t engine_tree(void)
{
    xmlXPathObjectPtr found = xmlXPathCompiledEval(expression, doc->context);
    if (!found || found->type != XPATH_NODESET) stop("libxml2 gives no nodes");
    int64_t count = found->nodesetval ? found->nodesetval->nodeNr : 0;
    xmlXPathFreeObject(found);
    return count;
}

static int64_t engine_bytes(void)
{
    xmlDocPtr tree = xmlReadMemory(doc->text, (int)doc->text_len, NULL, NULL, XML_PARSE_HUGE);
    xmlXPathContextPtr context = xmlXPathNewContext(tree);
    xmlXPathObjectPtr found = xmlXPathCompiledEval(expression, context);
    int64_t count = found && found->nodesetval ? found->nodesetval->nodeNr : 0;
    xmlXPathFreeObject(found);
    xmlXPathFreeContext(context);
    xmlFreeDoc(tree);
    return count;
}

/* How long libxml2 takes, or -1 where that is more than a row may take; tried in another process. */
static double engine_time(void)
{
    fflush(stdout);
    double start = now();
    pid_t child = fork();
    if (child < 0) stop("no process");
    if (child == 0) {
        alarm(ENGINE_SECONDS);
        engine_tree();
        _exit(0);
    }
    int status = 0;
    waitpid(child, &status, 0);
    return WIFEXITED(status) && WEXITSTATUS(status) == 0 ? now() - start : -1;
}

static void compare_engine(int64_t count)
{
    xmlXPathObjectPtr found = xmlXPathCompiledEval(expression, doc->context);
    if (!found || (found->nodesetval ? found->nodesetval->nodeNr : 0) != count) stop("libxml2 gives another number of answers");
    for (int64_t k = 0; k < count; k++)
        if ((uintptr_t)found->nodesetval->nodeTab[k]->_private != list[0][k]) stop("libxml2 gives other answers");
    xmlXPathFreeObject(found);
}

static void answers_row(struct document *d, const struct pattern *p, enum kind kind)
{
    doc = d;
    pattern_len = pack(p, pattern);
    char text[2][64 * S], where[128];
    xmlXPathCompExprPtr spellings[2];
    for (enum spelling k = SHORT; k <= LONG; k++) {
        spell_pattern(p, k, text[k]);
        spellings[k] = xmlXPathCompile((const xmlChar *)text[k]);
        if (!spellings[k]) stop("libxml2 does not read an expression");
    }
    snprintf(where, sizeof where, "%s, %s, %d steps", d->name, kind_names[kind], p->count);

    memset(list, 0xEE, sizeof list);
    memset(work, 0xEE, sizeof work);
    memset(room, 0xEE, sizeof room);
    int64_t count = lists_hand();
    if (count < 1 || lists_proved() != count || memcmp(list[0], list[1], sizeof list[0]) || memcmp(work[0], work[1], sizeof work[0]))
        stop("the answers from lists differ");
    if (packets_hand() != count || packets_proved() != count || memcmp(room[0], room[1], sizeof room[0])) stop("the answers from packets differ");
    for (int64_t k = 0; k < count; k++)
        if (room[0][2 * k] * 256 + room[0][2 * k + 1] != list[0][k]) stop("the answers from packets are not those from lists");

    job *ours[] = {lists_proved, lists_hand, packets_proved, packets_hand};
    double t[4];
    take_turns(ours, 4, t);

    /* libxml2 has the spelling that it runs faster */
    double tree = 0, bytes = 0, trial[2];
    for (enum spelling k = SHORT; k <= LONG; k++) {
        expression = spellings[k];
        trial[k] = engine_time();
        if (trial[k] < 0) continue;
        compare_engine(count);
        if (trial[k] > ENGINE_US / 10) continue;
        int calls = calls_for(engine_tree);
        for (int j = 0; j < 5; j++) {
            double time = sample(engine_tree, calls);
            if (time < trial[k]) trial[k] = time;
        }
    }
    enum spelling best = trial[LONG] < 0 || (trial[SHORT] >= 0 && trial[SHORT] <= trial[LONG]) ? SHORT : LONG;
    expression = spellings[best];
    if (getenv("BENCH_PATTERNS")) fprintf(stderr, "%s: %s\n", where, text[best]);
    if (trial[best] >= 0) {
        static double e[2][SAMPLES];
        int k = 0, calls = (int)(SAMPLE_US / trial[best]) + 1;
        for (double start = now(); k < samples && (k == 0 || now() - start < ENGINE_US); k++) {
            e[0][k] = sample(engine_tree, calls);
            e[1][k] = sample(engine_bytes, 1);
            if (sink != count) stop("libxml2 gives another number of answers from bytes");
        }
        tree = median(e[0], k);
        bytes = median(e[1], k);
    }
    for (enum spelling k = SHORT; k <= LONG; k++) xmlXPathFreeCompExpr(spellings[k]);

    double by_lists = t[0] / t[1], by_packets = t[2] / t[3];
    count_in(&lists, by_lists, where);
    count_in(&packets, by_packets, where);
    char missed[64] = "";
    if (by_lists > ROW_GOAL) strcat(missed, " lists");
    if (by_packets > ROW_GOAL) strcat(missed, " packets");
    printf("| %s | %s | %d | %lld | %.1f | %.1f | %.2f | %.1f | %.1f | %.2f |", d->name, kind_names[kind], p->count, (long long)count, t[0], t[1], by_lists,
           t[2], t[3], by_packets);
    if (tree > 0) {
        double factor = tree / t[0], factor_bytes = bytes / t[2];
        if (factor < TREE_GOAL) {
            name_row(&slower, where, factor);
            slower_by_hand += tree < t[1];
        }
        if (kind != CHILD) note_least(&least_tree, factor, where);
        if (kind != CHILD && factor <= TREE_GOAL) strcat(missed, " libxml2");
        note_least(&least_bytes, factor_bytes, where);
        if (factor_bytes < BYTES_GOAL) strcat(missed, " bytes");
        printf(" %.1f | %.*f | %.1f | %.1f |", tree, factor < 10 ? 2 : 0, factor, bytes, factor_bytes);
    } else {
        unfinished++;
        printf(" over %d s | - | over %d s | - |", ENGINE_SECONDS, ENGINE_SECONDS);
    }
    printf("%s |\n", missed);
    misses += missed[0] != 0;
    fflush(stdout);
}

/* ---- containment and rewriting ---- */

static uint8_t first[NISHKAVEL_MAX_PATTERN_BYTES], second[NISHKAVEL_MAX_PATTERN_BYTES], result[2][600];
static size_t first_len, second_len;

static int64_t contained_proved(void) { return nishkavel_contained(first, first_len, second, second_len, result[0], sizeof result[0]); }

static int64_t contained_hand(void) { return hand_contained(first, first_len, second, second_len, result[1], sizeof result[1]); }

static int64_t rewrite_proved(void) { return nishkavel_rewrite(first, first_len, second, second_len, result[0], sizeof result[0]); }

static int64_t rewrite_hand(void) { return hand_rewrite(first, first_len, second, second_len, result[1], sizeof result[1]); }

static void pair_row(const char *what, const struct pattern *a, const struct pattern *b, int rewrite, int expected)
{
    first_len = pack(a, first);
    second_len = pack(b, second);
    memset(result, 0xEE, sizeof result);
    job *sides[] = {rewrite ? rewrite_proved : contained_proved, rewrite ? rewrite_hand : contained_hand};
    int64_t answer = sides[1]();
    if (sides[0]() != answer || memcmp(result[0], result[1], sizeof result[0])) stop(rewrite ? "a rewriting differs" : "a containment differs");
    if (answer < 0 || (answer > 0) != expected) {
        fprintf(stderr, "bench: %s\n", what);
        stop("a row has another answer than it says");
    }
    double t[2];
    take_turns(sides, 2, t);
    double ratio = t[0] / t[1];
    const char *said = rewrite ? (answer ? "handed over" : "none") : (answer ? "contained" : "apart");
    char where[128], missed[16] = "";
    snprintf(where, sizeof where, "%s, %d %s %d, %s", what, a->count, rewrite ? "by" : "in", b->count, said);
    count_in(rewrite ? &rewriting : &containment, ratio, where);
    if (ratio > ROW_GOAL) snprintf(missed, sizeof missed, " over %d", ROW_GOAL);
    printf("| %s | %d %s %d | %s | %.2f | %.2f | %.2f |%s |\n", what, a->count, rewrite ? "by" : "in", b->count, said, t[0], t[1], ratio, missed);
    misses += ratio > ROW_GOAL;
    fflush(stdout);
}

enum form { LINE, STAR, CATERPILLAR, BUSH };

/* A pattern of a form: a caterpillar is a chain with a leaf at each of its steps, a bush has branches of three steps. Its axes are all child or, past step
 * 0, all descendant; its labels all 1, or 1, 2, 3 and so on. The output is the end of the chain, or step 0. */
static struct pattern of_form(enum form form, int steps, int axis, int distinct)
{
    struct pattern p;
    p.count = 0;
    p.out = 0;
    for (int s = 0; s < steps; s++) {
        int up = s - 1;
        if (s == 0) up = 255;
        else if (form == STAR) up = 0;
        else if (form == CATERPILLAR) up = s % 2 ? s - 1 : s - 2;
        else if (form == BUSH) up = s % 3 == 1 ? 0 : s - 1;
        add(&p, up, s ? axis : 0, distinct ? (unsigned)s + 1 : 1);
    }
    if (form == LINE) p.out = steps - 1;
    if (form == CATERPILLAR) p.out = (steps - 1) / 2 * 2;
    return p;
}

static const char *form_names[] = {"chain", "star", "caterpillar", "bush"};

static void containment_rows(int steps)
{
    char what[128];
    for (int distinct = 0; distinct < 2; distinct++)
        for (enum form form = LINE; form <= BUSH; form++) {
            struct pattern narrow = of_form(form, steps, 0, distinct), wide = of_form(form, steps, 1, distinct);
            snprintf(what, sizeof what, "%s, %s", form_names[form], distinct ? "distinct labels" : "one label");
            pair_row(what, &narrow, &wide, 0, 1);
            pair_row(what, &wide, &narrow, 0, 0);
            if (form != CATERPILLAR) continue;
            /* one leaf at the far end lacks its label: everything else fits first */
            struct pattern odd = narrow;
            odd.label[steps - 1] = 200;
            snprintf(what, sizeof what, "%s, %s, last label other", form_names[form], distinct ? "distinct labels" : "one label");
            pair_row(what, &narrow, &odd, 0, 0);
        }
}

/* A view that the query can be served from: the query down to the step `cut` of its main path, with all conditions on the way. */
static struct pattern view_of(const struct pattern *q, int cut)
{
    struct pattern v;
    int place[S], gone[S], next = q->out;
    while (next != cut && q->parent[next] != cut) next = q->parent[next];
    v.count = 0;
    for (int s = 0; s < q->count; s++) {
        gone[s] = s > cut && (s == next || gone[q->parent[s]]);
        if (!gone[s]) place[s] = add(&v, s ? place[q->parent[s]] : 255, q->axis[s], q->label[s]);
    }
    v.out = place[cut];
    return v;
}

static void rewriting_rows(void)
{
    struct pattern q, v;
    char what[128];
    for (int distinct = 0; distinct < 2; distinct++)
        for (enum form form = LINE; form <= BUSH; form++) {
            q = of_form(form, 32, 1, distinct);
            snprintf(what, sizeof what, "%s, %s, the query itself", form_names[form], distinct ? "distinct labels" : "one label");
            pair_row(what, &q, &q, 1, 1);
            if (form == STAR || form == BUSH) continue;
            v = view_of(&q, q.out / 4 * 2);
            snprintf(what, sizeof what, "%s, %s, cut in the middle", form_names[form], distinct ? "distinct labels" : "one label");
            pair_row(what, &q, &v, 1, 1);
        }
    /* the view asks for one thing more than the query */
    for (enum form form = STAR; form <= BUSH; form++) {
        v = q = of_form(form, 32, 1, 0);
        v.label[31] = 200;
        snprintf(what, sizeof what, "%s, one label, one condition more in the view", form_names[form]);
        pair_row(what, &q, &v, 1, 0);
    }
    /* the query asks for one thing more above the cut */
    q = of_form(CATERPILLAR, 32, 1, 0);
    q.label[1] = 200;
    v = of_form(CATERPILLAR, 32, 1, 0);
    pair_row("caterpillar, one label, one condition more in the query", &q, &v, 1, 0);

    /* //line[mark]//strip[control]/frame[pose][mark][control] by //line[mark]//strip[control] */
    q.count = 0;
    int line = add(&q, 255, 1, 1);
    add(&q, line, 0, 6);
    int strip = add(&q, line, 1, 2);
    add(&q, strip, 0, 5);
    int frame = q.out = add(&q, strip, 0, 3);
    add(&q, frame, 0, 4);
    add(&q, frame, 0, 6);
    add(&q, frame, 0, 5);
    v = view_of(&q, strip);
    pair_row("flight line", &q, &v, 1, 1);
    struct pattern w = v;
    w.label[3] = 7;
    pair_row("flight line", &q, &w, 1, 0);

    /* //strip//frame by itself and by //strip/frame */
    q.count = 0;
    strip = add(&q, 255, 1, 2);
    q.out = add(&q, strip, 1, 3);
    v = q;
    pair_row("flight line", &q, &v, 1, 1);
    v.axis[1] = 0;
    pair_row("flight line", &q, &v, 1, 0);
}

/* ---- all ---- */

static const char *met_or_missed(int met) { return met ? "met" : "missed"; }

static void print_summary(const char *what, const struct summary *s, double mean_goal)
{
    double mean = exp(s->logs / s->rows);
    printf("- %s, %d rows: geometric mean %.2f (goal %g: %s); worst %.2f, %s; ", what, s->rows, mean, mean_goal, met_or_missed(mean <= mean_goal), s->worst,
           s->where);
    if (s->over.count == 0) printf("none over %d (goal none: met)\n", ROW_GOAL);
    else printf("%d over %d (goal none: missed): %s\n", s->over.count, ROW_GOAL, s->over.text);
    misses += mean > mean_goal;
}

/* What libxml2's times come to. */
static void print_engine(void)
{
    printf("- libxml2's compiled expression on a parsed tree: least factor on the rows with descendants or conditions %.2f (goal more than %d: %s), %s; ",
           least_tree.factor, TREE_GOAL, met_or_missed(least_tree.factor > TREE_GOAL), least_tree.where);
    if (slower.count == 0) printf("libxml2 is faster on no row\n");
    else printf("libxml2 is faster on %d of all rows, and on %d of these faster than the hand-written C too: %s\n", slower.count, slower_by_hand, slower.text);
    printf("- libxml2 from bytes: least factor %.1f (goal %d: %s), %s\n", least_bytes.factor, BYTES_GOAL, met_or_missed(least_bytes.factor >= BYTES_GOAL),
           least_bytes.where);
    if (unfinished) printf("- Rows that libxml2 did not finish in %d s, without a factor: %d\n", ENGINE_SECONDS, unfinished);
}

static void quiet(void *context, const char *format, ...)
{
    (void)context;
    (void)format;
}

int main(int argc, char **argv)
{
    if (argc > 1) samples = atoi(argv[1]);
    if (samples < 1 || samples > SAMPLES) stop("between 1 and 1001 samples");
    xmlInitParser();
    xmlSetGenericErrorFunc(NULL, quiet);

    static struct document documents[5];
    flight_line(&documents[0]);
    make(&documents[1], "deep chain", CHAIN, 8, 0);
    make(&documents[2], "wide and flat", WIDE, 8, 1);
    make(&documents[3], "random", RANDOM, 8, 1);
    make(&documents[4], "one label", RANDOM, 1, 0);

    printf("## Answers, documents of 2,048 nodes\n\n");
    printf("Times in microseconds. The ratios are to the hand-written C beside them, the factors say how many times libxml2's time is "
           "that of Nishkavel from lists (parsed tree) "
           "and from packets (bytes).\n\n");
    printf("| document | pattern | steps | answers | lists | by hand | ratio | packets | by hand | ratio "
           "| libxml2, parsed tree | factor | libxml2, bytes | factor | missed |\n");
    printf("|---|---|--:|--:|--:|--:|--:|--:|--:|--:|--:|--:|--:|--:|---|\n");
    for (int d = 0; d < 5; d++)
        for (enum kind kind = CHILD; kind <= CONDITIONS; kind++)
            for (int steps = 2; steps <= S; steps *= 2) {
                struct pattern p;
                if (d == 0 && kind == CONDITIONS && steps <= 4) {
                    /* //frame[pose] and //strip[control]//frame[pose] */
                    int up = 255;
                    p.count = 0;
                    if (steps == 4) {
                        up = add(&p, up, 1, 2);
                        add(&p, up, 0, 5);
                    }
                    p.out = add(&p, up, 1, 3);
                    add(&p, p.out, 0, 4);
                } else if (!take(&documents[d], kind, steps, &p)) {
                    continue;
                }
                answers_row(&documents[d], &p, kind);
            }

    printf("\n## Containment\n\nTimes in microseconds.\n\n"
           "| patterns | steps | answer | Nishkavel | by hand | ratio | missed |\n|---|---|---|--:|--:|--:|---|\n");
    containment_rows(64);
    containment_rows(32);

    printf("\n## Rewriting\n\nTimes in microseconds.\n\n| patterns | steps | answer | Nishkavel | by hand | ratio | missed |\n|---|---|---|--:|--:|--:|---|\n");
    rewriting_rows();

    printf("\n## Summary\n\n");
    print_summary("Answers from lists", &lists, 1.5);
    print_summary("The C entry from packets", &packets, ROW_GOAL);
    print_summary("Containment", &containment, ROW_GOAL);
    print_summary("Rewriting", &rewriting, ROW_GOAL);
    print_engine();
    printf("- Rows that miss a goal, and means that do: %d\n", misses);
    return 0;
}
