/* xpath.c: the answers of a pattern against libxml2: the document as XML, the pattern as an XPath 1.0 expression, the same nodes in document order.
 *
 *     xpath write SEED COUNT > cases          the packets of so many cases
 *     answer_packets < cases > answers        what nishkavel_answers gives for them
 *     xpath check SEED COUNT < answers        the same cases by libxml2, compared
 *
 * Label 7 is the element l7. A step is written as a child or a descendant step, a condition in brackets or as the rest of a path, by turns in each of the ways
 * that XPath has for it.
 */
#include "generate.h"

#include <inttypes.h>
#include <libxml/parser.h>
#include <libxml/xpath.h>
#include <libxml/xpathInternals.h>
#include <stdarg.h>
#include <stdio.h>
#include <stdlib.h>
#include <string.h>

static struct source source, *const r = &source;
static uint64_t seed;
static char text[64 * NODE_ROWS];
static size_t length;

/* Adds to the text. */
static void add(const char *form, ...)
{
    va_list rest;
    va_start(rest, form);
    length += (size_t)vsnprintf(text + length, sizeof text - length, form, rest);
    va_end(rest);
    if (length >= sizeof text) fprintf(stderr, "xpath: a text is too long\n"), exit(1);
}

/* ---- a document as XML ---- */

/* Closes elements from node i up to, and without, node `up`. */
static void close_elements(const struct document *d, size_t i, size_t up)
{
    while (i != up) {
        add("</l%u>", d->label[i]);
        i = d->parent[i];
    }
}

/* Start tags in the order of the nodes; a node's element is closed when one comes that is not below it. */
static void write_xml(const struct document *d)
{
    length = 0;
    for (size_t i = 0; i < d->n; i++) {
        if (i > 0) close_elements(d, i - 1, d->parent[i]);
        add("<l%u>", d->label[i]);
    }
    close_elements(d, d->n - 1, 65535);
}

/* Numbers the elements in document order. */
static void number_elements(xmlNode *node, size_t *next)
{
    for (; node; node = node->next) {
        node->_private = (void *)(uintptr_t)(*next)++;
        number_elements(node->children, next);
    }
}

/* ---- a pattern as an expression ---- */

/* The sign before a step: a slash or what stands for a descendant. At the front of a condition there is no slash, and a full stop before two. */
static void write_axis(unsigned axis, int front)
{
    if (axis == 0) add(front ? (chance(r, 20) ? "child::" : "") : "/");
    else if (front) add(chance(r, 50) ? ".//" : "descendant::");
    else add(chance(r, 50) ? "//" : "/descendant::");
}

/* The last step that hangs on s, other than `but`; 0 if there is none. */
static size_t last_child(const struct pattern *p, size_t s, size_t but)
{
    for (size_t t = p->n; t-- > s + 1;)
        if (p->parent[t] == s && t != but) return t;
    return 0;
}

/* The name of step s and its conditions, but for the step on the main path. A condition's own last step may go on as a path. */
static void write_step(const struct pattern *p, size_t s, size_t but, int in_condition)
{
    size_t path = in_condition && chance(r, 50) ? last_child(p, s, but) : 0;
    add("l%u", p->label[s]);
    for (size_t t = s + 1; t < p->n; t++) {
        if (p->parent[t] != s || t == but || t == path) continue;
        add("[");
        write_axis(p->axis[t], 1);
        write_step(p, t, p->n, 1);
        add("]");
    }
    if (path == 0) return;
    write_axis(p->axis[path], 0);
    write_step(p, path, p->n, 1);
}

/* The main path with its conditions. */
static void write_xpath(const struct pattern *p)
{
    size_t path[STEPS], steps = main_path(p, path);
    length = 0;
    for (size_t k = 0; k < steps; k++) {
        write_axis(p->axis[path[k]], 0);
        write_step(p, path[k], k + 1 < steps ? path[k + 1] : p->n, 0);
    }
}

/* ---- cases ---- */

/* A document and what hangs together with it: many small ones, some of up to 2,048 nodes with short patterns. */
static void make_case(uint64_t k, struct document *d, struct pattern *p)
{
    struct palette c;
    sow(r, seed * 1000003u + k);
    make_palette(r, &c);
    size_t kind = below(r, 100);
    size_t steps = between(r, 1, kind < 60 ? 7 : kind < 95 ? 4 : 3);
    size_t nodes = kind < 60 ? between(r, 1, 25) : kind < 95 ? between(r, 26, 120) : kind < 99 ? between(r, 121, 500) : between(r, 501, 2048);
    for (size_t l = c.count; kind >= 95 && l < 16; l++) c.label[c.count++] = (uint16_t)(3 * l + 2);
    make_document(r, &c, nodes, d);
    if (chance(r, 40)) make_pattern(r, &c, steps, p);
    else make_met(r, d, steps, p);
}

/* All cases as packets. */
static int write_cases(uint64_t count)
{
    static struct document d;
    static struct pattern p;
    static uint8_t bytes[DOCUMENT_ROOM];
    for (uint64_t k = 0; k < count; k++) {
        make_case(k, &d, &p);
        fwrite(bytes, 1, put_document(&d, bytes), stdout);
        fwrite(bytes, 1, put_pattern(&p, bytes), stdout);
    }
    return fflush(stdout) != 0;
}

/* The answers of the next case from standard input; -1 if they are not there. */
static int read_answers(uint16_t *list)
{
    uint8_t head[2], bytes[2 * NODES];
    if (fread(head, 1, 2, stdin) != 2) return -1;
    int count = head[0] * 256 + head[1];
    if (count > NODES || fread(bytes, 2, (size_t)count, stdin) != (size_t)count) return -1;
    for (int k = 0; k < count; k++) list[k] = (uint16_t)(bytes[2 * k] * 256 + bytes[2 * k + 1]);
    return count;
}

/* Are these the nodes of libxml2's set, in document order? */
static int same(xmlNodeSet *set, const uint16_t *list, int count)
{
    int found = set ? set->nodeNr : 0;
    if (found != count) return 0;
    if (set) xmlXPathNodeSetSort(set);
    for (int k = 0; k < count; k++)
        if ((uintptr_t)set->nodeTab[k]->_private != list[k]) return 0;
    return 1;
}

/* One case by libxml2. */
static int check_case(uint64_t k, const uint16_t *list, int count)
{
    static struct document d;
    static struct pattern p;
    size_t next = 0;
    make_case(k, &d, &p);
    write_xml(&d);
    xmlDoc *tree = xmlReadMemory(text, (int)length, "case.xml", NULL, XML_PARSE_HUGE);
    if (!tree) return fprintf(stderr, "xpath: libxml2 did not read case %" PRIu64 "\n", k), 0;
    number_elements(xmlDocGetRootElement(tree), &next);
    write_xpath(&p);
    xmlXPathContext *context = xmlXPathNewContext(tree);
    xmlXPathObject *result = xmlXPathEvalExpression((const xmlChar *)text, context);
    int right = next == d.n && result && result->type == XPATH_NODESET && same(result->nodesetval, list, count);
    if (!right) {
        printf("xpath: MISMATCH, seed %" PRIu64 ", case %" PRIu64 ": %s\n  libxml2:", seed, k, text);
        for (int i = 0; result && result->nodesetval && i < result->nodesetval->nodeNr; i++)
            printf(" %zu", (size_t)(uintptr_t)result->nodesetval->nodeTab[i]->_private);
        printf("\n  nishkavel_answers:");
        for (int i = 0; i < count; i++) printf(" %u", list[i]);
        write_xml(&d);
        printf("\n  %s\n", text);
    }
    xmlXPathFreeObject(result);
    xmlXPathFreeContext(context);
    xmlFreeDoc(tree);
    return right;
}

/* All cases; how many had answers is told too. */
static int check_cases(uint64_t count)
{
    uint16_t list[NODES];
    uint64_t answered = 0;
    for (uint64_t k = 0; k < count; k++) {
        int answers = read_answers(list);
        if (answers < 0) return printf("xpath: the answers of case %" PRIu64 " are not there\n", k), 1;
        if (!check_case(k, list, answers)) return 1;
        answered += answers > 0;
    }
    printf("xpath: %" PRIu64 " comparisons with libxml2 %s, %" PRIu64 " with answers, seed %" PRIu64 ": all equal\n", count, LIBXML_DOTTED_VERSION, answered,
           seed);
    return 0;
}

int main(int argc, char **argv)
{
    if (argc != 4) return fprintf(stderr, "xpath write|check SEED COUNT\n"), 2;
    seed = strtoull(argv[2], NULL, 0);
    uint64_t count = strtoull(argv[3], NULL, 0);
    return strcmp(argv[1], "write") == 0 ? write_cases(count) : check_cases(count);
}
