// Measures the check, the cadena and the fair copy of invoices, and beside them the cadena by libxml2 and libxslt where those are linked.
#define _POSIX_C_SOURCE 200809L
#include <stddef.h>
#include <stdint.h>
#include <stdio.h>
#include <stdlib.h>
#include <string.h>
#include <time.h>

#ifdef WITH_LIBXSLT
#include <libxml/parser.h>
#include <libxslt/transform.h>
#include <libxslt/xslt.h>
#include <libxslt/xsltInternals.h>
#include <libxslt/xsltutils.h>
#endif

// The library: a slice is a pointer and then a length.
uint8_t dunshebi_check(const uint8_t *document, size_t length);
size_t dunshebi_cadena(const uint8_t *document, size_t length, uint8_t *room, size_t size);
size_t dunshebi_fair_copy(const uint8_t *document, size_t length, uint8_t *room, size_t size);

enum { LONGEST = 65536, ROUNDS = 150, MOST_INVOICES = 8 };

// A round calls a measured function for at least this many nanoseconds, by a count found beforehand. Rounds are short and many, so that
// on a busy machine some of them run undisturbed.
static const double ROUND_TIME = 2e6;

struct invoice {
    const char *path;
    size_t length;
    uint8_t bytes[LONGEST];
};

struct measure {
    const char *name;
    size_t (*run)(const struct invoice *invoice);
};

static struct invoice invoices[MOST_INVOICES];
static uint8_t room[LONGEST];

// What the measured calls answered, so that no call is left out by the compiler.
static volatile size_t answered;

static void fail(const char *what, const char *path)
{
    fprintf(stderr, "bench: %s: %s\n", path, what);
    exit(1);
}

static void read_invoice(struct invoice *invoice, const char *path)
{
    FILE *file = fopen(path, "rb");
    if (file == NULL)
        fail("cannot be read", path);
    invoice->path = path;
    invoice->length = fread(invoice->bytes, 1, LONGEST, file);
    if (fgetc(file) != EOF)
        fail("has over 65,536 bytes", path);
    fclose(file);
}

static size_t check(const struct invoice *invoice)
{
    return dunshebi_check(invoice->bytes, invoice->length);
}

static size_t cadena(const struct invoice *invoice)
{
    return dunshebi_cadena(invoice->bytes, invoice->length, room, sizeof room);
}

static size_t fair_copy(const struct invoice *invoice)
{
    return dunshebi_fair_copy(invoice->bytes, invoice->length, room, sizeof room);
}

static size_t check_then_cadena(const struct invoice *invoice)
{
    return check(invoice) + cadena(invoice);
}

#ifdef WITH_LIBXSLT
static xsltStylesheetPtr stylesheet;

static xmlDocPtr parsed(const struct invoice *invoice)
{
    return xmlReadMemory((const char *)invoice->bytes, (int)invoice->length, NULL, NULL, XML_PARSE_NONET | XML_PARSE_COMPACT);
}

static size_t xml_parse(const struct invoice *invoice)
{
    xmlDocPtr document = parsed(invoice);
    size_t made = document != NULL;
    xmlFreeDoc(document);
    return made;
}

// The cadena by the stylesheet, as a string that the caller frees.
static xmlChar *xslt_text(const struct invoice *invoice, int *length)
{
    xmlChar *text = NULL;
    xmlDocPtr document = parsed(invoice);
    xmlDocPtr result = xsltApplyStylesheet(stylesheet, document, NULL);
    if (result == NULL || xsltSaveResultToString(&text, length, result, stylesheet) != 0)
        fail("the stylesheet gave nothing", invoice->path);
    xmlFreeDoc(result);
    xmlFreeDoc(document);
    return text;
}

static size_t xslt_cadena(const struct invoice *invoice)
{
    int length = 0;
    xmlFree(xslt_text(invoice, &length));
    return (size_t)length;
}

static void check_same_cadena(const struct invoice *invoice)
{
    int length = 0;
    xmlChar *text = xslt_text(invoice, &length);
    if (cadena(invoice) != (size_t)length || memcmp(room, text, (size_t)length) != 0)
        fail("the stylesheet gives another cadena", invoice->path);
    xmlFree(text);
}
#endif

enum {
    CHECK,
    CADENA,
    FAIR_COPY,
    CHECK_THEN_CADENA,
#ifdef WITH_LIBXSLT
    XML_PARSE,
    XSLT_CADENA,
#endif
    MEASURES
};

static const struct measure measures[MEASURES] = {
    [CHECK] = {"check", check},
    [CADENA] = {"cadena, which checks first", cadena},
    [FAIR_COPY] = {"fair copy, which checks first", fair_copy},
    [CHECK_THEN_CADENA] = {"check, then cadena", check_then_cadena},
#ifdef WITH_LIBXSLT
    [XML_PARSE] = {"libxml2 parse", xml_parse},
    [XSLT_CADENA] = {"libxml2 parse, libxslt cadena", xslt_cadena},
#endif
};

static size_t invoice_count;
static double least[MOST_INVOICES][MEASURES];

static double now(void)
{
    struct timespec t;
    clock_gettime(CLOCK_MONOTONIC, &t);
    return 1e9 * (double)t.tv_sec + (double)t.tv_nsec;
}

// The nanoseconds that some calls take together.
static double taken(const struct measure *measure, const struct invoice *invoice, size_t calls)
{
    double start = now();
    for (size_t i = 0; i < calls; i++)
        answered = measure->run(invoice);
    return now() - start;
}

// How many calls fill a round; finding it also warms up the caches.
static size_t calls_in_round(const struct measure *measure, const struct invoice *invoice)
{
    size_t calls = 1;
    while (taken(measure, invoice, calls) < ROUND_TIME)
        calls *= 2;
    return calls;
}

// Finds the least time of each measure over all rounds; the measures take turns, so that a disturbance meets them alike.
static void measure_all(size_t i)
{
    size_t calls[MEASURES];
    for (size_t m = 0; m < MEASURES; m++) {
        calls[m] = calls_in_round(&measures[m], &invoices[i]);
        least[i][m] = 1e18;
    }
    for (size_t round = 0; round < ROUNDS; round++) {
        for (size_t m = 0; m < MEASURES; m++) {
            double time = taken(&measures[m], &invoices[i], calls[m]) / (double)calls[m];
            if (time < least[i][m])
                least[i][m] = time;
        }
    }
}

static void check_invoice(const struct invoice *invoice)
{
    if (check(invoice) != 0)
        fail("is not lawful", invoice->path);
#ifdef WITH_LIBXSLT
    check_same_cadena(invoice);
#endif
}

static void print_times(size_t m)
{
    printf("%-36s", measures[m].name);
    for (size_t i = 0; i < invoice_count; i++)
        printf("%12.0f", least[i][m]);
    printf("\n");
}

static void print_by_byte(size_t m)
{
    printf("%-36s", "check, then cadena: ns a byte");
    for (size_t i = 0; i < invoice_count; i++)
        printf("%12.2f", least[i][m] / (double)invoices[i].length);
    printf("\n");
}

#ifdef WITH_LIBXSLT
// How many times as long libxml2 and libxslt take as one of the library's measures.
static void print_ratio(const char *name, size_t m)
{
    printf("%-36s", name);
    for (size_t i = 0; i < invoice_count; i++)
        printf("%12.2f", least[i][XSLT_CADENA] / least[i][m]);
    printf("\n");
}
#endif

static void print_table(void)
{
    printf("%-36s", "ns a document, by its bytes");
    for (size_t i = 0; i < invoice_count; i++)
        printf("%12zu", invoices[i].length);
    printf("\n");
    for (size_t m = 0; m < MEASURES; m++)
        print_times(m);
    print_by_byte(CHECK_THEN_CADENA);
#ifdef WITH_LIBXSLT
    print_ratio("libxslt cadena / check, then cadena", CHECK_THEN_CADENA);
    print_ratio("libxslt cadena / cadena alone", CADENA);
#endif
}

int main(int argc, char **argv)
{
    if (argc < 3 || argc - 2 > MOST_INVOICES)
        fail("usage: bench STYLESHEET INVOICE..", argv[0]);
    invoice_count = (size_t)argc - 2;
#ifdef WITH_LIBXSLT
    stylesheet = xsltParseStylesheetFile((const xmlChar *)argv[1]);
    if (stylesheet == NULL)
        fail("is no stylesheet", argv[1]);
#endif
    for (size_t i = 0; i < invoice_count; i++) {
        read_invoice(&invoices[i], argv[i + 2]);
        check_invoice(&invoices[i]);
    }
    for (size_t i = 0; i < invoice_count; i++)
        measure_all(i);
    print_table();
#ifdef WITH_LIBXSLT
    xsltFreeStylesheet(stylesheet);
#endif
    return 0;
}
