/* libxml2: xmlMemSetup. A tree is read, asked by XPath, changed, written and read again. */
#include "harness.h"

#include <libxml/parser.h>
#include <libxml/tree.h>
#include <libxml/xpath.h>
#include <libxml/xpathInternals.h>
#include <stdio.h>
#include <string.h>

const char program_name[] = "libxml2";

const char *program_version(void) { return LIBXML_DOTTED_VERSION; }

enum { TEXT = 1 << 20, PARTS = 2000 };

static char *copy(const char *text) {
    char *p = hook_malloc(strlen(text) + 1);
    return p != NULL ? strcpy(p, text) : NULL;
}

static void say_nothing(void *unused, const char *format, ...) { (void)unused, (void)format; }

static int write_document(char *to) {
    size_t n = (size_t)snprintf(to, TEXT, "<?xml version='1.0'?>\n<store xmlns:m='urn:marks'>");
    for (unsigned k = 0; k < PARTS; k++) {
        n += (size_t)snprintf(to + n, TEXT - n, "<part id='p%u' m:kind='%u'><name>part %x</name>", k, k % 17, k * 2654435761u);
        for (unsigned i = 0; i < k % 6; i++) n += (size_t)snprintf(to + n, TEXT - n, "<use of='p%u' n='%u'/>", k / (i + 2), i);
        n += (size_t)snprintf(to + n, TEXT - n, "<!-- %u --><price>%u.%02u</price></part>\n", k, k * 37 % 500, k % 100);
    }
    n += (size_t)snprintf(to + n, TEXT - n, "</store>");
    return (int)n;
}

static bool ask(xmlDocPtr document, const char *path) {
    xmlXPathContextPtr context = xmlXPathNewContext(document);
    xmlXPathObjectPtr found = NULL;
    if (context != NULL && xmlXPathRegisterNs(context, BAD_CAST "m", BAD_CAST "urn:marks") == 0)
        found = xmlXPathEvalExpression(BAD_CAST path, context);
    xmlChar *text = found != NULL ? xmlXPathCastToString(found) : NULL;
    const int count = found != NULL && found->nodesetval != NULL ? found->nodesetval->nodeNr : 0;
    if (text != NULL) say("%s: %d, %.200s\n", path, count, (const char *)text);
    const bool all = text != NULL;
    if (text != NULL) xmlFree(text);
    xmlXPathFreeObject(found);
    xmlXPathFreeContext(context);
    return all;
}

static bool ask_all(xmlDocPtr document) {
    static const char *const paths[] = {"/store/part[@id='p77']/name",     "count(//use[@n > 1])",
                                        "//part[price > 480]/name",        "sum(//part[position() mod 7 = 0]/price)",
                                        "//part[@m:kind='3'][last()]/@id", "//use[not(@of = preceding-sibling::use/@of)][@n = 4]"};
    bool all = true;
    for (size_t k = 0; all && k < sizeof paths / sizeof *paths; k++) all = ask(document, paths[k]);
    return all;
}

/* Each fifth part goes, and each third gets children. */
static bool change_all(xmlDocPtr document) {
    bool all = true;
    unsigned k = 0;
    for (xmlNodePtr next, part = xmlFirstElementChild(xmlDocGetRootElement(document)); part != NULL; part = next, k++) {
        next = xmlNextElementSibling(part);
        if (k % 5 == 0) {
            xmlUnlinkNode(part);
            xmlFreeNode(part);
        } else if (k % 3 == 0) {
            all &= xmlNewTextChild(part, NULL, BAD_CAST "more", BAD_CAST "text & more text") != NULL;
            all &= xmlSetProp(part, BAD_CAST "changed", BAD_CAST "yes") != NULL;
        }
    }
    return all;
}

static bool work(void) {
    static char text[TEXT];
    xmlDocPtr document = xmlReadMemory(text, write_document(text), "store.xml", NULL, XML_PARSE_NONET), again = NULL;
    xmlChar *written = NULL;
    int n = 0;
    bool all = document != NULL && ask_all(document) && change_all(document);
    if (all) xmlDocDumpMemory(document, &written, &n);
    if (written != NULL) {
        say_bytes(written, (size_t)n);
        again = xmlReadMemory((const char *)written, n, "again.xml", NULL, XML_PARSE_NOBLANKS);
        xmlFree(written);
    }
    all = all && again != NULL && ask_all(again);
    xmlFreeDoc(again);
    xmlFreeDoc(document);
    return all;
}

bool program_work(const char *file) {
    (void)file;
    if (xmlMemSetup(hook_free, hook_malloc, hook_realloc, copy) != 0) return false;
    xmlInitParser();
    xmlSetGenericErrorFunc(NULL, say_nothing);
    const bool all = work();
    xmlCleanupParser();
    return all;
}
