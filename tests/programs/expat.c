/* Expat: XML_ParserCreate_MM takes three functions for the parser and all that it makes. Elements in namespaces, entities. */
#include "harness.h"

#include <expat.h>
#include <stdio.h>
#include <string.h>

const char program_name[] = "expat";

const char *program_version(void) {
    static char version[24];
    const XML_Expat_Version it = XML_ExpatVersionInfo();
    snprintf(version, sizeof version, "%d.%d.%d", it.major, it.minor, it.micro);
    return version;
}

enum { TEXT = 1 << 18, PARTS = 300, ROUNDS = 12 };

static size_t write_document(char *to, unsigned round) {
    size_t n = 0;
#define PUT(...) n += (size_t)snprintf(to + n, TEXT - n, __VA_ARGS__)
    PUT("<?xml version='1.0'?><!DOCTYPE list [<!ENTITY who 'someone'><!ENTITY twice '&who; and &who;'>"
        "<!ELEMENT list (part*)><!ATTLIST part kind CDATA 'plain'>");
    for (unsigned k = 0; k < 200; k++)
        PUT("<!ELEMENT deep%u (a|(b,c?)*)><!ENTITY e%u 'entity %x'><!ATTLIST deep%u b%u CDATA 'b'>", k, k, k, k, k);
    PUT("]>\n<list xmlns='urn:list' xmlns:x='urn:extra'>");
    for (unsigned k = 0; k < PARTS; k++) {
        PUT("<part id='%u' x:mark='%x' long%u='", k, k * 2654435761u, k % 90);
        for (unsigned i = 0; i < (k * 7 + round) % 40; i++) PUT("value ");
        PUT("'><x:name xmlns:y%u='urn:y%u'>part %u of &twice;, &e%u;</x:name>", k, k % 60, k, k % 200);
        for (unsigned i = 0; i < k % 9; i++) PUT("<deep%u a='%u'>", i * k % 200, i);
        PUT("<![CDATA[<%u>]]>", k * k);
        for (unsigned i = k % 9; i > 0; i--) PUT("</deep%u>", (i - 1) * k % 200);
        PUT("<!-- %u --></part>\n", k);
    }
    PUT("</list>");
#undef PUT
    return n;
}

static void on_start(void *depth, const char *name, const char **attributes) {
    if (++*(int *)depth < 4) say("%s", name);
    for (; *attributes != NULL; attributes += 2) say(" %.9s=%.20s", attributes[0], attributes[1]);
    say("\n");
}

static void on_end(void *depth, const char *name) { say("%d %.7s\n", --*(int *)depth, name); }

static void on_text(void *depth, const char *text, int n) {
    (void)depth;
    say_bytes(text, (size_t)n);
}

static bool parse(const char *text, size_t n, size_t step) {
    static const XML_Memory_Handling_Suite memory = {hook_malloc, hook_realloc, hook_free};
    XML_Parser parser = XML_ParserCreate_MM(NULL, &memory, "|");
    enum XML_Status status = XML_STATUS_OK;
    int depth = 0;
    if (parser == NULL) return false;
    XML_SetHashSalt(parser, 1);
    XML_SetUserData(parser, &depth);
    XML_SetElementHandler(parser, on_start, on_end);
    XML_SetCharacterDataHandler(parser, on_text);
    for (size_t at = 0; at < n && status == XML_STATUS_OK; at += step)
        status = XML_Parse(parser, text + at, (int)(n - at < step ? n - at : step), n - at <= step);
    if (status != XML_STATUS_OK) say("%s\n", XML_ErrorString(XML_GetErrorCode(parser)));
    XML_ParserFree(parser);
    return status == XML_STATUS_OK;
}

bool program_work(const char *file) {
    (void)file;
    static const size_t steps[] = {97, 1024, 65536, TEXT};
    static char text[TEXT];
    bool all = true;
    for (unsigned round = 0; round < ROUNDS; round++) all &= parse(text, write_document(text, round), steps[round % 4]);
    return all;
}
