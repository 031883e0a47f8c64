/* Libxml2 on the same bytes: a tree; with a schema's path as third word also its validation. The schema is compiled
   once, before the repeats. */
#include "repeat.h"
#include <libxml/parser.h>
#include <libxml/xmlschemas.h>
#include <stdio.h>
#include <stdlib.h>

static xmlSchemaPtr schema;
static int taken;

submitter *const preparing = NULL;

void ready(const char *word) {
    if (!word) return;
    xmlSchemaParserCtxtPtr c = xmlSchemaNewParserCtxt(word);
    schema = xmlSchemaParse(c);
    xmlSchemaFreeParserCtxt(c);
    if (!schema) exit(2);
}

static int valid(xmlDocPtr tree) {
    xmlSchemaValidCtxtPtr c = xmlSchemaNewValidCtxt(schema);
    int fault = xmlSchemaValidateDoc(c, tree);
    xmlSchemaFreeValidCtxt(c);
    return fault == 0;
}

/* A text of 1 MB and a depth of 12 are fine without XML_PARSE_HUGE. */
void once(const struct file *f) {
    xmlDocPtr tree = xmlReadMemory(f->bytes, (int)f->n, NULL, NULL, XML_PARSE_NOERROR | XML_PARSE_NOWARNING);
    taken = tree && (!schema || valid(tree));
    xmlFreeDoc(tree);
}

void tell(void) {
    printf("%s by libxml2%s", taken ? "taken" : "refused", schema ? " with the schema" : "");
}
