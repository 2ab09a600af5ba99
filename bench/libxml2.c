// libxml2: its tree, freed again.
#include "bench.h"
#include <libxml/parser.h>

long libxml2_read(const unsigned char *bytes, size_t len) {
    xmlDocPtr doc = xmlReadMemory((const char *)bytes, (int)len, NULL, NULL,
                                  XML_PARSE_NONET | XML_PARSE_NOERROR | XML_PARSE_NOWARNING | XML_PARSE_COMPACT);
    if (!doc)
        return -1;
    long count = 0;
    for (xmlNodePtr n = xmlDocGetRootElement(doc)->children; n; n = n->next)
        count++;
    xmlFreeDoc(doc);
    return count;
}
