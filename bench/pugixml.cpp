// pugixml: its tree, made in a copy of the document and freed again. Default flags: no check of UTF-8, nor of duplicate attributes.
#include "bench.h"
#include <pugixml.hpp>

extern "C" long pugixml_read(const unsigned char *bytes, size_t len) {
    pugi::xml_document doc;
    if (!doc.load_buffer(bytes, len, pugi::parse_default, pugi::encoding_utf8))
        return -1;
    long count = 0;
    for (pugi::xml_node n = doc.document_element().first_child(); n; n = n.next_sibling())
        count++;
    return count;
}
