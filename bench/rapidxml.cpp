// rapidxml: its tree, made in a copy of the document. Default flags: no check of UTF-8, of duplicate attributes, nor of the names of
// closing tags.
#include "bench.h"
#include <cstdlib>
#include <cstring>
#include <rapidxml/rapidxml.hpp>

extern "C" long rapidxml_read(const unsigned char *bytes, size_t len) {
    static rapidxml::xml_document<> doc;
    static char *copy;
    static size_t room;
    if (room <= len) {
        room = 2 * len + 1;
        copy = static_cast<char *>(std::realloc(copy, room));
    }
    std::memcpy(copy, bytes, len);
    copy[len] = 0;
    doc.clear();
    try {
        doc.parse<0>(copy);
    } catch (const rapidxml::parse_error &) {
        return -1;
    }
    long count = 0;
    for (rapidxml::xml_node<> *n = doc.first_node()->first_node(); n; n = n->next_sibling())
        count++;
    return count;
}
