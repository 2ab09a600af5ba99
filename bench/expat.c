// expat: events, one parser that is reset for each document.
#include "bench.h"
#include <expat.h>

static void start(void *user, const XML_Char *name, const XML_Char **attributes) {
    long *sum = user;
    (void)name;
    sum[0]++;
    for (; *attributes; attributes += 2)
        sum[1] += attributes[1][0];
}

static void end(void *user, const XML_Char *name) {
    ((long *)user)[1] += name[0];
}

static void characters(void *user, const XML_Char *s, int len) {
    (void)s;
    ((long *)user)[1] += len;
}

long expat_read(const unsigned char *bytes, size_t len) {
    static XML_Parser parser;
    long sum[2] = {0, 0};
    if (!parser)
        parser = XML_ParserCreate(NULL);
    else
        XML_ParserReset(parser, NULL);
    XML_SetUserData(parser, sum);
    XML_SetElementHandler(parser, start, end);
    XML_SetCharacterDataHandler(parser, characters);
    if (XML_Parse(parser, (const char *)bytes, (int)len, 1) != XML_STATUS_OK)
        return -1;
    return sum[0];
}
