// GLib's GDBus: a tree of GDBusNodeInfo, freed again.
#include "bench.h"
#include <gio/gio.h>

long gdbus_read(const unsigned char *bytes, size_t len) {
    (void)len;
    GDBusNodeInfo *info = g_dbus_node_info_new_for_xml((const char *)bytes, NULL);
    if (!info)
        return -1;
    long count = 1;
    for (GDBusInterfaceInfo **i = info->interfaces; i && *i; i++)
        count++;
    g_dbus_node_info_unref(info);
    return count;
}
