#include "maps.h"

static gint64 number_of(const GValue *value) {
    if (value && G_VALUE_HOLDS_UINT(value)) return g_value_get_uint(value);
    return value && G_VALUE_HOLDS_INT(value) && g_value_get_int(value) >= 0 ? g_value_get_int(value) : -1;
}

gint64 map_find(const GstStructure *map, guint32 key) {
    gchar name[12];
    if (!map) return -1;
    g_snprintf(name, sizeof name, "%u", key);
    return number_of(gst_structure_get_value(map, name));
}

gboolean map_leads_to(const GstStructure *map, guint32 number) {
    gint fields = map ? gst_structure_n_fields(map) : 0;
    for (gint i = 0; i < fields; i++) {
        const gchar *name = gst_structure_nth_field_name(map, (guint)i);
        if (number_of(gst_structure_get_value(map, name)) == number) return TRUE;
    }
    return FALSE;
}

void type_map_set(type_map *map, const GstStructure *given) {
    g_clear_pointer(&map->given, gst_structure_free);
    map->given = given ? gst_structure_copy(given) : NULL;
    for (guint type = 0; type < 128; type++) {
        map->of[type] = map_find(map->given, type);
        map->from[type] = -1;
    }
    for (guint type = 0; type < 128; type++)
        if (map->of[type] >= 0 && map->of[type] < 128) map->from[map->of[type]] = type;
}
