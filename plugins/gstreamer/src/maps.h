/* Maps from numbers to numbers, as rtprtxsend's properties have them: structures whose fields are named by numbers, "map,96=(uint)97". */
#ifndef GOZDRIT_GST_MAPS_H
#define GOZDRIT_GST_MAPS_H

#include <gst/gst.h>

/* What a map has for a number, or -1. There may be no map. */
gint64 map_find(const GstStructure *map, guint32 key);

/* Whether a map leads to that number. */
gboolean map_leads_to(const GstStructure *map, guint32 number);

/* A map from payload types, which is looked at for each packet. */
typedef struct type_map {
    GstStructure *given; /* NULL: there is none */
    gint64 of[128];      /* -1: nothing */
    gint64 from[128];    /* the type that leads to one, or -1 */
} type_map;

void type_map_set(type_map *map, const GstStructure *given);

#endif
