/* The names of the refusals. */
#ifndef REFUSAL_H
#define REFUSAL_H

#include "xelamphoun.h"

/* A refusal's name, as the header has it without XEL_. */
static inline const char *refusal_name(uint8_t number)
{
    switch (number) {
    case XEL_CHANNELS: return "CHANNELS";
    case XEL_SAMPLES: return "SAMPLES";
    case XEL_MAP: return "MAP";
    case XEL_DEST: return "DEST";
    case XEL_STORE: return "STORE";
    case XEL_FULL: return "FULL";
    case XEL_SET: return "SET";
    case XEL_MODE: return "MODE";
    case XEL_NONE: return "NONE";
    case XEL_NAN: return "NAN";
    case XEL_SCALE: return "SCALE";
    case XEL_LENGTH: return "LENGTH";
    case XEL_KIND: return "KIND";
    case XEL_CONTENT: return "CONTENT";
    case XEL_ROOM: return "ROOM";
    default: return "UNKNOWN";
    }
}

#endif
