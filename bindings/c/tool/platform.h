/* Each source includes this first: what POSIX adds to C99. */
#ifndef HAYRO_TOOL_PLATFORM_H
#define HAYRO_TOOL_PLATFORM_H

#define _POSIX_C_SOURCE 200809L
#define _XOPEN_SOURCE 700
#define _FILE_OFFSET_BITS 64

#endif
