/* SPDX-License-Identifier: MIT */
/* Whether the library is that of the header and proved, or with UNPROVED one of which nothing is proved, which is allowed then. */
#ifndef LIBRARY_H
#define LIBRARY_H

#include <nvmearb.h>

#ifdef UNPROVED
#define VERSION (NVMEARB_VERSION | NVMEARB_UNPROVED)
#else
#define VERSION NVMEARB_VERSION
#endif
#define IS_OF_HEADER (nvmearb_version() == VERSION && nvmearb_is_of_this_header() == 1)

#endif
