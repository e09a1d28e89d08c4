/* version.c: what the library tells of itself. Nothing is proved of it. */
#include "yds.h"

const char *yds_version(void) {
	return YDS_VERSION;
}
