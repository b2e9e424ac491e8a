/* SPDX-License-Identifier: Apache-2.0 */
#include "store.h"

#include <string.h>

/* What follows this word in a text, or null. */
static const char *behind(const char *word, const char *text)
{
	return strncmp(text, word, strlen(word)) ? NULL : text + strlen(word);
}

struct store *store_open(const char *where, bool may_make)
{
	const char *rest = behind("sqlite:", where);

	if (rest)
		return sqlite_open(rest, may_make);
#ifdef HAS_POSTGRESQL
	if ((rest = behind("postgresql:", where)))
		return postgresql_open(*rest == '/' ? where : rest, may_make);
#endif
	store_tell("store: %s is not " STORES "\n", where);
	return NULL;
}

bool store_has_versions(const char *name, const int64_t *versions)
{
	if (!versions)
		store_tell("store: %s is not a store of a register\n", name);
	else if (versions[0] == STORE_LINES_VERSION && versions[1] == STORE_IMAGE_VERSION)
		return true;
	else
		store_tell("store: %s has lines of version %lld and images of version %lld; versions %d and %d are read here\n", name,
			(long long)versions[0], (long long)versions[1], STORE_LINES_VERSION, STORE_IMAGE_VERSION);
	return false;
}
