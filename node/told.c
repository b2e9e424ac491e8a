/* SPDX-License-Identifier: Apache-2.0 */
/* How line_node and kunchrol-compact tell what goes wrong in a store. */
#include "store.h"

#include <stdarg.h>
#include <stdio.h>

void store_tell(const char *format, ...)
{
	va_list words;

	va_start(words, format);
	vfprintf(stderr, format, words);
	va_end(words);
}
