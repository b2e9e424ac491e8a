/* SPDX-License-Identifier: Apache-2.0 */
/* How the programs here tell what happens. */
#include "stack.h"

#include <stdarg.h>
#include <stdio.h>

void stack_tell(const struct stack_user *user, const char *format, ...)
{
	va_list words;

	fprintf(stderr, "%s: ", user->name);
	va_start(words, format);
	vfprintf(stderr, format, words);
	va_end(words);
	putc('\n', stderr);
}
