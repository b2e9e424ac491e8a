/* SPDX-License-Identifier: Apache-2.0 */
/* The configuration, and the console: libosmovty's, with the node `kunchrol` and the commands of the register. */
#ifndef CONSOLE_H
#define CONSOLE_H

#include <stdbool.h>

/* Makes the commands known, and reads the configuration. What is wrong in it is told. */
bool console_begin(const char *path);

/* Opens the console's port. */
bool console_open(void);

extern const char console_version[];

#endif
