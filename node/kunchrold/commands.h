/* SPDX-License-Identifier: Apache-2.0 */
/* The commands of the console that show and change the register. */
#ifndef COMMANDS_H
#define COMMANDS_H

void commands_install(void);

#endif
