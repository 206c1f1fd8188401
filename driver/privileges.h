/* privileges.h: what a program may do once its socket is open. */
#ifndef PRIVILEGES_H
#define PRIVILEGES_H

/* Gives up for good what only the socket needed: the user that a set-uid bit
 * gave, and every capability. Root itself keeps one, to write in any user's
 * directory. 0, or an exit status with the reason said. */
int privileges_drop(void);

#endif
