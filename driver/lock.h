/* lock.h: one mopload, mopdump or moploop at a time on an interface. Two would send from
 * one address and hear each other's replies, and both would report a load that
 * neither has done. */
#ifndef LOCK_H
#define LOCK_H

/* Takes the interface with this index, until the process ends: 0, or an exit
 * status once it is said who has it. No file is made, and interfaces of other
 * network namespaces do not count. */
int lock_take(int index, const char *interface);

#endif
