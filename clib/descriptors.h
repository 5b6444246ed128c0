/* What the client's descriptors are to this library, and the library's own. */
#ifndef DESCRIPTORS_H
#define DESCRIPTORS_H

#include "device.h"

/* numbers from here on are never files of the device */
#define DESCRIPTORS 4096
#define NO_TIMER (-1)

/* descriptors.c: `hold` is for a thread that nothing interrupts already */
void descriptors_hold(void);
void descriptors_let_go(void);
void descriptors_enter(struct quiet *quiet);
void descriptors_leave(const struct quiet *quiet);
void descriptors_begin_child(void);
int descriptors_are_ours(void);
int descriptors_file(int descriptor);
int descriptors_timer(int descriptor);
int descriptors_make(int file, int flags);
void descriptors_put_timer(int descriptor, int index);
void descriptors_double(int old, int new);
int descriptors_forget(int descriptor);
int descriptors_have(int file);
void descriptors_sweep(void);
void descriptors_note_flags(int descriptor);
unsigned descriptors_asynchronous(void);
int descriptors_of(int file);
int keep_away(int descriptor);
void descriptors_protect(int *place);
int descriptors_are_private(int descriptor);
void descriptors_make_way(int descriptor);

/* listings.c */
int listings_have(const char *path, int (*fits)(const char *line, const void *what), const void *what);
const char *listings_word(const char *line, int index);

/* sockets.c */
int sockets_has(uint64_t inode);

/* timers.c and sets.c, within the lock */
void timers_forget(int index);
void timers_forget_set(int set);
void sets_forget(int set);
void sets_forget_member(int descriptor);
void sets_begin_child(void);

#endif
