/* refuse.h: the counters of refuse.c. */
#ifndef REFUSE_H
#define REFUSE_H

/* Of the next `refuse_left` allocations each is made, and then one is refused. How many blocks are held. */
extern long refuse_left, refuse_held;

#endif
