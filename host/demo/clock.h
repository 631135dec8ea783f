/* A clock that only goes forward, in milliseconds. */
#ifndef CLOCK_H
#define CLOCK_H

long clock_now(void);

/* Comes back when so much time has passed, whatever signals come meanwhile. */
void clock_pause(unsigned long milliseconds);

#endif
