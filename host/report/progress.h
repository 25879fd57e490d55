/*
 * One line on a terminal that says what a long run is at, and for how long. It comes after half a
 * second and is wiped at the end; where standard error is no terminal there is none.
 */
#ifndef REPORT_PROGRESS_H
#define REPORT_PROGRESS_H

enum phase { TAKING_IN, CODING, PUTTING_OUT, WAITING, COUNTING, SCANNING };

void progress_start(void);
void progress_phase(enum phase phase);

/* Of a list of runs, so many have ended. */
void progress_count(int runs_ended, int runs);

/* Of a recording, so much has been gone through, and so many runs in it are sound. */
void progress_scan(int percent, int runs_sound);

/* In a process of one's own: the line is the parent's. */
void progress_forget(void);

/* Stops the ticking and wipes the line; more than once does no harm. */
void progress_stop(void);

/* Wipes the line alone; may be called in a signal handler. */
void progress_wipe(void);

#endif
