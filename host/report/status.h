/* How the command ends. */
#ifndef REPORT_STATUS_H
#define REPORT_STATUS_H

enum status { DONE = 0, REFUSED = 1, FAILED = 2 };

#endif
