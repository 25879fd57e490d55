/* What scan prints: a summary that is read at a glance, or the same as JSON. */
#ifndef COMMANDS_SCAN_REPORT_H
#define COMMANDS_SCAN_REPORT_H

#include <stdio.h>

#include "report/entry.h"
#include "runs/scan_counts.h"

void print_scan(FILE *to, const struct scan_counts *counts);

/* With the answer that the scan ends with. */
void print_scan_json(FILE *to, const struct scan_counts *counts, const struct entry *entry);

#endif
