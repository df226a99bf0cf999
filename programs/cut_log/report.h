/* What the program prints: the kept records in words. docs/cut-log.md describes it. */
#ifndef REPORT_H
#define REPORT_H

#include "selection.h"

void print_report(const struct log *log, const struct selection *kept);

#endif
