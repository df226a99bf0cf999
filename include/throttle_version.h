/*
 * The version of the library, the log checker and the planner: one number for
 * all of them, which the headers include and the commands print. The major
 * number grows where a program that uses a header must be compiled again, the
 * minor one with each change request. CHANGELOG.md says what changed.
 */
#ifndef THROTTLE_VERSION_H
#define THROTTLE_VERSION_H

#define THROTTLE_VERSION_MAJOR 3
#define THROTTLE_VERSION_MINOR 5
#define THROTTLE_VERSION_PATCH 2
#define THROTTLE_VERSION "3.5.2"

#endif
