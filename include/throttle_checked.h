/*
 * Two words that let the compiler see a caller's mistake. Each is empty for
 * compilers that know no such warning.
 *
 * THROTTLE_CHECKED stands before every call that returns a refusal's number:
 * the compiler then warns where a caller does not look at it. A refused call
 * leaves its out as it was, so that an ignored refusal is an old answer taken
 * for a new one.
 *
 * THROTTLE_LEAST stands before the length of an array that a call is given:
 * the array has at least as many elements. The compiler then warns where it
 * sees that a caller's array has fewer. C++ has no such word.
 */
#ifndef THROTTLE_CHECKED_H
#define THROTTLE_CHECKED_H

#if defined(__GNUC__) || defined(__clang__)
#define THROTTLE_CHECKED __attribute__((__warn_unused_result__))
#elif defined(__cplusplus) && __cplusplus >= 201703L
#define THROTTLE_CHECKED [[nodiscard]]
#elif defined(__STDC_VERSION__) && __STDC_VERSION__ >= 202311L
#define THROTTLE_CHECKED [[nodiscard]]
#else
#define THROTTLE_CHECKED
#endif

#if defined(__GNUC__) && defined(__STDC_VERSION__) && __STDC_VERSION__ >= 199901L && \
    !defined(__cplusplus)
#define THROTTLE_LEAST static
#else
#define THROTTLE_LEAST
#endif

#endif
