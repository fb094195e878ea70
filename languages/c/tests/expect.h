/* What the tests of C share. */
#ifndef EXPECT_H
#define EXPECT_H
#include <stdio.h>
#include <stdlib.h>

/* Ends the program where the condition doesn't hold. */
#define EXPECT(condition) \
    ((condition) ? (void)0 : expect_failed(__FILE__, __LINE__, #condition))

static inline void expect_failed(const char *file, int line, const char *condition)
{
    fprintf(stderr, "%s:%d: %s doesn't hold\n", file, line, condition);
    exit(1);
}

#if defined(__SANITIZE_ADDRESS__) || defined(__SANITIZE_THREAD__)
#define IS_SANITIZED 1
#elif defined(__has_feature)
#define IS_SANITIZED (__has_feature(address_sanitizer) || __has_feature(thread_sanitizer))
#else
#define IS_SANITIZED 0
#endif

/* In the child of a fork the threads of its parent that had ended, and weren't joined, are no leak: a test that forks has this line. */
#ifdef __SANITIZE_THREAD__
#define FORKS \
    const char *__tsan_default_options(void); \
    const char *__tsan_default_options(void) { return "report_thread_leaks=0"; }
#else
#define FORKS
#endif

/* The thread sanitizer doesn't see how the proved map orders a put and a get. */
#ifdef __SANITIZE_THREAD__
void __tsan_acquire(void *), __tsan_release(void *);
#else
#define __tsan_acquire(pointer) (void)(pointer)
#define __tsan_release(pointer) (void)(pointer)
#endif

/* How many MiB of addresses the process has, and how many of them are in memory. Of a program under a
   sanitizer, which has much memory of its own beside the program's, both are 0. */
struct mebibytes {
    double all, present;
};

static inline struct mebibytes expect_mebibytes(void)
{
    struct mebibytes mebibytes = {0, 0};
#if !IS_SANITIZED
    FILE *pages = fopen("/proc/self/statm", "r");
    EXPECT(pages != NULL && fscanf(pages, "%lf %lf", &mebibytes.all, &mebibytes.present) == 2 && fclose(pages) == 0);
    mebibytes.all /= 256;
    mebibytes.present /= 256;
#endif
    return mebibytes;
}
#endif
