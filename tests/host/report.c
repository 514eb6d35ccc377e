#define _DEFAULT_SOURCE

#include "report.h"

#include "records.h"

#include <signal.h>
#include <stdarg.h>
#include <stdio.h>
#include <unistd.h>

static void describe_nothing(void)
{
}

/* The present call, for the message at a difference. */
static struct {
    const char *theme;
    const char *name;
    void (*describe)(void);
} call = { .theme = "start", .name = "none", .describe = describe_nothing };

static unsigned long long compared;

bool quick;

void theme(const char *name)
{
    call.theme = name;
}

void next_call(const char *name, void (*describe)(void))
{
    call.name = name;
    call.describe = describe;
}

void print_record(const uint64_t *record, size_t record_len)
{
    fprintf(stderr, "  record before:");
    for (size_t w = 0; w < record_len; w++)
        fprintf(stderr, " %s=%llu", word_name(w), (unsigned long long)record[w]);
    fprintf(stderr, "\n");
}

void fail(const char *format, ...)
{
    va_list args;
    va_start(args, format);
    fprintf(stderr, "host tests: ");
    vfprintf(stderr, format, args);
    fprintf(stderr, "\n");
    va_end(args);
    fprintf(stderr, "  theme: %s, after %llu equal calls\n", call.theme, compared);
    fprintf(stderr, "  call: pcf8820_%s\n", call.name);
    call.describe();
    fflush(stderr);
    _exit(1);
}

static void died(int signal_number)
{
    fail("the call died with signal %d (outside its buffers?)", signal_number);
}

void catch_signals(void)
{
    static const int signals[] = { SIGSEGV, SIGBUS, SIGABRT, SIGILL, SIGFPE, SIGTRAP };
    for (size_t i = 0; i < sizeof signals / sizeof signals[0]; i++)
        signal(signals[i], died);
}

void equal_results(uint64_t ours, uint64_t theirs)
{
    if (ours != theirs)
        fail("result: the model gives %llu, the library %llu", (unsigned long long)ours,
             (unsigned long long)theirs);
}

void count_call(void)
{
    compared++;
}

void report_calls(const char *tests)
{
    printf("%s: %llu calls compared, all equal\n", tests, compared);
}
