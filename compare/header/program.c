/* Reads records from standard input and prints what the functions of navuloqu.h make of them, as the Rattle programs calls, starts and waves
 * do. So the header is held against the archive. compare/header/run compiles and runs it.
 *
 *   program calls|starts|waves|names [--control WORD [--unguarded]]
 *
 * `names` reads nothing and prints what the header calls each answer. WORD, in hexadecimal, is what MXCSR holds before each call; the
 * header's guard then stands around the call, if it is not left out. A record that is cut short is left out. The status is 1 where a call
 * did what it must not, 2 where something cannot be read or written. */
#include <errno.h>
#include <stdarg.h>
#include <stdio.h>
#include <stdlib.h>
#include <string.h>

#include "answers.h"
#include "lines.h"
#include "navuloqu.h"

#define MXCSR_MOST 0xffffu /* a bit above these is a fault of its own */

static void fail(int status, const char *format, ...)
{
    va_list words;
    va_start(words, format);
    fputs("header: ", stderr);
    vfprintf(stderr, format, words);
    fputc('\n', stderr);
    va_end(words);
    exit(status);
}

/* Whether there was a whole one. */
static bool read_record(unsigned char *record, size_t bytes)
{
    const size_t got = fread(record, 1, bytes, stdin);
    if (ferror(stdin))
        fail(2, "standard input is not read: %s", strerror(errno));
    return got == bytes;
}

static void say(const char *fault, const char *line, const char *where, size_t number)
{
    if (fault)
        fail(1, "%s %zu: %s", where, number, fault);
    if (fputs(line, stdout) == EOF)
        fail(2, "standard output is not written: %s", strerror(errno));
}

static void say_calls(const struct control *control)
{
    unsigned char record[CALL_BYTES];
    char line[LINE_ROOM];
    for (size_t number = 0; read_record(record, sizeof record); number++)
        say(answer_call(control, record, line), line, "record", number);
}

static void say_starts(const struct control *control)
{
    unsigned char record[START_BYTES];
    char line[LINE_ROOM];
    for (size_t number = 0; number < OSCILLATORS; number++)
        say(answer_start(control, number, line), line, "starting state", number);
    for (size_t number = 0; read_record(record, sizeof record); number++)
        say(answer_given(control, record, line), line, "record", number);
}

static void say_waves(const struct control *control)
{
    unsigned char record[WAVE_BYTES];
    char line[LINE_ROOM];
    for (size_t number = 0; read_record(record, sizeof record); number++)
        say(answer_wave(control, record, line), line, "record", number);
}

/* The numbers that are none too, up to the first past the answers. */
static void say_names(void)
{
    char line[LINE_ROOM];
    for (uint32_t answer = 0; answer <= NAVULOQU_NO_ROOM + 1; answer++) {
        put_text(line, put_number(line, 0, answer), navuloqu_answer_name(answer));
        say(NULL, line, "answer", answer);
        say(NULL, "\n", "answer", answer);
    }
}

static void fail_usage(void)
{
    fail(2, "usage: program calls|starts|waves|names [--control WORD [--unguarded]]; WORD is from 0 to ffff");
}

static struct control control_of(int count, char **words)
{
    struct control control = {MXCSR_START, false};
    char *end;
    if (count == 0)
        return control;
    if (count == 1 || count > 3 || strcmp(words[0], "--control") != 0 || (count == 3 && strcmp(words[2], "--unguarded") != 0))
        fail_usage();
    const unsigned long word = strtoul(words[1], &end, 16);
    if (*end != '\0' || end == words[1] || word > MXCSR_MOST)
        fail_usage();
    control.word = (uint32_t)word;
    control.is_guarded = count == 2;
    return control;
}

int main(int count, char **words)
{
    if (count < 2)
        fail_usage();
    const struct control control = control_of(count - 2, words + 2);
    if (strcmp(words[1], "calls") == 0)
        say_calls(&control);
    else if (strcmp(words[1], "starts") == 0)
        say_starts(&control);
    else if (strcmp(words[1], "waves") == 0)
        say_waves(&control);
    else if (strcmp(words[1], "names") == 0)
        say_names();
    else
        fail_usage();
    if (fclose(stdout) != 0)
        fail(2, "standard output is not written: %s", strerror(errno));
    return 0;
}
