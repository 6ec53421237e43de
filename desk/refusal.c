/* What keeps a command from its work, in words. */
#include "refusal.h"

#include "attempt.h"
#include "galhoveia.h"
#include "progress.h"

#include <stdarg.h>

void describe_refusal(FILE *to, uint32_t number, uint64_t value)
{
    unsigned long long with = value;

    fprintf(to, "refused by %lu, value %llu: ", (unsigned long)number, with);
    switch (number) {
    case GALHOVEIA_PROGRAM_LENGTH:
        fprintf(to, "the program has %llu bytes, not %d", with, GALHOVEIA_PROGRAM_BYTES);
        break;
    case GALHOVEIA_MEMORY_LENGTH:
        fprintf(to, "the memory has %llu bytes, not %d", with, GALHOVEIA_MEMORY_BYTES);
        break;
    case GALHOVEIA_MEMORY_CELL:
        fprintf(to, "memory cell $%03llX holds what this cell cannot hold", with);
        break;
    case GALHOVEIA_RECORD:
        fprintf(to, "the machine record is not well formed, or does not fit the memory");
        break;
    case GALHOVEIA_UNKNOWN_EVENT:
        fprintf(to, "place %llu of the script, counted from 0, has an unknown event", with);
        break;
    case GALHOVEIA_UNLISTED_WORD:
        fprintf(to, "the cycle would execute the word at $%03llX, which is no instruction", with);
        break;
    case GALHOVEIA_ROOM:
        fprintf(to, "too little room, %llu bytes are needed", with);
        break;
    case GALHOVEIA_ASKED_CELL:
        fprintf(to, "$%03llX is no data cell ($020-$16F), display cell ($300-$348) or scan cell ($358-$36D)", with);
        break;
    case GALHOVEIA_DIGIT:
        fprintf(to, "the level's %s digit is above 7", value == 0 ? "high" : "low");
        break;
    case GALHOVEIA_LENGTH:
        fprintf(to, "the book's contents, its length, or the length of a body is wrong");
        break;
    case GALHOVEIA_BODY:
        if (value == 2)
            fprintf(to, "the wiring (kind 2) names a cell outside $300-$348 or a bit above 3");
        else
            fprintf(to, "the level body (kind %llu) names a cell that is no data, display or scan cell, the same cell "
                        "twice, or a ground code above 63", with);
        break;
    case GALHOVEIA_OPTIONS:
        fprintf(to, "options are 0 to 7");
        break;
    case GALHOVEIA_FIELD:
        fprintf(to, "program addresses are $000 to $%03X", GALHOVEIA_WORDS - 1);
        break;
    case GALHOVEIA_LISTING:
        if (value < GALHOVEIA_WORDS)
            fprintf(to, "the text is no listing; the first line that is missing or not as it must be is line %llu of "
                        "the file, counted from 1, that of address %03llX", with + 1, with);
        else
            fprintf(to, "the text is no listing; its %d lines are good, but more stands behind them", GALHOVEIA_WORDS);
        break;
    case GALHOVEIA_CAR:
        fprintf(to, "place %llu of the script, counted from 0, has a car above 1", with);
        break;
    case GALHOVEIA_CUT_ENTRY:
        fprintf(to, "the script ends behind the car at place %llu, counted from 0, with no event for it", with);
        break;
    case GALHOVEIA_TABLES:
        fprintf(to, "the tables are not the cross-reference of the program lent with them");
        break;
    default:
        fprintf(to, "a reason this command does not know");
        break;
    }
}

void say_refusal(const char *what, uint32_t number, uint64_t value)
{
    fflush(stdout);
    clear_progress();
    fprintf(stderr, "desk: %s: ", what);
    describe_refusal(stderr, number, value);
    fprintf(stderr, "\n");
}

static void say(const char *kind, const char *format, va_list arguments)
{
    fflush(stdout);
    clear_progress();
    fprintf(stderr, "desk: %s", kind);
    vfprintf(stderr, format, arguments);
    fprintf(stderr, "\n");
}

_Noreturn void fail(const char *format, ...)
{
    va_list arguments;

    end_progress();
    va_start(arguments, format);
    say("", format, arguments);
    va_end(arguments);
    give_up();
}

unsigned long faults_said;

bool say_fault(const char *format, ...)
{
    va_list arguments;

    faults_said++;
    va_start(arguments, format);
    say("FAULT: ", format, arguments);
    va_end(arguments);
    return false;
}

bool ask_report(void)
{
    return say_fault("this must never be; please keep book, state and script, and report it");
}

_Noreturn void end_in_fault(const char *format, ...)
{
    va_list arguments;

    va_start(arguments, format);
    say("FAULT: ", format, arguments);
    va_end(arguments);
    ask_report();
    end_command(FAULT);
}
