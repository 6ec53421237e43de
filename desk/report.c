/* The report: a page on a book and on a script's run over it. */
#include "report.h"

#include "drawing.h"
#include "report_parts.h"
#include "texts.h"

#include <stdio.h>
#include <string.h>

/* ---- The page ---- */

static const struct section sections[] = {
    {"book", "The book", put_book},
    {"run", "The run and the level", put_run},
    {"writers", "Who can write the level", put_writers},
    {"changes", "Who did write it", put_changes},
    {"refusals", "Refusals", put_refusals},
    {"proved", "What is proved, and where to check it", put_proved},
    {"made", "How this page was made", put_made},
    {"xref", "Cross-reference", put_xref},
    {"listing", "Listing", put_listing},
};

enum { SECTIONS = sizeof sections / sizeof sections[0] };

bool has_run(const struct report *report)
{
    return report->script_path != NULL && report->start_answer.refusal == GALHOVEIA_DONE
           && (report->run_answer.refusal == GALHOVEIA_DONE
               || report->run_answer.refusal == GALHOVEIA_UNLISTED_WORD);
}

void put_address(struct report *report, unsigned address)
{
    report->linked[address] = true;
    put_form(&report->page, "<a href=\"#a%03X\">$%03X</a>", address, address);
}

void put_line(struct report *report, unsigned address)
{
    report->linked[address] = true;
    put_form(&report->page, "<a class=\"line\" href=\"#a%03X\">", address);
    put_text(&report->page, report->book.lines.at[address]);
    put(&report->page, "</a>");
}

/* Without a title it is the book's name, without the folders before it. */
static void put_title(struct report *report)
{
    const char *slash = strrchr(report->book_path, '/');

    if (report->title != NULL && report->title[0] != '\0') {
        put_text(&report->page, report->title);
        return;
    }
    put(&report->page, "Lift report on ");
    put_text(&report->page, slash != NULL && slash[1] != '\0' ? slash + 1 : report->book_path);
}

static void put_head(struct report *report)
{
    struct page *page = &report->page;

    put(page, "<!DOCTYPE html>\n<html xmlns=\"http://www.w3.org/1999/xhtml\" lang=\"en\">\n<head>\n"
              "<meta charset=\"utf-8\"/>\n<meta name=\"viewport\" content=\"width=device-width, initial-scale=1\"/>\n"
              "<meta name=\"color-scheme\" content=\"light dark\"/>\n<title>");
    put_title(report);
    put(page, "</title>\n<style>\n");
    for (int at = 0; report_style[at] != NULL; at++)
        put_form(page, "%s\n", report_style[at]);
    put(page, "</style>\n</head>\n");
}

static void put_contents(struct page *page)
{
    put(page, "<nav aria-label=\"Contents\">\n<ol>\n");
    for (int at = 0; at < SECTIONS; at++)
        put_form(page, "<li><a href=\"#%s\">%s</a></li>\n", sections[at].id, sections[at].heading);
    put(page, "</ol>\n</nav>\n");
}

static void put_page(struct report *report)
{
    struct page *page = &report->page;

    put_head(report);
    put(page, "<body>\n<header>\n<p class=\"house\">Galhoveia \u00B7 proved emulator of the SH67P54</p>\n<h1>");
    put_title(report);
    put(page, "</h1>\n");
    put_glance(report);
    put_contents(page);
    put(page, "</header>\n<main>\n");
    for (int at = 0; at < SECTIONS; at++) {
        put_form(page, "<section id=\"%s\">\n<h2>%d. %s</h2>\n", sections[at].id, at + 1, sections[at].heading);
        sections[at].put(report);
        put(page, "</section>\n");
    }
    put(page, "</main>\n</body>\n</html>\n");
}

/* ---- What it tells of ---- */

static void keep_change(void *with, const struct book *book, const struct cell_change *change)
{
    struct report *report = with;

    (void)book;
    if (report->changes_kept < CHANGES_MOST)
        report->changes[report->changes_kept++] = *change;
}

/* Runs the script, where it has a start to run from. Answers false for a fault, which is said. */
static bool run_script(struct report *report)
{
    struct run *run = &report->run;

    if (report->start_answer.refusal != GALHOVEIA_DONE)
        return true;
    report->run_answer.refusal = do_run(run, GALHOVEIA_NO_STOP, &report->run_answer.value);
    if (!has_run(report)) {
        look_at_start(&report->stops, &report->book, &run->start);
        return true;
    }
    return look_at_stops(&report->stops, run, report->stop)
           && find_changes(&report->watch, run, keep_change, report);
}

/* Says each refusal that the page tells of. Answers whether there was any. */
static bool say_refusals(const struct report *report)
{
    const struct stops *stops = &report->stops;
    char what[64];

    if (report->start_answer.refusal != GALHOVEIA_DONE)
        say_refusal("a fresh machine", report->start_answer.refusal, report->start_answer.value);
    if (report->run_answer.refusal != GALHOVEIA_DONE)
        say_refusal("the run", report->run_answer.refusal, report->run_answer.value);
    for (size_t at = 0; at < stops->met_count; at++) {
        const struct met *met = &stops->met[at];

        snprintf(what, sizeof what, "%s after %llu event%s", met->what, (unsigned long long)met->first,
                 plural(met->first));
        say_refusal(what, met->answer.refusal, met->answer.value);
    }
    return report->start_answer.refusal != GALHOVEIA_DONE || report->run_answer.refusal != GALHOVEIA_DONE
           || stops->met_count > 0;
}

/* Asks the library for all that the page tells of. Answers false for a fault, after which there is no page. */
static bool ask_all(struct report *report)
{
    build_xref(&report->xref, &report->book);
    for (enum digit digit = HIGH; digit < DIGITS; digit++)
        if (!ask_writers(&report->book, level_cell(&report->book, digit), &report->writers[digit]))
            end_in_fault("the level cells of a good book have no writers to ask for");
    if (!watch_level(&report->watch, &report->book))
        end_in_fault("the level cells of a good book cannot be watched");
    return report->script_path == NULL || run_script(report) || ask_report();
}

static enum status make_report(struct report *report, const char *out, bool force)
{
    bool refused;

    if (!ask_all(report))
        return FAULT;
    begin_page(&report->page);
    put_page(report);
    write_file(out, report->page.text.at, report->page.text.length, force);
    refused = say_refusals(report);
    printf("%s: a report of %zu bytes\n", out, report->page.text.length);
    return refused ? REFUSED : DONE;
}

/* ---- The command ---- */

/* A run's options need a run. */
static void need_script(const struct command *command, const char *script, const struct course *course, bool raw)
{
    const char *given = course->stop != NULL      ? "--stop"
                        : course->state != NULL   ? "--state"
                        : course->options != NULL ? "--options"
                        : raw                     ? "--raw-script"
                                                  : NULL;

    if (script == NULL && given != NULL)
        wrong_use(command, "without --script there is no run for", given);
}

/* Where the run begins. That a fresh machine is refused is told in the page too, so it is not said yet. */
static void take_start(struct report *report, const struct command *command, const struct course *course)
{
    report->state_path = course->state;
    report->options = course->options != NULL ? decimal_from(command, course->options, UINT32_MAX) : 0;
    if (course->state != NULL)
        read_state(course->state, &report->run.start);
    else
        report->start_answer.refusal = ask_fresh(&report->run.start, report->options, &report->start_answer.value);
}

enum status work_report(const struct command *command, int count, char **words)
{
    const char *path[1], *out = NULL, *digits = NULL, *columns = NULL;
    bool raw_script = false, force = false;
    struct report *report = take_memory(1, sizeof *report);
    struct course course = {NULL, NULL, NULL};
    const struct option known[] = {{"--script", &report->script_path, NULL}, {"--stop", &course.stop, NULL},
                                   {"--raw-script", NULL, &raw_script},      {"--state", &course.state, NULL},
                                   {"--options", &course.options, NULL},     {"--out", &out, NULL},
                                   {"--force", NULL, &force},                {"--digits", &digits, NULL},
                                   {"--columns", &columns, NULL},            {"--title", &report->title, NULL},
                                   {NULL, NULL, NULL}};
    enum status status = REFUSED;

    take_words(command, count, words, known, path, 1);
    if (out == NULL)
        wrong_use(command, "a file for the page is due, by --out FILE.html", NULL);
    need_script(command, report->script_path, &course, raw_script);
    report->look = look_from(command, (struct look){false, 0, COLUMNS_USUAL}, digits, columns);
    report->stop = stop_from(command, &course);
    may_write(out, force);
    keep_input(out, path[0]);
    keep_input(out, report->script_path);
    keep_input(out, course.state);
    report->book_path = path[0];
    report->count = count;
    report->words = words;
    report->run.book = &report->book;
    if (report->script_path != NULL) {
        report->run.events = read_script(report->script_path, raw_script, script_from_text);
        take_start(report, command, &course);
    }
    if (read_book(path[0], &report->book)) {
        may_draw(&report->book, report->look);
        status = make_report(report, out, force);
        give_back(report->page.text.at);
        give_back(report->book.file.at);
    }
    give_back(report->run.events.at);
    give_back(report);
    return status;
}
