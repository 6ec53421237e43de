/* The report's section on a script's run: how it ended, and at each stop the panel and its level. */
#include "report_parts.h"

#include "svg.h"

enum { TITLE_ROOM = 96, NAME_ROOM = 32, START_AND_END = 2 };

/* ---- One level ---- */

static void put_distance(struct page *page, long stop)
{
    unsigned long far = (unsigned long)(stop < 0 ? -stop : stop);

    if (stop == 0)
        put(page, "the ground stop");
    else
        put_form(page, "%lu stop%s %s the ground stop", far, plural(far), stop < 0 ? "below" : "above");
}

/* A reading's row: the code that its base makes of the digits, and the stop that this is. */
static void put_reading(struct page *page, const struct level *level, unsigned base, const char *name)
{
    unsigned code = base * level->digit[HIGH] + level->digit[LOW];

    put_form(page, "<tr class=\"by-%u\"><th scope=\"row\">%s</th><td>%u \u00D7 %u + %u = %u</td><td>%u \u2212 %u = <b>",
             base, name, base, level->digit[HIGH], level->digit[LOW], code, code, level->ground);
    put_signed(page, level_by(level, base));
    put(page, "</b></td></tr>\n");
}

static void put_readings(struct page *page, const struct level *level)
{
    long octal = level_by(level, OCTAL), decimal = level_by(level, DECIMAL);

    put(page, "<table class=\"readings\">\n<thead><tr><th scope=\"col\">Digits read as</th><th scope=\"col\">Code</th>"
              "<th scope=\"col\">Level, less ground</th></tr></thead>\n<tbody>\n");
    put_reading(page, level, OCTAL, "octal");
    put_reading(page, level, DECIMAL, "decimal (old emulator)");
    put(page, "</tbody>\n</table>\n");
    if (octal == decimal) {
        put(page, "<p class=\"verdict\">Both readings agree: with a high digit of 0 they cannot differ.</p>\n");
        return;
    }
    put(page, "<p class=\"verdict differs\"><strong>The readings differ.</strong> The decimal one is the wrong stop: "
              "work at level ");
    put_signed(page, octal);
    put(page, " would be filed under level ");
    put_signed(page, decimal);
    put(page, ".</p>\n");
}

/* Digits that make no level may still be decimal ones, so that the old emulator had a level for them. */
static void put_decimal_alone(struct page *page, const struct level *level)
{
    if (level->digit[HIGH] >= DECIMAL || level->digit[LOW] >= DECIMAL) {
        put(page, "<p class=\"verdict\">As decimal digits they are none either.</p>\n");
        return;
    }
    put(page, "<p class=\"verdict differs\"><strong>Read as decimal</strong>, they would be filed under level ");
    put_signed(page, level_by(level, DECIMAL));
    put(page, ", where there is no level.</p>\n");
}

static void put_level(struct report *report, const struct stand *stand)
{
    struct page *page = &report->page;
    const struct level *level = &stand->level;

    put_form(page, "<p class=\"digits\">High digit <b>%X</b> in cell $%03X, low digit <b>%X</b> in cell $%03X, ground "
                   "code <b>%u</b></p>\n", level->digit[HIGH], level_cell(&report->book, HIGH), level->digit[LOW],
             level_cell(&report->book, LOW), level->ground);
    if (stand->level_answer.refusal != GALHOVEIA_DONE) {
        put(page, "<p class=\"level\"><strong>No level</strong></p>\n<p class=\"refused\">The level: ");
        put_refusal(page, stand->level_answer.refusal, stand->level_answer.value);
        put(page, "</p>\n");
        put_decimal_alone(page, level);
        return;
    }
    put(page, "<p class=\"level\"><strong>Level ");
    put_signed(page, level->stop);
    put(page, "</strong>, ");
    put_distance(page, level->stop);
    put(page, "</p>\n");
    put_readings(page, level);
}

/* ---- One stop ---- */

/* Where the run stood, in words of the desk's own. */
static void name_stand(const struct report *report, const struct stand *stand, char title[TITLE_ROOM])
{
    if (stand->place == AT_START)
        snprintf(title, TITLE_ROOM, "At the start");
    else if (stand->place == AT_STOP)
        snprintf(title, TITLE_ROOM, "At $%03lX", (unsigned long)report->stop);
    else
        snprintf(title, TITLE_ROOM, "%s", report->run.reason == GALHOVEIA_AT_UNLISTED
                                              ? "Before a word that is no instruction" : "At the script\u2019s end");
}

static void put_more(struct page *page, const struct stand *stand)
{
    if (stand->more > 0)
        put_form(page, "<p class=\"more\">The same at %llu more stop%s, up to the one after %llu events.</p>\n",
                 (unsigned long long)stand->more, plural(stand->more), (unsigned long long)stand->until);
}

static void put_stand(struct report *report, size_t at)
{
    static const char *const places[] = {"start", "stop", "end"};
    const struct stand *stand = &report->stops.kept[at];
    struct page *page = &report->page;
    char where[TITLE_ROOM], title[TITLE_ROOM + NAME_ROOM], name[NAME_ROOM];

    name_stand(report, stand, where);
    snprintf(title, sizeof title, "%s, after %llu event%s", where, (unsigned long long)stand->events,
             plural(stand->events));
    snprintf(name, sizeof name, "panel-%zu", at);
    put_form(page, "<section class=\"stand\" id=\"%s\" data-place=\"%s\" data-events=\"%llu\" data-more=\"%llu\">\n"
                   "<h3>%s</h3>\n<div class=\"beside\">\n<div class=\"panel\">\n", name, places[stand->place],
             (unsigned long long)stand->events, (unsigned long long)stand->more, title);
    if (stand->picture_answer.refusal == GALHOVEIA_DONE) {
        draw_svg(page, &report->book, &stand->picture, report->look, name, title);
    } else {
        put(page, "<p class=\"refused\">The picture: ");
        put_refusal(page, stand->picture_answer.refusal, stand->picture_answer.value);
        put(page, "</p>\n");
    }
    put(page, "</div>\n<div class=\"words\">\n");
    put_level(report, stand);
    put_more(page, stand);
    put(page, "</div>\n</div>\n</section>\n");
}

static void put_left_out(struct page *page, const struct stops *stops)
{
    if (stops->left_out > 0)
        put_form(page, "<p class=\"left-out\" data-left-out=\"%llu\">Not drawn: %llu more stop%s before the "
                       "end. A page has %d panels at most.</p>\n", (unsigned long long)stops->left_out,
                 (unsigned long long)stops->left_out, plural(stops->left_out), STANDS_MOST);
}

/* ---- All stops ---- */

static void put_row(struct report *report, size_t at)
{
    const struct stand *stand = &report->stops.kept[at];
    struct page *page = &report->page;
    char where[TITLE_ROOM];

    name_stand(report, stand, where);
    put_form(page, "<tr><th scope=\"row\"><a href=\"#panel-%zu\">%s</a></th><td class=\"number\">%llu</td>"
                   "<td class=\"number\">%llu</td><td>%X, %X</td>", at, where, (unsigned long long)stand->events,
             (unsigned long long)stand->more + 1, stand->level.digit[HIGH], stand->level.digit[LOW]);
    if (stand->level_answer.refusal != GALHOVEIA_DONE) {
        put(page, "<td colspan=\"3\">no level: ");
        put_refusal(page, stand->level_answer.refusal, stand->level_answer.value);
        put(page, "</td></tr>\n");
        return;
    }
    put(page, "<td class=\"number\"><b>");
    put_signed(page, stand->level.stop);
    put(page, "</b></td><td class=\"number\">");
    put_signed(page, level_by(&stand->level, DECIMAL));
    put_form(page, "</td><td>%s</td></tr>\n",
             level_by(&stand->level, DECIMAL) == stand->level.stop ? "agree" : "<strong>differ</strong>");
}

static void put_table(struct report *report)
{
    struct page *page = &report->page;
    const struct stops *stops = &report->stops;

    put(page, "<div class=\"wide\">\n<table class=\"stops\">\n<thead><tr><th scope=\"col\">Where</th>"
              "<th scope=\"col\" class=\"number\">Events done</th><th scope=\"col\" class=\"number\">Times</th>"
              "<th scope=\"col\">Digits</th><th scope=\"col\" class=\"number\">Level</th>"
              "<th scope=\"col\" class=\"number\">Read as decimal</th><th scope=\"col\">The "
              "readings</th></tr></thead>\n<tbody>\n");
    for (size_t at = 0; at < stops->count; at++)
        put_row(report, at);
    put(page, "</tbody>\n</table>\n</div>\n");
    put_left_out(page, stops);
}

/* How the run ended. */
static void put_end(struct report *report)
{
    struct page *page = &report->page;
    const struct run *run = &report->run;

    put_form(page, "<p><b>%llu of %zu</b> event%s done; ", (unsigned long long)run->done, run->events.length,
             plural(run->events.length));
    if (run->reason == GALHOVEIA_AT_UNLISTED) {
        put(page, "the run ended before a word that is no instruction, at ");
        put_address(report, two(run->end.record + GALHOVEIA_RECORD_PC));
    } else {
        put(page, "the run ended at the script\u2019s end");
    }
    put_form(page, ". The chip is then %s, with PC at ", mode_words(&run->end));
    put_address(report, two(run->end.record + GALHOVEIA_RECORD_PC));
    put(page, ".</p>\n<p>The panel was looked at ");
    if (report->stop < GALHOVEIA_WORDS) {
        put(page, "at the start, after each cycle that left PC at ");
        put_address(report, report->stop);
        put(page, report->stops.all > START_AND_END ? ", and at the end" : ", of which there was none, and at the end");
    } else {
        put(page, "at the start and at the end");
    }
    put_form(page, ": %llu times in all. At <b>%llu</b> of these the decimal reading is a wrong stop",
             (unsigned long long)report->stops.all, (unsigned long long)report->stops.differing);
    if (report->stops.unread > 0)
        put_form(page, ", and at <b>%llu</b> there is no level", (unsigned long long)report->stops.unread);
    put(page, ".</p>\n");
}

/* A run that never moved. */
static void put_unbegun(struct report *report)
{
    struct page *page = &report->page;
    const bool no_start = report->start_answer.refusal != GALHOVEIA_DONE;
    const struct answer *answer = no_start ? &report->start_answer : &report->run_answer;

    put_form(page, "<p class=\"refused\">None of %zu event%s was done. %s: ", report->run.events.length,
             plural(report->run.events.length), no_start ? "A fresh machine" : "The run");
    put_refusal(page, answer->refusal, answer->value);
    put(page, "</p>\n");
}

/* What the chip was before the first event. */
static void put_start(struct report *report)
{
    struct page *page = &report->page;

    if (report->state_path == NULL) {
        put_form(page, "as it is when just switched on, with options %lu: watchdog %s, bonding bits BD0 %lu and BD1 "
                       "%lu", (unsigned long)report->options, report->options & 1 ? "on" : "off",
                 (unsigned long)report->options >> 1 & 1, (unsigned long)report->options >> 2 & 1);
        return;
    }
    put(page, "in the state of <code>");
    put_text(page, report->state_path);
    put(page, "</code>");
}

void put_run(struct report *report)
{
    struct page *page = &report->page;

    if (report->script_path == NULL) {
        put(page, "<p>No script was given, so nothing was run: this page tells of the book alone.</p>\n");
        return;
    }
    put(page, "<p>The script <code>");
    put_text(page, report->script_path);
    put(page, "</code>, on the book\u2019s chip ");
    put_start(report);
    put(page, ".</p>\n");
    if (has_run(report))
        put_end(report);
    else
        put_unbegun(report);
    if (report->stops.count == 0)
        return;
    put_table(report);
    for (size_t at = 0; at < report->stops.count; at++)
        put_stand(report, at);
}
