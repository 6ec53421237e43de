/* The report's sections that are mostly words: what it comes to at a glance, the book, refusals, what is proved, and
   how the page was made. */
#include "checksum.h"
#include "made.h"
#include "report_parts.h"

/* ---- At a glance ---- */

static size_t refusals_met(const struct report *report)
{
    return (report->start_answer.refusal != GALHOVEIA_DONE) + (report->run_answer.refusal != GALHOVEIA_DONE)
           + report->stops.met_count;
}

static void put_last_level(struct report *report)
{
    struct page *page = &report->page;
    const struct stand *last = &report->stops.kept[report->stops.count - 1];

    if (last->level_answer.refusal != GALHOVEIA_DONE) {
        put(page, "none");
        return;
    }
    put_signed(page, last->level.stop);
    put(page, " <small>read as decimal ");
    put_signed(page, level_by(&last->level, DECIMAL));
    put(page, "</small>");
}

static void put_script_glance(struct report *report)
{
    struct page *page = &report->page;

    put(page, "<div class=\"file\"><dt>Script</dt><dd>");
    put_path(page, report->script_path);
    put_form(page, " <small>%llu of %zu event%s done</small></dd></div>\n", (unsigned long long)report->run.done,
             report->run.events.length, plural(report->run.events.length));
    if (report->stops.count > 0) {
        put_form(page, "<div><dt>Level %s</dt><dd>", has_run(report) ? "at the end" : "at the start");
        put_last_level(report);
        put_form(page, "</dd></div>\n<div><dt>Readings differ</dt><dd>%llu <small>of %llu looks at it",
                 (unsigned long long)report->stops.differing, (unsigned long long)report->stops.all);
        if (report->stops.unread > 0)
            put_form(page, "; no level at %llu", (unsigned long long)report->stops.unread);
        put(page, "</small></dd></div>\n");
    }
}

void put_glance(struct report *report)
{
    struct page *page = &report->page;
    size_t refusals = refusals_met(report);

    put(page, "<dl class=\"glance\">\n<div class=\"file\"><dt>Book</dt><dd>");
    put_path(page, report->book_path);
    put_form(page, " <small>%zu bytes</small></dd></div>\n", report->book.file.length);
    if (report->script_path != NULL)
        put_script_glance(report);
    put(page, "<div><dt>Refusals</dt><dd>");
    if (refusals == 0)
        put(page, "none");
    else
        put_form(page, "<a href=\"#refusals\">%zu</a>", refusals);
    put(page, "</dd></div>\n</dl>\n");
}

/* ---- The book ---- */

static void put_wiring(struct report *report)
{
    struct page *page = &report->page;
    const struct bytes *wiring = &report->book.wiring;

    put(page, "<h3>Wiring: the number of each element, its display cell and bit</h3>\n<ul class=\"wiring\">\n");
    for (size_t at = 0; at < wiring->length; at += GALHOVEIA_ELEMENT_BYTES)
        put_form(page, "<li><b>%zu</b> <code>$%03X.%u</code></li>\n", at / GALHOVEIA_ELEMENT_BYTES,
                 two(wiring->at + at), wiring->at[at + 2]);
    put(page, "</ul>\n");
}

static void begin_body(struct page *page, const char *name, size_t bytes)
{
    put_form(page, "<tr><th scope=\"row\">%s</th><td class=\"number\">%zu</td><td>", name, bytes);
}

void put_book(struct report *report)
{
    struct page *page = &report->page;
    const struct book *book = &report->book;
    const struct counted_words counted = count_words(book);
    const size_t elements = book->wiring.length / GALHOVEIA_ELEMENT_BYTES;

    put(page, "<p><code>");
    put_text(page, report->book_path);
    put_form(page, "</code> is a good book of %zu bytes, with three bodies:</p>\n<div class=\"wide\">\n"
                   "<table class=\"bodies\">\n<thead><tr><th scope=\"col\">Body</th>"
                   "<th scope=\"col\" class=\"number\">Bytes</th><th scope=\"col\">What is in it</th></tr></thead>\n"
                   "<tbody>\n", book->file.length);
    begin_body(page, "Program", book->program.length);
    put_form(page, "%d words, of these %u NOP and %u that %s no instruction</td></tr>\n", GALHOVEIA_WORDS,
             counted.blank, counted.unlisted, counted.unlisted == 1 ? "is" : "are");
    begin_body(page, "Wiring", book->wiring.length);
    put_form(page, "%zu element%s of the panel</td></tr>\n", elements, plural(elements));
    begin_body(page, "Level", book->level.length);
    put_form(page, "high digit in cell $%03X, low digit in cell $%03X, ground code %u</td></tr>\n</tbody>\n</table>\n"
                   "</div>\n", level_cell(book, HIGH), level_cell(book, LOW), book->level.at[4]);
    put_wiring(report);
}

/* ---- Refusals ---- */

/* What was refused is named as it is said, but for a capital. */
static void put_one_refusal(struct page *page, const char *what, struct answer answer)
{
    put_form(page, "<li data-refusal=\"%lu\" data-value=\"%llu\"><strong>%c%s</strong>: ",
             (unsigned long)answer.refusal, (unsigned long long)answer.value, what[0] - 'a' + 'A', what + 1);
    put_refusal(page, answer.refusal, answer.value);
}

void put_refusals(struct report *report)
{
    struct page *page = &report->page;

    if (refusals_met(report) == 0) {
        put(page, "<p>None: the library refused nothing that this page asked of it.</p>\n");
        return;
    }
    put(page, "<p>What the library turned down, by the number of the reason and the value that goes with "
              "it:</p>\n<ul>\n");
    if (report->start_answer.refusal != GALHOVEIA_DONE) {
        put_one_refusal(page, "a fresh machine", report->start_answer);
        put(page, "</li>\n");
    }
    if (report->run_answer.refusal != GALHOVEIA_DONE) {
        put_one_refusal(page, "the run", report->run_answer);
        put_form(page, ". %llu event%s done before it.</li>\n", (unsigned long long)report->run.done,
                 report->run.done == 1 ? " was" : "s were");
    }
    for (size_t at = 0; at < report->stops.met_count; at++) {
        const struct met *met = &report->stops.met[at];

        put_one_refusal(page, met->what, met->answer);
        put_form(page, ". Met %llu time%s, first after %llu event%s.</li>\n", (unsigned long long)met->times,
                 plural(met->times), (unsigned long long)met->first, plural(met->first));
    }
    put(page, "</ul>\n");
}

/* ---- What is proved ---- */

/* Each is a demand, where it is stated, and where it is proved; docs/INSPECTOR.md has them in full. */
static const struct {
    const char *demand, *stated, *proved;
} demands[] = {
    {"<strong>Every call comes back with an answer</strong>, for all programs, states, scripts and books. What it "
     "cannot work with is refused by a number, and a refusal changes nothing; only a run that meets a word that is no "
     "instruction keeps what the events before it did.",
     "<code>crates/refusal/specs/Refusal.antt</code> <code>crates/call_run/specs/Run.antt</code>",
     "<code>crates/call_run/src/lib.rt</code> <code>crates/call_run/proofs/Leaves.antt</code> "
     "<code>crates/host/proofs/Leaves.antt</code>"},
    {"<strong>Each event moves the chip exactly</strong> as the data sheet\u2019s instruction table, the scope "
     "document and the requests that changed it say; a run is one event after the other. Picture and level are read "
     "off the state as defined: a level is 8 \u00D7 high digit + low digit, less the ground stop\u2019s code.",
     "<code>crates/sh_cycle/specs/Cycle.antt</code> <code>crates/sh_run/specs/Run.antt</code> "
     "<code>crates/picture/specs/Picture.antt</code> <code>crates/level/specs/Level.antt</code>",
     "<code>crates/sh_events/src/event.rt</code> <code>crates/sh_run/proofs/run</code> "
     "<code>crates/picture/src/lib.rt</code> <code>crates/level/src/lib.rt</code>"},
    {"<strong>The list of writers is exact</strong>, and no digit comes from elsewhere: where a run leaves a data, "
     "display or scan cell with another value, an instruction of its list put it there. The cross-reference answers "
     "the same lists.",
     "<code>crates/writers/specs/Statement.antt</code> <code>crates/writers/specs/List.antt</code> "
     "<code>crates/origins/specs/Origin.antt</code>",
     "<code>crates/writers/proofs/Listing.antt</code> <code>crates/origins/proofs/Run.antt</code> "
     "<code>crates/xref/proofs/Theorems.antt</code>"},
};

void put_proved(struct report *report)
{
    struct page *page = &report->page;

    put(page, "<p>The emulator is a library whose every function is proved to do what its definition says. Paths are "
              "those of its repository.</p>\n<div class=\"wide\">\n<table class=\"proved\">\n<thead><tr><th "
              "scope=\"col\">What is proved</th><th scope=\"col\">Stated in</th><th scope=\"col\">Proved "
              "in</th></tr></thead>\n<tbody>\n");
    for (size_t at = 0; at < sizeof demands / sizeof demands[0]; at++)
        put_form(page, "<tr><td>%s</td><td>%s</td><td>%s</td></tr>\n", demands[at].demand, demands[at].stated,
                 demands[at].proved);
    put(page, "</tbody>\n</table>\n</div>\n<h3>What is believed without proof</h3>\n<ul>\n"
              "<li>C code: the desk command in <code>desk/</code>, which ran the library and wrote this page.</li>\n"
              "<li>The definitions in <code>crates/*/specs</code> themselves: that they say what the documents say. "
              "<code>docs/READING.md</code> reads them clause by clause.</li>\n"
              "<li>The compiler\u2019s back end, and the proof checker itself.</li>\n</ul>\n"
              "<p>A second emulator, written from the documents alone, is held against the library and against pages "
              "such as this one: <code>docs/TESTING.md</code>.</p>\n<h3>How to check</h3>\n"
              "<p><code>./check</code>, in the repository at the commit below, proves everything from nothing, tries "
              "wrong answers that must be refused, runs the tests, and ends in \u2018N passed, 0 failed\u2019. "
              "<code>docs/INSPECTOR.md</code> answers the inspector\u2019s questions in full.</p>\n");
}

/* ---- How the page was made ---- */

/* A file that the page was made from, with what cksum prints of it. */
static void put_file(struct page *page, const char *what, const char *path)
{
    struct bytes file = read_file(path, SCRIPT_FILE_MOST);

    put_form(page, "<tr><th scope=\"row\">%s</th><td><code>", what);
    put_text(page, path);
    put_form(page, "</code></td><td class=\"number\">%zu</td><td class=\"number\">%lu</td></tr>\n", file.length,
             (unsigned long)checksum_of(file));
    give_back(file.at);
}

static void put_files(struct report *report)
{
    struct page *page = &report->page;

    put(page, "<div class=\"wide\">\n<table class=\"files\">\n<thead><tr><th scope=\"col\">Made from</th>"
              "<th scope=\"col\">File</th><th scope=\"col\" class=\"number\">Bytes</th>"
              "<th scope=\"col\" class=\"number\">Checksum, by <code>cksum</code></th></tr></thead>\n<tbody>\n");
    put_file(page, "Book", report->book_path);
    if (report->script_path != NULL)
        put_file(page, "Script", report->script_path);
    if (report->state_path != NULL)
        put_file(page, "State", report->state_path);
    put(page, "</tbody>\n</table>\n</div>\n");
}

void put_made(struct report *report)
{
    struct page *page = &report->page;

    put(page, "<p>By the desk command of the commit <code class=\"commit\">");
    put_text(page, made_of);
    put(page, "</code>, with the command line below. The same "
              "command on the same files gives the same page, byte for byte.</p>\n<pre><code>desk "
              "report");
    for (int at = 0; at < report->count; at++) {
        put(page, " <span>");
        put_shell_word(page, report->words[at]);
        put(page, "</span>");
    }
    put(page, "</code></pre>\n");
    put_files(report);
}
