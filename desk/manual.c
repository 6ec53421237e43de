/* The desk's manual page, made of what its help says. */
#define _POSIX_C_SOURCE 200809L
#include "manual.h"

#include "galhoveia.h"

#include <stdio.h>
#include <stdlib.h>
#include <string.h>

/* ---- Roff ---- */

/* A text in which nothing is a command or an escape of roff, and a hyphen stays one. */
static void print_plain(const char *text, size_t length)
{
    if (length > 0 && (text[0] == '.' || text[0] == '\''))
        printf("\\&");
    for (size_t at = 0; at < length; at++)
        if (text[at] == '\\')
            printf("\\e");
        else if (text[at] == '-')
            printf("\\-");
        else
            putchar(text[at]);
}

/* Lines that begin with a blank stand as they are; the others are filled. */
static void print_text(const char *text)
{
    bool kept = false;

    while (*text != '\0') {
        size_t length = strcspn(text, "\n");
        bool keep = *text == ' ';

        if (length == 0) {
            printf("%s.PP\n", kept ? ".fi\n" : "");
            kept = false;
        } else {
            if (keep != kept)
                printf("%s\n", keep ? ".nf" : ".fi");
            kept = keep;
            print_plain(text, length);
            printf("\n");
        }
        text += length + (text[length] == '\n');
    }
    if (kept)
        printf(".fi\n");
}

/* ---- The page ---- */

static void print_list(const struct command *command)
{
    char *text = NULL;
    size_t length;
    FILE *to = open_memstream(&text, &length);

    if (to == NULL)
        fail("not enough memory");
    command->list(to);
    if (fclose(to) != 0)
        fail("not enough memory");
    printf(".PP\n");
    print_text(text);
    free(text);
}

static void print_command(const struct command *command)
{
    printf(".SS \"desk %s\"\n.nf\n", command->name);
    for (const char *at = command->usage; *at != '\0';) {
        size_t length = strcspn(at, "\n");

        printf("\\fB%s", at == command->usage ? "desk " : "");
        print_plain(at, length);
        printf("\\fP\n");
        at += length + (at[length] == '\n');
    }
    printf(".fi\n.PP\n%c", command->about[0] - 'a' + 'A');
    print_plain(command->about + 1, strlen(command->about + 1));
    printf(".\n");
    if (command->help != NULL)
        print_text(command->help);
    if (command->list != NULL)
        print_list(command);
    for (int at = 0; command->texts != NULL && command->texts[at] != NULL; at++) {
        printf(".PP\n");
        print_text(command->texts[at]);
    }
}

void print_manual(const struct command *commands, int count, const char *closing)
{
    printf(".\\\" Made by desk manual.\n"
           ".TH DESK 1 \"\" \"galhoveia %s\" \"Galhoveia\"\n"
           ".SH NAME\ndesk \\- works on panel books of the SH67P54\n"
           ".SH SYNOPSIS\n.B desk\n.I COMMAND\n.RI [ WORDS .\\|.\\|.]\n.br\n.B desk\n.RI [ COMMAND ]\n.B \\-\\-help\n"
           ".br\n.B desk \\-\\-version\n"
           ".SH DESCRIPTION\n"
           "The desk works on panel books, machine states and scripts of the 4-bit chip SH67P54, by the proved library\n"
           "of\n.BR galhoveia (3).\n"
           ".SH COMMANDS\n", GALHOVEIA_VERSION);
    for (int at = 0; at < count; at++)
        print_command(&commands[at]);
    printf(".SH FILES AND EXIT STATUS\n");
    print_text(closing);
    printf(".SH SEE ALSO\n.BR galhoveia (3)\n");
}
