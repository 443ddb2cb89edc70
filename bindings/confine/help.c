/* What --help prints, in the form of the other programs, wrapped where a terminal reads it. */
#define _GNU_SOURCE
#include "confine.h"
#include <stdlib.h>
#include <string.h>
#include <sys/ioctl.h>
#include <unistd.h>

static const char HELP[] =
    "Runs a program that may read secrets and can't send them on\n"
    "\n"
    "Usage: confine [OPTIONS] -- <PROGRAM> [ARGUMENT]...\n"
    "\n"
    "What it reads of a secret it can write to that secret's reports and nowhere else.\n"
    "\n"
    "Options:\n"
    "      --secret <FOLDER>  It may read this folder; from then on nothing that it prints is shown\n"
    "      --report <FILE>    It may write this file; after --secret, also once it has read that secret\n"
    "      --faults <FILE>    Once it has read that secret, its errors and its status go to this file\n"
    "      --public <FOLDER>  It may read this folder too, as it may read /usr\n"
    "      --policy <FILE>    Labels, a clearance and gates, as docs/CONFINE.md has them\n"
    "      --env <NAME>       It is given this variable of the environment, besides PATH, LANG, TERM and other plain ones\n"
    "      --born-tainted     It counts as having read all secrets from its start\n"
    "      --audit <DUMP>     Where to write all decisions as a dump, for histar-audit\n"
    "      --explain          Print the id of each thing, and a line for each refusal, and why\n"
    "  -h, --help             Print help\n"
    "  -V, --version          Print version\n"
    "\n"
    "The exit status is the program's, or 0 once a secret was read. 2: wrong words; 69: this machine can't confine; 70: something failed.\n";

/* How many columns a terminal that reads the output has, and 80 where none reads it. */
static size_t columns(void)
{
    struct winsize size;
    return ioctl(STDOUT_FILENO, TIOCGWINSZ, &size) || !size.ws_col ? 80 : size.ws_col;
}

/* Where the second column of a row begins, or 0 where a line has no columns. */
static size_t second_column(const char *line, size_t length)
{
    size_t at = strspn(line, " ");
    if (at == 0) return 0;
    while (at + 1 < length && strncmp(line + at, "  ", 2)) at++;
    return at + 1 < length ? at + strspn(line + at, " ") : 0;
}

/* Prints words behind what stands on a line already, and goes on `hang` columns in. */
static void print_words(const char *words, size_t length, size_t hang, size_t width)
{
    size_t at = 0, column = hang;
    while (at < length) {
        size_t word = strcspn(words + at, " \n");
        if (column > hang && column + 1 + word > width) printf("\n%*s", (int)(column = hang), "");
        else if (column > hang) column += (size_t)printf(" ");
        column += (size_t)printf("%.*s", (int)word, words + at);
        at += word + 1;
    }
    puts("");
}

/* A row goes on below its second column where 20 columns are left for it, else eight columns in, on lines of its own. */
static void print_line(const char *line, size_t length, size_t width)
{
    size_t column = second_column(line, length);
    bool is_narrow = column && width < column + 20;
    size_t first = column;
    while (is_narrow && line[first - 1] == ' ') first--;
    printf("%.*s", (int)first, line);
    if (is_narrow) printf("\n        ");
    print_words(line + column, length - column, is_narrow ? 8 : column, width);
}

ENDS void print_help(void)
{
    size_t width = columns();
    for (const char *line = HELP; *line; line += strcspn(line, "\n") + 1) print_line(line, strcspn(line, "\n"), width);
    exit(fflush(stdout) ? ENDS_FAULT : 0);
}
