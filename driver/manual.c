#include "manual.h"

#include <ctype.h>
#include <errno.h>
#include <stdlib.h>
#include <string.h>

#include "options.h"
#include "version.inc"
#include "words.h"

const char program_version[] = KOCHIPURN_COMMIT;

/* ---- The page for man ------------------------------------------------ */

/* A line of text as the page has it. */
static void put_text(FILE *out, const char *text, size_t length)
{
    if (length > 0 && (text[0] == '.' || text[0] == '\''))
        fputs("\\&", out);
    for (size_t i = 0; i < length; i++)
        if (text[i] == '\\')
            fputs("\\e", out);
        else if (text[i] == '-')
            fputs("\\-", out);
        else
            fputc(text[i], out);
}

/* A heading; an option, in bold; or text, which keeps its lines and its margin, so that 80 columns do. */
static void put_line(FILE *out, const char *line, size_t length)
{
    const size_t margin = length < 2 ? length : 2;
    const bool option = length > 2 && line[2] == '-';
    if (length > 0 && line[0] != ' ') {
        fprintf(out, ".fi\n.SH %.*s\n.in 2n\n.nf\n", (int)length, line);
        return;
    }
    fputs(option ? "\\fB" : "", out);
    put_text(out, line + margin, length - margin);
    fputs(option ? "\\fR\n" : "\n", out);
}

/* The same text as for --help. */
static int put_page(manual_writer write)
{
    char *lines = NULL;
    size_t size = 0;
    FILE *all = open_memstream(&lines, &size);
    if (all == NULL)
        return complain(STATUS_OTHER, "no memory");
    write(all);
    if (fclose(all) != 0) {
        free(lines);
        return complain(STATUS_OTHER, "no memory");
    }
    printf(".TH %s 1 \"%s\" \"Kochipurn %s\"\n.nh\n.nf\n", words_name(), KOCHIPURN_DATE, program_version);
    for (const char *line = lines; *line != '\0'; line += *line == '\n') {
        const size_t length = strcspn(line, "\n");
        put_line(stdout, line, length);
        line += length;
    }
    free(lines);
    return 0;
}

/* ---- The options ----------------------------------------------------- */

void manual_help(FILE *out)
{
    fputs("  --help, --man, --version\n"
          "        This text; this text as a page for man (man -l); the commit that the\n"
          "        program was built from.\n",
        out);
}

/* --version is the only word. */
static bool stands_alone(const manual_of *program)
{
    return optarg == NULL && program->words[1] != NULL && program->words[2] == NULL;
}

static int put_version(const manual_of *program)
{
    if (!stands_alone(program))
        return complain(STATUS_USAGE, "--version stands alone (see --help)");
    printf("%s of Kochipurn, commit %s\n", words_name(), program_version);
    return 0;
}

int manual_option(int option, const manual_of *program)
{
    int status = 0;
    if (option == 'h')
        program->write(stdout);
    else if (option == OPTION_MAN)
        status = put_page(program->write);
    else if (option == OPTION_VERSION)
        status = put_version(program);
    else
        return complain(STATUS_USAGE, "see --help");
    if (words_written() != 0)
        status = STATUS_FILE;
    exit(status);
}

int manual_version(const manual_of *program, uint8_t *version)
{
    const char *next = optarg != NULL ? optarg : program->words[optind];
    if (stands_alone(program))
        return manual_option(OPTION_VERSION, program);
    if (next == NULL || !isdigit((unsigned char)*next))
        return complain(STATUS_USAGE, "--version stands alone; the version of the protocol is --protocol");
    if (optarg == NULL)
        optind += 1;
    return option_protocol(next, version);
}
