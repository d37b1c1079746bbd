/* Runs a sheet from standard input through the library and prints its report. */
#include "kaqsherim.h"

#include <stdio.h>
#include <stdlib.h>

/* One byte more than a sheet may have, so that a longer one is refused. */
static uint8_t sheet[65537];

static int fail(const char *why)
{
    fprintf(stderr, "run_sheet: %s\n", why);
    return EXIT_FAILURE;
}

int main(void)
{
    if (kaqsherim_version() != KAQSHERIM_VERSION)
        return fail("the library has another version than its header");

    size_t sheet_length = fread(sheet, 1, sizeof sheet, stdin);
    if (ferror(stdin))
        return fail("cannot read the sheet");

    int64_t length = kaqsherim_report_length(sheet, sheet_length);
    if (length < 0)
        return fail("not enough memory");

    uint8_t *report = malloc((size_t)length);
    if (report == NULL)
        return fail("not enough memory");
    if (kaqsherim_run_sheet(sheet, sheet_length, report, (size_t)length) != length) {
        free(report);
        return fail("not enough memory");
    }
    size_t printed = fwrite(report, 1, (size_t)length, stdout);
    free(report);
    if (printed != (size_t)length || fflush(stdout) != 0)
        return fail("cannot print the report");
    return EXIT_SUCCESS;
}
