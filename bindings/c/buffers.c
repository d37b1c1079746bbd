/* Tries buffers of every kind of length: too short, just fitting, longer than the report. */
#include "kaqsherim.h"

#include <assert.h>
#include <string.h>

enum { FILLER = 0xa5 };

static const uint8_t SHEET[] = "call,number,place,row,high,low,class\nbegin,,nnwnnnnn,,,,\nx\n";
static const uint8_t REPORT[] = "line,refusal,number,replica,high,low\n2,0,0,,,\n3,22,,,,0\n";
static const size_t SHEET_LENGTH = sizeof SHEET - 1;
static const size_t REPORT_LENGTH = sizeof REPORT - 1;

static void try_buffer_of(size_t buffer_length)
{
    uint8_t buffer[2 * sizeof REPORT];
    memset(buffer, FILLER, sizeof buffer);
    int64_t answer = kaqsherim_run_sheet(SHEET, SHEET_LENGTH, buffer, buffer_length);

    size_t written = 0;
    if (buffer_length < REPORT_LENGTH) {
        assert(answer == KAQSHERIM_BUFFER_TOO_SHORT);
    } else {
        assert(answer == (int64_t)REPORT_LENGTH);
        written = REPORT_LENGTH;
    }
    assert(memcmp(buffer, REPORT, written) == 0);
    for (size_t i = written; i < sizeof buffer; i++)
        assert(buffer[i] == FILLER);
}

int main(void)
{
    assert(kaqsherim_version() == KAQSHERIM_VERSION);
    assert(kaqsherim_report_length(SHEET, SHEET_LENGTH) == (int64_t)REPORT_LENGTH);
    for (size_t length = 0; length <= 2 * REPORT_LENGTH; length++)
        try_buffer_of(length);
    return 0;
}
