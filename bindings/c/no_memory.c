/* Lets each call of malloc and of realloc fail in turn: the answer says so, the buffer is left as it was, and nothing is leaked.
 * Linked with -Wl,--wrap=malloc,--wrap=realloc,--wrap=free, so that the library's calls come here. */
#include "kaqsherim.h"

#include <assert.h>
#include <stdio.h>
#include <stdlib.h>
#include <string.h>

enum { FILLER = 0xa5, MOST_CALLS = 1000 };

static const uint8_t SHEET[] = "call,number,place,row,high,low,class\nbegin,,nnwnnnnn,,,,\nx\n";
static const size_t SHEET_LENGTH = sizeof SHEET - 1;

static int calls;
static int failing_call = -1;
static int blocks;

void *__real_malloc(size_t size);
void *__real_realloc(void *block, size_t size);
void __real_free(void *block);
void *__wrap_malloc(size_t size);
void *__wrap_realloc(void *block, size_t size);
void __wrap_free(void *block);

void *__wrap_malloc(size_t size)
{
    void *block = calls++ == failing_call ? NULL : __real_malloc(size);
    blocks += block != NULL;
    return block;
}

void *__wrap_realloc(void *block, size_t size)
{
    void *moved = calls++ == failing_call ? NULL : __real_realloc(block, size);
    blocks += block == NULL && moved != NULL;
    return moved;
}

void __wrap_free(void *block)
{
    blocks -= block != NULL;
    __real_free(block);
}

/* Whether the run answered a length, no call having failed. */
static int runs_with_failing(int call)
{
    uint8_t buffer[100];
    memset(buffer, FILLER, sizeof buffer);
    calls = 0;
    failing_call = call;
    int64_t length = kaqsherim_report_length(SHEET, SHEET_LENGTH);
    calls = 0;
    int64_t answer = kaqsherim_run_sheet(SHEET, SHEET_LENGTH, buffer, sizeof buffer);

    assert(blocks == 0);
    assert(length == answer);
    if (answer >= 0) {
        assert(calls <= call);
        return 1;
    }
    assert(answer == KAQSHERIM_NO_MEMORY);
    for (size_t i = 0; i < sizeof buffer; i++)
        assert(buffer[i] == FILLER);
    return 0;
}

int main(void)
{
    for (int call = 0; call < MOST_CALLS; call++) {
        if (runs_with_failing(call)) {
            printf("%d\n", call);
            return EXIT_SUCCESS;
        }
    }
    return EXIT_FAILURE;
}
