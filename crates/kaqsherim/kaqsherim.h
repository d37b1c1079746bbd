/* The versioned tape catalogue, for programs in C: runs a sheet that is held in memory.
 *
 * Link with libkaqsherim.a, which bindings/build writes to target/staticlib/, and with c/liblibc_c.a of
 * the Rattle toolchain. Memory comes from malloc, and all of it is freed at the return.
 *
 * No pointer may be NULL, not even where its length is 0; the bytes of a sheet and of a buffer may not
 * overlap. No function keeps a pointer, and none has state: calls from several threads at once are fine,
 * as long as none has another's buffer.
 */
#ifndef KAQSHERIM_H
#define KAQSHERIM_H

#include <stddef.h>
#include <stdint.h>

#ifdef __cplusplus
extern "C" {
#endif

/* The version that this header describes. */
#define KAQSHERIM_VERSION 1

/* The report is longer than the buffer; nothing was written to it. */
#define KAQSHERIM_BUFFER_TOO_SHORT (-1)

/* malloc had no memory; nothing was written to the buffer. */
#define KAQSHERIM_NO_MEMORY (-2)

/* The version of the library: KAQSHERIM_VERSION, where header and library fit together. */
uint32_t kaqsherim_version(void);

/* How many bytes the report of a sheet has, whatever the bytes of the sheet are; the sheet is run to
 * find out. Else KAQSHERIM_NO_MEMORY. */
int64_t kaqsherim_report_length(const uint8_t *sheet, size_t sheet_length);

/* Runs a sheet, whatever its bytes are, and writes its report to the front of the buffer, with no zero
 * byte behind it: the bytes that the program sheetrun prints for the sheet. Answers how many they are;
 * the bytes of the buffer behind them are left as they were. Else KAQSHERIM_BUFFER_TOO_SHORT or
 * KAQSHERIM_NO_MEMORY, and the whole buffer is left as it was. */
int64_t kaqsherim_run_sheet(const uint8_t *sheet, size_t sheet_length, uint8_t *buffer,
                            size_t buffer_length);

#ifdef __cplusplus
}
#endif

#endif
