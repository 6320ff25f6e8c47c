/* The judge of runs: whether a report is that of a lawful run of a script. docs/CHECK.md says what is judged and how. */
#ifndef FUZZYLOG_H
#define FUZZYLOG_H

#include <stddef.h>
#include <stdint.h>

enum fuzzylog_kind {
    FUZZYLOG_LAWFUL = 0,
    FUZZYLOG_BROKEN = 1,      /* number: the first rule that is broken, 1 to 14 */
    FUZZYLOG_NO_SCRIPT = 2,   /* number: the line that is refused, 0 where the script is too long */
    FUZZYLOG_TOO_LONG = 3,    /* the report has more than 16,777,216 bytes */
    FUZZYLOG_BAD_FORM = 4,    /* it is the text of no report of the script */
    FUZZYLOG_HIDDEN = 5,      /* number: the line whose answer does not say all that its command did */
    FUZZYLOG_NO_MEMORY = 6    /* memory was refused; nothing is said */
};

struct fuzzylog_said {
    uint32_t kind;
    uint32_t number;
};

/* Both texts are read, and not kept. Where a length is 0 the pointer may be any that is not null. */
struct fuzzylog_said fuzzylog_check(const uint8_t *script, size_t script_length, const uint8_t *report, size_t report_length);

#endif
