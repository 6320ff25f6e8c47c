/* Judges a report: check SCRIPT REPORT. It prints what is said in one line; the status is 0 where the report is lawful. */
#include "fuzzylog.h"
#include <stdio.h>
#include <stdlib.h>

/* A file's bytes and one more, so that there is memory for none, too. */
static uint8_t *read_file(const char *name, size_t *length) {
    FILE *file = fopen(name, "rb");
    uint8_t *bytes = NULL;
    size_t room = 0, got;
    *length = 0;
    if (!file) return NULL;
    do {
        if (*length == room) {
            uint8_t *more = realloc(bytes, room = 2 * room + 4096);
            if (!more) {
                free(bytes);
                bytes = NULL;
                break;
            }
            bytes = more;
        }
        got = fread(bytes + *length, 1, room - *length, file);
        *length += got;
    } while (got > 0);
    if (ferror(file)) {
        free(bytes);
        bytes = NULL;
    }
    fclose(file);
    return bytes;
}

int main(int count, char **words) {
    size_t script_length, report_length;
    uint8_t *script, *report;
    struct fuzzylog_said said;
    if (count != 3) {
        fprintf(stderr, "usage: check SCRIPT REPORT\n");
        return 1;
    }
    script = read_file(words[1], &script_length);
    report = read_file(words[2], &report_length);
    if (!script || !report) {
        fprintf(stderr, "check: %s can't be read\n", script ? words[2] : words[1]);
        return 3;
    }
    said = fuzzylog_check(script, script_length, report, report_length);
    free(script);
    free(report);
    switch (said.kind) {
    case FUZZYLOG_LAWFUL:
        puts("lawful");
        return 0;
    case FUZZYLOG_BROKEN:
        printf("broken: rule %u\n", (unsigned)said.number);
        return 6;
    case FUZZYLOG_NO_SCRIPT:
        printf("line %u of the script is refused\n", (unsigned)said.number);
        return 2;
    case FUZZYLOG_TOO_LONG:
        puts("the report is too long");
        return 2;
    case FUZZYLOG_BAD_FORM:
        puts("this is the text of no report of the script");
        return 2;
    case FUZZYLOG_HIDDEN:
        printf("the answer to line %u hides what was done\n", (unsigned)said.number);
        return 2;
    default:
        fputs("check: out of memory\n", stderr);
        return 5;
    }
}
