/* Judges reports: example SCRIPT REPORT [STANDING], STANDING being the names of the endpoints that stood. It writes yes
 * or no, or why there is no answer. Its status is 0 for yes, 1 for no, and 2 otherwise. */
#include "spin.h"

#include <stdio.h>
#include <stdlib.h>
#include <string.h>

struct text {
    char *at;
    size_t length;
};

/* The bytes of a file; null where it can't be read. */
static struct text read_text(const char *name) {
    struct text text = {NULL, 0};
    FILE *file = fopen(name, "rb");
    if (file == NULL) {
        return text;
    }
    size_t room = 1 << 16, more;
    text.at = malloc(room);
    while (text.at != NULL && (more = fread(text.at + text.length, 1, room - text.length, file)) > 0) {
        text.length += more;
        if (text.length == room) {
            char *grown = realloc(text.at, room *= 2);
            if (grown == NULL) {
                free(text.at);
            }
            text.at = grown;
        }
    }
    fclose(file);
    return text;
}

int main(int count, char **words) {
    if (count < 3) {
        fprintf(stderr, "usage: example SCRIPT REPORT [STANDING]\n");
        return 2;
    }
    struct text script = read_text(words[1]), report = read_text(words[2]);
    const char *standing = count > 3 ? words[3] : "";
    struct spin_fault fault = {0, 0};
    uint32_t error =
        spin_judge(script.at, script.length, report.at, report.length, standing, strlen(standing), &fault);
    free(script.at);
    free(report.at);
    switch (error) {
    case SPIN_OK: puts("yes"); return 0;
    case SPIN_NO_HISTORY: puts("no"); return 1;
    case SPIN_BAD_SCRIPT: printf("no script: line %u, cause %u\n", fault.line, fault.cause); return 2;
    default: printf("%s\n", spin_error_name(error)); return 2;
    }
}
