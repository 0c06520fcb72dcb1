/* The reports of many files: archive LIST, with a name a line; each report follows a line with the file's name. It is
 * what bindings/archive.py holds the command's time to. */
#include "buulset.h"
#include <fcntl.h>
#include <stdio.h>
#include <string.h>
#include <unistd.h>

static char name[4096];
static uint8_t file[BUULSET_MAX_FILE + 1];

int main(int argc, char **argv) {
    FILE *list = argc == 2 ? fopen(argv[1], "r") : NULL;
    if (!list) return 2;
    while (fgets(name, sizeof name, list)) {
        size_t length = 0;
        ssize_t more = 0;
        name[strcspn(name, "\n")] = 0;
        int input = open(name, O_RDONLY);
        if (input < 0) return 2;
        while (length < sizeof file && (more = read(input, file + length, sizeof file - length)) > 0)
            length += (size_t)more;
        close(input);
        if (more < 0) return 2;
        buulset_text report = buulset_report(file, length);
        printf("%s\n", name);
        fwrite(report.bytes, 1, report.length, stdout);
    }
    return fflush(stdout) ? 3 : 0;
}
