/* A program that stands for PROGRAM, of another processor: RUN it by an emulator. A library that is to be preloaded is
 * handed on to it alone. Linked statically: cc -static -DRUN='"qemu-aarch64", "-L", "/usr/aarch64-linux-gnu"'
 * -DPROGRAM='"/place/las"' emulated.c. */
#define _GNU_SOURCE
#include <stdio.h>
#include <stdlib.h>
#include <string.h>
#include <unistd.h>

#ifndef PROGRAM
#define RUN "env"
#define PROGRAM "true"
#endif

enum { MOST = 4096 };

int main(int count, char **words) {
    static const char *run[] = {RUN};
    static const char *line[MOST];
    static char setting[MOST];
    const char *preloaded = getenv("LD_PRELOAD");
    size_t length = sizeof run / sizeof *run;
    if (count < 1 || (size_t)count + length + 4 > MOST) return 126;
    memcpy(line, run, sizeof run);
    if (preloaded) {
        snprintf(setting, sizeof setting, "LD_PRELOAD=%s", preloaded);
        unsetenv("LD_PRELOAD");
        line[length++] = "-E";
        line[length++] = setting;
    }
    line[length++] = PROGRAM;
    for (int i = 1; i < count; i++) line[length++] = words[i];
    execvp(line[0], (char **)line);
    return 126;
}
