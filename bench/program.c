/*
 * The program (target/bin/md6) on 64 MB of zero bytes from a pipe, node lines
 * thrown away, against md6_hash on the same bytes: d = 256, L = 64, default
 * rounds, processor time of each, interleaved, best of several.
 */
#define _POSIX_C_SOURCE 199309L
#include "reference.h"

#include <fcntl.h>
#include <sys/wait.h>
#include <unistd.h>

#include "../include/md6.h"

#define BYTES 64000000u

/* writes all bytes to the pipe; answers whether it could */
static int put(int fd, const uint8_t *p, size_t n)
{
    while (n > 0) {
        ssize_t k = write(fd, p, n);
        if (k <= 0)
            return 0;
        p += k;
        n -= (size_t)k;
    }
    return 1;
}

/* the program's processor time, or a negative number */
static double run_program(const uint8_t *message)
{
    static const char line[] = "256 64 - -\n";
    double before = processor(RUSAGE_CHILDREN);
    int ends[2], status, good;
    pid_t child;

    if (pipe(ends) != 0 || (child = fork()) < 0)
        return -1;
    if (child == 0) {
        int out = open("/dev/null", O_WRONLY);
        dup2(ends[0], 0);
        dup2(out, 1);
        close(ends[0]);
        close(ends[1]);
        execl("target/bin/md6", "md6", (char *)NULL);
        _exit(127);
    }
    close(ends[0]);
    good = put(ends[1], (const uint8_t *)line, sizeof line - 1) && put(ends[1], message, BYTES);
    close(ends[1]);
    waitpid(child, &status, 0);
    if (!good || !WIFEXITED(status) || WEXITSTATUS(status) != 0)
        return -1;
    return processor(RUSAGE_CHILDREN) - before;
}

int main(void)
{
    uint8_t *message = get(BYTES, 1), digest[32];
    double best = 0, best_program = 0;
    unsigned k;

    memset(message, 0, BYTES);
    for (k = 0; k < 12; k++) {
        double t0 = processor(RUSAGE_SELF), t;
        if (md6_hash(message, BYTES, 0, 8 * (uint64_t)BYTES, NULL, 0, 256, 64, md6_default_rounds(256, 0).count, digest, sizeof digest) != 0)
            return 1;
        keep_best(&best, processor(RUSAGE_SELF) - t0);
        t = run_program(message);
        if (t < 0)
            return 1;
        keep_best(&best_program, t);
    }
    free(message);
    printf("                                                  found  at most\n");
    printf("64 MB from a pipe, time of the whole-message call  %5.3f    1.10\n", best_program / best);
    return 0;
}
