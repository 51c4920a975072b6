/* A recorded shift of many frames, run by the proved program and by those in C: the answers compared, then each timed in turn.
 * Usage: times FRAMES ROUNDS FOLDER OURS C..; with 0 rounds nothing is timed. The folder gets the log, its plan and the answers. */
#define _DEFAULT_SOURCE
#include <fcntl.h>
#include <stdio.h>
#include <stdlib.h>
#include <string.h>
#include <sys/resource.h>
#include <sys/wait.h>
#include <unistd.h>

/* What our program may use beside its code: so much stack, and as much again of everything else that it writes to. */
enum { ROOM = 512 * 1024, FRAME = 64, MOST = 8 };

static const char PLAN[] = "port\t1\tuni\t020000000001\nflow\t1\t1\tc\t20\nflow\t2\t1\tc\t30\nmp\t1\tup\t4\n";

/* Flow 1 is allowed, and the tester opens a session on it for a day. */
static const char OPENS[] = "bench\nallow\t1\n"
                            "frame\t1\t1\t0200000000010200000000aa810000148902803900080100020000000001250005010001518000\n";

static FILE *opened(const char *name, const char *how) {
    FILE *file = fopen(name, how);
    if (!file) {
        perror(name);
        exit(2);
    }
    return file;
}

static void write_plan(void) {
    FILE *file = opened("bench", "w");
    fputs(PLAN, file);
    fclose(file);
}

/* Frames of the tester, every second one of the service that has a session. */
static void write_log(unsigned long frames) {
    FILE *file = opened("log", "w");
    fputs(OPENS, file);
    for (unsigned long i = 0; i < frames; i++) {
        fprintf(file, "frame\t1\t1\t0200000000010200000000aa810000%s0800", i % 2 ? "1e" : "14");
        for (unsigned long octet = 18; octet < FRAME; octet++)
            fprintf(file, "%02lx", (i * 31 + octet * 17) & 255);
        fputc('\n', file);
    }
    fclose(file);
}

static void run_limited(int is_limited) {
    const struct rlimit limit = {ROOM, ROOM};
    if (is_limited && (setrlimit(RLIMIT_STACK, &limit) || setrlimit(RLIMIT_DATA, &limit)))
        _exit(3);
}

/* Seconds of the processor that a run takes. */
static double run(const char *program, const char *output, int is_limited) {
    struct rusage usage;
    int status;
    pid_t child = fork();
    if (child == 0) {
        int in = open("log", O_RDONLY), out = open(output, O_WRONLY | O_CREAT | O_TRUNC, 0666);
        if (in < 0 || out < 0 || dup2(in, 0) < 0 || dup2(out, 1) < 0)
            _exit(3);
        run_limited(is_limited);
        execl(program, program, (char *)NULL);
        _exit(3);
    }
    if (child < 0 || wait4(child, &status, 0, &usage) != child || status != 0) {
        fprintf(stderr, "%s did not end well\n", program);
        exit(1);
    }
    return usage.ru_utime.tv_sec + usage.ru_stime.tv_sec + (usage.ru_utime.tv_usec + usage.ru_stime.tv_usec) * 1e-6;
}

static void compare(const char *program, const char *name) {
    FILE *ours = opened("ours", "r"), *theirs = opened(name, "r");
    int a, b;
    do {
        a = getc(ours), b = getc(theirs);
        if (a != b) {
            fprintf(stderr, "%s answers otherwise\n", program);
            exit(1);
        }
    } while (a != EOF);
    fclose(ours);
    fclose(theirs);
}

static void show(double *best, int programs, unsigned long frames, int rounds, char **names) {
    double c = best[1];
    printf("%lu frames of %d octets, the best of %d runs each: ours %.0f ms", frames, FRAME, rounds, best[0] * 1e3);
    for (int i = 1; i < programs; i++) {
        const char *slash = strrchr(names[i], '/');
        printf(", %s %.0f ms", slash ? slash + 1 : names[i], best[i] * 1e3);
        if (best[i] < c)
            c = best[i];
    }
    printf(": ratio %.2f\n", best[0] / c);
}

int main(int count, char **words) {
    double best[MOST];
    int programs = count - 4;
    if (programs < 2 || programs > MOST || chdir(words[3]) != 0) {
        fprintf(stderr, "usage: times FRAMES ROUNDS FOLDER OURS C..\n");
        return 2;
    }
    unsigned long frames = strtoul(words[1], NULL, 10);
    int rounds = atoi(words[2]);
    write_plan();
    write_log(frames);
    run(words[4], "ours", 1);
    for (int i = 1; i < programs; i++) {
        run(words[4 + i], "theirs", 0);
        compare(words[4 + i], "theirs");
    }
    printf("a recorded shift: ours and the C answer %lu frames alike, ours within 512 KiB of stack and 512 KiB of data\n", frames);
    for (int round = 0; round < rounds; round++)
        for (int i = 0; i < programs; i++) {
            double took = run(words[4 + i], "/dev/null", 0);
            if (round == 0 || took < best[i])
                best[i] = took;
        }
    if (rounds > 0)
        show(best, programs, frames, rounds, words + 4);
    return 0;
}
