// Changes names as fast as it can, for demo/rotate-attacked: what another user does beside a run. It is killed at the end.
//
//   swapper exchange PATH OTHER [PATH OTHER]..   gives each path and the other each other's file, and back
//   swapper churn FOLDER NAME..                  files, links and pipes of these names in the folder come and go
//   swapper once PATH OTHER                      gives each the other's file, and ends with 0 where that can be
#define _GNU_SOURCE
#include <fcntl.h>
#include <stdio.h>
#include <stdlib.h>
#include <string.h>
#include <sys/stat.h>
#include <unistd.h>

static unsigned seed;

static unsigned draw(unsigned limit) {
    seed = seed * 1103515245u + 12345u;
    return (seed >> 8) % limit;
}

// Waits up to some hundred microseconds, mostly less.
static void wait_some(void) {
    unsigned turns = draw(1u << draw(18));
    for (volatile unsigned i = 0; i < turns; i++) {
    }
}

static int exchange(const char *path, const char *other) {
    return renameat2(AT_FDCWD, path, AT_FDCWD, other, RENAME_EXCHANGE);
}

static void churn(const char *name) {
    int file;
    switch (draw(6)) {
    case 0:
        file = open(name, O_WRONLY | O_CREAT | O_EXCL, 0644);
        if (file >= 0) {
            if (write(file, "churned\n", 8) != 8) {
                exit(1);
            }
            close(file);
        }
        break;
    case 1:
        if (symlink("nowhere", name)) {
        }
        break;
    case 2:
        mkfifo(name, 0644);
        break;
    default:
        unlink(name);
    }
}

int main(int count, char **words) {
    seed = (unsigned)getpid();
    if (count == 4 && strcmp(words[1], "once") == 0) {
        return exchange(words[2], words[3]) != 0;
    }
    // Whoever waits for it knows that it can be killed from here on.
    puts("ready");
    fflush(stdout);
    if (count >= 4 && strcmp(words[1], "exchange") == 0) {
        for (;;) {
            for (int at = 2; at + 1 < count; at += 2) {
                if (exchange(words[at], words[at + 1]) == 0) {
                    wait_some();
                    exchange(words[at], words[at + 1]);
                }
            }
            wait_some();
        }
    }
    if (count >= 4 && strcmp(words[1], "churn") == 0 && chdir(words[2]) == 0) {
        for (;;) {
            churn(words[3 + draw((unsigned)count - 3)]);
            wait_some();
        }
    }
    fprintf(stderr, "swapper: bad words\n");
    return 2;
}
