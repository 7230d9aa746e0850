// Refuses one allocation of a program, that with the number in the variable REFUSED, counted from 1, and writes at its end how
// many it asked for into the file that COUNTED names: a library that is loaded before a program (`cc -shared -fPIC`). Programs
// that it starts are let alone.
#include <errno.h>
#include <fcntl.h>
#include <stdio.h>
#include <stdlib.h>
#include <unistd.h>
extern void *__libc_malloc(size_t size);
extern void *__libc_realloc(void *old, size_t size);
static long asked, refused;
static const char *counted;
__attribute__((constructor)) static void begin(void) {
    const char *text = getenv("REFUSED");
    if (text) refused = atol(text);
    counted = getenv("COUNTED");
    unsetenv("LD_PRELOAD");
    asked = 0;
}
__attribute__((destructor)) static void end(void) {
    char text[24];
    int file = counted ? open(counted, O_WRONLY | O_CREAT | O_TRUNC, 0600) : -1;
    if (file < 0) return;
    int length = snprintf(text, sizeof text, "%ld\n", asked);
    if (write(file, text, length) != length) abort();
    close(file);
}
static int is_refused(void) {
    int is_it = ++asked == refused;
    if (is_it) errno = ENOMEM;
    return is_it;
}
void *malloc(size_t size) {
    return is_refused() ? NULL : __libc_malloc(size);
}
void *realloc(void *old, size_t size) {
    return is_refused() ? NULL : __libc_realloc(old, size);
}
