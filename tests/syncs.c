/* Tells in which order a run writes the store's file, syncs it, syncs its folder and speaks, in the file that TOLD names: of each call a letter,
   w, s, f or o, with the place and the number of octets that are written or spoken, in a line, and behind it these octets. STORE names the
   store's file. The sync whose number FAILED has syncs nothing, and fails with the error that ERROR has. It stands between a program and the
   system's library, by LD_PRELOAD. */
#define _GNU_SOURCE
#include <dlfcn.h>
#include <errno.h>
#include <libgen.h>
#include <stdio.h>
#include <stdlib.h>
#include <sys/stat.h>
#include <unistd.h>

static FILE *told;
static unsigned long syncs;

static unsigned long number_of(const char *name) {
    const char *number = getenv(name);
    return number != NULL ? strtoul(number, NULL, 10) : 0;
}

__attribute__((constructor)) static void begin(void) {
    const char *name = getenv("TOLD");
    told = name != NULL ? fopen(name, "w") : NULL;
}

static void tell(char letter, const void *octets, size_t count, off64_t at) {
    if (told != NULL) {
        fprintf(told, "%c %lld %zu\n", letter, (long long)at, count);
        fwrite(octets, 1, count, told);
        fflush(told);
    }
}

/* Whether a descriptor is of the file or folder that has a name. */
static int is_of(int fd, const char *name) {
    struct stat here, there;
    return fstat(fd, &here) == 0 && stat(name, &there) == 0 && here.st_dev == there.st_dev && here.st_ino == there.st_ino;
}

/* Whether a descriptor is of the store's file. */
static int is_store(int fd) {
    const char *name = getenv("STORE");
    return name != NULL && is_of(fd, name);
}

/* Whether a descriptor is of the folder of the store's file, to which symbolic links may lead. */
static int is_folder(int fd) {
    const char *name = getenv("STORE");
    char *file = name != NULL ? realpath(name, NULL) : NULL;
    int is = file != NULL && is_of(fd, dirname(file));
    free(file);
    return is;
}

/* Counts a sync, by the call that the system has for it. */
static int synced(const char *call, int fd) {
    int (*system_call)(int) = (int (*)(int))dlsym(RTLD_NEXT, call);
    tell(is_store(fd) ? 's' : is_folder(fd) ? 'f' : '?', "", 0, 0);
    if (++syncs == number_of("FAILED")) {
        errno = (int)number_of("ERROR");
        return -1;
    }
    return system_call(fd);
}

int fdatasync(int fd) { return synced("fdatasync", fd); }
int fsync(int fd) { return synced("fsync", fd); }

ssize_t pwrite64(int fd, const void *octets, size_t count, off64_t at) {
    ssize_t (*system_call)(int, const void *, size_t, off64_t) = (ssize_t (*)(int, const void *, size_t, off64_t))dlsym(RTLD_NEXT, "pwrite64");
    if (is_store(fd))
        tell('w', octets, count, at);
    return system_call(fd, octets, count, at);
}

ssize_t pwrite(int fd, const void *octets, size_t count, off_t at) { return pwrite64(fd, octets, count, at); }

ssize_t write(int fd, const void *octets, size_t count) {
    ssize_t (*system_call)(int, const void *, size_t) = (ssize_t (*)(int, const void *, size_t))dlsym(RTLD_NEXT, "write");
    if (is_store(fd) || fd == 1)
        tell(fd == 1 ? 'o' : '?', octets, count, 0);
    return system_call(fd, octets, count);
}
