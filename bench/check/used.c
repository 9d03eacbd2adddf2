/* Runs the program that its words name, with nothing on standard input, and tells on standard error its time of the
   processor in microseconds and its peak memory in KiB. */
#include <fcntl.h>
#include <stdio.h>
#include <sys/resource.h>
#include <sys/wait.h>
#include <unistd.h>

static long micros(struct timeval time) { return time.tv_sec * 1000000L + time.tv_usec; }

int main(int count, char **words) {
    struct rusage used;
    int status;
    pid_t child = fork();
    if (child == 0) {
        dup2(open("/dev/null", O_RDONLY), 0);
        execv(words[1], words + 1);
        _exit(127);
    }
    if (count < 2 || child < 0 || wait4(child, &status, 0, &used) < 0)
        return 1;
    fprintf(stderr, "%ld %ld\n", micros(used.ru_utime) + micros(used.ru_stime), used.ru_maxrss);
    return WIFSIGNALED(status) ? 1 : 0;
}
