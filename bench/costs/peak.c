/* peak FILE COMMAND..: runs the command on the file, its output thrown away, and prints the most memory
   that it held, in KiB, and its processor time in microseconds. A small parent keeps the figure honest:
   a process that starts from a large one can be charged with that one's memory. */
#include <fcntl.h>
#include <stdio.h>
#include <sys/resource.h>
#include <sys/wait.h>
#include <unistd.h>

int main(int count, char **words) {
    if (count < 3) return 2;
    pid_t child = fork();
    if (child == 0) {
        int in = open(words[1], O_RDONLY), out = open("/dev/null", O_WRONLY);
        if (in < 0 || out < 0 || dup2(in, 0) < 0 || dup2(out, 1) < 0) _exit(126);
        execvp(words[2], words + 2);
        _exit(127);
    }
    int status;
    struct rusage used;
    if (child < 0 || wait4(child, &status, 0, &used) < 0) return 2;
    if (!WIFEXITED(status) || WEXITSTATUS(status) != 0) return 1;
    long time = (used.ru_utime.tv_sec + used.ru_stime.tv_sec) * 1000000L + used.ru_utime.tv_usec + used.ru_stime.tv_usec;
    printf("%ld %ld\n", used.ru_maxrss, time);
    return 0;
}
