/* Runs a program with its standard streams on /dev/null, and prints its status and the most memory that it had, in KiB: peak PROGRAM WORD..
 * What a process had before it runs a program counts as that program's. So one that has little has to start it. */
#include <fcntl.h>
#include <stdio.h>
#include <sys/resource.h>
#include <sys/wait.h>
#include <unistd.h>

int main(int count, char **words)
{
    struct rusage used;
    int status, stream, null = open("/dev/null", O_RDWR);
    pid_t child = count > 1 && null >= 0 ? fork() : -1;

    if (child == 0) {
        for (stream = 0; stream < 3; stream++)
            dup2(null, stream);
        execv(words[1], words + 1);
        _exit(127);
    }
    if (child < 0 || wait4(child, &status, 0, &used) != child || !WIFEXITED(status))
        return 1;
    printf("%d %ld\n", WEXITSTATUS(status), used.ru_maxrss);
    return 0;
}
