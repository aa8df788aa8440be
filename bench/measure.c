/* Runs a program several times and prints what the cheapest run cost: processor seconds (user and system, the least), and
   the peak memory in kilobytes (the most).

       measure RUNS INPUT PROGRAM [WORD..]

   Each run has the file INPUT as standard input, and its output is thrown away. */
#define _DEFAULT_SOURCE
#include <fcntl.h>
#include <stdio.h>
#include <stdlib.h>
#include <sys/resource.h>
#include <sys/wait.h>
#include <unistd.h>

static void become(const char *input, char **words)
{
    int in = open(input, O_RDONLY), out = open("/dev/null", O_WRONLY);
    if (in >= 0 && out >= 0 && dup2(in, 0) == 0 && dup2(out, 1) == 1 && dup2(out, 2) == 2) {
        execv(words[0], words);
    }
    _exit(127);
}

static double seconds(struct timeval time)
{
    return (double)time.tv_sec + (double)time.tv_usec / 1e6;
}

int main(int count, char **words)
{
    double least = -1;
    long most = 0;
    if (count < 4) {
        fprintf(stderr, "usage: measure RUNS INPUT PROGRAM [WORD..]\n");
        return 2;
    }
    for (long run = strtol(words[1], NULL, 10); run > 0; run--) {
        struct rusage used;
        int status = 0;
        pid_t child = fork();
        if (child == 0) {
            become(words[2], words + 3);
        }
        if (child < 0 || wait4(child, &status, 0, &used) != child || !WIFEXITED(status) || WEXITSTATUS(status) != 0) {
            fprintf(stderr, "measure: %s doesn't end with status 0\n", words[3]);
            return 1;
        }
        double took = seconds(used.ru_utime) + seconds(used.ru_stime);
        least = least < 0 || took < least ? took : least;
        most = used.ru_maxrss > most ? used.ru_maxrss : most;
    }
    printf("%.3f %ld\n", least, most);
    return 0;
}
