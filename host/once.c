/*
 * once PROGRAM < INPUT: runs the program with its output on a socket that keeps the bounds of
 * each call of write, and prints what the first call wrote. Status 1 where there was another.
 */
#include <stdio.h>
#include <sys/socket.h>
#include <sys/types.h>
#include <sys/wait.h>
#include <unistd.h>

static char text[65536];

int main(int argc, char **argv)
{
    int ends[2];
    if (argc != 2 || socketpair(AF_UNIX, SOCK_SEQPACKET, 0, ends) != 0)
        return 2;
    pid_t child = fork();
    if (child == 0) {
        dup2(ends[1], 1);
        close(ends[0]);
        close(ends[1]);
        execl(argv[1], argv[1], (char *)0);
        _exit(2);
    }
    close(ends[1]);
    ssize_t first = recv(ends[0], text, sizeof text, 0);
    char more;
    ssize_t second = recv(ends[0], &more, 1, 0);
    if (child < 0 || waitpid(child, 0, 0) != child || first < 0)
        return 2;
    fwrite(text, 1, (size_t)first, stdout);
    return second > 0;
}
