/* A process forked before there are secrets and a filter: it asks by SSH_ASKPASS, and takes the socket away, however the agent ends. */
#include "host.h"

#include <fcntl.h>
#include <poll.h>
#include <signal.h>
#include <strings.h>
#include <sys/wait.h>

/* Becomes the program that asks. */
static void ask_by(int written, const char *prompt) {
    const char *program = getenv("SSH_ASKPASS");
    if (program == NULL || *program == 0)
        program = "/usr/bin/ssh-askpass";
    if (dup2(written, STDOUT_FILENO) >= 0 && setenv("SSH_ASKPASS_PROMPT", "confirm", 1) == 0)
        execlp(program, program, prompt, (char *)NULL);
    _exit(127);
}

/* Whether the user says yes: a program that ends with 0, and writes a line that is empty or "yes". */
static bool says_yes(int agent, const char *prompt) {
    int ends[2], status = 1;
    char told[64];
    if (pipe2(ends, O_CLOEXEC) != 0)
        return false;
    pid_t child = fork();
    if (child == 0)
        ask_by(ends[1], prompt);
    close(ends[1]);
    /* What the program writes in its line; nothing where the agent ends first. */
    struct pollfd polled[] = {{ends[0], POLLIN, 0}, {agent, 0, 0}};
    ssize_t len = child > 0 && poll(polled, 2, -1) > 0 && polled[1].revents == 0 ? read(ends[0], told, sizeof told - 1) : -1;
    close(ends[0]);
    if (child > 0 && len < 0)
        kill(child, SIGTERM);
    bool ended = child > 0 && waitpid(child, &status, 0) == child;
    if (len < 0 || !ended || !WIFEXITED(status) || WEXITSTATUS(status) != 0)
        return false;
    told[len] = 0;
    told[strcspn(told, "\r\n")] = 0;
    return told[0] == 0 || strcasecmp(told, "yes") == 0;
}

static void help(int agent, const place *where) {
    char prompt[LONGEST_PROMPT + 1];
    ssize_t len;
    signal(SIGCHLD, SIG_DFL);
    while ((len = recv(agent, prompt, LONGEST_PROMPT, 0)) > 0) {
        prompt[len] = 0;
        unsigned char yes = says_yes(agent, prompt);
        if (send(agent, &yes, 1, MSG_NOSIGNAL) < 0)
            break;
    }
    leave_place(where);
    _exit(0);
}

/* Forks the helper, with a session of its own, and gives the end that the agent has of it; -1 and errno where there is none. */
int start_helper(const place *where, int listener) {
    int ends[2];
    pid_t child = socketpair(AF_UNIX, SOCK_SEQPACKET | SOCK_CLOEXEC, 0, ends) == 0 ? fork() : -1;
    if (child == 0 && close(listener) == 0 && close(ends[0]) == 0 && setsid() > 0)
        help(ends[1], where);
    if (child == 0)
        _exit(1);
    return child < 0 || close(ends[1]) != 0 ? -1 : ends[0];
}
