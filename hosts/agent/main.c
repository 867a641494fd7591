/* picky-agent: an SSH agent that signs, over libpicky and OpenSSL's libcrypto. The manual page has its words. */
#include "host.h"

#include <ctype.h>
#include <fcntl.h>
#include <openssl/crypto.h>
#include <signal.h>
#include <sys/syscall.h>

static const char usage[] = "usage: picky-agent [-c | -s] [-a SOCKET] [-t LIFE] [-D | COMMAND [WORD ..]]\n"
                            "       picky-agent [-c | -s] -k\n"
                            "       picky-agent --help | --version\n";

typedef struct options {
    const char *socket;
    int64_t life;
    bool csh, ends, stays;
    char **command;
} options;

/* OpenSSL's memory is wiped too: the linker has realloc and free wipe. */
static void *reallocate(void *block, size_t size, const char *file, int line) {
    (void)file, (void)line;
    return realloc(block, size);
}

static void release(void *block, const char *file, int line) {
    (void)file, (void)line;
    free(block);
}

static int fail(const char *what) {
    fprintf(stderr, "picky-agent: %s: %s\n", what, strerror(errno));
    return 1;
}

/* The status behind what was printed. */
static int printed(int count) {
    return count > 0 && fflush(stdout) == 0 ? 0 : fail("standard output");
}

/* A time as ssh-agent's -t has it, in milliseconds: numbers, each with s, m, h, d, w or nothing behind; 0 where it is none. */
static int64_t read_life(const char *it) {
    static const char units[] = "smhdw";
    static const int64_t seconds[] = {1, 60, 3600, 86400, 604800, 1};
    int64_t sum = 0;
    while (*it != 0) {
        char *end;
        long number = isdigit((unsigned char)*it) ? strtol(it, &end, 10) : -1;
        const char *unit = number < 0 || number > INT_MAX ? NULL : strchr(units, tolower((unsigned char)*end));
        if (unit == NULL || sum > INT_MAX)
            return 0;
        sum += number * seconds[unit - units];
        it = end + (*end != 0);
    }
    return sum <= INT_MAX ? sum * 1000 : 0;
}

static bool read_options(int count, char **words, options *it) {
    const char *shell = getenv("SHELL");
    size_t len = shell == NULL ? 0 : strlen(shell);
    int word;
    it->csh = len >= 3 && strcmp(shell + len - 3, "csh") == 0;
    while ((word = getopt(count, words, "+csa:t:Dk")) >= 0) {
        if (word == '?' || (word == 't' && (it->life = read_life(optarg)) == 0))
            return false;
        it->csh = word == 'c' || (word != 's' && it->csh);
        it->stays = it->stays || word == 'D';
        it->ends = it->ends || word == 'k';
        it->socket = word == 'a' ? optarg : it->socket;
    }
    it->command = words + optind;
    bool runs = optind < count;
    return !(runs && it->stays) && !(it->ends && (runs || it->stays || it->socket != NULL || it->life != 0));
}

static int print_variables(const options *it, const char *path, pid_t pid) {
    return printed(printf(it->csh ? "setenv SSH_AUTH_SOCK %s;\nsetenv SSH_AGENT_PID %ld;\necho Agent pid %ld;\n"
                                  : "SSH_AUTH_SOCK=%s; export SSH_AUTH_SOCK;\nSSH_AGENT_PID=%ld; export SSH_AGENT_PID;\n"
                                    "echo Agent pid %ld;\n", path, (long)pid, (long)pid));
}

/* -k: ends the agent of the environment. */
static int end_other(const options *it) {
    const char *told = getenv("SSH_AGENT_PID"), *word = it->csh ? "unsetenv" : "unset";
    char *end = "";
    long pid = told == NULL ? 0 : strtol(told, &end, 10);
    errno = EINVAL;
    if (pid < 2 || *end != 0 || pid > INT_MAX || kill((pid_t)pid, SIGTERM) != 0)
        return fail("SSH_AGENT_PID");
    return printed(printf("%s SSH_AUTH_SOCK;\n%s SSH_AGENT_PID;\necho Agent pid %ld killed;\n", word, word, pid));
}

/* Becomes a process of its own, without the streams of the one that started it. */
static bool leave(void) {
    int null = open("/dev/null", O_RDWR | O_CLOEXEC);
    bool left = null >= 0 && setsid() > 0 && chdir("/") == 0;
    for (int fd = 0; fd <= 2 && left; fd++)
        left = dup2(null, fd) >= 0;
    return left;
}

/* The agent is the child; its parent waits for its word, and then prints where that is, or becomes the command. */
static int part(const options *it, const char *path, pid_t child, int told) {
    char pid[32];
    errno = ECHILD;
    if (recv(told, &errno, sizeof errno, 0) < 0 || errno != 0)
        return fail("start");
    if (*it->command == NULL)
        return print_variables(it, path, child);
    snprintf(pid, sizeof pid, "%ld", (long)child);
    if (setenv("SSH_AUTH_SOCK", path, 1) == 0 && setenv("SSH_AGENT_PID", pid, 1) == 0)
        execvp(*it->command, it->command);
    return fail(*it->command);
}

/* Begins where the socket is, and serves; with a command as long as that runs. */
static int run(agent *it, const options *told) {
    place where = {"", ""};
    int listener = inherited_socket(), command = -1, helper, ends[] = {-1, -1};
    bool is_inherited = listener >= 0, stays = told->stays || is_inherited, runs = !stays && *told->command != NULL;
    if (listener == -1)
        listener = open_socket(told->socket, &where);
    if (listener < 0)
        return fail(told->socket != NULL ? told->socket : "a socket");
    const char *path = told->socket != NULL ? told->socket : where.socket;
    pid_t first = getpid(), child = stays ? 0 : socketpair(AF_UNIX, SOCK_SEQPACKET | SOCK_CLOEXEC, 0, ends) == 0 ? fork() : -1;
    if (child > 0 && close(ends[1]) == 0)
        return part(told, path, child, ends[0]);
    if (child == 0 && (!runs || ((command = (int)syscall(SYS_pidfd_open, first, 0)) >= 0 && getppid() == first)) && (stays || leave()) &&
        (!stays || is_inherited || print_variables(told, path, first) == 0) && (helper = start_helper(&where, listener)) >= 0 &&
        serve(it, listener, helper, command, ends[1]))
        return 0;
    leave_place(&where);
    if (child == 0 && !stays)
        return send(ends[1], &errno, sizeof errno, MSG_NOSIGNAL) > 0;
    return fail("start");
}

int main(int count, char **words) {
    options told = {0};
    uintptr_t heap = (uintptr_t)sbrk(0);
    /* Where one of the three streams is closed, a socket would take its number. */
    int fd = -1;
    while (fd <= STDERR_FILENO)
        if ((fd = open("/dev/null", O_RDWR)) < 0)
            return fail("/dev/null");
    close(fd);
    if (count == 2 && strcmp(words[1], "--help") == 0)
        return printed(printf("%s", usage));
    if (count == 2 && strcmp(words[1], "--version") == 0)
        return printed(printf("%s\n", picky_version().text));
    if (!read_options(count, words, &told)) {
        fputs(usage, stderr);
        return 1;
    }
    if (told.ends)
        return end_other(&told);
    agent *it = CRYPTO_set_mem_functions(NULL, reallocate, release) == 1 ? calloc(1, sizeof *it) : NULL;
    if (it == NULL || !start_agent(it, told.life)) {
        fputs("picky-agent: libcrypto doesn't sign here\n", stderr);
        return 1;
    }
    it->heap = heap;
    return run(it, &told);
}
