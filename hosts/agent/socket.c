/* The socket at which clients connect, and whose processes are let in. */
#include "host.h"

#include <fcntl.h>
#include <sys/stat.h>
#include <sys/un.h>

enum { BACKLOG = 1024, INHERITED = 3 };

/* Where the socket is to be: at the path, or without one in a new folder of mode 700. */
static bool find_place(const char *path, place *where) {
    const char *base = getenv("TMPDIR");
    char here[PATH_MAX] = "";
    if (path != NULL && *path != '/' && getcwd(here, sizeof here) == NULL)
        return false;
    if (path != NULL)
        return (size_t)snprintf(where->socket, PATH_MAX, "%s%s%s", here, *here == 0 ? "" : "/", path) < PATH_MAX;
    bool fits = (size_t)snprintf(where->folder, PATH_MAX, "%s/picky-XXXXXX", base == NULL || *base != '/' ? "/tmp" : base) < PATH_MAX;
    if (!fits || mkdtemp(where->folder) == NULL)
        where->folder[0] = 0;
    return where->folder[0] != 0 && (size_t)snprintf(where->socket, PATH_MAX, "%s/agent.%ld", where->folder, (long)getpid()) < PATH_MAX;
}

/* A socket of mode 600 in a place where nothing was; -1 and errno where there is none, and then nothing is left. */
int open_socket(const char *path, place *where) {
    struct sockaddr_un address = {.sun_family = AF_UNIX};
    errno = ENAMETOOLONG;
    bool found = find_place(path, where), bound = false;
    const char *name = path == NULL ? where->socket : path;
    int fd = found && strlen(name) < sizeof address.sun_path ? socket(AF_UNIX, SOCK_STREAM | SOCK_CLOEXEC | SOCK_NONBLOCK, 0) : -1;
    if (fd >= 0) {
        memcpy(address.sun_path, name, strlen(name));
        mode_t mask = umask(0177);
        bound = bind(fd, (const struct sockaddr *)&address, sizeof address) == 0;
        umask(mask);
    }
    if (bound && listen(fd, BACKLOG) == 0)
        return fd;
    if (fd >= 0)
        close(fd);
    if (!bound)
        where->socket[0] = 0;
    leave_place(where);
    return -1;
}

/* Takes away the socket and the folder, where there are such. errno stays. */
void leave_place(const place *where) {
    int why = errno;
    if (where->socket[0] != 0)
        unlink(where->socket);
    if (where->folder[0] != 0)
        rmdir(where->folder);
    errno = why;
}

/* The listening socket that systemd hands on (sd_listen_fds(3)): -1 where it hands on nothing, -2 where that isn't one. */
int inherited_socket(void) {
    const char *pid = getenv("LISTEN_PID"), *count = getenv("LISTEN_FDS");
    if (pid == NULL || count == NULL || strtol(pid, NULL, 10) != (long)getpid())
        return -1;
    int listens = 0;
    socklen_t len = sizeof listens;
    if (strcmp(count, "1") != 0 || getsockopt(INHERITED, SOL_SOCKET, SO_ACCEPTCONN, &listens, &len) != 0 || listens != 1 ||
        fcntl(INHERITED, F_SETFL, O_NONBLOCK) != 0 || fcntl(INHERITED, F_SETFD, FD_CLOEXEC) != 0)
        return -2;
    return INHERITED;
}

/* The next client, if it is a process of this user or of root; -1 and errno where there is none. */
int accept_client(int listener) {
    int fd = accept4(listener, NULL, NULL, SOCK_CLOEXEC | SOCK_NONBLOCK);
    struct ucred peer;
    socklen_t len = sizeof peer;
    if (fd < 0 || (getsockopt(fd, SOL_SOCKET, SO_PEERCRED, &peer, &len) == 0 && (peer.uid == 0 || peer.uid == geteuid())))
        return fd;
    close(fd);
    errno = EACCES;
    return -1;
}
