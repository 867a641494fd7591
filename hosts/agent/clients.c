/* One loop over all clients. Of each it holds one message and one reply, and in a turn each is answered once: none holds up others. */
#include "host.h"

#include <poll.h>
#include <signal.h>
#include <sys/signalfd.h>
#include <time.h>

enum { SIGNALS, HELPER, PARENT, LISTENER, OTHERS };
enum { MOST_CLIENTS = 2048, RESERVED = 32, PIECE = 1024, LONGEST_SLEEP = 10000 };

typedef struct client {
    int fd;
    bool ended;     /* whether it sends no more */
    uint64_t heard; /* when it last sent something, by the server's count */
    uint64_t waits; /* since when it waits for the user; 0 where it doesn't */
    buffer in, out;
    size_t sent;    /* of out */
} client;

typedef struct server {
    agent *agent;
    uint64_t events; /* the count */
    uint64_t asked;  /* which client the user is asked for, by its `waits`; 0 where nobody is asked */
    int64_t now;
    size_t count, most;
    client clients[MOST_CLIENTS];
    struct pollfd polled[OTHERS + MOST_CLIENTS];
} server;

/* Milliseconds, also those in which the machine slept; never 0. */
static int64_t clock_now(void) {
    struct timespec now;
    if (clock_gettime(CLOCK_BOOTTIME, &now) != 0)
        abort();
    return (int64_t)now.tv_sec * 1000 + now.tv_nsec / 1000000 + 1;
}

static void close_client(server *s, client *it) {
    close(it->fd);
    drop(&it->in);
    drop(&it->out);
    *it = s->clients[--s->count];
}

/* ---- a client's message and reply */

/* The length of the message that has come whole; 0 where none has. */
static size_t whole(const client *it) {
    size_t len = it->in.len < 4 ? 0 : number_at(it->in.at);
    return it->in.len >= 4 + len ? len : 0;
}

/* When a client's message may be answered: a 23 has to wait where a passphrase was wrong. */
static int64_t due(const server *s, const client *it) {
    return it->in.at[4] == UNLOCK && s->agent->locked ? s->agent->unlocks_from : 0;
}

/* Reads what there is, of one message as far as it goes; false where no message can come. */
static bool hear(server *s, client *it) {
    size_t wanted = it->in.len < 4 ? PIECE : 4 + (size_t)number_at(it->in.at), grown = 2 * it->in.len + PIECE;
    if (!grow(&it->in, wanted < grown ? wanted : grown))
        return false;
    ssize_t got = recv(it->fd, it->in.at + it->in.len, it->in.room - it->in.len, MSG_DONTWAIT);
    if (got < 0)
        return errno == EAGAIN || errno == EINTR;
    it->heard = ++s->events;
    it->ended = got == 0;
    it->in.len += (size_t)got;
    return true;
}

static bool tell(client *it) {
    ssize_t sent = send(it->fd, it->out.at + it->sent, it->out.len - it->sent, MSG_DONTWAIT | MSG_NOSIGNAL);
    if (sent < 0)
        return errno == EAGAIN || errno == EINTR;
    it->sent += (size_t)sent;
    if (it->sent == it->out.len) {
        it->sent = 0;
        drop(&it->out);
    }
    return true;
}

/* Sends the reply, and forgets the message. */
static bool reply_with(client *it, picky_bytes reply) {
    size_t len = 4 + (size_t)number_at(it->in.at), left = it->in.len - len;
    memmove(it->in.at, it->in.at + len, left);
    explicit_bzero(it->in.at + left, len);
    it->in.len = left;
    it->waits = 0;
    if (left == 0 && it->in.room > 4 * PIECE)
        drop(&it->in);
    return reply.len > 0 && put_string(&it->out, reply) && tell(it);
}

/* Answers a client's message, or has it wait for the user. */
static bool answer_client(server *s, client *it, bool confirmed) {
    buffer reply = {0};
    bool good = true;
    if (answer(s->agent, it->in.at + 4, whole(it), confirmed, s->now, &reply))
        good = reply_with(it, held(&reply));
    else
        it->waits = ++s->events;
    drop(&reply);
    wipe_stack(false);
    lock_heap(&s->agent->heap);
    return good;
}

/* A client's turn; false where its connection ends. */
static bool attend(server *s, client *it, const struct pollfd *seen) {
    bool gone = (seen->revents & (POLLERR | POLLNVAL)) != 0 || ((seen->revents & POLLHUP) != 0 && (seen->events & POLLIN) == 0);
    if (gone || ((seen->revents & (POLLIN | POLLHUP)) != 0 && !hear(s, it)) || ((seen->revents & POLLOUT) != 0 && !tell(it)))
        return false;
    size_t told = it->in.len < 4 ? 1 : number_at(it->in.at);
    if (told < 1 || told > LONGEST)
        return false;
    if (whole(it) > 0 && it->out.len == 0 && it->waits == 0 && due(s, it) <= s->now && !answer_client(s, it, false))
        return false;
    return !it->ended || it->out.len > 0 || whole(it) > 0;
}

/* ---- the user */

static const picky_bytes refusal = {"\5", 1};

/* The client that waits longest, or that the user is asked for; NULL where there is none. */
static client *waiting(server *s) {
    client *found = NULL;
    for (client *it = s->clients; it < s->clients + s->count; it++)
        if (it->waits != 0 && (s->asked == 0 ? found == NULL || it->waits < found->waits : it->waits == s->asked))
            found = it;
    return found;
}

/* What the helper says for the client that is asked for; one that is gone says no. */
static void hear_helper(server *s) {
    struct pollfd *helper = &s->polled[HELPER];
    unsigned char yes = 0;
    ssize_t got = recv(helper->fd, &yes, 1, MSG_DONTWAIT);
    if (got < 0 && (errno == EAGAIN || errno == EINTR))
        return;
    if (got != 1) {
        close(helper->fd);
        helper->fd = -1;
    }
    client *it = s->asked == 0 ? NULL : waiting(s);
    s->asked = 0;
    if (it != NULL && !(got == 1 && yes == 1 ? answer_client(s, it, true) : reply_with(it, refusal)))
        close_client(s, it);
}

/* Has the helper ask for the client that waits longest, if it asks nothing now. */
static void ask_user(server *s) {
    buffer prompt = {0};
    client *it = s->asked == 0 ? waiting(s) : NULL;
    if (it == NULL)
        return;
    bool good = true, answered = answer(s->agent, it->in.at + 4, whole(it), false, s->now, &prompt);
    if (answered)
        good = reply_with(it, held(&prompt));
    else if (send(s->polled[HELPER].fd, prompt.at, prompt.len, MSG_DONTWAIT | MSG_NOSIGNAL) == (ssize_t)prompt.len)
        s->asked = it->waits;
    else
        good = reply_with(it, refusal);
    drop(&prompt);
    if (!good)
        close_client(s, it);
}

/* ---- the loop */

/* Takes who connects. Where there are too many, the one that was quiet for longest goes. */
static void welcome(server *s) {
    int fd = accept_client(s->polled[LISTENER].fd);
    bool full = fd < 0 ? errno == EMFILE || errno == ENFILE || errno == ENOBUFS || errno == ENOMEM : s->count == s->most;
    client *quiet = s->clients;
    for (client *it = s->clients; it < s->clients + s->count; it++)
        if (it->heard < quiet->heard)
            quiet = it;
    if (full && s->count > 0)
        close_client(s, quiet);
    if (fd >= 0)
        s->clients[s->count++] = (client){.fd = fd, .heard = ++s->events};
}

/* What is waited for of each client, and how long at most: -1 is for ever. */
static int prepare(server *s) {
    int64_t wakes = s->agent->soonest == 0 ? INT64_MAX : s->agent->soonest;
    for (size_t at = 0; at < s->count; at++) {
        const client *it = &s->clients[at];
        bool sends = it->out.len > 0, has_message = whole(it) > 0;
        s->polled[OTHERS + at] = (struct pollfd){it->fd, sends ? POLLOUT : has_message || it->ended ? 0 : POLLIN, 0};
        if (!sends && has_message && it->waits == 0 && due(s, it) < wakes)
            wakes = due(s, it);
    }
    if (wakes == INT64_MAX)
        return -1;
    return wakes <= s->now ? 0 : wakes - s->now < LONGEST_SLEEP ? (int)(wakes - s->now) : LONGEST_SLEEP;
}

/* One turn; false where a signal, or the end of the command, ends the agent. */
static bool turn(server *s) {
    ask_user(s);
    int sleep = prepare(s);
    size_t count = s->count;
    if (poll(s->polled, OTHERS + count, sleep) < 0)
        return errno == EINTR || errno == ENOMEM;
    s->now = clock_now();
    remove_ended(s->agent, s->now);
    while (count-- > 0)
        if (!attend(s, &s->clients[count], &s->polled[OTHERS + count]))
            close_client(s, &s->clients[count]);
    if (s->polled[HELPER].revents != 0)
        hear_helper(s);
    if (s->polled[LISTENER].revents != 0)
        welcome(s);
    return (s->polled[SIGNALS].revents | s->polled[PARENT].revents) == 0;
}

/* Serves until it is ended, and tells at `begun` that it begins, where somebody waits for that. False where it can't. */
bool serve(agent *it, int listener, int helper, int parent, int begun) {
    sigset_t ends;
    size_t files;
    server *s = calloc(1, sizeof *s);
    if (s == NULL || !keep_to_itself(2 * RESERVED, &files) || sigemptyset(&ends) != 0 || sigaddset(&ends, SIGTERM) != 0 ||
        sigaddset(&ends, SIGINT) != 0 || sigaddset(&ends, SIGHUP) != 0 || sigprocmask(SIG_BLOCK, &ends, NULL) != 0)
        return false;
    const int others[OTHERS] = {signalfd(-1, &ends, SFD_CLOEXEC | SFD_NONBLOCK), helper, parent, listener};
    for (size_t i = 0; i < OTHERS; i++)
        s->polled[i] = (struct pollfd){others[i], POLLIN, 0};
    s->agent = it;
    s->now = clock_now();
    s->most = files - RESERVED < MOST_CLIENTS ? files - RESERVED : MOST_CLIENTS;
    if (others[SIGNALS] < 0 || !filter_calls() || (begun >= 0 && send(begun, &(const int){0}, sizeof(int), MSG_NOSIGNAL) < 0))
        return false;
    while (turn(s))
        continue;
    return true;
}
