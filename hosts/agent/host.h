/* What the files of picky-agent share, by file. Nothing is global: main.c makes the agent and hands it on. */
#pragma once

#include <picky/agent.h>
#include <errno.h>
#include <limits.h>
#include <openssl/evp.h>
#include <stdbool.h>
#include <stdint.h>
#include <stdio.h>
#include <stdlib.h>
#include <string.h>
#include <sys/socket.h>
#include <unistd.h>

enum { LONGEST = 262144, MOST = 1024, LONGEST_PROMPT = 1024 };

/* Types of messages and replies (draft-miller-ssh-agent-04, section 5.1). */
enum { FAILURE = 5, SUCCESS = 6, REMOVE_ALL_OF_1 = 9, LIST = 11, SIGN = 13, ADD = 17, REMOVE = 18, REMOVE_ALL = 19 };
enum { LOCK = 22, UNLOCK = 23, ADD_CONSTRAINED = 25 };

/* ---- bytes.c: bytes that grow, fields (RFC 4251, section 5), and the library's calls */
typedef struct buffer {
    unsigned char *at;
    size_t len, room;
} buffer;

typedef struct fields {
    const unsigned char *at;
    size_t left;
    bool cut;
} fields;

picky_bytes bytes(const void *at, size_t len);
picky_bytes text(const char *it);
picky_bytes held(const buffer *it);
bool same(picky_bytes one, picky_bytes other);
bool grow(buffer *it, size_t room);
bool put(buffer *it, const void *at, size_t len);
bool put_string(buffer *it, picky_bytes content);
void drop(buffer *it);
void swap(buffer *one, buffer *other);
uint32_t number_at(const unsigned char *at);
void write_number(unsigned char *at, size_t number);
fields fields_of(picky_bytes content);
picky_bytes take(fields *it, size_t len);
uint32_t take_number(fields *it);
picky_bytes take_string(fields *it);

enum { QUESTION, REPLY, NEXT, PUBLIC_ADD, SECRET };

bool ask(uint32_t call, picky_bytes state, picky_bytes message, buffer *out);
bool ask_signed(uint32_t call, picky_bytes state, picky_bytes message, picky_bytes signature, buffer *out);

/* ---- secrets.c: the keys, which are OpenSSL's */
/* A key of the agent, or a certificate for one. */
typedef struct identity {
    buffer blob, comment;
    EVP_PKEY *key;  /* NULL of a security key, by which nothing is signed */
    int64_t ends;   /* the moment at which it is removed, in milliseconds; 0 where it stays */
    bool confirmed; /* whether the user is asked before it signs */
    buffer plain;   /* of a certificate: the blob of its key, */
    buffer state;   /* and the state of an agent that has this key alone */
} identity;

typedef struct ring {
    identity at[MOST];
    size_t count;
} ring;

bool read_key(picky_bytes message, EVP_PKEY **key);
identity *find(ring *in, picky_bytes blob);
void put_identity(ring *in, identity *it);
void drop_identity(identity *it);
void remove_at(ring *in, size_t place);

/* ---- signing.c */
bool sign_by(EVP_PKEY *key, picky_bytes algorithm, picky_bytes message, buffer *signature);
bool sign_once_by_each(void);

/* ---- certificates.c */
size_t identity_len(picky_bytes message);
picky_bytes certificate_in(picky_bytes message);
bool key_of_certificate(picky_bytes message, buffer *plain, buffer *subject);

/* ---- messages.c: the agent, whose state is the library's */
typedef struct agent {
    buffer state;            /* without secrets */
    buffer listed;           /* the reply to 11 while it isn't locked; no bytes where that has to be made */
    ring keys, certificates; /* the keys in the order of the state */
    int64_t life;            /* how long an identity stays by itself, in milliseconds; 0 where it does */
    int64_t soonest;         /* when the first is removed; 0 where none is */
    bool locked;
    unsigned char salt[16], hash[64]; /* of the lock's passphrase */
    int64_t unlocks_from;             /* when 23 is answered again, which wrong passphrases put off */
    int wrong_count;
    buffer question, signature, reply, next, bare; /* of one call each */
    uintptr_t heap;                                /* up to where it is locked */
} agent;

bool start_agent(agent *it, int64_t life);
bool answer(agent *it, unsigned char *message, size_t len, bool confirmed, int64_t now, buffer *out);
void remove_ended(agent *it, int64_t now);

/* ---- socket.c: where the socket is, and the folder that was made for it; empty where there is none to take away */
typedef struct place {
    char socket[PATH_MAX], folder[PATH_MAX];
} place;

int open_socket(const char *path, place *where);
void leave_place(const place *where);
int inherited_socket(void);
int accept_client(int listener);

/* ---- confirming.c: a process beside the agent */
int start_helper(const place *where, int listener);

/* ---- clients.c: one loop */
bool serve(agent *it, int listener, int helper, int parent, int begun);

/* ---- confining.c */
bool keep_to_itself(size_t fewest, size_t *files);
void wipe_stack(bool locks);
void lock_heap(uintptr_t *until);
bool filter_calls(void);
