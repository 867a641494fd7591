/* The agent: which key answers, locked or not, and by which reply, says the library. Here is what it has no state for, as lifetimes. */
#include "host.h"

#include <openssl/rand.h>

enum { ROUNDS = 10000, LIFETIME = 1, CONFIRM = 2, SECOND = 1000, WAIT_STEP = 100, MOST_WRONG = 100 };
enum { SHOWN = 200, DIGEST = 32, LOCKING = 69 };

bool start_agent(agent *it, int64_t life) {
    it->life = life;
    return RAND_bytes(it->salt, sizeof it->salt) == 1 && sign_once_by_each();
}

/* ---- the list: that of the library, and behind it the certificates in their order */

static bool list_of(picky_bytes state, buffer *out) {
    return ask(REPLY, state, bytes((const unsigned char[]){LIST}, 1), out) && out->len >= 5;
}

static size_t row_len(const identity *it) {
    return 8 + it->blob.len + it->comment.len;
}

/* Makes the list of an agent that isn't locked, if it isn't there. */
static bool make_list(agent *it) {
    const ring *behind = &it->certificates;
    if (it->listed.len > 0)
        return true;
    bool good = list_of(held(&it->state), &it->listed);
    if (good)
        write_number(it->listed.at + 1, number_at(it->listed.at + 1) + behind->count);
    for (size_t i = 0; i < behind->count && good; i++)
        good = put_string(&it->listed, held(&behind->at[i].blob)) && put_string(&it->listed, held(&behind->at[i].comment));
    if (!good)
        it->listed.len = 0;
    return good;
}

/* Drops what was kept until something changes, and looks when the next identity ends. */
static void changed(agent *it) {
    const ring *rings[] = {&it->keys, &it->certificates};
    it->listed.len = 0;
    it->soonest = 0;
    for (size_t i = 0; i < 2; i++)
        for (size_t at = 0; at < rings[i]->count; at++) {
            int64_t ends = rings[i]->at[at].ends;
            if (ends != 0 && (it->soonest == 0 || ends < it->soonest))
                it->soonest = ends;
        }
}

/* ---- signatures */

/* What the user is asked, as ssh-agent asks it; of the comment a part, without characters that a terminal heeds. */
static bool put_prompt(const identity *it, buffer *out) {
    const buffer *blob = it->plain.len > 0 ? &it->plain : &it->blob;
    unsigned char digest[DIGEST], print[2 * DIGEST];
    char comment[SHOWN + 1], prompt[LONGEST_PROMPT];
    size_t shown = it->comment.len < SHOWN ? it->comment.len : SHOWN;
    for (size_t i = 0; i < shown; i++)
        comment[i] = it->comment.at[i] < ' ' || it->comment.at[i] == 0x7f ? '?' : (char)it->comment.at[i];
    comment[shown] = 0;
    if (EVP_Digest(blob->at, blob->len, digest, NULL, EVP_sha256(), NULL) != 1)
        return false;
    int len = EVP_EncodeBlock(print, digest, sizeof digest) - 1;
    len = snprintf(prompt, sizeof prompt, "Allow use of key %s?\nKey fingerprint SHA256:%.*s.", comment, len, print);
    return len > 0 && put(out, prompt, (size_t)len);
}

/* The certificate that a 13 is for; the message is then as if it were for the key, and the state that of an agent with this alone. */
static identity *find_certificate(agent *it, picky_bytes *message, picky_bytes *state) {
    fields fields = fields_of(*message);
    picky_bytes kind = take(&fields, 1);
    identity *of = it->locked ? NULL : find(&it->certificates, take_string(&fields));
    it->bare.len = 0;
    if (of == NULL || !put(&it->bare, kind.at, 1) || !put_string(&it->bare, held(&of->plain)) || !put(&it->bare, fields.at, fields.left))
        return NULL;
    *message = held(&it->bare);
    *state = held(&of->state);
    return of;
}

static bool sign(agent *it, picky_bytes message, bool confirmed, buffer *out, bool *asks) {
    picky_bytes state = held(&it->state);
    identity *of = find_certificate(it, &message, &state);
    if (!ask(QUESTION, state, message, &it->question))
        return false;
    if (it->question.len == 0)
        return ask(REPLY, state, message, out);
    fields asked = fields_of(held(&it->question));
    size_t place = take_number(&asked);
    picky_bytes blob = take_string(&asked), algorithm = take_string(&asked);
    take_string(&asked);
    if (of == NULL && place < it->keys.count && same(held(&it->keys.at[place].blob), blob))
        of = &it->keys.at[place];
    if (of != NULL && of->confirmed && !confirmed) {
        *asks = true;
        return put_prompt(of, out);
    }
    if (of == NULL || !sign_by(of->key, algorithm, take_string(&asked), &it->signature))
        return ask(REPLY, state, message, out);
    return ask_signed(REPLY, state, message, held(&it->signature), out);
}

/* ---- adding */

/* What stands behind the comment: a lifetime in seconds and whether the user is asked, once each, and nothing else. */
static bool read_constraints(picky_bytes behind, int64_t life, int64_t now, identity *new) {
    fields it = fields_of(behind);
    while (it.left > 0) {
        unsigned char kind = *(const unsigned char *)take(&it, 1).at;
        if (kind == LIFETIME && new->ends == 0)
            new->ends = now + (int64_t)take_number(&it) * SECOND;
        else if (kind == CONFIRM && !new->confirmed)
            new->confirmed = true;
        else
            return false;
    }
    if (new->ends == 0 && life != 0)
        new->ends = now + life;
    return !it.cut;
}

/* The key of a message, and what an agent without others would list of it; in `next` what that would keep, which has no secret. */
static bool read_identity(agent *it, picky_bytes message, identity *new) {
    if (!ask(PUBLIC_ADD, text(""), message, &it->bare) || !ask(NEXT, text(""), held(&it->bare), &it->next) ||
        !list_of(held(&it->next), &it->reply))
        return false;
    fields row = fields_of(held(&it->reply));
    take(&row, 5);
    picky_bytes blob = take_string(&row), comment = take_string(&row);
    return !row.cut && put(&new->blob, blob.at, blob.len) && put(&new->comment, comment.at, comment.len) && read_key(message, &new->key);
}

/* The certificate of a message, whose key the library reads. */
static bool read_certificate(agent *it, picky_bytes message, picky_bytes blob, identity *new) {
    buffer plain = {0}, subject = {0};
    bool good = key_of_certificate(message, &plain, &subject) && read_identity(it, held(&plain), new) && new->key != NULL &&
                same(held(&new->blob), held(&subject));
    drop(&plain);
    drop(&subject);
    swap(&new->plain, &new->blob);
    swap(&new->state, &it->next);
    return good && put(&new->blob, blob.at, blob.len);
}

/* Adds the key that was read, as the library does in its own state. */
static bool add_key(agent *it, buffer *out) {
    bool good = ask(REPLY, held(&it->state), held(&it->bare), out) && ask(NEXT, held(&it->state), held(&it->bare), &it->next);
    if (good && out->at[0] == SUCCESS)
        swap(&it->state, &it->next);
    return good;
}

/* 17, and 25 which has constraints behind: either's are heeded, and the library sees a 17 without. No list gets too long for clients. */
static bool add(agent *it, unsigned char *message, size_t len, int64_t now, buffer *out) {
    identity new = {0};
    message[0] = ADD;
    size_t end = identity_len(bytes(message, len));
    if (end == 0 || !read_constraints(bytes(message + end, len - end), it->life, now, &new))
        return false;
    picky_bytes whole = bytes(message, end), blob = certificate_in(whole);
    ring *in = blob.len > 0 ? &it->certificates : &it->keys;
    bool good = (blob.len > 0 ? read_certificate(it, whole, blob, &new) : read_identity(it, whole, &new)) && make_list(it);
    const identity *old = find(in, held(&new.blob));
    good = good && (old != NULL || in->count < MOST) && it->listed.len + row_len(&new) - (old == NULL ? 0 : row_len(old)) <= LONGEST &&
           (blob.len > 0 ? put(out, (const unsigned char[]){SUCCESS}, 1) : add_key(it, out));
    if (good && out->at[0] == SUCCESS)
        put_identity(in, &new);
    drop_identity(&new);
    changed(it);
    return good;
}

/* ---- removing */

/* Forgets the keys that the list doesn't have: both are in one order. */
static void follow(ring *keys, picky_bytes listed) {
    fields rows = fields_of(listed);
    take(&rows, 5);
    picky_bytes blob = take_string(&rows);
    for (size_t place = 0; place < keys->count;)
        if (!rows.cut && same(blob, held(&keys->at[place].blob))) {
            take_string(&rows);
            blob = take_string(&rows);
            place++;
        } else {
            remove_at(keys, place);
        }
}

/* 18 and 19, as the library answers them, and of certificates, which are kept here. */
static bool remove_from(agent *it, picky_bytes message, buffer *out) {
    fields fields = fields_of(message);
    bool all = *(const unsigned char *)take(&fields, 1).at == REMOVE_ALL;
    identity *certificate = all || it->locked ? NULL : find(&it->certificates, take_string(&fields));
    if (certificate != NULL) {
        remove_at(&it->certificates, (size_t)(certificate - it->certificates.at));
        changed(it);
        return put(out, (const unsigned char[]){SUCCESS}, 1);
    }
    if (!ask(REPLY, held(&it->state), message, out) || !ask(NEXT, held(&it->state), message, &it->next) ||
        !list_of(held(&it->next), &it->reply))
        return false;
    if (out->at[0] != SUCCESS)
        return true;
    swap(&it->state, &it->next);
    follow(&it->keys, held(&it->reply));
    while (all && it->certificates.count > 0)
        remove_at(&it->certificates, it->certificates.count - 1);
    changed(it);
    return true;
}

/* The 22 or 23 that has a hash in place of its passphrase. */
static picky_bytes locking(unsigned char kind, const unsigned char hash[LOCKING - 5], unsigned char message[LOCKING]) {
    message[0] = kind;
    write_number(message + 1, LOCKING - 5);
    memcpy(message + 5, hash, LOCKING - 5);
    return bytes(message, LOCKING);
}

/* Removes a key whose time is over: the library does that unlocked, so it is unlocked and locked for it. */
static bool remove_key(agent *it, size_t place) {
    unsigned char message[LOCKING];
    it->bare.len = 0;
    if (!put(&it->bare, (const unsigned char[]){REMOVE}, 1) || !put_string(&it->bare, held(&it->keys.at[place].blob)))
        return false;
    bool good = it->locked ? ask(NEXT, held(&it->state), locking(UNLOCK, it->hash, message), &it->reply) &&
                                 ask(NEXT, held(&it->reply), held(&it->bare), &it->question) &&
                                 ask(NEXT, held(&it->question), locking(LOCK, it->hash, message), &it->next)
                           : ask(NEXT, held(&it->state), held(&it->bare), &it->next);
    if (good) {
        swap(&it->state, &it->next);
        remove_at(&it->keys, place);
    }
    return good;
}

/* Removes what has to end by now, locked or not. */
void remove_ended(agent *it, int64_t now) {
    if (it->soonest == 0 || now < it->soonest)
        return;
    for (size_t i = it->certificates.count; i-- > 0;)
        if (it->certificates.at[i].ends != 0 && it->certificates.at[i].ends <= now)
            remove_at(&it->certificates, i);
    for (size_t i = it->keys.count; i-- > 0;)
        if (it->keys.at[i].ends != 0 && it->keys.at[i].ends <= now && !remove_key(it, i))
            abort(); /* Memory ran out: rather no agent than one with this key. */
    changed(it);
}

/* ---- the lock */

/* 22 and 23: the library has the passphrase's salted hash, of its digest, since HMAC drops NULs. A wrong one puts off the next. */
static bool turn_lock(agent *it, picky_bytes message, int64_t now, buffer *out) {
    unsigned char hashed[LOCKING], hash[LOCKING - 5], once[LOCKING - 5], kind = *(const unsigned char *)message.at;
    fields fields = fields_of(message);
    take(&fields, 1);
    picky_bytes passphrase = take_string(&fields);
    if (fields.cut || it->locked == (kind == LOCK))
        return ask(REPLY, held(&it->state), bytes(message.at, 1), out);
    if (EVP_Digest(passphrase.at, passphrase.len, once, NULL, EVP_sha512(), NULL) != 1 ||
        PKCS5_PBKDF2_HMAC((char *)once, sizeof once, it->salt, sizeof it->salt, ROUNDS, EVP_sha512(), sizeof hash, hash) != 1)
        return false;
    picky_bytes told = locking(kind, hash, hashed);
    if (!ask(REPLY, held(&it->state), told, out) || !ask(NEXT, held(&it->state), told, &it->next))
        return false;
    if (out->at[0] == SUCCESS) {
        swap(&it->state, &it->next);
        it->locked = kind == LOCK;
        memcpy(it->hash, hash, sizeof hash);
        it->wrong_count = 0;
    } else if (kind == UNLOCK) {
        it->wrong_count += it->wrong_count < MOST_WRONG;
        it->unlocks_from = now + (int64_t)it->wrong_count * WAIT_STEP;
    }
    return true;
}

/* ---- a message */

static bool answered(agent *it, unsigned char *message, size_t len, bool confirmed, int64_t now, buffer *out, bool *asks) {
    switch (message[0]) {
    case LIST:
        return it->locked ? list_of(held(&it->state), out) : make_list(it) && put(out, it->listed.at, it->listed.len);
    case SIGN:
        return sign(it, bytes(message, len), confirmed, out, asks);
    case REMOVE_ALL_OF_1:
        message[0] = REMOVE_ALL;
        return remove_from(it, bytes(message, 1), out);
    case REMOVE:
    case REMOVE_ALL:
        return remove_from(it, bytes(message, len), out);
    case LOCK:
    case UNLOCK:
        return turn_lock(it, bytes(message, len), now, out);
    case ADD:
    case ADD_CONSTRAINED:
        if (!it->locked)
            return add(it, message, len, now, out);
    }
    /* Of what fails the library sees the type alone, since the rest may be secret. */
    return ask(REPLY, held(&it->state), bytes(message, 1), out);
}

/* Whether there is a reply, of no bytes where memory ran out for it; if not, what the user has to be asked before there is one. */
bool answer(agent *it, unsigned char *message, size_t len, bool confirmed, int64_t now, buffer *out) {
    bool asks = false;
    out->len = 0;
    if (answered(it, message, len, confirmed, now, out, &asks))
        return !asks;
    out->len = 0;
    (void)put(out, (const unsigned char[]){FAILURE}, 1);
    return true;
}
