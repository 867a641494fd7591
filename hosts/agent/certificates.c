/* Certificates as identities, as ssh-add sends them: the library is handed the keys that they certify (OpenSSH's PROTOCOL.agent). */
#include "host.h"

#include <picky/certificate.h>

/* Of each type that may be added: its fields, of which s is a string and b a byte. The first is the type, the last the comment. */
static const char *const layouts[][2] = {
    {"ssh-rsa", "ssssssss"},
    {"ecdsa-sha2-nistp256", "sssss"},
    {"ecdsa-sha2-nistp384", "sssss"},
    {"ecdsa-sha2-nistp521", "sssss"},
    {"ssh-ed25519", "ssss"},
    {"sk-ecdsa-sha2-nistp256@openssh.com", "ssssbsss"},
    {"sk-ssh-ed25519@openssh.com", "sssbsss"},
    {"ssh-rsa-cert-v01@openssh.com", "sssssss"},
    {"ecdsa-sha2-nistp256-cert-v01@openssh.com", "ssss"},
    {"ecdsa-sha2-nistp384-cert-v01@openssh.com", "ssss"},
    {"ecdsa-sha2-nistp521-cert-v01@openssh.com", "ssss"},
    {"ssh-ed25519-cert-v01@openssh.com", "sssss"},
};

/* How many bytes of a message that adds an identity there are up to the comment's end; 0 where it adds none. */
size_t identity_len(picky_bytes message) {
    fields left = fields_of(message);
    take(&left, 1);
    fields type = left;
    picky_bytes name = take_string(&type);
    for (size_t i = 0; i < sizeof layouts / sizeof layouts[0]; i++) {
        if (!same(name, text(layouts[i][0])))
            continue;
        for (const char *at = layouts[i][1]; *at != 0; at++)
            if (*at == 's')
                take_string(&left);
            else
                take(&left, 1);
        return left.cut ? 0 : message.len - left.left;
    }
    return 0;
}

/* The blob of the certificate that a message adds; no bytes where it adds none. */
picky_bytes certificate_in(picky_bytes message) {
    static const char end[] = "-cert-v01@openssh.com";
    const size_t len = sizeof end - 1;
    fields it = fields_of(message);
    take(&it, 1);
    picky_bytes type = take_string(&it);
    if (type.len < len || memcmp((const char *)type.at + type.len - len, end, len) != 0)
        return bytes("", 0);
    return take_string(&it);
}

/* The blob of the key that a certificate certifies, where the library reads its line. */
static bool read_subject(picky_bytes type, picky_bytes blob, buffer *subject) {
    buffer line = {0};
    bool good = put(&line, type.at, type.len) && put(&line, " ", 1) && grow(&line, line.len + blob.len / 3 * 4 + 5);
    if (good)
        line.len += (size_t)EVP_EncodeBlock(line.at + line.len, blob.at, (int)blob.len);
    good = good && grow(subject, blob.len + 1);
    picky_answer told = {PICKY_NO_MEMORY, 0};
    if (good)
        told = picky_certificate_part(held(&line), PICKY_CERTIFICATE_SUBJECT, 0, subject->at, subject->room);
    subject->len = told.error == PICKY_OK ? told.len : 0;
    drop(&line);
    return told.error == PICKY_OK;
}

/* The message that adds the key of a certificate: its public fields, and the secrets that stand behind the certificate. */
bool key_of_certificate(picky_bytes message, buffer *plain, buffer *subject) {
    fields it = fields_of(message);
    take(&it, 1);
    picky_bytes type = take_string(&it), blob = take_string(&it);
    fields inside = fields_of(blob);
    if (!same(take_string(&inside), type) || !read_subject(type, blob, subject))
        return false;
    fields key = fields_of(held(subject));
    picky_bytes name = take_string(&key), first = take_string(&key), second = take_string(&key);
    bool good = put(plain, (const unsigned char[]){ADD}, 1) && put_string(plain, name);
    if (same(name, text("ssh-rsa")))
        good = good && put_string(plain, second) && put_string(plain, first);
    else if (!same(name, text("ssh-ed25519")))
        good = good && put_string(plain, first) && put_string(plain, second);
    return good && put(plain, it.at, it.left);
}
