/* What two hosts that share a secret tell each other in one round, before they make their
 * endpoints: connection IDs, transport parameters, and what their traffic secrets come from.
 *
 * It is no handshake. Whoever has the secret can be either host, and can read whatever was ever
 * sealed with keys that came from it: there is no forward secrecy, and nobody proves who he is. A
 * program for others than itself wants TLS 1.3 (RFC 9001), and hands its traffic secrets to
 * fh_seal_new.
 *
 * A hello is its kind (one byte, whose fixed bit is 0, so that it is no packet), the connection ID,
 * 16 random bytes, the transport parameters, and a tag of 32 bytes by the secret. The traffic
 * secrets come from the secret and both tags, so no two connections have the same keys. */
#ifndef FH_HELLO_H
#define FH_HELLO_H

#include "fh_seal.h"

enum { FH_HELLO_CLIENT = 1, FH_HELLO_SERVER = 2 };

/* Sizes in bytes: of the secret, of an ID, of the random bytes, of a tag, and of the longest
 * hello. */
enum {
    FH_HELLO_SECRET = 32,
    FH_HELLO_ID = 8,
    FH_HELLO_RANDOM = 16,
    FH_HELLO_TAG = 32,
    FH_HELLO_HEAD = 1 + FH_HELLO_ID + FH_HELLO_RANDOM,
    FH_HELLO_MAX = FH_HELLO_HEAD + 256 + FH_HELLO_TAG
};

typedef struct fh_hello {
    uint8_t bytes[FH_HELLO_MAX];
    size_t len;
} fh_hello;

/* The connection ID of a hello, of FH_HELLO_ID bytes, and its transport parameters. */
#define FH_HELLO_ID_OF(hello) ((hello)->bytes + 1)
#define FH_HELLO_PARAMETERS_OF(hello) ((hello)->bytes + FH_HELLO_HEAD)
#define FH_HELLO_PARAMETERS_LEN(hello) ((hello)->len - FH_HELLO_HEAD - FH_HELLO_TAG)

/* The tag of a hello: what the secret makes of the digest of all that stands before it. */
static inline int fh_hello_tag(const uint8_t *secret, const uint8_t *bytes, size_t len,
                               uint8_t *tag) {
    uint8_t digest[32];
    if (!EVP_Digest(bytes, len, digest, NULL, EVP_sha256(), NULL)) return FH_SEAL_FAILED;
    return fh_seal_expand(FH_SEAL_AES_128_GCM, secret, FH_HELLO_SECRET, "fh hello", digest, 32, tag,
                          FH_HELLO_TAG);
}

/* Writes a hello, of the client or of the server. `random` has 8 bytes for the ID and 16 more, that
 * nobody can guess, and the parameters have at most 256 bytes. */
FH_SEAL_API int fh_hello_write(fh_hello *hello, bool client, const uint8_t *secret,
                               const uint8_t *random, const uint8_t *parameters, size_t len) {
    if (len > 256) return FH_SEAL_ARGUMENT;
    hello->bytes[0] = client ? FH_HELLO_CLIENT : FH_HELLO_SERVER;
    memcpy(hello->bytes + 1, random, FH_HELLO_ID + FH_HELLO_RANDOM);
    memcpy(hello->bytes + FH_HELLO_HEAD, parameters, len);
    hello->len = FH_HELLO_HEAD + len + FH_HELLO_TAG;
    return fh_hello_tag(secret, hello->bytes, FH_HELLO_HEAD + len,
                        hello->bytes + FH_HELLO_HEAD + len);
}

/* Whether a datagram has the kind and the size of a hello, of the client or of the server. */
FH_SEAL_API bool fh_hello_is(bool client, const uint8_t *datagram, size_t len) {
    return len >= FH_HELLO_HEAD + FH_HELLO_TAG && len <= FH_HELLO_MAX &&
           datagram[0] == (client ? FH_HELLO_CLIENT : FH_HELLO_SERVER);
}

/* Reads a hello, of the client or of the server, from a datagram. FH_SEAL_REFUSED: it is none, or
 * was written with another secret, or was changed; `hello` is of no use then. */
FH_SEAL_API int fh_hello_read(fh_hello *hello, bool client, const uint8_t *secret,
                              const uint8_t *datagram, size_t len) {
    uint8_t tag[FH_HELLO_TAG];
    if (!fh_hello_is(client, datagram, len)) return FH_SEAL_REFUSED;
    memcpy(hello->bytes, datagram, len);
    hello->len = len;
    int made = fh_hello_tag(secret, datagram, len - FH_HELLO_TAG, tag);
    if (made != FH_SEAL_OK) return made;
    return CRYPTO_memcmp(tag, datagram + len - FH_HELLO_TAG, FH_HELLO_TAG) ? FH_SEAL_REFUSED : 0;
}

/* Makes the keys of one direction, of AES-128-GCM, from both hellos: those with which the host that
 * wrote `from` seals, for sealing or for opening. NULL where memory lacks. */
FH_SEAL_API fh_seal *fh_hello_keys(const uint8_t *secret, const fh_hello *from, const fh_hello *to,
                                   bool sealing) {
    bool client = from->bytes[0] == FH_HELLO_CLIENT;
    const fh_hello *first = client ? from : to, *second = client ? to : from;
    uint8_t tags[2 * FH_HELLO_TAG], traffic[32];
    memcpy(tags, first->bytes + first->len - FH_HELLO_TAG, FH_HELLO_TAG);
    memcpy(tags + FH_HELLO_TAG, second->bytes + second->len - FH_HELLO_TAG, FH_HELLO_TAG);
    fh_seal *keys = NULL;
    if (!fh_seal_expand(FH_SEAL_AES_128_GCM, secret, FH_HELLO_SECRET,
                        client ? "fh client" : "fh server", tags, sizeof tags, traffic, 32))
        keys = fh_seal_new(FH_SEAL_AES_128_GCM, traffic, 32, client, sealing, FH_HELLO_ID);
    OPENSSL_cleanse(traffic, sizeof traffic);
    return keys;
}

#endif
