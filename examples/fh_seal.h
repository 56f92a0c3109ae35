/* Packet protection for an endpoint whose own keys hide nothing (RFC 9001, sections 5.1 to 5.4):
 * AES-128-GCM, AES-256-GCM and ChaCha20-Poly1305 with header protection, over libcrypto 3.
 *
 * The stand-in keys of the library show all of a packet: the mask of the header is the sample
 * itself, and the tag has the packet number in eight bytes and the letter of the sender's side
 * eight times. So a host takes that protection off each datagram that fh_poll gave and puts this
 * one on (fh_seal_datagram), and does the reverse with each that came (fh_seal_open_datagram)
 * before fh_receive has it. Both tags have 16 bytes, so lengths stay, and all goes in place.
 *
 * What doesn't open never reaches the endpoint, so it is counted here, and the limits of RFC 9001,
 * section 6.6, are kept here too. There is no key update (section 6): where a limit is reached, the
 * host closes the connection.
 *
 * Every function is static, or has what FH_SEAL_API says; link with -lcrypto. Nothing here may be
 * used by two threads at once on the same keys. */
#ifndef FH_SEAL_H
#define FH_SEAL_H

#include <openssl/core_names.h>
#include <openssl/crypto.h>
#include <openssl/evp.h>
#include <openssl/hmac.h>
#include <openssl/params.h>
#include <stdbool.h>
#include <stddef.h>
#include <stdint.h>
#include <stdlib.h>
#include <string.h>

#ifndef FH_SEAL_API
#define FH_SEAL_API static inline
#endif

/* What the functions answer. Where it is below 0, nothing was sealed, opened or counted, but as it
 * is said. */
enum {
    FH_SEAL_OK = 0,
    FH_SEAL_REFUSED = -1,  /* The datagram doesn't open. It counts as refused. */
    FH_SEAL_SHORT = -2,    /* It is too short for a sample: nobody has sealed it. */
    FH_SEAL_LIMIT = -3,    /* The keys are used up: close the connection. */
    FH_SEAL_ARGUMENT = -4, /* An argument is out of its range. */
    FH_SEAL_FAILED = -5    /* libcrypto failed, for want of memory. */
};

/* Which AEAD, and which hash for its key schedule (RFC 8446, appendix B.4). */
enum fh_seal_suite {
    FH_SEAL_AES_128_GCM = 0,       /* SHA-256 */
    FH_SEAL_AES_256_GCM = 1,       /* SHA-384 */
    FH_SEAL_CHACHA20_POLY1305 = 2, /* SHA-256 */
    FH_SEAL_SUITES = 3
};

/* The bytes of a tag, and of a sample for the mask of a header. */
enum { FH_SEAL_TAG = 16, FH_SEAL_SAMPLE = 16 };

/* The keys of one direction, at the endpoint that seals with them or at the one that opens. */
typedef struct fh_seal {
    EVP_CIPHER_CTX *packet, *header;
    OSSL_PARAM tag[2]; /* Where the tag of the packet stands, as libcrypto is told. */
    uint8_t iv[12];
    enum fh_seal_suite suite;
    bool sealing;
    size_t id_len;     /* The bytes of each connection ID in this direction. */
    uint8_t mark;      /* The letter of the side that seals: `c` or `s`. */
    uint64_t sealed;   /* How many packets were sealed, */
    uint64_t refused;  /* and how many didn't open. */
    uint64_t expected; /* One more than the greatest packet number that opened. */
} fh_seal;

static inline const EVP_MD *fh_seal_hash(enum fh_seal_suite suite) {
    return suite == FH_SEAL_AES_256_GCM ? EVP_sha384() : EVP_sha256();
}

/* How many packets keys may seal (RFC 9001, section 6.6). For ChaCha20-Poly1305 these are all the
 * packets that there can be. */
FH_SEAL_API uint64_t fh_seal_confidentiality_limit(enum fh_seal_suite suite) {
    return suite == FH_SEAL_CHACHA20_POLY1305 ? 1ull << 62 : 1ull << 23;
}

/* How many packets may fail to open (the same section). */
FH_SEAL_API uint64_t fh_seal_integrity_limit(enum fh_seal_suite suite) {
    return suite == FH_SEAL_CHACHA20_POLY1305 ? 1ull << 36 : 1ull << 52;
}

/* HKDF-Expand-Label of RFC 8446, section 7.1: derives `len` bytes, no more than the suite's hash
 * has, from a secret. The label is without its `tls13 `, and has at most 249 bytes; the context at
 * most 255. */
FH_SEAL_API int fh_seal_expand(enum fh_seal_suite suite, const uint8_t *secret, size_t secret_len,
                               const char *label, const uint8_t *context, size_t context_len,
                               uint8_t *out, size_t len) {
    uint8_t info[3 + 255 + 1 + 255 + 1], block[EVP_MAX_MD_SIZE];
    size_t label_len = 6 + strlen(label), at = 3;
    if ((unsigned)suite >= FH_SEAL_SUITES || label_len > 255 || context_len > 255 ||
        secret_len > 1 << 16 || len > (size_t)EVP_MD_get_size(fh_seal_hash(suite)))
        return FH_SEAL_ARGUMENT;
    info[0] = (uint8_t)(len >> 8), info[1] = (uint8_t)len, info[2] = (uint8_t)label_len;
    memcpy(info + at, "tls13 ", 6);
    memcpy(info + at + 6, label, label_len - 6);
    at += label_len;
    info[at++] = (uint8_t)context_len;
    if (context_len > 0) memcpy(info + at, context, context_len);
    at += context_len;
    info[at++] = 1; /* The number of the first block of HKDF-Expand, which is all of it here. */
    if (!HMAC(fh_seal_hash(suite), secret, (int)secret_len, info, at, block, NULL))
        return FH_SEAL_FAILED;
    memcpy(out, block, len);
    OPENSSL_cleanse(block, sizeof block);
    return FH_SEAL_OK;
}

/* Frees keys, and forgets them. NULL is none. */
FH_SEAL_API void fh_seal_free(fh_seal *keys) {
    if (!keys) return;
    EVP_CIPHER_CTX_free(keys->packet);
    EVP_CIPHER_CTX_free(keys->header);
    OPENSSL_cleanse(keys, sizeof *keys);
    free(keys);
}

/* Sets up the two ciphers from the keys that they take (RFC 9001, sections 5.3 and 5.4). */
static inline bool fh_seal_set_up(fh_seal *keys, const uint8_t *key, const uint8_t *header_key) {
    const EVP_CIPHER *packet[] = {EVP_aes_128_gcm(), EVP_aes_256_gcm(), EVP_chacha20_poly1305()};
    const EVP_CIPHER *header[] = {EVP_aes_128_ecb(), EVP_aes_256_ecb(), EVP_chacha20()};
    keys->tag[0] = OSSL_PARAM_construct_octet_string(OSSL_CIPHER_PARAM_AEAD_TAG, NULL, FH_SEAL_TAG);
    keys->tag[1] = OSSL_PARAM_construct_end();
    keys->packet = EVP_CIPHER_CTX_new();
    keys->header = EVP_CIPHER_CTX_new();
    return keys->packet && keys->header &&
           EVP_CipherInit_ex2(keys->packet, packet[keys->suite], key, NULL, keys->sealing, NULL) &&
           EVP_EncryptInit_ex2(keys->header, header[keys->suite], header_key, NULL, NULL);
}

/* Makes the keys of one direction from its traffic secret (RFC 9001, section 5.1), which has 32
 * bytes, or 48 for AES-256-GCM. `client` says whether it is the client who seals with them,
 * `sealing` whether they seal here or open, and `id_len` how many bytes each destination connection
 * ID of these packets has, at most 20. NULL where an argument is out of its range, or memory
 * lacks. */
FH_SEAL_API fh_seal *fh_seal_new(enum fh_seal_suite suite, const uint8_t *secret, size_t secret_len,
                                 bool client, bool sealing, size_t id_len) {
    uint8_t key[32], header_key[32];
    size_t key_len = suite == FH_SEAL_AES_128_GCM ? 16 : 32;
    if ((unsigned)suite >= FH_SEAL_SUITES || id_len > 20 ||
        secret_len != (size_t)EVP_MD_get_size(fh_seal_hash(suite)))
        return NULL;
    fh_seal *keys = (fh_seal *)calloc(1, sizeof *keys);
    if (!keys) return NULL;
    keys->suite = suite, keys->sealing = sealing, keys->id_len = id_len;
    keys->mark = client ? 'c' : 's';
    bool made =
        !fh_seal_expand(suite, secret, secret_len, "quic key", NULL, 0, key, key_len) &&
        !fh_seal_expand(suite, secret, secret_len, "quic iv", NULL, 0, keys->iv, 12) &&
        !fh_seal_expand(suite, secret, secret_len, "quic hp", NULL, 0, header_key, key_len) &&
        fh_seal_set_up(keys, key, header_key);
    OPENSSL_cleanse(key, sizeof key);
    OPENSSL_cleanse(header_key, sizeof header_key);
    if (made) return keys;
    fh_seal_free(keys);
    return NULL;
}

/* How many packets these keys sealed, and how many didn't open with them. */
FH_SEAL_API uint64_t fh_seal_sealed(const fh_seal *keys) { return keys->sealed; }
FH_SEAL_API uint64_t fh_seal_refused(const fh_seal *keys) { return keys->refused; }

/* The mask of a header, of which five bytes are used (RFC 9001, sections 5.4.3 and 5.4.4). For
 * ChaCha20 the sample is the counter and the nonce, as EVP takes them. */
static inline bool fh_seal_mask(fh_seal *keys, const uint8_t *sample, uint8_t mask[32]) {
    static const uint8_t zeros[16] = {0};
    bool chacha = keys->suite == FH_SEAL_CHACHA20_POLY1305;
    int len;
    if (chacha && !EVP_EncryptInit_ex2(keys->header, NULL, NULL, sample, NULL)) return false;
    return EVP_EncryptUpdate(keys->header, mask, &len, chacha ? zeros : sample, 16);
}

/* Which bits of the first byte the mask covers: four of a long header, five of a short one. */
static inline uint8_t fh_seal_first_bits(uint8_t first) { return first & 0x80 ? 0x0f : 0x1f; }

/* Eight bytes as a number, the greatest first, and a number as eight bytes: written out, since a
 * compiler makes few instructions of that, and many of a loop. */
static inline uint64_t fh_seal_get(const uint8_t *at) {
    return (uint64_t)at[0] << 56 | (uint64_t)at[1] << 48 | (uint64_t)at[2] << 40 |
           (uint64_t)at[3] << 32 | (uint64_t)at[4] << 24 | (uint64_t)at[5] << 16 |
           (uint64_t)at[6] << 8 | (uint64_t)at[7];
}
static inline void fh_seal_put(uint8_t *at, uint64_t number) {
    at[0] = (uint8_t)(number >> 56), at[1] = (uint8_t)(number >> 48);
    at[2] = (uint8_t)(number >> 40), at[3] = (uint8_t)(number >> 32);
    at[4] = (uint8_t)(number >> 24), at[5] = (uint8_t)(number >> 16);
    at[6] = (uint8_t)(number >> 8), at[7] = (uint8_t)number;
}

/* The nonce of a packet of this number (RFC 9001, section 5.3). */
static inline void fh_seal_nonce(const fh_seal *keys, uint64_t number, uint8_t nonce[12]) {
    memcpy(nonce, keys->iv, 4);
    fh_seal_put(nonce + 4, fh_seal_get(keys->iv + 4) ^ number);
}

/* Seals or opens in place what stands between the header of a packet, which is associated data, and
 * its tag at `end`. The tag of one that opens is told with the nonce, in one call. */
static inline bool fh_seal_go_over(fh_seal *keys, uint64_t number, uint8_t *packet, size_t head,
                                   size_t end) {
    uint8_t nonce[12], *body = packet + head;
    int done;
    fh_seal_nonce(keys, number, nonce);
    keys->tag[0].data = packet + end;
    const OSSL_PARAM *tag = keys->sealing ? NULL : keys->tag;
    return EVP_CipherInit_ex2(keys->packet, NULL, NULL, nonce, -1, tag) &&
           EVP_CipherUpdate(keys->packet, NULL, &done, packet, (int)head) &&
           EVP_CipherUpdate(keys->packet, body, &done, body, (int)(end - head));
}

/* Seals a packet in place: `len` bytes with room for a tag at their end, and a clear header, whose
 * packet number stands at `number_at`, in as many bytes as the first one says. FH_SEAL_FAILED
 * counts as sealed too, and the bytes are of no more use. */
FH_SEAL_API int fh_seal_packet(fh_seal *keys, uint8_t *packet, size_t len, size_t number_at,
                               uint64_t number) {
    uint8_t mask[32];
    int rest;
    if (!keys->sealing || len > 1 << 16 || number >> 62) return FH_SEAL_ARGUMENT;
    if (len < number_at + 4 + FH_SEAL_SAMPLE) return FH_SEAL_SHORT;
    if (keys->sealed >= fh_seal_confidentiality_limit(keys->suite)) return FH_SEAL_LIMIT;
    size_t width = (packet[0] & 3) + 1u, head = number_at + width, end = len - FH_SEAL_TAG;
    keys->sealed++; /* Whatever becomes of it: no number may be sealed again. */
    if (!fh_seal_go_over(keys, number, packet, head, end) ||
        !EVP_CipherFinal_ex(keys->packet, packet + end, &rest) ||
        !EVP_CIPHER_CTX_get_params(keys->packet, keys->tag) ||
        !fh_seal_mask(keys, packet + number_at + 4, mask))
        return FH_SEAL_FAILED;
    packet[0] ^= mask[0] & fh_seal_first_bits(packet[0]);
    for (size_t i = 0; i < width; i++) packet[number_at + i] ^= mask[1 + i];
    return FH_SEAL_OK;
}

/* The packet number whose last bytes these are, next to the one that is expected (RFC 9000,
 * appendix A.3). */
static inline uint64_t fh_seal_number(uint64_t expected, const uint8_t *bytes, size_t width) {
    uint64_t window = 1ull << 8 * width, low = 0;
    for (size_t i = 0; i < width; i++) low = low << 8 | bytes[i];
    uint64_t number = (expected & ~(window - 1)) | low;
    if (number + window / 2 <= expected && number < (1ull << 62) - window) return number + window;
    if (number > expected + window / 2 && number >= window) return number - window;
    return number;
}

/* Opens a packet in place, and says its number. Its header is clear then, and its tag stays. Where
 * it answers anything but 0, the bytes are of no more use. */
FH_SEAL_API int fh_seal_open_packet(fh_seal *keys, uint8_t *packet, size_t len, size_t number_at,
                               uint64_t *number) {
    uint8_t mask[32];
    int rest;
    if (keys->sealing || len > 1 << 16) return FH_SEAL_ARGUMENT;
    if (len < number_at + 4 + FH_SEAL_SAMPLE) return FH_SEAL_SHORT;
    if (keys->refused >= fh_seal_integrity_limit(keys->suite)) return FH_SEAL_LIMIT;
    if (!fh_seal_mask(keys, packet + number_at + 4, mask)) return FH_SEAL_FAILED;
    packet[0] ^= mask[0] & fh_seal_first_bits(packet[0]);
    size_t width = (packet[0] & 3) + 1u, head = number_at + width, end = len - FH_SEAL_TAG;
    for (size_t i = 0; i < width; i++) packet[number_at + i] ^= mask[1 + i];
    *number = fh_seal_number(keys->expected, packet + number_at, width);
    if (!fh_seal_go_over(keys, *number, packet, head, end)) return FH_SEAL_FAILED;
    if (!EVP_CipherFinal_ex(keys->packet, packet + end, &rest)) {
        keys->refused++;
        return FH_SEAL_REFUSED;
    }
    if (*number >= keys->expected) keys->expected = *number + 1;
    return FH_SEAL_OK;
}

/* Puts the mask of the stand-in keys on a packet number, or takes it off. */
static inline void fh_seal_stand_in_mask(uint8_t *datagram, size_t number_at, size_t width) {
    const uint8_t *sample = datagram + number_at + 4;
    for (size_t i = 0; i < width; i++) datagram[number_at + i] ^= sample[1 + i];
}

/* Seals a datagram that fh_poll gave, in place: its length stays. Where the answer isn't 0 the
 * datagram mustn't be sent. FH_SEAL_FAILED counts as sealed too: its number mustn't be sealed
 * again. */
FH_SEAL_API int fh_seal_datagram(fh_seal *keys, uint8_t *datagram, size_t len) {
    size_t number_at = 1 + keys->id_len;
    if (len < number_at + 4 + FH_SEAL_SAMPLE) return FH_SEAL_SHORT;
    datagram[0] ^= datagram[number_at + 4] & 0x1f;
    fh_seal_stand_in_mask(datagram, number_at, (datagram[0] & 3) + 1u);
    uint64_t number = fh_seal_get(datagram + len - FH_SEAL_TAG);
    return fh_seal_packet(keys, datagram, len, number_at, number);
}

/* Opens a datagram that came, in place, so that fh_receive takes it: its length stays. Where the
 * answer isn't 0 it mustn't reach the endpoint. */
FH_SEAL_API int fh_seal_open_datagram(fh_seal *keys, uint8_t *datagram, size_t len) {
    size_t number_at = 1 + keys->id_len;
    uint64_t number;
    int answer = fh_seal_open_packet(keys, datagram, len, number_at, &number);
    if (answer != FH_SEAL_OK) return answer;
    uint8_t *tag = datagram + len - FH_SEAL_TAG;
    fh_seal_put(tag, number);
    memset(tag + 8, keys->mark, 8);
    fh_seal_stand_in_mask(datagram, number_at, (datagram[0] & 3) + 1u);
    datagram[0] ^= datagram[number_at + 4] & 0x1f;
    return FH_SEAL_OK;
}

#endif
