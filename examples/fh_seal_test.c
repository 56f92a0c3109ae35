/* Tests fh_seal.h on the vectors of RFC 9001, appendix A, and around datagrams of stand-in keys.
 *
 *   cc -O2 -o out/fh_seal_test examples/fh_seal_test.c -lcrypto && out/fh_seal_test
 *
 * Prints what differs, and last how much was tried. The status is 0 where nothing differs. */
#include "fh_seal.h"
#include <stdio.h>

/* The vectors: secrets, packets without their tags (the rest of the client's Initial packet is
 * PADDING), and sealed packets. */
#define INITIAL "7db5df06e7a69e432496adedb00851923595221596ae2ae9fb8115c1e9ed0a44"
#define CLIENT "c00cf151ca5be075ed0ebfb5c80323c42d6b7db67881289af4008f1f6c357aea"
#define SERVER "3c199828fd139efd216c155ad844cc81fb82fa8d7446fa7d78be803acdda951b"
#define CHACHA "9ac312a7f877468ebe69422748ad00a15443f18203a07d6060f688f30f21632b"
#define CHACHA_UPDATED "1223504755036d556342ee9361d253421a826c9ecdf3c7148684b36b714881f9"
#define CLIENT_NOW "b8767708f8772358a6ea9fc43e4add2c961b3f5287a6d1467ee0aeab33724dbf"
#define CLIENT_NEXT "42cac8c91cd5eb40682e432edf2d2be9f41a52ca6b22d8e6cdb1e8aca9061fce"
#define SERVER_NOW "42dc972140e0f2e39845b767613439dc6758ca43259b878506824eb1e438d855"
#define SERVER_NEXT "eb7f5e2a123f407db499e361cae590d4d992e14b7ace03c244e0422115b6d38a"
#define COUNTED \
    "000102030405060708090a0b0c0d0e0f101112131415161718191a1b1c1d1e1f202122232425262728292a2b" \
    "2c2d2e2f"
#define AES_256_HEADER_KEY "307135de335efef95873468a03d3dfa1e38050df7cc6ab7f22fd7aced73b66e5"
#define AES_256_PLAIN \
    "41a0a1a2a3a4a5a6a74567616e206578616d706c65206f66204145532d3235362d47434d20696e2051554943"
#define AES_256_SEALED \
    "5ca0a1a2a3a4a5a6a729ec8fbe014aa3fd3dec38817c2ca57345efb497aac391cd59f16076dd496590f94093" \
    "aca0eec08752eeddcbd9e07c75e40c02"
#define SERVER_INITIAL \
    "c1000000010008f067a5502a4262b5004075000102000000000600405a020000560303eefce7f7b37ba1d163" \
    "2e96677825ddf73988cfc79825df566dc5430b9a045a1200130100002e00330024001d00209d3c940d89690b" \
    "84d08a60993c144eca684d1081287c834d5311bcf32bb9da1a002b00020304"
#define SERVER_SEALED \
    "cf000000010008f067a5502a4262b5004075c0d95a482cd0991cd25b0aac406a5816b6394100f37a1c697975" \
    "54780bb38cc5a99f5ede4cf73c3ec2493a1839b3dbcba3f6ea46c5b7684df3548e7ddeb9c3bf9c73cc3f3bde" \
    "d74b562bfb19fb84022f8ef4cdd93795d77d06edbb7aaf2f58891850abbdca3d20398c276456cbc42158407d" \
    "d074ee"
#define CLIENT_INITIAL \
    "c300000001088394c8f03e5157080000449e00000002060040f1010000ed0303ebf8fa56f12939b9584a3896" \
    "472ec40bb863cfd3e86804fe3a47f06a2b69484c00000413011302010000c000000010000e00000b6578616d" \
    "706c652e636f6dff01000100000a00080006001d0017001800100007000504616c706e000500050100000000" \
    "003300260024001d00209370b2c9caa47fbabaf4559fedba753de171fa71f50f1ce15d43e994ec74d748002b" \
    "0003020304000d0010000e0403050306030203080408050806002d00020101001c00024001003900320408ff" \
    "ffffffffffffff05048000ffff07048000ffff0801100104800075300901100f088394c8f03e515708060480" \
    "00ffff"
#define CLIENT_SEALED \
    "c000000001088394c8f03e5157080000449e7b9aec34d1b1c98dd7689fb8ec11d242b123dc9bd8bab936b47d" \
    "92ec356c0bab7df5976d27cd449f63300099f3991c260ec4c60d17b31f8429157bb35a1282a643a8d2262cad" \
    "67500cadb8e7378c8eb7539ec4d4905fed1bee1fc8aafba17c750e2c7ace01e6005f80fcb7df621230c83711" \
    "b39343fa028cea7f7fb5ff89eac2308249a02252155e2347b63d58c5457afd84d05dfffdb20392844ae81215" \
    "4682e9cf012f9021a6f0be17ddd0c2084dce25ff9b06cde535d0f920a2db1bf362c23e596d11a4f5a6cf3948" \
    "838a3aec4e15daf8500a6ef69ec4e3feb6b1d98e610ac8b7ec3faf6ad760b7bad1db4ba3485e8a94dc250ae3" \
    "fdb41ed15fb6a8e5eba0fc3dd60bc8e30c5c4287e53805db059ae0648db2f64264ed5e39be2e20d82df566da" \
    "8dd5998ccabdae053060ae6c7b4378e846d29f37ed7b4ea9ec5d82e7961b7f25a9323851f681d582363aa5f8" \
    "9937f5a67258bf63ad6f1a0b1d96dbd4faddfcefc5266ba6611722395c906556be52afe3f565636ad1b17d50" \
    "8b73d8743eeb524be22b3dcbc2c7468d54119c7468449a13d8e3b95811a198f3491de3e7fe942b330407abf8" \
    "2a4ed7c1b311663ac69890f4157015853d91e923037c227a33cdd5ec281ca3f79c44546b9d90ca00f064c99e" \
    "3dd97911d39fe9c5d0b23a229a234cb36186c4819e8b9c5927726632291d6a418211cc2962e20fe47feb3edf" \
    "330f2c603a9d48c0fcb5699dbfe5896425c5bac4aee82e57a85aaf4e2513e4f05796b07ba2ee47d80506f8d2" \
    "c25e50fd14de71e6c418559302f939b0e1abd576f279c4b2e0feb85c1f28ff18f58891ffef132eef2fa09346" \
    "aee33c28eb130ff28f5b766953334113211996d20011a198e3fc433f9f2541010ae17c1bf202580f6047472f" \
    "b36857fe843b19f5984009ddc324044e847a4f4a0ab34f719595de37252d6235365e9b84392b061085349d73" \
    "203a4a13e96f5432ec0fd4a1ee65accdd5e3904df54c1da510b0ff20dcc0c77fcb2c0e0eb605cb0504db8763" \
    "2cf3d8b4dae6e705769d1de354270123cb11450efc60ac47683d7b8d0f811365565fd98c4c8eb936bcab8d06" \
    "9fc33bd801b03adea2e1fbc5aa463d08ca19896d2bf59a071b851e6c239052172f296bfb5e72404790a21810" \
    "14f3b94a4e97d117b438130368cc39dbb2d198065ae3986547926cd2162f40a29f0c3c8745c0f50fba3852e5" \
    "66d44575c29d39a03f0cda721984b6f440591f355e12d439ff150aab7613499dbd49adabc8676eef023b15b6" \
    "5bfc5ca06948109f23f350db82123535eb8a7433bdabcb909271a6ecbcb58b936a88cd4e8f2e6ff5800175f1" \
    "13253d8fa9ca8885c2f552e657dc603f252e1a8e308f76f0be79e2fb8f5d5fbbe2e30ecadd220723c8c0aea8" \
    "078cdfcb3868263ff8f0940054da48781893a7e49ad5aff4af300cd804a6b6279ab3ff3afb64491c85194aab" \
    "760d58a606654f9f4400e8b38591356fbf6425aca26dc85244259ff2b19c41b9f96f3ca9ec1dde434da7d2d3" \
    "92b905ddf3d1f9af93d1af5950bd493f5aa731b4056df31bd267b6b90a079831aaf579be0a39013137aac6d4" \
    "04f518cfd46840647e78bfe706ca4cf5e9c5453e9f7cfd2b8b4c8d169a44e55c88d4a9a7f9474241e221af44" \
    "860018ab0856972e194cd934"

static int tried, failed;

static void check(bool right, const char *what) {
    tried++;
    failed += !right;
    if (!right) printf("fh_seal_test: %s: differs\n", what);
}

/* Reads hexadecimal digits: how many bytes they are. */
static size_t hex(const char *digits, uint8_t *out) {
    size_t len = strlen(digits) / 2;
    for (size_t i = 0; i < len; i++) {
        unsigned byte = 0;
        sscanf(digits + 2 * i, "%2x", &byte);
        out[i] = (uint8_t)byte;
    }
    return len;
}

static bool equals(const uint8_t *bytes, const char *digits) {
    uint8_t wanted[2048];
    return memcmp(bytes, wanted, hex(digits, wanted)) == 0;
}

/* What a secret gives by a label. */
static void expands(enum fh_seal_suite suite, const char *secret, const char *label,
                    const char *wanted, const char *what) {
    uint8_t bytes[64], out[64];
    size_t len = hex(secret, bytes), out_len = strlen(wanted) / 2;
    check(!fh_seal_expand(suite, bytes, len, label, NULL, 0, out, out_len), what);
    check(equals(out, wanted), what);
}

/* A packet is sealed, opened by the peer's keys, and then refused with any one byte changed. */
static void seals(enum fh_seal_suite suite, const char *secret, const char *plain, size_t len,
                  size_t number_at, uint64_t number, const char *wanted, const char *what) {
    uint8_t bytes[64], packet[2048] = {0}, changed[2048], clear[2048] = {0};
    size_t secret_len = hex(secret, bytes), head = number_at + 4;
    uint64_t opened = 0, refused = 0;
    fh_seal *local = fh_seal_new(suite, bytes, secret_len, true, true, 8);
    fh_seal *remote = fh_seal_new(suite, bytes, secret_len, true, false, 8);
    check(local && remote, what);
    remote->expected = number; /* As where the packets before it came. */
    hex(plain, packet), hex(plain, clear);
    check(!fh_seal_packet(local, packet, len, number_at, number), what);
    check(equals(packet, wanted) && strlen(wanted) == 2 * len, what);
    for (size_t i = 0; i < len; i++) {
        memcpy(changed, packet, len);
        changed[i] ^= 1;
        refused += fh_seal_open_packet(remote, changed, len, number_at, &opened) == FH_SEAL_REFUSED;
    }
    check(refused == len && fh_seal_refused(remote) == len, what);
    check(!fh_seal_open_packet(remote, packet, len, number_at, &opened) && opened == number, what);
    check(memcmp(packet, clear, len - FH_SEAL_TAG) == 0, what);
    check(len < head + 5 || fh_seal_sealed(local) == 1, what);
    fh_seal_free(local), fh_seal_free(remote);
}

/* Appendix A.1: the secrets and keys of Initial packets. */
static void of_initial_secrets(void) {
    uint8_t salt[20], id[8], secret[32];
    hex("38762cf7f55934b34d179ae6a4c80cadccbb7f0a", salt), hex("8394c8f03e515708", id);
    HMAC(EVP_sha256(), salt, 20, id, 8, secret, NULL); /* HKDF-Extract */
    check(equals(secret, INITIAL), "the initial secret");
    expands(FH_SEAL_AES_128_GCM, INITIAL, "client in", CLIENT, "the client's secret");
    expands(FH_SEAL_AES_128_GCM, INITIAL, "server in", SERVER, "the server's secret");
    expands(FH_SEAL_AES_128_GCM, CLIENT, "quic key", "1f369613dd76d5467730efcbe3b1a22d", "A.1");
    expands(FH_SEAL_AES_128_GCM, CLIENT, "quic iv", "fa044b2f42a3fd3b46fb255c", "A.1");
    expands(FH_SEAL_AES_128_GCM, CLIENT, "quic hp", "9f50449e04a0e810283a1e9933adedd2", "A.1");
    expands(FH_SEAL_AES_128_GCM, SERVER, "quic key", "cf3a5331653c364c88f0f379b6067e37", "A.1");
    expands(FH_SEAL_AES_128_GCM, SERVER, "quic iv", "0ac1493ca1905853b0bba03e", "A.1");
    expands(FH_SEAL_AES_128_GCM, SERVER, "quic hp", "c206b8d9b9f0f37644430b490eeaa314", "A.1");
}

/* Appendices A.2, A.3 and A.5, key updates, and AES-256-GCM, of which RFC 9001 has no vector: that
 * one was computed by the library ring 0.16.20. */
static void of_vectors(void) {
    seals(FH_SEAL_AES_128_GCM, CLIENT, CLIENT_INITIAL, 1200, 18, 2, CLIENT_SEALED, "A.2");
    seals(FH_SEAL_AES_128_GCM, SERVER, SERVER_INITIAL, 135, 18, 1, SERVER_SEALED, "A.3");
    seals(FH_SEAL_CHACHA20_POLY1305, CHACHA, "4200bff401", 21, 1, 654360564,
          "4cfe4189655e5cd55c41f69080575d7999c25a5bfb", "A.5");
    expands(FH_SEAL_CHACHA20_POLY1305, CHACHA, "quic ku", CHACHA_UPDATED, "A.5: key update");
    expands(FH_SEAL_AES_128_GCM, CLIENT_NOW, "quic ku", CLIENT_NEXT, "the client's key update");
    expands(FH_SEAL_AES_128_GCM, SERVER_NOW, "quic ku", SERVER_NEXT, "the server's key update");
    seals(FH_SEAL_AES_256_GCM, COUNTED, AES_256_PLAIN, 60, 9, 0x1234567, AES_256_SEALED, "AES-256");
    expands(FH_SEAL_AES_256_GCM, COUNTED, "quic hp", AES_256_HEADER_KEY, "AES-256: header key");
}

/* A datagram as stand-in keys of a client make it: its number in `width` bytes. */
static void stand_in(uint8_t *datagram, size_t len, size_t width, uint64_t number) {
    for (size_t i = 0; i < len; i++) datagram[i] = (uint8_t)(7 * i + number);
    datagram[0] = (uint8_t)(0x40 | (width - 1));
    for (size_t i = 0; i < width; i++) datagram[9 + i] = (uint8_t)(number >> 8 * (width - 1 - i));
    for (size_t i = 0; i < 8; i++) datagram[len - 16 + i] = (uint8_t)(number >> (56 - 8 * i));
    memset(datagram + len - 8, 'c', 8);
    for (size_t i = 0; i < width; i++) datagram[9 + i] ^= datagram[14 + i];
    datagram[0] ^= datagram[13] & 0x1f;
}

/* Datagrams of stand-in keys come through as they were, in order, late and behind a gap. */
static void of_datagrams(enum fh_seal_suite suite) {
    static const uint64_t numbers[] = {0, 1, 200, 199, 300, 40000, 39990, 8000000, 8100000};
    uint8_t secret[48] = {1}, datagram[1452], was[1452];
    size_t secret_len = suite == FH_SEAL_AES_256_GCM ? 48 : 32, lens[] = {29, 60, 1200, 1452};
    fh_seal *local = fh_seal_new(suite, secret, secret_len, true, true, 8);
    fh_seal *remote = fh_seal_new(suite, secret, secret_len, true, false, 8);
    for (int i = 0; i < 9; i++) {
        size_t len = lens[i % 4], width = numbers[i] < 100 ? 1 : numbers[i] < 1000 ? 2 : 4;
        stand_in(was, len, width, numbers[i]);
        memcpy(datagram, was, len);
        check(!fh_seal_datagram(local, datagram, len), "a datagram is sealed");
        check(memcmp(datagram + 13, was + 13, len - 13) != 0, "a sealed datagram hides");
        check(!fh_seal_open_datagram(remote, datagram, len), "a datagram opens");
        check(memcmp(datagram, was, len) == 0, "an opened datagram is what it was");
    }
    check(fh_seal_sealed(local) == 9 && fh_seal_refused(remote) == 0, "counts");
    fh_seal_free(local), fh_seal_free(remote);
}

/* What is refused before any key is asked, and limits. */
static void of_refusals(void) {
    uint8_t secret[48] = {1}, datagram[64] = {0x40};
    fh_seal *local = fh_seal_new(FH_SEAL_AES_128_GCM, secret, 32, true, true, 8);
    fh_seal *remote = fh_seal_new(FH_SEAL_AES_128_GCM, secret, 32, true, false, 8);
    check(!fh_seal_new(FH_SEAL_AES_128_GCM, secret, 31, true, true, 8), "a short secret");
    check(!fh_seal_new(FH_SEAL_AES_256_GCM, secret, 32, true, true, 8), "a secret of another hash");
    check(!fh_seal_new(FH_SEAL_SUITES, secret, 32, true, true, 8), "no suite");
    check(!fh_seal_new(FH_SEAL_AES_128_GCM, secret, 32, true, true, 21), "a long ID");
    check(fh_seal_datagram(local, datagram, 28) == FH_SEAL_SHORT, "28 bytes, sealed");
    check(fh_seal_open_datagram(remote, datagram, 28) == FH_SEAL_SHORT, "28 bytes, opened");
    check(fh_seal_open_datagram(remote, datagram, 0) == FH_SEAL_SHORT, "no bytes");
    check(fh_seal_datagram(remote, datagram, 64) == FH_SEAL_ARGUMENT, "keys that open, to seal");
    check(fh_seal_open_datagram(local, datagram, 64) == FH_SEAL_ARGUMENT, "and the reverse");
    check(fh_seal_refused(remote) == 0 && fh_seal_sealed(local) == 0, "none of that counts");
    local->sealed = (1 << 23) - 1, remote->refused = (1ull << 52) - 1;
    stand_in(datagram, 64, 1, 0);
    check(fh_seal_datagram(local, datagram, 64) == FH_SEAL_OK, "the last packet");
    stand_in(datagram, 64, 1, 1);
    check(fh_seal_datagram(local, datagram, 64) == FH_SEAL_LIMIT, "the confidentiality limit");
    datagram[20] ^= 1;
    check(fh_seal_open_datagram(remote, datagram, 64) == FH_SEAL_REFUSED, "the last refusal");
    check(fh_seal_open_datagram(remote, datagram, 64) == FH_SEAL_LIMIT, "the integrity limit");
    fh_seal_free(local), fh_seal_free(remote), fh_seal_free(NULL);
}

/* Random bytes of each length don't open, and touch no memory but their own. */
static void of_random_bytes(enum fh_seal_suite suite) {
    uint8_t secret[48] = {2};
    uint64_t word = 88172645463325252u, short_ones = 0, refused = 0;
    fh_seal *keys = fh_seal_new(suite, secret, suite == FH_SEAL_AES_256_GCM ? 48 : 32, 0, 0, 8);
    for (size_t len = 0; len < 1500; len++) {
        uint8_t *bytes = (uint8_t *)malloc(len + (len == 0));
        for (size_t i = 0; i < len; i++) {
            word ^= word << 13, word ^= word >> 7, word ^= word << 17;
            bytes[i] = (uint8_t)word;
        }
        int answer = fh_seal_open_datagram(keys, bytes, len);
        short_ones += answer == FH_SEAL_SHORT, refused += answer == FH_SEAL_REFUSED;
        free(bytes);
    }
    check(short_ones == 29 && refused == 1471, "random bytes");
    check(fh_seal_refused(keys) == 1471, "random bytes are counted");
    fh_seal_free(keys);
}

int main(void) {
    for (int suite = 0; suite < FH_SEAL_SUITES; suite++) {
        of_datagrams((enum fh_seal_suite)suite);
        of_random_bytes((enum fh_seal_suite)suite);
    }
    of_initial_secrets();
    of_vectors();
    of_refusals();
    printf("fh_seal_test: %d of %d checks failed\n", failed, tried);
    return failed != 0;
}
