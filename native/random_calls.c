/* Makes random calls at endpoints of the library, and hands random datagrams in.
 *
 *   random_calls CALLS DATAGRAMS SEED [LACKS]
 *
 * With LACKS about one allocation of so many fails. For that it is linked with the options
 * -Wl,--wrap=malloc -Wl,--wrap=realloc.
 *
 * Numbers and IDs go up to 2^64 - 1, and settings, lengths and the order of calls are any. Some
 * datagrams are bytes at random, some are those of the peer, altered or not, and some are sealed as
 * the stand-in keys do, of frames at random. Each answer is held against what the header says: its
 * range, and that nothing was written where it is negative. The status is 0 where all is so. */
#include "fennelhammer.h"

#include <inttypes.h>
#include <stdio.h>
#include <stdlib.h>
#include <string.h>

#define ROOM 70000u
#define MARK 0xa5
#define HEADER 13u /* the first byte, an ID and four bytes of a packet number */
#define TAG 16u

static const uint8_t IDS[2][8] = {"client-", "server-"};
static uint64_t word;
static uint8_t out[ROOM], data[ROOM];

static uint64_t taken; /* how many datagrams were taken */
static uint64_t lacks; /* of how many allocations one fails; 0 where none does */

/* Two endpoints of one connection, what the time is, how many packets were forged, and whether
 * nothing is done that soon ends the connection. */
struct pair {
    fh_conn *ends[2];
    uint64_t now;
    uint32_t forged;
    int is_calm;
};

/* ---- numbers at random */

static uint64_t next_word(void) {
    word ^= word << 13;
    word ^= word >> 7;
    word ^= word << 17;
    return word;
}

static uint64_t below(uint64_t bound) { return next_word() % bound; }

/* A number: small ones and those about powers of two are likely. */
static uint64_t number(void) {
    switch (below(4)) {
    case 0:
        return below(20);
    case 1:
        return ((uint64_t)1 << below(64)) + below(3) - 1;
    case 2:
        return UINT64_MAX - below(3);
    default:
        return next_word() >> below(64);
    }
}

/* A stream's ID: mostly one that there may be. */
static uint64_t stream(void) { return below(4) ? below(24) : number(); }

static size_t length(void) {
    static const size_t bounds[4] = {4, 100, 1500, ROOM};
    return below(bounds[below(4)]);
}

/* ---- memory that lacks */

void *__real_malloc(size_t size);
void *__real_realloc(void *at, size_t size);

static int is_lacking(void) { return lacks != 0 && below(lacks) == 0; }

void *__wrap_malloc(size_t size) { return is_lacking() ? NULL : __real_malloc(size); }

void *__wrap_realloc(void *at, size_t size) {
    return is_lacking() ? NULL : __real_realloc(at, size);
}

/* ---- what the header says */

static void hold(int is_so, const char *what, int64_t answer) {
    if (!is_so) {
        fprintf(stderr, "random_calls: %s: %" PRId64 "\n", what, answer);
        exit(1);
    }
}

/* An answer is a number up to `most`, or an error. */
static void in_range(const char *what, int64_t answer, int64_t most) {
    hold(answer <= most && answer >= FH_ERR_NOT_OPEN, what, answer);
}

/* Bytes up to `room` may be written where the answer says how many, and none where it is
 * negative. */
static void wrote(const char *what, int64_t answer, size_t room) {
    in_range(what, answer, (int64_t)room);
    size_t from = answer < 0 ? 0 : (size_t)answer;
    for (size_t at = from; at < from + 64 && at < ROOM; at++) hold(out[at] == MARK, what, answer);
    memset(out, MARK, from);
}

/* ---- endpoints */

static void settle(fh_settings *settings) {
    hold(fh_settings_default(settings, sizeof *settings) == 0, "settings_default", 0);
    uint64_t *fields = (uint64_t *)settings;
    size_t count = sizeof *settings / sizeof *fields;
    for (uint64_t changes = below(2) ? 0 : below(6); changes > 0; changes--) {
        fields[below(count)] = number();
    }
    int64_t wrong = fh_wrong_setting(settings);
    int64_t length = fh_parameters(settings, out, ROOM);
    wrote("parameters", length, FH_PARAMETERS_MAX);
    hold((wrong == 0) == (length > 0 || length == FH_ERR_MEMORY), "wrong_setting", wrong);
    hold((wrong == FH_ERR_SIZE) == (length == FH_ERR_SIZE), "wrong_setting", wrong);
}

/* Makes an endpoint with these settings, for a peer with those: it needn't come to one. */
static fh_conn *make(uint32_t side, const fh_settings *own, const fh_settings *other) {
    uint8_t list[FH_PARAMETERS_MAX];
    uint8_t seed[FH_SEED_LENGTH + 1] = {(uint8_t)next_word()};
    int64_t told = fh_parameters(other, list, sizeof list);
    size_t own_length = below(50) ? 8 : below(22), peer_length = below(50) ? 8 : below(22);
    uint8_t own_id[22] = {0}, peer_id[22] = {0};
    memcpy(own_id, IDS[side % 2], 8);
    memcpy(peer_id, IDS[!(side % 2)], 8);
    fh_conn *none = (fh_conn *)seed, *made = none;
    if (!below(20)) list[below(sizeof list)] ^= 1u << below(8);
    int answer = fh_new(own, below(50) ? side : (uint32_t)number(), own_id, own_length, peer_id,
                        peer_length, list, told < 0 ? 0 : (size_t)told, 7, seed,
                        below(50) ? FH_SEED_LENGTH : below(34), below(9), &made);
    in_range("new", answer, 0);
    hold((answer == 0) == (made != none), "new", answer);
    return answer == 0 ? made : NULL;
}

static void make_pair(struct pair *pair) {
    fh_settings settings[2];
    do {
        for (int side = 0; side < 2; side++) settle(&settings[side]);
        for (uint32_t side = 0; side < 2; side++) {
            pair->ends[side] = make(side, &settings[side], &settings[!side]);
        }
        for (int side = 0; side < 2 && (!pair->ends[0] || !pair->ends[1]); side++) {
            if (pair->ends[side]) fh_free(pair->ends[side]);
        }
    } while (!pair->ends[0] || !pair->ends[1]);
    pair->now = 0;
    pair->forged = 0;
    pair->is_calm = (int)below(2);
}

static void free_pair(struct pair *pair) {
    for (int side = 0; side < 2; side++) fh_free(pair->ends[side]);
}

/* ---- datagrams */

static void receive(struct pair *pair, fh_conn *conn, uint8_t *datagram, size_t len) {
    uint64_t address = below(30) ? 7 : number();
    memcpy(out, datagram, len);
    int opens = fh_would_open(conn, address, out, len);
    /* A client takes nothing from elsewhere, and a server follows its peer. */
    int follows = conn == pair->ends[FH_SERVER];
    hold(opens == 0 || (opens == 1 && (follows || address == 7)), "would_open", opens);
    memset(out, MARK, len);
    uint32_t ecn = below(30) ? (uint32_t)below(4) : (uint32_t)number();
    int answer = fh_receive(conn, pair->now, address, ecn, datagram, len);
    in_range("receive", answer, FH_DROPPED_ADDRESS);
    taken += answer == 0;
}

/* Takes a datagram off an endpoint, with any room: how long it is. */
static size_t poll_one(struct pair *pair, fh_conn *conn) {
    uint64_t address = 1;
    uint32_t ecn = 99;
    size_t room = below(8) ? ROOM : length();
    int64_t len = fh_poll(conn, pair->now, out, room, &address, &ecn);
    hold((len == FH_ERR_ROOM) == (room < fh_max_datagram_size(conn)), "poll", len);
    int there = conn == pair->ends[FH_SERVER] || address == 7;
    hold(len > 0 ? there && ecn < 4 : address == 1 && ecn == 99, "poll", len);
    size_t given = len > 0 ? (size_t)len : 0;
    memcpy(data, out, given);
    wrote("poll", len, fh_max_datagram_size(conn));
    return given;
}

static size_t put_number(uint8_t *at, uint64_t value) {
    uint64_t form = below(3) ? below(64) : value & 0x3fffffffffffffff;
    size_t size = form < 64 ? 1 : 8;
    if (size == 8) form |= (uint64_t)3 << 62;
    for (size_t i = 0; i < size; i++) at[i] = (uint8_t)(form >> (8 * (size - 1 - i)));
    return size;
}

/* Frames at random: types that there are, and numbers behind them. */
static size_t put_frames(uint8_t *at) {
    size_t len = 0;
    for (uint64_t frames = 1 + below(4); frames > 0; frames--) {
        at[len++] = (uint8_t)below(0x33);
        for (uint64_t more = below(6); more > 0; more--) len += put_number(at + len, number());
        for (uint64_t more = below(30); more > 0; more--) at[len++] = (uint8_t)next_word();
    }
    return len;
}

/* A packet of frames at random for an endpoint, sealed as its peer does: how long it is. */
static size_t forge(struct pair *pair, int side) {
    uint32_t packet = pair->forged++;
    data[0] = 0x43;
    memcpy(data + 1, IDS[side], 8);
    for (int i = 0; i < 4; i++) data[9 + i] = (uint8_t)(packet >> (24 - 8 * i));
    size_t len = HEADER + put_frames(data + HEADER);
    memset(data + len, 0, TAG);
    for (int i = 0; i < 4; i++) data[len + 4 + i] = data[9 + i];
    memset(data + len + 8, side == 0 ? 's' : 'c', 8);
    const uint8_t *sample = data + HEADER;
    data[0] ^= sample[0] & 31;
    for (int i = 0; i < 4; i++) data[9 + i] ^= sample[1 + i];
    return len + TAG;
}

static void hand_in(struct pair *pair) {
    int side = (int)below(2);
    size_t len = length();
    uint64_t kind = pair->is_calm && below(200) ? 3 : below(4);
    if (kind == 0) {
        for (size_t at = 0; at < len; at++) data[at] = (uint8_t)next_word();
        if (below(2)) memcpy(data + 1, IDS[side], 8);
    } else if (kind == 1) {
        len = forge(pair, side);
    } else {
        len = poll_one(pair, pair->ends[!side]);
        if (kind == 2 && len > 0) data[below(len)] ^= 1u << below(8);
    }
    receive(pair, pair->ends[side], data, len);
}

/* ---- calls */

static void call_stream(fh_conn *conn) {
    uint64_t code = 1;
    size_t len = length();
    fh_iovec buffers[3] = {{data, len / 2}, {NULL, 0}, {data, len - len / 2}};
    switch (below(8)) {
    case 0:
        in_range("open", fh_open(conn, (uint32_t)below(3)), INT64_MAX);
        break;
    case 1:
        in_range("accept", fh_accept(conn, (uint32_t)below(3)), INT64_MAX);
        break;
    case 2:
        in_range("write", fh_write(conn, stream(), data, len, &code), (int64_t)len);
        break;
    case 3:
        in_range("writev", fh_writev(conn, stream(), buffers, below(4), &code), (int64_t)len);
        break;
    case 4:
        in_range("finish", fh_finish(conn, stream(), &code), 0);
        break;
    case 5:
        in_range("reset", fh_reset(conn, stream(), number()), 0);
        break;
    case 6:
        in_range("stop", fh_stop(conn, stream(), number()), 0);
        break;
    default:
        in_range("priority", fh_set_priority(conn, stream(), (int32_t)number()), 0);
    }
}

static void call_read(fh_conn *conn) {
    uint64_t offset = 1, code = 1;
    uint32_t fin = 99;
    size_t room = length();
    int64_t got = below(4) ? fh_read(conn, stream(), out, room, &offset, &fin, &code)
                           : fh_read_unordered(conn, stream(), out, room, &offset, &fin, &code);
    hold(got < 0 ? offset == 1 && fin == 99 : fin < 2 && (got > 0 || fin), "read", got);
    hold(code == 1 || got == FH_ERR_RESET, "read", got);
    wrote("read", got, room);
}

static void call_message(fh_conn *conn) {
    size_t len = length();
    if (below(2)) {
        in_range("send_message", fh_send_message(conn, data, len, (uint32_t)below(3)), 0);
    } else {
        wrote("receive_message", fh_receive_message(conn, out, len), len);
    }
    in_range("max_message", fh_max_message(conn), 65535);
}

static void ask(fh_conn *conn) {
    fh_stats stats;
    fh_event event = {0, 0, 0, 0, 0, 0};
    while (fh_next_event(conn, &event)) hold(event.kind >= 1 && event.kind <= 9, "event", 0);
    size_t room = length();
    wrote("lost_text", fh_lost_text(conn, out, room), room);
    in_range("stats", fh_get_stats(conn, &stats, below(9) ? sizeof stats : number()), 0);
    in_range("state", fh_get_state(conn), FH_STATE_FAILED);
    hold(fh_current_mtu(conn) <= fh_max_datagram_size(conn), "current_mtu", 0);
    in_range("validated", fh_is_validated(conn), 1);
    (void)fh_rtt(conn);
    (void)fh_congestion_window(conn);
}

/* Lets time pass: a while, up to a deadline, or to any time, which may step back. */
static void pass(struct pair *pair, fh_conn *conn) {
    uint64_t next = fh_next_timeout(conn), second = 1000000000;
    if (!pair->is_calm && !below(40)) {
        pair->now = number();
    } else if (below(2)) {
        pair->now += next_word() >> (36 + below(28));
    } else if (next != FH_NEVER && (!pair->is_calm || next < pair->now + second)) {
        pair->now = next;
    }
    in_range("timeout", fh_timeout(conn, pair->now), 0);
}

/* Calls of a connection that name no stream. */
static void call_connection(fh_conn *conn) {
    fh_own_id ids[FH_OWN_IDS_MAX];
    switch (below(5)) {
    case 0:
        in_range("handshake_done", fh_handshake_done(conn), 0);
        break;
    case 1:
        in_range("use_next_id", fh_use_next_id(conn), 0);
        break;
    case 2:
        in_range("ids_changed", fh_ids_changed(conn), 1);
        in_range("own_ids", fh_own_ids(conn, ids, below(FH_OWN_IDS_MAX + 1)), FH_OWN_IDS_MAX);
        break;
    default:
        fh_ping(conn);
    }
}

static void call(struct pair *pair) {
    fh_conn *conn = pair->ends[below(2)];
    switch (below(16)) {
    case 0:
    case 1:
        pass(pair, conn);
        break;
    case 2:
        ask(conn);
        break;
    case 3:
        call_message(conn);
        break;
    case 4:
        call_connection(conn);
        break;
    case 5:
        if (below(pair->is_calm ? 200 : 20)) break;
        in_range("close", fh_close(conn, pair->now, number(), data, length()), 0);
        break;
    case 6:
    case 7:
    case 8:
        call_read(conn);
        break;
    default:
        call_stream(conn);
    }
}

/* ---- the run */

int main(int argc, char **argv) {
    if (argc != 4 && argc != 5) {
        fprintf(stderr, "usage: random_calls CALLS DATAGRAMS SEED [LACKS]\n");
        return 2;
    }
    uint64_t calls = strtoull(argv[1], NULL, 10), pairs = 0;
    uint64_t datagrams = strtoull(argv[2], NULL, 10);
    word = strtoull(argv[3], NULL, 10) * 2 + 1;
    lacks = argc == 5 ? strtoull(argv[4], NULL, 10) : 0;
    memset(out, MARK, sizeof out);
    for (; calls + datagrams > 0; pairs++) {
        struct pair pair;
        make_pair(&pair);
        for (uint64_t turns = 1 + below(400); turns > 0 && calls + datagrams > 0; turns--) {
            if (below(calls + datagrams) < calls) calls--, call(&pair);
            else datagrams--, hand_in(&pair);
        }
        free_pair(&pair);
    }
    printf("%s\n%s calls, %s datagrams (%" PRIu64 " taken) at %" PRIu64 " pairs of endpoints\n",
           fh_build(), argv[1], argv[2], taken, pairs);
    return 0;
}
