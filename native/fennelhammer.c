/* The functions of fennelhammer.h over those that the static library `quic_c` exports: each hands
 * its call on. No proof covers this file. It makes of the pointer of an endpoint the struct that
 * stands for it there, hands on a pointer to something where there are no bytes, as a slice has one
 * always, and has the texts of errors, which no function of the library can give.
 *
 * It is compiled with FH_BUILD, a text that says what was built. */
#include "fennelhammer.h"

/* `Held` of quic_c, which owns the endpoint behind its pointer, and `Slot`, which may own none. */
struct held {
    void *at;
};

/* ---- what quic_c exports; a slice is a pointer and a length */

int32_t quic_c_settings_default(fh_settings *settings, size_t size);
int64_t quic_c_wrong_setting(const fh_settings *settings);
int64_t quic_c_parameters(const fh_settings *settings, uint8_t *out, size_t room);
int32_t quic_c_new(const fh_settings *settings, uint32_t side, const uint8_t *own_id,
                   size_t own_id_len, const uint8_t *peer_id, size_t peer_id_len,
                   const uint8_t *peer_parameters, size_t peer_parameters_len,
                   uint64_t peer_address, const uint8_t *seed, size_t seed_len, uint64_t now,
                   struct held *conn);
void quic_c_free(struct held conn);
int32_t quic_c_receive(struct held *conn, uint64_t now, uint64_t peer_address, uint32_t ecn,
                       uint8_t *datagram, size_t len);
int64_t quic_c_poll(struct held *conn, uint64_t now, uint8_t *out, size_t room,
                    uint64_t *peer_address, uint32_t *ecn);
size_t quic_c_max_datagram_size(struct held *conn);
int32_t quic_c_timeout(struct held *conn, uint64_t now);
uint64_t quic_c_next_timeout(struct held *conn);
int32_t quic_c_would_open(struct held *conn, uint64_t peer_address, uint8_t *scratch, size_t len);
int32_t quic_c_next_event(struct held *conn, fh_event *event);
int32_t quic_c_ids_changed(struct held *conn);
int64_t quic_c_own_ids(struct held *conn, fh_own_id *out, size_t room);
int64_t quic_c_lost_text(struct held *conn, uint8_t *out, size_t room);
void quic_c_ping(struct held *conn);
int32_t quic_c_handshake_done(struct held *conn);
int32_t quic_c_use_next_id(struct held *conn);
int32_t quic_c_close(struct held *conn, uint64_t now, uint64_t error_code, const uint8_t *text,
                     size_t len);
int64_t quic_c_open(struct held *conn, uint32_t dir);
int64_t quic_c_accept(struct held *conn, uint32_t dir);
int64_t quic_c_write(struct held *conn, uint64_t stream, const uint8_t *data, size_t len,
                     uint64_t *error_code);
int32_t quic_c_finish(struct held *conn, uint64_t stream, uint64_t *error_code);
int32_t quic_c_reset(struct held *conn, uint64_t stream, uint64_t error_code);
int32_t quic_c_stop(struct held *conn, uint64_t stream, uint64_t error_code);
int32_t quic_c_set_priority(struct held *conn, uint64_t stream, int32_t priority);
int64_t quic_c_read(struct held *conn, uint64_t stream, uint32_t ordered, uint8_t *out, size_t room,
                    uint64_t *offset, uint32_t *fin, uint64_t *error_code);
int32_t quic_c_send_message(struct held *conn, const uint8_t *message, size_t len,
                            uint32_t drop_older);
int64_t quic_c_receive_message(struct held *conn, uint8_t *out, size_t room);
int64_t quic_c_max_message(struct held *conn);
int32_t quic_c_get_state(struct held *conn);
int32_t quic_c_is_validated(struct held *conn);
size_t quic_c_current_mtu(struct held *conn);
uint64_t quic_c_rtt(struct held *conn);
uint64_t quic_c_congestion_window(struct held *conn);
int32_t quic_c_get_stats(struct held *conn, fh_stats *stats, size_t size);

/* ---- what is handed on */

/* No bytes. Nothing is written here, and nothing read. It is aligned for whatever a room is of. */
static union {
    uint8_t bytes[8];
    uint64_t aligned;
} none;

/* Bytes, which may be none. */
static const uint8_t *some(const uint8_t *bytes) { return bytes ? bytes : none.bytes; }

/* Room for bytes, which may be none. */
static uint8_t *room_at(uint8_t *bytes) { return bytes ? bytes : none.bytes; }

/* The endpoint behind a pointer. A call changes what is there, and not where it is. */
static struct held held_at(const fh_conn *conn) {
    struct held held;
    held.at = (void *)conn;
    return held;
}

/* ---- texts */

static const char *const TEXTS[] = {
    "no error",
    "a number or a length is out of its range",
    "the room for the answer is too small",
    "out of memory",
    "the endpoint has failed, as memory ran out",
    "a struct of another size than the library knows",
    "a setting is out of its range",
    "a seed of other than 32 bytes",
    "a connection ID of a length that it may not have",
    "the peer's transport parameters are malformed or out of range",
    "a size of datagrams is above what may be, or what the peer takes",
    "the first congestion window doesn't hold two datagrams",
    "a key may seal or refuse fewer than 16 packets",
    "there is none",
    "a limit leaves no room now, or the endpoint isn't open",
    "there is no such stream, or nothing is left to do on it",
    "the peer asked that no more be sent on the stream",
    "the peer reset the stream",
    "the stream was read out of order before",
    "the message is longer than the peer, or a packet, takes",
    "this endpoint takes no messages, so it sends none",
    "the peer takes no messages",
    "the datagram broke a rule of QUIC: the endpoint is closing",
    "only a server says that the handshake is done",
    "it was said before that the handshake is done",
    "the endpoint isn't open",
};

const char *fh_error_text(int64_t error) {
    int64_t count = sizeof(TEXTS) / sizeof(TEXTS[0]);
    return error > 0 || error <= -count ? "no error of this library" : TEXTS[-error];
}

const char *fh_build(void) { return FH_BUILD; }

/* ---- settings, and making an endpoint */

int fh_settings_default(fh_settings *settings, size_t size) {
    return quic_c_settings_default(settings, size);
}

int64_t fh_wrong_setting(const fh_settings *settings) { return quic_c_wrong_setting(settings); }

int64_t fh_parameters(const fh_settings *settings, uint8_t *out, size_t room) {
    return quic_c_parameters(settings, room_at(out), room);
}

int fh_new(const fh_settings *settings, uint32_t side, const uint8_t *own_id, size_t own_id_len,
           const uint8_t *peer_id, size_t peer_id_len, const uint8_t *peer_parameters,
           size_t peer_parameters_len, uint64_t peer_address, const uint8_t *seed, size_t seed_len,
           uint64_t now, fh_conn **conn) {
    struct held held = {NULL};
    int answer = quic_c_new(settings, side, some(own_id), own_id_len, some(peer_id), peer_id_len,
                            some(peer_parameters), peer_parameters_len, peer_address, some(seed),
                            seed_len, now, &held);
    if (answer == 0) {
        *conn = held.at;
    }
    return answer;
}

void fh_free(fh_conn *conn) { quic_c_free(held_at(conn)); }

/* ---- datagrams and timers */

int fh_receive(fh_conn *conn, uint64_t now, uint64_t peer_address, uint32_t ecn, uint8_t *datagram,
               size_t len) {
    struct held held = held_at(conn);
    return quic_c_receive(&held, now, peer_address, ecn, room_at(datagram), len);
}

int64_t fh_poll(fh_conn *conn, uint64_t now, uint8_t *out, size_t room, uint64_t *peer_address,
                uint32_t *ecn) {
    struct held held = held_at(conn);
    return quic_c_poll(&held, now, room_at(out), room, peer_address, ecn);
}

size_t fh_max_datagram_size(const fh_conn *conn) {
    struct held held = held_at(conn);
    return quic_c_max_datagram_size(&held);
}

int fh_timeout(fh_conn *conn, uint64_t now) {
    struct held held = held_at(conn);
    return quic_c_timeout(&held, now);
}

uint64_t fh_next_timeout(const fh_conn *conn) {
    struct held held = held_at(conn);
    return quic_c_next_timeout(&held);
}

int fh_would_open(const fh_conn *conn, uint64_t peer_address, uint8_t *scratch, size_t len) {
    struct held held = held_at(conn);
    return quic_c_would_open(&held, peer_address, room_at(scratch), len);
}

/* ---- events and connection IDs */

int fh_ids_changed(fh_conn *conn) {
    struct held held = held_at(conn);
    return quic_c_ids_changed(&held);
}

int64_t fh_own_ids(const fh_conn *conn, fh_own_id *out, size_t room) {
    struct held held = held_at(conn);
    return quic_c_own_ids(&held, out ? out : (fh_own_id *)(void *)&none, room);
}

int fh_next_event(fh_conn *conn, fh_event *event) {
    struct held held = held_at(conn);
    return quic_c_next_event(&held, event);
}

int64_t fh_lost_text(const fh_conn *conn, uint8_t *out, size_t room) {
    struct held held = held_at(conn);
    return quic_c_lost_text(&held, room_at(out), room);
}

/* ---- streams */

int64_t fh_open(fh_conn *conn, uint32_t dir) {
    struct held held = held_at(conn);
    return quic_c_open(&held, dir);
}

int64_t fh_accept(fh_conn *conn, uint32_t dir) {
    struct held held = held_at(conn);
    return quic_c_accept(&held, dir);
}

int64_t fh_write(fh_conn *conn, uint64_t stream, const uint8_t *data, size_t len,
                 uint64_t *error_code) {
    struct held held = held_at(conn);
    return quic_c_write(&held, stream, some(data), len, error_code);
}

int64_t fh_writev(fh_conn *conn, uint64_t stream, const fh_iovec *iov, size_t count,
                  uint64_t *error_code) {
    int64_t taken = 0;
    size_t i;
    if (stream >> 62 != 0) {
        return FH_ERR_INVALID;
    }
    for (i = 0; i < count; i++) {
        uint64_t code = 0;
        int64_t answer = fh_write(conn, stream, iov[i].base, iov[i].len, &code);
        if (answer < 0 && taken == 0) {
            if (answer == FH_ERR_STOPPED) {
                *error_code = code;
            }
            return answer;
        }
        if (answer < 0) {
            break;
        }
        taken += answer;
        if ((uint64_t)answer < iov[i].len) {
            break;
        }
    }
    return taken;
}

int fh_finish(fh_conn *conn, uint64_t stream, uint64_t *error_code) {
    struct held held = held_at(conn);
    return quic_c_finish(&held, stream, error_code);
}

int fh_reset(fh_conn *conn, uint64_t stream, uint64_t error_code) {
    struct held held = held_at(conn);
    return quic_c_reset(&held, stream, error_code);
}

int fh_stop(fh_conn *conn, uint64_t stream, uint64_t error_code) {
    struct held held = held_at(conn);
    return quic_c_stop(&held, stream, error_code);
}

int fh_set_priority(fh_conn *conn, uint64_t stream, int32_t priority) {
    struct held held = held_at(conn);
    return quic_c_set_priority(&held, stream, priority);
}

int64_t fh_read(fh_conn *conn, uint64_t stream, uint8_t *out, size_t room, uint64_t *offset,
                uint32_t *fin, uint64_t *error_code) {
    struct held held = held_at(conn);
    return quic_c_read(&held, stream, 1, room_at(out), room, offset, fin, error_code);
}

int64_t fh_read_unordered(fh_conn *conn, uint64_t stream, uint8_t *out, size_t room,
                          uint64_t *offset, uint32_t *fin, uint64_t *error_code) {
    struct held held = held_at(conn);
    return quic_c_read(&held, stream, 0, room_at(out), room, offset, fin, error_code);
}

/* ---- messages */

int fh_send_message(fh_conn *conn, const uint8_t *message, size_t len, uint32_t drop_older) {
    struct held held = held_at(conn);
    return quic_c_send_message(&held, some(message), len, drop_older);
}

int64_t fh_receive_message(fh_conn *conn, uint8_t *out, size_t room) {
    struct held held = held_at(conn);
    return quic_c_receive_message(&held, room_at(out), room);
}

int64_t fh_max_message(const fh_conn *conn) {
    struct held held = held_at(conn);
    return quic_c_max_message(&held);
}

/* ---- the connection */

void fh_ping(fh_conn *conn) {
    struct held held = held_at(conn);
    quic_c_ping(&held);
}

int fh_handshake_done(fh_conn *conn) {
    struct held held = held_at(conn);
    return quic_c_handshake_done(&held);
}

int fh_use_next_id(fh_conn *conn) {
    struct held held = held_at(conn);
    return quic_c_use_next_id(&held);
}

int fh_close(fh_conn *conn, uint64_t now, uint64_t error_code, const uint8_t *text, size_t len) {
    struct held held = held_at(conn);
    return quic_c_close(&held, now, error_code, some(text), len);
}

int fh_get_state(const fh_conn *conn) {
    struct held held = held_at(conn);
    return quic_c_get_state(&held);
}

int fh_is_validated(const fh_conn *conn) {
    struct held held = held_at(conn);
    return quic_c_is_validated(&held);
}

size_t fh_current_mtu(const fh_conn *conn) {
    struct held held = held_at(conn);
    return quic_c_current_mtu(&held);
}

uint64_t fh_rtt(const fh_conn *conn) {
    struct held held = held_at(conn);
    return quic_c_rtt(&held);
}

uint64_t fh_congestion_window(const fh_conn *conn) {
    struct held held = held_at(conn);
    return quic_c_congestion_window(&held);
}

int fh_get_stats(const fh_conn *conn, fh_stats *stats, size_t size) {
    struct held held = held_at(conn);
    return quic_c_get_stats(&held, stats, size);
}
