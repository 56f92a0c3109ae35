/* Moves a file between two processes over UDP, sealed by a secret that both have.
 *
 *   udp_file receive ADDRESS PORT FILE SECRET   waits there for a sender; FILE is emptied first
 *   udp_file send ADDRESS PORT FILE SECRET      sends FILE to the receiver at this IPv4 address
 *
 * SECRET is a file of 32 bytes that nobody can guess. docs/EMBEDDING.md says how to build this, and
 * fh_hello.h why its first round is no handshake. One line says what failed, with a status. */
#include "udp_host.h"

typedef struct transfer {
    udp_host host;
    int status;
    bool finished, closed; /* Whether the FIN was written, and the connection closed here. */
    fh_conn *conn;
    fh_seal *local, *remote;
    fh_hello own, peers;
    uint64_t stream, moved;
    size_t filled, written; /* How many bytes of the file are in `piece`, and were written. */
    uint8_t piece[65536];
} transfer;

static void leave(transfer *t, int status, const char *text) {
    if (status != 0) say(text, "");
    t->closed = true, t->status = status;
    must(fh_close(t->conn, now(), (uint64_t)status, (const uint8_t *)text, strlen(text)));
}

/* Writes as much of the file as the stream takes, and its FIN behind the last byte. */
static void write_file(transfer *t) {
    uint64_t code;
    while (!t->finished && !t->closed) {
        if (t->written == t->filled)
            t->written = 0, t->filled = fread(t->piece, 1, sizeof t->piece, t->host.file);
        if (ferror(t->host.file)) return leave(t, FAULT, "FILE can't be read");
        if (t->filled == 0) t->finished = must(fh_finish(t->conn, t->stream, &code)) == 0;
        if (t->finished) return;
        const uint8_t *rest = t->piece + t->written;
        int64_t n = fh_write(t->conn, t->stream, rest, t->filled - t->written, &code);
        if (n == FH_ERR_BLOCKED) return;
        t->written += (size_t)must(n);
        t->moved += (uint64_t)n;
    }
}

/* Reads what came, and writes it once the piece is full. The receiver answers a FIN by its own,
 * which the sender waits for. */
static void read_file(transfer *t) {
    uint64_t offset, code;
    uint32_t fin = 0;
    if (t->host.sending && !t->finished) return leave(t, LOST, "an answer came before the end");
    while (!fin) {
        uint8_t *to = t->piece + t->filled, *end = t->piece + sizeof t->piece;
        int64_t n = fh_read(t->conn, t->stream, to, (size_t)(end - to), &offset, &fin, &code);
        if (n < 0 && n != FH_ERR_MEMORY) return; /* There is nothing to read. */
        t->filled += (size_t)must(n);
        t->moved += (uint64_t)n;
        if (to + n < end && !fin) return; /* Where room is left, all that came was read. */
        if (fwrite(t->piece, 1, t->filled, t->host.file) < t->filled)
            return leave(t, FAULT, "FILE can't be written");
        t->filled = 0;
    }
    if (t->host.sending) return leave(t, 0, "moved");
    if (fflush(t->host.file)) return leave(t, FAULT, "FILE can't be written");
    t->finished = must(fh_finish(t->conn, t->stream, &code)) == 0;
}

/* A lost connection is a fault, but where it was closed here, or one of both has all. */
static void lose(transfer *t, const fh_event *event) {
    bool by_peer = event->reason == FH_LOST_PEER_APPLICATION;
    char text[2048] = "";
    if (t->closed || (t->finished && (!t->host.sending || (by_peer && event->code == 0)))) return;
    fh_lost_text(t->conn, (uint8_t *)text, sizeof text - 1);
    const char *how = by_peer ? "the peer closed" : "the connection failed";
    say(event->reason == FH_LOST_IDLE ? "nothing came for 5 seconds" : how, text);
    t->status = LOST;
}

static void act(transfer *t) {
    for (fh_event event; fh_next_event(t->conn, &event);) {
        bool opened = event.kind == FH_EVENT_OPENED && event.dir == FH_BI;
        if (opened) t->stream = (uint64_t)must(fh_accept(t->conn, FH_BI));
        if (opened || event.kind == FH_EVENT_READABLE) read_file(t);
        if (event.kind == FH_EVENT_WRITABLE) write_file(t);
        if (event.kind == FH_EVENT_FINISHED && !t->host.sending) leave(t, 0, "moved");
        if (event.kind == FH_EVENT_LOST) lose(t, &event);
    }
}

/* Takes what came, as far as it opens, and lets timers expire: whether there may be more. Each
 * datagram's bytes are read at once, since more that wait unread cost the endpoint more. */
static bool receive(transfer *t) {
    uint8_t bytes[2048];
    int socket = t->host.socket, came = 0;
    for (ssize_t len; came < 64; came++) {
        if ((len = recv(socket, bytes, sizeof bytes, MSG_DONTWAIT)) < 0) break;
        bool hello = (size_t)len == t->peers.len && !memcmp(bytes, t->peers.bytes, t->peers.len);
        if (hello && !t->host.sending) send(socket, t->own.bytes, t->own.len, 0); /* It's lost. */
        int opened = hello ? FH_SEAL_SHORT : fh_seal_open_datagram(t->remote, bytes, (size_t)len);
        if (of_keys(opened) == FH_SEAL_LIMIT && !t->closed) leave(t, LOST, "too much doesn't open");
        if (opened != FH_SEAL_OK) continue;
        fh_receive(t->conn, now(), 0, FH_ECN_NONE, bytes, (size_t)len);
        act(t);
    }
    if (fh_next_timeout(t->conn) <= now()) must(fh_timeout(t->conn, now()));
    return came == 64;
}

/* Sends what is ready: whether there may be more. What the socket doesn't take counts as lost. */
static bool transmit(transfer *t) {
    uint8_t bytes[2048];
    uint64_t address;
    uint32_t ecn;
    for (int i = 0; i < 64; i++) {
        size_t len = (size_t)must(fh_poll(t->conn, now(), bytes, sizeof bytes, &address, &ecn));
        if (len == 0) return false;
        if (of_keys(fh_seal_datagram(t->local, bytes, len))) die(FAULT, "the keys are used up", "");
        send(t->host.socket, bytes, len, 0);
    }
    return true;
}

/* Makes the endpoint and the keys of both directions, from both hellos. */
static void make(transfer *t) {
    udp_host *host = &t->host;
    uint8_t parameters[FH_PARAMETERS_MAX];
    fh_settings settings;
    must(fh_settings_default(&settings, sizeof settings));
    settings.max_idle_timeout_ms = 5000;
    settings.ack_frequency = 1, settings.ack_max_delay = 2500000; /* In place of 25 ms. */
    size_t len = (size_t)must(fh_parameters(&settings, parameters, sizeof parameters));
    of_keys(fh_hello_write(&t->own, host->sending, host->secret, host->random, parameters, len));
    meet(host, &t->own, &t->peers);
    t->local = fh_hello_keys(host->secret, &t->own, &t->peers, true);
    t->remote = fh_hello_keys(host->secret, &t->peers, &t->own, false);
    if (!t->local || !t->remote) die(FAULT, "out of memory", "");
    must(fh_new(&settings, host->sending ? FH_CLIENT : FH_SERVER, FH_HELLO_ID_OF(&t->own),
                FH_HELLO_ID, FH_HELLO_ID_OF(&t->peers), FH_HELLO_ID,
                FH_HELLO_PARAMETERS_OF(&t->peers), FH_HELLO_PARAMETERS_LEN(&t->peers), 0,
                host->seed, FH_SEED_LENGTH, now(), &t->conn));
    fh_ping(t->conn); /* The idle timeout begins with what is sent, and not before. */
}

int main(int argc, char **argv) {
    static transfer t;
    t.host = begin(argc, argv);
    make(&t);
    if (t.host.sending) t.stream = (uint64_t)must(fh_open(t.conn, FH_BI)), write_file(&t);
    for (bool more = true; fh_get_state(t.conn) < FH_STATE_DRAINED;) {
        if (!more) wait_until(t.host.socket, fh_next_timeout(t.conn));
        if (interrupted && !t.closed) leave(&t, INTERRUPTED, "interrupted");
        more = receive(&t);
        act(&t);
        more |= transmit(&t);
    }
    printf("%ju bytes, %.2f s of processor time, %ju datagrams refused\n", (uintmax_t)t.moved,
           (double)clock() / CLOCKS_PER_SEC, (uintmax_t)fh_seal_refused(t.remote));
    fh_free(t.conn), fh_seal_free(t.local), fh_seal_free(t.remote);
    return end_with(t.status, t.host.file);
}
