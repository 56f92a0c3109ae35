"""What two hosts that share a secret tell each other before they make their endpoints, as
fh_hello.h has it: no handshake. A hello is its kind, the connection ID, 16 random bytes, the
transport parameters, and a tag of 32 bytes by the secret."""
import hashlib
import hmac
import secrets

from fennelhammer import Seal, expand

CLIENT_HELLO, SERVER_HELLO = 1, 2
# Sizes in bytes: of the secret, of an ID, of all before the parameters, of these at most, and of a
# tag.
SECRET, ID, HEAD, PARAMETERS, TAG = 32, 8, 25, 256, 32


class Hello:
    """A hello, as its bytes say."""

    def __init__(self, data):
        self.data = data
        self.client = data[0] == CLIENT_HELLO
        self.id = data[1 : 1 + ID]
        self.parameters = data[HEAD:-TAG]
        self.tag = data[-TAG:]


def tag_of(secret, body):
    """What the secret makes of the digest of a hello's body."""
    return expand(secret, b"fh hello", hashlib.sha256(body).digest(), TAG)


def write(secret, client, own_id, parameters):
    """The hello of the client, or of the server."""
    kind = CLIENT_HELLO if client else SERVER_HELLO
    body = bytes([kind]) + own_id + secrets.token_bytes(HEAD - 1 - ID) + parameters
    return Hello(body + tag_of(secret, body))


def is_one(client, data):
    """Whether a datagram has the kind and the size of a hello, of the client or of the server."""
    kind = CLIENT_HELLO if client else SERVER_HELLO
    return HEAD + TAG <= len(data) <= HEAD + PARAMETERS + TAG and data[0] == kind


def read(secret, client, data):
    """The hello of the client, or of the server, if a datagram is one by this secret; else None."""
    if not is_one(client, data):
        return None
    good = hmac.compare_digest(tag_of(secret, data[:-TAG]), data[-TAG:])
    return Hello(data) if good else None


def keys(secret, writer, reader, sealing):
    """The keys with which the host that wrote the first hello seals."""
    first, second = (writer, reader) if writer.client else (reader, writer)
    label = b"fh client" if writer.client else b"fh server"
    traffic = expand(secret, label, first.tag + second.tag)
    return Seal(traffic, writer.client, sealing)
