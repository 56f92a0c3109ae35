#!/usr/bin/env python3
"""Moves a file as transfer.py does, through a proxy that loses datagrams, changes some and their
order.

    python3 examples/lossy.py FILE [SEED]

The proxy (proxy.py) stands between the two endpoints, in this same program: it loses 3 % of the
datagrams, alters 1 %, and delays 3 %. Which ones, the seed says. What was altered doesn't open, and
counts as refused.
"""
import sys

from proxy import Proxy, socket_at
from transfer import contents, main, run, two_endpoints


def lossy(path, seed="7"):
    """Moves this file there and back through the proxy: the exit status."""
    data = contents(path)
    client, server = two_endpoints()
    try:
        peers = [client.socket.getsockname(), server.socket.getsockname()]
        proxy = Proxy([socket_at(0), socket_at(0)], peers, seed=seed)
        client.begin(server.hello, proxy.at[0].getsockname())
        server.begin(client.hello, proxy.at[1].getsockname())
        status = run([client, server, proxy], client, server, data)
    finally:
        client.free()
        server.free()
    print(proxy)
    return status


if __name__ == "__main__":
    sys.exit(main("lossy.py", __doc__, 1, 2, lossy))
