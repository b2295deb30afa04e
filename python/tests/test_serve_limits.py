"""No client takes more than its share of `gandovel serve`: connections, requests, streams, and bytes that it leaves
unread."""
from __future__ import annotations

import socket
from urllib.parse import urlsplit

from gandovel.serve.shares import ALL, LEAST_UNSENT, MOST_UNSENT, Rates, Shares, Unsent

from served import Served, prepared, until
from session_register import grid_city

CITY, RINGS = grid_city(4, 4, 3)


class Connection:
    """A connection, and what its client has not read."""

    def __init__(self, size):
        self.transport, self.size, self.is_closed = self, size, False

    def get_write_buffer_size(self):
        return self.size

    def is_closing(self):
        return self.is_closed


def test_a_client_that_does_not_read_gets_no_more():
    """What it is sent counts until it has read it, or has gone; others are answered meanwhile."""
    unsent, slow, small = Unsent(), Connection(MOST_UNSENT - 1), Connection(LEAST_UNSENT - 1)
    unsent.note("eva", small)
    unsent.note("eva", slow)
    assert unsent.takes("eva") and unsent.takes("ida")
    other = Connection(LEAST_UNSENT)
    unsent.note("eva", other)
    assert not unsent.takes("eva") and unsent.takes("ida")
    other.size = 0
    assert unsent.takes("eva")
    unsent.note("eva", Connection(LEAST_UNSENT))
    assert not unsent.takes("eva")
    slow.is_closed = True
    assert unsent.takes("eva")


def test_all_clients_together_have_a_limit():
    """Beyond it none who has something left is answered; who reads what it is sent is, all the same."""
    unsent = Unsent()
    for at in range(ALL):
        unsent.note(f"client {at}", Connection(MOST_UNSENT - 1))
    assert unsent.takes("client 1")
    unsent.note("one more", Connection(LEAST_UNSENT))
    assert not unsent.takes("client 1") and not unsent.takes("one more") and unsent.takes("ida")


def test_rates_and_shares():
    rates, shares = Rates(2), Shares(16)
    assert [rates.takes("eva") for _ in range(3)] == [True, True, False] and rates.takes("ida")
    assert [shares.begin("eva", False) for _ in range(9)] == [True] * 8 + [False]
    assert [shares.begin("eva", True) for _ in range(3)] == [True, True, False] and shares.begin("ida", True)
    shares.end("eva", True)
    assert shares.begin("eva", True)


def test_one_address_has_half_of_the_connections(tmp_path):
    """The rest of them is for others; a proxy, which many clients stand behind, may have all."""
    with Served(prepared(tmp_path / "work", CITY, RINGS), tmp_path / "register.txt", "--clients", "20") as served:
        host = urlsplit(served.address).hostname, urlsplit(served.address).port
        many = [socket.create_connection(host, 60, source_address=("127.0.0.2", 0)) for _ in range(30)]

        def held():
            count = 0
            for it in many:
                it.settimeout(0.05)
                try:
                    count += it.recv(1) != b""
                except TimeoutError:
                    count += 1
                except OSError:
                    pass
            return count

        until(lambda: held() == 10)
        assert served.ask("/health").json()["state"] == "serving"
        for it in many:
            it.close()
        again = socket.create_connection(host, 60, source_address=("127.0.0.2", 0))
        again.sendall(b"GET /health HTTP/1.1\r\nHost: localhost\r\n\r\n")
        assert again.recv(15).startswith(b"HTTP/1.1 200")
        assert served.end() == 0
