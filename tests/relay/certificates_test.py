"""TLS between relays: certificates, what their holders may ask for, and files that are read anew at SIGHUP."""
from __future__ import annotations

import contextlib
import os
import signal
import ssl
import subprocess
import tempfile
import threading
import unittest
import unittest.mock
from collections.abc import Iterator

from tests import base, giop
from tests.giop import NO
from tests.giop_peers import Peer, ask, number_body, request, until, want
from tests.programs import needs
from tests.relay import relays
from tests.relay.guard_test import KEY, Server, system
from tests.relay.operation_test import Counters, counted, said_by
from tests.relay.relays import Calling, Life, Relay, judge

# what `openssl ca` is told of the authority `ours`
CA = """
[ca]
default_ca = ours
[ours]
database = index
crlnumber = crlnumber
default_md = sha256
default_crl_days = 2
"""
NEW_KEY = ["-newkey", "ec", "-pkeyopt", "ec_paramgen_curve:prime256v1", "-noenc"]


class Folder:
    """A folder of two authorities, `ours` and `theirs`, and of certificates of them."""

    def __init__(self, folder: str) -> None:
        self.folder = folder
        for name in ("ours", "theirs"):
            self.openssl("req", "-x509", *NEW_KEY, "-keyout", f"{name}.key", "-out", f"{name}.pem", "-subj", f"/CN={name}",
                         "-days", "2")
        self.write("names", "subjectAltName=DNS:localhost,IP:127.0.0.1")
        for name in ("retry", "guard", "other"):
            self.certify(name)
        self.certify("stranger", of="theirs")

    def file(self, name: str) -> str:
        return os.path.join(self.folder, name)

    def write(self, name: str, text: str) -> str:
        with open(self.file(name), "w", encoding="ascii") as to:
            to.write(text)
        return self.file(name)

    def openssl(self, *words: str) -> None:
        ran = subprocess.run(["openssl", *words], capture_output=True, text=True, check=False, cwd=self.folder)
        if ran.returncode != 0:
            raise AssertionError(ran.stderr)

    def certify(self, name: str, *, of: str = "ours", subject: str = "", days: int = 2) -> None:
        """A certificate of a name, and its key, in place of those that there were."""
        self.openssl("req", *NEW_KEY, "-keyout", f"{name}.key", "-out", f"{name}.csr", "-subj", f"/CN={subject or name}")
        self.openssl("x509", "-req", "-in", f"{name}.csr", "-CA", f"{of}.pem", "-CAkey", f"{of}.key", "-CAcreateserial",
                     "-days", str(days), "-extfile", "names", "-out", f"{name}.pem")

    def words(self, name: str, authority: str = "ours") -> list[str]:
        """What a relay is told that shows a certificate, and trusts an authority."""
        return ["--certificate", self.file(f"{name}.pem"), "--key", self.file(f"{name}.key"),
                "--authorities", self.file(f"{authority}.pem")]

    def revoke(self, *names: str) -> str:
        """A list of what is revoked."""
        self.write("ca.conf", CA)
        for name, text in (("index", ""), ("crlnumber", "01\n")):
            if not os.path.exists(self.file(name)):
                self.write(name, text)
        with_key = ["ca", "-config", "ca.conf", "-cert", "ours.pem", "-keyfile", "ours.key"]
        for name in names:
            self.openssl(*with_key, "-revoke", f"{name}.pem")
        self.openssl(*with_key, "-gencrl", "-out", "revoked.pem")
        return self.file("revoked.pem")


class Certified(unittest.TestCase):
    """Tests over certificates."""

    @classmethod
    def setUpClass(cls):
        relays.program()
        stack = contextlib.ExitStack()
        cls.addClassCleanup(stack.close)
        cls.folder = Folder(stack.enter_context(tempfile.TemporaryDirectory()))
        cls.file, cls.words = cls.folder.file, cls.folder.words

    @contextlib.contextmanager
    def guard(self, clients: str = "retry retry.\nother *\n", *words: str, name: str = "guard",
              **others: str) -> Iterator[tuple[Server, Relay, Counters]]:
        """A guard that shows a certificate, with these clients and these words."""
        self.folder.write("clients", clients)
        with counted(*self.words(name), "--clients", self.file("clients"), *words, **others) as made:
            yield made

    @contextlib.contextmanager
    def secured(self, guard: Relay, name: str) -> Iterator[Peer]:
        """A client that shows a certificate."""
        context = ssl.create_default_context(cafile=self.file("ours.pem"))
        context.load_cert_chain(self.file(f"{name}.pem"), self.file(f"{name}.key"))
        with Peer(guard.port) as peer:
            peer.socket = context.wrap_socket(peer.socket, server_hostname="localhost")
            yield peer


@needs("openssl")
class Certificates(Certified):
    """Who may connect, and who may ask for what."""

    def test_two_relays(self):
        """A request goes over TLS, under a client id that the certificate of retry may use."""
        with self.guard() as (server, guard, _), \
                Relay("retry", "--guard", f"localhost:{guard.port}", *self.words("retry")) as retry:
            retry.begin()
            ask(retry.port, request(1, KEY, "add"), giop.reply(1, number_body(1)))
            with Peer(guard.port) as plain:
                plain.tell(request(1, KEY, "add"))
                with contextlib.suppress(ConnectionResetError):
                    self.assertNotIn(b"GIOP", plain.received(100))
            want(len(server.performed), 1)

    def test_client_ids(self):
        """A certificate may use those that the file says, and another's outcomes are not told."""
        with self.guard() as (server, guard, counters):
            for name, client, is_allowed in (("retry", b"retry.1", True), ("retry", b"other.1", False),
                                             ("other", b"retry.1", True), ("other", b"other.1", True)):
                refused = int(not is_allowed)
                with counters.grow(refused_total__its_client_id_is_not_for_this_certificate=refused), \
                        self.secured(guard, name) as peer:
                    peer.tell(request(1, KEY, "add", number=1, client=client))
                    want(peer.message().status, giop.NO_EXCEPTION if is_allowed else giop.SYSTEM_EXCEPTION)
            want(len(server.performed), 2)
            line = next(line for line in guard.said().splitlines() if "a request is refused" in line)
            for word in ('names=["retry", "localhost"]', "client=other.1", "not for this certificate"):
                self.assertIn(word, line)
        with self.guard("nobody x\n") as (server, guard, _), self.secured(guard, "retry") as peer:
            peer.tell(request(1, KEY, "add", number=1, client=b"retry.1"))
            peer.wants(system(1, "NO_PERMISSION", NO, 0xfffff001))
            want(server.performed, [])

    def test_what_has_no_client_id(self):
        """A request without FT_REQUEST is for whom the file says so, and else refused and not sent."""
        with self.guard("retry retry.\nother free other.\n") as (server, guard, counters):
            with counters.grow(refused_total__without_a_key_it_is_not_for_this_certificate=1), \
                    self.secured(guard, "retry") as peer:
                peer.tell(request(1, KEY, "add"))
                peer.wants(system(1, "NO_PERMISSION", NO, 0xfffff001))
            want(server.performed, [])
            with self.secured(guard, "other") as peer:
                peer.tell(request(1, KEY, "add"))
                peer.wants(giop.reply(1, number_body(1)))

    def test_objects_and_operations(self):
        """A certificate may ask for those that a line with its client id says; what is kept of a key is told whatever is
        allowed by now."""
        allowed = "retry client=retry. object=%6b%00 operation=add\nother client=other. free operation=get\n"
        with tempfile.TemporaryDirectory() as folder:
            store = os.path.join(folder, "kept")
            with self.guard(allowed, store=store) as (server, guard, counters):
                for name, key, operation, number, is_allowed in (
                        ("retry", KEY, "add", 1, True), ("retry", b"k", "add", 2, False),
                        ("retry", KEY, "get", 3, False), ("other", b"k", "get", 1, True), ("other", KEY, "add", 2, False),
                        ("other", b"k", "get", None, True), ("other", b"k", "add", None, False)):
                    refused = int(not is_allowed)
                    with counters.grow(refused_total__its_object_or_operation_is_not_for_this_certificate=refused), \
                            self.secured(guard, name) as peer:
                        peer.tell(request(1, key, operation, number=number, client=name.encode() + b".1"))
                        want(peer.message().status, giop.NO_EXCEPTION if is_allowed else giop.SYSTEM_EXCEPTION)
                want(len(server.performed), 3)
                guard.end(signal.SIGTERM)
            with self.guard("retry client=retry. operation=get\n", store=store) as (server, guard, _):
                for number, answer in ((1, giop.reply(1, number_body(1))), (9, system(1, "NO_PERMISSION", NO, 0xfffff001)),
                                       (1, giop.reply(1, number_body(1)))):
                    with self.secured(guard, "retry") as peer:
                        peer.tell(request(1, KEY, "add", number=number, client=b"retry.1"))
                        peer.wants(answer)
                want(server.performed, [])

    def test_a_file_of_clients(self):
        """What is wrong in it is said with its line."""
        clients = self.file("clients")
        settings = self.folder.write("guard.toml", "[guard]\nlisten = 'a:1'\nserver = 'b:2'\nstore = 'memory'\n" + "".join(
            f"{name} = '{self.file(file)}'\n" for name, file in (
                ("certificate", "guard.pem"), ("key", "guard.key"), ("authorities", "ours.pem"), ("clients", "clients"))))
        for text, faults in (("retry retry. free\n", []),
                             ("retry retry.\n\nother object=a\nother clients=b\nother client=%1\n",
                              [(3, "it allows nothing: client=PREFIX or free says what"),
                               (4, "a word is client=, object=, operation= or free"), (5, "behind % come two digits")])):
            self.folder.write("clients", text)
            lines = [f"lemonrudder: {settings}: [guard] {clients}:{line}: {why}\n" for line, why in faults]
            want(said_by("check", settings), (int(bool(faults)), "", "".join(lines)))

    def test_strangers(self):
        """Who shows a certificate of another authority or none, or says nothing, is ended with its reason; others are
        served meanwhile."""
        with self.guard() as (_, guard, counters), self.secured(guard, "retry") as other:
            with counters.grow(connections_ended_total__no_handshake=3):
                with contextlib.suppress(OSError), self.secured(guard, "stranger") as peer:
                    peer.tell(giop.locate(1, KEY))
                    want(peer.received(1), b"")
                with contextlib.suppress(OSError), Peer(guard.port) as peer:
                    context = ssl.create_default_context(cafile=self.file("ours.pem"))
                    peer.socket = context.wrap_socket(peer.socket, server_hostname="localhost")
                    peer.tell(giop.locate(1, KEY))
                    want(peer.received(1), b"")
                with Peer(guard.port) as peer:
                    peer.ended("after the time that a handshake has")
            other.tell(request(1, KEY, "add", number=1, client=b"retry.1"))
            other.wants(giop.reply(1, number_body(1)))
            ends = [line for line in guard.said().splitlines() if 'why="no handshake"' in line][-3:]
            whys = ("verify failed", "did not return a certificate", "timed out")
            want([why in end for why, end in zip(whys, ends)], [True] * 3)

    def test_a_guard_that_is_a_stranger(self):
        """One whose certificate is of another authority, or of another host, is sent nothing."""
        with counted(*self.words("stranger", "ours")) as (server, guard, _):
            for host in ("localhost", "127.0.0.3"):
                with Relay("retry", "--guard", f"{host}:{guard.port}", "--timeout", "1", *self.words("retry")) as retry:
                    retry.begin()
                    ask(retry.port, request(1, KEY, "add"), system(1, "TIMEOUT", NO))
                    self.assertIn("not connected", retry.said())
            want(server.performed, [])


def said_at_warn(life: Life, *words: str) -> bool:
    """Whether a line at WARN has all of these words."""
    return any(" WARN " in line and all(word in line for word in words) for line in life.said().splitlines())


# a certificate that is refused, whose it is, and what each side says of it: who refuses it, and who is refused
REFUSED = {
    "expired": ({"days": -1}, "certificate has expired, CN=wrong", "which has expired"),
    "of another authority": ({"of": "theirs"}, "unable to get local issuer certificate, CN=wrong",
                             "whose authority it does not know"),
    "revoked": ({}, "certificate revoked, CN=wrong", "which is revoked"),
}


@needs("openssl")
class Refusals(Certified):
    """A certificate that is refused is told at both sides, and what was sent behind it was not heard."""

    def wrong(self, named: str) -> tuple[list[str], str, str]:
        """Makes such a certificate, and answers words for who refuses it, and what each side says."""
        how, refuses, is_refused = REFUSED[named]
        self.folder.certify("wrong", **how)
        return ["--revoked", self.folder.revoke("wrong")] if named == "revoked" else [], refuses, is_refused

    @base.each(lambda: [(name, name) for name in REFUSED])
    def test_of_retry(self, named: str) -> None:
        """Nothing of its calls acted, and it says so."""
        words, refuses, is_refused = self.wrong(named)
        with self.guard("wrong retry.\n", *words) as (server, guard, _), \
                Relay("retry", "--guard", f"localhost:{guard.port}", "--timeout", "3", *self.words("wrong")) as retry:
            retry.begin()
            ask(retry.port, request(1, KEY, "add"), system(1, "TIMEOUT", NO))
            want(server.performed, [])
            until(lambda: said_at_warn(guard, 'why="no handshake"', refuses), "the guard says so")
            until(lambda: said_at_warn(retry, is_refused), "retry says so")

    @base.each(lambda: [(name, name) for name in REFUSED])
    def test_of_guard(self, named: str) -> None:
        """Nothing is sent to it."""
        words, refuses, _ = self.wrong(named)
        with self.guard(name="wrong") as (server, guard, _), \
                Relay("retry", "--guard", f"localhost:{guard.port}", "--timeout", "0.7", *self.words("retry"), *words) as retry:
            retry.begin()
            ask(retry.port, request(1, KEY, "add"), system(1, "TIMEOUT", NO))
            until(lambda: said_at_warn(guard, 'why="no handshake"', "alert"), "the guard says so")
            until(lambda: said_at_warn(retry, "not connected", refuses), "retry says so")
            want(server.performed, [])

    def test_the_next_guard(self):
        """Where one refuses a certificate, and another takes it, that one is asked."""
        words, _, _ = self.wrong("revoked")
        with self.guard("wrong retry.\n", *words) as (_, first, _), self.guard("wrong retry.\n") as (server, second, _), \
                Relay("retry", "--guard", f"localhost:{first.port}", "--guard", f"localhost:{second.port}",
                      *self.words("wrong")) as retry:
            retry.begin()
            ask(retry.port, request(1, KEY, "add"), giop.reply(1, number_body(1)))
            want(len(server.performed), 1)

    def test_none(self):
        """Who shows no certificate is told that one is wanted."""
        with self.guard() as (server, guard, _), \
                Relay("retry", "--guard", f"localhost:{guard.port}", "--timeout", "3",
                      "--authorities", self.file("ours.pem")) as retry:
            retry.begin()
            ask(retry.port, request(1, KEY, "add"), system(1, "TIMEOUT", NO))
            until(lambda: said_at_warn(guard, "did not return a certificate"), "the guard says so")
            until(lambda: said_at_warn(retry, "it refuses a connection without a certificate"), "retry says so")
            want(server.performed, [])

    def test_the_system(self):
        """Authorities of the system are none of a relay's."""
        with self.guard(name="stranger") as (server, guard, _), unittest.mock.patch.dict(
                os.environ, SSL_CERT_FILE=self.file("theirs.pem")), \
                Relay("retry", "--guard", f"localhost:{guard.port}", "--timeout", "1", *self.words("retry")) as retry:
            retry.begin()
            ask(retry.port, request(1, KEY, "add"), system(1, "TIMEOUT", NO))
            want(server.performed, [])

    def test_a_list_that_is_none(self):
        """A file that has certificates, or nothing, is no list of what is revoked."""
        for name in ("theirs.pem", "names", "nowhere"):
            status, _, err = said_by("retry", "--listen", "127.0.0.1:0", "--guard", "a:1", *self.words("retry"),
                                     "--revoked", self.file(name))
            want((status, self.file(name) + ": " in err, err.count("\n")), (1, True, 1))


@needs("openssl")
class Renewal(Certified):
    """At SIGHUP files are read anew, and nobody is dropped."""

    def renew(self, life: Life, *words: str) -> None:
        """Has a relay read its files anew, and waits until it says these words behind that."""
        before = len(life.said())
        life.tell(signal.SIGHUP)
        until(lambda: all(word in life.said()[before:] for word in ("SIGHUP", *words)), f"{words} in {life.said()[before:]}")

    def shown(self, guard: Relay) -> bytes:
        """The certificate that a guard shows to who connects now."""
        with self.secured(guard, "other") as peer:
            return peer.socket.getpeercert(True)

    def test_a_renewed_certificate(self):
        """It is used for connections that come, and for those that are opened, while a call is under way on an old one."""
        with self.guard("retry retry.\nother *\n") as (server, guard, _), \
                Relay("retry", "--guard", f"localhost:{guard.port}", *self.words("retry")) as retry:
            retry.begin()
            may_go_on = threading.Event()
            server.answer = lambda _: may_go_on.wait(relays.SECONDS) and None
            with Peer(retry.port) as peer:
                peer.tell(request(1, KEY, "slow"))
                until(lambda: server.performed, "it comes")
                old = self.shown(guard)
                self.folder.certify("guard")
                self.renew(guard, 'setting="certificate"', 'setting="key"', "until=")
                self.folder.certify("retry", subject="renewed")
                self.folder.write("clients", "renewed retry.\nother *\n")
                self.renew(retry, 'setting="certificate"')
                self.renew(guard, 'setting="clients"')
                self.assertNotEqual(self.shown(guard), old)
                may_go_on.set()
                peer.wants(giop.reply(1, number_body(1)))
                # (what is asked on the old connection is asked by the old certificate)
                peer.tell(request(2, KEY, "add"))
                peer.wants(system(2, "NO_PERMISSION", NO, 0xfffff001))
                guard.end()
                guard.begin()
                peer.tell(request(3, KEY, "add"))
                peer.wants(giop.reply(3, number_body(2)))
            want((guard.died(), retry.died()), (False, False))

    def test_a_certificate_that_is_revoked_later(self):
        """Who shows it can't connect any more, and who is connected goes on."""
        self.folder.certify("later")
        with self.guard("later *\nother *\n", "--revoked", self.folder.revoke()) as (_, guard, _), \
                self.secured(guard, "later") as before:
            self.folder.revoke("later")
            self.renew(guard, 'setting="revoked"')
            with contextlib.suppress(OSError), self.secured(guard, "later") as peer:
                peer.tell(giop.locate(1, KEY))
                want(peer.received(1), b"")
            self.shown(guard)
            before.tell(request(1, KEY, "add", number=1))
            before.wants(giop.reply(1, number_body(1)))

    @base.each(lambda: [(name, name) for name in ("guard.pem", "guard.key", "ours.pem", "clients")])
    def test_a_file_that_is_wrong(self, name: str) -> None:
        """It is named, with the reason; the old ones stay, and so do all others."""
        with self.guard() as (_, guard, _):
            old = self.shown(guard)
            with open(self.file(name), encoding="ascii") as file:
                text = file.read()
            self.folder.write(name, "wrong")
            self.renew(guard, " ERROR ", "nothing is changed", self.file(name))
            self.folder.write(name, text)
            want(self.shown(guard), old)

    def test_settings(self):
        """A file that is named anew is read; what else changed is named, and waits for a restart; no other signal does
        anything."""
        self.folder.certify("second")
        words = "[guard]\nlisten = '127.0.0.1:{}'\nserver = '127.0.0.1:{}'\nstore = 'memory'\n"
        with Server() as server:
            port = relays.free_port()
            words = words.format(port, server.port) + "key = '{0}.key'\ncertificate = '{0}.pem'\nconnections = {1}\n"
            settings = self.folder.write("settings.toml", words.format(self.file("guard"), 7))
            with Life(relays.program(), "guard", "--config", settings) as guard:
                guard.port = port
                guard.begin()
                until(lambda: "listening" in guard.said(), "it listens")
                old = self.shown(guard)
                self.folder.write("settings.toml", words.format(self.file("second"), 8))
                self.renew(guard, 'setting="certificate"', 'needs a restart setting="connections"')
                self.assertNotEqual(self.shown(guard), old)
                self.folder.write("settings.toml", words.format(self.file("second"), 8) + "store = \n")
                self.renew(guard, " ERROR ", f"{settings}:8: ")
                for number in (signal.SIGUSR1, signal.SIGUSR2):
                    guard.tell(number)
                self.renew(guard, " ERROR ")
                want(guard.died(), False)


@needs("openssl")
class Near(Certified):
    """TLS to clients of `retry`, and to servers of `guard`."""

    @contextlib.contextmanager
    def listening(self, *words: str) -> Iterator[tuple[Server, Relay]]:
        """A server, a guard before it, and before that a relay that shows its clients a certificate."""
        port = relays.free_port()
        with counted() as (server, guard, _), \
                Relay("retry", "--guard", f"127.0.0.1:{guard.port}", "--listen-certificate", self.file("guard.pem"),
                      "--listen-key", self.file("guard.key"), "--listen", f"127.0.0.3:{port}", *words, port=port) as retry:
            retry.begin()
            yield server, retry

    def test_clients(self):
        """They are answered over TLS, whether they have a certificate or not, and not without TLS; a renewed certificate is
        shown to who comes then."""
        with self.listening() as (server, retry), Peer(retry.port) as peer, self.secured(retry, "stranger") as other:
            context = ssl.create_default_context(cafile=self.file("ours.pem"))
            peer.socket = context.wrap_socket(peer.socket, server_hostname="localhost")
            for count, one in enumerate((peer, other)):
                one.tell(request(1, KEY, "add"))
                one.wants(giop.reply(1, number_body(count + 1)))
            with Peer(retry.port) as plain, contextlib.suppress(ConnectionResetError):
                plain.tell(request(1, KEY, "add"))
                self.assertNotIn(b"GIOP", plain.received(100))
            want(len(server.performed), 2)
            old = peer.socket.getpeercert(True)
            self.folder.certify("guard")
            retry.tell(signal.SIGHUP)
            until(lambda: 'setting="listen-certificate"' in retry.said(), "it is read anew")
            with self.secured(retry, "stranger") as then:
                self.assertNotEqual(then.socket.getpeercert(True), old)

    def test_servers(self):
        """A server is asked over TLS, and shown a certificate; one that does not name its host, or refuses that certificate,
        has nothing of a call."""
        ours = ("--server-authorities", self.file("ours.pem"))
        other = ("--server-certificate", self.file("other.pem"), "--server-key", self.file("other.key"))
        strange = ("--server-certificate", self.file("stranger.pem"), "--server-key", self.file("stranger.key"))
        declined = system(1, "TRANSIENT", NO, 0xfffff001)
        with self.listening("--listen-authorities", self.file("ours.pem")) as (server, retry):
            for host, words, answer, why in (
                    ("localhost", (*ours, *other), giop.reply(1, number_body(1)), ""),
                    ("127.0.0.3", (*ours, *other), declined, "IP address mismatch"),
                    ("localhost", (*ours, *strange), declined, "whose authority it does not know"),
                    ("localhost", ours, declined, "it refuses a connection without a certificate"),
                    ("localhost", ("--server-authorities", self.file("theirs.pem")), declined, "certificate verify failed")):
                with Relay("guard", "--store", "memory", "--server", f"{host}:{retry.port}", *words) as guard:
                    guard.begin()
                    ask(guard.port, request(1, KEY, "add", number=1), answer)
                    until(lambda: not why or said_at_warn(guard, why), why)
            want(len(server.performed), 1)


@needs("openssl")
class Orbs(Certified):
    """Clients and servers of omniORB that speak TLS alone, by references with TAG_SSL_SEC_TRANS."""

    @classmethod
    def setUpClass(cls):
        super().setUpClass()
        relays.orbs(True)

    def tls(self, name: str) -> tuple[str, ...]:
        """What omniORB is told that shows a certificate, and trusts `ours`."""
        parts = []
        for kind in ("pem", "key"):
            with open(self.file(f"{name}.{kind}"), encoding="ascii") as file:
                parts.append(file.read())
        both = self.folder.write(f"{name}.both", "".join(parts))
        return "-ORBsslCAFile", self.file("ours.pem"), "-ORBsslKeyFile", both, "-ORBsslKeyPassword", ""

    @contextlib.contextmanager
    def server(self, published: int | None, hops: tuple[str, ...] = (), tls: str | None = "other") -> Iterator[relays.Server]:
        with tempfile.TemporaryDirectory() as folder, \
                relays.Server(folder, published, hops, self.tls(tls) if tls else ()) as server:
            server.begin()
            yield server

    @contextlib.contextmanager
    def before(self, server: relays.Server, *words: str, port: int | None = None) -> Iterator[Relay]:
        """A guard before a server, which it finds by words or at its port."""
        words = words or ("--server", f"127.0.0.1:{server.port}")
        near = ("--server-authorities", self.file("ours.pem"), "--server-certificate", self.file("guard.pem"),
                "--server-key", self.file("guard.key"))
        with Relay("guard", "--store", "memory", *self.words("guard"), *near, *words, port=port) as guard:
            guard.begin()
            yield guard

    def led(self, reference: str, relay: Relay) -> str:
        """The reference that leads to a relay."""
        status, out, err = said_by("ior", "--tls", "--at", f"127.0.0.1:{relay.port}", reference)
        want((status, err), (0, ""))
        return out.strip()

    def returns(self, reference: str, server: relays.Server, kind: str = "0", client: str = "retry") -> None:
        """Calls return, each of which the server performed once."""
        calling = Calling(reference, f"call-{len(server.performed())}", 5, 2, kind, tls=self.tls(client))
        want(dict(judge(calling.answers(relays.SECONDS), server.performed())), {"returned": 5})

    def test_a_reference_that_is_made(self):
        """By the server's own the guard finds it, and clients find the guard by what `ior --tls` makes of that."""
        with self.server(None) as server:
            file = self.folder.write("server.ior", server.reference)
            with self.before(server, "--reference", file) as guard:
                self.returns(self.led(server.reference, guard), server)

    @base.each(lambda: [(" ".join(hops) or "itself", hops) for hops in ((), ("1", "once"), ("1", "good"), ("3", "once"))])
    def test_a_reference_that_is_published(self, hops: tuple[str, ...]) -> None:
        """The server's references lead to the guard, and so do those by which it forwards."""
        port = relays.free_port()
        with self.server(port, hops) as server, self.before(server, port=port):
            self.returns(server.reference, server)

    @base.each(lambda: [("made", False), ("published", True)])
    def test_through_both(self, is_published: bool) -> None:
        """TLS on each connection: to clients, between the relays, and to the server, which forwards to itself or to where
        it is published."""
        port = relays.free_port()
        with self.server(port if is_published else None, ("1", "once")) as server, self.before(server) as guard, \
                Relay("retry", "--guard", f"127.0.0.1:{guard.port}", *self.words("retry"), "--listen-certificate",
                      self.file("guard.pem"), "--listen-key", self.file("guard.key"), port=port) as retry:
            retry.begin()
            for reference in server.references:
                self.returns(reference if is_published else self.led(reference, retry), server)

    def test_a_stranger(self):
        """A client or a server whose certificate is of another authority performs nothing."""
        for client, behind in (("stranger", "other"), ("retry", "stranger")):
            with self.subTest(client), self.server(None, tls=behind) as server, self.before(server) as guard:
                calling = Calling(self.led(server.reference, guard), "call", 1, tls=self.tls(client))
                (told,) = calling.answers(relays.SECONDS).values()
                want(told.split()[0] in ("TRANSIENT", "COMM_FAILURE"), True, told)
                want(sum(server.performed().values()), 0)
                why = "no handshake" if client == "stranger" else "certificate verify failed"
                until(lambda why=why, guard=guard: said_at_warn(guard, why), why)


if __name__ == "__main__":
    unittest.main()
