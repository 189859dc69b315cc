"""Tests of dcsctp.py: it says what the header says; calls in any order, with any values, return or raise an error."""

import copy
import ctypes
import dataclasses
import os
import pathlib
import pickle
import random
import re
import shutil
import subprocess
import sys
import tempfile
import threading
import unittest

import dcsctp

HEADER = pathlib.Path(__file__).resolve().parents[2] / "include/dcsctp.h"

# The types of C, but for `const`, and those of ctypes.
TYPES = {
    "void *": ctypes.c_void_p,
    "size_t": ctypes.c_size_t,
    "uint64_t": ctypes.c_uint64,
    "uint32_t": ctypes.c_uint32,
    "uint16_t": ctypes.c_uint16,
    "int32_t": ctypes.c_int32,
    "size_t *": ctypes.POINTER(ctypes.c_size_t),
    "uint64_t *": ctypes.POINTER(ctypes.c_uint64),
    "uint32_t *": ctypes.POINTER(ctypes.c_uint32),
    "uint16_t *": ctypes.POINTER(ctypes.c_uint16),
    "int32_t *": ctypes.POINTER(ctypes.c_int32),
    "uint8_t *": ctypes.POINTER(ctypes.c_uint8),
    "const uint8_t *": ctypes.c_char_p,
    "const char *": ctypes.c_void_p,
    "const uint8_t * *": ctypes.POINTER(ctypes.POINTER(ctypes.c_uint8)),
}
STRUCTS = {
    "dcsctp_socket": dcsctp._Socket,
    "dcsctp_options": dcsctp._Options,
    "dcsctp_event": dcsctp._Event,
    "dcsctp_message": dcsctp._Message,
    "dcsctp_send_options": dcsctp._SendOptions,
    "dcsctp_outgoing_message": dcsctp._OutgoingMessage,
    "dcsctp_metrics": dcsctp._Metrics,
    "dcsctp_counts": dcsctp._Counts,
    "dcsctp_channel_limits": dcsctp._ChannelLimits,
    "dcsctp_channel_options": dcsctp._ChannelOptions,
    "dcsctp_channel_event": dcsctp._ChannelEvent,
    "dcsctp_channel_metrics": dcsctp._ChannelMetrics,
}


def header():
    """The text of the header without comments, and without what tools that read declarations leave out."""
    text = re.sub(r"/\*.*?\*/", "", HEADER.read_text(encoding="utf-8"), flags=re.S)
    return re.sub(r"static inline .*?\n}\n", "", text, flags=re.S)


def declared(text):
    """The name and the type of ctypes of a parameter or a field."""
    words = re.sub(r"(\w+)\[\d+\]", r"*\1", text).replace("*", " * ").split()
    name = words.pop() if words[-1] != "*" else ""
    kind = " ".join(words)
    plain = kind.replace("const ", "")
    if plain.rstrip(" *") in STRUCTS:
        return name, ctypes.POINTER(STRUCTS[plain.rstrip(" *")])
    return name, TYPES.get(kind) or TYPES[plain]


def numbers(prefix):
    """The enumerators and macros of the header that begin so, without that."""
    text = header()
    found = re.findall(rf"\bDCSCTP_{prefix}(\w+) = (-?\d+),", text)
    found += re.findall(rf"#define DCSCTP_{prefix}(\w+) (\d+)u\n", text.replace("  ", "").replace(" \n", "\n"))
    return {name: int(number) for name, number in found}


def pascal(name):
    return "".join(it.capitalize() for it in name.split("_"))


@unittest.skipUnless(os.path.isabs(dcsctp.library()), "the library has no folder")
class Finding(unittest.TestCase):
    """A copy of dcsctp.py, alone in a folder, finds a library that was installed."""

    def setUp(self):
        folder = tempfile.TemporaryDirectory()
        self.addCleanup(folder.cleanup)
        self.top = pathlib.Path(folder.name)
        (self.top / "program").mkdir()
        shutil.copy(dcsctp.__file__, self.top / "program/dcsctp.py")

    def install(self, *files):
        for file in files:
            target = self.top / file
            target.parent.mkdir(parents=True, exist_ok=True)
            shutil.copy(dcsctp.library(), target)

    def take(self, **variables):
        """What `library()` and `is_proved()` return, and what an import says that fails."""
        kept = ("DCSCTP_LIBRARY", "LD_LIBRARY_PATH", "PKG_CONFIG_PATH", "PKG_CONFIG_LIBDIR")
        variables = {**{it: os.environ[it] for it in os.environ if it not in kept}, **variables}
        program = "import dcsctp; print(dcsctp.library(), dcsctp.is_proved())"
        run = [sys.executable, "-c", program]
        ran = subprocess.run(run, cwd=self.top / "program", env=variables, capture_output=True, text=True, check=False)
        return ran.stdout.split() or ran.stderr

    def test_the_loader_finds_either_and_the_proved_one_first(self):
        folder, proved = str(self.top / "lib"), str(dcsctp.is_proved())
        self.install("lib/libdcsctp-unproved.so.0")
        self.assertEqual(self.take(LD_LIBRARY_PATH=folder), ["libdcsctp-unproved.so.0", proved])
        self.install("lib/libdcsctp.so.0")
        self.assertEqual(self.take(LD_LIBRARY_PATH=folder), ["libdcsctp.so.0", proved])

    def test_the_variable_names_another(self):
        self.install("lib/libdcsctp.so.0", "other/of_mine.so")
        folder, mine = str(self.top / "lib"), str(self.top / "other/of_mine.so")
        found = self.take(LD_LIBRARY_PATH=folder, DCSCTP_LIBRARY=mine)
        self.assertEqual(found, [mine, str(dcsctp.is_proved())])
        self.assertIn("DCSCTP_LIBRARY: ", self.take(LD_LIBRARY_PATH=folder, DCSCTP_LIBRARY=mine + "x"))

    def test_a_package_and_a_repository_have_it_beside_the_bindings(self):
        self.install("bindings/python/unused", "out/unproved/libdcsctp-unproved.so.0")
        shutil.copy(dcsctp.__file__, self.top / "bindings/python/dcsctp.py")
        (self.top / "program").rename(self.top / "unused")
        (self.top / "program").symlink_to("bindings/python")
        for file in ("out/unproved/libdcsctp-unproved.so.0", "out/libdcsctp.so.0", "lib/libdcsctp.so.0"):
            self.install(file)
            self.assertEqual(self.take()[0], str((self.top / file).resolve()))

    @unittest.skipUnless(shutil.which("pkg-config"), "there is no pkg-config")
    def test_pkg_config_is_asked_last(self):
        self.install("lib/libdcsctp-unproved.so.0")
        folder = self.top / "lib/pkgconfig"
        folder.mkdir()
        lines = f"libdir={self.top}/lib\nName: n\nDescription: d\nVersion: 1\n"
        (folder / "dcsctp-unproved.pc").write_text(lines, encoding="utf-8")
        found = self.take(PKG_CONFIG_LIBDIR=str(folder))
        if not found[0].startswith(("libdcsctp", "/usr/local/lib/")):  # unless this machine has one
            self.assertEqual(found[0], str(self.top / "lib/libdcsctp-unproved.so.0"))

    def test_an_import_without_a_library_says_what_was_tried(self):
        found = self.take(PKG_CONFIG_LIBDIR=str(self.top))
        if isinstance(found, str):  # unless this machine has one
            for name in ("make unproved install", "DCSCTP_LIBRARY", "/usr/local/lib/libdcsctp-unproved.so.0"):
                self.assertIn(name, found)


class Header(unittest.TestCase):
    def test_structs_have_the_fields_of_the_header(self):
        found = re.findall(r"typedef struct (\w+) \{(.*?)\}", header(), flags=re.S)
        self.assertEqual({name for name, _ in found}, set(STRUCTS))
        for name, fields in found:
            each = [declared(it) for it in fields.split(";") if it.strip()]
            self.assertEqual(each, STRUCTS[name]._fields_, name)

    def test_calls_take_what_the_header_says(self):
        found = re.findall(r"^(\w+) (dcsctp_\w+)\(([^)]*)\)", header(), flags=re.M)
        self.assertEqual([name for _, name, _ in found], list(dcsctp._CALLS))
        results = {"int32_t": ctypes.c_int32, "uint32_t": ctypes.c_uint32, "void": None}
        for result, name, parameters in found:
            each = [declared(it)[1] for it in parameters.split(",") if it != "void"]
            self.assertEqual(each, dcsctp._CALLS[name], name)
            self.assertEqual(getattr(dcsctp._library, name).restype, results[result], name)

    def test_numbers_are_those_of_the_header(self):
        rows = [
            ("KIND_", dcsctp.ErrorKind, 9),
            ("STATE_", dcsctp.State, 4),
            ("PEER_", dcsctp.Peer, 5),
            ("HANDOVER_", dcsctp.Handover, 12),
        ]
        for prefix, kind, count in rows:
            self.assertEqual(numbers(prefix), {it.name: it.value for it in kind}, prefix)
            self.assertEqual(len(kind), count, prefix)
        self.assert_channel_numbers()
        self.assertEqual(numbers("SEND_"), {"UNORDERED": 1, "LIFETIME": 2, "MAX_RETRANSMISSIONS": 4})
        errors = {pascal(name): number for name, number in numbers("ERROR_").items()}
        self.assertEqual(errors, {it.__name__: it.number for it in dcsctp.Error.__subclasses__()})
        self.assertEqual(len(errors), 23)

    def assert_channel_numbers(self):
        found = numbers("CHANNEL_")
        kinds = (dcsctp.SendPacket, dcsctp.Connected, *dcsctp.ChannelEvent.__subclasses__())
        events = {re.sub("^Channels?", "", it.__name__): it.kind for it in kinds}
        there = {pascal(it[6:]): number for it, number in found.items() if it.startswith("EVENT_")}
        self.assertEqual({**events, "None": 0}, there)
        others = {it: number for it, number in found.items() if not it.startswith("EVENT_")}
        here = {it.name: it.value for it in (*dcsctp.ChannelEnd, *dcsctp.ChannelState)}
        here.update(TEXT=dcsctp._TEXT, BINARY=dcsctp._BINARY)
        here.update(RELIABLE=0, RETRANSMISSIONS=dcsctp._RETRANSMISSIONS, LIFETIME=dcsctp._LIFETIME)
        self.assertEqual(others, here)

    def test_events_are_those_of_the_header(self):
        events = {pascal(name): number for name, number in numbers("EVENT_").items() if name != "NONE"}
        events["ErrorEvent"] = events.pop("Error")
        others = (dcsctp.UnknownEvent, dcsctp.ChannelEvent)
        kinds = [it for it in dcsctp.Event.__subclasses__() if it not in others]
        self.assertEqual(events, {it.__name__: it.kind for it in kinds})
        text = HEADER.read_text(encoding="utf-8")
        names = dict(re.findall(r'case DCSCTP_EVENT_(\w+):\s+return "([^"]*)"', text))
        for kind in kinds:
            key = next(it for it in names if pascal(it) == kind.__name__.replace("ErrorEvent", "Error"))
            self.assertEqual(kind.name, names[key])

    def test_default_options_are_those_of_the_library(self):
        options = dcsctp._Options(size=ctypes.sizeof(dcsctp._Options))
        self.assertEqual(dcsctp._library.dcsctp_get_default_options(options), 0)
        self.assertEqual(bytes(dcsctp._filled(dcsctp._Options, dcsctp.Options())), bytes(options))
        with dcsctp.Socket() as socket:
            self.assertEqual(socket.options(), dcsctp.Options())

    def test_send_options_set_their_fields_and_flags(self):
        how = dcsctp._send_options(dcsctp.SendOptions(7, True, 9, 3))
        self.assertEqual((how.lifecycle_id, how.lifetime, how.flags, how.max_retransmissions), (7, 9, 7, 3))
        rows = [({}, 0), ({"unordered": True}, 1), ({"lifetime": 0}, 2), ({"max_retransmissions": 0}, 4)]
        for options, flags in rows:
            self.assertEqual(dcsctp._send_options(dcsctp.SendOptions(**options)).flags, flags, options)


# Each method that calls the library, with values that it takes.
CALLS = {
    "connect": (),
    "shutdown": (),
    "close": (),
    "handle_input": (b"packet",),
    "advance_time": (5,),
    "poll_timeout": (),
    "poll_event": (),
    "messages_ready_count": (),
    "get_next_message": (),
    "send": (1, 51, b"hello"),
    "send_many": ([dcsctp.Message(1, 51, b"hello")],),
    "reset_streams": ([1],),
    "buffered_amount": (1,),
    "buffered_amount_low_threshold": (1,),
    "set_buffered_amount_low_threshold": (1, 5),
    "stream_priority": (1,),
    "set_stream_priority": (1, 5),
    "state": (),
    "has_failed": (),
    "verification_tag": (),
    "set_max_message_size": (5000,),
    "options": (),
    "metrics": (),
    "counts": (),
    "handover_readiness": (),
    "get_handover_state_and_close": (),
    "handover_bytes": (),
    "restore_from_state": (b"no snapshot",),
}


class Misuse(unittest.TestCase):
    def test_destroyed_socket_raises_no_socket(self):
        with dcsctp.Socket() as socket:
            socket.connect()
        socket.destroy()
        for name, arguments in CALLS.items():
            with self.assertRaises(dcsctp.NoSocket, msg=name):
                getattr(socket, name)(*arguments)
        self.assertRaises(dcsctp.NoSocket, list, socket.events())
        others = {"events", "messages", "destroy"}
        methods = {it for it in dir(dcsctp.Socket) if not it.startswith("_")}
        self.assertEqual(methods, set(CALLS) | others, "each method is in the table")

    def test_destroyed_channels_raise_no_socket(self):
        with dcsctp.Channels(is_dtls_client=True) as channels:
            channel = channels.open("chat")
        calls = {**CALLS, "set_role": (True,), "open": ("more",), "streams_in_use": ()}
        methods = {it for it in dir(dcsctp.Channels) if not it.startswith("_")} - {"events", "channel", "destroy"}
        for name in methods:
            with self.assertRaises(dcsctp.NoSocket, msg=name):
                getattr(channels, name)(*calls[name])
        of_channel = {"send": ("hello",), "close": (), "metrics": ()}
        for name in {it for it in vars(dcsctp.Channel) if not it.startswith("_")} - {"buffered_amount_low_threshold"}:
            with self.assertRaises(dcsctp.NoSocket, msg=name):
                getattr(channel, name)(*of_channel[name])
        with self.assertRaises(dcsctp.NoSocket):
            channel.buffered_amount_low_threshold = 5

    def test_socket_is_not_copied(self):
        with dcsctp.Socket() as socket:
            for copied in (copy.copy, copy.deepcopy, pickle.dumps):
                self.assertRaises(TypeError, copied, socket)

    def test_numbers_out_of_range_are_refused(self):
        with dcsctp.Socket() as socket:
            for call in (
                lambda: socket.send(65536, 51, b"hello"),
                lambda: socket.send(-1, 51, b"hello"),
                lambda: socket.send(1, 2**32, b"hello"),
                lambda: socket.send(1, 51, b"hello", dcsctp.SendOptions(lifetime=-1)),
                lambda: socket.send(1, 51, b"hello", dcsctp.SendOptions(max_retransmissions=65536)),
                lambda: socket.send_many([dcsctp.Message(1, -5, b"hello")]),
                lambda: socket.reset_streams([1, 70000]),
                lambda: socket.buffered_amount(65536),
                lambda: socket.advance_time(2**64),
                lambda: socket.set_stream_priority(1, 65536),
                lambda: socket.set_max_message_size(-1),
                lambda: dcsctp.Socket(now=-1),
                lambda: dcsctp.Socket(seed=bytes(31)),
                lambda: dcsctp.Socket(dcsctp.Options(local_port=65536)),
            ):
                self.assertRaises(ValueError, call)
            for call in (
                lambda: socket.send(1, 51, "hello"),
                lambda: socket.send(1, 51, 5),
                lambda: socket.send("1", 51, b"hello"),
                lambda: socket.handle_input(None),
                lambda: socket.advance_time(1.5),
                lambda: socket.restore_from_state(3),
            ):
                self.assertRaises(TypeError, call)
            self.assertIsNone(socket.poll_event(), "nothing has changed")

    def test_seed_of_zeros_is_refused(self):
        self.assertRaises(dcsctp.InvalidOptions, dcsctp.Socket, seed=bytes(32))
        for at in range(32):
            seed = bytearray(32)
            seed[at] = 1
            with dcsctp.Socket(seed=seed) as socket:
                self.assertEqual(socket.state(), dcsctp.State.CLOSED)

    def test_no_messages_and_no_streams(self):
        with dcsctp.Socket() as socket:
            self.assertEqual(socket.send_many([]), [])
            self.assertRaises(dcsctp.NotConnected, socket.reset_streams, [])

    def test_calls_in_any_order_return(self):
        chance = random.Random(1)
        raised = set()
        for run in range(10):
            follow_rfc = run % 2 == 0
            sockets, packets, snapshot = [self.socket(follow_rfc), self.socket(follow_rfc)], [[], []], b""
            for _ in range(1500):
                at = chance.randrange(2)
                name = chance.choice(list(CALLS) + ["poll_event", "packet"] * 25 + ["send"] * 8)
                if name in ("close", "shutdown", "get_handover_state_and_close") and chance.random() < 0.9:
                    continue
                arguments = CALLS.get(name, ())
                if name == "packet":
                    noise = chance.getrandbits(240).to_bytes(30, "big")
                    name, arguments = "handle_input", (packets[at].pop(0) if packets[at] else noise,)
                elif name == "send":
                    payload = b"x" * chance.choice([0, 5, 3000, 6000])
                    arguments = (chance.randrange(3), 53, bytearray(payload))
                elif name == "restore_from_state" and chance.random() < 0.5:
                    sockets[at].destroy()
                    sockets[at] = self.socket(follow_rfc)
                    arguments = (snapshot,)
                try:
                    result = getattr(sockets[at], name)(*arguments)
                except dcsctp.Error as error:
                    raised.add(type(error))
                    continue
                if isinstance(result, dcsctp.SendPacket):
                    packets[1 - at].append(result.packet)
                if isinstance(result, bytes):
                    snapshot = result
            self.connect_again(*sockets)
        for error in (dcsctp.EmptyPayload, dcsctp.MessageTooLarge, dcsctp.NotConnected, dcsctp.InvalidSnapshot):
            self.assertIn(error, raised)
        self.assertNotIn(dcsctp.NoSocket, raised)
        self.assertNotIn(dcsctp.OutOfMemory, raised)

    def test_threads_share_a_socket(self):
        with dcsctp.Socket() as a, dcsctp.Socket() as b:
            a.connect()
            failures = []

            def carry(source, target):
                try:
                    for _ in range(300):
                        source.send(1, 53, b"hello")
                        for event in source.events():
                            if isinstance(event, dcsctp.SendPacket):
                                target.handle_input(event.packet)
                        list(source.messages())
                except Exception as failure:  # what a thread raises is lost otherwise
                    failures.append(failure)

            threads = [threading.Thread(target=carry, args=it) for it in [(a, b), (b, a), (a, b)]]
            for thread in threads:
                thread.start()
            for thread in threads:
                thread.join()
            self.assertEqual(failures, [])

    def connect_again(self, a, b):
        """Whatever was before, two ends that have closed connect once no packet is under way."""
        for socket in (a, b):
            socket.close()
            list(socket.events())
        a.connect()
        settle(a, b)
        self.assertEqual((a.state(), b.state()), (dcsctp.State.CONNECTED, dcsctp.State.CONNECTED))

    def socket(self, follow_rfc=True):
        options = dcsctp.Options(max_message_size=5000, max_send_buffer_size=20000, follow_rfc=follow_rfc)
        return dcsctp.Socket(options)


def carry(source, target):
    """Takes all events of a socket. Its packets go to the other one. Returns how many there were."""
    packets = [event.packet for event in source.events() if isinstance(event, dcsctp.SendPacket)]
    for packet in packets:
        target.handle_input(packet)
    return len(packets)


def settle(a, b):
    """Carries packets both ways until none is left. Returns how many each has sent."""
    of_a, of_b = 0, 0
    while True:
        more_of_a, more_of_b = carry(a, b), carry(b, a)
        of_a, of_b = of_a + more_of_a, of_b + more_of_b
        if more_of_a + more_of_b == 0:
            return of_a, of_b


class Ends(unittest.TestCase):
    """What is left of an association that has ended."""

    def connected(self, **options):
        a, b = (self.socket(**options) for _ in range(2))
        a.connect()
        # INIT and COOKIE ECHO; INIT ACK and COOKIE ACK (RFC 9260, section 5.1)
        self.assertEqual(settle(a, b), (2, 2))
        return a, b

    def socket(self, **options):
        socket = dcsctp.Socket(dcsctp.Options(**options), now=3600 * 10**9)
        self.addCleanup(socket.destroy)
        return socket

    def test_counts_outlast_their_association(self):
        self.assertEqual(self.socket().counts(), dcsctp.Counts(0, 0, 0))
        a, b = self.connected()
        for _ in range(3):
            a.send(1, 51, b"hello")
        with_messages = settle(a, b)
        a.close()
        last = settle(a, b)
        of_a, of_b = (2 + with_messages[at] + last[at] for at in range(2))
        self.assertEqual((a.metrics(), b.metrics(), b.state()), (None, None, dcsctp.State.CLOSED))
        self.assertEqual(a.counts(), dcsctp.Counts(of_b, of_a, 3))
        self.assertEqual(b.counts(), dcsctp.Counts(of_a, of_b, 0))

    def test_verification_tag_is_that_of_the_packets_of_the_peer(self):
        self.assertEqual(self.socket().verification_tag(), 0)
        a, b = self.connected()
        for source, target in ((a, b), (b, a)):
            source.send(1, 51, b"hello")
            packet = next(it.packet for it in source.events() if isinstance(it, dcsctp.SendPacket))
            tag = target.verification_tag()
            self.assertEqual(packet[4:8], tag.to_bytes(4, "big"))  # RFC 9260, section 3.1
            self.assertNotEqual(tag, 0)
        a.close()
        self.assertEqual(a.verification_tag(), 0)

    def test_checksums_are_left_to_who_makes_them(self):
        a, b = self.connected(checksum_offload=True)
        a.send(1, 51, b"hello")
        packet = next(it.packet for it in a.events() if isinstance(it, dcsctp.SendPacket))
        self.assertEqual(packet[8:12], bytes(4))  # RFC 9260, section 3.1
        b.handle_input(packet[:8] + b"\1\2\3\4" + packet[12:])
        self.assertEqual([it.payload for it in b.messages()], [b"hello"])
        self.assertTrue(a.options().checksum_offload)

    def test_message_outlasts_its_association_by_follow_rfc(self):
        for follow_rfc in (True, False):
            a, b = self.connected(follow_rfc=follow_rfc)
            a.send(1, 51, b"hello")
            a.send(2, 53, b"good bye")
            a.close()
            settle(a, b)
            self.assertEqual(b.state(), dcsctp.State.CLOSED)
            expected = [dcsctp.Message(1, 51, b"hello"), dcsctp.Message(2, 53, b"good bye")]
            self.assertEqual(list(b.messages()), expected if follow_rfc else [], follow_rfc)

    def test_message_is_lost_when_the_next_association_begins(self):
        a, b = self.connected()
        a.send(1, 51, b"hello")
        a.close()
        settle(a, b)
        self.assertEqual((b.state(), b.messages_ready_count()), (dcsctp.State.CLOSED, 1))
        a.connect()
        settle(a, b)
        self.assertEqual((b.state(), b.get_next_message()), (dcsctp.State.CONNECTED, None))

    def test_snapshot_is_for_the_options_that_it_was_made_with(self):
        a, b = self.connected()
        snapshot = a.get_handover_state_and_close()
        for options in (
            {"local_port": 5001},
            {"remote_port": 5001},
            {"announced_maximum_incoming_streams": 9},
            {"announced_maximum_outgoing_streams": 9},
            {"enable_partial_reliability": False},
            {"enable_message_interleaving": True},
            {"zero_checksum_method": 1},
        ):
            other = self.socket(**options)
            with self.assertRaises(dcsctp.OtherOptions, msg=options):
                other.restore_from_state(snapshot)
            self.assertEqual((other.state(), other.poll_event()), (dcsctp.State.CLOSED, None), options)
        same = self.socket(max_message_size=1000)
        for place in (0, len(snapshot) // 2, len(snapshot) - 1):
            changed = bytearray(snapshot)
            changed[place] ^= 1
            with self.assertRaises(dcsctp.InvalidSnapshot, msg=place):
                same.restore_from_state(changed)
        same.restore_from_state(snapshot)
        same.send(1, 51, b"after")
        settle(same, b)
        self.assertEqual(b.get_next_message(), dcsctp.Message(1, 51, b"after"))


class DataChannels(unittest.TestCase):
    """Two ends with data channels, with and without `follow_rfc`. A is the DTLS client."""

    def setUp(self):
        self.follow_rfc = True

    def create(self, limits=None):
        options = dcsctp.Options(follow_rfc=self.follow_rfc)
        self.now, self.seen = 0, {"a": [], "b": []}
        self.a, self.b = (
            dcsctp.Channels(options, is_dtls_client=it, limits=limits if it else None) for it in (True, False)
        )
        self.addCleanup(self.a.destroy)
        self.addCleanup(self.b.destroy)

    def connect(self, limits=None):
        self.create(limits)
        self.a.connect()
        self.settle()
        self.assertEqual(self.take("a"), [dcsctp.Connected()])
        self.assertEqual(self.take("b"), [dcsctp.Connected()])

    def settle(self, seconds=1):
        """Lets time pass, so that all is acknowledged."""
        for _ in range(10 * seconds):
            while self.carry("a", self.a, self.b) + self.carry("b", self.b, self.a) > 0:
                pass
            self.now += 100_000_000
            self.a.advance_time(self.now)
            self.b.advance_time(self.now)

    def carry(self, name, source, target):
        packets = 0
        for event in source.events():
            if isinstance(event, dcsctp.SendPacket):
                target.handle_input(event.packet)
                packets += 1
            elif not isinstance(event, dcsctp.ChannelBufferedAmountLow):
                self.seen[name].append(event)
        return packets

    def take(self, name):
        """What an end has reported since the last time."""
        seen, self.seen[name] = self.seen[name], []
        return seen

    def opened(self, **how):
        """A channel that A opens, at both ends."""
        of_a = self.a.open("chat", **how)
        self.settle()
        self.assertEqual(self.take("a"), [dcsctp.ChannelOpened(of_a)])
        (event,) = self.take("b")
        self.assertIsInstance(event, dcsctp.ChannelIncoming)
        return of_a, event.channel

    def each(self, test):
        for follow_rfc in (True, False):
            with self.subTest(follow_rfc=follow_rfc):
                self.follow_rfc = follow_rfc
                test()

    def test_channel_is_at_the_peer_as_it_was_opened(self):
        rows = [
            {},
            {"ordered": False, "max_retransmits": 0, "protocol": "grüße", "priority": 128},
            {"max_retransmits": 2**32 - 1, "priority": 1024},
            {"ordered": False, "max_lifetime": 66051},
        ]

        def test():
            self.connect()
            for index, how in enumerate(rows):
                for channel in self.opened(**how):
                    expected = {**dict(ordered=True, max_retransmits=None, max_lifetime=None), **how}
                    expected = {"label": "chat", "protocol": "", "priority": 256, "negotiated": None, **expected}
                    self.assertEqual({it: getattr(channel, it) for it in expected}, expected)
                    self.assertEqual(channel.state, dcsctp.ChannelState.OPEN)
                    self.assertEqual(channel.stream, 2 * index)  # RFC 8832, section 6
            self.assertEqual(self.a.streams_in_use(), len(rows))

        self.each(test)

    def test_text_is_str_and_bytes_are_bytes(self):
        def test():
            self.connect()
            for source, target in ((0, 1), (1, 0)):
                pair = self.opened()
                sent = ["hello", "grüße ∞ 𝔸", "", b"", b"a\0b", bytearray(b"\xff"), memoryview(b"x" * 70000)]
                for data in sent:
                    pair[source].send(data)
                self.settle()
                expected = [it if isinstance(it, str) else bytes(it) for it in sent]
                got = self.take("ba"[source])
                self.assertEqual(got, [dcsctp.ChannelMessage(pair[target], it) for it in expected])
                self.assertEqual([type(it.data) for it in got], [type(it) for it in expected])
                size = sum(len(it.encode() if isinstance(it, str) else it) for it in expected)
                self.assertEqual(pair[source].metrics(), dcsctp.ChannelMetrics(7, size, 0, 0))
                self.assertEqual(pair[target].metrics(), dcsctp.ChannelMetrics(0, 0, 7, size))

        self.each(test)

    def test_either_end_closes_and_the_stream_is_used_again(self):
        def test():
            self.connect()
            numbers = set()
            for closing, other in ((0, 1), (1, 0), (0, 0)):
                pair = self.opened()
                self.assertEqual(pair[0].stream, 0)
                pair[closing].send("last")
                pair[closing].close()
                pair[other].close()
                self.assertEqual(pair[closing].state, dcsctp.ChannelState.CLOSING)
                self.settle()
                for name, channel in zip("ab", pair):
                    ended = dcsctp.ChannelClosed(channel, dcsctp.ChannelEnd.CLOSED_BY_RESETS)
                    self.assertEqual([it for it in self.take(name) if isinstance(it, dcsctp.ChannelClosed)], [ended])
                    self.assertEqual((channel.state, channel.stream), (dcsctp.ChannelState.CLOSED, None))
                    self.assertEqual(channel.buffered_amount, 0)
                    self.assertRaises(dcsctp.NoChannel, channel.send, "late")
                    self.assertRaises(dcsctp.NoChannel, channel.metrics)
                    channel.close()
                numbers.add(pair[0].number)
            self.assertEqual(len(numbers), 3)
            self.assertEqual((self.a.streams_in_use(), self.b.streams_in_use()), (0, 0))

        self.each(test)

    def test_negotiated_channel_needs_no_open(self):
        def test():
            self.connect()
            before = self.a.counts().tx_packets_count
            of_a, of_b = (it.open("agreed", negotiated=1000) for it in (self.a, self.b))
            self.settle()
            self.assertEqual(self.take("a"), [dcsctp.ChannelOpened(of_a)])
            self.assertEqual(self.take("b"), [dcsctp.ChannelOpened(of_b)])
            self.assertEqual(self.a.counts().tx_packets_count, before)
            self.assertEqual((of_a.stream, of_a.negotiated), (1000, 1000))
            of_b.send(b"hello")
            self.settle()
            self.assertEqual(self.take("a"), [dcsctp.ChannelMessage(of_a, b"hello")])
            with self.assertRaises(dcsctp.StreamInUse):
                self.a.open("other", negotiated=1000)

        self.each(test)

    def test_channel_waits_for_the_association_and_the_role(self):
        def test():
            self.create()
            early = dcsctp.Channels(dcsctp.Options(follow_rfc=self.follow_rfc))
            self.addCleanup(early.destroy)
            self.a = early
            channel = early.open("early")
            self.assertEqual((channel.state, channel.stream), (dcsctp.ChannelState.CONNECTING, None))
            self.assertRaises(dcsctp.NoChannel, channel.send, "hello")
            with self.assertRaises(dcsctp.NoChannel):
                channel.buffered_amount_low_threshold = 5
            self.assertEqual(channel.buffered_amount_low_threshold, 0)
            early.connect()
            self.settle()
            self.assertEqual(channel.state, dcsctp.ChannelState.CONNECTING)
            early.set_role(True)
            self.assertEqual((channel.state, channel.stream), (dcsctp.ChannelState.OPEN, 0))
            self.settle()
            self.assertEqual(self.take("a"), [dcsctp.Connected(), dcsctp.ChannelOpened(channel)])

        self.each(test)

    def test_queued_bytes_fall_to_their_threshold(self):
        def test():
            self.connect()
            of_a, _ = self.opened()
            of_a.buffered_amount_low_threshold = 8000
            self.assertEqual(of_a.buffered_amount_low_threshold, 8000)
            for _ in range(20):
                of_a.send(bytes(4000))
            self.assertGreater(of_a.buffered_amount, 8000)
            low = 0
            while (event := self.a.poll_event()) is not None:
                low += event == dcsctp.ChannelBufferedAmountLow(of_a)
                if isinstance(event, dcsctp.SendPacket):
                    self.b.handle_input(event.packet)
                for answer in self.b.events():
                    if isinstance(answer, dcsctp.SendPacket):
                        self.a.handle_input(answer.packet)
            self.assertEqual((low, of_a.buffered_amount), (1, 0))

        self.each(test)

    def test_refused_calls_change_nothing(self):
        def test():
            self.assertRaises(dcsctp.InvalidOptions, dcsctp.Channels, dcsctp.Options(checksum_offload=True))
            self.connect()
            of_a, of_b = self.opened()
            self.a.set_max_message_size(4)
            self.assertRaises(dcsctp.MessageTooLarge, of_a.send, "hello")
            self.a.set_max_message_size(262_144)
            self.assertRaises(dcsctp.MessageTooLarge, self.a.open, "x" * 65536)
            self.assertRaises(ValueError, self.a.open, max_retransmits=1, max_lifetime=1)
            for how in ({"max_retransmits": -1}, {"max_lifetime": 2**32}, {"priority": 65536}, {"negotiated": 65536}):
                self.assertRaises(ValueError, self.a.open, **how)
            self.assertRaises(TypeError, of_a.send, 5)
            self.assertRaises(AttributeError, self.a.open, 5)
            self.settle()
            self.assertEqual((self.take("a"), self.take("b"), self.a.streams_in_use()), ([], [], 1))
            with self.assertRaises(dcsctp.ResourceExhaustion):
                while True:
                    of_b.send(bytes(200_000))

        self.each(test)

    def test_peer_is_limited(self):
        def test():
            self.connect(dcsctp.ChannelLimits(max_message_size=5, max_text=3, max_channels=1))
            refused = self.b.open("four")
            self.settle()
            self.assertEqual(self.take("b"), [dcsctp.ChannelClosed(refused, dcsctp.ChannelEnd.REFUSED)])
            short = self.b.open("abc")
            self.settle()
            (event,) = self.take("a")
            more = self.b.open("")
            self.settle()
            closed = dcsctp.ChannelClosed(more, dcsctp.ChannelEnd.REFUSED)
            self.assertEqual(self.take("b"), [dcsctp.ChannelOpened(short), closed])
            short.send("abcdef")
            self.settle(2)
            self.assertEqual(self.take("a"), [dcsctp.ChannelClosed(event.channel, dcsctp.ChannelEnd.CLOSED_BY_RESETS)])

        self.each(test)

    def test_end_of_the_association_ends_each_channel_once(self):
        def test():
            for end in ("close", "shutdown"):
                self.connect()
                pair = self.opened()
                getattr(self.a, end)()
                self.settle(2)
                for name, channel in zip("ab", pair):
                    lost = dcsctp.ChannelClosed(channel, dcsctp.ChannelEnd.LOST)
                    self.assertEqual(self.take(name), [lost, dcsctp.ChannelsEnded()])
                    self.assertEqual(channel.state, dcsctp.ChannelState.CLOSED)
                self.assertRaises(dcsctp.Ended, self.a.open)
                self.assertEqual(self.a.state(), dcsctp.State.CLOSED)

        self.each(test)

    def test_channels_go_on_after_a_handover(self):
        def test():
            self.connect()
            of_a, of_b = self.opened()
            of_a.send("before")
            self.settle()
            self.assertEqual(self.take("b"), [dcsctp.ChannelMessage(of_b, "before")])
            self.assertEqual(self.a.handover_readiness(), 0)
            snapshot = self.a.get_handover_state_and_close()
            self.assertEqual(list(self.a.events()), [dcsctp.ChannelsEnded()])
            self.assertEqual(self.a.handover_bytes(), snapshot)
            self.assertEqual(self.a.handover_readiness(), dcsctp.Handover.WRONG_CONNECTION_STATE)
            self.a.destroy()
            options = dcsctp.Options(follow_rfc=self.follow_rfc)
            self.now += 60_000_000_000
            self.a = dcsctp.Channels(options, now=self.now)
            self.addCleanup(self.a.destroy)
            with dcsctp.Socket(options, now=self.now) as plain:
                self.assertRaises(dcsctp.InvalidSnapshot, plain.restore_from_state, snapshot)
            self.a.restore_from_state(snapshot)
            again = self.a.channel(of_a.number)
            self.assertEqual(again.state, dcsctp.ChannelState.OPEN)
            self.assertEqual(again.metrics().messages_sent, 1)
            of_b.send("back")
            self.settle()
            self.assertEqual(self.take("a"), [dcsctp.Connected(), dcsctp.ChannelMessage(again, "back")])
            self.assertGreater(self.opened()[0].number, of_a.number)
            self.assertRaises(dcsctp.NotClosed, self.a.restore_from_state, snapshot)

        self.each(test)

    def test_text_that_is_no_utf_8_is_replaced(self):
        self.connect()
        of_a, of_b = self.opened()
        self.a._do(dcsctp._library.dcsctp_channel_send, of_a.number, dcsctp._TEXT, b"a\xffb", 3)
        self.settle()
        self.assertEqual(self.take("b"), [dcsctp.ChannelMessage(of_b, "a\ufffdb")])


class Values(unittest.TestCase):
    def test_long_message_comes_back_whole(self):
        payload = bytes(range(256)) * 100
        with dcsctp.Socket() as a, dcsctp.Socket() as b:
            a.connect()
            a.send(3, 53, memoryview(payload))
            for source, target in [(a, b), (b, a)] * 40:
                for event in source.events():
                    if isinstance(event, dcsctp.SendPacket):
                        target.handle_input(bytearray(event.packet))
            self.assertEqual(b.messages_ready_count(), 1)
            self.assertEqual(list(b.messages()), [dcsctp.Message(3, 53, payload)])
            self.assertEqual(a.metrics().peer_implementation, dcsctp.Peer.DCSCTP_RS)

    def test_thresholds_and_priorities_are_kept(self):
        with dcsctp.Socket() as socket:
            socket.set_buffered_amount_low_threshold(3, 77)
            socket.set_stream_priority(3, 9)
            self.assertEqual([socket.buffered_amount_low_threshold(it) for it in (3, 4)], [77, 0])
            self.assertEqual([socket.stream_priority(it) for it in (3, 4)], [9, 256])
            socket.set_max_message_size(4)
            self.assertEqual(dataclasses.replace(socket.options(), max_message_size=262144), dcsctp.Options())
            self.assertRaises(dcsctp.MessageTooLarge, socket.send, 1, 51, b"hello")

    def test_version_is_that_of_the_header(self):
        self.assertEqual(dcsctp.version() & ~dcsctp.VERSION_UNPROVED, 256)


if __name__ == "__main__":
    unittest.main()
