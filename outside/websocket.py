"""A WebSocket (RFC 6455) over a plain TCP stream, for the client of this folder and for what judges `hgdb serve`.

`Socket` is the side of a client: it makes the handshake and checks the server's answer, masks what it sends, joins fragments,
answers pings, and tells how the stream ended. It asks for no extension, no subprotocol and no TLS. `frame` makes a single frame,
right or wrong.
"""
import base64, hashlib, os, select, socket, time

MORE, TEXT, BINARY, CLOSE, PING, PONG = 0, 1, 2, 8, 9, 10
MAGIC = "258EAFA5-E914-47DA-95CA-C5AB0DC85B11"
# The most bytes of a server's answer to the handshake, and of a message.
MOST_HEAD, MOST = 1 << 16, 1 << 28
# How long a stream that is being closed is listened to, in seconds.
LAST = 10


class Lost(Exception):
    """The connection is over, and no close frame was read: the text tells why."""


class Ended(Lost):
    """The stream ended or broke."""


class Closed(Lost):
    """The server closed the connection with a close frame; `code` is its code, 1005 where it has none."""

    def __init__(self, code, reason):
        super().__init__(f"the server closed it with code {code}" + (f", {reason}" if reason else ""))
        self.code = code


def masked(payload, key):
    """A payload under a masking key of four bytes. Under the same key once more it is as it was."""
    size = len(payload)
    whole = (key * (size // 4 + 1))[:size]
    return (int.from_bytes(payload, "big") ^ int.from_bytes(whole, "big")).to_bytes(size, "big")


def frame(opcode, payload=b"", final=True, reserved=0, mask=True):
    """The bytes of a frame. `reserved` has the three reserved bits; without `mask` it is as a server sends it."""
    size, bit = len(payload), 128 if mask else 0
    head = bytes([final << 7 | reserved << 4 | opcode])
    if size < 126:
        head += bytes([bit | size])
    elif size < 1 << 16:
        head += bytes([bit | 126]) + size.to_bytes(2, "big")
    else:
        head += bytes([bit | 127]) + size.to_bytes(8, "big")
    if not mask:
        return head + payload
    key = os.urandom(4)
    return head + key + masked(payload, key)


def accept_of(key):
    """The word with which a server shows that it has read the key of a handshake."""
    return base64.b64encode(hashlib.sha1((key + MAGIC).encode()).digest()).decode()


def parted(address):
    """The host and the port of an address: HOST:PORT, [HOST]:PORT, with `ws://` before it and a `/` behind it if wanted."""
    host, _, port = address.removeprefix("ws://").removesuffix("/").rpartition(":")
    if not host or not port.isascii() or not port.isdigit() or not 0 < int(port) < 1 << 16:
        raise ValueError(f"{address} is no HOST:PORT")
    return host.removeprefix("[").removesuffix("]"), int(port)


def connected(address, seconds=0):
    """A TCP stream to an address. Where nobody listens there yet, it tries again for so many seconds."""
    until = time.monotonic() + seconds
    while True:
        try:
            return socket.create_connection(address)
        except ConnectionRefusedError:
            if time.monotonic() >= until:
                raise
        time.sleep(0.02)


def named(stream):
    """The address and the port at the other end of a stream, by which a server is asked for. It takes no other name but `localhost`."""
    host, port = stream.getpeername()[:2]
    return f"[{host.partition('%')[0]}]:{port}" if ":" in host else f"{host}:{port}"


class Socket:
    """The side of a client. `stream` is its TCP stream."""

    def __init__(self, host, port, seconds=0, stream=None):
        self.stream = stream or connected((host, port), seconds)
        self.stream.setsockopt(socket.IPPROTO_TCP, socket.TCP_NODELAY, 1)
        self.buffer, self.parts, self.kind, self.over = bytearray(), b"", None, False
        self.pongs = []
        self.shake(named(self.stream))

    # The handshake

    def shake(self, host):
        """Asks for the WebSocket, and reads the answer."""
        key = base64.b64encode(os.urandom(16)).decode()
        lines = ["GET / HTTP/1.1", f"Host: {host}", "Upgrade: websocket", "Connection: Upgrade", f"Sec-WebSocket-Key: {key}"]
        self.put("".join(f"{it}\r\n" for it in [*lines, "Sec-WebSocket-Version: 13", ""]).encode())
        while b"\r\n\r\n" not in self.buffer:
            if len(self.buffer) > MOST_HEAD:
                raise Lost("the server's answer to the handshake does not end")
            self.fill()
        head, _, rest = bytes(self.buffer).partition(b"\r\n\r\n")
        self.buffer = bytearray(rest)
        self.judge(head.decode("latin-1").split("\r\n"), accept_of(key))

    def judge(self, lines, accept):
        """Judges the head of the server's answer."""
        fields = {}
        for line in lines[1:]:
            name, _, value = line.partition(":")
            fields.setdefault(name.strip().lower(), value.strip())
        if lines[0].split(" ")[:2] != ["HTTP/1.1", "101"]:
            raise Lost(f"the server answers the handshake with {lines[0]!r}")
        wanted = {"upgrade": "websocket", "connection": "upgrade"}
        if any(fields.get(name, "").lower() != value for name, value in wanted.items()):
            raise Lost("the server's answer to the handshake is no upgrade")
        if fields.get("sec-websocket-accept") != accept:
            raise Lost("the server's answer to the handshake has another key")
        if "sec-websocket-extensions" in fields or "sec-websocket-protocol" in fields:
            raise Lost("the server chose what was not asked for")

    # The stream

    def put(self, data):
        """Sends bytes as they are."""
        try:
            self.stream.sendall(data)
        except OSError as why:
            raise Ended(f"nothing can be sent: {why.strerror}") from why

    def fill(self):
        """Reads bytes that have come, or waits for some."""
        try:
            data = self.stream.recv(1 << 16)
        except OSError as why:
            raise Ended(f"nothing can be read: {why.strerror}") from why
        if not data:
            raise Ended("the stream ended")
        self.buffer += data

    def is_ready(self, seconds):
        """Whether bytes have come, waiting so many seconds for some; None waits for ever."""
        return bool(select.select([self.stream], [], [], seconds)[0])

    # Messages

    def send(self, text, opcode=TEXT):
        """Sends a message in one frame."""
        self.put(frame(opcode, text.encode() if isinstance(text, str) else text))

    def receive(self, seconds=None):
        """The next message as a text, or None where none has come in so many seconds; None waits for ever."""
        until = None if seconds is None else time.monotonic() + seconds
        while True:
            message = self.message()
            if message is not None:
                return message
            left = None if until is None else until - time.monotonic()
            if left is not None and left < 0 or not self.is_ready(left):
                return None
            self.fill()

    def message(self):
        """The next message that has come as a whole, if there is one."""
        while True:
            found = self.take()
            if found is None:
                return None
            final, opcode, payload = found
            if opcode >= CLOSE:
                self.control(final, opcode, payload)
                continue
            if (opcode == MORE) == (self.kind is None):
                raise Lost("the server sent a fragment out of place")
            self.kind = opcode if opcode != MORE else self.kind
            self.parts += payload
            if len(self.parts) > MOST:
                raise Lost("the server's message is too long")
            if final:
                whole, self.parts, self.kind = self.parts, b"", None
                return self.text_of(whole)

    def text_of(self, data):
        try:
            return data.decode()
        except UnicodeDecodeError as why:
            raise Lost("the server's text is no UTF-8") from why

    def control(self, final, opcode, payload):
        """Does what a control frame asks for."""
        if not final or len(payload) > 125 or opcode > PONG:
            raise Lost("the server sent a control frame that is none")
        if opcode == PING:
            self.put(frame(PONG, payload))
        elif opcode == PONG:
            self.pongs.append(payload)
        elif opcode == CLOSE:
            self.closed(payload)

    def closed(self, payload):
        """Answers the server's close frame, and tells its code."""
        code = int.from_bytes(payload[:2], "big") if len(payload) > 1 else 1005
        if not self.over:
            self.over = True
            try:
                self.put(frame(CLOSE, payload[:2]))
            except Lost:
                pass
        raise Closed(code, self.text_of(payload[2:]))

    def take(self):
        """The first frame that has come as a whole: whether it is the last of its message, its opcode and its payload."""
        have = self.buffer
        if len(have) < 2:
            return None
        opcode, size, at = have[0] & 15, have[1] & 127, 2
        if have[0] & 0x70 or have[1] & 128 or opcode in (3, 4, 5, 6, 7):
            raise Lost("the server sent a frame that is none")
        if size > 125:
            at = 4 if size == 126 else 10
            if len(have) < at:
                return None
            size = int.from_bytes(have[2:at], "big")
        if size > MOST:
            raise Lost("the server's frame is too long")
        if len(have) < at + size:
            return None
        payload = bytes(have[at:at + size])
        final = bool(have[0] & 128)
        del have[:at + size]
        return final, opcode, payload

    def rest(self, seconds=LAST):
        """What still comes until the stream ends: the messages, and the code of the server's close frame or None."""
        found, code, until = [], None, time.monotonic() + seconds
        while True:
            try:
                text = self.receive(max(0, until - time.monotonic()))
            except Closed as why:
                code = why.code
                continue
            except Ended:
                return found, code
            if text is None:
                raise Lost("the server does not end the stream")
            found.append(text)

    def close(self, code=1000):
        """Closes the connection as a client does, and waits a while for the end of the stream."""
        try:
            if not self.over:
                self.over = True
                self.put(frame(CLOSE, code.to_bytes(2, "big")))
            self.rest()
        except Lost:
            pass
        self.stream.close()
