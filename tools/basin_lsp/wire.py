"""Messages of JSON-RPC over a pair of streams: a header with the length, then that many bytes of JSON."""

import json
import queue
import threading

PARSE_ERROR, INVALID_REQUEST, METHOD_NOT_FOUND, INVALID_PARAMS, INTERNAL_ERROR = -32700, -32600, -32601, -32602, -32603
NOT_INITIALIZED, REQUEST_FAILED, CANCELLED = -32002, -32803, -32800
LONGEST = 64 * 1024 * 1024  # a message, in bytes


class Failed(Exception):
    """A request can't be answered: the protocol's number for it, and why."""

    def __init__(self, code, says):
        super().__init__(says)
        self.code, self.says = code, says


class Wire:
    """Reads messages in a thread of its own, so that a request can be cancelled while it waits or is worked on."""

    def __init__(self, reading, writing):
        self.reading, self.writing = reading, writing
        self.waiting = queue.Queue()
        self.cancelled = set()
        self.lock = threading.Lock()

    def start(self):
        """Begins to read."""
        threading.Thread(target=self.read_all, daemon=True).start()

    def read_all(self):
        """Reads up to the end of the stream, which is told by `None`."""
        while True:
            try:
                content = self.read_one()
            except (OSError, ValueError):
                content = None
            if content is None:
                self.waiting.put(None)
                return
            try:
                message = json.loads(content)
            except (ValueError, RecursionError):
                self.answer(None, error={"code": PARSE_ERROR, "message": "this is no JSON"})
                continue
            for one in message if isinstance(message, list) else [message]:
                self.take(one)

    def take(self, message):
        """Takes a message in: a cancellation at once, all else in its turn."""
        if not isinstance(message, dict):
            self.answer(None, error={"code": INVALID_REQUEST, "message": "a message is an object"})
        elif message.get("method") == "$/cancelRequest":
            named = message.get("params")
            name = named.get("id") if isinstance(named, dict) else None
            if isinstance(name, (int, str)):
                self.cancelled.add(name)
        else:
            self.waiting.put(message)

    def read_one(self):
        """The bytes of a message, or `None` at the end."""
        length = None
        while True:
            line = self.reading.readline(10_000)
            if not line:
                return None
            line = line.strip()
            if not line and length is not None:
                break
            name, _, value = line.partition(b":")
            if name.strip().lower() == b"content-length" and value.strip().isdigit():
                length = int(value)
        if length > LONGEST:
            return None
        content = self.reading.read(length)
        return content if len(content) == length else None

    def send(self, message):
        """Writes a message."""
        content = json.dumps({"jsonrpc": "2.0", **message}, separators=(",", ":")).encode()
        with self.lock:
            try:
                self.writing.write(b"Content-Length: %d\r\n\r\n" % len(content) + content)
                self.writing.flush()
            except (OSError, ValueError):  # nobody reads any more: the end of the input comes next
                pass

    def answer(self, name, result=None, error=None):
        """Answers a request."""
        self.send({"id": name, "error": error} if error else {"id": name, "result": result})

    def tell(self, method, params):
        """Tells without being asked."""
        self.send({"method": method, "params": params})
