"""A client of mf2d, a formatting server for Unicode MessageFormat 2.0, without dependencies.

    >>> with Client() as client:
    ...     client.publish("en", {"hi": "Hello {$name}!"})
    ...     client.format("en", "hi", {"name": "Ann"}).text
    1
    'Hello \\u2068Ann\\u2069!'

`Client` starts `mf2d pipe` and asks it line by line. To have many requests under way at once, ask
`client.pipeline`, whose calls give a future each, in place of a value:

    >>> with Client() as client:
    ...     edition = client.publish("en", {"n": "Number {$n}."})
    ...     futures = [client.pipeline.format("en", "n", {"n": n}) for n in range(10_000)]
    ...     futures[9_999].result().text
    'Number 9,999.'

With an address `Client` connects to `mf2d serve` instead, and shares its log with the other
connections: `Client(address=("127.0.0.1", 7777))`.

Where mf2d refuses a request, its call raises a subclass of `Refused`:

    >>> with Client() as client:
    ...     client.format("en", "hi")
    Traceback (most recent call last):
    mf2d.NoMessage: {"edition":0,"error":"no-message"}

What is wrong with a message is no exception: a sentence is always there, with its errors beside it.

    >>> with Client() as client:
    ...     edition = client.publish("en", {"hi": "Hello {$name}!"})
    ...     client.format("en", "hi").errors
    [MessageError(kind='unresolved-variable', of='$name')]
"""
from __future__ import annotations

import json
import os
import socket
import subprocess
import threading
from collections import deque
from concurrent.futures import Future
from dataclasses import dataclass, field
from decimal import Decimal
from typing import Callable, Dict, List, Mapping, Optional, Tuple, Union

# The most bytes that a line may have, without its line feed.
LONGEST_LINE = 1_048_576

# The program: what MF2D names, else the script of the repository in which this file stands.
PROGRAM = os.path.join(os.path.dirname(os.path.abspath(__file__)), "..", "..", "mf2d")

Argument = Union[str, int, Decimal]
Arguments = Optional[Mapping[str, Argument]]


@dataclass(frozen=True)
class Text:
    """Text of the message."""
    value: str


@dataclass(frozen=True)
class Isolate:
    """A mark that begins or ends the isolation of a part: one character."""
    value: str


@dataclass(frozen=True)
class String:
    """A value that is a string, as it is shown, and its `u:id` where it has one."""
    value: str
    id: Optional[str] = None


@dataclass(frozen=True)
class Number:
    """A value that is a number, as it is shown, and its `u:id` where it has one."""
    value: str
    id: Optional[str] = None


@dataclass(frozen=True)
class Markup:
    """Markup, which has no text. `form` is "open", "standalone" or "close"."""
    form: str
    name: str
    options: Dict[str, str] = field(default_factory=dict)
    id: Optional[str] = None


@dataclass(frozen=True)
class Fallback:
    """An expression without a value, by its source, which is shown in braces."""
    source: str


Part = Union[Text, Isolate, String, Number, Markup, Fallback]

# The parts by their kinds.
PARTS = {
    "text": Text, "isolate": Isolate, "string": String,
    "number": Number, "markup": Markup, "fallback": Fallback,
}


@dataclass(frozen=True)
class MessageError:
    """What is wrong with a message: a class such as "bad-operand", and what it is about."""
    kind: str
    of: str


@dataclass(frozen=True)
class Formatted:
    """A sentence: its text, which is the text of its parts joined, and its errors in their order.

    `locale` is the tag under which the message was found, and `edition` the edition that answered.
    """
    text: str
    parts: List[Part]
    errors: List[MessageError]
    locale: str
    edition: int


@dataclass(frozen=True)
class Linted:
    """The canonical source of a message; or None, and the errors that make its source invalid."""
    source: Optional[str]
    errors: List[MessageError]


@dataclass(frozen=True)
class Stat:
    """The newest edition, and how many compilations of its messages were begun and given up."""
    edition: int
    starts: int
    quits: int


class Mf2dError(Exception):
    """What every exception of this file is."""


class Ended(Mf2dError):
    """The program or the connection ended before it answered. `status` is the program's exit
    status, 0 where it was closed; None of a connection.
    """

    def __init__(self, status: Optional[int]):
        super().__init__(
            "the connection to mf2d has ended"
            if status is None
            else f"mf2d ended with status {status}"
        )
        self.status = status


class Refused(Mf2dError):
    """The program refused the request, which has changed nothing. `reply` is its reply, as JSON."""

    def __init__(self, reply: dict):
        super().__init__(compact(reply))
        self.reply = reply


class BadRequest(Refused):
    """A field is of another kind or out of range; `reply["field"]` names the first."""


class BadLocale(Refused):
    """A record has a bad field, `reply["field"]`, of which rule `reply["rule"]` may be bad."""


class BadHandler(Refused):
    """A handler may not be published; `reply["reason"]` says why."""


class EditionsFull(Refused):
    """The log has as many publications as it can have, `reply["entries"]`."""


class StoreFull(Refused):
    """There is no room for `reply["size"]` more bytes, where `reply["used"]` are used."""


class NotYet(Refused):
    """The newest edition, `reply["edition"]`, is below the one asked for, `reply["since"]`."""


class NoMessage(Refused):
    """No tag of the chain has the message in the edition `reply["edition"]`."""


class TooLong(Refused):
    """The text of the sentence would have more than 16,777,216 bytes."""


class OutOfMemory(Refused):
    """There was no memory for the line."""


# The refusals by the word of `error`, such as "bad-request".
REFUSALS = {
    "bad-request": BadRequest, "bad-locale": BadLocale, "bad-handler": BadHandler,
    "editions-full": EditionsFull, "store-full": StoreFull, "out-of-memory": OutOfMemory,
    "not-yet": NotYet, "no-message": NoMessage, "too-long": TooLong,
}


class Pipeline:
    """The calls of `Client`, each of which writes its line and gives a future at once.

    The future's `result()` waits for the reply, and gives or raises what the call of `Client` does.
    What keeps a line from being written, ValueError or TypeError, is raised by the call itself.
    Several threads may call; replies come in the order of the calls. What a future calls back runs
    in the thread that takes the replies, and must not wait for one.
    """

    def __init__(self, connection: Connection):
        self._connection = connection

    def publish(self, locale: str, messages: Mapping[str, str]) -> Future[int]:
        """See `Client.publish`."""
        request = {"op": "publish", "locale": locale, "messages": dict(messages)}
        return self._connection.ask(request, edition_of)

    def locale(self, tag: str, record: Mapping[str, object]) -> Future[int]:
        """See `Client.locale`."""
        request = {"op": "locale", "tag": tag, "record": dict(record)}
        return self._connection.ask(request, edition_of)

    def handler(self, name: str, definition: Mapping[str, object]) -> Future[int]:
        """See `Client.handler`."""
        request = {"op": "handler", "name": name, "def": dict(definition)}
        return self._connection.ask(request, edition_of)

    def format(
        self, locale: str, id: str, args: Arguments = None, since: Optional[int] = None
    ) -> Future[Formatted]:
        """See `Client.format`."""
        request: dict = {"op": "format", "locale": locale, "id": id}
        if args is not None:
            request["args"] = {name: argument(value) for name, value in args.items()}
        if since is not None:
            request["since"] = since
        return self._connection.ask(request, formatted_of)

    def lint(self, source: str) -> Future[Linted]:
        """See `Client.lint`."""
        return self._connection.ask({"op": "lint", "source": source}, linted_of)

    def stat(self) -> Future[Stat]:
        """See `Client.stat`."""
        return self._connection.ask({"op": "stat"}, stat_of)


class Client:
    """A running `mf2d pipe`, or a connection to `mf2d serve`, asked line by line. A context manager,
    which closes it at its end.

    Beside what it names, each call may raise:

    - ValueError where a text has a lone surrogate, or the request has more than 1,048,576 bytes;
    - TypeError where a value can't be written as JSON;
    - BadRequest where a field is of another kind or out of range;
    - OutOfMemory where the program had no memory for the line;
    - Ended where the program or the connection has ended, or the client was closed.

    After an exception but Ended the client goes on, and the call has changed nothing.
    """

    def __init__(
        self, program: Optional[str] = None, address: Optional[Tuple[str, int]] = None
    ):
        """Connects to `mf2d serve` at an address, which is a host and a port; without one it starts
        `program pipe`, without a program that of MF2D, else ./mf2d of this repository.

        Raises OSError where it can't be started or connected to.
        """
        self._connection = Connection(
            Socket(address)
            if address is not None
            else Program([program or os.environ.get("MF2D") or PROGRAM, "pipe"])
        )
        self.pipeline = Pipeline(self._connection)

    def __enter__(self) -> Client:
        return self

    def __exit__(self, *_: object) -> None:
        self.close()

    def close(self) -> None:
        """Tells the program that no request follows, and waits until it has answered all and ended.

        Futures that are still waited for get their replies. A second call does nothing.

        >>> client = Client()
        >>> future = client.pipeline.stat()
        >>> client.close()
        >>> future.result()
        Stat(edition=0, starts=0, quits=0)
        >>> client.stat()
        Traceback (most recent call last):
        mf2d.Ended: mf2d ended with status 0
        """
        self._connection.close()

    def publish(self, locale: str, messages: Mapping[str, str]) -> int:
        """Publishes messages, sources by their ids, for a locale, and gives the edition made.

        Raises EditionsFull or StoreFull where there is no room for them.

        >>> with Client() as client:
        ...     client.publish("pl", {"hi": "Witaj, {$name}!", "bye": "Pa!"})
        ...     client.publish("Polish language", {"hi": "Witaj!"})
        Traceback (most recent call last):
        mf2d.BadRequest: {"error":"bad-request","field":"locale"}
        """
        return self.pipeline.publish(locale, messages).result()

    def locale(self, tag: str, record: Mapping[str, object]) -> int:
        """Publishes the record of a locale, and gives the edition made.

        A line of `tools/locales` has both: `tag` and `record`. Raises BadLocale where the record is
        bad, EditionsFull or StoreFull where there is no room.

        >>> record = {"version": 1, "dir": "ltr", "decimal": ",", "group": ".", "minus": "-"}
        >>> record.update(plus="+", primary=3, secondary=3, minGroup=1, ordinal="")
        >>> with Client() as client:
        ...     client.locale("de", {**record, "plural": "one: i = 1 and v = 0"})
        ...     client.locale("de", {**record, "plural": "one: i is 1"})
        Traceback (most recent call last):
        mf2d.BadLocale: {"error":"bad-locale","field":"plural","rule":1}
        """
        return self.pipeline.locale(tag, record).result()

    def handler(self, name: str, definition: Mapping[str, object]) -> int:
        """Publishes a function under a name with a namespace, and gives the edition made.

        Raises BadHandler where it may not be published, EditionsFull or StoreFull where there is no
        room.

        >>> with Client() as client:
        ...     client.handler("acme:day", {"kind": "table", "entries": {"1": "Monday"}})
        ...     client.handler("day", {"kind": "table", "entries": {"1": "Monday"}})
        Traceback (most recent call last):
        mf2d.BadHandler: {"error":"bad-handler","reason":"reserved-name"}
        """
        return self.pipeline.handler(name, definition).result()

    def format(
        self, locale: str, id: str, args: Arguments = None, since: Optional[int] = None
    ) -> Formatted:
        """Formats a message of the newest edition, and gives the sentence with its errors.

        An argument is a text, a whole number from -2^63 to 2^64 - 1, or a Decimal, which goes as
        its plain text and is a number for the functions of numbers.

        Raises NotYet where the newest edition is below `since`, NoMessage where neither the tag
        nor one of its chain has the message, TooLong where the text would be too long; ValueError
        where a Decimal isn't finite, and TypeError where an argument is of another type.

        >>> with Client() as client:
        ...     _ = client.publish("en", {"sum": "{#b}{$sum :number u:id=sum}{/b} from {$who}"})
        ...     sentence = client.format("en-gb", "sum", {"sum": Decimal("1234.50"), "who": "Ann"})
        >>> sentence.text
        '1,234.5 from \\u2068Ann\\u2069'
        >>> sentence.locale, sentence.edition, sentence.errors
        ('en', 1, [])
        >>> for part in sentence.parts:
        ...     part
        Markup(form='open', name='b', options={}, id=None)
        Number(value='1,234.5', id='sum')
        Markup(form='close', name='b', options={}, id=None)
        Text(value=' from ')
        Isolate(value='\\u2068')
        String(value='Ann', id=None)
        Isolate(value='\\u2069')
        """
        return self.pipeline.format(locale, id, args, since).result()

    def lint(self, source: str) -> Linted:
        """Says what is wrong with a source, or gives its canonical form.

        >>> with Client() as client:
        ...     client.lint("Hello { $name }!")
        ...     client.lint("Hello {$name")
        Linted(source='Hello {$name}!', errors=[])
        Linted(source=None, errors=[MessageError(kind='syntax-error', of='')])
        """
        return self.pipeline.lint(source).result()

    def stat(self) -> Stat:
        """Gives the newest edition and the counts of its compilations."""
        return self.pipeline.stat().result()


class Program:
    """A program's pipes."""

    def __init__(self, command: List[str]):
        self._program = subprocess.Popen(command, stdin=subprocess.PIPE, stdout=subprocess.PIPE)
        self.replies = self._program.stdout

    def write(self, line: bytes) -> None:
        self._program.stdin.write(line)
        self._program.stdin.flush()

    def end_requests(self) -> None:
        self._program.stdin.close()

    def wait(self) -> Optional[int]:
        """The status that the program ends with."""
        self.replies.close()
        return self._program.wait()


class Socket:
    """A connection to a server."""

    def __init__(self, address: Tuple[str, int]):
        self._socket = socket.create_connection(address)
        self._socket.setsockopt(socket.IPPROTO_TCP, socket.TCP_NODELAY, 1)
        self.replies = self._socket.makefile("rb")

    def write(self, line: bytes) -> None:
        self._socket.sendall(line)

    def end_requests(self) -> None:
        self._socket.shutdown(socket.SHUT_WR)

    def wait(self) -> Optional[int]:
        """None, since a connection tells no status."""
        self.replies.close()
        self._socket.close()
        return None


class Connection:
    """A peer that answers each line by one line, in order.

    A thread of its own takes the replies as they come and holds no lock meanwhile, so that the
    peer can always write, and so goes on reading: however many lines are written before the
    first reply is looked at, no one waits for ever.
    """

    def __init__(self, peer: Union[Program, Socket]):
        self._peer = peer
        self._lock = threading.Lock()
        self._waiting: deque = deque()
        self._is_over = False
        self._status: Optional[int] = None
        self._taker = threading.Thread(target=self._take_replies, daemon=True)
        self._taker.start()

    def ask(self, request: dict, read: Callable[[dict], object]) -> Future:
        """Writes a request; the future is what `read` makes of its reply."""
        line = line_of(request)
        future: Future = Future()
        future.set_running_or_notify_cancel()
        with self._lock:
            if self._is_over:
                future.set_exception(Ended(self._status))
                return future
            self._waiting.append((future, read))
            try:
                self._peer.write(line)
            except (OSError, ValueError):
                # The peer has ended, or was closed: the other thread tells so to all who wait.
                pass
        return future

    def close(self) -> None:
        """Ends the requests, and waits for the peer's end."""
        with self._lock:
            try:
                self._peer.end_requests()
            except OSError:
                pass
        self._taker.join()

    def _take_replies(self) -> None:
        """Hands each reply to the future that is first in the queue, up to the peer's end."""
        try:
            for line in self._peer.replies:
                future, read = self._waiting.popleft()
                try:
                    future.set_result(read_line(line, read))
                except Exception as error:
                    future.set_exception(error)
        finally:
            self._tell_the_end()

    def _tell_the_end(self) -> None:
        """Tells all who wait that the peer has ended."""
        status = self._peer.wait()
        with self._lock:
            self._is_over, self._status = True, status
        # No call adds to those who wait any more. They are told without the lock, since what a
        # caller does then may call again.
        for future, _ in self._waiting:
            future.set_exception(Ended(status))


def line_of(request: dict) -> bytes:
    """The line of a request, with its line feed. Raises ValueError or TypeError without one."""
    line = compact(request).encode()
    if len(line) > LONGEST_LINE:
        raise ValueError(f"a line has at most {LONGEST_LINE:,} bytes, and this one {len(line):,}")
    return line + b"\n"


def compact(value: object) -> str:
    """A value as JSON, without spaces."""
    return json.dumps(value, ensure_ascii=False, allow_nan=False, separators=(",", ":"))


def argument(value: Argument) -> Union[str, int]:
    """An argument as a line has it."""
    if isinstance(value, Decimal):
        if not value.is_finite():
            raise ValueError(f"an argument is a finite number, and not {value}")
        return format(value, "f")
    if isinstance(value, bool) or not isinstance(value, (str, int)):
        raise TypeError(f"an argument is a str, an int or a Decimal, and no {type(value).__name__}")
    return value


def read_line(line: bytes, read: Callable[[dict], object]) -> object:
    """What `read` makes of a line's reply. Raises the exception of a reply that refuses."""
    reply = json.loads(line)
    if "error" in reply:
        raise REFUSALS.get(reply["error"], Refused)(reply)
    return read(reply)


def edition_of(reply: dict) -> int:
    """The edition that a publication made."""
    return reply["edition"]


def formatted_of(reply: dict) -> Formatted:
    """The sentence of a reply."""
    parts = [part_of(part) for part in reply["parts"]]
    errors = errors_of(reply)
    return Formatted(reply["text"], parts, errors, reply["locale"], reply["edition"])


def part_of(part: dict) -> Part:
    """The part of an object, whose members but `kind` are the part's fields."""
    fields = {name: value for name, value in part.items() if name != "kind"}
    return PARTS[part["kind"]](**fields)


def errors_of(reply: dict) -> List[MessageError]:
    """The errors of a reply."""
    return [MessageError(error["kind"], error["of"]) for error in reply["errors"]]


def linted_of(reply: dict) -> Linted:
    """What a reply says of a source."""
    return Linted(reply.get("source"), errors_of(reply))


def stat_of(reply: dict) -> Stat:
    """The counts of a reply."""
    return Stat(reply["edition"], reply["starts"], reply["quits"])
