"""A line: its address, and its settings, which are read from options and from a lines file."""
import codecs
import ipaddress
import re
import zoneinfo
from typing import Any, Callable, Dict, Iterable, List, NamedTuple, Sequence, Tuple, TypeVar, Union

from lislink.letters import LATIN
from lislink.link import FRAME_TEXT, LONG_FRAME_TEXT
from . import asks, renamed
from .asks import Asks
from .changes import CHANGES

Network = Union[ipaddress.IPv4Network, ipaddress.IPv6Network]
_MODES = re.compile(r"[5-8][NEO][12]$")
#: When orders are sent: in reply to a host query, or also by download. How an analyzer learns that there is no order:
#: the message ends with I, its query comes back with X, or nothing comes.
ORDERS, NOTHINGS = ("query", "download"), ("L-I", "Q-X", "silence")
#: Which field of an order, or of its patient, is the sample, or that there is none; what becomes of a message with
#: letters that aren't of the line's encoding, and of one that has a test twice in an order with different contents.
_SAMPLE = re.compile(r"(?:O\.[34]|P\.[345])(?:\.[1-9]\d?)?$|none$")
LETTERS, TWICE = ("quarantine", "mark"), ("quarantine", "deliver")
#: The links of a line: the standard's, and records between STX and ETX with no number and no checksum.
LINKS = ("lis01", "plain")
#: Where ENQ goes out again after NAK or ENQ in reply to the host's own: on the same connection, or on a new one.
WAITS = ("same-line", "new-line")
#: What is fixed on each line, whatever it names; the names of the other fixes, and one that means the same as another.
ALWAYS = frozenset(("long",))
NAMES, SAME = tuple(name for name in CHANGES if name not in ALWAYS), {"escape": "bytes"}
#: The flow controls of a serial line.
FLOWS = ("none", "rtscts", "xonxoff")


class OptionError(Exception):
    """An option or a setting is wrong."""


class Listen(NamedTuple):
    """A TCP port on which the host listens, and the networks that may connect only to it."""

    host: str
    port: int
    name: str
    frame: int = FRAME_TEXT
    encoding: str = LATIN
    orders: str = ""
    none: str = NOTHINGS[0]
    allow: Tuple[Network, ...] = ()
    fix: Tuple[str, ...] = ()
    link: str = ""
    careful: str = ""
    telnet: str = ""
    waits: str = ""
    codes: str = ""
    sample: str = ""
    test: str = ""
    zone: str = ""
    letters: str = ""
    twice: str = ""
    asks: Asks = Asks()


class Connect(NamedTuple):
    """A TCP port of an analyzer or a terminal server that listens: the host connects to it."""

    host: str
    port: int
    name: str
    frame: int = FRAME_TEXT
    encoding: str = LATIN
    orders: str = ""
    none: str = NOTHINGS[0]
    fix: Tuple[str, ...] = ()
    link: str = ""
    careful: str = ""
    telnet: str = ""
    waits: str = ""
    codes: str = ""
    sample: str = ""
    test: str = ""
    zone: str = ""
    letters: str = ""
    twice: str = ""
    asks: Asks = Asks()


class Serial(NamedTuple):
    """A serial line: its device, speed, data bits with parity and stop bits, and flow control."""

    device: str
    speed: int
    name: str
    mode: str = "8N1"
    flow: str = FLOWS[0]
    frame: int = FRAME_TEXT
    encoding: str = LATIN
    orders: str = ""
    none: str = NOTHINGS[0]
    fix: Tuple[str, ...] = ()
    link: str = ""
    careful: str = ""
    codes: str = ""
    sample: str = ""
    test: str = ""
    zone: str = ""
    letters: str = ""
    twice: str = ""
    asks: Asks = Asks()


Place = Union[Listen, Connect, Serial]
AnyPlace = TypeVar("AnyPlace", Listen, Connect, Serial)


class Limits(NamedTuple):
    """The limits of a host. Times are in seconds."""

    lines: int = 256
    message: int = 16 << 20
    idle: float = 86400.0
    reply: float = 10.0
    grace: float = 10.0
    scale: float = 1.0
    address: int = 8


def _split(word: str, known: Sequence[str]) -> Tuple[str, Dict[str, str]]:
    where, *rest = word.split(",")
    given: Dict[str, str] = {}
    for one in rest:
        name, equals, value = one.partition("=")
        name = renamed.key_of(name) if equals else name
        if not equals and value == "" and list(given)[-1:] == ["fix"]:  # another name of it
            given["fix"] += "," + one
            continue
        if not equals or name not in known or not value or name in given:
            raise OptionError(f"{word}: options are {', '.join(f'{name}=' for name in known)}, not {one}")
        given[name] = value
    return where, given


def _frame(word: str) -> int:
    limits = {str(one): one for one in (FRAME_TEXT, LONG_FRAME_TEXT)}
    if word not in limits:
        raise OptionError(f"a frame has at most {' or '.join(limits)} bytes of text, not {word}")
    return limits[word]


def _encoding(word: str) -> str:
    try:
        return codecs.lookup(word).name
    except (LookupError, ValueError):
        raise OptionError(f"there is no encoding {word}: name one, for example latin-1, utf-8 or gbk") from None


def _orders(word: str) -> str:
    if word not in ORDERS:
        raise OptionError(f"orders is {' or '.join(ORDERS)}, not {word}")
    return word


def _none(word: str) -> str:
    if word not in NOTHINGS:
        raise OptionError(f"none is {', '.join(NOTHINGS)}, not {word}")
    return word


def _mode(word: str) -> str:
    if not _MODES.match(word):
        raise OptionError(f"{word}: a mode is data bits, parity and stop bits, for example 8N1 or 7E1")
    return word


def _flow(word: str) -> str:
    if word not in FLOWS:
        raise OptionError(f"{word}: flow control is {', '.join(FLOWS[:-1])} or {FLOWS[-1]}")
    return word


def _allow(words: str) -> Tuple[Network, ...]:
    return tuple(networks_of(words.replace(",", " ").split(), "allow"))


def _fix(words: str) -> Tuple[str, ...]:
    """Names of fixes, each once, in the order in which they are made. What is always done may be named too."""
    given = [SAME.get(one, one) for one in words.replace(",", " ").replace("+", " ").split()]
    for one in given:
        if one not in NAMES and one not in ALWAYS:
            raise OptionError(f"fix is one or more of {', '.join(NAMES)}, not {one}")
    return tuple(one for one in NAMES if one in given)


def _link(word: str) -> str:
    if word not in LINKS:
        raise OptionError(f"a link is {' or '.join(LINKS)}, not {word}")
    return "" if word == LINKS[0] else word


def _waits(word: str) -> str:
    if word not in WAITS:
        raise OptionError(f"ENQ goes out again on the {' or '.join(WAITS)}, not {word}")
    return "" if word == WAITS[0] else word


def _telnet(word: str) -> str:
    if word not in ("yes", "no"):
        raise OptionError(f"telnet is yes or no, not {word}")
    return "" if word == "no" else word


def _careful(word: str) -> str:
    if word not in ("yes", "no"):
        raise OptionError(f"careful is yes or no, not {word}")
    return "" if word == "yes" else word


def _sample(word: str) -> str:
    if not _SAMPLE.match(word):
        raise OptionError(f"{word}: the sample is O.3, O.4, a component such as O.4.3, or none")
    return word


def _test(word: str) -> str:
    if not re.match(r"[1-9]\d?(?:\^[1-9]\d?)*$", word):
        raise OptionError(f"{word}: the test is a component of R-3, for example 4, or several, for example 4^7")
    return word


def _zone(word: str) -> str:
    try:
        return zoneinfo.ZoneInfo(word).key
    except (zoneinfo.ZoneInfoNotFoundError, ValueError, OSError):
        raise OptionError(f"there is no time zone {word}: name one, for example Europe/Berlin") from None


def _one_of(words: Sequence[str]) -> Callable[[str], str]:
    def read(word: str) -> str:
        if word not in words:
            raise OptionError(f"expected {' or '.join(words)}, not {word}")
        return word

    return read


#: What reads each setting of a line; those that its words may have, on TCP and on a serial line.
READS: Dict[str, Callable[[str], Any]] = {
    "mode": _mode,
    "flow": _flow,
    "frame": _frame,
    "encoding": _encoding,
    "allow": _allow,
    "orders": _orders,
    "none": _none,
    "fix": _fix,
    "link": _link,
    "careful": _careful,
    "telnet": _telnet,
    "waits": _waits,
    "codes": str,
    "sample": _sample,
    "test": _test,
    "zone": _zone,
    "letters": _one_of(LETTERS),
    "twice": _one_of(TWICE),
}
#: The settings that only a file of lines has: what a line's records mean, and how its queries are read.
OF_FILES = ("codes", "sample", "test", "zone", "letters", "twice", *asks.READS)
_WORDS = ("frame", "encoding", "orders", "none", "fix", "link", "careful")
TCP_WORDS, SERIAL_WORDS = (*_WORDS, "telnet", "waits"), ("mode", "flow", *_WORDS)


def read_setting(key: str, word: str) -> Any:
    """The value of a setting of a line."""
    word = renamed.value_of(key, word)
    if key not in asks.READS:
        return READS[key](word)
    try:
        return asks.READS[key][1](word)
    except ValueError as error:
        raise OptionError(str(error)) from None


def gathered(values: Dict[str, Any]) -> Dict[str, Any]:
    """The settings of a line; those of its queries become one value, `asks`."""
    of_queries = {asks.READS[key][0]: one for key, one in values.items() if key in asks.READS}
    others = {key: one for key, one in values.items() if key not in asks.READS}
    return {**others, "asks": Asks(**of_queries)}


def _read(given: Dict[str, str]) -> Dict[str, Any]:
    return gathered({key: read_setting(key, word) for key, word in given.items()})


def _fitting(place: AnyPlace) -> AnyPlace:
    check_settings(place)
    return place


def check_settings(place: Place) -> None:
    """OptionError if settings contradict each other."""
    if place.link and place.orders:
        raise OptionError(f"a line with link={place.link} sends no orders: its sessions have no station")
    if getattr(place, "waits", "") and not place.orders:
        raise OptionError("waits: a line on which the host asks has orders = query or download")
    if place.asks != Asks() and not place.orders:
        keys = ", ".join(asks.told(place.asks))
        raise OptionError(f"{keys}: a line that answers queries has orders = query or download")
    if place.asks.command and place.orders == ORDERS[1]:
        raise OptionError("a line with orders = download sends orders of the store: query-command only answers queries")


def no_line(name: str, names: Iterable[str]) -> str:
    """That there is no line of a name, and which ones there are."""
    found = ", ".join(sorted(names))
    return f"there is no line {name}" + (f", but {found}" if found else "")


def split_address(word: str) -> Tuple[str, int]:
    """The host and the port of `HOST:PORT`, `[IPV6]:PORT` or `PORT`, which is one of this machine."""
    found = re.match(r"(?:(?:\[([^\]]+)\]|([^:]*)):)?(\d{1,5})$", word)
    if not found or int(found[3]) > 65535:
        raise OptionError(f"{word}: expected HOST:PORT")
    return found[1] or found[2] or "127.0.0.1", int(found[3])


def split_peer(word: str) -> Tuple[str, int]:
    """The host and the port of an address that is connected to."""
    host, port = split_address(word)
    if not port:
        raise OptionError(f"{word}: expected a port from 1 to 65535")
    return host, port


def split_device(word: str) -> Tuple[str, int]:
    """The device and the speed of `DEVICE:SPEED`."""
    device, _, speed = word.rpartition(":")
    if not device or not re.match(r"[0-9]+$", speed):
        raise OptionError(f"{word}: expected DEVICE:SPEED, for example /dev/ttyUSB0:9600")
    return device, int(speed)


def listen_of(word: str) -> Listen:
    """`HOST:PORT[,name=..]`, and the settings of TCP_WORDS."""
    where, given = _split(word, ("name", *TCP_WORDS))
    host, port = split_address(where)
    return _fitting(Listen(host, port, given.pop("name", f"{host}:{port}"), **_read(given)))


def connect_of(word: str) -> Connect:
    """`HOST:PORT[,name=..]`, and the settings of TCP_WORDS."""
    where, given = _split(word, ("name", *TCP_WORDS))
    host, port = split_peer(where)
    return _fitting(Connect(host, port, given.pop("name", f"{host}:{port}"), **_read(given)))


def serial_of(word: str) -> Serial:
    """`DEVICE:SPEED[,name=..]`, and the settings of SERIAL_WORDS."""
    where, given = _split(word, ("name", *SERIAL_WORDS))
    device, speed = split_device(where)
    return _fitting(Serial(device, speed, given.pop("name", device), **_read(given)))


def networks_of(words: Sequence[str], setting: str = "--allow") -> List[Network]:
    """The networks of `--allow`, or of another setting."""
    try:
        return [ipaddress.ip_network(word, strict=False) for word in words]
    except ValueError as error:
        raise OptionError(f"{setting}: {error}; expected a network, for example 10.0.5.0/24") from None


#: All networks.
ANY = networks_of(("0.0.0.0/0", "::/0"))


def check_allowed(listens: Sequence[Listen], networks: Sequence[Network]) -> None:
    """OptionError if a line listens to other machines and no network is named that may connect."""
    for one in listens:
        if not is_loopback(one.host) and not networks and not one.allow:
            raise OptionError(f"{one.host}:{one.port} isn't loopback: name the networks that may connect by --allow")


def is_loopback(host: str) -> bool:
    """Whether an address is this machine's own."""
    try:
        return ipaddress.ip_address(host).is_loopback
    except ValueError:
        return host == "localhost"


def plain_address(address: str) -> str:
    """An address as the host counts it: `::ffff:192.0.2.7` counts as the IPv4 address that it holds."""
    try:
        mapped = getattr(ipaddress.ip_address(address.split("%")[0]), "ipv4_mapped", None)
    except ValueError:
        return address
    return address if mapped is None else str(mapped)


def is_allowed(address: str, networks: Sequence[Network]) -> bool:
    """Whether an address may connect: this machine's own, or one of the networks."""
    try:
        one = ipaddress.ip_address(plain_address(address).split("%")[0])
    except ValueError:
        return False
    return one.is_loopback or any(one.version == network.version and one in network for network in networks)
