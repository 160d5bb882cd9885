"""Calls the functions of PC/SC that a driver needs, through libpcsclite.

Requires Linux, where a DWORD is an `unsigned long`, Debian's libpcsclite1, and a running pcscd."""
import ctypes
import time
from ctypes import byref, c_char, c_char_p, c_long, c_ubyte, c_ulong, c_void_p, sizeof

SYSTEM = 2
UNAWARE, PRESENT = 0x0000, 0x0020
EXCLUSIVE = 1
PROTOCOL_T0, PROTOCOL_T1 = 1, 2
UNPOWER = 2
TIMEOUT, SHARING_VIOLATION = 0x8010000A, 0x8010000B
# Errors of the card: it is absent, doesn't transact, has another protocol, or is unsupported,
# unresponsive, unpowered, reset or removed.
OF_CARD = 0x8010000C, 0x80100016, 0x8010000F, *range(0x80100065, 0x8010006A)
LONGEST_ATR = 33
LONGEST_ANSWER = 258
LOOK = 500  # milliseconds


class Failed(Exception):
    """A call failed. `is_of_card` is true if the card is the reason."""

    def __init__(self, text, status=0):
        super().__init__(text)
        self.status, self.is_of_card = status, status in OF_CARD


class _State(ctypes.Structure):
    _fields_ = [
        ("reader", c_char_p), ("user", c_void_p), ("current", c_ulong), ("event", c_ulong),
        ("atr_size", c_ulong), ("atr", c_ubyte * LONGEST_ATR),
    ]


class _Request(ctypes.Structure):
    _fields_ = [("protocol", c_ulong), ("size", c_ulong)]


def _library():
    try:
        library = ctypes.CDLL("libpcsclite.so.1")
    except OSError as wrong:
        raise Failed(f"{wrong}: install libpcsclite1") from wrong
    ulongs = ctypes.POINTER(c_ulong)
    types = {
        "SCardEstablishContext": (c_ulong, c_void_p, c_void_p, c_void_p),
        "SCardConnect": (c_long, c_char_p, c_ulong, c_ulong, c_void_p, ulongs),
        "SCardDisconnect": (c_long, c_ulong),
        "SCardStatus": (c_long, c_void_p, c_void_p, c_void_p, c_void_p, c_char_p, ulongs),
        "SCardTransmit": (c_long, c_void_p, c_char_p, c_ulong, c_void_p, c_char_p, ulongs),
        "SCardGetStatusChange": (c_long, c_ulong, c_void_p, c_ulong),
    }
    for name, arguments in types.items():
        getattr(library, name).argtypes = arguments
        getattr(library, name).restype = c_ulong
    library.pcsc_stringify_error.argtypes = [c_ulong]
    library.pcsc_stringify_error.restype = c_char_p
    return library


class Reader:
    """A reader, and the exclusive connection to the card in it."""

    def __init__(self, name):
        self.name, self.library, self.link, self.protocol = name.encode(), _library(), None, 0
        self.context = c_long()
        self._call("SCardEstablishContext", SYSTEM, None, None, byref(self.context))

    def _call(self, name, *arguments, passes=0):
        """Calls a function. Returns its status, which must be 0 or `passes`."""
        status = getattr(self.library, name)(*arguments) & 0xFFFFFFFF
        if status not in (0, passes):
            text = self.library.pcsc_stringify_error(status).decode()
            raise Failed(f"{name}: {text}", status)
        return status

    def is_present(self):
        return self._look(_State(reader=self.name, current=UNAWARE))

    def wait(self, present, seconds):
        """Waits until a card is present or absent, at most `seconds`. Returns whether this
        happened."""
        state = _State(reader=self.name, current=UNAWARE)
        left = seconds * 1000
        while (is_present := self._look(state)) != present and left > 0:
            left -= LOOK
        return is_present == present

    def _look(self, state):
        """Waits for a change for a short time. Returns whether a card is then present."""
        status = self._call(
            "SCardGetStatusChange", self.context, LOOK, byref(state), 1, passes=TIMEOUT
        )
        if status == 0:
            state.current = state.event
        return bool(state.current & PRESENT)

    def connect(self, seconds):
        """Powers the card, for this program only, and returns its ATR. If another program uses the
        card, such as a driver that was just killed, waits up to `seconds`."""
        end = time.monotonic() + seconds
        while True:
            try:
                return self._connect()
            except Failed as why:
                if why.status != SHARING_VIOLATION or time.monotonic() > end:
                    raise
                time.sleep(0.1)

    def _connect(self):
        link, protocol = c_long(), c_ulong()
        self._call(
            "SCardConnect", self.context, self.name, EXCLUSIVE, PROTOCOL_T0 | PROTOCOL_T1, byref(link),
            byref(protocol),
        )
        self.link, self.protocol = link, protocol.value
        size, atr = c_ulong(LONGEST_ATR), ctypes.create_string_buffer(LONGEST_ATR)
        self._call("SCardStatus", self.link, None, None, None, None, atr, byref(size))
        return atr.raw[: size.value]

    def transmit(self, command):
        """Sends a command once, unchanged, and returns the complete answer of the card."""
        request = _Request(self.protocol, sizeof(_Request))
        size, answer = c_ulong(LONGEST_ANSWER), ctypes.create_string_buffer(LONGEST_ANSWER)
        self._call(
            "SCardTransmit", self.link, byref(request), command, len(command), None, answer,
            byref(size),
        )
        return answer.raw[: size.value]

    def disconnect(self):
        """Powers the card off, if there is a connection. The connection may have ended already."""
        if self.link is not None:
            self.library.SCardDisconnect(self.link, UNPOWER)
            self.link = None


def historical(atr):
    """Returns the historical bytes of an ATR (ISO/IEC 7816-3, section 8.2)."""
    if len(atr) < 2:
        return b""
    at, follows = 2, atr[1] >> 4
    while follows and at <= len(atr):
        at += follows.bit_count()
        follows = atr[at - 1] >> 4 if follows & 8 and at <= len(atr) else 0
    return atr[at : at + (atr[1] & 15)]
