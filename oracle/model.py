#!/usr/bin/env python3
"""A model of the desk for modem lines, in plain functions without state.

Sources: document 01 (scope), document 02 with CR 2 to CR 8 in force and no other, the published Rust that 01 moves, and the
page on the program `captures`. "01" and "02" in the comments are those documents, "Rust" is the file that 01 names for the reader.
Values that a line carries are left out: the model answers which reader accepts a line, or which number refuses it.

    play(capture)  gives the lines that one capture prints, without their line ends.
    python3 model.py  runs the examples of the papers against the model.
"""

import functools
from typing import NamedTuple, Optional, Tuple

LF, SPACE = 10, 32
ACCEPTED = 0
LINE_LIMIT = 256            # 01, refusal 1; also the least text buffer, refusal 10
LAST_ORDINAL = 4294967295   # 02, CR 7


# ---------------------------------------------------------------------------------------------------------------------
# Numbers in a line (01, section of that name). bytes.isdigit() knows the ASCII digits only and is false for empty bytes.

def whole(text: bytes, low: int, high: int) -> Optional[int]:
    """An integer as Rust parses it, or None: one sign at most, the minus for signed types only, then digits, no overflow."""
    negative = text[:1] == b"-"
    if negative and low == 0:
        return None         # "-0" is no unsigned number
    digits = text[1:] if text[:1] in (b"+", b"-") else text
    if not digits.isdigit():
        return None
    digits = digits.lstrip(b"0") or b"0"
    if len(digits) > 20:    # beyond every type here; spares a conversion of thousands of digits
        return None
    value = -int(digits) if negative else int(digits)
    return value if low <= value <= high else None


def unsigned(text: bytes, bits: int) -> Optional[int]:
    return whole(text, 0, 2 ** bits - 1)


def signed(text: bytes, bits: int) -> Optional[int]:
    return whole(text, -2 ** (bits - 1), 2 ** (bits - 1) - 1)


def is_desk_numeral(text: bytes) -> bool:
    """Optional sign, one to fifteen digits, at most one point, which may stand at either end. No exponent, inf or nan."""
    unsigned_text = text[1:] if text[:1] in (b"+", b"-") else text
    before, _, behind = unsigned_text.partition(b".")
    digits = before + behind            # a second point stays in `behind` and is no digit
    return digits.isdigit() and len(digits) <= 15


# ---------------------------------------------------------------------------------------------------------------------
# The readers (01, "The readers"). Each gives ACCEPTED or the number that refuses the line: 3, or 4 or 13 where they apply.
# They work on bytes: all that they split at or compare with is ASCII, and the UTF-8 check has gone before.

def verdict(good: bool) -> int:
    return ACCEPTED if good else 3


def after(line: bytes, front: bytes) -> Optional[bytes]:
    """The rest behind a front. The Rust's split at the first ": " with the name compared comes to the same."""
    return line[len(front):] if line.startswith(front) else None


def generic_ok(line: bytes) -> int:
    return verdict(line in (b"OK", b"SHUT OK"))


def sim_error(line: bytes) -> int:
    for front in (b"+CME ERROR: ", b"+CMS ERROR: "):
        code = after(line, front)
        if code is not None:
            return verdict(unsigned(code, 32) is not None)
    return verdict(line == b"ERROR")


def write_prompt(line: bytes) -> int:
    return verdict(line == b"> ")


def close_ok(line: bytes) -> int:
    end = b", CLOSE OK"
    return verdict(line.endswith(end) and unsigned(line[:-len(end)], 64) is not None)


def iccid(line: bytes) -> int:
    number = line.rstrip(b"fF")         # every trailing one
    if len(number) not in (19, 20) or number[:2] != b"89":
        return 3
    # A cut inside a character leaves bytes that are no digits, hence 3 (01, line 12 and "Readings that look right").
    parts = (unsigned(number[2:4], 8), unsigned(number[4:6], 8), unsigned(number[6:], 64))
    return verdict(None not in parts)


def signal_quality(line: bytes) -> int:
    rest = after(line, b"+CSQ: ")
    if rest is None or b"," not in rest:
        return 3
    rssi_text, _, ber_text = rest.partition(b",")
    rssi, ber = unsigned(rssi_text, 8), unsigned(ber_text, 8)
    if rssi is None or ber is None:
        return 3
    return verdict((rssi <= 31 or rssi == 99) and (ber <= 7 or ber == 99))


SYSTEM_MODES = (b"NO SERVICE", b"GSM", b"LTE CAT-M1", b"LTE NB-IOT")
OPERATION_MODES = (b"Online", b"Offline", b"Factory Test Mode", b"Reset", b"Low Power Mode")


def system_info(line: bytes) -> int:
    rest = after(line, b"+CPSI: ")
    if rest is None:
        return 3
    fields = rest.split(b",", 8)        # the ninth keeps its commas
    return verdict(len(fields) == 9 and fields[0] in SYSTEM_MODES and fields[1] in OPERATION_MODES)


def operator_info(line: bytes) -> int:
    rest = after(line, b"+COPS: ")
    if rest is None:
        return 3
    fields = rest.split(b",", 3)
    form = fields[1] if len(fields) > 1 else b"0"       # the fallback text of the trial and of the desk
    return verdict(fields[0] in (b"0", b"1", b"2", b"4") and form in (b"0", b"1", b"2"))


def network_time(line: bytes) -> int:
    rest = after(line, b"+CNTP: ")
    if rest is None:
        return 3
    code, _, time = rest.partition(b",")
    if code not in (b"1", b"61", b"62", b"63", b"64", b"65"):
        return 3
    return 4 if len(time) > 32 else ACCEPTED            # 4 only in a line otherwise good


def download_info(line: bytes) -> int:
    return verdict(line.startswith(b"+HTTPTOFS: "))     # unknown codes and bad lengths have values of their own


def imei(line: bytes) -> int:
    if not line.isdigit() or len(line) not in (15, 16):
        return 3
    return verdict(len(line) == 16 or line[14] - 48 == check_digit(line[:14]))      # 02, CR 3: sixteen as they stand


def check_digit(digits: bytes) -> int:
    total = 0
    for place, byte in enumerate(digits):
        digit = byte - 48
        if place % 2 == 1:
            digit = sum(divmod(2 * digit, 10))          # the digits of the double
        total += digit
    return (10 - total % 10) % 10


def sms_message_format(line: bytes) -> int:
    return verdict(line in (b"+CMGF: 0", b"+CMGF: 1"))


def sms_message(line: bytes) -> int:
    rest = after(line, b"+CMGR: ")
    if rest is None:
        return 3
    fields = rest.split(b",", 2)
    if len(fields) < 3:
        return 3
    return 4 if len(fields[1].strip(b'"')) > 20 else ACCEPTED


def gnss_report(line: bytes) -> int:
    rest = after(line, b"+UGNSINF: ")
    if rest is None:
        return 3
    fields = rest.split(b",")
    if len(fields) != 21:
        return 3
    if fields[0] != b"1" or fields[1] != b"1":
        return ACCEPTED                                 # NotEnabled, or NoFix whose satellites may be unreadable
    if not is_date(fields[2]):
        return 13                                       # 02, CR 8: behind count and statuses, ahead of latitude
    required = fields[3:6]                              # latitude, longitude, altitude
    floats = fields[6:8] + fields[10:13]                # speed, course, hdop, pdop, vdop; empty is zero
    counts = fields[14:17] + fields[18:19]              # three counts of satellites, c_n0_max; empty is zero
    good = all(is_desk_numeral(field) for field in required)
    good = good and all(field == b"" or is_desk_numeral(field) for field in floats)
    good = good and all(field == b"" or unsigned(field, 32) is not None for field in counts)
    return verdict(good)


def is_date(field: bytes) -> bool:
    """02, CR 8: fourteen digits, nothing or a point and digits behind, and a moment that exists in 1980 to 2099."""
    digits, point, fraction = field.partition(b".")
    if len(digits) != 14 or not digits.isdigit() or (point and not fraction.isdigit()):
        return False
    year, month, day = int(digits[:4]), int(digits[4:6]), int(digits[6:8])
    hour, minute, second = int(digits[8:10]), int(digits[10:12]), int(digits[12:14])
    return (1980 <= year <= 2099 and 1 <= month <= 12 and 1 <= day <= days_in_month(year, month)
            and hour <= 23 and minute <= 59 and second <= 59)


def days_in_month(year: int, month: int) -> int:
    if month == 2:
        leap = year % 4 == 0 and (year % 100 != 0 or year % 400 == 0)
        return 29 if leap else 28
    return 30 if month in (4, 6, 9, 11) else 31


def registration(line: bytes, front: bytes, with_skip: Tuple[int, ...]) -> int:
    rest = after(line, front)
    if rest is None:
        return 3
    fields = rest.split(b",")
    if len(fields) in (1, 4):
        status = fields[0]
    elif len(fields) in with_skip:
        status = fields[1]
    else:
        return 3
    return verdict(signed(status, 32) is not None)      # lac and ci are none where unreadable, so they never refuse


def creg(line: bytes) -> int:
    return registration(line, b"+CREG: ", (2, 5))


def cgreg(line: bytes) -> int:
    return registration(line, b"+CGREG: ", (2, 5, 8))


def cereg(line: bytes) -> int:
    rest = after(line, b"+CEREG: ")
    if rest is None:
        return 3
    fields = rest.split(b",")
    status = fields[0]
    if len(fields) > 1 and (fields[1] == b"" or fields[1].isdigit()):       # an empty field counts as all digits
        status = fields[1]
    return verdict(signed(status, 32) is not None)


# 01, "What the port takes": the order of trial.
RESPONSES = (
    ("GenericOk", generic_ok), ("SimError", sim_error), ("WritePrompt", write_prompt), ("CloseOk", close_ok), ("Iccid", iccid),
    ("SignalQuality", signal_quality), ("SystemInfo", system_info), ("OperatorInfo", operator_info), ("NetworkTime", network_time),
    ("DownloadInfo", download_info), ("Imei", imei), ("SmsMessageFormat", sms_message_format), ("SmsMessage", sms_message),
)
UNSOLICITED = (("GnssReport", gnss_report), ("CReg", creg), ("CGReg", cgreg), ("CEReg", cereg))
READERS = RESPONSES + UNSOLICITED
UNSOLICITED_KINDS = tuple(name for name, _ in UNSOLICITED)


def is_utf8(line: bytes) -> bool:
    try:
        line.decode("utf-8", "strict")          # RFC 3629: no surrogates, no overlong forms, nothing above 10FFFF
        return True
    except UnicodeDecodeError:
        return False


@functools.lru_cache(maxsize=4096)
def read_line(line: bytes) -> Tuple[Optional[str], int]:
    """The accepting reader's name and 0, or None and the refusal: 1, 2, then 4 or 13, then 3 (01, 02 CR 8)."""
    if len(line) > LINE_LIMIT:
        return None, 1
    if not is_utf8(line):
        return None, 2
    refusal = 3
    for name, reader in READERS:
        answer = reader(line)
        if answer == ACCEPTED:
            return name, 0
        if answer != 3:
            refusal = answer
    return None, refusal


# ---------------------------------------------------------------------------------------------------------------------
# The requests: writers and awaited answers (the Rust's `encode` and `type Response`).

class Request(NamedTuple):
    name: str
    texts: Tuple[bytes, ...] = ()       # the texts under refusals 5, 12 and 6
    numbers: Tuple[int, ...] = ()


FIXED_COMMANDS = {
    "GetSignalQuality": b"AT+CSQ\r", "ShowIccid": b"AT+CCID\r", "GetImei": b"AT+GSN\r", "GetOperatorInfo": b"AT+COPS?\r",
    "SetAutomaticOperator": b"AT+COPS=0\r", "GetSystemInfo": b"AT+CPSI?\r", "Execute": b"AT+CNTP\r", "GetSmsMessageFormat": b"AT+CMGF?\r",
}
TEXT_LIMITS = {"SetManualOperator": (6,), "SynchronizeNetworkTime": (64,), "DownloadToFileSystem": (64, 32)}     # 01, refusal 5
AWAITED = {
    "SetManualOperator": ("GenericOk",), "SetAutomaticOperator": ("GenericOk",), "SetSmsMessageFormat": ("GenericOk",),
    "SynchronizeNetworkTime": ("GenericOk",),
    "GetSignalQuality": ("SignalQuality", "GenericOk"), "ShowIccid": ("Iccid", "GenericOk"), "GetImei": ("Imei", "GenericOk"),
    "GetOperatorInfo": ("OperatorInfo", "GenericOk"), "GetSystemInfo": ("SystemInfo", "GenericOk"),
    "GetSmsMessageFormat": ("SmsMessageFormat", "GenericOk"), "ReadSms": ("SmsMessage", "GenericOk"),
    "Execute": ("GenericOk", "NetworkTime"), "DownloadToFileSystem": ("GenericOk", "DownloadInfo"),
}
REQUESTS = tuple(sorted(AWAITED))


def quoted(text: bytes) -> bytes:
    """The Rust's {:?} (01, "What changes shape")."""
    return b'"' + text.replace(b"\\", b"\\\\").replace(b'"', b'\\"') + b'"'


def decimal(number: int) -> bytes:
    return b"%d" % number


def command_of(request: Request) -> bytes:
    name, texts, numbers = request
    if name in FIXED_COMMANDS:
        return FIXED_COMMANDS[name]
    if name == "SetManualOperator":
        return b'AT+COPS=1,2,"' + texts[0] + b'"\r'
    if name == "SynchronizeNetworkTime":
        return b"AT+CNTP=" + quoted(texts[0]) + b"," + decimal(numbers[0]) + b"," + decimal(numbers[1]) + b"\r"
    if name == "DownloadToFileSystem":
        return b"AT+HTTPTOFS=" + quoted(texts[0]) + b"," + quoted(texts[1]) + b"\r"
    if name == "SetSmsMessageFormat":
        return b"AT+CMGF=" + decimal(numbers[0]) + b"\r"
    assert name == "ReadSms"
    return b"AT+CMGR=" + decimal(numbers[0]) + b"\r"


def write_request(request: Request, room: int) -> Tuple[Optional[bytes], int]:
    """The command and 0, or None and the refusal: 5, 12, 6, 7, the first of them that any text earns (01; 02 CR 2)."""
    for text, limit in zip(request.texts, TEXT_LIMITS.get(request.name, ())):
        if len(text) > limit:
            return None, 5
    if request.name == "SetManualOperator":
        plmn = request.texts[0]
        if len(plmn) not in (5, 6) or not plmn.isdigit():
            return None, 12
    for text in request.texts:
        if any(byte < 32 or byte > 126 for byte in text):
            return None, 6
    command = command_of(request)
    if room < len(command):
        return None, 7
    return command, 0


# ---------------------------------------------------------------------------------------------------------------------
# The desk (01, "The desk"; 02, CR 4 and CR 7).

class Desk(NamedTuple):
    held: bytes = b""                   # the unfinished line with its CRs; one being dropped is kept too, as only its length counts
    awaited: Tuple[str, ...] = ()       # the answers still to come; none means idle
    command: bytes = b""
    echo_due: bool = False              # echo mode, and the echo has not come
    ordinal: int = 0                    # of the last line counted

    def is_open(self) -> bool:
        return self.awaited != ()


class Event(NamedTuple):
    word: str
    ordinal: int
    line: bytes = b""
    number: int = 0                     # for stray


NEW_DESK = Desk()


def reset(desk: Desk) -> Desk:
    """Closes the command, forgets the unfinished line, and counts lines from 1 again (01; 02 CR 7)."""
    return NEW_DESK


def open_request(desk: Desk, request: Request, echo: bool, room: int) -> Tuple[Desk, Optional[bytes], int]:
    """The desk, the command or None, and the refusal: 8, 9, then the writer's. A refused open leaves the desk alone."""
    if desk.is_open():
        return desk, None, 8
    if desk.held:
        return desk, None, 9
    command, refusal = write_request(request, room)
    if command is None:
        return desk, None, refusal
    return Desk(awaited=AWAITED[request.name], command=command, echo_due=echo), command, 0


def judge(desk: Desk, line: bytes) -> Tuple[str, int, Desk]:
    """The event word, the stray number and the desk after it: the first row of 01's table that fits."""
    if desk.echo_due and line in (desk.command, desk.command[:-1]):
        return "echo", 0, desk._replace(echo_due=False)             # CR 4: with or without the final CR
    kind, refusal = read_line(line)
    if kind is None:
        return "stray", refusal, desk
    if desk.is_open() and not desk.echo_due:                        # CR 4: until the echo, responses and errors are Stray 0
        if kind == "SimError":
            return "failed", 0, closed(desk)
        if kind == desk.awaited[0]:
            rest = desk.awaited[1:]
            return ("taken", 0, desk._replace(awaited=rest)) if rest else ("done", 0, closed(desk))
        if kind == "GenericOk":
            return "short", 0, closed(desk)
    if kind in UNSOLICITED_KINDS:
        return "unsolicited", 0, desk
    return "stray", 0, desk


def closed(desk: Desk) -> Desk:
    return desk._replace(awaited=(), command=b"", echo_due=False)


def line_event(desk: Desk, line: bytes) -> Tuple[Desk, Event]:
    """A complete line that is not empty: counted, and judged unless it is too long (01; 02 CR 7)."""
    desk = desk._replace(held=b"", ordinal=min(desk.ordinal + 1, LAST_ORDINAL))
    if len(line) > LINE_LIMIT:
        return desk, Event("overlong", desk.ordinal)
    word, number, after_it = judge(desk, line)
    return after_it, Event(word, desk.ordinal, line, number)


def feed(desk: Desk, chunk: bytes, text: bytes) -> Tuple[int, Desk, int, Optional[Event], bytes]:
    """One feed, up to its first event: refusal, desk, bytes taken, event or None, text buffer."""
    if len(text) < LINE_LIMIT:
        return 10, desk, 0, None, text
    held = bytearray(desk.held)
    for taken, byte in enumerate(chunk, 1):
        if byte != LF:
            held.append(byte)
            if byte != SPACE or held != b"> ":
                continue
            line = b"> "                                            # at a line's start: a line at once
        else:
            line = bytes(held[:-1] if held[-1:] == b"\r" else held)     # one CR goes, no more
            held.clear()
            if line == b"":
                continue                                            # no event, not counted
        desk, event = line_event(desk, line)
        return 0, desk, taken, event, fill(text, event.line)        # Overlong carries no line, so the buffer stays
    return 0, desk._replace(held=bytes(held)), len(chunk), None, text


def fill(buffer: bytes, front: bytes) -> bytes:
    return front + buffer[len(front):]


# ---------------------------------------------------------------------------------------------------------------------
# The program `captures` (the page of that name).

class Bench(NamedTuple):
    desk: Desk = NEW_DESK
    text: bytes = bytes(256)
    command: bytes = bytes(256)
    room: int = 256                     # what an open is lent of the command buffer


def hexadecimal(data: bytes) -> bytes:
    return data.hex().encode("ascii")


def from_hexadecimal(digits: bytes) -> Optional[bytes]:
    if len(digits) % 2 or digits.strip(b"0123456789abcdefABCDEF"):
        return None
    return bytes.fromhex(digits.decode("ascii"))


def request_of(text: bytes) -> Optional[Request]:
    """The request that a text names, or None. Limits and bytes of its texts are left to the open."""
    name, *fields = text.split(b"\t")
    shape = (name, len(fields))
    if shape == (b"SetManualOperator", 1):
        return Request("SetManualOperator", (fields[0],))
    if shape == (b"SynchronizeNetworkTime", 3):
        timezone, cid = unsigned(fields[1], 16), unsigned(fields[2], 8)
        return None if timezone is None or cid is None else Request("SynchronizeNetworkTime", (fields[0],), (timezone, cid))
    if shape == (b"DownloadToFileSystem", 2):
        return Request("DownloadToFileSystem", (fields[0], fields[1]))
    if shape == (b"SetSmsMessageFormat", 1):
        return Request("SetSmsMessageFormat", (), ((b"Pdu", b"Text").index(fields[0]),)) if fields[0] in (b"Pdu", b"Text") else None
    if shape == (b"ReadSms", 1):
        index = unsigned(fields[0], 8)
        return None if index is None else Request("ReadSms", (), (index,))
    if not fields and name in [fixed.encode("ascii") for fixed in FIXED_COMMANDS]:
        return Request(name.decode("ascii"))
    return None


def event_line(event: Event) -> bytes:
    parts = [event.word.encode("ascii"), decimal(event.ordinal)]
    if event.word == "stray":
        parts.append(decimal(event.number))
    if event.word != "overlong":
        parts.append(hexadecimal(event.line))
    return b" ".join(parts)


def feed_all(bench: Bench, chunk: bytes) -> Tuple[Bench, list]:
    """What is left of the chunk is fed again and again until all is taken."""
    printed = []
    desk, text = bench.desk, bench.text
    while chunk:
        _, desk, taken, event, text = feed(desk, chunk, text)
        chunk = chunk[taken:]
        if event is not None:
            printed.append(event_line(event))
    return bench._replace(desk=desk, text=text), printed


def open_step(bench: Bench, data: bytes, echo: bool) -> Optional[Tuple[Bench, list]]:
    request = request_of(data)
    if request is None:
        return None
    desk, command, refusal = open_request(bench.desk, request, echo, bench.room)
    bench = bench._replace(desk=desk)
    if command is None:
        return bench, [b"refused " + decimal(refusal)]
    return bench._replace(command=fill(bench.command, command)), [b"open " + hexadecimal(command)]


def known_step(bench: Bench, step: bytes, first: bool) -> Optional[Tuple[Bench, list]]:
    """The bench after a step and what it prints; None for what is no step."""
    letter, data = step[:1], from_hexadecimal(step[1:])
    if data is None:
        return None
    if letter == b"x" and first and len(data) == 1:
        return bench._replace(text=data * 256, command=data * 256), []
    if letter == b"l" and len(data) == 1:
        return bench._replace(room=data[0]), []
    if letter in (b"o", b"e"):
        return open_step(bench, data, letter == b"e")
    if letter == b"f":
        return feed_all(bench, data)
    if letter == b"s":
        refusal, desk, _, _, front = feed(bench.desk, data, bench.text[:255])
        return bench._replace(desk=desk, text=fill(bench.text, front)), [b"refused " + decimal(refusal)]
    if data:
        return None                     # r, t and c stand alone
    if letter == b"r":
        return bench._replace(desk=reset(bench.desk)), []
    if letter == b"t":
        return bench, [b"text " + hexadecimal(bench.text)]
    if letter == b"c":
        return bench, [b"command " + hexadecimal(bench.command)]
    return None


def play_steps(capture: bytes) -> Tuple[list, bytes]:
    """Each step with the lines that it prints, and the capture's last line."""
    if len(capture) > 32767:
        return [(capture, [b"unknown"])], b"end idle"
    bench, played = Bench(), []
    for place, step in enumerate(capture.split(b" ")):
        answer = known_step(bench, step, place == 0)
        if answer is None:
            played.append((step, [b"unknown"]))
        else:
            bench, printed = answer
            played.append((step, printed))
    return played, b"end open" if bench.desk.is_open() else b"end idle"


def play(capture: bytes) -> list:
    played, end = play_steps(capture)
    return [line for _, printed in played for line in printed] + [end]


# ---------------------------------------------------------------------------------------------------------------------
# The papers' own examples.

def self_test() -> int:
    """Asserts the examples of the papers; gives the number of assertions."""
    checks = 0

    def same(got, wanted):
        nonlocal checks
        assert got == wanted, (got, wanted)
        checks += 1

    comma = b","
    for line, wanted in (           # 01, "Lines to prove and to run"; the numbers are that list's, a name is the accepting reader
            (b"+CSQ: 0,99", "SignalQuality"), (b"+CSQ: 31,99", "SignalQuality"), (b"+CSQ: 32,0", 3),                # 1 to 3
            (b"+CEREG: 1,", 3), (b"+CEREG: 2,+5", "CEReg"), (b"+CGREG: 1,2,3", 3),                                  # 4 to 6
            (b'+CGREG: 2,1,"00A5","01B2",7,a,b,c', "CGReg"), (b'+CREG: 2,1,"00A5","01B2",7,a,b,c', 3),              # 7
            (b"+HTTPTOFS: 200,x", "DownloadInfo"),                                                                  # 8
            (b"490154203237518", "Imei"), (b"490154203237517", 3),                                                  # 9
            (b"4901542032375180", "Imei"), (b"4901542032375181", "Imei"), (b"4901542032375189", "Imei"),            # 10 and CR 3
            (b"+UGNSINF: 0" + 20 * comma, "GnssReport"), (b"+UGNSINF: 0" + 19 * comma, 3),                          # 11
            (b"+UGNSINF: 0" + 21 * comma, 3),
            (bytes([56, 195, 169]) + 16 * b"1", 3), (b"+COPS: 0", "OperatorInfo"),                                  # 12, 14
            (b'+CMGR: 0,"' + 20 * b"9" + b'",', "SmsMessage"), (b'+CMGR: 0,"' + 21 * b"9" + b'",', 4),              # run only
            (b"+CNTP: 1," + 32 * b"t", "NetworkTime"), (b"+CNTP: 1," + 33 * b"t", 4), (b"+CNTP: 2," + 33 * b"t", 3),
            (b"+HTTPTOFS: " + 245 * b"x", "DownloadInfo"), (b"+HTTPTOFS: " + 246 * b"x", 1), (b"+HTTPTOFS: \xff", 2),
            (b"8988280666001104843f", "Iccid"), (b"89882806660011048438", "Iccid"), (b"89882806660011048438fFf", "Iccid"),
            (b"> ", "WritePrompt"), (b"18446744073709551615, CLOSE OK", "CloseOk"), (b"18446744073709551616, CLOSE OK", 3),
            (b"+CME ERROR: -0", 3), (b"+CME ERROR: +0", "SimError"), (b"+CREG: -2147483648", "CReg"), (b"+CREG: 2147483648", 3),
            (b"+CMGF: 00", 3), (b"+CMGF: 1", "SmsMessageFormat"), (b"+CPSI: GSM,Online,1,2,3,4,5,6,7,8", "SystemInfo"),
            (b"+CPSI: GSM,Online,1,2,3,4,5,6", 3), (b"+UGNSINF: 1,0" + 19 * comma, "GnssReport")):
        kind, refusal = read_line(line)
        same(refusal if kind is None else kind, wanted)
    same(is_desk_numeral(b"16777219"), True)                                                                        # 13
    for text, wanted in ((b".5", True), (b"5.", True), (b"-0", True), (b"+1.5", True), (b".", False), (b"", False), (b"-", False),
                         (b"1.2.3", False), (b"1e5", False), (b"inf", False), (b"nan", False), (15 * b"9", True), (16 * b"9", False)):
        same(is_desk_numeral(text), wanted)
    for date, wanted in ((b"20240229235959", "GnssReport"), (b"20240229235959.000", "GnssReport"), (b"20230229000000", 13), (b"", 13),
                         (b"20240101000000.", 13), (b"19791231235959", 13), (b"20991231235959", "GnssReport"), (b"21000101000000", 13)):
        kind, refusal = read_line(b"+UGNSINF: 1,1," + date + b",1,2,3" + 15 * comma)
        same(refusal if kind is None else kind, wanted)

    def step(letter, data=b""):
        return letter + hexadecimal(data)

    csq = step(b"o", b"GetSignalQuality")
    show = b"\r\n+CEREG: 5\r\n\r\n+CSQ: 31,99\r\n\r\nOK\r\n"          # 01, the show program, printed as `captures` does
    wanted = [b"open " + hexadecimal(b"AT+CSQ\r"), b"unsolicited 1 2b43455245473a2035", b"taken 2 2b4353513a2033312c3939",
              b"done 3 4f4b", b"end idle"]
    same(play(csq + b" " + step(b"f", show)), wanted)
    same(play(b" ".join([csq] + [step(b"f", show[i:i + 1]) for i in range(len(show))])), wanted)
    same(play(csq + b" " + step(b"f", b"OK\n"))[1:], [b"short 1 4f4b", b"end idle"])
    same(play(csq + b" " + step(b"f", b"ERROR\n"))[1:], [b"failed 1 4552524f52", b"end idle"])
    same(play(b"e" + csq[1:] + b" " + step(b"f", b"OK\nAT+CSQ\r\r\nxyz\n"))[1:],
         [b"stray 1 0 4f4b", b"echo 2 41542b4353510d", b"stray 3 3 78797a", b"end open"])
    same(play(step(b"f", 256 * b"x" + b"\r\n" + 257 * b"x" + b"\n> \r\n")),
         [b"stray 1 3 " + 256 * b"78", b"overlong 2", b"stray 3 0 3e20", b"end idle"])
    same(play(csq + b" " + csq), [b"open " + hexadecimal(b"AT+CSQ\r"), b"refused 8", b"end open"])
    same(play(b"f0d " + csq + b" f0a " + csq), [b"refused 9", b"open " + hexadecimal(b"AT+CSQ\r"), b"end open"])
    same(play(b""), [b"unknown", b"end idle"])
    same(play(b"s t x00"), [b"refused 10", b"text " + 512 * b"0", b"unknown", b"end idle"])
    return checks


if __name__ == "__main__":
    print("model: %d examples of the papers hold" % self_test())
