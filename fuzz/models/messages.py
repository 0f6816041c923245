"""Messages that are given to a client and a server: good ones, and others that break one rule each."""
from text import counted, fields_text, octets_text

GOOD = 5  # how many of the heads of requests, and of responses, are good: the first


def fields(text):
    """Fields, as `name: value | name: value`; a field with the name `authorization` is sensitive."""
    pairs = [field.split(": ", 1) for field in text.split(" | ")]
    return [(name.encode(), value.encode(), name == "authorization") for name, value in pairs]


GET = ":method: GET | :scheme: http"
TRAILERS = fields("x: y | authorization: secret")
TYPE = "content-type: text/plain"
TOO_LONG = (b"long", b"z" * 65_600, False)

# Heads, each with the rule that it breaks (docs/PROTOCOL.md, "Messages").
REQUESTS = [
    (fields(f"{GET} | :path: / | :authority: www.example.com"), None),
    (fields(f"{GET} | :path: / | :authority: www.example.com | authorization: secret | accept: */*"), None),
    (fields(f":method: POST | :scheme: http | :path: /form | :authority: www.example.com | {TYPE} | x: y"), None),
    (fields(f":method: POST | :scheme: http | :path: /form | {TYPE} | {TYPE}"), None),
    (fields(":method: HEAD | :scheme: http | :path: / | :authority: www.example.com"), None),
    (fields(f"{GET} | :path: / | X: y"), "M1 BadName"),
    (fields(f"{GET} | :path: / | x: y "), "M2 BadValue"),
    (fields(f"{GET} | x: y | :path: /"), "M3 PseudoPlace"),
    (fields(f"{GET} | :path: / | :status: 200"), "M4 PseudoUnknown"),
    (fields(f"{GET} | :path: / | :path: /"), "M5 PseudoTwice"),
    (fields(GET), "M6 PseudoMissing"),
    (fields(":method: CONNECT | :scheme: http | :path: /"), "M7 BadMethod"),
    (fields(f"{GET} | :path: x"), "M8 BadPath"),
    (fields(f"{GET} | :path: / | upgrade: x"), "M10 ConnectionField"),
    (fields(f"{GET} | :path: / | content-length: x"), "M11 BadLength"),
]
RESPONSES = [
    (fields(":status: 200"), None),
    (fields(f":status: 200 | {TYPE} | x: y"), None),
    (fields(f":status: 404 | server: x | {TYPE}"), None),
    (fields(":status: 500 | authorization: secret"), None),
    (fields(":status: 204 | x: y"), None),
    (fields(":status: 200 | : y"), "M1 BadName"),
    (fields(":status: 200 | x: y\n"), "M2 BadValue"),
    (fields("x: y | :status: 200"), "M3 PseudoPlace"),
    (fields(":status: 200 | :path: /"), "M4 PseudoUnknown"),
    (fields(":status: 200 | :status: 200"), "M5 PseudoTwice"),
    (fields("x: y"), "M6 PseudoMissing"),
    (fields(":status: 103"), "M9 BadStatus"),
    (fields(":status: 200 | te: gzip"), "M10 ConnectionField"),
    (fields(":status: 200 | content-length: 9x"), "M11 BadLength"),
]
# Trailers that end a message which is given in parts, each with the rule that it breaks; the first ones are good.
ENDINGS = [
    (TRAILERS, None),
    ([], None),
    (fields("content-length: x"), None),
    (fields("X: y"), "M1 BadName"),
    (fields("x:  y"), "M2 BadValue"),
    (fields("x: y | :path: /"), "M3 PseudoPlace"),
    (fields("te: gzip"), "M10 ConnectionField"),
]
GOOD_ENDINGS = 3


class Message:
    """A message, and the rule that its head breaks. It is given whole, or begun and then ended."""

    def __init__(self, head, broken, body=b"", trailers=None, form="whole"):
        self.head, self.broken, self.body, self.trailers, self.form = head, broken, body, trailers, form

    @property
    def is_alone(self):
        """Whether it is a head alone."""
        return not self.body and self.trailers is None

    @property
    def is_bodiless(self):
        """A request with HEAD, or a response 204, has a response without a body."""
        return self.head[0][1] in (b"HEAD", b"204")

    @property
    def is_open(self):
        """Whether more of it may follow."""
        return self.form == "begun"

    @property
    def length(self):
        """How long its head says that its body is, or None."""
        return next((int(value) for name, value, _ in self.head if name == b"content-length"), None)

    def text(self):
        parts = [fields_text(self.head)]
        if self.body:
            parts.append("body " + octets_text(self.body))
        if self.trailers is not None:
            parts.append("trailers " + fields_text(self.trailers))
        if self.is_open:
            parts.append("open")
        return " ; ".join(parts)


def any_list(lists, good, random):
    """One of the good lists, or any, and the rule that it breaks; one of a hundred is too long."""
    chosen, broken = random.one_of(lists[:good] if random.percent(70) else lists)
    return chosen + ([TOO_LONG] if random.percent(1) else []), broken


def any_begun(heads, is_heavy, random):
    """A message of which the head is given. Half of the heads say a length, and some of them two."""
    head, broken = any_list(heads, GOOD, random)
    lengths = [0, 4, 66_000, 140_000] if is_heavy else [0, 1, 4, 4, 20]
    said = [random.one_of(lengths) for _ in range(random.one_of([0, 0, 0, 1, 1, 2]))]
    head = head + [(b"content-length", str(length).encode(), False) for length in said]
    return Message(head, broken or ("M11 BadLength" if len(set(said)) > 1 else None), form="begun")


def any_message(heads, is_heavy, random):
    """A message that is given whole."""
    head, broken = any_list(heads, GOOD, random)
    length = random.one_of([0, 4, 66_000, 66_000] if is_heavy else [0, 0, 1, 4, 20])
    body = counted(length, random.below(251))
    return Message(head, broken, body, TRAILERS if random.percent(30) else None)
