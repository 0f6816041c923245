"""How cases write octets, frames and fields: see the heads of crates/h2_case/src/octets.rs and fields.rs."""
from frames import PREFACE, split_frame

CODES = ("NoError ProtocolError InternalError FlowControlError SettingsTimeout StreamClosed FrameSizeError "
         "RefusedStream Cancel CompressionError ConnectError EnhanceYourCalm InadequateSecurity Http11Required").split()


def octets_text(octets):
    """Octets: of many equal ones, and of many that count on, the count."""
    if len(octets) > 16 and len(set(octets)) == 1:
        return f"{octets[0]:02x}x{len(octets)}"
    if len(octets) > 16 and is_counted(octets):
        return f"count:{len(octets)}" + (f":{octets[0]}" if octets[0] else "")
    return octets.hex()


def counted(count, first=0):
    """So many octets, each one more than the one before it, modulo 251."""
    first %= 251
    return (bytes(range(251)) * ((first + count) // 251 + 1))[first:first + count]


def is_counted(octets):
    return octets[0] < 251 and octets == counted(len(octets), octets[0])


def last_text(octets):
    return " " + octets_text(octets) if octets else ""


def frames_lines(octets):
    """A line for each frame; what is no complete frame at the end has a line of its own."""
    lines = []
    if octets.startswith(PREFACE):
        lines.append("preface")
        octets = octets[len(PREFACE):]
    while (parts := split_frame(octets)):
        head, payload, octets = parts
        lines.append(head.hex() + last_text(payload))
    if octets:
        lines.append("part " + octets_text(octets))
    return lines


def command_octets(octets):
    """Octets of a command, frame by frame where they are frames; rows of equal ones are shortened."""
    words = []
    if octets.startswith(PREFACE):
        words.append(PREFACE.hex())
        octets = octets[len(PREFACE):]
    while (parts := split_frame(octets)):
        head, payload, octets = parts
        words += [head.hex(), *runs(payload)]
    return " ".join(words + runs(octets))


def runs(octets):
    """Words for octets, in which more than 15 equal ones are one word."""
    words, plain, place = [], bytearray(), 0
    while place < len(octets):
        end = place
        while end < len(octets) and octets[end] == octets[place]:
            end += 1
        if end - place > 15:
            if plain:
                words.append(plain.hex())
                plain = bytearray()
            words.append(f"{octets[place]:02x}x{end - place}")
        else:
            plain += octets[place:end]
        place = end
    return words + ([plain.hex()] if plain else [])


def value_text(value):
    """The value of a field in a command or a line; long ones are octets in braces."""
    if len(value) > 64:
        return "\\{" + octets_text(value) + "}"
    text = "".join(chr(octet) if 0x20 <= octet < 0x7F and octet != 0x5C else f"\\x{octet:02x}" for octet in value)
    return text[:-1] + "\\x20" if text.endswith(" ") else text


def field_text(field):
    name, value, sensitive = field
    return ("!" if sensitive else "") + value_text(name) + ": " + value_text(value)


def field_lines(fields):
    return ["  " + field_text(field) for field in fields]


def fields_text(fields):
    return " | ".join(field_text(field) for field in fields)
