"""What .ci/calling and .ci/api read of sources of Rattle: docs, signatures, clauses."""

import re
import sys

CLAUSE = re.compile(r"\b(requires|ensures\*?)(?: (\w+))? \{", re.S)


def docs_before(text, at):
    """The `///` docs that end where an item begins, attributes between them left out."""
    lines, depth = [], 0
    for line in reversed(text[:at].split("\n")[:-1]):
        line = line.strip()
        if line.startswith("///"):
            lines.append(line[3:].strip())
        elif depth or (line.endswith("]") and not line.startswith("//")):
            depth += line.count("]") - line.count("[")
        else:
            break
    return lines[::-1]


def without_body(text, indent):
    """A function's text up to its body: a line with a brace alone, or the signature's last one."""
    lines, has_clause = [], False
    for line in text.split("\n"):
        if line in (indent + "{", indent + "{}", indent + "}"):
            break
        has_clause = has_clause or re.match(r"\s*(requires|ensures)\b", line) is not None
        if not line.lstrip().startswith("//"):
            lines.append(line)
        if line.endswith("};"):
            break
        if not has_clause and line.endswith((" {", " {}", ";")):
            lines[-1] = line.rsplit(" {", 1)[0].rstrip(";")
            break
    return "\n".join(lines)


def closed(text, at):
    """The text from an opening brace up to its own closing one, without both."""
    depth = 0
    for place in range(at, len(text)):
        depth += {"{": 1, "}": -1}.get(text[place], 0)
        if depth == 0:
            return text[at + 1 : place]
    sys.exit("a clause is not closed")
