"""What a kernel or a device tree tells of operating points: domains of states, each with a frequency, a power, a voltage."""

from __future__ import annotations

import re
from fractions import Fraction
from typing import Dict, List, Optional, Set, Tuple

from yds._text import Fault, Line


class State:
    """A state of a domain: kilohertz, microwatts, microvolts."""

    def __init__(self, khz: Fraction) -> None:
        self.khz = khz
        self.power: Optional[Fraction] = None
        self.volt: Optional[int] = None
        self.supply = ""
        self.unavailable = ""


class Domains:
    """The domains that were read, in the order in which they were seen."""

    def __init__(self) -> None:
        self.source = ""
        """What kind of text they are from."""
        self.states: Dict[str, Dict[Fraction, State]] = {}
        self.artificial: Set[str] = set()
        """The domains whose powers are no watts."""

    def state(self, domain: str, khz: Fraction) -> State:
        """The domain's state that was first seen with this frequency."""
        states = self.states.setdefault(domain, {})
        if khz not in states:
            states[khz] = State(khz)
        return states[khz]

    def chosen(self, name: Optional[str]) -> str:
        """The name of the domain that is meant."""
        names = ", ".join(self.states)
        if not self.states:
            kinds = "an energy model, an opp folder, a device tree, a table of MHz and mW, or frequencies with --top"
            raise Fault(f"no operating point was read; the input is {kinds}")
        if name is None and len(self.states) > 1:
            raise Fault(f"several domains: {names}; give --domain")
        found = next(iter(self.states)) if name is None else name
        if found not in self.states:
            raise Fault(f"no domain {found}; there {'are' if len(self.states) > 1 else 'is'} {names}")
        if found in self.artificial:
            raise Fault(f"the powers of {found} are no watts (flag 4); give a table of measured powers")
        return found


_MODEL = re.compile(
    r"(?:^|(?<=/))([^/]+)/[pc]s:([0-9]{1,20})/(power|frequency|cost|inefficient|performance):([0-9]{1,20})$"
).search
_FLAGS = re.compile(r"(?:^|(?<=/))([^/]+)/flags:(?:0x)?([0-9a-fA-F]+)$").search
_OPP = re.compile(r"(?:^|(?<=/))([^/]+)/opp:([0-9]{1,20})/(.*):([^:]*)$").search
_RATE = re.compile(r"rate_hz(_[0-9]+)?").fullmatch
_OTHER_FILE = re.compile(r"[^ \t,;/]*/[^ \t,;]*:").match
"""Each of these has one way to match at most from one place, so that a line of a million signs takes no time."""


class Folders:
    """Lines of `grep -r .` on the folders of an energy model or of operating points."""

    def __init__(self, domains: Domains, milliwatts: bool) -> None:
        self._domains = domains
        self._scale = 1000 if milliwatts else 1

    def take(self, line: Line) -> bool:
        """Reads a line, and says whether it is one of these."""
        model, flags = _MODEL(line.text), _FLAGS(line.text)
        if model is not None:
            self._domains.source = "energy model"
            state = self._domains.state(model.group(1), Fraction(int(model.group(2))))
            if model.group(3) == "power":
                state.power = Fraction(int(model.group(4)) * self._scale)
        elif flags is not None:
            if flags.group(2)[-1] in "4567cdefCDEF":
                self._domains.artificial.add(flags.group(1))
        else:
            found = _OPP(line.text)
            if found is None:
                return _OTHER_FILE(line.text) is not None
            self._take_opp(*found.groups())
        return True

    def _take_opp(self, domain: str, hertz: str, file: str, value: str) -> None:
        self._domains.source = self._domains.source or "opp"
        state = self._domains.state(domain, Fraction(int(hertz), 1000))
        number = int(value) if value.isdigit() and len(value) <= 20 else 0
        folder, _, name = file.partition("/")
        if _RATE(file) and number:
            state.khz = Fraction(number, 1000)
        if folder.startswith("supply-"):
            state.supply = state.supply or folder
            if folder == state.supply and name == "u_volt_target":
                state.volt = number
            if name == "u_watt" and number:
                state.power = (state.power or Fraction(0)) + number
        if (file, value) == ("available", "N"):
            state.unavailable = "not available"


MOST_HELD = 100_000
"""So many signs of a device tree may be before its next brace or semicolon."""


class _Node:
    """A node of a device tree that is open."""

    def __init__(self, name: str) -> None:
        self.name = name
        self.hertz = self.volt = self.power = ""
        self.is_off = False


_TREE = re.compile(
    r"operating-points-v2|opp-hz|opp-microvolt|opp-microwatt|[{}]|^[ \t]*/\*|^[ \t]*/dts-v1/|^[ \t]*\*"
).search
_PROPERTY = re.compile(r"(opp-hz|opp-microvolt|opp-microwatt|status) ?=").match


class DeviceTree:
    """Lines of a device tree."""

    def __init__(self, domains: Domains) -> None:
        self._domains = domains
        self._open: List[_Node] = []
        self._in_comment = False
        self._held = ""

    def take(self, line: Line) -> bool:
        """Reads a line, and says whether it is one of a device tree."""
        if not (self._in_comment or self._open or _TREE(line.text)):
            return False
        text = self._held + self._without_comments(line.text)
        pieces = re.split(r"([{};])", text)
        for piece, sign in zip(pieces[::2], pieces[1::2]):
            self._take_piece(line, re.sub(r"[ \t]+", " ", piece).strip(" "), sign)
        self._held = pieces[-1] + " "
        if len(self._held) > MOST_HELD:
            raise line.fault(f"more than {MOST_HELD} signs of a device tree without one of {{, }} and ;")
        return True

    def _without_comments(self, rest: str) -> str:
        kept = ""
        while rest:
            if self._in_comment:
                _, end, rest = rest.partition("*/")
                self._in_comment = not end
                continue
            text, begin, rest = rest.partition("/*")
            kept += text
            self._in_comment = bool(begin)
        return kept.partition("//")[0]

    def _take_piece(self, line: Line, piece: str, sign: str) -> None:
        if sign == "{":
            self._open.append(_Node(piece))
        elif sign == ";" and self._open:
            self._take_property(line, piece)
        elif sign == "}" and self._open:
            node = self._open.pop()
            if node.hertz:
                self._close(line, node)

    def _take_property(self, line: Line, piece: str) -> None:
        found = _PROPERTY(piece)
        if found is None:
            return
        node = self._open[-1]
        if found.group(1) == "status":
            node.is_off = node.is_off or '"disabled"' in piece
            return
        value = re.sub(r"[ >].*$", "", re.sub(r"^[^<]*< *", "", piece))
        if not value.isdigit() or len(value) > 20:
            raise line.fault(f"{value} is no decimal number")
        attribute = {"opp-hz": "hertz", "opp-microvolt": "volt", "opp-microwatt": "power"}[found.group(1)]
        setattr(node, attribute, value)

    def _close(self, line: Line, node: _Node) -> None:
        self._domains.source = "device tree"
        parent = self._open[-1].name if self._open else ""
        table = parent.split(":")[0]
        khz = Fraction(int(node.hertz), 1000)
        if khz in self._domains.states.get(table, {}):
            raise line.fault(f"{node.hertz} Hz stands twice in {table}; leave out the one that isn't your chip's")
        state = self._domains.state(table, khz)
        state.volt = int(node.volt) if node.volt else None
        state.power = Fraction(int(node.power)) if node.power else None
        state.unavailable = "disabled" if node.is_off else ""
