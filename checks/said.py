"""What a check says of each function: its verdict, the goals that fail, what it calls that isn't proved."""
import re
from dataclasses import dataclass, field

from kit import rt

VERDICT = re.compile(r"(?m)^fn (\S+): (proved|not proved|no proof)(.*)")
NOTE = re.compile(r"(?m)^note: (?:\./)?(src/\S+?):(\d+):\d+: it is not proved that.*")
ERROR = re.compile(r"(?m)^(?:\./)?proofs/(\S+)/(?:Answers|Proof)\.antt:\d+:\d+: error: (.*)")
# A proof that names what an edit took away: this says nothing of the contract.
GONE = re.compile(
    r"has no field|is not in scope|has no `|was not admitted|is no name|cannot continue"
    r"|expected the end|operand is missing|: module `"
)


@dataclass
class Said:
    """What a check said, with its exit status."""

    text: str
    status: int = 0
    verdicts: dict = field(default_factory=dict)
    calls: dict = field(default_factory=dict)  # of each function the callees that stand in its proof's way

    def __post_init__(self):
        for symbol, verdict, more in VERDICT.findall(self.text):
            self.verdicts[symbol] = verdict
            calls = more[more.find("it calls") :] if "it calls" in more else ""
            self.calls[symbol] = {*re.findall(r"`([^`]+::[^`]+)`", calls)}

    def proved(self):
        return [symbol for symbol, verdict in self.verdicts.items() if verdict == "proved"]

    def is_open(self, symbol):
        return self.verdicts.get(symbol) in ("not proved", "no proof")

    def is_judged(self):
        """Whether the prover came to an end and refused: else nothing that it said counts."""
        refused = self.status == 1 and re.search(r"(?m)^(logic=not-proved|only=\d+ proved=\d+)", self.text)
        return bool(refused) and not rt.rtlib.STALE.search(self.text)

    def failures(self, bodies):
        """Returns the lines on goals that fail, each with the wrong body whose function it is of, or None."""
        found = []
        for it in NOTE.finditer(self.text):
            line = int(it[2])
            around = (b for b in bodies if b.file == it[1] and b.first <= line <= b.last)
            found.append((next(around, None), it[0]))
        for it in ERROR.finditer(self.text):
            if not GONE.search(it[2]):
                own = next((b for b in bodies if "/".join(b.symbol.split("::")[1:]) == it[1]), None)
                found.append((own, it[0]))
        return found

    def strays(self, bodies):
        """Returns what fails where no body changes, nor a callee's. A closure stands in its function."""
        changed = {it.symbol for it in bodies}
        lines = [line for body, line in self.failures(bodies) if not body]
        names = [it for it in self.verdicts if self.is_open(it) and not self.calls[it]]
        return lines + [it for it in names if it not in changed and "::fn::" not in it]

    def refused(self, bodies):
        """Returns of each refused body a line that says why: its function is open, by a goal of its own.

        Nothing is refused where a function fails that no body changes: what fails there could as well fail
        in the goals of another.
        """
        if not self.is_judged() or self.strays(bodies):
            return {}
        lines = {body: line for body, line in reversed(self.failures(bodies)) if body}
        return {body: line[:150] for body, line in lines.items() if self.is_open(body.symbol)}
