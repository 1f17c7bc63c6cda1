"""The options of `serve` and what each may be given, as the table in the specs of `commands` has them."""
import pathlib
import re
from typing import Dict, Iterator, List, NamedTuple, Optional

TOP = pathlib.Path(__file__).resolve().parent.parent
ROWS = TOP / "crates/commands/specs/Options.antt"

# Texts that an option takes which holds this, and texts that it refuses.
TAKEN: Dict[str, List[str]] = {
    "address": ["0.0.0.0:1", "127.0.0.1:65535"],
    "loopback": ["127.0.0.1:9901", "127.255.255.255:1"],
    "log_lines": ["plain", "time", "journal"],
    "flag": [],
}
REFUSED: Dict[str, List[str]] = {
    "address": ["0.0.0.0:0", ":9902", "localhost:9902", "0.0.0.0", "[::1]:9902"],
    "loopback": ["127.0.0.1:0", "0.0.0.0:9901", "localhost:9901", "128.0.0.1:1"],
    "log_lines": ["Plain", "json", ""],
    "flag": ["true", "1", ""],
}


class Option(NamedTuple):
    """An option: its word, what it holds, the ends of its range where it is a number, and its default."""

    word: str
    holds: str
    least: Optional[int]
    most: Optional[int]
    default: Optional[str]

    def taken(self) -> List[str]:
        return TAKEN[self.holds] if self.least is None else [str(self.least), str(self.most)]

    def refused(self) -> List[str]:
        if self.least is None or self.most is None:
            return REFUSED[self.holds]
        return [str(self.least - 1), str(self.most + 1), f"{self.least}s", "-1", "+-1", "1.0"]


def serve_options() -> Iterator[Option]:
    """The rows of `serve`, in their order."""
    text = re.sub(r"\s+", " ", ROWS.read_text(encoding="utf-8"))
    one = r'option \(codes "([\w-]+)"\) (?:\((\w+) (\d+) (\d+)\)|(\w+)) (?:None|\(Some \(codes "(\w+)"\)\))'
    rows = text[text.index("serve_rows = row ") :]
    for row in re.findall(r"\brow (\w+|\(option .*?\)) \(λ", rows):
        found = re.search(one, row) or re.search(rf"\b{row} = {one}", text)
        if found:
            word, holds, least, most, other, default = found.groups()
            yield Option(word, holds or other, int(least) if least else None, int(most) if most else None, default)
