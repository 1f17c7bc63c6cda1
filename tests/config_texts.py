"""Texts that configurations are made of, for the rows of `tests/keys`, and the keys as the program has them."""
import pathlib
import re

CRATES = pathlib.Path(__file__).resolve().parent.parent / "crates"
ROWS = CRATES / "gate_config/specs/Rows.antt"
OF_BOTH = 'listen = "127.0.0.1:8080"\nbackend = "127.0.0.1:9000"\n'
ADDRESSES, OF_TWO = (f"version = {version}\n{OF_BOTH}" for version in (1, 2))


def limit_of(kind: str) -> str:
    """The table of a limit, as far as its kind."""
    return f'[limit]\nkind = "{kind}"\n'


def paths() -> dict[str, str]:
    """The dotted path of each key, by its name in the program's definitions."""
    keys = ROWS.read_text(encoding="utf-8")
    before = dict(re.findall(r'^prefix_of In\.(\w+) = codes "(.*)"$', keys, re.MULTILINE))
    section = dict(re.findall(r"^section_of Key\.(\w+) = In\.(\w+)$", keys, re.MULTILINE))
    names = re.findall(r'^name_of Key\.(\w+) = codes "(.*)"$', keys, re.MULTILINE)
    return {key: before.get(section[key], "") + name for key, name in names}


def number_keys() -> set[str]:
    """The dotted paths of the keys that hold a number, as the table of the program's definitions has them."""
    rows = re.findall(r"\bKey\.(\w+)\s+\(number ", ROWS.read_text(encoding="utf-8"))
    return {paths()[it] for it in rows}


def kept_keys() -> set[str]:
    """The keys outside all tables that version 1 lacks."""
    rows = ROWS.read_text(encoding="utf-8").partition("\nkept_rows Two =")[2].partition("\n\n")[0]
    return {paths()[it] for it in re.findall(r"\bKey\.(\w+)", rows)}


def top_keys(without: set[str] | None = None) -> str:
    """The keys outside all tables but these, in the order of the table of their words."""
    table = (CRATES / "config_words/src/table.rt").read_text(encoding="utf-8")
    order = table.partition("macro_rules! key_rows")[2].partition("}")[0]
    found = (paths().get(it, ".") for it in re.findall(r"\b[A-Z]\w+", order))
    return " ".join(it for it in found if "." not in it and it not in (without or set()))


def words_of(check_help: str) -> dict[str, str]:
    """What `check --explain` says that a key holds, by its dotted path: what stands in the help of `check` without the
    kinds or the version that have it, and without what the help alone says."""
    said, section = {}, ""
    for line in check_help.partition("Before the tables:\n")[2].splitlines():
        if head := re.match(r"\[+(\w+)\]", line):
            section = head[1] + "."
        elif key := re.match(r"  (\w+) {2,}(.*)", line):
            said[section + key[1]] = re.sub(r"^(?:aimd|vegas|version \d): |\. Not .*$", "", key[2])
    return said


PLAIN, SETTABLE, AIMD, VEGAS, AUTO = map(limit_of, ("fixed", "settable", "aimd", "vegas", "auto"))
FIXED = PLAIN + "initial = 4\n"
LIVE = '[[class]]\nname = "live"\npercent = 60\n'
LIVE_OF_TWO = '[[class]]\nname = "live"\nshare = 600\n'
WINDOW = VEGAS + "[window]\n"
CLASSES = "".join(f'[[class]]\nname = "{name}"\nshare = 100\n' for name in "abcd")
BY_METHOD = '[[resolver]]\nkind = "method"\nmethod = "GET"\nclass = "live"\n'
BYPASS = '[[bypass]]\nkind = "prefix"\nprefix = "/a"\n'
BY_ROUTE = '[[resolver]]\nkind = "route"\n[resolver.routes]\n'
