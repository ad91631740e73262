"""A file of settings: a section for each channel or programme, and whether these go together."""
import configparser
from collections.abc import Callable
from pathlib import Path

from .collisions import Claims
from .settings import NAMES, Settings, ladder_of
from .words import Fault


def read_file(path: Path, faults: list[tuple[str, str]] | None = None) -> list[Settings]:
    """The channels of the file `path`: a section each, with what all have in [DEFAULT]; raises Fault. If there are `faults`, those of
    a section are added to them, each as its name and a text, and the other sections are read."""
    found = configparser.ConfigParser(interpolation=None)
    try:
        with open(path, encoding="utf-8") as it:
            found.read_file(it)
    except (OSError, UnicodeDecodeError, configparser.Error) as fault:
        text = fault.strerror if isinstance(fault, OSError) else " ".join(str(fault).split())
        raise Fault(f"{path}: {text}") from None
    channels: list[Settings] = []
    claims = Claims(path)
    for name in found.sections():
        try:
            unknown = set(found[name]) - set(NAMES)
            if unknown:
                raise Fault(f"{path}: channel {name}: there is no setting {min(unknown)}; there are {', '.join(NAMES)}")
            own = ladder_of(name, dict(found[name]))
            claims.add(own)
            channels += own
        except Fault as fault:
            if faults is None:
                raise
            faults.append((name, str(fault)))
    if not channels and not faults:
        raise Fault(f"{path}: it has no channel: a section such as [news]")
    return channels


def read_right(path: Path, say: Callable[[str, str], None]) -> list[Settings]:
    """The channels of the right sections of the file `path`. `say` is given each wrong one, by its name and why. Raises Fault if none is right."""
    faults: list[tuple[str, str]] = []
    found = read_file(path, faults)
    if not found:
        raise Fault(faults[0][1])
    for name, text in faults:
        say(name, text)
    return found
