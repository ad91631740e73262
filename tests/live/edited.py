"""Lists of refreshes in which each text is the last one, moved on, with a random edit: a line changed, lost, doubled or moved,
a tag changed in the middle of what stood, a header tag behind a segment, other line ends.

Two channels are given the same, but for a comment at each segment. It stays for one channel, which so goes on from the text that it
read last. For the other one each text has another comment, so that it reads each text whole. Their answers, their playlists and what
they say of breaks have to be the same.
"""
import random
from dataclasses import dataclass, field
from datetime import datetime, timedelta

from events import escaped

BASE = "http://origin.example/ch/index.m3u8"
OUT = "0xFC302000000000000000FFF00F05000000017FFFFE002932E00001" + "0" * 16
COMMENT = "# each list has this comment"
SECONDS = 10
BEGIN = datetime(2024, 5, 1, 12)


def instant(number: int, shift: int = 0) -> str:
    return (BEGIN + timedelta(seconds=SECONDS * number + shift)).isoformat(timespec="milliseconds") + "Z"


@dataclass
class Origin:
    """An origin's list: what stands before and at each segment, by its number, is settled once."""

    draw: random.Random
    has_init_sections: bool
    first: int = 0
    end: int = 5
    lines: dict[int, list[str]] = field(default_factory=dict)
    keys: dict[int, str] = field(default_factory=dict)
    discontinuities: dict[int, int] = field(default_factory=dict)

    def key_tag(self) -> str:
        method = self.draw.choice(("NONE", "AES-128", "AES-128", "SAMPLE-AES"))
        if method == "NONE":
            return "#EXT-X-KEY:METHOD=NONE"
        iv = self.draw.choice(("", f",IV=0x{self.draw.randrange(1 << 64):X}"))
        kind = self.draw.choice(("", ',KEYFORMAT="identity"', ',KEYFORMAT="com.apple"'))
        if self.has_init_sections and method == "AES-128" and not iv:
            iv = ",IV=0x1"
        return f'#EXT-X-KEY:METHOD={method},URI="k{self.draw.randrange(3)}"{iv}{kind}'

    def segment(self, number: int) -> list[str]:
        """The lines of a segment, with the tags before it."""
        if number not in self.lines:
            draw, made = self.draw, [COMMENT]
            if draw.random() < 0.1:
                made.append("#EXT-X-DISCONTINUITY")
            if draw.random() < 0.15:
                made.append(self.key_tag())
            if self.has_init_sections and draw.random() < 0.15:
                made.append(f'#EXT-X-MAP:URI="init{draw.randrange(3)}.mp4"')
            if draw.random() < 0.5:
                made.append(f"#EXT-X-PROGRAM-DATE-TIME:{instant(number)}")
            if draw.random() < 0.2:
                made.append(draw.choice(("# a comment", "", "#EXT-X-PART:DURATION=1.0,URI=\"p.mp4\"")))
            made.append(f"#EXTINF:{draw.choice(('10,', '10.0,a title', '9.97,', '10'))}")
            uri = f"s{number}.ts"
            if draw.random() < 0.2:
                made.append(f"#EXT-X-BYTERANGE:1000{draw.choice(('@0', f'@{number * 1000}'))}")
            self.lines[number] = [*made, uri]
        return self.lines[number]

    def header(self) -> list[str]:
        tags = ["#EXTM3U", "#EXT-X-VERSION:6", f"#EXT-X-TARGETDURATION:{SECONDS}", f"#EXT-X-MEDIA-SEQUENCE:{self.first}",
                f"#EXT-X-DISCONTINUITY-SEQUENCE:{self.discontinuity_sequence()}"]
        for place in range(max(0, self.first // 6 - 1), self.end // 6 + 2):
            tags.append(f'#EXT-X-DATERANGE:ID="b{place}",START-DATE="{instant(6 * place + 3)}",PLANNED-DURATION=20,SCTE35-OUT={OUT}')
        return tags

    def discontinuity_sequence(self) -> int:
        return sum(self.segment(number).count("#EXT-X-DISCONTINUITY") for number in range(self.first))

    def state_before(self) -> list[str]:
        """The tags of keys and of an initialisation section that are in force before the first segment: a packager states them again."""
        found: dict[str, str] = {}
        for number in range(self.first):
            for line in self.segment(number):
                if line.startswith("#EXT-X-KEY"):
                    if "NONE" in line:
                        found = {name: tag for name, tag in found.items() if name == "map"}
                    else:
                        found["com.apple" if "com.apple" in line else "identity"] = line
                if line.startswith("#EXT-X-MAP"):
                    found["map"] = line
        tags = [tag for name, tag in found.items() if name != "map"]
        if self.has_init_sections:
            tags = ['#EXT-X-MAP:URI="init0.mp4"'] + tags if "map" not in found else [found["map"], *tags]
        return tags

    def text(self) -> list[str]:
        lines = self.header() + self.state_before()
        for number in range(self.first, self.end):
            lines += self.segment(number)
        return lines

    def move(self) -> None:
        self.first += self.draw.choice((0, 1, 1, 1, 1, 2, 3))
        self.end = max(self.end + self.draw.choice((0, 1, 1, 1, 2)), self.first + 1)


def edited(draw: random.Random, lines: list[str]) -> list[str]:
    """The lines with one random edit."""
    lines = list(lines)
    at = draw.randrange(1, len(lines))
    kind = draw.randrange(14)
    if kind == 0:
        del lines[at]
    elif kind == 1:
        lines.insert(at, lines[at])
    elif kind == 2:
        lines.insert(draw.randrange(1, len(lines)), lines.pop(at))
    elif kind == 3:
        lines[at] += draw.choice(("0", " ", ",", "x"))
    elif kind == 4:
        lines.insert(at, draw.choice(("#EXT-X-DISCONTINUITY", "#EXT-X-KEY:METHOD=NONE", '#EXT-X-KEY:METHOD=AES-128,URI="other"',
                                      '#EXT-X-MAP:URI="other.mp4"', f"#EXT-X-PROGRAM-DATE-TIME:{instant(at, 3)}")))
    elif kind == 5:
        lines = [line.split(",IV=0x")[0] if ",IV=0x" in line else line for line in lines]
    elif kind == 6:
        lines.append(lines.pop(draw.randrange(1, 5)))
    elif kind == 7:
        lines.append(draw.choice(('#EXT-X-PRELOAD-HINT:TYPE=PART,URI="h.mp4"', "#EXTINF:10,", "#EXT-X-ENDLIST", "#EXT-X-DISCONTINUITY",
                                  '#EXT-X-DATERANGE:ID="tail"', "#EXT-X-BYTERANGE:7")))
    elif kind == 8:
        lines = [line.replace(".000Z", ".100Z") if "PROGRAM" in line else line for line in lines]
    elif kind == 9:
        lines = [line.replace("PLANNED-DURATION=20", "PLANNED-DURATION=30") for line in lines]
    elif kind == 10:
        lines.insert(at, '#EXT-X-DATERANGE:ID="middle",START-DATE="' + instant(at) + '"')
    elif kind == 11:
        lines[at] = lines[at] + "\r"
    elif kind == 12:
        lines.insert(5, draw.choice(('#EXT-X-KEY:METHOD=AES-128,URI="first"', '#EXT-X-MAP:URI="first.mp4"')))
    else:
        lines = [line.replace("TARGETDURATION:10", "TARGETDURATION:11") for line in lines]
    return lines


def text_of(draw: random.Random, lines: list[str]) -> str:
    end = draw.choice(("\n",) * 9 + ("",))
    join = "\r\n" if draw.random() < 0.03 else "\n"
    return join.join(lines) + end


def decision(draw: random.Random, place: int) -> str:
    count = draw.randrange(1, 4)
    segments = ",".join(f'{{"uri":"http://ads.example/{place}/{n}.ts","duration":"{draw.choice(("10", "5.5"))}"}}' for n in range(count))
    return f'{{"breaks":[{{"id":"b{place}","ads":[{{"segments":[{segments}]}}]}}]}}'


def lists_of(seed: int, number: int, refreshes: int = 12) -> list[str]:
    """The events of a list: decisions, and refreshes with `refresh` for their word."""
    draw = random.Random(f"{seed}/{number}")
    origin = Origin(draw, has_init_sections=draw.random() < 0.4)
    events, decided = [], 0
    for _ in range(refreshes):
        place = origin.end // 6
        if place >= decided and draw.random() < 0.7:
            events.append(f"decide {decision(draw, place)}")
            decided = place + 1
        lines = origin.text()
        if draw.random() < 0.45:
            for _ in range(draw.choice((1, 1, 2))):
                lines = edited(draw, lines)
        events.append(f"refresh {escaped(text_of(draw, lines))}")
        origin.move()
    return events


def asked(event: str, back: str) -> list[str]:
    """The lines for the test driver that give an event to a channel, and ask what that one writes and says then."""
    lines = [f"to {back}", event]
    return [*lines, "playlist", "known"] if event.startswith("refresh ") else lines


def both_ways(events: list[str]) -> list[tuple[list[str], list[str]]]:
    """The lines for each event: those for the channel that goes on from the last text, and those for the other one."""
    return [(asked(event, "1"), asked(event.replace(COMMENT, f"# list {number}"), "0")) for number, event in enumerate(events)]
