"""What a ladder's renditions are like: codecs, sizes, rates and pieces. Values, as JSON has them, and by what ffprobe says of a segment."""
from __future__ import annotations

import functools
import hashlib
import json
from collections import Counter
from collections.abc import Mapping
from dataclasses import dataclass
from fractions import Fraction
from typing import Any

from .playlist import SECOND, Listed, read_duration, seconds_text
from .words import Fault

TS, FMP4, TEXT = "ts", "fmp4", "vtt"  # containers
VIDEO = {"h264": "libx264", "hevc": "libx265"}  # codecs of pictures that can be made, and who makes them
PROFILES = {"h264": {"Constrained Baseline": "baseline", "Baseline": "baseline", "Main": "main", "High": "high"}, "hevc": {"Main": "main"}}
USUAL_PROFILE = {"h264": "high", "hevc": "main"}
SOUND = {"aac": 1024, "ac3": 1536, "eac3": 1536}  # codecs of sound that can be made, and the samples of a frame
MOST_RATE = 240  # pictures in a second
LARGEST = 8192  # points of a picture's side
MOST_RENDITIONS = 64
LEAST_BITS, USUAL_BITS, SOUND_BITS, CHANNEL_BITS = 50_000, 2_000_000, 128_000, 64_000  # bits in a second
ALONE = "main"  # the folder of a channel by itself
TAG = "#EXT-X-MAP:"
WRAPS = (1 << 33) * SECOND // 90_000  # nanoseconds after which timestamps of MPEG-TS begin anew


@dataclass(frozen=True)
class Picture:
    """Pictures: their `codec` and `profile` as ffmpeg has them, size in points, how many in a second (`rate`), and bits in a second."""

    codec: str
    profile: str
    width: int
    height: int
    rate: Fraction
    bits: int


@dataclass(frozen=True)
class Sound:
    """Sound: its `codec`, samples in a second (`rate`), channels, and bits in a second."""

    codec: str
    rate: int
    channels: int
    bits: int


@dataclass(frozen=True)
class Rendition:
    """A rendition of a ladder: its container, and its pictures and sound, as far as it has them; a subtitle's has neither."""

    container: str
    picture: Picture | None = None
    sound: Sound | None = None

    def is_sound(self) -> bool:
        """Whether it has sound and no pictures."""
        return self.sound is not None and self.picture is None


@dataclass(frozen=True)
class Ladder:
    """A ladder: how long a segment lasts in nanoseconds (`piece`), and its renditions by their names. By its timestamps the sound that is apart is so many
    nanoseconds later than its playlist says, beside the pictures (`shift`): a coder of AAC puts a frame before it, which many a playlist passes over."""

    piece: int
    renditions: Mapping[str, Rendition]
    shift: int = 0

    def key(self) -> str:
        """By what it is known: a hash of all that its ads depend on."""
        return self.hashed

    @functools.cached_property
    def hashed(self) -> str:
        """The same, reckoned once: a question asks for it with each of its ads."""
        return hashlib.sha256(json.dumps(said_of(self), sort_keys=True).encode()).hexdigest()[:16]

    def is_like(self, other: Ladder) -> bool:
        """Whether it is like the `other` one but for its bits in a second: these differ from segment to segment."""
        return json.dumps(without_bits(said_of(self))) == json.dumps(without_bits(said_of(other)))

    def has_map(self) -> bool:
        """Whether its segments have an initialisation section."""
        return any(it.container == FMP4 for it in self.renditions.values())

    def sound_apart(self) -> Sound | None:
        """The sound of its first rendition that has no pictures, if others have some: players join it end to end beside them. None if there is none."""
        has_pictures = any(it.picture for it in self.renditions.values())
        return next((it.sound for it in self.renditions.values() if it.is_sound()), None) if has_pictures else None

    def frame(self) -> int:
        """How many nanoseconds a frame of the sound that is apart lasts; 0 if there is none."""
        sound = self.sound_apart()
        return 0 if sound is None else SOUND[sound.codec] * SECOND // sound.rate

    def of_pictures(self, said: Mapping[str, int]) -> int | None:
        """What is `said` of the pictures, as it is of each rendition; none if there are no pictures, or that isn't known."""
        return next((said.get(name) for name, it in self.renditions.items() if it.picture), None)

    def cut_apart(self, said: Mapping[str, int]) -> int | None:
        """By how much what is `said` of the sound is more than what is said of the pictures. None if there is no sound apart from pictures, or one of both
        isn't known."""
        sound = next((said.get(name) for name, it in self.renditions.items() if it.is_sound()), None)
        picture = self.of_pictures(said)
        return None if sound is None or picture is None else sound - picture

    def rate(self) -> Fraction:
        """How many pictures in a second the cuts go by: the lowest rate of its renditions. Of sound alone, its frames."""
        rates = [it.picture.rate for it in self.renditions.values() if it.picture]
        sounds = [Fraction(it.sound.rate, SOUND[it.sound.codec]) for it in self.renditions.values() if it.sound]
        return min(rates or sounds)


def said_of(it: Ladder) -> dict[str, Any]:
    """The ladder `it` as JSON has it."""
    renditions: dict[str, Any] = {}
    for name, one in it.renditions.items():
        said: dict[str, Any] = {"container": one.container}
        if one.picture:
            said["picture"] = {"codec": one.picture.codec, "profile": one.picture.profile, "width": one.picture.width, "height": one.picture.height,
                               "rate": str(one.picture.rate), "bits": one.picture.bits}
        if one.sound:
            said["sound"] = {"codec": one.sound.codec, "rate": one.sound.rate, "channels": one.sound.channels, "bits": one.sound.bits}
        renditions[name] = said
    return {"piece": seconds_text(it.piece), "renditions": renditions}


def file_of(it: Ladder) -> dict[str, Any]:
    """The ladder `it` as a file has it: with its shift, on which no ad depends."""
    return {**said_of(it), "shift": it.shift / SECOND}


def shift_of(found: int | None) -> int:
    """By how many nanoseconds sound is later than its playlist says, if that was `found` by its timestamps, which begin anew after WRAPS; 0 if nobody knows."""
    nearest = None if found is None else (found + WRAPS // 2) % WRAPS - WRAPS // 2
    return nearest if nearest is not None and abs(nearest) < SECOND // 2 else 0


def without_bits(said: Any) -> Any:
    """What JSON has `said` of a ladder, without its members `bits`."""
    return {name: without_bits(it) for name, it in said.items() if name != "bits"} if isinstance(said, dict) else said


def ladder_of(said: Any) -> Ladder:
    """The ladder that JSON has `said`; raises Fault if it says none that can be made."""
    try:
        piece, shift = read_duration(str(said["piece"])) or 0, float(said.get("shift", 0))
        found = {str(name): rendition_of(str(name), it) for name, it in said["renditions"].items()}
    except (KeyError, TypeError, ValueError, AttributeError, ZeroDivisionError) as fault:
        raise Fault(f"a ladder has `piece` and `renditions`, and this one doesn't read: {type(fault).__name__} {str(fault)[:100]}") from None
    return checked(Ladder(piece, found, round(shift * SECOND) if abs(shift) < 1 else 0))


def rendition_of(name: str, said: Any) -> Rendition:
    """The rendition called `name` that JSON has `said`; raises Fault, or what a wrong type does."""
    if not name or name.startswith(".") or "/" in name or not name.isprintable() or len(name) > 32:
        raise Fault(f"rendition {name[:40]!r}: a name is that of a folder")
    picture, sound = said.get("picture"), said.get("sound")
    return Rendition(
        str(said["container"]),
        None if picture is None else Picture(str(picture["codec"]), str(picture["profile"]), int(picture["width"]), int(picture["height"]),
                                             Fraction(str(picture["rate"])), int(picture["bits"])),
        None if sound is None else Sound(str(sound["codec"]), int(sound["rate"]), int(sound["channels"]), int(sound["bits"])))


def checked(it: Ladder) -> Ladder:
    """The ladder `it`, if ads can be made for it; raises Fault if they can't."""
    if not SECOND // 10 <= it.piece <= 60 * SECOND:
        raise Fault(f"a piece lasts {seconds_text(it.piece)} s, and has to last 0.1 to 60 s")
    if not 1 <= len(it.renditions) <= MOST_RENDITIONS or not any(one.picture or one.sound for one in it.renditions.values()):
        raise Fault(f"a ladder has 1 to {MOST_RENDITIONS} renditions, of which one has pictures or sound")
    for name, one in it.renditions.items():
        if why := wrong_with(one):
            raise Fault(f"rendition {name}: {why}")
    kinds = {one.container == FMP4 for one in it.renditions.values() if one.container != TEXT}  # (of WebVTT the feed leaves the section out)
    if len(kinds) > 1:
        names = ", ".join(name for name, one in it.renditions.items() if one.container == TS)
        raise Fault(f"some renditions are fragmented MP4, and {names} not: one answer can't say the ads of both")
    return it


def wrong_with(one: Rendition) -> str:
    """Why no ad can be made for the rendition `one`; empty if it can."""
    if one.container not in (TS, FMP4, TEXT):
        return f"its container is {one.container[:20]}, and not {TS}, {FMP4} or {TEXT}"
    if (one.container == TEXT) == bool(one.picture or one.sound):
        return "it has neither pictures nor sound" if one.container != TEXT else "subtitles have neither pictures nor sound"
    if (it := one.picture) is not None:
        if it.codec not in VIDEO or it.profile not in PROFILES[it.codec].values():
            return f"no pictures of {it.codec[:20]} {it.profile[:20]} are made; there are {', '.join(VIDEO)}"
        if not (16 <= it.width <= LARGEST and 16 <= it.height <= LARGEST and 1 <= it.rate <= MOST_RATE):
            return f"pictures of {it.width}x{it.height}, {it.rate} in a second, aren't made"
    if (sound := one.sound) is not None and (sound.codec not in SOUND or not 8000 <= sound.rate <= 96_000 or not 1 <= sound.channels <= 8):
        return f"no sound of {sound.codec[:20]}, {sound.rate} Hz, {sound.channels} channels is made; there are {', '.join(SOUND)}"
    return ""


# ---- by ffprobe

def piece_of(listed: Listed) -> int:
    """How long a segment of the list `listed` lasts as a rule, in nanoseconds; raises Fault if it has none."""
    found = Counter(it.duration for it in listed.segments if it.duration)
    if not found:
        raise Fault("its playlist has no segment")
    return max(found, key=lambda it: (found[it], it))


def probed(streams: list[dict[str, Any]], container: str, bits: int) -> Rendition:
    """The rendition whose segment has these `streams` by ffprobe, in the `container`; all of it has so many `bits` in a second. Raises Fault."""
    picture = next((it for it in streams if it.get("codec_type") == "video"), None)
    sound = next((it for it in streams if it.get("codec_type") == "audio"), None)
    try:
        heard = None if sound is None else sound_of(sound, bits if picture is None else SOUND_BITS)
        seen = None if picture is None else picture_of(picture, bits - (heard.bits if heard else 0))
    except (KeyError, TypeError, ValueError, ZeroDivisionError) as fault:
        raise Fault(f"ffprobe doesn't say what is needed: {str(fault)[:60]}") from None
    return Rendition(container, seen, heard)


def picture_of(it: Mapping[str, Any], bits: int) -> Picture:
    """The pictures of the stream `it`, of `bits` in a second."""
    codec = str(it["codec_name"])
    profile = PROFILES.get(codec, {}).get(str(it.get("profile")), USUAL_PROFILE.get(codec, str(it.get("profile"))))
    rates = [Fraction(str(it.get(key, "0/1"))) for key in ("r_frame_rate", "avg_frame_rate") if str(it.get(key, "0/0")) != "0/0"]
    rate = next((one for one in rates if 1 <= one <= MOST_RATE), Fraction(0))
    return Picture(codec, profile, int(it["width"]), int(it["height"]), rate, rounded(bits if bits > LEAST_BITS else USUAL_BITS))


def sound_of(it: Mapping[str, Any], bits: int) -> Sound:
    """The sound of the stream `it`, of at most `bits` in a second. (In MPEG-TS a good part of these is no sound.)"""
    channels = int(it["channels"])
    return Sound(str(it["codec_name"]), int(it["sample_rate"]), channels, rounded(min(max(bits, 32_000), CHANNEL_BITS * max(1, channels))))


def rounded(bits: int) -> int:
    """The `bits` in a second to two digits: the ladder stays the same one if a segment is a little larger."""
    step = int(10 ** max(0, len(str(max(bits, 1))) - 2))
    return max(step, round(bits / step) * step)
