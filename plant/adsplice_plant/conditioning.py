"""How an ad is made for a ladder: where it is cut, and the words for ffmpeg. Values in, values out."""
from __future__ import annotations

from dataclasses import dataclass
from fractions import Fraction
from math import ceil
from pathlib import Path

from .ladders import FMP4, SOUND, TEXT, VIDEO, Ladder, Picture, Rendition, Sound
from .playlist import SECOND, seconds_text

SHORTEST = 4  # a rest below a fourth of a piece is no piece of its own
NEAR = SECOND // 2  # how far a file's length may be from the stated one, which is then taken
# What ffmpeg reads an ad's file as. Lists of other files (HLS, concat, DASH) aren't among them: such a file would have it read any file.
FORMATS = "mov,mp4,m4a,3gp,3g2,mj2,matroska,webm,mpegts,mpeg,avi,mxf,flv,asf"
READS = ("-protocol_whitelist", "file", "-format_whitelist", FORMATS)
DELAYED = {"aac": 1}  # frames that an encoder puts before the sound: so many of an ad's own go, and the rest is where it was
LEAD = 1  # seconds at which an ad's timestamps begin: sound of a making with more frames begins before its pictures
FRAMES = 2  # that a making's sound has more or less than come nearest to the pictures
LIST, PIECE, SECTION = "index.m3u8", "s{n}", "init.mp4"


@dataclass(frozen=True)
class Cut:
    """Where an ad is cut: the instants in nanoseconds from its begin at which its pieces end, the last one of which is its length."""

    ends: tuple[int, ...]

    def pieces(self) -> tuple[int, ...]:
        """How long each piece lasts, in nanoseconds."""
        return tuple(end - begin for begin, end in zip((0, *self.ends), self.ends))

    def length(self) -> int:
        """How long the ad lasts, in nanoseconds."""
        return self.ends[-1]


def length_of(file: int, stated: int | None) -> int:
    """How long an ad is to last whose file lasts `file` nanoseconds, and of which `stated` are said: those, if they are near."""
    return stated if stated is not None and abs(file - stated) <= NEAR else file


def cut_of(length: int, piece: int, rate: Fraction) -> Cut:
    """Where an ad of `length` nanoseconds is cut for segments of `piece` nanoseconds, between two of `rate` pictures in a second. All pieces are as
    long as the segments, and the last one has the rest; if that is short, all are equally long."""
    total = max(1, int(Fraction(length) * rate / SECOND + Fraction(1, 100)))
    usual = max(1, round(Fraction(piece) * rate / SECOND))
    whole, rest = divmod(total, usual)
    if rest and whole and rest * SHORTEST < usual:
        least, more = divmod(total, whole + 1)
        counts = [least + (n < more) for n in range(whole + 1)]
    else:
        counts = [usual] * whole + [rest] * (rest > 0)
    ends, so_far = [], 0
    for it in counts:
        so_far += it
        ends.append(round(Fraction(so_far * SECOND) / rate))
    return Cut(tuple(ends))


def frames_of(length: int, sound: Sound, more: int = 0) -> int:
    """How many frames of `sound` an ad of `length` nanoseconds gets: as many as come nearest to it, and so many `more`."""
    return max(2, round(Fraction(length * sound.rate, SECOND * SOUND[sound.codec])) + more)


def frames_over(length: int, sound: Sound) -> int:
    """How many frames of `sound` an ad of `length` nanoseconds gets within its pictures' segments: as many as last at least as long. (Chromium passes over the gap
    after sound that ends before its pictures, so all of the sound after it would come earlier.)"""
    return max(2, ceil(Fraction(length * sound.rate, SECOND * SOUND[sound.codec])))


def over_of(length: int, sound: Sound, more: int = 0) -> int:
    """By how many nanoseconds the `sound` of an ad of `length` nanoseconds lasts longer than its pictures, if it has so many frames `more`."""
    return round(Fraction(frames_of(length, sound, more) * SOUND[sound.codec] * SECOND, sound.rate)) - length


def makings_of(length: int, ladder: Ladder) -> tuple[int, ...]:
    """In which makings an ad of `length` nanoseconds has the sound that is apart from pictures in `ladder`: how many frames more each has than come nearest,
    none first, and then by their distance from the pictures. With up to FRAMES more and less, one of them brings sound within half a frame that is off by two
    frames, which is the most that is ever to be made good (balance)."""
    sound = ladder.sound_apart()
    if sound is None:
        return (0,)
    overs = {more: abs(over_of(length, sound, more)) for more in range(-FRAMES, FRAMES + 1)}
    return tuple(sorted(overs, key=lambda more: (more != 0, overs[more], abs(more))))


def folder_of(more: int) -> str:
    """The folder, within that of an ad, of its making with so many frames `more` than come nearest; of the nearest one it is the ad's own."""
    return f"{'more' if more > 0 else 'less'}-{abs(more)}" if more else ""


def ending_of(ladder: Ladder) -> str:
    """The ending of the names of the pieces for `ladder`."""
    return "m4s" if ladder.has_map() else "ts"


def arguments(source: Path, has_sound: bool, ladder: Ladder, cut: Cut, to: Path, loudness: float | None, threads: int) -> list[str]:
    """The words for ffmpeg that make the file `source` into the pieces of `cut` for each rendition of `ladder`, in folders of `to`, and sound apart in all
    makings. Silence is its sound unless it `has_sound`; that gets the `loudness` in LUFS, if there is one. Each coder has so many `threads`."""
    found = ["-nostdin", "-v", "error", "-xerror", "-y", "-filter_threads", str(threads), "-threads", str(threads), *READS, "-i", str(source)]
    if not has_sound and any(it.sound for it in ladder.renditions.values()):
        rate = next(it.sound.rate for it in ladder.renditions.values() if it.sound)
        found += ["-f", "lavfi", "-t", seconds_text(cut.length() + SECOND), "-i", f"anullsrc=r={rate}:cl=stereo"]
    for name, it in ladder.renditions.items():
        for more in makings_of(cut.length(), ladder) if it.is_sound() else (0,):
            if it.container != TEXT:
                found += output_of(it, has_sound, cut, to / folder_of(more) / name, ending_of(ladder), loudness, threads, more)
    return found


def output_of(it: Rendition, has_sound: bool, cut: Cut, to: Path, ending: str, loudness: float | None, threads: int, more: int) -> list[str]:
    """The words for the rendition `it`, whose pieces by the `cut` go to the folder `to` under names of this `ending`; the rest as in arguments():
    whether the ad `has_sound`, the `loudness` of that, the `threads` of each coder, and how many frames `more` it has than come nearest."""
    found = []
    if it.picture:
        found += ["-map", "0:v:0", *picture_words(it.picture, cut, threads)]
    if it.sound:
        frames = frames_of(cut.length(), it.sound) if it.is_sound() else frames_over(cut.length(), it.sound)
        found += ["-map", "0:a:0" if has_sound else "1:a:0", *sound_words(it.sound, frames, loudness if has_sound else None, more)]
    time = spacing_of(it, cut, more) / SECOND
    found += ["-map_metadata", "-1", "-map_chapters", "-1", "-sn", "-dn", "-output_ts_offset", str(LEAD), "-f", "hls", "-hls_time", f"{float(time):.6f}", "-hls_list_size", "0",
              "-hls_playlist_type", "vod"]
    if it.container == FMP4:
        found += ["-hls_segment_type", "fmp4", "-hls_fmp4_init_filename", SECTION, "-hls_segment_options", "movflags=+frag_discont"]  # (timestamps are in each piece, not in an edit list)
    else:
        found += ["-muxdelay", "0", "-muxpreload", "0"]
    return [*found, "-hls_segment_filename", f"{to}/s%d.{ending}", f"{to}/{LIST}"]


def spacing_of(it: Rendition, cut: Cut, more: int) -> Fraction:
    """How many nanoseconds apart the muxer is to cut the rendition `it` by the `cut`: it cuts at the first key frame after each multiple of that, which is
    before a piece's end by less than half a picture in all. Sound that has `more` frames lasts on after the last piece's end, and no piece begins there."""
    longest, count = max(cut.pieces()), len(cut.ends)
    rate = it.picture.rate if it.picture else Fraction(it.sound.rate, SOUND[it.sound.codec]) if it.sound else Fraction(1)
    found = longest - min(SECOND / (2 * rate), Fraction(longest, 4)) / count
    if it.sound is None or it.picture is not None:
        return found
    return max(found, (frames_of(cut.length(), it.sound, more) - Fraction(1, 2)) * SECOND / rate / count)


def picture_words(it: Picture, cut: Cut, threads: int) -> list[str]:
    """The words for pictures like `it`, with a key frame at the begin of each piece of `cut` and at no other place. Their coder has so many `threads`."""
    count = max(1, round(Fraction(cut.length()) * it.rate / SECOND))
    size = f"{it.width}:{it.height}"
    chain = (f"yadif=deint=interlaced,fps={it.rate}:start_time=0,scale={size}:force_original_aspect_ratio=decrease,pad={size}:(ow-iw)/2:(oh-ih)/2,setsar=1,"
             f"format=yuv420p,tpad=stop=-1:stop_mode=clone,trim=end_frame={count}")
    early = round(Fraction(SECOND) / it.rate / 4)  # (ffmpeg rounds these times to pictures, and takes the first one that isn't earlier)
    begins = ",".join(seconds_text(max(0, end - early)) for end in (0, *cut.ends[:-1]))
    found = ["-vf", chain, "-r", str(it.rate), "-c:v", VIDEO[it.codec], "-preset", "veryfast", "-profile:v", it.profile, "-pix_fmt", "yuv420p", "-bf", "0",
             "-g", str(count + 1), "-force_key_frames", begins, "-b:v", str(it.bits), "-maxrate", str(it.bits * 6 // 5), "-bufsize", str(2 * it.bits),
             "-threads", str(threads)]
    if it.codec == "hevc":
        return [*found, "-tag:v", "hvc1", "-x265-params", f"log-level=error:scenecut=0:bframes=0:open-gop=0:keyint={count + 1}:min-keyint=1:pools={threads}"]
    return [*found, "-sc_threshold", "0", "-forced-idr", "1"]


def sound_words(it: Sound, frames: int, loudness: float | None, more: int) -> list[str]:
    """The words for sound like `it` of so many `frames`, of the `loudness` in LUFS if there is one (EBU R 128), with so many frames `more` before them."""
    louder = f"loudnorm=I={loudness:g}:TP=-1:LRA=11," if loudness is not None else ""
    layout = {1: "mono", 2: "stereo", 6: "5.1", 8: "7.1"}.get(it.channels, f"{it.channels}c")
    begin, end = (LEAD * it.rate + count * SOUND[it.codec] for count in (DELAYED.get(it.codec, 0) - more, frames))
    chain = f"{louder}aresample={it.rate}:async=1:first_pts=0,aformat=channel_layouts={layout},adelay={LEAD * it.rate}S:all=1,apad,atrim=start_sample={begin}:end_sample={end},asetpts=PTS-{LEAD}/TB"
    return ["-af", chain, "-ar", str(it.rate), "-ac", str(it.channels), "-c:a", it.codec, "-b:a", str(it.bits)]


def list_of(cut: Cut, ending: str, has_map: bool) -> str:
    """The media playlist of an ad with the pieces of `cut`, whose names have this `ending`; it `has_map` if there is an initialisation section."""
    target = max(1, *((it + SECOND // 2) // SECOND for it in cut.pieces()))
    head = ["#EXTM3U", f"#EXT-X-VERSION:{7 if has_map else 3}", f"#EXT-X-TARGETDURATION:{target}", "#EXT-X-PLAYLIST-TYPE:VOD", *([f'#EXT-X-MAP:URI="{SECTION}"'] if has_map else [])]
    pieces = [f"#EXTINF:{seconds_text(it)},\n{PIECE.format(n=n)}.{ending}" for n, it in enumerate(cut.pieces())]
    return "\n".join([*head, *pieces, "#EXT-X-ENDLIST", ""])
