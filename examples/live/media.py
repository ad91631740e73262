"""The pictures of the first channel: a programme and advertisements by ffmpeg, in which each frame says which one it is.

The lowest 16 lines of a frame are 20 blocks, dark for 0 and light for 1: two bits for what the picture is of (KINDS), and
18 for the frame's number in it. So a frame that was lost or shown twice is found in what a player shows.
"""
from __future__ import annotations

import os
import subprocess
from collections.abc import Iterable, Sequence
from typing import Any

RATE = 10  # frames a second
SECONDS = 2  # a segment's duration, which is also the playlist's target duration
FRAMES = RATE * SECONDS  # of a segment
WIDTH, HEIGHT, BLOCK, BITS = 320, 180, 16, 20
KINDS = ("programme", "ad a", "ad b", "fallback")
FILES = {"ad a": "a", "ad b": "b", "fallback": "f"}
CLIP = 5  # segments of an advertisement's file
# The renditions' pictures: width, height, the encoder's bits a second, and the most that a segment has with sound (BANDWIDTH)
SIZES = ((320, 180, "200k", 400_000), (640, 360, "600k", 1_000_000), (960, 540, "1200k", 1_800_000), (1280, 720, "2500k", 3_500_000))
Ads = list[tuple[str, int]]  # of a pod: (kind, number of segments)
BANDWIDTHS = tuple(most for *_, most in SIZES)
LIST_SIZE = 30  # segments that the packager's playlist has: a minute, which is longer than any viewer is behind


def numbered(kind: str) -> str:
    """ffmpeg's filters that draw the blocks onto a picture of a kind."""
    boxes = [f"drawbox=x=0:y={HEIGHT - BLOCK}:w={WIDTH}:h={BLOCK}:color=black:t=fill"]
    for place in range(BITS):
        bit = BITS - 1 - place
        box = f"drawbox=x={place * BLOCK}:y={HEIGHT - BLOCK}:w={BLOCK}:h={BLOCK}:color=white:t=fill"
        if bit < 18:
            boxes.append(f"{box}:enable='mod(floor(n/{1 << bit}),2)'")
        elif KINDS.index(kind) >> (bit - 18) & 1:
            boxes.append(box)
    return ",".join(boxes)


def said(row: bytes) -> tuple[str, int]:
    """What a row of gray blocks says: the kind of picture and the frame's number."""
    value = int("".join("1" if it > 127 else "0" for it in row), 2)
    return KINDS[value >> 18], value & 0x3FFFF


def coded(seconds: int = SECONDS) -> list[str]:
    """ffmpeg's words for small pictures, a tone, and a key frame every so many seconds."""
    return ["-r", str(RATE), "-g", str(RATE * seconds), "-keyint_min", str(RATE * seconds), "-sc_threshold", "0", "-bf", "0", "-c:v", "libx264", "-preset", "ultrafast",
            "-pix_fmt", "yuv420p", "-b:v", SIZES[0][2], "-c:a", "aac", "-b:a", "48k", "-ar", "48000"]


def titled(text: str) -> str:
    """ffmpeg's filter that writes a text into the middle of the picture."""
    return f"drawtext=text='{text}':fontsize=40:fontcolor=white:box=1:boxcolor=black@0.5:boxborderw=8:x=(w-tw)/2:y=(h-th)/2-10"


def split(renditions: int) -> str:
    """ffmpeg's filters that make the picture of its first input in the sizes of so many renditions: [v1], [v2] .."""
    numbers = range(1, renditions + 1)
    names = "".join(f"[s{n}]" for n in numbers)
    scaled = ";".join(f"[s{n}]scale={SIZES[n - 1][0]}:{SIZES[n - 1][1]}:flags=neighbor[v{n}]" for n in numbers)
    return f"[0:v]split={renditions}{names};{scaled}"


def programme_words(folder: str, renditions: int = 1) -> list[str]:
    """The packager: ffmpeg's test picture and tone as live playlists of 2 s segments with dates, `folder`/1/index.m3u8 and so
    on: renditions of one picture with the same cuts and times."""
    picture = f"testsrc2=size={WIDTH}x{HEIGHT}:rate={RATE},{numbered('programme')}"
    numbers = range(1, renditions + 1)
    maps = [word for n in numbers for word in ("-map", f"[v{n}]", "-map", "1:a")]
    rates = [word for n in numbers for word in (f"-b:v:{n - 1}", SIZES[n - 1][2])]
    for n in numbers:
        os.makedirs(f"{folder}/{n}", exist_ok=True)
    return ["ffmpeg", "-v", "error", "-re", "-f", "lavfi", "-i", picture, "-re", "-f", "lavfi", "-i", "sine=frequency=440:sample_rate=48000",
            "-filter_complex", split(renditions), *maps, *coded(), *rates, "-var_stream_map", " ".join(f"v:{n - 1},a:{n - 1},name:{n}" for n in numbers),
            "-f", "hls", "-hls_time", str(SECONDS), "-hls_list_size", str(LIST_SIZE), "-hls_delete_threshold", "15",
            "-hls_flags", "program_date_time+delete_segments+temp_file+independent_segments",
            "-hls_segment_filename", f"{folder}/%v/p-%d.ts", f"{folder}/%v/index.m3u8"]


def make_ads(folder: str, renditions: int = 1) -> None:
    """Makes the files of the advertisements for each rendition, in its size, cut like the programme (1/a-0.ts ..), and in pieces
    of 1 s (1/a1-0.ts ..)."""
    looks = {"ad a": ("0x803020", "Ad A", 660), "ad b": ("0x205080", "Ad B", 550), "fallback": ("0x306030", "Fallback", 330)}
    for kind, (colour, title, tone) in looks.items():
        picture = f"color=c={colour}:size={WIDTH}x{HEIGHT}:rate={RATE},{titled(title)},{numbered(kind)}"
        words = ["ffmpeg", "-v", "error", "-f", "lavfi", "-i", picture, "-f", "lavfi", "-i", f"sine=frequency={tone}:sample_rate=48000"]
        cuts = [(n, seconds) for n in range(1, renditions + 1) for seconds in (SECONDS, 1)]
        words += ["-filter_complex", ";".join([split(renditions), *(f"[v{n}]split=2[v{n}c{SECONDS}][v{n}c1]" for n in range(1, renditions + 1))])]
        for n, seconds in cuts:
            os.makedirs(f"{folder}/{n}", exist_ok=True)
            path = f"{folder}/{n}/{FILES[kind]}{'' if seconds == SECONDS else seconds}"
            words += ["-map", f"[v{n}c{seconds}]", "-map", "1:a", "-t", str(CLIP * SECONDS), *coded(seconds), "-b:v", SIZES[n - 1][2], "-f", "hls",
                      "-hls_time", str(seconds), "-hls_list_size", "0", "-hls_segment_filename", f"{path}-%d.ts", f"{path}.m3u8"]
        subprocess.run(words, check=True, stdin=subprocess.DEVNULL)


def master(addresses: Iterable[str], bandwidths: Sequence[int] = BANDWIDTHS) -> str:
    """The master playlist of a ladder whose renditions' playlists have these addresses, and say these bandwidths (RFC 8216, 4.3.4)."""
    lines = ["#EXTM3U", "#EXT-X-VERSION:6", "#EXT-X-INDEPENDENT-SEGMENTS"]
    for (width, height, *_), bandwidth, address in zip(SIZES, bandwidths, addresses):
        lines += [f'#EXT-X-STREAM-INF:BANDWIDTH={bandwidth},RESOLUTION={width}x{height},FRAME-RATE={RATE}.000,CODECS="avc1.42c01f,mp4a.40.2"', address]
    return "\n".join([*lines, ""])


def pod_kinds(kinds: Sequence[str], segments: int) -> Ads:
    """A pod of so many segments: its ads in turn, each as (kind, number of segments), cut short if the break is."""
    ads: Ads = []
    left, place = segments, 0
    most = min(CLIP, max(1, -(-segments // len(kinds))))
    while left:
        ads.append((kinds[place % len(kinds)], min(most, left)))
        left -= ads[-1][1]
        place += 1
    return ads


def pod(ads: Ads, url: str, seconds: int = SECONDS) -> list[dict[str, Any]]:
    """The pod as a decision file has it, cut so; `url` is the address of the advertisements' folder."""
    cut = "" if seconds == SECONDS else str(seconds)
    return [{"segments": [{"uri": f"{url}/{FILES[kind]}{cut}-{n}.ts", "duration": str(seconds)} for n in range(count * SECONDS // seconds)]}
            for kind, count in ads]


def pod_frames(ads: Ads) -> list[tuple[str, int]]:
    """What the pod shows: the segments in order, each as (kind, its first frame's number)."""
    return [(kind, n * FRAMES) for kind, count in ads for n in range(count)]
