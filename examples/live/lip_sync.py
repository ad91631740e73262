"""Films that flash and beep at each full second, and how far flashes and beeps are apart in what is played of them.

ffmpeg decodes what is between two discontinuities, by the timestamps of its own: a player puts the pictures and the sound of one Discontinuity Sequence
Number in one place (RFC 8216, 6.2.4). Chromium plays a list in a page that tells of each flash and beep. The colour after a flash and the pitch of a beep
say which film each of them is of.
"""
from __future__ import annotations

import array
import functools
import http.server
import os
import subprocess
import threading
from collections.abc import Callable
from typing import Any, NamedTuple

from tools import fail

MOST = 0.045  # seconds between a flash and its beep
RATE, SOUND = 25, 48_000  # of the programme
LIGHT, LOUD = 128, 3000  # of a flash, and of a beep
NEAR = 0.4  # seconds within which a beep is one of a flash
RESTS = ("-bf", "0", "-g", str(2 * RATE), "-keyint_min", str(2 * RATE), "-sc_threshold", "0")
LATER = 0.4  # where an ad's second has its flash: a coder's first frame of sound is silent
DARK, TONES = (16, 64), (880, 440)  # the red of the pictures, and the pitch: of the programme, and of an ad
PAGE = """<!doctype html><title>lip sync</title><video id=video crossorigin=anonymous></video><script>
const flashes = [], beeps = [], shown = [], played = [], pen = new OffscreenCanvas(1, 1).getContext("2d", { willReadFrequently: true });
let flash = null, fault = "";
function note(clocks, by) { clocks.push(by); if (clocks.length > 250) clocks.shift(); }
function middle(clocks) { return [...clocks].sort((one, other) => one - other)[clocks.length >> 1]; }
// Screens and sinks go at their own pace, and rougher on a busy machine: so the middle counts of ten seconds, five before and five after.
function tell(found, clocks, at, what) { setTimeout(() => found.push([at + middle(clocks), what[0]]), 5000); }
function seen(now, frame) {
  pen.drawImage(video, 0, 0, 1, 1);
  const red = pen.getImageData(0, 0, 1, 1).data[0], clock = audio.getOutputTimestamp();
  note(shown, frame.expectedDisplayTime / 1000 - frame.mediaTime);
  note(played, clock.performanceTime / 1000 - clock.contextTime);
  if (red > 128 && !flash) tell(flashes, shown, frame.mediaTime, flash = [0]);
  if (red <= 128 && flash) [flash[0], flash] = [red, null];
  video.requestVideoFrameCallback(seen);
}
video.requestVideoFrameCallback(seen);
video.addEventListener("error", () => { fault = video.error.message || "error " + video.error.code; });
const audio = new AudioContext(), ear = `registerProcessor("ear", class extends AudioWorkletProcessor {
  constructor() { super(); Object.assign(this, { quiet: 0, since: 0, before: 0, beep: null }); }
  process([[heard = []]]) {
    for (let n = 0; n < heard.length; n++) {
      const sign = Math.sign(heard[n]);
      if (this.beep && sign && this.before && sign !== this.before) this.beep[1]++;
      [this.since, this.before] = [this.since + 1, sign || this.before];
      if (this.beep && this.since >= 0.03 * sampleRate) { this.port.postMessage(this.beep); this.beep = null; }
      if (Math.abs(heard[n]) < 0.1) { this.quiet++; continue; }
      if (this.quiet > 9600) [this.beep, this.since] = [[(currentFrame + n) / sampleRate, 0], 0];
      this.quiet = 0;
    }
    return true;
  }
});`;
async function listen() {
  await audio.audioWorklet.addModule(URL.createObjectURL(new Blob([ear], { type: "text/javascript" })));
  const node = new AudioWorkletNode(audio, "ear");
  audio.createMediaElementSource(video).connect(node).connect(audio.destination);
  node.port.onmessage = (it) => tell(beeps, played, it.data[0], [it.data[1]]);
  video.src = new URLSearchParams(location.search).get("list");
  await video.play();
}
listen().catch((it) => { fault = String(it); });
function taken() { return [flashes.splice(0), beeps.splice(0)]; }
</script>"""


def run(*words: str, **more: Any) -> bytes:
    """The output of a program; a fault ends the script."""
    done = subprocess.run(words, stdin=more.pop("stdin", subprocess.DEVNULL), capture_output=True, check=False, **more)
    if done.returncode:
        fail(f"{words[0]}: {done.stderr.decode('utf-8', 'replace').strip().splitlines()[-1:]}")
    return bytes(done.stdout)


def film(path: str, seconds: float, rate: int, sound: int, is_ad: bool = False) -> None:
    """A film of so many seconds, pictures and samples a second that flashes for two pictures and beeps once in a second: at its begin, an ad at LATER."""
    later = LATER if is_ad else 0.0
    flash = f"color=c=#{DARK[is_ad]:02x}0000:s=160x90:r={rate},drawbox=color=white:t=fill:enable='lt(mod(n+{rate - round(later * rate)},{rate}),2)'"
    beep = f"aevalsrc=exprs='0.5*sin(2*PI*{TONES[is_ad]}*t)*between(t,{later},{later + 0.04})':s={sound}:c=mono"
    run("ffmpeg", "-v", "error", "-y", "-f", "lavfi", "-i", beep, "-t", "1", f"{path}.wav")  # (a second of it, again and again: to reckon each sample takes long)
    run("ffmpeg", "-v", "error", "-y", "-f", "lavfi", "-i", flash, "-stream_loop", "-1", "-i", f"{path}.wav", "-t", str(seconds), "-c:v", "libx264", "-preset", "ultrafast", "-pix_fmt", "yuv420p", *RESTS,
        "-c:a", "aac", "-b:a", "64k", path)
    os.remove(f"{path}.wav")


def is_of_ad(red: float) -> bool:
    """Whether pictures whose red is so are those of an ad."""
    return red > sum(DARK) / 2


def is_tone_of_ad(crossings: float) -> bool:
    """Whether a beep that changes its sign so often within 0.03 s is an ad's."""
    return crossings < 0.03 * sum(TONES)


def write(path: str, text: str) -> None:
    """Writes a file."""
    with open(path, "w", encoding="utf-8") as it:
        it.write(text)


def times_of(room: str, name: str) -> list[tuple[float, int]]:
    """The instant of each packet that ffmpeg wrote, and its size."""
    found, base = [], 0.0
    with open(f"{room}/{name}", encoding="ascii") as it:
        for line in it:
            if line.startswith("#tb"):
                over, under = line.partition(":")[2].split("/")
                base = int(over) / int(under)
            elif line[0] != "#":
                parts = line.split(",")
                found.append((int(parts[2]) * base, int(parts[4])))
    return found


def joined(room: str, name: str, files: list[str]) -> str:
    """The bytes of the files one after the other, in a file."""
    with open(f"{room}/{name}", "wb") as it:
        for path in files:
            with open(path, "rb") as part:
                it.write(part.read())
    return f"{room}/{name}"


class Stretch(NamedTuple):
    """A stream between two discontinuities: when it flashes or beeps (`marks`), where it begins, both by its timestamps, and how long it lasts."""

    marks: list[float]
    begin: float
    lasts: float


def flashes_in(room: str, path: str) -> Stretch:
    """When the pictures of a file flash."""
    gray = ["-an", "-vf", "scale=1:1:flags=area,format=gray", "-vsync", "passthrough"]
    run("ffmpeg", "-v", "error", "-y", "-copyts", "-i", path, *gray, "-f", "rawvideo", f"{room}/v.raw", *gray, "-f", "framecrc", f"{room}/v.crc")
    with open(f"{room}/v.raw", "rb") as it:
        lights = [it > LIGHT for it in it.read()]
    times = times_of(room, "v.crc")
    return Stretch([at for n, (at, _) in enumerate(times) if lights[n] and not (n and lights[n - 1])], times[0][0], len(times) / RATE)


def beeps_in(room: str, path: str) -> Stretch:
    """When the sound of a file beeps."""
    heard = ["-vn", "-ac", "1", "-ar", str(SOUND)]
    run("ffmpeg", "-v", "error", "-y", "-copyts", "-i", path, *heard, "-f", "s16le", f"{room}/a.raw", *heard, "-c:a", "pcm_s16le", "-f", "framecrc", f"{room}/a.crc")
    samples = array.array("h")
    with open(f"{room}/a.raw", "rb") as it:
        samples.frombytes(it.read())
    beeps, place, last = list[float](), 0, -1.0
    times = times_of(room, "a.crc")
    for at, size in times:
        part = samples[place:place + size // 2]
        for n in [n for n, it in enumerate(part) if abs(it) > LOUD] if part and (max(part) > LOUD or min(part) < -LOUD) else []:  # (to look at each sample takes long)
            now = at + n / SOUND
            if now - last > NEAR / 2:
                beeps.append(now)
            last = now
        place += size // 2
    return Stretch(beeps, times[0][0], len(samples) / SOUND)


def apart(flashes: list[float], beeps: list[float]) -> list[tuple[float, float]]:
    """How long after each flash its beep comes, in seconds; nothing for one without a beep."""
    near = [(at, [beep - at for beep in beeps if abs(beep - at) < NEAR]) for at in flashes]
    return [(at, min(its, key=abs)) for at, its in near if its]


class EndToEnd:
    """A player that puts the first stretch of sound and of pictures where their timestamps say, and joins each stream end to end from there on."""

    def __init__(self) -> None:
        self.by: float | None = None  # how long after the next stretch of the pictures that of the sound begins

    def add(self, pictures: Stretch, sound: Stretch) -> list[tuple[float, float]]:
        """It plays the next stretch of both: each flash, with how long after it its beep comes."""
        own = sound.begin - pictures.begin
        by = own if self.by is None else self.by
        self.by = by + sound.lasts - pictures.lasts
        return [(at, found + by - own) for at, found in apart(pictures.marks, sound.marks)]


def told(found: list[tuple[float, float]]) -> str:
    """The least, the middle and the greatest of what is apart, in milliseconds."""
    its = sorted(round(1000 * by) for _, by in found)
    return f"{its[0]}, {its[len(its) // 2]} and {its[-1]} ms" if its else "nothing"


class Site(http.server.SimpleHTTPRequestHandler):
    """The files of a folder, for pages of any host."""

    protocol_version = "HTTP/1.1"
    extensions_map = {**http.server.SimpleHTTPRequestHandler.extensions_map, ".m3u8": "application/vnd.apple.mpegurl", ".ts": "video/mp2t", ".m4s": "video/mp4", ".mp4": "video/mp4",
                      ".vtt": "text/vtt"}

    def end_headers(self) -> None:
        """Other hosts' pages may read it."""
        self.send_header("Access-Control-Allow-Origin", "*")
        super().end_headers()

    def log_message(self, *_: object) -> None:
        """Nothing is printed."""


def serve(folder: str, kind: Callable[..., Site] = Site) -> int:
    """A server of the files of a folder, by a `kind` of Site: its port."""
    server = http.server.ThreadingHTTPServer(("127.0.0.1", 0), functools.partial(kind, directory=folder))
    server.daemon_threads = True
    threading.Thread(target=server.serve_forever, daemon=True).start()
    return int(server.server_port)
