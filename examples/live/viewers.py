"""Players of several kinds, each of which tells what frames it shows and when: (kind, number, seconds since it began)."""
from __future__ import annotations

import atexit
import os
import shutil
import subprocess
import tempfile
import threading
import time
from typing import IO, Any

import media
from browser import Browser
from stories import Frame
from tools import held_signals

# ffmpeg's filter that makes one gray byte of each of a frame's blocks
BLOCKS = (f"scale={media.WIDTH}:{media.HEIGHT}:flags=area,crop={media.WIDTH}:{media.BLOCK}:0:{media.HEIGHT - media.BLOCK},scale={media.BITS}:1:flags=area,format=gray")


class Pipe:
    """A player that hands its frames out as gray bytes: the blocks alone, or whole pictures."""

    def __init__(self, name: str, words: list[str], is_whole: bool = False, user: int | None = None) -> None:
        self.name, self.began = name, time.monotonic()
        self.frames: list[Frame] = []
        self.size = media.WIDTH * media.HEIGHT if is_whole else media.BITS
        self.is_whole = is_whole
        with held_signals():
            self.process = subprocess.Popen(words, stdin=subprocess.DEVNULL, stdout=subprocess.PIPE, stderr=subprocess.DEVNULL, user=user,
                                            start_new_session=True)
            atexit.register(self.end)  # (if a signal ends the script)
        assert self.process.stdout is not None
        self.source: IO[bytes] = self.process.stdout
        self.thread = threading.Thread(target=self.run, daemon=True)
        self.thread.start()

    def run(self) -> None:
        """Reads frames until there are no more."""
        while True:
            frame = self.source.read(self.size)
            if not frame or len(frame) < self.size:
                return
            shown = self.of_picture(frame) if self.is_whole else media.said(frame)
            self.frames.append((*shown, time.monotonic() - self.began))

    @staticmethod
    def of_picture(picture: bytes) -> tuple[str, int]:
        """What the blocks of a whole gray picture say."""
        line = (media.HEIGHT - media.BLOCK // 2) * media.WIDTH
        return media.said(picture[line + media.BLOCK // 2 : line + media.WIDTH : media.BLOCK])

    def end(self) -> list[Frame]:
        """Ends the player, and answers what it showed."""
        atexit.unregister(self.end)
        if self.process.poll() is None:
            self.process.terminate()
            try:
                self.process.wait(5)
            except subprocess.TimeoutExpired:
                self.process.kill()
                self.process.wait()
        self.thread.join(5)
        return self.frames


class Vlc(Pipe):
    """VLC, which writes its pictures to a file that is read as it grows; it shows each frame twice, and doesn't run as root."""

    def __init__(self, name: str, url: str) -> None:
        self.room = tempfile.mkdtemp(prefix="adsplice-vlc-")
        os.chmod(self.room, 0o777)
        self.is_going = True
        words = ["/usr/bin/vlc", "-I", "dummy", "--no-audio", "--no-osd", "--no-video-title-show", "--no-drop-late-frames", "--no-skip-frames",
                 "--avcodec-hw=none", "--vout=yuv", f"--yuv-file={self.room}/frames", "--yuv-chroma=GREY", url]
        # (VLC makes the folder of its sound, too, which it doesn't play)
        super().__init__(name, ["env", f"HOME={self.room}", f"PULSE_RUNTIME_PATH={self.room}/pulse", *words], True, 65534 if os.getuid() == 0 else None)

    def read(self, size: int) -> bytes:
        """So many bytes of the file, once they are there; none at the end, and if VLC has begun the file anew."""
        piece = b""
        while len(piece) < size:
            more = self.source.read(size - len(piece))
            piece += more
            is_anew = os.fstat(self.source.fileno()).st_size < self.source.tell()
            if is_anew or not (more or self.is_going):
                return b""
            if not more:
                time.sleep(0.02)
        return piece

    def run(self) -> None:
        """Reads the file's first line, and then frames, each with a line of its own before it (YUV4MPEG)."""
        while self.is_going and not os.path.exists(f"{self.room}/frames"):
            time.sleep(0.05)
        if not self.is_going:
            return
        with open(f"{self.room}/frames", "rb") as self.source:
            while self.is_going:
                self.source.seek(0)
                while self.read(1) not in (b"\n", b""):
                    pass
                while frame := self.read(6 + self.size):
                    shown = self.of_picture(frame[6:])
                    if not self.frames or self.frames[-1][:2] != shown:
                        self.frames.append((*shown, time.monotonic() - self.began))

    def end(self) -> list[Frame]:
        """Also takes the file away."""
        self.is_going = False
        frames = super().end()
        shutil.rmtree(self.room, ignore_errors=True)
        return frames


class Page:
    """Chromium with the page of first_channel."""

    def __init__(self, name: str, address: str) -> None:
        self.name, self.browser = name, Browser(address)
        self.missed, self.seen = 0, list[list[Any]]()

    def take_picture(self, path: str) -> None:
        """Writes a picture of the page."""
        self.browser.take_picture(path)

    def end(self) -> list[Frame]:
        """Ends the browser, and answers what it showed; `missed` is how many frames it says that it dropped, or didn't tell of, and
        `seen` is what the page tells of each frame."""
        with self.browser as it:
            self.missed = it.value("missed.dropped + missed.unseen") or 0
            self.seen = it.value("seen") or []
            frames = [(kind, number, milliseconds / 1000) for kind, number, milliseconds, _ in self.seen]
            # (a frame that is told of twice in a row stood still for so long, which is looked at by its time)
            return frames[:1] + [b for a, b in zip(frames, frames[1:]) if b[:2] != a[:2]]


def ffmpeg(name: str, url: str) -> Pipe:
    """ffmpeg, which shows each frame as soon as it has it."""
    return Pipe(name, ["ffmpeg", "-v", "error", "-i", url, "-map", "0:v:0", "-vf", BLOCKS, "-vsync", "passthrough", "-f", "rawvideo", "-"])


def mpv(name: str, url: str) -> Pipe:
    """mpv, which shows each frame as soon as it has it if it writes them out."""
    words = ["mpv", "--no-config", "--really-quiet", "--no-audio", "--o=-", "--of=rawvideo", "--ovc=rawvideo", f"--vf=lavfi=[{BLOCKS}]", url]
    return Pipe(name, words)


def gstreamer(name: str, url: str) -> Pipe:
    """GStreamer, which plays by its clock."""
    return Pipe(name, ["gst-launch-1.0", "-q", "uridecodebin", f"uri={url}", "!", "videoconvert", "!", "video/x-raw,format=GRAY8", "!",
                       "fdsink", "sync=true"], True)


# The programs that show frames, and what starts each.
KINDS = {"ffmpeg": ffmpeg, "mpv": mpv, "gst-launch-1.0": gstreamer, "vlc": Vlc}


def is_there(kind: str) -> bool:
    """Whether a player is installed; GStreamer with what it plays HLS by (gstreamer1.0-plugins-bad, gstreamer1.0-libav)."""
    if kind == "gst-launch-1.0" and shutil.which("gst-inspect-1.0"):
        return all(subprocess.run(["gst-inspect-1.0", "--exists", it], check=False).returncode == 0 for it in ("hlsdemux", "tsdemux", "avdec_h264"))
    return shutil.which(kind) is not None
