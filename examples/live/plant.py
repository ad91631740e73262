"""The first channel's plant: a packager, two processes of adsplice behind nginx, relays, an ad server, a site for page and media."""
from __future__ import annotations

import os
import shutil
import socket
import subprocess
import threading
import time
from collections.abc import Callable, Sequence

import media
from relay import Plan, Relay, listen
from tools import HERE, ROOT, Processes, configure_nginx, free_ports, request, wait_for, write_aside

# What the page may do (Content Security Policy): run its own script alone, and read from its own host alone, whatever its address says.
POLICY = "; ".join(("default-src 'none'", "script-src 'self'", "style-src 'self'", "connect-src http://$host:*", "media-src http://$host:* blob:",
                    "base-uri 'none'", "form-action 'none'", "frame-ancestors 'none'"))
# The page, the media, the master playlists and `why`: what a real plant has on its own servers.
SITE = """
    types { text/html html; text/css css; text/javascript js; video/mp2t ts; application/vnd.apple.mpegurl m3u8; }
    server {
        listen HOST:PORT;
        root ROOM/site;
        add_header Access-Control-Allow-Origin "*";
        add_header Content-Security-Policy "POLICY";
        add_header X-Content-Type-Options nosniff;
        location ~ "^/channels/[a-z0-9-]+/why$" { proxy_pass http://$adsplice_read; }
    }
"""


class Plant:
    """A programme in so many renditions, two processes of adsplice, nginx in front of them, and the page to watch it by."""

    def __init__(self, processes: Processes, program: str, room: str, host: str, port: int, viewers: int, operator: int, renditions: int = 1,
                 tell: Callable[[str], object] = lambda text: None) -> None:
        """`port`, `viewers`, `operator`: of the page, of viewers' playlists, and for PUTs; `tell` prints what is done next."""
        self.processes, self.room, self.renditions = processes, room, renditions
        self.site, self.viewers = f"http://{host}:{port}", f"http://{host}:{viewers}"
        self.address = socket.gethostbyname(host)  # at which the feed looks for the ads
        *self.ports, self.decider, self.ad_server = free_ports(4)
        self.operator = f"http://127.0.0.1:{operator}"
        self.relays: list[Relay] = []
        processes.stops.append(self.stop)
        os.makedirs(f"{room}/site/media/programme")
        for name, copy in (("watch.html", "index.html"), ("watch.css", "watch.css"), ("watch.js", "watch.js")):
            shutil.copy(f"{HERE}/{name}", f"{room}/site/{copy}")
        tell("makes the advertisements")
        media.make_ads(f"{room}/site/media/ads", renditions)
        tell("starts adsplice, nginx, the packager and the feed")
        self.running = {it: processes.adsplice(program, it) for it in self.ports}
        server = SITE.replace("HOST", host).replace("PORT", str(port)).replace("ROOM", room)
        server = server.replace("POLICY", POLICY)
        self.configuration = configure_nginx(room, self.ports, f"{host}:{viewers}", operator, server)
        self.nginx = processes.nginx(self.configuration)
        wait_for(operator)
        self.packager = processes.start(media.programme_words(f"{room}/site/media/programme", renditions), stderr=None)

    def relay(self, name: str, plan: Plan, rendition: int = 1, kind: type[Relay] = Relay) -> Relay:
        """A relay of a kind between a rendition of the programme and the channel's feed."""
        playlist = f"{self.room}/site/media/programme/{rendition}/index.m3u8"
        self.relays.append(kind(name, plan, playlist, self.operator, self.site, f"{self.room}/feed", rendition))
        return self.relays[-1]

    def channel(self, name: str, plan: Plan, kind: type[Relay] = Relay) -> Relay:
        """Starts a channel with a plan of breaks, by a kind of relay; answers that."""
        return self.relay(name, plan, kind=kind).start(self.processes)

    def names(self, name: str) -> list[str]:
        """The channels of a programme, one for each rendition."""
        return [f"{name}-{n}" for n in range(1, self.renditions + 1)]

    def decide(self, name: str) -> str:
        """Starts a VAST ad server with two films, and adsplice-decide between it and the feed of the programme `name`; answers the address at which it
        is asked. The ads are made for the programme's renditions while the first break goes by."""
        self.processes.start([f"{HERE}/ad_server", f"{self.room}/films", "--make", "--port", str(self.ad_server)])
        wait_for(self.ad_server)
        write_aside(f"{self.room}/decide.ini", f"[DEFAULT]\nstore = {self.room}/site/media/pods\nkeep = {self.room}/decide\nat = {self.site}/media/pods\n"
                    f"feed = {self.room}/feed/{name}.ini\n[{name}]\nvast = http://127.0.0.1:{self.ad_server}/vast?d=[BREAKMAXDURATION]\n")
        self.processes.start([f"{ROOT}/plant/adsplice-decide", "--config", f"{self.room}/decide.ini", "--listen", f"127.0.0.1:{self.decider}"])
        wait_for(self.decider)
        return f"http://127.0.0.1:{self.decider}/decide"

    def programme(self, name: str, plan: Plan, words: Sequence[str] = (), kind: type[Relay] = Relay, ask: str | None = None) -> list[Relay]:
        """Starts a programme as a ladder with a plan of breaks: a channel for each rendition with a kind of relay, one feed for all,
        with these words more, and the master playlist. `ask`: the address of its ad server. Answers the relays, which share their list
        of faults."""
        relays = [self.relay(it, plan, n, kind) for n, it in enumerate(self.names(name), 1)]
        folder = f"{self.room}/feed/{name}-{{}}"
        numbers = " ".join(str(n) for n in range(1, self.renditions + 1))
        write_aside(f"{self.room}/feed/{name}.ini", f"[{name}]\nrenditions = {numbers}\nat = {self.operator}\norigin = {folder}/index.m3u8\n"
                    f"base = {self.site}/media/programme/{{}}/index.m3u8\ndecisions = {folder}/decisions\nfallback = {folder}/fallback.json\n"
                    f"keep = {self.room}/feed/kept\n" + (f"ask = {ask}\nverify = yes\nnetworks = {self.address}\n" if ask else ""))
        write_aside(f"{self.room}/site/{name}.m3u8", media.master([self.playlist(it) for it in self.names(name)]))
        self.start_feed(name, relays, words)
        for it in relays:
            it.thread.start()
        return relays

    def start_feed(self, name: str, relays: list[Relay], words: Sequence[str] = ()) -> None:
        """Starts the feed of a programme's relays; one that was there is no more."""
        feed = self.processes.start([f"{ROOT}/plant/adsplice-feed", "--config", f"{self.room}/feed/{name}.ini", *words],
                                    stdout=subprocess.PIPE, stderr=None, text=True)
        for it in relays:
            it.faults, it.feed = relays[0].faults, feed
        threading.Thread(target=listen, args=(feed.stdout, relays[0].faults), daemon=True).start()

    def end_relay(self, relay: Relay) -> None:
        """Ends a channel's relay and its feed."""
        relay.going = False
        relay.thread.join(5)
        if relay.feed is not None:
            self.processes.end(relay.feed)

    def page(self, name: str, is_ladder: bool = False) -> str:
        """The address at which a channel, or a programme's ladder, is watched."""
        return f"{self.site}/?{'programme' if is_ladder else 'channel'}={name}&playlists={self.viewers}"

    def master(self, name: str) -> str:
        """The address of a programme's master playlist."""
        return f"{self.site}/{name}.m3u8"

    def playlist(self, name: str) -> str:
        """The address that viewers read."""
        return f"{self.viewers}/channels/{name}/live.m3u8"

    def is_shown(self, name: str, seconds: int = 60) -> bool:
        """Whether a channel's playlist has six segments within that time: a player that comes earlier stays close to the end."""
        for _ in range(seconds * 2):
            if request("GET", self.playlist(name))[2].count("#EXTINF") >= 6:
                return True
            time.sleep(0.5)
        return False

    def stop(self) -> None:
        """Ends the relays; the processes end with their block."""
        for it in self.relays:
            it.going = False
        for it in self.relays:
            if it.thread.is_alive():
                it.thread.join(5)
