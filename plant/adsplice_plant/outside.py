"""Where requests for ads may lead: what an ad server names comes from outside, and a person wrote the ad server's URL alone."""
from __future__ import annotations

import functools
from dataclasses import dataclass

from .reach import Network, Reach
from .urls import host_of
from .web import Client, strays


@dataclass(frozen=True)
class Outside:
    """The URL `first` that a person wrote, whether `redirects` lead to other hosts (those of wrappers, of films, and of redirects), and the `networks`
    to which these may lead beside public addresses; none for the addresses of the first host."""

    first: str
    redirects: bool = True
    networks: tuple[Network, ...] | None = None

    @functools.cached_property
    def reach(self) -> Reach:
        """Which addresses requests reach: one for all of them, so that a name that was public doesn't become another kind of address."""
        return Reach(frozenset({host_of(self.first)}), self.networks)

    def client(self, limit: float) -> Client:
        """Who asks what `first` leads to, each request within `limit` seconds."""
        return Client(limit, self.redirects, self.reach)

    def strays(self, url: str) -> str:
        """Why the `url`, to which `first` led, isn't asked; empty if it may be."""
        return strays(url, self.first, self.redirects, self.reach)
