"""Figures of adsplice-decide for Prometheus."""
from __future__ import annotations

from collections.abc import Iterator, Mapping

from prometheus_client import CollectorRegistry, generate_latest
from prometheus_client.core import CounterMetricFamily, GaugeMetricFamily, HistogramMetricFamily, Metric
from prometheus_client.registry import Collector

from .ad_store import Store
from .deciding import BUCKETS, SLATE, Channel
from .playlist import SECOND

WORDS = ("NoAds", "NoLadder", "NotReady", "DoesNotFit", "Late", "Unanswered", "Wrong", "Wrapper")  # what may be lacking
STATUSES = ("200", "204")


class Figures(Collector):
    """The figures of `channels`, by their names, and of the `store` of ads."""

    def __init__(self, channels: Mapping[str, Channel], store: Store) -> None:
        self.channels, self.store = channels, store
        self.strange = 0  # questions that weren't any, or of no channel

    def text(self) -> bytes:
        """All figures as Prometheus reads them."""
        registry = CollectorRegistry()
        registry.register(self)
        return generate_latest(registry)

    def collect(self) -> Iterator[Metric]:
        """All figures as they are now."""
        yield from self.answers()
        ads = GaugeMetricFamily("adsplice_decide_ads", "Ads of the store by their state", labels=["state"])
        for state, count in self.store.counts().items():
            ads.add_metric([state], count)
        yield ads
        yield CounterMetricFamily("adsplice_decide_made", "Ads that were made", value=self.store.made_count)
        yield GaugeMetricFamily("adsplice_decide_store_bytes", "Bytes that the ads take", value=self.store.bytes)
        yield GaugeMetricFamily("adsplice_decide_room_bytes", "Bytes that the ads may take", value=self.store.bounds.room)
        yield CounterMetricFamily("adsplice_decide_refused", "Requests that were no question, or of no channel", value=self.strange)

    def answers(self) -> Iterator[Metric]:
        """The figures of the channels' answers."""
        answers = CounterMetricFamily("adsplice_decide_answers", "Answers to questions by their status", labels=["channel", "status"])
        lacks = CounterMetricFamily("adsplice_decide_lacks", "Ads and answers that were lacking, by the word of why", labels=["channel", "why"])
        took = HistogramMetricFamily("adsplice_decide_answer_seconds", "How long answers took", labels=["channel"])
        sold = CounterMetricFamily("adsplice_decide_sold_seconds", "Seconds of the answers, by ads and by the slate", labels=["channel", "what"])
        tracked = CounterMetricFamily("adsplice_decide_tracked", "What was called for ads that were shown", labels=["channel", "event", "result"])
        ladder = GaugeMetricFamily("adsplice_decide_ladder", "Whether it is known what the channel's ladder is like", labels=["channel"])
        for name, it in self.channels.items():
            ladder.add_metric([name], float(it.ladder is not None))
            with it.lock:
                for status in dict.fromkeys([*STATUSES, *it.counts.answers]):
                    answers.add_metric([name, status], it.counts.answers[status])
                for word in dict.fromkeys([*WORDS, *it.counts.lacks]):
                    lacks.add_metric([name, word], it.counts.lacks[word])
                for what in ("ads", SLATE):
                    sold.add_metric([name, what], it.counts.sold[what] / SECOND)
                for key, count in sorted(it.counts.tracked.items()):
                    event, _, result = key.partition(" ")
                    tracked.add_metric([name, event, result], count)
                so_far, buckets = 0, []
                for bound in BUCKETS:
                    so_far += it.counts.took[bound]
                    buckets.append((f"{bound}", float(so_far)))
                buckets.append(("+Inf", float(sum(it.counts.took.values()))))
                took.add_metric([name], buckets, it.counts.seconds)
        yield from (answers, lacks, took, sold, tracked, ladder)
