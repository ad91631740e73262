"""Tests of what is read of VAST and VMAP documents, of how an ad server's wrappers are followed, and of which ads fill a break."""
import random
import sys
import threading
import time
from concurrent.futures import ThreadPoolExecutor
from datetime import datetime, timezone

from tools import PLANT, FakeServer
from vast_documents import EVENTS, ad_break, data, inline, tag, vast, vmap, whole, wrapper

sys.path.insert(0, PLANT)
from adsplice_plant import bounded_xml, macros  # noqa: E402
from adsplice_plant import vast as documents  # noqa: E402
from adsplice_plant import vmap as breaks  # noqa: E402

NEEDS = ("httpx",)
SECOND = 10**9
MEZZANINE = '<Mezzanine delivery="progressive" type="video/mp4" width="1920" height="1080"><![CDATA[http://media.example/big.mp4]]></Mezzanine>'
FILES = ('<MediaFile delivery="progressive" type="video/mp4" width="640" height="360" bitrate="800"> http://media.example/small.mp4 </MediaFile>'
         '<MediaFile delivery="progressive" type="video/webm" width="1280" height="720" bitrate="3000">http://media.example/middle.webm</MediaFile>'
         '<MediaFile delivery="streaming" type="application/x-mpegURL" width="1280" height="720">http://media.example/a.m3u8</MediaFile>'
         '<MediaFile delivery="progressive" type="application/javascript" apiFramework="VPAID" width="1" height="1">http://media.example/v.js</MediaFile>')


def modules():
    """The modules that need httpx."""
    from adsplice_plant import ad_server, filling, web
    return ad_server, filling, web


# ---- documents

def test_an_inline_ad_of_each_version(room):
    for version in ("2.0", "3.0", "4.0", "4.1", "4.2"):
        found = documents.read(vast(inline("CAR0001H", 15, files=FILES), version=version).encode())
        assert not found.faults and len(found.ads) == 1, (version, found)
        ad = found.ads[0]
        assert (ad.id, ad.sequence, ad.length) == ("CAR0001H", None, 15 * SECOND), ad
        assert [(it.url, it.type, it.bitrate, it.is_mezzanine) for it in ad.files] == [
            ("http://media.example/middle.webm", "video/webm", 3000, False), ("http://media.example/small.mp4", "video/mp4", 800, False)], ad.files
        assert ad.tracked.impressions == ("http://track.example/impression?ad=CAR0001H",), ad.tracked
        assert ad.tracked.errors == ("http://track.example/error?ad=CAR0001H&code=[ERRORCODE]",), ad.tracked
        assert ad.tracked.events == tuple((it, f"http://track.example/{it}?ad=CAR0001H") for it in EVENTS), ad.tracked


def test_what_stands_around_a_linear_creative_is_passed_over(room):
    """Companions, overlays, icons, verifications, captions: none of their URLs is an ad's, or is called for it."""
    for version in ("2.0", "3.0", "4.0", "4.1", "4.2"):
        found = documents.read(vast(whole(version), wrapper("http://w.example/v", "20002", more=' followAdditionalWrappers="0" allowMultipleAds="1" fallbackOnNoAd="0"' if version > "3" else ""), version=version).encode())
        assert not found.faults and len(found.ads) == 2, (version, found)
        ad, other = found.ads
        assert (ad.id, ad.sequence, ad.length) == ("CAR0001H" if version > "4" or version == "4.0" else "601364", None, 16 * SECOND), (version, ad)
        assert [it.url.rpartition("/")[2] for it in ad.files] == (["mezzanine.mp4"] if version > "4.0" else []) + ["720.mp4", "480.mp4"], (version, ad.files)
        assert ad.tracked == documents.Tracked(("http://track.example/impression", "http://track.example/impression2"), ("http://track.example/error/[ERRORCODE]",),
                                               tuple((it, f"http://track.example/{it}?ad=CAR0001H") for it in EVENTS)), ad.tracked
        assert (other.tag, other.follows, other.several, other.falls_back) == ("http://w.example/v", *((False, True, False) if version > "3" else (True, False, True))), other


def test_the_mezzanine_comes_first(room):
    ad = documents.read(vast(inline("CAR", files=FILES + MEZZANINE)).encode()).ads[0]
    assert [it.url.rpartition("/")[2] for it in ad.files] == ["big.mp4", "middle.webm", "small.mp4"] and ad.files[0].is_mezzanine, ad


def test_ids_of_ads(room):
    for uid, owed in (('<UniversalAdId idRegistry="ad-id.org" idValue="CAR1">CAR0001H</UniversalAdId>', "CAR0001H"), ('<UniversalAdId idRegistry="ad-id.org" idValue="CAR1"/>', "CAR1"),
                      ('<UniversalAdId idRegistry="unknown" idValue="unknown">unknown</UniversalAdId>', "a-x"), ('<UniversalAdId idRegistry="a">unknown</UniversalAdId><UniversalAdId idRegistry="b">B7</UniversalAdId>', "B7"),
                      ("", "a-x")):
        assert documents.read(vast(inline("x", uid=uid)).encode()).ads[0].id == owed, uid
    bare = vast(inline("x", uid="")).replace(' id="c-x" adId="a-x"', "").replace('<Ad id="x">', "<Ad>").encode()
    assert len(documents.read(bare).ads[0].id) == 16  # (a hash of the file's URL)


def test_durations_of_ads(room):
    text = vast(inline("x"))
    for said, owed in (("00:00:30", 30 * SECOND), ("00:01:00.5", 60 * SECOND + SECOND // 2), ("01:00:00", 3600 * SECOND), (" 00:00:15.040 ", 15_040_000_000), ("00:00:00", None), ("15", None),
                       ("00:60:00", None), ("01:00:01", None), ("-0:00:15", None)):
        found = documents.read(text.replace("00:00:10", said).encode())
        assert [it.length for it in found.ads] == ([owed] if owed else []), (said, found)
        assert owed or found.faults[0].startswith("ad x: Duration "), found.faults


def test_a_pod_is_in_its_sequence_and_stand_alone_ads_are_a_buffet(room):
    found = documents.read(vast(inline("c", sequence=3), inline("buffet"), wrapper("http://w.example/v", "b", 2), inline("a", sequence=1)).encode())
    assert [it.id for it in found.pod()] == ["a", "b", "c"] and [it.id for it in found.stand_alone()] == ["buffet"], found
    one = found.pod()[1]
    assert (one.tag, one.follows, one.several, one.falls_back) == ("http://w.example/v", True, False, True), one
    more = ' followAdditionalWrappers="false" allowMultipleAds="1" fallbackOnNoAd="0"'
    one = documents.read(vast(wrapper("http://w.example/v", more=more)).encode()).ads[0]
    assert (one.follows, one.several, one.falls_back) == (False, True, False), one


def test_a_wrong_ad_is_told_by_its_id_and_the_element_and_the_others_stay(room):
    good = inline("good")
    for wrong, owed in ((inline("bad").replace("<Duration>00:00:10</Duration>", ""), "ad bad: Duration is missing"), (inline("bad").replace("Linear>", "NonLinearAds>"), "ad bad: it has no Linear"),
                        (inline("bad").replace("00:00:10", "ten"), "ad bad: Duration 'ten' isn't HH:MM:SS"), (inline("bad", files='<MediaFile type="video/mp4">ftp://x/y</MediaFile>'), "ad bad: MediaFiles has no progressive video: video/mp4 without a URL"),
                        (inline("bad", files=FILES[FILES.index('<MediaFile delivery="streaming"'):]), "ad bad: MediaFiles has no progressive video: application/x-mpegurl, VPAID"),
                        (wrapper("file:///etc/passwd", "bad"), "ad bad: VASTAdTagURI is missing, or isn't a URL"), ('<Ad id="bad"/>', "ad bad: it has neither InLine nor Wrapper"),
                        ("<Ad><InLine/></Ad>", "ad number 1: it has no Linear"), (inline("bad", number="b\x85\u202ed").replace("<Duration>", "<Duration>x"), "ad bd: Duration")):
        found = documents.read(vast(wrong, good).encode())
        assert [it.id for it in found.ads] == ["good"] and len(found.faults) == 1 and found.faults[0].startswith(owed), (owed, found.faults)


def test_a_document_without_ads_names_whom_to_tell(room):
    found = documents.read(b'<VAST version="4.2"><Error><![CDATA[http://track.example/none?c=[ERRORCODE]]]></Error></VAST>')
    assert found.ads == () and found.errors == ("http://track.example/none?c=[ERRORCODE]",)


def refusal(body):
    """Why a document isn't taken; empty if it is. Within a second."""
    begun = time.monotonic()
    try:
        documents.read(body)
        return ""
    except bounded_xml.NoXml as fault:
        return str(fault)
    finally:
        assert time.monotonic() - begun < 2, "it took over 2 s"


def test_hostile_xml_is_refused(room):
    laughs = "".join(f'<!ENTITY l{n} "{f"&l{n - 1};" * 10 if n else "ha" * 20}">' for n in range(10))
    whole = vast(inline("x")).encode()
    for body, owed in (
            (f"<!DOCTYPE VAST [{laughs}]><VAST version='4.2'><Ad id='x'>&l9;</Ad></VAST>".encode(), "it has a DOCTYPE"),
            (b'<!DOCTYPE VAST SYSTEM "file:///etc/passwd"><VAST/>', "it has a DOCTYPE"), (b'<!DOCTYPE VAST [<!ENTITY x SYSTEM "http://127.0.0.1:22/">]><VAST>&x;</VAST>', "it has a DOCTYPE"),
            (b"<VAST>&x;</VAST>", "it isn't XML: undefined entity"), (b"<VAST>" + b"<a>" * 5000 + b"</a>" * 5000 + b"</VAST>", "over 32 levels deep"),
            (b"<VAST>" + b"<a/>" * 20_001 + b"</VAST>", "over 20000 elements"), (b"<VAST>" + b"x" * 70_000 + b"</VAST>", "a text has over 65536 characters"),
            (b'<VAST version="' + b"x" * 70_000 + b'"/>', "an attribute has over 65536 characters"), (b"<VAST>" + b" " * 100_000_000 + b"</VAST>", "it has 100000013 bytes, over 1048576"),
            (whole[:-20], "isn't XML"), (b"", "isn't XML: no element found"), (b"\x00" * 100, "isn't XML"), (b'<?xml version="1.0" encoding="no-such"?><VAST/>', "isn't XML"),
            (b"<html><body>busy</body></html>", "its first element is html, and not VAST"), (b'<VideoAdServingTemplate/>', "and not VAST"), (b'<VAST version="1.0"/>', "it is VAST 1.0; 2.0 to 4.2 are read"),
            (b'<VAST version="5.0"/>', "it is VAST 5.0")):
        said = refusal(body)
        assert owed in said and len(said) < 200, (body[:60], said)
    assert refusal(whole) == "" and refusal(vast(inline("x")).encode("utf-16")) != ""  # (which says that it is UTF-8)
    assert refusal(vast(inline("x")).replace("UTF-8", "UTF-16").encode("utf-16")) == ""


def test_spoiled_documents_raise_nothing_else(room):
    rng, whole = random.Random(7), vast(inline("x", files=FILES + MEZZANINE), wrapper("http://w.example/v", "w", 1)).encode()
    for _ in range(3000):
        body = bytearray(whole)
        for _ in range(rng.randrange(1, 5)):
            place = rng.randrange(len(body))
            body[place:place + rng.randrange(3)] = bytes([rng.randrange(256)] * rng.randrange(3))
        refusal(bytes(body))


def test_macros_are_replaced(room):
    url = "http://a.example/v?cb=[CACHEBUSTING]&d=[BREAKMAXDURATION]&c=[CONTENTID]&p=%5BADCOUNT%5D&x=[IFA]&y=[PARTNER]&z=[1]&t=[TIMESTAMP]"
    now = datetime(2026, 11, 30, 2, 0, 0, 512_000, timezone.utc)
    values = {**macros.of_break(30 * SECOND, "2"), **macros.of_each_request(now), "CACHEBUSTING": "01234567", "CONTENTID": "news & more"}
    assert macros.filled(url, values) == ("http://a.example/v?cb=01234567&d=30&c=news%20%26%20more&p=1&x=-1&y=[PARTNER]&z=[1]&t=2026-11-30T02%3A00%3A00.512Z")
    assert "BREAKMAXDURATION" not in macros.of_break(None, "2") and len(macros.of_each_request(now)["CACHEBUSTING"]) == 8


# ---- VMAP

def test_breaks_of_a_programme(room):
    text = vmap(ad_break("00:10:00.500", "mid", data(inline("m"))), ad_break("end", "post", data(inline("e"))), ad_break("start", "pre", data(inline("a", sequence=1), inline("b", sequence=2))),
                ad_break("50%", "half", tag("http://ads.example/vast")), ad_break("#1", "place", data(inline("x"))), ad_break("00:20:00", "banner", data(inline("x")), "nonlinear"),
                ad_break("00:30:00", "empty", ""), ad_break("00:00:00", "pre", data(inline("again"))))
    found = breaks.read(text.encode(), 1800 * SECOND)
    assert [(it.id, it.offset, it.tag) for it in found.breaks] == [("pre", 0, ""), ("pre-2", 0, ""), ("mid", 600 * SECOND + SECOND // 2, ""), ("half", 900 * SECOND, "http://ads.example/vast"),
                                                                  ("post", None, "")], found.breaks
    assert [it.id for it in found.breaks[0].document.pod()] == ["a", "b"]
    assert [it.partition(":")[0] for it in found.faults] == ["AdBreak place", "AdBreak banner", "AdBreak empty"], found.faults


def test_a_document_that_is_no_vmap(room):
    for body in (b"<VAST/>", b'<!DOCTYPE x><VMAP version="1.0"/>', b'<VMAP version="2.0"/>', b"<VMAP"):
        try:
            breaks.read(body, SECOND)
        except bounded_xml.NoXml:
            continue
        raise AssertionError(body)


# ---- ad servers

class AdServer(FakeServer):
    """An ad server that has a document for each path; a path may be slow, or have a status."""

    def __init__(self, pages=None):
        self.pages, self.slow = pages or {}, {}
        super().__init__()

    @property
    def url(self):
        return f"http://127.0.0.1:{self.port}"

    def answer(self, method, path, body, fields):
        path = path.partition("?")[0]
        time.sleep(self.slow.get(path, 0))
        page = self.pages.get(path, 404)
        if isinstance(page, int):
            return page, {}, b"<html>"
        return 200, {"Content-Type": "application/xml"}, page.replace("{at}", self.url).encode()


class Asks:
    """Who asks in place of web.Client: a document for each URL; those that were asked."""

    def __init__(self, pages):
        self.pages, self.asked, self.lock = pages, [], threading.Lock()

    def ask(self, method, url, body=None, fields=None):
        _, _, web = modules()
        with self.lock:
            self.asked.append(url)
        page = self.pages(url) if callable(self.pages) else self.pages.get(url)
        return web.Answer(404) if page is None else web.Answer(200, page.encode())


def searched(client, url, seconds=2.0, redirects=True):
    """What a search for the ads at a URL finds."""
    ad_server, _, _ = modules()
    from adsplice_plant.outside import Outside
    with ThreadPoolExecutor(ad_server.AT_ONCE) as pool:
        return ad_server.Search(client, pool, Outside(url, redirects), {}, time.monotonic() + seconds).run()


def ids(found):
    """The IDs of the ads that were found, by slots, and those of the buffet."""
    return [[ad.id for ad in slot.ads] for slot in found.slots], [ad.id for ad in found.buffet]


def test_wrappers_are_followed_and_what_they_call_is_kept(room):
    client = Asks({"http://a.example/v": vast(inline("one", sequence=1), wrapper("http://b.example/v", "two", 2)), "http://b.example/v": vast(wrapper("http://c.example/v", "in"), version="3.0"),
                   "http://c.example/v": vast(inline("deep", sequence=1), version="2.0")})
    found = searched(client, "http://a.example/v")
    assert ids(found) == ([["one"], ["deep"]], []) and not found.lacks, found
    ad = found.slots[1].ads[0]
    assert ad.sequence == 2 and ad.tracked.impressions == tuple(f"http://track.example/impression?{it}" for it in ("wrapper=two", "wrapper=in", "ad=deep")), ad.tracked
    assert [url for event, url in ad.tracked.events if event == "start"] == [f"http://track.example/start?{it}" for it in ("wrapper=two", "wrapper=in", "ad=deep")]


def test_how_many_ads_a_wrapper_may_have(room):
    inner = vast(inline("p1", sequence=1), inline("p2", sequence=2), inline("alone"), inline("other"))
    for more, owed in (("", ["alone"]), (' allowMultipleAds="true"', ["p1", "p2", "alone", "other"])):
        found = searched(Asks({"http://a.example/v": vast(wrapper("http://b.example/v", "w", 1, more)), "http://b.example/v": inner}), "http://a.example/v")
        assert ids(found) == ([owed], []), (more, found)


def test_five_wrappers_in_a_row_and_no_more(room):
    def pages(count):
        return {f"http://{n}.example/v": vast(wrapper(f"http://{n + 1}.example/v", f"w{n}") if n < count else inline("end")) for n in range(count + 1)}
    assert ids(searched(Asks(pages(5)), "http://0.example/v")) == ([], ["end"])
    found = searched(Asks(pages(6)), "http://0.example/v")
    assert ids(found) == ([], []) and any(it.word == "Wrapper" and "number 6 in a row" in it.text for it in found.lacks), found.lacks
    client = Asks({"http://a.example/v": vast(wrapper("http://b.example/v", more=' followAdditionalWrappers="false"')), "http://b.example/v": vast(wrapper("http://c.example/v", "x"))})
    assert any("says that no more are followed" in it.text for it in searched(client, "http://a.example/v").lacks) and len(client.asked) == 2


def test_endless_wrappers_end(room):
    client = Asks(lambda url: vast(*(wrapper(f"{url}{n}", f"w{n}") for n in range(3))))
    begun = time.monotonic()
    found = searched(client, "http://a.example/v")
    assert ids(found) == ([], []) and len(client.asked) <= 32 and time.monotonic() - begun < 2, (len(client.asked), time.monotonic() - begun)
    assert any("32 requests at most" in it.text for it in found.lacks), found.lacks[:3]


def test_no_wrapper_leads_from_outside_to_this_machine(room):
    for at in ("http://127.0.0.1:9083/decide", "http://localhost/v", "http://0x7f000001/v", "http://[::1]/v", "http://127.1/v"):
        client = Asks({"http://a.example/v": vast(wrapper(at, "evil"), inline("good"))})
        found = searched(client, "http://a.example/v")
        assert client.asked == ["http://a.example/v"] and ids(found) == ([], ["good"]), (at, client.asked)
        assert "an address of this machine" in found.lacks[0].text and found.lacks[0].text.startswith("ad evil: VASTAdTagURI"), found.lacks
    client = Asks({"http://a.example/v": vast(wrapper("http://b.example/v", "other"))})
    assert "another host" in searched(client, "http://a.example/v", redirects=False).lacks[0].text and len(client.asked) == 1


def test_no_wrapper_leads_to_a_private_address_unless_it_is_named(room):
    from adsplice_plant.outside import Outside
    from adsplice_plant.reach import networks_of
    for first, url, networks, is_asked in (("http://ads.example/v", "http://10.1.2.3/v", None, False), ("http://ads.example/v", "http://10.1.2.3/v", "10.0.0.0/8", True), ("http://ads.example/v", "http://192.168.7.3/v", "10.0.0.0/8", False),
                                           ("http://10.1.2.3/v", "http://10.1.2.3:8080/w", None, True), ("http://10.1.2.3/v", "http://10.1.2.4/w", None, False), ("http://ads.example/v", "http://169.254.169.254/latest", None, False),
                                           ("http://ads.example/v", "http://93.184.216.34/v", None, True), ("http://ads.example/v", "http://other.example/v", None, True)):
        outside = Outside(first, True, networks_of(networks) if networks else None)
        assert (outside.strays(url) == "") == is_asked, (first, url, networks, outside.strays(url))
        assert outside.client(1.0).reach is outside.reach


def test_an_ad_server_that_is_slow_wrong_or_away(room):
    _, _, web = modules()
    server = room.server(AdServer({"/busy": 503, "/empty": vast(), "/html": "<html/>", "/huge": vast() + " " * 5_000_000, "/slow": vast(inline("x"))}))
    server.slow["/slow"] = 1.0
    for path, word, text in (("/busy", "Unanswered", "it answers 503"), ("/none", "Unanswered", "it answers 404"), ("/empty", "NoAds", "has no ads"), ("/html", "Wrong", "and not VAST"),
                             ("/huge", "Unanswered", "more than 4194304 bytes"), ("/slow", "Late", "within 0.4 s")):
        begun = time.monotonic()
        found = searched(web.Client(0.4, True), server.url + path, 0.4)
        assert [it.word for it in found.lacks] == [word] and text in found.lacks[0].text and time.monotonic() - begun < 0.9, (path, found)
    server.close()
    assert [it.word for it in searched(web.Client(0.4, True), server.url + "/gone").lacks] == ["Unanswered"]
    server.close = lambda: None


def test_wrappers_of_a_pod_are_asked_side_by_side_and_a_late_one_is_left_out(room):
    _, _, web = modules()
    server = room.server(AdServer({"/pod": vast(*(wrapper(f"{{at}}/w{n}", f"w{n}", n) for n in range(1, 6)))} | {f"/w{n}": vast(inline(f"a{n}")) for n in range(1, 6)}))
    server.slow = {f"/w{n}": 0.3 for n in range(1, 5)} | {"/w5": 3.0}
    begun = time.monotonic()
    found = searched(web.Client(1.2, True), server.url + "/pod", 1.2)
    took = time.monotonic() - begun
    assert ids(found)[0] == [["a1"], ["a2"], ["a3"], ["a4"], []] and [it.word for it in found.lacks][0] == "Late" and "ad w5" in found.lacks[0].text, found
    assert took < 3, took


# ---- which ads fill a break

def made(lengths):
    """How an ad is ready: of pieces of 2 s, if `lengths` has its seconds."""
    _, filling, _ = modules()
    def ready_of(ad):
        if ad.id not in lengths:
            return "it isn't made yet"
        return filling.Ready(ad.id, (2 * SECOND,) * (lengths[ad.id] // 2), f"http://pods.example/{ad.id}/{{}}/s{{n}}.ts")
    return ready_of


def found_of(*ads):
    """What a search finds that gets a document of these ads."""
    return searched(Asks({"http://a.example/v": vast(*ads)}), "http://a.example/v")


def test_what_fits_fills_a_break_in_order(room):
    _, filling, _ = modules()
    found = found_of(inline("b", 20, 2), inline("a", 10, 1), inline("c", 6, 3), inline("d", 4, 4), inline("buffet", 4))
    pod = filling.fill(found, 20 * SECOND, made({"a": 10, "b": 20, "c": 6, "buffet": 4}))
    assert [it.id for it in pod.ready] == ["a", "buffet", "c"] and pod.length() == 20 * SECOND, pod
    assert [(it.word, it.text) for it in pod.lacks] == [("DoesNotFit", "ad b: it lasts 20 s, and 10 s of the break are left"), ("NotReady", "ad d: it isn't made yet")], pod.lacks
    said = pod.decision("b1")
    assert said["breaks"][0]["id"] == "b1" and [it["id"] for it in said["breaks"][0]["ads"]] == ["a", "buffet", "c"]
    assert said["breaks"][0]["ads"][0]["segments"][4] == {"uri": "http://pods.example/a/{}/s4.ts", "duration": "2"}


def test_stand_alone_ads_fill_a_break_that_has_no_pod(room):
    _, filling, _ = modules()
    found = found_of(*(inline(it, 10) for it in "abcd"))
    assert [it.id for it in filling.fill(found, 30 * SECOND, made({"a": 10, "b": 30, "c": 10, "d": 10})).ready] == ["a", "c", "d"]
    assert [it.id for it in filling.fill(found, None, made(dict.fromkeys("abcd", 10))).ready] == ["a", "b", "c", "d"]


def test_no_ad_stands_in_where_the_wrapper_says_so(room):
    _, filling, _ = modules()
    pages = {"http://w.example/v": vast()}
    for more, owed in ((' fallbackOnNoAd="true"', ["a", "extra"]), (' fallbackOnNoAd="false"', ["a"])):
        first = vast(inline("a", 10, 1), wrapper("http://w.example/v", "w", 2, more), inline("extra", 10))
        pod = filling.fill(searched(Asks({"http://a.example/v": first, **pages}), "http://a.example/v"), 20 * SECOND, made({"a": 10, "extra": 10}))
        assert [it.id for it in pod.ready] == owed, (more, pod)


def test_the_slate_fills_up_but_fills_no_break_by_itself(room):
    _, filling, _ = modules()
    slate = filling.Ready("slate", (2 * SECOND,) * 4, "http://pods.example/slate/{}/s{n}.ts")
    pod = filling.fill(found_of(inline("a", 10)), 31 * SECOND, made({"a": 10}), slate)
    assert [(it.id, len(it.pieces)) for it in pod.ready] == [("a", 5), ("slate", 4), ("slate", 4), ("slate", 2)] and pod.length() == 30 * SECOND, pod
    assert pod.ads[1:] == [None] * 3
    assert not filling.fill(found_of(inline("a", 10)), 30 * SECOND, made({}), slate).ready


def test_a_pod_has_500_segments_at_most(room):
    _, filling, _ = modules()
    slate = filling.Ready("slate", (SECOND,) * 7, "http://pods.example/slate/{}/s{n}.ts")
    pod = filling.fill(found_of(inline("a", 10)), 3000 * SECOND, made({"a": 700}), slate)
    assert pod.count() == 500, pod.count()
    pod = filling.fill(found_of(inline("a", 10), inline("b", 10)), None, made({"a": 900, "b": 400}), slate)
    assert pod.count() == 450 and [it.word for it in pod.lacks] == ["DoesNotFit"], pod.lacks


def test_what_a_question_says_of_a_length(room):
    _, filling, _ = modules()
    for said, owed in ((10.0, 10 * SECOND), (29.97, 29_970_000_000), (None, None), ("10", None), (True, None), (-1, None), (float("nan"), None), (1e9, None)):
        assert filling.planned_of(said) == owed, said
