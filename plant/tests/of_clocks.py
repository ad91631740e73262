"""Tests of the programme's clock, by packagers that set theirs (RFC 8216, 4.3.2.6): where segments begin, what date ranges mean, and what viewers have."""
import sys

from tools import PLANT, instant

sys.path.insert(0, PLANT)
from adsplice_plant import packaged  # noqa: E402
from adsplice_plant.breaks import Break  # noqa: E402
from adsplice_plant.clocks import Span, Stated, by_programme, placed, shifts_after, shifts_begun, spans_of  # noqa: E402
from adsplice_plant.packaged import PackagedSegment, Shift  # noqa: E402
from adsplice_plant.playlist import SECOND  # noqa: E402
from adsplice_plant.repair import Choices, Repairer  # noqa: E402
from adsplice_plant.siblings import Sibling, Siblings  # noqa: E402
from adsplice_plant.translator import Translator  # noqa: E402

NEEDS = ()
BEGUN = packaged.instant_of(instant(0))
OUT = "SCTE35-OUT=0xFC302000000000000000FFF00F05000000017FFFFE002932E00001" + "0" * 16


def list_of(segments, run="s", ranges=()):
    """A list of `segments`, each its number and the second at which it begins by the packager's clock, and of date ranges, each an ID and such a second."""
    lines = ["#EXTM3U", "#EXT-X-TARGETDURATION:2", f"#EXT-X-MEDIA-SEQUENCE:{segments[0][0]}"]
    lines += [f'#EXT-X-DATERANGE:ID="{name}",START-DATE="{instant(at)}",{OUT}' for name, at in ranges]
    for number, at in segments:
        lines += [f"#EXT-X-PROGRAM-DATE-TIME:{instant(at)}", "#EXTINF:2,", f"{run}{number}.ts"]
    return ("\n".join(lines) + "\n").encode()


def steady(first, last, ahead=0):
    """The segments `first` to `last` of 2 s, whose clock is `ahead` by so many seconds."""
    return [(number, 2 * number + ahead) for number in range(first, last + 1)]


def begins_after(*lists, siblings=None, waited=2.0):
    """When the segments of the last one of the `lists` begin by the programme's clock, in seconds, and the repairer."""
    repairer = Repairer(Choices(), siblings)
    for place, body in enumerate(lists):
        repairer.waited = waited
        taken = repairer.take(body, 100.0 * place, BEGUN)
        if taken.waits:
            taken = repairer.take(body, 100.0 * place + 30, BEGUN)
        repairer.accept(taken)
    return [(it.begins - BEGUN) / SECOND for it in repairer.last], repairer


def test_the_programmes_clock_goes_on_where_a_packager_sets_its_own(room):
    for by in (-180, -1, 0.5, 30, 3600):
        for new in (steady(2, 5) + steady(6, 6, by), steady(4, 5) + steady(6, 9, by)):
            found, repairer = begins_after(list_of(steady(0, 5)), list_of(new))
            assert found == [2.0 * number for number, _ in new] and repairer.clock == by * SECOND, (by, found)
    found, repairer = begins_after(list_of(steady(0, 5)), list_of(steady(4, 5)), list_of([*steady(5, 5), *steady(6, 7, -0.6)]))  # (of few segments, too)
    assert found == [10.0, 12.0, 14.0] and repairer.clock == -6 * SECOND // 10, found


def test_what_a_packager_leaves_out_is_a_gap_and_no_other_clock(room):
    left_out, _ = begins_after(list_of(steady(0, 5)), list_of(steady(9, 11)))
    assert left_out == [18.0, 20.0, 22.0]
    both, repairer = begins_after(list_of(steady(0, 5)), list_of(steady(9, 11, 3600)), waited=8.0)
    assert both == [18.0, 20.0, 22.0] and repairer.clock == 3600 * SECOND
    away = [(0, 18), (1, 20)]
    again, _ = begins_after(list_of(steady(0, 5)), list_of(away, "again"), waited=10.0)
    assert again[-2:] == [18.0, 20.0]
    for at in (12 + 3600, -180):  # (for 6 s more than the list lasts)
        found, _ = begins_after(list_of(steady(0, 5)), list_of([(0, at), (1, at + 2)], "again"), waited=10.0)
        assert found[-2:] == [18.0, 20.0], (at, found)


def test_instants_that_are_not_exact_are_no_other_clock(room):
    rough = [(number, 2 * number + (0.4 if number % 2 else 0)) for number in range(6)]
    found, repairer = begins_after(list_of(rough), list_of([*rough[1:], (6, 12.9)]))
    assert found[-1] == 12.9 and repairer.clock == 0


def test_a_rendition_that_was_away_has_the_clock_of_one_that_was_there(room):
    there = [PackagedSegment(f"{n}.ts", n, 2 * SECOND, stated=BEGUN + (2 * n - 50) * SECOND, begins=BEGUN + 2 * n * SECOND, number=n, said=2 * SECOND) for n in range(12)]
    siblings = Siblings([Sibling("", there)])
    found, repairer = begins_after(list_of(steady(0, 5)), list_of([(0, 18 - 50), (1, 20 - 50)], "again"), siblings=siblings, waited=2.0)
    assert found[-2:] == [18.0, 20.0] and repairer.clock == -50 * SECOND, found


def test_date_ranges_mean_what_they_meant(room):
    seconds = [Span(*(it * SECOND for it in span)) for span in ((100, 140, -60), (0, 160, 0))]
    assert [by_programme(said * SECOND, seconds) // SECOND for said in (20, 120, 150, 170)] == [20, 180, 150, 230]
    begins, ends, later = 30 * SECOND, 40 * SECOND, 600 * SECOND
    one = placed(None, begins, ends, [])
    assert one == Stated(begins, begins, ends, ends)
    assert placed(one, begins, ends, [Span(0, 10 * later, -later)]) == one  # (stated as before)
    assert placed(one, begins + later, None, [Span(later, 2 * later, later)]).start == begins  # (stated anew, by the clock that was set)
    pending = placed(one, begins + later, ends, [])
    assert (pending.start, pending.pending) == (begins, begins + later)
    assert placed(pending, begins + later, ends, []).start == begins + later and placed(pending, begins, ends, []).pending is None
    early = placed(one._replace(said_end=None, end=None), begins, ends + later, [], 10 * SECOND)  # (by a clock that no segment has yet)
    assert early.end is None and placed(early, begins, ends + later, [Span(later, 2 * later, later)], 10 * SECOND).end == ends
    assert placed(early, begins, ends + later, [], 10 * SECOND).end == ends + later  # (extended)
    half, until = SECOND // 2, ends - 2 * SECOND
    cut = placed(None, begins, ends + half, [], 10 * SECOND, until)  # (of what the list goes on with nobody knows the clock)
    assert cut.end is None and placed(cut, begins, ends + half, [Span(until, ends + half, half)], 10 * SECOND, ends + half).end == ends
    ahead = placed(None, begins + later, None, [])  # (it was stated by a clock that no segment had yet)
    for clock, start in ((later, begins), (0, begins + later)):
        newest = PackagedSegment("9.ts", 9, SECOND, stated=begins + later, begins=begins + later - clock, said=SECOND)
        assert placed(ahead, begins + later, None, spans_of([newest]), segments=[newest]).start == start
    before, after = (PackagedSegment(f"{n}.ts", n, 2 * SECOND, stated=begins + it * SECOND, begins=begins + 2 * n * SECOND, said=2 * SECOND) for n, it in ((0, 0), (1, 1)))
    for start, is_come in ((3, True), (2, False)):  # (by the clock that was known none begins at 3; at 2 one does)
        known = Stated(begins + start * SECOND, begins + start * SECOND)
        assert (placed(known, known.said, None, spans_of([before, after]), segments=[before, after]).start == known.start + SECOND) == is_come
    _, repairer = begins_after(list_of(steady(0, 5), ranges=[("b", 14)]), list_of(steady(1, 5) + steady(6, 7, -180), ranges=[("b", 14 - 180)]))
    assert repairer.stated["b"].start == BEGUN + 14 * SECOND


def test_viewers_have_no_instant_twice(room):
    listed = [PackagedSegment(f"{n}.ts", n, 2 * SECOND, begins=2 * n * SECOND, said=2 * SECOND) for n in range(6)]
    translator, none = Translator(), (Shift(),)
    assert shifts_after(none, [listed], [0], translator, [2 * SECOND]) == none
    assert shifts_after(none, [listed], [3600 * SECOND], translator, [2 * SECOND])[-1] == Shift(12 * SECOND, 3600 * SECOND)
    back = shifts_after(none, [listed], [-3 * SECOND], translator, [2 * SECOND])
    assert back[-1] == Shift(12 * SECOND, -SECOND) and shifts_after(back, [listed], [-3 * SECOND], translator, [2 * SECOND]) == back
    assert shifts_after(none, [listed, listed], [0, 5 * SECOND], translator, [2 * SECOND]) == none
    later = [*listed, PackagedSegment("6.ts", 6, 2 * SECOND, begins=12 * SECOND - SECOND // 2, said=2 * SECOND)]  # (renditions that are cut otherwise)
    assert shifts_after(back, [listed, later], [-3 * SECOND] * 2, translator, [2 * SECOND]) == back
    assert shifts_after(none, [listed], [-3 * SECOND], translator, [2 * SECOND, SECOND])[-1].by == -SECOND // 2  # (another rendition's segments are shorter)
    assert shifts_begun(back, listed[-1:]) == none and shifts_begun(back, later[-1:]) == back and shifts_begun(none, later) == none
    for end, is_over in ((8 * SECOND, True), (9 * SECOND, False), (None, False)):  # (the newest segment, at 10 s, is past it in all renditions)
        translator.breaks.known = [Break("b", 4 * SECOND, 2, "a tag", until=end)]
        assert (shifts_after(none, [listed], [5 * SECOND], translator, [2 * SECOND]) != none) == is_over, end


def test_a_written_list_has_viewers_instants(room):
    segments = [PackagedSegment(f"{n}.ts", n, 2 * SECOND, begins=BEGUN + 2 * n * SECOND, number=n, tags=["#EXTINF:2,"], shift=(-SECOND if n > 1 else 0)) for n in range(4)]
    found = packaged.PackagedList(3, 2, segments=segments, shifts=(Shift(BEGUN + 8 * SECOND, -2 * SECOND),))
    lines = [f'#EXT-X-DATERANGE:ID="{name}",START-DATE="{instant(at)}",END-DATE="{instant(at + 1)}"' for name, at in (("a", 2), ("b", 4), ("c", 9))]
    text = packaged.write(found, lines).decode()
    assert [line.partition(":")[2] for line in text.splitlines() if "DATE-TIME" in line] == [instant(it) for it in (0, 2, 3, 5)], text
    for name, at in (("a", 2), ("b", 3), ("c", 7)):
        assert f'ID="{name}",START-DATE="{instant(at)}",END-DATE="{instant(at + 1)}"' in text, text
    over = packaged.written_ranges(found, [f'#EXT-X-DATERANGE:ID="d",START-DATE="{instant(2)}",PLANNED-DURATION=2,DURATION=2'])
    assert over == [f'#EXT-X-DATERANGE:ID="d",START-DATE="{instant(2)}",PLANNED-DURATION=2,DURATION=1'], over  # (the clock goes back within it)


def test_lists_of_one_clock_stay_as_they_came(room):
    body = list_of(steady(0, 5), ranges=[("b", 14)])
    repairer = Repairer(Choices())
    assert repairer.take(body, 0.0, BEGUN).came == body
    _, repairer = begins_after(body, list_of(steady(1, 5) + steady(6, 6, 40)))
    repairer.shifts = (Shift(), Shift(BEGUN + 14 * SECOND, 40 * SECOND))
    for newest in range(7, 14):  # (once viewers have the packager's clock throughout, its list passes)
        body = list_of([it for it in (*steady(newest - 5, 5), *steady(max(6, newest - 5), newest, 40))])
        taken = repairer.take(body, 0.0, BEGUN)
        repairer.accept(taken)
        assert (taken.came == body) == (newest >= 12), newest
    assert [it.ahead for it in spans_of(repairer.last)] == [40 * SECOND]
