"""Tests of the sentences of adsplice-explain and adsplice-pod --check, held against the rules in new cases of a printed seed."""
from collections import Counter
from random import SystemRandom

import held
import spoiled

NEEDS = ()
COUNT = 100  # of each family


def test_sentences_are_true_in_new_cases(room):
    seed, counts = SystemRandom().randrange(10**6), Counter()
    print(f"plant: sentences of seed {seed} (plant/tests/held.py {seed} {COUNT})", flush=True)
    found = [fault for family in held.FAMILIES for fault in held.differences(family, seed, range(COUNT), counts)]
    assert not found, found[:5]
    assert counts["Filled"] > 20 and counts["Waiting"] > 20, counts


def test_a_false_sentence_is_noticed(room):
    given = next(given for n in range(200) for given in held.given_by("breaks", 1, n).values() if " is nearest to" in str(sentences(given)))
    it = held.Held(held.run_of(given), Counter())
    assert not it.faults()
    right = it.explainer.explain
    it.explainer.explain = lambda name: right(name).replace("misses it by ", "misses it by 1")
    assert it.faults(), sentences(given)


def sentences(given):
    """The sentences on the breaks of what a channel was given."""
    explainer = held.Explainer(held.run_of(given))
    return [explainer.explain(it) for it in explainer.ids()]


def test_spoiled_files_are_judged_as_the_program_does(room):
    seed = SystemRandom().randrange(10**6)
    print(f"plant: spoiled files of seed {seed} (plant/tests/spoiled.py PROGRAM {seed} {2 * COUNT})", flush=True)
    found = spoiled.differences(room.program, seed, range(2 * COUNT), Counter())
    assert not found, found[:5]


test_spoiled_files_are_judged_as_the_program_does.needs = ("program",)
