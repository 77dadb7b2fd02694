"""Steps on a state, askings and commits, and what §11 says of them in whatever order."""
from typing import NamedTuple

from rules import Refusal, refusal_of
from states import (
    ARRIVE,
    LEAVE,
    MOST_EVENTS,
    NEW_COST,
    NO_STATE,
    Event,
    Quote,
    State,
    ask,
    commit,
    make_state,
    state_made,
    state_tree,
)


class Asking(NamedTuple):
    """The step that asks for an event; the step that commits a quote is the quote itself."""

    event: Event

    def __str__(self):
        return f"?{self.event}"


class Outcome(NamedTuple):
    """What a step answers, the quote if it gives one, the shares beside the answer, and the state after it."""

    answer: str
    quote: Quote
    shares: list
    state: State


def first_state(tree):
    """The state made of a tree, or the one that is 0 throughout."""
    try:
        return make_state(tree)
    except Refusal:
        return NO_STATE


def asked(state, event):
    try:
        members, quote, shares = ask(state, event)
    except Refusal as refusal:
        return Outcome(str(refusal), None, NO_STATE.shares, state)
    return Outcome(f"members {members}", quote, shares, state)


def committed(state, quote):
    try:
        after = commit(state, quote)
    except Refusal as refusal:
        return Outcome(str(refusal), None, state.shares, state)
    return Outcome(f"members {sum(after.marks)}", None, after.shares, after)


def outcome(state, step):
    if isinstance(step, Asking):
        return asked(state, step.event)
    return committed(state, step)


def in_turn(state, wanted):
    """The wanted steps; an event among them stands for its commit, with the number of the state that it comes to."""
    steps = []
    for step in wanted:
        if isinstance(step, Event):
            step = Quote(step, state.committed)
        steps.append(step)
        state = outcome(state, step).state
    return steps


def check_undone(before, event, after):
    """The opposite of an arrival or a leaving leads back to the tree and the shares from before, or is refused 24."""
    if event.change == NEW_COST:
        return
    back = Quote(Event(event.vertex, LEAVE if event.change == ARRIVE else ARRIVE), after.committed)
    if after.committed >= MOST_EVENTS:
        assert refusal_of(commit, after, back) == "refused 24 at 0", (before, event)
    else:
        assert commit(after, back) == state_made(state_tree(before), before.committed + 2), (before, event)


def check_given(quote, done, given, outdated):
    """A quote gives what was quoted with it or is refused 24, until an event is carried out; then it is refused 23."""
    if quote in outdated:
        assert done.answer == "refused 23 at 0", quote
    if quote in given and done.answer != "refused 24 at 0":
        assert (done.answer, done.shares) == given[quote], quote


def outcomes(state, steps):
    """What each step comes to."""
    given, outdated, found = {}, set(), []
    for step in steps:
        done = outcome(state, step)
        found.append(done)
        if isinstance(step, Quote):
            check_given(step, done, given, outdated)
        if done.quote:
            given[done.quote] = (done.answer, done.shares)
        if done.state != state:
            check_undone(state, step.event, done.state)
            outdated.update(given)
            given.clear()
        state = done.state
    return found
