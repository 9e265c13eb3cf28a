"""Everything that a person looks at of one trade, made of the engine's answers: for the report
and the page.

The schedule, what falls due and the verdict on another party's cash flows are the engine's. What
is shown beside them (names, terms in words, the timeline) is made of the document's own texts and
isn't proved.
"""
from __future__ import annotations

import hashlib
from datetime import date
from typing import Any, List, NamedTuple, Optional, Sequence

from .calls import Schedule
from .compare import Comparison, Counts, Line, counts_of, lines_of, side_by_side
from .documents import streams_of, value_of
from .due import counted, net_rows, net_table
from .inputs import Inputs, Named
from .ladder import cash_flows, view_sentence, viewer
from .parties import Parties, parties_of
from .plain import brief
from .printed import UNKNOWN, StreamText, printed
from .refusals import Refusal, refusal_of
from .replies import Reply, ask
from .rows import Yes, verdict_of
from .stubs import index_of_period, stubs_of
from .tables import Cell, Column, Table, exchange_table, folded, ledger_table, period_table
from .timeline import Timeline, timeline
from .words import Term, terms_of

#: Tones of a sentence: agreed or done, waits for something, departs or refused.
GOOD, WAITS, BAD = "good", "waits", "bad"


class Said(NamedTuple):
    """A sentence and its tone."""

    text: str
    tone: str


class FileLine(NamedTuple):
    """A file that the look is made of: what it is, its name, its size in bytes and its SHA-256
    sum."""

    what: str
    name: str
    size: int
    sha256: str


class Laid(NamedTuple):
    """A table laid out for the eye."""

    columns: List[Column]
    rows: List[List[Cell]]


class StreamLook(NamedTuple):
    """A stream: its head, its terms in words, its periods and its exchanges."""

    head: str
    terms: List[Term]
    periods: Laid
    exchanges: Optional[Laid]


class Wait(NamedTuple):
    """A reset that waits for its fixing: the fixing day, the index and tenor that it observes,
    and whether the day is before today."""

    stream: int
    period: str
    day: str
    observes: str
    passed: bool


class Look(NamedTuple):
    """All of one trade. `notes` are sentences on calendar files that were left out. `refusal` says
    why there is no schedule; then the parts after it are empty. `flows_refusal` says why the other
    party's cash flows can't be compared."""

    name: str
    files: List[FileLine]
    today: str
    headline: Said
    notes: Sequence[str] = ()
    refusal: Optional[Refusal] = None
    schedule: Optional[Schedule] = None
    view: str = ""
    streams: Sequence[StreamLook] = ()
    ledger: Optional[Laid] = None
    wide: Optional[Timeline] = None
    narrow: Optional[Timeline] = None
    waits: Sequence[Wait] = ()
    net: Optional[Laid] = None
    net_refusal: str = ""
    verdict: Optional[Said] = None
    verdict_line: str = ""
    comparisons: Sequence[Comparison] = ()
    breaks: Sequence[Line] = ()
    break_counts: str = ""
    flows_refusal: Optional[Refusal] = None


def _files(inputs: Inputs) -> List[FileLine]:
    def line(what: str, file: Named) -> FileLine:
        return FileLine(what, brief(file.name), len(file.content), hashlib.sha256(file.content).hexdigest())

    lines = [line("terms", inputs.document)]
    lines += [
        line(what, file) for what, file in (("fixings", inputs.fixings), ("their cash flows", inputs.flows)) if file
    ]
    return lines + [line("calendar", file) for file in inputs.calendars]


def _laid(table: Table, left_out: Sequence[str]) -> Laid:
    return Laid(*folded(table, left_out))


def _stream_look(stream: StreamText, terms: List[Term], parties: Parties) -> StreamLook:
    left_out = ["stream", "currency", *([] if stream.floating else ["fixing_date", "observed"])]
    exchanges = _laid(exchange_table([stream]), ["stream", "currency"]) if stream.exchanges else None
    return StreamLook(parties.heading(stream), terms, _laid(period_table([stream]), left_out), exchanges)


def _waits(stream: StreamText, element: Any, today: date) -> List[Wait]:
    return [
        Wait(
            stream.stream,
            reset.number,
            reset.fixing,
            index_of_period(element, int(reset.number), len(stream.periods)),
            reset.fixing < today.isoformat(),
        )
        for reset in stream.resets.values()
        if reset.observed == UNKNOWN
    ]


def _headline(streams: Sequence[StreamText]) -> Said:
    payments = [payment for stream in streams for payment in stream.payments]
    periods = sum(len(stream.periods) for stream in streams)
    open_payments = sum(payment.amount == UNKNOWN for payment in payments)
    counts = ((len(streams), "stream"), (periods, "period"), (len(payments), "payment"))
    made = ", ".join(counted(count, what) for count, what in counts)
    if open_payments:
        return Said(f"{made}; {counted(open_payments, 'amount')} not known, as a fixing is missing.", WAITS)
    return Said(f"{made}; every amount is known.", GOOD)


def _verdict(reply: Reply) -> Said:
    if reply.status == 1:
        return Said(f"Departs: {reply.sentence}.", BAD)
    verdict = verdict_of(reply.text)
    assert isinstance(verdict, Yes)  # the status is 0
    if verdict.unfixed == 0:
        return Said(f"Agrees in all {verdict.rows} rows.", GOOD)
    return Said(
        f"Agrees in what is known: {verdict.rows} rows. Not compared, as a fixing is missing: "
        f"{counted(verdict.unfixed, 'amount')}.",
        WAITS,
    )


def _counts(counts: Counts) -> str:
    made = f"{counted(counts.breaks, 'break')} in {counted(counts.pairs, 'pair')} of rows"
    fields = f"{counted(counts.compared, 'field')} compared, {counts.unstated} not stated by them"
    return f"{made}; {fields}, {counts.unknown} not known, as a fixing is missing."


def _with_flows(look: Look, inputs: Inputs) -> Look:
    if inputs.flows is None:
        return look
    reply = ask("audit", inputs)
    if reply.status > 1:
        return look._replace(flows_refusal=refusal_of(reply))
    ours, theirs = value_of(ask("emit", inputs).text), value_of(reply.files[reply.words[3]].content)
    text = ask("breaks", inputs).text
    breaks = lines_of(text)
    return look._replace(
        verdict=_verdict(reply),
        verdict_line=reply.line,
        comparisons=side_by_side(ours, theirs, breaks),
        breaks=breaks,
        break_counts=_counts(counts_of(text)),
    )


def _with_net(look: Look, inputs: Inputs, parties: Parties) -> Look:
    reply = ask("net", inputs)
    if reply.status:
        return look._replace(net_refusal=reply.sentence)
    return look._replace(net=_laid(net_table(net_rows(reply.text, parties)), ()))


def _with_timeline(look: Look, streams: Sequence[StreamText], elements: Sequence[Any], today: date) -> Look:
    stubs = [stubs_of(element, len(stream.periods)) for stream, element in zip(streams, elements)]
    return look._replace(
        wide=timeline(streams, stubs, today, 1000, 60),
        narrow=timeline(streams, stubs, today, 360, 30),
    )


def _refused(look: Look, refusal: Refusal) -> Look:
    return look._replace(headline=Said(f"No schedule. {refusal.what}.", BAD), refusal=refusal)


def look_at(inputs: Inputs, today: date, party: Optional[str] = None) -> Look:
    """The look of a trade: its schedule with all that goes with it, or why there is none.

    `today` is the day that the timeline marks, and `party` the party that the flows are seen
    from. Raises `UnknownParty` for an unknown party.
    """
    look = Look(brief(inputs.document.name), _files(inputs), today.isoformat(), Said("", BAD), inputs.notes)
    reply = ask("schedule", inputs)
    if reply.status:
        return _refused(look, refusal_of(reply))
    document = inputs.document.content
    streams, parties, elements = (
        printed(reply.text),
        parties_of(document),
        streams_of(value_of(document)),
    )
    terms = terms_of(document)
    look = look._replace(
        headline=_headline(streams),
        schedule=Schedule(reply.text, document),
        view=view_sentence(parties, viewer(parties, party)),
        streams=[_stream_look(stream, said, parties) for stream, said in zip(streams, terms)],
        ledger=_laid(ledger_table(cash_flows(streams, parties, party)), ()),
        waits=sorted(
            (wait for stream, element in zip(streams, elements) for wait in _waits(stream, element, today)),
            key=lambda wait: (wait.day, wait.stream),
        ),
    )
    return _with_net(_with_flows(_with_timeline(look, streams, elements, today), inputs), inputs, parties)
