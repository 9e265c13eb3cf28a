"""A picture of cash flows by matplotlib, for notebooks.

The heights of the bars are the engine's amounts, as exact as a drawing needs them. What waits for
a fixing is a hollow mark on the line of zero.
"""
from __future__ import annotations

from typing import Any, List, Sequence

from .ladder import CashFlow
from .packages import package


def _draw(axis: Any, currency: str, flows: Sequence[CashFlow]) -> None:
    known = [(flow.date, float(flow.amount), flow) for flow in flows if flow.amount is not None]
    for kind, colour in (("payment", "#1f6feb"), ("exchange", "#9a6700")):
        of_kind = [(day, height) for day, height, flow in known if flow.kind == kind]
        if of_kind:
            days, heights = zip(*of_kind)
            axis.vlines(days, 0, heights, colors=colour, linewidth=2, label=f"{kind}s")
    waits = [flow.date for flow in flows if flow.amount is None]
    if waits:
        axis.plot(
            waits,
            [0] * len(waits),
            "o",
            markerfacecolor="none",
            color="#57606a",
            label="waits for a fixing",
        )
    axis.axhline(0, color="#57606a", linewidth=0.8)
    axis.set_ylabel(f"{currency}, received above 0")
    axis.yaxis.set_major_formatter(lambda value, place: f"{value:,.0f}")
    axis.legend(loc="best", fontsize="small")


def figure_of(flows: List[CashFlow], title: str) -> Any:
    """A figure with an axis a currency. Raises `MissingPackage` where matplotlib isn't
    installed."""
    figure = package("matplotlib.figure", "plot()", "matplotlib", "python3-matplotlib")
    currencies = sorted({flow.currency for flow in flows})
    made = figure.Figure(figsize=(9, 2 + 2.2 * max(1, len(currencies))), layout="constrained")
    axes = made.subplots(max(1, len(currencies)), 1, sharex=True, squeeze=False)
    for axis, currency in zip(axes[:, 0], currencies):
        _draw(axis, currency, [flow for flow in flows if flow.currency == currency])
    made.suptitle(title.replace("$", r"\$"), fontsize="medium")
    return made
