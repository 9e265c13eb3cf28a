"""`irs-desk`: the schedule, the breaks and the reason of a refusal on a page of this machine's
browser.

The page is served to this machine alone (127.0.0.1), at an address with a random part that nobody
can guess. Drop a document, another party's cash flows and fixings, choose calendars, and look.
Nothing is written to disk; the last looks stay in memory for their downloads, until newer ones
take their place or the program ends. The engine's answers are proved, and this page isn't.
"""
from __future__ import annotations

import argparse
import io
import logging
import secrets
import socket
import sys
import threading
import webbrowser
from collections import OrderedDict
from datetime import date
from pathlib import Path
from typing import Any, List, NamedTuple, NoReturn, Optional, Sequence, Tuple

from .arguments import port
from .calendar_files import centres_in
from .documents import XML, is_xml
from .inputs import Calendars, Inputs, Named, folder_at
from .insert import with_cashflows
from .library import MOST_BYTES, MOST_CALENDARS
from .look import Look, look_at
from .packages import package
from .pages import TEMPLATES, environment, report, style
from .plain import brief, shown, visible
from .replies import ask
from .sheets import csv_text
from .tools import BadInput, Parser, ended

LOG = logging.getLogger("irs.desk")

#: The only address that the page is served at.
ADDRESS = "127.0.0.1"

#: How many looks stay in memory for their downloads.
MOST_LOOKS = 4

#: The most bytes of one request: every file at the engine's limit, and room for the form around
#: them.
MOST_REQUEST = (3 + MOST_CALENDARS) * (MOST_BYTES + 1) + (1 << 20)

_HEADERS = {
    "Content-Security-Policy": "default-src 'none'; style-src 'self'; script-src 'self'; "
    "form-action 'self'; "
    "base-uri 'none'; frame-ancestors 'none'",
    "X-Content-Type-Options": "nosniff",
    "X-Frame-Options": "DENY",
    "Referrer-Policy": "no-referrer",
    "Cache-Control": "no-store",
    "Cross-Origin-Opener-Policy": "same-origin",
    "Cross-Origin-Resource-Policy": "same-origin",
}


class Kept(NamedTuple):
    """A look with what it was made of, for its downloads."""

    inputs: Inputs
    look: Look
    party: Optional[str]


class Store:
    """The last looks, by a random name. Threads may use it side by side."""

    def __init__(self) -> None:
        self._lock = threading.Lock()
        self._kept: "OrderedDict[str, Kept]" = OrderedDict()

    def keep(self, kept: Kept) -> str:
        """Keeps a look in place of the oldest, and gives its name."""
        name = secrets.token_urlsafe(8)
        with self._lock:
            self._kept[name] = kept
            while len(self._kept) > MOST_LOOKS:
                self._kept.popitem(last=False)
        return name

    def get(self, name: str) -> Optional[Kept]:
        """The look of that name, or `None` where it isn't kept any more."""
        with self._lock:
            return self._kept.get(name)


def _sent(files: Any, field: str) -> List[Named]:
    """The files of a field of the form; a field that was left empty has none. One byte more than
    the engine's limit is read, so the engine itself answers that a file is too long."""
    return [
        Named(
            file.filename.replace("\\", "/").rsplit("/", 1)[-1] or "file",
            file.stream.read(MOST_BYTES + 1),
        )
        for file in files.getlist(field)
        if file.filename
    ]


def _one(files: Any, field: str) -> Optional[Named]:
    return next(iter(_sent(files, field)), None)


def _calendars(form: Any, files: Any, offered: Sequence[Named], unread: Sequence[str]) -> Calendars:
    numbers = {int(text) for text in form.getlist("offered") if text.isdecimal() and len(text) < 6}
    ticked = [file for place, file in enumerate(offered) if place in numbers]
    others = [file for place, file in enumerate(offered) if place not in numbers]
    named = [*ticked, *_sent(files, "calendars")]
    return Calendars(named, others, unread) if form.get("needed") else Calendars(named)


def asked_for(form: Any, files: Any, offered: Sequence[Named], unread: Sequence[str] = ()) -> Kept:
    """The look that a form asks for. `offered` are the files of the calendars' folder, and `unread`
    are sentences on those that can't be read. Raises `BadInput` without a document, and
    `UnknownParty` for an unknown party."""
    document = _one(files, "document")
    if document is None:
        raise BadInput("Choose a document of terms.")
    calendars = _calendars(form, files, offered, unread)
    inputs = Inputs(
        document,
        _one(files, "fixings"),
        _one(files, "flows"),
        calendars.needed_by(document),
        calendars.notes,
    )
    party = form.get("party", "").strip() or None
    return Kept(inputs, look_at(inputs, date.today(), party), party)


def download(kept: Kept, name: str) -> Optional[Tuple[bytes, str]]:
    """The bytes and the media type of a download of a look, or `None` where there is none of that
    name."""
    if name == "report.html":
        return report([kept.look]).encode(), "text/html; charset=utf-8"
    schedule = kept.look.schedule
    if schedule is None:
        return None
    tables = {f"{table.title.lower().replace(' ', '-')}.csv": table for table in schedule.tables(kept.party)}
    if name in tables:
        return csv_text(tables[name]).encode(), "text/csv; charset=utf-8"
    if name == "schedule.xlsx":
        return (
            schedule.workbook(kept.party),
            "application/vnd.openxmlformats-officedocument.spreadsheetml.sheet",
        )
    if name == document_name(kept):
        inserted = with_cashflows(kept.inputs.document.content, ask("emit", kept.inputs).text)
        return inserted, "application/xml" if name.endswith(XML) else "application/json"
    return None


def document_name(kept: Kept) -> str:
    """The name of the download that is the document with its cash flows."""
    return "document" + (XML if is_xml(kept.inputs.document.content) else ".json")


def _centres(calendar: Named) -> str:
    """The centres of a calendar file, as the form shows them."""
    return brief(", ".join(centres_in(calendar.content)), 200)


class Desk:
    """The page below `/TOKEN/`; `offered` are the calendar files to choose from, and `unread` are
    sentences on those that can't be read.

    Raises `MissingPackage` where Flask or Jinja2 isn't installed.
    """

    def __init__(self, token: str, offered: Sequence[Named] = (), unread: Sequence[str] = ()) -> None:
        self.flask = package("flask", "the page", "Flask", "python3-flask")
        self.templates = environment()
        self.token = token
        self.offered, self.unread = offered, unread
        self.store = Store()
        tried = Calendars((), offered, unread)
        self.notes = tried.notes
        self.calendars = [
            (place, brief(file.name), "left out" if file in tried.left_out else _centres(file))
            for place, file in enumerate(offered)
        ]

    def page(self, template: str, status: int = 200, **values: Any) -> Any:
        """A page of a template."""
        text = self.templates.get_template(template).render(token=self.token, **values)
        return self.flask.Response(text, status, mimetype="text/html")

    def form(self, sentence: str = "", status: int = 200) -> Any:
        """The page that asks for files, with a sentence on what was wrong."""
        return self.page("desk_form.html", status, calendars=self.calendars, notes=self.notes, sentence=sentence)

    def style(self) -> Any:
        """The style sheet."""
        return self.flask.Response(style(), mimetype="text/css")

    def script(self) -> Any:
        """The script of the form's drop zones."""
        return self.flask.Response((TEMPLATES / "desk.js").read_text(encoding="utf-8"), mimetype="text/javascript")

    def look(self) -> Any:
        """Makes the look that the form asks for, and leads to it."""
        try:
            kept = asked_for(self.flask.request.form, self.flask.request.files, self.offered, self.unread)
        except BadInput as why:
            return self.form(str(why), 400)
        return self.flask.redirect(f"/{self.token}/look/{self.store.keep(kept)}", 303)

    def looked(self, name: str) -> Any:
        """The page of a look."""
        kept = self._kept(name)
        return self.page("desk_look.html", name=name, look=kept.look, document=document_name(kept))

    def given(self, name: str, what: str) -> Any:
        """A download of a look."""
        content, kind = download(self._kept(name), what) or self._nothing()
        return self.flask.Response(
            content,
            content_type=kind,
            headers={"Content-Disposition": f'attachment; filename="{what}"'},
        )

    def _kept(self, name: str) -> Kept:
        return self.store.get(name) or self._nothing()

    def _nothing(self) -> NoReturn:
        self.flask.abort(404)
        raise AssertionError("abort raises")

    def guard(self) -> None:
        """Answers nothing to a request that hasn't the random part, or that names another host."""
        host = self.flask.request.host.rsplit(":", 1)[0]
        given = self.flask.request.path.split("/")[1]
        if host not in (ADDRESS, "localhost") or not secrets.compare_digest(given.encode(), self.token.encode()):
            self.flask.abort(404)

    def with_headers(self, response: Any) -> Any:
        """The answer with the headers that keep the page to itself."""
        for name, value in _HEADERS.items():
            response.headers[name] = value
        return response

    def missing(self, _: Exception) -> Any:
        """What is said where there is nothing."""
        return self.flask.Response(
            "There is nothing at this address, or it isn't kept any more.\n",
            404,
            mimetype="text/plain",
        )

    def too_large(self, _: Exception) -> Any:
        """What is said of a request that is too large."""
        return self.form("The files together are larger than this page takes.", 413)

    def failed(self, _: Exception) -> Any:
        """What is said where the page itself fails."""
        return self.form("This look failed. The program's own output says more.", 500)


def make_app(token: str, offered: Sequence[Named] = (), unread: Sequence[str] = ()) -> Any:
    """The page as a Flask application; see `Desk`. Raises `MissingPackage` where Flask or Jinja2
    isn't installed."""
    desk = Desk(token, offered, unread)
    for note in desk.notes:
        LOG.warning("%s", visible(note))

    class InMemory(desk.flask.Request):  # type: ignore[misc, name-defined]
        """A request whose files stay in memory; Werkzeug would write the larger ones to disk."""

        def _get_file_stream(self, *_: Any, **__: Any) -> io.BytesIO:
            return io.BytesIO()

    app = desk.flask.Flask(__name__, static_folder=None, template_folder=None)
    app.config.update(MAX_CONTENT_LENGTH=MOST_REQUEST)
    app.request_class = InMemory
    app.before_request(desk.guard)
    app.after_request(desk.with_headers)
    for path, view in (
        ("", desk.form),
        ("look.css", desk.style),
        ("desk.js", desk.script),
        ("look/<name>", desk.looked),
        ("look/<name>/<what>", desk.given),
    ):
        app.add_url_rule(f"/{token}/{path}", view_func=view)
    app.add_url_rule(f"/{token}/look", view_func=desk.look, methods=["POST"])
    for status, said in ((404, desk.missing), (413, desk.too_large), (500, desk.failed)):
        app.register_error_handler(status, said)
    return app


def make_server(app: Any, number: int = 0) -> Any:
    """A server of the page at 127.0.0.1 alone; port 0 is any free one. It has `serve_forever` and
    `shutdown`. Raises `BadInput` where the port can't be had."""
    from werkzeug.serving import WSGIRequestHandler, make_server as made

    class Quiet(WSGIRequestHandler):
        """It writes no line a request: the address has the random part in it."""

        def log_request(self, *_: Any, **__: Any) -> None:
            return

    try:
        # Where a port is taken, Werkzeug prints lines of its own and ends the process: so it is tried before.
        with socket.socket() as tried:
            tried.setsockopt(socket.SOL_SOCKET, socket.SO_REUSEADDR, 1)
            tried.bind((ADDRESS, number))
        return made(ADDRESS, number, app, threaded=True, request_handler=Quiet)
    except OSError as why:
        raise BadInput(f"port {number} can't be had: {why.strerror or why}") from why


class Asked(argparse.Namespace):
    """The words of the command line."""

    calendars: Optional[Path]
    port: int
    open: bool


def parser() -> Parser:
    """The words that irs-desk takes."""
    made = Parser(prog="irs-desk", description=__doc__, formatter_class=argparse.RawDescriptionHelpFormatter)
    made.add_argument(
        "--calendars",
        type=Path,
        metavar="FOLDER",
        help="a folder of calendar files to choose from",
    )
    made.add_argument("--port", type=port, default=0, metavar="N", help="the port (any free one)")
    made.add_argument("--open", action="store_true", help="opens the page in the browser")
    return made


def _served(arguments: Optional[List[str]]) -> int:
    asked = parser().parse_args(arguments, Asked())
    logging.basicConfig(level=logging.WARNING, format="irs-desk: %(message)s")
    folder = asked.calendars
    if folder is not None and not folder.is_dir():
        raise BadInput(f"{shown(str(folder))} is no folder")
    offered, unread = folder_at(folder) if folder is not None else ([], [])
    token = secrets.token_urlsafe(24)
    server = make_server(make_app(token, offered, unread), asked.port)
    address = f"http://{ADDRESS}:{server.server_port}/{token}/"
    print(f"{address}\nThis page is for this machine alone. Ctrl-C ends it.", flush=True)
    if asked.open:
        webbrowser.open(address)
    try:
        server.serve_forever()
    except KeyboardInterrupt:
        pass
    return 0


def main(arguments: Optional[List[str]] = None) -> int:
    """Serves the page until it is interrupted; 2, with a sentence, where it can't."""
    return ended("irs-desk", _served, arguments)


if __name__ == "__main__":
    sys.exit(main())
