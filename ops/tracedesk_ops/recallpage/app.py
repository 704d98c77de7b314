"""The pages of recalls, for readers whom the proxy has logged in."""
from __future__ import annotations

import datetime
import pathlib

import flask
from werkzeug.exceptions import HTTPException

from tracedesk_ops.recallpage import pages, papers
from tracedesk_ops.recallpage.jobs import ANSWER, HOLDS, MOST_BYTES, MOST_SHOWN, RECALLS
from tracedesk_ops.recallpage.jobs import Asked, Full, Job, Queue
from tracedesk_ops.recalls.wording import count

READER = "X-Reader"  # the header in which the proxy names the reader
FIELDS = ("kind", "names", "part", "within", "badge", "reason")
SECONDS_UNTIL_AGAIN = 3
HEADERS = {
    "Content-Security-Policy": "default-src 'none'; style-src 'self'; form-action 'self';"
    " base-uri 'none'; frame-ancestors 'none'",
    "X-Content-Type-Options": "nosniff",
    "Referrer-Policy": "same-origin",  # else Origin is null
    "Cache-Control": "no-store",
}


def asked_by(reader: str, form: "dict[str, str]") -> Asked:
    """The question in a form; a ValueError says what is wrong with it."""
    its = {name: form.get(name, "").strip() for name in FIELDS}
    now = datetime.datetime.now().astimezone()
    asked = Asked(**its, reader=reader, at=f"{now:%Y-%m-%d %H:%M %Z}")
    asked.check()
    return asked


def reader() -> str:
    """Who asks, as the proxy says."""
    return flask.request.headers.get(READER, "") or flask.abort(403)


class Site:
    """The pages over a queue."""

    def __init__(self, queue: Queue) -> None:
        self.queue = queue

    def form(self, refused: str, status: int, values: "dict[str, str]") -> tuple[str, int]:
        newest = reversed(self.queue.all()[-MOST_SHOWN:])
        jobs = [
            {"name": job.name, "title": asked.title, "reader": asked.reader, "at": asked.at}
            | {"state": self.state_of(job)}
            for job, asked in self.queue.questions(newest)
        ]
        asked = {name: values.get(name, "") for name in (*FIELDS, "shipped")}
        its = {"refused": refused, "asked": asked, "jobs": jobs, "recalls": RECALLS, "holds": HOLDS}
        return pages.page(pages.FORM, "Recall", its), status

    def state_of(self, job: Job) -> str:
        if ended := job.ended:
            return str(ended["headline"])
        before = self.queue.before(job)
        waits = f"Waits behind {count(before, 'other')}." if before else "Is next."
        return "It is worked off." if job.is_begun else waits

    def job_of(self, name: str) -> Job:
        reader()
        return self.queue.job(name) or flask.abort(404)

    def ask(self) -> tuple[str, int]:
        reader()
        return self.form("", 200, {})

    def take(self) -> "flask.typing.ResponseReturnValue":
        who, values = reader(), flask.request.form.to_dict()
        upload = flask.request.files.get("shipped")
        shipped = upload.read() if upload else b""
        try:
            job = self.queue.add(asked_by(who, values), shipped)
        except ValueError as fault:
            return self.form(f"{str(fault)[:1].upper()}{str(fault)[1:]}.", 400, values)
        except Full as fault:
            return self.form(str(fault), 429, values)
        return flask.redirect(f"/recall/{job.name}/", 303)

    def show(self, name: str) -> "flask.typing.ResponseReturnValue":
        job = self.job_of(name)
        if job.ended:
            return flask.send_file(job.folder.resolve() / ANSWER)
        state = {"state": self.state_of(job)}
        return pages.page(pages.WAIT, job.asked.title, state, SECONDS_UNTIL_AGAIN)

    def download(self, name: str, file: str) -> flask.Response:
        job = self.job_of(name)
        if not job.ended or file not in papers.in_folder(job.folder):
            flask.abort(404)
        path, called = job.folder.resolve() / file, f"recall-{job.name}-{file}"
        return flask.send_file(path, as_attachment=file != papers.PDF, download_name=called)


def style() -> flask.Response:
    return flask.Response(pages.CSS, mimetype="text/css")


def wrong(fault: HTTPException) -> tuple[str, int]:
    return pages.page(pages.WORD, "Recall", {"text": fault.description}), fault.code or 500


def guard(response: flask.Response) -> flask.Response:
    response.headers.update(HEADERS)
    return response


def make(folder: pathlib.Path) -> flask.Flask:
    """The application over the queue in a folder."""
    app = flask.Flask("tracedesk-recall-page", static_folder=None, template_folder=None)
    app.config["MAX_CONTENT_LENGTH"] = MOST_BYTES
    site = Site(Queue(folder))
    app.get("/recall/")(site.ask)
    app.post("/recall/")(site.take)
    app.get("/recall/<name>/")(site.show)
    app.get("/recall/<name>/<file>")(site.download)
    app.get("/recall/page.css")(style)
    app.errorhandler(HTTPException)(wrong)
    app.after_request(guard)
    return app
