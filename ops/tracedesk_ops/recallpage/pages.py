"""The pages of recalls as texts. What comes from elsewhere is always escaped."""
from __future__ import annotations

import re
from collections.abc import Mapping

import jinja2
import markupsafe

from tracedesk_ops.recallpage.view import ShownAnswer

CSS = """
* { box-sizing: border-box }
body {
  font: 17px/1.45 "DejaVu Sans", Verdana, sans-serif; color: #1b2430;
  margin: 0 auto; padding: 1.2rem 2rem 3rem; max-width: 1500px;
}
h1 { font-size: 1.5rem; margin: .2rem 0 .6rem }
h2 { font-size: 1.15rem; margin: 1.6rem 0 .4rem; break-after: avoid }
.answer { border: 4px solid #1b7a3d; padding: .7rem 1rem; font-size: 1.5rem; font-weight: bold }
.answer.missing { border-color: #b71c1c; color: #b71c1c }
.answer.wait { border-color: #55606e; font-weight: normal }
.why { border-left: 6px solid #b71c1c; padding: .2rem 1rem; margin: 1rem 0 }
.downloads a { display: inline-block; margin: 1rem 1.5rem 0 0; font-weight: bold }
table { border-collapse: collapse; width: 100% }
thead { display: table-header-group }
tr { break-inside: avoid }
th, td {
  text-align: left; padding: .22rem .6rem; border-bottom: 1px solid #c6ccd4; vertical-align: top;
}
th, .grey { color: #55606e; font-weight: normal; font-size: .9rem }
fieldset { border: 1px solid #c6ccd4; margin: 0 0 1rem; padding: .6rem 1rem }
label { display: block; margin: .5rem 0 .1rem }
input, select, button {
  display: block; font: inherit; padding: .3rem .5rem; width: 100%; max-width: 34rem;
}
button { width: auto; margin-top: .8rem; font-weight: bold; color: #fff; background: #0b57a4 }
.refused { color: #b71c1c; font-weight: bold }
@page {
  size: A4; margin: 14mm 12mm 16mm;
  @bottom-right { content: "page " counter(page) " of " counter(pages); font-size: 8pt }
}
@media print {
  body { font-size: 9pt; padding: 0 }
  h1, .answer { font-size: 14pt }
}
"""
HEAD = """<!DOCTYPE html>
<html lang="en"><head><meta charset="utf-8"><meta name="viewport" content="width=device-width">
<title>{{ title }}</title>
{% if again %}<meta http-equiv="refresh" content="{{ again }}">{% endif %}
{% if is_paper %}<style>{{ css|safe }}</style>
{% else %}<link rel="stylesheet" href="/recall/page.css">{% endif %}
</head><body><h1>{{ title }}</h1>
"""
ANSWER = """
<div class="answer{% if not answer.is_complete %} missing{% endif %}" id="answer">
{{- answer.headline }}</div>
{% if answer.reasons %}<div class="why"><p>Why, and what to do:</p><ul>
{% for text in answer.reasons %}<li>{{ text|cell }}</li>{% endfor %}</ul></div>{% endif %}
<p class="downloads">{% for file, text in downloads.items() %}
<a href="{{ file }}">{{ text }}</a>{% endfor %}</p>
{% for table in answer.tables %}<h2>{{ table.title }}</h2>
{% if table.rows %}
<table><thead><tr>{% for name in table.header %}<th>{{ name }}</th>{% endfor %}</tr></thead><tbody>
{% for row in table.rows %}
<tr>{% for value in row %}<td>{{ value|cell }}</td>{% endfor %}</tr>
{% endfor %}</tbody></table>
{% if table.more %}
<p class="refused">{{ "{:,}".format(table.more) }} more rows are in the spreadsheet and the
evidence.</p>{% endif %}
{% else %}<p>None.</p>{% endif %}{% endfor %}
{% if answer.notes %}<h2>To know</h2>
<ul>{% for text in answer.notes %}<li>{{ text|cell }}</li>{% endfor %}</ul>{% endif %}
{% if answer.limits %}<h2>What no recall can know</h2>
<ul>{% for text in answer.limits %}<li>{{ text }}</li>{% endfor %}</ul>{% endif %}
"""
FORM = """
{% if refused %}<p class="refused" id="refused">{{ refused }}</p>{% endif %}
{% macro field(name, text, type="text") %}
<label for="{{ name }}">{{ text }}</label>
<input type="{{ type }}" id="{{ name }}" name="{{ name }}" value="{{ asked[name] }}"
  autocomplete="off">{% endmacro %}
{% macro kinds(id, texts) %}<select id="{{ id }}" name="kind">{% for value, text in texts.items() %}
<option value="{{ value }}"{% if value == asked.kind %} selected{% endif %}>{{ text }}</option>
{% endfor %}</select>{% endmacro %}
<form method="post" action="/recall/" enctype="multipart/form-data"><fieldset>
<label for="kind">What is recalled?</label>{{ kinds("kind", recalls) }}
{{ field("names", "Its name, as on the label. Several lots or reels: a comma between two") }}
{{ field("part", "Only this part, for a lot or an attribute (may be empty)") }}
{{ field("within", "By how many pieces a label may be wrong: pieces so near a splice are doubtful"
  " (may be empty)") }}
{{ field("shipped", "Shipped boards: a CSV file with the columns board, customer and date"
  " (may be empty)", "file") }}
<p class="grey">All lines that are set up here are asked, with all their archives.</p>
<button id="ask">Recall</button></fieldset></form>
<form method="post" action="/recall/" enctype="multipart/form-data"><fieldset>
<label for="held">Hold or release: a machine with a held reel in front has to stop</label>
{{ kinds("held", holds) }}
<label for="held-names">Its name, as on the label; a comma between two</label>
<input type="text" id="held-names" name="names" autocomplete="off">
{{ field("badge", "Your badge") }}
{{ field("reason", "Why") }}
<button id="hold">Hold or release</button></fieldset></form>
<h2>So far</h2>
<table><thead><tr><th>Question</th><th>Asked by</th><th>At</th><th>Answer</th></tr></thead><tbody>
{% for job in jobs %}
<tr><td><a href="/recall/{{ job.name }}/">{{ job.title }}</a></td>
<td>{{ job.reader }}</td><td>{{ job.at }}</td><td>{{ job.state }}</td></tr>
{% endfor %}</tbody></table>
"""
BACK = '<p><a href="/recall/">Another recall</a></p>'
WAIT = f"""
<div class="answer wait" id="wait">{{{{ state }}}}</div>
<p class="grey">This page renews itself. You may close it: the work goes on, and its answer stays
here.</p>{BACK}"""
WORD = f'<p class="refused" id="refused">{{{{ text }}}}</p>{BACK}'
MOST_LETTERS = 300  # of a cell
LONG = re.compile(r"\S{16}(?=\S)")  # as long as a line of a narrow column


def cell(text: str) -> markupsafe.Markup:
    """A text of so many letters at most, whose long words have places where a line may end: to
    find these takes a PDF the square of their letters.
    """
    its = text if len(text) <= MOST_LETTERS else f"{text[:MOST_LETTERS]} .. ({len(text):,} letters)"
    return markupsafe.Markup("<wbr>").join(LONG.sub("\\g<0>\n", its).split("\n"))


ENVIRONMENT = jinja2.Environment(autoescape=True, undefined=jinja2.StrictUndefined)
ENVIRONMENT.filters["cell"] = cell


def page(
    body: str, title: str, values: Mapping[str, object], again: int = 0, is_paper: bool = False
) -> str:
    """A page by one of the texts above; it is asked for again after so many seconds, if not 0."""
    made = ENVIRONMENT.from_string(f"{HEAD}{body}</body></html>\n")
    return made.render(**values, title=title, again=again, is_paper=is_paper, css=CSS)


def shown(answer: ShownAnswer, downloads: Mapping[str, str]) -> str:
    """The page of an answer."""
    return page(ANSWER + BACK, answer.title, {"answer": answer, "downloads": downloads})


def paper(answer: ShownAnswer) -> str:
    """The page to print."""
    return page(ANSWER, answer.title, {"answer": answer, "downloads": {}}, is_paper=True)
