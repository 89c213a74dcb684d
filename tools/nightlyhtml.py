"""The page of a nightly run as HTML. Used by tools/nightly."""
import html
import os
from urllib.parse import quote

from nightlypage import TITLES, about, all_rows, counted, folders, good, groups, losses, refused, since_title, title, traps, verdict
from nightlysheet import (NOT_IN_ROWS, SHORT, board_text, boards, held, logs_counted, never_held, no_board, not_compared, number, printable, short_logs,
                          stop_text, stops, uncontrolled)
from riscv import INSTRUCTIONS

STYLE = '''
:root { color-scheme: light dark; --ink: #1c2430; --soft: #5a6675; --page: #f4f6f8; --card: #fff; --line: #d9dfe5; --link: #0b57a4;
  --good: #1a7f4b; --bad: #b3261e; }
@media (prefers-color-scheme: dark) { :root { --ink: #e4e8ed; --soft: #a3aeba; --page: #12161b; --card: #1b2128; --line: #333d47; --link: #86b8f2;
  --good: #1c7a4a; --bad: #b5362e; } }
body { font: 16px/1.5 system-ui, "Segoe UI", "DejaVu Sans", sans-serif; color: var(--ink); background: var(--page); margin: 0; }
main { max-width: 54rem; margin: 0 auto; padding: 1.5rem 1rem 2rem; }
a { color: var(--link); }
h1 { font-size: 1.5rem; line-height: 1.25; margin: 0 0 1rem; overflow-wrap: anywhere; } h2 { font-size: 1.05rem; margin: 0 0 .5rem; }
section, .verdict { background: var(--card); border: 1px solid var(--line); border-radius: 8px; padding: 1rem; margin: 0 0 1rem; }
.verdict { font-size: 1.15rem; font-weight: 600; color: #fff; border: 0; }
.good { background: var(--good); } .bad { background: var(--bad); }
section.first { border-left: 6px solid var(--bad); }
table { border-collapse: collapse; width: 100%; }
th, td { text-align: left; padding: .3rem .75rem .3rem 0; border-bottom: 1px solid var(--line); vertical-align: top; overflow-wrap: anywhere; }
tr:last-child td { border-bottom: 0; } th { font-weight: 600; color: var(--soft); font-size: .85rem; overflow-wrap: normal; }
.n { text-align: right; white-space: nowrap; font-variant-numeric: tabular-nums; width: 1%; }
.whole { overflow-wrap: normal; }
td.under { padding-left: 1.25rem; color: var(--soft); }
td.name { min-width: 5.5rem; } td.name, li { overflow-wrap: anywhere; font-family: ui-monospace, "DejaVu Sans Mono", monospace; font-size: .9rem; }
summary { overflow-wrap: anywhere; cursor: pointer; } details { margin: .35rem 0; } ul { margin: .25rem 0; padding-left: 1.5rem; } li { margin: .2rem 0; }
.columns { display: grid; grid-template-columns: repeat(auto-fit, minmax(min(22rem, 100%), 1fr)); gap: 0 1rem; align-items: start; }
.tables { display: flex; flex-wrap: wrap; gap: 0 1.5rem; align-items: start; } .tables div { flex: 1 1 auto; max-width: 100%; overflow-x: auto; }
.tables div:last-child { flex-basis: 100%; } .tables th, .tables td { padding-right: .5rem; font-size: .85rem; } .tables th { font-size: .75rem; }
.tables td.name { min-width: 0; overflow-wrap: normal; }
.losers { overflow-x: auto; } .losers table { width: auto; }
.losers th, .losers td { padding-right: .45rem; font-size: .8rem; overflow-wrap: normal; width: auto; }
.losers th { font-size: .7rem; white-space: normal; } .losers td { white-space: nowrap; } .losers td.name { min-width: 0; }
.about td:first-child { color: var(--soft); white-space: nowrap; width: 1%; }
'''
LISTED, OPEN = 500, 20        # names of a list in the HTML page (the text has all); up to so many stand open


class Links:
    """Links from a page to cases and kept outputs, relative to the page's folder, so that all can be moved together."""

    def __init__(self, record, page):
        self.start, self.folder = page and os.path.dirname(os.path.realpath(page)), record['folder']
        self.rows = {row['name']: row for row in all_rows(record)}

    def link(self, path, text):
        return '<a href="%s">%s</a>' % (html.escape(quote(os.fsencode(os.path.relpath(path, self.start)))), html.escape(text))

    def case(self, name):
        """The name of a case or a log with its links; only the name where there is no page that could link, or no such file."""
        if not self.start or name not in self.rows:
            return html.escape(printable(name))
        row = self.rows[name]
        beside = [self.link(path, 'output' if path.endswith('.got') else 'standard error') for path in row['kept']]
        beside += ['its output is not kept: ' + html.escape(row['unkept'])] if row['unkept'] else []
        return self.link(os.path.join(self.folder, name), printable(name)) + (' (%s)' % ', '.join(beside) if beside else '')


def html_rows(heads, classes, rows, parts=False):
    """A table; its cells are HTML already. With parts, what begins with `.. ` is a part of what stands above it."""
    def cells(tag, row):
        kinds = ['under' if parts and cell.startswith('.. ') else kind for kind, cell in zip(classes, row)]
        return '<tr>%s</tr>' % ''.join('<%s class="%s">%s</%s>' % (tag, kind, cell[3 if kind == 'under' else 0:], tag) for kind, cell in zip(kinds, row))
    more = '<p>.. and %s more; the text page lists them all.</p>' % number(len(rows) - LISTED) if len(rows) > LISTED else ''
    return '<table>%s</table>%s' % ('\n'.join(([cells('th', heads)] if heads else []) + [cells('td', row) for row in rows[:LISTED]]), more)


def section(name, body, kind=''):
    return '<section%s><h2>%s</h2>%s</section>' % (' class="%s"' % kind if kind else '', html.escape(name), body)


def html_list(what, items, unfolded=OPEN):
    """A list that can be folded, and stands open up to so many items; they are HTML already."""
    more = ['.. and %s more; the text page lists them all' % number(len(items) - LISTED)] if len(items) > LISTED else []
    return '<details%s><summary><b>%s</b> %s</summary><ul>%s</ul></details>' % (
        ' open' if len(items) <= unfolded else '', number(len(items)), html.escape(what), '\n'.join('<li>%s</li>' % item for item in items[:LISTED] + more))


def html_names(what, names, links):
    return html_list(what, [links.case(name) for name in names])


def html_refused(record, links):
    found = {}
    for k, place, what, name in refused(record):
        found.setdefault('refused by %s: %s' % (k, what), []).append('at %s: %s' % (place, links.case(name)))
    return '\n'.join(html_list(what, items) for what, items in found.items())


def html_sheet(record, links):
    """What keeps a night from being clean."""
    missed, found = not_compared(record), stops(record)
    if missed:
        yield section('Not compared: %s' % number(sum(map(len, missed.values()))), '\n'.join(
            html_names(what, names, links) for what, names in missed.items()), 'first')
    if found:
        yield section('Stops: %s' % number(len(found)), html_list('logs stopped', [
            '%s%s: %s (%s)' % (links.case(case), html.escape(board_text(log)), html.escape(stop_text(log)), links.case(log['name']))
            for case, log in found], unfolded=len(found)), 'first')


def html_boards(record, links):
    """Rows and boards; of a folder without logs, that there are none."""
    if not record['logs']:
        yield section('Boards', html.escape(no_board(record)))
        return
    lists = [(SHORT[1], short_logs(record))] + [('no control row was tried: ' + why, names) for why, names in uncontrolled(record).items()]
    yield section('Boards', html_rows(None, ['n', ''], escaped(logs_counted(record)), parts=True) + ''.join(
        '<p>%s.</p>' % html.escape(what) for what in (never_held(record), NOT_IN_ROWS)) + ''.join(
        html_names(what, names, links) for what, names in lists if names))
    if boards(record):
        rows = [[name, 'logs %s, cases without %s, rows %s, agreed %s, not compared %s, stops %s' % (*numbers,)] for *numbers, name in boards(record)]
        yield section('By board', html_rows(None, ['name', ''], escaped(rows)))


def html_held(record):
    """The table of instructions, in three columns where there is room, and below them the rows that hold none."""
    rows, n = escaped(held(record)), len(INSTRUCTIONS)
    third = -(-n // 3)
    parts = [rows[k:min(k + third, n)] for k in range(0, n, third)] + [rows[n:]]
    return section('Rows by instruction', '<div class="tables">%s</div>' % ''.join(
        '<div>%s</div>' % html_rows(['agreed', 'in the logs', 'instruction'], ['n', 'n', 'name'], part) for part in parts))


def html_groups(record, links):
    for kind, same in groups(record).items():
        if same:
            more = len(same) - LISTED
            yield section('%s: %s' % (TITLES[kind], number(sum(map(len, same.values())))), '\n'.join(
                [html_names(what, names, links) for what, names in list(same.items())[:LISTED]]
                + (['<p>.. and %s more faults; the text page lists them all.</p>' % number(more)] if more > 0 else [])), 'first')
    if record['since']:
        notes = ''.join('<p>%s</p>' % html.escape(what) for what in record['since']['notes'])
        yield section(since_title(record['since']), notes + ('\n'.join(
            html_names(what, names, links) for what, names in record['since']['groups']) or 'Nothing is new and nothing is gone.'))


def escaped(rows):
    return [list(map(html.escape, row)) for row in rows]


def html_losses(record):
    """Who broke whose reservations. A number is never broken over lines, where it would be read as two; what doesn't fit is scrolled to."""
    heads, rows = losses(record)
    return section('Who broke whose reservations', html_rows(heads, ['name'] + ['n'] * (len(heads) - 1), escaped(rows)) if rows else 'None.', 'losers')


def html_tables(record, links):
    yield '<div class="columns">'
    yield section('Counts', html_rows(None, ['n', ''], escaped(counted(record)), parts=True))
    yield section('Traps by cause', html_rows(['traps', 'cause', ''], ['n', 'n', ''], escaped(traps(record))))
    yield '</div>'
    yield html_losses(record)
    if len(folders(record)) > 1:
        yield section('By folder', html_rows(['files', 'events', 'folder', 'faults'], ['n', 'n', 'name', 'whole'], escaped(folders(record))))
    yield section('Refused files', html_refused(record, links) or 'None.')
    if record['logs']:
        yield html_held(record)
    yield section('This run', html_rows(None, ['', ''], escaped(about(record))), 'about')


def html_page(record, page=None):
    """The page; with its path, names are links."""
    links, (word, why) = Links(record, page), verdict(record)
    return '\n'.join(['<!doctype html>', '<html lang="en"><head><meta charset="utf-8">',
                      '<meta name="viewport" content="width=device-width, initial-scale=1">',
                      '<meta name="color-scheme" content="light dark">',
                      '<title>%s: %s</title><style>%s</style></head>' % (html.escape(title(record)), word, STYLE),
                      '<body><main><h1>%s</h1>' % html.escape(title(record)),
                      '<div class="verdict %s">%s</div>' % ('good' if good(record) else 'bad', html.escape('%s: %s' % (word, why))),
                      *html_sheet(record, links), *html_groups(record, links), *html_boards(record, links), *html_tables(record, links),
                      '</main></body></html>', ''])
