"""A nightly run as JUnit XML, for CI systems that show test results. Used by tools/nightly.

A folder is a suite, and a case and a log are tests. A missing answer is an error, a wrong or different one a failure. Of a log, a stop is a failure
too, and one that was not compared for another reason an error, as is a case without a log where the folder has logs. What is missing of the folder,
the program or the parts, a log without a case and a file that is like a log are errors of the suite `the night`, so that no reader of the file takes
a night that isn't complete or clean for a good one. With a settings file, every suite has it and its boards as properties, and what is at fault with a
log begins with its board.
"""
import os
import re
import xml.etree.ElementTree as xml

from nightlyboards import settings_text
from nightlypage import fault, title, verdict
from nightlysheet import alike, board_text, log_fault, log_reason

NO_XML = re.compile('[^\t\n\r\x20-\ud7ff\ue000-\ufffd\U00010000-\U0010ffff]')


def clean(text):
    """A text without the characters that XML can't hold; each is written as an escape."""
    return NO_XML.sub(lambda match: ascii(match.group())[1:-1], text)


def element(above, tag, **attributes):
    return xml.SubElement(above, tag, {key: clean(str(value)) for key, value in attributes.items()})


def test(suite, folder, name, time, bad, kept=()):
    """One test; bad is its kind and what is at fault, or None."""
    made = element(suite, 'testcase', classname='floecavern' if folder == '.' else 'floecavern.' + folder.replace('/', '.'), name=name, time='%.3f' % time)
    if bad:
        kind, what = bad
        element(made, 'failure' if kind in ('wrong', 'different', 'stopped') else 'error', type=kind, message=what).text = clean(what)
    if bad and kept:
        element(made, 'system-out').text = clean('what it wrote is kept in ' + ' and '.join(kept))


def start(top, record, name, time):
    """A suite, with the night's verdict: that it is of a part, or only of cases that were run again, stands there too."""
    suite = element(top, 'testsuite', name=name, time='%.3f' % time, timestamp=record['started'][:19].replace(' ', 'T'))
    given = [('settings', record['settings']), ('settings SHA-256', record['settings_sha256'])] if record['settings'] else []
    given += [('board %d' % k, settings_text(settings)) for k, settings in enumerate(record['boards'])]
    properties = element(suite, 'properties')
    for key, value in [('verdict', ': '.join(verdict(record))), *given]:
        element(properties, 'property', name=key, value=value)
    return suite


def log_message(log):
    """What is at fault with a log, and with a settings file its board and what that is set to before it."""
    return (board_text(log)[2:] + ': ' if log['settings'] else '') + log_fault(log)


def log_tests(suite, folder, row):
    """The tests of a case's logs; of a case without one, that it has none."""
    for log in row['logs']:
        test(suite, folder, os.path.basename(log['name']), log['seconds'], (log_reason(log), log_message(log)) if log_reason(log) else None, log['kept'])
    if row['unlogged']:
        test(suite, folder, os.path.basename(row['name'])[:-5] + '.log', 0, ('missing', 'the case has no log'))


def count(above):
    """Gives an element the numbers of tests below it."""
    for key, tag in (('tests', 'testcase'), ('failures', 'failure'), ('errors', 'error')):
        above.set(key, str(sum(1 for _ in above.iter(tag))))


def junit(record):
    folders = {}
    for row in record['cases']:
        folders.setdefault(os.path.dirname(row['name']) or '.', []).append(row)
    top = xml.Element('testsuites', name='floecavern nightly')
    top.append(xml.Comment(' %s ' % re.sub('-(?=-)', '- ', clean(title(record)))))
    for name, rows in sorted(folders.items()):
        taken = sum(row['seconds'] for case in rows for row in (case, *case['logs']))
        suite = start(top, record, name, taken)
        for row in rows:
            test(suite, name, os.path.basename(row['name']), row['seconds'], fault(row), row['kept'])
            log_tests(suite, name, row)
    beside = record['beside'] + [[log['name'], log['what']] for log in record['strays']]
    beside += [[name, "has a name like a log's"] for name in alike(record)]
    if beside:
        suite = start(top, record, 'the night', 0)
        for name, what in beside:
            test(suite, '.', name, 0, ('missing', what))
    for above in (top, *top.findall('testsuite')):
        count(above)
    top.set('time', '%.3f' % record['seconds'])
    xml.indent(top, '')
    return '<?xml version="1.0" encoding="UTF-8"?>\n%s\n' % xml.tostring(top, encoding='unicode')
