"""Links of pages: files, headings and sections; outputs on two pages; and words that two pages share."""
import os
import re

SHARED = 8


def headings_of(text):
    """The headings of a page, without those in fenced blocks."""
    bare = re.sub(r'(?ms)^```.*?^```', '', text)
    return [h.strip() for h in re.findall(r'(?m)^#+ (.*)$', bare)]


def anchor_of(heading):
    """The anchor that a reader of Markdown makes of a heading."""
    kept = re.sub(r'[^\w\- ]', '', heading.lower())
    return kept.replace(' ', '-')


def without_code(text):
    """The text with fenced and indented blocks blanked, so that line numbers stay."""
    text = re.sub(r'(?ms)^```.*?^```', lambda m: '\n' * m.group(0).count('\n'), text)
    return re.sub(r'(?m)^    (?! *[-*\d]).*$', '', text)


def check_links(page, text, read, is_there, faults):
    """Adds each link of a page that leads nowhere, and each section that isn't there."""
    folder = os.path.dirname(page)
    bare = without_code(text)

    def path_of(target):
        return os.path.normpath(os.path.join(folder, target)) if target else page

    for match in re.finditer(r'\]\(([^)\s]+)\)', bare):
        target, _, anchor = match.group(1).partition('#')
        line = bare.count('\n', 0, match.start()) + 1
        if re.match(r'\w+:', target):
            continue
        path = path_of(target)
        if not is_there(path):
            faults.append('%s:%d: there is no %s' % (page, line, path))
        elif anchor and anchor not in map(anchor_of, headings_of(read(path))):
            faults.append('%s:%d: %s has no heading for #%s' % (page, line, path, anchor))
    named = r'(?<![\w/(.])((?:docs|trials|examples|bench)/[\w/]*\w\.md)\b'
    for match in re.finditer(named, bare):
        if not is_there(match.group(1)):
            faults.append('%s:%d: there is no %s' % (page, bare.count('\n', 0, match.start()) + 1, match.group(1)))
    section = r'(?:\]\(([^)\s#]+\.md)\)|((?:docs/|trials/)?[A-Z][A-Za-z]*\.md|[A-Z]{4,}\.md)),\s+"([^"]+)"'
    for match in re.finditer(section, bare):
        path = path_of(match.group(1)) if match.group(1) else match.group(2)
        if not match.group(1) and not is_there(path):
            path = os.path.join('docs', path)
        if is_there(path) and ' '.join(match.group(3).split()) not in headings_of(read(path)):
            line = bare.count('\n', 0, match.start()) + 1
            faults.append('%s:%d: %s has no heading "%s"' % (page, line, path, match.group(3)))


def check_outputs(page, other, faults):
    """Each command of a page stands on the other page with the same output: a trial runs that page."""
    def commands_of(text):
        found = []
        for block in re.findall(r'(?ms)^```\n(\$ .*?)^```', text):
            found += [part.partition('\n')[::2] for part in re.split(r'(?m)^\$ ', block)[1:]]
        return found

    shown = dict(commands_of(other))
    for command, output in commands_of(page):
        if shown.get(command) != output:
            faults.append('README.md: `%s` isn\'t in docs/HOST.md with this output' % command)


def check_shared(page, text, other, other_text, faults):
    """No eight words in a row are on both pages: a fact is on one of them, and the other links there."""
    def runs_of(text):
        words = re.findall(r"[\w.']+", text.lower())
        return [' '.join(words[at:at + SHARED]) for at in range(len(words) - SHARED + 1)]

    there = set(runs_of(other_text))
    for run in runs_of(text):
        if run in there:
            faults.append('%s and %s share "%s"' % (page, other, run))
