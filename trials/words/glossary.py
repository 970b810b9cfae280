"""docs/GLOSSARY.md has an entry for each term that a page uses, and pages name their readers."""
import re

ENTRY = re.compile(r'(?m)^\| \*\*([^*|]+)\*\* \|')
READER = re.compile(r'\b[Ff]or\s+(?:\w+\s+)?(?:who|whoever|people|operators|maintainers|auditors|engineers|readers|daemons|clients|one)\b')


def entries_of(text):
    """The terms that have an entry; `a, b` are two of one."""
    return {term.strip() for entry in ENTRY.findall(text) for term in entry.split(',')}


def check_terms(page, terms, texts, faults):
    """Each listed term has an entry, and is used by a page; each entry is listed.

    `terms` has a line for each term. `texts` has all pages, by their names.
    """
    entries = entries_of(texts[page])
    listed = [line.strip() for line in terms.split('\n') if line.strip() and not line.startswith('#')]
    for term in listed:
        users = [name for name, text in sorted(texts.items())
                 if name != page and re.search(r'(?<!\w)%ss?\b' % re.escape(term), text, re.IGNORECASE)]
        if users and term not in entries:
            faults.append('%s: no entry for "%s", which %s uses' % (page, term, users[0]))
        if not users:
            faults.append('trials/words/terms: no page uses "%s"' % term)
    for term in sorted(entries - set(listed)):
        faults.append('trials/words/terms lacks "%s" of %s' % (term, page))


def check_reader(page, blocks, faults):
    """The first paragraph names who the page is for."""
    first = next((block for block in blocks if not block[0][1].startswith('#')), None)
    text = ' '.join(line for _, line in first) if first else ''
    if not READER.search(text):
        faults.append('%s: its first paragraph names no reader (`For people who ..`)' % page)
