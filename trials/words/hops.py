"""The hops of docs/ARCHITECTURE.md: each names a file and a function of it, and both are there.

A hop is an item of a numbered list below a heading `## A walk ..`. In it stand pairs such as
`scripts/src/lines.rt`, `cut_line`: a file, below crates/ or from the top, and what that file
defines. A file's name alone is in the folder of the file before it.
"""
import os
import re

PAIR = re.compile(r'`([\w./]+\.(?:rt|go|py))`,\s+`(\w+)`')
NAMED = re.compile(r'`([\w./]+(?:\.(?:rt|go|py)|/))`')
DEFINES = r'\b(?:fn|func(?: \([^)]*\))?|def|struct|enum|trait|type|class|impl(?:<[^>]*>)?) %s\b'


def hops_of(page):
    """The hops of a page: the line, and the text."""
    found, in_walk = [], False
    for number, line in enumerate(page.split('\n'), 1):
        if line.startswith('## '):
            in_walk = line.startswith('## A walk ')
        elif in_walk and re.match(r'\d+\. ', line):
            found.append([number, line])
        elif in_walk and found and line.startswith('   ') and line.strip():
            found[-1][1] += ' ' + line.strip()
    return found


def path_of(named, folder, top):
    """The file or folder that a hop names, or None."""
    for path in ('crates/' + named, named, folder + '/' + named):
        if os.path.exists(os.path.join(top, path)):
            return path
    return None


def check_hops(page, text, top, faults):
    """Adds what a hop names and the sources lack."""
    hops = hops_of(text)
    if not hops:
        faults.append('%s: no walk' % page)
    for number, hop in hops:
        where, folder, paths = '%s:%d' % (page, number), '', {}
        for named in NAMED.findall(hop):
            paths[named] = path_of(named, folder, top)
            if paths[named] is None:
                faults.append('%s: there is no %s' % (where, named))
            elif '/' in named and not named.endswith('/'):
                folder = os.path.dirname(paths[named])
        pairs = PAIR.findall(hop)
        if not pairs:
            faults.append('%s: the hop names no file with a function of it' % where)
        for named, name in pairs:
            if paths[named] is not None:
                with open(os.path.join(top, paths[named]), encoding='utf-8') as file:
                    if not re.search(DEFINES % name, file.read()):
                        faults.append('%s: %s has no %s' % (where, paths[named], name))


def check_picture(page, text, crates, faults):
    """The first picture of the page names each crate, and the folders outside the crates."""
    picture = text.split('```')[1]
    for name in crates + ['go/', 'tools/']:
        if not re.search(r'(?<!\w)%s' % re.escape(name), picture):
            faults.append('%s: its picture lacks %s' % (page, name))
