"""Lines that a source has for the prover alone, which a reader asks about: each wants a comment beside it.

A comment is beside a line if it is on the line or directly above it; of lines of one form that follow each other,
above the first. docs/PROVING.md says why each form is there.
"""
import re
from typing import Callable, Dict, Iterable, Iterator, List, Tuple

# A line of a form, and the last line that belongs to it, counted from 0.
Place = Tuple[int, int]
# A function that serves proofs: its name, and whether it is called on a value.
Served = Tuple[str, bool]

TEXT = re.compile(r'"(?:\\.|[^"\\\n])*"')
DROP = re.compile(r'(?<![\w.])(?<!fn )drop\(')
CLOSED = re.compile(r' *(?:return )?(?:(?:Ok|Some)\((\w+)\)|(\w+));?')
UNUSED = re.compile(r' *let _\w* = &?\w[\w.]*(?:\(\)[\w.]*)*;')
BOUND = re.compile(r' *(?:\'\w+: )?for _\w* in [01]\.\.=?(?:\w+::MAX|[A-Z_]+_LIMIT)\b')
FUNCTION = re.compile(r' *(?:pub(?:\([\w ]+\))? )?fn (\w+)[^(]*\(\s*(&?(?:mut )?self\b)?')
SERVES = re.compile(r'\bproofs? alone\b|\bcaller learns here\b')


def without_texts(line: str) -> str:
    """The line with an empty text for each text in quotes, so that `//` begins a comment."""
    return TEXT.sub('""', line)


def code_of(line: str) -> str:
    return without_texts(line).split('//')[0].rstrip()


def has_comment(line: str) -> bool:
    """Whether the line has a comment that says something."""
    return re.search(r'//.*\w', without_texts(line)) is not None


def serving_in(text: str) -> Iterator[Served]:
    """The functions whose comment says that they serve proofs alone, or that a caller learns something."""
    lines = text.split('\n')
    for number, line in enumerate(lines):
        found = FUNCTION.match('\n'.join(lines[number:number + 2]))
        if found is None:
            continue
        first = number
        while first and lines[first - 1].lstrip().startswith(('//', '#[')):
            first -= 1
        if SERVES.search(' '.join(above.strip(' /') for above in lines[first:number])):
            yield found.group(1), found.group(2) is not None


def matching(found: Callable[[str], object]) -> Callable[[List[str]], Iterator[Place]]:
    """The lines of code in which something is found."""
    return lambda code: ((number, number) for number, line in enumerate(code) if found(line))


def opened_and_closed(code: List[str]) -> Iterator[Place]:
    """Each `let x = ..?;` directly in front of `Ok(x)`, `Some(x)` or `x`."""
    for last in range(1, len(code)):
        closed = CLOSED.fullmatch(code[last])
        if closed is None or not code[last - 1].endswith('?;'):
            continue
        depth = ' ' * (len(code[last]) - len(code[last].lstrip()))
        let = re.compile('%slet (?:mut )?%s\\b' % (depth, closed.group(1) or closed.group(2)))
        first = last - 1
        # The statement's other lines are indented more, or begin with the end of a bracket.
        inside = re.compile(depth + '[ )}\\]]')
        while first and not code[first].startswith(depth + 'let ') and inside.match(code[first]):
            first -= 1
        if let.match(code[first]):
            yield first, last


def call_of(serving: Iterable[Served]) -> Callable[[str], object]:
    """Finds a call of one of these functions whose value nothing uses."""
    before = {True: r'&?\w[\w.]*(?:\(\)[\w.]*)*\.', False: r'(?:\w+::)*'}
    names = '|'.join(sorted(before[is_method] + name for name, is_method in serving))
    return re.compile(r' *(?:let _\w* = )?(?:%s)(?:::<.*>)?\(.*\);' % names).fullmatch


def without_reason(text: str, serving: Iterable[Served]) -> List[Tuple[int, str]]:
    """The number of each such line that has no comment beside it, and its form."""
    lines = text.split('\n')
    code = [code_of(line) for line in lines]
    found: Dict[int, str] = {}
    for form, places in (
            ('a value is dropped by a call', matching(DROP.search)),
            ('a result is opened and closed again', opened_and_closed),
            ('a call serves a proof alone', matching(call_of(serving))),
            ('a value is read and not used', matching(UNUSED.fullmatch)),
            ('a loop counts to a bound that it never meets', matching(BOUND.match))):
        told = -1  # the last line of this form with a reason
        for first, last in places(code):
            is_above = first > 0 and lines[first - 1].lstrip().startswith('//')
            beside = lines[first - is_above:last + 1]
            if any(map(has_comment, beside)) or (told >= 0 and told == first - 1):
                told = last
            else:
                found[first + 1] = form
    return sorted(found.items())
