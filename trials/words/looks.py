"""What wants a second look in the prose of a page. A list, and no refusal: each may be right as it is."""
import re

from prose import blocks_of, is_heading, plain, sentences_of, text_of

SENTENCE = 35
WORDS = [
    (r'what(?!ever)', 'name the noun'),
    (r'that which', 'name the noun'),
    (r'those that', 'repeat the noun'),
    (r'stands?|stood|standing', 'is; or name the place'),
    (r'goes|gone', 'is removed; or say where it goes'),
    (r'tells?|told', 'returns, prints, reports'),
    (r'anew', 'again'),
    (r'behind', 'after; or a place'),
    (r'beside', 'with, next to; or a place'),
]
STARTS = r'(It|This|One)\b'


def looks_at(path, text):
    """Yields the line number and the remark of each place."""
    blocks, rows = blocks_of(text)
    for block in blocks:
        if is_heading(block):
            continue
        start = re.match(STARTS, plain(text_of(block)).strip())
        if start:
            yield block[0][0], '"%s" at a paragraph\'s start; better: the noun' % start.group(1)
        for number, sentence, words in sentences_of(block):
            if words > SENTENCE:
                yield number, 'a sentence of %d words: %s ..' % (words, ' '.join(sentence.split()[:7]))
    pieces = [(block[0][0], text_of(block)) for block in blocks if not is_heading(block)] + rows
    for first, piece in pieces:
        # code is blanked at its own length, so that places stay
        bare = re.sub(r'`[^`]*`', lambda m: re.sub(r'[^\n]', '_', m.group(0)), piece)
        for word, better in WORDS:
            for match in re.finditer(r'(?<![\w-])(?:%s)(?![\w-])' % word, bare, re.IGNORECASE):
                if not in_question(bare, match.end()):
                    line = first + bare.count('\n', 0, match.start())
                    yield line, '"%s"; better: %s' % (match.group(0), better)


def in_question(text, at):
    """The sentence from here on ends with a question mark."""
    end = re.search(r'[.!?](?=\s|$)|\n\n', text[at:])
    return bool(end) and end.group(0) == '?'
