"""The prose of a page: its paragraphs and items, the rows of its tables, and sentences."""
import re


def blocks_of(text):
    """The prose of a page as blocks of (line number, line), and its rows of tables as (line number, line).

    A heading is a block of its own, and begins with `#`.
    """
    blocks, rows, block = [], [], []
    fenced = False
    in_list = False

    def end():
        nonlocal block
        if block:
            blocks.append(block)
        block = []

    for number, line in enumerate(text.split('\n'), 1):
        bare = line.strip()
        if bare.startswith('```') or bare.startswith('~~~'):
            fenced = not fenced
            end()
        elif fenced:
            continue
        elif not bare:
            end()
        elif bare.startswith('|'):
            end()
            rows.append((number, bare))
        elif bare.startswith('#'):
            end()
            in_list = False
            blocks.append([(number, bare + '.')])
        elif bare.startswith('<!--'):
            end()
        elif not block and not in_list and (line.startswith('    ') or line.startswith('\t')):
            continue
        else:
            if re.match(r'([-*+]|\d+\.) ', bare):
                end()
                in_list = True
            elif not block and not line.startswith(' '):
                in_list = False
            block.append((number, line))
    end()
    return blocks, rows


def is_heading(block):
    return block[0][1].startswith('#')


def text_of(block):
    return '\n'.join(line for _, line in block)


def plain(text):
    """Prose in which a piece of code counts as one word."""
    text = re.sub(r'``[^`]*``|`[^`]*`', 'code', text)
    text = re.sub(r'\]\([^)]*\)', ']', text)
    return re.sub(r'[*_]{1,2}(\S)', r'\1', text)


def words_in(sentence):
    return len([w for w in plain(sentence).split() if re.search(r'\w', w)])


def number_at(starts, place):
    number = starts[0][1]
    for start, line in starts:
        if start <= place:
            number = line
    return number


def sentences_of(block):
    """The sentences of a block: the number of the first line, the text, and how many words it has."""
    text, starts = '', []
    for number, line in block:
        starts.append((len(text), number))
        text += re.sub(r'^\s*([-*+]|\d+\.) +', '', line).strip() + ' '
    # code may cross the end of a line, so it is taken out of the whole block, at its own length
    bare = re.sub(r'`[^`]*`', lambda m: 'C' * len(m.group(0)), text)
    last = 0
    for end in [m.end() for m in re.finditer(r'(?<![.])[.!?][)*"\']*\s+(?=[^a-z\s])', bare)] + [len(bare)]:
        if bare[last:end].strip():
            yield number_at(starts, last), text[last:end], words_in(bare[last:end])
        last = end
