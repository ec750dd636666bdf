"""What of the code is longer, wider or takes more than a reader should meet.

Functions over 40 lines or over eight parameters, clauses and lines of specifications over 100
columns, files over 800 lines, and code that stands twice. What stands in ALLOWED has its reason
there.
"""

import re
from collections import defaultdict
from pathlib import Path

TOP = Path(__file__).resolve().parent.parent
LINES, PARAMETERS, COLUMNS, FILE, REPEAT = 40, 8, 100, 800, 12

VARIANTS = 'a match with an arm for each variant'
LISTS = 'it lends the lists of an addition, each device and the request'

# By file and function: why it may be so.
ALLOWED = {
    ('app_trace/src/same_data.rt', 'is_same'): VARIANTS,
    ('app_trace/src/same_request.rt', 'is_same'): VARIANTS,
    ('app_trace/src/same_store.rt', 'is_same'): VARIANTS,
    ('file_ops/src/serve.rt', 'serve_node'): VARIANTS,
    ('portal_model/src/store.rt', 'replica'): VARIANTS,
    ('add_calls/src/place.rt', 'place_item'): LISTS,
    ('add_serving/src/calls.rt', 'add'): LISTS,
    ('add_serving/src/calls.rt', 'add_presented'): LISTS,
    ('add_serving/src/calls.rt', 'add_planned'): LISTS,
    ('portal_steps/src/additions.rt', 'serve_add'): LISTS,
    ('portal_steps/src/additions.rt', 'add_on'): LISTS,
    ('portal_steps/src/documents.rt', 'serve'): 'it lends the lists, a keeper and the request',
    ('node_serving/src/seat.rt', 'serve'): 'it lends the lists, each device and the request',
    ('serve_posts/src/serve.rt', 'serve'): 'the four devices, the posts and their settings',
}

FUNCTION = re.compile(r'^(\s*)(?:pub(?:\([a-z]+\))? )?(?:const )?fn (\w+)')
# Lines that can't be broken: imports, rows of tables, and the lemmas that a proof is found by.
WHOLE = re.compile(r'^\s*(?:(?:pub )?(?:ghost )?use |//! \||#\[tactic)')


def name(path):
    return str(path.relative_to(TOP / 'crates'))


def texts(pattern):
    """The lines of the files of all crates, by their names."""
    return {name(path): path.read_text(encoding='utf-8').splitlines()
            for path in sorted((TOP / 'crates').glob('*/' + pattern))}


def parameters(lines, at):
    """How many parameters the function has that begins at a line."""
    text = '\n'.join(lines[at:at + 60])
    depth, count, some = 0, 0, False
    for letter in text[text.index('('):]:
        if letter in '([<{':
            depth += 1
        elif letter in ')]>}':
            depth -= 1
        if depth == 0:
            break
        if letter == ',' and depth == 1:
            count, some = count + some, False
        elif depth > 1 or not letter.isspace() and letter != '(':
            some = True
    return count + some


def body(lines, at, indent):
    """The lines of a function's body: from the line of its brace to that which closes it."""
    for begin in range(at, min(at + 120, len(lines))):
        line = lines[begin]
        if line.rstrip().endswith('{}') or line.rstrip().endswith(';') and begin == at:
            return []
        if line == indent + '{' or line.endswith(' {') and (
                begin == at or line.startswith(indent + ')')):
            break
    else:
        return []
    for end in range(begin + 1, len(lines)):
        if lines[end] == indent + '}':
            return lines[begin + 1:end]
    return []


def look_at_functions(sources):
    for file, lines in sources.items():
        for at, line in enumerate(lines):
            if not (found := FUNCTION.match(line)):
                continue
            indent, function = found.groups()
            if (count := parameters(lines, at)) > PARAMETERS:
                yield file, function, '%d parameters, and at most %d' % (count, PARAMETERS)
            if (count := len(body(lines, at, indent))) > LINES:
                yield file, function, '%d lines, and at most %d' % (count, LINES)


def look_at_sizes(sources, specs, proofs):
    for file, lines in {**sources, **specs, **proofs}.items():
        if len(lines) > FILE:
            yield file, '', '%d lines, and at most %d' % (len(lines), FILE)
    for file, lines in {**sources, **specs}.items():
        for at, line in enumerate(lines):
            if len(line) > COLUMNS and not WHOLE.match(line):
                yield file, '', 'line %d has %d columns, and at most %d' % (at + 1, len(line), COLUMNS)


def code_lines(lines):
    """The lines of bodies, by their numbers: no comments, imports, clauses or lone braces."""
    for at, line in enumerate(lines):
        if found := FUNCTION.match(line):
            inner = body(lines, at, found[1])
            if inner:
                begin = next(n for n in range(at, len(lines)) if lines[n + 1:n + 1 + len(inner)] == inner) + 1
                for more, text in enumerate(inner):
                    text = text.strip()
                    if len(text) > 2 and not text.startswith('//'):
                        yield begin + more, text


def look_at_repeats(sources):
    """Code of so many lines that stands in two places."""
    places = defaultdict(list)
    for file, lines in sources.items():
        found = list(code_lines(lines))
        for at in range(len(found) - REPEAT + 1):
            part = found[at:at + REPEAT]
            if part[-1][0] - part[0][0] < 2 * REPEAT:
                places[tuple(text for _, text in part)].append((file, part[0][0] + 1))
    told = set()
    for found in places.values():
        if len(found) > 1:
            pair = tuple(sorted({file for file, _ in found}))
            if pair not in told:
                told.add(pair)
                yield found[0][0], '', 'stands twice: ' + ', '.join('%s:%d' % it for it in found)


def findings():
    """What isn't as it should be, a line each."""
    sources, specs = texts('src/**/*.rt'), texts('specs/**/*.antt')
    proofs = texts('proofs/**/*.antt')
    for look in (look_at_functions(sources), look_at_sizes(sources, specs, proofs),
                 look_at_repeats(sources)):
        for file, function, what in look:
            if (file, function) not in ALLOWED:
                yield '%s%s: %s' % (file, ', ' + function if function else '', what)


if __name__ == '__main__':
    for line in findings():
        print(line)
