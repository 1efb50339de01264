"""What of a crate's code its callers and its edits rest on: all but comments, the bodies of functions, hints to the prover, derived traits, tests,
and imports of names that nothing else of that has."""
import re

TOKEN = re.compile(r'''//[^\n]*|/\*.*?\*/|"(?:\\.|[^"\\])*"|'(?:\\[^']+|[^'\\])'|\w+|[^\w\s]''', re.DOTALL)

CLAUSES = ('requires', 'ensures')

CLOSERS = {'(': ')', '[': ']', '{': '}'}


def tokens_of(text):
    return [token for token in TOKEN.findall(text) if not token.startswith(('//', '/*'))]


def end_of(tokens, at):
    """The place behind the bracket that closes the one at this place."""
    opener, depth = tokens[at], 0
    for place in range(at, len(tokens)):
        depth += (tokens[place] == opener) - (tokens[place] == CLOSERS[opener])
        if depth == 0:
            return place + 1
    return len(tokens)


def is_clause(tokens, at):
    """Whether the brace at this place begins what a clause says: `ensures {` or `ensures name {`."""
    return any(word in CLAUSES for word in tokens[max(at - 2, 0):at])


def end_of_head(tokens, at):
    """The place of the body of a function whose head begins here, or of the semicolon that it has instead."""
    while at < len(tokens) and tokens[at] != ';':
        if tokens[at] == '{' and not is_clause(tokens, at):
            break
        at = end_of(tokens, at) if tokens[at] in CLOSERS else at + 1
    return at


OF_TESTS = ['#', '[', 'cfg', '(', 'test', ')', ']', 'mod']
"""What begins a module of tests."""

PASSED_OVER = (['#', '[', 'tactic'], ['#', '[', 'derive'])


def imports_of(tokens):
    """What a list of an import's tokens brings in: the name that is seen, and the path that it stands for."""
    path, found, at = [], [], 0
    while at < len(tokens):
        if tokens[at] == '{':
            end = end_of(tokens, at)
            for part in split(tokens[at + 1:end - 1]):
                found += [(name, path + rest) for name, rest in imports_of(part)]
            at = end
        elif tokens[at] == 'as':
            return [(tokens[at + 1], path)] if at + 1 < len(tokens) else []
        else:
            path, at = path + ([tokens[at]] if tokens[at] not in (':', '.') else []), at + 1
    return found or [(path[-1], path)] if path else found


def split(tokens):
    """The parts between commas that stand in no braces."""
    parts, depth = [[]], 0
    for token in tokens:
        depth += (token == '{') - (token == '}')
        if token == ',' and depth == 0:
            parts.append([])
        else:
            parts[-1].append(token)
    return [part for part in parts if part]


def parts_of(text):
    """The tokens outside of comments, bodies of functions, hints and derived traits, behind them what those name of imports; and how many functions
    have a body."""
    tokens, kept, imports, bodies, at = tokens_of(text), [], [], 0, 0
    while at < len(tokens):
        if tokens[at:at + 3] in PASSED_OVER:
            at = end_of(tokens, at + 1)
        elif tokens[at:at + len(OF_TESTS)] == OF_TESTS:
            at += len(OF_TESTS) + 1
            at = end_of(tokens, at) if tokens[at:at + 1] == ['{'] else at + 1
        elif tokens[at] == 'use':
            end = tokens.index(';', at) if ';' in tokens[at:] else len(tokens)
            if tokens[at - 1:at] == ['pub']:
                kept += tokens[at:end]
            imports += imports_of(tokens[at + 1:end])
            at = end + 1
        elif tokens[at] == 'fn':
            body = end_of_head(tokens, at)
            has_body = tokens[body:body + 1] == ['{']
            kept += tokens[at:body]
            bodies, at = bodies + has_body, end_of(tokens, body) if has_body else body
        else:
            kept.append(tokens[at])
            at += 1
    kept, seen = [token for token in kept if token != 'ghost'], set(kept)
    return kept + sorted('.'.join([name] + path) for name, path in imports if name in seen), bodies


def contracts_of(text):
    """The tokens of a text of Rattle without comments, bodies of functions and hints. Two texts with equal ones have equal contracts."""
    return parts_of(text)[0]


def bodies_of(text):
    """How many functions with a body a text of Rattle has."""
    return parts_of(text)[1]
