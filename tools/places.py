#!/usr/bin/env python3
"""Counts the places of docs/DESIGN-PASS.md in src/: tools/places.py [-v] [COMMIT].

Without COMMIT the checkout is read. -v lists each place. What counts as a place is said beside each rule.
"""
import collections
import io
import os
import re
import subprocess
import sys
import tarfile

ROOT = os.path.dirname(os.path.dirname(os.path.abspath(__file__)))


def texts(commit):
    """Each file below crates/ that matters, by its path."""
    if commit:
        pack = subprocess.run(['git', 'archive', commit, 'crates'], cwd=ROOT, capture_output=True, check=True).stdout
        with tarfile.open(fileobj=io.BytesIO(pack)) as tar:
            for entry in tar:
                if entry.isfile() and wanted(entry.name):
                    yield entry.name, tar.extractfile(entry).read().decode()
        return
    for at, _, names in os.walk(os.path.join(ROOT, 'crates')):
        for name in names:
            path = os.path.relpath(os.path.join(at, name), ROOT)
            if wanted(path):
                with open(os.path.join(ROOT, path)) as file:
                    yield path, file.read()


def wanted(path):
    parts = path.split('/')
    return (parts[2] == 'src' and path.endswith('.rt')) or (parts[2] == 'proofs' and path.endswith('Answers.antt'))


def bare(text):
    """The text without comments; lines stay where they are."""
    return re.sub(r'(?m)//.*$', '', text)


def blocks(text, head):
    """Each item that begins with `head`, with its line, up to the closing brace at the same depth."""
    for begin in re.finditer(head, text):
        at = text.find('{', begin.end())
        # a contract's braces stand before the body's, which is alone on its line or behind `)`
        if 'fn' in head:
            body = re.compile(r'(?m)^\s*\{$|(?<=[)\w>]) \{$').search(text, begin.start())
            at = body.end() - 1 if body else -1
        if at < 0:
            continue
        depth = 0
        for end in range(at, len(text)):
            depth += (text[end] == '{') - (text[end] == '}')
            if depth == 0:
                break
        yield text.count('\n', 0, begin.start()) + 1, text[begin.start():at], text[at + 1:end]


FN = r'(?m)^ *(?:pub )?(?:extern "C" )?fn \w+'


def point_1(path, text):
    """Enums of two cases, one with a value; cases and fields that hold a refusal's number; a flag beside a value; functions that give such a number."""
    for line, head, body in blocks(text, r'(?m)^(?:pub )?enum \w+'):
        cases = re.findall(r'(?m)^    (\w+)([({]?)', body)
        if len(cases) == 2 and any(mark for _, mark in cases):
            yield line, 'enum of two cases: ' + head.strip()
        elif re.search(r'(?:Refused|Bad)\(u8\)|number: u8', body):
            yield line, 'case with a number: ' + head.strip()
    for line, head, body in blocks(text, r'(?m)^(?:pub )?struct \w+'):
        if re.search(r'\brefusal: u8|\bfit: bool|\bmore: bool|\bprinted: bool', body):
            yield line, 'flag or number beside a value: ' + head.strip()
    for line, head, body in blocks(text, FN):
        if re.search(r'-> u(?:8|64)\b', head) and re.search(r'result ≡ [^}]*(?:refusal|then )', head):
            yield line, 'number of a refusal: ' + head.strip().split('(')[0]


def point_3(path, text):
    """Loops that are no `for`."""
    for found in re.finditer(r'(?m)^ *(while|loop)\b.*', text):
        yield text.count('\n', 0, found.start()) + 1, found.group().strip()


def point_4(path, text):
    """Tests by arms that are true or false; fields copied to a name before they are used; structs made anew field by field; casts in a function of
    their own; plain types that can't be compared."""
    for line, head, body in blocks(text, FN):
        if len(re.findall(r'=> (?:true|false|0|1),', body)) > 2:
            yield line, 'arms of a test: ' + head.strip().split('(')[0]
        if re.fullmatch(r'\s*\w+ as u(?:16|64|size)\s*', body):
            yield line, 'a cast: ' + head.strip().split('(')[0]
        if len(re.findall(r'(?m)^\s+(\w+): (?:self|\w+)\.\1,$', body)) > 2:
            yield line, 'a struct made anew: ' + head.strip().split('(')[0]
    for found in re.finditer(r'(?m)^ +let (?:mut )?\w+ = \w+(?:\.\w+)+;$', text):
        yield text.count('\n', 0, found.start()) + 1, 'copied: ' + found.group().strip()
    for found in re.finditer(r'#\[derive\(Clone, Copy\)\]', text):
        yield text.count('\n', 0, found.start()) + 1, 'derives Clone, Copy alone'


TOGETHER = [
    (r'out: &mut \[u8\],\s*at: usize', 'a buffer and a place'),
    (r'name: &\[u8\],\s*named: usize|text: &\[u8\],\s*n: usize', 'a text and its length'),
    (r'memory: &(?:mut )?\[u8\],\s*writers: &(?:mut )?\[u64\]', 'display bytes and writer numbers'),
    (r'memory0: &(?:mut )?\[u8\]', 'four chips, memory by memory'),
    (r'phase0: Phase', 'four phases'),
    (r'first_memory: &\[u8\]', 'two sides'),
    (r'first_column: u8,\s*last_column: u8', 'a fill'),
]


def point_5(path, text):
    """Parameters that travel together."""
    for line, head, body in blocks(text, FN):
        for pattern, words in TOGETHER:
            if re.search(pattern, head):
                yield line, words + ': ' + head.strip().split('(')[0]


def point_6(path, text):
    """Buffers with a length beside; tables side by side."""
    for line, head, body in blocks(text, FN):
        if re.search(r'(?:name|text): &\[u8\],\s*n(?:amed)?: usize', head):
            yield line, 'a slice and its length: ' + head.strip().split('(')[0]
    for line, head, body in blocks(text, r'(?m)^(?:pub )?struct \w+'):
        if re.search(r': \[u\d+; \d+\]', body) and re.search(r'(?:count|length|named): usize', body):
            yield line, 'an array and its count: ' + head.strip()
        if re.search(r'\w+0: (\w+),\s+(?:pub )?\w+1: \1', body):
            yield line, 'fields by number: ' + head.strip()
    for found in re.finditer(r'(?m)^(?:pub )?const \w+: \[\w+; \w+\]', text):
        yield text.count('\n', 0, found.start()) + 1, 'a table: ' + found.group()


def point_7(path, text):
    """Flags that say which step is to run, and what a table's row does by its number."""
    for line, head, body in blocks(text, FN):
        if re.search(r'\b(?:told|tested|one): bool', head):
            yield line, 'a flag: ' + head.strip().split('(')[0]
        if len(re.findall(r'(?m)^\s+\d+ => \w+\.\w+\(', body)) > 1:
            yield line, 'a step by number: ' + head.strip().split('(')[0]


def shape(body):
    body = re.sub(r'b?"[^"]*"|b\'[^\']*\'', 's', body)
    body = re.sub(r'\b\d[\w]*\b', '0', body)
    kept = {'if', 'else', 'match', 'while', 'for', 'in', 'return', 'let', 'mut', 'loop', 's', '0'}
    return ' '.join(word if word in kept or not re.match(r'\w', word) else 'i' for word in re.findall(r'\w+|[^\w\s]', body))


def twins(files):
    """Functions whose bodies, of seven words and signs or more, have one shape: names, numbers and texts are not looked at."""
    found = collections.defaultdict(list)
    for path, text in files:
        for line, head, body in blocks(text, FN):
            if len(re.findall(r'\w+|[^\w\s]', body)) >= 7:
                found[shape(body)].append((path, line, head.strip().split('(')[0]))
    return [places for places in found.values() if len(places) > 1]


def main():
    told = '-v' in sys.argv
    commits = [word for word in sys.argv[1:] if word != '-v']
    every = [(path, text) for path, text in sorted(texts(commits[0] if commits else ''))]
    code = [(path, bare(text)) for path, text in every if '/src/' in path]
    kept = sum(len(re.findall(r'// kept \(', text)) for path, text in every)
    for number, rule in ((1, point_1), (3, point_3), (4, point_4), (5, point_5), (6, point_6), (7, point_7)):
        places = [(path, line, words) for path, text in code for line, words in rule(path, text)]
        print(f'point {number}: {len(places)}')
        if told:
            for path, line, words in places:
                print(f'    {path}:{line}: {words}')
        if number == 1:
            groups = twins(code)
            print(f'point 2: {sum(map(len, groups))} in {len(groups)} groups')
            if told:
                for group in groups:
                    print('    ' + '; '.join(f'{path}:{line}: {words}' for path, line, words in group))
    answers = [text for path, text in every if path.endswith('Answers.antt')]
    lines = sum(text.count('\n') for text in answers)
    print(f'point 8: {len(answers)} files of answers, {lines} lines')
    print(f'lines that say why a place is kept: {kept}')


main()
