#!/usr/bin/env python3
"""Write the lists of must-fail edits into docs/PROMISES.md, from the first line of each edit; with --check, only compare.

A list stands between `<!-- edits: LAYER .. -->` and `<!-- end -->`; a layer is the prefix of its crates' names.
"""
import re
import sys
from pathlib import Path

PAGE = Path('docs/PROMISES.md')


def edits(layers):
    for folder in sorted(Path('crates').iterdir()):
        if folder.name.split('_')[0] in layers:
            for edit in sorted(folder.glob('must-fail/*.edit')):
                note = edit.read_text().splitlines()[0].lstrip('# ').rstrip('.')
                yield f'- `{folder.name}/{edit.stem}`: {note}.'


def filled(page):
    def section(match):
        lines = list(edits(match.group(1).split()))
        return '\n'.join([f'<!-- edits: {match.group(1)} -->', *lines, '<!-- end -->'])
    return re.sub(r'<!-- edits: ([a-z ]+?) -->\n.*?<!-- end -->', section, page, flags=re.S)


page = PAGE.read_text()
new = filled(page)
if '--check' in sys.argv:
    if new != page:
        sys.exit(f'{PAGE}: the lists of edits are not those of crates/*/must-fail (tools/list_edits.py writes them)')
else:
    PAGE.write_text(new)
