#!/usr/bin/env python3
"""Counts places of src/ by form: `tools/places.py [FOLDER]`, or with --list the places themselves. docs/DESIGN-PASS.md says what each number is."""
import glob
import re
import sys

arguments = [a for a in sys.argv[1:] if a != '--list']
listed = '--list' in sys.argv
root = arguments[0] if arguments else '.'
places = {name: [] for name in ('enums', 'loops', 'counters', 'functions', 'three slices', 'slices of them', 'arrays of slices')}
for path in sorted(glob.glob(root + '/crates/*/src/*.rt')):
    text = re.sub(r'//[^\n]*', '', open(path).read())
    where = path[len(root) + 1:]
    for number, line in enumerate(text.split('\n'), 1):
        place = '%s:%d %s' % (where, number, line.strip())
        if re.match(r'\s*(pub(\(\w+\))? )?enum ', line):
            places['enums'].append(place)
        if re.search(r'(^|\s)(while .*|loop) \{$', line):
            places['loops'].append(place)
        if re.match(r'\s+[\w.]+ [+-]= 1;$', line):
            places['counters'].append(place)
        if re.search(r"\[&('\w+ )?", line) and re.search(r":\s*\[&|-> \[&", line):
            places['arrays of slices'].append(place)
    for found in re.finditer(r'\bfn (\w+)(<[^>]*>)?\(([^)]*)\)', text):
        place = '%s %s' % (where, found.group(1))
        places['functions'].append(place)
        slices = [p for p in found.group(3).split(',') if re.search(r": &('\w+ )?(mut )?\[", p)]
        if len(slices) >= 3:
            places['three slices'].append('%s %d' % (place, len(slices)))
            places['slices of them'] += slices
for name, found in places.items():
    print(name, len(found))
    if listed and name not in ('functions', 'slices of them'):
        for place in found:
            print('   ', place)
