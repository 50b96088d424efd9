#!/usr/bin/env python3
"""Whether each name that a module of the page imports is one that the other module exports, and each module is there.

    modules.py FOLDER   the last line counts what passed and failed; no browser is needed
"""
import os
import re
import sys

IMPORT = re.compile(r"import (?:(?:\{([^}]*)\}|\w+) from )?'\./([\w./]+)'")
EXPORT = re.compile(r'^export (?:async )?(?:(?:function\*?|class) (\w+)|(?:const|let) (.*))', re.M)


def exported(text):
    """The names that a module exports; of `export const A = 1, B = 2` both."""
    names = set()
    for name, constants in EXPORT.findall(text):
        names |= {name} if name else set(re.findall(r'(?:^|[,{] ?)(\w+)(?= =(?!=)|,|\})', constants))
    return names


def main():
    folder = sys.argv[1]
    texts = {}
    for name in sorted(os.listdir(folder)) + ['words/' + each for each in sorted(os.listdir(os.path.join(folder, 'words')))]:
        if name.endswith('.js'):
            with open(os.path.join(folder, name), encoding='utf-8') as it:
                texts[name] = it.read()
    passed = failed = 0
    for name, text in texts.items():
        for names, other in IMPORT.findall(text):
            has = exported(texts.get(other, ''))
            lacks = [it for it in (word.split(' as ')[0].strip() for word in names.split(',')) if it and it not in has]
            if other in texts and not lacks:
                passed += 1
                continue
            failed += 1
            print(f"FAILED: {name}: {other} {'is not there' if other not in texts else 'exports no ' + ', '.join(lacks)}")
    print(f'{passed} passed, {failed} failed')
    return 1 if failed else 0


if __name__ == '__main__':
    sys.exit(main())
