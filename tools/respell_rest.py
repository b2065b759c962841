#!/usr/bin/env python3
"""Respells what tools/respell.py leaves: names in `module _` blocks, in specs/Answers.antt, after `as`, and in comments.

    tools/respell_rest.py        at the top; a second run changes nothing
"""
import glob
import re

NAMES = """
blankOf centeredOf coveredOf coversOf derivativeOf leastOf overlapOf reduceOf rootsOf scanOf shiftedOf taylorOf testedAll valuationOf zerosOf
digitsAt signedClasses pointAfter childrenOf foundClasses testAt signedShortest residueAt commonTo joinedOf markBelow textOr reportText
reportFrom reportBy refusalLine printedText printedFor outputText linesOrLast systemAnswer testAnswer nextAnswer fetchAnswer writeAnswer
solveAnswer readAnswer raiseAnswer pointsAnswer mapAnswer countsAnswer countAnswer
""".split()


def snake(name):
    return re.sub(r"([A-Z])", lambda m: "_" + m.group(1).lower(), name)


for folder in ("src", "specs", "proofs", "must-fail", "more-must-fail"):
    for f in glob.glob("crates/*/%s/**/*.*" % folder, recursive=True):
        if f.endswith((".rt", ".antt", ".edit")):
            old = text = open(f).read()
            for name in NAMES:
                text = re.sub(r"(?<![\w'-])%s(?![\w'-])" % name, snake(name), text)
            if text != old:
                open(f, "w").write(text)
