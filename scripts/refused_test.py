"""refused_test.py: edits that are no good, each of which scripts/refused.py must find out (its --self-test)."""
import os
import refused
from checker import ROOM, prove
from edit import Edit

# what is tried, with what must be said of it; None: it is refused as it should be
WRONG_USABLE = """# a NaN: usable
by: proofs/usable/Proof.antt
file: src/lib.rt
old: (x >= -8.0) & (x <= 8.0)
new: (!(x < -8.0)) & (!(x > 8.0))
"""
SAME_COUNT = """# no input: the same number, written otherwise
by: proofs/count/Proof.antt
file: src/lib.rt
old: 0x4640_0000
new: 0x4640_0000 // 12288.0
"""
SAME_NUMBER = """# no input: the same number, written otherwise
by: proofs/AnswerFacts.antt
file: specs/Answers.antt
old: refusal_number NoRate = 2
new: refusal_number NoRate = 0x2
"""
OTHER_FILE = """# rate code 21: 3 in place of 2, which no header knows of
by: proofs/HeaderFacts.antt
file: specs/Answers.antt
old: refusal_number NoRate = 2
new: refusal_number NoRate = 3
"""
NO_TEXT = """# no input: no definition has this name
by: proofs/AnswerFacts.antt
file: specs/Answers.antt
old: refusal_number NoRate = 2
new: refusal_number NoRate = no_such_number
"""
NO_FILE = """# rate code 21: 3 in place of 2
file: specs/Answers.antt
old: refusal_number NoRate = 2
new: refusal_number NoRate = 3
"""
OLD_TEXT = """# rate code 21: 3 in place of 2
by: proofs/AnswerFacts.antt
file: specs/Answers.antt
old: refusal_number NoSuchRate = 2
new: refusal_number NoSuchRate = 3
"""
GONE = """# no input: a lemma is not public any more
by: proofs/ReadBack.antt
file: proofs/Accepting.antt
old: pub same_refl :
new: same_refl :
"""
CASES = [
    ('choose_counts', [(WRONG_USABLE, None), (SAME_COUNT, 'NOT REFUSED')]),
    ('rules_calls', [(SAME_NUMBER, 'NOT REFUSED')]),
    ('rules_calls', [(OTHER_FILE, 'refused by')]),
    ('rules_calls', [(NO_TEXT, 'its text does not compile')]),
    ('rules_calls', [(GONE, 'SHOWS NOTHING')]),
    ('rules_calls', [(NO_FILE, 'its second line')]),
    ('rules_calls', [(OLD_TEXT, 'its old text stands 0 times')]),
]


def written(crate, number, text):
    """An edit made of a text."""
    place = os.path.join(ROOM, 'texts', crate, 'refused')
    os.makedirs(place, exist_ok=True)
    path = os.path.join(place, f'case_{number}.edit')
    with open(path, 'w', encoding='utf8') as f:
        f.write(text)
    return Edit(path)


def run():
    faults = 0
    if prove(dict(CASES)):
        print('refused.py: self-test: a crate is not proved: `rt ci` comes first')
        return 1
    for crate, texts in CASES:
        edits = [written(crate, n, text) for n, (text, _) in enumerate(texts)]
        answers, _ = refused.try_together(edits) if len(edits) > 1 else refused.try_alone(edits[0])
        for (text, owed), (_, fault) in zip(texts, answers):
            if not (fault is None if owed is None else (fault or '').startswith(owed)):
                faults += 1
                print(f'refused.py: self-test: {text.splitlines()[0]}: {fault}, and not {owed}')
    print(f'refused.py: self-test: {sum(len(texts) for _, texts in CASES)} edits, {faults} faults')
    return 1 if faults else 0
