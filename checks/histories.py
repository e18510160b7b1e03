"""The recorded histories among the cases of crates/rb_cases (`recorded-..`, `sqlite-..`)."""
import model
import packs


def history(script, answers):
    """tables and changesets of a script, and the rows at its end"""
    lines = model.lines_of(script)
    tables = [line for line in lines if line.startswith(b'table ')]
    texts = [model.octets(line.split(b' ')[2]) for line in lines if line.startswith(b'feed ')]
    answers = answers.split(b'\n')
    last = max(i for i, answer in enumerate(answers) if answer.startswith(b'rows '))
    return tables, texts, b'\n'.join(answers[last:])


def histories():
    """the recorded histories: name, tables, changesets, last rows"""
    scripts, answers = packs.texts_of('rb_cases', 'script'), packs.texts_of('rb_cases', 'answers')
    for name in scripts:
        if name.startswith(('recorded-', 'sqlite-')):
            yield (name,) + history(scripts[name], answers[name])
