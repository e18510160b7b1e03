"""Compares the package with include/broker.h: codes, kinds, calls with their operands, records, the version."""
import inspect
import re
import unittest

import gubzelk
from gubzelk import errors, native
from shared import HEADER, TOP

BARE = re.sub(r'/\*.*?\*/', '', HEADER, flags=re.S)
LETTERS = {'size_t len': '', 'size_t room': '', 'bool kept': 'b', 'broker *b': '', 'const broker *b': '',
           'const unsigned char *bytes': 't', 'const unsigned char *key': 't', 'unsigned char *out': 'w',
           'struct broker_about *about': 'a', 'struct broker_delivery *delivery': 'd',
           'struct broker_status *status': 's', 'struct broker_numbers *why': 'y'}


def letter(operand: str) -> str:
    if operand in LETTERS:
        return LETTERS[operand]
    found = re.fullmatch(r'uint64_t (\*?)\w+', operand)
    assert found, operand
    return 'o' if found.group(1) else 'n'


def listed(name: str) -> dict:
    body = re.search(rf'enum {name} {{(.*?)}};', BARE, re.S).group(1)
    return {key: int(value) for key, value in re.findall(r'BROKER_(\w+) = (-?\d+)', body)}


class Header(unittest.TestCase):
    def test_codes_and_kinds(self) -> None:
        self.assertEqual({code.name: code.value for code in gubzelk.Code}, listed('broker_code'))
        for name, kinds in [('FAULT', gubzelk.FaultKind), ('CONFLICT', gubzelk.ConflictKind)]:
            found = {f'{name}_{kind.name}': kind.value for kind in kinds}
            self.assertEqual(found, listed(f'broker_{name.lower()}_kind'))

    def test_an_exception_for_each_refusal(self) -> None:
        refusals = {code for code in gubzelk.Code if code < 0} - {gubzelk.Code.EMPTY}
        self.assertEqual(set(errors.CLASSES), refusals)
        for code, kind in errors.CLASSES.items():
            self.assertEqual(kind.of, code)
            self.assertIn(kind.__name__, gubzelk.__all__)
            self.assertTrue(kind.__doc__)

    def test_calls(self) -> None:
        found = {}
        for name, operands in re.findall(r'\bbroker_(\w+)\(([^)]*)\);', BARE):
            if name not in ('open', 'shut', 'free', 'message', 'version'):
                found[name] = ''.join(letter(' '.join(one.split())) for one in operands.split(','))
        self.assertEqual(found, native.CALLS)
        for name in [*found, 'shut', 'free', 'message', 'version']:
            self.assertTrue(inspect.getdoc(getattr(gubzelk.Broker, name)), name)

    def test_operands_have_the_names_of_the_header(self) -> None:
        for name, operands in re.findall(r'\bbroker_(\w+)\(([^)]*)\);', BARE):
            if name in native.CALLS:
                inputs = [one.split()[-1].strip('*') for one in operands.split(',')[1:]
                          if ('*' not in one or 'const' in one) and not re.search(r'\b(len|room)$', one)]
                method = inspect.signature(getattr(gubzelk.Broker, name))
                self.assertEqual(list(method.parameters)[1:], inputs, name)

    def test_refusals_that_docstrings_name(self) -> None:
        """Each call's docstring names the refusals that the header lists for it."""
        for comment, name in re.findall(r'/\*((?:(?!\*/).)*?)\*/\s*BROKER_CALL int(?:64_t)? broker_(\w+)\(', HEADER, re.S):
            words = ' '.join(comment.replace('*', '').split())
            refused = re.search(r'Refused: (.*?)\.(?: |$)', words)
            for code in re.findall(r'\b[A-Z]+(?:_[A-Z]+)*\b', refused.group(1)) if refused else []:
                if code != 'EMPTY':
                    self.assertIn(errors.CLASSES[gubzelk.Code[code]].__name__,
                                  inspect.getdoc(getattr(gubzelk.Broker, name)), name)

    def test_records(self) -> None:
        for record, row, name in [(gubzelk.Limits, native.LimitsRow, 'limits'), (gubzelk.About, native.AboutRow, 'about'),
                                  (gubzelk.Taken, native.DeliveryRow, 'delivery'),
                                  (gubzelk.Status, native.StatusRow, 'status')]:
            body = re.search(rf'struct broker_{name} {{(.*?)}};', BARE, re.S).group(1)
            fields = [field for line in re.findall(r'(?:uint64_t|bool) ([\w, ]+);', body) for field in line.split(', ')]
            self.assertEqual(list(record._fields), fields)
            self.assertEqual([field for field, *_ in row._fields_], fields)
        limits = re.search(r'BROKER_LIMITS {(.*?)}', BARE).group(1)
        self.assertEqual(list(gubzelk.Limits()), [int(number) for number in limits.split(',')])

    def test_version(self) -> None:
        version = (TOP / 'VERSION').read_text().strip()
        project = (TOP / 'bindings/python/pyproject.toml').read_text()
        self.assertEqual(gubzelk.__version__, version)
        self.assertEqual(native.shown(native.VERSION_NUMBER), version)
        self.assertIn(f'\nversion = "{version}"\n', project)
        with gubzelk.Broker([('t', (1,))]) as broker:
            self.assertEqual(broker.version(), native.VERSION_NUMBER)

    def test_exports(self) -> None:
        for name in gubzelk.__all__:
            self.assertTrue(hasattr(gubzelk, name), name)


if __name__ == '__main__':
    unittest.main()
