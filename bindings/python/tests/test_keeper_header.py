"""Compares the package with keeper/gubzelk.h: codes, calls with their operands, structs with their places, options."""
import ctypes
import inspect
import os
import re
import shutil
import subprocess
import tempfile
import unittest

import gubzelk
from gubzelk import keeper_errors, keeper_native
from keeper_shared import KEEPER

HEADER = (KEEPER / 'gubzelk.h').read_text()
BARE = re.sub(r'/\*.*?\*/', '', HEADER, flags=re.S)
STRUCTS = {'gz_options': keeper_native.OptionsRow, 'gz_source_status': keeper_native.SourceRow,
           'gz_known': keeper_native.KnownRow, 'gz_left': keeper_native.LeftRow,
           'gz_replica_status': keeper_native.ReplicaRow}
POINTER, VOID = ctypes.POINTER, ctypes.c_void_p
#: The ctypes of an operand or a result, by C's words.
TYPES = {'int': ctypes.c_int, 'size_t': ctypes.c_size_t, 'void': None, 'const char *': ctypes.c_char_p,
         'gz_source *': VOID, 'gz_replica *': VOID, 'sqlite3 *': VOID, 'gz_source **': POINTER(VOID),
         'gz_replica **': POINTER(VOID),
         'const struct gz_options *': POINTER(keeper_native.OptionsRow),
         **{f'struct {name} *': POINTER(row) for name, row in STRUCTS.items()}}
#: The method of each call.
METHODS = {'source_open': gubzelk.Source.__init__, 'source_close': gubzelk.Source.close, 'begin': gubzelk.Source.begin,
           'commit': gubzelk.Source.commit, 'rollback': gubzelk.Source.rollback, 'source_status': gubzelk.Source.status,
           'source_replica': gubzelk.Source.replicas, 'source_left': gubzelk.Source.left,
           'replica_open': gubzelk.Replica.__init__, 'replica_step': gubzelk.Replica.step,
           'replica_status': gubzelk.Replica.status, 'replica_close': gubzelk.Replica.close}


def functions():
    """Each call: its name, its result, and the types of its operands."""
    for result, name, operands in re.findall(r'^((?:const char \*)|int |void )gz_(\w+)\(([^)]*)\);', BARE, re.M):
        words = [re.match(r'(.*?[ *])\w+$', ' '.join(one.split())).group(1).strip() for one in operands.split(',')]
        yield name, result.strip(), words


def fields(name):
    """The names of a struct's fields, and of the second and later pointers to functions too."""
    body = re.search(rf'struct {name} {{(.*?)\n}};', BARE, re.S).group(1)
    found = []
    for line in body.split(';'):
        function = re.search(r'\(\*(\w+)\)', line)
        if function:
            found.append(function.group(1))
        elif line.strip():
            kind = r'^(?:const |unsigned |struct )*\w+\s'
            found += [re.search(r'(\w+)(?:\[\d+\])?$', one.strip()).group(1)
                      for one in re.sub(kind, '', ' '.join(line.split())).split(',')]
    return found


class KeeperHeader(unittest.TestCase):
    def test_codes(self):
        body = re.search(r'enum gz_code {(.*?)};', BARE, re.S).group(1)
        codes = {name: int(value) for name, value in re.findall(r'GZ_(\w+) = (-?\d+)', body)}
        self.assertEqual({code.name: code.value for code in gubzelk.KeeperCode}, codes)
        self.assertEqual({step.value for step in gubzelk.Step}, {code for code in codes.values() if code >= 0})
        for step in gubzelk.Step:
            self.assertEqual(step.value, codes['OK' if step is gubzelk.Step.APPLIED else step.name])
            self.assertTrue(step)

    def test_an_exception_for_each_refusal(self):
        self.assertEqual(set(keeper_errors.CLASSES), {code for code in gubzelk.KeeperCode if code < 0})
        for code, kind in keeper_errors.CLASSES.items():
            self.assertEqual(kind.of, code)
            self.assertIn(kind.__name__, gubzelk.__all__)
            self.assertTrue(kind.__doc__)

    def test_calls(self):
        found = {}
        for name, result, operands in functions():
            found[name] = (TYPES[result], [TYPES[one] for one in operands])
        self.assertEqual(len(found), 13)
        self.assertEqual(found, keeper_native.CALLS)
        self.assertEqual(set(METHODS) | {'message'}, set(found))
        shown = re.findall(r'gz_(\w+);', (KEEPER.parent / 'packaging/exports-replicas.map').read_text())
        self.assertEqual(sorted(shown), sorted(found))

    def test_refusals_that_docstrings_name(self):
        """Each call's docstring names the refusals that the header lists for it."""
        count = 0
        for comment, name in re.findall(r'/\*((?:(?!\*/).)*?)\*/\s*(?:int|void) gz_(\w+)\(', HEADER, re.S):
            words = ' '.join(comment.replace('*', '').split())
            refused = re.search(r'Refused: (.*?)\.(?: |$)', words)
            if name == 'replica_step':
                refused = re.search(r'Returns OK, IDLE, AWAY, LAGS, or (.*?)\.$', words)
            for code in re.findall(r'\b[A-Z]+(?:_[A-Z]+)*\b', refused.group(1)) if refused else []:
                kind = keeper_errors.CLASSES[gubzelk.KeeperCode[code]].__name__
                # no transaction is open on the connection that a Source opens
                if (name, code) != ('source_open', 'IN_TRANSACTION'):
                    self.assertIn(kind, inspect.getdoc(METHODS[name]), name)
                    count += 1
        self.assertGreater(count, 25)

    def test_fields(self):
        for name, row in STRUCTS.items():
            self.assertEqual([field for field, *_ in row._fields_], fields(name))
        for record, row in [(gubzelk.SourceStatus, 'gz_source_status'), (gubzelk.Known, 'gz_known'),
                            (gubzelk.Left, 'gz_left'), (gubzelk.ReplicaStatus, 'gz_replica_status')]:
            self.assertEqual(sorted(record._fields), sorted(fields(row)))

    def test_options(self):
        for kind, absent in [(gubzelk.Source, {'setup', 'context'}),
                             (gubzelk.Replica, {'setup', 'context', 'max_bytes', 'max_entries', 'set_wal'})]:
            given = set(inspect.signature(kind).parameters)
            self.assertLessEqual(set(fields('gz_options')) - absent, given)
            self.assertFalse(absent & given)

    @unittest.skipUnless(shutil.which('gcc') and os.path.exists('/usr/include/sqlite3.h'), 'no gcc, or no sqlite3.h')
    def test_places(self):
        """Each struct's size and the places of its fields, as the compiler has them."""
        prints, wanted = [], []
        for name, row in STRUCTS.items():
            prints.append(f'printf("{name} %zu\\n", sizeof(struct {name}));')
            wanted.append(f'{name} {ctypes.sizeof(row)}')
            for field in fields(name):
                prints.append(f'printf("{name}.{field} %zu %zu\\n", offsetof(struct {name}, {field}), '
                              f'sizeof(((struct {name} *)0)->{field}));')
                place = getattr(row, field)
                wanted.append(f'{name}.{field} {place.offset} {place.size}')
        text = '#include "gubzelk.h"\n#include <stdio.h>\nint main(void) {' + '\n'.join(prints) + 'return 0; }'
        with tempfile.TemporaryDirectory() as folder:
            program = f'{folder}/places'
            subprocess.run(['gcc', '-I', str(KEEPER), '-x', 'c', '-', '-o', program], input=text.encode(), check=True)
            found = subprocess.run([program], stdout=subprocess.PIPE, check=True).stdout.decode()
        self.assertEqual(found.split('\n')[:-1], wanted)


if __name__ == '__main__':
    unittest.main()
