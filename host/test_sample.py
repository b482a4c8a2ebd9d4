"""Tests of what host/sample says while it proves, with a stand-in for rt that ends with a failure."""
import os
import re
import subprocess
import tempfile
import unittest

ROOT = os.path.dirname(os.path.dirname(os.path.abspath(__file__)))
FAILS_IN_PROVING = '''#!/bin/sh
echo "fn lists::count: proved"
echo "crate lists: modules loaded=30 checked=7"
echo "logic=proved functions=1 sum=0"
echo "crate cells: modules loaded=8 checked=0"
echo "logic=proved functions=0 sum=0"
echo "crate rows: modules loaded=9 checked=1"
echo "logic=not-proved"
echo "rt: the library rows did not build, so nothing above it was checked" >&2
exit 1
'''
FAILS_IN_BUILDING = '''#!/bin/sh
echo "rt: the library was not compiled" >&2
exit 2
'''


def reached(crate):
    """The crate and all that it uses, itself or through others: what rt proves for it."""
    with open(os.path.join(ROOT, 'crates.txt'), encoding='utf-8') as f:
        lines = [line.split(':')[1] for line in f if re.match(rf'{crate}( staticlib)?:', line)]
    return {crate}.union(*(reached(name) for line in lines for name in line.split()))


class Sample(unittest.TestCase):
    def sample(self, rt):
        with tempfile.TemporaryDirectory() as folder:
            with open(os.path.join(folder, 'rt'), 'w', encoding='utf-8') as f:
                f.write(rt)
            os.chmod(os.path.join(folder, 'rt'), 0o755)
            path = folder + os.pathsep + os.environ['PATH']
            ran = subprocess.run(['bash', os.path.join(ROOT, 'host/sample')], env={**os.environ, 'PATH': path}, capture_output=True, text=True)
        self.assertEqual(ran.returncode, 1)
        self.assertTrue(ran.stdout.endswith('sample: the static library was not built\n'), ran.stdout)
        return ran.stdout, ran.stderr

    def test_progress_and_a_crate_that_is_not_proved(self):
        many = len(reached('service'))
        told, said = self.sample(FAILS_IN_PROVING)
        self.assertIn('logic=not-proved\nrt: the library rows did not build, so nothing above it was checked\n', told)
        lines = said.splitlines()
        self.assertEqual(len(lines), 3, said)
        self.assertIn(f'proving {many} crates', lines[0])
        self.assertRegex(lines[1], rf'^sample: crate 1 of {many} proved \(lists\), \d+ s so far; about 10 minutes in all$')
        self.assertRegex(lines[2], rf'^sample: crate 2 of {many} proved \(cells\), \d+ s so far; about 10 minutes in all$')

    def test_a_library_that_is_not_built(self):
        told, _ = self.sample(FAILS_IN_BUILDING)
        self.assertIn('rt: the library was not compiled\n', told)


if __name__ == '__main__':
    unittest.main()
