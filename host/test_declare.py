"""Tests of host/declare, over copies of what it reads."""
import os
import shutil
import subprocess
import sys
import tempfile
import unittest

ROOT = os.path.dirname(os.path.dirname(os.path.abspath(__file__)))
READ = ('host/declare', 'host/tugrelis.h.in', 'crates/service/src/lib.rt', 'crates/refusals/src/lib.rt', 'rustfmt.toml')
WRITTEN = ('host/tugrelis.h', 'host/src/raw.rs', 'host/src/refusal/known.rs')


class Declare(unittest.TestCase):
    def setUp(self):
        self.folder = tempfile.mkdtemp()
        self.addCleanup(shutil.rmtree, self.folder)
        for path in READ + WRITTEN:
            os.makedirs(os.path.dirname(os.path.join(self.folder, path)), exist_ok=True)
            shutil.copy(os.path.join(ROOT, path), os.path.join(self.folder, path))

    def text(self, path):
        with open(os.path.join(self.folder, path), encoding='utf-8') as f:
            return f.read()

    def change(self, path, old, new):
        text = self.text(path)
        self.assertIn(old, text)
        with open(os.path.join(self.folder, path), 'w', encoding='utf-8') as f:
            f.write(text.replace(old, new, 1))

    def declare(self, *words):
        ran = subprocess.run([sys.executable, os.path.join(self.folder, 'host/declare'), *words], capture_output=True, text=True)
        return ran.returncode, ran.stdout + ran.stderr

    def stale(self):
        status, said = self.declare('--check')
        files = [path for path in WRITTEN if f'{path} is stale' in said]
        self.assertEqual(status, 1 if files else 0, said)
        return files

    def test_each_edited_file_is_stale(self):
        self.assertEqual(self.stale(), [])
        for path in WRITTEN:
            kept = self.text(path)
            self.change(path, '1', '2')
            self.assertEqual(self.stale(), [path])
            self.change(path, self.text(path), kept)
        os.remove(os.path.join(self.folder, WRITTEN[1]))
        self.assertEqual(self.stale(), [WRITTEN[1]])

    def test_a_changed_export_is_written_everywhere(self):
        self.change('crates/service/src/lib.rt', 'size: &mut usize,', 'wide: &[u64],\n    size: &mut [u16; 7],')
        self.assertEqual(self.stale(), list(WRITTEN[:2]))
        self.assertEqual(self.declare()[0], 0)
        self.assertEqual(self.stale(), [])
        self.assertIn('    const uint64_t *wide, size_t wide_len,\n    uint16_t size[7]);', self.text(WRITTEN[0]))
        raw = ' '.join(self.text(WRITTEN[1]).split())
        for part in ('wide: *const u64, wide_len: usize, size: *mut [u16; 7]', 'wide: &[u64], size: &mut [u16; 7]', 'wide.as_ptr(), wide.len(), size'):
            self.assertTrue(part in raw, part)

    def test_a_changed_refusal_is_written_in_both(self):
        self.change('crates/refusals/src/lib.rt', 'BadCut = 2', 'BadCut = 77')
        self.assertEqual(self.stale(), [WRITTEN[0], WRITTEN[2]])
        self.assertEqual(self.declare()[0], 0)
        self.assertIn('TUGRELIS_BAD_CUT = 77,', self.text(WRITTEN[0]))
        self.assertIn('77 BadCut "bad cut"', self.text(WRITTEN[2]))

    def test_what_cannot_be_declared_is_told(self):
        for path, old, new, told in (
            ('crates/service/src/lib.rt', 'fn tugrelis_seam(', 'fn tugrelis_stitch(', 'seam, stitch'),
            ('crates/service/src/lib.rt', 'codes: &[u32]', 'codes: &[Code]', 'codes: &[Code] cannot be exported'),
            ('crates/service/src/lib.rt', '#[unsafe(no_mangle)]\n', '#[unsafe(no_mangle)]\n#[cold]\n', 'another form'),
            ('crates/refusals/src/lib.rt', 'BadCut =', 'BadCuts =', 'BAD_CUT, BAD_CUTS'),
            ('host/tugrelis.h.in', '. */\n@label@', '. */\n\n@label@', 'label'),
            ('host/tugrelis.h.in', '@label@', '@label@\n@label@', 'label'),
        ):
            kept = self.text(path)
            self.change(path, old, new)
            status, said = self.declare()
            self.assertEqual(status, 1)
            self.assertIn(told, said)
            self.change(path, self.text(path), kept)
        self.assertEqual(self.stale(), [])
        self.assertEqual(self.declare('--chek')[0], 1)


if __name__ == '__main__':
    unittest.main()
