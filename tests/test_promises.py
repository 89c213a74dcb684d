"""tools/promises: what it sees of a change, in a small repository of its own."""
import os
import shutil
import subprocess
import tempfile
import unittest

from common import ROOT

SOURCE = '''// Bytes.
use word::num;
ghost use Rattle.std.specs.Prelude.{◌≡◌, ◌<◌};
ghost use Rattle.bytes.specs.Fits.{fits_of, other_of};

// What a byte is.
#[derive]
pub enum Kind {
    Low,
    High { by: u8 },
}

pub const MOST: u64 = 255;

type Byte = u8;

macro_rules! both {
    ($low:expr) => {
        [$low, 49]
    };
}

static DIGITS: [u8; 2] = [
    48, // 0
    49, // 1
];

// Whether a number is a byte.
pub fn fits(n: u64) -> bool
    requires { 0 < n }
    ensures { result
        ≡ fits_of n }
{
    n <= MOST
}

#[inline]
#[unsafe(no_mangle)]
pub extern "C" fn plain(n: u64) -> u64 {
    n
}

fn tell() {
    if true {
        fits(1);
    }
}

// A byte and where it stands.
#[derive(Copy)]
pub struct Place {
    pub at: u64,
    ghost below: { small at 8 },
}

impl Place {
    ghost use Rattle.other.specs.Add.{◌+◌};

    // The next one.
    pub fn next(self) -> u64
        ensures { follows result (self.at + 1) }
    {
        if true {
            self.at + 1
        } else {
            1
        }
    }

    #[cold]
    fn same(self) -> u64 {
        self.at
    }
}

impl From<Place> for u64 {
    ghost from_gives = { λ p n. stands n p.at };

    fn from(p: Place) -> u64 {
        p.at
    }
}
'''
SPECS = '''-- Bytes.
use Rattle.std.specs.Prelude.{
  ◌≡◌,
  ℕ,
}
use Rattle.bytes.specs.Below.{
  ltb,
  leb,
}

-- a byte
abbrev pub fits_of : ℕ → Bool
fits_of n = ltb n 256

infix 40 ◌~◌
unfoldable pub ◌~◌ : ℕ → ℕ → Type 0
a ~ b = a ≡ b
'''
PROOFS = '''-- Laws.
use Rattle.std.specs.Prelude.{◌≡◌, ◌<◌, ◌≤◌, ℕ}

module _ (n : ℕ) (some : 0 < n) where
  -- in words
  pub fits_exact : (fits_of n ≡ true)
      -- both ways
      ↔ (n < 256)
  unfolding fits_of
  fits_exact = search rules

hidden : (n : ℕ) → n ≡ n
hidden n = refl

pub record Held : Type 0 where
  pub low : ℕ
  pub high : ℕ

abbrev pub Twice : ℕ → ℕ
Twice n = n + n

abbrev Half : ℕ → ℕ
Half n = n / 2

infixr 30 ◌to◌
record Pair : Type 0 where
  one : ℕ

pub last_law : (n : ℕ) → n ≤ Half n
last_law n = omega arith
'''
INVARIANTS = '''use Prim.Native.Nat.{◌-◌, ◌≤◌}
use Rattle.bytes.proofs.fits.Given as goal

abbrev pub invariant-loop-i : goal.invariant-loop-i
invariant-loop-i l = l.i ≤ l.n

abbrev pub decreases-loop-i : goal.decreases-loop-i
decreases-loop-i l = l.n - l.i
'''
ANSWERS = '''use Rattle.bytes.proofs.fits.Goals as goal

pub returns : goal.returns
returns c = search rules
'''
OWN = '''use Rattle.bytes.proofs.tell.Tie as tie

pub tell-spec : {M : Type 1} → statement M
tell-spec = tie.close tie.spec
'''
FILES = {'src/lib.rt': SOURCE, 'specs/Fits.antt': SPECS, 'proofs/FitsLaws.antt': PROOFS, 'proofs/fits/Invariants.antt': INVARIANTS,
         'proofs/fits/Answers.antt': ANSWERS, 'proofs/tell/Proof.antt': OWN, 'proofs/Answers.antt': '-- Laws, too.\npub told : 0 ≡ 0\ntold = refl\n'}
STAYED = ['contracts: 6 of 6', 'types: 7 of 7', 'definitions: 2 of 2', 'statements: 8 of 8']


class Promises(unittest.TestCase):
    def setUp(self):
        self.top = tempfile.mkdtemp()
        self.addCleanup(shutil.rmtree, self.top)
        os.mkdir(self.top + '/tools')
        shutil.copy(os.path.join(ROOT, 'tools', 'promises'), self.top + '/tools')
        for path, text in FILES.items():
            self.put(path, text)
        self.git('init', '-q')
        self.git('add', '.')
        self.git('-c', 'user.name=n', '-c', 'user.email=e', 'commit', '-q', '-m', 'm')

    def git(self, *words):
        subprocess.run(['git', *words], cwd=self.top, check=True)

    def put(self, path, text):
        full = os.path.join(self.top, 'crates', 'bytes', path)
        os.makedirs(os.path.dirname(full), exist_ok=True)
        with open(full, 'w', encoding='utf-8') as f:
            f.write(text)

    def run_tool(self, *words):
        return subprocess.run([self.top + '/tools/promises', *words], stdout=subprocess.PIPE, stderr=subprocess.PIPE, encoding='utf-8')

    def told(self, path, old, new):
        """What the tool says beside the counts, after one change of a file that is then undone."""
        self.assertEqual(FILES[path].count(old), 1, old)
        self.put(path, FILES[path].replace(old, new))
        run = self.run_tool('HEAD')
        self.put(path, FILES[path])
        self.assertEqual((run.returncode, run.stderr), (0, ''))
        return [line.strip() for line in run.stdout.splitlines() if line.startswith(' ')]

    def test_nothing_changed(self):
        run = self.run_tool('HEAD', '--list')
        self.assertEqual([line.split(' as')[0] for line in run.stdout.splitlines()[:4]], STAYED)
        self.assertEqual(run.stdout.splitlines()[4:], ['every promise as before: 4 files', '  crates/bytes/proofs/Answers.antt',
                                                       '  crates/bytes/proofs/FitsLaws.antt', '  crates/bytes/specs/Fits.antt', '  crates/bytes/src/lib.rt'])

    def test_what_is_made_of_a_crate(self):
        self.put('out/fits.antt', 'pub more : 0 ≡ 0\n')
        self.put('out/src/lib.rt', SOURCE)
        self.assertEqual([line.split(' as')[0] for line in self.run_tool('HEAD').stdout.splitlines()], STAYED)

    def test_what_is_no_promise(self):
        for path, old, new in [
            ('src/lib.rt', 'n <= MOST\n', 'n < 256\n'),
            ('src/lib.rt', '    n\n}', '    0 + n\n}'),
            ('src/lib.rt', 'fits(1)', 'fits(2)'),
            ('src/lib.rt', '// What a byte is.', '// A byte.'),
            ('src/lib.rt', '{ result\n        ≡ fits_of n }', '{ result ≡ fits_of n }'),
            ('src/lib.rt', 'Low,\n', 'Low, // the low ones\n'),
            ('src/lib.rt', 'use word::num;', 'use bits::num;'),
            ('src/lib.rt', 'other_of', 'third_of'),
            ('specs/Fits.antt', '  leb,\n', ''),
            ('specs/Fits.antt', '-- a byte', '-- bytes'),
            ('proofs/FitsLaws.antt', 'fits_exact = search rules', 'fits_exact = omega arith'),
            ('proofs/FitsLaws.antt', 'last_law n = omega arith', 'last_law n = search rules'),
            ('proofs/FitsLaws.antt', 'hidden : (n : ℕ) → n ≡ n', 'hidden : (n : ℕ) → n ≤ n'),
            ('proofs/tell/Proof.antt', 'tie.close tie.spec', 'tie.close (tie.spec returns)'),
            ('proofs/fits/Answers.antt', 'returns c = search rules', 'returns c = rw (c.ensures) refl'),
            ('proofs/fits/Answers.antt', 'pub returns :', 'pub returns-2 :'),
            ('proofs/fits/Invariants.antt', 'l.n - l.i', '2 * l.n - l.i'),
        ]:
            with self.subTest(new=new):
                self.assertEqual(self.told(path, old, new), [])

    def test_what_is_one(self):
        for path, old, new, name in [
            ('src/lib.rt', '0 < n', '1 < n', 'fits'),
            ('src/lib.rt', '≡ fits_of n', '≡ fits_of (1 + n)', 'fits'),
            ('src/lib.rt', '    requires { 0 < n }\n', '', 'fits'),
            ('src/lib.rt', 'fits(n: u64) -> bool', 'fits(n: u32) -> bool', 'fits'),
            ('src/lib.rt', 'plain(n: u64) -> u64 {', 'plain(n: u64) -> u64\n    requires { n < 9 }\n{', 'plain'),
            ('src/lib.rt', '#[unsafe(no_mangle)]\n', '', 'plain'),
            ('src/lib.rt', '#[inline]\n', '', 'plain'),
            ('src/lib.rt', '#[derive]\n', '', 'enum Kind'),
            ('src/lib.rt', 'Byte = u8', 'Byte = u16', 'type Byte'),
            ('src/lib.rt', 'Rattle.bytes.specs.Fits', 'Rattle.bytes.specs.Other', 'fits'),
            ('src/lib.rt', 'Rattle.std.specs.Prelude', 'Rattle.other.specs.Prelude', 'fits'),
            ('specs/Fits.antt', 'specs.Below', 'specs.Other', 'fits_of'),
            ('src/lib.rt', 'fn tell() {', 'pub fn tell() {', 'tell'),
            ('src/lib.rt', 'by: u8', 'by: u16', 'enum Kind'),
            ('src/lib.rt', 'at 8 }', 'at 9 }', 'struct Place'),
            ('src/lib.rt', '(self.at + 1)', '(self.at + 2)', 'Place::next'),
            ('src/lib.rt', '    #[cold]\n', '', 'Place::same'),
            ('src/lib.rt', 'Rattle.other.specs.Add', 'Rattle.other.specs.Sum', 'Place::next'),
            ('src/lib.rt', 'p.at };', 'p.at + 1 };', 'impl From<Place> for u64'),
            ('src/lib.rt', 'u64 = 255', 'u64 = 256', 'const MOST'),
            ('src/lib.rt', '    49, // 1', '    50, // 1', 'static DIGITS'),
            ('src/lib.rt', '[$low, 49]', '[$low, 50]', 'macro_rules! both'),
            ('specs/Fits.antt', 'ltb n 256', 'ltb n 255', 'fits_of'),
            ('specs/Fits.antt', 'infix 40', 'infix 41', '◌~◌'),
            ('specs/Fits.antt', 'a ~ b = a ≡ b', 'a ~ b = b ≡ a', '◌~◌'),
            ('proofs/FitsLaws.antt', '↔ (n < 256)', '→ (n < 256)', 'fits_exact'),
            ('proofs/FitsLaws.antt', ' (some : 0 < n)', '', 'fits_exact'),
            ('proofs/FitsLaws.antt', '  pub high : ℕ', '  pub high : Bool', 'Held'),
            ('proofs/FitsLaws.antt', 'Twice n = n + n', 'Twice n = 2 * n', 'Twice'),
            ('proofs/FitsLaws.antt', 'Half n = n / 2', 'Half n = n / 3', 'Half'),
            ('proofs/FitsLaws.antt', 'infixr 30', 'infixr 31', '◌to◌'),
            ('proofs/FitsLaws.antt', '  one : ℕ', '  one : Bool', 'Pair'),
            ('proofs/FitsLaws.antt', '→ n ≤ Half n', '→ n ≤ n', 'last_law'),
        ]:
            with self.subTest(new=new):
                self.assertEqual(self.told(path, old, new), ['changed crates/bytes/%s: %s' % (path, name)])

    def test_new_and_gone(self):
        self.assertEqual(self.told('src/lib.rt', 'pub fn fits(', 'pub fn is_byte('),
                         ['gone    crates/bytes/src/lib.rt: fits', 'new     crates/bytes/src/lib.rt: is_byte'])
        os.remove(self.top + '/crates/bytes/specs/Fits.antt')
        run = self.run_tool('HEAD', '--list')
        self.assertIn('definitions: 0 of 2 as before, in 0 files\n  gone    crates/bytes/specs/Fits.antt: fits_of\n'
                      '  gone    crates/bytes/specs/Fits.antt: ◌~◌\n', run.stdout)
        self.assertIn('every promise as before: 3 files\n', run.stdout)

    def test_bad_words(self):
        for words, told in [([], 'Usage'), (['--list'], 'Usage'), (['HEAD', 'HEAD'], 'Usage'), (['none'], 'none is no commit of this repository\n')]:
            run = self.run_tool(*words)
            self.assertEqual((run.returncode, run.stdout), (1, ''))
            self.assertIn(told, run.stderr)


if __name__ == '__main__':
    unittest.main()
