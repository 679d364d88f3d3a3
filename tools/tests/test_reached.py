"""Tests of tools/reached, on a tree of a few definitions."""

import os
import unittest

from support import TOP, Folder, tool

FILES = {
    'crates/metacli/src/top.rt': '''ghost use Rattle.std.specs.Prelude.{◌≡◌};
ghost use Rattle.metacli.specs.Runs.{Runs};

use crate::Ended;
use base::{MAX, Shelf};

pub fn run_meta<S: Shelf>(shelf: &mut S) -> Ended
    ensures { Runs (S.now_is shelf.old) result }
{
    Ended::new(MAX)
}
''',
    'crates/metacli/src/lib.rt': 'mod ended;\nmod top;\n\npub use ended::Ended;\n',
    'crates/metacli/src/ended.rt': '''use base::Net;

/// How a run ended.
pub struct Ended {
    // what was read
    pub net: Option<Net>,
    pub count: u32,
}

fn nothing() -> u32 {
    0
}
''',
    'crates/metacli/specs/Runs.antt': '''-- What a run does.
use Rattle.std.specs.Prelude.{◌≡◌, ℕ}
use Rattle.base.specs.Laws.{Outcome}
use Rattle.base.specs.Words as words
use Rattle.base.specs.declared.limits.TheConstants.{MAX}
use Rattle.metacli.specs.declared.ended.Ended.{Ended}

-- the run
abbrev pub Runs : ℕ → Ended → Type 0
Runs moment e = (o : Outcome) × (words.is_word MAX ≡ e.count)

-- nobody cites it
abbrev pub not_reached : ℕ → ℕ
not_reached n = n
''',
    'crates/base/src/limits.rt': '/// The most.\npub const MAX: u32 = 4;\n',
    'crates/base/src/shelf.rt': '''ghost use Rattle.base.specs.Words.{moment};

pub trait Shelf {
    ghost now_is: { Self → moment };
}
''',
    'crates/base/src/net.rt': '''pub struct Net {
    hidden: Hidden,
}

impl Model for Net {
    ghost use Rattle.base.specs.Words.{PureNet};

    ghost Value = { PureNet };

    ghost view = { λ s. s.hidden };

    ghost invariant = { is_hidden };
}

pub struct Hidden {
    count: u32,
}
''',
    'crates/base/specs/Words.antt': '''use Rattle.std.specs.Prelude.{ℕ, if◌then◌else◌, codes}

pub data PureNet : Type 0 where
  empty : PureNet
  -- a node more
  more : ℕ → PureNet → PureNet

abbrev pub count : PureNet → ℕ
count empty = 0
count (more n rest) = count rest + moment n

module _ (least : ℕ) where
  -- by its parameter
  abbrev pub is_large : ℕ → Type 0
  is_large n = least ≤ n

abbrev pub is_word : ℕ → ℕ
is_word moment =
    count (more moment empty)

abbrev pub moment : ℕ → ℕ
moment n = length (codes "not_a_name") -- nor is_large
''',
    'crates/base/specs/Laws.antt': 'pub use Rattle.base.specs.Outcomes.{\n  Outcome,\n}\n',
    'crates/base/specs/Outcomes.antt': '''use Rattle.base.specs.Words.{is_large}

pub record Outcome : Type 0 where
  pub large : is_large 3
''',
}
LISTED = '''crates/base/specs/Outcomes.antt:3-4 Outcome
crates/base/specs/Words.antt:3-6 PureNet
crates/base/specs/Words.antt:8-10 count
crates/base/specs/Words.antt:12 module at line 12
crates/base/specs/Words.antt:14-15 is_large
crates/base/specs/Words.antt:17-19 is_word
crates/base/specs/Words.antt:21-22 moment
crates/base/src/limits.rt:2 MAX
crates/base/src/net.rt:1-10 Net
crates/base/src/shelf.rt:3-5 Shelf
crates/metacli/specs/Runs.antt:9-10 Runs
crates/metacli/src/ended.rt:4-8 Ended
base: 9 definitions, 25 lines
metacli: 2 definitions, 6 lines
total: 11 definitions, 31 lines
'''
PAGE = '''# Definitions

## What the top clause reaches

They are 11 definitions in
31 lines.

| Name | In words | File |
|---|---|---|
| `Runs` | a run | `metacli/specs/Runs.antt` |
| `Ended` | its end, with `net` | `metacli/src/ended.rt` |
| `Outcome` | what is large | `base/specs/Outcomes.antt` |
| `PureNet`, `count` | a network, and how many nodes it has | `base/specs/Words.antt` |
| `is_large`, `is_word`, `moment` | numbers | `base/specs/Words.antt` |
| `MAX` | 4 | `base/src/limits.rt` |
| `Net` | a network of the program | `base/src/net.rt` |
| `Shelf` | where files are | `base/src/shelf.rt` |

## What it doesn't reach

| Name | In words | File |
|---|---|---|
| `not_reached` | a number | `metacli/specs/Runs.antt` |
'''


class Reached(Folder):
    """Each test has the tree and the page that lists what is reached."""

    def setUp(self):
        super().setUp()
        for name, text in {**FILES, 'docs/definitions.md': PAGE}.items():
            os.makedirs(os.path.join(self.folder, os.path.dirname(name)), exist_ok=True)
            self.file(name, text)

    def say(self, *words):
        return tool('reached', *words, '--tree', self.folder)

    def test_what_is_reached(self):
        self.assertEqual(self.say(), (0, LISTED, ''))

    def test_the_longest(self):
        self.assertEqual(self.say('--longest', '1')[1], '5 crates/base/src/net.rt:1-10 Net\n')

    def test_what_is_left_without_one(self):
        self.assertEqual(self.say('--without', 'Outcome'), (0, 'total: 10 definitions, 28 lines\n', ''))
        self.assertEqual(self.say('--without', 'not_reached')[0], 2)

    def test_why(self):
        chain = ['moment crates/base/specs/Words.antt:21-22', 'Shelf crates/base/src/shelf.rt:3-5',
                 'run_meta crates/metacli/src/top.rt:7-8']
        self.assertEqual(self.say('--why', 'moment')[1].splitlines(), chain)

    def test_the_page_is_right(self):
        self.assertEqual(self.say('--check'), (0, '', ''))

    def test_the_page_is_wrong(self):
        page = PAGE.replace('`PureNet`, `count`', '`PureNet`, `not_reached`, `is_word`').replace('31', '30')
        self.file('docs/definitions.md', page)
        words = 'crates/base/specs/Words.antt'
        said = [f'count of {words} is reached and not listed', f'not_reached of {words} is listed and not reached',
                f'is_word of {words} is listed twice', 'it does not say: 11 definitions in 31 lines']
        self.assertEqual(self.say('--check'), (1, ''.join(f'docs/definitions.md: {it}\n' for it in said), ''))

    def test_rows_for_the_page(self):
        self.assertEqual(self.say('--rows'), (0, '', ''))
        self.file('docs/definitions.md', PAGE.replace('`Runs`', '').replace('`MAX`', '').replace('`is_large`, ', ''))
        self.assertEqual(self.say('--rows')[1].splitlines(), [
            '| `is_large` | by its parameter | `base/specs/Words.antt` |', '| `MAX` | The most | `base/src/limits.rt` |',
            '| `Runs` | the run | `metacli/specs/Runs.antt` |'])

    def test_refusals(self):
        self.assertEqual(self.say('--why', 'not_reached')[0], 2)
        os.remove(os.path.join(self.folder, 'docs/definitions.md'))
        status, out, err = self.say('--check')
        self.assertEqual((status, out, err.count('\n')), (2, '', 1))
        os.remove(os.path.join(self.folder, 'crates/metacli/src/top.rt'))
        status, out, err = self.say()
        self.assertEqual((status, out), (2, ''))
        self.assertTrue(err.startswith('reached: ') and err.endswith(': no function run_meta is there\n'), err)


class ThisTree(unittest.TestCase):
    """The repository's own tree."""

    def test_each_crate_on_the_way_is_known(self):
        status, out, _ = tool('reached')
        with open(os.path.join(TOP, 'crates.txt'), encoding='utf-8') as file:
            crates = {line.split(':')[0] for line in file}
        counted = {line.split(':')[0] for line in out.splitlines() if ' definitions, ' in line}
        self.assertEqual((status, counted - crates), (0, {'total'}))
