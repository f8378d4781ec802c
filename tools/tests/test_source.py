"""Tests of tools/source.py: what the checks read of code, crates.txt and declared files."""
import unittest

from room import Room
from source import archives, declared, functions, known

SOURCE = """impl Cup {
    pub fn fill(mut self, mark: u8) -> Cup
        ensures { result ≡ filled self mark }
    {
        if mark == 0 {
            return self;
        }
        self
    }

    pub(crate) fn empty() -> Cup {
        Cup { mark: 0 }
    }
}

impl Shown for Plate {
    fn show(
        &self,
    ) -> u8 {
        3
    }
}

// pub fn none() {
pub extern "C" fn wipe(c: u8) -> u8 {
    c
}
"""


class Source(Room):
    def test_the_functions_of_a_file(self):
        found = [(function.path, function.public, function.for_c, function.takes_self) for function in functions(SOURCE)]
        self.assertEqual(found, [
            ("Cup::fill", True, False, True),
            ("Cup::empty", False, False, False),
            ("Plate::show", False, False, True),
            ("wipe", True, True, False),
        ])

    def test_head_and_body_of_a_function(self):
        fill, empty, show, wipe = functions(SOURCE)
        self.assertEqual(SOURCE[fill.at :].split("(")[0], "fill")
        self.assertIn("ensures { result", fill.head)
        self.assertNotIn("return self", fill.head)
        self.assertEqual(fill.body.split(), "if mark == 0 { return self; } self".split())
        self.assertEqual([function.body.strip() for function in (empty, show, wipe)], ["Cup { mark: 0 }", "3", "c"])

    def test_the_rooms_that_a_room_knows(self):
        self.write("crates.txt", "# NAME: the rooms it knows.\nbase:\ncups: base\n  table : base cups\n")
        self.assertEqual(known(self.root), {"base": set(), "cups": {"base"}, "table": {"base", "cups"}})

    def test_the_rooms_that_are_archives(self):
        self.assertEqual(archives(self.root), set())
        self.write("crates.txt", "base:\ncups: base\n  cups_c staticlib : base cups\n")
        self.assertEqual(archives(self.root), {"cups_c"})

    def test_the_files_that_a_folder_declares(self):
        self.write("Lib.antt", "pub mod Cups\nmod Plates -- kept\n-- pub mod Forks\n{-\npub mod Knives\n-}\npub mod Gone\n")
        for name in ("Cups", "Plates", "Forks", "Knives"):
            self.write(f"{name}.antt", f"{name} = 1 -- so many\n")
        self.assertEqual(declared(self.root), {"Cups": "Cups = 1\n", "Plates": "Plates = 1\n"})
        self.assertEqual(declared(self.root / "none"), {})


if __name__ == "__main__":
    unittest.main()
