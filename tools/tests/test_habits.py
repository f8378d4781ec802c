"""tools/before/03-habits on small trees."""
import unittest

from room import Room, load

habits = load("before/03-habits")
habits.UNCALLED = {}

ROOMS = "cups:\nplates: cups\ntable: cups plates\n"

CUPS = """// What a cup does.
ghost use Rattle.std.specs.Prelude.{◌≡◌};

use base::Answer;

impl Cup {
    pub fn fill(mut self, mark: u8) -> Cup
        ensures { result ≡ filled self mark }
    {
        if base::bit(Cup::MILK, mark) {
            self.milk = true;
        }
        self
    }
}
"""

TABLE = """fn lay(cup: Cup) -> Cup {
    cup.fill(3)
}
"""


# A second type that can be filled.
PLATES = """impl Plate {
    fn fill(mut self, mark: u8) -> Plate {
        self.mark = mark;
        self
    }
}
"""


class Habits(Room):
    def told(self, cups=CUPS, table=TABLE, plates="", rooms=ROOMS):
        self.write("crates.txt", rooms)
        self.write("crates/cups/src/lib.rt", cups)
        self.write("crates/plates/src/lib.rt", plates)
        self.write("crates/table/src/main.rt", table)
        return list(habits.faults(self.root))

    def test_good_habits_pass(self):
        self.assertEqual(self.told(), [])

    def test_a_bit_by_its_number_is_told_with_its_line(self):
        self.assertEqual(
            self.told(cups=CUPS.replace("Cup::MILK", "3")), ["crates/cups/src/lib.rt:10: a bit is asked for by its number"]
        )

    def test_a_public_function_without_a_caller_is_told(self):
        self.assertEqual(self.told(table=""), ["crates/cups/src/lib.rt:7: no other room calls cups::Cup::fill"])

    def test_a_call_in_its_own_room_does_not_count(self):
        self.assertEqual(len(self.told(cups=CUPS + TABLE, table="")), 1)

    def test_a_call_of_a_room_that_does_not_know_this_one_does_not_count(self):
        self.assertEqual(len(self.told(rooms="cups:\nplates: cups\ntable: plates\n")), 1)

    def test_a_call_in_a_comment_does_not_count(self):
        self.assertEqual(len(self.told(table="// cup.fill(3) is not done here\n")), 1)

    def test_a_bare_name_does_not_count(self):
        for call in ("fill(3)", "plates::fill(3)", "Plate::fill(3)"):
            self.assertEqual(len(self.told(table=TABLE.replace("cup.fill(3)", call))), 1)
        self.assertEqual(self.told(table=TABLE.replace("cup.fill(3)", "Cup::fill(cup, 3)")), [])

    def test_of_two_types_the_receiver_tells_which(self):
        self.assertEqual(self.told(plates=PLATES), [])
        self.assertEqual(len(self.told(plates=PLATES, table=TABLE.replace("cup: Cup", "cup: Plate"))), 1)

    def test_of_two_types_a_let_or_a_field_tells_which(self):
        table = "struct Laid {\n    pub full: Cup,\n}\n\nfn lay(laid: Laid) -> Cup {\n    let one = laid.full;\n    one.fill(3)\n}\n"
        self.assertEqual(self.told(plates=PLATES, table=table), [])
        self.assertEqual(self.told(plates=PLATES, table=table.replace("struct", "pub(crate) struct").replace("pub full", "pub(crate) full")), [])
        self.assertEqual(self.told(plates=PLATES, table=table.replace("one.fill", "laid.full.fill")), [])
        self.assertEqual(len(self.told(plates=PLATES, table=table.replace("full: Cup", "full: Plate"))), 1)
        self.assertEqual(self.told(plates=PLATES, table=table.replace("laid.full;", "Cup { milk: false };")), [])
        self.assertEqual(len(self.told(plates=PLATES, table=table.replace("laid.full;", "Plate { mark: 3 };"))), 1)

    def test_of_two_types_the_case_that_a_pattern_takes_apart_tells_which(self):
        table = """enum Laid {
    Full(u8, Cup),
    Flat(Plate),
}

fn lay(laid: Laid) -> Laid {
    match laid {
        Laid::Full(n, one) => Laid::Full(n, one.fill(3)),
        Laid::Flat(one) => laid,
    }
}
"""
        self.assertEqual(self.told(plates=PLATES, table=table.replace("Flat(one)", "Flat(_)")), [])
        self.assertEqual(len(self.told(plates=PLATES, table=table.replace("Flat(one)", "Flat(_)").replace("u8, Cup", "u8, Plate"))), 1)
        self.assertEqual(len(self.told(plates=PLATES, table=table.replace("n, one)", "_, n)").replace("Flat(one)", "Flat(_)"))), 1)

    def test_a_function_without_a_type_is_called_by_its_room(self):
        cups = "pub fn wipe(c: u8) -> u8 {\n    c\n}\n"
        self.assertEqual(self.told(cups=cups, table="fn lay() -> u8 {\n    cups::wipe(3)\n}\n"), [])
        for brought in ("wipe", "{wipe}", "{dry, wipe}", "{wipe, Cup}", "{\n    dry, wipe,\n}"):
            self.assertEqual(self.told(cups=cups, table=f"use cups::{brought};\n\nfn lay() -> u8 {{\n    wipe(3)\n}}\n"), [])
        for other in ("fn lay() -> u8 {\n    wipe(3)\n}\n", "fn lay(c: Cloth) -> u8 {\n    c.wipe(3)\n}\n", "use cups::wipe;\n",
                      "use cups::{wiped};\n\nfn lay() -> u8 {\n    wipe(3)\n}\n", "use plates::{wipe};\n\nfn lay() -> u8 {\n    wipe(3)\n}\n"):
            self.assertEqual(self.told(cups=cups, table=other), ["crates/cups/src/lib.rt:1: no other room calls cups::wipe"])

    def test_what_a_pattern_binds_has_the_type_that_the_variant_holds(self):
        arms = "        Laid::Full(_, held) => held.fill(3),\n        Laid::Flat(_) => {}\n"
        laid = f"enum Laid {{\n    Full(u8, Cup),\n    Flat(Plate),\n}}\n\nfn lay(laid: Laid) {{\n    match laid {{\n{arms}    }}\n}}\n"
        self.assertEqual(self.told(table=laid, plates=PLATES), [])
        self.assertEqual(len(self.told(table=laid.replace("Full(u8, Cup)", "Full(u8, Plate)"), plates=PLATES)), 1)

    def test_an_exception_is_one_that_nobody_calls(self):
        self.addCleanup(setattr, habits, "UNCALLED", {})
        habits.UNCALLED = {"cups::Cup::fill": "for readers"}
        self.assertEqual(self.told(table=""), [])
        self.assertIn("cups::Cup::fill is among those that no room calls", "\n".join(self.told()))
        self.assertIn("cups::Cup::fill is among those", "\n".join(self.told(cups="")))

    def test_a_private_function_needs_no_caller(self):
        self.assertEqual(self.told(cups=CUPS.replace("pub fn", "fn"), table=""), [])
        self.assertEqual(self.told(cups=CUPS.replace("pub fn", "pub(crate) fn"), table=""), [])

    def test_a_function_for_c_needs_no_caller(self):
        self.assertEqual(self.told(cups=CUPS.replace("pub fn", 'pub extern "C" fn'), table=""), [])

    def test_a_self_that_only_the_contract_uses_is_told(self):
        body = CUPS.replace("            self.milk = true;\n", "").replace("        self\n    }", "        Cup { milk: true }\n    }")
        self.assertEqual(self.told(cups=body), ["crates/cups/src/lib.rt:7: fill does not use its self"])

    def test_a_type_called_self_is_told(self):
        self.assertEqual(self.told(cups=CUPS.replace("-> Cup", "-> Self")), ["crates/cups/src/lib.rt:7: a type is called Self"])

    def test_a_comment_may_say_self(self):
        self.assertEqual(self.told(cups=CUPS.replace("What a cup does.", "Self is what a cup is.")), [])


if __name__ == "__main__":
    unittest.main()
