"""tools/before/05-once on small trees."""
import pathlib
import tempfile
import unittest

from room import load

once = load("before/05-once")

SOURCE = """impl Cup {
    pub fn filled_to(self, mark: u8) -> Self
        ensures { result ≡ filled self mark }
    {
        self
    }
}

pub fn sip(c: u8) -> u8
    ensures {
        result ≡ sipped c
    }
{
    c
}

#[unsafe(no_mangle)]
pub extern "C" fn cups_empty(
    cup: &Cup,
) -> u8
    ensures { result ≡ 0 }
{
    0
}

pub(crate) fn spill() -> u8 {
    0
}

fn wipe() -> u8 {
    0
}
"""

CALLS = """use Rattle.cups.specs.contracts as cups
use Rattle.demands.specs.Once.{Free, Once}

pub record CupsOnce (M : Type 1) : Type 2 where
  pub cups·Cup·filled_to : Once M cups.Cup.filled_to.ended (λ 𝓤. cups.Cup.filled_to.clauses) (λ 𝓤. cups.Cup.filled_to.spec)
  pub cups·sip : Once M cups.sip.ended (λ 𝓤. cups.sip.clauses) (λ 𝓤. cups.sip.spec)
  -- the one for C
  pub cups·cups_empty :
      Once M cups.cups_empty.ended (λ 𝓤. cups.cups_empty.clauses) (λ 𝓤. cups.cups_empty.spec)
"""

PROOFS = """use Rattle.demands.specs.OnceCalls.{CupsOnce}

pub cups_once : (M : Type 1) → CupsOnce M
cups_once M = record { }
"""

DECLARED = "pub mod OnceCalls\n"

PROMISES = """# Promises

## cups

### `Cup::filled_to(mark)`

- spills
  Shut out by: contract

### `sip`, `cups_empty`

## More

### `plates::wash`
"""


class Once(unittest.TestCase):
    def faults(self, source=SOURCE, name="lib.rt", calls=CALLS, specs_lib=DECLARED, proofs=PROOFS, proofs_lib=DECLARED, promises=PROMISES):
        with tempfile.TemporaryDirectory() as folder:
            demands = pathlib.Path(folder) / once.DEMANDS
            files = {
                demands / "specs/Lib.antt": specs_lib,
                demands / "specs/OnceCalls.antt": calls,
                demands / "proofs/Lib.antt": proofs_lib,
                demands / "proofs/OnceCalls.antt": proofs,
                pathlib.Path(folder) / "crates/cups/src" / name: source,
                pathlib.Path(folder) / once.PROMISES: promises,
            }
            for path, text in files.items():
                path.parent.mkdir(parents=True, exist_ok=True)
                if text is not None:
                    path.write_text(text, encoding="utf-8")
            return list(once.faults(pathlib.Path(folder)))

    def assertTold(self, fault, **files):
        self.assertIn(fault, "\n".join(self.faults(**files)))

    def test_a_line_for_each_public_function_passes(self):
        self.assertEqual(self.faults(), [])

    def test_a_function_without_a_line_is_told(self):
        self.assertTold("cups·sup has no line", source=SOURCE.replace("pub fn sip", "pub fn sup"))

    def test_a_method_without_a_line_is_told(self):
        self.assertTold("cups·Cup·drained has no line", source=SOURCE.replace("filled_to", "drained"))

    def test_a_function_for_c_without_a_line_is_told(self):
        self.assertTold("cups·cups_full has no line", source=SOURCE.replace("cups_empty", "cups_full"))

    def test_a_function_without_a_heading_is_told(self):
        self.assertTold("cups.sip has no heading in docs/PROMISES.md", promises=PROMISES.replace("`sip`, ", ""))
        self.assertTold("cups.Cup.filled_to has no heading", promises=PROMISES.replace("Cup::filled_to", "Mug::filled_to"))
        self.assertTold("cups.sip has no heading", promises=PROMISES.replace("## cups", "## plates"))
        self.assertTold("cups.sip has no heading", promises=PROMISES.replace("### `sip`", "`sip`"))
        self.assertTold("cups.sip has no heading", promises=None)

    def test_a_heading_without_a_function_is_told(self):
        self.assertTold("docs/PROMISES.md has a heading for sup, and there is no", promises=PROMISES.replace("`sip`", "`sip`, `sup`"))
        self.assertTold("has a heading for Mug::sip", promises=PROMISES.replace("`sip`", "`sip`, `Mug::sip`"))
        self.assertTold("has a heading for spill", promises=PROMISES.replace("`sip`", "`sip`, `spill`"))
        self.assertEqual(self.faults(promises=PROMISES.replace("## More", "### program `cups`\n\n## More")), [])

    def test_a_heading_may_name_type_or_room_or_neither(self):
        self.assertEqual(self.faults(promises=PROMISES.replace("Cup::filled_to", "filled_to")), [])
        moved = PROMISES.replace("`sip`, ", "").replace("`plates::wash`", "`cups::sip(c)`")
        self.assertEqual(self.faults(promises=moved), [])

    def test_a_private_function_needs_no_line(self):
        self.assertEqual(self.faults(source=SOURCE.replace("spill", "spilt").replace("wipe", "wiped")), [])

    def test_a_function_without_a_contract_needs_its_line(self):
        self.assertTold("cups·spill has no line", source=SOURCE.replace("pub(crate) fn", "pub fn"))

    def test_a_line_without_a_function_is_told(self):
        for hidden in ("fn sip", "pub(crate) fn sip"):
            self.assertTold("a line for cups·sip", source=SOURCE.replace("pub fn sip", hidden))

    def test_a_line_that_is_commented_out_is_told(self):
        self.assertTold("cups·sip has no line", calls=CALLS.replace("  pub cups·sip", "  -- pub cups·sip"))
        self.assertTold("cups·sip has no line", calls=CALLS.replace("  pub cups·sip", "{-\n  pub cups·sip") + "-}\n")

    def test_a_line_about_another_function_is_told(self):
        self.assertTold("cups·sip: its line", calls=CALLS.replace("cups.sip.clauses", "cups.cups_empty.clauses"))

    def test_a_line_that_says_less_is_told(self):
        self.assertTold("cups·sip: its line", calls=CALLS.replace("Once M cups.sip.", "Free M cups.sip."))

    def test_a_room_by_another_rooms_name_is_told(self):
        self.assertTold("which is no line of a call", calls=CALLS.replace("Rattle.cups", "Rattle.mugs"))

    def test_a_definition_among_the_lines_is_told(self):
        self.assertTold("which is no line of a call", calls=CALLS + "\nabbrev Once : Type 1\n")
        self.assertTold("which is no line of a call", calls=CALLS.replace("specs.Once.", "specs.Nonce."))

    def test_lines_that_are_not_declared_are_told(self):
        self.assertTold("cups·sip has no line", specs_lib="-- pub mod OnceCalls\n")

    def test_a_deleted_proof_is_told(self):
        for proofs in (None, "", PROOFS.replace("pub", "-- pub"), "{-\n" + PROOFS + "-}\n", PROOFS.replace("pub", "  pub")):
            self.assertTold("CupsOnce of crates/demands/specs/OnceCalls.antt has no proof", proofs=proofs)

    def test_a_proof_under_a_premise_is_told(self):
        self.assertTold("CupsOnce of", proofs=PROOFS.replace("(M : Type 1) →", "(M : Type 1) → ⊥ →"))

    def test_a_proof_of_another_record_of_that_name_is_told(self):
        for other in ("use Rattle.demands.specs.Other.{CupsOnce}", "use Rattle.demands.specs.OnceCalls.{Other as CupsOnce}"):
            self.assertTold("CupsOnce of", proofs=PROOFS.replace(PROOFS.splitlines()[0], other))

    def test_a_file_of_proofs_that_is_not_declared_is_told(self):
        self.assertTold("CupsOnce of", proofs_lib="pub mod Once\n")

    def test_a_requires_is_told(self):
        for clause in ("    ensures {\n", "        ensures { result ≡ filled"):
            self.assertTold("has a requires", source=SOURCE.replace(clause, "    requires { c < 9 }\n" + clause))

    def test_a_private_requires_is_none_of_its_business(self):
        self.assertEqual(self.faults(source=SOURCE.replace("fn wipe() -> u8 {", "fn wipe() -> u8\n    requires { 0 < 1 }\n{")), [])

    def test_a_program_is_left_out(self):
        self.assertEqual(self.faults(calls="", name="main.rt"), [])

    def of_archive(self, source):
        """What is told where cups_c is an archive over cups."""
        with tempfile.TemporaryDirectory() as folder:
            files = {"crates.txt": "cups:\ncups_c staticlib: cups\n", "crates/cups/src/lib.rt": SOURCE, "crates/cups_c/src/lib.rt": source}
            for name, text in files.items():
                path = pathlib.Path(folder) / name
                path.parent.mkdir(parents=True, exist_ok=True)
                path.write_text(text, encoding="utf-8")
            return [fault for fault in once.faults(pathlib.Path(folder)) if "cups_c" in fault]

    def test_an_archive_says_what_a_room_below_it_says(self):
        given = '#[unsafe(no_mangle)]\npub extern "C" fn sip(\n    c: u8,\n) -> u8\n    ensures { result ≡ sipped c }\n{\n    cups::sip(c)\n}\n'
        self.assertEqual(self.of_archive(given), [])
        for other in (given.replace("sipped", "spilt"), given.replace("fn sip", "fn sup"), given.replace("c: u8", "c: u32")):
            self.assertRegex("".join(self.of_archive(other)), "^cups_c.su?i?p is said otherwise")

    def test_a_program_beside_a_library_leaves_nothing_out(self):
        with tempfile.TemporaryDirectory() as folder:
            for name in ("main.rt", "lib.rt"):
                path = pathlib.Path(folder) / "crates/cups/src" / name
                path.parent.mkdir(parents=True, exist_ok=True)
                path.write_text(SOURCE, encoding="utf-8")
            self.assertIn("cups·sip has no line", "\n".join(once.faults(pathlib.Path(folder))))


if __name__ == "__main__":
    unittest.main()
