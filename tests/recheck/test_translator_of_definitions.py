# SPDX-License-Identifier: Apache-2.0 OR BSD-3-Clause
"""The translator of definitions refuses what it does not know, and is right about what it knows."""
import re

import pytest

import antt2coq
import rust2coq

USES = """use Rattle.std.specs.Prelude.{ℕ, ◌+◌, ◌-◌, ◌*◌, ◌/◌, ◌%◌, ◌^◌, ◌==◌, ◌&&◌, ◌||◌, ◌≡◌, ◌≤◌, Bool, true, false, not, nat_le, if◌then◌else◌, List, [], ◌∷◌, ◌++◌, length, take, drop, Option, Some, None, ⊤}
pub data Sign : Type 0 where
  plus : Sign
  minus : (count : ℕ) → Sign
pub record Point : Type 0 where
  pub x : ℕ
  pub y : List ℕ
"""

# Definitions, and what a value of each is.
RIGHT = {
    "names of a signature stay there": (
        "value : (first second : ℕ) → ℕ\nvalue second first = second - first", "value 5 3", "2"),
    "names of a signature, by cases": (
        "value : (sign : Sign) (count : ℕ) → ℕ\nvalue plus number = number\nvalue (minus count) number = number - count",
        "value (minus 2) 7", "5"),
    "a variable that the signature has elsewhere": (
        "value : (a b : List ℕ) → List ℕ\nvalue [] a = a\nvalue (b ∷ rest) a = b ∷ value rest a", "value [1; 2] [3]", "[1; 2; 3]"),
    "first clause first": ("value : (n : ℕ) → ℕ\nvalue 3 = 10\nvalue n = n", "(value 3, value 4)", "(10, 4)"),
    "names that Coq reserves": (
        "value : (end fun forall : ℕ) → ℕ\nvalue end fun forall = end * 100 + fun * 10 + forall", "value 1 2 3", "123"),
    "a name with a prime": ("value : (x x' : ℕ) → ℕ\nvalue x x' = x * 10 + x'", "value 1 2", "12"),
    "a trailing comment": ("value : ℕ -- a number, of course\nvalue = 1 + -- one\n    2", "value", "3"),
    "a comment in a record": (
        "pub record Pair : Type 0 where\n  pub one : -- the first\n      List ℕ\n  -- the second\n  pub two : ℕ -- more\nvalue : (p : Pair) → ℕ\nvalue p = p.two",
        "value (mk_Pair [1] 2)", "2"),
    "left to right": ("value : ℕ\nvalue = 10 - 3 - 2", "value", "5"),
    "subtraction stops at 0": ("value : ℕ\nvalue = 2 - 5 + 1", "value", "1"),
    "power to the right": ("value : ℕ\nvalue = 2 ^ 3 ^ 2", "value", "512"),
    "products before sums": ("value : ℕ\nvalue = 1 + 2 * 3 ^ 2", "value", "19"),
    "and before or": ("value : (a b c : Bool) → Bool\nvalue a b c = a || b && c", "value true false false", "true"),
    "equality before and": ("value : (n : ℕ) → Bool\nvalue n = n == 3 && n + 1 == 4", "value 3", "true"),
    "cons before append": ("value : List ℕ\nvalue = 1 ∷ 2 ∷ [] ++ 3 ∷ []", "value", "[1; 2; 3]"),
    "hexadecimal": ("value : ℕ\nvalue = 0xFF + 10", "value", "265"),
    "a record with changes": (
        "value : (p : Point) → Point\nvalue p = record p { x = p.x + 1 }", "value (mk_Point 1 [2])", "mk_Point 2 [2]"),
    "a record in another order": ("value : Point\nvalue = record { y = [] ; x = 7 }", "value", "mk_Point 7 []"),
    "parts of a pair": (
        "value : (p : ℕ × List ℕ) → ℕ\nvalue p = p.0 + length p.1", "value (5, [1; 1])", "7"),
    "let": ("value : ℕ\nvalue = let n = 3 in let n = n + 1 in n * n", "value", "16"),
    "lambda": ("value : (f : ℕ → ℕ) → ℕ\nvalue f = f 3\nused : ℕ\nused = value (λ n. n * 2)", "used", "6"),
    "if in if": ("value : (a b : Bool) → ℕ\nvalue a b = if a then if b then 1 else 2 else 3", "(value true false, value false true)", "(2, 3)"),
    "a word under another name": ("use Rattle.std.specs.Prelude.{length as size}\nvalue : ℕ\nvalue = size (1 ∷ 2 ∷ [])", "value", "2"),
    "sums to the left": ("value : ℕ\nvalue = 9 - 4 + 2 - 3", "value", "4"),
    "products to the left": ("value : List ℕ\nvalue = 64 / 8 / 2 ∷ 7 * 3 / 2 ∷ 100 % 7 * 3 ∷ []", "value", "[4; 10; 6]"),
    "a power before a product": ("value : ℕ\nvalue = 3 * 2 ^ 2 + 48 / 2 ^ 3 + 21 % 2 ^ 3", "value", "23"),
    "append to the right of cons": ("value : List ℕ\nvalue = 1 ∷ [] ++ 2 ∷ [] ++ 3 ∷ []", "value", "[1; 2; 3]"),
    "a product in a list": ("value : List ℕ\nvalue = 1 ∷ 2 * 2 ∷ []", "value", "[1; 4]"),
    "or": ("value : (a b : Bool) → Bool\nvalue a b = a || b", "[value true false; value true true; value false false]", "[true; true; false]"),
    "comparisons and connectives": (
        "value : (a b c : ℕ) → Bool\nvalue a b c = a == b || b + 1 == c && a == c", "(value 2 2 5, value 1 2 3)", "(true, false)"),
    "a difference as a product's part": ("value : (n : ℕ) → ℕ\nvalue n = (n - 3) * 2", "(value 5, value 1)", "(4, 0)"),
    "signed numbers": (
        "use Rattle.std.specs.Prelude.{ℤ, ◌+ℤ◌, ◌-ℤ◌, pos, negsuc}\nvalue : (a b : ℤ) → List ℤ\n"
        "value a b = (a +ℤ b) ∷ (a -ℤ b -ℤ b) ∷ (a -ℤ b +ℤ b) ∷ []", "value (pos 2) (pos 5)", "[pos 7; negsuc 7; pos 2]"),
    "patterns of signed numbers": (
        "use Rattle.std.specs.Prelude.{ℤ, pos, negsuc}\nvalue : (n : ℤ) → ℕ\nvalue (negsuc n) = n\nvalue (pos n) = 10 * n",
        "(value (pos 2), value (negsuc 2))", "(20, 2)"),
    "words of numbers": (
        "use Rattle.std.specs.Prelude.{nat_lt, min, bit_and, bit_or}\nvalue : List ℕ\n"
        "value = min 3 5 ∷ min 5 3 ∷ bit_and 6 12 ∷ bit_or 6 12 ∷ (if nat_lt 3 3 then 1 else 0) ∷ (if nat_le 3 3 then 1 else 0)"
        " ∷ []", "value", "[3; 3; 4; 14; 0; 1]"),
    "words of lists": (
        "use Rattle.std.specs.Prelude.{slice_index, unwrap_or, is_some, sum_by, count_by}\n"
        "use Rattle.std.specs.List.{list_all, list_any}\nvalue : (l : List ℕ) → List ℕ × List Bool\n"
        "value l = (take 1 l ++ drop 2 l ++ slice_index l 1 ∷ sum_by (λ n. n * 2) l ∷ count_by (λ n. n == 2) l ∷"
        " unwrap_or (Some 9) 8 ∷ unwrap_or None 8 ∷ [],"
        " list_all (λ n. n == 2) l ∷ list_any (λ n. n == 2) l ∷ not (is_some (Some l)) ∷ [])",
        "value [1; 2; 4]", "([1; 4; 2; 14; 1; 9; 8], [false; true; false])"),
    "words of bytes": (
        "use Rattle.std.specs.Int.{w16, w32, w64, to_le_bytes, from_le_bytes, cast_unsigned, cast_signed, bit_at}\n"
        "use Rattle.std.specs.Prelude.{ℤ, pos}\nuse Rattle.std.specs.Str.{bytes_eq}\n"
        "value : List ℕ × List ℤ × List Bool × List ℕ\n"
        "value = (to_le_bytes w16 513 ++ length (to_le_bytes w32 1) ∷ length (to_le_bytes w64 1) ∷ from_le_bytes w16 (1 ∷ 2 ∷ [])"
        " ∷ cast_unsigned w64 (cast_signed w64 (2 ^ 64 - 1)) ∷ [], (cast_signed w64 (2 ^ 64 - 1) ∷ cast_signed w64 3 ∷ [],"
        " bytes_eq (1 ∷ 2 ∷ []) (1 ∷ 2 ∷ []) ∷ bytes_eq (1 ∷ 2 ∷ []) (1 ∷ 3 ∷ []) ∷ [], bit_at 4 2 ∷ bit_at 4 1 ∷ []))",
        "value", "([1; 2; 4; 8; 513; 18446744073709551615], ([negsuc 0; pos 3], ([true; false], [1; 0])))"),
    "words of options": (
        "use Rattle.std.specs.Option.{option_or, option_map_or}\nvalue : (o : Option ℕ) → Option ℕ × ℕ\n"
        "value o = (option_or o (Some 3), option_map_or (λ n. n + 1) o 5)", "(value (Some 1), value None)",
        "((Some 1, 2), (Some 3, 5))"),
    "words of truth": (
        "use Rattle.std.specs.Prelude.{IsTrue, IsFalse}\nuse Rattle.std.specs.Bool.{beq, IsFalse as IsNot}\n"
        "value : (a b : Bool) → Type 0\nvalue a b = IsTrue (beq a b) × IsFalse a × IsNot b",
        "value true false", "prod (IsTrue false) (prod (IsFalse true) (IsFalse false))"),
    "types": (
        "use Rattle.std.specs.Prelude.{◌⊎◌, ◌×◌, ◌↔◌, ◌<◌}\nvalue : (a b : ℕ) → Type 0\n"
        "value a b = a ≤ b × a ≡ b ⊎ a < b × b ≤ a → b ≡ a → a ≡ a ↔ b ≡ b ⊎ a ≡ b",
        "value 1 2", "sum (prod (1 <= 2) (1 = 2)) (prod (1 < 2) (2 <= 1)) -> 2 = 1 -> iff_type (1 = 1) (sum (2 = 2) (1 = 2))"),
    "types to the right": (
        "use Rattle.std.specs.Prelude.{◌⊎◌, ◌×◌, ◌↔◌}\nvalue : (A B C : Type 0) → Type 0\n"
        "value A B C = (A ↔ B → C) × B × (A ⊎ B ⊎ C) × ((A → B) → C → A)", "fun A B C : Type => value A B C",
        "fun A B C => prod (iff_type A B -> C) (prod B (prod (sum A (sum B C)) ((A -> B) -> C -> A)))"),
    "an operator in a type": ("value : (a b : ℕ) → Type 0\nvalue a b = a + 1 ≡ b × a == b ≡ true → a ∷ [] ≡ b ∷ []",
        "value 1 2", "prod (1 + 1 = 2) ((1 =? 2) = true) -> [1] = [2]"),
    "division by a definition of a number": (
        "size : ℕ\nsize = 4\nvalue : (n : ℕ) → List ℕ\nvalue n = n / size ∷ n % size ^ 2 ∷ []", "value 35", "[8; 3]"),
    "quantifiers": (
        "value : (l : List ℕ) → Type 0\nvalue l = (n m : ℕ) → ((k : ℕ) × (o p : ℕ) × k + n ≡ o - p - m) → take n l ≡ drop m l",
        "value [1]", "forall n m : N, {k : N & {o : N & {p : N & k + n = o - p - m}}} -> take n [1] = drop m [1]"),
    "what a constructor holds": (
        "pub data Move : Type 0 where\n  both : (a b : ℕ) → Move\nvalue : (m : Move) → ℕ\nvalue (both x y) = x - y\n"
        "used : ℕ\nused = value (both 9 2)", "used", "7"),
    "other names in each clause": (
        "value : (sign : Bool) (n : ℕ) → ℕ\nvalue true a = a\nvalue false b = b * 10", "(value true 2, value false 2)", "(2, 20)"),
    "parameters that no clause has": (
        "value : (n : ℕ) → ℕ → Bool → ℕ\nvalue n = λ a b. if b then a else n", "(value 1 2 true, value 1 2 false)", "(2, 1)"),
    "a field of a term in parentheses": (
        "value : (p : Point) → ℕ\nvalue p = (record p { x = p.x * 2 }).x + length (p).y", "value (mk_Point 4 [1])", "9"),
    "three parts": ("value : ℕ × List ℕ × Bool\nvalue = (1, 2 ∷ [], true)", "value", "(1, ([2], true))"),
    "the first clause that fits": (
        "value : (a b : Bool) → ℕ\nvalue true true = 1\nvalue a true = 2\nvalue _ _ = 3",
        "[value true true; value false true; value true false]", "[1; 2; 3]"),
    "the second argument first": (
        "value : (a b : Option ℕ) → ℕ\nvalue (Some a) None = a\nvalue None (Some b) = b * 10\nvalue _ _ = 7",
        "[value (Some 1) None; value None (Some 1); value None None]", "[1; 10; 7]"),
    "patterns in patterns": (
        "value : (l : List (Option ℕ)) → ℕ\nvalue (Some a ∷ None ∷ rest) = a\nvalue (_ ∷ Some b ∷ []) = 10 * b\nvalue _ = 9",
        "[value [Some 1; None; None]; value [None; Some 2]; value [None; Some 2; None]]", "[1; 20; 9]"),
    "a name of a definition as a variable": (
        "double : (n : ℕ) → ℕ\ndouble n = n * 2\nvalue : (double : ℕ) → ℕ\nvalue double = double + 1", "value 3", "4"),
    "a variable that would hide what has another name here": (
        "use Rattle.superio_core.specs.More.{double as twice}\nvalue : (double : ℕ) → ℕ\nvalue double = twice double + 1", "value 3", "7"),
    "a variable in a variable's scope": (
        "value : (n : ℕ) → ℕ\nvalue n = (let n = n * 2 in n + 1) * 100 + n", "value 3", "703"),
    "a lambda's names": (
        "value : (f : ℕ → ℕ → ℕ) → ℕ\nvalue f = f 7 2\nused : ℕ\nused = value (λ a b. a - b) * 10 + value (λ (a b : ℕ). b)", "used", "52"),
    "a parameter's name in the types of later ones": (
        "value : (n : ℕ) (same : n ≡ 3) (l : List ℕ) → length l ≡ n → ℕ\nvalue m same l held = m + length l",
        "value 3 eq_refl [1; 2; 3] eq_refl", "6"),
    "a hidden parameter": (
        "value : {A : Type 0} (a : A) (l : List A) → List A\nvalue a l = l ++ a ∷ []", "value 1 [2]", "[2; 1]"),
    "fields of fields": (
        "pub record Two : Type 0 where\n  pub one : Point\n  pub x : ℕ\nvalue : (t : Two) → Two\n"
        "value t = record t { one = record t.one { y = t.x ∷ t.one.y } }", "value (mk_Two (mk_Point 1 [2]) 3)",
        "mk_Two (mk_Point 1 [3; 2]) 3"),
    "a record that names its fields": (
        "pub record Law (n : ℕ) : Type 0 where\n  pub m : ℕ\n  pub more : n ≡ m → m ≡ 2\nvalue : Type 0\nvalue = Law 2",
        "(fun law : value => Law_more 2 law : 2 = Law_m 2 law -> Law_m 2 law = 2)", "fun law => Law_more 2 law"),
    "a type's name for another": (
        "Pairs : Type 0\nPairs = List (ℕ × Bool)\nvalue : (l : Pairs) → ℕ\nvalue (p ∷ rest) = if p.1 then p.0 else 10 * p.0\nvalue [] = 0",
        "[value [(3, true)]; value [(3, false)]; value []]", "[3; 30; 0]"),
    "mutual": (
        "mutual\n  even : (l : List ℕ) → Bool\n  even [] = true\n  even (n ∷ l) = odd l\n\n  odd : (l : List ℕ) → Bool\n  odd [] = false\n  odd (n ∷ l) = even l\nvalue : Bool\nvalue = even (1 ∷ 2 ∷ [])",
        "value", "true"),
}

# Definitions of `value`, and why they are refused.
REFUSED = {
    "the third part of a triple": ("value : (p : ℕ × ℕ × ℕ) → ℕ\nvalue p = p.2", ".2 of p"),
    "the second part of a triple": ("value : (p : ℕ × ℕ × ℕ) → ℕ × ℕ\nvalue p = p.1", ".1 of p"),
    "division by what may be 0": ("value : (n : ℕ) → ℕ\nvalue n = 7 / n", "/ by what may be 0"),
    "remainder by 0": ("value : ℕ\nvalue = 7 % 0", "% by what may be 0"),
    "remainder by a definition of 0": ("size : ℕ\nsize = 0\nvalue : ℕ\nvalue = 7 % size", "% by what may be 0"),
    "remainder by a definition with clauses": (
        "size : (b : Bool) → ℕ\nsize true = 4\nsize b = 0\nvalue : ℕ\nvalue = 7 % size true", "% by what may be 0"),
    "division by a variable with the name of a definition": (
        "size : ℕ\nsize = 4\nvalue : (size : ℕ) → ℕ\nvalue size = 7 / size", "/ by what may be 0"),
    "the pattern suc": ("value : (n : ℕ) → ℕ\nvalue zero = 0\nvalue (suc n) = n", "the pattern zero"),
    "a word that is not in the library": (
        "use Rattle.std.specs.Prelude.{sum}\nvalue : ℕ\nvalue = sum []", "the word sum of Prelude"),
    "a word of another module": (
        "use Rattle.std.specs.Str.{length as size}\nvalue : ℕ\nvalue = size []", "the word length of Str"),
    "an operator of its own": (
        "use Rattle.superio_core.specs.More.{◌+◌}\nvalue : ℕ\nvalue = 1 + 2", "the operator ◌+◌"),
    "an operator under another name": ("use Rattle.std.specs.Prelude.{◌+◌ as ◌-◌}\nvalue : ℕ\nvalue = 1 + 2", "the operator ◌+◌"),
    "more than a term": ("value : ℕ\nvalue = 1 ) + 2", "more than a term"),
    "comparisons that do not associate": ("value : (a b c : ℕ) → Bool\nvalue a b c = a == b == c", "do not associate"),
    "an unknown operator": ("value : ℕ\nvalue = 1 <> 2", "> 2"),
    "an unknown sign": ("value : ℕ\nvalue = 1 ⊕ 2", "⊕"),
    "a string": ('value : ℕ\nvalue = length "abc"', '"abc"'),
    "a name that is not in scope": ("value : ℕ\nvalue = nowhere", "nowhere is not in scope"),
    "a missing field": ("value : Point\nvalue = record { x = 1 }", "the fields of Point"),
    "an unknown field": ("value : (p : Point) → ℕ\nvalue p = p.z", "Point has no z"),
    "an unknown field that changes": ("value : (p : Point) → Point\nvalue p = record p { z = 1 }", "the fields of Point"),
    "remainder by a power of 0": ("value : ℕ\nvalue = 7 % 0 ^ 2", "% by what may be 0"),
    "an implicit parameter in a term": ("value : (f : {n : ℕ} → ℕ) → ℕ\nvalue f = f", "an implicit parameter"),
    "a clause after one that always fits": ("value : (n : ℕ) → ℕ\nvalue n = 1\nvalue n = 2", "the clauses of value"),
    "a field twice": ("value : Point\nvalue = record { x = 1; x = 2; y = [] }", "a field twice"),
    "a field of a record twice": (
        "pub record Two : Type 0 where\n  pub x : ℕ\n  pub x : ℕ\nvalue : (t : Two) → ℕ\nvalue t = t.x", "two x"),
    "a variable twice": ("value : (a b : List ℕ) → ℕ\nvalue (x ∷ l) (x ∷ m) = x\nvalue a b = 0", "the variable x twice"),
    "clauses of other lengths": ("value : (a b : Bool) → ℕ\nvalue true = λ b. 1\nvalue false b = 2", "the clauses of value"),
    "a definition twice": ("value : ℕ\nvalue = 1\nvalue : ℕ\nvalue = 2", "two value"),
    "a case": ("value : (n : Bool) → ℕ\nvalue n = case n of true", "more than a term|case is not in scope"),
    "a name that could be Coq's": ("value : (x'0 : ℕ) → ℕ\nvalue x'0 = x'0", "the name x'0"),
    "a type of Rust that is not there": (
        "use Rattle.superio_core.specs.declared.serial.Nothing.{Nothing}\nvalue : (n : Nothing) → ℕ\nvalue n = 1", "Rust has no type"),
}


def translated(folder, text, name="value"):
    specs = folder / "superio_core/specs"
    specs.mkdir(parents=True)
    (specs / "More.antt").write_text(USES + "pub double : (n : ℕ) → ℕ\ndouble n = n * 2\n", encoding="utf-8")
    (specs / "Try.antt").write_text(USES + text + "\n", encoding="utf-8")
    (folder / "src").mkdir()
    (folder / "src/lib.rs").write_text("")
    return antt2coq.translate(folder, rust2coq.Crate(folder / "src"), [f"superio_core.Try.{name}"])


@pytest.mark.parametrize("name", REFUSED)
def test_refused(name, tmp_path):
    text, why = REFUSED[name]
    with pytest.raises(antt2coq.Refused, match=why if "|" in why else re.escape(why)):
        translated(tmp_path, text)


@pytest.mark.needs("coq")
def test_right(computed, tmp_path):
    """What Coq computes from each is what it stands for."""
    text = ""
    for at, (name, (source, value, expected)) in enumerate(RIGHT.items()):
        last = re.findall(r"^(\w+) :", source, re.M)[-1] if "used" in source or "mutual" in source else "value"
        found = translated(tmp_path / str(at), source, last)
        body = "\n".join(line for line in found.splitlines() if not line.startswith("Require"))
        text += f"(* {name} *)\nModule Case{at}.\n{body}\nGoal ({value}) = ({expected}). Proof. vm_compute. reflexivity. Qed.\nEnd Case{at}.\n"
    computed(text)
