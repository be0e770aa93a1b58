//! The definitions that the contracts cite, in antt, the language of the proofs.
#![allow(non_snake_case)]
/// Definitions of `wasmi_types`.
pub mod types {
    #[doc = r####"Access to a part of a list: the bytes of a linear memory, or the elements of a table.

<pre><code>use Rattle.std.specs.Prelude.{ℕ, ◌+◌, List, ◌++◌, length, take, drop, Option, Some, None, nat_le, if◌then◌else◌}

-- the items a to a + n - 1, or none where the list ends before them
abbrev pub <b id="at">at</b> : {A : Type 0} → List A → ℕ → ℕ → Option (List A)
<a href="../../types/AccessSpecs/index.html#at">at</a> xs a n = if nat_le (a + n) (length xs) then Some (take n (drop a xs)) else None

-- xs with ys at a, or none where the list ends before them
abbrev pub <b id="overwrite">overwrite</b> : {A : Type 0} → List A → ℕ → List A → Option (List A)
<a href="../../types/AccessSpecs/index.html#overwrite">overwrite</a> xs a ys =
    if nat_le (a + length ys) (length xs) then Some (take a xs ++ ys ++ drop (a + length ys) xs) else None
</code></pre>
"####]
    pub mod AccessSpecs {}
    #[doc = r####"A function type is its lists of parameters and results (core specification 2.3): when two are the same, their order, what a hasher is given, how the entries are kept, and the texts of the errors.

<pre><code>use Rattle.std.specs.Prelude.{ℕ, ◌+◌, Bool, ◌&amp;&amp;◌, List, ◌∷◌, ◌++◌, length, map, nat_le, if◌then◌else◌, ◌≡◌, ◌&lt;◌, ◌≤◌, take, drop, codes}
use Rattle.std.specs.Cmp.Lexicographic.{pointwise, slice_cmp}
use Rattle.std.specs.Hash.{slice}
use Rattle.std.specs.Ordering.{nat_cmp, on}
use Rattle.std.specs.declared.cmp.Ordering.{Ordering}
use Rattle.wasmi_types.specs.declared.{value.ValType.ValType, func_type.Kept.Kept, func_type.FuncTypeError.FuncTypeError}
use Rattle.wasmi_types.specs.declared.value.ValType.TheVariants.{I32, I64, F32, F64, V128, FuncRef, ExternRef}
use Rattle.std.specs.Rc.{rc_slice_items}
use Rattle.wasmi_types.specs.declared.func_type.Kept.TheVariants.{Inline, Big}
use Rattle.wasmi_types.specs.declared.func_type.FuncTypeError.TheVariants.{TooManyFunctionParams, TooManyFunctionResults, OutOfMemory}

-- the parameters and the results of a function
pub record <b id="FunctionType">FunctionType</b> : Type 0 where
  pub <b id="params">params</b> : List ValType
  pub <b id="results">results</b> : List ValType

-- the parameters, then the results
abbrev pub <b id="entries">entries</b> : <a href="../../types/FunctionTypeSpecs/index.html#FunctionType">FunctionType</a> → List ValType
<a href="../../types/FunctionTypeSpecs/index.html#entries">entries</a> ty = ty.params ++ ty.results

-- how many parameters and results there are together
abbrev pub <b id="entry_count">entry_count</b> : <a href="../../types/FunctionTypeSpecs/index.html#FunctionType">FunctionType</a> → ℕ
<a href="../../types/FunctionTypeSpecs/index.html#entry_count">entry_count</a> ty = length ty.params + length ty.results

-- whether both lists are the same, by a test of value types
abbrev pub <b id="same_lists">same_lists</b> : (ValType → ValType → Bool) → <a href="../../types/FunctionTypeSpecs/index.html#FunctionType">FunctionType</a> → <a href="../../types/FunctionTypeSpecs/index.html#FunctionType">FunctionType</a> → Bool
<a href="../../types/FunctionTypeSpecs/index.html#same_lists">same_lists</a> same a b = pointwise same a.params b.params &amp;&amp; pointwise same a.results b.results

-- the place of a value type in their order, by which entries of function types are ordered
abbrev pub <b id="type_number">type_number</b> : ValType → ℕ
<a href="../../types/FunctionTypeSpecs/index.html#type_number">type_number</a> = elim [ I32 ↦ 0 | I64 ↦ 1 | F32 ↦ 2 | F64 ↦ 3 | V128 ↦ 4 | FuncRef ↦ 5 | ExternRef ↦ 6 ]

-- what function types are ordered by, place by place: small ones (at most 21 entries) come first, then the number
-- of parameters counts, among small ones then that of results, then the entries
abbrev pub <b id="order_key">order_key</b> : <a href="../../types/FunctionTypeSpecs/index.html#FunctionType">FunctionType</a> → List ℕ
<a href="../../types/FunctionTypeSpecs/index.html#order_key">order_key</a> ty =
    if nat_le (<a href="../../types/FunctionTypeSpecs/index.html#entry_count">entry_count</a> ty) 21
    then 0 ∷ length ty.params ∷ length ty.results ∷ map <a href="../../types/FunctionTypeSpecs/index.html#type_number">type_number</a> (<a href="../../types/FunctionTypeSpecs/index.html#entries">entries</a> ty)
    else 1 ∷ length ty.params ∷ map <a href="../../types/FunctionTypeSpecs/index.html#type_number">type_number</a> (<a href="../../types/FunctionTypeSpecs/index.html#entries">entries</a> ty)

-- the order of two function types
abbrev pub <b id="function_type_cmp">function_type_cmp</b> : <a href="../../types/FunctionTypeSpecs/index.html#FunctionType">FunctionType</a> → <a href="../../types/FunctionTypeSpecs/index.html#FunctionType">FunctionType</a> → Ordering
<a href="../../types/FunctionTypeSpecs/index.html#function_type_cmp">function_type_cmp</a> = on <a href="../../types/FunctionTypeSpecs/index.html#order_key">order_key</a> (slice_cmp nat_cmp)

-- what a function type gives to a hasher: the parameters, then the results
abbrev pub <b id="lists_input">lists_input</b> : (ValType → List (List ℕ)) → <a href="../../types/FunctionTypeSpecs/index.html#FunctionType">FunctionType</a> → List (List ℕ)
<a href="../../types/FunctionTypeSpecs/index.html#lists_input">lists_input</a> input ty = slice input ty.params ++ slice input ty.results

-- the value types that are kept, of which those after the entries mean nothing
abbrev pub <b id="kept_types">kept_types</b> : Kept → List ValType
<a href="../../types/FunctionTypeSpecs/index.html#kept_types">kept_types</a> (Inline types) = types
<a href="../../types/FunctionTypeSpecs/index.html#kept_types">kept_types</a> (Big types) = rc_slice_items types

-- the function type of so many parameters and results that are kept
abbrev pub <b id="function_type_of">function_type_of</b> : ℕ → ℕ → Kept → <a href="../../types/FunctionTypeSpecs/index.html#FunctionType">FunctionType</a>
<a href="../../types/FunctionTypeSpecs/index.html#function_type_of">function_type_of</a> <a href="../../types/FunctionTypeSpecs/index.html#params">params</a> <a href="../../types/FunctionTypeSpecs/index.html#results">results</a> kept =
    let <a href="../../types/FunctionTypeSpecs/index.html#entries">entries</a> = take (<a href="../../types/FunctionTypeSpecs/index.html#params">params</a> + <a href="../../types/FunctionTypeSpecs/index.html#results">results</a>) (<a href="../../types/FunctionTypeSpecs/index.html#kept_types">kept_types</a> kept) in
    record { <a href="../../types/FunctionTypeSpecs/index.html#params">params</a> = take <a href="../../types/FunctionTypeSpecs/index.html#params">params</a> <a href="../../types/FunctionTypeSpecs/index.html#entries">entries</a>; <a href="../../types/FunctionTypeSpecs/index.html#results">results</a> = drop <a href="../../types/FunctionTypeSpecs/index.html#params">params</a> <a href="../../types/FunctionTypeSpecs/index.html#entries">entries</a> }

-- at most 21 entries stand inline, and more on the heap
abbrev pub <b id="IsStored">IsStored</b> : ℕ → Kept → Type 0
<a href="../../types/FunctionTypeSpecs/index.html#IsStored">IsStored</a> count (Inline types) = (count ≤ 21) × (length types ≡ 21)
<a href="../../types/FunctionTypeSpecs/index.html#IsStored">IsStored</a> count (Big types) = (21 &lt; count) × (length (rc_slice_items types) ≡ count)

-- the entries of so many parameters and so many results, at most 1,000 of each, are kept
abbrev pub <b id="IsKept">IsKept</b> : ℕ → ℕ → Kept → Type 0
<a href="../../types/FunctionTypeSpecs/index.html#IsKept">IsKept</a> <a href="../../types/FunctionTypeSpecs/index.html#params">params</a> <a href="../../types/FunctionTypeSpecs/index.html#results">results</a> kept = (<a href="../../types/FunctionTypeSpecs/index.html#params">params</a> ≤ 1000) × (<a href="../../types/FunctionTypeSpecs/index.html#results">results</a> ≤ 1000) × (<a href="../../types/FunctionTypeSpecs/index.html#params">params</a> + <a href="../../types/FunctionTypeSpecs/index.html#results">results</a> ≤ length (<a href="../../types/FunctionTypeSpecs/index.html#kept_types">kept_types</a> kept))
    × <a href="../../types/FunctionTypeSpecs/index.html#IsStored">IsStored</a> (<a href="../../types/FunctionTypeSpecs/index.html#params">params</a> + <a href="../../types/FunctionTypeSpecs/index.html#results">results</a>) kept

-- these entries are kept
abbrev pub <b id="KeepsEntries">KeepsEntries</b> : List ValType → Kept → Type 0
<a href="../../types/FunctionTypeSpecs/index.html#KeepsEntries">KeepsEntries</a> <a href="../../types/FunctionTypeSpecs/index.html#entries">entries</a> kept =
    (take (length <a href="../../types/FunctionTypeSpecs/index.html#entries">entries</a>) (<a href="../../types/FunctionTypeSpecs/index.html#kept_types">kept_types</a> kept) ≡ <a href="../../types/FunctionTypeSpecs/index.html#entries">entries</a>) × (length <a href="../../types/FunctionTypeSpecs/index.html#entries">entries</a> ≤ length (<a href="../../types/FunctionTypeSpecs/index.html#kept_types">kept_types</a> kept))
    × <a href="../../types/FunctionTypeSpecs/index.html#IsStored">IsStored</a> (length <a href="../../types/FunctionTypeSpecs/index.html#entries">entries</a>) kept

-- the text of an error of a function type
abbrev pub <b id="func_type_error_text">func_type_error_text</b> : FuncTypeError → List ℕ
<a href="../../types/FunctionTypeSpecs/index.html#func_type_error_text">func_type_error_text</a> TooManyFunctionParams = codes "encountered a function with too many parameters"
<a href="../../types/FunctionTypeSpecs/index.html#func_type_error_text">func_type_error_text</a> TooManyFunctionResults = codes "encountered a function with too many <a href="../../types/FunctionTypeSpecs/index.html#results">results</a>"
<a href="../../types/FunctionTypeSpecs/index.html#func_type_error_text">func_type_error_text</a> OutOfMemory = codes "out of memory"
</code></pre>
"####]
    pub mod FunctionTypeSpecs {}
    #[doc = r####"What the implementations of \`Eq\`, \`Ord\` and \`Hash\` for function types name: the test of both lists is an equivalence, answers as the order does and holds of the same alone. One order key is that of one function type.

<pre><code>use Rattle.std.specs.Prelude.{◌≡◌, ℕ, Bool, true, false, ◌&amp;&amp;◌, List, [], ◌∷◌, length, map, drop, slice_index, slice_index_or, nat_le, if◌then◌else◌, refl}
use Rattle.std.proofs.Common.{ap, sym, ◌∙◌}
use Rattle.std.proofs.Math.Seq.{take-append_seam, drop-append_seam}
use Rattle.std.specs.Bool.{Decides, one_answer}
use Rattle.std.specs.Ordering.{nat_cmp, eq_by_cmp}
use Rattle.std.specs.Cmp.{IsEquivalence, decided, first_so, second_so, unsigned_ties}
use Rattle.std.specs.Cmp.Lexicographic.{pointwise_decides, bytes_decides, lists_ties}
use Rattle.wasmi_types.specs.declared.value.ValType.{ValType}
use Rattle.wasmi_types.specs.declared.value.ValType.TheVariants.{I32, I64, F32, F64, V128, FuncRef, ExternRef}
use Rattle.wasmi_types.specs.FunctionType.{<a href="../../types/FunctionTypeSpecs/index.html#FunctionType">FunctionType</a>, <a href="../../types/FunctionTypeSpecs/index.html#entries">entries</a>, <a href="../../types/FunctionTypeSpecs/index.html#entry_count">entry_count</a>, <a href="../../types/FunctionTypeSpecs/index.html#same_lists">same_lists</a>, <a href="../../types/FunctionTypeSpecs/index.html#type_number">type_number</a>, <a href="../../types/FunctionTypeSpecs/index.html#order_key">order_key</a>, <a href="../../types/FunctionTypeSpecs/index.html#function_type_cmp">function_type_cmp</a>}
use denote.Enum.Bare.{sameb, same_true, true_same}
use Rattle.wasmi_types.specs.contracts.value.ValType.{the_type}

-- the value type at a place, as an order key has it
abbrev <b id="type_at">type_at</b> : ℕ → ValType
<a href="../../types/FunctionTypeProofsSpecs/index.html#type_at">type_at</a> n = slice_index_or (I32 ∷ I64 ∷ F32 ∷ F64 ∷ V128 ∷ FuncRef ∷ []) n ExternRef

-- the place of a value type leads back to it
type_at-type_number : (x : ValType) → <a href="../../types/FunctionTypeProofsSpecs/index.html#type_at">type_at</a> (<a href="../../types/FunctionTypeSpecs/index.html#type_number">type_number</a> x) ≡ x
type_at-type_number I32 = refl
type_at-type_number x = refl

-- the places of value types lead back to them
types_from_numbers : (xs : List ValType) → map <a href="../../types/FunctionTypeProofsSpecs/index.html#type_at">type_at</a> (map <a href="../../types/FunctionTypeSpecs/index.html#type_number">type_number</a> xs) ≡ xs
types_from_numbers [] = refl
types_from_numbers (x ∷ xs) = λ i. type_at-type_number x i ∷ types_from_numbers xs i

-- two order keys that are the same have the same number of parameters and the same entries
same_key : (v w : Bool) (m n m&#x27; n&#x27; : ℕ) (xs ys : List ℕ)
    → (if v then 0 ∷ m ∷ n ∷ xs else 1 ∷ m ∷ xs) ≡ (if w then 0 ∷ m&#x27; ∷ n&#x27; ∷ ys else 1 ∷ m&#x27; ∷ ys) → (m ≡ m&#x27;) × (xs ≡ ys)
same_key true true m n m&#x27; n&#x27; xs ys e = (ap (λ l. slice_index l 1) e, ap (drop 3) e)
same_key false false m n m&#x27; n&#x27; xs ys e = (ap (λ l. slice_index l 1) e, ap (drop 2) e)
same_key v w m n m&#x27; n&#x27; xs ys e = absurd (cc e)

-- one order key, one function type
pub <b id="order_key-one">order_key-one</b> : (a b : <a href="../../types/FunctionTypeSpecs/index.html#FunctionType">FunctionType</a>) → <a href="../../types/FunctionTypeSpecs/index.html#order_key">order_key</a> a ≡ <a href="../../types/FunctionTypeSpecs/index.html#order_key">order_key</a> b → a ≡ b
<a href="../../types/FunctionTypeProofsSpecs/index.html#order_key-one">order_key-one</a> a b e =
    let parts = same_key (nat_le (<a href="../../types/FunctionTypeSpecs/index.html#entry_count">entry_count</a> a) 21) (nat_le (<a href="../../types/FunctionTypeSpecs/index.html#entry_count">entry_count</a> b) 21) (length a.params) (length a.results)
    (length b.params) (length b.results) _ _ e in
    let joined : <a href="../../types/FunctionTypeSpecs/index.html#entries">entries</a> a ≡ <a href="../../types/FunctionTypeSpecs/index.html#entries">entries</a> b =
    sym (types_from_numbers (<a href="../../types/FunctionTypeSpecs/index.html#entries">entries</a> a)) ∙ ap (map <a href="../../types/FunctionTypeProofsSpecs/index.html#type_at">type_at</a>) parts.1 ∙ types_from_numbers (<a href="../../types/FunctionTypeSpecs/index.html#entries">entries</a> b) in
    let params : a.params ≡ b.params =
    rw (← take-append_seam a.params a.results, parts.0, joined) (take-append_seam b.params b.results) in
    let results : a.results ≡ b.results =
    rw (← drop-append_seam a.params a.results, parts.0, joined) (drop-append_seam b.params b.results) in
    λ i. record { params = params i; results = results i }

module _ {E : ValType → ValType → Bool} (decides : (x y : ValType) → Decides (E x y) (x ≡ y)) where
  -- the test of both lists decides whether two function types are the same
  pub <b id="same_lists_decides">same_lists_decides</b> : (a b : <a href="../../types/FunctionTypeSpecs/index.html#FunctionType">FunctionType</a>) → Decides (<a href="../../types/FunctionTypeSpecs/index.html#same_lists">same_lists</a> E a b) (a ≡ b)
  <a href="../../types/FunctionTypeProofsSpecs/index.html#same_lists_decides">same_lists_decides</a> a b = (
    λ e. let p = (pointwise_decides decides a.params b.params).0 (first_so _ _ e) in
        let r = (pointwise_decides decides a.results b.results).0 (second_so _ _ e) in
        λ i. record { params = p i; results = r i },
    λ e. let p = (pointwise_decides decides a.params b.params).1 (ap (λ ty. ty.params) e) in
        let r = (pointwise_decides decides a.results b.results).1 (ap (λ ty. ty.results) e) in
        λ i. p i &amp;&amp; r i,
  )

  -- the test of both lists answers as the order does
  pub <b id="same_lists_by_cmp">same_lists_by_cmp</b> : (a b : <a href="../../types/FunctionTypeSpecs/index.html#FunctionType">FunctionType</a>) → <a href="../../types/FunctionTypeSpecs/index.html#same_lists">same_lists</a> E a b ≡ eq_by_cmp <a href="../../types/FunctionTypeSpecs/index.html#function_type_cmp">function_type_cmp</a> a b
  <a href="../../types/FunctionTypeProofsSpecs/index.html#same_lists_by_cmp">same_lists_by_cmp</a> a b =
      let keys = bytes_decides (<a href="../../types/FunctionTypeSpecs/index.html#order_key">order_key</a> a) (<a href="../../types/FunctionTypeSpecs/index.html#order_key">order_key</a> b) in
      one_answer _ _ (<a href="../../types/FunctionTypeProofsSpecs/index.html#same_lists_decides">same_lists_decides</a> a b) (λ e. <a href="../../types/FunctionTypeProofsSpecs/index.html#order_key-one">order_key-one</a> a b (keys.0 e), λ e. keys.1 (ap <a href="../../types/FunctionTypeSpecs/index.html#order_key">order_key</a> e))
      ∙ lists_ties nat_cmp unsigned_ties (<a href="../../types/FunctionTypeSpecs/index.html#order_key">order_key</a> a) (<a href="../../types/FunctionTypeSpecs/index.html#order_key">order_key</a> b)

  -- the test of both lists is an equivalence
  pub <b id="same_lists_equiv">same_lists_equiv</b> : IsEquivalence (<a href="../../types/FunctionTypeSpecs/index.html#same_lists">same_lists</a> E)
  <a href="../../types/FunctionTypeProofsSpecs/index.html#same_lists_equiv">same_lists_equiv</a> = decided (<a href="../../types/FunctionTypeSpecs/index.html#same_lists">same_lists</a> E) <a href="../../types/FunctionTypeProofsSpecs/index.html#same_lists_decides">same_lists_decides</a>

-- the derived `==` decides whether two value types, the entries of function types, are the same
pub <b id="same_type_decides">same_type_decides</b> : (x y : ValType) → Decides (sameb the_type x y) (x ≡ y)
<a href="../../types/FunctionTypeProofsSpecs/index.html#same_type_decides">same_type_decides</a> x y = (same_true the_type tt x y, true_same the_type x y)
</code></pre>
"####]
    pub mod FunctionTypeProofsSpecs {}
    #[doc = r####"Numbers cut to a width of w bits, and numbers in bytes, the lowest byte first.

<pre><code>use Rattle.std.specs.Prelude.{ℕ, ◌^◌, ℤ, pos, unsigned_abs, ◌+◌, ◌*◌, List, [], ◌∷◌}
use Rattle.std.specs.Int.{int_rem_euclid, bytes_low_first}
pub use mir.Val.{bits}
-- the widths of 8 to 64 bits; a number below 2 ^ w, less 2 ^ w where it is 2 ^ (w - 1) or more; the nearest number of a
-- signed or unsigned width
pub use Rattle.std.specs.Int.{Width, w8, w16, w32, w64, cast_signed as signed, saturate_signed as clamp_signed, saturate_unsigned as clamp_unsigned}

-- the number below 2 ^ w that differs from z by a multiple of 2 ^ w
abbrev pub <b id="wrap">wrap</b> : Width → ℤ → ℕ
<a href="../../types/NumbersSpecs/index.html#wrap">wrap</a> w z = unsigned_abs (int_rem_euclid z (pos (2 ^ bits w)))

-- the number of a list of bytes: the sum of byte i times 256 to the power i
unfoldable pub <b id="number_of">number_of</b> : List ℕ → ℕ
<a href="../../types/NumbersSpecs/index.html#number_of">number_of</a> [] = 0
<a href="../../types/NumbersSpecs/index.html#number_of">number_of</a> (b ∷ bs) = b + 256 * <a href="../../types/NumbersSpecs/index.html#number_of">number_of</a> bs

-- the k bytes of a number below 256 to the power k
abbrev pub <b id="le_bytes">le_bytes</b> : ℕ → ℕ → List ℕ
<a href="../../types/NumbersSpecs/index.html#le_bytes">le_bytes</a> k n = bytes_low_first 0 k n
</code></pre>
"####]
    pub mod NumbersSpecs {}
    #[doc = r####"How a function type is read of two iterators, each to its end or past the greatest number of items that are taken; why none is read: there are too many, or memory is refused.

<pre><code>use Rattle.std.specs.Prelude.{◌≡◌, ℕ, ◌≤◌, List, length, Option, Some, None, ◌⊎◌, ◌+◌, ◌&lt;◌, Bool, true, false, [], ◌∷◌, ◌++◌, Result, Ok, Err}
use Rattle.std.specs.Iterator.{YieldsThen, Yields}
use Rattle.std.specs.declared.alloc.AllocError.{AllocError}
use Rattle.wasmi_types.specs.declared.{value.ValType.ValType, func_type.FuncTypeError.FuncTypeError}
use Rattle.wasmi_types.specs.declared.func_type.FuncTypeError.TheVariants.{TooManyFunctionParams, TooManyFunctionResults, OutOfMemory}
use Rattle.wasmi_types.specs.FunctionType.{<a href="../../types/FunctionTypeSpecs/index.html#FunctionType">FunctionType</a>}

-- a fact holds of every iterator that a value becomes
abbrev pub <b id="EachBecomes">EachBecomes</b> : {X I : Type 0} → (X → I → Type 0) → X → (I → Type 0) → Type 0
<a href="../../types/ReadingSpecs/index.html#EachBecomes">EachBecomes</a> {X} {I} becomes x Fact = (it : I) → becomes x it → Fact it

-- calls from s to t gave the items xs, at most so many, and then the end
pub record <b id="ReadsAll">ReadsAll</b> {I A : Type 0} (most : ℕ) (steps : I → Option A → I → Type 0) (s : I) (xs : List A) (t : I) : Type 0
  where
    pub <b id="run">run</b> : YieldsThen steps s xs None t
    pub <b id="short">short</b> : length xs ≤ most

-- calls from s to t gave so many items and one more
pub record <b id="ReadsTooMany">ReadsTooMany</b> {I A : Type 0} (most : ℕ) (steps : I → Option A → I → Type 0) (s t : I) : Type 0 where
  pub <b id="items">items</b> : List A
  pub <b id="last">last</b> : A
  pub <b id="run">run</b> : YieldsThen steps s <a href="../../types/ReadingSpecs/index.html#items">items</a> (Some <a href="../../types/ReadingSpecs/index.html#last">last</a>) t
  pub <b id="full">full</b> : length <a href="../../types/ReadingSpecs/index.html#items">items</a> ≡ most

module _ {I : Type 0} (steps : I → Option ValType → I → Type 0) where
  -- a fact that holds once calls from s gave all types, and then the end
  abbrev pub <b id="AfterAll">AfterAll</b> : I → Type 0 → Type 0
  <a href="../../types/ReadingSpecs/index.html#AfterAll">AfterAll</a> s Fact = (<a href="../../types/ReadingSpecs/index.html#types">types</a> : List ValType) (t : I) → <a href="../../types/ReadingSpecs/index.html#ReadsAll">ReadsAll</a> 1000 steps s <a href="../../types/ReadingSpecs/index.html#types">types</a> t → Fact

  -- calls from s to t gave the types xs, at most 1,000, and then perhaps the end
  pub record <b id="ReadsSome">ReadsSome</b> (s : I) (xs : List ValType) (t : I) : Type 0 where
    pub <b id="run">run</b> : Yields steps s xs t ⊎ YieldsThen steps s xs None t
    pub <b id="short">short</b> : length xs ≤ 1000

  -- a call from s to t gave a type that was appended, or was refused memory after 21, or gave the end
  abbrev pub <b id="ReadsNextType">ReadsNextType</b> : (I → Type 0) → I → List ValType → Result Bool AllocError → I → List ValType → Type 0
  <a href="../../types/ReadingSpecs/index.html#ReadsNextType">ReadsNextType</a> can s before (Ok true) t after = (x : ValType) × steps s (Some x) t × (after ≡ before ++ x ∷ []) × can t
  <a href="../../types/ReadingSpecs/index.html#ReadsNextType">ReadsNextType</a> can s before (Ok false) t after = steps s None t × (after ≡ before)
  <a href="../../types/ReadingSpecs/index.html#ReadsNextType">ReadsNextType</a> can s before (Err error) t after = (x : ValType) × steps s (Some x) t × (21 ≤ length before)

  -- calls from s to t gave so many types, at most 1,000, and then the end; they follow those before
  pub record <b id="ReadsTypes">ReadsTypes</b> (s : I) (before : List ValType) (count : ℕ) (t : I) (after : List ValType) : Type 0 where
    pub <b id="types">types</b> : List ValType
    pub <b id="read">read</b> : <a href="../../types/ReadingSpecs/index.html#ReadsAll">ReadsAll</a> 1000 steps s <a href="../../types/ReadingSpecs/index.html#types">types</a> t
    pub <b id="kept">kept</b> : after ≡ before ++ <a href="../../types/ReadingSpecs/index.html#types">types</a>
    pub <b id="counted">counted</b> : count ≡ length <a href="../../types/ReadingSpecs/index.html#types">types</a>

  -- memory was refused for types that follow those before
  pub record <b id="IsReadingOutOfMemory">IsReadingOutOfMemory</b> (s : I) (before : List ValType) (t : I) : Type 0 where
    pub <b id="types">types</b> : List ValType
    pub <b id="read">read</b> : <a href="../../types/ReadingSpecs/index.html#ReadsSome">ReadsSome</a> s <a href="../../types/ReadingSpecs/index.html#types">types</a> t
    pub <b id="many">many</b> : 21 &lt; length before + length <a href="../../types/ReadingSpecs/index.html#types">types</a>

  -- why the parameters or the results were not read
  abbrev pub <b id="IsReadingRefusal">IsReadingRefusal</b> : FuncTypeError → I → List ValType → FuncTypeError → I → Type 0
  <a href="../../types/ReadingSpecs/index.html#IsReadingRefusal">IsReadingRefusal</a> too_many s before error t =
      ((error ≡ too_many) × <a href="../../types/ReadingSpecs/index.html#ReadsTooMany">ReadsTooMany</a> 1000 steps s t) ⊎ ((error ≡ OutOfMemory) × <a href="../../types/ReadingSpecs/index.html#IsReadingOutOfMemory">IsReadingOutOfMemory</a> s before t)

module _ {P R : Type 0} (of_params : P → Option ValType → P → Type 0)
    (of_results : R → Option ValType → R → Type 0) where
  -- memory was refused: the parameters from p to p&#x27; and then the results from r to r&#x27; were more than 21 together
  pub record <b id="IsOutOfMemory">IsOutOfMemory</b> (p : P) (r : R) (p&#x27; : P) (r&#x27; : R) : Type 0 where
    pub <b id="params">params</b> : List ValType
    pub <b id="results">results</b> : List ValType
    pub <b id="params_read">params_read</b> : <a href="../../types/ReadingSpecs/index.html#ReadsSome">ReadsSome</a> of_params p <a href="../../types/ReadingSpecs/index.html#params">params</a> p&#x27;
    pub <b id="results_read">results_read</b> : <a href="../../types/ReadingSpecs/index.html#ReadsSome">ReadsSome</a> of_results r <a href="../../types/ReadingSpecs/index.html#results">results</a> r&#x27;
    pub <b id="in_order">in_order</b> : <a href="../../types/ReadingSpecs/index.html#ReadsAll">ReadsAll</a> 1000 of_params p <a href="../../types/ReadingSpecs/index.html#params">params</a> p&#x27; ⊎ (r&#x27; ≡ r)
    pub <b id="many">many</b> : 21 &lt; length <a href="../../types/ReadingSpecs/index.html#params">params</a> + length <a href="../../types/ReadingSpecs/index.html#results">results</a>

  -- why no function type was read
  abbrev pub <b id="IsRefusal">IsRefusal</b> : P → R → FuncTypeError → P → R → Type 0
  <a href="../../types/ReadingSpecs/index.html#IsRefusal">IsRefusal</a> p r TooManyFunctionParams p&#x27; r&#x27; = <a href="../../types/ReadingSpecs/index.html#ReadsTooMany">ReadsTooMany</a> 1000 of_params p p&#x27; × (r&#x27; ≡ r)
  <a href="../../types/ReadingSpecs/index.html#IsRefusal">IsRefusal</a> p r TooManyFunctionResults p&#x27; r&#x27; =
      ((<a href="../../types/ReadingSpecs/index.html#params">params</a> : List ValType) × <a href="../../types/ReadingSpecs/index.html#ReadsAll">ReadsAll</a> 1000 of_params p <a href="../../types/ReadingSpecs/index.html#params">params</a> p&#x27;) × <a href="../../types/ReadingSpecs/index.html#ReadsTooMany">ReadsTooMany</a> 1000 of_results r r&#x27;
  <a href="../../types/ReadingSpecs/index.html#IsRefusal">IsRefusal</a> p r OutOfMemory p&#x27; r&#x27; = <a href="../../types/ReadingSpecs/index.html#IsOutOfMemory">IsOutOfMemory</a> p r p&#x27; r&#x27;

  -- the answer after calls from p to p&#x27; and from r to r&#x27;: the function type of all that came, or the refusal
  abbrev pub <b id="IsReading">IsReading</b> : P → R → Result <a href="../../types/FunctionTypeSpecs/index.html#FunctionType">FunctionType</a> FuncTypeError → P → R → Type 0
  <a href="../../types/ReadingSpecs/index.html#IsReading">IsReading</a> p r (Ok ty) p&#x27; r&#x27; = <a href="../../types/ReadingSpecs/index.html#ReadsAll">ReadsAll</a> 1000 of_params p ty.params p&#x27; × <a href="../../types/ReadingSpecs/index.html#ReadsAll">ReadsAll</a> 1000 of_results r ty.results r&#x27;
  <a href="../../types/ReadingSpecs/index.html#IsReading">IsReading</a> p r (Err error) p&#x27; r&#x27; = <a href="../../types/ReadingSpecs/index.html#IsRefusal">IsRefusal</a> p r error p&#x27; r&#x27;

-- the answer after reading the iterators that x and y become
pub record <b id="IsReadingOf">IsReadingOf</b> {X Y P R : Type 0} (params_becomes : X → P → Type 0)
    (of_params : P → Option ValType → P → Type 0)
    (results_becomes : Y → R → Type 0) (of_results : R → Option ValType → R → Type 0) (x : X) (y : Y)
    (answer : Result <a href="../../types/FunctionTypeSpecs/index.html#FunctionType">FunctionType</a> FuncTypeError) : Type 0 where
  pub <b id="params_before">params_before</b> : P
  pub <b id="params_after">params_after</b> : P
  pub <b id="results_before">results_before</b> : R
  pub <b id="results_after">results_after</b> : R
  pub <b id="params_made">params_made</b> : params_becomes x <a href="../../types/ReadingSpecs/index.html#params_before">params_before</a>
  pub <b id="results_made">results_made</b> : results_becomes y <a href="../../types/ReadingSpecs/index.html#results_before">results_before</a>
  pub <b id="reads">reads</b> : <a href="../../types/ReadingSpecs/index.html#IsReading">IsReading</a> of_params of_results <a href="../../types/ReadingSpecs/index.html#params_before">params_before</a> <a href="../../types/ReadingSpecs/index.html#results_before">results_before</a> answer <a href="../../types/ReadingSpecs/index.html#params_after">params_after</a> <a href="../../types/ReadingSpecs/index.html#results_after">results_after</a>
</code></pre>
"####]
    pub mod ReadingSpecs {}
    #[doc = r####"The number and the text of each trap code; what the reason of a trap carries, and its text.

<pre><code>use Rattle.std.specs.Prelude.{◌≡◌, ℕ, ◌&lt;◌, ◌⊎◌, List, Result, Ok, IsErr, codes, ◌++◌, Option, Some, None, ℤ, string_bytes}
use Rattle.wasmi_types.specs.declared.{trap.TrapCode.TrapCode, trap.InvalidTrapCode.InvalidTrapCode, trap.TrapReason.TrapReason}
use Rattle.wasmi_types.specs.declared.trap.TrapCode.TheVariants.{UnreachableCodeReached, MemoryOutOfBounds, TableOutOfBounds, IndirectCallToNull, IntegerDivisionByZero, IntegerOverflow, BadConversionToInteger, StackOverflow, BadSignature, OutOfFuel, GrowthOperationLimited, OutOfSystemMemory}
use Rattle.std.specs.Fmt.{signed_decimal}
use Rattle.wasmi_types.specs.declared.trap.TrapReason.TheVariants.{InstructionTrap, I32Exit, Message, Host}

-- the row of a trap code: the number that stands for it, and its text
abbrev pub <b id="code_row">code_row</b> : TrapCode → ℕ × List ℕ
<a href="../../types/TrapSpecs/index.html#code_row">code_row</a> UnreachableCodeReached = (1, codes "wasm `unreachable` instruction executed")
<a href="../../types/TrapSpecs/index.html#code_row">code_row</a> MemoryOutOfBounds = (2, codes "out of bounds memory access")
<a href="../../types/TrapSpecs/index.html#code_row">code_row</a> TableOutOfBounds = (3, codes "undefined element: out of bounds table access")
<a href="../../types/TrapSpecs/index.html#code_row">code_row</a> IndirectCallToNull = (4, codes "uninitialized element 2")
<a href="../../types/TrapSpecs/index.html#code_row">code_row</a> IntegerDivisionByZero = (5, codes "integer divide by zero")
<a href="../../types/TrapSpecs/index.html#code_row">code_row</a> IntegerOverflow = (6, codes "integer overflow")
<a href="../../types/TrapSpecs/index.html#code_row">code_row</a> BadConversionToInteger = (7, codes "invalid conversion to integer")
<a href="../../types/TrapSpecs/index.html#code_row">code_row</a> StackOverflow = (8, codes "call stack exhausted")
<a href="../../types/TrapSpecs/index.html#code_row">code_row</a> BadSignature = (9, codes "indirect call type mismatch")
<a href="../../types/TrapSpecs/index.html#code_row">code_row</a> OutOfFuel = (10, codes "all fuel consumed by WebAssembly")
<a href="../../types/TrapSpecs/index.html#code_row">code_row</a> GrowthOperationLimited = (11, codes "growth operation limited")
<a href="../../types/TrapSpecs/index.html#code_row">code_row</a> OutOfSystemMemory = (12, codes "out of system memory")

-- the number that stands for a trap code
abbrev pub <b id="code_number">code_number</b> : TrapCode → ℕ
<a href="../../types/TrapSpecs/index.html#code_number">code_number</a> code = (<a href="../../types/TrapSpecs/index.html#code_row">code_row</a> code).0

-- the text of a trap code
abbrev pub <b id="code_message">code_message</b> : TrapCode → List ℕ
<a href="../../types/TrapSpecs/index.html#code_message">code_message</a> code = (<a href="../../types/TrapSpecs/index.html#code_row">code_row</a> code).1

-- the answer is the trap code with this number, or the error where no trap code has it
pub record <b id="IsCodeOf">IsCodeOf</b> (number : ℕ) (answer : Result TrapCode InvalidTrapCode) : Type 0 where
  pub <b id="known">known</b> : (code : TrapCode) → number ≡ <a href="../../types/TrapSpecs/index.html#code_number">code_number</a> code → answer ≡ Ok code
  pub <b id="unknown">unknown</b> : (number ≡ 0) ⊎ (12 &lt; number) → IsErr answer

-- the trap code of a reason, if it is one
abbrev pub <b id="code_of">code_of</b> : {H : Type 0} → TrapReason H → Option TrapCode
<a href="../../types/TrapSpecs/index.html#code_of">code_of</a> (InstructionTrap code) = Some code
<a href="../../types/TrapSpecs/index.html#code_of">code_of</a> _ = None

-- the exit status of a reason, if it is one
abbrev pub <b id="exit_status_of">exit_status_of</b> : {H : Type 0} → TrapReason H → Option ℤ
<a href="../../types/TrapSpecs/index.html#exit_status_of">exit_status_of</a> (I32Exit status) = Some status
<a href="../../types/TrapSpecs/index.html#exit_status_of">exit_status_of</a> _ = None

-- the host&#x27;s error of a reason, if it is one
abbrev pub <b id="host_error_of">host_error_of</b> : {H : Type 0} → TrapReason H → Option H
<a href="../../types/TrapSpecs/index.html#host_error_of">host_error_of</a> (Host error) = Some error
<a href="../../types/TrapSpecs/index.html#host_error_of">host_error_of</a> _ = None

-- the reason with another error of the host, if it carries one
abbrev pub <b id="with_host_error">with_host_error</b> : {H : Type 0} → TrapReason H → H → TrapReason H
<a href="../../types/TrapSpecs/index.html#with_host_error">with_host_error</a> (Host error) other = Host other
<a href="../../types/TrapSpecs/index.html#with_host_error">with_host_error</a> reason other = reason

-- the text of a reason, where `host_text` is that of the host&#x27;s error
abbrev pub <b id="text_of">text_of</b> : {H : Type 0} → (H → Option (List ℕ)) → TrapReason H → Option (List ℕ)
<a href="../../types/TrapSpecs/index.html#text_of">text_of</a> host_text (InstructionTrap code) = Some (<a href="../../types/TrapSpecs/index.html#code_message">code_message</a> code)
<a href="../../types/TrapSpecs/index.html#text_of">text_of</a> host_text (I32Exit status) = Some (codes "Exited with i32 exit status " ++ signed_decimal status)
<a href="../../types/TrapSpecs/index.html#text_of">text_of</a> host_text (Message message) = Some (string_bytes message)
<a href="../../types/TrapSpecs/index.html#text_of">text_of</a> host_text (Host error) = host_text error
</code></pre>
"####]
    pub mod TrapSpecs {}
    #[doc = r####"Value types: which are number types and which are reference types. Address types: their value types and their widths.

<pre><code>use Rattle.std.specs.Prelude.{Bool, true, false, Option, Some, None, ℕ}
use Rattle.wasmi_types.specs.declared.{value.ValType.ValType, value.RefType.RefType, index_ty.IndexType.IndexType}
use Rattle.wasmi_types.specs.declared.value.ValType.TheVariants.{I32, I64, F32, F64, FuncRef, ExternRef}
use Rattle.wasmi_types.specs.declared.value.RefType.TheVariants.{Func, Extern}
use Rattle.wasmi_types.specs.declared.index_ty.IndexType.TheVariants as index
use Rattle.wasmi_types.specs.declared.value.ValType.TheVariants as types

-- whether a value type is a number type
abbrev pub <b id="is_number_type">is_number_type</b> : ValType → Bool
<a href="../../types/ValueSpecs/index.html#is_number_type">is_number_type</a> = elim [ I32 ↦ true | I64 ↦ true | F32 ↦ true | F64 ↦ true | _ ↦ false ]

-- the reference type of a value type, if it is one
abbrev pub <b id="reference_of">reference_of</b> : ValType → Option RefType
<a href="../../types/ValueSpecs/index.html#reference_of">reference_of</a> FuncRef = Some Func
<a href="../../types/ValueSpecs/index.html#reference_of">reference_of</a> ExternRef = Some Extern
<a href="../../types/ValueSpecs/index.html#reference_of">reference_of</a> _ = None

-- the value type of a reference type
abbrev pub <b id="value_of">value_of</b> : RefType → ValType
<a href="../../types/ValueSpecs/index.html#value_of">value_of</a> Func = FuncRef
<a href="../../types/ValueSpecs/index.html#value_of">value_of</a> Extern = ExternRef

-- the value type of an address
abbrev pub <b id="address_type">address_type</b> : IndexType → ValType
<a href="../../types/ValueSpecs/index.html#address_type">address_type</a> index.I32 = types.I32
<a href="../../types/ValueSpecs/index.html#address_type">address_type</a> index.I64 = types.I64

-- how many bits an address has
abbrev pub <b id="address_bits">address_bits</b> : IndexType → ℕ
<a href="../../types/ValueSpecs/index.html#address_bits">address_bits</a> index.I32 = 32
<a href="../../types/ValueSpecs/index.html#address_bits">address_bits</a> index.I64 = 64

-- of two address types the one with the narrower addresses
abbrev pub <b id="narrower">narrower</b> : IndexType → IndexType → IndexType
<a href="../../types/ValueSpecs/index.html#narrower">narrower</a> index.I64 other = other
<a href="../../types/ValueSpecs/index.html#narrower">narrower</a> index.I32 _ = index.I32
</code></pre>
"####]
    pub mod ValueSpecs {}
}
/// Definitions of `wasmi_raw`.
pub mod raw {
    #[doc = r####"The numbers of an integer type of w bits, which is signed or not.

<pre><code>use Rattle.std.specs.Prelude.{◌≡◌, ℕ, ℤ, pos, Bool, true, false, FitsSigned}
use Rattle.std.specs.Int.{Width, cast_signed, FitsUnsignedBits}
use mir.Val.{bits}

-- z is a number of the type
abbrev pub <b id="IsInRange">IsInRange</b> : Bool → Width → ℤ → Type 0
<a href="../../raw/NumberSpecs/index.html#IsInRange">IsInRange</a> true w z = FitsSigned w z
<a href="../../raw/NumberSpecs/index.html#IsInRange">IsInRange</a> false w z = FitsUnsignedBits (bits w) z

-- the number of the type whose bits are those of n, which is below 2 ^ w
abbrev pub <b id="number_of_bits">number_of_bits</b> : Bool → Width → ℕ → ℤ
<a href="../../raw/NumberSpecs/index.html#number_of_bits">number_of_bits</a> true w n = cast_signed w n
<a href="../../raw/NumberSpecs/index.html#number_of_bits">number_of_bits</a> false w n = pos n

-- a type&#x27;s values and their numbers: `number` gives that of a value, `of_number` the value of a number of the type
pub record <b id="AreNumbers">AreNumbers</b> {Value : Type 0} (<a href="../../raw/NumberSpecs/index.html#is_signed">is_signed</a> : Bool) (<a href="../../raw/NumberSpecs/index.html#width">width</a> : Width) (<a href="../../raw/NumberSpecs/index.html#number">number</a> : Value → ℤ)
    (<a href="../../raw/NumberSpecs/index.html#of_number">of_number</a> : ℤ → Value) : Type 0 where
  pub <b id="of_its_number">of_its_number</b> : (value : Value) → <a href="../../raw/NumberSpecs/index.html#of_number">of_number</a> (<a href="../../raw/NumberSpecs/index.html#number">number</a> value) ≡ value
  pub <b id="of_its_value">of_its_value</b> : (z : ℤ) → <a href="../../raw/NumberSpecs/index.html#IsInRange">IsInRange</a> <a href="../../raw/NumberSpecs/index.html#is_signed">is_signed</a> <a href="../../raw/NumberSpecs/index.html#width">width</a> z → <a href="../../raw/NumberSpecs/index.html#number">number</a> (<a href="../../raw/NumberSpecs/index.html#of_number">of_number</a> z) ≡ z

-- an integer type: its sign, its width, and the numbers of its values
pub record <b id="NumberType">NumberType</b> (Value : Type 0) : Type 0 where
  pub <b id="is_signed">is_signed</b> : Bool
  pub <b id="width">width</b> : Width
  pub <b id="number">number</b> : Value → ℤ
  pub <b id="of_number">of_number</b> : ℤ → Value
  pub <b id="laws">laws</b> : <a href="../../raw/NumberSpecs/index.html#AreNumbers">AreNumbers</a> <a href="../../raw/NumberSpecs/index.html#is_signed">is_signed</a> <a href="../../raw/NumberSpecs/index.html#width">width</a> <a href="../../raw/NumberSpecs/index.html#number">number</a> <a href="../../raw/NumberSpecs/index.html#of_number">of_number</a>
</code></pre>
"####]
    pub mod NumberSpecs {}
    #[doc = r####"The signed and the unsigned integer type of each width, whose values are those of their numbers.

<pre><code>use Rattle.std.specs.Prelude.{◌≡◌, ℕ, ℤ, pos, negsuc, true, false, unsigned_abs, refl}
use Rattle.std.specs.Int.{Width}
use Rattle.wasmi_raw.specs.Number.{<a href="../../raw/NumberSpecs/index.html#IsInRange">IsInRange</a>, <a href="../../raw/NumberSpecs/index.html#NumberType">NumberType</a>}

-- the signed type of a width, each of whose numbers is its own value
abbrev pub <b id="signed_type">signed_type</b> : Width → <a href="../../raw/NumberSpecs/index.html#NumberType">NumberType</a> ℤ
<a href="../../raw/NumberProofsSpecs/index.html#signed_type">signed_type</a> w = record {
  is_signed = true;
  width = w;
  number = λ value. value;
  of_number = λ number. number;
  laws = record { of_its_number = λ _. refl; of_its_value = λ _ _. refl };
}

-- a number of an unsigned type is not negative
pub <b id="unsigned_abs-is">unsigned_abs-is</b> : (w : Width) (z : ℤ) → <a href="../../raw/NumberSpecs/index.html#IsInRange">IsInRange</a> false w z → pos (unsigned_abs z) ≡ z
<a href="../../raw/NumberProofsSpecs/index.html#unsigned_abs-is">unsigned_abs-is</a> w (pos n) h = refl
<a href="../../raw/NumberProofsSpecs/index.html#unsigned_abs-is">unsigned_abs-is</a> w (negsuc n) h = absurd h

-- the unsigned type of a width, each of whose values is its number&#x27;s distance from 0
abbrev pub <b id="unsigned_type">unsigned_type</b> : Width → <a href="../../raw/NumberSpecs/index.html#NumberType">NumberType</a> ℕ
<a href="../../raw/NumberProofsSpecs/index.html#unsigned_type">unsigned_type</a> w = record {
  is_signed = false;
  width = w;
  number = pos;
  of_number = unsigned_abs;
  laws = record { of_its_number = λ _. refl; of_its_value = <a href="../../raw/NumberProofsSpecs/index.html#unsigned_abs-is">unsigned_abs-is</a> w };
}
</code></pre>
"####]
    pub mod NumberProofsSpecs {}
    #[doc = r####"What the two words of a raw value and of a vector mean, by type.

<pre><code>use Rattle.std.specs.Prelude.{ℕ, ◌+◌, ◌*◌, ◌^◌, ◌%◌, ◌/◌, ◌==◌, Bool, not, ℤ}
use Rattle.std.specs.Int.{Width, cast_signed}
use mir.Val.{bits}
use Rattle.wasmi_raw.specs.declared.raw.RawVal.{RawVal}

-- the vector whose words are low and high
abbrev pub <b id="vector_of">vector_of</b> : ℕ → ℕ → ℕ
<a href="../../raw/RawValSpecs/index.html#vector_of">vector_of</a> low high = high * 2 ^ 64 + low

-- the low word cut to a width
abbrev pub <b id="unsigned_in">unsigned_in</b> : Width → RawVal → ℕ
<a href="../../raw/RawValSpecs/index.html#unsigned_in">unsigned_in</a> w raw = raw.lo % 2 ^ bits w

-- the low bits of a raw value, as many as a width has, read signed
abbrev pub <b id="signed_in">signed_in</b> : Width → RawVal → ℤ
<a href="../../raw/RawValSpecs/index.html#signed_in">signed_in</a> w raw = cast_signed w (raw.lo % 2 ^ bits w)

-- whether the low word is not 0
abbrev pub <b id="bool_in">bool_in</b> : RawVal → Bool
<a href="../../raw/RawValSpecs/index.html#bool_in">bool_in</a> raw = not (raw.lo == 0)

-- the vector of both words
abbrev pub <b id="vector_in">vector_in</b> : RawVal → ℕ
<a href="../../raw/RawValSpecs/index.html#vector_in">vector_in</a> raw = <a href="../../raw/RawValSpecs/index.html#vector_of">vector_of</a> raw.lo raw.hi

-- the low word becomes n, and the high word is kept
abbrev pub <b id="with_low">with_low</b> : RawVal → ℕ → RawVal
<a href="../../raw/RawValSpecs/index.html#with_low">with_low</a> raw n = record raw { lo = n }

-- the low word is n, and the high word is 0
abbrev pub <b id="raw_of">raw_of</b> : ℕ → RawVal
<a href="../../raw/RawValSpecs/index.html#raw_of">raw_of</a> n = record { lo = n; hi = 0 }

-- the words of a vector
abbrev pub <b id="raw_of_vector">raw_of_vector</b> : ℕ → RawVal
<a href="../../raw/RawValSpecs/index.html#raw_of_vector">raw_of_vector</a> v = record { lo = v % 2 ^ 64; hi = v / 2 ^ 64 }
</code></pre>
"####]
    pub mod RawValSpecs {}
}
/// Definitions of `wasmi_typed`.
pub mod typed {
    #[doc = r####"Global variables: how one is set, what lends its value, and the texts of their errors.

<pre><code>use Rattle.std.specs.Prelude.{◌≡◌, ◌≢◌, Result, Ok, Err, ℕ, List, codes}
use Rattle.std.specs.Borrow.{Lends, MutBor, Fml}
use Rattle.wasmi_raw.specs.declared.raw.RawVal.{RawVal}
use Rattle.wasmi_raw.specs.contracts.raw.RawVal as raw
use Rattle.wasmi_typed.specs.declared.{typed.TypedRawVal.TypedRawVal, global.Global.Global, global.GlobalError.GlobalError}
use Rattle.wasmi_typed.specs.declared.global.GlobalError.TheVariants.{ImmutableWrite, TypeMismatch}
use Rattle.wasmi_typed.specs.declared.global.Mutability.TheVariants.{Const, Var}
use Rattle.wasmi_typed.specs.contracts.global.Global.{the_row}

-- a global variable: its present value and its type
abbrev pub <b id="GlobalInstance">GlobalInstance</b> : Type 0
<a href="../../typed/GlobalSpecs/index.html#GlobalInstance">GlobalInstance</a> = Global

-- the global variable with another value
abbrev pub <b id="with_value">with_value</b> : <a href="../../typed/GlobalSpecs/index.html#GlobalInstance">GlobalInstance</a> → RawVal → <a href="../../typed/GlobalSpecs/index.html#GlobalInstance">GlobalInstance</a>
<a href="../../typed/GlobalSpecs/index.html#with_value">with_value</a> global value = record global { value = value }

-- a global variable is set, unless it is a constant or the value is of another type, in this order
abbrev pub <b id="SetsGlobal">SetsGlobal</b> : <a href="../../typed/GlobalSpecs/index.html#GlobalInstance">GlobalInstance</a> → TypedRawVal → Result (Unit {0}) GlobalError → <a href="../../typed/GlobalSpecs/index.html#GlobalInstance">GlobalInstance</a> → Type 0
<a href="../../typed/GlobalSpecs/index.html#SetsGlobal">SetsGlobal</a> global value (Ok _) global&#x27; =
    (global.ty.mutability ≡ Var) × (global.ty.content ≡ value.ty) × (global&#x27; ≡ <a href="../../typed/GlobalSpecs/index.html#with_value">with_value</a> global value.raw)
<a href="../../typed/GlobalSpecs/index.html#SetsGlobal">SetsGlobal</a> global value (Err ImmutableWrite) global&#x27; = (global.ty.mutability ≡ Const) × (global&#x27; ≡ global)
<a href="../../typed/GlobalSpecs/index.html#SetsGlobal">SetsGlobal</a> global value (Err TypeMismatch) global&#x27; =
    (global.ty.mutability ≡ Var) × (global.ty.content ≢ value.ty) × (global&#x27; ≡ global)

-- the global variable ends with the last value behind r
abbrev pub <b id="LendsValue">LendsValue</b> : MutBor <a href="../../typed/GlobalSpecs/index.html#GlobalInstance">GlobalInstance</a> → MutBor RawVal → Fml
<a href="../../typed/GlobalSpecs/index.html#LendsValue">LendsValue</a> global r = Lends the_row raw.the_row global r (<a href="../../typed/GlobalSpecs/index.html#with_value">with_value</a> global.now)

-- the text of an error of a global variable
abbrev pub <b id="global_error_text">global_error_text</b> : GlobalError → List ℕ
<a href="../../typed/GlobalSpecs/index.html#global_error_text">global_error_text</a> ImmutableWrite = codes "tried to write to immutable global variable"
<a href="../../typed/GlobalSpecs/index.html#global_error_text">global_error_text</a> TypeMismatch = codes "tried to write value of non-matching type to global variable"
</code></pre>
"####]
    pub mod GlobalSpecs {}
    #[doc = r####"Which typed raw values are references, and the text of the error where one is none; the amounts of shifts.

<pre><code>use Rattle.std.specs.Prelude.{◌≡◌, Some, None, Result, Ok, Err, ℕ, List, codes, ℤ, pos, ◌==◌, Option, unsigned_abs, if◌then◌else◌}
use Rattle.std.specs.Int.{w32, int_rem_euclid}
use Rattle.wasmi_types.specs.Value.{<a href="../../types/ValueSpecs/index.html#reference_of">reference_of</a>}
use Rattle.wasmi_raw.specs.RawVal.{<a href="../../raw/RawValSpecs/index.html#unsigned_in">unsigned_in</a>}
use Rattle.wasmi_typed.specs.declared.{typed.TypedRawVal.TypedRawVal, typed_ref.TypedRawRef.TypedRawRef, typed_ref.NotAReference.NotAReference}

-- the answer is the reference that a typed raw value is, or the error where its type is none of references
abbrev pub <b id="IsReference">IsReference</b> : TypedRawVal → Result TypedRawRef NotAReference → Type 0
<a href="../../typed/TypedSpecs/index.html#IsReference">IsReference</a> typed (Ok reference) =
    (<a href="../../types/ValueSpecs/index.html#reference_of">reference_of</a> typed.ty ≡ Some reference.ty) × (reference.raw ≡ <a href="../../raw/RawValSpecs/index.html#unsigned_in">unsigned_in</a> w32 typed.raw)
<a href="../../typed/TypedSpecs/index.html#IsReference">IsReference</a> typed (Err error) = <a href="../../types/ValueSpecs/index.html#reference_of">reference_of</a> typed.ty ≡ None

-- the text of the error where a value is no reference
abbrev pub <b id="not_a_reference_text">not_a_reference_text</b> : List ℕ
<a href="../../typed/TypedSpecs/index.html#not_a_reference_text">not_a_reference_text</a> = codes "not a reference type"

-- the remainder of a number by a width in bits, 0 or more; none where that is 0
abbrev pub <b id="shift_amount">shift_amount</b> : ℕ → ℤ → Option ℕ
<a href="../../typed/TypedSpecs/index.html#shift_amount">shift_amount</a> width z =
    let amount = unsigned_abs (int_rem_euclid z (pos width))
    in if amount == 0 then None else Some amount
</code></pre>
"####]
    pub mod TypedSpecs {}
}
/// Definitions of `wasmi_access`.
pub mod accesses {
    #[doc = r####"Loads and stores of little-endian numbers in a linear memory, which is a list of bytes. An address is the unbounded sum of a pointer and an offset.

<pre><code>use Rattle.std.specs.Prelude.{◌≡◌, ℕ, ◌+◌, ◌^◌, nat_lt, if◌then◌else◌, List, take, drop, Option, Some, None, Result, Ok, Err, MatchResult}
use Rattle.wasmi_types.specs.declared.trap.TrapCode.{TrapCode}
use Rattle.wasmi_types.specs.declared.trap.TrapCode.TheVariants.{MemoryOutOfBounds}
use Rattle.wasmi_types.specs.Numbers.{<a href="../../types/NumbersSpecs/index.html#number_of">number_of</a>}
use Rattle.wasmi_types.specs.Access.{<a href="../../types/AccessSpecs/index.html#at">at</a>, <a href="../../types/AccessSpecs/index.html#overwrite">overwrite</a>}

-- an access at the address a, which is what is found there; none where a is 2 ^ 64 or more
abbrev pub <b id="accessed">accessed</b> : {X : Type 0} → ℕ → Option X → Option X
<a href="../../accesses/LoadStoreSpecs/index.html#accessed">accessed</a> a found = if nat_lt a (2 ^ 64) then found else None

-- the value that the number of the bytes stands for, or the trap where there are none
abbrev pub <b id="value_of_bytes">value_of_bytes</b> : {V : Type 0} → (ℕ → V) → Option (List ℕ) → Result V TrapCode
<a href="../../accesses/LoadStoreSpecs/index.html#value_of_bytes">value_of_bytes</a> value (Some bytes) = Ok (value (<a href="../../types/NumbersSpecs/index.html#number_of">number_of</a> bytes))
<a href="../../accesses/LoadStoreSpecs/index.html#value_of_bytes">value_of_bytes</a> value None = Err MemoryOutOfBounds

-- what a load of n bytes at a gives
abbrev pub <b id="loaded">loaded</b> : {V : Type 0} → ℕ → (ℕ → V) → List ℕ → ℕ → Result V TrapCode
<a href="../../accesses/LoadStoreSpecs/index.html#loaded">loaded</a> n value memory a = <a href="../../accesses/LoadStoreSpecs/index.html#value_of_bytes">value_of_bytes</a> value (<a href="../../accesses/LoadStoreSpecs/index.html#accessed">accessed</a> a (<a href="../../types/AccessSpecs/index.html#at">at</a> memory a n))

-- a load, or another instruction that may trap, gives this, where `number` reads its value
abbrev pub <b id="GivesNumber">GivesNumber</b> : {V N : Type 0} → (V → N) → Result V TrapCode → Result N TrapCode → Type 0
<a href="../../accesses/LoadStoreSpecs/index.html#GivesNumber">GivesNumber</a> number result expected =
    MatchResult result (λ value. expected ≡ Ok (number value)) (λ trap. expected ≡ Err trap)

-- a store of ys at a: the memory has them there, or the store traps and the memory is the same
abbrev pub <b id="IsStore">IsStore</b> : {V : Type 0} → List ℕ → ℕ → List ℕ → List ℕ → Result V TrapCode → Type 0
<a href="../../accesses/LoadStoreSpecs/index.html#IsStore">IsStore</a> old a ys new result = MatchResult result
    (λ _. <a href="../../accesses/LoadStoreSpecs/index.html#accessed">accessed</a> a (<a href="../../types/AccessSpecs/index.html#overwrite">overwrite</a> old a ys) ≡ Some new)
    (λ trap. (trap ≡ MemoryOutOfBounds) × (<a href="../../accesses/LoadStoreSpecs/index.html#accessed">accessed</a> a (<a href="../../types/AccessSpecs/index.html#overwrite">overwrite</a> old a ys) ≡ None) × (new ≡ old))

-- the n bytes into which a load copies the memory at a: they are those, or the load traps and they are the same
abbrev pub <b id="IsCopy">IsCopy</b> : List ℕ → ℕ → ℕ → List ℕ → List ℕ → Result (Unit {0}) TrapCode → Type 0
<a href="../../accesses/LoadStoreSpecs/index.html#IsCopy">IsCopy</a> memory a n old new result = MatchResult result (λ _. <a href="../../accesses/LoadStoreSpecs/index.html#accessed">accessed</a> a (<a href="../../types/AccessSpecs/index.html#at">at</a> memory a n) ≡ Some new)
    (λ trap. (trap ≡ MemoryOutOfBounds) × (<a href="../../accesses/LoadStoreSpecs/index.html#accessed">accessed</a> a (<a href="../../types/AccessSpecs/index.html#at">at</a> memory a n) ≡ None) × (new ≡ old))

-- after a store, the bytes before a and those from a + n on are the same
abbrev pub <b id="IsSameOutside">IsSameOutside</b> : List ℕ → List ℕ → ℕ → ℕ → Type 0
<a href="../../accesses/LoadStoreSpecs/index.html#IsSameOutside">IsSameOutside</a> old new a n = (take a new ≡ take a old) × (drop (a + n) new ≡ drop (a + n) old)
</code></pre>
"####]
    pub mod LoadStoreSpecs {}
}
/// Definitions of `wasmi_scalar`.
pub mod scalar {
    #[doc = r####"The integer operations of the WebAssembly core specification (section "Numerics"), over whole numbers. A number of a signed type is read signed, one of an unsigned type unsigned, and \`w\` is the width of the type, of \`bits w\` bits. std's words for the two readings: \`int\_wrap w z\` is the number of the signed type that differs from z by a multiple of 2 to the power \`bits w\` (the standard's \`wrap\` and \`extend\_s\`), \`cast\_unsigned w z\` the unsigned number with the bits of z, \`cast\_signed w n\` the signed number with the bits of n.

<pre><code>use Rattle.std.specs.Prelude.{ℕ, ◌+◌, ◌-◌, ◌*◌, ◌/◌, ◌%◌, ◌^◌, ℤ, pos, ◌+ℤ◌, ◌-ℤ◌, ◌*ℤ◌, int_div, int_rem, int_lt, int_le, nat_lt, nat_le, ◌==◌, not, Bool, bit_and, bit_or, bit_xor, count_ones, Result, Ok, Err, if◌then◌else◌}
use Rattle.std.specs.Int.{Width, cast_signed, cast_unsigned, int_wrap, int_shr, leading_zeros, trailing_zeros, w64}
use Rattle.std.specs.Ordering.{int_eq}
use mir.Val.{bits}
use Rattle.wasmi_types.specs.declared.trap.TrapCode.{TrapCode}
use Rattle.wasmi_types.specs.declared.trap.TrapCode.TheVariants.{IntegerDivisionByZero, IntegerOverflow}
-- an instruction gives this, where a function reads the number of its value
pub use Rattle.wasmi_access.specs.LoadStore.{<a href="../../accesses/LoadStoreSpecs/index.html#GivesNumber">GivesNumber</a>}

-- ---- sums and products

-- the sum, wrapped to the signed range
abbrev pub <b id="iadd">iadd</b> : Width → ℤ → ℤ → ℤ
<a href="../../scalar/NumericsSpecs/index.html#iadd">iadd</a> w x y = int_wrap w (x +ℤ y)

-- the difference, wrapped to the signed range
abbrev pub <b id="isub">isub</b> : Width → ℤ → ℤ → ℤ
<a href="../../scalar/NumericsSpecs/index.html#isub">isub</a> w x y = int_wrap w (x -ℤ y)

-- the product, wrapped to the signed range
abbrev pub <b id="imul">imul</b> : Width → ℤ → ℤ → ℤ
<a href="../../scalar/NumericsSpecs/index.html#imul">imul</a> w x y = int_wrap w (x *ℤ y)

-- ---- quotients towards zero, and their remainders

-- the quotient of two signed numbers, rounded towards zero, or a trap where the divisor is 0 or no signed number of the
-- width is the quotient: that of the least number by -1 is 2 to the power `bits w - 1`
abbrev pub <b id="idiv_s">idiv_s</b> : Width → ℤ → ℤ → Result ℤ TrapCode
<a href="../../scalar/NumericsSpecs/index.html#idiv_s">idiv_s</a> w x y =
    if int_eq y (pos 0) then Err IntegerDivisionByZero
    else if int_eq (int_div x y) (pos (2 ^ (bits w - 1))) then Err IntegerOverflow
    else Ok (int_div x y)

-- the quotient rounded down, or a trap where the divisor is 0
abbrev pub <b id="idiv_u">idiv_u</b> : ℕ → ℕ → Result ℕ TrapCode
<a href="../../scalar/NumericsSpecs/index.html#idiv_u">idiv_u</a> n d = if d == 0 then Err IntegerDivisionByZero else Ok (n / d)

-- the remainder of the quotient rounded towards zero, which has the sign of x, or a trap where the divisor is 0
abbrev pub <b id="irem_s">irem_s</b> : ℤ → ℤ → Result ℤ TrapCode
<a href="../../scalar/NumericsSpecs/index.html#irem_s">irem_s</a> x y = if int_eq y (pos 0) then Err IntegerDivisionByZero else Ok (int_rem x y)

-- the remainder of the quotient rounded down, or a trap where the divisor is 0
abbrev pub <b id="irem_u">irem_u</b> : ℕ → ℕ → Result ℕ TrapCode
<a href="../../scalar/NumericsSpecs/index.html#irem_u">irem_u</a> n d = if d == 0 then Err IntegerDivisionByZero else Ok (n % d)

-- ---- bits

-- the bits that are set in both
abbrev pub <b id="iand">iand</b> : Width → ℤ → ℤ → ℤ
<a href="../../scalar/NumericsSpecs/index.html#iand">iand</a> w x y = cast_signed w (bit_and (cast_unsigned w x) (cast_unsigned w y))

-- the bits that are set in one or both
abbrev pub <b id="ior">ior</b> : Width → ℤ → ℤ → ℤ
<a href="../../scalar/NumericsSpecs/index.html#ior">ior</a> w x y = cast_signed w (bit_or (cast_unsigned w x) (cast_unsigned w y))

-- the bits that are set in exactly one
abbrev pub <b id="ixor">ixor</b> : Width → ℤ → ℤ → ℤ
<a href="../../scalar/NumericsSpecs/index.html#ixor">ixor</a> w x y = cast_signed w (bit_xor (cast_unsigned w x) (cast_unsigned w y))

-- the amount of a shift or a rotation, modulo the width
abbrev pub <b id="amount_modulo">amount_modulo</b> : Width → ℤ → ℕ
<a href="../../scalar/NumericsSpecs/index.html#amount_modulo">amount_modulo</a> w y = cast_unsigned w y % bits w

-- the number shifted to the left by an amount modulo the width, wrapped
abbrev pub <b id="ishl">ishl</b> : Width → ℤ → ℤ → ℤ
<a href="../../scalar/NumericsSpecs/index.html#ishl">ishl</a> w x y = int_wrap w (x *ℤ pos (2 ^ <a href="../../scalar/NumericsSpecs/index.html#amount_modulo">amount_modulo</a> w y))

-- the quotient by 2 to the power of the amount, rounded down
abbrev pub <b id="ishr_s">ishr_s</b> : Width → ℤ → ℤ → ℤ
<a href="../../scalar/NumericsSpecs/index.html#ishr_s">ishr_s</a> w x y = int_shr x (<a href="../../scalar/NumericsSpecs/index.html#amount_modulo">amount_modulo</a> w y)

-- the number shifted to the right by an amount modulo the width, with zeros from above
abbrev pub <b id="ishr_u">ishr_u</b> : Width → ℕ → ℕ → ℕ
<a href="../../scalar/NumericsSpecs/index.html#ishr_u">ishr_u</a> w n k = n / 2 ^ (k % bits w)

-- n of b bits, rotated left by k of them: the low bits go up, the k highest come in below
abbrev pub <b id="rotated_left">rotated_left</b> : ℕ → ℕ → ℕ → ℕ
<a href="../../scalar/NumericsSpecs/index.html#rotated_left">rotated_left</a> b n k = n * 2 ^ k % 2 ^ b + n / 2 ^ (b - k)

-- the bits rotated to the left by an amount modulo the width
abbrev pub <b id="irotl">irotl</b> : Width → ℤ → ℤ → ℤ
<a href="../../scalar/NumericsSpecs/index.html#irotl">irotl</a> w x y = cast_signed w (<a href="../../scalar/NumericsSpecs/index.html#rotated_left">rotated_left</a> (bits w) (cast_unsigned w x) (<a href="../../scalar/NumericsSpecs/index.html#amount_modulo">amount_modulo</a> w y))

-- the bits rotated to the right by an amount modulo the width: to the left by the rest of the bits
abbrev pub <b id="irotr">irotr</b> : Width → ℤ → ℤ → ℤ
<a href="../../scalar/NumericsSpecs/index.html#irotr">irotr</a> w x y = cast_signed w (<a href="../../scalar/NumericsSpecs/index.html#rotated_left">rotated_left</a> (bits w) (cast_unsigned w x) (bits w - <a href="../../scalar/NumericsSpecs/index.html#amount_modulo">amount_modulo</a> w y))

-- ---- counts

-- how many zeros stand above the highest bit that is set; all bits for 0
abbrev pub <b id="iclz">iclz</b> : Width → ℤ → ℤ
<a href="../../scalar/NumericsSpecs/index.html#iclz">iclz</a> w x = pos (leading_zeros w (cast_unsigned w x))

-- how many zeros stand below the lowest bit that is set; all bits for 0
abbrev pub <b id="ictz">ictz</b> : Width → ℤ → ℤ
<a href="../../scalar/NumericsSpecs/index.html#ictz">ictz</a> w x = pos (trailing_zeros w (cast_unsigned w x))

-- how many bits are set
abbrev pub <b id="ipopcnt">ipopcnt</b> : Width → ℤ → ℤ
<a href="../../scalar/NumericsSpecs/index.html#ipopcnt">ipopcnt</a> w x = pos (count_ones (cast_unsigned w x))

-- ---- comparisons

-- whether the number is 0
abbrev pub <b id="ieqz">ieqz</b> : ℤ → Bool
<a href="../../scalar/NumericsSpecs/index.html#ieqz">ieqz</a> x = int_eq x (pos 0)

-- whether the numbers are equal
abbrev pub <b id="ieq">ieq</b> : ℤ → ℤ → Bool
<a href="../../scalar/NumericsSpecs/index.html#ieq">ieq</a> x y = int_eq x y

-- whether the numbers differ
abbrev pub <b id="ine">ine</b> : ℤ → ℤ → Bool
<a href="../../scalar/NumericsSpecs/index.html#ine">ine</a> x y = not (int_eq x y)

-- whether the first is less, both read signed
abbrev pub <b id="ilt_s">ilt_s</b> : ℤ → ℤ → Bool
<a href="../../scalar/NumericsSpecs/index.html#ilt_s">ilt_s</a> = int_lt

-- whether the first is less, both read unsigned
abbrev pub <b id="ilt_u">ilt_u</b> : ℕ → ℕ → Bool
<a href="../../scalar/NumericsSpecs/index.html#ilt_u">ilt_u</a> = nat_lt

-- whether the first is at most the second, both read signed
abbrev pub <b id="ile_s">ile_s</b> : ℤ → ℤ → Bool
<a href="../../scalar/NumericsSpecs/index.html#ile_s">ile_s</a> = int_le

-- whether the first is at most the second, both read unsigned
abbrev pub <b id="ile_u">ile_u</b> : ℕ → ℕ → Bool
<a href="../../scalar/NumericsSpecs/index.html#ile_u">ile_u</a> = nat_le

-- greater is less, and at least is at most, of the numbers exchanged
abbrev pub <b id="igt_s">igt_s</b> : ℤ → ℤ → Bool
<a href="../../scalar/NumericsSpecs/index.html#igt_s">igt_s</a> x y = <a href="../../scalar/NumericsSpecs/index.html#ilt_s">ilt_s</a> y x

-- whether the first is greater, both read unsigned
abbrev pub <b id="igt_u">igt_u</b> : ℕ → ℕ → Bool
<a href="../../scalar/NumericsSpecs/index.html#igt_u">igt_u</a> m n = <a href="../../scalar/NumericsSpecs/index.html#ilt_u">ilt_u</a> n m

-- whether the first is at least the second, both read signed
abbrev pub <b id="ige_s">ige_s</b> : ℤ → ℤ → Bool
<a href="../../scalar/NumericsSpecs/index.html#ige_s">ige_s</a> x y = <a href="../../scalar/NumericsSpecs/index.html#ile_s">ile_s</a> y x

-- whether the first is at least the second, both read unsigned
abbrev pub <b id="ige_u">ige_u</b> : ℕ → ℕ → Bool
<a href="../../scalar/NumericsSpecs/index.html#ige_u">ige_u</a> m n = <a href="../../scalar/NumericsSpecs/index.html#ile_u">ile_u</a> n m

-- ---- numbers of 128 bits, in two words (the wide-arithmetic proposal)

-- the number of a low and a high word, read unsigned
abbrev pub <b id="unsigned_of">unsigned_of</b> : ℤ → ℤ → ℕ
<a href="../../scalar/NumericsSpecs/index.html#unsigned_of">unsigned_of</a> lo hi = cast_unsigned w64 hi * 2 ^ 64 + cast_unsigned w64 lo

-- the number of two words of 64 bits, of which the high one is read signed
abbrev pub <b id="signed_of">signed_of</b> : ℤ → ℤ → ℤ
<a href="../../scalar/NumericsSpecs/index.html#signed_of">signed_of</a> lo hi = (hi *ℤ pos (2 ^ 64)) +ℤ pos (cast_unsigned w64 lo)

-- the sum modulo 2 to the power 128
abbrev pub <b id="add128">add128</b> : ℕ → ℕ → ℕ
<a href="../../scalar/NumericsSpecs/index.html#add128">add128</a> m n = (m + n) % 2 ^ 128

-- the difference modulo 2 to the power 128
abbrev pub <b id="sub128">sub128</b> : ℕ → ℕ → ℕ
<a href="../../scalar/NumericsSpecs/index.html#sub128">sub128</a> m n = (m + 2 ^ 128 - n) % 2 ^ 128
</code></pre>
"####]
    pub mod NumericsSpecs {}
}
/// Definitions of `wasmi_lanes`.
pub mod lanes {
    #[doc = r####"The signed and unsigned integers of a width are the items of lanes of the width.

<pre><code>use Rattle.std.specs.Prelude.{ℕ, pos, negsuc, ◌-◌, ◌^◌, ◌&lt;◌, ◌≡◌, refl, FitsSigned}
use Rattle.std.specs.Int.{cast_unsigned}
use Rattle.std.proofs.lemmas.Int.{of_z-to_z}
use Rattle.std.proofs.Math.Facts.{sfits_to_z}
use mir.Syntax.{w128}
use mir.Val.{Fits}
use Rattle.wasmi_types.specs.Numbers.{Width, w8, w16, w32, w64, bits, signed}
use Rattle.wasmi_lanes.specs.Vector.{<a href="../../lanes/VectorSpecs/index.html#ReadsLanes">ReadsLanes</a>, <a href="../../lanes/VectorSpecs/index.html#unsigned">unsigned</a>}

-- the unsigned integers of a width
pub <b id="unsigned_lanes">unsigned_lanes</b> : (w : Width) → <a href="../../lanes/VectorSpecs/index.html#ReadsLanes">ReadsLanes</a> w <a href="../../lanes/VectorSpecs/index.html#unsigned">unsigned</a> (λ item. item) (λ item. item &lt; 2 ^ bits w) (2 ^ bits w - 1) 0
<a href="../../lanes/LaneProofsSpecs/index.html#unsigned_lanes">unsigned_lanes</a> w = record {
  image_of_ones = refl;
  image_of_zeros = refl;
  image_of_read = λ n below. refl;
  read_fits = λ n below. below;
}

-- the bits of -1 are all ones
ones_of_minus_one : (w : Width) → cast_unsigned w (negsuc 0) ≡ 2 ^ bits w - 1
ones_of_minus_one = elim [ w8 ↦ refl | w16 ↦ refl | w32 ↦ refl | w64 ↦ refl | w128 ↦ refl ]

-- the bits of 0 are all zeros
zeros_of_zero : (w : Width) → cast_unsigned w (pos 0) ≡ 0
zeros_of_zero = elim [ w8 ↦ refl | w16 ↦ refl | w32 ↦ refl | w64 ↦ refl | w128 ↦ refl ]

-- a number of w bits, read signed, is in the range of the signed type
pub <b id="signed_fits">signed_fits</b> : (w : Width) (n : ℕ) → n &lt; 2 ^ bits w → FitsSigned w (signed w n)
<a href="../../lanes/LaneProofsSpecs/index.html#signed_fits">signed_fits</a> w n below = let fits : Fits w n = record { fits = below } in sfits_to_z fits

-- the signed integers of a width
pub <b id="signed_lanes">signed_lanes</b> : (w : Width) → <a href="../../lanes/VectorSpecs/index.html#ReadsLanes">ReadsLanes</a> w (signed w) (cast_unsigned w) (FitsSigned w) (negsuc 0) (pos 0)
<a href="../../lanes/LaneProofsSpecs/index.html#signed_lanes">signed_lanes</a> w = record {
  image_of_ones = ones_of_minus_one w;
  image_of_zeros = zeros_of_zero w;
  image_of_read = of_z-to_z w;
  read_fits = <a href="../../lanes/LaneProofsSpecs/index.html#signed_fits">signed_fits</a> w;
}
</code></pre>
"####]
    pub mod LaneProofsSpecs {}
    #[doc = r####"A vector is a number below 2 ^ 128; its lanes of one width are its digits to the base 2 ^ width, lane 0 the lowest. How lanes are read as items, and the vectors that are made of lanes, as of rows over the lanes of operands.

<pre><code>use Rattle.std.specs.Prelude.{ℕ, zero, suc, ◌-◌, ◌*◌, ◌/◌, ◌%◌, ◌^◌, ◌&lt;◌, ◌≡◌, ◌⊎◌, ◌+◌, Bool, if◌then◌else◌, ◌==◌}
use Rattle.wasmi_types.specs.Numbers.{Width, bits}

-- lane i of the vector v
abbrev pub <b id="lane">lane</b> : Width → ℕ → ℕ → ℕ
<a href="../../lanes/VectorSpecs/index.html#lane">lane</a> w v i = v / 2 ^ (bits w * i) % 2 ^ bits w

-- how many lanes of a width a vector has
abbrev pub <b id="lane_count">lane_count</b> : Width → ℕ
<a href="../../lanes/VectorSpecs/index.html#lane_count">lane_count</a> w = 128 / bits w

-- a lane&#x27;s number as it is; `signed` reads it as a signed number
abbrev pub <b id="unsigned">unsigned</b> : ℕ → ℕ
<a href="../../lanes/VectorSpecs/index.html#unsigned">unsigned</a> n = n

-- the items of a type are those of lanes of a width: `read` gives the item of a lane&#x27;s number, `image` the number of an
-- item, and `Fits` says which items are in the type&#x27;s range; `ones` is the item whose bits are all ones, `zeros` that
-- whose bits are all zeros
pub record <b id="ReadsLanes">ReadsLanes</b> {Item : Type 0} (width : Width) (read : ℕ → Item) (image : Item → ℕ) (Fits : Item → Type 0)
    (ones zeros : Item) : Type 0 where
  pub <b id="image_of_ones">image_of_ones</b> : image ones ≡ 2 ^ bits width - 1
  pub <b id="image_of_zeros">image_of_zeros</b> : image zeros ≡ 0
  pub <b id="image_of_read">image_of_read</b> : (n : ℕ) → n &lt; 2 ^ bits width → image (read n) ≡ n
  pub <b id="read_fits">read_fits</b> : (n : ℕ) → n &lt; 2 ^ bits width → Fits (read n)

-- the lanes of a type fill a vector, have as many indices, and have the ones and zeros of its items
pub record <b id="AreWholeLanes">AreWholeLanes</b> {Item : Type 0} (width : Width) (lanes indices : ℕ)
    (ones zeros item_ones item_zeros : Item) : Type 0 where
  pub <b id="filled">filled</b> : lanes * bits width ≡ 128
  pub <b id="counted">counted</b> : indices ≡ lanes
  pub <b id="ones_eq">ones_eq</b> : ones ≡ item_ones
  pub <b id="zeros_eq">zeros_eq</b> : zeros ≡ item_zeros

-- a number of lanes: of one vector, or of two vectors of bytes
abbrev pub <b id="IsLaneCount">IsLaneCount</b> : ℕ → Type 0
<a href="../../lanes/VectorSpecs/index.html#IsLaneCount">IsLaneCount</a> n = (n ≡ 2) ⊎ (n ≡ 4) ⊎ (n ≡ 8) ⊎ (n ≡ 16) ⊎ (n ≡ 32)

-- the steps at lanes 0, 1 and so on, n of them, lead from `first` to `last`
abbrev pub <b id="ReducesTo">ReducesTo</b> : {A : Type 0} → (ℕ → A → A → Type 0) → ℕ → A → A → Type 0
<a href="../../lanes/VectorSpecs/index.html#ReducesTo">ReducesTo</a> Step zero first last = last ≡ first
<a href="../../lanes/VectorSpecs/index.html#ReducesTo">ReducesTo</a> {A} Step (suc n) first last = (middle : A) × <a href="../../lanes/VectorSpecs/index.html#ReducesTo">ReducesTo</a> Step n first middle × Step n middle last

-- the number whose first n lanes are f 0, f 1 and so on, and whose others are 0
unfoldable pub <b id="first_lanes">first_lanes</b> : Width → ℕ → (ℕ → ℕ) → ℕ
<a href="../../lanes/VectorSpecs/index.html#first_lanes">first_lanes</a> w zero f = 0
<a href="../../lanes/VectorSpecs/index.html#first_lanes">first_lanes</a> w (suc n) f = <a href="../../lanes/VectorSpecs/index.html#first_lanes">first_lanes</a> w n f + f n % 2 ^ bits w * 2 ^ (bits w * n)

-- the vector whose lane i is f i
abbrev pub <b id="from_lanes">from_lanes</b> : Width → (ℕ → ℕ) → ℕ
<a href="../../lanes/VectorSpecs/index.html#from_lanes">from_lanes</a> w f = <a href="../../lanes/VectorSpecs/index.html#first_lanes">first_lanes</a> w (128 / bits w) f

-- the vector whose lane i is the row of the operands&#x27; lanes i
unfoldable pub <b id="unary_of_lanes">unary_of_lanes</b> : {A : Type 0} → (w : Width) → (ℕ → A) → (A → ℕ) → ℕ → ℕ
<a href="../../lanes/VectorSpecs/index.html#unary_of_lanes">unary_of_lanes</a> w read row a = <a href="../../lanes/VectorSpecs/index.html#from_lanes">from_lanes</a> w (λ i. row (read (<a href="../../lanes/VectorSpecs/index.html#lane">lane</a> w a i)))

-- the vector whose lane i is the row of lanes i of two vectors, read in one way
unfoldable pub <b id="binary_of_lanes">binary_of_lanes</b> : {A : Type 0} → (w : Width) → (ℕ → A) → (A → A → ℕ) → ℕ → ℕ → ℕ
<a href="../../lanes/VectorSpecs/index.html#binary_of_lanes">binary_of_lanes</a> w read row a b = <a href="../../lanes/VectorSpecs/index.html#from_lanes">from_lanes</a> w (λ i. row (read (<a href="../../lanes/VectorSpecs/index.html#lane">lane</a> w a i)) (read (<a href="../../lanes/VectorSpecs/index.html#lane">lane</a> w b i)))

-- all ones where the test of the operands&#x27; lanes i holds, else all zeros
unfoldable pub <b id="comparison_of_lanes">comparison_of_lanes</b> : {A : Type 0} → (w : Width) → (ℕ → A) → (A → A → Bool) → ℕ → ℕ → ℕ
<a href="../../lanes/VectorSpecs/index.html#comparison_of_lanes">comparison_of_lanes</a> w read test a b =
    <a href="../../lanes/VectorSpecs/index.html#from_lanes">from_lanes</a> w (λ i. if test (read (<a href="../../lanes/VectorSpecs/index.html#lane">lane</a> w a i)) (read (<a href="../../lanes/VectorSpecs/index.html#lane">lane</a> w b i)) then 2 ^ bits w - 1 else 0)

-- n in each lane
unfoldable pub <b id="splat_of">splat_of</b> : Width → ℕ → ℕ
<a href="../../lanes/VectorSpecs/index.html#splat_of">splat_of</a> w n = <a href="../../lanes/VectorSpecs/index.html#from_lanes">from_lanes</a> w (λ _. n)

-- v with n in lane k
unfoldable pub <b id="with_lane">with_lane</b> : Width → ℕ → ℕ → ℕ → ℕ
<a href="../../lanes/VectorSpecs/index.html#with_lane">with_lane</a> w v k n = <a href="../../lanes/VectorSpecs/index.html#from_lanes">from_lanes</a> w (λ i. if i == k then n else <a href="../../lanes/VectorSpecs/index.html#lane">lane</a> w v i)

-- what is made of an item in range has the number that the row names; `Makes` relates the item to what is made of it
abbrev pub <b id="ComputesLane">ComputesLane</b> : {A : Type 0} → (A → Type 0) → (A → ℕ) → (A → A → Type 0) → (A → ℕ) → Type 0
<a href="../../lanes/VectorSpecs/index.html#ComputesLane">ComputesLane</a> {A} Fits image Makes row = (x z : A) → Fits x → Fits z → Makes x z → image z ≡ row x

-- what is made of two items in range has the number that the row names for them
abbrev pub <b id="ComputesLaneOfTwo">ComputesLaneOfTwo</b> : {A : Type 0} → (A → Type 0) → (A → ℕ) → (A → A → A → Type 0) → (A → A → ℕ) → Type 0
<a href="../../lanes/VectorSpecs/index.html#ComputesLaneOfTwo">ComputesLaneOfTwo</a> {A} Fits image Makes row = (x y z : A) → Fits x → Fits y → Fits z → Makes x y z → image z ≡ row x y
</code></pre>
"####]
    pub mod VectorSpecs {}
    #[doc = r####"Words of 64 bits and their lanes, which may have unequal widths. Where \`tops\` is a word, its ones are the highest bits of the lanes: a lane begins at the bottom, or right above a top, and ends with the next top. What is left above the last top is a lane too, for what leaves it leaves the word.

<pre><code>use Rattle.std.specs.Prelude.{ℕ, ◌≡◌, ◌+◌, ◌-◌, ◌*◌, ◌/◌, ◌%◌, ◌^◌, ◌&lt;◌, ◌≤◌, ◌⊎◌, List, [], ◌∷◌, replicate, ◌==◌, if◌then◌else◌}
use Rattle.std.specs.Int.{bit_at}
use Rattle.std.specs.Simd.Lanes.{number_l}
use Rattle.wasmi_types.specs.Numbers.{Width, bits}

-- the number in the bits of v from start to start + width - 1
unfoldable pub <b id="field">field</b> : ℕ → ℕ → ℕ → ℕ
<a href="../../lanes/WordsSpecs/index.html#field">field</a> start width v = v / 2 ^ start % 2 ^ width

-- the bits from start to start + width - 1 are a lane of tops
pub record <b id="IsLane">IsLane</b> (tops start width : ℕ) : Type 0 where
  pub <b id="starts">starts</b> : (start ≡ 0) ⊎ (bit_at tops (start - 1) ≡ 1)
  pub <b id="top">top</b> : <a href="../../lanes/WordsSpecs/index.html#field">field</a> start width tops ≡ 2 ^ (width - 1)
  pub <b id="within">within</b> : start + width ≤ 64

-- the bits from start to start + width - 1 are those of a word above the last top, or all of them where there is no top
pub record <b id="IsLastLane">IsLastLane</b> (tops start width : ℕ) : Type 0 where
  pub <b id="starts">starts</b> : (start ≡ 0) ⊎ (bit_at tops (start - 1) ≡ 1)
  pub <b id="free">free</b> : <a href="../../lanes/WordsSpecs/index.html#field">field</a> start width tops ≡ 0
  pub <b id="whole">whole</b> : start + width ≡ 64

-- lanes of these widths, one after another from start on, are those of tops up to the end of the word
abbrev pub <b id="AreLanes">AreLanes</b> : ℕ → ℕ → List ℕ → Type 0
<a href="../../lanes/WordsSpecs/index.html#AreLanes">AreLanes</a> tops start [] = start ≡ 64
<a href="../../lanes/WordsSpecs/index.html#AreLanes">AreLanes</a> tops start (width ∷ widths) = <a href="../../lanes/WordsSpecs/index.html#IsLane">IsLane</a> tops start width × <a href="../../lanes/WordsSpecs/index.html#AreLanes">AreLanes</a> tops (start + width) widths

-- the word whose lanes of these widths, one after another from start on, are what f gives for start and width of each
abbrev pub <b id="word_of_lanes">word_of_lanes</b> : (ℕ → ℕ → ℕ) → ℕ → List ℕ → ℕ
<a href="../../lanes/WordsSpecs/index.html#word_of_lanes">word_of_lanes</a> f start [] = 0
<a href="../../lanes/WordsSpecs/index.html#word_of_lanes">word_of_lanes</a> f start (width ∷ widths) = f start width * 2 ^ start + <a href="../../lanes/WordsSpecs/index.html#word_of_lanes">word_of_lanes</a> f (start + width) widths

-- how many lanes of a width a word has
abbrev pub <b id="lanes_in_word">lanes_in_word</b> : Width → ℕ
<a href="../../lanes/WordsSpecs/index.html#lanes_in_word">lanes_in_word</a> w = 64 / bits w

-- the word with n in each lane of one width
abbrev pub <b id="in_each_lane">in_each_lane</b> : Width → ℕ → ℕ
<a href="../../lanes/WordsSpecs/index.html#in_each_lane">in_each_lane</a> w n = number_l (2 ^ bits w) (replicate (<a href="../../lanes/WordsSpecs/index.html#lanes_in_word">lanes_in_word</a> w) n)

-- the numbers of the lanes of one width in a word: how many bits a lane has, the highest bits of the lanes, and the
-- lowest bits of the lanes
pub record <b id="IsWordLane">IsWordLane</b> (width : Width) (lane_bits tops ones : ℕ) : Type 0 where
  pub <b id="wide">wide</b> : lane_bits ≡ bits width
  pub <b id="whole">whole</b> : <a href="../../lanes/WordsSpecs/index.html#lanes_in_word">lanes_in_word</a> width * bits width ≡ 64
  pub <b id="highest">highest</b> : tops ≡ <a href="../../lanes/WordsSpecs/index.html#in_each_lane">in_each_lane</a> width (2 ^ (bits width - 1))
  pub <b id="lowest">lowest</b> : ones ≡ <a href="../../lanes/WordsSpecs/index.html#in_each_lane">in_each_lane</a> width 1

-- every lane of w bits of a word is 0 or its highest bit alone
abbrev pub <b id="AreMarks">AreMarks</b> : Width → ℕ → Type 0
<a href="../../lanes/WordsSpecs/index.html#AreMarks">AreMarks</a> w marks = (i : ℕ) → i &lt; <a href="../../lanes/WordsSpecs/index.html#lanes_in_word">lanes_in_word</a> w
    → (<a href="../../lanes/WordsSpecs/index.html#field">field</a> (bits w * i) (bits w) marks ≡ 0) ⊎ (<a href="../../lanes/WordsSpecs/index.html#field">field</a> (bits w * i) (bits w) marks ≡ 2 ^ (bits w - 1))

-- the lanes that have their highest bit in marks are all ones in word, the others all zeros
abbrev pub <b id="AreFilled">AreFilled</b> : Width → ℕ → ℕ → Type 0
<a href="../../lanes/WordsSpecs/index.html#AreFilled">AreFilled</a> w marks word = (i : ℕ) → i &lt; <a href="../../lanes/WordsSpecs/index.html#lanes_in_word">lanes_in_word</a> w
    → <a href="../../lanes/WordsSpecs/index.html#field">field</a> (bits w * i) (bits w) word ≡ (if <a href="../../lanes/WordsSpecs/index.html#field">field</a> (bits w * i) (bits w) marks == 0 then 0 else 2 ^ bits w - 1)
</code></pre>
"####]
    pub mod WordsSpecs {}
}
/// Definitions of `wasmi_lanewise`.
pub mod lanewise {
    #[doc = r####"The lane by lane vector instructions of the WebAssembly core specification (section "Numerics", "Vector Operations"): what each gives, over whole numbers. A vector is a number below 2 ^ 128, w is the width of a lane, and each lane's number is read as it is (\`unsigned\`) or as a signed number (\`signed w\`). A lane is computed without bounds, then wrapped or clamped.

<pre><code>use Rattle.std.specs.Prelude.{ℕ, ◌+◌, ◌-◌, ◌*◌, ◌/◌, ◌%◌, ◌^◌, min, max, nat_eq, nat_lt, nat_le, not, ℤ, pos, ◌+ℤ◌, ◌-ℤ◌, ◌*ℤ◌, unsigned_abs, bit_and, bit_or, bit_xor, count_ones, List, slice_index, if◌then◌else◌, int_lt, int_le}
use Rattle.std.specs.Int.{int_min, int_max, int_shr}
use Rattle.wasmi_types.specs.Numbers.{Width, w8, w16, bits, signed, <a href="../../types/NumbersSpecs/index.html#wrap">wrap</a>, clamp_signed, clamp_unsigned}
use Rattle.wasmi_lanes.specs.Vector.{<a href="../../lanes/VectorSpecs/index.html#lane">lane</a>, <a href="../../lanes/VectorSpecs/index.html#unsigned">unsigned</a>, <a href="../../lanes/VectorSpecs/index.html#from_lanes">from_lanes</a>, <a href="../../lanes/VectorSpecs/index.html#unary_of_lanes">unary_of_lanes</a>, <a href="../../lanes/VectorSpecs/index.html#binary_of_lanes">binary_of_lanes</a>, <a href="../../lanes/VectorSpecs/index.html#comparison_of_lanes">comparison_of_lanes</a>, <a href="../../lanes/VectorSpecs/index.html#splat_of">splat_of</a>, <a href="../../lanes/VectorSpecs/index.html#with_lane">with_lane</a>}

-- ---- making and taking lanes

-- the number modulo 2 to the width, in all lanes
abbrev pub <b id="splat">splat</b> : Width → ℤ → ℕ
<a href="../../lanewise/VectorTableSpecs/index.html#splat">splat</a> w x = <a href="../../lanes/VectorSpecs/index.html#splat_of">splat_of</a> w (<a href="../../types/NumbersSpecs/index.html#wrap">wrap</a> w x)

-- a lane read signed
abbrev pub <b id="extract_lane_s">extract_lane_s</b> : Width → ℕ → ℕ → ℤ
<a href="../../lanewise/VectorTableSpecs/index.html#extract_lane_s">extract_lane_s</a> w v k = signed w (<a href="../../lanes/VectorSpecs/index.html#lane">lane</a> w v k)

-- a lane read unsigned
abbrev pub <b id="extract_lane_u">extract_lane_u</b> : Width → ℕ → ℕ → ℕ
<a href="../../lanewise/VectorTableSpecs/index.html#extract_lane_u">extract_lane_u</a> w v k = <a href="../../lanes/VectorSpecs/index.html#lane">lane</a> w v k

-- one lane is the number modulo 2 to the width, and the others stay
abbrev pub <b id="replace_lane">replace_lane</b> : Width → ℕ → ℕ → ℤ → ℕ
<a href="../../lanewise/VectorTableSpecs/index.html#replace_lane">replace_lane</a> w v k x = <a href="../../lanes/VectorSpecs/index.html#with_lane">with_lane</a> w v k (<a href="../../types/NumbersSpecs/index.html#wrap">wrap</a> w x)

-- of the 32 bytes of a and b, those at the indices s
abbrev pub <b id="shuffle">shuffle</b> : ℕ → ℕ → List ℕ → ℕ
<a href="../../lanewise/VectorTableSpecs/index.html#shuffle">shuffle</a> a b s =
    <a href="../../lanes/VectorSpecs/index.html#from_lanes">from_lanes</a> w8
    (λ i. if nat_lt (slice_index s i) 16 then <a href="../../lanes/VectorSpecs/index.html#lane">lane</a> w8 a (slice_index s i) else <a href="../../lanes/VectorSpecs/index.html#lane">lane</a> w8 b (slice_index s i - 16))

-- of the 16 bytes of a, those at the indices that the lanes of s are, and 0 where one is above 15
abbrev pub <b id="swizzle">swizzle</b> : ℕ → ℕ → ℕ
<a href="../../lanewise/VectorTableSpecs/index.html#swizzle">swizzle</a> a s = <a href="../../lanes/VectorSpecs/index.html#unary_of_lanes">unary_of_lanes</a> w8 <a href="../../lanes/VectorSpecs/index.html#unsigned">unsigned</a> (λ k. if nat_lt k 16 then <a href="../../lanes/VectorSpecs/index.html#lane">lane</a> w8 a k else 0) s

-- ---- binary

-- the sums of the lanes modulo 2 to the width
abbrev pub <b id="add">add</b> : Width → ℕ → ℕ → ℕ
<a href="../../lanewise/VectorTableSpecs/index.html#add">add</a> w = <a href="../../lanes/VectorSpecs/index.html#binary_of_lanes">binary_of_lanes</a> w <a href="../../lanes/VectorSpecs/index.html#unsigned">unsigned</a> (λ x y. (x + y) % 2 ^ bits w)

-- the differences of the lanes modulo 2 to the width
abbrev pub <b id="sub">sub</b> : Width → ℕ → ℕ → ℕ
<a href="../../lanewise/VectorTableSpecs/index.html#sub">sub</a> w = <a href="../../lanes/VectorSpecs/index.html#binary_of_lanes">binary_of_lanes</a> w <a href="../../lanes/VectorSpecs/index.html#unsigned">unsigned</a> (λ x y. (x + (2 ^ bits w - y)) % 2 ^ bits w)

-- the products of the lanes modulo 2 to the width
abbrev pub <b id="mul">mul</b> : Width → ℕ → ℕ → ℕ
<a href="../../lanewise/VectorTableSpecs/index.html#mul">mul</a> w = <a href="../../lanes/VectorSpecs/index.html#binary_of_lanes">binary_of_lanes</a> w <a href="../../lanes/VectorSpecs/index.html#unsigned">unsigned</a> (λ x y. (x * y) % 2 ^ bits w)

-- the sums of lanes read signed, clamped to the signed range
abbrev pub <b id="add_sat_s">add_sat_s</b> : Width → ℕ → ℕ → ℕ
<a href="../../lanewise/VectorTableSpecs/index.html#add_sat_s">add_sat_s</a> w = <a href="../../lanes/VectorSpecs/index.html#binary_of_lanes">binary_of_lanes</a> w (signed w) (λ x y. <a href="../../types/NumbersSpecs/index.html#wrap">wrap</a> w (clamp_signed w (x +ℤ y)))

-- the sums of lanes read unsigned, clamped to the unsigned range
abbrev pub <b id="add_sat_u">add_sat_u</b> : Width → ℕ → ℕ → ℕ
<a href="../../lanewise/VectorTableSpecs/index.html#add_sat_u">add_sat_u</a> w = <a href="../../lanes/VectorSpecs/index.html#binary_of_lanes">binary_of_lanes</a> w <a href="../../lanes/VectorSpecs/index.html#unsigned">unsigned</a> (λ x y. clamp_unsigned w (pos x +ℤ pos y))

-- the differences of lanes read signed, clamped to the signed range
abbrev pub <b id="sub_sat_s">sub_sat_s</b> : Width → ℕ → ℕ → ℕ
<a href="../../lanewise/VectorTableSpecs/index.html#sub_sat_s">sub_sat_s</a> w = <a href="../../lanes/VectorSpecs/index.html#binary_of_lanes">binary_of_lanes</a> w (signed w) (λ x y. <a href="../../types/NumbersSpecs/index.html#wrap">wrap</a> w (clamp_signed w (x -ℤ y)))

-- the differences of lanes read unsigned, clamped to the unsigned range
abbrev pub <b id="sub_sat_u">sub_sat_u</b> : Width → ℕ → ℕ → ℕ
<a href="../../lanewise/VectorTableSpecs/index.html#sub_sat_u">sub_sat_u</a> w = <a href="../../lanes/VectorSpecs/index.html#binary_of_lanes">binary_of_lanes</a> w <a href="../../lanes/VectorSpecs/index.html#unsigned">unsigned</a> (λ x y. clamp_unsigned w (pos x -ℤ pos y))

-- (x * y + 2 ^ 14) / 2 ^ 15, rounded down
abbrev pub <b id="q15mulr">q15mulr</b> : ℤ → ℤ → ℤ
<a href="../../lanewise/VectorTableSpecs/index.html#q15mulr">q15mulr</a> x y = int_shr ((x *ℤ y) +ℤ pos (2 ^ 14)) 15

-- the rounded products of q15 numbers, clamped to the signed range
abbrev pub <b id="q15mulr_sat_s">q15mulr_sat_s</b> : ℕ → ℕ → ℕ
<a href="../../lanewise/VectorTableSpecs/index.html#q15mulr_sat_s">q15mulr_sat_s</a> = <a href="../../lanes/VectorSpecs/index.html#binary_of_lanes">binary_of_lanes</a> w16 (signed w16) (λ x y. <a href="../../types/NumbersSpecs/index.html#wrap">wrap</a> w16 (clamp_signed w16 (<a href="../../lanewise/VectorTableSpecs/index.html#q15mulr">q15mulr</a> x y)))

-- the smaller of each two lanes read signed
abbrev pub <b id="min_s">min_s</b> : Width → ℕ → ℕ → ℕ
<a href="../../lanewise/VectorTableSpecs/index.html#min_s">min_s</a> w = <a href="../../lanes/VectorSpecs/index.html#binary_of_lanes">binary_of_lanes</a> w (signed w) (λ x y. <a href="../../types/NumbersSpecs/index.html#wrap">wrap</a> w (int_min x y))

-- the smaller of each two lanes read unsigned
abbrev pub <b id="min_u">min_u</b> : Width → ℕ → ℕ → ℕ
<a href="../../lanewise/VectorTableSpecs/index.html#min_u">min_u</a> w = <a href="../../lanes/VectorSpecs/index.html#binary_of_lanes">binary_of_lanes</a> w <a href="../../lanes/VectorSpecs/index.html#unsigned">unsigned</a> min

-- the greater of each two lanes read signed
abbrev pub <b id="max_s">max_s</b> : Width → ℕ → ℕ → ℕ
<a href="../../lanewise/VectorTableSpecs/index.html#max_s">max_s</a> w = <a href="../../lanes/VectorSpecs/index.html#binary_of_lanes">binary_of_lanes</a> w (signed w) (λ x y. <a href="../../types/NumbersSpecs/index.html#wrap">wrap</a> w (int_max x y))

-- the greater of each two lanes read unsigned
abbrev pub <b id="max_u">max_u</b> : Width → ℕ → ℕ → ℕ
<a href="../../lanewise/VectorTableSpecs/index.html#max_u">max_u</a> w = <a href="../../lanes/VectorSpecs/index.html#binary_of_lanes">binary_of_lanes</a> w <a href="../../lanes/VectorSpecs/index.html#unsigned">unsigned</a> max

-- (x + y) / 2, halves rounded up
abbrev pub <b id="average">average</b> : ℕ → ℕ → ℕ
<a href="../../lanewise/VectorTableSpecs/index.html#average">average</a> x y = (x + y + 1) / 2

-- the averages of lanes read unsigned, rounded up
abbrev pub <b id="avgr_u">avgr_u</b> : Width → ℕ → ℕ → ℕ
<a href="../../lanewise/VectorTableSpecs/index.html#avgr_u">avgr_u</a> w = <a href="../../lanes/VectorSpecs/index.html#binary_of_lanes">binary_of_lanes</a> w <a href="../../lanes/VectorSpecs/index.html#unsigned">unsigned</a> <a href="../../lanewise/VectorTableSpecs/index.html#average">average</a>

-- ---- bit by bit, on the whole number

-- all bits inverted
abbrev pub <b id="v128_not">v128_not</b> : ℕ → ℕ
<a href="../../lanewise/VectorTableSpecs/index.html#v128_not">v128_not</a> a = 2 ^ 128 - 1 - a

-- the bits that are set in both
abbrev pub <b id="v128_and">v128_and</b> : ℕ → ℕ → ℕ
<a href="../../lanewise/VectorTableSpecs/index.html#v128_and">v128_and</a> a b = bit_and a b

-- the bits that are set in one or both
abbrev pub <b id="v128_or">v128_or</b> : ℕ → ℕ → ℕ
<a href="../../lanewise/VectorTableSpecs/index.html#v128_or">v128_or</a> a b = bit_or a b

-- the bits that are set in exactly one
abbrev pub <b id="v128_xor">v128_xor</b> : ℕ → ℕ → ℕ
<a href="../../lanewise/VectorTableSpecs/index.html#v128_xor">v128_xor</a> a b = bit_xor a b

-- the bits that are set in the first and not in the second
abbrev pub <b id="v128_andnot">v128_andnot</b> : ℕ → ℕ → ℕ
<a href="../../lanewise/VectorTableSpecs/index.html#v128_andnot">v128_andnot</a> a b = bit_and a (<a href="../../lanewise/VectorTableSpecs/index.html#v128_not">v128_not</a> b)

-- the bits of a where c has ones, those of b where it has zeros
abbrev pub <b id="v128_bitselect">v128_bitselect</b> : ℕ → ℕ → ℕ → ℕ
<a href="../../lanewise/VectorTableSpecs/index.html#v128_bitselect">v128_bitselect</a> a b c = bit_or (bit_and a c) (bit_and b (<a href="../../lanewise/VectorTableSpecs/index.html#v128_not">v128_not</a> c))

-- ---- unary

-- the negatives of the lanes modulo 2 to the width
abbrev pub <b id="neg">neg</b> : Width → ℕ → ℕ
<a href="../../lanewise/VectorTableSpecs/index.html#neg">neg</a> w = <a href="../../lanes/VectorSpecs/index.html#unary_of_lanes">unary_of_lanes</a> w <a href="../../lanes/VectorSpecs/index.html#unsigned">unsigned</a> (λ x. (2 ^ bits w - x) % 2 ^ bits w)

-- the absolute values of lanes read signed, modulo 2 to the width
abbrev pub <b id="abs">abs</b> : Width → ℕ → ℕ
<a href="../../lanewise/VectorTableSpecs/index.html#abs">abs</a> w = <a href="../../lanes/VectorSpecs/index.html#unary_of_lanes">unary_of_lanes</a> w (signed w) (λ x. unsigned_abs x % 2 ^ bits w)

-- how many bits of each lane are set
abbrev pub <b id="popcnt">popcnt</b> : Width → ℕ → ℕ
<a href="../../lanewise/VectorTableSpecs/index.html#popcnt">popcnt</a> w = <a href="../../lanes/VectorSpecs/index.html#unary_of_lanes">unary_of_lanes</a> w <a href="../../lanes/VectorSpecs/index.html#unsigned">unsigned</a> count_ones

-- ---- shifts, by an amount modulo the width

-- the lanes shifted to the left by the amount modulo the width
abbrev pub <b id="shl">shl</b> : Width → ℕ → ℕ → ℕ
<a href="../../lanewise/VectorTableSpecs/index.html#shl">shl</a> w v amount = <a href="../../lanes/VectorSpecs/index.html#unary_of_lanes">unary_of_lanes</a> w <a href="../../lanes/VectorSpecs/index.html#unsigned">unsigned</a> (λ x. (x * 2 ^ (amount % bits w)) % 2 ^ bits w) v

-- the lanes shifted to the right by the amount modulo the width, with their signs from above
abbrev pub <b id="shr_s">shr_s</b> : Width → ℕ → ℕ → ℕ
<a href="../../lanewise/VectorTableSpecs/index.html#shr_s">shr_s</a> w v amount = <a href="../../lanes/VectorSpecs/index.html#unary_of_lanes">unary_of_lanes</a> w (signed w) (λ x. <a href="../../types/NumbersSpecs/index.html#wrap">wrap</a> w (int_shr x (amount % bits w))) v

-- the lanes shifted to the right by the amount modulo the width, with zeros from above
abbrev pub <b id="shr_u">shr_u</b> : Width → ℕ → ℕ → ℕ
<a href="../../lanewise/VectorTableSpecs/index.html#shr_u">shr_u</a> w v amount = <a href="../../lanes/VectorSpecs/index.html#unary_of_lanes">unary_of_lanes</a> w <a href="../../lanes/VectorSpecs/index.html#unsigned">unsigned</a> (λ x. x / 2 ^ (amount % bits w)) v

-- ---- comparisons: all ones in the lanes where they hold, else all zeros

-- all ones in the lanes that are equal, else all zeros
abbrev pub <b id="eq">eq</b> : Width → ℕ → ℕ → ℕ
<a href="../../lanewise/VectorTableSpecs/index.html#eq">eq</a> w = <a href="../../lanes/VectorSpecs/index.html#comparison_of_lanes">comparison_of_lanes</a> w <a href="../../lanes/VectorSpecs/index.html#unsigned">unsigned</a> nat_eq

-- all ones in the lanes that differ, else all zeros
abbrev pub <b id="ne">ne</b> : Width → ℕ → ℕ → ℕ
<a href="../../lanewise/VectorTableSpecs/index.html#ne">ne</a> w = <a href="../../lanes/VectorSpecs/index.html#comparison_of_lanes">comparison_of_lanes</a> w <a href="../../lanes/VectorSpecs/index.html#unsigned">unsigned</a> (λ x y. not (nat_eq x y))

-- all ones in the lanes that are less, read signed, else all zeros
abbrev pub <b id="lt_s">lt_s</b> : Width → ℕ → ℕ → ℕ
<a href="../../lanewise/VectorTableSpecs/index.html#lt_s">lt_s</a> w = <a href="../../lanes/VectorSpecs/index.html#comparison_of_lanes">comparison_of_lanes</a> w (signed w) int_lt

-- all ones in the lanes that are at most the other, read signed, else all zeros
abbrev pub <b id="le_s">le_s</b> : Width → ℕ → ℕ → ℕ
<a href="../../lanewise/VectorTableSpecs/index.html#le_s">le_s</a> w = <a href="../../lanes/VectorSpecs/index.html#comparison_of_lanes">comparison_of_lanes</a> w (signed w) int_le

-- all ones in the lanes that are greater, read signed, else all zeros
abbrev pub <b id="gt_s">gt_s</b> : Width → ℕ → ℕ → ℕ
<a href="../../lanewise/VectorTableSpecs/index.html#gt_s">gt_s</a> w a b = <a href="../../lanewise/VectorTableSpecs/index.html#lt_s">lt_s</a> w b a

-- all ones in the lanes that are at least the other, read signed, else all zeros
abbrev pub <b id="ge_s">ge_s</b> : Width → ℕ → ℕ → ℕ
<a href="../../lanewise/VectorTableSpecs/index.html#ge_s">ge_s</a> w a b = <a href="../../lanewise/VectorTableSpecs/index.html#le_s">le_s</a> w b a

-- all ones in the lanes that are less, read unsigned, else all zeros
abbrev pub <b id="lt_u">lt_u</b> : Width → ℕ → ℕ → ℕ
<a href="../../lanewise/VectorTableSpecs/index.html#lt_u">lt_u</a> w = <a href="../../lanes/VectorSpecs/index.html#comparison_of_lanes">comparison_of_lanes</a> w <a href="../../lanes/VectorSpecs/index.html#unsigned">unsigned</a> nat_lt

-- all ones in the lanes that are at most the other, read unsigned, else all zeros
abbrev pub <b id="le_u">le_u</b> : Width → ℕ → ℕ → ℕ
<a href="../../lanewise/VectorTableSpecs/index.html#le_u">le_u</a> w = <a href="../../lanes/VectorSpecs/index.html#comparison_of_lanes">comparison_of_lanes</a> w <a href="../../lanes/VectorSpecs/index.html#unsigned">unsigned</a> nat_le

-- all ones in the lanes that are greater, read unsigned, else all zeros
abbrev pub <b id="gt_u">gt_u</b> : Width → ℕ → ℕ → ℕ
<a href="../../lanewise/VectorTableSpecs/index.html#gt_u">gt_u</a> w a b = <a href="../../lanewise/VectorTableSpecs/index.html#lt_u">lt_u</a> w b a

-- all ones in the lanes that are at least the other, read unsigned, else all zeros
abbrev pub <b id="ge_u">ge_u</b> : Width → ℕ → ℕ → ℕ
<a href="../../lanewise/VectorTableSpecs/index.html#ge_u">ge_u</a> w a b = <a href="../../lanewise/VectorTableSpecs/index.html#le_u">le_u</a> w b a
</code></pre>
"####]
    pub mod VectorTableSpecs {}
}
/// Definitions of `wasmi_simd`.
pub mod widening {
    #[doc = r####"The widths of which one is twice another, and what follows of their lanes.

<pre><code>use Rattle.std.proofs.Common.{ℕ, ◌+◌, ◌*◌, ◌^◌, ◌&lt;◌, ◌≡◌, leb, lit&lt;, refl}
use Rattle.wasmi_types.specs.Numbers.{Width, w8, w16, w32, w64, bits}
use lib.Dec.{T}
use mir.Val.{hbits}

-- a lane of `wide` has twice the bits of one of `narrow`, and n lanes of `wide` make a vector
pub record <b id="IsWidening">IsWidening</b> (narrow wide : Width) (n : ℕ) : Type 0 where
  pub <b id="filled">filled</b> : n * bits wide ≡ 128
  pub <b id="twice">twice</b> : bits wide ≡ bits narrow + bits narrow
  pub <b id="half">half</b> : hbits wide ≡ hbits narrow + bits narrow
  pub <b id="wider">wider</b> : T (leb (hbits narrow) (hbits wide))
  pub <b id="room">room</b> : 2 ^ hbits narrow * 2 ^ hbits narrow &lt; 2 ^ hbits wide

-- 8 lanes of 16 bits, each of two bytes
pub <b id="bytes_widened">bytes_widened</b> : <a href="../../widening/WideningProofsSpecs/index.html#IsWidening">IsWidening</a> w8 w16 8
<a href="../../widening/WideningProofsSpecs/index.html#bytes_widened">bytes_widened</a> = record { <a href="../../widening/WideningProofsSpecs/index.html#filled">filled</a> = refl; <a href="../../widening/WideningProofsSpecs/index.html#twice">twice</a> = refl; <a href="../../widening/WideningProofsSpecs/index.html#half">half</a> = refl; <a href="../../widening/WideningProofsSpecs/index.html#wider">wider</a> = tt; <a href="../../widening/WideningProofsSpecs/index.html#room">room</a> = lit&lt; tt }

-- 4 lanes of 32 bits, each of two of 16
pub <b id="u16x8_widened">u16x8_widened</b> : <a href="../../widening/WideningProofsSpecs/index.html#IsWidening">IsWidening</a> w16 w32 4
<a href="../../widening/WideningProofsSpecs/index.html#u16x8_widened">u16x8_widened</a> = record { <a href="../../widening/WideningProofsSpecs/index.html#filled">filled</a> = refl; <a href="../../widening/WideningProofsSpecs/index.html#twice">twice</a> = refl; <a href="../../widening/WideningProofsSpecs/index.html#half">half</a> = refl; <a href="../../widening/WideningProofsSpecs/index.html#wider">wider</a> = tt; <a href="../../widening/WideningProofsSpecs/index.html#room">room</a> = lit&lt; tt }

-- 2 lanes of 64 bits, each of two of 32
pub <b id="u32x4_widened">u32x4_widened</b> : <a href="../../widening/WideningProofsSpecs/index.html#IsWidening">IsWidening</a> w32 w64 2
<a href="../../widening/WideningProofsSpecs/index.html#u32x4_widened">u32x4_widened</a> = record { <a href="../../widening/WideningProofsSpecs/index.html#filled">filled</a> = refl; <a href="../../widening/WideningProofsSpecs/index.html#twice">twice</a> = refl; <a href="../../widening/WideningProofsSpecs/index.html#half">half</a> = refl; <a href="../../widening/WideningProofsSpecs/index.html#wider">wider</a> = tt; <a href="../../widening/WideningProofsSpecs/index.html#room">room</a> = lit&lt; tt }
</code></pre>
"####]
    pub mod WideningProofsSpecs {}
    #[doc = r####"Vector instructions (core specification, "Numerics") that widen, narrow or test lanes, and relaxed ones, by lanes.

<pre><code>use Rattle.std.specs.Prelude.{ℕ, zero, suc, ◌+◌, ◌-◌, ◌*◌, Bool, true, ◌&amp;&amp;◌, nat_lt, if◌then◌else◌, ◌^◌, not, nat_eq, nat_le, ◌+ℤ◌, ◌*ℤ◌}
use Rattle.wasmi_types.specs.Numbers.{Width, bits, w8, w16, w32, signed, <a href="../../types/NumbersSpecs/index.html#wrap">wrap</a>, clamp_signed, clamp_unsigned}
use Rattle.wasmi_lanes.specs.Vector.{<a href="../../lanes/VectorSpecs/index.html#lane">lane</a>, <a href="../../lanes/VectorSpecs/index.html#lane_count">lane_count</a>, <a href="../../lanes/VectorSpecs/index.html#from_lanes">from_lanes</a>, <a href="../../lanes/VectorSpecs/index.html#unsigned">unsigned</a>, <a href="../../lanes/VectorSpecs/index.html#with_lane">with_lane</a>}
use Rattle.wasmi_lanewise.specs.VectorTable.{<a href="../../lanewise/VectorTableSpecs/index.html#add">add</a>, <a href="../../lanewise/VectorTableSpecs/index.html#swizzle">swizzle</a>, <a href="../../lanewise/VectorTableSpecs/index.html#v128_bitselect">v128_bitselect</a>, <a href="../../lanewise/VectorTableSpecs/index.html#q15mulr_sat_s">q15mulr_sat_s</a>}

-- the wide vector whose lane i is the row of the narrow lane first + i: first is 0 for the lower half, and `lane_count
-- wide` for the upper
unfoldable pub <b id="half_unary">half_unary</b> : {A : Type 0} → (narrow wide : Width) → ℕ → (ℕ → A) → (A → ℕ) → ℕ → ℕ
<a href="../../widening/WideningTableSpecs/index.html#half_unary">half_unary</a> narrow wide first read row v = <a href="../../lanes/VectorSpecs/index.html#from_lanes">from_lanes</a> wide (λ i. row (read (<a href="../../lanes/VectorSpecs/index.html#lane">lane</a> narrow v (first + i))))

-- the wide vector whose lane i is the row of the narrow lanes at first + i of two vectors
unfoldable pub <b id="half_binary">half_binary</b> : {A : Type 0} → (narrow wide : Width) → ℕ → (ℕ → A) → (A → A → ℕ) → ℕ → ℕ → ℕ
<a href="../../widening/WideningTableSpecs/index.html#half_binary">half_binary</a> narrow wide first read row a b =
    <a href="../../lanes/VectorSpecs/index.html#from_lanes">from_lanes</a> wide (λ i. row (read (<a href="../../lanes/VectorSpecs/index.html#lane">lane</a> narrow a (first + i))) (read (<a href="../../lanes/VectorSpecs/index.html#lane">lane</a> narrow b (first + i))))

-- the wide vector whose lane i is the row of the narrow lanes 2 * i and 2 * i + 1 of a vector
unfoldable pub <b id="pairwise_unary">pairwise_unary</b> : {A : Type 0} → (narrow wide : Width) → (ℕ → A) → (A → A → ℕ) → ℕ → ℕ
<a href="../../widening/WideningTableSpecs/index.html#pairwise_unary">pairwise_unary</a> narrow wide read row v =
    <a href="../../lanes/VectorSpecs/index.html#from_lanes">from_lanes</a> wide (λ i. row (read (<a href="../../lanes/VectorSpecs/index.html#lane">lane</a> narrow v (2 * i))) (read (<a href="../../lanes/VectorSpecs/index.html#lane">lane</a> narrow v (2 * i + 1))))

-- the wide vector whose lane i is the row of the narrow lanes 2 * i and 2 * i + 1 of two vectors
unfoldable pub <b id="pairwise_binary">pairwise_binary</b> : {A : Type 0} → (narrow wide : Width) → (ℕ → A) → (A → A → A → A → ℕ) → ℕ → ℕ → ℕ
<a href="../../widening/WideningTableSpecs/index.html#pairwise_binary">pairwise_binary</a> narrow wide read row a b =
    <a href="../../lanes/VectorSpecs/index.html#from_lanes">from_lanes</a> wide (λ i. row (read (<a href="../../lanes/VectorSpecs/index.html#lane">lane</a> narrow a (2 * i))) (read (<a href="../../lanes/VectorSpecs/index.html#lane">lane</a> narrow a (2 * i + 1)))
    (read (<a href="../../lanes/VectorSpecs/index.html#lane">lane</a> narrow b (2 * i))) (read (<a href="../../lanes/VectorSpecs/index.html#lane">lane</a> narrow b (2 * i + 1))))

-- the narrow vector of the rows of the wide lanes of `low`, and then those of `high`
unfoldable pub <b id="from_low_high">from_low_high</b> : {A : Type 0} → (wide narrow : Width) → (ℕ → A) → (A → ℕ) → ℕ → ℕ → ℕ
<a href="../../widening/WideningTableSpecs/index.html#from_low_high">from_low_high</a> wide narrow read row low high =
    <a href="../../lanes/VectorSpecs/index.html#from_lanes">from_lanes</a> narrow
    (λ i. if nat_lt i (<a href="../../lanes/VectorSpecs/index.html#lane_count">lane_count</a> wide) then row (read (<a href="../../lanes/VectorSpecs/index.html#lane">lane</a> wide low i)) else row
    (read (<a href="../../lanes/VectorSpecs/index.html#lane">lane</a> wide high (i - <a href="../../lanes/VectorSpecs/index.html#lane_count">lane_count</a> wide))))

-- whether the test holds of each number below n
unfoldable pub <b id="holds_below">holds_below</b> : ℕ → (ℕ → Bool) → Bool
<a href="../../widening/WideningTableSpecs/index.html#holds_below">holds_below</a> zero test = true
<a href="../../widening/WideningTableSpecs/index.html#holds_below">holds_below</a> (suc n) test = <a href="../../widening/WideningTableSpecs/index.html#holds_below">holds_below</a> n test &amp;&amp; test n

-- the number whose bit i, of the lowest n, is 1 where the test holds of i, and whose others are 0
unfoldable pub <b id="first_bits">first_bits</b> : ℕ → (ℕ → Bool) → ℕ
<a href="../../widening/WideningTableSpecs/index.html#first_bits">first_bits</a> zero test = 0
<a href="../../widening/WideningTableSpecs/index.html#first_bits">first_bits</a> (suc n) test = (if test 0 then 1 else 0) + 2 * <a href="../../widening/WideningTableSpecs/index.html#first_bits">first_bits</a> n (λ i. test (suc i))

-- whether the test holds of every lane
unfoldable pub <b id="every_lane">every_lane</b> : {A : Type 0} → Width → (ℕ → A) → (A → Bool) → ℕ → Bool
<a href="../../widening/WideningTableSpecs/index.html#every_lane">every_lane</a> w read test v = <a href="../../widening/WideningTableSpecs/index.html#holds_below">holds_below</a> (<a href="../../lanes/VectorSpecs/index.html#lane_count">lane_count</a> w) (λ i. test (read (<a href="../../lanes/VectorSpecs/index.html#lane">lane</a> w v i)))

-- the number whose bit i is 1 where the test holds of lane i
unfoldable pub <b id="lane_bits">lane_bits</b> : {A : Type 0} → Width → (ℕ → A) → (A → Bool) → ℕ → ℕ
<a href="../../widening/WideningTableSpecs/index.html#lane_bits">lane_bits</a> w read test v = <a href="../../widening/WideningTableSpecs/index.html#first_bits">first_bits</a> (<a href="../../lanes/VectorSpecs/index.html#lane_count">lane_count</a> w) (λ i. test (read (<a href="../../lanes/VectorSpecs/index.html#lane">lane</a> w v i)))

-- ---- widening: each takes the narrow width, then the wide one

-- the low lanes read signed, at twice their width
abbrev pub <b id="extend_low_s">extend_low_s</b> : Width → Width → ℕ → ℕ
<a href="../../widening/WideningTableSpecs/index.html#extend_low_s">extend_low_s</a> narrow wide = <a href="../../widening/WideningTableSpecs/index.html#half_unary">half_unary</a> narrow wide 0 (signed narrow) (<a href="../../types/NumbersSpecs/index.html#wrap">wrap</a> wide)

-- the low lanes read unsigned, at twice their width
abbrev pub <b id="extend_low_u">extend_low_u</b> : Width → Width → ℕ → ℕ
<a href="../../widening/WideningTableSpecs/index.html#extend_low_u">extend_low_u</a> narrow wide = <a href="../../widening/WideningTableSpecs/index.html#half_unary">half_unary</a> narrow wide 0 <a href="../../lanes/VectorSpecs/index.html#unsigned">unsigned</a> (λ x. x)

-- the high lanes read signed, at twice their width
abbrev pub <b id="extend_high_s">extend_high_s</b> : Width → Width → ℕ → ℕ
<a href="../../widening/WideningTableSpecs/index.html#extend_high_s">extend_high_s</a> narrow wide = <a href="../../widening/WideningTableSpecs/index.html#half_unary">half_unary</a> narrow wide (<a href="../../lanes/VectorSpecs/index.html#lane_count">lane_count</a> wide) (signed narrow) (<a href="../../types/NumbersSpecs/index.html#wrap">wrap</a> wide)

-- the high lanes read unsigned, at twice their width
abbrev pub <b id="extend_high_u">extend_high_u</b> : Width → Width → ℕ → ℕ
<a href="../../widening/WideningTableSpecs/index.html#extend_high_u">extend_high_u</a> narrow wide = <a href="../../widening/WideningTableSpecs/index.html#half_unary">half_unary</a> narrow wide (<a href="../../lanes/VectorSpecs/index.html#lane_count">lane_count</a> wide) <a href="../../lanes/VectorSpecs/index.html#unsigned">unsigned</a> (λ x. x)

-- the products of the low lanes read signed, at twice their width
abbrev pub <b id="extmul_low_s">extmul_low_s</b> : Width → Width → ℕ → ℕ → ℕ
<a href="../../widening/WideningTableSpecs/index.html#extmul_low_s">extmul_low_s</a> narrow wide = <a href="../../widening/WideningTableSpecs/index.html#half_binary">half_binary</a> narrow wide 0 (signed narrow) (λ x y. <a href="../../types/NumbersSpecs/index.html#wrap">wrap</a> wide (x *ℤ y))

-- the products of the low lanes read unsigned, at twice their width
abbrev pub <b id="extmul_low_u">extmul_low_u</b> : Width → Width → ℕ → ℕ → ℕ
<a href="../../widening/WideningTableSpecs/index.html#extmul_low_u">extmul_low_u</a> narrow wide = <a href="../../widening/WideningTableSpecs/index.html#half_binary">half_binary</a> narrow wide 0 <a href="../../lanes/VectorSpecs/index.html#unsigned">unsigned</a> (λ x y. x * y)

-- the products of the high lanes read signed, at twice their width
abbrev pub <b id="extmul_high_s">extmul_high_s</b> : Width → Width → ℕ → ℕ → ℕ
<a href="../../widening/WideningTableSpecs/index.html#extmul_high_s">extmul_high_s</a> narrow wide = <a href="../../widening/WideningTableSpecs/index.html#half_binary">half_binary</a> narrow wide (<a href="../../lanes/VectorSpecs/index.html#lane_count">lane_count</a> wide) (signed narrow) (λ x y. <a href="../../types/NumbersSpecs/index.html#wrap">wrap</a> wide (x *ℤ y))

-- the products of the high lanes read unsigned, at twice their width
abbrev pub <b id="extmul_high_u">extmul_high_u</b> : Width → Width → ℕ → ℕ → ℕ
<a href="../../widening/WideningTableSpecs/index.html#extmul_high_u">extmul_high_u</a> narrow wide = <a href="../../widening/WideningTableSpecs/index.html#half_binary">half_binary</a> narrow wide (<a href="../../lanes/VectorSpecs/index.html#lane_count">lane_count</a> wide) <a href="../../lanes/VectorSpecs/index.html#unsigned">unsigned</a> (λ x y. x * y)

-- the sums of each two adjacent lanes read signed, at twice their width
abbrev pub <b id="extadd_pairwise_s">extadd_pairwise_s</b> : Width → Width → ℕ → ℕ
<a href="../../widening/WideningTableSpecs/index.html#extadd_pairwise_s">extadd_pairwise_s</a> narrow wide = <a href="../../widening/WideningTableSpecs/index.html#pairwise_unary">pairwise_unary</a> narrow wide (signed narrow) (λ x y. <a href="../../types/NumbersSpecs/index.html#wrap">wrap</a> wide (x +ℤ y))

-- the sums of each two adjacent lanes read unsigned, at twice their width
abbrev pub <b id="extadd_pairwise_u">extadd_pairwise_u</b> : Width → Width → ℕ → ℕ
<a href="../../widening/WideningTableSpecs/index.html#extadd_pairwise_u">extadd_pairwise_u</a> narrow wide = <a href="../../widening/WideningTableSpecs/index.html#pairwise_unary">pairwise_unary</a> narrow wide <a href="../../lanes/VectorSpecs/index.html#unsigned">unsigned</a> (λ x y. x + y)

-- the sums of the products of each two adjacent lanes of two vectors, read signed, modulo 2 to the wide width
abbrev pub <b id="dot_s">dot_s</b> : Width → Width → ℕ → ℕ → ℕ
<a href="../../widening/WideningTableSpecs/index.html#dot_s">dot_s</a> narrow wide = <a href="../../widening/WideningTableSpecs/index.html#pairwise_binary">pairwise_binary</a> narrow wide (signed narrow) (λ x x&#x27; y y&#x27;. <a href="../../types/NumbersSpecs/index.html#wrap">wrap</a> wide ((x *ℤ y) +ℤ (x&#x27; *ℤ y&#x27;)))

-- the lanes of a number of 64 bits read signed, at twice their width
abbrev pub <b id="widen_s">widen_s</b> : Width → Width → ℕ → ℕ
<a href="../../widening/WideningTableSpecs/index.html#widen_s">widen_s</a> narrow wide number = <a href="../../widening/WideningTableSpecs/index.html#extend_low_s">extend_low_s</a> narrow wide number

-- the lanes of a number of 64 bits read unsigned, at twice their width
abbrev pub <b id="widen_u">widen_u</b> : Width → Width → ℕ → ℕ
<a href="../../widening/WideningTableSpecs/index.html#widen_u">widen_u</a> narrow wide number = <a href="../../widening/WideningTableSpecs/index.html#extend_low_u">extend_low_u</a> narrow wide number

-- the vector with the number in lane 0, and 0 in the others
abbrev pub <b id="low_zero">low_zero</b> : Width → ℕ → ℕ
<a href="../../widening/WideningTableSpecs/index.html#low_zero">low_zero</a> w number = <a href="../../lanes/VectorSpecs/index.html#with_lane">with_lane</a> w 0 0 number

-- ---- narrowing: each takes the wide width, then the narrow one, and reads signed lanes

-- the lanes of two vectors read signed, clamped to the signed range of half their width
abbrev pub <b id="narrow_s">narrow_s</b> : Width → Width → ℕ → ℕ → ℕ
<a href="../../widening/WideningTableSpecs/index.html#narrow_s">narrow_s</a> wide narrow = <a href="../../widening/WideningTableSpecs/index.html#from_low_high">from_low_high</a> wide narrow (signed wide) (λ x. <a href="../../types/NumbersSpecs/index.html#wrap">wrap</a> narrow (clamp_signed narrow x))

-- the lanes of two vectors read signed, clamped to the unsigned range of half their width
abbrev pub <b id="narrow_u">narrow_u</b> : Width → Width → ℕ → ℕ → ℕ
<a href="../../widening/WideningTableSpecs/index.html#narrow_u">narrow_u</a> wide narrow = <a href="../../widening/WideningTableSpecs/index.html#from_low_high">from_low_high</a> wide narrow (signed wide) (clamp_unsigned narrow)

-- ---- tests

-- whether no lane is 0
abbrev pub <b id="all_true">all_true</b> : Width → ℕ → Bool
<a href="../../widening/WideningTableSpecs/index.html#all_true">all_true</a> w = <a href="../../widening/WideningTableSpecs/index.html#every_lane">every_lane</a> w <a href="../../lanes/VectorSpecs/index.html#unsigned">unsigned</a> (λ x. not (nat_eq x 0))

-- whether a bit of the vector is set
abbrev pub <b id="any_true">any_true</b> : ℕ → Bool
<a href="../../widening/WideningTableSpecs/index.html#any_true">any_true</a> v = not (nat_eq v 0)

-- the number whose bit i is the highest bit of lane i
abbrev pub <b id="bitmask">bitmask</b> : Width → ℕ → ℕ
<a href="../../widening/WideningTableSpecs/index.html#bitmask">bitmask</a> w = <a href="../../widening/WideningTableSpecs/index.html#lane_bits">lane_bits</a> w <a href="../../lanes/VectorSpecs/index.html#unsigned">unsigned</a> (λ x. nat_le (2 ^ (bits w - 1)) x)

-- ---- relaxed instructions, each with one of the answers that the standard allows

-- the lanes of the first vector at the indices in the second, 0 for an index above 15
abbrev pub <b id="relaxed_swizzle">relaxed_swizzle</b> : ℕ → ℕ → ℕ
<a href="../../widening/WideningTableSpecs/index.html#relaxed_swizzle">relaxed_swizzle</a> a s = <a href="../../lanewise/VectorTableSpecs/index.html#swizzle">swizzle</a> a s

-- the bits of the first vector where the mask has ones, those of the second where it has zeros
abbrev pub <b id="relaxed_laneselect">relaxed_laneselect</b> : ℕ → ℕ → ℕ → ℕ
<a href="../../widening/WideningTableSpecs/index.html#relaxed_laneselect">relaxed_laneselect</a> a b c = <a href="../../lanewise/VectorTableSpecs/index.html#v128_bitselect">v128_bitselect</a> a b c

-- the rounded products of q15 numbers, clamped to the signed range
abbrev pub <b id="relaxed_q15mulr_s">relaxed_q15mulr_s</b> : ℕ → ℕ → ℕ
<a href="../../widening/WideningTableSpecs/index.html#relaxed_q15mulr_s">relaxed_q15mulr_s</a> a b = <a href="../../lanewise/VectorTableSpecs/index.html#q15mulr_sat_s">q15mulr_sat_s</a> a b

-- the sums of the products of each two adjacent lanes of 8 bits, all read signed, modulo 2 ^ 16
abbrev pub <b id="relaxed_dot_s">relaxed_dot_s</b> : ℕ → ℕ → ℕ
<a href="../../widening/WideningTableSpecs/index.html#relaxed_dot_s">relaxed_dot_s</a> a b = <a href="../../widening/WideningTableSpecs/index.html#dot_s">dot_s</a> w8 w16 a b

-- the sums of each two adjacent lanes of relaxed_dot_s, read signed, and of the lanes of a third vector, modulo 2 ^ 32
abbrev pub <b id="relaxed_dot_add_s">relaxed_dot_add_s</b> : ℕ → ℕ → ℕ → ℕ
<a href="../../widening/WideningTableSpecs/index.html#relaxed_dot_add_s">relaxed_dot_add_s</a> a b c = <a href="../../lanewise/VectorTableSpecs/index.html#add">add</a> w32 (<a href="../../widening/WideningTableSpecs/index.html#extadd_pairwise_s">extadd_pairwise_s</a> w16 w32 (<a href="../../widening/WideningTableSpecs/index.html#relaxed_dot_s">relaxed_dot_s</a> a b)) c
</code></pre>
"####]
    pub mod WideningTableSpecs {}
}
/// Definitions of `wasmi_ops`.
pub mod ops {
    #[doc = r####"The vector instructions on one lane and what each gives, loads and stores too; a row for each of their kinds, which are without the lane's index.

<pre><code>use Rattle.std.specs.Prelude.{ℕ, nat_lt, if◌then◌else◌, List, Option, Some, None, codes, Result}
use Rattle.wasmi_types.specs.Numbers.{w8, w16, w32, w64, <a href="../../types/NumbersSpecs/index.html#le_bytes">le_bytes</a>}
use Rattle.std.specs.Int.{cast_unsigned}
use Rattle.wasmi_raw.specs.declared.raw.RawVal.{RawVal}
use Rattle.wasmi_raw.specs.RawVal.{<a href="../../raw/RawValSpecs/index.html#raw_of">raw_of</a>, <a href="../../raw/RawValSpecs/index.html#signed_in">signed_in</a>}
use Rattle.wasmi_ops.specs.declared.{vector.ExtractOp.ExtractOp, vector.ReplaceOp.ReplaceOp, vector.LoadLaneOp.LoadLaneOp, vector.StoreLaneOp.StoreLaneOp, vector.ExtractKind.ExtractKind, vector.ReplaceKind.ReplaceKind, vector.LoadLaneKind.LoadLaneKind, vector.StoreLaneKind.StoreLaneKind}
use Rattle.wasmi_lanewise.specs.VectorTable as vector
use Rattle.wasmi_ops.specs.declared.vector.ExtractOp.TheVariants as extract
use Rattle.wasmi_ops.specs.declared.vector.ReplaceOp.TheVariants as replace
use Rattle.wasmi_ops.specs.declared.vector.LoadLaneOp.TheVariants as load_lane
use Rattle.wasmi_ops.specs.declared.vector.StoreLaneOp.TheVariants as store_lane
use Rattle.wasmi_ops.specs.declared.vector.ExtractKind.TheVariants as extract_kind
use Rattle.wasmi_ops.specs.declared.vector.ReplaceKind.TheVariants as replace_kind
use Rattle.wasmi_ops.specs.declared.vector.LoadLaneKind.TheVariants as load_lane_kind
use Rattle.wasmi_ops.specs.declared.vector.StoreLaneKind.TheVariants as store_lane_kind
use Rattle.wasmi_types.specs.declared.trap.TrapCode.{TrapCode}
use Rattle.wasmi_access.specs.LoadStore.{<a href="../../accesses/LoadStoreSpecs/index.html#loaded">loaded</a>}
use Rattle.wasmi_lanes.specs.Vector.{<a href="../../lanes/VectorSpecs/index.html#lane">lane</a>, <a href="../../lanes/VectorSpecs/index.html#with_lane">with_lane</a>}

-- the lane that an instruction takes from a vector, as a raw value
abbrev pub <b id="extracted_raw">extracted_raw</b> : ExtractOp → ℕ → RawVal
<a href="../../ops/LaneOpsSpecs/index.html#extracted_raw">extracted_raw</a> (extract.I8x16ExtractLaneS index) a = <a href="../../raw/RawValSpecs/index.html#raw_of">raw_of</a> (cast_unsigned w32 (<a href="../../lanewise/VectorTableSpecs/index.html#extract_lane_s">vector.extract_lane_s</a> w8 a index))
<a href="../../ops/LaneOpsSpecs/index.html#extracted_raw">extracted_raw</a> (extract.I8x16ExtractLaneU index) a = <a href="../../raw/RawValSpecs/index.html#raw_of">raw_of</a> (<a href="../../lanewise/VectorTableSpecs/index.html#extract_lane_u">vector.extract_lane_u</a> w8 a index)
<a href="../../ops/LaneOpsSpecs/index.html#extracted_raw">extracted_raw</a> (extract.I16x8ExtractLaneS index) a = <a href="../../raw/RawValSpecs/index.html#raw_of">raw_of</a> (cast_unsigned w32 (<a href="../../lanewise/VectorTableSpecs/index.html#extract_lane_s">vector.extract_lane_s</a> w16 a index))
<a href="../../ops/LaneOpsSpecs/index.html#extracted_raw">extracted_raw</a> (extract.I16x8ExtractLaneU index) a = <a href="../../raw/RawValSpecs/index.html#raw_of">raw_of</a> (<a href="../../lanewise/VectorTableSpecs/index.html#extract_lane_u">vector.extract_lane_u</a> w16 a index)
<a href="../../ops/LaneOpsSpecs/index.html#extracted_raw">extracted_raw</a> (extract.I32x4ExtractLane index) a = <a href="../../raw/RawValSpecs/index.html#raw_of">raw_of</a> (cast_unsigned w32 (<a href="../../lanewise/VectorTableSpecs/index.html#extract_lane_s">vector.extract_lane_s</a> w32 a index))
<a href="../../ops/LaneOpsSpecs/index.html#extracted_raw">extracted_raw</a> (extract.I64x2ExtractLane index) a = <a href="../../raw/RawValSpecs/index.html#raw_of">raw_of</a> (cast_unsigned w64 (<a href="../../lanewise/VectorTableSpecs/index.html#extract_lane_s">vector.extract_lane_s</a> w64 a index))

-- the vector with an item of a raw value in a lane
abbrev pub <b id="replaced_vector">replaced_vector</b> : ReplaceOp → ℕ → RawVal → ℕ
<a href="../../ops/LaneOpsSpecs/index.html#replaced_vector">replaced_vector</a> (replace.I8x16ReplaceLane index) a raw = <a href="../../lanewise/VectorTableSpecs/index.html#replace_lane">vector.replace_lane</a> w8 a index (<a href="../../raw/RawValSpecs/index.html#signed_in">signed_in</a> w8 raw)
<a href="../../ops/LaneOpsSpecs/index.html#replaced_vector">replaced_vector</a> (replace.I16x8ReplaceLane index) a raw = <a href="../../lanewise/VectorTableSpecs/index.html#replace_lane">vector.replace_lane</a> w16 a index (<a href="../../raw/RawValSpecs/index.html#signed_in">signed_in</a> w16 raw)
<a href="../../ops/LaneOpsSpecs/index.html#replaced_vector">replaced_vector</a> (replace.I32x4ReplaceLane index) a raw = <a href="../../lanewise/VectorTableSpecs/index.html#replace_lane">vector.replace_lane</a> w32 a index (<a href="../../raw/RawValSpecs/index.html#signed_in">signed_in</a> w32 raw)
<a href="../../ops/LaneOpsSpecs/index.html#replaced_vector">replaced_vector</a> (replace.I64x2ReplaceLane index) a raw = <a href="../../lanewise/VectorTableSpecs/index.html#replace_lane">vector.replace_lane</a> w64 a index (<a href="../../raw/RawValSpecs/index.html#signed_in">signed_in</a> w64 raw)

-- the vector with a lane that is loaded from an address, or the trap
abbrev pub <b id="loaded_lane">loaded_lane</b> : LoadLaneOp → ℕ → List ℕ → ℕ → Result ℕ TrapCode
<a href="../../ops/LaneOpsSpecs/index.html#loaded_lane">loaded_lane</a> (load_lane.V128Load8Lane index) vector bytes a = <a href="../../accesses/LoadStoreSpecs/index.html#loaded">loaded</a> 1 (<a href="../../lanes/VectorSpecs/index.html#with_lane">with_lane</a> w8 vector index) bytes a
<a href="../../ops/LaneOpsSpecs/index.html#loaded_lane">loaded_lane</a> (load_lane.V128Load16Lane index) vector bytes a = <a href="../../accesses/LoadStoreSpecs/index.html#loaded">loaded</a> 2 (<a href="../../lanes/VectorSpecs/index.html#with_lane">with_lane</a> w16 vector index) bytes a
<a href="../../ops/LaneOpsSpecs/index.html#loaded_lane">loaded_lane</a> (load_lane.V128Load32Lane index) vector bytes a = <a href="../../accesses/LoadStoreSpecs/index.html#loaded">loaded</a> 4 (<a href="../../lanes/VectorSpecs/index.html#with_lane">with_lane</a> w32 vector index) bytes a
<a href="../../ops/LaneOpsSpecs/index.html#loaded_lane">loaded_lane</a> (load_lane.V128Load64Lane index) vector bytes a = <a href="../../accesses/LoadStoreSpecs/index.html#loaded">loaded</a> 8 (<a href="../../lanes/VectorSpecs/index.html#with_lane">with_lane</a> w64 vector index) bytes a

-- the bytes that a store of a lane writes
abbrev pub <b id="stored_lane">stored_lane</b> : StoreLaneOp → ℕ → List ℕ
<a href="../../ops/LaneOpsSpecs/index.html#stored_lane">stored_lane</a> (store_lane.V128Store8Lane index) vector = <a href="../../types/NumbersSpecs/index.html#le_bytes">le_bytes</a> 1 (<a href="../../lanes/VectorSpecs/index.html#lane">lane</a> w8 vector index)
<a href="../../ops/LaneOpsSpecs/index.html#stored_lane">stored_lane</a> (store_lane.V128Store16Lane index) vector = <a href="../../types/NumbersSpecs/index.html#le_bytes">le_bytes</a> 2 (<a href="../../lanes/VectorSpecs/index.html#lane">lane</a> w16 vector index)
<a href="../../ops/LaneOpsSpecs/index.html#stored_lane">stored_lane</a> (store_lane.V128Store32Lane index) vector = <a href="../../types/NumbersSpecs/index.html#le_bytes">le_bytes</a> 4 (<a href="../../lanes/VectorSpecs/index.html#lane">lane</a> w32 vector index)
<a href="../../ops/LaneOpsSpecs/index.html#stored_lane">stored_lane</a> (store_lane.V128Store64Lane index) vector = <a href="../../types/NumbersSpecs/index.html#le_bytes">le_bytes</a> 8 (<a href="../../lanes/VectorSpecs/index.html#lane">lane</a> w64 vector index)

-- the instruction on the lane of an index, where there are so many lanes
abbrev pub <b id="on_lane">on_lane</b> : {Op : Type 0} → ℕ → (ℕ → Op) → ℕ → Option Op
<a href="../../ops/LaneOpsSpecs/index.html#on_lane">on_lane</a> count op <a href="../../lanes/VectorSpecs/index.html#lane">lane</a> = if nat_lt <a href="../../lanes/VectorSpecs/index.html#lane">lane</a> count then Some (op <a href="../../lanes/VectorSpecs/index.html#lane">lane</a>) else None

-- the row of an extraction of a lane: its name, and the instruction on the lane of an index
abbrev pub <b id="extract_row">extract_row</b> : ExtractKind → List ℕ × (ℕ → Option ExtractOp)
<a href="../../ops/LaneOpsSpecs/index.html#extract_row">extract_row</a> extract_kind.I8x16ExtractLaneS = (codes "i8x16_extract_lane_s", <a href="../../ops/LaneOpsSpecs/index.html#on_lane">on_lane</a> 16 extract.I8x16ExtractLaneS)
<a href="../../ops/LaneOpsSpecs/index.html#extract_row">extract_row</a> extract_kind.I8x16ExtractLaneU = (codes "i8x16_extract_lane_u", <a href="../../ops/LaneOpsSpecs/index.html#on_lane">on_lane</a> 16 extract.I8x16ExtractLaneU)
<a href="../../ops/LaneOpsSpecs/index.html#extract_row">extract_row</a> extract_kind.I16x8ExtractLaneS = (codes "i16x8_extract_lane_s", <a href="../../ops/LaneOpsSpecs/index.html#on_lane">on_lane</a> 8 extract.I16x8ExtractLaneS)
<a href="../../ops/LaneOpsSpecs/index.html#extract_row">extract_row</a> extract_kind.I16x8ExtractLaneU = (codes "i16x8_extract_lane_u", <a href="../../ops/LaneOpsSpecs/index.html#on_lane">on_lane</a> 8 extract.I16x8ExtractLaneU)
<a href="../../ops/LaneOpsSpecs/index.html#extract_row">extract_row</a> extract_kind.I32x4ExtractLane = (codes "i32x4_extract_lane", <a href="../../ops/LaneOpsSpecs/index.html#on_lane">on_lane</a> 4 extract.I32x4ExtractLane)
<a href="../../ops/LaneOpsSpecs/index.html#extract_row">extract_row</a> extract_kind.I64x2ExtractLane = (codes "i64x2_extract_lane", <a href="../../ops/LaneOpsSpecs/index.html#on_lane">on_lane</a> 2 extract.I64x2ExtractLane)

-- the row of a replacement of a lane: its name, and the instruction on the lane of an index
abbrev pub <b id="replace_row">replace_row</b> : ReplaceKind → List ℕ × (ℕ → Option ReplaceOp)
<a href="../../ops/LaneOpsSpecs/index.html#replace_row">replace_row</a> replace_kind.I8x16ReplaceLane = (codes "i8x16_replace_lane", <a href="../../ops/LaneOpsSpecs/index.html#on_lane">on_lane</a> 16 replace.I8x16ReplaceLane)
<a href="../../ops/LaneOpsSpecs/index.html#replace_row">replace_row</a> replace_kind.I16x8ReplaceLane = (codes "i16x8_replace_lane", <a href="../../ops/LaneOpsSpecs/index.html#on_lane">on_lane</a> 8 replace.I16x8ReplaceLane)
<a href="../../ops/LaneOpsSpecs/index.html#replace_row">replace_row</a> replace_kind.I32x4ReplaceLane = (codes "i32x4_replace_lane", <a href="../../ops/LaneOpsSpecs/index.html#on_lane">on_lane</a> 4 replace.I32x4ReplaceLane)
<a href="../../ops/LaneOpsSpecs/index.html#replace_row">replace_row</a> replace_kind.I64x2ReplaceLane = (codes "i64x2_replace_lane", <a href="../../ops/LaneOpsSpecs/index.html#on_lane">on_lane</a> 2 replace.I64x2ReplaceLane)

-- the row of a load of a lane: its name, and the instruction on the lane of an index
abbrev pub <b id="load_lane_row">load_lane_row</b> : LoadLaneKind → List ℕ × (ℕ → Option LoadLaneOp)
<a href="../../ops/LaneOpsSpecs/index.html#load_lane_row">load_lane_row</a> load_lane_kind.V128Load8Lane = (codes "v128_load8_lane", <a href="../../ops/LaneOpsSpecs/index.html#on_lane">on_lane</a> 16 load_lane.V128Load8Lane)
<a href="../../ops/LaneOpsSpecs/index.html#load_lane_row">load_lane_row</a> load_lane_kind.V128Load16Lane = (codes "v128_load16_lane", <a href="../../ops/LaneOpsSpecs/index.html#on_lane">on_lane</a> 8 load_lane.V128Load16Lane)
<a href="../../ops/LaneOpsSpecs/index.html#load_lane_row">load_lane_row</a> load_lane_kind.V128Load32Lane = (codes "v128_load32_lane", <a href="../../ops/LaneOpsSpecs/index.html#on_lane">on_lane</a> 4 load_lane.V128Load32Lane)
<a href="../../ops/LaneOpsSpecs/index.html#load_lane_row">load_lane_row</a> load_lane_kind.V128Load64Lane = (codes "v128_load64_lane", <a href="../../ops/LaneOpsSpecs/index.html#on_lane">on_lane</a> 2 load_lane.V128Load64Lane)

-- the row of a store of a lane: its name, and the instruction on the lane of an index
abbrev pub <b id="store_lane_row">store_lane_row</b> : StoreLaneKind → List ℕ × (ℕ → Option StoreLaneOp)
<a href="../../ops/LaneOpsSpecs/index.html#store_lane_row">store_lane_row</a> store_lane_kind.V128Store8Lane = (codes "v128_store8_lane", <a href="../../ops/LaneOpsSpecs/index.html#on_lane">on_lane</a> 16 store_lane.V128Store8Lane)
<a href="../../ops/LaneOpsSpecs/index.html#store_lane_row">store_lane_row</a> store_lane_kind.V128Store16Lane = (codes "v128_store16_lane", <a href="../../ops/LaneOpsSpecs/index.html#on_lane">on_lane</a> 8 store_lane.V128Store16Lane)
<a href="../../ops/LaneOpsSpecs/index.html#store_lane_row">store_lane_row</a> store_lane_kind.V128Store32Lane = (codes "v128_store32_lane", <a href="../../ops/LaneOpsSpecs/index.html#on_lane">on_lane</a> 4 store_lane.V128Store32Lane)
<a href="../../ops/LaneOpsSpecs/index.html#store_lane_row">store_lane_row</a> store_lane_kind.V128Store64Lane = (codes "v128_store64_lane", <a href="../../ops/LaneOpsSpecs/index.html#on_lane">on_lane</a> 2 store_lane.V128Store64Lane)

-- an extraction of the lane of an index
abbrev pub <b id="extract_op">extract_op</b> : ExtractKind → ℕ → Option ExtractOp
<a href="../../ops/LaneOpsSpecs/index.html#extract_op">extract_op</a> kind = (<a href="../../ops/LaneOpsSpecs/index.html#extract_row">extract_row</a> kind).1

-- a replacement of the lane of an index
abbrev pub <b id="replace_op">replace_op</b> : ReplaceKind → ℕ → Option ReplaceOp
<a href="../../ops/LaneOpsSpecs/index.html#replace_op">replace_op</a> kind = (<a href="../../ops/LaneOpsSpecs/index.html#replace_row">replace_row</a> kind).1

-- a load of the lane of an index
abbrev pub <b id="load_lane_op">load_lane_op</b> : LoadLaneKind → ℕ → Option LoadLaneOp
<a href="../../ops/LaneOpsSpecs/index.html#load_lane_op">load_lane_op</a> kind = (<a href="../../ops/LaneOpsSpecs/index.html#load_lane_row">load_lane_row</a> kind).1

-- a store of the lane of an index
abbrev pub <b id="store_lane_op">store_lane_op</b> : StoreLaneKind → ℕ → Option StoreLaneOp
<a href="../../ops/LaneOpsSpecs/index.html#store_lane_op">store_lane_op</a> kind = (<a href="../../ops/LaneOpsSpecs/index.html#store_lane_row">store_lane_row</a> kind).1

-- the name of an extraction of a lane
abbrev pub <b id="extract_name">extract_name</b> : ExtractKind → List ℕ
<a href="../../ops/LaneOpsSpecs/index.html#extract_name">extract_name</a> kind = (<a href="../../ops/LaneOpsSpecs/index.html#extract_row">extract_row</a> kind).0

-- the name of a replacement of a lane
abbrev pub <b id="replace_name">replace_name</b> : ReplaceKind → List ℕ
<a href="../../ops/LaneOpsSpecs/index.html#replace_name">replace_name</a> kind = (<a href="../../ops/LaneOpsSpecs/index.html#replace_row">replace_row</a> kind).0

-- the name of a load of a lane
abbrev pub <b id="load_lane_name">load_lane_name</b> : LoadLaneKind → List ℕ
<a href="../../ops/LaneOpsSpecs/index.html#load_lane_name">load_lane_name</a> kind = (<a href="../../ops/LaneOpsSpecs/index.html#load_lane_row">load_lane_row</a> kind).0

-- the name of a store of a lane
abbrev pub <b id="store_lane_name">store_lane_name</b> : StoreLaneKind → List ℕ
<a href="../../ops/LaneOpsSpecs/index.html#store_lane_name">store_lane_name</a> kind = (<a href="../../ops/LaneOpsSpecs/index.html#store_lane_row">store_lane_row</a> kind).0
</code></pre>
"####]
    pub mod LaneOpsSpecs {}
    #[doc = r####"The scalar loads and stores: a row for each, its name and what it gives or writes, as raw values.

<pre><code>use Rattle.std.specs.Prelude.{ℤ, Result, Ok, Err, ℕ, List, codes, ◌/◌, ◌%◌, ◌^◌, pos}
use Rattle.std.specs.Int.{Width, cast_unsigned, w8, w16, w32, w64, cast_signed}
use Rattle.wasmi_types.specs.declared.trap.TrapCode.{TrapCode}
use Rattle.wasmi_raw.specs.declared.raw.RawVal.{RawVal}
use Rattle.wasmi_raw.specs.RawVal.{<a href="../../raw/RawValSpecs/index.html#raw_of">raw_of</a>}
use mir.Val.{bits}
use Rattle.wasmi_types.specs.Numbers.{<a href="../../types/NumbersSpecs/index.html#le_bytes">le_bytes</a>}
use Rattle.wasmi_access.specs.LoadStore.{<a href="../../accesses/LoadStoreSpecs/index.html#loaded">loaded</a>}
use Rattle.wasmi_ops.specs.declared.{load_store.LoadOp.LoadOp, load_store.StoreOp.StoreOp}
use Rattle.wasmi_ops.specs.declared.load_store.LoadOp.TheVariants as load
use Rattle.wasmi_ops.specs.declared.load_store.StoreOp.TheVariants as store

-- the raw value of a signed number of a width, as a load or another instruction gives it
abbrev pub <b id="signed_raw">signed_raw</b> : Width → ℤ → RawVal
<a href="../../ops/LoadStoreOpsSpecs/index.html#signed_raw">signed_raw</a> w z = <a href="../../raw/RawValSpecs/index.html#raw_of">raw_of</a> (cast_unsigned w z)

-- what a load, or another instruction, answers as a raw value; a trap stays
abbrev pub <b id="as_raw">as_raw</b> : {A : Type 0} → (A → RawVal) → Result A TrapCode → Result RawVal TrapCode
<a href="../../ops/LoadStoreOpsSpecs/index.html#as_raw">as_raw</a> raw (Ok value) = Ok (raw value)
<a href="../../ops/LoadStoreOpsSpecs/index.html#as_raw">as_raw</a> raw (Err trap) = Err trap

-- what a load from an address in a memory of these bytes gives, or its trap
abbrev pub <b id="RawLoad">RawLoad</b> : Type 0
<a href="../../ops/LoadStoreOpsSpecs/index.html#RawLoad">RawLoad</a> = List ℕ → ℕ → Result RawVal TrapCode

-- the load of a number of a narrow width, sign-extended to a width
abbrev pub <b id="sign_extended">sign_extended</b> : Width → Width → <a href="../../ops/LoadStoreOpsSpecs/index.html#RawLoad">RawLoad</a>
<a href="../../ops/LoadStoreOpsSpecs/index.html#sign_extended">sign_extended</a> w narrow bytes a = <a href="../../ops/LoadStoreOpsSpecs/index.html#as_raw">as_raw</a> (<a href="../../ops/LoadStoreOpsSpecs/index.html#signed_raw">signed_raw</a> w) (<a href="../../accesses/LoadStoreSpecs/index.html#loaded">loaded</a> (bits narrow / 8) (cast_signed narrow) bytes a)

-- the load of a number of a narrow width, zero-extended to a width
abbrev pub <b id="zero_extended">zero_extended</b> : Width → Width → <a href="../../ops/LoadStoreOpsSpecs/index.html#RawLoad">RawLoad</a>
<a href="../../ops/LoadStoreOpsSpecs/index.html#zero_extended">zero_extended</a> w narrow bytes a = <a href="../../ops/LoadStoreOpsSpecs/index.html#as_raw">as_raw</a> (<a href="../../ops/LoadStoreOpsSpecs/index.html#signed_raw">signed_raw</a> w) (<a href="../../accesses/LoadStoreSpecs/index.html#loaded">loaded</a> (bits narrow / 8) pos bytes a)

-- the load of a value of a width
abbrev pub <b id="unextended">unextended</b> : Width → <a href="../../ops/LoadStoreOpsSpecs/index.html#RawLoad">RawLoad</a>
<a href="../../ops/LoadStoreOpsSpecs/index.html#unextended">unextended</a> w bytes a = <a href="../../ops/LoadStoreOpsSpecs/index.html#as_raw">as_raw</a> <a href="../../raw/RawValSpecs/index.html#raw_of">raw_of</a> (<a href="../../accesses/LoadStoreSpecs/index.html#loaded">loaded</a> (bits w / 8) (λ number. number) bytes a)

-- the row of a load: its name, and the load
abbrev pub <b id="load_row">load_row</b> : LoadOp → List ℕ × <a href="../../ops/LoadStoreOpsSpecs/index.html#RawLoad">RawLoad</a>
<a href="../../ops/LoadStoreOpsSpecs/index.html#load_row">load_row</a> load.I32Load8S = (codes "i32_load8_s", <a href="../../ops/LoadStoreOpsSpecs/index.html#sign_extended">sign_extended</a> w32 w8)
<a href="../../ops/LoadStoreOpsSpecs/index.html#load_row">load_row</a> load.I32Load8U = (codes "i32_load8_u", <a href="../../ops/LoadStoreOpsSpecs/index.html#zero_extended">zero_extended</a> w32 w8)
<a href="../../ops/LoadStoreOpsSpecs/index.html#load_row">load_row</a> load.I32Load16S = (codes "i32_load16_s", <a href="../../ops/LoadStoreOpsSpecs/index.html#sign_extended">sign_extended</a> w32 w16)
<a href="../../ops/LoadStoreOpsSpecs/index.html#load_row">load_row</a> load.I32Load16U = (codes "i32_load16_u", <a href="../../ops/LoadStoreOpsSpecs/index.html#zero_extended">zero_extended</a> w32 w16)
<a href="../../ops/LoadStoreOpsSpecs/index.html#load_row">load_row</a> load.I64Load8S = (codes "i64_load8_s", <a href="../../ops/LoadStoreOpsSpecs/index.html#sign_extended">sign_extended</a> w64 w8)
<a href="../../ops/LoadStoreOpsSpecs/index.html#load_row">load_row</a> load.I64Load8U = (codes "i64_load8_u", <a href="../../ops/LoadStoreOpsSpecs/index.html#zero_extended">zero_extended</a> w64 w8)
<a href="../../ops/LoadStoreOpsSpecs/index.html#load_row">load_row</a> load.I64Load16S = (codes "i64_load16_s", <a href="../../ops/LoadStoreOpsSpecs/index.html#sign_extended">sign_extended</a> w64 w16)
<a href="../../ops/LoadStoreOpsSpecs/index.html#load_row">load_row</a> load.I64Load16U = (codes "i64_load16_u", <a href="../../ops/LoadStoreOpsSpecs/index.html#zero_extended">zero_extended</a> w64 w16)
<a href="../../ops/LoadStoreOpsSpecs/index.html#load_row">load_row</a> load.I64Load32S = (codes "i64_load32_s", <a href="../../ops/LoadStoreOpsSpecs/index.html#sign_extended">sign_extended</a> w64 w32)
<a href="../../ops/LoadStoreOpsSpecs/index.html#load_row">load_row</a> load.I64Load32U = (codes "i64_load32_u", <a href="../../ops/LoadStoreOpsSpecs/index.html#zero_extended">zero_extended</a> w64 w32)
<a href="../../ops/LoadStoreOpsSpecs/index.html#load_row">load_row</a> load.LoadU32 = (codes "load_u32", <a href="../../ops/LoadStoreOpsSpecs/index.html#unextended">unextended</a> w32)
<a href="../../ops/LoadStoreOpsSpecs/index.html#load_row">load_row</a> load.LoadU64 = (codes "load_u64", <a href="../../ops/LoadStoreOpsSpecs/index.html#unextended">unextended</a> w64)

-- the load of each instruction
abbrev pub <b id="loaded_raw">loaded_raw</b> : LoadOp → <a href="../../ops/LoadStoreOpsSpecs/index.html#RawLoad">RawLoad</a>
<a href="../../ops/LoadStoreOpsSpecs/index.html#loaded_raw">loaded_raw</a> op = (<a href="../../ops/LoadStoreOpsSpecs/index.html#load_row">load_row</a> op).1

-- the name of a scalar load
abbrev pub <b id="load_name">load_name</b> : LoadOp → List ℕ
<a href="../../ops/LoadStoreOpsSpecs/index.html#load_name">load_name</a> op = (<a href="../../ops/LoadStoreOpsSpecs/index.html#load_row">load_row</a> op).0

-- the row of a store: its name, and the bytes that it writes, the low ones of the value
abbrev pub <b id="store_row">store_row</b> : StoreOp → List ℕ × (RawVal → List ℕ)
<a href="../../ops/LoadStoreOpsSpecs/index.html#store_row">store_row</a> store.I32Store8 = (codes "i32_store8", λ value. <a href="../../types/NumbersSpecs/index.html#le_bytes">le_bytes</a> 1 (value.lo % 2 ^ 8))
<a href="../../ops/LoadStoreOpsSpecs/index.html#store_row">store_row</a> store.I32Store16 = (codes "i32_store16", λ value. <a href="../../types/NumbersSpecs/index.html#le_bytes">le_bytes</a> 2 (value.lo % 2 ^ 16))
<a href="../../ops/LoadStoreOpsSpecs/index.html#store_row">store_row</a> store.I64Store8 = (codes "i64_store8", λ value. <a href="../../types/NumbersSpecs/index.html#le_bytes">le_bytes</a> 1 (value.lo % 2 ^ 8))
<a href="../../ops/LoadStoreOpsSpecs/index.html#store_row">store_row</a> store.I64Store16 = (codes "i64_store16", λ value. <a href="../../types/NumbersSpecs/index.html#le_bytes">le_bytes</a> 2 (value.lo % 2 ^ 16))
<a href="../../ops/LoadStoreOpsSpecs/index.html#store_row">store_row</a> store.I64Store32 = (codes "i64_store32", λ value. <a href="../../types/NumbersSpecs/index.html#le_bytes">le_bytes</a> 4 (value.lo % 2 ^ 32))
<a href="../../ops/LoadStoreOpsSpecs/index.html#store_row">store_row</a> store.Store32 = (codes "store32", λ value. <a href="../../types/NumbersSpecs/index.html#le_bytes">le_bytes</a> 4 (value.lo % 2 ^ 32))
<a href="../../ops/LoadStoreOpsSpecs/index.html#store_row">store_row</a> store.Store64 = (codes "store64", λ value. <a href="../../types/NumbersSpecs/index.html#le_bytes">le_bytes</a> 8 value.lo)

-- the bytes that a store writes: the low ones of the value
abbrev pub <b id="stored_bytes">stored_bytes</b> : StoreOp → RawVal → List ℕ
<a href="../../ops/LoadStoreOpsSpecs/index.html#stored_bytes">stored_bytes</a> op = (<a href="../../ops/LoadStoreOpsSpecs/index.html#store_row">store_row</a> op).1

-- the name of a scalar store
abbrev pub <b id="store_name">store_name</b> : StoreOp → List ℕ
<a href="../../ops/LoadStoreOpsSpecs/index.html#store_name">store_name</a> op = (<a href="../../ops/LoadStoreOpsSpecs/index.html#store_row">store_row</a> op).0
</code></pre>
"####]
    pub mod LoadStoreOpsSpecs {}
    #[doc = r####"The vector instructions but for those on one lane: a row for each, its name and what it gives.

<pre><code>use Rattle.std.specs.Prelude.{ℕ, List, codes, Result}
use Rattle.wasmi_types.specs.Numbers.{w8, w16, w32, w64}
use Rattle.wasmi_ops.specs.declared.{vector.UnaryOp.UnaryOp, vector.BinaryOp.BinaryOp, vector.TernaryOp.TernaryOp, vector.ShiftOp.ShiftOp, vector.TestOp.TestOp, vector.MakeOp.MakeOp, vector.VectorLoadOp.VectorLoadOp}
use Rattle.std.specs.Int.{from_bool}
use Rattle.wasmi_raw.specs.declared.raw.RawVal.{RawVal}
use Rattle.wasmi_raw.specs.RawVal.{<a href="../../raw/RawValSpecs/index.html#raw_of">raw_of</a>, <a href="../../raw/RawValSpecs/index.html#signed_in">signed_in</a>, <a href="../../raw/RawValSpecs/index.html#unsigned_in">unsigned_in</a>}
use Rattle.wasmi_types.specs.declared.trap.TrapCode.{TrapCode}
use Rattle.wasmi_access.specs.LoadStore.{<a href="../../accesses/LoadStoreSpecs/index.html#loaded">loaded</a>}
use Rattle.wasmi_lanes.specs.Vector.{<a href="../../lanes/VectorSpecs/index.html#splat_of">splat_of</a>}
use Rattle.wasmi_lanewise.specs.VectorTable as vector
use Rattle.wasmi_simd.specs.WideningTable as widening
use Rattle.wasmi_ops.specs.declared.vector.UnaryOp.TheVariants as unary
use Rattle.wasmi_ops.specs.declared.vector.BinaryOp.TheVariants as binary
use Rattle.wasmi_ops.specs.declared.vector.TernaryOp.TheVariants as ternary
use Rattle.wasmi_ops.specs.declared.vector.ShiftOp.TheVariants as shift
use Rattle.wasmi_ops.specs.declared.vector.TestOp.TheVariants as test
use Rattle.wasmi_ops.specs.declared.vector.MakeOp.TheVariants as make
use Rattle.wasmi_ops.specs.declared.vector.VectorLoadOp.TheVariants as load

-- the row of an instruction of one vector: its name, and what it gives
abbrev pub <b id="unary_row">unary_row</b> : UnaryOp → List ℕ × (ℕ → ℕ)
<a href="../../ops/VectorOpsSpecs/index.html#unary_row">unary_row</a> unary.V128Not = (codes "v128_not", <a href="../../lanewise/VectorTableSpecs/index.html#v128_not">vector.v128_not</a>)
<a href="../../ops/VectorOpsSpecs/index.html#unary_row">unary_row</a> unary.I8x16Neg = (codes "i8x16_neg", <a href="../../lanewise/VectorTableSpecs/index.html#neg">vector.neg</a> w8)
<a href="../../ops/VectorOpsSpecs/index.html#unary_row">unary_row</a> unary.I16x8Neg = (codes "i16x8_neg", <a href="../../lanewise/VectorTableSpecs/index.html#neg">vector.neg</a> w16)
<a href="../../ops/VectorOpsSpecs/index.html#unary_row">unary_row</a> unary.I32x4Neg = (codes "i32x4_neg", <a href="../../lanewise/VectorTableSpecs/index.html#neg">vector.neg</a> w32)
<a href="../../ops/VectorOpsSpecs/index.html#unary_row">unary_row</a> unary.I64x2Neg = (codes "i64x2_neg", <a href="../../lanewise/VectorTableSpecs/index.html#neg">vector.neg</a> w64)
<a href="../../ops/VectorOpsSpecs/index.html#unary_row">unary_row</a> unary.I8x16Abs = (codes "i8x16_abs", <a href="../../lanewise/VectorTableSpecs/index.html#abs">vector.abs</a> w8)
<a href="../../ops/VectorOpsSpecs/index.html#unary_row">unary_row</a> unary.I16x8Abs = (codes "i16x8_abs", <a href="../../lanewise/VectorTableSpecs/index.html#abs">vector.abs</a> w16)
<a href="../../ops/VectorOpsSpecs/index.html#unary_row">unary_row</a> unary.I32x4Abs = (codes "i32x4_abs", <a href="../../lanewise/VectorTableSpecs/index.html#abs">vector.abs</a> w32)
<a href="../../ops/VectorOpsSpecs/index.html#unary_row">unary_row</a> unary.I64x2Abs = (codes "i64x2_abs", <a href="../../lanewise/VectorTableSpecs/index.html#abs">vector.abs</a> w64)
<a href="../../ops/VectorOpsSpecs/index.html#unary_row">unary_row</a> unary.I8x16Popcnt = (codes "i8x16_popcnt", <a href="../../lanewise/VectorTableSpecs/index.html#popcnt">vector.popcnt</a> w8)
<a href="../../ops/VectorOpsSpecs/index.html#unary_row">unary_row</a> unary.I16x8ExtendLowI8x16S = (codes "i16x8_extend_low_i8x16_s", <a href="../../widening/WideningTableSpecs/index.html#extend_low_s">widening.extend_low_s</a> w8 w16)
<a href="../../ops/VectorOpsSpecs/index.html#unary_row">unary_row</a> unary.I16x8ExtendLowI8x16U = (codes "i16x8_extend_low_i8x16_u", <a href="../../widening/WideningTableSpecs/index.html#extend_low_u">widening.extend_low_u</a> w8 w16)
<a href="../../ops/VectorOpsSpecs/index.html#unary_row">unary_row</a> unary.I16x8ExtendHighI8x16S = (codes "i16x8_extend_high_i8x16_s", <a href="../../widening/WideningTableSpecs/index.html#extend_high_s">widening.extend_high_s</a> w8 w16)
<a href="../../ops/VectorOpsSpecs/index.html#unary_row">unary_row</a> unary.I16x8ExtendHighI8x16U = (codes "i16x8_extend_high_i8x16_u", <a href="../../widening/WideningTableSpecs/index.html#extend_high_u">widening.extend_high_u</a> w8 w16)
<a href="../../ops/VectorOpsSpecs/index.html#unary_row">unary_row</a> unary.I32x4ExtendLowI16x8S = (codes "i32x4_extend_low_i16x8_s", <a href="../../widening/WideningTableSpecs/index.html#extend_low_s">widening.extend_low_s</a> w16 w32)
<a href="../../ops/VectorOpsSpecs/index.html#unary_row">unary_row</a> unary.I32x4ExtendLowI16x8U = (codes "i32x4_extend_low_i16x8_u", <a href="../../widening/WideningTableSpecs/index.html#extend_low_u">widening.extend_low_u</a> w16 w32)
<a href="../../ops/VectorOpsSpecs/index.html#unary_row">unary_row</a> unary.I32x4ExtendHighI16x8S = (codes "i32x4_extend_high_i16x8_s", <a href="../../widening/WideningTableSpecs/index.html#extend_high_s">widening.extend_high_s</a> w16 w32)
<a href="../../ops/VectorOpsSpecs/index.html#unary_row">unary_row</a> unary.I32x4ExtendHighI16x8U = (codes "i32x4_extend_high_i16x8_u", <a href="../../widening/WideningTableSpecs/index.html#extend_high_u">widening.extend_high_u</a> w16 w32)
<a href="../../ops/VectorOpsSpecs/index.html#unary_row">unary_row</a> unary.I64x2ExtendLowI32x4S = (codes "i64x2_extend_low_i32x4_s", <a href="../../widening/WideningTableSpecs/index.html#extend_low_s">widening.extend_low_s</a> w32 w64)
<a href="../../ops/VectorOpsSpecs/index.html#unary_row">unary_row</a> unary.I64x2ExtendLowI32x4U = (codes "i64x2_extend_low_i32x4_u", <a href="../../widening/WideningTableSpecs/index.html#extend_low_u">widening.extend_low_u</a> w32 w64)
<a href="../../ops/VectorOpsSpecs/index.html#unary_row">unary_row</a> unary.I64x2ExtendHighI32x4S = (codes "i64x2_extend_high_i32x4_s", <a href="../../widening/WideningTableSpecs/index.html#extend_high_s">widening.extend_high_s</a> w32 w64)
<a href="../../ops/VectorOpsSpecs/index.html#unary_row">unary_row</a> unary.I64x2ExtendHighI32x4U = (codes "i64x2_extend_high_i32x4_u", <a href="../../widening/WideningTableSpecs/index.html#extend_high_u">widening.extend_high_u</a> w32 w64)
<a href="../../ops/VectorOpsSpecs/index.html#unary_row">unary_row</a> unary.I16x8ExtaddPairwiseI8x16S = (codes "i16x8_extadd_pairwise_i8x16_s", <a href="../../widening/WideningTableSpecs/index.html#extadd_pairwise_s">widening.extadd_pairwise_s</a> w8 w16)
<a href="../../ops/VectorOpsSpecs/index.html#unary_row">unary_row</a> unary.I16x8ExtaddPairwiseI8x16U = (codes "i16x8_extadd_pairwise_i8x16_u", <a href="../../widening/WideningTableSpecs/index.html#extadd_pairwise_u">widening.extadd_pairwise_u</a> w8 w16)
<a href="../../ops/VectorOpsSpecs/index.html#unary_row">unary_row</a> unary.I32x4ExtaddPairwiseI16x8S = (codes "i32x4_extadd_pairwise_i16x8_s", <a href="../../widening/WideningTableSpecs/index.html#extadd_pairwise_s">widening.extadd_pairwise_s</a> w16 w32)
<a href="../../ops/VectorOpsSpecs/index.html#unary_row">unary_row</a> unary.I32x4ExtaddPairwiseI16x8U = (codes "i32x4_extadd_pairwise_i16x8_u", <a href="../../widening/WideningTableSpecs/index.html#extadd_pairwise_u">widening.extadd_pairwise_u</a> w16 w32)

-- what an instruction of one vector gives
abbrev pub <b id="unary_vector">unary_vector</b> : UnaryOp → ℕ → ℕ
<a href="../../ops/VectorOpsSpecs/index.html#unary_vector">unary_vector</a> op = (<a href="../../ops/VectorOpsSpecs/index.html#unary_row">unary_row</a> op).1

-- the name of an instruction of one vector
abbrev pub <b id="unary_name">unary_name</b> : UnaryOp → List ℕ
<a href="../../ops/VectorOpsSpecs/index.html#unary_name">unary_name</a> op = (<a href="../../ops/VectorOpsSpecs/index.html#unary_row">unary_row</a> op).0

-- the row of an instruction of two vectors: its name, and what it gives
abbrev pub <b id="binary_row">binary_row</b> : BinaryOp → List ℕ × (ℕ → ℕ → ℕ)
<a href="../../ops/VectorOpsSpecs/index.html#binary_row">binary_row</a> binary.I8x16Add = (codes "i8x16_add", <a href="../../lanewise/VectorTableSpecs/index.html#add">vector.add</a> w8)
<a href="../../ops/VectorOpsSpecs/index.html#binary_row">binary_row</a> binary.I16x8Add = (codes "i16x8_add", <a href="../../lanewise/VectorTableSpecs/index.html#add">vector.add</a> w16)
<a href="../../ops/VectorOpsSpecs/index.html#binary_row">binary_row</a> binary.I32x4Add = (codes "i32x4_add", <a href="../../lanewise/VectorTableSpecs/index.html#add">vector.add</a> w32)
<a href="../../ops/VectorOpsSpecs/index.html#binary_row">binary_row</a> binary.I64x2Add = (codes "i64x2_add", <a href="../../lanewise/VectorTableSpecs/index.html#add">vector.add</a> w64)
<a href="../../ops/VectorOpsSpecs/index.html#binary_row">binary_row</a> binary.I8x16Sub = (codes "i8x16_sub", <a href="../../lanewise/VectorTableSpecs/index.html#sub">vector.sub</a> w8)
<a href="../../ops/VectorOpsSpecs/index.html#binary_row">binary_row</a> binary.I16x8Sub = (codes "i16x8_sub", <a href="../../lanewise/VectorTableSpecs/index.html#sub">vector.sub</a> w16)
<a href="../../ops/VectorOpsSpecs/index.html#binary_row">binary_row</a> binary.I32x4Sub = (codes "i32x4_sub", <a href="../../lanewise/VectorTableSpecs/index.html#sub">vector.sub</a> w32)
<a href="../../ops/VectorOpsSpecs/index.html#binary_row">binary_row</a> binary.I64x2Sub = (codes "i64x2_sub", <a href="../../lanewise/VectorTableSpecs/index.html#sub">vector.sub</a> w64)
<a href="../../ops/VectorOpsSpecs/index.html#binary_row">binary_row</a> binary.I8x16Mul = (codes "i8x16_mul", <a href="../../lanewise/VectorTableSpecs/index.html#mul">vector.mul</a> w8)
<a href="../../ops/VectorOpsSpecs/index.html#binary_row">binary_row</a> binary.I16x8Mul = (codes "i16x8_mul", <a href="../../lanewise/VectorTableSpecs/index.html#mul">vector.mul</a> w16)
<a href="../../ops/VectorOpsSpecs/index.html#binary_row">binary_row</a> binary.I32x4Mul = (codes "i32x4_mul", <a href="../../lanewise/VectorTableSpecs/index.html#mul">vector.mul</a> w32)
<a href="../../ops/VectorOpsSpecs/index.html#binary_row">binary_row</a> binary.I64x2Mul = (codes "i64x2_mul", <a href="../../lanewise/VectorTableSpecs/index.html#mul">vector.mul</a> w64)
<a href="../../ops/VectorOpsSpecs/index.html#binary_row">binary_row</a> binary.I8x16AddSatS = (codes "i8x16_add_sat_s", <a href="../../lanewise/VectorTableSpecs/index.html#add_sat_s">vector.add_sat_s</a> w8)
<a href="../../ops/VectorOpsSpecs/index.html#binary_row">binary_row</a> binary.I8x16AddSatU = (codes "i8x16_add_sat_u", <a href="../../lanewise/VectorTableSpecs/index.html#add_sat_u">vector.add_sat_u</a> w8)
<a href="../../ops/VectorOpsSpecs/index.html#binary_row">binary_row</a> binary.I16x8AddSatS = (codes "i16x8_add_sat_s", <a href="../../lanewise/VectorTableSpecs/index.html#add_sat_s">vector.add_sat_s</a> w16)
<a href="../../ops/VectorOpsSpecs/index.html#binary_row">binary_row</a> binary.I16x8AddSatU = (codes "i16x8_add_sat_u", <a href="../../lanewise/VectorTableSpecs/index.html#add_sat_u">vector.add_sat_u</a> w16)
<a href="../../ops/VectorOpsSpecs/index.html#binary_row">binary_row</a> binary.I8x16SubSatS = (codes "i8x16_sub_sat_s", <a href="../../lanewise/VectorTableSpecs/index.html#sub_sat_s">vector.sub_sat_s</a> w8)
<a href="../../ops/VectorOpsSpecs/index.html#binary_row">binary_row</a> binary.I8x16SubSatU = (codes "i8x16_sub_sat_u", <a href="../../lanewise/VectorTableSpecs/index.html#sub_sat_u">vector.sub_sat_u</a> w8)
<a href="../../ops/VectorOpsSpecs/index.html#binary_row">binary_row</a> binary.I16x8SubSatS = (codes "i16x8_sub_sat_s", <a href="../../lanewise/VectorTableSpecs/index.html#sub_sat_s">vector.sub_sat_s</a> w16)
<a href="../../ops/VectorOpsSpecs/index.html#binary_row">binary_row</a> binary.I16x8SubSatU = (codes "i16x8_sub_sat_u", <a href="../../lanewise/VectorTableSpecs/index.html#sub_sat_u">vector.sub_sat_u</a> w16)
<a href="../../ops/VectorOpsSpecs/index.html#binary_row">binary_row</a> binary.I16x8Q15mulrSatS = (codes "i16x8_q15mulr_sat_s", <a href="../../lanewise/VectorTableSpecs/index.html#q15mulr_sat_s">vector.q15mulr_sat_s</a>)
<a href="../../ops/VectorOpsSpecs/index.html#binary_row">binary_row</a> binary.I8x16MinS = (codes "i8x16_min_s", <a href="../../lanewise/VectorTableSpecs/index.html#min_s">vector.min_s</a> w8)
<a href="../../ops/VectorOpsSpecs/index.html#binary_row">binary_row</a> binary.I8x16MinU = (codes "i8x16_min_u", <a href="../../lanewise/VectorTableSpecs/index.html#min_u">vector.min_u</a> w8)
<a href="../../ops/VectorOpsSpecs/index.html#binary_row">binary_row</a> binary.I16x8MinS = (codes "i16x8_min_s", <a href="../../lanewise/VectorTableSpecs/index.html#min_s">vector.min_s</a> w16)
<a href="../../ops/VectorOpsSpecs/index.html#binary_row">binary_row</a> binary.I16x8MinU = (codes "i16x8_min_u", <a href="../../lanewise/VectorTableSpecs/index.html#min_u">vector.min_u</a> w16)
<a href="../../ops/VectorOpsSpecs/index.html#binary_row">binary_row</a> binary.I32x4MinS = (codes "i32x4_min_s", <a href="../../lanewise/VectorTableSpecs/index.html#min_s">vector.min_s</a> w32)
<a href="../../ops/VectorOpsSpecs/index.html#binary_row">binary_row</a> binary.I32x4MinU = (codes "i32x4_min_u", <a href="../../lanewise/VectorTableSpecs/index.html#min_u">vector.min_u</a> w32)
<a href="../../ops/VectorOpsSpecs/index.html#binary_row">binary_row</a> binary.I8x16MaxS = (codes "i8x16_max_s", <a href="../../lanewise/VectorTableSpecs/index.html#max_s">vector.max_s</a> w8)
<a href="../../ops/VectorOpsSpecs/index.html#binary_row">binary_row</a> binary.I8x16MaxU = (codes "i8x16_max_u", <a href="../../lanewise/VectorTableSpecs/index.html#max_u">vector.max_u</a> w8)
<a href="../../ops/VectorOpsSpecs/index.html#binary_row">binary_row</a> binary.I16x8MaxS = (codes "i16x8_max_s", <a href="../../lanewise/VectorTableSpecs/index.html#max_s">vector.max_s</a> w16)
<a href="../../ops/VectorOpsSpecs/index.html#binary_row">binary_row</a> binary.I16x8MaxU = (codes "i16x8_max_u", <a href="../../lanewise/VectorTableSpecs/index.html#max_u">vector.max_u</a> w16)
<a href="../../ops/VectorOpsSpecs/index.html#binary_row">binary_row</a> binary.I32x4MaxS = (codes "i32x4_max_s", <a href="../../lanewise/VectorTableSpecs/index.html#max_s">vector.max_s</a> w32)
<a href="../../ops/VectorOpsSpecs/index.html#binary_row">binary_row</a> binary.I32x4MaxU = (codes "i32x4_max_u", <a href="../../lanewise/VectorTableSpecs/index.html#max_u">vector.max_u</a> w32)
<a href="../../ops/VectorOpsSpecs/index.html#binary_row">binary_row</a> binary.I8x16AvgrU = (codes "i8x16_avgr_u", <a href="../../lanewise/VectorTableSpecs/index.html#avgr_u">vector.avgr_u</a> w8)
<a href="../../ops/VectorOpsSpecs/index.html#binary_row">binary_row</a> binary.I16x8AvgrU = (codes "i16x8_avgr_u", <a href="../../lanewise/VectorTableSpecs/index.html#avgr_u">vector.avgr_u</a> w16)
<a href="../../ops/VectorOpsSpecs/index.html#binary_row">binary_row</a> binary.V128And = (codes "v128_and", <a href="../../lanewise/VectorTableSpecs/index.html#v128_and">vector.v128_and</a>)
<a href="../../ops/VectorOpsSpecs/index.html#binary_row">binary_row</a> binary.V128Or = (codes "v128_or", <a href="../../lanewise/VectorTableSpecs/index.html#v128_or">vector.v128_or</a>)
<a href="../../ops/VectorOpsSpecs/index.html#binary_row">binary_row</a> binary.V128Xor = (codes "v128_xor", <a href="../../lanewise/VectorTableSpecs/index.html#v128_xor">vector.v128_xor</a>)
<a href="../../ops/VectorOpsSpecs/index.html#binary_row">binary_row</a> binary.V128Andnot = (codes "v128_andnot", <a href="../../lanewise/VectorTableSpecs/index.html#v128_andnot">vector.v128_andnot</a>)
<a href="../../ops/VectorOpsSpecs/index.html#binary_row">binary_row</a> binary.I8x16Eq = (codes "i8x16_eq", <a href="../../lanewise/VectorTableSpecs/index.html#eq">vector.eq</a> w8)
<a href="../../ops/VectorOpsSpecs/index.html#binary_row">binary_row</a> binary.I16x8Eq = (codes "i16x8_eq", <a href="../../lanewise/VectorTableSpecs/index.html#eq">vector.eq</a> w16)
<a href="../../ops/VectorOpsSpecs/index.html#binary_row">binary_row</a> binary.I32x4Eq = (codes "i32x4_eq", <a href="../../lanewise/VectorTableSpecs/index.html#eq">vector.eq</a> w32)
<a href="../../ops/VectorOpsSpecs/index.html#binary_row">binary_row</a> binary.I64x2Eq = (codes "i64x2_eq", <a href="../../lanewise/VectorTableSpecs/index.html#eq">vector.eq</a> w64)
<a href="../../ops/VectorOpsSpecs/index.html#binary_row">binary_row</a> binary.I8x16Ne = (codes "i8x16_ne", <a href="../../lanewise/VectorTableSpecs/index.html#ne">vector.ne</a> w8)
<a href="../../ops/VectorOpsSpecs/index.html#binary_row">binary_row</a> binary.I16x8Ne = (codes "i16x8_ne", <a href="../../lanewise/VectorTableSpecs/index.html#ne">vector.ne</a> w16)
<a href="../../ops/VectorOpsSpecs/index.html#binary_row">binary_row</a> binary.I32x4Ne = (codes "i32x4_ne", <a href="../../lanewise/VectorTableSpecs/index.html#ne">vector.ne</a> w32)
<a href="../../ops/VectorOpsSpecs/index.html#binary_row">binary_row</a> binary.I64x2Ne = (codes "i64x2_ne", <a href="../../lanewise/VectorTableSpecs/index.html#ne">vector.ne</a> w64)
<a href="../../ops/VectorOpsSpecs/index.html#binary_row">binary_row</a> binary.I8x16LtS = (codes "i8x16_lt_s", <a href="../../lanewise/VectorTableSpecs/index.html#lt_s">vector.lt_s</a> w8)
<a href="../../ops/VectorOpsSpecs/index.html#binary_row">binary_row</a> binary.I16x8LtS = (codes "i16x8_lt_s", <a href="../../lanewise/VectorTableSpecs/index.html#lt_s">vector.lt_s</a> w16)
<a href="../../ops/VectorOpsSpecs/index.html#binary_row">binary_row</a> binary.I32x4LtS = (codes "i32x4_lt_s", <a href="../../lanewise/VectorTableSpecs/index.html#lt_s">vector.lt_s</a> w32)
<a href="../../ops/VectorOpsSpecs/index.html#binary_row">binary_row</a> binary.I64x2LtS = (codes "i64x2_lt_s", <a href="../../lanewise/VectorTableSpecs/index.html#lt_s">vector.lt_s</a> w64)
<a href="../../ops/VectorOpsSpecs/index.html#binary_row">binary_row</a> binary.I8x16LtU = (codes "i8x16_lt_u", <a href="../../lanewise/VectorTableSpecs/index.html#lt_u">vector.lt_u</a> w8)
<a href="../../ops/VectorOpsSpecs/index.html#binary_row">binary_row</a> binary.I16x8LtU = (codes "i16x8_lt_u", <a href="../../lanewise/VectorTableSpecs/index.html#lt_u">vector.lt_u</a> w16)
<a href="../../ops/VectorOpsSpecs/index.html#binary_row">binary_row</a> binary.I32x4LtU = (codes "i32x4_lt_u", <a href="../../lanewise/VectorTableSpecs/index.html#lt_u">vector.lt_u</a> w32)
<a href="../../ops/VectorOpsSpecs/index.html#binary_row">binary_row</a> binary.I8x16LeS = (codes "i8x16_le_s", <a href="../../lanewise/VectorTableSpecs/index.html#le_s">vector.le_s</a> w8)
<a href="../../ops/VectorOpsSpecs/index.html#binary_row">binary_row</a> binary.I16x8LeS = (codes "i16x8_le_s", <a href="../../lanewise/VectorTableSpecs/index.html#le_s">vector.le_s</a> w16)
<a href="../../ops/VectorOpsSpecs/index.html#binary_row">binary_row</a> binary.I32x4LeS = (codes "i32x4_le_s", <a href="../../lanewise/VectorTableSpecs/index.html#le_s">vector.le_s</a> w32)
<a href="../../ops/VectorOpsSpecs/index.html#binary_row">binary_row</a> binary.I64x2LeS = (codes "i64x2_le_s", <a href="../../lanewise/VectorTableSpecs/index.html#le_s">vector.le_s</a> w64)
<a href="../../ops/VectorOpsSpecs/index.html#binary_row">binary_row</a> binary.I8x16LeU = (codes "i8x16_le_u", <a href="../../lanewise/VectorTableSpecs/index.html#le_u">vector.le_u</a> w8)
<a href="../../ops/VectorOpsSpecs/index.html#binary_row">binary_row</a> binary.I16x8LeU = (codes "i16x8_le_u", <a href="../../lanewise/VectorTableSpecs/index.html#le_u">vector.le_u</a> w16)
<a href="../../ops/VectorOpsSpecs/index.html#binary_row">binary_row</a> binary.I32x4LeU = (codes "i32x4_le_u", <a href="../../lanewise/VectorTableSpecs/index.html#le_u">vector.le_u</a> w32)
<a href="../../ops/VectorOpsSpecs/index.html#binary_row">binary_row</a> binary.I8x16GtS = (codes "i8x16_gt_s", <a href="../../lanewise/VectorTableSpecs/index.html#gt_s">vector.gt_s</a> w8)
<a href="../../ops/VectorOpsSpecs/index.html#binary_row">binary_row</a> binary.I16x8GtS = (codes "i16x8_gt_s", <a href="../../lanewise/VectorTableSpecs/index.html#gt_s">vector.gt_s</a> w16)
<a href="../../ops/VectorOpsSpecs/index.html#binary_row">binary_row</a> binary.I32x4GtS = (codes "i32x4_gt_s", <a href="../../lanewise/VectorTableSpecs/index.html#gt_s">vector.gt_s</a> w32)
<a href="../../ops/VectorOpsSpecs/index.html#binary_row">binary_row</a> binary.I64x2GtS = (codes "i64x2_gt_s", <a href="../../lanewise/VectorTableSpecs/index.html#gt_s">vector.gt_s</a> w64)
<a href="../../ops/VectorOpsSpecs/index.html#binary_row">binary_row</a> binary.I8x16GtU = (codes "i8x16_gt_u", <a href="../../lanewise/VectorTableSpecs/index.html#gt_u">vector.gt_u</a> w8)
<a href="../../ops/VectorOpsSpecs/index.html#binary_row">binary_row</a> binary.I16x8GtU = (codes "i16x8_gt_u", <a href="../../lanewise/VectorTableSpecs/index.html#gt_u">vector.gt_u</a> w16)
<a href="../../ops/VectorOpsSpecs/index.html#binary_row">binary_row</a> binary.I32x4GtU = (codes "i32x4_gt_u", <a href="../../lanewise/VectorTableSpecs/index.html#gt_u">vector.gt_u</a> w32)
<a href="../../ops/VectorOpsSpecs/index.html#binary_row">binary_row</a> binary.I8x16GeS = (codes "i8x16_ge_s", <a href="../../lanewise/VectorTableSpecs/index.html#ge_s">vector.ge_s</a> w8)
<a href="../../ops/VectorOpsSpecs/index.html#binary_row">binary_row</a> binary.I16x8GeS = (codes "i16x8_ge_s", <a href="../../lanewise/VectorTableSpecs/index.html#ge_s">vector.ge_s</a> w16)
<a href="../../ops/VectorOpsSpecs/index.html#binary_row">binary_row</a> binary.I32x4GeS = (codes "i32x4_ge_s", <a href="../../lanewise/VectorTableSpecs/index.html#ge_s">vector.ge_s</a> w32)
<a href="../../ops/VectorOpsSpecs/index.html#binary_row">binary_row</a> binary.I64x2GeS = (codes "i64x2_ge_s", <a href="../../lanewise/VectorTableSpecs/index.html#ge_s">vector.ge_s</a> w64)
<a href="../../ops/VectorOpsSpecs/index.html#binary_row">binary_row</a> binary.I8x16GeU = (codes "i8x16_ge_u", <a href="../../lanewise/VectorTableSpecs/index.html#ge_u">vector.ge_u</a> w8)
<a href="../../ops/VectorOpsSpecs/index.html#binary_row">binary_row</a> binary.I16x8GeU = (codes "i16x8_ge_u", <a href="../../lanewise/VectorTableSpecs/index.html#ge_u">vector.ge_u</a> w16)
<a href="../../ops/VectorOpsSpecs/index.html#binary_row">binary_row</a> binary.I32x4GeU = (codes "i32x4_ge_u", <a href="../../lanewise/VectorTableSpecs/index.html#ge_u">vector.ge_u</a> w32)
<a href="../../ops/VectorOpsSpecs/index.html#binary_row">binary_row</a> binary.I8x16Swizzle = (codes "i8x16_swizzle", <a href="../../lanewise/VectorTableSpecs/index.html#swizzle">vector.swizzle</a>)
<a href="../../ops/VectorOpsSpecs/index.html#binary_row">binary_row</a> binary.I16x8ExtmulLowI8x16S = (codes "i16x8_extmul_low_i8x16_s", <a href="../../widening/WideningTableSpecs/index.html#extmul_low_s">widening.extmul_low_s</a> w8 w16)
<a href="../../ops/VectorOpsSpecs/index.html#binary_row">binary_row</a> binary.I16x8ExtmulLowI8x16U = (codes "i16x8_extmul_low_i8x16_u", <a href="../../widening/WideningTableSpecs/index.html#extmul_low_u">widening.extmul_low_u</a> w8 w16)
<a href="../../ops/VectorOpsSpecs/index.html#binary_row">binary_row</a> binary.I16x8ExtmulHighI8x16S = (codes "i16x8_extmul_high_i8x16_s", <a href="../../widening/WideningTableSpecs/index.html#extmul_high_s">widening.extmul_high_s</a> w8 w16)
<a href="../../ops/VectorOpsSpecs/index.html#binary_row">binary_row</a> binary.I16x8ExtmulHighI8x16U = (codes "i16x8_extmul_high_i8x16_u", <a href="../../widening/WideningTableSpecs/index.html#extmul_high_u">widening.extmul_high_u</a> w8 w16)
<a href="../../ops/VectorOpsSpecs/index.html#binary_row">binary_row</a> binary.I32x4ExtmulLowI16x8S = (codes "i32x4_extmul_low_i16x8_s", <a href="../../widening/WideningTableSpecs/index.html#extmul_low_s">widening.extmul_low_s</a> w16 w32)
<a href="../../ops/VectorOpsSpecs/index.html#binary_row">binary_row</a> binary.I32x4ExtmulLowI16x8U = (codes "i32x4_extmul_low_i16x8_u", <a href="../../widening/WideningTableSpecs/index.html#extmul_low_u">widening.extmul_low_u</a> w16 w32)
<a href="../../ops/VectorOpsSpecs/index.html#binary_row">binary_row</a> binary.I32x4ExtmulHighI16x8S = (codes "i32x4_extmul_high_i16x8_s", <a href="../../widening/WideningTableSpecs/index.html#extmul_high_s">widening.extmul_high_s</a> w16 w32)
<a href="../../ops/VectorOpsSpecs/index.html#binary_row">binary_row</a> binary.I32x4ExtmulHighI16x8U = (codes "i32x4_extmul_high_i16x8_u", <a href="../../widening/WideningTableSpecs/index.html#extmul_high_u">widening.extmul_high_u</a> w16 w32)
<a href="../../ops/VectorOpsSpecs/index.html#binary_row">binary_row</a> binary.I64x2ExtmulLowI32x4S = (codes "i64x2_extmul_low_i32x4_s", <a href="../../widening/WideningTableSpecs/index.html#extmul_low_s">widening.extmul_low_s</a> w32 w64)
<a href="../../ops/VectorOpsSpecs/index.html#binary_row">binary_row</a> binary.I64x2ExtmulLowI32x4U = (codes "i64x2_extmul_low_i32x4_u", <a href="../../widening/WideningTableSpecs/index.html#extmul_low_u">widening.extmul_low_u</a> w32 w64)
<a href="../../ops/VectorOpsSpecs/index.html#binary_row">binary_row</a> binary.I64x2ExtmulHighI32x4S = (codes "i64x2_extmul_high_i32x4_s", <a href="../../widening/WideningTableSpecs/index.html#extmul_high_s">widening.extmul_high_s</a> w32 w64)
<a href="../../ops/VectorOpsSpecs/index.html#binary_row">binary_row</a> binary.I64x2ExtmulHighI32x4U = (codes "i64x2_extmul_high_i32x4_u", <a href="../../widening/WideningTableSpecs/index.html#extmul_high_u">widening.extmul_high_u</a> w32 w64)
<a href="../../ops/VectorOpsSpecs/index.html#binary_row">binary_row</a> binary.I8x16NarrowI16x8S = (codes "i8x16_narrow_i16x8_s", <a href="../../widening/WideningTableSpecs/index.html#narrow_s">widening.narrow_s</a> w16 w8)
<a href="../../ops/VectorOpsSpecs/index.html#binary_row">binary_row</a> binary.I8x16NarrowI16x8U = (codes "i8x16_narrow_i16x8_u", <a href="../../widening/WideningTableSpecs/index.html#narrow_u">widening.narrow_u</a> w16 w8)
<a href="../../ops/VectorOpsSpecs/index.html#binary_row">binary_row</a> binary.I16x8NarrowI32x4S = (codes "i16x8_narrow_i32x4_s", <a href="../../widening/WideningTableSpecs/index.html#narrow_s">widening.narrow_s</a> w32 w16)
<a href="../../ops/VectorOpsSpecs/index.html#binary_row">binary_row</a> binary.I16x8NarrowI32x4U = (codes "i16x8_narrow_i32x4_u", <a href="../../widening/WideningTableSpecs/index.html#narrow_u">widening.narrow_u</a> w32 w16)
<a href="../../ops/VectorOpsSpecs/index.html#binary_row">binary_row</a> binary.I32x4DotI16x8S = (codes "i32x4_dot_i16x8_s", <a href="../../widening/WideningTableSpecs/index.html#dot_s">widening.dot_s</a> w16 w32)
<a href="../../ops/VectorOpsSpecs/index.html#binary_row">binary_row</a> binary.I16x8RelaxedDotI8x16I7x16S = (codes "i16x8_relaxed_dot_i8x16_i7x16_s", <a href="../../widening/WideningTableSpecs/index.html#relaxed_dot_s">widening.relaxed_dot_s</a>)
<a href="../../ops/VectorOpsSpecs/index.html#binary_row">binary_row</a> binary.I8x16RelaxedSwizzle = (codes "i8x16_relaxed_swizzle", <a href="../../widening/WideningTableSpecs/index.html#relaxed_swizzle">widening.relaxed_swizzle</a>)
<a href="../../ops/VectorOpsSpecs/index.html#binary_row">binary_row</a> binary.I16x8RelaxedQ15mulrS = (codes "i16x8_relaxed_q15mulr_s", <a href="../../widening/WideningTableSpecs/index.html#relaxed_q15mulr_s">widening.relaxed_q15mulr_s</a>)

-- what an instruction of two vectors gives
abbrev pub <b id="binary_vector">binary_vector</b> : BinaryOp → ℕ → ℕ → ℕ
<a href="../../ops/VectorOpsSpecs/index.html#binary_vector">binary_vector</a> op = (<a href="../../ops/VectorOpsSpecs/index.html#binary_row">binary_row</a> op).1

-- the name of an instruction of two vectors
abbrev pub <b id="binary_name">binary_name</b> : BinaryOp → List ℕ
<a href="../../ops/VectorOpsSpecs/index.html#binary_name">binary_name</a> op = (<a href="../../ops/VectorOpsSpecs/index.html#binary_row">binary_row</a> op).0

-- the row of an instruction of three vectors: its name, and what it gives
abbrev pub <b id="ternary_row">ternary_row</b> : TernaryOp → List ℕ × (ℕ → ℕ → ℕ → ℕ)
<a href="../../ops/VectorOpsSpecs/index.html#ternary_row">ternary_row</a> ternary.V128Bitselect = (codes "v128_bitselect", <a href="../../lanewise/VectorTableSpecs/index.html#v128_bitselect">vector.v128_bitselect</a>)
<a href="../../ops/VectorOpsSpecs/index.html#ternary_row">ternary_row</a> ternary.I8x16RelaxedLaneselect = (codes "i8x16_relaxed_laneselect", <a href="../../widening/WideningTableSpecs/index.html#relaxed_laneselect">widening.relaxed_laneselect</a>)
<a href="../../ops/VectorOpsSpecs/index.html#ternary_row">ternary_row</a> ternary.I16x8RelaxedLaneselect = (codes "i16x8_relaxed_laneselect", <a href="../../widening/WideningTableSpecs/index.html#relaxed_laneselect">widening.relaxed_laneselect</a>)
<a href="../../ops/VectorOpsSpecs/index.html#ternary_row">ternary_row</a> ternary.I32x4RelaxedLaneselect = (codes "i32x4_relaxed_laneselect", <a href="../../widening/WideningTableSpecs/index.html#relaxed_laneselect">widening.relaxed_laneselect</a>)
<a href="../../ops/VectorOpsSpecs/index.html#ternary_row">ternary_row</a> ternary.I64x2RelaxedLaneselect = (codes "i64x2_relaxed_laneselect", <a href="../../widening/WideningTableSpecs/index.html#relaxed_laneselect">widening.relaxed_laneselect</a>)
<a href="../../ops/VectorOpsSpecs/index.html#ternary_row">ternary_row</a> ternary.I32x4RelaxedDotI8x16I7x16AddS =
    (codes "i32x4_relaxed_dot_i8x16_i7x16_add_s", <a href="../../widening/WideningTableSpecs/index.html#relaxed_dot_add_s">widening.relaxed_dot_add_s</a>)

-- what an instruction of three vectors gives
abbrev pub <b id="ternary_vector">ternary_vector</b> : TernaryOp → ℕ → ℕ → ℕ → ℕ
<a href="../../ops/VectorOpsSpecs/index.html#ternary_vector">ternary_vector</a> op = (<a href="../../ops/VectorOpsSpecs/index.html#ternary_row">ternary_row</a> op).1

-- the name of an instruction of three vectors
abbrev pub <b id="ternary_name">ternary_name</b> : TernaryOp → List ℕ
<a href="../../ops/VectorOpsSpecs/index.html#ternary_name">ternary_name</a> op = (<a href="../../ops/VectorOpsSpecs/index.html#ternary_row">ternary_row</a> op).0

-- the row of a shift: its name, and what it gives for a vector and an amount
abbrev pub <b id="shift_row">shift_row</b> : ShiftOp → List ℕ × (ℕ → ℕ → ℕ)
<a href="../../ops/VectorOpsSpecs/index.html#shift_row">shift_row</a> shift.I8x16Shl = (codes "i8x16_shl", <a href="../../lanewise/VectorTableSpecs/index.html#shl">vector.shl</a> w8)
<a href="../../ops/VectorOpsSpecs/index.html#shift_row">shift_row</a> shift.I8x16ShrS = (codes "i8x16_shr_s", <a href="../../lanewise/VectorTableSpecs/index.html#shr_s">vector.shr_s</a> w8)
<a href="../../ops/VectorOpsSpecs/index.html#shift_row">shift_row</a> shift.I8x16ShrU = (codes "i8x16_shr_u", <a href="../../lanewise/VectorTableSpecs/index.html#shr_u">vector.shr_u</a> w8)
<a href="../../ops/VectorOpsSpecs/index.html#shift_row">shift_row</a> shift.I16x8Shl = (codes "i16x8_shl", <a href="../../lanewise/VectorTableSpecs/index.html#shl">vector.shl</a> w16)
<a href="../../ops/VectorOpsSpecs/index.html#shift_row">shift_row</a> shift.I16x8ShrS = (codes "i16x8_shr_s", <a href="../../lanewise/VectorTableSpecs/index.html#shr_s">vector.shr_s</a> w16)
<a href="../../ops/VectorOpsSpecs/index.html#shift_row">shift_row</a> shift.I16x8ShrU = (codes "i16x8_shr_u", <a href="../../lanewise/VectorTableSpecs/index.html#shr_u">vector.shr_u</a> w16)
<a href="../../ops/VectorOpsSpecs/index.html#shift_row">shift_row</a> shift.I32x4Shl = (codes "i32x4_shl", <a href="../../lanewise/VectorTableSpecs/index.html#shl">vector.shl</a> w32)
<a href="../../ops/VectorOpsSpecs/index.html#shift_row">shift_row</a> shift.I32x4ShrS = (codes "i32x4_shr_s", <a href="../../lanewise/VectorTableSpecs/index.html#shr_s">vector.shr_s</a> w32)
<a href="../../ops/VectorOpsSpecs/index.html#shift_row">shift_row</a> shift.I32x4ShrU = (codes "i32x4_shr_u", <a href="../../lanewise/VectorTableSpecs/index.html#shr_u">vector.shr_u</a> w32)
<a href="../../ops/VectorOpsSpecs/index.html#shift_row">shift_row</a> shift.I64x2Shl = (codes "i64x2_shl", <a href="../../lanewise/VectorTableSpecs/index.html#shl">vector.shl</a> w64)
<a href="../../ops/VectorOpsSpecs/index.html#shift_row">shift_row</a> shift.I64x2ShrS = (codes "i64x2_shr_s", <a href="../../lanewise/VectorTableSpecs/index.html#shr_s">vector.shr_s</a> w64)
<a href="../../ops/VectorOpsSpecs/index.html#shift_row">shift_row</a> shift.I64x2ShrU = (codes "i64x2_shr_u", <a href="../../lanewise/VectorTableSpecs/index.html#shr_u">vector.shr_u</a> w64)

-- what a shift of a vector by an amount gives
abbrev pub <b id="shifted_vector">shifted_vector</b> : ShiftOp → ℕ → ℕ → ℕ
<a href="../../ops/VectorOpsSpecs/index.html#shifted_vector">shifted_vector</a> op = (<a href="../../ops/VectorOpsSpecs/index.html#shift_row">shift_row</a> op).1

-- the name of a shift of lanes
abbrev pub <b id="shift_name">shift_name</b> : ShiftOp → List ℕ
<a href="../../ops/VectorOpsSpecs/index.html#shift_name">shift_name</a> op = (<a href="../../ops/VectorOpsSpecs/index.html#shift_row">shift_row</a> op).0

-- the row of a test: its name, and the Boolean or the mask that it gives, as a raw value
abbrev pub <b id="test_row">test_row</b> : TestOp → List ℕ × (ℕ → RawVal)
<a href="../../ops/VectorOpsSpecs/index.html#test_row">test_row</a> test.I8x16AllTrue = (codes "i8x16_all_true", λ a. <a href="../../raw/RawValSpecs/index.html#raw_of">raw_of</a> (from_bool (<a href="../../widening/WideningTableSpecs/index.html#all_true">widening.all_true</a> w8 a)))
<a href="../../ops/VectorOpsSpecs/index.html#test_row">test_row</a> test.I16x8AllTrue = (codes "i16x8_all_true", λ a. <a href="../../raw/RawValSpecs/index.html#raw_of">raw_of</a> (from_bool (<a href="../../widening/WideningTableSpecs/index.html#all_true">widening.all_true</a> w16 a)))
<a href="../../ops/VectorOpsSpecs/index.html#test_row">test_row</a> test.I32x4AllTrue = (codes "i32x4_all_true", λ a. <a href="../../raw/RawValSpecs/index.html#raw_of">raw_of</a> (from_bool (<a href="../../widening/WideningTableSpecs/index.html#all_true">widening.all_true</a> w32 a)))
<a href="../../ops/VectorOpsSpecs/index.html#test_row">test_row</a> test.I64x2AllTrue = (codes "i64x2_all_true", λ a. <a href="../../raw/RawValSpecs/index.html#raw_of">raw_of</a> (from_bool (<a href="../../widening/WideningTableSpecs/index.html#all_true">widening.all_true</a> w64 a)))
<a href="../../ops/VectorOpsSpecs/index.html#test_row">test_row</a> test.V128AnyTrue = (codes "v128_any_true", λ a. <a href="../../raw/RawValSpecs/index.html#raw_of">raw_of</a> (from_bool (<a href="../../widening/WideningTableSpecs/index.html#any_true">widening.any_true</a> a)))
<a href="../../ops/VectorOpsSpecs/index.html#test_row">test_row</a> test.I8x16Bitmask = (codes "i8x16_bitmask", λ a. <a href="../../raw/RawValSpecs/index.html#raw_of">raw_of</a> (<a href="../../widening/WideningTableSpecs/index.html#bitmask">widening.bitmask</a> w8 a))
<a href="../../ops/VectorOpsSpecs/index.html#test_row">test_row</a> test.I16x8Bitmask = (codes "i16x8_bitmask", λ a. <a href="../../raw/RawValSpecs/index.html#raw_of">raw_of</a> (<a href="../../widening/WideningTableSpecs/index.html#bitmask">widening.bitmask</a> w16 a))
<a href="../../ops/VectorOpsSpecs/index.html#test_row">test_row</a> test.I32x4Bitmask = (codes "i32x4_bitmask", λ a. <a href="../../raw/RawValSpecs/index.html#raw_of">raw_of</a> (<a href="../../widening/WideningTableSpecs/index.html#bitmask">widening.bitmask</a> w32 a))
<a href="../../ops/VectorOpsSpecs/index.html#test_row">test_row</a> test.I64x2Bitmask = (codes "i64x2_bitmask", λ a. <a href="../../raw/RawValSpecs/index.html#raw_of">raw_of</a> (<a href="../../widening/WideningTableSpecs/index.html#bitmask">widening.bitmask</a> w64 a))

-- the Boolean or the mask that a test of a vector gives, as a raw value
abbrev pub <b id="tested_raw">tested_raw</b> : TestOp → ℕ → RawVal
<a href="../../ops/VectorOpsSpecs/index.html#tested_raw">tested_raw</a> op = (<a href="../../ops/VectorOpsSpecs/index.html#test_row">test_row</a> op).1

-- the name of a test of a vector, or of its mask
abbrev pub <b id="test_name">test_name</b> : TestOp → List ℕ
<a href="../../ops/VectorOpsSpecs/index.html#test_name">test_name</a> op = (<a href="../../ops/VectorOpsSpecs/index.html#test_row">test_row</a> op).0

-- the row of an instruction that makes a vector of an item: its name, and the vector for an item in a raw value
abbrev pub <b id="make_row">make_row</b> : MakeOp → List ℕ × (RawVal → ℕ)
<a href="../../ops/VectorOpsSpecs/index.html#make_row">make_row</a> make.I8x16Splat = (codes "i8x16_splat", λ raw. <a href="../../lanewise/VectorTableSpecs/index.html#splat">vector.splat</a> w8 (<a href="../../raw/RawValSpecs/index.html#signed_in">signed_in</a> w8 raw))
<a href="../../ops/VectorOpsSpecs/index.html#make_row">make_row</a> make.I16x8Splat = (codes "i16x8_splat", λ raw. <a href="../../lanewise/VectorTableSpecs/index.html#splat">vector.splat</a> w16 (<a href="../../raw/RawValSpecs/index.html#signed_in">signed_in</a> w16 raw))
<a href="../../ops/VectorOpsSpecs/index.html#make_row">make_row</a> make.I32x4Splat = (codes "i32x4_splat", λ raw. <a href="../../lanewise/VectorTableSpecs/index.html#splat">vector.splat</a> w32 (<a href="../../raw/RawValSpecs/index.html#signed_in">signed_in</a> w32 raw))
<a href="../../ops/VectorOpsSpecs/index.html#make_row">make_row</a> make.I64x2Splat = (codes "i64x2_splat", λ raw. <a href="../../lanewise/VectorTableSpecs/index.html#splat">vector.splat</a> w64 (<a href="../../raw/RawValSpecs/index.html#signed_in">signed_in</a> w64 raw))
<a href="../../ops/VectorOpsSpecs/index.html#make_row">make_row</a> make.V128Widen8x8S = (codes "v128_widen8x8_s", λ raw. <a href="../../widening/WideningTableSpecs/index.html#widen_s">widening.widen_s</a> w8 w16 (<a href="../../raw/RawValSpecs/index.html#unsigned_in">unsigned_in</a> w64 raw))
<a href="../../ops/VectorOpsSpecs/index.html#make_row">make_row</a> make.V128Widen8x8U = (codes "v128_widen8x8_u", λ raw. <a href="../../widening/WideningTableSpecs/index.html#widen_u">widening.widen_u</a> w8 w16 (<a href="../../raw/RawValSpecs/index.html#unsigned_in">unsigned_in</a> w64 raw))
<a href="../../ops/VectorOpsSpecs/index.html#make_row">make_row</a> make.V128Widen16x4S = (codes "v128_widen16x4_s", λ raw. <a href="../../widening/WideningTableSpecs/index.html#widen_s">widening.widen_s</a> w16 w32 (<a href="../../raw/RawValSpecs/index.html#unsigned_in">unsigned_in</a> w64 raw))
<a href="../../ops/VectorOpsSpecs/index.html#make_row">make_row</a> make.V128Widen16x4U = (codes "v128_widen16x4_u", λ raw. <a href="../../widening/WideningTableSpecs/index.html#widen_u">widening.widen_u</a> w16 w32 (<a href="../../raw/RawValSpecs/index.html#unsigned_in">unsigned_in</a> w64 raw))
<a href="../../ops/VectorOpsSpecs/index.html#make_row">make_row</a> make.V128Widen32x2S = (codes "v128_widen32x2_s", λ raw. <a href="../../widening/WideningTableSpecs/index.html#widen_s">widening.widen_s</a> w32 w64 (<a href="../../raw/RawValSpecs/index.html#unsigned_in">unsigned_in</a> w64 raw))
<a href="../../ops/VectorOpsSpecs/index.html#make_row">make_row</a> make.V128Widen32x2U = (codes "v128_widen32x2_u", λ raw. <a href="../../widening/WideningTableSpecs/index.html#widen_u">widening.widen_u</a> w32 w64 (<a href="../../raw/RawValSpecs/index.html#unsigned_in">unsigned_in</a> w64 raw))
<a href="../../ops/VectorOpsSpecs/index.html#make_row">make_row</a> make.V128Low32Zero = (codes "v128_low32_zero", λ raw. <a href="../../widening/WideningTableSpecs/index.html#low_zero">widening.low_zero</a> w32 (<a href="../../raw/RawValSpecs/index.html#unsigned_in">unsigned_in</a> w32 raw))
<a href="../../ops/VectorOpsSpecs/index.html#make_row">make_row</a> make.V128Low64Zero = (codes "v128_low64_zero", λ raw. <a href="../../widening/WideningTableSpecs/index.html#low_zero">widening.low_zero</a> w64 (<a href="../../raw/RawValSpecs/index.html#unsigned_in">unsigned_in</a> w64 raw))

-- the vector that an instruction makes of an item in a raw value
abbrev pub <b id="made_vector">made_vector</b> : MakeOp → RawVal → ℕ
<a href="../../ops/VectorOpsSpecs/index.html#made_vector">made_vector</a> op = (<a href="../../ops/VectorOpsSpecs/index.html#make_row">make_row</a> op).1

-- the name of what makes a vector of an item
abbrev pub <b id="make_name">make_name</b> : MakeOp → List ℕ
<a href="../../ops/VectorOpsSpecs/index.html#make_name">make_name</a> op = (<a href="../../ops/VectorOpsSpecs/index.html#make_row">make_row</a> op).0

-- the row of a load of a vector: its name, and the vector that it gives from an address, or the trap
abbrev pub <b id="vector_load_row">vector_load_row</b> : VectorLoadOp → List ℕ × (List ℕ → ℕ → Result ℕ TrapCode)
<a href="../../ops/VectorOpsSpecs/index.html#vector_load_row">vector_load_row</a> load.V128Load = (codes "v128_load", <a href="../../accesses/LoadStoreSpecs/index.html#loaded">loaded</a> 16 (λ n. n))
<a href="../../ops/VectorOpsSpecs/index.html#vector_load_row">vector_load_row</a> load.V128Load8x8S = (codes "v128_load8x8_s", <a href="../../accesses/LoadStoreSpecs/index.html#loaded">loaded</a> 8 (<a href="../../widening/WideningTableSpecs/index.html#widen_s">widening.widen_s</a> w8 w16))
<a href="../../ops/VectorOpsSpecs/index.html#vector_load_row">vector_load_row</a> load.V128Load8x8U = (codes "v128_load8x8_u", <a href="../../accesses/LoadStoreSpecs/index.html#loaded">loaded</a> 8 (<a href="../../widening/WideningTableSpecs/index.html#widen_u">widening.widen_u</a> w8 w16))
<a href="../../ops/VectorOpsSpecs/index.html#vector_load_row">vector_load_row</a> load.V128Load16x4S = (codes "v128_load16x4_s", <a href="../../accesses/LoadStoreSpecs/index.html#loaded">loaded</a> 8 (<a href="../../widening/WideningTableSpecs/index.html#widen_s">widening.widen_s</a> w16 w32))
<a href="../../ops/VectorOpsSpecs/index.html#vector_load_row">vector_load_row</a> load.V128Load16x4U = (codes "v128_load16x4_u", <a href="../../accesses/LoadStoreSpecs/index.html#loaded">loaded</a> 8 (<a href="../../widening/WideningTableSpecs/index.html#widen_u">widening.widen_u</a> w16 w32))
<a href="../../ops/VectorOpsSpecs/index.html#vector_load_row">vector_load_row</a> load.V128Load32x2S = (codes "v128_load32x2_s", <a href="../../accesses/LoadStoreSpecs/index.html#loaded">loaded</a> 8 (<a href="../../widening/WideningTableSpecs/index.html#widen_s">widening.widen_s</a> w32 w64))
<a href="../../ops/VectorOpsSpecs/index.html#vector_load_row">vector_load_row</a> load.V128Load32x2U = (codes "v128_load32x2_u", <a href="../../accesses/LoadStoreSpecs/index.html#loaded">loaded</a> 8 (<a href="../../widening/WideningTableSpecs/index.html#widen_u">widening.widen_u</a> w32 w64))
<a href="../../ops/VectorOpsSpecs/index.html#vector_load_row">vector_load_row</a> load.V128Load8Splat = (codes "v128_load8_splat", <a href="../../accesses/LoadStoreSpecs/index.html#loaded">loaded</a> 1 (<a href="../../lanes/VectorSpecs/index.html#splat_of">splat_of</a> w8))
<a href="../../ops/VectorOpsSpecs/index.html#vector_load_row">vector_load_row</a> load.V128Load16Splat = (codes "v128_load16_splat", <a href="../../accesses/LoadStoreSpecs/index.html#loaded">loaded</a> 2 (<a href="../../lanes/VectorSpecs/index.html#splat_of">splat_of</a> w16))
<a href="../../ops/VectorOpsSpecs/index.html#vector_load_row">vector_load_row</a> load.V128Load32Splat = (codes "v128_load32_splat", <a href="../../accesses/LoadStoreSpecs/index.html#loaded">loaded</a> 4 (<a href="../../lanes/VectorSpecs/index.html#splat_of">splat_of</a> w32))
<a href="../../ops/VectorOpsSpecs/index.html#vector_load_row">vector_load_row</a> load.V128Load64Splat = (codes "v128_load64_splat", <a href="../../accesses/LoadStoreSpecs/index.html#loaded">loaded</a> 8 (<a href="../../lanes/VectorSpecs/index.html#splat_of">splat_of</a> w64))
<a href="../../ops/VectorOpsSpecs/index.html#vector_load_row">vector_load_row</a> load.V128Load32Zero = (codes "v128_load32_zero", <a href="../../accesses/LoadStoreSpecs/index.html#loaded">loaded</a> 4 (<a href="../../widening/WideningTableSpecs/index.html#low_zero">widening.low_zero</a> w32))
<a href="../../ops/VectorOpsSpecs/index.html#vector_load_row">vector_load_row</a> load.V128Load64Zero = (codes "v128_load64_zero", <a href="../../accesses/LoadStoreSpecs/index.html#loaded">loaded</a> 8 (<a href="../../widening/WideningTableSpecs/index.html#low_zero">widening.low_zero</a> w64))

-- the vector that a load from an address gives, or the trap
abbrev pub <b id="loaded_vector">loaded_vector</b> : VectorLoadOp → List ℕ → ℕ → Result ℕ TrapCode
<a href="../../ops/VectorOpsSpecs/index.html#loaded_vector">loaded_vector</a> op = (<a href="../../ops/VectorOpsSpecs/index.html#vector_load_row">vector_load_row</a> op).1

-- the name of a load of a vector
abbrev pub <b id="vector_load_name">vector_load_name</b> : VectorLoadOp → List ℕ
<a href="../../ops/VectorOpsSpecs/index.html#vector_load_name">vector_load_name</a> op = (<a href="../../ops/VectorOpsSpecs/index.html#vector_load_row">vector_load_row</a> op).0
</code></pre>
"####]
    pub mod VectorOpsSpecs {}
}
/// Definitions of `wasmi_scalar_ops`.
pub mod scalar_ops {
    #[doc = r####"The scalar instructions: a row for each, its name and what it gives, as raw values.

<pre><code>use Rattle.std.specs.Prelude.{Bool, ℤ, Result, Ok, ℕ, List, codes, ◌*◌, ◌*ℤ◌}
use Rattle.std.specs.Int.{Width, cast_unsigned, from_bool, w8, w16, w32, w64, int_wrap, w128}
use Rattle.wasmi_types.specs.declared.trap.TrapCode.{TrapCode}
use Rattle.wasmi_raw.specs.declared.raw.RawVal.{RawVal}
use Rattle.wasmi_raw.specs.RawVal.{<a href="../../raw/RawValSpecs/index.html#raw_of">raw_of</a>, <a href="../../raw/RawValSpecs/index.html#signed_in">signed_in</a>, <a href="../../raw/RawValSpecs/index.html#unsigned_in">unsigned_in</a>, <a href="../../raw/RawValSpecs/index.html#raw_of_vector">raw_of_vector</a>, <a href="../../raw/RawValSpecs/index.html#vector_in">vector_in</a>}
use Rattle.wasmi_scalar.specs.Numerics.{<a href="../../scalar/NumericsSpecs/index.html#iclz">iclz</a>, <a href="../../scalar/NumericsSpecs/index.html#ictz">ictz</a>, <a href="../../scalar/NumericsSpecs/index.html#ipopcnt">ipopcnt</a>, <a href="../../scalar/NumericsSpecs/index.html#ieqz">ieqz</a>, <a href="../../scalar/NumericsSpecs/index.html#iadd">iadd</a>, <a href="../../scalar/NumericsSpecs/index.html#isub">isub</a>, <a href="../../scalar/NumericsSpecs/index.html#imul">imul</a>, <a href="../../scalar/NumericsSpecs/index.html#idiv_s">idiv_s</a>, <a href="../../scalar/NumericsSpecs/index.html#idiv_u">idiv_u</a>, <a href="../../scalar/NumericsSpecs/index.html#irem_s">irem_s</a>, <a href="../../scalar/NumericsSpecs/index.html#irem_u">irem_u</a>, <a href="../../scalar/NumericsSpecs/index.html#iand">iand</a>, <a href="../../scalar/NumericsSpecs/index.html#ior">ior</a>, <a href="../../scalar/NumericsSpecs/index.html#ixor">ixor</a>, <a href="../../scalar/NumericsSpecs/index.html#ishl">ishl</a>, <a href="../../scalar/NumericsSpecs/index.html#ishr_s">ishr_s</a>, <a href="../../scalar/NumericsSpecs/index.html#ishr_u">ishr_u</a>, <a href="../../scalar/NumericsSpecs/index.html#irotl">irotl</a>, <a href="../../scalar/NumericsSpecs/index.html#irotr">irotr</a>, <a href="../../scalar/NumericsSpecs/index.html#ieq">ieq</a>, <a href="../../scalar/NumericsSpecs/index.html#ine">ine</a>, <a href="../../scalar/NumericsSpecs/index.html#ilt_s">ilt_s</a>, <a href="../../scalar/NumericsSpecs/index.html#ilt_u">ilt_u</a>, <a href="../../scalar/NumericsSpecs/index.html#igt_s">igt_s</a>, <a href="../../scalar/NumericsSpecs/index.html#igt_u">igt_u</a>, <a href="../../scalar/NumericsSpecs/index.html#ile_s">ile_s</a>, <a href="../../scalar/NumericsSpecs/index.html#ile_u">ile_u</a>, <a href="../../scalar/NumericsSpecs/index.html#ige_s">ige_s</a>, <a href="../../scalar/NumericsSpecs/index.html#ige_u">ige_u</a>, <a href="../../scalar/NumericsSpecs/index.html#add128">add128</a>, <a href="../../scalar/NumericsSpecs/index.html#sub128">sub128</a>}
use Rattle.wasmi_scalar_ops.specs.declared.{scalar.ScalarUnaryOp.ScalarUnaryOp, scalar.ScalarBinaryOp.ScalarBinaryOp}
use Rattle.wasmi_scalar_ops.specs.declared.scalar.ScalarUnaryOp.TheVariants as unary
use Rattle.wasmi_scalar_ops.specs.declared.scalar.ScalarBinaryOp.TheVariants as binary
pub use Rattle.wasmi_ops.specs.LoadStoreOps.{<a href="../../ops/LoadStoreOpsSpecs/index.html#signed_raw">signed_raw</a>, <a href="../../ops/LoadStoreOpsSpecs/index.html#as_raw">as_raw</a>, <a href="../../ops/LoadStoreOpsSpecs/index.html#RawLoad">RawLoad</a>, <a href="../../ops/LoadStoreOpsSpecs/index.html#sign_extended">sign_extended</a>, <a href="../../ops/LoadStoreOpsSpecs/index.html#zero_extended">zero_extended</a>, <a href="../../ops/LoadStoreOpsSpecs/index.html#unextended">unextended</a>, <a href="../../ops/LoadStoreOpsSpecs/index.html#load_row">load_row</a>, <a href="../../ops/LoadStoreOpsSpecs/index.html#loaded_raw">loaded_raw</a>, <a href="../../ops/LoadStoreOpsSpecs/index.html#load_name">load_name</a>, <a href="../../ops/LoadStoreOpsSpecs/index.html#store_row">store_row</a>, <a href="../../ops/LoadStoreOpsSpecs/index.html#stored_bytes">stored_bytes</a>, <a href="../../ops/LoadStoreOpsSpecs/index.html#store_name">store_name</a>}

-- the raw value of a Boolean, 0 or 1
abbrev pub <b id="bool_raw">bool_raw</b> : Bool → RawVal
<a href="../../scalar_ops/ScalarOpsSpecs/index.html#bool_raw">bool_raw</a> flag = <a href="../../raw/RawValSpecs/index.html#raw_of">raw_of</a> (from_bool flag)

-- the row of an instruction of one raw value: its name, and what it gives
abbrev pub <b id="scalar_unary_row">scalar_unary_row</b> : ScalarUnaryOp → List ℕ × (RawVal → RawVal)
<a href="../../scalar_ops/ScalarOpsSpecs/index.html#scalar_unary_row">scalar_unary_row</a> unary.I32Clz = (codes "i32_clz", λ raw. <a href="../../ops/LoadStoreOpsSpecs/index.html#signed_raw">signed_raw</a> w32 (<a href="../../scalar/NumericsSpecs/index.html#iclz">iclz</a> w32 (<a href="../../raw/RawValSpecs/index.html#signed_in">signed_in</a> w32 raw)))
<a href="../../scalar_ops/ScalarOpsSpecs/index.html#scalar_unary_row">scalar_unary_row</a> unary.I32Ctz = (codes "i32_ctz", λ raw. <a href="../../ops/LoadStoreOpsSpecs/index.html#signed_raw">signed_raw</a> w32 (<a href="../../scalar/NumericsSpecs/index.html#ictz">ictz</a> w32 (<a href="../../raw/RawValSpecs/index.html#signed_in">signed_in</a> w32 raw)))
<a href="../../scalar_ops/ScalarOpsSpecs/index.html#scalar_unary_row">scalar_unary_row</a> unary.I32Popcnt = (codes "i32_popcnt", λ raw. <a href="../../ops/LoadStoreOpsSpecs/index.html#signed_raw">signed_raw</a> w32 (<a href="../../scalar/NumericsSpecs/index.html#ipopcnt">ipopcnt</a> w32 (<a href="../../raw/RawValSpecs/index.html#signed_in">signed_in</a> w32 raw)))
<a href="../../scalar_ops/ScalarOpsSpecs/index.html#scalar_unary_row">scalar_unary_row</a> unary.I32Eqz = (codes "i32_eqz", λ raw. <a href="../../scalar_ops/ScalarOpsSpecs/index.html#bool_raw">bool_raw</a> (<a href="../../scalar/NumericsSpecs/index.html#ieqz">ieqz</a> (<a href="../../raw/RawValSpecs/index.html#signed_in">signed_in</a> w32 raw)))
<a href="../../scalar_ops/ScalarOpsSpecs/index.html#scalar_unary_row">scalar_unary_row</a> unary.I64Clz = (codes "i64_clz", λ raw. <a href="../../ops/LoadStoreOpsSpecs/index.html#signed_raw">signed_raw</a> w64 (<a href="../../scalar/NumericsSpecs/index.html#iclz">iclz</a> w64 (<a href="../../raw/RawValSpecs/index.html#signed_in">signed_in</a> w64 raw)))
<a href="../../scalar_ops/ScalarOpsSpecs/index.html#scalar_unary_row">scalar_unary_row</a> unary.I64Ctz = (codes "i64_ctz", λ raw. <a href="../../ops/LoadStoreOpsSpecs/index.html#signed_raw">signed_raw</a> w64 (<a href="../../scalar/NumericsSpecs/index.html#ictz">ictz</a> w64 (<a href="../../raw/RawValSpecs/index.html#signed_in">signed_in</a> w64 raw)))
<a href="../../scalar_ops/ScalarOpsSpecs/index.html#scalar_unary_row">scalar_unary_row</a> unary.I64Popcnt = (codes "i64_popcnt", λ raw. <a href="../../ops/LoadStoreOpsSpecs/index.html#signed_raw">signed_raw</a> w64 (<a href="../../scalar/NumericsSpecs/index.html#ipopcnt">ipopcnt</a> w64 (<a href="../../raw/RawValSpecs/index.html#signed_in">signed_in</a> w64 raw)))
<a href="../../scalar_ops/ScalarOpsSpecs/index.html#scalar_unary_row">scalar_unary_row</a> unary.I64Eqz = (codes "i64_eqz", λ raw. <a href="../../scalar_ops/ScalarOpsSpecs/index.html#bool_raw">bool_raw</a> (<a href="../../scalar/NumericsSpecs/index.html#ieqz">ieqz</a> (<a href="../../raw/RawValSpecs/index.html#signed_in">signed_in</a> w64 raw)))
<a href="../../scalar_ops/ScalarOpsSpecs/index.html#scalar_unary_row">scalar_unary_row</a> unary.I32WrapI64 = (codes "i32_wrap_i64", λ raw. <a href="../../ops/LoadStoreOpsSpecs/index.html#signed_raw">signed_raw</a> w32 (int_wrap w32 (<a href="../../raw/RawValSpecs/index.html#signed_in">signed_in</a> w64 raw)))
<a href="../../scalar_ops/ScalarOpsSpecs/index.html#scalar_unary_row">scalar_unary_row</a> unary.I64ExtendI32S = (codes "i64_extend_i32_s", λ raw. <a href="../../ops/LoadStoreOpsSpecs/index.html#signed_raw">signed_raw</a> w64 (<a href="../../raw/RawValSpecs/index.html#signed_in">signed_in</a> w32 raw))
<a href="../../scalar_ops/ScalarOpsSpecs/index.html#scalar_unary_row">scalar_unary_row</a> unary.I64ExtendI32U = (codes "i64_extend_i32_u", λ raw. <a href="../../raw/RawValSpecs/index.html#raw_of">raw_of</a> (<a href="../../raw/RawValSpecs/index.html#unsigned_in">unsigned_in</a> w32 raw))
<a href="../../scalar_ops/ScalarOpsSpecs/index.html#scalar_unary_row">scalar_unary_row</a> unary.I32Extend8S = (codes "i32_extend8_s", λ raw. <a href="../../ops/LoadStoreOpsSpecs/index.html#signed_raw">signed_raw</a> w32 (int_wrap w8 (<a href="../../raw/RawValSpecs/index.html#signed_in">signed_in</a> w32 raw)))
<a href="../../scalar_ops/ScalarOpsSpecs/index.html#scalar_unary_row">scalar_unary_row</a> unary.I32Extend16S = (codes "i32_extend16_s", λ raw. <a href="../../ops/LoadStoreOpsSpecs/index.html#signed_raw">signed_raw</a> w32 (int_wrap w16 (<a href="../../raw/RawValSpecs/index.html#signed_in">signed_in</a> w32 raw)))
<a href="../../scalar_ops/ScalarOpsSpecs/index.html#scalar_unary_row">scalar_unary_row</a> unary.I64Extend8S = (codes "i64_extend8_s", λ raw. <a href="../../ops/LoadStoreOpsSpecs/index.html#signed_raw">signed_raw</a> w64 (int_wrap w8 (<a href="../../raw/RawValSpecs/index.html#signed_in">signed_in</a> w64 raw)))
<a href="../../scalar_ops/ScalarOpsSpecs/index.html#scalar_unary_row">scalar_unary_row</a> unary.I64Extend16S = (codes "i64_extend16_s", λ raw. <a href="../../ops/LoadStoreOpsSpecs/index.html#signed_raw">signed_raw</a> w64 (int_wrap w16 (<a href="../../raw/RawValSpecs/index.html#signed_in">signed_in</a> w64 raw)))
<a href="../../scalar_ops/ScalarOpsSpecs/index.html#scalar_unary_row">scalar_unary_row</a> unary.I64Extend32S = (codes "i64_extend32_s", λ raw. <a href="../../ops/LoadStoreOpsSpecs/index.html#signed_raw">signed_raw</a> w64 (int_wrap w32 (<a href="../../raw/RawValSpecs/index.html#signed_in">signed_in</a> w64 raw)))

-- what an instruction of one raw value gives
abbrev pub <b id="unary_raw">unary_raw</b> : ScalarUnaryOp → RawVal → RawVal
<a href="../../scalar_ops/ScalarOpsSpecs/index.html#unary_raw">unary_raw</a> op = (<a href="../../scalar_ops/ScalarOpsSpecs/index.html#scalar_unary_row">scalar_unary_row</a> op).1

-- the name of a scalar instruction of one operand
abbrev pub <b id="scalar_unary_name">scalar_unary_name</b> : ScalarUnaryOp → List ℕ
<a href="../../scalar_ops/ScalarOpsSpecs/index.html#scalar_unary_name">scalar_unary_name</a> op = (<a href="../../scalar_ops/ScalarOpsSpecs/index.html#scalar_unary_row">scalar_unary_row</a> op).0

-- what an instruction of two raw values gives, or its trap
abbrev pub <b id="RawOperation">RawOperation</b> : Type 0
<a href="../../scalar_ops/ScalarOpsSpecs/index.html#RawOperation">RawOperation</a> = RawVal → RawVal → Result RawVal TrapCode

-- an operation on two numbers that are read signed in a width
abbrev pub <b id="signed_operation">signed_operation</b> : Width → (Width → ℤ → ℤ → ℤ) → <a href="../../scalar_ops/ScalarOpsSpecs/index.html#RawOperation">RawOperation</a>
<a href="../../scalar_ops/ScalarOpsSpecs/index.html#signed_operation">signed_operation</a> w operator lhs rhs = Ok (<a href="../../ops/LoadStoreOpsSpecs/index.html#signed_raw">signed_raw</a> w (operator w (<a href="../../raw/RawValSpecs/index.html#signed_in">signed_in</a> w lhs) (<a href="../../raw/RawValSpecs/index.html#signed_in">signed_in</a> w rhs)))

-- the operation on two raw values whose numbers are read unsigned
abbrev pub <b id="unsigned_operation">unsigned_operation</b> : Width → (Width → ℕ → ℕ → ℕ) → <a href="../../scalar_ops/ScalarOpsSpecs/index.html#RawOperation">RawOperation</a>
<a href="../../scalar_ops/ScalarOpsSpecs/index.html#unsigned_operation">unsigned_operation</a> w operator lhs rhs = Ok (<a href="../../raw/RawValSpecs/index.html#raw_of">raw_of</a> (operator w (<a href="../../raw/RawValSpecs/index.html#unsigned_in">unsigned_in</a> w lhs) (<a href="../../raw/RawValSpecs/index.html#unsigned_in">unsigned_in</a> w rhs)))

-- an operation on two numbers that are read signed in a width, which may trap
abbrev pub <b id="signed_partial">signed_partial</b> : Width → (ℤ → ℤ → Result ℤ TrapCode) → <a href="../../scalar_ops/ScalarOpsSpecs/index.html#RawOperation">RawOperation</a>
<a href="../../scalar_ops/ScalarOpsSpecs/index.html#signed_partial">signed_partial</a> w operator lhs rhs = <a href="../../ops/LoadStoreOpsSpecs/index.html#as_raw">as_raw</a> (<a href="../../ops/LoadStoreOpsSpecs/index.html#signed_raw">signed_raw</a> w) (operator (<a href="../../raw/RawValSpecs/index.html#signed_in">signed_in</a> w lhs) (<a href="../../raw/RawValSpecs/index.html#signed_in">signed_in</a> w rhs))

-- the operation that may trap, on two raw values whose numbers are read unsigned
abbrev pub <b id="unsigned_partial">unsigned_partial</b> : Width → (ℕ → ℕ → Result ℕ TrapCode) → <a href="../../scalar_ops/ScalarOpsSpecs/index.html#RawOperation">RawOperation</a>
<a href="../../scalar_ops/ScalarOpsSpecs/index.html#unsigned_partial">unsigned_partial</a> w operator lhs rhs = <a href="../../ops/LoadStoreOpsSpecs/index.html#as_raw">as_raw</a> <a href="../../raw/RawValSpecs/index.html#raw_of">raw_of</a> (operator (<a href="../../raw/RawValSpecs/index.html#unsigned_in">unsigned_in</a> w lhs) (<a href="../../raw/RawValSpecs/index.html#unsigned_in">unsigned_in</a> w rhs))

-- a comparison of two numbers that are read signed in a width
abbrev pub <b id="signed_comparison">signed_comparison</b> : Width → (ℤ → ℤ → Bool) → <a href="../../scalar_ops/ScalarOpsSpecs/index.html#RawOperation">RawOperation</a>
<a href="../../scalar_ops/ScalarOpsSpecs/index.html#signed_comparison">signed_comparison</a> w relation lhs rhs = Ok (<a href="../../scalar_ops/ScalarOpsSpecs/index.html#bool_raw">bool_raw</a> (relation (<a href="../../raw/RawValSpecs/index.html#signed_in">signed_in</a> w lhs) (<a href="../../raw/RawValSpecs/index.html#signed_in">signed_in</a> w rhs)))

-- the comparison of two raw values whose numbers are read unsigned
abbrev pub <b id="unsigned_comparison">unsigned_comparison</b> : Width → (ℕ → ℕ → Bool) → <a href="../../scalar_ops/ScalarOpsSpecs/index.html#RawOperation">RawOperation</a>
<a href="../../scalar_ops/ScalarOpsSpecs/index.html#unsigned_comparison">unsigned_comparison</a> w relation lhs rhs = Ok (<a href="../../scalar_ops/ScalarOpsSpecs/index.html#bool_raw">bool_raw</a> (relation (<a href="../../raw/RawValSpecs/index.html#unsigned_in">unsigned_in</a> w lhs) (<a href="../../raw/RawValSpecs/index.html#unsigned_in">unsigned_in</a> w rhs)))

-- an operation on two numbers of 128 bits
abbrev pub <b id="wide_operation">wide_operation</b> : (ℕ → ℕ → ℕ) → <a href="../../scalar_ops/ScalarOpsSpecs/index.html#RawOperation">RawOperation</a>
<a href="../../scalar_ops/ScalarOpsSpecs/index.html#wide_operation">wide_operation</a> operator lhs rhs = Ok (<a href="../../raw/RawValSpecs/index.html#raw_of_vector">raw_of_vector</a> (operator (<a href="../../raw/RawValSpecs/index.html#vector_in">vector_in</a> lhs) (<a href="../../raw/RawValSpecs/index.html#vector_in">vector_in</a> rhs)))

-- the row of an instruction of two raw values: its name, and its operation
abbrev pub <b id="scalar_binary_row">scalar_binary_row</b> : ScalarBinaryOp → List ℕ × <a href="../../scalar_ops/ScalarOpsSpecs/index.html#RawOperation">RawOperation</a>
<a href="../../scalar_ops/ScalarOpsSpecs/index.html#scalar_binary_row">scalar_binary_row</a> binary.I32Add = (codes "i32_add", <a href="../../scalar_ops/ScalarOpsSpecs/index.html#signed_operation">signed_operation</a> w32 <a href="../../scalar/NumericsSpecs/index.html#iadd">iadd</a>)
<a href="../../scalar_ops/ScalarOpsSpecs/index.html#scalar_binary_row">scalar_binary_row</a> binary.I32Sub = (codes "i32_sub", <a href="../../scalar_ops/ScalarOpsSpecs/index.html#signed_operation">signed_operation</a> w32 <a href="../../scalar/NumericsSpecs/index.html#isub">isub</a>)
<a href="../../scalar_ops/ScalarOpsSpecs/index.html#scalar_binary_row">scalar_binary_row</a> binary.I32Mul = (codes "i32_mul", <a href="../../scalar_ops/ScalarOpsSpecs/index.html#signed_operation">signed_operation</a> w32 <a href="../../scalar/NumericsSpecs/index.html#imul">imul</a>)
<a href="../../scalar_ops/ScalarOpsSpecs/index.html#scalar_binary_row">scalar_binary_row</a> binary.I32Bitand = (codes "i32_bitand", <a href="../../scalar_ops/ScalarOpsSpecs/index.html#signed_operation">signed_operation</a> w32 <a href="../../scalar/NumericsSpecs/index.html#iand">iand</a>)
<a href="../../scalar_ops/ScalarOpsSpecs/index.html#scalar_binary_row">scalar_binary_row</a> binary.I32Bitor = (codes "i32_bitor", <a href="../../scalar_ops/ScalarOpsSpecs/index.html#signed_operation">signed_operation</a> w32 <a href="../../scalar/NumericsSpecs/index.html#ior">ior</a>)
<a href="../../scalar_ops/ScalarOpsSpecs/index.html#scalar_binary_row">scalar_binary_row</a> binary.I32Bitxor = (codes "i32_bitxor", <a href="../../scalar_ops/ScalarOpsSpecs/index.html#signed_operation">signed_operation</a> w32 <a href="../../scalar/NumericsSpecs/index.html#ixor">ixor</a>)
<a href="../../scalar_ops/ScalarOpsSpecs/index.html#scalar_binary_row">scalar_binary_row</a> binary.I32Shl = (codes "i32_shl", <a href="../../scalar_ops/ScalarOpsSpecs/index.html#signed_operation">signed_operation</a> w32 <a href="../../scalar/NumericsSpecs/index.html#ishl">ishl</a>)
<a href="../../scalar_ops/ScalarOpsSpecs/index.html#scalar_binary_row">scalar_binary_row</a> binary.I32ShrS = (codes "i32_shr_s", <a href="../../scalar_ops/ScalarOpsSpecs/index.html#signed_operation">signed_operation</a> w32 <a href="../../scalar/NumericsSpecs/index.html#ishr_s">ishr_s</a>)
<a href="../../scalar_ops/ScalarOpsSpecs/index.html#scalar_binary_row">scalar_binary_row</a> binary.I32ShrU = (codes "i32_shr_u", <a href="../../scalar_ops/ScalarOpsSpecs/index.html#unsigned_operation">unsigned_operation</a> w32 <a href="../../scalar/NumericsSpecs/index.html#ishr_u">ishr_u</a>)
<a href="../../scalar_ops/ScalarOpsSpecs/index.html#scalar_binary_row">scalar_binary_row</a> binary.I32Rotl = (codes "i32_rotl", <a href="../../scalar_ops/ScalarOpsSpecs/index.html#signed_operation">signed_operation</a> w32 <a href="../../scalar/NumericsSpecs/index.html#irotl">irotl</a>)
<a href="../../scalar_ops/ScalarOpsSpecs/index.html#scalar_binary_row">scalar_binary_row</a> binary.I32Rotr = (codes "i32_rotr", <a href="../../scalar_ops/ScalarOpsSpecs/index.html#signed_operation">signed_operation</a> w32 <a href="../../scalar/NumericsSpecs/index.html#irotr">irotr</a>)
<a href="../../scalar_ops/ScalarOpsSpecs/index.html#scalar_binary_row">scalar_binary_row</a> binary.I32DivS = (codes "i32_div_s", <a href="../../scalar_ops/ScalarOpsSpecs/index.html#signed_partial">signed_partial</a> w32 (<a href="../../scalar/NumericsSpecs/index.html#idiv_s">idiv_s</a> w32))
<a href="../../scalar_ops/ScalarOpsSpecs/index.html#scalar_binary_row">scalar_binary_row</a> binary.I32DivU = (codes "i32_div_u", <a href="../../scalar_ops/ScalarOpsSpecs/index.html#unsigned_partial">unsigned_partial</a> w32 <a href="../../scalar/NumericsSpecs/index.html#idiv_u">idiv_u</a>)
<a href="../../scalar_ops/ScalarOpsSpecs/index.html#scalar_binary_row">scalar_binary_row</a> binary.I32RemS = (codes "i32_rem_s", <a href="../../scalar_ops/ScalarOpsSpecs/index.html#signed_partial">signed_partial</a> w32 <a href="../../scalar/NumericsSpecs/index.html#irem_s">irem_s</a>)
<a href="../../scalar_ops/ScalarOpsSpecs/index.html#scalar_binary_row">scalar_binary_row</a> binary.I32RemU = (codes "i32_rem_u", <a href="../../scalar_ops/ScalarOpsSpecs/index.html#unsigned_partial">unsigned_partial</a> w32 <a href="../../scalar/NumericsSpecs/index.html#irem_u">irem_u</a>)
<a href="../../scalar_ops/ScalarOpsSpecs/index.html#scalar_binary_row">scalar_binary_row</a> binary.I32Eq = (codes "i32_eq", <a href="../../scalar_ops/ScalarOpsSpecs/index.html#signed_comparison">signed_comparison</a> w32 <a href="../../scalar/NumericsSpecs/index.html#ieq">ieq</a>)
<a href="../../scalar_ops/ScalarOpsSpecs/index.html#scalar_binary_row">scalar_binary_row</a> binary.I32Ne = (codes "i32_ne", <a href="../../scalar_ops/ScalarOpsSpecs/index.html#signed_comparison">signed_comparison</a> w32 <a href="../../scalar/NumericsSpecs/index.html#ine">ine</a>)
<a href="../../scalar_ops/ScalarOpsSpecs/index.html#scalar_binary_row">scalar_binary_row</a> binary.I32LtS = (codes "i32_lt_s", <a href="../../scalar_ops/ScalarOpsSpecs/index.html#signed_comparison">signed_comparison</a> w32 <a href="../../scalar/NumericsSpecs/index.html#ilt_s">ilt_s</a>)
<a href="../../scalar_ops/ScalarOpsSpecs/index.html#scalar_binary_row">scalar_binary_row</a> binary.I32LtU = (codes "i32_lt_u", <a href="../../scalar_ops/ScalarOpsSpecs/index.html#unsigned_comparison">unsigned_comparison</a> w32 <a href="../../scalar/NumericsSpecs/index.html#ilt_u">ilt_u</a>)
<a href="../../scalar_ops/ScalarOpsSpecs/index.html#scalar_binary_row">scalar_binary_row</a> binary.I32LeS = (codes "i32_le_s", <a href="../../scalar_ops/ScalarOpsSpecs/index.html#signed_comparison">signed_comparison</a> w32 <a href="../../scalar/NumericsSpecs/index.html#ile_s">ile_s</a>)
<a href="../../scalar_ops/ScalarOpsSpecs/index.html#scalar_binary_row">scalar_binary_row</a> binary.I32LeU = (codes "i32_le_u", <a href="../../scalar_ops/ScalarOpsSpecs/index.html#unsigned_comparison">unsigned_comparison</a> w32 <a href="../../scalar/NumericsSpecs/index.html#ile_u">ile_u</a>)
<a href="../../scalar_ops/ScalarOpsSpecs/index.html#scalar_binary_row">scalar_binary_row</a> binary.I32GtS = (codes "i32_gt_s", <a href="../../scalar_ops/ScalarOpsSpecs/index.html#signed_comparison">signed_comparison</a> w32 <a href="../../scalar/NumericsSpecs/index.html#igt_s">igt_s</a>)
<a href="../../scalar_ops/ScalarOpsSpecs/index.html#scalar_binary_row">scalar_binary_row</a> binary.I32GtU = (codes "i32_gt_u", <a href="../../scalar_ops/ScalarOpsSpecs/index.html#unsigned_comparison">unsigned_comparison</a> w32 <a href="../../scalar/NumericsSpecs/index.html#igt_u">igt_u</a>)
<a href="../../scalar_ops/ScalarOpsSpecs/index.html#scalar_binary_row">scalar_binary_row</a> binary.I32GeS = (codes "i32_ge_s", <a href="../../scalar_ops/ScalarOpsSpecs/index.html#signed_comparison">signed_comparison</a> w32 <a href="../../scalar/NumericsSpecs/index.html#ige_s">ige_s</a>)
<a href="../../scalar_ops/ScalarOpsSpecs/index.html#scalar_binary_row">scalar_binary_row</a> binary.I32GeU = (codes "i32_ge_u", <a href="../../scalar_ops/ScalarOpsSpecs/index.html#unsigned_comparison">unsigned_comparison</a> w32 <a href="../../scalar/NumericsSpecs/index.html#ige_u">ige_u</a>)
<a href="../../scalar_ops/ScalarOpsSpecs/index.html#scalar_binary_row">scalar_binary_row</a> binary.I64Add = (codes "i64_add", <a href="../../scalar_ops/ScalarOpsSpecs/index.html#signed_operation">signed_operation</a> w64 <a href="../../scalar/NumericsSpecs/index.html#iadd">iadd</a>)
<a href="../../scalar_ops/ScalarOpsSpecs/index.html#scalar_binary_row">scalar_binary_row</a> binary.I64Sub = (codes "i64_sub", <a href="../../scalar_ops/ScalarOpsSpecs/index.html#signed_operation">signed_operation</a> w64 <a href="../../scalar/NumericsSpecs/index.html#isub">isub</a>)
<a href="../../scalar_ops/ScalarOpsSpecs/index.html#scalar_binary_row">scalar_binary_row</a> binary.I64Mul = (codes "i64_mul", <a href="../../scalar_ops/ScalarOpsSpecs/index.html#signed_operation">signed_operation</a> w64 <a href="../../scalar/NumericsSpecs/index.html#imul">imul</a>)
<a href="../../scalar_ops/ScalarOpsSpecs/index.html#scalar_binary_row">scalar_binary_row</a> binary.I64Bitand = (codes "i64_bitand", <a href="../../scalar_ops/ScalarOpsSpecs/index.html#signed_operation">signed_operation</a> w64 <a href="../../scalar/NumericsSpecs/index.html#iand">iand</a>)
<a href="../../scalar_ops/ScalarOpsSpecs/index.html#scalar_binary_row">scalar_binary_row</a> binary.I64Bitor = (codes "i64_bitor", <a href="../../scalar_ops/ScalarOpsSpecs/index.html#signed_operation">signed_operation</a> w64 <a href="../../scalar/NumericsSpecs/index.html#ior">ior</a>)
<a href="../../scalar_ops/ScalarOpsSpecs/index.html#scalar_binary_row">scalar_binary_row</a> binary.I64Bitxor = (codes "i64_bitxor", <a href="../../scalar_ops/ScalarOpsSpecs/index.html#signed_operation">signed_operation</a> w64 <a href="../../scalar/NumericsSpecs/index.html#ixor">ixor</a>)
<a href="../../scalar_ops/ScalarOpsSpecs/index.html#scalar_binary_row">scalar_binary_row</a> binary.I64Shl = (codes "i64_shl", <a href="../../scalar_ops/ScalarOpsSpecs/index.html#signed_operation">signed_operation</a> w64 <a href="../../scalar/NumericsSpecs/index.html#ishl">ishl</a>)
<a href="../../scalar_ops/ScalarOpsSpecs/index.html#scalar_binary_row">scalar_binary_row</a> binary.I64ShrS = (codes "i64_shr_s", <a href="../../scalar_ops/ScalarOpsSpecs/index.html#signed_operation">signed_operation</a> w64 <a href="../../scalar/NumericsSpecs/index.html#ishr_s">ishr_s</a>)
<a href="../../scalar_ops/ScalarOpsSpecs/index.html#scalar_binary_row">scalar_binary_row</a> binary.I64ShrU = (codes "i64_shr_u", <a href="../../scalar_ops/ScalarOpsSpecs/index.html#unsigned_operation">unsigned_operation</a> w64 <a href="../../scalar/NumericsSpecs/index.html#ishr_u">ishr_u</a>)
<a href="../../scalar_ops/ScalarOpsSpecs/index.html#scalar_binary_row">scalar_binary_row</a> binary.I64Rotl = (codes "i64_rotl", <a href="../../scalar_ops/ScalarOpsSpecs/index.html#signed_operation">signed_operation</a> w64 <a href="../../scalar/NumericsSpecs/index.html#irotl">irotl</a>)
<a href="../../scalar_ops/ScalarOpsSpecs/index.html#scalar_binary_row">scalar_binary_row</a> binary.I64Rotr = (codes "i64_rotr", <a href="../../scalar_ops/ScalarOpsSpecs/index.html#signed_operation">signed_operation</a> w64 <a href="../../scalar/NumericsSpecs/index.html#irotr">irotr</a>)
<a href="../../scalar_ops/ScalarOpsSpecs/index.html#scalar_binary_row">scalar_binary_row</a> binary.I64DivS = (codes "i64_div_s", <a href="../../scalar_ops/ScalarOpsSpecs/index.html#signed_partial">signed_partial</a> w64 (<a href="../../scalar/NumericsSpecs/index.html#idiv_s">idiv_s</a> w64))
<a href="../../scalar_ops/ScalarOpsSpecs/index.html#scalar_binary_row">scalar_binary_row</a> binary.I64DivU = (codes "i64_div_u", <a href="../../scalar_ops/ScalarOpsSpecs/index.html#unsigned_partial">unsigned_partial</a> w64 <a href="../../scalar/NumericsSpecs/index.html#idiv_u">idiv_u</a>)
<a href="../../scalar_ops/ScalarOpsSpecs/index.html#scalar_binary_row">scalar_binary_row</a> binary.I64RemS = (codes "i64_rem_s", <a href="../../scalar_ops/ScalarOpsSpecs/index.html#signed_partial">signed_partial</a> w64 <a href="../../scalar/NumericsSpecs/index.html#irem_s">irem_s</a>)
<a href="../../scalar_ops/ScalarOpsSpecs/index.html#scalar_binary_row">scalar_binary_row</a> binary.I64RemU = (codes "i64_rem_u", <a href="../../scalar_ops/ScalarOpsSpecs/index.html#unsigned_partial">unsigned_partial</a> w64 <a href="../../scalar/NumericsSpecs/index.html#irem_u">irem_u</a>)
<a href="../../scalar_ops/ScalarOpsSpecs/index.html#scalar_binary_row">scalar_binary_row</a> binary.I64Eq = (codes "i64_eq", <a href="../../scalar_ops/ScalarOpsSpecs/index.html#signed_comparison">signed_comparison</a> w64 <a href="../../scalar/NumericsSpecs/index.html#ieq">ieq</a>)
<a href="../../scalar_ops/ScalarOpsSpecs/index.html#scalar_binary_row">scalar_binary_row</a> binary.I64Ne = (codes "i64_ne", <a href="../../scalar_ops/ScalarOpsSpecs/index.html#signed_comparison">signed_comparison</a> w64 <a href="../../scalar/NumericsSpecs/index.html#ine">ine</a>)
<a href="../../scalar_ops/ScalarOpsSpecs/index.html#scalar_binary_row">scalar_binary_row</a> binary.I64LtS = (codes "i64_lt_s", <a href="../../scalar_ops/ScalarOpsSpecs/index.html#signed_comparison">signed_comparison</a> w64 <a href="../../scalar/NumericsSpecs/index.html#ilt_s">ilt_s</a>)
<a href="../../scalar_ops/ScalarOpsSpecs/index.html#scalar_binary_row">scalar_binary_row</a> binary.I64LtU = (codes "i64_lt_u", <a href="../../scalar_ops/ScalarOpsSpecs/index.html#unsigned_comparison">unsigned_comparison</a> w64 <a href="../../scalar/NumericsSpecs/index.html#ilt_u">ilt_u</a>)
<a href="../../scalar_ops/ScalarOpsSpecs/index.html#scalar_binary_row">scalar_binary_row</a> binary.I64LeS = (codes "i64_le_s", <a href="../../scalar_ops/ScalarOpsSpecs/index.html#signed_comparison">signed_comparison</a> w64 <a href="../../scalar/NumericsSpecs/index.html#ile_s">ile_s</a>)
<a href="../../scalar_ops/ScalarOpsSpecs/index.html#scalar_binary_row">scalar_binary_row</a> binary.I64LeU = (codes "i64_le_u", <a href="../../scalar_ops/ScalarOpsSpecs/index.html#unsigned_comparison">unsigned_comparison</a> w64 <a href="../../scalar/NumericsSpecs/index.html#ile_u">ile_u</a>)
<a href="../../scalar_ops/ScalarOpsSpecs/index.html#scalar_binary_row">scalar_binary_row</a> binary.I64GtS = (codes "i64_gt_s", <a href="../../scalar_ops/ScalarOpsSpecs/index.html#signed_comparison">signed_comparison</a> w64 <a href="../../scalar/NumericsSpecs/index.html#igt_s">igt_s</a>)
<a href="../../scalar_ops/ScalarOpsSpecs/index.html#scalar_binary_row">scalar_binary_row</a> binary.I64GtU = (codes "i64_gt_u", <a href="../../scalar_ops/ScalarOpsSpecs/index.html#unsigned_comparison">unsigned_comparison</a> w64 <a href="../../scalar/NumericsSpecs/index.html#igt_u">igt_u</a>)
<a href="../../scalar_ops/ScalarOpsSpecs/index.html#scalar_binary_row">scalar_binary_row</a> binary.I64GeS = (codes "i64_ge_s", <a href="../../scalar_ops/ScalarOpsSpecs/index.html#signed_comparison">signed_comparison</a> w64 <a href="../../scalar/NumericsSpecs/index.html#ige_s">ige_s</a>)
<a href="../../scalar_ops/ScalarOpsSpecs/index.html#scalar_binary_row">scalar_binary_row</a> binary.I64GeU = (codes "i64_ge_u", <a href="../../scalar_ops/ScalarOpsSpecs/index.html#unsigned_comparison">unsigned_comparison</a> w64 <a href="../../scalar/NumericsSpecs/index.html#ige_u">ige_u</a>)
<a href="../../scalar_ops/ScalarOpsSpecs/index.html#scalar_binary_row">scalar_binary_row</a> binary.I64Add128 = (codes "i64_add128", <a href="../../scalar_ops/ScalarOpsSpecs/index.html#wide_operation">wide_operation</a> <a href="../../scalar/NumericsSpecs/index.html#add128">add128</a>)
<a href="../../scalar_ops/ScalarOpsSpecs/index.html#scalar_binary_row">scalar_binary_row</a> binary.I64Sub128 = (codes "i64_sub128", <a href="../../scalar_ops/ScalarOpsSpecs/index.html#wide_operation">wide_operation</a> <a href="../../scalar/NumericsSpecs/index.html#sub128">sub128</a>)
<a href="../../scalar_ops/ScalarOpsSpecs/index.html#scalar_binary_row">scalar_binary_row</a> binary.I64MulWideS =
    (codes "i64_mul_wide_s", λ lhs rhs. Ok (<a href="../../raw/RawValSpecs/index.html#raw_of_vector">raw_of_vector</a> (cast_unsigned w128 (<a href="../../raw/RawValSpecs/index.html#signed_in">signed_in</a> w64 lhs *ℤ <a href="../../raw/RawValSpecs/index.html#signed_in">signed_in</a> w64 rhs))))
<a href="../../scalar_ops/ScalarOpsSpecs/index.html#scalar_binary_row">scalar_binary_row</a> binary.I64MulWideU =
    (codes "i64_mul_wide_u", λ lhs rhs. Ok (<a href="../../raw/RawValSpecs/index.html#raw_of_vector">raw_of_vector</a> (<a href="../../raw/RawValSpecs/index.html#unsigned_in">unsigned_in</a> w64 lhs * <a href="../../raw/RawValSpecs/index.html#unsigned_in">unsigned_in</a> w64 rhs)))

-- the operation of each instruction
abbrev pub <b id="binary_raw">binary_raw</b> : ScalarBinaryOp → <a href="../../scalar_ops/ScalarOpsSpecs/index.html#RawOperation">RawOperation</a>
<a href="../../scalar_ops/ScalarOpsSpecs/index.html#binary_raw">binary_raw</a> op = (<a href="../../scalar_ops/ScalarOpsSpecs/index.html#scalar_binary_row">scalar_binary_row</a> op).1

-- the name of a scalar instruction of two operands
abbrev pub <b id="scalar_binary_name">scalar_binary_name</b> : ScalarBinaryOp → List ℕ
<a href="../../scalar_ops/ScalarOpsSpecs/index.html#scalar_binary_name">scalar_binary_name</a> op = (<a href="../../scalar_ops/ScalarOpsSpecs/index.html#scalar_binary_row">scalar_binary_row</a> op).0
</code></pre>
"####]
    pub mod ScalarOpsSpecs {}
}
/// Definitions of `wasmi_meter`.
pub mod meter {
    #[doc = r####"A limiter that answers from a list: the answers of the list, which of them is next, and the rules of such a limiter.

<pre><code>use Rattle.std.specs.Prelude.{◌≡◌, List, Ok, Err, true, false, drop, slice_index_or}
use Rattle.wasmi_meter.specs.Limiter.{<a href="../../meter/LimiterSpecs/index.html#Answer">Answer</a>, <a href="../../meter/LimiterSpecs/index.html#NoticeAnswer">NoticeAnswer</a>, <a href="../../meter/LimiterSpecs/index.html#Rules">Rules</a>}
use Rattle.wasmi_meter.specs.declared.answer_list.LimiterAnswer.{LimiterAnswer}
use Rattle.wasmi_meter.specs.declared.answer_list.LimiterAnswer.TheVariants.{Permit, Deny, Error, Complain}
use Rattle.wasmi_meter.specs.declared.error.LimiterError.TheVariants.{ResourceLimiterDeniedAllocation}

-- what a question is answered by an answer of a list
abbrev pub <b id="answer_by">answer_by</b> : LimiterAnswer → <a href="../../meter/LimiterSpecs/index.html#Answer">Answer</a>
<a href="../../meter/AnswerListSpecs/index.html#answer_by">answer_by</a> Permit = Ok true
<a href="../../meter/AnswerListSpecs/index.html#answer_by">answer_by</a> Deny = Ok false
<a href="../../meter/AnswerListSpecs/index.html#answer_by">answer_by</a> Error = Err ResourceLimiterDeniedAllocation
<a href="../../meter/AnswerListSpecs/index.html#answer_by">answer_by</a> Complain = Ok true

-- what a notice is answered after a question that was answered so
abbrev pub <b id="notice_answer_by">notice_answer_by</b> : LimiterAnswer → <a href="../../meter/LimiterSpecs/index.html#NoticeAnswer">NoticeAnswer</a>
<a href="../../meter/AnswerListSpecs/index.html#notice_answer_by">notice_answer_by</a> Complain = Err ResourceLimiterDeniedAllocation
<a href="../../meter/AnswerListSpecs/index.html#notice_answer_by">notice_answer_by</a> answer = Ok tt

-- the answers to the next questions, in order, and the one to the last question
pub record <b id="AnswersAhead">AnswersAhead</b> : Type 0 where
  pub <b id="ahead">ahead</b> : List LimiterAnswer
  pub <b id="last">last</b> : LimiterAnswer

-- a limiter with these answers that was asked nothing yet
abbrev pub <b id="new_answers">new_answers</b> : List LimiterAnswer → <a href="../../meter/AnswerListSpecs/index.html#AnswersAhead">AnswersAhead</a>
<a href="../../meter/AnswerListSpecs/index.html#new_answers">new_answers</a> answers = record { <a href="../../meter/AnswerListSpecs/index.html#ahead">ahead</a> = answers; <a href="../../meter/AnswerListSpecs/index.html#last">last</a> = Permit }

-- the answer to the next question: `Permit` once none is left
abbrev pub <b id="next_answer">next_answer</b> : <a href="../../meter/AnswerListSpecs/index.html#AnswersAhead">AnswersAhead</a> → LimiterAnswer
<a href="../../meter/AnswerListSpecs/index.html#next_answer">next_answer</a> list = slice_index_or list.ahead 0 Permit

-- a question takes the next answer, and is answered by it
pub record <b id="TakesAnswer">TakesAnswer</b> (list : <a href="../../meter/AnswerListSpecs/index.html#AnswersAhead">AnswersAhead</a>) (answer : <a href="../../meter/LimiterSpecs/index.html#Answer">Answer</a>) (list&#x27; : <a href="../../meter/AnswerListSpecs/index.html#AnswersAhead">AnswersAhead</a>) : Type 0 where
  pub <b id="answered">answered</b> : answer ≡ <a href="../../meter/AnswerListSpecs/index.html#answer_by">answer_by</a> (<a href="../../meter/AnswerListSpecs/index.html#next_answer">next_answer</a> list)
  pub <b id="taken">taken</b> : list&#x27; ≡ record { <a href="../../meter/AnswerListSpecs/index.html#ahead">ahead</a> = drop 1 list.ahead; <a href="../../meter/AnswerListSpecs/index.html#last">last</a> = <a href="../../meter/AnswerListSpecs/index.html#next_answer">next_answer</a> list }

-- the rules of such a limiter, whatever is asked: a notice is answered as the last answer says, and takes none
abbrev pub <b id="answer_list_rules">answer_list_rules</b> : <a href="../../meter/LimiterSpecs/index.html#Rules">Rules</a> <a href="../../meter/AnswerListSpecs/index.html#AnswersAhead">AnswersAhead</a>
<a href="../../meter/AnswerListSpecs/index.html#answer_list_rules">answer_list_rules</a> = record {
  asked = λ list question answer list&#x27;. <a href="../../meter/AnswerListSpecs/index.html#TakesAnswer">TakesAnswer</a> list answer list&#x27;;
  noticed = λ list failure notice_answer list&#x27;. (notice_answer ≡ <a href="../../meter/AnswerListSpecs/index.html#notice_answer_by">notice_answer_by</a> list.last) × (list&#x27; ≡ list);
}
</code></pre>
"####]
    pub mod AnswerListSpecs {}
    #[doc = r####"A limiter of one of three kinds: its rules, and the quota and the caps that it has, if it is a quota.

<pre><code>use Rattle.std.specs.Prelude.{◌≡◌, Option, Some, None, Ok, true, option_map}
use Rattle.wasmi_meter.specs.declared.{quota.Amounts.Amounts, any_limiter.AnyLimiter.AnyLimiter, quota.Quota.Quota}
use Rattle.wasmi_meter.specs.declared.any_limiter.AnyLimiter.TheVariants as limiter
use Rattle.wasmi_meter.specs.Capped.{<a href="../../meter/CappedSpecs/index.html#amounts_of">amounts_of</a>, <a href="../../meter/CappedSpecs/index.html#cap_of">cap_of</a>, <a href="../../meter/CappedSpecs/index.html#quota_rules">quota_rules</a>}
use Rattle.wasmi_meter.specs.AnswerList.{<a href="../../meter/AnswerListSpecs/index.html#AnswersAhead">AnswersAhead</a>, <a href="../../meter/AnswerListSpecs/index.html#answer_list_rules">answer_list_rules</a>}
use Rattle.wasmi_meter.specs.Limiter.{<a href="../../meter/LimiterSpecs/index.html#Rules">Rules</a>}

-- A question or a notice is answered as a limiter of its kind answers it, and the kind stays; `accepted` is the answer
-- of one that permits and accepts everything.
abbrev pub <b id="AnsweredByKind">AnsweredByKind</b> : {Asked Answer : Type 0} → (accepted : Answer) → (Quota → Asked → Answer → Quota → Type 0)
    → (<a href="../../meter/AnswerListSpecs/index.html#AnswersAhead">AnswersAhead</a> → Asked → Answer → <a href="../../meter/AnswerListSpecs/index.html#AnswersAhead">AnswersAhead</a> → Type 0) → AnyLimiter → Asked → Answer → AnyLimiter → Type 0
<a href="../../meter/AnyLimiterSpecs/index.html#AnsweredByKind">AnsweredByKind</a> accepted of_quota of_list limiter.Unlimited asked answer l&#x27; =
    (answer ≡ accepted) × (l&#x27; ≡ limiter.Unlimited)
<a href="../../meter/AnyLimiterSpecs/index.html#AnsweredByKind">AnsweredByKind</a> accepted of_quota of_list (limiter.Quota quota) asked answer l&#x27; =
    (quota&#x27; : Quota) × (l&#x27; ≡ limiter.Quota quota&#x27;) × of_quota quota asked answer quota&#x27;
<a href="../../meter/AnyLimiterSpecs/index.html#AnsweredByKind">AnsweredByKind</a> accepted of_quota of_list (limiter.Answers list) asked answer l&#x27; =
    (list&#x27; : <a href="../../meter/AnswerListSpecs/index.html#AnswersAhead">AnswersAhead</a>) × (l&#x27; ≡ limiter.Answers list&#x27;) × of_list list asked answer list&#x27;

-- the rules of such a limiter
abbrev pub <b id="any_limiter_rules">any_limiter_rules</b> : <a href="../../meter/LimiterSpecs/index.html#Rules">Rules</a> AnyLimiter
<a href="../../meter/AnyLimiterSpecs/index.html#any_limiter_rules">any_limiter_rules</a> = record {
  asked = <a href="../../meter/AnyLimiterSpecs/index.html#AnsweredByKind">AnsweredByKind</a> (Ok true) quota_rules.asked answer_list_rules.asked;
  noticed = <a href="../../meter/AnyLimiterSpecs/index.html#AnsweredByKind">AnsweredByKind</a> (Ok tt) quota_rules.noticed answer_list_rules.noticed;
}

-- the quota that such a limiter is, if it is one
abbrev pub <b id="quota_of">quota_of</b> : AnyLimiter → Option Quota
<a href="../../meter/AnyLimiterSpecs/index.html#quota_of">quota_of</a> (limiter.Quota quota) = Some quota
<a href="../../meter/AnyLimiterSpecs/index.html#quota_of">quota_of</a> _ = None

-- the caps of such a limiter, if it is a quota
abbrev pub <b id="caps_of">caps_of</b> : AnyLimiter → Option Amounts
<a href="../../meter/AnyLimiterSpecs/index.html#caps_of">caps_of</a> l = option_map (λ quota. <a href="../../meter/CappedSpecs/index.html#amounts_of">amounts_of</a> (<a href="../../meter/CappedSpecs/index.html#cap_of">cap_of</a> quota)) (<a href="../../meter/AnyLimiterSpecs/index.html#quota_of">quota_of</a> l)
</code></pre>
"####]
    pub mod AnyLimiterSpecs {}
    #[doc = r####"An attempt, which is one creation or growth of a value with its meter and its limiter: what it begins with, what is asked and paid, what is due and whether that is left, how it can end, and which answer, charge and value each end means.

<pre><code>use Rattle.std.specs.Prelude.{◌≡◌, ℕ, Bool, true, nat_le, is_none, ◌&amp;&amp;◌, if◌then◌else◌, MatchBool, Option, Some, None, Result, Ok, Err, option_map}
use Rattle.wasmi_meter.specs.declared.fuel.CustomFuelCosts.{CustomFuelCosts}
use Rattle.wasmi_meter.specs.Limiter.{<a href="../../meter/LimiterSpecs/index.html#Question">Question</a>, <a href="../../meter/LimiterSpecs/index.html#Failure">Failure</a>, <a href="../../meter/LimiterSpecs/index.html#Answer">Answer</a>, <a href="../../meter/LimiterSpecs/index.html#NoticeAnswer">NoticeAnswer</a>, <a href="../../meter/LimiterSpecs/index.html#IsDenial">IsDenial</a>, <a href="../../meter/LimiterSpecs/index.html#Rules">Rules</a>}
use Rattle.wasmi_meter.specs.Meter.{<a href="../../meter/MeterSpecs/index.html#Meter">Meter</a>, <a href="../../meter/MeterSpecs/index.html#amount_left">amount_left</a>, <a href="../../meter/MeterSpecs/index.html#meter_after">meter_after</a>, <a href="../../meter/MeterSpecs/index.html#due">due</a>}

-- a value that may grow, the meter that is charged, if there is one, and the limiter that is asked
pub record <b id="MeteredValue">MeteredValue</b> (V S : Type 0) : Type 0 where
  pub <b id="value">value</b> : V
  pub <b id="meter">meter</b> : Option <a href="../../meter/MeterSpecs/index.html#Meter">Meter</a>
  pub <b id="limiter">limiter</b> : S

-- another value with the same meter and limiter
abbrev pub <b id="with_value">with_value</b> : {V W S : Type 0} → <a href="../../meter/AttemptSpecs/index.html#MeteredValue">MeteredValue</a> V S → W → <a href="../../meter/AttemptSpecs/index.html#MeteredValue">MeteredValue</a> W S
<a href="../../meter/AttemptSpecs/index.html#with_value">with_value</a> s <a href="../../meter/AttemptSpecs/index.html#value">value</a> = record { <a href="../../meter/AttemptSpecs/index.html#value">value</a> = <a href="../../meter/AttemptSpecs/index.html#value">value</a>; <a href="../../meter/AttemptSpecs/index.html#meter">meter</a> = s.meter; <a href="../../meter/AttemptSpecs/index.html#limiter">limiter</a> = s.limiter }

-- what an attempt to make something begins with: a limiter, and no meter
abbrev pub <b id="alone">alone</b> : {S : Type 0} → S → <a href="../../meter/AttemptSpecs/index.html#MeteredValue">MeteredValue</a> (Unit {0}) S
<a href="../../meter/AttemptSpecs/index.html#alone">alone</a> l = record { <a href="../../meter/AttemptSpecs/index.html#value">value</a> = tt; <a href="../../meter/AttemptSpecs/index.html#meter">meter</a> = None; <a href="../../meter/AttemptSpecs/index.html#limiter">limiter</a> = l }

-- what is asked and paid, and the causes of a refusal in their order
pub record <b id="Request">Request</b> (V E : Type 0) : Type 1 where
  -- the first cause before the question
  pub <b id="early">early</b> : Option E
  pub <b id="question">question</b> : <a href="../../meter/LimiterSpecs/index.html#Question">Question</a>
  -- the error if the limiter says no, and the error if it returns one to the question or to the notice
  pub <b id="denial">denial</b> : E
  pub <b id="refusal">refusal</b> : E
  -- the notice that the limiter gets of a cause
  pub <b id="notice">notice</b> : E → <a href="../../meter/LimiterSpecs/index.html#Failure">Failure</a>
  -- the first cause after the permission that stands before the charge
  pub <b id="late">late</b> : Option E
  -- the price by a meter&#x27;s costs, if there is one, and the cause if so much can&#x27;t be paid
  pub <b id="price">price</b> : Option (CustomFuelCosts → ℕ)
  pub <b id="unpaid">unpaid</b> : ℕ → E
  -- the causes by which what is grown into may refuse after the charge
  pub <b id="refuses">refuses</b> : E → Type 0
  -- the value once it has grown
  pub <b id="grown">grown</b> : V

-- the four ends: unasked, denied by the limiter, met, or failed after the permission, with the answer to the notice
pub data <b id="AttemptOutcome">AttemptOutcome</b> (E : Type 0) : Type 0 where
  <b id="Unasked">Unasked</b> : E → <a href="../../meter/AttemptSpecs/index.html#AttemptOutcome">AttemptOutcome</a> E
  <b id="Denied">Denied</b> : <a href="../../meter/LimiterSpecs/index.html#Answer">Answer</a> → <a href="../../meter/AttemptSpecs/index.html#AttemptOutcome">AttemptOutcome</a> E
  <b id="Met">Met</b> : <a href="../../meter/AttemptSpecs/index.html#AttemptOutcome">AttemptOutcome</a> E
  <b id="Failed">Failed</b> : E → <a href="../../meter/LimiterSpecs/index.html#NoticeAnswer">NoticeAnswer</a> → <a href="../../meter/AttemptSpecs/index.html#AttemptOutcome">AttemptOutcome</a> E

-- what is due for the price of an attempt: nothing if there is no price or no meter, or if the meter is off
abbrev pub <b id="optional_due">optional_due</b> : Option <a href="../../meter/MeterSpecs/index.html#Meter">Meter</a> → Option (CustomFuelCosts → ℕ) → ℕ
<a href="../../meter/AttemptSpecs/index.html#optional_due">optional_due</a> (Some m) (Some <a href="../../meter/AttemptSpecs/index.html#price">price</a>) = <a href="../../meter/MeterSpecs/index.html#due">due</a> m <a href="../../meter/AttemptSpecs/index.html#price">price</a>
<a href="../../meter/AttemptSpecs/index.html#optional_due">optional_due</a> _ _ = 0

-- whether so much is left for an attempt, as always without a meter
abbrev pub <b id="covers">covers</b> : Option <a href="../../meter/MeterSpecs/index.html#Meter">Meter</a> → ℕ → Bool
<a href="../../meter/AttemptSpecs/index.html#covers">covers</a> (Some m) amount = nat_le amount (<a href="../../meter/MeterSpecs/index.html#amount_left">amount_left</a> m)
<a href="../../meter/AttemptSpecs/index.html#covers">covers</a> None amount = true

-- the error of an attempt that ends with an answer that is no permission
abbrev pub <b id="error_of_answer">error_of_answer</b> : {E : Type 0} → E → E → <a href="../../meter/LimiterSpecs/index.html#Answer">Answer</a> → E
<a href="../../meter/AttemptSpecs/index.html#error_of_answer">error_of_answer</a> <a href="../../meter/AttemptSpecs/index.html#denial">denial</a> <a href="../../meter/AttemptSpecs/index.html#refusal">refusal</a> (Ok _) = <a href="../../meter/AttemptSpecs/index.html#denial">denial</a>
<a href="../../meter/AttemptSpecs/index.html#error_of_answer">error_of_answer</a> <a href="../../meter/AttemptSpecs/index.html#denial">denial</a> <a href="../../meter/AttemptSpecs/index.html#refusal">refusal</a> (Err _) = <a href="../../meter/AttemptSpecs/index.html#refusal">refusal</a>

-- the error of an attempt that failed after the permission, by the answer to the notice
abbrev pub <b id="error_of_failure">error_of_failure</b> : {E : Type 0} → E → E → <a href="../../meter/LimiterSpecs/index.html#NoticeAnswer">NoticeAnswer</a> → E
<a href="../../meter/AttemptSpecs/index.html#error_of_failure">error_of_failure</a> <a href="../../meter/AttemptSpecs/index.html#refusal">refusal</a> cause (Ok _) = cause
<a href="../../meter/AttemptSpecs/index.html#error_of_failure">error_of_failure</a> <a href="../../meter/AttemptSpecs/index.html#refusal">refusal</a> cause (Err _) = <a href="../../meter/AttemptSpecs/index.html#refusal">refusal</a>

-- whether an attempt goes on after a limiter&#x27;s answer: no error if that permits, else the error
abbrev pub <b id="Permits">Permits</b> : {E : Type 0} → E → E → <a href="../../meter/LimiterSpecs/index.html#Answer">Answer</a> → Result (Unit {0}) E → Type 0
<a href="../../meter/AttemptSpecs/index.html#Permits">Permits</a> <a href="../../meter/AttemptSpecs/index.html#denial">denial</a> <a href="../../meter/AttemptSpecs/index.html#refusal">refusal</a> answer (Ok _) = answer ≡ Ok true
<a href="../../meter/AttemptSpecs/index.html#Permits">Permits</a> <a href="../../meter/AttemptSpecs/index.html#denial">denial</a> <a href="../../meter/AttemptSpecs/index.html#refusal">refusal</a> answer (Err error) = <a href="../../meter/LimiterSpecs/index.html#IsDenial">IsDenial</a> answer × (error ≡ <a href="../../meter/AttemptSpecs/index.html#error_of_answer">error_of_answer</a> <a href="../../meter/AttemptSpecs/index.html#denial">denial</a> <a href="../../meter/AttemptSpecs/index.html#refusal">refusal</a> answer)

module _ {V E : Type 0} (e : <a href="../../meter/AttemptSpecs/index.html#Request">Request</a> V E) where
  -- the result of an attempt that ends so: this value if it is met, else the error
  abbrev pub <b id="answer_of">answer_of</b> : {T : Type 0} → T → <a href="../../meter/AttemptSpecs/index.html#AttemptOutcome">AttemptOutcome</a> E → Result T E
  <a href="../../meter/AttemptSpecs/index.html#answer_of">answer_of</a> <a href="../../meter/AttemptSpecs/index.html#value">value</a> (<a href="../../meter/AttemptSpecs/index.html#Unasked">Unasked</a> cause) = Err cause
  <a href="../../meter/AttemptSpecs/index.html#answer_of">answer_of</a> <a href="../../meter/AttemptSpecs/index.html#value">value</a> (<a href="../../meter/AttemptSpecs/index.html#Denied">Denied</a> answer) = Err (<a href="../../meter/AttemptSpecs/index.html#error_of_answer">error_of_answer</a> e.denial e.refusal answer)
  <a href="../../meter/AttemptSpecs/index.html#answer_of">answer_of</a> <a href="../../meter/AttemptSpecs/index.html#value">value</a> <a href="../../meter/AttemptSpecs/index.html#Met">Met</a> = Ok <a href="../../meter/AttemptSpecs/index.html#value">value</a>
  <a href="../../meter/AttemptSpecs/index.html#answer_of">answer_of</a> <a href="../../meter/AttemptSpecs/index.html#value">value</a> (<a href="../../meter/AttemptSpecs/index.html#Failed">Failed</a> cause notice_answer) = Err (<a href="../../meter/AttemptSpecs/index.html#error_of_failure">error_of_failure</a> e.refusal cause notice_answer)

  -- the value afterwards: the grown one if the attempt was met, else the same
  abbrev pub <b id="value_after">value_after</b> : V → <a href="../../meter/AttemptSpecs/index.html#AttemptOutcome">AttemptOutcome</a> E → V
  <a href="../../meter/AttemptSpecs/index.html#value_after">value_after</a> <a href="../../meter/AttemptSpecs/index.html#value">value</a> <a href="../../meter/AttemptSpecs/index.html#Met">Met</a> = e.grown
  <a href="../../meter/AttemptSpecs/index.html#value_after">value_after</a> <a href="../../meter/AttemptSpecs/index.html#value">value</a> _ = <a href="../../meter/AttemptSpecs/index.html#value">value</a>

  module _ (m : Option <a href="../../meter/MeterSpecs/index.html#Meter">Meter</a>) where
    -- the first cause after the permission: the late one, then fuel, then what is grown into
    abbrev pub <b id="IsFirstCause">IsFirstCause</b> : Option E → E → Type 0
    <a href="../../meter/AttemptSpecs/index.html#IsFirstCause">IsFirstCause</a> (Some <a href="../../meter/AttemptSpecs/index.html#late">late</a>) cause = cause ≡ <a href="../../meter/AttemptSpecs/index.html#late">late</a>
    <a href="../../meter/AttemptSpecs/index.html#IsFirstCause">IsFirstCause</a> None cause =
        MatchBool (<a href="../../meter/AttemptSpecs/index.html#covers">covers</a> m (<a href="../../meter/AttemptSpecs/index.html#optional_due">optional_due</a> m e.price)) (e.refuses cause) (cause ≡ e.unpaid (<a href="../../meter/AttemptSpecs/index.html#optional_due">optional_due</a> m e.price))

    -- when an attempt may end so
    abbrev pub <b id="MayEnd">MayEnd</b> : <a href="../../meter/AttemptSpecs/index.html#AttemptOutcome">AttemptOutcome</a> E → Type 0
    <a href="../../meter/AttemptSpecs/index.html#MayEnd">MayEnd</a> (<a href="../../meter/AttemptSpecs/index.html#Unasked">Unasked</a> cause) = e.early ≡ Some cause
    <a href="../../meter/AttemptSpecs/index.html#MayEnd">MayEnd</a> (<a href="../../meter/AttemptSpecs/index.html#Denied">Denied</a> answer) = (e.early ≡ None) × <a href="../../meter/LimiterSpecs/index.html#IsDenial">IsDenial</a> answer
    <a href="../../meter/AttemptSpecs/index.html#MayEnd">MayEnd</a> <a href="../../meter/AttemptSpecs/index.html#Met">Met</a> = (e.early ≡ None) × (e.late ≡ None) × (<a href="../../meter/AttemptSpecs/index.html#covers">covers</a> m (<a href="../../meter/AttemptSpecs/index.html#optional_due">optional_due</a> m e.price) ≡ true)
    <a href="../../meter/AttemptSpecs/index.html#MayEnd">MayEnd</a> (<a href="../../meter/AttemptSpecs/index.html#Failed">Failed</a> cause notice_answer) = (e.early ≡ None) × <a href="../../meter/AttemptSpecs/index.html#IsFirstCause">IsFirstCause</a> e.late cause

    -- what is charged: what is due, once the late cause is absent and so much is left, also where there is then no room
    abbrev pub <b id="outcome_charge">outcome_charge</b> : <a href="../../meter/AttemptSpecs/index.html#AttemptOutcome">AttemptOutcome</a> E → ℕ
    <a href="../../meter/AttemptSpecs/index.html#outcome_charge">outcome_charge</a> <a href="../../meter/AttemptSpecs/index.html#Met">Met</a> = <a href="../../meter/AttemptSpecs/index.html#optional_due">optional_due</a> m e.price
    <a href="../../meter/AttemptSpecs/index.html#outcome_charge">outcome_charge</a> (<a href="../../meter/AttemptSpecs/index.html#Failed">Failed</a> cause notice_answer) =
        if is_none e.late &amp;&amp; <a href="../../meter/AttemptSpecs/index.html#covers">covers</a> m (<a href="../../meter/AttemptSpecs/index.html#optional_due">optional_due</a> m e.price) then <a href="../../meter/AttemptSpecs/index.html#optional_due">optional_due</a> m e.price else 0
    <a href="../../meter/AttemptSpecs/index.html#outcome_charge">outcome_charge</a> _ = 0

  -- What the limiter sees: nothing, a denial, or a permission, which is followed by the growth or by just one notice.
  abbrev pub <b id="Follows">Follows</b> : {S : Type 0} → <a href="../../meter/LimiterSpecs/index.html#Rules">Rules</a> S → S → <a href="../../meter/AttemptSpecs/index.html#AttemptOutcome">AttemptOutcome</a> E → S → Type 0
  <a href="../../meter/AttemptSpecs/index.html#Follows">Follows</a> rules l (<a href="../../meter/AttemptSpecs/index.html#Unasked">Unasked</a> cause) l&#x27; = l&#x27; ≡ l
  <a href="../../meter/AttemptSpecs/index.html#Follows">Follows</a> rules l (<a href="../../meter/AttemptSpecs/index.html#Denied">Denied</a> answer) l&#x27; = rules.asked l e.question answer l&#x27;
  <a href="../../meter/AttemptSpecs/index.html#Follows">Follows</a> rules l <a href="../../meter/AttemptSpecs/index.html#Met">Met</a> l&#x27; = rules.asked l e.question (Ok true) l&#x27;
  <a href="../../meter/AttemptSpecs/index.html#Follows">Follows</a> rules l (<a href="../../meter/AttemptSpecs/index.html#Failed">Failed</a> cause notice_answer) l&#x27; =
      (permitted : _) × rules.asked l e.question (Ok true) permitted
      × rules.noticed permitted (e.notice cause) notice_answer l&#x27;

-- one attempt: its end, its charge, and the value, the meter and the limiter afterwards
pub record <b id="Attempt">Attempt</b> {V E S : Type 0} (rules : <a href="../../meter/LimiterSpecs/index.html#Rules">Rules</a> S) (e : <a href="../../meter/AttemptSpecs/index.html#Request">Request</a> V E) (s : <a href="../../meter/AttemptSpecs/index.html#MeteredValue">MeteredValue</a> V S)
    (outcome : <a href="../../meter/AttemptSpecs/index.html#AttemptOutcome">AttemptOutcome</a> E) (charge : ℕ) (s&#x27; : <a href="../../meter/AttemptSpecs/index.html#MeteredValue">MeteredValue</a> V S) : Type 0 where
  pub <b id="may_end">may_end</b> : <a href="../../meter/AttemptSpecs/index.html#MayEnd">MayEnd</a> e s.meter outcome
  pub <b id="follows">follows</b> : <a href="../../meter/AttemptSpecs/index.html#Follows">Follows</a> e rules s.limiter outcome s&#x27;.<a href="../../meter/AttemptSpecs/index.html#limiter">limiter</a>
  pub <b id="charged">charged</b> : charge ≡ <a href="../../meter/AttemptSpecs/index.html#outcome_charge">outcome_charge</a> e s.meter outcome
  pub <b id="meter">meter</b> : s&#x27;.<a href="../../meter/AttemptSpecs/index.html#meter">meter</a> ≡ option_map (λ m. <a href="../../meter/MeterSpecs/index.html#meter_after">meter_after</a> m charge) s.meter
  pub <b id="value">value</b> : s&#x27;.<a href="../../meter/AttemptSpecs/index.html#value">value</a> ≡ <a href="../../meter/AttemptSpecs/index.html#value_after">value_after</a> e s.value outcome
</code></pre>
"####]
    pub mod AttemptSpecs {}
    #[doc = r####"Limiters that count what they permitted: amounts by kind, what is held, taken, given back and released, limiters with caps and their rules, and quotas.

<pre><code>use Rattle.std.specs.Prelude.{ℕ, ◌≡◌, ◌+◌, ◌-◌, ◌≤◌, ◌&lt;◌, Option, Some, None, Ok, Bool, true, false}
use Rattle.wasmi_meter.specs.declared.{quota.Amounts.Amounts, limiter.Kind.Kind, quota.Holdings.Holdings, quota.Quota.Quota}
use Rattle.wasmi_meter.specs.declared.limiter.Kind.TheVariants.{Bytes, Elements}
use Rattle.wasmi_meter.specs.Limiter.{<a href="../../meter/LimiterSpecs/index.html#Question">Question</a>, <a href="../../meter/LimiterSpecs/index.html#Answer">Answer</a>, <a href="../../meter/LimiterSpecs/index.html#Failure">Failure</a>, <a href="../../meter/LimiterSpecs/index.html#NoticeAnswer">NoticeAnswer</a>, <a href="../../meter/LimiterSpecs/index.html#kind_of">kind_of</a>, <a href="../../meter/LimiterSpecs/index.html#Rules">Rules</a>}

-- the amount of a kind
abbrev pub <b id="amount_of">amount_of</b> : Amounts → Kind → ℕ
<a href="../../meter/CappedSpecs/index.html#amount_of">amount_of</a> amounts Bytes = amounts.bytes
<a href="../../meter/CappedSpecs/index.html#amount_of">amount_of</a> amounts Elements = amounts.elements

-- the amounts with another one of a kind
abbrev pub <b id="with_amount">with_amount</b> : Amounts → Kind → ℕ → Amounts
<a href="../../meter/CappedSpecs/index.html#with_amount">with_amount</a> amounts Bytes n = record amounts { <a href="../../meter/CappedSpecs/index.html#bytes">bytes</a> = n }
<a href="../../meter/CappedSpecs/index.html#with_amount">with_amount</a> amounts Elements n = record amounts { <a href="../../meter/CappedSpecs/index.html#elements">elements</a> = n }

-- nothing of either kind
abbrev pub <b id="nothing">nothing</b> : Amounts
<a href="../../meter/CappedSpecs/index.html#nothing">nothing</a> = record { <a href="../../meter/CappedSpecs/index.html#bytes">bytes</a> = 0; <a href="../../meter/CappedSpecs/index.html#elements">elements</a> = 0 }

-- the amounts by kind
abbrev pub <b id="amounts_of">amounts_of</b> : (Kind → ℕ) → Amounts
<a href="../../meter/CappedSpecs/index.html#amounts_of">amounts_of</a> amount = record { <a href="../../meter/CappedSpecs/index.html#bytes">bytes</a> = amount Bytes; <a href="../../meter/CappedSpecs/index.html#elements">elements</a> = amount Elements }

-- what is held of a kind
abbrev pub <b id="amount_held">amount_held</b> : Holdings → Kind → ℕ
<a href="../../meter/CappedSpecs/index.html#amount_held">amount_held</a> h kind = <a href="../../meter/CappedSpecs/index.html#amount_of">amount_of</a> h.held kind

-- n more of a kind
abbrev pub <b id="with_more">with_more</b> : Holdings → Kind → ℕ → Holdings
<a href="../../meter/CappedSpecs/index.html#with_more">with_more</a> h kind n = record { <a href="../../meter/CappedSpecs/index.html#held">held</a> = <a href="../../meter/CappedSpecs/index.html#with_amount">with_amount</a> h.held kind (<a href="../../meter/CappedSpecs/index.html#amount_held">amount_held</a> h kind + n); last = Some (kind, n) }

-- a notice of a kind takes back the last difference, once, if it is of that kind; otherwise all stays
abbrev pub <b id="without_last_of">without_last_of</b> : Kind → Holdings → Option (Kind × ℕ) → Holdings
<a href="../../meter/CappedSpecs/index.html#without_last_of">without_last_of</a> Bytes h (Some (Bytes, n)) =
    record { <a href="../../meter/CappedSpecs/index.html#held">held</a> = <a href="../../meter/CappedSpecs/index.html#with_amount">with_amount</a> h.held Bytes (h.held.<a href="../../meter/CappedSpecs/index.html#bytes">bytes</a> - n); last = None }
<a href="../../meter/CappedSpecs/index.html#without_last_of">without_last_of</a> Elements h (Some (Elements, n)) =
    record { <a href="../../meter/CappedSpecs/index.html#held">held</a> = <a href="../../meter/CappedSpecs/index.html#with_amount">with_amount</a> h.held Elements (h.held.<a href="../../meter/CappedSpecs/index.html#elements">elements</a> - n); last = None }
<a href="../../meter/CappedSpecs/index.html#without_last_of">without_last_of</a> kind h last = h

-- what is held after a notice of a kind
abbrev pub <b id="without_last">without_last</b> : Kind → Holdings → Holdings
<a href="../../meter/CappedSpecs/index.html#without_last">without_last</a> kind h = <a href="../../meter/CappedSpecs/index.html#without_last_of">without_last_of</a> kind h h.last

-- n more of a kind are taken exactly where they stay, with what is held and what others hold, within the cap, and
-- nothing changes otherwise
pub record <b id="Takes">Takes</b> (<a href="../../meter/CappedSpecs/index.html#others">others</a> <a href="../../meter/CappedSpecs/index.html#cap">cap</a> : ℕ) (h : Holdings) (kind : Kind) (n : ℕ) (taken : Bool) (h&#x27; : Holdings) : Type 0 where
  pub <b id="within">within</b> : <a href="../../meter/CappedSpecs/index.html#others">others</a> + <a href="../../meter/CappedSpecs/index.html#amount_held">amount_held</a> h kind + n ≤ <a href="../../meter/CappedSpecs/index.html#cap">cap</a> → (taken ≡ true) × (h&#x27; ≡ <a href="../../meter/CappedSpecs/index.html#with_more">with_more</a> h kind n)
  pub <b id="above">above</b> : <a href="../../meter/CappedSpecs/index.html#cap">cap</a> &lt; <a href="../../meter/CappedSpecs/index.html#others">others</a> + <a href="../../meter/CappedSpecs/index.html#amount_held">amount_held</a> h kind + n → (taken ≡ false) × (h&#x27; ≡ h)

-- n of a kind are given up, and nothing can be taken back after that
abbrev pub <b id="with_less">with_less</b> : Holdings → Kind → ℕ → Holdings
<a href="../../meter/CappedSpecs/index.html#with_less">with_less</a> h kind n = record { <a href="../../meter/CappedSpecs/index.html#held">held</a> = <a href="../../meter/CappedSpecs/index.html#with_amount">with_amount</a> h.held kind (<a href="../../meter/CappedSpecs/index.html#amount_held">amount_held</a> h kind - n); last = None }

-- n of a kind are given up exactly where as many are held, and nothing changes otherwise
pub record <b id="Releases">Releases</b> (h : Holdings) (kind : Kind) (n : ℕ) (released : Bool) (h&#x27; : Holdings) : Type 0 where
  pub <b id="held">held</b> : n ≤ <a href="../../meter/CappedSpecs/index.html#amount_held">amount_held</a> h kind → (released ≡ true) × (h&#x27; ≡ <a href="../../meter/CappedSpecs/index.html#with_less">with_less</a> h kind n)
  pub <b id="short">short</b> : <a href="../../meter/CappedSpecs/index.html#amount_held">amount_held</a> h kind &lt; n → (released ≡ false) × (h&#x27; ≡ h)

-- as much is held of each kind
pub record <b id="HoldsTheSame">HoldsTheSame</b> (h h&#x27; : Holdings) : Type 0 where
  pub <b id="bytes">bytes</b> : h&#x27;.held.bytes ≡ h.held.<a href="../../meter/CappedSpecs/index.html#bytes">bytes</a>
  pub <b id="elements">elements</b> : h&#x27;.held.elements ≡ h.held.<a href="../../meter/CappedSpecs/index.html#elements">elements</a>

-- a permission adds the difference that was asked for, and another answer keeps what is held
abbrev pub <b id="Reserves">Reserves</b> : <a href="../../meter/LimiterSpecs/index.html#Question">Question</a> → <a href="../../meter/LimiterSpecs/index.html#Answer">Answer</a> → Holdings → Holdings → Type 0
<a href="../../meter/CappedSpecs/index.html#Reserves">Reserves</a> q (Ok true) h h&#x27; = h&#x27; ≡ <a href="../../meter/CappedSpecs/index.html#with_more">with_more</a> h q.kind (q.desired - q.current)
<a href="../../meter/CappedSpecs/index.html#Reserves">Reserves</a> q _ h h&#x27; = <a href="../../meter/CappedSpecs/index.html#HoldsTheSame">HoldsTheSame</a> h h&#x27;

-- a notice takes back the last difference, once, if it is of its kind, and changes nothing that is held otherwise
abbrev pub <b id="GivesBack">GivesBack</b> : Kind → Holdings → Holdings → Type 0
<a href="../../meter/CappedSpecs/index.html#GivesBack">GivesBack</a> kind h h&#x27; = h&#x27; ≡ <a href="../../meter/CappedSpecs/index.html#without_last">without_last</a> kind h

-- limiters with caps: what one holds, the same one with other holdings, what others hold of a kind beside it, and the
-- most that all of them together may hold of a kind
pub record <b id="Capped">Capped</b> (L : Type 0) : Type 0 where
  pub <b id="holdings">holdings</b> : L → Holdings
  pub <b id="with_holdings">with_holdings</b> : L → Holdings → L
  pub <b id="others">others</b> : L → Kind → ℕ
  pub <b id="cap">cap</b> : L → Kind → ℕ

module _ {L : Type 0} (c : <a href="../../meter/CappedSpecs/index.html#Capped">Capped</a> L) where
  -- what all together hold of a kind
  abbrev pub <b id="held_together">held_together</b> : L → Kind → ℕ
  <a href="../../meter/CappedSpecs/index.html#held_together">held_together</a> l kind = c.others l kind + <a href="../../meter/CappedSpecs/index.html#amount_held">amount_held</a> (c.holdings l) kind

  -- all together hold no more of a kind than its cap
  abbrev pub <b id="IsWithin">IsWithin</b> : L → Type 0
  <a href="../../meter/CappedSpecs/index.html#IsWithin">IsWithin</a> l = (kind : Kind) → <a href="../../meter/CappedSpecs/index.html#held_together">held_together</a> l kind ≤ c.cap l kind

  -- n more of a kind are taken, or not, and all but the holdings stays
  pub record <b id="HoldsMore">HoldsMore</b> (l : L) (kind : Kind) (n : ℕ) (taken : Bool) (l&#x27; : L) : Type 0 where
    pub <b id="takes">takes</b> : <a href="../../meter/CappedSpecs/index.html#Takes">Takes</a> (c.others l kind) (c.cap l kind) (c.holdings l) kind n taken (c.holdings l&#x27;)
    pub <b id="rest">rest</b> : l&#x27; ≡ c.with_holdings l (c.holdings l&#x27;)

  -- a question is answered by whether the difference is taken
  abbrev pub <b id="Asked">Asked</b> : L → <a href="../../meter/LimiterSpecs/index.html#Question">Question</a> → <a href="../../meter/LimiterSpecs/index.html#Answer">Answer</a> → L → Type 0
  <a href="../../meter/CappedSpecs/index.html#Asked">Asked</a> l q answer l&#x27; = (taken : Bool) × (answer ≡ Ok taken) × <a href="../../meter/CappedSpecs/index.html#HoldsMore">HoldsMore</a> l q.kind (q.desired - q.current) taken l&#x27;

  -- a notice is accepted, gives back what was taken last, if that is of its kind, and keeps all but the holdings
  pub record <b id="Noticed">Noticed</b> (l : L) (failure : <a href="../../meter/LimiterSpecs/index.html#Failure">Failure</a>) (notice_answer : <a href="../../meter/LimiterSpecs/index.html#NoticeAnswer">NoticeAnswer</a>) (l&#x27; : L) : Type 0 where
    pub <b id="accepts">accepts</b> : notice_answer ≡ Ok tt
    pub <b id="gives_back">gives_back</b> : c.holdings l&#x27; ≡ <a href="../../meter/CappedSpecs/index.html#without_last">without_last</a> (<a href="../../meter/LimiterSpecs/index.html#kind_of">kind_of</a> failure) (c.holdings l)
    pub <b id="rest">rest</b> : l&#x27; ≡ c.with_holdings l (c.holdings l&#x27;)

  -- the rules of such limiters
  abbrev pub <b id="capped_rules">capped_rules</b> : <a href="../../meter/LimiterSpecs/index.html#Rules">Rules</a> L
  <a href="../../meter/CappedSpecs/index.html#capped_rules">capped_rules</a> = record { asked = <a href="../../meter/CappedSpecs/index.html#Asked">Asked</a>; noticed = <a href="../../meter/CappedSpecs/index.html#Noticed">Noticed</a> }

-- what a quota holds
abbrev pub <b id="holdings">holdings</b> : Quota → Holdings
<a href="../../meter/CappedSpecs/index.html#holdings">holdings</a> quota = quota.holdings

-- the most that it may hold of a kind
abbrev pub <b id="cap_of">cap_of</b> : Quota → Kind → ℕ
<a href="../../meter/CappedSpecs/index.html#cap_of">cap_of</a> quota kind = <a href="../../meter/CappedSpecs/index.html#amount_of">amount_of</a> quota.caps kind

-- quotas as limiters with caps
abbrev pub <b id="capped_quota">capped_quota</b> : <a href="../../meter/CappedSpecs/index.html#Capped">Capped</a> Quota
<a href="../../meter/CappedSpecs/index.html#capped_quota">capped_quota</a> = record {
  <a href="../../meter/CappedSpecs/index.html#holdings">holdings</a> = <a href="../../meter/CappedSpecs/index.html#holdings">holdings</a>;
  <a href="../../meter/CappedSpecs/index.html#with_holdings">with_holdings</a> = λ quota h. record quota { <a href="../../meter/CappedSpecs/index.html#holdings">holdings</a> = h };
  <a href="../../meter/CappedSpecs/index.html#others">others</a> = λ quota kind. 0;
  <a href="../../meter/CappedSpecs/index.html#cap">cap</a> = <a href="../../meter/CappedSpecs/index.html#cap_of">cap_of</a>;
}

-- no more of a kind is held than its cap
abbrev pub <b id="IsWithinCaps">IsWithinCaps</b> : Quota → Type 0
<a href="../../meter/CappedSpecs/index.html#IsWithinCaps">IsWithinCaps</a> = <a href="../../meter/CappedSpecs/index.html#IsWithin">IsWithin</a> <a href="../../meter/CappedSpecs/index.html#capped_quota">capped_quota</a>

-- the caps stay
abbrev pub <b id="SameCaps">SameCaps</b> : Quota → Quota → Type 0
<a href="../../meter/CappedSpecs/index.html#SameCaps">SameCaps</a> quota quota&#x27; = (kind : Kind) → <a href="../../meter/CappedSpecs/index.html#cap_of">cap_of</a> quota&#x27; kind ≡ <a href="../../meter/CappedSpecs/index.html#cap_of">cap_of</a> quota kind

-- the rules of a quota
abbrev pub <b id="quota_rules">quota_rules</b> : <a href="../../meter/LimiterSpecs/index.html#Rules">Rules</a> Quota
<a href="../../meter/CappedSpecs/index.html#quota_rules">quota_rules</a> = <a href="../../meter/CappedSpecs/index.html#capped_rules">capped_rules</a> <a href="../../meter/CappedSpecs/index.html#capped_quota">capped_quota</a>
</code></pre>
"####]
    pub mod CappedSpecs {}
    #[doc = r####"A limiter with caps is a reserving one: it reserves what it permits, and gives back at a notice.

<pre><code>use Rattle.std.specs.Prelude.{◌+◌, ◌-◌}
use Rattle.std.proofs.Common.{inl, inr, refl}
use Rattle.std.proofs.lemmas.Bool.{cases_lt}
use Rattle.wasmi_meter.specs.Capped.{<a href="../../meter/CappedSpecs/index.html#Capped">Capped</a>, <a href="../../meter/CappedSpecs/index.html#held_together">held_together</a>, <a href="../../meter/CappedSpecs/index.html#Asked">Asked</a>, <a href="../../meter/CappedSpecs/index.html#Noticed">Noticed</a>, <a href="../../meter/CappedSpecs/index.html#Reserves">Reserves</a>, <a href="../../meter/CappedSpecs/index.html#GivesBack">GivesBack</a>}
use Rattle.wasmi_meter.specs.Limiter.{<a href="../../meter/LimiterSpecs/index.html#Question">Question</a>, <a href="../../meter/LimiterSpecs/index.html#Answer">Answer</a>, <a href="../../meter/LimiterSpecs/index.html#Failure">Failure</a>, <a href="../../meter/LimiterSpecs/index.html#NoticeAnswer">NoticeAnswer</a>, <a href="../../meter/LimiterSpecs/index.html#kind_of">kind_of</a>}

module _ {L : Type 0} (c : <a href="../../meter/CappedSpecs/index.html#Capped">Capped</a> L) where
  -- a question to a limiter with caps adds the difference if it is permitted, and else keeps what is held
  pub <b id="asked_reserves">asked_reserves</b> : (l l&#x27; : L) (q : <a href="../../meter/LimiterSpecs/index.html#Question">Question</a>) (answer : <a href="../../meter/LimiterSpecs/index.html#Answer">Answer</a>) → <a href="../../meter/CappedSpecs/index.html#Asked">Asked</a> c l q answer l&#x27;
      → <a href="../../meter/CappedSpecs/index.html#Reserves">Reserves</a> q answer (c.holdings l) (c.holdings l&#x27;)
  <a href="../../meter/CappedProofsSpecs/index.html#asked_reserves">asked_reserves</a> l l&#x27; q answer (taken, answered, more) =
      elim (cases_lt (c.cap l q.kind) (<a href="../../meter/CappedSpecs/index.html#held_together">held_together</a> c l q.kind + (q.desired - q.current))) [
        | inl above ↦ let none = more.takes.above above in
            rw (answered, none.0, none.1) (record { bytes = refl; elements = refl })
        | inr within ↦ let some = more.takes.within within in rw (answered, some.0) some.1
      ]

  -- a notice to a limiter with caps takes back the last difference if it is of its kind
  pub <b id="noticed_gives_back">noticed_gives_back</b> : (l l&#x27; : L) (failure : <a href="../../meter/LimiterSpecs/index.html#Failure">Failure</a>) (notice_answer : <a href="../../meter/LimiterSpecs/index.html#NoticeAnswer">NoticeAnswer</a>)
      → <a href="../../meter/CappedSpecs/index.html#Noticed">Noticed</a> c l failure notice_answer l&#x27; → <a href="../../meter/CappedSpecs/index.html#GivesBack">GivesBack</a> (<a href="../../meter/LimiterSpecs/index.html#kind_of">kind_of</a> failure) (c.holdings l) (c.holdings l&#x27;)
  <a href="../../meter/CappedProofsSpecs/index.html#noticed_gives_back">noticed_gives_back</a> l l&#x27; failure notice_answer noticed = noticed.gives_back
</code></pre>
"####]
    pub mod CappedProofsSpecs {}
    #[doc = r####"What a limiter is asked and told and what it answers, its rules, a limiter that may be absent, and the loan of a limiter by a reference to one.

<pre><code>use Rattle.std.specs.Prelude.{◌≡◌, ℕ, Option, Some, None, Result, Ok, Bool, true, option_map}
use Rattle.wasmi_meter.specs.declared.{limiter.Kind.Kind, error.LimiterError.LimiterError, error.MemoryError.MemoryError, error.TableError.TableError, limiter.LimiterRef.LimiterRef}
use Rattle.wasmi_meter.specs.declared.limiter.Kind.TheVariants.{Bytes, Elements}
use Rattle.std.specs.Option.{option_copied_mut}
use Rattle.std.specs.Borrow.{MutBor, LendsIf, Fml, RattleType}
use Rattle.wasmi_meter.specs.contracts.limiter.LimiterRef.{the_row}

-- May this grow from current to desired, where maximum is the most that its type allows?
pub record <b id="Question">Question</b> : Type 0 where
  pub <b id="kind">kind</b> : Kind
  pub <b id="current">current</b> : ℕ
  pub <b id="desired">desired</b> : ℕ
  pub <b id="maximum">maximum</b> : Option ℕ

-- what a limiter answers to a question: it permits, says no, or returns an error
abbrev pub <b id="Answer">Answer</b> : Type 0
<a href="../../meter/LimiterSpecs/index.html#Answer">Answer</a> = Result Bool LimiterError

-- what a limiter answers to a notice: it accepts it, or returns an error
abbrev pub <b id="NoticeAnswer">NoticeAnswer</b> : Type 0
<a href="../../meter/LimiterSpecs/index.html#NoticeAnswer">NoticeAnswer</a> = Result (Unit {0}) LimiterError

-- the answer is no permission
abbrev pub <b id="IsDenial">IsDenial</b> : <a href="../../meter/LimiterSpecs/index.html#Answer">Answer</a> → Type 0
<a href="../../meter/LimiterSpecs/index.html#IsDenial">IsDenial</a> (Ok true) = ⊥
<a href="../../meter/LimiterSpecs/index.html#IsDenial">IsDenial</a> _ = Unit {0}

-- why a growth failed that was permitted
pub data <b id="Failure">Failure</b> : Type 0 where
  <b id="MemoryFailure">MemoryFailure</b> : MemoryError → <a href="../../meter/LimiterSpecs/index.html#Failure">Failure</a>
  <b id="TableFailure">TableFailure</b> : TableError → <a href="../../meter/LimiterSpecs/index.html#Failure">Failure</a>

-- the kind of what failed to grow
abbrev pub <b id="kind_of">kind_of</b> : <a href="../../meter/LimiterSpecs/index.html#Failure">Failure</a> → Kind
<a href="../../meter/LimiterSpecs/index.html#kind_of">kind_of</a> (<a href="../../meter/LimiterSpecs/index.html#MemoryFailure">MemoryFailure</a> error) = Bytes
<a href="../../meter/LimiterSpecs/index.html#kind_of">kind_of</a> (<a href="../../meter/LimiterSpecs/index.html#TableFailure">TableFailure</a> error) = Elements

-- what a limiter may answer in each of its states, and the state after it
pub record <b id="Rules">Rules</b> (S : Type 0) : Type 1 where
  pub <b id="asked">asked</b> : S → <a href="../../meter/LimiterSpecs/index.html#Question">Question</a> → <a href="../../meter/LimiterSpecs/index.html#Answer">Answer</a> → S → Type 0
  pub <b id="noticed">noticed</b> : S → <a href="../../meter/LimiterSpecs/index.html#Failure">Failure</a> → <a href="../../meter/LimiterSpecs/index.html#NoticeAnswer">NoticeAnswer</a> → S → Type 0

-- the rules of a limiter that permits everything, accepts each notice, and stays the same
abbrev pub <b id="unlimited_rules">unlimited_rules</b> : {S : Type 0} → <a href="../../meter/LimiterSpecs/index.html#Rules">Rules</a> S
<a href="../../meter/LimiterSpecs/index.html#unlimited_rules">unlimited_rules</a> = record {
  <a href="../../meter/LimiterSpecs/index.html#asked">asked</a> = λ l question answer l&#x27;. (answer ≡ Ok true) × (l&#x27; ≡ l);
  <a href="../../meter/LimiterSpecs/index.html#noticed">noticed</a> = λ l failure notice_answer l&#x27;. (notice_answer ≡ Ok tt) × (l&#x27; ≡ l);
}

-- a question to a limiter that may be absent: without one it is permitted
abbrev pub <b id="AskedIf">AskedIf</b> : {S : Type 0} → <a href="../../meter/LimiterSpecs/index.html#Rules">Rules</a> S → Option S → <a href="../../meter/LimiterSpecs/index.html#Question">Question</a> → <a href="../../meter/LimiterSpecs/index.html#Answer">Answer</a> → Option S → Type 0
<a href="../../meter/LimiterSpecs/index.html#AskedIf">AskedIf</a> rules (Some l) question answer (Some l&#x27;) = rules.asked l question answer l&#x27;
<a href="../../meter/LimiterSpecs/index.html#AskedIf">AskedIf</a> rules None question answer None = answer ≡ Ok true
<a href="../../meter/LimiterSpecs/index.html#AskedIf">AskedIf</a> rules _ question answer _ = ⊥

-- a notice to a limiter that may be absent: without one it is accepted
abbrev pub <b id="NoticedIf">NoticedIf</b> : {S : Type 0} → <a href="../../meter/LimiterSpecs/index.html#Rules">Rules</a> S → Option S → <a href="../../meter/LimiterSpecs/index.html#Failure">Failure</a> → <a href="../../meter/LimiterSpecs/index.html#NoticeAnswer">NoticeAnswer</a> → Option S → Type 0
<a href="../../meter/LimiterSpecs/index.html#NoticedIf">NoticedIf</a> rules (Some l) failure notice_answer (Some l&#x27;) = rules.noticed l failure notice_answer l&#x27;
<a href="../../meter/LimiterSpecs/index.html#NoticedIf">NoticedIf</a> rules None failure notice_answer None = notice_answer ≡ Ok tt
<a href="../../meter/LimiterSpecs/index.html#NoticedIf">NoticedIf</a> rules _ failure notice_answer _ = ⊥

-- the rules of a limiter that may be absent
abbrev pub <b id="optional_rules">optional_rules</b> : {S : Type 0} → <a href="../../meter/LimiterSpecs/index.html#Rules">Rules</a> S → <a href="../../meter/LimiterSpecs/index.html#Rules">Rules</a> (Option S)
<a href="../../meter/LimiterSpecs/index.html#optional_rules">optional_rules</a> rules = record { <a href="../../meter/LimiterSpecs/index.html#asked">asked</a> = <a href="../../meter/LimiterSpecs/index.html#AskedIf">AskedIf</a> rules; <a href="../../meter/LimiterSpecs/index.html#noticed">noticed</a> = <a href="../../meter/LimiterSpecs/index.html#NoticedIf">NoticedIf</a> rules }

-- what is lent, if anything
abbrev pub <b id="loan">loan</b> : {R : Type 0} → LimiterRef R → Option R
<a href="../../meter/LimiterSpecs/index.html#loan">loan</a> r = r.limiter

-- the present value of the limiter that is lent, or none
abbrev pub <b id="lent_limiter">lent_limiter</b> : {L : Type 0} → LimiterRef (MutBor L) → Option L
<a href="../../meter/LimiterSpecs/index.html#lent_limiter">lent_limiter</a> r = option_copied_mut r.limiter

-- one loan before and after a call: both absent, or under one name
abbrev pub <b id="SameLoan">SameLoan</b> : {L : Type 0} → Option (MutBor L) → Option (MutBor L) → Type 0
<a href="../../meter/LimiterSpecs/index.html#SameLoan">SameLoan</a> None None = Unit {0}
<a href="../../meter/LimiterSpecs/index.html#SameLoan">SameLoan</a> (Some r) (Some r&#x27;) = r&#x27;.ghost_name ≡ r.ghost_name
<a href="../../meter/LimiterSpecs/index.html#SameLoan">SameLoan</a> _ _ = ⊥

-- r&#x27; leads to what r leads to
abbrev pub <b id="KeepsLoan">KeepsLoan</b> : {L : Type 0} → LimiterRef (MutBor L) → LimiterRef (MutBor L) → Type 0
<a href="../../meter/LimiterSpecs/index.html#KeepsLoan">KeepsLoan</a> r r&#x27; = <a href="../../meter/LimiterSpecs/index.html#SameLoan">SameLoan</a> r.limiter r&#x27;.limiter

-- r lends the limiter out of s, and s ends with the last value that was written through it
abbrev pub <b id="LendsLimiter">LendsLimiter</b> : (R L : RattleType) → (R.Denot → L.Denot → R.Denot) → MutBor (LimiterRef R.Denot)
    → Option (MutBor L.Denot) → Fml
<a href="../../meter/LimiterSpecs/index.html#LendsLimiter">LendsLimiter</a> R L last s r =
    LendsIf (the_row R) L s r (λ l. record s.now { limiter = option_map (λ lender. last lender l) s.now.limiter }) s.now

-- the rules of a reference to a limiter, if there is one: those of the limiter, and it leads to what it led to
abbrev pub <b id="lent_rules">lent_rules</b> : {L : Type 0} → <a href="../../meter/LimiterSpecs/index.html#Rules">Rules</a> L → <a href="../../meter/LimiterSpecs/index.html#Rules">Rules</a> (LimiterRef (MutBor L))
<a href="../../meter/LimiterSpecs/index.html#lent_rules">lent_rules</a> rules = record {
  <a href="../../meter/LimiterSpecs/index.html#asked">asked</a> = λ r question answer r&#x27;. <a href="../../meter/LimiterSpecs/index.html#KeepsLoan">KeepsLoan</a> r r&#x27; × <a href="../../meter/LimiterSpecs/index.html#AskedIf">AskedIf</a> rules (<a href="../../meter/LimiterSpecs/index.html#lent_limiter">lent_limiter</a> r) question answer (<a href="../../meter/LimiterSpecs/index.html#lent_limiter">lent_limiter</a> r&#x27;);
  <a href="../../meter/LimiterSpecs/index.html#noticed">noticed</a> = λ r failure notice_answer r&#x27;.
      <a href="../../meter/LimiterSpecs/index.html#KeepsLoan">KeepsLoan</a> r r&#x27; × <a href="../../meter/LimiterSpecs/index.html#NoticedIf">NoticedIf</a> rules (<a href="../../meter/LimiterSpecs/index.html#lent_limiter">lent_limiter</a> r) failure notice_answer (<a href="../../meter/LimiterSpecs/index.html#lent_limiter">lent_limiter</a> r&#x27;);
}
</code></pre>
"####]
    pub mod LimiterSpecs {}
    #[doc = r####"Fuel meters: what is left on one, also on one that a call may have, what is taken of it or refused, with which error; and what work costs in fuel.

<pre><code>use Rattle.std.specs.Prelude.{◌≡◌, ◌⊎◌, ℕ, ◌-◌, ◌≤◌, ◌&lt;◌, is_some, if◌then◌else◌, Option, Some, None, Result, Ok, Err, ◌*◌, ◌/◌, ◌^◌, min, nat_eq}
use Rattle.std.proofs.Common.{inl, inr}
use Rattle.std.specs.Borrow.{MutBor, Bor}
use Rattle.std.specs.Option.{option_copied_mut, option_map, unwrap_or}
use Rattle.wasmi_meter.specs.declared.{fuel.FuelError.FuelError, fuel.CustomFuelCosts.CustomFuelCosts, error.TableError.TableError, fuel.FuelCostsProvider.FuelCostsProvider}
use Rattle.wasmi_meter.specs.declared.fuel.FuelError.TheVariants.{OutOfFuel}
use Rattle.std.specs.Fn.{Once, FnOnceReturnsAt}
use Rattle.wasmi_meter.specs.declared.fuel.FuelError.TheVariants as fuel
use Rattle.wasmi_meter.specs.declared.error.TableError.TheVariants as table

-- a meter is off, or on with an amount left, at these costs
pub record <b id="Meter">Meter</b> : Type 0 where
  pub <b id="left">left</b> : Option ℕ
  pub <b id="costs">costs</b> : CustomFuelCosts

-- what is left; nothing where the meter is off
abbrev pub <b id="amount_left">amount_left</b> : <a href="../../meter/MeterSpecs/index.html#Meter">Meter</a> → ℕ
<a href="../../meter/MeterSpecs/index.html#amount_left">amount_left</a> m = unwrap_or m.left 0

-- the meter with an amount taken; one that is off stays
abbrev pub <b id="meter_after">meter_after</b> : <a href="../../meter/MeterSpecs/index.html#Meter">Meter</a> → ℕ → <a href="../../meter/MeterSpecs/index.html#Meter">Meter</a>
<a href="../../meter/MeterSpecs/index.html#meter_after">meter_after</a> m amount = record m { <a href="../../meter/MeterSpecs/index.html#left">left</a> = option_map (λ <a href="../../meter/MeterSpecs/index.html#left">left</a>. <a href="../../meter/MeterSpecs/index.html#left">left</a> - amount) m.left }

-- the meter set to an amount; one that is off stays
abbrev pub <b id="meter_set">meter_set</b> : <a href="../../meter/MeterSpecs/index.html#Meter">Meter</a> → ℕ → <a href="../../meter/MeterSpecs/index.html#Meter">Meter</a>
<a href="../../meter/MeterSpecs/index.html#meter_set">meter_set</a> m amount = record m { <a href="../../meter/MeterSpecs/index.html#left">left</a> = option_map (λ <a href="../../meter/MeterSpecs/index.html#left">left</a>. amount) m.left }

-- the meter that an optional reference leads to when a call begins, if there is one
abbrev pub <b id="meter_at_entry">meter_at_entry</b> : Option (MutBor <a href="../../meter/MeterSpecs/index.html#Meter">Meter</a>) → Option <a href="../../meter/MeterSpecs/index.html#Meter">Meter</a>
<a href="../../meter/MeterSpecs/index.html#meter_at_entry">meter_at_entry</a> lent = option_copied_mut lent

-- the meter that an optional reference leads to when a call ends, if there is one; a clause has it as `.exit`
abbrev pub <b id="meter_at_exit">meter_at_exit</b> : {A B C : Type 0} → A ⊎ ((MutBor <a href="../../meter/MeterSpecs/index.html#Meter">Meter</a> × B) ⊎ C) → Option <a href="../../meter/MeterSpecs/index.html#Meter">Meter</a>
<a href="../../meter/MeterSpecs/index.html#meter_at_exit">meter_at_exit</a> (inr (inl lent)) = Some lent.0.now
<a href="../../meter/MeterSpecs/index.html#meter_at_exit">meter_at_exit</a> _ = None

-- an amount is taken where that much is left, and is refused otherwise
pub record <b id="ConsumesFuel">ConsumesFuel</b> {T : Type 0} (m : <a href="../../meter/MeterSpecs/index.html#Meter">Meter</a>) (amount : ℕ) (value : T) (result : Result T FuelError)
    (m&#x27; : <a href="../../meter/MeterSpecs/index.html#Meter">Meter</a>) : Type 0 where
  pub <b id="enough">enough</b> : amount ≤ <a href="../../meter/MeterSpecs/index.html#amount_left">amount_left</a> m → (result ≡ Ok value) × (m&#x27; ≡ <a href="../../meter/MeterSpecs/index.html#meter_after">meter_after</a> m amount)
  pub <b id="short">short</b> : <a href="../../meter/MeterSpecs/index.html#amount_left">amount_left</a> m &lt; amount → (result ≡ Err (OutOfFuel amount)) × (m&#x27; ≡ m)

-- what a meter is due for a price by its costs: nothing where it is off
abbrev pub <b id="due">due</b> : <a href="../../meter/MeterSpecs/index.html#Meter">Meter</a> → (CustomFuelCosts → ℕ) → ℕ
<a href="../../meter/MeterSpecs/index.html#due">due</a> m price = if is_some m.left then price m.costs else 0

-- a charge is at most what was left of a meter, and is taken of the meter
abbrev pub <b id="PaysCharge">PaysCharge</b> : <a href="../../meter/MeterSpecs/index.html#Meter">Meter</a> → ℕ → <a href="../../meter/MeterSpecs/index.html#Meter">Meter</a> → Type 0
<a href="../../meter/MeterSpecs/index.html#PaysCharge">PaysCharge</a> m charge m&#x27; = (charge ≤ <a href="../../meter/MeterSpecs/index.html#amount_left">amount_left</a> m) × (m&#x27; ≡ <a href="../../meter/MeterSpecs/index.html#meter_after">meter_after</a> m charge)

-- a charge is taken where that much is left, and refused otherwise with what it needs
abbrev pub <b id="Charges">Charges</b> : <a href="../../meter/MeterSpecs/index.html#Meter">Meter</a> → ℕ → Result (Unit {0}) ℕ → <a href="../../meter/MeterSpecs/index.html#Meter">Meter</a> → Type 0
<a href="../../meter/MeterSpecs/index.html#Charges">Charges</a> m amount (Ok _) m&#x27; = <a href="../../meter/MeterSpecs/index.html#PaysCharge">PaysCharge</a> m amount m&#x27;
<a href="../../meter/MeterSpecs/index.html#Charges">Charges</a> m amount (Err required) m&#x27; = (<a href="../../meter/MeterSpecs/index.html#amount_left">amount_left</a> m &lt; amount) × (required ≡ amount) × (m&#x27; ≡ m)

-- too little fuel is an error of a table; that a meter is off is none, and is handed back
abbrev pub <b id="IsOfFuel">IsOfFuel</b> : FuelError → Result TableError FuelError → Type 0
<a href="../../meter/MeterSpecs/index.html#IsOfFuel">IsOfFuel</a> (fuel.OutOfFuel required) answer = answer ≡ Ok (table.OutOfFuel required)
<a href="../../meter/MeterSpecs/index.html#IsOfFuel">IsOfFuel</a> fuel.FuelMeteringDisabled answer = answer ≡ Err fuel.FuelMeteringDisabled

-- the costs that stand where none are chosen
abbrev pub <b id="default_costs">default_costs</b> : CustomFuelCosts
<a href="../../meter/MeterSpecs/index.html#default_costs">default_costs</a> = record { bytes_copied_per_fuel = 64; fuel_per_bytes_translated = 7; fuel_per_bytes_validated = 2 }

-- the costs that are chosen, or the default ones
abbrev pub <b id="costs_of">costs_of</b> : FuelCostsProvider → CustomFuelCosts
<a href="../../meter/MeterSpecs/index.html#costs_of">costs_of</a> provider = unwrap_or provider.custom <a href="../../meter/MeterSpecs/index.html#default_costs">default_costs</a>

-- f, called with a provider of these costs, returns the amount
abbrev pub <b id="Computes">Computes</b> : {F : Type 0} → Once F (Bor FuelCostsProvider × Unit {0}) ℕ → F → CustomFuelCosts → ℕ → Type 0
<a href="../../meter/MeterSpecs/index.html#Computes">Computes</a> call f <a href="../../meter/MeterSpecs/index.html#costs">costs</a> amount =
    (provider : FuelCostsProvider) × (<a href="../../meter/MeterSpecs/index.html#costs_of">costs_of</a> provider ≡ <a href="../../meter/MeterSpecs/index.html#costs">costs</a>) × FnOnceReturnsAt call f provider amount

-- a product cut at the greatest number of 64 bits
abbrev pub <b id="cut_product">cut_product</b> : ℕ → ℕ → ℕ
<a href="../../meter/MeterSpecs/index.html#cut_product">cut_product</a> x y = min (x * y) (2 ^ 64 - 1)

-- the fuel for copying so many values of so many bytes each
abbrev pub <b id="copy_cost">copy_cost</b> : CustomFuelCosts → ℕ → ℕ → ℕ
<a href="../../meter/MeterSpecs/index.html#copy_cost">copy_cost</a> <a href="../../meter/MeterSpecs/index.html#costs">costs</a> values size =
    if nat_eq costs.bytes_copied_per_fuel 0 then 2 ^ 64 - 1 else <a href="../../meter/MeterSpecs/index.html#cut_product">cut_product</a> values size / costs.bytes_copied_per_fuel
</code></pre>
"####]
    pub mod MeterSpecs {}
    #[doc = r####"The texts of errors of fuel meters, limiters, memories and tables: words, and the number after them, if any.

<pre><code>use Rattle.std.specs.Prelude.{ℕ, List, ◌++◌, Option, None, Some, codes, decimal}
use Rattle.wasmi_meter.specs.declared.{error.LimiterError.LimiterError, error.MemoryError.MemoryError, error.TableError.TableError, fuel.FuelError.FuelError}
use Rattle.wasmi_meter.specs.declared.error.LimiterError.TheVariants as limiter
use Rattle.wasmi_meter.specs.declared.error.MemoryError.TheVariants as memory
use Rattle.wasmi_meter.specs.declared.error.TableError.TheVariants as table
use Rattle.wasmi_meter.specs.declared.fuel.FuelError.TheVariants as fuel

-- the text of an error: its words, and the number after them, if there is one
abbrev pub <b id="numbered">numbered</b> : List ℕ → Option ℕ → List ℕ
<a href="../../meter/TextsSpecs/index.html#numbered">numbered</a> words None = words
<a href="../../meter/TextsSpecs/index.html#numbered">numbered</a> words (Some number) = words ++ decimal number

-- the text of a limiter&#x27;s error
abbrev pub <b id="limiter_error_text">limiter_error_text</b> : LimiterError → List ℕ
<a href="../../meter/TextsSpecs/index.html#limiter_error_text">limiter_error_text</a> limiter.ResourceLimiterDeniedAllocation = codes "resource limiter denied allocation"

-- the text of an error of the meter
abbrev pub <b id="fuel_error_text">fuel_error_text</b> : FuelError → List ℕ
<a href="../../meter/TextsSpecs/index.html#fuel_error_text">fuel_error_text</a> fuel.FuelMeteringDisabled = codes "fuel metering is disabled"
<a href="../../meter/TextsSpecs/index.html#fuel_error_text">fuel_error_text</a> (fuel.OutOfFuel required) = codes "ouf of fuel. required=" ++ decimal required

-- What tools/generate writes begins.
-- the text of an error of a memory
abbrev pub <b id="memory_error_text">memory_error_text</b> : MemoryError → List ℕ
<a href="../../meter/TextsSpecs/index.html#memory_error_text">memory_error_text</a> memory.OutOfSystemMemory = codes "tried to allocate more virtual memory than available on the system"
<a href="../../meter/TextsSpecs/index.html#memory_error_text">memory_error_text</a> memory.OutOfBoundsGrowth = codes "out of bounds memory growth"
<a href="../../meter/TextsSpecs/index.html#memory_error_text">memory_error_text</a> memory.OutOfBoundsAccess = codes "out of bounds memory access"
<a href="../../meter/TextsSpecs/index.html#memory_error_text">memory_error_text</a> memory.InvalidMemoryType = codes "tried to create an invalid linear memory type"
<a href="../../meter/TextsSpecs/index.html#memory_error_text">memory_error_text</a> memory.InvalidStaticBufferSize = codes "tried to use too small static buffer"
<a href="../../meter/TextsSpecs/index.html#memory_error_text">memory_error_text</a> memory.ResourceLimiterDeniedAllocation =
    codes "a resource limiter denied to allocate or grow the linear memory"
<a href="../../meter/TextsSpecs/index.html#memory_error_text">memory_error_text</a> memory.MinimumSizeOverflow =
    codes "the minimum size of the memory type overflows the system index type"
<a href="../../meter/TextsSpecs/index.html#memory_error_text">memory_error_text</a> memory.MaximumSizeOverflow =
    codes "the maximum size of the memory type overflows the system index type"
<a href="../../meter/TextsSpecs/index.html#memory_error_text">memory_error_text</a> (memory.OutOfFuel required) = codes "not enough fuel. required=" ++ decimal required

-- the text of an error of a table
abbrev pub <b id="table_error_text">table_error_text</b> : TableError → List ℕ
<a href="../../meter/TextsSpecs/index.html#table_error_text">table_error_text</a> table.OutOfSystemMemory = codes "tried to allocate more virtual memory than available on the system"
<a href="../../meter/TextsSpecs/index.html#table_error_text">table_error_text</a> table.MinimumSizeOverflow = codes "the minimum table size overflows the system bounds"
<a href="../../meter/TextsSpecs/index.html#table_error_text">table_error_text</a> table.MaximumSizeOverflow = codes "the maximum table size overflows the system bounds"
<a href="../../meter/TextsSpecs/index.html#table_error_text">table_error_text</a> table.ResourceLimiterDeniedAllocation = codes "a resource limiter denied to allocate or grow the table"
<a href="../../meter/TextsSpecs/index.html#table_error_text">table_error_text</a> table.GrowOutOfBounds = codes "out of bounds table access: `table.growth`"
<a href="../../meter/TextsSpecs/index.html#table_error_text">table_error_text</a> table.InitOutOfBounds = codes "out of bounds table access: `table.init`"
<a href="../../meter/TextsSpecs/index.html#table_error_text">table_error_text</a> table.FillOutOfBounds = codes "out of bounds table access: `table.fill`"
<a href="../../meter/TextsSpecs/index.html#table_error_text">table_error_text</a> table.SetOutOfBounds = codes "out of bounds table access: `table.set`"
<a href="../../meter/TextsSpecs/index.html#table_error_text">table_error_text</a> table.CopyOutOfBounds = codes "out of bounds table access: `table.copy`"
<a href="../../meter/TextsSpecs/index.html#table_error_text">table_error_text</a> table.ElementTypeMismatch = codes "encountered mismatching table element type"
<a href="../../meter/TextsSpecs/index.html#table_error_text">table_error_text</a> (table.OutOfFuel required) = codes "not enough fuel: required=" ++ decimal required

-- What tools/generate writes ends.
</code></pre>
"####]
    pub mod TextsSpecs {}
}
/// Definitions of `wasmi_store`.
pub mod store {
    #[doc = r####"The bytes of a linear memory: the room that they may grow into, the block of which they are the front, and how they are written over.

<pre><code>use Rattle.std.specs.Prelude.{◌≡◌, ℕ, Bool, true, nat_le, MatchBool, List, ◌++◌, length, drop, replicate, take, ◌≤◌}
use Rattle.std.specs.List.{refill}
use Rattle.wasmi_meter.specs.declared.error.MemoryError.{MemoryError}
use Rattle.wasmi_meter.specs.declared.error.MemoryError.TheVariants.{OutOfSystemMemory, InvalidStaticBufferSize}
use Rattle.std.specs.Borrow.{MutBor}
use denote.Ref.{at_last}
use Rattle.std.specs.Vec.{with_items_from}
use Rattle.wasmi_store.specs.declared.memory.buffer.Storage.{Storage}
use Rattle.wasmi_store.specs.declared.memory.buffer.Storage.TheVariants as storage

-- where bytes may grow: into memory of their own, or into the bytes that are left of a lent region
pub data <b id="Room">Room</b> : Type 0 where
  <b id="Owned">Owned</b> : <a href="../../store/BufferSpecs/index.html#Room">Room</a>
  <b id="Lent">Lent</b> : List ℕ → <a href="../../store/BufferSpecs/index.html#Room">Room</a>

-- a buffer: its bytes, and its room
pub record <b id="BufferValue">BufferValue</b> : Type 0 where
  pub <b id="bytes">bytes</b> : List ℕ
  pub <b id="room">room</b> : <a href="../../store/BufferSpecs/index.html#Room">Room</a>

-- the buffer whose bytes were written over, by as many
abbrev pub <b id="with_bytes">with_bytes</b> : <a href="../../store/BufferSpecs/index.html#BufferValue">BufferValue</a> → List ℕ → <a href="../../store/BufferSpecs/index.html#BufferValue">BufferValue</a>
<a href="../../store/BufferSpecs/index.html#with_bytes">with_bytes</a> b ws = record { <a href="../../store/BufferSpecs/index.html#bytes">bytes</a> = refill (length b.bytes) b.bytes ws; <a href="../../store/BufferSpecs/index.html#room">room</a> = b.room }

-- whether a room has place for n more bytes: what is left of a lent region may be too short
abbrev pub <b id="fits_room">fits_room</b> : <a href="../../store/BufferSpecs/index.html#Room">Room</a> → ℕ → Bool
<a href="../../store/BufferSpecs/index.html#fits_room">fits_room</a> <a href="../../store/BufferSpecs/index.html#Owned">Owned</a> n = true
<a href="../../store/BufferSpecs/index.html#fits_room">fits_room</a> (<a href="../../store/BufferSpecs/index.html#Lent">Lent</a> rest) n = nat_le n (length rest)

-- why bytes that fit a room could not be had: owned memory may be refused, a lent region allocates none
abbrev pub <b id="LacksMemory">LacksMemory</b> : <a href="../../store/BufferSpecs/index.html#Room">Room</a> → MemoryError → Type 0
<a href="../../store/BufferSpecs/index.html#LacksMemory">LacksMemory</a> <a href="../../store/BufferSpecs/index.html#Owned">Owned</a> error = error ≡ OutOfSystemMemory
<a href="../../store/BufferSpecs/index.html#LacksMemory">LacksMemory</a> (<a href="../../store/BufferSpecs/index.html#Lent">Lent</a> rest) error = ⊥

-- why n more bytes could not be had: a lent region is too short, or memory is refused
abbrev pub <b id="CanFail">CanFail</b> : <a href="../../store/BufferSpecs/index.html#Room">Room</a> → ℕ → MemoryError → Type 0
<a href="../../store/BufferSpecs/index.html#CanFail">CanFail</a> <a href="../../store/BufferSpecs/index.html#room">room</a> n error = MatchBool (<a href="../../store/BufferSpecs/index.html#fits_room">fits_room</a> <a href="../../store/BufferSpecs/index.html#room">room</a> n) (<a href="../../store/BufferSpecs/index.html#LacksMemory">LacksMemory</a> <a href="../../store/BufferSpecs/index.html#room">room</a> error) (error ≡ InvalidStaticBufferSize)

-- the room once n bytes of it are used
abbrev pub <b id="room_after">room_after</b> : <a href="../../store/BufferSpecs/index.html#Room">Room</a> → ℕ → <a href="../../store/BufferSpecs/index.html#Room">Room</a>
<a href="../../store/BufferSpecs/index.html#room_after">room_after</a> <a href="../../store/BufferSpecs/index.html#Owned">Owned</a> n = <a href="../../store/BufferSpecs/index.html#Owned">Owned</a>
<a href="../../store/BufferSpecs/index.html#room_after">room_after</a> (<a href="../../store/BufferSpecs/index.html#Lent">Lent</a> rest) n = <a href="../../store/BufferSpecs/index.html#Lent">Lent</a> (drop n rest)

-- a buffer of n zeros in a room
abbrev pub <b id="zeros_in">zeros_in</b> : <a href="../../store/BufferSpecs/index.html#Room">Room</a> → ℕ → <a href="../../store/BufferSpecs/index.html#BufferValue">BufferValue</a>
<a href="../../store/BufferSpecs/index.html#zeros_in">zeros_in</a> <a href="../../store/BufferSpecs/index.html#room">room</a> n = record { <a href="../../store/BufferSpecs/index.html#bytes">bytes</a> = replicate n 0; <a href="../../store/BufferSpecs/index.html#room">room</a> = <a href="../../store/BufferSpecs/index.html#room_after">room_after</a> <a href="../../store/BufferSpecs/index.html#room">room</a> n }

-- the buffer with n zeros after its bytes
abbrev pub <b id="with_zeros">with_zeros</b> : <a href="../../store/BufferSpecs/index.html#BufferValue">BufferValue</a> → ℕ → <a href="../../store/BufferSpecs/index.html#BufferValue">BufferValue</a>
<a href="../../store/BufferSpecs/index.html#with_zeros">with_zeros</a> b n = record { <a href="../../store/BufferSpecs/index.html#bytes">bytes</a> = b.bytes ++ replicate n 0; <a href="../../store/BufferSpecs/index.html#room">room</a> = <a href="../../store/BufferSpecs/index.html#room_after">room_after</a> b.room n }

-- xs with its first items, up to place end, written over by as many
abbrev pub <b id="refilled_front">refilled_front</b> : List ℕ → ℕ → List ℕ → List ℕ
<a href="../../store/BufferSpecs/index.html#refilled_front">refilled_front</a> xs end ws = refill (length (take end xs)) (take end xs) ws ++ drop end xs

-- the reference to a region whose front was written over
abbrev pub <b id="region_refilled">region_refilled</b> : MutBor (List ℕ) → ℕ → List ℕ → MutBor (List ℕ)
<a href="../../store/BufferSpecs/index.html#region_refilled">region_refilled</a> r end ws = at_last r (<a href="../../store/BufferSpecs/index.html#refilled_front">refilled_front</a> r.now end ws)

module _ {Region : Type 0} where
  -- the block of bytes of which a buffer&#x27;s are the first: memory of its own, or a region
  abbrev pub <b id="block">block</b> : (Region → List ℕ) → Storage Region → List ℕ
  <a href="../../store/BufferSpecs/index.html#block">block</a> <a href="../../store/BufferSpecs/index.html#bytes">bytes</a> (<a href="../../store/BufferSpecs/index.html#Owned">storage.Owned</a> v) = v.items
  <a href="../../store/BufferSpecs/index.html#block">block</a> <a href="../../store/BufferSpecs/index.html#bytes">bytes</a> (<a href="../../store/BufferSpecs/index.html#Lent">storage.Lent</a> region) = <a href="../../store/BufferSpecs/index.html#bytes">bytes</a> region

  -- the buffer of the first bytes of a block, up to an end
  abbrev pub <b id="view_of">view_of</b> : (Region → List ℕ) → Storage Region → ℕ → <a href="../../store/BufferSpecs/index.html#BufferValue">BufferValue</a>
  <a href="../../store/BufferSpecs/index.html#view_of">view_of</a> <a href="../../store/BufferSpecs/index.html#bytes">bytes</a> (<a href="../../store/BufferSpecs/index.html#Owned">storage.Owned</a> v) end = record { <a href="../../store/BufferSpecs/index.html#bytes">bytes</a> = take end v.items; <a href="../../store/BufferSpecs/index.html#room">room</a> = <a href="../../store/BufferSpecs/index.html#Owned">Owned</a> }
  <a href="../../store/BufferSpecs/index.html#view_of">view_of</a> <a href="../../store/BufferSpecs/index.html#bytes">bytes</a> (<a href="../../store/BufferSpecs/index.html#Lent">storage.Lent</a> region) end =
      record { <a href="../../store/BufferSpecs/index.html#bytes">bytes</a> = take end (<a href="../../store/BufferSpecs/index.html#bytes">bytes</a> region); <a href="../../store/BufferSpecs/index.html#room">room</a> = <a href="../../store/BufferSpecs/index.html#Lent">Lent</a> (drop end (<a href="../../store/BufferSpecs/index.html#bytes">bytes</a> region)) }

  -- memory of a buffer&#x27;s own ends with its bytes, and a region doesn&#x27;t end before them
  abbrev pub <b id="EndsWithin">EndsWithin</b> : (Region → List ℕ) → Storage Region → ℕ → Type 0
  <a href="../../store/BufferSpecs/index.html#EndsWithin">EndsWithin</a> <a href="../../store/BufferSpecs/index.html#bytes">bytes</a> (<a href="../../store/BufferSpecs/index.html#Owned">storage.Owned</a> v) end = end ≡ length v.items
  <a href="../../store/BufferSpecs/index.html#EndsWithin">EndsWithin</a> <a href="../../store/BufferSpecs/index.html#bytes">bytes</a> (<a href="../../store/BufferSpecs/index.html#Lent">storage.Lent</a> region) end = end ≤ length (<a href="../../store/BufferSpecs/index.html#bytes">bytes</a> region)

  -- the storage once the front of its block, up to an end, was written over
  abbrev pub <b id="block_refilled">block_refilled</b> : (Region → ℕ → List ℕ → Region) → Storage Region → ℕ → List ℕ → Storage Region
  <a href="../../store/BufferSpecs/index.html#block_refilled">block_refilled</a> refilled (<a href="../../store/BufferSpecs/index.html#Owned">storage.Owned</a> v) end ws = <a href="../../store/BufferSpecs/index.html#Owned">storage.Owned</a> (with_items_from v 0 ws)
  <a href="../../store/BufferSpecs/index.html#block_refilled">block_refilled</a> refilled (<a href="../../store/BufferSpecs/index.html#Lent">storage.Lent</a> region) end ws = <a href="../../store/BufferSpecs/index.html#Lent">storage.Lent</a> (refilled region end ws)
</code></pre>
"####]
    pub mod BufferSpecs {}
    #[doc = r####"Making and growing a memory or a table, as an attempt with its answer: how what it begins with is put together, what a limiter is asked and denies, and a call with some charge.

<pre><code>use Rattle.std.specs.Prelude.{◌≡◌, ◌&lt;◌, ◌⊎◌, ℕ, Option, None, Result, Ok}
use Rattle.wasmi_meter.specs.Limiter.{<a href="../../meter/LimiterSpecs/index.html#Question">Question</a>, <a href="../../meter/LimiterSpecs/index.html#Answer">Answer</a>, <a href="../../meter/LimiterSpecs/index.html#IsDenial">IsDenial</a>, <a href="../../meter/LimiterSpecs/index.html#Rules">Rules</a>}
use Rattle.wasmi_meter.specs.Meter.{<a href="../../meter/MeterSpecs/index.html#Meter">Meter</a>}
use Rattle.wasmi_meter.specs.Attempt.{<a href="../../meter/AttemptSpecs/index.html#MeteredValue">MeteredValue</a>, <a href="../../meter/AttemptSpecs/index.html#alone">alone</a>, <a href="../../meter/AttemptSpecs/index.html#Request">Request</a>, <a href="../../meter/AttemptSpecs/index.html#AttemptOutcome">AttemptOutcome</a>, <a href="../../meter/AttemptSpecs/index.html#Attempt">Attempt</a>, <a href="../../meter/AttemptSpecs/index.html#answer_of">answer_of</a>}

-- a value with its meter, if there is one, and its limiter
abbrev pub <b id="metered_value">metered_value</b> : {V S : Type 0} → V → Option <a href="../../meter/MeterSpecs/index.html#Meter">Meter</a> → S → <a href="../../meter/AttemptSpecs/index.html#MeteredValue">MeteredValue</a> V S
<a href="../../store/GrowthSpecs/index.html#metered_value">metered_value</a> value meter limiter = record { value = value; meter = meter; limiter = limiter }

-- a value with its meter, if there is one, and no limiter to ask
abbrev pub <b id="metered">metered</b> : {V : Type 0} → V → Option <a href="../../meter/MeterSpecs/index.html#Meter">Meter</a> → <a href="../../meter/AttemptSpecs/index.html#MeteredValue">MeteredValue</a> V (Unit {0})
<a href="../../store/GrowthSpecs/index.html#metered">metered</a> value meter = <a href="../../store/GrowthSpecs/index.html#metered_value">metered_value</a> value meter tt

-- a call on a value takes place, with some charge
abbrev pub <b id="WithCharge">WithCharge</b> : {A R : Type 0} → (A → R → ℕ → A → Type 0) → A → R → A → Type 0
<a href="../../store/GrowthSpecs/index.html#WithCharge">WithCharge</a> Acts s result s&#x27; = (charge : ℕ) × Acts s result charge s&#x27;

-- no early cause stands against what is asked, and this is the question
pub record <b id="IsAsked">IsAsked</b> {V E : Type 0} (e : <a href="../../meter/AttemptSpecs/index.html#Request">Request</a> V E) (question : <a href="../../meter/LimiterSpecs/index.html#Question">Question</a>) : Type 0 where
  pub <b id="early">early</b> : e.early ≡ None
  pub <b id="question_is">question_is</b> : question ≡ e.question

-- a limiter was asked a question, and denied it
abbrev pub <b id="IsDenied">IsDenied</b> : {S : Type 0} → <a href="../../meter/LimiterSpecs/index.html#Rules">Rules</a> S → <a href="../../meter/LimiterSpecs/index.html#Question">Question</a> → S → S → Type 0
<a href="../../store/GrowthSpecs/index.html#IsDenied">IsDenied</a> rules question l l&#x27; = (answer : <a href="../../meter/LimiterSpecs/index.html#Answer">Answer</a>) × <a href="../../meter/LimiterSpecs/index.html#IsDenial">IsDenial</a> answer × rules.asked l question answer l&#x27;

-- an attempt to make a value, which is returned if the attempt is met; no fuel is charged
abbrev pub <b id="Makes">Makes</b> : {T E S : Type 0} → <a href="../../meter/LimiterSpecs/index.html#Rules">Rules</a> S → <a href="../../meter/AttemptSpecs/index.html#Request">Request</a> (Unit {0}) E → T → S → Result T E → S → Type 0
<a href="../../store/GrowthSpecs/index.html#Makes">Makes</a> {E = E} rules e made l result l&#x27; =
    (<a href="../../store/GrowthSpecs/index.html#outcome">outcome</a> : <a href="../../meter/AttemptSpecs/index.html#AttemptOutcome">AttemptOutcome</a> E) × <a href="../../meter/AttemptSpecs/index.html#Attempt">Attempt</a> rules e (<a href="../../meter/AttemptSpecs/index.html#alone">alone</a> l) <a href="../../store/GrowthSpecs/index.html#outcome">outcome</a> 0 (<a href="../../meter/AttemptSpecs/index.html#alone">alone</a> l&#x27;) × (result ≡ <a href="../../meter/AttemptSpecs/index.html#answer_of">answer_of</a> e made <a href="../../store/GrowthSpecs/index.html#outcome">outcome</a>)

-- a growth: by how much, the size before it, and what is asked and paid for it
pub record <b id="Growth">Growth</b> (V E : Type 0) : Type 1 where
  pub <b id="amount">amount</b> : ℕ
  pub <b id="size">size</b> : ℕ
  pub <b id="request">request</b> : <a href="../../meter/AttemptSpecs/index.html#Request">Request</a> V E

-- a growth by 0 returns the size, and changes nothing
pub record <b id="GrowsByNone">GrowsByNone</b> {V E S : Type 0} (g : <a href="../../store/GrowthSpecs/index.html#Growth">Growth</a> V E) (s : <a href="../../meter/AttemptSpecs/index.html#MeteredValue">MeteredValue</a> V S) (result : Result ℕ E) (charge : ℕ)
    (s&#x27; : <a href="../../meter/AttemptSpecs/index.html#MeteredValue">MeteredValue</a> V S) : Type 0 where
  pub <b id="none">none</b> : g.amount ≡ 0
  pub <b id="answered">answered</b> : result ≡ Ok g.size
  pub <b id="uncharged">uncharged</b> : charge ≡ 0
  pub <b id="same">same</b> : s&#x27; ≡ s

-- a growth by 1 or more is an attempt, and returns the old size if it is met
pub record <b id="GrowsBySome">GrowsBySome</b> {V E S : Type 0} (rules : <a href="../../meter/LimiterSpecs/index.html#Rules">Rules</a> S) (g : <a href="../../store/GrowthSpecs/index.html#Growth">Growth</a> V E) (s : <a href="../../meter/AttemptSpecs/index.html#MeteredValue">MeteredValue</a> V S) (result : Result ℕ E)
    (charge : ℕ) (s&#x27; : <a href="../../meter/AttemptSpecs/index.html#MeteredValue">MeteredValue</a> V S) : Type 0 where
  pub <b id="some">some</b> : 0 &lt; g.amount
  pub <b id="outcome">outcome</b> : <a href="../../meter/AttemptSpecs/index.html#AttemptOutcome">AttemptOutcome</a> E
  pub <b id="attempt">attempt</b> : <a href="../../meter/AttemptSpecs/index.html#Attempt">Attempt</a> rules g.request s <a href="../../store/GrowthSpecs/index.html#outcome">outcome</a> charge s&#x27;
  pub <b id="answered">answered</b> : result ≡ <a href="../../meter/AttemptSpecs/index.html#answer_of">answer_of</a> g.request g.size <a href="../../store/GrowthSpecs/index.html#outcome">outcome</a>

-- a growth with its result and its charge
abbrev pub <b id="Grows">Grows</b> : {V E S : Type 0} → <a href="../../meter/LimiterSpecs/index.html#Rules">Rules</a> S → <a href="../../store/GrowthSpecs/index.html#Growth">Growth</a> V E → <a href="../../meter/AttemptSpecs/index.html#MeteredValue">MeteredValue</a> V S → Result ℕ E → ℕ → <a href="../../meter/AttemptSpecs/index.html#MeteredValue">MeteredValue</a> V S
    → Type 0
<a href="../../store/GrowthSpecs/index.html#Grows">Grows</a> rules g s result charge s&#x27; = <a href="../../store/GrowthSpecs/index.html#GrowsByNone">GrowsByNone</a> g s result charge s&#x27; ⊎ <a href="../../store/GrowthSpecs/index.html#GrowsBySome">GrowsBySome</a> rules g s result charge s&#x27;
</code></pre>
"####]
    pub mod GrowthSpecs {}
    #[doc = r####"Linear memories: their types and what builds one, subtypes, validity, making one, growing it, reading and writing it, and what a bulk instruction writes over a range of one (core specification, memory types and memory instances; the memory64 and custom-page-sizes proposals).

<pre><code>use Rattle.std.specs.Prelude.{◌≤◌, ℕ, Option, Some, None, ◌≡◌, ◌*◌, ◌/◌, ◌-◌, ◌^◌, Bool, true, ◌&amp;&amp;◌, nat_le, nat_lt, nat_eq, min, if◌then◌else◌, ◌+◌, ◌%◌, List, length, Result, Ok, Err}
use Rattle.std.specs.Option.{option_map, option_map_or, ForSome}
use Rattle.wasmi_types.specs.declared.index_ty.IndexType.{IndexType}
use Rattle.wasmi_types.specs.declared.index_ty.IndexType.TheVariants.{I32}
use Rattle.wasmi_types.specs.Value.{<a href="../../types/ValueSpecs/index.html#address_bits">address_bits</a>}
use Rattle.wasmi_store.specs.declared.{memory.ty.MemoryTypeBuilder.MemoryTypeBuilder, memory.ty.PageSize.PageSize}
use Rattle.wasmi_store.specs.declared.memory.ty.PageSize.TheVariants.{Byte, Wasm}
use Rattle.wasmi_types.specs.Access.{<a href="../../types/AccessSpecs/index.html#overwrite">overwrite</a>}
use Rattle.wasmi_meter.specs.declared.error.MemoryError.{MemoryError}
use Rattle.wasmi_meter.specs.declared.error.MemoryError.TheVariants.{OutOfBoundsGrowth, OutOfBoundsAccess, ResourceLimiterDeniedAllocation, MinimumSizeOverflow, InvalidStaticBufferSize, OutOfFuel}
use Rattle.wasmi_meter.specs.declared.limiter.Kind.TheVariants.{Bytes}
use Rattle.wasmi_meter.specs.Limiter.{<a href="../../meter/LimiterSpecs/index.html#MemoryFailure">MemoryFailure</a>, <a href="../../meter/LimiterSpecs/index.html#Question">Question</a>, <a href="../../meter/LimiterSpecs/index.html#Rules">Rules</a>}
use Rattle.wasmi_meter.specs.Meter.{<a href="../../meter/MeterSpecs/index.html#copy_cost">copy_cost</a>}
use Rattle.wasmi_meter.specs.Attempt.{<a href="../../meter/AttemptSpecs/index.html#MeteredValue">MeteredValue</a>, <a href="../../meter/AttemptSpecs/index.html#Request">Request</a>}
use Rattle.wasmi_store.specs.Buffer.{<a href="../../store/BufferSpecs/index.html#BufferValue">BufferValue</a>, <a href="../../store/BufferSpecs/index.html#Room">Room</a>, <a href="../../store/BufferSpecs/index.html#Owned">Owned</a>, <a href="../../store/BufferSpecs/index.html#fits_room">fits_room</a>, <a href="../../store/BufferSpecs/index.html#LacksMemory">LacksMemory</a>, <a href="../../store/BufferSpecs/index.html#zeros_in">zeros_in</a>, <a href="../../store/BufferSpecs/index.html#with_zeros">with_zeros</a>}
use Rattle.wasmi_store.specs.Growth.{<a href="../../store/GrowthSpecs/index.html#WithCharge">WithCharge</a>, <a href="../../store/GrowthSpecs/index.html#Makes">Makes</a>, <a href="../../store/GrowthSpecs/index.html#Growth">Growth</a>, <a href="../../store/GrowthSpecs/index.html#Grows">Grows</a>}
use Rattle.wasmi_store.specs.Write.{<a href="../../store/WriteSpecs/index.html#filled">filled</a>, <a href="../../store/WriteSpecs/index.html#copied">copied</a>, <a href="../../store/WriteSpecs/index.html#item_price">item_price</a>, <a href="../../store/WriteSpecs/index.html#MeteredWrite">MeteredWrite</a>, <a href="../../store/WriteSpecs/index.html#WritesCharging">WritesCharging</a>}

-- an optional maximum is no looser than another
abbrev pub <b id="IsNoLooser">IsNoLooser</b> : Option ℕ → Option ℕ → Type 0
<a href="../../store/MemorySpecs/index.html#IsNoLooser">IsNoLooser</a> own None = Unit {0}
<a href="../../store/MemorySpecs/index.html#IsNoLooser">IsNoLooser</a> None (Some most) = ⊥
<a href="../../store/MemorySpecs/index.html#IsNoLooser">IsNoLooser</a> (Some <a href="../../store/MemorySpecs/index.html#maximum">maximum</a>) (Some most) = <a href="../../store/MemorySpecs/index.html#maximum">maximum</a> ≤ most

-- a memory type: its address type, its page size, and its limits in pages
pub record <b id="MemoryTypeValue">MemoryTypeValue</b> : Type 0 where
  pub <b id="index">index</b> : IndexType
  pub <b id="page">page</b> : PageSize
  pub <b id="minimum">minimum</b> : ℕ
  pub <b id="maximum">maximum</b> : Option ℕ

-- how many bytes a page has
abbrev pub <b id="page_bytes">page_bytes</b> : PageSize → ℕ
<a href="../../store/MemorySpecs/index.html#page_bytes">page_bytes</a> Byte = 1
<a href="../../store/MemorySpecs/index.html#page_bytes">page_bytes</a> Wasm = 65536

-- the logarithm of the page size in bytes
abbrev pub <b id="page_log2">page_log2</b> : PageSize → ℕ
<a href="../../store/MemorySpecs/index.html#page_log2">page_log2</a> Byte = 0
<a href="../../store/MemorySpecs/index.html#page_log2">page_log2</a> Wasm = 16

-- the page size of so many bytes as this power of two, if there is one
abbrev pub <b id="page_of_log2">page_of_log2</b> : ℕ → Option PageSize
<a href="../../store/MemorySpecs/index.html#page_of_log2">page_of_log2</a> log2 = if nat_eq log2 0 then Some Byte else (if nat_eq log2 16 then Some Wasm else None)

-- the greatest number of pages of any memory of an address type and a page size
abbrev pub <b id="greatest_pages">greatest_pages</b> : <a href="../../store/MemorySpecs/index.html#MemoryTypeValue">MemoryTypeValue</a> → ℕ
<a href="../../store/MemorySpecs/index.html#greatest_pages">greatest_pages</a> <a href="../../store/MemorySpecs/index.html#ty">ty</a> = 2 ^ <a href="../../types/ValueSpecs/index.html#address_bits">address_bits</a> ty.index / <a href="../../store/MemorySpecs/index.html#page_bytes">page_bytes</a> ty.page

-- the minimum in bytes
abbrev pub <b id="minimum_bytes">minimum_bytes</b> : <a href="../../store/MemorySpecs/index.html#MemoryTypeValue">MemoryTypeValue</a> → ℕ
<a href="../../store/MemorySpecs/index.html#minimum_bytes">minimum_bytes</a> <a href="../../store/MemorySpecs/index.html#ty">ty</a> = ty.minimum * <a href="../../store/MemorySpecs/index.html#page_bytes">page_bytes</a> ty.page

-- the maximum in bytes, at most 2^64 - 1
abbrev pub <b id="maximum_bytes">maximum_bytes</b> : <a href="../../store/MemorySpecs/index.html#MemoryTypeValue">MemoryTypeValue</a> → Option ℕ
<a href="../../store/MemorySpecs/index.html#maximum_bytes">maximum_bytes</a> <a href="../../store/MemorySpecs/index.html#ty">ty</a> = option_map (λ pages. min (pages * <a href="../../store/MemorySpecs/index.html#page_bytes">page_bytes</a> ty.page) (2 ^ 64 - 1)) ty.maximum

-- the limits are within what the address type reaches, the minimum not above the maximum
pub record <b id="IsValid">IsValid</b> (<a href="../../store/MemorySpecs/index.html#ty">ty</a> : <a href="../../store/MemorySpecs/index.html#MemoryTypeValue">MemoryTypeValue</a>) : Type 0 where
  pub <b id="minimum">minimum</b> : ty.minimum ≤ <a href="../../store/MemorySpecs/index.html#greatest_pages">greatest_pages</a> <a href="../../store/MemorySpecs/index.html#ty">ty</a>
  pub <b id="maximum">maximum</b> : ForSome ty.maximum (λ <a href="../../store/MemorySpecs/index.html#maximum">maximum</a>. (ty.minimum ≤ <a href="../../store/MemorySpecs/index.html#maximum">maximum</a>) × (<a href="../../store/MemorySpecs/index.html#maximum">maximum</a> ≤ <a href="../../store/MemorySpecs/index.html#greatest_pages">greatest_pages</a> <a href="../../store/MemorySpecs/index.html#ty">ty</a>))

-- whether a memory of the type may have so many pages: by its addresses and its maximum, and less than 2 ^ 64 bytes
abbrev pub <b id="in_bounds">in_bounds</b> : <a href="../../store/MemorySpecs/index.html#MemoryTypeValue">MemoryTypeValue</a> → ℕ → Bool
<a href="../../store/MemorySpecs/index.html#in_bounds">in_bounds</a> <a href="../../store/MemorySpecs/index.html#ty">ty</a> pages =
    nat_le pages (<a href="../../store/MemorySpecs/index.html#greatest_pages">greatest_pages</a> <a href="../../store/MemorySpecs/index.html#ty">ty</a>) &amp;&amp; option_map_or (λ <a href="../../store/MemorySpecs/index.html#maximum">maximum</a>. nat_le pages <a href="../../store/MemorySpecs/index.html#maximum">maximum</a>) ty.maximum true &amp;&amp; nat_lt
    (pages * <a href="../../store/MemorySpecs/index.html#page_bytes">page_bytes</a> ty.page) (2 ^ 64)

-- a memory of type a may be given where one of type b is asked for (core specification, import matching)
pub record <b id="IsSubtype">IsSubtype</b> (a b : <a href="../../store/MemorySpecs/index.html#MemoryTypeValue">MemoryTypeValue</a>) : Type 0 where
  pub <b id="index">index</b> : a.index ≡ b.index
  pub <b id="page">page</b> : a.page ≡ b.page
  pub <b id="minimum">minimum</b> : b.minimum ≤ a.minimum
  pub <b id="maximum">maximum</b> : <a href="../../store/MemorySpecs/index.html#IsNoLooser">IsNoLooser</a> a.maximum b.maximum

-- what a builder was told: as a memory type, with the page size as a power of two
abbrev pub <b id="Settings">Settings</b> : Type 0
<a href="../../store/MemorySpecs/index.html#Settings">Settings</a> = MemoryTypeBuilder

-- what a builder begins with
abbrev pub <b id="default_settings">default_settings</b> : <a href="../../store/MemorySpecs/index.html#Settings">Settings</a>
<a href="../../store/MemorySpecs/index.html#default_settings">default_settings</a> = record { <a href="../../store/MemorySpecs/index.html#index">index</a> = I32; page_size_log2 = 16; <a href="../../store/MemorySpecs/index.html#minimum">minimum</a> = 0; <a href="../../store/MemorySpecs/index.html#maximum">maximum</a> = None }

-- the type that the settings name, if there is a page of that size
abbrev pub <b id="named_type">named_type</b> : <a href="../../store/MemorySpecs/index.html#Settings">Settings</a> → Option <a href="../../store/MemorySpecs/index.html#MemoryTypeValue">MemoryTypeValue</a>
<a href="../../store/MemorySpecs/index.html#named_type">named_type</a> s = option_map (λ <a href="../../store/MemorySpecs/index.html#page">page</a>. record { <a href="../../store/MemorySpecs/index.html#index">index</a> = s.index; <a href="../../store/MemorySpecs/index.html#page">page</a> = <a href="../../store/MemorySpecs/index.html#page">page</a>; <a href="../../store/MemorySpecs/index.html#minimum">minimum</a> = s.minimum; <a href="../../store/MemorySpecs/index.html#maximum">maximum</a> = s.maximum })
    (<a href="../../store/MemorySpecs/index.html#page_of_log2">page_of_log2</a> s.page_size_log2)

-- a memory: its type, its bytes, and the room that these may grow into
pub record <b id="MemoryValue">MemoryValue</b> : Type 0 where
  pub <b id="ty">ty</b> : <a href="../../store/MemorySpecs/index.html#MemoryTypeValue">MemoryTypeValue</a>
  pub <b id="bytes">bytes</b> : List ℕ
  pub <b id="room">room</b> : <a href="../../store/BufferSpecs/index.html#Room">Room</a>

-- the size of a memory in pages
abbrev pub <b id="pages_of">pages_of</b> : <a href="../../store/MemorySpecs/index.html#MemoryValue">MemoryValue</a> → ℕ
<a href="../../store/MemorySpecs/index.html#pages_of">pages_of</a> x = length x.bytes / <a href="../../store/MemorySpecs/index.html#page_bytes">page_bytes</a> x.ty.<a href="../../store/MemorySpecs/index.html#page">page</a>

-- the memory of a type whose bytes are a buffer&#x27;s
abbrev pub <b id="memory_of">memory_of</b> : <a href="../../store/MemorySpecs/index.html#MemoryTypeValue">MemoryTypeValue</a> → <a href="../../store/BufferSpecs/index.html#BufferValue">BufferValue</a> → <a href="../../store/MemorySpecs/index.html#MemoryValue">MemoryValue</a>
<a href="../../store/MemorySpecs/index.html#memory_of">memory_of</a> <a href="../../store/MemorySpecs/index.html#ty">ty</a> b = record { <a href="../../store/MemorySpecs/index.html#ty">ty</a> = <a href="../../store/MemorySpecs/index.html#ty">ty</a>; <a href="../../store/MemorySpecs/index.html#bytes">bytes</a> = b.bytes; <a href="../../store/MemorySpecs/index.html#room">room</a> = b.room }

-- the buffer of a memory&#x27;s bytes
abbrev pub <b id="buffer_of">buffer_of</b> : <a href="../../store/MemorySpecs/index.html#MemoryValue">MemoryValue</a> → <a href="../../store/BufferSpecs/index.html#BufferValue">BufferValue</a>
<a href="../../store/MemorySpecs/index.html#buffer_of">buffer_of</a> x = record { <a href="../../store/MemorySpecs/index.html#bytes">bytes</a> = x.bytes; <a href="../../store/MemorySpecs/index.html#room">room</a> = x.room }

-- a new memory of zeros in a room, at the minimum of its type
abbrev pub <b id="new_memory">new_memory</b> : <a href="../../store/BufferSpecs/index.html#Room">Room</a> → <a href="../../store/MemorySpecs/index.html#MemoryTypeValue">MemoryTypeValue</a> → <a href="../../store/MemorySpecs/index.html#MemoryValue">MemoryValue</a>
<a href="../../store/MemorySpecs/index.html#new_memory">new_memory</a> <a href="../../store/MemorySpecs/index.html#room">room</a> <a href="../../store/MemorySpecs/index.html#ty">ty</a> = <a href="../../store/MemorySpecs/index.html#memory_of">memory_of</a> <a href="../../store/MemorySpecs/index.html#ty">ty</a> (<a href="../../store/BufferSpecs/index.html#zeros_in">zeros_in</a> <a href="../../store/MemorySpecs/index.html#room">room</a> (<a href="../../store/MemorySpecs/index.html#minimum_bytes">minimum_bytes</a> <a href="../../store/MemorySpecs/index.html#ty">ty</a>))

-- a size in bytes is whole pages, as many as the type allows
pub record <b id="IsSized">IsSized</b> (<a href="../../store/MemorySpecs/index.html#ty">ty</a> : <a href="../../store/MemorySpecs/index.html#MemoryTypeValue">MemoryTypeValue</a>) (size : ℕ) : Type 0 where
  pub <b id="whole">whole</b> : size % <a href="../../store/MemorySpecs/index.html#page_bytes">page_bytes</a> ty.page ≡ 0
  pub <b id="minimum">minimum</b> : ty.minimum ≤ size / <a href="../../store/MemorySpecs/index.html#page_bytes">page_bytes</a> ty.page
  pub <b id="within">within</b> : <a href="../../store/MemorySpecs/index.html#in_bounds">in_bounds</a> <a href="../../store/MemorySpecs/index.html#ty">ty</a> (size / <a href="../../store/MemorySpecs/index.html#page_bytes">page_bytes</a> ty.page) ≡ true

-- a memory of a valid type has as many whole pages as that allows (core specification, validity of memory instances)
pub record <b id="IsValidMemory">IsValidMemory</b> (x : <a href="../../store/MemorySpecs/index.html#MemoryValue">MemoryValue</a>) : Type 0 where
  pub <b id="type">type</b> : <a href="../../store/MemorySpecs/index.html#IsValid">IsValid</a> x.ty
  pub <b id="sized">sized</b> : <a href="../../store/MemorySpecs/index.html#IsSized">IsSized</a> x.ty (length x.bytes)

-- a memory&#x27;s type with the present size as the minimum
abbrev pub <b id="dynamic_type">dynamic_type</b> : <a href="../../store/MemorySpecs/index.html#MemoryValue">MemoryValue</a> → <a href="../../store/MemorySpecs/index.html#MemoryTypeValue">MemoryTypeValue</a>
<a href="../../store/MemorySpecs/index.html#dynamic_type">dynamic_type</a> x = record x.ty { <a href="../../store/MemorySpecs/index.html#minimum">minimum</a> = <a href="../../store/MemorySpecs/index.html#pages_of">pages_of</a> x }

-- may a memory get from so many bytes to so many, where its type allows at most so many?
abbrev pub <b id="size_question">size_question</b> : ℕ → ℕ → Option ℕ → <a href="../../meter/LimiterSpecs/index.html#Question">Question</a>
<a href="../../store/MemorySpecs/index.html#size_question">size_question</a> current desired <a href="../../store/MemorySpecs/index.html#maximum">maximum</a> = record { kind = Bytes; current = current; desired = desired; <a href="../../store/MemorySpecs/index.html#maximum">maximum</a> = <a href="../../store/MemorySpecs/index.html#maximum">maximum</a> }

-- what is asked where a memory of a type is made in a room, and the causes of a refusal; it costs no fuel
abbrev pub <b id="creation_of">creation_of</b> : <a href="../../store/BufferSpecs/index.html#Room">Room</a> → <a href="../../store/MemorySpecs/index.html#MemoryTypeValue">MemoryTypeValue</a> → <a href="../../meter/AttemptSpecs/index.html#Request">Request</a> (Unit {0}) MemoryError
<a href="../../store/MemorySpecs/index.html#creation_of">creation_of</a> <a href="../../store/MemorySpecs/index.html#room">room</a> <a href="../../store/MemorySpecs/index.html#ty">ty</a> = record {
  early = if nat_lt (<a href="../../store/MemorySpecs/index.html#minimum_bytes">minimum_bytes</a> <a href="../../store/MemorySpecs/index.html#ty">ty</a>) (2 ^ 64) then None else Some MinimumSizeOverflow;
  question = <a href="../../store/MemorySpecs/index.html#size_question">size_question</a> 0 (<a href="../../store/MemorySpecs/index.html#minimum_bytes">minimum_bytes</a> <a href="../../store/MemorySpecs/index.html#ty">ty</a>) (<a href="../../store/MemorySpecs/index.html#maximum_bytes">maximum_bytes</a> <a href="../../store/MemorySpecs/index.html#ty">ty</a>);
  denial = ResourceLimiterDeniedAllocation;
  refusal = ResourceLimiterDeniedAllocation;
  notice = <a href="../../meter/LimiterSpecs/index.html#MemoryFailure">MemoryFailure</a>;
  late = if <a href="../../store/BufferSpecs/index.html#fits_room">fits_room</a> <a href="../../store/MemorySpecs/index.html#room">room</a> (<a href="../../store/MemorySpecs/index.html#minimum_bytes">minimum_bytes</a> <a href="../../store/MemorySpecs/index.html#ty">ty</a>) then None else Some InvalidStaticBufferSize;
  price = None;
  unpaid = OutOfFuel;
  refuses = <a href="../../store/BufferSpecs/index.html#LacksMemory">LacksMemory</a> <a href="../../store/MemorySpecs/index.html#room">room</a>;
  grown = tt;
}

-- what a growth of a memory by so many pages asks and pays, and its causes: a short region before want of fuel
abbrev pub <b id="growth_of">growth_of</b> : <a href="../../store/MemorySpecs/index.html#MemoryValue">MemoryValue</a> → ℕ → <a href="../../meter/AttemptSpecs/index.html#Request">Request</a> <a href="../../store/MemorySpecs/index.html#MemoryValue">MemoryValue</a> MemoryError
<a href="../../store/MemorySpecs/index.html#growth_of">growth_of</a> x pages = let added = pages * <a href="../../store/MemorySpecs/index.html#page_bytes">page_bytes</a> x.ty.<a href="../../store/MemorySpecs/index.html#page">page</a> in record {
  early = if <a href="../../store/MemorySpecs/index.html#in_bounds">in_bounds</a> x.ty (<a href="../../store/MemorySpecs/index.html#pages_of">pages_of</a> x + pages) then None else Some OutOfBoundsGrowth;
  question = <a href="../../store/MemorySpecs/index.html#size_question">size_question</a> (length x.bytes) (length x.bytes + added) (<a href="../../store/MemorySpecs/index.html#maximum_bytes">maximum_bytes</a> x.ty);
  denial = OutOfBoundsGrowth;
  refusal = ResourceLimiterDeniedAllocation;
  notice = <a href="../../meter/LimiterSpecs/index.html#MemoryFailure">MemoryFailure</a>;
  late = if <a href="../../store/BufferSpecs/index.html#fits_room">fits_room</a> x.room added then None else Some InvalidStaticBufferSize;
  price = Some (λ costs. <a href="../../meter/MeterSpecs/index.html#copy_cost">copy_cost</a> costs added 1);
  unpaid = OutOfFuel;
  refuses = <a href="../../store/BufferSpecs/index.html#LacksMemory">LacksMemory</a> x.room;
  grown = <a href="../../store/MemorySpecs/index.html#memory_of">memory_of</a> x.ty (<a href="../../store/BufferSpecs/index.html#with_zeros">with_zeros</a> (<a href="../../store/MemorySpecs/index.html#buffer_of">buffer_of</a> x) added);
}

-- a memory of a type is made in a room
abbrev pub <b id="MakesMemory">MakesMemory</b> : {S : Type 0} → <a href="../../meter/LimiterSpecs/index.html#Rules">Rules</a> S → <a href="../../store/BufferSpecs/index.html#Room">Room</a> → <a href="../../store/MemorySpecs/index.html#MemoryTypeValue">MemoryTypeValue</a> → S → Result <a href="../../store/MemorySpecs/index.html#MemoryValue">MemoryValue</a> MemoryError → S
    → Type 0
<a href="../../store/MemorySpecs/index.html#MakesMemory">MakesMemory</a> rules <a href="../../store/MemorySpecs/index.html#room">room</a> <a href="../../store/MemorySpecs/index.html#ty">ty</a> l result l&#x27; = <a href="../../store/GrowthSpecs/index.html#Makes">Makes</a> rules (<a href="../../store/MemorySpecs/index.html#creation_of">creation_of</a> <a href="../../store/MemorySpecs/index.html#room">room</a> <a href="../../store/MemorySpecs/index.html#ty">ty</a>) (<a href="../../store/MemorySpecs/index.html#new_memory">new_memory</a> <a href="../../store/MemorySpecs/index.html#room">room</a> <a href="../../store/MemorySpecs/index.html#ty">ty</a>) l result l&#x27;

-- the minimum of a type is permitted in bytes, or an error ends the making of a memory, whatever its room
abbrev pub <b id="PermitsMinimum">PermitsMinimum</b> : {S : Type 0} → <a href="../../meter/LimiterSpecs/index.html#Rules">Rules</a> S → <a href="../../store/MemorySpecs/index.html#MemoryTypeValue">MemoryTypeValue</a> → S → Result ℕ MemoryError → S → Type 0
<a href="../../store/MemorySpecs/index.html#PermitsMinimum">PermitsMinimum</a> rules <a href="../../store/MemorySpecs/index.html#ty">ty</a> l (Ok size) l&#x27; = (size ≡ <a href="../../store/MemorySpecs/index.html#minimum_bytes">minimum_bytes</a> <a href="../../store/MemorySpecs/index.html#ty">ty</a>) × (nat_lt (<a href="../../store/MemorySpecs/index.html#minimum_bytes">minimum_bytes</a> <a href="../../store/MemorySpecs/index.html#ty">ty</a>) (2 ^ 64) ≡ true)
    × rules.asked l (<a href="../../store/MemorySpecs/index.html#creation_of">creation_of</a> <a href="../../store/BufferSpecs/index.html#Owned">Owned</a> <a href="../../store/MemorySpecs/index.html#ty">ty</a>).question (Ok true) l&#x27;
<a href="../../store/MemorySpecs/index.html#PermitsMinimum">PermitsMinimum</a> rules <a href="../../store/MemorySpecs/index.html#ty">ty</a> l (Err error) l&#x27; = (<a href="../../store/MemorySpecs/index.html#room">room</a> : <a href="../../store/BufferSpecs/index.html#Room">Room</a>) → <a href="../../store/MemorySpecs/index.html#MakesMemory">MakesMemory</a> rules <a href="../../store/MemorySpecs/index.html#room">room</a> <a href="../../store/MemorySpecs/index.html#ty">ty</a> l (Err error) l&#x27;

-- the growth of a memory by so many pages
abbrev pub <b id="memory_growth">memory_growth</b> : ℕ → <a href="../../store/MemorySpecs/index.html#MemoryValue">MemoryValue</a> → <a href="../../store/GrowthSpecs/index.html#Growth">Growth</a> <a href="../../store/MemorySpecs/index.html#MemoryValue">MemoryValue</a> MemoryError
<a href="../../store/MemorySpecs/index.html#memory_growth">memory_growth</a> pages x = record { amount = pages; size = <a href="../../store/MemorySpecs/index.html#pages_of">pages_of</a> x; request = <a href="../../store/MemorySpecs/index.html#growth_of">growth_of</a> x pages }

-- a memory grows by so many pages, with this charge; it returns the old size in pages
abbrev pub <b id="GrowsMemoryCharging">GrowsMemoryCharging</b> : {S : Type 0} → <a href="../../meter/LimiterSpecs/index.html#Rules">Rules</a> S → ℕ → <a href="../../meter/AttemptSpecs/index.html#MeteredValue">MeteredValue</a> <a href="../../store/MemorySpecs/index.html#MemoryValue">MemoryValue</a> S → Result ℕ MemoryError → ℕ
    → <a href="../../meter/AttemptSpecs/index.html#MeteredValue">MeteredValue</a> <a href="../../store/MemorySpecs/index.html#MemoryValue">MemoryValue</a> S → Type 0
<a href="../../store/MemorySpecs/index.html#GrowsMemoryCharging">GrowsMemoryCharging</a> rules pages s result charge s&#x27; = <a href="../../store/GrowthSpecs/index.html#Grows">Grows</a> rules (<a href="../../store/MemorySpecs/index.html#memory_growth">memory_growth</a> pages s.value) s result charge s&#x27;

-- a memory grows by so many pages; it returns the old size in pages
abbrev pub <b id="GrowsMemory">GrowsMemory</b> : {S : Type 0} → <a href="../../meter/LimiterSpecs/index.html#Rules">Rules</a> S → ℕ → <a href="../../meter/AttemptSpecs/index.html#MeteredValue">MeteredValue</a> <a href="../../store/MemorySpecs/index.html#MemoryValue">MemoryValue</a> S → Result ℕ MemoryError
    → <a href="../../meter/AttemptSpecs/index.html#MeteredValue">MeteredValue</a> <a href="../../store/MemorySpecs/index.html#MemoryValue">MemoryValue</a> S → Type 0
<a href="../../store/MemorySpecs/index.html#GrowsMemory">GrowsMemory</a> rules pages = <a href="../../store/GrowthSpecs/index.html#WithCharge">WithCharge</a> (<a href="../../store/MemorySpecs/index.html#GrowsMemoryCharging">GrowsMemoryCharging</a> rules pages)

-- bytes are written over those from an offset on where they end within the memory, and otherwise nothing is written
abbrev pub <b id="WritesMemory">WritesMemory</b> : <a href="../../store/MemorySpecs/index.html#MemoryValue">MemoryValue</a> → ℕ → List ℕ → Result (Unit {0}) MemoryError → <a href="../../store/MemorySpecs/index.html#MemoryValue">MemoryValue</a> → Type 0
<a href="../../store/MemorySpecs/index.html#WritesMemory">WritesMemory</a> x offset source (Ok _) x&#x27; =
    (<a href="../../types/AccessSpecs/index.html#overwrite">overwrite</a> x.bytes offset source ≡ Some x&#x27;.<a href="../../store/MemorySpecs/index.html#bytes">bytes</a>) × (x&#x27;.<a href="../../store/MemorySpecs/index.html#ty">ty</a> ≡ x.ty) × (x&#x27;.<a href="../../store/MemorySpecs/index.html#room">room</a> ≡ x.room)
<a href="../../store/MemorySpecs/index.html#WritesMemory">WritesMemory</a> x offset source (Err error) x&#x27; =
    (error ≡ OutOfBoundsAccess) × (<a href="../../types/AccessSpecs/index.html#overwrite">overwrite</a> x.bytes offset source ≡ None) × (x&#x27; ≡ x)

-- a write over a range of a memory
abbrev pub <b id="MemoryWrite">MemoryWrite</b> : Type 0
<a href="../../store/MemorySpecs/index.html#MemoryWrite">MemoryWrite</a> = <a href="../../store/WriteSpecs/index.html#MeteredWrite">MeteredWrite</a> <a href="../../store/MemorySpecs/index.html#MemoryValue">MemoryValue</a> MemoryError

-- the bytes of a memory are written over: the error of what stands before it, if anything does; what they become, or
-- none where a range ends past its list; and how many of them are paid for
abbrev pub <b id="bytes_write">bytes_write</b> : <a href="../../store/MemorySpecs/index.html#MemoryValue">MemoryValue</a> → Option MemoryError → Option (List ℕ) → ℕ → <a href="../../store/MemorySpecs/index.html#MemoryWrite">MemoryWrite</a>
<a href="../../store/MemorySpecs/index.html#bytes_write">bytes_write</a> x early written paid = record {
  early = early;
  written = option_map (λ <a href="../../store/MemorySpecs/index.html#bytes">bytes</a>. record x { <a href="../../store/MemorySpecs/index.html#bytes">bytes</a> = <a href="../../store/MemorySpecs/index.html#bytes">bytes</a> }) written;
  outside = OutOfBoundsAccess;
  price = Some (<a href="../../store/WriteSpecs/index.html#item_price">item_price</a> 1 paid);
  unpaid = OutOfFuel;
}

-- len bytes of a memory from dst on are filled with a value
abbrev pub <b id="byte_filling_of">byte_filling_of</b> : ℕ → ℕ → ℕ → <a href="../../store/MemorySpecs/index.html#MemoryValue">MemoryValue</a> → <a href="../../store/MemorySpecs/index.html#MemoryWrite">MemoryWrite</a>
<a href="../../store/MemorySpecs/index.html#byte_filling_of">byte_filling_of</a> dst value len x = <a href="../../store/MemorySpecs/index.html#bytes_write">bytes_write</a> x None (<a href="../../store/WriteSpecs/index.html#filled">filled</a> x.bytes dst value len) len

-- len bytes of a source from src on, perhaps those of the memory itself, are copied over the bytes from dst on
abbrev pub <b id="byte_copy_of">byte_copy_of</b> : ℕ → ℕ → ℕ → List ℕ → <a href="../../store/MemorySpecs/index.html#MemoryValue">MemoryValue</a> → <a href="../../store/MemorySpecs/index.html#MemoryWrite">MemoryWrite</a>
<a href="../../store/MemorySpecs/index.html#byte_copy_of">byte_copy_of</a> dst src len source x = <a href="../../store/MemorySpecs/index.html#bytes_write">bytes_write</a> x None (<a href="../../store/WriteSpecs/index.html#copied">copied</a> x.bytes dst source src len) len

-- a range of a memory is written over, and its type and its room stay
abbrev pub <b id="WritesMemoryRange">WritesMemoryRange</b> : (<a href="../../store/MemorySpecs/index.html#MemoryValue">MemoryValue</a> → <a href="../../store/MemorySpecs/index.html#MemoryWrite">MemoryWrite</a>) → <a href="../../meter/AttemptSpecs/index.html#MeteredValue">MeteredValue</a> <a href="../../store/MemorySpecs/index.html#MemoryValue">MemoryValue</a> (Unit {0})
    → Result (Unit {0}) MemoryError → <a href="../../meter/AttemptSpecs/index.html#MeteredValue">MeteredValue</a> <a href="../../store/MemorySpecs/index.html#MemoryValue">MemoryValue</a> (Unit {0}) → Type 0
<a href="../../store/MemorySpecs/index.html#WritesMemoryRange">WritesMemoryRange</a> write = <a href="../../store/GrowthSpecs/index.html#WithCharge">WithCharge</a> (<a href="../../store/WriteSpecs/index.html#WritesCharging">WritesCharging</a> write)
</code></pre>
"####]
    pub mod MemorySpecs {}
    #[doc = r####"Element segments (core specification, element instances), how one is read of an iterator, and their errors' texts.

<pre><code>use Rattle.std.specs.Prelude.{◌≡◌, ◌^◌, ◌-◌, ◌&lt;◌, ◌≤◌, ℕ, List, [], length, Option, Result, Ok, Err, codes}
use Rattle.std.specs.Iterator.{Yields}
use Rattle.wasmi_types.specs.declared.value.RefType.{RefType}
use Rattle.wasmi_types.specs.Reading.{<a href="../../types/ReadingSpecs/index.html#ReadsAll">ReadsAll</a>, <a href="../../types/ReadingSpecs/index.html#ReadsTooMany">ReadsTooMany</a>}
use Rattle.wasmi_store.specs.declared.{table.element.ElementSegmentRef.ElementSegmentRef, table.element.SegmentError.SegmentError}
use Rattle.wasmi_store.specs.declared.table.element.SegmentError.TheVariants.{TooManyItems, OutOfSystemMemory}

-- an element segment: the type of its items, and the items
pub record <b id="SegmentValue">SegmentValue</b> : Type 0 where
  pub <b id="ty">ty</b> : RefType
  pub <b id="items">items</b> : List ℕ

-- the greatest number of items
abbrev pub <b id="most_items">most_items</b> : ℕ
<a href="../../store/SegmentSpecs/index.html#most_items">most_items</a> = 2 ^ 32 - 1

-- what a segment keeps: not too many items, and without items no room for any, so no memory
pub record <b id="IsKept">IsKept</b> (<a href="../../store/SegmentSpecs/index.html#items">items</a> : List ℕ) (capacity : ℕ) : Type 0 where
  pub <b id="short">short</b> : length <a href="../../store/SegmentSpecs/index.html#items">items</a> ≤ <a href="../../store/SegmentSpecs/index.html#most_items">most_items</a>
  pub <b id="free">free</b> : length <a href="../../store/SegmentSpecs/index.html#items">items</a> ≡ 0 → capacity ≡ 0

-- the segment without its items
abbrev pub <b id="dropped">dropped</b> : <a href="../../store/SegmentSpecs/index.html#SegmentValue">SegmentValue</a> → <a href="../../store/SegmentSpecs/index.html#SegmentValue">SegmentValue</a>
<a href="../../store/SegmentSpecs/index.html#dropped">dropped</a> segment = record segment { <a href="../../store/SegmentSpecs/index.html#items">items</a> = [] }

-- the segment that is shared
abbrev pub <b id="segment_of">segment_of</b> : ElementSegmentRef → <a href="../../store/SegmentSpecs/index.html#SegmentValue">SegmentValue</a>
<a href="../../store/SegmentSpecs/index.html#segment_of">segment_of</a> r = record { <a href="../../store/SegmentSpecs/index.html#ty">ty</a> = r.ty; <a href="../../store/SegmentSpecs/index.html#items">items</a> = r.items.now }

module _ {I : Type 0} (steps : I → Option ℕ → I → Type 0) where
  -- memory was refused: calls from s to t gave some items, no more than a segment has
  pub record <b id="IsOutOfMemory">IsOutOfMemory</b> (s t : I) : Type 0 where
    pub <b id="items">items</b> : List ℕ
    pub <b id="run">run</b> : Yields steps s <a href="../../store/SegmentSpecs/index.html#items">items</a> t
    pub <b id="some">some</b> : 0 &lt; length <a href="../../store/SegmentSpecs/index.html#items">items</a>
    pub <b id="short">short</b> : length <a href="../../store/SegmentSpecs/index.html#items">items</a> ≤ <a href="../../store/SegmentSpecs/index.html#most_items">most_items</a>

  -- the answer after calls from s to t: the segment of all items that came, or why none was read
  abbrev pub <b id="IsReading">IsReading</b> : I → RefType → Result <a href="../../store/SegmentSpecs/index.html#SegmentValue">SegmentValue</a> SegmentError → I → Type 0
  <a href="../../store/SegmentSpecs/index.html#IsReading">IsReading</a> s <a href="../../store/SegmentSpecs/index.html#ty">ty</a> (Ok segment) t = (segment.ty ≡ <a href="../../store/SegmentSpecs/index.html#ty">ty</a>) × <a href="../../types/ReadingSpecs/index.html#ReadsAll">ReadsAll</a> <a href="../../store/SegmentSpecs/index.html#most_items">most_items</a> steps s segment.items t
  <a href="../../store/SegmentSpecs/index.html#IsReading">IsReading</a> s <a href="../../store/SegmentSpecs/index.html#ty">ty</a> (Err TooManyItems) t = <a href="../../types/ReadingSpecs/index.html#ReadsTooMany">ReadsTooMany</a> <a href="../../store/SegmentSpecs/index.html#most_items">most_items</a> steps s t
  <a href="../../store/SegmentSpecs/index.html#IsReading">IsReading</a> s <a href="../../store/SegmentSpecs/index.html#ty">ty</a> (Err OutOfSystemMemory) t = <a href="../../store/SegmentSpecs/index.html#IsOutOfMemory">IsOutOfMemory</a> s t

-- the answer after reading the iterator that x becomes
pub record <b id="IsReadingOf">IsReadingOf</b> {X I : Type 0} (becomes : X → I → Type 0) (steps : I → Option ℕ → I → Type 0) (<a href="../../store/SegmentSpecs/index.html#ty">ty</a> : RefType)
    (x : X) (answer : Result <a href="../../store/SegmentSpecs/index.html#SegmentValue">SegmentValue</a> SegmentError) : Type 0 where
  pub <b id="before">before</b> : I
  pub <b id="after">after</b> : I
  pub <b id="made">made</b> : becomes x <a href="../../store/SegmentSpecs/index.html#before">before</a>
  pub <b id="reads">reads</b> : <a href="../../store/SegmentSpecs/index.html#IsReading">IsReading</a> steps <a href="../../store/SegmentSpecs/index.html#before">before</a> <a href="../../store/SegmentSpecs/index.html#ty">ty</a> answer <a href="../../store/SegmentSpecs/index.html#after">after</a>

-- the text of an error of an element segment
abbrev pub <b id="segment_error_text">segment_error_text</b> : SegmentError → List ℕ
<a href="../../store/SegmentSpecs/index.html#segment_error_text">segment_error_text</a> TooManyItems = codes "too many <a href="../../store/SegmentSpecs/index.html#items">items</a> in an element segment"
<a href="../../store/SegmentSpecs/index.html#segment_error_text">segment_error_text</a> OutOfSystemMemory = codes "out of memory"
</code></pre>
"####]
    pub mod SegmentSpecs {}
    #[doc = r####"Tables: their types, subtypes, validity, making one, growing it, reading and writing its elements, and what a bulk instruction writes over a range of them (core specification, table types and table instances).

<pre><code>use Rattle.std.specs.Prelude.{◌≡◌, ◌^◌, ◌≤◌, ◌&lt;◌, ℕ, Bool, true, false, nat_le, nat_lt, Option, ◌+◌, List, [], ◌∷◌, ◌++◌, length, replicate, max, nat_eq, if◌then◌else◌, MatchBool, MatchOption, Some, None, Result, Ok, Err, slice_get}
use Rattle.std.specs.Option.{option_map_or, ForSome, option_map}
use Rattle.wasmi_types.specs.declared.{value.RefType.RefType, index_ty.IndexType.IndexType}
use Rattle.wasmi_types.specs.declared.value.RefType.TheVariants.{Func, Extern}
use Rattle.wasmi_types.specs.Value.{<a href="../../types/ValueSpecs/index.html#address_bits">address_bits</a>}
use Rattle.wasmi_store.specs.Memory.{<a href="../../store/MemorySpecs/index.html#IsNoLooser">IsNoLooser</a>}
use Rattle.wasmi_types.specs.Access.{<a href="../../types/AccessSpecs/index.html#overwrite">overwrite</a>}
use Rattle.wasmi_typed.specs.declared.typed_ref.TypedRawRef.{TypedRawRef}
use Rattle.wasmi_meter.specs.declared.{fuel.CustomFuelCosts.CustomFuelCosts, error.TableError.TableError}
use Rattle.wasmi_meter.specs.declared.error.TableError.TheVariants.{OutOfSystemMemory, ResourceLimiterDeniedAllocation, GrowOutOfBounds, InitOutOfBounds, FillOutOfBounds, SetOutOfBounds, CopyOutOfBounds, ElementTypeMismatch, OutOfFuel}
use Rattle.wasmi_meter.specs.declared.limiter.Kind.TheVariants.{Elements}
use Rattle.wasmi_meter.specs.Limiter.{<a href="../../meter/LimiterSpecs/index.html#TableFailure">TableFailure</a>, <a href="../../meter/LimiterSpecs/index.html#Rules">Rules</a>}
use Rattle.wasmi_meter.specs.Meter.{<a href="../../meter/MeterSpecs/index.html#copy_cost">copy_cost</a>}
use Rattle.wasmi_meter.specs.Attempt.{<a href="../../meter/AttemptSpecs/index.html#MeteredValue">MeteredValue</a>, <a href="../../meter/AttemptSpecs/index.html#Request">Request</a>}
use Rattle.wasmi_store.specs.Growth.{<a href="../../store/GrowthSpecs/index.html#WithCharge">WithCharge</a>, <a href="../../store/GrowthSpecs/index.html#Makes">Makes</a>, <a href="../../store/GrowthSpecs/index.html#Growth">Growth</a>, <a href="../../store/GrowthSpecs/index.html#Grows">Grows</a>}
use Rattle.wasmi_store.specs.Write.{<a href="../../store/WriteSpecs/index.html#filled">filled</a>, <a href="../../store/WriteSpecs/index.html#copied">copied</a>, <a href="../../store/WriteSpecs/index.html#MeteredWrite">MeteredWrite</a>, <a href="../../store/WriteSpecs/index.html#WritesCharging">WritesCharging</a>}
use Rattle.wasmi_store.specs.Segment.{<a href="../../store/SegmentSpecs/index.html#SegmentValue">SegmentValue</a>}

-- a table type: its index type, the type of its elements, and its limits in elements
pub record <b id="TableTypeValue">TableTypeValue</b> : Type 0 where
  pub <b id="index">index</b> : IndexType
  pub <b id="element">element</b> : RefType
  pub <b id="minimum">minimum</b> : ℕ
  pub <b id="maximum">maximum</b> : Option ℕ

-- whether a table of the type may have so many elements: fewer than there are indices
abbrev pub <b id="is_indexable">is_indexable</b> : <a href="../../store/TableSpecs/index.html#TableTypeValue">TableTypeValue</a> → ℕ → Bool
<a href="../../store/TableSpecs/index.html#is_indexable">is_indexable</a> <a href="../../store/TableSpecs/index.html#ty">ty</a> size = nat_lt size (2 ^ <a href="../../types/ValueSpecs/index.html#address_bits">address_bits</a> ty.index)

-- whether so many elements are no more than the maximum, if there is one
abbrev pub <b id="is_within_maximum">is_within_maximum</b> : <a href="../../store/TableSpecs/index.html#TableTypeValue">TableTypeValue</a> → ℕ → Bool
<a href="../../store/TableSpecs/index.html#is_within_maximum">is_within_maximum</a> <a href="../../store/TableSpecs/index.html#ty">ty</a> size = option_map_or (λ <a href="../../store/TableSpecs/index.html#maximum">maximum</a>. nat_le size <a href="../../store/TableSpecs/index.html#maximum">maximum</a>) ty.maximum true

-- the limits are below the number of indices, the minimum not above the maximum
pub record <b id="IsValid">IsValid</b> (<a href="../../store/TableSpecs/index.html#ty">ty</a> : <a href="../../store/TableSpecs/index.html#TableTypeValue">TableTypeValue</a>) : Type 0 where
  pub <b id="minimum">minimum</b> : ty.minimum &lt; 2 ^ <a href="../../types/ValueSpecs/index.html#address_bits">address_bits</a> ty.index
  pub <b id="maximum">maximum</b> : ForSome ty.maximum (λ <a href="../../store/TableSpecs/index.html#maximum">maximum</a>. (ty.minimum ≤ <a href="../../store/TableSpecs/index.html#maximum">maximum</a>) × (<a href="../../store/TableSpecs/index.html#maximum">maximum</a> &lt; 2 ^ <a href="../../types/ValueSpecs/index.html#address_bits">address_bits</a> ty.index))

-- whether two reference types are the same, that of a table&#x27;s elements and another
abbrev pub <b id="same_type">same_type</b> : RefType → RefType → Bool
<a href="../../store/TableSpecs/index.html#same_type">same_type</a> Func Func = true
<a href="../../store/TableSpecs/index.html#same_type">same_type</a> Extern Extern = true
<a href="../../store/TableSpecs/index.html#same_type">same_type</a> Func Extern = false
<a href="../../store/TableSpecs/index.html#same_type">same_type</a> Extern Func = false

-- a table of type a may be given where one of type b is asked for (core specification, import matching)
pub record <b id="IsSubtype">IsSubtype</b> (a b : <a href="../../store/TableSpecs/index.html#TableTypeValue">TableTypeValue</a>) : Type 0 where
  pub <b id="index">index</b> : a.index ≡ b.index
  pub <b id="element">element</b> : a.element ≡ b.element
  pub <b id="minimum">minimum</b> : b.minimum ≤ a.minimum
  pub <b id="maximum">maximum</b> : <a href="../../store/MemorySpecs/index.html#IsNoLooser">IsNoLooser</a> a.maximum b.maximum

-- a table: its type, its elements, each a reference or 0 for null, and how many elements in all memory was reserved for
pub record <b id="TableValue">TableValue</b> : Type 0 where
  pub <b id="ty">ty</b> : <a href="../../store/TableSpecs/index.html#TableTypeValue">TableTypeValue</a>
  pub <b id="elements">elements</b> : List ℕ
  pub <b id="reserved">reserved</b> : ℕ

-- the table of a type with these elements, for which nothing was reserved
abbrev pub <b id="table_of">table_of</b> : <a href="../../store/TableSpecs/index.html#TableTypeValue">TableTypeValue</a> → List ℕ → <a href="../../store/TableSpecs/index.html#TableValue">TableValue</a>
<a href="../../store/TableSpecs/index.html#table_of">table_of</a> <a href="../../store/TableSpecs/index.html#ty">ty</a> <a href="../../store/TableSpecs/index.html#elements">elements</a> = record { <a href="../../store/TableSpecs/index.html#ty">ty</a> = <a href="../../store/TableSpecs/index.html#ty">ty</a>; <a href="../../store/TableSpecs/index.html#elements">elements</a> = <a href="../../store/TableSpecs/index.html#elements">elements</a>; <a href="../../store/TableSpecs/index.html#reserved">reserved</a> = 0 }

-- the table with these elements
abbrev pub <b id="with_elements">with_elements</b> : <a href="../../store/TableSpecs/index.html#TableValue">TableValue</a> → List ℕ → <a href="../../store/TableSpecs/index.html#TableValue">TableValue</a>
<a href="../../store/TableSpecs/index.html#with_elements">with_elements</a> x <a href="../../store/TableSpecs/index.html#elements">elements</a> = record x { <a href="../../store/TableSpecs/index.html#elements">elements</a> = <a href="../../store/TableSpecs/index.html#elements">elements</a> }

-- the table for whose first n elements memory is reserved, unless that was so for more
abbrev pub <b id="with_elements_reserved">with_elements_reserved</b> : <a href="../../store/TableSpecs/index.html#TableValue">TableValue</a> → ℕ → <a href="../../store/TableSpecs/index.html#TableValue">TableValue</a>
<a href="../../store/TableSpecs/index.html#with_elements_reserved">with_elements_reserved</a> x n = record x { <a href="../../store/TableSpecs/index.html#reserved">reserved</a> = max x.reserved n }

-- how many elements a table has
abbrev pub <b id="size_of">size_of</b> : <a href="../../store/TableSpecs/index.html#TableValue">TableValue</a> → ℕ
<a href="../../store/TableSpecs/index.html#size_of">size_of</a> x = length x.elements

-- a size in elements is one that the type allows
pub record <b id="IsSized">IsSized</b> (<a href="../../store/TableSpecs/index.html#ty">ty</a> : <a href="../../store/TableSpecs/index.html#TableTypeValue">TableTypeValue</a>) (size : ℕ) : Type 0 where
  pub <b id="minimum">minimum</b> : ty.minimum ≤ size
  pub <b id="indexable">indexable</b> : <a href="../../store/TableSpecs/index.html#is_indexable">is_indexable</a> <a href="../../store/TableSpecs/index.html#ty">ty</a> size ≡ true
  pub <b id="within">within</b> : <a href="../../store/TableSpecs/index.html#is_within_maximum">is_within_maximum</a> <a href="../../store/TableSpecs/index.html#ty">ty</a> size ≡ true

-- a table of a valid type has as many elements as that allows (core specification, validity of table instances)
pub record <b id="IsValidTable">IsValidTable</b> (x : <a href="../../store/TableSpecs/index.html#TableValue">TableValue</a>) : Type 0 where
  pub <b id="type">type</b> : <a href="../../store/TableSpecs/index.html#IsValid">IsValid</a> x.ty
  pub <b id="sized">sized</b> : <a href="../../store/TableSpecs/index.html#IsSized">IsSized</a> x.ty (<a href="../../store/TableSpecs/index.html#size_of">size_of</a> x)

-- a table&#x27;s type with the present size as the minimum
abbrev pub <b id="dynamic_type">dynamic_type</b> : <a href="../../store/TableSpecs/index.html#TableValue">TableValue</a> → <a href="../../store/TableSpecs/index.html#TableTypeValue">TableTypeValue</a>
<a href="../../store/TableSpecs/index.html#dynamic_type">dynamic_type</a> x = record x.ty { <a href="../../store/TableSpecs/index.html#minimum">minimum</a> = <a href="../../store/TableSpecs/index.html#size_of">size_of</a> x }

-- a new table at the minimum of its type, with one reference in each place
abbrev pub <b id="new_table">new_table</b> : <a href="../../store/TableSpecs/index.html#TableTypeValue">TableTypeValue</a> → ℕ → <a href="../../store/TableSpecs/index.html#TableValue">TableValue</a>
<a href="../../store/TableSpecs/index.html#new_table">new_table</a> <a href="../../store/TableSpecs/index.html#ty">ty</a> reference = <a href="../../store/TableSpecs/index.html#table_of">table_of</a> <a href="../../store/TableSpecs/index.html#ty">ty</a> (replicate ty.minimum reference)

-- the table with n more elements
abbrev pub <b id="with_added">with_added</b> : <a href="../../store/TableSpecs/index.html#TableValue">TableValue</a> → ℕ → ℕ → <a href="../../store/TableSpecs/index.html#TableValue">TableValue</a>
<a href="../../store/TableSpecs/index.html#with_added">with_added</a> x n reference = <a href="../../store/TableSpecs/index.html#with_elements">with_elements</a> x (x.elements ++ replicate n reference)

-- the fuel for so many elements of a table, of 4 bytes each
abbrev pub <b id="element_price">element_price</b> : ℕ → CustomFuelCosts → ℕ
<a href="../../store/TableSpecs/index.html#element_price">element_price</a> n costs = <a href="../../meter/MeterSpecs/index.html#copy_cost">copy_cost</a> costs n 4

-- what is asked where a table of a type is made of a reference, and the causes of a refusal; it costs no fuel
abbrev pub <b id="creation_of">creation_of</b> : <a href="../../store/TableSpecs/index.html#TableTypeValue">TableTypeValue</a> → RefType → <a href="../../meter/AttemptSpecs/index.html#Request">Request</a> (Unit {0}) TableError
<a href="../../store/TableSpecs/index.html#creation_of">creation_of</a> <a href="../../store/TableSpecs/index.html#ty">ty</a> init = record {
  early = if <a href="../../store/TableSpecs/index.html#same_type">same_type</a> ty.element init then None else Some ElementTypeMismatch;
  question = record { kind = Elements; current = 0; desired = ty.minimum; <a href="../../store/TableSpecs/index.html#maximum">maximum</a> = ty.maximum };
  denial = ResourceLimiterDeniedAllocation;
  refusal = ResourceLimiterDeniedAllocation;
  notice = <a href="../../meter/LimiterSpecs/index.html#TableFailure">TableFailure</a>;
  late = None;
  price = None;
  unpaid = OutOfFuel;
  refuses = λ cause. cause ≡ OutOfSystemMemory;
  grown = tt;
}

-- what is asked and paid where a table grows by n elements, and the causes of a refusal: the maximum is tested after
-- the permission, and memory is refused only for more elements than it was reserved for
abbrev pub <b id="growth_of">growth_of</b> : <a href="../../store/TableSpecs/index.html#TableValue">TableValue</a> → ℕ → ℕ → <a href="../../meter/AttemptSpecs/index.html#Request">Request</a> <a href="../../store/TableSpecs/index.html#TableValue">TableValue</a> TableError
<a href="../../store/TableSpecs/index.html#growth_of">growth_of</a> x n reference = record {
  early = if <a href="../../store/TableSpecs/index.html#is_indexable">is_indexable</a> x.ty (<a href="../../store/TableSpecs/index.html#size_of">size_of</a> x + n) then None else Some GrowOutOfBounds;
  question = record { kind = Elements; current = <a href="../../store/TableSpecs/index.html#size_of">size_of</a> x; desired = <a href="../../store/TableSpecs/index.html#size_of">size_of</a> x + n; <a href="../../store/TableSpecs/index.html#maximum">maximum</a> = x.ty.<a href="../../store/TableSpecs/index.html#maximum">maximum</a> };
  denial = GrowOutOfBounds;
  refusal = ResourceLimiterDeniedAllocation;
  notice = <a href="../../meter/LimiterSpecs/index.html#TableFailure">TableFailure</a>;
  late = if <a href="../../store/TableSpecs/index.html#is_within_maximum">is_within_maximum</a> x.ty (<a href="../../store/TableSpecs/index.html#size_of">size_of</a> x + n) then None else Some GrowOutOfBounds;
  price = Some (<a href="../../store/TableSpecs/index.html#element_price">element_price</a> n);
  unpaid = OutOfFuel;
  refuses = λ cause. (cause ≡ OutOfSystemMemory) × (x.reserved &lt; <a href="../../store/TableSpecs/index.html#size_of">size_of</a> x + n);
  grown = <a href="../../store/TableSpecs/index.html#with_added">with_added</a> x n reference;
}

-- a table of a type is made of a reference
abbrev pub <b id="MakesTable">MakesTable</b> : {S : Type 0} → <a href="../../meter/LimiterSpecs/index.html#Rules">Rules</a> S → <a href="../../store/TableSpecs/index.html#TableTypeValue">TableTypeValue</a> → TypedRawRef → S → Result <a href="../../store/TableSpecs/index.html#TableValue">TableValue</a> TableError → S
    → Type 0
<a href="../../store/TableSpecs/index.html#MakesTable">MakesTable</a> rules <a href="../../store/TableSpecs/index.html#ty">ty</a> init l result l&#x27; = <a href="../../store/GrowthSpecs/index.html#Makes">Makes</a> rules (<a href="../../store/TableSpecs/index.html#creation_of">creation_of</a> <a href="../../store/TableSpecs/index.html#ty">ty</a> init.ty) (<a href="../../store/TableSpecs/index.html#new_table">new_table</a> <a href="../../store/TableSpecs/index.html#ty">ty</a> init.raw) l result l&#x27;

-- the growth of a table by n elements
abbrev pub <b id="table_growth">table_growth</b> : ℕ → ℕ → <a href="../../store/TableSpecs/index.html#TableValue">TableValue</a> → <a href="../../store/GrowthSpecs/index.html#Growth">Growth</a> <a href="../../store/TableSpecs/index.html#TableValue">TableValue</a> TableError
<a href="../../store/TableSpecs/index.html#table_growth">table_growth</a> n reference x = record { amount = n; size = <a href="../../store/TableSpecs/index.html#size_of">size_of</a> x; request = <a href="../../store/TableSpecs/index.html#growth_of">growth_of</a> x n reference }

-- a table grows by n elements, with this charge; it returns the old size
abbrev pub <b id="GrowsTableRawCharging">GrowsTableRawCharging</b> : {S : Type 0} → <a href="../../meter/LimiterSpecs/index.html#Rules">Rules</a> S → ℕ → ℕ → <a href="../../meter/AttemptSpecs/index.html#MeteredValue">MeteredValue</a> <a href="../../store/TableSpecs/index.html#TableValue">TableValue</a> S → Result ℕ TableError → ℕ
    → <a href="../../meter/AttemptSpecs/index.html#MeteredValue">MeteredValue</a> <a href="../../store/TableSpecs/index.html#TableValue">TableValue</a> S → Type 0
<a href="../../store/TableSpecs/index.html#GrowsTableRawCharging">GrowsTableRawCharging</a> rules n reference s result charge s&#x27; =
    <a href="../../store/GrowthSpecs/index.html#Grows">Grows</a> rules (<a href="../../store/TableSpecs/index.html#table_growth">table_growth</a> n reference s.value) s result charge s&#x27;

-- a growth by a reference that has a type, with this charge: the type is tested first, also for no element, and where
-- it is another, nothing is touched
abbrev pub <b id="GrowsTableCharging">GrowsTableCharging</b> : {S : Type 0} → <a href="../../meter/LimiterSpecs/index.html#Rules">Rules</a> S → ℕ → TypedRawRef → <a href="../../meter/AttemptSpecs/index.html#MeteredValue">MeteredValue</a> <a href="../../store/TableSpecs/index.html#TableValue">TableValue</a> S
    → Result ℕ TableError → ℕ → <a href="../../meter/AttemptSpecs/index.html#MeteredValue">MeteredValue</a> <a href="../../store/TableSpecs/index.html#TableValue">TableValue</a> S → Type 0
<a href="../../store/TableSpecs/index.html#GrowsTableCharging">GrowsTableCharging</a> rules n init s result charge s&#x27; = MatchBool (<a href="../../store/TableSpecs/index.html#same_type">same_type</a> s.value.ty.element init.ty)
    (<a href="../../store/TableSpecs/index.html#GrowsTableRawCharging">GrowsTableRawCharging</a> rules n init.raw s result charge s&#x27;)
    ((result ≡ Err ElementTypeMismatch) × (charge ≡ 0) × (s&#x27; ≡ s))

-- a table grows by n elements; it returns the old size
abbrev pub <b id="GrowsTableRaw">GrowsTableRaw</b> : {S : Type 0} → <a href="../../meter/LimiterSpecs/index.html#Rules">Rules</a> S → ℕ → ℕ → <a href="../../meter/AttemptSpecs/index.html#MeteredValue">MeteredValue</a> <a href="../../store/TableSpecs/index.html#TableValue">TableValue</a> S → Result ℕ TableError
    → <a href="../../meter/AttemptSpecs/index.html#MeteredValue">MeteredValue</a> <a href="../../store/TableSpecs/index.html#TableValue">TableValue</a> S → Type 0
<a href="../../store/TableSpecs/index.html#GrowsTableRaw">GrowsTableRaw</a> rules n reference = <a href="../../store/GrowthSpecs/index.html#WithCharge">WithCharge</a> (<a href="../../store/TableSpecs/index.html#GrowsTableRawCharging">GrowsTableRawCharging</a> rules n reference)

-- a table grows by n elements, each a reference that has a type, which is tested first
abbrev pub <b id="GrowsTable">GrowsTable</b> : {S : Type 0} → <a href="../../meter/LimiterSpecs/index.html#Rules">Rules</a> S → ℕ → TypedRawRef → <a href="../../meter/AttemptSpecs/index.html#MeteredValue">MeteredValue</a> <a href="../../store/TableSpecs/index.html#TableValue">TableValue</a> S → Result ℕ TableError
    → <a href="../../meter/AttemptSpecs/index.html#MeteredValue">MeteredValue</a> <a href="../../store/TableSpecs/index.html#TableValue">TableValue</a> S → Type 0
<a href="../../store/TableSpecs/index.html#GrowsTable">GrowsTable</a> rules n init = <a href="../../store/GrowthSpecs/index.html#WithCharge">WithCharge</a> (<a href="../../store/TableSpecs/index.html#GrowsTableCharging">GrowsTableCharging</a> rules n init)

-- the element at an index with its type, or none past the end
abbrev pub <b id="element_at">element_at</b> : <a href="../../store/TableSpecs/index.html#TableValue">TableValue</a> → ℕ → Option TypedRawRef
<a href="../../store/TableSpecs/index.html#element_at">element_at</a> x <a href="../../store/TableSpecs/index.html#index">index</a> =
    option_map (λ reference. record { raw = reference; <a href="../../store/TableSpecs/index.html#ty">ty</a> = x.ty.<a href="../../store/TableSpecs/index.html#element">element</a> }) (slice_get x.elements <a href="../../store/TableSpecs/index.html#index">index</a>)

-- the element at an index is set to a reference; past the end it is refused, and the table stays
abbrev pub <b id="SetsTableRaw">SetsTableRaw</b> : ℕ → ℕ → <a href="../../store/TableSpecs/index.html#TableValue">TableValue</a> → Result (Unit {0}) TableError → <a href="../../store/TableSpecs/index.html#TableValue">TableValue</a> → Type 0
<a href="../../store/TableSpecs/index.html#SetsTableRaw">SetsTableRaw</a> <a href="../../store/TableSpecs/index.html#index">index</a> reference x result x&#x27; = MatchOption (<a href="../../types/AccessSpecs/index.html#overwrite">overwrite</a> x.elements <a href="../../store/TableSpecs/index.html#index">index</a> (reference ∷ []))
    ((result ≡ Err SetOutOfBounds) × (x&#x27; ≡ x))
    (λ <a href="../../store/TableSpecs/index.html#elements">elements</a>. (result ≡ Ok tt) × (x&#x27; ≡ <a href="../../store/TableSpecs/index.html#with_elements">with_elements</a> x <a href="../../store/TableSpecs/index.html#elements">elements</a>))

-- the element at an index is set to a reference that has a type, which is tested first
abbrev pub <b id="SetsTable">SetsTable</b> : ℕ → TypedRawRef → <a href="../../store/TableSpecs/index.html#TableValue">TableValue</a> → Result (Unit {0}) TableError → <a href="../../store/TableSpecs/index.html#TableValue">TableValue</a> → Type 0
<a href="../../store/TableSpecs/index.html#SetsTable">SetsTable</a> <a href="../../store/TableSpecs/index.html#index">index</a> value x result x&#x27; = MatchBool (<a href="../../store/TableSpecs/index.html#same_type">same_type</a> x.ty.<a href="../../store/TableSpecs/index.html#element">element</a> value.ty)
    (<a href="../../store/TableSpecs/index.html#SetsTableRaw">SetsTableRaw</a> <a href="../../store/TableSpecs/index.html#index">index</a> value.raw x result x&#x27;) ((result ≡ Err ElementTypeMismatch) × (x&#x27; ≡ x))

-- a write over a range of a table
abbrev pub <b id="TableWrite">TableWrite</b> : Type 0
<a href="../../store/TableSpecs/index.html#TableWrite">TableWrite</a> = <a href="../../store/WriteSpecs/index.html#MeteredWrite">MeteredWrite</a> <a href="../../store/TableSpecs/index.html#TableValue">TableValue</a> TableError

-- the elements of a table are written over: whether the types are the same, what the elements become, or none where a
-- range ends past its list, the error there, and how many elements are paid for, if any
abbrev pub <b id="elements_write">elements_write</b> : <a href="../../store/TableSpecs/index.html#TableValue">TableValue</a> → Bool → Option (List ℕ) → TableError → Option ℕ → <a href="../../store/TableSpecs/index.html#TableWrite">TableWrite</a>
<a href="../../store/TableSpecs/index.html#elements_write">elements_write</a> x typed written outside paid = record {
  early = if typed then None else Some ElementTypeMismatch;
  written = option_map (<a href="../../store/TableSpecs/index.html#with_elements">with_elements</a> x) written;
  outside = outside;
  price = option_map <a href="../../store/TableSpecs/index.html#element_price">element_price</a> paid;
  unpaid = OutOfFuel;
}

-- len elements of a table from dst on are filled with a reference, whose type isn&#x27;t tested
abbrev pub <b id="raw_filling_of">raw_filling_of</b> : ℕ → ℕ → ℕ → <a href="../../store/TableSpecs/index.html#TableValue">TableValue</a> → <a href="../../store/TableSpecs/index.html#TableWrite">TableWrite</a>
<a href="../../store/TableSpecs/index.html#raw_filling_of">raw_filling_of</a> dst reference len x =
    <a href="../../store/TableSpecs/index.html#elements_write">elements_write</a> x true (<a href="../../store/WriteSpecs/index.html#filled">filled</a> x.elements dst reference len) FillOutOfBounds (Some len)

-- len elements of a table from dst on are filled with a reference, whose type is tested
abbrev pub <b id="filling_of">filling_of</b> : ℕ → TypedRawRef → ℕ → <a href="../../store/TableSpecs/index.html#TableValue">TableValue</a> → <a href="../../store/TableSpecs/index.html#TableWrite">TableWrite</a>
<a href="../../store/TableSpecs/index.html#filling_of">filling_of</a> dst value len x = <a href="../../store/TableSpecs/index.html#elements_write">elements_write</a> x (<a href="../../store/TableSpecs/index.html#same_type">same_type</a> x.ty.<a href="../../store/TableSpecs/index.html#element">element</a> value.ty)
    (<a href="../../store/WriteSpecs/index.html#filled">filled</a> x.elements dst value.raw len) FillOutOfBounds (Some len)

-- len elements from src on of a table, perhaps the same one, are copied over those from dst on
abbrev pub <b id="copy_of">copy_of</b> : ℕ → ℕ → ℕ → <a href="../../store/TableSpecs/index.html#TableValue">TableValue</a> → <a href="../../store/TableSpecs/index.html#TableValue">TableValue</a> → <a href="../../store/TableSpecs/index.html#TableWrite">TableWrite</a>
<a href="../../store/TableSpecs/index.html#copy_of">copy_of</a> dst src len source x = <a href="../../store/TableSpecs/index.html#elements_write">elements_write</a> x (<a href="../../store/TableSpecs/index.html#same_type">same_type</a> x.ty.<a href="../../store/TableSpecs/index.html#element">element</a> source.ty.<a href="../../store/TableSpecs/index.html#element">element</a>)
    (<a href="../../store/WriteSpecs/index.html#copied">copied</a> x.elements dst source.elements src len) CopyOutOfBounds (Some len)

-- len items from src on of a segment are copied over a table&#x27;s elements from dst on, which is free where len is 0
abbrev pub <b id="initialization_of">initialization_of</b> : ℕ → ℕ → ℕ → <a href="../../store/SegmentSpecs/index.html#SegmentValue">SegmentValue</a> → <a href="../../store/TableSpecs/index.html#TableValue">TableValue</a> → <a href="../../store/TableSpecs/index.html#TableWrite">TableWrite</a>
<a href="../../store/TableSpecs/index.html#initialization_of">initialization_of</a> dst src len segment x = <a href="../../store/TableSpecs/index.html#elements_write">elements_write</a> x (<a href="../../store/TableSpecs/index.html#same_type">same_type</a> x.ty.<a href="../../store/TableSpecs/index.html#element">element</a> segment.ty)
    (<a href="../../store/WriteSpecs/index.html#copied">copied</a> x.elements dst segment.items src len) InitOutOfBounds (if nat_eq len 0 then None else Some len)

-- a range of a table is written over
abbrev pub <b id="WritesTable">WritesTable</b> : (<a href="../../store/TableSpecs/index.html#TableValue">TableValue</a> → <a href="../../store/TableSpecs/index.html#TableWrite">TableWrite</a>) → <a href="../../meter/AttemptSpecs/index.html#MeteredValue">MeteredValue</a> <a href="../../store/TableSpecs/index.html#TableValue">TableValue</a> (Unit {0})
    → Result (Unit {0}) TableError → <a href="../../meter/AttemptSpecs/index.html#MeteredValue">MeteredValue</a> <a href="../../store/TableSpecs/index.html#TableValue">TableValue</a> (Unit {0}) → Type 0
<a href="../../store/TableSpecs/index.html#WritesTable">WritesTable</a> write = <a href="../../store/GrowthSpecs/index.html#WithCharge">WithCharge</a> (<a href="../../store/WriteSpecs/index.html#WritesCharging">WritesCharging</a> write)
</code></pre>
"####]
    pub mod TableSpecs {}
    #[doc = r####"A write over a range of items, whatever memory, table or list has them, as a bulk instruction makes it: what stands before it, what the items become, its price in fuel, and how it ends.

<pre><code>use Rattle.std.specs.Prelude.{◌≡◌, ℕ, Option, Some, None, Result, Ok, Err, List, replicate, MatchBool, option_map, option_and_then}
use Rattle.wasmi_types.specs.Access.{<a href="../../types/AccessSpecs/index.html#at">at</a>, <a href="../../types/AccessSpecs/index.html#overwrite">overwrite</a>}
use Rattle.wasmi_meter.specs.declared.{error.MemoryError.MemoryError, fuel.CustomFuelCosts.CustomFuelCosts}
use Rattle.wasmi_meter.specs.declared.error.MemoryError.TheVariants.{OutOfBoundsAccess, OutOfFuel}
use Rattle.wasmi_meter.specs.Meter.{<a href="../../meter/MeterSpecs/index.html#copy_cost">copy_cost</a>, <a href="../../meter/MeterSpecs/index.html#meter_after">meter_after</a>}
use Rattle.wasmi_meter.specs.Attempt.{<a href="../../meter/AttemptSpecs/index.html#MeteredValue">MeteredValue</a>, <a href="../../meter/AttemptSpecs/index.html#optional_due">optional_due</a>, <a href="../../meter/AttemptSpecs/index.html#covers">covers</a>}
use Rattle.wasmi_store.specs.Growth.{<a href="../../store/GrowthSpecs/index.html#metered">metered</a>}

-- items of which so many, from dst on, are each filled with a value, or none where they end too early
abbrev pub <b id="filled">filled</b> : {A : Type 0} → List A → ℕ → A → ℕ → Option (List A)
<a href="../../store/WriteSpecs/index.html#filled">filled</a> items dst value len = <a href="../../types/AccessSpecs/index.html#overwrite">overwrite</a> items dst (replicate len value)

-- items whose part from dst on is written over by len items of a list from src on, or none where a list ends early
abbrev pub <b id="copied">copied</b> : {A : Type 0} → List A → ℕ → List A → ℕ → ℕ → Option (List A)
<a href="../../store/WriteSpecs/index.html#copied">copied</a> items dst source src len = option_and_then (λ part. <a href="../../types/AccessSpecs/index.html#overwrite">overwrite</a> items dst part) (<a href="../../types/AccessSpecs/index.html#at">at</a> source src len)

-- the price of a write over so many items of so many bytes each
abbrev pub <b id="item_price">item_price</b> : ℕ → ℕ → CustomFuelCosts → ℕ
<a href="../../store/WriteSpecs/index.html#item_price">item_price</a> size n costs = <a href="../../meter/MeterSpecs/index.html#copy_cost">copy_cost</a> costs n size

-- A write over a range of a value: the error of what stands before it, if anything does; the value afterwards, or none
-- where a range ends past its list; the error there; its price by a meter&#x27;s costs, if there is one; and the error if so
-- much isn&#x27;t left.
pub record <b id="MeteredWrite">MeteredWrite</b> (V E : Type 0) : Type 0 where
  pub <b id="early">early</b> : Option E
  pub <b id="written">written</b> : Option V
  pub <b id="outside">outside</b> : E
  pub <b id="price">price</b> : Option (CustomFuelCosts → ℕ)
  pub <b id="unpaid">unpaid</b> : ℕ → E

module _ {V E : Type 0} (w : <a href="../../store/WriteSpecs/index.html#MeteredWrite">MeteredWrite</a> V E) (s : <a href="../../meter/AttemptSpecs/index.html#MeteredValue">MeteredValue</a> V (Unit {0})) where
  -- what is due for it
  abbrev pub <b id="write_due">write_due</b> : ℕ
  <a href="../../store/WriteSpecs/index.html#write_due">write_due</a> = <a href="../../meter/AttemptSpecs/index.html#optional_due">optional_due</a> s.meter w.price

  -- what it is charged, by its result
  abbrev pub <b id="write_charge">write_charge</b> : Result (Unit {0}) E → ℕ
  <a href="../../store/WriteSpecs/index.html#write_charge">write_charge</a> (Ok _) = <a href="../../store/WriteSpecs/index.html#write_due">write_due</a>
  <a href="../../store/WriteSpecs/index.html#write_charge">write_charge</a> (Err error) = 0

  module _ (result : Result (Unit {0}) E) (s&#x27; : <a href="../../meter/AttemptSpecs/index.html#MeteredValue">MeteredValue</a> V (Unit {0})) where
    -- the write is refused for a cause: nothing is written or taken
    abbrev pub <b id="IsRefusedFor">IsRefusedFor</b> : E → Type 0
    <a href="../../store/WriteSpecs/index.html#IsRefusedFor">IsRefusedFor</a> cause = (result ≡ Err cause) × (s&#x27; ≡ s)

    -- how it ends, by the tests in their order: what stands before it, its ranges, its fuel, which is taken or isn&#x27;t left
    abbrev pub <b id="EndsBy">EndsBy</b> : Option E → Option V → Type 0
    <a href="../../store/WriteSpecs/index.html#EndsBy">EndsBy</a> (Some cause) <a href="../../store/WriteSpecs/index.html#written">written</a> = <a href="../../store/WriteSpecs/index.html#IsRefusedFor">IsRefusedFor</a> cause
    <a href="../../store/WriteSpecs/index.html#EndsBy">EndsBy</a> None None = <a href="../../store/WriteSpecs/index.html#IsRefusedFor">IsRefusedFor</a> w.outside
    <a href="../../store/WriteSpecs/index.html#EndsBy">EndsBy</a> None (Some value) = MatchBool (<a href="../../meter/AttemptSpecs/index.html#covers">covers</a> s.meter <a href="../../store/WriteSpecs/index.html#write_due">write_due</a>)
        ((result ≡ Ok tt) × (s&#x27; ≡ <a href="../../store/GrowthSpecs/index.html#metered">metered</a> value (option_map (λ m. <a href="../../meter/MeterSpecs/index.html#meter_after">meter_after</a> m <a href="../../store/WriteSpecs/index.html#write_due">write_due</a>) s.meter)))
        (<a href="../../store/WriteSpecs/index.html#IsRefusedFor">IsRefusedFor</a> (w.unpaid <a href="../../store/WriteSpecs/index.html#write_due">write_due</a>))

    -- how it ends
    abbrev pub <b id="Writes">Writes</b> : Type 0
    <a href="../../store/WriteSpecs/index.html#Writes">Writes</a> = <a href="../../store/WriteSpecs/index.html#EndsBy">EndsBy</a> w.early w.written

-- a write over a range of a value takes place, with its charge
pub record <b id="WritesCharging">WritesCharging</b> {V E : Type 0} (write : V → <a href="../../store/WriteSpecs/index.html#MeteredWrite">MeteredWrite</a> V E) (s : <a href="../../meter/AttemptSpecs/index.html#MeteredValue">MeteredValue</a> V (Unit {0}))
    (result : Result (Unit {0}) E) (charge : ℕ) (s&#x27; : <a href="../../meter/AttemptSpecs/index.html#MeteredValue">MeteredValue</a> V (Unit {0})) : Type 0 where
  pub <b id="writes">writes</b> : <a href="../../store/WriteSpecs/index.html#Writes">Writes</a> (write s.value) s result s&#x27;
  pub <b id="charged">charged</b> : charge ≡ <a href="../../store/WriteSpecs/index.html#write_charge">write_charge</a> (write s.value) s result

-- a write over items, wherever they lie: by the error of a meter with less than is needed, what the items become, or
-- none where a range ends past its list, the error there, and what they cost, if anything
abbrev pub <b id="items_write">items_write</b> : {A E : Type 0} → (ℕ → E) → Option (List A) → E → Option (CustomFuelCosts → ℕ)
    → <a href="../../store/WriteSpecs/index.html#MeteredWrite">MeteredWrite</a> (List A) E
<a href="../../store/WriteSpecs/index.html#items_write">items_write</a> <a href="../../store/WriteSpecs/index.html#unpaid">unpaid</a> <a href="../../store/WriteSpecs/index.html#written">written</a> <a href="../../store/WriteSpecs/index.html#outside">outside</a> <a href="../../store/WriteSpecs/index.html#price">price</a> =
    record { <a href="../../store/WriteSpecs/index.html#early">early</a> = None; <a href="../../store/WriteSpecs/index.html#written">written</a> = <a href="../../store/WriteSpecs/index.html#written">written</a>; <a href="../../store/WriteSpecs/index.html#outside">outside</a> = <a href="../../store/WriteSpecs/index.html#outside">outside</a>; <a href="../../store/WriteSpecs/index.html#price">price</a> = <a href="../../store/WriteSpecs/index.html#price">price</a>; <a href="../../store/WriteSpecs/index.html#unpaid">unpaid</a> = <a href="../../store/WriteSpecs/index.html#unpaid">unpaid</a> }

-- items are written over
abbrev pub <b id="WritesItems">WritesItems</b> : {A E : Type 0} → (ℕ → E) → Option (List A) → E → Option (CustomFuelCosts → ℕ)
    → <a href="../../meter/AttemptSpecs/index.html#MeteredValue">MeteredValue</a> (List A) (Unit {0}) → Result (Unit {0}) E → <a href="../../meter/AttemptSpecs/index.html#MeteredValue">MeteredValue</a> (List A) (Unit {0}) → Type 0
<a href="../../store/WriteSpecs/index.html#WritesItems">WritesItems</a> <a href="../../store/WriteSpecs/index.html#unpaid">unpaid</a> <a href="../../store/WriteSpecs/index.html#written">written</a> <a href="../../store/WriteSpecs/index.html#outside">outside</a> <a href="../../store/WriteSpecs/index.html#price">price</a> = <a href="../../store/WriteSpecs/index.html#Writes">Writes</a> (<a href="../../store/WriteSpecs/index.html#items_write">items_write</a> <a href="../../store/WriteSpecs/index.html#unpaid">unpaid</a> <a href="../../store/WriteSpecs/index.html#written">written</a> <a href="../../store/WriteSpecs/index.html#outside">outside</a> <a href="../../store/WriteSpecs/index.html#price">price</a>)

-- a bulk instruction writes so many bytes of a list, each of which is paid for
abbrev pub <b id="BulkWrites">BulkWrites</b> : Option (List ℕ) → ℕ → <a href="../../meter/AttemptSpecs/index.html#MeteredValue">MeteredValue</a> (List ℕ) (Unit {0}) → Result (Unit {0}) MemoryError
    → <a href="../../meter/AttemptSpecs/index.html#MeteredValue">MeteredValue</a> (List ℕ) (Unit {0}) → Type 0
<a href="../../store/WriteSpecs/index.html#BulkWrites">BulkWrites</a> <a href="../../store/WriteSpecs/index.html#written">written</a> len = <a href="../../store/WriteSpecs/index.html#WritesItems">WritesItems</a> OutOfFuel <a href="../../store/WriteSpecs/index.html#written">written</a> OutOfBoundsAccess (Some (<a href="../../store/WriteSpecs/index.html#item_price">item_price</a> 1 len))
</code></pre>
"####]
    pub mod WriteSpecs {}
}
/// Definitions of `wasmi_machine`.
pub mod machine {
    #[doc = r####"Accounts of fuel: what calls set, what turns were charged, what a meter has left, and how many bytes turns have written for their charges.

<pre><code>use Rattle.std.specs.Prelude.{◌≡◌, ◌+◌, ◌≤◌, ℕ, Some, List, fold, sum_by, ◌-◌, ◌*◌, ◌&lt;◌, Bool, true, false, ◌&amp;&amp;◌, if◌then◌else◌, count_by}
use Rattle.wasmi_meter.specs.Meter.{<a href="../../meter/MeterSpecs/index.html#Meter">Meter</a>, <a href="../../meter/MeterSpecs/index.html#meter_set">meter_set</a>, <a href="../../meter/MeterSpecs/index.html#PaysCharge">PaysCharge</a>}
use Rattle.wasmi_machine.specs.declared.{calls.Call.Call, calls.Reply.Reply}
use Rattle.wasmi_machine.specs.declared.calls.Call.TheVariants.{SetFuel}
use Rattle.wasmi_machine.specs.State.{<a href="../../machine/StateSpecs/index.html#Turn">Turn</a>}
use Rattle.wasmi_machine.specs.declared.calls.Reply.TheVariants.{Done, Number}
use Rattle.wasmi_machine.specs.Steps.{<a href="../../machine/StepsSpecs/index.html#is_charged">is_charged</a>}

-- the fuel that was set last, or that was left at first, and the sum of the charges since then
pub record <b id="Account">Account</b> : Type 0 where
  pub <b id="granted">granted</b> : ℕ
  pub <b id="charged">charged</b> : ℕ

-- an account of so much fuel, of which nothing was charged yet
abbrev pub <b id="opened">opened</b> : ℕ → <a href="../../machine/AccountSpecs/index.html#Account">Account</a>
<a href="../../machine/AccountSpecs/index.html#opened">opened</a> fuel = record { <a href="../../machine/AccountSpecs/index.html#granted">granted</a> = fuel; <a href="../../machine/AccountSpecs/index.html#charged">charged</a> = 0 }

-- an account after a call with a charge: setting the fuel opens it anew
abbrev pub <b id="charged_by">charged_by</b> : <a href="../../machine/AccountSpecs/index.html#Account">Account</a> → Call → ℕ → <a href="../../machine/AccountSpecs/index.html#Account">Account</a>
<a href="../../machine/AccountSpecs/index.html#charged_by">charged_by</a> account (SetFuel fuel) charge = <a href="../../machine/AccountSpecs/index.html#opened">opened</a> fuel
<a href="../../machine/AccountSpecs/index.html#charged_by">charged_by</a> account call charge = record { <a href="../../machine/AccountSpecs/index.html#granted">granted</a> = account.granted; <a href="../../machine/AccountSpecs/index.html#charged">charged</a> = account.charged + charge }

-- an account after turns
abbrev pub <b id="account_after">account_after</b> : <a href="../../machine/AccountSpecs/index.html#Account">Account</a> → List <a href="../../machine/StateSpecs/index.html#Turn">Turn</a> → <a href="../../machine/AccountSpecs/index.html#Account">Account</a>
<a href="../../machine/AccountSpecs/index.html#account_after">account_after</a> account turns = fold (λ a turn. <a href="../../machine/AccountSpecs/index.html#charged_by">charged_by</a> a turn.call turn.charge) account turns

-- metering is on, and what is left and what was charged are what was granted
abbrev pub <b id="Balances">Balances</b> : <a href="../../machine/AccountSpecs/index.html#Account">Account</a> → <a href="../../meter/MeterSpecs/index.html#Meter">Meter</a> → Type 0
<a href="../../machine/AccountSpecs/index.html#Balances">Balances</a> account m = (left : ℕ) × (m.left ≡ Some left) × (left + account.charged ≡ account.granted)

-- what a call with a charge makes of the meter: one that sets the fuel sets it, and each other one takes its charge
abbrev pub <b id="ChangesMeter">ChangesMeter</b> : Call → <a href="../../meter/MeterSpecs/index.html#Meter">Meter</a> → ℕ → <a href="../../meter/MeterSpecs/index.html#Meter">Meter</a> → Type 0
<a href="../../machine/AccountSpecs/index.html#ChangesMeter">ChangesMeter</a> (SetFuel fuel) m charge m&#x27; = m&#x27; ≡ <a href="../../meter/MeterSpecs/index.html#meter_set">meter_set</a> m fuel
<a href="../../machine/AccountSpecs/index.html#ChangesMeter">ChangesMeter</a> call m charge m&#x27; = <a href="../../meter/MeterSpecs/index.html#PaysCharge">PaysCharge</a> m charge m&#x27;

-- the call doesn&#x27;t set the fuel
abbrev pub <b id="SetsNoFuel">SetsNoFuel</b> : Call → Type 0
<a href="../../machine/AccountSpecs/index.html#SetsNoFuel">SetsNoFuel</a> (SetFuel fuel) = ⊥
<a href="../../machine/AccountSpecs/index.html#SetsNoFuel">SetsNoFuel</a> call = Unit {0}

-- what turns were charged
abbrev pub <b id="charges">charges</b> : List <a href="../../machine/StateSpecs/index.html#Turn">Turn</a> → ℕ
<a href="../../machine/AccountSpecs/index.html#charges">charges</a> turns = sum_by (λ turn. turn.charge) turns

-- whether a reply accepts a call that is charged for what it writes, as what turns have written is counted
abbrev pub <b id="is_accepted">is_accepted</b> : Reply → Bool
<a href="../../machine/AccountSpecs/index.html#is_accepted">is_accepted</a> Done = true
<a href="../../machine/AccountSpecs/index.html#is_accepted">is_accepted</a> (Number size) = true
<a href="../../machine/AccountSpecs/index.html#is_accepted">is_accepted</a> reply = false

-- whether a turn of this call with this reply counts as one that has written
abbrev pub <b id="has_written">has_written</b> : Call → Reply → Bool
<a href="../../machine/AccountSpecs/index.html#has_written">has_written</a> call reply = <a href="../../machine/StepsSpecs/index.html#is_charged">is_charged</a> call &amp;&amp; <a href="../../machine/AccountSpecs/index.html#is_accepted">is_accepted</a> reply

-- how many turns have written
abbrev pub <b id="writing_turns">writing_turns</b> : List <a href="../../machine/StateSpecs/index.html#Turn">Turn</a> → ℕ
<a href="../../machine/AccountSpecs/index.html#writing_turns">writing_turns</a> turns = count_by (λ turn. <a href="../../machine/AccountSpecs/index.html#has_written">has_written</a> turn.call turn.reply) turns

-- what the turns that have written were charged
abbrev pub <b id="charges_for_writing">charges_for_writing</b> : List <a href="../../machine/StateSpecs/index.html#Turn">Turn</a> → ℕ
<a href="../../machine/AccountSpecs/index.html#charges_for_writing">charges_for_writing</a> turns = sum_by (λ turn. if <a href="../../machine/AccountSpecs/index.html#has_written">has_written</a> turn.call turn.reply then turn.charge else 0) turns

-- how many bytes turns have written
abbrev pub <b id="bytes_written">bytes_written</b> : List <a href="../../machine/StateSpecs/index.html#Turn">Turn</a> → ℕ
<a href="../../machine/AccountSpecs/index.html#bytes_written">bytes_written</a> turns = sum_by (λ turn. turn.written) turns

-- the amount to which a call sets the fuel, or 0
abbrev pub <b id="amount_set">amount_set</b> : Call → ℕ
<a href="../../machine/AccountSpecs/index.html#amount_set">amount_set</a> (SetFuel fuel) = fuel
<a href="../../machine/AccountSpecs/index.html#amount_set">amount_set</a> call = 0

-- the sum of all amounts to which turns have set the fuel
abbrev pub <b id="amounts_set">amounts_set</b> : List <a href="../../machine/StateSpecs/index.html#Turn">Turn</a> → ℕ
<a href="../../machine/AccountSpecs/index.html#amounts_set">amounts_set</a> turns = sum_by (λ turn. <a href="../../machine/AccountSpecs/index.html#amount_set">amount_set</a> turn.call) turns

-- at a rate of so many bytes a fuel, no more is written than what was charged pays for, and less than a fuel&#x27;s worth
-- beyond it in each turn; and no more than all the fuel that there was
pub record <b id="IsBounded">IsBounded</b> (rate fuel : ℕ) (turns : List <a href="../../machine/StateSpecs/index.html#Turn">Turn</a>) : Type 0 where
  pub <b id="by_charges">by_charges</b> : <a href="../../machine/AccountSpecs/index.html#bytes_written">bytes_written</a> turns ≤ rate * <a href="../../machine/AccountSpecs/index.html#charges_for_writing">charges_for_writing</a> turns + <a href="../../machine/AccountSpecs/index.html#writing_turns">writing_turns</a> turns * (rate - 1)
  pub <b id="by_fuel">by_fuel</b> : <a href="../../machine/AccountSpecs/index.html#bytes_written">bytes_written</a> turns ≤ rate * (fuel + <a href="../../machine/AccountSpecs/index.html#amounts_set">amounts_set</a> turns) + <a href="../../machine/AccountSpecs/index.html#writing_turns">writing_turns</a> turns * (rate - 1)

-- what was left before is what is left after turns and what they were charged; at a rate above 0, no more is written
-- than what was spent pays for, and less than a fuel&#x27;s worth beyond it in each turn
pub record <b id="IsSpent">IsSpent</b> (rate before after : ℕ) (turns : List <a href="../../machine/StateSpecs/index.html#Turn">Turn</a>) : Type 0 where
  pub <b id="charged">charged</b> : after + <a href="../../machine/AccountSpecs/index.html#charges">charges</a> turns ≡ before
  pub <b id="written">written</b> : 0 &lt; rate → <a href="../../machine/AccountSpecs/index.html#bytes_written">bytes_written</a> turns ≤ rate * (before - after) + <a href="../../machine/AccountSpecs/index.html#writing_turns">writing_turns</a> turns * (rate - 1)
</code></pre>
"####]
    pub mod AccountSpecs {}
    #[doc = r####"Limiters in runs: deterministic ones, ones that accept each notice, permit each question, or are of one kind; and failures, replies and runs that don't say out of memory, and replies that tell no denial.

<pre><code>use Rattle.std.specs.Prelude.{◌≡◌, List, Ok, Option, Some, None, true, All, map}
use Rattle.wasmi_meter.specs.Limiter.{<a href="../../meter/LimiterSpecs/index.html#Question">Question</a>, <a href="../../meter/LimiterSpecs/index.html#Answer">Answer</a>, <a href="../../meter/LimiterSpecs/index.html#Failure">Failure</a>, <a href="../../meter/LimiterSpecs/index.html#MemoryFailure">MemoryFailure</a>, <a href="../../meter/LimiterSpecs/index.html#TableFailure">TableFailure</a>, <a href="../../meter/LimiterSpecs/index.html#NoticeAnswer">NoticeAnswer</a>, <a href="../../meter/LimiterSpecs/index.html#Rules">Rules</a>, <a href="../../meter/LimiterSpecs/index.html#optional_rules">optional_rules</a>}
use Rattle.wasmi_machine.specs.declared.{calls.Reply.Reply, calls.Call.Call}
use Rattle.wasmi_machine.specs.declared.calls.Reply.TheVariants.{Memory, Table, Segment, NoRoom}
use Rattle.wasmi_machine.specs.State.{<a href="../../machine/StateSpecs/index.html#Turn">Turn</a>, <a href="../../machine/StateSpecs/index.html#State">State</a>, <a href="../../machine/StateSpecs/index.html#World">World</a>, <a href="../../machine/StateSpecs/index.html#world">world</a>}
use Rattle.wasmi_meter.specs.declared.{any_limiter.AnyLimiter.AnyLimiter, quota.Quota.Quota}
use Rattle.wasmi_meter.specs.AnswerList.{<a href="../../meter/AnswerListSpecs/index.html#AnswersAhead">AnswersAhead</a>, <a href="../../meter/AnswerListSpecs/index.html#answer_list_rules">answer_list_rules</a>}
use Rattle.wasmi_meter.specs.AnyLimiter.{<a href="../../meter/AnyLimiterSpecs/index.html#any_limiter_rules">any_limiter_rules</a>}
use Rattle.wasmi_meter.specs.Capped.{<a href="../../meter/CappedSpecs/index.html#quota_rules">quota_rules</a>}
use Rattle.wasmi_machine.specs.Steps.{<a href="../../machine/StepsSpecs/index.html#Run">Run</a>, <a href="../../machine/StepsSpecs/index.html#IsRunOf">IsRunOf</a>, <a href="../../machine/StepsSpecs/index.html#RepliesWith">RepliesWith</a>}
use Rattle.wasmi_meter.specs.declared.error.MemoryError.TheVariants as memory
use Rattle.wasmi_meter.specs.declared.error.TableError.TheVariants as table
use Rattle.wasmi_store.specs.declared.<a href="../../store/TableSpecs/index.html#element">table.element</a>.SegmentError.TheVariants as segment
use Rattle.wasmi_meter.specs.declared.any_limiter.AnyLimiter.TheVariants as limiter

-- a limiter has one answer to each question and to each notice, and is in one state after it
pub record <b id="IsDeterministic">IsDeterministic</b> {S : Type 0} (<a href="../../machine/DeterminismSpecs/index.html#rules">rules</a> : <a href="../../meter/LimiterSpecs/index.html#Rules">Rules</a> S) : Type 0 where
  pub <b id="asked">asked</b> : (l : S) (question : <a href="../../meter/LimiterSpecs/index.html#Question">Question</a>) (answer answer&#x27; : <a href="../../meter/LimiterSpecs/index.html#Answer">Answer</a>) (l&#x27; l&#x27;&#x27; : S) → rules.asked l question answer l&#x27;
      → rules.asked l question answer&#x27; l&#x27;&#x27; → (answer ≡ answer&#x27;) × (l&#x27; ≡ l&#x27;&#x27;)
  pub <b id="noticed">noticed</b> : (l : S) (failure : <a href="../../meter/LimiterSpecs/index.html#Failure">Failure</a>) (notice_answer notice_answer&#x27; : <a href="../../meter/LimiterSpecs/index.html#NoticeAnswer">NoticeAnswer</a>) (l&#x27; l&#x27;&#x27; : S)
      → rules.noticed l failure notice_answer l&#x27; → rules.noticed l failure notice_answer&#x27; l&#x27;&#x27;
      → (notice_answer ≡ notice_answer&#x27;) × (l&#x27; ≡ l&#x27;&#x27;)

-- a limiter accepts each notice
abbrev pub <b id="AcceptsNotices">AcceptsNotices</b> : {S : Type 0} → <a href="../../meter/LimiterSpecs/index.html#Rules">Rules</a> S → Type 0
<a href="../../machine/DeterminismSpecs/index.html#AcceptsNotices">AcceptsNotices</a> {S} <a href="../../machine/DeterminismSpecs/index.html#rules">rules</a> =
    (l : S) (failure : <a href="../../meter/LimiterSpecs/index.html#Failure">Failure</a>) (notice_answer : <a href="../../meter/LimiterSpecs/index.html#NoticeAnswer">NoticeAnswer</a>) (l&#x27; : S) → rules.noticed l failure notice_answer l&#x27;
    → notice_answer ≡ Ok tt

-- a limiter in one of these states accepts each notice, and stays in them
pub record <b id="StaysAccepting">StaysAccepting</b> {S : Type 0} (<a href="../../machine/DeterminismSpecs/index.html#rules">rules</a> : <a href="../../meter/LimiterSpecs/index.html#Rules">Rules</a> S) (IsAccepting : S → Type 0) : Type 0 where
  pub <b id="asked">asked</b> : (l : S) (question : <a href="../../meter/LimiterSpecs/index.html#Question">Question</a>) (answer : <a href="../../meter/LimiterSpecs/index.html#Answer">Answer</a>) (l&#x27; : S) → IsAccepting l
      → rules.asked l question answer l&#x27; → IsAccepting l&#x27;
  pub <b id="noticed">noticed</b> : (l : S) (failure : <a href="../../meter/LimiterSpecs/index.html#Failure">Failure</a>) (notice_answer : <a href="../../meter/LimiterSpecs/index.html#NoticeAnswer">NoticeAnswer</a>) (l&#x27; : S) → IsAccepting l
      → rules.noticed l failure notice_answer l&#x27; → (notice_answer ≡ Ok tt) × IsAccepting l&#x27;

-- the failure is another one than that memory was refused
abbrev pub <b id="IsOtherFailure">IsOtherFailure</b> : <a href="../../meter/LimiterSpecs/index.html#Failure">Failure</a> → Type 0
<a href="../../machine/DeterminismSpecs/index.html#IsOtherFailure">IsOtherFailure</a> (<a href="../../meter/LimiterSpecs/index.html#MemoryFailure">MemoryFailure</a> memory.OutOfSystemMemory) = ⊥
<a href="../../machine/DeterminismSpecs/index.html#IsOtherFailure">IsOtherFailure</a> (<a href="../../meter/LimiterSpecs/index.html#TableFailure">TableFailure</a> table.OutOfSystemMemory) = ⊥
<a href="../../machine/DeterminismSpecs/index.html#IsOtherFailure">IsOtherFailure</a> failure = Unit {0}

-- the rules by which no limiter is notified that memory was refused
abbrev pub <b id="never_out_of_memory">never_out_of_memory</b> : {S : Type 0} → <a href="../../meter/LimiterSpecs/index.html#Rules">Rules</a> S → <a href="../../meter/LimiterSpecs/index.html#Rules">Rules</a> S
<a href="../../machine/DeterminismSpecs/index.html#never_out_of_memory">never_out_of_memory</a> <a href="../../machine/DeterminismSpecs/index.html#rules">rules</a> =
    record <b id="rules">rules</b> { <a href="../../machine/DeterminismSpecs/index.html#noticed">noticed</a> = λ l failure answer l&#x27;. rules.noticed l failure answer l&#x27; × <a href="../../machine/DeterminismSpecs/index.html#IsOtherFailure">IsOtherFailure</a> failure }

-- the reply doesn&#x27;t say out of memory
abbrev pub <b id="IsNotOutOfMemory">IsNotOutOfMemory</b> : Reply → Type 0
<a href="../../machine/DeterminismSpecs/index.html#IsNotOutOfMemory">IsNotOutOfMemory</a> NoRoom = ⊥
<a href="../../machine/DeterminismSpecs/index.html#IsNotOutOfMemory">IsNotOutOfMemory</a> (Memory memory.OutOfSystemMemory) = ⊥
<a href="../../machine/DeterminismSpecs/index.html#IsNotOutOfMemory">IsNotOutOfMemory</a> (Table table.OutOfSystemMemory) = ⊥
<a href="../../machine/DeterminismSpecs/index.html#IsNotOutOfMemory">IsNotOutOfMemory</a> (Segment segment.OutOfSystemMemory) = ⊥
<a href="../../machine/DeterminismSpecs/index.html#IsNotOutOfMemory">IsNotOutOfMemory</a> reply = Unit {0}

-- no reply of the turns says out of memory
abbrev pub <b id="AreNotOutOfMemory">AreNotOutOfMemory</b> : List <a href="../../machine/StateSpecs/index.html#Turn">Turn</a> → Type 0
<a href="../../machine/DeterminismSpecs/index.html#AreNotOutOfMemory">AreNotOutOfMemory</a> turns = All <a href="../../machine/DeterminismSpecs/index.html#IsNotOutOfMemory">IsNotOutOfMemory</a> (map Turn.reply turns)

-- the rules by which each question is permitted
abbrev pub <b id="permitting">permitting</b> : {S : Type 0} → <a href="../../meter/LimiterSpecs/index.html#Rules">Rules</a> S → <a href="../../meter/LimiterSpecs/index.html#Rules">Rules</a> S
<a href="../../machine/DeterminismSpecs/index.html#permitting">permitting</a> <a href="../../machine/DeterminismSpecs/index.html#rules">rules</a> = record <a href="../../machine/DeterminismSpecs/index.html#rules">rules</a> { <a href="../../machine/DeterminismSpecs/index.html#asked">asked</a> = λ l q answer l&#x27;. (answer ≡ Ok true) × rules.asked l q answer l&#x27; }

-- the reply reports no denial, and is no error by which a denial is reported
abbrev pub <b id="TellsNoDenial">TellsNoDenial</b> : Reply → Type 0
<a href="../../machine/DeterminismSpecs/index.html#TellsNoDenial">TellsNoDenial</a> (Memory memory.OutOfBoundsGrowth) = ⊥
<a href="../../machine/DeterminismSpecs/index.html#TellsNoDenial">TellsNoDenial</a> (Memory memory.ResourceLimiterDeniedAllocation) = ⊥
<a href="../../machine/DeterminismSpecs/index.html#TellsNoDenial">TellsNoDenial</a> (Table table.GrowOutOfBounds) = ⊥
<a href="../../machine/DeterminismSpecs/index.html#TellsNoDenial">TellsNoDenial</a> (Table table.ResourceLimiterDeniedAllocation) = ⊥
<a href="../../machine/DeterminismSpecs/index.html#TellsNoDenial">TellsNoDenial</a> reply = Unit {0}

module _ (Relates : (L : Type 0) → <a href="../../meter/LimiterSpecs/index.html#Rules">Rules</a> L → <a href="../../machine/StateSpecs/index.html#World">World</a> L → <a href="../../machine/StateSpecs/index.html#World">World</a> L → Type 0) where
  -- Two machines, each with a limiter of one kind, are related by the rules of that kind: without a limiter, under its
  -- quota or under its list of answers.
  abbrev pub <b id="RelatesByKind">RelatesByKind</b> : <a href="../../machine/StateSpecs/index.html#State">State</a> → AnyLimiter → <a href="../../machine/StateSpecs/index.html#State">State</a> → AnyLimiter → Type 0
  <a href="../../machine/DeterminismSpecs/index.html#RelatesByKind">RelatesByKind</a> s limiter.Unlimited s&#x27; l&#x27; = (l&#x27; ≡ limiter.Unlimited)
      × Relates (Option Quota) (<a href="../../meter/LimiterSpecs/index.html#optional_rules">optional_rules</a> <a href="../../meter/CappedSpecs/index.html#quota_rules">quota_rules</a>) (<a href="../../machine/StateSpecs/index.html#world">world</a> s None) (<a href="../../machine/StateSpecs/index.html#world">world</a> s&#x27; None)
  <a href="../../machine/DeterminismSpecs/index.html#RelatesByKind">RelatesByKind</a> s (limiter.Quota quota) s&#x27; l&#x27; = (quota&#x27; : Quota) × (l&#x27; ≡ limiter.Quota quota&#x27;)
      × Relates (Option Quota) (<a href="../../meter/LimiterSpecs/index.html#optional_rules">optional_rules</a> <a href="../../meter/CappedSpecs/index.html#quota_rules">quota_rules</a>) (<a href="../../machine/StateSpecs/index.html#world">world</a> s (Some quota)) (<a href="../../machine/StateSpecs/index.html#world">world</a> s&#x27; (Some quota&#x27;))
  <a href="../../machine/DeterminismSpecs/index.html#RelatesByKind">RelatesByKind</a> s (limiter.Answers list) s&#x27; l&#x27; = (list&#x27; : <a href="../../meter/AnswerListSpecs/index.html#AnswersAhead">AnswersAhead</a>) × (l&#x27; ≡ limiter.Answers list&#x27;)
      × Relates (Option <a href="../../meter/AnswerListSpecs/index.html#AnswersAhead">AnswersAhead</a>) (<a href="../../meter/LimiterSpecs/index.html#optional_rules">optional_rules</a> <a href="../../meter/AnswerListSpecs/index.html#answer_list_rules">answer_list_rules</a>) (<a href="../../machine/StateSpecs/index.html#world">world</a> s (Some list)) (<a href="../../machine/StateSpecs/index.html#world">world</a> s&#x27; (Some list&#x27;))

  -- what the rules of such limiters relate, the rules of its kind do, and the kind stays
  abbrev pub <b id="KindStays">KindStays</b> : Type 0
  <a href="../../machine/DeterminismSpecs/index.html#KindStays">KindStays</a> = (s : <a href="../../machine/StateSpecs/index.html#State">State</a>) (l : AnyLimiter) (s&#x27; : <a href="../../machine/StateSpecs/index.html#State">State</a>) (l&#x27; : AnyLimiter)
      → Relates (Option AnyLimiter) (<a href="../../meter/LimiterSpecs/index.html#optional_rules">optional_rules</a> <a href="../../meter/AnyLimiterSpecs/index.html#any_limiter_rules">any_limiter_rules</a>) (<a href="../../machine/StateSpecs/index.html#world">world</a> s (Some l)) (<a href="../../machine/StateSpecs/index.html#world">world</a> s&#x27; (Some l&#x27;))
      → <a href="../../machine/DeterminismSpecs/index.html#RelatesByKind">RelatesByKind</a> s l s&#x27; l&#x27;

-- a run under such a limiter is one by the rules of its kind
abbrev pub <b id="RunsKeepKind">RunsKeepKind</b> : Type 0
<a href="../../machine/DeterminismSpecs/index.html#RunsKeepKind">RunsKeepKind</a> = (turns : List <a href="../../machine/StateSpecs/index.html#Turn">Turn</a>) → <a href="../../machine/DeterminismSpecs/index.html#KindStays">KindStays</a> (λ L <a href="../../machine/DeterminismSpecs/index.html#rules">rules</a> w w&#x27;. <a href="../../machine/StepsSpecs/index.html#Run">Run</a> <a href="../../machine/DeterminismSpecs/index.html#rules">rules</a> w turns w&#x27;)

-- a run of calls with these replies under such a limiter is one by the rules of its kind
abbrev pub <b id="RunsOfCallsKeepKind">RunsOfCallsKeepKind</b> : Type 0
<a href="../../machine/DeterminismSpecs/index.html#RunsOfCallsKeepKind">RunsOfCallsKeepKind</a> = (calls : List Call) (replies : List Reply)
    → <a href="../../machine/DeterminismSpecs/index.html#KindStays">KindStays</a> (λ L <a href="../../machine/DeterminismSpecs/index.html#rules">rules</a> w w&#x27;. <a href="../../machine/StepsSpecs/index.html#IsRunOf">IsRunOf</a> <a href="../../machine/DeterminismSpecs/index.html#rules">rules</a> calls w replies w&#x27;)

-- a reply to a call under such a limiter is one by the rules of its kind
abbrev pub <b id="RepliesKeepKind">RepliesKeepKind</b> : Type 0
<a href="../../machine/DeterminismSpecs/index.html#RepliesKeepKind">RepliesKeepKind</a> = (call : Call) (reply : Reply) → <a href="../../machine/DeterminismSpecs/index.html#KindStays">KindStays</a> (λ L <a href="../../machine/DeterminismSpecs/index.html#rules">rules</a> w w&#x27;. <a href="../../machine/StepsSpecs/index.html#RepliesWith">RepliesWith</a> <a href="../../machine/DeterminismSpecs/index.html#rules">rules</a> call w reply w&#x27;)
</code></pre>
"####]
    pub mod DeterminismSpecs {}
    #[doc = r####"What the effects of calls have in common, whatever they are on: changes, creations, drops and writes of a list or of slots at an index with their replies, and the turns that they make.

<pre><code>use Rattle.std.specs.Prelude.{◌≡◌, ◌⊎◌, ◌++◌, ℕ, Option, Some, Result, Ok, Err, List, [], ◌∷◌, length, slice_get, slice_set, unwrap_or, MatchOption}
use Rattle.wasmi_meter.specs.Attempt.{<a href="../../meter/AttemptSpecs/index.html#MeteredValue">MeteredValue</a>, <a href="../../meter/AttemptSpecs/index.html#with_value">with_value</a>}
use Rattle.wasmi_meter.specs.Meter.{<a href="../../meter/MeterSpecs/index.html#Meter">Meter</a>, <a href="../../meter/MeterSpecs/index.html#cut_product">cut_product</a>}
use Rattle.wasmi_store.specs.Growth.{<a href="../../store/GrowthSpecs/index.html#metered">metered</a>, <a href="../../store/GrowthSpecs/index.html#metered_value">metered_value</a>}
use Rattle.wasmi_store.specs.Write.{<a href="../../store/WriteSpecs/index.html#MeteredWrite">MeteredWrite</a>, <a href="../../store/WriteSpecs/index.html#WritesCharging">WritesCharging</a>}
use Rattle.wasmi_machine.specs.declared.{calls.Reply.Reply, slots.Slot.Slot}
use Rattle.wasmi_machine.specs.declared.calls.Reply.TheVariants.{Done, Made, Number, NoSuch, NoRoom}
use Rattle.wasmi_machine.specs.declared.slots.Slot.TheVariants.{Live, Gone}
use Rattle.wasmi_machine.specs.State.{<a href="../../machine/StateSpecs/index.html#State">State</a>, <a href="../../machine/StateSpecs/index.html#live_at">live_at</a>, <a href="../../machine/StateSpecs/index.html#World">World</a>, <a href="../../machine/StateSpecs/index.html#world">world</a>, <a href="../../machine/StateSpecs/index.html#TurnOutcome">TurnOutcome</a>, <a href="../../machine/StateSpecs/index.html#IsFree">IsFree</a>}

-- the reply to a call that returns a value or is refused
abbrev pub <b id="reply_of">reply_of</b> : {T E : Type 0} → (T → Reply) → (E → Reply) → Result T E → Reply
<a href="../../machine/EffectsSpecs/index.html#reply_of">reply_of</a> answer refusal (Ok value) = answer value
<a href="../../machine/EffectsSpecs/index.html#reply_of">reply_of</a> answer refusal (Err error) = refusal error

-- the reply of a body that ends early where an index names nothing
abbrev pub <b id="reply_or_no_such">reply_or_no_such</b> : Option Reply → Reply
<a href="../../machine/EffectsSpecs/index.html#reply_or_no_such">reply_or_no_such</a> reply = unwrap_or reply NoSuch

-- the value that an index names has become another, which is put back; without one it is `NoSuch`, and nothing changes
abbrev pub <b id="ChangesFound">ChangesFound</b> : {X A : Type 0} → Option X → (X → A) → A → Reply → A → (X → X → Type 0) → Type 0
<a href="../../machine/EffectsSpecs/index.html#ChangesFound">ChangesFound</a> found put <a href="../../machine/EffectsSpecs/index.html#part">part</a> reply part&#x27; Change = MatchOption found ((reply ≡ NoSuch) × (part&#x27; ≡ <a href="../../machine/EffectsSpecs/index.html#part">part</a>))
    (λ x. (x&#x27; : _) × Change x x&#x27; × (part&#x27; ≡ put x&#x27;))

-- the live value in a slot has become another
abbrev pub <b id="ChangesAt">ChangesAt</b> : {X : Type 0} → ℕ → List (Slot X) → Reply → List (Slot X) → (X → X → Type 0) → Type 0
<a href="../../machine/EffectsSpecs/index.html#ChangesAt">ChangesAt</a> k slots reply slots&#x27; Change =
    <a href="../../machine/EffectsSpecs/index.html#ChangesFound">ChangesFound</a> (<a href="../../machine/StateSpecs/index.html#live_at">live_at</a> slots k) (λ x. slice_set slots k (Live x)) slots reply slots&#x27; Change

-- an item of a list has become another
abbrev pub <b id="ChangesItem">ChangesItem</b> : {X : Type 0} → ℕ → List X → Reply → List X → (X → X → Type 0) → Type 0
<a href="../../machine/EffectsSpecs/index.html#ChangesItem">ChangesItem</a> k items reply items&#x27; Change = <a href="../../machine/EffectsSpecs/index.html#ChangesFound">ChangesFound</a> (slice_get items k) (slice_set items k) items reply items&#x27; Change

-- the reply to a creation, and the list after it: a new entry at the end where it succeeds
abbrev pub <b id="AddsEntry">AddsEntry</b> : {X A E : Type 0} → (X → A) → (E → Reply) → Result X E → List A → Reply → List A → Type 0
<a href="../../machine/EffectsSpecs/index.html#AddsEntry">AddsEntry</a> entry refusal (Ok x) list reply list&#x27; = (reply ≡ Made (length list)) × (list&#x27; ≡ list ++ entry x ∷ [])
<a href="../../machine/EffectsSpecs/index.html#AddsEntry">AddsEntry</a> entry refusal (Err error) list reply list&#x27; = (reply ≡ refusal error) × (list&#x27; ≡ list)

-- where the reply is that there is no room, a fact that is then so
abbrev pub <b id="IfNoRoom">IfNoRoom</b> : Reply → Type 0 → Type 0
<a href="../../machine/EffectsSpecs/index.html#IfNoRoom">IfNoRoom</a> NoRoom Lacks = Lacks
<a href="../../machine/EffectsSpecs/index.html#IfNoRoom">IfNoRoom</a> reply Lacks = Unit {0}

-- an item is added to a list, unless there is no memory for it, which a fact allows
abbrev pub <b id="AddsItem">AddsItem</b> : {X : Type 0} → Type 0 → X → List X → Reply → List X → Type 0
<a href="../../machine/EffectsSpecs/index.html#AddsItem">AddsItem</a> Lacks x items reply items&#x27; = ((reply ≡ NoRoom) × (items&#x27; ≡ items) × Lacks)
    ⊎ ((reply ≡ Made (length items)) × (items&#x27; ≡ items ++ x ∷ []))

-- what the item of an index has is dropped
abbrev pub <b id="DropsContents">DropsContents</b> : {X : Type 0} → (X → X) → ℕ → List X → Reply → List X → Type 0
<a href="../../machine/EffectsSpecs/index.html#DropsContents">DropsContents</a> without k items reply items&#x27; =
    <a href="../../machine/EffectsSpecs/index.html#ChangesItem">ChangesItem</a> k items reply items&#x27; (λ x x&#x27;. (reply ≡ Done) × (x&#x27; ≡ without x))

-- a creation under a limiter: without room for a slot nothing is asked
abbrev pub <b id="Creates">Creates</b> : {X E S : Type 0} → (E → Reply) → (S → Result X E → S → Type 0) → List (Slot X) → S → Reply
    → List (Slot X) → S → Type 0
<a href="../../machine/EffectsSpecs/index.html#Creates">Creates</a> refusal Makes slots l reply slots&#x27; l&#x27; = ((reply ≡ NoRoom) × (slots&#x27; ≡ slots) × (l&#x27; ≡ l))
    ⊎ ((result : _) × Makes l result l&#x27; × <a href="../../machine/EffectsSpecs/index.html#AddsEntry">AddsEntry</a> Live refusal result slots reply slots&#x27;)

-- the live value of an index is dropped, and its slot keeps how many it had; where the index names none it is `NoSuch`,
-- and nothing has changed
abbrev pub <b id="DropsAt">DropsAt</b> : {X : Type 0} → (X → ℕ) → ℕ → List (Slot X) → Reply → List (Slot X) → Type 0
<a href="../../machine/EffectsSpecs/index.html#DropsAt">DropsAt</a> count k slots reply slots&#x27; = MatchOption (<a href="../../machine/StateSpecs/index.html#live_at">live_at</a> slots k) ((reply ≡ NoSuch) × (slots&#x27; ≡ slots))
    (λ x. (reply ≡ Done) × (slots&#x27; ≡ slice_set slots k (Gone (count x))))

-- an index names nothing: there is no charge, and nothing has changed
abbrev pub <b id="IsNoSuch">IsNoSuch</b> : {A S : Type 0} → <a href="../../meter/AttemptSpecs/index.html#MeteredValue">MeteredValue</a> A S → Reply → ℕ → <a href="../../meter/AttemptSpecs/index.html#MeteredValue">MeteredValue</a> A S → Type 0
<a href="../../machine/EffectsSpecs/index.html#IsNoSuch">IsNoSuch</a> s reply charge s&#x27; = (reply ≡ NoSuch) × (charge ≡ 0) × (s&#x27; ≡ s)

-- a call with a charge on the live value of an index, with the reply to each result
abbrev pub <b id="ActsAt">ActsAt</b> : {X R S : Type 0} → ℕ → (R → Reply) → (<a href="../../meter/AttemptSpecs/index.html#MeteredValue">MeteredValue</a> X S → R → ℕ → <a href="../../meter/AttemptSpecs/index.html#MeteredValue">MeteredValue</a> X S → Type 0)
    → <a href="../../meter/AttemptSpecs/index.html#MeteredValue">MeteredValue</a> (List (Slot X)) S → Reply → ℕ → <a href="../../meter/AttemptSpecs/index.html#MeteredValue">MeteredValue</a> (List (Slot X)) S → Type 0
<a href="../../machine/EffectsSpecs/index.html#ActsAt">ActsAt</a> k reply_to Acts s reply charge s&#x27; = MatchOption (<a href="../../machine/StateSpecs/index.html#live_at">live_at</a> s.value k) (<a href="../../machine/EffectsSpecs/index.html#IsNoSuch">IsNoSuch</a> s reply charge s&#x27;)
    (λ x. (result : _) × (x&#x27; : _) × Acts (<a href="../../meter/AttemptSpecs/index.html#with_value">with_value</a> s x) result charge (<a href="../../meter/AttemptSpecs/index.html#with_value">with_value</a> s&#x27; x&#x27;)
    × (reply ≡ reply_to result) × (s&#x27;.value ≡ slice_set s.value k (Live x&#x27;)))

-- values of one kind in their slots, and the meter that is charged
abbrev pub <b id="MeteredSlots">MeteredSlots</b> : Type 0 → Type 0
<a href="../../machine/EffectsSpecs/index.html#MeteredSlots">MeteredSlots</a> X = <a href="../../meter/AttemptSpecs/index.html#MeteredValue">MeteredValue</a> (List (Slot X)) (Unit {0})

-- a range of the value of an index is written over, with its charge
abbrev pub <b id="WritesAt">WritesAt</b> : {X E : Type 0} → (E → Reply) → ℕ → (X → <a href="../../store/WriteSpecs/index.html#MeteredWrite">MeteredWrite</a> X E) → <a href="../../machine/EffectsSpecs/index.html#MeteredSlots">MeteredSlots</a> X → Reply → ℕ
    → <a href="../../machine/EffectsSpecs/index.html#MeteredSlots">MeteredSlots</a> X → Type 0
<a href="../../machine/EffectsSpecs/index.html#WritesAt">WritesAt</a> refusal k write = <a href="../../machine/EffectsSpecs/index.html#ActsAt">ActsAt</a> k (<a href="../../machine/EffectsSpecs/index.html#reply_of">reply_of</a> (λ _. Done) refusal) (<a href="../../store/WriteSpecs/index.html#WritesCharging">WritesCharging</a> write)

-- a range of the value of an index is written over with what a source has, with its charge; without a source the reply
-- is `NoSuch`, and nothing has changed
abbrev pub <b id="WritesFrom">WritesFrom</b> : {X Y E : Type 0} → (E → Reply) → Option Y → ℕ → (Y → X → <a href="../../store/WriteSpecs/index.html#MeteredWrite">MeteredWrite</a> X E) → <a href="../../machine/EffectsSpecs/index.html#MeteredSlots">MeteredSlots</a> X
    → Reply → ℕ → <a href="../../machine/EffectsSpecs/index.html#MeteredSlots">MeteredSlots</a> X → Type 0
<a href="../../machine/EffectsSpecs/index.html#WritesFrom">WritesFrom</a> refusal source k write s reply charge s&#x27; =
    MatchOption source (<a href="../../machine/EffectsSpecs/index.html#IsNoSuch">IsNoSuch</a> s reply charge s&#x27;) (λ y. <a href="../../machine/EffectsSpecs/index.html#WritesAt">WritesAt</a> refusal k (write y) s reply charge s&#x27;)

-- a range of the value of an index is written over by such a write, if there is one
abbrev pub <b id="WritesRangeAt">WritesRangeAt</b> : {X E : Type 0} → (E → Reply) → ℕ → Option (X → <a href="../../store/WriteSpecs/index.html#MeteredWrite">MeteredWrite</a> X E) → <a href="../../machine/EffectsSpecs/index.html#MeteredSlots">MeteredSlots</a> X → Reply
    → ℕ → <a href="../../machine/EffectsSpecs/index.html#MeteredSlots">MeteredSlots</a> X → Type 0
<a href="../../machine/EffectsSpecs/index.html#WritesRangeAt">WritesRangeAt</a> refusal k write = <a href="../../machine/EffectsSpecs/index.html#WritesFrom">WritesFrom</a> refusal write k (λ w. w)

-- the bytes that an accepted call on so many items, of so many bytes each, has written
abbrev pub <b id="item_bytes">item_bytes</b> : ℕ → ℕ → Reply → ℕ
<a href="../../machine/EffectsSpecs/index.html#item_bytes">item_bytes</a> size n Done = <a href="../../meter/MeterSpecs/index.html#cut_product">cut_product</a> n size
<a href="../../machine/EffectsSpecs/index.html#item_bytes">item_bytes</a> size n (Number number) = <a href="../../meter/MeterSpecs/index.html#cut_product">cut_product</a> n size
<a href="../../machine/EffectsSpecs/index.html#item_bytes">item_bytes</a> size n reply = 0

-- an effect of a call has changed one part of the state, whatever the part is
pub record <b id="ChangesPart">ChangesPart</b> {A : Type 0} (with_part : A → <a href="../../machine/StateSpecs/index.html#State">State</a>) (Effect : Reply → A → Type 0) (reply : Reply)
    (s&#x27; : <a href="../../machine/StateSpecs/index.html#State">State</a>) : Type 0 where
  pub <b id="part">part</b> : A
  pub <b id="effect">effect</b> : Effect reply <a href="../../machine/EffectsSpecs/index.html#part">part</a>
  pub <b id="after">after</b> : s&#x27; ≡ with_part <a href="../../machine/EffectsSpecs/index.html#part">part</a>

module _ {S : Type 0} (w : <a href="../../machine/StateSpecs/index.html#World">World</a> S) (outcome : <a href="../../machine/StateSpecs/index.html#TurnOutcome">TurnOutcome</a>) (w&#x27; : <a href="../../machine/StateSpecs/index.html#World">World</a> S) where
  -- a turn that changes nothing but what its reply tells
  pub record <b id="OnlyReplies">OnlyReplies</b> (Effect : Reply → Type 0) : Type 0 where
    pub <b id="free">free</b> : <a href="../../machine/StateSpecs/index.html#IsFree">IsFree</a> outcome
    pub <b id="effect">effect</b> : Effect outcome.reply
    pub <b id="after">after</b> : w&#x27; ≡ w

  -- a turn that changes the state, without a charge and without the limiter
  pub record <b id="Changes">Changes</b> (Effect : Reply → <a href="../../machine/StateSpecs/index.html#State">State</a> → Type 0) : Type 0 where
    pub <b id="free">free</b> : <a href="../../machine/StateSpecs/index.html#IsFree">IsFree</a> outcome
    pub <b id="machine">machine</b> : <a href="../../machine/StateSpecs/index.html#State">State</a>
    pub <b id="effect">effect</b> : Effect outcome.reply <a href="../../machine/EffectsSpecs/index.html#machine">machine</a>
    pub <b id="after">after</b> : w&#x27; ≡ record w { state = <a href="../../machine/EffectsSpecs/index.html#machine">machine</a> }

  -- a turn that makes something under the limiter, without a charge; there may be no room for it as a fact says
  pub record <b id="Asks">Asks</b> {A : Type 0} (Lacks : Type 0) (with_part : A → <a href="../../machine/StateSpecs/index.html#State">State</a>) (Effect : S → Reply → A → S → Type 0)
      : Type 0 where
    pub <b id="free">free</b> : <a href="../../machine/StateSpecs/index.html#IsFree">IsFree</a> outcome
    pub <b id="part">part</b> : A
    pub <b id="limiter">limiter</b> : S
    pub <b id="effect">effect</b> : Effect w.limiter outcome.reply <a href="../../machine/EffectsSpecs/index.html#part">part</a> <a href="../../machine/EffectsSpecs/index.html#limiter">limiter</a>
    pub <b id="room">room</b> : <a href="../../machine/EffectsSpecs/index.html#IfNoRoom">IfNoRoom</a> outcome.reply Lacks
    pub <b id="after">after</b> : w&#x27; ≡ <a href="../../machine/StateSpecs/index.html#world">world</a> (with_part <a href="../../machine/EffectsSpecs/index.html#part">part</a>) <a href="../../machine/EffectsSpecs/index.html#limiter">limiter</a>

  -- a turn that acts on one part of the state, with a charge, and with the bytes that it has written by its reply
  pub record <b id="ActsMetered">ActsMetered</b> {A : Type 0} (old : A) (with_part : A → <a href="../../machine/StateSpecs/index.html#State">State</a>)
      (Effect : <a href="../../meter/AttemptSpecs/index.html#MeteredValue">MeteredValue</a> A S → Reply → ℕ → <a href="../../meter/AttemptSpecs/index.html#MeteredValue">MeteredValue</a> A S → Type 0) (bytes : Reply → ℕ) : Type 0 where
    pub <b id="part">part</b> : A
    pub <b id="meter">meter</b> : <a href="../../meter/MeterSpecs/index.html#Meter">Meter</a>
    pub <b id="limiter">limiter</b> : S
    pub <b id="effect">effect</b> : Effect (<a href="../../store/GrowthSpecs/index.html#metered_value">metered_value</a> old (Some w.state.<a href="../../machine/EffectsSpecs/index.html#meter">meter</a>) w.limiter) outcome.reply outcome.charge
        (<a href="../../store/GrowthSpecs/index.html#metered_value">metered_value</a> <a href="../../machine/EffectsSpecs/index.html#part">part</a> (Some <a href="../../machine/EffectsSpecs/index.html#meter">meter</a>) <a href="../../machine/EffectsSpecs/index.html#limiter">limiter</a>)
    pub <b id="wrote">wrote</b> : outcome.written ≡ bytes outcome.reply
    pub <b id="after">after</b> : w&#x27; ≡ <a href="../../machine/StateSpecs/index.html#world">world</a> (record (with_part <a href="../../machine/EffectsSpecs/index.html#part">part</a>) { <a href="../../machine/EffectsSpecs/index.html#meter">meter</a> = <a href="../../machine/EffectsSpecs/index.html#meter">meter</a> }) <a href="../../machine/EffectsSpecs/index.html#limiter">limiter</a>

  -- a turn that acts on one part of the state, with a charge, and with the bytes that it has written by its reply, and
  -- does not reach the limiter
  pub record <b id="ActsMeteredUnasked">ActsMeteredUnasked</b> {A : Type 0} (old : A) (with_part : A → <a href="../../machine/StateSpecs/index.html#State">State</a>)
      (Effect : <a href="../../meter/AttemptSpecs/index.html#MeteredValue">MeteredValue</a> A (Unit {0}) → Reply → ℕ → <a href="../../meter/AttemptSpecs/index.html#MeteredValue">MeteredValue</a> A (Unit {0}) → Type 0)
      (bytes : Reply → ℕ) : Type 0 where
    pub <b id="part">part</b> : A
    pub <b id="meter">meter</b> : <a href="../../meter/MeterSpecs/index.html#Meter">Meter</a>
    pub <b id="effect">effect</b> : Effect (<a href="../../store/GrowthSpecs/index.html#metered">metered</a> old (Some w.state.<a href="../../machine/EffectsSpecs/index.html#meter">meter</a>)) outcome.reply outcome.charge (<a href="../../store/GrowthSpecs/index.html#metered">metered</a> <a href="../../machine/EffectsSpecs/index.html#part">part</a> (Some <a href="../../machine/EffectsSpecs/index.html#meter">meter</a>))
    pub <b id="wrote">wrote</b> : outcome.written ≡ bytes outcome.reply
    pub <b id="after">after</b> : w&#x27; ≡ record w { state = record (with_part <a href="../../machine/EffectsSpecs/index.html#part">part</a>) { <a href="../../machine/EffectsSpecs/index.html#meter">meter</a> = <a href="../../machine/EffectsSpecs/index.html#meter">meter</a> } }
</code></pre>
"####]
    pub mod EffectsSpecs {}
    #[doc = r####"Exchanges: what passes between a machine and its limiter in one turn, the question of each call, the replies to it, the size that grows by it, and what growths and writes over a range are charged.

<pre><code>use Rattle.std.specs.Prelude.{◌≡◌, ◌≢◌, ◌≤◌, ◌-◌, ◌⊎◌, ◌++◌, ℕ, Option, Some, None, Ok, true, nat_eq, is_none, if◌then◌else◌, List, [], ◌∷◌, slice_get, slice_set, option_map, option_and_then}
use Rattle.wasmi_meter.specs.declared.{limiter.Kind.Kind, fuel.CustomFuelCosts.CustomFuelCosts}
use Rattle.wasmi_meter.specs.declared.limiter.Kind.TheVariants.{Bytes, Elements}
use Rattle.wasmi_meter.specs.declared.error.MemoryError.TheVariants as memory_error
use Rattle.wasmi_meter.specs.declared.error.TableError.TheVariants as table_error
use Rattle.wasmi_meter.specs.Limiter.{<a href="../../meter/LimiterSpecs/index.html#Question">Question</a>, <a href="../../meter/LimiterSpecs/index.html#Answer">Answer</a>, <a href="../../meter/LimiterSpecs/index.html#IsDenial">IsDenial</a>, <a href="../../meter/LimiterSpecs/index.html#Failure">Failure</a>, <a href="../../meter/LimiterSpecs/index.html#MemoryFailure">MemoryFailure</a>, <a href="../../meter/LimiterSpecs/index.html#TableFailure">TableFailure</a>, <a href="../../meter/LimiterSpecs/index.html#kind_of">kind_of</a>, <a href="../../meter/LimiterSpecs/index.html#NoticeAnswer">NoticeAnswer</a>, <a href="../../meter/LimiterSpecs/index.html#Rules">Rules</a>}
use Rattle.wasmi_meter.specs.Meter.{<a href="../../meter/MeterSpecs/index.html#copy_cost">copy_cost</a>, <a href="../../meter/MeterSpecs/index.html#Meter">Meter</a>, <a href="../../meter/MeterSpecs/index.html#due">due</a>}
use Rattle.wasmi_meter.specs.Attempt.{<a href="../../meter/AttemptSpecs/index.html#Request">Request</a>, <a href="../../meter/AttemptSpecs/index.html#error_of_failure">error_of_failure</a>, <a href="../../meter/AttemptSpecs/index.html#optional_due">optional_due</a>}
use Rattle.wasmi_store.specs.Buffer.{<a href="../../store/BufferSpecs/index.html#Owned">Owned</a>, <a href="../../store/BufferSpecs/index.html#Lent">Lent</a>}
use Rattle.wasmi_typed.specs.declared.typed_ref.TypedRawRef.{TypedRawRef}
use Rattle.wasmi_store.specs.Write.{<a href="../../store/WriteSpecs/index.html#item_price">item_price</a>}
use Rattle.wasmi_store.specs.Memory as memory
use Rattle.wasmi_store.specs.Table as table
use Rattle.wasmi_store.specs.Table.{<a href="../../store/TableSpecs/index.html#TableValue">TableValue</a>, <a href="../../store/TableSpecs/index.html#same_type">same_type</a>}
use Rattle.wasmi_machine.specs.declared.{calls.Call.Call, calls.Reply.Reply}
use Rattle.wasmi_machine.specs.declared.calls.Reply.TheVariants.{Done, Memory, Table, NoRoom}
use Rattle.wasmi_machine.specs.State.{<a href="../../machine/StateSpecs/index.html#State">State</a>, <a href="../../machine/StateSpecs/index.html#live_at">live_at</a>, <a href="../../machine/StateSpecs/index.html#World">World</a>, <a href="../../machine/StateSpecs/index.html#Turn">Turn</a>, <a href="../../machine/StateSpecs/index.html#IsRefusal">IsRefusal</a>, <a href="../../machine/StateSpecs/index.html#sizes">sizes</a>}
use Rattle.wasmi_machine.specs.Account.{<a href="../../machine/AccountSpecs/index.html#ChangesMeter">ChangesMeter</a>}
use Rattle.wasmi_machine.specs.declared.calls.Call.TheVariants as call

-- nothing; a question and its denial; a permission alone; or a permission and the notice that what it permitted failed,
-- with the answer to it
pub data <b id="Exchange">Exchange</b> : Type 0 where
  <b id="Nothing">Nothing</b> : <a href="../../machine/ExchangeSpecs/index.html#Exchange">Exchange</a>
  <b id="Denial">Denial</b> : <a href="../../meter/LimiterSpecs/index.html#Question">Question</a> → <a href="../../meter/LimiterSpecs/index.html#Answer">Answer</a> → <a href="../../machine/ExchangeSpecs/index.html#Exchange">Exchange</a>
  <b id="Permission">Permission</b> : <a href="../../meter/LimiterSpecs/index.html#Question">Question</a> → <a href="../../machine/ExchangeSpecs/index.html#Exchange">Exchange</a>
  <b id="Notice">Notice</b> : <a href="../../meter/LimiterSpecs/index.html#Question">Question</a> → <a href="../../meter/LimiterSpecs/index.html#Failure">Failure</a> → <a href="../../meter/LimiterSpecs/index.html#NoticeAnswer">NoticeAnswer</a> → <a href="../../machine/ExchangeSpecs/index.html#Exchange">Exchange</a>

-- an exchange leads a limiter from one state to another
abbrev pub <b id="Passes">Passes</b> : {S : Type 0} → <a href="../../meter/LimiterSpecs/index.html#Rules">Rules</a> S → S → <a href="../../machine/ExchangeSpecs/index.html#Exchange">Exchange</a> → S → Type 0
<a href="../../machine/ExchangeSpecs/index.html#Passes">Passes</a> rules l <a href="../../machine/ExchangeSpecs/index.html#Nothing">Nothing</a> l&#x27; = l&#x27; ≡ l
<a href="../../machine/ExchangeSpecs/index.html#Passes">Passes</a> rules l (<a href="../../machine/ExchangeSpecs/index.html#Denial">Denial</a> question answer) l&#x27; = <a href="../../meter/LimiterSpecs/index.html#IsDenial">IsDenial</a> answer × rules.asked l question answer l&#x27;
<a href="../../machine/ExchangeSpecs/index.html#Passes">Passes</a> rules l (<a href="../../machine/ExchangeSpecs/index.html#Permission">Permission</a> question) l&#x27; = rules.asked l question (Ok true) l&#x27;
<a href="../../machine/ExchangeSpecs/index.html#Passes">Passes</a> {S} rules l (<a href="../../machine/ExchangeSpecs/index.html#Notice">Notice</a> question failure notice_answer) l&#x27; = (<a href="../../meter/LimiterSpecs/index.html#kind_of">kind_of</a> failure ≡ question.kind)
    × (permitted : S) × rules.asked l question (Ok true) permitted × rules.noticed permitted failure notice_answer l&#x27;

-- what a request asks: nothing where a cause is found before the question
abbrev pub <b id="question_in">question_in</b> : {V E : Type 0} → <a href="../../meter/AttemptSpecs/index.html#Request">Request</a> V E → Option <a href="../../meter/LimiterSpecs/index.html#Question">Question</a>
<a href="../../machine/ExchangeSpecs/index.html#question_in">question_in</a> e = if is_none e.early then Some e.question else None

-- what a growth by so many asks: nothing where it is by 0
abbrev pub <b id="growth_question">growth_question</b> : {V E : Type 0} → ℕ → <a href="../../meter/AttemptSpecs/index.html#Request">Request</a> V E → Option <a href="../../meter/LimiterSpecs/index.html#Question">Question</a>
<a href="../../machine/ExchangeSpecs/index.html#growth_question">growth_question</a> amount e = if nat_eq amount 0 then None else <a href="../../machine/ExchangeSpecs/index.html#question_in">question_in</a> e

-- what a growth of a table by references of a type asks: nothing where its elements have another
abbrev pub <b id="table_growth_question">table_growth_question</b> : ℕ → TypedRawRef → <a href="../../store/TableSpecs/index.html#TableValue">TableValue</a> → Option <a href="../../meter/LimiterSpecs/index.html#Question">Question</a>
<a href="../../machine/ExchangeSpecs/index.html#table_growth_question">table_growth_question</a> n init x =
    if <a href="../../store/TableSpecs/index.html#same_type">same_type</a> x.ty.element init.ty then <a href="../../machine/ExchangeSpecs/index.html#growth_question">growth_question</a> n (<a href="../../store/TableSpecs/index.html#growth_of">table.growth_of</a> x n init.raw) else None

-- what a call asks of the limiter in a state, if it asks something
abbrev pub <b id="question_of">question_of</b> : <a href="../../machine/StateSpecs/index.html#State">State</a> → Call → Option <a href="../../meter/LimiterSpecs/index.html#Question">Question</a>
<a href="../../machine/ExchangeSpecs/index.html#question_of">question_of</a> s (call.NewMemory ty) = <a href="../../machine/ExchangeSpecs/index.html#question_in">question_in</a> (<a href="../../store/MemorySpecs/index.html#creation_of">memory.creation_of</a> <a href="../../store/BufferSpecs/index.html#Owned">Owned</a> ty)
<a href="../../machine/ExchangeSpecs/index.html#question_of">question_of</a> s (call.NewLentMemory ty) =
    option_and_then (λ region. <a href="../../machine/ExchangeSpecs/index.html#question_in">question_in</a> (<a href="../../store/MemorySpecs/index.html#creation_of">memory.creation_of</a> (<a href="../../store/BufferSpecs/index.html#Lent">Lent</a> region) ty)) s.spare
<a href="../../machine/ExchangeSpecs/index.html#question_of">question_of</a> s (call.GrowMemory k pages) =
    option_and_then (λ x. <a href="../../machine/ExchangeSpecs/index.html#growth_question">growth_question</a> pages (<a href="../../store/MemorySpecs/index.html#growth_of">memory.growth_of</a> x pages)) (<a href="../../machine/StateSpecs/index.html#live_at">live_at</a> s.memories k)
<a href="../../machine/ExchangeSpecs/index.html#question_of">question_of</a> s (call.NewTable ty init) = <a href="../../machine/ExchangeSpecs/index.html#question_in">question_in</a> (<a href="../../store/TableSpecs/index.html#creation_of">table.creation_of</a> ty init.ty)
<a href="../../machine/ExchangeSpecs/index.html#question_of">question_of</a> s (call.GrowTable k n init) = option_and_then (<a href="../../machine/ExchangeSpecs/index.html#table_growth_question">table_growth_question</a> n init) (<a href="../../machine/StateSpecs/index.html#live_at">live_at</a> s.tables k)
<a href="../../machine/ExchangeSpecs/index.html#question_of">question_of</a> s call = None

-- what is asked is the question of the call; where it has one, it is asked, unless there is no room for what it makes
abbrev pub <b id="AsksFor">AsksFor</b> : Option <a href="../../meter/LimiterSpecs/index.html#Question">Question</a> → <a href="../../machine/ExchangeSpecs/index.html#Exchange">Exchange</a> → Reply → Type 0
<a href="../../machine/ExchangeSpecs/index.html#AsksFor">AsksFor</a> question <a href="../../machine/ExchangeSpecs/index.html#Nothing">Nothing</a> reply = (question ≡ None) ⊎ (reply ≡ NoRoom)
<a href="../../machine/ExchangeSpecs/index.html#AsksFor">AsksFor</a> question (<a href="../../machine/ExchangeSpecs/index.html#Denial">Denial</a> asked answer) reply = question ≡ Some asked
<a href="../../machine/ExchangeSpecs/index.html#AsksFor">AsksFor</a> question (<a href="../../machine/ExchangeSpecs/index.html#Permission">Permission</a> asked) reply = question ≡ Some asked
<a href="../../machine/ExchangeSpecs/index.html#AsksFor">AsksFor</a> question (<a href="../../machine/ExchangeSpecs/index.html#Notice">Notice</a> asked failure notice_answer) reply = question ≡ Some asked

-- the reply where what was permitted failed, by the answer to the notice
abbrev pub <b id="failed_reply">failed_reply</b> : <a href="../../meter/LimiterSpecs/index.html#Failure">Failure</a> → <a href="../../meter/LimiterSpecs/index.html#NoticeAnswer">NoticeAnswer</a> → Reply
<a href="../../machine/ExchangeSpecs/index.html#failed_reply">failed_reply</a> (<a href="../../meter/LimiterSpecs/index.html#MemoryFailure">MemoryFailure</a> error) answer =
    Memory (<a href="../../meter/AttemptSpecs/index.html#error_of_failure">error_of_failure</a> memory_error.ResourceLimiterDeniedAllocation error answer)
<a href="../../machine/ExchangeSpecs/index.html#failed_reply">failed_reply</a> (<a href="../../meter/LimiterSpecs/index.html#TableFailure">TableFailure</a> error) answer =
    Table (<a href="../../meter/AttemptSpecs/index.html#error_of_failure">error_of_failure</a> table_error.ResourceLimiterDeniedAllocation error answer)

-- the reply to an exchange: a denial is a refusal, a permission that stands is none, and a failure is told
abbrev pub <b id="RepliesTo">RepliesTo</b> : <a href="../../machine/ExchangeSpecs/index.html#Exchange">Exchange</a> → Reply → Type 0
<a href="../../machine/ExchangeSpecs/index.html#RepliesTo">RepliesTo</a> <a href="../../machine/ExchangeSpecs/index.html#Nothing">Nothing</a> reply = Unit {0}
<a href="../../machine/ExchangeSpecs/index.html#RepliesTo">RepliesTo</a> (<a href="../../machine/ExchangeSpecs/index.html#Denial">Denial</a> question answer) reply = <a href="../../machine/StateSpecs/index.html#IsRefusal">IsRefusal</a> reply
<a href="../../machine/ExchangeSpecs/index.html#RepliesTo">RepliesTo</a> (<a href="../../machine/ExchangeSpecs/index.html#Permission">Permission</a> question) reply = <a href="../../machine/StateSpecs/index.html#IsRefusal">IsRefusal</a> reply → ⊥
<a href="../../machine/ExchangeSpecs/index.html#RepliesTo">RepliesTo</a> (<a href="../../machine/ExchangeSpecs/index.html#Notice">Notice</a> question failure notice_answer) reply = reply ≡ <a href="../../machine/ExchangeSpecs/index.html#failed_reply">failed_reply</a> failure notice_answer

-- where a call makes something grow: nowhere, at a new index, or at one that is there
pub data <b id="Place">Place</b> : Type 0 where
  <b id="Nowhere">Nowhere</b> <b id="New">New</b> : <a href="../../machine/ExchangeSpecs/index.html#Place">Place</a>
  <b id="At">At</b> : ℕ → <a href="../../machine/ExchangeSpecs/index.html#Place">Place</a>

-- What tools/generate writes begins.
-- where a call lets something grow: a creation at a new index, a growth at the index that it names, and another call
-- nowhere
abbrev pub <b id="place_of">place_of</b> : Call → <a href="../../machine/ExchangeSpecs/index.html#Place">Place</a>
<a href="../../machine/ExchangeSpecs/index.html#place_of">place_of</a> (call.NewMemory ty) = <a href="../../machine/ExchangeSpecs/index.html#New">New</a>
<a href="../../machine/ExchangeSpecs/index.html#place_of">place_of</a> (call.NewLentMemory ty) = <a href="../../machine/ExchangeSpecs/index.html#New">New</a>
<a href="../../machine/ExchangeSpecs/index.html#place_of">place_of</a> (call.GrowMemory memory pages) = <a href="../../machine/ExchangeSpecs/index.html#At">At</a> memory
<a href="../../machine/ExchangeSpecs/index.html#place_of">place_of</a> (call.NewTable ty init) = <a href="../../machine/ExchangeSpecs/index.html#New">New</a>
<a href="../../machine/ExchangeSpecs/index.html#place_of">place_of</a> (call.GrowTable table delta init) = <a href="../../machine/ExchangeSpecs/index.html#At">At</a> table
<a href="../../machine/ExchangeSpecs/index.html#place_of">place_of</a> call = <a href="../../machine/ExchangeSpecs/index.html#Nowhere">Nowhere</a>

-- What tools/generate writes ends.

-- the size in a place has grown as a question asks: a new one from 0, or another from what it was
abbrev pub <b id="GrowsAsAsked">GrowsAsAsked</b> : <a href="../../machine/ExchangeSpecs/index.html#Place">Place</a> → <a href="../../meter/LimiterSpecs/index.html#Question">Question</a> → List ℕ → List ℕ → Type 0
<a href="../../machine/ExchangeSpecs/index.html#GrowsAsAsked">GrowsAsAsked</a> <a href="../../machine/ExchangeSpecs/index.html#Nowhere">Nowhere</a> q <a href="../../machine/StateSpecs/index.html#sizes">sizes</a> sizes&#x27; = ⊥
<a href="../../machine/ExchangeSpecs/index.html#GrowsAsAsked">GrowsAsAsked</a> <a href="../../machine/ExchangeSpecs/index.html#New">New</a> q <a href="../../machine/StateSpecs/index.html#sizes">sizes</a> sizes&#x27; = (q.current ≡ 0) × (sizes&#x27; ≡ <a href="../../machine/StateSpecs/index.html#sizes">sizes</a> ++ q.desired ∷ [])
<a href="../../machine/ExchangeSpecs/index.html#GrowsAsAsked">GrowsAsAsked</a> (<a href="../../machine/ExchangeSpecs/index.html#At">At</a> k) q <a href="../../machine/StateSpecs/index.html#sizes">sizes</a> sizes&#x27; =
    (q.current ≤ q.desired) × (slice_get <a href="../../machine/StateSpecs/index.html#sizes">sizes</a> k ≡ Some q.current) × (sizes&#x27; ≡ slice_set <a href="../../machine/StateSpecs/index.html#sizes">sizes</a> k q.desired)

-- no size has changed
abbrev pub <b id="NothingGrows">NothingGrows</b> : (Kind → List ℕ) → (Kind → List ℕ) → Type 0
<a href="../../machine/ExchangeSpecs/index.html#NothingGrows">NothingGrows</a> <a href="../../machine/StateSpecs/index.html#sizes">sizes</a> sizes&#x27; = (kind : Kind) → sizes&#x27; kind ≡ <a href="../../machine/StateSpecs/index.html#sizes">sizes</a> kind

-- what has grown by an exchange: after a permission that stands, the size in the place, as was asked; else nothing
abbrev pub <b id="GrowsBy">GrowsBy</b> : <a href="../../machine/ExchangeSpecs/index.html#Place">Place</a> → <a href="../../machine/ExchangeSpecs/index.html#Exchange">Exchange</a> → (Kind → List ℕ) → (Kind → List ℕ) → Type 0
<a href="../../machine/ExchangeSpecs/index.html#GrowsBy">GrowsBy</a> place (<a href="../../machine/ExchangeSpecs/index.html#Permission">Permission</a> question) <a href="../../machine/StateSpecs/index.html#sizes">sizes</a> sizes&#x27; =
    <a href="../../machine/ExchangeSpecs/index.html#GrowsAsAsked">GrowsAsAsked</a> place question (<a href="../../machine/StateSpecs/index.html#sizes">sizes</a> question.kind) (sizes&#x27; question.kind)
    × ((kind : Kind) → kind ≢ question.kind → sizes&#x27; kind ≡ <a href="../../machine/StateSpecs/index.html#sizes">sizes</a> kind)
<a href="../../machine/ExchangeSpecs/index.html#GrowsBy">GrowsBy</a> place <a href="../../machine/ExchangeSpecs/index.html#exchange">exchange</a> <a href="../../machine/StateSpecs/index.html#sizes">sizes</a> sizes&#x27; = <a href="../../machine/ExchangeSpecs/index.html#NothingGrows">NothingGrows</a> <a href="../../machine/StateSpecs/index.html#sizes">sizes</a> sizes&#x27;

-- the bytes of one of a kind, as they are paid for
abbrev pub <b id="bytes_of_one">bytes_of_one</b> : Kind → ℕ
<a href="../../machine/ExchangeSpecs/index.html#bytes_of_one">bytes_of_one</a> Bytes = 1
<a href="../../machine/ExchangeSpecs/index.html#bytes_of_one">bytes_of_one</a> Elements = 4

-- what a meter is due for the growth that a question asks for
abbrev pub <b id="growth_due">growth_due</b> : <a href="../../meter/MeterSpecs/index.html#Meter">Meter</a> → <a href="../../meter/LimiterSpecs/index.html#Question">Question</a> → ℕ
<a href="../../machine/ExchangeSpecs/index.html#growth_due">growth_due</a> m q = <a href="../../meter/MeterSpecs/index.html#due">due</a> m (λ costs. <a href="../../meter/MeterSpecs/index.html#copy_cost">copy_cost</a> costs (q.desired - q.current) (<a href="../../machine/ExchangeSpecs/index.html#bytes_of_one">bytes_of_one</a> q.kind))

-- what a failed growth is charged of a price: memory is refused after it was paid, each other cause is found before
abbrev pub <b id="failed_charge">failed_charge</b> : <a href="../../meter/LimiterSpecs/index.html#Failure">Failure</a> → ℕ → ℕ
<a href="../../machine/ExchangeSpecs/index.html#failed_charge">failed_charge</a> (<a href="../../meter/LimiterSpecs/index.html#MemoryFailure">MemoryFailure</a> memory_error.OutOfSystemMemory) price = price
<a href="../../machine/ExchangeSpecs/index.html#failed_charge">failed_charge</a> (<a href="../../meter/LimiterSpecs/index.html#TableFailure">TableFailure</a> table_error.OutOfSystemMemory) price = price
<a href="../../machine/ExchangeSpecs/index.html#failed_charge">failed_charge</a> failure price = 0

-- what a growth is charged by its exchange: nothing before a permission, and its price where it stands
abbrev pub <b id="growth_charge">growth_charge</b> : <a href="../../machine/ExchangeSpecs/index.html#Exchange">Exchange</a> → <a href="../../meter/MeterSpecs/index.html#Meter">Meter</a> → ℕ
<a href="../../machine/ExchangeSpecs/index.html#growth_charge">growth_charge</a> (<a href="../../machine/ExchangeSpecs/index.html#Permission">Permission</a> question) m = <a href="../../machine/ExchangeSpecs/index.html#growth_due">growth_due</a> m question
<a href="../../machine/ExchangeSpecs/index.html#growth_charge">growth_charge</a> (<a href="../../machine/ExchangeSpecs/index.html#Notice">Notice</a> question failure notice_answer) m = <a href="../../machine/ExchangeSpecs/index.html#failed_charge">failed_charge</a> failure (<a href="../../machine/ExchangeSpecs/index.html#growth_due">growth_due</a> m question)
<a href="../../machine/ExchangeSpecs/index.html#growth_charge">growth_charge</a> <a href="../../machine/ExchangeSpecs/index.html#exchange">exchange</a> m = 0

-- What tools/generate writes begins.
-- how many elements a call pays for that writes over a range of a table: an initialization by no item pays for none
abbrev pub <b id="elements_paid">elements_paid</b> : Call → Option ℕ
<a href="../../machine/ExchangeSpecs/index.html#elements_paid">elements_paid</a> (call.InitTable table segment dst src len) = if nat_eq len 0 then None else Some len
<a href="../../machine/ExchangeSpecs/index.html#elements_paid">elements_paid</a> (call.CopyTable dst_table dst src_table src len) = Some len
<a href="../../machine/ExchangeSpecs/index.html#elements_paid">elements_paid</a> (call.FillTable table dst value len) = Some len
<a href="../../machine/ExchangeSpecs/index.html#elements_paid">elements_paid</a> call = None

-- the price of what a call writes over a range, if it has one
abbrev pub <b id="writing_price">writing_price</b> : Call → Option (CustomFuelCosts → ℕ)
<a href="../../machine/ExchangeSpecs/index.html#writing_price">writing_price</a> (call.FillMemory memory dst value len) = Some (<a href="../../store/WriteSpecs/index.html#item_price">item_price</a> 1 len)
<a href="../../machine/ExchangeSpecs/index.html#writing_price">writing_price</a> (call.CopyMemory dst_memory dst src_memory src len) = Some (<a href="../../store/WriteSpecs/index.html#item_price">item_price</a> 1 len)
<a href="../../machine/ExchangeSpecs/index.html#writing_price">writing_price</a> (call.InitMemory memory segment dst src len) = Some (<a href="../../store/WriteSpecs/index.html#item_price">item_price</a> 1 len)
<a href="../../machine/ExchangeSpecs/index.html#writing_price">writing_price</a> call = option_map <a href="../../store/TableSpecs/index.html#element_price">table.element_price</a> (<a href="../../machine/ExchangeSpecs/index.html#elements_paid">elements_paid</a> call)

-- What tools/generate writes ends.

-- what is charged for what is written, by its price and the reply: nothing where it is refused
abbrev pub <b id="writing_charge">writing_charge</b> : <a href="../../meter/MeterSpecs/index.html#Meter">Meter</a> → Option (CustomFuelCosts → ℕ) → Reply → ℕ
<a href="../../machine/ExchangeSpecs/index.html#writing_charge">writing_charge</a> m price Done = <a href="../../meter/AttemptSpecs/index.html#optional_due">optional_due</a> (Some m) price
<a href="../../machine/ExchangeSpecs/index.html#writing_charge">writing_charge</a> m price reply = 0

-- what a turn is charged: what its call writes over a range, where it lets nothing grow; nothing for a creation; and
-- what its exchange says for a growth
abbrev pub <b id="charge_at">charge_at</b> : <a href="../../machine/ExchangeSpecs/index.html#Place">Place</a> → <a href="../../machine/ExchangeSpecs/index.html#Exchange">Exchange</a> → <a href="../../meter/MeterSpecs/index.html#Meter">Meter</a> → ℕ → ℕ
<a href="../../machine/ExchangeSpecs/index.html#charge_at">charge_at</a> <a href="../../machine/ExchangeSpecs/index.html#Nowhere">Nowhere</a> <a href="../../machine/ExchangeSpecs/index.html#exchange">exchange</a> m writing = writing
<a href="../../machine/ExchangeSpecs/index.html#charge_at">charge_at</a> <a href="../../machine/ExchangeSpecs/index.html#New">New</a> <a href="../../machine/ExchangeSpecs/index.html#exchange">exchange</a> m writing = 0
<a href="../../machine/ExchangeSpecs/index.html#charge_at">charge_at</a> (<a href="../../machine/ExchangeSpecs/index.html#At">At</a> k) <a href="../../machine/ExchangeSpecs/index.html#exchange">exchange</a> m writing = <a href="../../machine/ExchangeSpecs/index.html#growth_charge">growth_charge</a> <a href="../../machine/ExchangeSpecs/index.html#exchange">exchange</a> m

-- what passes between a machine and its limiter in a turn, from one world to the next: what is asked is the question of
-- the call, a size has grown by it, and the charge is what it allows and is taken of the meter
pub record <b id="Exchanges">Exchanges</b> {S : Type 0} (rules : <a href="../../meter/LimiterSpecs/index.html#Rules">Rules</a> S) (w : <a href="../../machine/StateSpecs/index.html#World">World</a> S) (turn : <a href="../../machine/StateSpecs/index.html#Turn">Turn</a>) (w&#x27; : <a href="../../machine/StateSpecs/index.html#World">World</a> S) : Type 0 where
  pub <b id="exchange">exchange</b> : <a href="../../machine/ExchangeSpecs/index.html#Exchange">Exchange</a>
  pub <b id="asks">asks</b> : <a href="../../machine/ExchangeSpecs/index.html#AsksFor">AsksFor</a> (<a href="../../machine/ExchangeSpecs/index.html#question_of">question_of</a> w.state turn.call) <a href="../../machine/ExchangeSpecs/index.html#exchange">exchange</a> turn.reply
  pub <b id="passes">passes</b> : <a href="../../machine/ExchangeSpecs/index.html#Passes">Passes</a> rules w.limiter <a href="../../machine/ExchangeSpecs/index.html#exchange">exchange</a> w&#x27;.limiter
  pub <b id="replies">replies</b> : <a href="../../machine/ExchangeSpecs/index.html#RepliesTo">RepliesTo</a> <a href="../../machine/ExchangeSpecs/index.html#exchange">exchange</a> turn.reply
  pub <b id="grows">grows</b> : <a href="../../machine/ExchangeSpecs/index.html#GrowsBy">GrowsBy</a> (<a href="../../machine/ExchangeSpecs/index.html#place_of">place_of</a> turn.call) <a href="../../machine/ExchangeSpecs/index.html#exchange">exchange</a> (<a href="../../machine/StateSpecs/index.html#sizes">sizes</a> w.state) (<a href="../../machine/StateSpecs/index.html#sizes">sizes</a> w&#x27;.state)
  pub <b id="charged">charged</b> : turn.charge
      ≡ <a href="../../machine/ExchangeSpecs/index.html#charge_at">charge_at</a> (<a href="../../machine/ExchangeSpecs/index.html#place_of">place_of</a> turn.call) <a href="../../machine/ExchangeSpecs/index.html#exchange">exchange</a> w.state.<a href="../../machine/ExchangeSpecs/index.html#meter">meter</a> (<a href="../../machine/ExchangeSpecs/index.html#writing_charge">writing_charge</a> w.state.<a href="../../machine/ExchangeSpecs/index.html#meter">meter</a> (<a href="../../machine/ExchangeSpecs/index.html#writing_price">writing_price</a> turn.call)
      turn.reply)
  pub <b id="meter">meter</b> : <a href="../../machine/AccountSpecs/index.html#ChangesMeter">ChangesMeter</a> turn.call w.state.<a href="../../machine/ExchangeSpecs/index.html#meter">meter</a> turn.charge w&#x27;.state.meter
</code></pre>
"####]
    pub mod ExchangeSpecs {}
    #[doc = r####"What holds of all turns and runs of a machine, and of its memories in lent regions: the statements of its laws, and what a refused turn keeps.

<pre><code>use Rattle.std.specs.Prelude.{◌≡◌, ◌⊎◌, ◌&lt;◌, ◌≤◌, ◌+◌, ◌*◌, ◌++◌, ℕ, true, Option, Some, Result, Ok, List, length, map, All}
use Rattle.wasmi_meter.specs.declared.{quota.Holdings.Holdings, error.MemoryError.MemoryError, quota.Quota.Quota}
use Rattle.wasmi_meter.specs.Meter.{<a href="../../meter/MeterSpecs/index.html#PaysCharge">PaysCharge</a>}
use Rattle.wasmi_meter.specs.Limiter.{<a href="../../meter/LimiterSpecs/index.html#Question">Question</a>, <a href="../../meter/LimiterSpecs/index.html#Rules">Rules</a>, <a href="../../meter/LimiterSpecs/index.html#Failure">Failure</a>, <a href="../../meter/LimiterSpecs/index.html#NoticeAnswer">NoticeAnswer</a>, <a href="../../meter/LimiterSpecs/index.html#optional_rules">optional_rules</a>}
use Rattle.wasmi_meter.specs.Attempt.{<a href="../../meter/AttemptSpecs/index.html#MeteredValue">MeteredValue</a>, <a href="../../meter/AttemptSpecs/index.html#optional_due">optional_due</a>, <a href="../../meter/AttemptSpecs/index.html#covers">covers</a>}
use Rattle.wasmi_meter.specs.Capped.{<a href="../../meter/CappedSpecs/index.html#SameCaps">SameCaps</a>, <a href="../../meter/CappedSpecs/index.html#IsWithinCaps">IsWithinCaps</a>, <a href="../../meter/CappedSpecs/index.html#quota_rules">quota_rules</a>}
use Rattle.wasmi_store.specs.Buffer.{<a href="../../store/BufferSpecs/index.html#Lent">Lent</a>, <a href="../../store/BufferSpecs/index.html#fits_room">fits_room</a>}
use Rattle.wasmi_store.specs.Growth.{<a href="../../store/GrowthSpecs/index.html#IsDenied">IsDenied</a>}
use Rattle.wasmi_store.specs.Memory.{<a href="../../store/MemorySpecs/index.html#MemoryTypeValue">MemoryTypeValue</a>, <a href="../../store/MemorySpecs/index.html#page_bytes">page_bytes</a>, <a href="../../store/MemorySpecs/index.html#minimum_bytes">minimum_bytes</a>, <a href="../../store/MemorySpecs/index.html#in_bounds">in_bounds</a>, <a href="../../store/MemorySpecs/index.html#MemoryValue">MemoryValue</a>, <a href="../../store/MemorySpecs/index.html#pages_of">pages_of</a>, <a href="../../store/MemorySpecs/index.html#growth_of">growth_of</a>, <a href="../../store/MemorySpecs/index.html#GrowsMemory">GrowsMemory</a>}
use Rattle.wasmi_machine.specs.declared.{calls.Call.Call, calls.Reply.Reply}
use Rattle.wasmi_machine.specs.declared.calls.Call.TheVariants.{NewMemory, NewLentMemory}
use Rattle.wasmi_machine.specs.State.{<a href="../../machine/StateSpecs/index.html#State">State</a>, <a href="../../machine/StateSpecs/index.html#World">World</a>, <a href="../../machine/StateSpecs/index.html#Turn">Turn</a>, <a href="../../machine/StateSpecs/index.html#world">world</a>, <a href="../../machine/StateSpecs/index.html#IsValid">IsValid</a>, <a href="../../machine/StateSpecs/index.html#IsValidCall">IsValidCall</a>, <a href="../../machine/StateSpecs/index.html#HoldsTotals">HoldsTotals</a>}
pub use Rattle.wasmi_machine.specs.State.{<a href="../../machine/StateSpecs/index.html#IsRefusal">IsRefusal</a>}
use Rattle.wasmi_machine.specs.Steps.{<a href="../../machine/StepsSpecs/index.html#Step">Step</a>, <a href="../../machine/StepsSpecs/index.html#Sequence">Sequence</a>, <a href="../../machine/StepsSpecs/index.html#Run">Run</a>, <a href="../../machine/StepsSpecs/index.html#IsRunOf">IsRunOf</a>}
use Rattle.wasmi_machine.specs.Account.{<a href="../../machine/AccountSpecs/index.html#opened">opened</a>, <a href="../../machine/AccountSpecs/index.html#account_after">account_after</a>, <a href="../../machine/AccountSpecs/index.html#Balances">Balances</a>, <a href="../../machine/AccountSpecs/index.html#SetsNoFuel">SetsNoFuel</a>, <a href="../../machine/AccountSpecs/index.html#IsBounded">IsBounded</a>, <a href="../../machine/AccountSpecs/index.html#IsSpent">IsSpent</a>}
use Rattle.wasmi_machine.specs.Exchange.{<a href="../../machine/ExchangeSpecs/index.html#Notice">Notice</a>, <a href="../../machine/ExchangeSpecs/index.html#Passes">Passes</a>, <a href="../../machine/ExchangeSpecs/index.html#At">At</a>, <a href="../../machine/ExchangeSpecs/index.html#place_of">place_of</a>, <a href="../../machine/ExchangeSpecs/index.html#question_of">question_of</a>, <a href="../../machine/ExchangeSpecs/index.html#failed_reply">failed_reply</a>, <a href="../../machine/ExchangeSpecs/index.html#growth_due">growth_due</a>, <a href="../../machine/ExchangeSpecs/index.html#Exchanges">Exchanges</a>}
use Rattle.wasmi_machine.specs.MemoryEffects.{<a href="../../machine/MemoryEffectsSpecs/index.html#spare_after">spare_after</a>}
use Rattle.wasmi_machine.specs.Determinism.{<a href="../../machine/DeterminismSpecs/index.html#IsDeterministic">IsDeterministic</a>, <a href="../../machine/DeterminismSpecs/index.html#AcceptsNotices">AcceptsNotices</a>, <a href="../../machine/DeterminismSpecs/index.html#IsOtherFailure">IsOtherFailure</a>, <a href="../../machine/DeterminismSpecs/index.html#never_out_of_memory">never_out_of_memory</a>, <a href="../../machine/DeterminismSpecs/index.html#IsNotOutOfMemory">IsNotOutOfMemory</a>, <a href="../../machine/DeterminismSpecs/index.html#AreNotOutOfMemory">AreNotOutOfMemory</a>, <a href="../../machine/DeterminismSpecs/index.html#permitting">permitting</a>, <a href="../../machine/DeterminismSpecs/index.html#TellsNoDenial">TellsNoDenial</a>}
use Rattle.wasmi_machine.specs.LentMemory.{<a href="../../machine/LentMemorySpecs/index.html#owned_world">owned_world</a>, <a href="../../machine/LentMemorySpecs/index.html#unlent_world">unlent_world</a>, <a href="../../machine/LentMemorySpecs/index.html#RunInRegions">RunInRegions</a>}

-- all but the meter and the spare region is the same
abbrev pub <b id="SameContents">SameContents</b> : <a href="../../machine/StateSpecs/index.html#State">State</a> → <a href="../../machine/StateSpecs/index.html#State">State</a> → Type 0
<a href="../../machine/LawsSpecs/index.html#SameContents">SameContents</a> s s&#x27; = s&#x27; ≡ record s { <a href="../../machine/LawsSpecs/index.html#meter">meter</a> = s&#x27;.<a href="../../machine/LawsSpecs/index.html#meter">meter</a>; <a href="../../machine/LawsSpecs/index.html#spare">spare</a> = s&#x27;.<a href="../../machine/LawsSpecs/index.html#spare">spare</a> }

-- the spare region stays, unless a memory was to be made in it: then it is used up if there was room for a slot
abbrev pub <b id="KeepsSpare">KeepsSpare</b> : Call → Reply → <a href="../../machine/StateSpecs/index.html#State">State</a> → <a href="../../machine/StateSpecs/index.html#State">State</a> → Type 0
<a href="../../machine/LawsSpecs/index.html#KeepsSpare">KeepsSpare</a> (NewLentMemory ty) reply s s&#x27; = s&#x27;.<a href="../../machine/LawsSpecs/index.html#spare">spare</a> ≡ <a href="../../machine/MemoryEffectsSpecs/index.html#spare_after">spare_after</a> reply s.spare
<a href="../../machine/LawsSpecs/index.html#KeepsSpare">KeepsSpare</a> call reply s s&#x27; = s&#x27;.<a href="../../machine/LawsSpecs/index.html#spare">spare</a> ≡ s.spare

-- a growth fails after its charge: it was permitted and charged, and then memory was refused, of which the limiter was
-- notified; the meter has its price less
pub record <b id="FailsAfterCharge">FailsAfterCharge</b> {S : Type 0} (rules : <a href="../../meter/LimiterSpecs/index.html#Rules">Rules</a> S) (w : <a href="../../machine/StateSpecs/index.html#World">World</a> S) (turn : <a href="../../machine/StateSpecs/index.html#Turn">Turn</a>) (w&#x27; : <a href="../../machine/StateSpecs/index.html#World">World</a> S) : Type 0 where
  pub <b id="index">index</b> : ℕ
  pub <b id="grows">grows</b> : <a href="../../machine/ExchangeSpecs/index.html#place_of">place_of</a> turn.call ≡ <a href="../../machine/ExchangeSpecs/index.html#At">At</a> <a href="../../machine/LawsSpecs/index.html#index">index</a>
  pub <b id="question">question</b> : <a href="../../meter/LimiterSpecs/index.html#Question">Question</a>
  pub <b id="asks">asks</b> : <a href="../../machine/ExchangeSpecs/index.html#question_of">question_of</a> w.state turn.call ≡ Some <a href="../../machine/LawsSpecs/index.html#question">question</a>
  pub <b id="failure">failure</b> : <a href="../../meter/LimiterSpecs/index.html#Failure">Failure</a>
  pub <b id="notice_answer">notice_answer</b> : <a href="../../meter/LimiterSpecs/index.html#NoticeAnswer">NoticeAnswer</a>
  pub <b id="wants">wants</b> : <a href="../../machine/DeterminismSpecs/index.html#IsOtherFailure">IsOtherFailure</a> <a href="../../machine/LawsSpecs/index.html#failure">failure</a> → ⊥
  pub <b id="tells">tells</b> : <a href="../../machine/ExchangeSpecs/index.html#Passes">Passes</a> rules w.limiter (<a href="../../machine/ExchangeSpecs/index.html#Notice">Notice</a> <a href="../../machine/LawsSpecs/index.html#question">question</a> <a href="../../machine/LawsSpecs/index.html#failure">failure</a> <a href="../../machine/LawsSpecs/index.html#notice_answer">notice_answer</a>) w&#x27;.limiter
  pub <b id="replies">replies</b> : turn.reply ≡ <a href="../../machine/ExchangeSpecs/index.html#failed_reply">failed_reply</a> <a href="../../machine/LawsSpecs/index.html#failure">failure</a> <a href="../../machine/LawsSpecs/index.html#notice_answer">notice_answer</a>
  pub <b id="meter">meter</b> : <a href="../../meter/MeterSpecs/index.html#PaysCharge">PaysCharge</a> w.state.<a href="../../machine/LawsSpecs/index.html#meter">meter</a> (<a href="../../machine/ExchangeSpecs/index.html#growth_due">growth_due</a> w.state.<a href="../../machine/LawsSpecs/index.html#meter">meter</a> <a href="../../machine/LawsSpecs/index.html#question">question</a>) w&#x27;.state.meter

-- the meter stays, unless a growth fails after its charge
abbrev pub <b id="KeepsMeter">KeepsMeter</b> : {S : Type 0} → <a href="../../meter/LimiterSpecs/index.html#Rules">Rules</a> S → <a href="../../machine/StateSpecs/index.html#World">World</a> S → <a href="../../machine/StateSpecs/index.html#Turn">Turn</a> → <a href="../../machine/StateSpecs/index.html#World">World</a> S → Type 0
<a href="../../machine/LawsSpecs/index.html#KeepsMeter">KeepsMeter</a> rules w turn w&#x27; = (w&#x27;.state.meter ≡ w.state.<a href="../../machine/LawsSpecs/index.html#meter">meter</a>) ⊎ <a href="../../machine/LawsSpecs/index.html#FailsAfterCharge">FailsAfterCharge</a> rules w turn w&#x27;

-- what a refused turn keeps
pub record <b id="Keeps">Keeps</b> {S : Type 0} (rules : <a href="../../meter/LimiterSpecs/index.html#Rules">Rules</a> S) (w : <a href="../../machine/StateSpecs/index.html#World">World</a> S) (turn : <a href="../../machine/StateSpecs/index.html#Turn">Turn</a>) (w&#x27; : <a href="../../machine/StateSpecs/index.html#World">World</a> S) : Type 0 where
  pub <b id="contents">contents</b> : <a href="../../machine/LawsSpecs/index.html#SameContents">SameContents</a> w.state w&#x27;.state
  pub <b id="spare">spare</b> : <a href="../../machine/LawsSpecs/index.html#KeepsSpare">KeepsSpare</a> turn.call turn.reply w.state w&#x27;.state
  pub <b id="meter">meter</b> : <a href="../../machine/LawsSpecs/index.html#KeepsMeter">KeepsMeter</a> rules w turn w&#x27;

module _ {S : Type 0} (rules : <a href="../../meter/LimiterSpecs/index.html#Rules">Rules</a> S) where
  -- in each turn that is refused the contents stay; the meter, unless it is a growth that fails after its charge; and
  -- the spare region, unless a memory was to be made in it
  abbrev pub <b id="RefusalsKeepContents">RefusalsKeepContents</b> : Type 0
  <a href="../../machine/LawsSpecs/index.html#RefusalsKeepContents">RefusalsKeepContents</a> =
      (w : <a href="../../machine/StateSpecs/index.html#World">World</a> S) (turn : <a href="../../machine/StateSpecs/index.html#Turn">Turn</a>) (w&#x27; : <a href="../../machine/StateSpecs/index.html#World">World</a> S) → <a href="../../machine/StepsSpecs/index.html#Step">Step</a> rules w turn w&#x27; → <a href="../../machine/StateSpecs/index.html#IsRefusal">IsRefusal</a> turn.reply → <a href="../../machine/LawsSpecs/index.html#Keeps">Keeps</a> rules w turn w&#x27;

  -- in a run each turn that is refused keeps what a refused turn keeps (`Keeps`)
  abbrev pub <b id="RefusalsInRunsKeepContents">RefusalsInRunsKeepContents</b> : Type 0
  <a href="../../machine/LawsSpecs/index.html#RefusalsInRunsKeepContents">RefusalsInRunsKeepContents</a> = (w : <a href="../../machine/StateSpecs/index.html#World">World</a> S) (turns : List <a href="../../machine/StateSpecs/index.html#Turn">Turn</a>) (w&#x27; : <a href="../../machine/StateSpecs/index.html#World">World</a> S) → <a href="../../machine/StepsSpecs/index.html#Run">Run</a> rules w turns w&#x27;
      → <a href="../../machine/StepsSpecs/index.html#Sequence">Sequence</a> (λ v turn v&#x27;. <a href="../../machine/StepsSpecs/index.html#Step">Step</a> rules v turn v&#x27; × (<a href="../../machine/StateSpecs/index.html#IsRefusal">IsRefusal</a> turn.reply → <a href="../../machine/LawsSpecs/index.html#Keeps">Keeps</a> rules v turn v&#x27;)) w turns w&#x27;

  -- a run in which each turn is refused keeps the contents
  abbrev pub <b id="RefusedRunsKeepContents">RefusedRunsKeepContents</b> : Type 0
  <a href="../../machine/LawsSpecs/index.html#RefusedRunsKeepContents">RefusedRunsKeepContents</a> =
      (w : <a href="../../machine/StateSpecs/index.html#World">World</a> S) (turns : List <a href="../../machine/StateSpecs/index.html#Turn">Turn</a>) (w&#x27; : <a href="../../machine/StateSpecs/index.html#World">World</a> S) → <a href="../../machine/StepsSpecs/index.html#Run">Run</a> rules w turns w&#x27; → All <a href="../../machine/StateSpecs/index.html#IsRefusal">IsRefusal</a> (map Turn.reply turns)
      → <a href="../../machine/LawsSpecs/index.html#SameContents">SameContents</a> w.state w&#x27;.state

  -- in each turn the limiter is asked what the call asks, or nothing if it asks nothing; a permission is followed by
  -- exactly the growth that was asked for, or by just one notice, and a denial by neither; a growth is charged only
  -- after a permission, and then its price; what is charged is taken from the meter
  abbrev pub <b id="GrowsAsPermitted">GrowsAsPermitted</b> : Type 0
  <a href="../../machine/LawsSpecs/index.html#GrowsAsPermitted">GrowsAsPermitted</a> = (w : <a href="../../machine/StateSpecs/index.html#World">World</a> S) (turn : <a href="../../machine/StateSpecs/index.html#Turn">Turn</a>) (w&#x27; : <a href="../../machine/StateSpecs/index.html#World">World</a> S) → <a href="../../machine/StepsSpecs/index.html#Step">Step</a> rules w turn w&#x27; → <a href="../../machine/ExchangeSpecs/index.html#Exchanges">Exchanges</a> rules w turn w&#x27;

  -- in a run each turn asks, grows and is charged as a step does (`Exchanges`)
  abbrev pub <b id="RunsGrowAsPermitted">RunsGrowAsPermitted</b> : Type 0
  <a href="../../machine/LawsSpecs/index.html#RunsGrowAsPermitted">RunsGrowAsPermitted</a> = (w : <a href="../../machine/StateSpecs/index.html#World">World</a> S) (turns : List <a href="../../machine/StateSpecs/index.html#Turn">Turn</a>) (w&#x27; : <a href="../../machine/StateSpecs/index.html#World">World</a> S) → <a href="../../machine/StepsSpecs/index.html#Run">Run</a> rules w turns w&#x27;
      → <a href="../../machine/StepsSpecs/index.html#Sequence">Sequence</a> (λ v turn v&#x27;. <a href="../../machine/StepsSpecs/index.html#Step">Step</a> rules v turn v&#x27; × <a href="../../machine/ExchangeSpecs/index.html#Exchanges">Exchanges</a> rules v turn v&#x27;) w turns w&#x27;

  -- a run in which no reply reports a denial is one in which each question was permitted
  abbrev pub <b id="RepliesPermit">RepliesPermit</b> : Type 0
  <a href="../../machine/LawsSpecs/index.html#RepliesPermit">RepliesPermit</a> = (w : <a href="../../machine/StateSpecs/index.html#World">World</a> S) (turns : List <a href="../../machine/StateSpecs/index.html#Turn">Turn</a>) (w&#x27; : <a href="../../machine/StateSpecs/index.html#World">World</a> S) → All <a href="../../machine/DeterminismSpecs/index.html#TellsNoDenial">TellsNoDenial</a> (map Turn.reply turns)
      → <a href="../../machine/StepsSpecs/index.html#Run">Run</a> rules w turns w&#x27; → <a href="../../machine/StepsSpecs/index.html#Run">Run</a> (<a href="../../machine/DeterminismSpecs/index.html#permitting">permitting</a> rules) w turns w&#x27;

  -- a run of calls whose types are valid leads from a valid state to a valid one
  abbrev pub <b id="RunsKeepValidity">RunsKeepValidity</b> : Type 0
  <a href="../../machine/LawsSpecs/index.html#RunsKeepValidity">RunsKeepValidity</a> =
      (w : <a href="../../machine/StateSpecs/index.html#World">World</a> S) (turns : List <a href="../../machine/StateSpecs/index.html#Turn">Turn</a>) (w&#x27; : <a href="../../machine/StateSpecs/index.html#World">World</a> S) → <a href="../../machine/StateSpecs/index.html#IsValid">IsValid</a> w.state → All <a href="../../machine/StateSpecs/index.html#IsValidCall">IsValidCall</a> (map Turn.call turns)
      → <a href="../../machine/StepsSpecs/index.html#Run">Run</a> rules w turns w&#x27; → <a href="../../machine/StateSpecs/index.html#IsValid">IsValid</a> w&#x27;.state

  -- while metering is on, what is left and the charges since the fuel was set last, or since the start, are what was
  -- set then, or left at the start
  abbrev pub <b id="FuelBalances">FuelBalances</b> : Type 0
  <a href="../../machine/LawsSpecs/index.html#FuelBalances">FuelBalances</a> = (w : <a href="../../machine/StateSpecs/index.html#World">World</a> S) (left : ℕ) → w.state.meter.left ≡ Some left → (turns : List <a href="../../machine/StateSpecs/index.html#Turn">Turn</a>) (w&#x27; : <a href="../../machine/StateSpecs/index.html#World">World</a> S)
      → <a href="../../machine/StepsSpecs/index.html#Run">Run</a> rules w turns w&#x27; → <a href="../../machine/AccountSpecs/index.html#Balances">Balances</a> (<a href="../../machine/AccountSpecs/index.html#account_after">account_after</a> (<a href="../../machine/AccountSpecs/index.html#opened">opened</a> left) turns) w&#x27;.state.meter

  -- while metering is on at a rate above 0, the bytes that a run writes by growing and copying are bounded by the fuel
  -- that is charged for them, and so by all the fuel that there was
  abbrev pub <b id="FuelBoundsWriting">FuelBoundsWriting</b> : Type 0
  <a href="../../machine/LawsSpecs/index.html#FuelBoundsWriting">FuelBoundsWriting</a> = (w : <a href="../../machine/StateSpecs/index.html#World">World</a> S) (left : ℕ) → w.state.meter.left ≡ Some left
      → 0 &lt; w.state.meter.costs.bytes_copied_per_fuel → (turns : List <a href="../../machine/StateSpecs/index.html#Turn">Turn</a>) (w&#x27; : <a href="../../machine/StateSpecs/index.html#World">World</a> S) → <a href="../../machine/StepsSpecs/index.html#Run">Run</a> rules w turns w&#x27;
      → <a href="../../machine/AccountSpecs/index.html#IsBounded">IsBounded</a> w.state.meter.costs.bytes_copied_per_fuel left turns

  -- while metering is on, what calls that don&#x27;t set the fuel were charged is what was left before and isn&#x27;t left after,
  -- and it bounds what they have written
  abbrev pub <b id="ChargesAreSpent">ChargesAreSpent</b> : Type 0
  <a href="../../machine/LawsSpecs/index.html#ChargesAreSpent">ChargesAreSpent</a> = (w : <a href="../../machine/StateSpecs/index.html#World">World</a> S) (left : ℕ) → w.state.meter.left ≡ Some left → (turns : List <a href="../../machine/StateSpecs/index.html#Turn">Turn</a>) (w&#x27; : <a href="../../machine/StateSpecs/index.html#World">World</a> S)
      → <a href="../../machine/StepsSpecs/index.html#Run">Run</a> rules w turns w&#x27; → All <a href="../../machine/AccountSpecs/index.html#SetsNoFuel">SetsNoFuel</a> (map Turn.call turns) → (left&#x27; : ℕ) × (w&#x27;.state.meter.left ≡ Some left&#x27;)
      × <a href="../../machine/AccountSpecs/index.html#IsSpent">IsSpent</a> w.state.meter.costs.bytes_copied_per_fuel left left&#x27; turns

  -- turns of a run, and those of a run from where it ends, are one run
  abbrev pub <b id="RunsJoin">RunsJoin</b> : Type 0
  <a href="../../machine/LawsSpecs/index.html#RunsJoin">RunsJoin</a> = (u : <a href="../../machine/StateSpecs/index.html#World">World</a> S) (turns : List <a href="../../machine/StateSpecs/index.html#Turn">Turn</a>) (v : <a href="../../machine/StateSpecs/index.html#World">World</a> S) (turns&#x27; : List <a href="../../machine/StateSpecs/index.html#Turn">Turn</a>) (w : <a href="../../machine/StateSpecs/index.html#World">World</a> S) → <a href="../../machine/StepsSpecs/index.html#Run">Run</a> rules u turns v
      → <a href="../../machine/StepsSpecs/index.html#Run">Run</a> rules v turns&#x27; w → <a href="../../machine/StepsSpecs/index.html#Run">Run</a> rules u (turns ++ turns&#x27;) w

  -- a run of calls, and a run of calls from where it ends, are a run of all these calls, with the replies in turn
  abbrev pub <b id="RunsOfCallsJoin">RunsOfCallsJoin</b> : Type 0
  <a href="../../machine/LawsSpecs/index.html#RunsOfCallsJoin">RunsOfCallsJoin</a> =
      (calls calls&#x27; : List Call) (u v w : <a href="../../machine/StateSpecs/index.html#World">World</a> S) (<a href="../../machine/LawsSpecs/index.html#replies">replies</a> replies&#x27; : List Reply) → <a href="../../machine/StepsSpecs/index.html#IsRunOf">IsRunOf</a> rules calls u <a href="../../machine/LawsSpecs/index.html#replies">replies</a> v
      → <a href="../../machine/StepsSpecs/index.html#IsRunOf">IsRunOf</a> rules calls&#x27; v replies&#x27; w → <a href="../../machine/StepsSpecs/index.html#IsRunOf">IsRunOf</a> rules (calls ++ calls&#x27;) u (<a href="../../machine/LawsSpecs/index.html#replies">replies</a> ++ replies&#x27;) w

  -- a run that makes no memory in a region and grows none past its own is one of the machine with owned memories
  abbrev pub <b id="LentRunsAreOwned">LentRunsAreOwned</b> : Type 0
  <a href="../../machine/LawsSpecs/index.html#LentRunsAreOwned">LentRunsAreOwned</a> = (w : <a href="../../machine/StateSpecs/index.html#World">World</a> S) (turns : List <a href="../../machine/StateSpecs/index.html#Turn">Turn</a>) (w&#x27; : <a href="../../machine/StateSpecs/index.html#World">World</a> S) → <a href="../../machine/LentMemorySpecs/index.html#RunInRegions">RunInRegions</a> rules w turns w&#x27;
      → <a href="../../machine/StepsSpecs/index.html#Run">Run</a> rules (<a href="../../machine/LentMemorySpecs/index.html#owned_world">owned_world</a> w) turns (<a href="../../machine/LentMemorySpecs/index.html#owned_world">owned_world</a> w&#x27;)

  -- a creation in a spare region of at least the minimum is a creation of a memory of its own
  abbrev pub <b id="LentCreationsAreOwned">LentCreationsAreOwned</b> : Type 0
  <a href="../../machine/LawsSpecs/index.html#LentCreationsAreOwned">LentCreationsAreOwned</a> = (w : <a href="../../machine/StateSpecs/index.html#World">World</a> S) (turn : <a href="../../machine/StateSpecs/index.html#Turn">Turn</a>) (w&#x27; : <a href="../../machine/StateSpecs/index.html#World">World</a> S) (ty : <a href="../../store/MemorySpecs/index.html#MemoryTypeValue">MemoryTypeValue</a>) (region : List ℕ)
      → turn.call ≡ NewLentMemory ty → w.state.<a href="../../machine/LawsSpecs/index.html#spare">spare</a> ≡ Some region → <a href="../../store/MemorySpecs/index.html#minimum_bytes">minimum_bytes</a> ty ≤ length region
      → <a href="../../machine/StepsSpecs/index.html#Step">Step</a> rules w turn w&#x27; → <a href="../../machine/StepsSpecs/index.html#Step">Step</a> rules (<a href="../../machine/LentMemorySpecs/index.html#unlent_world">unlent_world</a> w) (record turn { call = NewMemory ty }) (<a href="../../machine/LentMemorySpecs/index.html#unlent_world">unlent_world</a> w&#x27;)

  -- a growth of a lent memory that its type and region have place for, and that can be paid, the limiter alone refuses
  abbrev pub <b id="LentGrowthsSucceed">LentGrowthsSucceed</b> : Type 0
  <a href="../../machine/LawsSpecs/index.html#LentGrowthsSucceed">LentGrowthsSucceed</a> = (pages : ℕ) (s : <a href="../../meter/AttemptSpecs/index.html#MeteredValue">MeteredValue</a> <a href="../../store/MemorySpecs/index.html#MemoryValue">MemoryValue</a> S) (rest : List ℕ) → s.value.room ≡ <a href="../../store/BufferSpecs/index.html#Lent">Lent</a> rest
      → <a href="../../store/MemorySpecs/index.html#in_bounds">in_bounds</a> s.value.ty (<a href="../../store/MemorySpecs/index.html#pages_of">pages_of</a> s.value + pages) ≡ true
      → <a href="../../store/BufferSpecs/index.html#fits_room">fits_room</a> s.value.room (pages * <a href="../../store/MemorySpecs/index.html#page_bytes">page_bytes</a> s.value.ty.page) ≡ true
      → <a href="../../meter/AttemptSpecs/index.html#covers">covers</a> s.meter (<a href="../../meter/AttemptSpecs/index.html#optional_due">optional_due</a> s.meter (<a href="../../store/MemorySpecs/index.html#growth_of">growth_of</a> s.value pages).price) ≡ true
      → (result : Result ℕ MemoryError) (s&#x27; : <a href="../../meter/AttemptSpecs/index.html#MeteredValue">MeteredValue</a> <a href="../../store/MemorySpecs/index.html#MemoryValue">MemoryValue</a> S) → <a href="../../store/MemorySpecs/index.html#GrowsMemory">GrowsMemory</a> rules pages s result s&#x27;
      → (result ≡ Ok (<a href="../../store/MemorySpecs/index.html#pages_of">pages_of</a> s.value)) ⊎ <a href="../../store/GrowthSpecs/index.html#IsDenied">IsDenied</a> rules (<a href="../../store/MemorySpecs/index.html#growth_of">growth_of</a> s.value pages).<a href="../../machine/LawsSpecs/index.html#question">question</a> s.limiter s&#x27;.limiter

-- if the limiter is deterministic, two runs of one list of calls from one world, in which neither a reply nor a notice
-- says out of memory, are one
abbrev pub <b id="RunsAreOne">RunsAreOne</b> : {L : Type 0} → <a href="../../meter/LimiterSpecs/index.html#Rules">Rules</a> L → Type 0
<a href="../../machine/LawsSpecs/index.html#RunsAreOne">RunsAreOne</a> {L} rules =
    <a href="../../machine/DeterminismSpecs/index.html#IsDeterministic">IsDeterministic</a> rules → (w : <a href="../../machine/StateSpecs/index.html#World">World</a> (Option L)) (turns turns&#x27; : List <a href="../../machine/StateSpecs/index.html#Turn">Turn</a>) (v v&#x27; : <a href="../../machine/StateSpecs/index.html#World">World</a> (Option L))
    → map Turn.call turns ≡ map Turn.call turns&#x27;
    → <a href="../../machine/DeterminismSpecs/index.html#AreNotOutOfMemory">AreNotOutOfMemory</a> turns → <a href="../../machine/DeterminismSpecs/index.html#AreNotOutOfMemory">AreNotOutOfMemory</a> turns&#x27; → <a href="../../machine/StepsSpecs/index.html#Run">Run</a> (<a href="../../machine/DeterminismSpecs/index.html#never_out_of_memory">never_out_of_memory</a> (<a href="../../meter/LimiterSpecs/index.html#optional_rules">optional_rules</a> rules)) w turns v
    → <a href="../../machine/StepsSpecs/index.html#Run">Run</a> (<a href="../../machine/DeterminismSpecs/index.html#never_out_of_memory">never_out_of_memory</a> (<a href="../../meter/LimiterSpecs/index.html#optional_rules">optional_rules</a> rules)) w turns&#x27; v&#x27; → (turns ≡ turns&#x27;) × (v ≡ v&#x27;)

-- if the limiter accepts each notice, a run in which no reply says out of memory is one in which no notice does
abbrev pub <b id="RepliesTell">RepliesTell</b> : {L : Type 0} → <a href="../../meter/LimiterSpecs/index.html#Rules">Rules</a> L → Type 0
<a href="../../machine/LawsSpecs/index.html#RepliesTell">RepliesTell</a> {L} rules =
    <a href="../../machine/DeterminismSpecs/index.html#AcceptsNotices">AcceptsNotices</a> rules → (w : <a href="../../machine/StateSpecs/index.html#World">World</a> (Option L)) (turns : List <a href="../../machine/StateSpecs/index.html#Turn">Turn</a>) (w&#x27; : <a href="../../machine/StateSpecs/index.html#World">World</a> (Option L)) → <a href="../../machine/DeterminismSpecs/index.html#AreNotOutOfMemory">AreNotOutOfMemory</a> turns
    → <a href="../../machine/StepsSpecs/index.html#Run">Run</a> (<a href="../../meter/LimiterSpecs/index.html#optional_rules">optional_rules</a> rules) w turns w&#x27; → <a href="../../machine/StepsSpecs/index.html#Run">Run</a> (<a href="../../machine/DeterminismSpecs/index.html#never_out_of_memory">never_out_of_memory</a> (<a href="../../meter/LimiterSpecs/index.html#optional_rules">optional_rules</a> rules)) w turns w&#x27;

-- if the limiter is deterministic and accepts each notice, two runs of one list of calls from one world, in which no
-- reply says out of memory, have the same replies and end in one world
abbrev pub <b id="RepliesAreOne">RepliesAreOne</b> : {L : Type 0} → <a href="../../meter/LimiterSpecs/index.html#Rules">Rules</a> L → Type 0
<a href="../../machine/LawsSpecs/index.html#RepliesAreOne">RepliesAreOne</a> {L} rules = <a href="../../machine/DeterminismSpecs/index.html#IsDeterministic">IsDeterministic</a> rules → <a href="../../machine/DeterminismSpecs/index.html#AcceptsNotices">AcceptsNotices</a> rules
    → (calls : List Call) (w : <a href="../../machine/StateSpecs/index.html#World">World</a> (Option L)) (<a href="../../machine/LawsSpecs/index.html#replies">replies</a> replies&#x27; : List Reply) (v v&#x27; : <a href="../../machine/StateSpecs/index.html#World">World</a> (Option L))
    → All <a href="../../machine/DeterminismSpecs/index.html#IsNotOutOfMemory">IsNotOutOfMemory</a> <a href="../../machine/LawsSpecs/index.html#replies">replies</a> → All <a href="../../machine/DeterminismSpecs/index.html#IsNotOutOfMemory">IsNotOutOfMemory</a> replies&#x27;
    → <a href="../../machine/StepsSpecs/index.html#IsRunOf">IsRunOf</a> (<a href="../../meter/LimiterSpecs/index.html#optional_rules">optional_rules</a> rules) calls w <a href="../../machine/LawsSpecs/index.html#replies">replies</a> v → <a href="../../machine/StepsSpecs/index.html#IsRunOf">IsRunOf</a> (<a href="../../meter/LimiterSpecs/index.html#optional_rules">optional_rules</a> rules) calls w replies&#x27; v&#x27;
    → (<a href="../../machine/LawsSpecs/index.html#replies">replies</a> ≡ replies&#x27;) × (v ≡ v&#x27;)

-- a limiter that holds the totals before a run is there after it, and holds the totals then
abbrev pub <b id="HoldsTotalsAlways">HoldsTotalsAlways</b> : {L : Type 0} → <a href="../../meter/LimiterSpecs/index.html#Rules">Rules</a> L → (L → Holdings) → Type 0
<a href="../../machine/LawsSpecs/index.html#HoldsTotalsAlways">HoldsTotalsAlways</a> {L} rules holdings = (s : <a href="../../machine/StateSpecs/index.html#State">State</a>) (l : L) → <a href="../../machine/StateSpecs/index.html#HoldsTotals">HoldsTotals</a> (holdings l) s
    → (turns : List <a href="../../machine/StateSpecs/index.html#Turn">Turn</a>) (w&#x27; : <a href="../../machine/StateSpecs/index.html#World">World</a> (Option L)) → <a href="../../machine/StepsSpecs/index.html#Run">Run</a> (<a href="../../meter/LimiterSpecs/index.html#optional_rules">optional_rules</a> rules) (<a href="../../machine/StateSpecs/index.html#world">world</a> s (Some l)) turns w&#x27;
    → (l&#x27; : L) × (w&#x27;.limiter ≡ Some l&#x27;) × <a href="../../machine/StateSpecs/index.html#HoldsTotals">HoldsTotals</a> (holdings l&#x27;) w&#x27;.state

-- a quota that holds at most its caps before a run does so after it, and has the same caps
abbrev pub <b id="QuotasStayWithin">QuotasStayWithin</b> : Type 0
<a href="../../machine/LawsSpecs/index.html#QuotasStayWithin">QuotasStayWithin</a> = (s : <a href="../../machine/StateSpecs/index.html#State">State</a>) (quota : Quota) → <a href="../../meter/CappedSpecs/index.html#IsWithinCaps">IsWithinCaps</a> quota → (turns : List <a href="../../machine/StateSpecs/index.html#Turn">Turn</a>) (w&#x27; : <a href="../../machine/StateSpecs/index.html#World">World</a> (Option Quota))
    → <a href="../../machine/StepsSpecs/index.html#Run">Run</a> (<a href="../../meter/LimiterSpecs/index.html#optional_rules">optional_rules</a> <a href="../../meter/CappedSpecs/index.html#quota_rules">quota_rules</a>) (<a href="../../machine/StateSpecs/index.html#world">world</a> s (Some quota)) turns w&#x27;
    → (quota&#x27; : Quota) × (w&#x27;.limiter ≡ Some quota&#x27;) × <a href="../../meter/CappedSpecs/index.html#IsWithinCaps">IsWithinCaps</a> quota&#x27; × <a href="../../meter/CappedSpecs/index.html#SameCaps">SameCaps</a> quota quota&#x27;
</code></pre>
"####]
    pub mod LawsSpecs {}
    #[doc = r####"Machines with memories in lent regions, beside the same machines with memories of their own; growths, calls and runs that fit these regions.

<pre><code>use Rattle.std.specs.Prelude.{◌≡◌, ◌⊎◌, ◌+◌, ◌*◌, ℕ, true, false, List, map, None, MatchOption}
use Rattle.wasmi_meter.specs.Limiter.{<a href="../../meter/LimiterSpecs/index.html#Rules">Rules</a>}
use Rattle.wasmi_store.specs.Buffer.{<a href="../../store/BufferSpecs/index.html#Owned">Owned</a>, <a href="../../store/BufferSpecs/index.html#fits_room">fits_room</a>}
use Rattle.wasmi_store.specs.Memory.{<a href="../../store/MemorySpecs/index.html#page_bytes">page_bytes</a>, <a href="../../store/MemorySpecs/index.html#in_bounds">in_bounds</a>, <a href="../../store/MemorySpecs/index.html#MemoryValue">MemoryValue</a>, <a href="../../store/MemorySpecs/index.html#pages_of">pages_of</a>}
use Rattle.wasmi_machine.specs.declared.{calls.Call.Call, slots.Slot.Slot}
use Rattle.wasmi_machine.specs.declared.calls.Call.TheVariants.{NewLentMemory, GrowMemory}
use Rattle.wasmi_machine.specs.declared.slots.Slot.TheVariants.{Live, Gone}
use Rattle.wasmi_machine.specs.State.{<a href="../../machine/StateSpecs/index.html#State">State</a>, <a href="../../machine/StateSpecs/index.html#live_at">live_at</a>, <a href="../../machine/StateSpecs/index.html#World">World</a>, <a href="../../machine/StateSpecs/index.html#Turn">Turn</a>}
use Rattle.wasmi_machine.specs.Steps.{<a href="../../machine/StepsSpecs/index.html#Step">Step</a>, <a href="../../machine/StepsSpecs/index.html#Sequence">Sequence</a>}

-- a memory that grows into memory of its own, instead of a lent region
abbrev pub <b id="owned_memory">owned_memory</b> : <a href="../../store/MemorySpecs/index.html#MemoryValue">MemoryValue</a> → <a href="../../store/MemorySpecs/index.html#MemoryValue">MemoryValue</a>
<a href="../../machine/LentMemorySpecs/index.html#owned_memory">owned_memory</a> x = record x { room = <a href="../../store/BufferSpecs/index.html#Owned">Owned</a> }

-- a slot whose memory, if one is live, grows into memory of its own
abbrev pub <b id="owned_slot">owned_slot</b> : Slot <a href="../../store/MemorySpecs/index.html#MemoryValue">MemoryValue</a> → Slot <a href="../../store/MemorySpecs/index.html#MemoryValue">MemoryValue</a>
<a href="../../machine/LentMemorySpecs/index.html#owned_slot">owned_slot</a> (Live x) = Live (<a href="../../machine/LentMemorySpecs/index.html#owned_memory">owned_memory</a> x)
<a href="../../machine/LentMemorySpecs/index.html#owned_slot">owned_slot</a> (Gone last) = Gone last

-- a machine whose memories all grow into memory of their own
abbrev pub <b id="owned">owned</b> : <a href="../../machine/StateSpecs/index.html#State">State</a> → <a href="../../machine/StateSpecs/index.html#State">State</a>
<a href="../../machine/LentMemorySpecs/index.html#owned">owned</a> s = record s { memories = map <a href="../../machine/LentMemorySpecs/index.html#owned_slot">owned_slot</a> s.memories }

-- a world whose memories all grow into memory of their own
abbrev pub <b id="owned_world">owned_world</b> : {S : Type 0} → <a href="../../machine/StateSpecs/index.html#World">World</a> S → <a href="../../machine/StateSpecs/index.html#World">World</a> S
<a href="../../machine/LentMemorySpecs/index.html#owned_world">owned_world</a> w = record w { state = <a href="../../machine/LentMemorySpecs/index.html#owned">owned</a> w.state }

-- a world whose memories all grow into memory of their own, without a spare region
abbrev pub <b id="unlent_world">unlent_world</b> : {S : Type 0} → <a href="../../machine/StateSpecs/index.html#World">World</a> S → <a href="../../machine/StateSpecs/index.html#World">World</a> S
<a href="../../machine/LentMemorySpecs/index.html#unlent_world">unlent_world</a> w = record w { state = record (<a href="../../machine/LentMemorySpecs/index.html#owned">owned</a> w.state) { spare = None } }

-- a growth of a memory that its room has place for, or that is refused before the limiter is asked
abbrev pub <b id="FitsRoom">FitsRoom</b> : ℕ → <a href="../../store/MemorySpecs/index.html#MemoryValue">MemoryValue</a> → Type 0
<a href="../../machine/LentMemorySpecs/index.html#FitsRoom">FitsRoom</a> pages x =
    (<a href="../../store/BufferSpecs/index.html#fits_room">fits_room</a> x.room (pages * <a href="../../store/MemorySpecs/index.html#page_bytes">page_bytes</a> x.ty.page) ≡ true) ⊎ (<a href="../../store/MemorySpecs/index.html#in_bounds">in_bounds</a> x.ty (<a href="../../store/MemorySpecs/index.html#pages_of">pages_of</a> x + pages) ≡ false)

-- a call that makes no memory in the spare region, and grows no memory past the region that it lies in
abbrev pub <b id="FitsRegions">FitsRegions</b> : <a href="../../machine/StateSpecs/index.html#State">State</a> → Call → Type 0
<a href="../../machine/LentMemorySpecs/index.html#FitsRegions">FitsRegions</a> s (NewLentMemory ty) = ⊥
<a href="../../machine/LentMemorySpecs/index.html#FitsRegions">FitsRegions</a> s (GrowMemory k pages) = MatchOption (<a href="../../machine/StateSpecs/index.html#live_at">live_at</a> s.memories k) (Unit {0}) (<a href="../../machine/LentMemorySpecs/index.html#FitsRoom">FitsRoom</a> pages)
<a href="../../machine/LentMemorySpecs/index.html#FitsRegions">FitsRegions</a> s call = Unit {0}

-- turns by such calls one after another, from one world to another
abbrev pub <b id="RunInRegions">RunInRegions</b> : {S : Type 0} → <a href="../../meter/LimiterSpecs/index.html#Rules">Rules</a> S → <a href="../../machine/StateSpecs/index.html#World">World</a> S → List <a href="../../machine/StateSpecs/index.html#Turn">Turn</a> → <a href="../../machine/StateSpecs/index.html#World">World</a> S → Type 0
<a href="../../machine/LentMemorySpecs/index.html#RunInRegions">RunInRegions</a> rules = <a href="../../machine/StepsSpecs/index.html#Sequence">Sequence</a> (λ w turn w&#x27;. <a href="../../machine/LentMemorySpecs/index.html#FitsRegions">FitsRegions</a> w.state turn.call × <a href="../../machine/StepsSpecs/index.html#Step">Step</a> rules w turn w&#x27;)
</code></pre>
"####]
    pub mod LentMemorySpecs {}
    #[doc = r####"The calls on memories: their replies, what each does to the slots and to the spare region, and what a growth, a store or a write over a range writes.

<pre><code>use Rattle.std.specs.Prelude.{◌≡◌, ◌⊎◌, ◌*◌, ◌&lt;◌, ℕ, Option, Some, None, Result, List, length, MatchOption}
use Rattle.std.specs.Option.{option_map, option_map_or}
use Rattle.wasmi_types.specs.Access.{<a href="../../types/AccessSpecs/index.html#at">at</a>}
use Rattle.wasmi_types.specs.Numbers.{<a href="../../types/NumbersSpecs/index.html#le_bytes">le_bytes</a>}
use Rattle.wasmi_types.specs.declared.trap.TrapCode.{TrapCode}
use Rattle.wasmi_access.specs.LoadStore.{<a href="../../accesses/LoadStoreSpecs/index.html#IsStore">IsStore</a>}
use Rattle.wasmi_meter.specs.declared.error.MemoryError.{MemoryError}
use Rattle.wasmi_meter.specs.declared.error.MemoryError.TheVariants.{OutOfBoundsAccess}
use Rattle.wasmi_meter.specs.Limiter.{<a href="../../meter/LimiterSpecs/index.html#Rules">Rules</a>}
use Rattle.wasmi_store.specs.Buffer.{<a href="../../store/BufferSpecs/index.html#Lent">Lent</a>}
use Rattle.wasmi_store.specs.Memory.{<a href="../../store/MemorySpecs/index.html#MemoryTypeValue">MemoryTypeValue</a>, <a href="../../store/MemorySpecs/index.html#page_bytes">page_bytes</a>, <a href="../../store/MemorySpecs/index.html#MemoryValue">MemoryValue</a>, <a href="../../store/MemorySpecs/index.html#MakesMemory">MakesMemory</a>, <a href="../../store/MemorySpecs/index.html#MemoryWrite">MemoryWrite</a>, <a href="../../store/MemorySpecs/index.html#WritesMemory">WritesMemory</a>, <a href="../../store/MemorySpecs/index.html#byte_copy_of">byte_copy_of</a>, <a href="../../store/MemorySpecs/index.html#byte_filling_of">byte_filling_of</a>}
use Rattle.wasmi_machine.specs.declared.{calls.Reply.Reply, memories.Stored.Stored, slots.Slot.Slot}
use Rattle.wasmi_machine.specs.declared.calls.Reply.TheVariants.{Done, Value, Number, Bytes, Memory, Trap, NoSuch, NoRegion, NoRoom}
use Rattle.wasmi_ops.specs.declared.load_store.LoadOp.{LoadOp}
use Rattle.wasmi_ops.specs.LoadStoreOps.{<a href="../../ops/LoadStoreOpsSpecs/index.html#loaded_raw">loaded_raw</a>, <a href="../../ops/LoadStoreOpsSpecs/index.html#stored_bytes">stored_bytes</a>}
use Rattle.wasmi_ops.specs.LaneOps.{<a href="../../ops/LaneOpsSpecs/index.html#stored_lane">stored_lane</a>}
use Rattle.wasmi_machine.specs.State.{<a href="../../machine/StateSpecs/index.html#MemoryPart">MemoryPart</a>, <a href="../../machine/StateSpecs/index.html#live_at">live_at</a>}
use Rattle.wasmi_machine.specs.Effects.{<a href="../../machine/EffectsSpecs/index.html#reply_of">reply_of</a>, <a href="../../machine/EffectsSpecs/index.html#Creates">Creates</a>, <a href="../../machine/EffectsSpecs/index.html#ChangesAt">ChangesAt</a>}
use Rattle.wasmi_machine.specs.declared.memories.Stored.TheVariants as stored

-- how many bytes a growth of a memory by so many pages has appended, by its reply
abbrev pub <b id="bytes_appended">bytes_appended</b> : Option <a href="../../store/MemorySpecs/index.html#MemoryValue">MemoryValue</a> → ℕ → Reply → ℕ
<a href="../../machine/MemoryEffectsSpecs/index.html#bytes_appended">bytes_appended</a> None pages reply = 0
<a href="../../machine/MemoryEffectsSpecs/index.html#bytes_appended">bytes_appended</a> (Some x) pages (Number size) = pages * <a href="../../store/MemorySpecs/index.html#page_bytes">page_bytes</a> x.ty.page
<a href="../../machine/MemoryEffectsSpecs/index.html#bytes_appended">bytes_appended</a> (Some x) pages reply = 0

-- the spare region after a creation in it: it is spent, unless a slot could not be had
abbrev pub <b id="spare_after">spare_after</b> : Reply → Option (List ℕ) → Option (List ℕ)
<a href="../../machine/MemoryEffectsSpecs/index.html#spare_after">spare_after</a> NoRoom spare = spare
<a href="../../machine/MemoryEffectsSpecs/index.html#spare_after">spare_after</a> reply spare = None

-- a creation in the spare region; without one nothing is asked
abbrev pub <b id="CreatesLent">CreatesLent</b> : {S : Type 0} → <a href="../../meter/LimiterSpecs/index.html#Rules">Rules</a> S → <a href="../../store/MemorySpecs/index.html#MemoryTypeValue">MemoryTypeValue</a> → <a href="../../machine/StateSpecs/index.html#MemoryPart">MemoryPart</a> → S → Reply → <a href="../../machine/StateSpecs/index.html#MemoryPart">MemoryPart</a> → S → Type 0
<a href="../../machine/MemoryEffectsSpecs/index.html#CreatesLent">CreatesLent</a> rules ty part l reply part&#x27; l&#x27; = MatchOption part.spare ((reply ≡ NoRegion) × (part&#x27; ≡ part) × (l&#x27; ≡ l))
    (λ region. <a href="../../machine/EffectsSpecs/index.html#Creates">Creates</a> Memory (<a href="../../store/MemorySpecs/index.html#MakesMemory">MakesMemory</a> rules (<a href="../../store/BufferSpecs/index.html#Lent">Lent</a> region) ty) part.slots l reply part&#x27;.slots l&#x27;
    × (part&#x27;.spare ≡ <a href="../../machine/MemoryEffectsSpecs/index.html#spare_after">spare_after</a> reply part.spare))

-- a read: its bounds are tested before memory for the reply is asked for, which no byte needs
abbrev pub <b id="ReadsBytes">ReadsBytes</b> : Option (List ℕ) → Reply → Type 0
<a href="../../machine/MemoryEffectsSpecs/index.html#ReadsBytes">ReadsBytes</a> None reply = reply ≡ Memory OutOfBoundsAccess
<a href="../../machine/MemoryEffectsSpecs/index.html#ReadsBytes">ReadsBytes</a> (Some bytes) reply = ((reply ≡ NoRoom) × (0 &lt; length bytes)) ⊎ (reply ≡ Bytes bytes)

-- the reply to a read of so many bytes from an offset on, by the memory of an index
abbrev pub <b id="ReadsMemoryAt">ReadsMemoryAt</b> : ℕ → ℕ → ℕ → List (Slot <a href="../../store/MemorySpecs/index.html#MemoryValue">MemoryValue</a>) → Reply → Type 0
<a href="../../machine/MemoryEffectsSpecs/index.html#ReadsMemoryAt">ReadsMemoryAt</a> k offset len slots reply =
    MatchOption (<a href="../../machine/StateSpecs/index.html#live_at">live_at</a> slots k) (reply ≡ NoSuch) (λ x. <a href="../../machine/MemoryEffectsSpecs/index.html#ReadsBytes">ReadsBytes</a> (<a href="../../types/AccessSpecs/index.html#at">at</a> x.bytes offset len) reply)

-- the memory of an index is written over with bytes from an offset on, or the write is refused
abbrev pub <b id="WritesMemoryAt">WritesMemoryAt</b> : ℕ → ℕ → List ℕ → List (Slot <a href="../../store/MemorySpecs/index.html#MemoryValue">MemoryValue</a>) → Reply → List (Slot <a href="../../store/MemorySpecs/index.html#MemoryValue">MemoryValue</a>) → Type 0
<a href="../../machine/MemoryEffectsSpecs/index.html#WritesMemoryAt">WritesMemoryAt</a> k offset bytes slots reply slots&#x27; = <a href="../../machine/EffectsSpecs/index.html#ChangesAt">ChangesAt</a> k slots reply slots&#x27;
    (λ x x&#x27;. (result : Result (Unit {0}) MemoryError) × <a href="../../store/MemorySpecs/index.html#WritesMemory">WritesMemory</a> x offset bytes result x&#x27;
    × (reply ≡ <a href="../../machine/EffectsSpecs/index.html#reply_of">reply_of</a> (λ _. Done) Memory result))

-- the reply to a load from a memory, if the memory is there
abbrev pub <b id="load_reply">load_reply</b> : LoadOp → ℕ → Option <a href="../../store/MemorySpecs/index.html#MemoryValue">MemoryValue</a> → Reply
<a href="../../machine/MemoryEffectsSpecs/index.html#load_reply">load_reply</a> op a memory = option_map_or (λ x. <a href="../../machine/EffectsSpecs/index.html#reply_of">reply_of</a> Value Trap (<a href="../../ops/LoadStoreOpsSpecs/index.html#loaded_raw">loaded_raw</a> op x.bytes a)) memory NoSuch

-- the bytes that a store writes
abbrev pub <b id="bytes_of_stored">bytes_of_stored</b> : Stored → List ℕ
<a href="../../machine/MemoryEffectsSpecs/index.html#bytes_of_stored">bytes_of_stored</a> (stored.Number op value) = <a href="../../ops/LoadStoreOpsSpecs/index.html#stored_bytes">stored_bytes</a> op value
<a href="../../machine/MemoryEffectsSpecs/index.html#bytes_of_stored">bytes_of_stored</a> (stored.Vector vector) = <a href="../../types/NumbersSpecs/index.html#le_bytes">le_bytes</a> 16 vector
<a href="../../machine/MemoryEffectsSpecs/index.html#bytes_of_stored">bytes_of_stored</a> (stored.Lane op vector) = <a href="../../ops/LaneOpsSpecs/index.html#stored_lane">stored_lane</a> op vector

-- what a range of a memory is written over with: a byte, or bytes from a place on, if there are some
pub data <b id="ByteSource">ByteSource</b> : Type 0 where
  <b id="OfByte">OfByte</b> : ℕ → <a href="../../machine/MemoryEffectsSpecs/index.html#ByteSource">ByteSource</a>
  <b id="OfBytes">OfBytes</b> : Option (List ℕ) → ℕ → <a href="../../machine/MemoryEffectsSpecs/index.html#ByteSource">ByteSource</a>

-- the write over so many bytes from a place on, with what a source has, if the source is there
abbrev pub <b id="byte_write_of">byte_write_of</b> : <a href="../../machine/MemoryEffectsSpecs/index.html#ByteSource">ByteSource</a> → ℕ → ℕ → Option (<a href="../../store/MemorySpecs/index.html#MemoryValue">MemoryValue</a> → <a href="../../store/MemorySpecs/index.html#MemoryWrite">MemoryWrite</a>)
<a href="../../machine/MemoryEffectsSpecs/index.html#byte_write_of">byte_write_of</a> (<a href="../../machine/MemoryEffectsSpecs/index.html#OfByte">OfByte</a> value) dst len = Some (<a href="../../store/MemorySpecs/index.html#byte_filling_of">byte_filling_of</a> dst value len)
<a href="../../machine/MemoryEffectsSpecs/index.html#byte_write_of">byte_write_of</a> (<a href="../../machine/MemoryEffectsSpecs/index.html#OfBytes">OfBytes</a> source src) dst len = option_map (<a href="../../store/MemorySpecs/index.html#byte_copy_of">byte_copy_of</a> dst src len) source

-- the bytes of a memory, if it is there
abbrev pub <b id="bytes_in">bytes_in</b> : Option <a href="../../store/MemorySpecs/index.html#MemoryValue">MemoryValue</a> → Option (List ℕ)
<a href="../../machine/MemoryEffectsSpecs/index.html#bytes_in">bytes_in</a> memory = option_map (λ x. x.bytes) memory

-- what a call copies over a part of a memory is of another one
abbrev pub <b id="memory_copy_of">memory_copy_of</b> : ℕ → ℕ → ℕ → <a href="../../store/MemorySpecs/index.html#MemoryValue">MemoryValue</a> → <a href="../../store/MemorySpecs/index.html#MemoryValue">MemoryValue</a> → <a href="../../store/MemorySpecs/index.html#MemoryWrite">MemoryWrite</a>
<a href="../../machine/MemoryEffectsSpecs/index.html#memory_copy_of">memory_copy_of</a> dst src len source = <a href="../../store/MemorySpecs/index.html#byte_copy_of">byte_copy_of</a> dst src len source.bytes

-- a store: the memory has the bytes at the address, or the store traps and the memory is the same
abbrev pub <b id="StoresMemory">StoresMemory</b> : <a href="../../store/MemorySpecs/index.html#MemoryValue">MemoryValue</a> → ℕ → List ℕ → Result (Unit {0}) TrapCode → <a href="../../store/MemorySpecs/index.html#MemoryValue">MemoryValue</a> → Type 0
<a href="../../machine/MemoryEffectsSpecs/index.html#StoresMemory">StoresMemory</a> x a stored result x&#x27; = <a href="../../accesses/LoadStoreSpecs/index.html#IsStore">IsStore</a> x.bytes a stored x&#x27;.bytes result × (x&#x27;.ty ≡ x.ty) × (x&#x27;.room ≡ x.room)

-- the memory of an index has the stored bytes at the address, or the store traps
abbrev pub <b id="StoresMemoryAt">StoresMemoryAt</b> : ℕ → ℕ → List ℕ → List (Slot <a href="../../store/MemorySpecs/index.html#MemoryValue">MemoryValue</a>) → Reply → List (Slot <a href="../../store/MemorySpecs/index.html#MemoryValue">MemoryValue</a>) → Type 0
<a href="../../machine/MemoryEffectsSpecs/index.html#StoresMemoryAt">StoresMemoryAt</a> k a stored slots reply slots&#x27; = <a href="../../machine/EffectsSpecs/index.html#ChangesAt">ChangesAt</a> k slots reply slots&#x27;
    (λ x x&#x27;. (result : Result (Unit {0}) TrapCode) × <a href="../../machine/MemoryEffectsSpecs/index.html#StoresMemory">StoresMemory</a> x a stored result x&#x27;
    × (reply ≡ <a href="../../machine/EffectsSpecs/index.html#reply_of">reply_of</a> (λ _. Done) Trap result))
</code></pre>
"####]
    pub mod MemoryEffectsSpecs {}
    #[doc = r####"The calls on registers and on vectors in them, also loads and stores: their replies, and what each does to registers.

<pre><code>use Rattle.std.specs.Prelude.{◌≡◌, ℕ, Option, Some, None, Result, Ok, Err, List, slice_get, slice_set}
use Rattle.std.specs.Option.{option_map, option_map_or, option_and_then}
use Rattle.wasmi_types.specs.declared.trap.TrapCode.{TrapCode}
use Rattle.wasmi_raw.specs.declared.raw.RawVal.{RawVal}
use Rattle.wasmi_raw.specs.RawVal.{<a href="../../raw/RawValSpecs/index.html#vector_in">vector_in</a>, <a href="../../raw/RawValSpecs/index.html#raw_of_vector">raw_of_vector</a>}
use Rattle.wasmi_store.specs.Memory.{<a href="../../store/MemorySpecs/index.html#MemoryValue">MemoryValue</a>}
use Rattle.wasmi_ops.specs.declared.{vector.VectorLoadOp.VectorLoadOp, vector.LoadLaneOp.LoadLaneOp}
use Rattle.wasmi_ops.specs.VectorOps.{<a href="../../ops/VectorOpsSpecs/index.html#loaded_vector">loaded_vector</a>}
use Rattle.wasmi_ops.specs.LaneOps.{<a href="../../ops/LaneOpsSpecs/index.html#loaded_lane">loaded_lane</a>}
use Rattle.wasmi_machine.specs.declared.{calls.Reply.Reply, slots.Slot.Slot}
use Rattle.wasmi_machine.specs.declared.calls.Reply.TheVariants.{Done, Value, Trap, NoSuch}
use Rattle.wasmi_ops.specs.LoadStoreOps.{<a href="../../ops/LoadStoreOpsSpecs/index.html#as_raw">as_raw</a>}
use Rattle.wasmi_machine.specs.MemoryEffects.{<a href="../../machine/MemoryEffectsSpecs/index.html#StoresMemoryAt">StoresMemoryAt</a>}

-- the vector in a register, if there is one
abbrev pub <b id="vector_at">vector_at</b> : List RawVal → ℕ → Option ℕ
<a href="../../machine/RegisterEffectsSpecs/index.html#vector_at">vector_at</a> registers r = option_map <a href="../../raw/RawValSpecs/index.html#vector_in">vector_in</a> (slice_get registers r)

-- a register, if there is one, takes the value that a call gives it; a trap keeps it; an absent operand gives nothing
abbrev pub <b id="SetsAt">SetsAt</b> : Option (Result RawVal TrapCode) → Option RawVal → ℕ → List RawVal → Reply → List RawVal → Type 0
<a href="../../machine/RegisterEffectsSpecs/index.html#SetsAt">SetsAt</a> None old dst registers reply registers&#x27; = (reply ≡ NoSuch) × (registers&#x27; ≡ registers)
<a href="../../machine/RegisterEffectsSpecs/index.html#SetsAt">SetsAt</a> (Some given) None dst registers reply registers&#x27; = (reply ≡ NoSuch) × (registers&#x27; ≡ registers)
<a href="../../machine/RegisterEffectsSpecs/index.html#SetsAt">SetsAt</a> (Some (Ok value)) (Some old) dst registers reply registers&#x27; =
    (reply ≡ Done) × (registers&#x27; ≡ slice_set registers dst value)
<a href="../../machine/RegisterEffectsSpecs/index.html#SetsAt">SetsAt</a> (Some (Err trap)) (Some old) dst registers reply registers&#x27; = (reply ≡ Trap trap) × (registers&#x27; ≡ registers)

-- the register of an index takes what a call gives, if there is such a register
abbrev pub <b id="SetsRegister">SetsRegister</b> : ℕ → Option (Result RawVal TrapCode) → List RawVal → Reply → List RawVal → Type 0
<a href="../../machine/RegisterEffectsSpecs/index.html#SetsRegister">SetsRegister</a> dst given registers reply registers&#x27; =
    <a href="../../machine/RegisterEffectsSpecs/index.html#SetsAt">SetsAt</a> given (slice_get registers dst) dst registers reply registers&#x27;

-- a vector as a register takes it
abbrev pub <b id="given_vector">given_vector</b> : ℕ → Result RawVal TrapCode
<a href="../../machine/RegisterEffectsSpecs/index.html#given_vector">given_vector</a> v = Ok (<a href="../../raw/RawValSpecs/index.html#raw_of_vector">raw_of_vector</a> v)

-- what a function of one vector gives a register, if the vector is there
abbrev pub <b id="of_one">of_one</b> : (ℕ → ℕ) → Option ℕ → Option (Result RawVal TrapCode)
<a href="../../machine/RegisterEffectsSpecs/index.html#of_one">of_one</a> row a = option_map (λ x. <a href="../../machine/RegisterEffectsSpecs/index.html#given_vector">given_vector</a> (row x)) a

-- what a function of two vectors gives a register, if both are there
abbrev pub <b id="of_two">of_two</b> : (ℕ → ℕ → ℕ) → Option ℕ → Option ℕ → Option (Result RawVal TrapCode)
<a href="../../machine/RegisterEffectsSpecs/index.html#of_two">of_two</a> row a b = option_and_then (λ x. <a href="../../machine/RegisterEffectsSpecs/index.html#of_one">of_one</a> (row x) b) a

-- what a function of three vectors gives a register, if all three are there
abbrev pub <b id="of_three">of_three</b> : (ℕ → ℕ → ℕ → ℕ) → Option ℕ → Option ℕ → Option ℕ → Option (Result RawVal TrapCode)
<a href="../../machine/RegisterEffectsSpecs/index.html#of_three">of_three</a> row a b c = option_and_then (λ x. <a href="../../machine/RegisterEffectsSpecs/index.html#of_two">of_two</a> (row x) b c) a

-- what a load of a vector from a memory gives a register, if the memory is there
abbrev pub <b id="vector_loaded">vector_loaded</b> : VectorLoadOp → ℕ → Option <a href="../../store/MemorySpecs/index.html#MemoryValue">MemoryValue</a> → Option (Result RawVal TrapCode)
<a href="../../machine/RegisterEffectsSpecs/index.html#vector_loaded">vector_loaded</a> op a memory = option_map (λ x. <a href="../../ops/LoadStoreOpsSpecs/index.html#as_raw">as_raw</a> <a href="../../raw/RawValSpecs/index.html#raw_of_vector">raw_of_vector</a> (<a href="../../ops/VectorOpsSpecs/index.html#loaded_vector">loaded_vector</a> op x.bytes a)) memory

-- what a load of one lane of a vector from a memory gives a register, if the vector and the memory are there
abbrev pub <b id="lane_loaded">lane_loaded</b> : LoadLaneOp → ℕ → Option ℕ → Option <a href="../../store/MemorySpecs/index.html#MemoryValue">MemoryValue</a> → Option (Result RawVal TrapCode)
<a href="../../machine/RegisterEffectsSpecs/index.html#lane_loaded">lane_loaded</a> op a vector memory =
    option_and_then (λ v. option_map (λ x. <a href="../../ops/LoadStoreOpsSpecs/index.html#as_raw">as_raw</a> <a href="../../raw/RawValSpecs/index.html#raw_of_vector">raw_of_vector</a> (<a href="../../ops/LaneOpsSpecs/index.html#loaded_lane">loaded_lane</a> op v x.bytes a)) memory) vector

-- the raw value that is asked of a register, if it is there
abbrev pub <b id="raw_reply">raw_reply</b> : Option RawVal → Reply
<a href="../../machine/RegisterEffectsSpecs/index.html#raw_reply">raw_reply</a> value = option_map_or (λ raw. Value raw) value NoSuch

-- a store of the bytes of a vector, if its register is there
abbrev pub <b id="StoresVectorAt">StoresVectorAt</b> : ℕ → ℕ → Option (List ℕ) → List (Slot <a href="../../store/MemorySpecs/index.html#MemoryValue">MemoryValue</a>) → Reply → List (Slot <a href="../../store/MemorySpecs/index.html#MemoryValue">MemoryValue</a>) → Type 0
<a href="../../machine/RegisterEffectsSpecs/index.html#StoresVectorAt">StoresVectorAt</a> k a None slots reply slots&#x27; = (reply ≡ NoSuch) × (slots&#x27; ≡ slots)
<a href="../../machine/RegisterEffectsSpecs/index.html#StoresVectorAt">StoresVectorAt</a> k a (Some stored) slots reply slots&#x27; = <a href="../../machine/MemoryEffectsSpecs/index.html#StoresMemoryAt">StoresMemoryAt</a> k a stored slots reply slots&#x27;
</code></pre>
"####]
    pub mod RegisterEffectsSpecs {}
    #[doc = r####"Replies in memory that is kept from run to run, and the text of the error of a run for which it is too small.

<pre><code>use Rattle.std.specs.Prelude.{ℕ, List, codes}
use Rattle.wasmi_machine.specs.declared.calls.Reply.{Reply}

-- the replies, and for how many there is memory
pub record <b id="RepliesValue">RepliesValue</b> : Type 0 where
  pub <b id="items">items</b> : List Reply
  pub <b id="capacity">capacity</b> : ℕ

-- the text of why a list isn&#x27;t executed
abbrev pub <b id="too_many_calls_text">too_many_calls_text</b> : List ℕ
<a href="../../machine/RepliesSpecs/index.html#too_many_calls_text">too_many_calls_text</a> = codes "more calls than there is memory for replies"
</code></pre>
"####]
    pub mod RepliesSpecs {}
    #[doc = r####"Lists with memory for items that are still to be added.

<pre><code>use Rattle.std.specs.Prelude.{ℕ, List, slice_set}

-- a list: its items, up to how many of them are reserved, and for how many there is memory
pub record <b id="ReservedListValue">ReservedListValue</b> (X : Type 0) : Type 0 where
  pub <b id="items">items</b> : List X
  pub <b id="reserved">reserved</b> : ℕ
  pub <b id="capacity">capacity</b> : ℕ

-- the list with another item at an index, and with the same memory for items that are still to be added
abbrev pub <b id="with_item">with_item</b> : {X : Type 0} → <a href="../../machine/ReservedListSpecs/index.html#ReservedListValue">ReservedListValue</a> X → ℕ → X → <a href="../../machine/ReservedListSpecs/index.html#ReservedListValue">ReservedListValue</a> X
<a href="../../machine/ReservedListSpecs/index.html#with_item">with_item</a> list k x = record list { <a href="../../machine/ReservedListSpecs/index.html#items">items</a> = slice_set list.items k x }
</code></pre>
"####]
    pub mod ReservedListSpecs {}
    #[doc = r####"The state of a machine, its slots and how many are reserved (core specification, the store), a new state, a world of it with a limiter, a turn with its outcome, refusals, the sizes and totals of a state, and when states and calls are valid.

<pre><code>use Rattle.std.specs.Prelude.{ℕ, ◌+◌, List, [], Option, Some, None, slice_get, replicate, ◌≡◌, length, map, max, sum, ◌≤◌, All, option_and_then}
use Rattle.wasmi_raw.specs.declared.raw.RawVal.{RawVal}
use Rattle.wasmi_raw.specs.RawVal.{<a href="../../raw/RawValSpecs/index.html#raw_of">raw_of</a>}
use Rattle.wasmi_meter.specs.Meter.{<a href="../../meter/MeterSpecs/index.html#Meter">Meter</a>}
use Rattle.wasmi_typed.specs.Global.{<a href="../../typed/GlobalSpecs/index.html#GlobalInstance">GlobalInstance</a>}
use Rattle.wasmi_store.specs.Memory.{<a href="../../store/MemorySpecs/index.html#MemoryValue">MemoryValue</a>, <a href="../../store/MemorySpecs/index.html#IsValidMemory">IsValidMemory</a>}
use Rattle.wasmi_store.specs.Segment.{<a href="../../store/SegmentSpecs/index.html#SegmentValue">SegmentValue</a>, <a href="../../store/SegmentSpecs/index.html#most_items">most_items</a>}
use Rattle.wasmi_store.specs.Table.{<a href="../../store/TableSpecs/index.html#TableValue">TableValue</a>, <a href="../../store/TableSpecs/index.html#size_of">size_of</a>, <a href="../../store/TableSpecs/index.html#IsValidTable">IsValidTable</a>}
use Rattle.wasmi_machine.specs.ReservedList.{<a href="../../machine/ReservedListSpecs/index.html#with_item">with_item</a>}
use Rattle.wasmi_machine.specs.declared.{slots.Slot.Slot, slots.Slots.Slots, slots.SlotCounts.SlotCounts, calls.Call.Call, calls.Reply.Reply}
use Rattle.wasmi_machine.specs.declared.slots.Slot.TheVariants.{Live, Gone}
use Rattle.wasmi_meter.specs.declared.{limiter.Kind.Kind, quota.Holdings.Holdings}
use Rattle.wasmi_meter.specs.declared.limiter.Kind.TheVariants.{Bytes, Elements}
use Rattle.wasmi_machine.specs.declared.calls.Call.TheVariants.{NewMemory, NewLentMemory, NewTable}
use Rattle.wasmi_machine.specs.declared.calls.Reply.TheVariants as <a href="../../machine/StateSpecs/index.html#reply">reply</a>
use Rattle.wasmi_store.specs.Memory as memory
use Rattle.wasmi_store.specs.Table as table

module _ {X : Type 0} where
  -- the value in a slot, if it wasn&#x27;t dropped
  abbrev pub <b id="live_value">live_value</b> : Slot X → Option X
  <a href="../../machine/StateSpecs/index.html#live_value">live_value</a> (Live x) = Some x
  <a href="../../machine/StateSpecs/index.html#live_value">live_value</a> (Gone size) = None

  -- the live value of an index, if there is one
  abbrev pub <b id="live_at">live_at</b> : List (Slot X) → ℕ → Option X
  <a href="../../machine/StateSpecs/index.html#live_at">live_at</a> <a href="../../machine/StateSpecs/index.html#slots">slots</a> k = option_and_then <a href="../../machine/StateSpecs/index.html#live_value">live_value</a> (slice_get <a href="../../machine/StateSpecs/index.html#slots">slots</a> k)

  -- the slots with this live value at an index
  abbrev pub <b id="with_live">with_live</b> : Slots X → ℕ → X → Slots X
  <a href="../../machine/StateSpecs/index.html#with_live">with_live</a> s k x = record { <a href="../../machine/StateSpecs/index.html#slots">slots</a> = <a href="../../machine/ReservedListSpecs/index.html#with_item">with_item</a> s.slots k (Live x) }

-- the memories, tables, element segments, data segments and globals that were made, each kind in its order, the
-- registers, the meter, the bytes of the spare region, if there is one, and up to how many slots of each kind are
-- reserved, those of what was made included
pub record <b id="State">State</b> : Type 0 where
  pub <b id="memories">memories</b> : List (Slot <a href="../../store/MemorySpecs/index.html#MemoryValue">MemoryValue</a>)
  pub <b id="tables">tables</b> : List (Slot <a href="../../store/TableSpecs/index.html#TableValue">TableValue</a>)
  pub <b id="segments">segments</b> : List <a href="../../store/SegmentSpecs/index.html#SegmentValue">SegmentValue</a>
  pub <b id="data_segments">data_segments</b> : List (List ℕ)
  pub <b id="globals">globals</b> : List <a href="../../typed/GlobalSpecs/index.html#GlobalInstance">GlobalInstance</a>
  pub <b id="registers">registers</b> : List RawVal
  pub <b id="meter">meter</b> : <a href="../../meter/MeterSpecs/index.html#Meter">Meter</a>
  pub <b id="spare">spare</b> : Option (List ℕ)
  pub <b id="reserved">reserved</b> : SlotCounts

-- what a new state has reserved: no slot of any kind
abbrev pub <b id="no_slots">no_slots</b> : SlotCounts
<a href="../../machine/StateSpecs/index.html#no_slots">no_slots</a> = record { <a href="../../machine/StateSpecs/index.html#memories">memories</a> = 0; <a href="../../machine/StateSpecs/index.html#tables">tables</a> = 0; <a href="../../machine/StateSpecs/index.html#segments">segments</a> = 0; <a href="../../machine/StateSpecs/index.html#data_segments">data_segments</a> = 0; <a href="../../machine/StateSpecs/index.html#globals">globals</a> = 0 }

-- a machine on which nothing was made or reserved yet, with 16 registers of zeros
abbrev pub <b id="new_state">new_state</b> : <a href="../../meter/MeterSpecs/index.html#Meter">Meter</a> → <a href="../../machine/StateSpecs/index.html#State">State</a>
<a href="../../machine/StateSpecs/index.html#new_state">new_state</a> <a href="../../machine/StateSpecs/index.html#meter">meter</a> = record {
  <a href="../../machine/StateSpecs/index.html#memories">memories</a> = [];
  <a href="../../machine/StateSpecs/index.html#tables">tables</a> = [];
  <a href="../../machine/StateSpecs/index.html#segments">segments</a> = [];
  <a href="../../machine/StateSpecs/index.html#data_segments">data_segments</a> = [];
  <a href="../../machine/StateSpecs/index.html#globals">globals</a> = [];
  <a href="../../machine/StateSpecs/index.html#registers">registers</a> = replicate 16 (<a href="../../raw/RawValSpecs/index.html#raw_of">raw_of</a> 0);
  <a href="../../machine/StateSpecs/index.html#meter">meter</a> = <a href="../../machine/StateSpecs/index.html#meter">meter</a>;
  <a href="../../machine/StateSpecs/index.html#spare">spare</a> = None;
  <a href="../../machine/StateSpecs/index.html#reserved">reserved</a> = <a href="../../machine/StateSpecs/index.html#no_slots">no_slots</a>;
}

-- the state with this spare region
abbrev pub <b id="with_spare">with_spare</b> : <a href="../../machine/StateSpecs/index.html#State">State</a> → List ℕ → <a href="../../machine/StateSpecs/index.html#State">State</a>
<a href="../../machine/StateSpecs/index.html#with_spare">with_spare</a> s region = record s { <a href="../../machine/StateSpecs/index.html#spare">spare</a> = Some region }

-- up to how many slots of a kind a state has reserved, once so many more than are in its list are
abbrev pub <b id="reserved_for">reserved_for</b> : {A : Type 0} → ℕ → List A → ℕ → ℕ
<a href="../../machine/StateSpecs/index.html#reserved_for">reserved_for</a> <a href="../../machine/StateSpecs/index.html#reserved">reserved</a> list additional = max <a href="../../machine/StateSpecs/index.html#reserved">reserved</a> (length list + additional)

-- the state with so many more slots of each kind reserved
abbrev pub <b id="with_reserved">with_reserved</b> : <a href="../../machine/StateSpecs/index.html#State">State</a> → SlotCounts → <a href="../../machine/StateSpecs/index.html#State">State</a>
<a href="../../machine/StateSpecs/index.html#with_reserved">with_reserved</a> s more = record s {
  <a href="../../machine/StateSpecs/index.html#reserved">reserved</a> = record {
    <a href="../../machine/StateSpecs/index.html#memories">memories</a> = <a href="../../machine/StateSpecs/index.html#reserved_for">reserved_for</a> s.reserved.<a href="../../machine/StateSpecs/index.html#memories">memories</a> s.memories more.memories;
    <a href="../../machine/StateSpecs/index.html#tables">tables</a> = <a href="../../machine/StateSpecs/index.html#reserved_for">reserved_for</a> s.reserved.<a href="../../machine/StateSpecs/index.html#tables">tables</a> s.tables more.tables;
    <a href="../../machine/StateSpecs/index.html#segments">segments</a> = <a href="../../machine/StateSpecs/index.html#reserved_for">reserved_for</a> s.reserved.<a href="../../machine/StateSpecs/index.html#segments">segments</a> s.segments more.segments;
    <a href="../../machine/StateSpecs/index.html#data_segments">data_segments</a> = <a href="../../machine/StateSpecs/index.html#reserved_for">reserved_for</a> s.reserved.<a href="../../machine/StateSpecs/index.html#data_segments">data_segments</a> s.data_segments more.data_segments;
    <a href="../../machine/StateSpecs/index.html#globals">globals</a> = <a href="../../machine/StateSpecs/index.html#reserved_for">reserved_for</a> s.reserved.<a href="../../machine/StateSpecs/index.html#globals">globals</a> s.globals more.globals;
  };
}

-- the state with other memories
abbrev pub <b id="with_memories">with_memories</b> : <a href="../../machine/StateSpecs/index.html#State">State</a> → List (Slot <a href="../../store/MemorySpecs/index.html#MemoryValue">MemoryValue</a>) → <a href="../../machine/StateSpecs/index.html#State">State</a>
<a href="../../machine/StateSpecs/index.html#with_memories">with_memories</a> s <a href="../../machine/StateSpecs/index.html#memories">memories</a> = record s { <a href="../../machine/StateSpecs/index.html#memories">memories</a> = <a href="../../machine/StateSpecs/index.html#memories">memories</a> }

-- the part of the state of a machine that has its memories and its spare region, as a creation in it changes both
pub record <b id="MemoryPart">MemoryPart</b> : Type 0 where
  pub <b id="slots">slots</b> : List (Slot <a href="../../store/MemorySpecs/index.html#MemoryValue">MemoryValue</a>)
  pub <b id="spare">spare</b> : Option (List ℕ)

-- the memories of a state, and its spare region
abbrev pub <b id="memory_part">memory_part</b> : <a href="../../machine/StateSpecs/index.html#State">State</a> → <a href="../../machine/StateSpecs/index.html#MemoryPart">MemoryPart</a>
<a href="../../machine/StateSpecs/index.html#memory_part">memory_part</a> s = record { <a href="../../machine/StateSpecs/index.html#slots">slots</a> = s.memories; <a href="../../machine/StateSpecs/index.html#spare">spare</a> = s.spare }

-- the state with other tables
abbrev pub <b id="with_tables">with_tables</b> : <a href="../../machine/StateSpecs/index.html#State">State</a> → List (Slot <a href="../../store/TableSpecs/index.html#TableValue">TableValue</a>) → <a href="../../machine/StateSpecs/index.html#State">State</a>
<a href="../../machine/StateSpecs/index.html#with_tables">with_tables</a> s <a href="../../machine/StateSpecs/index.html#tables">tables</a> = record s { <a href="../../machine/StateSpecs/index.html#tables">tables</a> = <a href="../../machine/StateSpecs/index.html#tables">tables</a> }

-- the state with other element segments
abbrev pub <b id="with_segments">with_segments</b> : <a href="../../machine/StateSpecs/index.html#State">State</a> → List <a href="../../store/SegmentSpecs/index.html#SegmentValue">SegmentValue</a> → <a href="../../machine/StateSpecs/index.html#State">State</a>
<a href="../../machine/StateSpecs/index.html#with_segments">with_segments</a> s <a href="../../machine/StateSpecs/index.html#segments">segments</a> = record s { <a href="../../machine/StateSpecs/index.html#segments">segments</a> = <a href="../../machine/StateSpecs/index.html#segments">segments</a> }

-- the state with other data segments
abbrev pub <b id="with_data_segments">with_data_segments</b> : <a href="../../machine/StateSpecs/index.html#State">State</a> → List (List ℕ) → <a href="../../machine/StateSpecs/index.html#State">State</a>
<a href="../../machine/StateSpecs/index.html#with_data_segments">with_data_segments</a> s <a href="../../machine/StateSpecs/index.html#segments">segments</a> = record s { <a href="../../machine/StateSpecs/index.html#data_segments">data_segments</a> = <a href="../../machine/StateSpecs/index.html#segments">segments</a> }

-- the state with other globals
abbrev pub <b id="with_globals">with_globals</b> : <a href="../../machine/StateSpecs/index.html#State">State</a> → List <a href="../../typed/GlobalSpecs/index.html#GlobalInstance">GlobalInstance</a> → <a href="../../machine/StateSpecs/index.html#State">State</a>
<a href="../../machine/StateSpecs/index.html#with_globals">with_globals</a> s <a href="../../machine/StateSpecs/index.html#globals">globals</a> = record s { <a href="../../machine/StateSpecs/index.html#globals">globals</a> = <a href="../../machine/StateSpecs/index.html#globals">globals</a> }

-- the state with other registers
abbrev pub <b id="with_registers">with_registers</b> : <a href="../../machine/StateSpecs/index.html#State">State</a> → List RawVal → <a href="../../machine/StateSpecs/index.html#State">State</a>
<a href="../../machine/StateSpecs/index.html#with_registers">with_registers</a> s <a href="../../machine/StateSpecs/index.html#registers">registers</a> = record s { <a href="../../machine/StateSpecs/index.html#registers">registers</a> = <a href="../../machine/StateSpecs/index.html#registers">registers</a> }

-- what a call can reach: the machine&#x27;s state and the limiter
pub record <b id="World">World</b> (S : Type 0) : Type 0 where
  pub <b id="state">state</b> : <a href="../../machine/StateSpecs/index.html#State">State</a>
  pub <b id="limiter">limiter</b> : S

-- a machine in this state with this limiter
abbrev pub <b id="world">world</b> : {S : Type 0} → <a href="../../machine/StateSpecs/index.html#State">State</a> → S → <a href="../../machine/StateSpecs/index.html#World">World</a> S
<a href="../../machine/StateSpecs/index.html#world">world</a> machine <a href="../../machine/StateSpecs/index.html#limiter">limiter</a> = record { <a href="../../machine/StateSpecs/index.html#state">state</a> = machine; <a href="../../machine/StateSpecs/index.html#limiter">limiter</a> = <a href="../../machine/StateSpecs/index.html#limiter">limiter</a> }

-- one call with its reply, the fuel that it was charged, and the bytes that it has written by a growth or over a range
pub record <b id="Turn">Turn</b> : Type 0 where
  pub <b id="call">call</b> : Call
  pub <b id="reply">reply</b> : Reply
  pub <b id="charge">charge</b> : ℕ
  pub <b id="written">written</b> : ℕ

-- what a turn has besides its call
pub record <b id="TurnOutcome">TurnOutcome</b> : Type 0 where
  pub <b id="reply">reply</b> : Reply
  pub <b id="charge">charge</b> : ℕ
  pub <b id="written">written</b> : ℕ

-- the outcome of a turn
abbrev pub <b id="outcome_of">outcome_of</b> : <a href="../../machine/StateSpecs/index.html#Turn">Turn</a> → <a href="../../machine/StateSpecs/index.html#TurnOutcome">TurnOutcome</a>
<a href="../../machine/StateSpecs/index.html#outcome_of">outcome_of</a> turn = record { <a href="../../machine/StateSpecs/index.html#reply">reply</a> = turn.reply; <a href="../../machine/StateSpecs/index.html#charge">charge</a> = turn.charge; <a href="../../machine/StateSpecs/index.html#written">written</a> = turn.written }

-- the outcome of a turn that is charged nothing, and has written nothing by a growth or over a range
abbrev pub <b id="IsFree">IsFree</b> : <a href="../../machine/StateSpecs/index.html#TurnOutcome">TurnOutcome</a> → Type 0
<a href="../../machine/StateSpecs/index.html#IsFree">IsFree</a> outcome = (outcome.charge ≡ 0) × (outcome.written ≡ 0)

-- a reply that tells why nothing was done
abbrev pub <b id="IsRefusal">IsRefusal</b> : Reply → Type 0
<a href="../../machine/StateSpecs/index.html#IsRefusal">IsRefusal</a> reply.Done = ⊥
<a href="../../machine/StateSpecs/index.html#IsRefusal">IsRefusal</a> (reply.Made index) = ⊥
<a href="../../machine/StateSpecs/index.html#IsRefusal">IsRefusal</a> (reply.Value value) = ⊥
<a href="../../machine/StateSpecs/index.html#IsRefusal">IsRefusal</a> (reply.Number number) = ⊥
<a href="../../machine/StateSpecs/index.html#IsRefusal">IsRefusal</a> (reply.Bytes <a href="../../machine/StateSpecs/index.html#bytes">bytes</a>) = ⊥
<a href="../../machine/StateSpecs/index.html#IsRefusal">IsRefusal</a> (reply.Reference element) = ⊥
<a href="../../machine/StateSpecs/index.html#IsRefusal">IsRefusal</a> refusal = Unit {0}

-- how many a slot&#x27;s value has, or had when it was dropped
abbrev pub <b id="slot_count">slot_count</b> : {X : Type 0} → (X → ℕ) → Slot X → ℕ
<a href="../../machine/StateSpecs/index.html#slot_count">slot_count</a> count (Live x) = count x
<a href="../../machine/StateSpecs/index.html#slot_count">slot_count</a> count (Gone last) = last

-- the bytes of a memory
abbrev pub <b id="byte_count">byte_count</b> : <a href="../../store/MemorySpecs/index.html#MemoryValue">MemoryValue</a> → ℕ
<a href="../../machine/StateSpecs/index.html#byte_count">byte_count</a> x = length x.bytes

-- the sizes of one kind: of the memories in bytes, or of the tables in elements, dropped ones at their last
abbrev pub <b id="sizes">sizes</b> : <a href="../../machine/StateSpecs/index.html#State">State</a> → Kind → List ℕ
<a href="../../machine/StateSpecs/index.html#sizes">sizes</a> s Bytes = map (<a href="../../machine/StateSpecs/index.html#slot_count">slot_count</a> <a href="../../machine/StateSpecs/index.html#byte_count">byte_count</a>) s.memories
<a href="../../machine/StateSpecs/index.html#sizes">sizes</a> s Elements = map (<a href="../../machine/StateSpecs/index.html#slot_count">slot_count</a> <a href="../../store/TableSpecs/index.html#size_of">size_of</a>) s.tables

-- their sum
abbrev pub <b id="total">total</b> : <a href="../../machine/StateSpecs/index.html#State">State</a> → Kind → ℕ
<a href="../../machine/StateSpecs/index.html#total">total</a> s kind = sum (<a href="../../machine/StateSpecs/index.html#sizes">sizes</a> s kind)

-- exactly the totals of the state are held
pub record <b id="HoldsTotals">HoldsTotals</b> (h : Holdings) (s : <a href="../../machine/StateSpecs/index.html#State">State</a>) : Type 0 where
  pub <b id="bytes">bytes</b> : h.held.<a href="../../machine/StateSpecs/index.html#bytes">bytes</a> ≡ <a href="../../machine/StateSpecs/index.html#total">total</a> s Bytes
  pub <b id="elements">elements</b> : h.held.<a href="../../machine/StateSpecs/index.html#elements">elements</a> ≡ <a href="../../machine/StateSpecs/index.html#total">total</a> s Elements

-- what is in a slot is valid, if it wasn&#x27;t dropped
abbrev pub <b id="IsValidSlot">IsValidSlot</b> : {X : Type 0} → (X → Type 0) → Slot X → Type 0
<a href="../../machine/StateSpecs/index.html#IsValidSlot">IsValidSlot</a> Valid (Live x) = Valid x
<a href="../../machine/StateSpecs/index.html#IsValidSlot">IsValidSlot</a> Valid (Gone size) = Unit {0}

-- a segment has at most the greatest number of items
abbrev pub <b id="IsValidSegment">IsValidSegment</b> : <a href="../../store/SegmentSpecs/index.html#SegmentValue">SegmentValue</a> → Type 0
<a href="../../machine/StateSpecs/index.html#IsValidSegment">IsValidSegment</a> segment = length segment.items ≤ <a href="../../store/SegmentSpecs/index.html#most_items">most_items</a>

-- memories and tables have valid types and as many whole pages and elements as these allow, segments aren&#x27;t too long,
-- and there are 16 registers
pub record <b id="IsValid">IsValid</b> (s : <a href="../../machine/StateSpecs/index.html#State">State</a>) : Type 0 where
  pub <b id="memories">memories</b> : All (<a href="../../machine/StateSpecs/index.html#IsValidSlot">IsValidSlot</a> <a href="../../store/MemorySpecs/index.html#IsValidMemory">IsValidMemory</a>) s.memories
  pub <b id="tables">tables</b> : All (<a href="../../machine/StateSpecs/index.html#IsValidSlot">IsValidSlot</a> <a href="../../store/TableSpecs/index.html#IsValidTable">IsValidTable</a>) s.tables
  pub <b id="segments">segments</b> : All <a href="../../machine/StateSpecs/index.html#IsValidSegment">IsValidSegment</a> s.segments
  pub <b id="registers">registers</b> : length s.registers ≡ 16

-- a type that a call names is valid
abbrev pub <b id="IsValidCall">IsValidCall</b> : Call → Type 0
<a href="../../machine/StateSpecs/index.html#IsValidCall">IsValidCall</a> (NewMemory ty) = <a href="../../store/MemorySpecs/index.html#IsValid">memory.IsValid</a> ty
<a href="../../machine/StateSpecs/index.html#IsValidCall">IsValidCall</a> (NewLentMemory ty) = <a href="../../store/MemorySpecs/index.html#IsValid">memory.IsValid</a> ty
<a href="../../machine/StateSpecs/index.html#IsValidCall">IsValidCall</a> (NewTable ty init) = <a href="../../store/TableSpecs/index.html#IsValid">table.IsValid</a> ty
<a href="../../machine/StateSpecs/index.html#IsValidCall">IsValidCall</a> <a href="../../machine/StateSpecs/index.html#call">call</a> = Unit {0}
</code></pre>
"####]
    pub mod StateSpecs {}
    #[doc = r####"Steps and runs of a machine: the subject and the effect of each call, the vector that it makes, whether it is charged for what it writes, what each effect changes in a world, the replies to it, also by a copy of a slice, and turns one after another.

<pre><code>use Rattle.std.specs.Prelude.{◌≡◌, ◌⊎◌, ◌+◌, ◌&lt;◌, ◌≤◌, ℕ, Bool, true, false, List, Option, Some, None, Result, Ok, Vec, slice_get, [], ◌∷◌, length, map, option_map, option_and_then}
use Rattle.std.specs.Global.{Global}
use Rattle.wasmi_types.specs.Numbers.{<a href="../../types/NumbersSpecs/index.html#le_bytes">le_bytes</a>}
use Rattle.wasmi_types.specs.declared.{trap.TrapCode.TrapCode, value.RefType.RefType}
use Rattle.wasmi_raw.specs.declared.raw.RawVal.{RawVal}
use Rattle.wasmi_typed.specs.declared.{typed.TypedRawVal.TypedRawVal, typed_ref.TypedRawRef.TypedRawRef}
use Rattle.wasmi_typed.specs.Global.{<a href="../../typed/GlobalSpecs/index.html#GlobalInstance">GlobalInstance</a>}
use Rattle.wasmi_lanewise.specs.VectorTable.{<a href="../../lanewise/VectorTableSpecs/index.html#shuffle">shuffle</a>}
use Rattle.wasmi_ops.specs.VectorOps.{<a href="../../ops/VectorOpsSpecs/index.html#binary_vector">binary_vector</a>, <a href="../../ops/VectorOpsSpecs/index.html#made_vector">made_vector</a>, <a href="../../ops/VectorOpsSpecs/index.html#shifted_vector">shifted_vector</a>, <a href="../../ops/VectorOpsSpecs/index.html#ternary_vector">ternary_vector</a>, <a href="../../ops/VectorOpsSpecs/index.html#tested_raw">tested_raw</a>, <a href="../../ops/VectorOpsSpecs/index.html#unary_vector">unary_vector</a>}
use Rattle.wasmi_ops.specs.LaneOps.{<a href="../../ops/LaneOpsSpecs/index.html#extracted_raw">extracted_raw</a>, <a href="../../ops/LaneOpsSpecs/index.html#replaced_vector">replaced_vector</a>, <a href="../../ops/LaneOpsSpecs/index.html#stored_lane">stored_lane</a>}
use Rattle.wasmi_meter.specs.Limiter.{<a href="../../meter/LimiterSpecs/index.html#Rules">Rules</a>}
use Rattle.wasmi_store.specs.Buffer.{<a href="../../store/BufferSpecs/index.html#Owned">Owned</a>}
use Rattle.wasmi_store.specs.Memory.{<a href="../../store/MemorySpecs/index.html#MemoryTypeValue">MemoryTypeValue</a>, <a href="../../store/MemorySpecs/index.html#MakesMemory">MakesMemory</a>, <a href="../../store/MemorySpecs/index.html#GrowsMemoryCharging">GrowsMemoryCharging</a>}
use Rattle.wasmi_store.specs.Table.{<a href="../../store/TableSpecs/index.html#TableTypeValue">TableTypeValue</a>, <a href="../../store/TableSpecs/index.html#size_of">size_of</a>, <a href="../../store/TableSpecs/index.html#MakesTable">MakesTable</a>, <a href="../../store/TableSpecs/index.html#GrowsTableCharging">GrowsTableCharging</a>}
use Rattle.wasmi_machine.specs.declared.{calls.Call.Call, calls.Reply.Reply}
use Rattle.wasmi_machine.specs.State.{<a href="../../machine/StateSpecs/index.html#World">World</a>, <a href="../../machine/StateSpecs/index.html#Turn">Turn</a>, <a href="../../machine/StateSpecs/index.html#TurnOutcome">TurnOutcome</a>, <a href="../../machine/StateSpecs/index.html#outcome_of">outcome_of</a>, <a href="../../machine/StateSpecs/index.html#world">world</a>, <a href="../../machine/StateSpecs/index.html#State">State</a>, <a href="../../machine/StateSpecs/index.html#live_at">live_at</a>, <a href="../../machine/StateSpecs/index.html#with_memories">with_memories</a>, <a href="../../machine/StateSpecs/index.html#memory_part">memory_part</a>, <a href="../../machine/StateSpecs/index.html#with_tables">with_tables</a>, <a href="../../machine/StateSpecs/index.html#with_segments">with_segments</a>, <a href="../../machine/StateSpecs/index.html#with_data_segments">with_data_segments</a>, <a href="../../machine/StateSpecs/index.html#with_globals">with_globals</a>, <a href="../../machine/StateSpecs/index.html#with_registers">with_registers</a>, <a href="../../machine/StateSpecs/index.html#byte_count">byte_count</a>}
use Rattle.wasmi_machine.specs.Effects.{<a href="../../machine/EffectsSpecs/index.html#reply_of">reply_of</a>, <a href="../../machine/EffectsSpecs/index.html#AddsItem">AddsItem</a>, <a href="../../machine/EffectsSpecs/index.html#Creates">Creates</a>, <a href="../../machine/EffectsSpecs/index.html#DropsAt">DropsAt</a>, <a href="../../machine/EffectsSpecs/index.html#ActsAt">ActsAt</a>, <a href="../../machine/EffectsSpecs/index.html#ChangesPart">ChangesPart</a>, <a href="../../machine/EffectsSpecs/index.html#OnlyReplies">OnlyReplies</a>, <a href="../../machine/EffectsSpecs/index.html#Changes">Changes</a>, <a href="../../machine/EffectsSpecs/index.html#Asks">Asks</a>, <a href="../../machine/EffectsSpecs/index.html#ActsMetered">ActsMetered</a>, <a href="../../machine/EffectsSpecs/index.html#ActsMeteredUnasked">ActsMeteredUnasked</a>, <a href="../../machine/EffectsSpecs/index.html#WritesRangeAt">WritesRangeAt</a>, <a href="../../machine/EffectsSpecs/index.html#item_bytes">item_bytes</a>}
use Rattle.wasmi_ops.specs.LoadStoreOps.{<a href="../../ops/LoadStoreOpsSpecs/index.html#stored_bytes">stored_bytes</a>}
use Rattle.wasmi_machine.specs.ValueEffects.{<a href="../../machine/ValueEffectsSpecs/index.html#SetsFuel">SetsFuel</a>, <a href="../../machine/ValueEffectsSpecs/index.html#get_fuel_reply">get_fuel_reply</a>, <a href="../../machine/ValueEffectsSpecs/index.html#CreatesSegment">CreatesSegment</a>, <a href="../../machine/ValueEffectsSpecs/index.html#DropsItemsAt">DropsItemsAt</a>, <a href="../../machine/ValueEffectsSpecs/index.html#DropsDataAt">DropsDataAt</a>, <a href="../../machine/ValueEffectsSpecs/index.html#SetsGlobalAt">SetsGlobalAt</a>, <a href="../../machine/ValueEffectsSpecs/index.html#global_reply">global_reply</a>}
use Rattle.wasmi_machine.specs.MemoryEffects.{<a href="../../machine/MemoryEffectsSpecs/index.html#ByteSource">ByteSource</a>, <a href="../../machine/MemoryEffectsSpecs/index.html#byte_write_of">byte_write_of</a>, <a href="../../machine/MemoryEffectsSpecs/index.html#bytes_in">bytes_in</a>, <a href="../../machine/MemoryEffectsSpecs/index.html#bytes_appended">bytes_appended</a>, <a href="../../machine/MemoryEffectsSpecs/index.html#CreatesLent">CreatesLent</a>, <a href="../../machine/MemoryEffectsSpecs/index.html#ReadsMemoryAt">ReadsMemoryAt</a>, <a href="../../machine/MemoryEffectsSpecs/index.html#WritesMemoryAt">WritesMemoryAt</a>, <a href="../../machine/MemoryEffectsSpecs/index.html#load_reply">load_reply</a>}
use Rattle.wasmi_machine.specs.TableEffects.{<a href="../../machine/TableEffectsSpecs/index.html#Source">Source</a>, <a href="../../machine/TableEffectsSpecs/index.html#element_reply">element_reply</a>, <a href="../../machine/TableEffectsSpecs/index.html#SetsElementAt">SetsElementAt</a>, <a href="../../machine/TableEffectsSpecs/index.html#write_of">write_of</a>, <a href="../../machine/TableEffectsSpecs/index.html#element_bytes">element_bytes</a>}
use Rattle.wasmi_machine.specs.RegisterEffects.{<a href="../../machine/RegisterEffectsSpecs/index.html#SetsRegister">SetsRegister</a>, <a href="../../machine/RegisterEffectsSpecs/index.html#StoresVectorAt">StoresVectorAt</a>, <a href="../../machine/RegisterEffectsSpecs/index.html#given_vector">given_vector</a>, <a href="../../machine/RegisterEffectsSpecs/index.html#of_one">of_one</a>, <a href="../../machine/RegisterEffectsSpecs/index.html#of_two">of_two</a>, <a href="../../machine/RegisterEffectsSpecs/index.html#of_three">of_three</a>, <a href="../../machine/RegisterEffectsSpecs/index.html#vector_loaded">vector_loaded</a>, <a href="../../machine/RegisterEffectsSpecs/index.html#lane_loaded">lane_loaded</a>, <a href="../../machine/RegisterEffectsSpecs/index.html#raw_reply">raw_reply</a>, <a href="../../machine/RegisterEffectsSpecs/index.html#vector_at">vector_at</a>}
use Rattle.wasmi_machine.specs.MemoryEffects as byte_source
use Rattle.wasmi_machine.specs.TableEffects as element_source
use Rattle.wasmi_machine.specs.declared.calls.Call.TheVariants as call
use Rattle.wasmi_machine.specs.declared.calls.Reply.TheVariants as reply

-- what a call is about
pub data <b id="Subject">Subject</b> : Type 0 where
  <b id="TheMeter">TheMeter</b> <b id="Memories">Memories</b> <b id="Tables">Tables</b> <b id="Values">Values</b> <b id="RegisterFile">RegisterFile</b> <b id="VectorAccesses">VectorAccesses</b> : <a href="../../machine/StepsSpecs/index.html#Subject">Subject</a>

-- What tools/generate writes begins.
-- what each call is about
abbrev pub <b id="subject_of">subject_of</b> : Call → <a href="../../machine/StepsSpecs/index.html#Subject">Subject</a>
<a href="../../machine/StepsSpecs/index.html#subject_of">subject_of</a> (call.SetFuel fuel) = <a href="../../machine/StepsSpecs/index.html#TheMeter">TheMeter</a>
<a href="../../machine/StepsSpecs/index.html#subject_of">subject_of</a> call.GetFuel = <a href="../../machine/StepsSpecs/index.html#TheMeter">TheMeter</a>
<a href="../../machine/StepsSpecs/index.html#subject_of">subject_of</a> (call.NewMemory ty) = <a href="../../machine/StepsSpecs/index.html#Memories">Memories</a>
<a href="../../machine/StepsSpecs/index.html#subject_of">subject_of</a> (call.NewLentMemory ty) = <a href="../../machine/StepsSpecs/index.html#Memories">Memories</a>
<a href="../../machine/StepsSpecs/index.html#subject_of">subject_of</a> (call.GrowMemory memory pages) = <a href="../../machine/StepsSpecs/index.html#Memories">Memories</a>
<a href="../../machine/StepsSpecs/index.html#subject_of">subject_of</a> (call.DropMemory memory) = <a href="../../machine/StepsSpecs/index.html#Memories">Memories</a>
<a href="../../machine/StepsSpecs/index.html#subject_of">subject_of</a> (call.Read memory offset len) = <a href="../../machine/StepsSpecs/index.html#Memories">Memories</a>
<a href="../../machine/StepsSpecs/index.html#subject_of">subject_of</a> (call.Write memory offset bytes) = <a href="../../machine/StepsSpecs/index.html#Memories">Memories</a>
<a href="../../machine/StepsSpecs/index.html#subject_of">subject_of</a> (call.Load op memory ptr offset) = <a href="../../machine/StepsSpecs/index.html#Memories">Memories</a>
<a href="../../machine/StepsSpecs/index.html#subject_of">subject_of</a> (call.Store op memory ptr offset value) = <a href="../../machine/StepsSpecs/index.html#Memories">Memories</a>
<a href="../../machine/StepsSpecs/index.html#subject_of">subject_of</a> (call.FillMemory memory dst value len) = <a href="../../machine/StepsSpecs/index.html#Memories">Memories</a>
<a href="../../machine/StepsSpecs/index.html#subject_of">subject_of</a> (call.CopyMemory dst_memory dst src_memory src len) = <a href="../../machine/StepsSpecs/index.html#Memories">Memories</a>
<a href="../../machine/StepsSpecs/index.html#subject_of">subject_of</a> (call.InitMemory memory segment dst src len) = <a href="../../machine/StepsSpecs/index.html#Memories">Memories</a>
<a href="../../machine/StepsSpecs/index.html#subject_of">subject_of</a> (call.NewTable ty init) = <a href="../../machine/StepsSpecs/index.html#Tables">Tables</a>
<a href="../../machine/StepsSpecs/index.html#subject_of">subject_of</a> (call.GrowTable table delta init) = <a href="../../machine/StepsSpecs/index.html#Tables">Tables</a>
<a href="../../machine/StepsSpecs/index.html#subject_of">subject_of</a> (call.DropTable table) = <a href="../../machine/StepsSpecs/index.html#Tables">Tables</a>
<a href="../../machine/StepsSpecs/index.html#subject_of">subject_of</a> (call.GetElement table index) = <a href="../../machine/StepsSpecs/index.html#Tables">Tables</a>
<a href="../../machine/StepsSpecs/index.html#subject_of">subject_of</a> (call.SetElement table index value) = <a href="../../machine/StepsSpecs/index.html#Tables">Tables</a>
<a href="../../machine/StepsSpecs/index.html#subject_of">subject_of</a> (call.InitTable table segment dst src len) = <a href="../../machine/StepsSpecs/index.html#Tables">Tables</a>
<a href="../../machine/StepsSpecs/index.html#subject_of">subject_of</a> (call.CopyTable dst_table dst src_table src len) = <a href="../../machine/StepsSpecs/index.html#Tables">Tables</a>
<a href="../../machine/StepsSpecs/index.html#subject_of">subject_of</a> (call.FillTable table dst value len) = <a href="../../machine/StepsSpecs/index.html#Tables">Tables</a>
<a href="../../machine/StepsSpecs/index.html#subject_of">subject_of</a> (call.NewSegment ty items) = <a href="../../machine/StepsSpecs/index.html#Values">Values</a>
<a href="../../machine/StepsSpecs/index.html#subject_of">subject_of</a> (call.DropItems segment) = <a href="../../machine/StepsSpecs/index.html#Values">Values</a>
<a href="../../machine/StepsSpecs/index.html#subject_of">subject_of</a> (call.NewData bytes) = <a href="../../machine/StepsSpecs/index.html#Values">Values</a>
<a href="../../machine/StepsSpecs/index.html#subject_of">subject_of</a> (call.DropData segment) = <a href="../../machine/StepsSpecs/index.html#Values">Values</a>
<a href="../../machine/StepsSpecs/index.html#subject_of">subject_of</a> (call.NewGlobal value ty) = <a href="../../machine/StepsSpecs/index.html#Values">Values</a>
<a href="../../machine/StepsSpecs/index.html#subject_of">subject_of</a> (call.SetGlobal global value) = <a href="../../machine/StepsSpecs/index.html#Values">Values</a>
<a href="../../machine/StepsSpecs/index.html#subject_of">subject_of</a> (call.GetGlobal global) = <a href="../../machine/StepsSpecs/index.html#Values">Values</a>
<a href="../../machine/StepsSpecs/index.html#subject_of">subject_of</a> (call.VectorLoad op dst memory ptr offset) = <a href="../../machine/StepsSpecs/index.html#VectorAccesses">VectorAccesses</a>
<a href="../../machine/StepsSpecs/index.html#subject_of">subject_of</a> (call.LoadLane op dst a memory ptr offset) = <a href="../../machine/StepsSpecs/index.html#VectorAccesses">VectorAccesses</a>
<a href="../../machine/StepsSpecs/index.html#subject_of">subject_of</a> (call.VectorStore a memory ptr offset) = <a href="../../machine/StepsSpecs/index.html#VectorAccesses">VectorAccesses</a>
<a href="../../machine/StepsSpecs/index.html#subject_of">subject_of</a> (call.StoreLane op a memory ptr offset) = <a href="../../machine/StepsSpecs/index.html#VectorAccesses">VectorAccesses</a>
<a href="../../machine/StepsSpecs/index.html#subject_of">subject_of</a> call = <a href="../../machine/StepsSpecs/index.html#RegisterFile">RegisterFile</a>

-- the calls that are charged for what they write: growths, and those that write over a range of a memory or a table
abbrev pub <b id="is_charged">is_charged</b> : Call → Bool
<a href="../../machine/StepsSpecs/index.html#is_charged">is_charged</a> (call.GrowMemory memory pages) = true
<a href="../../machine/StepsSpecs/index.html#is_charged">is_charged</a> (call.FillMemory memory dst value len) = true
<a href="../../machine/StepsSpecs/index.html#is_charged">is_charged</a> (call.CopyMemory dst_memory dst src_memory src len) = true
<a href="../../machine/StepsSpecs/index.html#is_charged">is_charged</a> (call.InitMemory memory segment dst src len) = true
<a href="../../machine/StepsSpecs/index.html#is_charged">is_charged</a> (call.GrowTable table delta init) = true
<a href="../../machine/StepsSpecs/index.html#is_charged">is_charged</a> (call.InitTable table segment dst src len) = true
<a href="../../machine/StepsSpecs/index.html#is_charged">is_charged</a> (call.CopyTable dst_table dst src_table src len) = true
<a href="../../machine/StepsSpecs/index.html#is_charged">is_charged</a> (call.FillTable table dst value len) = true
<a href="../../machine/StepsSpecs/index.html#is_charged">is_charged</a> call = false

-- What tools/generate writes ends.

-- what changes one part of the state, but for the meter: nothing is charged, and the limiter isn&#x27;t reached
pub data <b id="Change">Change</b> : Type 0 where
  <b id="BytesWritten">BytesWritten</b> : ℕ → ℕ → List ℕ → <a href="../../machine/StepsSpecs/index.html#Change">Change</a>
  <b id="BytesStored">BytesStored</b> : ℕ → ℕ → Option (List ℕ) → <a href="../../machine/StepsSpecs/index.html#Change">Change</a>
  <b id="RegisterSet">RegisterSet</b> : ℕ → Option (Result RawVal TrapCode) → <a href="../../machine/StepsSpecs/index.html#Change">Change</a>
  <b id="MemoryDropped">MemoryDropped</b> <b id="TableDropped">TableDropped</b> <b id="ItemsDropped">ItemsDropped</b> <b id="DataDropped">DataDropped</b> : ℕ → <a href="../../machine/StepsSpecs/index.html#Change">Change</a>
  <b id="ElementSet">ElementSet</b> : ℕ → ℕ → TypedRawRef → <a href="../../machine/StepsSpecs/index.html#Change">Change</a>
  <b id="SegmentMade">SegmentMade</b> : RefType → List ℕ → <a href="../../machine/StepsSpecs/index.html#Change">Change</a>
  <b id="DataMade">DataMade</b> : List ℕ → <a href="../../machine/StepsSpecs/index.html#Change">Change</a>
  <b id="GlobalMade">GlobalMade</b> : <a href="../../typed/GlobalSpecs/index.html#GlobalInstance">GlobalInstance</a> → <a href="../../machine/StepsSpecs/index.html#Change">Change</a>
  <b id="GlobalSet">GlobalSet</b> : ℕ → TypedRawVal → <a href="../../machine/StepsSpecs/index.html#Change">Change</a>

-- what is written over a range of one part of the state, with a charge, without the limiter
pub data <b id="RangeWrite">RangeWrite</b> : Type 0 where
  <b id="TableWritten">TableWritten</b> : ℕ → <a href="../../machine/TableEffectsSpecs/index.html#Source">Source</a> → ℕ → ℕ → <a href="../../machine/StepsSpecs/index.html#RangeWrite">RangeWrite</a>
  <b id="MemoryWritten">MemoryWritten</b> : ℕ → <a href="../../machine/MemoryEffectsSpecs/index.html#ByteSource">ByteSource</a> → ℕ → ℕ → <a href="../../machine/StepsSpecs/index.html#RangeWrite">RangeWrite</a>

-- what a call does, once its operands are read: all calls that only reply what is known have one kind of effect, all
-- that change one part alone another, and all that write over a range of one part a third
pub data <b id="Effect">Effect</b> : Type 0 where
  <b id="Told">Told</b> : Reply → <a href="../../machine/StepsSpecs/index.html#Effect">Effect</a>
  <b id="BytesRead">BytesRead</b> : ℕ → ℕ → ℕ → <a href="../../machine/StepsSpecs/index.html#Effect">Effect</a>
  <b id="FuelSet">FuelSet</b> : ℕ → <a href="../../machine/StepsSpecs/index.html#Effect">Effect</a>
  <b id="Changed">Changed</b> : <a href="../../machine/StepsSpecs/index.html#Change">Change</a> → <a href="../../machine/StepsSpecs/index.html#Effect">Effect</a>
  <b id="MemoryMade">MemoryMade</b> <b id="LentMemoryMade">LentMemoryMade</b> : <a href="../../store/MemorySpecs/index.html#MemoryTypeValue">MemoryTypeValue</a> → <a href="../../machine/StepsSpecs/index.html#Effect">Effect</a>
  <b id="MemoryGrown">MemoryGrown</b> : ℕ → ℕ → <a href="../../machine/StepsSpecs/index.html#Effect">Effect</a>
  <b id="TableMade">TableMade</b> : <a href="../../store/TableSpecs/index.html#TableTypeValue">TableTypeValue</a> → TypedRawRef → <a href="../../machine/StepsSpecs/index.html#Effect">Effect</a>
  <b id="TableGrown">TableGrown</b> : ℕ → ℕ → TypedRawRef → <a href="../../machine/StepsSpecs/index.html#Effect">Effect</a>
  <b id="RangeWritten">RangeWritten</b> : <a href="../../machine/StepsSpecs/index.html#RangeWrite">RangeWrite</a> → <a href="../../machine/StepsSpecs/index.html#Effect">Effect</a>

-- What tools/generate writes begins.
-- what a call that makes a vector of what is in registers gives the register of its result
abbrev pub <b id="vector_given">vector_given</b> : List RawVal → Call → Option (Result RawVal TrapCode)
<a href="../../machine/StepsSpecs/index.html#vector_given">vector_given</a> rs (call.Make op dst a) = option_map (λ raw. <a href="../../machine/RegisterEffectsSpecs/index.html#given_vector">given_vector</a> (<a href="../../ops/VectorOpsSpecs/index.html#made_vector">made_vector</a> op raw)) (slice_get rs a)
<a href="../../machine/StepsSpecs/index.html#vector_given">vector_given</a> rs (call.Unary op dst a) = <a href="../../machine/RegisterEffectsSpecs/index.html#of_one">of_one</a> (<a href="../../ops/VectorOpsSpecs/index.html#unary_vector">unary_vector</a> op) (<a href="../../machine/RegisterEffectsSpecs/index.html#vector_at">vector_at</a> rs a)
<a href="../../machine/StepsSpecs/index.html#vector_given">vector_given</a> rs (call.Binary op dst a b) = <a href="../../machine/RegisterEffectsSpecs/index.html#of_two">of_two</a> (<a href="../../ops/VectorOpsSpecs/index.html#binary_vector">binary_vector</a> op) (<a href="../../machine/RegisterEffectsSpecs/index.html#vector_at">vector_at</a> rs a) (<a href="../../machine/RegisterEffectsSpecs/index.html#vector_at">vector_at</a> rs b)
<a href="../../machine/StepsSpecs/index.html#vector_given">vector_given</a> rs (call.Ternary op dst a b c) = <a href="../../machine/RegisterEffectsSpecs/index.html#of_three">of_three</a> (<a href="../../ops/VectorOpsSpecs/index.html#ternary_vector">ternary_vector</a> op) (<a href="../../machine/RegisterEffectsSpecs/index.html#vector_at">vector_at</a> rs a) (<a href="../../machine/RegisterEffectsSpecs/index.html#vector_at">vector_at</a> rs b)
    (<a href="../../machine/RegisterEffectsSpecs/index.html#vector_at">vector_at</a> rs c)
<a href="../../machine/StepsSpecs/index.html#vector_given">vector_given</a> rs (call.Shift op dst a amount) = <a href="../../machine/RegisterEffectsSpecs/index.html#of_one">of_one</a> (λ v. <a href="../../ops/VectorOpsSpecs/index.html#shifted_vector">shifted_vector</a> op v amount) (<a href="../../machine/RegisterEffectsSpecs/index.html#vector_at">vector_at</a> rs a)
<a href="../../machine/StepsSpecs/index.html#vector_given">vector_given</a> rs (call.Replace op dst a item) = option_and_then
    (λ raw. <a href="../../machine/RegisterEffectsSpecs/index.html#of_one">of_one</a> (λ v. <a href="../../ops/LaneOpsSpecs/index.html#replaced_vector">replaced_vector</a> op v raw) (<a href="../../machine/RegisterEffectsSpecs/index.html#vector_at">vector_at</a> rs a)) (slice_get rs item)
<a href="../../machine/StepsSpecs/index.html#vector_given">vector_given</a> rs (call.Shuffle dst a b lanes) = <a href="../../machine/RegisterEffectsSpecs/index.html#of_two">of_two</a> (λ x y. <a href="../../lanewise/VectorTableSpecs/index.html#shuffle">shuffle</a> x y lanes) (<a href="../../machine/RegisterEffectsSpecs/index.html#vector_at">vector_at</a> rs a) (<a href="../../machine/RegisterEffectsSpecs/index.html#vector_at">vector_at</a> rs b)
<a href="../../machine/StepsSpecs/index.html#vector_given">vector_given</a> rs call = None

-- a call makes a vector of what is in registers
abbrev pub <b id="MakesVector">MakesVector</b> : Call → Type 0
<a href="../../machine/StepsSpecs/index.html#MakesVector">MakesVector</a> (call.Make op dst a) = Unit {0}
<a href="../../machine/StepsSpecs/index.html#MakesVector">MakesVector</a> (call.Unary op dst a) = Unit {0}
<a href="../../machine/StepsSpecs/index.html#MakesVector">MakesVector</a> (call.Binary op dst a b) = Unit {0}
<a href="../../machine/StepsSpecs/index.html#MakesVector">MakesVector</a> (call.Ternary op dst a b c) = Unit {0}
<a href="../../machine/StepsSpecs/index.html#MakesVector">MakesVector</a> (call.Shift op dst a amount) = Unit {0}
<a href="../../machine/StepsSpecs/index.html#MakesVector">MakesVector</a> (call.Replace op dst a item) = Unit {0}
<a href="../../machine/StepsSpecs/index.html#MakesVector">MakesVector</a> (call.Shuffle dst a b lanes) = Unit {0}
<a href="../../machine/StepsSpecs/index.html#MakesVector">MakesVector</a> call = ⊥

-- the effect of a call on a machine in this state
abbrev pub <b id="effect_of">effect_of</b> : <a href="../../machine/StateSpecs/index.html#State">State</a> → Call → <a href="../../machine/StepsSpecs/index.html#Effect">Effect</a>
<a href="../../machine/StepsSpecs/index.html#effect_of">effect_of</a> s (call.SetFuel fuel) = <a href="../../machine/StepsSpecs/index.html#FuelSet">FuelSet</a> fuel
<a href="../../machine/StepsSpecs/index.html#effect_of">effect_of</a> s call.GetFuel = <a href="../../machine/StepsSpecs/index.html#Told">Told</a> (<a href="../../machine/ValueEffectsSpecs/index.html#get_fuel_reply">get_fuel_reply</a> s.meter)
<a href="../../machine/StepsSpecs/index.html#effect_of">effect_of</a> s (call.NewMemory ty) = <a href="../../machine/StepsSpecs/index.html#MemoryMade">MemoryMade</a> ty
<a href="../../machine/StepsSpecs/index.html#effect_of">effect_of</a> s (call.NewLentMemory ty) = <a href="../../machine/StepsSpecs/index.html#LentMemoryMade">LentMemoryMade</a> ty
<a href="../../machine/StepsSpecs/index.html#effect_of">effect_of</a> s (call.GrowMemory memory pages) = <a href="../../machine/StepsSpecs/index.html#MemoryGrown">MemoryGrown</a> memory pages
<a href="../../machine/StepsSpecs/index.html#effect_of">effect_of</a> s (call.DropMemory memory) = <a href="../../machine/StepsSpecs/index.html#Changed">Changed</a> (<a href="../../machine/StepsSpecs/index.html#MemoryDropped">MemoryDropped</a> memory)
<a href="../../machine/StepsSpecs/index.html#effect_of">effect_of</a> s (call.Read memory offset len) = <a href="../../machine/StepsSpecs/index.html#BytesRead">BytesRead</a> memory offset len
<a href="../../machine/StepsSpecs/index.html#effect_of">effect_of</a> s (call.Write memory offset bytes) = <a href="../../machine/StepsSpecs/index.html#Changed">Changed</a> (<a href="../../machine/StepsSpecs/index.html#BytesWritten">BytesWritten</a> memory offset bytes.items)
<a href="../../machine/StepsSpecs/index.html#effect_of">effect_of</a> s (call.Load op memory ptr offset) = <a href="../../machine/StepsSpecs/index.html#Told">Told</a> (<a href="../../machine/MemoryEffectsSpecs/index.html#load_reply">load_reply</a> op (ptr + offset) (<a href="../../machine/StateSpecs/index.html#live_at">live_at</a> s.memories memory))
<a href="../../machine/StepsSpecs/index.html#effect_of">effect_of</a> s (call.Store op memory ptr offset value) = <a href="../../machine/StepsSpecs/index.html#Changed">Changed</a>
    (<a href="../../machine/StepsSpecs/index.html#BytesStored">BytesStored</a> memory (ptr + offset) (Some (<a href="../../ops/LoadStoreOpsSpecs/index.html#stored_bytes">stored_bytes</a> op value)))
<a href="../../machine/StepsSpecs/index.html#effect_of">effect_of</a> s (call.FillMemory memory dst value len) = <a href="../../machine/StepsSpecs/index.html#RangeWritten">RangeWritten</a>
    (<a href="../../machine/StepsSpecs/index.html#MemoryWritten">MemoryWritten</a> memory (<a href="../../machine/MemoryEffectsSpecs/index.html#OfByte">byte_source.OfByte</a> value) dst len)
<a href="../../machine/StepsSpecs/index.html#effect_of">effect_of</a> s (call.CopyMemory dst_memory dst src_memory src len) = <a href="../../machine/StepsSpecs/index.html#RangeWritten">RangeWritten</a> (<a href="../../machine/StepsSpecs/index.html#MemoryWritten">MemoryWritten</a> dst_memory
    (<a href="../../machine/MemoryEffectsSpecs/index.html#OfBytes">byte_source.OfBytes</a> (<a href="../../machine/MemoryEffectsSpecs/index.html#bytes_in">bytes_in</a> (<a href="../../machine/StateSpecs/index.html#live_at">live_at</a> s.memories src_memory)) src) dst len)
<a href="../../machine/StepsSpecs/index.html#effect_of">effect_of</a> s (call.InitMemory memory segment dst src len) = <a href="../../machine/StepsSpecs/index.html#RangeWritten">RangeWritten</a> (<a href="../../machine/StepsSpecs/index.html#MemoryWritten">MemoryWritten</a> memory
    (<a href="../../machine/MemoryEffectsSpecs/index.html#OfBytes">byte_source.OfBytes</a> (slice_get s.data_segments segment) src) dst len)
<a href="../../machine/StepsSpecs/index.html#effect_of">effect_of</a> s (call.NewTable ty init) = <a href="../../machine/StepsSpecs/index.html#TableMade">TableMade</a> ty init
<a href="../../machine/StepsSpecs/index.html#effect_of">effect_of</a> s (call.GrowTable table delta init) = <a href="../../machine/StepsSpecs/index.html#TableGrown">TableGrown</a> table delta init
<a href="../../machine/StepsSpecs/index.html#effect_of">effect_of</a> s (call.DropTable table) = <a href="../../machine/StepsSpecs/index.html#Changed">Changed</a> (<a href="../../machine/StepsSpecs/index.html#TableDropped">TableDropped</a> table)
<a href="../../machine/StepsSpecs/index.html#effect_of">effect_of</a> s (call.GetElement table index) = <a href="../../machine/StepsSpecs/index.html#Told">Told</a> (<a href="../../machine/TableEffectsSpecs/index.html#element_reply">element_reply</a> index (<a href="../../machine/StateSpecs/index.html#live_at">live_at</a> s.tables table))
<a href="../../machine/StepsSpecs/index.html#effect_of">effect_of</a> s (call.SetElement table index value) = <a href="../../machine/StepsSpecs/index.html#Changed">Changed</a> (<a href="../../machine/StepsSpecs/index.html#ElementSet">ElementSet</a> table index value)
<a href="../../machine/StepsSpecs/index.html#effect_of">effect_of</a> s (call.InitTable table segment dst src len) = <a href="../../machine/StepsSpecs/index.html#RangeWritten">RangeWritten</a> (<a href="../../machine/StepsSpecs/index.html#TableWritten">TableWritten</a> table
    (<a href="../../machine/TableEffectsSpecs/index.html#OfSegment">element_source.OfSegment</a> (slice_get s.segments segment) src) dst len)
<a href="../../machine/StepsSpecs/index.html#effect_of">effect_of</a> s (call.CopyTable dst_table dst src_table src len) = <a href="../../machine/StepsSpecs/index.html#RangeWritten">RangeWritten</a> (<a href="../../machine/StepsSpecs/index.html#TableWritten">TableWritten</a> dst_table
    (<a href="../../machine/TableEffectsSpecs/index.html#OfTable">element_source.OfTable</a> (<a href="../../machine/StateSpecs/index.html#live_at">live_at</a> s.tables src_table) src) dst len)
<a href="../../machine/StepsSpecs/index.html#effect_of">effect_of</a> s (call.FillTable table dst value len) = <a href="../../machine/StepsSpecs/index.html#RangeWritten">RangeWritten</a>
    (<a href="../../machine/StepsSpecs/index.html#TableWritten">TableWritten</a> table (<a href="../../machine/TableEffectsSpecs/index.html#OfReference">element_source.OfReference</a> value) dst len)
<a href="../../machine/StepsSpecs/index.html#effect_of">effect_of</a> s (call.NewSegment ty items) = <a href="../../machine/StepsSpecs/index.html#Changed">Changed</a> (<a href="../../machine/StepsSpecs/index.html#SegmentMade">SegmentMade</a> ty items.items)
<a href="../../machine/StepsSpecs/index.html#effect_of">effect_of</a> s (call.DropItems segment) = <a href="../../machine/StepsSpecs/index.html#Changed">Changed</a> (<a href="../../machine/StepsSpecs/index.html#ItemsDropped">ItemsDropped</a> segment)
<a href="../../machine/StepsSpecs/index.html#effect_of">effect_of</a> s (call.NewData bytes) = <a href="../../machine/StepsSpecs/index.html#Changed">Changed</a> (<a href="../../machine/StepsSpecs/index.html#DataMade">DataMade</a> bytes.items)
<a href="../../machine/StepsSpecs/index.html#effect_of">effect_of</a> s (call.DropData segment) = <a href="../../machine/StepsSpecs/index.html#Changed">Changed</a> (<a href="../../machine/StepsSpecs/index.html#DataDropped">DataDropped</a> segment)
<a href="../../machine/StepsSpecs/index.html#effect_of">effect_of</a> s (call.NewGlobal value ty) = <a href="../../machine/StepsSpecs/index.html#Changed">Changed</a> (<a href="../../machine/StepsSpecs/index.html#GlobalMade">GlobalMade</a> (record { value = value; ty = ty }))
<a href="../../machine/StepsSpecs/index.html#effect_of">effect_of</a> s (call.SetGlobal global value) = <a href="../../machine/StepsSpecs/index.html#Changed">Changed</a> (<a href="../../machine/StepsSpecs/index.html#GlobalSet">GlobalSet</a> global value)
<a href="../../machine/StepsSpecs/index.html#effect_of">effect_of</a> s (call.GetGlobal global) = <a href="../../machine/StepsSpecs/index.html#Told">Told</a> (<a href="../../machine/ValueEffectsSpecs/index.html#global_reply">global_reply</a> (slice_get s.globals global))
<a href="../../machine/StepsSpecs/index.html#effect_of">effect_of</a> s (call.SetRegister dst value) = <a href="../../machine/StepsSpecs/index.html#Changed">Changed</a> (<a href="../../machine/StepsSpecs/index.html#RegisterSet">RegisterSet</a> dst (Some (Ok value)))
<a href="../../machine/StepsSpecs/index.html#effect_of">effect_of</a> s (call.GetRegister a) = <a href="../../machine/StepsSpecs/index.html#Told">Told</a> (<a href="../../machine/RegisterEffectsSpecs/index.html#raw_reply">raw_reply</a> (slice_get s.registers a))
<a href="../../machine/StepsSpecs/index.html#effect_of">effect_of</a> s (call.Make op dst a) = <a href="../../machine/StepsSpecs/index.html#Changed">Changed</a> (<a href="../../machine/StepsSpecs/index.html#RegisterSet">RegisterSet</a> dst (<a href="../../machine/StepsSpecs/index.html#vector_given">vector_given</a> s.registers (call.Make op dst a)))
<a href="../../machine/StepsSpecs/index.html#effect_of">effect_of</a> s (call.Unary op dst a) = <a href="../../machine/StepsSpecs/index.html#Changed">Changed</a> (<a href="../../machine/StepsSpecs/index.html#RegisterSet">RegisterSet</a> dst (<a href="../../machine/StepsSpecs/index.html#vector_given">vector_given</a> s.registers (call.Unary op dst a)))
<a href="../../machine/StepsSpecs/index.html#effect_of">effect_of</a> s (call.Binary op dst a b) = <a href="../../machine/StepsSpecs/index.html#Changed">Changed</a> (<a href="../../machine/StepsSpecs/index.html#RegisterSet">RegisterSet</a> dst (<a href="../../machine/StepsSpecs/index.html#vector_given">vector_given</a> s.registers (call.Binary op dst a b)))
<a href="../../machine/StepsSpecs/index.html#effect_of">effect_of</a> s (call.Ternary op dst a b c) = <a href="../../machine/StepsSpecs/index.html#Changed">Changed</a>
    (<a href="../../machine/StepsSpecs/index.html#RegisterSet">RegisterSet</a> dst (<a href="../../machine/StepsSpecs/index.html#vector_given">vector_given</a> s.registers (call.Ternary op dst a b c)))
<a href="../../machine/StepsSpecs/index.html#effect_of">effect_of</a> s (call.Shift op dst a amount) = <a href="../../machine/StepsSpecs/index.html#Changed">Changed</a>
    (<a href="../../machine/StepsSpecs/index.html#RegisterSet">RegisterSet</a> dst (<a href="../../machine/StepsSpecs/index.html#vector_given">vector_given</a> s.registers (call.Shift op dst a amount)))
<a href="../../machine/StepsSpecs/index.html#effect_of">effect_of</a> s (call.Test op a) = <a href="../../machine/StepsSpecs/index.html#Told">Told</a> (<a href="../../machine/RegisterEffectsSpecs/index.html#raw_reply">raw_reply</a> (option_map (<a href="../../ops/VectorOpsSpecs/index.html#tested_raw">tested_raw</a> op) (<a href="../../machine/RegisterEffectsSpecs/index.html#vector_at">vector_at</a> s.registers a)))
<a href="../../machine/StepsSpecs/index.html#effect_of">effect_of</a> s (call.Extract op a) = <a href="../../machine/StepsSpecs/index.html#Told">Told</a> (<a href="../../machine/RegisterEffectsSpecs/index.html#raw_reply">raw_reply</a> (option_map (<a href="../../ops/LaneOpsSpecs/index.html#extracted_raw">extracted_raw</a> op) (<a href="../../machine/RegisterEffectsSpecs/index.html#vector_at">vector_at</a> s.registers a)))
<a href="../../machine/StepsSpecs/index.html#effect_of">effect_of</a> s (call.Replace op dst a item) = <a href="../../machine/StepsSpecs/index.html#Changed">Changed</a>
    (<a href="../../machine/StepsSpecs/index.html#RegisterSet">RegisterSet</a> dst (<a href="../../machine/StepsSpecs/index.html#vector_given">vector_given</a> s.registers (call.Replace op dst a item)))
<a href="../../machine/StepsSpecs/index.html#effect_of">effect_of</a> s (call.Shuffle dst a b lanes) = <a href="../../machine/StepsSpecs/index.html#Changed">Changed</a>
    (<a href="../../machine/StepsSpecs/index.html#RegisterSet">RegisterSet</a> dst (<a href="../../machine/StepsSpecs/index.html#vector_given">vector_given</a> s.registers (call.Shuffle dst a b lanes)))
<a href="../../machine/StepsSpecs/index.html#effect_of">effect_of</a> s (call.VectorLoad op dst memory ptr offset) = <a href="../../machine/StepsSpecs/index.html#Changed">Changed</a> (<a href="../../machine/StepsSpecs/index.html#RegisterSet">RegisterSet</a> dst
    (<a href="../../machine/RegisterEffectsSpecs/index.html#vector_loaded">vector_loaded</a> op (ptr + offset) (<a href="../../machine/StateSpecs/index.html#live_at">live_at</a> s.memories memory)))
<a href="../../machine/StepsSpecs/index.html#effect_of">effect_of</a> s (call.LoadLane op dst a memory ptr offset) = <a href="../../machine/StepsSpecs/index.html#Changed">Changed</a> (<a href="../../machine/StepsSpecs/index.html#RegisterSet">RegisterSet</a> dst (<a href="../../machine/RegisterEffectsSpecs/index.html#lane_loaded">lane_loaded</a> op (ptr + offset)
    (<a href="../../machine/RegisterEffectsSpecs/index.html#vector_at">vector_at</a> s.registers a) (<a href="../../machine/StateSpecs/index.html#live_at">live_at</a> s.memories memory)))
<a href="../../machine/StepsSpecs/index.html#effect_of">effect_of</a> s (call.VectorStore a memory ptr offset) = <a href="../../machine/StepsSpecs/index.html#Changed">Changed</a> (<a href="../../machine/StepsSpecs/index.html#BytesStored">BytesStored</a> memory (ptr + offset)
    (option_map (<a href="../../types/NumbersSpecs/index.html#le_bytes">le_bytes</a> 16) (<a href="../../machine/RegisterEffectsSpecs/index.html#vector_at">vector_at</a> s.registers a)))
<a href="../../machine/StepsSpecs/index.html#effect_of">effect_of</a> s (call.StoreLane op a memory ptr offset) = <a href="../../machine/StepsSpecs/index.html#Changed">Changed</a> (<a href="../../machine/StepsSpecs/index.html#BytesStored">BytesStored</a> memory (ptr + offset)
    (option_map (<a href="../../ops/LaneOpsSpecs/index.html#stored_lane">stored_lane</a> op) (<a href="../../machine/RegisterEffectsSpecs/index.html#vector_at">vector_at</a> s.registers a)))

-- What tools/generate writes ends.

-- memory for one more slot may be refused in a step, since each one that is reserved is used
abbrev pub <b id="LacksSlot">LacksSlot</b> : {A : Type 0} → ℕ → List A → Type 0
<a href="../../machine/StepsSpecs/index.html#LacksSlot">LacksSlot</a> reserved list = reserved ≤ length list

-- one part of the state changes: a line for each kind
abbrev pub <b id="HasChange">HasChange</b> : <a href="../../machine/StepsSpecs/index.html#Change">Change</a> → <a href="../../machine/StateSpecs/index.html#State">State</a> → Reply → <a href="../../machine/StateSpecs/index.html#State">State</a> → Type 0
<a href="../../machine/StepsSpecs/index.html#HasChange">HasChange</a> (<a href="../../machine/StepsSpecs/index.html#BytesWritten">BytesWritten</a> k offset bytes) s = <a href="../../machine/EffectsSpecs/index.html#ChangesPart">ChangesPart</a> (<a href="../../machine/StateSpecs/index.html#with_memories">with_memories</a> s) (<a href="../../machine/MemoryEffectsSpecs/index.html#WritesMemoryAt">WritesMemoryAt</a> k offset bytes s.memories)
<a href="../../machine/StepsSpecs/index.html#HasChange">HasChange</a> (<a href="../../machine/StepsSpecs/index.html#BytesStored">BytesStored</a> k a stored) s = <a href="../../machine/EffectsSpecs/index.html#ChangesPart">ChangesPart</a> (<a href="../../machine/StateSpecs/index.html#with_memories">with_memories</a> s) (<a href="../../machine/RegisterEffectsSpecs/index.html#StoresVectorAt">StoresVectorAt</a> k a stored s.memories)
<a href="../../machine/StepsSpecs/index.html#HasChange">HasChange</a> (<a href="../../machine/StepsSpecs/index.html#RegisterSet">RegisterSet</a> dst given) s = <a href="../../machine/EffectsSpecs/index.html#ChangesPart">ChangesPart</a> (<a href="../../machine/StateSpecs/index.html#with_registers">with_registers</a> s) (<a href="../../machine/RegisterEffectsSpecs/index.html#SetsRegister">SetsRegister</a> dst given s.registers)
<a href="../../machine/StepsSpecs/index.html#HasChange">HasChange</a> (<a href="../../machine/StepsSpecs/index.html#MemoryDropped">MemoryDropped</a> k) s = <a href="../../machine/EffectsSpecs/index.html#ChangesPart">ChangesPart</a> (<a href="../../machine/StateSpecs/index.html#with_memories">with_memories</a> s) (<a href="../../machine/EffectsSpecs/index.html#DropsAt">DropsAt</a> <a href="../../machine/StateSpecs/index.html#byte_count">byte_count</a> k s.memories)
<a href="../../machine/StepsSpecs/index.html#HasChange">HasChange</a> (<a href="../../machine/StepsSpecs/index.html#TableDropped">TableDropped</a> k) s = <a href="../../machine/EffectsSpecs/index.html#ChangesPart">ChangesPart</a> (<a href="../../machine/StateSpecs/index.html#with_tables">with_tables</a> s) (<a href="../../machine/EffectsSpecs/index.html#DropsAt">DropsAt</a> <a href="../../store/TableSpecs/index.html#size_of">size_of</a> k s.tables)
<a href="../../machine/StepsSpecs/index.html#HasChange">HasChange</a> (<a href="../../machine/StepsSpecs/index.html#ElementSet">ElementSet</a> k index value) s = <a href="../../machine/EffectsSpecs/index.html#ChangesPart">ChangesPart</a> (<a href="../../machine/StateSpecs/index.html#with_tables">with_tables</a> s) (<a href="../../machine/TableEffectsSpecs/index.html#SetsElementAt">SetsElementAt</a> k index value s.tables)
<a href="../../machine/StepsSpecs/index.html#HasChange">HasChange</a> (<a href="../../machine/StepsSpecs/index.html#SegmentMade">SegmentMade</a> ty items) s = <a href="../../machine/EffectsSpecs/index.html#ChangesPart">ChangesPart</a> (<a href="../../machine/StateSpecs/index.html#with_segments">with_segments</a> s)
    (<a href="../../machine/ValueEffectsSpecs/index.html#CreatesSegment">CreatesSegment</a> (<a href="../../machine/StepsSpecs/index.html#LacksSlot">LacksSlot</a> s.reserved.segments s.segments) ty items s.segments)
<a href="../../machine/StepsSpecs/index.html#HasChange">HasChange</a> (<a href="../../machine/StepsSpecs/index.html#ItemsDropped">ItemsDropped</a> k) s = <a href="../../machine/EffectsSpecs/index.html#ChangesPart">ChangesPart</a> (<a href="../../machine/StateSpecs/index.html#with_segments">with_segments</a> s) (<a href="../../machine/ValueEffectsSpecs/index.html#DropsItemsAt">DropsItemsAt</a> k s.segments)
<a href="../../machine/StepsSpecs/index.html#HasChange">HasChange</a> (<a href="../../machine/StepsSpecs/index.html#DataMade">DataMade</a> bytes) s = <a href="../../machine/EffectsSpecs/index.html#ChangesPart">ChangesPart</a> (<a href="../../machine/StateSpecs/index.html#with_data_segments">with_data_segments</a> s)
    (<a href="../../machine/EffectsSpecs/index.html#AddsItem">AddsItem</a> ((0 &lt; length bytes) ⊎ <a href="../../machine/StepsSpecs/index.html#LacksSlot">LacksSlot</a> s.reserved.data_segments s.data_segments) bytes s.data_segments)
<a href="../../machine/StepsSpecs/index.html#HasChange">HasChange</a> (<a href="../../machine/StepsSpecs/index.html#DataDropped">DataDropped</a> k) s = <a href="../../machine/EffectsSpecs/index.html#ChangesPart">ChangesPart</a> (<a href="../../machine/StateSpecs/index.html#with_data_segments">with_data_segments</a> s) (<a href="../../machine/ValueEffectsSpecs/index.html#DropsDataAt">DropsDataAt</a> k s.data_segments)
<a href="../../machine/StepsSpecs/index.html#HasChange">HasChange</a> (<a href="../../machine/StepsSpecs/index.html#GlobalMade">GlobalMade</a> global) s = <a href="../../machine/EffectsSpecs/index.html#ChangesPart">ChangesPart</a> (<a href="../../machine/StateSpecs/index.html#with_globals">with_globals</a> s)
    (<a href="../../machine/EffectsSpecs/index.html#AddsItem">AddsItem</a> (<a href="../../machine/StepsSpecs/index.html#LacksSlot">LacksSlot</a> s.reserved.globals s.globals) global s.globals)
<a href="../../machine/StepsSpecs/index.html#HasChange">HasChange</a> (<a href="../../machine/StepsSpecs/index.html#GlobalSet">GlobalSet</a> k value) s = <a href="../../machine/EffectsSpecs/index.html#ChangesPart">ChangesPart</a> (<a href="../../machine/StateSpecs/index.html#with_globals">with_globals</a> s) (<a href="../../machine/ValueEffectsSpecs/index.html#SetsGlobalAt">SetsGlobalAt</a> k value s.globals)

-- a range of one part of the state is written over: a line for each kind
abbrev pub <b id="HasRangeWrite">HasRangeWrite</b> : {S : Type 0} → <a href="../../machine/StepsSpecs/index.html#RangeWrite">RangeWrite</a> → <a href="../../machine/StateSpecs/index.html#World">World</a> S → <a href="../../machine/StateSpecs/index.html#TurnOutcome">TurnOutcome</a> → <a href="../../machine/StateSpecs/index.html#World">World</a> S → Type 0
<a href="../../machine/StepsSpecs/index.html#HasRangeWrite">HasRangeWrite</a> (<a href="../../machine/StepsSpecs/index.html#TableWritten">TableWritten</a> k source dst len) w outcome w&#x27; =
    <a href="../../machine/EffectsSpecs/index.html#ActsMeteredUnasked">ActsMeteredUnasked</a> w outcome w&#x27; w.state.tables (<a href="../../machine/StateSpecs/index.html#with_tables">with_tables</a> w.state)
    (<a href="../../machine/EffectsSpecs/index.html#WritesRangeAt">WritesRangeAt</a> reply.Table k (<a href="../../machine/TableEffectsSpecs/index.html#write_of">write_of</a> source dst len)) (<a href="../../machine/TableEffectsSpecs/index.html#element_bytes">element_bytes</a> len)
<a href="../../machine/StepsSpecs/index.html#HasRangeWrite">HasRangeWrite</a> (<a href="../../machine/StepsSpecs/index.html#MemoryWritten">MemoryWritten</a> k source dst len) w outcome w&#x27; =
    <a href="../../machine/EffectsSpecs/index.html#ActsMeteredUnasked">ActsMeteredUnasked</a> w outcome w&#x27; w.state.memories (<a href="../../machine/StateSpecs/index.html#with_memories">with_memories</a> w.state)
    (<a href="../../machine/EffectsSpecs/index.html#WritesRangeAt">WritesRangeAt</a> reply.Memory k (<a href="../../machine/MemoryEffectsSpecs/index.html#byte_write_of">byte_write_of</a> source dst len)) (<a href="../../machine/EffectsSpecs/index.html#item_bytes">item_bytes</a> 1 len)

-- an effect takes place from one world to the next: a line for each kind
abbrev pub <b id="HasEffect">HasEffect</b> : {S : Type 0} → <a href="../../meter/LimiterSpecs/index.html#Rules">Rules</a> S → <a href="../../machine/StepsSpecs/index.html#Effect">Effect</a> → <a href="../../machine/StateSpecs/index.html#World">World</a> S → <a href="../../machine/StateSpecs/index.html#TurnOutcome">TurnOutcome</a> → <a href="../../machine/StateSpecs/index.html#World">World</a> S → Type 0
<a href="../../machine/StepsSpecs/index.html#HasEffect">HasEffect</a> rules (<a href="../../machine/StepsSpecs/index.html#Told">Told</a> told) w outcome w&#x27; = <a href="../../machine/EffectsSpecs/index.html#OnlyReplies">OnlyReplies</a> w outcome w&#x27; (λ answer. answer ≡ told)
<a href="../../machine/StepsSpecs/index.html#HasEffect">HasEffect</a> rules (<a href="../../machine/StepsSpecs/index.html#BytesRead">BytesRead</a> k offset len) w outcome w&#x27; =
    <a href="../../machine/EffectsSpecs/index.html#OnlyReplies">OnlyReplies</a> w outcome w&#x27; (<a href="../../machine/MemoryEffectsSpecs/index.html#ReadsMemoryAt">ReadsMemoryAt</a> k offset len w.state.memories)
<a href="../../machine/StepsSpecs/index.html#HasEffect">HasEffect</a> rules (<a href="../../machine/StepsSpecs/index.html#FuelSet">FuelSet</a> fuel) w outcome w&#x27; = <a href="../../machine/EffectsSpecs/index.html#Changes">Changes</a> w outcome w&#x27; (<a href="../../machine/ValueEffectsSpecs/index.html#SetsFuel">SetsFuel</a> fuel w.state)
<a href="../../machine/StepsSpecs/index.html#HasEffect">HasEffect</a> rules (<a href="../../machine/StepsSpecs/index.html#Changed">Changed</a> change) w outcome w&#x27; = <a href="../../machine/EffectsSpecs/index.html#Changes">Changes</a> w outcome w&#x27; (<a href="../../machine/StepsSpecs/index.html#HasChange">HasChange</a> change w.state)
<a href="../../machine/StepsSpecs/index.html#HasEffect">HasEffect</a> rules (<a href="../../machine/StepsSpecs/index.html#MemoryMade">MemoryMade</a> ty) w outcome w&#x27; =
    <a href="../../machine/EffectsSpecs/index.html#Asks">Asks</a> w outcome w&#x27; (<a href="../../machine/StepsSpecs/index.html#LacksSlot">LacksSlot</a> w.state.reserved.memories w.state.memories) (<a href="../../machine/StateSpecs/index.html#with_memories">with_memories</a> w.state)
    (<a href="../../machine/EffectsSpecs/index.html#Creates">Creates</a> reply.Memory (<a href="../../store/MemorySpecs/index.html#MakesMemory">MakesMemory</a> rules <a href="../../store/BufferSpecs/index.html#Owned">Owned</a> ty) w.state.memories)
<a href="../../machine/StepsSpecs/index.html#HasEffect">HasEffect</a> rules (<a href="../../machine/StepsSpecs/index.html#LentMemoryMade">LentMemoryMade</a> ty) w outcome w&#x27; =
    <a href="../../machine/EffectsSpecs/index.html#Asks">Asks</a> w outcome w&#x27; (<a href="../../machine/StepsSpecs/index.html#LacksSlot">LacksSlot</a> w.state.reserved.memories w.state.memories)
    (λ part. record w.state { memories = part.slots; spare = part.spare }) (<a href="../../machine/MemoryEffectsSpecs/index.html#CreatesLent">CreatesLent</a> rules ty (<a href="../../machine/StateSpecs/index.html#memory_part">memory_part</a> w.state))
<a href="../../machine/StepsSpecs/index.html#HasEffect">HasEffect</a> rules (<a href="../../machine/StepsSpecs/index.html#MemoryGrown">MemoryGrown</a> k pages) w outcome w&#x27; = <a href="../../machine/EffectsSpecs/index.html#ActsMetered">ActsMetered</a> w outcome w&#x27; w.state.memories (<a href="../../machine/StateSpecs/index.html#with_memories">with_memories</a> w.state)
    (<a href="../../machine/EffectsSpecs/index.html#ActsAt">ActsAt</a> k (<a href="../../machine/EffectsSpecs/index.html#reply_of">reply_of</a> reply.Number reply.Memory) (<a href="../../store/MemorySpecs/index.html#GrowsMemoryCharging">GrowsMemoryCharging</a> rules pages))
    (<a href="../../machine/MemoryEffectsSpecs/index.html#bytes_appended">bytes_appended</a> (<a href="../../machine/StateSpecs/index.html#live_at">live_at</a> w.state.memories k) pages)
<a href="../../machine/StepsSpecs/index.html#HasEffect">HasEffect</a> rules (<a href="../../machine/StepsSpecs/index.html#TableMade">TableMade</a> ty init) w outcome w&#x27; =
    <a href="../../machine/EffectsSpecs/index.html#Asks">Asks</a> w outcome w&#x27; (<a href="../../machine/StepsSpecs/index.html#LacksSlot">LacksSlot</a> w.state.reserved.tables w.state.tables) (<a href="../../machine/StateSpecs/index.html#with_tables">with_tables</a> w.state)
    (<a href="../../machine/EffectsSpecs/index.html#Creates">Creates</a> reply.Table (<a href="../../store/TableSpecs/index.html#MakesTable">MakesTable</a> rules ty init) w.state.tables)
<a href="../../machine/StepsSpecs/index.html#HasEffect">HasEffect</a> rules (<a href="../../machine/StepsSpecs/index.html#TableGrown">TableGrown</a> k n init) w outcome w&#x27; = <a href="../../machine/EffectsSpecs/index.html#ActsMetered">ActsMetered</a> w outcome w&#x27; w.state.tables (<a href="../../machine/StateSpecs/index.html#with_tables">with_tables</a> w.state)
    (<a href="../../machine/EffectsSpecs/index.html#ActsAt">ActsAt</a> k (<a href="../../machine/EffectsSpecs/index.html#reply_of">reply_of</a> reply.Number reply.Table) (<a href="../../store/TableSpecs/index.html#GrowsTableCharging">GrowsTableCharging</a> rules n init)) (<a href="../../machine/TableEffectsSpecs/index.html#element_bytes">element_bytes</a> n)
<a href="../../machine/StepsSpecs/index.html#HasEffect">HasEffect</a> rules (<a href="../../machine/StepsSpecs/index.html#RangeWritten">RangeWritten</a> write) w outcome w&#x27; = <a href="../../machine/StepsSpecs/index.html#HasRangeWrite">HasRangeWrite</a> write w outcome w&#x27;

-- a step from one world to the next: the effect of the turn&#x27;s call takes place
abbrev pub <b id="Step">Step</b> : {S : Type 0} → <a href="../../meter/LimiterSpecs/index.html#Rules">Rules</a> S → <a href="../../machine/StateSpecs/index.html#World">World</a> S → <a href="../../machine/StateSpecs/index.html#Turn">Turn</a> → <a href="../../machine/StateSpecs/index.html#World">World</a> S → Type 0
<a href="../../machine/StepsSpecs/index.html#Step">Step</a> rules w turn w&#x27; = <a href="../../machine/StepsSpecs/index.html#HasEffect">HasEffect</a> rules (<a href="../../machine/StepsSpecs/index.html#effect_of">effect_of</a> w.state turn.call) w (<a href="../../machine/StateSpecs/index.html#outcome_of">outcome_of</a> turn) w&#x27;

-- a call is answered by a reply: there is a step by it, with some charge and some bytes written
abbrev pub <b id="RepliesWith">RepliesWith</b> : {S : Type 0} → <a href="../../meter/LimiterSpecs/index.html#Rules">Rules</a> S → Call → <a href="../../machine/StateSpecs/index.html#World">World</a> S → Reply → <a href="../../machine/StateSpecs/index.html#World">World</a> S → Type 0
<a href="../../machine/StepsSpecs/index.html#RepliesWith">RepliesWith</a> rules call w reply w&#x27; = (charge : ℕ) × (written : ℕ)
    × <a href="../../machine/StepsSpecs/index.html#Step">Step</a> rules w (record { call = call; reply = reply; charge = charge; written = written }) w&#x27;

-- a call is answered by a reply without the limiter, whatever the limiter is, in a step that charges and writes nothing
abbrev pub <b id="RepliesWithoutLimiter">RepliesWithoutLimiter</b> : {S : Type 0} → <a href="../../meter/LimiterSpecs/index.html#Rules">Rules</a> S → Call → <a href="../../machine/StateSpecs/index.html#State">State</a> → Reply → <a href="../../machine/StateSpecs/index.html#State">State</a> → Type 0
<a href="../../machine/StepsSpecs/index.html#RepliesWithoutLimiter">RepliesWithoutLimiter</a> {S} rules call s reply s&#x27; = (limiter : S)
    → <a href="../../machine/StepsSpecs/index.html#Step">Step</a> rules (<a href="../../machine/StateSpecs/index.html#world">world</a> s limiter) (record { call = call; reply = reply; charge = 0; written = 0 }) (<a href="../../machine/StateSpecs/index.html#world">world</a> s&#x27; limiter)

-- a fact of a `Vec` that has these items, as a copy of them has: what a call that takes it does can be done with a slice
abbrev pub <b id="SomeCopy">SomeCopy</b> : List ℕ → (Vec ℕ Global → Type 0) → Type 0
<a href="../../machine/StepsSpecs/index.html#SomeCopy">SomeCopy</a> items Fact = (copy : Vec ℕ Global) × (copy.items ≡ items) × Fact copy

-- turns one after another from one world to another, each of which relates the worlds before and after it
abbrev pub <b id="Sequence">Sequence</b> : {S : Type 0} → (<a href="../../machine/StateSpecs/index.html#World">World</a> S → <a href="../../machine/StateSpecs/index.html#Turn">Turn</a> → <a href="../../machine/StateSpecs/index.html#World">World</a> S → Type 0) → <a href="../../machine/StateSpecs/index.html#World">World</a> S → List <a href="../../machine/StateSpecs/index.html#Turn">Turn</a> → <a href="../../machine/StateSpecs/index.html#World">World</a> S → Type 0
<a href="../../machine/StepsSpecs/index.html#Sequence">Sequence</a> Relates w [] w&#x27; = w&#x27; ≡ w
<a href="../../machine/StepsSpecs/index.html#Sequence">Sequence</a> Relates w (turn ∷ turns) w&#x27; = (v : <a href="../../machine/StateSpecs/index.html#World">World</a> _) × Relates w turn v × <a href="../../machine/StepsSpecs/index.html#Sequence">Sequence</a> Relates v turns w&#x27;

-- a run: each turn is a step
abbrev pub <b id="Run">Run</b> : {S : Type 0} → <a href="../../meter/LimiterSpecs/index.html#Rules">Rules</a> S → <a href="../../machine/StateSpecs/index.html#World">World</a> S → List <a href="../../machine/StateSpecs/index.html#Turn">Turn</a> → <a href="../../machine/StateSpecs/index.html#World">World</a> S → Type 0
<a href="../../machine/StepsSpecs/index.html#Run">Run</a> rules = <a href="../../machine/StepsSpecs/index.html#Sequence">Sequence</a> (<a href="../../machine/StepsSpecs/index.html#Step">Step</a> rules)

-- turns of these calls with these replies
pub record <b id="AreTurns">AreTurns</b> (calls : List Call) (replies : List Reply) (turns : List <a href="../../machine/StateSpecs/index.html#Turn">Turn</a>) : Type 0 where
  pub <b id="calls_of">calls_of</b> : map Turn.call turns ≡ calls
  pub <b id="replies_of">replies_of</b> : map Turn.reply turns ≡ replies

-- the replies are those of a run of the calls, from one world to another
abbrev pub <b id="IsRunOf">IsRunOf</b> : {S : Type 0} → <a href="../../meter/LimiterSpecs/index.html#Rules">Rules</a> S → List Call → <a href="../../machine/StateSpecs/index.html#World">World</a> S → List Reply → <a href="../../machine/StateSpecs/index.html#World">World</a> S → Type 0
<a href="../../machine/StepsSpecs/index.html#IsRunOf">IsRunOf</a> rules calls w replies w&#x27; =
    (turns : List <a href="../../machine/StateSpecs/index.html#Turn">Turn</a>) × (map Turn.call turns ≡ calls) × (map Turn.reply turns ≡ replies) × <a href="../../machine/StepsSpecs/index.html#Run">Run</a> rules w turns w&#x27;
</code></pre>
"####]
    pub mod StepsSpecs {}
    #[doc = r####"The calls on tables: their replies, what each does to the slots, and what a write over a range writes.

<pre><code>use Rattle.std.specs.Prelude.{◌≡◌, ◌&lt;◌, ◌⊎◌, ℕ, Option, Some, Result, List}
use Rattle.std.specs.Option.{option_map, option_map_or}
use Rattle.wasmi_typed.specs.declared.typed_ref.TypedRawRef.{TypedRawRef}
use Rattle.wasmi_meter.specs.declared.error.TableError.{TableError}
use Rattle.wasmi_store.specs.Segment.{<a href="../../store/SegmentSpecs/index.html#SegmentValue">SegmentValue</a>}
use Rattle.wasmi_store.specs.Table.{<a href="../../store/TableSpecs/index.html#TableValue">TableValue</a>, <a href="../../store/TableSpecs/index.html#TableWrite">TableWrite</a>, <a href="../../store/TableSpecs/index.html#with_elements_reserved">with_elements_reserved</a>, <a href="../../store/TableSpecs/index.html#SetsTable">SetsTable</a>, <a href="../../store/TableSpecs/index.html#element_at">element_at</a>, <a href="../../store/TableSpecs/index.html#filling_of">filling_of</a>, <a href="../../store/TableSpecs/index.html#copy_of">copy_of</a>, <a href="../../store/TableSpecs/index.html#initialization_of">initialization_of</a>}
use Rattle.wasmi_machine.specs.declared.{calls.Reply.Reply, slots.Slot.Slot}
use Rattle.wasmi_machine.specs.declared.calls.Reply.TheVariants.{Done, Reference, Table, NoRoom, NoSuch}
use Rattle.wasmi_machine.specs.Effects.{<a href="../../machine/EffectsSpecs/index.html#reply_of">reply_of</a>, <a href="../../machine/EffectsSpecs/index.html#ChangesAt">ChangesAt</a>, <a href="../../machine/EffectsSpecs/index.html#item_bytes">item_bytes</a>}

-- the element that is asked of a table, if the table is there
abbrev pub <b id="element_reply">element_reply</b> : ℕ → Option <a href="../../store/TableSpecs/index.html#TableValue">TableValue</a> → Reply
<a href="../../machine/TableEffectsSpecs/index.html#element_reply">element_reply</a> index table = option_map_or (λ x. Reference (<a href="../../store/TableSpecs/index.html#element_at">element_at</a> x index)) table NoSuch

-- an element of the table of an index is set, or the call is refused
abbrev pub <b id="SetsElementAt">SetsElementAt</b> : ℕ → ℕ → TypedRawRef → List (Slot <a href="../../store/TableSpecs/index.html#TableValue">TableValue</a>) → Reply → List (Slot <a href="../../store/TableSpecs/index.html#TableValue">TableValue</a>) → Type 0
<a href="../../machine/TableEffectsSpecs/index.html#SetsElementAt">SetsElementAt</a> k index value slots reply slots&#x27; = <a href="../../machine/EffectsSpecs/index.html#ChangesAt">ChangesAt</a> k slots reply slots&#x27;
    (λ x x&#x27;. (result : Result (Unit {0}) TableError) × <a href="../../store/TableSpecs/index.html#SetsTable">SetsTable</a> index value x result x&#x27;
    × (reply ≡ <a href="../../machine/EffectsSpecs/index.html#reply_of">reply_of</a> (λ _. Done) Table result))

-- memory is reserved for so many elements in all of the table of an index, unless it is refused for more than it was
-- reserved for; then nothing has changed
abbrev pub <b id="ReservesElementsAt">ReservesElementsAt</b> : ℕ → ℕ → List (Slot <a href="../../store/TableSpecs/index.html#TableValue">TableValue</a>) → Reply → List (Slot <a href="../../store/TableSpecs/index.html#TableValue">TableValue</a>) → Type 0
<a href="../../machine/TableEffectsSpecs/index.html#ReservesElementsAt">ReservesElementsAt</a> k n slots reply slots&#x27; = <a href="../../machine/EffectsSpecs/index.html#ChangesAt">ChangesAt</a> k slots reply slots&#x27;
    (λ x x&#x27;. ((reply ≡ Done) × (x&#x27; ≡ <a href="../../store/TableSpecs/index.html#with_elements_reserved">with_elements_reserved</a> x n))
    ⊎ ((reply ≡ NoRoom) × (x.reserved &lt; n) × (x&#x27; ≡ x)))

-- what a range of a table is written over with: a reference, elements of a table, or items of an element segment, from a
-- place on, if it is there
pub data <b id="Source">Source</b> : Type 0 where
  <b id="OfReference">OfReference</b> : TypedRawRef → <a href="../../machine/TableEffectsSpecs/index.html#Source">Source</a>
  <b id="OfTable">OfTable</b> : Option <a href="../../store/TableSpecs/index.html#TableValue">TableValue</a> → ℕ → <a href="../../machine/TableEffectsSpecs/index.html#Source">Source</a>
  <b id="OfSegment">OfSegment</b> : Option <a href="../../store/SegmentSpecs/index.html#SegmentValue">SegmentValue</a> → ℕ → <a href="../../machine/TableEffectsSpecs/index.html#Source">Source</a>

-- the write over so many elements from a place on, with what a source has, if the source is there
abbrev pub <b id="write_of">write_of</b> : <a href="../../machine/TableEffectsSpecs/index.html#Source">Source</a> → ℕ → ℕ → Option (<a href="../../store/TableSpecs/index.html#TableValue">TableValue</a> → <a href="../../store/TableSpecs/index.html#TableWrite">TableWrite</a>)
<a href="../../machine/TableEffectsSpecs/index.html#write_of">write_of</a> (<a href="../../machine/TableEffectsSpecs/index.html#OfReference">OfReference</a> value) dst len = Some (<a href="../../store/TableSpecs/index.html#filling_of">filling_of</a> dst value len)
<a href="../../machine/TableEffectsSpecs/index.html#write_of">write_of</a> (<a href="../../machine/TableEffectsSpecs/index.html#OfTable">OfTable</a> source src) dst len = option_map (<a href="../../store/TableSpecs/index.html#copy_of">copy_of</a> dst src len) source
<a href="../../machine/TableEffectsSpecs/index.html#write_of">write_of</a> (<a href="../../machine/TableEffectsSpecs/index.html#OfSegment">OfSegment</a> segment src) dst len = option_map (<a href="../../store/TableSpecs/index.html#initialization_of">initialization_of</a> dst src len) segment

-- the bytes that an accepted call on so many elements has written
abbrev pub <b id="element_bytes">element_bytes</b> : ℕ → Reply → ℕ
<a href="../../machine/TableEffectsSpecs/index.html#element_bytes">element_bytes</a> = <a href="../../machine/EffectsSpecs/index.html#item_bytes">item_bytes</a> 4
</code></pre>
"####]
    pub mod TableEffectsSpecs {}
    #[doc = r####"The calls on element segments, data segments, globals and the meter: their replies, and what each does.

<pre><code>use Rattle.std.specs.Prelude.{◌≡◌, ◌⊎◌, ◌≤◌, ◌&lt;◌, ℕ, Option, Result, Ok, Err, List, [], length, if◌then◌else◌, is_some}
use Rattle.std.specs.Option.{option_map_or}
use Rattle.wasmi_types.specs.declared.value.RefType.{RefType}
use Rattle.wasmi_typed.specs.declared.{typed.TypedRawVal.TypedRawVal, global.GlobalError.GlobalError}
use Rattle.wasmi_typed.specs.Global.{<a href="../../typed/GlobalSpecs/index.html#GlobalInstance">GlobalInstance</a>, <a href="../../typed/GlobalSpecs/index.html#SetsGlobal">SetsGlobal</a>}
use Rattle.wasmi_store.specs.declared.table.element.SegmentError.{SegmentError}
use Rattle.wasmi_store.specs.declared.table.element.SegmentError.TheVariants.{TooManyItems, OutOfSystemMemory}
use Rattle.wasmi_store.specs.Segment.{<a href="../../store/SegmentSpecs/index.html#SegmentValue">SegmentValue</a>, <a href="../../store/SegmentSpecs/index.html#most_items">most_items</a>, <a href="../../store/SegmentSpecs/index.html#dropped">dropped</a>}
use Rattle.wasmi_machine.specs.declared.calls.Reply.{Reply}
use Rattle.wasmi_machine.specs.declared.calls.Reply.TheVariants.{Done, Value, Global, Segment, NoSuch, NoRoom, Number, Fuel}
use Rattle.wasmi_machine.specs.Effects.{<a href="../../machine/EffectsSpecs/index.html#reply_of">reply_of</a>, <a href="../../machine/EffectsSpecs/index.html#ChangesItem">ChangesItem</a>, <a href="../../machine/EffectsSpecs/index.html#DropsContents">DropsContents</a>, <a href="../../machine/EffectsSpecs/index.html#AddsEntry">AddsEntry</a>}
use Rattle.wasmi_meter.specs.declared.fuel.FuelError.TheVariants.{FuelMeteringDisabled}
use Rattle.wasmi_meter.specs.Meter.{<a href="../../meter/MeterSpecs/index.html#Meter">Meter</a>, <a href="../../meter/MeterSpecs/index.html#meter_set">meter_set</a>}
use Rattle.wasmi_machine.specs.State.{<a href="../../machine/StateSpecs/index.html#State">State</a>}

-- a call makes the segment of these items, unless there are too many, or memory is refused for some
abbrev pub <b id="IsSegmentOf">IsSegmentOf</b> : RefType → List ℕ → Result <a href="../../store/SegmentSpecs/index.html#SegmentValue">SegmentValue</a> SegmentError → Type 0
<a href="../../machine/ValueEffectsSpecs/index.html#IsSegmentOf">IsSegmentOf</a> ty items (Ok segment) = (length items ≤ <a href="../../store/SegmentSpecs/index.html#most_items">most_items</a>) × (segment ≡ record { ty = ty; items = items })
<a href="../../machine/ValueEffectsSpecs/index.html#IsSegmentOf">IsSegmentOf</a> ty items (Err TooManyItems) = <a href="../../store/SegmentSpecs/index.html#most_items">most_items</a> &lt; length items
<a href="../../machine/ValueEffectsSpecs/index.html#IsSegmentOf">IsSegmentOf</a> ty items (Err OutOfSystemMemory) = 0 &lt; length items

-- an element segment is made, unless there is no memory for its slot, which a fact allows
abbrev pub <b id="CreatesSegment">CreatesSegment</b> : Type 0 → RefType → List ℕ → List <a href="../../store/SegmentSpecs/index.html#SegmentValue">SegmentValue</a> → Reply → List <a href="../../store/SegmentSpecs/index.html#SegmentValue">SegmentValue</a> → Type 0
<a href="../../machine/ValueEffectsSpecs/index.html#CreatesSegment">CreatesSegment</a> Lacks ty items segments reply segments&#x27; = ((reply ≡ NoRoom) × (segments&#x27; ≡ segments) × Lacks)
    ⊎ ((result : Result <a href="../../store/SegmentSpecs/index.html#SegmentValue">SegmentValue</a> SegmentError) × <a href="../../machine/ValueEffectsSpecs/index.html#IsSegmentOf">IsSegmentOf</a> ty items result
    × <a href="../../machine/EffectsSpecs/index.html#AddsEntry">AddsEntry</a> (λ x. x) Segment result segments reply segments&#x27;)

-- the items of the element segment of an index are dropped
abbrev pub <b id="DropsItemsAt">DropsItemsAt</b> : ℕ → List <a href="../../store/SegmentSpecs/index.html#SegmentValue">SegmentValue</a> → Reply → List <a href="../../store/SegmentSpecs/index.html#SegmentValue">SegmentValue</a> → Type 0
<a href="../../machine/ValueEffectsSpecs/index.html#DropsItemsAt">DropsItemsAt</a> = <a href="../../machine/EffectsSpecs/index.html#DropsContents">DropsContents</a> <a href="../../store/SegmentSpecs/index.html#dropped">dropped</a>

-- the bytes of the data segment of an index are dropped
abbrev pub <b id="DropsDataAt">DropsDataAt</b> : ℕ → List (List ℕ) → Reply → List (List ℕ) → Type 0
<a href="../../machine/ValueEffectsSpecs/index.html#DropsDataAt">DropsDataAt</a> = <a href="../../machine/EffectsSpecs/index.html#DropsContents">DropsContents</a> (λ bytes. [])

-- the global of an index is set, or the call is refused
abbrev pub <b id="SetsGlobalAt">SetsGlobalAt</b> : ℕ → TypedRawVal → List <a href="../../typed/GlobalSpecs/index.html#GlobalInstance">GlobalInstance</a> → Reply → List <a href="../../typed/GlobalSpecs/index.html#GlobalInstance">GlobalInstance</a> → Type 0
<a href="../../machine/ValueEffectsSpecs/index.html#SetsGlobalAt">SetsGlobalAt</a> k value globals reply globals&#x27; = <a href="../../machine/EffectsSpecs/index.html#ChangesItem">ChangesItem</a> k globals reply globals&#x27;
    (λ x x&#x27;. (result : Result (Unit {0}) GlobalError) × <a href="../../typed/GlobalSpecs/index.html#SetsGlobal">SetsGlobal</a> x value result x&#x27;
    × (reply ≡ <a href="../../machine/EffectsSpecs/index.html#reply_of">reply_of</a> (λ _. Done) Global result))

-- the value that is asked of a global, if it is there
abbrev pub <b id="global_reply">global_reply</b> : Option <a href="../../typed/GlobalSpecs/index.html#GlobalInstance">GlobalInstance</a> → Reply
<a href="../../machine/ValueEffectsSpecs/index.html#global_reply">global_reply</a> global = option_map_or (λ x. Value x.value) global NoSuch

-- the fuel that is left is set, where the meter is on
abbrev pub <b id="SetsFuel">SetsFuel</b> : ℕ → <a href="../../machine/StateSpecs/index.html#State">State</a> → Reply → <a href="../../machine/StateSpecs/index.html#State">State</a> → Type 0
<a href="../../machine/ValueEffectsSpecs/index.html#SetsFuel">SetsFuel</a> fuel s reply s&#x27; = (reply ≡ (if is_some s.meter.left then Done else Fuel FuelMeteringDisabled))
    × (s&#x27; ≡ record s { meter = <a href="../../meter/MeterSpecs/index.html#meter_set">meter_set</a> s.meter fuel })

-- the fuel that is left is asked for
abbrev pub <b id="get_fuel_reply">get_fuel_reply</b> : <a href="../../meter/MeterSpecs/index.html#Meter">Meter</a> → Reply
<a href="../../machine/ValueEffectsSpecs/index.html#get_fuel_reply">get_fuel_reply</a> m = option_map_or (λ left. Number left) m.left (Fuel FuelMeteringDisabled)
</code></pre>
"####]
    pub mod ValueEffectsSpecs {}
}
/// Definitions of `wasmi_laws`.
pub mod laws {
    #[doc = r####"What is at an index of a machine: which calls may change, drop or read it, and what it may become in turns and runs. The laws over it: independent calls may be exchanged, a stored number is loaded again, and a memory or a table that a host keeps by itself does as the one at an index.

<pre><code>use Rattle.std.specs.Prelude.{◌≡◌, ◌⊎◌, ◌*◌, ◌+◌, ◌%◌, ◌^◌, ℕ, List, [], ◌∷◌, Option, Some, None, length, map, All, slice_get, MatchOption, Result, Vec, slice_set}
use Rattle.wasmi_raw.specs.declared.raw.RawVal.{RawVal}
use Rattle.wasmi_raw.specs.RawVal.{<a href="../../raw/RawValSpecs/index.html#raw_of">raw_of</a>}
use Rattle.wasmi_access.specs.LoadStore.{<a href="../../accesses/LoadStoreSpecs/index.html#IsSameOutside">IsSameOutside</a>}
use Rattle.wasmi_ops.specs.declared.{load_store.LoadOp.LoadOp, load_store.StoreOp.StoreOp}
use Rattle.wasmi_typed.specs.Global.{<a href="../../typed/GlobalSpecs/index.html#GlobalInstance">GlobalInstance</a>}
use Rattle.wasmi_typed.specs.declared.global.Mutability.TheVariants.{Const}
use Rattle.wasmi_meter.specs.Limiter.{<a href="../../meter/LimiterSpecs/index.html#Rules">Rules</a>}
use Rattle.wasmi_store.specs.Memory.{<a href="../../store/MemorySpecs/index.html#MemoryValue">MemoryValue</a>, <a href="../../store/MemorySpecs/index.html#GrowsMemory">GrowsMemory</a>, <a href="../../store/MemorySpecs/index.html#WritesMemory">WritesMemory</a>}
use Rattle.wasmi_store.specs.Segment.{<a href="../../store/SegmentSpecs/index.html#SegmentValue">SegmentValue</a>}
use Rattle.wasmi_store.specs.Table.{<a href="../../store/TableSpecs/index.html#TableValue">TableValue</a>, <a href="../../store/TableSpecs/index.html#GrowsTable">GrowsTable</a>}
use Rattle.wasmi_machine.specs.declared.{calls.Call.Call, slots.Slot.Slot, calls.Reply.Reply}
use Rattle.wasmi_machine.specs.declared.slots.Slot.TheVariants.{Live, Gone}
use Rattle.wasmi_machine.specs.declared.calls.Reply.TheVariants.{Done, Value, Bytes, Memory, Number, Table}
use Rattle.wasmi_machine.specs.State.{<a href="../../machine/StateSpecs/index.html#State">State</a>, <a href="../../machine/StateSpecs/index.html#live_at">live_at</a>, <a href="../../machine/StateSpecs/index.html#with_memories">with_memories</a>, <a href="../../machine/StateSpecs/index.html#with_tables">with_tables</a>, <a href="../../machine/StateSpecs/index.html#World">World</a>, <a href="../../machine/StateSpecs/index.html#Turn">Turn</a>, <a href="../../machine/StateSpecs/index.html#world">world</a>}
use Rattle.wasmi_machine.specs.Steps.{<a href="../../machine/StepsSpecs/index.html#Step">Step</a>, <a href="../../machine/StepsSpecs/index.html#RepliesWith">RepliesWith</a>, <a href="../../machine/StepsSpecs/index.html#Run">Run</a>}
use Rattle.wasmi_types.specs.Access.{<a href="../../types/AccessSpecs/index.html#at">at</a>}
use Rattle.wasmi_typed.specs.declared.typed_ref.TypedRawRef.{TypedRawRef}
use Rattle.wasmi_meter.specs.Meter.{<a href="../../meter/MeterSpecs/index.html#Meter">Meter</a>}
use Rattle.wasmi_meter.specs.declared.{error.MemoryError.MemoryError, error.TableError.TableError}
use Rattle.wasmi_meter.specs.declared.error.MemoryError.TheVariants.{OutOfBoundsAccess}
use Rattle.wasmi_store.specs.Growth.{<a href="../../store/GrowthSpecs/index.html#metered_value">metered_value</a>}
use Rattle.wasmi_machine.specs.declared.calls.Call.TheVariants.{GrowMemory, GrowTable, Read, Write}
use Rattle.wasmi_machine.specs.Effects.{<a href="../../machine/EffectsSpecs/index.html#reply_of">reply_of</a>}
use Rattle.wasmi_ops.specs.declared.load_store.LoadOp.TheVariants as load
use Rattle.wasmi_ops.specs.declared.load_store.StoreOp.TheVariants as store
use Rattle.wasmi_machine.specs.declared.calls.Call.TheVariants as call

-- an index of a machine: of a memory, a table, a segment of either kind or a global, as they were made, or a register
pub data <b id="Location">Location</b> : Type 0 where
  <b id="MemoryAt">MemoryAt</b> <b id="TableAt">TableAt</b> <b id="SegmentAt">SegmentAt</b> <b id="DataAt">DataAt</b> <b id="GlobalAt">GlobalAt</b> <b id="RegisterAt">RegisterAt</b> : ℕ → <a href="../../laws/PlacesSpecs/index.html#Location">Location</a>

-- what can be at an index: of a memory or a table its slot, live or dropped
abbrev pub <b id="Content">Content</b> : <a href="../../laws/PlacesSpecs/index.html#Location">Location</a> → Type 0
<a href="../../laws/PlacesSpecs/index.html#Content">Content</a> (<a href="../../laws/PlacesSpecs/index.html#MemoryAt">MemoryAt</a> k) = Slot <a href="../../store/MemorySpecs/index.html#MemoryValue">MemoryValue</a>
<a href="../../laws/PlacesSpecs/index.html#Content">Content</a> (<a href="../../laws/PlacesSpecs/index.html#TableAt">TableAt</a> k) = Slot <a href="../../store/TableSpecs/index.html#TableValue">TableValue</a>
<a href="../../laws/PlacesSpecs/index.html#Content">Content</a> (<a href="../../laws/PlacesSpecs/index.html#SegmentAt">SegmentAt</a> k) = <a href="../../store/SegmentSpecs/index.html#SegmentValue">SegmentValue</a>
<a href="../../laws/PlacesSpecs/index.html#Content">Content</a> (<a href="../../laws/PlacesSpecs/index.html#DataAt">DataAt</a> k) = List ℕ
<a href="../../laws/PlacesSpecs/index.html#Content">Content</a> (<a href="../../laws/PlacesSpecs/index.html#GlobalAt">GlobalAt</a> k) = <a href="../../typed/GlobalSpecs/index.html#GlobalInstance">GlobalInstance</a>
<a href="../../laws/PlacesSpecs/index.html#Content">Content</a> (<a href="../../laws/PlacesSpecs/index.html#RegisterAt">RegisterAt</a> k) = RawVal

-- what a machine in this state has at an index, if it has anything there
abbrev pub <b id="content_at">content_at</b> : (location : <a href="../../laws/PlacesSpecs/index.html#Location">Location</a>) → <a href="../../machine/StateSpecs/index.html#State">State</a> → Option (<a href="../../laws/PlacesSpecs/index.html#Content">Content</a> location)
<a href="../../laws/PlacesSpecs/index.html#content_at">content_at</a> (<a href="../../laws/PlacesSpecs/index.html#MemoryAt">MemoryAt</a> k) s = slice_get s.memories k
<a href="../../laws/PlacesSpecs/index.html#content_at">content_at</a> (<a href="../../laws/PlacesSpecs/index.html#TableAt">TableAt</a> k) s = slice_get s.tables k
<a href="../../laws/PlacesSpecs/index.html#content_at">content_at</a> (<a href="../../laws/PlacesSpecs/index.html#SegmentAt">SegmentAt</a> k) s = slice_get s.segments k
<a href="../../laws/PlacesSpecs/index.html#content_at">content_at</a> (<a href="../../laws/PlacesSpecs/index.html#DataAt">DataAt</a> k) s = slice_get s.data_segments k
<a href="../../laws/PlacesSpecs/index.html#content_at">content_at</a> (<a href="../../laws/PlacesSpecs/index.html#GlobalAt">GlobalAt</a> k) s = slice_get s.globals k
<a href="../../laws/PlacesSpecs/index.html#content_at">content_at</a> (<a href="../../laws/PlacesSpecs/index.html#RegisterAt">RegisterAt</a> k) s = slice_get s.registers k

-- What tools/generate writes begins.
-- the one index at which a call may change what is there; a call that makes something, or that only reads, changes what
-- is at none
abbrev pub <b id="changed_location">changed_location</b> : Call → Option <a href="../../laws/PlacesSpecs/index.html#Location">Location</a>
<a href="../../laws/PlacesSpecs/index.html#changed_location">changed_location</a> (call.GrowMemory <a href="../../laws/PlacesSpecs/index.html#memory">memory</a> pages) = Some (<a href="../../laws/PlacesSpecs/index.html#MemoryAt">MemoryAt</a> <a href="../../laws/PlacesSpecs/index.html#memory">memory</a>)
<a href="../../laws/PlacesSpecs/index.html#changed_location">changed_location</a> (call.DropMemory <a href="../../laws/PlacesSpecs/index.html#memory">memory</a>) = Some (<a href="../../laws/PlacesSpecs/index.html#MemoryAt">MemoryAt</a> <a href="../../laws/PlacesSpecs/index.html#memory">memory</a>)
<a href="../../laws/PlacesSpecs/index.html#changed_location">changed_location</a> (call.Write <a href="../../laws/PlacesSpecs/index.html#memory">memory</a> <a href="../../laws/PlacesSpecs/index.html#offset">offset</a> bytes) = Some (<a href="../../laws/PlacesSpecs/index.html#MemoryAt">MemoryAt</a> <a href="../../laws/PlacesSpecs/index.html#memory">memory</a>)
<a href="../../laws/PlacesSpecs/index.html#changed_location">changed_location</a> (call.Store <a href="../../laws/PlacesSpecs/index.html#op">op</a> <a href="../../laws/PlacesSpecs/index.html#memory">memory</a> <a href="../../laws/PlacesSpecs/index.html#ptr">ptr</a> <a href="../../laws/PlacesSpecs/index.html#offset">offset</a> <a href="../../laws/PlacesSpecs/index.html#value">value</a>) = Some (<a href="../../laws/PlacesSpecs/index.html#MemoryAt">MemoryAt</a> <a href="../../laws/PlacesSpecs/index.html#memory">memory</a>)
<a href="../../laws/PlacesSpecs/index.html#changed_location">changed_location</a> (call.FillMemory <a href="../../laws/PlacesSpecs/index.html#memory">memory</a> dst <a href="../../laws/PlacesSpecs/index.html#value">value</a> len) = Some (<a href="../../laws/PlacesSpecs/index.html#MemoryAt">MemoryAt</a> <a href="../../laws/PlacesSpecs/index.html#memory">memory</a>)
<a href="../../laws/PlacesSpecs/index.html#changed_location">changed_location</a> (call.CopyMemory dst_memory dst src_memory src len) = Some (<a href="../../laws/PlacesSpecs/index.html#MemoryAt">MemoryAt</a> dst_memory)
<a href="../../laws/PlacesSpecs/index.html#changed_location">changed_location</a> (call.InitMemory <a href="../../laws/PlacesSpecs/index.html#memory">memory</a> segment dst src len) = Some (<a href="../../laws/PlacesSpecs/index.html#MemoryAt">MemoryAt</a> <a href="../../laws/PlacesSpecs/index.html#memory">memory</a>)
<a href="../../laws/PlacesSpecs/index.html#changed_location">changed_location</a> (call.GrowTable table delta init) = Some (<a href="../../laws/PlacesSpecs/index.html#TableAt">TableAt</a> table)
<a href="../../laws/PlacesSpecs/index.html#changed_location">changed_location</a> (call.DropTable table) = Some (<a href="../../laws/PlacesSpecs/index.html#TableAt">TableAt</a> table)
<a href="../../laws/PlacesSpecs/index.html#changed_location">changed_location</a> (call.SetElement table index <a href="../../laws/PlacesSpecs/index.html#value">value</a>) = Some (<a href="../../laws/PlacesSpecs/index.html#TableAt">TableAt</a> table)
<a href="../../laws/PlacesSpecs/index.html#changed_location">changed_location</a> (call.InitTable table segment dst src len) = Some (<a href="../../laws/PlacesSpecs/index.html#TableAt">TableAt</a> table)
<a href="../../laws/PlacesSpecs/index.html#changed_location">changed_location</a> (call.CopyTable dst_table dst src_table src len) = Some (<a href="../../laws/PlacesSpecs/index.html#TableAt">TableAt</a> dst_table)
<a href="../../laws/PlacesSpecs/index.html#changed_location">changed_location</a> (call.FillTable table dst <a href="../../laws/PlacesSpecs/index.html#value">value</a> len) = Some (<a href="../../laws/PlacesSpecs/index.html#TableAt">TableAt</a> table)
<a href="../../laws/PlacesSpecs/index.html#changed_location">changed_location</a> (call.DropItems segment) = Some (<a href="../../laws/PlacesSpecs/index.html#SegmentAt">SegmentAt</a> segment)
<a href="../../laws/PlacesSpecs/index.html#changed_location">changed_location</a> (call.DropData segment) = Some (<a href="../../laws/PlacesSpecs/index.html#DataAt">DataAt</a> segment)
<a href="../../laws/PlacesSpecs/index.html#changed_location">changed_location</a> (call.SetGlobal global <a href="../../laws/PlacesSpecs/index.html#value">value</a>) = Some (<a href="../../laws/PlacesSpecs/index.html#GlobalAt">GlobalAt</a> global)
<a href="../../laws/PlacesSpecs/index.html#changed_location">changed_location</a> (call.SetRegister dst <a href="../../laws/PlacesSpecs/index.html#value">value</a>) = Some (<a href="../../laws/PlacesSpecs/index.html#RegisterAt">RegisterAt</a> dst)
<a href="../../laws/PlacesSpecs/index.html#changed_location">changed_location</a> (call.Make <a href="../../laws/PlacesSpecs/index.html#op">op</a> dst a) = Some (<a href="../../laws/PlacesSpecs/index.html#RegisterAt">RegisterAt</a> dst)
<a href="../../laws/PlacesSpecs/index.html#changed_location">changed_location</a> (call.Unary <a href="../../laws/PlacesSpecs/index.html#op">op</a> dst a) = Some (<a href="../../laws/PlacesSpecs/index.html#RegisterAt">RegisterAt</a> dst)
<a href="../../laws/PlacesSpecs/index.html#changed_location">changed_location</a> (call.Binary <a href="../../laws/PlacesSpecs/index.html#op">op</a> dst a b) = Some (<a href="../../laws/PlacesSpecs/index.html#RegisterAt">RegisterAt</a> dst)
<a href="../../laws/PlacesSpecs/index.html#changed_location">changed_location</a> (call.Ternary <a href="../../laws/PlacesSpecs/index.html#op">op</a> dst a b c) = Some (<a href="../../laws/PlacesSpecs/index.html#RegisterAt">RegisterAt</a> dst)
<a href="../../laws/PlacesSpecs/index.html#changed_location">changed_location</a> (call.Shift <a href="../../laws/PlacesSpecs/index.html#op">op</a> dst a amount) = Some (<a href="../../laws/PlacesSpecs/index.html#RegisterAt">RegisterAt</a> dst)
<a href="../../laws/PlacesSpecs/index.html#changed_location">changed_location</a> (call.Replace <a href="../../laws/PlacesSpecs/index.html#op">op</a> dst a item) = Some (<a href="../../laws/PlacesSpecs/index.html#RegisterAt">RegisterAt</a> dst)
<a href="../../laws/PlacesSpecs/index.html#changed_location">changed_location</a> (call.Shuffle dst a b lanes) = Some (<a href="../../laws/PlacesSpecs/index.html#RegisterAt">RegisterAt</a> dst)
<a href="../../laws/PlacesSpecs/index.html#changed_location">changed_location</a> (call.VectorLoad <a href="../../laws/PlacesSpecs/index.html#op">op</a> dst <a href="../../laws/PlacesSpecs/index.html#memory">memory</a> <a href="../../laws/PlacesSpecs/index.html#ptr">ptr</a> <a href="../../laws/PlacesSpecs/index.html#offset">offset</a>) = Some (<a href="../../laws/PlacesSpecs/index.html#RegisterAt">RegisterAt</a> dst)
<a href="../../laws/PlacesSpecs/index.html#changed_location">changed_location</a> (call.LoadLane <a href="../../laws/PlacesSpecs/index.html#op">op</a> dst a <a href="../../laws/PlacesSpecs/index.html#memory">memory</a> <a href="../../laws/PlacesSpecs/index.html#ptr">ptr</a> <a href="../../laws/PlacesSpecs/index.html#offset">offset</a>) = Some (<a href="../../laws/PlacesSpecs/index.html#RegisterAt">RegisterAt</a> dst)
<a href="../../laws/PlacesSpecs/index.html#changed_location">changed_location</a> (call.VectorStore a <a href="../../laws/PlacesSpecs/index.html#memory">memory</a> <a href="../../laws/PlacesSpecs/index.html#ptr">ptr</a> <a href="../../laws/PlacesSpecs/index.html#offset">offset</a>) = Some (<a href="../../laws/PlacesSpecs/index.html#MemoryAt">MemoryAt</a> <a href="../../laws/PlacesSpecs/index.html#memory">memory</a>)
<a href="../../laws/PlacesSpecs/index.html#changed_location">changed_location</a> (call.StoreLane <a href="../../laws/PlacesSpecs/index.html#op">op</a> a <a href="../../laws/PlacesSpecs/index.html#memory">memory</a> <a href="../../laws/PlacesSpecs/index.html#ptr">ptr</a> <a href="../../laws/PlacesSpecs/index.html#offset">offset</a>) = Some (<a href="../../laws/PlacesSpecs/index.html#MemoryAt">MemoryAt</a> <a href="../../laws/PlacesSpecs/index.html#memory">memory</a>)
<a href="../../laws/PlacesSpecs/index.html#changed_location">changed_location</a> call = None

-- the index at which a call drops a memory or a table
abbrev pub <b id="dropped_location">dropped_location</b> : Call → Option <a href="../../laws/PlacesSpecs/index.html#Location">Location</a>
<a href="../../laws/PlacesSpecs/index.html#dropped_location">dropped_location</a> (call.DropMemory <a href="../../laws/PlacesSpecs/index.html#memory">memory</a>) = Some (<a href="../../laws/PlacesSpecs/index.html#MemoryAt">MemoryAt</a> <a href="../../laws/PlacesSpecs/index.html#memory">memory</a>)
<a href="../../laws/PlacesSpecs/index.html#dropped_location">dropped_location</a> (call.DropTable table) = Some (<a href="../../laws/PlacesSpecs/index.html#TableAt">TableAt</a> table)
<a href="../../laws/PlacesSpecs/index.html#dropped_location">dropped_location</a> call = None

-- the other indices of which a call reads what is there
abbrev pub <b id="read_locations">read_locations</b> : Call → List <a href="../../laws/PlacesSpecs/index.html#Location">Location</a>
<a href="../../laws/PlacesSpecs/index.html#read_locations">read_locations</a> (call.Read <a href="../../laws/PlacesSpecs/index.html#memory">memory</a> <a href="../../laws/PlacesSpecs/index.html#offset">offset</a> len) = <a href="../../laws/PlacesSpecs/index.html#MemoryAt">MemoryAt</a> <a href="../../laws/PlacesSpecs/index.html#memory">memory</a> ∷ []
<a href="../../laws/PlacesSpecs/index.html#read_locations">read_locations</a> (call.Load <a href="../../laws/PlacesSpecs/index.html#op">op</a> <a href="../../laws/PlacesSpecs/index.html#memory">memory</a> <a href="../../laws/PlacesSpecs/index.html#ptr">ptr</a> <a href="../../laws/PlacesSpecs/index.html#offset">offset</a>) = <a href="../../laws/PlacesSpecs/index.html#MemoryAt">MemoryAt</a> <a href="../../laws/PlacesSpecs/index.html#memory">memory</a> ∷ []
<a href="../../laws/PlacesSpecs/index.html#read_locations">read_locations</a> (call.CopyMemory dst_memory dst src_memory src len) = <a href="../../laws/PlacesSpecs/index.html#MemoryAt">MemoryAt</a> src_memory ∷ []
<a href="../../laws/PlacesSpecs/index.html#read_locations">read_locations</a> (call.InitMemory <a href="../../laws/PlacesSpecs/index.html#memory">memory</a> segment dst src len) = <a href="../../laws/PlacesSpecs/index.html#DataAt">DataAt</a> segment ∷ []
<a href="../../laws/PlacesSpecs/index.html#read_locations">read_locations</a> (call.GetElement table index) = <a href="../../laws/PlacesSpecs/index.html#TableAt">TableAt</a> table ∷ []
<a href="../../laws/PlacesSpecs/index.html#read_locations">read_locations</a> (call.InitTable table segment dst src len) = <a href="../../laws/PlacesSpecs/index.html#SegmentAt">SegmentAt</a> segment ∷ []
<a href="../../laws/PlacesSpecs/index.html#read_locations">read_locations</a> (call.CopyTable dst_table dst src_table src len) = <a href="../../laws/PlacesSpecs/index.html#TableAt">TableAt</a> src_table ∷ []
<a href="../../laws/PlacesSpecs/index.html#read_locations">read_locations</a> (call.GetGlobal global) = <a href="../../laws/PlacesSpecs/index.html#GlobalAt">GlobalAt</a> global ∷ []
<a href="../../laws/PlacesSpecs/index.html#read_locations">read_locations</a> (call.GetRegister a) = <a href="../../laws/PlacesSpecs/index.html#RegisterAt">RegisterAt</a> a ∷ []
<a href="../../laws/PlacesSpecs/index.html#read_locations">read_locations</a> (call.Make <a href="../../laws/PlacesSpecs/index.html#op">op</a> dst a) = <a href="../../laws/PlacesSpecs/index.html#RegisterAt">RegisterAt</a> a ∷ []
<a href="../../laws/PlacesSpecs/index.html#read_locations">read_locations</a> (call.Unary <a href="../../laws/PlacesSpecs/index.html#op">op</a> dst a) = <a href="../../laws/PlacesSpecs/index.html#RegisterAt">RegisterAt</a> a ∷ []
<a href="../../laws/PlacesSpecs/index.html#read_locations">read_locations</a> (call.Binary <a href="../../laws/PlacesSpecs/index.html#op">op</a> dst a b) = <a href="../../laws/PlacesSpecs/index.html#RegisterAt">RegisterAt</a> a ∷ <a href="../../laws/PlacesSpecs/index.html#RegisterAt">RegisterAt</a> b ∷ []
<a href="../../laws/PlacesSpecs/index.html#read_locations">read_locations</a> (call.Ternary <a href="../../laws/PlacesSpecs/index.html#op">op</a> dst a b c) = <a href="../../laws/PlacesSpecs/index.html#RegisterAt">RegisterAt</a> a ∷ <a href="../../laws/PlacesSpecs/index.html#RegisterAt">RegisterAt</a> b ∷ <a href="../../laws/PlacesSpecs/index.html#RegisterAt">RegisterAt</a> c ∷ []
<a href="../../laws/PlacesSpecs/index.html#read_locations">read_locations</a> (call.Shift <a href="../../laws/PlacesSpecs/index.html#op">op</a> dst a amount) = <a href="../../laws/PlacesSpecs/index.html#RegisterAt">RegisterAt</a> a ∷ []
<a href="../../laws/PlacesSpecs/index.html#read_locations">read_locations</a> (call.Test <a href="../../laws/PlacesSpecs/index.html#op">op</a> a) = <a href="../../laws/PlacesSpecs/index.html#RegisterAt">RegisterAt</a> a ∷ []
<a href="../../laws/PlacesSpecs/index.html#read_locations">read_locations</a> (call.Extract <a href="../../laws/PlacesSpecs/index.html#op">op</a> a) = <a href="../../laws/PlacesSpecs/index.html#RegisterAt">RegisterAt</a> a ∷ []
<a href="../../laws/PlacesSpecs/index.html#read_locations">read_locations</a> (call.Replace <a href="../../laws/PlacesSpecs/index.html#op">op</a> dst a item) = <a href="../../laws/PlacesSpecs/index.html#RegisterAt">RegisterAt</a> a ∷ <a href="../../laws/PlacesSpecs/index.html#RegisterAt">RegisterAt</a> item ∷ []
<a href="../../laws/PlacesSpecs/index.html#read_locations">read_locations</a> (call.Shuffle dst a b lanes) = <a href="../../laws/PlacesSpecs/index.html#RegisterAt">RegisterAt</a> a ∷ <a href="../../laws/PlacesSpecs/index.html#RegisterAt">RegisterAt</a> b ∷ []
<a href="../../laws/PlacesSpecs/index.html#read_locations">read_locations</a> (call.VectorLoad <a href="../../laws/PlacesSpecs/index.html#op">op</a> dst <a href="../../laws/PlacesSpecs/index.html#memory">memory</a> <a href="../../laws/PlacesSpecs/index.html#ptr">ptr</a> <a href="../../laws/PlacesSpecs/index.html#offset">offset</a>) = <a href="../../laws/PlacesSpecs/index.html#MemoryAt">MemoryAt</a> <a href="../../laws/PlacesSpecs/index.html#memory">memory</a> ∷ []
<a href="../../laws/PlacesSpecs/index.html#read_locations">read_locations</a> (call.LoadLane <a href="../../laws/PlacesSpecs/index.html#op">op</a> dst a <a href="../../laws/PlacesSpecs/index.html#memory">memory</a> <a href="../../laws/PlacesSpecs/index.html#ptr">ptr</a> <a href="../../laws/PlacesSpecs/index.html#offset">offset</a>) = <a href="../../laws/PlacesSpecs/index.html#RegisterAt">RegisterAt</a> a ∷ <a href="../../laws/PlacesSpecs/index.html#MemoryAt">MemoryAt</a> <a href="../../laws/PlacesSpecs/index.html#memory">memory</a> ∷ []
<a href="../../laws/PlacesSpecs/index.html#read_locations">read_locations</a> (call.VectorStore a <a href="../../laws/PlacesSpecs/index.html#memory">memory</a> <a href="../../laws/PlacesSpecs/index.html#ptr">ptr</a> <a href="../../laws/PlacesSpecs/index.html#offset">offset</a>) = <a href="../../laws/PlacesSpecs/index.html#RegisterAt">RegisterAt</a> a ∷ []
<a href="../../laws/PlacesSpecs/index.html#read_locations">read_locations</a> (call.StoreLane <a href="../../laws/PlacesSpecs/index.html#op">op</a> a <a href="../../laws/PlacesSpecs/index.html#memory">memory</a> <a href="../../laws/PlacesSpecs/index.html#ptr">ptr</a> <a href="../../laws/PlacesSpecs/index.html#offset">offset</a>) = <a href="../../laws/PlacesSpecs/index.html#RegisterAt">RegisterAt</a> a ∷ []
<a href="../../laws/PlacesSpecs/index.html#read_locations">read_locations</a> call = []

-- a call acts on what is at indices alone: it makes nothing, is never charged, and reaches neither the meter nor the
-- limiter
abbrev pub <b id="IsLocal">IsLocal</b> : Call → Type 0
<a href="../../laws/PlacesSpecs/index.html#IsLocal">IsLocal</a> (call.SetFuel fuel) = ⊥
<a href="../../laws/PlacesSpecs/index.html#IsLocal">IsLocal</a> call.GetFuel = ⊥
<a href="../../laws/PlacesSpecs/index.html#IsLocal">IsLocal</a> (call.NewMemory ty) = ⊥
<a href="../../laws/PlacesSpecs/index.html#IsLocal">IsLocal</a> (call.NewLentMemory ty) = ⊥
<a href="../../laws/PlacesSpecs/index.html#IsLocal">IsLocal</a> (call.GrowMemory <a href="../../laws/PlacesSpecs/index.html#memory">memory</a> pages) = ⊥
<a href="../../laws/PlacesSpecs/index.html#IsLocal">IsLocal</a> (call.FillMemory <a href="../../laws/PlacesSpecs/index.html#memory">memory</a> dst <a href="../../laws/PlacesSpecs/index.html#value">value</a> len) = ⊥
<a href="../../laws/PlacesSpecs/index.html#IsLocal">IsLocal</a> (call.CopyMemory dst_memory dst src_memory src len) = ⊥
<a href="../../laws/PlacesSpecs/index.html#IsLocal">IsLocal</a> (call.InitMemory <a href="../../laws/PlacesSpecs/index.html#memory">memory</a> segment dst src len) = ⊥
<a href="../../laws/PlacesSpecs/index.html#IsLocal">IsLocal</a> (call.NewTable ty init) = ⊥
<a href="../../laws/PlacesSpecs/index.html#IsLocal">IsLocal</a> (call.GrowTable table delta init) = ⊥
<a href="../../laws/PlacesSpecs/index.html#IsLocal">IsLocal</a> (call.InitTable table segment dst src len) = ⊥
<a href="../../laws/PlacesSpecs/index.html#IsLocal">IsLocal</a> (call.CopyTable dst_table dst src_table src len) = ⊥
<a href="../../laws/PlacesSpecs/index.html#IsLocal">IsLocal</a> (call.FillTable table dst <a href="../../laws/PlacesSpecs/index.html#value">value</a> len) = ⊥
<a href="../../laws/PlacesSpecs/index.html#IsLocal">IsLocal</a> (call.NewSegment ty items) = ⊥
<a href="../../laws/PlacesSpecs/index.html#IsLocal">IsLocal</a> (call.NewData bytes) = ⊥
<a href="../../laws/PlacesSpecs/index.html#IsLocal">IsLocal</a> (call.NewGlobal <a href="../../laws/PlacesSpecs/index.html#value">value</a> ty) = ⊥
<a href="../../laws/PlacesSpecs/index.html#IsLocal">IsLocal</a> call = Unit {0}

-- What tools/generate writes ends.

-- a call may not change what is at this index
abbrev pub <b id="LeavesAlone">LeavesAlone</b> : <a href="../../laws/PlacesSpecs/index.html#Location">Location</a> → Call → Type 0
<a href="../../laws/PlacesSpecs/index.html#LeavesAlone">LeavesAlone</a> location call = <a href="../../laws/PlacesSpecs/index.html#changed_location">changed_location</a> call ≡ Some location → ⊥

-- a call doesn&#x27;t drop what is at this index
abbrev pub <b id="DropsNot">DropsNot</b> : <a href="../../laws/PlacesSpecs/index.html#Location">Location</a> → Call → Type 0
<a href="../../laws/PlacesSpecs/index.html#DropsNot">DropsNot</a> location call = <a href="../../laws/PlacesSpecs/index.html#dropped_location">dropped_location</a> call ≡ Some location → ⊥

-- neither of two calls may change what the other may change or reads
pub record <b id="IsIndependent">IsIndependent</b> (first second : Call) : Type 0 where
  pub <b id="changes">changes</b> : (location : <a href="../../laws/PlacesSpecs/index.html#Location">Location</a>) → <a href="../../laws/PlacesSpecs/index.html#changed_location">changed_location</a> first ≡ Some location → <a href="../../laws/PlacesSpecs/index.html#LeavesAlone">LeavesAlone</a> location second
  pub <b id="first_leaves">first_leaves</b> : All (λ location. <a href="../../laws/PlacesSpecs/index.html#LeavesAlone">LeavesAlone</a> location first) (<a href="../../laws/PlacesSpecs/index.html#read_locations">read_locations</a> second)
  pub <b id="second_leaves">second_leaves</b> : All (λ location. <a href="../../laws/PlacesSpecs/index.html#LeavesAlone">LeavesAlone</a> location second) (<a href="../../laws/PlacesSpecs/index.html#read_locations">read_locations</a> first)

-- what was at an index is there
abbrev pub <b id="StaysAt">StaysAt</b> : <a href="../../laws/PlacesSpecs/index.html#Location">Location</a> → <a href="../../machine/StateSpecs/index.html#State">State</a> → <a href="../../machine/StateSpecs/index.html#State">State</a> → Type 0
<a href="../../laws/PlacesSpecs/index.html#StaysAt">StaysAt</a> location s s&#x27; = (x : <a href="../../laws/PlacesSpecs/index.html#Content">Content</a> location) → <a href="../../laws/PlacesSpecs/index.html#content_at">content_at</a> location s ≡ Some x → <a href="../../laws/PlacesSpecs/index.html#content_at">content_at</a> location s&#x27; ≡ Some x

-- what may become of a slot: a live value stays of its type or is dropped, and a dropped one stays, with its size
abbrev pub <b id="IsLaterSlot">IsLaterSlot</b> : {X T : Type 0} → (X → T) → Slot X → Slot X → Type 0
<a href="../../laws/PlacesSpecs/index.html#IsLaterSlot">IsLaterSlot</a> type (Live x) (Live x&#x27;) = type x&#x27; ≡ type x
<a href="../../laws/PlacesSpecs/index.html#IsLaterSlot">IsLaterSlot</a> type (Live x) (Gone size) = Unit {0}
<a href="../../laws/PlacesSpecs/index.html#IsLaterSlot">IsLaterSlot</a> type (Gone size) later = later ≡ Gone size

-- what may become of what is at an index: an element segment keeps its items or has none, so a data segment its bytes,
-- and a constant global keeps its value
abbrev pub <b id="IsLater">IsLater</b> : (location : <a href="../../laws/PlacesSpecs/index.html#Location">Location</a>) → <a href="../../laws/PlacesSpecs/index.html#Content">Content</a> location → <a href="../../laws/PlacesSpecs/index.html#Content">Content</a> location → Type 0
<a href="../../laws/PlacesSpecs/index.html#IsLater">IsLater</a> (<a href="../../laws/PlacesSpecs/index.html#MemoryAt">MemoryAt</a> k) x x&#x27; = <a href="../../laws/PlacesSpecs/index.html#IsLaterSlot">IsLaterSlot</a> (λ (m : <a href="../../store/MemorySpecs/index.html#MemoryValue">MemoryValue</a>). m.ty) x x&#x27;
<a href="../../laws/PlacesSpecs/index.html#IsLater">IsLater</a> (<a href="../../laws/PlacesSpecs/index.html#TableAt">TableAt</a> k) x x&#x27; = <a href="../../laws/PlacesSpecs/index.html#IsLaterSlot">IsLaterSlot</a> (λ (t : <a href="../../store/TableSpecs/index.html#TableValue">TableValue</a>). t.ty) x x&#x27;
<a href="../../laws/PlacesSpecs/index.html#IsLater">IsLater</a> (<a href="../../laws/PlacesSpecs/index.html#SegmentAt">SegmentAt</a> k) x x&#x27; = (x&#x27;.ty ≡ x.ty) × ((x&#x27;.items ≡ x.items) ⊎ (x&#x27;.items ≡ []))
<a href="../../laws/PlacesSpecs/index.html#IsLater">IsLater</a> (<a href="../../laws/PlacesSpecs/index.html#DataAt">DataAt</a> k) x x&#x27; = (x&#x27; ≡ x) ⊎ (x&#x27; ≡ [])
<a href="../../laws/PlacesSpecs/index.html#IsLater">IsLater</a> (<a href="../../laws/PlacesSpecs/index.html#GlobalAt">GlobalAt</a> k) x x&#x27; = (x&#x27;.ty ≡ x.ty) × (x.ty.mutability ≡ Const → x&#x27; ≡ x)
<a href="../../laws/PlacesSpecs/index.html#IsLater">IsLater</a> (<a href="../../laws/PlacesSpecs/index.html#RegisterAt">RegisterAt</a> k) x x&#x27; = Unit {0}

-- the slot at an index isn&#x27;t dropped
abbrev pub <b id="IsLiveSlot">IsLiveSlot</b> : {X : Type 0} → Slot X → Type 0
<a href="../../laws/PlacesSpecs/index.html#IsLiveSlot">IsLiveSlot</a> (Live x) = Unit {0}
<a href="../../laws/PlacesSpecs/index.html#IsLiveSlot">IsLiveSlot</a> (Gone size) = ⊥

-- what is at an index isn&#x27;t dropped, as only memories and tables are
abbrev pub <b id="IsLive">IsLive</b> : (location : <a href="../../laws/PlacesSpecs/index.html#Location">Location</a>) → <a href="../../laws/PlacesSpecs/index.html#Content">Content</a> location → Type 0
<a href="../../laws/PlacesSpecs/index.html#IsLive">IsLive</a> (<a href="../../laws/PlacesSpecs/index.html#MemoryAt">MemoryAt</a> k) x = <a href="../../laws/PlacesSpecs/index.html#IsLiveSlot">IsLiveSlot</a> x
<a href="../../laws/PlacesSpecs/index.html#IsLive">IsLive</a> (<a href="../../laws/PlacesSpecs/index.html#TableAt">TableAt</a> k) x = <a href="../../laws/PlacesSpecs/index.html#IsLiveSlot">IsLiveSlot</a> x
<a href="../../laws/PlacesSpecs/index.html#IsLive">IsLive</a> location x = Unit {0}

-- something is at an index, and this holds of it
abbrev pub <b id="HasAt">HasAt</b> : (location : <a href="../../laws/PlacesSpecs/index.html#Location">Location</a>) → <a href="../../machine/StateSpecs/index.html#State">State</a> → (<a href="../../laws/PlacesSpecs/index.html#Content">Content</a> location → Type 0) → Type 0
<a href="../../laws/PlacesSpecs/index.html#HasAt">HasAt</a> location s Holds = (x : <a href="../../laws/PlacesSpecs/index.html#Content">Content</a> location) × (<a href="../../laws/PlacesSpecs/index.html#content_at">content_at</a> location s ≡ Some x) × Holds x

-- the load that reads as many bytes as a store of a number writes, without a sign
abbrev pub <b id="load_of">load_of</b> : StoreOp → LoadOp
<a href="../../laws/PlacesSpecs/index.html#load_of">load_of</a> store.I32Store8 = load.I32Load8U
<a href="../../laws/PlacesSpecs/index.html#load_of">load_of</a> store.I32Store16 = load.I32Load16U
<a href="../../laws/PlacesSpecs/index.html#load_of">load_of</a> store.I64Store8 = load.I64Load8U
<a href="../../laws/PlacesSpecs/index.html#load_of">load_of</a> store.I64Store16 = load.I64Load16U
<a href="../../laws/PlacesSpecs/index.html#load_of">load_of</a> store.I64Store32 = load.I64Load32U
<a href="../../laws/PlacesSpecs/index.html#load_of">load_of</a> store.Store32 = load.LoadU32
<a href="../../laws/PlacesSpecs/index.html#load_of">load_of</a> store.Store64 = load.LoadU64

-- the bytes that a store of a number writes
abbrev pub <b id="stored_size">stored_size</b> : StoreOp → ℕ
<a href="../../laws/PlacesSpecs/index.html#stored_size">stored_size</a> store.I32Store8 = 1
<a href="../../laws/PlacesSpecs/index.html#stored_size">stored_size</a> store.I32Store16 = 2
<a href="../../laws/PlacesSpecs/index.html#stored_size">stored_size</a> store.I64Store8 = 1
<a href="../../laws/PlacesSpecs/index.html#stored_size">stored_size</a> store.I64Store16 = 2
<a href="../../laws/PlacesSpecs/index.html#stored_size">stored_size</a> store.I64Store32 = 4
<a href="../../laws/PlacesSpecs/index.html#stored_size">stored_size</a> store.Store32 = 4
<a href="../../laws/PlacesSpecs/index.html#stored_size">stored_size</a> store.Store64 = 8

-- the number of a raw value&#x27;s low bits, as many as a store writes
abbrev pub <b id="stored_part">stored_part</b> : StoreOp → RawVal → RawVal
<a href="../../laws/PlacesSpecs/index.html#stored_part">stored_part</a> <a href="../../laws/PlacesSpecs/index.html#op">op</a> <a href="../../laws/PlacesSpecs/index.html#value">value</a> = <a href="../../raw/RawValSpecs/index.html#raw_of">raw_of</a> (value.lo % 2 ^ (8 * <a href="../../laws/PlacesSpecs/index.html#stored_size">stored_size</a> <a href="../../laws/PlacesSpecs/index.html#op">op</a>))

-- a store of a number to a memory: the instruction, the memory&#x27;s index, the two parts of the address, and the value
pub record <b id="NumberStore">NumberStore</b> : Type 0 where
  pub <b id="op">op</b> : StoreOp
  pub <b id="memory">memory</b> : ℕ
  pub <b id="ptr">ptr</b> : ℕ
  pub <b id="offset">offset</b> : ℕ
  pub <b id="value">value</b> : RawVal

-- the call that makes a store of a number
abbrev pub <b id="store_call">store_call</b> : <a href="../../laws/PlacesSpecs/index.html#NumberStore">NumberStore</a> → Call
<a href="../../laws/PlacesSpecs/index.html#store_call">store_call</a> it = call.Store it.op it.memory it.ptr it.offset it.value

-- the call that loads as many bytes from the address of a store, without a sign
abbrev pub <b id="load_call">load_call</b> : <a href="../../laws/PlacesSpecs/index.html#NumberStore">NumberStore</a> → Call
<a href="../../laws/PlacesSpecs/index.html#load_call">load_call</a> it = call.Load (<a href="../../laws/PlacesSpecs/index.html#load_of">load_of</a> it.op) it.memory it.ptr it.offset

-- the memory of a store has as many bytes after it, and the same ones except those that it writes
abbrev pub <b id="KeepsOtherBytes">KeepsOtherBytes</b> : <a href="../../laws/PlacesSpecs/index.html#NumberStore">NumberStore</a> → <a href="../../machine/StateSpecs/index.html#State">State</a> → <a href="../../machine/StateSpecs/index.html#State">State</a> → Type 0
<a href="../../laws/PlacesSpecs/index.html#KeepsOtherBytes">KeepsOtherBytes</a> it s s&#x27; =
    (x x&#x27; : <a href="../../store/MemorySpecs/index.html#MemoryValue">MemoryValue</a>) → <a href="../../machine/StateSpecs/index.html#live_at">live_at</a> s.memories it.memory ≡ Some x → <a href="../../machine/StateSpecs/index.html#live_at">live_at</a> s&#x27;.memories it.memory ≡ Some x&#x27;
    → <a href="../../accesses/LoadStoreSpecs/index.html#IsSameOutside">IsSameOutside</a> x.bytes x&#x27;.bytes (it.ptr + it.offset) (<a href="../../laws/PlacesSpecs/index.html#stored_size">stored_size</a> it.op) × (length x&#x27;.bytes ≡ length x.bytes)

module _ {S : Type 0} (rules : <a href="../../meter/LimiterSpecs/index.html#Rules">Rules</a> S) where
  -- a turn leaves what is at each index except the one that its call may change
  abbrev pub <b id="OthersStay">OthersStay</b> : Type 0
  <a href="../../laws/PlacesSpecs/index.html#OthersStay">OthersStay</a> = (w : <a href="../../machine/StateSpecs/index.html#World">World</a> S) (turn : <a href="../../machine/StateSpecs/index.html#Turn">Turn</a>) (w&#x27; : <a href="../../machine/StateSpecs/index.html#World">World</a> S) → <a href="../../machine/StepsSpecs/index.html#Step">Step</a> rules w turn w&#x27; → (location : <a href="../../laws/PlacesSpecs/index.html#Location">Location</a>)
      → <a href="../../laws/PlacesSpecs/index.html#LeavesAlone">LeavesAlone</a> location turn.call → <a href="../../laws/PlacesSpecs/index.html#StaysAt">StaysAt</a> location w.state w&#x27;.state

  -- a run leaves what is at each index that none of its calls may change
  abbrev pub <b id="OthersStayInRuns">OthersStayInRuns</b> : Type 0
  <a href="../../laws/PlacesSpecs/index.html#OthersStayInRuns">OthersStayInRuns</a> = (w : <a href="../../machine/StateSpecs/index.html#World">World</a> S) (turns : List <a href="../../machine/StateSpecs/index.html#Turn">Turn</a>) (w&#x27; : <a href="../../machine/StateSpecs/index.html#World">World</a> S) → <a href="../../machine/StepsSpecs/index.html#Run">Run</a> rules w turns w&#x27; → (location : <a href="../../laws/PlacesSpecs/index.html#Location">Location</a>)
      → All (<a href="../../laws/PlacesSpecs/index.html#LeavesAlone">LeavesAlone</a> location) (map Turn.call turns) → <a href="../../laws/PlacesSpecs/index.html#StaysAt">StaysAt</a> location w.state w&#x27;.state

  -- after a run, what was at an index is there, as it may have become
  abbrev pub <b id="IndicesLast">IndicesLast</b> : Type 0
  <a href="../../laws/PlacesSpecs/index.html#IndicesLast">IndicesLast</a> = (w : <a href="../../machine/StateSpecs/index.html#World">World</a> S) (turns : List <a href="../../machine/StateSpecs/index.html#Turn">Turn</a>) (w&#x27; : <a href="../../machine/StateSpecs/index.html#World">World</a> S) → <a href="../../machine/StepsSpecs/index.html#Run">Run</a> rules w turns w&#x27; → (location : <a href="../../laws/PlacesSpecs/index.html#Location">Location</a>)
      → (x : <a href="../../laws/PlacesSpecs/index.html#Content">Content</a> location) → <a href="../../laws/PlacesSpecs/index.html#content_at">content_at</a> location w.state ≡ Some x → <a href="../../laws/PlacesSpecs/index.html#HasAt">HasAt</a> location w&#x27;.state (<a href="../../laws/PlacesSpecs/index.html#IsLater">IsLater</a> location x)

  -- after a run none of whose calls drops it, what was live at an index is live
  abbrev pub <b id="LiveUntilDropped">LiveUntilDropped</b> : Type 0
  <a href="../../laws/PlacesSpecs/index.html#LiveUntilDropped">LiveUntilDropped</a> = (w : <a href="../../machine/StateSpecs/index.html#World">World</a> S) (turns : List <a href="../../machine/StateSpecs/index.html#Turn">Turn</a>) (w&#x27; : <a href="../../machine/StateSpecs/index.html#World">World</a> S) → <a href="../../machine/StepsSpecs/index.html#Run">Run</a> rules w turns w&#x27; → (location : <a href="../../laws/PlacesSpecs/index.html#Location">Location</a>)
      → All (<a href="../../laws/PlacesSpecs/index.html#DropsNot">DropsNot</a> location) (map Turn.call turns) → <a href="../../laws/PlacesSpecs/index.html#HasAt">HasAt</a> location w.state (<a href="../../laws/PlacesSpecs/index.html#IsLive">IsLive</a> location)
      → <a href="../../laws/PlacesSpecs/index.html#HasAt">HasAt</a> location w&#x27;.state (<a href="../../laws/PlacesSpecs/index.html#IsLive">IsLive</a> location)

  -- an accepted store is read back by the load of its size, after any turns whose calls don&#x27;t change its memory
  abbrev pub <b id="StoresAreReadBack">StoresAreReadBack</b> : Type 0
  <a href="../../laws/PlacesSpecs/index.html#StoresAreReadBack">StoresAreReadBack</a> = (it : <a href="../../laws/PlacesSpecs/index.html#NumberStore">NumberStore</a>) (t u v w : <a href="../../machine/StateSpecs/index.html#World">World</a> S) (turns : List <a href="../../machine/StateSpecs/index.html#Turn">Turn</a>) (reply : Reply)
      → <a href="../../machine/StepsSpecs/index.html#RepliesWith">RepliesWith</a> rules (<a href="../../laws/PlacesSpecs/index.html#store_call">store_call</a> it) t Done u → <a href="../../machine/StepsSpecs/index.html#Run">Run</a> rules u turns v
      → All (<a href="../../laws/PlacesSpecs/index.html#LeavesAlone">LeavesAlone</a> (<a href="../../laws/PlacesSpecs/index.html#MemoryAt">MemoryAt</a> it.memory)) (map Turn.call turns) → <a href="../../machine/StepsSpecs/index.html#RepliesWith">RepliesWith</a> rules (<a href="../../laws/PlacesSpecs/index.html#load_call">load_call</a> it) v reply w
      → (reply ≡ Value (<a href="../../laws/PlacesSpecs/index.html#stored_part">stored_part</a> it.op it.value)) × (w ≡ v)

  -- an accepted store keeps all other bytes of its memory, and how many there are
  abbrev pub <b id="StoresKeepOtherBytes">StoresKeepOtherBytes</b> : Type 0
  <a href="../../laws/PlacesSpecs/index.html#StoresKeepOtherBytes">StoresKeepOtherBytes</a> = (it : <a href="../../laws/PlacesSpecs/index.html#NumberStore">NumberStore</a>) (t u : <a href="../../machine/StateSpecs/index.html#World">World</a> S) → <a href="../../machine/StepsSpecs/index.html#RepliesWith">RepliesWith</a> rules (<a href="../../laws/PlacesSpecs/index.html#store_call">store_call</a> it) t Done u
      → <a href="../../laws/PlacesSpecs/index.html#KeepsOtherBytes">KeepsOtherBytes</a> it t.state u.state

  -- two turns one after the other whose calls are local and independent may be exchanged
  abbrev pub <b id="IndependentTurnsSwap">IndependentTurnsSwap</b> : Type 0
  <a href="../../laws/PlacesSpecs/index.html#IndependentTurnsSwap">IndependentTurnsSwap</a> = (w : <a href="../../machine/StateSpecs/index.html#World">World</a> S) (first second : <a href="../../machine/StateSpecs/index.html#Turn">Turn</a>) (w&#x27; : <a href="../../machine/StateSpecs/index.html#World">World</a> S) → <a href="../../laws/PlacesSpecs/index.html#IsLocal">IsLocal</a> first.call → <a href="../../laws/PlacesSpecs/index.html#IsLocal">IsLocal</a> second.call
      → <a href="../../laws/PlacesSpecs/index.html#IsIndependent">IsIndependent</a> first.call second.call → <a href="../../machine/StepsSpecs/index.html#Run">Run</a> rules w (first ∷ second ∷ []) w&#x27;
      → <a href="../../machine/StepsSpecs/index.html#Run">Run</a> rules w (second ∷ first ∷ []) w&#x27;

-- the state with this memory at an index
abbrev pub <b id="with_memory_at">with_memory_at</b> : <a href="../../machine/StateSpecs/index.html#State">State</a> → ℕ → <a href="../../store/MemorySpecs/index.html#MemoryValue">MemoryValue</a> → <a href="../../machine/StateSpecs/index.html#State">State</a>
<a href="../../laws/PlacesSpecs/index.html#with_memory_at">with_memory_at</a> s k x = <a href="../../machine/StateSpecs/index.html#with_memories">with_memories</a> s (slice_set s.memories k (Live x))

-- the state with another meter, as a growth of what is at an index leaves it
abbrev pub <b id="with_meter">with_meter</b> : <a href="../../machine/StateSpecs/index.html#State">State</a> → <a href="../../meter/MeterSpecs/index.html#Meter">Meter</a> → <a href="../../machine/StateSpecs/index.html#State">State</a>
<a href="../../laws/PlacesSpecs/index.html#with_meter">with_meter</a> s m = record s { meter = m }

module _ {S : Type 0} (rules : <a href="../../meter/LimiterSpecs/index.html#Rules">Rules</a> S) where
  -- a memory that grows by itself, under the meter and the limiter of a machine that has this memory at an index, grows
  -- as the machine&#x27;s does: with the same reply, and with what it leaves at the index
  abbrev pub <b id="MemoriesGrowAlike">MemoriesGrowAlike</b> : Type 0
  <a href="../../laws/PlacesSpecs/index.html#MemoriesGrowAlike">MemoriesGrowAlike</a> =
      (w : <a href="../../machine/StateSpecs/index.html#World">World</a> S) (k pages : ℕ) (x x&#x27; : <a href="../../store/MemorySpecs/index.html#MemoryValue">MemoryValue</a>) (result : Result ℕ MemoryError) (m&#x27; : <a href="../../meter/MeterSpecs/index.html#Meter">Meter</a>) (l&#x27; : S)
      → <a href="../../machine/StateSpecs/index.html#live_at">live_at</a> w.state.memories k ≡ Some x
      → <a href="../../store/MemorySpecs/index.html#GrowsMemory">GrowsMemory</a> rules pages (<a href="../../store/GrowthSpecs/index.html#metered_value">metered_value</a> x (Some w.state.meter) w.limiter) result (<a href="../../store/GrowthSpecs/index.html#metered_value">metered_value</a> x&#x27; (Some m&#x27;) l&#x27;)
      → <a href="../../machine/StepsSpecs/index.html#RepliesWith">RepliesWith</a> rules (GrowMemory k pages) w (<a href="../../machine/EffectsSpecs/index.html#reply_of">reply_of</a> Number Memory result)
      (<a href="../../machine/StateSpecs/index.html#world">world</a> (<a href="../../laws/PlacesSpecs/index.html#with_meter">with_meter</a> (<a href="../../laws/PlacesSpecs/index.html#with_memory_at">with_memory_at</a> w.state k x&#x27;) m&#x27;) l&#x27;)

  -- a table that grows by itself grows as the one at an index of a machine does, with the same reply
  abbrev pub <b id="TablesGrowAlike">TablesGrowAlike</b> : Type 0
  <a href="../../laws/PlacesSpecs/index.html#TablesGrowAlike">TablesGrowAlike</a> =
      (w : <a href="../../machine/StateSpecs/index.html#World">World</a> S) (k n : ℕ) (init : TypedRawRef) (x x&#x27; : <a href="../../store/TableSpecs/index.html#TableValue">TableValue</a>) (result : Result ℕ TableError) (m&#x27; : <a href="../../meter/MeterSpecs/index.html#Meter">Meter</a>)
      (l&#x27; : S) → <a href="../../machine/StateSpecs/index.html#live_at">live_at</a> w.state.tables k ≡ Some x
      → <a href="../../store/TableSpecs/index.html#GrowsTable">GrowsTable</a> rules n init (<a href="../../store/GrowthSpecs/index.html#metered_value">metered_value</a> x (Some w.state.meter) w.limiter) result (<a href="../../store/GrowthSpecs/index.html#metered_value">metered_value</a> x&#x27; (Some m&#x27;) l&#x27;)
      → <a href="../../machine/StepsSpecs/index.html#RepliesWith">RepliesWith</a> rules (GrowTable k n init) w (<a href="../../machine/EffectsSpecs/index.html#reply_of">reply_of</a> Number Table result)
      (<a href="../../machine/StateSpecs/index.html#world">world</a> (<a href="../../laws/PlacesSpecs/index.html#with_meter">with_meter</a> (<a href="../../machine/StateSpecs/index.html#with_tables">with_tables</a> w.state (slice_set w.state.tables k (Live x&#x27;))) m&#x27;) l&#x27;)

  -- bytes that are read of a memory by itself are those that the machine answers, and a read past its end is refused
  abbrev pub <b id="MemoriesReadAlike">MemoriesReadAlike</b> : Type 0
  <a href="../../laws/PlacesSpecs/index.html#MemoriesReadAlike">MemoriesReadAlike</a> = (w : <a href="../../machine/StateSpecs/index.html#World">World</a> S) (k <a href="../../laws/PlacesSpecs/index.html#offset">offset</a> len : ℕ) (x : <a href="../../store/MemorySpecs/index.html#MemoryValue">MemoryValue</a>) → <a href="../../machine/StateSpecs/index.html#live_at">live_at</a> w.state.memories k ≡ Some x
      → MatchOption (<a href="../../types/AccessSpecs/index.html#at">at</a> x.bytes <a href="../../laws/PlacesSpecs/index.html#offset">offset</a> len) (<a href="../../machine/StepsSpecs/index.html#RepliesWith">RepliesWith</a> rules (Read k <a href="../../laws/PlacesSpecs/index.html#offset">offset</a> len) w (Memory OutOfBoundsAccess) w)
      (λ bytes. <a href="../../machine/StepsSpecs/index.html#RepliesWith">RepliesWith</a> rules (Read k <a href="../../laws/PlacesSpecs/index.html#offset">offset</a> len) w (Bytes bytes) w)

  -- bytes that are written over those of a memory by itself are written by the machine&#x27;s call, or refused by it
  abbrev pub <b id="MemoriesWriteAlike">MemoriesWriteAlike</b> : Type 0
  <a href="../../laws/PlacesSpecs/index.html#MemoriesWriteAlike">MemoriesWriteAlike</a> =
      (w : <a href="../../machine/StateSpecs/index.html#World">World</a> S) (k <a href="../../laws/PlacesSpecs/index.html#offset">offset</a> : ℕ) (bytes : Vec ℕ _) (x x&#x27; : <a href="../../store/MemorySpecs/index.html#MemoryValue">MemoryValue</a>) (result : Result (Unit {0}) MemoryError)
      → <a href="../../machine/StateSpecs/index.html#live_at">live_at</a> w.state.memories k ≡ Some x → <a href="../../store/MemorySpecs/index.html#WritesMemory">WritesMemory</a> x <a href="../../laws/PlacesSpecs/index.html#offset">offset</a> bytes.items result x&#x27;
      → <a href="../../machine/StepsSpecs/index.html#RepliesWith">RepliesWith</a> rules (Write k <a href="../../laws/PlacesSpecs/index.html#offset">offset</a> bytes) w (<a href="../../machine/EffectsSpecs/index.html#reply_of">reply_of</a> (λ _. Done) Memory result)
      (<a href="../../machine/StateSpecs/index.html#world">world</a> (<a href="../../laws/PlacesSpecs/index.html#with_memory_at">with_memory_at</a> w.state k x&#x27;) w.limiter)
</code></pre>
"####]
    pub mod PlacesSpecs {}
    #[doc = r####"What is reserved on a machine: lent regions of memories, elements of tables, and free slots of each kind. Calls and runs that need no other memory: none of their replies says out of memory.

<pre><code>use Rattle.std.specs.Prelude.{◌≡◌, ◌&lt;◌, ◌≤◌, ◌+◌, ◌⊎◌, ℕ, Bool, true, false, List, [], length, All, MatchOption, count_by}
use Rattle.wasmi_store.specs.Buffer.{<a href="../../store/BufferSpecs/index.html#Room">Room</a>, <a href="../../store/BufferSpecs/index.html#Owned">Owned</a>, <a href="../../store/BufferSpecs/index.html#Lent">Lent</a>}
use Rattle.wasmi_store.specs.Memory.{<a href="../../store/MemorySpecs/index.html#MemoryValue">MemoryValue</a>}
use Rattle.wasmi_store.specs.Table.{<a href="../../store/TableSpecs/index.html#TableValue">TableValue</a>, <a href="../../store/TableSpecs/index.html#size_of">size_of</a>}
use Rattle.wasmi_meter.specs.Limiter.{<a href="../../meter/LimiterSpecs/index.html#Rules">Rules</a>}
use Rattle.wasmi_machine.specs.declared.{calls.Call.Call, calls.Reply.Reply, slots.Slot.Slot, slots.SlotCounts.SlotCounts}
use Rattle.wasmi_machine.specs.declared.calls.Call.TheVariants.{NewMemory, NewLentMemory, GrowMemory, Read, NewTable, GrowTable, NewSegment, NewData, NewGlobal}
use Rattle.wasmi_machine.specs.State.{<a href="../../machine/StateSpecs/index.html#State">State</a>, <a href="../../machine/StateSpecs/index.html#live_at">live_at</a>, <a href="../../machine/StateSpecs/index.html#with_reserved">with_reserved</a>, <a href="../../machine/StateSpecs/index.html#World">World</a>, <a href="../../machine/StateSpecs/index.html#Turn">Turn</a>}
use Rattle.wasmi_machine.specs.Determinism.{<a href="../../machine/DeterminismSpecs/index.html#IsNotOutOfMemory">IsNotOutOfMemory</a>}
use Rattle.wasmi_machine.specs.Steps.{<a href="../../machine/StepsSpecs/index.html#Step">Step</a>, <a href="../../machine/StepsSpecs/index.html#IsRunOf">IsRunOf</a>}

-- room is reserved: bytes grow in what is left of a lent region
abbrev pub <b id="IsLentRoom">IsLentRoom</b> : <a href="../../store/BufferSpecs/index.html#Room">Room</a> → Type 0
<a href="../../laws/ReservedSpecs/index.html#IsLentRoom">IsLentRoom</a> <a href="../../store/BufferSpecs/index.html#Owned">Owned</a> = ⊥
<a href="../../laws/ReservedSpecs/index.html#IsLentRoom">IsLentRoom</a> (<a href="../../store/BufferSpecs/index.html#Lent">Lent</a> rest) = Unit {0}

-- a memory lies in a lent region, which is reserved for it
abbrev pub <b id="IsLent">IsLent</b> : <a href="../../store/MemorySpecs/index.html#MemoryValue">MemoryValue</a> → Type 0
<a href="../../laws/ReservedSpecs/index.html#IsLent">IsLent</a> x = <a href="../../laws/ReservedSpecs/index.html#IsLentRoom">IsLentRoom</a> x.room

-- an index names a memory in a lent region, if it names a live one
abbrev pub <b id="IsInRegion">IsInRegion</b> : List (Slot <a href="../../store/MemorySpecs/index.html#MemoryValue">MemoryValue</a>) → ℕ → Type 0
<a href="../../laws/ReservedSpecs/index.html#IsInRegion">IsInRegion</a> slots k = MatchOption (<a href="../../machine/StateSpecs/index.html#live_at">live_at</a> slots k) (Unit {0}) <a href="../../laws/ReservedSpecs/index.html#IsLent">IsLent</a>

-- memory is reserved for all elements of a table up to its maximum
abbrev pub <b id="IsReservedToMaximum">IsReservedToMaximum</b> : <a href="../../store/TableSpecs/index.html#TableValue">TableValue</a> → Type 0
<a href="../../laws/ReservedSpecs/index.html#IsReservedToMaximum">IsReservedToMaximum</a> x = MatchOption x.ty.maximum ⊥ (λ maximum. maximum ≤ x.reserved)

-- an index names a table that is reserved up to its maximum, if it names a live one
abbrev pub <b id="IsReservedTable">IsReservedTable</b> : List (Slot <a href="../../store/TableSpecs/index.html#TableValue">TableValue</a>) → ℕ → Type 0
<a href="../../laws/ReservedSpecs/index.html#IsReservedTable">IsReservedTable</a> slots k = MatchOption (<a href="../../machine/StateSpecs/index.html#live_at">live_at</a> slots k) (Unit {0}) <a href="../../laws/ReservedSpecs/index.html#IsReservedToMaximum">IsReservedToMaximum</a>

-- memory is reserved for n more elements of a table, or for all up to its maximum
abbrev pub <b id="HasElements">HasElements</b> : ℕ → <a href="../../store/TableSpecs/index.html#TableValue">TableValue</a> → Type 0
<a href="../../laws/ReservedSpecs/index.html#HasElements">HasElements</a> n x = (<a href="../../store/TableSpecs/index.html#size_of">size_of</a> x + n ≤ x.reserved) ⊎ <a href="../../laws/ReservedSpecs/index.html#IsReservedToMaximum">IsReservedToMaximum</a> x

-- a table of an index, if it is there, has memory for n more elements
abbrev pub <b id="HasElementsAt">HasElementsAt</b> : List (Slot <a href="../../store/TableSpecs/index.html#TableValue">TableValue</a>) → ℕ → ℕ → Type 0
<a href="../../laws/ReservedSpecs/index.html#HasElementsAt">HasElementsAt</a> slots k n = MatchOption (<a href="../../machine/StateSpecs/index.html#live_at">live_at</a> slots k) (Unit {0}) (<a href="../../laws/ReservedSpecs/index.html#HasElements">HasElements</a> n)

-- a kind of what is made in a slot that can be reserved for it, without memory of its own
pub data <b id="SlotKind">SlotKind</b> : Type 0 where
  <b id="Memories">Memories</b> <b id="Segments">Segments</b> <b id="DataSegments">DataSegments</b> <b id="Globals">Globals</b> : <a href="../../laws/ReservedSpecs/index.html#SlotKind">SlotKind</a>

-- how many of a kind were made on a machine, each in a slot
abbrev pub <b id="made_of">made_of</b> : <a href="../../machine/StateSpecs/index.html#State">State</a> → <a href="../../laws/ReservedSpecs/index.html#SlotKind">SlotKind</a> → ℕ
<a href="../../laws/ReservedSpecs/index.html#made_of">made_of</a> s <a href="../../laws/ReservedSpecs/index.html#Memories">Memories</a> = length s.memories
<a href="../../laws/ReservedSpecs/index.html#made_of">made_of</a> s <a href="../../laws/ReservedSpecs/index.html#Segments">Segments</a> = length s.segments
<a href="../../laws/ReservedSpecs/index.html#made_of">made_of</a> s <a href="../../laws/ReservedSpecs/index.html#DataSegments">DataSegments</a> = length s.data_segments
<a href="../../laws/ReservedSpecs/index.html#made_of">made_of</a> s <a href="../../laws/ReservedSpecs/index.html#Globals">Globals</a> = length s.globals

-- how many slots are reserved for a kind, of the numbers for each
abbrev pub <b id="slots_for">slots_for</b> : SlotCounts → <a href="../../laws/ReservedSpecs/index.html#SlotKind">SlotKind</a> → ℕ
<a href="../../laws/ReservedSpecs/index.html#slots_for">slots_for</a> counts <a href="../../laws/ReservedSpecs/index.html#Memories">Memories</a> = counts.memories
<a href="../../laws/ReservedSpecs/index.html#slots_for">slots_for</a> counts <a href="../../laws/ReservedSpecs/index.html#Segments">Segments</a> = counts.segments
<a href="../../laws/ReservedSpecs/index.html#slots_for">slots_for</a> counts <a href="../../laws/ReservedSpecs/index.html#DataSegments">DataSegments</a> = counts.data_segments
<a href="../../laws/ReservedSpecs/index.html#slots_for">slots_for</a> counts <a href="../../laws/ReservedSpecs/index.html#Globals">Globals</a> = counts.globals

-- memory for the slot of one more of a kind is there, since one that is reserved is free
abbrev pub <b id="HasSlot">HasSlot</b> : <a href="../../machine/StateSpecs/index.html#State">State</a> → <a href="../../laws/ReservedSpecs/index.html#SlotKind">SlotKind</a> → Type 0
<a href="../../laws/ReservedSpecs/index.html#HasSlot">HasSlot</a> s kind = <a href="../../laws/ReservedSpecs/index.html#made_of">made_of</a> s kind &lt; <a href="../../laws/ReservedSpecs/index.html#slots_for">slots_for</a> s.reserved kind

-- a call on a machine in this state needs no memory: what it makes has a slot that is reserved, and nothing else that
-- isn&#x27;t in a lent region; the memory that it grows lies in one; the table that it grows has the memory reserved; no byte
-- is read; and no table is made
abbrev pub <b id="NeedsNoMemory">NeedsNoMemory</b> : <a href="../../machine/StateSpecs/index.html#State">State</a> → Call → Type 0
<a href="../../laws/ReservedSpecs/index.html#NeedsNoMemory">NeedsNoMemory</a> s (NewMemory ty) = ⊥
<a href="../../laws/ReservedSpecs/index.html#NeedsNoMemory">NeedsNoMemory</a> s (NewLentMemory ty) = <a href="../../laws/ReservedSpecs/index.html#HasSlot">HasSlot</a> s <a href="../../laws/ReservedSpecs/index.html#Memories">Memories</a>
<a href="../../laws/ReservedSpecs/index.html#NeedsNoMemory">NeedsNoMemory</a> s (GrowMemory k pages) = <a href="../../laws/ReservedSpecs/index.html#IsInRegion">IsInRegion</a> s.memories k
<a href="../../laws/ReservedSpecs/index.html#NeedsNoMemory">NeedsNoMemory</a> s (Read k offset len) = len ≡ 0
<a href="../../laws/ReservedSpecs/index.html#NeedsNoMemory">NeedsNoMemory</a> s (NewTable ty init) = ⊥
<a href="../../laws/ReservedSpecs/index.html#NeedsNoMemory">NeedsNoMemory</a> s (GrowTable k n init) = (n ≡ 0) ⊎ <a href="../../laws/ReservedSpecs/index.html#HasElementsAt">HasElementsAt</a> s.tables k n
<a href="../../laws/ReservedSpecs/index.html#NeedsNoMemory">NeedsNoMemory</a> s (NewSegment ty items) = (items.items ≡ []) × <a href="../../laws/ReservedSpecs/index.html#HasSlot">HasSlot</a> s <a href="../../laws/ReservedSpecs/index.html#Segments">Segments</a>
<a href="../../laws/ReservedSpecs/index.html#NeedsNoMemory">NeedsNoMemory</a> s (NewData bytes) = (bytes.items ≡ []) × <a href="../../laws/ReservedSpecs/index.html#HasSlot">HasSlot</a> s <a href="../../laws/ReservedSpecs/index.html#DataSegments">DataSegments</a>
<a href="../../laws/ReservedSpecs/index.html#NeedsNoMemory">NeedsNoMemory</a> s (NewGlobal value ty) = <a href="../../laws/ReservedSpecs/index.html#HasSlot">HasSlot</a> s <a href="../../laws/ReservedSpecs/index.html#Globals">Globals</a>
<a href="../../laws/ReservedSpecs/index.html#NeedsNoMemory">NeedsNoMemory</a> s call = Unit {0}

-- a call needs no memory but for the slot of what it makes, where a memory that it grows and that was there in this
-- state still lies in its region, and a table that it grows is still reserved up to its maximum
abbrev pub <b id="NeedsOnlySlot">NeedsOnlySlot</b> : <a href="../../machine/StateSpecs/index.html#State">State</a> → Call → Type 0
<a href="../../laws/ReservedSpecs/index.html#NeedsOnlySlot">NeedsOnlySlot</a> s (NewMemory ty) = ⊥
<a href="../../laws/ReservedSpecs/index.html#NeedsOnlySlot">NeedsOnlySlot</a> s (GrowMemory k pages) = <a href="../../laws/ReservedSpecs/index.html#IsInRegion">IsInRegion</a> s.memories k
<a href="../../laws/ReservedSpecs/index.html#NeedsOnlySlot">NeedsOnlySlot</a> s (Read k offset len) = len ≡ 0
<a href="../../laws/ReservedSpecs/index.html#NeedsOnlySlot">NeedsOnlySlot</a> s (NewTable ty init) = ⊥
<a href="../../laws/ReservedSpecs/index.html#NeedsOnlySlot">NeedsOnlySlot</a> s (GrowTable k n init) = (n ≡ 0) ⊎ <a href="../../laws/ReservedSpecs/index.html#IsReservedTable">IsReservedTable</a> s.tables k
<a href="../../laws/ReservedSpecs/index.html#NeedsOnlySlot">NeedsOnlySlot</a> s (NewSegment ty items) = items.items ≡ []
<a href="../../laws/ReservedSpecs/index.html#NeedsOnlySlot">NeedsOnlySlot</a> s (NewData bytes) = bytes.items ≡ []
<a href="../../laws/ReservedSpecs/index.html#NeedsOnlySlot">NeedsOnlySlot</a> s call = Unit {0}

-- whether a call takes a slot of a kind: it makes a memory in the spare region, a segment of either kind or a global
abbrev pub <b id="takes_slot">takes_slot</b> : <a href="../../laws/ReservedSpecs/index.html#SlotKind">SlotKind</a> → Call → Bool
<a href="../../laws/ReservedSpecs/index.html#takes_slot">takes_slot</a> <a href="../../laws/ReservedSpecs/index.html#Memories">Memories</a> (NewLentMemory ty) = true
<a href="../../laws/ReservedSpecs/index.html#takes_slot">takes_slot</a> <a href="../../laws/ReservedSpecs/index.html#Segments">Segments</a> (NewSegment ty items) = true
<a href="../../laws/ReservedSpecs/index.html#takes_slot">takes_slot</a> <a href="../../laws/ReservedSpecs/index.html#DataSegments">DataSegments</a> (NewData bytes) = true
<a href="../../laws/ReservedSpecs/index.html#takes_slot">takes_slot</a> <a href="../../laws/ReservedSpecs/index.html#Globals">Globals</a> (NewGlobal value ty) = true
<a href="../../laws/ReservedSpecs/index.html#takes_slot">takes_slot</a> kind call = false

-- as many slots of a kind as these calls take are reserved and free
abbrev pub <b id="HasSlots">HasSlots</b> : <a href="../../machine/StateSpecs/index.html#State">State</a> → List Call → <a href="../../laws/ReservedSpecs/index.html#SlotKind">SlotKind</a> → Type 0
<a href="../../laws/ReservedSpecs/index.html#HasSlots">HasSlots</a> s calls kind = <a href="../../laws/ReservedSpecs/index.html#made_of">made_of</a> s kind + count_by (<a href="../../laws/ReservedSpecs/index.html#takes_slot">takes_slot</a> kind) calls ≤ <a href="../../laws/ReservedSpecs/index.html#slots_for">slots_for</a> s.reserved kind

-- a machine has reserved what these calls need: each needs only a slot, and of each kind as many as they take are free
pub record <b id="IsReservedFor">IsReservedFor</b> (s : <a href="../../machine/StateSpecs/index.html#State">State</a>) (calls : List Call) : Type 0 where
  pub <b id="needs">needs</b> : All (<a href="../../laws/ReservedSpecs/index.html#NeedsOnlySlot">NeedsOnlySlot</a> s) calls
  pub <b id="enough">enough</b> : (kind : <a href="../../laws/ReservedSpecs/index.html#SlotKind">SlotKind</a>) → <a href="../../laws/ReservedSpecs/index.html#HasSlots">HasSlots</a> s calls kind

-- these numbers of slots are enough for what these calls make, and each of them needs only a slot
pub record <b id="FitsSlots">FitsSlots</b> (s : <a href="../../machine/StateSpecs/index.html#State">State</a>) (more : SlotCounts) (calls : List Call) : Type 0 where
  pub <b id="needs">needs</b> : All (<a href="../../laws/ReservedSpecs/index.html#NeedsOnlySlot">NeedsOnlySlot</a> s) calls
  pub <b id="enough">enough</b> : (kind : <a href="../../laws/ReservedSpecs/index.html#SlotKind">SlotKind</a>) → count_by (<a href="../../laws/ReservedSpecs/index.html#takes_slot">takes_slot</a> kind) calls ≤ <a href="../../laws/ReservedSpecs/index.html#slots_for">slots_for</a> more kind

-- with so many more slots a machine has reserved what such calls need
abbrev pub <b id="SlotsSuffice">SlotsSuffice</b> : Type 0
<a href="../../laws/ReservedSpecs/index.html#SlotsSuffice">SlotsSuffice</a> = (s : <a href="../../machine/StateSpecs/index.html#State">State</a>) (more : SlotCounts) (calls : List Call) → <a href="../../laws/ReservedSpecs/index.html#FitsSlots">FitsSlots</a> s more calls
    → <a href="../../laws/ReservedSpecs/index.html#IsReservedFor">IsReservedFor</a> (<a href="../../machine/StateSpecs/index.html#with_reserved">with_reserved</a> s more) calls

module _ {S : Type 0} (rules : <a href="../../meter/LimiterSpecs/index.html#Rules">Rules</a> S) where
  -- the reply to a call that needs no memory doesn&#x27;t say out of memory
  abbrev pub <b id="ReservedCallsSucceed">ReservedCallsSucceed</b> : Type 0
  <a href="../../laws/ReservedSpecs/index.html#ReservedCallsSucceed">ReservedCallsSucceed</a> = (w : <a href="../../machine/StateSpecs/index.html#World">World</a> S) (turn : <a href="../../machine/StateSpecs/index.html#Turn">Turn</a>) (w&#x27; : <a href="../../machine/StateSpecs/index.html#World">World</a> S) → <a href="../../machine/StepsSpecs/index.html#Step">Step</a> rules w turn w&#x27;
      → <a href="../../laws/ReservedSpecs/index.html#NeedsNoMemory">NeedsNoMemory</a> w.state turn.call → <a href="../../machine/DeterminismSpecs/index.html#IsNotOutOfMemory">IsNotOutOfMemory</a> turn.reply

  -- no reply to calls for which a machine has reserved what they need says out of memory
  abbrev pub <b id="ReservedRunsSucceed">ReservedRunsSucceed</b> : Type 0
  <a href="../../laws/ReservedSpecs/index.html#ReservedRunsSucceed">ReservedRunsSucceed</a> = (calls : List Call) (w : <a href="../../machine/StateSpecs/index.html#World">World</a> S) (replies : List Reply) (w&#x27; : <a href="../../machine/StateSpecs/index.html#World">World</a> S)
      → <a href="../../laws/ReservedSpecs/index.html#IsReservedFor">IsReservedFor</a> w.state calls → <a href="../../machine/StepsSpecs/index.html#IsRunOf">IsRunOf</a> rules calls w replies w&#x27; → All <a href="../../machine/DeterminismSpecs/index.html#IsNotOutOfMemory">IsNotOutOfMemory</a> replies
</code></pre>
"####]
    pub mod ReservedSpecs {}
    #[doc = r####"The calls and replies of all runs of a tenant of a pool, and tenants that have reserved what their calls need: no reply to them says out of memory.

<pre><code>use Rattle.std.specs.Prelude.{◌≡◌, ◌++◌, ◌∷◌, ℕ, List, [], Some, All, nat_eq, if◌then◌else◌}
use Rattle.wasmi_machine.specs.declared.{calls.Call.Call, calls.Reply.Reply, slots.SlotCounts.SlotCounts}
use Rattle.wasmi_machine.specs.Determinism.{<a href="../../machine/DeterminismSpecs/index.html#IsNotOutOfMemory">IsNotOutOfMemory</a>}
use Rattle.wasmi_machine.specs.State.{<a href="../../machine/StateSpecs/index.html#State">State</a>}
use Rattle.wasmi_laws.specs.Reserved.{<a href="../../laws/ReservedSpecs/index.html#FitsSlots">FitsSlots</a>, <a href="../../laws/ReservedSpecs/index.html#IsReservedFor">IsReservedFor</a>}
use Rattle.wasmi_budget.specs.Laws.{<a href="../../budget/LawsSpecs/index.html#PoolTurn">PoolTurn</a>, <a href="../../budget/LawsSpecs/index.html#Ran">Ran</a>, <a href="../../budget/LawsSpecs/index.html#Reserved">Reserved</a>, <a href="../../budget/LawsSpecs/index.html#PoolRun">PoolRun</a>}
use Rattle.wasmi_budget.specs.Pool.{<a href="../../budget/PoolSpecs/index.html#PoolValue">PoolValue</a>, <a href="../../budget/PoolSpecs/index.html#machine_of">machine_of</a>}

-- what a list is of each run of the tenant of an index, one after another
abbrev pub <b id="of_runs">of_runs</b> : {A : Type 0} → (List Call → List Reply → List A) → ℕ → List <a href="../../budget/LawsSpecs/index.html#PoolTurn">PoolTurn</a> → List A
<a href="../../laws/ReservedPoolsSpecs/index.html#of_runs">of_runs</a> list index [] = []
<a href="../../laws/ReservedPoolsSpecs/index.html#of_runs">of_runs</a> list index (<a href="../../budget/LawsSpecs/index.html#Ran">Ran</a> i calls replies ∷ turns) =
    if nat_eq i index then list calls replies ++ <a href="../../laws/ReservedPoolsSpecs/index.html#of_runs">of_runs</a> list index turns else <a href="../../laws/ReservedPoolsSpecs/index.html#of_runs">of_runs</a> list index turns
<a href="../../laws/ReservedPoolsSpecs/index.html#of_runs">of_runs</a> list index (turn ∷ turns) = <a href="../../laws/ReservedPoolsSpecs/index.html#of_runs">of_runs</a> list index turns

-- the calls of all runs of the tenant of an index, one after another
abbrev pub <b id="calls_of">calls_of</b> : ℕ → List <a href="../../budget/LawsSpecs/index.html#PoolTurn">PoolTurn</a> → List Call
<a href="../../laws/ReservedPoolsSpecs/index.html#calls_of">calls_of</a> = <a href="../../laws/ReservedPoolsSpecs/index.html#of_runs">of_runs</a> (λ calls replies. calls)

-- the replies in all runs of the tenant of an index, one after another
abbrev pub <b id="replies_of">replies_of</b> : ℕ → List <a href="../../budget/LawsSpecs/index.html#PoolTurn">PoolTurn</a> → List Reply
<a href="../../laws/ReservedPoolsSpecs/index.html#replies_of">replies_of</a> = <a href="../../laws/ReservedPoolsSpecs/index.html#of_runs">of_runs</a> (λ calls replies. replies)

-- no reply to the calls of a tenant whose machine has reserved what all of them need says out of memory, whatever else is
-- done with the pool in between
abbrev pub <b id="ReservedTenantsSucceed">ReservedTenantsSucceed</b> : Type 0
<a href="../../laws/ReservedPoolsSpecs/index.html#ReservedTenantsSucceed">ReservedTenantsSucceed</a> = (pool : <a href="../../budget/PoolSpecs/index.html#PoolValue">PoolValue</a>) (index : ℕ) (s : <a href="../../machine/StateSpecs/index.html#State">State</a>) → <a href="../../budget/PoolSpecs/index.html#machine_of">machine_of</a> pool index ≡ Some s
    → (turns : List <a href="../../budget/LawsSpecs/index.html#PoolTurn">PoolTurn</a>) (pool&#x27; : <a href="../../budget/PoolSpecs/index.html#PoolValue">PoolValue</a>) → <a href="../../laws/ReservedSpecs/index.html#IsReservedFor">IsReservedFor</a> s (<a href="../../laws/ReservedPoolsSpecs/index.html#calls_of">calls_of</a> index turns) → <a href="../../budget/LawsSpecs/index.html#PoolRun">PoolRun</a> pool turns pool&#x27;
    → All <a href="../../machine/DeterminismSpecs/index.html#IsNotOutOfMemory">IsNotOutOfMemory</a> (<a href="../../laws/ReservedPoolsSpecs/index.html#replies_of">replies_of</a> index turns)

-- no reply to the calls of a tenant says out of memory where so many more slots are reserved on its machine first,
-- which are enough for what the calls make
abbrev pub <b id="SlotsSufficeForTenants">SlotsSufficeForTenants</b> : Type 0
<a href="../../laws/ReservedPoolsSpecs/index.html#SlotsSufficeForTenants">SlotsSufficeForTenants</a> = (pool : <a href="../../budget/PoolSpecs/index.html#PoolValue">PoolValue</a>) (index : ℕ) (s : <a href="../../machine/StateSpecs/index.html#State">State</a>) → <a href="../../budget/PoolSpecs/index.html#machine_of">machine_of</a> pool index ≡ Some s
    → (more : SlotCounts) (turns : List <a href="../../budget/LawsSpecs/index.html#PoolTurn">PoolTurn</a>) (pool&#x27; : <a href="../../budget/PoolSpecs/index.html#PoolValue">PoolValue</a>) → <a href="../../laws/ReservedSpecs/index.html#FitsSlots">FitsSlots</a> s more (<a href="../../laws/ReservedPoolsSpecs/index.html#calls_of">calls_of</a> index turns)
    → <a href="../../budget/LawsSpecs/index.html#PoolRun">PoolRun</a> pool (<a href="../../budget/LawsSpecs/index.html#Reserved">Reserved</a> index more ∷ turns) pool&#x27; → All <a href="../../machine/DeterminismSpecs/index.html#IsNotOutOfMemory">IsNotOutOfMemory</a> (<a href="../../laws/ReservedPoolsSpecs/index.html#replies_of">replies_of</a> index turns)
</code></pre>
"####]
    pub mod ReservedPoolsSpecs {}
    #[doc = r####"Laws over turns and runs: runs that are cut in two, sizes and totals that never shrink, plain refusals that change nothing, the caps of a quota, what a run keeps of its meter, and the same run with more fuel.

<pre><code>use Rattle.std.specs.Prelude.{◌≡◌, ◌≤◌, ◌++◌, ℕ, List, length, take, drop, map, Option, Some, slice_get, All, ◌+◌, is_some, option_map}
use Rattle.wasmi_meter.specs.declared.{limiter.Kind.Kind, quota.Quota.Quota, error.MemoryError.MemoryError, error.TableError.TableError}
use Rattle.wasmi_meter.specs.Limiter.{<a href="../../meter/LimiterSpecs/index.html#Rules">Rules</a>, <a href="../../meter/LimiterSpecs/index.html#optional_rules">optional_rules</a>}
use Rattle.wasmi_meter.specs.Capped.{<a href="../../meter/CappedSpecs/index.html#IsWithinCaps">IsWithinCaps</a>, <a href="../../meter/CappedSpecs/index.html#cap_of">cap_of</a>, <a href="../../meter/CappedSpecs/index.html#holdings">holdings</a>, <a href="../../meter/CappedSpecs/index.html#quota_rules">quota_rules</a>}
use Rattle.wasmi_machine.specs.declared.{calls.Call.Call, calls.Reply.Reply}
use Rattle.wasmi_machine.specs.State.{<a href="../../machine/StateSpecs/index.html#State">State</a>, <a href="../../machine/StateSpecs/index.html#World">World</a>, <a href="../../machine/StateSpecs/index.html#Turn">Turn</a>, <a href="../../machine/StateSpecs/index.html#world">world</a>, <a href="../../machine/StateSpecs/index.html#IsRefusal">IsRefusal</a>, <a href="../../machine/StateSpecs/index.html#sizes">sizes</a>, <a href="../../machine/StateSpecs/index.html#total">total</a>, <a href="../../machine/StateSpecs/index.html#HoldsTotals">HoldsTotals</a>}
use Rattle.wasmi_machine.specs.Steps.{<a href="../../machine/StepsSpecs/index.html#Step">Step</a>, <a href="../../machine/StepsSpecs/index.html#Sequence">Sequence</a>, <a href="../../machine/StepsSpecs/index.html#Run">Run</a>, <a href="../../machine/StepsSpecs/index.html#IsRunOf">IsRunOf</a>}
use Rattle.wasmi_machine.specs.Exchange.{<a href="../../machine/ExchangeSpecs/index.html#Nowhere">Nowhere</a>, <a href="../../machine/ExchangeSpecs/index.html#place_of">place_of</a>}
use Rattle.wasmi_meter.specs.Meter.{<a href="../../meter/MeterSpecs/index.html#Meter">Meter</a>, <a href="../../meter/MeterSpecs/index.html#amount_left">amount_left</a>}
use Rattle.wasmi_machine.specs.declared.calls.Call.TheVariants.{SetFuel, GetFuel}
use Rattle.wasmi_machine.specs.declared.calls.Reply.TheVariants.{Memory, Table}
use Rattle.wasmi_machine.specs.Account.{<a href="../../machine/AccountSpecs/index.html#SetsNoFuel">SetsNoFuel</a>}
use Rattle.wasmi_machine.specs.Determinism.{<a href="../../machine/DeterminismSpecs/index.html#AcceptsNotices">AcceptsNotices</a>}
use Rattle.wasmi_meter.specs.declared.error.MemoryError.TheVariants as memory
use Rattle.wasmi_meter.specs.declared.error.TableError.TheVariants as table
use Rattle.wasmi_machine.specs.declared.calls.Reply.TheVariants as reply

-- the replies are those of two runs in a row: of the first calls, and of the others from where these end
pub record <b id="IsRunInTwo">IsRunInTwo</b> {S : Type 0} (rules : <a href="../../meter/LimiterSpecs/index.html#Rules">Rules</a> S) (first rest : List Call) (u : <a href="../../machine/StateSpecs/index.html#World">World</a> S) (replies : List Reply)
    (w : <a href="../../machine/StateSpecs/index.html#World">World</a> S) : Type 0 where
  pub <b id="between">between</b> : <a href="../../machine/StateSpecs/index.html#World">World</a> S
  pub <b id="first_run">first_run</b> : <a href="../../machine/StepsSpecs/index.html#IsRunOf">IsRunOf</a> rules first u (take (length first) replies) <a href="../../laws/RunsSpecs/index.html#between">between</a>
  pub <b id="rest_run">rest_run</b> : <a href="../../machine/StepsSpecs/index.html#IsRunOf">IsRunOf</a> rules rest <a href="../../laws/RunsSpecs/index.html#between">between</a> (drop (length first) replies) w

-- What tools/generate writes begins.
-- the error of a memory is found before the limiter is asked and before anything is charged
abbrev pub <b id="IsPlainMemoryError">IsPlainMemoryError</b> : MemoryError → Type 0
<a href="../../laws/RunsSpecs/index.html#IsPlainMemoryError">IsPlainMemoryError</a> memory.OutOfSystemMemory = ⊥
<a href="../../laws/RunsSpecs/index.html#IsPlainMemoryError">IsPlainMemoryError</a> memory.OutOfBoundsGrowth = ⊥
<a href="../../laws/RunsSpecs/index.html#IsPlainMemoryError">IsPlainMemoryError</a> memory.OutOfBoundsAccess = Unit {0}
<a href="../../laws/RunsSpecs/index.html#IsPlainMemoryError">IsPlainMemoryError</a> memory.InvalidMemoryType = ⊥
<a href="../../laws/RunsSpecs/index.html#IsPlainMemoryError">IsPlainMemoryError</a> memory.InvalidStaticBufferSize = ⊥
<a href="../../laws/RunsSpecs/index.html#IsPlainMemoryError">IsPlainMemoryError</a> memory.ResourceLimiterDeniedAllocation = ⊥
<a href="../../laws/RunsSpecs/index.html#IsPlainMemoryError">IsPlainMemoryError</a> memory.MinimumSizeOverflow = ⊥
<a href="../../laws/RunsSpecs/index.html#IsPlainMemoryError">IsPlainMemoryError</a> memory.MaximumSizeOverflow = ⊥
<a href="../../laws/RunsSpecs/index.html#IsPlainMemoryError">IsPlainMemoryError</a> (memory.OutOfFuel required) = ⊥

-- the error of a table is found before the limiter is asked and before anything is charged
abbrev pub <b id="IsPlainTableError">IsPlainTableError</b> : TableError → Type 0
<a href="../../laws/RunsSpecs/index.html#IsPlainTableError">IsPlainTableError</a> table.OutOfSystemMemory = ⊥
<a href="../../laws/RunsSpecs/index.html#IsPlainTableError">IsPlainTableError</a> table.MinimumSizeOverflow = ⊥
<a href="../../laws/RunsSpecs/index.html#IsPlainTableError">IsPlainTableError</a> table.MaximumSizeOverflow = ⊥
<a href="../../laws/RunsSpecs/index.html#IsPlainTableError">IsPlainTableError</a> table.ResourceLimiterDeniedAllocation = ⊥
<a href="../../laws/RunsSpecs/index.html#IsPlainTableError">IsPlainTableError</a> table.GrowOutOfBounds = ⊥
<a href="../../laws/RunsSpecs/index.html#IsPlainTableError">IsPlainTableError</a> table.InitOutOfBounds = Unit {0}
<a href="../../laws/RunsSpecs/index.html#IsPlainTableError">IsPlainTableError</a> table.FillOutOfBounds = Unit {0}
<a href="../../laws/RunsSpecs/index.html#IsPlainTableError">IsPlainTableError</a> table.SetOutOfBounds = Unit {0}
<a href="../../laws/RunsSpecs/index.html#IsPlainTableError">IsPlainTableError</a> table.CopyOutOfBounds = Unit {0}
<a href="../../laws/RunsSpecs/index.html#IsPlainTableError">IsPlainTableError</a> table.ElementTypeMismatch = Unit {0}
<a href="../../laws/RunsSpecs/index.html#IsPlainTableError">IsPlainTableError</a> (table.OutOfFuel required) = ⊥

-- What tools/generate writes ends.

-- The reply is a refusal that is found before the limiter is asked and before anything is charged: a trap, an index
-- that names nothing, an access past the end, another type, metering that is off, or no place for a new slot. Each reply
-- has a line.
abbrev pub <b id="IsPlainRefusal">IsPlainRefusal</b> : Reply → Type 0
<a href="../../laws/RunsSpecs/index.html#IsPlainRefusal">IsPlainRefusal</a> reply.Done = ⊥
<a href="../../laws/RunsSpecs/index.html#IsPlainRefusal">IsPlainRefusal</a> (reply.Made index) = ⊥
<a href="../../laws/RunsSpecs/index.html#IsPlainRefusal">IsPlainRefusal</a> (reply.Value value) = ⊥
<a href="../../laws/RunsSpecs/index.html#IsPlainRefusal">IsPlainRefusal</a> (reply.Number number) = ⊥
<a href="../../laws/RunsSpecs/index.html#IsPlainRefusal">IsPlainRefusal</a> (reply.Bytes bytes) = ⊥
<a href="../../laws/RunsSpecs/index.html#IsPlainRefusal">IsPlainRefusal</a> (reply.Reference value) = ⊥
<a href="../../laws/RunsSpecs/index.html#IsPlainRefusal">IsPlainRefusal</a> (reply.Memory error) = <a href="../../laws/RunsSpecs/index.html#IsPlainMemoryError">IsPlainMemoryError</a> error
<a href="../../laws/RunsSpecs/index.html#IsPlainRefusal">IsPlainRefusal</a> (reply.Table error) = <a href="../../laws/RunsSpecs/index.html#IsPlainTableError">IsPlainTableError</a> error
<a href="../../laws/RunsSpecs/index.html#IsPlainRefusal">IsPlainRefusal</a> (reply.Fuel error) = Unit {0}
<a href="../../laws/RunsSpecs/index.html#IsPlainRefusal">IsPlainRefusal</a> (reply.Global error) = Unit {0}
<a href="../../laws/RunsSpecs/index.html#IsPlainRefusal">IsPlainRefusal</a> (reply.Segment error) = Unit {0}
<a href="../../laws/RunsSpecs/index.html#IsPlainRefusal">IsPlainRefusal</a> (reply.Trap code) = Unit {0}
<a href="../../laws/RunsSpecs/index.html#IsPlainRefusal">IsPlainRefusal</a> reply.NoSuch = Unit {0}
<a href="../../laws/RunsSpecs/index.html#IsPlainRefusal">IsPlainRefusal</a> reply.NoRegion = Unit {0}
<a href="../../laws/RunsSpecs/index.html#IsPlainRefusal">IsPlainRefusal</a> reply.NoRoom = Unit {0}

module _ {S : Type 0} (rules : <a href="../../meter/LimiterSpecs/index.html#Rules">Rules</a> S) where
  -- a run of turns is, at each place, a run of those before it, and a run of the others from where these end
  abbrev pub <b id="RunsAreCut">RunsAreCut</b> : Type 0
  <a href="../../laws/RunsSpecs/index.html#RunsAreCut">RunsAreCut</a> = (u : <a href="../../machine/StateSpecs/index.html#World">World</a> S) (turns turns&#x27; : List <a href="../../machine/StateSpecs/index.html#Turn">Turn</a>) (w : <a href="../../machine/StateSpecs/index.html#World">World</a> S) → <a href="../../machine/StepsSpecs/index.html#Run">Run</a> rules u (turns ++ turns&#x27;) w
      → (v : <a href="../../machine/StateSpecs/index.html#World">World</a> S) × <a href="../../machine/StepsSpecs/index.html#Run">Run</a> rules u turns v × <a href="../../machine/StepsSpecs/index.html#Run">Run</a> rules v turns&#x27; w

  -- a run of calls is, at each place, two runs in a row
  abbrev pub <b id="RunsOfCallsAreCut">RunsOfCallsAreCut</b> : Type 0
  <a href="../../laws/RunsSpecs/index.html#RunsOfCallsAreCut">RunsOfCallsAreCut</a> = (calls calls&#x27; : List Call) (u : <a href="../../machine/StateSpecs/index.html#World">World</a> S) (replies : List Reply) (w : <a href="../../machine/StateSpecs/index.html#World">World</a> S)
      → <a href="../../machine/StepsSpecs/index.html#IsRunOf">IsRunOf</a> rules (calls ++ calls&#x27;) u replies w → <a href="../../laws/RunsSpecs/index.html#IsRunInTwo">IsRunInTwo</a> rules calls calls&#x27; u replies w

  -- every size, of a memory in bytes or of a table in elements, stays at its index in a run and doesn&#x27;t shrink
  abbrev pub <b id="SizesNeverShrink">SizesNeverShrink</b> : Type 0
  <a href="../../laws/RunsSpecs/index.html#SizesNeverShrink">SizesNeverShrink</a> = (w : <a href="../../machine/StateSpecs/index.html#World">World</a> S) (turns : List <a href="../../machine/StateSpecs/index.html#Turn">Turn</a>) (w&#x27; : <a href="../../machine/StateSpecs/index.html#World">World</a> S) → <a href="../../machine/StepsSpecs/index.html#Run">Run</a> rules w turns w&#x27; → (kind : Kind) (k n : ℕ)
      → slice_get (<a href="../../machine/StateSpecs/index.html#sizes">sizes</a> w.state kind) k ≡ Some n → (n&#x27; : ℕ) × (slice_get (<a href="../../machine/StateSpecs/index.html#sizes">sizes</a> w&#x27;.state kind) k ≡ Some n&#x27;) × (n ≤ n&#x27;)

  -- the totals of a machine don&#x27;t shrink in a run
  abbrev pub <b id="TotalsNeverShrink">TotalsNeverShrink</b> : Type 0
  <a href="../../laws/RunsSpecs/index.html#TotalsNeverShrink">TotalsNeverShrink</a> = (w : <a href="../../machine/StateSpecs/index.html#World">World</a> S) (turns : List <a href="../../machine/StateSpecs/index.html#Turn">Turn</a>) (w&#x27; : <a href="../../machine/StateSpecs/index.html#World">World</a> S) → <a href="../../machine/StepsSpecs/index.html#Run">Run</a> rules w turns w&#x27;
      → (kind : Kind) → <a href="../../machine/StateSpecs/index.html#total">total</a> w.state kind ≤ <a href="../../machine/StateSpecs/index.html#total">total</a> w&#x27;.state kind

  -- a turn with a plain refusal leaves the machine, its meter and the limiter as they were
  abbrev pub <b id="PlainRefusalsChangeNothing">PlainRefusalsChangeNothing</b> : Type 0
  <a href="../../laws/RunsSpecs/index.html#PlainRefusalsChangeNothing">PlainRefusalsChangeNothing</a> =
      (w : <a href="../../machine/StateSpecs/index.html#World">World</a> S) (turn : <a href="../../machine/StateSpecs/index.html#Turn">Turn</a>) (w&#x27; : <a href="../../machine/StateSpecs/index.html#World">World</a> S) → <a href="../../machine/StepsSpecs/index.html#Step">Step</a> rules w turn w&#x27; → <a href="../../laws/RunsSpecs/index.html#IsPlainRefusal">IsPlainRefusal</a> turn.reply → w&#x27; ≡ w

  -- a refused turn of a call that makes nothing and grows nothing leaves the machine, its meter and the limiter
  abbrev pub <b id="OtherRefusalsChangeNothing">OtherRefusalsChangeNothing</b> : Type 0
  <a href="../../laws/RunsSpecs/index.html#OtherRefusalsChangeNothing">OtherRefusalsChangeNothing</a> =
      (w : <a href="../../machine/StateSpecs/index.html#World">World</a> S) (turn : <a href="../../machine/StateSpecs/index.html#Turn">Turn</a>) (w&#x27; : <a href="../../machine/StateSpecs/index.html#World">World</a> S) → <a href="../../machine/StepsSpecs/index.html#Step">Step</a> rules w turn w&#x27; → <a href="../../machine/ExchangeSpecs/index.html#place_of">place_of</a> turn.call ≡ <a href="../../machine/ExchangeSpecs/index.html#Nowhere">Nowhere</a>
      → <a href="../../machine/StateSpecs/index.html#IsRefusal">IsRefusal</a> turn.reply → w&#x27; ≡ w

  -- a run in which each reply is a plain refusal leaves the machine, its meter and the limiter as they were
  abbrev pub <b id="PlainlyRefusedRunsChangeNothing">PlainlyRefusedRunsChangeNothing</b> : Type 0
  <a href="../../laws/RunsSpecs/index.html#PlainlyRefusedRunsChangeNothing">PlainlyRefusedRunsChangeNothing</a> = (w : <a href="../../machine/StateSpecs/index.html#World">World</a> S) (turns : List <a href="../../machine/StateSpecs/index.html#Turn">Turn</a>) (w&#x27; : <a href="../../machine/StateSpecs/index.html#World">World</a> S) → <a href="../../machine/StepsSpecs/index.html#Run">Run</a> rules w turns w&#x27;
      → All <a href="../../laws/RunsSpecs/index.html#IsPlainRefusal">IsPlainRefusal</a> (map Turn.reply turns) → w&#x27; ≡ w

-- a machine has no more of each kind than the caps of a quota
abbrev pub <b id="IsWithinCapsOf">IsWithinCapsOf</b> : Quota → <a href="../../machine/StateSpecs/index.html#State">State</a> → Type 0
<a href="../../laws/RunsSpecs/index.html#IsWithinCapsOf">IsWithinCapsOf</a> quota s = (kind : Kind) → <a href="../../machine/StateSpecs/index.html#total">total</a> s kind ≤ <a href="../../meter/CappedSpecs/index.html#cap_of">cap_of</a> quota kind

-- under a quota that holds what a machine has, within its caps, the machine is within them after each turn of a run
abbrev pub <b id="CapsHoldInRuns">CapsHoldInRuns</b> : Type 0
<a href="../../laws/RunsSpecs/index.html#CapsHoldInRuns">CapsHoldInRuns</a> = (s : <a href="../../machine/StateSpecs/index.html#State">State</a>) (quota : Quota) → <a href="../../machine/StateSpecs/index.html#HoldsTotals">HoldsTotals</a> (<a href="../../meter/CappedSpecs/index.html#holdings">holdings</a> quota) s → <a href="../../meter/CappedSpecs/index.html#IsWithinCaps">IsWithinCaps</a> quota
    → (turns : List <a href="../../machine/StateSpecs/index.html#Turn">Turn</a>) (w&#x27; : <a href="../../machine/StateSpecs/index.html#World">World</a> (Option Quota)) → <a href="../../machine/StepsSpecs/index.html#Run">Run</a> (<a href="../../meter/LimiterSpecs/index.html#optional_rules">optional_rules</a> <a href="../../meter/CappedSpecs/index.html#quota_rules">quota_rules</a>) (<a href="../../machine/StateSpecs/index.html#world">world</a> s (Some quota)) turns w&#x27;
    → <a href="../../machine/StepsSpecs/index.html#Sequence">Sequence</a> (λ v turn v&#x27;. <a href="../../machine/StepsSpecs/index.html#Step">Step</a> (<a href="../../meter/LimiterSpecs/index.html#optional_rules">optional_rules</a> <a href="../../meter/CappedSpecs/index.html#quota_rules">quota_rules</a>) v turn v&#x27; × <a href="../../laws/RunsSpecs/index.html#IsWithinCapsOf">IsWithinCapsOf</a> quota v&#x27;.state)
    (<a href="../../machine/StateSpecs/index.html#world">world</a> s (Some quota)) turns w&#x27;

-- the meter with so much more fuel left; one that is off stays
abbrev pub <b id="meter_with_more">meter_with_more</b> : ℕ → <a href="../../meter/MeterSpecs/index.html#Meter">Meter</a> → <a href="../../meter/MeterSpecs/index.html#Meter">Meter</a>
<a href="../../laws/RunsSpecs/index.html#meter_with_more">meter_with_more</a> more m = record m { left = option_map (λ left. left + more) m.left }

-- the world whose meter has so much more fuel left
abbrev pub <b id="world_with_more">world_with_more</b> : {S : Type 0} → ℕ → <a href="../../machine/StateSpecs/index.html#World">World</a> S → <a href="../../machine/StateSpecs/index.html#World">World</a> S
<a href="../../laws/RunsSpecs/index.html#world_with_more">world_with_more</a> more w = record w { state = record w.state { meter = <a href="../../laws/RunsSpecs/index.html#meter_with_more">meter_with_more</a> more w.state.meter } }

-- the call neither sets the fuel nor asks for it
abbrev pub <b id="NamesNoFuel">NamesNoFuel</b> : Call → Type 0
<a href="../../laws/RunsSpecs/index.html#NamesNoFuel">NamesNoFuel</a> (SetFuel fuel) = ⊥
<a href="../../laws/RunsSpecs/index.html#NamesNoFuel">NamesNoFuel</a> GetFuel = ⊥
<a href="../../laws/RunsSpecs/index.html#NamesNoFuel">NamesNoFuel</a> call = Unit {0}

-- the reply doesn&#x27;t say that fuel ran out
abbrev pub <b id="HasFuel">HasFuel</b> : Reply → Type 0
<a href="../../laws/RunsSpecs/index.html#HasFuel">HasFuel</a> (Memory (memory.OutOfFuel required)) = ⊥
<a href="../../laws/RunsSpecs/index.html#HasFuel">HasFuel</a> (Table (table.OutOfFuel required)) = ⊥
<a href="../../laws/RunsSpecs/index.html#HasFuel">HasFuel</a> reply = Unit {0}

module _ {S : Type 0} (rules : <a href="../../meter/LimiterSpecs/index.html#Rules">Rules</a> S) where
  -- a run keeps the costs of the meter
  abbrev pub <b id="CostsAreKept">CostsAreKept</b> : Type 0
  <a href="../../laws/RunsSpecs/index.html#CostsAreKept">CostsAreKept</a> = (w : <a href="../../machine/StateSpecs/index.html#World">World</a> S) (turns : List <a href="../../machine/StateSpecs/index.html#Turn">Turn</a>) (w&#x27; : <a href="../../machine/StateSpecs/index.html#World">World</a> S) → <a href="../../machine/StepsSpecs/index.html#Run">Run</a> rules w turns w&#x27;
      → w&#x27;.state.meter.costs ≡ w.state.meter.costs

  -- a meter that is on is on after a run, and one that is off is off
  abbrev pub <b id="SwitchIsKept">SwitchIsKept</b> : Type 0
  <a href="../../laws/RunsSpecs/index.html#SwitchIsKept">SwitchIsKept</a> = (w : <a href="../../machine/StateSpecs/index.html#World">World</a> S) (turns : List <a href="../../machine/StateSpecs/index.html#Turn">Turn</a>) (w&#x27; : <a href="../../machine/StateSpecs/index.html#World">World</a> S) → <a href="../../machine/StepsSpecs/index.html#Run">Run</a> rules w turns w&#x27;
      → is_some w&#x27;.state.meter.left ≡ is_some w.state.meter.left

  -- a run of calls that don&#x27;t set the fuel leaves no more than there was
  abbrev pub <b id="FuelNeverRises">FuelNeverRises</b> : Type 0
  <a href="../../laws/RunsSpecs/index.html#FuelNeverRises">FuelNeverRises</a> = (w : <a href="../../machine/StateSpecs/index.html#World">World</a> S) (turns : List <a href="../../machine/StateSpecs/index.html#Turn">Turn</a>) (w&#x27; : <a href="../../machine/StateSpecs/index.html#World">World</a> S) → <a href="../../machine/StepsSpecs/index.html#Run">Run</a> rules w turns w&#x27;
      → All <a href="../../machine/AccountSpecs/index.html#SetsNoFuel">SetsNoFuel</a> (map Turn.call turns) → <a href="../../meter/MeterSpecs/index.html#amount_left">amount_left</a> w&#x27;.state.meter ≤ <a href="../../meter/MeterSpecs/index.html#amount_left">amount_left</a> w.state.meter

-- if the limiter accepts each notice, a run of calls that neither set the fuel nor ask for it, in which no reply says
-- that fuel ran out, is the same run with any more fuel, all of which is left then
abbrev pub <b id="MoreFuelChangesNothing">MoreFuelChangesNothing</b> : {L : Type 0} → <a href="../../meter/LimiterSpecs/index.html#Rules">Rules</a> L → Type 0
<a href="../../laws/RunsSpecs/index.html#MoreFuelChangesNothing">MoreFuelChangesNothing</a> {L} rules =
    <a href="../../machine/DeterminismSpecs/index.html#AcceptsNotices">AcceptsNotices</a> rules → (more : ℕ) (w : <a href="../../machine/StateSpecs/index.html#World">World</a> (Option L)) (turns : List <a href="../../machine/StateSpecs/index.html#Turn">Turn</a>) (w&#x27; : <a href="../../machine/StateSpecs/index.html#World">World</a> (Option L))
    → All <a href="../../laws/RunsSpecs/index.html#NamesNoFuel">NamesNoFuel</a> (map Turn.call turns) → All <a href="../../laws/RunsSpecs/index.html#HasFuel">HasFuel</a> (map Turn.reply turns) → <a href="../../machine/StepsSpecs/index.html#Run">Run</a> (<a href="../../meter/LimiterSpecs/index.html#optional_rules">optional_rules</a> rules) w turns w&#x27;
    → <a href="../../machine/StepsSpecs/index.html#Run">Run</a> (<a href="../../meter/LimiterSpecs/index.html#optional_rules">optional_rules</a> rules) (<a href="../../laws/RunsSpecs/index.html#world_with_more">world_with_more</a> more w) turns (<a href="../../laws/RunsSpecs/index.html#world_with_more">world_with_more</a> more w&#x27;)
</code></pre>
"####]
    pub mod RunsSpecs {}
}
/// Definitions of `wasmi_budget`.
pub mod budget {
    #[doc = r####"What holds of all calls on a pool, one after another, and of all runs of a tenant's machine.

<pre><code>use Rattle.std.specs.Prelude.{◌≡◌, ◌≢◌, ◌+◌, ℕ, List, [], ◌∷◌, nat_eq, if◌then◌else◌, MatchBool, Some, None, All}
use Rattle.wasmi_machine.specs.declared.{calls.Call.Call, calls.Reply.Reply, slots.SlotCounts.SlotCounts}
use Rattle.wasmi_machine.specs.State.{<a href="../../machine/StateSpecs/index.html#State">State</a>, <a href="../../machine/StateSpecs/index.html#Turn">Turn</a>, <a href="../../machine/StateSpecs/index.html#total">total</a>, <a href="../../machine/StateSpecs/index.html#world">world</a>}
use Rattle.wasmi_budget.specs.Pool.{<a href="../../budget/PoolSpecs/index.html#PoolValue">PoolValue</a>, <a href="../../budget/PoolSpecs/index.html#AddsTenant">AddsTenant</a>, <a href="../../budget/PoolSpecs/index.html#RunsTenant">RunsTenant</a>, <a href="../../budget/PoolSpecs/index.html#RemovesTenant">RemovesTenant</a>, <a href="../../budget/PoolSpecs/index.html#ReservesForTenant">ReservesForTenant</a>, <a href="../../budget/PoolSpecs/index.html#ReservesElementsForTenant">ReservesElementsForTenant</a>, <a href="../../budget/PoolSpecs/index.html#machine_of">machine_of</a>, <a href="../../budget/PoolSpecs/index.html#pool_of">pool_of</a>, <a href="../../budget/PoolSpecs/index.html#tenant_rules">tenant_rules</a>, <a href="../../budget/PoolSpecs/index.html#total_of">total_of</a>, <a href="../../budget/PoolSpecs/index.html#without_others">without_others</a>, <a href="../../budget/PoolSpecs/index.html#RunsTenantBy">RunsTenantBy</a>, <a href="../../budget/PoolSpecs/index.html#IsWithinCaps">IsWithinCaps</a>}
use Rattle.wasmi_meter.specs.declared.limiter.Kind.{Kind}
use Rattle.wasmi_meter.specs.Limiter.{<a href="../../meter/LimiterSpecs/index.html#optional_rules">optional_rules</a>}
use Rattle.wasmi_machine.specs.Determinism.{<a href="../../machine/DeterminismSpecs/index.html#permitting">permitting</a>, <a href="../../machine/DeterminismSpecs/index.html#TellsNoDenial">TellsNoDenial</a>}
use Rattle.wasmi_machine.specs.Steps.{<a href="../../machine/StepsSpecs/index.html#Run">Run</a>}
use Rattle.wasmi_budget.specs.declared.tenant.Tenant.{Tenant}

-- one call on a pool: a machine was added, a tenant&#x27;s machine has run, so many slots were reserved on it, or it has
-- replied to a reservation of elements of one of its tables, a tenant was removed, whose machine is this one, or the call
-- was refused
pub data <b id="PoolTurn">PoolTurn</b> : Type 0 where
  <b id="Added">Added</b> : <a href="../../machine/StateSpecs/index.html#State">State</a> → <a href="../../budget/LawsSpecs/index.html#PoolTurn">PoolTurn</a>
  <b id="Ran">Ran</b> : ℕ → List Call → List Reply → <a href="../../budget/LawsSpecs/index.html#PoolTurn">PoolTurn</a>
  <b id="Reserved">Reserved</b> : ℕ → SlotCounts → <a href="../../budget/LawsSpecs/index.html#PoolTurn">PoolTurn</a>
  <b id="ReservedElements">ReservedElements</b> : ℕ → ℕ → ℕ → Reply → <a href="../../budget/LawsSpecs/index.html#PoolTurn">PoolTurn</a>
  <b id="Removed">Removed</b> : ℕ → <a href="../../machine/StateSpecs/index.html#State">State</a> → <a href="../../budget/LawsSpecs/index.html#PoolTurn">PoolTurn</a>
  <b id="Refused">Refused</b> : <a href="../../budget/LawsSpecs/index.html#PoolTurn">PoolTurn</a>

-- a call leads a pool to another
abbrev pub <b id="PoolStep">PoolStep</b> : <a href="../../budget/PoolSpecs/index.html#PoolValue">PoolValue</a> → <a href="../../budget/LawsSpecs/index.html#PoolTurn">PoolTurn</a> → <a href="../../budget/PoolSpecs/index.html#PoolValue">PoolValue</a> → Type 0
<a href="../../budget/LawsSpecs/index.html#PoolStep">PoolStep</a> pool (<a href="../../budget/LawsSpecs/index.html#Added">Added</a> s) pool&#x27; = <a href="../../budget/PoolSpecs/index.html#AddsTenant">AddsTenant</a> pool s pool&#x27;
<a href="../../budget/LawsSpecs/index.html#PoolStep">PoolStep</a> pool (<a href="../../budget/LawsSpecs/index.html#Ran">Ran</a> index calls replies) pool&#x27; = <a href="../../budget/PoolSpecs/index.html#RunsTenant">RunsTenant</a> pool index calls replies pool&#x27;
<a href="../../budget/LawsSpecs/index.html#PoolStep">PoolStep</a> pool (<a href="../../budget/LawsSpecs/index.html#Reserved">Reserved</a> index more) pool&#x27; = <a href="../../budget/PoolSpecs/index.html#ReservesForTenant">ReservesForTenant</a> pool index more pool&#x27;
<a href="../../budget/LawsSpecs/index.html#PoolStep">PoolStep</a> pool (<a href="../../budget/LawsSpecs/index.html#ReservedElements">ReservedElements</a> index table elements reply) pool&#x27; =
    <a href="../../budget/PoolSpecs/index.html#ReservesElementsForTenant">ReservesElementsForTenant</a> pool index table elements reply pool&#x27;
<a href="../../budget/LawsSpecs/index.html#PoolStep">PoolStep</a> pool (<a href="../../budget/LawsSpecs/index.html#Removed">Removed</a> index s) pool&#x27; = <a href="../../budget/PoolSpecs/index.html#RemovesTenant">RemovesTenant</a> pool index s pool&#x27;
<a href="../../budget/LawsSpecs/index.html#PoolStep">PoolStep</a> pool <a href="../../budget/LawsSpecs/index.html#Refused">Refused</a> pool&#x27; = pool&#x27; ≡ pool

-- calls one after another, each a step of this kind
abbrev pub <b id="RunBy">RunBy</b> : (<a href="../../budget/PoolSpecs/index.html#PoolValue">PoolValue</a> → <a href="../../budget/LawsSpecs/index.html#PoolTurn">PoolTurn</a> → <a href="../../budget/PoolSpecs/index.html#PoolValue">PoolValue</a> → Type 0) → <a href="../../budget/PoolSpecs/index.html#PoolValue">PoolValue</a> → List <a href="../../budget/LawsSpecs/index.html#PoolTurn">PoolTurn</a> → <a href="../../budget/PoolSpecs/index.html#PoolValue">PoolValue</a> → Type 0
<a href="../../budget/LawsSpecs/index.html#RunBy">RunBy</a> Step pool [] pool&#x27; = pool&#x27; ≡ pool
<a href="../../budget/LawsSpecs/index.html#RunBy">RunBy</a> Step pool (turn ∷ turns) pool&#x27; = (next : <a href="../../budget/PoolSpecs/index.html#PoolValue">PoolValue</a>) × Step pool turn next × <a href="../../budget/LawsSpecs/index.html#RunBy">RunBy</a> Step next turns pool&#x27;

-- calls one after another lead a pool to another
abbrev pub <b id="PoolRun">PoolRun</b> : <a href="../../budget/PoolSpecs/index.html#PoolValue">PoolValue</a> → List <a href="../../budget/LawsSpecs/index.html#PoolTurn">PoolTurn</a> → <a href="../../budget/PoolSpecs/index.html#PoolValue">PoolValue</a> → Type 0
<a href="../../budget/LawsSpecs/index.html#PoolRun">PoolRun</a> = <a href="../../budget/LawsSpecs/index.html#RunBy">RunBy</a> <a href="../../budget/LawsSpecs/index.html#PoolStep">PoolStep</a>

-- a call on a pool, which permits each question where it is a run of the tenant of an index, and doesn&#x27;t remove that
abbrev pub <b id="PermittingStep">PermittingStep</b> : ℕ → <a href="../../budget/PoolSpecs/index.html#PoolValue">PoolValue</a> → <a href="../../budget/LawsSpecs/index.html#PoolTurn">PoolTurn</a> → <a href="../../budget/PoolSpecs/index.html#PoolValue">PoolValue</a> → Type 0
<a href="../../budget/LawsSpecs/index.html#PermittingStep">PermittingStep</a> index pool (<a href="../../budget/LawsSpecs/index.html#Ran">Ran</a> i calls replies) pool&#x27; = MatchBool (nat_eq i index)
    (<a href="../../budget/PoolSpecs/index.html#RunsTenantBy">RunsTenantBy</a> (<a href="../../machine/DeterminismSpecs/index.html#permitting">permitting</a> (<a href="../../meter/LimiterSpecs/index.html#optional_rules">optional_rules</a> <a href="../../budget/PoolSpecs/index.html#tenant_rules">tenant_rules</a>)) pool i calls replies pool&#x27;)
    (<a href="../../budget/PoolSpecs/index.html#RunsTenant">RunsTenant</a> pool i calls replies pool&#x27;)
<a href="../../budget/LawsSpecs/index.html#PermittingStep">PermittingStep</a> index pool (<a href="../../budget/LawsSpecs/index.html#Removed">Removed</a> i s) pool&#x27; = (i ≢ index) × <a href="../../budget/PoolSpecs/index.html#RemovesTenant">RemovesTenant</a> pool i s pool&#x27;
<a href="../../budget/LawsSpecs/index.html#PermittingStep">PermittingStep</a> index pool turn pool&#x27; = <a href="../../budget/LawsSpecs/index.html#PoolStep">PoolStep</a> pool turn pool&#x27;

-- such calls one after another: the tenant of the index is never denied, and stays
abbrev pub <b id="PermittingRun">PermittingRun</b> : ℕ → <a href="../../budget/PoolSpecs/index.html#PoolValue">PoolValue</a> → List <a href="../../budget/LawsSpecs/index.html#PoolTurn">PoolTurn</a> → <a href="../../budget/PoolSpecs/index.html#PoolValue">PoolValue</a> → Type 0
<a href="../../budget/LawsSpecs/index.html#PermittingRun">PermittingRun</a> index = <a href="../../budget/LawsSpecs/index.html#RunBy">RunBy</a> (<a href="../../budget/LawsSpecs/index.html#PermittingStep">PermittingStep</a> index)

-- the runs and reservations of the tenant of an index, as those of the only tenant
abbrev pub <b id="own_turns">own_turns</b> : ℕ → List <a href="../../budget/LawsSpecs/index.html#PoolTurn">PoolTurn</a> → List <a href="../../budget/LawsSpecs/index.html#PoolTurn">PoolTurn</a>
<a href="../../budget/LawsSpecs/index.html#own_turns">own_turns</a> index [] = []
<a href="../../budget/LawsSpecs/index.html#own_turns">own_turns</a> index (<a href="../../budget/LawsSpecs/index.html#Ran">Ran</a> i calls replies ∷ turns) =
    if nat_eq i index then <a href="../../budget/LawsSpecs/index.html#Ran">Ran</a> 0 calls replies ∷ <a href="../../budget/LawsSpecs/index.html#own_turns">own_turns</a> index turns else <a href="../../budget/LawsSpecs/index.html#own_turns">own_turns</a> index turns
<a href="../../budget/LawsSpecs/index.html#own_turns">own_turns</a> index (<a href="../../budget/LawsSpecs/index.html#Reserved">Reserved</a> i more ∷ turns) =
    if nat_eq i index then <a href="../../budget/LawsSpecs/index.html#Reserved">Reserved</a> 0 more ∷ <a href="../../budget/LawsSpecs/index.html#own_turns">own_turns</a> index turns else <a href="../../budget/LawsSpecs/index.html#own_turns">own_turns</a> index turns
<a href="../../budget/LawsSpecs/index.html#own_turns">own_turns</a> index (<a href="../../budget/LawsSpecs/index.html#ReservedElements">ReservedElements</a> i table elements reply ∷ turns) =
    if nat_eq i index then <a href="../../budget/LawsSpecs/index.html#ReservedElements">ReservedElements</a> 0 table elements reply ∷ <a href="../../budget/LawsSpecs/index.html#own_turns">own_turns</a> index turns else <a href="../../budget/LawsSpecs/index.html#own_turns">own_turns</a> index turns
<a href="../../budget/LawsSpecs/index.html#own_turns">own_turns</a> index (turn ∷ turns) = <a href="../../budget/LawsSpecs/index.html#own_turns">own_turns</a> index turns

-- after all calls the caps are the same, and all machines together are within them
abbrev pub <b id="CapsHold">CapsHold</b> : Type 0
<a href="../../budget/LawsSpecs/index.html#CapsHold">CapsHold</a> = (pool : <a href="../../budget/PoolSpecs/index.html#PoolValue">PoolValue</a>) → <a href="../../budget/PoolSpecs/index.html#IsWithinCaps">IsWithinCaps</a> pool → (turns : List <a href="../../budget/LawsSpecs/index.html#PoolTurn">PoolTurn</a>) (pool&#x27; : <a href="../../budget/PoolSpecs/index.html#PoolValue">PoolValue</a>)
    → <a href="../../budget/LawsSpecs/index.html#PoolRun">PoolRun</a> pool turns pool&#x27; → (pool&#x27;.caps ≡ pool.caps) × <a href="../../budget/PoolSpecs/index.html#IsWithinCaps">IsWithinCaps</a> pool&#x27;

-- a run in which each question is permitted is one, with the same turns and machine, where the others hold nothing
abbrev pub <b id="OthersDontShow">OthersDontShow</b> : Type 0
<a href="../../budget/LawsSpecs/index.html#OthersDontShow">OthersDontShow</a> = (s s&#x27; : <a href="../../machine/StateSpecs/index.html#State">State</a>) (tenant tenant&#x27; : Tenant) (turns : List <a href="../../machine/StateSpecs/index.html#Turn">Turn</a>)
    → <a href="../../machine/StepsSpecs/index.html#Run">Run</a> (<a href="../../machine/DeterminismSpecs/index.html#permitting">permitting</a> (<a href="../../meter/LimiterSpecs/index.html#optional_rules">optional_rules</a> <a href="../../budget/PoolSpecs/index.html#tenant_rules">tenant_rules</a>)) (<a href="../../machine/StateSpecs/index.html#world">world</a> s (Some tenant)) turns (<a href="../../machine/StateSpecs/index.html#world">world</a> s&#x27; (Some tenant&#x27;))
    → <a href="../../machine/StepsSpecs/index.html#Run">Run</a> (<a href="../../meter/LimiterSpecs/index.html#optional_rules">optional_rules</a> <a href="../../budget/PoolSpecs/index.html#tenant_rules">tenant_rules</a>) (<a href="../../machine/StateSpecs/index.html#world">world</a> s (Some (<a href="../../budget/PoolSpecs/index.html#without_others">without_others</a> tenant))) turns
    (<a href="../../machine/StateSpecs/index.html#world">world</a> s&#x27; (Some (<a href="../../budget/PoolSpecs/index.html#without_others">without_others</a> tenant&#x27;)))

-- a tenant that is never denied gets, run after run, what it gets alone under the same caps
abbrev pub <b id="RunsAsAlone">RunsAsAlone</b> : Type 0
<a href="../../budget/LawsSpecs/index.html#RunsAsAlone">RunsAsAlone</a> = (pool : <a href="../../budget/PoolSpecs/index.html#PoolValue">PoolValue</a>) (index : ℕ) (s : <a href="../../machine/StateSpecs/index.html#State">State</a>) → <a href="../../budget/PoolSpecs/index.html#machine_of">machine_of</a> pool index ≡ Some s
    → (turns : List <a href="../../budget/LawsSpecs/index.html#PoolTurn">PoolTurn</a>) (pool&#x27; : <a href="../../budget/PoolSpecs/index.html#PoolValue">PoolValue</a>) → <a href="../../budget/LawsSpecs/index.html#PermittingRun">PermittingRun</a> index pool turns pool&#x27;
    → (s&#x27; : <a href="../../machine/StateSpecs/index.html#State">State</a>) × (<a href="../../budget/PoolSpecs/index.html#machine_of">machine_of</a> pool&#x27; index ≡ Some s&#x27;)
    × <a href="../../budget/LawsSpecs/index.html#PoolRun">PoolRun</a> (<a href="../../budget/PoolSpecs/index.html#pool_of">pool_of</a> pool.caps (Some s ∷ [])) (<a href="../../budget/LawsSpecs/index.html#own_turns">own_turns</a> index turns) (<a href="../../budget/PoolSpecs/index.html#pool_of">pool_of</a> pool.caps (Some s&#x27; ∷ []))

-- an accepted run of a tenant in which no reply reports a denial is one in which each question was permitted
abbrev pub <b id="RepliesPermit">RepliesPermit</b> : Type 0
<a href="../../budget/LawsSpecs/index.html#RepliesPermit">RepliesPermit</a> =
    (pool : <a href="../../budget/PoolSpecs/index.html#PoolValue">PoolValue</a>) (index : ℕ) (calls : List Call) (replies : List Reply) (pool&#x27; : <a href="../../budget/PoolSpecs/index.html#PoolValue">PoolValue</a>)
    → All <a href="../../machine/DeterminismSpecs/index.html#TellsNoDenial">TellsNoDenial</a> replies → <a href="../../budget/PoolSpecs/index.html#RunsTenant">RunsTenant</a> pool index calls replies pool&#x27;
    → <a href="../../budget/PoolSpecs/index.html#RunsTenantBy">RunsTenantBy</a> (<a href="../../machine/DeterminismSpecs/index.html#permitting">permitting</a> (<a href="../../meter/LimiterSpecs/index.html#optional_rules">optional_rules</a> <a href="../../budget/PoolSpecs/index.html#tenant_rules">tenant_rules</a>)) pool index calls replies pool&#x27;

-- what the machine of a removed tenant has, counts no more
abbrev pub <b id="RemovalsGiveBack">RemovalsGiveBack</b> : Type 0
<a href="../../budget/LawsSpecs/index.html#RemovalsGiveBack">RemovalsGiveBack</a> = (pool : <a href="../../budget/PoolSpecs/index.html#PoolValue">PoolValue</a>) (index : ℕ) (s : <a href="../../machine/StateSpecs/index.html#State">State</a>) (pool&#x27; : <a href="../../budget/PoolSpecs/index.html#PoolValue">PoolValue</a>) → <a href="../../budget/PoolSpecs/index.html#RemovesTenant">RemovesTenant</a> pool index s pool&#x27;
    → (kind : Kind) → <a href="../../budget/PoolSpecs/index.html#total_of">total_of</a> pool&#x27;.machines kind + <a href="../../machine/StateSpecs/index.html#total">total</a> s kind ≡ <a href="../../budget/PoolSpecs/index.html#total_of">total_of</a> pool.machines kind

-- whatever calls follow, no tenant has the index of one that was removed
abbrev pub <b id="RemovedStayRemoved">RemovedStayRemoved</b> : Type 0
<a href="../../budget/LawsSpecs/index.html#RemovedStayRemoved">RemovedStayRemoved</a> = (pool : <a href="../../budget/PoolSpecs/index.html#PoolValue">PoolValue</a>) (index : ℕ) (s : <a href="../../machine/StateSpecs/index.html#State">State</a>) (pool&#x27; : <a href="../../budget/PoolSpecs/index.html#PoolValue">PoolValue</a>) → <a href="../../budget/PoolSpecs/index.html#RemovesTenant">RemovesTenant</a> pool index s pool&#x27;
    → (turns : List <a href="../../budget/LawsSpecs/index.html#PoolTurn">PoolTurn</a>) (later : <a href="../../budget/PoolSpecs/index.html#PoolValue">PoolValue</a>) → <a href="../../budget/LawsSpecs/index.html#PoolRun">PoolRun</a> pool&#x27; turns later → <a href="../../budget/PoolSpecs/index.html#machine_of">machine_of</a> later index ≡ None
</code></pre>
"####]
    pub mod LawsSpecs {}
    #[doc = r####"A pool of tenants: a tenant's rules, what the machines hold together, how the machine at an index becomes another by a run, a reservation or a removal, which calls ask no limiter, and what the pool's errors print.

<pre><code>use Rattle.wasmi_meter.specs.declared.{quota.Holdings.Holdings, limiter.Kind.Kind, quota.Amounts.Amounts}
use Rattle.wasmi_meter.specs.Capped.{<a href="../../meter/CappedSpecs/index.html#amount_of">amount_of</a>, <a href="../../meter/CappedSpecs/index.html#nothing">nothing</a>, <a href="../../meter/CappedSpecs/index.html#amounts_of">amounts_of</a>, <a href="../../meter/CappedSpecs/index.html#Capped">Capped</a>, <a href="../../meter/CappedSpecs/index.html#capped_rules">capped_rules</a>, <a href="../../meter/CappedSpecs/index.html#held_together">held_together</a>}
use Rattle.wasmi_meter.specs.Limiter.{<a href="../../meter/LimiterSpecs/index.html#Rules">Rules</a>, <a href="../../meter/LimiterSpecs/index.html#optional_rules">optional_rules</a>}
use Rattle.wasmi_budget.specs.declared.{tenant.Tenant.Tenant, error.AddError.AddError, error.PoolError.PoolError, error.ReserveError.ReserveError, error.RunIntoError.RunIntoError}
use Rattle.std.specs.Prelude.{◌≡◌, ◌≤◌, ◌&lt;◌, ◌+◌, ◌-◌, ◌^◌, ◌++◌, ⊤, ℕ, List, [], ◌∷◌, Option, Some, None, slice_index_or, slice_set, sum_by, remove, codes}
use Rattle.wasmi_meter.specs.declared.limiter.Kind.TheVariants.{Bytes, Elements}
use Rattle.wasmi_machine.specs.declared.{calls.Call.Call, calls.Reply.Reply, slots.SlotCounts.SlotCounts}
use Rattle.wasmi_machine.specs.declared.calls.Call.TheVariants.{Binary, CopyMemory, FillMemory, InitMemory, SetFuel, Store}
use Rattle.wasmi_machine.specs.State.{<a href="../../machine/StateSpecs/index.html#State">State</a>, <a href="../../machine/StateSpecs/index.html#total">total</a>, <a href="../../machine/StateSpecs/index.html#world">world</a>, <a href="../../machine/StateSpecs/index.html#with_reserved">with_reserved</a>, <a href="../../machine/StateSpecs/index.html#with_tables">with_tables</a>, <a href="../../machine/StateSpecs/index.html#HoldsTotals">HoldsTotals</a>}
use Rattle.wasmi_machine.specs.Steps.{<a href="../../machine/StepsSpecs/index.html#IsRunOf">IsRunOf</a>, <a href="../../machine/StepsSpecs/index.html#RepliesWith">RepliesWith</a>}
use Rattle.wasmi_machine.specs.TableEffects.{<a href="../../machine/TableEffectsSpecs/index.html#ReservesElementsAt">ReservesElementsAt</a>}
use Rattle.wasmi_budget.specs.declared.error.AddError.TheVariants.{NotEmpty, NoRoom}
use Rattle.wasmi_budget.specs.declared.error.PoolError.TheVariants.{NoTenant, OutOfMemory}
use Rattle.wasmi_budget.specs.declared.error.ReserveError.TheVariants as reserve
use Rattle.wasmi_budget.specs.declared.error.RunIntoError.TheVariants as into

-- what a tenant holds
abbrev pub <b id="holdings">holdings</b> : Tenant → Holdings
<a href="../../budget/PoolSpecs/index.html#holdings">holdings</a> tenant = tenant.holdings

-- tenants as limiters with caps
abbrev pub <b id="capped_tenant">capped_tenant</b> : <a href="../../meter/CappedSpecs/index.html#Capped">Capped</a> Tenant
<a href="../../budget/PoolSpecs/index.html#capped_tenant">capped_tenant</a> = record {
  <a href="../../budget/PoolSpecs/index.html#holdings">holdings</a> = <a href="../../budget/PoolSpecs/index.html#holdings">holdings</a>;
  with_holdings = λ tenant h. record tenant { <a href="../../budget/PoolSpecs/index.html#holdings">holdings</a> = h };
  others = λ tenant kind. <a href="../../meter/CappedSpecs/index.html#amount_of">amount_of</a> tenant.others kind;
  cap = λ tenant kind. <a href="../../meter/CappedSpecs/index.html#amount_of">amount_of</a> tenant.caps kind;
}

-- the rules of a tenant
abbrev pub <b id="tenant_rules">tenant_rules</b> : <a href="../../meter/LimiterSpecs/index.html#Rules">Rules</a> Tenant
<a href="../../budget/PoolSpecs/index.html#tenant_rules">tenant_rules</a> = <a href="../../meter/CappedSpecs/index.html#capped_rules">capped_rules</a> <a href="../../budget/PoolSpecs/index.html#capped_tenant">capped_tenant</a>

-- a tenant of a pool in which the others hold nothing
abbrev pub <b id="without_others">without_others</b> : Tenant → Tenant
<a href="../../budget/PoolSpecs/index.html#without_others">without_others</a> tenant = record tenant { others = <a href="../../meter/CappedSpecs/index.html#nothing">nothing</a> }

-- a pool: its caps, and the machines of its tenants at their indices; a tenant that was removed left none at its index
pub record <b id="PoolValue">PoolValue</b> : Type 0 where
  pub <b id="caps">caps</b> : Amounts
  pub <b id="machines">machines</b> : List (Option <a href="../../machine/StateSpecs/index.html#State">State</a>)

-- the machine of the tenant of an index, if there is one
abbrev pub <b id="machine_of">machine_of</b> : <a href="../../budget/PoolSpecs/index.html#PoolValue">PoolValue</a> → ℕ → Option <a href="../../machine/StateSpecs/index.html#State">State</a>
<a href="../../budget/PoolSpecs/index.html#machine_of">machine_of</a> pool index = slice_index_or pool.machines index None

-- what a machine has of a kind, if there is one
abbrev pub <b id="total_at">total_at</b> : Option <a href="../../machine/StateSpecs/index.html#State">State</a> → Kind → ℕ
<a href="../../budget/PoolSpecs/index.html#total_at">total_at</a> (Some s) kind = <a href="../../machine/StateSpecs/index.html#total">total</a> s kind
<a href="../../budget/PoolSpecs/index.html#total_at">total_at</a> None kind = 0

-- what these machines have of a kind
abbrev pub <b id="total_of">total_of</b> : List (Option <a href="../../machine/StateSpecs/index.html#State">State</a>) → Kind → ℕ
<a href="../../budget/PoolSpecs/index.html#total_of">total_of</a> <a href="../../budget/PoolSpecs/index.html#machines">machines</a> kind = sum_by (λ s. <a href="../../budget/PoolSpecs/index.html#total_at">total_at</a> s kind) <a href="../../budget/PoolSpecs/index.html#machines">machines</a>

-- a pool with these caps and machines
abbrev pub <b id="pool_of">pool_of</b> : Amounts → List (Option <a href="../../machine/StateSpecs/index.html#State">State</a>) → <a href="../../budget/PoolSpecs/index.html#PoolValue">PoolValue</a>
<a href="../../budget/PoolSpecs/index.html#pool_of">pool_of</a> <a href="../../budget/PoolSpecs/index.html#caps">caps</a> <a href="../../budget/PoolSpecs/index.html#machines">machines</a> = record { <a href="../../budget/PoolSpecs/index.html#caps">caps</a> = <a href="../../budget/PoolSpecs/index.html#caps">caps</a>; <a href="../../budget/PoolSpecs/index.html#machines">machines</a> = <a href="../../budget/PoolSpecs/index.html#machines">machines</a> }

-- all machines together are within the caps
abbrev pub <b id="IsWithinCaps">IsWithinCaps</b> : <a href="../../budget/PoolSpecs/index.html#PoolValue">PoolValue</a> → Type 0
<a href="../../budget/PoolSpecs/index.html#IsWithinCaps">IsWithinCaps</a> pool = (kind : Kind) → <a href="../../budget/PoolSpecs/index.html#total_of">total_of</a> pool.machines kind ≤ <a href="../../meter/CappedSpecs/index.html#amount_of">amount_of</a> pool.caps kind

-- all machines together are within the caps, which are numbers of 64 bits, and have these amounts
pub record <b id="IsKept">IsKept</b> (pool : <a href="../../budget/PoolSpecs/index.html#PoolValue">PoolValue</a>) (held : Amounts) : Type 0 where
  pub <b id="within">within</b> : <a href="../../budget/PoolSpecs/index.html#IsWithinCaps">IsWithinCaps</a> pool
  pub <b id="fits">fits</b> : (kind : Kind) → <a href="../../meter/CappedSpecs/index.html#amount_of">amount_of</a> pool.caps kind &lt; 2 ^ 64
  pub <b id="counted">counted</b> : held ≡ <a href="../../meter/CappedSpecs/index.html#amounts_of">amounts_of</a> (<a href="../../budget/PoolSpecs/index.html#total_of">total_of</a> pool.machines)

-- the limiter of the machine s of an index: it holds what the machine has, beside what the others have
abbrev pub <b id="tenant_at">tenant_at</b> : <a href="../../budget/PoolSpecs/index.html#PoolValue">PoolValue</a> → ℕ → <a href="../../machine/StateSpecs/index.html#State">State</a> → Tenant
<a href="../../budget/PoolSpecs/index.html#tenant_at">tenant_at</a> pool index s = record {
  <a href="../../budget/PoolSpecs/index.html#caps">caps</a> = pool.caps;
  others = <a href="../../meter/CappedSpecs/index.html#amounts_of">amounts_of</a> (<a href="../../budget/PoolSpecs/index.html#total_of">total_of</a> (remove pool.machines index));
  <a href="../../budget/PoolSpecs/index.html#holdings">holdings</a> = record { held = <a href="../../meter/CappedSpecs/index.html#amounts_of">amounts_of</a> (<a href="../../machine/StateSpecs/index.html#total">total</a> s); last = None };
}

-- the machine has no bytes and no elements, and dropped none
pub record <b id="HasNothing">HasNothing</b> (s : <a href="../../machine/StateSpecs/index.html#State">State</a>) : Type 0 where
  pub <b id="bytes">bytes</b> : <a href="../../machine/StateSpecs/index.html#total">total</a> s Bytes ≡ 0
  pub <b id="elements">elements</b> : <a href="../../machine/StateSpecs/index.html#total">total</a> s Elements ≡ 0

-- a machine that has nothing is added as it is
pub record <b id="AddsTenant">AddsTenant</b> (pool : <a href="../../budget/PoolSpecs/index.html#PoolValue">PoolValue</a>) (s : <a href="../../machine/StateSpecs/index.html#State">State</a>) (pool&#x27; : <a href="../../budget/PoolSpecs/index.html#PoolValue">PoolValue</a>) : Type 0 where
  pub <b id="empty">empty</b> : <a href="../../budget/PoolSpecs/index.html#HasNothing">HasNothing</a> s
  pub <b id="added">added</b> : pool&#x27; ≡ record pool { <a href="../../budget/PoolSpecs/index.html#machines">machines</a> = pool.machines ++ Some s ∷ [] }

-- why a machine isn&#x27;t added
abbrev pub <b id="IsAddRefusal">IsAddRefusal</b> : <a href="../../machine/StateSpecs/index.html#State">State</a> → AddError → Type 0
<a href="../../budget/PoolSpecs/index.html#IsAddRefusal">IsAddRefusal</a> s NotEmpty = ¬ <a href="../../budget/PoolSpecs/index.html#HasNothing">HasNothing</a> s
<a href="../../budget/PoolSpecs/index.html#IsAddRefusal">IsAddRefusal</a> s NoRoom = <a href="../../budget/PoolSpecs/index.html#HasNothing">HasNothing</a> s

-- the machine of an index has run these calls under its limiter by some rules, and all else is the same
pub record <b id="RunsTenantBy">RunsTenantBy</b> (rules : <a href="../../meter/LimiterSpecs/index.html#Rules">Rules</a> (Option Tenant)) (pool : <a href="../../budget/PoolSpecs/index.html#PoolValue">PoolValue</a>) (index : ℕ) (calls : List Call)
    (replies : List Reply) (pool&#x27; : <a href="../../budget/PoolSpecs/index.html#PoolValue">PoolValue</a>) : Type 0 where
  pub <b id="machine">machine</b> : <a href="../../machine/StateSpecs/index.html#State">State</a>
  pub <b id="found">found</b> : <a href="../../budget/PoolSpecs/index.html#machine_of">machine_of</a> pool index ≡ Some <a href="../../budget/PoolSpecs/index.html#machine">machine</a>
  pub <b id="machine&#x27;">machine&#x27;</b> : <a href="../../machine/StateSpecs/index.html#State">State</a>
  pub <b id="tenant&#x27;">tenant&#x27;</b> : Tenant
  pub <b id="ran">ran</b> : <a href="../../machine/StepsSpecs/index.html#IsRunOf">IsRunOf</a> rules calls (record { state = <a href="../../budget/PoolSpecs/index.html#machine">machine</a>; limiter = Some (<a href="../../budget/PoolSpecs/index.html#tenant_at">tenant_at</a> pool index <a href="../../budget/PoolSpecs/index.html#machine">machine</a>) })
      replies (record { state = <a href="../../budget/PoolSpecs/index.html#machine%27">machine&#x27;</a>; limiter = Some <a href="../../budget/PoolSpecs/index.html#tenant%27">tenant&#x27;</a> })
  pub <b id="after">after</b> : pool&#x27; ≡ record pool { <a href="../../budget/PoolSpecs/index.html#machines">machines</a> = slice_set pool.machines index (Some <a href="../../budget/PoolSpecs/index.html#machine%27">machine&#x27;</a>) }

-- the machine of an index has run these calls under its limiter by a tenant&#x27;s rules, and all else is the same
abbrev pub <b id="RunsTenant">RunsTenant</b> : <a href="../../budget/PoolSpecs/index.html#PoolValue">PoolValue</a> → ℕ → List Call → List Reply → <a href="../../budget/PoolSpecs/index.html#PoolValue">PoolValue</a> → Type 0
<a href="../../budget/PoolSpecs/index.html#RunsTenant">RunsTenant</a> = <a href="../../budget/PoolSpecs/index.html#RunsTenantBy">RunsTenantBy</a> (<a href="../../meter/LimiterSpecs/index.html#optional_rules">optional_rules</a> <a href="../../budget/PoolSpecs/index.html#tenant_rules">tenant_rules</a>)

-- the tenant that holds so much of what all hold, under the caps
abbrev pub <b id="tenant_of">tenant_of</b> : Amounts → Amounts → Amounts → Tenant
<a href="../../budget/PoolSpecs/index.html#tenant_of">tenant_of</a> <a href="../../budget/PoolSpecs/index.html#caps">caps</a> all held = record {
  <a href="../../budget/PoolSpecs/index.html#caps">caps</a> = <a href="../../budget/PoolSpecs/index.html#caps">caps</a>;
  others = record { <a href="../../budget/PoolSpecs/index.html#bytes">bytes</a> = all.bytes - held.bytes; <a href="../../budget/PoolSpecs/index.html#elements">elements</a> = all.elements - held.elements };
  <a href="../../budget/PoolSpecs/index.html#holdings">holdings</a> = record { held = held; last = None };
}

-- what all hold of a kind where a tenant holds so much
abbrev pub <b id="held_before">held_before</b> : Tenant → Amounts → Kind → ℕ
<a href="../../budget/PoolSpecs/index.html#held_before">held_before</a> tenant held kind = <a href="../../meter/CappedSpecs/index.html#amount_of">amount_of</a> tenant.others kind + <a href="../../meter/CappedSpecs/index.html#amount_of">amount_of</a> held kind

-- what a machine has is a part of what all hold, which is within the caps, numbers of 64 bits
pub record <b id="IsPart">IsPart</b> (<a href="../../budget/PoolSpecs/index.html#caps">caps</a> all : Amounts) (s : <a href="../../machine/StateSpecs/index.html#State">State</a>) : Type 0 where
  pub <b id="within">within</b> : (kind : Kind) → <a href="../../meter/CappedSpecs/index.html#amount_of">amount_of</a> all kind ≤ <a href="../../meter/CappedSpecs/index.html#amount_of">amount_of</a> <a href="../../budget/PoolSpecs/index.html#caps">caps</a> kind
  pub <b id="fits">fits</b> : (kind : Kind) → <a href="../../meter/CappedSpecs/index.html#amount_of">amount_of</a> <a href="../../budget/PoolSpecs/index.html#caps">caps</a> kind &lt; 2 ^ 64
  pub <b id="counted">counted</b> : (kind : Kind) → <a href="../../machine/StateSpecs/index.html#total">total</a> s kind ≤ <a href="../../meter/CappedSpecs/index.html#amount_of">amount_of</a> all kind

-- a machine has run these calls under the tenant that it has where all hold so much, and they hold so much then
pub record <b id="RunsAsPart">RunsAsPart</b> (<a href="../../budget/PoolSpecs/index.html#caps">caps</a> all : Amounts) (s : <a href="../../machine/StateSpecs/index.html#State">State</a>) (calls : List Call) (replies : List Reply) (s&#x27; : <a href="../../machine/StateSpecs/index.html#State">State</a>)
    (all&#x27; : Amounts) : Type 0 where
  pub <b id="tenant&#x27;">tenant&#x27;</b> : Tenant
  pub <b id="ran">ran</b> : <a href="../../machine/StepsSpecs/index.html#IsRunOf">IsRunOf</a> (<a href="../../meter/LimiterSpecs/index.html#optional_rules">optional_rules</a> <a href="../../budget/PoolSpecs/index.html#tenant_rules">tenant_rules</a>) calls
      (<a href="../../machine/StateSpecs/index.html#world">world</a> s (Some (<a href="../../budget/PoolSpecs/index.html#tenant_of">tenant_of</a> <a href="../../budget/PoolSpecs/index.html#caps">caps</a> all (<a href="../../meter/CappedSpecs/index.html#amounts_of">amounts_of</a> (<a href="../../machine/StateSpecs/index.html#total">total</a> s))))) replies (<a href="../../machine/StateSpecs/index.html#world">world</a> s&#x27; (Some <a href="../../budget/PoolSpecs/index.html#tenant%27">tenant&#x27;</a>))
  pub <b id="holds">holds</b> : <a href="../../machine/StateSpecs/index.html#HoldsTotals">HoldsTotals</a> (<a href="../../budget/PoolSpecs/index.html#holdings">holdings</a> <a href="../../budget/PoolSpecs/index.html#tenant%27">tenant&#x27;</a>) s&#x27;
  pub <b id="together">together</b> : all&#x27; ≡ <a href="../../meter/CappedSpecs/index.html#amounts_of">amounts_of</a> (<a href="../../meter/CappedSpecs/index.html#held_together">held_together</a> <a href="../../budget/PoolSpecs/index.html#capped_tenant">capped_tenant</a> <a href="../../budget/PoolSpecs/index.html#tenant%27">tenant&#x27;</a>)

-- a call is a store of an item, an instruction on two vectors, a write over a range of a memory or a setting of the
-- fuel, which asks no limiter
abbrev pub <b id="IsUnasked">IsUnasked</b> : Call → Type 0
<a href="../../budget/PoolSpecs/index.html#IsUnasked">IsUnasked</a> (Store op memory ptr offset value) = ⊤
<a href="../../budget/PoolSpecs/index.html#IsUnasked">IsUnasked</a> (Binary op dst a b) = ⊤
<a href="../../budget/PoolSpecs/index.html#IsUnasked">IsUnasked</a> (FillMemory memory dst value len) = ⊤
<a href="../../budget/PoolSpecs/index.html#IsUnasked">IsUnasked</a> (CopyMemory into dst from src len) = ⊤
<a href="../../budget/PoolSpecs/index.html#IsUnasked">IsUnasked</a> (InitMemory memory segment dst src len) = ⊤
<a href="../../budget/PoolSpecs/index.html#IsUnasked">IsUnasked</a> (SetFuel fuel) = ⊤
<a href="../../budget/PoolSpecs/index.html#IsUnasked">IsUnasked</a> call = ⊥

-- a machine replies to a call in the same way under each tenant, which is then as it was
abbrev pub <b id="RepliesUnasked">RepliesUnasked</b> : Call → <a href="../../machine/StateSpecs/index.html#State">State</a> → Reply → <a href="../../machine/StateSpecs/index.html#State">State</a> → Type 0
<a href="../../budget/PoolSpecs/index.html#RepliesUnasked">RepliesUnasked</a> call s reply s&#x27; = (tenant : Tenant)
    → <a href="../../machine/StepsSpecs/index.html#RepliesWith">RepliesWith</a> (<a href="../../meter/LimiterSpecs/index.html#optional_rules">optional_rules</a> <a href="../../budget/PoolSpecs/index.html#tenant_rules">tenant_rules</a>) call (<a href="../../machine/StateSpecs/index.html#world">world</a> s (Some tenant)) reply (<a href="../../machine/StateSpecs/index.html#world">world</a> s&#x27; (Some tenant))

-- the machine at an index has become another one in this way, and all others are the same
pub record <b id="BecomesAt">BecomesAt</b> (<a href="../../budget/PoolSpecs/index.html#machines">machines</a> : List (Option <a href="../../machine/StateSpecs/index.html#State">State</a>)) (index : ℕ) (change : <a href="../../machine/StateSpecs/index.html#State">State</a> → <a href="../../machine/StateSpecs/index.html#State">State</a> → Type 0)
    (machines&#x27; : List (Option <a href="../../machine/StateSpecs/index.html#State">State</a>)) : Type 0 where
  pub <b id="machine">machine</b> : <a href="../../machine/StateSpecs/index.html#State">State</a>
  pub <b id="found">found</b> : slice_index_or <a href="../../budget/PoolSpecs/index.html#machines">machines</a> index None ≡ Some <a href="../../budget/PoolSpecs/index.html#machine">machine</a>
  pub <b id="machine&#x27;">machine&#x27;</b> : <a href="../../machine/StateSpecs/index.html#State">State</a>
  pub <b id="becomes">becomes</b> : change <a href="../../budget/PoolSpecs/index.html#machine">machine</a> <a href="../../budget/PoolSpecs/index.html#machine%27">machine&#x27;</a>
  pub <b id="after">after</b> : machines&#x27; ≡ slice_set <a href="../../budget/PoolSpecs/index.html#machines">machines</a> index (Some <a href="../../budget/PoolSpecs/index.html#machine%27">machine&#x27;</a>)

-- the machine at an index has replied to a call without its tenant, and all others are the same
abbrev pub <b id="RunsUnasked">RunsUnasked</b> : List (Option <a href="../../machine/StateSpecs/index.html#State">State</a>) → ℕ → Call → Reply → List (Option <a href="../../machine/StateSpecs/index.html#State">State</a>) → Type 0
<a href="../../budget/PoolSpecs/index.html#RunsUnasked">RunsUnasked</a> <a href="../../budget/PoolSpecs/index.html#machines">machines</a> index call reply = <a href="../../budget/PoolSpecs/index.html#BecomesAt">BecomesAt</a> <a href="../../budget/PoolSpecs/index.html#machines">machines</a> index (λ s s&#x27;. <a href="../../budget/PoolSpecs/index.html#RepliesUnasked">RepliesUnasked</a> call s reply s&#x27;)

-- the machine of a tenant was taken off: its index has none from then on, and all else is the same
pub record <b id="RemovesTenant">RemovesTenant</b> (pool : <a href="../../budget/PoolSpecs/index.html#PoolValue">PoolValue</a>) (index : ℕ) (s : <a href="../../machine/StateSpecs/index.html#State">State</a>) (pool&#x27; : <a href="../../budget/PoolSpecs/index.html#PoolValue">PoolValue</a>) : Type 0 where
  pub <b id="found">found</b> : <a href="../../budget/PoolSpecs/index.html#machine_of">machine_of</a> pool index ≡ Some s
  pub <b id="removed">removed</b> : pool&#x27; ≡ record pool { <a href="../../budget/PoolSpecs/index.html#machines">machines</a> = slice_set pool.machines index None }

-- the machine at an index has so many more slots reserved, and all others are the same
abbrev pub <b id="ReservesAt">ReservesAt</b> : List (Option <a href="../../machine/StateSpecs/index.html#State">State</a>) → ℕ → SlotCounts → List (Option <a href="../../machine/StateSpecs/index.html#State">State</a>) → Type 0
<a href="../../budget/PoolSpecs/index.html#ReservesAt">ReservesAt</a> <a href="../../budget/PoolSpecs/index.html#machines">machines</a> index more machines&#x27; = <a href="../../budget/PoolSpecs/index.html#BecomesAt">BecomesAt</a> <a href="../../budget/PoolSpecs/index.html#machines">machines</a> index (λ s s&#x27;. s&#x27; ≡ <a href="../../machine/StateSpecs/index.html#with_reserved">with_reserved</a> s more) machines&#x27;

-- the machine of a tenant has so many more slots reserved, and all else is the same
abbrev pub <b id="ReservesForTenant">ReservesForTenant</b> : <a href="../../budget/PoolSpecs/index.html#PoolValue">PoolValue</a> → ℕ → SlotCounts → <a href="../../budget/PoolSpecs/index.html#PoolValue">PoolValue</a> → Type 0
<a href="../../budget/PoolSpecs/index.html#ReservesForTenant">ReservesForTenant</a> pool index more pool&#x27; = (pool&#x27;.<a href="../../budget/PoolSpecs/index.html#caps">caps</a> ≡ pool.caps) × <a href="../../budget/PoolSpecs/index.html#ReservesAt">ReservesAt</a> pool.machines index more pool&#x27;.<a href="../../budget/PoolSpecs/index.html#machines">machines</a>

-- a machine has replied to a reservation of so many elements in all of one of its tables, and all else is the same
abbrev pub <b id="ReservesElements">ReservesElements</b> : <a href="../../machine/StateSpecs/index.html#State">State</a> → ℕ → ℕ → Reply → <a href="../../machine/StateSpecs/index.html#State">State</a> → Type 0
<a href="../../budget/PoolSpecs/index.html#ReservesElements">ReservesElements</a> s table <a href="../../budget/PoolSpecs/index.html#elements">elements</a> reply s&#x27; =
    <a href="../../machine/TableEffectsSpecs/index.html#ReservesElementsAt">ReservesElementsAt</a> table <a href="../../budget/PoolSpecs/index.html#elements">elements</a> s.tables reply s&#x27;.tables × (s&#x27; ≡ <a href="../../machine/StateSpecs/index.html#with_tables">with_tables</a> s s&#x27;.tables)

-- the machine at an index has replied to a reservation of elements of one of its tables, and all others are the same
abbrev pub <b id="ReservesElementsIn">ReservesElementsIn</b> : List (Option <a href="../../machine/StateSpecs/index.html#State">State</a>) → ℕ → ℕ → ℕ → Reply → List (Option <a href="../../machine/StateSpecs/index.html#State">State</a>) → Type 0
<a href="../../budget/PoolSpecs/index.html#ReservesElementsIn">ReservesElementsIn</a> <a href="../../budget/PoolSpecs/index.html#machines">machines</a> index table <a href="../../budget/PoolSpecs/index.html#elements">elements</a> reply machines&#x27; =
    <a href="../../budget/PoolSpecs/index.html#BecomesAt">BecomesAt</a> <a href="../../budget/PoolSpecs/index.html#machines">machines</a> index (λ s s&#x27;. <a href="../../budget/PoolSpecs/index.html#ReservesElements">ReservesElements</a> s table <a href="../../budget/PoolSpecs/index.html#elements">elements</a> reply s&#x27;) machines&#x27;

-- the machine of a tenant has replied to a reservation of elements, and all else is the same
abbrev pub <b id="ReservesElementsForTenant">ReservesElementsForTenant</b> : <a href="../../budget/PoolSpecs/index.html#PoolValue">PoolValue</a> → ℕ → ℕ → ℕ → Reply → <a href="../../budget/PoolSpecs/index.html#PoolValue">PoolValue</a> → Type 0
<a href="../../budget/PoolSpecs/index.html#ReservesElementsForTenant">ReservesElementsForTenant</a> pool index table <a href="../../budget/PoolSpecs/index.html#elements">elements</a> reply pool&#x27; =
    (pool&#x27;.<a href="../../budget/PoolSpecs/index.html#caps">caps</a> ≡ pool.caps) × <a href="../../budget/PoolSpecs/index.html#ReservesElementsIn">ReservesElementsIn</a> pool.machines index table <a href="../../budget/PoolSpecs/index.html#elements">elements</a> reply pool&#x27;.<a href="../../budget/PoolSpecs/index.html#machines">machines</a>

-- the text of why a machine isn&#x27;t added to a pool
abbrev pub <b id="add_error_text">add_error_text</b> : AddError → List ℕ
<a href="../../budget/PoolSpecs/index.html#add_error_text">add_error_text</a> NotEmpty = codes "tried to add a <a href="../../budget/PoolSpecs/index.html#machine">machine</a> that has or had <a href="../../budget/PoolSpecs/index.html#bytes">bytes</a> or <a href="../../budget/PoolSpecs/index.html#elements">elements</a>"
<a href="../../budget/PoolSpecs/index.html#add_error_text">add_error_text</a> NoRoom = codes "out of memory for one more tenant"

-- the text of why a pool makes no run
abbrev pub <b id="pool_error_text">pool_error_text</b> : PoolError → List ℕ
<a href="../../budget/PoolSpecs/index.html#pool_error_text">pool_error_text</a> NoTenant = codes "tried to run a tenant that is not in the pool"
<a href="../../budget/PoolSpecs/index.html#pool_error_text">pool_error_text</a> OutOfMemory = codes "out of memory for the replies"

-- the text of why a pool makes no run into memory that is kept
abbrev pub <b id="run_into_error_text">run_into_error_text</b> : RunIntoError → List ℕ
<a href="../../budget/PoolSpecs/index.html#run_into_error_text">run_into_error_text</a> into.NoTenant = codes "tried to run a tenant that is not in the pool"
<a href="../../budget/PoolSpecs/index.html#run_into_error_text">run_into_error_text</a> into.TooManyCalls = codes "more calls than there is memory for replies"

-- the text of why a pool reserves no slots
abbrev pub <b id="reserve_error_text">reserve_error_text</b> : ReserveError → List ℕ
<a href="../../budget/PoolSpecs/index.html#reserve_error_text">reserve_error_text</a> reserve.NoTenant = codes "tried to reserve slots for a tenant that is not in the pool"
<a href="../../budget/PoolSpecs/index.html#reserve_error_text">reserve_error_text</a> reserve.OutOfMemory = codes "out of memory for the slots"
</code></pre>
"####]
    pub mod PoolSpecs {}
    #[doc = r####"Values of any type that lie at their indices, of which each is given once: the place of an index, the value at one, and that what was removed leaves its index empty.

<pre><code>use Rattle.std.specs.Prelude.{◌≡◌, ◌≢◌, ◌&lt;◌, ◌≤◌, ℕ, List, ◌∷◌, Option, Some, None, All, true, is_some, length, map, nat_eq, slice_index_or, if◌then◌else◌}
use Rattle.std.specs.List.{AllPairs, range_with_len}

-- the place of an index among others, or that it isn&#x27;t one of them
abbrev pub <b id="IsPlace">IsPlace</b> : List ℕ → ℕ → Option ℕ → Type 0
<a href="../../budget/TenantsSpecs/index.html#IsPlace">IsPlace</a> indices index (Some place) = (place &lt; length indices) × (slice_index_or indices place 0 ≡ index)
<a href="../../budget/TenantsSpecs/index.html#IsPlace">IsPlace</a> indices index None = (k : ℕ) → k &lt; length indices → slice_index_or indices k 0 ≢ index

-- every index is below those after it
abbrev pub <b id="Rises">Rises</b> : List ℕ → Type 0
<a href="../../budget/TenantsSpecs/index.html#Rises">Rises</a> indices = AllPairs (λ i j. i &lt; j) indices

module _ {X : Type 0} where
  -- the value of an index, if it is one of these
  abbrev pub <b id="value_of">value_of</b> : List ℕ → List X → ℕ → Option X
  <a href="../../budget/TenantsSpecs/index.html#value_of">value_of</a> (i ∷ indices) (x ∷ values) index = if nat_eq i index then Some x else <a href="../../budget/TenantsSpecs/index.html#value_of">value_of</a> indices values index
  <a href="../../budget/TenantsSpecs/index.html#value_of">value_of</a> indices values index = None

  -- every index up to this one has something
  abbrev pub <b id="HasAllUpTo">HasAllUpTo</b> : List (Option X) → ℕ → Type 0
  <a href="../../budget/TenantsSpecs/index.html#HasAllUpTo">HasAllUpTo</a> values index = (k : ℕ) → k ≤ index → is_some (slice_index_or values k None) ≡ true

  -- the values at their indices, of which `next` were given
  abbrev pub <b id="by_index">by_index</b> : ℕ → List ℕ → List X → List (Option X)
  <a href="../../budget/TenantsSpecs/index.html#by_index">by_index</a> next indices values = map (<a href="../../budget/TenantsSpecs/index.html#value_of">value_of</a> indices values) (range_with_len 0 next)

  -- every index has a value, and the indices rise below the next one
  pub record <b id="IsListed">IsListed</b> (next : ℕ) (indices : List ℕ) (values : List X) : Type 0 where
    pub <b id="same">same</b> : length values ≡ length indices
    pub <b id="rises">rises</b> : <a href="../../budget/TenantsSpecs/index.html#Rises">Rises</a> indices
    pub <b id="below">below</b> : All (λ i. i &lt; next) indices
</code></pre>
"####]
    pub mod TenantsSpecs {}
}
/// Definitions of `wasmi_region`.
pub mod region {
    #[doc = r####"What holds of all tables on regions: what the limiter alone can refuse, and that they do as other tables.

<pre><code>use Rattle.std.specs.Prelude.{◌≡◌, ◌+◌, ◌≤◌, ◌⊎◌, ℕ, true, Option, Result, Ok}
use Rattle.wasmi_meter.specs.Attempt.{<a href="../../meter/AttemptSpecs/index.html#MeteredValue">MeteredValue</a>, <a href="../../meter/AttemptSpecs/index.html#optional_due">optional_due</a>, <a href="../../meter/AttemptSpecs/index.html#covers">covers</a>}
use Rattle.wasmi_meter.specs.Limiter.{<a href="../../meter/LimiterSpecs/index.html#Rules">Rules</a>}
use Rattle.wasmi_meter.specs.Meter.{<a href="../../meter/MeterSpecs/index.html#Meter">Meter</a>}
use Rattle.wasmi_meter.specs.declared.error.TableError.{TableError}
use Rattle.wasmi_store.specs.Growth.{<a href="../../store/GrowthSpecs/index.html#IsDenied">IsDenied</a>}
use Rattle.wasmi_store.specs.Table.{<a href="../../store/TableSpecs/index.html#TableValue">TableValue</a>, <a href="../../store/TableSpecs/index.html#MakesTable">MakesTable</a>, <a href="../../store/TableSpecs/index.html#GrowsTableRaw">GrowsTableRaw</a>, <a href="../../store/TableSpecs/index.html#new_table">new_table</a>, <a href="../../store/TableSpecs/index.html#size_of">size_of</a>, <a href="../../store/TableSpecs/index.html#TableTypeValue">TableTypeValue</a>, <a href="../../store/TableSpecs/index.html#is_indexable">is_indexable</a>, <a href="../../store/TableSpecs/index.html#is_within_maximum">is_within_maximum</a>}
use Rattle.wasmi_region.specs.Table.{<a href="../../region/TableSpecs/index.html#MakesTableIn">MakesTableIn</a>, <a href="../../region/TableSpecs/index.html#GrowsTableIn">GrowsTableIn</a>, <a href="../../region/TableSpecs/index.html#creation_in">creation_in</a>, <a href="../../region/TableSpecs/index.html#growth_in">growth_in</a>, <a href="../../region/TableSpecs/index.html#typed_as">typed_as</a>}

-- a table can grow by n elements on a region of so many references: its type and the region have place for them, and a
-- meter, if there is one, can pay them
pub record <b id="CanGrowIn">CanGrowIn</b> (room n : ℕ) (x : <a href="../../store/TableSpecs/index.html#TableValue">TableValue</a>) (m : Option <a href="../../meter/MeterSpecs/index.html#Meter">Meter</a>) : Type 0 where
  pub <b id="indexable">indexable</b> : <a href="../../store/TableSpecs/index.html#is_indexable">is_indexable</a> x.ty (<a href="../../store/TableSpecs/index.html#size_of">size_of</a> x + n) ≡ true
  pub <b id="within">within</b> : <a href="../../store/TableSpecs/index.html#is_within_maximum">is_within_maximum</a> x.ty (<a href="../../store/TableSpecs/index.html#size_of">size_of</a> x + n) ≡ true
  pub <b id="place">place</b> : <a href="../../store/TableSpecs/index.html#size_of">size_of</a> x + n ≤ room
  pub <b id="paid">paid</b> : <a href="../../meter/AttemptSpecs/index.html#covers">covers</a> m (<a href="../../meter/AttemptSpecs/index.html#optional_due">optional_due</a> m (<a href="../../region/TableSpecs/index.html#growth_in">growth_in</a> room x n 0).price) ≡ true

module _ {S : Type 0} (rules : <a href="../../meter/LimiterSpecs/index.html#Rules">Rules</a> S) where
  -- a creation of a table on a region of at least its minimum is refused by the limiter alone
  abbrev pub <b id="TableCreationsSucceed">TableCreationsSucceed</b> : Type 0
  <a href="../../region/LawsSpecs/index.html#TableCreationsSucceed">TableCreationsSucceed</a> =
      (ty : <a href="../../store/TableSpecs/index.html#TableTypeValue">TableTypeValue</a>) (room reference : ℕ) (l : S) (result : Result <a href="../../store/TableSpecs/index.html#TableValue">TableValue</a> TableError) (l&#x27; : S)
      → ty.minimum ≤ room → <a href="../../region/TableSpecs/index.html#MakesTableIn">MakesTableIn</a> rules ty room reference l result l&#x27;
      → (result ≡ Ok (<a href="../../store/TableSpecs/index.html#new_table">new_table</a> ty reference)) ⊎ <a href="../../store/GrowthSpecs/index.html#IsDenied">IsDenied</a> rules (<a href="../../region/TableSpecs/index.html#creation_in">creation_in</a> ty room).question l l&#x27;

  -- a growth of a table that its type and region have place for, and that can be paid, the limiter alone refuses
  abbrev pub <b id="TableGrowthsSucceed">TableGrowthsSucceed</b> : Type 0
  <a href="../../region/LawsSpecs/index.html#TableGrowthsSucceed">TableGrowthsSucceed</a> =
      (room n reference : ℕ) (s : <a href="../../meter/AttemptSpecs/index.html#MeteredValue">MeteredValue</a> <a href="../../store/TableSpecs/index.html#TableValue">TableValue</a> S) (result : Result ℕ TableError)
      (s&#x27; : <a href="../../meter/AttemptSpecs/index.html#MeteredValue">MeteredValue</a> <a href="../../store/TableSpecs/index.html#TableValue">TableValue</a> S) → <a href="../../region/LawsSpecs/index.html#CanGrowIn">CanGrowIn</a> room n s.value s.meter
      → <a href="../../region/TableSpecs/index.html#GrowsTableIn">GrowsTableIn</a> rules room n reference s result s&#x27;
      → (result ≡ Ok (<a href="../../store/TableSpecs/index.html#size_of">size_of</a> s.value))
      ⊎ <a href="../../store/GrowthSpecs/index.html#IsDenied">IsDenied</a> rules (<a href="../../region/TableSpecs/index.html#growth_in">growth_in</a> room s.value n reference).question s.limiter s&#x27;.limiter

  -- a table that is made on a region is made as one that owns its elements
  abbrev pub <b id="CreationsAreTables">CreationsAreTables</b> : Type 0
  <a href="../../region/LawsSpecs/index.html#CreationsAreTables">CreationsAreTables</a> =
      (ty : <a href="../../store/TableSpecs/index.html#TableTypeValue">TableTypeValue</a>) (room reference : ℕ) (l : S) (result : Result <a href="../../store/TableSpecs/index.html#TableValue">TableValue</a> TableError) (l&#x27; : S)
      → <a href="../../region/TableSpecs/index.html#MakesTableIn">MakesTableIn</a> rules ty room reference l result l&#x27; → <a href="../../store/TableSpecs/index.html#MakesTable">MakesTable</a> rules ty (<a href="../../region/TableSpecs/index.html#typed_as">typed_as</a> ty reference) l result l&#x27;

  -- a table on a region grows as one that owns its elements
  abbrev pub <b id="GrowthsAreTables">GrowthsAreTables</b> : Type 0
  <a href="../../region/LawsSpecs/index.html#GrowthsAreTables">GrowthsAreTables</a> =
      (room n reference : ℕ) (s : <a href="../../meter/AttemptSpecs/index.html#MeteredValue">MeteredValue</a> <a href="../../store/TableSpecs/index.html#TableValue">TableValue</a> S) (result : Result ℕ TableError)
      (s&#x27; : <a href="../../meter/AttemptSpecs/index.html#MeteredValue">MeteredValue</a> <a href="../../store/TableSpecs/index.html#TableValue">TableValue</a> S) → <a href="../../region/TableSpecs/index.html#GrowsTableIn">GrowsTableIn</a> rules room n reference s result s&#x27;
      → <a href="../../store/TableSpecs/index.html#GrowsTableRaw">GrowsTableRaw</a> rules n reference s result s&#x27;
</code></pre>
"####]
    pub mod LawsSpecs {}
    #[doc = r####"Memories whose bytes are the first of a region that lies with their caller.

<pre><code>use Rattle.std.specs.Prelude.{ℕ, ◌-◌, List, ◌++◌, take, drop, replicate, Result, Ok, Err}
use Rattle.wasmi_meter.specs.declared.error.MemoryError.{MemoryError}
use Rattle.wasmi_store.specs.Buffer.{<a href="../../store/BufferSpecs/index.html#Lent">Lent</a>}
use Rattle.wasmi_store.specs.Memory.{<a href="../../store/MemorySpecs/index.html#MemoryValue">MemoryValue</a>, <a href="../../store/MemorySpecs/index.html#MemoryTypeValue">MemoryTypeValue</a>}

-- the memory of a type that has so many bytes at the front of a region, and the rest of it as room
abbrev pub <b id="memory_in">memory_in</b> : <a href="../../store/MemorySpecs/index.html#MemoryTypeValue">MemoryTypeValue</a> → List ℕ → ℕ → <a href="../../store/MemorySpecs/index.html#MemoryValue">MemoryValue</a>
<a href="../../region/MemorySpecs/index.html#memory_in">memory_in</a> ty region size = record { ty = ty; bytes = take size region; room = <a href="../../store/BufferSpecs/index.html#Lent">Lent</a> (drop size region) }

-- a region with zeros from one place on up to another
abbrev pub <b id="zeroed">zeroed</b> : List ℕ → ℕ → ℕ → List ℕ
<a href="../../region/MemorySpecs/index.html#zeroed">zeroed</a> region start end = take start region ++ replicate (end - start) 0 ++ drop end region

-- the memory that a call makes in a region, by the size that it returns
abbrev pub <b id="made_in">made_in</b> : <a href="../../store/MemorySpecs/index.html#MemoryTypeValue">MemoryTypeValue</a> → List ℕ → Result ℕ MemoryError → Result <a href="../../store/MemorySpecs/index.html#MemoryValue">MemoryValue</a> MemoryError
<a href="../../region/MemorySpecs/index.html#made_in">made_in</a> ty region (Ok size) = Ok (<a href="../../region/MemorySpecs/index.html#memory_in">memory_in</a> ty region size)
<a href="../../region/MemorySpecs/index.html#made_in">made_in</a> ty region (Err error) = Err error

-- the memory that a call makes in a region whose first bytes are zeros, by the size that it returns
abbrev pub <b id="made_in_zeros">made_in_zeros</b> : <a href="../../store/MemorySpecs/index.html#MemoryTypeValue">MemoryTypeValue</a> → List ℕ → Result ℕ MemoryError → Result <a href="../../store/MemorySpecs/index.html#MemoryValue">MemoryValue</a> MemoryError
<a href="../../region/MemorySpecs/index.html#made_in_zeros">made_in_zeros</a> ty region (Ok size) = Ok (<a href="../../region/MemorySpecs/index.html#memory_in">memory_in</a> ty (<a href="../../region/MemorySpecs/index.html#zeroed">zeroed</a> region 0 size) size)
<a href="../../region/MemorySpecs/index.html#made_in_zeros">made_in_zeros</a> ty region (Err error) = Err error
</code></pre>
"####]
    pub mod MemorySpecs {}
    #[doc = r####"Tables whose elements are the first of a region that lies with their caller: what is asked and paid where one is made or grows, and references and items that get the type of its elements.

<pre><code>use Rattle.std.specs.Prelude.{◌≡◌, ◌+◌, ◌&lt;◌, ℕ, List, take, Result, Ok, Err}
use Rattle.wasmi_typed.specs.declared.typed_ref.TypedRawRef.{TypedRawRef}
use Rattle.wasmi_meter.specs.Attempt.{<a href="../../meter/AttemptSpecs/index.html#MeteredValue">MeteredValue</a>, <a href="../../meter/AttemptSpecs/index.html#Request">Request</a>}
use Rattle.wasmi_meter.specs.Limiter.{<a href="../../meter/LimiterSpecs/index.html#Rules">Rules</a>}
use Rattle.wasmi_meter.specs.declared.error.TableError.{TableError}
use Rattle.wasmi_meter.specs.declared.error.TableError.TheVariants.{OutOfSystemMemory}
use Rattle.wasmi_store.specs.Growth.{<a href="../../store/GrowthSpecs/index.html#WithCharge">WithCharge</a>, <a href="../../store/GrowthSpecs/index.html#Makes">Makes</a>, <a href="../../store/GrowthSpecs/index.html#Growth">Growth</a>, <a href="../../store/GrowthSpecs/index.html#Grows">Grows</a>}
use Rattle.wasmi_store.specs.Segment.{<a href="../../store/SegmentSpecs/index.html#SegmentValue">SegmentValue</a>}
use Rattle.wasmi_store.specs.Table.{<a href="../../store/TableSpecs/index.html#TableValue">TableValue</a>, <a href="../../store/TableSpecs/index.html#table_of">table_of</a>, <a href="../../store/TableSpecs/index.html#size_of">size_of</a>, <a href="../../store/TableSpecs/index.html#new_table">new_table</a>, <a href="../../store/TableSpecs/index.html#creation_of">creation_of</a>, <a href="../../store/TableSpecs/index.html#growth_of">growth_of</a>, <a href="../../store/TableSpecs/index.html#TableTypeValue">TableTypeValue</a>}

-- the table of a type that has so many elements at the front of a region
abbrev pub <b id="table_in">table_in</b> : <a href="../../store/TableSpecs/index.html#TableTypeValue">TableTypeValue</a> → List ℕ → ℕ → <a href="../../store/TableSpecs/index.html#TableValue">TableValue</a>
<a href="../../region/TableSpecs/index.html#table_in">table_in</a> ty region size = <a href="../../store/TableSpecs/index.html#table_of">table_of</a> ty (take size region)

-- the table that a call makes in a region, by the size that it returns
abbrev pub <b id="made_in">made_in</b> : <a href="../../store/TableSpecs/index.html#TableTypeValue">TableTypeValue</a> → List ℕ → Result ℕ TableError → Result <a href="../../store/TableSpecs/index.html#TableValue">TableValue</a> TableError
<a href="../../region/TableSpecs/index.html#made_in">made_in</a> ty region (Ok size) = Ok (<a href="../../region/TableSpecs/index.html#table_in">table_in</a> ty region size)
<a href="../../region/TableSpecs/index.html#made_in">made_in</a> ty region (Err error) = Err error

-- a reference of the type of a table&#x27;s elements
abbrev pub <b id="typed_as">typed_as</b> : <a href="../../store/TableSpecs/index.html#TableTypeValue">TableTypeValue</a> → ℕ → TypedRawRef
<a href="../../region/TableSpecs/index.html#typed_as">typed_as</a> ty reference = record { raw = reference; ty = ty.element }

-- items of the type of a table&#x27;s elements
abbrev pub <b id="items_of">items_of</b> : <a href="../../store/TableSpecs/index.html#TableTypeValue">TableTypeValue</a> → List ℕ → <a href="../../store/SegmentSpecs/index.html#SegmentValue">SegmentValue</a>
<a href="../../region/TableSpecs/index.html#items_of">items_of</a> ty items = record { ty = ty.element; items = items }

-- what is asked where a table of a type is made on a region of so many references, and the causes of a refusal: it is
-- out of memory if the region is shorter than the minimum
abbrev pub <b id="creation_in">creation_in</b> : <a href="../../store/TableSpecs/index.html#TableTypeValue">TableTypeValue</a> → ℕ → <a href="../../meter/AttemptSpecs/index.html#Request">Request</a> (Unit {0}) TableError
<a href="../../region/TableSpecs/index.html#creation_in">creation_in</a> ty room =
    record (<a href="../../store/TableSpecs/index.html#creation_of">creation_of</a> ty ty.element) { refuses = λ cause. (cause ≡ OutOfSystemMemory) × (room &lt; ty.minimum) }

-- what is asked and paid where a table on a region of so many references grows by n elements, and the causes of a
-- refusal: those of any table, and only if the region is shorter than the new size
abbrev pub <b id="growth_in">growth_in</b> : ℕ → <a href="../../store/TableSpecs/index.html#TableValue">TableValue</a> → ℕ → ℕ → <a href="../../meter/AttemptSpecs/index.html#Request">Request</a> <a href="../../store/TableSpecs/index.html#TableValue">TableValue</a> TableError
<a href="../../region/TableSpecs/index.html#growth_in">growth_in</a> room x n reference = record (<a href="../../store/TableSpecs/index.html#growth_of">growth_of</a> x n reference) {
  refuses = λ cause. (<a href="../../store/TableSpecs/index.html#growth_of">growth_of</a> x n reference).refuses cause × (room &lt; <a href="../../store/TableSpecs/index.html#size_of">size_of</a> x + n);
}

-- the growth of a table on a region of so many references, by n elements
abbrev pub <b id="region_growth">region_growth</b> : ℕ → ℕ → ℕ → <a href="../../store/TableSpecs/index.html#TableValue">TableValue</a> → <a href="../../store/GrowthSpecs/index.html#Growth">Growth</a> <a href="../../store/TableSpecs/index.html#TableValue">TableValue</a> TableError
<a href="../../region/TableSpecs/index.html#region_growth">region_growth</a> room n reference x = record { amount = n; size = <a href="../../store/TableSpecs/index.html#size_of">size_of</a> x; request = <a href="../../region/TableSpecs/index.html#growth_in">growth_in</a> room x n reference }

-- a table of a type is made of one reference on a region of so many
abbrev pub <b id="MakesTableIn">MakesTableIn</b> : {S : Type 0} → <a href="../../meter/LimiterSpecs/index.html#Rules">Rules</a> S → <a href="../../store/TableSpecs/index.html#TableTypeValue">TableTypeValue</a> → ℕ → ℕ → S → Result <a href="../../store/TableSpecs/index.html#TableValue">TableValue</a> TableError → S
    → Type 0
<a href="../../region/TableSpecs/index.html#MakesTableIn">MakesTableIn</a> rules ty room reference = <a href="../../store/GrowthSpecs/index.html#Makes">Makes</a> rules (<a href="../../region/TableSpecs/index.html#creation_in">creation_in</a> ty room) (<a href="../../store/TableSpecs/index.html#new_table">new_table</a> ty reference)

-- a table on a region of so many references grows by n elements; it returns the old size
abbrev pub <b id="GrowsTableIn">GrowsTableIn</b> : {S : Type 0} → <a href="../../meter/LimiterSpecs/index.html#Rules">Rules</a> S → ℕ → ℕ → ℕ → <a href="../../meter/AttemptSpecs/index.html#MeteredValue">MeteredValue</a> <a href="../../store/TableSpecs/index.html#TableValue">TableValue</a> S → Result ℕ TableError
    → <a href="../../meter/AttemptSpecs/index.html#MeteredValue">MeteredValue</a> <a href="../../store/TableSpecs/index.html#TableValue">TableValue</a> S → Type 0
<a href="../../region/TableSpecs/index.html#GrowsTableIn">GrowsTableIn</a> rules room n reference s = <a href="../../store/GrowthSpecs/index.html#WithCharge">WithCharge</a> (<a href="../../store/GrowthSpecs/index.html#Grows">Grows</a> rules (<a href="../../region/TableSpecs/index.html#region_growth">region_growth</a> room n reference s.value)) s
</code></pre>
"####]
    pub mod TableSpecs {}
}
/// Definitions of `wasmi_core`.
pub mod facade {
    #[doc = r####"The types of the parts that clauses and specifications cite, passed on from one place. Declares nothing.

<pre><code>pub use Rattle.wasmi_types.specs.declared.{index_ty.IndexType.IndexType, trap.TrapCode.TrapCode, value.RefType.RefType, value.ValType.ValType}
pub use Rattle.wasmi_raw.specs.declared.raw.RawVal.{RawVal}
pub use Rattle.wasmi_typed.specs.declared.{typed.TypedRawVal.TypedRawVal, typed_ref.TypedRawRef.TypedRawRef, global.Mutability.Mutability, global.GlobalError.GlobalError}
pub use Rattle.wasmi_meter.specs.declared.{error.LimiterError.LimiterError, error.MemoryError.MemoryError, error.TableError.TableError, fuel.FuelError.FuelError, fuel.CustomFuelCosts.CustomFuelCosts, limiter.Kind.Kind, quota.Quota.Quota}
pub use Rattle.wasmi_store.specs.declared.table.element.SegmentError.{SegmentError}
pub use Rattle.wasmi_ops.specs.declared.{load_store.LoadOp.LoadOp, load_store.StoreOp.StoreOp, vector.BinaryOp.BinaryOp, vector.UnaryOp.UnaryOp, vector.TernaryOp.TernaryOp, vector.ShiftOp.ShiftOp, vector.TestOp.TestOp, vector.MakeOp.MakeOp, vector.ExtractOp.ExtractOp, vector.ReplaceOp.ReplaceOp, vector.VectorLoadOp.VectorLoadOp, vector.LoadLaneOp.LoadLaneOp, vector.StoreLaneOp.StoreLaneOp}
pub use Rattle.wasmi_machine.specs.declared.{calls.Call.Call, calls.Reply.Reply, slots.Slot.Slot}
</code></pre>
"####]
    pub mod TypesSpecs {}
}
/// Definitions of `wasmi_operands`.
pub mod operands {
    #[doc = r####"The words of a line, the numbers and limits that they write, and what is accepted of a line or a bad command.

<pre><code>use Rattle.std.specs.Prelude.{ℕ, List, [], filter, length, map, nat_lt, slice_index_or, ◌==◌, ◌≡◌, ◌&lt;◌, ◌^◌, Option, None, Some, codes, Result, Ok, Err, ⊤}
use Rattle.std.specs.List.{AllZip, slice_split}
use Rattle.std.specs.Borrow.{Bor}
use Rattle.std.specs.Str.Parse.{IsNumeral, digits_value}
use Rattle.wasmi_operands.specs.declared.error.LineError.{LineError}
use Rattle.wasmi_operands.specs.declared.error.LineError.TheVariants.{BadCommand, OutOfMemory}

-- words, each with its text
abbrev pub <b id="LineWords">LineWords</b> : Type 0
<a href="../../operands/LineWordsSpecs/index.html#LineWords">LineWords</a> = List (Bor (List ℕ))

-- the text of the word at this place
abbrev pub <b id="word_at">word_at</b> : <a href="../../operands/LineWordsSpecs/index.html#LineWords">LineWords</a> → ℕ → List ℕ
<a href="../../operands/LineWordsSpecs/index.html#word_at">word_at</a> words k = slice_index_or (map (λ word. word.now) words) k []

-- the words of a line: what stands between its spaces
unfoldable pub <b id="words_in">words_in</b> : List ℕ → List (List ℕ)
<a href="../../operands/LineWordsSpecs/index.html#words_in">words_in</a> line = filter (λ word. nat_lt 0 (length word)) (slice_split (λ byte. byte == 32) line)

-- the words write these, one each, in order
abbrev pub <b id="WritesEach">WritesEach</b> : {A : Type 0} → (List ℕ → A → Type 0) → <a href="../../operands/LineWordsSpecs/index.html#LineWords">LineWords</a> → List A → Type 0
<a href="../../operands/LineWordsSpecs/index.html#WritesEach">WritesEach</a> Writes words items = AllZip Writes (map (λ word. word.now) words) items

-- a word of one decimal digit or more, and nothing else
unfoldable pub <b id="IsDecimal">IsDecimal</b> : List ℕ → Type 0
<a href="../../operands/LineWordsSpecs/index.html#IsDecimal">IsDecimal</a> word = IsNumeral 10 word

-- the number that the digits of a word write
unfoldable pub <b id="decimal_value">decimal_value</b> : List ℕ → ℕ
<a href="../../operands/LineWordsSpecs/index.html#decimal_value">decimal_value</a> word = digits_value 10 word

-- the word writes this number, which fits so many bits
abbrev pub <b id="WritesNumber">WritesNumber</b> : ℕ → List ℕ → ℕ → Type 0
<a href="../../operands/LineWordsSpecs/index.html#WritesNumber">WritesNumber</a> bits word number = <a href="../../operands/LineWordsSpecs/index.html#IsDecimal">IsDecimal</a> word × (number ≡ <a href="../../operands/LineWordsSpecs/index.html#decimal_value">decimal_value</a> word) × (number &lt; 2 ^ bits)

-- the word `none`, or a word that writes the number
abbrev pub <b id="WritesLimit">WritesLimit</b> : List ℕ → Option ℕ → Type 0
<a href="../../operands/LineWordsSpecs/index.html#WritesLimit">WritesLimit</a> word None = word ≡ codes "none"
<a href="../../operands/LineWordsSpecs/index.html#WritesLimit">WritesLimit</a> word (Some number) = <a href="../../operands/LineWordsSpecs/index.html#WritesNumber">WritesNumber</a> 64 word number

-- what is accepted is meant, and what is refused is a bad command: nothing is meant
abbrev pub <b id="Accepts">Accepts</b> : {A : Type 0} → Result A LineError → (A → Type 0) → Type 0
<a href="../../operands/LineWordsSpecs/index.html#Accepts">Accepts</a> (Ok a) Means = Means a
<a href="../../operands/LineWordsSpecs/index.html#Accepts">Accepts</a> (Err BadCommand) Means = (a : _) → ¬ (Means a)
<a href="../../operands/LineWordsSpecs/index.html#Accepts">Accepts</a> (Err OutOfMemory) Means = ⊥

-- the words are read as a value that means this, or they mean nothing of the kind, or memory was refused
abbrev pub <b id="AcceptsWithMemory">AcceptsWithMemory</b> : {A : Type 0} → Result A LineError → (A → Type 0) → Type 0
<a href="../../operands/LineWordsSpecs/index.html#AcceptsWithMemory">AcceptsWithMemory</a> (Ok a) Means = Means a
<a href="../../operands/LineWordsSpecs/index.html#AcceptsWithMemory">AcceptsWithMemory</a> (Err BadCommand) Means = (a : _) → ¬ (Means a)
<a href="../../operands/LineWordsSpecs/index.html#AcceptsWithMemory">AcceptsWithMemory</a> (Err OutOfMemory) Means = ⊤
</code></pre>
"####]
    pub mod LineWordsSpecs {}
    #[doc = r####"Lists of names and what a name stands for; the words of types, mutability, references, a limiter's answers, and instructions, also those on a lane; and the words of the lanes of a shuffle.

<pre><code>use Rattle.std.specs.Prelude.{◌≡◌, ℕ, List, [], ◌∷◌, Option, None, Some, cond, bytes_eq, codes, length}
use Rattle.wasmi_types.specs.declared.{index_ty.IndexType.IndexType, value.RefType.RefType, value.ValType.ValType}
use Rattle.wasmi_types.specs.declared.value.RefType.TheVariants.{Func, Extern}
use Rattle.wasmi_types.specs.declared.value.ValType.TheVariants.{I32, I64, F32, F64, V128, FuncRef, ExternRef}
use Rattle.wasmi_typed.specs.declared.{global.Mutability.Mutability, typed_ref.TypedRawRef.TypedRawRef}
use Rattle.wasmi_typed.specs.declared.global.Mutability.TheVariants.{Const, Var}
use Rattle.wasmi_operands.specs.LineWords.{<a href="../../operands/LineWordsSpecs/index.html#WritesNumber">WritesNumber</a>, <a href="../../operands/LineWordsSpecs/index.html#LineWords">LineWords</a>, <a href="../../operands/LineWordsSpecs/index.html#WritesEach">WritesEach</a>}
use Rattle.wasmi_meter.specs.declared.answer_list.LimiterAnswer.{LimiterAnswer}
use Rattle.wasmi_meter.specs.declared.answer_list.LimiterAnswer.TheVariants.{Permit, Deny, Error, Complain}
use Rattle.wasmi_types.specs.declared.index_ty.IndexType.TheVariants as index

-- an entry of a list: a name, and what it names
abbrev pub <b id="NameEntry">NameEntry</b> : Type 0 → Type 0
<a href="../../operands/NamesSpecs/index.html#NameEntry">NameEntry</a> A = List ℕ × A

-- what a list of names has beside the first place of a name
abbrev pub <b id="entry_of">entry_of</b> : {A : Type 0} → List (<a href="../../operands/NamesSpecs/index.html#NameEntry">NameEntry</a> A) → List ℕ → Option A
<a href="../../operands/NamesSpecs/index.html#entry_of">entry_of</a> [] name = None
<a href="../../operands/NamesSpecs/index.html#entry_of">entry_of</a> (entry ∷ entries) name = cond (bytes_eq entry.0 name) (Some entry.1) (<a href="../../operands/NamesSpecs/index.html#entry_of">entry_of</a> entries name)

-- a list gives a name this op
unfoldable pub <b id="IsNamed">IsNamed</b> : {A : Type 0} → List (<a href="../../operands/NamesSpecs/index.html#NameEntry">NameEntry</a> A) → List ℕ → A → Type 0
<a href="../../operands/NamesSpecs/index.html#IsNamed">IsNamed</a> names name op = <a href="../../operands/NamesSpecs/index.html#entry_of">entry_of</a> names name ≡ Some op

-- a word is the name of this op
unfoldable pub <b id="IsName">IsName</b> : {A : Type 0} → (A → List ℕ) → List ℕ → A → Type 0
<a href="../../operands/NamesSpecs/index.html#IsName">IsName</a> name_of word op = word ≡ name_of op

-- the word of an address type: the bits of an address or of an index
abbrev pub <b id="width_word">width_word</b> : IndexType → List ℕ
<a href="../../operands/NamesSpecs/index.html#width_word">width_word</a> index.I32 = codes "32"
<a href="../../operands/NamesSpecs/index.html#width_word">width_word</a> index.I64 = codes "64"

-- the word of a reference type
abbrev pub <b id="reference_word">reference_word</b> : RefType → List ℕ
<a href="../../operands/NamesSpecs/index.html#reference_word">reference_word</a> Func = codes "func"
<a href="../../operands/NamesSpecs/index.html#reference_word">reference_word</a> Extern = codes "extern"

-- the word of a mutability: whether a global can be written
abbrev pub <b id="mutability_word">mutability_word</b> : Mutability → List ℕ
<a href="../../operands/NamesSpecs/index.html#mutability_word">mutability_word</a> Const = codes "const"
<a href="../../operands/NamesSpecs/index.html#mutability_word">mutability_word</a> Var = codes "var"

-- two words write a reference: its type, and a number of 32 bits
abbrev pub <b id="WritesReference">WritesReference</b> : List ℕ → List ℕ → TypedRawRef → Type 0
<a href="../../operands/NamesSpecs/index.html#WritesReference">WritesReference</a> ty raw reference = (ty ≡ <a href="../../operands/NamesSpecs/index.html#reference_word">reference_word</a> reference.ty) × <a href="../../operands/LineWordsSpecs/index.html#WritesNumber">WritesNumber</a> 32 raw reference.raw

-- the word of a value type
abbrev pub <b id="value_word">value_word</b> : ValType → List ℕ
<a href="../../operands/NamesSpecs/index.html#value_word">value_word</a> I32 = codes "i32"
<a href="../../operands/NamesSpecs/index.html#value_word">value_word</a> I64 = codes "i64"
<a href="../../operands/NamesSpecs/index.html#value_word">value_word</a> F32 = codes "f32"
<a href="../../operands/NamesSpecs/index.html#value_word">value_word</a> F64 = codes "f64"
<a href="../../operands/NamesSpecs/index.html#value_word">value_word</a> V128 = codes "v128"
<a href="../../operands/NamesSpecs/index.html#value_word">value_word</a> FuncRef = codes "funcref"
<a href="../../operands/NamesSpecs/index.html#value_word">value_word</a> ExternRef = codes "externref"

-- the word that stands for a limiter&#x27;s answer
abbrev pub <b id="answer_text">answer_text</b> : LimiterAnswer → List ℕ
<a href="../../operands/NamesSpecs/index.html#answer_text">answer_text</a> Permit = codes "permit"
<a href="../../operands/NamesSpecs/index.html#answer_text">answer_text</a> Deny = codes "deny"
<a href="../../operands/NamesSpecs/index.html#answer_text">answer_text</a> Error = codes "error"
<a href="../../operands/NamesSpecs/index.html#answer_text">answer_text</a> Complain = codes "complain"

-- the word stands for this answer of a limiter
abbrev pub <b id="WritesAnswer">WritesAnswer</b> : List ℕ → LimiterAnswer → Type 0
<a href="../../operands/NamesSpecs/index.html#WritesAnswer">WritesAnswer</a> word answer = word ≡ <a href="../../operands/NamesSpecs/index.html#answer_text">answer_text</a> answer

-- two words are a name and an index, and the instruction is the one of this name on the lane of this index
unfoldable pub <b id="NamesLane">NamesLane</b> : {Kind Op : Type 0} → (Kind → List ℕ) → (Kind → ℕ → Option Op) → List ℕ → List ℕ → Op → Type 0
<a href="../../operands/NamesSpecs/index.html#NamesLane">NamesLane</a> {Kind} name_of op_on name lane op =
    (kind : Kind) × (index : ℕ) × <a href="../../operands/NamesSpecs/index.html#IsName">IsName</a> name_of name kind × <a href="../../operands/LineWordsSpecs/index.html#WritesNumber">WritesNumber</a> 8 lane index × (op_on kind index ≡ Some op)

-- sixteen words write the lanes of a shuffle, of which there are 32 to choose from
pub record <b id="WritesLanes">WritesLanes</b> (words : <a href="../../operands/LineWordsSpecs/index.html#LineWords">LineWords</a>) (lanes : List ℕ) : Type 0 where
  pub <b id="sixteen">sixteen</b> : length words ≡ 16
  pub <b id="written">written</b> : <a href="../../operands/LineWordsSpecs/index.html#WritesEach">WritesEach</a> (<a href="../../operands/LineWordsSpecs/index.html#WritesNumber">WritesNumber</a> 5) words lanes
</code></pre>
"####]
    pub mod NamesSpecs {}
}
/// Definitions of `wasmi_grammar`.
pub mod grammar {
    #[doc = r####"What the words of a command mean, the limits and the type of a memory or a table that they name, and its first word.

<pre><code>use Rattle.std.specs.Prelude.{◌≡◌, ◌⊎◌, ℕ, List, Option, ◌≤◌, length, codes, drop}
use Rattle.wasmi_types.specs.declared.index_ty.IndexType.{IndexType}
use Rattle.wasmi_operands.specs.LineWords.{<a href="../../operands/LineWordsSpecs/index.html#WritesNumber">WritesNumber</a>, <a href="../../operands/LineWordsSpecs/index.html#WritesLimit">WritesLimit</a>, <a href="../../operands/LineWordsSpecs/index.html#LineWords">LineWords</a>, <a href="../../operands/LineWordsSpecs/index.html#WritesEach">WritesEach</a>, <a href="../../operands/LineWordsSpecs/index.html#word_at">word_at</a>}
use Rattle.wasmi_operands.specs.Names.{<a href="../../operands/NamesSpecs/index.html#width_word">width_word</a>, <a href="../../operands/NamesSpecs/index.html#reference_word">reference_word</a>, <a href="../../operands/NamesSpecs/index.html#value_word">value_word</a>, <a href="../../operands/NamesSpecs/index.html#mutability_word">mutability_word</a>, <a href="../../operands/NamesSpecs/index.html#WritesReference">WritesReference</a>, <a href="../../operands/NamesSpecs/index.html#IsName">IsName</a>, <a href="../../operands/NamesSpecs/index.html#NamesLane">NamesLane</a>, <a href="../../operands/NamesSpecs/index.html#WritesLanes">WritesLanes</a>}
use Rattle.wasmi_store.specs.Memory.{<a href="../../store/MemorySpecs/index.html#MemoryTypeValue">MemoryTypeValue</a>, <a href="../../store/MemorySpecs/index.html#page_log2">page_log2</a>}
use Rattle.wasmi_store.specs.Table.{<a href="../../store/TableSpecs/index.html#TableTypeValue">TableTypeValue</a>}
use Rattle.wasmi_raw.specs.RawVal.{<a href="../../raw/RawValSpecs/index.html#raw_of">raw_of</a>}
use Rattle.wasmi_ops.specs.LoadStoreOps.{<a href="../../ops/LoadStoreOpsSpecs/index.html#load_name">load_name</a>, <a href="../../ops/LoadStoreOpsSpecs/index.html#store_name">store_name</a>}
use Rattle.wasmi_ops.specs.VectorOps.{<a href="../../ops/VectorOpsSpecs/index.html#make_name">make_name</a>, <a href="../../ops/VectorOpsSpecs/index.html#unary_name">unary_name</a>, <a href="../../ops/VectorOpsSpecs/index.html#binary_name">binary_name</a>, <a href="../../ops/VectorOpsSpecs/index.html#ternary_name">ternary_name</a>, <a href="../../ops/VectorOpsSpecs/index.html#shift_name">shift_name</a>, <a href="../../ops/VectorOpsSpecs/index.html#test_name">test_name</a>, <a href="../../ops/VectorOpsSpecs/index.html#vector_load_name">vector_load_name</a>}
use Rattle.wasmi_ops.specs.LaneOps.{<a href="../../ops/LaneOpsSpecs/index.html#extract_name">extract_name</a>, <a href="../../ops/LaneOpsSpecs/index.html#extract_op">extract_op</a>, <a href="../../ops/LaneOpsSpecs/index.html#replace_name">replace_name</a>, <a href="../../ops/LaneOpsSpecs/index.html#replace_op">replace_op</a>, <a href="../../ops/LaneOpsSpecs/index.html#load_lane_name">load_lane_name</a>, <a href="../../ops/LaneOpsSpecs/index.html#load_lane_op">load_lane_op</a>, <a href="../../ops/LaneOpsSpecs/index.html#store_lane_name">store_lane_name</a>, <a href="../../ops/LaneOpsSpecs/index.html#store_lane_op">store_lane_op</a>}
use Rattle.wasmi_machine.specs.declared.calls.Call.{Call}
use Rattle.wasmi_store.specs.Memory as memory_type
use Rattle.wasmi_store.specs.Table as table_type
use Rattle.wasmi_machine.specs.declared.calls.Call.TheVariants as call

-- the limits of a memory or of a table: the type of its indices, its minimum and its maximum, if it has one
pub record <b id="Limits">Limits</b> : Type 0 where
  pub <b id="index">index</b> : IndexType
  pub <b id="minimum">minimum</b> : ℕ
  pub <b id="maximum">maximum</b> : Option ℕ

-- three words write these limits: the minimum, the maximum and the width of the indices
pub record <b id="WritesLimits">WritesLimits</b> (<a href="../../grammar/CommandsSpecs/index.html#minimum">minimum</a> <a href="../../grammar/CommandsSpecs/index.html#maximum">maximum</a> width : List ℕ) (limits : <a href="../../grammar/CommandsSpecs/index.html#Limits">Limits</a>) : Type 0 where
  pub <b id="minimum_word">minimum_word</b> : <a href="../../operands/LineWordsSpecs/index.html#WritesNumber">WritesNumber</a> 64 <a href="../../grammar/CommandsSpecs/index.html#minimum">minimum</a> limits.minimum
  pub <b id="maximum_word">maximum_word</b> : <a href="../../operands/LineWordsSpecs/index.html#WritesLimit">WritesLimit</a> <a href="../../grammar/CommandsSpecs/index.html#maximum">maximum</a> limits.maximum
  pub <b id="width_text">width_text</b> : width ≡ <a href="../../operands/NamesSpecs/index.html#width_word">width_word</a> limits.index

-- the limits of a memory type
abbrev pub <b id="memory_limits">memory_limits</b> : <a href="../../store/MemorySpecs/index.html#MemoryTypeValue">MemoryTypeValue</a> → <a href="../../grammar/CommandsSpecs/index.html#Limits">Limits</a>
<a href="../../grammar/CommandsSpecs/index.html#memory_limits">memory_limits</a> ty = record { <a href="../../grammar/CommandsSpecs/index.html#index">index</a> = ty.index; <a href="../../grammar/CommandsSpecs/index.html#minimum">minimum</a> = ty.minimum; <a href="../../grammar/CommandsSpecs/index.html#maximum">maximum</a> = ty.maximum }

-- four words name this memory type, which there is: its minimum, its maximum, its page size, its addresses&#x27; width
pub record <b id="NamesType">NamesType</b> (<a href="../../grammar/CommandsSpecs/index.html#minimum">minimum</a> <a href="../../grammar/CommandsSpecs/index.html#maximum">maximum</a> log2 width : List ℕ) (ty : <a href="../../store/MemorySpecs/index.html#MemoryTypeValue">MemoryTypeValue</a>) : Type 0 where
  pub <b id="limits_words">limits_words</b> : <a href="../../grammar/CommandsSpecs/index.html#WritesLimits">WritesLimits</a> <a href="../../grammar/CommandsSpecs/index.html#minimum">minimum</a> <a href="../../grammar/CommandsSpecs/index.html#maximum">maximum</a> width (<a href="../../grammar/CommandsSpecs/index.html#memory_limits">memory_limits</a> ty)
  pub <b id="log2_word">log2_word</b> : <a href="../../operands/LineWordsSpecs/index.html#WritesNumber">WritesNumber</a> 8 log2 (<a href="../../store/MemorySpecs/index.html#page_log2">page_log2</a> ty.page)
  pub <b id="valid">valid</b> : <a href="../../store/MemorySpecs/index.html#IsValid">memory_type.IsValid</a> ty

-- the limits of a table type
abbrev pub <b id="table_limits">table_limits</b> : <a href="../../store/TableSpecs/index.html#TableTypeValue">TableTypeValue</a> → <a href="../../grammar/CommandsSpecs/index.html#Limits">Limits</a>
<a href="../../grammar/CommandsSpecs/index.html#table_limits">table_limits</a> ty = record { <a href="../../grammar/CommandsSpecs/index.html#index">index</a> = ty.index; <a href="../../grammar/CommandsSpecs/index.html#minimum">minimum</a> = ty.minimum; <a href="../../grammar/CommandsSpecs/index.html#maximum">maximum</a> = ty.maximum }

-- four words name this table type, which there is: its element type, its minimum, its maximum, its indices&#x27; width
pub record <b id="NamesTableType">NamesTableType</b> (element <a href="../../grammar/CommandsSpecs/index.html#minimum">minimum</a> <a href="../../grammar/CommandsSpecs/index.html#maximum">maximum</a> width : List ℕ) (ty : <a href="../../store/TableSpecs/index.html#TableTypeValue">TableTypeValue</a>) : Type 0 where
  pub <b id="element_text">element_text</b> : element ≡ <a href="../../operands/NamesSpecs/index.html#reference_word">reference_word</a> ty.element
  pub <b id="limits_words">limits_words</b> : <a href="../../grammar/CommandsSpecs/index.html#WritesLimits">WritesLimits</a> <a href="../../grammar/CommandsSpecs/index.html#minimum">minimum</a> <a href="../../grammar/CommandsSpecs/index.html#maximum">maximum</a> width (<a href="../../grammar/CommandsSpecs/index.html#table_limits">table_limits</a> ty)
  pub <b id="valid">valid</b> : <a href="../../store/TableSpecs/index.html#IsValid">table_type.IsValid</a> ty

-- What tools/generate writes begins.
-- the word that a command begins with
abbrev pub <b id="command_word">command_word</b> : Call → List ℕ
<a href="../../grammar/CommandsSpecs/index.html#command_word">command_word</a> (call.SetFuel fuel) = codes "fuel"
<a href="../../grammar/CommandsSpecs/index.html#command_word">command_word</a> call.GetFuel = codes "left"
<a href="../../grammar/CommandsSpecs/index.html#command_word">command_word</a> (call.NewMemory ty) = codes "memory"
<a href="../../grammar/CommandsSpecs/index.html#command_word">command_word</a> (call.NewLentMemory ty) = codes "lent"
<a href="../../grammar/CommandsSpecs/index.html#command_word">command_word</a> (call.GrowMemory memory pages) = codes "grow"
<a href="../../grammar/CommandsSpecs/index.html#command_word">command_word</a> (call.DropMemory memory) = codes "drop"
<a href="../../grammar/CommandsSpecs/index.html#command_word">command_word</a> (call.Read memory offset len) = codes "read"
<a href="../../grammar/CommandsSpecs/index.html#command_word">command_word</a> (call.Write memory offset bytes) = codes "write"
<a href="../../grammar/CommandsSpecs/index.html#command_word">command_word</a> (call.Load op memory ptr offset) = codes "load"
<a href="../../grammar/CommandsSpecs/index.html#command_word">command_word</a> (call.Store op memory ptr offset value) = codes "store"
<a href="../../grammar/CommandsSpecs/index.html#command_word">command_word</a> (call.FillMemory memory dst value len) = codes "mfill"
<a href="../../grammar/CommandsSpecs/index.html#command_word">command_word</a> (call.CopyMemory dst_memory dst src_memory src len) = codes "mcopy"
<a href="../../grammar/CommandsSpecs/index.html#command_word">command_word</a> (call.InitMemory memory segment dst src len) = codes "minit"
<a href="../../grammar/CommandsSpecs/index.html#command_word">command_word</a> (call.NewTable ty init) = codes "table"
<a href="../../grammar/CommandsSpecs/index.html#command_word">command_word</a> (call.GrowTable table delta init) = codes "tgrow"
<a href="../../grammar/CommandsSpecs/index.html#command_word">command_word</a> (call.DropTable table) = codes "drop"
<a href="../../grammar/CommandsSpecs/index.html#command_word">command_word</a> (call.GetElement table <a href="../../grammar/CommandsSpecs/index.html#index">index</a>) = codes "get"
<a href="../../grammar/CommandsSpecs/index.html#command_word">command_word</a> (call.SetElement table <a href="../../grammar/CommandsSpecs/index.html#index">index</a> value) = codes "tset"
<a href="../../grammar/CommandsSpecs/index.html#command_word">command_word</a> (call.InitTable table segment dst src len) = codes "init"
<a href="../../grammar/CommandsSpecs/index.html#command_word">command_word</a> (call.CopyTable dst_table dst src_table src len) = codes "copy"
<a href="../../grammar/CommandsSpecs/index.html#command_word">command_word</a> (call.FillTable table dst value len) = codes "fill"
<a href="../../grammar/CommandsSpecs/index.html#command_word">command_word</a> (call.NewSegment ty items) = codes "segment"
<a href="../../grammar/CommandsSpecs/index.html#command_word">command_word</a> (call.DropItems segment) = codes "empty"
<a href="../../grammar/CommandsSpecs/index.html#command_word">command_word</a> (call.NewData bytes) = codes "data"
<a href="../../grammar/CommandsSpecs/index.html#command_word">command_word</a> (call.DropData segment) = codes "dempty"
<a href="../../grammar/CommandsSpecs/index.html#command_word">command_word</a> (call.NewGlobal value ty) = codes "global"
<a href="../../grammar/CommandsSpecs/index.html#command_word">command_word</a> (call.SetGlobal global value) = codes "gset"
<a href="../../grammar/CommandsSpecs/index.html#command_word">command_word</a> (call.GetGlobal global) = codes "gget"
<a href="../../grammar/CommandsSpecs/index.html#command_word">command_word</a> (call.SetRegister dst value) = codes "set"
<a href="../../grammar/CommandsSpecs/index.html#command_word">command_word</a> (call.GetRegister a) = codes "show"
<a href="../../grammar/CommandsSpecs/index.html#command_word">command_word</a> (call.Make op dst a) = codes "make"
<a href="../../grammar/CommandsSpecs/index.html#command_word">command_word</a> (call.Unary op dst a) = codes "unary"
<a href="../../grammar/CommandsSpecs/index.html#command_word">command_word</a> (call.Binary op dst a b) = codes "binary"
<a href="../../grammar/CommandsSpecs/index.html#command_word">command_word</a> (call.Ternary op dst a b c) = codes "ternary"
<a href="../../grammar/CommandsSpecs/index.html#command_word">command_word</a> (call.Shift op dst a amount) = codes "shift"
<a href="../../grammar/CommandsSpecs/index.html#command_word">command_word</a> (call.Test op a) = codes "test"
<a href="../../grammar/CommandsSpecs/index.html#command_word">command_word</a> (call.Extract op a) = codes "extract"
<a href="../../grammar/CommandsSpecs/index.html#command_word">command_word</a> (call.Replace op dst a item) = codes "replace"
<a href="../../grammar/CommandsSpecs/index.html#command_word">command_word</a> (call.Shuffle dst a b lanes) = codes "shuffle"
<a href="../../grammar/CommandsSpecs/index.html#command_word">command_word</a> (call.VectorLoad op dst memory ptr offset) = codes "vload"
<a href="../../grammar/CommandsSpecs/index.html#command_word">command_word</a> (call.LoadLane op dst a memory ptr offset) = codes "vloadlane"
<a href="../../grammar/CommandsSpecs/index.html#command_word">command_word</a> (call.VectorStore a memory ptr offset) = codes "vstore"
<a href="../../grammar/CommandsSpecs/index.html#command_word">command_word</a> (call.StoreLane op a memory ptr offset) = codes "vstorelane"

-- as many operands, the k-th of which is the text `word k`, write what the call is given, but for a list at their end
abbrev pub <b id="OperandsWrite">OperandsWrite</b> : ℕ → (ℕ → List ℕ) → Call → Type 0
<a href="../../grammar/CommandsSpecs/index.html#OperandsWrite">OperandsWrite</a> count word (call.SetFuel fuel) = (count ≡ 1) × <a href="../../operands/LineWordsSpecs/index.html#WritesNumber">WritesNumber</a> 64 (word 0) fuel
<a href="../../grammar/CommandsSpecs/index.html#OperandsWrite">OperandsWrite</a> count word call.GetFuel = count ≡ 0
<a href="../../grammar/CommandsSpecs/index.html#OperandsWrite">OperandsWrite</a> count word (call.NewMemory ty) = (count ≡ 4) × <a href="../../grammar/CommandsSpecs/index.html#NamesType">NamesType</a> (word 0) (word 1) (word 2) (word 3) ty
<a href="../../grammar/CommandsSpecs/index.html#OperandsWrite">OperandsWrite</a> count word (call.NewLentMemory ty) = (count ≡ 4) × <a href="../../grammar/CommandsSpecs/index.html#NamesType">NamesType</a> (word 0) (word 1) (word 2) (word 3) ty
<a href="../../grammar/CommandsSpecs/index.html#OperandsWrite">OperandsWrite</a> count word (call.GrowMemory memory pages) = (count ≡ 2) × <a href="../../operands/LineWordsSpecs/index.html#WritesNumber">WritesNumber</a> 64 (word 0) memory
    × <a href="../../operands/LineWordsSpecs/index.html#WritesNumber">WritesNumber</a> 64 (word 1) pages
<a href="../../grammar/CommandsSpecs/index.html#OperandsWrite">OperandsWrite</a> count word (call.DropMemory memory) = (count ≡ 2) × (word 0 ≡ codes "memory")
    × <a href="../../operands/LineWordsSpecs/index.html#WritesNumber">WritesNumber</a> 64 (word 1) memory
<a href="../../grammar/CommandsSpecs/index.html#OperandsWrite">OperandsWrite</a> count word (call.Read memory offset len) = (count ≡ 3) × <a href="../../operands/LineWordsSpecs/index.html#WritesNumber">WritesNumber</a> 64 (word 0) memory
    × <a href="../../operands/LineWordsSpecs/index.html#WritesNumber">WritesNumber</a> 64 (word 1) offset × <a href="../../operands/LineWordsSpecs/index.html#WritesNumber">WritesNumber</a> 64 (word 2) len
<a href="../../grammar/CommandsSpecs/index.html#OperandsWrite">OperandsWrite</a> count word (call.Write memory offset bytes) = (2 ≤ count) × <a href="../../operands/LineWordsSpecs/index.html#WritesNumber">WritesNumber</a> 64 (word 0) memory
    × <a href="../../operands/LineWordsSpecs/index.html#WritesNumber">WritesNumber</a> 64 (word 1) offset
<a href="../../grammar/CommandsSpecs/index.html#OperandsWrite">OperandsWrite</a> count word (call.Load op memory ptr offset) = (count ≡ 4) × <a href="../../operands/NamesSpecs/index.html#IsName">IsName</a> <a href="../../ops/LoadStoreOpsSpecs/index.html#load_name">load_name</a> (word 0) op
    × <a href="../../operands/LineWordsSpecs/index.html#WritesNumber">WritesNumber</a> 64 (word 1) memory × <a href="../../operands/LineWordsSpecs/index.html#WritesNumber">WritesNumber</a> 64 (word 2) ptr × <a href="../../operands/LineWordsSpecs/index.html#WritesNumber">WritesNumber</a> 64 (word 3) offset
<a href="../../grammar/CommandsSpecs/index.html#OperandsWrite">OperandsWrite</a> count word (call.Store op memory ptr offset value) = (count ≡ 5) × <a href="../../operands/NamesSpecs/index.html#IsName">IsName</a> <a href="../../ops/LoadStoreOpsSpecs/index.html#store_name">store_name</a> (word 0) op
    × <a href="../../operands/LineWordsSpecs/index.html#WritesNumber">WritesNumber</a> 64 (word 1) memory × <a href="../../operands/LineWordsSpecs/index.html#WritesNumber">WritesNumber</a> 64 (word 2) ptr × <a href="../../operands/LineWordsSpecs/index.html#WritesNumber">WritesNumber</a> 64 (word 3) offset × (lo : ℕ)
    × <a href="../../operands/LineWordsSpecs/index.html#WritesNumber">WritesNumber</a> 64 (word 4) lo × (value ≡ <a href="../../raw/RawValSpecs/index.html#raw_of">raw_of</a> lo)
<a href="../../grammar/CommandsSpecs/index.html#OperandsWrite">OperandsWrite</a> count word (call.FillMemory memory dst value len) = (count ≡ 4) × <a href="../../operands/LineWordsSpecs/index.html#WritesNumber">WritesNumber</a> 64 (word 0) memory
    × <a href="../../operands/LineWordsSpecs/index.html#WritesNumber">WritesNumber</a> 64 (word 1) dst × <a href="../../operands/LineWordsSpecs/index.html#WritesNumber">WritesNumber</a> 8 (word 2) value × <a href="../../operands/LineWordsSpecs/index.html#WritesNumber">WritesNumber</a> 64 (word 3) len
<a href="../../grammar/CommandsSpecs/index.html#OperandsWrite">OperandsWrite</a> count word (call.CopyMemory dst_memory dst src_memory src len) = (count ≡ 5)
    × <a href="../../operands/LineWordsSpecs/index.html#WritesNumber">WritesNumber</a> 64 (word 0) dst_memory × <a href="../../operands/LineWordsSpecs/index.html#WritesNumber">WritesNumber</a> 64 (word 1) dst × <a href="../../operands/LineWordsSpecs/index.html#WritesNumber">WritesNumber</a> 64 (word 2) src_memory
    × <a href="../../operands/LineWordsSpecs/index.html#WritesNumber">WritesNumber</a> 64 (word 3) src × <a href="../../operands/LineWordsSpecs/index.html#WritesNumber">WritesNumber</a> 64 (word 4) len
<a href="../../grammar/CommandsSpecs/index.html#OperandsWrite">OperandsWrite</a> count word (call.InitMemory memory segment dst src len) = (count ≡ 5) × <a href="../../operands/LineWordsSpecs/index.html#WritesNumber">WritesNumber</a> 64 (word 0) memory
    × <a href="../../operands/LineWordsSpecs/index.html#WritesNumber">WritesNumber</a> 64 (word 1) segment × <a href="../../operands/LineWordsSpecs/index.html#WritesNumber">WritesNumber</a> 64 (word 2) dst × <a href="../../operands/LineWordsSpecs/index.html#WritesNumber">WritesNumber</a> 32 (word 3) src
    × <a href="../../operands/LineWordsSpecs/index.html#WritesNumber">WritesNumber</a> 32 (word 4) len
<a href="../../grammar/CommandsSpecs/index.html#OperandsWrite">OperandsWrite</a> count word (call.NewTable ty init) = (count ≡ 6) × <a href="../../grammar/CommandsSpecs/index.html#NamesTableType">NamesTableType</a> (word 0) (word 1) (word 2) (word 3) ty
    × <a href="../../operands/NamesSpecs/index.html#WritesReference">WritesReference</a> (word 4) (word 5) init
<a href="../../grammar/CommandsSpecs/index.html#OperandsWrite">OperandsWrite</a> count word (call.GrowTable table delta init) = (count ≡ 4) × <a href="../../operands/LineWordsSpecs/index.html#WritesNumber">WritesNumber</a> 64 (word 0) table
    × <a href="../../operands/LineWordsSpecs/index.html#WritesNumber">WritesNumber</a> 64 (word 1) delta × <a href="../../operands/NamesSpecs/index.html#WritesReference">WritesReference</a> (word 2) (word 3) init
<a href="../../grammar/CommandsSpecs/index.html#OperandsWrite">OperandsWrite</a> count word (call.DropTable table) = (count ≡ 2) × (word 0 ≡ codes "table")
    × <a href="../../operands/LineWordsSpecs/index.html#WritesNumber">WritesNumber</a> 64 (word 1) table
<a href="../../grammar/CommandsSpecs/index.html#OperandsWrite">OperandsWrite</a> count word (call.GetElement table <a href="../../grammar/CommandsSpecs/index.html#index">index</a>) = (count ≡ 2) × <a href="../../operands/LineWordsSpecs/index.html#WritesNumber">WritesNumber</a> 64 (word 0) table
    × <a href="../../operands/LineWordsSpecs/index.html#WritesNumber">WritesNumber</a> 64 (word 1) <a href="../../grammar/CommandsSpecs/index.html#index">index</a>
<a href="../../grammar/CommandsSpecs/index.html#OperandsWrite">OperandsWrite</a> count word (call.SetElement table <a href="../../grammar/CommandsSpecs/index.html#index">index</a> value) = (count ≡ 4) × <a href="../../operands/LineWordsSpecs/index.html#WritesNumber">WritesNumber</a> 64 (word 0) table
    × <a href="../../operands/LineWordsSpecs/index.html#WritesNumber">WritesNumber</a> 64 (word 1) <a href="../../grammar/CommandsSpecs/index.html#index">index</a> × <a href="../../operands/NamesSpecs/index.html#WritesReference">WritesReference</a> (word 2) (word 3) value
<a href="../../grammar/CommandsSpecs/index.html#OperandsWrite">OperandsWrite</a> count word (call.InitTable table segment dst src len) = (count ≡ 5) × <a href="../../operands/LineWordsSpecs/index.html#WritesNumber">WritesNumber</a> 64 (word 0) table
    × <a href="../../operands/LineWordsSpecs/index.html#WritesNumber">WritesNumber</a> 64 (word 1) segment × <a href="../../operands/LineWordsSpecs/index.html#WritesNumber">WritesNumber</a> 64 (word 2) dst × <a href="../../operands/LineWordsSpecs/index.html#WritesNumber">WritesNumber</a> 32 (word 3) src
    × <a href="../../operands/LineWordsSpecs/index.html#WritesNumber">WritesNumber</a> 32 (word 4) len
<a href="../../grammar/CommandsSpecs/index.html#OperandsWrite">OperandsWrite</a> count word (call.CopyTable dst_table dst src_table src len) = (count ≡ 5)
    × <a href="../../operands/LineWordsSpecs/index.html#WritesNumber">WritesNumber</a> 64 (word 0) dst_table × <a href="../../operands/LineWordsSpecs/index.html#WritesNumber">WritesNumber</a> 64 (word 1) dst × <a href="../../operands/LineWordsSpecs/index.html#WritesNumber">WritesNumber</a> 64 (word 2) src_table
    × <a href="../../operands/LineWordsSpecs/index.html#WritesNumber">WritesNumber</a> 64 (word 3) src × <a href="../../operands/LineWordsSpecs/index.html#WritesNumber">WritesNumber</a> 64 (word 4) len
<a href="../../grammar/CommandsSpecs/index.html#OperandsWrite">OperandsWrite</a> count word (call.FillTable table dst value len) = (count ≡ 5) × <a href="../../operands/LineWordsSpecs/index.html#WritesNumber">WritesNumber</a> 64 (word 0) table
    × <a href="../../operands/LineWordsSpecs/index.html#WritesNumber">WritesNumber</a> 64 (word 1) dst × <a href="../../operands/NamesSpecs/index.html#WritesReference">WritesReference</a> (word 2) (word 3) value × <a href="../../operands/LineWordsSpecs/index.html#WritesNumber">WritesNumber</a> 64 (word 4) len
<a href="../../grammar/CommandsSpecs/index.html#OperandsWrite">OperandsWrite</a> count word (call.NewSegment ty items) = (1 ≤ count) × (word 0 ≡ <a href="../../operands/NamesSpecs/index.html#reference_word">reference_word</a> ty)
<a href="../../grammar/CommandsSpecs/index.html#OperandsWrite">OperandsWrite</a> count word (call.DropItems segment) = (count ≡ 1) × <a href="../../operands/LineWordsSpecs/index.html#WritesNumber">WritesNumber</a> 64 (word 0) segment
<a href="../../grammar/CommandsSpecs/index.html#OperandsWrite">OperandsWrite</a> count word (call.NewData bytes) = Unit {0}
<a href="../../grammar/CommandsSpecs/index.html#OperandsWrite">OperandsWrite</a> count word (call.DropData segment) = (count ≡ 1) × <a href="../../operands/LineWordsSpecs/index.html#WritesNumber">WritesNumber</a> 64 (word 0) segment
<a href="../../grammar/CommandsSpecs/index.html#OperandsWrite">OperandsWrite</a> count word (call.NewGlobal value ty) = (count ≡ 4) × (word 0 ≡ <a href="../../operands/NamesSpecs/index.html#value_word">value_word</a> ty.content)
    × (word 1 ≡ <a href="../../operands/NamesSpecs/index.html#mutability_word">mutability_word</a> ty.mutability) × <a href="../../operands/LineWordsSpecs/index.html#WritesNumber">WritesNumber</a> 64 (word 2) value.lo × <a href="../../operands/LineWordsSpecs/index.html#WritesNumber">WritesNumber</a> 64 (word 3) value.hi
<a href="../../grammar/CommandsSpecs/index.html#OperandsWrite">OperandsWrite</a> count word (call.SetGlobal global value) = (count ≡ 4) × <a href="../../operands/LineWordsSpecs/index.html#WritesNumber">WritesNumber</a> 64 (word 0) global
    × (word 1 ≡ <a href="../../operands/NamesSpecs/index.html#value_word">value_word</a> value.ty) × <a href="../../operands/LineWordsSpecs/index.html#WritesNumber">WritesNumber</a> 64 (word 2) value.raw.lo × <a href="../../operands/LineWordsSpecs/index.html#WritesNumber">WritesNumber</a> 64 (word 3) value.raw.hi
<a href="../../grammar/CommandsSpecs/index.html#OperandsWrite">OperandsWrite</a> count word (call.GetGlobal global) = (count ≡ 1) × <a href="../../operands/LineWordsSpecs/index.html#WritesNumber">WritesNumber</a> 64 (word 0) global
<a href="../../grammar/CommandsSpecs/index.html#OperandsWrite">OperandsWrite</a> count word (call.SetRegister dst value) = (count ≡ 3) × <a href="../../operands/LineWordsSpecs/index.html#WritesNumber">WritesNumber</a> 8 (word 0) dst
    × <a href="../../operands/LineWordsSpecs/index.html#WritesNumber">WritesNumber</a> 64 (word 1) value.lo × <a href="../../operands/LineWordsSpecs/index.html#WritesNumber">WritesNumber</a> 64 (word 2) value.hi
<a href="../../grammar/CommandsSpecs/index.html#OperandsWrite">OperandsWrite</a> count word (call.GetRegister a) = (count ≡ 1) × <a href="../../operands/LineWordsSpecs/index.html#WritesNumber">WritesNumber</a> 8 (word 0) a
<a href="../../grammar/CommandsSpecs/index.html#OperandsWrite">OperandsWrite</a> count word (call.Make op dst a) = (count ≡ 3) × <a href="../../operands/NamesSpecs/index.html#IsName">IsName</a> <a href="../../ops/VectorOpsSpecs/index.html#make_name">make_name</a> (word 0) op × <a href="../../operands/LineWordsSpecs/index.html#WritesNumber">WritesNumber</a> 8 (word 1) dst
    × <a href="../../operands/LineWordsSpecs/index.html#WritesNumber">WritesNumber</a> 8 (word 2) a
<a href="../../grammar/CommandsSpecs/index.html#OperandsWrite">OperandsWrite</a> count word (call.Unary op dst a) = (count ≡ 3) × <a href="../../operands/NamesSpecs/index.html#IsName">IsName</a> <a href="../../ops/VectorOpsSpecs/index.html#unary_name">unary_name</a> (word 0) op
    × <a href="../../operands/LineWordsSpecs/index.html#WritesNumber">WritesNumber</a> 8 (word 1) dst × <a href="../../operands/LineWordsSpecs/index.html#WritesNumber">WritesNumber</a> 8 (word 2) a
<a href="../../grammar/CommandsSpecs/index.html#OperandsWrite">OperandsWrite</a> count word (call.Binary op dst a b) = (count ≡ 4) × <a href="../../operands/NamesSpecs/index.html#IsName">IsName</a> <a href="../../ops/VectorOpsSpecs/index.html#binary_name">binary_name</a> (word 0) op
    × <a href="../../operands/LineWordsSpecs/index.html#WritesNumber">WritesNumber</a> 8 (word 1) dst × <a href="../../operands/LineWordsSpecs/index.html#WritesNumber">WritesNumber</a> 8 (word 2) a × <a href="../../operands/LineWordsSpecs/index.html#WritesNumber">WritesNumber</a> 8 (word 3) b
<a href="../../grammar/CommandsSpecs/index.html#OperandsWrite">OperandsWrite</a> count word (call.Ternary op dst a b c) = (count ≡ 5) × <a href="../../operands/NamesSpecs/index.html#IsName">IsName</a> <a href="../../ops/VectorOpsSpecs/index.html#ternary_name">ternary_name</a> (word 0) op
    × <a href="../../operands/LineWordsSpecs/index.html#WritesNumber">WritesNumber</a> 8 (word 1) dst × <a href="../../operands/LineWordsSpecs/index.html#WritesNumber">WritesNumber</a> 8 (word 2) a × <a href="../../operands/LineWordsSpecs/index.html#WritesNumber">WritesNumber</a> 8 (word 3) b × <a href="../../operands/LineWordsSpecs/index.html#WritesNumber">WritesNumber</a> 8 (word 4) c
<a href="../../grammar/CommandsSpecs/index.html#OperandsWrite">OperandsWrite</a> count word (call.Shift op dst a amount) = (count ≡ 4) × <a href="../../operands/NamesSpecs/index.html#IsName">IsName</a> <a href="../../ops/VectorOpsSpecs/index.html#shift_name">shift_name</a> (word 0) op
    × <a href="../../operands/LineWordsSpecs/index.html#WritesNumber">WritesNumber</a> 8 (word 1) dst × <a href="../../operands/LineWordsSpecs/index.html#WritesNumber">WritesNumber</a> 8 (word 2) a × <a href="../../operands/LineWordsSpecs/index.html#WritesNumber">WritesNumber</a> 32 (word 3) amount
<a href="../../grammar/CommandsSpecs/index.html#OperandsWrite">OperandsWrite</a> count word (call.Test op a) = (count ≡ 2) × <a href="../../operands/NamesSpecs/index.html#IsName">IsName</a> <a href="../../ops/VectorOpsSpecs/index.html#test_name">test_name</a> (word 0) op × <a href="../../operands/LineWordsSpecs/index.html#WritesNumber">WritesNumber</a> 8 (word 1) a
<a href="../../grammar/CommandsSpecs/index.html#OperandsWrite">OperandsWrite</a> count word (call.Extract op a) = (count ≡ 3) × <a href="../../operands/NamesSpecs/index.html#NamesLane">NamesLane</a> <a href="../../ops/LaneOpsSpecs/index.html#extract_name">extract_name</a> <a href="../../ops/LaneOpsSpecs/index.html#extract_op">extract_op</a> (word 0) (word 2) op
    × <a href="../../operands/LineWordsSpecs/index.html#WritesNumber">WritesNumber</a> 8 (word 1) a
<a href="../../grammar/CommandsSpecs/index.html#OperandsWrite">OperandsWrite</a> count word (call.Replace op dst a item) = (count ≡ 5)
    × <a href="../../operands/NamesSpecs/index.html#NamesLane">NamesLane</a> <a href="../../ops/LaneOpsSpecs/index.html#replace_name">replace_name</a> <a href="../../ops/LaneOpsSpecs/index.html#replace_op">replace_op</a> (word 0) (word 3) op × <a href="../../operands/LineWordsSpecs/index.html#WritesNumber">WritesNumber</a> 8 (word 1) dst × <a href="../../operands/LineWordsSpecs/index.html#WritesNumber">WritesNumber</a> 8 (word 2) a
    × <a href="../../operands/LineWordsSpecs/index.html#WritesNumber">WritesNumber</a> 8 (word 4) item
<a href="../../grammar/CommandsSpecs/index.html#OperandsWrite">OperandsWrite</a> count word (call.Shuffle dst a b lanes) = (3 ≤ count) × <a href="../../operands/LineWordsSpecs/index.html#WritesNumber">WritesNumber</a> 8 (word 0) dst
    × <a href="../../operands/LineWordsSpecs/index.html#WritesNumber">WritesNumber</a> 8 (word 1) a × <a href="../../operands/LineWordsSpecs/index.html#WritesNumber">WritesNumber</a> 8 (word 2) b
<a href="../../grammar/CommandsSpecs/index.html#OperandsWrite">OperandsWrite</a> count word (call.VectorLoad op dst memory ptr offset) = (count ≡ 5) × <a href="../../operands/NamesSpecs/index.html#IsName">IsName</a> <a href="../../ops/VectorOpsSpecs/index.html#vector_load_name">vector_load_name</a> (word 0) op
    × <a href="../../operands/LineWordsSpecs/index.html#WritesNumber">WritesNumber</a> 8 (word 1) dst × <a href="../../operands/LineWordsSpecs/index.html#WritesNumber">WritesNumber</a> 64 (word 2) memory × <a href="../../operands/LineWordsSpecs/index.html#WritesNumber">WritesNumber</a> 64 (word 3) ptr
    × <a href="../../operands/LineWordsSpecs/index.html#WritesNumber">WritesNumber</a> 64 (word 4) offset
<a href="../../grammar/CommandsSpecs/index.html#OperandsWrite">OperandsWrite</a> count word (call.LoadLane op dst a memory ptr offset) = (count ≡ 7)
    × <a href="../../operands/NamesSpecs/index.html#NamesLane">NamesLane</a> <a href="../../ops/LaneOpsSpecs/index.html#load_lane_name">load_lane_name</a> <a href="../../ops/LaneOpsSpecs/index.html#load_lane_op">load_lane_op</a> (word 0) (word 3) op × <a href="../../operands/LineWordsSpecs/index.html#WritesNumber">WritesNumber</a> 8 (word 1) dst
    × <a href="../../operands/LineWordsSpecs/index.html#WritesNumber">WritesNumber</a> 8 (word 2) a × <a href="../../operands/LineWordsSpecs/index.html#WritesNumber">WritesNumber</a> 64 (word 4) memory × <a href="../../operands/LineWordsSpecs/index.html#WritesNumber">WritesNumber</a> 64 (word 5) ptr
    × <a href="../../operands/LineWordsSpecs/index.html#WritesNumber">WritesNumber</a> 64 (word 6) offset
<a href="../../grammar/CommandsSpecs/index.html#OperandsWrite">OperandsWrite</a> count word (call.VectorStore a memory ptr offset) = (count ≡ 4) × <a href="../../operands/LineWordsSpecs/index.html#WritesNumber">WritesNumber</a> 8 (word 0) a
    × <a href="../../operands/LineWordsSpecs/index.html#WritesNumber">WritesNumber</a> 64 (word 1) memory × <a href="../../operands/LineWordsSpecs/index.html#WritesNumber">WritesNumber</a> 64 (word 2) ptr × <a href="../../operands/LineWordsSpecs/index.html#WritesNumber">WritesNumber</a> 64 (word 3) offset
<a href="../../grammar/CommandsSpecs/index.html#OperandsWrite">OperandsWrite</a> count word (call.StoreLane op a memory ptr offset) = (count ≡ 6)
    × <a href="../../operands/NamesSpecs/index.html#NamesLane">NamesLane</a> <a href="../../ops/LaneOpsSpecs/index.html#store_lane_name">store_lane_name</a> <a href="../../ops/LaneOpsSpecs/index.html#store_lane_op">store_lane_op</a> (word 0) (word 2) op × <a href="../../operands/LineWordsSpecs/index.html#WritesNumber">WritesNumber</a> 8 (word 1) a
    × <a href="../../operands/LineWordsSpecs/index.html#WritesNumber">WritesNumber</a> 64 (word 3) memory × <a href="../../operands/LineWordsSpecs/index.html#WritesNumber">WritesNumber</a> 64 (word 4) ptr × <a href="../../operands/LineWordsSpecs/index.html#WritesNumber">WritesNumber</a> 64 (word 5) offset

-- What tools/generate writes ends.

-- the words after the first write what the call is given: its list, if it has one, is what the last of them write
abbrev pub <b id="WritesOperands">WritesOperands</b> : <a href="../../operands/LineWordsSpecs/index.html#LineWords">LineWords</a> → Call → Type 0
<a href="../../grammar/CommandsSpecs/index.html#WritesOperands">WritesOperands</a> words (call.Write memory offset bytes) =
    <a href="../../grammar/CommandsSpecs/index.html#OperandsWrite">OperandsWrite</a> (length words) (<a href="../../operands/LineWordsSpecs/index.html#word_at">word_at</a> words) (call.Write memory offset bytes)
    × <a href="../../operands/LineWordsSpecs/index.html#WritesEach">WritesEach</a> (<a href="../../operands/LineWordsSpecs/index.html#WritesNumber">WritesNumber</a> 8) (drop 2 words) bytes.items
<a href="../../grammar/CommandsSpecs/index.html#WritesOperands">WritesOperands</a> words (call.NewSegment ty items) =
    <a href="../../grammar/CommandsSpecs/index.html#OperandsWrite">OperandsWrite</a> (length words) (<a href="../../operands/LineWordsSpecs/index.html#word_at">word_at</a> words) (call.NewSegment ty items)
    × <a href="../../operands/LineWordsSpecs/index.html#WritesEach">WritesEach</a> (<a href="../../operands/LineWordsSpecs/index.html#WritesNumber">WritesNumber</a> 32) (drop 1 words) items.items
<a href="../../grammar/CommandsSpecs/index.html#WritesOperands">WritesOperands</a> words (call.NewData bytes) = <a href="../../operands/LineWordsSpecs/index.html#WritesEach">WritesEach</a> (<a href="../../operands/LineWordsSpecs/index.html#WritesNumber">WritesNumber</a> 8) words bytes.items
<a href="../../grammar/CommandsSpecs/index.html#WritesOperands">WritesOperands</a> words (call.Shuffle dst a b lanes) =
    <a href="../../grammar/CommandsSpecs/index.html#OperandsWrite">OperandsWrite</a> (length words) (<a href="../../operands/LineWordsSpecs/index.html#word_at">word_at</a> words) (call.Shuffle dst a b lanes) × <a href="../../operands/NamesSpecs/index.html#WritesLanes">WritesLanes</a> (drop 3 words) lanes
<a href="../../grammar/CommandsSpecs/index.html#WritesOperands">WritesOperands</a> words call = <a href="../../grammar/CommandsSpecs/index.html#OperandsWrite">OperandsWrite</a> (length words) (<a href="../../operands/LineWordsSpecs/index.html#word_at">word_at</a> words) call

-- the word that a command begins with, and the words after it, name this call
abbrev pub <b id="NamesAfter">NamesAfter</b> : List ℕ → <a href="../../operands/LineWordsSpecs/index.html#LineWords">LineWords</a> → Call → Type 0
<a href="../../grammar/CommandsSpecs/index.html#NamesAfter">NamesAfter</a> name operands call = (<a href="../../grammar/CommandsSpecs/index.html#command_word">command_word</a> call ≡ name) × <a href="../../grammar/CommandsSpecs/index.html#WritesOperands">WritesOperands</a> operands call

-- What tools/generate writes begins.
-- a word that a command of the meter, of a global or of a register begins with
abbrev pub <b id="IsValueWord">IsValueWord</b> : List ℕ → Type 0
<a href="../../grammar/CommandsSpecs/index.html#IsValueWord">IsValueWord</a> name = (name ≡ codes "fuel") ⊎ (name ≡ codes "left") ⊎ (name ≡ codes "global") ⊎ (name ≡ codes "gset")
    ⊎ (name ≡ codes "gget") ⊎ (name ≡ codes "set") ⊎ (name ≡ codes "show")

-- a word that a command of a memory begins with, or one that drops a memory or a table
abbrev pub <b id="IsMemoryWord">IsMemoryWord</b> : List ℕ → Type 0
<a href="../../grammar/CommandsSpecs/index.html#IsMemoryWord">IsMemoryWord</a> name = (name ≡ codes "memory") ⊎ (name ≡ codes "lent") ⊎ (name ≡ codes "grow") ⊎ (name ≡ codes "drop")
    ⊎ (name ≡ codes "read") ⊎ (name ≡ codes "mfill") ⊎ (name ≡ codes "mcopy") ⊎ (name ≡ codes "minit")

-- a word that a command begins with which loads or stores
abbrev pub <b id="IsAccessWord">IsAccessWord</b> : List ℕ → Type 0
<a href="../../grammar/CommandsSpecs/index.html#IsAccessWord">IsAccessWord</a> name = (name ≡ codes "load") ⊎ (name ≡ codes "store") ⊎ (name ≡ codes "vload") ⊎ (name ≡ codes "vloadlane")
    ⊎ (name ≡ codes "vstore") ⊎ (name ≡ codes "vstorelane")

-- a word that a command of a table begins with, or one that empties a segment
abbrev pub <b id="IsTableWord">IsTableWord</b> : List ℕ → Type 0
<a href="../../grammar/CommandsSpecs/index.html#IsTableWord">IsTableWord</a> name = (name ≡ codes "table") ⊎ (name ≡ codes "tgrow") ⊎ (name ≡ codes "get") ⊎ (name ≡ codes "tset")
    ⊎ (name ≡ codes "init") ⊎ (name ≡ codes "copy") ⊎ (name ≡ codes "fill") ⊎ (name ≡ codes "empty")
    ⊎ (name ≡ codes "dempty")

-- a word that a command of a vector instruction begins with
abbrev pub <b id="IsVectorWord">IsVectorWord</b> : List ℕ → Type 0
<a href="../../grammar/CommandsSpecs/index.html#IsVectorWord">IsVectorWord</a> name = (name ≡ codes "make") ⊎ (name ≡ codes "unary") ⊎ (name ≡ codes "binary") ⊎ (name ≡ codes "ternary")
    ⊎ (name ≡ codes "shift") ⊎ (name ≡ codes "test") ⊎ (name ≡ codes "extract") ⊎ (name ≡ codes "replace")
    ⊎ (name ≡ codes "shuffle")

-- What tools/generate writes ends.
</code></pre>
"####]
    pub mod CommandsSpecs {}
    #[doc = r####"What the words of a header line or an \`as\` line mean, and what the header lines ask for: a meter, tenants, a region, slots, and the machine that a script starts with.

<pre><code>use Rattle.std.specs.Prelude.{◌≡◌, ◌≤◌, ℕ, Option, List, Some, None, length, codes, replicate, unwrap_or}
use Rattle.std.specs.Option.{option_map, option_map_or}
use Rattle.wasmi_meter.specs.Meter.{<a href="../../meter/MeterSpecs/index.html#default_costs">default_costs</a>, <a href="../../meter/MeterSpecs/index.html#Meter">Meter</a>}
use Rattle.wasmi_machine.specs.State.{<a href="../../machine/StateSpecs/index.html#State">State</a>, <a href="../../machine/StateSpecs/index.html#new_state">new_state</a>, <a href="../../machine/StateSpecs/index.html#no_slots">no_slots</a>}
use Rattle.wasmi_machine.specs.declared.slots.SlotCounts.{SlotCounts}
use Rattle.wasmi_grammar.specs.declared.{header.Header.Header, header.MeterLine.MeterLine, header.LimiterLine.LimiterLine, header.RegionLine.RegionLine}
use Rattle.wasmi_grammar.specs.declared.header.MeterLine.TheVariants.{Off, On}
use Rattle.wasmi_grammar.specs.declared.header.LimiterLine.TheVariants.{Quota, Answers, Tenants}
use Rattle.wasmi_operands.specs.LineWords.{<a href="../../operands/LineWordsSpecs/index.html#LineWords">LineWords</a>, <a href="../../operands/LineWordsSpecs/index.html#WritesEach">WritesEach</a>, <a href="../../operands/LineWordsSpecs/index.html#word_at">word_at</a>, <a href="../../operands/LineWordsSpecs/index.html#WritesNumber">WritesNumber</a>}
use Rattle.wasmi_operands.specs.Names.{<a href="../../operands/NamesSpecs/index.html#WritesAnswer">WritesAnswer</a>}

-- the words after the first write what the meter line says
abbrev pub <b id="WritesMeter">WritesMeter</b> : <a href="../../operands/LineWordsSpecs/index.html#LineWords">LineWords</a> → MeterLine → Type 0
<a href="../../grammar/HeadersSpecs/index.html#WritesMeter">WritesMeter</a> words Off = (length words ≡ 1) × (<a href="../../operands/LineWordsSpecs/index.html#word_at">word_at</a> words 0 ≡ codes "off")
<a href="../../grammar/HeadersSpecs/index.html#WritesMeter">WritesMeter</a> words (On bytes_per_fuel) =
    (length words ≡ 2) × (<a href="../../operands/LineWordsSpecs/index.html#word_at">word_at</a> words 0 ≡ codes "on") × <a href="../../operands/LineWordsSpecs/index.html#WritesNumber">WritesNumber</a> 32 (<a href="../../operands/LineWordsSpecs/index.html#word_at">word_at</a> words 1) bytes_per_fuel

-- the word that a limiter line begins with, and the words after it, name this line
abbrev pub <b id="NamesLimiterAfter">NamesLimiterAfter</b> : List ℕ → <a href="../../operands/LineWordsSpecs/index.html#LineWords">LineWords</a> → LimiterLine → Type 0
<a href="../../grammar/HeadersSpecs/index.html#NamesLimiterAfter">NamesLimiterAfter</a> name words (Quota caps) = (codes "quota" ≡ name) × ((length words ≡ 2)
    × <a href="../../operands/LineWordsSpecs/index.html#WritesNumber">WritesNumber</a> 64 (<a href="../../operands/LineWordsSpecs/index.html#word_at">word_at</a> words 0) caps.bytes × <a href="../../operands/LineWordsSpecs/index.html#WritesNumber">WritesNumber</a> 64 (<a href="../../operands/LineWordsSpecs/index.html#word_at">word_at</a> words 1) caps.elements)
<a href="../../grammar/HeadersSpecs/index.html#NamesLimiterAfter">NamesLimiterAfter</a> name words (Answers answers) = (codes "answers" ≡ name) × <a href="../../operands/LineWordsSpecs/index.html#WritesEach">WritesEach</a> <a href="../../operands/NamesSpecs/index.html#WritesAnswer">WritesAnswer</a> words answers.items
<a href="../../grammar/HeadersSpecs/index.html#NamesLimiterAfter">NamesLimiterAfter</a> name words (Tenants line) = (codes "tenants" ≡ name) × ((length words ≡ 3)
    × <a href="../../operands/LineWordsSpecs/index.html#WritesNumber">WritesNumber</a> 64 (<a href="../../operands/LineWordsSpecs/index.html#word_at">word_at</a> words 0) line.count × (1 ≤ line.count) × (line.count ≤ 1024)
    × <a href="../../operands/LineWordsSpecs/index.html#WritesNumber">WritesNumber</a> 64 (<a href="../../operands/LineWordsSpecs/index.html#word_at">word_at</a> words 1) line.caps.bytes × <a href="../../operands/LineWordsSpecs/index.html#WritesNumber">WritesNumber</a> 64 (<a href="../../operands/LineWordsSpecs/index.html#word_at">word_at</a> words 2) line.caps.elements)

-- the words after the first write what the region line says
abbrev pub <b id="WritesRegion">WritesRegion</b> : <a href="../../operands/LineWordsSpecs/index.html#LineWords">LineWords</a> → RegionLine → Type 0
<a href="../../grammar/HeadersSpecs/index.html#WritesRegion">WritesRegion</a> words line =
    (length words ≡ 2) × <a href="../../operands/LineWordsSpecs/index.html#WritesNumber">WritesNumber</a> 64 (<a href="../../operands/LineWordsSpecs/index.html#word_at">word_at</a> words 0) line.len × <a href="../../operands/LineWordsSpecs/index.html#WritesNumber">WritesNumber</a> 8 (<a href="../../operands/LineWordsSpecs/index.html#word_at">word_at</a> words 1) line.byte

-- the words after the first write how many slots of each kind the line reserves
abbrev pub <b id="WritesReserve">WritesReserve</b> : <a href="../../operands/LineWordsSpecs/index.html#LineWords">LineWords</a> → SlotCounts → Type 0
<a href="../../grammar/HeadersSpecs/index.html#WritesReserve">WritesReserve</a> words slots =
    (length words ≡ 5) × <a href="../../operands/LineWordsSpecs/index.html#WritesNumber">WritesNumber</a> 64 (<a href="../../operands/LineWordsSpecs/index.html#word_at">word_at</a> words 0) slots.memories
    × <a href="../../operands/LineWordsSpecs/index.html#WritesNumber">WritesNumber</a> 64 (<a href="../../operands/LineWordsSpecs/index.html#word_at">word_at</a> words 1) slots.tables × <a href="../../operands/LineWordsSpecs/index.html#WritesNumber">WritesNumber</a> 64 (<a href="../../operands/LineWordsSpecs/index.html#word_at">word_at</a> words 2) slots.segments
    × <a href="../../operands/LineWordsSpecs/index.html#WritesNumber">WritesNumber</a> 64 (<a href="../../operands/LineWordsSpecs/index.html#word_at">word_at</a> words 3) slots.data_segments × <a href="../../operands/LineWordsSpecs/index.html#WritesNumber">WritesNumber</a> 64 (<a href="../../operands/LineWordsSpecs/index.html#word_at">word_at</a> words 4) slots.globals

-- the words after the first write which tenant the `as` line means
abbrev pub <b id="WritesTenant">WritesTenant</b> : <a href="../../operands/LineWordsSpecs/index.html#LineWords">LineWords</a> → ℕ → Type 0
<a href="../../grammar/HeadersSpecs/index.html#WritesTenant">WritesTenant</a> words tenant = (length words ≡ 1) × <a href="../../operands/LineWordsSpecs/index.html#WritesNumber">WritesNumber</a> 64 (<a href="../../operands/LineWordsSpecs/index.html#word_at">word_at</a> words 0) tenant

-- how many tenants a limiter line asks for
abbrev pub <b id="tenants_of">tenants_of</b> : Option LimiterLine → ℕ
<a href="../../grammar/HeadersSpecs/index.html#tenants_of">tenants_of</a> (Some (Tenants line)) = line.count
<a href="../../grammar/HeadersSpecs/index.html#tenants_of">tenants_of</a> limiter = 0

-- the header lines ask for what goes together: a script with tenants has no region
abbrev pub <b id="AreApart">AreApart</b> : Option LimiterLine → Option RegionLine → Type 0
<a href="../../grammar/HeadersSpecs/index.html#AreApart">AreApart</a> (Some (Tenants line)) (Some region) = ⊥
<a href="../../grammar/HeadersSpecs/index.html#AreApart">AreApart</a> limiter region = Unit {0}

-- a meter that is off
abbrev pub <b id="meter_off">meter_off</b> : <a href="../../meter/MeterSpecs/index.html#Meter">Meter</a>
<a href="../../grammar/HeadersSpecs/index.html#meter_off">meter_off</a> = record { left = None; costs = <a href="../../meter/MeterSpecs/index.html#default_costs">default_costs</a> }

-- the meter that a line asks for, with no fuel left yet
abbrev pub <b id="meter_meaning">meter_meaning</b> : MeterLine → <a href="../../meter/MeterSpecs/index.html#Meter">Meter</a>
<a href="../../grammar/HeadersSpecs/index.html#meter_meaning">meter_meaning</a> Off = <a href="../../grammar/HeadersSpecs/index.html#meter_off">meter_off</a>
<a href="../../grammar/HeadersSpecs/index.html#meter_meaning">meter_meaning</a> (On bytes_per_fuel) =
    record { left = Some 0; costs = record <a href="../../meter/MeterSpecs/index.html#default_costs">default_costs</a> { bytes_copied_per_fuel = bytes_per_fuel } }

-- the meter that a script starts with: off without a line that says more
abbrev pub <b id="meter_of">meter_of</b> : Header → <a href="../../meter/MeterSpecs/index.html#Meter">Meter</a>
<a href="../../grammar/HeadersSpecs/index.html#meter_of">meter_of</a> header = option_map_or <a href="../../grammar/HeadersSpecs/index.html#meter_meaning">meter_meaning</a> header.meter <a href="../../grammar/HeadersSpecs/index.html#meter_off">meter_off</a>

-- the bytes of a region that a line asks for
abbrev pub <b id="region_bytes">region_bytes</b> : RegionLine → List ℕ
<a href="../../grammar/HeadersSpecs/index.html#region_bytes">region_bytes</a> line = replicate line.len line.byte

-- how many slots of each kind the header lines reserve: none without a line that says more
abbrev pub <b id="slots_of">slots_of</b> : Header → SlotCounts
<a href="../../grammar/HeadersSpecs/index.html#slots_of">slots_of</a> header = unwrap_or header.reserve <a href="../../machine/StateSpecs/index.html#no_slots">no_slots</a>

-- the machine that each tenant of a script starts with: new, with the script&#x27;s meter and with its slots reserved
abbrev pub <b id="tenant_start">tenant_start</b> : Header → <a href="../../machine/StateSpecs/index.html#State">State</a>
<a href="../../grammar/HeadersSpecs/index.html#tenant_start">tenant_start</a> header = record (<a href="../../machine/StateSpecs/index.html#new_state">new_state</a> (<a href="../../grammar/HeadersSpecs/index.html#meter_of">meter_of</a> header)) { reserved = <a href="../../grammar/HeadersSpecs/index.html#slots_of">slots_of</a> header }

-- the machine that a script without tenants starts with: such a machine, with its region
abbrev pub <b id="start_of">start_of</b> : Header → <a href="../../machine/StateSpecs/index.html#State">State</a>
<a href="../../grammar/HeadersSpecs/index.html#start_of">start_of</a> header = record (<a href="../../grammar/HeadersSpecs/index.html#tenant_start">tenant_start</a> header) { spare = option_map <a href="../../grammar/HeadersSpecs/index.html#region_bytes">region_bytes</a> header.region }
</code></pre>
"####]
    pub mod HeadersSpecs {}
    #[doc = r####"What a line says and adds to a script, the script that the lines of a text lead to, with the list of all its calls, and the bad lines by which a text isn't parsed.

<pre><code>use Rattle.std.specs.Prelude.{◌≡◌, ◌&lt;◌, ℕ, ◌⊎◌, List, [], ◌∷◌, ◌++◌, Some, None, ◌==◌, codes, drop, map, ◌+◌, ⊤, length, IsUtf8}
use Rattle.std.specs.List.{slice_split}
use Rattle.wasmi_machine.specs.declared.calls.Call.{Call}
use Rattle.wasmi_grammar.specs.declared.{header.Header.Header, script.Line.Line, script.Script.Script, error.ParseError.ParseError}
use Rattle.wasmi_grammar.specs.declared.script.Line.TheVariants.{<a href="../../meter/MeterSpecs/index.html#Meter">Meter</a>, Limiter, Region, Reserve, As, Call as Command}
use Rattle.wasmi_operands.specs.LineWords.{<a href="../../operands/LineWordsSpecs/index.html#LineWords">LineWords</a>, <a href="../../operands/LineWordsSpecs/index.html#word_at">word_at</a>, <a href="../../operands/LineWordsSpecs/index.html#words_in">words_in</a>}
use Rattle.wasmi_grammar.specs.Parts.{<a href="../../grammar/PartsSpecs/index.html#parts_in">parts_in</a>, <a href="../../grammar/PartsSpecs/index.html#calls_in">calls_in</a>}
use Rattle.wasmi_grammar.specs.Commands.{<a href="../../grammar/CommandsSpecs/index.html#NamesAfter">NamesAfter</a>}
use Rattle.wasmi_grammar.specs.Headers.{<a href="../../grammar/HeadersSpecs/index.html#WritesMeter">WritesMeter</a>, <a href="../../grammar/HeadersSpecs/index.html#NamesLimiterAfter">NamesLimiterAfter</a>, <a href="../../grammar/HeadersSpecs/index.html#WritesRegion">WritesRegion</a>, <a href="../../grammar/HeadersSpecs/index.html#WritesReserve">WritesReserve</a>, <a href="../../grammar/HeadersSpecs/index.html#WritesTenant">WritesTenant</a>, <a href="../../grammar/HeadersSpecs/index.html#AreApart">AreApart</a>, <a href="../../grammar/HeadersSpecs/index.html#tenants_of">tenants_of</a>}
use Rattle.wasmi_grammar.specs.declared.error.ParseError.TheVariants.{BadCommand, OutOfMemory}

-- the first word of a line and the words after it say this
abbrev pub <b id="NamesLine">NamesLine</b> : List ℕ → <a href="../../operands/LineWordsSpecs/index.html#LineWords">LineWords</a> → Line → Type 0
<a href="../../grammar/LinesSpecs/index.html#NamesLine">NamesLine</a> name operands (<a href="../../meter/MeterSpecs/index.html#Meter">Meter</a> line) = (name ≡ codes "meter") × <a href="../../grammar/HeadersSpecs/index.html#WritesMeter">WritesMeter</a> operands line
<a href="../../grammar/LinesSpecs/index.html#NamesLine">NamesLine</a> name operands (Limiter line) = <a href="../../grammar/HeadersSpecs/index.html#NamesLimiterAfter">NamesLimiterAfter</a> name operands line
<a href="../../grammar/LinesSpecs/index.html#NamesLine">NamesLine</a> name operands (Region line) = (name ≡ codes "region") × <a href="../../grammar/HeadersSpecs/index.html#WritesRegion">WritesRegion</a> operands line
<a href="../../grammar/LinesSpecs/index.html#NamesLine">NamesLine</a> name operands (Reserve slots) = (name ≡ codes "reserve") × <a href="../../grammar/HeadersSpecs/index.html#WritesReserve">WritesReserve</a> operands slots
<a href="../../grammar/LinesSpecs/index.html#NamesLine">NamesLine</a> name operands (As tenant) = (name ≡ codes "as") × <a href="../../grammar/HeadersSpecs/index.html#WritesTenant">WritesTenant</a> operands tenant
<a href="../../grammar/LinesSpecs/index.html#NamesLine">NamesLine</a> name operands (Command call) = <a href="../../grammar/CommandsSpecs/index.html#NamesAfter">NamesAfter</a> name operands call

-- no command was taken yet
pub record <b id="HasNoCommands">HasNoCommands</b> (<a href="../../grammar/LinesSpecs/index.html#script">script</a> : Script) : Type 0 where
  pub <b id="no_calls">no_calls</b> : script.parts.calls ≡ []
  pub <b id="no_parts">no_parts</b> : script.parts.earlier ≡ []

-- a header line, before all commands: the lines before it allow it, and the header has it from then on
pub record <b id="AddsHeader">AddsHeader</b> (old : Script) (Allowed : Type 0) (header&#x27; : Header) (new : Script) : Type 0 where
  pub <b id="before_commands">before_commands</b> : <a href="../../grammar/LinesSpecs/index.html#HasNoCommands">HasNoCommands</a> old
  pub <b id="allowed">allowed</b> : Allowed
  pub <b id="header">header</b> : new.header ≡ header&#x27;
  pub <b id="parts">parts</b> : new.parts ≡ old.parts

-- a command, whose call comes after those of the lines before
pub record <b id="AddsCall">AddsCall</b> (old : Script) (call : Call) (new : Script) : Type 0 where
  pub <b id="parts">parts</b> : new.parts ≡ record old.parts { calls = old.parts.calls ++ call ∷ [] }
  pub <b id="header">header</b> : new.header ≡ old.header

-- an `as` line: the calls before it are a part, and those after it are another tenant&#x27;s, of whom there is one
pub record <b id="AddsPart">AddsPart</b> (old : Script) (named : ℕ) (new : Script) : Type 0 where
  pub <b id="there">there</b> : named &lt; <a href="../../grammar/HeadersSpecs/index.html#tenants_of">tenants_of</a> old.header.limiter_line
  pub <b id="parts">parts</b> : new.parts ≡ record { earlier = <a href="../../grammar/PartsSpecs/index.html#parts_in">parts_in</a> old.parts; tenant = named; calls = [] }
  pub <b id="header">header</b> : new.header ≡ old.header

-- what a line says, added to the lines before: there is one `meter`, one `region` and one `reserve` line at most, one
-- limiter line of any kind, and no region beside a pool
abbrev pub <b id="AddsLine">AddsLine</b> : Script → Line → Script → Type 0
<a href="../../grammar/LinesSpecs/index.html#AddsLine">AddsLine</a> old (<a href="../../meter/MeterSpecs/index.html#Meter">Meter</a> line) new = <a href="../../grammar/LinesSpecs/index.html#AddsHeader">AddsHeader</a> old (old.header.meter ≡ None) (record old.header { meter = Some line }) new
<a href="../../grammar/LinesSpecs/index.html#AddsLine">AddsLine</a> old (Limiter line) new =
    <a href="../../grammar/LinesSpecs/index.html#AddsHeader">AddsHeader</a> old ((old.header.limiter_line ≡ None) × <a href="../../grammar/HeadersSpecs/index.html#AreApart">AreApart</a> (Some line) old.header.region)
    (record old.header { limiter_line = Some line }) new
<a href="../../grammar/LinesSpecs/index.html#AddsLine">AddsLine</a> old (Region line) new =
    <a href="../../grammar/LinesSpecs/index.html#AddsHeader">AddsHeader</a> old ((old.header.region ≡ None) × <a href="../../grammar/HeadersSpecs/index.html#AreApart">AreApart</a> old.header.limiter_line (Some line))
    (record old.header { region = Some line }) new
<a href="../../grammar/LinesSpecs/index.html#AddsLine">AddsLine</a> old (Reserve slots) new =
    <a href="../../grammar/LinesSpecs/index.html#AddsHeader">AddsHeader</a> old (old.header.reserve ≡ None) (record old.header { reserve = Some slots }) new
<a href="../../grammar/LinesSpecs/index.html#AddsLine">AddsLine</a> old (As tenant) new = <a href="../../grammar/LinesSpecs/index.html#AddsPart">AddsPart</a> old tenant new
<a href="../../grammar/LinesSpecs/index.html#AddsLine">AddsLine</a> old (Command call) new = <a href="../../grammar/LinesSpecs/index.html#AddsCall">AddsCall</a> old call new

-- the words of a line add what they say, and no words add nothing
abbrev pub <b id="AddsWords">AddsWords</b> : Script → <a href="../../operands/LineWordsSpecs/index.html#LineWords">LineWords</a> → Script → Type 0
<a href="../../grammar/LinesSpecs/index.html#AddsWords">AddsWords</a> old words new =
    ((words ≡ []) × (new ≡ old))
    ⊎ ((line : Line) × <a href="../../grammar/LinesSpecs/index.html#NamesLine">NamesLine</a> (<a href="../../operands/LineWordsSpecs/index.html#word_at">word_at</a> words 0) (drop 1 words) line × <a href="../../grammar/LinesSpecs/index.html#AddsLine">AddsLine</a> old line new)

-- a line of a script: a text, by its words
abbrev pub <b id="AcceptsLine">AcceptsLine</b> : Script → List ℕ → Script → Type 0
<a href="../../grammar/LinesSpecs/index.html#AcceptsLine">AcceptsLine</a> old line new =
    IsUtf8 line × (words : <a href="../../operands/LineWordsSpecs/index.html#LineWords">LineWords</a>) × (map (λ word. word.now) words ≡ <a href="../../operands/LineWordsSpecs/index.html#words_in">words_in</a> line) × <a href="../../grammar/LinesSpecs/index.html#AddsWords">AddsWords</a> old words new

-- lines taken one after the other
abbrev pub <b id="AcceptsLines">AcceptsLines</b> : List (List ℕ) → Script → Script → Type 0
<a href="../../grammar/LinesSpecs/index.html#AcceptsLines">AcceptsLines</a> [] old new = new ≡ old
<a href="../../grammar/LinesSpecs/index.html#AcceptsLines">AcceptsLines</a> (line ∷ <a href="../../grammar/LinesSpecs/index.html#lines">lines</a>) old new = (middle : Script) × <a href="../../grammar/LinesSpecs/index.html#AcceptsLine">AcceptsLine</a> old line middle × <a href="../../grammar/LinesSpecs/index.html#AcceptsLines">AcceptsLines</a> <a href="../../grammar/LinesSpecs/index.html#lines">lines</a> middle new

-- the lines of a text, which line feeds separate
unfoldable pub <b id="lines_in">lines_in</b> : List ℕ → List (List ℕ)
<a href="../../grammar/LinesSpecs/index.html#lines_in">lines_in</a> text = slice_split (λ byte. byte == 10) text

-- no line was taken yet
pub record <b id="IsNewScript">IsNewScript</b> (<a href="../../grammar/LinesSpecs/index.html#script">script</a> : Script) : Type 0 where
  pub <b id="no_header">no_header</b> : script.header ≡ record { meter = None; limiter_line = None; region = None; reserve = None }
  pub <b id="no_commands">no_commands</b> : script.parts ≡ record { earlier = []; tenant = 0; calls = [] }

-- the lines, taken one after the other from none on, lead to this script
pub record <b id="AreTaken">AreTaken</b> (texts : List (List ℕ)) (<a href="../../grammar/LinesSpecs/index.html#script">script</a> : Script) : Type 0 where
  pub <b id="empty">empty</b> : Script
  pub <b id="is_new">is_new</b> : <a href="../../grammar/LinesSpecs/index.html#IsNewScript">IsNewScript</a> <a href="../../grammar/LinesSpecs/index.html#empty">empty</a>
  pub <b id="lines">lines</b> : <a href="../../grammar/LinesSpecs/index.html#AcceptsLines">AcceptsLines</a> texts <a href="../../grammar/LinesSpecs/index.html#empty">empty</a> <a href="../../grammar/LinesSpecs/index.html#script">script</a>

-- the script that a text writes: what its lines make
abbrev pub <b id="WritesScript">WritesScript</b> : List ℕ → Script → Type 0
<a href="../../grammar/LinesSpecs/index.html#WritesScript">WritesScript</a> text <a href="../../grammar/LinesSpecs/index.html#script">script</a> = <a href="../../grammar/LinesSpecs/index.html#AreTaken">AreTaken</a> (<a href="../../grammar/LinesSpecs/index.html#lines_in">lines_in</a> text) <a href="../../grammar/LinesSpecs/index.html#script">script</a>

-- all calls of a script, in order
abbrev pub <b id="calls_of">calls_of</b> : Script → List Call
<a href="../../grammar/LinesSpecs/index.html#calls_of">calls_of</a> <a href="../../grammar/LinesSpecs/index.html#script">script</a> = <a href="../../grammar/PartsSpecs/index.html#calls_in">calls_in</a> (<a href="../../grammar/PartsSpecs/index.html#parts_in">parts_in</a> script.parts)

-- a line that can&#x27;t be taken after those before: it is no text, or its words, however they are held, add nothing
abbrev pub <b id="IsBadLine">IsBadLine</b> : Script → List ℕ → Type 0
<a href="../../grammar/LinesSpecs/index.html#IsBadLine">IsBadLine</a> <a href="../../grammar/LinesSpecs/index.html#script">script</a> line = (new : Script) → ¬ (<a href="../../grammar/LinesSpecs/index.html#AcceptsLine">AcceptsLine</a> <a href="../../grammar/LinesSpecs/index.html#script">script</a> line new)

-- the lines before this one, counted from 1, are taken, and this one adds nothing to them
pub record <b id="IsFirstBadLine">IsFirstBadLine</b> (text : List ℕ) (number : ℕ) : Type 0 where
  pub <b id="before">before</b> : List (List ℕ)
  pub <b id="bad">bad</b> : List ℕ
  pub <b id="after">after</b> : List (List ℕ)
  pub <b id="lines">lines</b> : <a href="../../grammar/LinesSpecs/index.html#lines_in">lines_in</a> text ≡ <a href="../../grammar/LinesSpecs/index.html#before">before</a> ++ <a href="../../grammar/LinesSpecs/index.html#bad">bad</a> ∷ <a href="../../grammar/LinesSpecs/index.html#after">after</a>
  pub <b id="counted">counted</b> : number ≡ length <a href="../../grammar/LinesSpecs/index.html#before">before</a> + 1
  pub <b id="script">script</b> : Script
  pub <b id="taken">taken</b> : <a href="../../grammar/LinesSpecs/index.html#AreTaken">AreTaken</a> <a href="../../grammar/LinesSpecs/index.html#before">before</a> <a href="../../grammar/LinesSpecs/index.html#script">script</a>
  pub <b id="is_bad">is_bad</b> : <a href="../../grammar/LinesSpecs/index.html#IsBadLine">IsBadLine</a> <a href="../../grammar/LinesSpecs/index.html#script">script</a> <a href="../../grammar/LinesSpecs/index.html#bad">bad</a>

-- why a text isn&#x27;t parsed
abbrev pub <b id="IsParseError">IsParseError</b> : List ℕ → ParseError → Type 0
<a href="../../grammar/LinesSpecs/index.html#IsParseError">IsParseError</a> text (BadCommand number) = <a href="../../grammar/LinesSpecs/index.html#IsFirstBadLine">IsFirstBadLine</a> text number
<a href="../../grammar/LinesSpecs/index.html#IsParseError">IsParseError</a> text OutOfMemory = ⊤
</code></pre>
"####]
    pub mod LinesSpecs {}
    #[doc = r####"What a script says, however its lists are held, and the laws of texts: the script that a text writes says one thing, and a text has one first bad line or none.

<pre><code>use Rattle.std.specs.Prelude.{◌≡◌, ℕ, List, Option, map, option_map}
use Rattle.wasmi_types.specs.declared.value.RefType.{RefType}
use Rattle.wasmi_machine.specs.declared.{calls.Call.Call, slots.SlotCounts.SlotCounts}
use Rattle.wasmi_machine.specs.declared.calls.Call.TheVariants.{Write, NewData, NewSegment}
use Rattle.wasmi_grammar.specs.declared.{script.Script.Script, header.MeterLine.MeterLine, header.RegionLine.RegionLine, header.LimiterLine.LimiterLine}
use Rattle.wasmi_grammar.specs.declared.header.LimiterLine.TheVariants.{Answers}
use Rattle.wasmi_meter.specs.declared.answer_list.LimiterAnswer.{LimiterAnswer}
use Rattle.wasmi_grammar.specs.Lines.{<a href="../../grammar/LinesSpecs/index.html#WritesScript">WritesScript</a>, <a href="../../grammar/LinesSpecs/index.html#IsFirstBadLine">IsFirstBadLine</a>}
use Rattle.wasmi_grammar.specs.Parts.{<a href="../../grammar/PartsSpecs/index.html#TenantRun">TenantRun</a>, <a href="../../grammar/PartsSpecs/index.html#parts_in">parts_in</a>}

-- a call, with its bytes or its items as a list
pub data <b id="CallMeaning">CallMeaning</b> : Type 0 where
  <b id="WriteMeaning">WriteMeaning</b> : ℕ → ℕ → List ℕ → <a href="../../grammar/MeaningsSpecs/index.html#CallMeaning">CallMeaning</a>
  <b id="SegmentMeaning">SegmentMeaning</b> : RefType → List ℕ → <a href="../../grammar/MeaningsSpecs/index.html#CallMeaning">CallMeaning</a>
  <b id="DataMeaning">DataMeaning</b> : List ℕ → <a href="../../grammar/MeaningsSpecs/index.html#CallMeaning">CallMeaning</a>
  <b id="OtherCall">OtherCall</b> : Call → <a href="../../grammar/MeaningsSpecs/index.html#CallMeaning">CallMeaning</a>

-- what a call says
abbrev pub <b id="call_meaning">call_meaning</b> : Call → <a href="../../grammar/MeaningsSpecs/index.html#CallMeaning">CallMeaning</a>
<a href="../../grammar/MeaningsSpecs/index.html#call_meaning">call_meaning</a> (Write memory offset bytes) = <a href="../../grammar/MeaningsSpecs/index.html#WriteMeaning">WriteMeaning</a> memory offset bytes.items
<a href="../../grammar/MeaningsSpecs/index.html#call_meaning">call_meaning</a> (NewSegment ty items) = <a href="../../grammar/MeaningsSpecs/index.html#SegmentMeaning">SegmentMeaning</a> ty items.items
<a href="../../grammar/MeaningsSpecs/index.html#call_meaning">call_meaning</a> (NewData bytes) = <a href="../../grammar/MeaningsSpecs/index.html#DataMeaning">DataMeaning</a> bytes.items
<a href="../../grammar/MeaningsSpecs/index.html#call_meaning">call_meaning</a> call = <a href="../../grammar/MeaningsSpecs/index.html#OtherCall">OtherCall</a> call

-- a limiter line, with its answers as a list
pub data <b id="LimiterMeaning">LimiterMeaning</b> : Type 0 where
  <b id="AnswersMeaning">AnswersMeaning</b> : List LimiterAnswer → <a href="../../grammar/MeaningsSpecs/index.html#LimiterMeaning">LimiterMeaning</a>
  <b id="OtherLimiter">OtherLimiter</b> : LimiterLine → <a href="../../grammar/MeaningsSpecs/index.html#LimiterMeaning">LimiterMeaning</a>

-- what a limiter line says
abbrev pub <b id="limiter_meaning">limiter_meaning</b> : LimiterLine → <a href="../../grammar/MeaningsSpecs/index.html#LimiterMeaning">LimiterMeaning</a>
<a href="../../grammar/MeaningsSpecs/index.html#limiter_meaning">limiter_meaning</a> (Answers answers) = <a href="../../grammar/MeaningsSpecs/index.html#AnswersMeaning">AnswersMeaning</a> answers.items
<a href="../../grammar/MeaningsSpecs/index.html#limiter_meaning">limiter_meaning</a> line = <a href="../../grammar/MeaningsSpecs/index.html#OtherLimiter">OtherLimiter</a> line

-- a part: its tenant and its calls
pub record <b id="PartMeaning">PartMeaning</b> : Type 0 where
  pub <b id="tenant">tenant</b> : ℕ
  pub <b id="calls">calls</b> : List <a href="../../grammar/MeaningsSpecs/index.html#CallMeaning">CallMeaning</a>

-- what a part says
abbrev pub <b id="part_meaning">part_meaning</b> : <a href="../../grammar/PartsSpecs/index.html#TenantRun">TenantRun</a> → <a href="../../grammar/MeaningsSpecs/index.html#PartMeaning">PartMeaning</a>
<a href="../../grammar/MeaningsSpecs/index.html#part_meaning">part_meaning</a> part = record { <a href="../../grammar/MeaningsSpecs/index.html#tenant">tenant</a> = part.tenant; <a href="../../grammar/MeaningsSpecs/index.html#calls">calls</a> = map <a href="../../grammar/MeaningsSpecs/index.html#call_meaning">call_meaning</a> part.calls }

-- a script: its header lines and its parts
pub record <b id="ScriptMeaning">ScriptMeaning</b> : Type 0 where
  pub <b id="meter">meter</b> : Option MeterLine
  pub <b id="limiter">limiter</b> : Option <a href="../../grammar/MeaningsSpecs/index.html#LimiterMeaning">LimiterMeaning</a>
  pub <b id="region">region</b> : Option RegionLine
  pub <b id="reserve">reserve</b> : Option SlotCounts
  pub <b id="parts">parts</b> : List <a href="../../grammar/MeaningsSpecs/index.html#PartMeaning">PartMeaning</a>

-- what a script says
abbrev pub <b id="script_meaning">script_meaning</b> : Script → <a href="../../grammar/MeaningsSpecs/index.html#ScriptMeaning">ScriptMeaning</a>
<a href="../../grammar/MeaningsSpecs/index.html#script_meaning">script_meaning</a> script = record {
  <a href="../../grammar/MeaningsSpecs/index.html#meter">meter</a> = script.header.<a href="../../grammar/MeaningsSpecs/index.html#meter">meter</a>;
  <a href="../../grammar/MeaningsSpecs/index.html#limiter">limiter</a> = option_map <a href="../../grammar/MeaningsSpecs/index.html#limiter_meaning">limiter_meaning</a> script.header.limiter_line;
  <a href="../../grammar/MeaningsSpecs/index.html#region">region</a> = script.header.<a href="../../grammar/MeaningsSpecs/index.html#region">region</a>;
  <a href="../../grammar/MeaningsSpecs/index.html#reserve">reserve</a> = script.header.<a href="../../grammar/MeaningsSpecs/index.html#reserve">reserve</a>;
  <a href="../../grammar/MeaningsSpecs/index.html#parts">parts</a> = map <a href="../../grammar/MeaningsSpecs/index.html#part_meaning">part_meaning</a> (<a href="../../grammar/PartsSpecs/index.html#parts_in">parts_in</a> script.parts);
}

-- two scripts say the same
abbrev pub <b id="HaveSameMeaning">HaveSameMeaning</b> : Script → Script → Type 0
<a href="../../grammar/MeaningsSpecs/index.html#HaveSameMeaning">HaveSameMeaning</a> script script&#x27; = <a href="../../grammar/MeaningsSpecs/index.html#script_meaning">script_meaning</a> script ≡ <a href="../../grammar/MeaningsSpecs/index.html#script_meaning">script_meaning</a> script&#x27;

-- two scripts that one text writes say the same
abbrev pub <b id="TextsWriteOneScript">TextsWriteOneScript</b> : Type 0
<a href="../../grammar/MeaningsSpecs/index.html#TextsWriteOneScript">TextsWriteOneScript</a> = (text : List ℕ) (script script&#x27; : Script) → <a href="../../grammar/LinesSpecs/index.html#WritesScript">WritesScript</a> text script → <a href="../../grammar/LinesSpecs/index.html#WritesScript">WritesScript</a> text script&#x27;
    → <a href="../../grammar/MeaningsSpecs/index.html#HaveSameMeaning">HaveSameMeaning</a> script script&#x27;

-- the first bad line of a text is one number
abbrev pub <b id="FirstBadLinesAreOne">FirstBadLinesAreOne</b> : Type 0
<a href="../../grammar/MeaningsSpecs/index.html#FirstBadLinesAreOne">FirstBadLinesAreOne</a> = (text : List ℕ) (number number&#x27; : ℕ) → <a href="../../grammar/LinesSpecs/index.html#IsFirstBadLine">IsFirstBadLine</a> text number → <a href="../../grammar/LinesSpecs/index.html#IsFirstBadLine">IsFirstBadLine</a> text number&#x27;
    → number ≡ number&#x27;

-- a text that writes a script has no bad line
abbrev pub <b id="WrittenTextsHaveNoBadLine">WrittenTextsHaveNoBadLine</b> : Type 0
<a href="../../grammar/MeaningsSpecs/index.html#WrittenTextsHaveNoBadLine">WrittenTextsHaveNoBadLine</a> =
    (text : List ℕ) (script : Script) (number : ℕ) → <a href="../../grammar/LinesSpecs/index.html#WritesScript">WritesScript</a> text script → ¬ (<a href="../../grammar/LinesSpecs/index.html#IsFirstBadLine">IsFirstBadLine</a> text number)
</code></pre>
"####]
    pub mod MeaningsSpecs {}
    #[doc = r####"The calls of a script by parts, which \`as\` lines separate, and the places of the parts in the list of all calls.

<pre><code>use Rattle.std.specs.Prelude.{◌≡◌, ◌≤◌, ◌-◌, ℕ, List, [], ◌∷◌, ◌++◌, take, drop, length, flat_map}
use Rattle.wasmi_machine.specs.declared.calls.Call.{Call}
use Rattle.wasmi_grammar.specs.declared.script.Span.{Span}

-- the calls between two `as` lines, and whose they are
pub record <b id="TenantRun">TenantRun</b> : Type 0 where
  pub <b id="tenant">tenant</b> : ℕ
  pub <b id="calls">calls</b> : List Call

-- the parts before the last `as` line; after it, the tenant that it names and the calls so far
pub record <b id="PartsValue">PartsValue</b> : Type 0 where
  pub <b id="earlier">earlier</b> : List <a href="../../grammar/PartsSpecs/index.html#TenantRun">TenantRun</a>
  pub <b id="tenant">tenant</b> : ℕ
  pub <b id="calls">calls</b> : List Call

-- all parts, in order: without an `as` line there is one
abbrev pub <b id="parts_in">parts_in</b> : <a href="../../grammar/PartsSpecs/index.html#PartsValue">PartsValue</a> → List <a href="../../grammar/PartsSpecs/index.html#TenantRun">TenantRun</a>
<a href="../../grammar/PartsSpecs/index.html#parts_in">parts_in</a> parts = parts.earlier ++ record { <a href="../../grammar/PartsSpecs/index.html#tenant">tenant</a> = parts.tenant; <a href="../../grammar/PartsSpecs/index.html#calls">calls</a> = parts.calls } ∷ []

-- the calls of parts, in order
abbrev pub <b id="calls_in">calls_in</b> : List <a href="../../grammar/PartsSpecs/index.html#TenantRun">TenantRun</a> → List Call
<a href="../../grammar/PartsSpecs/index.html#calls_in">calls_in</a> parts = flat_map (λ part. part.calls) parts

-- the part whose calls stand at these places of a list
abbrev pub <b id="part_at">part_at</b> : List Call → Span → <a href="../../grammar/PartsSpecs/index.html#TenantRun">TenantRun</a>
<a href="../../grammar/PartsSpecs/index.html#part_at">part_at</a> <a href="../../grammar/PartsSpecs/index.html#calls">calls</a> span = record { <a href="../../grammar/PartsSpecs/index.html#tenant">tenant</a> = span.tenant; <a href="../../grammar/PartsSpecs/index.html#calls">calls</a> = take (span.end - span.start) (drop span.start <a href="../../grammar/PartsSpecs/index.html#calls">calls</a>) }

-- places of a list that follow one another, from one place on and up to another one
abbrev pub <b id="Follow">Follow</b> : ℕ → List Span → ℕ → Type 0
<a href="../../grammar/PartsSpecs/index.html#Follow">Follow</a> from [] to = from ≡ to
<a href="../../grammar/PartsSpecs/index.html#Follow">Follow</a> from (span ∷ later) to = (span.start ≡ from) × (from ≤ span.end) × <a href="../../grammar/PartsSpecs/index.html#Follow">Follow</a> span.end later to

-- the earlier parts have the calls up to a place of a list, one after another
pub record <b id="AreCut">AreCut</b> (spans : List Span) (start : ℕ) (<a href="../../grammar/PartsSpecs/index.html#calls">calls</a> : List Call) : Type 0 where
  pub <b id="follow">follow</b> : <a href="../../grammar/PartsSpecs/index.html#Follow">Follow</a> 0 spans start
  pub <b id="within">within</b> : start ≤ length <a href="../../grammar/PartsSpecs/index.html#calls">calls</a>
</code></pre>
"####]
    pub mod PartsSpecs {}
}
/// Definitions of `wasmi_script`.
pub mod script {
    #[doc = r####"Outcomes that a reader's bytes decide, where memory isn't refused, and runs under answers that accept each notice.

<pre><code>use Rattle.std.specs.Prelude.{◌≡◌, ⊤, ℕ, List, All, Option, Some, Ok, Err}
use Rattle.wasmi_machine.specs.Determinism.{<a href="../../machine/DeterminismSpecs/index.html#IsNotOutOfMemory">IsNotOutOfMemory</a>, <a href="../../machine/DeterminismSpecs/index.html#StaysAccepting">StaysAccepting</a>}
use Rattle.wasmi_script.specs.declared.error.ReplayError.TheVariants.{Parse, ReadFault}
use Rattle.wasmi_grammar.specs.declared.error.ParseError.TheVariants.{OutOfMemory}
use Rattle.wasmi_grammar.specs.declared.header.LimiterLine.{LimiterLine}
use Rattle.wasmi_grammar.specs.declared.header.LimiterLine.TheVariants.{Answers}
use Rattle.wasmi_meter.specs.AnswerList.{<a href="../../meter/AnswerListSpecs/index.html#notice_answer_by">notice_answer_by</a>, <a href="../../meter/AnswerListSpecs/index.html#AnswersAhead">AnswersAhead</a>, <a href="../../meter/AnswerListSpecs/index.html#answer_list_rules">answer_list_rules</a>}
use Rattle.wasmi_script.specs.Outcomes.{<a href="../../script/OutcomesSpecs/index.html#ReplayOutcome">ReplayOutcome</a>, <a href="../../script/OutcomesSpecs/index.html#IsOutcomeOf">IsOutcomeOf</a>, <a href="../../script/OutcomesSpecs/index.html#outcome_text">outcome_text</a>, <a href="../../script/OutcomesSpecs/index.html#status_after">status_after</a>}
use Rattle.wasmi_meter.specs.Limiter.{<a href="../../meter/LimiterSpecs/index.html#optional_rules">optional_rules</a>}
use Rattle.wasmi_machine.specs.declared.{calls.Call.Call, calls.Reply.Reply}
use Rattle.wasmi_machine.specs.State.{<a href="../../machine/StateSpecs/index.html#State">State</a>, <a href="../../machine/StateSpecs/index.html#World">World</a>, <a href="../../machine/StateSpecs/index.html#world">world</a>}
use Rattle.wasmi_machine.specs.Steps.{<a href="../../machine/StepsSpecs/index.html#IsRunOf">IsRunOf</a>}

-- no word of an `answers` line is `complain`: each notice is accepted
abbrev pub <b id="HasNoComplain">HasNoComplain</b> : Option LimiterLine → Type 0
<a href="../../script/DecidedSpecs/index.html#HasNoComplain">HasNoComplain</a> (Some (Answers words)) = All (λ word. <a href="../../meter/AnswerListSpecs/index.html#notice_answer_by">notice_answer_by</a> word ≡ Ok tt) words.items
<a href="../../script/DecidedSpecs/index.html#HasNoComplain">HasNoComplain</a> limiter = ⊤

-- Memory isn&#x27;t refused and the reader doesn&#x27;t fail: no reply says out of memory, and no word is `complain`, so that no
-- notice of it is answered by another error.
abbrev pub <b id="IsDecided">IsDecided</b> : <a href="../../script/OutcomesSpecs/index.html#ReplayOutcome">ReplayOutcome</a> → Type 0
<a href="../../script/DecidedSpecs/index.html#IsDecided">IsDecided</a> (Ok replayed) = All <a href="../../machine/DeterminismSpecs/index.html#IsNotOutOfMemory">IsNotOutOfMemory</a> replayed.ran.replies.items × <a href="../../script/DecidedSpecs/index.html#HasNoComplain">HasNoComplain</a> replayed.script.header.limiter_line
<a href="../../script/DecidedSpecs/index.html#IsDecided">IsDecided</a> (Err (Parse OutOfMemory)) = ⊥
<a href="../../script/DecidedSpecs/index.html#IsDecided">IsDecided</a> (Err ReadFault) = ⊥
<a href="../../script/DecidedSpecs/index.html#IsDecided">IsDecided</a> (Err error) = ⊤

-- two outcomes print the same text and end in the same way
pub record <b id="EndAlike">EndAlike</b> (outcome outcome&#x27; : <a href="../../script/OutcomesSpecs/index.html#ReplayOutcome">ReplayOutcome</a>) : Type 0 where
  pub <b id="text">text</b> : <a href="../../script/OutcomesSpecs/index.html#outcome_text">outcome_text</a> outcome ≡ <a href="../../script/OutcomesSpecs/index.html#outcome_text">outcome_text</a> outcome&#x27;
  pub <b id="status">status</b> : <a href="../../script/OutcomesSpecs/index.html#status_after">status_after</a> outcome ≡ <a href="../../script/OutcomesSpecs/index.html#status_after">status_after</a> outcome&#x27;

-- two outcomes of the same bytes that these decide end alike
abbrev pub <b id="OutcomesAreOne">OutcomesAreOne</b> : Type 0
<a href="../../script/DecidedSpecs/index.html#OutcomesAreOne">OutcomesAreOne</a> =
    (bytes : List ℕ) (outcome outcome&#x27; : <a href="../../script/OutcomesSpecs/index.html#ReplayOutcome">ReplayOutcome</a>) → <a href="../../script/OutcomesSpecs/index.html#IsOutcomeOf">IsOutcomeOf</a> bytes outcome → <a href="../../script/OutcomesSpecs/index.html#IsOutcomeOf">IsOutcomeOf</a> bytes outcome&#x27;
    → <a href="../../script/DecidedSpecs/index.html#IsDecided">IsDecided</a> outcome → <a href="../../script/DecidedSpecs/index.html#IsDecided">IsDecided</a> outcome&#x27; → <a href="../../script/DecidedSpecs/index.html#EndAlike">EndAlike</a> outcome outcome&#x27;

-- a limiter whose answers, with the last one that was given, let each notice be accepted: none of them is `Complain`
pub record <b id="NeverComplains">NeverComplains</b> (list : <a href="../../meter/AnswerListSpecs/index.html#AnswersAhead">AnswersAhead</a>) : Type 0 where
  pub <b id="ahead">ahead</b> : All (λ answer. <a href="../../meter/AnswerListSpecs/index.html#notice_answer_by">notice_answer_by</a> answer ≡ Ok tt) list.ahead
  pub <b id="last">last</b> : <a href="../../meter/AnswerListSpecs/index.html#notice_answer_by">notice_answer_by</a> list.last ≡ Ok tt

-- a limiter that never complains accepts each notice, and stays one
abbrev pub <b id="QuietListsAcceptNotices">QuietListsAcceptNotices</b> : Type 0
<a href="../../script/DecidedSpecs/index.html#QuietListsAcceptNotices">QuietListsAcceptNotices</a> = <a href="../../machine/DeterminismSpecs/index.html#StaysAccepting">StaysAccepting</a> <a href="../../meter/AnswerListSpecs/index.html#answer_list_rules">answer_list_rules</a> <a href="../../script/DecidedSpecs/index.html#NeverComplains">NeverComplains</a>

-- two runs of one list of calls from one machine under a limiter that never complains, in which no reply says out of
-- memory, have the same replies and end in one world
abbrev pub <b id="QuietListsDecideReplies">QuietListsDecideReplies</b> : Type 0
<a href="../../script/DecidedSpecs/index.html#QuietListsDecideReplies">QuietListsDecideReplies</a> = (calls : List Call) (s : <a href="../../machine/StateSpecs/index.html#State">State</a>) (list : <a href="../../meter/AnswerListSpecs/index.html#AnswersAhead">AnswersAhead</a>) → <a href="../../script/DecidedSpecs/index.html#NeverComplains">NeverComplains</a> list
    → (replies replies&#x27; : List Reply) (v v&#x27; : <a href="../../machine/StateSpecs/index.html#World">World</a> (Option <a href="../../meter/AnswerListSpecs/index.html#AnswersAhead">AnswersAhead</a>))
    → All <a href="../../machine/DeterminismSpecs/index.html#IsNotOutOfMemory">IsNotOutOfMemory</a> replies → All <a href="../../machine/DeterminismSpecs/index.html#IsNotOutOfMemory">IsNotOutOfMemory</a> replies&#x27;
    → <a href="../../machine/StepsSpecs/index.html#IsRunOf">IsRunOf</a> (<a href="../../meter/LimiterSpecs/index.html#optional_rules">optional_rules</a> <a href="../../meter/AnswerListSpecs/index.html#answer_list_rules">answer_list_rules</a>) calls (<a href="../../machine/StateSpecs/index.html#world">world</a> s (Some list)) replies v
    → <a href="../../machine/StepsSpecs/index.html#IsRunOf">IsRunOf</a> (<a href="../../meter/LimiterSpecs/index.html#optional_rules">optional_rules</a> <a href="../../meter/AnswerListSpecs/index.html#answer_list_rules">answer_list_rules</a>) calls (<a href="../../machine/StateSpecs/index.html#world">world</a> s (Some list)) replies&#x27; v&#x27;
    → (replies ≡ replies&#x27;) × (v ≡ v&#x27;)
</code></pre>
"####]
    pub mod DecidedSpecs {}
    #[doc = r####"The outcome of a replay: the text that is printed of it, with what is held, the errors of reading, and its status.

<pre><code>use Rattle.std.specs.Prelude.{ℕ, Result, Ok, Err, ◌&lt;◌, ⊤, List, Option, None, Some, IfSome, length, ◌≡◌, ◌≤◌, ◌⊎◌, [], ◌++◌, codes, flat_map, decimal}
use Rattle.wasmi_script.specs.declared.{error.ReplayError.ReplayError, replaying.Status.Status, replaying.Held.Held, printing.Replayed.Replayed}
use Rattle.wasmi_script.specs.declared.error.ReplayError.TheVariants.{Parse, TooLong, ReadFault}
use Rattle.wasmi_script.specs.declared.replaying.Status.TheVariants.{Answered, BadScript, OutOfMemory, Fault}
use Rattle.std.specs.Io.KnownBytes.{Appends}
use Rattle.std.specs.List.{zip, enumerate_from}
use Rattle.wasmi_meter.specs.declared.limiter.Kind.TheVariants.{Bytes, Elements}
use Rattle.wasmi_machine.specs.declared.{calls.Call.Call, calls.Reply.Reply}
use Rattle.wasmi_machine.specs.State.{<a href="../../machine/StateSpecs/index.html#State">State</a>, <a href="../../machine/StateSpecs/index.html#total">total</a>}
use Rattle.wasmi_script.specs.declared.replaying.Held.TheVariants.{<a href="../../machine/ExchangeSpecs/index.html#Nothing">Nothing</a>, Quota, Tenants}
use Rattle.wasmi_grammar.specs.Lines.{<a href="../../grammar/LinesSpecs/index.html#WritesScript">WritesScript</a>, <a href="../../grammar/LinesSpecs/index.html#calls_of">calls_of</a>, <a href="../../grammar/LinesSpecs/index.html#IsFirstBadLine">IsFirstBadLine</a>}
use Rattle.wasmi_script.specs.Printing.{<a href="../../script/PrintingSpecs/index.html#AppendsFront">AppendsFront</a>, <a href="../../script/PrintingSpecs/index.html#line">line</a>}
use Rattle.wasmi_script.specs.ScriptRuns.{<a href="../../script/ScriptRunsSpecs/index.html#IsReplayOf">IsReplayOf</a>}
use Rattle.wasmi_script.specs.Texts.{<a href="../../script/TextsSpecs/index.html#reply_text">reply_text</a>, <a href="../../script/TextsSpecs/index.html#error_text">error_text</a>}
use Rattle.wasmi_grammar.specs.declared.error.ParseError.TheVariants as Errors

-- the number that a process ends with
abbrev pub <b id="status_number">status_number</b> : Status → ℕ
<a href="../../script/OutcomesSpecs/index.html#status_number">status_number</a> Answered = 0
<a href="../../script/OutcomesSpecs/index.html#status_number">status_number</a> BadScript = 2
<a href="../../script/OutcomesSpecs/index.html#status_number">status_number</a> OutOfMemory = 3
<a href="../../script/OutcomesSpecs/index.html#status_number">status_number</a> Fault = 4

-- how a replay ends whose lines could be printed
abbrev pub <b id="status_after">status_after</b> : {A : Type 0} → Result A ReplayError → Status
<a href="../../script/OutcomesSpecs/index.html#status_after">status_after</a> (Ok replayed) = Answered
<a href="../../script/OutcomesSpecs/index.html#status_after">status_after</a> (Err (Parse (Errors.BadCommand <a href="../../script/PrintingSpecs/index.html#line">line</a>))) = BadScript
<a href="../../script/OutcomesSpecs/index.html#status_after">status_after</a> (Err (Parse Errors.OutOfMemory)) = OutOfMemory
<a href="../../script/OutcomesSpecs/index.html#status_after">status_after</a> (Err TooLong) = BadScript
<a href="../../script/OutcomesSpecs/index.html#status_after">status_after</a> (Err ReadFault) = Fault

-- the most bytes that a script may have
abbrev pub <b id="script_limit">script_limit</b> : ℕ
<a href="../../script/OutcomesSpecs/index.html#script_limit">script_limit</a> = 1048576

-- why the bytes that a reader has left aren&#x27;t read; a fault only if it has failed
abbrev pub <b id="IsReadError">IsReadError</b> : Option (List ℕ) → Type 0 → ReplayError → Type 0
<a href="../../script/OutcomesSpecs/index.html#IsReadError">IsReadError</a> left failed (Parse (Errors.BadCommand number)) = ⊥
<a href="../../script/OutcomesSpecs/index.html#IsReadError">IsReadError</a> left failed (Parse Errors.OutOfMemory) = ⊤
<a href="../../script/OutcomesSpecs/index.html#IsReadError">IsReadError</a> left failed TooLong = IfSome left (λ bytes. <a href="../../script/OutcomesSpecs/index.html#script_limit">script_limit</a> &lt; length bytes)
<a href="../../script/OutcomesSpecs/index.html#IsReadError">IsReadError</a> left failed ReadFault = failed

-- a line for each call, with its reply
abbrev pub <b id="replies_text">replies_text</b> : List Call → List Reply → List ℕ
<a href="../../script/OutcomesSpecs/index.html#replies_text">replies_text</a> calls replies = flat_map (λ turn. <a href="../../script/PrintingSpecs/index.html#line">line</a> (<a href="../../script/TextsSpecs/index.html#reply_text">reply_text</a> turn.0 turn.1)) (zip calls replies)

-- the line of a tenant; none where it was removed
abbrev pub <b id="tenant_line">tenant_line</b> : ℕ → Option <a href="../../machine/StateSpecs/index.html#State">State</a> → List ℕ
<a href="../../script/OutcomesSpecs/index.html#tenant_line">tenant_line</a> index (Some machine) =
    <a href="../../script/PrintingSpecs/index.html#line">line</a> (codes "held " ++ (decimal index
    ++ (codes " " ++ (decimal (<a href="../../machine/StateSpecs/index.html#total">total</a> machine Bytes) ++ (codes " " ++ decimal (<a href="../../machine/StateSpecs/index.html#total">total</a> machine Elements))))))
<a href="../../script/OutcomesSpecs/index.html#tenant_line">tenant_line</a> index None = []

-- a line for each tenant
abbrev pub <b id="tenants_text">tenants_text</b> : List (Option <a href="../../machine/StateSpecs/index.html#State">State</a>) → List ℕ
<a href="../../script/OutcomesSpecs/index.html#tenants_text">tenants_text</a> machines = flat_map (λ tenant. <a href="../../script/OutcomesSpecs/index.html#tenant_line">tenant_line</a> tenant.0 tenant.1) (enumerate_from 0 machines)

-- what is held after a run
abbrev pub <b id="held_text">held_text</b> : Held → List ℕ
<a href="../../script/OutcomesSpecs/index.html#held_text">held_text</a> <a href="../../machine/ExchangeSpecs/index.html#Nothing">Nothing</a> = []
<a href="../../script/OutcomesSpecs/index.html#held_text">held_text</a> (Quota held) = <a href="../../script/PrintingSpecs/index.html#line">line</a> (codes "held " ++ (decimal held.bytes ++ (codes " " ++ decimal held.elements)))
<a href="../../script/OutcomesSpecs/index.html#held_text">held_text</a> (Tenants pool) = <a href="../../script/OutcomesSpecs/index.html#tenants_text">tenants_text</a> pool.machines

-- a script with its replies, or why it isn&#x27;t run
abbrev pub <b id="ReplayOutcome">ReplayOutcome</b> : Type 0
<a href="../../script/OutcomesSpecs/index.html#ReplayOutcome">ReplayOutcome</a> = Result Replayed ReplayError

-- what is printed: the replies and what is held then, or why the script isn&#x27;t run
abbrev pub <b id="outcome_text">outcome_text</b> : <a href="../../script/OutcomesSpecs/index.html#ReplayOutcome">ReplayOutcome</a> → List ℕ
<a href="../../script/OutcomesSpecs/index.html#outcome_text">outcome_text</a> (Ok replayed) =
    <a href="../../script/OutcomesSpecs/index.html#replies_text">replies_text</a> (<a href="../../grammar/LinesSpecs/index.html#calls_of">calls_of</a> replayed.script) replayed.ran.replies.items ++ <a href="../../script/OutcomesSpecs/index.html#held_text">held_text</a> replayed.ran.held
<a href="../../script/OutcomesSpecs/index.html#outcome_text">outcome_text</a> (Err error) = <a href="../../script/PrintingSpecs/index.html#line">line</a> (<a href="../../script/TextsSpecs/index.html#error_text">error_text</a> error)

-- The outcome of some bytes: a run of the script that they write, a line that is no command, or that they are too
-- many. Memory may be refused at any script.
abbrev pub <b id="IsOutcomeOf">IsOutcomeOf</b> : List ℕ → <a href="../../script/OutcomesSpecs/index.html#ReplayOutcome">ReplayOutcome</a> → Type 0
<a href="../../script/OutcomesSpecs/index.html#IsOutcomeOf">IsOutcomeOf</a> bytes (Ok replayed) =
    (length bytes ≤ <a href="../../script/OutcomesSpecs/index.html#script_limit">script_limit</a>) × <a href="../../grammar/LinesSpecs/index.html#WritesScript">WritesScript</a> bytes replayed.script × <a href="../../script/ScriptRunsSpecs/index.html#IsReplayOf">IsReplayOf</a> replayed.script replayed.ran
<a href="../../script/OutcomesSpecs/index.html#IsOutcomeOf">IsOutcomeOf</a> bytes (Err (Parse (Errors.BadCommand number))) = (length bytes ≤ <a href="../../script/OutcomesSpecs/index.html#script_limit">script_limit</a>) × <a href="../../grammar/LinesSpecs/index.html#IsFirstBadLine">IsFirstBadLine</a> bytes number
<a href="../../script/OutcomesSpecs/index.html#IsOutcomeOf">IsOutcomeOf</a> bytes (Err (Parse Errors.OutOfMemory)) = ⊤
<a href="../../script/OutcomesSpecs/index.html#IsOutcomeOf">IsOutcomeOf</a> bytes (Err TooLong) = <a href="../../script/OutcomesSpecs/index.html#script_limit">script_limit</a> &lt; length bytes
<a href="../../script/OutcomesSpecs/index.html#IsOutcomeOf">IsOutcomeOf</a> bytes (Err ReadFault) = ⊥

-- the outcome of a reader: a fault if it has failed, else an outcome of some bytes, which are its own where it tells them
abbrev pub <b id="IsOutcomeOfReader">IsOutcomeOfReader</b> : Option (List ℕ) → Type 0 → <a href="../../script/OutcomesSpecs/index.html#ReplayOutcome">ReplayOutcome</a> → Type 0
<a href="../../script/OutcomesSpecs/index.html#IsOutcomeOfReader">IsOutcomeOfReader</a> given failed (Err ReadFault) = failed
<a href="../../script/OutcomesSpecs/index.html#IsOutcomeOfReader">IsOutcomeOfReader</a> given failed <a href="../../script/OutcomesSpecs/index.html#outcome">outcome</a> =
    (bytes : List ℕ) × IfSome given (λ told. told ≡ bytes) × <a href="../../script/OutcomesSpecs/index.html#IsOutcomeOf">IsOutcomeOf</a> bytes <a href="../../script/OutcomesSpecs/index.html#outcome">outcome</a>

-- the writer has the whole text and is flushed, and the status is the outcome&#x27;s; or it has a front, and failed
abbrev pub <b id="PrintsOutcome">PrintsOutcome</b> : Option (List ℕ) → Option (List ℕ) → Type 0 → <a href="../../script/OutcomesSpecs/index.html#ReplayOutcome">ReplayOutcome</a> → Status → Type 0
<a href="../../script/OutcomesSpecs/index.html#PrintsOutcome">PrintsOutcome</a> old new flushed <a href="../../script/OutcomesSpecs/index.html#outcome">outcome</a> status =
    (Appends old new (<a href="../../script/OutcomesSpecs/index.html#outcome_text">outcome_text</a> <a href="../../script/OutcomesSpecs/index.html#outcome">outcome</a>) × flushed × (status ≡ <a href="../../script/OutcomesSpecs/index.html#status_after">status_after</a> <a href="../../script/OutcomesSpecs/index.html#outcome">outcome</a>))
    ⊎ (<a href="../../script/PrintingSpecs/index.html#AppendsFront">AppendsFront</a> old new (<a href="../../script/OutcomesSpecs/index.html#outcome_text">outcome_text</a> <a href="../../script/OutcomesSpecs/index.html#outcome">outcome</a>) × (status ≡ Fault))

-- a script has an outcome of this kind, and a writer has got it
pub record <b id="Replays">Replays</b> (IsOutcome : <a href="../../script/OutcomesSpecs/index.html#ReplayOutcome">ReplayOutcome</a> → Type 0) (old new : Option (List ℕ)) (flushed : Type 0)
    (status : Status) : Type 0 where
  pub <b id="outcome">outcome</b> : <a href="../../script/OutcomesSpecs/index.html#ReplayOutcome">ReplayOutcome</a>
  pub <b id="of_script">of_script</b> : IsOutcome <a href="../../script/OutcomesSpecs/index.html#outcome">outcome</a>
  pub <b id="printed">printed</b> : <a href="../../script/OutcomesSpecs/index.html#PrintsOutcome">PrintsOutcome</a> old new flushed <a href="../../script/OutcomesSpecs/index.html#outcome">outcome</a> status
</code></pre>
"####]
    pub mod OutcomesSpecs {}
    #[doc = r####"A text as a line, and what of a text reaches a writer by a printer, or the front of bytes.

<pre><code>use Rattle.std.specs.Prelude.{◌≡◌, ◌&lt;◌, ℕ, List, ◌++◌, codes, length, IfSome, OnOk, OnErr, Result, Ok, Err, Option, ◌-◌, ◌^◌, take, drop, min}
use Rattle.std.specs.Io.KnownBytes.{Appends}
use Rattle.wasmi_script.specs.declared.printing.Printer.{Printer}
use Rattle.wasmi_script.specs.declared.printing.TheConstants.{LONGEST}

-- a text as a line
abbrev pub <b id="line">line</b> : List ℕ → List ℕ
<a href="../../script/PrintingSpecs/index.html#line">line</a> text = text ++ codes "\n"

-- a text, where it is known, that may be printed at once
abbrev pub <b id="IsShort">IsShort</b> : Option (List ℕ) → Type 0
<a href="../../script/PrintingSpecs/index.html#IsShort">IsShort</a> output = IfSome output (λ text. length text &lt; LONGEST)

-- known bytes grow by the front of a text, up to some place in it
abbrev pub <b id="AppendsFront">AppendsFront</b> : Option (List ℕ) → Option (List ℕ) → List ℕ → Type 0
<a href="../../script/PrintingSpecs/index.html#AppendsFront">AppendsFront</a> old new text = (<a href="../../script/PrintingSpecs/index.html#front">front</a> : List ℕ) × (rest : List ℕ) × (text ≡ <a href="../../script/PrintingSpecs/index.html#front">front</a> ++ rest) × Appends old new <a href="../../script/PrintingSpecs/index.html#front">front</a>

-- a text comes after what waits: known bytes grow by the front of both, and the rest waits
abbrev pub <b id="AddsText">AddsText</b> : Option (List ℕ) → Option (List ℕ) → List ℕ → List ℕ → List ℕ → Type 0
<a href="../../script/PrintingSpecs/index.html#AddsText">AddsText</a> old new waiting waiting&#x27; text =
    (<a href="../../script/PrintingSpecs/index.html#front">front</a> : List ℕ) × (waiting ++ text ≡ <a href="../../script/PrintingSpecs/index.html#front">front</a> ++ waiting&#x27;) × Appends old new <a href="../../script/PrintingSpecs/index.html#front">front</a>

-- A printer before and after a text is printed, by the bytes that its writer is known to have: it keeps its writer,
-- and the text comes after what waits.
pub record <b id="Prints">Prints</b> {W : Type 0} (contents : W → Option (List ℕ)) (old new : Printer W) (text : List ℕ) : Type 0 where
  pub <b id="writer">writer</b> : new.writer.ghost_name ≡ old.writer.ghost_name
  pub <b id="passed">passed</b> : <a href="../../script/PrintingSpecs/index.html#AddsText">AddsText</a> (contents old.writer.now) (contents new.writer.now) old.chunk.bytes new.chunk.bytes text

-- a text is printed in part: the writer gets the front of what waits and of the text
pub record <b id="PrintsFront">PrintsFront</b> {W : Type 0} (contents : W → Option (List ℕ)) (old new : Printer W)
    (text : List ℕ) : Type 0 where
  pub <b id="writer">writer</b> : new.writer.ghost_name ≡ old.writer.ghost_name
  pub <b id="sent">sent</b> : <a href="../../script/PrintingSpecs/index.html#AppendsFront">AppendsFront</a> (contents old.writer.now) (contents new.writer.now) (old.chunk.bytes ++ text)

-- a text is printed, or in part where the writer fails
abbrev pub <b id="PrintsText">PrintsText</b> : {W E : Type 0} → (W → Option (List ℕ)) → List ℕ → Printer W → Result (Unit {0}) E → Printer W
    → Type 0
<a href="../../script/PrintingSpecs/index.html#PrintsText">PrintsText</a> contents text old result new =
    OnOk result (<a href="../../script/PrintingSpecs/index.html#Prints">Prints</a> contents old new text) × OnErr result (<a href="../../script/PrintingSpecs/index.html#PrintsFront">PrintsFront</a> contents old new text)

-- what waits is out
pub record <b id="Sends">Sends</b> {W : Type 0} (contents : W → Option (List ℕ)) (old new : Printer W) : Type 0 where
  pub <b id="writer">writer</b> : new.writer.ghost_name ≡ old.writer.ghost_name
  pub <b id="sent">sent</b> : Appends (contents old.writer.now) (contents new.writer.now) old.chunk.bytes

-- a front of what waits is out
pub record <b id="SendsFront">SendsFront</b> {W : Type 0} (contents : W → Option (List ℕ)) (old new : Printer W) : Type 0 where
  pub <b id="writer">writer</b> : new.writer.ghost_name ≡ old.writer.ghost_name
  pub <b id="sent">sent</b> : <a href="../../script/PrintingSpecs/index.html#AppendsFront">AppendsFront</a> (contents old.writer.now) (contents new.writer.now) old.chunk.bytes

-- what waits is out if all texts were printed, or a front of it where the writer fails; else nothing more goes out
abbrev pub <b id="Flushes">Flushes</b> : {W E : Type 0} → (W → Option (List ℕ)) → Result (Unit {0}) E → Printer W → Result (Unit {0}) E
    → Printer W → Type 0
<a href="../../script/PrintingSpecs/index.html#Flushes">Flushes</a> contents (Ok x) old (Ok y) new = <a href="../../script/PrintingSpecs/index.html#Sends">Sends</a> contents old new
<a href="../../script/PrintingSpecs/index.html#Flushes">Flushes</a> contents (Ok x) old (Err e) new = <a href="../../script/PrintingSpecs/index.html#SendsFront">SendsFront</a> contents old new
<a href="../../script/PrintingSpecs/index.html#Flushes">Flushes</a> contents (Err e) old (Ok y) new = ⊥
<a href="../../script/PrintingSpecs/index.html#Flushes">Flushes</a> contents (Err e) old (Err e&#x27;) new = new ≡ old

-- as much of a text as fits stands at the front of bytes, and those after it stay
abbrev pub <b id="FillsFront">FillsFront</b> : List ℕ → List ℕ → List ℕ → Type 0
<a href="../../script/PrintingSpecs/index.html#FillsFront">FillsFront</a> text old new = new ≡ take (length old) text ++ drop (length text) old

-- as much of a text as fits stands at the front of bytes, which are else as they were at the start, and a number is the
-- text&#x27;s length, or 2^64 - 1 if it is longer
pub record <b id="HasFront">HasFront</b> (text start bytes : List ℕ) (written : ℕ) : Type 0 where
  pub <b id="front">front</b> : <a href="../../script/PrintingSpecs/index.html#FillsFront">FillsFront</a> text start bytes
  pub <b id="count">count</b> : written ≡ min (length text) (2 ^ 64 - 1)

-- One text more is written to the front of bytes: whatever text was there before and whatever the bytes were at the
-- start, that text followed by this one is there afterwards.
abbrev pub <b id="AddsToFront">AddsToFront</b> : List ℕ → List ℕ → ℕ → List ℕ → ℕ → Type 0
<a href="../../script/PrintingSpecs/index.html#AddsToFront">AddsToFront</a> text bytes written bytes&#x27; written&#x27; = (before start : List ℕ) → <a href="../../script/PrintingSpecs/index.html#HasFront">HasFront</a> before start bytes written
    → <a href="../../script/PrintingSpecs/index.html#HasFront">HasFront</a> (before ++ text) start bytes&#x27; written&#x27;
</code></pre>
"####]
    pub mod PrintingSpecs {}
    #[doc = r####"What the run of a script returns, by its header lines: on a new machine under a limiter, or by parts on a new pool.

<pre><code>use Rattle.std.specs.Prelude.{◌≡◌, List, [], ◌∷◌, ◌++◌, Option, None, Some, replicate}
use Rattle.wasmi_meter.specs.Limiter.{<a href="../../meter/LimiterSpecs/index.html#optional_rules">optional_rules</a>, <a href="../../meter/LimiterSpecs/index.html#unlimited_rules">unlimited_rules</a>}
use Rattle.wasmi_meter.specs.declared.{limiter.NoLimits.NoLimits, quota.Quota.Quota, quota.Amounts.Amounts, answer_list.LimiterAnswer.LimiterAnswer}
use Rattle.wasmi_meter.specs.declared.limiter.Kind.TheVariants.{Bytes, Elements}
use Rattle.wasmi_meter.specs.Capped.{<a href="../../script/ScriptRunsSpecs/index.html#nothing">nothing</a>, <a href="../../meter/CappedSpecs/index.html#quota_rules">quota_rules</a>, <a href="../../meter/CappedSpecs/index.html#cap_of">cap_of</a>, <a href="../../meter/CappedSpecs/index.html#holdings">holdings</a>}
use Rattle.wasmi_machine.specs.declared.{calls.Call.Call, calls.Reply.Reply}
use Rattle.wasmi_machine.specs.State.{<a href="../../machine/StateSpecs/index.html#State">State</a>, <a href="../../machine/StateSpecs/index.html#World">World</a>, <a href="../../machine/StateSpecs/index.html#world">world</a>, <a href="../../machine/StateSpecs/index.html#HoldsTotals">HoldsTotals</a>}
use Rattle.wasmi_machine.specs.Steps.{<a href="../../machine/StepsSpecs/index.html#IsRunOf">IsRunOf</a>}
use Rattle.wasmi_budget.specs.Pool.{<a href="../../budget/PoolSpecs/index.html#PoolValue">PoolValue</a>, <a href="../../budget/PoolSpecs/index.html#RunsTenant">RunsTenant</a>}
use Rattle.wasmi_grammar.specs.declared.{header.Header.Header, script.Script.Script, header.LimiterLine.LimiterLine, header.TenantsLine.TenantsLine}
use Rattle.wasmi_grammar.specs.declared.header.LimiterLine.TheVariants as Lines
use Rattle.wasmi_grammar.specs.Lines.{<a href="../../grammar/LinesSpecs/index.html#calls_of">calls_of</a>}
use Rattle.wasmi_grammar.specs.Parts.{<a href="../../grammar/PartsSpecs/index.html#TenantRun">TenantRun</a>, <a href="../../grammar/PartsSpecs/index.html#parts_in">parts_in</a>}
use Rattle.wasmi_script.specs.declared.replaying.Held.TheVariants.{<a href="../../machine/ExchangeSpecs/index.html#Nothing">Nothing</a>}
use Rattle.wasmi_script.specs.declared.replaying.Held.TheVariants as Holding
use Rattle.wasmi_script.specs.declared.{replaying.Held.Held, replaying.Ran.Ran}
use Rattle.wasmi_meter.specs.AnswerList.{<a href="../../meter/AnswerListSpecs/index.html#AnswersAhead">AnswersAhead</a>, <a href="../../meter/AnswerListSpecs/index.html#answer_list_rules">answer_list_rules</a>, <a href="../../meter/AnswerListSpecs/index.html#new_answers">new_answers</a>}
use Rattle.wasmi_grammar.specs.Headers.{<a href="../../grammar/HeadersSpecs/index.html#start_of">start_of</a>, <a href="../../grammar/HeadersSpecs/index.html#tenant_start">tenant_start</a>}

-- a quota of these caps that holds nothing yet
pub record <b id="IsNewQuota">IsNewQuota</b> (caps : Amounts) (quota : Quota) : Type 0 where
  pub <b id="bytes">bytes</b> : <a href="../../meter/CappedSpecs/index.html#cap_of">cap_of</a> quota Bytes ≡ caps.bytes
  pub <b id="elements">elements</b> : <a href="../../meter/CappedSpecs/index.html#cap_of">cap_of</a> quota Elements ≡ caps.elements
  pub <b id="nothing">nothing</b> : <a href="../../meter/CappedSpecs/index.html#holdings">holdings</a> quota ≡ record { held = <a href="../../script/ScriptRunsSpecs/index.html#nothing">nothing</a>; last = None }

-- The replies, with what is held, are those of a run of the calls from a machine, under a limiter of these answers.
abbrev pub <b id="IsListedReplay">IsListedReplay</b> : List LimiterAnswer → <a href="../../machine/StateSpecs/index.html#State">State</a> → List Call → List Reply → Held → Type 0
<a href="../../script/ScriptRunsSpecs/index.html#IsListedReplay">IsListedReplay</a> answers start calls replies held = (held ≡ <a href="../../machine/ExchangeSpecs/index.html#Nothing">Nothing</a>) × (after : <a href="../../machine/StateSpecs/index.html#World">World</a> (Option <a href="../../meter/AnswerListSpecs/index.html#AnswersAhead">AnswersAhead</a>))
    × <a href="../../machine/StepsSpecs/index.html#IsRunOf">IsRunOf</a> (<a href="../../meter/LimiterSpecs/index.html#optional_rules">optional_rules</a> <a href="../../meter/AnswerListSpecs/index.html#answer_list_rules">answer_list_rules</a>) calls (<a href="../../machine/StateSpecs/index.html#world">world</a> start (Some (<a href="../../meter/AnswerListSpecs/index.html#new_answers">new_answers</a> answers))) replies after

-- The replies are those of a run of the calls on a new machine with the meter, the reserved slots and the region of
-- these header lines, without a limiter or under the one that a line asks for. What is held is what a quota then holds,
-- which is all that the machine has.
abbrev pub <b id="IsReplayOnOne">IsReplayOnOne</b> : Option LimiterLine → Header → List Call → Ran → Type 0
<a href="../../script/ScriptRunsSpecs/index.html#IsReplayOnOne">IsReplayOnOne</a> None header calls ran = (ran.held ≡ <a href="../../machine/ExchangeSpecs/index.html#Nothing">Nothing</a>) × (after : <a href="../../machine/StateSpecs/index.html#World">World</a> (Option NoLimits))
    × <a href="../../machine/StepsSpecs/index.html#IsRunOf">IsRunOf</a> (<a href="../../meter/LimiterSpecs/index.html#optional_rules">optional_rules</a> <a href="../../meter/LimiterSpecs/index.html#unlimited_rules">unlimited_rules</a>) calls (<a href="../../machine/StateSpecs/index.html#world">world</a> (<a href="../../grammar/HeadersSpecs/index.html#start_of">start_of</a> header) None) ran.replies.items after
<a href="../../script/ScriptRunsSpecs/index.html#IsReplayOnOne">IsReplayOnOne</a> (Some (Lines.Quota caps)) header calls ran =
    (quota : Quota) × <a href="../../script/ScriptRunsSpecs/index.html#IsNewQuota">IsNewQuota</a> caps quota × (end : <a href="../../machine/StateSpecs/index.html#State">State</a>) × (after : Quota)
    × <a href="../../machine/StepsSpecs/index.html#IsRunOf">IsRunOf</a> (<a href="../../meter/LimiterSpecs/index.html#optional_rules">optional_rules</a> <a href="../../meter/CappedSpecs/index.html#quota_rules">quota_rules</a>) calls (<a href="../../machine/StateSpecs/index.html#world">world</a> (<a href="../../grammar/HeadersSpecs/index.html#start_of">start_of</a> header) (Some quota)) ran.replies.items
    (<a href="../../machine/StateSpecs/index.html#world">world</a> end (Some after)) × <a href="../../machine/StateSpecs/index.html#HoldsTotals">HoldsTotals</a> (<a href="../../meter/CappedSpecs/index.html#holdings">holdings</a> after) end × (ran.held ≡ Holding.Quota (<a href="../../meter/CappedSpecs/index.html#holdings">holdings</a> after).held)
<a href="../../script/ScriptRunsSpecs/index.html#IsReplayOnOne">IsReplayOnOne</a> (Some (Lines.Answers answers)) header calls ran =
    <a href="../../script/ScriptRunsSpecs/index.html#IsListedReplay">IsListedReplay</a> answers.items (<a href="../../grammar/HeadersSpecs/index.html#start_of">start_of</a> header) calls ran.replies.items ran.held
<a href="../../script/ScriptRunsSpecs/index.html#IsReplayOnOne">IsReplayOnOne</a> (Some (Lines.Tenants line)) header calls ran = ⊥

-- a pool of new machines, as many as a line says, under its caps
abbrev pub <b id="new_pool">new_pool</b> : TenantsLine → <a href="../../machine/StateSpecs/index.html#State">State</a> → <a href="../../budget/PoolSpecs/index.html#PoolValue">PoolValue</a>
<a href="../../script/ScriptRunsSpecs/index.html#new_pool">new_pool</a> line start = record { caps = line.caps; machines = replicate line.count (Some start) }

-- the parts are run one after another, each in one run of its tenant, and the replies are those to the parts in turn
abbrev pub <b id="AnswersParts">AnswersParts</b> : <a href="../../budget/PoolSpecs/index.html#PoolValue">PoolValue</a> → List <a href="../../grammar/PartsSpecs/index.html#TenantRun">TenantRun</a> → List Reply → <a href="../../budget/PoolSpecs/index.html#PoolValue">PoolValue</a> → Type 0
<a href="../../script/ScriptRunsSpecs/index.html#AnswersParts">AnswersParts</a> pool [] replies pool&#x27; = (replies ≡ []) × (pool&#x27; ≡ pool)
<a href="../../script/ScriptRunsSpecs/index.html#AnswersParts">AnswersParts</a> pool (part ∷ parts) replies pool&#x27; =
    (answered : List Reply) × (later : List Reply) × (middle : <a href="../../budget/PoolSpecs/index.html#PoolValue">PoolValue</a>) × (replies ≡ answered ++ later)
    × <a href="../../budget/PoolSpecs/index.html#RunsTenant">RunsTenant</a> pool part.tenant part.calls answered middle × <a href="../../script/ScriptRunsSpecs/index.html#AnswersParts">AnswersParts</a> middle parts later pool&#x27;

-- The replies are those of the parts, one after another, on a pool of new machines with the script&#x27;s meter and its
-- reserved slots. What is held is what the pool&#x27;s machines have then.
abbrev pub <b id="IsPoolReplay">IsPoolReplay</b> : TenantsLine → Script → Ran → Type 0
<a href="../../script/ScriptRunsSpecs/index.html#IsPoolReplay">IsPoolReplay</a> line script ran = (pool : <a href="../../budget/PoolSpecs/index.html#PoolValue">PoolValue</a>) × (ran.held ≡ Holding.Tenants pool)
    × <a href="../../script/ScriptRunsSpecs/index.html#AnswersParts">AnswersParts</a> (<a href="../../script/ScriptRunsSpecs/index.html#new_pool">new_pool</a> line (<a href="../../grammar/HeadersSpecs/index.html#tenant_start">tenant_start</a> script.header)) (<a href="../../grammar/PartsSpecs/index.html#parts_in">parts_in</a> script.parts) ran.replies.items pool

-- the replies are those of the parts on a pool, or of a run on a new machine with the script&#x27;s meter, slots and region
abbrev pub <b id="IsReplayBy">IsReplayBy</b> : Option LimiterLine → Script → Ran → Type 0
<a href="../../script/ScriptRunsSpecs/index.html#IsReplayBy">IsReplayBy</a> (Some (Lines.Tenants line)) script ran = <a href="../../script/ScriptRunsSpecs/index.html#IsPoolReplay">IsPoolReplay</a> line script ran
<a href="../../script/ScriptRunsSpecs/index.html#IsReplayBy">IsReplayBy</a> limiter script ran = <a href="../../script/ScriptRunsSpecs/index.html#IsReplayOnOne">IsReplayOnOne</a> limiter script.header (<a href="../../grammar/LinesSpecs/index.html#calls_of">calls_of</a> script) ran

-- the replies are those of a run as the script&#x27;s header lines ask for it
abbrev pub <b id="IsReplayOf">IsReplayOf</b> : Script → Ran → Type 0
<a href="../../script/ScriptRunsSpecs/index.html#IsReplayOf">IsReplayOf</a> script ran = <a href="../../script/ScriptRunsSpecs/index.html#IsReplayBy">IsReplayBy</a> script.header.limiter_line script ran
</code></pre>
"####]
    pub mod ScriptRunsSpecs {}
    #[doc = r####"The text of a reply, of its head and of its bytes, the text of a wording and its numbers, and the text of an error.

<pre><code>use Rattle.std.specs.Prelude.{ℕ, List, [], ◌++◌, codes, flat_map, Option, None, Some, decimal}
use Rattle.wasmi_types.specs.Trap.{<a href="../../types/TrapSpecs/index.html#code_message">code_message</a>}
use Rattle.wasmi_meter.specs.Texts.{<a href="../../meter/TextsSpecs/index.html#fuel_error_text">fuel_error_text</a>, <a href="../../meter/TextsSpecs/index.html#memory_error_text">memory_error_text</a>, <a href="../../meter/TextsSpecs/index.html#table_error_text">table_error_text</a>}
use Rattle.wasmi_typed.specs.Global.{<a href="../../typed/GlobalSpecs/index.html#global_error_text">global_error_text</a>}
use Rattle.wasmi_typed.specs.declared.typed_ref.TypedRawRef.{TypedRawRef}
use Rattle.wasmi_store.specs.Segment.{<a href="../../store/SegmentSpecs/index.html#segment_error_text">segment_error_text</a>}
use Rattle.wasmi_machine.specs.declared.{calls.Call.Call, calls.Reply.Reply}
use Rattle.wasmi_machine.specs.declared.calls.Call.TheVariants.{NewMemory, NewLentMemory, NewTable, NewData, NewSegment, NewGlobal}
use Rattle.wasmi_script.specs.declared.{error.ReplayError.ReplayError, printing.Wording.Wording}
use Rattle.wasmi_script.specs.declared.error.ReplayError.TheVariants.{Parse, TooLong, ReadFault}
use Rattle.wasmi_grammar.specs.declared.error.ParseError.TheVariants.{BadCommand, OutOfMemory}
use Rattle.wasmi_operands.specs.Names.{<a href="../../operands/NamesSpecs/index.html#reference_word">reference_word</a>}
use Rattle.wasmi_machine.specs.declared.calls.Reply.TheVariants as reply

-- the word for what a call makes; only creations make anything
abbrev pub <b id="kind_text">kind_text</b> : Call → List ℕ
<a href="../../script/TextsSpecs/index.html#kind_text">kind_text</a> (NewMemory ty) = codes "memory"
<a href="../../script/TextsSpecs/index.html#kind_text">kind_text</a> (NewLentMemory ty) = codes "memory"
<a href="../../script/TextsSpecs/index.html#kind_text">kind_text</a> (NewTable ty init) = codes "table"
<a href="../../script/TextsSpecs/index.html#kind_text">kind_text</a> (NewSegment ty items) = codes "segment"
<a href="../../script/TextsSpecs/index.html#kind_text">kind_text</a> (NewData bytes) = codes "data"
<a href="../../script/TextsSpecs/index.html#kind_text">kind_text</a> (NewGlobal value ty) = codes "global"
<a href="../../script/TextsSpecs/index.html#kind_text">kind_text</a> call = codes "nothing"

-- a space and a number for each byte
abbrev pub <b id="bytes_text">bytes_text</b> : List ℕ → List ℕ
<a href="../../script/TextsSpecs/index.html#bytes_text">bytes_text</a> bytes = flat_map (λ byte. codes " " ++ decimal byte) bytes

-- an element of a table, or that there is none
abbrev pub <b id="element_text">element_text</b> : Option TypedRawRef → List ℕ
<a href="../../script/TextsSpecs/index.html#element_text">element_text</a> None = codes "none"
<a href="../../script/TextsSpecs/index.html#element_text">element_text</a> (Some reference) = <a href="../../operands/NamesSpecs/index.html#reference_word">reference_word</a> reference.ty ++ (codes " " ++ decimal reference.raw)

-- the reply to a call, but for the numbers of its bytes
abbrev pub <b id="head_text">head_text</b> : Call → Reply → List ℕ
<a href="../../script/TextsSpecs/index.html#head_text">head_text</a> call reply.Done = codes "done"
<a href="../../script/TextsSpecs/index.html#head_text">head_text</a> call (reply.Made index) = <a href="../../script/TextsSpecs/index.html#kind_text">kind_text</a> call ++ (codes " " ++ decimal index)
<a href="../../script/TextsSpecs/index.html#head_text">head_text</a> call (reply.Value value) = codes "raw " ++ (decimal value.lo ++ (codes " " ++ decimal value.hi))
<a href="../../script/TextsSpecs/index.html#head_text">head_text</a> call (reply.Number number) = codes "value " ++ decimal number
<a href="../../script/TextsSpecs/index.html#head_text">head_text</a> call (reply.Bytes bytes) = codes "bytes"
<a href="../../script/TextsSpecs/index.html#head_text">head_text</a> call (reply.Reference element) = <a href="../../script/TextsSpecs/index.html#element_text">element_text</a> element
<a href="../../script/TextsSpecs/index.html#head_text">head_text</a> call (reply.Memory error) = codes "error " ++ <a href="../../meter/TextsSpecs/index.html#memory_error_text">memory_error_text</a> error
<a href="../../script/TextsSpecs/index.html#head_text">head_text</a> call (reply.Table error) = codes "error " ++ <a href="../../meter/TextsSpecs/index.html#table_error_text">table_error_text</a> error
<a href="../../script/TextsSpecs/index.html#head_text">head_text</a> call (reply.Fuel error) = codes "error " ++ <a href="../../meter/TextsSpecs/index.html#fuel_error_text">fuel_error_text</a> error
<a href="../../script/TextsSpecs/index.html#head_text">head_text</a> call (reply.Global error) = codes "error " ++ <a href="../../typed/GlobalSpecs/index.html#global_error_text">global_error_text</a> error
<a href="../../script/TextsSpecs/index.html#head_text">head_text</a> call (reply.Segment error) = codes "error " ++ <a href="../../store/SegmentSpecs/index.html#segment_error_text">segment_error_text</a> error
<a href="../../script/TextsSpecs/index.html#head_text">head_text</a> call (reply.Trap code) = codes "error " ++ <a href="../../types/TrapSpecs/index.html#code_message">code_message</a> code
<a href="../../script/TextsSpecs/index.html#head_text">head_text</a> call reply.NoSuch = codes "no such"
<a href="../../script/TextsSpecs/index.html#head_text">head_text</a> call reply.NoRegion = codes "no region"
<a href="../../script/TextsSpecs/index.html#head_text">head_text</a> call reply.NoRoom = codes "no room"

-- the bytes that a reply tells
abbrev pub <b id="bytes_in">bytes_in</b> : Reply → List ℕ
<a href="../../script/TextsSpecs/index.html#bytes_in">bytes_in</a> (reply.Bytes bytes) = bytes
<a href="../../script/TextsSpecs/index.html#bytes_in">bytes_in</a> reply = []

-- the reply to a call: its head, and a number for each byte that it tells
abbrev pub <b id="reply_text">reply_text</b> : Call → Reply → List ℕ
<a href="../../script/TextsSpecs/index.html#reply_text">reply_text</a> call reply = <a href="../../script/TextsSpecs/index.html#head_text">head_text</a> call reply ++ <a href="../../script/TextsSpecs/index.html#bytes_text">bytes_text</a> (<a href="../../script/TextsSpecs/index.html#bytes_in">bytes_in</a> reply)

-- why a script isn&#x27;t run
abbrev pub <b id="error_text">error_text</b> : ReplayError → List ℕ
<a href="../../script/TextsSpecs/index.html#error_text">error_text</a> (Parse (BadCommand line)) = codes "line " ++ (decimal line ++ codes ": bad command")
<a href="../../script/TextsSpecs/index.html#error_text">error_text</a> (Parse OutOfMemory) = codes "out of memory"
<a href="../../script/TextsSpecs/index.html#error_text">error_text</a> TooLong = codes "script too long"
<a href="../../script/TextsSpecs/index.html#error_text">error_text</a> ReadFault = codes "read fault"

-- the text of a number of a wording, if there is one, after what stands before it
abbrev pub <b id="number_text">number_text</b> : List ℕ → Option ℕ → List ℕ
<a href="../../script/TextsSpecs/index.html#number_text">number_text</a> before None = []
<a href="../../script/TextsSpecs/index.html#number_text">number_text</a> before (Some number) = before ++ decimal number

-- the words of a wording, and then its numbers, the second after a space
abbrev pub <b id="wording_text">wording_text</b> : Wording → List ℕ
<a href="../../script/TextsSpecs/index.html#wording_text">wording_text</a> wording =
    wording.start.now ++ (wording.words.now ++ (<a href="../../script/TextsSpecs/index.html#number_text">number_text</a> [] wording.first ++ <a href="../../script/TextsSpecs/index.html#number_text">number_text</a> (codes " ") wording.second))
</code></pre>
"####]
    pub mod TextsSpecs {}
}
