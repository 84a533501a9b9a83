"""Writes crates over ours, outside the repository, and has the checker compute the definitions on the cases."""

import os
import re

import agreement_walks
from copies import TOP, copied, rt

OURS = ["numerals", "refusals", "boxes", "partial", "additions", "rescue"]

# What is computed of a case, as numbers in a row.
COMPUTED = """-- What is computed over the definitions, as numbers in a row.
use Rattle.std.specs.Prelude.{ℕ, Bool, true, false, List, [], ◌∷◌, ◌++◌, ◌+◌, ◌&&◌, ◌≡◌, refl, length, leb, eqb, Option, None, Some}
use Rattle.boxes.specs.Answer.{Answer, refused, given}
use Rattle.numerals.specs.Numbers.{bytes_of}
use Rattle.partial.specs.Limits.{program_limit, source_limit}
use Rattle.partial.specs.Sequences.{or_else}
use Rattle.partial.specs.Segments.{Segment}
use Rattle.partial.specs.Heading.{Part, bytes_in, url, mime, heading}
use Rattle.partial.specs.Reading.{reading, earlier_segments}
use Rattle.partial.specs.Meaning.{Reply, served_for, missing_for, not_below, described_length, supplied, served}
use Rattle.partial.specs.Sources.{same_list, same_urls, of_source, of_urls}
use Rattle.partial.specs.Ranges.{had_list, missing_list, total}
use Rattle.partial.specs.Ranges.{among, apart, in_row, ranges_of}
use Rattle.partial.specs.Naming.{named_ranges, held_list, lost_list}
use Rattle.partial.specs.Memory.{after, written}
use Rattle.partial.specs.Tables.{segment_rows, chunk_rows, had_rows, missing_rows, tabled, listed, summary, totals, served_part, asked, text_of}
use Rattle.partial.specs.Tables.{index_tabled, index_table, index_count}
use Rattle.partial.specs.Texts.{Surl, source_text_of, texts_for, lengths_for, texts_tabled}
use Rattle.partial.specs.Map.{map_text, missmap_text}
use Rattle.partial.specs.BoxList.{boxes_text}
use Rattle.partial.specs.declared.brand.Brand.{Brand}
use Rattle.additions.specs.Begin.{beginning, begun}
use Rattle.additions.specs.Addition.{Addition}
use Rattle.additions.specs.Append.{appended, pseg_place, new_urls, new_segment, result}
use Rattle.additions.specs.Runs.{lent, file_in, append}
use Rattle.additions.specs.Again.{again, settled, write_again}
use Rattle.additions.specs.Carried.{carried}
use Rattle.rescue.specs.Copy.{salvage, salvaged}
use Rattle.rescue.specs.Lines.{salvage_text}
use Rattle.rescue.proofs.Computing.{computing}

answered : {A : Type 0} → (A → List ℕ) → Answer A → List ℕ
answered values (refused n) = 0 ∷ n ∷ []
answered values (given a) = 1 ∷ values a

flag : Bool → ℕ
flag true = 1
flag false = 0

counted : List ℕ → List ℕ
counted xs = length xs ∷ xs

rows_of : ℕ → List Segment → List ℕ
rows_of source ss =
    let s = summary source ss in
    s.segments ∷ s.chunks ∷ s.sources ∷ s.described ∷ flag s.closed ∷ (segment_rows ss ++ chunk_rows ss)

-- the bytes of a part, none after a refusal
part_in : List ℕ → Answer Part → List ℕ
part_in f (refused n) = []
part_in f (given part) = bytes_in f part

texts_read : List ℕ → ℕ → List ℕ
texts_read f source =
    counted (bytes_in f (text_of url source_limit f))
    ++ (counted (bytes_in f (text_of mime source_limit f))
    ++ (counted (part_in f (source_text_of url source_limit f source)) ++ counted (part_in f (source_text_of mime source_limit f source))))

reply_of : Reply → List ℕ
reply_of (served_for n) = 1 ∷ n ∷ []
reply_of (missing_for n) = 0 ∷ n ∷ []
reply_of not_below = 2 ∷ []

asked_of : Answer (List Segment) → ℕ → List ℕ → List ℕ
asked_of r source [] = []
asked_of r source (p ∷ ps) =
    (served_part r source p).place ∷ (served_part r source p).size ∷ (answered reply_of (asked r source p) ++ asked_of r source ps)

unfoldable pub read_of : List ℕ → ℕ → List ℕ → List ℕ
unfolding answered flag counted rows_of part_in texts_read reply_of asked_of computing
read_of f source ps =
    let r = reading source_limit f in
    answered (rows_of source) r ++ (texts_read f source ++ asked_of r source ps)

-- how many bytes the texts of a segment have, and how many lengths
text_counts : List Surl → List ℕ
text_counts told = length (texts_for told) ∷ length (lengths_for told) ∷ []

unfoldable pub texts_of : List ℕ → ℕ → List ℕ → List ℕ → List ℕ
unfolding answered text_counts computing
texts_of f n texts lengths =
    let r = texts_tabled source_limit f n texts lengths in
    answered text_counts r ++ (after texts_for r texts ++ after lengths_for r lengths)

unfoldable pub tables_of : List ℕ → List ℕ → List ℕ → List ℕ
unfolding answered computing
tables_of f a b =
    let r = tabled source_limit f a b in
    answered (λ ss. []) r ++ (after segment_rows r a ++ after chunk_rows r b)

totals_of : ℕ → List Segment → List ℕ
totals_of source ss =
    let t = totals source ss in
    t.had_ranges ∷ t.missing_ranges ∷ t.received_total ∷ t.missing_total ∷ []

ample : List ℕ
ample = bytes_of 512 0

unfoldable pub lists_of : List ℕ → ℕ → List ℕ → List ℕ → List ℕ
unfolding answered totals_of ample computing
lists_of f source h m =
    let r = listed source_limit f source ample ample h m in
    answered (totals_of source) r ++ (after (had_rows source) r h ++ after (missing_rows source) r m)

unfoldable pub index_rows_of : List ℕ → List ℕ → List ℕ
unfolding answered computing
index_rows_of f table =
    let r = index_tabled source_limit f table in
    answered (λ told. index_count told ∷ []) r ++ after index_table r table

unfoldable pub begun_of : List ℕ → Brand → List ℕ → List ℕ → List ℕ
unfolding answered computing
begun_of buffer brand u m = answered (λ n. n ∷ []) (begun buffer brand u m) ++ written (beginning brand u m) (begun buffer brand u m) buffer

unfoldable pub appended_of : List ℕ → ℕ → ℕ → ℕ → Bool → Bool → List ℕ → List ℕ → List ℕ → List ℕ → List ℕ
unfolding answered computing
appended_of buffer n offset repair last outside list bytes texts lengths =
    let a : Addition = record { source_offset = offset; repair_time = repair; last = last; outside = outside; list = list; bytes = bytes; texts = texts; lengths = lengths } in
    let r = appended source_limit buffer n a in
    answered (λ m. m ∷ []) r ++ written (result buffer n a) r buffer

-- whether two lists of numbers are the same
same : List ℕ → List ℕ → Bool
same [] [] = true
same [] (y ∷ ys) = false
same (x ∷ xs) [] = false
same (x ∷ xs) (y ∷ ys) = eqb x y && same xs ys

same_segments : List Segment → List Segment → Bool
same_segments ss ts =
    same (segment_rows ss ++ chunk_rows ss) (segment_rows ts ++ chunk_rows ts) && same_list (λ s t. same_urls s.urls t.urls) ss ts

same_byte : Option ℕ → Option ℕ → Bool
same_byte None None = true
same_byte None (Some b) = false
same_byte (Some a) None = false
same_byte (Some a) (Some b) = eqb a b

same_addition : Addition → Addition → Bool
same_addition a b =
    eqb a.source_offset b.source_offset && eqb a.repair_time b.repair_time && eqb (flag a.last) (flag b.last)
    && eqb (flag a.outside) (flag b.outside) && same a.list b.list && same a.bytes b.bytes
    && same a.texts b.texts && same a.lengths b.lengths

kept_at : List ℕ → List ℕ → List Segment → List Segment → (ℕ → Option ℕ) → List ℕ → List ℕ
kept_at f g ss ts carries [] = []
kept_at f g ss ts carries (p ∷ ps) = flag (same_byte (served g ts p) (or_else (served f ss p) (carries p))) ∷ kept_at f g ss ts carries ps

-- the URLs of a source, told by its number; none where it is not there
urls_of : ℕ → List Segment → List (List ℕ)
urls_of source ss = elim (of_source source ss) [ [] ↦ [] | s ∷ _ ↦ s.urls ]

-- a source, by its segments before and after an addition and whether that goes to it: no shorter, or as it was; and each position kept
source_kept : List ℕ → List ℕ → List Segment → List Segment → Addition → Bool → List ℕ → List ℕ
source_kept f g ss ts a true ps = flag (leb (described_length ss) (described_length ts)) ∷ kept_at f g ss ts (carried a) ps
source_kept f g ss ts a false ps = flag (same_segments ss ts) ∷ kept_at f g ss ts (λ p. None) ps

-- demands 2 and 3 at an accepted addition, each 1 where it holds: read back, the same again, and of a source, told by its number after and by its URLs before
unfoldable pub demands_of : List ℕ → ℕ → ℕ → ℕ → Bool → Bool → List ℕ → List ℕ → List ℕ → List ℕ → ℕ → List ℕ → List ℕ
unfolding flag same same_segments same_byte same_addition kept_at urls_of source_kept computing
demands_of buffer n offset repair last outside list bytes texts lengths source ps =
    let a : Addition = record { source_offset = offset; repair_time = repair; last = last; outside = outside; list = list; bytes = bytes; texts = texts; lengths = lengths } in
    let f = file_in (lent buffer n) in
    let g = file_in (append source_limit (lent buffer n) a) in
    elim (heading f) [
      | refused k ↦ 0 ∷ k ∷ []
      | given h ↦
          elim (earlier_segments source_limit f) [
            | refused k ↦ 0 ∷ k ∷ []
            | given ss ↦
                elim (reading source_limit g) [
                  | refused k ↦ 0 ∷ k ∷ []
                  | given ts ↦
                      let new = new_segment h ss (pseg_place n a) a in
                      let us = urls_of source ts in
                      flag (same_segments ts (ss ++ (new ∷ [])))
                      ∷ flag (elim (heading g) [ refused k ↦ false | given grown ↦ same_addition (again g grown new) (settled a) ])
                      ∷ source_kept f g (of_urls us ss) (of_source source ts) a (same_urls us (new_urls h a)) ps
                ]
          ]
    ]

in_lists : List Segment → List ℕ → List ℕ
in_lists ss [] = []
in_lists ss (p ∷ ps) =
    flag (supplied ss p)
    ∷ flag (among p (had_list ss))
    ∷ flag (among p (missing_list ss))
    ∷ flag (among p (held_list ss))
    ∷ flag (among p (lost_list ss))
    ∷ in_lists ss ps

-- demand 2 in a source of an accepted file: the lists are apart and merge, the totals make up the length, held and lost those of what is missing, and positions are in their lists
unfoldable pub mapped_of : List ℕ → ℕ → List ℕ → List ℕ
unfolding flag in_lists computing
mapped_of f source ps =
    elim (reading source_limit f) [
      | refused k ↦ 0 ∷ k ∷ []
      | given all ↦
          let ss = of_source source all in
          flag (apart 0 (had_list ss))
          ∷ flag (apart 0 (missing_list ss))
          ∷ flag (apart 0 (held_list ss))
          ∷ flag (apart 0 (lost_list ss))
          ∷ flag (in_row 0 (described_length ss) (ranges_of ss))
          ∷ flag (in_row 0 (described_length ss) (named_ranges ss))
          ∷ flag (eqb (total (had_list ss) + total (missing_list ss)) (described_length ss))
          ∷ flag (eqb (total (held_list ss) + total (lost_list ss)) (total (missing_list ss)))
          ∷ in_lists ss ps
    ]

-- demand 2: writing again what was read from our writer's file gives that file
unfoldable pub again_of : List ℕ → List ℕ
unfolding flag same computing
again_of f =
    elim (reading source_limit f) [
      | refused k ↦ 0 ∷ k ∷ []
      | given ss ↦ elim (heading f) [ refused k ↦ 0 ∷ k ∷ [] | given h ↦ flag (same (file_in (write_again source_limit f f h ss)) f) ∷ [] ]
    ]

unfoldable pub map_of_input : List ℕ → List ℕ
unfolding computing
map_of_input input = map_text source_limit program_limit input

unfoldable pub missmap_of_input : List ℕ → List ℕ
unfolding computing
missmap_of_input input = missmap_text source_limit program_limit input

unfoldable pub boxes_of_input : List ℕ → List ℕ
unfolding computing
boxes_of_input input = boxes_text program_limit input

-- the copy of a spoiled file, or its refusal; and the answer and the buffer of the call that writes it
unfoldable pub salvage_numbers : List ℕ → Answer (List ℕ) → Answer (List ℕ) → List ℕ
unfolding answered counted
salvage_numbers buffer copy r = answered counted copy ++ (answered (λ copy. length copy ∷ []) r ++ after (λ copy. copy) r buffer)

unfoldable pub salvaged_of : List ℕ → List ℕ → List ℕ
unfolding salvage_numbers computing
salvaged_of f buffer = salvage_numbers buffer (salvage source_limit f) (salvaged source_limit f buffer)

unfoldable pub salvage_text_of : ℕ → List ℕ → List ℕ
unfolding computing
salvage_text_of most input = salvage_text source_limit most input

-- what these are made of, which is not computed where it is cited
pub map_by_text : (input : List ℕ) → map_text source_limit program_limit input ≡ map_of_input input
unfolding map_of_input
map_by_text input = refl

pub salvaged_by_numbers : (f buffer : List ℕ) → salvage_numbers buffer (salvage source_limit f) (salvaged source_limit f buffer) ≡ salvaged_of f buffer
unfolding salvaged_of
salvaged_by_numbers f buffer = refl

pub salvage_by_text : (most : ℕ) (input : List ℕ) → salvage_text source_limit most input ≡ salvage_text_of most input
unfolding salvage_text_of
salvage_by_text most input = refl
"""

BATCH_USES = """use Rattle.std.specs.Prelude.{true, false, [], ◌∷◌, ◌++◌, ◌≡◌, refl}
use Rattle.numerals.specs.Numbers.{bytes_of}
use Rattle.partial.specs.declared.brand.Brand.TheVariants.{Paff, Pmff}
use Rattle.computed.specs.Computed.{read_of, texts_of, tables_of, lists_of, index_rows_of, begun_of, appended_of, demands_of, mapped_of, again_of, map_of_input, missmap_of_input, boxes_of_input, salvaged_of, salvage_text_of}
"""

# A file of more than 1,073,741,824 bytes and an input of more than 65,536 are not written out: only their length is
# looked at.
TOO_LONG = """-- Refusals 1 and 27: no byte of such a file is read.
use Rattle.std.specs.Prelude.{ℕ, false, List, ◌≡◌, refl, length, replicate, leb}
use Rattle.std.proofs.lemmas.List.{length-replicate}
use Rattle.boxes.specs.Answer.{refused}
use Rattle.partial.specs.Limits.{file_limit, program_limit, source_limit}
use Rattle.partial.specs.Segments.{Segment}
use Rattle.partial.specs.Heading.{heading, file_boxes}
use Rattle.partial.specs.Reading.{reading}
use Rattle.partial.specs.Map.{map_of, missmap_of, text_for, map_text, missmap_text, refused_line}
use Rattle.rescue.specs.Kept.{opening}
use Rattle.rescue.specs.Copy.{salvage}
use Rattle.rescue.specs.Lines.{salvage_text}

long_file : (f : List ℕ) → leb (length f) file_limit ≡ false → reading source_limit f ≡ refused 1
unfolding reading heading file_boxes
long_file f h = rw h

zeros_file : (n : ℕ) → leb n file_limit ≡ false → reading source_limit (replicate n 0) ≡ refused 1
zeros_file n h = long_file (replicate n 0) (rw length-replicate h)

file_too_long : reading source_limit (replicate 1_073_741_825 0) ≡ refused 1
file_too_long = zeros_file 1_073_741_825 refl

long_input : (of : List Segment → List ℕ) (f : List ℕ) → leb (length f) program_limit ≡ false → text_for of source_limit program_limit f ≡ refused_line 27
unfolding text_for
long_input of f h = rw (text_for, h)

zeros_input : (of : List Segment → List ℕ) (n : ℕ) → leb n program_limit ≡ false → text_for of source_limit program_limit (replicate n 0) ≡ refused_line 27
zeros_input of n h = long_input of (replicate n 0) (rw length-replicate h)

input_too_long : map_text source_limit program_limit (replicate 65_537 0) ≡ refused_line 27
unfolding map_text
input_too_long = zeros_input map_of 65_537 refl

input_too_long_without_names : missmap_text source_limit program_limit (replicate 65_537 0) ≡ refused_line 27
unfolding missmap_text
input_too_long_without_names = zeros_input missmap_of 65_537 refl

long_spoiled : (f : List ℕ) → leb (length f) file_limit ≡ false → salvage source_limit f ≡ refused 1
unfolding salvage opening
long_spoiled f h = rw h

zeros_spoiled : (n : ℕ) → leb n file_limit ≡ false → salvage source_limit (replicate n 0) ≡ refused 1
zeros_spoiled n h = long_spoiled (replicate n 0) (rw length-replicate h)

spoiled_too_long : salvage source_limit (replicate 1_073_741_825 0) ≡ refused 1
spoiled_too_long = zeros_spoiled 1_073_741_825 refl

long_spoiled_input : (f : List ℕ) → leb (length f) program_limit ≡ false → salvage_text source_limit program_limit f ≡ refused_line 27
unfolding salvage_text
long_spoiled_input f h = rw (salvage_text, h)

zeros_spoiled_input : (n : ℕ) → leb n program_limit ≡ false → salvage_text source_limit program_limit (replicate n 0) ≡ refused_line 27
zeros_spoiled_input n h = long_spoiled_input (replicate n 0) (rw length-replicate h)

spoiled_input_too_long : salvage_text source_limit program_limit (replicate 65_537 0) ≡ refused_line 27
spoiled_input_too_long = zeros_spoiled_input 65_537 refl
"""


def batch(cases):
    """The module with a statement for each case: what is computed is what the model says."""
    walks = agreement_walks.USES if any(map(agreement_walks.needs, cases)) else ""
    lines = ["-- The definitions against the model, a statement for each case.", BATCH_USES + walks]
    for case in cases:
        wanted = "".join("%d ∷ " % number for number in case.numbers) + "[]"
        opened = case.term.split()[0]
        if agreement_walks.needs(case):
            lines.append(agreement_walks.statement(case, wanted))
        else:
            lines.append("%s : %s ≡ %s\nunfolding %s\n%s = refl\n" % (case.name, case.term, wanted, opened, case.name))
    return "\n".join(lines)


def write(path, text):
    os.makedirs(os.path.dirname(path), exist_ok=True)
    with open(path, "w", encoding="utf-8") as file:
        file.write(text)


def write_crate(folder, name, modules):
    """A crate of definitions alone."""
    crate = os.path.join(folder, "crates", name)
    write(os.path.join(crate, "src", "lib.rt"), "// The definitions, held against the model.\n#![tactic(auto)]\n")
    write(os.path.join(crate, "specs", "Lib.antt"), "".join("pub mod %s\n" % module for module in modules))
    for module, text in modules.items():
        write(os.path.join(crate, "specs", module + ".antt"), text)


def write_all(folder, batches):
    """A repository with copies of our crates, one crate with what is computed, and one for each batch."""
    lines = ["computed: " + " ".join(OURS)]
    for line in open(os.path.join(TOP, "crates.txt"), encoding="utf-8"):
        if line.split(":")[0].strip() in OURS:
            lines.append(line.strip())
    for crate in OURS:
        copied(folder, crate)
    write_crate(folder, "computed", {"Computed": COMPUTED, "TooLong": TOO_LONG, "Quick": agreement_walks.QUICK})
    for number, cases in enumerate(batches):
        lines.append("batch%d: computed %s" % (number, " ".join(OURS)))
        write_crate(folder, "batch%d" % number, {"Batch": batch(cases)})
    write(os.path.join(folder, "crates.txt"), "\n".join(lines) + "\n")


def refused_cases(folder, batches):
    """Runs the checker: the cases whose statement it does not admit, and whether all the rest is proved."""
    # What is computed becomes a library first, so that the batches are not looked at over its sources before.
    status, output = rt(os.path.join(folder, "crates", "computed"), "lib")
    if status == 0:
        status, output = rt(folder, "all", "check")
    named = {name.removesuffix(agreement_walks.STEP) for name in re.findall(r"Batch\.antt:\d+:\d+: error: `([^`]+)`", output)}
    return [case for cases in batches for case in cases if case.name in named], status == 0, output
