"""Has the checker read and salvage files of some thousand bytes, which have some hundred boxes.

The definitions look for each number of a header from the first byte of the file on, and the checker may take only so
much memory for a statement, so that it cannot walk over 512 boxes. There it computes another walk, which is proved to be
the same.
"""

# A file above this length is read by the other walk.
SMALL = 1_000

# The module that proves it.
QUICK = """-- Reading and salvage by a walk that costs less where a container has many boxes, since it reads each header at the head
-- of what is left of the file; and that it is reading and salvage. Functions have the names of those that they stand for.
use Rattle.std.specs.Prelude.{ℕ, zero, suc, ◌+◌, ◌-◌, true, false, Bool, not, ◌&&◌, ◌||◌, List, [], ◌∷◌, ◌++◌, ltb, take, drop, get_or, leb, eqb, length, ◌≡◌, refl, None, Some}
use Prim.Native.Nat.{◌≤◌}
use mathlib.Core.Path.{ap, ap₂, ◌∙◌, sym}
use native.Mathlib.Nat.{add-zero}
use native.Mathlib.Omega.{arith}
use Rattle.std.proofs.lemmas.Bool.{leb-true}
use Rattle.std.proofs.lemmas.List.{get_or-drop, drop-drop}
use Rattle.numerals.specs.Numbers.{number}
use Rattle.numerals.proofs.NumberLaws.{number_same}
use Rattle.boxes.specs.Answer.{Answer, refused, given, ◌>>=◌, hold}
use Rattle.boxes.specs.Kinds.{ftyp, pfil, pdat, is, pseg, pshd, ploc, right, those, box_at, first_of}
use Rattle.boxes.specs.declared.kinds.Container.TheVariants.{File, Pseg}
use Rattle.partial.specs.Limits.{source_limit, program_limit, file_limit, segment_limit, chunk_limit, layer_limit}
use Rattle.partial.specs.Segments.{Segment, chunks_of}
use Rattle.partial.specs.Entries.{ploc_head, chunks_from}
use Rattle.partial.specs.Sources.{urls_for, source_beside, agreed, source_count}
use Rattle.partial.specs.Index.{indexed}
use Rattle.partial.specs.Reading.{pshd_fields, pshd_right, segment, segments_from, segments, reading}
use Rattle.partial.specs.Map.{map_of, map_text, text_for, refused_line}
use Rattle.partial.specs.Heading.{Heading, ftyp_right, brand_right, pfil_right, pfhd_right, surl_right, urls_in, branded, pmff, file_boxes, judged, heading}
use Rattle.boxes.specs.Framing.{boxes_in, faultless, Box, Walked, user_size, sized, large, header, walked, walked_in, box_limit, ended, broken, followed}
use Rattle.boxes.specs.declared.kinds.Container.{Container}
use Rattle.partial.specs.Sequences.{some_of}
use Rattle.partial.specs.Memory.{fits}
use Rattle.rescue.specs.Kept.{Fate, dropped, whole, of_pfil, of_pseg, Fated, walk_of, framed, first_two, opening, beside, kept_with, kept_from, kept_of, lies_in, stays, fate_of, fates_from, fates}
use Rattle.rescue.specs.Copy.{copied, salvage, salvaged}
use Rattle.rescue.specs.Lines.{dropped_lines, salvage_text}
use Rattle.rescue.proofs.Computing.{computing}
use Rattle.computed.specs.Computed.{map_of_input, map_by_text, salvage_numbers, salvaged_of, salvaged_by_numbers, salvage_text_of, salvage_by_text}

-- a header, `rest` being what is left of the file from its place on
quick_sized : List ℕ → ℕ → ℕ → ℕ → ℕ → Answer Box
quick_sized rest at end width size = do
  let kind = number rest 4 4
  _ ← hold 4 (leb (width + user_size kind) size)
  _ ← hold 5 (leb (at + size) end)
  given (record { kind = kind; at = at; user = at + width; body = at + (width + user_size kind); end = at + size })

quick_large : List ℕ → ℕ → ℕ → Answer Box
quick_large rest at end = do
  _ ← hold 2 (leb (at + 16) end)
  quick_sized rest at end 16 (number rest 8 8)

quick_form : List ℕ → ℕ → ℕ → Bool → Answer Box
quick_form rest at end true = quick_large rest at end
quick_form rest at end false = quick_sized rest at end 8 (number rest 0 4)

quick_header : List ℕ → ℕ → ℕ → Answer Box
quick_header rest at end = do
  _ ← hold 2 (leb (at + 8) end)
  _ ← hold 3 (not (eqb (number rest 0 4) 0))
  quick_form rest at end (eqb (number rest 0 4) 1)

-- what is left of the file behind a box, by what is left from its place on
behind : List ℕ → List ℕ → ℕ → ℕ → List ℕ
behind s rest at end = elim (leb at end) [ true ↦ drop (end - at) rest | false ↦ drop end s ]

-- the walk
unfoldable pub quick : List ℕ → List ℕ → ℕ → ℕ → ℕ → Walked
unfolding behind quick_sized quick_large quick_form quick_header
quick s rest end zero at = elim (leb end at) [ true ↦ ended | false ↦ broken at 6 ]
quick s rest end (suc more) at =
    elim (leb end at) [
      | true ↦ ended
      | false ↦ elim (quick_header rest at end) [ refused n ↦ broken at n | given b ↦ followed b (quick s (behind s rest at b.end) end more b.end) ]
    ]

-- it is the walk of the definitions
number_left : (s : List ℕ) (at k w : ℕ) → number (drop at s) k w ≡ number s (at + k) w
number_left s at k w = number_same (drop at s) s k (at + k) w (λ i h. rw get_or-drop (ap (λ n. get_or s n 0) (omega arith)))

sized_left : (s : List ℕ) (at end width size : ℕ) → quick_sized (drop at s) at end width size ≡ sized s at end width size
unfolding sized quick_sized
sized_left s at end width size = rw number_left

form_left : (s : List ℕ) (at end : ℕ) (b : Bool) → quick_form (drop at s) at end b ≡ elim b [ true ↦ large s at end | false ↦ sized s at end 8 (number s at 4) ]
unfolding quick_form quick_large large
form_left s at end true = simp (number_left, sized_left)
form_left s at end false = simp (number_left, add-zero, sized_left)

header_left : (c : Container) (s : List ℕ) (at end : ℕ) → quick_header (drop at s) at end ≡ header c s at end
unfolding header quick_header
header_left c s at end = simp (form_left, number_left, add-zero)

further : {at end : ℕ} → at ≤ end → at + (end - at) ≡ end
further h = omega arith

behind_left : (s : List ℕ) (at end : ℕ) → behind s (drop at s) at end ≡ drop end s
unfolding behind
behind_left s at end = go (leb at end) refl
  where
    go : (b : Bool) → leb at end ≡ b → ◌≡◌ {A = List ℕ} (elim b [ true ↦ drop (end - at) (drop at s) | false ↦ drop end s ]) (drop end s)
    go true h = rw drop-drop (ap (λ n. drop n s) (further (leb-true at end h)))
    go false h = refl

quick_left : (c : Container) (s : List ℕ) (end more at : ℕ) → quick s (drop at s) end more at ≡ walked c s end more at
unfolding quick walked
quick_left c s end zero at = refl
quick_left c s end (suc more) at =
    ap (λ (w : Walked). elim (leb end at) as (λ _. Walked) [ true ↦ ended | false ↦ w ]) (ap over (header_left c s at end) ∙ go (quick_left c s end more) (header c s at end))
  where
    over : Answer Box → Walked
    over x = elim x [ refused n ↦ broken at n | given b ↦ followed b (quick s (behind s (drop at s) at b.end) end more b.end) ]
    go : ((next : ℕ) → quick s (drop next s) end more next ≡ walked c s end more next) → (x : Answer Box)
        → over x ≡ elim x [ refused n ↦ broken at n | given b ↦ followed b (walked c s end more b.end) ]
    go rest (refused n) = refl
    go rest (given b) = ap (followed b) (rw behind_left (rest b.end))

-- reading by that walk
quick_boxes : List ℕ → ℕ → ℕ → Answer (List Box)
unfolding quick
quick_boxes f start end = faultless (quick f (drop start f) end box_limit start)

boxes_left : (c : Container) (f : List ℕ) (start end : ℕ) → boxes_in c f start end ≡ quick_boxes f start end
unfolding boxes_in walked_in quick_boxes
boxes_left c f start end = ap faultless (sym (quick_left c f end box_limit start))

quick_file_boxes : List ℕ → Answer (List Box)
unfolding quick_boxes
quick_file_boxes f = do
  _ ← hold 1 (leb (length f) file_limit)
  quick_boxes f 0 (length f)

quick_judged : List ℕ → List Box → Answer Heading
unfolding quick_boxes
quick_judged f boxes = do
  _ ← hold 7 (ftyp_right boxes)
  _ ← hold 8 (brand_right f boxes)
  _ ← hold 9 (pfil_right boxes)
  inner ← quick_boxes f (box_at 1 boxes).body (box_at 1 boxes).end
  _ ← hold 10 (pfhd_right f inner)
  _ ← hold 11 (surl_right f inner)
  given (record { boxes = boxes; inner = inner; urls = urls_in f inner; mixed = branded pmff f boxes })

quick_heading : List ℕ → Answer Heading
unfolding quick_file_boxes quick_judged
quick_heading f = do
  boxes ← quick_file_boxes f
  quick_judged f boxes

quick_segment : ℕ → List ℕ → Heading → List Segment → Box → Answer Segment
unfolding quick_boxes
quick_segment limit f h before b = do
  inner ← quick_boxes f b.body b.end
  _ ← hold 14 (pshd_right f inner)
  _ ← hold 15 (right Pseg ploc inner)
  _ ← hold 16 (surl_right f inner)
  let urls = urls_for (urls_in f inner) h.urls
  _ ← hold 41 (ltb 0 (length urls))
  l ← ploc_head f (first_of ploc inner)
  _ ← hold 22 (leb (length (chunks_of before) + l.count) chunk_limit)
  let header = first_of pshd inner
  let fields = pshd_fields f header
  _ ← hold 23 (leb fields.source_offset limit)
  chunks ← chunks_from limit f h b.at l l.count (record { at = l.first; start = fields.source_offset })
  given
      (record {
        place = b.at;
        inner = inner;
        urls = urls;
        source = source_beside before urls;
        source_offset = fields.source_offset;
        flags = fields.flags;
        repair_time = fields.repair_time;
        header_place = header.body;
        header_length = header.end - header.body;
        chunks = chunks;
      })

quick_segments_from : ℕ → List ℕ → Heading → List Segment → List Box → Answer (List Segment)
unfolding quick_segment
quick_segments_from limit f h before [] = given before
quick_segments_from limit f h before (b ∷ bs) = do
  s ← quick_segment limit f h before b
  quick_segments_from limit f h (before ++ (s ∷ [])) bs

quick_segments : ℕ → List ℕ → Heading → Answer (List Segment)
unfolding quick_segments_from
quick_segments limit f h = do
  let psegs = those pseg h.boxes
  _ ← hold 13 (leb (length psegs) segment_limit)
  ss ← quick_segments_from limit f h [] psegs
  _ ← hold 25 (agreed ss)
  _ ← hold 40 (leb (source_count ss) layer_limit)
  given ss

unfoldable pub quick_reading : ℕ → List ℕ → Answer (List Segment)
unfolding quick_heading quick_segments
quick_reading limit f = do
  h ← quick_heading f
  _ ← hold 12 (right File pseg h.boxes)
  ss ← quick_segments limit f h
  _ ← indexed limit f h ss
  given ss

-- it is reading
file_boxes_left : (f : List ℕ) → file_boxes f ≡ quick_file_boxes f
unfolding file_boxes quick_file_boxes
file_boxes_left f = simp boxes_left

judged_left : (f : List ℕ) (boxes : List Box) → judged f boxes ≡ quick_judged f boxes
unfolding judged quick_judged
judged_left f boxes = simp boxes_left

heading_left : (f : List ℕ) → heading f ≡ quick_heading f
unfolding heading quick_heading
heading_left f = simp (file_boxes_left, judged_left)

segment_left : (limit : ℕ) (f : List ℕ) (h : Heading) (before : List Segment) (b : Box) → segment limit f h before b ≡ quick_segment limit f h before b
unfolding segment quick_segment
segment_left limit f h before b = simp boxes_left

segments_from_left : (limit : ℕ) (f : List ℕ) (h : Heading) (before : List Segment) (bs : List Box) → segments_from limit f h before bs ≡ quick_segments_from limit f h before bs
unfolding segments_from quick_segments_from
segments_from_left limit f h before [] = refl
segments_from_left limit f h before (b ∷ bs) = go (λ more. segments_from_left limit f h more bs)
  where
    go : ((more : List Segment) → segments_from limit f h more bs ≡ quick_segments_from limit f h more bs)
        → segments_from limit f h before (b ∷ bs) ≡ quick_segments_from limit f h before (b ∷ bs)
    go rest = simp (segment_left, rest)

segments_left : (limit : ℕ) (f : List ℕ) (h : Heading) → segments limit f h ≡ quick_segments limit f h
unfolding segments quick_segments
segments_left limit f h = simp segments_from_left

reading_left : (limit : ℕ) (f : List ℕ) → reading limit f ≡ quick_reading limit f
unfolding reading quick_reading
reading_left limit f = simp (heading_left, segments_left)

-- what the map program prints
quick_map_text : ℕ → ℕ → List ℕ → List ℕ
unfolding quick_reading
quick_map_text limit most input =
    elim (leb (length input) most) [
      | true ↦ elim (quick_reading limit input) [ refused n ↦ refused_line n | given ss ↦ map_of ss ]
      | false ↦ refused_line 27
    ]

map_text_left : (limit most : ℕ) (input : List ℕ) → map_text limit most input ≡ quick_map_text limit most input
unfolding map_text text_for quick_map_text
map_text_left limit most input =
    ap (λ (x : Answer (List Segment)). elim (leb (length input) most) as (λ _. List ℕ) [ true ↦ elim x [ refused n ↦ refused_line n | given ss ↦ map_of ss ] | false ↦ refused_line 27 ])
    (reading_left limit input)

-- salvage by that walk
quick_walk_of : List ℕ → Walked
unfolding quick
quick_walk_of f = quick f f (length f) box_limit 0

quick_framed : List ℕ → List ℕ
unfolding quick_walk_of
quick_framed f = elim (quick_walk_of f).fault [ None ↦ f | Some x ↦ take x.at f ]

quick_opening : List ℕ → Answer Heading
unfolding quick_walk_of quick_heading
quick_opening f = do
  _ ← hold 1 (leb (length f) file_limit)
  let boxes = (quick_walk_of f).boxes
  h ← quick_heading (first_two f boxes)
  given (record { boxes = boxes; inner = h.inner; urls = h.urls; mixed = h.mixed })

module _ (limit : ℕ) (f : List ℕ) (h : Heading) where
  quick_beside : List Segment → Box → Answer Segment
  unfolding quick_segment
  quick_beside kept b = do
    _ ← hold 13 (leb (length kept + 1) segment_limit)
    s ← quick_segment limit f h kept b
    _ ← hold 25 (agreed (kept ++ (s ∷ [])))
    _ ← hold 40 (leb (source_count (kept ++ (s ∷ []))) layer_limit)
    given s

  quick_kept_with : List Segment → Box → List Segment
  unfolding quick_beside
  quick_kept_with kept b = elim (is pseg b) [ true ↦ elim (quick_beside kept b) [ refused n ↦ kept | given s ↦ kept ++ (s ∷ []) ] | false ↦ kept ]

  quick_kept_from : List Segment → List Box → List Segment
  unfolding quick_kept_with
  quick_kept_from kept [] = kept
  quick_kept_from kept (b ∷ bs) = quick_kept_from (quick_kept_with kept b) bs

  quick_kept_of : List Segment
  unfolding quick_kept_from
  quick_kept_of = quick_kept_from [] (drop 2 h.boxes)

  quick_stays : Box → Bool
  unfolding quick_kept_of
  quick_stays b = is pdat b || (h.mixed && some_of (lies_in b) (chunks_of quick_kept_of))

  quick_fate_of : List Segment → Box → Fate
  unfolding quick_beside quick_stays
  quick_fate_of kept b =
      elim (is pseg b) [
        | true ↦ elim (quick_beside kept b) [ refused n ↦ dropped n | given s ↦ of_pseg s ]
        | false ↦
            elim (hold 7 (not (is ftyp b)) >>= λ _. hold 9 (not (is pfil b)) >>= λ _. hold 0 (quick_stays b)) [
              | refused n ↦ dropped n
              | given _ ↦ whole
            ]
      ]

  quick_fates_from : List Segment → List Box → List Fated
  unfolding quick_fate_of quick_kept_with
  quick_fates_from kept [] = []
  quick_fates_from kept (b ∷ bs) = record { box = b; fate = quick_fate_of kept b } ∷ quick_fates_from (quick_kept_with kept b) bs

  quick_fates : List Fated
  unfolding quick_fates_from
  quick_fates =
      record { box = box_at 0 h.boxes; fate = whole }
      ∷ record { box = box_at 1 h.boxes; fate = of_pfil h.inner }
      ∷ quick_fates_from [] (drop 2 h.boxes)

quick_salvage : ℕ → List ℕ → Answer (List ℕ)
unfolding quick_opening quick_framed quick_fates
quick_salvage limit f = do
  h ← quick_opening f
  given (copied (quick_framed f) (quick_fates limit (quick_framed f) h))

quick_salvaged : ℕ → List ℕ → List ℕ → Answer (List ℕ)
unfolding quick_salvage
quick_salvaged limit f buffer = do
  copy ← quick_salvage limit f
  _ ← hold 33 (fits copy buffer)
  given copy

quick_salvage_text : ℕ → ℕ → List ℕ → List ℕ
unfolding quick_opening quick_framed quick_fates quick_walk_of
quick_salvage_text limit most input =
    elim (hold 27 (leb (length input) most) >>= λ _. quick_opening input) [
      | refused n ↦ refused_line n
      | given h ↦ dropped_lines (quick_fates limit (quick_framed input) h) (quick_walk_of input).fault
    ]

-- it is salvage
walk_of_left : (f : List ℕ) → walk_of f ≡ quick_walk_of f
unfolding walk_of walked_in quick_walk_of
walk_of_left f = sym (quick_left File f (length f) box_limit 0)

framed_left : (f : List ℕ) → framed f ≡ quick_framed f
unfolding framed quick_framed
framed_left f = ap (λ (w : Walked). elim w.fault as (λ _. List ℕ) [ None ↦ f | Some x ↦ take x.at f ]) (walk_of_left f)

opening_left : (f : List ℕ) → opening f ≡ quick_opening f
unfolding opening quick_opening
opening_left f = simp (walk_of_left, heading_left)

module _ (limit : ℕ) (f : List ℕ) (h : Heading) where
  beside_left : (kept : List Segment) (b : Box) → beside limit f h kept b ≡ quick_beside limit f h kept b
  unfolding beside quick_beside
  beside_left kept b = simp segment_left

  kept_with_left : (kept : List Segment) (b : Box) → kept_with limit f h kept b ≡ quick_kept_with limit f h kept b
  unfolding kept_with quick_kept_with
  kept_with_left kept b =
      ap (λ (x : Answer Segment). elim (is pseg b) as (λ _. List Segment) [ true ↦ elim x [ refused n ↦ kept | given s ↦ kept ++ (s ∷ []) ] | false ↦ kept ]) (beside_left kept b)

  kept_from_left : (kept : List Segment) (bs : List Box) → kept_from limit f h kept bs ≡ quick_kept_from limit f h kept bs
  unfolding kept_from quick_kept_from
  kept_from_left kept [] = refl
  kept_from_left kept (b ∷ bs) = kept_from_left (kept_with limit f h kept b) bs ∙ ap (λ k. quick_kept_from limit f h k bs) (kept_with_left kept b)

  kept_of_left : kept_of limit f h ≡ quick_kept_of limit f h
  unfolding kept_of quick_kept_of
  kept_of_left = kept_from_left [] (drop 2 h.boxes)

  stays_left : (b : Box) → stays limit f h b ≡ quick_stays limit f h b
  unfolding stays quick_stays
  stays_left b = simp kept_of_left

  fate_of_left : (kept : List Segment) (b : Box) → fate_of limit f h kept b ≡ quick_fate_of limit f h kept b
  unfolding fate_of quick_fate_of
  fate_of_left kept b =
      ap₂ (λ (x : Answer Segment) (y : Bool).
        elim (is pseg b) as (λ _. Fate) [
          | true ↦ elim x [ refused n ↦ dropped n | given s ↦ of_pseg s ]
          | false ↦ elim (hold 7 (not (is ftyp b)) >>= λ _. hold 9 (not (is pfil b)) >>= λ _. hold 0 y) [ refused n ↦ dropped n | given _ ↦ whole ]
        ]) (beside_left kept b) (stays_left b)

  fates_from_left : (kept : List Segment) (bs : List Box) → fates_from limit f h kept bs ≡ quick_fates_from limit f h kept bs
  unfolding fates_from quick_fates_from
  fates_from_left kept [] = refl
  fates_from_left kept (b ∷ bs) =
      ap₂ (λ fate rest. record { box = b; fate = fate } ∷ rest) (fate_of_left kept b)
      (fates_from_left (kept_with limit f h kept b) bs ∙ ap (λ k. quick_fates_from limit f h k bs) (kept_with_left kept b))

  fates_left : fates limit f h ≡ quick_fates limit f h
  unfolding fates quick_fates
  fates_left = simp fates_from_left

salvage_left : (limit : ℕ) (f : List ℕ) → salvage limit f ≡ quick_salvage limit f
unfolding salvage quick_salvage
salvage_left limit f = simp (opening_left, framed_left, fates_left)

salvaged_left : (limit : ℕ) (f buffer : List ℕ) → salvaged limit f buffer ≡ quick_salvaged limit f buffer
unfolding salvaged quick_salvaged
salvaged_left limit f buffer = simp salvage_left

salvage_text_left : (limit most : ℕ) (input : List ℕ) → salvage_text limit most input ≡ quick_salvage_text limit most input
unfolding salvage_text quick_salvage_text
salvage_text_left limit most input =
    ap (λ (x : Answer Heading). go_on (hold 27 (leb (length input) most) >>= λ _. x)) (opening_left input) ∙ go (hold 27 (leb (length input) most) >>= λ _. quick_opening input)
  where
    go_on : Answer Heading → List ℕ
    go_on x = elim x [ refused n ↦ refused_line n | given h ↦ dropped_lines (fates limit (framed input) h) (walk_of input).fault ]
    go : (x : Answer Heading)
        → go_on x ≡ elim x [ refused n ↦ refused_line n | given h ↦ dropped_lines (quick_fates limit (quick_framed input) h) (quick_walk_of input).fault ]
    go (refused n) = refl
    go (given h) = simp (framed_left, fates_left, walk_of_left)

-- what is computed by that walk, and that it is what is computed
unfoldable pub quick_map_of_input : List ℕ → List ℕ
unfolding quick_map_text computing
quick_map_of_input input = quick_map_text source_limit program_limit input

unfoldable pub quick_salvaged_of : List ℕ → List ℕ → List ℕ
unfolding quick_salvaged salvage_numbers computing
quick_salvaged_of f buffer = salvage_numbers buffer (quick_salvage source_limit f) (quick_salvaged source_limit f buffer)

unfoldable pub quick_salvage_text_of : ℕ → List ℕ → List ℕ
unfolding quick_salvage_text computing
quick_salvage_text_of most input = quick_salvage_text source_limit most input

quick_map_by_text : (input : List ℕ) → quick_map_text source_limit program_limit input ≡ quick_map_of_input input
unfolding quick_map_of_input
quick_map_by_text input = refl

quick_salvaged_by_numbers : (f buffer : List ℕ)
    → salvage_numbers buffer (quick_salvage source_limit f) (quick_salvaged source_limit f buffer) ≡ quick_salvaged_of f buffer
unfolding quick_salvaged_of
quick_salvaged_by_numbers f buffer = refl

quick_salvage_by_text : (most : ℕ) (input : List ℕ) → quick_salvage_text source_limit most input ≡ quick_salvage_text_of most input
unfolding quick_salvage_text_of
quick_salvage_by_text most input = refl

pub map_of_input_left : (input : List ℕ) → map_of_input input ≡ quick_map_of_input input
map_of_input_left input = sym (map_by_text input) ∙ map_text_left source_limit program_limit input ∙ quick_map_by_text input

pub salvaged_of_left : (f buffer : List ℕ) → salvaged_of f buffer ≡ quick_salvaged_of f buffer
salvaged_of_left f buffer =
    sym (salvaged_by_numbers f buffer) ∙ ap₂ (salvage_numbers buffer) (salvage_left source_limit f) (salvaged_left source_limit f buffer)
    ∙ quick_salvaged_by_numbers f buffer

pub salvage_text_of_left : (most : ℕ) (input : List ℕ) → salvage_text_of most input ≡ quick_salvage_text_of most input
salvage_text_of_left most input = sym (salvage_by_text most input) ∙ salvage_text_left source_limit most input ∙ quick_salvage_by_text most input
"""

USES = """use mathlib.Core.Path.{◌∙◌}
use Rattle.computed.specs.Quick.{quick_map_of_input, map_of_input_left, quick_salvaged_of, salvaged_of_left, quick_salvage_text_of, salvage_text_of_left}
"""

# What is computed by either walk.
EITHER = ("map_of_input", "salvaged_of", "salvage_text_of")

# A statement, and its proof by the other walk; what the name of its first step ends in.
STEP = "-quick"
STATEMENT = """%(name)s-quick : quick_%(opened)s %(given)s ≡ %(wanted)s
unfolding quick_%(opened)s
%(name)s-quick = refl

%(name)s : %(opened)s %(given)s ≡ %(wanted)s
%(name)s = %(opened)s_left %(given)s ∙ %(name)s-quick
"""


def needs(case):
    """Whether a case is read by the other walk."""
    made_from, _, file = case.source.partition(" ")
    return made_from == "file" and len(file) > 2 * SMALL and case.term.startswith(EITHER)


def statement(case, wanted):
    opened, given = case.term.split(" ", 1)
    return STATEMENT % {"name": case.name, "opened": opened, "given": given, "wanted": wanted}
