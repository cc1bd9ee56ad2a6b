/* Hookup sheets from cable lists: the calls for programs in C and C++.
 *
 * Link with crates/exports/out/libexports.a, which `rt lib` in crates/exports proves and writes. It is made for x86-64
 * and Linux, and needs memcpy and memset and nothing else.
 *
 * This header says in words what the contracts say and the proofs show. docs/FORMAT.md has the rules in full: the
 * order of the parts, the columns and rows of a sheet, and worked examples.
 *
 * Contracts: crates/exports/src/lib.rt has those of the calls that draw, crates/exports/src/operations.rt those of the
 * editor's, crates/exports/src/canonical_form.rt that of dovranis_canonicalize, crates/exports/src/signal_levels.rt
 * that of dovranis_levels, crates/exports/src/sheet_check.rt that of dovranis_check_sheet, and
 * crates/exports/src/pointing.rt those of dovranis_locate, dovranis_cable_words and dovranis_cable_bounds. They cite
 * Call.antt, Editing.antt, CanonicalForm.antt, SignalLevels.antt, SheetCheck.antt and Pointing.antt in
 * crates/exports/specs, which say what answer a result and what is lent stand for. The answer itself is that of
 * drafting::draw (crates/drafting/src/lib.rt, by `Drew` in crates/hookup/specs/Answer.antt), of editing::propose and
 * editing::commit (crates/editing/src/lib.rt, by `proposed` and `effect` in crates/editor/specs/Operations.antt), of
 * canonicalizing::canonicalize (crates/canonicalizing/src/lib.rt, by `Canonicalizes` in
 * crates/canonical/specs/Outcome.antt), of levelling::find_levels (crates/levelling/src/lib.rt, by `FindsLevels` in
 * crates/levels/specs/Outcome.antt), of validating::check_sheet (crates/validating/src/lib.rt, by `Validates` in
 * crates/validation/specs/Outcome.antt), or of locating::locate, selecting::select_cable and selecting::cable_bounds
 * (crates/locating/src/lib.rt and crates/selecting/src/lib.rt, by `Locates`, `Selects` and `Encloses` in
 * crates/location/specs/Outcome.antt). A law that is named below without a file is in crates/exports/proofs/Calls.antt.
 *
 *
 * WORDS
 *
 * Lists, sheets, sorts, marks and hits are rows of 32-bit words in the machine's own byte order. Bits 31 to 28 are the
 * kind, but of a mark. Unless said otherwise bits 27 to 24 are zero, and two fields follow, in bits 23 to 12 and in
 * bits 11 to 0.
 *
 *   kind  word          fields
 *   1     list head     n, the count of parts, in bits 27 to 16; m, the count of cables, in bits 15 to 0
 *   2     ends          source, analyser
 *   3     cable         its two parts
 *   4     sheet head    width, height
 *   5     part          x, y
 *   6     cable         line in bits 27 to 12; count of its corners in bits 11 to 0
 *   7     corner        x, y
 *   8     length        line in bits 27 to 12; grid steps along that cable's line in bits 11 to 0
 *   9     sort          0 a joint, 1 a pad, 2 an amplifier, in bits 27 to 24; bits 23 to 16 are zero; the pad's loss or
 *                       the amplifier's gain in 1/64 dB, 0 for a joint, in bits 15 to 0
 *   10    total length  grid steps of all cables in bits 27 to 0
 *   11    hit           what lies at a mark, in bits 27 to 24: 0 blank, 1 a part, 2 a cable, 3 two cables crossing;
 *                       then the part and 0, the line and 0, the lower line and the higher, or two zeros if blank
 *   0     price         cents, of a cable or of all cables, in bits 27 to 0
 *         mark          x in bits 31 to 16, y in bits 15 to 0: it has no kind, and every word is a mark
 *
 * A list is one head, one ends word and m cables. Parts are numbered from 0, and so are the lines of the cables.
 * Several cables may join the same two parts, named either way round; they are told apart by their lines. A sheet is
 * its head, the parts by number, the cables by line, each followed by its corners from the lower-ranked end upward,
 * then the lengths by line and their total. A call that is given a discount ends it with the bill: the prices by line
 * and their total. x is counted from the left and y from the bottom, both from 0. The sorts of a station's parts are n
 * words of kind 9, by part number.
 *
 *
 * RESULTS AND CHECKS
 *
 * A result of 0 is a sheet, a proposal, a cable added, a canonical list, levels, a sheet that is accepted, hits, a
 * cable's words or its box, and any other is the number of the check that refuses. Every list, every row and every
 * number is answered. A refusal stores its place and nothing else, but that dovranis_cable_words stores the empty part
 * then. Each check is made over the whole list, 17 and 18 over all sorts, 19 and 20 over the sheet, before the next,
 * and the first that applies is the refusal.
 *
 *   number  condition                                                                     place
 *   1       fewer than two words                                                          words found
 *   2       a word's kind is wrong for its position, or any of its bits 27 to 24 is set
 *           in kind 2 or 3                                                                first such word, from 0
 *   3       words other than m + 2                                                        m + 2
 *   4       n below 3 or above 512                                                        n
 *   5       a part number n or more                                                       first such word
 *   6       source equals analyser, or a cable joins a part to itself                     first such word
 *   7       none: the number is empty
 *   8       a part with more than four cables                                             lowest such part
 *   9       a part that part 0 doesn't reach                                              lowest such part
 *   10      a part whose removal leaves some other part that reaches neither source nor
 *           analyser, whichever of them remain                                            lowest such part
 *   11      the output is shorter than the sheet, with its bill where it has one, or
 *           than the canonical list, or than 2n floats, or than the marks                 words of that, m + 2, 2n,
 *                                                                                         or the number of marks
 *   12      a discount above 10,000                                                       the discount
 *   13      a pitch of 0 or above 64, or a margin above 255; the first of these faults    0 the column pitch,
 *           in the sequence of their places                                               1 the row pitch, 2 the margin
 *   14      a coordinate or a head field above 4,095                                      largest such number
 *   15      a proposal whose version is not m                                             m
 *   16      no word is left in the row: row_count is m + 2                                row_count
 *   17      sorts other than n words, or one of a wrong kind, with a sort above 2, or     first such word, or n where
 *           with any of its bits 23 to 16 set                                             only their count is wrong
 *   18      a sort whose number is above 6,400, or not 0 at a joint                       lowest such part
 *   19      a word of the sheet is out of the layout or missing, or is a point beyond
 *           the sheet's head                                                              first such word
 *   20      a cable of the sheet breaks the rules by itself, or, where none does, two     lowest such cable, or lowest
 *           cables meet wrongly                                                           cable of any such pair
 *   21      more than 64 marks                                                            their number
 *   22      a list or a sheet that dovranis_check_sheet refuses, whatever its number
 *           there                                                                         the place given there
 *   23      a line that is m or more                                                      that line
 *
 * Of the lists that pass 1 to 9, check 10 refuses exactly those whose parts have no st-ordering from source to analyser
 * (`passes_iff` in crates/order/proofs/SeparatingParts.antt). A chain of parts between the two passes.
 *
 *   call                          checks, in this sequence
 *   dovranis_draw                         1 to 10,     11
 *   dovranis_draw_quoted          12,     1 to 10,     11
 *   dovranis_draw_spaced              13, 1 to 10, 14, 11
 *   dovranis_draw_quoted_spaced   12, 13, 1 to 10, 14, 11
 *   dovranis_propose              1 to 8 of the list in the row,     5, 6 and 8 of the new cable, 16
 *   dovranis_commit               1 to 8 of the list in the row, 15, 5, 6 and 8 of the new cable, 16
 *   dovranis_canonicalize                 1 to 8,      11
 *   dovranis_levels                       1 to 10 of the list, 17 and 18 of the sorts, 11
 *   dovranis_check_sheet                  1 to 10 of the list, 19 and 20 of the sheet
 *   dovranis_locate               21, 22, 11
 *   dovranis_cable_words              22, 23
 *   dovranis_cable_bounds             22, 23
 *
 *
 * WHAT HOLDS OF EVERY SHEET
 *
 * The sheet is a head, n parts, m cables with their corners, m lengths and the total, and m + 1 prices where a
 * discount is given, with no word more. No two parts share a spot, and by rising row they are the smallest st-ordering
 * from source to analyser. Each cable is level and upright runs in turn from one of its two parts to the other. It does
 * not touch itself or a part that it doesn't join, and its own parts only with its ends. Any two cables have at most
 * one crossing, and any other spot that they share is that of a part that both join; this holds of two cables between
 * the same two parts as well. There are at most 2m - 2n + 4 corners. On the grid the width is m - n + 1 and the height
 * at most n + 1. A cable's length is the summed distance between the neighbouring points of its line on the grid, at
 * most 3n + 5, and the total is the sum of all lengths. All this is said of the words that the call leaves in the
 * output, in every spacing.
 *
 * No cable has more than two corners where the two lowest ranks are not joined more than once, and the two highest
 * neither: the first two parts and the last two by rising row. On every other sheet at most two cables have more than
 * two corners, and these have three. They are the bottom connection, which leaves a source of four cables downward, the
 * lowest line of those to the second part; and the top connection, which climbs over an analyser of four cables, the
 * lowest line of those from the last part but one (`ManyBends` and `Bends` in crates/drawing/specs/Sizes.antt).
 *
 *
 * MEMORY, AND WHAT THE CALLER SEES TO
 *
 * Of the caller's memory a call reads and writes nothing but the rows and the numbers that are lent to it, and what is
 * lent as const is only read. A call keeps nothing for the next and allocates no memory, so that calls may run at the
 * same time as long as the caller sees to what follows.
 *
 * The caller sees to this; nothing tests it:
 * - A row of words (list, sheet, row, canonical, sorts, marks, hits) has as many words as the count behind it says and
 *   is aligned as uint32_t, the row of floats (levels) has as many floats and is aligned as float, and each has at most
 *   PTRDIFF_MAX bytes. With a count of 0 the pointer is not followed and may be null.
 * - words, crossings, floats, start, count, place and version each point to a number, and bounds to a box, whatever the
 *   result will be: none may be null.
 * - The rows and the numbers of a call lie apart: no two of them overlap.
 * - Until the call returns nothing else writes what is lent as const, and nothing else reads or writes the rest. Before
 *   the call the output and the numbers may hold anything, an output of floats NaNs too.
 * - There are 128 KiB of stack, and 256 KiB for dovranis_check_sheet and the three calls behind it. The proofs do not
 *   bound the stack; the tests call with so much. On stations of up to 512 parts the calls that draw were seen to take
 *   72,872 bytes of it, dovranis_levels 25,896, dovranis_check_sheet and the three behind it 222,376, and the others
 *   2,216. What dovranis_check_sheet takes is for tables of fixed size: no list and no sheet makes it take more than
 *   512 KiB.
 */
#ifndef DOVRANIS_H
#define DOVRANIS_H

#include <stddef.h>
#include <stdint.h>

#ifdef __cplusplus
extern "C" {
#endif

/* An output of so many words is long enough for the sheet of every list: with it, or with a longer one, 11 never comes
 * (the laws `plain_never_11` and `spaced_never_11`), and a longer one changes no answer (`room_ample` in
 * crates/hookup/proofs/Ample.antt). Some stations need them all. */
#define DOVRANIS_MOST_WORDS 3590

/* DOVRANIS_MOST_WORDS, for programs that do not read this header. */
size_t dovranis_most_words(void);

/* The same for sheets that end with a bill (`quoted_never_11`, `quoted_spaced_never_11`). Some stations need them
 * all. */
#define DOVRANIS_MOST_QUOTED_WORDS 4615

/* DOVRANIS_MOST_QUOTED_WORDS, for programs that do not read this header. */
size_t dovranis_most_quoted_words(void);

/* Draws the sheet of a list into the output `sheet`, or says why the list is sent back.
 *
 *   result     0 for a sheet, else the number of the check that refuses, 1 to 11
 *   sheet      of a sheet: its first *words words are the sheet's, and those behind them are as they were
 *              of a refusal: as it was, every word
 *   words      of a sheet: the words of the sheet, at most sheet_count and at most DOVRANIS_MOST_WORDS; else as it was
 *   crossings  of a sheet: all pairs of cables whose lines cross, those that share a part too; else as it was
 *   place      of a refusal: the place that goes with the number; else as it was
 *
 * Width and height are the greatest x and y. The result, and all that is stored, depends on the words of the list and
 * on sheet_count alone.
 */
uint32_t dovranis_draw(const uint32_t *list, size_t list_count, uint32_t *sheet, size_t sheet_count,
                       size_t *words, size_t *crossings, size_t *place);

/* Draws the sheet of a list for a customer with a discount, in hundredths of a percent: the sheet of dovranis_draw and
 * behind it the bill, m + 1 words of kind 0. Every discount is answered: 0 gives full prices and 10,000 gives zeros.
 *
 *   result  0 for a sheet, else the number of the check that refuses, 1 to 12
 *   words   of a sheet: the words of the sheet with its bill, at most DOVRANIS_MOST_QUOTED_WORDS
 *   the rest as with dovranis_draw
 *
 * A cable's price is that of the shortest ready length that covers the steps in its own word of kind 8. There are ready
 * lengths of 2, 3, 4, 6, 8, 12, 16, 24, 32, 48, 64, 96, 128, 192, 256, 384, 512, 768, 1,024, 1,536 and 2,048 steps; one
 * costs 900 cents and 35 cents a step, so that no cheaper one covers these steps. The discount comes off this price,
 * and what remains is rounded once to the cent, half a cent upward: of 970 cents a discount of 500, which is 5 percent,
 * leaves 921.5 cents, and the word says 922. The last word is the sum of these prices. The result, and all that is
 * stored, depends on the words of the list, on sheet_count and on the discount alone.
 */
uint32_t dovranis_draw_quoted(const uint32_t *list, size_t list_count, uint32_t *sheet,
                              size_t sheet_count, uint32_t discount, size_t *words,
                              size_t *crossings, size_t *place);

/* Draws the sheet of a list in a spacing, for print: columns column_pitch apart, rows row_pitch apart, and a margin
 * around them. With pitches of 1 and a margin of 0 every answer and every word is that of dovranis_draw.
 *
 *   result  0 for a sheet, else the number of the check that refuses, 1 to 11, 13 or 14
 *   the rest as with dovranis_draw: as many words, and the same crossings, which are also those of the spaced lines
 *
 * A part or a corner that stands at x, y on the sheet of dovranis_draw stands at margin + x * column_pitch,
 * margin + y * row_pitch here. The head carries the greatest x plus the margin and the greatest y plus the margin:
 * twice the margin and column_pitch times the grid's width, twice the margin and row_pitch times the grid's height.
 * Words of kind 6, 8 and 10 do not change with the spacing: lengths count steps of the grid. 14 comes before 11: it
 * is given whatever the length of the output. The result, and all that is stored, depends on the words of the list, on
 * sheet_count, on the two pitches and on the margin alone.
 */
uint32_t dovranis_draw_spaced(const uint32_t *list, size_t list_count, uint32_t *sheet,
                              size_t sheet_count, uint32_t column_pitch, uint32_t row_pitch,
                              uint32_t margin, size_t *words, size_t *crossings, size_t *place);

/* Draws the sheet of a list in a spacing for a customer with a discount: the sheet of dovranis_draw_spaced and behind
 * it the bill of dovranis_draw_quoted, which does not change with the spacing, since its prices are those of the
 * lengths in steps of the grid.
 *
 *   result  0 for a sheet, else the number of the check that refuses, 1 to 14
 *   words   of a sheet: the words of the sheet with its bill, at most DOVRANIS_MOST_QUOTED_WORDS
 *   the rest as with dovranis_draw_spaced
 *
 * The result, and all that is stored, depends on the words of the list, on sheet_count, on the discount, on the two
 * pitches and on the margin alone.
 */
uint32_t dovranis_draw_quoted_spaced(const uint32_t *list, size_t list_count, uint32_t *sheet,
                                     size_t sheet_count, uint32_t discount, uint32_t column_pitch,
                                     uint32_t row_pitch, uint32_t margin, size_t *words,
                                     size_t *crossings, size_t *place);

/* A list that grows cable by cable in a row, which is lent to the two calls below. They draw nothing.
 *
 * The list in a row is the row's first m + 2 words, where m is bits 15 to 0 of its first word, or the whole row where
 * it has fewer. It begins as a head with m = 0 and an ends word. The words behind the list are room for cables and may
 * hold anything: no answer depends on them (`propose_same`, `commit_same` in crates/editor/proofs/Behind.antt). No list
 * that passes check 8 has more than 2n cables, so that a row of 2n + 2 words, at most 1,026, has room for every cable
 * that may be added (`always_room` in crates/editor/proofs/Refusals.antt).
 *
 * From a row whose list passes checks 1 to 8, with nothing else writing to it, any run of the two calls, whatever they
 * are given, leaves that list followed by the cables of the commits with result 0, in their sequence, with m raised by
 * their number. It passes checks 1 to 8 again, and every word behind it is as it was (`grown` in
 * crates/editor/proofs/Runs.antt). With list_count = m + 2 it is a list for the calls above.
 *
 * A proposal, the documents' 'slip', is a cable between the parts one and other, and a version, the count of cables
 * for which it was made. dovranis_propose tells the version; dovranis_commit answers any three numbers. */
struct dovranis_proposal {
    uint32_t one;
    uint32_t other;
    uint32_t version;
};

/* The documents' 'try': whether the list in a row may have a cable between two parts behind its last. The row is only
 * read.
 *
 *   result   0 for a proposal, else the number of the check that refuses, 1 to 8 or 16
 *   version  of a proposal: m; one, other and this version are the proposal, and its own field may be lent here
 *            of a refusal: as it was
 *   place    of a refusal: the place that goes with the number; else as it was
 *
 * First the list in the row is checked as it is, by 1 to 8: a row of fewer than two words gets 1, and any other of
 * fewer than m + 2 words gets 2 where a word of it is wrong, and else 3. Then the cable gets what the list with this
 * cable as its last word, word m + 2, would get (`among_5_6_8` in crates/editor/proofs/Verdicts.antt): 5 at m + 2 where
 * a part number is n or more, however large; 6 at m + 2 where the two are equal; 8 at the lowest of the two that has
 * four cables in the list. That cables of the list join the two already is no refusal. Last comes 16. On a row of the
 * same words the proposal is committed (`fresh_commits` in crates/editor/proofs/Effects.antt). The result, and all that
 * is stored, depends on the list in the row, on row_count and on the two part numbers alone.
 */
uint32_t dovranis_propose(const uint32_t *row, size_t row_count, uint32_t one, uint32_t other,
                          uint32_t *version, size_t *place);

/* The documents' 'lay': adds the cable of a proposal to the list in a row. What dovranis_propose checks is checked
 * anew, so that a proposal may come from anywhere: late, twice, or made up by the caller.
 *
 *   result  0 for a cable that is added, else the number of the check that refuses, 1 to 8, 15 or 16
 *   row     of a cable added: word m + 2 is the cable's, of kind 3 with one and other as they stand in the proposal;
 *           word 0 is the head with m + 1 in place of m; every other word is as it was
 *           of a refusal: as it was, every word
 *   place   of a refusal: the place that goes with the number; else as it was
 *
 * Checks 1 to 8 of the list in the row come first, then 15, then those of the cable, and last 16. Once a proposal's
 * cable is added, that proposal and all others of its version get 15 ever after, as long as nothing else writes the row
 * (`laid_once` in crates/editor/proofs/Runs.antt). The result, and all that is stored, depends on the list in the row,
 * on row_count and on the proposal alone.
 */
uint32_t dovranis_commit(uint32_t *row, size_t row_count, struct dovranis_proposal proposal,
                         size_t *place);

/* Puts a list into canonical form, the documents' 'settled form', in the output `canonical`, or says why it is sent
 * back. Nothing is drawn, and the station need not be connected: checks 9 and 10 are not made.
 *
 *   result     0 for a canonical list, else the number of the check that refuses, 1 to 6, 8 or 11
 *   canonical  of a canonical list: its first *words words are that list, and those behind them are as they were
 *              of a refusal: as it was, every word
 *   words      of a canonical list: m + 2, which is list_count; else as it was
 *   place      of a refusal: the place that goes with the number; else as it was
 *
 * The canonical list is the head and the ends as they are, and all m cables, each with its smaller part first, rising
 * by first part, then by second. A cable that is repeated stands as often as in the list. An output of list_count words
 * is always long enough (`list_suffices` in crates/canonical/proofs/Answers.antt). The canonical list passes checks 1
 * to 8 (`canonical_passes` in crates/canonical/proofs/Passes.antt), and its own canonical form is that list again. The
 * result, and all that is stored, depends on the words of the list and on canonical_count alone.
 *
 * Two lists that pass checks 1 to 8 have the same canonical form exactly if they are lists of one station: n, source
 * and analyser are equal, and any two parts are joined by equally many cables, named either way round (`canonical_iff`
 * in crates/canonical/proofs/Canonical.antt). Such lists get the same result and place from checks 9 and 10, and where
 * they pass, their parts stand in the same order (`same_verdict` and `same_order` in
 * crates/canonical/proofs/Orders.antt). On their sheets the head is the same, every part stands on the same spot, the
 * crossings are as many, and there are the same routes from part to part, each as often (`same_drawing` in
 * crates/hookup/proofs/SameStations.antt, of the grid; a spacing moves both alike). Lines have other numbers, so that
 * the words of cables, lengths and prices stand in another sequence, and which of two cables between the same two parts
 * is which may differ.
 */
uint32_t dovranis_canonicalize(const uint32_t *list, size_t list_count, uint32_t *canonical,
                               size_t canonical_count, size_t *words, size_t *place);

/* An output of so many floats is long enough for the levels of every list: two for each of 512 parts, the most that
 * check 4 lets pass (`most_suffices` in crates/levels/proofs/Answers.antt). There is no function for it. */
#define DOVRANIS_MOST_LEVELS 1024

/* Finds the least and the greatest signal level at every part, in dB, or says why list or sorts are sent back. Nothing
 * is drawn.
 *
 *   result  0 for levels, else the number of the check that refuses, 1 to 6, 8 to 11, 17 or 18
 *   levels  of levels: its first *floats floats are the levels by part number, each part's least before its greatest,
 *           and those behind them are as they were (the proofs tell no NaN from another; that each keeps its bits is
 *           tested)
 *           of a refusal: as it was, every float
 *   floats  of levels: 2n, at most level_count and at most DOVRANIS_MOST_LEVELS; else as it was
 *   place   of a refusal: the place that goes with the number; else as it was
 *
 * A route leads from the source by cables that each climb in rank, the order in which a sheet has the parts by rising
 * row. Its level starts at 0; each of its parts, the source and the last one too, adds its gain or subtracts its loss.
 * The source's only route is the source alone. Of all routes to a part some has its least level, some its greatest, and
 * no other level lies outside these two (`LevelsAt` in crates/levels/specs/Promises.antt): they are the shortest and
 * the longest paths of a directed acyclic graph, the st-graph of the smallest st-ordering.
 *
 * A float is IEEE 754's binary32. Levels are multiples of 1/64 from -51,200 to 51,200, which it holds exactly, and no
 * sum is rounded. Zero is positive zero: 0x80000000 never occurs.
 *
 * 17 looks at all sorts that are lent, also behind the n-th, and 18 at a row that has passed 17. Two lists that pass
 * checks 1 to 8 and have the same canonical form get the same answer (`same_answer` in
 * crates/levels/proofs/SameStations.antt). The result, and all that is stored, depends on the words of the list, on the
 * sorts and on level_count alone.
 */
uint32_t dovranis_levels(const uint32_t *list, size_t list_count, const uint32_t *sorts,
                         size_t sort_count, float *levels, size_t level_count, size_t *floats,
                         size_t *place);

/* Holds a sheet, such as one from another drawing tool, against its list: it is accepted, or the call says why it is
 * sent back. Nothing is drawn, and neither row is written.
 *
 *   result  0 for a sheet that is accepted, else the number of the check that refuses, 1 to 6, 8 to 10, 19 or 20
 *   place   of a refusal: the place that goes with the number; else as it was
 *
 * 19 goes by position. Word 0 is of kind 4, with the width and the height of the head. Words 1 to n are of kind 5, the
 * parts by number. Then comes each cable by line: a word of kind 6 with that line and a count of corners, and as many
 * words of kind 7. Bits 27 to 24 are zero in kinds 4, 5 and 7. No x is above the width and no y above the height, which
 * may be larger than any of them. Reading stops behind the corners of the last cable: whatever stands there, lengths, a
 * bill or other words, changes no answer, and nothing need stand there (`rest_unread` and `cut_unread` in
 * crates/validation/proofs/Unread.antt). The place of a word that is missing is the index where it would stand, which
 * is sheet_count.
 *
 * 20 is about the lines that these words show, as said under WHAT HOLDS OF EVERY SHEET. A cable is right by itself if,
 * with its corners read from one of its two parts to the other, either way, it is level and upright runs in turn, each
 * of nonzero length, and does not touch itself or a part that it doesn't join, and its own parts only with its ends.
 * Two cables meet rightly if they have at most one crossing, and any other spot that they share is that of a part that
 * both join. The place is the lowest line that is not right by itself; where all are, the lowest of any pair that does
 * not meet rightly. What is said there of sizes, counts of corners and lengths is not asked for. Spots are whole
 * numbers: two cables on the same straight run between parts one step apart share only the spots of their parts, and
 * are accepted; where the parts are two steps apart they also share the spot between them, and get 20.
 *
 * With a list that passes checks 1 to 10, a sheet is accepted exactly if its words follow the layout, no point is
 * beyond the head, and all cables are right by themselves and meet rightly (`Accepted` in
 * crates/validation/specs/Outcome.antt; `Validates` has both directions). Every sheet that the calls above draw is
 * accepted with its list, in every spacing, with a bill or without one (`drawn_passed` in
 * crates/acceptance/proofs/Passing.antt), and so are its words up to the last cable's corners.
 *
 * A cable may have 4,095 corners, so that a sheet may have millions of words. The call goes through the rows of the
 * head one after the other. Beyond checks 1 to 10, and clearing tables of 192 KiB, it takes steps in proportion to
 * (width + height + 2) * (words of the sheet) at most, whatever the sheet; this is not proved. The result, and what is
 * stored, depends on the words of the list and on those of the sheet up to the last cable's corners alone.
 */
uint32_t dovranis_check_sheet(const uint32_t *list, size_t list_count, const uint32_t *sheet,
                              size_t sheet_count, size_t *place);

/* So many marks are answered in one call. */
#define DOVRANIS_MOST_MARKS 64

/* Says what lies at marks on a sheet, or why marks, list or sheet are sent back.
 *
 *   result  0 for hits, else the number of the check that refuses, 11, 21 or 22
 *   hits    of hits: its first mark_count words are the hits, in the marks' sequence, and those behind them are as they
 *           were
 *           of a refusal: as it was, every word
 *   place   of a refusal: the place that goes with the number; else as it was
 *
 * A mark at a part's spot gets that part alone, whatever cables end there. Any other mark gets the one cable whose line
 * has the spot, corners too, or the two that cross there, the lower line first, or blank: on a sheet that is accepted
 * no spot but that of a part has three cables, or two that do not cross there (`two_cross` and `no_third` in
 * crates/location/proofs/Sharing.antt), so that there is one right answer and no fifth (`one_answer` there). A mark
 * beyond the head is blank. Each mark is answered as if alone (`as_if_alone` in crates/location/proofs/Locating.antt).
 *
 * The sheet is judged once, as by dovranis_check_sheet; then each mark takes steps in proportion to the words of the
 * sheet at most. The result, and what is stored, depends on the words of the list, on those of the sheet up to the last
 * cable's corners, on the marks and on hit_count alone.
 */
uint32_t dovranis_locate(const uint32_t *list, size_t list_count, const uint32_t *sheet,
                         size_t sheet_count, const uint32_t *marks, size_t mark_count,
                         uint32_t *hits, size_t hit_count, size_t *place);

/* Says where in a sheet the own words of a cable stand, its word of kind 6 and its corners, or why list, sheet or line
 * are sent back. Nothing is copied: sheet[*start] to sheet[*start + *count - 1] are the cable's. In Rattle
 * selecting::cable_words returns that part of the lent sheet itself; a call for C cannot return it, and gives its start
 * and its count.
 *
 *   result  0 for a cable's words, else the number of the check that refuses, 22 or 23
 *   start   of a cable's words: the index of the first; of a refusal: 0
 *   count   of a cable's words: 1 and the count of its corners; of a refusal: 0, so that the part is empty
 *   place   of a refusal: the place that goes with the number; else as it was
 *
 * The result, and what is stored, depends on the words of the list, on those of the sheet up to the last cable's
 * corners and on the line alone.
 */
uint32_t dovranis_cable_words(const uint32_t *list, size_t list_count, const uint32_t *sheet,
                              size_t sheet_count, size_t line, size_t *start, size_t *count,
                              size_t *place);

/* A box: the least and the greatest x, left and right, and the least and the greatest y, bottom and top. */
struct dovranis_bounds {
    uint16_t left;
    uint16_t bottom;
    uint16_t right;
    uint16_t top;
};

/* Finds the box around a cable, for a screen that zooms to it, or says why list, sheet or line are sent back.
 *
 *   result  0 for a box, else the number of the check that refuses, 22 or 23
 *   bounds  of a box: the smallest that holds all points of the cable, the spots of its two parts and of its corners;
 *           of a refusal: as it was
 *   place   of a refusal: the place that goes with the number; else as it was
 *
 * A point lies on each side of the box, and every box that holds all points holds this one (`Smallest` in
 * crates/bounds/specs/Boxes.antt). The result, and what is stored, depends on the words of the list, on those of the
 * sheet up to the last cable's corners and on the line alone.
 */
uint32_t dovranis_cable_bounds(const uint32_t *list, size_t list_count, const uint32_t *sheet,
                               size_t sheet_count, size_t line, struct dovranis_bounds *bounds,
                               size_t *place);

#ifdef __cplusplus
}
#endif

#endif
