#!/usr/bin/env python3
"""Respells the repository's own definitions and lemmas in the toolchain's style: words in snake case, a dash only
where it joins two names. Run once, at the top, after the toolchain's own port script; a second run changes nothing.
Names of src/, strings, inputs and outputs stay as they are."""
import glob
import re

# an old name and its new one
NAMES = dict(row.split() for row in """
afterField after_field
afterLength after_length
allAbove all_above
allDays all_days
and-true and_true
at-start at_start
at-zones at_zones
awardForm award_form
awardText award_text
backedImport backed_import
backedOf backed_of
backingFrom backing_from
behind-before behind_before
behind-none behind_none
buyoutCharge buyout_charge
buyoutRate buyout_rate
bytes-append bytes_append
bytes-in-parts bytes_in_parts
bytes-more bytes_more
bytesView bytes_view
calendarFits calendar_fits
calendarNumbers calendar_numbers
calendarView calendar_view
called-has called_has
canTake can_take
cap-least cap_least
cap-of cap_of
capabilityFits capability_fits
capacityFits capacity_fits
causeMeaning cause_meaning
causeOf cause_of
causeText cause_text
chargeFactor charge_factor
check-err check_err
check-no check_no
check-number check_number
check-ok check_ok
check-passed check_passed
checked-holds checked_holds
checked-is checked_is
checked-reads checked_reads
checkedAt checked_at
decodeBy decode_by
digitOf digit_of
drop-on drop_on
encode-few encode_few
encode-high encode_high
encode-low encode_low
encode-some encode_some
encodeBy encode_by
encoded-end encoded_end
encoded-fault encoded_fault
encoded-spells encoded_spells
entries-read entries_read
entries-write entries_write
entriesBy entries_by
entriesFrom entries_from
entry-reads entry_reads
entry-writes entry_writes
entryForm entry_form
entryName entry_name
entryView entry_view
entryWith entry_with
entryWriting entry_writing
every-all every_all
every-stop every_stop
familiesOf families_of
familyNumber family_number
familyOf family_of
familyView family_view
faultAt fault_at
faultOf fault_of
faultSentence fault_sentence
faultText fault_text
few-by few_by
field-then field_then
fieldsForm fields_form
fieldsText fields_text
figure-more figure_more
figure-stop figure_stop
figureCount figure_count
figures-accept figures_accept
figures-accept-back figures_accept_back
figures-in-small figures_in_small
figures-none figures_none
figures-part figures_part
figures-small figures_small
figuresFor figures_for
figuresForm figures_form
figuresIn figures_in
figuresOf figures_of
figuresView figures_view
fileBytes file_bytes
fileOf file_of
finalNet final_net
firstHour first_hour
form-has form_has
form-reads form_reads
form-writes form_writes
formAt form_at
fromHour from_hour
goOn go_on
head-reads-back head_reads_back
head-size head_size
headAnswer head_answer
headBy head_by
headBytes head_bytes
headForm head_form
headNumbers head_numbers
headView head_view
headingText heading_text
high-by high_by
holdingText holding_text
hourByHour hour_by_hour
hoursLeft hours_left
hoursText hours_text
insideRun inside_run
isFamily is_family
itemBytes item_bytes
itemInRange item_in_range
items-stop items_stop
itemsBytes items_bytes
kind-within kind_within
kindFamily kind_family
kindName kind_name
kindNumber kind_number
kindText kind_text
kindView kind_view
last-is last_is
last-part last_part
lastHour last_hour
layerNumber layer_number
lead-small lead_small
leadNumbers lead_numbers
leadOf lead_of
leadWith lead_with
leastByHour least_by_hour
leastOf least_of
leastOffer least_offer
leftIcap left_icap
listed-every listed_every
listed-other listed_other
listingOf listing_of
lodgeForm lodge_form
lodgeText lodge_text
low-is low_is
mark-within mark_within
markForm mark_form
markName mark_name
markNumber mark_number
markText mark_text
markView mark_view
marketFamilies market_families
month-more month_more
month-stop month_stop
month-then month_then
monthForm month_form
monthInRange month_in_range
monthNumbers month_numbers
monthView month_view
months-accept months_accept
months-more months_more
months-size-more months_size_more
months-small months_small
months-then months_then
monthsForm months_form
monthsView months_view
more-is more_is
moreHours more_hours
namedForm named_form
namedText named_text
no-range no_range
no-turns no_turns
number-ends number_ends
number-low number_low
number-reads number_reads
numberCause number_cause
numberedKind numbered_kind
numberedMark numbered_mark
numbers-in numbers_in-numbers_bytes
numbers-small numbers_small
numbers-spelled numbers_spelled
numbersBy numbers_by
numbersBytes numbers_bytes
numbersIn numbers_in
numbersOf numbers_of
ok-first ok_first
ok-not-err ok_not_err
ok-parts ok_parts
one-turn one_turn
oneHour one_hour
opening-accepts opening_accepts
openingForm opening_form
openingNumbers opening_numbers
part-before part_before
partText part_text
passMark pass_mark
placed-is placed_is
plainText plain_text
plainWriting plain_writing
price-more price_more
price-stop price_stop
priceIn price_in
prices-accept prices_accept
prices-small prices_small
prices-then prices_then
pricesFit prices_fit
pricesForm prices_form
pricesView prices_view
pricingFits pricing_fits
quantityText quantity_text
rateFits rate_fits
read-high read_high
read-undoes-write read_undoes_write
reading-ends reading_ends
reading-fits reading_fits
reading-large reading_large
reading-last reading_last
reading-more reading_more
reading-none reading_none
reading-padded reading_padded
reference-ends reference_ends
reference-has reference_has
reference-reads reference_reads
referenceAt reference_at
referenceBytes reference_bytes
referenceFits reference_fits
referenceOf reference_of
refusalOf refusal_of
refusedCall refused_call
rest-stop rest_stop
same-turns same_turns
scale-le scale_le
schedulesFrom schedules_from
searching-more searching_more
senderName sender_name
sharesForm shares_form
sharesNumbers shares_numbers
sharesView shares_view
sheetForm sheet_form
sheetText sheet_text
size-more size_more
spelled-in spelled_in
spelled-on spelled_on
standbyForm standby_form
standbyText standby_text
stands-join stands_join
stands-none stands_none
step-taken step_taken
stepBy step_by
storageIcap storage_icap
surveyAfter survey_after
sustainedAt sustained_at
sustainedBids sustained_bids
sustainedOf sustained_of
takeOffForm take_off_form
takenIcap taken_icap
terms-read opening_numbers-terms_read
termsOf terms_of
termsRead terms_read
testForm test_form
testText test_text
text-has text_has
text-reads text_reads
textAt text_at
then-more then_more
thenAt then_at
told-by told_by
trueUp true_up
turnView turn_view
under-bytes under_bytes
under-numbers under_numbers
versionForm version_form
viewBy view_by
whole-reads whole_reads
whole-writes whole_writes
wholeText whole_text
windowForm window_form
windowHours window_hours
windowNumbers window_numbers
windowView window_view
with-has with_has
with-reads with_reads
withReference with_reference
within-small within_small
write-undoes-read write_undoes_read
zoneNumbers zone_numbers
zones-accept zones_accept
zonesForm zones_form
zonesIn zones_in
zonesNumbers zones_numbers
zonesOf zones_of
zonesView zones_view
""".strip().splitlines())

# Names that would fall together with another: the definition of terms in their ranges, which a ghost field shares its
# spelling with; the lemma on the bytes of a head, which the definition `head_bytes` does; and in the table above
# `numbers-in` and `terms-read`. Lemmas inside nested modules are not in the table; two of `entrywriter` that would fall
# together with definitions (`item-bytes`, `in-range`) were respelled by hand.
TERMS_IN_RANGE = re.compile(r"(?<![\w.'-])in_range(?![\w'(:-])")
NAME = re.compile(r"[A-Za-z_][\w'-]*")


def respelled(path, text):
    if path.startswith("crates/entrywriter/proofs/") and "head-size" in text:
        text = re.sub(r"\bhead_bytes\b", "head_bytes_by_parts", text)
    if re.search(r"^(ghost )?use Rattle\.market\.specs\.Openings\.\{[^}]*\bin_range\b", text, re.M) or path.endswith(
        "market/specs/Openings.antt"
    ):
        lines = text.split("\n")
        lines = [l if re.match(r"\s*use crate", l) else TERMS_IN_RANGE.sub("terms_in_range", l) for l in lines]
        text = "\n".join(lines)
    return NAME.sub(lambda m: NAMES.get(m.group(0), m.group(0)), text)


def main():
    for pattern in ("crates/*/src/**/*.rt", "crates/*/specs/**/*.antt", "crates/*/proofs/**/*.antt"):
        for path in sorted(glob.glob(pattern, recursive=True)):
            with open(path, encoding="utf-8") as f:
                was = f.read()
            now = respelled(path, was)
            if now != was:
                with open(path, "w", encoding="utf-8") as f:
                    f.write(now)
                print("respelled:", path)


main()
