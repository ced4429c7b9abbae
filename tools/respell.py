#!/usr/bin/env python3
"""Brings the repository's own definitions and lemmas to the spelling of today's Rattle: words in snake case, facts and types in camel case, and a dash only
where it joins two names. Run once at the top, after the kit's port.py. Functions of src/, exported names, strings, inputs and outputs keep their names."""

import os
import re

# old name, new name. Where two names would fall together the lemma or the field has another one.
NAMES = """
At-place AtPlace
At-spot AtSpot
No-spot NoSpot
a-fault a_fault
a-gate a_gate
a-message a_message
acknowledgementTo acknowledgement_to
added-by added_by
adds-slot adds_slot
after-channel after_channel_back
after-tmsi after_tmsi_back
afterChannel after_channel
afterImsi after_imsi
afterTmsi after_tmsi
an-imsi an_imsi
answerBy answer_by
answerTo answer_to
answers-fits answers_fits
any-by any_by
any-more any_more
any-tail any_tail
anyFor any_for
area-read area_read
area-there area_there
areaAt area_at
areaElement area_element
areaFrom area_from
areaNumber area_number
arrived-in arrived_in
arrived-still arrived_still
at-found at_found
at-missing at_missing
at-stored-other at-stored_other
at-stored-same at-stored_same
at_drop at-drop
at_map at-map
at_stored at-stored
behind-by behind_by
behind-ten behind_ten
bodyFrom body_from
bodyRow body_row
bufferLeft buffer_left
bufferSize buffer_size
by-type by_type
cause-back cause_back
cause-there cause_there
causeIn cause_in
causeOctet cause_octet
changed-by changed_by
changed-places changed_places
channel-read channel_read
channel-size channel_size_lem
channel-small channel_small
channel-there channel_there
channelAt channel_at
channelElement channel_element
channelIn channel_in
channelSize channel_size
class-there class_there
classIn class_in
classOctet class_octet
climbs-far Climbs-far
climbs-from Climbs-from
climbs-inserted Climbs-inserted
climbs-map Climbs-map
climbs-past Climbs-past
climbs-set Climbs-set
codeFrom code_from
coded-read coded_read
coded-there coded_there
codedAt coded_at
cond-is cond_is
count-in count_in
denialNumber denial_number
destinationOf destination_of
digit-off digit_off
digit-on digit_on
digitIn digit_in
digits-first digits_first
distinct-by distinct_by
distinct-same distinct_same
done-err done_err
drop-size drop_size
dueNow due_now
dueSends due_sends
dueTicked due_ticked
either-back either_back
eitherIn either_in
element-read element_read
element-there element_there
elementAt element_at
elementsOf elements_of
emptied-keeps emptied_keeps
end-there end_there
entity-back entity_back
entity-message-back entity_message_back
entity-read-there entity_read_there
entity-there entity_there
entityAlone entity_alone
entityAt entity_at
entityIn entity_in
even-in even_in
even-start even_start
fault-ok fault_ok
faultLayer fault_layer
faultNumber fault_number
fieldCount field_count
first-there first_there
firstFor first_for
fiveNumber five_number
fiveOctets five_octets
followedBy followed_by
found-by found_by
four-read four_read
four-value four_value
fourOctets four_octets
frame-size frame_size
frame-sized frame_sized
frame-there frame_there
frameFrom frame_from
frameIn frame_in
frameLeft frame_left
frameOctets frame_octets
frameWritten frame_written
frames-of frames_of
framesOf frames_of
fresh-is fresh_is
front-there front_there
gives-by gives_by
gprs-back gprs_back
gprs-there gprs_there
gprsDetachIn gprs_detach_in
gprsDetachOctet gprs_detach_octet
half-low half_low
header-there header_there
headerIn header_in
headerOctets header_octets
headerRead header_read
header_read header_read_lem
heldBy held_by
heldIn held_in
here-by here_by
identifierOf identifier_of
imsi-and-read imsi_and_read
imsi-and-short imsi_and_short
imsi-and-there imsi_and_there
imsi-back imsi_back
imsi-message-back imsi_message_back
imsi-read imsi_read
imsi-size imsi_size
imsi-there imsi_there
imsiAnd imsi_and
imsiAndAt imsi_and_at
imsiAndFrom imsi_and_from
imsiAt imsi_at
imsiDetachIn imsi_detach_in
imsiDetachOctet imsi_detach_octet
imsiElement imsi_element
imsiFrom imsi_from
imsiIn imsi_in
imsiOctets imsi_octets
imsiOf imsi_of
in-push in_push
in-spelt in_spelt
inHalves in_halves
inserted-records inserted_records
is-other is_other
is-own is_own
isBlank is_blank
isComment is_comment
isFor is_for
isFrame is_frame
isFrom is_from
isWorn is_worn
keeps-apart keeps_apart
key-map key_map
last-by last_by
last-gives last_gives
last-leaves last_leaves
last-two last_two
last-untaken last_untaken
lastFor last_for
lastGiven last_given
lastGivenIn last_given_in
lawful-channel lawful_channel_lem
lawful-from lawful_from
lawful-parts lawful_parts
lawful-tmsi lawful_tmsi_lem
lawfulArea lawful_area
lawfulChannel lawful_channel
lawfulFrame lawful_frame
lawfulImsi lawful_imsi
lawfulMessage lawful_message
lawfulMobile lawful_mobile
lawfulNode lawful_node
lawfulNodes lawful_nodes
lawfulOr lawful_or
lawfulReject lawful_reject
lawfulStamp lawful_stamp
lawfulTmsi lawful_tmsi
leastOf least_of
leftBy left_by
left_by left_by_lem
legible-by legible_by
length_digits length-digits
loneDigit lone_digit
lostRow lost_row
lu-accept-back lu_accept_back
lu-accept-there lu_accept_there
lu-request-back lu_request_back
lu-request-there lu_request_there
luAcceptAt lu_accept_at
luAcceptFrom lu_accept_from
luRequestAt lu_request_at
luRequestFrom lu_request_from
mapped-cond mapped_cond
messageAt message_at
messageFrom message_from
mobile-past mobile_past
mobile-read mobile_read
mobile-there mobile_there
mobileAt mobile_at
mobileIn mobile_in
movedBy moved_by
namesSender names_sender
new-distinct new_distinct
newest-found newest_found
newest-more newest_more
newest-none newest_none
next-is next_at
next-left next_left
next-not next_not
next-octet next_octet
next-there next_there
nextIs next_is
no-tmsi no_tmsi
noLines no_lines
nodeAt node_at
nodeFrom node_from
nodeIn node_in
none-by none_by
none-left-by none_left_by
none-next none_next
none-some none_some
not-both not_both
noted-by noted_by
noted-distinct noted_distinct
nothingYet nothing_yet
number-there number_there
octetCount octet_count
octetElement octet_element
octetIn octet_in
octetOf octet_of
octets-filled octets_filled
octets-left octets_left
octetsIn octets_in
octetsOf octets_of
odd-in odd_in
odd-start odd_start
of-same of_same
oneMore one_more
oneMoreAt one_more_at
optionFrom option_from
other-by other_by
outcomeIn outcome_in
overlaid-more overlaid_more
overlaid-none overlaid_none
own-by own_by
own-lawful own_lawful
own-node own_node
paging-back paging_back
paging-there paging_there
pagingAt paging_at
pagingFrom paging_from
pair-grown pair_grown
pair-off pair_off
pair-on pair_on
pair-room pair_room
passed-by passed_by
passed-heard passed_heard
past-blank past_blank
past-channel past_channel
past-octet past_octet
past-tmsi past_tmsi
place-more place_more
put-none put_none
rank-of rank_in
read-frame read_frame_lem
read-so read_so
read-written read_written
readAnswer read_answer
readFields read_fields
readIn read_in
readLine read_line
readReply read_reply
refusalOf refusal_of
reject-back reject_back
reject-there reject_there
rejectIn reject_in
renew-by renew_by
renewed-by renewed_by
renewed-keeps renewed_keeps
repeatNow repeat_now
repeatSends repeat_sends
repeatTicked repeat_ticked
resetTaken reset_taken
resetTicked reset_ticked
resetTo reset_to
rowLeft row_left
rowSends row_sends
rowTicked row_ticked
same-eq same_eq
same-is same_is
same-ne same_ne
same-node same_node_lem
sameNode same_node
sendsBy sends_by
sent-more sent_more
shift-high shift_high
shift-low shift_low
shown-in shown_in
slots-of slots_of
small-++ Small-++
small-digits Small-digits
small-spelt Small-spelt
some-stamp some_stamp
sourceOf source_of
spellingOf spelling_of
spelt-so spelt_so
spot-more spot_more
spot-step spot_step
stamp-fits stamp_fits
stampOf stamp_of
stored-inserted stored_inserted
stored-set stored_set
take-of-set take_of_set
tens-at tens_at
tens-pos tens_pos
then-there then_there
tmsi-read tmsi_read
tmsi-size tmsi_size_lem
tmsi-small tmsi_small
tmsi-there tmsi_there
tmsiAt tmsi_at
tmsiElement tmsi_element
tmsiSize tmsi_size
tooFew too_few
travels-by travels_by
type-read type_read
type-there type_there
update-back update_back
update-there update_there
updateIn update_in
updateOctet update_octet
value-is value_is
valueIn value_in
valued-push valued_push
with-imsi with_imsi
withoutFirst without_first
withoutLast without_last
wornAbove worn_above
write-err write_err
write-ok write_ok
writeAnswer write_answer
writeBuffer write_buffer
writeReply write_reply
writtenAt written_at
wrote-more wrote_more
zero-stamp zero_stamp
"""

TABLE = dict(line.split() for line in NAMES.strip().split("\n"))
# A name ends where another letter, dash or prime could not go on.
NAME = re.compile(r"(?<![\w'+-])(" + "|".join(re.escape(n) for n in sorted(TABLE, key=len, reverse=True)) + r")(?![\w'+-])")
# Text that keeps its words: strings, characters and comments of the code.
KEPT = re.compile(r'"(?:[^"\\\n]|\\.)*"|//[^\n]*')


def respelt(text):
    return NAME.sub(lambda m: TABLE[m[1]], text)


def code(text):
    """Source text: all but its strings and comments."""
    out, at = [], 0
    for m in KEPT.finditer(text):
        out += [respelt(text[at : m.start()]), m[0]]
        at = m.end()
    return "".join(out) + respelt(text[at:])


def page(text):
    """A page: what stands in backticks."""
    return re.sub(r"`[^`\n]*`", lambda m: respelt(m[0]), text)


def main():
    turns = {".rt": code, ".antt": respelt, ".md": page}
    for top in ("crates", "docs", "README.md"):
        walk = os.walk(top) if os.path.isdir(top) else [(".", [], [top])]
        for folder, folders, files in walk:
            folders[:] = [f for f in folders if f != "out"]
            for name in files:
                turn = turns.get(os.path.splitext(name)[1])
                path = os.path.join(folder, name)
                if turn is None:
                    continue
                with open(path, encoding="utf-8") as f:
                    old = f.read()
                new = turn(old)
                if new != old:
                    with open(path, "w", encoding="utf-8") as f:
                        f.write(new)


if __name__ == "__main__":
    main()
