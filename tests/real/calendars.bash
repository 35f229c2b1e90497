# shellcheck shell=bash
# Files of calendars: the events of which are cards of address books.

EVENTS=$(book_of $'  edge SUMMARY Day\n  shape ? SUMMARY')
TITLES=$(table_lens 'key=UID show=Title' "map(list($(renamed Title SUMMARY)))")
readonly EVENTS TITLES CALENDAR_LENS=$'harmony lens 1\nformat icalendar show=SUMMARY\nmain = id'
book_schema=$EVENTS book_lens_a=$TITLES
readonly HEAD_EVENTS=$'UID,Title\n'

# vevent VARIABLE LINE...: an event of these lines
vevent() {
    lines "$1" BEGIN:VEVENT "${@:2}" END:VEVENT
}

# events TITLE, archive A B before, STATUS LINES, archive A B afterwards: A is a table, and B a calendar
events() {
    book_lens_b=$CALENDAR_LENS books "events: $1" "${@:2}"
}

events_stay() {
    book_lens_b=$CALENDAR_LENS stay "events: $1" "${@:2}"
}

refuse_calendar() {
    refuse_lines calendar "$CALENDAR_LENS" "$no_events" "$@"
}

lines calendar_begins BEGIN:VCALENDAR VERSION:2.0 'PRODID:-//Example//Cal//EN'
lines calendar_ends END:VCALENDAR
no_events=$calendar_begins$calendar_ends

# --- What events become ---

standup=(UID:u1@example.org DTSTAMP:20260101T000000Z 'DTSTART;TZID=Europe/Berlin:20260105T090000' RRULE:FREQ=WEEKLY)
alarm=(BEGIN:VALARM ACTION:DISPLAY DESCRIPTION:Soon TRIGGER:-PT5M END:VALARM)
vevent weekly "${standup[@]}" SUMMARY:Standup "${alarm[@]}"
vevent weekly_new "${standup[@]}" 'SUMMARY:Daily standup' "${alarm[@]}"
vevent late UID:u1@example.org DTSTAMP:20260101T000000Z 'RECURRENCE-ID;TZID=Europe/Berlin:20260112T090000' \
    'DTSTART;TZID=Europe/Berlin:20260112T100000' 'SUMMARY:Standup late'
titles=$'u1@example.org,Daily standup\nu1@example.org,Standup late\n'
events 'one that recurs' \
    '{"u1@example.org":{"*h":{"SUMMARY":{"Standup"}},"*t":{"*h":{"SUMMARY":{"Standup late"}},"*t"}}}' \
    "$HEAD_EVENTS$titles" "$calendar_begins$weekly$late$calendar_ends" \
    0 agreed \
    '{"u1@example.org":{"*h":{"SUMMARY":{"Daily standup"}},"*t":{"*h":{"SUMMARY":{"Standup late"}},"*t"}}}' \
    "$HEAD_EVENTS$titles" "$calendar_begins$weekly_new$late$calendar_ends"

# What stands between events stays where it is, and new events stand before the end.
lines zone BEGIN:VTIMEZONE TZID:Europe/Berlin BEGIN:STANDARD DTSTART:19701025T030000 END:STANDARD END:VTIMEZONE
lines todo BEGIN:VTODO UID:t SUMMARY:none BEGIN:VEVENT UID:inner END:VEVENT END:VTODO
lines note X-NOTE:behind
vevent one UID:1 SUMMARY:one
vevent two UID:2 SUMMARY:two
vevent four UID:4 DTSTAMP:19700101T000000Z SUMMARY:four
events 'lines between them' \
    "{$(card 1 '"SUMMARY":{"one"}'),$(card 2 '"SUMMARY":{"two"}')}" \
    "$HEAD_EVENTS"$'2,two\n4,four\n' "$calendar_begins$zone$one$todo$two$note$calendar_ends" \
    0 agreed \
    "{$(card 2 '"SUMMARY":{"two"}'),$(card 4 '"SUMMARY":{"four"}')}" \
    "$HEAD_EVENTS"$'2,two\n4,four\n' "$calendar_begins$zone$todo$two$note$four$calendar_ends"

events 'a calendar without events' \
    absent "$HEAD_EVENTS"$'4,four\n' "$no_events" \
    0 agreed \
    "{$(card 4 '"SUMMARY":{"four"}')}" "$HEAD_EVENTS"$'4,four\n' "$calendar_begins$four$calendar_ends"

odd=$'begin:vcalendar\nversion:2.0\n\nbegin:vevent\nuid:1\nsummary;language=en:o\n ne\nend:VEVENT\nEnd:vCalendar\n\n'
events_stay 'lines as others write them' absent "$HEAD_EVENTS"$'1,one\n' "$odd" 0 agreed "{$(card 1 '"SUMMARY":{"one"}')}"

# An event may have any number of lines of a property that show nothing; a run that compared each with those before it
# would take minutes.
printf -v blank 'SUMMARY:\r\n%.0s' {1..400000}
crowded=$'BEGIN:VEVENT\r\nUID:1\r\n'$blank$'SUMMARY:one\r\nEND:VEVENT\r\n'
events_stay 'many lines without a text' absent "$HEAD_EVENTS"$'1,one\n' "$calendar_begins$crowded$calendar_ends" \
    0 agreed "{$(card 1 '"SUMMARY":{"one"}')}"

# --- Calendars that are refused ---

front='BEGIN:VCALENDAR\nVERSION:2.0\n'
refuse_calendar 'BadItem 1' ''
refuse_calendar 'BadItem 1' 'BEGIN:VEVENT\n'
refuse_calendar 'BadItem 2' 'BEGIN:VCALENDAR\nEND:VCALENDAR\n'
refuse_calendar 'BadItem 3' 'BEGIN:VCALENDAR\nVERSION:1.0\nBEGIN:VEVENT\n'
refuse_calendar 'BadItem 2' 'BEGIN:VCALENDAR\nVERSION;X=1:2.0\n'
refuse_calendar 'BadItem 3' "${front}END:VEVENT\n"
refuse_calendar 'BadItem 5' "${front}BEGIN:VEVENT\nUID:1\nEND:VTODO\n"
refuse_calendar 'BadItem 4' "${front}END:VCALENDAR\nX:1\n"
refuse_calendar 'BadItem 6' "${front}BEGIN:VEVENT\nUID:1\nSUMMARY:a\n"
refuse_calendar 'BadItem 5' "${front}BEGIN:VEVENT\nUID:1\nUID:2\n"
refuse_calendar 'BadItem 6' "${front}BEGIN:VEVENT\nUID:1\nSUMMARY:a\nx.summary:b\n"
refuse_calendar 'BadItem 4' "${front}BEGIN:VEVENT\nno line\n"
refuse_calendar 'NoKey 2' "${front}BEGIN:VEVENT\nUID:1\nEND:VEVENT\nBEGIN:VEVENT\nBEGIN:VALARM\nUID:2\nEND:VALARM\nEND:VEVENT\nEND:VCALENDAR\n"
refuse_calendar 'NotUtf8 0' '\xFF'
