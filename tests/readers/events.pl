# Prints the events of a calendar as Data::ICal reads them, a line for each value: the event's number, its property and value.
use strict;
use warnings;
use open qw(:std :utf8);
use Data::ICal;
use Encode;

my $calendar = Data::ICal->new(filename => $ARGV[0]) or die "not read";
my $number = 0;
for my $entry (@{ $calendar->entries }) {
    next unless $entry->ical_entry_type eq 'VEVENT';
    for my $type (qw(uid summary location description)) {
        for my $property (@{ $entry->property($type) || [] }) {
            (my $value = decode('UTF-8', $property->decoded_value // $property->value)) =~ s/\n/\\n/g;
            print "$number\t", uc $type, "\t$value\n";
        }
    }
    $number++;
}
