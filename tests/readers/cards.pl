# Prints the cards of a file as Text::vCard reads them, a line for each value: the card's number, its property and value.
use strict;
use warnings;
use open qw(:std :utf8);
use Text::vCard::Addressbook;

my $book = Text::vCard::Addressbook->load([$ARGV[0]]);
my $number = 0;
for my $card ($book->vcards()) {
    print "$number\tFN\t", $card->fullname, "\n";
    for my $type (qw(bday email note tel title role)) {
        for my $node (@{ $card->get({ node_type => $type }) || [] }) {
            (my $value = $node->value) =~ s/\n/\\n/g;
            print "$number\t", uc $type, "\t$value\n";
        }
    }
    $number++;
}
