use strict;
use warnings;

sub counted {
    my ($text) = @_;
    my @words = split /\s+/, $text;
    return scalar @words;
}

my $count = counted('a rose is a rose');
print "$count\n";
