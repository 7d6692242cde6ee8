# A client of `msgrun serve` in Perl: each frame orders as many dishes as were served in the one before, and one more.
#
#     perl client.pl PROGRAM SCENARIO
use strict;
use warnings;
use IPC::Open2;
use JSON::PP;

my ($program, $file) = @ARGV;
my $pid = open2(my $answers, my $lines, $program, 'serve', $file, '--workers', '2');
sub ask { print $lines encode_json($_[0]), "\n"; return decode_json(scalar <$answers>); }

my $served = 0;
for my $number (1 .. 4) {
    my $frame = ask([map { ['order', $number] } 0 .. $served]);
    my ($waiter) = grep { $_->{system} eq 'waiter' } @{$frame->{turns}};
    $served = @{$waiter->{replies}[0]{items}};
    print "frame $frame->{frame}: ", scalar @{$frame->{posts}}, " ordered, $served served\n";
}
close $lines;
waitpid $pid, 0;
