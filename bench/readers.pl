# How fast Perl's Net::Stomp reads letters as an outbox sends them, each parsed by itself. Prints octets a second of processor time.
use strict;
use warnings;
use Net::Stomp;
use Net::Stomp::Frame;

my $head = "SEND\ndestination:/queue/warehouse\nkind:message\nfrom:order/o1\nto:stock/bolt\nnumber:1\ncontent-length:22\n\n";
my $letter = $head . '{"n":3,"op":"request"}' . "\0";
my $count = 50_000;
my $start = times;
for my $number (1 .. $count) {
    my $frame = Net::Stomp::Frame->parse($letter);
    die "no SEND" unless $frame->command eq 'SEND';
}
my $seconds = times() - $start;
printf "Net::Stomp %s: %.0f octets a second\n", $Net::Stomp::VERSION, $count * length($letter) / $seconds;
