# Reads messages and prints a line for each: its digest by Digest::SHA. A message is its edition, count of closing bits and closing byte, a
# byte each, its count of whole bytes (4 bytes, the most significant first) and these bytes.
use strict;
use warnings;
use Digest::SHA;

my @names = (0, 224, 256, 384, 512, 512224, 512256);
binmode STDIN;
while (read(STDIN, my $header, 7) == 7) {
    my ($edition, $bits, $closing, $count) = unpack('C C C N', $header);
    my $message = '';
    read(STDIN, $message, $count) == $count or die "a message is cut short\n";
    my $sha = Digest::SHA->new($names[$edition]);
    $sha->add_bits($message . chr($closing), 8 * $count + $bits);
    print $sha->hexdigest, "\n";
}
