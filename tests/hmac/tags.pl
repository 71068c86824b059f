# Reads keys and messages and prints a line for each: the tag by Digest::SHA. Edition, a byte; then the key's count of bytes (4 bytes, the
# most significant first) and these bytes; then the message's likewise.
use strict;
use warnings;
use Digest::SHA
  qw(hmac_sha224_hex hmac_sha256_hex hmac_sha384_hex hmac_sha512_hex hmac_sha512224_hex hmac_sha512256_hex);

my @tags = (
    undef,              \&hmac_sha224_hex,    \&hmac_sha256_hex, \&hmac_sha384_hex,
    \&hmac_sha512_hex,  \&hmac_sha512224_hex, \&hmac_sha512256_hex
);
binmode STDIN;

sub counted {
    read(STDIN, my $header, 4) == 4 or die "a count is cut short\n";
    my ($count, $bytes) = (unpack('N', $header), '');
    read(STDIN, $bytes, $count) == $count or die "bytes are cut short\n";
    return $bytes;
}

while (read(STDIN, my $edition, 1) == 1) {
    my $key = counted();
    my $message = counted();
    print $tags[ord $edition]->($message, $key), "\n";
}
