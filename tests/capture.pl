# Writes a large capture to standard output, or with a second word what is to come of it, worked out by docs/use/rules.md apart from the program:
#     perl tests/capture.pl SEGMENTS           one connection, whose client sends SEGMENTS segments of 1,250 bytes, each with bytes of its own
#                                              and in a second of its own; a record has 1,320 bytes
#     perl tests/capture.pl SEGMENTS+STEP      the same segments in another order: at place P the one of number STEP * P modulo SEGMENTS
#     perl tests/capture.pl SEGMENTS*STEP      the same, and each goes on into the next one by three bytes that are not the next one's
#     perl tests/capture.pl SEGMENTS+STEPxBYTES  or SEGMENTS*STEPxBYTES: the same segments with BYTES bytes each, up to 1,250
#     perl tests/capture.pl CONNECTIONSxROUNDS CONNECTIONS connections, each of a client of its own: all openings, in a second round all answers to
#                                              them, and in a third a byte of each client, the last one's first; records have 70, 70 and 71 bytes
#     perl tests/capture.pl CONNECTIONSx3xBYTES  the same with BYTES bytes of each client, up to 1,250, of which each client has others
#     perl tests/capture.pl WHICH delivered    the capture that is stored of it without a scenario
#     perl tests/capture.pl WHICH report [PROXY [NUMBER]]
#                                              its report, or that of a scenario with this number whose toxics change no byte of it and no end: each
#                                              connection meets the proxy with this number
#     perl tests/capture.pl WHICH sent         what the client sent, if it sent segments in another order: of what two of them have, the first one's
use strict;
use warnings;

my ($which, $what, $proxy, $scenario) = @ARGV;
my ($count, $goes_on, $step, $size, $rounds, $bytes) = $which =~ /^(\d+)(?:([+*])(\d+)(?:x(\d+))?|x([123])(?:x(\d+))?)?$/
    or die "no such capture: $which\n";
$size //= 1250;
($what, $proxy, $scenario) = ($what // 'recorded', $proxy // '-', $scenario // 0);
my $more = ($goes_on // '') eq '*' ? 'xyz' : '';
my $is_delivered = $what eq 'delivered';
my ($syn, $ack, $push) = (2, 16, 8);
my $server = "\x0a\x4d\x00\x02";
binmode STDOUT;

# sum: the checksum of some bytes.
sub sum {
    my $sum = unpack '%32n*', length($_[0]) % 2 ? "$_[0]\0" : $_[0];
    return 65535 - ($sum ? ($sum - 1) % 65535 + 1 : 0);
}

# segment: a record of a segment between a client and the server. What is delivered has its checksums, and addresses that are swapped on the way back.
sub segment {
    my ($second, $tick, $client, $is_back, $seq, $acked, $flags, $payload) = @_;
    my ($port, $len) = (49152, length($payload) + 54);
    my $ethernet = $is_delivered && $is_back ? "\x02\0\0\0\0\x01\x02\0\0\0\0\x02\x08\0" : "\x02\0\0\0\0\x02\x02\0\0\0\0\x01\x08\0";
    my $peers = $is_back ? $server . $client : $client . $server;
    my $ip = pack('CCnNCCn', 0x45, 0, $len - 14, 0x4000, 64, 6, 0) . $peers;
    my $tcp = pack('nnNNCCnnn', $is_back ? (80, $port) : ($port, 80), $seq, $acked, 0x50, $flags, 0xffff, 0, 0);
    if ($is_delivered) {
        substr($ip, 10, 2) = pack 'n', sum($ip);
        substr($tcp, 16, 2) = pack 'n', sum($peers . pack('nn', 6, $len - 34) . $tcp . $payload);
    }
    print pack('VVVV', $second, $tick, $len, $len), $ethernet, $ip, $tcp, $payload;
}

# opening: a client's, and what answers it.
sub opening { segment(@_, 0, 0, 0, $syn, '') }
sub answer { segment(@_, 1, 0, 1, $syn | $ack, '') }

# client: the address of a connection's client.
sub client { my $number = shift; return $rounds ? pack('CCn', 10, 128 + ($number >> 16), $number & 0xffff) : "\x0a\x4d\x00\x01" }

# report: of a number of records and of connections, whose clients send a number of bytes each.
sub report {
    my ($records, $conns, $bytes) = @_;
    print "scenario $scenario records $records rest 0 segment $records short 0 notipv4 0 badipv4 0 fragment 0 nottcp 0 cut 0 badtcp 0 sameends 0\n";
    print "connections $conns unopened 0\n";
    for my $number (0 .. $conns - 1) {
        my $address = join '.', unpack 'C4', client($number);
        print "$number $address:49152 > 10.77.0.2:80 proxy $proxy up $bytes/$bytes/0 open max 0 down 0/0/0 open max 0\n";
    }
}

# body: the bytes of a segment, 1,250 without another size.
sub body {
    my $number = pack 'N', shift;
    return $size < 1250 ? substr $number x 313, 3, $size : $number x 312 . 'ab';
}

# sent: what a client sends in the third round.
sub sent { return defined $bytes ? substr(body(shift), 0, $bytes) : 'x' }

# order: the numbers of the segments at each place, and the places of the numbers.
sub order {
    my (@numbers, @places);
    for my $place (0 .. $count - 1) {
        $numbers[$place] = $step * $place % $count;
        $places[$numbers[$place]] = $place;
    }
    return \@numbers, \@places;
}

if ($what eq 'sent') {
    my (undef, $places) = order();
    for my $number (0 .. $count - 1) {
        my $body = body($number);
        substr($body, 0, length $more) = $more if $number && $places->[$number - 1] < $places->[$number];
        print $body;
    }
    exit;
}
if ($what eq 'report') {
    if ($rounds) { report($rounds * $count, $count, $rounds == 3 ? length sent(0) : 0) } else { report($count + 2, 1, $size * $count) }
    exit;
}
print pack('VvvVVVV', 0xa1b2c3d4, 2, 4, 0, 0, 65535, 1);
if ($rounds) {
    for my $number (0 .. $count - 1) {
        my $client = client($number);
        opening(0, $number, $client);
        next if !$is_delivered;
        answer(0, $number, $client);
        segment(0, $number, $client, 0, 1, 1, $ack, '');
    }
    if ($rounds > 1 && !$is_delivered) { answer(1, $_, client($_)) for 0 .. $count - 1 }
    if ($rounds > 2) { segment(2, $count - 1 - $_, client($_), 0, 1, 1, $push | $ack, sent($_)) for reverse 0 .. $count - 1 }
} else {
    my $client = client(0);
    opening(0, 0, $client);
    answer(0, 0, $client);
    segment(0, 0, $client, 0, 1, 1, $ack, '') if $is_delivered;
    if ($step) {
        my ($numbers) = order();
        for my $place (0 .. $count - 1) {
            my $number = $numbers->[$place];
            my $body = body($number) . ($number < $count - 1 ? $more : '');
            segment($place + 1, 0, $client, 0, 1 + $size * $number, 1, $push | $ack, $body);
        }
        exit;
    }
    segment($_ + 1, 0, $client, 0, 1 + 1250 * $_, 1, $push | $ack, body($_)) for 0 .. $count - 1;
}
