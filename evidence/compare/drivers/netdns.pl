# Net::DNS, by the line protocol of the drivers (line.h tells it). It has no canonical order.

use strict;
use warnings;
use Net::DNS;
use Net::DNS::DomainName;
use Time::HiRes qw(clock_gettime CLOCK_PROCESS_CPUTIME_ID);

local $SIG{__WARN__} = sub { };

sub octets { return $_[0] eq '-' ? '' : pack 'H*', $_[0] }

# The labels of a name, by the wire format that the library makes of it.
sub shown {
    my ( $wire, $at, @labels ) = ( shift->encode, 0 );
    while ( my $len = ord substr $wire, $at, 1 ) {
        push @labels, unpack 'H*', substr $wire, $at + 1, $len;
        $at += $len + 1;
    }
    return join( '.', @labels ) || '.';
}

# Rounds for two tenths of a second, at least one and at most 200; the best counts.
sub measure {
    my $round = shift;
    my ( $best, $count, $begun ) = ( undef, 0, clock_gettime(CLOCK_PROCESS_CPUTIME_ID) );
    for my $i ( 0 .. 199 ) {
        last if $i && clock_gettime(CLOCK_PROCESS_CPUTIME_ID) - $begun > 0.2;
        my $start = clock_gettime(CLOCK_PROCESS_CPUTIME_ID);
        $count = $round->();
        my $took = clock_gettime(CLOCK_PROCESS_CPUTIME_ID) - $start;
        $best = $took if !defined $best || $took < $best;
    }
    return sprintf 'ok %.0f %d', $best * 1e9, $count;
}

sub accepted {
    my ( $message, $offsets ) = @_;
    return scalar grep {
        my $offset = $_;
        eval { Net::DNS::DomainName->decode( $message, $offset ); 1 }
    } @$offsets;
}

# Composes names one after another behind a header of 12 octets, and tells the octets written.
sub compose {
    my ( $end, %table ) = (12);
    for my $name (@_) {
        my $made = length $name->encode( $end, \%table );
        last if $end + $made > 65535;
        $end += $made;
    }
    return $end;
}

sub time_file {
    my ( $what, $path ) = @_;
    open my $file, '<', $path or die "$path: $!\n";
    chomp( my @lines = <$file> );
    if ( $what eq 'read' ) {
        my ( $message, @offsets ) = ( octets( $lines[0] ), split / /, $lines[1] );
        return measure( sub { accepted( \$message, \@offsets ) } );
    }
    return 'none' unless $what eq 'compose';
    my @names = map { my $wire = octets($_); scalar Net::DNS::DomainName1035->decode( \$wire, 0 ) } @lines;
    return measure( sub { compose(@names) } );
}

my %calls = (
    version => sub {
        # With one of these, where it is installed, it makes labels of other octets than those of ASCII.
        my ($idn) = grep { $INC{ s{::}{/}r . '.pm' } } qw(Net::LibIDN2 Net::LibIDN);
        return "ok $Net::DNS::VERSION" . ( $idn ? ", with $idn" : '' );
    },
    read    => sub {
        my ( $message, $offset ) = ( octets(shift), shift );
        my ( $name, $end ) = Net::DNS::DomainName->decode( \$message, $offset );
        return 'ok ' . shown($name) . " $end";
    },
    text => sub {
        my $text = octets(shift);
        utf8::decode($text);
        return 'ok ' . shown( Net::DNS::DomainName->new($text) );
    },
    show => sub {
        my $wire = octets(shift);
        my $text = Net::DNS::DomainName->decode( \$wire, 0 )->string;
        utf8::encode($text);
        return 'ok ' . unpack 'H*', $text;
    },
    time => \&time_file,
);

$| = 1;
while ( my $line = <STDIN> ) {
    my ( $call, @words ) = split ' ', $line;
    my $answer = $calls{$call} ? eval { $calls{$call}->(@words) } // 'no' : 'none';
    print "$answer\n";
}
