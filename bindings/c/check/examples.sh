#!/bin/sh
# Runs the examples on worked input, and compares what they print, errors last, and their status.
set -u
failed=0

# is NAME STATUS WANTED COMMAND..
is() {
    name=$1 status=$2 wanted=$3
    shift 3
    got=$("$@" 2> out/errors)
    code=$?
    got=$got$(sed '1s/^/\n/' out/errors)
    if [ "$code" -ne "$status" ] || [ "$got" != "$wanted" ]; then
        echo "$name: status $code instead of $status, or this was printed:" >&2
        echo "$got" >&2
        failed=1
    fi
}

response=out/response
printf '\022\064\201\200\000\001\000\003\000\000\000\001\003www\007example\003com\000\000\001\000\001' > $response
printf '\300\014\000\005\000\001\000\000\016\020\000\007\004host\300\020' >> $response
printf '\300\055\000\001\000\001\000\000\000\074\000\004\300\000\002\001' >> $response
printf '\300\020\000\017\000\001\000\000\000\074\000\004\000\012\300\014' >> $response
printf '\000\000\051\020\000\000\000\000\000\000\000' >> $response
is names 0 'question   www.example.com. 1
answer     www.example.com. 5
  data     host.example.com. 5
answer     host.example.com. 1 (compressed)
answer     example.com. 15
  data     www.example.com. 15
additional . 41' out/names $response
is follow_cname 0 'www.example.com.
host.example.com.' out/follow_cname $response

lines=';; opcode: QUERY, status: NOERROR, id: 4660
;; flags: qr rd ra; QUESTION: 1, ANSWER: 3, AUTHORITY: 0, ADDITIONAL: 1
;; QUESTION SECTION
www.example.com. IN A
;; ANSWER SECTION
www.example.com. 3600 IN CNAME host.example.com.'
is show 0 "$lines
host.example.com. 60 IN A 192.0.2.1
example.com. 60 IN MX 10 www.example.com.
;; AUTHORITY SECTION
;; ADDITIONAL SECTION
; EDNS: version: 0, flags:; udp: 4096
canonical name: host.example.com." out/show $response

# The text of the fault, as tell_hex gives it for octets that end too soon.
short=$(echo 03 | out/tell_hex | sed 's/.*: //')
head -c 60 $response > out/cut
is 'names, of a cut message' 1 'question   www.example.com. 1
answer     www.example.com. 5
  data     host.example.com. 5
record at offset 52: '"$short" out/names out/cut
is 'show, of a cut message' 1 "$lines
$short" out/show out/cut

# Two aliases that lead to each other.
printf '\000\000\201\200\000\001\000\002\000\000\000\000\001a\000\000\001\000\001' > out/ring
printf '\300\014\000\005\000\001\000\000\000\000\000\003\001b\000\001b\000\000\005\000\001\000\000\000\000\000\002\300\014' >> out/ring
is 'follow_cname, of a ring' 1 'a.
b.
a.
the aliases lead in a ring' out/follow_cname out/ring

# A CNAME whose data are cut off after the label: the target goes on in the record behind it.
printf '\000\000\201\200\000\001\000\002\000\000\000\000\001a\000\000\001\000\001' > out/leaving
printf '\300\014\000\005\000\001\000\000\000\000\000\002\001b' >> out/leaving
printf '\000\000\005\000\001\000\000\000\000\000\002\300\014' >> out/leaving
is 'follow_cname, of a name that leaves its data' 1 "a.
refused: $short" out/follow_cname out/leaving
is 'names, of a name that leaves its data' 1 "question   a. 1
answer     a. 5
data at offset 31: $short" out/names out/leaving

# 65,535 answers by the header, and one that is there: the ring is told after two steps.
printf '\000\000\201\200\000\001\377\377\000\000\000\000\001a\000\000\001\000\001' > out/counts
printf '\300\014\000\005\000\001\000\000\000\000\000\002\300\014' >> out/counts
is 'follow_cname, of a count that is not so' 1 'a.
a.
the aliases lead in a ring' out/follow_cname out/counts

# As dnspython writes the query, but for its identifier.
opt=00002904d0000000000000
is ask 0 123401000001000000000001076578616d706c6503636f6d00000f0001$opt out/ask example.com MX
is 'ask, by a number' 0 123401000001000000000001076578616d706c6503636f6d00000f0001$opt out/ask example.com type15
is 'ask, of the root' 0 1234010000010000000000010000ff0001$opt out/ask . ANY
is 'ask, of no name' 1 '
empty label' out/ask a..b A
is 'ask, of no type' 1 '
no name of a type, a class or a code' out/ask a.b MXX
is answer 0 '123481800001000100000000076578616d706c6503636f6d00000f0001c00c000f000100000e100009000a046d61696cc00c
example.com. 3600 MX 10 mail.example.com.' out/answer

# As dnspython writes the same RRsets.
asked=0377777703737562076578616d706c6503636f6d0000010001
servers=c0100002000100000e100006036e7331c010c0100002000100000e100010026e73076578616d706c65036e657400
glue=c0310001000100000e100004c0000201
is referral 0 123480000001000000020002$asked$servers${glue}c0430001000100000e100004c0000202 out/referral 115
is 'referral, without what it can do without' 0 123480000001000000020001$asked$servers$glue out/referral 114
is 'referral, without its glue' 0 123482000001000000020000$asked$servers out/referral 98
is 'referral, without its name servers' 0 123482000001000000000000$asked out/referral 82

printf '03777777 00\nc000\n0377\n\n0g\n' > out/lines
out/tell_hex < out/lines > out/told
grep -q '^www\.$' out/told && [ "$(grep -c '^refused' out/told)" -eq 4 ] || {
    echo 'tell_hex printed:' >&2
    cat out/told >&2
    failed=1
}
exit "$failed"
