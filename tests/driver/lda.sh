# Shared by lda and lda-simh: files in the absolute loader format, and the images made of them.

image=$programs/mopimage

# lda PART..: a file of blocks with their counts and checksums, ADDRESS:DATA, and of other bytes, raw:DATA. All is
# hexadecimal; DATAxN is N times the data.
lda() {
    perl -e 'for (@ARGV) {
        my ($where, $data, $times) = /^(\w+):([0-9a-f]*)(?:x(\d+))?$/ or die "what is $_?";
        my $bytes = pack("H*", $data) x ($times // 1);
        if ($where ne "raw") {
            $bytes = pack("v3", 1, 6 + length $bytes, hex $where) . $bytes;
            $bytes .= chr(-unpack("%8C*", $bytes) & 255);
        }
        print $bytes;
    }' "$@" >file
}

# made OPTION..: makes an image of the file; the files list and errors have what is said.
made() {
    rm -f made
    "$image" -o made --lda file "$@" >list 2>errors
    local got=$?
    cat list errors
    return $got
}
# regions FILE: those of an image, ADDRESS:DATA each, and the address where it is started.
regions() {
    perl -0777 -ne 'my ($directory, $count, $start) = unpack("V3", substr($_, -16));
        for my $i (0 .. $count - 1) {
            my ($address, $at, $length) = unpack("V3", substr($_, $directory + 12 * $i, 12));
            printf("%04X:%s ", $address, unpack("H*", substr($_, $at, $length)));
        }
        printf("%04X\n", $start)' "$1"
}

# program SEED: a file of 40 blocks, most of odd lengths, in no order and over each other, with zeros between;
# what a memory of 0xAA is to hold then; and the start address, which is even.
program() {
    perl -e 'srand($ARGV[0]);
        my ($file, $memory) = ("\0" x int(rand(100)), "\xAA" x 65536);
        for my $i (1 .. 40) {
            my $address = $i % 4 == 0 ? int(rand(65536)) : 0x4000 + int(rand(0x3000));
            my $length = $i == 20 ? 2345 : 1 + int(rand(400));
            $address = 65536 - $length if $i == 12 || $address + $length > 65536;
            my $bytes = pack("C*", map({ rand(3) < 1 ? int(rand(3)) : int(rand(256)) } 1 .. $length));
            my $block = pack("v3", 1, 6 + $length, $address) . $bytes;
            $file .= $block . chr(-unpack("%8C*", $block) & 255) . ("\0", "", "\0\0\0")[rand(3)];
            substr($memory, $address, $length) = $bytes;
        }
        my $start = 2 * int(rand(32768));
        my $end = pack("v3", 1, 6, $start);
        print $file, $end, chr(-unpack("%8C*", $end) & 255), "\0" x int(rand(600));
        print STDERR $memory;
        open(my $third, ">&=3");
        printf $third "%04X\n", $start' "$1" >file 2>expected 3>start
}

# laid: the regions of the image made, over a memory of 0xAA.
laid() {
    perl -0777 -ne 'my ($directory, $count) = unpack("V2", substr($_, -16));
        my $memory = "\xAA" x 65536;
        for my $i (0 .. $count - 1) {
            my ($address, $at, $length) = unpack("V3", substr($_, $directory + 12 * $i, 12));
            substr($memory, $address, $length) = substr($_, $at, $length);
        }
        print $memory' made
}
imaged() { program "$1" && made && laid | cmp - expected && regions made | grep -q " $(cat start)$"; }

# loads SEED: a machine with a memory of 0xAA that mopload loads with the image.
loads() {
    imaged "$1" || return 1
    rm -f load.log memory
    perl -e 'print "\xAA" x 65536' >fill
    "$programs/mopload" -i vhost -S 1024 -R 50 --timer 200 --wait 20 made >load.log 2>&1 &
    local loader=$!
    after load.log 'Waiting on' || return 1
    "$programs/mopmachine" -i vmachine --memory 65536 --fill fill --timer 200 --wait 10 --save memory >machine.log 2>&1
    wait "$loader" && cmp memory expected && grep -qx "Started at 0x0000$(cat start)\." machine.log
}
