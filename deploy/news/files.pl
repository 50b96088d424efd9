# What news.pl, status.pl and mail.pl have in common: the program is asked, the rooms of a page are read, and files are written as JSON, whole or not at all.
use strict;
use IO::Handle;

our $program = $ENV{ROOMS_PROGRAM} || 'rooms';
my $share = $ENV{ROOMS_SHARE} || '/usr/share/rooms';

# What the program prints with these words.
sub ask {
    my $child = open(my $lines, '-|') // return '';
    if (not $child) {
        open STDERR, '>', '/dev/null';
        exec { $program } $program, @_ or exit 4;
    }
    local $/;
    my $text = <$lines> // '';
    close $lines;
    return $text;
}

# The rooms of a page with their labels, in turn.
sub rooms_of_page {
    my ($file) = @_;
    return unless -r $file;
    my $child = open(my $lines, '-|') // return;
    if (not $child) {
        open STDERR, '>', '/dev/null';
        exec 'perl', "$share/page_rooms.pl", $file or exit 1;
    }
    return map { /^([a-z0-9-]{1,16})\t(.*)$/ ? [ $1, $2 ] : () } <$lines>;
}

# A text of plain letters, or null, as JSON has it.
sub quoted {
    my ($text) = @_;
    return 'null' unless defined $text;
    $text =~ s/[^\x20-\x7e]/?/g;
    return '"' . $text =~ s/(["\\])/\\$1/gr . '"';
}

# A time in seconds, in the form 2026-11-30T21:05:10Z.
sub moment {
    my ($second, $minute, $hour, $day, $month, $year) = gmtime $_[0];
    return sprintf '%04d-%02d-%02dT%02d:%02d:%02dZ', $year + 1900, $month + 1, $day, $hour, $minute, $second;
}

sub read_lines {
    my ($path) = @_;
    open my $file, '<', $path or return;
    chomp(my @lines = <$file>);
    return @lines;
}

# Takes the place of the file once all of it is on the disk.
sub put_file {
    my ($path, $mode, @parts) = @_;
    open my $file, '>', "$path.new" or die "$path.new can't be written: $!\n";
    print $file @parts or die "$path.new can't be written: $!\n";
    chmod $mode, $file;
    $file->flush && $file->sync or die "$path.new can't be written: $!\n";
    close $file;
    rename "$path.new", $path or die "$path can't be replaced: $!\n";
}

1;
