# The rooms that an office's page shows, in its file rooms.json, which people edit by hand and which this keeps as it is:
#
#     perl page_rooms.pl FILE                  prints a line `NAME<tab>LABEL` for each
#     perl page_rooms.pl FILE ROOM LABEL [SEATS [EQUIPMENT..]]
#                                              prints the file with this room behind the others
#
# The status is 1 where the file has no list of rooms that can be read.
use strict;

sub fail {
    print STDERR @_, "\n";
    exit 1;
}

# The text in pieces: strings with their quotes, and what stands between them.
sub pieces { return $_[0] =~ /("(?:[^"\\]|\\.)*"|[^"]+)/gs }

# The place of the list of `rooms` in the pieces: from behind its bracket to the bracket that closes it.
sub list_of {
    my @pieces = @_;
    for my $i (0 .. $#pieces - 1) {
        next unless $pieces[$i] eq '"rooms"' and $pieces[ $i + 1 ] =~ /^\s*:\s*\[/;
        my ($depth, $from) = (0, 0);
        for my $j ($i + 1 .. $#pieces) {
            next if $pieces[$j] =~ /^"/;
            while ($pieces[$j] =~ /([\[\]{}])/g) {
                $depth += $1 =~ /[\[{]/ ? 1 : -1;
                return ($i + 1, $j, pos $pieces[$j]) if $depth == 0;
            }
        }
    }
    fail('it has no list of rooms');
}

# What an escape of a string stands for, as bytes of UTF-8; a break of a line or a tab is a space, since a line of the print is a room.
sub unescaped {
    my ($escape) = @_;
    return ' ' if $escape =~ /^[bfnrt]$/;
    return $escape unless $escape =~ s/^u//;
    my ($high, $low) = map { hex } split /\\u/, $escape;
    my $code = defined $low ? 0x10000 + ($high - 0xD800) * 0x400 + $low - 0xDC00 : $high;
    # half of a pair is no letter
    $code = 0xFFFD if 0xD800 <= $code and $code <= 0xDFFF;
    my $letter = $code < 32 ? ' ' : chr $code;
    utf8::encode($letter);
    return $letter;
}

sub text_of {
    my ($string) = @_;
    return undef unless defined $string;
    $string =~ s/^"|"$//g;
    $string =~ s/\\(u[dD][89abAB][0-9a-fA-F]{2}\\u[dD][c-fC-F][0-9a-fA-F]{2}|u[0-9a-fA-F]{4}|.)/unescaped($1)/ges;
    return $string;
}

sub show {
    my ($first, $last) = list_of(@_);
    my ($depth, $name, $label) = (0);
    for my $i ($first .. $last) {
        my $piece = $_[$i];
        my $is_member = $depth == 1 && $i + 2 <= $#_ && $_[ $i + 1 ] =~ /^\s*:/;
        $name  = text_of($_[ $i + 2 ]) if $is_member and $piece eq '"name"';
        $label = text_of($_[ $i + 2 ]) if $is_member and $piece eq '"label"';
        next if $piece =~ /^"/;
        # what stands within a room in braces of its own is none of its name
        while ($piece =~ /([{}])/g) {
            $depth += $1 eq '{' ? 1 : -1;
            next if $1 eq '{' or $depth;
            print "$name\t", $label // $name, "\n" if defined $name;
            ($name, $label) = ();
        }
    }
}

sub with_room {
    my ($words, @pieces) = @_;
    my ($room, $label, $seats, @has) = @$words;
    my ($first, $last, $end) = list_of(@pieces);
    my $is_empty = $first == $last;
    my $before = substr $pieces[$last], 0, $end - 1;
    my $after = substr $pieces[$last], $end - 1;
    my ($space) = $before =~ /(\s*)\z/;
    $before =~ s/\s*\z//;
    s/(["\\])/\\$1/g for $label, @has;
    my $indent = "$space  ";
    my $more = defined $seats ? ", \"seats\": $seats" : '';
    $more .= ', "has": [' . join(', ', map { "\"$_\"" } @has) . ']' if @has;
    $pieces[$last] = $before . ($is_empty ? '' : ',') . "$indent\{ \"name\": \"$room\", \"label\": \"$label\"$more }$space$after";
    return join '', @pieces;
}

my ($file, @room) = @ARGV;
open my $lines, '<', $file // '' or fail("it can't be read: $!");
my @pieces = pieces(do { local $/; <$lines> // '' });
if   (@room >= 2) { print with_room(\@room, @pieces) }
else              { show(@pieces) }
