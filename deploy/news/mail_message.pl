# A message to whoever booked, as RFC 5322 and MIME have it: header fields that hold whatever a title or a label has, a text, and a part that calendar
# programs read (iCalendar, RFC 5545 and 5546). Read by mail.pl. All texts are bytes, in UTF-8.
use strict;

# ---- texts

# What isn't UTF-8, and what steers a terminal or ends a line, is shown as a question mark.
sub clean {
    my ($text) = @_;
    my $letters = $text;
    $text =~ s/[\x80-\xff]/?/g unless utf8::decode($letters);
    return $text =~ s/[\x00-\x1f\x7f]/?/gr;
}

# The letters of a text, each with all its bytes.
sub letters { return $_[0] =~ /([\x00-\x7f]|[\xc0-\xff][\x80-\xbf]*)/g }

# A text in words as RFC 2047 has them, if it has anything but plain letters; with the name of the field in front each makes a line of at most 76 letters.
sub encoded_words {
    my ($text) = @_;
    my @words = ('');
    for my $letter (letters($text)) {
        my $code = $letter =~ /^[A-Za-z0-9]$/ ? $letter : $letter eq ' ' ? '_' : join '', map { sprintf '=%02X', ord } split //, $letter;
        push @words, '' if length("$words[-1]$code") > 54;
        $words[-1] .= $code;
    }
    return map { "=?UTF-8?Q?$_?=" } @words;
}

sub is_plain { return $_[0] =~ /^[\x20-\x7e]*$/ && $_[0] !~ /=\?/ }

# A header field, of lines of at most 78 letters where its words allow it.
sub field {
    my ($name, @words) = @_;
    my @lines = ("$name:");
    for (@words) {
        push @lines, '' if length($lines[-1]) + 1 + length > 78 && $lines[-1] ne "$name:";
        $lines[-1] .= " $_";
    }
    return join "\n", @lines, '';
}

sub text_field {
    my ($name, $text) = @_;
    return field($name, is_plain($text) ? split(' ', $text) : encoded_words($text));
}

# Whom a message is from: an address with a name in front of it.
sub mailbox_field {
    my ($name, $text, $address) = @_;
    return field($name, is_plain($text) ? '"' . $text =~ s/(["\\])/\\$1/gr . '"' : encoded_words($text), "<$address>");
}

sub date_field {
    my ($second, $minute, $hour, $day, $month, $year, $weekday) = gmtime $_[0];
    my $name = (qw(Sun Mon Tue Wed Thu Fri Sat))[$weekday] . sprintf ', %02d ', $day;
    return field('Date', $name . (qw(Jan Feb Mar Apr May Jun Jul Aug Sep Oct Nov Dec))[$month] . sprintf ' %04d %02d:%02d:%02d +0000', $year + 1900, $hour, $minute, $second);
}

# Lines in the form quoted-printable: seven bits, and at most 76 letters.
sub quoted_printable {
    my ($text) = @_;
    my @lines;
    for my $line (split /\n/, $text) {
        # what an old mail program takes for the beginning or the end of a mail isn't at the beginning of a line
        my $out = $line =~ s/^([F.])(?=rom |(?<=\.))// ? sprintf '=%02X', ord $1 : '';
        for my $byte (split //, $line) {
            my $code = $byte =~ /^[\x20-\x3c\x3e-\x7e]$/ ? $byte : sprintf '=%02X', ord $byte;
            if (length("$out$code") > 75) { push @lines, "$out="; $out = '' }
            $out .= $code;
        }
        push @lines, $out =~ s/ $/=20/r;
    }
    return join "\n", @lines, '';
}

# ---- the part for calendar programs

sub unfolded { return $_[0] =~ s/\r//gr =~ s/\n //gr }

# Lines of at most 75 bytes, which end in CR LF once quoted-printable is undone; no letter is cut.
sub folded_line {
    my @lines = ('');
    for my $letter (letters($_[0])) {
        push @lines, ' ' if length("$lines[-1]$letter") > 75;
        $lines[-1] .= $letter;
    }
    return join "\n", @lines;
}

# The event of a request in the calendar of its room, as a message of its own, or nothing where that has it not in this slot: `slot` is a day and
# hours, or empty for what is to be taken out again.
sub event_part {
    my ($calendar, $uid, $slot, $organizer) = @_;
    my $text = unfolded($calendar);
    my ($event) = grep { /^UID:\Q$uid\E$/m } $text =~ /^(BEGIN:VEVENT\n.*?^END:VEVENT\n)/msg or return;
    my $start = $slot =~ /^(\d+)-(\d+)-(\d+) (\d+):(\d+)/ ? "$1$2$3T$4${5}00" : '';
    return if $start ? $event !~ /^DTSTART[^:]*:$start$/m || $event =~ /^STATUS:CANCELLED$/m : $event !~ /^STATUS:CANCELLED$/m;
    my $zone = $event =~ /;TZID=/ ? join '', $text =~ /^(BEGIN:VTIMEZONE\n.*?^END:VTIMEZONE\n)/msg : '';
    my $method = $start ? 'PUBLISH' : 'CANCEL';
    $event =~ s/^(UID:.*\n)/$1ORGANIZER:mailto:$organizer\n/m;
    my @lines = split /\n/, "BEGIN:VCALENDAR\nVERSION:2.0\nPRODID:-//Yavrumni//rooms//EN\nMETHOD:$method\n$zone${event}END:VCALENDAR";
    return "Content-Type: text/calendar; charset=utf-8; method=$method;\n name=\"meeting.ics\"\n"
        . "Content-Disposition: attachment; filename=\"meeting.ics\"\nContent-Transfer-Encoding: quoted-printable\n\n"
        . quoted_printable(join "\n", map { folded_line($_) } @lines);
}

# ---- the whole

# A message of these header fields, a text, and an event or none. What stands between the parts can't stand in them: no `=_` is quoted-printable.
sub message {
    my ($head, $text, $event) = @_;
    my $plain = "Content-Type: text/plain; charset=utf-8\nContent-Transfer-Encoding: quoted-printable\n";
    return "$head$plain\n" . quoted_printable($text) unless $event;
    return "${head}Content-Type: multipart/mixed; boundary=\"=_rooms\"\n\n--=_rooms\n$plain\n" . quoted_printable($text) . "\n--=_rooms\n$event\n--=_rooms--\n";
}

1;
