# Days, times, rooms and titles as people and other programs write them, as at the page (written.js, texts.js, zones.js).
use strict;
use utf8;
use POSIX ();
use Unicode::Normalize ();

our ($zone, %rooms, $elsewhere);

my %plain = (
    'ä' => 'ae', 'ö' => 'oe', 'ü' => 'ue', 'Ä' => 'Ae', 'Ö' => 'Oe', 'Ü' => 'Ue', 'ß' => 'ss', 'ẞ' => 'SS', 'æ' => 'ae', 'Æ' => 'Ae', 'œ' => 'oe', 'Œ' => 'Oe',
    'ø' => 'oe', 'Ø' => 'Oe', 'ł' => 'l', 'Ł' => 'L', 'đ' => 'd', 'Đ' => 'D', 'ð' => 'd', 'Ð' => 'D', 'þ' => 'th', 'Þ' => 'Th', 'ı' => 'i', '‘' => "'", '’' => "'",
    '‚' => ',', '“' => '"', '”' => '"', '„' => '"', '«' => '"', '»' => '"', '–' => '-', '—' => '-', '…' => '...', '€' => 'EUR', '£' => 'GBP', '×' => 'x', '·' => '-', '•' => '-',
);

# The title in the letters that can be kept; a letter of another script is left out.
sub plain_title {
    my $spelt = join '', map { $plain{$_} // $_ } split //, Unicode::Normalize::NFC($_[0]);
    return Unicode::Normalize::NFKD($spelt) =~ s/\s+/ /gr =~ s/[^ -~]//gr =~ s/^ +| +$//gr;
}

# What is quoted of a file, in one line.
sub quoted_word { return "'" . $_[0] =~ s/[\x00-\x1f\x7f-\x9f]/?/gr . "'" }

# A day as 2026-06-30 is one of 1990 to 2099.
sub is_day {
    my ($year, $month, $day) = $_[0] =~ /\A(\d{4})-(\d\d)-(\d\d)\z/ or return 0;
    return $year >= 1990 && $year <= 2099 && $month >= 1 && $month <= 12 && $day >= 1 && $day <= days_of_month($year, $month);
}

sub days_of_month {
    my ($year, $month) = @_;
    return $month == 2 ? ($year % 4 == 0 && ($year % 100 != 0 || $year % 400 == 0) ? 29 : 28) : $month =~ /^0?[469]$|^11$/ ? 30 : 31;
}

# 2026-06-30, 20260630 or 30.6.2026; nothing where it isn't sure.
sub day_written {
    my ($text) = @_;
    my $read =
        $text =~ /\A(\d{4})-?(\d\d)-?(\d\d)\z/ ? "$1-$2-$3"
      : $text =~ /\A(\d{1,2})\. ?(\d{1,2})\. ?(\d{4})\z/ ? sprintf('%s-%02d-%02d', $3, $2, $1)
      :                                                    '';
    return is_day($read) ? $read : '';
}

# 9:00, 09:00, 09.00 or 09:00:00, and as a stop 24:00, in minutes; or -1.
sub minute_written {
    my ($hour, $minute) = $_[0] =~ /\A(\d{1,2})[:.](\d\d)(?::00)?\z/ or return -1;
    return $minute < 60 && 60 * $hour + $minute <= 1440 ? 60 * $hour + $minute : -1;
}

sub time_text { return sprintf '%02d:%02d', int($_[0] / 60), $_[0] % 60 }
sub minute_of { return 60 * substr($_[0], 0, 2) + substr($_[0], 3, 2) }

# The start and the minutes that are meant by a start and a stop, or a start and a length; or what is wrong.
sub hours_written {
    my ($start, $stop, $length) = @_;
    my ($from, $to) = (minute_written($start), $stop ne '' ? minute_written($stop) : -1);
    return (trouble => quoted_word($start) . ' is no time of day') if $from < 0 or $from == 1440;
    return (trouble => quoted_word($stop) . ' is no time of day') if $stop ne '' and $to < 0;
    return (trouble => $length eq '' ? 'it has neither a stop nor a length' : quoted_word($length) . ' is no length in minutes')
      if $stop eq '' and $length !~ /\A[0-9]{1,4}\z/;
    my $minutes = $stop ne '' ? $to - $from : $length;
    return (trouble => 'its length and its stop are not the same') if $stop ne '' and $length ne '' and $length ne $minutes;
    return (trouble => 'it ends before it begins') if $minutes < 1;
    return (trouble => 'a meeting ends at midnight at the latest') if $from + $minutes > 1440;
    return (start => time_text($from), length => $minutes + 0);
}

# The room that is meant by its name or its label; nothing where no room, or more than one, has it.
sub room_written {
    my $plain = lc($_[0] =~ s/^\s+|\s+$//gr);
    return $plain if exists $rooms{$plain} or (!%rooms and $plain =~ /\A[a-z0-9-]{1,16}\z/);
    my @found = grep { lc($rooms{$_} =~ s/^\s+|\s+$//gr) eq $plain } keys %rooms;
    return @found == 1 ? $found[0] : '';
}

# ---- days and clocks

# Days since 1970 of a civil day; years begin in March here, so that the day of a leap year is the last.
sub number_of_day {
    my ($year, $month, $day) = split /-/, $_[0];
    $year-- if $month <= 2;
    my $of_year = int((153 * ($month + ($month > 2 ? -3 : 9)) + 2) / 5) + $day - 1;
    return 365 * $year + int($year / 4) - int($year / 100) + int($year / 400) + $of_year - 719468;
}

sub day_beside {
    my ($day, $step) = @_;
    return POSIX::strftime('%Y-%m-%d', gmtime 86400 * (number_of_day($day) + $step));
}

# The weekday of a day, from 1 for Monday to 7.
sub weekday_of { return (number_of_day($_[0]) + 3) % 7 + 1 }

# Names of Windows for zones of these parts, as Outlook writes them.
my %of_windows = (
    'W. Europe Standard Time' => 'Europe/Berlin', 'Central Europe Standard Time' => 'Europe/Budapest', 'Central European Standard Time' => 'Europe/Warsaw',
    'Romance Standard Time' => 'Europe/Paris', 'GMT Standard Time' => 'Europe/London', 'E. Europe Standard Time' => 'Europe/Chisinau', 'FLE Standard Time' => 'Europe/Kiev',
    'GTB Standard Time' => 'Europe/Bucharest', 'Turkey Standard Time' => 'Europe/Istanbul', 'Russian Standard Time' => 'Europe/Moscow',
    'Eastern Standard Time' => 'America/New_York', 'Central Standard Time' => 'America/Chicago', 'Pacific Standard Time' => 'America/Los_Angeles',
);

sub zone_named {
    my $name = $of_windows{ $_[0] } // $_[0];
    return $name if $name eq 'UTC' or ($name =~ m,\A[A-Za-z0-9_+-]+(/[A-Za-z0-9_+-]+)*\z, and -f "/usr/share/zoneinfo/$name");
    return '';
}

sub in_zone {
    my ($name, $act) = @_;
    local $ENV{TZ} = $name if $name ne '';
    POSIX::tzset();
    my @result = $act->();
    return @result;
}

# The day and time by the clocks of $there when it is this day and time by those of $here.
sub at_other_clock {
    my ($day, $time, $here, $there) = @_;
    return ($day, $time) if $here eq $there;
    my ($year, $month, $date) = split /-/, $day;
    my ($moment) = in_zone($here, sub { POSIX::mktime(0, substr($time, 3, 2), substr($time, 0, 2), $date, $month - 1, $year - 1900, 0, 0, -1) });
    my ($text) = in_zone($there, sub { POSIX::strftime('%Y-%m-%d %H:%M', localtime $moment) });
    POSIX::tzset();
    return split / /, $text;
}

# The day and the minute of now by the clocks of the rooms.
sub now_of_rooms {
    my ($text) = in_zone($zone, sub { POSIX::strftime('%Y-%m-%d %H:%M', localtime) });
    POSIX::tzset();
    my ($day, $time) = split / /, $text;
    return ($day, minute_of($time));
}

1;
