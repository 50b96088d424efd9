# The days of an event that recurs, by its rule (RRULE of iCalendar), as at the page (recurs.js).
use strict;
use utf8;

my @days = qw(MO TU WE TH FR SA SU);
my %known = map { $_ => 1 } qw(FREQ INTERVAL COUNT UNTIL BYDAY BYMONTHDAY BYMONTH WKST);
my $most_times = 1000;

sub place_of_day { my ($name) = @_; my ($place) = grep { $days[$_] eq $name } 0 .. 6; return $place + 1 }

# The rule in its parts, or, as the second value, what is wrong with it.
sub read_rule {
    my %part = map { split /=/, $_, 2 } grep { /=/ } split /;/, uc $_[0];
    my ($strange) = grep { !$known{$_} } sort keys %part;
    return (undef, "its rule has $strange, which can't be read here") if defined $strange;
    return (undef, 'its rule has no such FREQ: ' . ($part{FREQ} // '')) unless ($part{FREQ} // '') =~ /\A(DAILY|WEEKLY|MONTHLY|YEARLY)\z/;
    my (@weekdays, $is_strange);
    for my $word (grep { $_ ne '' } split /,/, $part{BYDAY} // '') {
        if ($word =~ /\A([+-]?\d{1,2})?(MO|TU|WE|TH|FR|SA|SU)\z/) { push @weekdays, { turn => ($1 // 0) + 0, number => place_of_day($2) } } else { $is_strange = 1 }
    }
    $is_strange ||= ($part{FREQ} ne 'MONTHLY' && grep { $_->{turn} } @weekdays) || ($part{FREQ} eq 'YEARLY' && ($part{BYDAY} // $part{BYMONTHDAY} // '') ne '');
    $is_strange ||= ($part{INTERVAL} // '1') !~ /\A[1-9]\d{0,2}\z/ || ($part{COUNT} // '1') !~ /\A\d{1,6}\z/ || ($part{UNTIL} // '20000101') !~ /\A\d{8}/;
    return (undef, "its rule can't be read here") if $is_strange;
    my %rule = (
        freq => $part{FREQ}, every => $part{INTERVAL} // 1, count => $part{COUNT}, until => ($part{UNTIL} // '') =~ /\A(\d{4})(\d\d)(\d\d)/ ? "$1-$2-$3" : '',
        monday => place_of_day(($part{WKST} // '') =~ /\A(MO|TU|WE|TH|FR|SA|SU)\z/ ? $1 : 'MO'), weekdays => \@weekdays,
        dates => [ split /,/, $part{BYMONTHDAY} // '' ], months => [ split /,/, $part{BYMONTH} // '' ],
    );
    return \%rule;
}

# Whether a day is on one of these weekdays: each of them in its month, or, with a turn, the so-manieth one, from the end if it is below 0.
sub is_on_weekday {
    my ($day, @weekdays) = @_;
    my ($year, $month, $date) = map { $_ + 0 } split /-/, $day;
    my $from_end = days_of_month($year, $month) - $date + 1;
    for my $each (@weekdays) {
        next if weekday_of($day) != $each->{number};
        return 1 if $each->{turn} == 0 or $each->{turn} == int(($date + 6) / 7) or $each->{turn} == -int(($from_end + 6) / 7);
    }
    return 0;
}

# The days of the so-manieth period behind that of the first day: of a day, a week, a month or a year.
sub days_of_period {
    my ($first, $rule, $turn) = @_;
    my $step = $turn * $rule->{every};
    my @weekdays = @{ $rule->{weekdays} };
    return grep { !@weekdays or is_on_weekday($_, @weekdays) } day_beside($first, $step) if $rule->{freq} eq 'DAILY';
    if ($rule->{freq} eq 'WEEKLY') {
        my $begin = day_beside($first, 7 * $step - (weekday_of($first) - $rule->{monday}) % 7);
        return grep { @weekdays ? is_on_weekday($_, @weekdays) : weekday_of($_) == weekday_of($first) } map { day_beside($begin, $_) } 0 .. 6;
    }
    my ($year, $month, $date) = map { $_ + 0 } split /-/, $first;
    my $months = $rule->{freq} eq 'MONTHLY' ? $month - 1 + $step : 12 * $step + $month - 1;
    ($year, $month) = ($year + int($months / 12), $months % 12 + 1);
    my $last = days_of_month($year, $month);
    my @month = map { sprintf '%04d-%02d-%02d', $year, $month, $_ } 1 .. $last;
    return grep { is_on_weekday($_, @weekdays) } @month if @weekdays;
    my %is_date = map { ($_ > 0 ? $_ : $last + 1 + $_) => 1 } @{ $rule->{dates} } ? @{ $rule->{dates} } : $date;
    return grep { $is_date{ substr($_, 8) + 0 } } @month;
}

# The days on which it is, and whether it has no end of its own: then those up to the horizon. Or, as the third value, what is wrong.
sub days_of_rule {
    my ($text, $first, $horizon) = @_;
    my ($rule, $trouble) = read_rule($text);
    return ([], 0, $trouble) if defined $trouble;
    my $is_endless = $rule->{until} eq '' && !defined $rule->{count};
    my $last = $is_endless ? $horizon : $rule->{until} ne '' ? $rule->{until} : '2099-12-31';
    my %is_month = map { $_ + 0 => 1 } @{ $rule->{months} };
    my ($counted, @found) = (0);
    for my $turn (0 .. 20000) {
        for my $day (days_of_period($first, $rule, $turn)) {
            next if $day lt $first or (%is_month and !$is_month{ substr($day, 5, 2) + 0 });
            return (\@found, $is_endless) if $day gt $last or ++$counted > ($rule->{count} // 1e9);
            push @found, $day;
            return ([], 0, "it recurs more than $most_times times") if @found > $most_times;
        }
        my $days = { DAILY => 1, WEEKLY => 7, MONTHLY => 28, YEARLY => 365 }->{ $rule->{freq} };
        last if day_beside($first, $turn * $rule->{every} * $days) gt $last or day_beside($first, $turn * $rule->{every}) ge '2099-12-31';
    }
    return (\@found, $is_endless);
}

1;
