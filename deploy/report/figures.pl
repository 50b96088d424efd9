# What rooms are used for, counted by room, month and day of the week: of the replies to `calendar` and `errors`, which any replica gives, and,
# for what merges did, of the news of this office. Read by rooms-report, whose function `ask` gives what the program prints.
#
# A count is a reference to a hash with the keys below, in minutes where they are of time. A booking counts in the month of its day: `booked` are
# its minutes within the open hours, `outside` the others.
use strict;

our @COUNTS = qw(open booked outside bookings no_room moved lost);
our @WEEKDAYS = qw(Monday Tuesday Wednesday Thursday Friday Saturday Sunday);

my $DAY = qr/\d{4}-\d\d-\d\d/;
my $HOURS = qr/(\d\d):(\d\d)-(\d\d):(\d\d)/;

# The place of a day's name in the week, by the days before its year and its month.
sub weekday_of {
    my ($year, $month, $day) = split /-/, $_[0];
    $year-- if $month < 3;
    return ($year + int($year / 4) - int($year / 100) + int($year / 400) + (6, 2, 1, 4, 6, 2, 4, 0, 3, 5, 1, 3)[ $month - 1 ] + $day) % 7;
}

sub month_after {
    my ($year, $month) = split /-/, $_[0];
    return $month == 12 ? sprintf('%04d-01', $year + 1) : sprintf('%04d-%02d', $year, $month + 1);
}

sub days_of {
    my ($year, $month) = split /-/, $_[0];
    my $days = (31, 28, 31, 30, 31, 30, 31, 31, 30, 31, 30, 31)[ $month - 1 ];
    $days++ if $month == 2 and $year % 4 == 0 and ($year % 100 or $year % 400 == 0);
    return map { sprintf '%s-%02d', $_[0], $_ } 1 .. $days;
}

sub shared {
    my ($start, $stop, $from, $to) = @_;
    my $first = $start > $from ? $start : $from;
    my $last = $stop < $to ? $stop : $to;
    return $last > $first ? $last - $first : 0;
}

# What is counted of one room, into $count->(day), which gives the count that a day belongs to.
sub count_room {
    my ($room, $hours, $news, $count) = @_;
    my $calendar = ask('calendar', $room, 'full');
    my $errors = ask('errors', $room);
    # a room that stands on the page alone
    return if $calendar =~ /\Arefused 7 /;
    die "the calendar of $room can't be read\n" unless $calendar =~ /\A\Q$room\E full\n/ and $errors =~ /\A\Q$room\E errors\n/;
    while ($calendar =~ /^($DAY) $HOURS [CT] /mg) {
        my ($day, $start, $stop) = ($1, 60 * $2 + $3, 60 * $4 + $5);
        my $it = $count->($day) or next;
        my $within = $hours->{is_open}[ weekday_of($day) ] ? shared($start, $stop, $hours->{from}, $hours->{to}) : 0;
        $it->{booked} += $within;
        $it->{outside} += $stop - $start - $within;
        $it->{bookings}++;
    }
    my %withdrawn = map { $_ => 1 } $errors =~ /^[CT] \d+-\d+ cancel (\d+-\d+)$/mg;
    while ($errors =~ /^[CT] (\d+-\d+) ($DAY) $HOURS /mg) {
        my $it = $withdrawn{$1} ? undef : $count->($2);
        $it->{no_room}++ if $it;
    }
    for my $item (grep { $_->{room} eq $room } @$news) {
        my $it = $count->($item->{from});
        $it->{ $item->{kind} }++ if $it;
    }
}

# The counts of all rooms in these months: by room, month, and the place of the day in the week.
sub count_all {
    my ($rooms, $hours, $months, $news) = @_;
    my %counts;
    for my $room (@$rooms) {
        for my $month (@$months) {
            my @of = map { { map { $_ => 0 } @COUNTS } } @WEEKDAYS;
            for (map { weekday_of($_) } days_of($month)) { $of[$_]{open} += $hours->{to} - $hours->{from} if $hours->{is_open}[$_] }
            $counts{$room}{$month} = \@of;
        }
        my $of_day = sub {
            my $month = $counts{$room}{ substr $_[0], 0, 7 };
            return $month && $month->[ weekday_of($_[0]) ];
        };
        count_room($room, $hours, $news, $of_day);
    }
    return \%counts;
}

# The sum of the counts for which this holds, called with room, month and the place of the day in the week.
sub sum_of {
    my ($counts, $holds) = @_;
    my %sum = map { $_ => 0 } @COUNTS;
    for my $room (keys %$counts) {
        for my $month (keys %{ $counts->{$room} }) {
            for my $place (grep { $holds->($room, $month, $_) } 0 .. 6) {
                $sum{$_} += $counts->{$room}{$month}[$place]{$_} for @COUNTS;
            }
        }
    }
    return \%sum;
}

1;
