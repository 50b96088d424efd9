# The events of a calendar file (iCalendar, RFC 5545) as wishes, by the clocks of the rooms, as at the page (readical.js).
use strict;
use utf8;

our ($zone);
my $year = 366;
my %is_event = map { $_ => 1 } qw(VEVENT VTODO VJOURNAL);

# The lines with those that were folded made whole, each with the number of its first.
sub ical_lines {
    my ($line, @lines) = (0);
    for my $words (split /\r\n|\n|\r/, $_[0]) {
        $line++;
        if (@lines and $words =~ s/^[ \t]//) { $lines[-1]{words} .= $words } else { push @lines, { line => $line, words => $words } }
    }
    return @lines;
}

# A line in its parts: a name, parameters and a value.
sub ical_part {
    my ($name, $rest, $value) = $_[0] =~ /^([A-Za-z0-9-]+)((?:;[^:";]+=(?:"[^"]*"|[^":;]*)(?:,(?:"[^"]*"|[^":;,]*))*)*):(.*)$/s or return;
    my %parameters;
    while ($rest =~ /;([^=;]+)=("[^"]*"|[^;]*)/g) { my ($key, $text) = ($1, $2); $parameters{ uc $key } = $text =~ s/^"|"$//gr }
    return { name => uc $name, parameters => \%parameters, value => $value };
}

sub ical_words { return $_[0] =~ s/\\([nN;,\\])/lc $1 eq 'n' ? ' ' : $1/ger =~ s/\s+/ /gr =~ s/^ | $//gr }

# The events, each with the properties that matter, and the number of its first line.
sub ical_events {
    my (@events, @within);
    for my $each (ical_lines($_[0])) {
        my $part = ical_part($each->{words}) or next;
        my $name = uc $part->{value};
        if ($part->{name} eq 'BEGIN') {
            push @within, $name;
            push @events, { line => $each->{line}, kind => $name, EXDATE => [], RDATE => [] } if $is_event{$name};
        }
        elsif ($part->{name} eq 'END') {
            return @events if (pop @within // '') ne $name;
            $events[-1]{is_whole} = 1 if $is_event{$name};
        }
        elsif (@within and $within[-1] eq 'VEVENT') {
            my $event = $events[-1];
            if ($part->{name} =~ /^(EXDATE|RDATE)$/) { push @{ $event->{$1} }, $part }
            elsif (!$event->{ $part->{name} }) { $event->{ $part->{name} } = $part }
            elsif ($part->{name} eq 'RRULE')   { $event->{has_more} = 1 }
        }
    }
    return @events;
}

# The moment that a property names, as a day and a time of its zone; or what is wrong with it.
sub ical_moment {
    my ($part) = @_;
    my ($y, $m, $d, $hour, $minute, $second, $is_utc) = $part->{value} =~ /\A(\d{4})(\d\d)(\d\d)(?:T(\d\d)(\d\d)(\d\d)(Z)?)?\z/;
    my $is_none = !defined $y || $m < 1 || $m > 12 || $d < 1 || $d > days_of_month($y, $m) || (defined $hour && ($hour > 23 || $minute > 59));
    return { trouble => quoted_word($part->{value}) . ' is no moment' } if $is_none;
    return { trouble => 'it is of whole days, and a booking has hours' } unless defined $hour;
    return { trouble => 'it does not begin and end at a whole minute' } if $second ne '00';
    my $name = $is_utc ? 'UTC' : $part->{parameters}{TZID} // '';
    my $own = $name ne '' ? zone_named($name) : $zone;
    return { trouble => 'its zone ' . quoted_word($name) . ' is not known' } if $name ne '' and $own eq '';
    return { day => "$y-$m-$d", time => "$hour:$minute", zone => $own };
}

# Minutes of a duration as PT1H30M, or -1.
sub ical_duration {
    my ($weeks, $days, $hours, $minutes) = $_[0] =~ /\A\+?P(?:(\d+)W|(?:(\d+)D)?(?:T(?:(\d+)H)?(?:(\d+)M)?(?:0+S)?)?)\z/ or return -1;
    return 10080 * ($weeks // 0) + 1440 * ($days // 0) + 60 * ($hours // 0) + ($minutes // 0) || -1;
}

# How long an event is, by its own clock; or, as the second value, what is wrong with it.
sub ical_length {
    my ($event, $begin) = @_;
    if (my $duration = $event->{DURATION}) {
        my $length = ical_duration($duration->{value});
        return $length > 0 ? $length : (0, quoted_word($duration->{value}) . ' is no duration');
    }
    return (0, 'it has neither an end nor a duration') unless $event->{DTEND};
    my $end = ical_moment($event->{DTEND});
    return (0, $end->{trouble}) if defined $end->{trouble};
    my ($day, $time) = at_other_clock(@$end{qw(day time zone)}, $begin->{zone});
    return 1440 * (number_of_day($day) - number_of_day($begin->{day})) + minute_of($time) - minute_of($begin->{time});
}

sub ical_title { my ($event) = @_; return $event->{SUMMARY} ? ical_words($event->{SUMMARY}{value}) : '' }

# A wish for an event that begins on this day by its own clock.
sub ical_wish {
    my ($event, $begin, $day, $length, $key) = @_;
    my ($at, $time) = at_other_clock($day, @$begin{qw(time zone)}, $zone);
    my $place = $event->{LOCATION} ? ical_words($event->{LOCATION}{value}) : '';
    my %wish = (line => $event->{line}, place => $place, title => ical_title($event), key => $key, day => $at, start => $time, length => $length);
    return { %wish, trouble => 'it ends before it begins' } if $length < 1;
    return { %wish, trouble => 'it goes on over midnight, and a booking ends there at the latest' } if minute_of($time) + $length > 1440;
    return \%wish;
}

# A moment that is left out, by the clock of the event; nothing where it is none.
sub ical_left_out {
    my ($part, $value, $begin) = @_;
    $value .= 'T' . $begin->{time} =~ s/://r . '00' unless $value =~ /T/;
    my $moment = ical_moment({ %$part, value => $value });
    return if defined $moment->{trouble};
    return join ' ', at_other_clock(@$moment{qw(day time zone)}, $begin->{zone});
}

# The wishes of an event: one, or one for each time that it recurs, but for those that are left out or that other events of the file stand for.
sub ical_wishes_of {
    my ($event, @others) = @_;
    my $bad = sub { return { line => $event->{line}, place => '', title => ical_title($event), day => '', start => '', length => 0, key => '', trouble => $_[0] } };
    return $bad->("a $event->{kind} is no meeting") if $event->{kind} ne 'VEVENT';
    return $bad->('it is cut off') unless $event->{is_whole};
    my $instead = $event->{'RECURRENCE-ID'};
    if ($event->{STATUS} and uc $event->{STATUS}{value} eq 'CANCELLED') { return $instead ? () : $bad->('it is cancelled') }
    return $bad->('it has no start') unless $event->{DTSTART};
    my $begin = ical_moment($event->{DTSTART});
    return $bad->($begin->{trouble}) if defined $begin->{trouble};
    my ($length, $trouble) = ical_length($event, $begin);
    return $bad->($trouble) if defined $trouble;
    return $bad->("it recurs by more than one rule, which can't be read here") if $event->{has_more} or @{ $event->{RDATE} };
    my $uid = $event->{UID} ? $event->{UID}{value} : '';
    return ical_wish($event, $begin, $begin->{day}, $length, $uid ne '' && $instead ? "$uid\@$instead->{value}" : $uid) unless $event->{RRULE};
    my ($today) = now_of_rooms();
    my ($days, $is_endless, $of_rule) = days_of_rule($event->{RRULE}{value}, $begin->{day}, day_beside($today gt $begin->{day} ? $today : $begin->{day}, $year));
    return $bad->($of_rule) if defined $of_rule;
    my %is_left = map { my $part = $_; map { (ical_left_out($part, $_, $begin) // '') => 1 } split /,/, $part->{value} } @{ $event->{EXDATE} }, @others;
    my @wishes = map { ical_wish($event, $begin, $_, $length, $uid eq '' ? '' : "$uid\@${_}T$begin->{time}") } grep { !$is_left{"$_ $begin->{time}"} } @$days;
    if ($is_endless) { $_->{note} = 'it recurs without an end: those of a year are in the list' for @wishes }
    return @wishes;
}

# The wishes of a file; or, as the second value, what is wrong with all of it.
sub ical_wishes {
    my @events = ical_events($_[0]) or return ([], 'The file has no event');
    my %overrides;
    for my $event (@events) { push @{ $overrides{ $event->{UID}{value} } }, $event->{'RECURRENCE-ID'} if $event->{'RECURRENCE-ID'} and $event->{UID} }
    return [ map { ical_wishes_of($_, $_->{UID} && !$_->{'RECURRENCE-ID'} ? @{ $overrides{ $_->{UID}{value} } // [] } : ()) } @events ];
}

1;
