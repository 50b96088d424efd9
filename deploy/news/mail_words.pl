# What a mail says, in words: of a request's news, a hash with its `kind`, the state that it is in now (`room`, `place`, `by`, `mark`, `wish`, `title`), the slot
# `before`, and the room's `label`, the `zone` and the `office`. Read by mail.pl.
use strict;

# What rooms.json says: the office's name, the zone of its clocks, and the labels of its rooms.
sub read_office {
    my ($file) = @_;
    my $text = join "\n", read_lines($file);
    my %office = (name => string_of($text, 'office') // 'Rooms', zone => string_of($text, 'zone') // '', labels => {});
    $office{labels}{ $_->[0] } = $_->[1] for rooms_of_page($file);
    return \%office;
}

sub string_of {
    my ($text, $word) = @_;
    my ($string) = $text =~ /"\Q$word\E"\s*:\s*"((?:[^"\\]|\\.)*)"/ or return;
    $string =~ s/\\u([0-9a-fA-F]{4})/my $letter = chr hex $1; utf8::encode($letter); $letter/ge;
    return $string =~ s/\\(.)/$1/gr;
}

# 2030-03-04 13:00-14:00 as Mon 2030-03-04, 13:00 to 14:00
sub slot_words {
    my ($year, $month, $day, $from, $to) = $_[0] =~ /^(\d+)-(\d+)-(\d+) ([\d:]+)-([\d:]+)/ or return 'no time';
    my $y = $year - ($month < 3);
    my @before = (0, 3, 2, 5, 0, 3, 5, 1, 4, 6, 2, 4);
    my $weekday = ($y + int($y / 4) - int($y / 100) + int($y / 400) + $before[$month - 1] + $day) % 7;
    return (qw(Sun Mon Tue Wed Thu Fri Sat))[$weekday] . " $year-$month-$day, $from to $to";
}

my %heads = (booked => 'Booked, not final yet', final => 'Final', moved => 'Moved', lost => 'No room any more', found => 'It has a room', cancelled => 'Cancelled',
    without => 'No room, for good');

# The slot that a mail is about; nothing, and no title, where it was cancelled before the service saw it.
sub slot_of_news {
    my ($news) = @_;
    my ($slot) = grep { /^\d/ } @$news{qw(place before wish)};
    return $slot // '';
}

sub subject_of {
    my ($news) = @_;
    return "$heads{ $news->{kind} }: " . join ', ', grep { length } $news->{title}, $news->{label}, map { /./ ? slot_words($_) : '' } slot_of_news($news);
}

# Whose cancel it was: the number in front of an id is that of the office.
sub canceller {
    my ($news) = @_;
    my ($server) = $news->{by} =~ /^(\d+)-/ or return '';
    return $news->{id} =~ /^$server-/ ? "at this office (request $news->{by})" : "at another office, of the number $server (request $news->{by})";
}

# What became of it, and what may become of it.
sub what_became {
    my ($news) = @_;
    my ($kind, $before) = ($news->{kind}, slot_words($news->{before}));
    my $had = $news->{before} =~ /^\d/;
    return 'It is booked.' if $kind eq 'booked';
    return 'It is final: it stays, unless somebody cancels it.' if $kind eq 'final';
    return "It moved. Before, it had $before." if $kind eq 'moved';
    return ($had ? "It had $before, and lost it" : 'It has no room: its time went') . ' to an earlier request.' if $kind eq 'lost';
    return 'It has a room now.' if $kind eq 'found';
    return 'It was cancelled ' . canceller($news) . '.' if $kind eq 'cancelled';
    return 'It gets no room any more. Ask for another time.';
}

sub what_may_be {
    my ($news) = @_;
    return () if $news->{kind} =~ /^(final|without)$/;
    return 'That is final' . ($news->{place} =~ /^\d/ ? ': it stays, unless somebody cancels it.' : '.') if $news->{mark} eq 'C';
    return 'That may still change until the offices have met.' if $news->{kind} eq 'cancelled';
    return 'It may still get a room until the offices have met. If you can do without it, have it withdrawn.' if $news->{place} eq 'none';
    return 'It is not final yet: until the offices have met it may move or lose its room. You get a mail if it does, and one when it is final.';
}

sub text_lines {
    my ($news) = @_;
    my $slot = slot_of_news($news);
    my $is_there = $news->{place} =~ /^\d/;
    return (length $news->{title} ? $news->{title} : "Request $news->{id}", $news->{label} . ($slot ? ', ' . ($is_there ? '' : $slot eq $news->{before} ? 'before: ' : 'asked for: ') . slot_words($slot) : '')
        . ($slot && $news->{zone} ? " ($news->{zone})" : ''), '', join(' ', what_became($news), what_may_be($news)), '',
        "Request $news->{id}, $news->{office}. This address was given for it, and gets what becomes of it, until its day is over. If you know nothing of it, tell the desk.");
}

1;
